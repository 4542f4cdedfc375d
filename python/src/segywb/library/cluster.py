"""The workers of a Dask cluster: one that runs, or one of this machine. What is read there has to be seen there under the same path."""

from __future__ import annotations

import importlib
import os
import signal
import threading
import time
from typing import Any, Dict, List, NamedTuple, Optional

from .facts import Facts, Task, failed
from .reading import limit_of, read_many

dask: Any = importlib.import_module("distributed")  # has no types

AHEAD = 2
LOOK_SECONDS = 5.0
GRACE_SECONDS = 60.0
RESULT_SECONDS = 60.0
CLOSE_SECONDS = 30.0
REVIVE_SECONDS = 15.0
DIED = "the worker that read it died"


class Given(NamedTuple):
    """Files that were given, and when the time for them is over."""

    tasks: List[Task]
    until: float


class Cluster:
    """Workers of a cluster, as those of a ``Crew``. A worker that dies is restarted or replaced by Dask, and its files are read by another.

    Dask gives an order up once several workers have died over it. Its files are then read one by one, with nothing beside them, so that
    the one that kills workers is told and no other.
    """

    def __init__(self, address: Optional[str], workers: Optional[int], seconds: float) -> None:
        self._seconds = seconds
        self._address = address
        self._workers = workers
        self._own: Any = None
        self._client: Any = None
        self._start()
        self._given: Dict[Any, Given] = {}
        self._suspects: List[Task] = []
        self._alone: Any = None
        self._room = AHEAD
        self._looked = 0.0
        self.back: List[Task] = []

    def _start(self) -> None:
        if self._address is None:
            self._own = dask.LocalCluster(n_workers=self._workers, threads_per_worker=1, dashboard_address=None)
        self._client = dask.Client(self._own if self._address is None else self._address)
        self._alive = time.monotonic()

    @property
    def busy(self) -> bool:
        """Whether some file is being read."""
        return bool(self._given or self._suspects)

    def idle(self) -> bool:
        """Whether files can be given: each thread of the cluster has some ahead."""
        self._look()
        return not self._suspects and self._alone not in self._given and len(self._given) < self._room

    def _look(self) -> None:
        """How many threads there are, now and then."""
        moment = time.monotonic()
        if moment - self._looked < LOOK_SECONDS:
            return
        self._looked = moment
        threads = sum(self._client.ncores().values()) if self._client.status in ("running", "connecting") else 0
        self._room = AHEAD * max(1, threads)
        if threads:
            self._alive = moment

    def _revive(self, found: List[Facts]) -> None:
        """Where all workers have died and none came back: a cluster of this machine is made anew, another one is given up."""
        silent = time.monotonic() - self._alive
        if self._address is not None and silent > GRACE_SECONDS:
            raise OSError("the cluster has no workers any more; the same command goes on where this one was")
        if self._address is not None or silent < REVIVE_SECONDS:
            return
        if self._alone in self._given:
            found += [failed(task, DIED) for task in self._given.pop(self._alone).tasks]
        self._suspects += [task for given in self._given.values() for task in given.tasks]
        self._given = {}
        self.close()
        self._start()

    def give(self, tasks: List[Task]) -> Any:
        """Files to read; the order that they are. It is one of its own, also where the same files are read again."""
        seconds = sum(limit_of(task.size, self._seconds) for task in tasks) * (AHEAD + 1) + GRACE_SECONDS
        future = self._client.submit(read_many, tasks, self._seconds, pure=False)
        self._given[future] = Given(tasks, time.monotonic() + seconds)
        return future

    def gather(self, timeout: float) -> List[Facts]:
        """What was found meanwhile."""
        found: List[Facts] = []
        self._look()
        self._revive(found)
        if self._given:
            try:
                dask.wait(list(self._given), timeout=max(timeout, 0.01), return_when="FIRST_COMPLETED")
            except Exception as error:  # a time that is over is one of several kinds, by the version
                if "Timeout" not in type(error).__name__:
                    raise
        for future in [one for one in self._given if one.done()]:
            self._take(future, self._given.pop(future), found)
        self._late(found)
        if self._suspects and not self._given:
            self._alone = self.give([self._suspects.pop()])
        return found

    def _take(self, future: Any, given: Given, found: List[Facts]) -> None:
        error = future.exception() if future.status == "error" else None
        if future.status == "finished":
            try:
                found += future.result(timeout=RESULT_SECONDS)
                return
            except Exception as lost:  # the worker that has it may have died meanwhile
                error = lost
        if error is not None and len(given.tasks) == 1 and "Timeout" not in type(error).__name__:
            name = type(error).__name__
            found.append(failed(given.tasks[0], DIED if name == "KilledWorker" else f"{name}: {error}"))
        else:
            self._suspects += given.tasks

    def _late(self, found: List[Facts]) -> None:
        """A worker whose disk does not answer cannot be ended from here: its files are told, and it is left alone."""
        for future, given in [one for one in self._given.items() if time.monotonic() > one[1].until]:
            del self._given[future]
            future.cancel()
            found += [failed(task, "no answer from the cluster") for task in given.tasks]

    def close(self) -> None:
        """Lets go of the cluster; one of this machine ends. Where Dask does not come to an end with that, its processes are ended."""
        for future in self._given:
            future.cancel()
        closing = threading.Thread(target=_close, args=(self._client, self._own), daemon=True)
        closing.start()
        closing.join(CLOSE_SECONDS)
        if closing.is_alive() and self._own is not None:
            for worker in list(self._own.workers.values()):
                if getattr(worker, "pid", None):
                    os.kill(worker.pid, signal.SIGKILL)


def _close(client: Any, own: Any) -> None:
    client.close()
    if own is not None:
        own.close()
