"""The workers of this machine. One that dies or hangs is told in the row of the file that it was at, and another takes its place."""

from __future__ import annotations

import os
import signal
import subprocess
import sys
import time
from collections import deque
from multiprocessing import Pipe
from multiprocessing.connection import Connection, wait
from pathlib import Path
from typing import Deque, List, Optional

from .facts import Facts, Task, failed
from .reading import limit_of

SOURCE = str(Path(__file__).resolve().parents[2])
# In place of the folder in which it is started, so that no file there is taken for a module.
START = "import sys; sys.path[0] = sys.argv[1]; from segywb.library.worker import main; main(int(sys.argv[2]))"
GRACE_SECONDS = 10.0
GOODBYE_SECONDS = 2.0
# A worker gets more before it has none, so that it does not wait for it.
FEW = 4
FEW_BYTES = 1 << 22
MOMENT_SECONDS = 0.004
# Processes that were ended and are not gone yet, as behind a disk that does not answer, or where others have all processors.
_BEHIND: "List[subprocess.Popen[bytes]]" = []


class Worker:
    """One process, with the files that it was given and has not told of."""

    def __init__(self) -> None:
        ours, theirs = Pipe()
        words = [sys.executable, "-c", START, SOURCE, str(theirs.fileno())]
        # A session of its own: it is ended together with the program that it runs.
        self._process = subprocess.Popen(words, stdin=subprocess.DEVNULL, pass_fds=[theirs.fileno()], start_new_session=True)
        theirs.close()
        self.pipe: "Connection" = ours
        self.tasks: Deque[Task] = deque()
        self._since = 0.0

    @property
    def pid(self) -> int:
        """The number of its process."""
        return self._process.pid

    @property
    def short(self) -> bool:
        """Whether it has little left to do, so that it would soon wait for more."""
        return len(self.tasks) <= FEW and sum(task.size for task in self.tasks) <= FEW_BYTES

    @property
    def ended(self) -> bool:
        """Whether its process has ended."""
        return self._process.poll() is not None

    def give(self, tasks: List[Task], seconds: float) -> None:
        """Files to read."""
        if not self.tasks:
            self._since = time.monotonic()
        self.tasks.extend(tasks)
        try:
            self.pipe.send((tasks, seconds))
        except OSError:
            pass  # it has died, and is found so

    def take(self) -> Facts:
        """What it found of the next file."""
        facts: Facts = self.pipe.recv()
        self.tasks.popleft()
        self._since = time.monotonic()
        return facts

    def overdue(self, seconds: float) -> bool:
        """Whether it is at one file for so long that it hangs."""
        return bool(self.tasks) and time.monotonic() - self._since > limit_of(self.tasks[0].size, seconds) + GRACE_SECONDS

    def end(self) -> str:
        """Ends it, and says how it had ended. Where a disk does not answer it may not even die: it is not waited for."""
        early = self._process.poll()
        try:
            os.killpg(self._process.pid, signal.SIGKILL)
        except OSError:
            pass
        self.pipe.close()
        try:
            self._process.wait(GOODBYE_SECONDS)
        except subprocess.TimeoutExpired:
            _BEHIND.append(self._process)
        status = early if early is not None else self._process.returncode
        if status is None:
            return "it does not end"
        return f"signal {-status}" if status < 0 else f"status {status}"


class Crew:
    """Workers on the cores of this machine, which are started when there is something to read."""

    def __init__(self, size: int, seconds: float) -> None:
        self._size = size
        self._seconds = seconds
        self._workers: List[Worker] = []
        self.back: List[Task] = []

    @property
    def busy(self) -> bool:
        """Whether some file is being read."""
        return any(worker.tasks for worker in self._workers)

    def idle(self) -> bool:
        """Whether files can be given."""
        return len(self._workers) < self._size or any(worker.short for worker in self._workers)

    def give(self, tasks: List[Task]) -> None:
        """Files for the worker that has the fewest. One that had none and has died since is not blamed on them."""
        for dead in [one for one in self._workers if not one.tasks and one.ended]:
            dead.end()
            self._workers.remove(dead)
        short = [one for one in self._workers if one.short]
        worker = min(short, key=lambda one: len(one.tasks)) if short else None
        if worker is None or (worker.tasks and len(self._workers) < self._size):
            worker = Worker()
            self._workers.append(worker)
        worker.give(tasks, self._seconds)

    def gather(self, timeout: float) -> List[Facts]:
        """What was found meanwhile, and a moment later: the rows of several files cost little more than one. Files of a worker that died are in ``back``."""
        found: List[Facts] = []
        pipes = [worker.pipe for worker in self._workers if worker.tasks]
        ready = wait(pipes, timeout)
        if ready and timeout:
            time.sleep(MOMENT_SECONDS)
            ready = wait(pipes, 0.0)
        for worker in list(self._workers):
            if worker.pipe in ready:
                try:
                    found.append(worker.take())
                    while worker.tasks and worker.pipe.poll():
                        found.append(worker.take())
                except (EOFError, OSError):
                    self._lost(worker, None, found)
            elif worker.overdue(self._seconds):
                self._lost(worker, f"no answer within {limit_of(worker.tasks[0].size, self._seconds):.0f} s", found)
        return found

    def _lost(self, worker: Worker, trouble: Optional[str], found: List[Facts]) -> None:
        ended = worker.end()
        if worker.tasks:
            task = worker.tasks.popleft()
            found.append(failed(task, trouble or f"the process that read it died ({ended})"))
        self.back += worker.tasks
        self._workers.remove(worker)

    def close(self) -> None:
        """Ends all of them."""
        for worker in self._workers:
            worker.end()
