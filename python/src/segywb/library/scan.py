"""The scan: what is found below the folders is compared with the database, and what is new or changed is read."""

from __future__ import annotations

import json
import os
import sqlite3
from dataclasses import dataclass, field
from itertools import islice
from typing import Any, Dict, Iterable, Iterator, List, Set, Tuple

from . import store
from .facts import FAILED, Facts
from .names import path_of, text_of
from .progress import Progress
from .schema import transaction
from .talk import Program
from .waiting import Waiting
from .walk import Found

SLICE = 256
PAUSE_SECONDS = 0.2
GONE_ROWS = 10_000
OWN = (b"-wal", b"-shm", b"-journal", b"-lock")


class Seen:
    """The numbers of rows whose files were found, as bits."""

    def __init__(self) -> None:
        self._bits = bytearray()

    def add(self, number: int) -> None:
        """This one was found."""
        if number // 8 >= len(self._bits):
            self._bits.extend(bytes(number // 8 + 4096 - len(self._bits)))
        self._bits[number // 8] |= 1 << number % 8

    def __contains__(self, number: int) -> bool:
        return number // 8 < len(self._bits) and bool(self._bits[number // 8] >> number % 8 & 1)


@dataclass
class Counts:
    """How many files a scan has found of each kind."""

    unchanged: int = 0
    states: Dict[str, int] = field(default_factory=lambda: {"read": 0, "refused": 0, "failed": 0})
    others: int = 0
    gone: int = 0
    unlisted: int = 0


class Scan:
    """A scan of what ``found`` gives, by the workers of a ``crew``."""

    def __init__(self, database: sqlite3.Connection, crew: Any, progress: Progress, again: bool, own: Set[bytes]) -> None:
        self._database = database
        self._own = own  # the database may stand in one of the folders: its files are passed over
        self._crew = crew
        self._progress = progress
        self._again = again
        self._waiting = Waiting()
        self._files, self._others = Seen(), Seen()
        self.counts = Counts()
        self.number = 0

    def begin(self, folders: Iterable[bytes], program: Program) -> None:
        """The row of the scan."""
        self.number = store.begin(self._database, json.dumps([text_of(folder) for folder in folders]), program)

    def unlisted(self, folder: bytes, trouble: str) -> None:
        """A folder that could not be listed."""
        self.counts.unlisted += 1
        store.unlisted(self._database, folder, trouble, self.number)

    def run(self, found: Iterator[Found]) -> Counts:
        """Looks at every file, and reads what is to be read. What is found meanwhile comes to the database in one transaction."""
        looking = True
        while looking or len(self._waiting) or self._crew.busy:
            if looking:
                looking = self._look(found)
            while len(self._waiting) and self._crew.idle():
                self._crew.give(self._waiting.chunk())
            hurry = looking or not self._crew.busy
            self._put(self._crew.gather(0.0 if hurry else PAUSE_SECONDS))
            self._waiting.again(self._crew.back)
            self._crew.back = []
            self._progress.show(self._waiting.files, self._waiting.bytes, self.counts.unchanged, looking)
        return self.counts

    def _look(self, found: Iterator[Found]) -> bool:
        """Compares the next few files with the database; whether there are more."""
        some = list(islice(found, SLICE))
        for one in some:
            if one.task.path in self._own:
                continue
            row = store.known(self._database, text_of(one.task.path))
            if row is not None and row.sure and row.stamp == one.stamp and not self._again:
                self.counts.unchanged += 1
                (self._files if row.taken else self._others).add(row.id)
                if row.gone:
                    store.back(self._database, row.id)
            else:
                self._waiting.add(one.task)
        return bool(some)

    def _put(self, found: List[Facts]) -> None:
        for facts in found:
            self._progress.done(facts.task.size)
        # One that went away since its folder was listed has no row to be written: the sweep says so of the row that there is.
        found = [facts for facts in found if not (facts.missing and facts.task.root)]
        if not found:
            return
        for facts, (taken, number) in zip(found, store.put(self._database, found, self.number)):
            (self._files if taken else self._others).add(number)
            if taken:
                self.counts.states[facts.columns["state"]] += 1
            else:
                self.counts.others += 1

    # ---- what is there no more

    def sweep(self, folders: List[bytes], unlisted: List[bytes]) -> None:
        """Files of the database that lie below these folders and were not found. What could not be listed says nothing."""
        for folder in folders:
            self._sweep("file", self._files, folder, unlisted)
            self._sweep("other", self._others, folder, unlisted)
            self._listed(folder)

    def _sweep(self, table: str, seen: Seen, folder: bytes, unlisted: List[bytes]) -> None:
        there = "AND gone IS NULL" if table == "file" else ""
        query = f"SELECT id, path FROM {table} WHERE path > ? AND path < ? {there} ORDER BY path LIMIT {GONE_ROWS}"
        low, high = _span(folder)
        while True:
            rows: List[Tuple[int, str]] = self._database.execute(query, (low, high)).fetchall()
            if not rows:
                return
            low = rows[-1][1]
            lost = [number for number, path in rows if number not in seen and _is_gone(path_of(path), unlisted)]
            if lost:
                self._lose(table, lost)

    def _lose(self, table: str, lost: List[int]) -> None:
        with transaction(self._database):
            if table == "file":
                self.counts.gone += len(lost)
                self._database.executemany("UPDATE file SET gone = ? WHERE id = ?", [(store.now(), number) for number in lost])
            else:
                self._database.executemany("DELETE FROM other WHERE id = ?", [(number,) for number in lost])

    def _listed(self, folder: bytes) -> None:
        """Folders that an earlier scan could not list, and this one could, or that are there no more."""
        with transaction(self._database):
            self._database.execute("DELETE FROM unlisted WHERE path >= ? AND path < ? AND scan < ?", (*_span(folder), self.number))
            self._database.execute("DELETE FROM unlisted WHERE path = ? AND scan < ?", (text_of(folder), self.number))

    def end(self) -> None:
        """The scan is whole."""
        store.end(self._database, self.number)

    def close(self) -> None:
        """Ends the workers."""
        self._crew.close()
        self._waiting.close()
        self._progress.close()


def own_files(database: str) -> Set[bytes]:
    """The files of a database."""
    path = os.path.abspath(os.fsencode(database))
    return {path, *(path + ending for ending in OWN)}


def _span(folder: bytes) -> Tuple[str, str]:
    """Between which texts those of the paths below a folder lie."""
    text = text_of(folder.rstrip(b"/"))
    return text + "/", text + "0"  # the character behind "/"


def _is_gone(path: bytes, unlisted: List[bytes]) -> bool:
    """Whether there is no such file, for sure."""
    if any(path.startswith(folder.rstrip(b"/") + b"/") for folder in unlisted):
        return False
    try:
        os.lstat(path)
    except (FileNotFoundError, NotADirectoryError):
        return True
    except OSError:
        return False
    return False


def troubled(counts: Counts) -> bool:
    """Whether something could not be read."""
    return bool(counts.states[FAILED] or counts.unlisted)


def summary(counts: Counts) -> str:
    """What a scan did, in a few lines."""
    states = counts.states
    lines = [
        f"{sum(states.values()):,} files read: {states['read']:,} loaded, {states['refused']:,} refused, {states['failed']:,} failed",
        f"{counts.unchanged:,} unchanged and not read again, {counts.others:,} no SEG-Y, {counts.gone:,} gone",
    ]
    if counts.unlisted:
        lines.append(f"{counts.unlisted:,} folders could not be listed: the table unlisted has them")
    return "\n".join(lines)
