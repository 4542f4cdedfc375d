"""What is still to be read. It stands on disk, so that a library of a million new files takes no memory for it."""

from __future__ import annotations

import sqlite3
from typing import List

from .facts import Task

CHUNK_FILES = 8
CHUNK_BYTES = 1 << 26


class Waiting:
    """Files that are to be read, in the order in which they were found; those that came back first."""

    def __init__(self) -> None:
        self._database = sqlite3.connect("", isolation_level=None)  # a file of its own, which goes away with it
        self._database.execute("PRAGMA journal_mode = OFF")
        self._database.execute("PRAGMA cache_size = -4096")
        self._database.execute("CREATE TABLE task (id INTEGER PRIMARY KEY, path BLOB, root INTEGER, size INTEGER)")
        self._next = 1
        self._added = 0
        self._back: List[Task] = []
        self.files = 0
        self.bytes = 0

    def __len__(self) -> int:
        return self._added - self._next + 1 + len(self._back)

    def add(self, task: Task) -> None:
        """One more."""
        self._added += 1
        self._database.execute("INSERT INTO task VALUES (?, ?, ?, ?)", (self._added, *task))
        self.files += 1
        self.bytes += task.size

    def again(self, tasks: List[Task]) -> None:
        """Files whose reader died over another one."""
        self._back += tasks

    def chunk(self) -> List[Task]:
        """The next few: at least one, and no more than a worker has to do for a while."""
        if self._back:
            return [self._back.pop()]
        rows = self._database.execute("SELECT path, root, size FROM task WHERE id BETWEEN ? AND ?", (self._next, self._next + CHUNK_FILES - 1))
        some: List[Task] = []
        for row in rows.fetchall():
            task = Task(*row)
            if some and sum(one.size for one in some) + task.size > CHUNK_BYTES:
                break
            some.append(task)
        self._database.execute("DELETE FROM task WHERE id BETWEEN ? AND ?", (self._next, self._next + len(some) - 1))
        self._next += len(some)
        return some

    def close(self) -> None:
        """It goes away."""
        self._database.close()
