"""What is found of a file: a row of the database, before it is one."""

from __future__ import annotations

import os
from dataclasses import dataclass, field
from typing import Any, Dict, List, NamedTuple, Tuple

READ, REFUSED, FAILED = "read", "refused", "failed"


class Task(NamedTuple):
    """A file that is to be read: its path, how much of it is the folder that was scanned, and how many bytes it had when it was found."""

    path: bytes
    root: int
    size: int


class Stamp(NamedTuple):
    """What tells one state of a file from another, of what the system knows of it. ``device`` is not kept: a network disk gets another one."""

    size: int
    modified: int
    changed: int
    inode: int


@dataclass
class Facts:
    """What is to be written of a file. ``other`` says why it is not taken for SEG-Y; ``columns`` are those of the table ``file``.

    ``missing``: it is not there, or not any more.
    """

    task: Task
    columns: Dict[str, Any]
    other: str = ""
    problems: Dict[str, int] = field(default_factory=dict)
    headers: List[Tuple[str, int, int, int, int]] = field(default_factory=list)
    texts: List[Tuple[int, str]] = field(default_factory=list)
    missing: bool = False


def stamp(found: os.stat_result) -> Stamp:
    """The stamp of a file. SQLite's numbers end at 63 bits, those of inodes do not."""
    inode = found.st_ino if found.st_ino < 1 << 63 else found.st_ino - (1 << 64)
    return Stamp(found.st_size, found.st_mtime_ns, found.st_ctime_ns, inode)


def failed(task: Task, trouble: str, missing: bool = False) -> Facts:
    """A file that could not be read, for another reason than what is in it: it is read again at the next scan."""
    known = {"size": task.size, "modified": None, "changed": None, "inode": None}
    return Facts(task, {**known, "settled": 0, "state": FAILED, "trouble": trouble}, missing=missing)
