"""The files below folders, one after another, and those of a list."""

from __future__ import annotations

import errno
import os
import stat
from typing import BinaryIO, Callable, Iterator, List, NamedTuple, Optional, Set, Tuple

from .facts import Stamp, Task, stamp

READ_BYTES = 1 << 20
Tell = Callable[[bytes, str], None]


class Found(NamedTuple):
    """A file that was found, and its stamp, where the system told it."""

    task: Task
    stamp: Optional[Stamp]


class Walk:
    """The files below folders. ``tell`` hears of each folder that cannot be listed; links are followed where that is asked for."""

    def __init__(self, folders: List[bytes], follow: bool, tell: Tell) -> None:
        self.folders = folders
        self._follow = follow
        self._tell = tell
        self._been: Set[Tuple[int, int]] = set()
        self.unlisted: List[bytes] = []
        self.empty: List[bytes] = []  # folders that were named and have nothing in them, as where a disk is not mounted

    def __iter__(self) -> Iterator[Found]:
        for folder in self.folders:
            if os.path.isdir(folder):
                if not _has_entries(folder):
                    self.empty.append(folder)
                yield from self._below(folder)
            else:
                yield _found(folder, os.path.dirname(folder))

    def _below(self, top: bytes) -> Iterator[Found]:
        """No more than the folders that are still to be listed stands in memory."""
        waiting = [top]
        root = len(top.rstrip(b"/"))
        while waiting:
            folder = waiting.pop()
            try:
                if self._been_in(folder):
                    continue
                with os.scandir(folder) as entries:
                    for entry in entries:
                        yield from self._entry(entry, root, waiting)
            except OSError as error:
                self.unlisted.append(folder)
                self._tell(folder, error.strerror or str(error))

    def _been_in(self, folder: bytes) -> bool:
        """Whether this folder was listed already, by a link or under another folder of the same scan."""
        seen = os.stat(folder)
        where = (seen.st_dev, seen.st_ino)
        if where in self._been:
            return True
        self._been.add(where)
        return False

    def _entry(self, entry: "os.DirEntry[bytes]", root: int, waiting: List[bytes]) -> Iterator[Found]:
        try:
            if entry.is_dir(follow_symlinks=self._follow):
                waiting.append(entry.path)
            elif entry.is_file(follow_symlinks=self._follow):
                seen = entry.stat(follow_symlinks=self._follow)
                yield Found(Task(entry.path, root, seen.st_size), stamp(seen))
        except FileNotFoundError:
            pass  # it went away meanwhile, or is a link that leads nowhere
        except OSError as error:  # its row tells why, once it is read; but a link that leads to itself leads nowhere
            if error.errno == errno.ELOOP:
                return
            yield Found(Task(entry.path, root, 0), None)


def _has_entries(folder: bytes) -> bool:
    try:
        with os.scandir(folder) as entries:
            return next(entries, None) is not None
    except OSError:
        return True  # it cannot be listed, which is told elsewhere


def _found(path: bytes, folder: bytes) -> Found:
    """A file that was named."""
    root = len(folder.rstrip(b"/"))
    try:
        seen = os.stat(path)
    except OSError:
        return Found(Task(path, root, 0), None)
    return Found(Task(path, root, seen.st_size), stamp(seen) if stat.S_ISREG(seen.st_mode) else None)


def listed(source: BinaryIO, part: int, parts: int) -> Iterator[Found]:
    """Each ``parts``-th file of a list, from the ``part``-th on: names that end with NUL where there is any, else with a line feed."""
    for number, name in enumerate(_names(source)):
        if number % parts == part - 1:
            yield _found(os.path.abspath(name), b"")


def _names(source: BinaryIO) -> Iterator[bytes]:
    rest, mark = b"", b""
    for data in iter(lambda: source.read(READ_BYTES), b""):
        mark = mark or (b"\0" if b"\0" in data else b"\n")
        *names, rest = (rest + data).split(mark)
        yield from filter(None, names)
    if rest:
        yield rest
