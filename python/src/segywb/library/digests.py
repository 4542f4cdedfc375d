"""The digests of a file, in one reading."""

from __future__ import annotations

import hashlib
import os
import time
from concurrent.futures import ThreadPoolExecutor
from typing import Any, Iterator, List, NamedTuple, Optional, Tuple

BLOCK = 1 << 20
LARGE = 1 << 25


class Slow(Exception):
    """The time for a file is over."""


class Digests(NamedTuple):
    """The digests of a whole file, and that of its traces alone where these were told."""

    sha256: str
    md5: str
    trace_md5: Optional[str]


def blocks(descriptor: int, deadline: float) -> Iterator[Tuple[int, bytes]]:
    """The bytes of a file from its start to its end, with the place of each block."""
    at = 0
    while True:
        block = os.pread(descriptor, BLOCK, at)
        if not block:
            return
        yield at, block
        at += len(block)
        if time.monotonic() > deadline:
            raise Slow


def read(descriptor: int, size: int) -> bytes:
    """The first bytes of a file: so many, or all where there are fewer."""
    data = b""
    while len(data) < size:
        more = os.pread(descriptor, size - len(data), len(data))
        if not more:
            break
        data += more
    return data


def of(descriptor: int, size: int, traces: Optional[Tuple[int, int]], deadline: float) -> Digests:
    """The digests of a file; ``traces`` are the places where its traces begin and end."""
    return Digesting(descriptor, size, deadline).end(traces)


class Digesting:
    """The digests of a file: those of a small one are taken at once, while its program starts, the others at the end."""

    def __init__(self, descriptor: int, size: int, deadline: float) -> None:
        self._descriptor, self._size, self._deadline = descriptor, size, deadline
        self._whole, self._short = hashlib.sha256(), hashlib.md5(usedforsecurity=False)
        self._only: Optional[bytes] = None
        if size < BLOCK:
            self._only = read(descriptor, size)
            self._whole.update(self._only)
            self._short.update(self._only)

    def end(self, traces: Optional[Tuple[int, int]]) -> Digests:
        """The digests; ``traces`` as for ``of``.

        Those of a large file are taken side by side, so that none waits for the disk because of another.
        """
        # The quickest one: it finds files with the same traces, and vouches for none.
        part = hashlib.md5(usedforsecurity=False) if traces else None
        begin, end = traces or (0, 0)
        wanted = [(self._whole, 0, 1 << 63), (self._short, 0, 1 << 63), *([(part, begin, end)] if part is not None else [])]
        if self._only is not None:
            if part is not None:
                part.update(_cut(self._only, 0, begin, end))
        elif self._size < LARGE:
            for at, block in blocks(self._descriptor, self._deadline):
                for digest, first, last in wanted:
                    digest.update(_cut(block, at, first, last))
        else:
            _side_by_side(self._descriptor, self._deadline, wanted)
        return Digests(self._whole.hexdigest(), self._short.hexdigest(), part.hexdigest() if part is not None else None)


def _cut(block: bytes, at: int, begin: int, end: int) -> memoryview:
    return memoryview(block)[max(begin - at, 0):max(end - at, 0)]


def _side_by_side(descriptor: int, deadline: float, wanted: List[Tuple[Any, int, int]]) -> None:
    with ThreadPoolExecutor(len(wanted)) as threads:
        waiting: List[Any] = []
        for at, block in blocks(descriptor, deadline):
            for one in waiting:
                one.result()
            waiting = [threads.submit(digest.update, _cut(block, at, begin, end)) for digest, begin, end in wanted]
        for one in waiting:
            one.result()
