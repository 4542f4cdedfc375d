"""The stream of a session's answers: each ends with an empty line, and none holds one."""

from __future__ import annotations

import re
from typing import List, Optional

_EMPTY_LINES = re.compile(rb"\n\n+")
FEW_BYTES = 1 << 10


def split(data: bytes) -> List[bytes]:
    """The answers of a stream, each without the line feed at its end and without its empty line.

    >>> split(b"ok\\n\\n\\nvalue 7\\n\\n")
    [b'ok', b'', b'value 7']
    """
    if b"\n\n\n" not in data and not data.startswith(b"\n"):
        answers = data.split(b"\n\n")
        answers.pop()
        return answers
    answers, at = [], 0
    while at < len(data):
        if data[at] == 10:
            answers.append(b"")
            at += 1
        else:
            end = data.index(b"\n\n", at)
            answers.append(data[at:end])
            at = end + 2
    return answers


def empty_lines(data: bytes, before: bytes) -> int:
    """How many empty lines end in ``data``, where the byte ``before`` stands in front of it."""
    first = 1 if before == b"\n" and data.startswith(b"\n") else 0
    if b"\n\n\n" not in data:
        return first + data.count(b"\n\n")
    return first + sum(match.end() - match.start() - 1 for match in _EMPTY_LINES.finditer(data))


def end_of(data: bytes, before: bytes, number: int) -> int:
    """Where the empty line with this number (from 1) ends in ``data``.

    >>> end_of(b"ok\\n\\nvalue 7\\n\\n", b"\\n", 2), end_of(b"\\nok\\n\\n", b"\\n", 1), end_of(b"ok\\n\\n\\nok\\n\\n", b"", 2)
    (13, 1, 5)
    """
    low, high = 0, len(data)
    if b"\n\n\n" in data:
        while low < high:
            middle = (low + high) // 2
            if empty_lines(data[:middle], before) >= number:
                high = middle
            else:
                low = middle + 1
        return low
    if before == b"\n" and data.startswith(b"\n"):
        number -= 1
    if not number:
        return 1
    while high - low > FEW_BYTES:  # what is left of a half is counted once
        middle = (low + high) // 2
        here = data.count(b"\n\n", low, middle)
        if here >= number:
            high = middle
        else:
            number, low = number - here, middle - 1
    for _ in range(number):
        low = data.index(b"\n\n", low) + 2
    return low


class Splitter:
    """Cuts what comes into the answers of one batch of lines after another."""

    def __init__(self) -> None:
        self._wanted: List[int] = []
        self._parts: List[bytes] = []
        self._counts: List[int] = []
        self._have = 0
        self._last = b"\n"

    @property
    def waiting(self) -> int:
        """How many batches have no answers yet."""
        return len(self._wanted)

    @property
    def lacking(self) -> int:
        """How many answers to the oldest batch have not come."""
        return self._wanted[0] - self._have if self._wanted else 0

    @property
    def left(self) -> bytes:
        """What has come and belongs to no batch that is whole."""
        return b"".join(self._parts)

    def expect(self, count: int) -> None:
        """A batch of so many lines has been sent."""
        self._wanted.append(count)

    def feed(self, data: bytes) -> None:
        """What has come."""
        self._add(data, empty_lines(data, self._last))
        self._last = data[-1:]

    def _add(self, part: bytes, count: int) -> None:
        self._parts.append(part)
        self._counts.append(count)
        self._have += count

    def next(self) -> Optional[bytes]:
        """The answers to the oldest batch, once they are whole."""
        if not self._wanted or self._have < self._wanted[0]:
            return None
        count = self._wanted.pop(0)
        parts, counts = self._parts, self._counts
        self._parts, self._counts, self._have = [], [], 0
        whole = 0
        while count > counts[whole]:
            count -= counts[whole]
            whole += 1
        before = parts[whole - 1][-1:] if whole else b"\n"
        end = end_of(parts[whole], before, count)
        rest = parts[whole][end:]
        if rest:
            self._add(rest, counts[whole] - count)
        for part, number in zip(parts[whole + 1:], counts[whole + 1:]):
            self._add(part, number)
        return b"".join([*parts[:whole], parts[whole][:end]])
