"""What stands behind the last sound trace of a file and is as long as whole traces.

A file that was padded to the end of a block, or that another program wrote behind, may be longer by
whole traces: these are read as traces, and nothing refuses them. Their headers and bytes tell them,
by a rule that leaves a sound file alone, however its traces are numbered, and dead ones too.
"""

from __future__ import annotations

import os
import re
from typing import Dict, Iterator, List, NamedTuple, Optional, Sequence, Tuple

from .. import answers
from .talk import LoadRefused, Talk, Trouble, rows

# Numbers in the line and in the file, field record, kind of trace, scalar, units, samples, interval.
FIELDS = "@1:4 @5:4 @9:4 @29:2 @71:2 @89:2 @115:2u @117:2u"
LAST = f"table last last {FIELDS}"
_ZEROS = " and ".join(f"{field} = 0" for field in FIELDS.split(" "))
# Of each of these a writer of traces fills one at least, in each trace.
FILLED = ("sequence_line", "sequence_file", "field_record", "trace_code", "samples", "interval")
SCALARS = {0, *(sign * 10 ** power for sign in (1, -1) for power in range(5))}
UNITS = range(5)
SAMPLE_BYTES = {1: 4, 2: 4, 3: 2, 4: 4, 5: 4, 6: 8, 7: 3, 8: 1, 9: 8, 10: 4, 11: 2, 12: 8, 15: 3, 16: 1}
HEADER_BYTES = 240
RECORD_BYTES = 3200
BLOCK = 1 << 20
MOST_LINES = 1 << 16
_INSIDE = re.compile(r"ends (\d+) bytes? inside trace")


class Tail(NamedTuple):
    """Whole traces of junk at the end of a file: how many, how many bytes, and whether all of these are zero."""

    traces: int
    bytes: int
    zeros: bool


NONE = Tail(0, 0, True)


def last(talk: Talk) -> Optional[List[int]]:
    """The answer to ``LAST``; nothing of a file without traces, and of a program that does not know `table`."""
    lines = list(talk.answer())
    return [int(word) for word in lines[1].split(" ")[1:]] if len(lines) > 1 else None


def columns(talk: Talk, info: answers.Info, interval: int, told: Optional[Sequence[int]]) -> Dict[str, int]:
    """The columns of a file whose last trace has these numbers, as ``last`` gives them; none where it cannot be told."""
    found = junk(talk, info, interval, told)
    if found is None:
        return {}
    more = {"trailing_bytes": found.bytes, "trailing_zeros": int(found.zeros)} if found.traces else {}
    return {"trailing_traces": found.traces, **more}


def of_cut(descriptor: int, size: int, hint: str, options: Sequence[str], deadline: float) -> Dict[str, int]:
    """The columns of a file that ends inside a trace (L14), by a reading that keeps what is behind the last whole one; traces of junk in front are junk too."""
    try:
        with Talk(descriptor, [*options, "--tail"], deadline) as talk:
            talk.send(["info", "getbin interval", LAST])
            info = answers.info(talk.one())
            found = junk(talk, info, answers.number(talk.one(), "value"), last(talk))
            rest = info.tail or 0
    except (LoadRefused, Trouble):  # a program of before, or one that gets no memory: its hint may say how many bytes that is
        told = _INSIDE.search(hint)
        if not told:
            return {}
        found, rest = None, int(told[1])
    zeros = _zeros(descriptor, size, rest) == rest
    if found is None:
        return {"trailing_bytes": rest, "trailing_zeros": int(zeros)}
    return {"trailing_traces": found.traces, "trailing_bytes": rest + found.bytes, "trailing_zeros": int(zeros and found.zeros)}


def junk(talk: Talk, info: answers.Info, interval: int, told: Optional[Sequence[int]]) -> Optional[Tail]:
    """The traces of junk at the end of the traces; ``None`` where it cannot be told.

    A trace of nothing but zeros is junk; and, where all traces are equally long, one whose header has
    another number of samples and another interval than the file, a scalar or units that there are not,
    and a number in the file that does not go on. In front of them stands a trace that is none.
    """
    if told is None or info.extensions > 1 or info.format not in SAMPLE_BYTES:
        return None if info.traces else NONE
    file = _File(talk, info, interval)
    if not file.is_junk(told):
        return NONE
    first, strange = file.first_of_junk()
    if first == 1 or not file.sound_before(first, strange):
        return NONE
    size = HEADER_BYTES * (1 + info.extensions) + info.samples * SAMPLE_BYTES[info.format]
    count = info.traces - first + 1
    if not strange:  # a header of zeros may stand over samples: that is a trace
        end = info.bytes - (info.tail or 0) - RECORD_BYTES * info.trailer
        count = min(count, _zeros(talk.descriptor, end, count * size) // size)
    return Tail(count, count * size, not strange)


class _File:
    """The headers of a file, as far as they tell junk."""

    def __init__(self, talk: Talk, info: answers.Info, interval: int) -> None:
        self._talk = talk
        self._traces = info.traces
        self._samples = info.samples if info.fixed and not info.extensions else None
        self._interval = interval

    def is_junk(self, numbers: Sequence[int]) -> bool:
        """Whether a trace with these numbers may be junk."""
        return not any(numbers) or self.is_strange(numbers)

    def is_strange(self, numbers: Sequence[int]) -> bool:
        """Whether these are no numbers of a trace of this file."""
        scalar, units, samples, interval = numbers[4:]
        others = samples not in (0, self._samples) and interval not in (0, self._interval)
        return self._samples is not None and others and (scalar not in SCALARS or units not in UNITS)

    def first_of_junk(self) -> Tuple[int, bool]:
        """From which trace on all may be junk, and whether one of them has a header of other bytes than zeros. The last one may be."""
        first, strange, step = self._first_blank(), False, 1
        while first > 1:
            low = max(1, first - step)
            begin, more = first, False
            for position, *numbers in self._table(low, first - 1):
                if not self.is_junk(numbers):
                    begin, more = first, False
                    continue
                begin, more = min(begin, position), more or any(numbers)
            reached = begin > low
            first, strange, step = begin, strange or more, min(2 * step, MOST_LINES)
            if reached:
                break
        return first, strange

    def _first_blank(self) -> int:
        """From which trace on all headers are zeros; one behind the last where that is not. By counts: there may be millions of them."""
        first, step = self._traces + 1, 1
        while first > 1 and self._blank(max(1, first - step)):
            first, step = max(1, first - step), 2 * step
        low = max(1, first - step)
        while low < first:
            middle = (low + first) // 2
            if self._blank(middle):
                first = middle
            else:
                low = middle + 1
        return first

    def _blank(self, position: int) -> bool:
        """Whether all headers from this one on are zeros, in what a trace has a number in."""
        self._talk.send([f"count {position} last where {_ZEROS}"])
        return answers.number(self._talk.one(), "chosen") == self._traces - position + 1

    def _table(self, low: int, high: int) -> Iterator[List[int]]:
        self._talk.send([f"table {low} {high} {FIELDS}"])
        for words in rows(self._talk.answer(), "table"):
            yield [int(word) for word in words]

    def sound_before(self, first: int, strange: bool) -> bool:
        """Whether the traces in front of this one have headers that tell it from junk."""
        self._talk.send([f"extremes 1 {first - 1}"])
        spans = {name: [int(word) for word in words] for _, name, *words in rows(self._talk.answer(), "extremes")}
        if not any(spans[name][0] > 0 or spans[name][1] < 0 for name in FILLED if name in spans):
            return False
        if not strange:
            return True
        wanted = (("samples", self._samples), ("interval", self._interval))
        alike = all(spans.get(name, [0, 0])[:2] in ([0, 0], [number, number]) for name, number in wanted)
        (_, _, number, *_), = self._table(first, first)
        return alike and number != spans.get("sequence_file", [0] * 4)[3] + 1


def _zeros(descriptor: int, end: int, most: int) -> int:
    """How many bytes in front of a place are zero, and one after another; no more than so many are looked at."""
    at = end
    while at > end - most:
        begin = max(at - BLOCK, end - most)
        block = os.pread(descriptor, at - begin, begin)
        if block != bytes(len(block)):
            return end - at + len(block) - len(block.rstrip(b"\0"))
        at = begin
    return end - at
