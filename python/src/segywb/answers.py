"""What the answers of the program mean: from lines of text to values."""

from __future__ import annotations

import functools
import re
from collections import Counter
from fractions import Fraction
from math import isfinite
from struct import pack, unpack
from typing import Any, Callable, Dict, List, NamedTuple, Optional, Tuple, TypeVar, cast

from .errors import ProgramEnded, Refused

FORMATS: Dict[int, str] = {
    1: "IBM float", 2: "4 bytes", 3: "2 bytes", 4: "fixed point with gain", 5: "IEEE float", 6: "IEEE float, 8 bytes",
    7: "3 bytes", 8: "1 byte", 9: "8 bytes", 10: "4 bytes, unsigned", 11: "2 bytes, unsigned", 12: "8 bytes, unsigned",
    15: "3 bytes, unsigned", 16: "1 byte, unsigned",
}
MEANINGS: Dict[str, str] = {
    "F1": "number in the file (bytes 5-8) is not the position",
    "F2": "number of samples (bytes 115-116) is not that of the trace",
    "F3": "interval (bytes 117-118) is not that of the binary header",
    "F4": "coordinate scalar (bytes 71-72) is unusual",
    "F5": "coordinate units (bytes 89-90) are not those of trace 1",
    "F6": "inline, crossline and offset are those of an earlier trace",
    "F7": "number of traces in the binary header is wrong",
    "F8": "lines of the textual header that do not begin with C",
    "F9": "trace name (bytes 233-240) is unknown",
    "S1": "all traces have one inline and crossline: no survey numbers, as in shots",
    "S2": "no position (x and y are 0), where most traces have one",
    "S3": "coordinate scalar is not that of most traces",
    "S4": "delay recording time (bytes 109-110) is not that of most traces",
    "S5": "inline is far from all others",
    "S6": "crossline is far from all others",
    "S7": "inlines are missing between others",
    "S8": "crosslines are missing between others",
    "S9": "a few cells have another fold than nearly all",
    "S10": "positions jump between neighbouring cells",
    "S11": "cells stand where a cell before them does",
    "S12": "dead trace: all its samples have the same value",
    "S13": "loud trace: more than 100 times the amplitude of the others",
}


class Info(NamedTuple):
    """What the file is. ``tail`` is the number of bytes of no trace behind the last one, which are counted in ``bytes`` too; ``None`` where ``tail`` was
    not asked for."""

    order: str
    revision: str
    format: int
    samples: int
    fixed: bool
    extensions: int
    blocks: int
    trailer: int
    traces: int
    bytes: int
    tail: Optional[int] = None


class Geometry(NamedTuple):
    """Where a trace lies. x and y are told under the coordinate scalar."""

    inline: int
    crossline: int
    offset: int
    x: Fraction
    y: Fraction


class Statistics(NamedTuple):
    """The samples of a trace, or of all traces."""

    least: int
    greatest: int
    sum: int
    samples: int


class FloatStatistics(NamedTuple):
    """The samples of a trace of floats: the least, the greatest and the sum (exact, and rounded once) of those that are numbers, ``None`` where none
    is; how many there are, and how many are no numbers."""

    least: Optional[float]
    greatest: Optional[float]
    sum: Optional[float]
    samples: int
    nans: int


class FloatTotals(NamedTuple):
    """The samples of all traces of floats, likewise. There is no sum."""

    least: Optional[float]
    greatest: Optional[float]
    samples: int
    nans: int


class Extremes(NamedTuple):
    """The numbers of a field in many traces: the least, the greatest, that of the first trace and that of the last."""

    least: int
    greatest: int
    first: int
    last: int


class Stanza(NamedTuple):
    """A stanza of the extended textual headers, and the block where it begins."""

    block: int
    name: str


class Fault(NamedTuple):
    """A fault: its code, its trace (or ``None``), the earlier trace of a trace that stands twice (F6), and the whole text."""

    code: str
    trace: Optional[int]
    first: Optional[int]
    text: str

    @property
    def meaning(self) -> str:
        """What the code means, in words.

        >>> with segywb.open("wrong_line.sgy") as v:
        ...     v.faults()[0].code, v.faults()[0].meaning
        ('F6', 'inline, crossline and offset are those of an earlier trace')
        """
        return MEANINGS.get(self.code, self.code)


class Answer(NamedTuple):
    """A line of a script, its number from 1, and what it answered."""

    number: int
    line: str
    text: str

    @property
    def refused(self) -> Optional[Refused]:
        """The refusal, or ``None``.

        >>> with segywb.open("cube.sgy") as v:
        ...     answer = v.run("set 99 inline 7")[0]
        ...     answer.refused.code, answer.refused.text
        ('E01', 'no trace 99 of 12')
        """
        told = refusal_in(self.text)
        return None if told is None else Refused(told, self.line)

    @property
    def accepted(self) -> bool:
        """Whether the line was an edit, and accepted.

        >>> with segywb.open("cube.sgy") as v:
        ...     [answer.accepted for answer in v.run("set 1 inline 7\\ncount")]
        [True, False]
        """
        return accepted(self.text)

    @property
    def chosen(self) -> Optional[int]:
        """Of how many traces an edit with ``where`` was; ``None`` of all other lines.

        >>> with segywb.open("cube.sgy") as v:
        ...     told = v.run("set all delay 7 where inline = 102\\nset all delay 7")
        ...     [(answer.text, answer.chosen) for answer in told]
        [('ok 4', 4), ('ok', None)]
        """
        return number(self.text, "ok") if self.text.startswith("ok ") else None


_OK = re.compile(r"ok(?: [0-9]+)?")
_ALL_OK = re.compile(rb"(?:ok(?: [0-9]+)?\n\n)*")


def refusal_in(answer: str) -> Optional[str]:
    """The refusal that an answer is, or that ends it: that of a trace that could not be read stands
    behind the rows of ``samples`` in front of it.

    >>> refusal_in("refused E01 no trace 9 of 3"), refusal_in("samples 2\\n1 5\\nrefused E14 read failed")
    ('refused E01 no trace 9 of 3', 'refused E14 read failed')
    >>> refusal_in("samples 1\\n1 5"), refusal_in("ok")
    (None, None)
    """
    last = answer[answer.rfind("\n") + 1 :] if answer.startswith("samples ") else answer
    return last if last.startswith("refused ") else None


def accepted(answer: str) -> bool:
    """Whether this answers an edit that was done.

    >>> accepted("ok"), accepted("ok 4"), accepted("ok then"), accepted("value 4")
    (True, True, False, False)
    """
    return _OK.fullmatch(answer) is not None


def all_accepted(told: bytes, size: int) -> bool:
    """Whether these are the answers to so many edits that were done.

    >>> all_accepted(b"ok\\n\\nok 4\\n\\n", 2), all_accepted(b"ok\\n\\nrefused S02 words\\n\\n", 2)
    (True, False)
    """
    if told == b"ok\n\n" * size:
        return True
    return told.count(b"\n\n") == size and _ALL_OK.fullmatch(told) is not None


def all_chosen(told: bytes) -> Optional[int]:
    """Of how many traces edits with ``where`` were, together; ``None`` where none of them had it.

    >>> all_chosen(b"ok 2\\n\\nok 4\\n\\n"), all_chosen(b"ok\\n\\nok\\n\\n")
    (6, None)
    """
    numbers = [int(one[3:]) for one in told.split(b"\n\n") if one.startswith(b"ok ")] if b"ok " in told else []
    return sum(numbers) if numbers else None


def unexpected(answer: str) -> ProgramEnded:
    """An answer that no program of this version gives."""
    return ProgramEnded(f"the program wrote what is not expected: {answer[:200]!r}")


Reader = TypeVar("Reader", bound=Callable[..., Any])


def strict(read: Reader) -> Reader:
    """Whatever goes wrong in reading an answer is an answer that is not expected."""

    @functools.wraps(read)
    def checked(told: Any, *more: Any) -> Any:
        try:
            return read(told, *more)
        except (ValueError, IndexError, TypeError, ZeroDivisionError):
            raise unexpected(told if isinstance(told, str) else "\n".join(told)) from None

    return cast(Reader, checked)


def words(line: str, first: str) -> List[str]:
    """The words of an answer behind its first one."""
    got = line.split(" ")
    if got[0] != first:
        raise unexpected(line)
    return got[1:]


def rows(lines: List[str], head: str, row: str) -> List[List[str]]:
    """The words of each line of a list, behind the line that counts them. ``row`` is the first word of each."""
    counted(lines, head)
    return [words(line, row) for line in lines[1:]]


@strict
def number(line: str, first: str) -> int:
    """
    >>> number("value 7", "value")
    7
    """
    return int(name(line, first))


@strict
def name(line: str, first: str) -> str:
    """
    >>> name("code ascii", "code")
    'ascii'
    """
    (got,) = words(line, first)
    return got


@strict
def counts(lines: List[str], head: str, row: str) -> Dict[int, int]:
    """
    >>> counts(["inlines 1", "inline 101 8"], "inlines", "inline")
    {101: 8}
    """
    return {int(one): int(count) for one, count in rows(lines, head, row)}


@strict
def fields(lines: List[str]) -> Dict[str, str]:
    """
    >>> fields(["fields 1", "field inline @189:4"])
    {'inline': '@189:4'}
    """
    return {one: place for one, place in rows(lines, "fields", "field")}


@strict
def header(lines: List[str]) -> Dict[str, int]:
    """
    >>> header(["header 2", "field sequence_line 7", "field inline 101"])
    {'sequence_line': 7, 'inline': 101}
    """
    return {one: int(value) for one, value in rows(lines, "header", "field")}


@strict
def extremes(lines: List[str]) -> Dict[str, Extremes]:
    """
    >>> extremes(["extremes 1", "field inline 101 103 101 102"])
    {'inline': Extremes(least=101, greatest=103, first=101, last=102)}
    """
    return {one: Extremes(*map(int, four)) for one, *four in rows(lines, "extremes", "field")}


@strict
def block(lines: List[str]) -> List[str]:
    """
    >>> block(["lines 2", "line |C 1|", "line ||"])
    ['C 1', '']
    """
    counted(lines, "lines")
    return [text(line) for line in lines[1:]]


@strict
def stanzas(lines: List[str]) -> List[Stanza]:
    """
    >>> stanzas(["stanzas 1", "stanza 1 SEG: EndText"])
    [Stanza(block=1, name='SEG: EndText')]
    """
    return [Stanza(int(got[0]), " ".join(got[1:])) for got in rows(lines, "stanzas", "stanza")]


@strict
def faults(lines: List[str]) -> List[Fault]:
    """
    >>> [one.code for one in faults(["faults 2", "F8 lines 1", "F4 trace 1 scalar 7"])]
    ['F8', 'F4']
    """
    counted(lines, "faults")
    return [_fault(line) for line in lines[1:]]


@strict
def fault_counts(lines: List[str]) -> Dict[str, int]:
    """
    >>> fault_counts(["faults 2", "F8 lines 1", "F4 trace 1 scalar 7"])
    {'F4': 1, 'F8': 1}
    """
    counted(lines, "faults")
    return dict(sorted(Counter(line.partition(" ")[0] for line in lines[1:]).items()))


def counted(lines: List[str], head: str) -> None:
    """The first line of a list counts the others."""
    if words(lines[0], head) != [str(len(lines) - 1)]:
        raise unexpected(lines[0])


def pairs(got: List[str], names: Tuple[str, ...]) -> List[str]:
    """The values in a list of names and values."""
    if tuple(got[0::2]) != names or len(got) != 2 * len(names):
        raise unexpected(" ".join(got))
    return got[1::2]


class Lines(NamedTuple):
    """The first and the last inline, or crossline, that are not far from the others, and the commonest step of all; ``None`` where there is one."""

    first: int
    last: int
    step: Optional[int]


class Survey(NamedTuple):
    """The grid of a survey in one line: its lines, how far cells most often stand, in x and y, from the one an inline or a crossline before them, ``None``
    where there are none; how many cells there are, and how many a full grid has."""

    inline: Lines
    crossline: Lines
    along_inline: Optional[Tuple[Fraction, Fraction]]
    along_crossline: Optional[Tuple[Fraction, Fraction]]
    cells: int
    full: int


_LINES = r"(-?\d+) (-?\d+) step (none|-?\d+)"
_SURVEY = re.compile(
    rf"survey inline {_LINES} crossline {_LINES} along_inline (none|\S+ \S+) along_crossline (none|\S+ \S+) cells (\d+) of (\d+)"
)


@strict
def survey(line: str) -> Optional[Survey]:
    """
    >>> survey("survey none")
    >>> told = survey("survey inline 7 7 step none crossline 3 9 step 2 along_inline none along_crossline 25/2 -1 cells 4 of 4")
    >>> told.inline, told.crossline.step, told.along_inline, told.along_crossline, told.cells
    (Lines(first=7, last=7, step=None), 2, None, (Fraction(25, 2), Fraction(-1, 1)), 4)
    """
    if words(line, "survey") == ["none"]:
        return None
    found = _SURVEY.fullmatch(line)
    if not found:
        raise unexpected(line)
    got = found.groups()
    inline, crossline = (Lines(int(one), int(two), None if step == "none" else int(step)) for one, two, step in (got[:3], got[3:6]))
    along = [None if told == "none" else (Fraction(told.split()[0]), Fraction(told.split()[1])) for told in got[6:8]]
    return Survey(inline, crossline, along[0], along[1], int(got[8]), int(got[9]))


@strict
def info(line: str) -> Info:
    """
    >>> info("info order big revision 1.0 format 3 samples 2 fixed yes extensions 0 blocks 0 trailer 0 traces 3 bytes 4332").traces
    3
    >>> info("info order big revision 1.0 format 3 samples 2 fixed yes extensions 0 blocks 0 trailer 0 traces 3 bytes 4335 tail 3").tail
    3
    """
    said = words(line, "info")
    got = pairs(said, Info._fields if "tail" in said[0::2] else Info._fields[:-1])
    return Info(got[0], got[1], int(got[2]), int(got[3]), got[4] == "yes", *map(int, got[5:]))


@strict
def geometry(line: str) -> Geometry:
    """
    >>> geometry("geometry inline 1 crossline 2 offset 0 x 90005/2 y 680000").x
    Fraction(90005, 2)
    """
    got = pairs(words(line, "geometry"), Geometry._fields)
    return Geometry(int(got[0]), int(got[1]), int(got[2]), Fraction(got[3]), Fraction(got[4]))


@strict
def statistics(line: str, first: str) -> Optional[Statistics]:
    """
    >>> statistics("stat none", "stat")
    """
    got = words(line, first)
    return None if got == ["none"] else Statistics(*map(int, pairs(got, Statistics._fields)))


def floating(word: str, narrow: bool = False) -> float:
    """The value that a word says; ``narrow``: the value of 4 bytes (IEEE) that is nearest to it, which the program rounded once.

    >>> floating("0.1"), floating("0.1", narrow=True), floating("-inf")
    (0.1, 0.10000000149011612, -inf)
    >>> floating("1.00000005960464477539062500000001"), floating("1.00000005960464477539062500000001", narrow=True)
    (1.0000000596046448, 1.0000001192092896)
    """
    value = float(word)
    if not narrow or not isfinite(value):
        return value
    return _rounded(value, word)


def _rounded(value: float, word: str) -> float:
    """The nearest value of 4 bytes. Where the value of 8 bytes lies halfway between two of them, the word says to which side it was rounded."""
    made = cast(float, unpack("f", pack("f", value))[0])
    (bits,) = unpack("I", pack("f", made))
    for other in (bits - 1, bits + 1):
        if 0 <= other < 1 << 32 and value != made:
            beside = cast(float, unpack("f", pack("I", other))[0])
            if value == (made + beside) / 2 and Fraction(word) != Fraction(value):
                return max(made, beside) if Fraction(word) > Fraction(value) else min(made, beside)
    return made


@strict
def sample(line: str, narrow: bool) -> float:
    """
    >>> sample("value -118.625", False)
    -118.625
    """
    return floating(name(line, "value"), narrow)


def _some(word: str, narrow: bool = False) -> Optional[float]:
    return None if word == "none" else floating(word, narrow)


@strict
def float_statistics(line: str, narrow: bool) -> Optional[FloatStatistics]:
    """
    >>> float_statistics("stat least -118.625 greatest 0.1 sum none samples 3 nans 1", False)
    FloatStatistics(least=-118.625, greatest=0.1, sum=None, samples=3, nans=1)
    """
    got = words(line, "stat")
    if got == ["none"]:
        return None
    least, greatest, total, samples, nans = pairs(got, FloatStatistics._fields)
    return FloatStatistics(_some(least, narrow), _some(greatest, narrow), _some(total), int(samples), int(nans))


@strict
def float_totals(line: str, narrow: bool) -> Optional[FloatTotals]:
    """
    >>> float_totals("totals least none greatest none samples 3 nans 3", False)
    FloatTotals(least=None, greatest=None, samples=3, nans=3)
    """
    got = words(line, "totals")
    if got == ["none"]:
        return None
    least, greatest, samples, nans = pairs(got, FloatTotals._fields)
    return FloatTotals(_some(least, narrow), _some(greatest, narrow), int(samples), int(nans))


@strict
def span(line: str) -> Optional[Tuple[Fraction, Fraction]]:
    """
    >>> span("range 45000 900003/2")
    (Fraction(45000, 1), Fraction(900003, 2))
    """
    got = words(line, "range")
    if got == ["none"]:
        return None
    if len(got) != 2:
        raise unexpected(line)
    return Fraction(got[0]), Fraction(got[1])


def _fault(line: str) -> Fault:
    """
    >>> _fault("F6 trace 3 first 2")
    Fault(code='F6', trace=3, first=2, text='F6 trace 3 first 2')
    >>> _fault("F8 lines 1").trace
    """
    got = line.split(" ")
    return Fault(got[0], int(got[2]) if got[1] == "trace" else None, int(got[4]) if got[0] == "F6" else None, line)


@strict
def text(line: str) -> str:
    """
    >>> text("line |C 1 A|B|")
    'C 1 A|B'
    """
    if not (line.startswith("line |") and line.endswith("|") and len(line) > 6):
        raise unexpected(line)
    return line[6:-1]
