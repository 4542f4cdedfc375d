"""What the program says of a file: the questions, and the columns that their answers fill."""

from __future__ import annotations

import json
from collections import Counter
from typing import Any, Dict, Iterator, List, Optional, Sequence, Tuple

from .. import answers
from ..asked import FLOATS
from ..problems import problems
from . import tails
from .facts import Facts
from .outlines import Point, hull
from .sieve import HEAD_BYTES
from .talk import Talk, accepted, found, rows

BLOCK_BYTES = 3200
MOST_BLOCKS = 100
POINTS = 50
WHICH = ("inline", "crossline", "offset", "x", "y")
IN_MEMORY_BYTES = 1 << 26
FIRST = (
    "info", "getbin interval", *(f"range {which}" for which in WHICH), "inlines", "crosslines", "code 0", "lines 0", tails.LAST, "extremes 1 last",
)
_GOLDEN = 0.6180339887498949

# Programs that answered `problems` by an unknown word, by path: they are asked for `faults`.
_older: Dict[str, bool] = {}


def options(size: int, option: str) -> List[str]:
    """How a file of so many bytes is read: a large one is left on disk."""
    return [option, *(["--on-disk"] if size > IN_MEMORY_BYTES else [])]


def begin(talk: Talk) -> str:
    """Asks what can be asked of any file, so that the program answers while something else is done here; the report that tells its problems."""
    report = "faults" if _older.get(found().path) else "problems"
    talk.send([*FIRST, report])
    return report


def ask(talk: Talk, facts: Facts, report: str) -> Tuple[int, int]:
    """Fills the columns, behind ``begin``; how many bytes stand in front of the traces, and how many behind them."""
    info = answers.info(talk.one())
    columns = facts.columns
    columns.update(
        byte_order=info.order, revision=info.revision, format=info.format, samples=info.samples, fixed=int(info.fixed), extensions=info.extensions,
        blocks=info.blocks, trailer=info.trailer, traces=info.traces,
    )
    value, *spans = talk.ones(1 + len(WHICH))
    columns["interval"] = answers.number(value, "value")
    for which, span in zip(WHICH, spans):
        columns[f"least_{which}"], columns[f"greatest_{which}"] = _span(span)
    ends = []
    for which in ("inline", "crossline"):
        columns[f"{which}s"], first, last = _lines(talk, which)
        ends += [first, info.traces - last + 1]
    columns["alphabet"] = answers.name(talk.one(), "code")
    facts.texts.append((0, _block(talk.answer())))
    final = tails.last(talk)
    facts.headers = _headers(talk, info.traces)
    facts.problems = _problems(talk, report, info.format)
    _more(talk, facts, info, positions(info.traces, ends))
    columns.update(tails.columns(talk, info, columns["interval"], final))
    # The manual's cut of a file: texts of 3200 bytes behind the two headers, then the traces, then trailer records of 3200 bytes.
    return HEAD_BYTES + BLOCK_BYTES * info.blocks, BLOCK_BYTES * info.trailer


def _lines(talk: Talk, which: str) -> Tuple[int, int, int]:
    """How many inlines (or crosslines) there are, and how many traces the first and the last one have."""
    count = first = last = 0
    for words in rows(talk.answer(), f"{which}s"):
        last = int(words[2])
        first = first or last
        count += 1
    return count, first, last


def _span(line: str) -> Tuple[Any, Any]:
    """The answer to `range`: fractions take long, and nearly all numbers are whole.

    >>> _span("range 45000 900003/2"), _span("range none")
    ((45000.0, 450001.5), (None, None))
    """
    words = line.split(" ")
    if len(words) == 3 and words[0] == "range" and "/" not in line:
        return _bounded(words[1]), _bounded(words[2])
    span = answers.span(line)
    return (None, None) if span is None else (float(span[0]), float(span[1]))


def _bounded(word: str) -> Any:
    """SQLite's whole numbers end at 63 bits."""
    number = int(word)
    return number if abs(number) < 1 << 63 else float(number)


def _block(lines: Iterator[str]) -> str:
    """The lines of a block of text, without the blank ones at its end."""
    head, *told = [*lines] or [""]
    accepted(head)
    if not told:
        return ""
    # A bar stands at both ends of each line, and may stand within one: but no line ends within one.
    text = "\n".join(told)
    cut = text[6:-1].split("|\nline |")
    if text[:6] != "line |" or text[-1:] != "|" or len(cut) != len(told):
        raise answers.unexpected(head)
    return "\n".join(cut).rstrip("\n")


def _headers(talk: Talk, traces: int) -> List[Tuple[str, int, int, int, int]]:
    """The extremes of each field."""
    if traces:
        return [(name, *_four(words)) for _, name, *words in rows(talk.answer(), "extremes")]
    list(talk.answer())  # refused: there is no trace 1
    return []


def _problems(talk: Talk, report: str, form: int) -> Dict[str, int]:
    """How many have each problem, of a program that may not know the report.

    Of `problems` these are traces, of F8 lines of the textual header, of F7 one; of S7 and S8 the
    inlines or crosslines that are missing, of S9 the cells of another fold. A program that does not
    know it is asked for `faults`.
    """
    lines = talk.answer()
    head = next(lines, "")
    if report == "problems" and head.startswith("refused S01 "):
        list(lines)
        _older[found().path] = True
        talk.send(["faults"])
        return _problems(talk, "faults", form)
    accepted(head)
    if report == "problems":
        samples = "f8" if form in FLOATS else "i8"
        return {one.code: one.how_many for one in problems([head, *lines], None, samples)}
    return counted(lines)


def counted(lines: Iterator[str]) -> Dict[str, int]:
    """How many traces or lines each code is told of: it stands once for each, but for ``CODE lines N``.

    >>> counted(iter(["F8 lines 3", "F6 trace 5 first 1", "F6 trace 6 first 2"]))
    {'F6': 2, 'F8': 3}
    """
    told: Counter[str] = Counter()
    for line in lines:
        code, _, rest = line.partition(" ")
        told[code] += int(rest[6:]) if rest.startswith("lines ") and rest[6:].isdigit() else 1
    return dict(sorted(told.items()))


def _more(talk: Talk, facts: Facts, info: answers.Info, points: List[int]) -> None:
    """The questions that need the number of traces or of blocks."""
    blocks = range(1, min(info.blocks, MOST_BLOCKS) + 1)
    if info.traces:
        talk.send([f"geometry {at}" for at in points])
        facts.columns["outline"] = json.dumps(hull([_place(line) for line in talk.ones(len(points))]))
    for block in blocks:
        talk.send([f"lines {block}"])
        facts.texts.append((block, _block(talk.answer())))
    spans = {name: (least, greatest) for name, least, greatest, _, _ in facts.headers}
    scalars = spans.get("scalar", (0, 0) if info.traces else (None, None))
    facts.columns["least_scalar"], facts.columns["greatest_scalar"] = scalars
    facts.columns["least_length"], facts.columns["greatest_length"] = lengths(info, spans.get("samples"), facts.problems.get("F2", 0))


def _place(line: str) -> Point:
    """Where a trace lies, of the answer of `geometry`: floats are enough for an outline, and fractions take long.

    >>> _place("geometry inline 1 crossline 2 offset 0 x 90005/2 y 680000")
    (45002.5, 680000.0)
    """
    words = line.rsplit(" ", 4)
    if len(words) != 5 or words[1] != "x" or words[3] != "y":
        raise answers.unexpected(line)
    return _ratio(words[2]), _ratio(words[4])


def _ratio(word: str) -> float:
    if "/" not in word:
        return float(word)
    above, _, below = word.partition("/")
    return int(above) / int(below)


def _four(words: Sequence[str]) -> Tuple[int, int, int, int]:
    """SQLite's whole numbers end at 63 bits: the few above them, of unsigned fields of eight bytes, are told as that bound."""
    least, greatest, first, last = map(int, words)
    if greatest >= 1 << 63:
        least, greatest, first, last = (min(number, (1 << 63) - 1) for number in (least, greatest, first, last))
    return least, greatest, first, last


def positions(traces: int, ends: Sequence[int]) -> List[int]:
    """Some traces all over the file, without a step that lines of one length could fall in with, and those at the ends of lines.

    Where the traces stand in the order of their lines, these are the corners of the survey.

    >>> positions(3, [1, 3]), len(positions(1000, [10, 991])), positions(1000, [])[-1]
    ([1, 2, 3], 52, 1000)
    """
    if traces <= POINTS:
        return list(range(1, traces + 1))
    middle = {1 + int(traces * (_GOLDEN * step % 1.0)) for step in range(1, POINTS - 1)} | {1, traces}
    return sorted(middle | {at for at in ends if 1 <= at <= traces})


def lengths(info: answers.Info, told: Optional[Tuple[int, int]], wrong: int) -> Tuple[Optional[int], Optional[int]]:
    """The least and the greatest number of samples of a trace, where what the program says settles them.

    ``told`` are the extremes of bytes 115-116, ``wrong`` the number of traces that are not as long as these bytes tell (F2).
    """
    if not info.traces:
        return None, None
    if info.fixed:
        return info.samples, info.samples
    if told is None and not info.extensions:
        return info.samples, info.samples
    return told if told is not None and told[0] > 0 and not wrong else (None, None)

