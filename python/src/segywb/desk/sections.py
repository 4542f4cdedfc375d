"""Sections for the page: samples of many traces side by side, under a gain, decimated to the pixels
of the window that is looked at.
"""

from __future__ import annotations

import time
from typing import Any, Dict, List, NamedTuple, Optional, Tuple, TypedDict

import numpy as np

from .. import gains
from ..gains import Gain
from ..lines import word
from ..sections import ALONG, Section, SectionReading
from ..thinning import peaks, starts_of
from ..volume import Volume
from .desk import Desk
from .graphs import span_of
from .views import MOST_RUNS

STYLES = ("density", "wiggles", "both")
SIDES = ("now", "both", "difference")
MOST_SAMPLES = 1 << 24  # of a larger section every second trace, or every third, .. is read
MOST_FIELDS = 3
MOST_KEPT = 4
FEW_TRACES = 2000  # how many traces of a line without bins are shown at first
ROOM = 4  # pixels that a wiggle wants
MOST_MARKS = 500
RECORD = "field_record"
IN_RECORD = "trace_in_record"
LATER = 10  # behind the first look so many times as much is read until the next one
DRAWN = 0.08  # where a look takes more seconds, as on a busy machine, the next are as much rarer
COARSE = (
    8  # every so manieth sample is read first, and stands for those behind it until they are there
)
PIECE = 1 << 18  # samples that are read at once


Key = Tuple[
    str, int, bytes
]  # the side, the version in which its samples became what they are, and its traces


class Asked(NamedTuple):
    """Which traces: those whose ``field`` has a ``value`` (the middle one where none is named), or
    without a field those from ``first`` to ``last``; where a ``trace`` is sought the section of
    that kind which has it.
    """

    field: str
    value: Optional[int]
    first: int
    last: int
    trace: int = 0


class Window(NamedTuple):
    """The part that is looked at, from one trace of the section to behind another and from one
    sample to behind another, and its pixels.
    """

    left: int
    right: int
    top: int
    bottom: int
    wide: int
    tall: int


class Look(NamedTuple):
    """How it is drawn: ``density``, ``wiggles`` or ``both``; what is now, also what was, or their
    difference; the gain; the headers above it; the first and the last of the traces that are marked.
    """

    style: str
    side: str
    gain: Gain
    fields: List[str]
    marked: Tuple[int, int] = (0, 0)


class Header(TypedDict):
    """A field above the section: the least and the greatest number of each column of pixels."""

    name: str
    low: List[int]
    high: List[int]


class Side(TypedDict):
    """A picture: its bytes follow, first those of the density, row by row, then those of the
    wiggles, trace by trace. ``part`` is what it shows: from one trace to behind another and from
    one sample to behind another, and is less than the window where this side has less.
    """

    name: str
    part: List[int]
    rows: int
    columns: int
    wiggles: int
    stride: int
    label: List[int]
    trace: List[int]
    end: float
    odd: int
    marks: List[List[int]]
    headers: List[Header]


class Shots(TypedDict):
    """Records of a file whose traces all have one inline and one crossline, as those of shots (S1):
    how many there are, and the least and the greatest number.
    """

    count: int
    first: int
    last: int
    inline: int
    crossline: int


class Told(TypedDict):
    """What the page gets beside the bytes."""

    version: int
    field: str
    value: Optional[int]
    first: int
    last: int
    along: str
    whole: int
    every: int
    traces: int
    samples: int
    start: float
    step: float
    window: List[int]
    read: float
    back: Optional[int]
    on: Optional[int]
    shots: Optional[Shots]
    sides: List[Side]


class Under(TypedDict):
    """What stands under the pointer. Numbers are sent as texts."""

    version: int
    trace: int
    names: List[str]
    values: List[str]
    sample: Optional[int]
    value: Optional[str]


class Boxed(TypedDict):
    """What lies in a box of a section: how many traces; the first and the last trace of each run of
    them, with the first and the last sample; and whether these are all runs.
    """

    count: int
    runs: List[List[int]]
    all: bool


class Kept(NamedTuple):
    """A section that was read: the positions of its traces, its samples (``gains.plain``), at which
    column each trace begins and how many samples it has, and its times; and how much of it is
    there.
    """

    traces: Any
    values: Any
    begin: Any
    sizes: Any
    start: float
    step: float
    read: float


class Chosen(NamedTuple):
    """The traces of a section: how many were meant, of how many one is taken, and which they are;
    with the numbers before and behind the one meant.
    """

    asked: Asked
    whole: int
    every: int
    traces: Any
    near: Tuple[Optional[int], Optional[int]]


# ---- what is asked


def asked(query: Any) -> Asked:
    """The traces that a query means.

    >>> asked({"field": "inline", "value": "1100"})
    Asked(field='inline', value=1100, first=1, last=0, trace=0)
    >>> asked({"first": "3", "last": "9", "trace": "12"})
    Asked(field='', value=None, first=3, last=9, trace=12)
    """
    field = word(str(query.get("field", "")).strip())
    if " " in field:
        raise ValueError("one field is wanted")
    value = str(query.get("value", "")).strip()
    return Asked(
        field,
        int(value) if value and field else None,
        int(query.get("first", "1")),
        int(query.get("last", "0")),
        int(query.get("trace", "0")),
    )


def look_of(query: Any) -> Look:
    """How a query wants it drawn.

    >>> look_of({"style": "wiggles", "balance": "agc", "window": "250"}).gain
    Gain(percentile=98.0, balance='agc', window=250.0, reverse=False)
    """
    style, side = str(query.get("style", "density")), str(query.get("side", "now"))
    if style not in STYLES or side not in SIDES:
        raise ValueError(f"a section is drawn as {', '.join(STYLES)}, and shows {', '.join(SIDES)}")
    gain = Gain(
        float(query.get("percentile", "98")),
        str(query.get("balance", "none")),
        float(query.get("window", "500")),
        query.get("reverse") == "1",
    )
    fields = [word(one) for one in dict.fromkeys(str(query.get("headers", "")).split())]
    if len(fields) > MOST_FIELDS:
        raise ValueError(
            f"up to {MOST_FIELDS} fields can be drawn above a section, not {len(fields)}"
        )
    first, last = (int(one) for one in str(query.get("marked", "0 0")).split())
    return Look(style, side, gains.checked(gain), fields, (first, last))


def window_of(query: Any) -> Window:
    """The part that a query looks at; 0 for the last of traces or of samples means all of them."""
    left, right, top, bottom = (
        int(query.get(name, "0")) for name in ("left", "right", "top", "bottom")
    )
    wide, tall = (max(16, min(int(query.get(name, "600")), 4000)) for name in ("wide", "tall"))
    return Window(left, right, top, bottom, wide, tall)


def part(first: int, last: int, count: int) -> Tuple[int, int]:
    """A part of so many things, of which at least one is in it where there is one.

    >>> part(3, 0, 12), part(-5, 900, 12), part(30, 40, 12), part(0, 0, 0)
    ((3, 12), (0, 12), (11, 12), (0, 0))
    """
    end = min(last, count) if last > 0 else count
    low = max(0, min(first, count - 1))
    return low, max(end, min(low + 1, count))


# ---- which traces


def automatic(desk: Desk) -> Asked:
    """The section that is looked at first: the middle inline of a grid, else the first record of a
    file of shots, else the first traces.
    """
    now = desk.now()
    if now.inlines.shape[1] > 1 and now.crosslines.shape[1] > 1:
        return Asked("inline", None, 1, 0)
    found = shots(desk)
    if found is not None and found["count"] > 1:
        return Asked(RECORD, int(desk.now().mirror.columns[RECORD][0]), 1, 0)
    return Asked("", None, 1, min(len(now.mirror), FEW_TRACES))


def shots(desk: Desk) -> Optional[Shots]:
    """The records of a file of which ``problems`` tells S1: two or more traces, all of one inline
    and one crossline; none where its traces have no numbers in their records.
    """
    now = desk.now()
    if len(now.mirror) < 2 or now.inlines.shape[1] > 1 or now.crosslines.shape[1] > 1:
        return None
    columns = desk.widen([RECORD, IN_RECORD])[1].mirror.columns
    if len(np.unique(columns[IN_RECORD])) < 2:
        return None
    numbers = np.unique(columns[RECORD])
    return {
        "count": len(numbers),
        "first": int(numbers[0]),
        "last": int(numbers[-1]),
        "inline": int(now.inlines[0][0]),
        "crossline": int(now.crosslines[0][0]),
    }


def sought(mirror: Any, told: Asked) -> Asked:
    """The section of the same kind that has the trace which is sought."""
    trace, told = min(told.trace, len(mirror)), told._replace(trace=0)
    if trace < 1:
        return told
    if told.field:
        return told._replace(value=int(mirror.columns[told.field][trace - 1]))
    first, last = span_of(told.first, told.last, len(mirror))
    if first <= trace <= last:
        return told
    size = last - first + 1
    first = max(1, min(trace - size // 2, len(mirror) - size + 1))
    return told._replace(first=first, last=first + size - 1)


def choose(mirror: Any, told: Asked, samples: int) -> Chosen:
    """The traces of a section in this order of headers."""
    near: Tuple[Optional[int], Optional[int]] = (None, None)
    told = sought(mirror, told)
    if told.field:
        column = mirror.columns[told.field]
        numbers = np.unique(column)
        value = (
            told.value
            if told.value is not None
            else int(numbers[len(numbers) // 2])
            if len(numbers)
            else 0
        )
        told = told._replace(value=value)
        found = np.flatnonzero(column == value)
        if told.field in ALONG:
            found = found[np.argsort(mirror.columns[ALONG[told.field]][found], kind="stable")]
        at, behind = np.searchsorted(numbers, value), np.searchsorted(numbers, value, "right")
        near = (
            int(numbers[at - 1]) if at else None,
            int(numbers[behind]) if behind < len(numbers) else None,
        )
    else:
        first, last = span_of(told.first, told.last, len(mirror))
        told = told._replace(first=first, last=last)
        found = np.arange(first - 1, last)
    every = max(1, -(-len(found) * max(samples, 1) // MOST_SAMPLES))
    return Chosen(told, len(found), every, found[::every] + 1, near)


# ---- the samples


class Sections:
    """The sections, and those that were read last with what was made of them."""

    def __init__(self, seconds: float = float("inf")) -> None:
        """``seconds``: for how long a section is read before what is there is shown."""
        self._seconds = seconds
        self._drawn = 0.0
        self._read: List[Tuple[Key, Kept]] = []
        self._readings: Dict[str, Tuple[Key, Volume, SectionReading]] = {}
        self._made: List[Tuple[Tuple[int, Gain], Tuple[Any, Any], float]] = []

    def view(self, desk: Desk, told: Asked, window: Window, look: Look) -> Tuple[Told, bytes]:
        """A section as the page draws it: what is told of it, and the bytes of its pictures."""
        told = automatic(desk)._replace(trace=told.trace) if told.field == "auto" else told
        names = [*([told.field] if told.field else []), *look.fields]
        now = desk.widen(names)[1].mirror
        samples = int(desk.now().told["info"].split(" samples ")[1].split(" ")[0])
        chosen = choose(now, told, samples)
        sides = self._sides(desk, chosen, look, now, samples)
        begun = time.monotonic()
        traces, times = max(len(one.traces) for _, one, _ in sides), max(
            one.values.shape[1] for _, one, _ in sides
        )
        (left, right), (top, bottom) = part(window.left, window.right, traces), part(
            window.top, window.bottom, times
        )
        window = Window(left, right, top, bottom, window.wide, window.tall)
        wide = window._replace(wide=max(16, window.wide // len(sides)))
        drawn = [
            self._side(name, kept, wide, look, mirror, chosen.asked) for name, kept, mirror in sides
        ]
        first = sides[0][1]
        answer: Told = {
            "version": desk.version,
            "field": chosen.asked.field,
            "value": chosen.asked.value,
            "first": chosen.asked.first,
            "last": chosen.asked.last,
            "along": ALONG.get(chosen.asked.field, "trace"),
            "whole": chosen.whole,
            "every": chosen.every,
            "traces": traces,
            "samples": times,
            "start": first.start,
            "step": first.step,
            "window": [left, right, top, bottom],
            "read": min(one.read for _, one, _ in sides),
            "back": chosen.near[0],
            "on": chosen.near[1],
            "shots": shots(desk),
            "sides": [one for one, _ in drawn],
        }
        self._drawn = time.monotonic() - begun
        return answer, b"".join(made for _, made in drawn)

    def _sides(
        self, desk: Desk, chosen: Chosen, look: Look, now: Any, samples: int
    ) -> List[Tuple[str, Kept, Any]]:
        """What is shown side by side: its name, its samples, and the headers of its traces."""
        kept = self._kept(desk, desk.volume, "now", desk.sampled, chosen.traces)
        if look.side == "now":
            return [("now", kept, now)]
        if look.side == "difference":
            origin = now.origin[chosen.traces - 1]
            was = self._kept(desk, desk.original, "was", desk.opened_at, origin[origin > 0])
            return [("difference", difference(kept, was, origin), now)]
        names = [
            one
            for one in (chosen.asked.field, ALONG.get(chosen.asked.field, ""), *look.fields)
            if one
        ]
        loaded = desk.wide_loaded(names).mirror
        earlier = choose(loaded, chosen.asked, samples)
        return [
            ("was", self._kept(desk, desk.original, "was", desk.opened_at, earlier.traces), loaded),
            ("now", kept, now),
        ]

    def _kept(self, desk: Desk, volume: Volume, side: str, version: int, traces: Any) -> Kept:
        """The samples of these traces, of the file as it is or was: read anew where an edit may
        have changed samples or positions since.
        """
        key = (version, traces.tobytes())
        for known, kept in self._read:
            if known == (side, *key):
                return kept
        reading = self._reading(volume, side, key, traces)
        later = LATER * max(1.0, self._drawn / DRAWN)
        until = time.monotonic() + self._seconds * (later if reading.part else 1)
        try:
            while not reading.done:
                reading.more(PIECE)
                if time.monotonic() >= until:
                    break  # what is there is shown, and the page asks again
        except BaseException:
            self._readings.pop(side, None)
            raise
        kept = kept_of(reading.section, reading.part)
        if reading.done:
            self._readings.pop(side, None)
            self._read = [((side, *key), kept), *self._read[: MOST_KEPT - 1]]
        return kept

    def _reading(
        self, volume: Volume, side: str, key: Tuple[int, bytes], traces: Any
    ) -> SectionReading:
        """The reading that was begun, or a new one: of each side one at a time."""
        known = self._readings.get(side)
        if known is not None and known[0] == (side, *key) and known[1] is volume:
            return known[2]
        reading = volume.section_reading(traces, COARSE)
        self._readings[side] = ((side, *key), volume, reading)
        return reading

    def under(self, desk: Desk, trace: int, column: int, names: List[str]) -> Under:
        """What stands under the pointer: the headers of a trace, and its sample at a column of the
        section, as the program tells it.
        """
        rows = desk.volume.headers(*names, traces=trace)
        told: Under = {
            "version": desk.version,
            "trace": trace,
            "names": names,
            "values": [str(one) for one in rows.tolist()[0]],
            "sample": None,
            "value": None,
        }
        for (side, version, _), kept in self._read:
            at = (
                np.flatnonzero(kept.traces == trace)
                if (side, version) == ("now", desk.sampled)
                else np.empty(0, dtype=np.int64)
            )
            if len(at) and column >= kept.begin[at[0]]:
                sample = column - int(kept.begin[at[0]])
                (answer,) = desk.volume.run([f"sample {trace} {sample}"])
                if answer.text.startswith("value "):
                    told["sample"], told["value"] = sample, answer.text[len("value ") :]
                break
        return told

    def boxed(self, desk: Desk, told: Asked, box: Window) -> Boxed:
        """The samples of what is now that lie in a box of a section, trace by trace."""
        now = desk.widen([told.field] if told.field else [])[1].mirror
        samples = int(desk.now().told["info"].split(" samples ")[1].split(" ")[0])
        chosen = choose(now, told, samples)
        if chosen.every > 1:
            few = "choose a section of fewer traces"
            raise ValueError(f"one trace of {chosen.every} is shown: {few}")
        return boxed(self._kept(desk, desk.volume, "now", desk.sampled, chosen.traces), box)

    def _codes(self, kept: Kept, gain: Gain) -> Tuple[Any, float]:
        """Its samples as bytes under a gain, a row for each time; and where the colours end."""
        key = (id(kept.values), gain)
        for known, made, end in self._made:
            if known == key:
                return made[0], end
        values, end = gains.gained(kept.values, kept.step, gain)
        codes = np.ascontiguousarray(gains.codes(values, end).T)
        self._made = [
            (key, (codes, kept.values), end),
            *self._made[: MOST_KEPT - 1],
        ]  # with the samples, so that their number stays theirs
        return codes, end

    def _side(
        self, name: str, kept: Kept, window: Window, look: Look, mirror: Any, told: Asked
    ) -> Tuple[Side, bytes]:
        """One picture."""
        codes, end = self._codes(kept, look.gain)
        some = codes[window.top : window.bottom, window.left : window.right]
        density = (
            peaks(some, window.tall, window.wide)
            if look.style != "wiggles"
            else np.empty((0, 0), dtype=np.int8)
        )
        stride = max(1, -(-some.shape[1] * ROOM // window.wide))
        wiggles = (
            peaks(some[:, stride // 2 :: stride], window.tall, some.shape[1] or 1).T
            if look.style != "density"
            else np.empty((0, 0), dtype=np.int8)
        )
        columns = min(some.shape[1], window.wide)
        traces = kept.traces[window.left : window.right]
        starts = starts_of(len(traces), columns) if columns else np.empty(0, dtype=np.int64)
        side: Side = {
            "name": name,
            "part": [
                window.left,
                window.left + some.shape[1],
                window.top,
                window.top + some.shape[0],
            ],
            "rows": min(some.shape[0], window.tall),
            "columns": columns,
            "wiggles": len(wiggles),
            "stride": stride,
            "label": labels(mirror, told, traces[starts]),
            "trace": traces[starts].tolist(),
            "end": end,
            "odd": int(np.count_nonzero(some == gains.LACKS)),
            "marks": marks(kept.traces, look.marked) if name != "was" else [],
            "headers": [header(mirror, field, traces, starts) for field in look.fields],
        }
        return (
            side,
            np.ascontiguousarray(density).tobytes() + np.ascontiguousarray(wiggles).tobytes(),
        )


def kept_of(found: Section, read: float) -> Kept:
    """A section as it is kept, and how much of it is read."""
    masked: Any = np.ma.getmaskarray  # it is not typed
    there = ~masked(found.array)
    begin = there.argmax(axis=1) if there.shape[1] else np.zeros(len(there), dtype=np.int64)
    step = float(found.times[1] - found.times[0]) if len(found.times) > 1 else 0.0
    return Kept(
        found.traces,
        gains.plain(found.array),
        begin,
        there.sum(axis=1),
        float(found.times[0]) if len(found.times) else 0.0,
        step,
        read,
    )


def boxed(kept: Kept, box: Window) -> Boxed:
    """The samples in a box, as runs of traces that follow one another in the file and have the same
    of theirs in it.
    """
    some = slice(max(box.left, 0), max(box.right, 0))
    first = np.maximum(box.top - kept.begin[some], 0)
    last = np.minimum(box.bottom - 1 - kept.begin[some], kept.sizes[some] - 1)
    order = np.argsort(kept.traces[some], kind="stable")
    order = order[first[order] <= last[order]]
    rows = np.stack([kept.traces[some], first, last], axis=1)[order]
    breaks = np.flatnonzero((np.diff(rows, axis=0) != (1, 0, 0)).any(axis=1)) + 1
    parts = [one for one in np.split(rows, breaks)[:MOST_RUNS] if len(one)]
    runs = [[int(one[0][0]), *map(int, one[-1])] for one in parts]
    return {"count": len(rows), "runs": runs, "all": len(breaks) < MOST_RUNS}


def difference(now: Kept, was: Kept, origin: Any) -> Kept:
    """What is now less what was of the same trace: of a trace that is new all of it."""
    values = now.values.copy()
    old = np.flatnonzero(origin > 0)
    shift = int(round((was.start - now.start) / now.step)) if now.step else 0
    columns = np.arange(was.values.shape[1]) + shift
    inside = (columns >= 0) & (columns < values.shape[1])
    values[np.ix_(old, columns[inside])] -= was.values[:, inside]
    return now._replace(values=values, read=min(now.read, was.read))


def marks(traces: Any, marked: Tuple[int, int]) -> List[List[int]]:
    """The columns of the section that have these traces, from one to behind another.

    >>> marks(np.array([4, 9, 5, 6, 20]), (5, 9))
    [[1, 4]]
    """
    found = np.flatnonzero((traces >= marked[0]) & (traces <= marked[1]))
    parts = np.split(found, np.flatnonzero(np.diff(found) != 1) + 1) if len(found) else []
    return [[int(one[0]), int(one[-1]) + 1] for one in parts[:MOST_MARKS]]


def labels(mirror: Any, told: Asked, traces: Any) -> List[int]:
    """The numbers of the axis for these traces: crosslines of an inline, inlines of a crossline,
    else positions.
    """
    along = ALONG.get(told.field)
    return [int(one) for one in (mirror.columns[along][traces - 1] if along else traces)]


def header(mirror: Any, field: str, traces: Any, starts: Any) -> Header:
    """The numbers of a field above the section."""
    if not len(starts) or field not in mirror.columns:
        return {"name": field, "low": [], "high": []}
    numbers = mirror.columns[field][traces - 1]
    return {
        "name": field,
        "low": np.minimum.reduceat(numbers, starts).tolist(),
        "high": np.maximum.reduceat(numbers, starts).tolist(),
    }
