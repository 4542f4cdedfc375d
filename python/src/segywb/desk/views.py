"""What the page asks for, as plain values that become JSON."""

from __future__ import annotations

from typing import Any, Dict, List, NamedTuple, Optional, Tuple

import numpy as np

from .. import answers
from ..answers import FORMATS, MEANINGS
from ..errors import Refused
from ..history import Step
from ..volume import Volume
from . import maps
from .bundles import Bundle, bundle_for, farthest
from .desk import RANGES, Desk, Shot, clean, span
from .faults import counts as fault_counts
from .faults import window
from .problems import Kept
from .marks import marked

UNITS = {2: "seconds of arc", 3: "degrees", 4: "degrees, minutes, seconds"}
LENGTHS = {1: "m", 2: "ft"}
MOST_RUNS = 20000
# Problems are found by a look at each trace: of more than these the page asks for them when it is told to.
MOST_LOOKED_AT = 1_000_000
MOST_STEPS = 300
MOST_ROWS = 500


class Window(NamedTuple):
    """How large a map is, in pixels, and whether the survey as it was loaded stands beside it."""

    pixels: Tuple[int, int]
    compare: bool


# ---- numbers


def state(desk: Desk) -> Dict[str, Any]:
    """The file, its numbers now, as loaded and before the last step, and what can be taken back."""
    now, before = desk.now(), desk.before
    volume = desk.volume
    info = answers.info(now.told["info"])
    return {
        "version": desk.version, "file": clean(desk.path), "out": clean(desk.out) if desk.out else None, "opaque": desk.opaque, "large": desk.large,
        "costly": bool(desk.large) or len(now.mirror) > MOST_LOOKED_AT,
        "traces": len(now.mirror), "samples": info.samples, "tail": info.tail or 0,
        "edits": sum(step.size for step in volume.steps), "reading": " ".join(desk.reading), "declarable": desk.declarable, "recovered": desk.recovered, "undoable": volume.undoable, "redoable": volume.redoable,
        "fields": answers.fields(now.told["fields"].split("\n")), **facts(volume),
        "numbers": numbers(now), "loaded": numbers(desk.loaded), "before": numbers(before) if before else None,
    }


def facts(volume: Volume) -> Dict[str, Any]:
    """The interval of the samples in milliseconds, and the unit of the coordinates."""
    got = [one.text for one in volume.run(["getbin interval", "getbin measurement", "get 1 coordinate_units"])]
    interval, measurement, units = (int(text[6:]) if text.startswith("value ") else 0 for text in got)
    unit = LENGTHS.get(measurement, "length, unit not told") if units in (0, 1) else UNITS.get(units, "unit not told")
    return {"interval": interval / 1000, "unit": unit}


def numbers(shot: Shot) -> List[List[str]]:
    """The numbers of a shot, each with its name."""
    info = answers.info(shot.told["info"])
    made = [
        ["traces", str(info.traces)], ["bytes", str(info.bytes)], ["samples of a trace", str(info.samples)],
        ["format", f"{info.format} ({FORMATS.get(info.format, 'unknown')})"], ["byte order", info.order], ["revision", info.revision],
        ["fixed length", "yes" if info.fixed else "no"], ["header extensions", str(info.extensions)],
        ["extended textual headers", str(info.blocks)], ["data trailer records", str(info.trailer)],
        *([["bytes behind the last trace", str(info.tail)]] if info.tail is not None else []),
    ]
    for which in RANGES:
        found = span(shot.told[f"range {which}"])
        made.append([which, " to ".join(found) if found else "none"])
    made += [["different inlines", str(shot.inlines.shape[1])], ["different crosslines", str(shot.crosslines.shape[1])]]
    times = histogram_of(shot)
    made += [["cells with traces", str(sum(count for _, count in times))]]
    made += [["folds", f"{times[0][0]} to {times[-1][0]}" if times else "none"]]
    return made + totals(shot.told["totals"])


def totals(told: str) -> List[List[str]]:
    """The samples of all traces; a refusal in its own words."""
    if told.startswith("refused "):
        return [["all samples", told]]
    found = answers.words(told, "totals")
    named = dict(zip(found[0::2], found[1::2]))
    last = ["samples that are no numbers", "nans"] if "nans" in named else ["sum of the samples", "sum"]
    rows = [["least sample", "least"], ["greatest sample", "greatest"], last, ["all samples", "samples"]]
    return [[name, named.get(word, "none")] for name, word in rows]


def histogram_of(shot: Shot) -> List[Tuple[int, int]]:
    """The folds that occur, with the numbers of their cells."""
    return list(answers.counts(shot.told["histogram"].split("\n"), "histogram", "times").items())


def histogram(desk: Desk, compare: bool) -> Dict[str, Any]:
    """The bars."""
    return {"version": desk.version, "now": histogram_of(desk.now()), "was": histogram_of(desk.loaded) if compare else None}


# ---- maps


def joined(one: Any, other: Any) -> Any:
    """The numbers of two axes as one."""
    return np.union1d(one, other)


def on_axes(shot: Shot, down: maps.Axis, right: maps.Axis) -> Tuple[Any, Any]:
    """The inlines and crosslines of those traces that lie on the axes."""
    inlines, crosslines = shot.mirror.columns["inline"], shot.mirror.columns["crossline"]
    if np.isin(shot.inlines[0], down.numbers).all() and np.isin(shot.crosslines[0], right.numbers).all():
        return inlines, crosslines
    here = np.isin(inlines, down.numbers) & np.isin(crosslines, right.numbers)
    return inlines[here], crosslines[here]


def cells_of(desk: Desk, shot: Shot, down: maps.Axis, right: maps.Axis) -> maps.Cells:
    """The folds of a shot on these axes. The last ones are kept: what is now is what was before, one step later."""
    for known, inlines, crosslines, cells in desk.kept_cells:
        if known is shot.mirror and np.array_equal(inlines.numbers, down.numbers) and np.array_equal(crosslines.numbers, right.numbers):
            return cells
    cells = maps.folds(*on_axes(shot, down, right), down, right)
    desk.kept_cells = [(shot.mirror, down, right, cells), *desk.kept_cells[:2]]
    return cells


def moved(one: Shot, other: Shot) -> bool:
    """Whether the inlines and crosslines of both are others, as far as is seen without a look at each."""
    return any(one.mirror.columns[name] is not other.mirror.columns[name] for name in ("inline", "crossline"))


def fold(desk: Desk, window: Window) -> Dict[str, Any]:
    """The fold map."""
    now, other = desk.now(), desk.loaded if window.compare else desk.before
    ends = [now.inlines[0], now.crosslines[0]]
    lacking = [maps.missing(one) for one in ends]
    if window.compare:
        ends = [joined(ends[0], desk.loaded.inlines[0]), joined(ends[1], desk.loaded.crosslines[0])]
    down, right = maps.axis_of(ends[0]), maps.axis_of(ends[1])
    cells = cells_of(desk, now, down, right)
    others = cells_of(desk, other, down, right) if other is not None and moved(other, now) else None
    shown = [cells, others if others is not None else cells] if window.compare else [cells]
    bundle = bundle_for(down, right, window.pixels, shown)
    usual = maps.usual_of(cells)
    pictures = [maps.plain(farthest(one, bundle, usual, True)) for one in shown]
    return {
        "version": desk.version, "usual": usual, "missing": lacking, **framed(down, right, bundle, pictures), **changes(others, cells, bundle),
        **maps.colour_end([one.values for one in shown], usual),
    }


def framed(down: maps.Axis, right: maps.Axis, bundle: Bundle, pictures: List[Any]) -> Dict[str, Any]:
    """The pictures of a map on their axes: what is now, and where it is asked what was."""
    return {
        "down": maps.shown_axis(down, bundle.down), "right": maps.shown_axis(right, bundle.right), "bundle": [bundle.tall, bundle.wide],
        "now": pictures[0], "was": pictures[1] if len(pictures) > 1 else None,
    }


def changes(was: Optional[maps.Cells], now: maps.Cells, bundle: Bundle) -> Dict[str, Any]:
    """The marks of the cells that changed, where it is known what was."""
    none = np.empty(0, dtype=np.int64)
    rows, columns = maps.differing(was, now, max(len(bundle.right), 1)) if was is not None else (none, none)
    return marked(rows, columns, bundle, max(len(now.rows), len(was.rows) if was is not None else 0))


class Slices:
    """Slices, and the one that was shown last: what has changed in it is marked."""

    def __init__(self) -> None:
        self._last: Optional[Tuple[int, int, Any]] = None
        self._earlier: Optional[Any] = None

    def rows(self, desk: Desk, sample: int) -> Tuple[Any, Optional[Any]]:
        """The rows of a slice, and those that were shown before the last edit where they are known."""
        if self._last is None or self._last[:2] != (sample, desk.version):
            found = desk.volume.slice(sample).rows
            self._earlier = self._last[2] if self._last is not None and self._last[:2] == (sample, desk.edited) else None
            self._last = (sample, desk.version, found)
        return self._last[2], self._earlier

    def view(self, desk: Desk, sample: int, window: Window, whole: bool) -> Dict[str, Any]:
        """The map of a slice."""
        try:
            rows, earlier = self.rows(desk, sample)
            other = desk.bring_original(sample) if window.compare else earlier
        except Refused as refusal:
            return {"version": desk.version, "refused": refusal.answer}
        ends = [np.unique(rows[name]) for name in ("inline", "crossline")]
        if window.compare:
            ends = [joined(end, np.unique(other[name])) for end, name in zip(ends, ("inline", "crossline"))]
        down, right = maps.axis_of(ends[0]), maps.axis_of(ends[1])
        cells = sliced(rows, down, right, True)
        others = sliced(other, down, right, window.compare) if other is not None else None
        shown = [cells, others] if window.compare and others is not None else [cells]
        bundle = bundle_for(down, right, window.pixels, shown)
        pictures = [maps.plain(farthest(one, bundle, 0, False)) for one in shown]
        return {
            "version": desk.version, "sample": sample, "rows": len(rows), "odd": int((~np.isfinite(rows["value"])).sum()), **framed(down, right, bundle, pictures), **changes(others, cells, bundle),
            **amplitude(np.concatenate([one.values for one in shown]), whole),
        }


def sliced(rows: Any, down: maps.Axis, right: maps.Axis, inside: bool) -> maps.Cells:
    """The cells of a slice; of several traces in a cell the sample farthest from zero. Rows rise by inline and crossline. Where they
    need not be ``inside`` of the axes, those that are not are left out; so are floats that are no finite numbers."""
    rows = rows[np.isfinite(rows["value"])]
    if not inside:
        rows = rows[np.isin(rows["inline"], down.numbers) & np.isin(rows["crossline"], right.numbers)]
    wide = max(len(right), 1)
    keys = down.places(rows["inline"]) * wide + right.places(rows["crossline"])
    values = rows["value"].astype(np.float64)
    if not len(keys):
        return maps.Cells(keys, keys, values)
    starts = np.flatnonzero(np.concatenate([[True], keys[1:] != keys[:-1]]))
    if len(starts) < len(keys):
        most, least = np.maximum.reduceat(values, starts), np.minimum.reduceat(values, starts)
        values = np.where(most >= -least, most, least)
        keys = keys[starts]
    return maps.Cells(keys // wide, keys % wide, values)


def amplitude(values: Any, whole: bool) -> Dict[str, Any]:
    """Where the colours of a slice end, to both sides: at the 98th percentile, or at the greatest."""
    sizes = np.abs(values)
    most = float(sizes.max()) if len(sizes) else 0.0
    end = most if whole or not len(sizes) else float(np.percentile(sizes, 98)) or most
    return {"most": most, "end": end or 1.0, "beyond": int((sizes > end).sum())}


# ---- traces


def within(desk: Desk, box: Tuple[int, int, int, int]) -> Any:
    """The positions of the traces between two inlines and two crosslines."""
    columns = desk.now().mirror.columns
    inline, crossline = columns["inline"], columns["crossline"]
    return np.flatnonzero((inline >= box[0]) & (inline <= box[1]) & (crossline >= box[2]) & (crossline <= box[3])) + 1


def cell(desk: Desk, box: Tuple[int, int, int, int]) -> Dict[str, Any]:
    """The traces of a cell, or of a pixel: the first ones, and their number."""
    found = within(desk, box)
    return {"count": len(found), "traces": found[:12].tolist()}


def select(desk: Desk, box: Tuple[int, int, int, int]) -> Dict[str, Any]:
    """The traces of a rectangle as runs of positions."""
    return {"version": desk.version, **runs_of(within(desk, box))}


def runs_of(found: Any) -> Dict[str, Any]:
    """Rising positions as runs that follow one another; the first ones where there are very many."""
    breaks = np.flatnonzero(np.diff(found) != 1) + 1
    firsts = found[np.concatenate([[0], breaks])] if len(found) else found
    lasts = found[np.concatenate([breaks - 1, [len(found) - 1]])] if len(found) else found
    runs = [[int(first), int(last)] for first, last in zip(firsts[:MOST_RUNS], lasts[:MOST_RUNS])]
    return {"count": len(found), "runs": runs, "all": len(firsts) <= MOST_RUNS}


def place(desk: Desk, trace: int) -> Dict[str, Any]:
    """The inline and the crossline of a trace."""
    columns = desk.now().mirror.columns
    return {"inline": int(columns["inline"][trace - 1]), "crossline": int(columns["crossline"][trace - 1])}


def table(desk: Desk, first: int, size: int, names: List[str], compare: bool) -> Dict[str, Any]:
    """A window of the header table. Numbers are sent as texts: 8 bytes do not fit into those of the page."""
    mirror = desk.now().mirror
    first = max(1, min(first, len(mirror)))
    last = min(first + min(size, MOST_ROWS) - 1, len(mirror))
    try:
        rows = told(desk.volume, names, range(first, last + 1))
    except (Refused, ValueError) as error:
        return {"version": desk.version, "error": clean(getattr(error, "answer", str(error)))}
    origin = mirror.origin[first - 1:last].tolist()
    was = None
    if compare:
        known = [one for one in origin if one > 0]
        by = dict(zip(known, told(desk.original, names, known)))
        was = [by.get(one) for one in origin]
    return {"version": desk.version, "first": first, "names": names, "rows": rows, "origin": origin, "was": was, "traces": len(mirror)}


def told(volume: Volume, names: List[str], traces: Any) -> List[List[str]]:
    """The numbers of these fields of the traces."""
    if not len(traces):
        return []
    got = volume.headers(*names, traces=traces)
    return [[str(number) for number in row] for row in got.tolist()]


def extremes(desk: Desk) -> Dict[str, Any]:
    """The headers that are used: each named field whose numbers are not all 0, with the least, the greatest, the first and the last."""
    found = desk.volume.extremes()
    return {"version": desk.version, "rows": [[name, *map(str, numbers)] for name, numbers in found.items()]}


def problems(desk: Desk, kept: Kept) -> Dict[str, Any]:
    """All that is wrong or doubtful, in groups."""
    return {"version": desk.version, "problems": kept.answer(desk.volume, desk.version)}


def faults(desk: Desk, answer: bytes) -> Dict[str, Any]:
    """The faults counted by their codes."""
    found = fault_counts(answer)
    return {"version": desk.version, "counts": [{"code": code, "count": count, "meaning": MEANINGS[code]} for code, count in found.items()]}


def fault_window(desk: Desk, answer: bytes, code: str, skip: int) -> Dict[str, Any]:
    """Some faults of one code."""
    return {"version": desk.version, "code": code, "skip": skip, "faults": window(answer, code, skip, 100) if code in MEANINGS else []}


# ---- texts and edits


def texts(desk: Desk, block: int, compare: bool) -> Dict[str, Any]:
    """The lines of a block of text."""
    volume = desk.volume
    was = desk.original.text_block(block) if compare else None
    return {"version": desk.version, "block": block, "blocks": volume.info.blocks, "code": volume.code(block),
            "lines": volume.text_block(block), "was": was, "stanzas": [[one.block, clean(one.name)] for one in volume.stanzas()]}


def edits(desk: Desk) -> Dict[str, Any]:
    """The steps, the last ones where there are many; and those that were taken back."""
    done = desk.volume.steps
    steps = done[-MOST_STEPS:]
    return {
        "version": desk.version, "steps": [brief(step) for step in steps], "before": len(done) - len(steps),
        "undone": [brief(step) for step in desk.volume.undone_steps[:20]], "lines": sum(step.size for step in done),
        "words": " ".join(["segywb FILE", *desk.words, "--script"]),
    }


def brief(step: Step) -> Dict[str, Any]:
    """A step by its first and its last line."""
    return {"count": step.size, "first": clean(step.first[:200]), "last": clean(step.last[:200])}
