"""Where the traces lie: points under the scalar of each trace, on axes that hold the survey."""

from __future__ import annotations

from typing import Any, Dict, List, Optional, Tuple

import numpy as np

from . import maps
from .desk import Desk, Shot
from .marks import buries
from .mirror import PLACES

MOST_RINGS = 2000
MOST_BOXES = 200
MOST_POINTS = 4000
MOST_SORTED = 20  # as a power of two: of more traces some are looked at to find the survey
REACH = 2


def positions(desk: Desk, pixels: Tuple[int, int], compare: bool, whole: bool) -> Dict[str, Any]:
    """Where the traces lie: points, or pixels where there are many. What lies far from the survey is counted and not drawn, but where
    the ``whole`` is asked for."""
    now = desk.widen(("x", "y", "scalar"))[1]
    shown = [scaled(now)]
    if compare:
        shown.append(scaled(desk.wide_loaded(("x", "y", "scalar"))))
    near = [np.ones(len(x), dtype=bool) if whole else survey(x, y) for x, y in shown]
    axes = [ends(np.concatenate([one[at][some] for one, some in zip(shown, near)])) for at in (0, 1)]
    drawn = [points(one, some, axes, pixels) for one, some in zip(shown, near)]
    x, y = shown[0]
    zero = int(np.count_nonzero(~near[0] & (x == 0) & (y == 0)))
    return {
        "version": desk.version, "x": axes[0], "y": axes[1], "zero": zero, "far": int(np.count_nonzero(~near[0])) - zero, "traces": len(now.mirror),
        **rings(shifted(desk.before, now), x, y, near[0]), "now": drawn[0], "was": drawn[1] if compare else None,
    }


def scaled(shot: Shot) -> Tuple[Any, Any]:
    """x and y under the scalar."""
    by = shot.mirror.columns["scalar"].astype(np.float64)
    times, over = np.where(by > 0, by, 1.0), np.where(by < 0, -by, 1.0)
    return shot.mirror.columns["x"] * times / over, shot.mirror.columns["y"] * times / over


def spot(desk: Desk, first: int, last: int) -> Dict[str, Any]:
    """Where the traces from one to another lie: boxes of inlines and crosslines around each cell, where these are many around the cells of each inline, or
    around all; and the coordinates of the first of them."""
    now = desk.widen(PLACES)[1]
    part = slice(max(first, 1) - 1, max(last, 1))
    inlines, crosslines = (now.mirror.columns[name][part] for name in ("inline", "crossline"))
    x, y = (one[part][:MOST_BOXES].tolist() for one in scaled(now))
    return {"version": desk.version, "first": first, "last": last, "boxes": boxes_of(inlines, crosslines), "x": x, "y": y}


def boxes_of(inlines: Any, crosslines: Any) -> List[List[int]]:
    """The least and the greatest inline and crossline of each box.

    >>> boxes_of(np.array([7, 7, 9, 7]), np.array([1, 2, 5, 1]))
    [[7, 7, 1, 1], [7, 7, 2, 2], [9, 9, 5, 5]]
    >>> boxes_of(np.repeat([7, 9], 500), np.arange(1000))
    [[7, 7, 0, 499], [9, 9, 500, 999]]
    """
    cells = np.unique(np.stack([inlines, crosslines], axis=1), axis=0)
    if len(cells) <= MOST_BOXES:
        return [[inline, inline, crossline, crossline] for inline, crossline in cells.tolist()]
    lines, starts = np.unique(cells[:, 0], return_index=True)
    last = np.append(starts[1:], len(cells)) - 1
    if len(lines) <= MOST_BOXES:
        lows, highs = cells[starts, 1], cells[last, 1]
        return [[line, line, low, high] for line, low, high in zip(lines.tolist(), lows.tolist(), highs.tolist())]
    return [[int(lines[0]), int(lines[-1]), int(cells[:, 1].min()), int(cells[:, 1].max())]]


def stands(desk: Desk, trace: int) -> Dict[str, Any]:
    """Where the trace stands now that had this position when the file was loaded; 0 where it is gone."""
    found = np.flatnonzero(desk.now().mirror.origin == trace)
    return {"version": desk.version, "trace": int(found[0]) + 1 if len(found) else 0}


def ends(values: Any) -> List[float]:
    """The least and the greatest.

    >>> ends(np.array([3.0, 1.0])), ends(np.array([]))
    ([1.0, 3.0], [0.0, 1.0])
    """
    return [float(values.min()), float(values.max())] if len(values) else [0.0, 1.0]


# ---- the survey, and what lies far from it


def survey(x: Any, y: Any) -> Any:
    """Which traces are near to the survey, the greater part of those that are not at (0, 0).

    >>> survey(np.array([0.0, 7e5, 7e5, 7e5 + 25, 9e9]), np.array([0.0, 5e6, 5e6 + 25, 5e6, 5e6])).tolist()
    [False, True, True, True, False]
    """
    told = (x != 0) | (y != 0)
    if not told.any():
        return ~told
    both = [np.sort(one[told][::1 + (int(told.sum()) >> MOST_SORTED)]) for one in (x, y)]
    starts = [half_of(one) for one in both]
    room = max(most - least for least, most in starts)
    if room == 0:
        return told
    near = np.ones(len(x), dtype=bool)
    for values, ordered, start in zip((x, y), both, starts):
        least, most = grown(ordered, *start, room)
        near &= (values >= least) & (values <= most)
    return near


def half_of(ordered: Any) -> Tuple[float, float]:
    """The ends of the shortest stretch that holds more than half of these rising numbers.

    >>> half_of(np.array([0.0, 0.0, 50.0, 51.0, 53.0]))
    (50.0, 53.0)
    """
    size = len(ordered) // 2 + 1
    at = int(np.argmin(ordered[size - 1:] - ordered[:len(ordered) - size + 1]))
    return float(ordered[at]), float(ordered[at + size - 1])


def grown(ordered: Any, least: float, most: float, room: float) -> Tuple[float, float]:
    """A stretch that takes in what is near to it, until nothing is: nearer than twice its length, or than twice the room. The ends of
    what is near.

    >>> grown(np.array([0.0, 50.0, 51.0, 53.0, 57.0]), 50.0, 51.0, 1.0)
    (36.0, 71.0)
    """
    while True:
        reach = REACH * max(most - least, room)
        first, last = np.searchsorted(ordered, least - reach), np.searchsorted(ordered, most + reach, "right") - 1
        wider = float(ordered[first]), float(ordered[last])
        if wider == (least, most):
            return least - reach, most + reach
        least, most = wider


# ---- what is drawn


def shifted(before: Optional[Shot], now: Shot) -> Any:
    """The rows of the traces that lie elsewhere than before the last edit, where the order of the traces is the same."""
    known = before is not None and "x" in before.mirror.columns and np.array_equal(before.mirror.origin, now.mirror.origin)
    if before is None or not known:
        return np.empty(0, dtype=np.int64)
    return np.flatnonzero(np.logical_or(*(one != other for one, other in zip(scaled(before), scaled(now)))))


def rings(rows: Any, x: Any, y: Any, near: Any) -> Dict[str, Any]:
    """The marks of the traces that moved; where they would bury the others the region of those that are drawn, as ends of x and of y."""
    seen = rows[near[rows]]
    if not buries(len(rows), len(x)) and len(seen) <= MOST_RINGS:
        return {"changed": len(rows), "marks": {"x": x[seen].tolist(), "y": y[seen].tolist()}, "region": None}
    return {"changed": len(rows), "marks": {"x": [], "y": []}, "region": [*ends(x[seen]), *ends(y[seen])] if len(seen) else None}


def points(places: Tuple[Any, Any], near: Any, axes: List[List[float]], pixels: Tuple[int, int]) -> Dict[str, Any]:
    """Points with their positions in the file; many of them as pixels, each with the first trace in it."""
    inside = np.flatnonzero(near)
    x, y = (one[inside] for one in places)
    if len(inside) <= MOST_POINTS:
        return {"kind": "points", "x": x.tolist(), "y": y.tolist(), "trace": (inside + 1).tolist()}
    wide, tall = min(pixels[0], 300), min(pixels[1], 240)
    steps = [(axes[at][1] - axes[at][0]) / (size - 1) or 1.0 for at, size in ((0, wide), (1, tall))]
    at = np.rint((y - axes[1][0]) / steps[1]).astype(np.int64) * wide + np.rint((x - axes[0][0]) / steps[0]).astype(np.int64)
    made = np.full(wide * tall, np.nan)
    made[at[::-1]] = inside[::-1] + 1
    return {"kind": "pixels", "x0": axes[0][0], "y0": axes[1][0], "dx": steps[0], "dy": steps[1], "z": maps.plain(made.reshape(tall, wide))}
