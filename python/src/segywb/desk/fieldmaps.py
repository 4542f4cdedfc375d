"""Maps coloured by the fold, by a header field or by the misfit of coordinates: bins by their numbers, or where they lie."""

from __future__ import annotations

from typing import Any, Dict, NamedTuple, Optional, Tuple

import numpy as np

from .. import fitting
from ..errors import FitRefused
from ..lines import word
from . import maps, places
from .bundles import bundle_for
from .desk import Desk, Shot
from .mirror import PLACES, Mirror
from .views import Window, framed

HOWS = ("least", "mean", "greatest")
FOLD, MISFIT = "fold", "misfit"
MOST_POINTS = 3000
WIDE, TALL = 360, 260
MOST_DENSE = 1 << 22


class Asked(NamedTuple):
    """What the colours mean (``fold``, ``misfit`` or a field), which number of a cell counts, whether bins lie at their coordinates, and whether the
    colours go to the least and the greatest number."""

    colour: str
    how: str
    lying: bool
    whole: bool


class Bins(NamedTuple):
    """Cells that have traces: their inlines and crosslines, a number for each, where they lie, and the first trace of each."""

    inline: Any
    crossline: Any
    value: Any
    x: Any
    y: Any
    trace: Any


def asked(query: Any) -> Asked:
    """What a query asks for.

    >>> asked({"colour": "x", "how": "least", "place": "lying"})
    Asked(colour='x', how='least', lying=True, whole=False)
    """
    how, place = str(query.get("how", "mean")), str(query.get("place", "number"))
    if how not in HOWS or place not in ("number", "lying"):
        raise ValueError("least, mean or greatest of a cell, and number or lying for its place")
    colour = word(str(query["colour"]).strip())
    if not colour or " " in colour:
        raise ValueError("a colour is fold, misfit or one field")
    return Asked(colour, how, place == "lying", query.get("all") == "1")


def grouped(group: Any, values: Any, count: int, how: str) -> Any:
    """The least, the mean or the greatest of the values of each of so many groups; each group has some.

    >>> [grouped(np.array([0, 1, 0]), np.array([1.0, 5.0, 4.0]), 2, how).tolist() for how in HOWS]
    [[1.0, 5.0], [2.5, 5.0], [4.0, 5.0]]
    """
    if how == "mean":
        return np.bincount(group, weights=values, minlength=count) / np.maximum(np.bincount(group, minlength=count), 1)
    order = np.argsort(group, kind="stable")
    starts = np.searchsorted(group[order], np.arange(count))
    end: Any = np.minimum if how == "least" else np.maximum
    return end.reduceat(values[order], starts) if count else np.empty(0)


class FieldMaps:
    """The maps, and the grid that was fitted last: it is that of the survey until its numbers change."""

    def __init__(self) -> None:
        self._fit: Optional[Tuple[Mirror, Optional[fitting.Fit], str]] = None

    def fit(self, shot: Shot) -> Tuple[Optional[fitting.Fit], str]:
        """The grid of the survey, or why there is none."""
        if self._fit is None or self._fit[0] is not shot.mirror:
            columns = shot.mirror.columns
            found: Optional[fitting.Fit] = None
            why = ""
            try:
                found = fitting.fitted(columns["inline"], columns["crossline"], *places.scaled(shot), fitting.rounding(np.unique(columns["scalar"])))
            except FitRefused as refusal:
                why = str(refusal)
            self._fit = (shot.mirror, found, why)
        return self._fit[1:]

    def view(self, desk: Desk, told: Asked, window: Window) -> Dict[str, Any]:
        """The map."""
        names = [*PLACES, *([told.colour] if told.colour not in (FOLD, MISFIT) else [])]
        now = desk.widen(names)[1]
        fit, why = self.fit(now)
        about = {"version": desk.version, "traces": len(now.mirror), "colour": told.colour, "how": told.how, "grid": grid(fit), "why": why}
        if told.colour == MISFIT and fit is None:
            return {**about, "kind": "none"}
        numbers = fit.misfit if told.colour == MISFIT and fit is not None else None if told.colour == FOLD else now.mirror.columns[told.colour]
        x, y = places.scaled(now)
        near = places.survey(x, y) if told.lying and not told.whole else np.ones(len(x), dtype=bool)
        bins = binned(now, numbers, (x, y), near, told.how)
        shown = lying(bins, fit, told.how) if told.lying else numbered(desk, now, bins, window, told.how)
        return {**about, "left": int(np.count_nonzero(~near)), "cells": len(bins.value), **ends(bins.value, told.whole), **shown}


def grid(fit: Optional[fitting.Fit]) -> Optional[Dict[str, Any]]:
    """The fitted grid in short."""
    if fit is None:
        return None
    return {"spacing": list(fit.spacing), "angle": fit.angle, "used": int(fit.used.sum()), "most": float(fit.misfit.max()), "trace": int(fit.misfit.argmax()) + 1}


def binned(shot: Shot, numbers: Any, where: Tuple[Any, Any], near: Any, how: str) -> Bins:
    """The cells of these traces; without numbers their folds."""
    rows = np.flatnonzero(near)
    lines = [maps.Axis(one[0], np.arange(len(one[0])), [None] * len(one[0])) for one in (shot.inlines, shot.crosslines)]
    down, right = (axis.places(shot.mirror.columns[name][rows]) for axis, name in zip(lines, ("inline", "crossline")))
    wide = len(lines[1])
    keys, first, group, folds = cells_of(down * wide + right, len(lines[0]) * wide)
    value = folds.astype(np.float64) if numbers is None else grouped(group, numbers[rows].astype(np.float64), len(keys), how)
    x, y = (np.bincount(group, weights=one[rows], minlength=len(keys)) / folds for one in where)
    return Bins(lines[0].numbers[keys // max(wide, 1)], lines[1].numbers[keys % max(wide, 1)], value, x, y, rows[first] + 1)


def cells_of(cells: Any, size: int) -> Tuple[Any, Any, Any, Any]:
    """The cells that occur, of so many, the first place of each, which of them each one is, and how often each occurs.

    >>> [one.tolist() for one in cells_of(np.array([5, 2, 5]), 9)]
    [[2, 5], [1, 0], [1, 0, 1], [1, 2]]
    """
    if size > max(MOST_DENSE, 4 * len(cells)):
        found = np.unique(cells, return_index=True, return_inverse=True, return_counts=True)
        return found[0], found[1], found[2], found[3]
    counts = np.bincount(cells, minlength=size)
    keys = np.flatnonzero(counts)
    index = np.zeros(max(size, 1), dtype=np.int64)
    index[keys] = np.arange(len(keys))
    group = index[cells]
    first = np.zeros(len(keys), dtype=np.int64)
    first[group[::-1]] = np.arange(len(cells))[::-1]
    return keys, first, group, counts[keys]


def numbered(desk: Desk, shot: Shot, bins: Bins, window: Window, how: str) -> Dict[str, Any]:
    """Bins by the numbers of their lines, as on the fold map."""
    down, right = maps.axis_of(shot.inlines[0]), maps.axis_of(shot.crosslines[0])
    cells = maps.Cells(down.places(bins.inline), right.places(bins.crossline), bins.value)
    bundle = bundle_for(down, right, window.pixels, [cells])
    made = np.full(bundle.rows * bundle.columns, np.nan)
    if len(bins.value):
        pixels, group = np.unique(bundle.of(cells.rows, cells.columns), return_inverse=True)
        made[pixels] = grouped(group, bins.value, len(pixels), how)
    return {"kind": "number", **framed(down, right, bundle, [maps.plain(made.reshape(bundle.rows, bundle.columns))])}


def lying(bins: Bins, fit: Optional[fitting.Fit], how: str) -> Dict[str, Any]:
    """Bins where their traces lie in the mean: points, or pixels where there are many, each so large that none between bins is empty."""
    axes = {"x": places.ends(bins.x), "y": places.ends(bins.y)}
    if len(bins.value) <= MOST_POINTS:
        return {"kind": "points", **axes, "px": bins.x.tolist(), "py": bins.y.tolist(), "value": bins.value.tolist(), "trace": bins.trace.tolist(),
                "inline": bins.inline.tolist(), "crossline": bins.crossline.tolist()}
    (left, right), (low, high) = axes["x"], axes["y"]
    side = max((right - left) / (WIDE - 1), (high - low) / (TALL - 1), float(np.hypot(*fit.spacing)) if fit is not None else 0.0) or 1.0
    wide, tall = int((right - left) / side) + 2, int((high - low) / side) + 2
    at = np.rint((bins.y - low) / side).astype(np.int64) * wide + np.rint((bins.x - left) / side).astype(np.int64)
    pixels, first, group = np.unique(at, return_index=True, return_inverse=True)
    values, traces = np.full(wide * tall, np.nan), np.full(wide * tall, np.nan)
    values[pixels], traces[pixels] = grouped(group, bins.value, len(pixels), how), bins.trace[first]
    return {"kind": "pixels", **axes, "side": side, "z": maps.plain(values.reshape(tall, wide)), "first": maps.plain(traces.reshape(tall, wide))}


def ends(values: Any, whole: bool) -> Dict[str, Any]:
    """Where the colours end: at the 2nd and the 98th percentile, or at the least and the greatest.

    >>> ends(np.array([5.0]), False)
    {'low': 5.0, 'high': 6.0, 'least': 5.0, 'most': 5.0, 'beyond': 0}
    """
    if not len(values):
        return {"low": 0.0, "high": 1.0, "least": 0.0, "most": 0.0, "beyond": 0}
    least, most = float(values.min()), float(values.max())
    low, high = (least, most) if whole else map(float, np.percentile(values, [2, 98]))
    beyond = int(np.count_nonzero((values < low) | (values > high)))
    return {"low": low, "high": high if high > low else low + 1.0, "least": least, "most": most, "beyond": beyond}
