"""The bin grid that inlines, crosslines and coordinates tell: x and y as linear functions of the inline and the crossline."""

from __future__ import annotations

import importlib
import math
from dataclasses import dataclass
from typing import Any, Tuple

from .errors import FitRefused

TURNS = 20
TRIM = 3.0
# The first guess comes from triples of traces, since a wild inline or crossline draws a plain least-squares fit to itself.
TRIPLES = 400
LOOKED_AT = 4000
SEED = 20

Pair = Tuple[float, float]


@dataclass(frozen=True, eq=False)
class Fit:
    """A bin grid: x and y of a trace are ``origin + inline * inline_step + crossline * crossline_step``, but for its residuals.

    ``origin`` is where inline 0 and crossline 0 would lie, each step is how far x and y go with one inline or crossline more. ``dx``, ``dy`` and
    ``misfit`` (the distance) are residuals, one for each trace that was asked for: what its header says less what the grid says. ``used`` tells
    which traces the fit was made from, ``traces`` their positions in the file, and ``turns`` how often it was made anew.
    """

    origin: Pair
    inline_step: Pair
    crossline_step: Pair
    traces: Any
    dx: Any
    dy: Any
    misfit: Any
    used: Any
    turns: int

    @property
    def spacing(self) -> Pair:
        """How far two neighbouring inlines, and two neighbouring crosslines, are apart along the steps.

        >>> with segywb.open("cube.sgy") as v:
        ...     [round(one, 6) for one in v.fit().spacing]
        [25.0, 25.0]
        """
        return math.hypot(*self.inline_step), math.hypot(*self.crossline_step)

    @property
    def angle(self) -> float:
        """The degrees from the crossline step to the inline step, counter-clockwise: 90 or -90 in a rectangular grid.

        >>> with segywb.open("cube.sgy") as v:
        ...     round(v.fit().angle, 6)
        90.0
        """
        (ix, iy), (cx, cy) = self.inline_step, self.crossline_step
        return math.degrees(math.atan2(cx * iy - cy * ix, cx * ix + cy * iy))

    def at(self, inline: Any, crossline: Any) -> Tuple[Any, Any]:
        """x and y of an inline and a crossline, or of arrays of them.

        >>> with segywb.open("cube.sgy") as v:
        ...     [round(one, 6) for one in v.fit().at(104, 201)]
        [450000.0, 6800075.0]
        """
        (x, y), (ix, iy), (cx, cy) = self.origin, self.inline_step, self.crossline_step
        return x + inline * ix + crossline * cx, y + inline * iy + crossline * cy

    def __repr__(self) -> str:
        pairs = ", ".join(f"{name}=({one:.10g}, {other:.10g})" for name, (one, other) in (
            ("origin", self.origin), ("inline_step", self.inline_step), ("crossline_step", self.crossline_step)))
        return f"Fit({pairs}, {int(self.used.sum())} of {len(self.used)} traces used)"


def fitted(inline: Any, crossline: Any, x: Any, y: Any, least: float = 0.0, traces: Any = None) -> Fit:
    """The grid of these traces, by least squares. Traces that lie farther from it than three times the middle residual, and farther than ``least``
    (what rounding does to a coordinate), are left out and the fit is made anew, until the same ones stay. Traces at (0, 0) are left out from the start.

    >>> import numpy as np
    >>> inline, crossline = np.repeat([1, 2, 3], 4), np.tile([1, 2, 3, 4], 3)
    >>> x, y = 1000 + 25 * crossline, 5000 + 50 * inline
    >>> x[5] += 7
    >>> found = fitted(inline, crossline, x, y)
    >>> [round(step, 6) + 0.0 for step in (*found.inline_step, *found.crossline_step)]
    [0.0, 50.0, 25.0, 0.0]
    >>> found.misfit.round(6).tolist(), round(found.angle, 6)
    ([0.0, 0.0, 0.0, 0.0, 0.0, 7.0, 0.0, 0.0, 0.0, 0.0, 0.0, 0.0], 90.0)
    """
    np = _numpy()
    inline, crossline, x, y = (np.asarray(one, dtype=np.float64) for one in (inline, crossline, x, y))
    told = (x != 0) | (y != 0)
    _enough(np, inline[told], crossline[told], "")
    middle = [float(np.median(one[told])) for one in (inline, crossline, x, y)]
    numbers = np.stack([np.ones(len(x)), inline - middle[0], crossline - middle[1]], axis=1)
    places = np.stack([x - middle[2], y - middle[3]], axis=1)
    least = max(least, 1e-9 * float(np.abs(places[told]).max(initial=1.0)))
    used = told & _near(np, _misfit(np, numbers, places, _guess(np, numbers[told], places[told])), told, least)
    for turn in range(1, TURNS + 1):
        _enough(np, inline[used], crossline[used], "of the traces that agree with each other ")
        found = np.linalg.lstsq(numbers[used], places[used], rcond=None)[0]
        now = told & _near(np, _misfit(np, numbers, places, found), used, least)
        if np.array_equal(now, used):
            break
        used = now
    return _made(np, found, middle, numbers, places, used, np.arange(1, len(x) + 1) if traces is None else np.asarray(traces), turn)


def rounding(scalars: Any) -> float:
    """How far a place may lie from where it was meant, since its coordinates are whole numbers under the scalar: 1.5 of the greatest unit.

    >>> rounding([-100, -100]), rounding([0, 1, 10]), rounding([])
    (0.015, 15.0, 0.0)
    """
    units = {1 / -one if one < 0 else float(one or 1) for one in set(map(int, scalars))}
    return 1.5 * max(units, default=0.0)


def _made(np: Any, found: Any, middle: Any, numbers: Any, places: Any, used: Any, traces: Any, turns: int) -> Fit:
    (ax, ay), (ix, iy), (cx, cy) = (tuple(map(float, row)) for row in found)
    origin = (middle[2] + ax - middle[0] * ix - middle[1] * cx, middle[3] + ay - middle[0] * iy - middle[1] * cy)
    rest = places - numbers @ found
    return Fit(origin, (ix, iy), (cx, cy), traces, rest[:, 0], rest[:, 1], np.hypot(rest[:, 0], rest[:, 1]), used, turns)


def _misfit(np: Any, numbers: Any, places: Any, found: Any) -> Any:
    return np.hypot(*(places - numbers @ found).T)


def _near(np: Any, misfit: Any, used: Any, least: float) -> Any:
    """Which residuals are within three times the middle one of those in use."""
    return misfit <= max(TRIM * float(np.median(misfit[used])), least)


def _guess(np: Any, numbers: Any, places: Any) -> Any:
    """Of grids through three traces each, and of the plain least-squares fit, the one whose smaller half of residuals ends first. That half holds
    more than the three traces that a grid goes through anyhow."""
    chance = np.random.default_rng(SEED)
    some = chance.choice(len(numbers), LOOKED_AT, replace=False) if len(numbers) > LOOKED_AT else np.arange(len(numbers))
    seen, lie = numbers[some], places[some]
    best = np.linalg.lstsq(numbers, places, rcond=None)[0]
    half = min((len(some) + 4) // 2, len(some)) - 1
    worst = float(np.partition(_misfit(np, seen, lie, best), half)[half])
    triples = chance.integers(0, len(some), (TRIPLES, 3))
    area = np.abs(np.linalg.det(seen[triples]))
    for triple in triples[area > 0.5]:  # inlines and crosslines are whole, so this is a triangle
        one = np.linalg.solve(seen[triple], lie[triple])
        end = float(np.partition(_misfit(np, seen, lie, one), half)[half])
        if end < worst:
            best, worst = one, end
    return best


def _enough(np: Any, inline: Any, crossline: Any, whose: str) -> None:
    """Whether these inlines and crosslines tell a grid: they must not lie on one line."""
    if not len(inline):
        raise FitRefused("there is no trace with a place: x and y are 0 in all of them")
    for name, numbers in (("inline", inline), ("crossline", crossline)):
        if float(numbers.min()) == float(numbers.max()):
            raise FitRefused(f"{whose}all have {name} {int(numbers[0])}, so nothing tells the step from {name} to {name}")
    rows = np.stack([np.ones(len(inline)), inline - np.median(inline), crossline - np.median(crossline)], axis=1)
    if np.linalg.matrix_rank(rows) < 3:
        raise FitRefused(f"{whose}all lie on one line of inlines and crosslines, so nothing tells both steps")


def _numpy() -> Any:
    try:
        return importlib.import_module("numpy")
    except ImportError:
        raise ImportError("a fit needs numpy") from None
