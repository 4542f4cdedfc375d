"""Header fields against the number of the trace, and field against field; which traces lie in a part of such a graph."""

from __future__ import annotations

from typing import Any, Dict, List, NamedTuple, Sequence, Tuple

import numpy as np

from ..lines import word
from ..thinning import thinned
from . import maps
from .desk import Desk
from .views import runs_of

MOST_FIELDS = 6
MOST_POINTS = 4000
WIDE, TALL = 300, 200


class Part(NamedTuple):
    """A field, and the least and the greatest of its numbers that are meant."""

    name: str
    low: float
    high: float


def span_of(first: int, last: int, count: int) -> Tuple[int, int]:
    """Which traces of so many are meant: from one to another, where the last may be 0 for all behind.

    >>> span_of(3, 0, 12), span_of(-5, 900, 12), span_of(9, 4, 12), span_of(1, 0, 0)
    ((3, 12), (1, 12), (4, 9), (1, 0))
    """
    low, high = sorted((first, last)) if last else (first, count)
    low = max(1, min(low, count or 1))
    return low, max(low - (count == 0), min(high, count))


def names_of(text: str, most: int = MOST_FIELDS) -> List[str]:
    """The fields of a graph, each once.

    >>> names_of("inline x  inline")
    ['inline', 'x']
    """
    names = list(dict.fromkeys(word(one) for one in text.split()))
    if not 1 <= len(names) <= most:
        raise ValueError(f"1 to {most} fields can be shown, not {len(names)}" if most > 1 else f"one field is wanted, not {len(names)}")
    return names


def lines(desk: Desk, names: Sequence[str], span: Tuple[int, int], pixels: int) -> Dict[str, Any]:
    """Fields against the number of the trace; of many traces the least and the greatest number of each pixel."""
    mirror = desk.widen(names)[1].mirror
    first, last = span_of(*span, len(mirror))
    fields = []
    for name in names:
        numbers = mirror.columns[name][first - 1:last]
        kept = thinned(numbers, pixels)
        fields.append({
            "name": name, "trace": (kept + first).tolist(), "value": numbers[kept].tolist(), "whole": len(kept) == len(numbers),
            "least": str(numbers.min()) if len(numbers) else None, "greatest": str(numbers.max()) if len(numbers) else None,
        })
    return {"version": desk.version, "traces": len(mirror), "first": first, "last": last, "fields": fields}


def pair(desk: Desk, names: Sequence[str], parts: Sequence[Part]) -> Dict[str, Any]:
    """A field against another one, of the traces in these parts: points, or pixels with their numbers of traces where there are many."""
    mirror = desk.widen(names)[1].mirror
    found = np.flatnonzero(inside(mirror, parts)) if parts else np.arange(len(mirror))
    x, y = (mirror.columns[name][found] for name in (names[0], names[-1]))
    told = {"version": desk.version, "traces": len(mirror), "shown": len(found), "names": [names[0], names[-1]]}
    if len(found) <= MOST_POINTS:
        return {**told, "kind": "points", "x": x.tolist(), "y": y.tolist(), "trace": (found + 1).tolist()}
    (x0, dx, column), (y0, dy, row) = stepped(x, WIDE), stepped(y, TALL)
    counts = np.bincount(row * WIDE + column, minlength=WIDE * TALL).astype(np.float64)
    counts[counts == 0] = np.nan
    return {**told, "kind": "pixels", "x0": x0, "y0": y0, "dx": dx, "dy": dy, "z": maps.plain(counts.reshape(TALL, WIDE))}


def stepped(values: Any, steps: int) -> Tuple[float, float, Any]:
    """Numbers in so many steps from the least to the greatest: where the first step lies, how far the next one is, and the step of each number.

    >>> [one.tolist() if hasattr(one, "tolist") else one for one in stepped(np.array([10, 30, 19]), 3)]
    [10.0, 10.0, [0, 2, 1]]
    """
    values = np.asarray(values, dtype=np.float64)
    least, most = float(values.min()), float(values.max())
    step = (most - least) / (steps - 1) or 1.0
    return least, step, np.rint((values - least) / step).astype(np.int64)


def inside(mirror: Any, parts: Sequence[Part]) -> Any:
    """Which traces have numbers in all of these parts."""
    made = np.ones(len(mirror), dtype=bool)
    for name, low, high in parts:
        numbers = mirror.columns[name]
        made &= (numbers >= low) & (numbers <= high)
    return made


def choose(desk: Desk, parts: Sequence[Part], span: Tuple[int, int]) -> Dict[str, Any]:
    """The traces of a part of a graph, as runs of positions."""
    mirror = desk.widen([one.name for one in parts])[1].mirror
    first, last = span_of(*span, len(mirror))
    here = inside(mirror, parts)
    here[:first - 1] = False
    here[last:] = False
    return {"version": desk.version, **runs_of(np.flatnonzero(here) + 1)}


def parts_of(query: Any) -> List[Part]:
    """The parts that a query names: fields with a least and a greatest number each.

    >>> parts_of({"names": "inline x", "low": "1 -5.5", "high": "9 7"})
    [Part(name='inline', low=1.0, high=9.0), Part(name='x', low=-5.5, high=7.0)]
    """
    names, lows, highs = (str(query.get(one) or "").split() for one in ("names", "low", "high"))
    if not len(names) == len(lows) == len(highs):
        raise ValueError("each field wants a least and a greatest number")
    parts = [Part(word(name), *sorted((float(low), float(high)))) for name, low, high in zip(names, lows, highs)]
    if any(not np.isfinite(end) for one in parts for end in one[1:]):
        raise ValueError("a least or a greatest number is none")
    return parts


def drawn(desk: Desk, query: Any, first: int, last: int, pixels: int) -> Dict[str, Any]:
    """What a query asks for: lines against the number of the trace, or with ``pair`` one field against another."""
    if query.get("pair") != "1":
        return lines(desk, names_of(str(query["names"])), (first, last), pixels)
    names = [names_of(str(query[one]), 1)[0] for one in ("x", "y")]
    parts: List[Part] = parts_of({"names": " ".join(names), "low": query["low"], "high": query["high"]}) if query.get("low") else []
    return pair(desk, names, parts)
