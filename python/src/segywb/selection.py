"""Which traces are meant: positions from 1."""

from __future__ import annotations

import operator
from typing import Any, Callable, Iterator, List, Optional, Sequence, Tuple

from .lines import listed, numbers, position, truth


def positions(traces: Any, count: Callable[[], int]) -> Sequence[int]:
    """The positions that a slice, a range, a position, a list of positions or a mask means. ``count`` tells how many traces there are.

    A slice counts from 1 and leaves its end out, and a negative bound counts from the end:

    >>> list(positions(slice(2, 5), lambda: 12)), list(positions(slice(-2, None), lambda: 12))
    ([2, 3, 4], [11, 12])

    A mask has a truth value for each trace:

    >>> positions([3, 1], lambda: 3), positions([True, False, True], lambda: 3)
    ([3, 1], [1, 3])
    """
    if traces is None:
        return range(1, count() + 1)
    if isinstance(traces, slice):
        bounds = slice(_below(traces.start), _below(traces.stop), whole(traces.step))
        start, stop, step = bounds.indices(count())
        return range(start + 1, stop + 1, step)
    if isinstance(traces, range):
        return traces
    if not _several(traces):
        return [int(position(traces))]
    items = listed(traces)
    kinds = set(map(type, items))
    truths = set(filter(truth, kinds))
    if truths != kinds and truths:
        raise TypeError("a selection of positions and truth values: a mask has a truth value for each trace, a list has positions alone")
    if truths or getattr(getattr(traces, "dtype", None), "kind", "") == "b":
        return _taken(items, count())
    return numbers(items)


def _several(traces: Any) -> bool:
    """Whether this is a list of something: no number, and no array without an axis."""
    axes = getattr(traces, "ndim", 1)
    if axes > 1 or isinstance(traces, str):
        raise TypeError(f"a position, a slice, a range, a list of positions or a mask is wanted, not {traces!r}")
    return axes == 1 and hasattr(traces, "__iter__")


def _taken(mask: List[Any], count: int) -> List[int]:
    """The positions of a mask, where it has as many items as there are traces."""
    if len(mask) != count:
        raise IndexError(f"boolean index did not match the traces: there are {count} of them, but the boolean index has {len(mask)} items")
    return [at for at, taken in enumerate(mask, 1) if taken]


def whole(bound: Any) -> Optional[int]:
    """A bound or a step of a slice, which is no truth value."""
    if bound is None:
        return None
    if truth(type(bound)):
        raise TypeError(f"a slice has whole numbers, not {bound!r}")
    return operator.index(bound)


def _below(bound: Any) -> Optional[int]:
    """A bound that counts from 1 as one that counts from 0."""
    found = whole(bound)
    if found == 0:
        raise ValueError("traces count from 1")
    return found if found is None or found < 0 else found - 1


def runs(where: Sequence[int], longest: int) -> Iterator[Tuple[int, int]]:
    """The first and last position of each run of positions that follow one another.

    >>> list(runs([1, 2, 3, 7], 2))
    [(1, 2), (3, 3), (7, 7)]
    """
    if isinstance(where, range) and where.step == 1:
        for first in range(where.start, where.stop, longest):
            yield first, min(first + longest, where.stop) - 1
        return
    first = last = where[0]
    for one in where[1:]:
        if one != last + 1 or last - first + 1 == longest:
            yield first, last
            first = one
        last = one
    yield first, last
