"""Maps of cells for the page: axes with their gaps, and the cells on them."""

from __future__ import annotations

from typing import Any, Dict, List, NamedTuple, Optional, Sequence, Tuple

import numpy as np

MOST_FILLED = 20
MOST_NAMED = 3
MOST_DIRECT = 1 << 22
MOST_DENSE = 1 << 24


class Axis(NamedTuple):
    """The numbers of an axis in slots. A gap between two numbers is filled by the numbers that lack; a wide one is one empty slot."""

    numbers: Any
    slots: Any
    labels: List[Optional[int]]

    def __len__(self) -> int:
        return len(self.labels)

    def places(self, numbers: Any) -> Any:
        """The slot of each of these numbers of the axis."""
        if not len(self.numbers):
            return np.empty(0, dtype=np.int64)
        least, most = int(self.numbers[0]), int(self.numbers[-1])
        if most - least >= MOST_DIRECT:
            return self.slots[np.searchsorted(self.numbers, numbers)]
        direct = np.zeros(most - least + 1, dtype=np.int64)
        direct[self.numbers - least] = self.slots
        return direct[np.asarray(numbers) - least]


def step_of(gaps: Any) -> int:
    """The usual step between neighbours.

    >>> step_of(np.array([2, 2, 4])), step_of(np.array([2])), step_of(np.array([], dtype=int))
    (2, 1, 1)
    """
    if len(gaps) < 2:
        return 1
    values, counts = np.unique(gaps, return_counts=True)
    return int(values[np.argmax(counts)])


def axis_of(numbers: Any) -> Axis:
    """An axis for rising numbers.

    >>> axis_of(np.array([1, 2, 4, 900])).labels
    [1, 2, 3, 4, None, 900]
    """
    numbers = np.asarray(numbers, dtype=np.int64)
    gaps = np.diff(numbers)
    step = step_of(gaps)
    lacking = gaps // step - 1
    filled = (gaps % step == 0) & (lacking >= 1) & (lacking <= MOST_FILLED)
    if int(lacking[filled].sum()) > 2 * len(numbers) + MOST_FILLED:
        filled[:] = False
    extra = np.where(filled, lacking, np.where(gaps > step, 1, 0))
    slots = np.concatenate([[0], np.cumsum(extra + 1)]).astype(np.int64)[:len(numbers)]
    labels: List[Optional[int]] = [None] * (int(slots[-1]) + 1 if len(numbers) else 0)
    for slot, number in zip(slots.tolist(), numbers.tolist()):
        labels[slot] = number
    for at in np.flatnonzero(filled).tolist():
        for more in range(int(lacking[at])):
            labels[int(slots[at]) + 1 + more] = int(numbers[at]) + step * (more + 1)
    return Axis(numbers, slots, labels)


class Cells(NamedTuple):
    """Cells that have traces, in slots, each with its number."""

    rows: Any
    columns: Any
    values: Any


def folds(inlines: Any, crosslines: Any, down: Axis, right: Axis) -> Cells:
    """How many traces each cell has."""
    wide = max(len(right), 1)
    cells = down.places(inlines) * wide + right.places(crosslines)
    if len(down) * wide <= max(1 << 22, 4 * len(cells)):
        counts = np.bincount(cells, minlength=len(down) * wide)
        found = np.flatnonzero(counts)
        return Cells(found // wide, found % wide, counts[found])
    found, counts = np.unique(cells, return_counts=True)
    return Cells(found // wide, found % wide, counts)


def usual_of(cells: Cells) -> int:
    """The most frequent fold of the cells that have traces; 0 where none has.

    >>> usual_of(Cells(np.array([0, 0]), np.array([0, 1]), np.array([3, 3])))
    3
    """
    return int(np.argmax(np.bincount(cells.values))) if len(cells.values) else 0


def missing(numbers: Any) -> Dict[str, Any]:
    """How many numbers lack between the least and the greatest of these rising ones, by their usual step, and the first of them. A gap
    that is wider than the axis has numbers belongs to a wild number, and is not counted.

    >>> missing(np.array([10, 12, 16, 18, 90000]))
    {'count': 1, 'step': 2, 'first': [14]}
    """
    numbers = np.asarray(numbers, dtype=np.int64)
    around = np.diff(numbers)
    step = step_of(around)
    lacking = around // step - 1
    at = np.flatnonzero((lacking > 0) & (lacking <= max(len(numbers), MOST_FILLED)))
    first = [int(numbers[one]) + step * (more + 1) for one in at[:MOST_NAMED].tolist() for more in range(min(int(lacking[one]), MOST_NAMED))]
    return {"count": int(lacking[at].sum()), "step": step, "first": first[:MOST_NAMED]}


def differing(one: Cells, other: Cells, wide: int) -> Tuple[Any, Any]:
    """The rows and columns of the cells whose values differ, also where only one of both has them."""
    keys = [cells.rows * wide + cells.columns for cells in (one, other)]
    size = max((int(key[-1]) + 1 for key in keys if len(key)), default=0)
    if size <= MOST_DENSE:
        dense = [np.zeros(size) for _ in keys]
        for full, key, cells in zip(dense, keys, (one, other)):
            full[key] = cells.values
        found = np.flatnonzero(dense[0] != dense[1])
        return found // wide, found % wide
    both = np.union1d(*keys)
    values = []
    for key, cells in zip(keys, (one, other)):
        full = np.zeros(len(both))
        full[np.searchsorted(both, key)] = cells.values
        values.append(full)
    found = both[values[0] != values[1]]
    return found // wide, found % wide


def plain(array: Any) -> List[List[Optional[float]]]:
    """An array of numbers as lists, with nothing where it is not a number; where all are whole, as whole numbers, but above 2**53.

    >>> plain(np.array([[1.0, np.nan]])), plain(np.array([[1.0, 0.5]]))
    ([[1, None]], [[1.0, 0.5]])
    """
    missing = np.isnan(array)
    known = np.where(missing, 0, array)
    whole = np.abs(known).max(initial=0) < 2**53 and bool((known == np.floor(known)).all())
    boxed = (known.astype(np.int64) if whole else known).astype(object)
    boxed[missing] = None
    return list(boxed.tolist())


def shown_axis(axis: Axis, pixels: Any) -> Dict[str, Any]:
    """An axis as the page gets it: for each pixel the first and the last number in it."""
    firsts: List[Optional[int]] = []
    lasts: List[Optional[int]] = []
    ends = np.concatenate([np.flatnonzero(np.diff(pixels)) + 1, [len(axis)]]).tolist() if len(axis) else []
    for start, end in zip([0, *ends], ends):
        some = [label for label in axis.labels[start:end] if label is not None]
        firsts.append(some[0] if some else None)
        lasts.append(some[-1] if some else None)
    return {"first": firsts, "last": lasts, "numbers": len(axis.numbers), "gaps": sum(label is None for label in axis.labels)}


def colour_end(values: Sequence[Any], usual: int) -> Dict[str, Any]:
    """Where the colours of a fold map end: at the 98th percentile where few folds are far above the others."""
    known = np.concatenate([np.asarray(one) for one in values]) if values else np.empty(0)
    if not len(known):
        return {"most": 1, "end": 1, "beyond": 0}
    most = int(known.max())
    end = max(int(np.percentile(known, 98)), usual + 1, 2)
    end = most if most <= 4 * end else end
    return {"most": most, "end": max(end, 1), "beyond": int((known > end).sum())}
