"""Cells bundled into pixels where a map has more of them than it has room: what a pixel shows, and what it must not hide."""

from __future__ import annotations

from typing import Any, NamedTuple, Sequence, Tuple

import numpy as np

from .maps import Axis, Cells

MOST_SLOTS = 1 << 22


class Bundle(NamedTuple):
    """How cells are bundled: the pixel of each line of both axes, the numbers of pixels, and the most lines that one of them holds."""

    down: Any
    right: Any
    rows: int
    columns: int
    tall: int
    wide: int

    def of(self, rows: Any, columns: Any) -> Any:
        """The pixel of each cell."""
        return self.down[rows] * self.columns + self.right[columns]


def pixels_of(kinds: Any, most: int) -> Any:
    """The pixel of each line of an axis, at most so many. Lines of several kinds do not share one, where there is room for that: so a
    line without traces has a pixel of its own, and no neighbour hides it.

    >>> pixels_of(np.array([1, 1, 1, 0, 1, 1]), 4).tolist()
    [0, 0, 1, 2, 3, 3]
    """
    count, most = len(kinds), max(most, 1)
    if count <= most:
        return np.arange(count)
    starts = np.concatenate([[0], np.flatnonzero(kinds[1:] != kinds[:-1]) + 1])
    lengths = np.diff(np.concatenate([starts, [count]]))
    size = -(-count // most)
    if len(starts) > most:
        return np.arange(count) // size
    while int((-(-lengths // size)).sum()) > most:
        size += max(1, size // 16)
    pieces = -(-lengths // size)
    return np.repeat(np.cumsum(pieces) - pieces, lengths) + (np.arange(count) - np.repeat(starts, lengths)) // size


def kinds_of(lines: Sequence[Any], count: int) -> Any:
    """For each line of an axis in which of several maps it has cells: a bit for each map."""
    made = np.zeros(count, dtype=np.int64)
    for at, some in enumerate(lines):
        here = np.zeros(count, dtype=bool)
        here[some] = True
        made |= here.astype(np.int64) << at
    return made


def bundle_for(down: Axis, right: Axis, pixels: Tuple[int, int], shown: Sequence[Cells]) -> Bundle:
    """The bundles of the maps that are shown on these axes, for so many pixels, width and height."""
    rows = pixels_of(kinds_of([cells.rows for cells in shown], len(down)), pixels[1])
    columns = pixels_of(kinds_of([cells.columns for cells in shown], len(right)), pixels[0])
    most = [int(np.bincount(one).max()) if len(one) else 1 for one in (rows, columns)]
    size = [int(one[-1]) + 1 if len(one) else 0 for one in (rows, columns)]
    return Bundle(rows, columns, size[0], size[1], most[0], most[1])


def farthest(cells: Cells, bundle: Bundle, usual: int, holes_count: bool) -> Any:
    """For each pixel the value that is farthest from the usual one; not a number where there is none, and where ``holes_count`` also
    where a cell in it lacks between others, as long as most pixels have none that lacks.

    >>> axis = Axis(np.arange(2), np.arange(2), [0, 1])
    >>> cells = Cells(np.array([0, 0, 1]), np.array([0, 1, 0]), np.array([1, 1, 5]))
    >>> farthest(cells, bundle_for(axis, axis, (1, 2), [cells]), 1, True).tolist()
    [[1.0], [5.0]]
    """
    count = bundle.rows * bundle.columns
    at = bundle.of(cells.rows, cells.columns)
    made = np.full(count, np.nan)
    order = np.argsort(np.abs(cells.values - usual), kind="stable")
    made[at[order]] = cells.values[order]
    if holes_count and bundle.tall * bundle.wide > 1:
        lacks = np.zeros(count, dtype=bool)
        lacks[bundle.of(*holes(cells, (len(bundle.down), len(bundle.right))))] = True
        known = ~np.isnan(made)
        if 2 * int((lacks & known).sum()) <= int(known.sum()):
            made[lacks] = np.nan
    return made.reshape(bundle.rows, bundle.columns)


def holes(cells: Cells, shape: Tuple[int, int]) -> Tuple[Any, Any]:
    """The rows and columns of the cells that lack between two others of their line, on a map of so many rows and columns. Lines without any
    cell are left out; so are all of a direction where more lack in it than are there, and all of a map that is nearly empty.

    >>> [one.tolist() for one in holes(Cells(np.array([0, 0, 0, 1, 1]), np.array([0, 1, 2, 0, 2]), np.ones(5)), (2, 3))]
    [[1], [1]]
    """
    count = len(cells.rows)
    if shape[0] * shape[1] > max(MOST_SLOTS, 4 * count):
        return np.empty(0, dtype=np.int64), np.empty(0, dtype=np.int64)
    there = np.zeros(shape, dtype=bool)
    there[cells.rows, cells.columns] = True
    lacking = there.any(axis=1)[:, None] & there.any(axis=0)[None, :] & ~there
    found = np.zeros(shape, dtype=bool)
    for way in (there, there.T):
        before, behind = np.logical_or.accumulate(way), np.logical_or.accumulate(way[::-1])[::-1]
        between = lacking & (before & behind if way is there else (before & behind).T)
        if np.count_nonzero(between) <= count:
            found |= between
    rows, columns = np.nonzero(found)
    return rows, columns
