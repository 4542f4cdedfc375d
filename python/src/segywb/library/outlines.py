"""The outline of a survey: the hull of the positions of some of its traces."""

from __future__ import annotations

from typing import List, Sequence, Tuple

Point = Tuple[float, float]


def hull(points: Sequence[Point]) -> List[Point]:
    """The corners of the least convex outline around the points, in order.

    >>> hull([(0, 0), (2, 0), (1, 1), (2, 2), (0, 2), (0, 1)])
    [(0, 0), (2, 0), (2, 2), (0, 2)]
    >>> hull([(1, 1), (1, 1)]), hull([(0, 0), (1, 1), (2, 2)])
    ([(1, 1)], [(0, 0), (2, 2)])
    """
    apart = sorted(set(points))
    if len(apart) < 3:
        return apart
    return _half(apart)[:-1] + _half(apart[::-1])[:-1]


def _half(points: Sequence[Point]) -> List[Point]:
    """One side of the hull, from the first point to the last."""
    side: List[Point] = []
    for point in points:
        while len(side) > 1 and _turn(side[-2], side[-1], point) <= 0:
            side.pop()
        side.append(point)
    return side


def _turn(first: Point, second: Point, third: Point) -> float:
    return (second[0] - first[0]) * (third[1] - first[1]) - (second[1] - first[1]) * (third[0] - first[0])
