"""Many numbers in few pixels: the least and the greatest of each pixel stay, so that no wild number is lost. With numpy."""

from __future__ import annotations

import importlib
from typing import Any


def thinned(values: Any, pixels: int) -> Any:
    """Which of these numbers, rising, are drawn where there are so many pixels for all of them: of each pixel the first that is its least, and
    the first that is its greatest. All of them where they are few.

    >>> import numpy as np
    >>> thinned(np.array([3, 1, 2, 7, 5, 5, 5, 5, 9, 0]), 2).tolist()
    [1, 3, 8, 9]
    >>> thinned(np.array([3, 1, 2]), 2).tolist()
    [0, 1, 2]
    """
    np = importlib.import_module("numpy")
    values = np.asarray(values)
    count, pixels = len(values), max(int(pixels), 1)
    if count <= 2 * pixels:
        return np.arange(count)
    starts = np.arange(pixels) * count // pixels
    sizes = np.diff(np.concatenate([starts, [count]]))
    kept = [_firsts(np, values == np.repeat(end.reduceat(values, starts), sizes), starts) for end in (np.minimum, np.maximum)]
    return np.union1d(*kept)


def peaks(values: Any, tall: int, wide: int) -> Any:
    """Bytes in so many rows and columns of pixels, at most: of each pixel the one that is farthest from zero. -128 stands for none.

    >>> import numpy as np
    >>> peaks(np.array([[1, -5, -128], [2, 4, -128], [0, 0, 9]], dtype=np.int8), 2, 2).tolist()
    [[1, -5], [2, 9]]
    >>> peaks(np.array([[1, -5]], dtype=np.int8), 9, 9).tolist()
    [[1, -5]]
    """
    np = importlib.import_module("numpy")
    down = _farthest(np, values, tall)
    return np.ascontiguousarray(_farthest(np, np.ascontiguousarray(down.T), wide).T)


def _farthest(np: Any, values: Any, pixels: int) -> Any:
    """Rows in so many, at most."""
    count, pixels = len(values), max(int(pixels), 1)
    if count <= pixels:
        return values
    starts = starts_of(count, pixels)
    sizes = np.diff(np.concatenate([starts, [count]]))
    most = values[starts]
    least = np.where(most == -128, np.int8(0), most)
    for further in range(1, int(sizes.max())):  # as many rows at once as there are pixels: faster than pixel by pixel
        some = values[starts + np.minimum(further, sizes - 1)]
        np.maximum(most, some, out=most)
        np.minimum(least, np.where(some == -128, np.int8(0), some), out=least)
    return np.where((most == -128) | (most >= -least), most, least)


def starts_of(count: int, pixels: int) -> Any:
    """The first of so many things in each pixel, where all have some.

    >>> starts_of(5, 2).tolist()
    [0, 2]
    """
    np = importlib.import_module("numpy")
    return np.arange(pixels) * count // pixels


def _firsts(np: Any, found: Any, starts: Any) -> Any:
    """The first place in each stretch where this is true; in each stretch it is somewhere."""
    places = np.flatnonzero(found)
    return places[np.searchsorted(places, starts)]
