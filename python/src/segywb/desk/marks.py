"""What marks the cells that changed: outlines around boxes of them, or one around all where they would bury the map."""

from __future__ import annotations

from typing import Any, Dict, List, Tuple

import numpy as np

from .bundles import Bundle

MOST_BOXES = 2000
FEW = 100
SHARE = 10


def buries(changed: int, of: int) -> bool:
    """Whether so many marks would bury what they mark: more than a tenth of all, and more than a few.

    >>> buries(100, 120), buries(101, 1010), buries(101, 1009)
    (False, False, True)
    """
    return changed > FEW and SHARE * changed > of


def marked(rows: Any, columns: Any, bundle: Bundle, of: int) -> Dict[str, Any]:
    """The number of changed cells of a map with so many, and their marks: boxes of pixels, each as the first and the last row, the first
    and the last column. Where marks would bury the map there are none, but the region: the box that holds all changed cells."""
    boxes = boxes_of(np.unique(bundle.of(rows, columns)), bundle.columns) if len(rows) and not buries(len(rows), of) else []
    if not len(rows) or 0 < len(boxes) <= MOST_BOXES:
        return {"changed": len(rows), "marks": boxes, "region": None}
    down, right = bundle.down[rows], bundle.right[columns]
    return {"changed": len(rows), "marks": [], "region": [int(down.min()), int(down.max()), int(right.min()), int(right.max())]}


def boxes_of(pixels: Any, columns: int) -> List[List[int]]:
    """Boxes that hold these rising pixels: runs of a row, and runs of the same columns in rows that follow each other as one.

    >>> boxes_of(np.array([1, 2, 4, 5, 6]), 3)
    [[0, 1, 1, 2], [2, 2, 0, 0]]
    """
    breaks = np.flatnonzero((np.diff(pixels) != 1) | (pixels[1:] % columns == 0)) + 1
    firsts, lasts = pixels[np.concatenate([[0], breaks])], pixels[np.concatenate([breaks - 1, [len(pixels) - 1]])]
    made: List[List[int]] = []
    above: Dict[Tuple[int, int], List[int]] = {}
    for row, first, last in zip((firsts // columns).tolist(), (firsts % columns).tolist(), (lasts % columns).tolist()):
        box = above.get((first, last))
        if box is not None and box[1] == row - 1:
            box[1] = row
        else:
            above[first, last] = [row, row, first, last]
            made.append(above[first, last])
    return made
