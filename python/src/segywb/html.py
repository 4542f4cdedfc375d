"""A volume as a small page for notebooks: what it is, and its fold map. Every text is escaped."""

from __future__ import annotations

from html import escape
from typing import TYPE_CHECKING, Dict, List, Tuple

from .errors import Error
from .grids import Grid

if TYPE_CHECKING:
    from .volume import Volume

MOST_PIXELS = 160
MOST_CELLS = 1 << 20


def page(volume: "Volume") -> str:
    """The page."""
    if volume.closed:
        return f"<p>{escape(repr(volume))}</p>"
    try:
        return f'<div style="display:flex;gap:2em;align-items:start">{_table(volume)}{_map(volume)}</div>'
    except Error as error:
        return f"<p>{escape(volume.path)}: {escape(str(error))}</p>"


def _table(volume: "Volume") -> str:
    told = volume.info
    rows = [
        ("file", volume.path),
        ("traces", str(told.traces)),
        ("samples, format", f"{told.samples}, {told.format}"),
        ("order, revision", f"{told.order}, {told.revision}"),
        *((which, _span(volume, which)) for which in ("inline", "crossline", "x", "y")),
        ("faults", ", ".join(f"{code}: {count}" for code, count in volume.fault_counts().items()) or "none"),
        ("edits", str(len(volume.edits))),
    ]
    body = "".join(f"<tr><th style='text-align:left'>{escape(name)}</th><td>{escape(text)}</td></tr>" for name, text in rows)
    return f"<table>{body}</table>"


def _span(volume: "Volume", which: str) -> str:
    found = volume.range(which)
    return "none" if found is None else " to ".join(f"{float(one):.12g}" for one in found)


def _map(volume: "Volume") -> str:
    grid = volume.grid
    if not len(grid):
        return ""
    if grid.shape[0] * grid.shape[1] > MOST_CELLS:
        return f"<p>{grid.shape[0]} inlines by {grid.shape[1]} crosslines: no map</p>"
    pixels, bundled = _pixels(grid)
    down, right = len(pixels), len(pixels[0])
    scale = max(1, min(12, 320 // max(down, right)))
    usual, most = _usual(grid), max(max(row) for row in pixels)
    boxes = "".join(
        f'<rect x="{at * scale}" y="{(down - 1 - up) * scale}" width="{scale}" height="{scale}" fill="{_colour(fold, usual, most)}">'
        f"<title>fold {fold}</title></rect>"
        for up, row in enumerate(pixels)
        for at, fold in enumerate(row)
        if fold != usual
    )
    said = f"Fold: inlines {grid.inlines[0]} to {grid.inlines[-1]} upwards, crosslines {grid.crosslines[0]} to {grid.crosslines[-1]} to the right"
    said += f"; usual fold {usual}, most {most}, grey none" + ("; a point stands for several cells: the fold farthest from the usual" if bundled else "")
    return (
        f'<figure style="margin:0"><svg role="img" width="{right * scale}" height="{down * scale}" style="background:#9ecae1">'
        f"<title>{escape(said)}</title>{boxes}</svg><figcaption>{escape(said)}</figcaption></figure>"
    )


def _usual(grid: Grid) -> int:
    counts: Dict[int, int] = {}
    folds = [row[2] for row in grid.rows] if isinstance(grid.rows, list) else grid.rows["fold"].tolist()
    for fold in folds:
        counts[fold] = counts.get(fold, 0) + 1
    return max(counts, key=lambda fold: (counts[fold], -fold))


def _pixels(grid: Grid) -> Tuple[List[List[int]], bool]:
    """The folds, where there are many of them by bundles of cells."""
    array = grid.array
    cells: List[List[int]] = array if isinstance(array, list) else array.tolist()
    tall, wide = -(-len(cells) // MOST_PIXELS), -(-len(cells[0]) // MOST_PIXELS)
    if tall == wide == 1:
        return cells, False
    usual = _usual(grid)
    return [
        [
            max((fold for row in cells[up:up + tall] for fold in row[at:at + wide]), key=lambda fold: abs(fold - usual))
            for at in range(0, len(cells[0]), wide)
        ]
        for up in range(0, len(cells), tall)
    ], True


def _colour(fold: int, usual: int, most: int) -> str:
    if fold == 0:
        return "#bbbbbb"
    if fold < usual:
        return "#fdae6b"
    return f"hsl(210,70%,{50 - 30 * fold // max(most, 1)}%)"
