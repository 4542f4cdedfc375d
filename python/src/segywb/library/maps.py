"""The map of the report: the outlines of the surveys, as a drawing within the page."""

from __future__ import annotations

from html import escape
from math import floor, log10
from typing import Dict, List, NamedTuple, Sequence, Tuple

from .outlines import Point

WIDTH, HEIGHT = 1000.0, 640.0
LEFT, BOTTOM, TOP = 78.0, 26.0, 12.0
SHARE = 0.02
FAR = 0.5
TICKS = 6
LEAST_PIXELS = 3.0
# Colours that those who see red and green alike tell apart (Okabe and Ito); other folders are grey.
COLOURS = ("#0072b2", "#d55e00", "#009e73", "#cc79a7", "#e69f00", "#56b4e9")
REST = "#888888"


class Outline(NamedTuple):
    """The outline of a file, and the folder by which it is coloured."""

    name: str
    folder: str
    points: Sequence[Point]


class Window(NamedTuple):
    """The part of the plane that is drawn."""

    low_x: float
    low_y: float
    high_x: float
    high_y: float

    def holds(self, points: Sequence[Point]) -> bool:
        """Whether all corners lie in it."""
        return all(
            self.low_x <= x <= self.high_x and self.low_y <= y <= self.high_y for x, y in points
        )


def window(outlines: Sequence[Outline]) -> Window:
    """The least part of the plane with all outlines in it but those far off from nearly all others.

    >>> near = [Outline("a", "", [(n, 0.0), (n + 10.0, 5.0)]) for n in range(60)]
    >>> window([*near, Outline("zero", "", [(-10.0**6, 0.0)])])
    Window(low_x=0, low_y=0.0, high_x=69.0, high_y=5.0)
    """
    corners = [point for one in outlines for point in one.points]
    low_x, high_x = _span([x for x, _ in corners])
    low_y, high_y = _span([y for _, y in corners])
    wide = Window(low_x, low_y, high_x, high_y)
    inside = [point for one in outlines if wide.holds(one.points) for point in one.points]
    xs, ys = [x for x, _ in inside or corners], [y for _, y in inside or corners]
    return Window(min(xs), min(ys), max(xs), max(ys))


def _span(numbers: List[float]) -> Tuple[float, float]:
    """From where to where most of the numbers lie, and as far again on both sides."""
    numbers = sorted(numbers)
    cut = int(SHARE * len(numbers))
    low, high = numbers[cut], numbers[-1 - cut]
    far = FAR * (high - low)
    return low - far, high + far


class Scale(NamedTuple):
    """Where a place of the plane stands on the drawing: x and y in one scale."""

    window: Window
    scale: float
    height: float

    def place(self, x: float, y: float) -> Tuple[float, float]:
        """In pixels from the upper left corner."""
        right, up = (x - self.window.low_x) * self.scale, (y - self.window.low_y) * self.scale
        return LEFT + right, self.height - BOTTOM - up


def scale_of(told: Window) -> Scale:
    """The largest scale in which the window fits; one place alone stands in the middle."""
    wide, high = told.high_x - told.low_x, told.high_y - told.low_y
    if wide <= 0 and high <= 0:
        told = Window(told.low_x - 1, told.low_y - 1, told.high_x + 1, told.high_y + 1)
        wide = high = 2.0
    scale = min((WIDTH - LEFT - TOP) / max(wide, 1e-9), (HEIGHT - TOP - BOTTOM) / max(high, 1e-9))
    return Scale(told, scale, max(high * scale, 4 * BOTTOM) + TOP + BOTTOM)


def steps(low: float, high: float) -> List[float]:
    """Round numbers from low to high, a few of them.

    >>> steps(449990.0, 450100.0), steps(3.0, 3.0)
    ([450000.0, 450020.0, 450040.0, 450060.0, 450080.0, 450100.0], [3.0])
    """
    if not high > low:
        return [low]
    power = 10.0 ** floor(log10((high - low) / TICKS))
    step = next(power * one for one in (1, 2, 5, 10, 20) if power * one * TICKS >= high - low)
    first = -(-low // step)
    return [(first + number) * step for number in range(int(high / step - first + 1e-9) + 1)]


def drawing(outlines: Sequence[Outline]) -> Tuple[str, List[str]]:
    """The outlines, each with the name of its file, over lines of the coordinates; and the files
    whose outlines lie outside of it.
    """
    if not outlines:
        return '<p class="dim">none: no file has coordinates</p>', []
    scale = scale_of(window(outlines))
    colours = _colours(outlines)
    inside = [one for one in outlines if scale.window.holds(one.points)]
    drawn = "".join(_polygon(one, colours[one.folder], scale) for one in inside)
    size = f'viewBox="0 0 {WIDTH:.0f} {scale.height:.0f}"'
    picture = f'<svg class="map" {size}>{_lines(scale)}{drawn}</svg>{_legend(inside, colours)}'
    return picture, [one.name for one in outlines if not scale.window.holds(one.points)]


def _polygon(one: Outline, colour: str, scale: Scale) -> str:
    places = _corners(one.points, scale)
    title = f"<title>{escape(one.name)}</title>"
    return f'<polygon points="{places}" stroke="{colour}" fill="{colour}">{title}</polygon>'


def _colours(outlines: Sequence[Outline]) -> Dict[str, str]:
    """A colour for each of the folders that have the most files."""
    counts: Dict[str, int] = {}
    for one in outlines:
        counts[one.folder] = counts.get(one.folder, 0) + 1
    order = sorted(counts, key=lambda folder: (-counts[folder], folder))
    return {folder: COLOURS[at] if at < len(COLOURS) else REST for at, folder in enumerate(order)}


def _corners(points: Sequence[Point], scale: Scale) -> str:
    """The corners of an outline; a survey that would hardly be seen is drawn as a small square."""
    places = [scale.place(x, y) for x, y in points]
    xs, ys = [x for x, _ in places], [y for _, y in places]
    if max(xs) - min(xs) < LEAST_PIXELS and max(ys) - min(ys) < LEAST_PIXELS:
        x, y, half = (min(xs) + max(xs)) / 2, (min(ys) + max(ys)) / 2, LEAST_PIXELS / 2
        corners = ((-half, -half), (half, -half), (half, half), (-half, half))
        places = [(x + right, y + up) for right, up in corners]
    return " ".join(f"{x:.1f},{y:.1f}" for x, y in places)


def _lines(scale: Scale) -> str:
    told = scale.window
    parts = []
    for x in steps(told.low_x, told.high_x):
        at, foot = scale.place(x, told.low_y)
        parts.append(f'<path d="M{at:.1f} {TOP}V{foot:.1f}"/>')
        parts.append(_label(at, scale.height - 8, "middle", x))
    for y in steps(told.low_y, told.high_y):
        left, at = scale.place(told.low_x, y)
        parts.append(f'<path d="M{left:.1f} {at:.1f}H{WIDTH - TOP}"/>')
        parts.append(_label(LEFT - 6, at + 4, "end", y))
    return "".join(parts)


def _label(x: float, y: float, anchor: str, number: float) -> str:
    return f'<text x="{x:.1f}" y="{y:.1f}" text-anchor="{anchor}">{number:,.10g}</text>'


def _legend(inside: Sequence[Outline], colours: Dict[str, str]) -> str:
    folders = sorted({one.folder for one in inside if colours[one.folder] != REST})
    keys = [_key(colours[folder], folder) for folder in folders]
    if any(colours[one.folder] == REST for one in inside):
        keys.append(_key(REST, "other folders"))
    told = "x to the right, y upwards, in the units of the files; point at an outline for its file"
    return f'<p class="dim">{" &nbsp; ".join(keys)}<br>{told}</p>'


def _key(colour: str, folder: str) -> str:
    return f'<span class="key" style="background: {colour}"></span>{escape(folder)}'
