"""Pictures of a volume by matplotlib: each function draws on ``axes`` (new ones where none are given) and gives them back."""

from __future__ import annotations

import importlib
import os
from typing import Any, Dict, List, Optional, Sequence, Tuple

from . import gains
from .lines import Field, Path, field
from .sections import ALONG, Section, described
from .thinning import peaks, thinned
from .volume import Volume

HEADER_PIXELS = 1200
SECTION_PIXELS = (1600, 1200)
COLOURS = {"grey": "Greys", "red-white-blue": "RdBu_r", "purple-white-orange": "PuOr_r"}
STYLES = ("density", "wiggles", "both")


def _axes(axes: Any) -> Any:
    if axes is not None:
        return axes
    return importlib.import_module("matplotlib.pyplot").subplots()[1]


def _numpy() -> Any:
    return importlib.import_module("numpy")


def _image(axes: Any, found: Any, values: Any, **words: Any) -> Any:
    """A map, inlines upwards. Rows and columns are the inlines and crosslines that occur; their numbers stand at the axes."""
    image = axes.imshow(values, origin="lower", aspect="auto", interpolation="nearest", **words)
    for axis, numbers in ((axes.yaxis, found.inlines), (axes.xaxis, found.crosslines)):
        axis.set_major_locator(importlib.import_module("matplotlib.ticker").MaxNLocator(nbins=8, integer=True))
        axis.set_major_formatter(lambda at, _, numbers=numbers: str(numbers[int(at)]) if at == int(at) and 0 <= at < len(numbers) else "")
    axes.set_xlabel("crossline")
    axes.set_ylabel("inline")
    return image


def fold(volume: Volume, axes: Any = None) -> Any:
    """The fold map. Cells without traces are left out."""
    np = _numpy()
    axes = _axes(axes)
    found = volume.grid
    folds = found.array
    image = _image(axes, found, np.ma.MaskedArray(folds, mask=folds == 0), vmin=0)
    axes.figure.colorbar(image, ax=axes, label="traces of a cell")
    axes.set_title("Fold")
    return axes


def slice(volume: Volume, sample: int, clip: Optional[float] = None, axes: Any = None) -> Any:
    """A slice. The colours end at ``clip`` to both sides, else at the 98th percentile of the samples without their signs."""
    np = _numpy()
    axes = _axes(axes)
    found = volume.slice(sample)
    values = np.ma.masked_invalid(found.array.astype("f8"))  # what is no finite number is left out
    if clip is None and values.count():
        clip = float(np.percentile(np.abs(values.compressed()), 98))
    bound = clip or 1.0
    image = _image(axes, found, values, cmap="RdBu_r", vmin=-bound, vmax=bound)
    axes.figure.colorbar(image, ax=axes, label="sample")
    axes.set_title(f"Sample {sample}")
    return axes


def positions(volume: Volume, axes: Any = None) -> Any:
    """Where the traces lie, coloured by their position in the file."""
    axes = _axes(axes)
    found = volume.positions()
    points = axes.scatter(found["x"], found["y"], c=range(1, len(found) + 1), s=4)
    axes.figure.colorbar(points, ax=axes, label="trace")
    axes.ticklabel_format(style="plain", useOffset=False)
    axes.set_xlabel("x, under the scalar")
    axes.set_ylabel("y, under the scalar")
    axes.set_title("Positions")
    return axes


def histogram(volume: Volume, axes: Any = None) -> Any:
    """How many cells have each fold."""
    axes = _axes(axes)
    found = volume.histogram()
    axes.bar(list(found), list(found.values()))
    axes.set_xlabel("fold")
    axes.set_ylabel("cells")
    axes.set_title("Histogram of folds")
    return axes


def headers(
    volume: Volume, *fields: Field, traces: Any = None, path: Optional[Path] = None,
    where: Optional[str] = None
) -> List[Any]:
    """Header fields against the number of the trace: one picture below the other, each field with its own scale. Without fields: inline and crossline.

    ``traces`` and ``where`` as for ``Volume.headers``. Of many traces the least and the greatest number of each pixel are drawn, so that a wild one is seen.
    With ``path`` the picture is saved there. The axes are given back, one for each field.
    """
    np = _numpy()
    names = [field(one) for one in fields or ("inline", "crossline")]
    meant = np.asarray(volume._meant(traces, where), dtype=np.int64)
    order = np.argsort(meant, kind="stable")
    found = volume.headers(*names, traces=meant[order])
    rows = _rows(len(names), path is not None)
    for axes, name in zip(rows, names):
        numbers = found[name]
        kept = thinned(numbers, HEADER_PIXELS)
        axes.plot(meant[order][kept], numbers[kept].astype("f8"), "-" if len(kept) < len(numbers) else ".-", linewidth=0.8, markersize=3)
        axes.set_ylabel(name)
        axes.ticklabel_format(style="plain", useOffset=False)
        axes.grid(alpha=0.3)
    rows[-1].set_xlabel("trace")
    rows[0].set_title("Headers")
    if path is not None:
        rows[0].figure.savefig(os.fspath(path))
    return rows


def _rows(count: int, saved: bool, size: Optional[Tuple[float, float]] = None, heights: Optional[List[float]] = None) -> List[Any]:
    """A figure with so many axes, one below the other; where it is only saved, one that no window shows."""
    size = size or (9.0, max(2.2 * count, 3.0))
    if saved:
        figure = importlib.import_module("matplotlib.figure").Figure(figsize=size, layout="constrained")
    else:
        figure = importlib.import_module("matplotlib.pyplot").figure(figsize=size, layout="constrained")
    return list(figure.subplots(count, 1, sharex=True, squeeze=False, height_ratios=heights)[:, 0])


def section(
    volume: Volume, traces: Any = None, style: str = "density", gain: gains.Gain = gains.Gain(), colours: str = "grey", above: Sequence[Field] = (),
    path: Optional[Path] = None, where: Optional[str] = None, **values: int
) -> List[Any]:
    """A section as ``Volume.section`` gives it, times downwards; ``above`` it header fields on the same axis.

    ``style`` is ``"density"``, ``"wiggles"`` (with their peaks filled) or ``"both"``, ``colours`` one of ``COLOURS``. Where there are more samples than
    pixels a pixel shows the one farthest from zero, and of many traces some have wiggles. With ``path`` the picture is saved there. The axes are given
    back, that of the section last.
    """
    if style not in STYLES or colours not in COLOURS:
        raise ValueError(f"a section is drawn as {', '.join(STYLES)}, in the colours {', '.join(COLOURS)}")
    gains.checked(gain)
    names = [field(one) for one in above]
    found = volume.section(traces, where, **values)
    rows = _rows(len(names) + 1, path is not None, (9.0, 6.0 + 1.2 * len(names)), [1.0] * len(names) + [5.0])
    headers_above = volume.headers(*names, traces=found.traces) if names else {}
    for axes, name in zip(rows, names):
        axes.plot(_numpy().arange(len(found.traces)), headers_above[name].astype("f8"), linewidth=0.8)
        axes.set_ylabel(name)
        axes.ticklabel_format(style="plain", axis="y", useOffset=False)
    _section(rows[-1], found, style, gain, colours)
    rows[0].set_title(described(values, where))
    _trace_axis(rows[-1], volume, found, values)
    if path is not None:
        rows[0].figure.savefig(os.fspath(path))
    return rows


def _section(axes: Any, found: Section, style: str, gain: gains.Gain, colours: str) -> None:
    """Density and wiggles on axes of traces, from 0, and of times."""
    np = _numpy()
    step = float(found.times[1] - found.times[0]) if len(found.times) > 1 else 1.0
    values, end = gains.gained(gains.plain(found.array), step, gain)
    codes = np.ascontiguousarray(gains.codes(values, end).T)
    top, bottom = (float(found.times[0]) - step / 2, float(found.times[-1]) + step / 2) if len(found.times) else (0.0, 1.0)
    wide, tall = SECTION_PIXELS
    if style != "wiggles" and codes.size:
        pixels = peaks(codes, tall, wide)
        shown = np.ma.MaskedArray(pixels * (end / gains.FULL), mask=pixels == gains.LACKS)
        image = axes.imshow(shown, aspect="auto", interpolation="nearest", cmap=COLOURS[colours], vmin=-end, vmax=end, extent=(-0.5, codes.shape[1] - 0.5, bottom, top))
        axes.figure.colorbar(image, ax=axes, label="sample" if gain.balance == "none" else "sample under the gain")
    if style != "density":
        for trace in range(0, codes.shape[1], 1 + codes.shape[1] // (wide // 8)):
            samples = np.where(codes[:, trace] == gains.LACKS, np.nan, codes[:, trace] / gains.FULL * 0.95)
            axes.plot(trace + samples, found.times, color="black", linewidth=0.4)
            axes.fill_betweenx(found.times, trace, trace + np.nan_to_num(np.maximum(samples, 0)), color="black", linewidth=0)
    axes.set_xlim(-0.5, max(codes.shape[1] - 0.5, 0.5))
    axes.set_ylim(bottom, top)


def _trace_axis(axes: Any, volume: Volume, found: Section, values: Dict[str, int]) -> None:
    """The numbers of the traces at their axis: crosslines of an inline, inlines of a crossline, else positions in the file."""
    along = [ALONG[name] for name in values if name in ALONG]
    numbers = volume.headers(along[0], traces=found.traces)[along[0]] if len(along) == 1 else found.traces
    axes.xaxis.set_major_locator(importlib.import_module("matplotlib.ticker").MaxNLocator(nbins=9, integer=True))
    axes.xaxis.set_major_formatter(lambda at, _: str(numbers[int(at)]) if at == int(at) and 0 <= at < len(numbers) else "")
    axes.set_xlabel(along[0] if len(along) == 1 else "trace")
    axes.set_ylabel("time (ms)")
