"""Header fields against the number of the trace: what is drawn, and that no wild number is lost in many."""

import files
import matplotlib
import matplotlib.pyplot
import numpy as np
import pytest

from segywb.thinning import thinned

matplotlib.use("Agg")


@pytest.mark.parametrize("count", [0, 1, 7, 199, 200, 201, 1000, 99999, 1000000])
@pytest.mark.parametrize("kind", ["noise", "flat", "rising", "spikes"])
def test_what_is_thinned_keeps_the_extremes_of_each_pixel(count, kind):
    chance, pixels = np.random.default_rng(count), 100
    values = {"noise": chance.integers(-50, 50, count), "flat": np.full(count, 7), "rising": np.arange(count), "spikes": np.where(chance.random(count) < 1e-3, -(2**31), 5)}[kind]
    kept = thinned(values, pixels)
    assert len(kept) <= max(2 * pixels, 1) and (np.diff(kept) > 0).all()
    if count <= 2 * pixels:
        assert kept.tolist() == list(range(count))
        return
    bounds = [pixel * count // pixels for pixel in range(pixels + 1)]
    for first, end in zip(bounds, bounds[1:]):
        here = kept[(kept >= first) & (kept < end)]
        assert set(here.tolist()) == {first + int(values[first:end].argmin()), first + int(values[first:end].argmax())}


def drawn(axes):
    (line,) = axes.lines
    return line.get_xdata().tolist(), line.get_ydata().tolist()


def test_each_field_has_its_picture(opened):
    volume = opened("wrong_line")
    rows = volume.plot_headers("inline", 193, "@181:4")
    assert [axes.get_ylabel() for axes in rows] == ["inline", "@193:4", "@181:4"] and rows[-1].get_xlabel() == "trace"
    assert drawn(rows[0]) == (list(range(1, 13)), [101] * 8 + [103] * 4)
    assert drawn(rows[1])[1] == [201, 202, 203, 204] * 3
    assert rows[0].get_shared_x_axes().joined(rows[0], rows[2])
    assert [axes.get_ylabel() for axes in volume.plot_headers()] == ["inline", "crossline"]
    matplotlib.pyplot.close("all")


@pytest.mark.parametrize("traces, wanted", [(slice(3, 6), [3, 4, 5]), ([9, 2, 2], [2, 2, 9]), (4, [4]), ([], []), (lambda v: v.headers("inline")["inline"] == 103, [9, 10, 11, 12])])
def test_a_selection_stands_at_its_traces(opened, traces, wanted):
    volume = opened("wrong_line")
    (axes,) = volume.plot_headers("crossline", traces=traces(volume) if callable(traces) else traces)
    assert drawn(axes) == (wanted, [volume.get(one, "crossline") for one in wanted])
    matplotlib.pyplot.close("all")


def test_a_wild_number_of_many_is_drawn(opened, tmp_path):
    volume = opened(files.cube(tmp_path / "many.sgy", 30, 300, 1))
    volume.set(4567, "crossline", -77)
    (axes,) = volume.plot_headers("crossline")
    at, numbers = drawn(axes)
    assert len(at) <= 2400 < len(volume) and min(numbers) == -77 and at[numbers.index(-77)] == 4567
    assert max(numbers) == 300 and all(volume.get(one, "crossline") == number for one, number in list(zip(at, numbers))[::300])
    matplotlib.pyplot.close("all")


@pytest.mark.parametrize("end, head", [("png", b"\x89PNG"), ("svg", b"<?xml"), ("pdf", b"%PDF")])
def test_a_picture_is_saved(opened, tmp_path, end, head):
    """And no figure is left open."""
    before = matplotlib.pyplot.get_fignums()
    rows = opened("cube").plot_headers("inline", "x", path=tmp_path / f"headers.{end}")
    assert (tmp_path / f"headers.{end}").read_bytes().startswith(head) and len(rows) == 2
    assert matplotlib.pyplot.get_fignums() == before
