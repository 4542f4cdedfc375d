"""The bin grid that is fitted to inlines, crosslines and coordinates, and the residuals of each trace."""

import math
import struct

import files
import numpy as np
import pytest

import segywb
from segywb import fitting

TURN = math.radians(23)


def survey(path, inlines=range(10, 30), crosslines=range(100, 140), scalar=-100, change=None):
    """Bins of 50 m by 12.5 m, turned by 23 degrees, in whole numbers under the scalar. ``change`` alters the numbers of all traces."""
    inline, crossline = (one.ravel() for one in np.meshgrid(list(inlines), list(crosslines), indexing="ij"))
    x = 450000 + 12.5 * crossline * math.cos(TURN) - 50 * inline * math.sin(TURN)
    y = 6800000 + 12.5 * crossline * math.sin(TURN) + 50 * inline * math.cos(TURN)
    numbers = {"inline": inline.astype(int), "crossline": crossline.astype(int), "x": np.rint(x * 100).astype(int), "y": np.rint(y * 100).astype(int)}
    if change:
        change(numbers)
    made = []
    for at, row in enumerate(zip(*(numbers[name].tolist() for name in ("inline", "crossline", "x", "y"))), 1):
        trace = bytearray(files.trace(at, row[0], row[1], [1]))
        trace[70:72], trace[180:188] = struct.pack(">h", scalar), struct.pack(">2i", row[2], row[3])
        made.append(bytes(trace))
    return files.write(path, files.header(), files.binary(samples=1), *made), numbers


def test_an_exact_grid(opened):
    grid = opened("cube").fit()
    assert grid.origin == pytest.approx((450000 - 201 * 25, 6800000 - 101 * 25), abs=1e-6)
    assert grid.inline_step == pytest.approx((0, 25), abs=1e-9) and grid.crossline_step == pytest.approx((25, 0), abs=1e-9)
    assert grid.misfit.max() < 1e-6 and grid.used.all() and grid.traces.tolist() == list(range(1, 13))
    assert grid.spacing == pytest.approx((25, 25)) and grid.angle == pytest.approx(90)
    assert grid.at(102, 203) == pytest.approx((450050, 6800025))
    assert repr(grid).startswith("Fit(origin=(444975, 6797475), ") and repr(grid).endswith("12 of 12 traces used)")


def test_rounded_coordinates_are_not_trimmed(tmp_path, opened):
    """What rounding to a centimetre does to a place leaves no trace out, and the fit is that of the normal equations."""
    path, numbers = survey(tmp_path / "turned.sgy")
    grid = opened(path).fit()
    assert grid.used.all() and grid.turns == 1
    rows = np.stack([np.ones(800), numbers["inline"] - 20.0, numbers["crossline"] - 120.0], axis=1)
    for axis, name in enumerate("xy"):
        constant, inline, crossline = np.linalg.solve(rows.T @ rows, rows.T @ (numbers[name] / 100))
        assert (grid.inline_step[axis], grid.crossline_step[axis]) == pytest.approx((inline, crossline), abs=1e-8)
        assert grid.at(20, 120)[axis] == pytest.approx(constant, abs=1e-6)
    assert grid.spacing == pytest.approx((50, 12.5), abs=1e-3) and 0 < grid.misfit.max() < 0.02
    assert np.array_equal(grid.misfit, np.hypot(grid.dx, grid.dy))
    x, y = grid.at(numbers["inline"], numbers["crossline"])
    assert np.allclose(numbers["x"] / 100 - x, grid.dx, atol=1e-6) and np.allclose(numbers["y"] / 100 - y, grid.dy, atol=1e-6)


WILD = {
    "a coordinate": lambda n: n["x"].__setitem__(7, n["x"][7] + 100000),
    "an inline": lambda n: n["inline"].__setitem__(7, 2000000000),
    "a crossline": lambda n: n["crossline"].__setitem__(7, -2000000000),
    "no place": lambda n: (n["x"].__setitem__(slice(100, 300), 0), n["y"].__setitem__(slice(100, 300), 0)),
    "a line moved": lambda n: n["y"].__setitem__(slice(0, 40), n["y"][:40] + 5000),
    "two in five": lambda n: n["x"].__setitem__(slice(0, 800, 5), 7) or n["y"].__setitem__(slice(1, 800, 5), 9),
}


@pytest.mark.parametrize("name", WILD)
def test_wild_numbers_do_not_draw_the_grid(tmp_path, opened, name):
    sound, good = survey(tmp_path / "sound.sgy")
    broken, bad = survey(tmp_path / "broken.sgy", change=WILD[name])
    grid, wanted = opened(broken).fit(), opened(sound).fit()
    touched = np.zeros(800, dtype=bool)
    for one in good:
        touched |= good[one] != bad[one]
    assert touched.any() and np.array_equal(grid.used, ~touched)
    assert grid.inline_step == pytest.approx(wanted.inline_step, abs=1e-3) and grid.crossline_step == pytest.approx(wanted.crossline_step, abs=1e-3)
    assert grid.misfit[~touched].max() < 0.02 < 49 < grid.misfit[touched].min()


def test_noise_is_trimmed_in_turns(tmp_path, opened):
    """With noise of 2 m, what stays is within three times the middle residual of what stays."""
    chance = np.random.default_rng(3)

    def noisy(numbers):
        for name in "xy":
            numbers[name] += chance.normal(0, 200, 800).astype(int)
        numbers["x"][::40] += 20000

    grid = opened(survey(tmp_path / "noisy.sgy", change=noisy)[0]).fit()
    assert not grid.used[::40].any() and grid.used.sum() > 700 and grid.turns > 1
    assert np.array_equal(grid.used, grid.misfit <= 3 * np.median(grid.misfit[grid.used]))
    assert grid.spacing == pytest.approx((50, 12.5), rel=0.01) and grid.angle == pytest.approx(90, abs=0.5)


def test_a_selection(tmp_path, opened):
    volume = opened(survey(tmp_path / "turned.sgy")[0])
    volume.set(3, "x", 5)
    some = volume.fit(traces=slice(1, 81))
    assert some.traces.tolist() == list(range(1, 81)) and not some.used[2] and some.used.sum() == 79
    back = volume.fit(traces=[80, 3, 79, 1, 40])
    assert back.traces.tolist() == [80, 3, 79, 1, 40] and back.used.tolist() == [True, False, True, True, True]


def all_equal(name, number):
    return lambda numbers: numbers[name].__setitem__(slice(None), number)


def on_a_diagonal(numbers):
    numbers["inline"][:] = 3 * numbers["crossline"] - 7



REFUSED = {
    "one inline": (all_equal("inline", 7), "all have inline 7, so nothing tells the step from inline to inline"),
    "one crossline": (all_equal("crossline", -7), "all have crossline -7, so"),
    "a diagonal": (on_a_diagonal, "all lie on one line of inlines and crosslines"),
    "no place": (lambda numbers: (all_equal("x", 0)(numbers), all_equal("y", 0)(numbers)), "no trace with a place"),
}


@pytest.mark.parametrize("name", REFUSED)
def test_no_grid(tmp_path, opened, name):
    change, told = REFUSED[name]
    volume = opened(survey(tmp_path / "none.sgy", change=change)[0])
    with pytest.raises(segywb.FitRefused) as refusal:
        volume.fit()
    assert told in str(refusal.value) and isinstance(refusal.value, ValueError) and isinstance(refusal.value, segywb.Error)
    assert len(volume) == 800


def test_those_that_agree_lie_on_one_line(monkeypatch):
    """Where only traces of one inline are left, there is no grid, also where the others were thrown out on the way."""
    inline, crossline = np.repeat([1, 2], [31, 29]), np.arange(60)
    x, y = 25 * crossline + np.where(inline == 2, np.random.default_rng(5).integers(10**6, 10**9, 60), 0), 1000 + 0 * crossline

    def of_the_first_inline(np, numbers, places):
        return np.linalg.lstsq(numbers[:31], places[:31], rcond=None)[0]

    monkeypatch.setattr(fitting, "_guess", of_the_first_inline)
    with pytest.raises(segywb.FitRefused, match="of the traces that agree with each other all have inline 1, so"):
        fitting.fitted(inline, crossline, x, y)


def test_no_traces(tmp_path, opened):
    with pytest.raises(segywb.FitRefused, match="no trace with a place"):
        opened(files.empty(tmp_path / "none.sgy")).fit()
    with pytest.raises(segywb.FitRefused):
        opened("cube").fit(traces=[1, 2])
