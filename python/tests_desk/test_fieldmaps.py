"""Maps of a field, of the fold or of the misfit: by the numbers of the lines, and where the bins lie."""

import json
import math

import numpy as np
import pytest
from selenium.webdriver.common.keys import Keys
from test_guard import asked, ready
from test_maps import LAPTOP, loaded, survey, written

from segywb.desk import fieldmaps, views
from segywb.desk.fieldmaps import HOWS, Asked, FieldMaps

TURN = math.radians(23)


def turned(path, inlines=12, crosslines=9, change=None, copies=1):
    """Bins of 50 by 20, turned by 23 degrees, with ``copies`` traces each; bytes 17-20 count the traces."""
    inline, crossline = (np.repeat(one.ravel(), copies) for one in np.meshgrid(np.arange(1, inlines + 1), np.arange(1, crosslines + 1), indexing="ij"))
    x = np.rint(450000 + 20 * crossline * math.cos(TURN) - 50 * inline * math.sin(TURN)).astype(int)
    y = np.rint(6800000 + 20 * crossline * math.sin(TURN) + 50 * inline * math.cos(TURN)).astype(int)
    columns = {"x189": inline, "x193": crossline, "x181": x, "x185": y, "x17": np.arange(1, len(x) + 1)}
    if change:
        change(columns)
    return written(path, **columns)


def cells_of(made, name, how):
    """The cells of a survey, one by one."""
    numbers, found = made.volume.headers("inline", "crossline", name), {}
    for inline, crossline, value in numbers.tolist():
        found.setdefault((inline, crossline), []).append(value)
    reduce = {"least": min, "mean": lambda some: sum(some) / len(some), "greatest": max}[how]
    return {cell: reduce(some) for cell, some in found.items()}


def shown(view):
    return {(view["down"]["first"][at], view["right"]["first"][up]): value for at, row in enumerate(view["now"]) for up, value in enumerate(row) if value is not None}


@pytest.mark.parametrize("how", HOWS)
def test_by_number(tmp_path, how):
    made = loaded(turned(tmp_path / "turned.sgy", copies=3))
    made.run_script("delete 200\nset 7 source_point -5000\nset 30 inline 3")
    view = FieldMaps().view(made, Asked("source_point", how, False, False), LAPTOP)
    assert shown(view) == pytest.approx(cells_of(made, "source_point", how)) and view["cells"] == 108 and view["kind"] == "number"
    assert (view["least"], view["most"]) == (min(shown(view).values()), max(shown(view).values()))
    folds = FieldMaps().view(made, Asked("fold", how, False, False), LAPTOP)
    assert shown(folds) == {cell: made.volume.fold(*cell) for cell in shown(view)} and folds["most"] == 4
    made.close()


@pytest.mark.parametrize("how", HOWS)
def test_many_cells_share_a_pixel(tmp_path, how):
    made = loaded(survey(tmp_path / "cube.sgy", range(1, 61), range(1, 81), x17=np.arange(4800)))
    view = FieldMaps().view(made, Asked("source_point", how, False, False), views.Window((20, 15), False))
    assert view["bundle"] == [4, 4] and (len(view["now"]), len(view["now"][0])) == (15, 20)
    numbers = np.arange(4800).reshape(15, 4, 20, 4)
    wanted = {"least": numbers.min(axis=(1, 3)), "mean": numbers.mean(axis=(1, 3)), "greatest": numbers.max(axis=(1, 3))}[how]
    assert np.allclose(view["now"], wanted)
    made.close()


def test_cells_by_either_way(monkeypatch):
    cells = np.random.default_rng(11).integers(0, 500, 300)
    one = [found.tolist() for found in fieldmaps.cells_of(cells, 500)]
    monkeypatch.setattr(fieldmaps, "MOST_DENSE", 0)
    assert [found.tolist() for found in fieldmaps.cells_of(cells, 5000)] == one
    assert cells[one[1]].tolist() == one[0] and [one[0][at] for at in one[2]] == cells.tolist() and sum(one[3]) == 300


def test_where_bins_lie(tmp_path):
    made = loaded(turned(tmp_path / "turned.sgy", copies=2))
    made.run_script("set 5 x 0\nset 5 y 0\nset 9 y 99999999")
    view = FieldMaps().view(made, Asked("source_point", "mean", True, False), LAPTOP)
    assert view["kind"] == "points" and view["left"] == 2 and view["cells"] == 108
    places = made.volume.positions()
    at = view["trace"].index(1)
    assert (view["inline"][at], view["crossline"][at], view["value"][at]) == (1, 1, 1.5)
    for trace, x, y in zip(view["trace"], view["px"], view["py"]):
        assert (x, y) == (places["x"][trace - 1], places["y"][trace - 1])
    lone = view["trace"].index(6)  # of its cell the other trace has no place
    assert view["value"][lone] == 6
    whole = FieldMaps().view(made, Asked("source_point", "mean", True, True), LAPTOP)
    assert whole["left"] == 0 and whole["y"] == [0, max(whole["py"])] or whole["y"][0] < 6000000
    made.close()


@pytest.mark.parametrize("change", [None, lambda columns: columns["x185"].__setitem__(slice(None), 5 * columns["x185"])])
def test_no_pixel_between_bins_is_empty(tmp_path, change):
    made = loaded(turned(tmp_path / "turned.sgy", 90, 70, change))
    view = FieldMaps().view(made, Asked("source_point", "least", True, False), LAPTOP)
    z = np.array([[np.nan if one is None else one for one in row] for row in view["z"]])
    assert view["kind"] == "pixels" and z.shape[0] <= fieldmaps.TALL + 1 and z.shape[1] <= fieldmaps.WIDE + 1 and np.nanmin(z) == 1
    there = ~np.isnan(z)
    for row in there:
        at = np.flatnonzero(row)
        assert not len(at) or row[at[0]:at[-1] + 1].all()
    first = np.array([[np.nan if one is None else one for one in row] for row in view["first"]])
    assert np.array_equal(np.isnan(first), ~there) and np.array_equal(first[there], z[there])
    made.close()


def test_the_misfit(tmp_path):
    made = loaded(turned(tmp_path / "turned.sgy"))
    maker = FieldMaps()
    view = maker.view(made, Asked("misfit", "greatest", False, True), LAPTOP)
    assert view["most"] < 1 and view["grid"]["used"] == 108
    assert view["grid"]["spacing"] == pytest.approx([50, 20], abs=0.05) and view["grid"]["angle"] == pytest.approx(90, abs=0.5)
    made.run("compute 20 20 x x + 300")
    view = maker.view(made, Asked("misfit", "greatest", False, True), LAPTOP)
    wanted = made.volume.fit()
    assert view["grid"]["trace"] == 20 and view["grid"]["used"] == 107 and view["most"] == pytest.approx(300, abs=2)
    assert list(shown(view).values()) == pytest.approx(wanted.misfit.tolist(), abs=1e-6)
    made.undo()
    assert maker.view(made, Asked("misfit", "greatest", False, True), LAPTOP)["grid"]["used"] == 108
    made.run("renumber 1 108 inline 7 0")
    view = maker.view(made, Asked("misfit", "mean", False, False), LAPTOP)
    assert view["kind"] == "none" and "all have inline 7" in view["why"] and view["grid"] is None
    view = maker.view(made, Asked("crossline", "mean", True, False), LAPTOP)
    assert view["kind"] == "points" and view["cells"] == 9
    made.close()


def test_bad_questions(started):
    desk = ready(started("cube"))
    for path, status in (("colour=nothing", 409), ("colour=", 400), ("", 400), ("colour=x&how=middle", 400), ("colour=x&place=there", 400), ("colour=x+y", 400), ("colour=x%0Ay", 400)):
        got, told, _ = asked(desk, f"/{desk.token}/ask/field?{path}")
        assert got == status and set(json.loads(told)) <= {"error", "refused"}, (path, got, told)


# ---- on the page


def select(page, id, value):
    page.js("const one = document.getElementById(arguments[0]); one.value = arguments[1]; one.dispatchEvent(new Event('change'))", id, value)


def test_a_field_map(opened, tmp_path):
    page = opened(turned(tmp_path / "turned.sgy"))
    page.may_complain = True  # of the field that there is not
    page.map_tab("field")
    page.wait(lambda: "Fitted grid: inlines" in page.text("caption"))
    assert "of a cell" in page.text("caption") and "from 108 of 108 traces" in page.text("caption")
    page.run("compute 20 20 x x + 300")
    page.wait(lambda: "the farthest is trace 20, by 299." in page.text("caption"))
    assert np.array(page.map()).max() > 290 and page.map()[2][1] > 290
    select(page, "map-colour", "source_point")
    page.wait(lambda: page.map()[0] == list(range(1, 10)))
    page.hovered(2, 1, "inline 3, crossline 2: mean source_point 20, trace 20")
    select(page, "map-colour", "colour")
    page.wait(lambda: page.text("map-said") == "refused E02 no field")
    select(page, "map-colour", "fold")
    page.wait(lambda: page.map() == [[1] * 9] * 12 and page.text("map-said") == "")
    page.drag([(0, 0), (1, 1)], (4, 4))
    page.wait(lambda: page.text("offer-count") == "4 traces")


def test_bins_lie_in_one_scale(opened, tmp_path):
    page = opened(turned(tmp_path / "turned.sgy"))
    page.map_tab("field")
    select(page, "map-colour", "source_point")
    select(page, "map-place", "lying")
    page.wait(lambda: page.js("return document.getElementById('plot-now').data[0].type") == "scatter")
    one, other = page.js("const {xaxis: x, yaxis: y} = document.getElementById('plot-now')._fullLayout; return [x, y].map((one) => one._length / (one.range[1] - one.range[0]))")
    assert one == pytest.approx(other, rel=1e-3)
    assert page.js("return document.getElementById('plot-now').data[0].marker.color") == list(range(1, 109)) and not page.find("box").is_displayed()
    select(page, "map-place", "number")
    page.wait(lambda: page.js("return document.getElementById('plot-now').data[0].type") == "heatmap" and page.find("box").is_displayed())


def test_scales_of_colours(opened):
    page = opened("wrong_line")
    scale = "return JSON.stringify(document.getElementById('plot-now').data[0].colorscale)"
    first = page.js(scale)
    select(page, "map-scale", "Cividis")
    page.wait(lambda: page.js(scale) != first)
    assert page.js(scale) == '"Cividis"' and "for colour-blind eyes" in page.find("map-scale").text
    page.map_tab("field")
    assert page.js(scale) == '"Cividis"'
    page.map_tab("slice")
    assert not page.find("map-scale").is_displayed() and "Cividis" not in page.js(scale)


def test_no_grid_is_told(opened):
    page = opened("survey")  # of one inline
    page.map_tab("field")
    page.wait(lambda: page.text("caption") == "No grid can be fitted: all have inline 10, so nothing tells the step from inline to inline.")
    page.find("map-colour").send_keys(Keys.CONTROL + "a", Keys.NULL, "crossline", Keys.TAB)
    page.wait(lambda: page.js("return document.getElementById('plot-now').data.length") == 1 and "Colours: mean crossline of a cell" in page.text("caption"))
