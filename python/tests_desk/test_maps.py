"""What the maps must not hide: lines that lack, what changed and what lies under its marks, traces without a place."""

import files
import numpy as np
import pytest
from selenium.webdriver.common.keys import Keys

from segywb.desk import bundles, maps, marks, places, views
from segywb.desk.desk import Desk

LAPTOP = views.Window((600, 272), False)


def survey(path, inlines=range(1, 301), crosslines=range(1, 401), **columns):
    """A file with a trace of one sample for each cell; further columns are named by their first byte, as x181."""
    inline, crossline = (one.ravel() for one in np.meshgrid(list(inlines), list(crosslines), indexing="ij"))
    return written(path, x189=inline, x193=crossline, **columns)


def written(path, **columns):
    """A file whose trace headers have these numbers of four bytes each."""
    count = len(next(iter(columns.values())))
    rows = np.tile(np.frombuffer(files.trace(1, 0, 0, [1]), dtype=np.uint8), (count, 1))
    for name, numbers in columns.items():
        at = int(name[1:]) - 1
        rows[:, at:at + 4] = np.asarray(numbers).astype(">i4").view(np.uint8).reshape(-1, 4)
    return files.write(path, files.header(), files.binary(samples=1), rows.tobytes())


def loaded(path):
    made = Desk(str(path))
    made.load()
    return made


def without(numbers, *some):
    return [one for one in numbers if one not in some]


# ---- lines that lack


@pytest.mark.parametrize("down", [(), (150,), (150, 151, 222)])
@pytest.mark.parametrize("right", [(), (200,), (7, 200)])
@pytest.mark.parametrize("pixels", [(600, 272), (300, 200), (150, 100)])
def test_a_missing_line_is_seen(tmp_path, down, right, pixels):
    made = loaded(survey(tmp_path / "cube.sgy", without(range(1, 301), *down), without(range(1, 401), *right)))
    view = views.fold(made, views.Window(pixels, False))
    made.close()
    shown = np.array([[np.nan if one is None else one for one in row] for row in view["now"]])
    assert shown.shape[0] <= pixels[1] and shown.shape[1] <= pixels[0] and view["usual"] == 1
    for axis, lacking, empty in ((view["down"], down, np.isnan(shown).all(axis=1)), (view["right"], right, np.isnan(shown).all(axis=0))):
        told = [(axis["first"][at], axis["last"][at]) for at in np.flatnonzero(empty).tolist()]
        assert {number for first, last in told for number in range(first, last + 1)} == set(lacking)
    lines = np.isnan(shown).all(axis=1)[:, None] | np.isnan(shown).all(axis=0)[None, :]
    assert (shown[~lines] == 1).all()
    assert [one["count"] for one in view["missing"]] == [len(down), len(right)]
    assert [one["first"] for one in view["missing"]] == [list(down), list(right)]


def test_a_missing_line_amid_other_folds(tmp_path):
    """A rotated survey of many folds fills less than half of its cells: the usual fold is that of the cells with traces."""
    inline, crossline = (one.ravel() for one in np.meshgrid(np.arange(1, 301), np.arange(1, 401), indexing="ij"))
    here = (np.abs(inline - 150) / 150 + np.abs(crossline - 200) / 200 < 0.9) & (inline != 140) & (crossline != 333)
    fold = 1 + (inline * 7 + crossline * 3) % 5 * (inline % 2)
    inline, crossline = (np.repeat(one[here], fold[here]) for one in (inline, crossline))
    made = loaded(written(tmp_path / "rotated.sgy", x189=inline, x193=crossline))
    view = views.fold(made, LAPTOP)
    made.close()
    cells = dict(zip(*np.unique(fold[here], return_counts=True)))
    assert view["usual"] == max(cells, key=cells.get) == 1 and here.sum() * 2 < 300 * 400
    row = view["down"]["first"].index(140)
    assert view["down"]["last"][row] == 140 and view["now"][row] == [None] * len(view["now"][0])
    column = view["right"]["first"].index(333)
    assert view["right"]["last"][column] == 333 and all(one[column] is None for one in view["now"])
    assert sum(one is not None for one in view["now"][row + 1]) > 200
    assert [one["count"] for one in view["missing"]] == [1, 1]


def test_a_line_that_lacks_in_part(tmp_path):
    inline, crossline = (one.ravel() for one in np.meshgrid(np.arange(1, 301), np.arange(1, 401), indexing="ij"))
    here = ~((inline == 150) & (crossline <= 300))
    made = loaded(written(tmp_path / "part.sgy", x189=inline[here], x193=crossline[here]))
    view = views.fold(made, LAPTOP)
    made.close()
    row = next(at for at, last in enumerate(view["down"]["last"]) if last >= 150)
    assert view["now"][row] == [None] * 300 + [1] * 100 and [one["count"] for one in view["missing"]] == [0, 0]


def test_many_holes_do_not_hide_the_survey():
    """Where most pixels would have a hole, the traces are shown."""
    at = np.arange(90000)
    here = at % 3 > 0
    cells = maps.Cells(at[here] // 300, at[here] % 300, np.ones(60000, dtype=int))
    axis = maps.axis_of(np.arange(300))
    assert not np.isnan(bundles.farthest(cells, bundles.bundle_for(axis, axis, (100, 100), [cells]), 1, True)).any()


def test_more_gaps_than_pixels():
    numbers = np.concatenate([np.arange(0, 3000, 3), np.arange(1, 3000, 3)])
    axis = maps.axis_of(np.sort(numbers))
    cells = maps.Cells(axis.places(np.sort(numbers)), np.zeros(2000, dtype=int), np.ones(2000, dtype=int))
    bundle = bundles.bundle_for(axis, maps.axis_of(np.array([1])), (100, 100), [cells])
    assert bundle.rows <= 100 and not np.isnan(bundles.farthest(cells, bundle, 1, True)).any()
    assert maps.missing(np.sort(numbers))["count"] == len(np.arange(2, 2999, 3))


def test_both_maps_share_their_pixels(tmp_path):
    """A line that lacked when the file was loaded and is there now: it has a pixel of its own in both."""
    made = loaded(survey(tmp_path / "cube.sgy"))
    made.run(f"renumber {149 * 400 + 1} {150 * 400} inline 149 0")
    view = views.fold(made, views.Window((600, 272), True))
    made.close()
    row = view["down"]["first"].index(150)
    assert view["down"]["last"][row] == 150 and view["now"][row] == [None] * 400 and view["was"][row] == [1] * 400
    assert 2 in view["now"][row - 1] and view["missing"][0] == {"count": 1, "step": 1, "first": [150]}


# ---- what changed


def test_marks_of_many_cells_are_one_outline(tmp_path):
    inlines = np.repeat(np.arange(1, 301), 400)
    crosslines = np.tile(np.arange(1, 401), 300)
    made = loaded(written(tmp_path / "cube.sgy", x189=inlines, x193=crosslines, x17=crosslines + 1000))
    made.run("map crossline @17:4")
    view = views.fold(made, LAPTOP)
    assert view["changed"] == 120000 and view["marks"] == [] and view["region"] == [0, len(view["now"]) - 1, 0, 399]
    made.run("count")
    assert views.fold(made, LAPTOP)["changed"] == 120000
    made.run("set 7 crossline 4444")
    view = views.fold(made, LAPTOP)
    assert view["changed"] == 2 and view["region"] is None and len(view["marks"]) == 2
    made.undo()
    view = views.fold(made, LAPTOP)
    assert view["changed"] == 0 and view["marks"] == [] and view["region"] is None
    made.redo()
    assert views.fold(made, LAPTOP)["changed"] == 2
    made.run("set 7 day 4")
    view = views.fold(made, LAPTOP)
    assert view["changed"] == 0 and view["marks"] == []
    made.close()


def test_the_share_that_is_marked(tmp_path):
    made = loaded(survey(tmp_path / "cube.sgy", range(1, 31), range(1, 41)))
    for count in (120, 121):
        made.run_script("\n".join(f"delete {9 * at}" for at in range(count, 0, -1)))
        view = views.fold(made, LAPTOP)
        assert view["changed"] == count and (len(view["marks"]), view["region"] is None) == ((120, True) if count == 120 else (0, False))
        made.undo()
    made.close()


def test_marks_are_of_the_last_edit_alone(tmp_path):
    """Also where nothing was shown between two edits."""
    made = loaded(files.cube(tmp_path / "cube.sgy", 4, 5))
    made.run("set 1 inline 2")
    made.run("set 20 inline 3")
    view = views.fold(made, LAPTOP)
    assert view["changed"] == 2 and view["marks"] == [[2, 3, 4, 4]]
    slices = views.Slices()
    slices.view(made, 0, LAPTOP, False)
    made.run("patch 2 0 9")
    made.run("patch 3 0 9")
    assert slices.view(made, 0, LAPTOP, False)["changed"] == 0
    made.run("patch 4 0 9")
    assert slices.view(made, 0, LAPTOP, False)["changed"] == 1
    made.undo()
    assert slices.view(made, 0, LAPTOP, False)["changed"] == 0
    made.close()


def test_cells_side_by_side_have_one_outline(tmp_path):
    """What has changed is seen inside of it."""
    made = loaded(survey(tmp_path / "cube.sgy"))
    made.run("compute 1 60000 crossline crossline + 7")
    view = views.fold(made, LAPTOP)
    assert view["changed"] == 150 * 14 and view["region"] is None
    assert sorted(box[2:] for box in view["marks"]) == [[0, 6], [400, 406]] and {box[0] for box in view["marks"]} == {0}
    made.close()


def test_boxes_past_the_limit_are_one_outline(monkeypatch):
    monkeypatch.setattr(marks, "MOST_BOXES", 3)
    axis = maps.axis_of(np.arange(20))
    at = np.arange(0, 20, 2)
    bundle = bundles.bundle_for(axis, axis, (100, 100), [])
    assert marks.marked(at[:3], at[:3], bundle, 400)["marks"] == [[0, 0, 0, 0], [2, 2, 2, 2], [4, 4, 4, 4]]
    assert marks.marked(at, at, bundle, 400) == {"changed": 10, "marks": [], "region": [0, 18, 0, 18]}


# ---- where the traces lie


def placed(path, zero=0, far=0, count=1000):
    """A line survey in metres of which some traces have no place, and some a wrong one."""
    at = np.arange(count)
    x, y = 450000 + at % 50 * 25, 6800000 + at // 50 * 25
    x[:zero], y[:zero] = 0, 0
    y[zero:zero + far] *= 100
    return written(path, x189=1 + at // 50, x193=1 + at % 50, x181=x, x185=y)


@pytest.mark.parametrize("zero, far", [(0, 0), (1, 0), (0, 1), (50, 0), (300, 100), (450, 0), (0, 450), (490, 0), (700, 0), (999, 0)])
def test_traces_without_a_place_are_counted(tmp_path, zero, far):
    made = loaded(placed(tmp_path / "line.sgy", zero, far))
    view = places.positions(made, (500, 300), False, False)
    assert (view["zero"], view["far"], view["traces"]) == (zero, far, 1000)
    assert 450000 <= view["x"][0] <= view["x"][1] <= 451225 and 6800000 <= view["y"][0] <= view["y"][1] <= 6800475
    assert view["x"] == [450000, 451225] or zero > 900
    assert len(view["now"]["trace"]) == 1000 - zero - far and min(view["now"]["trace"]) == zero + far + 1
    whole = places.positions(made, (500, 300), False, True)
    assert (whole["zero"], whole["far"]) == (0, 0) and len(whole["now"]["trace"]) == 1000
    assert whole["x"][0] == (0 if zero else 450000)
    made.close()


def test_a_survey_that_begins_at_zero_is_whole(tmp_path):
    at = np.arange(1000)
    for x, y in ((at % 50 * 25, at // 50 * 25), (at * 25, at * 0), (at * 0, at * 0), (np.where(at < 700, at, 700) * 25, np.maximum(at - 700, 0) * 25)):
        assert places.survey(x.astype(float), y.astype(float)).all()
    assert places.survey(np.array([5.0]), np.array([7.0])).all() and places.survey(np.empty(0), np.empty(0)).all()


def test_rings_of_many_traces_are_one_outline(tmp_path):
    made = loaded(placed(tmp_path / "line.sgy", 3))
    made.widen(("x", "y", "scalar"))
    made.run("set 9 x 450001")
    view = places.positions(made, (500, 300), False, False)
    assert view["changed"] == 1 and view["marks"] == {"x": [450001.0], "y": [6800000.0]} and view["region"] is None
    made.run("compute 1 1000 y y + 25")
    view = places.positions(made, (500, 300), False, False)
    assert view["changed"] == 1000 and view["marks"] == {"x": [], "y": []} and view["region"] == [450000, 451225, 6800025, 6800500]
    made.undo()
    assert places.positions(made, (500, 300), False, False)["changed"] == 0
    made.close()


# ---- on the page


def test_the_page_tells_which_lines_lack(opened, tmp_path):
    page = opened(survey(tmp_path / "cube.sgy", without(range(1, 301), 150), without(range(1, 401), 200, 201)))
    assert "Usual fold 1; grey: no traces. Missing: 1 inline (150) and 2 crosslines (200, 201)." in page.text("caption")
    page.one("#maps .sash").send_keys(Keys.ARROW_UP * 4)  # so low that there are fewer pixels than inlines
    page.wait(lambda: "A pixel stands for up to" in page.text("caption"))
    rows = page.map()
    row = next(at for at, one in enumerate(rows) if all(value is None for value in one))
    page.find("plot-now").send_keys(Keys.ARROW_UP * row)
    page.wait(lambda: page.text("told").startswith("inline 150, crossline 1: fold 0"))


def test_the_switch_takes_the_marks_away(opened, tmp_path):
    page = opened(survey(tmp_path / "cube.sgy", range(1, 31), range(1, 41)))
    page.run("map crossline @189:4")
    assert page.marks() == 1 and "within the outline" in page.text("caption")
    assert page.js("return document.getElementById('plot-now').data[1].x.slice(0, 2)") == [-0.5, 29.5]
    page.run("set 7 crossline 99")
    assert page.marks() == 2 and "2 cells changed by the last step, outlined" in page.text("caption")
    page.click("marks")
    page.wait(lambda: page.marks() == 0)
    assert "2 cells changed by the last step." in page.text("caption")
    page.run("set 8 crossline 99")
    assert page.marks() == 0
    page.click("marks")
    page.wait(lambda: page.marks() == 2)
    page.step("undo")
    assert page.marks() == 0 and "changed" not in page.text("caption")


def test_positions_have_one_scale(opened, tmp_path):
    page = opened(placed(tmp_path / "line.sgy", 400, 7))
    page.map_tab("positions")
    assert "Not drawn, of 1,000 traces: 400 traces at (0, 0), 7 traces far from the rest." in page.text("caption")
    scales = "const {xaxis: x, yaxis: y} = document.getElementById('plot-now')._fullLayout; return [x, y].map((one) => one._length / (one.range[1] - one.range[0]))"
    one, other = page.js(scales)
    assert one == pytest.approx(other, rel=1e-3)
    page.js("return Plotly.relayout('plot-now', {'xaxis.range[0]': 450100, 'xaxis.range[1]': 450500}).then(() => null)")
    one, other = page.js(scales)
    assert one == pytest.approx(other, rel=1e-3)
    page.click("whole")
    page.wait(lambda: "Not drawn" not in page.text("caption"))
    page.click("compare")
    page.wait(lambda: page.js("return Boolean(document.getElementById('plot-was').data)"))
    page.js("return Plotly.relayout('plot-now', {'xaxis.range[0]': 450100, 'xaxis.range[1]': 450500}).then(() => null)")
    was = scales.replace("plot-now", "plot-was")
    page.wait(lambda: page.js(was)[0] == pytest.approx(page.js(scales)[0], rel=1e-3))
    assert page.js(was)[0] == pytest.approx(page.js(was)[1], rel=1e-3)
