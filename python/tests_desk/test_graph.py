"""Headers against the number of the trace, a field against another one, and what is selected there."""

import json
import re

import files
import numpy as np
import pytest
from conftest import run
from selenium.webdriver.common.keys import Keys
from test_guard import asked, ready
from test_maps import loaded, written

from segywb.desk import graphs

WILD = 4321


def many(path, count=20000):
    """Traces whose inlines rise by steps of 100 traces, with one wild crossline."""
    at = np.arange(count)
    crossline = at % 100
    crossline[WILD - 1] = -(2**31)
    return written(path, x189=at // 100, x193=crossline, x17=(at * 7919) % 1000)


@pytest.fixture
def desk(tmp_path):
    made = loaded(many(tmp_path / "many.sgy"))
    yield made
    made.close()


def test_what_is_thinned(desk):
    """A line holds true numbers of true traces, and the wild one."""
    view = graphs.lines(desk, ["crossline", "source_point"], (1, 0), 500)
    assert (view["traces"], view["first"], view["last"]) == (20000, 1, 20000)
    wanted = desk.volume.headers("crossline", "source_point")
    for field in view["fields"]:
        numbers = wanted[field["name"]]
        assert 500 <= len(field["trace"]) <= 1000 and not field["whole"]
        assert field["value"] == numbers[np.array(field["trace"]) - 1].tolist()
        assert (field["least"], field["greatest"]) == (str(numbers.min()), str(numbers.max()))
    assert view["fields"][0]["value"][view["fields"][0]["trace"].index(WILD)] == -(2**31)
    part = graphs.lines(desk, ["crossline"], (4300, 4399), 500)["fields"][0]
    assert part["whole"] and part["trace"] == list(range(4300, 4400)) and part["value"] == wanted["crossline"][4299:4399].tolist()


def test_a_field_against_another(desk):
    numbers = desk.volume.headers("inline", "crossline")
    view = graphs.pair(desk, ["inline", "crossline"], [])
    assert view["kind"] == "pixels" and view["shown"] == 20000
    z = np.array([[np.nan if one is None else one for one in row] for row in view["z"]])
    assert np.nansum(z) == 20000 and z.shape == (graphs.TALL, graphs.WIDE)
    column, row = round((4320 // 100 - view["x0"]) / view["dx"]), 0
    assert z[row, column] == 1 and view["y0"] == -(2**31)
    parts = graphs.parts_of({"names": "inline crossline", "low": "3 0", "high": "5 50"})
    near = graphs.pair(desk, ["inline", "crossline"], parts)
    here = np.flatnonzero((numbers["inline"] >= 3) & (numbers["inline"] <= 5) & (numbers["crossline"] >= 0) & (numbers["crossline"] <= 50))
    assert near["kind"] == "points" and near["trace"] == (here + 1).tolist() and near["shown"] == len(here) == 153
    assert list(zip(near["x"], near["y"])) == [(int(one), int(other)) for one, other in numbers[here].tolist()]


@pytest.mark.parametrize("span", [(1, 0), (100, 5000), (5000, 100), (19999, 99999)])
@pytest.mark.parametrize("query", [
    {"names": "crossline", "low": "10", "high": "12"}, {"names": "crossline", "low": "12.5", "high": "9.5"}, {"names": "inline source_point", "low": "3 0", "high": "40 20"},
    {"names": "crossline", "low": "-9e9", "high": "-1"}, {"names": "", "low": "", "high": ""}, {"names": "inline", "low": "7000", "high": "8000"},
])
def test_what_is_chosen(desk, query, span):
    got = graphs.choose(desk, graphs.parts_of(query), span)
    numbers = desk.volume.headers("inline", "crossline", "source_point")
    here = np.ones(20000, dtype=bool)
    for name, low, high in zip(query["names"].split(), query["low"].split(), query["high"].split()):
        ends = sorted((float(low), float(high)))
        here &= (numbers[name] >= ends[0]) & (numbers[name] <= ends[1])
    first, last = sorted(span) if span[1] else (1, 20000)
    wanted = [at for at in (np.flatnonzero(here) + 1).tolist() if first <= at <= last]
    assert got["count"] == len(wanted) and got["all"]
    assert [at for one, other in got["runs"] for at in range(one, other + 1)] == wanted
    assert all(other + 1 < one for (_, other), (one, _) in zip(got["runs"], got["runs"][1:]))


def test_a_survey_without_traces(tmp_path):
    made = loaded(files.empty(tmp_path / "none.sgy"))
    view = graphs.lines(made, ["inline"], (1, 0), 500)
    assert (view["traces"], view["first"], view["last"]) == (0, 1, 0) and view["fields"][0]["trace"] == [] and view["fields"][0]["least"] is None
    assert graphs.pair(made, ["x", "y"], [])["trace"] == [] and graphs.choose(made, [], (1, 0))["count"] == 0
    made.close()


def test_bad_questions(started):
    desk = ready(started("cube"))
    for path, status in (
        ("graph?names=colour", 409), ("graph?names=", 400), ("graph?names=a+b+c+d+e+f+g", 400), ("graph", 400), ("graph?names=inline&first=x", 400), ("graph?pair=1&x=inline", 400),
        ("graph?pair=1&x=inline&y=x&low=1&high=2", 400), ("graph?pair=1&x=inline&y=%0A", 400), ("choose?names=inline&low=1&high=nan", 400), ("choose?names=inline&low=1&high=inf", 400),
        ("choose?names=inline+x&low=1&high=2", 400), ("choose?names=colour&low=1&high=2", 409), ("graph?names=inline%0Adelete", 409), ("graph?names=@1:9", 409),
    ):
        got, told, _ = asked(desk, f"/{desk.token}/ask/{path}")
        assert got == status and set(json.loads(told)) <= {"error", "refused"}, (path, got, told)
    assert json.loads(asked(desk)[1])["edits"] == 0


# ---- on the page


def opened_graph(page):
    page.press("#graph .fold")
    page.wait(lambda: page.data("graphKind") == "against-trace")
    return page


def test_lines_and_points(opened):
    page = opened_graph(opened("wrong_line"))
    page.may_complain = True  # of the field that there is not
    assert page.graph() == [["inline", list(range(1, 13)), [101] * 8 + [103] * 4], ["crossline", list(range(1, 13)), [201, 202, 203, 204] * 3]]
    assert page.js("return document.getElementById('plot-graph').data[0].mode") == "lines"
    assert "inline from 101 to 103, crossline from 201 to 204." in page.text("graph-caption")
    page.find("graph-style").send_keys("points")
    page.wait(lambda: page.js("return document.getElementById('plot-graph').data[0].mode") == "markers")
    field = page.find("graph-field")
    field.send_keys("@115:2u", Keys.ENTER)
    page.wait(lambda: len(page.graph()) == 3 and page.graph()[2][2] == [5] * 12)
    field.send_keys("colour", Keys.ENTER)
    page.wait(lambda: page.text("graph-said") == "refused E02 no field")
    assert len(page.graph()) == 3
    page.press('#graph-names button[aria-label="leave crossline out of the graph"]')
    page.wait(lambda: [one[0] for one in page.graph()] == ["inline", "@115:2u"])


@pytest.mark.parametrize("what, typed, wanted", [
    ("renumber", {"offer-value": "102"}, ["renumber 5 8 inline 102 0"]), ("compute", {"offer-formula": "inline + 1"}, ["compute 5 8 inline inline + 1"]),
    ("set", {"offer-value": "102"}, ["set 5 8 inline 102"]), ("delete", {}, ["delete 8", "delete 7", "delete 6", "delete 5"]),
])
def test_what_is_brushed_is_mended(opened, what, typed, wanted):
    page = opened_graph(opened("wrong_line"))
    page.brush((4.5, 101.8), (8.5, 100.9))
    page.wait(lambda: page.find("offers").is_displayed())
    assert page.text("offer-count") == "4 traces" and page.js("return document.getElementById('offers').parentElement.id") == "graph"
    page.find("offer-what").send_keys(what)
    for name, text in typed.items():
        page.find(name).clear()
        page.find(name).send_keys(text)
    page.wait(lambda: page.one("#offers pre").text.split("\n") == wanted)
    assert page.version() == 1
    page.step("offer-run")
    answers = run(page.desk.path, "".join(f"{line}\n" for line in [*wanted, "table 1 1000 inline" if what != "delete" else "table 1 8 inline"]))[0]
    expected = [101] * 4 + ([103] * 4 if what == "delete" else [102] * 4 + [103] * 4)
    assert what == "delete" or "refused" in answers
    page.wait(lambda: page.graph()[0][2] == expected)
    assert page.find("undo").is_enabled()
    page.step("undo")
    page.wait(lambda: page.graph()[0][2] == [101] * 8 + [103] * 4)
    assert not page.find("undo").is_enabled()


def test_fields_of_what_is_brushed_are_swapped(opened):
    """But not two that share bytes, and not where a number does not fit into the other field."""
    page = opened_graph(opened("wrong_line"))
    page.may_complain = True  # of what is refused
    page.brush((4.5, 101.8), (8.5, 100.9))
    page.wait(lambda: page.find("offers").is_displayed())
    page.find("offer-what").send_keys("swap")
    page.wait(lambda: page.one("#offers pre").text == "swap 5 8 inline crossline")
    for other, allowed in (("inline", False), ("@189:4", False), ("@191:2", False), ("INLINE_3D", False), ("", False), ("x y", False), ("y", True), ("@181:4", True), ("crossline", True)):
        page.js("const one = document.getElementById('offer-other'); one.value = arguments[0]; one.dispatchEvent(new Event('input'))", other)
        assert page.find("offer-run").is_enabled() == allowed, other
        assert allowed or page.one("#offers pre").text == "Two fields are wanted, by their names or places, that share no bytes."
    page.step("offer-run")
    page.wait(lambda: page.graph()[0][2] == [101] * 4 + [201, 202, 203, 204] + [103] * 4 and page.graph()[1][2] == [201, 202, 203, 204] + [101] * 4 + [201, 202, 203, 204])
    page.wait(lambda: page.data("graphVersion") == page.data("version") and page.data("whole"))
    page.brush((4.5, 206), (8.5, 190))
    page.wait(lambda: page.find("offers").is_displayed() and page.text("offer-count") == "4 traces")
    page.find("offer-what").send_keys("swap")
    for id, value in (("offer-field", "x"), ("offer-other", "delay")):
        page.js("const one = document.getElementById(arguments[0]); one.value = arguments[1]; one.dispatchEvent(new Event('input'))", id, value)
    page.find("offer-run").click()
    page.wait(lambda: "refused E04" in page.one("#offers pre").text)
    assert "nothing was changed" in page.one("#offers pre").text


def test_the_second_field_is_brushed(opened):
    page = opened_graph(opened("wrong_line"))
    page.brush((0.7, 203.5), (12.3, 202.5), "yaxis2")
    page.wait(lambda: page.find("offers").is_displayed())
    assert page.text("offer-count") == "3 traces" and page.find("offer-field").get_attribute("value") == "crossline"
    assert page.one("#offers pre").text.split("\n") == ["renumber 3 3 crossline 203 0", "renumber 7 7 crossline 203 0", "renumber 11 11 crossline 203 0"]
    page.click("offer-found")
    page.wait(lambda: page.one("#offers pre").text == "renumber 1 12 crossline 203 0 where crossline = 203")
    page.run("set 1 crossline 203")
    page.wait(lambda: page.text("offer-count") == "4 traces")


def test_a_zoom_shows_more(opened, tmp_path):
    page = opened_graph(opened(many(tmp_path / "many.sgy")))
    assert "a pixel shows the least and the greatest number in it" in page.text("graph-caption")
    (_, traces, numbers) = page.graph()[1]
    assert len(traces) < 4000 and min(numbers) == -(2**31) and traces[numbers.index(-(2**31))] == WILD
    page.js("return Plotly.relayout('plot-graph', {'xaxis.range[0]': 4299.6, 'xaxis.range[1]': 4399.4}).then(() => null)")
    page.wait(lambda: page.graph()[0][1] == list(range(4300, 4400)))
    assert "Traces 4,300 to 4,399 of 20,000 traces." in page.text("graph-caption") and "a pixel shows" not in page.text("graph-caption")
    page.js("return Plotly.relayout('plot-graph', {'yaxis2.range[0]': -5, 'yaxis2.range[1]': 105}).then(() => null)")
    page.run("set 4300 delay 7")
    page.wait(lambda: page.data("graphVersion") == "2")
    assert page.js("return document.getElementById('plot-graph')._fullLayout.yaxis2.range") == [-5, 105] and page.graph()[0][1] == list(range(4300, 4400))
    page.click("graph-all")
    page.wait(lambda: page.graph()[0][1][-1] > 19000)


def test_field_against_field(opened):
    page = opened_graph(opened("wrong_line"))
    page.tab("against-field")
    page.wait(lambda: page.data("graphKind") == "against-field")
    assert page.graph()[0][1:] == [[45000000, 45002500, 45005000, 45007500] * 3, [680000000] * 4 + [680002500] * 4 + [680005000] * 4]
    assert page.js("const {xaxis, yaxis} = document.getElementById('plot-graph')._fullLayout; return [xaxis.title.text, yaxis.title.text]") == ["x", "y"]
    page.find("graph-x").clear()
    page.find("graph-x").send_keys("crossline", Keys.ENTER)
    page.wait(lambda: page.graph()[0][1] == [201, 202, 203, 204] * 3)
    page.brush((202.5, 680003000), (204.2, 680001500))
    page.wait(lambda: page.find("offers").is_displayed())
    assert page.text("offer-count") == "2 traces" and re.fullmatch(r"renumber 7 8 y 6800015\d\d 0|renumber 7 8 y 6800014\d\d 0", page.one("#offers pre").text)


def test_a_folded_graph_asks_nothing(opened):
    page = opened("wrong_line")
    page.run("set 1 inline 102")
    assert page.data("graphKind") is None
    opened_graph(page)
    assert page.data("graphVersion") == "2" and page.graph()[0][2][0] == 102
