"""Answers that reach the page late, in another order than they were asked for, or not at all: what it shows is what came of the last question."""

import os
import signal
from types import SimpleNamespace

import files
from selenium.webdriver.common.keys import Keys
from test_graph import opened_graph
from test_page import SOUND
from test_readings import refused_page, wrong_count
from test_section_page import change, drawn, made_line, opened_section

from segywb.desk.server import Server

# Answers to what has a word in its address are held back, each until it is let go.
HOLD = """
const [word] = arguments, real = window.fetch;
window.held = [];
window.fetch = async (...words) => {
  const answer = await real(...words);
  if (!String(words[0]).includes(word)) return answer;
  const told = await answer.arrayBuffer();
  await new Promise((go) => { window.held.push(go); });
  return new Response(told, { status: answer.status, headers: answer.headers });
};
"""
# The end of each drawing of a plot is held back.
HOLD_DRAWING = """
const real = window.Plotly.react;
window.held = [];
window.Plotly.react = async (...words) => {
  const made = await real(...words);
  await new Promise((go) => { window.held.push(go); });
  return made;
};
"""
# The first request to what has a word in its address is cut off.
CUT_OFF = """
const [word] = arguments, real = window.fetch;
let left = 1;
window.fetch = (...words) => {
  if (!String(words[0]).includes(word) || left === 0) return real(...words);
  left -= 1;
  return Promise.reject(new TypeError("cut off"));
};
"""


def hold(page, word):
    page.rest()
    page.js(HOLD, word)


def held(page, count):
    """Waits until so many are held back."""
    page.wait(lambda: page.js("return window.held.length") == count)


def let_go(page, at):
    page.js("window.held.splice(arguments[0], 1)[0]()", at)
    page.rest()


def type_line(page, line):
    """Runs a line, and waits for its answer alone."""
    page.find("line").send_keys(line, Keys.ENTER)
    return page.answer(line)


def test_a_turn_is_a_change():
    """Of what the server tells of itself: the same again has the same turn."""
    desk = SimpleNamespace(alive=True, version=1, gridded=True, path="none")
    server = Server(desk, "token")
    server.status = {"phase": "ready", "version": 1}
    told = [server.told(), server.told()]
    desk.version = 2
    told += [server.told(), server.told()]
    desk.alive = False
    told += [server.told(), server.told()]
    assert [(one["phase"], one.get("version")) for one in told] == [("ready", 1)] * 2 + [("ready", 2)] * 2 + [("ended", None)] * 2
    turns = [one["turn"] for one in told]
    assert turns[0] == turns[1] < turns[2] == turns[3] < turns[4] == turns[5]
    server.status = {**server.status, "turn": 0}
    assert server.status["turn"] == turns[5]


def test_that_a_reading_is_begun_is_no_news_once_it_is_done(started, browser, tmp_path):
    """The answer that the file is being read comes behind the event that it has been read: the page stays as it is, and shows what follows."""
    page = refused_page(started, browser, wrong_count(tmp_path / "count.sgy"))
    hold(page, "read")
    page.all("#banner button")[0].click()
    page.wait(lambda: page.data("whole"))
    held(page, 1)
    let_go(page, 0)
    assert page.data("phase") == "ready" and not page.find("loading").is_displayed()
    assert page.run("renumber 1 3 inline 7 0") == "ok"
    assert "1 edit" in page.text("summary")
    assert page.desk.end()[0] == 0
    browser.get("about:blank")
    browser.get_log("browser")


def test_a_banner_stays_while_nothing_changes(started, browser, tmp_path):
    """The server tells now and then that it is there: the button that somebody is about to press is not made anew by that."""
    page = refused_page(started, browser, wrong_count(tmp_path / "count.sgy"), before="import segywb.desk.server as server\nserver.ALIVE_SECONDS = 0.2")
    button = page.all("#banner button")[0]
    page.js("arguments[0].focus(); window.alive = 0; new EventSource('events').addEventListener('message', () => { window.alive += 1; })", button)
    page.wait(lambda: page.js("return window.alive > 4"))
    assert page.js("return document.activeElement === arguments[0] && arguments[0].isConnected", button)
    button.click()
    page.wait(lambda: page.data("whole"))
    assert page.map() == [[1, 1, 1]]
    assert page.desk.end()[0] == 0
    browser.get("about:blank")
    browser.get_log("browser")


def test_what_was_not_answered_is_asked_again(opened):
    """A request that is cut off: the page says that the desk does not answer, until an event tells that it does; then all of it is of the last version."""
    page = opened("wrong_line", before="import segywb.desk.server as server\nserver.ALIVE_SECONDS = 0.5")
    page.may_complain = True
    page.rest()
    page.js(CUT_OFF, "ask/table")
    assert page.run("renumber 5 8 inline 102 0") == "ok"
    assert page.map() == SOUND and page.rows()[4][1] == "102" and not page.find("banner").is_displayed()


def test_windows_of_the_table(opened, tmp_path):
    page = opened(files.cube(tmp_path / "many.sgy", 30, 20, 5))
    hold(page, "ask/table")
    page.click("rows-on")
    held(page, 1)
    page.click("rows-on")
    held(page, 2)
    let_go(page, 1)
    assert page.one("#table-room tbody tr").get_attribute("data-trace") == "51"
    let_go(page, 0)
    assert page.one("#table-room tbody tr").get_attribute("data-trace") == "51" and page.find("first").get_attribute("value") == "51"


def test_a_cell_is_of_the_column_that_is_shown(opened):
    """Also while fewer columns are asked for."""
    page = opened("wrong_line")
    hold(page, "ask/table")
    page.press('button[aria-label="leave out inline"]')
    held(page, 1)
    page.double_click('td[data-at="4 1"]')
    page.one("td input").clear()
    page.one("td input").send_keys("999", Keys.ENTER)
    assert page.answer("set 5 crossline 999") == "ok"
    held(page, 2)
    let_go(page, 1)
    page.shown(2)
    assert page.rows()[4][:2] == ["5", "999"]
    let_go(page, 0)
    assert page.rows()[4][:2] == ["5", "999"]


def test_a_column_that_there_is_not_keeps_no_other_back(opened):
    """While it is asked whether there is such a field an edit is made: the table shows it."""
    page = opened("wrong_line")
    hold(page, "ask/table")
    page.find("column").send_keys("colour", Keys.ENTER)
    held(page, 1)
    assert type_line(page, "set 5 inline 102") == "ok"
    held(page, 2)
    let_go(page, 1)
    page.shown(2)
    let_go(page, 0)
    assert page.js("return document.getElementById('column').validationMessage") == "refused E02 no field"
    assert page.rows()[4][1] == "102" and len(page.rows()[0]) == 7


def test_panels_of_reports(opened):
    page = opened("wrong_line")
    hold(page, "ask/edits")
    page.tab("edits")
    held(page, 1)
    page.tab("numbers")
    page.wait(lambda: "450000 to 450075" in page.text("panel"))
    let_go(page, 0)
    assert "450000 to 450075" in page.text("panel") and "No edits yet" not in page.text("panel")


def test_slices(opened):
    page = opened("wrong_line")
    page.map_tab("slice")
    hold(page, "ask/slice")
    for count, sample in enumerate((1, 2), 1):
        change(page, "sample-number", str(sample))
        held(page, count)
    let_go(page, 1)
    second = page.map()
    assert second[0] != [41, 42, 43, 44]
    let_go(page, 0)
    assert page.map() == second


def test_a_drawing_that_ends_late(opened):
    """What is told below the map is of the map that is shown."""
    page = opened("wrong_line")
    page.rest()
    page.js(HOLD_DRAWING)
    page.tab("histogram")
    held(page, 1)
    page.tab("slice")
    held(page, 2)
    let_go(page, 1)
    assert page.text("caption").startswith("12 traces with this sample") and page.data("mapKind") == "slice"
    let_go(page, 0)
    assert page.text("caption").startswith("12 traces with this sample") and page.map()[0] == [21, 22, 23, 24] and page.text("map-said") == ""


def test_graphs_of_two_versions(opened):
    page = opened_graph(opened("wrong_line"))
    hold(page, "ask/graph")
    page.click("graph-all")
    held(page, 1)
    assert type_line(page, "renumber 5 8 inline 102 0") == "ok"
    held(page, 2)
    let_go(page, 1)
    page.wait(lambda: page.data("graphVersion") == "2")
    let_go(page, 0)
    assert page.data("graphVersion") == "2" and page.graph()[0][2] == [101] * 4 + [102] * 4 + [103] * 4


def box(page, *ends):
    for name, number in zip(("i0", "i1", "x0", "x1"), ends):
        page.js("document.getElementById('box').elements[arguments[0]].value = arguments[1]", name, number)
    page.press("#box button")


def test_another_rectangle_is_selected_meanwhile(opened):
    """What the first one holds after an edit is not what the second one holds."""
    page = opened("wrong_line")
    box(page, 101, 101, 201, 201)
    page.wait(lambda: page.text("offer-count") == "2 traces")
    hold(page, "ask/select")
    assert type_line(page, "set 12 delay 7") == "ok"
    held(page, 1)
    box(page, 103, 103, 201, 204)
    held(page, 2)
    let_go(page, 1)
    assert page.one("#offers pre").text == "renumber 9 12 inline 103 0"
    let_go(page, 0)
    assert page.one("#offers pre").text == "renumber 9 12 inline 103 0" and page.text("offer-count") == "4 traces"
    page.shown(2)


def test_a_rectangle_that_was_selected_before_an_edit(opened):
    """Its answer comes behind the edit: it is asked again, and can be mended."""
    page = opened("wrong_line")
    hold(page, "ask/select")
    box(page, 103, 103, 201, 204)
    held(page, 1)
    assert type_line(page, "delete 1") == "ok"
    page.shown(2)
    let_go(page, 0)
    held(page, 1)
    let_go(page, 0)
    assert page.one("#offers pre").text == "renumber 8 11 inline 103 0"
    page.step("offer-run")
    assert not page.find("offers").is_displayed()


def test_rectangles_of_a_section(opened, tmp_path):
    page = opened_section(opened(made_line(tmp_path / "line.sgy", traces=40, samples=60)))
    change(page, "section-drag", "selects")
    hold(page, "ask/boxed")
    drawn(page, (2.5, 5.5), (10.5, 29.5))
    held(page, 1)
    drawn(page, (2.5, 5.5), (20.5, 39.5))
    held(page, 2)
    let_go(page, 1)
    assert page.one("#mute pre").text == "fill 3 6 20 39 0"
    let_go(page, 0)
    assert page.one("#mute pre").text == "fill 3 6 20 39 0"
    assert type_line(page, "delete 1") == "ok"
    held(page, 1)
    let_go(page, 0)
    page.shown(2)


def test_a_restart_tells_how_things_stand(opened):
    """Its answer is what the events tell: the phase with its turn."""
    page = opened("cube")
    page.may_complain = True
    ask = "return fetch('restart', {method: 'POST', headers: {'Content-Type': 'application/json'}, body: '{}'}).then((got) => got.json())"
    told = page.js(ask)
    assert (told["phase"], told["version"], told["grid"]) == ("ready", 1, True) and told["turn"] > 1
    for number in page.desk.programs():
        os.kill(number, signal.SIGKILL)
    page.wait(lambda: page.data("phase") == "ended")
    again = page.js(ask)
    assert (again["phase"], again["version"]) == ("ready", 2) and again["turn"] > told["turn"] + 1
    page.shown(2)
    assert not page.find("banner").is_displayed()
