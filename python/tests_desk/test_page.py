"""The desk in a real browser: what one sees, and what one does."""

import math
import os
import struct

import files
import pytest
from conftest import run
from selenium.webdriver.common.by import By
from selenium.webdriver.common.keys import Keys

NONE = [None] * 4
BROKEN = [[2] * 4, NONE, [1] * 4]
SOUND = [[1] * 4] * 3


def test_what_one_sees(opened):
    page = opened("wrong_line")
    assert page.map() == BROKEN
    assert page.text("name") == "wrong_line.sgy"
    assert "12 traces of 5 samples, 0 edits" in page.text("summary")
    page.wait(lambda: "1 problem." in page.text("panel"))
    assert "inline, crossline and offset are those of an earlier trace" in page.text("panel")
    assert page.text("tab-problems") == "Problems 1" and "traces 5 to 8: before 4" in page.text("panel")
    assert page.rows()[4] == ["5", "101", "201", "0", "45000000", "680002500", "-100"]
    page.hovered(0, 1, "inline 101, crossline 202: fold 2, 2 traces 2, 6")
    page.tab("numbers")
    page.wait(lambda: "450000 to 450075" in page.text("panel"))
    assert "-103" in page.text("panel") and "in m" in page.text("panel")
    page.tab("text")
    page.wait(lambda: "C 1 EXAMPLE CUBE" in page.text("panel"))


def test_the_other_maps(opened):
    page = opened("wrong_line")
    page.map_tab("slice")
    assert page.map() == [[21, 22, 23, 24], NONE, [31, 32, 33, 34]]
    field = page.find("sample-number")
    field.clear()
    field.send_keys("1", Keys.TAB)
    page.wait(lambda: page.map()[0] == [41, 42, 43, 44])
    assert page.text("sample-time") == "at 4 ms"
    field.clear()
    field.send_keys("99", Keys.TAB)
    page.wait(lambda: "0 traces with this sample" in page.text("caption"))
    page.map_tab("positions")
    titles = page.js("const {xaxis, yaxis} = document.getElementById('plot-now')._fullLayout; return [xaxis.title.text, yaxis.title.text]")
    assert titles == ["x (m)", "y (m)"]
    ticks = [one.text for one in page.all("#plot-now .xtick text")]
    assert "450020" in ticks and not any("k" in one or "M" in one for one in ticks)
    page.map_tab("histogram")
    assert page.js("const [{x, y}] = document.getElementById('plot-now').data; return [x, y]") == [[1, 2], [4, 4]]


def test_a_command_changes_the_map(opened):
    page = opened("wrong_line")
    assert page.run("renumber 5 8 inline 102 0") == "ok"
    assert page.map() == SOUND
    assert page.marks() == 1 and "8 cells changed by the last step" in page.text("caption")
    page.wait(lambda: "No problems" in page.text("panel"))
    assert page.one("#panel tr.mark").text.startswith("F6 0\nwas 4")
    marked = page.wait(lambda: [one.get_attribute("data-at") for one in page.all("#table-room td.mark")])
    assert marked == ["4 0", "5 0", "6 0", "7 0"]
    assert page.run("inlines") == "inlines 3\ninline 101 4\ninline 102 4\ninline 103 4"
    assert page.marks() == 1


def test_undo_and_redo(opened):
    page = opened("wrong_line")
    assert not page.find("undo").is_enabled() and not page.find("redo").is_enabled()
    page.run("renumber 5 8 inline 102 0")
    page.step("undo")
    assert page.map() == BROKEN
    assert not page.find("undo").is_enabled()
    page.tab("edits")
    page.wait(lambda: "Taken back" in page.text("panel"))
    page.step("redo")
    assert page.map() == SOUND
    page.wait(lambda: page.text("steps") == "renumber 5 8 inline 102 0")


@pytest.mark.parametrize("what, wanted", [
    ("renumber", ["renumber 1 2 inline 101 0", "renumber 5 6 inline 101 0"]),
    ("set", ["set 1 2 inline 101", "set 5 6 inline 101"]),
    ("swap", ["swap 1 2 inline crossline", "swap 5 6 inline crossline"]),
    ("delete", ["delete 6", "delete 5", "delete 2", "delete 1"]),
    ("compute", ["compute 1 2 inline inline + 0", "compute 5 6 inline inline + 0"]),
])
def test_a_rectangle(opened, what, wanted):
    page = opened("wrong_line")
    page.drag([(0, 0), (0, 1)])
    assert page.text("offer-count") == "4 traces"
    page.find("offer-what").send_keys(what)
    page.wait(lambda: page.one("#offers pre").text.split("\n") == wanted)
    page.step("offer-run")
    assert run(page.desk.path, "".join(f"{line}\n" for line in wanted))[1] == 0
    page.tab("edits")
    page.wait(lambda: "1 accepted" in page.text("panel") or f"{len(wanted)} accepted edits" in page.text("panel"))
    expected = run(page.desk.path, "".join(f"{line}\n" for line in [*wanted, "grid"]))[0].split("\n")
    cells = {tuple(map(int, row.split()[1:3])): int(row.split()[3]) for row in expected if row.startswith("cell ")}
    found = page.map()
    assert sum(one or 0 for row in found for one in row) == sum(cells.values())


def test_all_that_a_rectangle_finds(opened):
    """Where its traces stand in too many runs one line with a condition is offered, and does the same."""
    page = opened("wrong_line", before="import segywb.desk.views as views; views.MOST_RUNS = 1")
    page.drag([(0, 0), (0, 1)])
    assert page.text("offer-count") == "4 traces" and page.find("offer-found").is_selected() and not page.find("offer-found").is_enabled()
    found = "where inline = 101 and crossline >= 201 and crossline <= 202"
    for what, wanted in (("set", "set all inline 101"), ("compute", "compute all inline inline + 0"), ("delete", "delete all"),
                         ("swap", "swap all inline crossline"), ("renumber", "renumber all inline 101 0")):
        page.js("const one = document.getElementById('offer-what'); one.value = arguments[0]; one.dispatchEvent(new Event('input'))", what)
        assert page.one("#offers pre").text == f"{wanted} {found}"
    page.find("offer-value").clear()
    page.find("offer-value").send_keys("102")
    page.step("offer-run")
    both = ["renumber 1 2 inline 102 0", "renumber 5 6 inline 102 0"], [f"renumber all inline 102 0 {found}"]
    assert len({run(page.desk.path, "\n".join([*lines, "table 1 12 inline", ""]))[0].split("table ")[1] for lines in both}) == 1
    assert page.map()[:2] == [[None, None, 2, 2], [2, 2, None, None]]


def test_select_and_renumber(opened):
    page = opened("wrong_line")
    page.run("renumber 5 8 inline 107 0")
    for name, number in (("i0", 107), ("i1", 107), ("x0", 201), ("x1", 204)):
        page.find("box").find_element(By.NAME, name).send_keys(str(number))
    page.one("#box button").click()
    page.wait(lambda: page.find("offers").is_displayed())
    field = page.find("offer-value")
    field.clear()
    field.send_keys("102")
    page.wait(lambda: page.one("#offers pre").text == "renumber 5 8 inline 102 0")
    page.step("offer-run")
    assert page.map() == SOUND
    assert not page.find("offers").is_displayed()


def test_a_refused_rectangle_changes_nothing(opened):
    page = opened("wrong_line")
    page.drag([(0, 0), (0, 3)])
    field = page.find("offer-value")
    field.clear()
    field.send_keys("99999999999")
    page.click("offer-run")
    page.wait(lambda: "refused E04 does not fit" in page.find("offers").text)
    assert page.map() == BROKEN and page.version() == 1


def test_a_refusal(opened):
    page = opened("wrong_line")
    assert page.run("set 99 inline 7") == "refused E01 no trace 99 of 12"
    assert "Traces count from 1" in page.text("log")
    assert page.find("line").get_attribute("value") == "set 99 inline 7"
    assert page.run("sett 1 inline 7") == "refused S01 unknown word"
    assert page.version() == 1 and page.map() == BROKEN
    assert not page.find("undo").is_enabled()


def test_words(opened):
    page = opened("wrong_line")
    field = page.find("line")
    field.send_keys("ren")
    page.wait(lambda: page.find("choices").is_displayed())
    assert page.one("#choices .word").text == "renumber"
    field.send_keys(Keys.TAB)
    assert field.get_attribute("value") == "renumber "
    assert page.text("usage").startswith("renumber P Q FIELD FIRST STEP")
    field.send_keys("5 8 cross", Keys.TAB, "7 0")
    assert field.get_attribute("value") == "renumber 5 8 crossline 7 0"
    field.clear()
    field.send_keys("table 1 2 inline crossl")
    page.wait(lambda: "crossline" in [one.text for one in page.all("#choices .word")])
    field.send_keys(Keys.TAB, Keys.ENTER)
    assert page.answer("table 1 2 inline crossline ") == "table 2\n1 101 201\n2 101 202"
    field.send_keys("count all where sample_l")
    page.wait(lambda: [one.text for one in page.all("#choices .word")] == ["sample_least"])
    field.send_keys(Keys.TAB, "= sample_gr", Keys.TAB, Keys.ENTER)
    assert page.answer("count all where sample_least = sample_greatest ") == "chosen 0"
    field.send_keys("get 1 sample_l")
    page.wait(lambda: "sample_least" not in [one.text for one in page.all("#choices .word")])
    field.clear()
    field.send_keys("samples all 0 1 where crossl")
    page.wait(lambda: "crossline" in [one.text for one in page.all("#choices .word")])
    assert page.text("usage").startswith("samples P Q FROM TO [STEP]")
    field.send_keys(Keys.TAB, "= 202", Keys.ENTER)
    assert page.answer("samples all 0 1 where crossline = 202") == "samples 3\n2 12 42\n6 22 42\n10 32 42"
    field.send_keys("getbin inte")
    page.wait(lambda: [one.text for one in page.all("#choices .word")] == ["interval"])
    field.send_keys(Keys.TAB, Keys.ENTER)
    assert page.answer() == "value 4000"
    field.send_keys("count", Keys.ENTER)
    assert page.answer("count") == "traces 12"
    field.send_keys(Keys.ARROW_UP, Keys.ARROW_UP)
    assert field.get_attribute("value").strip() == "getbin interval"
    field.send_keys(Keys.ARROW_DOWN)
    assert field.get_attribute("value") == "count"


def test_the_table(opened):
    page = opened("wrong_line")
    page.double_click('td[data-at="4 0"]')
    field = page.one("td input")
    field.clear()
    field.send_keys("102", Keys.ENTER)
    page.shown(2)
    page.wait(lambda: page.rows()[4][1] == "102")
    assert page.one('td[data-at="4 0"]').get_attribute("class") == "mark"
    page.one('td[data-at="4 0"]').send_keys(Keys.ENTER)
    field = page.one("td input")
    field.clear()
    field.send_keys("4000000000", Keys.ENTER)
    page.wait(lambda: page.all("td .no") and page.one("td .no").text == "refused E04 does not fit")
    page.one("td input").send_keys(Keys.ESCAPE)
    assert page.rows()[4][1] == "102"
    page.find("column").send_keys("samples", Keys.ENTER)
    page.wait(lambda: page.rows()[0][-1] == "5")
    page.find("column").send_keys("colour", Keys.ENTER)
    page.wait(lambda: page.js("return document.getElementById('column').validationMessage") == "refused E02 no field")
    assert len(page.rows()[0]) == 8


def test_find_from_a_column(opened):
    page = opened("wrong_line")
    page.one('button[aria-label="find in inline"]').click()
    field = page.find("line")
    assert field.get_attribute("value") == "find 1 12 inline "
    field.send_keys("103 103", Keys.ENTER)
    assert page.answer("find 1 12 inline 103 103") == "found 4"
    rows = page.wait(lambda: page.all("#log button.link"))
    assert [one.text for one in rows] == [f"trace {trace} 103" for trace in (9, 10, 11, 12)]
    rows[2].click()
    page.wait(lambda: page.all("#table-room tr.here") and page.one("#table-room tr.here").get_attribute("data-trace") == "11")


def test_which_headers_are_used(opened):
    page = opened("wrong_line")
    assert page.text("used-room") == ""
    page.one("#used summary").click()
    used = "return [...document.querySelectorAll('#used-room tbody tr')].map((row) => [...row.children].map((one) => one.textContent))"
    page.wait(lambda: ["inline", "101", "103", "101", "103"] in page.js(used))
    assert ["sequence_file", "1", "12", "1", "12"] in page.js(used) and "day" not in [row[0] for row in page.js(used)]
    page.run("renumber 3 4 day 77 0")
    page.wait(lambda: ["day", "0", "77", "0", "0"] in page.js(used))
    page.one('button[aria-label="add the column day"]').click()
    page.wait(lambda: [row[-1] for row in page.rows()[:5]] == ["0", "0", "77", "77", "0"])


def test_a_fault_leads_to_its_trace(opened):
    page = opened("wrong_line")
    page.find("size").send_keys("10")
    page.wait(lambda: page.all("#panel button.link"))
    page.one("#panel button.link").click()
    page.wait(lambda: page.all("#fault-window button.link"))
    page.all("#fault-window li > button.link")[2].click()
    assert page.wait(lambda: page.all("tr.here"))[0].get_attribute("data-trace") == "7"


def test_a_run_of_a_problem_leads_to_its_first_trace(opened):
    page = opened("missing")
    page.find("size").send_keys("10")
    page.wait(lambda: "traces 7 to 11: shift 1" in page.text("panel"))
    page.one("#panel td .was button.link").click()
    assert page.wait(lambda: page.all("tr.here"))[0].get_attribute("data-trace") == "7"


SHAPES = "return (document.getElementById(arguments[0])._fullLayout.shapes || []).map(({x0, x1, y0, y1}) => [x0, x1, y0, y1])"


# What the frame of the traces 6 and 7 of 40 shows at its upper edge, and within.
FRAME = """
const one = document.getElementById('section-canvas'), copy = Object.assign(document.createElement('canvas'), {width: one.width, height: one.height});
const pen = copy.getContext('2d', {willReadFrequently: true}), each = (one.clientWidth - 78) / 40;
pen.drawImage(one, 0, 0);
const at = (column, down) => [...pen.getImageData(Math.round(70 + column * each), Math.round(down), 1, 1).data];
const kind = ([red, green, blue]) => (red === green && green === blue ? 'grey' : red > 150 && green < 80 ? 'mark' : 'other');
const found = [kind(at(5.5, 26)), kind(at(5.5, one.clientHeight / 2))];
return found[0] === 'mark' ? found : null;
"""


def test_a_file_without_traces(opened, tmp_path):
    page = opened(files.write(tmp_path / "empty.sgy", files.header(), files.binary(samples=25)))
    page.wait(lambda: page.text("problems-said") == "No problems found: the file has no traces.")
    page.wait(lambda: page.text("section-caption") == "The file has no traces.")


def test_a_problem_is_shown_everywhere(opened, tmp_path):
    """On the map, in the section, on the graph and in the table, while the page stays where it is; all that are alike are mended by one line."""
    page = opened(survey(tmp_path / "survey.sgy"))
    for name in ("section", "graph"):
        page.press(f"#{name} .fold")
    page.run("set 6 7 delay 30")
    page.run("set 50 delay 30")
    lead = "return [...document.querySelectorAll('#panel button')].find((one) => one.textContent === arguments[0]).click()"
    page.wait(lambda: "traces 6 to 7: delay 30 usual 0" in page.text("panel"))
    line = "return document.querySelector('[aria-label=\"put a line for F6 into the command line\"]').textContent"
    assert page.js(line) == "renumber 441 480 inline 112 0"  # inline 112 lacks, and stands on 111
    page.js("document.querySelector('[aria-label=\"show where S4 is\"]').click()")
    page.wait(lambda: page.text("problem-window").startswith("S4: 2 runs"))
    lines = page.js("return [...document.querySelectorAll('#problem-window .line')].map((one) => one.textContent)")
    assert lines == ["set 6 7 delay 0", "set all delay 0 where delay = 30", "set 50 delay 0", "set all delay 0 where delay = 30"]
    page.js("window.scrollTo(0, 0)")
    page.js(lead, "traces 6 to 7: delay 30 usual 0")
    page.wait(lambda: page.js(SHAPES, "plot-now") == [[4.5, 5.5, -0.5, 0.5], [5.5, 6.5, -0.5, 0.5]])
    page.wait(lambda: page.js("return document.getElementById('section-canvas').shown.told.sides[0].marks") == [[5, 7]])
    assert page.wait(lambda: page.js(FRAME)) == ["mark", "grey"]  # a frame, which leaves the samples their colours
    assert page.find("section-value").get_attribute("value") == "101"
    page.wait(lambda: page.js(SHAPES, "plot-graph")[0][:2] == [5.5, 7.5])
    page.wait(lambda: page.js("return [...document.querySelectorAll('tr.spot')].map((one) => one.dataset.trace)") == ["6", "7"])
    assert page.js("return window.scrollY") == 0 and page.text("spot-said").startswith("Marked on the map, ")
    assert page.browser.save_screenshot(f"{os.environ.get('SEGYWB_PICTURES') or tmp_path}/desk-problems.png")
    page.click("spot-none")
    page.wait(lambda: page.js(SHAPES, "plot-now") == [] and page.js("return document.getElementById('section-canvas').shown.told.sides[0].marks") == [] and not page.all("tr.spot"))
    page.js(lead, "traces 6 to 7: delay 30 usual 0")
    page.wait(lambda: len(page.js(SHAPES, "plot-now")) == 2)
    page.js(lead, "set all delay 0 where delay = 30")
    page.step_of_line()
    page.wait(lambda: "traces 6 to 7" not in page.text("panel") and page.js(SHAPES, "plot-now") == [] and page.js(SHAPES, "plot-graph") == [])
    assert run(page.desk.path, "set 6 7 delay 30\nset 50 delay 30\nset all delay 0 where delay = 30\ncount all where delay = 30\n")[0] == "ok\nok\nok 3\nchosen 0\n"
    page.js(lead, "inline 112: step 1")
    page.wait(lambda: page.js(SHAPES, "plot-now") == [[-0.5, 39.5, 10.5, 11.5]])


def test_a_line_that_mends_a_problem(opened):
    """It is put into the command line, and runs when it is entered."""
    page = opened("wrong_count")
    page.wait(lambda: len(page.all("#panel button.line")) == 2)
    assert [one.text for one in page.all("#panel button.line")] == ["bin interval 4000", "bin trace_count 12"]
    page.all("#panel button.line")[1].click()
    assert page.find("line").get_attribute("value") == "bin trace_count 12"
    page.find("line").send_keys(Keys.ENTER)
    page.wait(lambda: "1 problem." in page.text("panel"))
    assert page.one("#panel tr.mark").text.startswith("F7 0\nwas 1")


COSTLY = """
const real = window.fetch;
window.fetch = async (...words) => {
  const answer = await real(...words);
  if (!String(words[0]).includes("ask/state")) return answer;
  return new Response(JSON.stringify({ ...(await answer.json()), costly: true }), { headers: answer.headers });
};
"""


def test_problems_of_very_many_traces(opened):
    """They are looked for when it is asked for, and after an edit not by themselves."""
    page = opened("wrong_line")
    page.wait(lambda: "1 problem." in page.text("panel"))
    page.js(COSTLY)
    page.run("set 1 delay 7")
    page.wait(lambda: page.all("#look"))
    assert "each of 12 traces is looked at" in page.text("panel") and page.text("tab-problems") == "Problems"
    page.click("look")
    page.wait(lambda: "2 problems." in page.text("panel") and "trace 1: delay 7 usual 0" in page.text("panel"))
    page.run("set 1 delay 0")
    page.wait(lambda: page.all("#look"))


REFUSED = """
const real = window.fetch;
const told = JSON.stringify({ refused: "refused E14 read failed" });
window.fetch = async (...words) => (String(words[0]).includes("ask/problems") ? new Response(told, { status: 409 }) : real(...words));
"""


def test_problems_that_cannot_be_told(opened):
    """The file may be another by then: no panel says that nothing is wrong."""
    page = opened("cube")
    page.wait(lambda: "No problems found" in page.text("panel"))
    page.js(REFUSED)
    page.run("set 1 delay 7")
    page.wait(lambda: page.text("panel") == "Not told: refused E14 read failed")
    assert page.text("tab-problems") == "Problems"


def test_before_and_now(opened):
    page = opened("wrong_line")
    page.run("renumber 5 8 inline 102 0")
    page.click("compare")
    page.wait(lambda: page.js("return Boolean(document.getElementById('plot-was').data)"))
    assert page.map("was") == BROKEN and page.map() == SOUND
    assert "8 cells changed since the file was loaded" in page.text("caption")
    ranges = "const all = ['was', 'now'].map((one) => document.getElementById(`plot-${one}`)._fullLayout); return all.map(({xaxis, yaxis}) => [xaxis.range, yaxis.range, xaxis._length])"
    was, now = page.js(ranges)
    assert was == now
    page.js("return Plotly.relayout('plot-now', {'xaxis.range[0]': 0.5, 'xaxis.range[1]': 2.5}).then(() => null)")
    page.wait(lambda: page.js(ranges)[0][0] == [0.5, 2.5])
    page.wait(lambda: "was 101" in page.one('td[data-at="4 0"]').text)
    page.map_tab("slice")
    page.wait(lambda: page.map("was")[0] == [21, 22, 23, 24])
    assert page.map()[0] == [11, 12, 13, 14]


def test_traces_keep_their_names(opened):
    page = opened("wrong_line")
    page.run("delete 2")
    page.wait(lambda: "was 3" in page.one('tr[data-trace="2"] th').text)
    page.run("blank 1")
    page.wait(lambda: "new" in page.one('tr[data-trace="1"] th').text)
    assert not page.all("#table-room td.mark")


def test_keyboard_on_the_map(opened):
    page = opened("wrong_line")
    page.find("plot-now").send_keys(Keys.ARROW_RIGHT)
    page.wait(lambda: page.text("told") == "inline 101, crossline 201: fold 2, 2 traces 1, 5")
    page.find("plot-now").send_keys(Keys.ARROW_UP)
    page.wait(lambda: page.text("told").startswith("inline 102, crossline 201: fold 0"))
    page.find("plot-now").send_keys(Keys.ARROW_DOWN, Keys.SPACE)
    page.wait(lambda: page.find("offers").is_displayed() and page.text("offer-count") == "2 traces")
    page.find("plot-now").send_keys(Keys.ENTER)
    assert page.wait(lambda: page.all("tr.here"))[0].get_attribute("data-trace") == "1"


def survey(path):
    """A cube whose traces of inline 112 say 111, with a trace that lacks."""
    inlines, crosslines, made = range(101, 125), range(201, 241), []
    for inline in inlines:
        for crossline in crosslines:
            if (inline, crossline) != (118, 209):
                samples = [round(300 * math.cos((inline * 2 + crossline) / 9 - k / 3) * math.exp(-((k - 12) / 6) ** 2)) for k in range(25)]
                trace = bytearray(files.trace(len(made) + 1, 111 if inline == 112 else inline, crossline, samples))
                trace[70:72] = struct.pack(">h", -100)
                trace[180:188] = struct.pack(">2i", 45000000 + 2500 * (crossline - 201) - 900 * (inline - 101), 680000000 + 2500 * (inline - 101) + 900 * (crossline - 201))
                trace[88:90] = struct.pack(">h", 1)
                made.append(bytes(trace))
    text = "".join(f"C{at:2d} {'EXAMPLE SURVEY' if at == 1 else ''}".ljust(80) for at in range(1, 41)).encode("cp037")
    return files.write(path, text, files.binary(samples=25, at3255=(2, 1)), *made)


@pytest.mark.parametrize("scheme", ["light", "dark"])
def test_width_and_pictures(opened, scheme, tmp_path):
    """Nothing is wider than a laptop's screen. SEGYWB_PICTURES names the folder where pictures of the page are put."""
    folder = os.environ.get("SEGYWB_PICTURES") or str(tmp_path)
    page = opened(survey(tmp_path / "survey.sgy"))
    page.browser.execute_cdp_cmd("Emulation.setEmulatedMedia", {"features": [{"name": "prefers-color-scheme", "value": scheme}]})
    page.sized(1280, 960)
    back = page.js("return getComputedStyle(document.body).color")
    assert (back == "rgb(27, 31, 36)") == (scheme == "light")

    def picture(name):
        page.js("document.activeElement.blur()")
        assert page.js("return document.documentElement.scrollWidth") <= 1280
        assert page.browser.save_screenshot(f"{folder}/desk-{name}{'' if scheme == 'light' else '-dark'}.png")

    page.drag([(10, 4), (10, 30)], (5, 5))
    assert page.text("offer-count") == "54 traces"
    page.hovered(17, 20, "inline 118, crossline 221: fold 1, trace 700")
    picture("select")
    page.run("set 9999 inline 7")
    page.run("renumber 441 480 inline 112 0")
    page.one("#offers button:last-of-type").click()
    page.click("compare")
    page.wait(lambda: page.js("return Boolean(document.getElementById('plot-was').data)") and page.data("whole"))
    page.find("first").send_keys(Keys.CONTROL + "a", Keys.NULL, "438", Keys.TAB)
    page.wait(lambda: "was 111" in page.find("table-room").text)
    assert page.marks() == 1
    picture("compare")
    page.map_tab("slice")
    page.js("const one = document.getElementById('sample-number'); one.value = 12; one.dispatchEvent(new Event('change'))")
    page.tab("numbers")
    page.wait(lambda: page.map()[0][0] not in (None, 0) and "cells with traces" in page.text("panel"))
    picture("slice")
    page.click("compare")
    page.map_tab("positions")
    page.tab("edits")
    page.wait(lambda: page.text("steps") == "renumber 441 480 inline 112 0")
    picture("positions")
    page.map_tab("histogram")
    picture("histogram")
    page.run("compute 500 530 x x + 6000")
    page.map_tab("field")
    page.press("#graph .to-right")
    page.wait(lambda: page.data("graphVersion") == page.data("version") and "the farthest is trace" in page.text("caption"))
    page.find("graph-field").send_keys("x", Keys.ENTER)
    page.wait(lambda: len(page.graph()) == 3 and page.graph()[2][0] == "x")
    picture("graph")
    page.tab("against-field")
    page.wait(lambda: page.data("graphKind") == "against-field")
    picture("pair")
    page.js("localStorage.clear()")
    page.browser.execute_cdp_cmd("Emulation.clearDeviceMetricsOverride", {})
