"""The panel of sections in the browser: what is chosen, how it looks, zoom and pan, and pictures of it."""

import math
import os
import struct

import files
import numpy as np
import pytest
from selenium.webdriver import ActionChains
from selenium.webdriver.common.keys import Keys
from test_maps import loaded
from test_page import survey
from test_section import made_line, wanted

import segywb
from segywb import gains
from segywb.desk import sections


def change(page, id, value):
    page.js(
        "const one = document.getElementById(arguments[0]); one.value = arguments[1]; one.dispatchEvent(new Event('change'))",
        id,
        value,
    )


def opened_section(page):
    if page.js("return Boolean(document.getElementById('section').dataset.folded)"):
        page.press("#section .fold")
    page.wait(lambda: page.data("sectionVersion"))
    page.js("document.getElementById('section').scrollIntoView({block: 'start'})")
    return page


def told(page):
    return page.js("return document.getElementById('section-canvas').shown.told")


def view(page):
    return page.js("return document.getElementById('section-canvas').shown.view")


def sent(page):
    return np.array(page.js("return [...document.getElementById('section-canvas').shown.bytes]"))


def spot(page, across, down):
    """A place of the canvas in the window, in parts of it."""
    left, top, wide, tall = page.js(
        "const {left, top, width, height} = document.getElementById('section-canvas').getBoundingClientRect(); return [left, top, width, height]"
    )
    return round(left + across * wide), round(top + down * tall)


def point(page, *places, press=False):
    chain = ActionChains(page.browser)
    for at, (x, y) in enumerate(places):
        chain.w3c_actions.pointer_action.move_to_location(x, y)
        if press and at == 0:
            chain.w3c_actions.pointer_action.pointer_down()
    if press:
        chain.w3c_actions.pointer_action.pointer_up()
    chain.perform()


def wheel(page, x, y, by, **keys):
    page.js(
        """const [x, y, by, keys] = arguments; document.getElementById('section-canvas').dispatchEvent(
        new WheelEvent('wheel', {clientX: x, clientY: y, deltaY: by, cancelable: true, bubbles: true, ...keys}))""",
        x,
        y,
        by,
        keys,
    )


def test_a_line_without_bins_begins_with_its_section(opened, tmp_path):
    page = opened(made_line(tmp_path / "line.sgy", form=5))
    page.wait(lambda: page.data("sectionVersion"))
    places = page.js(
        "return ['maps', 'side', 'section'].map((one) => document.getElementById(one).dataset.place)"
    )
    assert (
        places == ["below", "right", "left"]
        and page.find("section-field").get_attribute("value") == "field_record"
    )
    assert page.text("section-caption").startswith(
        "Where field_record is 101: 20 traces of 300 samples, 0 to 1,196 ms. A display alone: colours to ±"
    )
    page.find("section-on").click()
    page.wait(
        lambda: told(page)["value"] == 102
        and page.find("section-value").get_attribute("value") == "102"
    )
    with segywb.open(tmp_path / "line.sgy") as volume:
        assert (
            sent(page).reshape(-1, 20).shape[1] == 20
            and told(page)["sides"][0]["trace"] == volume.section_traces(field_record=102).tolist()
        )


def test_a_file_of_shots_is_known(opened, tmp_path):
    """By S1, and a command is offered that makes lines of its records; a grid is none, and no stacked line is."""
    page = opened(made_line(tmp_path / "line.sgy"))
    page.wait(lambda: page.find("section-shots").is_displayed())
    assert page.text("section-shots").startswith(
        "All traces have inline 0 and crossline 0 (S1), as those of shots: 10 field records, 101 to 110."
    )
    page.wait(lambda: page.all('[aria-label="put a line for S1 into the command line"]'))
    assert page.find("section-map").text == "Run map shot"
    page.find("section-map").click()
    page.wait(
        lambda: not page.find("section-shots").is_displayed() and page.data("sectionVersion") == "2"
    )
    assert page.answer("map shot") == "ok"
    page.shown(2)
    assert len(page.map()) == 10
    grid, stack = survey(tmp_path / "survey.sgy"), made_line(tmp_path / "stack.sgy")
    for path, line in ((grid, "count"), (stack, "renumber all crossline 1 1")):
        made = loaded(path)
        made.run(line)
        assert sections.shots(made) is None, path
        made.close()


def test_a_grid_begins_with_its_map(opened, tmp_path):
    page = opened(survey(tmp_path / "survey.sgy"))
    assert (
        page.js("return document.getElementById('maps').dataset.place") == "left"
        and page.data("sectionVersion") is None
    )
    opened_section(page)
    assert told(page)[
        "value"
    ] == 113 and "Where inline is 113: 40 traces of 25 samples, 0 to 96 ms." in page.text(
        "section-caption"
    )
    change(page, "section-of", "crossline")
    page.wait(lambda: told(page)["field"] == "crossline" and told(page)["value"] == 221)
    change(page, "section-of", "traces")
    change(page, "section-last", "7")
    page.wait(lambda: told(page)["field"] == "" and told(page)["traces"] == 7)
    page.may_complain = True
    change(page, "section-of", "field")
    change(page, "section-field", "colour")
    page.wait(lambda: page.text("section-said") == "refused E02 no field")
    change(page, "section-field", "@193:4")
    page.wait(lambda: told(page)["field"] == "@193:4" and page.text("section-said") == "")


def test_what_is_under_the_pointer(opened, tmp_path):
    page = opened_section(opened(survey(tmp_path / "survey.sgy")))
    left, top, wide, tall = page.js(
        "const one = document.getElementById('section-canvas'); return [70, 24, one.clientWidth - 78, one.clientHeight - 34]"
    )
    box = page.js(
        "const {left, top} = document.getElementById('section-canvas').getBoundingClientRect(); return [left, top]"
    )
    column, sample = 8, 12
    x, y = round(box[0] + left + (column + 0.5) / 40 * wide), round(
        box[1] + top + (sample + 0.5) / 25 * tall
    )
    point(page, (x - 4, y), (x, y))
    with segywb.open(tmp_path / "survey.sgy") as volume:
        trace = volume.section_traces(inline=113)[column]
        text = f"trace {trace}, 48 ms, sample 12: {volume.sample(trace, 12)}; inline 113, crossline 209, offset 0, "
    page.wait(lambda: page.text("section-under").startswith(text))
    point(page, (x, y), press=True)
    page.wait(lambda: page.all("tr.here"))
    assert page.one("tr.here").get_attribute("data-trace") == str(trace)
    assert page.find("section-x").is_displayed() and not page.js(
        "return document.getElementById('section-y').hidden"
    )


def test_zoom_and_pan(opened, tmp_path):
    page = opened_section(opened(made_line(tmp_path / "line.sgy")))
    change(page, "section-of", "traces")
    change(page, "section-first", "1")
    change(page, "section-last", "200")
    page.wait(lambda: told(page)["traces"] == 200)
    x, y = spot(page, 0.5, 0.5)
    for _ in range(4):
        wheel(page, x, y, -300)
    # Behind each turn of the wheel a sharper picture may be asked for: the last one is of all four.
    page.wait(lambda: told(page)["window"][1] - told(page)["window"][0] < 35)
    first = told(page)["window"]
    assert 0 < first[0] < first[1] < 200 and 0 < first[2] < first[3] < 300
    with segywb.open(tmp_path / "line.sgy") as volume:
        codes = wanted(volume, range(1, 201), gains.Gain())[
            first[2] : first[3], first[0] : first[1]
        ]
        assert sent(page).reshape(codes.shape).tolist() == codes.tolist()
    point(page, (x, y), (x + 40, y + 30), (x + 80, y + 60), press=True)
    page.wait(lambda: told(page)["window"][0] < first[0] and told(page)["window"][2] < first[2])
    assert page.all("tr.here") == []  # a drag is no click
    before = view(page)
    wheel(page, x, y, 300, shiftKey=True)
    page.wait(
        lambda: view(page)["right"] - view(page)["left"] > before["right"] - before["left"] + 1
    )
    assert view(page)["bottom"] - view(page)["top"] == pytest.approx(
        before["bottom"] - before["top"]
    )
    page.find("section-all").click()
    page.wait(lambda: told(page)["window"] == [0, 200, 0, 300])
    page.find("section-canvas").send_keys("+")
    page.wait(lambda: told(page)["window"][0] > 0)
    page.find("section-canvas").send_keys(Keys.ARROW_LEFT * 9, "0")
    page.wait(lambda: told(page)["window"] == [0, 200, 0, 300])
    for _ in range(30):
        wheel(page, x, y, -300)
    page.wait(
        lambda: told(page)["window"][1] - told(page)["window"][0] <= 3
        and told(page)["window"][3] - told(page)["window"][2] <= 3
    )


def test_looks(opened, tmp_path):
    page = opened_section(opened(made_line(tmp_path / "line.sgy")))
    ink = """const one = document.getElementById('section-canvas'); const data = one.getContext('2d').getImageData(75, 30, one.width - 90, one.height - 45).data;
        const found = new Set(); for (let at = 0; at < data.length; at += 4) found.add(`${data[at]} ${data[at + 1]} ${data[at + 2]}`); return [...found]"""
    greys = page.wait(lambda: page.js(ink))
    assert len(greys) > 50 and all(len(set(one.split())) == 1 for one in greys)
    change(page, "section-scale", "red-white-blue")
    page.wait(lambda: "178 24 43" in page.js(ink) and "33 102 172" in page.js(ink))
    change(page, "section-scale", "purple-white-orange")
    page.wait(lambda: "179 88 6" in page.js(ink) and "84 39 136" in page.js(ink))
    assert "for colour-blind eyes" in page.find("section-scale").text
    density = sent(page)
    page.find("section-reverse").click()
    page.wait(
        lambda: sent(page).tolist() == (-density).tolist()
        and "polarity reversed" in page.text("section-caption")
    )
    change(page, "section-balance", "agc")
    assert page.find("section-window").is_displayed()
    change(page, "section-window", "120")
    page.wait(
        lambda: "over the root mean square of 120 ms around each sample"
        in page.text("section-caption")
    )
    change(page, "section-style", "wiggles")
    page.wait(
        lambda: len(sent(page))
        == told(page)["sides"][0]["wiggles"] * told(page)["sides"][0]["rows"]
        > 0
    )
    change(page, "section-headers", "offset field_record")
    page.wait(
        lambda: [one["name"] for one in told(page)["sides"][0]["headers"]]
        == ["offset", "field_record"]
    )
    page.may_complain = True
    change(page, "section-percentile", "0.0")
    page.wait(lambda: "a percentile is above 0" in page.text("section-said"))


def test_an_edit_is_seen_beside_what_was(opened, tmp_path):
    page = opened_section(opened(made_line(tmp_path / "line.sgy", traces=40)))
    change(page, "section-percentile", "100")
    page.wait(lambda: told(page)["sides"][0]["end"] > 5000)
    assert page.run("patch 3 100 30000") == "ok"
    page.wait(
        lambda: page.data("sectionVersion") == page.data("version")
        and told(page)["sides"][0]["end"] == 30000
    )
    page.click("compare")
    page.wait(lambda: [one["name"] for one in told(page)["sides"]] == ["was", "now"])
    assert [one["end"] for one in told(page)["sides"]][1] == 30000 and told(page)["sides"][0][
        "end"
    ] < 10000
    page.run("delete 1")
    page.wait(lambda: page.data("sectionVersion") == page.data("version"))
    each = (page.js("return document.getElementById('section-canvas').clientWidth") - 156) / 2
    left, top = spot(page, 0, 0.5)
    point(page, (round(left + 70 + 2.5 / 20 * each), top), press=True)
    page.wait(lambda: page.all("tr.here"))
    assert page.one("tr.here").get_attribute("data-trace") == "2"  # the third one, as it was loaded
    opened_section(page)
    left, top = spot(page, 0, 0.5)
    point(page, (round(left + 70 + 0.5 / 20 * each), top), press=True)
    page.wait(lambda: page.text("section-under").endswith("1 as it was loaded: it is no longer there."))
    page.step("undo")
    change(page, "section-side", "difference")
    page.wait(lambda: [one["name"] for one in told(page)["sides"]] == ["difference"])
    shown = sent(page).reshape(told(page)["sides"][0]["rows"], 20)
    assert np.count_nonzero(shown) == 1 and np.abs(shown[:, 2]).max() == 127
    page.step("undo")
    page.wait(lambda: page.data("sectionVersion") == page.data("version") and not sent(page).any())


def drawn(page, across, down):
    """Draws a rectangle over the first plot, from one trace and row to another, in fractions."""
    canvas = "const one = document.getElementById('section-canvas')"
    wide, tall = page.js(f"{canvas}; return [one.clientWidth, one.clientHeight]")
    left, top = spot(page, 0, 0)
    ends = view(page)

    def parts(some, low, high):
        return [(one - ends[low]) / (ends[high] - ends[low]) for one in some]

    xs = [round(left + 70 + x * (wide - 78)) for x in parts(across, "left", "right")]
    ys = [round(top + 24 + y * (tall - 34)) for y in parts(down, "top", "bottom")]
    point(page, *zip(xs, ys), press=True)


def test_a_rectangle_is_muted(opened, tmp_path):
    """The lines are shown before they are run, as one step; a drag that selects moves nothing."""
    page = opened_section(opened(made_line(tmp_path / "line.sgy", traces=40, samples=60)))
    assert page.text("section-caption").endswith(" a drag moves, a click goes to the row.")
    change(page, "section-drag", "selects")
    page.wait(lambda: " a drag selects samples, a click" in page.text("section-caption"))
    before = view(page)
    drawn(page, (2.5, 5.5), (10.5, 29.5))
    page.wait(lambda: page.find("mute").is_displayed())
    assert view(page) == before and not page.find("section-box").is_displayed()
    page.wait(lambda: page.one("#mute pre").text == "fill 3 6 10 29 0")
    assert page.text("mute").startswith("4 traces, samples 10 to 29")
    assert page.find("mute-run").text == "Run 1 line"
    value = "const one = document.getElementById('mute-value')"
    page.js(f"{value}; one.value = ''; one.dispatchEvent(new Event('input'))")
    page.wait(lambda: page.one("#mute pre").text == "One value is wanted.")
    assert not page.find("mute-run").is_enabled()
    page.find("mute-value").send_keys("-7")
    page.wait(lambda: page.one("#mute pre").text == "fill 3 6 10 29 -7")
    page.step("mute-run")
    assert page.answer("fill 3 6 10 29 -7") == "ok: 1 edits as one step"
    assert not page.find("mute").is_displayed()
    page.wait(lambda: page.data("sectionVersion") == page.data("version"))
    for trace, at in ((3, 10), (6, 29), (5, 20)):
        assert page.run(f"sample {trace} {at}") == "value -7"
    assert page.run("sample 3 9") != "value -7" != page.run("sample 7 10")
    page.step("undo")
    change(page, "section-side", "both")
    page.wait(lambda: [one["name"] for one in told(page)["sides"]] == ["was", "now"])
    left, top = spot(page, 0.1, 0.5)
    point(page, (left + 30, top), (left + 60, top + 20), press=True)
    page.wait(lambda: "draw on what is now" in page.text("section-said"))


def test_a_rectangle_goes_with_its_survey(opened, tmp_path):
    """An edit between the drawing and the run leaves the lines what the rectangle holds then."""
    page = opened_section(opened(made_line(tmp_path / "line.sgy", traces=40, samples=60)))
    change(page, "section-drag", "selects")
    drawn(page, (2.5, 5.5), (10.5, 29.5))
    page.wait(lambda: page.all("#mute pre") and page.one("#mute pre").text == "fill 3 6 10 29 0")
    page.run("delete 1")
    page.wait(lambda: page.data("sectionVersion") == page.data("version"))
    page.wait(lambda: page.one("#mute pre").text == "fill 3 6 10 29 0")
    page.run("copy 4 1")
    page.run("set 4 field_record 7")
    page.wait(lambda: page.one("#mute pre").text == "fill 3 3 10 29 0\nfill 5 7 10 29 0")
    page.one("#mute button[type=button]:last-of-type").click()
    page.wait(lambda: not page.find("mute").is_displayed())


def test_a_zoom_keeps_up(opened, tmp_path):
    """Each turn of the wheel is drawn in the next picture of the browser, whatever the server does."""
    page = opened_section(opened(made_line(tmp_path / "line.sgy", traces=300)))
    change(page, "section-of", "traces")
    change(page, "section-last", "0")
    change(page, "section-style", "both")
    page.wait(lambda: told(page)["traces"] == 300)
    script = """const [x, y, done] = arguments;
        const paper = document.getElementById('section-canvas');
        const count = () => Number(document.body.dataset.sectionFrames);
        let [turn, before, drawn] = [0, 0, 0];
        const step = () => {
          if (turn && count() > before) drawn += 1;
          if (turn === 40) return done(drawn);
          [turn, before] = [turn + 1, count()];
          const words = {clientX: x, clientY: y, deltaY: turn < 20 ? -60 : 60};
          paper.dispatchEvent(new WheelEvent('wheel', {...words, cancelable: true, bubbles: true}));
          return requestAnimationFrame(step);
        };
        requestAnimationFrame(step);"""
    assert page.browser.execute_async_script(script, *spot(page, 0.5, 0.5)) >= 38


def test_a_folded_section_asks_nothing(opened):
    page = opened("wrong_line")
    page.run("set 1 inline 102")
    assert page.data("sectionVersion") is None
    opened_section(page)
    assert page.data("sectionVersion") == "2"


@pytest.mark.parametrize("name", ["section", "section-compare"])
def test_pictures(opened, tmp_path, name):
    """Pictures of the page for the documents; nothing is wider than the window."""
    page = opened(
        made_line(tmp_path / "line.sgy", traces=480, samples=400, form=5, records=48)
        if name == "section-compare"
        else survey_of_waves(tmp_path / "survey.sgy")
    )
    page.browser.execute_cdp_cmd(
        "Emulation.setDeviceMetricsOverride",
        {"width": 1440, "height": 900, "deviceScaleFactor": 1, "mobile": False},
    )
    page.js("localStorage.clear()")
    page.open()
    opened_section(page)
    if name == "section":
        page.press("#section .to-left")
        change(page, "section-scale", "red-white-blue")
        change(page, "section-headers", "offset")
        page.wait(lambda: len(told(page)["sides"][0]["headers"]) == 1)
        point(page, spot(page, 0.48, 0.5), spot(page, 0.5, 0.52))
        page.wait(lambda: "sample" in page.text("section-under"))
    else:
        page.run("patch 60 150 2000 -2000 2000 -2000 2000")
        page.run("copy 70 75")
        change(page, "section-value", "102")
        change(page, "section-style", "wiggles")
        change(page, "section-balance", "agc")
        change(page, "section-side", "both")
        page.wait(
            lambda: told(page)["value"] == 102
            and len(told(page)["sides"]) == 2
            and told(page)["sides"][0]["wiggles"] == 48
        )
    page.wait(lambda: page.data("whole"))
    page.js("document.activeElement.blur(); window.scrollTo(0, 0)")
    assert (
        page.js("return document.documentElement.scrollWidth") <= 1440
        and page.find("line").rect["y"] + page.find("line").rect["height"] <= 900
    )
    folder = os.environ.get("SEGYWB_PICTURES") or str(tmp_path)
    assert page.browser.save_screenshot(f"{folder}/desk-{name}.png")
    page.js("localStorage.clear()")
    page.browser.execute_cdp_cmd("Emulation.clearDeviceMetricsOverride", {})


def survey_of_waves(path):
    """A cube with layers that dip, and a fault in them."""
    made = []
    for inline in range(101, 125):
        for crossline in range(201, 321):
            fall = 20 if crossline > 262 + (inline - 101) // 2 else 0
            top = [
                40 + (crossline - 201) * 0.15 + fall,
                95 - (crossline - 201) * 0.1 + (inline - 101) * 0.4 + fall,
                150 + 8 * math.sin(crossline / 14) + fall,
            ]
            samples = [
                round(
                    sum(
                        size * math.cos((k - one) / 2.2) * math.exp(-(((k - one) / 7) ** 2))
                        for one, size in zip(top, (900, -600, 700))
                    )
                    + 25 * math.sin(k * crossline)
                )
                for k in range(220)
            ]
            trace = bytearray(files.trace(len(made) + 1, inline, crossline, samples))
            trace[36:40] = struct.pack(">i", 150 + 25 * ((crossline * 7 + inline) % 12))
            trace[70:72], trace[88:90] = struct.pack(">h", -100), struct.pack(">h", 1)
            trace[180:188] = struct.pack(
                ">2i", 45000000 + 1250 * (crossline - 201), 680000000 + 2500 * (inline - 101)
            )
            made.append(bytes(trace))
    return files.write(path, files.header(), files.binary(samples=220), *made)
