"""The panels: side by side, enlarged, folded; their sizes, which are kept; and that a laptop's window is enough."""

import files
import pytest
from selenium.webdriver import ActionChains
from selenium.webdriver.common.by import By
from selenium.webdriver.common.keys import Keys


@pytest.fixture
def laptop(opened, browser):
    """A page in a window of 1,280 by 720."""
    browser.execute_cdp_cmd("Emulation.setDeviceMetricsOverride", {"width": 1280, "height": 720, "deviceScaleFactor": 1, "mobile": False})
    yield opened("wrong_line")
    browser.execute_cdp_cmd("Emulation.clearDeviceMetricsOverride", {})


def places(page):
    return page.js("return Object.fromEntries(['maps', 'side', 'graph', 'headers'].map((one) => [one, document.getElementById(one).dataset.place]))")


def room(page, id):
    """Left, top, right and bottom of an element in the window."""
    return page.js("const {left, top, right, bottom} = document.getElementById(arguments[0]).getBoundingClientRect(); return [left, top, right, bottom].map(Math.round)", id)


def no_wider(page):
    return page.js("return document.documentElement.scrollWidth") <= page.js("return window.innerWidth")


def test_a_laptop_is_enough(laptop):
    """Without scrolling one sees both panels and the command line."""
    assert places(laptop) == {"maps": "left", "side": "right", "graph": "below", "headers": "below"} and no_wider(laptop)
    assert room(laptop, "line")[3] <= 720 and room(laptop, "maps")[2] < room(laptop, "side")[0] and room(laptop, "plot-now")[3] <= 720
    for name in ("graph", "headers", "maps"):
        laptop.press(f"#{name} .to-right")
        laptop.wait(lambda: places(laptop)[name] == "right")
        assert no_wider(laptop), name
        left = next(one for one, place in places(laptop).items() if place == "left")
        assert room(laptop, left)[2] <= room(laptop, name)[0] and sorted(places(laptop).values()) == ["below", "below", "left", "right"]
        assert room(laptop, "commands")[1] >= max(room(laptop, name)[3], room(laptop, left)[3])


def chosen(page, side):
    """The panel whose tab is chosen on a side."""
    return page.js("return [...document.querySelectorAll(`#${arguments[0]}-panels > [aria-selected=true]`)].map((one) => one.id)", side)


def test_nothing_is_out_of_sight(opened, laptop, tmp_path):
    """Each panel has a tab on both sides, which is seen without scrolling; a click shows the panel there, whole, with the command line below it."""
    page = opened(files.cube(tmp_path / "many.sgy", 30, 20, 5))
    for side in ("left", "right"):
        for name in ("maps", "side", "section", "graph", "headers"):
            left, top, right, bottom = room(page, f"{side}-{name}")
            assert 0 <= left < right <= 1280 and 0 <= top < bottom <= room(page, "maps")[1], (side, name)
    assert chosen(page, "left") == ["left-maps"] and chosen(page, "right") == ["right-side"]
    for side in ("left", "right"):
        for name in ("headers", "graph", "section", "side", "maps"):
            page.click(f"{side}-{name}")
            page.wait(lambda: page.find(name).get_attribute("data-place") == side)
            assert chosen(page, side) == [f"{side}-{name}"] and no_wider(page)
            assert page.js("return window.scrollY") == 0 and room(page, name)[3] <= room(page, "commands")[1] and room(page, "line")[3] <= 720, (side, name)
    page.click("left-headers")
    page.click("right-graph")
    page.wait(lambda: page.data("graphKind") == "against-trace" and len(page.all("#table-room tbody tr")) == 25)
    assert room(page, "table-room")[3] <= 720 and page.js("const one = document.getElementById('table-room'); return one.scrollHeight > one.clientHeight")
    assert room(page, "plot-graph")[3] <= 720


def test_the_tabs_by_the_keyboard(laptop):
    laptop.find("right-side").send_keys(Keys.ARROW_RIGHT)
    laptop.wait(lambda: chosen(laptop, "right") == ["right-section"])
    assert laptop.js("return document.activeElement.id") == "right-section" and places(laptop)["side"] == "below"
    laptop.find("right-section").send_keys(Keys.ARROW_LEFT * 2)
    laptop.wait(lambda: chosen(laptop, "right") == ["right-maps"])
    assert chosen(laptop, "left") == ["left-side"]  # what stood on the other side takes the place
    laptop.open()
    assert (chosen(laptop, "left"), chosen(laptop, "right")) == (["left-side"], ["right-maps"])


def test_a_large_screen_is_used(laptop):
    """Of 3,840 by 2,160 pixels: the plots are as high as the command line leaves room."""
    laptop.browser.execute_cdp_cmd("Emulation.setDeviceMetricsOverride", {"width": 3840, "height": 2160, "deviceScaleFactor": 1, "mobile": False})
    laptop.open()
    assert no_wider(laptop) and room(laptop, "line")[3] <= 2160
    wide, tall = laptop.js("const {width, height} = document.getElementById('plot-now')._fullLayout; return [width, height]")
    assert wide > 2200 and tall == 1600 and room(laptop, "plot-now")[3] <= 2160
    laptop.press("#section .to-right")
    laptop.wait(lambda: laptop.data("sectionVersion"))
    canvas = laptop.find("section-canvas").rect
    assert canvas["width"] > 1200 and canvas["height"] == 1600 and no_wider(laptop)


def test_two_panels_side_by_side(laptop):
    laptop.press("#graph .to-right")
    laptop.wait(lambda: laptop.data("graphKind") == "against-trace")
    assert places(laptop) == {"maps": "left", "side": "below", "graph": "right", "headers": "below"}
    width = laptop.js("return document.getElementById('plot-graph')._fullLayout.width")
    assert width == laptop.js("return document.getElementById('plot-graph').clientWidth") and abs(room(laptop, "maps")[1] - room(laptop, "graph")[1]) <= 1
    laptop.press("#graph .to-left")
    laptop.wait(lambda: places(laptop)["graph"] == "left")
    assert places(laptop)["maps"] == "right"
    assert laptop.run("renumber 5 8 inline 102 0") == "ok"
    laptop.wait(lambda: laptop.graph()[0][2] == [101] * 4 + [102] * 4 + [103] * 4)


@pytest.mark.parametrize("name", ["maps", "side", "graph", "headers"])
def test_a_panel_as_large_as_the_window(laptop, name):
    before = room(laptop, name)
    laptop.press(f"#{name} .enlarge")
    head = room(laptop, "main")[1]
    assert room(laptop, name)[0] == 0 and room(laptop, name)[2] == 1280 and room(laptop, name)[3] == 720 and room(laptop, name)[1] <= head + 1
    plot = {"maps": "plot-now", "graph": "plot-graph"}.get(name)
    if plot:
        wide = "const one = document.getElementById(arguments[0]); return one._fullLayout ? [one._fullLayout.width, one._fullLayout.height] : [0, 0]"
        laptop.wait(lambda: laptop.js(wide, plot)[0] > 1150)
        assert laptop.js(wide, plot)[1] > 380 and room(laptop, plot)[3] <= 720
    assert no_wider(laptop)
    laptop.one("body").send_keys(Keys.ESCAPE)
    laptop.wait(lambda: room(laptop, name)[2] - room(laptop, name)[0] == before[2] - before[0])
    assert not laptop.all("section.whole")


def test_an_escape_in_a_field_stays_there(laptop):
    laptop.press("#headers .enlarge")
    laptop.find("column").send_keys(Keys.ESCAPE)
    assert laptop.all("section.whole")
    laptop.press("#headers .enlarge")
    assert not laptop.all("section.whole")


def test_sizes_are_kept(laptop):
    wide = room(laptop, "maps")[2] - room(laptop, "maps")[0]
    ActionChains(laptop.browser).click_and_hold(laptop.find("splitter")).move_by_offset(-200, 0).release().perform()
    laptop.wait(lambda: abs(wide - 200 - (room(laptop, "maps")[2] - room(laptop, "maps")[0])) < 8)
    laptop.one("#maps .sash").send_keys(Keys.ARROW_DOWN * 3)
    laptop.wait(lambda: laptop.js("return document.getElementById('plot-now').clientHeight") == 400)
    laptop.press("#headers .fold")
    laptop.press("#graph .to-right")
    kept = room(laptop, "maps")
    laptop.open()
    assert room(laptop, "maps")[2] == kept[2] and laptop.js("return document.getElementById('plot-now').clientHeight") == 400
    assert places(laptop)["graph"] == "right" and laptop.find("headers").get_attribute("data-folded") == "yes"
    laptop.wait(lambda: laptop.js("return document.getElementById('plot-now')._fullLayout.height") == 400)
    laptop.find("splitter").send_keys(Keys.ARROW_RIGHT * 60)
    maps, graph = room(laptop, "maps"), room(laptop, "graph")
    assert 0.7 < (maps[2] - maps[0]) / (graph[2] - maps[0]) < 0.77  # it stops before a panel vanishes


NO_LAYOUTS = ["{", "[]", "null", '{"left": "maps", "right": "maps"}', '{"left": "<img>", "right": "side"}', '{"left": "constructor", "right": "side"}',
              '{"left": "side", "right": "maps", "split": "x", "tall": -5, "open": 7}']


def test_what_is_kept_may_be_anything(laptop):
    for kept in NO_LAYOUTS:
        laptop.js("localStorage.setItem('segywb-desk-layout', arguments[0])", kept)
        laptop.open()
        assert sorted(places(laptop).values()) == ["below", "below", "left", "right"], kept
        assert laptop.js("return document.getElementById('plot-now').clientHeight") >= 160, kept
        assert laptop.browser.find_elements(By.TAG_NAME, "img") == [], kept
