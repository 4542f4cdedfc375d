"""The page of a desk as a person uses it."""

import os
import time

from selenium.common.exceptions import ElementNotInteractableException, StaleElementReferenceException
from selenium.webdriver import ActionChains
from selenium.webdriver.common.by import By
from selenium.webdriver.common.keys import Keys

# So many seconds something may take on a machine whose processors are all held by others; on one that is idle it takes a hundredth.
PATIENCE = 300.0

# What a page has begun and not done: requests until their answers are read, timers, and what is drawn with the next picture of the browser. It runs in
# front of each page of a window.
UNDER_WAY = """
const now = { requests: 0, timers: new Set(), frames: new Set() };
const during = async (promise) => {
  now.requests += 1;
  try {
    return await promise;
  } finally {
    now.requests -= 1;
  }
};
const { fetch, setTimeout, clearTimeout, requestAnimationFrame, cancelAnimationFrame } = window;
window.fetch = (...words) => during(fetch(...words));
for (const name of ["json", "text", "arrayBuffer"]) {
  const read = Response.prototype[name];
  Response.prototype[name] = function whole() { return during(read.call(this)); };
}
const counted = (some, begin, end) => [
  (does, ...words) => {
    const id = begin((...told) => { some.delete(id); does(...told); }, ...words);
    some.add(id);
    return id;
  },
  (id) => { some.delete(id); end(id); },
];
[window.setTimeout, window.clearTimeout] = counted(now.timers, setTimeout, clearTimeout);
[window.requestAnimationFrame, window.cancelAnimationFrame] = counted(now.frames, requestAnimationFrame, cancelAnimationFrame);
window.underWay = () => [now.requests, now.timers.size, now.frames.size];
"""


def watched(browser):
    """The pages that this window of the browser opens from now on tell what they have under way."""
    browser.execute_cdp_cmd("Page.addScriptToEvaluateOnNewDocument", {"source": f"(() => {{ {UNDER_WAY} }})()"})
    browser.get("about:blank")


class Page:
    """A page in a browser."""

    def __init__(self, browser, desk):
        self.browser = browser
        self.desk = desk
        self.may_complain = False

    def open(self, url=None):
        self.rest()
        self.browser.get(url or self.desk.url)
        self.wait(lambda: self.data("whole"))

    def sized(self, wide, tall):
        """Gives the window this size, and waits until the page has been told so, which it is before the next picture is drawn."""
        self.browser.execute_cdp_cmd("Emulation.setDeviceMetricsOverride", {"width": wide, "height": tall, "deviceScaleFactor": 1, "mobile": False})
        self.browser.execute_async_script("const [done] = arguments; requestAnimationFrame(() => requestAnimationFrame(() => done()))")
        self.rest()

    # ---- looking

    def find(self, id):
        return self.browser.find_element(By.ID, id)

    def all(self, selector):
        return self.browser.find_elements(By.CSS_SELECTOR, selector)

    def one(self, selector):
        return self.browser.find_element(By.CSS_SELECTOR, selector)

    def text(self, id):
        return self.js("return document.getElementById(arguments[0])?.innerText ?? ''", id)

    def js(self, script, *more):
        return self.browser.execute_script(script, *more)

    def data(self, name):
        return self.js("return document.body.dataset[arguments[0]] || null", name)

    def map(self, side="now"):
        """The numbers of a map, inlines upwards."""
        return self.js(f"return document.getElementById('plot-{side}').data[0].z")

    def marks(self):
        """How many outlines are drawn around changed cells."""
        return self.js("return document.getElementById('plot-now').data[1].x.filter((one) => one === null).length")

    def rows(self):
        """The header table as texts."""
        return self.js("return [...document.querySelectorAll('#table-room tbody tr')].map((row) => [...row.children].map((one) => one.firstChild.textContent))")

    def under_way(self):
        """How many requests, timers and drawings the page has begun and not done."""
        return self.js("return window.underWay()")

    def rest(self):
        """Waits until nothing is under way: then what the page shows stays as it is, until something is done to it."""
        self.wait(lambda: True)

    def wait(self, question, seconds=PATIENCE, rest=True):
        """Asks until the answer is true, and gives it. It is asked of a page at rest, so that all that is read behind it belongs together; without
        ``rest`` also of what the page shows in between."""
        until = time.monotonic() + seconds
        while True:
            busy = self.under_way() if rest else []
            found = None
            if not any(busy):
                try:
                    found = question()
                except (StaleElementReferenceException, ElementNotInteractableException):
                    pass
            if found:
                return found
            assert time.monotonic() < until, f"under way: {busy}\n" + self.js("return document.body.innerText")
            time.sleep(0.05)

    # ---- doing

    def version(self):
        return int(self.data("version"))

    def shown(self, version):
        """Waits until the map and the numbers are those of a version."""
        self.wait(lambda: min(int(self.data(one) or 0) for one in ("mapVersion", "version", "whole")) >= version)

    def run(self, line):
        """Types a line and gives its answer. Where it is accepted, everything is brought up to date first."""
        before = self.wait(self.version)
        field = self.find("line")
        field.clear()
        field.send_keys(line, Keys.ENTER)
        answer = self.answer(line)
        if answer == "ok":
            self.shown(before + 1)
        return answer

    def step_of_line(self):
        """Runs what stands in the command line."""
        before = self.wait(self.version)
        self.find("line").send_keys(Keys.ENTER)
        self.shown(before + 1)

    def answer(self, line=None):
        """The last answer."""

        def told():
            found = self.js("const one = document.querySelector('#log li'); return one ? [...one.children].map((part) => part.firstChild.textContent) : null")
            return found[1] if found and found[1] != ".." and (line is None or found[0] == line) else None

        return self.wait(told)

    def click(self, id):
        """Clicks on something once it is there to be clicked on."""

        def clicked():
            one = self.find(id)
            if not (one.is_displayed() and one.is_enabled()):
                return False
            one.click()
            return True

        self.wait(clicked)

    def double_click(self, selector):
        """Two clicks on an element that are one double click, however long the driver waits for a processor between them."""
        self.rest()
        x, y = self.js("const one = document.querySelector(arguments[0]); one.scrollIntoView({block: 'nearest'});"
                       "const {left, top, width, height} = one.getBoundingClientRect(); return [left + width / 2, top + height / 2]", selector)
        for count in (1, 2):
            for kind in ("mousePressed", "mouseReleased"):
                self.browser.execute_cdp_cmd("Input.dispatchMouseEvent", {"type": kind, "x": x, "y": y, "button": "left", "clickCount": count})

    def step(self, id):
        """Clicks on something that makes a new version."""
        before = self.wait(self.version)
        self.click(id)
        self.shown(before + 1)

    def tab(self, name):
        self.click(f"tab-{name}")

    def map_tab(self, name):
        self.tab(name)
        self.wait(lambda: self.data("mapKind") == name)

    def drag(self, cells, room=(12, 8)):
        """Draws a rectangle on the map from one cell to another, each a row and a column; so many pixels around their middles."""
        self.rest()
        place = "const gd = document.getElementById('plot-now'); const {xaxis: x, yaxis: y} = gd._fullLayout; const room = gd.getBoundingClientRect();"
        at = [self.js(f"{place} return [room.left + x._offset + x.d2p(arguments[1]), room.top + y._offset + y.d2p(arguments[0])]", *cell) for cell in cells]
        (x0, y0), (x1, y1) = [(round(x), round(y)) for x, y in at]
        chain = ActionChains(self.browser)
        chain.w3c_actions.pointer_action.move_to_location(x0 - room[0], y0 + room[1])
        chain.w3c_actions.pointer_action.pointer_down()
        chain.w3c_actions.pointer_action.move_to_location((x0 + x1) // 2, (y0 + y1) // 2)
        chain.w3c_actions.pointer_action.move_to_location(x1 + room[0], y1 - room[1])
        chain.w3c_actions.pointer_action.pointer_up()
        chain.perform()
        self.wait(lambda: self.find("offers").is_displayed())

    def brush(self, start, end, axis="yaxis"):
        """Draws a rectangle on the graph from one place to another, each a number to the right and one upwards on this axis."""
        self.rest()
        self.js("document.getElementById('graph').scrollIntoView({block: 'center'})")
        place = f"const gd = document.getElementById('plot-graph'); const {{xaxis: x, {axis}: y}} = gd._fullLayout; const room = gd.getBoundingClientRect();"
        at = [self.js(f"{place} return [room.left + x._offset + x.d2p(arguments[0]), room.top + y._offset + y.d2p(arguments[1])]", *one) for one in (start, end)]
        (x0, y0), (x1, y1) = [(round(x), round(y)) for x, y in at]
        chain = ActionChains(self.browser)
        chain.w3c_actions.pointer_action.move_to_location(x0, y0)
        chain.w3c_actions.pointer_action.pointer_down()
        chain.w3c_actions.pointer_action.move_to_location((x0 + x1) // 2, (y0 + y1) // 2)
        chain.w3c_actions.pointer_action.move_to_location(x1, y1)
        chain.w3c_actions.pointer_action.pointer_up()
        chain.perform()

    def press(self, selector):
        """Clicks on an element by the page itself, also where it is out of sight."""
        self.js("document.querySelector(arguments[0]).click()", selector)

    def picture(self, id, name, tmp_path):
        """A picture of a part of the page, for the documents: the folder SEGYWB_PICTURES gets it. The file stands in /surveys there."""
        self.js("""const [id, here] = arguments; document.activeElement.blur();
            const walk = document.createTreeWalker(document.getElementById(id), NodeFilter.SHOW_TEXT);
            while (walk.nextNode()) walk.currentNode.data = walk.currentNode.data.replaceAll(here, '/surveys');
            for (const one of document.querySelectorAll(`#${id} input:not([type=file])`)) one.value = one.value.replaceAll(here, '/surveys')""", id, str(tmp_path))
        folder = os.environ.get("SEGYWB_PICTURES") or str(tmp_path.parent)
        assert self.find(id).screenshot(f"{folder}/desk-{name}.png")

    def graph(self):
        """The fields of the graph with their numbers, and the numbers of their traces."""
        return self.js("return document.getElementById('plot-graph').data.map(({name, x, y}) => [name || '', x, y])")

    def hovered(self, row, column, text):
        """Waits until the pointer over a cell tells this; it is moved now and then."""

        def told():
            self.hover(row, column)
            until = time.monotonic() + 2
            while time.monotonic() < until and self.text("tip") != text:
                time.sleep(0.05)
            return self.text("tip") == text and self.find("tip").is_displayed()

        self.wait(told)

    def hover(self, row, column):
        place = "const gd = document.getElementById('plot-now'); const {xaxis: x, yaxis: y} = gd._fullLayout; const room = gd.getBoundingClientRect();"
        x, y = self.js(f"{place} return [room.left + x._offset + x.d2p(arguments[1]), room.top + y._offset + y.d2p(arguments[0])]", row, column)
        chain = ActionChains(self.browser)
        for by in (3, 0):
            chain.w3c_actions.pointer_action.move_to_location(round(x) + by, round(y) + by)
        chain.perform()
