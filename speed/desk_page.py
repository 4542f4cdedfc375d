"""Measures the desk on a file, in a browser. Each line tells the middle one of its times and the longest.

Of sections stand the milliseconds of processors beside these, of the desk, its programs and the browser: on a machine that others use they
tell more, and they are more than the time where several of these work at once.
"""

import os
import statistics
import subprocess
import sys
import time

from selenium import webdriver
from selenium.webdriver.chrome.options import Options
from selenium.webdriver.chrome.service import Service

TIMES = 7
READY = "return document.body.dataset.whole || null"
# Types a line and waits in the page: the milliseconds to its answer, and to the map that shows it.
RUN = """
const [line, edits, done] = arguments;
const field = document.getElementById("line");
const before = Number(document.body.dataset.mapVersion);
field.value = line;
const start = performance.now();
field.form.requestSubmit();
let answered = null;
const look = () => {
  const told = document.querySelector("#log .answer");
  const now = performance.now() - start;
  if (answered === null && told && told.textContent !== "..") answered = now;
  if (answered !== null && (!edits || Number(document.body.dataset.mapVersion) > before)) done([answered, now, told.textContent.slice(0, 60)]);
  else if (now > 60000) done([answered, null, "too long"]);
  else setTimeout(look, 2);
};
look();
"""


# Changes a field of the section: milliseconds until a first look at it is drawn.
DRAWN = """
const [id, value, done] = arguments;
const field = document.getElementById(id);
const paper = document.getElementById("section-canvas");
const before = paper.shown;
const frames = Number(document.body.dataset.sectionFrames || 0);
const start = performance.now();
field.value = value;
field.dispatchEvent(new Event("change"));
const look = () => {
  const said = document.getElementById("section-said").textContent;
  const now = performance.now() - start;
  const drawn = paper.shown !== before && Number(document.body.dataset.sectionFrames) > frames;
  if (said || now > 60000) done([null, said || "too long"]);
  else if (drawn) {
    window.asked = start;
    done([now, ""]);
  } else requestAnimationFrame(look);
};
look();
"""
# Milliseconds until all of it is.
WHOLE = """
const [done] = arguments;
const look = () => {
  const now = performance.now() - window.asked;
  if (now > 90000 || document.getElementById("section-canvas").shown.told.read === 1) done(now);
  else requestAnimationFrame(look);
};
look();
"""
# Turns the wheel over the section, once a picture: how many pictures a second, and the longest time between two in milliseconds.
TURNED = """
const [count, done] = arguments;
const paper = document.getElementById("section-canvas");
const { left, top, width, height } = paper.getBoundingClientRect();
let turn = 0;
let start = 0;
let last = 0;
let longest = 0;
let frames = 0;
const step = (now) => {
  if (!turn) { start = now; frames = Number(document.body.dataset.sectionFrames); }
  else longest = Math.max(longest, now - last);
  last = now;
  if (turn === count) return done([(Number(document.body.dataset.sectionFrames) - frames) / (now - start) * 1000, longest]);
  turn += 1;
  paper.dispatchEvent(new WheelEvent("wheel", { clientX: left + width / 2, clientY: top + height / 2, deltaY: turn % 60 < 30 ? -60 : 60, cancelable: true, bubbles: true }));
  requestAnimationFrame(step);
};
requestAnimationFrame(step);
"""
# Draws fields against the number of the trace, then a part of them: milliseconds until each is drawn.
GRAPHED = """
const [field, first, last, done] = arguments;
const plot = document.getElementById("plot-graph");
const count = () => (plot.data || []).length;
const wanted = count() + 1;
let start = performance.now();
document.getElementById("graph-field").value = field;
document.getElementById("graph-add").requestSubmit();
const zoomed = () => (plot.data[0].x[0] >= first ? done([whole, performance.now() - start]) : setTimeout(zoomed, 2));
let whole = null;
const look = () => {
  if (count() < wanted) return setTimeout(look, 2);
  whole = performance.now() - start;
  start = performance.now();
  Plotly.relayout(plot, { "xaxis.range[0]": first - 0.4, "xaxis.range[1]": last + 0.4 });
  return zoomed();
};
look();
"""


def wait(question, seconds=300.0):
    """Asks until the answer is there."""
    until = time.monotonic() + seconds
    while time.monotonic() < until:
        if question():
            return
        time.sleep(0.02)
    raise SystemExit("desk: took too long")


def told(name, numbers, limit, worked=()):
    """A line of the answer. ``worked`` has for each of the numbers what processors worked at it: those of the desk, of its programs, of the browser."""
    middle, most = statistics.median(numbers), max(numbers)
    more = " + ".join(f"{statistics.median(one):.0f}" for one in zip(*worked))
    print(f"{name:44s} {middle:8.0f} ms  at most {most:6.0f} ms  ({'within' if most <= limit else 'over'} {limit} ms){'; of processors ' + more + ' ms' if more else ''}", flush=True)


def spent(desk):
    """Milliseconds of processors that the desk, its programs and the browser have worked."""
    tick, found = 1000 / os.sysconf("SC_CLK_TCK"), {}
    for one in filter(str.isdigit, os.listdir("/proc")):
        try:
            with open(f"/proc/{one}/stat", encoding="utf-8", errors="replace") as file:
                words = file.read().rsplit(")", 1)[1].split()
        except OSError:
            continue
        found[int(one)] = (int(words[1]), tick * (int(words[11]) + int(words[12])), tick * (int(words[13]) + int(words[14])))
    programs = found[desk.pid][2] + sum(own for parent, own, _ in found.values() if parent == desk.pid)
    ours: set = set()
    more = {os.getpid()}
    while more:  # the browser's processes are those below this one, but for the desk
        more = {one for one, (parent, _, _) in found.items() if parent in more and one != desk.pid}
        ours |= more
    return found[desk.pid][1], programs, sum(found[one][1] for one in ours)


def measured(browser, line, edits, count=TIMES):
    """The times of a line to its answer, and to its map; ``{}`` in it is the number of the try."""
    found = []
    for at in range(count):
        wait(lambda: browser.execute_script(READY))
        answered, shown, text = browser.execute_async_script(RUN, line.format(at + 1), edits)
        if shown is None or text.startswith("refused"):
            raise SystemExit(f"desk: {line}: {text}")
        found.append((answered, shown))
    return [one for one, _ in found], [one for _, one in found]


class Drawn:
    """A change of a field of the section: the times to a first look at it, and to all of it, with what processors worked until then."""

    def __init__(self, browser, desk, id, value):
        before = spent(desk)
        self.first, why = browser.execute_async_script(DRAWN, id, value)
        if self.first is None:
            raise SystemExit(f"desk: section, {id} {value}: {why}")
        self.first_spent = [after - one for after, one in zip(spent(desk), before)]
        self.whole = browser.execute_async_script(WHOLE)
        self.whole_spent = [after - one for after, one in zip(spent(desk), before)]


def sections(browser, desk):
    """The panel of sections: lines that were not read yet, the same again under other gains, and the zoom."""
    browser.execute_script("document.querySelector('#section .to-left').click()")
    wait(lambda: browser.execute_script("return document.body.dataset.sectionVersion || null"))
    time.sleep(1)
    size = browser.execute_script(
        "const { whole, samples } = document.getElementById('section-canvas').shown.told; return [whole, samples]"
    )
    if browser.execute_script("return document.getElementById('section-of').value") == "traces":  # a line without bins
        times = [Drawn(browser, desk, "section-last", str(size[0] - at)) for at in range(1, 1 + TIMES)]
    else:
        times = [Drawn(browser, desk, "section-value", str(at)) for at in range(2, 2 + TIMES)]
    told("section of {:,} traces by {:,}, a first look".format(*size), [one.first for one in times], 300, [one.first_spent for one in times])
    told("all of it", [one.whole for one in times], 2000, [one.whole_spent for one in times])
    gains = [Drawn(browser, desk, "section-balance", one) for one in ("trace", "none", "trace", "none")]
    told("the same under another gain", [one.whole for one in gains], 300, [one.whole_spent for one in gains])
    browser.execute_script("document.getElementById('section-balance').value = 'agc'")
    agc = [Drawn(browser, desk, "section-percentile", str(at)) for at in (97, 96, 95)]
    told("the same under an AGC", [one.whole for one in agc], 300, [one.whole_spent for one in agc])
    for style in ("density", "wiggles", "both"):
        Drawn(browser, desk, "section-style", style)
        time.sleep(0.5)
        before = spent(desk)[2]
        rates = [browser.execute_async_script(TURNED, 120) for _ in range(3)]
        rate, work = statistics.median([one for one, _ in rates]), (spent(desk)[2] - before) / 360
        print(f"{'zoom by the wheel, ' + style:44s} {rate:8.0f} pictures a second, at most {max(one for _, one in rates):.0f} ms between two  ({'within' if rate >= 30 else 'over'} 30); of processors {work:.0f} ms a picture in the browser", flush=True)
    browser.execute_script("document.querySelector('#maps .to-left').click()")


def graphs(browser, count):
    """The panel of graphs: one more field of all traces, and a zoom into a part."""
    browser.execute_script("document.querySelector('#graph .to-right').click()")
    wait(lambda: browser.execute_script("return document.body.dataset.graphVersion || null"))
    for field in ("offset", "sequence_file"):
        whole, part = browser.execute_async_script(GRAPHED, field, count // 3, count // 2)
        told(f"{field} against the number of the trace", [whole], 1000)
        told("a zoom into a sixth of them", [part], 300)
        browser.execute_script("document.getElementById('graph-all').click()")
        time.sleep(1)
    browser.execute_script("document.querySelector('#side .to-right').click()")


def main(path):
    """All of it."""
    options = Options()
    for word in ("--headless=new", "--no-sandbox", "--disable-gpu", "--disable-dev-shm-usage", "--window-size=1280,900"):
        options.add_argument(word)
    browser = webdriver.Chrome(service=Service("/usr/bin/chromedriver"), options=options)
    browser.set_script_timeout(120)
    start = time.monotonic()
    desk = subprocess.Popen([sys.executable, "-m", "segywb.desk", path, "--no-browser"], stdout=subprocess.PIPE, text=True)
    try:
        browser.get(desk.stdout.readline().strip())
        wait(lambda: browser.execute_script("return document.body.dataset.mapVersion || null"))
        told("from the start to the fold map", [(time.monotonic() - start) * 1000], 5000)
        wait(lambda: browser.execute_script(READY))
        told("from the start to all of the page", [(time.monotonic() - start) * 1000], 10000)
        for line in ("get {} inline", "fold {} 7", "range x", "geometry {}"):
            told(f"{line}, to the answer", measured(browser, line, False)[0], 100)
        for line in ("set {} inline 5", "set 7 crossline {}", "renumber 1 1000 inline {} 0", "delete {}", "text 3 C 3 {}"):
            answers, maps = measured(browser, line, True)
            told(f"{line}, to the answer", answers, 100)
            told(f"{line}, to the map", maps, 500)
        wait(lambda: browser.execute_script(READY))
        graphs(browser, int(browser.execute_script("return document.getElementById('first').max")))
        sections(browser, desk)
    finally:
        browser.quit()
        desk.terminate()
        desk.wait()


main(sys.argv[1])
