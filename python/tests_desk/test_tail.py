"""Bytes of no trace behind the last one: the reading that keeps them is offered last, they are shown, and taken away."""

import json
import sys

import files
import pytest
from conftest import run, wait_for
from page import Page
from selenium.webdriver.common.keys import Keys
from test_guard import asked
from test_page import SOUND
from test_readings import tried

from segywb import program
from segywb.desk import refusals, views
from segywb.desk.desk import Desk

# The real program behind a screen: each file is refused without --tail; with it the real one is run on the file as it is, `info` names 243 bytes
# behind the last trace, and `drop tail` is an edit of the binary header behind which it names none.
SCREEN = """#!{python}
import subprocess, sys
real, words = {real!r}, sys.argv[1:]
if words == ['--help']:
    print(subprocess.run([real, *words], capture_output=True, text=True).stdout + ' --tail')
    sys.exit(0)
if '--look' in words:
    sys.exit(subprocess.run([real, *[word for word in words if word != '--tail']]).returncode)
if '--tail' not in words:
    print('load refused L14 truncated trace 13', flush=True)
    told = 'segywb: ' + words[0]
    sys.stderr.write(told + ': L14 truncated trace 13 (the file ends 243 bytes inside trace 13)' + chr(10) + told + ' can be read with --tail: 12 traces, and what stands behind as bytes of no trace' + chr(10))
    sys.exit(3)
words.remove('--tail')
program = subprocess.Popen([real, *words], stdin=subprocess.PIPE, stdout=subprocess.PIPE)
tail = 243
for line in sys.stdin.buffer:
    if line == b'drop tail' + chr(10).encode():
        tail, line = 0, b'bin job 7' + chr(10).encode()
    program.stdin.write(line)
    program.stdin.flush()
    if line.strip() and not line.strip().startswith(b'#'):
        while True:
            told = program.stdout.readline()
            if not told:
                sys.exit(program.wait())
            if told.startswith(b'info '):
                told = told[:-1] + b' tail ' + str(tail).encode() + told[-1:]
            sys.stdout.buffer.write(told)
            if told == told[-1:]:
                break
        sys.stdout.buffer.flush()
program.stdin.close()
sys.exit(program.wait())
"""
SAID = [
    "segywb-desk: load refused L14 truncated trace 13 (the file ends 243 bytes inside trace 13)",
    "segywb-desk: with --tail it is read: 12 traces, 5 samples each, and 243 bytes behind the last",
]
KNOWN = pytest.mark.skipif(not program.knows("--tail"), reason="the program is older than this reading")


@pytest.fixture
def screened(tmp_path, monkeypatch):
    """Puts the program behind that screen."""
    path = tmp_path / "screen"
    path.write_text(SCREEN.format(python=sys.executable, real=program.find()))
    path.chmod(0o755)
    monkeypatch.setenv("SEGYWB", str(path))
    return path


def test_the_command_names_it(screened, example):
    out, told, status = tried(example("cube"))
    assert (out, status, told) == ("", 3, SAID)


def test_it_comes_last(screened, example):
    """Also where the program names it first."""
    options = {"fixed": False, "order": None, "max_bytes": None, "on_disk": False, "samples": None, "format": None, "texts": None, "tail": False}
    found = refusals.readings(str(example("cube")), options, [{"tail": True}, {"tail": True, "fixed": True}])
    assert [(one.words, one.traces, one.samples, one.tail) for one in found] == [("with --tail", 12, 5, 243), ("with --tail, with --fixed", 12, 5, 243)]
    assert refusals.hinted({**options, "tail": True}, [{"tail": True}]) == []


def test_a_desk_of_it(screened, example):
    """It is no reading that is declared."""
    made = Desk(str(example("cube")), tail=True)
    made.load()
    assert (made.reading, made.declarable, made.words) == (["--tail"], False, ["--tail"])
    state = views.state(made)
    assert (state["reading"], state["tail"]) == ("--tail", 243) and ["bytes behind the last trace", "243"] in state["numbers"]
    assert made.run("drop tail")["answers"][0]["kind"] == "edit"
    state = views.state(made)
    assert state["tail"] == 0 and ["bytes behind the last trace", "0"] in state["numbers"] and ["bytes behind the last trace", "243"] in state["loaded"]
    made.undo()
    assert views.state(made)["tail"] == 243
    made.close()


def test_a_desk_without_it(example):
    made = Desk(str(example("cube")))
    made.load()
    state = views.state(made)
    assert state["tail"] == 0 and not [name for name, _ in state["numbers"] if "behind" in name]
    made.close()


def test_the_page_offers_it(screened, started, browser):
    desk = started("cube", show=True, env={"BROWSER": "true"})
    page = Page(browser, desk)
    browser.get(desk.url)
    page.wait(lambda: page.find("banner").is_displayed())
    assert [one.text for one in page.all("#banner button")] == ["Read it with --tail 12 traces of 5 samples, and 243 bytes behind the last"]
    page.all("#banner button")[0].click()
    page.wait(lambda: page.data("whole"))
    assert page.map() == SOUND and page.text("reading") == "read with --tail Take 243 bytes behind the last trace away"
    assert page.find("drop").is_displayed() and not page.find("declare").is_displayed()
    line = page.find("line")
    line.send_keys("drop ")
    page.wait(lambda: [one.text for one in page.all("#choices .word")] == ["tail"])
    line.send_keys(Keys.TAB)
    assert line.get_attribute("value") == "drop tail " and page.text("usage").startswith("drop tail")
    line.clear()
    page.tab("edits")
    page.wait(lambda: "No edits yet" in page.text("panel"))
    page.step("drop")
    assert page.answer("drop tail") == "ok" and not page.find("drop").is_displayed()
    page.wait(lambda: page.text("steps") == "drop tail")
    assert "segywb FILE --tail --script gives the same file" in page.text("panel")
    page.step("undo")
    assert page.find("drop").is_displayed()
    assert desk.end()[0] == 0
    browser.get("about:blank")
    browser.get_log("browser")


def test_it_may_be_given(screened, opened):
    page = opened("cube", "--tail")
    assert page.map() == SOUND and page.text("reading") == "read with --tail Take 243 bytes behind the last trace away"


def test_it_stands_beside_another_reading(screened, started):
    desk = started("cube", "--fixed", show=True, env={"BROWSER": "true"})
    own = {"Content_Type": "application/json", "Origin": f"http://127.0.0.1:{desk.port}"}
    assert wait_for(lambda: json.loads(asked(desk)[1]).get("phase") == "refused")
    offered = json.loads(asked(desk)[1])["readings"]
    assert offered == [{"words": "with --tail", "traces": 12, "samples": 5, "tail": 243}]
    assert asked(desk, f"/{desk.token}/read", "POST", {"words": "with --tail"}, **own)[0] == 200
    assert wait_for(lambda: asked(desk)[0] == 200)
    told = json.loads(asked(desk)[1])
    assert (told["reading"], told["declarable"], told["tail"]) == ("--fixed --tail", program.knows("--samples"), 243)


@KNOWN
def test_a_cut_file_is_mended_on_the_page(started, browser, tmp_path):
    """By the real program: the refusal, the reading, the edit and the save."""
    path = files.cube(tmp_path / "cut.sgy")
    data = path.read_bytes()[:-7]
    path.write_bytes(data)
    desk = started(path, show=True, env={"BROWSER": "true"})
    page = Page(browser, desk)
    browser.get(desk.url)
    page.wait(lambda: page.find("banner").is_displayed())
    buttons = page.all("#banner button")
    assert buttons[-1].text == "Read it with --tail 11 traces of 3 samples, and 239 bytes behind the last"
    buttons[-1].click()
    page.wait(lambda: page.data("whole"))
    assert page.run("renumber 1 4 inline 7 0") == "ok"
    page.step("drop")
    page.click("save")
    page.find("save-path").clear()
    page.find("save-path").send_keys(str(tmp_path / "mended.sgy"))
    page.click("save-go")
    page.wait(lambda: page.all("#saved"))
    assert run(tmp_path / "mended.sgy", "count\nget 4 inline\n") == ("traces 11\nvalue 7\n", 0)
    assert path.read_bytes() == data and (tmp_path / "mended.sgy").stat().st_size == 3600 + 11 * 246
    assert desk.end()[0] == 0
    browser.get("about:blank")
    browser.get_log("browser")
