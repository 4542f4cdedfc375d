"""Readings that the program names for a file that it refuses: offered, shown and declared. The program here is the real one behind a screen
that refuses each file without them."""

import json
import sys

import pytest
from conftest import wait_for
from page import Page
from test_guard import asked
from test_page import SOUND
from test_given import LOOK
from test_readings import tried

from segywb import program
from segywb.desk import refusals
from segywb.desk.desk import Desk

# Without --samples the file is refused; with it the options are left out, and `declare` is an edit of the binary header.
SCREEN = """#!{python}
import os, subprocess, sys
real, words = {real!r}, sys.argv[1:]
if words == ['--help']:
    print(subprocess.run([real, *words], capture_output=True, text=True).stdout + ' --samples --format --texts --look')
    sys.exit(0)
if '--look' in words:
    sys.stdout.write({look!r})
    sys.exit(0)
given = {{}}
for name in ('--samples', '--format', '--texts'):
    if name in words:
        at = words.index(name)
        given[name] = words[at + 1]
        del words[at:at + 2]
if given not in ({{'--samples': '5'}}, {{'--samples': '5', '--texts': '0'}}):
    print('load refused L13 truncated header 3', flush=True)
    told = 'segywb: ' + words[0] + ': L13 truncated header 3 (the file ends inside it)'
    sys.stderr.write(told + ''.join(chr(10) + 'segywb: ' + words[0] + ' can be read with ' + one for one in ('--samples 5: 12 traces', '--samples 1500: 1 trace', '--samples 5 --texts 0: 12 traces')) + chr(10))
    sys.exit(3)
program = subprocess.Popen([real, *words], stdin=subprocess.PIPE)
for line in sys.stdin.buffer:
    program.stdin.write(b'bin job 7' + chr(10).encode() if line == b'declare' + chr(10).encode() else line)
    program.stdin.flush()
program.stdin.close()
sys.exit(program.wait())
"""


@pytest.fixture
def screened(tmp_path, monkeypatch):
    """Puts the program behind that screen."""
    path = tmp_path / "screen"
    path.write_text(SCREEN.format(python=sys.executable, real=program.find(), look=LOOK))
    path.chmod(0o755)
    monkeypatch.setenv("SEGYWB", str(path))
    return path


def test_the_command_names_them(screened, example):
    out, told, status = tried(example("cube"))
    assert (out, status) == ("", 3) and told == [
        "segywb-desk: load refused L13 truncated header 3 (the file ends inside it)",
        "segywb-desk: with --samples 5 it is read: 12 traces, 5 samples each",
        "segywb-desk: with --samples 5, with --texts 0 it is read: 12 traces, 5 samples each",
    ]


def test_the_page_offers_them(screened, started, browser, tmp_path):
    desk = started("cube", show=True, env={"BROWSER": "true"})
    page = Page(browser, desk)
    browser.get(desk.url)
    page.wait(lambda: page.find("banner").is_displayed())
    assert "load refused L13 truncated header 3 (the file ends inside it)" in page.text("banner")
    assert [one.text for one in page.all("#banner button")] == [
        f"Read it with --samples 5{more} 12 traces of 5 samples" for more in ("", ", with --texts 0")
    ]
    page.one("#look summary").click()
    page.wait(lambda: "samples of a trace 1500" in page.text("look").replace("\t", " "))
    assert "byte order big, told" in page.text("look").replace("\t", " ") and "bytes left behind them 7" in page.text("look").replace("\t", " ")
    page.one("#look summary").click()
    page.picture("banner", "refused", tmp_path)
    page.all("#banner button")[1].click()
    page.wait(lambda: page.data("whole"))
    assert page.map() == SOUND and page.text("reading") == "read with --samples 5 --texts 0 Declare it in the header"
    page.tab("edits")
    page.wait(lambda: "No edits yet" in page.text("panel"))
    page.step("declare")
    assert page.answer("declare") == "ok" and not page.find("declare").is_displayed()
    assert page.text("reading").strip() == "read with --samples 5 --texts 0"
    page.wait(lambda: page.text("steps") == "declare")
    assert "segywb FILE --samples 5 --texts 0 --script gives the same file" in page.text("panel")
    page.step("undo")
    assert page.find("declare").is_displayed()
    page.click("compare")
    page.wait(lambda: page.js("return Boolean(document.getElementById('plot-was').data)"))
    assert desk.end()[0] == 0
    browser.get("about:blank")
    browser.get_log("browser")


def test_the_reading_may_be_given(screened, opened):
    page = opened("cube", "--samples", "5")
    assert page.map() == SOUND and page.text("reading") == "read with --samples 5 Declare it in the header"


def test_nothing_is_said_where_nothing_is_given(opened):
    page = opened("cube")
    assert not page.find("reading").is_displayed() and not page.find("declare").is_displayed()


def test_what_can_be_declared(screened, started, monkeypatch, opened):
    """One length for all traces too, but not the order of bytes; and nothing by a program that does not know the edit."""
    page = opened("cube", "--samples", "5", "--fixed", "--order", "big")
    assert page.text("reading") == "read with --fixed --order big --samples 5 Declare it in the header"
    made = Desk(str(page.desk.path), samples=5, order="big")
    made.load()
    made._options.update(samples=None)
    assert (made.reading, made.declarable) == (["--order", "big"], False)
    made._options.update(fixed=True)
    assert made.declarable
    made._options.update(fixed=False, texts=0)
    assert made.declarable
    monkeypatch.setattr(program, "knows", lambda option: False)
    assert not made.declarable
    made.close()


def test_a_reading_is_one_of_those_that_are_named(screened, started):
    desk = started("cube", show=True, env={"BROWSER": "true"})
    own = {"Content_Type": "application/json", "Origin": f"http://127.0.0.1:{desk.port}"}
    for words in ("with --samples 1500", "with --samples 6", "--samples 5"):
        assert asked(desk, f"/{desk.token}/read", "POST", {"words": words}, **own)[0] == 400, words
    assert asked(desk, f"/{desk.token}/read", "POST", {"words": "with --samples 5"}, **own)[0] == 200
    assert wait_for(lambda: asked(desk)[0] == 200)
    told = json.loads(asked(desk)[1])
    assert (told["reading"], told["declarable"], told["traces"]) == ("--samples 5", True, 12)


def test_hints_that_are_not_of_the_reading(example):
    """The desk finds out itself whether samples have values, and tries each reading that it offers."""
    path = str(example("cube"))
    options = {"fixed": False, "order": None, "max_bytes": None, "on_disk": False, "samples": None, "format": None, "texts": None, "tail": False}
    assert refusals.hinted(options, [{"floats": True}, {"opaque_samples": True}, {"on_disk": True}, {}]) == []
    found = refusals.readings(path, options, [{"order": "little"}, {"order": "big", "fixed": True}])
    assert [one.words for one in found] == ["with --order big, with --fixed", "with --fixed", "with --order big"]


def test_a_desk_of_a_reading(screened, example):
    made = Desk(str(example("cube")), samples=5)
    made.load()
    assert (made.reading, made.declarable, made.words) == (["--samples", "5"], True, ["--samples", "5"])
    made.run("declare")
    assert not made.declarable
    made.undo()
    assert made.declarable
    made.close()


@pytest.mark.skipif(not program.knows("--samples"), reason="the program is older than these readings")
def test_a_wrong_header_is_mended_on_the_page(started, browser, tmp_path):
    """By the real program: the refusal, the reading, the declaration and the save."""
    from test_given import wrong

    path = wrong(tmp_path / "wrong.sgy", samples=9)
    desk = started(path, show=True, env={"BROWSER": "true"})
    page = Page(browser, desk)
    browser.get(desk.url)
    page.wait(lambda: page.find("banner").is_displayed())
    assert "load refused L14" in page.text("banner") and page.find("look").is_displayed()
    next(one for one in page.all("#banner button") if one.text == "Read it with --samples 3 12 traces of 3 samples").click()
    page.wait(lambda: page.data("whole"))
    page.step("declare")
    page.click("save")
    page.find("save-path").clear()
    page.find("save-path").send_keys(str(tmp_path / "mended.sgy"))
    page.click("save-go")
    page.wait(lambda: page.all("#saved"))
    made = Desk(str(tmp_path / "mended.sgy"))
    made.load()
    assert made.reading == [] and made.volume.info.samples == 3 and len(made.volume) == 12
    made.close()
    assert desk.end()[0] == 0
    browser.get("about:blank")
    browser.get_log("browser")
