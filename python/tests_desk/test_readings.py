"""A file that is refused: what is said of it before anything is shown, and the readings that take it."""

import json
import os
import signal
import subprocess
import sys
import time

import files
import pytest
from conftest import PATIENCE, SOURCES, run, wait_for
from page import Page
from test_guard import asked, desk_of

from segywb import program
from segywb.desk import refusals, views
from segywb.desk.desk import Desk

TRUNCATED = "load refused L14 truncated trace 3"
# The reading that leaves bytes behind the last trace comes last, of a program that knows it.
TAIL = program.knows("--tail")


def behind(size):
    """What is said of it where two traces of two samples, of so many bytes each, stand in front of a third whose samples are not all there."""
    return [f"segywb-desk: with --tail it is read: 2 traces, 2 samples each, and {240 + 2 * size} bytes behind the last"] if TAIL else []


def wrong_count(path, form=3):
    """Three traces of two samples, of which the last says that it has nine: read by the binary header's number alone."""
    size = {3: 2, 4: 4, 5: 4}[form]
    traces = [files.trace(n, 1, n, [0, 0], size=size, told=9 if n == 3 else None) for n in (1, 2, 3)]
    return files.write(path, files.header(), files.binary(form=form, fixed=0), *traces)


def short(path):
    """A file that no reading takes: its last trace ends inside a sample."""
    return files.write(path, files.header(), files.binary(form=8), files.trace(1, 1, 1, [1, 2])[:-3])


def tried(path, *words):
    """Each order of what the command says: standard output, standard error and the status."""
    done = desk_of(str(path), "--no-browser", *words)
    return done.stdout, done.stderr.splitlines(), done.returncode


@pytest.mark.parametrize("form", [3, 5])
def test_the_command_names_the_reading(tmp_path, form):
    out, told, status = tried(wrong_count(tmp_path / "count.sgy", form))
    assert (out, status) == ("", 3)
    assert told[0].startswith(f"segywb-desk: {TRUNCATED} (") and told[0].endswith(")")
    assert told[1:] == ["segywb-desk: with --fixed it is read: 3 traces, 2 samples each", *behind({3: 2, 5: 4}[form])]


def test_the_hint_is_the_programs(tmp_path, example):
    for path, options in ((wrong_count(tmp_path / "count.sgy"), []), (short(tmp_path / "short.sgy"), []), (example("cube"), ["--order", "little"])):
        words = [program.find(), str(path), "--script", "/dev/null", *options]
        said = subprocess.run(words, capture_output=True, text=True, check=False).stderr.splitlines()[0]
        hint = said[len(f"segywb: {path}: "):]
        assert "(" in hint and tried(path, *options)[1][0] == f"segywb-desk: load refused {hint}"


def test_an_option_that_is_too_much(example):
    out, told, status = tried(example("cube"), "--order", "little")
    assert (out, status) == ("", 3) and "refused L08" in told[0]
    assert told[1:] == ["segywb-desk: without --order it is read: 12 traces, 5 samples each"]


def test_no_reading_takes_it(tmp_path):
    out, told, status = tried(short(tmp_path / "short.sgy"))
    assert (out, status, len(told)) == ("", 3, 1) and "refused L14" in told[0]
    (tmp_path / "junk.sgy").write_bytes(b"C" * 9999)
    assert len(tried(tmp_path / "junk.sgy")[1]) == 1
    assert tried(tmp_path)[2] == 3


def test_an_option_that_is_not_accepted(example):
    out, told, status = tried(example("cube"), "--max-bytes", "0")
    assert (out, status) == ("", 2) and "--max-bytes" in told[0]


def test_readings_are_the_smallest(tmp_path):
    path = str(wrong_count(tmp_path / "count.sgy"))
    options = {"fixed": False, "order": None, "max_bytes": None, "on_disk": False}
    last = ["with --tail"] if TAIL else []
    assert [one.words for one in refusals.readings(path, options, [{"tail": True}])] == ["with --fixed", *last]
    assert [one.words for one in refusals.readings(path, options)] == ["with --fixed"]
    assert [one.words for one in refusals.readings(path, {**options, "order": "little"})] == ["with --fixed, without --order"]
    assert [one.words for one in refusals.readings(path, {**options, "order": "big"})] == ["with --fixed"]
    assert refusals.readings(str(tmp_path), options) == []


def refused_page(started, browser, path, *words, **more):
    desk = started(path, *words, show=True, env={"BROWSER": "true"}, **more)
    page = Page(browser, desk)
    browser.get(desk.url)
    page.wait(lambda: page.find("banner").is_displayed())
    return page


@pytest.mark.parametrize("form", [3, 4, 5])
def test_the_page_offers_the_reading(started, browser, tmp_path, form):
    path = wrong_count(tmp_path / "count.sgy", form)
    page = refused_page(started, browser, path)
    assert f"The file is refused: {TRUNCATED} (" in page.text("banner")
    buttons = page.all("#banner button")
    size = {3: 2, 4: 4, 5: 4}[form]
    last = [f"Read it with --tail 2 traces of 2 samples, and {240 + 2 * size} bytes behind the last"] if TAIL else []
    assert [one.text for one in buttons] == ["Read it with --fixed 3 traces of 2 samples", *last]
    assert not page.find("main").is_displayed()
    buttons[0].click()
    page.wait(lambda: page.data("whole"))
    assert page.map() == [[1, 1, 1]] and not page.find("banner").is_displayed()
    assert page.run("renumber 1 3 inline 7 0") == "ok"
    page.step("undo")
    page.step("redo")
    page.tab("edits")
    wanted = {3: "segywb FILE --fixed --script", 4: "segywb FILE --fixed --opaque-samples --script", 5: "segywb FILE --fixed --floats --script"}[form]
    page.wait(lambda: wanted in page.text("panel"))
    out = tmp_path / "out.sgy"
    assert run(path, "renumber 1 3 inline 7 0\n", *wanted.split()[2:-1], "--out", str(out))[1] == 0
    page.click("compare")
    page.wait(lambda: page.js("return Boolean(document.getElementById('plot-was').data)"))
    status, told = page.desk.end()
    assert status == 0 and told.splitlines()[0].startswith(f"segywb-desk: {TRUNCATED} (")
    browser.get("about:blank")
    browser.get_log("browser")


def test_the_page_without_a_reading(started, browser, tmp_path):
    """The desk ends once a page has told it, and the page still tells it then."""
    page = refused_page(started, browser, short(tmp_path / "short.sgy"), before=f"import segywb.desk.cli as cli\ncli.GOODBYE_SECONDS = {PATIENCE}")
    assert "load refused L14 truncated trace 1 (" in page.text("banner") and "No reading" in page.text("banner") and not page.all("#banner button")
    assert page.desk.process.wait(timeout=PATIENCE) == 3
    page.wait(lambda: "The desk has ended" in page.text("banner"))
    assert "load refused L14 truncated trace 1 (" in page.text("banner") and "No reading" in page.text("banner") and page.find("look").is_displayed()
    browser.get("about:blank")
    browser.get_log("browser")


def test_the_refusal_is_said_before_the_address(tmp_path):
    """Both streams as one: the refusal stands first. Nothing was chosen, so the status is 3."""
    command = [sys.executable, "-u", "-m", "segywb.desk", str(wrong_count(tmp_path / "count.sgy"))]
    said = tmp_path / "said"
    with open(said, "w") as both:
        desk = subprocess.Popen(command, env={**os.environ, "PYTHONPATH": str(SOURCES), "BROWSER": "true"}, stdout=both, stderr=subprocess.STDOUT)
    wait_for(lambda: said.read_text().count("\n") >= 3 + TAIL)
    desk.send_signal(signal.SIGINT)
    assert desk.wait(timeout=PATIENCE) == 3
    lines = said.read_text().splitlines()
    assert "refused L14" in lines[0] and "with --fixed" in lines[1] and lines[2 + len(behind(2))].startswith("http://127.0.0.1:")


def test_the_file_is_open_before_the_browser_is(tmp_path, example):
    """A browser that notes when it was opened, and a program that takes its time."""
    slow, begun, seen = tmp_path / "slow", tmp_path / "begun", tmp_path / "seen"
    slow.write_text(f"#!/bin/sh\ntouch {begun}\nwhile [ ! -e {tmp_path}/go ]; do sleep 0.1; done\nexec {program.find()} \"$@\"\n")
    shown = tmp_path / "shown"
    shown.write_text(f"#!/bin/sh\necho \"$1\" > {seen}\n")
    for one in (slow, shown):
        one.chmod(0o755)
    env = {**os.environ, "PYTHONPATH": str(SOURCES), "BROWSER": f"{shown} %s", "SEGYWB": str(slow)}
    desk = subprocess.Popen([sys.executable, "-m", "segywb.desk", str(example("cube"))], env=env, stdout=subprocess.PIPE, stderr=subprocess.PIPE, text=True)
    assert wait_for(begun.exists)
    time.sleep(1.0)  # a browser that is opened without waiting for the program is opened by then
    assert not seen.exists() and desk.poll() is None
    (tmp_path / "go").touch()
    assert desk.stdout.readline().startswith("http://127.0.0.1:") and wait_for(seen.exists)
    desk.send_signal(signal.SIGINT)
    out, told = desk.communicate(timeout=PATIENCE)
    assert desk.returncode == 0 and told == ""


def test_a_reading_is_one_of_those_that_are_offered(started, tmp_path):
    desk = started(wrong_count(tmp_path / "count.sgy"), show=True, env={"BROWSER": "true"})
    own = {"Content_Type": "application/json", "Origin": f"http://127.0.0.1:{desk.port}"}
    read = f"/{desk.token}/read"
    for body in ({}, [], {"words": "with --order big"}, {"words": 7}, {"words": ["with --fixed"]}):
        assert asked(desk, read, "POST", body, **own)[0] == 400, body
    assert asked(desk, read, "POST", {"words": "with --fixed"}, Content_Type="application/json")[0] == 403
    assert json.loads(asked(desk)[1])["phase"] == "refused"
    assert asked(desk, read, "POST", {"words": "with --fixed"}, **own)[0] == 200
    assert wait_for(lambda: asked(desk)[0] == 200) and json.loads(asked(desk)[1])["traces"] == 3


def test_a_file_that_is_refused_again(tmp_path):
    """The reading that was chosen stays, and its refusal is told."""
    made = Desk(str(wrong_count(tmp_path / "count.sgy")))
    with pytest.raises(refusals.LoadRefused) as caught:
        made.open()
    told, found = made.refused(caught.value)
    assert told.startswith(TRUNCATED) and len(found) == 1 + TAIL
    made.read_as(found[0])
    (tmp_path / "count.sgy").write_bytes(b"C" * 100)
    with pytest.raises(refusals.LoadRefused):
        made.open()
    made.close()


@pytest.mark.parametrize("words, size, large", [({}, 1000, True), ({}, 10**9, False), ({"on_disk": True}, 10**9, None), ({"on_disk": False}, 1000, False)])
def test_a_large_file_stays_on_disk(example, monkeypatch, words, size, large):
    """One that is larger than half the memory, where nothing else is said."""
    monkeypatch.setattr("segywb.desk.desk.memory", lambda: size)
    made = Desk(str(example("cube")), **words)
    made.load()
    assert ("--on-disk" in made.words) == (large is not False) and made.large == bool(large) and views.state(made)["large"] == bool(large)
    assert made.volume.inlines() == {101: 4, 102: 4, 103: 4} and made.run("set 1 inline 7")["answers"][0]["text"] == "ok"
    made.close()


def test_the_page_says_that_a_file_stays_on_disk(opened):
    page = opened("cube", before="import segywb.desk.desk as desk; desk.memory = lambda: 1000")
    assert "larger than half the memory, so left on disk" in page.text("summary")
