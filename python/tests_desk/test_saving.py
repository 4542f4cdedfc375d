"""Saves, scripts, tabs, and a program that is killed under the desk."""

import asyncio
import os
import shutil
import signal
import stat
import sys
import threading
from types import SimpleNamespace

import pytest
from conftest import TOP, run, wait_for
from page import Page, watched
from selenium.webdriver.common.by import By
from segywb.desk import saving
from segywb.desk.desk import Desk
from segywb.desk.server import Server
from segywb.errors import FileChanged
from selenium.webdriver.common.keys import Keys
from test_guard import asked
from test_page import BROKEN, SOUND

MEND = "renumber 5 8 inline 102 0"


def save(page, path=None):
    page.click("save")
    field = page.find("save-path")
    if path is not None:
        field.clear()
        field.send_keys(str(path))
    field.send_keys(Keys.ENTER)


def expected(path, script, tmp_path):
    """The bytes that a run saves."""
    out = tmp_path / "expected.sgy"
    assert run(path, script, "--out", str(out))[1] == 0
    return out.read_bytes()


def test_save(opened, example, tmp_path):
    out = tmp_path / "out.sgy"
    page = opened("wrong_line", "--out", str(out))
    before = page.desk.path.read_bytes()
    page.run(MEND)
    page.run("text 3 C 3 MENDED")
    wanted = expected(page.desk.path, f"{MEND}\ntext 3 C 3 MENDED\n", tmp_path)
    changed = sum(one != other for one, other in zip(before, wanted))
    assert not out.exists()
    save(page)
    page.wait(lambda: page.all("#saved"))
    assert page.text("saved") == f"Saved as {out}: 6,600 bytes; {changed} bytes changed."
    assert out.read_bytes() == wanted and page.desk.path.read_bytes() == before
    page.find("save-go").click()
    page.wait(lambda: "There is a file already" in page.text("save-said"))
    assert sorted(os.listdir(tmp_path)) == ["expected.sgy", "out.sgy", "wrong_line.sgy"]


def test_save_asks_before_it_replaces_the_file(opened, tmp_path):
    page = opened("wrong_line")
    path = page.desk.path
    before = path.read_bytes()
    page.run(MEND)
    wanted = expected(path, f"{MEND}\n", tmp_path)
    save(page, path)
    page.wait(lambda: "This is the file that is open" in page.text("save-said"))
    assert path.read_bytes() == before
    page.click("save-replace")
    page.wait(lambda: page.all("#saved"))
    assert path.read_bytes() == wanted and path.name in page.text("saved")
    page.wait(lambda: "0 edits" in page.text("summary"))
    assert not page.find("undo").is_enabled()
    page.js("document.getElementById('save-box').close()")
    page.wait(lambda: page.map() == SOUND)
    assert page.run("delete 1") == "ok"
    page.step("undo")
    assert page.map() == SOUND


def test_a_save_that_fails(opened, tmp_path):
    page = opened("cube")
    page.run("delete 1")
    save(page, tmp_path / "nowhere" / "out.sgy")
    page.wait(lambda: page.all("#save-said .no-text"))
    assert page.text("save-said").strip() and os.listdir(tmp_path) == ["cube.sgy"]
    page.find("save-path").clear()
    page.click("save-go")
    page.wait(lambda: page.text("save-said").strip() == "no path is given")


def test_the_script(opened, tmp_path):
    page = opened("wrong_line")
    page.run(MEND)
    page.run("set 99 inline 7")
    page.run("copy 1 13")
    page.run("delete 2")
    page.step("undo")
    script = asked(page.desk, f"/{page.desk.token}/edits.txt")[1]
    assert script == f"{MEND}\ncopy 1 13\n"
    out = tmp_path / "saved.sgy"
    save(page, out)
    page.wait(lambda: page.all("#saved"))
    assert out.read_bytes() == expected(page.desk.path, script, tmp_path)
    assert "where the file had 6,600" in page.text("saved")


def test_a_script_is_loaded(opened, tmp_path):
    page = opened("wrong_line")
    page.tab("edits")
    good, bad = tmp_path / "good.txt", tmp_path / "bad.txt"
    good.write_text(f"# the repair\n\n{MEND}\ncount\ntext 3 C 3\n")
    bad.write_text("delete 1\nset 99 inline 7\ndelete 2\n")
    page.wait(lambda: page.all("#load"))
    page.find("load").send_keys(str(good))
    page.shown(2)
    assert page.map() == SOUND
    page.wait(lambda: "2 accepted edits" in page.text("panel"))
    page.find("load").send_keys(str(bad))
    page.wait(lambda: "refused E01 no trace 99 of 11" in page.text("log"))
    assert "nothing was changed" in page.text("log")
    assert page.version() == 2 and page.map() == SOUND
    page.step("undo")
    assert page.map() == BROKEN


def test_two_tabs(opened):
    page = opened("wrong_line")
    browser = page.browser
    first = browser.current_window_handle
    browser.switch_to.new_window("tab")
    watched(browser)
    try:
        other = Page(browser, page.desk)
        other.open()
        assert other.run(MEND) == "ok"
        browser.switch_to.window(first)
        page.shown(2)
        assert page.map() == SOUND
        page.step("undo")
        browser.switch_to.window(browser.window_handles[1])
        other.shown(3)
        assert other.map() == BROKEN
    finally:
        browser.switch_to.window(browser.window_handles[1])
        browser.close()
        browser.switch_to.window(first)


def test_a_program_that_is_started_anew_has_not_ended():
    """An edit that is taken back ends the program and starts another, while the pages ask how things stand."""
    desk = SimpleNamespace(alive=True, version=1, gridded=True)
    server = Server(desk, "token")
    server.status = {"phase": "ready", "version": 1}
    between, on = threading.Event(), threading.Event()

    def starts_anew():
        desk.alive = False
        between.set()
        on.wait(10)
        desk.alive = True
        return {}

    async def asked_meanwhile():
        call = asyncio.create_task(server.work(starts_anew))
        await asyncio.get_running_loop().run_in_executor(None, between.wait)
        meanwhile = server.told()["phase"]
        on.set()
        await call
        desk.alive = False
        return meanwhile, server.told()["phase"]

    assert asyncio.run(asked_meanwhile()) == ("ready", "ended")


def test_the_program_is_killed(opened, tmp_path):
    page = opened("wrong_line")
    page.may_complain = True
    page.run(MEND)
    page.run("text 3 C 3 MENDED")
    for number in page.desk.programs():
        os.kill(number, signal.SIGKILL)
    page.wait(lambda: page.find("banner").is_displayed())
    assert "The program ended" in page.text("banner") and "The accepted edits are kept" in page.text("banner")
    assert page.one("#banner a").get_attribute("href").endswith("/edits.txt")
    script = asked(page.desk, f"/{page.desk.token}/edits.txt")[1]
    assert script == f"{MEND}\ntext 3 C 3 MENDED\n"
    page.step("restart")
    page.wait(lambda: not page.find("banner").is_displayed())
    assert page.map() == SOUND
    page.tab("edits")
    page.wait(lambda: "text 3 C 3 MENDED" in page.text("panel"))
    out = tmp_path / "saved.sgy"
    save(page, out)
    page.wait(lambda: page.all("#saved"))
    assert out.read_bytes() == expected(page.desk.path, script, tmp_path)


def test_the_file_is_changed_under_the_desk(opened):
    page = opened("wrong_line")
    page.may_complain = True
    page.run(MEND)
    page.run("delete 1")
    other = page.desk.path.with_suffix(".new")
    shutil.copy(TOP / "examples" / "cube.sgy", other)
    os.replace(other, page.desk.path)
    page.click("undo")
    page.wait(lambda: page.find("banner").is_displayed())
    assert "no longer the file that was opened" in page.text("banner")
    assert asked(page.desk, f"/{page.desk.token}/edits.txt")[1] == f"{MEND}\ndelete 1\n"


@pytest.mark.parametrize("replaced", [False, True])
def test_what_was_loaded_is_not_another_file(example, tmp_path, replaced):
    """A file of the same size whose time is put back: it is not shown as the one that was loaded."""
    path = example("wrong_line")
    made = Desk(str(path))
    made.load()
    made.run(MEND)
    old, before = path.read_bytes(), os.stat(path)
    new = tmp_path / "new.sgy" if replaced else path
    new.write_bytes(old[:-1] + b"\x77")
    os.utime(new, ns=(before.st_atime_ns, before.st_mtime_ns))
    os.replace(new, path)
    assert (os.stat(path).st_size, os.stat(path).st_mtime_ns) == (before.st_size, before.st_mtime_ns)
    with pytest.raises(FileChanged):
        made.bring_original(0)
    made.close()


def test_what_was_loaded_is_shown_anew_after_a_save_over_it(example):
    path = example("wrong_line")
    made = Desk(str(path))
    made.load()
    made.run("patch 1 0 77")
    assert made.bring_original(0)["value"][0] == 11
    assert "error" not in saving.save(made, str(path), True)
    assert made.bring_original(0)["value"][0] == 77
    made.close()


def test_a_save_over_another_link_of_the_file(example, tmp_path):
    """The link is replaced, and the file that is open is as it was."""
    path, link = example("wrong_line"), tmp_path / "link.sgy"
    os.link(path, link)
    made = Desk(str(path))
    made.load()
    made.run("patch 1 0 77")
    assert saving.save(made, str(link), False) == {"ask": str(link), "own": False}
    asked_so = saving.save(made, str(path), False)
    assert (asked_so["ask"], asked_so["own"], asked_so["size"]) == (str(path), True, 6600)
    assert asked_so["in_place"]["chosen"] is False and "another hard link" in asked_so["in_place"]["why"]
    answer = saving.save(made, str(link), True)
    assert answer["own"] is False and made.bring_original(0)["value"][0] == 11 and made.loaded is not made.now()
    made.close()


def test_the_word_save_opens_the_box(opened, tmp_path):
    page = opened("wrong_line")
    page.run(MEND)
    page.find("line").send_keys(" save ", Keys.ENTER)
    page.wait(lambda: page.find("save-path").is_displayed())
    assert "1 edit" in page.text("save-box") and page.text("log").count("refused") == 0


def test_the_desk_is_ended(opened):
    page = opened("cube")
    page.may_complain = True
    status, told = page.desk.end()
    assert status == 0 and told == ""
    page.wait(lambda: "The desk has ended" in page.text("banner"))


def test_loading_is_shown(started, browser, tmp_path, example):
    """A program that takes its time behind its first answers: the page is there once the file is accepted, and before it is read."""
    slow = tmp_path / "slow"
    from segywb import program

    wait = f"while [ ! -e {tmp_path}/go ]; do sleep 0.1; done"
    slow.write_text(f"#!/bin/sh\n{{ for n in 1 2; do IFS= read -r one; printf '%s\\n' \"$one\"; done; {wait}; exec cat; }} | {program.find()} \"$@\"\n")
    slow.chmod(slow.stat().st_mode | stat.S_IXUSR)
    desk = started("wrong_line", env={"SEGYWB": str(slow)})
    page = Page(browser, desk)
    browser.get(desk.url)
    page.wait(lambda: page.text("loading-text").startswith("Reading inlines and crosslines"))
    assert page.find("progress").is_displayed() and not page.find("main").is_displayed()
    (tmp_path / "go").touch()
    page.wait(lambda: page.data("whole"))
    assert page.map() == BROKEN and not page.find("loading").is_displayed()
    (tmp_path / "go").unlink()
    again = started("wrong_line", env={"SEGYWB": str(slow)})
    assert again.end() == (0, "")
    (tmp_path / "go").touch()  # what waits in the program goes too
