"""A save over the file that is open, in one of two ways, and the recovery of a repair that was cut off."""

import os
import signal
import struct

import files
import pytest
from conftest import PATIENCE, TOP, wait_for
from page import Page
from selenium.webdriver.common.keys import Keys
from test_guard import asked
from test_page import SOUND
from test_readings import tried
from test_saving import MEND, expected, save

import segywb
from segywb import program, repairs
from segywb.desk import saving
from segywb.desk.desk import Desk
from segywb.errors import RepairCutOff

pytestmark = pytest.mark.skipif(not program.knows("--recover"), reason="the program is older than a repair in place")

LARGE = "import segywb.repairs\nsegywb.repairs.IN_PLACE_ABOVE = 1000"
REPLACE, REPAIR = "Replace it by a new file", "Repair it in place"


def ways(page):
    """Saves over the file that is open, and gives the buttons that are offered."""
    save(page, page.desk.path)
    page.wait(lambda: page.all("#save-why"))
    return [one.text for one in page.all("#save-said button")]


@pytest.mark.parametrize("way", ["save-in-place", "save-replace"])
def test_a_large_file_is_repaired_in_place(opened, tmp_path, way):
    page = opened("wrong_line", before=LARGE)
    path = page.desk.path
    before, inode = path.read_bytes(), os.stat(path).st_ino
    page.run(MEND)
    wanted = expected(path, f"{MEND}\n", tmp_path)
    assert ways(page) == [REPAIR, REPLACE]
    assert page.js("return document.activeElement.id") == "save-in-place"
    said = page.text("save-said")
    assert "Only the bytes that changed are written into it" in said and "undone from there" in said
    assert "First stands what is usual here: the file has 6,600 bytes, more than 1,000, and no trace moves." in said
    assert path.read_bytes() == before
    page.click(way)
    page.wait(lambda: page.all("#saved"))
    if way == "save-in-place":
        assert page.text("saved") == f"Repaired in place: {path}, 6,600 bytes." and os.stat(path).st_ino == inode
    else:
        assert page.text("saved") == f"Saved as {path}: 6,600 bytes; 4 bytes changed." and os.stat(path).st_ino != inode
    assert path.read_bytes() == wanted and sorted(os.listdir(tmp_path)) == ["expected.sgy", "wrong_line.sgy"]
    page.wait(lambda: "0 edits" in page.text("summary"))
    page.js("document.getElementById('save-box').close()")
    page.wait(lambda: page.map() == SOUND)
    assert page.run("set 1 inline 7") == "ok"
    page.step("undo")
    assert page.map() == SOUND


def test_enter_takes_what_is_usual(opened):
    page = opened("wrong_line", before=LARGE)
    inode = os.stat(page.desk.path).st_ino
    page.run(MEND)
    ways(page)
    page.find("save-in-place").send_keys(Keys.ENTER)
    page.wait(lambda: page.text("saved").startswith("Repaired in place"))
    assert os.stat(page.desk.path).st_ino == inode


def test_a_gigabyte(opened, tmp_path):
    """A file that is large in earnest: it is mended in place, and two bytes of it are others. A picture of the question is taken."""
    page = opened(files.large(tmp_path / "survey.sgy"), "--on-disk")
    path = page.desk.path
    found = os.stat(path)
    page.run("renumber 97 98 inline 101 0")
    assert ways(page) == [REPAIR, REPLACE]
    assert page.text("save-why") == "First stands what is usual here: the file has 1,007,082,000 bytes, more than 1,000,000,000, and no trace moves."
    page.picture("save-box", "save", tmp_path)
    page.find("save-path").clear()
    page.find("save-path").send_keys(str(path))
    page.click("save-in-place")
    page.wait(lambda: page.all("#saved"))
    assert os.stat(path).st_ino == found.st_ino and os.stat(path).st_blocks < found.st_blocks + 1000
    with segywb.open(path, on_disk=True) as volume:
        assert volume.inlines()[101] == 98


def test_a_small_file_is_replaced_first(opened):
    page = opened("wrong_line")
    inode = os.stat(page.desk.path).st_ino
    page.run(MEND)
    assert ways(page) == [REPLACE, REPAIR]
    assert page.js("return document.activeElement.id") == "save-replace"
    assert "in place is chosen above 1,000,000,000" in page.text("save-why") and "room for 6,600 bytes more" in page.text("save-said")
    page.click("save-in-place")
    page.wait(lambda: page.all("#saved"))
    assert os.stat(page.desk.path).st_ino == inode


def test_traces_that_moved_want_a_new_file(opened):
    page = opened("wrong_line", before=LARGE)
    page.run("delete 12")
    assert ways(page) == [REPLACE]
    assert page.text("save-why") == "Not in place: the edit 'delete 12' needs a new file: traces come, go, move or get another length."
    page.click("save-replace")
    page.wait(lambda: page.all("#saved"))
    assert page.desk.path.stat().st_size == 6350


def test_another_file_is_not_repaired(example, tmp_path, monkeypatch):
    """What is said of the file that is open means no other."""
    monkeypatch.setattr(repairs, "IN_PLACE_ABOVE", 1000)
    made = Desk(str(example("wrong_line")))
    made.load()
    made.run(MEND)
    out = tmp_path / "out.sgy"
    out.write_bytes(b"old")
    inode = os.stat(out).st_ino
    assert saving.save(made, str(out), False, True) == {"ask": str(out), "own": False}
    answer = saving.save(made, str(out), True, True)
    assert answer["repaired"] is False and os.stat(out).st_ino != inode and out.stat().st_size == 6600
    assert (saving.way(True), saving.way(False), saving.way("yes"), saving.way(None)) == (True, False, None, None)
    made.close()


def test_a_repair_that_fails_is_told(opened, tmp_path):
    """A folder stands where the journal would be made."""
    page = opened("wrong_line", before=LARGE)
    before = page.desk.path.read_bytes()
    page.run(MEND)
    ways(page)
    (tmp_path / ".wrong_line.sgy.segywb-journal-new" / "x").mkdir(parents=True)
    page.click("save-in-place")
    page.wait(lambda: page.all("#save-said .no-text"))
    assert "cannot make its journal" in page.text("save-said") and page.desk.path.read_bytes() == before
    assert "1 edit" in page.text("summary")


def torn(path, place=3788 + 4, new=b"\0\0\0\7"):
    """The inline of trace 1 (bytes 189-192 of its header) was written, and the journal has the old one."""
    return files.torn(path, [(place - 4, new)])


def cut_page(started, browser, path, *words, **more):
    desk = started(path, *words, show=True, env={"BROWSER": "true"}, **more)
    page = Page(browser, desk)
    browser.get(desk.url)
    page.wait(lambda: page.find("banner").is_displayed())
    return page


def test_a_repair_that_was_cut_off(started, browser, example, tmp_path):
    path = example("cube")
    before = path.read_bytes()
    journal = torn(path)
    page = cut_page(started, browser, path)
    browser.get_log("browser")
    assert page.data("phase") == "cut" and not page.find("main").is_displayed()
    assert page.text("banner").startswith("A repair of this file was cut off. It is neither the old file nor the edited one.")
    assert f"{path}: an earlier repair was cut off (.cube.sgy.segywb-journal); segywb {path} --recover puts the old bytes back" in page.text("banner")
    assert page.find("recover").text == "Put the old bytes back" and not page.all("#banner a")
    page.picture("banner", "recover", tmp_path)
    assert path.read_bytes() != before
    page.click("recover")
    page.wait(lambda: page.data("whole"))
    assert path.read_bytes() == before and not journal.exists() and not page.find("banner").is_displayed()
    assert page.map() == SOUND
    page.wait(lambda: "4 old bytes in 1 pieces were put back" in page.text("log"))
    assert page.run("set 1 inline 7") == "ok"
    assert page.text("log").count("were put back") == 1
    status, told = page.desk.end()
    assert status == 0 and told.splitlines() == [f"segywb-desk: {path}: an earlier repair was cut off (.cube.sgy.segywb-journal); segywb {path} --recover puts the old bytes back"]
    browser.get("about:blank")
    browser.get_log("browser")


def test_a_journal_that_is_rotten(started, browser, example):
    path = example("cube")
    journal = torn(path)
    whole = journal.read_bytes()
    journal.write_bytes(whole[:-1] + bytes([whole[-1] ^ 1]))
    before = path.read_bytes()
    page = cut_page(started, browser, path)
    for _ in range(2):
        page.click("recover")
        page.wait(lambda: page.text("recover-said").startswith("Nothing was put back: ") and page.find("recover").is_enabled())
        assert "rotten; nothing was written" in page.text("recover-said")
    assert path.read_bytes() == before and journal.exists()
    page.desk.process.send_signal(signal.SIGTERM)
    assert page.desk.process.wait(timeout=PATIENCE) == 3
    browser.get("about:blank")
    browser.get_log("browser")


def test_no_page_without_a_browser(example):
    path = example("cube")
    journal = torn(path)
    out, told, status = tried(path)
    assert (out, status, len(told)) == ("", 3, 1) and "--recover puts the old bytes back" in told[0]
    assert journal.exists()


def test_a_recovery_is_of_one_site_alone(started, example):
    """And where nothing was cut off there is nothing to recover."""
    path = example("cube")
    desk = started(path)
    own = {"Content_Type": "application/json", "Origin": f"http://127.0.0.1:{desk.port}"}
    assert wait_for(lambda: asked(desk)[0] == 200)
    status, told, _ = asked(desk, f"/{desk.token}/recover", "POST", {}, **own)
    assert status == 200 and '"ready"' in told
    assert asked(desk, f"/{desk.token}/recover", "POST", {}, Content_Type="application/json")[0] == 403


def test_a_save_that_is_cut_off(example, monkeypatch):
    """The old bytes are put back, and the accepted edits done again."""
    path = example("cube")
    before = path.read_bytes()
    made = Desk(str(path))
    made.load()
    made.run("set 1 inline 7")
    made.run("set 2 inline 8")

    def torn_save(self, *words, **more):
        torn(path)
        raise segywb.SaveFailed("the repair failed", 4, f"{repairs.TORN}\nsegywb: {path}: cannot write it (Input/output error)")

    with monkeypatch.context() as patch:
        patch.setattr(segywb.Volume, "save", torn_save)
        with pytest.raises(RepairCutOff, match="cut off"):
            saving.save(made, str(path), True, True)
    assert made.opened and path.read_bytes() != before
    made.recover()
    assert path.read_bytes() == before
    made.load()
    assert made.volume.edits == ["set 1 inline 7", "set 2 inline 8"] and made.recovered == "4 old bytes in 1 pieces were put back"
    assert [int(one) for one in made.now().mirror.columns["inline"][:3]] == [7, 8, 101]
    assert "error" not in saving.save(made, str(path), True, True)
    assert struct.unpack(">i", path.read_bytes()[3788:3792]) == (7,)
    made.close()


def test_a_save_that_is_cut_off_is_shown(opened, example):
    """A program that writes a journal and a part of the edits, and fails."""
    fails = f"""
import segywb, sys
sys.path.insert(0, {str(TOP / "python" / "tests")!r})
import files, pathlib
whole = segywb.Volume.save
def save(self, *words, **more):
    if 'in_place' not in more or not more['in_place']:
        return whole(self, *words, **more)
    files.torn(pathlib.Path(self.path), [(3788, bytes([0, 0, 0, 7]))])
    raise segywb.SaveFailed('failed', 4, {repairs.TORN!r} + '\\nsegywb: cannot write it (Input/output error)')
segywb.Volume.save = save
"""
    page = opened("cube", before=fails)
    page.may_complain = True
    page.run("set 2 inline 8")
    ways(page)
    page.click("save-in-place")
    page.wait(lambda: page.find("banner").is_displayed())
    assert not page.find("save-path").is_displayed() and "Input/output error" in page.text("banner")
    assert asked(page.desk, f"/{page.desk.token}/edits.txt")[1] == "set 2 inline 8\n" and page.one("#banner a").get_attribute("href").endswith("/edits.txt")
    page.click("recover")
    page.wait(lambda: not page.find("banner").is_displayed() and "1 edit" in page.text("summary") and "were put back" in page.text("log"))
    assert page.desk.path.read_bytes() == (TOP / "examples" / "cube.sgy").read_bytes()
    page.wait(lambda: page.map()[0] != SOUND[0])
