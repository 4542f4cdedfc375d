"""Mends by edits of ranges and of chosen traces: in place or beside, taken back or not."""

import pytest
from conftest import library, rows
from test_mend import contents, digest, room  # noqa: F401
from test_repairs import inodes

from segywb.library import script

CUBE = "name = 'cube.sgy'"
NUMBERS = [
    ("set all delay 7 where inline = 102\n", "ok 4", 4), ("set 5 8 delay 7\n", "ok", 4), ("set all delay 7\n", "ok", 12),
    ("renumber all delay 1 1 where inline = 102 and crossline > 202\n", "ok 2", 2), ("compute all delay crossline - 200 where inline = 102\n", "ok 4", 4),
]


@pytest.mark.parametrize(("lines", "answer", "count"), NUMBERS)
def test_numbers_go_into_the_file_itself(room, lines, answer, count):
    """Their old numbers are not asked for one by one: kept bytes alone take them back, which is said beforehand."""
    before, same = contents(room.folder), inodes(room)
    told = room.mend(lines, CUBE, "--over", "--in-place")
    assert told.startswith("The old bytes are not kept: undo CANNOT take this back.") and contents(room.folder) == before
    assert f"{count} bytes would change, in place\n    {answer}\n" in told
    told = room.mend(lines, CUBE, "--over", "--in-place", "--keep", room.keep, "--apply")
    assert f"{count} bytes changed, in place" in told and inodes(room) == same and contents(room.folder) != before
    assert rows(room.db, "SELECT event, status, answers, reverse FROM trail ORDER BY id") == [("begun", None, answer, None), ("saved", 0, answer, None)]
    assert library("verify", "--db", room.db) == "1 files are what the trail says, 0 are not\n"
    library("undo", "--db", room.db, "--run", "1", "--apply")
    assert contents(room.folder) == before


@pytest.mark.parametrize(("lines", "traces"), [
    ("delete all where crossline = 204\n", 9), ("delete 3 last\n", 2), ("set all delay 7 where inline = 102\ndelete 1 last where delay = 7\n", 8),
    ("\tdelete\t1 2\n", 10), ("sort all -inline\n", 12),
])
def test_traces_that_go_are_saved_beside(room, lines, traces):
    before, same = contents(room.folder), inodes(room)
    told = room.mend(lines, CUBE, "--over", "--in-place", "--keep", room.keep, "--apply")
    assert "in place" not in told and "1 were mended" in told
    assert {name for name, inode in inodes(room).items() if inode != same[name]} == {"cube.sgy"}
    assert rows(room.db, f"SELECT traces FROM file WHERE {CUBE}") == [(traces,)]
    library("undo", "--db", room.db, "--run", "1", "--apply")
    assert contents(room.folder) == before


def test_none_is_chosen(room):
    """Nothing changes, and nothing is written."""
    before, same = contents(room.folder), inodes(room)
    told = room.mend("set all delay 7 where inline = 9\ndelete all where inline = 9\n", CUBE, "--over", "--apply")
    assert f"{room.folder}/cube.sgy: nothing to change\n    ok 0\n    ok 0\n" in told and "1 with nothing to change" in told
    assert contents(room.folder) == before and inodes(room) == same


def test_wrong_conditions_are_refused(room):
    before = contents(room.folder)
    for line, answer in (
        ("set all delay 7 where colour = 9", "refused E02 no field"), ("delete 5 where inline = 102", "refused S02 words"), ("set all delay 7 where inline =", "refused S02 words"),
        ("set all delay 32768 where inline = 102", "refused E04 does not fit"),
    ):
        told = room.mend(line + "\n", CUBE, "--over", "--apply", status=1)
        assert "refused, it stays as it is" in told and f"line 1, {line}: {answer}" in told
    assert contents(room.folder) == before


def test_a_mend_that_cannot_be_taken_back_is_not(room):
    room.mend("set all delay 7 where inline = 102\n", CUBE, "--over", "--apply")
    after = digest(room.folder / "cube.sgy")
    told = library("undo", "--db", room.db, "--run", "1", "--apply", status=1)
    assert "cube.sgy" in told and digest(room.folder / "cube.sgy") == after


def test_single_numbers_are_taken_back_as_before(room):
    """Also beside questions of chosen traces."""
    before = contents(room.folder)
    told = room.mend("set last delay 7\ncount all where delay = 7\nset 5 inline 9\nbin job 7\n", CUBE, "--over", "--apply")
    assert "All edits set numbers" in told and "    chosen 1\n" in told
    assert rows(room.db, "SELECT reverse FROM trail WHERE event = 'saved'") == [("bin job 0\nset 5 inline 102\nset last delay 0\n",)]
    library("undo", "--db", room.db, "--run", "1", "--apply")
    assert contents(room.folder) == before


@pytest.mark.parametrize(("lines", "back", "stays"), [
    ("set 5 inline 7", True, True), ("set last inline 7", True, True), ("bin job 7", True, True), ("# set all inline 7\nset 5 inline 7", True, True),
    ("set all inline 7", False, True), ("set 1 2 inline 7", False, True), ("set 1 last inline 7", False, True), ("set all inline 7 where inline = 8", False, True),
    ("set 5 inline 7\nset all inline 7", False, True), ("set 1 2 inline 7 where inline = 8", False, True), ("renumber all inline 7 0 where inline = 8", False, True),
    ("compute all inline 7", False, True), ("patch 5 0 7", False, True), ("fill 5 5 0 9 0", False, True), ("fill all 0 9 0 where inline = 8", False, True),
    ("delete 5 6", False, False), ("delete all", False, False), ("delete all where inline = 8", False, False),
    ("set 5 inline 7\n\tdelete 1 last where inline = 8", False, False), ("count all where inline = 8\ntable all inline where x > 7", True, True),
    ("extremes all where inline = 8\nfind all inline 1 2 where x < 7", True, True),
])
def test_what_a_script_is(lines, back, stays):
    made = script.of(lines.encode() + b"\n")
    assert (script.all_sets(made), script.stays(made)) == (back, stays)
