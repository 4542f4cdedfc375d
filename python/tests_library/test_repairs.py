"""Mends in place: the changed bytes alone are written into the files, and the trail has the same digests as of any mend."""

import json
import os

import files
import pytest
from conftest import TOP, library, rows, settle
from test_mend import FIX, SETS, WRONG, contents, digest, room  # noqa: F401

import segywb
from segywb import program
from segywb.library import change, trail

pytestmark = pytest.mark.skipif(not program.knows("--recover"), reason="the program is older than a repair in place")


def inodes(room):
    return {path.name: path.stat().st_ino for path in room.folder.glob("*.sgy")}


def test_in_place(room):
    """The files are the same ones with other bytes; the trail is that of a mend beside them, and verify and undo know no difference."""
    before, same = contents(room.folder), inodes(room)
    told = room.mend(FIX, WRONG, "--over", "--in-place")
    assert f"{room.folder}/wrong_line.sgy: 4 bytes would change, in place" in told and contents(room.folder) == before
    told = room.mend(FIX, WRONG, "--over", "--in-place", "--keep", room.keep, "--apply")
    assert f"{room.folder}/wrong_line.sgy: 4 bytes changed, in place" in told and "2 files: 2 were mended (8 bytes)" in told
    assert inodes(room) == same and digest(room.folder / "wrong_line.sgy") == digest(TOP / "examples" / "cube.sgy")
    query = "SELECT event, before_sha256, after_sha256, bytes_changed, status, answers FROM trail WHERE target = ? ORDER BY id"
    digests = before[room.folder / "wrong_line.sgy"], digest(room.folder / "wrong_line.sgy")
    assert rows(room.db, query, str(room.folder / "wrong_line.sgy")) == [("begun", *digests, 4, None, "ok\nfaults 0"), ("saved", *digests, 4, 0, "ok\nfaults 0")]
    options = json.loads(rows(room.db, "SELECT options FROM mend")[0][0])
    assert options == {"fixed": False, "order": None, "samples": None, "format": None, "texts": None, "tail": False, "go_on": False, "in_place": True}
    assert library("verify", "--db", room.db) == "2 files are what the trail says, 0 are not\n"
    assert rows(room.db, f"SELECT count(*) FROM problem JOIN file ON file.id = file WHERE {WRONG}") == [(0,)]
    kept = list(room.keep.rglob("*.sgy"))
    assert len(kept) == 2 and all(path.stat().st_nlink == 1 and path.stem == digest(path) for path in kept)
    assert not [name for name in os.listdir(room.folder) if "journal" in name]
    library("undo", "--db", room.db, "--run", "1", "--apply")
    assert contents(room.folder) == before
    assert library("verify", "--db", room.db) == "2 files are what the trail says, 0 are not\n"


def test_sets_are_taken_back_in_place(room):
    before, same = contents(room.folder), inodes(room)
    assert "All edits set numbers" in room.mend(SETS, WRONG, "--over", "--in-place", "--apply")
    assert contents(room.folder) != before and inodes(room) == same
    library("undo", "--db", room.db, "--run", "1", "--apply")
    assert contents(room.folder) == before and inodes(room) == same
    assert json.loads(rows(room.db, "SELECT options FROM mend WHERE kind = 'undo'")[0][0])["in_place"] is True


@pytest.mark.parametrize("script", ["delete 5\n", "set 1 inline 7\nmove 5 1\n", "copy 1 1\ndelete 13\n"])
def test_traces_that_move_are_saved_beside(room, script):
    same = inodes(room)
    told = room.mend(script, "name = 'cube.sgy'", "--over", "--in-place", "--apply")
    assert "in place" not in told and "1 were mended" in told
    assert {name for name, inode in inodes(room).items() if inode != same[name]} == {"cube.sgy"}
    assert library("verify", "--db", room.db) == "1 files are what the trail says, 0 are not\n"


def test_another_hard_link_keeps_the_old_bytes(room, tmp_path):
    """Also the one that a mend of before has kept."""
    old = digest(room.folder / "wrong_line.sgy")
    os.link(room.folder / "wrong_line.sgy", tmp_path / "other.sgy")
    settle()
    library("scan", "--db", room.db, room.folder)
    told = room.mend(FIX, WRONG, "--over", "--in-place", "--apply")
    assert told.count("in place") == 1 and digest(tmp_path / "other.sgy") == old
    assert digest(room.folder / "wrong_line.sgy") == digest(TOP / "examples" / "cube.sgy")


def test_a_link_that_was_kept_is_no_copy(room, monkeypatch):
    """A mend that was killed behind its link: the file has two names then, and the kept bytes stay as they are."""
    def killed(*words, **more):
        raise KeyboardInterrupt

    with monkeypatch.context() as patch:
        patch.setattr(trail.Trail, "add", killed)
        room.mend(FIX, "name = 'wrong_line.sgy'", "--over", "--keep", room.keep, "--apply", status=130)
    kept = next(room.keep.rglob("*.sgy"))
    old = digest(kept)
    assert os.path.samefile(kept, room.folder / "wrong_line.sgy")
    settle()
    library("scan", "--db", room.db, room.folder)
    told = room.mend(FIX, "name = 'wrong_line.sgy'", "--over", "--in-place", "--keep", room.keep, "--apply")
    assert "in place" not in told and digest(kept) == old != digest(room.folder / "wrong_line.sgy")


def test_go_on_in_place(room):
    same = inodes(room)
    told = room.mend("set 1 inline 7\nset 99 inline 7\n", "name = 'cube.sgy'", "--over", "--in-place", "--apply", "--go-on")
    assert "1 bytes changed, in place" in told and inodes(room) == same
    assert library("verify", "--db", room.db) == "1 files are what the trail says, 0 are not\n"


def test_the_command_line(room, tmp_path):
    assert "--in-place is for --over" in room.mend(FIX, "1", "--out", tmp_path / "out", "--in-place", status=2)
    older = tmp_path / "older"
    older.write_text("#!/bin/sh\n[ \"$1\" = --version ] && echo segywb 0\nexit 0\n")
    older.chmod(0o755)
    (tmp_path / "fix.txt").write_text(FIX)
    words = ["mend", "--db", room.db, "--script", tmp_path / "fix.txt", "--where", WRONG, "--over", "--in-place", "--apply"]
    assert "older than a repair in place" in library(*words, SEGYWB=str(older), status=2)


INLINES = [(at, b"f") for at in (4791, 5041, 5291, 5541)]  # the last bytes of the inlines of the traces 5 to 8, which the script makes 102


@pytest.mark.parametrize("written", [[(4791, b"e")], INLINES[:2], INLINES], ids=["no byte", "half of them", "all of them"])
def test_a_repair_that_was_cut_off(room, monkeypatch, written):
    """The power goes while bytes are written: the trail says so, and who recovers the file brings back what the trail has."""
    path = room.folder / "wrong_line.sgy"
    before = contents(room.folder)

    def cut(self, name, script, target, watched):
        assert target is None
        files.torn(path, written)
        raise KeyboardInterrupt

    with monkeypatch.context() as patch:
        patch.setattr(change.Maker, "save", cut)
        room.mend(FIX, "name = 'wrong_line.sgy'", "--over", "--in-place", "--apply", status=130)
    assert (digest(path) == before[path]) == (len(written) == 1) and room.events(1) == []
    assert (digest(path) == digest(TOP / "examples" / "cube.sgy")) == (written == INLINES)
    told = library("verify", "--db", room.db, status=1).splitlines()
    assert told == [
        f"{path}: a run was killed here; its repair was CUT OFF: `segywb FILE --recover` puts the old bytes back",
        f"{path}: a repair of it was cut off: `segywb FILE --recover` puts the old bytes back",
        "0 files are what the trail says, 1 are not",
    ]
    assert room.events(1) == [("failed",)]
    assert rows(room.db, "SELECT told FROM trail WHERE event = 'failed'")[0][0].endswith("was cut off: `segywb FILE --recover` puts the old bytes back")
    settle()
    library("scan", "--db", room.db, room.folder, status=1)
    told = rows(room.db, "SELECT state, trouble FROM file WHERE name = 'wrong_line.sgy'")
    assert told[0][0] == "failed" and "an earlier repair was cut off" in told[0][1]
    assert segywb.recover(path) == segywb.Recovered(len(written), len(written))
    assert contents(room.folder) == before
    assert library("verify", "--db", room.db) == "1 files are what the trail says, 0 are not\n"
    settle()
    library("scan", "--db", room.db, room.folder)
    room.mend(FIX, "name = 'wrong_line.sgy'", "--over", "--in-place", "--apply")
    assert digest(path) == digest(TOP / "examples" / "cube.sgy")


def test_the_readings_that_a_refused_file_wants(few, tmp_path, wrapped):
    """They stand in its hint, for a file by any name."""
    refusing = wrapped("""
case "$name $*" in */cube.sgy*--session*)
    printf 'load refused L13 truncated header 3\\n'
    printf 'segywb: %s: L13 truncated header 3 (the file ends inside it)\\nsegywb: %s can be read with --samples 5: 12 traces\\nsegywb: %s can be read with --samples 1500 --texts 0: 1 trace\\n' "$1" "$1" "$1" >&2
    exit 3 ;;
esac""")
    library("scan", "--db", tmp_path / "lib.db", few, SEGYWB=refusing)
    assert rows(tmp_path / "lib.db", "SELECT name, refusal, hint FROM file WHERE state = 'refused'") == [
        ("cube.sgy", "L13", "the file ends inside it; can be read with --samples 5; can be read with --samples 1500 --texts 0")
    ]


def test_the_reading_goes_to_the_program(room, wrapped, tmp_path):
    """To the trial, the save and the undo, also where it is 0."""
    log = tmp_path / "log"
    screen = wrapped(f"""
case "$*" in --help|--version) exec {program.find()} "$@" ;; esac
echo "$*" >> {log}
words=(); while [ $# -gt 0 ]; do case $1 in --samples|--format|--texts) shift 2 ;; *) words+=("$1"); shift ;; esac; done; set -- "${{words[@]}}" """)
    (tmp_path / "fix.txt").write_text(SETS)
    words = ["mend", "--db", room.db, "--script", tmp_path / "fix.txt", "--where", "name = 'wrong_line.sgy'", "--over", "--apply"]
    library(*words, "--samples", "5", "--format", "3", "--texts", "0", SEGYWB=screen)
    library("undo", "--db", room.db, "--run", "1", "--apply", SEGYWB=screen)
    assert digest(room.folder / "wrong_line.sgy") == digest(TOP / "examples" / "wrong_line.sgy")
    said = [line for line in log.read_text().splitlines() if "/proc/self/fd/" not in line.split(" --out ")[0].split(" ")[0]]
    assert len(said) == 4 and all("--samples 5 --format 3 --texts 0" in line for line in said)


@pytest.mark.skipif(not program.knows("--tail"), reason="the program is older than this reading")
def test_what_stands_behind_the_last_trace(few, tmp_path):
    """It is told by the scan, taken away by a mend, and put back by its undo, which reads as the mend did."""
    whole = (few / "cube.sgy").read_bytes()
    (few / "zeros.sgy").write_bytes(whole + bytes(100))
    (few / "torn.sgy").write_bytes(whole[:-7])
    settle()
    database, keep, script = tmp_path / "lib.db", tmp_path / "keep", tmp_path / "drop.txt"
    library("scan", "--db", database, few)
    query = "SELECT name, state, trailing_bytes, traces FROM file WHERE name IN ('zeros.sgy', 'torn.sgy') ORDER BY name"
    refused = [("torn.sgy", "refused", 243, None), ("zeros.sgy", "refused", 100, None)]
    assert rows(database, query) == refused
    assert all(hint.endswith("can be read with --tail") for hint, in rows(database, "SELECT hint FROM file WHERE refusal = 'L14'"))
    script.write_text("drop tail\nset 1 inline 7\n")
    words = ["mend", "--db", database, "--script", script, "--where", "refusal = 'L14'", "--over", "--in-place", "--keep", keep, "--apply"]
    assert "2 refused" in library(*words, status=1)
    before = contents(few)
    told = library(*words, "--tail")
    assert "in place" not in told and "2 were mended" in told
    assert (few / "zeros.sgy").stat().st_size == len(whole) and (few / "torn.sgy").stat().st_size == len(whole) - 250
    with segywb.open(few / "torn.sgy") as volume:
        assert (len(volume), volume.get(1, "inline")) == (11, 7)
    assert rows(database, query) == [("torn.sgy", "read", None, 11), ("zeros.sgy", "read", None, 12)]
    assert library("verify", "--db", database) == "2 files are what the trail says, 0 are not\n"
    assert [json.loads(one)["tail"] for one, in rows(database, "SELECT options FROM mend ORDER BY id")] == [False, True]
    library("undo", "--db", database, "--run", "2", "--apply")
    assert contents(few) == before and rows(database, query) == refused
    assert [json.loads(one)["tail"] for one, in rows(database, "SELECT options FROM mend ORDER BY id")] == [False, True, True]


@pytest.mark.skipif(not program.knows("--tail"), reason="the program is older than this reading")
def test_what_stands_behind_the_last_trace_may_stay(few, tmp_path):
    """A file is mended in place, with the bytes behind its last trace, and by the script of the old numbers taken back."""
    data = (few / "cube.sgy").read_bytes()[:-7]
    (few / "torn.sgy").write_bytes(data)
    settle()
    database, script, inode = tmp_path / "lib.db", tmp_path / "set.txt", (few / "torn.sgy").stat().st_ino
    library("scan", "--db", database, few)
    script.write_text("set 1 inline 7\n")
    told = library("mend", "--db", database, "--script", script, "--where", "name = 'torn.sgy'", "--over", "--in-place", "--apply", "--tail")
    assert "All edits set numbers" in told and "in place" in told
    now = (few / "torn.sgy").read_bytes()
    assert len(now) == len(data) and now != data and now[3600 + 11 * 250:] == data[3600 + 11 * 250:]
    library("undo", "--db", database, "--run", "1", "--apply")
    assert (few / "torn.sgy").read_bytes() == data and (few / "torn.sgy").stat().st_ino == inode
