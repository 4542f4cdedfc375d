"""Mends: dry, over the files, below a folder; the trail, verify and undo."""

import hashlib
import os
import shutil
import sqlite3

import files
import pytest
from conftest import TOP, as_nobody, library, reachable, rows, settle

from segywb.library import trail

FIX = "renumber 5 8 inline 102 0\nfaults\n"
SETS = "set 5 inline 102\n# why\nset 6 inline 103\nset 6 inline 102\nbin job 77\n"
WRONG = "name IN ('wrong_line.sgy', 'float_line.sgy')"


def digest(path):
    return hashlib.sha256(path.read_bytes()).hexdigest()


def contents(folder):
    """The digests of all files below a folder, by their paths."""
    return {path: digest(path) for path in folder.rglob("*") if path.is_file()}


@pytest.fixture
def room(few, tmp_path):
    """The example files with their database, a script in a file, and a call of mend."""
    database = tmp_path / "lib.db"
    library("scan", "--db", database, few)

    class Room:
        folder, db, keep = few, database, tmp_path / "keep"

        def mend(self, script, where, *words, status=0):
            (tmp_path / "fix.txt").write_text(script)
            return library("mend", "--db", database, "--script", tmp_path / "fix.txt", "--where", where, *words, status=status)

        def events(self, run):
            return rows(database, "SELECT event FROM trail WHERE mend = ? AND event != 'begun' ORDER BY target", run)

    return Room()


def test_dry(room):
    """Nothing is written, to no file and not to the database; what would be done is told by file."""
    before, data = contents(room.folder), room.db.read_bytes()
    told = room.mend(FIX, "name IN ('wrong_line.sgy', 'survey.sgy', 'swapped.sgy', 'cube.sgy')", "--over", status=1).splitlines()
    assert told[0] == "The old bytes are not kept: undo CANNOT take this back. --keep FOLDER keeps them."
    assert told[1:6] == [
        f"{room.folder}/cube.sgy: nothing to change", "    ok", "    faults 0",
        f"{room.folder}/survey.sgy: refused, it stays as it is", "    line 1, renumber 5 8 inline 102 0: refused E01 no trace 5 of 3",
    ]
    assert f"{room.folder}/swapped.sgy: 4 bytes would change" in told
    assert f"{room.folder}/wrong_line.sgy: 4 bytes would change\n    ok\n    faults 0" in "\n".join(told)
    assert told[-2:] == ["4 files: 2 would be mended (8 bytes), 1 refused, 1 with nothing to change, 0 left, 0 failed", "Nothing was written: --apply does it."]
    assert contents(room.folder) == before and room.db.read_bytes() == data
    assert room.mend(FIX, WRONG, "--over", "--dry-run", "--quiet").count("\n") == 3 and contents(room.folder) == before


def test_over_with_kept_bytes(room):
    """The files are mended, their rows are those of the new bytes, the trail has both digests; undo brings the old ones back."""
    before = contents(room.folder)
    assert "undo can take this back" in room.mend(FIX, WRONG, "--over", "--keep", room.keep, "--apply")
    assert digest(room.folder / "wrong_line.sgy") == digest(TOP / "examples" / "cube.sgy")
    query = "SELECT event, before_sha256, after_sha256, bytes_changed, status, answers FROM trail WHERE target = ? ORDER BY id"
    digests = before[room.folder / "wrong_line.sgy"], digest(room.folder / "wrong_line.sgy")
    told = rows(room.db, query, str(room.folder / "wrong_line.sgy"))
    assert told == [("begun", *digests, 4, None, "ok\nfaults 0"), ("saved", *digests, 4, 0, "ok\nfaults 0")]
    run = rows(room.db, "SELECT kind, script, script_sha256, condition, keep FROM mend")[0]
    assert run == ("mend", FIX.encode(), hashlib.sha256(FIX.encode()).hexdigest(), WRONG, str(room.keep))
    assert rows(room.db, f"SELECT count(*) FROM problem JOIN file ON file.id = file WHERE {WRONG}") == [(0,)]
    settle()
    library("scan", "--db", room.db, room.folder)
    assert library("scan", "--db", room.db, room.folder).startswith("0 files read")
    assert library("verify", "--db", room.db) == "2 files are what the trail says, 0 are not\n"
    told = library("undo", "--db", room.db, "--run", "1")
    assert "2 from the bytes that were kept" in told and "Nothing was written" in told and contents(room.folder) != before
    library("undo", "--db", room.db, "--run", "1", "--apply")
    assert contents(room.folder) == before
    assert rows(room.db, f"SELECT sum(count) FROM problem JOIN file ON file.id = file WHERE {WRONG}") == [(8,)]
    assert library("verify", "--db", room.db) == "2 files are what the trail says, 0 are not\n"
    told = library("undo", "--db", room.db, "--run", "1", "--apply")
    assert told.count("run 2 took it back") == 2 and "0 not, 2 done before\nNothing was written.\n" in told


def test_kept_bytes_are_bytes_of_the_old_file(room):
    """Under their digest, also where they cannot be linked, and where an older copy there is damaged."""
    old = digest(room.folder / "wrong_line.sgy")
    kept = room.keep / old[:2] / f"{old}.sgy"
    kept.parent.mkdir(parents=True)
    kept.write_bytes(b"damaged")
    room.mend(FIX, "name = 'wrong_line.sgy'", "--over", "--keep", room.keep, "--apply")
    assert digest(room.folder / "wrong_line.sgy") == digest(TOP / "examples" / "cube.sgy") and digest(kept) == old
    assert "1 from the bytes that were kept" in library("undo", "--db", room.db, "--run", "1")
    kept.write_bytes(b"damaged once more")
    assert "not kept any more" in library("undo", "--db", room.db, "--run", "1", "--apply", status=1)


def test_kept_bytes_that_cannot_be_linked(room, monkeypatch):
    """As on another disk: they are copied by the program."""
    def refused(*words, **more):
        raise OSError(18, "Invalid cross-device link")

    monkeypatch.setattr(os, "link", refused)
    before = contents(room.folder)
    room.mend(FIX, WRONG, "--over", "--keep", room.keep, "--apply")
    assert contents(room.folder) != before and len(contents(room.keep)) == 2
    library("undo", "--db", room.db, "--run", "1", "--apply")
    assert contents(room.folder) == before
    (room.folder / "wrong_line.sgy").touch()
    settle()
    library("scan", "--db", room.db, room.folder)
    monkeypatch.setattr(os, "makedirs", refused)
    (room.keep / "gone").mkdir()
    assert "failed: Invalid cross-device link" in room.mend(FIX, "name = 'wrong_line.sgy'", "--over", "--keep", room.keep / "new", "--apply", status=1)
    assert contents(room.folder) == before


def test_sets_are_taken_back_by_their_numbers(room):
    before = contents(room.folder)
    assert "All edits set numbers" in room.mend(SETS, WRONG, "--over", "--apply")
    reverse = rows(room.db, "SELECT DISTINCT reverse FROM trail WHERE event = 'saved'")
    assert reverse == [("bin job 0\nset 6 inline 103\nset 6 inline 101\nset 5 inline 101\n",)]
    assert contents(room.folder) != before
    assert "2 by the script of their old numbers" in library("undo", "--db", room.db, "--run", "1")
    library("undo", "--db", room.db, "--run", "1", "--apply")
    assert contents(room.folder) == before


def test_one_mend_above_another(room):
    """They are taken back in turn, the last first."""
    before = contents(room.folder)
    room.mend("set 5 inline 102\n", WRONG, "--over", "--apply")
    between = contents(room.folder)
    room.mend("renumber 5 8 inline 102 0\n", WRONG, "--over", "--apply", "--keep", room.keep)
    assert "run 2 changed it later: take that back first" in library("undo", "--db", room.db, "--run", "1", "--apply", status=1)
    library("undo", "--db", room.db, "--run", "2", "--apply")
    assert contents(room.folder) == between
    library("undo", "--db", room.db, "--run", "1", "--apply")
    assert contents(room.folder) == before


def test_what_cannot_be_taken_back(room):
    """It is said before it is done, and again when it is asked for."""
    assert "undo CANNOT take this back" in room.mend(FIX, "name = 'wrong_line.sgy'", "--over", "--apply")
    mended = contents(room.folder)
    for words in ((), ("--apply",)):
        assert "its old bytes were not kept" in library("undo", "--db", room.db, "--run", "1", *words, status=1)
    assert contents(room.folder) == mended
    room.mend(SETS, "name = 'twice.sgy'", "--over", "--apply")
    (room.folder / "twice.sgy").write_bytes((room.folder / "cube.sgy").read_bytes())
    told = library("undo", "--db", room.db, "--run", "2", "--apply", status=1)
    assert "it is not what the run made of it" in told
    assert digest(room.folder / "twice.sgy") == digest(room.folder / "cube.sgy")
    assert "there is no run 9" in library("undo", "--db", room.db, "--run", "9", status=2)


def test_below_a_folder(room, tmp_path):
    """As the files lie below the folder that was scanned; none that is there is written over, and the files stay."""
    (room.folder / "in ner").mkdir()
    shutil.copy(room.folder / "wrong_line.sgy", room.folder / "in ner")
    settle()
    library("scan", "--db", room.db, room.folder)
    before = contents(room.folder)
    out = tmp_path / "fixed"
    room.mend(FIX, WRONG, "--out", out, "--apply")
    assert contents(room.folder) == before
    assert sorted(str(path.relative_to(out)) for path in out.rglob("*.sgy")) == ["float_line.sgy", "in ner/wrong_line.sgy", "wrong_line.sgy"]
    assert digest(out / "in ner" / "wrong_line.sgy") == digest(TOP / "examples" / "cube.sgy")
    told = room.mend(FIX, WRONG, "--out", out, "--apply")
    assert told.count("run 1 has done it already") == 3 and room.events(2) == [("left",)] * 3
    told = room.mend(FIX, WRONG, "--out", out, "--apply", "--twice", status=1)
    assert told.count("left: there is a file") == 3 and room.events(3) == [("left",)] * 3
    assert library("verify", "--db", room.db) == "3 files are what the trail says, 0 are not\n"
    (out / "wrong_line.sgy").write_bytes(b"other")
    (out / "float_line.sgy").unlink()
    told = library("verify", "--db", room.db, status=1)
    assert f"{out}/wrong_line.sgy: differs: the trail (run 1) has" in told and f"{out}/float_line.sgy: is gone" in told
    assert "changed no file" in library("undo", "--db", room.db, "--run", "1", status=2)


def test_two_files_for_one_path(few, tmp_path):
    """Files of two folders that would be saved to one path: nothing is run."""
    other = tmp_path / "other"
    shutil.copytree(few, other)
    settle()
    database = tmp_path / "lib.db"
    library("scan", "--db", database, few, other)
    (tmp_path / "fix.txt").write_text(FIX)
    told = library("mend", "--db", database, "--script", tmp_path / "fix.txt", "--where", WRONG, "--out", tmp_path / "out", "--apply", status=2)
    assert "would be saved to one path" in told and not (tmp_path / "out").exists()


@pytest.mark.parametrize("where", [
    "nam = 7", "name = 'cube.sgy", "name = 'cube.sgy'; DROP TABLE file", "1) ; DELETE FROM trail; --", "load_extension('x') = 1", "", " -- all",
    "1) UNION SELECT path FROM file WHERE (1", "(SELECT 1 FROM other.file)", "id IN (DELETE FROM file RETURNING id)", "writefile('x', 'y') = 1",
])
def test_a_wrong_condition(room, where):
    """It is told, and nothing runs; the condition can write nothing."""
    before, data = contents(room.folder), room.db.read_bytes()
    told = room.mend(FIX, where, "--over", "--apply", status=2)
    assert "segywb-library: --where: " in told and "nothing was run" in told
    assert contents(room.folder) == before and room.db.read_bytes() == data


@pytest.mark.parametrize(("where", "count"), [
    ("1", 12), ("traces > 12 -- more", 1), ("id IN (SELECT file FROM problem WHERE code = 'F6')", 3), ("0", 0),
    ("EXISTS (SELECT 1 FROM header WHERE header.file = file.id AND field = 'scalar' AND least != greatest)", 0),
])
def test_conditions(room, where, count):
    (room.folder / "fix.txt").write_text("count\n")
    told = library("mend", "--db", room.db, "--script", room.folder / "fix.txt", "--where", where, "--over", "--quiet")
    assert f"\n{count} files: 0 would be mended (0 bytes), 0 refused, {count} with nothing to change" in told


def test_a_refused_line(room):
    """It leaves the file as it is; with --go-on the file is saved without it."""
    before = contents(room.folder)
    script = "set 1 inline 7\nset 99 inline 7\nset 2 inline 7\n"
    told = room.mend(script, "name = 'cube.sgy'", "--over", "--apply", status=1)
    assert "refused, it stays as it is\n    ok\n    line 2, set 99 inline 7: refused E01 no trace 99 of 12" in told
    assert contents(room.folder) == before and room.events(1) == [("refused",)]
    told = room.mend(script, "name = 'cube.sgy'", "--over", "--apply", "--go-on")
    assert "CANNOT" in told and "2 bytes changed" in told
    assert library("verify", "--db", room.db) == "1 files are what the trail says, 0 are not\n"


def test_a_refused_file(room):
    """The condition may choose it; the program refuses it, and the trail says so. A reading that takes it mends it."""
    little = room.folder / "little.sgy"
    data = bytearray(files.cube(little).read_bytes())
    for place in (3216, 3220, 3224, 3502):
        data[place:place + 2] = data[place:place + 2][::-1]
    little.write_bytes(data)
    settle()
    library("scan", "--db", room.db, room.folder)
    assert rows(room.db, "SELECT refusal FROM file WHERE name = 'little.sgy'") == [("L08",)]
    told = room.mend("bin job 7\n", "refusal = 'L08'", "--over", "--apply", status=1)
    assert "load refused L08" in told and room.events(1) == [("refused",)] and little.read_bytes() == data
    told = room.mend("bin job 7\n", "refusal = 'L08'", "--over", "--order", "little", status=0)
    assert "1 would be mended (1 bytes)" in told


def test_a_file_that_changed_since_the_scan(room):
    (room.folder / "wrong_line.sgy").write_bytes((room.folder / "cube.sgy").read_bytes())
    (room.folder / "float_line.sgy").unlink()
    before = contents(room.folder)
    told = room.mend(FIX, WRONG, "--over", "--apply", status=1)
    assert "left: it has changed since it was scanned: scan again" in told and "left: No such file" in told
    assert contents(room.folder) == before and room.events(1) == [("left",), ("left",)]


def test_names_that_the_program_does_not_save_to(few, tmp_path):
    """A path that is not UTF-8 is read by a scan, and left by a mend."""
    odd = os.fsencode(few) + b"/not \xff.sgy"
    with open(odd, "wb") as file:
        file.write((few / "wrong_line.sgy").read_bytes())
    hard = few / "two\nlines 'and' \"quotes\".sgy"
    shutil.copy(few / "wrong_line.sgy", hard)
    settle()
    database = tmp_path / "lib.db"
    library("scan", "--db", database, few)
    (tmp_path / "fix.txt").write_text(FIX)
    words = ["mend", "--db", database, "--script", tmp_path / "fix.txt", "--where", "name LIKE 'not%' OR name LIKE 'two%'", "--over", "--apply"]
    told = library(*words, "--keep", tmp_path / "keep", status=1)
    assert "not \\xff.sgy: left: its path is not UTF-8" in told and "two\\nlines" in told
    assert digest(hard) == digest(TOP / "examples" / "cube.sgy")
    library("undo", "--db", database, "--run", "1", "--apply")
    assert digest(hard) == digest(TOP / "examples" / "wrong_line.sgy")


def test_traces_in_and_out(room):
    """A mend that changes the length; undo from the kept bytes."""
    before = contents(room.folder)
    told = room.mend("delete 5\n", "name = 'twice.sgy'", "--over", "--keep", room.keep, "--apply")
    assert "and the file is 250 bytes shorter" in told and digest(room.folder / "twice.sgy") == digest(room.folder / "cube.sgy")
    library("undo", "--db", room.db, "--run", "1", "--apply")
    assert contents(room.folder) == before


def test_a_folder_that_may_only_be_read(room, tmp_path):
    """The program says why it saves nothing there; the file is as it was, and the trail says so."""
    if not reachable(tmp_path):
        pytest.skip("this is not root, or another user cannot read the package")
    (tmp_path / "fix.txt").write_text(FIX)
    for path in (tmp_path, room.db):
        path.chmod(0o777)
    room.folder.chmod(0o555)
    before = contents(room.folder)
    words = ["mend", "--db", room.db, "--script", tmp_path / "fix.txt", "--where", WRONG, "--over", "--apply", "--quiet"]
    done = as_nobody(*words)
    assert done.returncode == 1 and "2 failed" in done.stdout, done
    assert contents(room.folder) == before and room.events(1) == [("failed",), ("failed",)]
    assert "Permission denied" in rows(room.db, "SELECT told FROM trail WHERE event = 'failed'")[0][0]
    assert library("verify", "--db", room.db) == "2 files are what the trail says, 0 are not\n"
    done = as_nobody(*words, "--keep", tmp_path / "keep")
    assert done.returncode == 1 and contents(room.folder) == before


def test_the_trail_is_only_added_to(room):
    room.mend(SETS, WRONG, "--over", "--apply")
    connection = sqlite3.connect(room.db)
    for query in ("DELETE FROM trail", "UPDATE trail SET event = 'left'", "DELETE FROM mend", "UPDATE mend SET user = 'nobody'"):
        with pytest.raises(sqlite3.IntegrityError, match="only added to"):
            connection.execute(query)
    connection.close()


def test_a_file_that_changes_during_the_mend(room, wrapped):
    """Another program writes into it between the trial and the save: it is not saved."""
    program = wrapped(f'case "$*" in *--session*wrong_line*) ;; *wrong_line*--session*) printf x >> {room.folder}/wrong_line.sgy ;; esac')
    (room.folder / "fix.txt").write_text(FIX)
    words = ["mend", "--db", room.db, "--script", room.folder / "fix.txt", "--where", WRONG, "--over", "--apply"]
    told = library(*words, SEGYWB=program, status=1)
    assert "wrong_line.sgy: left: " in told and (room.folder / "wrong_line.sgy").read_bytes().endswith(b"x")
    assert digest(room.folder / "float_line.sgy") != digest(TOP / "examples" / "float_line.sgy")


def test_the_command_line(room, tmp_path):
    assert "one of them" in room.mend(FIX, "1", status=2)
    assert "one of them" in room.mend(FIX, "1", "--over", "--out", tmp_path, status=2)
    assert "--keep is for --over" in room.mend(FIX, "1", "--out", tmp_path, "--keep", tmp_path, status=2)
    assert "there is no" in library("verify", "--db", tmp_path / "none.db", status=4)


def test_the_report_has_the_mends(room, tmp_path):
    room.mend(SETS, WRONG, "--over", "--apply")
    library("report", "--db", room.db, "--out", tmp_path / "page.html")
    assert "float_line.sgy" in (tmp_path / "page.html").read_text() and "<td>mend</td>" in (tmp_path / "page.html").read_text()


def test_the_report_tells_what_was_not_done(room, tmp_path):
    """Refused and left files with the reason; what an earlier run has done is no trouble."""
    room.mend("delete 12\n", "name IN ('cube.sgy', 'survey.sgy')", "--over", "--apply", status=1)
    room.mend("delete 12\n", "name = 'cube.sgy'", "--over", "--apply")
    library("report", "--db", room.db, "--out", tmp_path / "page.html")
    text = (tmp_path / "page.html").read_text()
    assert "<summary>refused, left or failed: 1 files</summary>" in text and "line 1, delete 12" in text
    number = '<td class="number">{}</td>'.format
    for saved, done, refused in ((1, 0, 1), (0, 1, 0)):
        assert "".join(map(number, (saved, 0, done, 0, refused, 0))) in text


def test_a_disk_that_does_not_tell_what_was_saved(room, monkeypatch):
    """The trail stays open there, and verify closes it."""
    from segywb.library import mend

    whole = mend.reading.digest

    def broken(path):
        if path.endswith(b"wrong_line.sgy"):
            raise OSError(5, "Input/output error")
        return whole(path)

    with monkeypatch.context() as patch:
        patch.setattr(mend.reading, "digest", broken)
        told = room.mend(FIX, WRONG, "--over", "--apply", status=1)
    assert "wrong_line.sgy: failed: whether it was saved is to be told by verify (Input/output error)" in told
    told = library("verify", "--db", room.db)
    assert "wrong_line.sgy: a run was killed here; it was saved" in told and "2 files are what the trail says, 0 are not" in told


def test_a_database_that_is_full(room, monkeypatch):
    """Nothing is saved of which the trail could not say so before."""
    before = contents(room.folder)
    whole = trail.Trail.add

    def full(self, mend, path, target, event, **more):
        if event == "begun":
            raise sqlite3.OperationalError("database or disk is full")
        whole(self, mend, path, target, event, **more)

    monkeypatch.setattr(trail.Trail, "add", full)
    assert "database or disk is full" in room.mend(FIX, WRONG, "--over", "--apply", status=4)
    assert contents(room.folder) == before
