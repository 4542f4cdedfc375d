"""What loses data or misleads: files that change between a look and a save, one script run twice, Ctrl-C at a terminal, a trail with holes."""

import getpass
import hashlib
import json
import os
import random
import signal
import sqlite3
import subprocess
import sys
import time

import files
import pytest
from conftest import ENVIRONMENT, TOP, library, rows, settle, started
from test_mend import FIX, SETS, WRONG, contents, digest, room  # noqa: F401

import segywb
from segywb import program
from segywb.library import change, keeping, saves, store, trail

CUBE = TOP / "examples" / "cube.sgy"
OTHERS = b"\xd6\xe3\xc8\xc5\xd9"  # what another program writes, at the beginning of the third line of the text


def others(path):
    """A line of bash by which another program changes a file, which stays one of SEG-Y."""
    return f"printf '\\326\\343\\310\\305\\331' | dd of='{path}' bs=1 seek=160 conv=notrunc status=none"


def mend(room, script, where, *words, **more):
    (room.folder.parent / "fix.txt").write_text(script)
    return library("mend", "--db", room.db, "--script", room.folder.parent / "fix.txt", "--where", where, *words, **more)


# ---- a file that changes


@pytest.mark.parametrize("words", [(), ("--in-place",), ("--keep", "keep")], ids=["over", "in place", "kept"])
def test_a_file_that_changes_between_the_trial_and_the_save(room, wrapped, tmp_path, words):
    """Nothing is saved: the bytes of the other program stay, and the trail says that it was left."""
    path = room.folder / "wrong_line.sgy"
    words = [str(tmp_path / word) if word == "keep" else word for word in words]
    program = wrapped(f'case "$*" in *wrong_line*--save-at-end*) [ -e {tmp_path}/been ] || {{ touch {tmp_path}/been; {others(path)}; }} ;; esac')
    told = mend(room, FIX, WRONG, "--over", "--apply", *words, SEGYWB=program, status=1)
    assert "wrong_line.sgy: left: another program changed it meanwhile" in told and "1 were mended" in told
    wanted = bytearray((TOP / "examples" / "wrong_line.sgy").read_bytes())
    wanted[160:165] = OTHERS
    assert path.read_bytes() == wanted
    assert room.events(1) == [("saved",), ("left",)]
    told = library("verify", "--db", room.db, status=1)
    assert f"{path}: differs: the trail (run 1) has {digest(TOP / 'examples' / 'wrong_line.sgy')[:16]}.." in told and "\n1 files are what the trail says, 1 are not\n" in told


def test_a_file_that_comes_where_another_is_to_be_saved(room, wrapped, tmp_path):
    """Between the look and the save: it is not written over."""
    target = tmp_path / "out" / "wrong_line.sgy"
    program = wrapped(f'case "$*" in *wrong_line*--save-at-end*) echo mine > {target} ;; esac')
    told = mend(room, FIX, "name = 'wrong_line.sgy'", "--out", tmp_path / "out", "--apply", SEGYWB=program, status=1)
    assert "left: another program changed it meanwhile" in told and target.read_text() == "mine\n"


@pytest.mark.parametrize("kept", [True, False])
def test_a_file_that_changes_while_a_run_is_taken_back(room, wrapped, kept):
    """Behind the look at all files, and before its own save: the bytes of the other program stay."""
    before = contents(room.folder)
    mend(room, SETS, WRONG, "--over", "--apply", *(("--keep", room.keep) if kept else ()))
    path = room.folder / "wrong_line.sgy"
    program = wrapped(f'case "$*" in *--save-at-end*wrong_line*|*wrong_line*--save-at-end*) {others(path)} ;; esac')
    told = library("undo", "--db", room.db, "--run", "1", "--apply", SEGYWB=program, status=1)
    assert "wrong_line.sgy: left: another program changed it meanwhile" in told and "1 files were taken back" in told
    assert path.read_bytes()[160:165] == OTHERS
    now = contents(room.folder)
    assert {one for one in now if now[one] != before[one]} == {path}
    assert room.events(2) == [("saved",), ("left",)]
    assert "it is not what the run made of it" in library("undo", "--db", room.db, "--run", "1", "--apply", status=1)


def test_kept_bytes_that_change_while_a_run_is_taken_back(room, wrapped):
    """Behind the look at them: what the run made stays, rather than bytes that are neither."""
    mend(room, FIX, WRONG, "--over", "--apply", "--keep", room.keep)
    mended = contents(room.folder)
    old = digest(TOP / "examples" / "wrong_line.sgy")
    program = wrapped(f'case "$*" in *{old}*--save-at-end*) {others(room.keep / old[:2] / (old + ".sgy"))} ;; esac')
    told = library("undo", "--db", room.db, "--run", "1", "--apply", SEGYWB=program, status=1)
    assert "wrong_line.sgy: left: another program changed it meanwhile" in told and "1 files were taken back" in told
    assert digest(room.folder / "wrong_line.sgy") == mended[room.folder / "wrong_line.sgy"]
    assert "not kept any more" in library("undo", "--db", room.db, "--run", "1", status=1)


def test_bytes_that_are_not_those_of_the_scan(room):
    """Where times told nothing of a change, the digest does."""
    connection = sqlite3.connect(room.db)
    connection.execute("UPDATE file SET sha256 = 'other' WHERE name = 'wrong_line.sgy'")
    connection.commit()
    connection.close()
    before = contents(room.folder)
    assert "left: it has changed since it was scanned" in mend(room, FIX, "name = 'wrong_line.sgy'", "--over", "--apply", status=1)
    assert contents(room.folder) == before


def test_times_alone(room):
    """A file whose times have changed and whose bytes have not is what was chosen; where its script has been there it is done."""
    words = ["--over", "--apply", "--keep", room.keep]
    os.utime(room.folder / "twice.sgy")
    settle()
    assert "1 were mended" in mend(room, "delete 5\n", "name = 'twice.sgy'", *words)
    os.utime(room.folder / "twice.sgy")
    settle()
    assert "1 done before" in mend(room, "delete 5\n", "name = 'twice.sgy'", *words)
    assert digest(room.folder / "twice.sgy") == digest(CUBE)


def test_a_file_that_could_not_be_read(room, wrapped):
    """The last scan could not: it is left, and that is said."""
    failing = wrapped('case $name in */wrong_line.sgy) kill -11 $$ ;; esac')
    library("scan", "--db", room.db, "--again", room.folder, SEGYWB=failing, status=1)
    assert "left: the last scan could not read it: scan again" in mend(room, FIX, "name = 'wrong_line.sgy'", "--over", "--apply", status=1)


def test_one_file_by_two_paths(tmp_path):
    """Links and what they lead to: the script is run over it once, also in a later run."""
    folder = tmp_path / "files"
    folder.mkdir()
    (folder / "twice.sgy").write_bytes((TOP / "examples" / "twice.sgy").read_bytes())
    for name in ("link.sgy", "zlink.sgy"):
        (folder / name).symlink_to("twice.sgy")
    settle()
    database = tmp_path / "lib.db"
    library("scan", "--db", database, "--follow", folder)
    (tmp_path / "fix.txt").write_text("delete 1\n")
    words = ["mend", "--db", database, "--script", tmp_path / "fix.txt", "--over", "--apply"]
    told = library(*words, "--where", "1", status=1)
    assert told.count(f"left: it is the same file as {folder}/twice.sgy, which is chosen too") == 2 and "1 were mended" in told
    settle()
    library("scan", "--db", database, "--follow", folder)
    told = library(*words, "--where", "name LIKE '%link.sgy'", status=1)
    assert "zlink.sgy: left: it is the same file as" in told and "link.sgy: run 1 has done it already" in told
    with segywb.open(folder / "twice.sgy") as volume:
        assert len(volume) == 12 and (folder / "link.sgy").is_symlink()
    assert library("verify", "--db", database) == "1 files are what the trail says, 0 are not\n"
    assert "1 were mended" in library(*words, "--where", "name = 'link.sgy'", "--twice", "--keep", tmp_path / "keep")
    library("undo", "--db", database, "--run", "3", "--apply")
    with segywb.open(folder / "twice.sgy") as volume:
        assert len(volume) == 12 and (folder / "link.sgy").is_symlink()


# ---- a script that is run twice


def test_a_script_is_not_run_twice_over_a_file(room):
    """A mend that was ended and is started again goes on; ``--twice`` runs it once more; a mend that was taken back is done again."""
    whole = contents(room.folder)
    words = ["--over", "--apply", "--keep", room.keep]
    assert "1 were mended" in mend(room, "delete 5\n", "name = 'twice.sgy'", *words)
    once = contents(room.folder)
    told = mend(room, "delete 5\n", "name = 'twice.sgy'", *words)
    assert f"{room.folder}/twice.sgy: run 1 has done it already (--twice does it once more)\n" in told and told.count("1 done before") == 1
    assert "1 done before" in mend(room, "delete 5\n", "name = 'twice.sgy'", "--over")
    assert contents(room.folder) == once
    assert "1 would be mended" in mend(room, "delete 5\n", "name = 'twice.sgy'", "--over", "--twice")
    assert "1 would be mended" in mend(room, "delete 6\n", "name = 'twice.sgy'", "--over")
    assert "1 were mended" in mend(room, "delete 5\n", "name = 'twice.sgy'", *words, "--twice")
    assert contents(room.folder) != once
    library("undo", "--db", room.db, "--run", "3", "--apply")
    assert contents(room.folder) == once
    library("undo", "--db", room.db, "--run", "1", "--apply")
    assert contents(room.folder) == whole
    assert "1 were mended" in mend(room, "delete 5\n", "name = 'twice.sgy'", *words)


COUNT = 120


@pytest.fixture
def copies(tmp_path):
    """Many copies of a file, each a little else, and their database."""
    folder = tmp_path / "files"
    folder.mkdir()
    data = bytearray(CUBE.read_bytes())
    for number in range(COUNT):
        data[3212:3214] = number.to_bytes(2, "big")
        (folder / f"{number}.sgy").write_bytes(data)
    settle()
    library("scan", "--db", tmp_path / "lib.db", "--quiet", folder)
    return folder


def done_more(database, mend, more):
    """Waits until a run has added so many rows to the trail."""
    first, until = None, time.monotonic() + 60
    while mend.poll() is None and time.monotonic() < until:
        count = rows(database, "SELECT count(*) FROM trail")[0][0]
        first = count if first is None else first
        if count >= first + more:
            return
        time.sleep(0.002)


@pytest.mark.parametrize("words", [("--over",), ("--over", "--keep"), ("--out",)], ids=["over", "kept", "out"])
def test_killed_and_gone_on_with(copies, tmp_path, words):
    """A script that takes a trace away each time it is run: at the end each file has lost one, without a scan between."""
    database, before = tmp_path / "lib.db", contents(copies)
    (tmp_path / "fix.txt").write_text("delete 1\n")
    line = ["mend", "--db", database, "--script", tmp_path / "fix.txt", "--where", "1", "--apply", "--quiet", *words]
    line += [tmp_path / "other"] if words[-1] != "--over" else []
    dice, killed = random.Random(3), 0
    for _ in range(8):
        mend = started(*line)
        done_more(database, mend, dice.randint(1, 40))
        mend.send_signal(signal.SIGKILL)
        killed += mend.wait() == -signal.SIGKILL
    assert killed >= 5
    assert " 0 refused, 0 with nothing to change, 0 left, 0 failed" in library(*line)
    made = tmp_path / "other" if words == ("--out",) else copies
    for number in range(COUNT):
        with segywb.open(made / f"{number}.sgy") as volume:
            assert len(volume) == 11
    assert (contents(copies) == before) == (words == ("--out",))
    assert sorted(os.listdir(made)) == sorted(os.listdir(copies))
    assert f"{COUNT} files are what the trail says, 0 are not" in library("verify", "--db", database)
    assert f"{COUNT} done before" in library(*line)


# ---- Ctrl-C at a terminal, which reaches every process of it


def interrupted(words, database, more):
    """A command whose whole group of processes gets Ctrl-C behind so many rows of the trail; its status."""
    mend = started(*words, group=True)
    done_more(database, mend, more)
    if mend.poll() is None:
        os.killpg(mend.pid, signal.SIGINT)
    return mend.wait(300)


@pytest.mark.parametrize("words", [(), ("--in-place",)], ids=["over", "in place"])
def test_interrupted_at_a_terminal(copies, tmp_path, words):
    """Files that are at work come to their end, also while a run is taken back: none is cut off, none failed, and each row is that of its file."""
    database, old = tmp_path / "lib.db", contents(copies)
    (tmp_path / "fix.txt").write_text("set 1 inline 7\nset 12 inline 8\n")
    line = ["mend", "--db", database, "--script", tmp_path / "fix.txt", "--where", "1", "--over", "--apply", "--quiet", *words]
    stati = [interrupted(line, database, more) for more in (3, 20, 37, 50)]
    assert 130 in stati
    library(*line)
    runs = [number for number, in rows(database, "SELECT DISTINCT mend FROM trail WHERE event = 'saved'")]
    for run in runs:
        interrupted(["undo", "--db", database, "--run", str(run), "--apply"], database, 9)
        library("undo", "--db", database, "--run", str(run), "--apply")
    assert contents(copies) == old
    assert rows(database, "SELECT count(*) FROM trail WHERE event = 'failed'") == [(0,)]
    assert not [name for name in os.listdir(copies) if not name[0].isdigit()]
    assert rows(database, "SELECT count(*) FROM file WHERE state != 'read'") == [(0,)]
    assert f"{COUNT} files are what the trail says, 0 are not" in library("verify", "--db", database)


# ---- the trail


def test_no_row_of_the_trail_is_replaced(room):
    """SQLite's INSERT OR REPLACE would take the old row away without a word; a database of an earlier package gets the guard too."""
    connection = sqlite3.connect(room.db)
    connection.execute("DROP TRIGGER trail_insert")
    connection.close()
    mend(room, SETS, WRONG, "--over", "--apply")
    connection = sqlite3.connect(room.db)
    held = connection.execute("SELECT * FROM trail").fetchall(), connection.execute("SELECT * FROM mend").fetchall()
    for query in (
        "INSERT OR REPLACE INTO trail (id, mend, at, path, target, event) VALUES (1, 1, '', '', '', 'left')",
        "INSERT OR REPLACE INTO mend (id, kind, begun, user, host, program, program_sha256, options) VALUES (1, 'mend', '', '', '', '', '', '')",
    ):
        with pytest.raises(sqlite3.IntegrityError, match="only added to"):
            connection.execute(query)
    assert (connection.execute("SELECT * FROM trail").fetchall(), connection.execute("SELECT * FROM mend").fetchall()) == held
    connection.close()


def killed_behind_begun(room, monkeypatch, script=FIX):
    """A mend that dies between the first row of the trail and the save."""
    def killed(*words, **more):
        raise KeyboardInterrupt

    with monkeypatch.context() as patch:
        patch.setattr(saves, "save", killed)
        mend(room, script, "name = 'wrong_line.sgy'", "--over", "--apply", status=130)
    assert rows(room.db, "SELECT event FROM trail WHERE target LIKE '%wrong_line.sgy'") == [("begun",)]


def test_what_cannot_be_read_stays_open(room, monkeypatch):
    """One file of a killed run on a disk that answers errors: it is told, all others are looked at and mended, and later it is settled."""
    killed_behind_begun(room, monkeypatch)
    whole = trail.digest

    def broken(path):
        if path.endswith(b"wrong_line.sgy"):
            raise OSError(5, "Input/output error")
        return whole(path)

    with monkeypatch.context() as patch:
        patch.setattr(trail, "digest", broken)
        told = mend(room, FIX, WRONG, "--over", "--apply", status=1)
        assert "wrong_line.sgy: a run was killed here; it could not be read (Input/output error): whether it was saved is not known yet" in told
        assert "wrong_line.sgy: left: a run was killed over it" in told and "1 were mended" in told
        assert "not known yet" in library("verify", "--db", room.db, status=1)
    assert "wrong_line.sgy: a run was killed here; it is as it was" in library("verify", "--db", room.db)
    assert "1 were mended" in mend(room, FIX, "name = 'wrong_line.sgy'", "--over", "--apply")


def test_a_program_that_dies_in_the_middle_of_a_repair(room, monkeypatch):
    """The mend goes on; the file is told as one that failed, with what is to be done, and verify says so too."""
    path = room.folder / "wrong_line.sgy"
    before = contents(room.folder)

    def dies(*words):
        files.torn(path, [(4791, b"f")])
        return -9, ""

    with monkeypatch.context() as patch:
        patch.setattr(saves, "save", dies)
        told = mend(room, FIX, "name = 'wrong_line.sgy'", "--over", "--in-place", "--apply", status=1)
    assert "failed: the program ended by signal 9 in the middle of its repair: `segywb FILE --recover` puts the old bytes back" in told
    assert room.events(1) == [("failed",)]
    assert "a repair of it was cut off" in library("verify", "--db", room.db, status=1)
    segywb.recover(path)
    assert contents(room.folder) == before
    assert library("verify", "--db", room.db) == "1 files are what the trail says, 0 are not\n"


def test_who_it_was(room, monkeypatch):
    """The user of the process, not one that the environment names."""
    for name in ("LOGNAME", "USER", "LNAME", "USERNAME"):
        monkeypatch.setenv(name, "somebody")
    assert getpass.getuser() == "somebody" != store.user()
    mend(room, SETS, WRONG, "--over", "--apply")
    assert rows(room.db, "SELECT user FROM mend") == [(store.user(),)]


# ---- what is said


def test_a_late_refusal_is_told(room):
    """Behind many answers: its line, and what the trail has of it."""
    script = "# why\n" + "get 1 inline\n" * 50 + "set 99 inline 7\n"
    told = mend(room, script, "name = 'cube.sgy'", "--over", "--apply", status=1)
    assert told.count("value 101") == 20 and "    .. and 30 lines more\n    line 52, set 99 inline 7: refused E01 no trace 99 of 12\n" in told
    assert rows(room.db, "SELECT event, told FROM trail") == [("refused", "line 52, set 99 inline 7")]


def test_what_is_not_run(room, tmp_path):
    """Words that say two things, and a script that would save in its middle."""
    before = contents(room.folder)
    for words in (("--apply", "--dry-run"), ("--dry-run", "--apply")):
        assert "not allowed with argument" in mend(room, FIX, WRONG, "--over", *words, status=2)
    assert "the script has a line `save`" in mend(room, "set 1 inline 7\nsave\nset 2 inline 7\n", WRONG, "--over", "--apply", status=2)
    older = tmp_path / "older"
    older.write_text("#!/bin/sh\n[ \"$1\" = --version ] && echo segywb 0\nexit 0\n")
    older.chmod(0o755)
    assert "older than --save-at-end" in mend(room, FIX, WRONG, "--over", "--apply", SEGYWB=str(older), status=2)
    assert contents(room.folder) == before and rows(room.db, "SELECT count(*) FROM mend") == [(0,)]


# ---- the save itself


def test_pieces_end_no_line():
    """Whatever the lines are: no piece ends one, each fits a pipe, and together they are the lines that have answers."""
    dice = random.Random(2)
    for _ in range(60):
        lines = [dice.choice((b"", b" ", b"# why", b"\r", b"x", b"y" * dice.choice((7, 4094, 4095, 4096, 9000)))) for _ in range(dice.randint(0, 40))]
        made = list(saves.pieces(lines))
        assert all(0 < len(piece) <= saves.ATOMIC_BYTES and not piece.endswith(b"\n") for piece in made)
        assert b"".join(made) == b"\n" + b"".join(line + b"\n" for line in lines if line.strip() and not line.startswith(b"#")) + b"#"


DYING = """
import os, sys
from segywb import program
from segywb.library import facts, saves
path, target = sys.argv[1:]
words = [program.find(), path, "--session", "--save-at-end", "--out", target, "--stop", "--quiet"]
print("here", flush=True)
saves.save(words, [b"delete 1"], saves.Watched(path, facts.stamp(os.stat(path))), [0])
"""


def test_killed_around_a_save(tmp_path):
    """At any moment, also before the program is there: nothing is saved, or the whole edited file."""
    path, target = tmp_path / "cube.sgy", tmp_path / "new.sgy"
    path.write_bytes(CUBE.read_bytes())
    settle()
    dice, found = random.Random(6), set()
    for _ in range(40):
        holder, held = os.pipe()
        run = subprocess.Popen([sys.executable, "-c", DYING, str(path), str(target)], env=ENVIRONMENT, stdin=held, stdout=subprocess.PIPE)
        os.close(held)
        with run.stdout:
            run.stdout.readline()
            time.sleep(dice.uniform(0, 0.02))
            run.kill()
            run.wait()
        os.read(holder, 1)  # the end of the program too, which holds the other end
        os.close(holder)
        found.add(len(target.read_bytes()) if target.exists() else 0)
        target.unlink(missing_ok=True)
    assert found <= {0, 6350} and 0 in found and path.read_bytes() == CUBE.read_bytes()


@pytest.mark.parametrize("words", [("--out",), ("--in-place",)])
def test_an_end_in_the_middle_saves_nothing(tmp_path, words):
    """The mend dies while it sends the lines: at whatever piece that is, the file is as it was."""
    path, target = tmp_path / "cube.sgy", tmp_path / "new.sgy"
    path.write_bytes(CUBE.read_bytes())
    settle()
    lines = [f"set {1 + number % 12} inline {number}".encode() for number in range(2000)]
    sent = [saves.OPENING, *saves.pieces(lines)]
    assert len(sent) > 5
    place = ["--out", str(target)] if words == ("--out",) else ["--in-place"]
    for end in range(1, len(sent) + 1):
        run = subprocess.run([program.find(), str(path), "--session", "--save-at-end", *place], input=b"".join(sent[:end]), capture_output=True, check=False)
        assert run.returncode == 1 and b"S06 cut off" in run.stdout
        assert path.read_bytes() == CUBE.read_bytes() and not target.exists()


def test_a_script_of_many_lines(room):
    """More lines and answers than pipes hold."""
    script = "".join(f"set {1 + number % 12} inline {number % 30000}\nget 1 inline\n" for number in range(30_000))
    told = mend(room, script, "name = 'cube.sgy'", "--over", "--apply", "--quiet")
    assert "1 were mended" in told
    with segywb.open(room.folder / "cube.sgy") as volume:
        assert volume.get(12, "inline") == 29_999
    assert library("verify", "--db", room.db) == "1 files are what the trail says, 0 are not\n"


def test_kept_folders_are_on_the_disk(tmp_path, monkeypatch):
    """Each folder that is made stands in one that is brought to the disk."""
    told = []
    monkeypatch.setattr(keeping, "to_disk", told.append)
    keeping.made_durable(str(tmp_path / "a" / "b" / "c"))
    assert (tmp_path / "a" / "b" / "c").is_dir() and set(told) == {str(tmp_path), str(tmp_path / "a"), str(tmp_path / "a" / "b")}


def test_where_a_file_is_saved_below_a_folder(tmp_path):
    """Below it as below the one that was scanned, also where its text is longer than its name."""
    folder = tmp_path / "odd\\x1 and \\xff"
    (folder / "in").mkdir(parents=True)
    (folder / "in" / "wrong.sgy").write_bytes((TOP / "examples" / "wrong_line.sgy").read_bytes())
    settle()
    library("scan", "--db", tmp_path / "lib.db", folder)
    (tmp_path / "fix.txt").write_text(FIX)
    library("mend", "--db", tmp_path / "lib.db", "--script", tmp_path / "fix.txt", "--where", "1", "--out", tmp_path / "out", "--apply")
    assert digest(tmp_path / "out" / "in" / "wrong.sgy") == digest(CUBE)


def test_old_options_are_read(room):
    """A run of an earlier package had fewer options."""
    mend(room, SETS, WRONG, "--over", "--apply")
    connection = sqlite3.connect(room.db)
    connection.execute("DROP TRIGGER mend_update")
    connection.execute("UPDATE mend SET options = ?", (json.dumps({"fixed": False, "order": None}),))
    connection.commit()
    connection.close()
    library("undo", "--db", room.db, "--run", "1", "--apply")
    assert hashlib.sha256((room.folder / "wrong_line.sgy").read_bytes()).hexdigest() == digest(TOP / "examples" / "wrong_line.sgy")
    assert change.Moved is saves.Moved
