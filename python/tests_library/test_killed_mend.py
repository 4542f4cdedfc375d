"""Mends that are killed: each file is old or new, and the trail says which."""

import fcntl
import hashlib
import os
import random
import signal
import time
from pathlib import Path

import pytest
from conftest import TOP, library, rows, settle, started

import segywb
from segywb import program

COUNT, MOMENTS = 500, 20
FIX = "renumber 5 8 inline 102 0\n"


@pytest.fixture
def wrong(tmp_path):
    """Many copies of the wrong line, each a little else, and their database."""
    folder = tmp_path / "files"
    folder.mkdir()
    data = bytearray((TOP / "examples" / "wrong_line.sgy").read_bytes())
    for number in range(COUNT):
        data[3212:3214] = number.to_bytes(2, "big")
        (folder / f"{number}.sgy").write_bytes(data)
    settle()
    database = tmp_path / "lib.db"
    library("scan", "--db", database, "--quiet", folder)
    (tmp_path / "fix.txt").write_text(FIX)
    return folder, database


def digests(folder):
    return {str(path): hashlib.sha256(path.read_bytes()).hexdigest() for path in folder.glob("*.sgy")}


def states(database):
    """What the trail says of each file: whether its last save was made. A file that was only left is what it was before."""
    last = "SELECT max(id) FROM trail WHERE target = one.target AND before_sha256 IS NOT NULL"
    query = f"SELECT target, event, before_sha256, after_sha256 FROM trail AS one WHERE id = ({last})"
    return {target: (event, before, after) for target, event, before, after in rows(database, query)}


def mended(folder):
    """The digests that the files have once they are mended."""
    fixed = bytearray((TOP / "examples" / "cube.sgy").read_bytes())
    made = {}
    for number in range(COUNT):
        fixed[3212:3214] = number.to_bytes(2, "big")
        made[str(folder / f"{number}.sgy")] = hashlib.sha256(fixed).hexdigest()
    return made


def begun(words, database, dice):
    """A mend that has done a few files more than the one before it."""
    done = rows(database, "SELECT count(*) FROM trail")[0][0]
    mend = started(*words)
    until = time.monotonic() + 60
    while rows(database, "SELECT count(*) FROM trail")[0][0] <= done + dice.randint(0, 30) and mend.poll() is None and time.monotonic() < until:
        time.sleep(0.005)
    return mend


def old_or_new(folder, database, old, new):
    """Each file is one of both, and the trail says which."""
    now, trail = digests(folder), states(database)
    for path, digest in now.items():
        assert digest in (old[path], new[path])
        event, before, after = trail.get(path, ("left", old[path], None))
        assert digest == (after if event == "saved" else before) and (event == "saved") == (digest == new[path])


def test_killed_at_many_moments(wrong, tmp_path):
    folder, database = wrong
    old, new = digests(folder), mended(folder)
    where = "id IN (SELECT file FROM problem WHERE code = 'F6')"
    words = ["mend", "--db", database, "--script", tmp_path / "fix.txt", "--where", where, "--over", "--apply", "--quiet"]
    dice, killed = random.Random(5), 0
    for _ in range(MOMENTS):
        mend = begun(words, database, dice)
        os.kill(mend.pid, signal.SIGKILL)
        killed += mend.wait() == -signal.SIGKILL
        told = library("verify", "--db", database)
        assert " 0 are not" in told and "DIFFERS" not in told
        old_or_new(folder, database, old, new)
    assert killed >= MOMENTS - 4
    library("scan", "--db", database, "--quiet", folder)  # of a file between its save and its row the row is still the old one
    library(*words)
    assert digests(folder) == new
    assert rows(database, "SELECT count(*) FROM problem") == [(0,)]
    assert f"{COUNT} files are what the trail says, 0 are not" in library("verify", "--db", database)
    assert not [name for name in os.listdir(folder) if ".segywb-" in name]


def programs_of(number):
    """The numbers of a process's children."""
    found = []
    for task in Path(f"/proc/{number}/task").glob("*/children"):
        try:
            found += [int(one) for one in task.read_text().split()]
        except OSError:
            pass
    return found


def all_ended(database):
    """Waits until the last program of a mend has ended: each holds the lock, and one that was killed may still be in a call of the system."""
    with open(f"{database}-lock") as lock:
        fcntl.flock(lock, fcntl.LOCK_EX)


@pytest.mark.skipif(not program.knows("--recover"), reason="the program is older than a repair in place")
def test_killed_in_place_with_its_programs(wrong, tmp_path):
    """The mend and its programs die at once, also in the middle of a repair: each file is old, new, or one that its journal makes old again."""
    folder, database = wrong
    old, new = digests(folder), mended(folder)
    where = "id IN (SELECT file FROM problem WHERE code = 'F6')"
    words = ["mend", "--db", database, "--script", tmp_path / "fix.txt", "--where", where, "--over", "--in-place", "--apply", "--quiet"]
    inodes = {path.name: path.stat().st_ino for path in folder.glob("*.sgy")}
    dice, killed, journals = random.Random(9), 0, 0
    for _ in range(MOMENTS):
        mend = begun(words, database, dice)
        for number in [mend.pid, *programs_of(mend.pid)]:
            try:
                os.kill(number, signal.SIGKILL)
            except ProcessLookupError:
                pass
        killed += mend.wait() == -signal.SIGKILL
        all_ended(database)
        torn = sorted(folder.glob(".*.segywb-journal"))
        told = library("verify", "--db", database, status=1 if torn else 0)
        assert "DIFFERS" not in told and told.count("CUT OFF") <= len(torn)
        for journal in torn:
            journals += 1
            segywb.recover(folder / journal.name[1:-len(".segywb-journal")])
        assert " 0 are not" in library("verify", "--db", database)
        old_or_new(folder, database, old, new)
    assert killed >= MOMENTS - 4
    print(f"{journals} kills left a journal")
    library("scan", "--db", database, "--quiet", folder)
    library(*words)
    assert digests(folder) == new
    assert inodes == {path.name: path.stat().st_ino for path in folder.glob("*.sgy")}
    assert f"{COUNT} files are what the trail says, 0 are not" in library("verify", "--db", database)


def test_interrupted(wrong, tmp_path):
    """Ctrl-C lets the files that are at work come to their end."""
    folder, database = wrong
    old = digests(folder)
    mend = started("mend", "--db", database, "--script", tmp_path / "fix.txt", "--where", "1", "--over", "--apply", "--quiet", "--keep", tmp_path / "keep")
    while rows(database, "SELECT count(*) FROM trail")[0][0] < 20 and mend.poll() is None:
        time.sleep(0.005)
    mend.send_signal(signal.SIGINT)
    assert mend.wait(300) == 130
    assert " 0 are not" in library("verify", "--db", database)
    now, trail = digests(folder), states(database)
    assert {path for path in now if now[path] != old[path]} == {path for path, (event, _, _) in trail.items() if event == "saved"}
    library("undo", "--db", database, "--run", "1", "--apply")
    assert digests(folder) == old
