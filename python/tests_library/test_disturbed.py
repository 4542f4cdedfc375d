"""Scans that are disturbed: killed, two at once, over files that change, with workers that die and programs that hang."""

import errno
import os
import signal
import time
import warnings

import pytest
from conftest import HERE, held, library, rows, started

from segywb.library import crew, facts, reading, walk

MOMENTS = 20


def count(database):
    """How many files the database has, where it is there at all."""
    try:
        return rows(database, "SELECT (SELECT count(*) FROM file) + (SELECT count(*) FROM other)")[0][0]
    except Exception:
        return 0


def test_killed_at_many_moments(master, undisturbed, tmp_path):
    """Each time the rows that are there are whole, and at the end it is the database of a scan that nothing disturbed."""
    database = tmp_path / "lib.db"
    wanted = [set(part) for part in held(undisturbed)]
    killed = 0
    for moment in range(MOMENTS):
        scan = started("scan", "--db", database, "--quiet", "--jobs", "2", master)
        until = time.monotonic() + 60
        while count(database) < moment * 95 and scan.poll() is None and time.monotonic() < until:
            time.sleep(0.002)
        time.sleep(0.003 * (moment % 7))
        scan.send_signal(signal.SIGKILL)
        killed += scan.wait() == -signal.SIGKILL
        if count(database):
            for got, whole in zip(held(database), wanted):
                assert set(got) <= whole
    assert killed >= MOMENTS - 2
    library("scan", "--db", database, "--quiet", master)
    assert held(database) == held(undisturbed)


def test_interrupted(master, tmp_path):
    """Ctrl-C ends it with a word; no process stays."""
    database = tmp_path / "lib.db"
    scan = started("scan", "--db", database, "--quiet", "--jobs", "2", master)
    while count(database) < 10 and scan.poll() is None:
        time.sleep(0.01)
    scan.send_signal(signal.SIGINT)
    assert scan.wait(300) == 130 and count(database) >= 10


def test_two_at_once(master, undisturbed, tmp_path):
    database = tmp_path / "lib.db"
    scans = [started("scan", "--db", database, "--quiet", "--jobs", "2", master) for _ in range(2)]
    assert [scan.wait(600) for scan in scans] == [0, 0]
    assert held(database) == held(undisturbed)


def test_a_file_that_changes(few, tmp_path, wrapped):
    """It is read once more; where it changes again its row says so, and the next scan reads it."""
    database = tmp_path / "lib.db"
    once = wrapped(f'case $name in */cube.sgy) [ -e {tmp_path}/been ] || {{ touch {tmp_path}/been; printf x >> "$name"; }} ;; esac')
    library("scan", "--db", database, few, SEGYWB=once)
    assert rows(database, "SELECT state, refusal, size FROM file WHERE name = 'cube.sgy'") == [("refused", "L14", 6601)]
    always = wrapped('case $name in */survey.sgy) printf x >> "$name" ;; esac')
    os.utime(few / "survey.sgy")
    library("scan", "--db", database, few, SEGYWB=always, status=1)
    assert rows(database, "SELECT state, trouble, sha256 FROM file WHERE name = 'survey.sgy'") == [("failed", reading.CHANGED, None)]
    library("scan", "--db", database, few)
    assert rows(database, "SELECT state FROM file WHERE name = 'survey.sgy'") == [("refused",)]


def test_a_file_that_goes_away_meanwhile(few, tmp_path, wrapped):
    """Behind the listing of its folder: a row that is there says so, and no row is made of one that was never read."""
    database = tmp_path / "lib.db"
    library("scan", "--db", database, few)
    (few / "new.sgy").write_bytes((few / "cube.sgy").read_bytes())
    os.utime(few / "survey.sgy")
    program = wrapped(f'case "$2" in --session) rm -f {few}/new.sgy {few}/survey.sgy ;; esac')
    told = library("scan", "--db", database, few, SEGYWB=program)
    assert "0 failed" in told and ", 1 gone" in told
    assert rows(database, "SELECT name FROM file WHERE gone IS NOT NULL") == [("survey.sgy",)]
    assert rows(database, "SELECT count(*) FROM file") == [(12,)]


def test_what_a_save_has_left(few, tmp_path):
    """The new file of a save that was killed is no file of the library, whatever is in it."""
    data = (few / "cube.sgy").read_bytes()
    (few / ".cube.sgy.segywb-0").write_bytes(data[:4000])
    (few / ".twice.sgy.segywb-12").write_bytes(data)
    (few / "cube.sgy.segywb-0").write_bytes(data)
    database = tmp_path / "lib.db"
    library("scan", "--db", database, few)
    why = "new file of a save"
    assert rows(database, "SELECT name, why FROM other ORDER BY name") == [(".cube.sgy.segywb-0", why), (".twice.sgy.segywb-12", why)]
    assert rows(database, "SELECT count(*) FROM file") == [(13,)]


def test_a_worker_that_dies(few, tmp_path, wrapped):
    """The file at which it died is told, the others are read."""
    database = tmp_path / "lib.db"
    program = wrapped('case $name in */cube.sgy) kill -9 $PPID ;; esac')
    told = library("scan", "--db", database, few, SEGYWB=program, status=1)
    assert "12 files read: 11 loaded, 0 refused, 1 failed" in told
    assert rows(database, "SELECT name, trouble FROM file WHERE state = 'failed'") == [("cube.sgy", "the process that read it died (signal 9)")]
    library("scan", "--db", database, few)
    assert rows(database, "SELECT count(*) FROM file WHERE state = 'read'") == [(12,)]


def test_a_program_that_dies_or_hangs(few, tmp_path, wrapped):
    database = tmp_path / "lib.db"
    program = wrapped('case $name in */cube.sgy) kill -11 $$ ;; */twice.sgy) [ "$2" = --session ] && exec sleep 60 ;; esac')
    library("scan", "--db", database, "--limit", "4", few, SEGYWB=program, status=1)
    told = rows(database, "SELECT name, trouble FROM file WHERE state = 'failed' ORDER BY name")
    assert told == [("cube.sgy", "the program ended by signal 11"), ("twice.sgy", "no answer within 4 s")]
    assert rows(database, "SELECT count(*) FROM file WHERE state = 'read'") == [(10,)]


def test_a_worker_that_hangs(few, monkeypatch, wrapped):
    """One that does not even see that the time is over, as where a disk does not answer."""
    monkeypatch.setattr(crew, "GRACE_SECONDS", 1.0)
    monkeypatch.setenv("SEGYWB", wrapped('case $name in */cube.sgy) kill -STOP $PPID ;; esac'))
    monkeypatch.setenv("PYTHONPATH", str(HERE.parent / "src"))
    tasks = [facts.Task(os.fsencode(few / name), 0, 6600) for name in ("cube.sgy", "twice.sgy", "survey.sgy")]
    one = crew.Crew(1, 10.0)
    found, until = {}, time.monotonic() + 240
    try:
        one.give(tasks)
        while len(found) < 3 and time.monotonic() < until:
            for told in one.gather(0.1):
                found[told.task.path] = told.columns
            if one.back:
                one.give(one.back)
                one.back = []
    finally:
        one.close()
    assert [found[task.path]["state"] for task in tasks] == ["failed", "read", "read"]
    assert found[tasks[0].path]["trouble"] == "no answer within 10 s"


@pytest.mark.parametrize("number", [errno.EIO, errno.ESTALE, errno.ETIMEDOUT])
def test_a_disk_that_answers_errors(few, monkeypatch, number):
    """At the opening, in the middle of a file, and while a folder is listed."""
    task = facts.Task(os.fsencode(few / "cube.sgy"), 0, 6600)
    whole = os.pread

    def broken(descriptor, size, at):
        if at > 0 or size > 4000:
            raise OSError(number, os.strerror(number))
        return whole(descriptor, size, at)

    def refused(*words):
        raise OSError(number, os.strerror(number))

    with monkeypatch.context() as patch:
        patch.setattr(os, "pread", broken)
        told = reading.read(task, 60)
    assert told.columns["state"] == "failed" and told.columns["trouble"] == os.strerror(number)
    with monkeypatch.context() as patch:
        patch.setattr(os, "open", refused)
        assert reading.read(task, 60).columns["trouble"] == os.strerror(number)
    told = []
    with monkeypatch.context() as patch:
        patch.setattr(os, "scandir", refused)
        assert list(walk.Walk([os.fsencode(few)], False, lambda *one: told.append(one))) == []
    assert told == [(os.fsencode(few), os.strerror(number))]


def test_a_file_that_went_away(few, tmp_path):
    assert reading.read(facts.Task(os.fsencode(tmp_path / "absent"), 0, 1), 60).columns["trouble"] == "No such file or directory"
    os.mkfifo(tmp_path / "pipe")
    assert reading.read(facts.Task(os.fsencode(tmp_path / "pipe"), 0, 1), 60).other == "no file"


def test_a_worker_that_is_slow_to_die(monkeypatch):
    """It is not waited for, and nobody is warned of it."""
    monkeypatch.setattr(crew, "GOODBYE_SECONDS", 0.0)
    monkeypatch.setattr(crew.os, "killpg", lambda *_: None)
    with warnings.catch_warnings(record=True) as told:
        warnings.simplefilter("always")
        worker = crew.Worker()
        process = worker.pid
        assert worker.end() == "it does not end"
        del worker
    os.kill(process, signal.SIGKILL)
    crew._BEHIND.pop().wait()
    assert [str(one.message) for one in told] == []
