"""What the tests of the library share: its command, a library of many files, and what a database has."""

import contextlib
import io
import os
import random
import signal
import sqlite3
import subprocess
import sys
import time
from pathlib import Path

import pytest

HERE = Path(__file__).resolve().parent
TOP = HERE.parent.parent
SOURCE = HERE.parent / "src"
sys.path.insert(0, str(SOURCE))
sys.path.insert(0, str(HERE.parent / "tests"))

import files  # noqa: E402

from segywb.library import cli  # noqa: E402

ENVIRONMENT = {**os.environ, "PYTHONPATH": str(SOURCE)}
UNSETTLED_SECONDS = 0.05
# What two scans of the same files tell alike: not the numbers of rows, and not when it was.
SAME = """
SELECT path, name, root, state, refusal, refusal_text, hint, trouble, size, modified, changed, inode, settled, gone IS NULL, sha256, md5, trace_md5,
    byte_order, revision, format, fixed, extensions, blocks, trailer, traces, samples, interval, inlines, crosslines, least_length, greatest_length, least_inline,
    greatest_inline, least_crossline, greatest_crossline, least_offset, greatest_offset, least_x, greatest_x, least_y, greatest_y, least_scalar,
    greatest_scalar, outline, alphabet, trailing_bytes, trailing_zeros, trailing_traces, program FROM file
"""
BELOW = ("SELECT path, code, count FROM problem", "SELECT path, field, least, greatest, first, last FROM header", "SELECT path, block, text FROM text")


def command(*words):
    """The words of a command."""
    return [sys.executable, "-m", "segywb.library", *(os.fspath(word) if isinstance(word, os.PathLike) else str(word) for word in words)]


def library(*words, status=0, **more):
    """Runs a command to its end; what it told on standard output, and on standard error where it is to fail.

    It is run in this process, which saves the start of another one; but not where the environment of Python or a cluster is tried.
    """
    words = list(map(os.fspath, words))
    apart = "PYTHONPATH" in more or "--workers" in words or "--dask" in words
    got, told, errors = (_apart if apart else _here)(words, more)
    assert got == status, f"{got}: {told}{errors}"
    return told + (errors if status else "")


def _apart(words, more):
    done = subprocess.run(command(*words), env={**ENVIRONMENT, **more}, capture_output=True, text=True, timeout=300, check=False)
    return done.returncode, done.stdout, done.stderr


def _here(words, more):
    told, errors = io.StringIO(), io.StringIO()
    with pytest.MonkeyPatch.context() as patch, contextlib.redirect_stdout(told), contextlib.redirect_stderr(errors):
        for name, value in more.items():
            patch.setenv(name, value)
        try:
            status = cli.main(words)
        except SystemExit as error:
            status = error.code
    return status, told.getvalue(), errors.getvalue()


def takes_interrupts():
    """Behind a shell that runs the tests in the background a process would ignore Ctrl-C."""
    signal.signal(signal.SIGINT, signal.SIG_DFL)


def started(*words, group=False, **more):
    """Starts a command that is to be killed, or interrupted; with ``group`` as the first of a group of processes, as at a terminal."""
    return subprocess.Popen(
        command(*words), env={**ENVIRONMENT, **more}, stdout=subprocess.DEVNULL, stderr=subprocess.DEVNULL, preexec_fn=takes_interrupts,
        start_new_session=group,
    )


def as_nobody(*words):
    """Runs a command as a user who may write nowhere."""
    return subprocess.run(command(*words), env=ENVIRONMENT, user=65534, group=65534, extra_groups=[], capture_output=True, text=True, timeout=120, check=False)


def reachable(folder):
    """Whether that user can read the package and the program, and gets to the folder."""
    if os.getuid() != 0:
        return False
    for path in [folder, *folder.parents]:
        if path.stat().st_uid == 0 and not path.stat().st_mode & 1:
            path.chmod(path.stat().st_mode | 0o5)
    words = [sys.executable, "-c", f"import segywb.library.cli, segywb.program, os; os.stat({str(HERE)!r}); assert os.access(segywb.program.find(), os.X_OK)"]
    return subprocess.run(words, env=ENVIRONMENT, user=65534, group=65534, extra_groups=[], capture_output=True, check=False).returncode == 0


def rows(database, query, *values):
    """The rows of a query."""
    connection = sqlite3.connect(database)
    try:
        return connection.execute(query, values).fetchall()
    finally:
        connection.close()


def held(database):
    """All that a scan has put into a database."""
    told = [sorted(rows(database, SAME))]
    told += [sorted(rows(database, f"{query} JOIN file ON file.id = file")) for query in BELOW]
    return [*told, sorted(rows(database, "SELECT path, name, why, size FROM other")), sorted(rows(database, "SELECT path, trouble FROM unlisted"))]


def settle():
    """Files that were just written are read again by the next scan: behind this they are not."""
    time.sleep(UNSETTLED_SECONDS)


def many(folder, count, broken):
    """Small files of many kinds in a few folders, made by a seed; so many of them are broken."""
    dice = random.Random(7)
    makers = (lambda path: files.floats(path, 1), files.floats, files.varying, files.stanzas, files.extended)
    for number in range(count):
        below = folder / f"survey {number % 7}"
        below.mkdir(parents=True, exist_ok=True)
        path = below / f"line {number}.sgy"
        if number % 11:
            files.cube(path, dice.randint(1, 4), dice.randint(1, 5), dice.randint(1, 9))
        else:
            makers[number % len(makers)](path)
        if number % 9 == 5:
            renumber(path)
        if number < broken:
            spoil(path, number)
    return folder


def renumber(path):
    """Gives a file whose first trace is no file's first (F1)."""
    data = bytearray(path.read_bytes())
    data[3606:3608] = b"\0\7"
    path.write_bytes(data)


def spoil(path, number):
    """Makes a file one that is refused, in one of five ways, or one that is none of SEG-Y."""
    data = bytearray(path.read_bytes())
    kind = number % 5
    if kind == 0:
        data = data[:-7]
    elif kind == 1:
        data += b"junk"
    elif kind == 2:
        data[3500] = 3
    elif kind == 3:
        data = data[:3000]
    else:
        data[3504:3506] = b"\x7f\xff"
    path.write_bytes(data)


@pytest.fixture(scope="session")
def master(tmp_path_factory):
    """2,000 files, 50 of them broken. No test writes into it."""
    folder = many(tmp_path_factory.mktemp("master"), 2000, 50)
    settle()
    return folder


@pytest.fixture(scope="session")
def undisturbed(master, tmp_path_factory):
    """The database of a scan of it that nothing disturbed."""
    database = tmp_path_factory.mktemp("undisturbed") / "lib.db"
    library("scan", "--db", database, "--quiet", master)
    return database


@pytest.fixture
def few(tmp_path):
    """A folder with the example files."""
    folder = tmp_path / "files"
    folder.mkdir()
    for path in sorted((TOP / "examples").glob("*.sgy")):
        if path.name == "wrong_floats.sgy":
            continue  # the twelve of integers
        (folder / path.name).write_bytes(path.read_bytes())
    settle()
    return folder


@pytest.fixture
def wrapped(tmp_path):
    """A program that runs some lines of bash before the real one; ``$name`` is the name of the file that is read."""

    def made(lines):
        real = os.environ.get("SEGYWB") or str(TOP / "dist" / "segywb-x86_64-linux")
        path = tmp_path / "wrapped"
        path.write_text(f'#!/bin/bash\nname=$(readlink -- "$1" || echo "$1")\n{lines}\nexec {real} "$@"\n')
        path.chmod(0o755)
        return str(path)

    return made
