"""Files and devices as a user meets them: names of every kind, folders, no permission, closed pipes and standard streams."""

import os
import resource

import pytest

from files import content
from running import same
from tables import check_line

SCRIPT = "set 2 @189:4 7\nget 2 @189:4\n"
DONE = b"ok\nvalue 7\n"
NAMES = [
    "two words", "Fältämä 東京", "new\nline", "star*", 'a "quoted" name', "it's", "back\\slash", "%s", "$HOME", "#", "~",
]
LONG = "x" * 5000
NOT_SAVED = "segywb: save failed after 0 bytes\nsegywb: "


@pytest.fixture
def begun(room):
    """The survey, a script, and what a run of it saves."""
    room.make("s.sgy")
    room.put("script", SCRIPT)
    ended = room.run("s.sgy", "--script", "script", "--out", "whole.sgy")
    assert (ended.status, ended.answers, ended.errors) == (0, DONE, b"")
    return room


def check_run(room, words, status, answers, errors):
    """A run that ends so."""
    ended = room.run(*words)
    assert ended.answers == answers
    assert ended.status == status
    assert ended.told() == ended.refusals()
    assert ended.others() == errors.splitlines()
    return ended


# ---- names
@pytest.mark.parametrize("name", NAMES)
def test_the_name(begun, name):
    os.mkdir(begun.path("named"))
    begun.put(f"named/{name}.sgy", content("s.sgy"))
    begun.put(f"named/{name}.txt", SCRIPT)
    check_run(begun, [f"named/{name}.sgy", "--script", f"named/{name}.txt", "--out", f"named/{name}.out"], 0, DONE, "")
    assert same(begun.get(f"named/{name}.out"), begun.get("whole.sgy"))


def test_names_that_begin_with_a_dash(begun):
    begun.put("-f.sgy", content("s.sgy"))
    begun.put("-s", SCRIPT)
    check_run(begun, ["--script=-s", "--out=-o.sgy", "--", "-f.sgy"], 0, DONE, "")
    assert same(begun.get("-o.sgy"), begun.get("whole.sgy"))
    os.remove(begun.path("-o.sgy"))
    check_run(begun, ["./-f.sgy", "--script", "./-s", "--out", "./-o.sgy"], 0, DONE, "")
    assert same(begun.get("-o.sgy"), begun.get("whole.sgy"))
    check_line(begun, "-f.sgy", "--script", "script")


LOOP = NOT_SAVED + "loop: Too many levels of symbolic links (os error 40); save elsewhere\n"
BAD_NAMES = [
    ("a name that is too long", [LONG, "--script", "script"], 3, f"segywb: cannot open {LONG}\n"),
    ("no name", ["", "--script", "script"], 3, "segywb: cannot open \n"),
    ("no name of a script", ["s.sgy", "--script", ""], 4, "segywb: cannot open \n"),
    (
        "no name of the saved file", ["s.sgy", "--script", "script", "--out", ""],
        4, NOT_SAVED + ": No such file or directory (os error 2); save elsewhere\n",
    ),
    ("a word that is not UTF-8", [b"\xff.sgy", "--script", "script"], 2, "segywb: cannot read the command line\n"),
    ("a file below a file", ["s.sgy/x", "--script", "script"], 3, "segywb: cannot open s.sgy/x\n"),
    ("a link to itself", ["loop", "--script", "script"], 3, "segywb: cannot open loop\n"),
    ("a script that is a link to itself", ["s.sgy", "--script", "loop"], 4, "segywb: cannot open loop\n"),
    ("a save to a link to itself", ["s.sgy", "--script", "script", "--out", "loop"], 4, LOOP),
    (
        "a folder as OUT", ["s.sgy", "--script", "script", "--out", "folder"],
        4, NOT_SAVED + "folder: Is a directory (os error 21); save elsewhere\n",
    ),
]


@pytest.mark.parametrize("words, status, errors", [pytest.param(*row[1:], id=row[0]) for row in BAD_NAMES])
def test_bad_names(begun, words, status, errors):
    os.symlink("loop", begun.path("loop"))
    os.mkdir(begun.path("folder"))
    check_run(begun, words, status, b"", errors)


def test_a_link_to_the_file(begun):
    os.symlink("s.sgy", begun.path("link.sgy"))
    check_run(begun, ["link.sgy", "--script", "script"], 0, DONE, "")


def test_a_save_over_the_script_leaves_the_script(begun):
    check_run(begun, ["s.sgy", "--script", "script", "--out", "script"], 2, b"", "segywb: --out names SCRIPT itself\n")
    assert begun.get("script") == SCRIPT.encode()


def test_a_folder_as_file_and_as_script(begun):
    os.mkdir(begun.path("folder"))
    check_run(begun, ["folder", "--script", "folder"], 3, b"load refused L01 read failed\n", "")


# ---- no permission
DENIED = "Permission denied (os error 13); save elsewhere"
FORBIDDEN = [
    ("a file that may not be read", "closed.sgy --script script", 3, "segywb: cannot open closed.sgy\n"),
    ("a script that may not be read", "s.sgy --script closed.txt", 4, "segywb: cannot open closed.txt\n"),
    ("a folder that may not be entered", "closed/s.sgy --script script", 3, "segywb: cannot open closed/s.sgy\n"),
    (
        "a folder that may not be written", "s.sgy --script script --out kept.sgy",
        4, NOT_SAVED + "kept.sgy: cannot make a file beside it (Permission denied (os error 13)); save elsewhere\n",
    ),
    ("a file that may not be written", "kept.sgy --script script --in-place", 4, NOT_SAVED + f"kept.sgy: {DENIED}, with --out\n"),
    (
        "a save into a folder that may not be entered", "s.sgy --script script --out closed/o.sgy",
        4, NOT_SAVED + f"closed/o.sgy: {DENIED}\n",
    ),
]


@pytest.fixture
def closed(begun, nobody):
    """A room with what may not be read or written, and a program that nobody may run."""
    begun.put("closed.sgy", content("s.sgy"))
    begun.put("kept.sgy", content("s.sgy"))
    begun.put("closed.txt", SCRIPT)
    os.mkdir(begun.path("closed"))
    for name, mode in (("closed", 0), ("closed.sgy", 0), ("closed.txt", 0), ("kept.sgy", 0o444)):
        os.chmod(begun.path(name), mode)
    nobody(begun)
    os.chmod(begun.folder, 0o555)
    yield begun
    os.chmod(begun.folder, 0o700)
    os.chmod(begun.path("closed"), 0o700)


@pytest.mark.parametrize("words, status, errors", [pytest.param(*row[1:], id=row[0]) for row in FORBIDDEN])
def test_without_permission(closed, words, status, errors):
    ended = closed.run("s.sgy", "--script", "script")
    assert (ended.status, ended.answers) == (0, DONE)
    check_run(closed, words.split(), status, b"", errors)
    assert closed.get("kept.sgy") == content("s.sgy")


# ---- closed pipes and standard streams
def test_a_pipe_that_nobody_reads(begun):
    reader, writer = os.pipe()
    os.close(reader)
    ended = begun.run("s.sgy", "--script", "script", "--out", "o.sgy", stdout=writer)
    os.close(writer)
    assert (ended.status, ended.errors) == (4, b"segywb: answers failed\n")
    assert not begun.has("o.sgy")


def test_no_standard_output(begun):
    ended = begun.run("s.sgy", "--script", "script", "--out", "o.sgy", closed=[1])
    assert (ended.status, ended.errors) == (4, b"segywb: answers failed\n")
    assert not begun.has("o.sgy")
    assert same(begun.get("s.sgy"), content("s.sgy"))


# the number of a stream that is closed goes to the next file that is opened: no text may get into that
@pytest.mark.parametrize("streams", [[2], [0, 2]], ids=["2", "0 2"])
def test_without_the_streams(begun, streams):
    whole = begun.get("whole.sgy")
    ended = begun.run("s.sgy", "--script", "script", "--out", "o.sgy", closed=streams)
    assert (ended.status, ended.answers) == (0, DONE)
    assert same(begun.get("o.sgy"), whole)
    limits = [(resource.RLIMIT_FSIZE, 2048)]
    ended = begun.run("s.sgy", "--script", "script", "--out", "o.sgy", closed=streams, limits=limits)
    assert ended.status == 4
    assert same(begun.get("o.sgy"), whole)
    ended = begun.run("absent.sgy", "--script", "script", closed=streams)
    assert (ended.status, ended.answers) == (3, b"")


def test_no_standard_output_and_no_answer(begun):
    begun.put("empty", "")
    ended = begun.run("s.sgy", "--script", "empty", "--out", "o.sgy", closed=[1])
    assert (ended.status, ended.errors) == (0, b"")
    assert same(begun.get("o.sgy"), begun.get("s.sgy"))
