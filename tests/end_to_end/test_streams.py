"""Standard streams that are closed, limits on the size of files, files that saves left, and changes of FILE that its times do not tell."""

import fcntl
import os
import resource
import subprocess
import time

import pytest

from files import content
from running import same
from sessions import Session

SET = "set 1 inline 7\n"
# FILE's first line is a command
COMMAND = b"delete 1\n" + content("s.sgy")[9:]
ON_DISK = pytest.mark.parametrize("place", [[], ["--on-disk"]], ids=["in memory", "on disk"])


@pytest.fixture
def own(room):
    """A copy of the survey that is saved over, and a script."""
    room.put("z.sgy", content("s.sgy"))
    room.put("script", SET)
    return room


# ---- closed streams: no file takes their place
@pytest.mark.parametrize("way", ["--script -", "--script - --on-disk", "--session", "--session --on-disk", "--script /dev/stdin"])
def test_no_standard_input(room, way):
    room.put("z.sgy", COMMAND)
    ended = room.run("z.sgy", *way.split(), "--out", "z.sgy", closed=[0])
    assert ended.status == 4
    if not way.endswith("stdin"):
        assert ended.answers == b"script refused P01 read failed\n"
    assert same(room.get("z.sgy"), COMMAND)


@ON_DISK
def test_no_standard_output_and_nothing_is_saved(own, place):
    ended = own.run("z.sgy", "--script", "script", "--out", "o.sgy", *place, closed=[1])
    assert (ended.status, ended.errors) == (4, b"segywb: answers failed\n")
    assert not own.has("o.sgy")


def test_out_is_standard_error_which_is_closed(own):
    ended = own.run("z.sgy", "--script", "script", "--out", "/dev/stderr", closed=[2])
    assert ended.status == 4
    assert same(own.get("z.sgy"), content("s.sgy"))


def test_out_is_standard_output_which_is_closed(own):
    ended = own.run("z.sgy", "--script", "script", "--out", "/dev/stdout", closed=[1])
    assert ended.status != 0
    assert same(own.get("z.sgy"), content("s.sgy"))


def test_all_three_are_closed(own):
    ended = own.run("z.sgy", "--script", "script", "--out", "z.sgy", closed=[0, 1, 2])
    assert ended.status == 4
    assert same(own.get("z.sgy"), content("s.sgy"))


def test_out_is_what_standard_error_is(own):
    with open(own.path("log"), "wb") as log:
        ended = own.run("z.sgy", "--script", "script", "--out", "log", stderr=log)
    assert (ended.status, own.get("log")) == (2, b"segywb: --out names the file that standard error goes to\n")


# ---- answers that go to a file past the limit on file sizes
MANY = "info\n" * 2000
LIMIT = [(resource.RLIMIT_FSIZE, 8192)]


@pytest.fixture
def many(room):
    """A script with more answers than the limit has room for."""
    room.make("s.sgy")
    room.put("many", MANY)
    return room


@pytest.mark.parametrize("way", ["--script many", "--session"])
def test_answers_past_the_limit_as_many_as_may_be(many, way):
    with open(many.path("answers"), "wb") as answers, open(many.path("many"), "rb") as lines:
        ended = many.run("s.sgy", *way.split(), stdin=lines, stdout=answers, limits=LIMIT)
    assert (ended.status, ended.errors) == (4, b"segywb: answers failed\n")
    assert len(many.get("answers")) == 8192


def test_answers_behind_what_is_there(many):
    many.put("answers", bytes(8000))
    with open(many.path("answers"), "ab") as answers:
        ended = many.run("s.sgy", "--script", "many", stdout=answers, limits=LIMIT)
    assert (ended.status, ended.errors) == (4, b"segywb: answers failed\n")
    assert len(many.get("answers")) == 8192


def test_messages_that_go_to_the_same_file(many):
    with open(many.path("answers"), "wb") as answers:
        ended = many.run("s.sgy", "--script", "many", stdout=answers, stderr=subprocess.STDOUT, limits=LIMIT)
    assert ended.status == 4


# ---- answers that nobody reads any more: a list, and a section in its middle
@ON_DISK
@pytest.mark.parametrize("way", ["--script lines", "--session"])
@pytest.mark.parametrize("line", ["table all inline crossline x y", "samples all 0 1"])
def test_a_pipe_that_breaks(room, way, line, place):
    room.put("blanks.sgy", content("s.sgy")[:3600] + bytes(244 * 20000))
    room.put("lines", f"{line}\nset 1 inline 7\n")
    with open(room.path("lines"), "rb") as lines:
        running = room.start("blanks.sgy", *way.split(), *place, "--out", "o.sgy", stdin=lines)
        assert running.stdout.read(10)
        running.stdout.close()
        _, errors = running.communicate(timeout=600)
    assert (running.returncode, errors) == (4, b"segywb: answers failed\n")
    assert not room.has("o.sgy")


def test_a_pipe_has_no_limit(many):
    ended = many.run("s.sgy", "--script", "many", limits=LIMIT)
    assert ended.status == 0
    assert ended.answers.count(b"\n") == 2000


# ---- files that saves left
LEFT = ".out.sgy.segywb-0"


def takes_away(count):
    """What is told where a save takes away what others left."""
    what = "a file that a save had left beside it is" if count == 1 else f"{count} files that saves had left beside it are"
    return f"segywb: folder/out.sgy: {what} taken away\n"


@pytest.fixture
def folder(room):
    """A folder with an OUT."""
    os.mkdir(room.path("folder"))
    room.put("folder/out.sgy", content("s.sgy"))
    room.make("s.sgy")
    room.put("script", SET)
    return room


def save(room, file="s.sgy", script="script", out="folder/out.sgy", **more):
    """A save: its status, and standard error."""
    ended = room.run(file, "--script", script, "--out", out, **more)
    return ended.status, ended.errors.decode()


def test_a_thousand_left_files_hinder_no_save_and_go_but_none_of_another_kind(folder):
    for number in range(1100):
        folder.put(f"folder/.out.sgy.segywb-{number}", "")
    folder.put("folder/.out.sgy.segywb-x", "")
    folder.put("folder/.out.sgyx.segywb-0", "")
    os.mkdir(folder.path("folder/.out.sgy.segywb-1100"))
    assert save(folder) == (0, takes_away(1100))
    assert folder.names("folder") == [".out.sgy.segywb-1100", ".out.sgy.segywb-x", ".out.sgyx.segywb-0", "out.sgy"]


# neither FILE nor SCRIPT nor a standard stream is taken for one
def test_file_is_no_left_file(folder):
    folder.put(f"folder/{LEFT}", content("s.sgy"))
    assert save(folder, file=f"folder/{LEFT}") == (0, "")
    assert same(folder.get(f"folder/{LEFT}"), content("s.sgy"))


def test_script_is_none(folder):
    folder.put(f"folder/{LEFT}", SET)
    assert save(folder, script=f"folder/{LEFT}") == (0, "")
    assert folder.has(f"folder/{LEFT}")


def test_nor_is_standard_input(folder):
    folder.put(f"folder/{LEFT}", SET)
    with open(folder.path(f"folder/{LEFT}"), "rb") as lines:
        assert save(folder, script="-", stdin=lines) == (0, "")
    assert folder.has(f"folder/{LEFT}")


def test_nor_are_the_answers(folder):
    with open(folder.path(f"folder/{LEFT}"), "wb") as answers:
        assert save(folder, stdout=answers) == (0, "")
    assert folder.get(f"folder/{LEFT}") == b"ok\n"


# none is taken away by a run that saves nothing, or whose name is cut
def test_a_run_that_stops_takes_none_away(folder):
    folder.put(f"folder/{LEFT}", "")
    folder.put("refused", "bogus\n")
    assert folder.run("s.sgy", "--script", "refused", "--stop", "--out", "folder/out.sgy").status == 1
    assert folder.has(f"folder/{LEFT}")


def test_nor_does_one_whose_file_is_refused(folder):
    folder.put(f"folder/{LEFT}", "")
    folder.put("torn.sgy", content("s.sgy")[:3700])
    assert save(folder, file="torn.sgy")[0] == 3
    assert folder.has(f"folder/{LEFT}")


def test_a_session_takes_it_away_and_says_so(folder):
    folder.put(f"folder/{LEFT}", "")
    ended = folder.run("s.sgy", "--session", "--out", "folder/out.sgy", entered=b"save\n")
    assert (ended.status, ended.errors.decode()) == (0, takes_away(1))
    assert not folder.has(f"folder/{LEFT}")


def test_a_name_that_is_cut_takes_none_away(folder):
    left = "folder/." + "a" * 230 + ".segywb-0"
    folder.put(left, "")
    assert save(folder, out="folder/" + "a" * 230 + "bbbb")[0] == 0
    assert folder.has(left)


def test_a_file_that_is_being_written_stays_and_goes_once_its_writer_has_ended(folder):
    folder.put(f"folder/{LEFT}", "")
    with open(folder.path(f"folder/{LEFT}"), "r+b") as writer:
        fcntl.flock(writer, fcntl.LOCK_EX | fcntl.LOCK_NB)
        assert save(folder) == (0, "")
        assert folder.has(f"folder/{LEFT}")
    assert save(folder) == (0, takes_away(1))
    assert not folder.has(f"folder/{LEFT}")


# ---- a change in the same second as the load, where times are whole seconds
@pytest.fixture
def coarse(compiled):
    """The environment of a run for which times of files are whole seconds."""
    return {"LD_PRELOAD": str(compiled("coarse_times", "-shared"))}


@ON_DISK
def test_a_change_in_the_same_second(room, coarse, place):
    # the second is young enough that all of it is done before the next
    while time.time() % 1 > 0.3:
        time.sleep(0.05)
    room.put("own.sgy", content("s.sgy"))
    with Session(room, "own.sgy", "--session", *place, "--out", "own.sgy", environment=coarse) as session:
        assert session.ask("set 2 inline 7") == "ok"
        with open(room.path("own.sgy"), "r+b") as file:
            file.seek(100)
            file.write(b"X")
        theirs = room.get("own.sgy")
        assert session.ask("save") == "refused S08 save failed after 4332 bytes"
        assert same(room.get("own.sgy"), theirs)


@ON_DISK
def test_two_saves_over_file_where_nobody_changes_it(room, coarse, place):
    room.put("own.sgy", content("s.sgy"))
    lines = b"set 2 inline 7\nsave\nset 2 inline 8\nsave\n"
    ended = room.run("own.sgy", "--session", *place, "--out", "own.sgy", entered=lines, environment=coarse)
    assert (ended.status, ended.errors) == (0, b"")


# ---- a file that is too large for the limit is refused before it is read
@pytest.mark.parametrize("way", ["--script script", "--session"])
def test_a_file_of_5_gib(room, way):
    room.put("large.sgy", content("s.sgy")[:3600])
    os.truncate(room.path("large.sgy"), 5 << 30)
    room.put("script", SET)
    with open(room.path("script"), "rb") as lines:
        ended = room.run("large.sgy", *way.split(), stdin=lines, longest=20)
    assert (ended.status, ended.answers) == (3, b"load refused L02 too large\n")


# ---- a small stack
LINES = b"count\nset 2 inline 7\nfaults\nslice 0\nsamples all 0 1\ntable 1 3 inline x y\ncompute 1 3 inline inline + 1\nsort 1 3 inline\nsave\n"


@pytest.mark.parametrize("way, status", [("--script many", 1), ("--session", 0), ("--session --on-disk", 0)])
def test_a_stack_of_256_kib(room, way, status):
    room.put("many", LINES)
    limits = [(resource.RLIMIT_STACK, 256 << 10)]
    ended = room.run(room.make("s.sgy"), *way.split(), "--out", "o.sgy", entered=LINES, limits=limits)
    assert ended.status == status
