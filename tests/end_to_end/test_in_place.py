"""A repair of FILE itself: only the changed bytes are written, under a journal of the old ones; what it refuses, journals, and locks."""

import hashlib
import os
import re
import resource
import stat
import subprocess

import pytest

from files import changed, content
from repairs import CHANGED, CUT_OFF, JOURNAL, NOTHING_SAVED, OWN, SCRIPT, alone, anew, begin, is_locked, leaves_journal
from running import LONGEST, same


@pytest.fixture
def begun(room):
    """A room with FILE, a script, and what a save of it gives."""
    return begin(room)


# ---- what a repair gives is what a save gives, in the same file, whether its bytes are in memory or on disk
LONG = changed(
    content("s.sgy")[:3600] + content("s.sgy")[3600:3840] + bytes(180000), "3224 0002", "3220 afc8", "3714 afc8",
)
FLOAT = changed(content("s.sgy"), "3224 0001", "3220 0001", *[f"{3600 + 244 * p + 114} 0001" for p in range(3)])
MORE = content("noted.sgy")[:4084] + bytes(400) + content("noted.sgy")[-6400:]
LONGER = content("s.sgy") + bytes(7)
TWO = "set 1 @1:4 9\nset 1 @240:1 1\n"
DROP = "drop tail\nset 1 @1:4 9\ndrop tail\n"
REPAIRS = [
    ("one number", "s.sgy", "set 2 @189:4 7\nget 2 @189:4\n", ""),
    ("a number and the old one again", "s.sgy", "set 2 @189:4 7\nset 2 @189:4 10\n", ""),
    ("no edit", "s.sgy", "", ""),
    ("nothing but queries and refused lines", "s.sgy", "info\nfaults\nsamples all 0 1\nbogus\nset 9 inline 1\nsamples 1 9 0 1\n", ""),
    (
        "headers, samples and a refused line", "s.sgy",
        "renumber 1 3 @1:4 100 5\ncompute 1 3 x x + 7\npatch 2 0 7 8\nbin interval 2000\nbogus\nset 3 @237:4 -1\n", "",
    ),
    ("the textual header", "s.sgy", "text 3 repaired in place\n", ""),
    (
        "runs that grow together", "s.sgy",
        "map mine @17:4\nset 1 mine 9\nset 2 mine 9\nset 3 mine 9\nset 1 @21:4 1\nset 1 @20:1 5\nset 1 @1:8 -2\n", "",
    ),
    ("traces that are where they were again", "s.sgy", "move 1 3\nmove 3 1\nset 1 inline 4\n", ""),
    ("a trace that is gone again", "s.sgy", "copy 3 4\ndelete 4\nset 2 inline 4\n", ""),
    *[
        (f"of each framing: {name}", name, TWO, "")
        for name in ("x.sgy", "t.sgy", "v.sgy", "deep.sgy", "ended.sgy", "ebcdic.sgy", "noted.sgy")
    ],
    # bytes of no trace behind the last one stay where they are, and are no place of a repair
    ("bytes of no trace in front of data trailer records", MORE, TWO, "--tail"),
    ("bytes of no trace at the end", LONGER, TWO, "--tail"),
    *[(f"drop tail of {name}, which has none {options}", name, DROP, options) for name in ("s.sgy", "noted.sgy") for options in ("--tail", "")],
    ("a file without traces", "none.sgy", "text 1 none\n", ""),
    ("floats as bytes", FLOAT, "set 1 @1:4 9\n", "--opaque-samples"),
    ("floats with values", FLOAT, "patch 2 0 -118.625\nstat 2\n", "--floats"),
    # one run of 180,000 bytes is more than one piece
    ("samples of a whole trace", LONG, "patch 1 0 " + " ".join(str(n) for n in range(1, 45001)) + "\n", ""),
]
WAYS = pytest.mark.parametrize("way", ["", "--on-disk", f"--out {OWN}"])


@WAYS
@pytest.mark.parametrize("file, script, options", [pytest.param(*row[1:], id=row[0]) for row in REPAIRS])
def test_a_repair_gives_what_a_save_gives(room, file, script, options, way):
    made = content(file) if isinstance(file, str) else file
    room.put("f.sgy", made)
    anew(room, made)
    wanted = room.ask("f.sgy", script, *options.split(), "--out", "wanted.sgy")
    number = os.stat(room.path(OWN)).st_ino
    ended = room.ask(OWN, script, *options.split(), *way.split(), "--in-place")
    assert (ended.status, ended.answers) == (wanted.status, wanted.answers)
    assert same(room.get(OWN), room.get("wanted.sgy"))
    assert os.stat(room.path(OWN)).st_ino == number
    assert alone(room)


def test_one_byte_differs(begun):
    assert sum(one != other for one, other in zip(begun.get("whole.sgy"), content("s.sgy"))) == 1


# ---- edits that need a new file
NEW_ONE = "is a new one, or has another length (one was inserted, copied or resized)"
AT_ITS_END = "traces at its end were deleted, or its tail was dropped"
ELSEWHERE = "stood elsewhere in it (one was moved, sorted or deleted)"
UNFIT = [
    ("a blank trace", content("s.sgy"), f"trace 2 {NEW_ONE}", "blank 2\n", ""),
    ("a copy at the end", content("s.sgy"), f"trace 4 {NEW_ONE}", "copy 1 4\n", ""),
    ("a copy in the place of a trace", content("s.sgy"), f"trace 3 {NEW_ONE}", "copy 3 3\ndelete 4\n", ""),
    ("a trace that moved", content("s.sgy"), f"trace 1 {ELSEWHERE}", "move 3 1\n", ""),
    ("traces that were sorted", content("s.sgy"), f"trace 1 {ELSEWHERE}", "set 1 inline 99\nsort 1 3 inline\n", ""),
    ("a trace that was deleted", content("s.sgy"), f"trace 2 {ELSEWHERE}", "delete 2\n", ""),
    ("the last trace was deleted", content("s.sgy"), AT_ITS_END, "delete 3\n", ""),
    ("all traces were deleted", content("s.sgy"), AT_ITS_END, "delete 1\ndelete 1\ndelete 1\n", ""),
    ("a resized trace", content("loose.sgy"), f"trace 2 {NEW_ONE}", "resize 2 3\n", ""),
    ("bytes of no trace that went, in front of data trailer records", MORE, AT_ITS_END, "set 1 inline 7\ndrop tail\n", "--tail"),
    ("bytes of no trace that went, at the end", LONGER, AT_ITS_END, "set 1 inline 7\ndrop tail\n", "--tail"),
]


@pytest.mark.parametrize("place", ["", "--on-disk"], ids=["in memory", "on disk"])
@pytest.mark.parametrize("made, text, script, options", [pytest.param(*row[1:], id=row[0]) for row in UNFIT])
def test_edits_that_need_a_new_file(room, made, text, script, options, place):
    anew(room, made)
    ended = room.ask(OWN, script, *options.split(), *place.split(), "--in-place")
    assert ended.status == 4
    assert ended.lines() == [NOTHING_SAVED, f"segywb: {OWN}: {text}; that needs a new file: save with --out, without --in-place"]
    assert same(room.get(OWN), made)
    assert alone(room)


def test_a_refused_line_and_stop(begun):
    ended = begun.run(OWN, "--script", begun.put("lines", "set 2 inline 7\nbogus\nmove 1 2\n"), "--stop", "--in-place")
    assert (ended.status, ended.lines()[0]) == (1, "segywb: lines:2: S01 unknown word: bogus")
    assert same(begun.get(OWN), content("s.sgy"))
    assert alone(begun)


# ---- links, modes, names
def repair(room, *words, file=OWN, **more):
    """A repair of FILE by the script."""
    return room.run(file, "--script", "script", *words, "--in-place", **more)


def test_by_a_link_the_other_name_of_file_has_the_repair_too_and_the_link_and_the_mode_stay(begun):
    os.link(begun.path(OWN), begun.path("room/hard.sgy"))
    os.symlink(OWN, begun.path("link.sgy"))
    os.chmod(begun.path(OWN), 0o640)
    assert repair(begun, file="link.sgy").status == 0
    assert same(begun.get("room/hard.sgy"), begun.get("whole.sgy"))
    assert os.readlink(begun.path("link.sgy")).decode() == OWN
    assert stat.S_IMODE(os.stat(begun.path(OWN)).st_mode) == 0o640


def test_a_name_of_235_bytes(begun):
    begun.put("room/" + "x" * 235, content("s.sgy"))
    repair(begun, file="room/" + "x" * 235)
    assert same(begun.get("room/" + "x" * 235), begun.get("whole.sgy"))


def test_a_name_with_which_no_journal_can_be_made_is_read_as_ever(begun):
    name = "room/" + "x" * 255
    begun.put(name, content("s.sgy"))
    ended = repair(begun, file=name)
    assert ended.status == 4
    assert b"File name too long" in ended.errors
    assert same(begun.get(name), content("s.sgy"))
    assert begun.run(name, "--script", "script").answers == begun.whole


def test_a_name_in_the_folder_itself(begun):
    begun.folder = begun.folder / "room"
    ended = begun.run("o.sgy", "--script", "../script", "--in-place")
    begun.folder = begun.folder.parent
    check_is(begun, ended, 0, None, begun.get("whole.sgy"))


def test_a_link_to_a_name_that_is_no_utf_8_is_read_as_ever_and_cannot_be_repaired(begun):
    name = b"room/no text \xff.sgy"
    begun.put(name, content("s.sgy"))
    os.symlink(name, begun.path(b"link.sgy"))
    assert begun.run("link.sgy", "--script", "script").answers == begun.whole
    ended = repair(begun, file="link.sgy")
    assert (ended.status, ended.lines()[0]) == (4, NOTHING_SAVED)
    assert same(begun.get(name), content("s.sgy"))


def test_a_pipe_is_none(begun):
    begun.feed("pipe", content("s.sgy"))
    ended = repair(begun, file="pipe")
    assert (ended.status, ended.errors) == (3, b"segywb: --in-place needs a file on disk, and pipe is none\n")


def test_no_file_to_recover(room):
    ended = room.run("absent.sgy", "--recover")
    assert ended.status == 3
    assert [line.startswith("segywb: cannot open absent.sgy to be recovered (") for line in ended.lines()] == [True]


def check_is(room, ended, status, error, wanted):
    """How a run ended: its status, the first line of standard error, and that FILE has these bytes, and is alone."""
    assert ended.status == status
    assert (ended.lines() or [None])[0] == error
    assert same(room.get(OWN), wanted)
    assert alone(room)


# ---- a journal that is there: FILE is refused, until it is recovered
@pytest.fixture
def journal(begun, fail_save):
    """A repair whose journal could not be taken away; gives back the room, and the journal is `kept`."""
    ended = leaves_journal(begun, fail_save)
    assert (ended.status, ended.lines()[0]) == (4, "segywb: saved, but a power cut may undo it")
    assert same(begun.get(OWN), begun.get("whole.sgy"))
    begun.put("kept", begun.get(JOURNAL))
    return begun


REFUSED = [
    "--script script", "--script script --on-disk", "--session", "--session --on-disk", "--script script --in-place",
    f"--script script --out {OWN}", "--script script --out other.sgy",
]


@pytest.mark.parametrize("words", REFUSED)
def test_a_journal_is_there(journal, words):
    ended = journal.run(OWN, *words.split())
    assert (ended.status, ended.answers, ended.errors.decode()) == (3, b"", CUT_OFF + "\n")
    check_untouched(journal)
    assert not journal.has("other.sgy")


def check_untouched(room):
    """That FILE has the repair, and its journal is there."""
    assert same(room.get(OWN), room.get("whole.sgy"))
    assert same(room.get(JOURNAL), room.get("kept"))


def test_nor_is_another_file_saved_over_it(journal):
    ended = journal.run("s.sgy", "--script", "script", "--out", OWN)
    told = f"segywb: {OWN}: an earlier repair of it was cut off; segywb {OWN} --recover puts the old bytes back"
    assert (ended.status, ended.lines()[-1]) == (4, told)
    check_untouched(journal)


def test_nor_by_a_session(journal):
    ended = journal.run("s.sgy", "--session", "--out", OWN, entered=b"save\n")
    assert (ended.status, ended.answers) == (4, b"")
    assert b"cut off; segywb" in ended.errors
    check_untouched(journal)


def test_a_recovery_one_more_that_has_nothing_to_do_and_a_repair_behind_it(journal):
    ended = journal.run(OWN, "--recover")
    assert ended.answers.decode() == f"{OWN}: 4 old bytes in 1 pieces put back\n"
    check_is(journal, ended, 0, None, content("s.sgy"))
    ended = journal.run(OWN, "--recover")
    assert ended.answers.decode() == f"{OWN}: no journal stands beside it\n"
    check_is(journal, ended, 0, None, content("s.sgy"))
    check_is(journal, repair(journal), 0, None, journal.get("whole.sgy"))


# ---- what is no journal of FILE is refused, and nothing is written
def check_rotten(room, reason):
    """That FILE cannot be recovered by what stands under the journal's name."""
    spoilt, before = room.get(JOURNAL), room.get(OWN)
    ended = room.run(OWN, "--recover")
    assert ended.status == 3
    assert any(re.search(f"{reason}; nothing was written$", line) for line in ended.lines()), ended.errors
    assert same(room.get(OWN), before)
    assert same(room.get(JOURNAL), spoilt)


ROTTEN = "it is cut or rotten"


def test_a_journal_with_a_byte_more(journal):
    journal.put(JOURNAL, journal.get("kept") + b"x")
    check_rotten(journal, ROTTEN)


@pytest.mark.parametrize("part", range(4))
def test_a_journal_that_is_cut_anywhere(journal, part):
    kept = journal.get("kept")
    for length in range(part, len(kept), 4):
        journal.put(JOURNAL, kept[:length])
        check_rotten(journal, ".*")


@pytest.mark.parametrize("part", range(4))
def test_a_journal_that_is_rotten_anywhere(journal, part):
    kept = journal.get("kept")
    for place in range(part, len(kept), 4):
        journal.put(JOURNAL, changed(kept, f"{place} {kept[place] ^ 64:02x}"))
        check_rotten(journal, ".*")


def test_a_journal_of_another_file_and_of_one_of_another_length(journal):
    journal.put("again.sgy", journal.get(OWN))
    os.replace(journal.path("again.sgy"), journal.path(OWN))
    check_rotten(journal, "it is a journal of another file")
    with open(journal.path(OWN), "ab") as file:
        file.write(b"X")
    check_rotten(journal, "it is a journal of a file of another length")


# ---- a journal of a file that is gone: FILE was made anew, and got its inode
def born_at(room, number):
    """The journal is one of a file that was made at this time, in nanoseconds since 1970."""
    made = changed(room.get("kept")[:-16], f"32 {number.to_bytes(8, 'little').hex()}")
    room.put(JOURNAL, made + hashlib.md5(made).digest())


def test_a_journal_of_a_file_that_is_gone(journal):
    born = subprocess.run(["stat", "-c", "%W", journal.path(OWN)], capture_output=True, text=True, check=False).stdout.strip()
    if born in ("", "0", "-", "?"):
        pytest.skip("this file system does not tell the time of birth of a file")
    born_at(journal, 1)
    check_rotten(journal, "it is a journal of a file that is gone, and FILE was made anew since")


def test_a_journal_of_a_file_system_that_did_not_tell_when_file_was_made(journal):
    born_at(journal, 0)
    check_is(journal, journal.run(OWN, "--recover"), 0, None, content("s.sgy"))


# ---- limits on the size of a file, and full disks
def test_a_limit_below_the_journal(begun):
    ended = begun.run(OWN, "--script", begun.put("lines", "text 1 new\n"), "--in-place", limits=[(resource.RLIMIT_FSIZE, 1024)])
    check_is(begun, ended, 4, NOTHING_SAVED, content("s.sgy"))
    assert b"cannot make its journal" in ended.errors


def test_a_limit_below_the_place_that_is_written(begun):
    # a sample behind the limit
    begun.put(OWN, content("v.sgy"))
    ended = begun.run(OWN, "--script", begun.put("lines", "patch 3 60000 5\n"), "--in-place", limits=[(resource.RLIMIT_FSIZE, 65536)])
    check_is(begun, ended, 4, NOTHING_SAVED, content("v.sgy"))


def test_a_disk_without_room_for_the_journal(room, disk):
    disk("140k")
    room.put("disk/o.sgy", content("v.sgy"))
    room.put("lines", "patch 3 0 " + " ".join(str(n) for n in range(1, 5001)) + "\n")
    ended = room.run("disk/o.sgy", "--script", "lines", "--in-place")
    assert ended.status == 4
    assert same(room.get("disk/o.sgy"), content("v.sgy"))
    assert room.names("disk") == ["o.sgy"]
    assert re.search("cannot make its journal.*No space left", ended.errors.decode())


# ---- FILE is changed meanwhile, and two at once
def touched(room):
    os.utime(room.path(OWN), (981158400, 981158400))


def written(room):
    with open(room.path(OWN), "r+b") as file:
        file.seek(3700)
        file.write(b"\1")


def replaced(room):
    room.put("room/g.sgy", content("s.sgy"))
    os.replace(room.path("room/g.sgy"), room.path(OWN))


def removed(room):
    os.remove(room.path(OWN))


@pytest.fixture
def waiting(begun):
    """A repair that has FILE open and locked, and waits for its script: the run, and the pipe to it."""
    os.mkfifo(begun.path("gate"))
    running = begun.start(OWN, "--script", "gate", "--in-place")
    with open(begun.path("gate"), "wb") as gate:
        is_locked(begun)
        yield running, gate
    running.kill()
    running.communicate()


@pytest.mark.parametrize("change", [touched, written, replaced, removed])
def test_file_is_changed_meanwhile(begun, waiting, change):
    running, gate = waiting
    change(begun)
    left = begun.get(OWN) if begun.has(OWN) else None
    assert (left is None) == (change is removed)
    gate.write(SCRIPT.encode())
    gate.close()
    _, errors = running.communicate(timeout=LONGEST)
    assert (running.returncode, errors.decode().splitlines()[0]) == (4, CHANGED)
    # FILE is as the other program left it, and nothing is beside it
    assert begun.names("room") == ([] if left is None else ["o.sgy"])
    assert left is None or same(begun.get(OWN), left)


def test_two_at_once(begun, waiting):
    running, gate = waiting
    ended = repair(begun)
    in_use = "another run of segywb has it in use, a repair, a recovery or one with --out; try again when that has ended"
    assert (ended.status, ended.lines()[-1]) == (4, f"segywb: {OWN}: {in_use}")
    assert begun.run(OWN, "--recover").status == 4
    # a query is answered
    assert begun.run(OWN, "--script", "script").answers == begun.whole
    ended = begun.run("s.sgy", "--script", "script", "--out", OWN)
    assert (ended.status, ended.lines()[-1]) == (4, f"segywb: {OWN}: a repair of it is under way; wait for its end")
    gate.write(SCRIPT.encode())
    gate.close()
    _, errors = running.communicate(timeout=LONGEST)
    assert (running.returncode, errors) == (0, b"")
    assert same(begun.get(OWN), begun.get("whole.sgy"))
    assert alone(begun)
