"""A save never costs the only copy: each call of a save fails in turn, it is killed at many moments, the disk is full, the folder may not
be written, OUT leads elsewhere, FILE is changed meanwhile. OUT is then the old file or the whole new one."""

import hashlib
import os
import re
import resource
import stat
import time

import pytest

from files import content
from running import LONGEST, same

SCRIPT = "set 2 @189:4 7\nget 2 @189:4\n"
ANSWERS = b"ok\nvalue 7\n"
OUT = "room/o.sgy"
FAILED = "segywb: save failed after {} bytes"
CHANGED = "segywb: FILE was changed by another program"


@pytest.fixture
def begun(room):
    """The survey, a script, what a run of it saves, and a folder with an OUT that is the survey."""
    room.make("s.sgy")
    room.put("script", SCRIPT)
    ended = room.run("s.sgy", "--script", "script", "--out", "whole.sgy")
    assert (ended.status, ended.answers, ended.errors) == (0, ANSWERS, b"")
    os.mkdir(room.path("room"))
    anew(room)
    return room


def anew(room):
    """OUT is the survey again, and alone."""
    for name in room.names("room"):
        os.remove(room.path(f"room/{name}"))
    room.put(OUT, content("s.sgy"))


def left(room):
    """What a save left beside OUT."""
    return [name for name in room.names("room") if name != "o.sgy"]


def save(room, file="s.sgy", *words, **more):
    """A run with an OUT."""
    return room.run(file, "--script", "script", "--out", OUT, *words, **more)


def check_end(room, ended, status, error, wanted):
    """How a run ended: its status, the first of two lines of standard error or none, and that OUT has these bytes and stands alone."""
    assert ended.status == status
    if error:
        assert ended.lines()[0] == error
        assert len(ended.lines()) == 2
    else:
        assert ended.errors == b""
    assert same(room.get(OUT), wanted)
    assert left(room) == []


# ---- each call fails in turn, once and for good: OUT is old, or new where the sync of the folder failed; and nothing is left
HOW = [{}, {"FAIL_ALL": "1"}, {"FAULT": "28"}]
LEAST = {"open": 3, "write": 1, "fsync": 2, "fchmod": 1, "close": 2, "rename": 1, "realpath": 1, "stat": 1, "fstat": 1}
TURNS = [(call, least, how) for how in HOW for call, least in LEAST.items()] + [("unlink", 1, {})]


def check_turn(room, call, ended):
    """How a run ends of which a call failed; gives back whether it was the sync of the folder."""
    whole, old = room.get("whole.sgy"), content("s.sgy")
    assert len(left(room)) <= (2 if call == "unlink" else 0)
    if ended.status == 0:
        # a call that a save can do without, as the owner of a file
        assert same(room.get(OUT), whole)
    elif "segywb: saved, but a power cut may undo it" in ended.lines():
        assert ended.status == 4
        assert same(room.get(OUT), whole)
        return True
    else:
        assert ended.status in (3, 4)
        assert same(room.get(OUT), old)
        told = re.fullmatch("segywb: save failed after [0-9]+ bytes", ended.lines()[0])
        assert ended.status == 3 or told or CHANGED in ended.lines()
    return False


@pytest.mark.parametrize("call, least, how", TURNS, ids=[" ".join([call, *how]) for call, _, how in TURNS])
def test_each_call_fails_in_turn(begun, fail_save, call, least, how):
    settled = 0
    for number in range(1, 100):
        anew(begun)
        if begun.has("done"):
            os.remove(begun.path("done"))
        ended = save(begun, environment={**fail_save, **how, "FAIL_CALL": call, "FAIL_NTH": str(number), "DONE": "done"})
        if not begun.has("done"):
            break
        settled += check_turn(begun, call, ended)
    assert least < number < 99
    assert call != "fsync" or settled == 1


# FILE that cannot be looked at, when it is opened and before the save
def test_file_cannot_be_looked_at(begun, fail_save):
    ended = save(begun, environment={**fail_save, "FAIL_CALL": "fstat", "FAIL_NTH": "1"})
    assert ended.status == 3
    assert any(line.startswith("segywb: cannot look at s.sgy (") for line in ended.lines())


def test_nor_before_the_save(begun, fail_save):
    unseen = 0
    for number in range(1, 41):
        ended = save(begun, environment={**fail_save, "FAIL_CALL": "stat", "FAIL_NTH": str(number)})
        unseen += ended.status == 4 and any(re.match("segywb: s.sgy: cannot be looked at, .* is as it was", line) for line in ended.lines())
    assert unseen >= 1


# ---- a kill at any moment: OUT is the old file or the new one, and a later save is not hindered by what was left
LARGE = content("s.sgy")[:3600] + content("s.sgy")[3600:3844] * 256 * 960


def digest(room, name):
    """A file in few bytes, for large ones."""
    return hashlib.md5(room.get(name)).hexdigest()


def kill_after(room, words, seconds):
    """A run that is killed; whether it ended before."""
    with room.start(*words) as running:
        time.sleep(seconds)
        running.kill()


def killed_saves(room, words, moments, last):
    """A save over FILE itself is killed at these moments of so many; gives back those at which FILE was torn."""
    started = time.monotonic()
    room.run(*words)
    took = time.monotonic() - started
    new, old, torn = digest(room, OUT), hashlib.md5(LARGE).hexdigest(), []
    for number in moments:
        room.put(OUT, LARGE)
        kill_after(room, words, took * (0.2 + number / (last * 1.1)))
        if digest(room, OUT) not in (new, old):
            torn.append(number)
    return torn


# of 50 moments, each worker tries some
@pytest.mark.parametrize("part", range(2))
def test_a_kill_leaves_file_whole_old_or_new(begun, part):
    begun.put(OUT, LARGE)
    begun.put("one", "set 2 @189:4 7\n")
    words = [OUT, "--script", "one", "--out", OUT]
    assert killed_saves(begun, words, range(1 + part, 51, 2), 50) == []
    assert [name for name in left(begun) if not re.fullmatch(r"\.o\.sgy\.segywb-[0-9]*", name)] == []
    # a later save takes away what was left
    begun.put("room/.o.sgy.segywb-0", "")
    begun.put(OUT, LARGE)
    begun.run(OUT, "--script", "one", "--out", "new.sgy")
    assert begun.run(*words).status == 0
    assert digest(begun, OUT) == digest(begun, "new.sgy")
    assert left(begun) == []


# ---- two saves at once: one of the two whole files stays
@pytest.fixture
def two(begun):
    """Two scripts, `one` and `other`, and what saves of them over a large file give."""
    begun.put("large.sgy", LARGE)
    for name, number in (("one", 7), ("other", 8)):
        begun.put(name, f"set 2 @189:4 {number}\n")
        begun.run("large.sgy", "--script", name, "--out", f"{name}.sgy")
    return {digest(begun, "one.sgy"), digest(begun, "other.sgy")}


def test_two_saves_at_once_leave_one_of_two_whole_files(begun, two):
    assert len(two) == 2
    for _ in range(10):
        begun.put(OUT, LARGE)
        both = [begun.start("large.sgy", "--script", name, "--out", OUT) for name in ("one", "other")]
        assert [running.communicate() and running.returncode for running in both] == [0, 0]
        assert digest(begun, OUT) in two
        assert left(begun) == []


# ---- modes and owners
MODES = [0o640, 0o600, 0o400, 0o644, 0o755, 0o4755]


def mode(room, name):
    """The mode of a file."""
    return stat.S_IMODE(os.stat(room.path(name)).st_mode)


@pytest.mark.parametrize("bits", MODES, ids=[f"{bits:o}" for bits in MODES])
def test_mode_stays(begun, bits):
    os.chmod(begun.path(OUT), bits)
    check_end(begun, save(begun), 0, "", begun.get("whole.sgy"))
    assert mode(begun, OUT) == bits & 0o777


@pytest.mark.parametrize("bits", MODES, ids=[f"{bits:o}" for bits in MODES])
def test_a_new_file_has_the_mode_of_file(begun, bits):
    begun.put("f.sgy", content("s.sgy"))
    os.chmod(begun.path("f.sgy"), bits)
    os.remove(begun.path(OUT))
    save(begun, "f.sgy")
    assert mode(begun, OUT) == bits & 0o777


def test_a_file_from_a_pipe_has_the_mode_that_the_umask_leaves(begun):
    before = os.umask(0o027)
    try:
        begun.run("/dev/stdin", "--script", "script", "--out", "room/piped.sgy", entered=content("s.sgy"))
    finally:
        os.umask(before)
    assert mode(begun, "room/piped.sgy") == 0o640


@pytest.mark.skipif(os.getuid() != 0, reason="the owner of another may not be given here")
def test_the_owner_the_group_and_the_mode_stay(begun):
    os.chown(begun.path(OUT), 12345, 54321)
    os.chmod(begun.path(OUT), 0o640)
    save(begun, OUT)
    about = os.stat(begun.path(OUT))
    assert same(begun.get(OUT), begun.get("whole.sgy"))
    assert (about.st_uid, about.st_gid, mode(begun, OUT)) == (12345, 54321, 0o640)


# ---- links and names
def test_through_a_link(begun):
    os.symlink(OUT, begun.path("link"))
    check_end(begun, begun.run("s.sgy", "--script", "script", "--out", "link"), 0, "", begun.get("whole.sgy"))
    assert os.readlink(begun.path("link")).decode() == OUT


def test_file_by_a_link_and_out_by_its_name(begun):
    os.symlink(OUT, begun.path("link"))
    check_end(begun, save(begun, "link"), 0, "", begun.get("whole.sgy"))


def test_a_link_to_nothing_stays_a_link(begun):
    os.remove(begun.path(OUT))
    os.symlink(OUT, begun.path("link"))
    check_end(begun, begun.run("s.sgy", "--script", "script", "--out", "link"), 0, "", begun.get("whole.sgy"))
    assert os.path.islink(begun.path("link"))


def test_a_link_to_a_link_to_nothing(begun):
    os.remove(begun.path(OUT))
    os.symlink("../room/o.sgy", begun.path("room/second"))
    os.symlink("room/second", begun.path("link"))
    assert begun.run("s.sgy", "--script", "script", "--out", "link").status == 0
    assert same(begun.get(OUT), begun.get("whole.sgy"))
    assert os.path.islink(begun.path("room/second"))


def test_another_hard_link_keeps_the_old_bytes(begun):
    begun.put("copy.sgy", content("s.sgy"))
    os.link(begun.path("copy.sgy"), begun.path("hard.sgy"))
    begun.run("copy.sgy", "--script", "script", "--out", "copy.sgy")
    assert same(begun.get("copy.sgy"), begun.get("whole.sgy"))
    assert same(begun.get("hard.sgy"), content("s.sgy"))


LONG_NAMES = ["x" * length for length in (255, 254, 231, 230, 229)] + ["ä" * 127]


@pytest.mark.parametrize("name", LONG_NAMES, ids=[f"{len(name.encode())} bytes" for name in LONG_NAMES])
def test_a_long_name(begun, name):
    assert begun.run("s.sgy", "--script", "script", "--out", f"room/{name}").status == 0
    assert same(begun.get(f"room/{name}"), begun.get("whole.sgy"))


def test_a_name_in_the_folder_itself(begun):
    begun.folder = begun.folder / "room"
    ended = begun.run("o.sgy", "--script", "../script", "--out", "o.sgy")
    begun.folder = begun.folder.parent
    check_end(begun, ended, 0, "", begun.get("whole.sgy"))


# ---- bad names of OUT are told before FILE is loaded
BAD = [
    ("OUT is a folder", "room", "room: Is a directory"),
    ("OUT is this folder", ".", r"\.: Is a directory"),
    ("OUT ends in a slash", "room/", "room/: Is a directory"),
    ("OUT is a file and ends in a slash", "plain/", "plain/: Is a directory"),
    ("OUT is empty", "", ": No such file or directory"),
    ("OUT is a link to itself", "loop", "loop: Too many levels of symbolic links"),
    ("OUT is a link in a circle", "one-way", "one-way: Too many levels of symbolic links"),
    ("the folder of OUT is not there", "none/o.sgy", "none/o.sgy: No such file or directory"),
    ("the folder of OUT is a file", "plain/o.sgy", "plain/o.sgy: Not a directory"),
    ("OUT has too long a name", "x" * 256, "File name too long"),
]


@pytest.mark.parametrize("name, reason", [pytest.param(*row[1:], id=row[0]) for row in BAD])
def test_bad_names_of_out(begun, name, reason):
    begun.put("torn.sgy", content("s.sgy")[:4000])
    begun.put("plain", "")
    for link, target in (("loop", "loop"), ("one-way", "other-way"), ("other-way", "one-way")):
        os.symlink(target, begun.path(link))
    ended = begun.run("torn.sgy", "--script", "script", "--out", name)
    assert (ended.status, ended.answers) == (4, b"")
    assert ended.lines()[0] == FAILED.format(0)
    assert any(re.match(f"segywb: .*{reason}", line) for line in ended.lines())


# ---- words that do not go together: nothing is read, and nothing written
IS_SCRIPT = "--out names SCRIPT itself"
ANOTHER = "--in-place repairs FILE itself, and --out names another file"
FILE_IS_SCRIPT = "--in-place, and FILE is SCRIPT itself"
RECOVERY = "--recover stands alone: segywb FILE --recover"
MISUSED = [
    *[(f"s.sgy --script script --out {name}", IS_SCRIPT) for name in ("script", "./script", "link", "hard", "{folder}/script")],
    ("s.sgy --script link --out script", IS_SCRIPT),
    ("absent.sgy --script script --out script", IS_SCRIPT),
    ("s.sgy --script script --out room/o.sgy --in-place", ANOTHER),
    ("s.sgy --script script --out absent.sgy --in-place", ANOTHER),
    ("script --script script --in-place", FILE_IS_SCRIPT),
    ("link --script hard --in-place", FILE_IS_SCRIPT),
    ("s.sgy --session --in-place --out room/o.sgy", ANOTHER),
    ("s.sgy --session --save-at-end", "--save-at-end needs --out, or --in-place"),
    *[
        (f"s.sgy --recover {words}", RECOVERY)
        for words in (
            "--script script", "--session", "--out o.sgy", "--in-place", "--save-at-end", "--on-disk", "--fixed", "--floats",
            "--opaque-samples", "--order big", "--samples 4", "--format 3", "--texts 1", "--tail", "--max-bytes 9", "--look", "--stop",
        )
    ],
]


@pytest.mark.parametrize("words, text", MISUSED, ids=[words for words, _ in MISUSED])
def test_words_that_do_not_go_together(begun, words, text):
    os.symlink("script", begun.path("link"))
    os.link(begun.path("script"), begun.path("hard"))
    ended = begun.run(*words.format(folder=begun.folder).split())
    assert (ended.status, ended.answers, ended.errors.decode()) == (2, b"", f"segywb: {text}\n")
    assert begun.get("script") == SCRIPT.encode()
    assert same(begun.get(OUT), content("s.sgy"))


def test_out_is_script_on_standard_input(begun):
    with open(begun.path("script"), "rb") as lines:
        ended = begun.run("s.sgy", "--script", "/dev/stdin", "--out", "script", stdin=lines)
    assert ended.status == 2
    assert begun.get("script") == SCRIPT.encode()


@pytest.mark.parametrize("name", ["/dev/stdout", "/dev/fd/1", "/proc/self/fd/1", "told"])
def test_out_is_the_file_of_the_answers(begun, name):
    begun.put("told", "kept\n")
    with open(begun.path("told"), "ab") as answers:
        ended = begun.run("s.sgy", "--script", "script", "--out", name, stdout=answers)
    assert (ended.status, ended.errors) == (2, b"segywb: --out names the file that the answers go to\n")
    assert begun.get("told") == b"kept\n"


def test_standard_output_that_is_a_pipe(begun):
    ended = begun.run("s.sgy", "--script", "script", "--out", "/dev/stdout")
    assert same(ended.answers, ANSWERS + begun.get("whole.sgy"))


def test_dev_null_as_script_and_out(begun):
    ended = begun.run("s.sgy", "--script", "/dev/null", "--out", "/dev/null")
    assert (ended.status, ended.errors) == (0, b"")
    assert stat.S_ISCHR(os.stat("/dev/null").st_mode)


def test_a_pipe(begun):
    taken = begun.taking("pipe")
    ended = begun.run("s.sgy", "--script", "script", "--out", "pipe")
    assert ended.status == 0
    assert stat.S_ISFIFO(os.stat(begun.path("pipe")).st_mode)
    assert same(taken(), begun.get("whole.sgy"))


# ---- limits on the size of a file, and full disks
@pytest.fixture
def varying(begun):
    """The file whose traces have their own numbers of samples, and what a run of the script `one` saves of it."""
    begun.make("v.sgy")
    begun.put("one", "set 2 inline 7\n")
    begun.run("v.sgy", "--script", "one", "--out", "whole_v.sgy")
    return begun


@pytest.mark.parametrize("blocks", [0, 1, 64, 131])
def test_a_limit_on_the_size_of_a_file(varying, blocks):
    limits = [(resource.RLIMIT_FSIZE, 1024 * blocks)]
    ended = varying.run("v.sgy", "--script", "one", "--out", OUT, limits=limits)
    check_end(varying, ended, 4, FAILED.format(1024 * blocks), content("s.sgy"))


def test_a_limit_that_has_room(varying):
    ended = varying.run("v.sgy", "--script", "one", "--out", OUT, limits=[(resource.RLIMIT_FSIZE, 1024 * 133)])
    check_end(varying, ended, 0, "", varying.get("whole_v.sgy"))


def test_a_full_disk_and_in_place(varying, disk):
    disk("256k")
    varying.put("disk/o.sgy", content("v.sgy"))
    ended = varying.run("disk/o.sgy", "--script", "one", "--out", "disk/o.sgy")
    told = ended.errors.decode()
    assert ended.status == 4
    assert same(varying.get("disk/o.sgy"), content("v.sgy"))
    assert varying.names("disk") == ["o.sgy"]
    assert re.search("save failed after [1-9][0-9]* bytes", told)
    assert re.search("No space left.*--in-place", told)
    ended = varying.run("disk/o.sgy", "--script", "one", "--out", "disk/o.sgy", "--in-place")
    assert ended.status == 0
    assert same(varying.get("disk/o.sgy"), varying.get("whole_v.sgy"))


# ---- a folder that may not be written
@pytest.fixture
def locked(begun, nobody):
    """A folder that may not be written, with a file that may, and a program that nobody may run."""
    begun.put("torn.sgy", content("s.sgy")[:4000])
    os.mkdir(begun.path("locked"))
    begun.put("locked/o.sgy", content("s.sgy"))
    os.chmod(begun.path("locked/o.sgy"), 0o666)
    os.chmod(begun.path("locked"), 0o555)
    nobody(begun)
    ended = begun.run("s.sgy", "--script", "script")
    assert (ended.status, ended.answers) == (0, ANSWERS)
    yield begun
    os.chmod(begun.path("locked"), 0o755)


def test_a_folder_that_may_not_be_written(locked):
    ended = locked.run("torn.sgy", "--script", "script", "--out", "locked/o.sgy")
    assert (ended.status, ended.answers) == (4, b"")
    assert ended.lines()[0] == FAILED.format(0)
    assert re.search("Permission denied.*; save elsewhere$", ended.errors.decode(), re.M)
    assert same(locked.get("locked/o.sgy"), content("s.sgy"))


def test_nor_is_there_room_for_a_journal(locked):
    ended = locked.run("locked/o.sgy", "--script", "script", "--in-place")
    assert ended.status == 4
    assert ended.lines()[0] == FAILED.format(0)
    assert re.search(r"cannot make its journal .*/\.o\.sgy\.segywb-journal \(Permission denied", ended.errors.decode())
    assert same(locked.get("locked/o.sgy"), content("s.sgy"))


def test_and_a_file_that_may_not_be_written(locked):
    os.chmod(locked.path("locked/o.sgy"), 0o444)
    ended = locked.run("locked/o.sgy", "--script", "script", "--in-place")
    assert (ended.status, ended.answers) == (4, b"")
    assert ended.lines()[0] == FAILED.format(0)


# ---- FILE is changed while the script is waited for
def written(room):
    with open(room.path("f.sgy"), "r+b") as file:
        file.seek(3700)
        file.write(b"\1")


def replaced(room):
    room.put("g.sgy", content("s.sgy"))
    os.replace(room.path("g.sgy"), room.path("f.sgy"))


def grown(room):
    with open(room.path("f.sgy"), "ab") as file:
        file.write(content("s.sgy")[3600:3844])


def cut_short(room):
    os.truncate(room.path("f.sgy"), 4088)


def touched(room):
    os.utime(room.path("f.sgy"), (981158400, 981158400))


def removed(room):
    os.remove(room.path("f.sgy"))


CHANGES = [(change, True) for change in (touched, written, replaced, grown, cut_short, removed)]
CHANGES += [(change, False) for change in (written, cut_short, removed)]


@pytest.mark.parametrize("change, saves", CHANGES, ids=[f"{change.__name__}{'' if saves else ' without a save'}" for change, saves in CHANGES])
def test_file_is_changed_meanwhile(begun, change, saves):
    begun.put("f.sgy", content("s.sgy"))
    os.mkfifo(begun.path("gate"))
    running = begun.start("f.sgy", "--script", "gate", *(["--out", OUT] if saves else []))
    # the pipe opens once the program has opened FILE
    with open(begun.path("gate"), "wb") as gate:
        change(begun)
        gate.write(SCRIPT.encode())
    _, errors = running.communicate(timeout=LONGEST)
    assert running.returncode == (4 if saves else 0), errors
    assert errors.decode().splitlines()[0] == CHANGED
    assert same(begun.get(OUT), content("s.sgy"))
    assert left(begun) == []


def test_file_that_stays_as_it_is(begun):
    begun.put("f.sgy", content("s.sgy"))
    ended = begun.run("f.sgy", "--script", "script")
    assert (ended.status, ended.errors) == (0, b"")
