"""A repair of FILE itself under failures: each call of it fails in turn, each growth of memory is refused, it is killed at many moments, and
so is the recovery: FILE is then the old file or the edited one, or its journal gives the old one back."""

import hashlib
import os
import time

import pytest

from files import content
from repairs import JOURNAL, OWN, alone, anew, begin, leaves_journal
from running import same


@pytest.fixture
def begun(room):
    """A room with FILE, a script, and what a save of it gives."""
    return begin(room)


def forget(room, name):
    """Takes a file away, where it is there."""
    if room.has(name):
        os.remove(room.path(name))


# ---- each call fails in turn, once, for good, and for want of room
HOW = [{}, {"FAIL_ALL": "1"}, {"FAULT": "28"}]
LEAST = {
    "open": 2, "write": 1, "pread": 1, "pwrite": 1, "fsync": 5, "flock": 1, "rename": 1, "unlink": 2, "realpath": 1, "stat": 1, "fstat": 1,
}
TURNS = [(call, least, how) for how in HOW for call, least in LEAST.items()]


def check_turn(room, ended):
    """How a repair ends of which a call failed: FILE is the old one or the whole one, or torn with a journal, and can be recovered."""
    old, whole = content("s.sgy"), room.get("whole.sgy")
    told = ended.lines()
    if ended.status == 0:
        assert same(room.get(OWN), whole)
        assert not room.has(JOURNAL)
    elif ended.status in (2, 3):
        assert same(room.get(OWN), old)
        assert alone(room)
    elif "segywb: saved, but a power cut may undo it" in told:
        assert same(room.get(OWN), whole)
    elif any(line.startswith("segywb: save failed, and FILE holds a part") for line in told):
        assert room.has(JOURNAL)
    else:
        assert ended.status == 4
        assert same(room.get(OWN), old)
    if room.has(JOURNAL):
        assert room.run(OWN, "--recover").status == 0
        assert same(room.get(OWN), old)
        assert alone(room)


@pytest.mark.parametrize("call, least, how", TURNS, ids=[" ".join([call, *how]) for call, _, how in TURNS])
def test_each_call_fails_in_turn(begun, fail_save, call, least, how):
    for number in range(1, 61):
        forget(begun, "done")
        anew(begun)
        environment = {**fail_save, **how, "FAIL_CALL": call, "FAIL_NTH": str(number), "DONE": "done"}
        ended = begun.run(OWN, "--script", "script", "--in-place", environment=environment)
        if not begun.has("done"):
            break
        check_turn(begun, ended)
    assert number - 1 >= least


# and those of a recovery, which can be made again
@pytest.mark.parametrize("call", ["open", "pread", "pwrite", "fsync", "flock", "unlink", "realpath", "stat", "fstat"])
def test_each_call_of_a_recovery_fails_in_turn(begun, fail_save, call):
    old = content("s.sgy")
    for number in range(1, 41):
        forget(begun, "done")
        leaves_journal(begun, fail_save)
        environment = {**fail_save, "FAIL_CALL": call, "FAIL_NTH": str(number), "DONE": "done"}
        ended = begun.run(OWN, "--recover", environment=environment)
        if not begun.has("done"):
            break
        if ended.status == 0:
            assert same(begun.get(OWN), old)
            assert alone(begun)
        if begun.has(JOURNAL):
            assert begun.run(OWN, "--recover").status == 0
        assert same(begun.get(OWN), old)
        assert alone(begun)
    assert number > 1


# ---- each growth of memory is refused in turn: FILE is old, or it is new and that is said
def growths(room, library, number, *words):
    """A run whose growth of this number is refused, and whether it asked for so many."""
    forget(room, "count")
    ended = room.run(OWN, *words, environment={"LD_PRELOAD": library, "REFUSE": str(number), "REFUSE_COUNT": "count"})
    return ended, room.has("count") and int(room.get("count")) >= number


def test_each_growth_is_refused_in_turn(begun, growth_library):
    old, whole = content("s.sgy"), begun.get("whole.sgy")
    wanted = {0: [whole], 1: [old, whole]}
    for number in range(1, 400):
        anew(begun)
        ended, met = growths(begun, growth_library, number, "--script", "script", "--in-place")
        assert alone(begun)
        assert begun.get(OWN) in wanted.get(ended.status, [old])
        if not met:
            break
    assert 5 < number < 399


def test_each_growth_of_a_recovery_is_refused_in_turn(begun, fail_save, growth_library):
    old, whole = content("s.sgy"), begun.get("whole.sgy")
    for number in range(1, 100):
        leaves_journal(begun, fail_save)
        ended, met = growths(begun, growth_library, number, "--recover")
        if not met:
            break
        recovered = ended.status == 0 and begun.get(OWN) == old
        assert recovered or (begun.has(JOURNAL) and begun.get(OWN) == whole)
    assert 2 < number < 99


# ---- a kill at any moment of a repair and of its recovery
TRACES = 131072
LARGE = content("s.sgy")[:3600] + content("s.sgy")[3600:3844] * TRACES
OLD = hashlib.md5(LARGE).hexdigest()
LINES = f"renumber 1 {TRACES} @9:4 1 1\ncompute 1 {TRACES} x x + 1\n"


def digest(room, name):
    """A file in few bytes, for large ones."""
    return hashlib.md5(room.get(name)).hexdigest()


def kill_after(room, words, seconds):
    """A run that is killed."""
    with room.start(*words) as running:
        time.sleep(seconds)
        running.kill()


def check_killed(room, new, number):
    """What a killed repair leaves; whether it was a journal. The recovery is killed too."""
    left = room.has(JOURNAL)
    if left:
        assert room.run(OWN, "--script", "script").status == 3
        kill_after(room, [OWN, "--recover"], number % 10 / 100)
        assert room.run(OWN, "--recover").status == 0
        assert digest(room, OWN) == OLD
    else:
        assert digest(room, OWN) in (OLD, new)
        assert room.run(OWN, "--recover").status == 0
    assert alone(room)
    return left


# of 60 moments, each worker tries some
@pytest.mark.parametrize("part", range(4))
def test_a_kill_leaves_the_old_file_the_new_one_or_a_journal_that_gives_the_old_one_back(begun, part):
    begun.put("large.sgy", LARGE)
    begun.put("lines", LINES)
    begun.run("large.sgy", "--script", "lines", "--out", "new.sgy")
    new = digest(begun, "new.sgy")
    words = [OWN, "--script", "lines", "--in-place"]
    anew(begun, LARGE)
    started = time.monotonic()
    begun.run(*words)
    took = time.monotonic() - started
    assert digest(begun, OWN) == new != OLD
    for number in range(1 + part, 61, 4):
        anew(begun, LARGE)
        kill_after(begun, words, took * (0.3 + 0.75 * number / 60))
        check_killed(begun, new, number)
