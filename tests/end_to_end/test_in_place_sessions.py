"""Sessions that repair FILE itself: each line `save` does; what fails, what needs a new file, and what another program does meanwhile."""

import os
import time

import pytest

from files import content
from repairs import JOURNAL, NOTHING_SAVED, OWN, alone, anew, begin
from running import same
from sessions import Session


@pytest.fixture
def begun(room):
    """A room with FILE, a script, and what a save of it gives."""
    return begin(room)


# ---- FILE is, behind each `save` of these lines, what a save with --out of all lines before it is
TEXT_3 = content("s.sgy")[160:240].decode("cp037").rstrip()
SAVES = [
    (
        "a number, another, and the old one again", "s.sgy",
        "set 2 @189:4 7 ; save ; set 2 @189:4 8 ; save ; save ; set 2 @189:4 10 ; save ; set 3 @189:4 1 ; save",
    ),
    ("the textual header, and the old one again", "s.sgy", f"text 3 repaired ; save ; text 3 {TEXT_3} ; save ; set 1 @1:4 9 ; save"),
    ("the binary header, and the old number again", "s.sgy", "bin interval 2000 ; save ; set 1 @5:4 3 ; bin interval 4000 ; save"),
    (
        "traces that are where they were again", "s.sgy",
        "set 1 inline 4 ; save ; move 1 3 ; set 2 inline 9 ; move 3 1 ; save ; set 1 inline 100 ; save",
    ),
    ("a new trace that is gone again", "s.sgy", "set 1 inline 4 ; save ; copy 1 4 ; delete 4 ; set 1 inline 100 ; save"),
    ("samples", "s.sgy", "patch 2 0 7 8 ; save ; patch 2 0 3 ; patch 3 1 5 ; save ; patch 2 1 4 ; save"),
    ("runs that grow together, behind saves", "s.sgy", "set 1 @17:4 9 ; save ; set 1 @21:4 1 ; set 1 @20:1 5 ; save ; set 1 @1:8 -2 ; save"),
    (
        "a number and both headers at once, and the old ones again", "s.sgy",
        "set 2 @189:4 7 ; text 1 A ; bin interval 9 ; save ; save ; set 2 @189:4 10 ; text 1 C ; bin interval 4000 ; set 3 @189:4 5 ; save",
    ),
    ("no edit", "s.sgy", "save ; save"),
    *[
        (f"of each framing: {name}", name, "set 1 @1:4 9 ; set 1 @240:1 1 ; save ; set 1 @1:4 10 ; save ; set 1 @1:4 9 ; save")
        for name in ("x.sgy", "t.sgy", "v.sgy", "deep.sgy", "ended.sgy", "ebcdic.sgy", "noted.sgy")
    ],
    ("a file without traces", "none.sgy", "text 1 none ; save ; text 1 none at all ; save"),
]


def check_save(room, name, before, told):
    """That FILE is what a save of the lines before gives."""
    room.ask(name, "".join(line + "\n" for line in before), "--out", "wanted.sgy")
    assert told == f"saved {len(content(name))}"
    assert same(room.get(OWN), room.get("wanted.sgy"))
    assert alone(room)


@pytest.mark.parametrize("name, lines", [pytest.param(*row[1:], id=row[0]) for row in SAVES])
def test_each_save_is_a_repair(room, name, lines):
    anew(room, content(name))
    number = os.stat(room.path(OWN)).st_ino
    before, saved = [], content(name)
    with Session(room, OWN, "--session", "--in-place") as session:
        for line in lines.split(" ; "):
            told = session.ask(line)
            if line == "save":
                check_save(room, name, before, told)
                saved = room.get(OWN)
            else:
                assert told == "ok"
                before.append(line)
                assert same(room.get(OWN), saved)
        ended = session.end()
    assert (ended.status, ended.errors) == (0, b"")
    assert os.stat(room.path(OWN)).st_ino == number


# ---- edits that need a new file are told, nothing is written, and the session goes on
def test_a_save_that_needs_a_new_file_and_one_behind_it(begun):
    with Session(begun, OWN, "--session", "--in-place") as session:
        session.ask("set 1 inline 7")
        session.ask("save")
        first = begun.get(OWN)
        assert [session.ask(line) for line in ("move 1 2", "copy 1 4", "delete 4")] == ["ok"] * 3
        assert session.ask("save") == "refused S08 save failed after 0 bytes"
        assert same(begun.get(OWN), first)
        assert alone(begun)
        session.ask("move 1 2")
        session.ask("set 3 inline 8")
        assert session.ask("save") == "saved 4332"
        ended = session.end()
    elsewhere = "trace 1 stood elsewhere in it (one was moved, sorted or deleted)"
    assert ended.lines() == [NOTHING_SAVED, f"segywb: {OWN}: {elsewhere}; that needs a new file: save with --out, without --in-place"]
    assert ended.status == 1
    begun.ask("s.sgy", "set 1 inline 7\nset 3 inline 8\n", "--out", "wanted.sgy")
    assert same(begun.get(OWN), begun.get("wanted.sgy"))
    assert alone(begun)


# ---- FILE is locked for as long as the session lasts, and other changes of it are seen, also behind a save
def test_file_is_locked_and_another_program_touches_it(begun):
    with Session(begun, OWN, "--session", "--in-place") as session:
        session.ask("set 1 inline 7")
        session.ask("save")
        assert begun.run(OWN, "--script", "script", "--in-place").status == 4
        ended = begun.run("s.sgy", "--script", "script", "--out", OWN)
        assert (ended.status, ended.lines()[-1]) == (4, f"segywb: {OWN}: a repair of it is under way; wait for its end")
        # a query is answered
        assert begun.run(OWN, "--script", "script").status == 0
        time.sleep(0.1)
        os.utime(begun.path(OWN))
        first = begun.get(OWN)
        session.ask("set 1 inline 8")
        assert session.ask("save") == "refused S08 save failed after 0 bytes"
        assert same(begun.get(OWN), first)
        assert alone(begun)
        ended = session.end()
    assert ended.status == 1
    assert "segywb: FILE was changed by another program" in ended.lines()


# ---- the end of the lines: options, lines, the status, the edits that FILE has then, and the answers where they matter
ENDS = [
    (
        "a save at the end", "--save-at-end", b"set 1 inline 7\nsave\nset 1 inline 8\nset 2 @189:4 7\n",
        0, "set 1 inline 8\nset 2 @189:4 7\n", None,
    ),
    ("on disk a line save is S07", "--on-disk", b"set 2 @189:4 7\nsave\n", 1, "", b"ok\n\nrefused S07 no out\n\n"),
    ("on disk the end repairs", "--on-disk --save-at-end", b"set 2 @189:4 7\n", 0, "set 2 @189:4 7\n", None),
    (
        "a last line that is cut off saves nothing", "--save-at-end", b"set 2 @189:4 7\nsave\nset 2 @189:4 8",
        1, "set 2 @189:4 7\n", None,
    ),
]


@pytest.mark.parametrize("options, lines, status, edits, answers", [pytest.param(*row[1:], id=row[0]) for row in ENDS])
def test_the_end_of_a_session(begun, options, lines, status, edits, answers):
    begun.ask("s.sgy", edits, "--out", "wanted.sgy")
    ended = begun.run(OWN, "--session", "--in-place", *options.split(), entered=lines)
    assert (ended.status, ended.errors) == (status, b"")
    assert answers is None or ended.answers == answers
    assert same(begun.get(OWN), begun.get("wanted.sgy"))
    assert alone(begun)


# ---- failures: FILE is what the last `saved` says, or is recovered to it, or what the save that a power cut may undo wrote
LINES = b"set 2 @189:4 7\nsave\nset 1 @189:4 9\nset 2 @189:4 10\nsave\nset 3 @189:4 1\nsave\n"
HOW = [{}, {"FAIL_ALL": "1"}, {"FAULT": "28"}]
LEAST = {"write": 1, "pread": 3, "pwrite": 3, "fsync": 12, "rename": 3, "unlink": 4, "fstat": 3, "stat": 3}
TURNS = [(call, least, how) for how in HOW for call, least in LEAST.items()]


@pytest.fixture
def held(begun):
    """FILE behind none of the saves of LINES, and behind each."""
    edits = [line for line in LINES.decode().splitlines() if line != "save"]
    files = [content("s.sgy")]
    for count in (1, 3, 4):
        begun.ask("s.sgy", "".join(line + "\n" for line in edits[:count]), "--out", "held.sgy")
        files.append(begun.get("held.sgy"))
    assert len(set(files)) == 4
    return files


def last_save(room, held, answers):
    """The last save that is in FILE, by what was told, and by FILE where a power cut may undo it."""
    last = saves = 0
    for answer in answers.decode().splitlines():
        if answer.startswith(("saved", "refused S08")):
            saves += 1
            undone = answer.startswith("refused S08") and not (answer.endswith(" 4332 bytes") and room.get(OWN) == held[saves])
            last = last if undone else saves
    return last


@pytest.mark.parametrize("call, least, how", TURNS, ids=[" ".join([call, *how]) for call, _, how in TURNS])
def test_each_call_of_a_session_fails_in_turn(begun, held, fail_save, call, least, how):
    for number in range(1, 81):
        if begun.has("done"):
            os.remove(begun.path("done"))
        anew(begun)
        environment = {**fail_save, **how, "FAIL_CALL": call, "FAIL_NTH": str(number), "DONE": "done"}
        ended = begun.run(OWN, "--session", "--in-place", entered=LINES, environment=environment)
        if not begun.has("done"):
            break
        last = last_save(begun, held, ended.answers)
        wanted = [held[last]]
        if begun.has(JOURNAL):
            assert begun.run(OWN, "--recover").status == 0
            wanted += held[max(last - 1, 0):last]
        assert begun.get(OWN) in wanted
        assert alone(begun)
    assert number - 1 >= least


def test_a_save_behind_one_that_was_cut_off_is_not_made_and_a_recovery_gives_the_last_one(begun, held, fail_save):
    environment = {**fail_save, "FAIL_CALL": "pwrite", "FAIL_NTH": "2", "FAIL_ALL": "1", "DONE": "done"}
    ended = begun.run(OWN, "--session", "--in-place", entered=LINES, environment=environment)
    assert ended.status == 1
    assert ended.answers.splitlines().count(b"refused S08 save failed after 0 bytes") == 2
    assert begun.has(JOURNAL)
    assert any(line.startswith(f"segywb: {OWN}: an earlier save of this session did not come to its end; ") for line in ended.lines())
    ended = begun.run(OWN, "--recover")
    assert (ended.status, ended.errors) == (0, b"")
    assert same(begun.get(OWN), held[1])
    assert alone(begun)


# ---- each growth of memory is refused in turn
def test_each_growth_of_a_session_is_refused_in_turn(begun, held, growth_library):
    wanted = {3: held[3:], 0: held[:1]}
    for number in range(1, 500):
        anew(begun)
        if begun.has("count"):
            os.remove(begun.path("count"))
        environment = {"LD_PRELOAD": growth_library, "REFUSE": str(number), "REFUSE_COUNT": "count"}
        ended = begun.run(OWN, "--session", "--in-place", entered=LINES, environment=environment)
        assert alone(begun)
        answers = ended.answers.decode().splitlines()
        # an edit that was refused for want of memory is not in the file
        if not any(answer.startswith("refused E11") for answer in answers):
            saves = sum(answer.startswith("saved") for answer in answers)
            assert begun.get(OWN) in wanted.get(saves, held[1:])
        if not (begun.has("count") and int(begun.get("count")) >= number):
            break
    assert 5 < number < 499
