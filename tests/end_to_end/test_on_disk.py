"""The bytes of the file stay on disk: answers, status and saved bytes are those of a run in memory; a device that fails, and a file that
changes meanwhile, are told, and OUT is whole; a file of 8 GB is repaired in 1 GB of address space. (The sweeps over lengths of files,
over hostile files and over growths of memory are run with the option too, where they stand.)"""

import os
import resource
import subprocess
from pathlib import Path

import pytest

from files import changed, content, float_line
from running import LONGEST, same
from sessions import Session

TESTS = Path(__file__).resolve().parents[1]
QUERIES = [
    "count", "info", "get 2 inline", "set 2 inline 7", "get 2 inline", "sample 2 1", "patch 2 0 5 6", "sample 2 0", "grid", "inlines",
    "histogram", "range x", "totals", "faults", "problems", "slice 1", "header 2", "extremes 1 3", "table 1 3 inline crossline",
    "find 1 3 inline 7 7", "geometry 1", "stat 2", "count all where inline = 7", "table all crossline where inline != 7 and @1:4 >= 0",
    "find all inline 0 99 where crossline > 21", "extremes all where crossline > 21", "survey", "count all where sample_least < 0",
    "table all crossline where sample_greatest >= 5 and sample_count < crossline", "stats all where sample_least = sample_greatest",
    "samples all 0 9", "samples 2 last 1 65535 2 where inline != 7", "samples 1 9 0 1",
]
EDITS = [
    "blank 1", "copy 2 1", "delete 3", "move 1 2", "renumber 1 2 inline 100 5", "compute 1 2 crossline inline * 2", "map inline @189:4",
    "resize 1 4", "text 3 changed", "bin interval 2000", "sort 1 2 -inline", "move 1 2 last", "map shot", "grid", "map usual", "totals",
    "grid", "fields", "unmap inline", "set all crossline 9 where inline > 100", "renumber all @5:4 7 2 where crossline = 9",
    "compute all inline crossline + 1 where @5:4 > 7", "swap all inline offset where @5:4 > 7", "fill all 0 1 -9 where @5:4 > 7",
    "fill 1 last 1 1 7", "stats all", "slice 1", "delete all where inline = 10", "grid", "faults", "problems",
    "survey", "fill all 0 0 77 where sample_least = -9", "count all where sample_greatest = 77", "delete all where sample_count > 99",
    "samples all 0 9", "delete 1 2", "totals", "samples 1 last 1 2 1 where crossline > 21",
]
OF_FLOATS = [
    "info", "sample 1 1", "stat 1", "stat 2", "totals", "slice 0", "patch 1 0 nan -1e-5", "patch 2 0 1e999", "stat 1", "totals", "slice 0",
    "slice 1", "resize 2 4", "stat 2", "copy 2 1", "blank 1", "move 1 3", "totals", "slice 1", "delete 2", "totals", "faults", "problems",
    "count all where sample_least < -0.5", "table all crossline where 1e-1 < sample_greatest", "count all where sample_greatest = 0",
    "samples all 0 9", "samples all 1 9 where sample_least < 1e-1", "fill all 0 0 .5 where sample_count > 1", "stats all where sample_greatest >= 5e-1", "delete all where sample_least < -118.5", "count",
]
OF_NO_TRACE = [
    "info", "set 1 inline 7", "blank 2", "resize 1 3", "move 2 1", "declare", "stanzas", "totals", "grid", "info", "drop head",
]
TAKEN_AWAY = OF_NO_TRACE + ["drop tail", "info", "blank 4", "drop tail", "info"]
IBM = float_line("big", 1, 0, "42010000,c276a000", "-", "7fffffff,4019999a,80000000")
IEEE = float_line("little", 5, 2, "3dcccccd,c2ed4000", "7fc00000,7f800000", "80000000,00000001")
DOUBLE = float_line(
    "big", 6, 1, "3fb999999999999a,c05da80000000000", "7ff8000000000000,fff0000000000000", "8000000000000000,0000000000000001",
)
TORN = content("s.sgy")[:4000]
MORE = {
    "torn.sgy": TORN, "s.more.sgy": content("s.sgy") + bytes(239), "v.more.sgy": content("v.sgy") + bytes(1), "s.sgy": content("s.sgy"),
}
FOUR = ("s.sgy", "x.sgy", "t.sgy", "v.sgy")
# a file, the lines, and options
ALIKE = [
    *[(f"every query of {name}", content(name), QUERIES, "") for name in FOUR],
    *[(f"edits of {name}", content(name), EDITS, "") for name in FOUR],
    ("a file with more header extensions", content("x.sgy"), EDITS, "--stop"),
    ("a file that is refused", b"count\n", EDITS, ""),
    ("a torn file", TORN, EDITS, ""),
    ("a file above its limit", content("s.sgy"), EDITS, "--max-bytes 4331"),
    *[
        (f"{what} of {name}", made, OF_FLOATS, option)
        for name, made in (("f1.sgy", IBM), ("f5.sgy", IEEE), ("f6.sgy", DOUBLE))
        for what, option in (("floats", "--floats"), ("opaque floats", "--opaque-samples"))
    ],
    *[(f"bytes of no trace, of {name}", made, OF_NO_TRACE, "--tail") for name, made in MORE.items()],
    ("bytes of no trace, and no such reading", MORE["s.more.sgy"], OF_NO_TRACE, ""),
    ("bytes of no trace above the limit", MORE["s.more.sgy"], OF_NO_TRACE, "--tail --max-bytes 4570"),
    ("bytes of no trace at the limit", MORE["s.more.sgy"], OF_NO_TRACE, "--tail --max-bytes 4571"),
    *[(f"bytes of no trace that are taken away, of {name}", made, TAKEN_AWAY, "--tail") for name, made in MORE.items()],
    ("nothing is changed", content("v.sgy"), [], ""),
    ("nothing is changed, with bytes of no trace", MORE["v.more.sgy"], [], "--tail"),
]


@pytest.mark.parametrize("made, lines, options", [pytest.param(*row[1:], id=row[0]) for row in ALIKE])
def test_the_same_answers_and_bytes(room, made, lines, options):
    room.put("f.sgy", made)
    script = "".join(line + "\n" for line in lines)
    words = ["--out", "o.sgy", *options.split()]
    memory = room.ask("f.sgy", script, *words)
    saved = room.get("o.sgy") if room.has("o.sgy") else None
    if saved is not None:
        os.remove(room.path("o.sgy"))
    disk = room.ask("f.sgy", script, *words, "--on-disk")
    assert (disk.status, disk.answers, disk.errors) == (memory.status, memory.answers, memory.errors)
    assert memory.answers or not lines
    assert room.has("o.sgy") == (saved is not None)
    assert saved is None or same(room.get("o.sgy"), saved)


# ---- each worked example, with the option
@pytest.mark.parametrize("document", sorted(path.name for path in (TESTS / "transcripts").glob("*.md")))
def test_the_worked_examples(room, document):
    program = room.program
    room.put(
        "disked",
        f'#!/bin/sh\ncase " $* " in *" --help "*|*" --version "*) exec "{program}" "$@" ;; esac\n'
        f'for word in "$@"; do [ ! -f "$word" ] || {{ exec "{program}" "$@" --on-disk; }}; break; done\nexec "{program}" "$@"\n',
    )
    os.chmod(room.path("disked"), 0o755)
    command = ["bash", str(TESTS / "transcripts.sh"), str(room.folder / "disked"), str(TESTS / "transcripts" / document)]
    done = subprocess.run(command, cwd=room.folder, capture_output=True, text=True, check=False)
    assert done.returncode == 0, done.stdout[-2000:] + done.stderr[-2000:]


# ---- a pipe, and a save over the file itself
def test_a_pipe(room):
    room.feed("pipe", content("s.sgy"))
    room.put("script", "count\n")
    ended = room.run("pipe", "--script", "script", "--on-disk")
    assert (ended.status, ended.errors) == (3, b"segywb: --on-disk needs a file on disk, and pipe is none\n")


@pytest.mark.parametrize("words", ["--out own.sgy", "--in-place"])
def test_a_save_over_the_file(room, words):
    room.put("own.sgy", content("s.sgy"))
    room.ask("s.sgy", "set 2 @189:4 7\n", "--out", "wanted.sgy")
    ended = room.ask("own.sgy", "set 2 @189:4 7\n", "--on-disk", *words.split())
    assert same(room.get("own.sgy"), room.get("wanted.sgy"))
    assert (ended.status, ended.errors) == (0, b"")


# ---- the device fails at each read: of the load, of a look, of the save. Another coordinate scalar has the trace read anew
def failing(room, library, device, call, script, *words):
    """A run on disk of which one read fails."""
    library = library.partition("=")[2]
    return room.ask(device, script, "--on-disk", *words, environment={"LD_PRELOAD": library, "DEVICE": device, "FAIL_CALL": str(call)})


AT_LOAD = b"load refused L01 read failed\n"


@pytest.mark.parametrize("call", range(1, 41))
def test_a_read_fails(room, fail_device, call):
    script = "set 2 @71:2 7\nget 3 @189:4\n"
    whole = room.ask("s.sgy", script, "--out", "whole.sgy").answers
    ended = failing(room, fail_device, "s.sgy", call, script, "--out", "o.sgy")
    if ended.answers == AT_LOAD:
        assert (ended.status, room.has("o.sgy")) == (3, False)
    elif ended.status == 0:
        assert ended.answers == whole == b"ok\nvalue 10\n"
        assert same(room.get("o.sgy"), room.get("whole.sgy"))
    elif ended.status == 1:
        assert ended.answers in (b"refused E14 read failed\nvalue 10\n", b"ok\nrefused E14 read failed\n")
        assert room.has("o.sgy")
    else:
        assert (ended.status, room.has("o.sgy")) == (4, False)
        assert "segywb: s.sgy: cannot be read again: o.sgy is as it was" in ended.lines()


# ---- the file is longer or shorter than its size said: it grew meanwhile, by whole traces, or a part of it went
LENGTH = 61680


def of_large_traces(count):
    """A file of this many traces of 61,680 bytes: 30,720 samples of 16 bits each, all 0."""
    head = changed(content("s.sgy")[:3600], "3220 7800")
    trace = changed(content("s.sgy")[3600:3840], "114 7800") + bytes(2 * 0x7800)
    assert len(trace) == LENGTH
    return head + trace * count


@pytest.mark.parametrize("traces, more", [(3, -1), (3, LENGTH), (3, -LENGTH), (197, LENGTH), (197, 197 * LENGTH)])
def test_a_file_of_another_size_than_was_told(room, compiled, traces, more):
    made = of_large_traces(traces)
    room.put("f.sgy", made)
    environment = {"LD_PRELOAD": str(compiled("told_size", "-shared")), "SIZE": str(len(made)), "TOLD": str(len(made) - more)}
    ended = room.ask("f.sgy", "count\n", "--on-disk", "--out", "o.sgy", environment=environment)
    assert (ended.status, ended.answers, room.has("o.sgy")) == (3, AT_LOAD, False)
    session = room.run("f.sgy", "--on-disk", "--session", entered=b"count\n", environment=environment)
    assert (session.status, session.answers) == (3, AT_LOAD)
    as_it_is = room.ask("f.sgy", "count\n", "--on-disk", environment=environment | {"SIZE": "0"})
    assert (as_it_is.status, as_it_is.answers) == (0, b"traces %d\n" % traces)


# ---- sizes whose traces end before and behind the end of what is read at once
@pytest.mark.parametrize("traces", [1, 2, 4, 5, 17, 34, 85, 196, 197, 198])
def test_large_traces_that_end_anywhere(room, fail_device, traces):
    made = of_large_traces(traces)
    room.put("f.sgy", made)
    script = f"count\nsample {traces} 30719\nset {traces} inline 77\n"
    answers = b"traces %d\nvalue 0\nok\n" % traces
    wanted = changed(made, f"{len(made) - LENGTH + 188} {77:08x}")
    library = fail_device.partition("=")[2]
    for environment in ({}, {"LD_PRELOAD": library, "DEVICE": "f.sgy", "STEP": "50001"}):
        ended = room.ask("f.sgy", script, "--on-disk", "--out", "o.sgy", environment=environment)
        assert (ended.status, ended.answers) == (0, answers)
        assert same(room.get("o.sgy"), wanted)


# a statistic of floats looks at its trace, and one of whole numbers at none; totals look at none
STATISTIC = "stat 2\ntotals\nsample 3 0\n"


def statistic_that_fails(room, fail_device, call):
    """How a run of a statistic ends of which one read fails: its status, and which line met it."""
    room.put("f5.sgy", IEEE)
    whole = room.ask("f5.sgy", STATISTIC, "--floats").answers.splitlines()
    ended = failing(room, fail_device, "f5.sgy", call, STATISTIC, "--floats")
    if ended.answers == AT_LOAD:
        return ended.status, "load"
    told = ended.answers.splitlines()
    met = [place for place in range(3) if told[place] != whole[place]]
    assert all(told[place] == b"refused E14 read failed" for place in met)
    return ended.status, met


@pytest.mark.parametrize("call", range(1, 21))
def test_a_statistic_of_floats_where_a_read_fails(room, fail_device, call):
    assert statistic_that_fails(room, fail_device, call) in ((3, "load"), (0, []), (1, [0]), (1, [2]))


def test_some_statistic_of_floats_met_it(room, fail_device):
    assert (1, [0]) in [statistic_that_fails(room, fail_device, call) for call in range(1, 21)]


# a set of an inline reads nothing: whichever read fails, it is done where the file was loaded (and below, where the trace is cut off)
@pytest.mark.parametrize("call", range(1, 13))
def test_a_set_reads_nothing(room, fail_device, call):
    room.make("s.sgy")
    ended = failing(room, fail_device, "s.sgy", call, "set 2 @189:4 7\nrenumber 1 3 @193:4 5 1\n")
    assert ended.answers in (AT_LOAD, b"ok\nok\n")


# ---- the file changes while the program runs: a session, so that it is known when. At the end nothing is saved
def cut(path):
    os.truncate(path, 3700)


def grow(path):
    with open(path, "ab") as file:
        file.write(b"x")


def other_length(path):
    with open(path, "r+b") as file:
        file.seek(3600 + 114)
        file.write(b"\x0f\xff")


FAILED, OTHER = "refused E14 read failed", "refused E15 file changed"
# the answers of a run without a change stand for None
MEANWHILE = [
    ("cut", "v.sgy", "", "get 3 inline", FAILED, cut),
    ("cut, and a slice", "v.sgy", "", "slice 0", FAILED, cut),
    ("cut, and a set that reads nothing", "v.sgy", "", "set 3 inline 7", "ok", cut),
    ("cut, and a choice", "v.sgy", "", "count all where @1:4 = 0", FAILED, cut),
    ("cut, and an edit of chosen traces", "v.sgy", "", "set all @1:4 7 where @1:4 >= 0", FAILED, cut),
    ("cut, and samples that are filled", "v.sgy", "", "fill all 0 0 7", FAILED, cut),
    ("cut, and samples of chosen traces", "v.sgy", "", "samples all 0 1 where @1:4 = 0", FAILED, cut),
    ("cut, and samples of no trace", "v.sgy", "", "samples all 0 1 where inline = 7", "samples 0", cut),
    ("cut, and samples", "v.sgy", "", "samples 1 2 0 1", "samples 2\n" + FAILED, cut),
    ("a trace of another length, and its samples", "v.sgy", "", "samples all 0 1", "samples 3\n" + OTHER, other_length),
    # what the samples say is known behind the load
    ("cut, and a choice by samples", "v.sgy", "", "count all where sample_least = 0 and sample_count > 2", "chosen 2", cut),
    ("cut, and a delete by samples", "v.sgy", "", "delete all where sample_count = 2", "ok 1", cut),
    ("cut, and a choice by samples and a field", "v.sgy", "", "count all where sample_least = 0 and @1:4 = 0", FAILED, cut),
    ("grown", "v.sgy", "", "count", "traces 3", grow),
    ("a trace of another length", "v.sgy", "", "get 1 inline", OTHER, other_length),
    ("a statistic of whole numbers, cut", "v.sgy", "", "stat 1", None, cut),
    ("a statistic of floats, cut", "f1.sgy", "--floats", "stat 3", FAILED, cut),
    ("a slice of floats, cut", "f1.sgy", "--floats", "slice 0", FAILED, cut),
    ("totals of floats, cut", "f1.sgy", "--floats", "totals", None, cut),
    ("a choice by samples of floats, cut", "f1.sgy", "--floats", "count all where sample_least < -1.5", "chosen 1", cut),
    ("problems of floats, cut", "f1.sgy", "--floats", "problems", FAILED, cut),
    ("a statistic of floats, of another length", "f1.sgy", "--floats", "stat 1", OTHER, other_length),
]


@pytest.mark.parametrize("file, options, line, answer, change", [pytest.param(*row[1:], id=row[0]) for row in MEANWHILE])
def test_the_file_changes_meanwhile(room, file, options, line, answer, change):
    room.put("own.sgy", IBM if file == "f1.sgy" else content(file))
    if answer is None:
        answer = room.ask("own.sgy", line + "\n", *options.split()).answers.decode().rstrip("\n")
        assert not answer.startswith("refused")
    with Session(room, "own.sgy", *options.split(), "--on-disk", "--session", "--save-at-end", "--out", "o.sgy") as session:
        assert session.ask("count") == "traces 3"
        change(room.path("own.sgy"))
        assert session.ask(line) == answer
        ended = session.end()
    assert ended.status == 4
    assert b"was changed by another program" in ended.errors
    assert not room.has("o.sgy")


def sparse(room, name, traces):
    """Traces of 30720 samples of two bytes, zeros that take no disk."""
    room.put(name, changed(content("s.sgy")[:3600], "3220 7800"))
    os.truncate(room.path(name), 3600 + traces * (240 + 2 * 30720))


# ---- a section whose file is lost in its middle: the rows in front, the refusal, and the next line is answered
@pytest.fixture
def long(room):
    """40 traces on disk, of which the last ones are lost by cut_long."""
    sparse(room, "long.sgy", 40)
    return room


def cut_long(room):
    os.truncate(room.path("long.sgy"), 3600 + 25 * 61680)


def check_cut_off(lines, chosen=40):
    """A section that is cut off: some of its rows, in order, and the refusal."""
    assert lines[0] == f"samples {chosen}" and lines[-1] == FAILED
    assert lines[1:-1] == [f"{position} 0 0" for position in range(1, len(lines) - 1)]
    assert 1 <= len(lines) - 2 <= 25


@pytest.mark.parametrize(
    "line, chosen",
    [("samples all 0 1", 40), ("samples 1 last 5 30000 29995", 40), ("samples all 0 1 where inline = 0", 40), ("samples 1 30 0 1", 30)],
)
def test_a_section_whose_file_is_cut_meanwhile(long, line, chosen):
    with Session(long, "long.sgy", "--on-disk", "--session") as session:
        assert session.ask("count") == "traces 40"
        cut_long(long)
        for _ in range(2):
            check_cut_off(session.ask(line).split("\n"), chosen)
            assert session.ask("count") == "traces 40"
        assert session.ask("samples 1 2 0 0") == "samples 2\n1 0\n2 0"
        ended = session.end()
    assert ended.status == 1
    assert b"was changed by another program" in ended.errors


def test_a_section_that_is_cut_off_stops(long):
    with Session(long, "long.sgy", "--on-disk", "--session", "--stop") as session:
        assert session.ask("count") == "traces 40"
        cut_long(long)
        check_cut_off(session.ask("samples all 0 1").split("\n"))
        assert session.answer() == ""
        ended = session.end()
    assert (ended.status, ended.answers) == (1, b"")


SECTION = "samples all 0 1\ncount\n"


def section_that_fails(room, library, call):
    """How a run of a section ends of which one read fails: the load, whole, or cut off, behind how many rows."""
    ended = failing(room, library, "long.sgy", call, SECTION)
    if ended.answers == AT_LOAD:
        return ended.status, "load"
    *lines, count = ended.answers.decode().splitlines()
    assert count == "traces 40"
    if ended.status == 0:
        assert lines == ["samples 40"] + [f"{position} 0 0" for position in range(1, 41)]
        return 0, "whole"
    assert lines[0] == "samples 40" and lines[-1] == FAILED
    assert lines[1:-1] == [f"{position} 0 0" for position in range(1, len(lines) - 1)]
    assert ended.told() == ["E14 read failed"]
    return ended.status, len(lines) - 2


# a read of a block that fails is made once more of the trace alone, so that most single failures are not met
def test_a_section_of_which_a_read_fails(long, fail_device):
    met = {section_that_fails(long, fail_device, call) for call in range(1, 25)}
    assert {(3, "load"), (0, "whole")} <= met
    assert {status for status, _ in met} == {0, 1, 3}


# ---- the file changes while it is copied to a pipe, which took a part by then
def test_changed_while_it_is_copied(room):
    sparse(room, "copied.sgy", 50)
    room.put("script", "count\n")
    os.mkfifo(room.path("copy"))
    running = room.start("copied.sgy", "--on-disk", "--script", "script", "--out", "copy")
    with open(room.path("copy"), "rb", buffering=0) as copy:
        copy.read(1)
        with open(room.path("copied.sgy"), "r+b") as file:
            file.seek(3700)
            file.write(b"\1")
        while copy.read(1 << 20):
            pass
    _, errors = running.communicate(timeout=LONGEST)
    assert running.returncode == 4
    assert any(line.startswith("segywb: copied.sgy: what was saved may be of two files; ") for line in errors.decode().splitlines())


# ---- 8 GB in 1 GB of address space
def test_8_gb_in_1_gb(room):
    sparse(room, "big.sgy", 131072)
    room.put("script", "set 120000 inline 7\nget 120000 inline\ncount\n")
    os.mkfifo(room.path("saved"))
    with subprocess.Popen(["cmp", "-l", "big.sgy", "saved"], cwd=room.folder, stdout=subprocess.PIPE, text=True) as compared:
        limits = [(resource.RLIMIT_AS, 1 << 30)]
        ended = room.run("big.sgy", "--on-disk", "--script", "script", "--out", "saved", limits=limits, longest=1800)
        differs, _ = compared.communicate()
    assert (ended.status, ended.answers) == (0, b"ok\nvalue 7\ntraces 131072\n"), ended.errors
    assert [line.split() for line in differs.splitlines()] == [[str(3600 + 119999 * 61680 + 192), "0", "7"]]
