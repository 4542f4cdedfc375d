"""Problems: what is wrong or doubtful, in groups. Damaged and sound files are made by damages.py, and what is told of each is worked out by
problems_of.py, apart from the program."""

import re
import subprocess
import sys
from pathlib import Path

import pytest

from files import content, float_line
from tables import check, rows, saving

TESTS = Path(__file__).resolve().parents[1]
# of floats: -0 beside 0 is dead, of what is no number the others count, the amount of a negative spike has no sign, an infinity is loud,
# and where the median is infinite none is
DEAD = "d.sgy", float_line(
    "big", 5, 1, "80000000,00000000,7fc00000", "3f800000,40000000,7fc00000", "3f800000,bf800000,c3480000", "3f800000,7fc00000,7fc00000",
    "3f800000,40000000,3f800000",
)

# ---- some by hand
PROBLEMS = [
    saving(
        "nothing is wrong", "s.sgy",
        "problems",
        "problems 0",
    ),
    saving(
        "a file without traces has no problem", "none.sgy",
        "problems ; survey",
        "problems 0 / survey none",
    ),
    saving(
        "the words of problems", "s.sgy",
        "problems 1 ; problems all ; problem ; survey 1",
        "refused S02 words / refused S02 words / refused S01 unknown word / refused S02 words",
        1,
    ),
    saving(
        "problems of edits", "s.sgy",
        "text 2 NONE ; copy 2 2 ; set 1 scalar 7 ; problems",
        "ok / ok / ok / problems 6 / problem F1 traces 2 runs 1 / run 3 4 shift -1 / problem F4 traces 1 runs 1 / run 1 1 scalar 7 / "
        "problem F6 traces 1 runs 1 / run 3 3 before 1 / problem F8 lines 1 / problem S3 traces 1 runs 1 / run 1 1 scalar 7 usual 0 / "
        "problem S10 pairs 2 jumps 1 / jump 2 4",
    ),
    saving(
        "runs of the same facts", "s.sgy",
        "set 1 @117:2u 7 ; set 2 @117:2u 7 ; set 3 @117:2u 8 ; set 3 delay -9 ; problems",
        "ok / ok / ok / ok / problems 2 / problem F3 traces 3 runs 2 / run 1 2 interval 7 binary 4000 / run 3 3 interval 8 binary 4000 / "
        "problem S4 traces 1 runs 1 / run 3 3 delay -9 usual 0",
    ),
    saving(
        "no survey numbers", "s.sgy",
        "set 1 crossline 23 ; set 2 crossline 23 ; set 2 offset 100 ; problems ; delete 3 ; delete 2 ; problems",
        "ok / ok / ok / problems 1 / problem S1 traces 3 inline 10 crossline 23 / ok / ok / problems 0",
    ),
    saving(
        "a position that is another cell's, and the grid", "s.sgy",
        "survey ; set 3 x 1000 ; survey ; problems ; set 1 x 0 ; set 1 y 0 ; survey ; problems ; delete 2 ; survey ; "
        "map crossline @1:4 ; survey",
        "survey inline 10 10 step none crossline 21 23 step 1 along_inline none along_crossline 1000 0 cells 3 of 3 / ok / "
        "survey inline 10 10 step none crossline 21 23 step 1 along_inline none along_crossline -1000 0 cells 3 of 3 / problems 2 / "
        "problem S10 pairs 2 jumps 1 / jump 1 2 / problem S11 cells 1 / run 3 1 / ok / ok / "
        "survey inline 10 10 step none crossline 21 23 step 1 along_inline none along_crossline -1000 0 cells 3 of 3 / problems 0 / ok / "
        "survey inline 10 10 step none crossline 21 23 step 2 along_inline none along_crossline none cells 2 of 2 / ok / "
        "survey inline 10 10 step none crossline 0 0 step none along_inline none along_crossline none cells 1 of 1",
    ),
    saving(
        "a dead trace, and a loud one", "s.sgy",
        "patch 1 0 7 7 ; patch 3 1 -701 ; problems",
        "ok / ok / problems 2 / problem S12 traces 1 runs 1 / run 1 1 value 7 / problem S13 traces 1 runs 1 / run 3 3 amount 701",
    ),
    saving(
        "dead traces and loud ones, of IEEE floats", DEAD,
        "patch 3 2 -200.00002 ; problems ; patch 3 2 -200 ; patch 1 0 0.1 0.1 nan ; problems ; patch 1 0 inf inf ; patch 3 2 -inf ; "
        "problems ; patch 2 0 inf ; problems",
        "ok / problems 2 / problem S12 traces 1 runs 1 / run 1 1 value 0 / problem S13 traces 1 runs 1 / run 3 3 amount 200.00002 / ok / "
        "ok / problems 1 / problem S12 traces 1 runs 1 / run 1 1 value 0.1 / ok / ok / problems 2 / problem S12 traces 1 runs 1 / "
        "run 1 1 value inf / problem S13 traces 2 runs 2 / run 1 1 amount inf / run 3 3 amount inf / ok / problems 1 / "
        "problem S12 traces 1 runs 1 / run 1 1 value inf",
        options="--floats",
    ),
    saving(
        "opaque samples have no amount", DEAD,
        "problems",
        "problems 0",
        options="--opaque-samples",
    ),
]


@pytest.mark.parametrize("row", rows(PROBLEMS))
def test_problems(room, row):
    check(room, row)


def test_the_first_ten_runs_are_told(room):
    lines = [
        line
        for p in range(1, 13)
        for line in (f"copy {p % 3 + 1} end", "set last scalar 7", f"set last @5:4 {2 * p + 2}", "blank end")
    ]
    answers = room.ask("s.sgy", "\n".join(lines + ["problems"]) + "\n").answers.decode().splitlines()
    first = next(place for place, line in enumerate(answers) if line.startswith("problem F4"))
    told = answers[first:next(place for place, line in enumerate(answers) if line.startswith("problem F6"))]
    assert told[0] == "problem F4 traces 12 runs 12"
    assert told[10] == "run 22 22 scalar 7"
    assert sum(line.startswith("run") for line in told) == 10


# ---- as they are worked out apart from the program: in memory, on disk, in a session
QUESTIONS = [
    "problems", "copy 1 1", "set 1 scalar 7", "problems", "survey", "blank end", "set last inline 900", "set 1 @117:2u 9", "set 1 @233:8 1",
    "problems", "move 1 end", "set 1 delay 9", "patch 1 0 9 9", "bin trace_count 7", "text 3 no c", "problems", "map inline @1:4",
    "map x @5:4", "problems", "survey", "map shot", "survey", "problems",
]
OF_FLOATS = ["problems", "copy 1 1", "set last scalar 7", "problems"]
IBM = float_line("big", 1, 0, "42010000,c276a000", "-", "7fffffff,4019999a,80000000")
DOUBLE = float_line(
    "little", 6, 2, "3fb999999999999a,c05da80000000000", "7ff8000000000000,fff0000000000000", "8000000000000000,0000000000000001",
)
# the small files of these tests, with questions between edits of every kind: the bytes, the lines, and options
SMALL = {
    **{f"fixture_{name}": (content(f"{name}.sgy"), QUESTIONS, "") for name in ("s", "x", "t", "v", "none", "deep", "ended")},
    **{
        f"{kind}_{name}": (made, OF_FLOATS, option)
        for name, made in (("f1", IBM), ("f6", DOUBLE))
        for kind, option in (("fixture", "--floats"), ("opaque", "--opaque-samples"))
    },
}
# the files of damages.py: a seed and a number of files at random
SEED, RANDOM = 11, 200
PARTS = 8


def make_all(program, folder):
    """All files, with what problems_of.py works out of each, and what damages.py says of some: lines of names and codes, `known`."""
    folder.mkdir()
    (folder / "known").write_text(run("damages.py", folder, SEED, RANDOM))
    for name, (made, lines, options_of) in SMALL.items():
        (folder / f"{name}.sgy").write_bytes(made)
        (folder / f"{name}.txt").write_text("".join(line + "\n" for line in lines))
        if options_of:
            (folder / f"{name}.words").write_text(options_of + "\n")
    run("problems_of.py", program, folder)


@pytest.fixture(scope="session")
def worked_out(program, made_once):
    """The folder of all files, and the codes of problems that are known."""
    folder = made_once("damaged", lambda path: make_all(program, path))
    lines = [line.partition(" ") for line in (folder / "known").read_text().splitlines()]
    return folder, {name: codes for name, _, codes in lines}


def run(script, *words):
    """What a script of the tests prints."""
    command = [sys.executable, str(TESTS / script), *map(str, words)]
    done = subprocess.run(command, capture_output=True, text=True, check=False)
    assert done.returncode == 0, done.stderr
    return done.stdout


def bases(folder, part):
    """Some of the files, without the ends of their names."""
    return sorted(path.with_suffix("") for path in folder.glob("*.sgy"))[part::PARTS]


def options(base):
    """The options that a file is read with."""
    words = base.with_suffix(".words")
    return words.read_text().split() if words.exists() else []


def differing(room, base):
    """In which ways the answers over a file are not those that are worked out."""
    file, words = f"{base}.sgy", options(base)
    wanted = base.with_suffix(".wanted").read_bytes()
    lines = base.with_suffix(".txt").read_bytes()
    script = [file, "--script", f"{base}.txt", *words]
    session = room.run(file, "--session", *words, entered=lines).answers.splitlines(keepends=True)
    told = {
        "in memory": room.run(*script).answers,
        "on disk": room.run(*script, "--on-disk").answers,
        "in a session": b"".join(line for line in session if line != b"\n"),
    }
    return [way for way, answers in told.items() if answers != wanted]


@pytest.mark.parametrize("part", range(PARTS))
def test_problems_are_those_that_are_worked_out(room, worked_out, part):
    ways = {base.name: differing(room, base) for base in bases(worked_out[0], part)}
    assert {name: wrong for name, wrong in ways.items() if wrong} == {}


def test_problems_are_those_that_the_damages_are(room, worked_out):
    folder, known = worked_out
    told = {}
    for name in known:
        base = folder / name
        answers = room.run(f"{base}.sgy", "--script", f"{base}.txt", *options(base)).answers.decode()
        told[name] = " ".join(re.findall(r"^problem ([FS][0-9]*) ", answers, re.M))
    assert known
    assert told == known


def test_there_are_enough_damaged_files(worked_out):
    assert len(list(worked_out[0].glob("*.wanted"))) > 250
