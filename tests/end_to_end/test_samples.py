"""Samples of many traces: samples. The small survey has the samples 1 and -2, 3 and 4, and -5 and 6."""

import pytest

from files import float_line
from tables import check, placed, rows, saving

FLOATS = "f.sgy", float_line("little", 5, 2, "7fc00000,ffc00000", "3f800000,80000000", "-", "80000000,00000000")
SAMPLES = [
    saving(
        "samples of many traces", "s.sgy",
        "samples 1 2 0 1 ; samples all 1 1 ; samples all 0 9 2 where crossline >= 22 ; samples 2 last 2 5 ; samples 1 3 1 0 ; "
        "samples all 0 1 where inline = 7 ; patch 2 0 9 ; samples 2 2 0 4294967295 4294967295 ; samples 1 3 0 1 1",
        "samples 2 / 1 1 -2 / 2 3 4 / samples 3 / 1 -2 / 2 4 / 3 6 / samples 2 / 2 3 / 3 -5 / samples 2 / 2 / 3 / samples 3 / 1 / 2 / "
        "3 / samples 0 / ok / samples 1 / 2 9 / samples 3 / 1 1 -2 / 2 9 4 / 3 -5 6",
    ),
    saving(
        "samples in a file without traces", "none.sgy",
        "samples all 0 1 ; samples all 0 1 2 where inline = 1 ; samples 1 1 0 1",
        "samples 0 / samples 0 / refused E01 no trace 1 of 0",
        1,
    ),
    saving(
        "the first refusal of samples", "s.sgy",
        "samples 0 4 0 1 where nothing = 1 ; samples 1 4 0 1 ; samples 3 2 0 1 ; samples all 0 1 where nothing = 1 and @1.1:4 = 1 ; "
        "samples all 0 1 where @1.1:4 = 1 ; samples 1 0 1 ; samples ; samples all 0 1 1 1 ; samples all 0 1 where ; samples all 0 1 0 ; "
        "samples all 0 1 4294967296 ; samples all 0 1 x ; samples all 0 1 -1 ; samples all 0 last ; samples all -1 1 ; "
        "samples all 0 4294967296 ; samples all 0 1 0 where inline",
        "refused E01 no trace 0 of 3 / refused E01 no trace 4 of 3 / refused E01 no trace 2 of 3 / refused E02 no field / "
        "refused E03 no place / refused S02 words / refused S02 words / refused S02 words / refused S03 number / refused S03 number / "
        "refused S03 number / refused S03 number / refused S03 number / refused S03 number / refused S03 number / refused S03 number / "
        "refused S02 words",
        1,
    ),
    saving(
        "samples of traces of their own lengths", "v.sgy",
        "patch 3 7 -1 0 2 ; samples all 0 9 ; samples 3 3 65530 70000 2 ; samples all 2 4 ; resize 2 4 ; samples 2 3 3 3",
        "ok / samples 3 / 1 0 0 0 / 2 0 0 / 3 0 0 0 0 0 0 0 -1 0 2 / samples 1 / 3 0 0 0 / samples 3 / 1 0 / 2 / 3 0 0 0 / ok / "
        "samples 2 / 2 0 / 3 0",
    ),
    saving(
        "samples behind another number of header extensions in each trace", "deep.sgy",
        "blank end ; blank 1 ; fill all 1 1 9 ; samples all 0 5 ; table all @1.157:2u",
        "ok / ok / ok / samples 3 / 1 0 9 / 2 1 9 / 3 0 9 / table 3 / 1 0 / 2 2 / 3 0",
    ),
    saving(
        "samples of floats", FLOATS,
        "samples all 0 1 ; samples 1 2 1 1 ; delete 1 ; samples 1 last 0 9 3",
        "samples 4 / 1 nan nan / 2 1 -0 / 3 / 4 -0 0 / samples 2 / 1 nan / 2 -0 / ok / samples 3 / 1 1 / 2 / 3 -0",
        options="--floats",
    ),
    saving(
        "samples without a value", FLOATS,
        "samples all 0 1 ; samples 1 9 0 1 ; samples all 0 1 where nothing = 1 ; samples all 0 1 where @1.9:4 = 1 ; "
        "samples all 0 1 where inline = 77 ; samples all 1 0",
        "refused E12 samples have no value / refused E01 no trace 9 of 4 / refused E02 no field / refused E03 no place / "
        "refused E12 samples have no value / refused E12 samples have no value",
        1, options="--opaque-samples",
    ),
]


@pytest.mark.parametrize("row", rows(SAMPLES))
def test_samples(room, row):
    check(room, row)


# ---- they are those that sample tells: a file, its traces, and options
FILES = [("s.sgy", 3, ""), ("v.sgy", 3, ""), ("x.sgy", 1, ""), ("deep.sgy", 1, ""), (FLOATS, 4, "--floats")]


@pytest.mark.parametrize("first, last, step", [(0, 1, 1), (1, 1, 1), (0, 9, 3)])
@pytest.mark.parametrize("file, traces, options", FILES, ids=["s.sgy", "v.sgy", "x.sgy", "deep.sgy", "floats"])
def test_they_are_those_that_sample_tells(room, file, traces, options, first, last, step):
    name, _ = placed(room, file)
    asked = [(trace, place) for trace in range(1, traces + 1) for place in range(first, last + 1, step)]
    answers = room.ask(name, "".join(f"sample {trace} {place}\n" for trace, place in asked), *options.split()).answers.decode().splitlines()
    told = {trace: [str(trace)] for trace in range(1, traces + 1)}
    for (trace, _), answer in zip(asked, answers):
        told[trace] += [answer.removeprefix("value ")] if answer.startswith("value ") else []
    ended = room.ask(name, f"samples all {first} {last} {step}\n", *options.split())
    assert ended.answers.decode().splitlines() == [f"samples {traces}"] + [" ".join(row) for row in told.values()]
