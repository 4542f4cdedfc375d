"""One value for samples of many traces: each call compared with a run over the same lines."""

import math

import files
import numpy as np
import pytest
from conftest import run

import segywb

LATE = "inline = 102 and crossline > 202"
# The words of a call, its line, of how many traces it tells, and which samples of which traces have
# its value then. The cube has 12 traces of 5 samples.
EDITS = [
    ((5, 8, 1, 3, 0), "fill 5 8 1 3 0", None, (range(5, 9), range(1, 4))),
    ((None, None, 0, 4, -7), "fill all 0 4 -7", None, (range(1, 13), range(5))),
    ((5, None, 2, 2, 9), "fill 5 last 2 2 9", None, (range(5, 13), [2])),
    ((None, 5, np.int8(4), np.int16(4), np.int64(9)), "fill 1 5 4 4 9", None, (range(1, 6), [4])),
    ((3, 3, 0, 1, 8), "fill 3 3 0 1 8", None, ([3], [0, 1])),
    ((None, None, 0, 1, 6, LATE), f"fill all 0 1 6 where {LATE}", 2, ([7, 8], [0, 1])),
    ((1, 7, 0, 1, 6, LATE), f"fill 1 7 0 1 6 where {LATE}", 1, ([7], [0, 1])),
    ((None, None, 0, 1, 6, "inline = 9"), "fill all 0 1 6 where inline = 9", 0, ([], [])),
    ((1, 4, 3, 2, 6), "fill 1 4 3 2 6", None, ([], [])),
    ((1, 4, 3, 2, 6, "crossline > 202"), "fill 1 4 3 2 6 where crossline > 202", 2, ([], [])),
]


def samples_of(volume):
    """All samples, a row for each trace."""
    return np.array([volume.samples(trace) for trace in range(1, len(volume) + 1)])


@pytest.mark.parametrize("case", EDITS, ids=lambda case: case[1])
def test_one_edit(opened, tmp_path, case):
    """It is one step, saved as the program's own run saves it, taken back, and done again."""
    words, line, count, (traces, samples) = case
    value = int(line.split(" where ")[0].split(" ")[-1])
    volume = opened("cube")
    before = samples_of(volume)
    wanted = before.copy()
    wanted[np.ix_([trace - 1 for trace in traces], list(samples))] = value
    assert volume.fill(*words) == count
    assert volume.edits == [line] and volume.undoable == 1
    assert samples_of(volume).tolist() == wanted.tolist()
    volume.save(tmp_path / "python.sgy")
    answer = "ok" if count is None else f"ok {count}"
    assert run(volume.path, volume.edits, "--out", str(tmp_path / "run.sgy")) == (f"{answer}\n", 0)
    assert (tmp_path / "python.sgy").read_bytes() == (tmp_path / "run.sgy").read_bytes()
    assert volume.undo() == [line] and samples_of(volume).tolist() == before.tolist()
    assert volume.redo() == [line] and samples_of(volume).tolist() == wanted.tolist()


def test_into_the_file_itself(opened):
    """No trace moves: it is a repair in place."""
    volume = opened("cube")
    volume.fill(first=None, last=None, from_sample=1, to_sample=2, value=7, where=LATE)
    assert volume.in_place().possible
    volume.save(in_place=True)
    assert volume.edits == [] and samples_of(volume)[[6, 7], 1:3].tolist() == [[7, 7], [7, 7]]


@pytest.mark.parametrize(("value", "word"), [
    (0, "0"), (0.1, "0.1"), (np.float32(0.1), "0.10000000149011612"), (-1e-30, "-1e-30"),
    (math.inf, "inf"), (-math.inf, "-inf"), (np.array(2.5), "2.5"), (10**20, "1" + "0" * 20),
])
def test_floats(opened, value, word):
    """In a file of floats the value may be one, and is the nearest of the format."""
    volume = opened("wrong_floats")
    before = samples_of(volume)
    volume.fill(2, 3, 1, 2, value)
    assert volume.edits == [f"fill 2 3 1 2 {word}"]
    before[1:3, 1:3] = np.float32(value)
    np.testing.assert_array_equal(samples_of(volume), before)  # some of them are no numbers


def test_no_number(opened):
    volume = opened("wrong_floats")
    assert volume.fill(None, None, 0, 0, math.nan, where="crossline > 203") == 3
    assert volume.edits == ["fill all 0 0 nan where crossline > 203"]
    found = [math.isnan(volume.sample(trace, 0)) for trace in (3, 4, 8, 12)]
    assert found == [False, True, True, True]


def test_what_is_refused_changes_nothing(opened):
    volume = opened("cube")
    before = samples_of(volume).tolist()
    for words, code in (
        ((5, 13, 0, 1, 7), "E01"), ((6, 3, 0, 1, 7), "E01"), ((1, 4, 0, 1, 7, "colour = 1"), "E02"),
        ((1, 4, 0, 1, 7, "@1.1:4 = 1"), "E03"), ((1, 4, 0, 1, 2**15), "E04"),
        ((1, 4, 0, 1, 2**15, "inline = 9"), "E04"), ((1, 4, 0, 5, 7), "E05"),
        ((1, 4, 5, 0, 7), "E05"),
    ):
        with pytest.raises(segywb.Refused) as refusal:
            volume.fill(*words)
        assert refusal.value.code == code, refusal.value.line
    assert volume.edits == [] and samples_of(volume).tolist() == before


def test_the_lowest_trace_that_is_too_short_is_told(opened, tmp_path):
    """The traces have 1, 2 and 3 samples."""
    volume = opened(files.varying(tmp_path / "varying.sgy"))
    for words, text in (
        ((None, None, 0, 1, 7), "no sample 1 of 1"), ((2, None, 0, 2, 7), "no sample 2 of 2")
    ):
        with pytest.raises(segywb.Refused) as refusal:
            volume.fill(*words)
        assert (refusal.value.code, refusal.value.text) == ("E05", text)
    volume.fill(2, 3, 0, 1, 2**64 - 1)
    assert volume.fill(None, None, 2, 2, 5, where="inline = 3") == 1
    most = 2**64 - 1
    assert [volume.samples(trace).tolist() for trace in (2, 3)] == [[most] * 2, [most, most, 5]]


def test_samples_without_values(tmp_path):
    path = files.floats(tmp_path / "float.sgy")
    with segywb.open(path, opaque_samples=True, floats=False) as volume:
        for where in (None, "inline = 9"):
            with pytest.raises(segywb.Refused) as refusal:
                volume.fill(1, 2, 0, 1, 7, where)
            assert refusal.value.code == "E12"


def test_what_is_no_call(opened):
    """A part of the line that is none is not sent."""
    volume, floats = opened("cube"), opened("wrong_floats")
    whole = [(1, 4, 0, 1), (1, 4, 0, 1, 1.5), (1, 4, 0, 1, "7"), (1, 4, 0.0, 1, 7)]
    whole += [(True, 4, 0, 1, 7), (1, 4, None, None, 7), (1, 4, 0, 1, 7, 5), (1, 4, 0, 1, [7])]
    for words in whole:
        with pytest.raises(TypeError):
            volume.fill(*words)
    for value in ("0.5", [0.5], 1j, None):
        with pytest.raises(TypeError):
            floats.fill(1, 4, 0, 1, value)
    for where in ("", "inline=102", "inline = 1\nset 1 inline 7"):
        with pytest.raises(ValueError):
            volume.fill(1, 4, 0, 1, 7, where)
    assert volume.edits == [] and floats.edits == []
