"""The samples of many traces: each row compared with the samples of its trace, and with the program's own statistics."""

import math
import os
import subprocess
import sys

import files
import numpy as np
import pytest
from conftest import HERE

import segywb
from segywb import many_stats
from segywb.answers import ProgramEnded

SUMS = ("least", "greatest", "sum")


def row_of(volume, trace):
    """What the row of a trace has to be, by the answer to `stat` and its samples."""
    told = volume.stat(trace)
    zeros = sum(1 for one in volume.samples(trace).tolist() if one == 0)
    if told is None:
        return (trace, None, None, None, 0, 0, *([0] if volume.has_floats else []))
    return (trace, told.least, told.greatest, told.sum, zeros, told.samples, *([told.nans] if volume.has_floats else []))


@pytest.mark.parametrize("name", ["cube", "wrong_line", "wrong_floats", "wrong_samples", "float_line"])
def test_each_trace_has_its_row(opened, name, monkeypatch):
    volume = opened(name)
    wanted = [row_of(volume, trace) for trace in range(1, len(volume) + 1)]
    for size in (1 << 15, 5):
        monkeypatch.setattr("segywb.headers.WINDOW_TRACES", size)
        assert volume.stats().tolist() == wanted
    assert volume.stats([3, 1, 1]).tolist() == [wanted[2], wanted[0], wanted[0]] and volume.stats(2).tolist() == [wanted[1]]
    assert volume.stats([]).tolist() == volume.stats(slice(3, 3)).tolist() == []
    assert volume.stats().dtype.names == ("trace", *SUMS, "zeros", "samples", *(["nans"] if volume.has_floats else []))
    assert volume.stats().dtype["least"] == np.dtype(volume.sample_type) and not isinstance(volume.stats(), np.ma.MaskedArray)
    assert volume.edits == []


def test_of_chosen_traces(opened):
    volume = opened("cube")
    some = "inline = 102 and crossline > 202"
    assert volume.stats(where=some)["trace"].tolist() == [7, 8] and volume.stats(slice(1, 8), some).tolist() == [row_of(volume, 7)]
    assert volume.stats(where="inline = 9").tolist() == [] and volume.stats(where="inline = 9").dtype == volume.stats().dtype
    volume.patch(7, 0, [0, 0, 0])
    assert volume.stats(7)["zeros"].tolist() == [4]
    for take, code in ((lambda: volume.stats(13), "E01"), (lambda: volume.stats(where="colour = 1"), "E02"), (lambda: volume.stats(where="@1.9:4 = 1"), "E03")):
        with pytest.raises(segywb.Refused) as refusal:
            take()
        assert refusal.value.code == code
    with pytest.raises(ValueError, match="stands between blanks"):
        volume.stats(where="inline=1")


def test_a_trace_without_samples_has_none(opened, tmp_path):
    path = files.write(tmp_path / "varying.sgy", files.header(), files.binary(samples=0, fixed=0), files.trace(1, 1, 1, [5, 0, -7]), files.trace(2, 1, 2, []), files.trace(3, 1, 3, [0]))
    volume = opened(path)
    got = volume.stats()
    assert got.tolist() == [(1, -7, 5, -2, 1, 3), (2, None, None, None, 0, 0), (3, 0, 0, 0, 1, 1)]
    assert isinstance(got, np.ma.MaskedArray) and got["least"].compressed().tolist() == [-7, 0] and got["samples"].tolist() == [3, 0, 1]
    assert volume.stats([1, 3]).tolist() == [got.tolist()[0], got.tolist()[2]] and not isinstance(volume.stats([1, 3]), np.ma.MaskedArray)


@pytest.mark.parametrize("form", [1, 5])
def test_floats(opened, tmp_path, form):
    volume = opened(files.floats(tmp_path / "floats.sgy", form))
    volume.patch(1, 0, [0.0, -0.0])
    volume.patch(2, 0, [0.1, 1.5])
    assert volume.stats().tolist() == [row_of(volume, trace) for trace in (1, 2, 3)] and volume.stats(1)["zeros"].tolist() == [2]
    if form == 5:
        volume.patch(3, 0, [math.nan, math.nan])
        volume.patch(2, 1, [math.inf])
        got = volume.stats()
        assert got.tolist()[2] == (3, None, None, None, 0, 2, 2) and got.tolist()[1][2] == math.inf
        assert got["least"].dtype == np.float32 and got["sum"].dtype == np.float64


def test_samples_without_a_value(opened, tmp_path):
    volume = opened(files.floats(tmp_path / "floats.sgy", 5), floats=False, opaque_samples=True)
    for take in (lambda: volume.stats(), lambda: volume.stats(where="inline = 9")):
        with pytest.raises(segywb.Refused, match="E12"):
            take()


def test_sums_of_8_bytes(opened, tmp_path):
    """They are whole numbers of Python, since they may need more."""
    path = files.write(tmp_path / "wide.sgy", files.header(), files.binary(form=12, samples=2), files.trace(1, 1, 1, [2**64 - 1, 2**64 - 1], size=8, signed=False))
    got = opened(path).stats()
    assert got.tolist() == [(1, 2**64 - 1, 2**64 - 1, 2**65 - 2, 0, 2)] and got["greatest"].dtype == np.uint64


def test_without_numpy(example):
    """A list of tuples."""
    code = "import sys; sys.modules['numpy'] = None\nimport segywb\nwith segywb.open(sys.argv[1]) as v:\n    print(v.stats(where='inline = 102 and crossline > 202'))\n"
    done = subprocess.run([sys.executable, "-c", code, str(example("cube"))], env={**os.environ, "PYTHONPATH": str(HERE.parent / "src")}, capture_output=True, text=True, check=True)
    assert done.stdout == "[(7, -102, 43, -9, 1, 5), (8, -102, 44, -8, 1, 5)]\n"


@pytest.mark.parametrize("rows", [b"1 least 3\n", b"1 least x greatest 4 sum 1 zeros 0 samples 2\n", b"1 most 3 greatest 4 sum 1 zeros 0 samples 2\n", b"none\n"])
def test_rows_that_are_none(rows):
    with pytest.raises(ProgramEnded):
        many_stats.table([rows], many_stats.kinds("i8", False, False))
