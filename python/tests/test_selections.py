"""What means traces, and what does not: each public call that takes traces, with selections of every kind."""

import files
import numpy as np
import pandas as pd
import pytest

import segywb
from segywb import TraceField

WIDTHS = [np.int8, np.int16, np.int32, np.int64, np.uint8, np.uint16, np.uint32, np.uint64, np.intp, np.longlong]
SOME = [True, False, False, True] * 3
MASKED = [1, 4, 5, 8, 9, 12]


def numbers_of(told):
    """An array as a list of its rows."""
    return [row for row in told.tolist()]


# calls that take many traces: what they answer, and the same asked trace by trace
MANY = {
    "headers": (lambda v, traces: numbers_of(v.headers("inline", "crossline", traces=traces)), lambda v, p: (v.get(p, "inline"), v.get(p, "crossline"))),
    "dataframe": (lambda v, traces: [tuple(row) for row in v.dataframe("inline", "crossline", traces=traces).itertuples(name=None)], lambda v, p: (p, v.get(p, "inline"), v.get(p, "crossline"))),
    "find": (lambda v, traces: numbers_of(v.find("crossline", 0, 999, traces=traces)), lambda v, p: (p, v.get(p, "crossline"))),
    "positions": (lambda v, traces: numbers_of(v.positions(traces)), lambda v, p: tuple(map(float, v.geometry(p)))),
    "set_many": (lambda v, traces: written(v, traces), lambda v, p: f"set {p} delay 5"),
}


def written(volume, traces):
    """The lines of a step."""
    before = len(volume.edits)
    volume.set_many("delay", traces, 5)
    return volume.edits[before:]


# what selects traces of the twelve, and which
TAKEN = {
    "None": (lambda: None, range(1, 13)), "int": (lambda: 4, [4]), "slice": (lambda: slice(2, 5), [2, 3, 4]), "negative slice": (lambda: slice(-2, None), [11, 12]),
    "slice of numpy": (lambda: slice(np.uint8(2), np.int64(9), np.int8(3)), [2, 5, 8]), "empty slice": (lambda: slice(40, 50), []), "range": (lambda: range(9, 1, -4), [9, 5]),
    "list": (lambda: [7, 7, 1], [7, 7, 1]), "tuple": (lambda: (7, 1), [7, 1]), "empty list": (lambda: [], []), "empty tuple": (lambda: (), []), "empty array": (lambda: np.array([]), []),
    "list of numpy": (lambda: [np.int16(3), 1, np.uint64(2)], [3, 1, 2]), "iterator": (lambda: iter([2, 4]), [2, 4]), "series": (lambda: pd.Series([2, 4]), [2, 4]),
    "index": (lambda: pd.Index([2, 4]), [2, 4]), "nullable": (lambda: pd.Series([2, 4], dtype="Int64"), [2, 4]), "objects": (lambda: np.array([2, 4], dtype=object), [2, 4]),
    "no axis": (lambda: np.array(4), [4]), "mask": (lambda: np.array(SOME), MASKED), "list of truth": (lambda: SOME, MASKED), "tuple of truth": (lambda: tuple(SOME), MASKED),
    "numpy's truth": (lambda: list(np.array(SOME)), MASKED), "both truths": (lambda: [np.True_, *SOME[1:]], MASKED), "all": (lambda: [True] * 12, range(1, 13)), "none": (lambda: np.zeros(12, bool), []),
    "series of truth": (lambda: pd.Series(SOME), MASKED), "nullable truth": (lambda: pd.Series(SOME, dtype="boolean"), MASKED), "iterator of truth": (lambda: iter(SOME), MASKED),
    **{f"{width.__name__}": (lambda width=width: width(4), [4]) for width in WIDTHS},
    **{f"array of {width.__name__}": (lambda width=width: np.array([12, 3], dtype=width), [12, 3]) for width in WIDTHS},
}
# what selects nothing: why
REFUSED = {
    "bool": (lambda: True, TypeError), "False": (lambda: False, TypeError), "numpy's bool": (lambda: np.True_, TypeError), "no axis": (lambda: np.array(True), TypeError),
    "float": (lambda: 4.0, TypeError), "numpy's float": (lambda: np.float64(4), TypeError), "list of floats": (lambda: [4.0], TypeError), "array of floats": (lambda: np.array([4.0]), TypeError),
    "text": (lambda: "12", TypeError), "list of texts": (lambda: ["1"], TypeError), "None in a list": (lambda: [1, None], TypeError), "two axes": (lambda: np.array([[1, 2]]), TypeError),
    "two axes of truth": (lambda: np.ones((12, 1), bool), TypeError), "a list in a list": (lambda: [[1, 2]], TypeError), "object": (object, TypeError), "table": (lambda: pd.DataFrame({"trace": [1]}), TypeError),
    "mixed": (lambda: [True, 2], TypeError), "mixed behind": (lambda: (1, 2, False), TypeError), "twelve mixed": (lambda: [True] * 11 + [1], TypeError), "numpy's, mixed": (lambda: [np.False_, 2], TypeError),
    "objects, mixed": (lambda: np.array([True, 2], dtype=object), TypeError), "unknown truth": (lambda: pd.Series([True, None] * 6, dtype="boolean"), TypeError), "masked": (lambda: np.ma.array([1, 2], mask=[0, 1]), TypeError),
    "slice of bool": (lambda: slice(True, 5), TypeError), "slice of numpy's bool": (lambda: slice(1, np.True_), TypeError), "slice of float": (lambda: slice(1.0, 5), TypeError), "slice from 0": (lambda: slice(0, 5), ValueError),
    "short mask": (lambda: np.array([True, False]), IndexError), "short list": (lambda: [True], IndexError), "short tuple": (lambda: (True,), IndexError), "long mask": (lambda: np.ones(13, bool), IndexError),
    "long list": (lambda: [False] * 13, IndexError), "empty mask": (lambda: np.array([], dtype=bool), IndexError), "short series": (lambda: pd.Series([True]), IndexError),
    "negative": (lambda: -1, segywb.Refused), "negative in a list": (lambda: [1, -1], segywb.Refused), "negative array": (lambda: np.array([-1], dtype=np.int8), segywb.Refused), "zero": (lambda: 0, segywb.Refused),
    "beyond": (lambda: 13, segywb.Refused), "beyond in a list": (lambda: [1, 13], segywb.Refused), "beyond in a range": (lambda: range(12, 15), segywb.Refused), "numpy's, beyond": (lambda: np.uint64(2**64 - 1), segywb.Refused),
}


@pytest.mark.parametrize("call", MANY)
@pytest.mark.parametrize("traces", TAKEN)
def test_taken(opened, call, traces):
    volume = opened("cube")
    make, where = TAKEN[traces]
    ask, one = MANY[call]
    assert ask(volume, make()) == [one(volume, p) for p in where]


@pytest.mark.parametrize("call", [*MANY, "extremes"])
@pytest.mark.parametrize("traces", REFUSED)
def test_refused(opened, call, traces):
    """An exception, and nothing has changed."""
    volume = opened("cube")
    volume.set(1, "delay", 3)
    make, why = REFUSED[traces]
    ask = volume.extremes if call == "extremes" else lambda chosen: MANY[call][0](volume, chosen)
    # `extremes` asks once of a first and a last trace, and knows before the program which do not follow one another
    with pytest.raises((why, ValueError) if call == "extremes" else why) as raised:
        ask(make())
    if why is IndexError:
        assert "boolean index did not match" in str(raised.value) and "12" in str(raised.value)
    assert volume.edits == ["set 1 delay 3"] and volume.undoable == 1
    assert volume.headers("delay")["delay"].tolist() == [3] + [0] * 11


@pytest.mark.parametrize("traces", TAKEN)
def test_extremes(opened, traces):
    volume = opened("cube")
    make, where = TAKEN[traces]
    first, last = (where[0], where[-1]) if where else (1, 0)
    if list(where) == list(range(first, last + 1)):
        assert volume.extremes(make()).get("sequence_file") == ((first, last, first, last) if where else None)
    else:
        with pytest.raises(ValueError):
            volume.extremes(make())


def resized(volume, p):
    """The line: traces of a file with a fixed number of samples keep theirs."""
    try:
        volume.resize(p, 5)
    except segywb.Refused as refusal:
        if refusal.code != "E06":
            raise
        return refusal.line
    raise AssertionError("resized")


# calls that take single traces, with a place for one: what the line is, or what is asked
ONE = {
    "get": lambda v, p: v.get(p, "inline"), "set": lambda v, p: v.set(p, "delay", 7), "header": lambda v, p: v.header(p), "geometry": lambda v, p: v.geometry(p),
    "stat": lambda v, p: v.stat(p), "sample": lambda v, p: v.sample(p, 1), "samples": lambda v, p: v.samples(p).tolist(), "patch": lambda v, p: v.patch(p, 0, [7]),
    "resize": lambda v, p: resized(v, p), "blank": lambda v, p: v.blank(p), "copy": lambda v, p: v.copy(p, 2), "copy before": lambda v, p: v.copy(2, p), "delete": lambda v, p: v.delete(p),
    "move": lambda v, p: v.move(p, 2), "move to": lambda v, p: v.move(2, p), "renumber": lambda v, p: v.renumber(p, 12, "delay", 7), "renumber last": lambda v, p: v.renumber(1, p, "delay", 7),
    "compute": lambda v, p: v.compute(p, 12, "delay", "inline + 1"), "compute last": lambda v, p: v.compute(1, p, "delay", "inline + 1"),
    "sort": lambda v, p: v.sort(p, 12, "-inline"), "sort last": lambda v, p: v.sort(1, p, "-inline"),
}
NO_TRACE = {
    "bool": (lambda: True, TypeError), "False": (lambda: False, TypeError), "numpy's bool": (lambda: np.True_, TypeError), "truth without an axis": (lambda: np.array(True), TypeError),
    "float": (lambda: 4.0, TypeError), "numpy's float": (lambda: np.float32(4), TypeError), "text": (lambda: "4", TypeError), "None": (lambda: None, TypeError), "slice": (lambda: slice(4, 5), TypeError),
    "range": (lambda: range(4, 5), TypeError), "list": (lambda: [4], TypeError), "empty": (lambda: [], TypeError), "array": (lambda: np.array([4]), TypeError), "mask": (lambda: np.arange(12) == 3, TypeError),
    "list of truth": (lambda: [True], TypeError), "negative": (lambda: -1, segywb.Refused), "numpy's, negative": (lambda: np.int8(-1), segywb.Refused), "zero": (lambda: 0, segywb.Refused),
    "beyond": (lambda: 14, segywb.Refused), "numpy's, beyond": (lambda: np.uint64(2**63), segywb.Refused),
}


@pytest.mark.parametrize("call", ONE)
def test_one_trace_by_numbers_of_each_width(opened, call):
    volume = opened("cube")
    wanted = ONE[call](volume, 4), volume.edits
    for number in [*(width(4) for width in WIDTHS), np.array(4), np.array(4, dtype=np.uint8)]:
        volume.undo(volume.undoable)
        assert (ONE[call](volume, number), volume.edits) == wanted, repr(number)


@pytest.mark.parametrize("call", ONE)
def test_no_trace(opened, call):
    volume = opened("cube")
    for which, (make, why) in NO_TRACE.items():
        if which == "None" and call.split(" ")[0] in ("renumber", "compute", "sort"):
            continue  # the first trace of the file there, or its last
        with pytest.raises(why):
            ONE[call](volume, make())
        assert volume.edits == [], which
    assert len(volume) == 12 and volume.get(4, "delay") == 0


def test_what_was_found_is_a_trace(opened):
    volume = opened("cube")
    found = volume.find("inline", 103, 103)["trace"]
    assert volume.headers("inline", traces=found[0]).tolist() == [(103,)] and volume.get(found[0], TraceField.INLINE_3D) == 103
    volume.set_many("x", found[0], 5)
    volume.set_many("x", found, found)
    volume.patch(found[1], 0, found[:2])
    assert volume.edits == ["set 9 x 5", "set 9 x 9", "set 10 x 10", "set 11 x 11", "set 12 x 12", "patch 10 0 9 10"]


def test_masks_of_a_column(opened):
    """A mask that pandas or numpy computed of the headers selects what it says."""
    volume = opened("cube")
    frame, told = volume.dataframe("inline", "crossline"), volume.headers("inline", "crossline")
    volume.set_many("delay", frame["inline"] == 102, 1)
    volume.set_many("delay", (told["inline"] == 103) & (told["crossline"] > 202), [2, 3])
    assert volume.headers("delay")["delay"].tolist() == [0, 0, 0, 0, 1, 1, 1, 1, 0, 0, 2, 3]
    volume.delete(1)
    with pytest.raises(IndexError):
        volume.set_many("delay", frame["inline"] == 102, 1)
    assert volume.headers("delay")["delay"].tolist() == [0, 0, 0, 1, 1, 1, 1, 0, 0, 2, 3]


def test_a_mask_of_no_traces(opened, tmp_path):
    volume = opened(files.empty(tmp_path / "none.sgy"))
    assert len(volume.headers("inline", traces=np.array([], dtype=bool))) == 0
    with pytest.raises(IndexError):
        volume.headers("inline", traces=[True])
