"""A CSV onto traces: what would change is told, then changed as one step; a bad CSV changes nothing."""

import random

import files
import pytest
from conftest import run

import segywb
from segywb.csvs import Difference, Doubled

KEYS = ["inline", "crossline"]


@pytest.fixture
def table(tmp_path):
    """Writes a CSV and gives its path."""

    def made(text):
        path = tmp_path / "table.csv"
        path.write_bytes(text if isinstance(text, bytes) else text.encode())
        return path

    return made


def numbers(volume):
    return volume.headers("inline", "crossline", "x", "y", "delay").tolist()


def test_what_would_change(opened, table):
    volume = opened("twice")  # inline 101 and crossline 204 have two traces
    before = numbers(volume)
    path = table("inline,crossline,x,y\n101,204,5,6\n101,201,45000000,680000000\n109,7,1,2\n101,202,45002500,7\n101,202,45002500,7\n101,203,1,1\n101,203,1,2\n")
    told = volume.import_csv(path, keys=KEYS, values=["x", "y"], dry_run=True)
    assert [at for at, row in enumerate(before, 1) if row[:2] == (101, 204)] == [4, 5]
    assert (told.rows, told.matched, told.traces, told.unnamed) == (7, 6, 5, 8)
    assert (told.changed, told.numbers, told.done) == (4, 7, False)
    assert told.differences[0] == Difference(2, "y", 680000000, 7, 5)
    assert [(one.trace, one.field) for one in told.differences] == [(2, "y"), (3, "x"), (3, "y"), (4, "x"), (4, "y"), (5, "x"), (5, "y")]
    assert (told.lacking, told.lacking_keys) == (1, (((109, 7), 4),))
    assert (told.doubled, told.conflicts) == (2, 1)
    assert told.doubled_keys == (Doubled((101, 203), (7, 8), False), Doubled((101, 202), (5, 6), True))
    assert "7 numbers of 4 traces would change" in str(told) and "1 of them with other values, first 101, 203 on lines 7, 8" in str(told)
    assert numbers(volume) == before and volume.edits == []
    with pytest.raises(segywb.CsvRefused, match="line 8: the key 101, 203 on lines 7, 8 has other values on each"):
        volume.import_csv(path, keys=KEYS, values=["x", "y"])
    assert numbers(volume) == before and volume.edits == [] and volume.undoable == 0


def test_one_step_taken_back_by_one(opened, table, tmp_path):
    volume = opened("cube")
    before = numbers(volume)
    rows = [(i, x, 1000 * i + x, -x) for i, x, *_ in before]
    random.Random(4).shuffle(rows)
    path = table("inline,crossline,x,y\n" + "".join(f"{','.join(map(str, row))}\n" for row in rows))
    wanted = volume.import_csv(path, keys=KEYS, values=["x", "y"], dry_run=True)
    told = volume.import_csv(path, keys=KEYS, values=["x", "y"])
    assert told.done and not wanted.done and told.numbers == wanted.numbers == 24 and told.differences == wanted.differences
    assert len(told.differences) == 20 and "24 numbers of 12 traces have changed" in str(told)
    after = numbers(volume)
    assert after == [(i, x, 1000 * i + x, -x, delay) for i, x, _, _, delay in before]
    assert volume.undoable == 1 and len(volume.edits) == 24
    assert volume.import_csv(path, keys=KEYS, values=["x", "y"]).numbers == 0 and volume.undoable == 1
    assert run(volume.path, volume.edits, "--out", str(tmp_path / "run.sgy"))[1] == 0
    volume.save(tmp_path / "python.sgy")
    assert (tmp_path / "python.sgy").read_bytes() == (tmp_path / "run.sgy").read_bytes()
    assert len(volume.undo()) == 24 and numbers(volume) == before and volume.undoable == 0
    volume.redo()
    assert numbers(volume) == after


@pytest.mark.parametrize("text", [
    "inline,crossline,x\n102,203,7\n", "\ufeffinline;crossline;x\r\n102;203;7\r\n", "crossline\tnote\tx\tinline\n203\ta b\t7\t102\n",
    "x , inline, crossline\n\n 7 , 102 ,203 \n,,\n", 'inline,crossline,x\n"102","203","7.00"\n', "inline,crossline,x\n1.02e2,+203,07",
    'inline,crossline,x,note\n102,203,7,"two\nlines, one cell"\n',
])
def test_ways_of_writing(opened, table, text):
    volume = opened("cube")
    assert volume.import_csv(table(text), keys=KEYS, values=["x"]).numbers == 1
    assert volume.edits == ["set 7 x 7"]


def test_names_of_columns(opened, table):
    """Columns and fields of other names; a field that is a key and a value; the position; a place, a constant, a bound name."""
    volume = opened("cube")
    told = volume.import_csv(table("old,new\n102,7\n103,8\n"), keys={"old": "inline"}, values={"new": "inline"})
    assert told.numbers == 8 and volume.headers("inline")["inline"].tolist() == [101] * 4 + [7] * 4 + [8] * 4
    volume.import_csv(table("trace,d\n12,5\n3,6\n"), keys="trace", values={"d": segywb.TraceField.DelayRecordingTime})
    assert volume.edits[-2:] == ["set 3 @109:2 6", "set 12 @109:2 5"]
    volume.map("trace", "@9:4")
    assert volume.import_csv(table("trace,delay\n12,5\n101,9\n"), keys=["trace"], values=["delay"], dry_run=True).matched == int(101 in volume.headers("trace")["trace"])
    volume.import_csv(table("a,b\n9,-1\n"), keys={"a": "@5:4"}, values={"b": "crossline"})
    assert volume.edits[-1] == "set 9 crossline -1"


REFUSED = {
    "empty": ("", 1, None, "there is no first line"),
    "blank lines": ("\n \n,,\n", 1, None, "there is no first line"),
    "no such column": ("inline,crossline,z\n1,2,3\n", 1, "x", "there is no column 'x'; the columns are 'inline', 'crossline', 'z'"),
    "a column twice": ("inline,crossline,x,x\n1,2,3,4\n", 1, "x", "there are several columns 'x'"),
    "too few cells": ("inline,crossline,x\n101,201,3\n101,202\n", 3, None, "2 cells, where the first line names 3 columns"),
    "too many cells": ("inline,crossline,x\n101,201,3,4\n", 2, None, "4 cells"),
    "a text": ("inline,crossline,x\n101,201,3\n\n101,202,north\n", 4, "x", "no whole number: 'north'"),
    "a fraction": ("inline,crossline,x\n101,201,3.5\n", 2, "x", "no whole number: '3.5'"),
    "an underscore": ("inline,crossline,x\n101,201,3_5\n", 2, "x", "no whole number"),
    "other digits": ("inline,crossline,x\n101,201,\u0663\n", 2, "x", "no whole number"),
    "infinity": ("inline,crossline,x\n101,201,inf\n", 2, "x", "no whole number"),
    "a great power": ("inline,crossline,x\n101,201,1e999999999\n", 2, "x", "no whole number"),
    "an empty cell": ("inline,crossline,x\n101,,3\n", 2, "crossline", "an empty cell"),
    "too large": ("inline,crossline,x\n999,201,2147483648\n", 2, "x", "2147483648 does not fit: the field holds -2147483648 to 2147483647"),
    "not UTF-8": (b"inline,crossline,x\n101,201,3\n101,202,\xe4\n", 3, None, "this is not UTF-8: byte 0xe4"),
    "not UTF-8 at once": (b"\xff\xfei\0", 1, None, "this is not UTF-8: byte 0xff"),
    "an open quote": ('inline,crossline,x\n101,201,"3\n', None, None, "this is no CSV"),
}


@pytest.mark.parametrize("name", REFUSED)
@pytest.mark.parametrize("dry_run", [True, False])
def test_a_bad_csv(opened, table, name, dry_run):
    text, line, column, why = REFUSED[name]
    volume = opened("cube")
    before = numbers(volume)
    with pytest.raises(segywb.CsvRefused) as refusal:
        volume.import_csv(table(text), keys=KEYS, values=["x"], dry_run=dry_run)
    assert why in refusal.value.why and refusal.value.column == column and (line is None or refusal.value.line == line)
    assert isinstance(refusal.value, ValueError) and isinstance(refusal.value, segywb.Error) and why in str(refusal.value)
    assert numbers(volume) == before and volume.edits == [] and volume.alive


def test_other_refusals(opened, table, tmp_path):
    volume = opened("cube")
    path = table("inline,crossline,x\n101,201,3\n")
    with pytest.raises(FileNotFoundError):
        volume.import_csv(tmp_path / "none.csv", keys=KEYS, values=["x"])
    for keys, values in (([], ["x"]), (KEYS, []), (["inline", "inline"], ["x"]), ({"inline": "inline", "crossline": "inline"}, ["x"])):
        with pytest.raises(ValueError):
            volume.import_csv(path, keys=keys, values=values)
    with pytest.raises(segywb.Refused) as refusal:
        volume.import_csv(path, keys=KEYS, values={"x": "colour"})
    assert refusal.value.code == "E02" and volume.edits == []


def test_what_the_program_refuses_changes_nothing(opened, table, tmp_path):
    """The number of samples says where the next trace begins, so it cannot be another one: the lines in front of it are not kept."""
    volume = opened(files.varying(tmp_path / "varying.sgy"))
    path = table("trace,delay,samples\n1,5,1\n2,6,7\n")
    assert volume.import_csv(path, keys=["trace"], values=["delay", "samples"], dry_run=True).numbers == 3
    with pytest.raises(segywb.Refused) as refusal:
        volume.import_csv(path, keys=["trace"], values=["delay", "samples"])
    assert (refusal.value.code, refusal.value.line) == ("E06", "set 2 samples 7")
    assert volume.edits == [] and volume.headers("delay")["delay"].tolist() == [0, 0, 0]


def test_many_rows(opened, table, tmp_path):
    """More lines than are sent at once."""
    inlines, crosslines = 60, 400
    volume = opened(files.cube(tmp_path / "many.sgy", inlines, crosslines, 1))
    path = table("crossline,x,y,inline\n" + "".join(f"{x},{i * x},{i - x},{i}\n" for x in range(1, crosslines + 1) for i in range(1, inlines + 1)))
    told = volume.import_csv(path, keys=KEYS, values=["x", "y"])
    assert (told.rows, told.matched, told.traces, told.unnamed, told.lacking, told.changed) == (24000, 24000, 24000, 0, 0, 24000)
    got = volume.headers("inline", "crossline", "x", "y")
    assert (got["x"] == got["inline"] * got["crossline"]).all() and (got["y"] == got["inline"] - got["crossline"]).all()
    assert volume.undoable == 1 and told.numbers == len(volume.edits) == 48000 - sum(i == x for i in range(1, 61) for x in range(1, 401))
