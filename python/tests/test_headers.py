"""Headers of many traces, as arrays, as tables and without numpy; by `get` and by `table`."""

import re
import subprocess
import sys

import files
import numpy as np
import pandas as pd
import pytest
from conftest import HERE, TOP

import segywb
from segywb import TraceField

SELECTIONS = [
    (None, range(1, 13)), (slice(None), range(1, 13)), (slice(1, 5), [1, 2, 3, 4]), (slice(5, None), range(5, 13)), (slice(None, 3), [1, 2]),
    (slice(-3, None), [10, 11, 12]), (slice(None, -10), [1, 2]), (slice(2, 9, 3), [2, 5, 8]), (slice(None, None, -1), range(12, 0, -1)),
    (slice(40, 50), []), (range(3, 6), [3, 4, 5]), (range(9, 1, -4), [9, 5]), ([7, 7, 1], [7, 7, 1]), (4, [4]), (np.array([2, 12]), [2, 12]),
    (np.arange(12) % 5 == 0, [1, 6, 11]), ([], []),
]


@pytest.mark.parametrize("case", SELECTIONS, ids=lambda case: str(case[0]))
def test_selections(opened, case):
    traces, where = case
    volume = opened("cube")
    got = volume.headers("inline", "crossline", traces=traces)
    assert got.tolist() == [(volume.get(p, "inline"), volume.get(p, "crossline")) for p in where]
    frame = volume.headers("inline", "crossline", traces=traces, frame=True)
    assert list(frame.index) == list(where) and frame.index.name == "trace" and list(frame.columns) == ["inline", "crossline"]
    assert list(frame.itertuples(index=False, name=None)) == got.tolist()
    assert volume.positions(traces).tolist() == [tuple(map(float, volume.geometry(p))) for p in where]


def test_columns_and_types(opened):
    volume = opened("cube")
    volume.map("wide", "@233:8u")
    volume.map("three", "@1:3")
    volume.set(2, "wide", 2**64 - 1)
    volume.set(3, "@225:8", -(2**63))
    got = volume.headers("inline", "scalar", "samples", "wide", "@225:8", "three", TraceField.CDP, 189)
    assert got.dtype.names == ("inline", "scalar", "samples", "wide", "@225:8", "three", "@21:4", "@189:4")
    assert [got.dtype[name].str[1:] for name in got.dtype.names] == ["i4", "i2", "u2", "u8", "i8", "i4", "i4", "i4"]
    assert int(got["wide"][1]) == 2**64 - 1 and int(got["@225:8"][2]) == -(2**63)
    assert got.tolist() == [tuple(volume.get(p, name) for name in got.dtype.names) for p in range(1, 13)]
    assert volume.headers().dtype.names == ("inline", "crossline", "offset", "x", "y", "scalar")


def test_a_frame_goes_back(opened):
    """A column that was computed in pandas is written."""
    volume = opened("cube")
    frame = volume.dataframe("inline", "crossline", traces=slice(3, 8))
    frame["inline"] = frame["inline"] * 10
    volume.set_many("inline", frame.index, frame["inline"])
    assert isinstance(frame, pd.DataFrame)
    assert volume.headers("inline", traces=slice(2, 9))["inline"].tolist() == [101, 1010, 1010, 1020, 1020, 1020, 102]
    assert volume.positions(frame=True).loc[3, "inline"] == 1010


@pytest.mark.parametrize("scalar", [0, 1, -1, 100, -100, 7, -7, 32767, -32768])
def test_positions_under_the_scalar(opened, scalar):
    volume = opened("cube")
    volume.set_many("scalar", slice(2, None), scalar)
    volume.set(3, "x", -(2**31))
    volume.set(4, "y", 2**31 - 1)
    assert volume.positions().tolist() == [tuple(map(float, volume.geometry(p))) for p in range(1, 13)]


def test_positions_in_an_extension(opened, tmp_path):
    volume = opened(files.extended(tmp_path / "made.sgy"))
    volume.set(2, "@1.9:4", -77)
    volume.map("x", "@1.9:4")
    assert volume.positions().tolist() == [tuple(map(float, volume.geometry(p))) for p in (1, 2)]
    assert volume.positions()["x"].tolist() == [0.0, -77.0]


def known():
    """The names that the manual's tables have, with their places: the program's own, those of Seismic Unix and those of segyio."""
    manual = (TOP / "docs" / "MANUAL.md").read_text()
    tables = manual[manual.index("<!-- names, made by"):manual.index("<!-- end of the names")]
    for row in tables.splitlines():
        cells = [cell.strip() for cell in row.strip("|").split(" | ")]
        if len(cells) > 3 and cells[1].startswith("`@"):
            for cell in (cells[0], *cells[4:]):
                yield from ((name, cells[1].strip("`")) for name in re.findall(r"`(\w+)`", cell))


def test_each_name_that_the_program_knows(opened, tmp_path):
    """Each is read, written and found, and another name is bound to its place; those of segyio are found in any case."""
    names = dict(known())
    assert len(names) > 250 and {"source_x": "@73:4", "cdp": "@21:4", "SourceX": "@73:4", "ext_count": "@1.157:2u"}.items() <= names.items()
    assert {one.name for one in TraceField} - {"offset"} <= set(names)
    volume = opened(files.extended(tmp_path / "made.sgy"))
    for name, place in {**names, "sourcex": "@73:4", "SOURCEX": "@73:4", "inline": "@189:4", "x": "@181:4"}.items():
        if name == "offset":  # it is bound: where, `fields` tells
            place = volume.fields()[name]
        volume.map("mine", name)
        assert volume.fields()["mine"] == place, name
        assert volume.headers(name).tolist() == volume.headers(place).tolist() == volume.headers("mine").tolist(), name
        number = volume.get(2, place)
        volume.set_many(name, [2], number)
        assert volume.find(name, number, number)["trace"].tolist() == volume.find(place, number, number)["trace"].tolist(), name
    assert len(volume.edits) == 2 * (len(names) + 4)


def test_pieces(opened, monkeypatch):
    whole = opened("cube").headers("inline", "x", "y").tolist()
    for name, number in (("GET_LINES", 5), ("WINDOW_TRACES", 5), ("WINDOW_LINES", 2)):
        monkeypatch.setattr(f"segywb.headers.{name}", number)
    volume = opened("cube")
    assert volume.headers("inline", "x", "y").tolist() == whole
    assert volume.headers("crossline", traces=range(12, 0, -1))["crossline"].tolist() == [204, 203, 202, 201] * 3
    assert volume.find("crossline", 203, 203)["trace"].tolist() == [3, 7, 11]
    volume._table = False
    assert volume.headers("inline", "x", "y").tolist() == whole
    assert len(volume.positions()) == 12


TABLE = """
FIELDS = ["inline", "crossline", "offset", "x", "y", "scalar"]
for line in sys.stdin:
    word, *more = line.split()
    told = "traces 12"
    if word == "fields":
        told = "\\n".join(["fields 6"] + ["field %s @1:8u" % name if name == "y" else "field %s @1:4" % name for name in FIELDS])
    if word == "table":
        first, last = int(more[0]), int(more[1])
        assert 0 < len(more) - 2 <= 64
        told = "\\n".join(["table %d" % (last - first + 1)] + [" ".join([str(p)] + [str(p * (len(name) + 2 ** 60 * (name == "y"))) for name in more[2:]]) for p in range(first, last + 1)])
        if last > 12:
            told = "refused E01 no trace %d of 12" % last
    print(told, end="\\n\\n", flush=True)
"""


@pytest.mark.parametrize("piece", [3, 100])
@pytest.mark.parametrize("case", SELECTIONS, ids=lambda case: str(case[0]))
def test_by_table(fake, opened, monkeypatch, case, piece):
    """Where the program knows `table`, no `get` is sent."""
    fake(TABLE)
    monkeypatch.setattr("segywb.headers.WINDOW_TRACES", piece)
    volume = opened("cube")
    got = volume.headers("inline", "y", "x", traces=case[0])
    assert got.tolist() == [(6 * p, p * (1 + 2**60), p) for p in case[1]]
    with pytest.raises(segywb.Refused) as refusal:
        volume.headers("inline", traces=[1, 2, 13])
    assert refusal.value.line.startswith("table ")


@pytest.mark.parametrize("case", SELECTIONS, ids=lambda case: str(case[0]))
def test_by_get(opened, case):
    """A program that does not know `table` is asked by `get`."""
    volume = opened("cube")
    volume.set(4, "@225:8", 2**63 - 1)
    by_table = volume.headers("inline", "@225:8", "x", traces=case[0])
    assert volume._table is True or not len(by_table)
    volume._table = False
    assert volume.headers("inline", "@225:8", "x", traces=case[0]).tolist() == by_table.tolist()


FOUND = [
    (("inline", 102, 102, None), [(5, 102), (6, 102), (7, 102), (8, 102)]), (("crossline", 204, 999, slice(1, 9)), [(4, 204), (8, 204)]),
    (("crossline", 203, 204, [8, 1, 7, 7]), [(8, 204), (7, 203), (7, 203)]), (("crossline", 204, 203, None), []), (("inline", -(2**127), 2**127 - 1, 12), [(12, 103)]),
    (("inline", 0, 999, []), []), (("inline", 0, 999, slice(40, 50)), []), ((TraceField.CROSSLINE_3D, 201, 201, range(9, 0, -4)), [(9, 201), (5, 201), (1, 201)]),
]


@pytest.mark.parametrize("case", FOUND, ids=lambda case: str(case[0]))
def test_find(opened, case):
    words, wanted = case
    got = opened("cube").find(*words)
    assert got.tolist() == wanted and got.dtype.names == ("trace", "value")


def test_a_refused_question_does_not_load_the_file_again(opened, monkeypatch):
    monkeypatch.setattr("segywb.headers.WINDOW_TRACES", 1)
    volume = opened("cube")
    before = volume.pid
    for call, code in (
        (lambda: volume.headers("colour"), "E02"), (lambda: volume.headers("inline", traces=[1, 2, 3, 99]), "E01"), (lambda: volume.find("@1.1:4", 0, 1), "E03"),
        (lambda: volume.header(99), "E01"), (lambda: volume.extremes(range(5, 99)), "E01"), (lambda: volume.lines(1), "E03"), (lambda: volume.positions([99]), "E01"),
    ):
        with pytest.raises(segywb.Refused) as refusal:
            call()
        assert refusal.value.code == code and volume.pid == before
    assert volume.headers("inline", traces=[12, 1]).tolist() == [(103,), (101,)]


def test_find_wide_numbers(opened):
    volume = opened("cube")
    volume.set(2, "@225:8u", 2**64 - 1)
    volume.set(5, "@225:8", -7)
    assert volume.find("@225:8u", 1, 2**64).tolist() == [(2, 2**64 - 1), (5, 2**64 - 7)]
    assert volume.find("@225:8", -9, -1).tolist() == [(2, -1), (5, -7)]
    volume.set_many("offset", volume.find("@225:8", -9, -1)["trace"], 3)
    assert volume.headers("offset", traces=volume.find("offset", 3, 3)["trace"])["offset"].tolist() == [3, 3]


def test_answers_that_are_not_expected(fake, opened):
    fake("""
for line in sys.stdin:
    word, *more = line.split()
    told = {"count": "traces 2", "fields": "fields 1\\nfield inline @1:4", "table": "table 2\\n1 7\\n2 8", "find": "found 1\\ntrace 1",
            "header": "header 2\\nfield inline 7", "extremes": "extremes 1\\nfield inline 7 7 7", "lines": "lines 1\\nline |x"}[word]
    if word == "table" and more[-1] != "inline":
        told = "rows 2\\n1 7\\n2 8"
    print(told, end="\\n\\n", flush=True)
""")
    volume = opened("cube")
    assert volume.headers("inline").tolist() == [(7,), (8,)]
    for call in (lambda: volume.headers("x"), lambda: volume.headers("x", "inline"), lambda: volume.find("x", 1, 2), lambda: volume.header(1), volume.extremes, volume.lines):
        with pytest.raises(segywb.ProgramEnded):
            call()


def test_table_of_many_fields(fake, opened):
    fake(TABLE)
    names = ["f" * n for n in range(1, 131)]
    assert opened("cube").headers(*names, traces=2).tolist() == [tuple(2 * n for n in range(1, 131))]


BARE = f"""
import sys
sys.path[:0] = [{str(HERE.parent / 'src')!r}, {str(HERE)!r}]
for name in ("numpy", "pandas", "matplotlib"):
    sys.modules[name] = None
import segywb, retell
from conftest_run import run
volume = segywb.open(sys.argv[1])
volume.set_many("inline", slice(2, 4), [7, 8])
pairs = retell.everything(volume)
assert run(sys.argv[1], [*volume.edits, *(question for question, _ in pairs)])[0] == "".join(line + "\\n" for line in ["ok", "ok"] + [answer for _, answer in pairs])
assert volume.headers("inline", traces=slice(1, 4)) == [(101,), (7,), (8,)]
assert volume.headers("inline", traces=[]) == []
assert volume.find("inline", 7, 8) == [(2, 7), (3, 8)] and volume.find("inline", 8, 7) == []
assert volume.extremes()["inline"] == (7, 103, 101, 103)
assert volume.grid.array[0][:2] == [0, 1], volume.grid.array
assert volume.slice(1).array[0][:2] == [None, 42], volume.slice(1).array
assert volume.slice(1).traces[0][:2] == [0, 2]
assert volume._repr_html_().startswith("<div")
assert segywb.tools.metadata(volume)[0] == [7, 8, 101, 102, 103]
try:
    volume.dataframe()
except ImportError as error:
    assert "pandas" in str(error)
else:
    raise SystemExit("a table without pandas")
try:
    volume.fit()
except ImportError as error:
    assert "a fit needs numpy" in str(error)
else:
    raise SystemExit("a fit without numpy")
floats = segywb.open(sys.argv[2])
if floats.has_floats:
    assert floats.samples(1) == [1.375, 5.125, -12.625, 3.625, 0.0] and floats.sample(6, 2) == 1.0000000200408773e20
    assert floats.slice(2).array[1][:2] == [-12.75, 1.0000000200408773e20] and floats.slice(2).rows[0] == (101, 201, 1, -12.625)
    floats.patch(1, 0, [0.1, float("nan")])
    assert floats.stat(1) == (-12.625, 3.625, floats.stat(1).sum, 5, 1) and floats.samples(1)[0] == 0.10000000149011612
print("done")
"""


def test_without_numpy(example, tmp_path):
    """The standard library alone is enough."""
    source = (HERE / "conftest.py").read_text()
    head = "import os, subprocess\nfrom segywb import program\n"
    (tmp_path / "conftest_run.py").write_text(head + source[source.index("def run("):])
    done = subprocess.run([sys.executable, "-c", f"import sys; sys.path.insert(0, {str(tmp_path)!r})\n" + BARE, example("cube"), example("wrong_floats")], capture_output=True, text=True, check=False)
    assert (done.stdout, done.stderr) == ("done\n", "")


def test_maps(opened):
    volume = opened("twice")
    grid = volume.grid
    assert grid.shape == (3, 4) and len(grid) == 12 and grid.inlines == [101, 102, 103] and grid.crosslines == [201, 202, 203, 204]
    assert grid.array.tolist() == [[volume.fold(i, x) for x in grid.crosslines] for i in grid.inlines]
    assert np.asarray(grid).sum() == len(volume) == 13
    assert "3 inlines, 4 crosslines" in repr(grid)
    cut = volume.slice(1)
    assert (cut.shape, len(cut), cut.sample) == ((3, 4), 13, 1)
    first = {}
    for inline, crossline, trace, value in cut.rows.tolist():
        first.setdefault((inline, crossline), (trace, value))
    for up, inline in enumerate(cut.inlines):
        for right, crossline in enumerate(cut.crosslines):
            assert (int(cut.traces[up, right]), int(cut.array[up, right])) == first[inline, crossline]
    assert np.array_equal(np.asarray(cut), cut.array.data) and "Slice 1" in repr(cut)
    volume.delete(1)
    volume.set(1, "inline", 500)
    assert bool(volume.slice(1).array.mask[0, 0]) and volume.grid.array[0, 0] == 0
    assert np.asarray(volume.slice(1), dtype=float)[0, 0] == 0.0


def test_a_map_of_too_many_cells(opened, monkeypatch):
    monkeypatch.setattr("segywb.grids.MOST_CELLS", 10)
    volume = opened("cube")
    with pytest.raises(ValueError):
        volume.grid.array
    assert len(volume.slice(1).rows) == 12


def test_wide_samples(opened, tmp_path):
    volume = opened(files.varying(tmp_path / "varying.sgy"))
    assert volume.slice(1).rows["value"].tolist() == [2**64 - 2, 2**64 - 2]
    assert volume.samples(3).tolist() == [2**64 - 1, 2**64 - 2, 2**64 - 3]
    assert int(volume.slice(2).array[0, 0]) == 2**64 - 3
