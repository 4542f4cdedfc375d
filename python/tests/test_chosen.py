"""Edits and questions of chosen traces: each compared with a run of the program over the same lines."""

import inspect
import subprocess
import sys

import files
import numpy as np
import pytest
from conftest import HERE, run

import segywb
from segywb import TraceField, answers, lines

LATE = "inline = 102 and crossline > 202"
# An edit, its line, and what it gives back. The cube has the inlines 101 to 103 and the crosslines 201 to 204.
EDITS = [
    (lambda v: v.set_each("delay", 7, where=LATE), f"set all delay 7 where {LATE}", 2),
    (lambda v: v.set_each("delay", 7), "set all delay 7", None),
    (lambda v: v.set_each("delay", 7, traces=slice(5, 8)), "set 5 7 delay 7", None),
    (lambda v: v.set_each("delay", 7, traces=slice(5, 8), where=LATE), f"set 5 7 delay 7 where {LATE}", 1),
    (lambda v: v.set_each(TraceField.CDP, np.int16(-7), traces=4, where="scalar != 1"), "set 4 4 @21:4 -7 where scalar != 1", 1),
    (lambda v: v.set_each("delay", 7, where="inline = 9"), "set all delay 7 where inline = 9", 0),
    (lambda v: v.renumber(1, 8, "cdp", 10, 5, where="inline = 102"), "renumber 1 8 cdp 10 5 where inline = 102", 4),
    (lambda v: v.renumber(None, None, "cdp", 10, where=LATE), f"renumber all cdp 10 0 where {LATE}", 2),
    (lambda v: v.renumber(None, None, "cdp", 10, 1), "renumber all cdp 10 1", None),
    (lambda v: v.renumber(5, None, "cdp", 10, 1), "renumber 5 last cdp 10 1", None),
    (lambda v: v.renumber(None, 5, "cdp", 10, 1), "renumber 1 5 cdp 10 1", None),
    (lambda v: v.renumber(5, 8, "cdp", 10, 1, "cdp = -9"), "renumber 5 8 cdp 10 1 where cdp = -9", 0),
    (lambda v: v.compute(1, 12, "x", "x + 1000", where="inline >= 102"), "compute 1 12 x x + 1000 where inline >= 102", 8),
    (lambda v: v.compute(None, None, "cdp", TraceField.INLINE_3D, "*", 10), "compute all cdp @189:4 * 10", None),
    (lambda v: v.compute(None, None, "x", "x + 1", where="1 = 2"), "compute all x x + 1 where 1 = 2", 0),
    (lambda v: v.swap("x", "cdp"), "swap all x cdp", None),
    (lambda v: v.swap("x", "cdp", first=5), "swap 5 last x cdp", None),
    (lambda v: v.swap(TraceField.CDP, "@109:2", 2, 8), "swap 2 8 @21:4 @109:2", None),
    (lambda v: v.swap("x", "cdp", where=LATE), f"swap all x cdp where {LATE}", 2),
    (lambda v: v.swap("x", "cdp", last=7, where=LATE), f"swap 1 7 x cdp where {LATE}", 1),
    (lambda v: v.swap("inline", "crossline", where="inline = 9"), "swap all inline crossline where inline = 9", 0),
    (lambda v: v.delete(3, 6), "delete 3 6", None),
    (lambda v: v.delete(trace=3), "delete 3", None),
    (lambda v: v.delete(where="crossline = 204"), "delete all where crossline = 204", 3),
    (lambda v: v.delete(1, 6, "crossline = 204"), "delete 1 6 where crossline = 204", 1),
    (lambda v: v.delete(4, where="crossline = 204"), "delete 4 4 where crossline = 204", 1),
    (lambda v: v.delete(where="crossline = 9"), "delete all where crossline = 9", 0),
    (lambda v: v.delete(where="crossline > 0"), "delete all where crossline > 0", 12),
    (lambda v: v.sort(None, None, "-crossline"), "sort all -crossline", None),
]
# Each takes conditions.
TAKES = [
    lambda v, text: v.set_each("delay", 7, where=text), lambda v, text: v.renumber(1, 2, "delay", 7, where=text),
    lambda v, text: v.compute(1, 2, "delay", 7, where=text), lambda v, text: v.delete(1, 2, where=text), lambda v, text: v.count(where=text),
    lambda v, text: v.count(traces=[1, 2], where=text), lambda v, text: v.headers("inline", where=text), lambda v, text: v.dataframe("inline", where=text),
    lambda v, text: v.find("inline", 1, 2, where=text), lambda v, text: v.extremes(where=text), lambda v, text: v.extremes(traces=[1, 2], where=text),
    lambda v, text: v.positions(where=text), lambda v, text: v.fit(where=text), lambda v, text: v.plot_headers("inline", where=text),
    lambda v, text: v.swap("inline", "crossline", where=text), lambda v, text: v.fill(1, 2, 0, 1, 7, where=text),
    lambda v, text: v.set_many("delay", None, 7, where=text), lambda v, text: v.section(where=text), lambda v, text: v.section([1, 2], text, inline=101),
    lambda v, text: v.section_traces(where=text), lambda v, text: v.plot_section(where=text),
]


def test_each_call_that_takes_a_selection_takes_conditions():
    calls = {name: inspect.signature(call).parameters for name, call in inspect.getmembers(segywb.Volume, inspect.isfunction) if not name.startswith("_")}
    taking = {name for name, words in calls.items() if "traces" in words and words["traces"].annotation == "Any"}
    assert {"count", "headers", "section", "fit", "plot_section", "set_many"} <= taking
    assert {name for name in taking if "where" not in calls[name]} == set()


@pytest.mark.parametrize("case", EDITS, ids=lambda case: case[1])
def test_one_edit(opened, tmp_path, case):
    """It is one step, saved as the program's own run saves it, taken back, and done again."""
    edit, line, count = case
    volume = opened("cube")
    before = volume.headers("trace_code", "x", "delay", "cdp").tolist()
    volume.set(1, "trace_code", 9)
    assert edit(volume) == count
    assert volume.edits == ["set 1 trace_code 9", line] and volume.undoable == 2
    after = volume.headers("trace_code", "x", "delay", "cdp").tolist()
    volume.save(tmp_path / "python.sgy")
    answer = "ok" if count is None else f"ok {count}"
    assert run(volume.path, volume.edits, "--out", str(tmp_path / "run.sgy")) == (f"ok\n{answer}\n", 0)
    assert (tmp_path / "python.sgy").read_bytes() == (tmp_path / "run.sgy").read_bytes()
    assert volume.undo(2) == ["set 1 trace_code 9", line]
    assert volume.headers("trace_code", "x", "delay", "cdp").tolist() == before
    assert volume.redo(2) == ["set 1 trace_code 9", line]
    assert volume.headers("trace_code", "x", "delay", "cdp").tolist() == after
    volume.restart()
    assert volume.headers("trace_code", "x", "delay", "cdp").tolist() == after and len(volume.edits) == 2


def test_an_edit_of_several_runs_is_one_step(opened):
    volume = opened("cube")
    assert volume.set_each("delay", 7, traces=[9, 2, 3, 9, 12], where="crossline != 203") == 3
    assert volume.edits == [f"set {span} delay 7 where crossline != 203" for span in ("2 3", "9 9", "12 12")]
    assert volume.find("delay", 7, 7)["trace"].tolist() == [2, 9, 12]
    assert volume.undoable == 1 and len(volume.undo()) == 3 and volume.edits == []
    mask = volume.headers("inline")["inline"] == 102
    assert volume.set_each("delay", 8, traces=mask) is None and volume.edits == ["set 5 8 delay 8"]
    assert volume.set_each("delay", 8, traces=[]) is None and volume.set_each("delay", 8, traces=[], where=LATE) == 0
    assert volume.set_each("delay", 8, traces=range(4, 4)) is None and len(volume.edits) == 1


def test_what_is_asked_of_chosen_traces(opened, monkeypatch):
    volume = opened("cube")
    lines_of = volume.headers("inline", "crossline")
    chosen = [at for at, (inline, crossline) in enumerate(lines_of.tolist(), 1) if inline == 102 and crossline > 202]
    for name, number in (("WINDOW_TRACES", 1 << 15), ("WINDOW_TRACES", 5), ("WINDOW_LINES", 2)):
        monkeypatch.setattr(f"segywb.headers.{name}", number)
        for traces in (None, slice(1, 8), range(8, 0, -1), [8, 8, 1], range(1, 13), lines_of["crossline"] == 203, []):
            meant = range(1, 13) if traces is None else volume._where(traces)
            wanted = [at for at in meant if at in chosen]
            frame = volume.dataframe("x", "crossline", traces=traces, where=LATE)
            assert frame.index.tolist() == wanted and frame.index.name == "trace" and list(frame.columns) == ["x", "crossline"]
            assert volume.headers("x", "crossline", traces=traces, where=LATE).tolist() == [(volume.get(at, "x"), volume.get(at, "crossline")) for at in wanted]
            assert volume.count(traces=traces, where=LATE) == len(wanted)
            places = volume.positions(traces=wanted)
            assert volume.positions(traces=traces, where=LATE).tolist() == places.tolist()
            assert volume.find("crossline", 204, 204, traces=traces, where=LATE)["trace"].tolist() == [at for at in wanted if at == 8]
            assert volume.section_traces(traces, LATE).tolist() == wanted
            assert volume.section(traces, LATE).array.tolist() == volume.section(wanted).array.tolist()
    assert volume.extremes(where=LATE)["crossline"] == (203, 204, 203, 204)
    assert volume.extremes(traces=slice(1, 8), where=LATE)["crossline"] == (203, 203, 203, 203)
    assert volume.edits == []


def test_a_fit_and_a_picture_of_chosen_traces(opened, tmp_path):
    volume = opened("cube")
    some = volume.fit(where="crossline != 202")
    wanted = volume.fit(traces=volume.headers("crossline")["crossline"] != 202)
    assert some.misfit.tolist() == wanted.misfit.tolist() and some.spacing == wanted.spacing
    drawn = volume.plot_headers("crossline", where="inline = 102", path=tmp_path / "some.png")
    assert drawn[0].lines[0].get_xydata().tolist() == [[5, 201], [6, 202], [7, 203], [8, 204]]
    assert (tmp_path / "some.png").stat().st_size > 0


def test_a_section_of_chosen_traces(opened, tmp_path):
    """It stands in the order of a section, and its numbers count beside the conditions."""
    volume = opened("cube")
    volume.move(8, 5)
    assert volume.section(where="crossline > 202", inline=102).traces.tolist() == [8, 5]
    assert volume.section(slice(1, 8), "inline != 101", crossline=204).traces.tolist() == [5]
    assert volume.section(where=LATE).traces.tolist() == [5, 8] and volume.section(where="inline = 9").shape == (0, 0)
    axes = volume.plot_section(where="crossline > 202", inline=102, path=tmp_path / "some.png")
    assert axes[-1].get_title() == "inline 102, where crossline > 202" and axes[-1].get_xlim() == (-0.5, 1.5)
    volume.map("where", "@109:2")
    with pytest.raises(TypeError, match="conditions"):  # a field of that name is told by its place
        volume.section(where=7)
    assert volume.section_traces(**{"@109:2": 0}, inline=102).tolist() == [6, 7, 8, 5]


def test_many_numbers_of_chosen_traces(opened):
    """As many as are chosen, in their order; they are one step."""
    volume = opened("cube")
    assert volume.set_many("delay", None, [70, 80], where=LATE) == 2 and volume.edits == ["set 7 delay 70", "set 8 delay 80"]
    assert volume.set_many("cdp", [8, 1, 7], [1, 2], where=LATE) == 2 and volume.edits[2:] == ["set 8 cdp 1", "set 7 cdp 2"]
    assert volume.set_many("delay", slice(1, 8), 9, where=LATE) == 1 and volume.set_many("delay", None, [], where="inline = 9") == 0
    assert volume.set_many("delay", [1], [5]) is None and volume.undoable == 4
    with pytest.raises(ValueError, match="2 traces and 12 values"):
        volume.set_many("delay", None, range(12), where=LATE)
    assert volume.undo(4)[-1] == "set 1 delay 5" and volume.extremes().get("delay") is None


@pytest.mark.parametrize("take", range(len(TAKES)))
def test_a_sign_stands_between_blanks(opened, take):
    """One that does not is none of a condition; what is meant is told, and nothing is sent."""
    volume = opened("cube")
    asked = volume._engine.session().pid
    for text, meant in (
        ("inline=102", "'inline = 102', not"), ("inline = 1 and x>=3", "'inline = 1 and x >= 3', not"), ("inline == 102", "'inline = 102', not"),
        ("inline !=102", "'inline != 102', not"), ("-3<inline", "'-3 < inline', not"), ("inline <> 102", ">=: not 'inline <> 102'"), ("x ! = 3", ">=: not"),
    ):
        with pytest.raises(ValueError, match="stands between blanks") as error:
            TAKES[take](volume, text)
        assert meant in str(error.value), text
    assert volume.edits == [] and volume._engine.session().pid == asked


def test_none_is_chosen(opened):
    volume = opened("cube")
    nobody = "inline = 9"
    assert volume.count(where=nobody) == 0 and volume.extremes(where=nobody) == {}
    got = volume.headers("inline", "samples", where=nobody)
    assert got.tolist() == [] and got.dtype == volume.headers("inline", "samples").dtype
    assert volume.dataframe("inline", where=nobody).index.tolist() == [] and volume.find("inline", 1, 999, where=nobody).tolist() == []
    assert volume.set_each("inline", 7, where=nobody) == volume.delete(where=nobody) == 0


def test_many_and_wide_fields(opened, tmp_path):
    """More than a line asks for, and numbers of 8 bytes without a sign among them."""
    volume = opened("cube")
    volume.set(8, "@1:8u", 2**64 - 1)
    names = [f"@{byte}:2" for byte in range(1, 201, 2)] + ["@1:8u", "@233:8u"]
    got = volume.headers(*names, where=LATE)
    assert got.tolist() == volume.headers(*names, traces=[7, 8]).tolist() and int(got["@1:8u"][1]) == 2**64 - 1
    assert volume.dataframe("@1:8u", where=LATE).index.tolist() == [7, 8]


def test_a_file_without_traces(opened, tmp_path):
    volume = opened(files.empty(tmp_path / "empty.sgy"))
    assert volume.count(where=LATE) == 0 and volume.extremes(where=LATE) == {} and volume.headers("inline", where=LATE).tolist() == []
    assert volume.find("inline", 1, 2, where=LATE).tolist() == [] and volume.dataframe("inline", where=LATE).index.tolist() == []
    assert volume.set_each("delay", 7, where=LATE) == volume.delete(where=LATE) == 0
    assert volume.renumber(None, None, "delay", 7, where=LATE) == volume.compute(None, None, "delay", 7, where=LATE) == 0
    assert volume.set_each("delay", 7) is None and volume.sort(None, None, "inline") is None
    with pytest.raises(segywb.Refused, match="E01"):
        volume.delete(1, 2, where=LATE)
    assert len(volume.edits) == 6 and len(volume.undo(6)) == 6


@pytest.mark.parametrize("form", [1, 5])
def test_a_file_of_floats(opened, tmp_path, form):
    volume = opened(files.floats(tmp_path / "floats.sgy", form))
    before = [volume.samples(at).tolist() for at in (1, 2, 3)]
    assert volume.set_each("delay", 7, where="crossline >= 2") == 2 and volume.delete(where="delay = 0") == 1
    assert [volume.samples(at).tolist() for at in (1, 2)] == before[1:] and volume.has_floats
    assert volume.headers("crossline", where="delay = 7").tolist() == [(2,), (3,)]
    volume.undo(2)
    assert [volume.samples(at).tolist() for at in (1, 2, 3)] == before


@pytest.mark.parametrize("take", range(len(TAKES)))
def test_what_is_refused(opened, take):
    """Conditions that are none by the program; a text that is none of a line is not sent at all."""
    volume = opened("cube")
    for text, code in (("inline =", "S02"), ("inline = 1 and", "S02"), ("colour = 1", "E02"), ("@1.9:4 = 1", "E03"), ("inline = 1 and 2 ~ 2", "S03"),
                       (" and ".join(["inline = 1"] * 9), "S02")):
        with pytest.raises(segywb.Refused) as refusal:
            TAKES[take](volume, text)
        assert refusal.value.code == code and text in refusal.value.line, text
    for text, error in (("", ValueError), (" \t", ValueError), ("inline = 1\nset 1 inline 7", ValueError), ("inline = 1\r", ValueError), (7, TypeError), (b"inline = 1", TypeError)):
        with pytest.raises(error):
            TAKES[take](volume, text)
    assert volume.edits == [] and volume.get(1, "inline") == 101 and len(volume) == 12


def test_what_an_edit_refuses_changes_nothing(opened):
    volume = opened("cube")
    for edit, code in (
        (lambda: volume.set_each("delay", 2**15, where=LATE), "E04"), (lambda: volume.renumber(5, 13, "delay", 7, where=LATE), "E01"),
        (lambda: volume.compute(None, None, "delay", "1 / offset", where=LATE), "E13"), (lambda: volume.delete(3, 13), "E01"), (lambda: volume.delete(6, 3), "E01"),
        (lambda: volume.set_each("delay", 7, traces=[1, 2, 13]), "E01"), (lambda: volume.swap("x", "colour"), "E02"), (lambda: volume.swap("x", "y", 3, 13), "E01"),
        (lambda: volume.swap("x", "delay", where=LATE), "E04"),
    ):
        with pytest.raises(segywb.Refused) as refusal:
            edit()
        assert refusal.value.code == code
    assert volume.edits == [] and len(volume) == 12 and volume.extremes().get("delay") is None


def test_what_is_no_call(opened):
    volume = opened("cube")
    for call in (
        lambda: volume.delete(), lambda: volume.delete(last_trace=4), lambda: volume.delete(last_trace=4, where=LATE), lambda: volume.delete(True),
        lambda: volume.delete(1, 2.0), lambda: volume.count(slice(1, 5)), lambda: volume.set_each("delay", 1.0), lambda: volume.renumber(1.0, None, "delay", 1),
        lambda: volume.compute(None, None, "delay", where=LATE), lambda: volume.swap("inline"), lambda: volume.swap("inline", "crossline", True),
    ):
        with pytest.raises(TypeError):
            call()
    with pytest.raises(ValueError, match="follow"):
        volume.extremes(traces=[1, 3], where=LATE)
    assert volume.edits == []


def test_scripts(opened):
    """Their edits of chosen traces are steps as any, and tell of how many traces they were."""
    volume = opened("cube")
    told = volume.run(["set all delay 7 where inline = 102", "count all where delay = 7", "delete all where delay = 8", "delete 1 2", "delete 1 where delay = 7"])
    assert [(one.text.split(" (")[0], one.accepted, one.chosen) for one in told] == [
        ("ok 4", True, 4), ("chosen 4", False, None), ("ok 0", True, 0), ("ok", True, None), ("refused S02 words", False, None),
    ]
    assert volume.undoable == 3 and len(volume) == 10
    volume.run("set all delay 9 where delay = 7\ndelete all where delay = 9", stop=True)
    assert len(volume) == 6 and volume.undo() == ["set all delay 9 where delay = 7", "delete all where delay = 9"] and len(volume) == 10
    with pytest.raises(segywb.Refused):
        volume.run("set all delay 9 where delay = 7\nset 99 inline 1", stop=True)
    assert volume.count(where="delay = 7") == 4 and volume.undoable == 3


def test_how_they_are_saved(opened):
    """Numbers of chosen traces go into the file itself; chosen traces that are deleted want a new file."""
    volume = opened("cube")
    volume.set_each("delay", 7, where=LATE)
    volume.swap("cdp", "@193:4", where=LATE)
    assert volume.in_place().possible
    volume.save(in_place=True)
    assert volume.edits == [] and volume.count(where="delay = 7") == volume.count(where="cdp > 202 and crossline = 0") == 2
    volume.swap("cdp", "crossline", 7, 8)
    volume.delete(where="delay = 7")
    assert not volume.in_place().possible
    volume.save()
    assert volume.edits == [] and len(volume) == 10


def test_a_name_where(opened):
    """A field may be called so."""
    volume = opened("cube")
    volume.map("where", "@109:2")
    assert volume.set_each("where", 7, where="where = 0 and inline = 101") == 4
    volume.set_each("where", 8, traces=slice(12, 13))
    assert volume.headers("where", where="where > 0")["where"].tolist() == [7] * 4 + [8]


@pytest.mark.parametrize("answer", ["ok 4 5", "ok x", "ok -1", "ok ", "okay"])
def test_answers_that_are_none(fake, example, answer):
    fake(f"""
print("segywb 0") if "--version" in sys.argv else None
for line in sys.stdin:
    print("traces 12" if line == "count\\n" else {answer!r}, end="\\n\\n", flush=True)
""")
    with segywb.open(example("cube")) as volume:
        with pytest.raises(segywb.ProgramEnded, match="not expected"):
            volume.set_each("delay", 7, where=LATE)
        assert volume.edits == []


def test_words():
    assert lines.between(2, 3) == "2 3" and lines.choosing(" a = b ") == ["where  a = b "]
    assert answers.all_accepted(b"", 0) and not answers.all_accepted(b"ok\n\n", 2) and not answers.all_accepted(b"ok 1\n\nok\n\n", 1)
    assert answers.all_chosen(b"ok\n\nok 0\n\n") == 0


def test_without_numpy(example):
    script = (
        "import sys; sys.modules['numpy'] = None\nimport segywb\nwith segywb.open(sys.argv[1]) as v:\n"
        "    print(v.headers('inline', 'crossline', where='crossline = 204'), v.find('inline', 102, 103, where='crossline = 204'), v.headers('x', where='1 = 2'))"
    )
    words = [sys.executable, "-c", script, example("cube")]
    told = subprocess.run(words, cwd=HERE.parent / "src", capture_output=True, text=True, check=True).stdout
    assert told == "[(101, 204), (102, 204), (103, 204)] [(8, 102), (12, 103)] []\n"
