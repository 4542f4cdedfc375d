"""What Python shows is what the program answers in a run."""

import re
from fractions import Fraction

import files
import pytest
import retell
from conftest import TOP, run

import segywb
from segywb.fields import TRACE_NAMES

EXAMPLES = sorted(path.stem for path in (TOP / "examples").glob("*.sgy"))
MADE = [files.varying, files.stanzas, files.extended, files.empty, *(lambda path, form=form: files.odd_floats(path, form) for form in (1, 5, 6))]
METHODS = {
    "set": "set", "renumber": "renumber", "compute": "compute", "swap": "swap", "sort": "sort", "get": "get", "map": "map", "unmap": "unmap", "fields": "fields", "bin": "set_bin",
    "declare": "declare", "drop": "drop_tail", "getbin": "getbin", "text": "set_text", "line": "line", "code": "code", "stanzas": "stanzas", "sample": "sample", "samples": "samples_of",
    "patch": "patch", "fill": "fill", "resize": "resize", "blank": "blank", "copy": "copy", "delete": "delete", "move": "move", "count": "count",
    "info": "info", "geometry": "geometry", "stat": "stat", "stats": "stats", "totals": "totals", "range": "range", "fold": "fold", "grid": "grid",
    "inlines": "inlines", "crosslines": "crosslines", "histogram": "histogram", "slice": "slice", "faults": "faults",
    "problems": "problems", "survey": "survey",
    "table": "headers", "find": "find", "header": "header", "extremes": "extremes", "lines": "lines",
}


def told(volume, path, edits=(), options=()):
    """Compares all that Python shows with one run of the program."""
    pairs = retell.everything(volume)
    answers, status = run(path, [*edits, *(question for question, _ in pairs)], "--floats", *options)
    assert answers == "".join(f"{line}\n" for line in ["ok"] * len(edits) + [answer for _, answer in pairs])
    assert status == 0


@pytest.mark.parametrize("name", EXAMPLES)
def test_examples(opened, name):
    volume = opened(name)
    told(volume, volume.path)


@pytest.mark.parametrize("make", MADE, ids=lambda make: make.__name__)
def test_files(opened, tmp_path, make):
    path = make(tmp_path / "made.sgy")
    told(opened(path), path)


def test_after_edits(opened):
    volume = opened("cube")
    volume.map("shot", "@17:4")
    volume.set(2, "scalar", -1000)
    volume.copy(3, 1)
    volume.blank(5)
    volume.set(4, "shot", -7)
    told(volume, volume.path, volume.edits)


def test_after_edits_of_floats(opened):
    volume = opened("wrong_floats")
    volume.patch(1, 1, [0.1, -1e-30, float("nan"), float("inf")])
    volume.copy(1, 13)
    volume.delete(6)
    told(volume, volume.path, volume.edits)


def test_every_command_has_a_method():
    manual = (TOP / "docs" / "MANUAL.md").read_text()
    script = manual[manual.index("<!-- page: segywb-script"):]
    commands = re.findall(r"^### ([a-z]+)", script, re.M)
    assert set(commands) == set(METHODS)
    for method in METHODS.values():
        assert hasattr(segywb.Volume, method), method


def test_kinds_of_answers(opened):
    volume = opened("wrong_scalar")
    assert isinstance(volume.range("x")[0], Fraction)
    assert isinstance(volume.geometry(1).y, Fraction)
    assert volume.info.fixed is True
    assert volume.line(0, 1) == volume.text[0]
    assert bool(volume)


def test_the_headers_of_a_trace(opened, tmp_path):
    volume = opened(files.cube(tmp_path / "cube.sgy"))
    told = volume.header(6)
    assert list(told) == [*(name for name in TRACE_NAMES if not name.startswith("ext_")), "inline", "crossline", "offset", "x", "y", "scalar"]
    used = {name: number for name, number in told.items() if number}
    assert used == {"sequence_file": 6, "samples": 3, "interval": 4000, "inline_number": 2, "crossline_number": 2, "inline": 2, "crossline": 2}
    volume.map("mine", "@117:2u")
    assert list(volume.header(6).items())[-1] == ("mine", 4000)
    extended = opened(files.extended(tmp_path / "made.sgy")).header(2)
    assert len(TRACE_NAMES) == 99 and list(extended)[:99] == list(TRACE_NAMES) and extended["ext_count"] == 1


def test_extremes(opened, tmp_path):
    volume = opened(files.cube(tmp_path / "cube.sgy"))
    whole = {
        "sequence_file": (1, 12, 1, 12), "samples": (3, 3, 3, 3), "interval": (4000, 4000, 4000, 4000), "inline_number": (1, 3, 1, 3),
        "crossline_number": (1, 4, 1, 4), "inline": (1, 3, 1, 3), "crossline": (1, 4, 1, 4),
    }
    assert volume.extremes() == whole and list(volume.extremes()) == list(whole)
    assert volume.extremes()["inline"] == segywb.Extremes(least=1, greatest=3, first=1, last=3)
    part = volume.extremes(slice(3, 6))
    assert (part["sequence_file"], part["inline"], part["crossline"]) == ((3, 5, 3, 5), (1, 2, 1, 2), (1, 4, 3, 1))
    assert volume.extremes([4, 5]) == volume.extremes(range(4, 6)) and volume.extremes(7) == volume.extremes([7])
    volume.set_many("delay", [2, 3], [-9, 4])
    assert volume.extremes()["delay"] == (-9, 4, 0, 0) and "delay" not in volume.extremes(slice(4, None))
    assert volume.extremes([]) == {} and volume.extremes(slice(40, 50)) == {}
    for others in ([1, 3], [2, 1], [1, 1], slice(None, None, -1), range(1, 9, 2)):
        with pytest.raises(ValueError):
            volume.extremes(others)


def test_lines(opened, tmp_path):
    volume = opened("survey")
    volume.set_text(2, "C 2 SEEN")
    assert len(volume.lines()) == 40 and volume.lines(0)[1] == "C 2 SEEN" == volume.line(0, 2)
    assert volume.text == volume.text_block(0) == volume.lines()
    stanzas = opened(files.stanzas(tmp_path / "made.sgy"))
    assert [stanzas.lines(block)[0] for block in (1, 2)] == ["((OGP:P1/90))", "((SEG: EndText))"]
    assert len(stanzas.text) == 120


def test_faults(opened):
    volume = opened("wrong_line")
    faults = volume.faults()
    assert [(fault.code, fault.trace, fault.first) for fault in faults] == [("F6", p, p - 4) for p in (5, 6, 7, 8)]
    assert volume.fault_counts() == {"F6": 4}
    assert faults[0].meaning == segywb.answers.MEANINGS["F6"]
    volume.set_text(2, "no letter in front")
    volume.set(1, "coordinate_units", 2)
    assert volume.faults()[0][:3] == ("F8", None, None)
    assert next(fault for fault in volume.faults() if fault.code == "F5")[:3] == ("F5", 2, None)


def test_meanings_are_those_of_the_manual():
    manual = (TOP / "docs" / "MANUAL.md").read_text()
    section = manual[manual.index("### problems"):]
    section = section[:section.index("\n## ")]
    assert re.findall(r"^\| ([FS]\d+) \|", section, re.M) == list(segywb.answers.MEANINGS)


def test_problems(opened, tmp_path):
    volume = opened("cube")
    assert volume.problems() == []
    volume.set_many("scalar", [2, 3, 7], [10, 10, -10])
    volume.set(12, "delay", -8)
    volume.set_text(2, "no letter in front")
    lines, scalars, delays, jumps = volume.problems()
    assert (jumps.code, jumps.traces, jumps.first_runs[0][:2]) == ("S10", None, (1, 2))
    assert (lines.code, lines.traces, lines.runs, lines.facts, lines.how_many) == ("F8", None, 0, {"lines": 1}, 1)
    assert (scalars.code, scalars.traces, scalars.runs, scalars.how_many) == ("S3", 3, 2, 3)
    usual = scalars.first_runs[0].facts["usual"]
    assert scalars.first_runs == [(2, 3, {"scalar": 10, "usual": usual}), (7, 7, {"scalar": -10, "usual": usual})]
    assert scalars.mend == f"set all scalar {usual} where scalar != {usual}"
    assert delays.mend == "set all delay 0 where delay != 0"
    assert scalars.text.split("\n")[0] == "problem S3 traces 3 runs 2" and scalars.meaning == segywb.answers.MEANINGS["S3"]
    assert lines.mend is None


def test_problems_without_runs_of_traces(opened, tmp_path):
    volume = opened(files.cube(tmp_path / "made.sgy", inlines=5, crosslines=4))
    for _ in range(4):
        volume.delete(9)
    volume.renumber(1, len(volume), "sequence_file", 1, 1)
    (missing,) = volume.problems()
    assert missing == ("S7", None, 1, [(3, 3, {"step": 1})], {"missing": 1}, "problem S7 missing 1 runs 1\nrun 3 3 step 1", 16)
    assert missing.how_many == 1 and missing.mend is None
    volume.set_many("inline", range(1, 17), [0] * 16)
    volume.set_many("crossline", range(1, 17), [0] * 16)
    (shots,) = volume.problems()
    assert (shots.code, shots.traces, shots.facts, shots.how_many) == ("S1", 16, {"inline": 0, "crossline": 0}, 16)


def test_a_fold_that_differs(opened, tmp_path):
    volume = opened(files.cube(tmp_path / "made.sgy"))
    volume.copy(5, 13)
    volume.set(13, "offset", 7)
    volume.set(13, "sequence_file", 13)
    (fold,) = volume.problems()
    told = {"cells": 12, "usual": 1, "less": 0, "more": 1, "least": 1, "greatest": 2}
    assert fold == ("S9", None, 0, [], told, "problem S9 cells 12 usual 1 less 0 more 1 least 1 greatest 2", 13) and fold.how_many == 1
    assert fold.mend is None


def test_the_grid_of_a_survey(opened, tmp_path):
    """Its lines and their steps, how far neighbours stand apart, and how many cells there are of how many."""
    volume = opened("cube")
    told = volume.survey()
    assert told.inline == (101, 103, 1) and told.crossline == (201, 204, 1) and (told.cells, told.full) == (12, 12)
    assert told.along_inline == (0, 25) and told.along_crossline == (25, 0) and isinstance(told.along_inline[1], Fraction)
    volume.set_each("scalar", -3)
    volume.delete(2)
    assert volume.survey()[2:] == ((0, Fraction(2500, 3)), (Fraction(2500, 3), 0), 11, 12)
    volume.delete(where="inline != 103")
    alone = volume.survey()
    assert alone.inline == (103, 103, None) and alone.along_inline is None and alone.along_crossline == (Fraction(2500, 3), 0)
    volume.set_each("inline", -7, where="crossline = 202")
    assert volume.survey().inline == (-7, 103, 110) and volume.survey().full == 8
    volume.delete(where="inline = 103")
    assert volume.survey() == ((-7, -7, None), (202, 202, None), None, None, 1, 1)
    volume.delete(1)
    assert volume.survey() is None and opened(files.empty(tmp_path / "none.sgy")).survey() is None


@pytest.mark.parametrize("answer", [
    "survey", "survey nothing", "survey inline 1 1 step none", "survey inline 1 1 step none crossline 2 2 step none along_inline none along_crossline none cells 1",
    "survey inline 1 1 step x crossline 2 2 step none along_inline none along_crossline none cells 1 of 1",
    "survey inline 1 1 step none crossline 2 2 step none along_inline 1/0 0 along_crossline none cells 1 of 1",
])
def test_a_grid_that_is_none(answer):
    with pytest.raises(segywb.ProgramEnded):
        segywb.answers.survey(answer)


def test_dead_traces_are_marked(opened):
    """By one line, which is no cure: they are told all the same."""
    volume = opened("cube")
    volume.fill(2, 3, 0, 4, 0)
    volume.patch(7, 2, [-30001])
    dead, loud = volume.problems()
    assert (dead.code, loud.code, loud.mend) == ("S12", "S13", None)
    assert volume.run(dead.mend)[0].chosen == dead.traces == 2 and volume.find("trace_code", 2, 2)["trace"].tolist() == [2, 3]
    assert [one.code for one in volume.problems()] == ["S12", "S13"]


def test_positions_that_jump_and_cells_that_share_one(opened):
    """Each names two traces; those of all pairs are counted, of which ten are told."""
    volume = opened("cube")
    volume.set(6, "x", volume.get(7, "x"))
    jumps, shared = volume.problems()
    assert (jumps.code, jumps.traces, jumps.how_many, jumps.facts["jumps"]) == ("S10", None, jumps.runs, jumps.runs)
    assert jumps.runs == len(jumps.first_runs) > 0 and all(6 in run[:2] for run in jumps.first_runs) and all(run.first < run.last for run in jumps.first_runs)
    assert (shared.code, shared.how_many, shared.first_runs) == ("S11", 1, [(7, 6, {})]) and shared.mend is jumps.mend is None
    volume.undo()
    assert volume.problems() == []


def test_the_number_of_traces(opened, tmp_path):
    volume = opened(files.write(tmp_path / "made.sgy", files.header(), files.binary(major=2, at3513=(8, 9)), files.trace(1, 1, 1, [1, 2])))
    (count,) = volume.problems()
    assert (count.code, count.traces, count.facts, count.how_many) == ("F7", None, {"count": 9, "traces": 1}, 1)
    volume.run(count.mend)
    assert volume.problems() == []


NUMBERED_ANEW = "renumber all sequence_file 1 1"


@pytest.mark.parametrize("edits, mend", [
    ("move 7 3", None), ("move 3 9", None), ("move 2 4 8", None), ("renumber all sequence_file 12 -1", None),
    ("sort all crossline", None), ("delete 5", NUMBERED_ANEW), ("blank 7", NUMBERED_ANEW), ("copy 4 9", NUMBERED_ANEW),
    ("renumber all sequence_file 0 0", NUMBERED_ANEW), ("renumber all sequence_file 7001 1", NUMBERED_ANEW),
    ("compute all sequence_file crossline - 200", NUMBERED_ANEW), ("set 4 sequence_file 99999", NUMBERED_ANEW),
    ("set 9 sequence_file 2", NUMBERED_ANEW), ("set 9 sequence_file 0\nset 2 sequence_file -7", NUMBERED_ANEW),
])
def test_numbers_in_the_file_that_are_lost_by_none(opened, edits, mend):
    """Where the traces may stand in another order than they were numbered in, no line is named."""
    volume = opened("cube")
    volume.run(edits)
    order = volume.problems()[0]
    assert order.code == "F1" and order.mend == mend
    if mend:
        volume.run(mend)
        assert "F1" not in [one.code for one in volume.problems()]


def test_the_usual_number_is_that_of_most_traces(opened):
    """A number that less than half of the traces have is written into none of the others."""
    volume = opened("cube")
    for most, mend in ((6, "set all delay 0 where delay != 0"), (7, None), (12, None)):
        volume.set_each("delay", 0)
        volume.renumber(1, most, "delay", 8, 8)
        (delays,) = volume.problems()
        assert (delays.code, delays.of, delays.mend) == ("S4", 12, mend)


@pytest.mark.parametrize("answer", [
    "problems 1", "problems 0\nproblem F8 lines 1", "problems 1\nrun 1 2", "problems 1\nproblem F1 traces 2 runs 1", "problems 1\nproblem F1 runs 1 traces 2\nrun 1 2 shift 3",
    "problems 1\nproblem F1 traces 2 runs 1\nrun 1 2 shift", "problems 1\nproblem S9 cells 3", "problems 1\nproblem", "problems x",
])
def test_an_answer_that_is_none(answer):
    with pytest.raises(segywb.ProgramEnded):
        segywb.problems.problems(answer.split("\n"))


def test_without_traces(opened, tmp_path):
    volume = opened(files.empty(tmp_path / "none.sgy"))
    assert (len(volume), volume.totals, volume.range("x"), len(volume.grid), len(volume.slice(0))) == (0, None, None, 0, 0)
    assert len(volume.headers()) == 0
    assert len(volume.find("inline", 0, 9)) == 0 and volume.extremes() == {}
    assert len(volume.positions()) == 0
    assert bool(volume)


def test_run(opened):
    volume = opened("survey")
    script = "# a comment\n\n  \t\r\nset 2 inline 7\nset 9 inline 7\r\ninlines\n"
    told = volume.run(script)
    assert [(answer.number, answer.text) for answer in told] == [
        (4, "ok"), (5, "refused E01 no trace 9 of 3"), (6, "inlines 2\ninline 7 1\ninline 10 2"),
    ]
    assert "".join(f"{answer.text}\n" for answer in told) == run(volume.path, script.encode())[0]
    assert [answer.accepted for answer in told] == [True, False, False]
    assert told[1].refused.code == "E01" and told[2].refused is None
    assert volume.edits == ["set 2 inline 7"]
    assert volume.run(script.encode())[1].text == "refused E01 no trace 9 of 3"
    assert volume.run(["get 2 inline", b"count"])[1].text == "traces 3"
    assert volume.run("") == []
    with pytest.raises(ValueError):
        volume.run(["count\ncount"])


def test_run_whole(opened):
    volume = opened("survey")
    with pytest.raises(segywb.Refused) as refusal:
        volume.run("set 1 inline 7\nset 9 inline 7\nset 2 inline 7\n", stop=True)
    assert refusal.value.line == "set 9 inline 7"
    assert volume.edits == [] and volume.get(1, "inline") == 10 and volume.get(2, "inline") == 10
    assert len(volume.run("set 1 inline 7\ncount\nset 2 inline 7\n", stop=True)) == 3
    assert volume.undoable == 1
    assert volume.undo() == ["set 1 inline 7", "set 2 inline 7"]


def test_the_word_save_in_a_run(opened):
    """It is a word of sessions that have an OUT; `Volume.save` sends it."""
    volume = opened("survey")
    told = volume.run("set 1 inline 7\nsave\nsave x\nget 1 inline\n")
    assert [answer.text for answer in told] == ["ok", "refused S07 no out", "refused S02 words", "value 7"]
    with pytest.raises(segywb.Refused) as refusal:
        volume.run("set 1 inline 8\nsave\n", stop=True)
    assert (refusal.value.code, refusal.value.text, refusal.value.line) == ("S07", "no out", "save")
    assert volume.edits == ["set 1 inline 7"] and volume.get(1, "inline") == 7


@pytest.mark.parametrize("script", [b"line 0 1\x00\n", b"text 1 \xff\xfe\n# \xff\ncount", b"get 1 inline", b"\x00\ncount\n", b"text 1 \xc3\xa9\n", b"\xef\xbb\xbfcount\n"])
def test_odd_bytes(opened, script):
    volume = opened("survey")
    assert "".join(f"{answer.text}\n" for answer in volume.run(script)) == run(volume.path, script)[0]
