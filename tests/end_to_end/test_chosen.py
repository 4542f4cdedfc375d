"""Chosen traces: all, where. The small survey has inline 10, crosslines 21, 22 and 23, offsets 100, 200 and 300 and x 1000, 2000 and
3000."""

import pytest

from files import float_line
from reports import check_reload
from tables import SAME, case, check, check_alike, rows, saving

# the first without a number, the third without a sample
FLOATS = "f.sgy", float_line("little", 5, 2, "7fc00000,ffc00000", "3f800000,80000000", "-", "80000000,00000000")

CHOSEN = [
    saving(
        "how many are chosen", "s.sgy",
        "count 1 3 where crossline >= 22 ; count all where offset < 300 and crossline != 21 ; count 2 3 where inline = 11 ; "
        "count all where crossline > offset ; count 1 2 where 7 <= 7 ; count",
        "chosen 2 / chosen 1 / chosen 0 / chosen 0 / chosen 2 / traces 3",
    ),
    saving(
        "each sign", "s.sgy",
        "count all where crossline = 22 ; count all where crossline != 22 ; count all where crossline < 22 ; "
        "count all where crossline <= 22 ; count all where crossline > 22 ; count all where crossline >= 22",
        "chosen 1 / chosen 2 / chosen 1 / chosen 2 / chosen 1 / chosen 2",
    ),
    saving(
        "a table of chosen traces", "s.sgy",
        "table all inline crossline where crossline != 22 ; table 1 3 offset where offset > 1000 ; "
        "table 2 last crossline where offset = 300",
        "table 2 / 1 10 21 / 3 10 23 / table 0 / table 1 / 3 23",
    ),
    saving(
        "found among chosen traces", "s.sgy",
        "find all offset 100 250 where crossline > 21 ; find 1 3 offset 0 1000 where crossline < 23",
        "found 1 / trace 2 200 / found 2 / trace 1 100 / trace 2 200",
    ),
    saving(
        "the same number in chosen traces", "s.sgy",
        "set all scalar -100 where crossline >= 22 ; table all scalar ; set 1 2 scalar 7 ; table all scalar ; set all scalar 1 ; "
        "table all scalar",
        "ok 2 / table 3 / 1 0 / 2 -100 / 3 -100 / ok / table 3 / 1 7 / 2 7 / 3 -100 / ok / table 3 / 1 1 / 2 1 / 3 1",
    ),
    saving(
        "counted up in chosen traces alone", "s.sgy",
        "renumber all @1:4 5 10 where crossline != 22 ; table all @1:4 ; crosslines",
        "ok 2 / table 3 / 1 5 / 2 0 / 3 15 / crosslines 3 / crossline 21 1 / crossline 22 1 / crossline 23 1",
    ),
    saving(
        "computed in chosen traces", "s.sgy",
        "compute all crossline offset / 100 where crossline >= 22 ; table all crossline ; crosslines ; inlines",
        "ok 2 / table 3 / 1 21 / 2 2 / 3 3 / crosslines 3 / crossline 2 1 / crossline 3 1 / crossline 21 1 / inlines 1 / inline 10 3",
    ),
    saving(
        "chosen traces out", "s.sgy",
        "delete all where crossline = 22 ; table all crossline ; count ; delete 1 2 ; count ; crosslines",
        "ok 1 / table 2 / 1 21 / 2 23 / traces 2 / ok / traces 0 / crosslines 0",
    ),
    saving(
        "two fields in the place of one another", "s.sgy",
        "swap all inline crossline ; table all inline crossline ; inlines ; crosslines ; swap 1 2 inline offset where crossline = 10 ; "
        "table all inline offset",
        "ok / table 3 / 1 21 10 / 2 22 10 / 3 23 10 / inlines 3 / inline 21 1 / inline 22 1 / inline 23 1 / crosslines 1 / "
        "crossline 10 3 / ok 2 / table 3 / 1 100 21 / 2 200 22 / 3 23 300",
    ),
    saving(
        "and what refuses it", "s.sgy",
        "swap 1 4 inline nothing ; swap all inline nothing where @1.1:4 = 1 ; swap all inline offset where @1.1:4 = 1 ; "
        "swap all inline @1.1:4 ; swap 2 3 offset @231:1 where crossline = 23 ; swap all inline where offset = 1 ; "
        "swap 1 2 inline crossline offset ; swap 1 inline crossline ; swap all inline @9 ; table all inline crossline offset",
        "refused E01 no trace 4 of 3 / refused E02 no field / refused E03 no place / refused E03 no place / refused E04 does not fit / "
        "refused S02 words / refused S02 words / refused S02 words / refused S03 number / table 3 / 1 10 21 100 / 2 10 22 200 / "
        "3 10 23 300",
        1,
    ),
    case(
        "none chosen: and not a byte is changed", "s.sgy",
        "delete all where inline = 7 ; set all inline 5 where inline = 7 ; swap all inline crossline where inline = 7 ; "
        "renumber 1 3 offset 1 1 where inline = 7 ; compute 1 3 offset 1 / 0 where inline = 7 ; table 1 3 inline where inline = 7 ; "
        "find 1 3 inline 0 100 where inline = 7 ; extremes 1 3 where inline = 7",
        "ok 0 / ok 0 / ok 0 / ok 0 / ok 0 / table 0 / found 0 / extremes 0",
        saved=SAME,
    ),
    saving(
        "all traces of a file without any", "none.sgy",
        "count all where inline = 1 ; table all inline ; find all inline 0 1 ; extremes all ; set all inline 1 ; "
        "renumber all inline 1 1 ; compute all inline crossline ; swap all inline crossline ; sort all inline ; delete all ; "
        "set all inline 5 where inline = 7 ; delete all where inline = 1",
        "chosen 0 / table 0 / found 0 / extremes 0 / ok / ok / ok / ok / ok / ok / ok 0 / ok 0",
    ),
    saving(
        "but a name that is none", "none.sgy",
        "table all nothing ; sort all nothing ; set all nothing 1 ; swap all inline nothing ; count all where nothing = 1 ; "
        "renumber 1 0 inline 1 1",
        "refused E02 no field / refused E02 no field / refused E02 no field / refused E02 no field / refused E02 no field / "
        "refused E01 no trace 1 of 0",
        1,
    ),
    saving(
        "all is the first to the last", "s.sgy",
        "table all crossline ; sort all -crossline ; table all crossline ; find all offset 0 150",
        "table 3 / 1 21 / 2 22 / 3 23 / ok / table 3 / 1 23 / 2 22 / 3 21 / found 1 / trace 3 100",
    ),
    saving(
        "the first refusal of chosen traces", "s.sgy",
        "delete 0 4 where nothing = 1 ; delete 1 4 where nothing = 1 ; delete 3 2 ; set 1 3 nothing 1 where @1.1:4 = 1 ; "
        "set 1 3 inline 1 where @1.1:4 = 1 and nothing = 1 ; set 1 3 inline 99999999999 where @1.1:4 = 1 ; "
        "set 1 3 inline 99999999999 where crossline = 22 ; set 1 3 inline 99999999999 where crossline = 99 ; "
        "table 1 3 @1.1:4 where crossline = 99 ; table 1 3 @1.1:4 where crossline = 22 ; compute 1 3 inline 1 / 0 where crossline = 23 ; "
        "compute 1 3 inline 7 / @37:4 %% 0 where crossline != 21",
        "refused E01 no trace 0 of 3 / refused E01 no trace 4 of 3 / refused E01 no trace 2 of 3 / refused E02 no field / "
        "refused E02 no field / refused E03 no place / refused E04 does not fit / ok 0 / table 0 / refused E03 no place / "
        "refused E13 zero divisor trace 3 / refused S03 number",
        1,
    ),
    saving(
        "the words of conditions", "s.sgy",
        "count 1 3 ; count all ; count where inline = 1 ; set 1 inline 5 where inline = 1 ; delete 1 where inline = 1 ; "
        "count all where inline = ; count all where inline = 1 and ; count all where inline = 1 or inline = 2 ; "
        "count all where inline = 1 and inline == 2 ; count all where inline == 2 ; count all where inline = 5x ; move all 1 ; "
        "delete all 1",
        "refused S02 words / refused S02 words / refused S02 words / refused S02 words / refused S02 words / refused S02 words / "
        "refused S02 words / refused S02 words / refused S03 number / refused S02 words / refused S03 number / refused S03 number / "
        "refused S02 words",
        1,
    ),
    saving(
        "eight conditions, and nine", "s.sgy",
        "count all where inline = 10 and inline > 1 and inline > 2 and inline > 3 and inline > 4 and inline > 5 and inline > 6 and inline > 7 ; "
        "count all where inline = 10 and inline > 1 and inline > 2 and inline > 3 and inline > 4 and inline > 5 and inline > 6 and inline > 7 and inline > 8",
        "chosen 3 / refused S02 words",
        1,
    ),
    saving(
        "a name where", "s.sgy",
        "map where @189:4 ; table 1 2 where crossline ; get 1 where ; count all where where = 10 ; table 1 3 where where where > 9",
        "ok / table 2 / 1 10 21 / 2 10 22 / value 10 / chosen 3 / table 3 / 1 10 / 2 10 / 3 10",
    ),
    saving(
        "a sort has no conditions", "s.sgy",
        "sort 1 3 inline where crossline = 22",
        "refused E02 no field",
        1,
    ),
]

# ---- what the samples of many traces say, and one value in a range of samples
SAMPLES = [
    saving(
        "statistics of many traces", "s.sgy",
        "stats 1 2 ; stats all where crossline >= 22 ; patch 2 0 0 0 ; stats 2 2 ; stats all where inline = 7",
        "stats 2 / 1 least -2 greatest 1 sum -1 zeros 0 samples 2 / 2 least 3 greatest 4 sum 7 zeros 0 samples 2 / stats 2 / "
        "2 least 3 greatest 4 sum 7 zeros 0 samples 2 / 3 least -5 greatest 6 sum 1 zeros 0 samples 2 / ok / stats 1 / "
        "2 least 0 greatest 0 sum 0 zeros 2 samples 2 / stats 0",
    ),
    saving(
        "statistics in a file without traces", "none.sgy",
        "stats all ; stats all where inline = 1 ; stats 1 1",
        "stats 0 / stats 0 / refused E01 no trace 1 of 0",
        1,
    ),
    saving(
        "the first refusal of statistics", "s.sgy",
        "stats 0 4 where nothing = 1 ; stats 1 4 ; stats 3 2 ; stats all where nothing = 1 and @1.1:4 = 1 ; stats all where @1.1:4 = 1 ; "
        "stats 1 ; stats ; stats all where ; stats all all",
        "refused E01 no trace 0 of 3 / refused E01 no trace 4 of 3 / refused E01 no trace 2 of 3 / refused E02 no field / "
        "refused E03 no place / refused S02 words / refused S02 words / refused S02 words / refused S02 words",
        1,
    ),
    saving(
        "statistics of traces of their own lengths", "v.sgy",
        "patch 3 7 -1 0 2 ; stats all",
        "ok / stats 3 / 1 least 0 greatest 0 sum 0 zeros 3 samples 3 / 2 least 0 greatest 0 sum 0 zeros 2 samples 2 / "
        "3 least -1 greatest 2 sum 1 zeros 65533 samples 65535",
    ),
    saving(
        "statistics of floats, where none is a number, and where -0 is 0", FLOATS,
        "stats 1 2 ; stats all where 2 > 1 ; delete 1 ; stats 1 last",
        "stats 2 / 1 least none greatest none sum none zeros 0 samples 2 nans 2 / 2 least -0 greatest 1 sum 1 zeros 1 samples 2 nans 0 / "
        "stats 4 / 1 least none greatest none sum none zeros 0 samples 2 nans 2 / 2 least -0 greatest 1 sum 1 zeros 1 samples 2 nans 0 / "
        "3 none / 4 least -0 greatest 0 sum 0 zeros 2 samples 2 nans 0 / ok / stats 3 / "
        "1 least -0 greatest 1 sum 1 zeros 1 samples 2 nans 0 / 2 none / 3 least -0 greatest 0 sum 0 zeros 2 samples 2 nans 0",
        options="--floats",
    ),
    saving(
        "samples without a value have no statistics", FLOATS,
        "stats all ; stats 1 9 ; stats all where nothing = 1 ; stats all where @1.9:4 = 1 ; stats all where inline = 77",
        "refused E12 samples have no value / refused E01 no trace 9 of 4 / refused E02 no field / refused E03 no place / "
        "refused E12 samples have no value",
        1, options="--opaque-samples",
    ),
    saving(
        "one value in samples of many traces", "s.sgy",
        "fill 1 2 1 1 -7 ; stats all ; fill all 0 1 5 where crossline >= 22 ; stats all ; fill all 0 0 9 where inline = 7 ; "
        "fill 2 3 1 0 9 ; slice 1 ; fill 3 last 1 1 8 ; slice 1 ; stat 3 ; totals",
        "ok / stats 3 / 1 least -7 greatest 1 sum -6 zeros 0 samples 2 / 2 least -7 greatest 3 sum -4 zeros 0 samples 2 / "
        "3 least -5 greatest 6 sum 1 zeros 0 samples 2 / ok 2 / stats 3 / 1 least -7 greatest 1 sum -6 zeros 0 samples 2 / "
        "2 least 5 greatest 5 sum 10 zeros 0 samples 2 / 3 least 5 greatest 5 sum 10 zeros 0 samples 2 / ok 0 / ok / slice 3 / "
        "row 10 21 1 -7 / row 10 22 2 5 / row 10 23 3 5 / ok / slice 3 / row 10 21 1 -7 / row 10 22 2 5 / row 10 23 3 8 / "
        "stat least 5 greatest 8 sum 13 samples 2 / totals least -7 greatest 8 sum 17 samples 6",
    ),
    saving(
        "the first refusal of a fill", "s.sgy",
        "fill 0 4 0 9 40000 ; fill 1 4 0 9 40000 ; fill 3 2 0 9 40000 ; fill all 0 9 40000 where nothing = 1 ; "
        "fill all 0 9 40000 where @1.1:4 = 1 ; fill all 0 9 40000 where inline = 7 ; fill all 0 9 40000 ; fill all 0 2 1 ; "
        "fill all 5 0 1 ; fill 1 1 2 2 1 ; fill all 0 0 1 where inline = 7 ; fill all 0 9 1 where inline = 7 ; fill 1 2 0 1 ; "
        "fill all 0 1 1 2 ; fill all 0 4294967296 1 ; fill all 0 1 0.5 ; fill all 0 1 x ; fill all -1 1 1 ; fill all 0 1 1 where ; "
        "stats 1 1",
        "refused E01 no trace 0 of 3 / refused E01 no trace 4 of 3 / refused E01 no trace 2 of 3 / refused E02 no field / "
        "refused E03 no place / refused E04 does not fit / refused E04 does not fit / refused E05 no sample 2 of 2 / "
        "refused E05 no sample 5 of 2 / refused E05 no sample 2 of 2 / ok 0 / ok 0 / refused S02 words / refused S02 words / "
        "refused S03 number / refused S03 number / refused S03 number / refused S03 number / refused S02 words / stats 1 / "
        "1 least -2 greatest 1 sum -1 zeros 0 samples 2",
        1,
    ),
    saving(
        "the lowest trace that lacks a sample", "v.sgy",
        "fill all 0 2 1 ; fill all 0 1 1 ; fill 1 1 0 2 6 ; fill 3 3 65534 65534 -1 ; stats all",
        "refused E05 no sample 2 of 2 / ok / ok / ok / stats 3 / 1 least 6 greatest 6 sum 18 zeros 0 samples 3 / "
        "2 least 1 greatest 1 sum 2 zeros 0 samples 2 / 3 least -1 greatest 1 sum 1 zeros 65532 samples 65535",
        1,
    ),
    saving(
        "samples behind another number of header extensions in each trace", "deep.sgy",
        "blank end ; blank 1 ; fill all 1 1 9 ; table all @1.157:2u ; stats all ; fill 2 3 0 0 -1 where @1.157:2u = 2 ; stats all",
        "ok / ok / ok / table 3 / 1 0 / 2 2 / 3 0 / stats 3 / 1 least 0 greatest 9 sum 9 zeros 1 samples 2 / "
        "2 least 1 greatest 9 sum 10 zeros 0 samples 2 / 3 least 0 greatest 9 sum 9 zeros 1 samples 2 / ok 1 / stats 3 / "
        "1 least 0 greatest 9 sum 9 zeros 1 samples 2 / 2 least -1 greatest 9 sum 8 zeros 0 samples 2 / "
        "3 least 0 greatest 9 sum 9 zeros 1 samples 2",
    ),
    saving(
        "one value in a file without traces", "none.sgy",
        "fill all 0 1 5 ; fill all 0 1 5 where inline = 1 ; fill all 0 1 40000 ; fill all 0 1 40000 where inline = 1 ; fill 1 1 0 1 5",
        "ok / ok 0 / refused E04 does not fit / refused E04 does not fit / refused E01 no trace 1 of 0",
        1,
    ),
    saving(
        "one value in samples of floats", FLOATS,
        "fill 1 2 0 0 0.1 ; fill 2 2 1 1 nan ; fill 4 last 0 1 -0 ; stats all ; fill all 0 1 1e39 ; fill all 0 1 0",
        "ok / ok / ok / stats 4 / 1 least 0.1 greatest 0.1 sum 0.10000000149011612 zeros 0 samples 2 nans 1 / "
        "2 least 0.1 greatest 0.1 sum 0.10000000149011612 zeros 0 samples 2 nans 1 / 3 none / "
        "4 least -0 greatest -0 sum 0 zeros 2 samples 2 nans 0 / refused E04 does not fit / refused E05 no sample 1 of 0",
        1, options="--floats",
    ),
    saving(
        "samples without a value are not filled", FLOATS,
        "fill all 0 0 0 ; fill all 0 0 0 where inline = 77",
        "refused E12 samples have no value / refused E12 samples have no value",
        1, options="--opaque-samples",
    ),
]

RELOADS = [
    (
        "reports after edits of chosen traces", "s.sgy",
        "copy 1 1 ; copy 3 end ; set all inline 11 where crossline = 21 ; renumber all offset 5 5 where inline = 11 ; "
        "compute all x y / 3 where inline = 10 and crossline > 21 ; swap all inline offset where crossline >= 22 ; "
        "swap all @189:2u @191:2 ; fill all 0 1 7 where crossline < 23 ; fill 2 last 1 1 -300 ; delete all where crossline = 22",
    ),
    (
        "reports after edits of chosen traces of varying lengths", "v.sgy",
        "copy 1 1 ; copy 1 end ; set all inline 3 where @115:2 > 1 ; compute all crossline inline + 1 where inline != 3 ; "
        "swap all crossline inline where inline != 3 ; swap all x coordinate_scalar ; fill all 1 1 77 ; "
        "fill 1 2 0 2 -77 where @115:2 = 3 ; delete 2 3 where inline = 3",
    ),
    (
        "reports after edits of chosen traces with extensions", "x.sgy",
        "copy 1 1 ; copy 1 1 ; set 2 3 inline 4 ; set all crossline 9 where inline = 4 ; set all @1.9:8 77 where inline != 4 ; "
        "map deep @1.9:8 ; compute all deep deep + 1 where deep = 77 ; swap all deep crossline where deep < 100 ; "
        "swap 2 3 @1.9:4 inline ; fill 2 3 1 1 99 ; blank 1 ; fill all 0 0 -5 where inline = 0",
    ),
]

ALIKE = [
    ("a fill of chosen traces is its patches", "fill all 1 1 -7 where crossline != 22", "patch 1 1 -7 ; patch 3 1 -7"),
    (
        "an edit of chosen traces is its sets and its deletes",
        "set all @181:4 7 where crossline != 22 ; delete all where crossline = 22", "set 1 @181:4 7 ; set 3 @181:4 7 ; delete 2",
    ),
]


@pytest.mark.parametrize("row", rows(CHOSEN + SAMPLES))
def test_chosen(room, row):
    check(room, row)


@pytest.mark.parametrize("file, edits", [pytest.param(*row[1:], id=row[0]) for row in RELOADS])
def test_reports_of_the_saved_file(room, file, edits):
    check_reload(room, file, edits)


@pytest.mark.parametrize("one, other", [pytest.param(*row[1:], id=row[0]) for row in ALIKE])
def test_a_choice_is_its_parts(room, one, other):
    check_alike(room, "s.sgy", one, other)


def test_extremes_of_chosen_traces(room):
    one = room.ask("s.sgy", "map a @181:4\nextremes 2 2\n").answers
    chosen = room.ask("s.sgy", "map a @181:4\nextremes all where crossline = 22\n").answers
    assert chosen == one
    assert one.startswith(b"ok\nextremes ")


def test_a_refused_one_changes_nothing_of_the_others(room):
    before = room.ask("s.sgy", "table all @9:2\n").answers
    ended = room.ask("s.sgy", "compute all @9:2 offset * 150 where crossline >= 22\ntable all @9:2\n")
    assert ended.status == 1
    assert ended.answers == b"refused E04 does not fit\n" + before
    assert before == b"table 3\n1 0\n2 0\n3 0\n"
