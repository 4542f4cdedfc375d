"""The headers of traces: tables, what is found, all numbers of a trace, extremes, the lines of a block, and names that are bound."""

import re
from pathlib import Path

import pytest

from files import grown
from tables import SAME, case, check, rows, saving

MANUAL = Path(__file__).resolve().parents[2] / "docs" / "MANUAL.md"


def rows_of_names():
    """The names of the standard's trace header in the order of their bytes, and their places, as the manual has them."""
    text = MANUAL.read_text()
    table = text[text.index("<!-- names, made"):text.index("\nsegyio has names")]
    return re.findall(r"^\| `([a-z_]+)` \| `@([0-9.]+):", table, re.M)


FIRST = [name for name, place in rows_of_names() if "." not in place]
EXTENSION = [name for name, place in rows_of_names() if place.startswith("1.")]
BOUND = ["inline", "crossline", "offset", "x", "y", "scalar"]


def header_told(names, **numbers):
    """The answer of `header`: these numbers, and 0 for each other name."""
    return " / ".join([f"header {len(names)}"] + [f"field {name} {numbers.get(name, 0)}" for name in names])


def test_99_names():
    assert len(FIRST + EXTENSION) == 99


# ---- tables
NUMBERS_64 = " @193:4" * 64
TABLES = [
    case(
        "a table: a table changes nothing", "s.sgy",
        "table 1 3 inline crossline x @5:4 ; table 2 2 samples ; table 3 3 interval interval",
        "table 3 / 1 10 21 1000 1 / 2 10 22 2000 2 / 3 10 23 3000 3 / table 1 / 2 2 / table 1 / 3 4000 4000",
        saved=SAME,
    ),
    saving(
        "a table after edits", "s.sgy",
        "set 2 x -7 ; map mine @181:4 ; delete 1 ; copy 2 1 ; table 1 3 mine crossline y ; set 1 @1:8u 18446744073709551615 ; "
        "table 1 1 @1:8 @1:8u @1:2u @1:1",
        "ok / ok / ok / ok / table 3 / 1 3000 23 500 / 2 -7 22 500 / 3 3000 23 500 / ok / table 1 / 1 -1 18446744073709551615 65535 -1",
    ),
    saving(
        "refused tables", "s.sgy",
        "table 0 1 nothing ; table 4 4 nothing ; table 2 4 nothing ; table 3 2 nothing ; table 1 3 nothing @1.1:4 ; "
        "table 1 3 @1.1:4 nothing ; table 1 3 inline @1.1:4 ; table 1 3 @238:4 ; table 1 inline ; table x 1 inline ; table 1 1 @189 ; "
        "table 1 4294967296 inline ; Table 1 1 inline",
        "refused E01 no trace 0 of 3 / refused E01 no trace 4 of 3 / refused E01 no trace 4 of 3 / refused E01 no trace 2 of 3 / "
        "refused E02 no field / refused E02 no field / refused E03 no place / refused E03 no place / refused S02 words / "
        "refused S03 number / refused S03 number / refused S03 number / refused S01 unknown word",
        1,
    ),
    saving(
        "a trace that lacks a place, behind one that has it", "deep.sgy",
        "blank 1 ; table 1 1 @3.1:4 ; table 1 2 @3.1:4 ; table 2 2 @3.1:4 ; table 1 2 @2.1:4 ; find 1 1 @3.1:4 0 0 ; find 1 2 @3.1:4 0 0",
        "ok / table 1 / 1 0 / refused E03 no place / refused E03 no place / table 2 / 1 0 / 2 0 / found 1 / trace 1 0 / "
        "refused E03 no place",
        1,
    ),
    saving(
        "tables of little-endian headers", "t.sgy",
        "set 1 @1:4 258 ; table 1 1 @1:4 @1:1 @2:1 @1:3",
        "ok / table 1 / 1 258 2 1 258",
    ),
    saving(
        "no trace to be in a table", "none.sgy",
        "table 1 1 inline ; find 1 1 inline 0 0 ; header 1 ; extremes 1 1 ; lines 1",
        "refused E01 no trace 1 of 0 / refused E01 no trace 1 of 0 / refused E01 no trace 1 of 0 / refused E01 no trace 1 of 0 / "
        "refused E03 no place",
        1,
    ),
    case(
        "a table of 64 fields, and of 65", "s.sgy",
        f"table 2 2{NUMBERS_64} ; table 2 2{NUMBERS_64} @193:4 ; table 2 2",
        "table 1 / 2" + " 22" * 64 + " / refused S02 words / refused S02 words",
        1, out=True,
    ),
]

# ---- what is found
FOUND = [
    saving(
        "what is found", "s.sgy",
        "find 1 3 crossline 22 23 ; find 1 3 crossline 22 22 ; find 2 3 crossline -170141183460469231731687303715884105728 21 ; "
        "find 1 3 crossline 23 21 ; find 1 3 @193:4 -5 170141183460469231731687303715884105727 ; set 2 inline -3 ; find 1 2 inline -4 -1",
        "found 2 / trace 2 22 / trace 3 23 / found 1 / trace 2 22 / found 0 / found 0 / found 3 / trace 1 21 / trace 2 22 / trace 3 23 / "
        "ok / found 1 / trace 2 -3",
    ),
    saving(
        "refused finds", "s.sgy",
        "find 0 1 nothing 1 2 ; find 1 4 nothing 1 2 ; find 3 2 inline 1 2 ; find 1 3 nothing 1 2 ; find 1 3 ext_count 1 2 ; "
        "find 1 3 inline 1 ; find 1 3 inline 1 2 3 ; find 1 3 inline one 2 ; find 1 3 inline 1 170141183460469231731687303715884105728 ; "
        "find 1 3 @9 1 2",
        "refused E01 no trace 0 of 3 / refused E01 no trace 4 of 3 / refused E01 no trace 2 of 3 / refused E02 no field / "
        "refused E03 no place / refused S02 words / refused S02 words / refused S03 number / refused S03 number / refused S03 number",
        1,
    ),
]

# ---- all numbers of a trace
SECOND = dict(
    sequence_file=2, distance=200, samples=2, interval=4000, ensemble_x=2000, ensemble_y=500, inline_number=10, crossline_number=22,
    inline=10, crossline=22, offset=200, x=2000, y=500,
)
MINE = dict(
    sequence_file=1, distance=100, samples=2, interval=4000, ensemble_x=-7, ensemble_y=500, inline_number=10, crossline_number=21,
    coordinate_scalar=-100, inline=10, crossline=21, offset=135072, x=-7, y=500, scalar=-100, mine=21,
)
WITHOUT_DEPTH = [name for name in FIRST + EXTENSION if name != "source_depth"]
ALL_NUMBERS = [
    saving("the header of a trace", "s.sgy", "header 2", header_told(FIRST + BOUND, **SECOND)),
    saving(
        "with a name that is bound, and one bound anew", "s.sgy",
        "map mine @193:4 ; map offset @115:4 ; set 1 x -7 ; set 1 scalar -100 ; header 1",
        "ok / ok / ok / ok / " + header_told(FIRST + BOUND + ["mine"], **MINE),
    ),
    saving(
        "with a header extension", "x.sgy",
        "set 1 ext_sequence_line 18446744073709551615 ; set 1 ext_last_trace -1 ; header 1",
        "ok / ok / " + header_told(FIRST + EXTENSION + BOUND, sequence_file=1, ext_sequence_line=18446744073709551615, ext_last_trace=-1),
    ),
    saving(
        "a name whose place the trace lacks is left out", "deep.sgy",
        "map deep @3.1:4 ; header 1 ; get 1 deep",
        "ok / " + header_told(FIRST + EXTENSION + BOUND, sequence_file=1, samples=2, ext_count=2) + " / refused E03 no place",
        1,
    ),
    saving(
        "a name of the standard that is bound elsewhere", "s.sgy",
        "map source_depth @193:4 ; header 2 ; get 2 source_depth",
        "ok / " + header_told(FIRST + BOUND + ["source_depth"], source_depth=22, **SECOND) + " / value 22",
    ),
    saving(
        "and to a place that the trace lacks", "deep.sgy",
        "map source_depth @3.1:4 ; header 1 ; get 1 source_depth",
        "ok / " + header_told(WITHOUT_DEPTH + BOUND, sequence_file=1, samples=2, ext_count=2) + " / refused E03 no place",
        1,
    ),
    saving(
        "refused headers", "s.sgy",
        "header 0 ; header 4 ; header ; header 1 2 ; header one",
        "refused E01 no trace 0 of 3 / refused E01 no trace 4 of 3 / refused S02 words / refused S02 words / refused S03 number",
        1,
    ),
]

# ---- extremes
EXTREMES = [
    saving(
        "extremes", "s.sgy",
        "extremes 1 3 ; set 2 day -5 ; extremes 2 3",
        "extremes 13 / field sequence_file 1 3 1 3 / field distance 100 300 100 300 / field samples 2 2 2 2 / "
        "field interval 4000 4000 4000 4000 / field ensemble_x 1000 3000 1000 3000 / field ensemble_y 500 500 500 500 / "
        "field inline_number 10 10 10 10 / field crossline_number 21 23 21 23 / field inline 10 10 10 10 / field crossline 21 23 21 23 / "
        "field offset 100 300 100 300 / field x 1000 3000 1000 3000 / field y 500 500 500 500 / ok / extremes 14 / "
        "field sequence_file 2 3 2 3 / field distance 200 300 200 300 / field samples 2 2 2 2 / field interval 4000 4000 4000 4000 / "
        "field day -5 0 -5 0 / field ensemble_x 2000 3000 2000 3000 / field ensemble_y 500 500 500 500 / "
        "field inline_number 10 10 10 10 / field crossline_number 22 23 22 23 / field inline 10 10 10 10 / field crossline 22 23 22 23 / "
        "field offset 200 300 200 300 / field x 2000 3000 2000 3000 / field y 500 500 500 500",
    ),
    saving(
        "extremes of headers of zeros", "s.sgy",
        "blank 1 ; extremes 1 1 ; map mine @193:4 ; delete 2 ; delete 2 ; set 2 distance 0 ; set 2 ensemble_y -1 ; extremes 1 2",
        "ok / extremes 0 / ok / ok / ok / ok / ok / extremes 12 / field sequence_file 0 3 0 3 / field samples 0 2 0 2 / "
        "field interval 0 4000 0 4000 / field ensemble_x 0 3000 0 3000 / field ensemble_y -1 0 0 -1 / field inline_number 0 10 0 10 / "
        "field crossline_number 0 23 0 23 / field inline 0 10 0 10 / field crossline 0 23 0 23 / field x 0 3000 0 3000 / "
        "field y -1 0 0 -1 / field mine 0 23 0 23",
    ),
    saving(
        "extremes of places that some traces have", "deep.sgy",
        "set 1 @1.157:2u 2 ; blank 1 ; map deep @3.1:4 ; set 1 deep -9 ; extremes 1 2 ; extremes 2 2",
        "ok / ok / ok / ok / extremes 4 / field sequence_file 0 1 0 1 / field samples 0 2 0 2 / field ext_count 0 2 0 2 / "
        "field deep -9 -9 -9 -9 / extremes 3 / field sequence_file 1 1 1 1 / field samples 2 2 2 2 / field ext_count 2 2 2 2",
    ),
    saving(
        "extremes of a name of the standard that is bound elsewhere", "s.sgy",
        "set 2 source_depth 9 ; extremes 3 3 ; map source_depth @193:4 ; extremes 2 3",
        "ok / extremes 13 / field sequence_file 3 3 3 3 / field distance 300 300 300 300 / field samples 2 2 2 2 / "
        "field interval 4000 4000 4000 4000 / field ensemble_x 3000 3000 3000 3000 / field ensemble_y 500 500 500 500 / "
        "field inline_number 10 10 10 10 / field crossline_number 23 23 23 23 / field inline 10 10 10 10 / field crossline 23 23 23 23 / "
        "field offset 300 300 300 300 / field x 3000 3000 3000 3000 / field y 500 500 500 500 / ok / extremes 15 / "
        "field sequence_file 2 3 2 3 / field distance 200 300 200 300 / field source_depth 22 23 22 23 / field samples 2 2 2 2 / "
        "field interval 4000 4000 4000 4000 / field ensemble_x 2000 3000 2000 3000 / field ensemble_y 500 500 500 500 / "
        "field inline_number 10 10 10 10 / field crossline_number 22 23 22 23 / field inline 10 10 10 10 / field crossline 22 23 22 23 / "
        "field offset 200 300 200 300 / field x 2000 3000 2000 3000 / field y 500 500 500 500 / field source_depth 22 23 22 23",
    ),
    saving(
        "refused extremes", "s.sgy",
        "extremes 0 1 ; extremes 4 4 ; extremes 1 4 ; extremes 3 2 ; extremes 1 ; extremes 1 2 3 ; extremes a 2",
        "refused E01 no trace 0 of 3 / refused E01 no trace 4 of 3 / refused E01 no trace 4 of 3 / refused E01 no trace 2 of 3 / "
        "refused S02 words / refused S02 words / refused S03 number",
        1,
    ),
]

# ---- the lines of a block
BLOCKS = [
    saving(
        "the lines of the textual header", "s.sgy",
        "text 2 C 2 NOTED  ; lines 0", "ok / lines 40 / line |C| / line |C 2 NOTED|" + " / line |C|" * 38,
    ),
    saving(
        "the lines of a textual header that ends the text", "ended.sgy",
        "lines 1 ; lines 2",
        "lines 40 / line |((Acme: Note))|" + " / line ||" * 39 + " / lines 40 / line |((Seg:  ENDtext))|" + " / line ||" * 39,
    ),
    saving(
        "refused blocks", "ended.sgy",
        "lines 3 ; lines 4294967295 ; lines 4294967296 ; lines ; lines 0 1 ; lines one",
        "refused E03 no place / refused E03 no place / refused S03 number / refused S02 words / refused S02 words / refused S03 number",
        1,
    ),
    saving(
        "data trailer records are no blocks here", "tail.sgy",
        "lines 1",
        "refused E03 no place",
        1,
    ),
]

# ---- names that are bound: their order, what they hide, the six that stay, and the first refusal
NAMES = [
    saving(
        "names stand in the order in which they were bound", "x.sgy",
        "map mine @233:8 ; map yours @1.5:3u ; map mine @1.1:1 ; map x @73:4 ; fields ; unmap mine ; map mine @1:2 ; unmap none ; fields",
        "ok / ok / ok / ok / fields 8 / field inline @189:4 / field crossline @193:4 / field offset @37:4 / field x @73:4 / "
        "field y @185:4 / field scalar @71:2 / field mine @1.1:1 / field yours @1.5:3u / ok / ok / refused E08 M06 unknown / fields 8 / "
        "field inline @189:4 / field crossline @193:4 / field offset @37:4 / field x @73:4 / field y @185:4 / field scalar @71:2 / "
        "field yours @1.5:3u / field mine @1:2",
        1,
    ),
    saving(
        "the six names of the geometry stay bound", "deep.sgy",
        "map x @1.5:2 ; map x @2.5:2 ; unmap inline ; unmap crossline ; unmap offset ; unmap x ; unmap y ; unmap scalar ; fields",
        "ok / refused E08 M02 outside header / refused E08 M05 geometry / refused E08 M05 geometry / refused E08 M05 geometry / "
        "refused E08 M05 geometry / refused E08 M05 geometry / refused E08 M05 geometry / fields 6 / field inline @189:4 / "
        "field crossline @193:4 / field offset @37:4 / field x @1.5:2 / field y @185:4 / field scalar @71:2",
        1,
    ),
    saving(
        "a name of another tool is hidden while it is bound", "s.sgy",
        "set 3 @233:4 7 ; map cdp @233:4 ; map total_static @5:4 ; get 3 cdp ; get 3 total_static ; map CDP @5:4 ; map samples @5:4 ; "
        "unmap cdp ; get 3 cdp",
        "ok / ok / ok / value 7 / value 3 / refused E08 M01 bad name / refused E08 M07 standard / ok / value 0",
        1,
    ),
    saving(
        "the first refusal of a name", "s.sgy",
        "map bad-name @300:9 ; map mine @239:4 ; map mine @65535:255 ; map mine @0:4 ; map inline @1.5:4 ; map delay @300:4 ; "
        "map mine @1:5 ; map mine @241:0 ; map inline @189:4u ; map scalar @71:4 ; map delay @5:4 ; unmap delay ; unmap bad-name",
        "refused E08 M01 bad name / refused E08 M02 outside header / refused E08 M02 outside header / refused E08 M02 outside header / "
        "refused E08 M02 outside header / refused E08 M02 outside header / refused E08 M03 bad kind / refused E08 M03 bad kind / "
        "refused E08 M03 bad kind / refused E08 M03 bad kind / refused E08 M07 standard / refused E08 M06 unknown / "
        "refused E08 M06 unknown",
        1,
    ),
    saving(
        "a kept slice of the greatest sample", "wide.sgy",
        "slice 0 ; slice 0",
        "slice 2 / row 0 0 1 18446744073709551615 / row 0 0 2 18446744073709551615 / slice 2 / row 0 0 1 18446744073709551615 / "
        "row 0 0 2 18446744073709551615",
    ),
]


@pytest.mark.parametrize("row", rows(TABLES + FOUND + ALL_NUMBERS + EXTREMES + BLOCKS + NAMES))
def test_headers(room, row):
    check(room, row)


def test_a_table_of_many_traces_what_is_found_and_their_extremes(room):
    room.put("rows.sgy", grown(12, 10))
    script = [
        "renumber 1 40960 inline -20000 3", "renumber 1 40960 @5:4 1 1", "table 1 40960 @5:4 inline", "find 1 40960 inline 0 299",
        "extremes 2 40959",
    ]
    answers = room.ask("rows.sgy", "\n".join(script) + "\n").answers.decode().splitlines()
    numbers = {trace: 3 * trace - 20003 for trace in range(1, 40961)}
    found = [f"trace {trace} {number}" for trace, number in numbers.items() if 0 <= number <= 299]
    wanted = ["ok", "ok", "table 40960"] + [f"{trace} {trace} {number}" for trace, number in numbers.items()] + [f"found {len(found)}"] + found
    assert answers[:len(wanted)] == wanted
    assert "field inline -19997 102874 -19997 102874" in answers
    assert "field sequence_file 2 40959 2 40959" in answers
