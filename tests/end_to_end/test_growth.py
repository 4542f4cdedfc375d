"""Growths of memory that are refused: of each kind of edit, twice, and then each query, of each kind of query, of files of every kind, of
floats, of bytes of no trace, and of long scripts. In memory, and on disk."""

import random

import pytest

from files import content, changed, float_line
from growths import Growths

QUERIES = [
    "grid", "inlines", "crosslines", "histogram", "slice 0", "slice 1", "faults", "fields", "stanzas", "line 0 1", "totals", "range inline",
    "range crossline", "range offset", "range x", "range y", "count", "info", "code 0", "geometry 1", "geometry 2", "stat 1", "stat 2",
    "sample 2 1", "fold 10 21", "fold 11 22", "get 2 @189:4", "getbin @3217:2", "table 1 2 inline @5:4", "find 1 2 crossline 0 30",
    "header 1", "extremes 1 2", "lines 0", "lines 9", "samples 1 2 0 1",
]
EDITS = [
    "set 2 @189:4 7", "set 2 inline 11", "set 2 crossline 5", "set 2 offset 7", "set 3 x -7", "set 3 scalar -100", "set 1 @1:4 258",
    "set 1 @225:8 5", "patch 1 0 32767 -32768", "patch 2 1 9", "blank 1", "blank 4", "copy 1 2", "copy 3 4", "delete 2", "move 1 3",
    "move 3 1", "move 2 3 1", "move 1 2 2", "move 1 3 1", "renumber 1 3 inline 70 1", "renumber 1 3 @1:4 7 -2", "renumber 2 3 scalar -1 -99",
    "resize 1 4", "compute 1 3 inline crossline * 2 + 7", "compute 2 3 @1:4 x / inline % 100", "compute 1 3 crossline 5",
    "sort 1 3 -crossline", "sort 2 3 inline -@37:4", "delete 1 2", "delete all", "delete all where crossline = 22",
    "set all inline 7 where crossline > 21", "set 1 3 @1:4 9 where @189:4 >= 10 and offset != 200", "renumber all @5:4 5 3 where x > 1000",
    "compute all crossline offset / 100 where inline = 10", "compute 1 3 @1:4 x + y where 7 <= 7", "delete 1 2 where inline = 11",
    "swap all inline crossline where offset > 100", "fill all 0 1 -9", "fill 1 2 1 1 300 where crossline >= 22", "fill 2 3 1 0 5",
    "delete all where sample_greatest = 4", "set all @1:4 7 where sample_least < 0 and 2 = sample_count",
    "fill all 1 1 9 where -5 < sample_least", "map inline @193:4", "map x @73:4", "map scalar @69:2", "map mine @17:4", "map shot",
    "map usual", "bin interval 2000", "bin @3217:2 2000", "text 1 NO C",
]
ASKED = [
    "get 1 inline", "getbin interval", "get 1 @189:4", "count", "info", "code 0", "geometry 2", "stat 2", "sample 2 1", "fold 10 21",
    "range inline", "totals", "line 0 1", "stanzas", "fields", "grid", "inlines", "crosslines", "histogram", "survey", "slice 1", "faults",
    "problems", "count all where sample_least < 0",
    "table all inline where sample_count < crossline and sample_greatest > sample_least", "count 1 9 where sample_least = 1",
    "count all where inline = 10", "count 1 2 where @1:8 > 7 and inline != 10", "table all inline where crossline > 21",
    "find all offset 0 200 where crossline != 21", "extremes all where crossline = 22", "stats 1 2", "stats all where crossline > 21",
    "samples 1 3 0 1", "samples all 0 9 2 where crossline > 21", "samples 1 2 0 1 where sample_least < 0", "samples 1 9 0 1",
    "table 1 2 inline x @189:4", "table 2 2 @1:8", "find 1 2 crossline 21 22", "find 1 2 @1:8 7 8", "header 2", "extremes 1 2", "lines 0",
]
TWELVE = changed(content("s.sgy")[:3600] + bytes(528), "3220 000c")
ALL = [
    "patch 1 0 7", "set 1 inline 7", "text 1 C", "copy 1 2", "blank 1", "move 1 2", "delete 3", "map mine @9:4", *QUERIES,
]
IBM = float_line("big", 1, 1, "42010000,c276a000", "80000000,00000001", "7fffffff,4019999a")
IEEE = float_line("little", 5, 2, "3dcccccd,c2ed4000", "7fc00000,7f800000", "80000000,00000001")
DOUBLE = float_line("big", 6, 0, "3fb999999999999a,c05da80000000000", "7ff8000000000000", "8000000000000000,0000000000000001,fff0000000000000")
MORE = content("s.sgy") + content("x.sgy")[:239]
RECORDS = content("noted.sgy")[:4084] + content("x.sgy")[:400] + content("noted.sgy")[-6400:]
KEPT = ["patch 1 0 7", "set 1 inline 7", "copy 1 2", "drop tail", "blank 1", "move 1 2", "drop tail", "delete 3", "declare", "drop head", *QUERIES]
# a move wants memory where no chunk of the order is spare: the one that a load leaves is taken when the first chunk, which these moves go
# into, is full; they come from the other two in turn, so that neither gets thin and is joined
MANY = content("s.sgy")[:3600] + bytes(1152 * 244)


def random_lines(seed, number):
    """Edits and queries at random."""
    numbers = random.Random(seed)
    lines = []
    for _ in range(number):
        p, q, name, value = numbers.randint(1, 5), numbers.randint(1, 5), f"name_{numbers.randrange(4)}", numbers.randrange(32768)
        place, other, small = f"@{numbers.randint(1, 237)}:4", f"@{numbers.randint(1, 237)}:4", numbers.randrange(30)
        kinds = [
            [f"set {p} inline {small}"], [f"set {p} inline {small}"], [f"set {p} {place} {value}"], [f"set {p} {place} {value}"],
            [f"set {p} x {value}"], [f"set {p} scalar {numbers.randint(-1, 1)}00"],
            [f"patch {p} {numbers.randrange(2)} {value - 16384}"], [f"patch {p} {numbers.randrange(2)} {value - 16384}"], [f"blank {p}"],
            [f"copy {p} {q}"], [f"copy {p} {q}"], [f"delete {p}"], [f"move {p} {q}"], [f"map inline @{189 + 4 * numbers.randrange(2)}:4"],
            [f"map {name} @{1 + 4 * numbers.randrange(50)}:4"], [f"unmap {name}"], [f"text {numbers.randint(1, 40)} LINE {value}"],
            [f"bin job {value}"], ["grid"], [f"slice {numbers.randrange(2)}"], ["faults", "problems"], ["histogram"], [f"get {p} {name}"],
            [numbers.choice(QUERIES)], [f"renumber {p} {q} inline {small} {numbers.randint(-1, 1)}"], [f"renumber {p} {q} {place} {value} 7"],
            [f"table {p} {q} inline {name} {place}"], [f"find {p} {q} inline {numbers.randrange(20)} 30"], [f"extremes {p} {q}"],
            [f"header {p}", f"lines {numbers.randrange(2)}"], [f"compute {p} {q} inline crossline * {numbers.randrange(9)} - {name}"],
            [f"compute {p} {q} {place} {value} % {other}"], [f"sort {p} {q} -inline {name}", f"sort 1 2 {other}"],
            [f"move {p} {q} {numbers.randint(1, 4)}", "map shot", "map usual"],
        ]
        lines += numbers.choice(kinds)
    return lines


# a name, FILE, the lines, and options
ROWS = [
    *[(edit, content("s.sgy"), [edit, edit, *QUERIES], "") for edit in EDITS],
    (
        "names bound and left out", content("s.sgy"),
        ["map mine @189:4", "set 2 mine 7", "get 2 inline", "unmap mine", "get 2 mine", "map mine @9:4", "fields"], "",
    ),
    *[(query, content("s.sgy"), [query, query, "delete 1", query], "") for query in ASKED],
    (
        "header extensions", content("x.sgy"),
        [
            "header 1", "table 1 1 @1.1:8u", "find 1 1 @1.157:2u 0 9", "extremes 1 1", "set 1 @1.1:8 -1", "map deep @1.9:4", "set 1 deep 5",
            "set 1 ext_count 1", *ALL,
        ],
        "",
    ),
    (
        "header extensions by trace", content("deep.sgy"),
        ["set 1 @2.1:4 5", "copy 1 1", "set 2 @1.137:4u 2", "blank 1", "fill 1 2 1 1 7", *ALL], "",
    ),
    (
        "extended textual headers", content("ended.sgy"),
        ["stanzas", "line 1 1", "line 2 1", "lines 1", "lines 2", "code 2", *ALL], "",
    ),
    ("data trailer records", content("noted.sgy"), ["stanzas", *ALL], ""),
    (
        "other numbers of samples", content("v.sgy"),
        [
            "slice 2", "resize 2 4", "slice 2", "resize 2 4", "resize 1 1", "stat 1", "resize 3 2", "patch 2 3 -7", "slice 1", "totals",
            "get 2 @115:2",
        ],
        "",
    ),
    (
        "another number of samples, with header extensions", content("deep.sgy"),
        ["resize 1 5", "stat 1", "resize 1 70000", "resize 1 1", "stat 1", "get 1 @1.137:4u"], "",
    ),
    (
        "many traces", TWELVE,
        [
            "renumber 1 2 inline 5 3", "slice 0", "renumber 1 2 @1:4 5 3", "slice 0", "renumber 1 2 crossline 5 2147483647",
            "renumber 1 2 crossline 5 1", "slice 0", "grid", "faults",
        ],
        "",
    ),
    ("traces of their own lengths", content("v.sgy"), ["slice 2", "patch 3 65000 1 2 3", "move 3 1", "slice 2", "delete 1", *ALL], ""),
    ("samples of 24 bits, little-endian", content("t.sgy"), ["patch 1 1 8388607", *ALL], ""),
    ("no trace", content("none.sgy"), [*QUERIES, "blank 1", "blank 1", *ALL], ""),
    # slices that are kept: asked again, after edits that they outlive or do not, and when more are asked than are kept
    (
        "kept slices", content("s.sgy"),
        [
            "slice 1", "slice 0", "slice 1", "patch 1 0 9", "slice 0", "slice 1", "set 2 x 7", "slice 1", "set 2 inline 7", "slice 1",
            "map offset @1:4", "slice 1", "slice 0",
        ],
        "",
    ),
    (
        "more slices than are kept", TWELVE,
        [f"slice {number}" for number in (0, 1, 2, 3, 4, 5, 6, 7, 8, 0, 1, 8, 11, 8)], "",
    ),
    # floats with values, of each format: a patch takes memory, and a slice more than one of whole numbers; nothing else of values does
    *[
        row
        for name, made in (("ibm", IBM), ("ieee", IEEE), ("double", DOUBLE))
        for row in (
            (
                f"patched floats of {name}", made,
                ["patch 1 0 1.5e-3 -118.625", "patch 2 0 1e9999", "patch 1 0 .25 -0", *QUERIES, "slice 1"], "--floats",
            ),
            (
                f"conditions on floats of {name}", made,
                [
                    "count all where sample_greatest > 1.5e-3", "set all inline 7 where sample_least < -118.6 and sample_count = 2",
                    "patch 1 0 1e3", "delete all where 999.5 < sample_greatest", "count all where sample_least < 1e",
                    "count all where sample_least < 0.5 and nothing = 1", "count",
                ],
                "--floats",
            ),
            (
                f"slices of floats of {name}", made,
                ["slice 0", "slice 0", "patch 2 0 7", "slice 0", "delete 1", "slice 0", "slice 1", "totals", "stat 1"], "--floats",
            ),
        )
    ],
    (
        "another number of floats", DOUBLE,
        ["resize 2 5", "stat 2", "patch 2 0 nan inf -inf 1 2", "stat 2", "slice 4", "resize 1 1", "totals", "slice 1"], "--floats",
    ),
    ("words that are no floats", IEEE, ["patch 1 0 1 +1", "patch 1 0 1e 2", "patch 9 0 1.5", "patch 1 9 1.5", "slice 0"], "--floats"),
    # bytes of no trace behind the last one: they are kept, and taken away, without memory
    ("bytes of no trace", MORE, ["drop tail", "info", "drop tail", "info"], "--tail"),
    ("bytes of no trace among edits", MORE, KEPT, "--tail"),
    ("bytes of no trace in front of data trailer records", RECORDS, KEPT, "--tail"),
    ("bytes of no trace that stay", RECORDS, ["set 1 inline 7", "blank 1", "info", "declare"], "--tail"),
    ("nothing behind the last trace", content("s.sgy"), ["drop tail", "info", "set 1 inline 7"], "--tail"),
    ("drop tail without the reading", content("s.sgy"), ["drop tail", "info", "drop tail", "set 1 inline 7"], ""),
    # long scripts
    ("a long script", content("s.sgy"), random_lines(3, 150), ""),
    ("a long script on header extensions", content("x.sgy"), random_lines(5, 60), ""),
    ("many moves", MANY, ["move 1152 1", "move 700 1"] * 66 + ["fold 0 0", "stat 1"], ""),
]
PLACES = pytest.mark.parametrize("place", [[], ["--on-disk"]], ids=["in memory", "on disk"])
# how many growths are of the command line, by its options
COMMAND_LINES = {}


@pytest.fixture
def growths(sweeps, refuse_growth):
    """growths(OPTIONS) are growths of runs with these options."""
    return lambda options: Growths(sweeps, refuse_growth, options)


def first_growth(growing):
    """The first growth behind those of the command line, which test_the_command_line tries."""
    options = tuple(growing.options)
    if options not in COMMAND_LINES:
        growing.room.put("none.sgy", content("none.sgy"))
        COMMAND_LINES[options] = growing.grow("none.sgy", ["count"])[1]
    return COMMAND_LINES[options] + 1


@PLACES
@pytest.mark.parametrize("options", ["", "--floats", "--tail"])
def test_the_command_line(growths, options, place):
    growing = growths([*options.split(), *place])
    growing.room.put("s.sgy", content("s.sgy"))
    _, words = growing.grow("s.sgy", ["count"])
    assert words > 0


@PLACES
@pytest.mark.parametrize("made, lines, options", [pytest.param(*row[1:], id=row[0]) for row in ROWS])
def test_each_growth_is_refused(growths, made, lines, options, place):
    growing = growths([*options.split(), *place])
    growing.room.put("f.sgy", made)
    growing.grow("f.sgy", lines, first_growth(growing))


def refused_times(growing, made, lines):
    """How often the last line is answered E11."""
    growing.room.put("f.sgy", made)
    refused, _ = growing.grow("f.sgy", lines, first_growth(growing))
    return refused[len(lines) - 1]


# a query that is refused by name wants memory to be read and no more, also where a trace in front of the one that lacks a place has it: it
# is answered E11 as often as the one that is refused for its traces, whose words are the same; both behind a first line
SURVEY, DEEP = content("s.sgy"), content("deep.sgy")
MAP = "map mine @1:4"
READ_AS = [
    (SURVEY, MAP, "table 1 3 inline @1.1:4 @189:4", "table 1 9 inline @1.1:4 @189:4"),
    (SURVEY, MAP, "table 1 3 inline nine", "table 1 9 inline nine"),
    (SURVEY, MAP, "find 1 3 nine 1 2", "find 1 9 nine 1 2"),
    (SURVEY, MAP, "find 1 3 @1.1:4 1 2", "find 1 9 @1.1:4 1 2"),
    (DEEP, "blank 1", "table 1 2 @5:4 @3.1:4", "table 1 3 @5:4 @3.1:4"),
    (DEEP, "blank 1", "find 1 2 @3.1:4 0 0", "find 1 3 @3.1:4 0 0"),
    (SURVEY, MAP, "lines 1", "lines 2"),
    (SURVEY, MAP, "compute 1 3 inline 7 / mine", "compute 1 9 inline 7 / mine"),
    (DEEP, "blank 1", "compute 1 2 inline @3.1:4 + 1", "compute 1 3 inline @3.1:4 + 1"),
    (SURVEY, MAP, "sort 1 3 mine nine", "sort 1 9 mine nine"),
    (DEEP, "blank 1", "sort 1 2 @3.1:4", "sort 1 3 @3.1:4"),
    (SURVEY, MAP, "header 4", "header 5"),
    (SURVEY, MAP, "extremes 2 4", "extremes 4 4"),
    (SURVEY, MAP, "samples 2 4 0 1", "samples 4 4 0 1"),
]


@PLACES
@pytest.mark.parametrize("made, first, one, other", READ_AS, ids=[row[2] for row in READ_AS])
def test_wants_memory_to_be_read_alone(growths, made, first, one, other, place):
    growing = growths(place)
    assert refused_times(growing, made, [first, one]) == refused_times(growing, made, [first, other])


# a text line, a field of the binary header and a name that is left out want memory to be read and no more: the edit that is done is
# answered E11 no more often than the one that is refused by name
READ_ALONE = [
    ("text 40 C40 END", "text 41 C40 END"), ("bin interval 1000", "bin intervals 1000"), ("unmap mine", "unmap nine"),
]


@PLACES
@pytest.mark.parametrize("done, refused", READ_ALONE, ids=[row[0] for row in READ_ALONE])
def test_an_edit_wants_memory_to_be_read_alone(growths, done, refused, place):
    growing = growths(place)
    first = "map mine @9:4"
    times = refused_times(growing, SURVEY, [first, refused])
    assert times > 0
    assert refused_times(growing, SURVEY, [first, done]) == times


# each command that may want memory does
WANTING = [
    "set 2 inline 11", "renumber 1 3 inline 70 1", "patch 1 0 32767 -32768", "resize 1 70000", "blank 1", "copy 1 2", "move 2 3 1",
    "map mine @17:4", "bin interval 2000", "getbin interval", "get 1 inline", "text 1 NO C", "unmap mine", "line 0 1", "stanzas", "fields",
    "grid", "inlines", "crosslines", "histogram", "survey", "slice 1", "faults", "problems", "count all where inline = 10",
    "table 1 2 inline x @189:4", "find 1 2 crossline 21 22", "header 2", "extremes 1 2", "lines 0", "compute 1 3 inline crossline * 2 + 7",
    "sort 1 3 -crossline", "swap all inline crossline where offset > 100", "fill all 0 1 -9", "stats 1 2", "samples 1 2 0 1",
]


@PLACES
@pytest.mark.parametrize("line", WANTING)
def test_was_refused_for_want_of_memory(growths, line, place):
    # a trace that is long enough to want memory of its own
    made = {"stanzas": content("ended.sgy"), "resize 1 70000": DEEP}.get(line, SURVEY)
    # where nothing is wrong faults has no list
    first = "bin interval 2000" if line == "faults" else "map mine @9:4"
    assert refused_times(growths(place), made, [first, line]) > 0
