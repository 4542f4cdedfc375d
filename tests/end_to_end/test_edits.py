"""Another number of samples of a trace, and a field of many traces counted up."""

import pytest

from files import grown
from reports import check_reload, every_report
from running import same
from tables import SAME, case, check, rows, saving

# ---- another number of samples: LENGTHS are those of the saved files
LENGTHS = {"a trace longer and shorter": 4322, "little-endian samples of 24 bits": 3849}
RESIZES = [
    saving(
        "a trace longer and shorter", "deep.sgy",
        "resize 1 4 ; stat 1 ; get 1 samples ; get 1 ext_samples ; resize 1 65536 ; get 1 samples ; get 1 ext_samples ; stat 1 ; "
        "resize 1 1 ; stat 1 ; sample 1 1 ; resize 1 0",
        "ok / stat least 0 greatest 2 sum 3 samples 4 / value 4 / value 4 / ok / value 0 / value 65536 / "
        "stat least 0 greatest 2 sum 3 samples 65536 / ok / stat least 1 greatest 1 sum 1 samples 1 / refused E05 no sample 1 of 1 / "
        "refused E04 does not fit",
        1,
    ),
    saving(
        "traces of one length", "s.sgy",
        "resize 1 4 ; resize 1 0 ; resize 4 0 ; resize 1 65536 ; resize 1 -1",
        "refused E06 frame / refused E04 does not fit / refused E01 no trace 4 of 3 / refused E04 does not fit / refused E04 does not fit",
        1,
    ),
    saving(
        "traces of one length by the reading", "loose.sgy",
        "resize 1 4",
        "refused E06 frame",
        1, options="--fixed",
    ),
    saving(
        "of their own lengths without it", "loose.sgy",
        "resize 1 4 ; count ; stat 1",
        "ok / traces 3 / stat least -2 greatest 1 sum -1 samples 4",
    ),
    saving(
        "header extensions of one trace", "deep.sgy",
        "get 1 @2.1:4 ; get 1 @3.1:4 ; map deep @3.1:4 ; get 1 deep ; blank 2 ; get 2 deep ; resize 2 1 ; get 2 ext_samples ; delete 2",
        "value 0 / refused E03 no place / ok / refused E03 no place / ok / value 0 / ok / value 1 / ok",
        1,
    ),
    saving(
        "little-endian samples of 24 bits", "t_own.sgy",
        "resize 1 3 ; sample 1 1 ; sample 1 2 ; get 1 @115:2u",
        "ok / value -8388608 / value 0 / value 3",
    ),
    saving(
        "a number that two bytes cannot hold", "v.sgy",
        "resize 2 65536 ; slice 2 ; resize 2 3 ; slice 2",
        "refused E04 does not fit / slice 2 / row 0 0 1 0 / row 0 0 3 0 / ok / slice 3 / row 0 0 1 0 / row 0 0 2 0 / row 0 0 3 0",
        1,
    ),
    saving(
        "the same number of samples", "v.sgy",
        "resize 2 2 ; get 2 samples ; stat 2",
        "ok / value 2 / stat least 0 greatest 0 sum 0 samples 2",
    ),
    saving(
        "just as many bytes as the limit", "v.sgy",
        "resize 2 3 ; resize 2 2 ; resize 2 4 ; count",
        "ok / ok / refused E09 too large / traces 3",
        1, options="--max-bytes 135402",
    ),
    saving(
        "a file that shrinks", "v.sgy",
        "resize 3 1 ; info ; totals",
        "ok / info order big revision 1.0 format 3 samples 2 fixed no extensions 0 blocks 0 trailer 0 traces 3 bytes 4332 / "
        "totals least 0 greatest 0 sum 0 samples 6",
    ),
    saving(
        "words of resize", "v.sgy",
        "resize ; resize 1 ; resize 1 2 3 ; resize x 2 ; resize 1 x ; resize 1 +2 ; Resize 1 2",
        "refused S02 words / refused S02 words / refused S02 words / refused S03 number / refused S03 number / refused S03 number / "
        "refused S01 unknown word",
        1,
    ),
]

# ---- a field of many traces
RENUMBERINGS = [
    saving(
        "crosslines counted down, and what refuses", "s.sgy",
        "renumber 1 3 crossline 100 -5 ; crosslines ; renumber 1 3 @115:2u 65534 1 ; get 1 samples ; renumber 2 4 inline 1 1 ; "
        "renumber 2 1 inline 1 1 ; renumber 0 1 inline 1 1 ; renumber 1 3 nothing 1 1 ; renumber 1 3 inline 5 0 ; inlines ; "
        "renumber 1 3 inline 1 170141183460469231731687303715884105727 ; get 1 inline",
        "ok / crosslines 3 / crossline 90 1 / crossline 95 1 / crossline 100 1 / refused E04 does not fit / value 2 / "
        "refused E01 no trace 4 of 3 / refused E01 no trace 1 of 3 / refused E01 no trace 0 of 3 / refused E02 no field / ok / "
        "inlines 1 / inline 5 3 / refused E04 does not fit / value 5",
        1,
    ),
    case(
        "a renumbering that is refused at its last trace: changes nothing", "s.sgy",
        "renumber 1 3 @189:4 2147483646 1",
        "refused E04 does not fit",
        1, saved=SAME,
    ),
    saving(
        "a count of samples for many traces", "v.sgy",
        "renumber 1 3 @115:2u 3 -1 ; get 2 samples ; renumber 1 2 @115:2u 3 -1 ; get 2 samples",
        "refused E06 frame / value 0 / ok / value 2",
        1,
    ),
    saving(
        "values at the ends of 128 bits", "s.sgy",
        "renumber 1 1 inline -7 170141183460469231731687303715884105727 ; "
        "renumber 1 2 inline -170141183460469231731687303715884105728 170141183460469231731687303715884105727 ; "
        "renumber 1 3 inline -2147483648 2147483647 ; get 3 inline ; renumber 2 3 inline 0 2147483648 ; get 2 inline",
        "ok / refused E04 does not fit / ok / value 2147483646 / refused E04 does not fit / value -1",
        1,
    ),
    saving(
        "a place that a trace lacks", "x.sgy",
        "copy 1 2 ; renumber 1 2 @1.1:4 7 2 ; get 2 @1.1:4 ; renumber 1 2 @2.1:4 7 170141183460469231731687303715884105727 ; "
        "renumber 1 2 @238:4 1 1",
        "ok / ok / value 9 / refused E03 no place / refused E03 no place",
        1,
    ),
    saving(
        "one trace, and a step of no effect", "s.sgy",
        "renumber 2 2 inline 9 123 ; inlines",
        "ok / inlines 2 / inline 9 1 / inline 10 2",
    ),
    saving(
        "words of renumber", "s.sgy",
        "renumber 1 3 inline 1 ; renumber 1 3 inline 1 1 1 ; renumber 1 3 @9 1 1 ; renumber x 3 inline 1 1 ; renumber 1 3 inline one 1 ; "
        "renumber 1 3 inline 1 170141183460469231731687303715884105728",
        "refused S02 words / refused S02 words / refused S03 number / refused S03 number / refused S03 number / refused S03 number",
        1,
    ),
]

RELOADS = [
    ("reports after resizes", "v.sgy", "resize 2 3 ; patch 2 2 -9 ; resize 1 1 ; resize 3 9 ; copy 2 1 ; resize 4 65535"),
    ("reports after resizes of extended traces", "deep.sgy", "resize 1 5 ; patch 1 3 -8 7 ; copy 1 1 ; resize 2 1 ; resize 1 70000 ; set 2 @1.9:4 5"),
    (
        "reports after renumbering", "s.sgy",
        "renumber 1 3 inline 70 1 ; renumber 2 3 @189:2 9 -1 ; renumber 1 2 scalar -1 -1 ; renumber 1 3 @185:8 5 4294967296 ; "
        "renumber 1 3 offset 7 0",
    ),
    (
        "reports after renumbering places of extensions", "x.sgy",
        "copy 1 1 ; copy 1 1 ; map deep @1.9:8 ; renumber 1 3 deep -1 1 ; renumber 1 3 @1:4 5 5 ; renumber 2 3 inline -4 -1",
    ),
]


@pytest.mark.parametrize("row", rows(RESIZES + RENUMBERINGS))
def test_edits(room, row):
    check(room, row)
    if row.name in LENGTHS:
        assert len(room.get("o.sgy")) == LENGTHS[row.name]


@pytest.mark.parametrize("file, edits", [pytest.param(*row[1:], id=row[0]) for row in RELOADS])
def test_reports_of_the_saved_file(room, file, edits):
    check_reload(room, file, edits)


# ---- a survey of 200000 traces, 100 lines of 2000, as it comes from the field: all of its inlines, crosslines and sequence numbers
@pytest.fixture
def field(room):
    room.put("field.sgy", grown(5, 6250))
    return "field.sgy"


def renumbered():
    """The lines that renumber it."""
    edits = []
    for number in range(1, 101):
        first, last = 2000 * (number - 1) + 1, 2000 * number
        edits += [f"renumber {first} {last} inline {1000 + 2 * number} 0", f"renumber {first} {last} crossline 5001 1"]
    return edits + ["renumber 1 200000 @1:4 1 1", "renumber 1 200000 @5:4 1 1"]


def sets(fields):
    """The same as sets, a line each, of some of the fields."""
    numbers = {
        "inline": lambda trace: 1002 + 2 * (trace // 2000),
        "crossline": lambda trace: 5001 + trace % 2000,
        "@1:4": lambda trace: trace + 1,
        "@5:4": lambda trace: trace + 1,
    }
    return "".join(f"set {trace + 1} {field} {numbers[field](trace)}\n" for field in fields for trace in range(200000))


def test_a_survey_renumbered(room, field):
    edits = "".join(line + "\n" for line in renumbered())
    ended = room.ask(field, edits + every_report(), "--out", "o.sgy")
    answers = ended.answers.decode().splitlines()
    assert set(answers[:202]) == {"ok"}
    live = answers[202:]
    assert sum(line.startswith("cell ") for line in live) == 200000
    anew = room.ask("o.sgy", every_report()).answers.decode().splitlines()
    assert live == anew
    at = anew.index("inlines 100")
    assert anew[at:at + 4] == ["inlines 100", "inline 1002 2000", "inline 1004 2000", "inline 1006 2000"]
    at = anew.index("crosslines 2000")
    assert anew[at:at + 3] == ["crosslines 2000", "crossline 5001 100", "crossline 5002 100"]
    assert [line for line in anew if line.startswith("faults")] == ["faults 0"]


def test_a_survey_renumbered_is_the_same_as_800000_sets(room, field):
    room.ask(field, "".join(line + "\n" for line in renumbered()), "--out", "o.sgy")
    lines = room.ask(field, sets(["inline", "crossline"]), "--out", "lines.sgy")
    assert lines.answers == b"ok\n" * 400000
    assert room.ask("lines.sgy", sets(["@1:4", "@5:4"]), "--out", "set.sgy").answers == b"ok\n" * 400000
    assert same(room.get("o.sgy"), room.get("set.sgy"))
