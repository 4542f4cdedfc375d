"""Reports: of small files, before and after edits of every kind, and after edits at random in a large survey."""

import random

import pytest

from files import changed, content
from reports import check_reload
from tables import case, check, rows, saving

# ---- what each report says
REPORTS = [
    case(
        "each report", "s.sgy",
        "geometry 2 ; stat 1 ; fold 10 21 ; fold 10 -1 ; grid ; inlines ; crosslines ; histogram ; range x ; range inline ; totals ; "
        "slice 1 ; slice 2 ; faults",
        "geometry inline 10 crossline 22 offset 200 x 2000 y 500 / stat least -2 greatest 1 sum -1 samples 2 / fold 1 / fold 0 / "
        "cells 3 / cell 10 21 1 / cell 10 22 1 / cell 10 23 1 / inlines 1 / inline 10 3 / crosslines 3 / crossline 21 1 / "
        "crossline 22 1 / crossline 23 1 / histogram 1 / times 1 3 / range 1000 3000 / range 10 10 / "
        "totals least -5 greatest 6 sum 7 samples 6 / slice 3 / row 10 21 1 -2 / row 10 22 2 4 / row 10 23 3 6 / slice 0 / faults 0",
    ),
    case(
        "reports follow edits", "s.sgy",
        "set 2 inline 11 ; fold 11 22 ; set 3 crossline 21 ; set 3 offset 100 ; set 3 scalar -100 ; set 1 scalar 7 ; set 2 @5:4 9 ; "
        "set 1 @115:2u 4 ; set 2 @117:2u 2000 ; set 3 @89:2 2 ; faults ; range x ; range y ; grid ; histogram ; delete 1 ; faults ; "
        "range x ; totals",
        "ok / fold 1 / ok / ok / ok / ok / ok / ok / ok / ok / faults 6 / F2 trace 1 field 4 samples 2 / F4 trace 1 scalar 7 / "
        "F1 trace 2 sequence 9 / F3 trace 2 interval 2000 binary 4000 / F5 trace 3 units 2 first 0 / F6 trace 3 first 1 / "
        "range 30 7000 / range 5 3500 / cells 2 / cell 10 21 2 / cell 11 22 1 / histogram 2 / times 1 1 / times 2 1 / ok / faults 4 / "
        "F1 trace 1 sequence 9 / F3 trace 1 interval 2000 binary 4000 / F1 trace 2 sequence 3 / F5 trace 2 units 2 first 0 / "
        "range 30 2000 / totals least -5 greatest 6 sum 8 samples 4",
    ),
    case(
        "a fraction", "s.sgy",
        "set 1 scalar -3 ; set 1 x 7 ; geometry 1 ; range x",
        "ok / ok / geometry inline 10 crossline 21 offset 100 x 7/3 y 500/3 / range 7/3 3000",
    ),
    case(
        "refused reports", "s.sgy",
        "geometry 4 ; stat 0 ; range z ; fold 1 ; slice ; slice 4294967296 ; grid 1 ; geometry ; fold a 1",
        "refused E01 no trace 4 of 3 / refused E01 no trace 0 of 3 / refused S03 number / refused S02 words / refused S02 words / "
        "refused S03 number / refused S02 words / refused S02 words / refused S03 number",
        1,
    ),
    case(
        "reports of a file without traces", "none.sgy",
        "grid ; inlines ; crosslines ; histogram ; range y ; totals ; slice 0 ; faults ; fold 0 0",
        "cells 0 / inlines 0 / crosslines 0 / histogram 0 / range none / totals none / slice 0 / faults 0 / fold 0",
    ),
    case(
        "a geometry name bound anew", "s.sgy",
        "map inline @193:4 ; grid ; map inline @300:4 ; map inline @193:3 ; set 2 inline 7 ; get 2 crossline ; inlines ; "
        "map inline @189:4 ; inlines",
        "ok / cells 3 / cell 21 21 1 / cell 22 22 1 / cell 23 23 1 / refused E08 M02 outside header / refused E08 M03 bad kind / ok / "
        "value 7 / inlines 3 / inline 7 1 / inline 21 1 / inline 23 1 / ok / inlines 1 / inline 10 3",
        1,
    ),
    case(
        "faults of the headers", "s.sgy",
        "text 1 NO C ; text 2  ; bin interval 2000 ; faults",
        "ok / ok / ok / faults 4 / F8 lines 2 / F3 trace 1 interval 4000 binary 2000 / F3 trace 2 interval 4000 binary 2000 / "
        "F3 trace 3 interval 4000 binary 2000",
    ),
]

# ---- of files of every kind, and behind edits
ANSWERS = [
    saving(
        "no traces", "none.sgy",
        "info ; range x ; totals ; faults",
        "info order big revision 1.0 format 3 samples 2 fixed yes extensions 0 blocks 0 trailer 0 traces 0 bytes 3600 / range none / "
        "totals none / faults 0",
    ),
    saving(
        "no samples", "bare.sgy",
        "totals ; stat 1 ; count",
        "totals none / stat none / traces 3",
    ),
    saving(
        "samples of three bytes, little-endian", "t.sgy",
        "sample 1 0 ; sample 1 1 ; totals ; set 1 @1:4 258 ; patch 1 0 -2",
        "value -1 / value -8388608 / totals least -8388608 greatest -1 sum -8388609 samples 2 / ok / ok",
    ),
    saving(
        "the sum of the greatest samples", "wide.sgy",
        "totals",
        "totals least 18446744073709551615 greatest 18446744073709551615 sum 36893488147419103230 samples 2",
    ),
    saving(
        "a slice of traces of their own lengths", "v.sgy",
        "set 1 @115:2u 4 ; set 2 @115:2u 2 ; slice 2",
        "refused E06 frame / ok / slice 2 / row 0 0 1 0 / row 0 0 3 0",
        1,
    ),
    saving(
        "a number of samples that the reading does not use", "loose.sgy",
        "set 1 @115:2u 4 ; faults",
        "ok / faults 1 / F2 trace 1 field 4 samples 2",
        options="--fixed",
    ),
    saving(
        "ranges under scalars", "s.sgy",
        "set 1 scalar 100 ; set 1 x 3 ; set 2 scalar -100 ; set 2 x 250 ; set 3 x 40 ; range x ; delete 1 ; range x",
        "ok / ok / ok / ok / ok / range 5/2 300 / ok / range 5/2 40",
    ),
    saving(
        "the least scalar and coordinate", "s.sgy",
        "set 1 scalar -32768 ; set 1 x -2147483648 ; geometry 1 ; set 1 x 2147483648",
        "ok / ok / geometry inline 10 crossline 21 offset 100 x -65536 y 125/8192 / refused E04 does not fit",
        1,
    ),
    saving(
        "places that overlap", "s.sgy",
        "map scalar @189:2 ; set 1 inline 327680 ; get 1 scalar ; range x ; range inline ; faults",
        "ok / ok / value 5 / range 2000 5000 / range 10 327680 / faults 1 / F4 trace 1 scalar 5",
    ),
    saving(
        "a moved trace", "s.sgy",
        "set 3 crossline 21 ; set 3 offset 100 ; faults ; move 3 1 ; faults ; grid ; histogram",
        "ok / ok / faults 1 / F6 trace 3 first 1 / ok / faults 4 / F1 trace 1 sequence 3 / F1 trace 2 sequence 1 / F6 trace 2 first 1 / "
        "F1 trace 3 sequence 2 / cells 2 / cell 10 21 2 / cell 10 22 1 / histogram 2 / times 1 1 / times 2 1",
    ),
    saving(
        "all out and a blank one in", "s.sgy",
        "delete 3 ; delete 2 ; delete 1 ; totals ; blank 1 ; count ; faults ; delete 2",
        "ok / ok / ok / totals none / ok / traces 1 / faults 1 / F1 trace 1 sequence 0 / refused E01 no trace 2 of 1",
        1,
    ),
    saving(
        "a slice after a patch", "s.sgy",
        "slice 1 ; patch 2 1 -7 ; slice 1 ; slice 2 ; patch 2 1 40000 ; patch 2 1 1 2",
        "slice 3 / row 10 21 1 -2 / row 10 22 2 4 / row 10 23 3 6 / ok / slice 3 / row 10 21 1 -2 / row 10 22 2 -7 / row 10 23 3 6 / "
        "slice 0 / refused E04 does not fit / refused E05 no sample 2 of 2",
        1,
    ),
    saving(
        "a patch and its statistics", "x.sgy",
        "set 1 @10:2 258 ; get 1 @9:4 ; set 1 @1.157:2 2 ; patch 1 0 7 ; patch 1 0 5 6 ; stat 1",
        "ok / value 66048 / refused E06 frame / ok / ok / stat least 5 greatest 6 sum 11 samples 2",
        1,
    ),
    saving(
        "the number of traces", "x.sgy",
        "bin trace_count 2 ; faults",
        "ok / faults 1 / F7 count 2 traces 1",
    ),
    saving(
        "a negative fraction, and a name", "x.sgy",
        "set 1 scalar -100 ; set 1 x -250 ; range x ; set 1 @233:1 1 ; faults",
        "ok / ok / range -5/2 -5/2 / ok / faults 1 / F9 trace 1 name",
    ),
    saving(
        "copies and moves", "s.sgy",
        "copy 3 1 ; stat 1 ; move 2 4 ; sample 4 1 ; range offset ; move 1 5 ; copy 1 6 ; set 0 inline 1 ; getbin interval ; inlines ; "
        "crosslines ; fold 10 23",
        "ok / stat least -5 greatest 6 sum 1 samples 2 / ok / value -2 / range 100 300 / refused E01 no trace 5 of 4 / "
        "refused E01 no trace 6 of 4 / refused E01 no trace 0 of 4 / value 4000 / inlines 1 / inline 10 4 / crosslines 3 / "
        "crossline 21 1 / crossline 22 1 / crossline 23 2 / fold 2",
        1,
    ),
    saving(
        "lines without a C", "blanks.sgy",
        "code 0 ; faults ; text 1 C 1 LINE[ ; text 1 " + "C" * 81 + " ; text 1 C 1 LINE ; line 0 1 ; faults",
        "code ebcdic / faults 1 / F8 lines 40 / refused E07 T02 no code for column 9 / refused E07 T01 too long / ok / line |C 1 LINE| / "
        "faults 1 / F8 lines 39",
        1,
    ),
]

# ---- the answer is that of the saved file loaded anew; behind the edits, how many of them are refused
RELOADS = [
    ("reports before any edit", "s.sgy", ""),
    (
        "reports after sets", "s.sgy",
        "set 1 inline 12 ; set 2 crossline 21 ; set 3 x -7 ; set 3 scalar -100 ; set 1 @190:1 5 ; set 2 @187:8 1000 ; set 9 inline 1 ; "
        "set 1 @239:4 1", 2,
    ),
    ("reports after patches", "s.sgy", "patch 1 0 32767 -32768 ; patch 3 1 -6 ; patch 2 2 1 ; patch 2 0 40000", 2),
    ("reports after whole traces", "s.sgy", "blank 1 ; copy 2 5 ; set 2 inline 3 ; delete 3 ; move 1 4 ; move 9 1 ; delete 9 ; blank 5", 2),
    ("reports after all are gone", "s.sgy", "delete 1 ; delete 1 ; delete 1 ; blank 1 ; blank 2"),
    ("reports after headers", "s.sgy", "bin interval 1000 ; text 3 none ; bin trace_count 9"),
    ("reports of samples of 24 bits", "t.sgy", "patch 1 1 8388607 ; copy 1 2 ; patch 2 0 -5"),
    ("reports of a header extension", "x.sgy", "set 1 @233:8 1 ; bin trace_count 7 ; set 1 @1.1:8 9 ; copy 1 1 ; set 2 @1.157:2 0"),
    ("reports of traces of their own lengths", "v.sgy", "copy 3 1 ; patch 1 0 5 ; delete 2 ; set 2 offset 9"),
    ("reports under the reading fixed", "loose.sgy", "set 1 @115:2u 4 ; set 2 y 3", 0, "--fixed"),
]


@pytest.mark.parametrize("row", rows(REPORTS + ANSWERS))
def test_reports(room, row):
    check(room, row)


@pytest.mark.parametrize("file, edits, refused, options", [pytest.param(*row[1:], *(0, "")[len(row) - 3:], id=row[0]) for row in RELOADS])
def test_reports_of_the_saved_file(room, file, edits, refused, options):
    check_reload(room, file, edits, options, refused=refused)


# ---- edits at random in 100000 traces, with reports between
def random_edit(numbers):
    """An edit of a trace among 100000."""
    p, q = numbers.randint(1, 100000), numbers.randint(1, 100000)
    number, line, scalar = numbers.randint(-16384, 16383), numbers.randrange(50), numbers.randint(-1, 1)
    return numbers.choice(
        [
            f"move {p} {q}", f"copy {p} {q}", f"blank {p}", f"delete {p}", f"patch {p} {numbers.randrange(2)} {number}",
            f"set {p} inline {line}", f"set {p} crossline {line}", f"set {p} scalar {scalar}00",
        ],
    )


def random_edits(numbers, count):
    """Edits, and behind each hundred some reports."""
    for number in range(1, count + 1):
        yield random_edit(numbers)
        if number % 100 == 0:
            yield from (f"fold {numbers.randrange(50)} {numbers.randrange(50)}", "totals", "range x", f"stat {numbers.randint(1, 90000)}")


def test_reports_after_10000_edits_at_random(room):
    made = content("s.sgy")[:3600] + content("s.sgy")[3600:3844] * 100000
    edits = "".join(line + "\n" for line in random_edits(random.Random(23), 10000))
    check_reload(room, ("many.sgy", made), edits.encode())


# ---- slices that are kept: after each edit a slice is asked, in one run as it comes, in the other behind eight others, so that none is
# kept that is asked again
def kept_edit(numbers, number):
    """An edit of the file whose slices are asked; the first are new traces."""
    p, q, value = numbers.randint(1, 30), numbers.randint(1, 30), numbers.randint(-16384, 16383)
    if number <= 30:
        return "blank 1"
    return numbers.choice(
        [
            f"move {p} {q}", f"patch {p} {numbers.randrange(10)} {value} {numbers.randint(-16384, 16383)}",
            f"patch {p} {numbers.randrange(2)} {value}", f"set {p} inline {numbers.randrange(5)}",
            f"set {p} @{187 + numbers.randrange(6)}:4 {numbers.randrange(5)}", f"set {p} x {numbers.randrange(32768)}",
            f"map crossline @{193 + 4 * numbers.randrange(2)}:4", f"copy {p} {q}", f"delete {p}",
        ],
    )


def asked(answers, place):
    """Of the answers, those of slices that stand so many behind an edit."""
    found, at = [], 0
    for line in answers.decode().splitlines():
        if line.startswith(("ok", "refused")):
            at = 0
            continue
        at += line.startswith("slice")
        if at == place:
            found.append(line)
    return found


def test_kept_slices_are_those_read_anew(room):
    numbers = random.Random(29)
    edits = [(kept_edit(numbers, number), numbers.randrange(3)) for number in range(1, 431)]
    others = "".join(f"slice {number}\n" for number in range(3, 11))
    room.put("kept.sgy", changed(content("s.sgy")[:3600], "3220 000c"))
    live = asked(room.ask("kept.sgy", "".join(f"{edit}\nslice {k}\n" for edit, k in edits)).answers, 1)
    anew = asked(room.ask("kept.sgy", "".join(f"{edit}\n{others}slice {k}\n" for edit, k in edits)).answers, 9)
    assert sum(line.startswith("slice") for line in live) == 430
    assert sum(line.startswith("row") for line in live) > 5000
    assert live == anew
