"""Computed fields. The small survey has inline 10, crosslines 21, 22 and 23, offsets 100, 200 and 300 and x 1000, 2000 and 3000."""

import pytest

from reports import check_reload
from running import same
from tables import SAME, case, check, rows, saving

COMPUTED = [
    saving(
        "a field from others", "s.sgy",
        "compute 1 3 ensemble inline * 1000 + crossline ; table 1 3 ensemble ; compute 2 3 crossline offset / 100 + inline ; "
        "table 1 3 crossline ; crosslines",
        "ok / table 3 / 1 10021 / 2 10022 / 3 10023 / ok / table 3 / 1 21 / 2 12 / 3 13 / crosslines 3 / crossline 12 1 / "
        "crossline 13 1 / crossline 21 1",
    ),
    saving(
        "strictly from left to right", "s.sgy",
        "compute 1 1 @1:4 2 + 3 * 4 - 5 ; get 1 @1:4",
        "ok / value 15",
    ),
    saving(
        "quotients are rounded towards the lesser number", "s.sgy",
        "compute 1 1 @1:4 7 / 2 ; get 1 @1:4 ; compute 1 1 @1:4 -7 / 2 ; get 1 @1:4 ; compute 1 1 @1:4 7 / -2 ; get 1 @1:4 ; "
        "compute 1 1 @1:4 -7 / -2 ; get 1 @1:4",
        "ok / value 3 / ok / value -4 / ok / value -4 / ok / value 3",
    ),
    saving(
        "and what they leave has the sign of the divisor", "s.sgy",
        "compute 1 1 @1:4 7 % 2 ; get 1 @1:4 ; compute 1 1 @1:4 -7 % 2 ; get 1 @1:4 ; compute 1 1 @1:4 7 % -2 ; get 1 @1:4 ; "
        "compute 1 1 @1:4 -7 % -2 ; get 1 @1:4 ; compute 1 1 @1:4 -8 % 2 ; get 1 @1:4",
        "ok / value 1 / ok / value 1 / ok / value -1 / ok / value -1 / ok / value 0",
    ),
    saving(
        "the field as it was before the line", "s.sgy",
        "compute 1 3 offset offset + offset * 2 ; table 1 3 offset",
        "ok / table 3 / 1 400 / 2 800 / 3 1200",
    ),
    saving(
        "the first refusal", "s.sgy",
        "compute 0 4 nothing 1 ; compute 1 4 nothing 1 ; compute 3 2 inline nothing ; compute 1 3 nothing 1 / 0 ; "
        "compute 1 3 @1.1:4 nothing ; compute 1 3 inline 1 / nothing ; compute 1 3 @1.1:4 1 / 0 ; compute 1 3 inline @1.1:4 / 0 ; "
        "compute 1 3 inline 1 / 0 + @1.1:4 ; compute 2 3 inline 1 / 0 ; compute 2 3 inline offset - 200 * 0 % @1:4",
        "refused E01 no trace 0 of 3 / refused E01 no trace 4 of 3 / refused E01 no trace 2 of 3 / refused E02 no field / "
        "refused E02 no field / refused E02 no field / refused E03 no place / refused E03 no place / refused E03 no place / "
        "refused E13 zero divisor trace 2 / refused E13 zero divisor trace 2",
        1,
    ),
    saving(
        "of the lowest trace", "s.sgy",
        "set 2 @1:4 5 ; set 1 @1:4 1 ; compute 1 3 inline 10 / @1:4 ; compute 1 3 @9:2 offset * 400 / @1:4 ; inlines",
        "ok / ok / refused E13 zero divisor trace 3 / refused E04 does not fit / inlines 1 / inline 10 3",
        1,
    ),
    saving(
        "numbers of 128 bits", "s.sgy",
        "compute 1 1 inline 170141183460469231731687303715884105727 - 170141183460469231731687303715884105720 ; get 1 inline ; "
        "compute 1 1 inline 170141183460469231731687303715884105727 + 1 - 170141183460469231731687303715884105727 ; "
        "compute 1 1 inline -170141183460469231731687303715884105728 / -1 ; "
        "compute 1 1 inline -170141183460469231731687303715884105728 % -1 ; get 1 inline ; compute 1 1 inline 2147483647 + 1 ; "
        "compute 1 1 inline 170141183460469231731687303715884105728",
        "ok / value 7 / refused E04 does not fit / refused E04 does not fit / ok / value 0 / refused E04 does not fit / "
        "refused S03 number",
        1,
    ),
    case(
        "a refused one changes nothing: not a byte", "s.sgy",
        "compute 1 3 inline 100 / @37:4 % 0",
        "refused E13 zero divisor trace 1",
        1, saved=SAME,
    ),
    saving(
        "the number of samples of a trace", "v.sgy",
        "compute 1 3 samples 3 ; compute 2 2 samples 1 + 1 ; get 2 samples",
        "refused E06 frame / ok / value 2",
        1,
    ),
    saving(
        "words of compute", "s.sgy",
        "compute ; compute 1 3 inline ; compute 1 3 inline 1 + ; compute 1 3 inline 1 + 1 + 1 + 1 + 1 + 1 + 1 + 1 + 1 + 1 ; "
        "compute 1 3 inline 1 ^ 2 ; compute 1 3 inline 5x ; compute 1 3 inline +5 ; compute 1 3 inline 1 + @9 ; compute x 3 inline 1 ; "
        "compute 1 3 @9 1 ; compute 1 1 inline 0 + 1 + 1 + 1 + 1 + 1 + 1 + 1 + 1 ; get 1 inline",
        "refused S02 words / refused S02 words / refused S02 words / refused S02 words / refused S03 number / refused S03 number / "
        "refused S03 number / refused S03 number / refused S03 number / refused S03 number / ok / value 8",
        1,
    ),
    saving(
        "kept slices follow", "s.sgy",
        "slice 0 ; compute 1 3 crossline 30 - crossline ; slice 0",
        "slice 3 / row 10 21 1 1 / row 10 22 2 3 / row 10 23 3 -5 / ok / slice 3 / row 10 7 3 -5 / row 10 8 2 3 / row 10 9 1 1",
    ),
]

RELOADS = [
    (
        "reports after computed fields", "s.sgy",
        "compute 1 3 inline crossline * -3 % 7 ; compute 2 3 x x / 7 ; compute 1 2 scalar 0 - 100 ; compute 1 3 offset offset + offset",
    ),
    (
        "reports after computed places of extensions", "x.sgy",
        "copy 1 1 ; map deep @1.9:8 ; compute 1 2 deep 2147483648 * 4294967295 ; compute 1 2 inline deep / 1000000000000",
    ),
]


@pytest.mark.parametrize("row", rows(COMPUTED))
def test_computed(room, row):
    check(room, row)


@pytest.mark.parametrize("file, edits", [pytest.param(*row[1:], id=row[0]) for row in RELOADS])
def test_reports_of_the_saved_file(room, file, edits):
    check_reload(room, file, edits)


def test_a_computed_number_is_a_field_counted_up_by_0(room):
    computed = "compute 2 3 inline 7\ncompute 1 3 @115:2u 9\ncompute 1 3 @225:8u 18446744073709551615\n"
    counted = "renumber 2 3 inline 7 0\nrenumber 1 3 @115:2u 9 0\nrenumber 1 3 @225:8u 18446744073709551615 0\n"
    first = room.ask("s.sgy", computed, "--out", "c.sgy")
    second = room.ask("s.sgy", counted, "--out", "r.sgy")
    assert first.answers == second.answers != b""
    assert same(room.get("c.sgy"), room.get("r.sgy"))
    assert room.get("c.sgy") != room.get("s.sgy")
