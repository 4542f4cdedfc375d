"""Traces put in order. The small survey has inline 10, crosslines 21, 22 and 23, offsets 100, 200 and 300 and x 1000, 2000 and 3000;
those of v.sgy have their own numbers of samples."""

import pytest

from files import content
from reports import check_reload
from running import same
from tables import SAME, case, check, check_alike, rows, saving

SORTED = [
    saving(
        "numbers that fall", "s.sgy",
        "sort 1 3 -crossline ; table 1 3 crossline ; sort 1 3 crossline ; table 1 3 crossline",
        "ok / table 3 / 1 23 / 2 22 / 3 21 / ok / table 3 / 1 21 / 2 22 / 3 23",
    ),
    saving(
        "a place", "s.sgy",
        "sort 1 3 -@37:4 ; table 1 3 offset",
        "ok / table 3 / 1 300 / 2 200 / 3 100",
    ),
    saving(
        "the second field where the first is equal", "s.sgy",
        "set 3 inline 9 ; sort 1 3 inline -crossline ; table 1 3 inline crossline",
        "ok / ok / table 3 / 1 9 23 / 2 10 22 / 3 10 21",
    ),
    saving(
        "equal ones stand as they stood", "s.sgy",
        "move 1 2 ; sort 1 3 inline ; table 1 3 crossline ; sort 1 3 -inline ; table 1 3 crossline",
        "ok / ok / table 3 / 1 22 / 2 21 / 3 23 / ok / table 3 / 1 22 / 2 21 / 3 23",
    ),
    saving(
        "negative numbers", "s.sgy",
        "set 1 offset -5 ; set 3 offset -2147483648 ; sort 1 3 offset ; table 1 3 offset ; sort 1 3 @37:4u ; table 1 3 offset",
        "ok / ok / ok / table 3 / 1 -2147483648 / 2 -5 / 3 200 / ok / table 3 / 1 200 / 2 -2147483648 / 3 -5",
    ),
    saving(
        "numbers of 8 bytes, without a sign and with one", "s.sgy",
        "set 1 @225:8u 18446744073709551615 ; set 2 @225:8u 9223372036854775808 ; set 3 @225:8u 5 ; sort 1 3 @225:8u ; "
        "table 1 3 crossline ; sort 1 3 @225:8 ; table 1 3 crossline",
        "ok / ok / ok / ok / table 3 / 1 23 / 2 22 / 3 21 / ok / table 3 / 1 22 / 2 21 / 3 23",
    ),
    saving(
        "equal in both fields", "s.sgy",
        "move 1 2 ; set 1 offset 7 ; set 2 offset 7 ; set 3 offset 9 ; sort 1 3 inline -offset ; table 1 3 crossline ; "
        "sort 1 3 -inline offset inline ; table 1 3 crossline",
        "ok / ok / ok / ok / ok / table 3 / 1 23 / 2 22 / 3 21 / ok / table 3 / 1 22 / 2 21 / 3 23",
    ),
    saving(
        "an order that is not its own inverse", "s.sgy",
        "set 1 offset 30 ; set 2 offset 10 ; set 3 offset 20 ; sort 1 3 offset ; table 1 3 crossline",
        "ok / ok / ok / ok / table 3 / 1 22 / 2 23 / 3 21",
    ),
    saving(
        "a part of the traces", "s.sgy",
        "sort 2 3 -x ; table 1 3 x ; sort 2 2 x ; table 1 3 x",
        "ok / table 3 / 1 1000 / 2 3000 / 3 2000 / ok / table 3 / 1 1000 / 2 3000 / 3 2000",
    ),
    saving(
        "the first refusal", "s.sgy",
        "sort 0 4 nothing ; sort 1 4 nothing ; sort 3 2 nothing ; sort 1 3 @1.1:4 nothing ; sort 1 3 nothing @1.1:4 ; "
        "sort 1 3 inline @1.1:4 ; sort 1 3 - ; sort 1 3 --inline ; table 1 3 crossline",
        "refused E01 no trace 0 of 3 / refused E01 no trace 4 of 3 / refused E01 no trace 2 of 3 / refused E02 no field / "
        "refused E02 no field / refused E03 no place / refused E02 no field / refused E02 no field / table 3 / 1 21 / 2 22 / 3 23",
        1,
    ),
    saving(
        "words of sort", "s.sgy",
        "sort ; sort 1 3 ; sort 1 3 a b c d e f g h i ; sort x 3 inline ; sort 1 3 @9 ; sort 1 3 -@9 ; "
        "sort 1 3 inline -crossline offset x y -inline @1:4 @5:4",
        "refused S02 words / refused S02 words / refused S02 words / refused S03 number / refused S03 number / refused S03 number / ok",
        1,
    ),
    case(
        "a refused one changes nothing: not a byte", "s.sgy",
        "sort 1 3 -crossline @1.1:4",
        "refused E03 no place",
        1, saved=SAME,
    ),
    saving(
        "kept slices are forgotten, and follow", "s.sgy",
        "slice 0 ; sort 1 3 -crossline ; slice 0",
        "slice 3 / row 10 21 1 1 / row 10 22 2 3 / row 10 23 3 -5 / ok / slice 3 / row 10 21 3 1 / row 10 22 2 3 / row 10 23 1 -5",
    ),
    saving(
        "a place that some of the traces lack", "some.sgy",
        "sort 1 2 @3.1:4 ; sort 2 2 @3.1:4 ; sort 1 2 -@2.1:4 @1.157:2u ; table 1 2 ext_count",
        "refused E03 no place / ok / ok / table 2 / 1 2 / 2 3",
        1,
    ),
]

RELOADS = [
    ("reports after a sort", "s.sgy", "set 2 inline 7 ; copy 3 1 ; sort 1 4 -crossline inline ; set 1 x 77 ; sort 2 4 x"),
    ("reports after a sort of traces of their own lengths", "v.sgy", "copy 1 2 ; set 2 inline -4 ; sort 1 3 -inline ; sort 1 2 @1:4 -@115:2u"),
    ("reports after a sort by places of extensions", "x.sgy", "copy 1 1 ; map deep @1.9:8 ; set 2 deep 7 ; sort 1 2 -deep"),
]


@pytest.mark.parametrize("row", rows(SORTED))
def test_sorted(room, row):
    check(room, row)


@pytest.mark.parametrize("file, edits", [pytest.param(*row[1:], id=row[0]) for row in RELOADS])
def test_reports_of_the_saved_file(room, file, edits):
    check_reload(room, file, edits)


def test_samples_go_with_their_trace(room):
    unsorted = room.ask("s.sgy", "sample 3 0\nsample 1 0\nfold 10 23\ngeometry 3\n").answers
    turned = room.ask("s.sgy", "sort 1 3 -crossline\nsample 1 0\nsample 3 0\nfold 10 23\ngeometry 1\n").answers
    assert unsorted.splitlines()[:3] == [b"value -5", b"value 1", b"fold 1"]
    assert turned == b"ok\n" + unsorted


def test_a_sort_makes_the_bytes_that_moves_make(room):
    check_alike(room, "s.sgy", "sort 1 3 -crossline", "move 3 1 ; move 3 2")


def test_a_shuffled_file_is_put_in_order(room):
    room.put("long.sgy", content("s.sgy")[:3600] + bytes(500 * 244))
    room.ask("long.sgy", "renumber 1 500 sequence_file 1 1\nrenumber 1 500 @37:4 1000 -2\n", "--out", "whole.sgy")
    shuffle = "".join(f"set {k} @17:4 {k * 7919 % 503}\n" for k in range(1, 501))
    room.ask("whole.sgy", shuffle + "sort 1 500 @17:4\n", "--out", "shuffled.sgy")
    assert room.get("shuffled.sgy") != room.get("whole.sgy")
    room.ask("shuffled.sgy", "sort 1 500 -offset\nrenumber 1 500 @17:4 0 0\n", "--out", "again.sgy")
    assert same(room.get("again.sgy"), room.get("whole.sgy"))
