"""Words for traces: last, end, and a set of many traces."""

import pytest

from tables import check, check_alike, rows, saving

TRACES = [
    saving(
        "last in each query", "s.sgy",
        "get last crossline ; sample last 1 ; geometry last ; stat last ; table last last crossline ; table 2 last crossline ; "
        "find 1 last crossline 22 30",
        "value 23 / value 6 / geometry inline 10 crossline 23 offset 300 x 3000 y 500 / stat least -5 greatest 6 sum 1 samples 2 / "
        "table 1 / 3 23 / table 2 / 2 22 / 3 23 / found 2 / trace 2 22 / trace 3 23",
    ),
    saving(
        "last is the number of traces as the line finds it", "s.sgy",
        "delete last ; get last crossline ; count ; copy 1 end ; get last crossline ; blank end ; count ; delete last ; count",
        "ok / value 22 / traces 2 / ok / value 21 / ok / traces 4 / ok / traces 3",
    ),
    saving(
        "last in each edit", "s.sgy",
        "set last inline 7 ; get 3 inline ; patch last 0 9 ; sample 3 0 ; move last 1 ; get 1 crossline ; move 1 last ; "
        "get 3 crossline ; renumber 1 last inline 5 1 ; get last inline ; compute 2 last inline inline * 10 ; get 3 inline ; "
        "sort 1 last -crossline ; get 1 crossline ; copy last last ; count ; get 4 crossline",
        "ok / value 7 / ok / value 9 / ok / value 23 / ok / value 23 / ok / value 7 / ok / value 70 / ok / value 23 / ok / traces 4 / "
        "value 21",
    ),
    saving(
        "last where there is no trace", "none.sgy",
        "get last inline ; delete last ; set last inline 1 ; table 1 last inline ; set 1 last inline 1 ; blank end ; count ; "
        "get last inline",
        "refused E01 no trace 0 of 0 / refused E01 no trace 0 of 0 / refused E01 no trace 0 of 0 / refused E01 no trace 1 of 0 / "
        "refused E01 no trace 1 of 0 / ok / traces 1 / value 0",
        1,
    ),
    saving(
        "end", "s.sgy",
        "blank end ; get 4 crossline ; copy 1 end ; get 5 crossline ; count",
        "ok / value 0 / ok / value 21 / traces 5",
    ),
    saving(
        "end where no trace is put in", "s.sgy",
        "get end inline ; delete end ; move 1 end ; copy end 1 ; set end inline 1 ; table 1 end inline ; sort 1 end inline ; resize end 1",
        "refused S03 number / refused S03 number / refused S03 number / refused S03 number / refused S03 number / refused S03 number / "
        "refused S03 number / refused S03 number",
        1,
    ),
    saving(
        "last and end for what is no trace", "s.sgy",
        "slice last ; sample 1 last ; line last 1 ; code last ; set 1 inline last ; LAST ; get Last inline ; get last2 inline",
        "refused S03 number / refused S03 number / refused S03 number / refused S03 number / refused S03 number / "
        "refused S01 unknown word / refused S03 number / refused S03 number",
        1,
    ),
    saving(
        "names last and end", "s.sgy",
        "map last @193:4 ; map end @189:4 ; get last last ; get 1 end ; set last last 5 ; get 3 crossline",
        "ok / ok / value 23 / value 10 / ok / value 5",
    ),
    saving(
        "a set of many traces", "s.sgy",
        "set 1 2 inline 7 ; table 1 3 inline ; set 2 last @193:4 -1 ; table 1 3 crossline ; set 2 2 inline 8 ; get 2 inline",
        "ok / table 3 / 1 7 / 2 7 / 3 10 / ok / table 3 / 1 21 / 2 -1 / 3 -1 / ok / value 8",
    ),
    saving(
        "refused sets of many traces", "s.sgy",
        "set 0 2 inline 1 ; set 1 4 inline 1 ; set 3 2 inline 1 ; set 1 3 nothing 1 ; set 1 3 @1.1:4 1 ; set 1 3 inline 2147483648 ; "
        "set 1 3 samples 3 ; set 1 2 3 inline 1 ; set 1 inline ; set 1 x inline 1 ; set 1 2 inline x ; set 1 2 @1 1 ; table 1 3 inline",
        "refused E01 no trace 0 of 3 / refused E01 no trace 4 of 3 / refused E01 no trace 2 of 3 / refused E02 no field / "
        "refused E03 no place / refused E04 does not fit / ok / refused S02 words / refused S02 words / refused S03 number / "
        "refused S03 number / refused S03 number / table 3 / 1 10 / 2 10 / 3 10",
        1,
    ),
]

ALIKE = [
    ("a set of many traces is a renumber by 0", "s.sgy", "set 1 last offset -9", "renumber 1 3 offset -9 0"),
    ("a length of last", "v.sgy", "resize last 3", "resize 3 3"),
    ("on disk too", "s.sgy", "set 2 last crossline 77", "set 2 crossline 77 ; set 3 crossline 77"),
]


@pytest.mark.parametrize("row", rows(TRACES))
def test_traces(room, row):
    check(room, row)


@pytest.mark.parametrize("file, one, other", [pytest.param(*row[1:], id=row[0]) for row in ALIKE])
def test_alike(room, file, one, other):
    check_alike(room, file, one, other)


def test_header_last_and_extremes_to_last(room):
    first = room.ask("s.sgy", "header 3\nextremes 1 3\nextremes 2 3\n").answers
    last = room.ask("s.sgy", "header last\nextremes 1 last\nextremes 2 last\n").answers
    assert first == last
    assert last.startswith(b"header ")


def test_last_on_disk(room):
    ended = room.ask("s.sgy", "get last crossline\ndelete last\nget last crossline\nset 1 last inline 3\n", "--on-disk")
    assert ended.answers == b"value 23\nok\nvalue 22\nok\n"


def test_last_in_a_session(room):
    ended = room.run(room.make("s.sgy"), "--session", entered=b"get last crossline\ndelete last\nget last crossline\n")
    assert ended.answers == b"value 23\n\nok\n\nvalue 22\n\n"
