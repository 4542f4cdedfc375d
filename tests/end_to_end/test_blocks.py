"""Blocks of traces that are moved, and geometry names that are bound at once. The small survey has inline 10, crosslines 21, 22 and 23,
offsets 100, 200 and 300 and x 1000, 2000 and 3000."""

import pytest

from files import content
from reports import check_reload
from running import same
from tables import check, check_alike, check_told, rows, saving

BLOCKS = [
    saving(
        "a block to the front", "s.sgy",
        "move 2 3 1 ; table all crossline ; sample 1 0 ; sample 3 0 ; fold 10 22",
        "ok / table 3 / 1 22 / 2 23 / 3 21 / value 3 / value 1 / fold 1",
    ),
    saving(
        "a block to the back", "s.sgy",
        "move 1 2 2 ; table all crossline ; move 1 1 3 ; table all crossline",
        "ok / table 3 / 1 23 / 2 21 / 3 22 / ok / table 3 / 1 21 / 2 22 / 3 23",
    ),
    saving(
        "a block where it stands", "s.sgy",
        "move 1 3 1 ; move 2 3 2 ; move 2 2 2 ; move last last last ; table all crossline",
        "ok / ok / ok / ok / table 3 / 1 21 / 2 22 / 3 23",
    ),
    saving(
        "last is one behind the traces that are left", "s.sgy",
        "copy 1 end ; copy 2 end ; move 1 2 last ; table all crossline ; move 4 last 1 ; table all crossline ; move 2 3 last ; "
        "table all crossline",
        "ok / ok / ok / table 5 / 1 23 / 2 21 / 3 22 / 4 21 / 5 22 / ok / table 5 / 1 21 / 2 22 / 3 23 / 4 21 / 5 22 / ok / table 5 / "
        "1 21 / 2 21 / 3 22 / 4 22 / 5 23",
    ),
    saving(
        "the first refusal of a block", "s.sgy",
        "move 0 4 9 ; move 4 4 9 ; move 1 4 9 ; move 3 2 9 ; move 2 3 3 ; move 2 3 0 ; move 1 3 2 ; move 1 1 4 ; move 3 2 last ; "
        "table all crossline",
        "refused E01 no trace 0 of 3 / refused E01 no trace 4 of 3 / refused E01 no trace 4 of 3 / refused E01 no trace 2 of 3 / "
        "refused E01 no trace 3 of 2 / refused E01 no trace 0 of 2 / refused E01 no trace 2 of 1 / refused E01 no trace 4 of 3 / "
        "refused E01 no trace 2 of 3 / table 3 / 1 21 / 2 22 / 3 23",
        1,
    ),
    saving(
        "a block of a file without traces", "none.sgy",
        "move 1 1 1 ; move 1 last 1 ; move last last last",
        "refused E01 no trace 1 of 0 / refused E01 no trace 1 of 0 / refused E01 no trace 0 of 0",
        1,
    ),
    saving(
        "words of a block", "s.sgy",
        "move ; move 1 ; move 1 2 3 4 ; move all 1 2 ; move all 1 ; move 1 2 x ; move 1 x 2 ; move x 1 2 ; move 1 2 end ; "
        "move 1 2 1 where inline = 10",
        "refused S02 words / refused S02 words / refused S02 words / refused S02 words / refused S03 number / refused S03 number / "
        "refused S03 number / refused S03 number / refused S03 number / refused S02 words",
        1,
    ),
    saving(
        "kept slices are forgotten after a block, and follow", "s.sgy",
        "slice 0 ; move 2 3 1 ; slice 0",
        "slice 3 / row 10 21 1 1 / row 10 22 2 3 / row 10 23 3 -5 / ok / slice 3 / row 10 21 3 1 / row 10 22 1 3 / row 10 23 2 -5",
    ),
    saving(
        "a mapping to shots", "s.sgy",
        "map mine @17:4 ; map offset @1:4 ; map shot ; fields ; map usual ; fields",
        "ok / ok / ok / fields 7 / field inline @9:4 / field crossline @13:4 / field offset @1:4 / field x @81:4 / field y @85:4 / "
        "field scalar @71:2 / field mine @17:4 / ok / fields 7 / field inline @189:4 / field crossline @193:4 / field offset @37:4 / "
        "field x @181:4 / field y @185:4 / field scalar @71:2 / field mine @17:4",
    ),
    saving(
        "reports under it", "s.sgy",
        "set 2 field_record 7 ; set 3 @13:4 5 ; set 1 group_x 40 ; map shot ; inlines ; crosslines ; range x ; map usual ; crosslines",
        "ok / ok / ok / ok / inlines 2 / inline 0 2 / inline 7 1 / crosslines 2 / crossline 0 2 / crossline 5 1 / range 0 40 / ok / "
        "crosslines 3 / crossline 21 1 / crossline 22 1 / crossline 23 1",
    ),
    saving(
        "kept slices are forgotten after it", "s.sgy",
        "set 2 field_record 7 ; slice 0 ; map shot ; slice 0",
        "ok / slice 3 / row 10 21 1 1 / row 10 22 2 3 / row 10 23 3 -5 / ok / slice 3 / row 0 0 1 1 / row 0 0 3 -5 / row 7 0 2 3",
    ),
    saving(
        "words of a mapping", "s.sgy",
        "map ; map inline ; map shots ; map Shot ; map shot usual usual ; map shot @9:4 ; map usual shot ; map shot",
        "refused S02 words / refused S02 words / refused S02 words / refused S02 words / refused S02 words / ok / ok / ok",
        1,
    ),
    saving(
        "a mapping of a file without traces", "none.sgy",
        "map shot ; map usual ; count",
        "ok / ok / traces 0",
    ),
]

TOLD = [
    ("TO past the traces that are left", "move 2 3 3", "E01 no trace 3 of 2: move 2 3 3"),
    ("P behind Q of a block", "move 3 2 1", "E01 no trace 2 of 3: move 3 2 1 (P stands behind Q: the first of the traces comes first)"),
    ("too few words of a move", "move 3", "S02 words: move 3 (the form is move P [Q] TO)"),
    ("a mapping that is none", "map shots", "S02 words: map shots (the form is map NAME FIELD, map shot or map usual)"),
]

RELOADS = [
    ("reports after blocks", "s.sgy", "set 2 inline 7 ; copy 3 1 ; move 2 4 1 ; set 1 x 77 ; move 1 2 3"),
    ("reports after blocks of traces of their own lengths", "v.sgy", "copy 1 2 ; set 2 inline -4 ; move 2 3 1 ; move 1 2 last"),
    ("reports after blocks with extensions", "x.sgy", "copy 1 1 ; map deep @1.9:8 ; set 2 deep 7 ; move 2 last 1"),
]

ALIKE = [
    ("a block of one is a move", "s.sgy", "move 1 1 3", "move 1 3"),
    ("a block is its moves", "s.sgy", "copy 1 end ; move 2 3 1", "copy 1 end ; move 2 1 ; move 3 2"),
    ("a block back is its moves", "v.sgy", "copy 1 end ; move 1 2 last", "copy 1 end ; move 1 last ; move 1 last"),
]


@pytest.mark.parametrize("row", rows(BLOCKS))
def test_blocks(room, row):
    check(room, row)


@pytest.mark.parametrize("line, text", [pytest.param(*row[1:], id=row[0]) for row in TOLD])
def test_refusals(room, line, text):
    check_told(room, line, text)


@pytest.mark.parametrize("file, edits", [pytest.param(*row[1:], id=row[0]) for row in RELOADS])
def test_reports_of_the_saved_file(room, file, edits):
    check_reload(room, file, edits)


@pytest.mark.parametrize("file, one, other", [pytest.param(*row[1:], id=row[0]) for row in ALIKE])
def test_alike(room, file, one, other):
    check_alike(room, file, one, other)


@pytest.fixture
def long_file(room):
    """500 traces, each another."""
    room.put("long.sgy", content("s.sgy")[:3600] + bytes(500 * 244))
    numbers = "".join(f"set {k} @17:4 {k * 7919 % 503}\n" for k in range(1, 501))
    room.ask("long.sgy", "renumber 1 500 sequence_file 1 1\nrenumber 1 500 @37:4 1000 -2\n" + numbers, "--out", "shuffled.sgy")
    return "shuffled.sgy"


def test_a_long_block_there_and_back(room, long_file):
    room.ask(long_file, "move 1 123 last\nmove 378 last 1\n", "--out", "again.sgy")
    room.ask(long_file, "move 1 123 last\n", "--out", "turned.sgy")
    before, turned = room.get(long_file), room.get("turned.sgy")
    assert same(room.get("again.sgy"), before)
    at = 3600 + 123 * 244
    assert turned != before
    assert same(turned, before[:3600] + before[at:] + before[3600:at])


# ---- names that are bound at once
def test_a_mapping_is_its_maps(room):
    begin, end = "set 2 @9:4 7\nset 1 @81:4 3\n", "grid\nfaults\nrange x\nrange y\ntotals\n"
    maps = "map inline field_record\nmap crossline trace_in_record\nmap x group_x\nmap y group_y\n"
    one = room.ask("s.sgy", begin + "map shot\n" + end).answers
    four = room.ask("s.sgy", begin + maps + end).answers
    assert one.startswith(b"ok\n" * 3 + b"cells ")
    assert four == b"ok\n" * 3 + one
