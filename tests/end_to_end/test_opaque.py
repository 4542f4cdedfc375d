"""Files whose samples are bytes without a value, and files that do not tell their order of bytes."""

import pytest

from files import changed, damaged, floats, in_order
from running import same
from tables import case, check, placed, refused, rows, saving

OPAQUE = "segywb: with --opaque-samples the file is read all the same, its samples as bytes without a value"
HINT = "segywb: with --floats the file is read, its samples with their values; with --opaque-samples as bytes without a value"
NO_VALUE = "refused E12 samples have no value"
NO_TRACE = "refused E01 no trace 9 of 2"

# ---- each format, in both orders and each revision: repaired, saved, compared with the bytes that are wanted, and loaded again
LINES = (
    "info ; set 2 inline 11 ; set 2 x 123456 ; set 2 scalar -100 ; delete 3 ; renumber 1 2 @5:4 7 2 ; geometry 2 ; inlines ; sample 1 0 ; "
    "sample 1 9 ; sample 9 0 ; samples 1 2 0 1 ; samples 1 9 0 1 ; patch 2 1 70000000000 ; patch 2 9 1 ; patch 9 9 1 ; stat 1 ; stat 0 ; totals ; slice 0 ; slice 9 ; bin format 3"
)
ANSWERS = [
    "ok", "ok", "ok", "ok", "ok", "geometry inline 11 crossline 22 offset 0 x 30864/25 y 0", "inlines 2", "inline 10 1", "inline 11 1",
    NO_VALUE, NO_VALUE, NO_TRACE, NO_VALUE, NO_TRACE, NO_VALUE, NO_VALUE, NO_TRACE, NO_VALUE, "refused E01 no trace 0 of 2", NO_VALUE, NO_VALUE, NO_VALUE,
    "refused E06 frame",
]
KINDS = [(form, order, major) for major in (0, 1, 2) for order in ("big", "little") for form in (1, 4, 5, 6)]


@pytest.fixture(params=KINDS, ids=[f"format {form}, {order}-endian, revision {major}" for form, order, major in KINDS])
def kind(request):
    return request.param


def order_options(order, major):
    """Revisions 0 and 1 do not tell their order."""
    return " --order little" if order == "little" and major != 2 else ""


def repaired(made, order):
    """The bytes behind the edits of LINES."""
    length = (len(made) - 3600) // 3
    second = 3600 + length
    places = [(188, 11, 4), (180, 123456, 4), (70, -100, 2), (4, 9, 4)]
    changes = [f"{second + place} {in_order(order, number, size)}" for place, number, size in places]
    return changed(made[:second + length], *changes, f"3604 {in_order(order, 7, 4)}")


def test_bytes_without_a_value(room, kind):
    form, order, major = kind
    made = floats(order, form, major)
    options = "--opaque-samples" + order_options(order, major)
    fixed = "no" if major == 0 else "yes"
    info = (
        f"info order {order} revision {major}.0 format {form} samples 2 fixed {fixed} extensions 0 blocks 0 trailer 0 traces 3 "
        f"bytes {len(made)}"
    )
    wanted = repaired(made, order)
    check(room, case("repaired", ("f.sgy", made), LINES, " / ".join([info, *ANSWERS]), 1, options=options, saved=wanted))
    check(room, case("again", ("o.sgy", wanted), "count ; get 2 inline", "traces 2 / value 11", options=options))


def test_unasked(room, kind):
    form, order, major = kind
    refusal, hint = ("L07 gain format", OPAQUE) if form == 4 else (f"L06 float format {form}", HINT)
    if order_options(order, major):
        refusal, hint = f"L08 unknown format {256 * form}", ""
    check(room, refused("unasked", ("f.sgy", floats(order, form, major)), refusal, errors=hint))


# ---- another number of samples: zero bytes behind those that stay; kept, blank, copied and moved traces, and the text
FIVE = floats("big", 5, 0)
RESIZED = changed(FIVE[:4096] + bytes(4) + FIVE[-248:-4], f"{3848 + 114} 0003", f"{4100 + 114} 0001")
TORN = floats("big", 1, 1)
EDITS = [
    case(
        "another number of floats, and their bytes", ("f.sgy", FIVE), "resize 2 3 ; resize 3 1 ; count", "ok / ok / traces 3",
        options="--opaque-samples", saved=RESIZED,
    ),
    saving(
        "whole traces of floats", ("f.sgy", FIVE),
        "blank 1 ; copy 3 5 ; move 5 1 ; text 1 C FLOATS ; sample 1 0 ; count", f"ok / ok / ok / ok / {NO_VALUE} / traces 5",
        1, options="--opaque-samples",
    ),
    refused("torn floats", ("bad.sgy", TORN[:-1]), "L14 truncated trace 3", options="--opaque-samples"),
    case(
        "floats without traces", ("bad.sgy", TORN[:3600]),
        "totals ; slice 0 ; samples all 0 1 ; stat 1 ; count", f"{NO_VALUE} / {NO_VALUE} / {NO_VALUE} / refused E01 no trace 1 of 0 / traces 0",
        1, options="--opaque-samples",
    ),
]
UNKNOWN = [
    refused(f"format {form} under the option", damaged("s.sgy", f"3224 {form:04x}"), f"L08 unknown format {form}", options="--opaque-samples")
    for form in (0, 13, 14, 17, 255)
]

# ---- the order of bytes that is asked for
ORDERS = [
    case(
        "an order that the file tells", "t.sgy",
        "info",
        "info order little revision 2.0 format 7 samples 2 fixed yes extensions 0 blocks 0 trailer 0 traces 1 bytes 3846",
        options="--order little",
    ),
    saving(
        "the other one", "t.sgy",
        "info",
        "load refused L17 other byte order",
        3, options="--order big",
    ),
    case(
        "an order that no file tells", "untold.sgy",
        "info",
        "info order little revision 2.0 format 7 samples 2 fixed yes extensions 0 blocks 0 trailer 0 traces 1 bytes 3846",
        options="--order little",
    ),
    case(
        "and without it", "untold.sgy",
        "info",
        "load refused L08 unknown format 1792",
        3,
    ),
    case(
        "and with the other one", "untold.sgy",
        "info",
        "load refused L08 unknown format 1792",
        3, options="--order big",
    ),
    case(
        "the last order counts", "untold.sgy",
        "info",
        "info order little revision 2.0 format 7 samples 2 fixed yes extensions 0 blocks 0 trailer 0 traces 1 bytes 3846",
        options="--order big --order little",
    ),
    case(
        "a big-endian file that does not tell", "s.sgy",
        "info",
        "info order big revision 1.0 format 3 samples 2 fixed yes extensions 0 blocks 0 trailer 0 traces 3 bytes 4332",
        options="--order big",
    ),
    case(
        "swapped pairs, whatever is asked", damaged("s.sgy", "3296 02010403"),
        "info",
        "load refused L04 pair swapped",
        3, options="--order little",
    ),
    case(
        "the other order before the revision", damaged("t.sgy", "3500 03"),
        "info",
        "load refused L17 other byte order",
        3, options="--order big",
    ),
    case(
        "an edit of such a file: in its order", "untold.sgy",
        "set 1 inline 258",
        "ok",
        options="--order little", saved="3789 0 2; 3790 0 1",
    ),
]


@pytest.mark.parametrize("row", rows(EDITS + UNKNOWN + ORDERS))
def test_files(room, row):
    check(room, row)


def test_integers_under_the_option(room):
    name, _ = placed(room, "s.sgy")
    script = "sample 1 1\nstat 1\ntotals\nslice 0\nsamples all 0 1\npatch 1 0 9\ninfo\nfaults\n"
    plain = room.ask(name, script, "--out", "plain.sgy")
    ended = room.ask(name, script, "--opaque-samples", "--opaque-samples", "--out", "o.sgy")
    assert plain.answers.startswith(b"value -2\n")
    assert (ended.status, ended.answers) == (0, plain.answers)
    assert same(room.get("o.sgy"), room.get("plain.sgy"))
