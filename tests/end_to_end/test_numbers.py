"""Numbers of each size in both orders of bytes, the range of each kind and of samples of each format, and the names of fields; with values
worked by hand, and the places of names by the standard and by other tools."""

import pytest

from files import changed, content, in_order
from tables import case, check, rows

# the bytes 80 01 .. 07 at the begin of the first trace's header
EIGHT = "3600 8001020304050607"
BIG = "big.sgy", changed(content("s.sgy"), EIGHT)
LITTLE = "little.sgy", changed(content("t.sgy"), EIGHT)
READ = [
    case(
        "numbers of each size, the highest byte first", BIG,
        "get 1 @1:1 ; get 1 @1:2 ; get 1 @1:3 ; get 1 @1:4u ; get 1 @1:8",
        "value -128 / value -32767 / value -8388350 / value 2147549699 / value -9223088349902469625",
    ),
    case(
        "the lowest byte first", LITTLE,
        "get 1 @1:1u ; get 1 @1:2u ; get 1 @1:3u ; get 1 @1:4 ; get 1 @1:8u",
        "value 128 / value 384 / value 131456 / value 50463104 / value 506097522914230656",
    ),
]
# a number, its kind, and its bytes: each stands at another place
WRITTEN = {
    "s.sgy": [(65534, "2u", "fffe"), (-2, "3", "fffffe"), (-(1 << 63), "8", "8000000000000000")],
    "t.sgy": [(-1, "1", "ff"), (-8388608, "3", "000080"), (4294967294, "4u", "feffffff"), (18446744073709551614, "8u", "feffffffffffffff")],
}


@pytest.mark.parametrize("file", WRITTEN)
def test_numbers_written(room, file):
    numbers = list(enumerate(WRITTEN[file]))
    script = " ; ".join(f"set 1 @{1 + 8 * k}:{kind} {number}" for k, (number, kind, _) in numbers)
    saved = changed(content(file), *[f"{3600 + 8 * k} {digits}" for k, (_, _, digits) in numbers])
    check(room, case("written", file, script, " / ".join(["ok"] * len(numbers)), saved=saved))


# a kind, its least number and its greatest
RANGES = [
    ("1", -128, 127), ("1u", 0, 255), ("2", -32768, 32767), ("2u", 0, 65535), ("3", -8388608, 8388607), ("3u", 0, 16777215),
    ("4", -2147483648, 2147483647), ("4u", 0, 4294967295), ("8", -(1 << 63), (1 << 63) - 1), ("8u", 0, (1 << 64) - 1),
]
FITS = "ok / refused E04 does not fit / {0} / ok / refused E04 does not fit / {1}"


@pytest.mark.parametrize("kind, least, greatest", RANGES)
def test_range_of_a_kind(room, kind, least, greatest):
    place = f"@1:{kind}"
    lines = []
    for inside, outside in ((least, least - 1), (greatest, greatest + 1)):
        lines += [f"set 1 {place} {inside}", f"set 1 {place} {outside}", f"get 1 {place}"]
    check(room, case("range", "s.sgy", " ; ".join(lines), FITS.format(f"value {least}", f"value {greatest}"), 1))


# a code of the standard, the bytes of a sample, and whether it has a sign
CODES = [
    (2, 4, True), (3, 2, True), (7, 3, True), (8, 1, True), (9, 8, True), (10, 4, False), (11, 2, False), (12, 8, False), (15, 3, False),
    (16, 1, False),
]


@pytest.mark.parametrize("options", ["", "--floats --opaque-samples"], ids=["", "under options that it does not need"])
@pytest.mark.parametrize("code, width, signed", CODES)
def test_range_of_samples(room, code, width, signed, options):
    half = 1 << 8 * width - 1
    least, greatest = (-half, half - 1) if signed else (0, 2 * half - 1)
    lines = [f"patch 1 0 {least}", f"patch 1 0 {least - 1}", f"patch 1 1 {greatest}", f"patch 1 1 {greatest + 1}", "info"]
    made = changed(content("none.sgy"), f"3224 {in_order('big', code, 2)}") + bytes(240 + 2 * width)
    saved = made[:3840] + b"".join(number.to_bytes(width, "big", signed=signed) for number in (least, greatest))
    info = f"info order big revision 1.0 format {code} samples 2 fixed yes extensions 0 blocks 0 trailer 0 traces 1 bytes {len(made)}"
    answers = f"ok / refused E04 does not fit / ok / refused E04 does not fit / {info}"
    check(room, case("range", ("format.sgy", made), " ; ".join(lines), answers, 1, saved=saved, options=options))


# ---- names, and where they stand
NAMES = {
    "sequence_line": "1:4", "samples": "115:2u", "shotpoint_scalar": "201:2", "ext_count": "1.157:2u", "delay": "109:2", "total_static": "103:2",
    "source_energy_inline": "223:2", "ext_sequence_line": "1.1:8u", "ext_last_trace": "1.159:2", "tstat": "103:2", "ns": "115:2u",
    "otrav": "179:2", "TotalStaticApplied": "103:2", "INLINE_3D": "189:4", "inline_3d": "189:4", "Inline_3D": "189:4", "UnassignedInt2": "237:4",
}
NONE = ["TSTAT", "Delay", "Total_Static", "tsta", "sequence_lin", "job", "d1"]
BINARY = {"interval": "3217:2u", "trailer": "3529:4"}
UNLIKE = bytes(range(1, 241))
# each byte of both headers of its trace is another, but those that tell how long it is
OTHERS = "x.sgy", changed(
    content("x.sgy"), f"3600 {UNLIKE.hex()}", "3714 0002", f"3840 {UNLIKE[::-1].hex()}", "3976 00000000", "3996 0001", "3216 8001",
)


def number(header, place):
    """The number at a place of the form BYTE:SIZE, with a u behind it where it has no sign."""
    byte, _, size = place.rpartition(".")[2].partition(":")
    first, count = int(byte) - 1, int(size.rstrip("u"))
    return int.from_bytes(header[first:first + count], "big", signed=not size.endswith("u"))


@pytest.mark.parametrize("name", NAMES)
def test_the_place_of_a_name(room, name):
    place = NAMES[name]
    header = OTHERS[1][3840:4080] if place.startswith("1.") else OTHERS[1][3600:3840]
    told = f"value {number(header, place)}"
    check(room, case(name, OTHERS, f"get 1 {name} ; get 1 @{place}", f"{told} / {told}"))


NOWHERE = [
    case("what is no name", "x.sgy", " ; ".join(f"get 1 {name}" for name in NONE), " / ".join(["refused E02 no field"] * len(NONE)), 1),
    case(
        "names of the binary header", OTHERS,
        "getbin interval ; getbin @3217:2u ; getbin trailer ; getbin @3529:4", "value 32769 / value 32769 / value 0 / value 0",
    ),
    case(
        "what is no name of the binary header", "x.sgy", "getbin delay ; getbin ns ; getbin total_static ; getbin inline",
        " / ".join(["refused E02 no field"] * 4), 1,
    ),
]


@pytest.mark.parametrize("row", rows(READ + NOWHERE))
def test_numbers(room, row):
    check(room, row)
