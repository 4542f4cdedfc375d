"""Edits, queries and refusals whose values are worked by hand, over small files: what is refused first, the bytes of samples and of whole
traces, what records say under scalars and names, samples of each format in both orders, heads of every revision, and lines of a script. The
small survey has inline 10, crosslines 21, 22 and 23, and the samples 1 and -2, 3 and 4, and -5 and 6."""

import pytest

from files import changed, content, damaged, in_order
from tables import ABSENT, SAME, case, check, refused, rows, saving

# 2 ^ 100
FAR = 1 << 100
ASCII = "ascii.sgy", bytes(3200) + content("s.sgy")[3200:]

# ---- of several reasons the first one is told, and nothing is changed
FIRST = [
    case(
        "the first refusal of a set", "s.sgy",
        f"set 0 @0:5 {FAR} ; set 4 @1:4 0 ; set 1 @0:4 {FAR} ; set 1 @1:5 0 ; set 1 @238:4 0 ; set 1 @1.1:4 0 ; set 1 @1:2 32768 ; "
        "set 1 @1:2 -32769 ; get 4 @0:4 ; get 3 @0:4",
        "refused E01 no trace 0 of 3 / refused E01 no trace 4 of 3 / refused E03 no place / refused E03 no place / refused E03 no place / "
        "refused E03 no place / refused E04 does not fit / refused E04 does not fit / refused E01 no trace 4 of 3 / refused E03 no place",
        1, saved=SAME,
    ),
    case(
        "the first refusal by a name", "s.sgy",
        "get 0 nothing ; get 1 nothing ; set 4 nothing 7 ; set 2 nothing 7 ; set 1 ext_count 1 ; map mine nothing ; get 2 mine",
        "refused E01 no trace 0 of 3 / refused E02 no field / refused E01 no trace 4 of 3 / refused E02 no field / refused E03 no place / "
        "refused E02 no field / refused E02 no field",
        1, saved=SAME,
    ),
    case(
        "the first refusal of a sample", "s.sgy",
        "sample 1 2 ; sample 1 9 ; sample 4 9 ; sample 3 0",
        "refused E05 no sample 2 of 2 / refused E05 no sample 9 of 2 / refused E01 no trace 4 of 3 / value -5",
        1, saved=SAME,
    ),
    case(
        "the first refusal in the binary header", "s.sgy",
        f"bin @3200:2 1 ; bin @3600:2 1 ; bin @1.3217:2 1 ; bin @3225:2 {FAR} ; bin @3225:2 2 ; bin @3494:8 0 ; bin inline 1 ; getbin inline",
        "refused E03 no place / refused E03 no place / refused E03 no place / refused E04 does not fit / refused E06 frame / "
        "refused E06 frame / refused E02 no field / refused E02 no field",
        1, saved=SAME,
    ),
    case(
        "the first refusal of a line", ASCII,
        "text 41 C ; text 1 C 1 \\ ; line 1 1 ; line 0 0 ; code 1 ; stanzas",
        "refused E03 no place / refused E07 T02 no code for column 5 / refused E03 no place / refused E03 no place / refused E03 no place / "
        "stanzas 0",
        1, saved=SAME,
    ),
    case(
        "the first refusal of values", "s.sgy",
        "patch 4 9 0 32768 ; patch 1 9 0 32768 ; patch 1 0 -32769 ; patch 1 1 0 0 ; patch 1 4294967295 0",
        "refused E01 no trace 4 of 3 / refused E04 does not fit / refused E04 does not fit / refused E05 no sample 2 of 2 / "
        "refused E05 no sample 4294967295 of 2",
        1, saved=SAME,
    ),
    case(
        "the first refusal of whole traces", "s.sgy",
        "blank 0 ; copy 1 0 ; blank 5 ; copy 3 5 ; copy 4 5 ; move 0 5 ; move 1 0 ; move 4 5 ; move 1 4",
        "refused E01 no trace 0 of 3 / refused E01 no trace 0 of 3 / refused E01 no trace 5 of 3 / refused E01 no trace 5 of 3 / "
        "refused E01 no trace 4 of 3 / refused E01 no trace 0 of 3 / refused E01 no trace 0 of 3 / refused E01 no trace 4 of 3 / "
        "refused E01 no trace 4 of 3",
        1, saved=SAME,
    ),
]

# ---- edits and what is there behind them
TABLE = "table all crossline"
INFO = "info order big revision 1.0 format 3 samples 2 fixed yes extensions 0 blocks 0 trailer 0 traces"
EDITS = [
    saving(
        "a name that is bound where another stands", "s.sgy",
        "map mine inline ; set 2 inline 7 ; get 2 mine ; get 2 inline_number ; get 1 mine",
        "ok / ok / value 7 / value 7 / value 10",
        saved="4036 12 7",
    ),
    saving(
        "the last line of the text, and the last bytes of the binary header", "s.sgy",
        f"text 40 {'C' * 80} ; bin @3599:2u 1543",
        "ok / ok",
        saved=content("s.sgy")[:3120] + b"\xc3" * 80 + content("s.sgy")[3200:3598] + b"\6\7" + content("s.sgy")[3600:],
    ),
    saving(
        "bytes beside the number of samples", "v.sgy",
        "set 2 @113:4 2 ; set 2 @113:4 4",
        "ok / refused E06 frame",
        1, saved="3962 0 2",
    ),
    saving(
        "numbers in a header extension", "deep.sgy",
        "set 1 @2.1:2 -2 ; get 1 @2.1:2 ; get 1 @2.1:2u ; get 1 @1.157:2u ; get 1 @3.1:2 ; sample 1 1 ; samples 1 1 0 9",
        "ok / value -2 / value 65534 / value 2 / refused E03 no place / value 2 / samples 1 / 1 1 2",
        1, saved="4081 0 377; 4082 0 376",
    ),
    saving(
        "values over samples", "s.sgy",
        "patch 2 1 -7 ; patch 3 0 32767 -32768 ; sample 2 0 ; sample 2 1 ; sample 3 1",
        "ok / ok / value 3 / value -7 / value -32768",
        saved="4087 0 377; 4088 4 371; 4329 377 177; 4330 373 377; 4331 0 200; 4332 6 0",
    ),
    saving(
        "statistics after a patch, and after a set in the headers of its trace", "s.sgy",
        "patch 2 1 100 ; set 2 x 7 ; stat 2 ; totals",
        "ok / ok / stat least 3 greatest 100 sum 103 samples 2 / totals least -5 greatest 100 sum 103 samples 6",
    ),
    saving(
        "blank traces behind all, and between", "s.sgy",
        f"blank 4 ; blank 2 ; {TABLE} ; sample 2 1 ; info",
        f"ok / ok / table 5 / 1 21 / 2 0 / 3 22 / 4 23 / 5 0 / value 0 / {INFO} 5 bytes 4820",
    ),
    saving(
        "traces taken out", "s.sgy",
        f"delete 2 ; info ; {TABLE} ; delete 3 ; delete 1 ; delete 1 ; info ; blank 1 ; {TABLE}",
        f"ok / {INFO} 2 bytes 4088 / table 2 / 1 21 / 2 23 / refused E01 no trace 3 of 2 / ok / ok / {INFO} 0 bytes 3600 / ok / table 1 / 1 0",
        1,
    ),
    saving(
        "traces moved", "s.sgy",
        f"move 1 3 ; {TABLE} ; move 3 2 ; {TABLE} ; move 2 2 ; {TABLE}",
        "ok / table 3 / 1 22 / 2 23 / 3 21 / ok / table 3 / 1 22 / 2 21 / 3 23 / ok / table 3 / 1 22 / 2 21 / 3 23",
    ),
    saving(
        "copies with the edits of their traces", "s.sgy",
        f"set 2 inline 7 ; patch 2 0 5 6 ; copy 2 1 ; table all inline crossline ; sample 1 1 ; copy 4 5 ; {TABLE}",
        "ok / ok / ok / table 4 / 1 7 22 / 2 10 21 / 3 7 22 / 4 10 23 / value 6 / ok / table 5 / 1 22 / 2 21 / 3 22 / 4 23 / 5 23",
    ),
    saving(
        "later edits of a copy, and of what was copied", "s.sgy",
        "copy 2 1 ; set 1 inline 8 ; patch 3 1 9 ; table all inline ; sample 1 1 ; sample 3 1",
        "ok / ok / ok / table 4 / 1 8 / 2 10 / 3 10 / 4 10 / value 4 / value 9",
    ),
    saving(
        "traces chosen by their samples and a number that stands beside, or in the trace alone", "s.sgy",
        "count all where sample_least < 0 and crossline >= 0 ; count all where sample_least < 0 and @71:2 >= 0 ; "
        "fill all 0 1 5 where crossline >= 22 ; count all where sample_least < 0 and crossline >= 0 ; "
        "count all where sample_least < 0 and @71:2 >= 0",
        "chosen 2 / chosen 2 / ok 2 / chosen 1 / chosen 1",
    ),
]

# ---- many values over the 4000 samples of a trace
LONG = changed(content("none.sgy"), "3220 0fa0") + bytes(8240)


@pytest.mark.parametrize("first, count", [(10, 65), (0, 4000)])
def test_many_values_over_samples(room, first, count):
    at = 3840 + 2 * first
    saved = LONG[:at] + b"\1\2" * count + LONG[at + 2 * count:]
    check(room, saving("many values", ("long.sgy", LONG), f"patch 1 {first}" + " 258" * count, "ok", saved=saved))


# ---- a number under a scalar: the value, the scalar, and what geometry tells
SCALED = [
    (3, 100, "300"), (250, -100, "5/2"), (-250, -100, "-5/2"), (40, 0, "40"), (40, 1, "40"), (40, -1, "40"), (0, -100, "0"),
    (-7, -10000, "-7/10000"), (-2147483648, -32768, "-65536"), (500, -32768, "125/8192"), (2147483647, 32767, "70366596661249"),
]
# bytes 233-240 as a number
PLAIN, EBCDIC = int.from_bytes(b"SEG00000", "big"), 0xE2C5C7F0F0F0F0F0
RECORDS = [
    saving(
        "coordinates under scalars", "s.sgy",
        " ; ".join(f"set 1 x {value} ; set 1 y {value} ; set 1 scalar {scalar} ; geometry 1" for value, scalar, _ in SCALED),
        " / ".join(f"ok / ok / ok / geometry inline 10 crossline 21 offset 100 x {told} y {told}" for _, _, told in SCALED),
    ),
    saving(
        "coordinates are compared by their values", "s.sgy",
        "set 1 x 40 ; set 2 scalar -10 ; set 2 x 399 ; set 3 scalar -100 ; set 3 x -250 ; range x ; delete 3 ; range x ; set 2 x 400 ; range x",
        "ok / ok / ok / ok / ok / range -5/2 40 / ok / range 399/10 40 / ok / range 40 40",
    ),
    saving(
        "headers by a name that is bound anew, and what is wrong with them", "loose.sgy",
        "map inline @9:2 ; set 1 @9:2 -5 ; set 1 scalar -100 ; set 1 @89:2 -1 ; set 1 @115:2u 65535 ; geometry 1 ; faults",
        "ok / ok / ok / ok / ok / geometry inline -5 crossline 21 offset 100 x 10 y 5 / faults 3 / F2 trace 1 field 65535 samples 2 / "
        "F5 trace 2 units 0 first -1 / F5 trace 3 units 0 first -1",
        options="--fixed",
    ),
    saving(
        "the name of a plain trace, in both codes", "x.sgy",
        "copy 1 2 ; copy 1 3 ; renumber 1 3 @5:4 1 1 ; renumber 1 3 crossline 1 1 ; faults ; "
        f"set 1 @233:8u {PLAIN} ; set 2 @233:8u {EBCDIC} ; set 3 @233:8u {PLAIN + 2} ; faults ; set 3 @233:8u {PLAIN + 1} ; faults",
        "ok / ok / ok / ok / faults 0 / ok / ok / ok / faults 1 / F9 trace 3 name / ok / faults 1 / F9 trace 3 name",
    ),
]

# ---- the bytes 80 00 .. 00 01 FF as samples: an order, a code of the standard, how many they are, the first one and the last; those
# between are 0
WIDE = bytes.fromhex("80") + bytes(21) + bytes.fromhex("01ff")
FORMATS = [
    ("big", 3, 12, -32768, 511), ("little", 3, 12, 128, -255), ("big", 11, 12, 32768, 511), ("little", 11, 12, 128, 65281),
    ("big", 7, 8, -8388608, 511), ("little", 7, 8, 128, -65280), ("big", 15, 8, 8388608, 511), ("little", 15, 8, 128, 0xFF0100),
    ("big", 2, 6, -0x80000000, 511), ("little", 2, 6, 128, -16711680), ("big", 10, 6, 0x80000000, 511), ("little", 10, 6, 128, 0xFF010000),
    ("big", 9, 3, -(1 << 63), 511), ("little", 9, 3, 128, -(0xFF << 48)), ("big", 12, 3, 1 << 63, 511), ("little", 12, 3, 128, 0xFF01 << 48),
]


def of_format(order, code, samples, data):
    """A file of one trace with so many samples."""
    heads = [f"3220 {in_order(order, samples, 2)}", f"3224 {in_order(order, code, 2)}", f"3502 {in_order(order, 1, 2)}"]
    return "format.sgy", changed(content("none.sgy"), *heads) + bytes(240) + data


@pytest.mark.parametrize("order, code, samples, first, last", FORMATS)
def test_samples_of_each_format(room, order, code, samples, first, last):
    told = f"stat least {min(first, last, 0)} greatest {max(first, last, 0)} sum {first + last} samples {samples}"
    script, answers = f"stat 1 ; sample 1 0 ; sample 1 {samples - 1}", f"{told} / value {first} / value {last}"
    check(room, case("each", of_format(order, code, samples, WIDE), script, answers, options=f"--order {order}"))


SAMPLES = [
    case(
        "samples of a byte with a sign", of_format("big", 8, 3, b"\x80\1\xff"),
        "stat 1", "stat least -128 greatest 1 sum -128 samples 3",
    ),
    case(
        "samples of a byte without one", of_format("little", 16, 3, b"\x80\1\xff"),
        "stat 1", "stat least 1 greatest 255 sum 384 samples 3", options="--order little",
    ),
    case(
        "values laid over a part of a thousand samples", of_format("big", 7, 1000, b"\xff" + bytes(2998) + b"\5"),
        "stat 1 ; patch 1 512 8388607 -8388608 ; stat 1",
        "stat least -65536 greatest 5 sum -65531 samples 1000 / ok / stat least -8388608 greatest 8388607 sum -65532 samples 1000",
    ),
]

# ---- heads: one sample a trace, of four bytes or of eight, which has no value; revision 0, where bytes 3503-3532 do not count, and the wide
# number of samples neither; and which fault of two is told
ONE = "3220 0001"
HEADS = [
    *[
        case(f"opaque samples of format {code}", damaged("s.sgy", ONE, f"3224 000{code}"), "count", "traces 3", options="--opaque-samples")
        for code in (1, 4, 5)
    ],
    *[
        refused(
            f"and a byte less of format {code}", ("bad.sgy", changed(content("s.sgy"), ONE, f"3224 000{code}")[:-1]), "L14 truncated trace 3",
            options="--opaque-samples",
        )
        for code in (1, 4, 5)
    ],
    case(
        "opaque samples of format 6", ("bad.sgy", changed(content("s.sgy"), ONE, "3224 0006")[:4096]), "count", "traces 2",
        options="--opaque-samples",
    ),
    refused(
        "and a byte less of format 6", ("bad.sgy", changed(content("s.sgy"), ONE, "3224 0006")[:4095]), "L14 truncated trace 2",
        options="--opaque-samples",
    ),
    case(
        "header extensions under the reading fixed", "deep.sgy", "info",
        "info order big revision 2.0 format 3 samples 2 fixed yes extensions 3 blocks 0 trailer 0 traces 1 bytes 4324", options="--fixed",
    ),
    case(
        "two text headers that are counted", damaged("ended.sgy", "3504 0002"), "info",
        "info order big revision 1.0 format 3 samples 2 fixed yes extensions 0 blocks 2 trailer 0 traces 3 bytes 10732",
    ),
    case(
        "revision 0.7, where a wide number of samples does not count", damaged("s.sgy", "3268 00000009", "3500 0007"), "info",
        "info order big revision 0.7 format 3 samples 2 fixed no extensions 0 blocks 0 trailer 0 traces 3 bytes 4332",
    ),
    # the second trace would end 4 bytes behind the file, the 29th in the trailer, and the first has 8224 samples of blanks
    refused("header extensions of revision 0.7 are traces", damaged("x.sgy", "3500 0007"), "L14 truncated trace 2"),
    refused("a trailer of revision 0.7 is traces", damaged("tail.sgy", "3500 0007"), "L14 truncated trace 29"),
    refused("texts of revision 0.7 are traces", damaged("ended.sgy", "3500 0007"), "L14 truncated trace 1"),
    # the number of samples in the header and in its extension: 256 of them, and as many as 32 bits hold
    case(
        "the number of samples of a trace in its own header", ("own.sgy", changed(content("deep.sgy"), "3714 0100", "4830 0000")), "stat 1",
        "stat least 0 greatest 2 sum 3 samples 256",
    ),
    refused("and in its extension", damaged("deep.sgy", "3714 0100", "3976 ffffffff"), "L14 truncated trace 1"),
    refused(
        "a torn header is told before the number of its extensions", ("bad.sgy", changed(content("x.sgy"), "3996 0002")[:4079]),
        "L14 truncated trace 1",
    ),
    refused(
        "and that number before torn samples", ("bad.sgy", changed(content("x.sgy"), "3996 0002")[:4080]),
        "L13 extension count trace 1",
    ),
]

# ---- lines of a script: each is a command, or why it is none
WORD, WORDS, NUMBER, TEXT = "refused S01 unknown word", "refused S02 words", "refused S03 number", "refused S04 not text"


def told(name, *pairs, **more):
    """A row of lines, each with its answer."""
    script = b"".join(line + b"\n" for line, _ in pairs)
    return case(name, "s.sgy", script, " / ".join(answer for _, answer in pairs), 1, **more)


LINES = [
    told(
        "blanks, leading zeros and the greatest numbers",
        (b"\tset\t007  @1.157:2u -2 ", "refused E01 no trace 7 of 3"), (b"get 4294967295 @0:255", "refused E01 no trace 4294967295 of 3"),
        (b"geometry 4294967295", "refused E01 no trace 4294967295 of 3"), (b"get 2 @189:4\r", "value 10"),
        (b"fold 10 -1", "fold 0"), (b"compute 1 3 @1:4 -7 + -5 / offset", "ok"), (b"get 1 @1:4", "value -1"),
    ),
    told(
        "lines that are no commands",
        (b"sett 1 @1:4 7", WORD), (b"get\r 1 @1:4", WORD), (b"set 1 @1:4", WORDS), (b"get 1 @1:4 7", WORDS), (b"set a @1:4 b", NUMBER),
        (b"set 1 inline x", NUMBER), (b"map mine 233:8", NUMBER), (b"unmap", WORDS), (b"set 1 @1:4 +7", NUMBER),
        (b"get 4294967296 @1:4", NUMBER), (b"get 1 @65536:4", NUMBER), (b"get 1 @1:256", NUMBER),
        (b"set 1 @1:4 170141183460469231731687303715884105728", NUMBER), (b"# \xff", TEXT), (b"grids", WORD), (b"grid 1", WORDS),
        (b"geometry", WORDS), (b"fold a", WORDS), (b"fold 1 a", NUMBER), (b"range z", NUMBER), (b"slice 4294967296", NUMBER),
    ),
    told(
        "lines about headers that are no commands",
        (b"table 1 3", WORDS), (b"table 1 1" + b" a" * 64 + b" @1", WORDS), (b"table 1 3 @1 sx", NUMBER), (b"find 1 3 offset 1", WORDS),
        (b"find 1 3 offset 1 x", NUMBER), (b"header", WORDS), (b"extremes 1", WORDS), (b"extremes 1 x", NUMBER), (b"lines -1", NUMBER),
        (b"compute 1 3 sx", WORDS), (b"compute 1 3 sx 5x +", WORDS), (b"compute 1 1 sx 0" + b" + 1" * 9, WORDS),
        (b"compute 1 3 sx 5x", NUMBER), (b"compute 1 3 sx +5", NUMBER), (b"compute 1 3 sx 1 ^ 2", NUMBER), (b"compute 1 3 @1 1", NUMBER),
        (b"sort 1 3", WORDS), (b"sort 1 3 a b c d e f g h i", WORDS), (b"sort 1 3 inline -@189", NUMBER),
    ),
    case(
        "notes, empty lines, refusals, and a last line without a line feed", "s.sgy",
        b"# note\n\nget 3 @5:4\nget 4 @5:4\nset 1 @189:2 65536\nset 1 @240:2 0\nsett\nset 1\nget 1 x\n\xc3\nset 1 @37:4 -1",
        f"value 3 / refused E01 no trace 4 of 3 / refused E04 does not fit / refused E03 no place / {WORD} / {WORDS} / value 1000 / {TEXT} / ok",
        1, saved="3637 0 377; 3638 0 377; 3639 0 377; 3640 144 377",
    ),
    case(
        "the same, and a stop", "s.sgy",
        b"# note\n\nget 3 @5:4\nget 4 @5:4\nset 1 @189:2 65536\n", "value 3 / refused E01 no trace 4 of 3", 1, options="--stop", saved=ABSENT,
    ),
    saving(
        "reports of one thing", "s.sgy",
        "set 1 scalar -32768 ; set 1 x -2147483648 ; set 1 crossline -21 ; geometry 1 ; stat 1 ; fold 10 -21 ; fold 10 -22 ; range x ; "
        "range y ; totals",
        "ok / ok / ok / geometry inline 10 crossline -21 offset 100 x -65536 y 125/8192 / stat least -2 greatest 1 sum -1 samples 2 / "
        "fold 1 / fold 0 / range -65536 3000 / range 125/8192 500 / totals least -5 greatest 6 sum 7 samples 6",
    ),
    saving(
        "reports that are lists", "s.sgy",
        "set 1 crossline -21 ; set 3 crossline 22 ; grid ; inlines ; crosslines ; histogram ; slice 1 ; slice 2",
        "ok / ok / cells 2 / cell 10 -21 1 / cell 10 22 2 / inlines 1 / inline 10 3 / crosslines 2 / crossline -21 1 / crossline 22 2 / "
        "histogram 2 / times 1 1 / times 2 1 / slice 3 / row 10 -21 1 -2 / row 10 22 2 4 / row 10 22 3 6 / slice 0",
    ),
]


@pytest.mark.parametrize("row", rows(FIRST + EDITS + RECORDS + SAMPLES + HEADS + LINES))
def test_worked(room, row):
    check(room, row)
