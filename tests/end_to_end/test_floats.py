"""The values of float samples. Each expected text and pattern comes from the standard's section and IEEE 754, by exact fractions
(python/tests/float_words.py), and none from the program."""

import re
from dataclasses import replace

import pytest

from files import changed, damaged, float_line, in_order
from running import same
from tables import SAME, case, check, check_saved, placed, refused, rows

ZEROS = {1: "00000000", 5: "00000000", 6: "0000000000000000"}
OPAQUE = "segywb: with --opaque-samples the file is read all the same, its samples as bytes without a value"
HINT = "segywb: with --floats the file is read, its samples with their values; with --opaque-samples as bytes without a value"

# what samples say: a pattern, the word that is printed for it, and the pattern that this word is patched to, where it is another (SAYS);
# what is patched: a word, the pattern that it becomes and the word that is printed then, or E04 (PATCHED); the samples of a trace, and
# what is told of them: the sum is exact, and rounded once (STATS)
SAYS = {
    1: """
        00000000 0; 80000000 -0; 41100000 1; c276a000 -118.625; 4019999a 0.10000002384185791; 00000001 5.147557589468029e-85
        80000001 -5.147557589468029e-85; 00100000 5.397605346934028e-79; 7fffffff 7.2370051459731155e75
        ffffffff -7.2370051459731155e75; 42010000 1 41100000; 45000001 0.0625 40100000; c1000000 -0 80000000; 7f000000 0 00000000
        41000001 9.5367431640625e-7 3c100000; 4e20c49c 9223373548683264.0; 42640000 100; 3c999999 9.155272891803179e-6
    """,
    5: """
        00000000 0; 80000000 -0; 3f800000 1; c2ed4000 -118.625; 3dcccccd 0.1; 00000001 1e-45; 80000001 -1e-45; 007fffff 1.1754942e-38
        00800000 1.1754944e-38; 7f7fffff 3.4028235e38; ff7fffff -3.4028235e38; 7f800000 inf; ff800000 -inf; 7fc00000 nan
        7f800001 nan 7fc00000; ffffffff nan 7fc00000; 4ceb79a3 123456790; 5a000000 9.007199e15; 53693fe3 1001799200000
        5368d4a5 1000000000000; 358637bd 0.000001; 33d6bf95 1e-7; c9f423fe -1999999.8
    """,
    6: """
        0000000000000000 0; 8000000000000000 -0; 3ff0000000000000 1; c05da80000000000 -118.625; 3fb999999999999a 0.1
        0000000000000001 5e-324; 8000000000000001 -5e-324; 000fffffffffffff 2.225073858507201e-308
        0010000000000000 2.2250738585072014e-308; 7fefffffffffffff 1.7976931348623157e308; ffefffffffffffff -1.7976931348623157e308
        7ff0000000000000 inf; fff0000000000000 -inf; 7ff8000000000000 nan; 7ff0000000000001 nan 7ff8000000000000
        ffffffffffffffff nan 7ff8000000000000; 4340000000000000 9007199254740992; 4340000000000001 9007199254740994.0
        4341c37937e08000 1e16; 3eb0c6f7a0b5ed8d 1e-6; 3f1a36e2eb1c432d 0.0001; 3ee4f8b588e368f1 0.00001; 405edd2f1a9fbe77 123.456
    """,
}

PATCHED = {
    1: """
        0 00000000 0; -0 80000000 -0; 1 41100000 1; -118.625 c276a000 -118.625; 0.1 4019999a 0.10000002384185791; .5 40800000 0.5
        1. 41100000 1; 1e2 42640000 100; 1E+2 42640000 100; 100e-2 41100000 1; 00012.50 41c80000 12.5; -.25e1 c1280000 -2.5
        1.00000011920928955078125 41100000 1; 0.99999999 41100000 1; 16777215.5 47100000 16777216; 123456789 4775bcd1 123456784
        7.2370051459731155e75 7fffffff 7.2370051459731155e75; 7.23700536e75 7fffffff 7.2370051459731155e75; -7.2370055e75 E04
        1e76 E04; nan E04; inf E04; -inf E04; 5.147557589468029e-85 00000001 5.147557589468029e-85; 2.5e-85 00000000 0
        3e-85 00000001 5.147557589468029e-85; -1e-300 80000000 -0; 1e-9999999999 00000000 0; 1.5e-79 00047248 1.4999982815709836e-79
        1e99999999999999999999 E04; 0e99999999999999999999 00000000 0; 1.0000004768371582 41100000 1
        1.0000014305114746 41100001 1.0000009536743164; 1.000000476837158203125 41100000 1
        1.0000004768371582031250000000000001 41100001 1.0000009536743164; 1.0000004768371582031249999999999999 41100000 1
        -1.0000004768371582031250000000000001 c1100001 -1.0000009536743164; -1.0000004768371582031249999999999999 c1100000 -1
        1.000001430511474609375 41100002 1.0000019073486328; 1.0000014305114746093749999999999999 41100001 1.0000009536743164
        -100.00014305114746093750000000000001E-2 c1100002 -1.0000019073486328
        -10000014305114746093749999999999999e-34 c1100001 -1.0000009536743164
        2.5737787947340144590694760867358444843041897906173114135932038635517930397875389629517517994261646945955000203687398623219117817124223550241151463321024402304548761577507320907898247241973876953125e-85 00000000 0
        2.573778794734014459069476086735844484304189790617311413593203863551793039787538962951751799426164694595500020368739862321911781712422355024115146332102440230454876157750732090789824724197387695312500001e-85 00000001 5.147557589468029e-85
        -2.573778794734014459069476086735844484304189790617311413593203863551793039787538962951751799426164694595500020368739862321911781712422355024115146332102440230454876157750732090789824724197387695312500001E-085 80000001 -5.147557589468029e-85
        1e-79 0002f6db 1.0000005702331856e-79
        7237005361652688876768068205706873544672328652505379872141519151665688608767 7fffffff 7.2370051459731155e75
        -7237005361652688876768068205706873544672328652505379872141519151665688608767.9 ffffffff -7.2370051459731155e75
        7237005361652688876768068205706873544672328652505379872141519151665688608768 E04
        -7237005361652688876768068205706873544672328652505379872141519151665688608768 E04
    """,
    5: """
        0 00000000 0; -0 80000000 -0; 1 3f800000 1; -118.625 c2ed4000 -118.625; 0.1 3dcccccd 0.1; .5 3f000000 0.5; 1. 3f800000 1
        1e2 42c80000 100; 1E+2 42c80000 100; 100e-2 3f800000 1; 00012.50 41480000 12.5; -.25e1 c0200000 -2.5; nan 7fc00000 nan
        inf 7f800000 inf; -inf ff800000 -inf; 123456792 4ceb79a3 123456790; 123456788 4ceb79a2 123456780
        1.00000005960464477539062500000001 3f800001 1.0000001; 1.000000059604644775390625 3f800000 1
        1.000000178813934326171875 3f800002 1.0000002; 3.4028234663852886e38 7f7fffff 3.4028235e38
        3.4028235677973366e38 7f7fffff 3.4028235e38; -3.4028235677973366e38 ff7fffff -3.4028235e38
        340282356779733661637539395458142568448 E04; -3.4028235677973367e38 E04; 1e39 E04; 1e-45 00000001 1e-45; 0.7e-45 00000000 0
        0.8e-45 00000001 1e-45; -1e-46 80000000 -0; 1e-9999999999 00000000 0; 1.1754943508222875e-38 00800000 1.1754944e-38
        16777217 4b800000 16777216; 16777219 4b800002 16777220; 1e99999999999999999999 E04
    """,
    6: """
        0 0000000000000000 0; -0 8000000000000000 -0; 1 3ff0000000000000 1; -118.625 c05da80000000000 -118.625
        0.1 3fb999999999999a 0.1; .5 3fe0000000000000 0.5; 1. 3ff0000000000000 1; 1e2 4059000000000000 100; 1E+2 4059000000000000 100
        100e-2 3ff0000000000000 1; 00012.50 4029000000000000 12.5; -.25e1 c004000000000000 -2.5; nan 7ff8000000000000 nan
        inf 7ff0000000000000 inf; -inf fff0000000000000 -inf; 9007199254740993 4340000000000000 9007199254740992
        9007199254740995 4340000000000002 9007199254740996.0
        9007199254740993.00000000000000000000000000000000000000000000000001 4340000000000001 9007199254740994.0
        1.7976931348623157e308 7fefffffffffffff 1.7976931348623157e308
        1.797693134862315807e308 7fefffffffffffff 1.7976931348623157e308; -1.797693134862315808e308 E04; 1e309 E04; -1e400 E04
        5e-324 0000000000000001 5e-324; 2.4703282292062327e-324 0000000000000000 0; 2.4703282292062328e-324 0000000000000001 5e-324
        -2e-324 8000000000000000 -0; 2.2250738585072011e-308 000fffffffffffff 2.225073858507201e-308
        0.1000000000000000055511151231257827 3fb999999999999a 0.1
        123456789012345678901234567890 45f8ee90ff6c373e 1.2345678901234568e29; 1e23 44b52d02c7e14af6 1e23
        8.5e22 44b1ffdbf6b2b2eb 8.5e22; 1e-99999999999999999999 0000000000000000 0
    """,
}

STATS = {
    1: """
        4019999a,40333333,404ccccd stat least 0.10000002384185791 greatest 0.30000001192092896 sum 0.6000000238418579 samples 3 nans 0
        7fffffff,7fffffff,41100000 stat least 1 greatest 7.2370051459731155e75 sum 1.4474010291946231e76 samples 3 nans 0
        00000001,c1100000 stat least -1 greatest 5.147557589468029e-85 sum -1 samples 2 nans 0
        42640000,c276a000 stat least -118.625 greatest 100 sum -18.625 samples 2 nans 0
        7b172ebb,41100000,fb172ebb stat least -1.000000105758837e70 greatest 1.000000105758837e70 sum 1 samples 3 nans 0
        80000000 stat least -0 greatest -0 sum 0 samples 1 nans 0
        80000000,00000000 stat least -0 greatest 0 sum 0 samples 2 nans 0
        - stat none
        4019999a,c019999a stat least -0.10000002384185791 greatest 0.10000002384185791 sum 0 samples 2 nans 0
        46ffffff,46ffffff,06b0af49 stat least 1.0000000065866659e-70 greatest 16777215 sum 33554430 samples 3 nans 0
        42010000,41080000,c2000000 stat least -0 greatest 1 sum 1.5 samples 3 nans 0
    """,
    5: """
        3dcccccd,3e4ccccd,3e99999a stat least 0.1 greatest 0.3 sum 0.6000000163912773 samples 3 nans 0
        7f7fffff,7f7fffff stat least 3.4028235e38 greatest 3.4028235e38 sum 6.805646932770577e38 samples 2 nans 0
        00000001,80000001,00000001 stat least -1e-45 greatest 1e-45 sum 1.401298464324817e-45 samples 3 nans 0
        4b800000,3f800000,3f800000,3f800000 stat least 1 greatest 16777216 sum 16777219 samples 4 nans 0
        7149f2ca,3f800000,f149f2ca stat least -1e30 greatest 1e30 sum 1 samples 3 nans 0
        7fc00000,3f800000,c2ed4000 stat least -118.625 greatest 1 sum -117.625 samples 3 nans 1
        ffc00001 stat least none greatest none sum none samples 1 nans 1
        7f800000,7fc00000,40000000 stat least 2 greatest inf sum inf samples 3 nans 1
        ff800000,7f800000 stat least -inf greatest inf sum nan samples 2 nans 0
        ff800000,40a00000 stat least -inf greatest 5 sum -inf samples 2 nans 0
        00000000,80000000 stat least -0 greatest 0 sum 0 samples 2 nans 0
        80000000 stat least -0 greatest -0 sum 0 samples 1 nans 0
        - stat none
        7e967699,3f800000,fe967699,000116c2 stat least -1e38 greatest 1e38 sum 1 samples 4 nans 0
        4ceb79a3 stat least 123456790 greatest 123456790 sum 123456792 samples 1 nans 0
    """,
    6: """
        3fb999999999999a,3fc999999999999a,3fd3333333333333,3fd999999999999a,3fe0000000000000,3fe3333333333333,3fe6666666666666 stat least 0.1 greatest 0.7 sum 2.8 samples 7 nans 0
        4341c37937e08000,3ff0000000000000,c341c37937e08000,01a56e1fc2f8f359 stat least -1e16 greatest 1e16 sum 1 samples 4 nans 0
        7fefffffffffffff,7fefffffffffffff,ffefffffffffffff,bff0000000000000 stat least -1.7976931348623157e308 greatest 1.7976931348623157e308 sum 1.7976931348623157e308 samples 4 nans 0
        7fefffffffffffff,7fefffffffffffff stat least 1.7976931348623157e308 greatest 1.7976931348623157e308 sum inf samples 2 nans 0
        ffefffffffffffff,fe37e43c8800759c stat least -1.7976931348623157e308 greatest -1e300 sum -inf samples 2 nans 0
        0000000000000001,0000000000000001,8000000000000001 stat least -5e-324 greatest 5e-324 sum 5e-324 samples 3 nans 0
        3ff0000000000000,3ca0000000000000 stat least 1.1102230246251565e-16 greatest 1 sum 1 samples 2 nans 0
        3ff0000000000000,3ca0000000000000,0000000000000001 stat least 5e-324 greatest 1 sum 1.0000000000000002 samples 3 nans 0
        3ff0000000000001,3ca0000000000000 stat least 1.1102230246251565e-16 greatest 1.0000000000000002 sum 1.0000000000000004 samples 2 nans 0
        7ff8000000000000,3ff0000000000000,7ff0000000000001,c000000000000000 stat least -2 greatest 1 sum -1 samples 4 nans 2
        7ff8000000000000,ffffffffffffffff stat least none greatest none sum none samples 2 nans 2
        7ff0000000000000,3ff0000000000000 stat least 1 greatest inf sum inf samples 2 nans 0
        fff0000000000000,3ff0000000000000,7ff8000000000000 stat least -inf greatest 1 sum -inf samples 3 nans 1
        7ff0000000000000,fff0000000000000,7ff8000000000000 stat least -inf greatest inf sum nan samples 3 nans 1
        8000000000000000,8000000000000000 stat least -0 greatest -0 sum 0 samples 2 nans 0
        8000000000000000,0000000000000000,8000000000000000 stat least -0 greatest 0 sum 0 samples 3 nans 0
        4008000000000000,c008000000000000 stat least -3 greatest 3 sum 0 samples 2 nans 0
        7fe1ccf385ebc8a0,7fe1ccf385ebc8a0,ffe1ccf385ebc8a0 stat least -1e308 greatest 1e308 sum 1e308 samples 3 nans 0
        - stat none
        c01d000000000000 stat least -7.25 greatest -7.25 sum -7.25 samples 1 nans 0
    """,
}

# what is no decimal
NO_DECIMALS = (
    "+1 +inf +nan -nan NaN Inf INF infinity -infinity inf1 nan(1) 1e 1e+ 1e- e5 . - -. .e1 --1 -+1 1.2.3 1e1.5 1e5e5 0x10 0x1p3 1_000 1,5 1f "
    "1/3 ½"
).split()
# all other numbers are whole
WHOLE = [
    "patch 1.0 0 1", "patch 1 0e0 1", "sample 1 0.0", "sample 1e0 0", "set 1 inline 1.5", "set 1 inline 1e2", "resize 1 2.0", "slice 0.",
    "slice nan", "stat 1.0", "renumber 1 2 inline 1.5 1", "find 1 2 inline 0.5 1",
]
# a third, of 3000 digits, and a tenth, of a number with 300 zeros: what is told, and the pattern
THIRD = {1: "0.3333333134651184", 5: "0.33333334", 6: "0.3333333333333333"}
TENTH = {1: "0.10000002384185791", 5: "0.1", 6: "0.1"}
TENTH_PATTERN = {1: "4019999a", 5: "3dcccccd", 6: "3fb999999999999a"}


def split(table):
    """The rows of a table, each as its words."""
    return [row.split() for row in re.split("[;\n]", table) if row.strip()]


def both(room, row):
    """Runs a row with the file in memory and on disk: the same answers and bytes, which are given back."""
    plain = replace(row, saved=None, out=False)
    check(room, plain, "--out", "o.sgy")
    check(room, plain, "--on-disk", "--out", "disk.sgy")
    saved = room.get("o.sgy")
    assert same(room.get("disk.sgy"), saved)
    check_saved(room, row, row.file[1])
    return saved


KINDS = [(form, order, major) for form in (1, 5, 6) for major in (0, 1, 2) for order in ("big", "little")]


@pytest.mark.parametrize("form, order, major", KINDS)
def test_what_samples_say(room, form, order, major):
    says = split(SAYS[form])
    patterns, words = [row[0] for row in says], [row[1] for row in says]
    back = [row[-1] if len(row) == 3 else row[0] for row in says]
    count, none = len(says), ZEROS[form]
    trace, empty = ",".join(patterns), ",".join([none] * count)
    values = [f"value {word}" for word in words]
    script = [f"sample 1 {k}" for k in range(count)]
    script += ["slice 1", "patch 2 0 " + " ".join(words), "slice 1", "slice 0"] + [f"sample 2 {k}" for k in range(count)]
    script += [f"sample 1 {count}", "sample 4 0", "set 3 inline 7", "slice 1"]
    one, last = words[1], "row 10 23 3 0"
    answers = values + ["slice 3", f"row 10 21 1 {one}", "row 10 22 2 0", last, "ok"]
    answers += ["slice 3", f"row 10 21 1 {one}", f"row 10 22 2 {one}", last, "slice 3", "row 10 21 1 0", "row 10 22 2 0", last] + values
    answers += [f"refused E05 no sample {count} of {count}", "refused E01 no trace 4 of 3", "ok"]
    answers += ["slice 3", "row 7 23 3 0", f"row 10 21 1 {one}", f"row 10 22 2 {one}"]
    made = float_line(order, form, major, trace, empty, empty)
    options = "--floats --order little" if order == "little" and major != 2 else "--floats"
    saved = both(room, case("says", ("f.sgy", made), " ; ".join(script), " / ".join(answers), 1, options=options))
    third = 3600 + 3 * 240 + 2 * count * len(none) // 2 - 240 + 188
    wanted = float_line(order, form, major, trace, ",".join(back), empty)
    assert same(saved, changed(wanted, f"{third} {in_order(order, 7, 4)}"))


def patches(form):
    """The lines of PATCHED and their answers, and the patterns that stand there then."""
    script, answers, wanted = [], [], []
    for number, (word, pattern, *shown) in enumerate(split(PATCHED[form])):
        script += [f"patch 2 {number} {word}", f"sample 2 {number}"]
        answers += ["refused E04 does not fit", "value 0"] if pattern == "E04" else ["ok", f"value {shown[0]}"]
        wanted.append(ZEROS[form] if pattern == "E04" else pattern)
    return script, answers, wanted


def no_decimals(count):
    """Lines with what is no decimal, what stands in front of that or behind it, and what is no float; and their answers."""
    script = [line for word in NO_DECIMALS for line in (f"patch 1 0 {word}", f"patch 1 1 1 {word} 1e99999", f"patch 9 0 {word}")]
    answers = ["refused S03 number"] * len(script)
    script += [
        "patch 1 0", "patch 1 0 1e999999 -", "patch 9 0 1e999999", "patch 1 99 1e999999", "patch 1 99 1", f"patch 1 {count - 1} 1 2",
        "patch 0 0 1", "sample 1 0",
    ]
    answers += [
        "refused S02 words", "refused S03 number", "refused E01 no trace 9 of 3", "refused E04 does not fit",
        f"refused E05 no sample 99 of {count}", f"refused E05 no sample {count} of {count}", "refused E01 no trace 0 of 3", "value 0",
    ]
    return script + WHOLE, answers + ["refused S03 number"] * len(WHOLE)


@pytest.mark.parametrize("form", [1, 5, 6])
def test_patches(room, form):
    script, answers, wanted = patches(form)
    count, none = len(wanted), ZEROS[form]
    script += ["patch 3 0 ." + "3" * 3000, "sample 3 0", "patch 3 0 0." + "0" * 300 + "1e300", "sample 3 0"]
    answers += ["ok", f"value {THIRD[form]}", "ok", f"value {TENTH[form]}"]
    more, their_answers = no_decimals(count)
    empty = ",".join([none] * count)
    made = float_line("big", form, 1, empty, empty, empty)
    text = "".join(line + "\n" for line in script + more).encode()
    answered = "".join(line + "\n" for line in answers + their_answers).encode()
    saved = both(room, case("patches", ("f.sgy", made), text, answered, 1, options="--floats"))
    third = 3600 + 3 * 240 + count * len(none)
    assert same(saved, changed(float_line("big", form, 1, empty, ",".join(wanted), empty), f"{third} {TENTH_PATTERN[form]}"))


@pytest.mark.parametrize("form", [1, 5, 6])
def test_statistics(room, form):
    table = [row.split(maxsplit=1) for row in STATS[form].strip().split("\n")]
    count = len(table)
    script = [f"stat {number}" for number in range(1, count + 2)]
    answers = [text.strip() for _, text in table] + [f"refused E01 no trace {count + 1} of {count}"]
    made = float_line("big", form, 0, *[trace for trace, _ in table])
    both(room, case("statistics", ("f.sgy", made), " ; ".join(script), " / ".join(answers), 1, options="--floats"))


# ---- in a file of whole numbers a point, an exponent and what is no number are S03 as ever, also under the option
@pytest.mark.parametrize("options", ["", "--floats", "--floats --opaque-samples"])
def test_whole_numbers(room, options):
    row = case(
        "whole numbers", "s.sgy",
        "patch 1 0 1.0 ; patch 1 0 1e2 ; patch 1 0 nan ; patch 1 0 -inf ; patch 1 0 .5 ; patch 1 0 7 ; sample 1 0 ; stat 1 ; totals ; slice 0",
        "refused S03 number / refused S03 number / refused S03 number / refused S03 number / refused S03 number / ok / value 7 / "
        "stat least -2 greatest 7 sum 5 samples 2 / totals least -5 greatest 7 sum 13 samples 6 / slice 3 / row 10 21 1 7 / row 10 22 2 3 / "
        "row 10 23 3 -5",
        1, options=options,
    )
    both(room, row)


# ---- the totals, after each edit; another number of samples; whole traces; each run in memory and on disk
TOTALS = float_line("little", 5, 2, "7fc00000,ffc00000", "3f800000,40000000", "-", "c0400000,7f800001", "80000000,00000000")
IBM = float_line("big", 1, 0, "42010000,c276a000", "41100000", "4019999a,80000001")
FIRST, SECOND, THIRD_TRACE = IBM[3600:3848], IBM[3848:4092], IBM[4092:]
WHOLE_TRACES = changed(
    IBM[:3600] + FIRST[:244] + bytes(12) + bytes(248) + FIRST[:244] + SECOND + bytes(8) + THIRD_TRACE,
    f"{3600 + 114} 0004", f"{3600 + 256 + 248 + 114} 0001", f"{3600 + 256 + 248 + 244 + 114} 0003",
)
PAYLOAD = float_line("big", 5, 1, "3f800000,c2ed4000", "00000001,7fc12345", "40000000,ff800001")
GAIN = float_line("big", 4, 1, "00000001,00000002", "00000003,00000004")
IEEE = float_line("big", 5, 1, "3f800000,c2ed4000", "00000001,7fc12345")
NO_VALUE = "refused E12 samples have no value"
NONE_HAS_A_VALUE = f"{NO_VALUE} / refused E01 no trace 9 of 2 / {NO_VALUE} / {NO_VALUE} / {NO_VALUE} / {NO_VALUE} / refused S03 number / traces 2"
NO_VALUES = "sample 1 0 ; sample 9 0 ; stat 1 ; totals ; slice 0 ; patch 1 0 1 ; patch 1 0 1.5 ; count"
KEPT = float_line("little", 6, 0, "3ff0000000000000,4000000000000000,4008000000000000", "7ff8000000000000,8000000000000000,0000000000000001")
KEPT_LINES = (
    "slice 0 ; slice 1 ; slice 2 ; patch 1 1 -2.5 ; slice 0 ; slice 1 ; slice 2 ; set 1 inline 11 ; slice 2 ; resize 2 2 ; slice 2 ; slice 1 ; "
    "slice 3 ; patch 2 0 1e300 -inf ; slice 0 ; slice 1"
)
KEPT_FIRST = "slice 2 / row 10 21 1 1 / row 10 22 2 nan"
KEPT_THIRD = "slice 2 / row 10 21 1 3 / row 10 22 2 5e-324"
BOTH = [
    case(
        "totals of floats", ("f.sgy", TOTALS),
        "totals ; delete 4 ; totals ; patch 1 1 -0.5 ; totals ; stat 1 ; delete 2 ; totals ; patch 1 1 nan ; totals ; delete 3 ; totals ; "
        "patch 1 0 inf -inf ; totals ; copy 1 2 ; totals ; patch 1 0 nan nan ; patch 2 0 nan 1e-45 ; totals ; delete 2 ; delete 1 ; totals ; "
        "delete 1 ; totals",
        "totals least -3 greatest 2 samples 8 nans 3 / ok / totals least -0 greatest 2 samples 6 nans 2 / ok / "
        "totals least -0.5 greatest 2 samples 6 nans 1 / stat least -0.5 greatest -0.5 sum -0.5 samples 2 nans 1 / ok / "
        "totals least -0.5 greatest 0 samples 4 nans 1 / ok / totals least -0 greatest 0 samples 4 nans 2 / ok / "
        "totals least none greatest none samples 2 nans 2 / ok / totals least -inf greatest inf samples 2 nans 0 / ok / "
        "totals least -inf greatest inf samples 4 nans 0 / ok / ok / totals least 1e-45 greatest 1e-45 samples 4 nans 3 / ok / ok / "
        "totals none / ok / totals none",
        options="--floats",
    ),
    case(
        "another number of floats, and whole traces, and their bytes", ("f.sgy", IBM),
        "resize 2 3 ; sample 2 0 ; sample 2 2 ; stat 2 ; resize 1 1 ; sample 1 1 ; blank 1 ; stat 1 ; copy 2 5 ; move 5 1 ; sample 1 0 ; "
        "resize 1 4 ; slice 0 ; slice 1 ; totals",
        "ok / value 1 / value 0 / stat least 0 greatest 1 sum 1 samples 3 nans 0 / ok / refused E05 no sample 1 of 1 / ok / "
        "stat least 0 greatest 0 sum 0 samples 2 nans 0 / ok / ok / value 1 / ok / slice 5 / row 0 0 2 0 / row 10 21 1 1 / row 10 21 3 1 / "
        "row 10 22 4 1 / row 10 23 5 0.10000002384185791 / slice 4 / row 0 0 2 0 / row 10 21 1 0 / row 10 22 4 0 / "
        "row 10 23 5 -5.147557589468029e-85 / totals least -5.147557589468029e-85 greatest 1 samples 12 nans 0",
        1, options="--floats", saved=WHOLE_TRACES,
    ),
    case(
        "a payload that is not patched keeps its bytes", ("f.sgy", PAYLOAD),
        "patch 1 0 1 ; set 2 inline 11 ; sample 2 1 ; stat 2 ; copy 2 1 ; delete 1 ; move 3 1 ; move 1 3",
        "ok / ok / value nan / stat least 1e-45 greatest 1e-45 sum 1.401298464324817e-45 samples 2 nans 1 / ok / ok / ok / ok",
        options="--floats", saved=changed(PAYLOAD, f"{3848 + 188} 0000000b"),
    ),
    case(
        "floats without traces", ("no_floats.sgy", float_line("big", 6, 1, "3ff0000000000000")[:3600]),
        "totals ; slice 0 ; stat 1 ; count ; blank 1 ; totals ; slice 0 ; patch 1 0 1e-400 ; stat 1",
        "totals none / slice 0 / refused E01 no trace 1 of 0 / traces 0 / ok / totals least 0 greatest 0 samples 1 nans 0 / slice 1 / "
        "row 0 0 1 0 / ok / stat least 0 greatest 0 sum 0 samples 1 nans 0",
        1, options="--floats",
    ),
    case("format 4 under both options", ("f.sgy", GAIN), NO_VALUES, NONE_HAS_A_VALUE, 1, options="--floats --opaque-samples"),
    case("format 5 under --opaque-samples", ("f.sgy", IEEE), NO_VALUES, NONE_HAS_A_VALUE, 1, options="--opaque-samples"),
    case(
        "the format stays", ("f.sgy", IEEE), "bin format 1 ; bin format 3 ; bin @3225:2 5",
        "refused E06 frame / refused E06 frame / refused E06 frame", 1, options="--floats", saved=SAME,
    ),
    # the last 8 slices are kept, and each has the values that are there now
    case(
        "kept slices of floats", ("f.sgy", KEPT), KEPT_LINES,
        f"{KEPT_FIRST} / slice 2 / row 10 21 1 2 / row 10 22 2 -0 / {KEPT_THIRD} / ok / {KEPT_FIRST} / slice 2 / row 10 21 1 -2.5 / "
        f"row 10 22 2 -0 / {KEPT_THIRD} / ok / slice 2 / row 10 22 2 5e-324 / row 11 21 1 3 / ok / slice 1 / row 11 21 1 3 / slice 2 / "
        "row 10 22 2 -0 / row 11 21 1 -2.5 / slice 0 / ok / slice 2 / row 10 22 2 1e300 / row 11 21 1 1 / slice 2 / row 10 22 2 -inf / "
        "row 11 21 1 -2.5",
        options="--floats --order little",
    ),
]


@pytest.mark.parametrize("row", rows(BOTH))
def test_in_memory_and_on_disk(room, row):
    both(room, row)


# ---- with both options floats have values and format 4 is bytes; each may stand twice; alone neither reads what the other reads
FORMS = {1: "41100000,c276a000", 5: "3f800000,c2ed4000", 6: "3ff0000000000000,c05da80000000000"}


@pytest.mark.parametrize("form", [1, 5, 6])
def test_under_both_options(room, form):
    name, _ = placed(room, ("f.sgy", float_line("big", form, 1, FORMS[form], FORMS[form])))
    script = "sample 1 1\nstat 1\ntotals\nslice 0\npatch 1 0 9\ninfo\nfaults\n"
    plain = room.ask(name, script, "--floats", "--out", "plain.sgy")
    ended = room.ask(name, script, "--opaque-samples", "--floats", "--floats", "--opaque-samples", "--out", "o.sgy")
    assert plain.answers.decode().splitlines()[:3] == [
        "value -118.625", "stat least -118.625 greatest 1 sum -117.625 samples 2 nans 0", "totals least -118.625 greatest 1 samples 4 nans 0",
    ]
    assert ended.answers == plain.answers
    assert same(room.get("o.sgy"), room.get("plain.sgy"))


REFUSED = [
    *[
        refused(f"format {form}, unasked", ("f.sgy", float_line("big", form, 1, one, one)), f"L06 float format {form}", errors=HINT)
        for form, one in FORMS.items()
    ],
    refused("format 4 under --floats alone", ("f.sgy", GAIN), "L07 gain format", options="--floats", errors=OPAQUE),
    *[
        refused(f"format {form} under --floats", damaged("s.sgy", f"3224 {form:04x}"), f"L08 unknown format {form}", options="--floats")
        for form in (0, 13, 14, 17, 255)
    ],
    refused("torn floats with values", ("bad.sgy", IEEE[:-1]), "L14 truncated trace 2", options="--floats"),
]


@pytest.mark.parametrize("row", rows(REFUSED))
def test_refused(room, row):
    check(room, row)


def test_a_session_over_floats(room):
    room.put("f.sgy", KEPT)
    script = KEPT_LINES.replace(" ; ", "\n") + "\n"
    words = ["--floats", "--order", "little"]
    plain = room.ask("f.sgy", script, *words, "--out", "o.sgy")
    ended = room.run("f.sgy", *words, "--session", "--out", "saved.sgy", entered=(script + "save\n").encode())
    lines = ended.answers.decode().splitlines()
    assert [line for line in lines if line and not line.startswith("saved ")] == plain.answers.decode().splitlines()
    assert lines.count("") == 17
    assert same(room.get("saved.sgy"), room.get("o.sgy"))
