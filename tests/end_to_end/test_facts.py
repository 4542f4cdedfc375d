"""Conditions on facts about samples: the least, the greatest, how many. The small survey has the samples 1 and -2, 3 and 4, -5 and 6, on the
crosslines 21, 22 and 23 with the offsets 100, 200 and 300."""

import pytest

from files import changed, content, float_line
from reports import check_reload
from running import same
from tables import check, check_told, placed, rows, saving

SIGNS = ("=", "!=", "<", "<=", ">", ">=")
# behind a decimal they change nothing
ZEROES = "0" * 3000
OPAQUE = "f.sgy", float_line("little", 5, 2, "7fc00000,ffc00000", "3f800000,80000000", "-", "80000000,00000000")
GAIN = "gain.sgy", changed(content("none.sgy"), "3224 0004") + bytes(744)
# a tenth and its negative, in each format of floats
TENTHS = {
    1: ("tenth1.sgy", float_line("big", 1, 1, "4019999a,c019999a")),
    5: ("tenth5.sgy", float_line("little", 5, 2, "3dcccccd,bdcccccd")),
    6: ("tenth6.sgy", float_line("big", 6, 0, "3fb999999999999a,bfb999999999999a")),
}
# -118.625 and 100, -0 alone, none, no number alone (in formats 5 and 6), the greatest value and the least above 0, 16777216 or 2 ^ 53 alone
ALL = {
    1: ("all1.sgy", float_line("big", 1, 0, "c276a000,42640000", "80000000", "-", "7fffffff,00000001", "47100000")),
    5: (
        "all5.sgy",
        float_line("big", 5, 1, "c2ed4000,42c80000,7fc00000", "80000000", "-", "7fc00000,ffc00001", "7f800000,00000001", "4b800000"),
    ),
    6: (
        "all6.sgy",
        float_line(
            "little", 6, 2, "c05da80000000000,4059000000000000,fff8000000000001", "8000000000000000", "-",
            "7ff8000000000000,7ff0000000000001", "fff0000000000000,0000000000000001", "4340000000000000",
        ),
    ),
}


def signs(name, file, left, right, counts):
    """How many traces meet LEFT OP RIGHT, of = != < <= > and >= in this order."""
    lines = [f"count all where {left} {sign} {right}" for sign in SIGNS]
    return saving(name, file, " ; ".join(lines), " / ".join(f"chosen {count}" for count in counts.split()))


def refuses(name, file, refusal, conditions, **more):
    """`count all where` each of these is refused so."""
    lines = [f"count all where {condition}" for condition in conditions]
    return saving(name, file, " ; ".join(lines), " / ".join([f"refused {refusal}"] * len(lines)), 1, **more)


def meets(name, file, count, conditions, **more):
    """So many traces meet each of these."""
    lines = [f"count all where {condition}" for condition in conditions]
    return saving(name, file, " ; ".join(lines), " / ".join([f"chosen {count}"] * len(lines)), **more)


# each fact with each sign, beside a number, a field, another fact; a trace without samples, and a file without traces; words that are none; a
# name that is bound; samples without a value; floats of each format, where a decimal is compared exactly, whatever its length; what is no
# number, infinities, the least and the greatest values; a float beside a whole number, exactly
FACTS = [
    signs("the least sample", "s.sgy", "sample_least", "-2", "1 2 1 2 1 2"),
    signs("the least sample on the right", "s.sgy", "-2", "sample_least", "1 2 1 2 1 2"),
    signs("the least sample, and a number below all", "s.sgy", "sample_least", "-6", "0 3 0 0 3 3"),
    signs("the greatest sample", "s.sgy", "sample_greatest", "1", "1 2 0 1 2 3"),
    signs("the greatest sample on the right", "s.sgy", "1", "sample_greatest", "1 2 2 3 0 1"),
    signs("the number of samples", "v.sgy", "sample_count", "3", "1 2 1 2 1 2"),
    signs("the number of samples on the right", "v.sgy", "65535", "sample_count", "1 2 0 1 2 3"),
    signs("samples of 8 bytes without a sign", "wide.sgy", "sample_least", "18446744073709551614", "0 2 0 0 2 2"),
    signs("a fact beside a field", "s.sgy", "sample_greatest", "crossline", "0 3 3 3 0 0"),
    signs("a field beside a fact", "s.sgy", "offset", "sample_least", "0 3 0 0 3 3"),
    signs("a fact beside another", "s.sgy", "sample_least", "sample_count", "0 3 2 2 1 1"),
    signs("the number of samples beside a field that may be 0", "v.sgy", "sample_count", "samples", "2 1 0 2 1 3"),
    saving(
        "which traces they are", "s.sgy",
        "set 2 @1:4 4 ; table all crossline where sample_greatest = @1:4 ; table all crossline where sample_least < 0 ; "
        "table all crossline where sample_greatest > -100 and -5 != sample_least ; "
        "table 2 3 crossline where sample_count = 2 and sample_least < 0 and crossline > 21 ; set 3 @1:8u 18446744073709551615 ; "
        "table all crossline where sample_greatest < @1:8u",
        "ok / table 1 / 2 22 / table 2 / 1 21 / 3 23 / table 2 / 1 21 / 2 22 / table 1 / 3 23 / ok / table 2 / 2 22 / 3 23",
    ),
    saving(
        "they follow the edits", "s.sgy",
        "count all where sample_least = sample_greatest ; patch 2 0 3 3 ; table all crossline where sample_least = sample_greatest ; "
        "fill all 0 1 -9 where sample_least < 0 ; count all where sample_least = -9 ; copy 2 1 ; "
        "table all crossline where sample_greatest = 3 ; delete all where sample_greatest = -9 ; stats all ; blank end ; "
        "count all where sample_least = 0",
        "chosen 0 / ok / table 1 / 2 22 / ok 2 / chosen 2 / ok / table 2 / 1 22 / 3 22 / ok 2 / stats 2 / "
        "1 least 3 greatest 3 sum 6 zeros 0 samples 2 / 2 least 3 greatest 3 sum 6 zeros 0 samples 2 / ok / chosen 1",
    ),
    saving(
        "another number of samples", "loose.sgy",
        "count all where sample_count = 2 ; resize 2 4 ; table all crossline where sample_count > 2 ; "
        "table all crossline where sample_least = 0 ; resize 2 1 ; count all where sample_greatest = 3",
        "chosen 3 / ok / table 1 / 2 22 / table 1 / 2 22 / ok / chosen 1",
    ),
    meets(
        "a trace without samples has no least and no greatest", "bare.sgy", 0,
        [
            "sample_least = 0", "sample_least != 0", "0 >= sample_greatest", "sample_greatest = sample_greatest",
            "sample_least != crossline", "sample_count > 0",
        ],
    ),
    meets("but a number of samples", "bare.sgy", 3, ["sample_count = 0", "1 > sample_count", "sample_count < crossline"]),
    saving(
        "facts in a file without traces", "none.sgy",
        "count all where sample_least = 0 ; delete all where sample_count = 0 ; fill all 0 1 5 where sample_greatest > 5 ; "
        "count all where sample_mean = 0",
        "chosen 0 / ok 0 / ok 0 / refused E02 no field",
        1,
    ),
    refuses(
        "no such fact", "s.sgy", "E02 no field",
        [
            "sample_mean = 1", "sample_least < sample_rms", "Sample_least = 1", "sample_least_ = 1", "least = 1", ".5 > sample_least",
        ],
    ),
    refuses(
        "a decimal in a file of whole numbers", "s.sgy", "S03 number",
        [
            "sample_least < 0.5", "1e3 > sample_greatest", "sample_least = -1.0", "inline = 1.5", "sample_least < +1",
            "sample_least > -inf", "sample_least < 170141183460469231731687303715884105728",
        ],
    ),
    refuses(
        "under the options too", "s.sgy", "S03 number",
        [
            "sample_least < 0.5", "1e3 > sample_greatest",
        ], options="--floats --opaque-samples",
    ),
    saving(
        "a bound name of the same word", "s.sgy",
        "map sample_least @193:4 ; map sample_count @1:4 ; table all sample_least where sample_least > 21 ; set 2 sample_count -7 ; "
        "count all where sample_count = -7 ; find all sample_least 23 23 ; table all crossline where sample_least < sample_greatest ; "
        "get 3 sample_least ; unmap sample_least ; table all crossline where sample_least > 0",
        "ok / ok / table 2 / 2 22 / 3 23 / ok / chosen 1 / found 1 / trace 3 23 / table 0 / value 23 / ok / table 1 / 2 22",
    ),
    refuses(
        "no values in f.sgy", OPAQUE, "E12 samples have no value",
        [
            "sample_least = 0", "0 != sample_greatest", "sample_least < sample_count", "inline = 77 and sample_greatest > 0",
            "@1.9:4 = 1 and sample_least = 1", "sample_least = 1 and @1.9:4 = 1",
        ], options="--opaque-samples",
    ),
    refuses(
        "a name that is none in f.sgy", OPAQUE, "E02 no field",
        [
            "nothing = 1 and sample_least = 1", "sample_least = 1 and nothing = 1", "1 < nothing and sample_greatest = 1",
        ], options="--opaque-samples",
    ),
    refuses(
        "a place that is none in f.sgy", OPAQUE, "E03 no place",
        [
            "@1.9:4 = 1", "sample_count > 0 and @1.9:4 = 1",
        ], options="--opaque-samples",
    ),
    refuses("a decimal in f.sgy", OPAQUE, "S03 number", ["sample_least < 0.5", "1e3 > nothing"], options="--opaque-samples"),
    refuses(
        "no values in gain.sgy", GAIN, "E12 samples have no value",
        [
            "sample_least = 0", "0 != sample_greatest", "sample_least < sample_count", "inline = 77 and sample_greatest > 0",
            "@1.9:4 = 1 and sample_least = 1", "sample_least = 1 and @1.9:4 = 1",
        ], options="--opaque-samples",
    ),
    refuses(
        "a name that is none in gain.sgy", GAIN, "E02 no field",
        [
            "nothing = 1 and sample_least = 1", "sample_least = 1 and nothing = 1", "1 < nothing and sample_greatest = 1",
        ], options="--opaque-samples",
    ),
    refuses(
        "a place that is none in gain.sgy", GAIN, "E03 no place",
        [
            "@1.9:4 = 1", "sample_count > 0 and @1.9:4 = 1",
        ], options="--opaque-samples",
    ),
    refuses("a decimal in gain.sgy", GAIN, "S03 number", ["sample_least < 0.5", "1e3 > nothing"], options="--opaque-samples"),
    saving(
        "the number of opaque samples", OPAQUE,
        "count all where sample_count = 2 ; count all where sample_count = 0",
        "chosen 3 / chosen 1",
        options="--opaque-samples",
    ),
    saving(
        "what samples without a value refuse first", OPAQUE,
        "table 0 1 nothing where sample_least = 0 ; table 1 9 nothing where sample_least = 0 ; "
        "table all nothing where sample_least = 0 ; table all @1.9:4 where sample_least = 0 ; "
        "find all nothing 0 1 where sample_least = 0 ; find all inline 0 1 where sample_least = 0 ; "
        "set all inline 99999999999 where sample_least = 0 ; set all nothing 1 where sample_least = 0 ; "
        "compute all inline 1 / 0 where sample_least = 0 ; compute all inline @1.9:4 where 0 = sample_least ; "
        "renumber all nothing 1 1 where sample_least = 0 ; renumber all inline 1 1 where sample_least = 0 ; "
        "swap all inline nothing where sample_least = 0 ; swap all inline offset where sample_least = 0 ; "
        "extremes all where sample_greatest = 0 ; delete all where sample_greatest = 0 ; stats all where sample_least = 0 ; "
        "stats all where @1.9:4 = 0 ; fill all 0 9 0 where sample_least = 0 ; fill all 0 9 0 where @1.9:4 = 0 ; "
        "delete all where sample_count = 2 ; count",
        "refused E01 no trace 0 of 4 / refused E01 no trace 9 of 4 / refused E02 no field / refused E12 samples have no value / "
        "refused E02 no field / refused E12 samples have no value / refused E12 samples have no value / refused E02 no field / "
        "refused E12 samples have no value / refused E12 samples have no value / refused E02 no field / "
        "refused E12 samples have no value / refused E02 no field / refused E12 samples have no value / "
        "refused E12 samples have no value / refused E12 samples have no value / refused E12 samples have no value / "
        "refused E03 no place / refused E12 samples have no value / refused E03 no place / ok 3 / traces 1",
        1, options="--opaque-samples",
    ),
    saving(
        "a bound name needs no values", OPAQUE,
        "map sample_least @193:4 ; table all sample_least where sample_least > 22",
        "ok / table 2 / 3 23 / 4 24",
        options="--opaque-samples",
    ),
    meets(
        "the exact decimal of tenth1.sgy", TENTHS[1], 1,
        [
            "sample_greatest = 0.10000002384185791015625", "0.10000002384185791015625 = sample_greatest",
            "sample_least = -0.10000002384185791015625", "sample_greatest = 0.100000023841857910156250",
            "sample_greatest = 000.10000002384185791015625", "sample_greatest = 0.10000002384185791015625e0",
            "sample_greatest = 0.10000002384185791015625E+000", f"sample_greatest = 0.10000002384185791015625{ZEROES}",
            "sample_greatest >= 0.10000002384185791015625", "0.10000002384185791015625 <= sample_greatest",
        ], options="--floats",
    ),
    meets(
        "one digit more than tenth1.sgy has", TENTHS[1], 1,
        [
            "sample_greatest < 0.100000023841857910156251", "sample_greatest != 0.100000023841857910156251",
            "sample_least > -0.100000023841857910156251", "0.100000023841857910156251 > sample_greatest",
            f"sample_greatest < 0.10000002384185791015625{ZEROES}1", f"sample_least != -0.10000002384185791015625{ZEROES}1",
            "sample_greatest > 0.1000000238418579101562", "sample_least < -0.1000000238418579101562",
        ], options="--floats",
    ),
    meets(
        "what tenth1.sgy does not meet", TENTHS[1], 0,
        [
            "sample_greatest < 0.10000002384185791015625", "sample_greatest > 0.10000002384185791015625",
            "sample_greatest = 0.100000023841857910156251", f"sample_greatest = 0.10000002384185791015625{ZEROES}1",
            "sample_greatest = 0.1", "sample_least < -0.10000002384185791015625", "sample_greatest = 1e-1", "sample_greatest <= 0.1",
        ], options="--floats",
    ),
    meets(
        "the exact decimal of tenth5.sgy", TENTHS[5], 1,
        [
            "sample_greatest = 0.100000001490116119384765625", "0.100000001490116119384765625 = sample_greatest",
            "sample_least = -0.100000001490116119384765625", "sample_greatest = 0.1000000014901161193847656250",
            "sample_greatest = 000.100000001490116119384765625", "sample_greatest = 0.100000001490116119384765625e0",
            "sample_greatest = 0.100000001490116119384765625E+000", f"sample_greatest = 0.100000001490116119384765625{ZEROES}",
            "sample_greatest >= 0.100000001490116119384765625", "0.100000001490116119384765625 <= sample_greatest",
        ], options="--floats",
    ),
    meets(
        "one digit more than tenth5.sgy has", TENTHS[5], 1,
        [
            "sample_greatest < 0.1000000014901161193847656251", "sample_greatest != 0.1000000014901161193847656251",
            "sample_least > -0.1000000014901161193847656251", "0.1000000014901161193847656251 > sample_greatest",
            f"sample_greatest < 0.100000001490116119384765625{ZEROES}1", f"sample_least != -0.100000001490116119384765625{ZEROES}1",
            "sample_greatest > 0.10000000149011611938476562", "sample_least < -0.10000000149011611938476562",
        ], options="--floats",
    ),
    meets(
        "what tenth5.sgy does not meet", TENTHS[5], 0,
        [
            "sample_greatest < 0.100000001490116119384765625", "sample_greatest > 0.100000001490116119384765625",
            "sample_greatest = 0.1000000014901161193847656251", f"sample_greatest = 0.100000001490116119384765625{ZEROES}1",
            "sample_greatest = 0.1", "sample_least < -0.100000001490116119384765625", "sample_greatest = 1e-1", "sample_greatest <= 0.1",
        ], options="--floats",
    ),
    meets(
        "the exact decimal of tenth6.sgy", TENTHS[6], 1,
        [
            "sample_greatest = 0.1000000000000000055511151231257827021181583404541015625",
            "0.1000000000000000055511151231257827021181583404541015625 = sample_greatest",
            "sample_least = -0.1000000000000000055511151231257827021181583404541015625",
            "sample_greatest = 0.10000000000000000555111512312578270211815834045410156250",
            "sample_greatest = 000.1000000000000000055511151231257827021181583404541015625",
            "sample_greatest = 0.1000000000000000055511151231257827021181583404541015625e0",
            "sample_greatest = 0.1000000000000000055511151231257827021181583404541015625E+000",
            f"sample_greatest = 0.1000000000000000055511151231257827021181583404541015625{ZEROES}",
            "sample_greatest >= 0.1000000000000000055511151231257827021181583404541015625",
            "0.1000000000000000055511151231257827021181583404541015625 <= sample_greatest",
        ], options="--floats",
    ),
    meets(
        "one digit more than tenth6.sgy has", TENTHS[6], 1,
        [
            "sample_greatest < 0.10000000000000000555111512312578270211815834045410156251",
            "sample_greatest != 0.10000000000000000555111512312578270211815834045410156251",
            "sample_least > -0.10000000000000000555111512312578270211815834045410156251",
            "0.10000000000000000555111512312578270211815834045410156251 > sample_greatest",
            f"sample_greatest < 0.1000000000000000055511151231257827021181583404541015625{ZEROES}1",
            f"sample_least != -0.1000000000000000055511151231257827021181583404541015625{ZEROES}1",
            "sample_greatest > 0.100000000000000005551115123125782702118158340454101562",
            "sample_least < -0.100000000000000005551115123125782702118158340454101562",
        ], options="--floats",
    ),
    meets(
        "what tenth6.sgy does not meet", TENTHS[6], 0,
        [
            "sample_greatest < 0.1000000000000000055511151231257827021181583404541015625",
            "sample_greatest > 0.1000000000000000055511151231257827021181583404541015625",
            "sample_greatest = 0.10000000000000000555111512312578270211815834045410156251",
            f"sample_greatest = 0.1000000000000000055511151231257827021181583404541015625{ZEROES}1", "sample_greatest = 0.1",
            "sample_least < -0.1000000000000000055511151231257827021181583404541015625", "sample_greatest = 1e-1",
            "sample_greatest <= 0.1",
        ], options="--floats",
    ),
    meets(
        "decimals of all1.sgy", ALL[1], 1,
        [
            "sample_least = -118.625", "sample_least = -1.18625e2", "sample_least = -118625E-3", "-118.625 = sample_least",
            "sample_greatest = 1e2", "sample_greatest = 100", "100.0 = sample_greatest", "sample_greatest = 100.",
            "sample_least > -118.6250001 and sample_least < -118.6249999", "sample_least = -0 and sample_greatest = 0",
            "sample_greatest = -0.0", "0e5 = sample_greatest", "sample_least = -0e-99", "sample_count = 0", "sample_greatest <= 0",
        ], options="--floats",
    ),
    saving(
        "which of all1.sgy they are", ALL[1],
        "table all crossline where sample_least < -.5 ; table all crossline where sample_greatest = 0 ; "
        "table all crossline where sample_count = 0",
        "table 1 / 1 21 / table 1 / 2 22 / table 1 / 3 23",
        options="--floats",
    ),
    refuses(
        "words that are no decimals of all1.sgy", ALL[1], "S03 number",
        [
            "sample_least < 1e", "sample_least < -", "sample_least < --1", "sample_least < 0x10", "sample_least < 1.5.2",
            "sample_least < 1,5", "sample_least > -inf", "sample_least > -nan", "sample_least < +1.5", "1_0 < sample_greatest",
            "sample_least < 1e+", "sample_least < 1e1.5",
        ], options="--floats",
    ),
    refuses(
        "a decimal beside something else of all1.sgy", ALL[1], "S03 number",
        [
            "0.5 < 1.5", "sample_count < 2.5", "inline < 0.5", "@1:4 = 1e3", "0.5 < nothing",
        ], options="--floats",
    ),
    refuses(
        "words that are read as names of all1.sgy", ALL[1], "E02 no field",
        [
            "sample_greatest = inf", "sample_least != nan", "sample_least < .5", "sample_least < e5", "infinity > sample_least",
        ], options="--floats",
    ),
    saving(
        "a decimal beside a bound name of all1.sgy", ALL[1],
        "map sample_least @193:4 ; count all where sample_least > 22 ; count all where sample_least > 22.5 ; "
        "count all where sample_greatest > 1e1 and sample_least = 21",
        "ok / chosen 3 / refused E02 no field / chosen 1",
        1, options="--floats",
    ),
    meets(
        "decimals of all5.sgy", ALL[5], 1,
        [
            "sample_least = -118.625", "sample_least = -1.18625e2", "sample_least = -118625E-3", "-118.625 = sample_least",
            "sample_greatest = 1e2", "sample_greatest = 100", "100.0 = sample_greatest", "sample_greatest = 100.",
            "sample_least > -118.6250001 and sample_least < -118.6249999", "sample_least = -0 and sample_greatest = 0",
            "sample_greatest = -0.0", "0e5 = sample_greatest", "sample_least = -0e-99", "sample_count = 0", "sample_greatest <= 0",
        ], options="--floats",
    ),
    saving(
        "which of all5.sgy they are", ALL[5],
        "table all crossline where sample_least < -.5 ; table all crossline where sample_greatest = 0 ; "
        "table all crossline where sample_count = 0",
        "table 1 / 1 21 / table 1 / 2 22 / table 1 / 3 23",
        options="--floats",
    ),
    refuses(
        "words that are no decimals of all5.sgy", ALL[5], "S03 number",
        [
            "sample_least < 1e", "sample_least < -", "sample_least < --1", "sample_least < 0x10", "sample_least < 1.5.2",
            "sample_least < 1,5", "sample_least > -inf", "sample_least > -nan", "sample_least < +1.5", "1_0 < sample_greatest",
            "sample_least < 1e+", "sample_least < 1e1.5",
        ], options="--floats",
    ),
    refuses(
        "a decimal beside something else of all5.sgy", ALL[5], "S03 number",
        [
            "0.5 < 1.5", "sample_count < 2.5", "inline < 0.5", "@1:4 = 1e3", "0.5 < nothing",
        ], options="--floats",
    ),
    refuses(
        "words that are read as names of all5.sgy", ALL[5], "E02 no field",
        [
            "sample_greatest = inf", "sample_least != nan", "sample_least < .5", "sample_least < e5", "infinity > sample_least",
        ], options="--floats",
    ),
    saving(
        "a decimal beside a bound name of all5.sgy", ALL[5],
        "map sample_least @193:4 ; count all where sample_least > 22 ; count all where sample_least > 22.5 ; "
        "count all where sample_greatest > 1e1 and sample_least = 21",
        "ok / chosen 4 / refused E02 no field / chosen 1",
        1, options="--floats",
    ),
    meets(
        "decimals of all6.sgy", ALL[6], 1,
        [
            "sample_least = -118.625", "sample_least = -1.18625e2", "sample_least = -118625E-3", "-118.625 = sample_least",
            "sample_greatest = 1e2", "sample_greatest = 100", "100.0 = sample_greatest", "sample_greatest = 100.",
            "sample_least > -118.6250001 and sample_least < -118.6249999", "sample_least = -0 and sample_greatest = 0",
            "sample_greatest = -0.0", "0e5 = sample_greatest", "sample_least = -0e-99", "sample_count = 0", "sample_greatest <= 0",
        ], options="--floats",
    ),
    saving(
        "which of all6.sgy they are", ALL[6],
        "table all crossline where sample_least < -.5 ; table all crossline where sample_greatest = 0 ; "
        "table all crossline where sample_count = 0",
        "table 2 / 1 21 / 5 25 / table 1 / 2 22 / table 1 / 3 23",
        options="--floats",
    ),
    refuses(
        "words that are no decimals of all6.sgy", ALL[6], "S03 number",
        [
            "sample_least < 1e", "sample_least < -", "sample_least < --1", "sample_least < 0x10", "sample_least < 1.5.2",
            "sample_least < 1,5", "sample_least > -inf", "sample_least > -nan", "sample_least < +1.5", "1_0 < sample_greatest",
            "sample_least < 1e+", "sample_least < 1e1.5",
        ], options="--floats",
    ),
    refuses(
        "a decimal beside something else of all6.sgy", ALL[6], "S03 number",
        [
            "0.5 < 1.5", "sample_count < 2.5", "inline < 0.5", "@1:4 = 1e3", "0.5 < nothing",
        ], options="--floats",
    ),
    refuses(
        "words that are read as names of all6.sgy", ALL[6], "E02 no field",
        [
            "sample_greatest = inf", "sample_least != nan", "sample_least < .5", "sample_least < e5", "infinity > sample_least",
        ], options="--floats",
    ),
    saving(
        "a decimal beside a bound name of all6.sgy", ALL[6],
        "map sample_least @193:4 ; count all where sample_least > 22 ; count all where sample_least > 22.5 ; "
        "count all where sample_greatest > 1e1 and sample_least = 21",
        "ok / chosen 4 / refused E02 no field / chosen 1",
        1, options="--floats",
    ),
    saving(
        "a trace whose samples are no numbers, of all5.sgy", ALL[5],
        "table all crossline where sample_least <= sample_greatest ; count 4 4 where sample_least != 7 ; "
        "count 4 4 where 0.5 != sample_greatest ; count 4 4 where sample_least = sample_least ; "
        "count 4 4 where sample_least != crossline ; count 4 4 where sample_count = 2 ; patch 4 1 -1e-3 ; "
        "table all crossline where sample_greatest < 0 and sample_greatest > -1.5e-3 ; patch 4 1 nan ; count 4 4 where sample_least < 1",
        "table 4 / 1 21 / 2 22 / 5 25 / 6 26 / chosen 0 / chosen 0 / chosen 0 / chosen 0 / chosen 1 / ok / table 1 / 4 24 / ok / chosen 0",
        options="--floats",
    ),
    saving(
        "a trace whose samples are no numbers, of all6.sgy", ALL[6],
        "table all crossline where sample_least <= sample_greatest ; count 4 4 where sample_least != 7 ; "
        "count 4 4 where 0.5 != sample_greatest ; count 4 4 where sample_least = sample_least ; "
        "count 4 4 where sample_least != crossline ; count 4 4 where sample_count = 2 ; patch 4 1 -1e-3 ; "
        "table all crossline where sample_greatest < 0 and sample_greatest > -1.5e-3 ; patch 4 1 nan ; count 4 4 where sample_least < 1",
        "table 4 / 1 21 / 2 22 / 5 25 / 6 26 / chosen 0 / chosen 0 / chosen 0 / chosen 0 / chosen 1 / ok / table 1 / 4 24 / ok / chosen 0",
        options="--floats",
    ),
    meets(
        "infinity is above all", ALL[5], 1,
        [
            "sample_greatest > 3.5e38", "sample_greatest > 1e999", f"sample_greatest > 9{ZEROES}",
            "sample_greatest > 170141183460469231731687303715884105727", "sample_greatest > 170141183460469231731687303715884105728",
        ], options="--floats",
    ),
    meets(
        "and below all", ALL[6], 1,
        [
            "sample_least < -1.8e308", "sample_least < -1e99999999999999999999", f"sample_least < -9{ZEROES}",
            "sample_least < -170141183460469231731687303715884105728",
        ], options="--floats",
    ),
    meets(
        "the least value above 0 of format 1", ALL[1], 1,
        [
            "sample_least > 0 and sample_least < 5.4e-79 and sample_least > 1e-86",
            "sample_greatest > 7.23e75 and sample_greatest < 7.24e75", "sample_least > 1e-99999999999999999999 and sample_least < 1",
        ], options="--floats",
    ),
    meets(
        "the least value above 0 of format 5", ALL[5], 1,
        [
            "sample_least > 1.4e-45 and sample_least < 1.5e-45", "sample_least > 1e-99999999999999999999 and sample_least < 1",
        ], options="--floats",
    ),
    meets(
        "the least value above 0 of format 6", ALL[6], 1,
        [
            "sample_greatest > 4.9e-324 and sample_greatest < 5e-324",
            "sample_greatest > 1e-99999999999999999999 and sample_greatest < 1e-300",
        ], options="--floats",
    ),
    saving(
        "a float of format 1 beside a field", ALL[1],
        "set all @1:4 16777217 ; table all crossline where sample_least > 16777215 and sample_least < @1:4 ; "
        "count all where sample_least = @1:4 ; set all @1:4 16777216 ; table all crossline where sample_least = @1:4 ; "
        "count all where @1:4 < sample_least",
        "ok / table 1 / 5 25 / chosen 0 / ok / table 1 / 5 25 / chosen 0",
        options="--floats",
    ),
    saving(
        "a float of format 6 beside a field", ALL[6],
        "set all @1:8 9007199254740993 ; count all where sample_greatest = @1:8 ; "
        "table all crossline where sample_greatest > 9007199254740991 and sample_greatest < @1:8 ; set all @1:8 9007199254740992 ; "
        "table all crossline where sample_least = @1:8 ; count all where @1:8 < sample_greatest ; "
        "table all crossline where sample_count > sample_greatest",
        "ok / chosen 0 / table 1 / 6 26 / ok / table 1 / 6 26 / chosen 0 / table 2 / 2 22 / 5 25",
        options="--floats",
    ),
]

TOLD = [
    (
        "a near name of a fact", "count all where sample_leest = 1",
        "E02 no field: count all where sample_leest = 1 (did you mean sample_least?)",
    ),
    (
        "a fact in capital letters", "count all where 1 < SAMPLE_COUNT",
        "E02 no field: count all where 1 < SAMPLE_COUNT (in small letters: sample_count)",
    ),
    (
        "no field: get", "get 1 sample_least",
        "E02 no field: get 1 sample_least (a fact about samples stands in conditions alone: where sample_least < 0)",
    ),
    (
        "no field: table", "table all inline sample_greatest",
        "E02 no field: table all inline sample_greatest (a fact about samples stands in conditions alone: where sample_least < 0)",
    ),
    (
        "no field: sort", "sort all sample_count",
        "E02 no field: sort all sample_count (a fact about samples stands in conditions alone: where sample_least < 0)",
    ),
    (
        "no field: set", "set all sample_count 7 where sample_count = 2",
        "E02 no field: set all sample_count 7 where sample_count = 2 (a fact about samples stands in conditions alone: where sample_least < 0)",
    ),
    (
        "no field: find", "find all sample_least 0 1",
        "E02 no field: find all sample_least 0 1 (a fact about samples stands in conditions alone: where sample_least < 0)",
    ),
    (
        "no field: compute", "compute all inline sample_least",
        "E02 no field: compute all inline sample_least (a fact about samples stands in conditions alone: where sample_least < 0)",
    ),
    (
        "no field: swap", "swap all inline sample_least",
        "E02 no field: swap all inline sample_least (a fact about samples stands in conditions alone: where sample_least < 0)",
    ),
]


@pytest.mark.parametrize("row", rows(FACTS))
def test_facts(room, row):
    check(room, row)


@pytest.mark.parametrize("line, text", [pytest.param(*row[1:], id=row[0]) for row in TOLD])
def test_refusals(room, line, text):
    check_told(room, line, text)


# ---- each command that takes conditions does the same of the same traces, however they are chosen: in memory, on disk, in a session that
# saves between, and of floats
COMMANDS = [
    "count all", "table all @1:4 crossline", "find all offset -9 999", "extremes all", "stats all", "samples all 0 9", "set all @9:4 7",
    "renumber all @1:4 5 5", "compute all @17:4 x / 3", "swap all @21:4 crossline", "count all",
]
FILLS = [f"{command} where CHOSEN" for command in COMMANDS + ["fill all 1 1 0"]] + ["stats all"]
DELETES = [f"{command} where CHOSEN" for command in COMMANDS + ["delete all", "count all"]]
# a file, the commands, the same choice by facts and by fields, and options
CHOICES = [
    ("each command by a fact", "s.sgy", FILLS, "sample_least > 0", "offset = 200", ""),
    ("each command by two facts", "s.sgy", FILLS, "-2 >= sample_least and sample_count = 2", "offset != 200", ""),
    ("each command by a fact of floats", ALL[6], FILLS, "-1.5 >= sample_least and sample_greatest > 1e1", "@5:4 < 2", "--floats"),
    ("a delete by a fact", "s.sgy", DELETES, "sample_greatest = 4", "offset = 200", ""),
    ("a delete by the number of samples", "v.sgy", DELETES, "sample_count > 2", "@115:2 != 0", ""),
    ("a delete by a fact of floats", ALL[5], DELETES, "sample_greatest > 1e2", "@5:4 > 4", "--floats"),
]


@pytest.mark.parametrize("file, commands, facts, fields, options", [pytest.param(*row[1:], id=row[0]) for row in CHOICES])
def test_the_same_choice(room, file, commands, facts, fields, options):
    name, before = placed(room, file)
    words = options.split()
    lines = [line.replace("CHOSEN", facts) for line in commands]
    script = "".join(line + "\n" for line in lines)
    by_facts = room.ask(name, script, "--out", "facts.sgy", "--stop", *words)
    by_fields = room.ask(name, "".join(line.replace("CHOSEN", fields) + "\n" for line in commands), "--out", "fields.sgy", "--stop", *words)
    assert (by_facts.status, by_fields.status) == (0, 0)
    assert by_facts.answers == by_fields.answers
    saved = room.get("facts.sgy")
    assert same(room.get("fields.sgy"), saved)
    assert saved != before
    assert room.ask(name, script, "--out", "disk.sgy", "--on-disk", *words).answers == by_facts.answers
    assert same(room.get("disk.sgy"), saved)
    room.put("own.sgy", before)
    session = room.run("own.sgy", "--session", "--out", "own.sgy", *words, entered="".join(line + "\nsave\n" for line in lines).encode())
    told = [line for line in session.answers.decode().splitlines(keepends=True) if line != "\n" and not line.startswith("saved ")]
    assert "".join(told) == by_facts.answers.decode()
    assert same(room.get("own.sgy"), saved)


# ---- what the facts say behind edits is what they say of the saved file, loaded anew
REPORTS = [f"{command} where sample_least < sample_greatest" for command in ("count all", "table all inline", "stats all")] + [
    f"table all crossline where {condition}" for condition in ("sample_greatest >= 5", "sample_count != 2", "sample_least = sample_greatest")
]
REPORTS_OF_FLOATS = REPORTS + [f"table all crossline where {condition}" for condition in ("sample_greatest > -1.5", "sample_least < 1e-1")]
REPORTS_OF_LENGTHS = [
    "count all where sample_count = 2", "table all crossline where sample_count != 2", "table all inline where sample_count < inline",
]
EDITS = (
    "fill all 0 1 7 where sample_least < 0 ; copy 1 end ; patch 1 1 -70 ; delete all where sample_least = 7 ; copy last 1 ; blank 2 ; "
    "set all inline 3 where sample_least = 0 ; move 1 2 ; patch 1 0 3 3 ; fill all 0 0 -8 where sample_greatest = 0 ; sort all -crossline"
)
# the blank trace has no samples at first, and is the last one behind the sort
OF_FLOATS = (
    "fill all 0 1 7 where sample_least < 0 ; copy 1 end ; patch 1 1 -70 ; delete all where sample_least = 7 ; copy last 1 ; blank 2 ; "
    "set all inline 3 where sample_least = 0 ; move 1 2 ; resize 1 2 ; patch 1 0 3.5 3 ; fill all 0 0 -8 where sample_greatest = 0 ; "
    "sort all -crossline ; fill 2 last 1 1 -0 where sample_least > -1e1 and sample_count > 1 ; delete all where sample_greatest > 1e2"
)
NO_NUMBER = " ; patch last 0 nan ; set all inline 4 where sample_least = sample_greatest"
# the edits that are chosen by values are refused
OF_LENGTHS = (
    "fill all 0 1 7 where sample_least < 0 ; copy 1 end ; set all inline 3 where sample_count = 1 ; blank 2 ; resize 2 5 ; "
    "delete all where sample_greatest > 1e2 ; move 1 2 ; delete all where sample_count = 0 ; sort all -crossline"
)
BEHIND = [
    *[
        (f"facts behind edits of {name}", name, EDITS, "", REPORTS, 0)
        for name in ("s.sgy", "x.sgy", "t.sgy", "v.sgy", "deep.sgy", "ended.sgy")
    ],
    *[
        (f"facts behind edits of {file[0]}", file, OF_FLOATS + ("" if number == 1 else NO_NUMBER), "--floats", REPORTS_OF_FLOATS, 0)
        for number, file in ALL.items()
    ],
    *[
        (f"facts behind edits of {file[0]}, opaque", file, OF_LENGTHS, "--opaque-samples", REPORTS_OF_LENGTHS, 2)
        for file in ALL.values()
    ],
]


@pytest.mark.parametrize("file, edits, options, reports, refused", [pytest.param(*row[1:], id=row[0]) for row in BEHIND])
def test_facts_of_the_saved_file(room, file, edits, options, reports, refused):
    anew = check_reload(room, file, edits, options, "".join(line + "\n" for line in reports), refused)
    # no report is refused
    assert anew.status == 0
