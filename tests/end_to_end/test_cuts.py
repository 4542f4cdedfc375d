"""Files that are cut at each length (of a long text, a trailer and a long trace, at some lengths and all near the ends), and files whose
headers name counts that they do not hold: each is refused by the name that the definitions give, or accepted, and then saved byte for
byte. Under --tail those that are cut in their traces are read too, with the whole traces in front of the cut. In memory, and on disk."""

import pytest

from files import changed, content
from sweeps import end, refusal

COUNT = ["bad.sgy", "--script", "count", "--out", "o.sgy"]
OPAQUE = "=segywb: with --opaque-samples the file is read all the same, its samples as bytes without a value"
FLOATS = "=segywb: with --floats the file is read, its samples with their values; with --opaque-samples as bytes without a value"
ON_DISK = pytest.mark.parametrize("place", [[], ["--on-disk"]], ids=["in memory", "on disk"])
# of the files here, tail.sgy has a stanza in its data trailer records
NAMES = {"tail.sgy": "noted.sgy"}

# the lengths FIRST to LAST of a file, by steps, and what refuses them
REFUSED = [
    ("s.sgy", 0, 3599, 1, "L03 short %"),
    *[
        row
        for name in ("x.sgy", "t.sgy", "v.sgy", "ended.sgy", "ebcdic.sgy", "deep.sgy", "tail.sgy")
        for row in ((name, 0, 3580, 179, "L03 short %"), (name, 3590, 3599, 1, "L03 short %"))
    ],
    # a text that does not end, and one that ends too early
    ("ended.sgy", 3600, 9999, 7, "L09 text count -1"),
    ("ended.sgy", 9980, 9999, 1, "L09 text count -1"),
    ("ebcdic.sgy", 3600, 6799, 29, "L09 text count -1"),
    ("ebcdic.sgy", 6785, 6799, 1, "L09 text count -1"),
    # no whole trailer, and one that lacks a byte
    ("tail.sgy", 3600, 9999, 7, "L11 trailer 2"),
    ("tail.sgy", 9980, 9999, 1, "L11 trailer 2"),
]
# where the first trace of a file begins, and where each trace ends
ENDS = {
    "s.sgy": (3600, 3844, 4088, 4332),
    "x.sgy": (3600, 4084),
    "t.sgy": (3600, 3846),
    "v.sgy": (3600, 3846, 4090, 135400),
    "deep.sgy": (3600, 4324),
    "ended.sgy": (10000, 10244, 10488, 10732),
    "ebcdic.sgy": (6800, 7044, 7288, 7532),
    "tail.sgy": (10000, 10484),
}
ACCEPTED = [(name, at, traces) for name, ends in ENDS.items() for traces, at in enumerate(ends)]


# a file, the whole traces in front, and between which lengths the next one is cut
BETWEEN = [
    (name, traces, start, stop) for name, ends in ENDS.items() for traces, (start, stop) in enumerate(zip(ends, ends[1:]))
]


def torn():
    """The lengths between the ends of two traces: a file, first, last, step, and the trace that is torn. A long one is cut near its
    ends, and at some lengths between."""
    for name, traces, start, stop in BETWEEN:
        if stop - start < 8000:
            yield name, start + 1, stop - 1, 1, traces + 1
        else:
            yield name, start + 1, start + 600, 1, traces + 1
            yield name, start + 601, stop - 1, 331, traces + 1
            yield name, stop - 50, stop - 1, 1, traces + 1


def kept():
    """Those under --tail: a file, first, last, step, and the whole traces in front."""
    for name, traces, start, stop in BETWEEN:
        if stop - start < 1000:
            yield name, start, stop - 1, 1, traces
        else:
            yield name, start, start + 250, 1, traces
            yield name, start + 251, stop - 1, 977, traces
            yield name, stop - 20, stop - 1, 1, traces


@pytest.fixture
def cut(room, sweeps):
    """cut(FILE) makes a file, and gives back what each run makes of it: its first bytes, as many as its number."""
    room.put("count", "count\n")

    def make(name):
        room.put(name, content(NAMES.get(name, name)))
        return f"{name}:%"

    return make


@ON_DISK
@pytest.mark.parametrize("name, first, last, step, text", REFUSED)
def test_cut_in_front_of_the_traces(sweeps, cut, name, first, last, step, text, place):
    sweeps.run(first, last, [refusal(text)], COUNT + place, step=step, make=("bad.sgy", cut(name)))


@ON_DISK
@pytest.mark.parametrize("name, first, last, step, trace", list(torn()))
def test_cut_in_a_trace(sweeps, cut, name, first, last, step, trace, place):
    sweeps.run(first, last, [refusal(f"L14 truncated trace {trace}")], COUNT + place, step=step, make=("bad.sgy", cut(name)))


@ON_DISK
@pytest.mark.parametrize("name, first, last, step, traces", list(kept()))
def test_cut_with_tail(sweeps, cut, name, first, last, step, traces, place):
    part = cut(name)
    sweeps.run(first, last, [end("accepted", 0, f"=traces {traces}", saved=part)], COUNT + ["--tail"] + place, step=step, make=("bad.sgy", part))


@ON_DISK
@pytest.mark.parametrize("name, length, traces", ACCEPTED)
def test_cut_behind_a_trace(sweeps, cut, name, length, traces, place):
    part = cut(name)
    sweeps.run(length, length, [end("accepted", 0, f"=traces {traces}", saved=part)], COUNT + place, make=("bad.sgy", part))


# ---- counts: of FILE the bytes from PLACE on (from 1, as the manual counts) become HEX. It is refused with TEXT, or has so many traces,
# and is then saved as it is
COUNTS = """
s.sgy 3221 0000 L14 truncated trace 4
s.sgy 3221 0001 L14 truncated trace 4
s.sgy 3221 0003 L14 truncated trace 3
s.sgy 3221 8000 L14 truncated trace 1
s.sgy 3221 ffff L14 truncated trace 1
x.sgy 3221 0000 L14 truncated trace 2
x.sgy 3221 ffff L14 truncated trace 1
t.sgy 3221 ffff L14 truncated trace 1
s.sgy 3269 ffffffff traces 3
x.sgy 3269 00000001 L14 truncated trace 2
x.sgy 3269 00000002 traces 1
x.sgy 3269 0000ffff L14 truncated trace 1
x.sgy 3269 00010000 L14 truncated trace 1
x.sgy 3269 7fffffff L14 truncated trace 1
x.sgy 3269 80000000 L14 truncated trace 1
x.sgy 3269 ffffffff L14 truncated trace 1
deep.sgy 3269 ffffffff traces 1
s.sgy 3225 0000 L08 unknown format 0
s.sgy 3225 0001 L06 float format 1
s.sgy 3225 0002 L14 truncated trace 3
s.sgy 3225 0004 L07 gain format
s.sgy 3225 0005 L06 float format 5
s.sgy 3225 0006 L06 float format 6
s.sgy 3225 0007 L14 truncated trace 3
s.sgy 3225 0008 L14 truncated trace 4
s.sgy 3225 0009 L14 truncated trace 3
s.sgy 3225 000a L14 truncated trace 3
s.sgy 3225 000b traces 3
s.sgy 3225 000c L14 truncated trace 3
s.sgy 3225 000d L08 unknown format 13
s.sgy 3225 000e L08 unknown format 14
s.sgy 3225 000f L14 truncated trace 3
s.sgy 3225 0010 L14 truncated trace 4
s.sgy 3225 0011 L08 unknown format 17
s.sgy 3225 0300 L08 unknown format 768
s.sgy 3225 ffff L08 unknown format 65535
s.sgy 3297 01020304 traces 3
s.sgy 3297 02010403 L04 pair swapped
s.sgy 3297 04030201 L08 unknown format 768
s.sgy 3297 ffffffff traces 3
s.sgy 3501 0000 traces 3
s.sgy 3501 00ff traces 3
s.sgy 3501 01ff traces 3
s.sgy 3501 0200 traces 3
s.sgy 3501 0201 L05 revision 2.1
s.sgy 3501 0300 L05 revision 3.0
s.sgy 3501 ffff L05 revision 255.255
s.sgy 3501 00000001ffff traces 3
s.sgy 3503 0000 traces 3
s.sgy 3503 ffff traces 3
s.sgy 3503 8000 traces 3
s.sgy 3505 0001 L09 text count 1
s.sgy 3505 7fff L09 text count 32767
s.sgy 3505 8000 L09 text count -32768
s.sgy 3505 fffe L09 text count -2
s.sgy 3505 ffff L09 text count -1
t.sgy 3505 0100 L09 text count 1
t.sgy 3505 ffff L09 text count -1
ended.sgy 3505 0002 traces 3
ended.sgy 3505 0003 L09 text count 3
none.sgy 3505 0001 L09 text count 1
none.sgy 3505 ffff L09 text count -1
s.sgy 3507 ffffffff traces 3
x.sgy 3507 00000000 L14 truncated trace 2
x.sgy 3507 00000002 L14 truncated trace 1
x.sgy 3507 000000ff L14 truncated trace 1
x.sgy 3507 00000100 L10 extensions 256
x.sgy 3507 00010001 L10 extensions 65537
x.sgy 3507 7fffffff L10 extensions 2147483647
x.sgy 3507 80000000 L10 extensions -2147483648
x.sgy 3507 ffffffff L10 extensions -1
t.sgy 3507 00010000 L10 extensions 256
t.sgy 3507 000000ff L10 extensions -16777216
x.sgy 3511 ffff traces 1
x.sgy 3513 ffffffffffffffff traces 1
s.sgy 3513 ffffffffffffffff traces 3
s.sgy 3521 ffffffffffffffff traces 3
x.sgy 3521 0000000000000e10 traces 1
x.sgy 3521 0000000000000e11 L12 first trace 3601
x.sgy 3521 0000000100000e10 L12 first trace 4294970896
x.sgy 3521 8000000000000e10 L12 first trace 9223372036854779408
x.sgy 3521 ffffffffffffffff L12 first trace 18446744073709551615
t.sgy 3521 100e000000000000 traces 1
t.sgy 3521 0000000000000e10 L12 first trace 1156862154280796160
s.sgy 3529 ffffffff traces 3
x.sgy 3529 00000001 L11 trailer 1
x.sgy 3529 7fffffff L11 trailer 2147483647
x.sgy 3529 80000000 L11 trailer -2147483648
x.sgy 3529 ffffffff L11 trailer -1
t.sgy 3529 01000000 L11 trailer 1
tail.sgy 3529 00000000 L14 truncated trace 15
tail.sgy 3529 00000001 L14 truncated trace 8
tail.sgy 3529 00000003 L11 trailer 3
tail.sgy 3529 00100000 L11 trailer 1048576
v.sgy 3715 0000 L14 truncated trace 541
v.sgy 3715 8000 L14 truncated trace 272
v.sgy 3715 ffff L14 truncated trace 4
v.sgy 3961 ffff traces 3
v.sgy 4205 0000 L14 truncated trace 541
v.sgy 4205 fffe L14 truncated trace 4
x.sgy 3997 0001 traces 1
x.sgy 3997 0002 L13 extension count trace 1
x.sgy 3997 ffff L13 extension count trace 1
deep.sgy 3997 0000 L14 truncated trace 1
deep.sgy 3997 0001 L14 truncated trace 2
deep.sgy 3997 0003 L14 truncated trace 1
deep.sgy 3997 0004 L13 extension count trace 1
deep.sgy 3977 00000001 L14 truncated trace 2
deep.sgy 3977 00000002 traces 1
deep.sgy 3977 00000003 L14 truncated trace 1
deep.sgy 3977 80000000 L14 truncated trace 1
deep.sgy 3977 ffffffff L14 truncated trace 1
x.sgy 3977 ffffffff traces 1
x.sgy 3715 ffff traces 1
"""
COUNT_ROWS = [row.split(maxsplit=3) for row in COUNTS.strip().splitlines()]


@ON_DISK
@pytest.mark.parametrize("name, place_of, digits, text", COUNT_ROWS, ids=[" ".join(row[:3]) for row in COUNT_ROWS])
def test_counts(room, sweeps, name, place_of, digits, text, place):
    room.put("count", "count\n")
    room.put("bad.sgy", changed(content(NAMES.get(name, name)), f"{int(place_of) - 1} {digits}"))
    hints = {"L06": FLOATS, "L07": OPAQUE}
    if text.startswith("traces"):
        ends = [end("accepted", 0, f"={text}", saved="bad.sgy")]
    else:
        ends = [refusal(text, errors=hints.get(text[:3], "-"))]
    sweeps.once(ends, COUNT + place)


def test_the_table_of_counts():
    assert len(COUNT_ROWS) == 114


# ---- what such files answer
ANSWERED = [
    ("a number of traces", "x.sgy", "3512 ffffffffffffffff", "faults", "faults 1\nF7 count 18446744073709551615 traces 1"),
    ("a number of samples in a header", "v.sgy", "3960 ffff", "table 2 2 samples", "table 1\n2 65535"),
    ("a trace of 65535 samples over the next", "v.sgy", "3960 ffff", "stat 2", "stat least -1 greatest 0 sum -1 samples 65535"),
]


@ON_DISK
@pytest.mark.parametrize("name, change, line, told", [pytest.param(*row[1:], id=row[0]) for row in ANSWERED])
def test_what_such_files_answer(room, sweeps, name, change, line, told, place):
    room.put("bad.sgy", changed(content(name), change))
    room.put("count", line + "\n")
    sweeps.once([end("so", 0, f"={told}", saved="bad.sgy")], COUNT + place)
