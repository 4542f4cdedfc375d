"""Files whose fields say another cut than they have: read under a reading that is asked for, and mended by `declare`; the readings that
fit are told, and a look tells what the head says."""

import os
import re

import pytest

from files import changed, content, damaged, floats, in_order, without_end
from running import same
from tables import SAME, case, check, check_line, placed, refused, rows

ON_DISK = ["", "--on-disk"]
KINDS = [(order, major) for order in ("big", "little") for major in (0, 1, 2)]


# ---- one wrong field, in each revision and both orders
@pytest.fixture(params=KINDS, ids=[f"order {order}, revision {major}" for order, major in KINDS])
def kind(request):
    """An order, a revision, and the options that a sound file of both wants."""
    order, major = request.param
    return order, major, "--floats" if major == 2 else f"--floats --order {order}"


def check_mended(room, made, sound, options):
    """Under the options `declare` makes the sound file of it, in memory and on disk, and that file loads without them."""
    for place in ON_DISK:
        check(room, case("is declared and mended", ("bad.sgy", made), "declare", "ok", options=options + " " + place, saved=sound))


def test_the_number_of_samples(room, kind):
    order, major, asked = kind
    sound = floats(order, 5, major)
    made = changed(sound, f"3220 {in_order(order, 3, 2)}")
    # in revision 0 the traces tell their number
    if major == 0:
        check(room, case("samples", ("bad.sgy", made), "count", "traces 3", options=asked))
    else:
        check(room, case("samples", ("bad.sgy", made), "count", "load refused L14 truncated trace 3", 3, options=asked))
    check_mended(room, made, sound, asked + " --samples 2")


def test_the_format(room, kind):
    order, major, asked = kind
    sound = floats(order, 5, major)
    made = changed(sound, f"3224 {in_order(order, 13, 2)}")
    check(room, case("format", ("bad.sgy", made), "count", "load refused L08 unknown format 13", 3, options=asked))
    check_mended(room, made, sound, asked + " --format 5")


def test_ibm_that_is_ieee(room, kind):
    order, major, asked = kind
    sound = floats(order, 5, major)
    check_mended(room, changed(sound, f"3224 {in_order(order, 1, 2)}"), sound, asked + " --format 5")


def test_the_number_of_texts(room, kind):
    order, major, asked = kind
    sound = made = floats(order, 5, major)
    # which revision 0 does not count
    if major != 0:
        made = changed(sound, f"3504 {in_order(order, 3, 2)}")
        check(room, case("texts", ("bad.sgy", made), "count", "load refused L09 text count 3", 3, options=asked))
    check_mended(room, made, sound, asked + " --texts 0")


def test_all_three(room, kind):
    order, major, asked = kind
    sound = floats(order, 5, major)
    texts = [] if major == 0 else [f"3504 {in_order(order, 3, 2)}"]
    made = changed(sound, f"3220 {in_order(order, 9, 2)}", f"3224 {in_order(order, 99, 2)}", *texts)
    check_mended(room, made, sound, asked + " --texts 0 --samples 2 --format 5")


def test_without_a_reading_declares_nothing(room, kind):
    order, major, asked = kind
    check(room, case("without a reading", ("sound.sgy", floats(order, 5, major)), "declare", "ok", options=asked, saved=SAME))


# ---- where the file could not say it
SEVEN = "f.sgy", changed(floats("big", 5, 0), f"{3600 + 248 + 114} 0007")
NO_NUMBER = "f.sgy", changed(floats("big", 5, 0), f"{3600 + 248 + 114} 0000", "3220 0005")
HEADS = [("head.sgy", changed(content("none.sgy"), f"3500 0{major}")) for major in (0, 1)]
COULD_NOT = [
    case(
        "a trace of revision 0 that says another number: is left as it is", SEVEN,
        "declare ; count", "refused E06 frame / traces 3", 1, options="--floats --samples 2", saved=SAME,
    ),
    case("also under --fixed", SEVEN, "declare ; count", "refused E06 frame / traces 3", 1, options="--floats --fixed"),
    case(
        "a trace that says none: leaves it to the header", NO_NUMBER,
        "declare ; count", "ok / traces 3", options="--floats --samples 2", saved="3222 5 2",
    ),
    *[
        case(
            f"samples above 65535 in revision {major}", HEADS[major],
            "declare ; info",
            f"refused E06 frame / info order big revision {major}.0 format 3 samples 70000 fixed yes extensions 0 blocks 0 trailer 0 "
            "traces 0 bytes 3600",
            1, options="--samples 70000",
        )
        for major in (0, 1)
    ],
    case(
        "samples above 65535 in revision 2: stand in the wide field", ("head.sgy", changed(content("none.sgy"), "3500 02")),
        "declare ; info",
        "ok / info order big revision 2.0 format 3 samples 70000 fixed yes extensions 0 blocks 0 trailer 0 traces 0 bytes 3600",
        options="--samples 70000", saved="3222 2 0; 3270 0 1; 3271 0 21; 3272 0 160",
    ),
    case(
        "and up to 65535 in the short one: with the wide one 0", ("o.sgy", changed(content("none.sgy"), "3221 00", "3269 011170", "3500 02")),
        "declare ; info",
        "ok / info order big revision 2.0 format 3 samples 65535 fixed yes extensions 0 blocks 0 trailer 0 traces 0 bytes 3600",
        options="--samples 65535", saved="3221 0 377; 3222 0 377; 3270 1 0; 3271 21 0; 3272 160 0",
    ),
    case(
        "texts in revision 0", ("block.sgy", changed(content("block.sgy"), "3500 00")),
        "declare ; info",
        "refused E06 frame / info order big revision 0.0 format 3 samples 2 fixed no extensions 0 blocks 1 trailer 0 traces 3 bytes 7532",
        1, options="--texts 1",
    ),
    case(
        "texts in revision 1: are counted", "block.sgy",
        "declare ; info",
        "ok / info order big revision 1.0 format 3 samples 2 fixed yes extensions 0 blocks 1 trailer 0 traces 3 bytes 7532",
        options="--texts 1", saved="3506 0 1",
    ),
    case(
        "the flag of --fixed: is set", "loose.sgy",
        "declare ; info",
        "ok / info order big revision 1.0 format 3 samples 2 fixed yes extensions 0 blocks 0 trailer 0 traces 3 bytes 4332",
        options="--fixed", saved="3504 0 1",
    ),
]

# ---- a reading stands in the place of a field
FIELDS = [
    case(
        "a format that is none", "s.sgy",
        "count",
        "load refused L08 unknown format 13",
        3, options="--format 13",
    ),
    case(
        "a format of floats", "s.sgy",
        "count",
        "load refused L06 float format 5",
        3, options="--format 5", errors="segywb: with --floats the file is read, its samples with their values; with --opaque-samples as bytes without a value",
    ),
    case(
        "more texts than there are bytes", "s.sgy",
        "count",
        "load refused L09 text count 32767",
        3, options="--texts 32767",
    ),
    case(
        "more samples than there are bytes", "s.sgy",
        "count",
        "load refused L14 truncated trace 1",
        3, options="--samples 4294967295",
    ),
    case(
        "no sample", "s.sgy",
        "count",
        "load refused L14 truncated trace 4",
        3, options="--samples 0",
    ),
    case(
        "a trace without samples", without_end("s.sgy", 3840),
        "count",
        "traces 1",
        options="--samples 0",
    ),
    case(
        "the last word counts", "s.sgy",
        "count",
        "traces 3",
        options="--samples 9 --samples 2 --fixed",
    ),
    case(
        "the word stands alone", "s.sgy",
        "declare now ; declare ; bin samples 2 ; bin format 3",
        "refused S02 words / ok / refused E06 frame / refused E06 frame",
        1, options="--samples 2",
    ),
]
LINES = [
    ("texts below 0", "s.sgy --texts -1 --script script"),
    ("too many texts", "s.sgy --texts 32768 --script script"),
    ("a format above 65535", "s.sgy --format 65536 --script script"),
    ("samples above 2^32 - 1", "s.sgy --samples 4294967296 --script script"),
    ("a look and a script", "s.sgy --look --script script"),
    ("a look and a save", "s.sgy --look --out o.sgy"),
    ("a look and a session", "s.sgy --look --session"),
    ("a look and --on-disk", "s.sgy --look --on-disk"),
    ("a look and --max-bytes", "s.sgy --look --max-bytes 5"),
    ("a look and --quiet", "s.sgy --look --quiet"),
]

# ---- flags that are not 1, header extensions, and data trailer records
DECLARED = [
    case("a flag of 7: becomes 1", damaged("s.sgy", "3502 0007"), "declare", "ok", options="--fixed", saved="3504 7 1"),
    case("header extensions: stay", damaged("x.sgy", "3220 0005"), "declare", "ok", options="--samples 2", saved=content("x.sgy")),
    case("data trailer records: stay too", damaged("tail.sgy", "3220 0005"), "declare", "ok", options="--samples 2", saved=content("tail.sgy")),
    case(
        "samples above 65535, little-endian: stand in the wide field, lowest byte first", without_end("t.sgy", 3600),
        "declare", "ok", options="--samples 70000", saved="3221 2 0; 3269 0 160; 3270 0 21; 3271 0 1",
    ),
]


@pytest.mark.parametrize("row", rows(COULD_NOT + FIELDS + DECLARED))
def test_readings(room, row):
    check(room, row)


@pytest.mark.parametrize("words", [pytest.param(words, id=name) for name, words in LINES])
def test_line_that_is_not_accepted(room, words):
    room.make("s.sgy")
    room.put("script", "count\n")
    check_line(room, *words.split())


# ---- readings that fit are told
TEXT = content("block.sgy")
SHORT = content("s.sgy")[:3600] + content("s.sgy")[-732:-488]
# a file, what is told of it, and options
FITS = [
    ("the first trace tells its number", damaged("s.sgy", "3220 0005", "3714 0002"), ["--samples 2: 3 traces"], ""),
    ("the header tells it", damaged("s.sgy", "3502 0000", "3714 0009", "3958 0009"), ["--samples 2: 3 traces"], ""),
    ("a format of two bytes", damaged("s.sgy", "3224 000d"), ["--format 3: 3 traces"], ""),
    (
        "formats of four bytes", ("bad.sgy", changed(floats("big", 5, 1), "3224 000d")),
        ["--format 1 --floats: 3 traces", "--format 5 --floats: 3 traces", "--format 2: 3 traces"], "",
    ),
    ("no texts", damaged("s.sgy", "3504 fffe"), ["--texts 0: 3 traces"], ""),
    ("one text", ("bad.sgy", changed(TEXT, "3504 7fff")), ["--texts 1: 3 traces"], ""),
    (
        "a format where the traces tell another number", damaged("s.sgy", "3500 00", "3224 000d", "3714 0003"),
        ["--samples 2 --format 3: 3 traces"], "",
    ),
    (
        "a text where they do", ("bad.sgy", changed(TEXT, "3502 0000", "3504 fffe", "6914 0005")),
        ["--samples 2 --texts 1: 3 traces"], "",
    ),
    ("the fields where the reading is wrong", ("bad.sgy", content("s.sgy")), ["--samples 2: 3 traces"], "--samples 9"),
    ("one short trace", ("bad.sgy", changed(SHORT, "3220 0007")), ["--samples 2: 1 trace"], ""),
    ("a torn file", without_end("s.sgy", 4331), [], ""),
    ("quietly", damaged("s.sgy", "3224 000d"), [], "--quiet"),
]


def told_readings(ended):
    """The readings that standard error tells, without those of --tail."""
    found = [re.match(r"segywb: [^ ]* can be read with (.*)", line) for line in ended.lines() if "--tail" not in line]
    return [one.group(1) for one in found if one]


@pytest.mark.parametrize("file, told, options", [pytest.param(*row[1:], id=row[0]) for row in FITS])
def test_readings_that_fit_are_told(room, file, told, options):
    name, _ = placed(room, file)
    ended = room.ask(name, "count\n", *options.split())
    assert ended.status == 3
    assert told_readings(ended) == told
    # what is told is true
    for line in told:
        words, traces = line.split(": ")
        anew = room.ask(name, "count\n", *words.split())
        assert anew.answers.decode() == f"traces {traces.split()[0]}\n"


def test_a_torn_file_with_header_extensions_from_a_pipe(room):
    room.feed("torn.pipe", content("x.sgy")[:-1])
    ended = room.ask("torn.pipe", "count\n")
    assert (ended.status, ended.answers) == (3, b"load refused L14 truncated trace 1\n")
    assert told_readings(ended) == []


# a pipe that has a name is not opened again: that would wait for a writer
@pytest.mark.parametrize("words", ["--script script", "--look"])
def test_a_refused_pipe_with_a_name(room, words):
    room.put("script", "count\n")
    if words == "--look":
        os.mkfifo(room.path("refused.pipe"))
    else:
        room.feed("refused.pipe", damaged("s.sgy", "3224 000d")[1])
    ended = room.run("refused.pipe", *words.split(), longest=20)
    assert ended.status == 3


DAMAGES = [("3220 0005",), ("3224 000d",), ("3504 0009",), ("3502 0000", "3714 0003"), ("3500 00", "3224 0300")]


@pytest.mark.parametrize("damages", DAMAGES, ids=[one[0] for one in DAMAGES])
def test_a_damaged_file_is_read_with_the_words_that_are_told(room, damages):
    name, _ = placed(room, damaged("s.sgy", *damages))
    told = told_readings(room.ask(name, "count\n"))
    for line in told:
        words, traces = line.split(": ")
        ended = room.ask(name, "count\n", *words.split())
        assert ended.answers.decode() == f"traces {traces.split()[0]}\n"
    assert told


# ---- in place, and in a session
def test_a_repair_in_place_writes_the_header_alone(room):
    check(room, case("in place", damaged("s.sgy", "3220 0005"), "declare", "ok", options="--samples 2 --in-place"))
    assert same(room.get("bad.sgy"), content("s.sgy"))


def test_in_a_session(room):
    name, _ = placed(room, damaged("s.sgy", "3224 000d"))
    room.run(name, "--format", "3", "--session", "--out", "o.sgy", entered=b"declare\nsave\n")
    assert same(room.get("o.sgy"), content("s.sgy"))


# ---- what the head says
HEAD = [
    "look bytes 4332", "look order big assumed", "look revision 1.0", "look format 3", "look interval 4000", "look samples 2",
    "look wide_samples 0", "look fixed 1", "look texts 0", "look extensions 0", "look trailer 0", "look first_trace 0",
]
LITTLE = [
    "look bytes 3846", "look order little told", "look revision 2.0", "look format 7", "look interval 0", "look samples 2",
    "look wide_samples 0", "look fixed 1", "look texts 0", "look extensions 0", "look trailer 0", "look first_trace 0",
    "look trace_bytes 246", "look traces 1 rest 0",
]
LOOKS = [
    ("the head", "s.sgy", "", HEAD + ["look trace_bytes 244", "look traces 3 rest 0"]),
    ("the head under readings", "s.sgy", "--samples 10 --format 8", HEAD + ["look trace_bytes 250", "look traces 2 rest 232"]),
    ("the head with texts", "s.sgy", "--texts 1", HEAD + ["look trace_bytes 244", "look traces none"]),
    ("the head with no format", "s.sgy", "--format 13", HEAD + ["look trace_bytes none", "look traces none"]),
    ("the head of a little-endian file", "t.sgy", "", LITTLE),
]


@pytest.mark.parametrize("file, options, told", [pytest.param(*row[1:], id=row[0]) for row in LOOKS])
def test_a_look(room, file, options, told):
    ended = room.run(room.make(file), "--look", *options.split())
    assert (ended.status, ended.errors) == (0, b"")
    assert ended.answers.decode().splitlines() == told


def look(room, file, *words):
    """The lines of a look."""
    name, _ = placed(room, file)
    return room.run(name, "--look", *words).answers.decode().splitlines()


def test_a_look_at_the_order(room):
    assert look(room, "untold.sgy", "--order", "little")[1] == "look order little asked"
    assert look(room, damaged("s.sgy", "3296 02010403"))[1] == "look order big swapped"


def test_a_look_at_texts_that_end_by_themselves(room):
    assert look(room, damaged("x.sgy", "3504 ffff", "3528 00000001"))[-7:] == [
        "look fixed 1", "look texts -1", "look extensions 1", "look trailer 1", "look first_trace 0", "look trace_bytes 484",
        "look traces none",
    ]


@pytest.mark.parametrize(
    "name, error",
    [
        ("short.sgy", "short.sgy: the two file headers have 3600 bytes"),
        (".", "--look needs a file on disk, and . is none"),
        ("nothing.sgy", "cannot open nothing.sgy"),
    ],
)
def test_a_look_at_what_is_no_file(room, name, error):
    room.put("short.sgy", content("s.sgy")[:3599])
    ended = room.run(name, "--look")
    assert (ended.status, ended.answers, ended.errors.decode()) == (3, b"", f"segywb: {error}\n")
