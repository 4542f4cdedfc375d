"""Scripts over small files: answers, status, standard error, and the saved file byte by byte."""

import os
import random

import pytest

from files import changed, content, damaged, without_end
from running import differences, same
from tables import ABSENT, SAME, case, check, check_line, placed, refused, rows, saving

EBCDIC_TEXT = bytes.fromhex("c340f140d3c9d5c5")
FULL_MAP = " ; ".join(f"map n{number} @1:4" for number in range(1, 65))

# ---- a field is set and read by its byte place; sizes, signs, orders; what a file is, and its samples; names; the binary header
FIELDS = [
    case(
        "sets and gets: changes one byte", "s.sgy",
        "set 2 @189:4 7 ; get 2 @189:4",
        "ok / value 7",
        saved="4036 12 7",
    ),
    case(
        "needs no out", "s.sgy",
        "set 2 @189:4 7 ; get 2 @189:4",
        "ok / value 7",
    ),
    case(
        "an empty script saves the file as it is: and no byte differs", "s.sgy",
        "",
        "",
        saved=SAME,
    ),
    saving(
        "header extensions", "x.sgy",
        "set 1 @10:2 258 ; get 1 @9:4 ; set 1 @11:4 -1 ; get 1 @9:4 ; set 1 @1.1:8 -1 ; get 1 @1.1:8u ; set 1 @1.157:2 1 ; "
        "set 1 @1.157:2 2 ; get 1 @2.1:4 ; get 1 @1.238:4",
        "ok / value 66048 / ok / value 131071 / ok / value 18446744073709551615 / ok / refused E06 frame / refused E03 no place / "
        "refused E03 no place",
        1,
    ),
    case(
        "little-endian: little-endian bytes", "t.sgy",
        "get 1 @240:3 ; set 1 @1:4 258 ; get 1 @1:4 ; get 1 @1:1u",
        "refused E03 no place / ok / value 258 / value 2",
        1, saved="3601 0 2; 3602 0 1",
    ),
    case(
        "ranges and places", "s.sgy",
        "set 1 @189:2 32768 ; set 1 @189:2 32767 ; set 1 @189:2u 65535 ; get 1 @189:2 ; set 1 @189:3 -8388608 ; get 1 @189:3 ; "
        "get 1 @189:8 ; get 1 @189:5 ; get 1 @0:4 ; get 0 @1:4 ; get 4 @1:4",
        "refused E04 does not fit / ok / ok / value -1 / ok / value -8388608 / value -9223371993905102827 / refused E03 no place / "
        "refused E03 no place / refused E01 no trace 0 of 3 / refused E01 no trace 4 of 3",
        1,
    ),
    case(
        "counts and samples", "s.sgy",
        "count ; info ; sample 1 1 ; sample 1 2 ; sample 4 0 ; count 1 ; sample 1 ; sample 1 -1",
        "traces 3 / info order big revision 1.0 format 3 samples 2 fixed yes extensions 0 blocks 0 trailer 0 traces 3 bytes 4332 / "
        "value -2 / refused E05 no sample 2 of 2 / refused E01 no trace 4 of 3 / refused S02 words / refused S02 words / "
        "refused S03 number",
        1,
    ),
    case(
        "little-endian samples of 24 bits", "t.sgy",
        "sample 1 0 ; sample 1 1 ; info",
        "value -1 / value -8388608 / "
        "info order little revision 2.0 format 7 samples 2 fixed yes extensions 0 blocks 0 trailer 0 traces 1 bytes 3846",
    ),
    case(
        "a file without traces", "none.sgy",
        "info ; count",
        "info order big revision 1.0 format 3 samples 2 fixed yes extensions 0 blocks 0 trailer 0 traces 0 bytes 3600 / traces 0",
    ),
    case(
        "header extensions counted for each trace", "deep.sgy",
        "info ; get 1 @2.1:4 ; get 1 @3.1:4 ; set 1 @1.157:2u 3 ; set 1 @1.157:2u 0 ; set 1 @1.137:4u 2 ; sample 1 1",
        "info order big revision 2.0 format 3 samples 2 fixed no extensions 3 blocks 0 trailer 0 traces 1 bytes 4324 / value 0 / "
        "refused E03 no place / refused E06 frame / refused E06 frame / ok / value 2",
        1,
    ),
    case(
        "data trailer records: are saved behind the traces", "tail.sgy",
        "info ; set 1 @5:4 9",
        "info order big revision 2.0 format 3 samples 2 fixed yes extensions 1 blocks 0 trailer 2 traces 1 bytes 10484 / ok",
        saved="3608 1 11",
    ),
    case(
        "a torn trace in front of them", without_end("tail.sgy", 10483),
        "info ; set 1 @5:4 9",
        "load refused L14 truncated trace 1",
        3,
    ),
    case(
        "text headers that end by themselves", "ended.sgy",
        "info ; sample 3 1",
        "info order big revision 1.0 format 3 samples 2 fixed yes extensions 0 blocks 2 trailer 0 traces 3 bytes 10732 / value 6",
    ),
    case(
        "names: names change their own bytes", "s.sgy",
        "set 1 scalar 100 ; set 1 x 3 ; get 1 source_x ; get 1 @181:4 ; get 1 samples ; get 1 nothing ; set 4 nothing 1 ; "
        "set 1 ext_count 1 ; set 1 x 2147483648",
        "ok / ok / value 0 / value 3 / value 2 / refused E02 no field / refused E01 no trace 4 of 3 / refused E03 no place / "
        "refused E04 does not fit",
        1, saved="3672 0 144; 3783 3 0; 3784 350 3",
    ),
    case(
        "a name of an extension", "x.sgy",
        "map scalar @189:2 ; set 1 inline 327680 ; get 1 scalar ; map deep @1.137:4u ; get 1 deep ; fields",
        "ok / ok / value 5 / ok / value 0 / fields 7 / field inline @189:4 / field crossline @193:4 / field offset @37:4 / "
        "field x @181:4 / field y @185:4 / field scalar @189:2 / field deep @1.137:4u",
    ),
    case(
        "the binary header: its bytes", "s.sgy",
        "getbin interval ; bin interval 2000 ; bin @3225:2 2 ; bin samples 3 ; bin trace_count 2 ; bin @3494:8 0 ; bin @3493:8 -1 ; "
        "bin inline 1 ; getbin @3200:2 ; getbin @3599:2u ; getbin @3600:2 ; bin @1.3217:2 1 ; bin job 2147483648",
        "value 4000 / ok / refused E06 frame / refused E06 frame / ok / refused E06 frame / ok / refused E02 no field / "
        "refused E03 no place / value 0 / refused E03 no place / refused E03 no place / refused E04 does not fit",
        1, saved="3217 17 7; 3218 240 320; 3493 0 377; 3494 0 377; 3495 0 377; 3496 0 377; 3497 0 377; 3498 0 377; 3499 0 377; 3500 0 377; 3520 0 2",
    ),
    case(
        "a full map", "s.sgy",
        FULL_MAP + " ; map n65 @1:4 ; map delay @5:4 ; map n1 @5:4 ; get 3 n1 ; unmap n1 ; map n65 @1:4",
        "ok / " * 64 + "refused E08 M04 full / refused E08 M04 full / ok / value 3 / ok / ok",
        1,
    ),
]

# ---- text
TEXTS = [
    case(
        "stanzas", "ended.sgy",
        "stanzas ; line 1 1 ; line 2 1 ; line 3 1 ; code 2",
        "stanzas 2 / stanza 1 Acme: Note / stanza 2 Seg:  ENDtext / line |((Acme: Note))| / line |((Seg:  ENDtext))| / "
        "refused E03 no place / code ascii",
        1,
    ),
    case(
        "stanzas of data trailer records", "noted.sgy",
        "stanzas ; line 1 1 ; line 2 1 ; line 3 1 ; code 2",
        "stanzas 1 / stanza 1 Acme: Tail / refused E03 no place / refused E03 no place / refused E03 no place / refused E03 no place",
        1,
    ),
    saving(
        "text in ASCII", ("ascii.sgy", bytes(3200) + content("s.sgy")[3200:]),
        "code 0 ; text 1 C ; line 0 1 ; line 0 2",
        "code ascii / ok / line |C| / line |" + "\\00" * 80 + "|",
    ),
]

# ---- samples and whole traces
WITHOUT_TRACES = content("noted.sgy")[:3600] + content("noted.sgy")[-6400:]
TRACES = [
    case(
        "a sample of 24 bits: its bytes", "t.sgy",
        "sample 1 0 ; sample 1 1 ; set 1 @1:4 258 ; patch 1 0 -2",
        "value -1 / value -8388608 / ok / ok",
        saved="3601 0 2; 3602 0 1; 3841 377 376",
    ),
    case(
        "a copy has the edits", "x.sgy",
        "patch 1 0 7 ; set 1 @10:2 258 ; set 1 @9:4 1 ; copy 1 2 ; set 1 @9:4 5 ; get 2 @9:4 ; sample 2 0 ; get 1 @9:4",
        "ok / ok / ok / ok / ok / value 1 / value 7 / value 5",
    ),
    case(
        "no room for a trace", "s.sgy",
        "blank 1",
        "refused E09 too large",
        1, options="--max-bytes 4332",
    ),
    case(
        "just room for a trace", "s.sgy",
        "blank 1",
        "ok",
        options="--max-bytes 4576",
    ),
    case(
        "a blank trace has all header extensions", "deep.sgy",
        "blank 2 ; get 2 @3.1:4 ; delete 1 ; info",
        "ok / value 0 / ok / info order big revision 2.0 format 3 samples 2 fixed no extensions 3 blocks 0 trailer 0 traces 1 bytes 4564",
    ),
    case(
        "all traces out and a blank one in, and the saved file", "s.sgy",
        "delete 3 ; delete 2 ; delete 1 ; count ; blank 1 ; count ; delete 2",
        "ok / ok / ok / traces 0 / ok / traces 1 / refused E01 no trace 2 of 1",
        1, saved=content("s.sgy")[:3600] + bytes(244),
    ),
    case(
        "traces in front of a data trailer, which is kept", "noted.sgy",
        "copy 1 2 ; blank 3 ; delete 1 ; delete 1 ; delete 1 ; count",
        "ok / ok / ok / ok / ok / traces 0",
        saved=WITHOUT_TRACES,
    ),
    case("and the file loads again", ("o.sgy", WITHOUT_TRACES), "count", "traces 0"),
    case(
        "many traces in and out leave the file as it was", "s.sgy",
        " ; ".join(["blank 1"] * 1200 + ["delete 1"] * 1200),
        " / ".join(["ok"] * 2400),
        saved=SAME,
    ),
]

# ---- the frame holds
FRAMES = [
    case(
        "no edit moves the end of a trace: a count that says the same is written", "v.sgy",
        "set 1 @115:2u 4 ; set 2 @115:2u 2 ; set 3 @115:2u 65535",
        "refused E06 frame / ok / ok",
        1, saved="3962 0 2",
    ),
    case(
        "the reading fixed: leaves bytes 3503-3504", "loose.sgy",
        "set 1 @115:2u 4",
        "ok",
        options="--fixed", saved="3716 2 4",
    ),
    case(
        "as written", "loose.sgy",
        "set 1 @115:2u 4",
        "refused E06 frame",
        1,
    ),
]

# ---- lines of a script
LINES = [
    case(
        "lines", "s.sgy",
        b"sett 1 @1:4 7\nset 1 @1:4\nset a @1:4 7\nget 1 nothing\n# note\n\nget 3 @5:4\r\nget 3 @5:4 ",
        "refused S01 unknown word / refused S02 words / refused S03 number / refused E02 no field / value 3 / value 3",
        1,
    ),
    case(
        "not text", "s.sgy",
        b'get 1 @5:4\n# \xff\n',
        "value 1 / refused S04 not text",
        1,
    ),
    case(
        "words and numbers", "s.sgy",
        b"  \t get\t1 \t@5:4\t\n #note\nget +1 @5:4\nget 1 @5:4u\nget 00001 @05:4\nget -0 @5:4\nset 1 @1:8 170141183460469231731687303715884105727\nset 1 @1:8 170141183460469231731687303715884105728\n",
        "value 1 / refused S03 number / value 1 / value 1 / refused E01 no trace 0 of 3 / refused E04 does not fit / refused S03 number",
        1,
    ),
]

# ---- refused files
SET = "set 1 @1:4 1"
OPAQUE = "segywb: with --opaque-samples the file is read all the same, its samples as bytes without a value"
FLOATS = "segywb: with --floats the file is read, its samples with their values; with --opaque-samples as bytes without a value"
REFUSED = [
    refused("torn", without_end("s.sgy", 4331), "L14 truncated trace 3", SET),
    refused("short", without_end("s.sgy", 3599), "L03 short 3599", SET),
    refused("empty", without_end("s.sgy", 0), "L03 short 0", SET),
    refused("one byte more", ("bad.sgy", content("s.sgy") + b"x"), "L14 truncated trace 4", SET),
    refused("pairs", damaged("s.sgy", "3296 02010403"), "L04 pair swapped", SET),
    refused("revision", damaged("s.sgy", "3500 0201"), "L05 revision 2.1", SET),
    refused("float", damaged("s.sgy", "3224 0001"), "L06 float format 1", SET, errors=FLOATS),
    refused("gain", damaged("s.sgy", "3224 0004"), "L07 gain format", SET, errors=OPAQUE),
    refused("format", damaged("s.sgy", "3224 000d"), "L08 unknown format 13", SET),
    refused("text count", damaged("s.sgy", "3504 fffe"), "L09 text count -2", SET),
    refused("no end of text", damaged("s.sgy", "3504 ffff"), "L09 text count -1", SET),
    refused("extensions", damaged("x.sgy", "3506 00000100"), "L10 extensions 256", SET),
    refused("trailer", damaged("x.sgy", "3528 00000001"), "L11 trailer 1", SET),
    refused("first trace", damaged("x.sgy", "3520 ffffffffffffffff"), "L12 first trace 18446744073709551615", SET),
    refused("extension count", damaged("x.sgy", "3996 ffff"), "L13 extension count trace 1", SET),
    refused("hostile samples", damaged("x.sgy", "3268 ffffffff"), "L14 truncated trace 1", SET),
    refused("limit", "s.sgy", "L02 too large", SET, options="--max-bytes 4331"),
    case("within the limit", "s.sgy", SET, "ok", options="--max-bytes 4332"),
    case("the greatest limit", "s.sgy", SET, "ok", options="--max-bytes 1099511627776"),
]

# ---- a script that stops
STOPS = [
    case(
        "a stopped run saves nothing", "s.sgy",
        "get 9 @1:4 ; get 1 @5:4", "refused E01 no trace 9 of 3",
        1, options="--stop", saved=ABSENT,
    ),
    case(
        "goes on, and saves", "s.sgy",
        "get 9 @1:4 ; get 1 @5:4", "refused E01 no trace 9 of 3 / value 1",
        1, saved=SAME,
    ),
    case("a large script", "s.sgy", b" " * 16777217, "script refused P02 too large", 4),
    case("and one that just fits", "s.sgy", b" " * 16777216, ""),
]

NOT_ACCEPTED = [
    ("no words", ""),
    ("no script word", "s.sgy"),
    ("an unknown word", "s.sgy --script script --nothing"),
    ("two files", "s.sgy x.sgy --script script"),
    ("a limit of 0", "s.sgy --script script --max-bytes 0"),
    ("a limit above 2^40", "s.sgy --script script --max-bytes 1099511627777"),
    ("a limit that is no number", "s.sgy --script script --max-bytes many"),
    ("an order that is none", "s.sgy --script script --order middle"),
    ("no order", "s.sgy --script script --order"),
]

# ---- paths and devices: the words, the status, the answers, and standard error
NO_PLACE = """segywb: save failed after 0 bytes
segywb: none/o.sgy: No such file or directory (os error 2); save elsewhere
"""
FULL = """segywb: save failed after 0 bytes
segywb: /dev/full: cannot write it (No space left on device (os error 28)): it took nothing; save elsewhere
"""
PATHS = [
    ("no file", "absent.sgy --script script", 3, "", "segywb: cannot open absent.sgy\n"),
    ("no script", "s.sgy --script absent.txt", 4, "", "segywb: cannot open absent.txt\n"),
    ("no place for the save", "s.sgy --script script --out none/o.sgy", 4, "", NO_PLACE),
    ("a folder as script", "s.sgy --script folder", 4, "script refused P01 read failed\n", ""),
    ("a full device", "s.sgy --script script --out /dev/full", 4, "ok\n", FULL),
]


@pytest.mark.parametrize("row", rows(FIELDS + TEXTS + TRACES + FRAMES + LINES + REFUSED + STOPS))
def test_script(room, row):
    check(room, row)


def test_saves_over_its_own_file(room):
    before = content("s.sgy")
    room.put("own.sgy", before)
    room.put("script", "set 2 @189:4 7\nget 2 @189:4\n")
    ended = room.run("own.sgy", "--script", "script", "--out", "own.sgy")
    assert (ended.status, ended.answers, ended.errors) == (0, b"ok\nvalue 7\n", b"")
    assert differences(before, room.get("own.sgy")) == ["4036 12 7"]


def test_text_is_in_ebcdic_and_no_other_byte_differs(room):
    row = saving(
        "text", "s.sgy",
        "code 0 ; text 1 C 1 LINE[ ; text 1 " + "C" * 81 + " ; text 1 C 1 LINE  ; line 0 1 ; line 0 2 ; text 41 C ; text 0 C ; line 0 41 ; "
        "line 1 1 ; code 1 ; text 2 ; line 0 2 ; text 3  two  blanks ; line 0 3 ; text ; line 0",
        "code ebcdic / refused E07 T02 no code for column 9 / refused E07 T01 too long / ok / line |C 1 LINE| / line |C| / "
        "refused E03 no place / refused E03 no place / refused E03 no place / refused E03 no place / refused E03 no place / ok / "
        "line || / ok / line | two  blanks| / refused S02 words / refused S02 words",
        1,
    )
    check(room, row)
    saved = room.get("o.sgy")
    assert saved[:8] == EBCDIC_TEXT
    assert same(saved[240:], content("s.sgy")[240:])


def random_edits(numbers, count, traces):
    """Edits at random, and what undoes each, the last first."""
    edits, undone = [], []
    for _ in range(count):
        p, q = numbers.randint(1, traces), numbers.randint(1, traces)
        kind = numbers.randrange(4)
        if kind == 3:
            edits += [f"copy {p} 1", f"patch 1 1 {numbers.randint(-16384, 16383)}", f"set 1 @189:4 {numbers.randint(0, 32767)}"]
        else:
            edits.append((f"move {p} {q}", f"copy {p} {q}", f"blank {p}")[kind])
        undone.append((f"move {q} {p}", f"delete {q}", f"delete {p}", "delete 1")[kind])
    return edits, undone[::-1]


@pytest.fixture
def many():
    """100000 traces, and edits at random of them, each undone."""
    places = [f"{3600 + 244 * (p - 1) + 188} {p:08x}" for p in (7, 1031, 99999)]
    first = content("s.sgy")[3600:3844]
    made = changed(content("s.sgy")[:3600] + first * 100000, *places)
    edits, undone = random_edits(random.Random(11), 2000, 100000)
    return made, edits + undone


def test_edits_at_random_undone_in_100000_traces(room, many):
    made, script = many
    room.put("many.sgy", made)
    room.put("script", "\n".join(script) + "\n")
    ended = room.run("many.sgy", "--script", "script", "--out", "o.sgy")
    assert ended.status == 0
    assert ended.answers == b"ok\n" * len(script)
    assert same(room.get("o.sgy"), made)


def test_edits_at_random_undone_from_a_file_that_was_saved_among_them(room, many):
    made, script = many
    room.put("many.sgy", made)
    room.put("begun", "\n".join(script[:1500]) + "\n")
    room.put("rest", "\n".join(script[1500:]) + "\n")
    assert room.run("many.sgy", "--script", "begun", "--out", "begun.sgy").status == 0
    assert not same_bytes(room, "begun.sgy", made)
    assert room.run("begun.sgy", "--script", "rest", "--out", "o.sgy").status == 0
    assert same(room.get("o.sgy"), made)


def same_bytes(room, name, made):
    """Whether a file has these bytes."""
    return room.get(name) == made


def test_a_folder_is_refused(room):
    os.mkdir(room.path("folder"))
    room.put("script", "set 1 @1:4 1\n")
    ended = room.run("folder", "--script", "script", "--out", "o.sgy")
    assert (ended.status, ended.answers) == (3, b"load refused L01 read failed\n")
    assert ended.told() == ["L01 read failed"]
    assert ended.others() == []
    assert not room.has("o.sgy")


@pytest.mark.parametrize("words, status, answers, errors", [pytest.param(*row[1:], id=row[0]) for row in PATHS])
def test_paths(room, words, status, answers, errors):
    room.make("s.sgy")
    os.mkdir(room.path("folder"))
    room.put("script", "set 1 @1:4 1\n")
    ended = room.run(*words.split())
    assert (ended.status, ended.answers.decode(), ended.errors.decode()) == (status, answers, errors)


@pytest.mark.parametrize("row", rows([case("answers fail", "s.sgy", SET, ""), case("a lost refusal", damaged("x.sgy", "3268 ffffffff"), SET, "")]))
def test_answers_that_cannot_be_told_save_nothing(room, row):
    name, _ = placed(room, row.file)
    room.put("script", row.script)
    with open("/dev/full", "wb") as full:
        ended = room.run(name, "--script", "script", "--out", "o.sgy", stdout=full)
    assert (ended.status, ended.errors) == (4, b"segywb: answers failed\n")
    assert not room.has("o.sgy")


@pytest.mark.parametrize("words", [pytest.param(words, id=name) for name, words in NOT_ACCEPTED])
def test_line_that_is_not_accepted(room, words):
    room.make("s.sgy", "x.sgy")
    room.put("script", "set 1 @1:4 1\n")
    check_line(room, *words.split())
