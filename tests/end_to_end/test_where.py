"""What standard error says of refused lines and files, and the words of the command line that say where lines come from."""

import os
import re
import shutil
import subprocess
from pathlib import Path

import pytest

from files import changed, content, damaged, without_end
from running import same
from tables import case, check, check_told, placed

MANUAL = Path(__file__).resolve().parents[2] / "docs" / "MANUAL.md"

# ---- each hint: a line, and what is told of it
TOLD = [
    (
        "a byte order mark",
        b"\xef\xbb\xbfcount",
        "S01 unknown word: ?count (a byte order mark stands in front: save the script as UTF-8 without it)",
    ),
    (
        "UTF-16 with a mark",
        b"\xff\xfec\x00o\x00u\x00n\x00t\x00",
        "S04 not text: ??c?o?u?n?t? (this looks like UTF-16: save the script as UTF-8)",
    ),
    (
        "UTF-16 without one",
        b"c\x00o\x00u\x00n\x00t\x00",
        "S01 unknown word: c?o?u?n?t? (this looks like UTF-16: save the script as UTF-8)",
    ),
    ("no UTF-8", b"text 1 \xc4", "S04 not text: text 1 ? (the line is not UTF-8: save the script as UTF-8)"),
    ("a command in capital letters", "SET 1 inline 7", "S01 unknown word: SET 1 inline 7 (in small letters: set)"),
    ("a near command", "sett 1 inline 7", "S01 unknown word: sett 1 inline 7 (did you mean set?)"),
    ("two letters changed over", "coutn", "S01 unknown word: coutn (did you mean count?)"),
    ("no command", "quit", "S01 unknown word: quit"),
    ("a near word of a query", "headr 1", "S01 unknown word: headr 1 (did you mean header?)"),
    ("a name in capital letters", "get 1 Inline", "E02 no field: get 1 Inline (in small letters: inline)"),
    ("a near name", "set 1 inlin 7", "E02 no field: set 1 inlin 7 (did you mean inline?)"),
    ("a near name of the standard", "get 1 sourc_x", "E02 no field: get 1 sourc_x (did you mean source_x?)"),
    (
        "two letters of a name changed over",
        "renumber 1 2 croslsine 7 1",
        "E02 no field: renumber 1 2 croslsine 7 1 (did you mean crossline?)",
    ),
    ("a near name of renumber", "renumber 1 2 crosline 7 1", "E02 no field: renumber 1 2 crosline 7 1 (did you mean crossline?)"),
    ("a near name of the binary header", "getbin intervall", "E02 no field: getbin intervall (did you mean interval?)"),
    ("a name of the binary header", "get 1 job", "E02 no field: get 1 job (a field of the binary header: bin and getbin)"),
    ("a name of the trace header", "bin inline 7", "E02 no field: bin inline 7 (a field of the trace headers: set and get)"),
    ("a near name of a field without a binding", "get 1 total_statics", "E02 no field: get 1 total_statics (did you mean total_static?)"),
    ("a near name of an extension", "get 1 ext_nanosecond", "E02 no field: get 1 ext_nanosecond (did you mean ext_nanoseconds?)"),
    (
        "a near name of a table",
        "table 1 3 @189:4 sx inlin crosslin",
        "E02 no field: table 1 3 @189:4 sx inlin crosslin (did you mean inline?)",
    ),
    (
        "a name of the binary header in a table",
        "table 1 3 inline job",
        "E02 no field: table 1 3 inline job (a field of the binary header: bin and getbin)",
    ),
    ("a near name behind a bound one", "table 1 3 my_shot inlin", "E02 no field: table 1 3 my_shot inlin (did you mean inline?)"),
    ("a note behind a table", "table 1 3 inline # why", "E02 no field: table 1 3 inline # why (a note stands on a line of its own)"),
    (
        "a word of Seismic Unix in capitals",
        "get 1 FLDR",
        "E02 no field: get 1 FLDR (names have small letters; those of segyio alone are found in any case)",
    ),
    ("a near name of a search", "find 1 3 crosline 1 2", "E02 no field: find 1 3 crosline 1 2 (did you mean crossline?)"),
    ("no near name", "get 1 z", "E02 no field: get 1 z"),
    ("a sign of another language", "count all where inline == 10", "S02 words: count all where inline == 10 (equal is =)"),
    (
        "the same in a second condition",
        "count all where inline = 10 and inline == 11",
        "S03 number: count all where inline = 10 and inline == 11 (equal is =)",
    ),
    (
        "or",
        "count all where inline = 10 or inline = 11",
        "S02 words: count all where inline = 10 or inline = 11 (all conditions are to be met: and stands between two)",
    ),
    ("no condition", "count all where", "S02 words: count all where (behind where stands a condition, as in where cdp = 100)"),
    (
        "conditions of one trace",
        "set 1 inline 5 where inline = 10",
        "S02 words: set 1 inline 5 where inline = 10 (conditions choose among the traces of a range: P Q, or all)",
    ),
    (
        "a sign without blanks in a table",
        "table all inline where inline=10",
        "E02 no field: table all inline where inline=10 (blanks stand round a sign, as in where cdp = 100)",
    ),
    (
        "a sign without blanks",
        "set all inline 5 where inline>=10",
        "S02 words: set all inline 5 where inline>=10 (blanks stand round a sign, as in where cdp = 100)",
    ),
    (
        "a sign with one blank",
        "delete all where inline= 10",
        "S02 words: delete all where inline= 10 (blanks stand round a sign, as in where cdp = 100)",
    ),
    ("a hexadecimal number", "set 1 inline 0x7", "S03 number: set 1 inline 0x7 (numbers are decimal)"),
    (
        "a number with a point",
        "set 1 inline 7.0",
        "S03 number: set 1 inline 7.0 (whole numbers are digits alone, and samples of floats decimals, such as -1.5e3)",
    ),
    (
        "a number with an exponent",
        "fill all 0 1 1e6",
        "S03 number: fill all 0 1 1e6 (whole numbers are digits alone, and samples of floats decimals, such as -1.5e3)",
    ),
    (
        "an exponent in a condition",
        "count all where sample_greatest > 2E-7",
        "S03 number: count all where sample_greatest > 2E-7 (whole numbers are digits alone, and samples of floats decimals, such as -1.5e3)",
    ),
    (
        "a decimal that begins with its point, in a condition",
        "count all where sample_least < .5",
        "E02 no field: count all where sample_least < .5 (a number in a condition begins with a digit or -, as 0.5)",
    ),
    (
        "infinity in a condition",
        "count all where sample_greatest = inf",
        "E02 no field: count all where sample_greatest = inf (a condition has no nan and no inf: inf alone is > 1e999)",
    ),
    ("a number with a plus", "set 1 inline +7", "S03 number: set 1 inline +7 (a number has no + in front)"),
    ("a note behind a command", "set 1 inline 7 # why", "S02 words: set 1 inline 7 # why (a note stands on a line of its own)"),
    ("a note behind numbers", "patch 1 0 7 # why", "S03 number: patch 1 0 7 # why (a note stands on a line of its own)"),
    ("too few words", "set 1 inline", "S02 words: set 1 inline (the form is set P [Q] FIELD NUMBER [where A OP B ..])"),
    ("too many words", "count 1", "S02 words: count 1 (the form is count [P Q where A OP B ..])"),
    (
        "too few words of a search",
        "find 1 3 inline 7",
        "S02 words: find 1 3 inline 7 (the form is find P Q FIELD LOW HIGH [where A OP B ..])",
    ),
    ("a table without fields", "table 1 3", "S02 words: table 1 3 (the form is table P Q FIELD .. [where A OP B ..])"),
    ("statistics of several traces", "stat 1 3", "S02 words: stat 1 3 (of many traces it is stats P Q)"),
    ("statistics of all traces", "stat all", "S03 number: stat all (of many traces it is stats P Q)"),
    (
        "a fill of all traces that lacks a word",
        "fill all 9 5",
        "S02 words: fill all 9 5 (the form is fill P Q FROM TO NUMBER [where A OP B ..])",
    ),
    ("a fill of one trace", "fill 1 0 9 5", "S02 words: fill 1 0 9 5 (of one trace it is fill P P FROM TO NUMBER)"),
    (
        "the last sample of a fill",
        "fill all 10 last 0",
        "S03 number: fill all 10 last 0 (last is a trace: FROM and TO are samples, and count from 0)",
    ),
    ("too few words of a fill", "fill 1 3 0", "S02 words: fill 1 3 0 (the form is fill P Q FROM TO NUMBER [where A OP B ..])"),
    ("samples of several traces", "sample 1 3 0 9", "S02 words: sample 1 3 0 9 (of many traces it is samples P Q FROM TO)"),
    ("samples of one trace", "samples 2 0 9", "S02 words: samples 2 0 9 (of one trace it is samples P P FROM TO)"),
    ("too few words of samples", "samples all 9", "S02 words: samples all 9 (the form is samples P Q FROM TO [STEP] [where A OP B ..])"),
    (
        "the last of the samples",
        "samples all 0 last",
        "S03 number: samples all 0 last (last is a trace: FROM and TO are samples, and count from 0)",
    ),
    (
        "a step that is none",
        "samples all 0 9 0",
        "S03 number: samples all 0 9 0 (the form is samples P Q FROM TO [STEP] [where A OP B ..])",
    ),
    ("drop alone", "drop", "S02 words: drop (the form is drop tail)"),
    ("drop of something else", "drop head", "S03 number: drop head (the form is drop tail)"),
    ("a near word of drop", "dorp tail", "S01 unknown word: dorp tail (did you mean drop?)"),
    ("words in another order", "set inline 1 7", "S03 number: set inline 1 7 (the form is set P [Q] FIELD NUMBER [where A OP B ..])"),
    ("a place that is none", "get 1 @189", "S03 number: get 1 @189 (a place is @BYTE:SIZE, as @189:4)"),
    ("a place without its sign", "map shot 17:4", "S03 number: map shot 17:4 (FIELD is a place, as @189:4, or a name, as source_x)"),
    ("a range of what is none", "range z", "S03 number: range z (WHICH is inline, crossline, offset, x or y)"),
    ("a range in capital letters", "range X", "S03 number: range X (in small letters: x)"),
    ("trace 0", "get 0 inline", "E01 no trace 0 of 3: get 0 inline (traces count from 1)"),
    ("no such trace", "get 4 inline", "E01 no trace 4 of 3: get 4 inline"),
    (
        "P behind Q",
        "renumber 2 1 inline 1 1",
        "E01 no trace 1 of 3: renumber 2 1 inline 1 1 (P stands behind Q: the first of the traces comes first)",
    ),
    (
        "P behind Q of a table",
        "table 3 1 inline",
        "E01 no trace 1 of 3: table 3 1 inline (P stands behind Q: the first of the traces comes first)",
    ),
    (
        "P behind Q of a search",
        "find 3 1 inline 1 2",
        "E01 no trace 1 of 3: find 3 1 inline 1 2 (P stands behind Q: the first of the traces comes first)",
    ),
    (
        "P behind Q of extremes",
        "extremes 2 1",
        "E01 no trace 1 of 3: extremes 2 1 (P stands behind Q: the first of the traces comes first)",
    ),
    ("a last trace that is none", "extremes 2 4", "E01 no trace 4 of 3: extremes 2 4"),
    ("samples from 1", "sample 1 2", "E05 no sample 2 of 2: sample 1 2 (samples count from 0)"),
    (
        "a byte outside the header",
        "get 1 @241:2",
        "E03 no place: get 1 @241:2 (BYTE is that of the header, 1 to 240; SIZE is 1, 2, 3, 4 or 8)",
    ),
    (
        "a byte outside the headers of a table",
        "table 1 3 inline @241:2",
        "E03 no place: table 1 3 inline @241:2 (BYTE is that of the header, 1 to 240; SIZE is 1, 2, 3, 4 or 8)",
    ),
    (
        "a byte outside the headers of a search",
        "find 1 3 @241:2 1 2",
        "E03 no place: find 1 3 @241:2 1 2 (BYTE is that of the header, 1 to 240; SIZE is 1, 2, 3, 4 or 8)",
    ),
    (
        "a byte outside the binary header",
        "getbin @17:2",
        "E03 no place: getbin @17:2 (BYTE is that of the file, 3201 to 3600; SIZE is 1, 2, 3, 4 or 8)",
    ),
    ("a line outside the header", "text 41 C", "E03 no place: text 41 C (lines count from 1 to 40, blocks from 0)"),
    ("a block that is none", "code 1", "E03 no place: code 1 (blocks count from 0)"),
    ("a block without lines", "lines 1", "E03 no place: lines 1 (blocks count from 0)"),
    ("a number that does not fit", "set 1 @1:2 65536", "E04 does not fit: set 1 @1:2 65536"),
    ("how the file is cut", "bin samples 3", "E06 frame: bin samples 3 (these bytes say how the file is cut)"),
    ("a fixed file", "resize 1 4", "E06 frame: resize 1 4 (each trace has the binary header's number of samples)"),
    ("a character without a code", "text 1 [", "E07 T02 no code for column 1: text 1 ["),
    ("a bad name", "map Shot @17:4", "E08 M01 bad name: map Shot @17:4 (1 to 24 of a to z, 0 to 9 and _, a letter first)"),
    ("a name outside the header", "map shot @241:4", "E08 M02 outside header: map shot @241:4 (a header has the bytes 1 to 240)"),
    (
        "a bad kind",
        "map inline @17:3",
        "E08 M03 bad kind: map inline @17:3 (SIZE is 1, 2, 3, 4 or 8; the six names are signed, of 2 or 4 bytes)",
    ),
    ("a name that is always bound", "unmap x", "E08 M05 geometry: unmap x"),
    ("a name that is not bound", "unmap shot", "E08 M06 unknown: unmap shot"),
    (
        "a name of the standard that is bound",
        "map delay @17:4",
        "E08 M07 standard: map delay @17:4 (a name of the standard keeps its place: take another)",
    ),
    ("a file above its limit", "blank 1", "E09 too large: blank 1 (--max-bytes N raises the limit)", "--max-bytes 4332"),
    (
        "a zero divisor",
        "compute 1 3 offset 1 / 0",
        "E13 zero divisor trace 1: compute 1 3 offset 1 / 0 (find tells the traces where a FIELD is 0: leave them out)",
    ),
    (
        "an operator without blanks",
        "compute 1 3 offset cdp/1000",
        "E02 no field: compute 1 3 offset cdp/1000 (an operator is a word of its own, as in cdp / 1000)",
    ),
    (
        "an operator behind a number without blanks",
        "compute 1 3 offset 10*inline",
        "S03 number: compute 1 3 offset 10*inline (an operator is a word of its own, as in cdp / 1000)",
    ),
    (
        "a field that begins with a digit",
        "compute 1 3 offset 3d_line",
        "S03 number: compute 1 3 offset 3d_line (what begins with a digit, - or + is to be a NUMBER)",
    ),
    (
        "a plus in front of an operand",
        "compute 1 3 offset inline + +5",
        "S03 number: compute 1 3 offset inline + +5 (a number has no + in front)",
    ),
    ("no operator", "compute 1 3 offset inline ^ 2", "S03 number: compute 1 3 offset inline ^ 2 (OP is one of + - * / %)"),
    (
        "an operator without an operand",
        "compute 1 3 offset inline +",
        "S02 words: compute 1 3 offset inline + (behind SOURCE each OP has an OPERAND)",
    ),
    (
        "two operators side by side",
        "compute 1 3 offset inline + - 2 *",
        "S03 number: compute 1 3 offset inline + - 2 * (behind each OP stands a NUMBER or a FIELD)",
    ),
    ("a near name of a computation", "compute 1 3 offset inlin + 1", "E02 no field: compute 1 3 offset inlin + 1 (did you mean inline?)"),
    ("nine fields of a sort", "sort 1 3 a b c d e f g h i", "S02 words: sort 1 3 a b c d e f g h i (a sort is by at most 8 fields)"),
    ("a sort without a field", "sort 1 3", "S02 words: sort 1 3 (the form is sort P Q FIELD ..)"),
    ("a near name of a sort", "sort 1 3 offset -inlin", "E02 no field: sort 1 3 offset -inlin (did you mean inline?)"),
    ("a place of a sort", "sort 1 3 -@189", "S03 number: sort 1 3 -@189 (a place is @BYTE:SIZE, as @189:4)"),
    (
        "a byte of a sort",
        "sort 1 3 @241:4",
        "E03 no place: sort 1 3 @241:4 (BYTE is that of the header, 1 to 240; SIZE is 1, 2, 3, 4 or 8)",
    ),
    (
        "P behind Q of a sort",
        "sort 2 1 offset",
        "E01 no trace 1 of 3: sort 2 1 offset (P stands behind Q: the first of the traces comes first)",
    ),
    (
        "P behind Q of a computation",
        "compute 2 1 offset 1",
        "E01 no trace 1 of 3: compute 2 1 offset 1 (P stands behind Q: the first of the traces comes first)",
    ),
]
TABLE_65 = "table 1 3" + " x" * 65
NINE = "compute 1 3 offset 1" + " + 1" * 9
TOLD += [
    ("a table of too many fields", TABLE_65, "S02 words: table 1 3" + " x" * 25 + " .. (a table has at most 64 fields)"),
    ("a line that is too long", "text 1 " + "C" * 81, "E07 T01 too long: text 1 " + "C" * 53 + ".."),
    ("nine operations", NINE, f"S02 words: {NINE} (at most 8 operations: go on in a second line)"),
]


@pytest.mark.parametrize("line, text, options", [pytest.param(*row[1:], *([""] if len(row) == 3 else []), id=row[0]) for row in TOLD])
def test_a_refused_line_is_told(room, line, text, options):
    check_told(room, line, text, options)


# ---- the forms are those of the manual
FORMS = re.findall(r"^### ([a-z].*)", MANUAL.read_text(), re.M)


@pytest.mark.parametrize("form", FORMS)
def test_the_form_of_the_manual(room, form):
    word, _, rest = form.partition(" ")
    ended = room.ask("s.sgy", f"{word}\n" if rest and word != "count" else f"{word} 1\n")
    assert ended.lines()[0].endswith(f" (the form is {form})")


def test_there_are_forms():
    assert len(FORMS) > 40


# ---- the numbers of lines, and how many are told
def test_lines_that_print_nothing_count(room):
    lines = b"# a note\n\ncount\nget 9 x\n\n  sett\n"
    row = case("numbers", "s.sgy", lines, "traces 3 / refused E01 no trace 9 of 3 / refused S01 unknown word", 1)
    assert check(room, row).lines() == [
        "segywb: script:4: E01 no trace 9 of 3: get 9 x", "segywb: script:6: S01 unknown word:   sett (did you mean set?)",
    ]


@pytest.mark.parametrize("many, more", [(20, []), (21, [".. and 1 more refused line"]), (25, [".. and 5 more refused lines"])])
def test_so_many_refused_lines_are_told(room, many, more):
    room.put("script", "".join(f"get 9 @{n}:1\n" for n in range(1, many + 1)))
    ended = room.run(room.make("s.sgy"), "--script", "script")
    assert (ended.status, ended.answers) == (1, b"refused E01 no trace 9 of 3\n" * many)
    told = [f"segywb: script:{n}: E01 no trace 9 of 3: get 9 @{n}:1" for n in range(1, 21)]
    assert ended.lines() == told + [f"segywb: {line}" for line in more]


# ---- a save without refused lines
@pytest.mark.parametrize("words", ["", "--stop"])
def test_a_save_without_a_refused_line(room, words):
    room.put("script", "set 1 @189:4 7\nget 9 x\n")
    ended = room.run(room.make("s.sgy"), "--script", "script", "--out", "o.sgy", *words.split())
    told = ["segywb: script:2: E01 no trace 9 of 3: get 9 x"]
    assert ended.lines() == told + ([] if words else ["segywb: saved without 1 refused line; with --stop nothing is saved then"])
    assert room.has("o.sgy") == (not words)


# ---- hostile lines: nothing that a terminal obeys, whatever the line has
HOSTILE = [
    b"get 1 \x1b]0;title\x07\x1b[2J", b"a\0b", b"get \xc2\x9b[2J \xe2\x80\xae \xef\xbb\xbf", b"\xff\xc0\x80\xed\xa0\x80", b"z" * 10000,
    "\U0001f600".encode() * 100, b"\xe2\x82" * 100, b"\r\r\b\b\x7f", b"get 1 @" + b"9" * 5000 + b":4",
]


def test_hostile_lines(room):
    room.put("script", b"\n".join(HOSTILE) + b"\n")
    ended = room.run(room.make("s.sgy"), "--script", "script")
    answers, told = ended.answers.splitlines(), ended.errors.split(b"\n")
    assert ended.status == 1
    assert told.pop() == b""
    assert len(told) == 9
    assert sum(answer.startswith(b"refused ") for answer in answers) == 9
    assert not re.search(rb"[\x00-\x1f\x7f]", b"".join(told))
    text = ended.errors.decode("utf-8")
    assert not re.search("[\x80-\x9f\u202e\ufeff]", text)
    assert told[4] == b"segywb: script:5: S01 unknown word: " + b"z" * 60 + b".."
    assert told[5].decode() == "segywb: script:6: S01 unknown word: " + "\U0001f600" * 60 + ".."


def test_a_line_of_60_characters_is_not_cut(room):
    room.put("script", "x" * 60)
    ended = room.run(room.make("s.sgy"), "--script", "script")
    assert ended.errors.decode() == "segywb: script:1: S01 unknown word: " + "x" * 60 + "\n"


# ---- answers, status and the saved file are the same, whatever becomes of standard error
LINES = "set 1 @189:4 7\nsett\nget 9 x\nget 1 inline\n"
ANSWERS = b"ok\nrefused S01 unknown word\nrefused E01 no trace 9 of 3\nvalue 7\n"


@pytest.fixture
def wanted(room):
    """What a run of these lines saves."""
    room.make("s.sgy")
    room.put("script", LINES)
    ended = room.run("s.sgy", "--script", "script", "--out", "wanted.sgy")
    assert (ended.status, ended.answers) == (1, ANSWERS)
    return room.get("wanted.sgy")


def check_same_run(room, ended, wanted):
    """The answers, the status and the saved file."""
    assert (ended.status, ended.answers) == (1, ANSWERS)
    assert same(room.get("o.sgy"), wanted)


@pytest.mark.parametrize(
    "words", ["s.sgy --script script --out o.sgy --quiet", "--quiet s.sgy --out o.sgy --script script", "s.sgy --script script --out o.sgy --quiet --quiet"],
)
def test_the_same_quietly(room, wanted, words):
    ended = room.run(*words.split())
    check_same_run(room, ended, wanted)
    assert ended.errors == b""


def test_the_same_with_a_full_standard_error(room, wanted):
    with open("/dev/full", "wb") as full:
        check_same_run(room, room.run("s.sgy", "--script", "script", "--out", "o.sgy", stderr=full), wanted)


def test_the_same_without_standard_error(room, wanted):
    check_same_run(room, room.run("s.sgy", "--script", "script", "--out", "o.sgy", closed=[2]), wanted)


def test_a_script_on_standard_input_is_named_so(room, wanted):
    with open(room.path("script"), "rb") as lines:
        ended = room.run("s.sgy", "--script", "-", "--out", "o.sgy", stdin=lines)
    check_same_run(room, ended, wanted)
    assert ended.lines()[0] == "segywb: -:2: S01 unknown word: sett (did you mean set?)"


def test_a_script_through_a_pipe(room, wanted):
    check_same_run(room, room.run("s.sgy", "--script", "-", "--out", "o.sgy", entered=LINES.encode()), wanted)


def test_a_session_tells_refused_lines_by_answers_alone(room, wanted):
    ended = room.run("s.sgy", "--session", "--out", "o.sgy", entered=LINES.encode())
    assert ended.answers == ANSWERS.replace(b"\n", b"\n\n")
    assert ended.errors == b""


def test_a_save_over_standard_input(room):
    room.put("script", "count\n")
    with open(room.path("script"), "rb") as lines:
        ended = room.run(room.make("s.sgy"), "--script", "-", "--out", "script", stdin=lines)
    assert (ended.status, ended.errors) == (2, b"segywb: --out names SCRIPT itself\n")


def test_a_file_that_is_named_so(room):
    room.put("-", "get 1 @5:4\n")
    ended = room.run(room.make("s.sgy"), "--script", "./-")
    assert (ended.status, ended.answers, ended.errors) == (0, b"value 1\n", b"")


# ---- refused files: the file, what refuses it, the hint, more lines, and options
HINTS = {
    "L06": "with --floats the file is read, its samples with their values; with --opaque-samples as bytes without a value",
    "L07": "with --opaque-samples the file is read all the same, its samples as bytes without a value",
}
TORN = without_end("s.sgy", 4331)
OTHERS = damaged("s.sgy", "3502 0000", "3714 0009", "3958 0009", "4202 0009")
ANOTHER = damaged("s.sgy", "3220 0005", "3714 0002")
INSIDE = "the file ends 243 bytes inside trace 3"
EVEN = "the file ends 232 bytes inside trace 3; it would be even with 2 samples a trace"
LOADS = [
    (
        "a limit", ("bad.sgy", content("s.sgy")), "L02 too large",
        "--max-bytes N raises the limit; with --on-disk FILE need not fit in memory", "--max-bytes 4331",
    ),
    ("a short file", without_end("s.sgy", 99), "L03 short 99", "the two file headers have 3600 bytes", ""),
    (
        "swapped pairs", damaged("s.sgy", "3296 02010403"), "L04 pair swapped",
        "bytes 3297-3300 are 02 01 04 03: the two bytes of each pair are swapped; swap them back, as by dd conv=swab", "",
    ),
    ("a revision", damaged("s.sgy", "3500 0201"), "L05 revision 2.1", "bytes 3501-3502; revisions 0, 1 and 2.0 are read", ""),
    (
        "floats", damaged("s.sgy", "3224 0005"), "L06 float format 5",
        "bytes 3225-3226; formats 1, 5 and 6 are floats, which have values where --floats asks for them", "",
    ),
    (
        "gain", damaged("s.sgy", "3224 0004"), "L07 gain format",
        "bytes 3225-3226; format 4 is fixed point with gain: samples with a value are whole numbers, in formats 2, 3, 7 to 12, 15 and 16, or "
        "floats, in 1, 5 and 6", "",
    ),
    (
        "another byte order", damaged("s.sgy", "3224 0300"), "L08 unknown format 768",
        "bytes 3225-3226; in the other byte order it is 3: --order big or --order little says the order of a file whose bytes 3297-3300 do "
        "not tell it", "",
    ),
    (
        "no format", damaged("s.sgy", "3224 000d"), "L08 unknown format 13",
        "bytes 3225-3226; formats 2, 3, 7 to 12, 15 and 16 are read, and 1, 5 and 6 with --floats", "",
    ),
    ("a text count", damaged("s.sgy", "3504 fffe"), "L09 text count -2", "bytes 3505-3506: extended textual headers", ""),
    (
        "header extensions", damaged("x.sgy", "3506 00000100"), "L10 extensions 256",
        "bytes 3507-3510: header extensions of a trace, at most 255", "",
    ),
    ("a trailer", damaged("x.sgy", "3528 00000001"), "L11 trailer 1", "bytes 3529-3532: data trailer records", ""),
    (
        "a first trace", damaged("x.sgy", "3520 ffffffffffffffff"), "L12 first trace 18446744073709551615",
        "bytes 3521-3528: where the first trace begins", "",
    ),
    (
        "an extension count", damaged("x.sgy", "3996 ffff"), "L13 extension count trace 1",
        "bytes 157-158 of its first header extension: more than bytes 3507-3510 of the file say", "",
    ),
    ("a torn trace", TORN, "L14 truncated trace 3", INSIDE, ""),
    ("a torn trace, and --fixed, which cannot help", TORN, "L14 truncated trace 3", INSIDE, "--fixed"),
    ("a torn trace on disk", TORN, "L14 truncated trace 3", INSIDE, "--on-disk"),
    (
        "traces with another number of samples", OTHERS, "L14 truncated trace 3",
        "the file ends 230 bytes inside trace 3; with 2 samples a trace, as the binary header says, it would be even: --fixed reads it so", "",
    ),
    ("a file with another number of samples", ANOTHER, "L14 truncated trace 3", EVEN, ""),
    ("which --fixed does not read", ANOTHER, "L14 truncated trace 3", EVEN, "--fixed"),
    (
        "the other byte order", ("bad.sgy", content("t.sgy")), "L17 other byte order",
        "bytes 3297-3300 tell the order of bytes, which stands: leave out --order", "--order big",
    ),
]


@pytest.mark.parametrize("file, text, hint, options", [pytest.param(*row[1:], id=row[0]) for row in LOADS])
def test_a_refused_file_is_told(room, file, text, hint, options):
    name, _ = placed(room, file)
    ended = room.ask(name, "count\n", *options.split())
    assert (ended.status, ended.answers.decode()) == (3, f"load refused {text}\n")
    # readings that fit are tried in test_readings.py
    told = [line for line in ended.lines() if " can be read with " not in line]
    assert told == [f"segywb: {name}: {text} ({hint})"] + [f"segywb: {HINTS[text[:3]]}" for _ in range(text[:3] in HINTS)]


def test_which_fixed_reads(room):
    name, _ = placed(room, OTHERS)
    assert room.ask(name, "count\n", "--fixed").status != 3


@pytest.mark.parametrize("file", [TORN, damaged("s.sgy", "3224 0005")], ids=["a refused file", "floats"])
def test_quietly(room, file):
    name, _ = placed(room, file)
    ended = room.ask(name, "count\n", "--quiet")
    assert (ended.status, ended.errors) == (3, b"")


def test_floats_and_no_answer(room):
    name, _ = placed(room, damaged("s.sgy", "3224 0005"))
    with open("/dev/full", "wb") as full:
        ended = room.run(name, "--script", room.put("script", "count\n"), stdout=full)
    assert (ended.status, ended.errors) == (4, b"segywb: answers failed\n")


def test_a_folder_is_told(room):
    os.mkdir(room.path("folder"))
    ended = room.ask("folder", "count\n")
    assert ended.errors == b"segywb: folder: L01 read failed (it is a folder, or its disk fails)\n"


def test_a_refused_file_of_a_session(room):
    name, _ = placed(room, TORN)
    ended = room.run(name, "--session", entered=b"count\n")
    assert ended.status == 3
    assert any(line.startswith("segywb: bad.sgy: L14 ") for line in ended.lines())


# ---- help, the version, and how to begin
@pytest.mark.parametrize("word", ["--help", "-h", "--version", "-V"])
def test_goes_to_standard_output(room, word):
    ended = room.run(word)
    assert (ended.status, ended.errors) == (2, b"")
    assert ended.answers != b""


def test_neither_a_script_nor_a_session(room):
    ended = room.run(room.make("s.sgy"))
    assert (ended.status, ended.errors) == (2, b"segywb: --script or --session is needed; see --help\n")


@pytest.mark.skipif(shutil.which("script") is None, reason="no command script, which makes a terminal")
def test_how_to_begin_at_a_terminal(room):
    room.make("s.sgy")
    command = ["script", "-qec", f"'{room.program}' s.sgy", "/dev/null"]
    done = subprocess.run(command, cwd=room.folder, stdin=subprocess.DEVNULL, capture_output=True, text=True, check=False)
    told = [line.rstrip("\r") for line in done.stdout.replace("\r\n", "\n").split("\n")]
    assert sum(line.startswith("segywb: ") for line in told) == 3
    for words in ("--script -", "--session", "man 5 segywb-script"):
        assert words in done.stdout
