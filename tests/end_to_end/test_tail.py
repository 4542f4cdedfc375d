"""Bytes of no trace behind the last one, under --tail: they are read, kept, and taken away by `drop tail`."""

import os
import re

import pytest

from files import behind, changed, content, damaged, floats, without_end
from running import same
from tables import SAME, case, check, check_line, placed, rows

ON_DISK = pytest.mark.parametrize("place", ["", "--on-disk"], ids=["in memory", "on disk"])
SURVEY, NOTED = content("s.sgy"), content("noted.sgy")
LOOSE = content("loose.sgy")
HEADS = SURVEY[:3600]
RECORDS = NOTED[:3600] + NOTED[-6400:]


of = content

# FILE, what is left of it behind `drop tail`, the traces, the bytes of no trace, and options
KEPT = [
    # a last trace that is cut: inside its header, behind it, inside its samples; and none that is whole
    *[(f"cut to {length} bytes", SURVEY[:length], SURVEY[:4088], 2, length - 4088, "") for length in (4089, 4327, 4328, 4329, 4331)],
    *[(f"cut to {length} bytes", SURVEY[:length], HEADS, 0, length - 3600, "") for length in (3601, 3839, 3840, 3843)],
    ("no trace and nothing behind", HEADS, HEADS, 0, 0, ""),
    # bytes behind the last one: less than a trace; as many as a trace has are one, which `drop tail` leaves
    *[(f"{count} bytes behind", behind(SURVEY, count), SURVEY, 3, count, "") for count in (1, 239, 240, 243)],
    ("244 bytes behind", behind(SURVEY, 244), behind(SURVEY, 244), 4, 0, ""),
    ("245 bytes behind", behind(SURVEY, 245), behind(SURVEY, 244), 4, 1, ""),
    ("nothing behind", SURVEY, SURVEY, 3, 0, ""),
    # other framings and formats
    *[
        row
        for count in (1, 240, 479)
        for row in (
            (f"header extensions, {count} bytes", behind(of("x.sgy"), count), of("x.sgy"), 1, count, ""),
            (f"data trailer records, {count} bytes", behind(NOTED, count, 6400), NOTED, 1, count, ""),
            (f"header extensions counted for each trace, {count} bytes", behind(of("deep.sgy"), count), of("deep.sgy"), 1, count, ""),
        )
    ],
    *[(f"data trailer records, {count} zeros", behind(NOTED, count, 6400, b"\0"), NOTED, 1, count, "") for count in (480, 483)],
    ("a part of a trace and data trailer records", NOTED[:4000] + NOTED[-6400:], RECORDS, 0, 400, ""),
    ("data trailer records and nothing behind", NOTED, NOTED, 1, 0, ""),
    *[
        (f"239 bytes behind {name}", behind(of(name), 239), of(name), traces, 239, "")
        for name, traces in (("ended.sgy", 3), ("t.sgy", 1), ("v.sgy", 3))
    ],
    *[
        (f"{name} of format {form}", behind(floats("big", form, 1), 240), floats("big", form, 1), 3, 240, option)
        for form in (1, 5, 6)
        for name, option in (("floats", "--floats"), ("opaque samples", "--opaque-samples"))
    ],
    (
        "revision 0, and an order that is asked for", behind(floats("little", 5, 0), 247), floats("little", 5, 0), 3, 247,
        "--floats --order little --samples 2",
    ),
    # lengths of their own: one bad header makes all the rest no trace; with zeros for its number of samples it would be whole
    *[
        (
            f"trace {p} says too many samples", changed(LOOSE, f"{3600 + 244 * (p - 1) + 114} ffff"), LOOSE[:3600 + 244 * (p - 1)],
            p - 1, 244 * (4 - p), "",
        )
        for p in (1, 2, 3)
    ],
    ("the last trace says one sample more", changed(LOOSE, "4202 0003"), LOOSE[:4088], 2, 244, ""),
    ("and --fixed beside it", changed(LOOSE, "4202 0003"), changed(LOOSE, "4202 0003"), 3, 0, "--fixed"),
    # beside the other readings
    (
        "the number of samples is asked for", changed(behind(SURVEY, 9), "3220 0005"), changed(SURVEY, "3220 0005"), 3, 9, "--samples 2",
    ),
    ("the format is asked for", changed(behind(SURVEY, 9), "3224 000d"), changed(SURVEY, "3224 000d"), 3, 9, "--format 3"),
    (
        "the texts are asked for", changed(behind(of("block.sgy"), 9), "3504 0003"), changed(of("block.sgy"), "3504 0003"), 3, 9, "--texts 1",
    ),
    ("traces without samples", behind(HEADS + bytes(720), 12), HEADS + bytes(720), 3, 12, "--samples 0"),
]
KEPT_ROWS = [pytest.param(*row[1:], id=row[0]) for row in KEPT]


@ON_DISK
@pytest.mark.parametrize("made, sound, traces, count, options", KEPT_ROWS)
def test_are_kept_and_taken_away(room, made, sound, traces, count, options, place):
    words = [*options.split(), *place.split()]
    room.put("more.sgy", made)
    ended = room.ask("more.sgy", "count\ninfo\n", *words, "--tail", "--out", "o.sgy")
    assert (ended.status, ended.errors) == (0, b"")
    first, info = ended.answers.decode().splitlines()
    assert first == f"traces {traces}"
    assert info.startswith("info ") and info.endswith(f" traces {traces} bytes {len(made)} tail {count}")
    assert same(room.get("o.sgy"), made)
    ended = room.ask("more.sgy", "drop tail\ndrop tail\ninfo\n", *words, "--tail", "--out", "o.sgy")
    assert (ended.status, ended.errors) == (0, b"")
    *answers, info = ended.answers.decode().splitlines()
    assert answers == ["ok", "ok"]
    assert info.startswith("info ") and info.endswith(f" traces {traces} bytes {len(made) - count} tail 0")
    assert same(room.get("o.sgy"), sound)
    ended = room.ask("o.sgy", "count\n", *words)
    assert (ended.answers.decode(), ended.errors) == (f"traces {traces}\n", b"")


@ON_DISK
@pytest.mark.parametrize("made, sound, traces, count, options", KEPT_ROWS)
def test_are_refused_without_the_reading_which_is_told_last(room, made, sound, traces, count, options, place):
    words = [*options.split(), *place.split()]
    room.put("more.sgy", made)
    ended = room.ask("more.sgy", "count\n", *words)
    told = ended.errors.decode()
    if count == 0:
        assert (ended.status, ended.answers.decode()) == (0, f"traces {traces}\n")
        return
    assert (ended.status, ended.answers.decode()) == (3, f"load refused L14 truncated trace {traces + 1}\n")
    if traces == 0:
        assert "--tail" not in told
        return
    assert f" --tail: {traces} trace" in ended.lines()[-1]
    assert re.search(f"ends {count} bytes? inside trace {traces + 1}", told)
    assert sum("--tail" in line for line in ended.lines()) == 1
    assert room.ask("more.sgy", "count\n", *words, "--quiet").errors == b""


# ---- what is refused all the same
CUT = "cut.sgy", NOTED[:10483]
NINE = "more.sgy", behind(SURVEY, 9)
SEVEN = "more.sgy", behind(SURVEY, 7)
REFUSED = [
    case(
        "a first extension that names too many", ("bad.sgy", behind(of("x.sgy"), 480)),
        "count", "load refused L13 extension count trace 2", 3, options="--tail",
    ),
    case(
        "and in front of data trailer records", ("bad.sgy", behind(NOTED, 483, 6400)),
        "count", "load refused L13 extension count trace 2", 3, options="--tail",
    ),
    case(
        "and of a trace that is cut behind it", ("cut.sgy", changed(of("x.sgy"), "3996 0002")[:4083]),
        "count", "load refused L13 extension count trace 1", 3, options="--tail",
    ),
    case("a file without its headers", without_end("s.sgy", 3599), "count", "load refused L03 short 3599", 3, options="--tail"),
    case("the limit counts them", NINE, "count", "load refused L02 too large", 3, options="--tail --max-bytes 4340"),
    case("and the file may reach it", NINE, "count", "traces 3", options="--tail --max-bytes 4341"),
    case("data trailer records that are cut", CUT, "count", "traces 0", options="--tail"),
    case("which it takes for the part of a trace", CUT, "count", "load refused L14 truncated trace 1", 3),
    case(
        "data trailer records that are not there", damaged("x.sgy", "3528 00000001"),
        "count", "load refused L11 trailer 1", 3, options="--tail",
    ),
    case("the words, said twice", NINE, "count", "traces 3", options="--tail --tail"),
    # the limit on the bytes counts them, until they are gone
    case(
        "the limit on an edit", SEVEN,
        "blank 1 ; drop tail ; blank 1 ; blank 1", "refused E09 too large / ok / ok / refused E09 too large",
        1, options="--tail --max-bytes 4582",
    ),
    case(
        "and one byte more", SEVEN,
        "blank 1 ; drop tail ; blank 1 ; blank 1", "ok / ok / refused E09 too large / refused E09 too large",
        1, options="--tail --max-bytes 4583",
    ),
]


@pytest.mark.parametrize("row", rows(REFUSED))
def test_refused(room, row):
    check(room, row)


@pytest.mark.parametrize("words", ["more.sgy --tail=1 --script script", "more.sgy --tail 9 --script script"])
def test_line_that_is_not_accepted(room, words):
    room.put("script", "count\n")
    placed(room, NINE)
    check_line(room, *words.split())


def test_a_look_is_the_same(room):
    room.make("s.sgy")
    plain, ended = room.run("s.sgy", "--look"), room.run("s.sgy", "--look", "--tail")
    assert (ended.answers, ended.errors) == (plain.answers, b"")
    assert plain.answers != b""


def test_a_file_from_a_pipe(room):
    room.put("script", "count\n")
    ended = room.run("/dev/stdin", "--tail", "--script", "script", entered=NINE[1])
    assert (ended.answers, ended.errors) == (b"traces 3\n", b"")


# ---- the words of the edit
WORDS = b"drop\ndrop tail tail\ndrop tail 9\ndrop tails\ndrop 9\ndrop TAIL\ndropped tail\nDROP tail\n  drop\ttail \ninfo\n"
WORDS_TOLD = (
    "refused S02 words / refused S02 words / refused S02 words / refused S03 number / refused S03 number / refused S03 number / "
    "refused S01 unknown word / refused S01 unknown word / ok / "
)
INFO = "info order big revision 1.0 format 3 samples 2 fixed yes extensions 0 blocks 0 trailer 0 traces 3 bytes 4332"
WORDS_ROWS = [
    case("the last line is done", NINE, WORDS, WORDS_TOLD + INFO + " tail 0", 1, options="--tail", saved=SURVEY),
    case("where nothing stands there", "s.sgy", WORDS, WORDS_TOLD + INFO + " tail 0", 1, options="--tail", saved=SAME),
    case("without the reading", "s.sgy", WORDS, WORDS_TOLD + INFO, 1, saved=SAME),
]


@ON_DISK
@pytest.mark.parametrize("row", rows(WORDS_ROWS))
def test_words(room, row, place):
    check(room, row, *place.split())


# ---- every other edit leaves them, and every answer is that of the file without them
EDITS = [
    "set 1 inline 7", "set 1 @1:4 -9", "renumber 1 1 crossline 5 1", "compute 1 1 x inline * 3", "map mine @17:4", "set 1 mine 4",
    "bin interval 2000", "bin job 5", "declare", "text 3 C 3", "patch 1 0 1", "resize 1 3", "blank 1", "copy 2 3", "copy 1 4", "move 3 1",
    "sort 1 3 -inline", "delete 2", "blank 3", "set 3 inline 12", "count", "faults", "grid", "inlines", "histogram", "totals", "slice 0",
    "stat 1", "header 1", "extremes 1 3", "table 1 3 inline x", "find 1 3 inline 0 9", "stanzas", "line 0 3", "geometry 3", "range x",
    "samples all 0 9", "fields", "get 9 inline", "unmap mine", "delete 1", "delete 1", "delete 1", "count", "blank 1",
]
OF_FLOATS = ["patch 1 0 -1.5", "resize 1 3", "copy 1 1", "totals", "stat 2", "slice 0", "samples all 0 9", "delete 3", "move 1 2"]
UNTOUCHED = [
    *[(f"edits of {name}", of(name), 0, EDITS, "") for name in ("s.sgy", "loose.sgy", "x.sgy", "deep.sgy", "t.sgy", "v.sgy", "ended.sgy")],
    ("edits in front of data trailer records", NOTED, 6400, EDITS, ""),
    ("edits of floats", floats("big", 5, 0), 0, OF_FLOATS, "--floats"),
    ("no edit", NOTED, 6400, [], ""),
]


@ON_DISK
@pytest.mark.parametrize("made, trailer, edits, options", [pytest.param(*row[1:], id=row[0]) for row in UNTOUCHED])
def test_are_left_by_every_other_edit(room, made, trailer, edits, options, place):
    words = options.split()
    script = "".join(line + "\n" for line in edits)
    room.put("f.sgy", made)
    room.put("more.sgy", behind(made, 7, trailer))
    wanted = room.ask("f.sgy", script, *words, "--out", "wanted.sgy")
    saved = room.get("wanted.sgy")
    words += ["--tail", *place.split(), "--out", "o.sgy"]
    ended = room.ask("more.sgy", script, *words)
    assert (ended.status, ended.answers) == (wanted.status, wanted.answers)
    assert same(room.get("o.sgy"), behind(saved, 7, trailer))
    room.ask("more.sgy", script + "drop tail\n", *words)
    assert same(room.get("o.sgy"), saved)
    ended = room.ask("more.sgy", "drop tail\n" + script, *words)
    assert ended.answers == b"ok\n" + wanted.answers
    assert same(room.get("o.sgy"), saved)


def test_of_a_session(room):
    name, _ = placed(room, SEVEN)
    ended = room.run(name, "--tail", "--session", "--out", "o.sgy", entered=b"info\nsave\ndrop tail\ninfo\nsave\n")
    info = INFO.rpartition(" ")[0]
    told = f"{info} 4339 tail 7\n\nsaved 4339\n\nok\n\n{info} 4332 tail 0\n\nsaved 4332\n\n"
    assert (ended.answers.decode(), ended.errors) == (told, b"")
    assert same(room.get("o.sgy"), SURVEY)


# ---- `declare` leaves them aside
OTHER_SAMPLES = "more.sgy", changed(behind(SURVEY, 7), "3220 0005")
# in revision 0 traces may say another number, but not what is none
NO_TRACE = changed(floats("big", 5, 0) + floats("big", 5, 0)[-248:-1], f"{3600 + 3 * 248 + 114} 0007")
DECLARED = [
    case("a number of samples is declared, and they stay", OTHER_SAMPLES, "declare", "ok", options="--tail --samples 2", saved=behind(SURVEY, 7)),
    case(
        "declared behind drop tail, and they are gone", OTHER_SAMPLES,
        "drop tail ; declare", "ok / ok", options="--tail --samples 2", saved=SURVEY,
    ),
    case(
        "declared in front of it, and they are gone too", OTHER_SAMPLES,
        "declare ; drop tail", "ok / ok", options="--tail --samples 2", saved=SURVEY,
    ),
]
DECLARED_OF_FLOATS = [
    case(
        "what is no trace says another number, and stays", ("more.sgy", NO_TRACE),
        "declare", "ok", options="--floats --samples 2 --tail", saved=SAME,
    ),
    case(
        "a trace says another number, and bytes stand behind: and nothing changes", ("more.sgy", changed(NO_TRACE, f"{3600 + 248 + 114} 0007")),
        "declare", "refused E06 frame", 1, options="--floats --samples 2 --tail", saved=SAME,
    ),
    case(
        "the flag of --fixed, and bytes behind, is set", ("more.sgy", behind(LOOSE, 243)),
        "declare", "ok", options="--fixed --tail", saved=behind(SURVEY, 243),
    ),
]


@ON_DISK
@pytest.mark.parametrize("row", rows(DECLARED))
def test_declare(room, row, place):
    check(room, row, *place.split())


@pytest.mark.parametrize("row", rows(DECLARED_OF_FLOATS))
def test_declare_in_memory(room, row):
    check(room, row)


# ---- in place: they stay in FILE; where they were taken away nothing is written
IN_FRONT = behind(NOTED, 7, 6400)


@ON_DISK
def test_a_repair_in_place(room, place):
    lines = "set 1 inline 7\ntext 1 C 1\nbin interval 2000\npatch 1 1 9\n"
    room.put("more.sgy", IN_FRONT)
    room.put("own.sgy", IN_FRONT)
    room.ask("more.sgy", lines, "--tail", "--out", "wanted.sgy")
    number = os.stat(room.path("own.sgy")).st_ino
    ended = room.ask("own.sgy", lines, "--tail", *place.split(), "--in-place")
    assert (ended.status, ended.answers, ended.errors) == (0, b"ok\n" * 4, b"")
    assert same(room.get("own.sgy"), room.get("wanted.sgy"))
    assert os.stat(room.path("own.sgy")).st_ino == number


@ON_DISK
def test_without_them_it_needs_a_new_file_which_takes_the_name_of_file(room, place):
    room.put("own.sgy", IN_FRONT)
    ended = room.ask("own.sgy", "set 1 inline 7\ndrop tail\n", "--tail", *place.split(), "--in-place")
    assert (ended.status, ended.lines()[0]) == (4, "segywb: save failed after 0 bytes")
    assert same(room.get("own.sgy"), IN_FRONT)
    assert not room.has(".own.sgy.segywb-journal")
    room.ask("own.sgy", "set 1 inline 7\ndrop tail\n", "--tail", *place.split(), "--out", "own.sgy")
    room.ask("noted.sgy", "set 1 inline 7\n", "--out", "wanted.sgy")
    assert same(room.get("own.sgy"), room.get("wanted.sgy"))


@ON_DISK
def test_in_place_where_nothing_stands_there(room, place):
    room.put("own.sgy", NOTED)
    room.ask("noted.sgy", "set 1 inline 7\n", "--out", "wanted.sgy")
    ended = room.ask("own.sgy", "drop tail\nset 1 inline 7\n", "--tail", *place.split(), "--in-place")
    assert (ended.status, ended.answers, ended.errors) == (0, b"ok\nok\n", b"")
    assert same(room.get("own.sgy"), room.get("wanted.sgy"))


def test_a_session_in_place(room):
    room.put("own.sgy", IN_FRONT)
    room.put("more.sgy", IN_FRONT)
    lines = b"set 1 inline 7\nsave\ndrop tail\nsave\nset 1 inline 8\nsave\n"
    ended = room.run("own.sgy", "--tail", "--session", "--in-place", entered=lines)
    failed = b"refused S08 save failed after 0 bytes\n\n"
    assert ended.answers == b"ok\n\nsaved 10491\n\nok\n\n" + failed + b"ok\n\n" + failed
    room.ask("more.sgy", "set 1 inline 7\n", "--tail", "--out", "wanted.sgy")
    assert same(room.get("own.sgy"), room.get("wanted.sgy"))
