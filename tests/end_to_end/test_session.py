"""A session: each line of standard input is answered before the next is read, with an empty line behind each answer."""

import os
import resource
import time

import pytest

from files import changed, content
from running import differences, same
from sessions import Session
from tables import check_line

# one IBM float a trace
FLOATS = "floats.sgy", changed(content("s.sgy"), "3220 0001", "3224 0001")
FLOATS_TOLD = (
    "segywb: floats.sgy: L06 float format 1 (bytes 3225-3226; formats 1, 5 and 6 are floats, which have values where --floats asks for them)\n"
    "segywb: with --floats the file is read, its samples with their values; with --opaque-samples as bytes without a value\n"
)
SHORT = "short.sgy", content("s.sgy")[:3000]
SHORT_TOLD = "segywb: short.sgy: L03 short 3000 (the two file headers have 3600 bytes)\n"
FLOATS_INFO = (
    "info order big revision 1.0 format 1 samples 1 fixed yes extensions 0 blocks 0 trailer 0 traces 3 bytes 4332\n\n"
)
LONG = 16777216
FULL = (
    "segywb: save failed after 0 bytes\n"
    "segywb: /dev/full: cannot write it (No space left on device (os error 28)): it took nothing; save elsewhere\n"
)
# lines whose ends fall on and around the ends of reads of 65536 bytes
AROUND_READS = b"".join(b" " * (length - 1) + b"#\ncount\n" for length in (65533, 65534, 65535, 65536, 65537, 131071, 131072))

# a file, the lines, the status, the answers, standard error, and options
ANSWERED = [
    (
        "an empty line behind each answer", "s.sgy", b"count\n\n# a note\nset 2 @189:4 7\nget 2 @189:4\n",
        0, "traces 3\n\n\n\nok\n\nvalue 7\n\n", "", "",
    ),
    ("no line", "s.sgy", b"", 0, "", "", ""),
    ("a last line without a line feed", "s.sgy", b"count\ncount", 1, "traces 3\n\nrefused S06 cut off\n\n", "", ""),
    ("a last note without a line feed", "s.sgy", b"count\n# a note", 1, "traces 3\n\nrefused S06 cut off\n\n", "", ""),
    (
        "carriage returns, and a line that is no command", "s.sgy", b"count\r\nnothing\r\n",
        1, "traces 3\n\nrefused S01 unknown word\n\n", "", "",
    ),
    (
        "a NUL, and bytes that are no text", "s.sgy", b"count\0\n\xff\ncount\n",
        1, "refused S01 unknown word\n\nrefused S04 not text\n\ntraces 3\n\n", "", "",
    ),
    ("a refused file has its line alone", SHORT, b"count\n", 3, "load refused L03 short 3000\n", SHORT_TOLD, ""),
    ("and quietly", SHORT, b"count\n", 3, "load refused L03 short 3000\n", "", "--quiet"),
    ("floats", FLOATS, b"count\n", 3, "load refused L06 float format 1\n", FLOATS_TOLD, ""),
    (
        "floats, asked for", FLOATS, b"info\nsample 1 0\nset 1 inline 7\nsample 9 0\nget 1 inline\n",
        1, FLOATS_INFO + "refused E12 samples have no value\n\nok\n\nrefused E01 no trace 9 of 3\n\nvalue 7\n\n", "", "--opaque-samples",
    ),
    (
        "floats with values", FLOATS, b"info\npatch 1 0 -118.625\nsample 1 0\nstat 1\ntotals\npatch 2 0 1e76\npatch 3 0 nan\nslice 0\n",
        1,
        FLOATS_INFO + "ok\n\nvalue -118.625\n\nstat least -118.625 greatest -118.625 sum -118.625 samples 1 nans 0\n\n"
        "totals least -7.0956604003048715e75 greatest 1.0120715927804881e-79 samples 3 nans 0\n\nrefused E04 does not fit\n\n"
        "refused E04 does not fit\n\nslice 3\nrow 10 21 1 -118.625\nrow 10 22 2 1.0120715927804881e-79\n"
        "row 10 23 3 -7.0956604003048715e75\n\n",
        "", "--floats",
    ),
    # long lines
    ("a note of 16777216 bytes", "s.sgy", b"# " + b"x" * (LONG - 2) + b"\ncount\n", 0, "\ntraces 3\n\n", "", ""),
    (
        "one byte more, whatever it holds", "s.sgy", b"# " + b"x" * (LONG - 1) + b"\ncount\n",
        1, "refused S05 too large\n\ntraces 3\n\n", "", "",
    ),
    (
        "the rest of a long line is passed over", "s.sgy", bytes(50000000) + b"\ncount\n",
        1, "refused S05 too large\n\ntraces 3\n\n", "", "",
    ),
    ("a long line that is cut off is too large first", "s.sgy", bytes(50000000), 1, "refused S05 too large\n\n", "", ""),
    ("no limit on the sum of the lines", "s.sgy", (b" " * 9000000 + b"count\n") * 3, 0, "traces 3\n\n" * 3, "", ""),
    ("lines about as long as a read", "s.sgy", AROUND_READS, 0, "\ntraces 3\n\n" * 7, "", ""),
    ("20000 lines at once", "s.sgy", b"count\n" * 20000, 0, "traces 3\n\n" * 20000, "", ""),
    ("a word that stands twice", "s.sgy", b"count\n", 0, "traces 3\n\n", "", "--session --fixed --fixed"),
    # the line save
    ("no out", "s.sgy", b"save\ncount\n", 1, "refused S07 no out\n\ntraces 3\n\n", "", ""),
    ("no out stops", "s.sgy", b"save\ncount\n", 1, "refused S07 no out\n\n", "", "--stop"),
    (
        "a device that takes nothing", "s.sgy", b"save\ncount\n",
        1, "refused S08 save failed after 0 bytes\n\ntraces 3\n\n", FULL, "--out /dev/full",
    ),
]


def place(room, file):
    """The file of a row in the room, and its bytes."""
    name, made = file if isinstance(file, tuple) else (file, content(file))
    room.put(name, made)
    return name, made


@pytest.mark.parametrize("file, lines, status, answers, errors, options", [pytest.param(*row[1:], id=row[0]) for row in ANSWERED])
def test_answers(room, file, lines, status, answers, errors, options):
    name, _ = place(room, file)
    ended = room.run(name, "--session", *options.split(), entered=lines)
    assert ended.answers.decode() == answers
    assert (ended.status, ended.errors.decode()) == (status, errors)


# ---- as runs of the same lines as a script answer, line by line, and the same file is saved
REPORTS = (
    "count\nset 1 inline 77\nset 9 inline 1\ninlines\nfaults\ngrid\n# note\n\nmap far @1:4\nfields\ninfo\nhistogram\nslice 0\nslice 1\nslice 1\n"
    "line 0 1\ntext 1 C 1 NOTE\nline 0 1\n"
)
HEADERS = (
    "table 1 3 inline crossline @5:4\nset 2 crossline -7\nfind 1 3 crossline -9 21\nheader 2\nextremes 2 3\nlines 0\ntable 1 4 inline\n"
    "find 1 3 nothing 1 2\nlines 1\nheader 4\nmap mine @189:4\nheader 1\nextremes 1 1\nfind 1 3 mine 11 9\ntable 3 3 mine mine\n"
    "samples all 0 9\nsamples 1 2 1 1 where mine = 10\nsamples 1 4 0 1\nsamples all 0 1 where mine = 77\nsamples 1 3 0\n"
)
TRACES = (
    "delete 1\nblank 1\ncopy 2 4\nmove 1 3\npatch 1 0 5 6\nrenumber 1 3 inline 100 5\ninlines\nget 1 inline\nsample 1 1\nbogus\ntotals\nrange x\n"
)
MORE = "more.sgy", content("s.sgy") + bytes(100)
TAIL = (
    "info\nset 1 inline 5\ndeclare\ncopy 1 4\ninfo\ndrop\ndrop head\ndrop tail tail\ndrop tail\ninfo\ndrop tail\nblank 1\ninfo\n"
)
AS_RUNS = [
    ("floats as a run", FLOATS, "info\nsample 1 0\nset 1 inline 7\nsample 9 0\nget 1 inline\n", "--opaque-samples"),
    (
        "floats with values as a run", FLOATS,
        "info\npatch 1 0 -118.625\nsample 1 0\nstat 1\ntotals\npatch 2 0 1e76\npatch 3 0 nan\nslice 0\nsamples all 0 9\n",
        "--floats",
    ),
    ("reports and edits", "s.sgy", REPORTS, ""),
    ("headers", "s.sgy", HEADERS, ""),
    ("headers with an extension", "x.sgy", HEADERS, ""),
    ("traces", "s.sgy", TRACES, ""),
    ("under --fixed", "s.sgy", TRACES, "--fixed"),
    ("bytes of no trace", MORE, TAIL, "--tail"),
    ("and none", "s.sgy", TAIL, "--tail"),
    ("and none without the reading", "s.sgy", TAIL, ""),
    ("bytes of no trace that stay", MORE, "info\nset 1 inline 5\ndeclare\ncopy 1 4\ninfo\n", "--tail"),
]


@pytest.mark.parametrize("file, lines, options", [pytest.param(*row[1:], id=row[0]) for row in AS_RUNS])
def test_as_a_run(room, file, lines, options):
    name, _ = place(room, file)
    words = options.split()
    wanted = before = b""
    for count in range(1, lines.count("\n") + 1):
        now = room.ask(name, "".join(lines.splitlines(keepends=True)[:count]), *words).answers
        wanted += now[len(before):] + b"\n"
        before = now
    run = room.ask(name, lines, "--out", "by_run.sgy", *words)
    ended = room.run(name, "--session", "--out", "by_session.sgy", "--save-at-end", *words, entered=lines.encode())
    assert ended.answers + ended.errors == wanted
    assert ended.status == run.status
    assert same(room.get("by_session.sgy"), room.get("by_run.sgy"))


# ---- the answer is there before the next line is read
def test_answers_one_line_at_a_time(room):
    with Session(room, room.make("s.sgy"), "--session") as session:
        assert session.ask("samples 1 2 0 1") == "samples 2\n1 1 -2\n2 3 4"
        for turn in (1, 2, 3):
            session.send(f"set 1 inline {turn}\nget 1 inline\n".encode())
            assert session.answer() == "ok"
            assert session.answer() == f"value {turn}"
        session.send(b"coun")
        session.send(b"t\n")
        assert session.answer() == "traces 3"
        assert session.end().status == 0


# ---- saves: the lines, the status, the answers, options behind --out, and how the saved file differs: None where it is not made
STOPPED = "ok\n\nrefused S01 unknown word\n\n"
SAVED = "saved 4332\n\n"
SAVES = [
    ("stops at a refused line and saves nothing", b"set 1 inline 5\nbogus\nset 2 inline 6\n", 1, STOPPED, "--stop", None),
    (
        "saves at the line save, and not behind it", b"set 2 @189:4 7\nsave\nset 3 @189:4 8\n",
        0, f"ok\n\n{SAVED}ok\n\n", "", ["4036 12 7"],
    ),
    (
        "saves at the end too, where that is asked for", b"set 2 @189:4 7\nsave\nset 3 @189:4 8\n",
        0, f"ok\n\n{SAVED}ok\n\n", "--save-at-end", ["4036 12 7", "4280 12 10"],
    ),
    ("the end of the lines saves nothing", b"set 2 @189:4 7\n", 0, "ok\n\n", "", None),
    (
        "nor does a line that is cut off, with --save-at-end", b"set 2 @189:4 7\nset 3 @189:4 8",
        1, "ok\n\nrefused S06 cut off\n\n", "--save-at-end", None,
    ),
    ("a save that is cut off is none", b"save\nset 2 @189:4 7\nsave", 1, f"{SAVED}ok\n\nrefused S06 cut off\n\n", "", []),
    (
        "an earlier save stays where a line stops the session", b"set 2 @189:4 7\nsave\nbogus\nset 3 @189:4 8\nsave\n",
        1, f"ok\n\n{SAVED}refused S01 unknown word\n\n", "--stop --save-at-end", ["4036 12 7"],
    ),
]


@pytest.mark.parametrize("lines, status, answers, options, changes", [pytest.param(*row[1:], id=row[0]) for row in SAVES])
def test_saves(room, lines, status, answers, options, changes):
    ended = room.run(room.make("s.sgy"), "--session", "--out", "o.sgy", *options.split(), entered=lines)
    assert (ended.status, ended.answers.decode(), ended.errors) == (status, answers, b"")
    if changes is None:
        assert not room.has("o.sgy")
    else:
        assert differences(content("s.sgy"), room.get("o.sgy")) == changes


def test_words_of_a_save(room):
    lines = b" \tsave \r\nsave it\n# save\nsaves\ndelete 3\nsave\ncount\n"
    ended = room.run(room.make("s.sgy"), "--session", "--out", "o.sgy", entered=lines)
    wanted = f"{SAVED}refused S02 words\n\n\nrefused S01 unknown word\n\nok\n\nsaved 4088\n\ntraces 2\n\n"
    assert (ended.status, ended.answers.decode(), ended.errors) == (1, wanted, b"")
    assert same(room.get("o.sgy"), content("s.sgy")[:4088])


def test_save_is_no_word_of_scripts(room):
    ended = room.ask("s.sgy", "save\n", "--out", "o.sgy")
    assert (ended.status, ended.answers) == (1, b"refused S01 unknown word\n")
    assert b"word of sessions" in ended.errors


def test_saves_over_its_own_file(room):
    room.put("own.sgy", content("s.sgy"))
    ended = room.run("own.sgy", "--session", "--save-at-end", "--out", "own.sgy", entered=b"set 2 @189:4 7\n")
    assert (ended.status, ended.answers, ended.errors) == (0, b"ok\n\n", b"")
    assert differences(content("s.sgy"), room.get("own.sgy")) == ["4036 12 7"]


def test_three_saves_over_file_itself_and_a_change_of_another_program(room):
    room.put("own.sgy", content("s.sgy"))
    with Session(room, "own.sgy", "--session", "--out", "own.sgy") as session:
        for value in (5, 6, 7):
            assert session.ask(f"set 2 @189:4 {value}") == "ok"
            assert session.ask("save") == "saved 4332"
        assert differences(content("s.sgy"), room.get("own.sgy")) == ["4036 12 7"]
        # times of files are told in steps
        time.sleep(0.1)
        theirs = changed(room.get("own.sgy"), "100 58")
        with open(room.path("own.sgy"), "r+b") as file:
            file.seek(100)
            file.write(b"X")
        assert session.ask("save") == "refused S08 save failed after 4332 bytes"
        assert same(room.get("own.sgy"), theirs)
        assert "segywb: FILE was changed by another program" in session.end().lines()


def test_in_place_and_out_leads_to_file(room):
    room.put("own.sgy", content("s.sgy"))
    lines = b"set 2 @189:4 7\nsave\nset 2 @189:4 8\nsave\n"
    ended = room.run("own.sgy", "--session", "--out", "own.sgy", "--in-place", entered=lines)
    assert (ended.status, ended.answers.decode(), ended.errors) == (0, f"ok\n\n{SAVED}ok\n\n{SAVED}", b"")
    assert differences(content("s.sgy"), room.get("own.sgy")) == ["4036 12 10"]


def test_a_pipe_gets_the_bytes(room):
    taken = room.taking("pipe")
    ended = room.run(room.make("s.sgy"), "--session", "--out", "pipe", entered=b"set 2 @189:4 7\nsave\n")
    assert (ended.status, ended.answers.count(b"saved")) == (0, 1)
    assert differences(content("s.sgy"), taken()) == ["4036 12 7"]


def test_a_save_past_the_limit_on_file_sizes(room):
    os.mkdir(room.path("closed"))
    room.put("closed/out.sgy", content("s.sgy"))
    limits = [(resource.RLIMIT_FSIZE, 2048)]
    lines = b"set 2 @189:4 7\nsave\ncount\n"
    ended = room.run(room.make("s.sgy"), "--session", "--out", "closed/out.sgy", entered=lines, limits=limits)
    assert (ended.status, ended.answers) == (1, b"ok\n\nrefused S08 save failed after 2048 bytes\n\ntraces 3\n\n")
    assert b"save failed after 2048 bytes" in ended.errors
    assert same(room.get("closed/out.sgy"), content("s.sgy"))


def test_a_save_that_fails_and_one_behind_it(room, nobody):
    os.mkdir(room.path("closed"))
    room.put("closed/out.sgy", content("s.sgy"))
    for name in ("closed", "closed/out.sgy"):
        os.chmod(room.path(name), 0o777)
    room.make("s.sgy")
    nobody(room)
    with Session(room, "s.sgy", "--session", "--out", "closed/out.sgy") as session:
        assert session.ask("set 2 @189:4 7") == "ok"
        os.chmod(room.path("closed"), 0o555)
        assert session.ask("save") == "refused S08 save failed after 0 bytes"
        assert same(room.get("closed/out.sgy"), content("s.sgy"))
        os.chmod(room.path("closed"), 0o777)
        assert session.ask("save") == "saved 4332"
        assert session.end().status == 1


# ---- what sends the lines dies: at each line, and between two writes
LINES = "".join(f"set 1 inline {n}\nset 2 inline {n}\nset 3 inline {n}\nsave\n" for n in (1, 2, 3)).encode()


@pytest.mark.parametrize("length", range(1, len(LINES), 7))
def test_a_partner_that_dies_leaves_what_stood_at_the_last_save(room, length):
    room.put("own.sgy", content("s.sgy"))
    ended = room.run("own.sgy", "--session", "--out", "own.sgy", entered=LINES[:length])
    saves = ended.answers.splitlines().count(b"saved 4332")
    wanted = content("s.sgy")
    if saves:
        lines = b"".join(LINES.splitlines(keepends=True)[:4 * saves])
        room.run(room.make("s.sgy"), "--session", "--out", "wanted", entered=lines)
        wanted = room.get("wanted")
    assert same(room.get("own.sgy"), wanted)


# ---- devices
def test_standard_input_that_cannot_be_read(room):
    folder = os.open(str(room.folder), os.O_RDONLY)
    ended = room.run(room.make("s.sgy"), "--session", "--out", "o.sgy", stdin=folder)
    os.close(folder)
    assert (ended.status, ended.answers) == (4, b"script refused P01 read failed\n")
    assert not room.has("o.sgy")


def test_answers_that_fail(room):
    with open("/dev/full", "wb") as full:
        ended = room.run(room.make("s.sgy"), "--session", "--out", "o.sgy", entered=b"set 1 inline 5\n", stdout=full)
    assert (ended.status, ended.errors) == (4, b"segywb: answers failed\n")
    assert not room.has("o.sgy")


# ---- each growth of memory is refused in turn: a line is E11 and changes nothing, and all others are answered and saved as without it
GROWING = [
    "set 1 inline 5", "table 1 3 inline x", "lines 0", "# " + "x" * 150000, "patch 1 0 7", "map mine @9:4" + " " * 70000, "get 1 inline",
    "text 1 C 1 NOTE", "copy 1 2", "samples all 0 1", "count",
]
NO_JOURNAL = "segywb: s.sgy: cannot look for a journal beside it (out of memory)\n"


def check_growth(room, ended):
    """How a session ends in which one growth was refused; gives back how many lines were refused for it."""
    if ended.status in (2, 4):
        assert not room.has("o.sgy")
        return 0
    if ended.status == 3:
        assert ended.answers == b"load refused L16 out of memory\n" or ended.errors.decode() == NO_JOURNAL
        return 0
    # the lines of an answer, up to the empty one; a note has none, but E11 where no memory holds it
    blocks = answers_of(ended.answers.decode())
    assert len(blocks) == len(GROWING)
    done = [(line, block) for line, block in zip(GROWING, blocks) if block != "refused E11 out of memory\n"]
    fewer = room.ask("s.sgy", "".join(line + "\n" for line, _ in done), "--out", "fewer.sgy")
    assert fewer.answers.decode() == "".join(block for _, block in done)
    assert same(room.get("o.sgy"), room.get("fewer.sgy"))
    return len(GROWING) - len(done)


def answers_of(text):
    """The answers of a session, each without the empty line behind it."""
    blocks = [""]
    for line in text.splitlines(keepends=True):
        if line == "\n":
            blocks.append("")
        else:
            blocks[-1] += line
    assert blocks.pop() == ""
    return blocks


def test_each_growth_refused_in_turn(room, compiled):
    library = str(compiled("refuse_growth", "-shared"))
    lines = "".join(line + "\n" for line in GROWING).encode()
    words = [room.make("s.sgy"), "--session", "--out", "o.sgy", "--save-at-end"]
    room.run(*words, entered=lines, environment={"LD_PRELOAD": library, "REFUSE_COUNT": "asked"})
    refused = 0
    for number in range(1, int(room.get("asked")) + 1):
        if room.has("o.sgy"):
            os.remove(room.path("o.sgy"))
        ended = room.run(*words, entered=lines, environment={"LD_PRELOAD": library, "REFUSE": str(number)})
        refused += check_growth(room, ended)
    assert refused >= 3


# ---- the command line
NOT_ACCEPTED = [
    "", "--session --script lines", "--script", "--session --session --script lines", "--script lines --save-at-end --out o.sgy",
    "--session --save-at-end",
]


@pytest.mark.parametrize("words", NOT_ACCEPTED)
def test_line_that_is_not_accepted(room, words):
    room.put("lines", "count\n")
    check_line(room, room.make("s.sgy"), *words.split())
