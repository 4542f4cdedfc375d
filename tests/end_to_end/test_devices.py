"""Each device of the program fails at each place: the file, the script, the saved file and the answers, by a preloaded library. What is told
and what is left is exact. A device fails once and works again, so that a call that is tried once more shows."""

import os
import subprocess

import pytest

from files import content, float_line
from sweeps import end

EINTR, EIO, ENOSPC = 4, 5, 28
SCRIPT = "set 2 @189:4 7\nget 2 @189:4\n"
BYTES = len(content("s.sgy"))
LETTERS = len(SCRIPT)
RUN = ["s.sgy", "--script", "script", "--out", "o.sgy"]
WHOLE = [end("whole", 0, "whole.txt", saved="whole.sgy")]
L01 = [end("L01", 3, "=load refused L01 read failed")]
L02 = [end("L02", 3, "=load refused L02 too large")]
P01 = [end("P01", 4, "=script refused P01 read failed")]
P02 = [end("P02", 4, "=script refused P02 too large")]
LARGEST = 16777216


def wanted(room, script, name, *words):
    """A script, and what a whole run of it gives: NAME.txt, and NAME.sgy where it is saved."""
    ended = room.run(*words, "--script", script, "--out", f"{name}.sgy")
    room.put(f"{name}.txt", ended.answers)
    return ended


@pytest.fixture
def begun(room):
    """The survey, a script, and what a run of it gives."""
    room.make("s.sgy")
    room.put("script", SCRIPT)
    wanted(room, "script", "whole", "s.sgy")
    return room


@pytest.fixture
def failing(sweeps, fail_device):
    """failing(DEVICE, FIRST, LAST, ENDS, WORDS, VARIABLES) is a sweep in which a device fails."""

    def run(device, first, last, ends, words, *variables):
        return sweeps.run(first, last, ends, words, variables=[fail_device, f"DEVICE={device}", *variables])

    return run


# ---- the file: a byte a call, and call 1, 2, .. fails; the last of them would have told its end. Then the script, the same
STEP = ["STEP=1", "FAIL_CALL=%"]
INTERRUPTED = f"FAULT={EINTR}"
READS = [
    ("the file fails at read", "s.sgy", 1, BYTES + 1, L01, STEP),
    ("the file fails behind its end", "s.sgy", BYTES + 2, BYTES + 2, WHOLE, STEP),
    ("a read of the file is interrupted", "s.sgy", 1, 2, L01, ["FAIL_CALL=%", INTERRUPTED]),
    ("a read of the file is interrupted at byte", "s.sgy", BYTES - 5, BYTES, L01, ["GIVES=%", INTERRUPTED]),
    ("the script fails at read", "script", 1, LETTERS + 1, P01, STEP),
    ("the script fails behind its end", "script", LETTERS + 2, LETTERS + 2, WHOLE, STEP),
    ("a read of the script is interrupted", "script", 1, 2, P01, ["FAIL_CALL=%", INTERRUPTED]),
]


@pytest.mark.parametrize("device, first, last, ends, variables", [pytest.param(*row[1:], id=row[0]) for row in READS])
def test_reads(begun, failing, device, first, last, ends, variables):
    failing(device, first, last, ends, RUN, *variables)


# ---- a file and a script without an end: one byte behind the limit is taken, and no more is waited for
ENDLESS_FILE = ["/dev/zero", "--script", "script", "--out", "o.sgy", "--max-bytes", "4332"]
ENDLESS_SCRIPT = ["s.sgy", "--script", "/dev/zero", "--out", "o.sgy"]
ENDLESS = [
    ("an endless file of bytes one by one", 1, 1, L02, ENDLESS_FILE, "STEP=1"),
    ("an endless file that fails behind the limit", 4333, 4334, L02, ENDLESS_FILE, "GIVES=%"),
    ("an endless file that fails at the limit", 4331, 4332, L01, ENDLESS_FILE, "GIVES=%"),
    ("an endless script that fails behind the limit", LARGEST + 1, LARGEST + 2, P02, ENDLESS_SCRIPT, "GIVES=%"),
    ("an endless script that fails at the limit", LARGEST - 1, LARGEST, P01, ENDLESS_SCRIPT, "GIVES=%"),
]


@pytest.mark.parametrize("first, last, ends, words, variable", [pytest.param(*row[1:], id=row[0]) for row in ENDLESS])
def test_without_an_end(begun, failing, first, last, ends, words, variable):
    failing("/dev/zero", first, last, ends, words, variable)


@pytest.mark.parametrize("words, ends", [(ENDLESS_FILE, L02), (ENDLESS_SCRIPT, P02)], ids=["an endless file", "an endless script"])
def test_without_an_end_and_without_the_library(begun, sweeps, words, ends):
    sweeps.once(ends, words)


# more than each limit
ZEROS = [bytes(65536)] * 1000
PIPES = [
    ("a script without an end", ["s.sgy", "--script", "pipe"], P02, ZEROS),
    ("a file without an end", ["pipe", "--script", "script"], L02, ZEROS),
    ("a file", ["pipe", "--script", "script"], WHOLE, [content("s.sgy")]),
]


@pytest.mark.parametrize("words, ends, pieces", [pytest.param(*row[1:], id=row[0]) for row in PIPES])
def test_from_a_pipe(begun, sweeps, words, ends, pieces):
    begun.feed("pipe", *pieces)
    sweeps.once(ends, [*words, "--out", "o.sgy", "--max-bytes", "100000"])


# of a pipe no more is taken than one byte behind the limit: the rest is there for another
TAKEN = [
    ("a refused file takes one byte more", 4333, "/dev/stdin --script script --max-bytes 4332"),
    ("and of a large one", 100001, "/dev/stdin --script script --max-bytes 100000"),
    ("and where the limit is that of a buffer", 65537, "/dev/stdin --script script --max-bytes 65536"),
    ("a refused script takes one byte more", LARGEST + 1, "s.sgy --script /dev/stdin"),
]
SENT = 16777400


@pytest.mark.parametrize("count, words", [pytest.param(*row[1:], id=row[0]) for row in TAKEN])
def test_no_more_is_taken(begun, count, words):
    with subprocess.Popen(["head", "-c", str(SENT), "/dev/zero"], stdout=subprocess.PIPE) as source:
        begun.run(*words.split(), stdin=source.stdout)
        rest = len(source.stdout.read())
    assert SENT - rest == count


# ---- the saved file: it takes a byte a call, or what it has room for, and fails once it holds 0, 1, .. bytes. OUT is left alone; a device,
# which takes the bytes itself, took what is told
REASONS = {EIO: "Input/output error (os error 5)", ENOSPC: "No space left on device (os error 28)", 0: "write zero"}
SAVED = ["saved", "/dev/null"]
LARGE = len(content("v.sgy"))


@pytest.fixture(params=SAVED)
def way(request, begun):
    """The device that the save goes to: the new file beside OUT, or one that takes the bytes itself."""
    begun.make("v.sgy")
    begun.put("one", "set 2 inline 7\n")
    wanted(begun, "one", "whole_v", "v.sgy")
    return request.param


def saving(way, large):
    """The words of a save of the small file or the large one."""
    out = "o.sgy" if way == "saved" else way
    return ["v.sgy", "--script", "one", "--out", out] if large else ["s.sgy", "--script", "script", "--out", out]


def there(way, name):
    """The end of a save that is whole."""
    return [end("whole", 0, f"{name}.txt", saved=f"{name}.sgy" if way == "saved" else "-")]


def torn(way, fault, name, nothing):
    """The end of a save that fails: once it took the first bytes, or none."""
    reason = REASONS[fault]
    if way == "saved":
        told = f"o.sgy: cannot write the file beside it ({reason}): it is as it was; save elsewhere, or repair FILE itself with --in-place"
    else:
        told = f"{way}: cannot write it ({reason}): it took {'nothing' if nothing else 'a part of the file'}; save elsewhere"
    return [end("torn", 4, f"{name}.txt", f"=segywb: save failed after % bytes\nsegywb: {told}")]


def fails(failing, way, fault, large, first, last, *variables):
    """A save that fails once it took ``first`` to ``last`` bytes."""
    name = "whole_v" if large else "whole"
    if first == 0:
        failing(way, 0, 0, torn(way, fault, name, True), saving(way, large), *variables)
        first = 1
    if first <= last:
        failing(way, first, last, torn(way, fault, name, False), saving(way, large), *variables)


def test_a_save_that_has_just_room(failing, way):
    failing(way, BYTES, BYTES + 1, there(way, "whole"), saving(way, False), "HOLDS=%")
    failing(way, LARGE, LARGE, there(way, "whole_v"), saving(way, True), "HOLDS=%")


def test_a_save_takes_single_bytes_and_fails(begun, failing, way):
    fails(failing, way, EIO, False, 0, BYTES - 1, "STEP=1", "HOLDS=%")
    check_none_is_left(begun)


def test_a_save_fails(begun, failing, way):
    fails(failing, way, ENOSPC, False, 0, BYTES - 1, "HOLDS=%", f"FAULT={ENOSPC}")
    check_none_is_left(begun)


def check_none_is_left(room):
    """That no new file is left."""
    assert [name for name in room.names() if "segywb-" in name] == []


@pytest.mark.parametrize("at", [1, 2, 2000, BYTES])
def test_a_save_takes_no_byte_in_a_write(failing, way, at):
    fails(failing, way, 0, False, at - 1, at - 1, "STEP=1", f"NO_BYTES={at}")


# a write that a signal interrupts is made again
@pytest.mark.parametrize("at", [0, 1, BYTES - 1])
def test_a_write_of_a_save_is_interrupted(failing, way, at):
    failing(way, at, at, there(way, "whole"), saving(way, False), "HOLDS=%", INTERRUPTED)


# more than the program's buffer holds
@pytest.mark.parametrize("at", [0, 3190, 3590, 65526, LARGE - 20])
def test_a_save_of_a_large_file_fails(begun, failing, way, at):
    fails(failing, way, EIO, True, at, at + 19, "HOLDS=%")
    check_none_is_left(begun)


def test_a_write_of_a_large_piece_is_interrupted(failing, way):
    failing(way, 65536, 65536, there(way, "whole_v"), saving(way, True), "HOLDS=%", INTERRUPTED)


# ---- bytes of no trace behind the last one are read, and saved, as all others
MORE = ["more.sgy", "--tail", "--script", "script", "--out", "o.sgy"]
WHOLE_MORE = [end("whole", 0, "whole.txt", saved="whole_more.sgy")]
ON_DISK = pytest.mark.parametrize("place", [[], ["--on-disk"]], ids=["in memory", "on disk"])


@pytest.fixture
def more(begun):
    """The survey with bytes of no trace, and what a run gives."""
    begun.put("more.sgy", content("s.sgy") + content("s.sgy")[:7])
    begun.put("whole_more.sgy", begun.get("whole.sgy") + content("s.sgy")[:7])
    return begun


@ON_DISK
def test_the_save_of_bytes_of_no_trace(more, sweeps, failing, place):
    sweeps.once(WHOLE_MORE, MORE + place)
    failing("saved", BYTES - 3, BYTES + 6, torn("saved", EIO, "whole", False), MORE + place, "HOLDS=%")
    failing("saved", BYTES + 7, BYTES + 8, WHOLE_MORE, MORE + place, "HOLDS=%")


def test_a_file_with_bytes_of_no_trace_fails(more, failing):
    failing("more.sgy", BYTES - 3, BYTES + 8, L01, MORE, *STEP)
    failing("more.sgy", BYTES + 9, BYTES + 9, WHOLE_MORE, MORE, *STEP)


def test_bytes_of_no_trace_that_are_taken_away(more, sweeps):
    more.put("dropped", SCRIPT + "drop tail\n")
    more.put("dropped.txt", more.run("s.sgy", "--script", "dropped").answers)
    words = ["more.sgy", "--tail", "--script", "dropped", "--out", "o.sgy"]
    sweeps.once([end("whole", 0, "dropped.txt", saved="whole.sgy")], words)


# ---- the answers: to each line of a long script, and to a list that is longer than the program's buffers
THRICE = [
    "info", "count", "map mine @17:4", "set 2 mine 7", "get 2 mine", "set 4 inline 7", "fields", "copy 1 2", "grid", "patch 2 0 7 8", "slice 1",
    "move 4 1", "move 2 3 1", "map shot", "map usual", "table 1 3 inline x", "find 1 3 crossline 22 30", "extremes 1 2", "lines 0",
    "table 1 9 inline", "compute 1 3 offset inline * 2", "compute 1 3 offset 7 / delay", "sort 1 3 -crossline", "sort 1 3 nine",
    "fill all 1 1 -7 where crossline > 21", "fill 1 3 0 9 1", "count all where inline = 10", "set all @5:4 7 where crossline > 21",
    "table all inline where crossline > 99", "stats all", "samples all 0 1", "samples 1 last 1 9 2 where crossline > 21", "line 0 1", "sett", "text 1 C LINE", "line 0 1", "unmap mine", "get 2 mine",
    "drop tail", "drop head", "drop", "blank 2", "faults", "histogram", "delete 2", "delete 2", "totals", "range x",
]
OF_FLOATS = [
    "sample 1 0", "stat 1", "stat 2", "totals", "slice 0", "slice 1", "patch 1 0 1e-5 nan", "patch 1 0 1e999", "patch 1 0 +1", "stat 1",
    "slice 1", "samples all 0 1", "resize 1 3", "samples 1 1 1 2", "fill 1 2 0 1 -0.5", "fill 1 2 1 1 1e999", "sample 3 1", "delete 3", "totals", "delete 1", "stat 1", "totals",
]
FLOATS = float_line(
    "little", 6, 2, "3fb999999999999a,c05da80000000000", "7ff8000000000000,fff0000000000000", "8000000000000000,0000000000000001",
)
LONG = {
    "a long script": ("s.sgy", content("s.sgy"), THRICE * 3 + ["header 2"], []),
    "floats": ("f.sgy", FLOATS, OF_FLOATS, ["--floats"]),
}


@pytest.fixture(params=LONG)
def long(request, room):
    """Words with many answers: they are `long.txt`, and what is saved is `long.sgy`."""
    name, made, lines, options = LONG[request.param]
    room.put(name, made)
    room.put("lines", "\n".join(lines) + "\n")
    assert wanted(room, "lines", "long", name, *options).status == 1
    return [name, *options, "--script", "lines", "--out", "o.sgy"]


def lost(name="long"):
    """The end of a run whose answers fail: the first are there, and nothing is saved."""
    return [end("lost", 4, f"{name}.txt:%", "=segywb: answers failed")]


QUARTERS = pytest.mark.parametrize("quarter", range(4))


def part(room, quarter, name="long"):
    """A quarter of the numbers of bytes of the answers."""
    size = len(room.get(f"{name}.txt"))
    return size * quarter // 4, size * (quarter + 1) // 4 - 1


@QUARTERS
def test_the_answers_take_single_bytes_and_fail(room, failing, long, quarter):
    failing("answers", *part(room, quarter), lost(), long, "STEP=1", "HOLDS=%")


@QUARTERS
def test_the_answers_fail(room, failing, long, quarter):
    failing("answers", *part(room, quarter), lost(), long, "HOLDS=%")


def test_the_answers_take_no_byte_in_a_write(room, failing, long):
    for at in (1, 2, 500, len(room.get("long.txt"))):
        failing("answers", at - 1, at - 1, lost(), long, "STEP=1", f"NO_BYTES={at}")


# a write that a signal interrupts is made again
def test_a_write_of_the_answers_is_interrupted(failing, long):
    failing("answers", 0, 20, [end("whole", 1, "long.txt", saved="long.sgy")], long, "HOLDS=%", INTERRUPTED)


@pytest.mark.parametrize("at", [0, 8180, 16370, None])
@pytest.mark.parametrize("line", ["faults", "samples all 0 1 where @1:4 = 0", "samples all 0 9"])
def test_a_long_list_fails(room, failing, line, at):
    room.put("blanks.sgy", content("s.sgy")[:3600] + bytes(488000))
    room.put("list", f"{line}\n")
    room.put("list.txt", room.run("blanks.sgy", "--script", "list").answers)
    first = len(room.get("list.txt")) - 30 if at is None else at
    failing("answers", first, first + 29, lost("list"), ["blanks.sgy", "--script", "list", "--out", "o.sgy"], "HOLDS=%")


# a refusal of the file or the script that cannot be told
UNTOLD = [
    ("load refused L02 too large", ["s.sgy", "--script", "script", "--max-bytes", "9"]),
    ("script refused P01 read failed", ["s.sgy", "--script", "folder"]),
]


@pytest.mark.parametrize("refusal, words", UNTOLD, ids=[row[0] for row in UNTOLD])
def test_a_refusal_that_cannot_be_told(begun, failing, refusal, words):
    os.mkdir(begun.path("folder"))
    begun.put("refusal.txt", refusal + "\n")
    failing("answers", 0, len(refusal), lost("refusal"), words, "STEP=1", "HOLDS=%")
