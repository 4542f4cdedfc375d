"""Numbers that the file or the script names, and how the run tells them: the room that they would ask for, the limit by default, and
the exit status."""

import resource

import pytest

from files import changed, content
from running import same
from tables import ABSENT, SAME, case, check, placed, rows


def huge(samples, count=2):
    """Revision 2.0, varying, of samples of one byte; the binary header names ``samples`` of them (4 bytes in hexadecimal), and ``count``
    traces have three by their own headers."""
    heads = ["3224 0008", f"3268 {samples}", "3296 01020304", "3500 02"]
    made = changed(content("s.sgy")[:3200] + bytes(400), *heads)
    return made + changed(bytes(243), "114 0003") * count


# the header names 4294967295 samples
HUGE = "huge.sgy", huge("ffffffff")
# 3600 bytes and two traces of 243 stand there; a third of 240 and 4294962970 samples makes 4294967296 in all
EVEN = "even.sgy", huge("ffffef1a")
ABOVE = "above.sgy", huge("ffffef1b")
FIRST, SECOND = HUGE[1][3600:3843], HUGE[1][3843:]
EDITED = HUGE[1][:3841] + b"\7\xf8" + changed(SECOND, "188 00000005") + changed(FIRST, "241 07f8")

SMALL = [
    # the samples that the binary header names are no samples of a trace that has its own number of them
    case(
        "edits where the header names 4294967295 samples, and the saved file", HUGE,
        "patch 1 1 7 -8 ; sample 1 2 ; patch 1 2 1 2 ; patch 2 3 1 ; patch 1 4294967295 1 ; sample 1 4294967295 ; set 2 inline 5 ; "
        "get 2 @115:2u ; set 2 @115:2u 0 ; set 2 @115:2u 2 ; stat 1 ; slice 2 ; slice 4294967295 ; copy 1 3 ; totals",
        "ok / value -8 / refused E05 no sample 3 of 3 / refused E05 no sample 3 of 3 / refused E05 no sample 4294967295 of 3 / "
        "refused E05 no sample 4294967295 of 3 / ok / value 3 / refused E06 frame / refused E06 frame / "
        "stat least -8 greatest 7 sum -1 samples 3 / slice 2 / row 0 0 1 -8 / row 5 0 2 0 / slice 0 / ok / "
        "totals least -8 greatest 7 sum -2 samples 9",
        1, saved=EDITED,
    ),
    # a new trace has the samples that the header names: the limit is told first, and then the want of memory
    case(
        "a blank trace that is refused for want of memory changes nothing", HUGE,
        "count ; blank 1 ; count ; blank 3 ; blank 4",
        "traces 2 / refused E11 out of memory / traces 2 / refused E11 out of memory / refused E01 no trace 4 of 2",
        1, options="--max-bytes 1099511627776", saved=SAME,
    ),
    case(
        "a blank trace beyond the limit changes nothing", HUGE,
        "count ; blank 1 ; count ; blank 3 ; blank 4",
        "traces 2 / refused E09 too large / traces 2 / refused E09 too large / refused E01 no trace 4 of 2",
        1, saved=SAME,
    ),
    case("a blank trace that fills the limit by default", EVEN, "blank 1", "refused E11 out of memory", 1),
    case("and the same limit by name", EVEN, "blank 1", "refused E11 out of memory", 1, options="--max-bytes 4294967296"),
    case("one byte more than the limit by default", ABOVE, "blank 1", "refused E09 too large", 1),
    case("and by name", ABOVE, "blank 1", "refused E09 too large", 1, options="--max-bytes 4294967296"),
    case("and one that fills a limit of one byte more", ABOVE, "blank 1", "refused E11 out of memory", 1, options="--max-bytes 4294967297"),
    case("a limit of one byte less", EVEN, "blank 1", "refused E09 too large", 1, options="--max-bytes 4294967295"),
]


@pytest.mark.parametrize("row", rows(SMALL))
def test_with_64_mib_of_memory_in_all(room, row):
    check(room, row, limits=[(resource.RLIMIT_AS, 65536 << 10)])


def available():
    """How many bytes of memory are free."""
    with open("/proc/meminfo", encoding="ascii") as file:
        numbers = dict(line.split(":") for line in file)
    return int(numbers["MemAvailable"].split()[0]) << 10


@pytest.mark.skipif(available() < 6_000_000 << 10, reason="want of memory")
def test_a_blank_trace_of_more_than_2_gib_taken_out_again(room):
    row = case(
        "with memory there", ("large.sgy", huge("80000000")),
        "blank 1 ; count ; stat 1 ; delete 1", "ok / traces 3 / stat least 0 greatest 0 sum 0 samples 2147483648 / ok", saved=SAME,
    )
    check(room, row)


# ---- the status says whether a line was refused, and not how many
@pytest.mark.parametrize("count", [0, 1, 2, 3, 4, 5, 255, 256, 257, 512, 65536])
def test_lines_refused(room, count):
    name, before = placed(room, "s.sgy")
    room.put("script", "count\n" + "x\n" * count)
    ended = room.run(name, "--script", "script", "--out", "o.sgy")
    assert ended.status == (count > 0)
    assert ended.answers == b"traces 3\n" + b"refused S01 unknown word\n" * count
    assert ended.told() == ended.refusals()
    assert ended.others() == []
    assert same(room.get("o.sgy"), before)


@pytest.mark.parametrize("count", [0, 1, 2, 3, 4, 5, 255, 256, 257, 512, 65536])
def test_lines_refused_with_stop(room, count):
    saved = ABSENT if count else SAME
    script = b"count\n" + b"x\n" * count
    answers = b"traces 3\n" + b"refused S01 unknown word\n" * min(count, 1)
    check(room, case("stops", "s.sgy", script, answers, int(count > 0), options="--stop", saved=saved))


NONE = """segywb: save failed after 0 bytes
segywb: none/o.sgy: No such file or directory (os error 2); save elsewhere"""
FULL = """segywb: save failed after 0 bytes
segywb: /dev/full: cannot write it (No space left on device (os error 28)): it took nothing; save elsewhere"""
REFUSED_LINE = "refused S01 unknown word"
SAVES = [
    case("a save that cannot be, before any line is run", "s.sgy", "x", "", 4, options="--out none/o.sgy", errors=NONE),
    case("and with --stop", "s.sgy", "x", "", 4, options="--stop --out none/o.sgy", errors=NONE),
    case("a refused line and a save that fails", "s.sgy", "x", REFUSED_LINE, 4, options="--out /dev/full", errors=FULL),
    case("a save that fails with --stop, before it is begun", "s.sgy", "x", REFUSED_LINE, 1, options="--stop --out /dev/full"),
]


@pytest.mark.parametrize("row", rows(SAVES))
def test_saves_that_fail(room, row):
    check(room, row)
