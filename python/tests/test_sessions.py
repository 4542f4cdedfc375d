"""The pipes and the program behind them: much at once, programs that die, and programs that answer oddly."""

import os
import pickle
import signal
import threading
import time

import pytest
from conftest import run

import segywb
from segywb.session import Session
from segywb.stream import Splitter, empty_lines, split

ECHO = "import itertools\nfor line in sys.stdin:\n    sys.stdout.write('ok\\n\\n' if line != 'count\\n' else 'traces 3\\n\\n'); sys.stdout.flush()\n"


# What may go on for ever goes on for as many seconds; what ends because it is noticed ends in a small part of them, also where all processors are busy.
FOREVER = 600


def died(call):
    """Calls, and gives the exception; it must come soon."""
    start = time.monotonic()
    with pytest.raises(segywb.ProgramEnded) as ended:
        call()
    assert time.monotonic() - start < FOREVER / 2
    return ended.value


def once_asked(path, does):
    """Does something in a thread once a program has made this file, which it makes where it is asked."""

    def waits():
        while not path.exists():
            time.sleep(0.01)
        does()

    thread = threading.Thread(target=waits, daemon=True)
    thread.start()
    return thread


def hangs(path):
    """A program that makes this file where a header of trace 9 is asked, and does not answer."""
    return ECHO.replace("    sys.stdout", f"    if line == 'get 9 inline\\n': open({str(path)!r}, 'w').close(); time.sleep({FOREVER})\n    sys.stdout")


def test_many_lines_at_once(opened, tmp_path):
    """100,000 lines with answers larger than any pipe holds."""
    volume = opened("cube")
    lines = [f"get {1 + n % 13} inline" if n % 2 else "geometry 1" for n in range(100_000)]
    told = volume.run(lines)
    assert "".join(f"{answer.text}\n" for answer in told) == run(volume.path, lines)[0]


def test_many_edits_at_once(opened):
    volume = opened("cube")
    volume.set_many("x", [1 + n % 12 for n in range(100_000)], range(100_000))
    assert list(volume.headers("x")["x"]) == [max(range(p, 100_000, 12)) for p in range(12)]
    assert len(volume.edits) == 100_000 and volume.undoable == 1


def test_a_line_that_is_too_long(opened):
    volume = opened("survey")
    assert volume.run("#" + " " * 16777215) == []
    assert volume.run("#" + " " * 16777216)[0].text == "refused S05 too large"
    with pytest.raises(segywb.Refused) as refusal:
        volume.run("count" + " " * 16777216 + "\nset 1 inline 7\n", stop=True)
    assert (refusal.value.code, refusal.value.text) == ("S05", "too large")
    assert volume.edits == [] and volume.get(1, "inline") == 10


def test_killed_between_calls(opened):
    volume = opened("cube")
    volume.set(1, "inline", 7)
    pid = volume._engine.session().pid
    os.kill(pid, signal.SIGKILL)
    os.waitid(os.P_PID, pid, os.WEXITED | os.WNOWAIT)
    ended = died(lambda: len(volume))
    assert ended.status == -signal.SIGKILL and "signal 9" in str(ended)
    assert volume.edits == ["set 1 inline 7"] and volume.get(1, "inline") == 7
    volume.restart()
    assert volume.get(1, "inline") == 7


def test_killed_in_the_middle(fake, opened):
    fake(ECHO.replace("for line in sys.stdin:", "for n, line in enumerate(sys.stdin):\n    if n == 5000: os.kill(os.getpid(), 9)"))
    volume = opened("survey")
    volume.set(1, "inline", 7)
    assert died(lambda: volume.set_many("x", [1] * 100_000, range(100_000))).status == -9
    assert volume.edits == ["set 1 inline 7"]
    volume.set(1, "inline", 8)
    assert volume.edits == ["set 1 inline 7", "set 1 inline 8"]


def test_ends_with_a_status_and_a_text(fake, opened):
    fake("sys.stderr.write('segywb: out of memory\\n')\nsys.exit(4)\n")
    ended = died(lambda: opened("survey"))
    assert (ended.status, ended.stderr) == (4, "segywb: out of memory\n")
    assert "status 4" in str(ended) and "out of memory" in str(ended)


def test_script_refused(fake, opened):
    fake("print('script refused P01 read failed', flush=True)\nsys.exit(4)\n")
    assert "script refused P01 read failed" in str(died(lambda: opened("survey")))


def test_an_option_that_the_program_does_not_know(fake, opened):
    fake("sys.stderr.write('error: unexpected argument\\n')\nsys.exit(2)\n")
    with pytest.raises(segywb.OptionRefused) as refusal:
        opened("survey", opaque_samples=True)
    assert "--opaque-samples" in str(refusal.value) and "unexpected argument" in str(refusal.value)


def test_options_that_are_asked_for(fake, opened, tmp_path):
    fake(f"open({str(tmp_path / 'words')!r}, 'w').write(' '.join(sys.argv[2:]))\n" + ECHO)
    opened("survey", fixed=True, opaque_samples=True, max_bytes=10**6, order="big", on_disk=True)
    assert (tmp_path / "words").read_text() == "--session --fixed --opaque-samples --order big --max-bytes 1000000 --on-disk"
    opened("survey", tail=True, max_bytes=10**6)
    assert (tmp_path / "words").read_text() == "--session --tail --max-bytes 1000000"


@pytest.mark.parametrize("size", [2**32, 2**32 + 1])
@pytest.mark.parametrize("on_disk", [False, True])
def test_the_limit_that_is_told_where_none_is_named(fake, opened, tmp_path, on_disk, size):
    """One limit in memory and on disk; but a file above the program's limit in memory is not read into memory unasked."""
    fake(f"open({str(tmp_path / 'words')!r}, 'w').write(' '.join(sys.argv[2:]))\n" + ECHO)
    with open(tmp_path / "large.sgy", "wb") as file:
        file.truncate(size)
    opened(str(tmp_path / "large.sgy"), on_disk=on_disk)
    limit = 4294967296 if size > 2**32 and not on_disk else 1099511627776
    assert (tmp_path / "words").read_text() == f"--session --max-bytes {limit}" + (" --on-disk" if on_disk else "")


@pytest.mark.parametrize("odd", [
    "traces 3\\n\\nmore\\n\\n", "traces 3\\n\\n\\n", "traces three and a half", "traces 3\\n", "traces 3",
], ids=["two answers", "an empty line more", "no end", "no empty line", "no line feed"])
def test_odd_answers(fake, opened, odd):
    """The first answer is as it has to be, the second one is odd, and then the program ends."""
    fake(f"sys.stdin.readline(); print('traces 3\\n', flush=True)\nsys.stdin.readline(); sys.stdout.write('{odd}'); sys.stdout.flush()\n")
    volume = opened("survey")
    ended = died(lambda: [len(volume), len(volume)])
    assert "not expected" in str(ended) or "ended" in str(ended) or "more than it was asked" in str(ended)


@pytest.mark.parametrize("answer", ["value", "valve 7", "value seven", "ok", "traces", "\\x00", "value 7 8 9", "info order big"])
@pytest.mark.parametrize("call", [
    lambda v: v.headers("inline"), lambda v: v.info, lambda v: v.grid, lambda v: v.slice(1), lambda v: v.faults(), lambda v: v.totals,
    lambda v: v.stat(1), lambda v: v.geometry(1), lambda v: v.range("x"), lambda v: v.text, lambda v: v.inlines(), lambda v: v.positions(),
    lambda v: v.samples(1), lambda v: v.get(1, "inline"), lambda v: v.fold(1, 1), lambda v: v.code(), lambda v: v.fields(), lambda v: v.stanzas(), lambda v: v.fault_counts(),
], ids=range(19))
def test_answers_that_are_not_expected(fake, opened, answer, call):
    fake(ECHO.replace("'ok\\n\\n'", f"'{answer}\\n\\n'"))
    died(lambda: call(opened("survey")))


def test_an_edit_that_answers_oddly(fake, opened):
    fake(ECHO.replace("'ok\\n\\n'", "'fine\\n\\n'"))
    volume = opened("survey")
    assert "fine" in str(died(lambda: volume.set(1, "inline", 7)))
    assert volume.edits == []


def test_reads_no_more(fake, opened, monkeypatch):
    """A program that closes its input and stays is not waited for without end."""
    monkeypatch.setattr("segywb.session.DEATH_SECONDS", 0.5)
    fake("sys.stdin.readline(); print('traces 3\\n', flush=True)\nos.close(0)\ntime.sleep(600)\n")
    volume = opened("survey")
    assert "no more lines" in str(died(lambda: volume.set_many("x", [1] * 200_000, range(200_000))))


def test_closes_its_answers(fake, opened, monkeypatch):
    """A program that closes its answers and stays is ended."""
    monkeypatch.setattr("segywb.session.DEATH_SECONDS", 0.5)
    fake("sys.stdin.readline(); print('traces 3\\n', flush=True)\nsys.stdin.readline(); os.close(1)\ntime.sleep(600)\n")
    volume = opened("survey")
    pid = volume._engine._session.pid
    died(lambda: len(volume))
    assert not os.path.exists(f"/proc/{pid}")


def test_a_child_that_keeps_the_pipe(fake, opened, tmp_path):
    """The program is dead, and a child of it holds the pipe open, until a file is there or for ever."""
    held = f"    for _ in range({FOREVER} * 10):\n        if os.path.exists({str(tmp_path / 'go')!r}): os._exit(0)\n        time.sleep(0.1)\n"
    fake(f"sys.stdin.readline(); print('traces 3\\n', flush=True)\nif os.fork() == 0:\n{held}else:\n    os._exit(7)\n")
    volume = opened("survey")
    try:
        assert died(lambda: len(volume)).status == 7
    finally:
        (tmp_path / "go").touch()


def test_no_program(monkeypatch, example, tmp_path):
    monkeypatch.setenv("SEGYWB", str(tmp_path / "none"))
    with pytest.raises(segywb.ProgramNotFound):
        segywb.open(example("survey"))
    monkeypatch.delenv("SEGYWB")
    monkeypatch.setattr("segywb.program._shipped", lambda: iter([tmp_path / "none"]))
    with pytest.raises(segywb.ProgramNotFound):
        segywb.open(example("survey"))


def test_an_interrupt(fake, opened, tmp_path):
    """An interrupt in the middle leaves what was accepted before; the next call starts a new session."""
    fake(hangs(tmp_path / "asked"))
    volume = opened("survey")
    volume.set(1, "inline", 7)
    thread = once_asked(tmp_path / "asked", lambda: os.kill(os.getpid(), signal.SIGINT))
    with pytest.raises(KeyboardInterrupt):
        volume.get(9, "inline")
    thread.join()
    assert len(volume) == 3 and volume.edits == ["set 1 inline 7"]


def test_a_call_that_is_ended_from_another_thread(fake, opened, tmp_path):
    fake(hangs(tmp_path / "asked"))
    volume = opened("survey")
    volume.set(1, "inline", 7)
    thread = once_asked(tmp_path / "asked", volume.interrupt)
    assert died(lambda: volume.get(9, "inline")).status == -9
    thread.join()
    assert len(volume) == 3 and volume.edits == ["set 1 inline 7"] and volume.pid > 0


@pytest.mark.parametrize("call", [
    lambda v: v.set(1, "inline", 8), lambda v: v.set_many("inline", [1, 2], 8), lambda v: v.run("set 1 inline 8"), lambda v: v.run("set 1 inline 8", stop=True),
], ids=["set", "set_many", "run", "run stop"])
def test_an_interrupt_behind_the_answer(opened, monkeypatch, call):
    """The program has accepted the edit, and the interrupt comes before it is noted: it was never made."""
    volume = opened("cube")
    volume.set(1, "inline", 7)

    def interrupted(history, step):
        raise KeyboardInterrupt

    with monkeypatch.context() as patched:
        patched.setattr("segywb.history.History.add", interrupted)
        with pytest.raises(KeyboardInterrupt):
            call(volume)
    assert volume.get(1, "inline") == 7 and volume.get(2, "inline") == 101 and volume.edits == ["set 1 inline 7"]


def test_threads(opened):
    """Calls from several threads stand one behind another."""
    volume = opened("cube")
    wrong = []

    def ask(p):
        for n in range(15):
            volume.set(p, "x", n)
            if volume.get(p, "x") != n or len(volume.headers("inline")) != 12:
                wrong.append(p)

    threads = [threading.Thread(target=ask, args=(p,)) for p in (1, 2, 3)]
    for thread in threads:
        thread.start()
    for thread in threads:
        thread.join()
    assert wrong == [] and len(volume.edits) == 45


def test_a_refusal_that_is_kept_does_not_hold_others_up(opened):
    volume = opened("cube")
    kept = []
    for call in (lambda: volume.headers("colour"), lambda: volume.set_many("x", [99], [1]), lambda: volume.positions([99])):
        with pytest.raises(segywb.Refused) as refusal:
            call()
        kept.append(refusal.value)
    told = []
    thread = threading.Thread(target=lambda: told.append(len(volume)))
    thread.start()
    thread.join(20)
    assert told == [12] and len(kept) == 3


def test_a_process_of_its_own(opened):
    """After a fork the child has a session of its own, and the parent keeps its one."""
    volume = opened("cube")
    volume.set(1, "inline", 7)
    pid = volume._engine.session().pid
    child = os.fork()
    if child == 0:
        try:
            volume.set(1, "inline", 8)
            os._exit(0 if volume.get(1, "inline") == 8 and volume._engine.session().pid != pid else 1)
        finally:
            os._exit(2)
    assert os.waitstatus_to_exitcode(os.waitpid(child, 0)[1]) == 0
    assert volume.get(1, "inline") == 7 and volume._engine.session().pid == pid


def test_a_volume_is_not_sent(opened):
    volume = opened("cube")
    with pytest.raises(TypeError):
        pickle.dumps(volume)
    refusal = pickle.loads(pickle.dumps(segywb.Refused("refused E01 no trace 9 of 3", "get 9 x")))
    assert (refusal.code, refusal.line) == ("E01", "get 9 x")


def test_nothing_is_left_running(opened):
    volume = opened("cube")
    pid = volume._engine.session().pid
    volume._engine._session = None
    assert not os.path.exists(f"/proc/{pid}")


def test_split():
    assert split(b"") == []
    assert split(b"\n\nok\n\n\nvalue 7\nvalue 8\n\n\n") == [b"", b"", b"ok", b"", b"value 7\nvalue 8", b""]
    assert empty_lines(b"\n", b"\n") == 1 and empty_lines(b"\n", b"k") == 0


@pytest.mark.parametrize("size", [1, 2, 3, 5, 100])
def test_splitter(size):
    """Answers that come in pieces of every size are cut into their batches."""
    answers = [b"ok\n\n", b"\n", b"a\nb\n\n", b"\n", b"\n", b"value 7\n\n", b"ok\n\n", b"ok\n\n"]
    for first in range(1, len(answers)):
        splitter, got = Splitter(), []
        splitter.expect(first)
        splitter.expect(len(answers) - first)
        whole = b"".join(answers)
        for at in range(0, len(whole), size):
            splitter.feed(whole[at:at + size])
            one = splitter.next()
            while one is not None:
                got.append(one)
                one = splitter.next()
        assert got == [b"".join(answers[:first]), b"".join(answers[first:])]
        assert splitter.left == b"" and splitter.waiting == 0


def test_a_session_alone(example):
    session = Session(example("survey"))
    assert session.exchange(b"# nothing\ncount\n\n", 3) == [b"", b"traces 3", b""]
    assert session.exchange(b"", 0) == []
    assert session.finish()[:2] == (0, b"")


@pytest.mark.parametrize(("given", "expected"), [(None, "glibc.malloc.hugetlb=1"), ("glibc.malloc.check=0", "glibc.malloc.check=0")])
def test_the_program_is_to_take_large_pages_unless_tunables_are_set(example, monkeypatch, given, expected):
    if given is None:
        monkeypatch.delenv("GLIBC_TUNABLES", raising=False)
    else:
        monkeypatch.setenv("GLIBC_TUNABLES", given)
    monkeypatch.setenv("SEGYWB_TEST", "kept")
    session = Session(example("survey"))
    with open(f"/proc/{session.pid}/environ", "rb") as file:
        names = dict(pair.split(b"=", 1) for pair in file.read().split(b"\0") if pair)
    assert names[b"GLIBC_TUNABLES"] == expected.encode()
    assert names[b"SEGYWB_TEST"] == b"kept"
    assert session.exchange(b"count\n", 1)
    session.finish()
