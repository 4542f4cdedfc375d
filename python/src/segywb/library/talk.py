"""A run of the program over an open file, asked line by line. Answers are read as they come, so that none has to fit in memory."""

from __future__ import annotations

import functools
import os
import select
import signal
import subprocess
import time
from typing import Any, Dict, Iterator, List, NamedTuple, Optional, Sequence, Tuple

from .. import program
from ..errors import ProgramNotFound, hint_of, read_with
from .digests import Slow


READ_BYTES = 1 << 14
_REFUSED = b"load refused "


class Trouble(Exception):
    """The program could not say what was asked, for a reason that is not in the file."""


class LoadRefused(Exception):
    """The program refuses the file: what it answers, and its hint."""

    def __init__(self, answer: str, hint: str) -> None:
        super().__init__(answer)
        self.code, _, self.text = answer.partition(" ")
        self.hint = hint


class Program(NamedTuple):
    """The program that is run: its path, its version, and the option by which it reads files of floats."""

    path: str
    version: str
    option: str


@functools.lru_cache(maxsize=4)
def known(path: str) -> Program:
    """What the program with this path is."""
    words = {}
    for word in ("--version", "--help"):
        try:
            done = subprocess.run([path, word], stdin=subprocess.DEVNULL, stdout=subprocess.PIPE, stderr=subprocess.PIPE, timeout=60, check=False)
        except (OSError, subprocess.TimeoutExpired) as error:
            raise ProgramNotFound(f"cannot run {path}: {error}") from error
        words[word] = (done.stdout + done.stderr).decode("utf-8", "replace")
    version = words["--version"].strip()
    if not version.startswith("segywb "):
        raise ProgramNotFound(f"{path} is no segywb: it says {version[:80]!r}")
    return Program(path, version, "--floats" if "--floats" in words["--help"] else "--opaque-samples")


@functools.lru_cache(maxsize=4)
def _known(named: Optional[str]) -> Program:
    return known(program.find())


def found() -> Program:
    """The program that is run here."""
    return _known(os.environ.get("SEGYWB"))


@functools.lru_cache(maxsize=1)
def _environment() -> Dict[Any, Any]:
    """The environment as bytes: made anew for each run of the program it would take a tenth of the time."""
    return dict(os.environb)


class Talk:
    """``segywb FILE --session``, over a file that is open here: the same file whatever becomes of its name, and whatever its name is."""

    def __init__(self, descriptor: int, options: Sequence[str], deadline: float) -> None:
        os.set_inheritable(descriptor, True)
        self.descriptor = descriptor
        self._deadline = deadline
        self._name = f"/proc/self/fd/{descriptor}"
        self._number, self._lines, self._answers, self._errors = _started([found().path, self._name, "--session", *options])
        self._status: Optional[int] = None
        self._poll = select.poll()
        self._poll.register(self._answers, select.POLLIN)
        self._buffer, self._at = b"", 0

    def __enter__(self) -> "Talk":
        return self

    def __exit__(self, *why: object) -> None:
        if self._status is None:  # it waits for its next line
            try:
                os.kill(self._number, signal.SIGKILL)
            except ProcessLookupError:
                pass
            self._wait()
        for pipe in (self._lines, self._answers, self._errors):
            if pipe >= 0:
                os.close(pipe)

    def _wait(self) -> int:
        try:
            self._status = os.waitstatus_to_exitcode(os.waitpid(self._number, 0)[1])
        except ChildProcessError:  # where signals of children are ignored nobody hears how one ended
            self._status = 0
        return self._status

    def send(self, lines: Sequence[str]) -> None:
        """Lines that are few enough to stand in a pipe together with their answers, or whose answers are long and read at once."""
        try:
            os.write(self._lines, "".join([f"{line}\n" for line in lines]).encode())
        except OSError:
            pass  # it has ended, and its answers tell why

    def _more(self) -> None:
        """Reads what has come meanwhile. A program that says nothing until the time is over is given up."""
        if not self._poll.poll(max(0.0, 1000 * (self._deadline - time.monotonic()))):
            raise Slow
        data = os.read(self._answers, READ_BYTES)
        if not data:
            raise self._ended()
        self._buffer = self._buffer[self._at:] + data
        self._at = 0

    def answer(self) -> Iterator[str]:
        """The lines of the next answer, which must be read to its end: all that has come of it at once, since a list may have millions."""
        while True:
            if self._buffer[self._at:self._at + 1] == b"\n":
                self._at += 1
                return
            end = self._buffer.find(b"\n\n", self._at)
            stop = end if end >= 0 else self._buffer.rfind(b"\n", self._at)
            if stop > self._at:
                lines = self._buffer[self._at:stop].decode("utf-8", "replace").split("\n")
                self._at = stop + (2 if end >= 0 else 1)
                if lines[0].startswith("load refused "):
                    raise self._refusal(lines[0][len("load refused "):])
                yield from lines
            if end >= 0:
                return
            self._more()

    def first(self) -> str:
        """The first line of the next answer, and the only one that is wanted."""
        begin, end = self._at, self._buffer.find(b"\n\n", self._at)
        if end < 0 or self._buffer.startswith((b"\n", _REFUSED), begin):
            return next(iter(list(self.answer())), "")
        self._at = end + 2  # as nearly always: it is there, and whole
        return self._buffer[begin:end].decode("utf-8", "replace").split("\n", 1)[0]

    def one(self) -> str:
        """The same, where a refusal is no answer."""
        return accepted(self.first())

    def ones(self, count: int) -> List[str]:
        """The first lines of the next so many answers, of which none is a refusal.

        Taken at once, they cost a third.
        """
        while self._buffer.count(b"\n\n", self._at) < count:
            self._more()
        *told, self._buffer = self._buffer[self._at:].split(b"\n\n", count)
        self._at = 0
        return [accepted(one.decode("utf-8", "replace").partition("\n")[0]) for one in told]

    def _told(self) -> str:
        """All that it has told on standard error, once it has ended: it does so where no line follows."""
        lines, self._lines = self._lines, -1
        os.close(lines)
        return b"".join(iter(lambda: os.read(self._errors, READ_BYTES), b"")).decode("utf-8", "replace")

    def _refusal(self, text: str) -> Exception:
        told = self._told()
        if text.startswith(("L01 ", "L16 ")):  # the system failed to read it, or gave no memory: nothing is said of the file
            return Trouble(f"{text} ({hint_of(text, told)})")
        readings = [f"can be read with {words}" for words in read_with(told, self._name)]
        return LoadRefused(text, "; ".join([one for one in (hint_of(text, told), *readings) if one]))

    def _ended(self) -> Exception:
        told = self._told().strip().replace(self._name, "it")
        status = self._wait()
        return Trouble(f"the program ended by signal {-status}" if status < 0 else told or f"the program ended with status {status}")


def _started(words: List[str]) -> Tuple[int, int, int, int]:
    """The number of a program that was started, and the ends of three pipes: of its lines, its answers and its errors.

    Started so, and not by `subprocess`, a file takes a tenth of a millisecond less. Descriptors of
    Python are closed in the program by themselves, but for those that are made to be left to it.
    """
    pipes = [os.pipe() for _ in range(3)]
    theirs = [pipes[0][0], pipes[1][1], pipes[2][1]]
    ours = [pipes[0][1], pipes[1][0], pipes[2][0]]
    try:
        actions = [(os.POSIX_SPAWN_DUP2, pipe, at) for at, pipe in enumerate(theirs)]
        number = os.posix_spawn(words[0], words, _environment(), file_actions=actions, setsigdef=[signal.SIGPIPE, signal.SIGXFSZ])
    except OSError as error:
        for pipe in ours:
            os.close(pipe)
        raise ProgramNotFound(f"cannot run {words[0]}: {error}") from error
    finally:
        for pipe in theirs:
            os.close(pipe)
    return number, ours[0], ours[1], ours[2]


def accepted(text: str) -> str:
    """An answer, where it is no refusal."""
    if text.startswith("refused "):
        raise Trouble(text)
    return text


def rows(lines: Iterator[str], head: str) -> Iterator[List[str]]:
    """The words of each line of a list, behind the line that counts them."""
    if accepted(next(lines, "")).split(" ")[0] != head:
        raise Trouble(f"the program wrote no {head}")
    for line in lines:
        yield line.split(" ")


