"""What a script would do to a file, and the save: both by the program. Nothing is written but by its own save."""

from __future__ import annotations

import hashlib
import importlib
import operator
import os
import select
import subprocess
import tempfile
import time
from typing import IO, Any, Callable, List, NamedTuple, Optional, Sequence, Tuple

from ..answers import refusal_in
from ..lines import silent
from ..stream import split
from . import saves
from . import script as scripts
from .digests import Slow, blocks
from .facts import Stamp, stamp
from .reading import wait_until_settled
from .saves import Moved, Watched
from .script import Script
from .talk import found

PIECE = 1 << 16
PIPE_BYTES = 1 << 20
MOST_ANSWERS = 1 << 26
KEPT_ANSWERS = 1 << 16
REFUSED, LOAD_REFUSED, FAILED = 1, 3, 4


class Change(NamedTuple):
    """What a script would do: the program's status, its answers line by line, the digests before and after, how many bytes differ."""

    status: int
    answers: List[Tuple[int, str]]
    told: str
    stamp: Stamp
    before: str
    after: Optional[str]
    differing: int
    longer: int
    reverse: Optional[bytes]

    @property
    def refused(self) -> List[Tuple[int, str]]:
        """The refused lines, by their number from 1."""
        return [(number, text) for number, text in self.answers if text.startswith("refused ")]

    @property
    def bytes(self) -> int:
        """How many bytes change: those that differ, and those that come or go at the end."""
        return self.differing + abs(self.longer)

    @property
    def text(self) -> str:
        """The answers as the trail has them."""
        text = "\n".join(text for _, text in self.answers)
        return text if len(text) <= KEPT_ANSWERS else text[:KEPT_ANSWERS] + "\n.."


class Maker:
    """Runs the program on files with one reading. ``held`` is a descriptor that each run of it holds as long as it lives."""

    def __init__(self, options: Callable[[int], List[str]], stop: bool, seconds: Callable[[int], float], held: Optional[int] = None) -> None:
        self._options = options
        self._stop = ["--stop"] if stop else []
        self._seconds = seconds
        self._held = [] if held is None else [held]

    def trial(self, path: str, script: Script, back: bool) -> Change:
        """What the script would do to the file: the new bytes come by a pipe, and none of them is kept.

        With ``back`` the numbers that the script sets are asked for first, so that they can be set again.
        """
        descriptor = os.open(path, os.O_RDONLY | os.O_CLOEXEC)
        try:
            begun = stamp(os.fstat(descriptor))
            wait_until_settled(begun)
            asked = scripts.questions(script) if back else [None] * len(script.lines)
            with tempfile.TemporaryFile() as lines, tempfile.TemporaryFile() as answers, tempfile.TemporaryFile() as errors:
                _write(lines, script, asked)
                status, new = self._run(path, begun.size, lines, answers, errors, Compared(descriptor))
                new.rest()
                if stamp(os.stat(path)) != begun:
                    raise Moved
                told = _read(errors, PIECE).decode("utf-8", "replace").strip()
                return self._change(status, script, asked, _read(answers, MOST_ANSWERS), told, begun, new)
        finally:
            os.close(descriptor)

    def _run(self, path: str, size: int, lines: IO[bytes], answers: IO[bytes], errors: IO[bytes], new: "Compared") -> Tuple[int, "Compared"]:
        """The run of a session whose lines stand in a file, and which saves into a pipe."""
        reading, writing = os.pipe()
        try:
            words = [found().path, path, "--session", *self._options(size), *self._stop, "--out", f"/proc/self/fd/{writing}"]
            with subprocess.Popen(words, stdin=lines, stdout=answers, stderr=errors, pass_fds=[writing, *self._held]) as process:
                try:
                    os.close(writing)
                    writing = -1
                    new.take(reading, time.monotonic() + self._seconds(size))
                except BaseException:
                    process.kill()
                    raise
            return process.returncode, new
        finally:
            os.close(reading)
            if writing >= 0:
                os.close(writing)

    def _change(
        self, status: int, script: Script, asked: List[Optional[bytes]], data: bytes, told: str, begun: Stamp, new: "Compared"
    ) -> Change:
        if status == LOAD_REFUSED or data.startswith(b"load refused "):
            return Change(LOAD_REFUSED, [(0, data.decode("utf-8", "replace").strip() or told)], told, begun, new.before, None, 0, 0, None)
        if len(data) == MOST_ANSWERS:
            return Change(FAILED, [], "the answers have more than 64 MB", begun, new.before, None, 0, 0, None)
        found_texts = (one.decode("utf-8", "replace") for one in split(data))
        texts = [refusal_in(one) or one for one in found_texts]
        answers, numbers = _sorted_out(script, asked, texts, bool(self._stop))
        if texts[-1:] != [f"saved {new.size}"]:
            refused = any(text.startswith("refused ") for _, text in answers)
            return Change(REFUSED if refused else FAILED, answers, told or " ".join(texts[-1:]), begun, new.before, None, 0, 0, None)
        back = scripts.reverse(script, numbers) if numbers is not None and any(asked) else None
        return Change(status, answers, told, begun, new.before, new.after, new.differing, new.size - begun.size, back)

    def save(self, path: str, script: Script, target: Optional[str], watched: Watched) -> Tuple[int, str]:
        """The program's own save: its status, and what it says. Without a target it is a repair of the file itself."""
        place = ["--in-place"] if target is None else ["--out", target]
        options = self._options(os.stat(path).st_size)
        words = [found().path, path, "--session", "--save-at-end", *place, *options, *self._stop, "--quiet"]
        return saves.save(words, script.lines, watched, self._held)


class Compared:
    """Bytes that come, beside those of a file: both digests, and how many differ at the same place."""

    def __init__(self, descriptor: int) -> None:
        self._descriptor = descriptor
        self._old, self._new = hashlib.sha256(), hashlib.sha256()
        self._read = 0
        self.size = 0
        self.differing = 0

    def take(self, reading: int, deadline: float) -> None:
        """All that comes, until the deadline."""
        poll = select.poll()
        poll.register(reading, select.POLLIN)
        while True:
            if not poll.poll(max(0.0, 1000 * (deadline - time.monotonic()))):
                raise Slow
            data = os.read(reading, PIPE_BYTES)
            if not data:
                return
            old = os.pread(self._descriptor, len(data), self.size)
            while 0 < len(old) < len(data):
                more = os.pread(self._descriptor, len(data) - len(old), self.size + len(old))
                if not more:
                    break
                old += more
            self._old.update(old)
            self._read += len(old)
            self._new.update(data)
            self.differing += differing(old, data[:len(old)])
            self.size += len(data)

    def rest(self) -> None:
        """The rest of the file, for its digest."""
        for at, block in blocks(self._descriptor, float("inf")):
            if at + len(block) > self._read:
                self._old.update(block[max(self._read - at, 0):])

    @property
    def before(self) -> str:
        """The digest of the file."""
        return self._old.hexdigest()

    @property
    def after(self) -> str:
        """The digest of what came."""
        return self._new.hexdigest()


def differing(one: bytes, other: bytes) -> int:
    """How many bytes differ, of as many in both.

    >>> differing(b"abc", b"axc"), differing(b"", b"")
    (1, 0)
    """
    count = 0
    for at in range(0, len(one), PIECE):
        first, second = one[at:at + PIECE], other[at:at + PIECE]
        if first != second:
            count += _counted(first, second)
    return count


def _counted(first: bytes, second: bytes) -> int:
    try:
        numpy: Any = importlib.import_module("numpy")
    except ImportError:
        return sum(map(operator.ne, first, second))
    return int(numpy.count_nonzero(numpy.frombuffer(first, "u1") != numpy.frombuffer(second, "u1")))


def _write(lines: IO[bytes], script: Script, asked: Sequence[Optional[bytes]]) -> None:
    """The lines of the session: each question in front of its line, and the save behind them all."""
    for line, question in zip(script.lines, asked):
        if question is not None:
            lines.write(question + b"\n")
        lines.write(line + b"\n")
    lines.write(b"save\n")
    lines.flush()
    os.lseek(lines.fileno(), 0, os.SEEK_SET)


def _read(file: IO[bytes], most: int) -> bytes:
    file.seek(0)
    return file.read(most)


def _sorted_out(
    script: Script, asked: List[Optional[bytes]], texts: List[str], stop: bool
) -> Tuple[List[Tuple[int, str]], Optional[List[Tuple[int, bytes]]]]:
    """The answers to the lines of the script, by their number from 1, and the numbers of before, by their place from 0, where all were told."""
    answers: List[Tuple[int, str]] = []
    numbers: Optional[List[Tuple[int, bytes]]] = []
    coming = iter(texts)
    for at, (line, question) in enumerate(zip(script.lines, asked)):
        before = next(coming, "") if question is not None else ""
        # The question is refused as its line would be; where the first refusal ends the run, it stands for the line.
        text = before if stop and before.startswith("refused ") else next(coming, "")
        if text and not silent(line):
            answers.append((at + 1, text))
        if question is not None and text == "ok" and numbers is not None:
            numbers = _with(numbers, at, before)
    return answers, numbers


def _with(numbers: List[Tuple[int, bytes]], at: int, text: str) -> Optional[List[Tuple[int, bytes]]]:
    if not text.startswith("value "):
        return None
    numbers.append((at, text[len("value "):].encode()))
    return numbers
