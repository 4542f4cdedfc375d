"""A running program: lines go in, answers come out. Nothing here knows what a line means."""

from __future__ import annotations

import fcntl
import os
import selectors
import subprocess
import tempfile
import time
from typing import IO, Generator, Iterable, Iterator, List, Optional, Sequence, Tuple

from . import program
from .errors import LoadRefused, OptionRefused, ProgramEnded, ProgramNotFound, RepairCutOff, hint_of, readings_of
from .repairs import CUT_OFF
from .stream import Splitter, split

PIPE_BYTES = 1 << 20
READ_BYTES = 1 << 20
DEATH_SECONDS = 10.0
LOOK_SECONDS = 1.0
FEW_BYTES = 1 << 15
MANY_ANSWERS = 512
NAP_SECONDS = 0.0003

Batch = Tuple[bytes, int]
Answers = Generator[bytes, None, None]


class Session:
    """One process of ``segywb FILE --session``.

    ``exchange`` writes lines and reads their answers at the same time, so that neither pipe blocks the other.
    """

    def __init__(self, path: str, options: Sequence[str] = ()) -> None:
        self.path = path
        self.words = [program.find(), path, "--session", *options]
        self._owner = os.getpid()
        self._deaf_until: Optional[float] = None
        self._errors: IO[bytes] = tempfile.TemporaryFile()
        try:
            self._process = subprocess.Popen(
                self.words, stdin=subprocess.PIPE, stdout=subprocess.PIPE, stderr=self._errors, bufsize=0, env=program.environment()
            )
        except OSError as error:
            self._errors.close()
            raise ProgramNotFound(f"cannot run {self.words[0]}: {error}") from error
        assert self._process.stdin is not None and self._process.stdout is not None
        self._input: IO[bytes] = self._process.stdin
        self._output: IO[bytes] = self._process.stdout
        for pipe in (self._input, self._output):
            os.set_blocking(pipe.fileno(), False)
            _widen(pipe)
        self.alive = True

    @property
    def pid(self) -> int:
        """The number of the process."""
        return self._process.pid

    @property
    def ours(self) -> bool:
        """Whether this process started it, and it can still be asked."""
        return self.alive and os.getpid() == self._owner

    @property
    def runs(self) -> bool:
        """Whether the process runs."""
        return self.ours and self._process.poll() is None

    # ---- lines and answers

    def exchange(self, lines: bytes, count: int) -> List[bytes]:
        """The answers to ``count`` lines, each without the line feed at its end and without its empty line."""
        return split(b"".join(self.stream([(lines, count)])))

    def stream(self, batches: Iterable[Batch]) -> Answers:
        """The answers to each batch of lines as they stand. The next batch is written while one is answered.

        A session that is left in the middle of an exchange, by an exception or otherwise, is ended: it is out of step.
        """
        whole = False
        try:
            self._quiet()
            yield from self._stream(iter(batches))
            whole = True
        finally:
            if not whole:
                self.kill()

    def _stream(self, batches: Iterator[Batch]) -> Answers:
        unsent = memoryview(b"")
        splitter = Splitter()
        more = True
        with selectors.DefaultSelector() as selector:
            selector.register(self._output, selectors.EVENT_READ)
            while True:
                while more and not unsent and splitter.waiting < 2:
                    batch = next(batches, None)
                    more = batch is not None
                    if batch is not None and batch[1] > 0:
                        unsent = memoryview(batch[0])
                        splitter.expect(batch[1])
                        selector.register(self._input, selectors.EVENT_WRITE)
                if not splitter.waiting:
                    break
                events = selector.select(LOOK_SECONDS)
                for key, _ in events:
                    if key.fileobj is self._input:
                        unsent = self._write(unsent)
                        if not unsent:
                            selector.unregister(self._input)
                    else:
                        self._read_into(splitter)
                if not events:
                    self._look(splitter)
                answers = splitter.next()
                while answers is not None:
                    yield answers
                    answers = splitter.next()
        if splitter.left:
            raise self._ended("the program wrote more than it was asked", splitter.left)

    def _write(self, unsent: memoryview) -> memoryview:
        try:
            return unsent[os.write(self._input.fileno(), unsent[:PIPE_BYTES]):]
        except BlockingIOError:
            return unsent
        except BrokenPipeError:  # it reads no more: its last words are still to come
            self._deaf_until = time.monotonic() + DEATH_SECONDS
            return memoryview(b"")

    def _read_into(self, splitter: Splitter) -> None:
        try:
            data = os.read(self._output.fileno(), READ_BYTES)
        except BlockingIOError:
            return
        if not data:
            raise self._ended("the program ended", splitter.left)
        splitter.feed(data)
        if len(data) < FEW_BYTES and splitter.lacking > MANY_ANSWERS:
            time.sleep(NAP_SECONDS)  # many small answers are read together

    def _look(self, splitter: Splitter) -> None:
        """Where nothing comes for a while: a long command is waited for, a dead program is not."""
        if self._process.poll() is not None:
            raise self._ended("the program ended", splitter.left)
        if self._deaf_until is not None and time.monotonic() > self._deaf_until:
            raise self._ended("the program reads no more lines", splitter.left)

    def _quiet(self) -> None:
        """Nothing may have been written that was not asked for."""
        if not self.ours:
            raise ProgramEnded("the session has ended")
        try:
            early = os.read(self._output.fileno(), READ_BYTES)
        except BlockingIOError:
            return
        raise self._ended("the program wrote more than it was asked" if early else "the program ended", early)

    # ---- the end

    def finish(self) -> Tuple[int, bytes, str]:
        """Ends the input and waits: the exit status, what was left on standard output, and standard error."""
        self.alive = False
        self._input.close()
        os.set_blocking(self._output.fileno(), True)
        left = self._output.read() or b""
        status = self._process.wait()
        told = self._told()
        self._release()
        return status, left, told

    def interrupt(self) -> None:
        """Ends the program; whoever waits for its answers is told so."""
        if self.ours:
            self._process.kill()

    def kill(self) -> None:
        """Ends the program at once; nothing is saved."""
        self.alive = False
        if os.getpid() == self._owner:
            if self._process.poll() is None:
                self._process.kill()
            self._process.wait()
        self._release()

    def _release(self) -> None:
        for pipe in (self._input, self._output, self._errors):
            if not pipe.closed:
                pipe.close()

    def _told(self) -> str:
        self._errors.seek(0)
        return self._errors.read().decode("utf-8", "replace")

    def _ended(self, why: str, left: bytes) -> Exception:
        """What has happened, as an exception. The program is gone when this returns."""
        text = left.decode("utf-8", "replace").strip()
        leaves = text.startswith("load refused ") or not why.endswith("asked")  # a refused file ends the program
        status = self._status(DEATH_SECONDS if leaves else 0.0)
        told = self._told()
        self.kill()
        if text.startswith("load refused "):
            return LoadRefused(text, self.path, status, hint_of(text[len("load refused "):], told), readings_of(told, self.path))
        if status == 3 and CUT_OFF in told:
            return RepairCutOff(self.path, told)
        if status == 2:
            return OptionRefused("the program does not accept " + " ".join(self.words[2:]), status, told)
        if text:
            why = f"{why}: {text[:200]!r}"
        return ProgramEnded(why, status, told)

    def _status(self, seconds: float) -> Optional[int]:
        try:
            return self._process.wait(seconds)
        except subprocess.TimeoutExpired:
            return None

    def __del__(self) -> None:
        if getattr(self, "_process", None) is not None and not self._errors.closed:
            self.kill()


def _widen(pipe: IO[bytes]) -> None:
    """A pipe that holds more, where the system allows it."""
    try:
        fcntl.fcntl(pipe.fileno(), getattr(fcntl, "F_SETPIPE_SZ", 1031), PIPE_BYTES)
    except OSError:
        pass
