"""The program's own save of a file that still is what it was when it was looked at."""

from __future__ import annotations

import os
import subprocess
import tempfile
import threading
from typing import IO, Iterator, List, NamedTuple, Optional, Sequence, Tuple

from ..errors import ProgramNotFound
from ..lines import payload, silent
from .facts import Stamp, stamp

ATOMIC_BYTES = 4096  # what a pipe takes whole or not at all
TOLD_BYTES = 1 << 16
READ_BYTES = 1 << 16
# The first comment is answered once the file is open and loaded. The second one is cut off: an end
# of the lines there, or behind any piece that follows, is none to the program: it saves nothing.
OPENING = b"#\n#"


class Moved(Exception):
    """The file was changed by another program meanwhile."""


class Watched(NamedTuple):
    """A file that must not change before the save, and the stamp that it had.

    ``absent`` is a path where nothing may have come, ``source`` another file that must not change.
    """

    path: str
    stamp: Stamp
    absent: Optional[str] = None
    source: Optional[Tuple[str, Stamp]] = None

    def check(self) -> None:
        """Raises ``Moved`` where it is another file by now, or none, or something has come."""
        if self.absent is not None and os.path.lexists(self.absent):
            raise Moved
        for path, known in ((self.path, self.stamp), *((self.source,) if self.source else ())):
            try:
                seen = stamp(os.stat(path))
            except FileNotFoundError:
                raise Moved from None
            if seen != known:
                raise Moved


def pieces(lines: Sequence[bytes]) -> Iterator[bytes]:
    r"""The lines behind ``OPENING``, in pieces that a pipe takes whole, none of which ends a line.

    Lines that have no answer are left out, so that no line is empty. A line feed behind the last
    piece ends the lines.

    >>> list(pieces([b"set 1 inline 7", b"", b"# why", b"set 2 inline 7"]))
    [b'\nset 1 inline 7\nset 2 inline 7\n#']
    """
    data = b"\n" + payload([line for line in lines if not silent(line)]) + b"#"
    at = 0
    while at < len(data):
        end = min(at + ATOMIC_BYTES, len(data))
        end -= data[end - 1:end] == b"\n"
        yield data[at:end]
        at = end


class Answers(threading.Thread):
    """Reads what the program answers, so that it never waits for a reader.

    ``begun``: the first of it is there.
    """

    def __init__(self, stream: IO[bytes]) -> None:
        super().__init__(daemon=True)
        self._stream = stream
        self.begun = threading.Event()
        self.start()

    def run(self) -> None:
        """Until the program has ended."""
        try:
            while os.read(self._stream.fileno(), READ_BYTES):
                self.begun.set()
        finally:
            self.begun.set()


def save(
    words: List[str], lines: Sequence[bytes], watched: Watched, held: Sequence[int]
) -> Tuple[int, str]:
    """Runs the lines, and saves at their end; the status of the program and what it told.

    ``words`` are those of a session that saves at its end. Where ``watched`` has changed nothing is
    saved. The program opens its file before it answers, and saves none that has changed since: so
    no moment lies between the stamp and the save in which a change is overseen. Where this process
    dies the program saves nothing, or all. It runs in a session of its own, which the end of a
    terminal does not reach, and it is not given up where it takes long, since a save that is ended
    is not made and says so nowhere.
    """
    with tempfile.TemporaryFile() as errors:
        reading, writing = os.pipe()
        _tell(writing, OPENING)  # before it is started: lines that end at once would be all of them
        with os.fdopen(writing, "wb", buffering=0) as sent:
            process = _started(words, reading, errors, held)
            assert process.stdout is not None
            with process.stdout:
                answers = Answers(process.stdout)
                try:
                    answers.begun.wait()
                    watched.check()
                    for piece in pieces(lines):
                        _tell(sent.fileno(), piece)
                    watched.check()
                except BaseException:
                    process.kill()
                    process.wait()
                    answers.join()
                    raise
                _tell(sent.fileno(), b"\n")
                sent.close()
                answers.join()
                status = process.wait()
        errors.seek(0)
        return status, errors.read(TOLD_BYTES).decode("utf-8", "replace").strip()


def _started(
    words: List[str], reading: int, errors: IO[bytes], held: Sequence[int]
) -> "subprocess.Popen[bytes]":
    """The program, which alone reads its lines from now on."""
    try:
        return subprocess.Popen(
            words, stdin=reading, stdout=subprocess.PIPE, stderr=errors, pass_fds=held,
            start_new_session=True,
        )
    except OSError as error:
        raise ProgramNotFound(f"cannot run {words[0]}: {error}") from error
    finally:
        os.close(reading)


def _tell(pipe: int, data: bytes) -> None:
    """Data for the program. One that has ended tells why by itself."""
    try:
        os.write(pipe, data)
    except BrokenPipeError:
        pass


def ended(status: int) -> str:
    """How a program ended.

    >>> ended(-9), ended(4)
    ('the program ended by signal 9', 'the program ended with status 4')
    """
    return f"the program ended {f'by signal {-status}' if status < 0 else f'with status {status}'}"
