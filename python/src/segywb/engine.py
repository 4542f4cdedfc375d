"""A file, the accepted edits, and the session that holds both: what a ``Volume`` stands on."""

from __future__ import annotations

import os
import stat
import threading
import warnings
from contextlib import closing, contextmanager
from typing import Iterable, Iterator, List, NamedTuple, Optional, Sequence

from .answers import Answer, accepted, all_accepted, all_chosen, info, refusal_in, unexpected
from .errors import Closed, FileChanged, LoadRefused, OptionRefused, PathRefused, ProgramEnded, Refused, SaveFailed
from .history import History, Step
from .lines import decode, dropping, moving, payload, silent
from .repairs import CHANGED, NEW_FILE, UNSETTLED, InPlace, judged, repair
from .session import Answers, Batch, Session
from .stream import split

BATCH_LINES = 1 << 14


def batches(lines: Sequence[bytes]) -> Iterator[Batch]:
    """Lines as batches of a size that is sent at once."""
    for at in range(0, len(lines), BATCH_LINES):
        some = lines[at:at + BATCH_LINES]
        yield payload(some), len(some)


def _refusal(answers: bytes, sent: bytes) -> Exception:
    """The first answer that is not ``ok`` or ``ok N``, as an exception."""
    at, answer = next((at, one) for at, one in enumerate(split(answers)) if not accepted(decode(one)))
    text = decode(answer)
    return Refused(text, decode(sent.split(b"\n")[at])) if text.startswith("refused ") else unexpected(text)


class Stamp(NamedTuple):
    """Which file it is, its bytes, when they were written, and when anything of the file was changed: the last one no program sets back."""

    device: int
    inode: int
    size: int
    written: int
    changed: int


class Engine:
    """A file under edits. After a failure the next call starts a new session and gives it the accepted edits."""

    def __init__(self, path: str, options: Sequence[str]) -> None:
        self.path = os.path.abspath(path)
        self.options = list(options)
        self.history = History()
        self._lock = threading.RLock()
        self._closed = False
        self._stamp = self._look()
        _speakable(self.path)
        self._session: Optional[Session] = self._start(self.history)

    # ---- sessions

    def _look(self) -> Stamp:
        return stamp(os.stat(self.path))

    def _unchanged(self) -> None:
        try:
            same = self._look() == self._stamp
        except OSError:
            same = False
        if not same:
            raise FileChanged(f"{self.path} is no longer the file that was opened; Volume.edits has the accepted edits")

    def _start(self, history: History, words: Sequence[str] = ()) -> Session:
        """A new session over the file, with these edits. Behind the first answer the file is loaded, so it is looked at once more there."""
        self._unchanged()
        session = Session(self.path, [*self.options, *words])
        try:
            session.exchange(b"count\n", 1)
            self._unchanged()
            _give(session, history)
        except BaseException:
            session.kill()
            raise
        return session

    def _open(self) -> None:
        if self._closed:
            raise Closed("the volume is closed")

    def session(self) -> Session:
        """The session, a new one where the last has ended or belongs to another process."""
        self._open()
        if self._session is None or not self._session.ours:
            self._session = None
            self._session = self._start(self.history)
        return self._session

    @property
    def alive(self) -> bool:
        """Whether the program runs, or is not wanted: nothing is asked for it."""
        session = self._session
        return session is None or session.runs

    def forget(self) -> None:
        """Ends the session; the next call starts a new one with the accepted edits."""
        with self._lock:
            if self._session is not None:
                self._session.kill()
                self._session = None

    def interrupt(self) -> None:
        """Ends the program while another thread waits for it. That thread gets an exception."""
        session = self._session
        if session is not None:
            session.interrupt()

    def close(self) -> None:
        """Ends the session for good."""
        self.forget()
        self._closed = True

    @property
    def closed(self) -> bool:
        """Whether ``close`` was called."""
        return self._closed

    # ---- lines

    @contextmanager
    def _step(self) -> Iterator[None]:
        """What the session has accepted is what the history holds: after an interruption between the two the session is ended."""
        with self._lock:
            try:
                yield
            except Refused:
                raise
            except BaseException:
                self.forget()
                raise

    def stream(self, some: Iterable[Batch]) -> Answers:
        """The answers to batches of queries, batch by batch, as they stand. To be closed where it is not read to its end."""
        with self._lock, closing(self.session().stream(some)) as answers:
            yield from answers

    def ask(self, line: bytes) -> List[str]:
        """The lines of the answer to one query."""
        with self._lock:
            answer = decode(self.session().exchange(line + b"\n", 1)[0])
        refused = refusal_in(answer)
        if refused is not None:
            raise Refused(refused, decode(line))
        return answer.split("\n")

    def edit(self, line: bytes) -> Optional[int]:
        """One edit, which becomes a step."""
        return self.edit_whole([(line + b"\n", 1)])

    def edit_whole(self, some: Iterable[Batch]) -> Optional[int]:
        """Batches of edits as one step: all of them, or none where one is refused. Of how many traces those with ``where`` were."""
        sent: List[Batch] = []
        chosen: List[int] = []
        refusal: Optional[Exception] = None

        def sending() -> Iterator[Batch]:
            for batch in some:
                sent.append(batch)
                yield batch

        with self._step():
            with closing(self.session().stream(sending())) as told:
                for at, answers in enumerate(told):
                    if all_accepted(answers, sent[at][1]):
                        some_chosen = all_chosen(answers)
                        chosen += [] if some_chosen is None else [some_chosen]
                    else:
                        refusal = _refusal(answers, sent[at][0])
                        if at > 0 or sent[at][1] > 1 or not isinstance(refusal, Refused):
                            break  # this ends the session: lines before and behind were accepted
            if refusal is not None:
                raise refusal
            if sent:
                self.history.add(Step(b"".join(lines for lines, _ in sent), sum(size for _, size in sent)))
        return sum(chosen) if chosen else None

    def run(self, lines: Sequence[bytes]) -> List[Answer]:
        """The answers to the lines of a script. Each accepted edit is a step; lines without an answer have none."""
        with self._step():
            told = self._answers(lines)
            for answer in told:
                if answer.accepted:
                    self.history.add(Step(payload([lines[answer.number - 1]]), 1))
        return told

    def run_whole(self, lines: Sequence[bytes]) -> List[Answer]:
        """The same, as one step: where a line is refused, nothing has changed."""
        with self._step():
            told = self._answers(lines)
            accepted = [lines[answer.number - 1] for answer in told if answer.accepted]
            refusal = next((answer.refused for answer in told if answer.refused), None)
            if refusal is not None:
                if accepted:
                    self.forget()
                raise refusal
            if accepted:
                self.history.add(Step(payload(accepted), len(accepted)))
        return told

    def _answers(self, lines: Sequence[bytes]) -> List[Answer]:
        asked = [(at + 1, line) for at, line in enumerate(lines) if not silent(line)]
        told: List[bytes] = []
        for answers in self.session().stream(batches([line for _, line in asked])):
            told += split(answers)
        return [Answer(number, decode(line), decode(answer)) for (number, line), answer in zip(asked, told)]

    # ---- back and forth

    def undo(self, steps: int) -> List[str]:
        """Takes the last steps back, by a new session with the others."""
        with self._lock:
            self._open()
            if not 0 <= steps <= len(self.history.done):
                raise ValueError(f"there are {len(self.history.done)} steps to take back, not {steps}")
            taken = [line for step in self.history.done[len(self.history.done) - steps:] for line in step.lines]
            if steps:
                earlier = self.history.without(steps)
                self._unchanged()
                with self._step():
                    self.forget()  # first, so that the file stands in memory once
                    self._session = self._start(earlier)
                    self.history = earlier
            return taken

    def redo(self, steps: int) -> List[str]:
        """Does again the steps that were taken back last."""
        with self._lock:
            self._open()
            if not 0 <= steps <= len(self.history.undone):
                raise ValueError(f"there are {len(self.history.undone)} steps to do again, not {steps}")
            again: List[str] = []
            for _ in range(steps):
                kept = self.history.undone[:-1]
                step = self.history.undone[-1]
                self.edit_whole([step])
                self.history.done[-1] = step
                self.history.undone = kept
                again += step.lines
            return again

    # ---- the save

    def in_place(self) -> InPlace:
        """How the edits are saved over the file itself."""
        with self._lock:
            self._open()
            self._unchanged()
            script = self.history.sent().sent
            return judged(self.path, script, self._is_shorter(script))

    def _is_shorter(self, script: bytes) -> bool:
        """Whether these edits, which leave each trace its length, took bytes of no trace away."""
        return moving(script) is None and dropping(script) and info(self.ask(b"info")[0]).bytes != self._stamp.size

    def repaired(self) -> bool:
        """A repair, where that is how the edits are saved over the file itself; whether it was made. Where it was not, nothing was written."""
        if not self.in_place().chosen:
            return False
        try:
            self.repair()
        except SaveFailed as error:
            if NEW_FILE not in error.stderr:
                raise
            return False
        return True

    def repair(self) -> None:
        """Writes the changed bytes into the file itself, by a run of its own over the file that was opened."""
        with self._lock:
            self._open()
            self._unchanged()
            told = repair(self.path, self.options, self.history.sent().sent)
            if "--on-disk" in self.options:
                self.forget()  # the bytes under it are others now
            self._settle(self.path, False)
            if told:
                warnings.warn(told, stacklevel=4)

    def save(self, path: str, replace: bool) -> None:
        """Writes the edited file, by a session of its own over the file that was opened."""
        out = os.path.abspath(path)
        with self._lock:
            self._open()
            _speakable(out)
            if _is_file(out) and not replace:
                raise FileExistsError(f"{out} is there: save(.., replace=True) writes over it")
            linked = _same(out, self.path)
            told = self._write(out)
            self._settle(out, linked)
            if told:
                warnings.warn(told, stacklevel=3)

    def _write(self, out: str) -> str:
        """Saves by the word ``save``: where this process dies before the whole of it was sent, nothing is saved. What the program told."""
        failed = f"the save of {out} failed"
        session: Optional[Session] = None
        try:
            session = self._start(self.history, ["--out", out, "--stop"])
            answer = decode(session.exchange(b"save\n", 1)[0])
            status, left, told = session.finish()
        except (LoadRefused, OptionRefused):
            raise
        except (ProgramEnded, Refused) as error:
            raise SaveFailed(f"{failed}: {error}", getattr(error, "status", None), getattr(error, "stderr", "")) from error
        finally:
            if session is not None:
                session.kill()
        told = (decode(left) + told).strip()
        if answer.startswith("saved ") or UNSETTLED in told:
            return told
        if CHANGED in told:
            raise FileChanged(told)
        older = "; the program is older than the word save" if answer.startswith("refused S01 ") else ""
        raise SaveFailed(f"{failed}: {answer}{older}", status, told)

    def _settle(self, out: str, linked: bool) -> None:
        """Behind a save: where OUT is FILE, it is the original from now on. A FILE that was another link of OUT has lost that link alone."""
        if _same(out, self.path):
            self._stamp = self._look()
            self.history = self.history.names()
        elif linked:
            now = self._look()
            if now._replace(changed=0) == self._stamp._replace(changed=0):
                self._stamp = now


def _give(session: Session, history: History) -> None:
    """Gives a session edits that were accepted before."""
    step = history.sent()
    answers = b"".join(session.stream([(step.sent, step.size)]))
    if not all_accepted(answers, step.size):
        raise _refusal(answers, step.sent)


def stamp(found: os.stat_result) -> Stamp:
    """What tells one state of a file from another, of what the system knows of it."""
    return Stamp(found.st_dev, found.st_ino, found.st_size, found.st_mtime_ns, found.st_ctime_ns)


def _speakable(path: str) -> None:
    """Refuses a path that the program does not take."""
    try:
        os.fsencode(path).decode("utf-8")
    except UnicodeDecodeError:
        raise PathRefused(path) from None


def _is_file(path: str) -> bool:
    try:
        return stat.S_ISREG(os.stat(path).st_mode)
    except OSError:
        return False


def _same(one: str, other: str) -> bool:
    try:
        return os.path.samefile(one, other)
    except OSError:
        return False

