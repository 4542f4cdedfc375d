"""The mend: a script on each chosen file, each whole or not, and the trail of it."""

from __future__ import annotations

import json
import os
import signal
import sqlite3
import stat
from collections import deque
from concurrent.futures import Future, ThreadPoolExecutor
from typing import Callable, Deque, Dict, Iterable, Iterator, NamedTuple, Optional, Tuple, TypeVar

from ..errors import Error
from ..repairs import journal_of
from . import reading, store
from .change import LOAD_REFUSED, REFUSED, Change, Maker
from .choose import Chosen
from .digests import Slow
from .facts import Task, stamp
from .keeping import keep, made_durable
from .names import path_of, shown, spoken, text_of
from .outcomes import DONE_ALREADY, SHOWN_ANSWERS, Outcome, place
from .saves import Moved, Watched, ended
from .script import Script, stays
from .talk import Program
from .trail import CUT, Trail

AHEAD = 4
CHANGED = "it has changed since it was scanned: scan again"
UNREAD = "the last scan could not read it: scan again"
MOVED = "another program changed it meanwhile"
NOT_SEEN = "what is there could not be read since: verify tells more"
Item = TypeVar("Item")
Result = TypeVar("Result")


class Plan(NamedTuple):
    """How a mend is done: its script, where it saves (``None``: over the files), where it keeps the
    old bytes.

    With ``back`` the numbers that the script sets over are asked for, and kept. With ``in_place``
    the changed bytes alone are written into the files themselves, where that is possible. With
    ``twice`` the script is run over what it has made too.
    """

    script: Script
    folder: Optional[str]
    keep: Optional[str]
    back: bool
    in_place: bool = False
    twice: bool = False

    def target(self, one: Chosen) -> str:
        """Where a file is saved: over itself (of a link: over what it leads to), or below the
        folder as it lies below the one that was scanned.
        """
        path = os.fsdecode(path_of(one.path))
        if self.folder is not None:
            scanned = os.fsdecode(path_of(one.path[:one.root]))
            return os.path.join(self.folder, path[len(scanned):].lstrip("/"))
        return os.path.realpath(path) if os.path.islink(path) else path

    def target_text(self, one: Chosen) -> str:
        """The same as the trail has it."""
        return text_of(os.fsencode(self.target(one)))

    def repairs(self, path: str, change: Change) -> bool:
        """Whether a file is repaired in place: no trace moves, it gets no other length, and no
        other hard link is to keep the old bytes.
        """
        stay = self.in_place and change.longer == 0 and stays(self.script)
        return stay and os.stat(path).st_nlink == 1


class Mend:
    """One run over the files. Without a trail it is a dry one: nothing is written."""

    def __init__(
        self, plan: Plan, maker: Maker, trail: Optional[Trail], number: int,
        again: "Optional[Again]",
    ) -> None:
        self._plan = plan
        self._maker = maker
        self._trail = trail
        self._number = number
        self._again = again

    def one(self, chosen: Chosen) -> Outcome:
        """A file, whatever happens."""
        try:
            return self._one(chosen)
        except Moved:
            return self._over(chosen, "left", MOVED, None)
        except Slow:
            return self._over(chosen, "failed", "the program gave no answer in time", None)
        except (OSError, Error) as error:
            why = (isinstance(error, OSError) and error.strerror) or str(error)
            return self._over(chosen, "failed", why, None)

    def _one(self, chosen: Chosen) -> Outcome:
        path, target = path_of(chosen.path), self._plan.target(chosen)
        event, why = self._left(path, chosen, target)
        if event:
            return self._over(chosen, event, why, None)
        change = self._maker.trial(os.fsdecode(path), self._plan.script, self._plan.back)
        if change.before != chosen.sha256:
            return self._over(chosen, "left", CHANGED, None)
        if self._is_done(chosen, target):
            return self._over(chosen, "done", _done_by(chosen), None)
        if change.after is None and change.status in (REFUSED, LOAD_REFUSED):
            return self._over(chosen, "refused", "", change)
        if change.after is None:
            return self._over(chosen, "failed", change.told or ended(change.status), change)
        if change.after == change.before and self._plan.folder is None:
            return self._over(chosen, "same", "", change)
        in_place = self._plan.repairs(os.fsdecode(path), change)
        if self._trail is None:
            return Outcome(chosen.path, "saved", "", change, in_place)
        return self._save(self._trail, chosen, target, change, in_place)

    def _left(self, path: bytes, chosen: Chosen, target: str) -> Tuple[str, str]:
        """Why a file is not even tried, with the event for that."""
        if not (spoken(path) and spoken(os.fsencode(target))):
            return "left", "its path is not UTF-8, which the program does not save to"
        if chosen.same:
            return "left", f"it is the same file as {shown(chosen.same)}, which is chosen too"
        if chosen.open:
            return "left", f"a run was killed over it, and {NOT_SEEN}"
        try:
            seen = os.stat(path)
        except OSError as error:
            return "left", error.strerror or str(error)
        if chosen.sha256 is None:
            return "left", UNREAD
        if not stat.S_ISREG(seen.st_mode) or seen.st_size != chosen.stamp.size:
            return "left", CHANGED  # where times alone have changed the trial's digest says more
        if stamp(seen) == chosen.stamp and self._is_done(chosen, target):
            return "done", _done_by(chosen)
        there = self._plan.folder is not None and os.path.lexists(target)
        return ("left", f"there is a file {shown(target)}") if there else ("", "")

    def _is_done(self, chosen: Chosen, target: str) -> bool:
        """Whether an earlier run has done it, and what it made is there.

        Over the file itself its digest tells that.
        """
        if chosen.done is None or self._plan.twice:
            return False
        return self._plan.folder is None or reading.digest(os.fsencode(target)) == chosen.done.after

    def _save(
        self, trail: Trail, chosen: Chosen, target: str, change: Change, in_place: bool
    ) -> Outcome:
        """The save, between two rows of the trail: the first one has both digests, so that what
        stands there tells what was done.
        """
        path = os.fsdecode(path_of(chosen.path))
        watched, kept = Watched(path, change.stamp), None
        if self._plan.folder is not None:
            made_durable(os.path.dirname(target))
            watched = watched._replace(absent=target)
        if self._plan.keep is not None:
            made = keep(self._maker, path, self._plan.keep, change, in_place)
            watched, kept = watched._replace(stamp=made.now), made.path
        reverse = change.reverse.decode() if change.reverse is not None else None
        known = {
            "before_sha256": change.before, "after_sha256": change.after, "kept": kept,
            "bytes_changed": change.bytes, "reverse": reverse, "answers": change.text,
        }
        name = self._plan.target_text(chosen)
        trail.add(self._number, chosen.path, name, "begun", **known)
        try:
            out = None if in_place else target
            status, told = self._maker.save(path, self._plan.script, out, watched)
            event, why = made_of(os.fsencode(target), change.after or "", status, told)
        except OSError as error:  # the row `begun` stays open, and is settled once it can be read
            told = f"whether it was saved is to be told by verify ({error.strerror or error})"
            return Outcome(chosen.path, "failed", told, change)
        trail.add(self._number, chosen.path, name, event, status=status, told=why or None, **known)
        if event == "saved" and self._again is not None:
            self._again(chosen.path)
        return Outcome(chosen.path, event, why, change, in_place)

    def _over(self, chosen: Chosen, event: str, why: str, change: Optional[Change]) -> Outcome:
        """Nothing is saved: the trail says why."""
        if self._trail is not None:
            known: Dict[str, object] = {"told": why or None}
            if change is not None:
                lines = self._plan.script.lines
                refused = [place(number, lines) for number, _ in change.refused if number]
                told = why or "; ".join(refused[:SHOWN_ANSWERS]) or change.told or None
                known = {
                    "told": told, "before_sha256": change.before, "status": change.status,
                    "answers": change.text,
                }
            entry = "left" if event == "done" else event
            target = self._plan.target_text(chosen)
            self._trail.add(self._number, chosen.path, target, entry, **known)
        return Outcome(chosen.path, event, why, change)


def _done_by(chosen: Chosen) -> str:
    return f"run {chosen.done.run if chosen.done else 0} {DONE_ALREADY} (--twice does it once more)"


def made_of(target: bytes, wanted: str, status: int, told: str) -> Tuple[str, str]:
    """What a save has made of a file, whatever it says: the event, and what is to be told of it."""
    # Also where all bytes are written: who recovers it brings the old ones back.
    if os.path.lexists(journal_of(target)):
        return "failed", f"{ended(status)} in the middle of its repair: {CUT}"
    if reading.digest(target) == wanted:
        return "saved", told
    return "failed", told or ended(status)


def side_by_side(
    call: Callable[[Item], Result], items: Iterable[Item], jobs: int
) -> Iterator[Result]:
    """The results in the order of the items, some of them made ahead.

    Ctrl-C at a terminal reaches no program that a call starts: the files that are at work come to
    their end.
    """
    with ThreadPoolExecutor(jobs, initializer=_deaf) as threads:
        waiting: Deque["Future[Result]"] = deque()
        try:
            for item in items:
                waiting.append(threads.submit(call, item))
                if len(waiting) >= AHEAD * jobs:
                    yield waiting.popleft().result()
            while waiting:
                yield waiting.popleft().result()
        finally:
            for one in waiting:
                one.cancel()


def _deaf() -> None:
    """Programs have the mask of the thread that starts them, from their first moment on."""
    signal.pthread_sigmask(signal.SIG_BLOCK, {signal.SIGINT})


def clashing(plan: Plan, some: Iterable[Chosen]) -> Optional[Tuple[str, str]]:
    """Two files that would be saved to one path."""
    if plan.folder is None:
        return None
    targets: Dict[str, str] = {}
    for one in some:
        target = os.path.abspath(plan.target(one))
        if target in targets:
            return targets[target], one.path
        targets[target] = one.path
    return None


class Again:
    """Reads files that were mended anew, so that their rows are those of the new bytes."""

    def __init__(
        self, database: sqlite3.Connection, trail: Trail, run: int, program: Program, seconds: float
    ) -> None:
        self._database = database
        self._trail = trail
        self._scan = store.begin(database, json.dumps([f"run {run}"]), program)
        self._seconds = seconds

    def __call__(self, path: str) -> None:
        rows = self._trail.rows("SELECT root, size FROM file WHERE path = ?", path)
        if rows:
            root = len(path_of(path[:rows[0]["root"]]))
            facts = reading.read(Task(path_of(path), root, rows[0]["size"]), self._seconds)
            with self._trail.guarded():
                store.put(self._database, [facts], self._scan)

    def end(self) -> None:
        """All of them are read."""
        store.end(self._database, self._scan)
