"""The trail against the files: whether they are what it says, and which can be taken back."""

from __future__ import annotations

import os
from typing import Any, Dict, Iterator, List, NamedTuple, Optional, Tuple

from ..errors import Error
from ..repairs import journal_of
from . import reading, script
from .change import Maker
from .digests import Slow
from .facts import Stamp, stamp
from .keeping import NOTHING
from .mend import MOVED, made_of, side_by_side
from .names import path_of
from .saves import Moved, Watched
from .script import Script
from .trail import CUT, Trail

# The last thing that was done to each file. A file that was left, or whose mend failed before it
# was read, is what it was before that.
_LAST = (
    "SELECT target, event, before_sha256, after_sha256, mend FROM trail AS one WHERE target > ? "
    "AND id = (SELECT max(id) FROM trail WHERE target = one.target "
    "AND (event = 'saved' OR before_sha256 IS NOT NULL AND target = path)) "
    "ORDER BY target LIMIT 10000"
)
_SAVED = (
    "SELECT path, target, before_sha256, after_sha256, kept, reverse FROM trail "
    "WHERE mend = ? AND event = 'saved' ORDER BY target"
)
_LATER = (
    "SELECT mend.id, undoes FROM trail JOIN mend ON mend.id = trail.mend "
    "WHERE target = ? AND event = 'saved' AND mend.id > ? ORDER BY trail.id DESC LIMIT 1"
)


class Found(NamedTuple):
    """A file of the trail: what it should be, and what it is.

    ``trouble`` says why it could not be read, ``cut`` whether a repair of it was cut off.
    """

    target: str
    mend: int
    wanted: str
    is_now: Optional[str]
    trouble: str = ""
    cut: bool = False

    @property
    def told(self) -> str:
        """What is wrong with it, or nothing."""
        if self.trouble:
            return f"could not be read: {self.trouble}"
        if self.is_now is None:
            return "is gone"
        if self.cut:
            return f"a repair of it was cut off: {CUT}"
        if self.is_now == self.wanted:
            return ""
        has = f"the trail (run {self.mend}) has {self.wanted[:16]}.., the file {self.is_now[:16]}.."
        return f"differs: {has}"


def verified(trail: Trail, jobs: int) -> Iterator[Found]:
    """Each file of the trail, in the order of their paths."""
    return side_by_side(_found, _last(trail), jobs)


def _last(trail: Trail) -> Iterator[Dict[str, Any]]:
    """The rows of the trail that count, some thousands at a time."""
    target = ""
    while True:
        some = trail.rows(_LAST, target)
        if not some:
            return
        yield from some
        target = some[-1]["target"]


def _found(row: Dict[str, Any]) -> Found:
    wanted = row["after_sha256"] if row["event"] == "saved" else row["before_sha256"]
    try:
        cut = os.path.lexists(journal_of(path_of(row["target"])))
        there = reading.digest(path_of(row["target"]))
        return Found(row["target"], row["mend"], wanted, there, cut=cut)
    except OSError as error:
        return Found(row["target"], row["mend"], wanted, None, error.strerror or str(error))


class Step(NamedTuple):
    """How a file is taken back: from the bytes that were kept, by a script, or not at all, which
    ``why`` says. ``back``: the run that has done it.

    ``seen`` is the stamp of the file whose digest was looked at, ``kept_seen`` of what is kept.
    """

    path: str
    before: str
    after: str
    kept: Optional[str]
    reverse: Optional[Script]
    why: str = ""
    back: Optional[int] = None
    seen: Optional[Stamp] = None
    kept_seen: Optional[Stamp] = None

    @property
    def possible(self) -> bool:
        """Whether it can be taken back."""
        return not self.why and self.back is None

    @property
    def told(self) -> str:
        """It in words."""
        if self.back is not None:
            return f"run {self.back} took it back"
        if self.why:
            return self.why
        return "from the bytes that were kept" if self.kept else "by the script of its old numbers"


class Undo:
    """Takes a run back, file by file: only those whose bytes are still what it made of them."""

    def __init__(self, trail: Trail, maker: Maker, number: int, in_place: bool = False) -> None:
        self._trail = trail
        self._maker = maker
        self._number = number
        self._in_place = in_place

    def steps(self, jobs: int) -> Iterator[Step]:
        """What can be done, and what cannot. Nothing is written."""
        rows = self._trail.rows(_SAVED, self._number)
        return side_by_side(self._step, rows, jobs)

    def _step(self, row: Dict[str, Any]) -> Step:
        reverse = script.of(row["reverse"].encode()) if row["reverse"] is not None else None
        step = Step(row["target"], row["before_sha256"], row["after_sha256"], row["kept"], reverse)
        try:
            return self._possible(step)
        except (Moved, Slow, Error) as error:
            return step._replace(why=str(error) or "it is being changed")
        except OSError as error:
            return step._replace(why=error.strerror or str(error))

    def _possible(self, step: Step) -> Step:
        seen = _seen(step.path)
        there = reading.digest(path_of(step.path))
        if seen is None or there != step.after:
            return step._replace(why="it is gone") if there is None else self._since(step)
        step = step._replace(seen=seen)
        kept_seen = _seen(step.kept) if step.kept is not None else None
        if step.kept is not None and reading.digest(path_of(step.kept)) == step.before:
            return step._replace(reverse=None, kept_seen=kept_seen)
        if step.reverse is not None:
            if self._maker.trial(_name(step.path), step.reverse, False).after == step.before:
                return step._replace(kept=None)
        if step.kept is not None:
            return step._replace(why="the old bytes are not kept any more")
        return step._replace(why="its old bytes were not kept: the mend had no --keep")

    def _since(self, step: Step) -> Step:
        """Why a file is not what the run made of it."""
        later = self._trail.rows(_LATER, step.path, self._number)
        if not later:
            return step._replace(why="it is not what the run made of it")
        run = later[0]["id"]
        if later[0]["undoes"] == self._number:
            return step._replace(back=run)
        return step._replace(why=f"run {run} changed it later: take that back first")

    def take_back(self, step: Step, run: int) -> Step:
        """Does it, by the program's own save; ``why`` says why it was not done.

        What has changed since it was looked at is left.
        """
        known = {"before_sha256": step.after, "after_sha256": step.before}
        self._trail.add(run, step.path, step.path, "begun", **known)
        try:
            status, told = self._save(step)
            event, why = made_of(path_of(step.path), step.before, status, told)
        except Moved:
            self._trail.add(run, step.path, step.path, "left", told=MOVED)
            return step._replace(why=f"left: {MOVED}")
        except Error as error:
            self._trail.add(run, step.path, step.path, "left", told=str(error))
            return step._replace(why=f"left: {error}")
        except OSError as error:  # the row `begun` stays open, and is settled once it can be read
            told = f"whether it was saved is to be told by verify ({error.strerror or error})"
            return step._replace(why=f"failed: {told}")
        self._trail.add(run, step.path, step.path, event, status=status, told=why or None, **known)
        return step if event == "saved" else step._replace(why=f"failed: {why}")

    def _save(self, step: Step) -> Tuple[int, str]:
        name = _name(step.path)
        assert step.seen is not None
        watched = Watched(name, step.seen)
        if step.kept is not None and step.kept_seen is not None:
            kept = _name(step.kept)
            watched = watched._replace(source=(kept, step.kept_seen))
            return self._maker.save(kept, NOTHING, name, watched)
        assert step.reverse is not None
        in_place = self._in_place and os.stat(name).st_nlink == 1
        return self._maker.save(name, step.reverse, None if in_place else name, watched)


def _seen(path: str) -> Optional[Stamp]:
    """The stamp of a file, whose times tell each change from now on."""
    try:
        seen = stamp(os.stat(path_of(path)))
    except FileNotFoundError:
        return None
    reading.wait_until_settled(seen)
    return seen


def _name(text: str) -> str:
    return os.fsdecode(path_of(text))


def told_of(steps: List[Step]) -> str:
    """What can be taken back, in a line."""
    kept = sum(step.possible and step.kept is not None for step in steps)
    back = sum(step.possible and step.kept is None for step in steps)
    before = sum(step.back is not None for step in steps)
    return (
        f"{len(steps):,} files: {kept:,} from the bytes that were kept, "
        f"{back:,} by the script of their old numbers, {len(steps) - kept - back - before:,} not"
        + (f", {before:,} done before" if before else "")
    )
