"""Which files a mend is for: a condition of SQL, which reads the database and does nothing else."""

from __future__ import annotations

import sqlite3
from typing import Dict, List, NamedTuple, Optional, Set

from .facts import Stamp

_RECURSIVE = getattr(sqlite3, "SQLITE_RECURSIVE", 33)
_ALLOWED = (sqlite3.SQLITE_SELECT, sqlite3.SQLITE_READ, sqlite3.SQLITE_FUNCTION, _RECURSIVE)
STEPS = 100_000
_LAST = (
    "SELECT mend.id, script_sha256, before_sha256, after_sha256 FROM trail "
    "JOIN mend ON mend.id = trail.mend WHERE target = ? AND event = 'saved' "
    "ORDER BY trail.id DESC LIMIT 1"
)


class WrongCondition(Exception):
    """What SQLite says of a condition that is none."""


class Done(NamedTuple):
    """A save by the same script: its run, and the digest that it made."""

    run: int
    after: str


class Chosen(NamedTuple):
    """A file as the database knows it: the text of its path, how many characters of it are the
    folder that was scanned, its stamp, its digest.

    ``done``: the same script has made what is there of it. ``open``: a run was killed over it, and
    what is there could not be read since. ``same``: the path of another one that is chosen too and
    is the same file, by a link.
    """

    path: str
    root: int
    stamp: Stamp
    sha256: Optional[str]
    done: Optional[Done] = None
    open: bool = False
    same: str = ""


def chosen(database: sqlite3.Connection, condition: str) -> List[int]:
    """The numbers of the files for which the condition holds, in the order of their paths.

    Files that are gone are none of them.
    """
    database.set_authorizer(lambda action, first, *more: _may(action, first, *more))
    database.set_progress_handler(lambda: 0, STEPS)  # so that Ctrl-C ends one that takes for ever
    try:
        # The condition stands in lines of its own, so that a comment at its end ends there.
        query = f"SELECT id FROM file WHERE gone IS NULL AND (\n{condition}\n) ORDER BY path"
        found = database.execute(query).fetchall()
    except (sqlite3.Error, sqlite3.Warning, ValueError) as error:
        raise WrongCondition(f"--where: {error}") from error
    finally:
        database.set_authorizer(None)
        database.set_progress_handler(None, 0)
    if any(len(row) != 1 or not isinstance(row[0], int) for row in found):
        raise WrongCondition("--where: it gives something else than files")
    return [row[0] for row in found]


def _may(action: int, first: Optional[str], *more: Optional[str]) -> int:
    if action == sqlite3.SQLITE_FUNCTION and more and str(more[0]).lower() == "load_extension":
        return sqlite3.SQLITE_DENY
    return sqlite3.SQLITE_OK if action in _ALLOWED else sqlite3.SQLITE_DENY


def one(database: sqlite3.Connection, number: int) -> Optional[Chosen]:
    """What the database knows of a file with this number."""
    query = "SELECT path, root, size, modified, changed, inode, sha256 FROM file WHERE id = ?"
    row = database.execute(query, (number,)).fetchone()
    return None if row is None else Chosen(row[0], row[1], Stamp(*row[2:6]), row[6])


def done(
    database: sqlite3.Connection, one: Chosen, target: str, script: str, over: bool
) -> Optional[Done]:
    """The run that has made what is there by this script, if it is the last that saved there.

    Over the file itself its bytes are those behind the save; of one that is saved elsewhere those
    before it.
    """
    row = database.execute(_LAST, (target,)).fetchone()
    if row is None or row[1] != script or one.sha256 is None or one.sha256 != row[3 if over else 2]:
        return None
    return Done(row[0], row[3])


class Links:
    """Tells which of the chosen files are one by two paths: no script is run twice over it."""

    def __init__(self, database: sqlite3.Connection, numbers: List[int]) -> None:
        self._database = database
        self._numbers = numbers
        self._chosen: Set[int] = set()
        self._first: Dict[str, str] = {}

    def same(self, path: str, target: str) -> str:
        """The path of another one with the same target, or nothing. Links alone cost a look."""
        if path == target:
            return ""
        self._chosen = self._chosen or set(self._numbers)
        row = self._database.execute("SELECT id FROM file WHERE path = ?", (target,)).fetchone()
        if row is not None and row[0] in self._chosen:
            return target
        first = self._first.setdefault(target, path)
        return "" if first == path else first
