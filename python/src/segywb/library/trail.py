"""The trail: what was done to which file, in tables that are only added to."""

from __future__ import annotations

import fcntl
import os
import sqlite3
import sys
import threading
from typing import Any, Dict, List, NamedTuple, Optional, Tuple

from ..repairs import journal_of
from . import store
from .names import path_of, shown
from .reading import digest
from .schema import transaction
from .script import Script
from .talk import Program

_COLUMNS = (
    "mend", "at", "path", "target", "event", "before_sha256", "after_sha256", "bytes_changed",
    "status", "answers", "told", "kept", "reverse",
)
_PUT = f"INSERT INTO trail ({', '.join(_COLUMNS)}) VALUES ({', '.join('?' * len(_COLUMNS))})"
_SAME = ("before_sha256", "after_sha256", "bytes_changed", "kept", "reverse", "answers")
SAVED, LEFT, FAILED, UNREAD = "saved", "left", "failed", "unread"
CUT = "`segywb FILE --recover` puts the old bytes back"
_OPEN = (
    "SELECT * FROM trail AS one WHERE event = 'begun' "
    "AND id = (SELECT max(id) FROM trail WHERE target = one.target AND mend = one.mend)"
)

_STALE = (
    "SELECT trail.path FROM trail JOIN file ON file.path = trail.path "
    "AND file.sha256 = before_sha256 WHERE mend = (SELECT max(mend) FROM trail) "
    "AND event = 'saved' AND before_sha256 != after_sha256 "
    "AND trail.id = (SELECT max(id) FROM trail AS two WHERE two.target = trail.target)"
)


class Run(NamedTuple):
    """What a mend is: its kind, script, condition and reading, and where it saves and keeps."""

    kind: str
    script: Optional[Script]
    condition: Optional[str]
    options: str
    folder: Optional[str]
    keep: Optional[str]
    undoes: Optional[int] = None


class Settled(NamedTuple):
    """A save of a run that was killed: the path of the file, where it was saved, what is known of
    it by now, and that in words.
    """

    path: str
    target: str
    event: str
    why: str

    @property
    def told(self) -> str:
        """It in a line."""
        said = f"{shown(self.target)}: a run was killed here; "
        if self.event != UNREAD:
            return said + self.why
        return f"{said}it could not be read ({self.why}): whether it was saved is not known yet"


class Lock:
    """Held by a mend and by each program that it runs, so that the next one sees when the last of
    them has ended, however that was.
    """

    def __init__(self, database: str) -> None:
        self.descriptor = os.open(f"{database}-lock", os.O_RDWR | os.O_CREAT | os.O_CLOEXEC, 0o666)
        try:
            fcntl.flock(self.descriptor, fcntl.LOCK_EX | fcntl.LOCK_NB)
        except BlockingIOError:
            other = "another mend, or the last program of one that was killed"
            print(f"segywb-library: waiting for {other}, to end ..", file=sys.stderr, flush=True)
            fcntl.flock(self.descriptor, fcntl.LOCK_EX)

    def close(self) -> None:
        """Lets go of it."""
        os.close(self.descriptor)


class Trail:
    """The trail of a database. What is added to it is on the disk before anything else is done."""

    def __init__(self, database: sqlite3.Connection) -> None:
        self._database = database
        self._guard = threading.Lock()
        database.execute("PRAGMA synchronous = FULL")

    def begin(self, run: Run, program: Program) -> int:
        """The row of a run that begins; its number."""
        script = run.script
        row = (
            run.kind, store.now(), store.user(), store.host(), program.version,
            store.digest_of(program.path), script.data if script else None,
            script.sha256 if script else None, run.condition, run.options, run.folder, run.keep,
            run.undoes,
        )
        columns = (
            "kind, begun, user, host, program, program_sha256, script, script_sha256, condition, "
            "options, folder, keep, undoes"
        )
        put = f"INSERT INTO mend ({columns}) VALUES ({', '.join('?' * len(row))})"
        with self._guard, transaction(self._database):
            made = self._database.execute(put, row)
        return int(made.lastrowid or 0)

    def add(self, mend: int, path: str, target: str, event: str, **more: Any) -> None:
        """One more row."""
        row = {"mend": mend, "at": store.now(), "path": path, "target": target, "event": event}
        row.update(more)
        with self._guard, transaction(self._database):
            self._database.execute(_PUT, [row.get(column) for column in _COLUMNS])

    def guarded(self) -> threading.Lock:
        """Whoever writes other rows over the same connection holds this."""
        return self._guard

    def rows(self, query: str, *values: Any) -> List[Dict[str, Any]]:
        """The rows of a query, by the names of their columns."""
        with self._guard:
            asked = self._database.execute(query, values)
            names = [column[0] for column in asked.description]
            return [dict(zip(names, row)) for row in asked.fetchall()]

    def unread_since(self) -> List[str]:
        """Files that the run before saved, and whose rows are still those of the old bytes: it was
        killed right behind the save.
        """
        return [row["path"] for row in self.rows(_STALE)]

    def settle(self) -> List[Settled]:
        """Saves of runs that were killed: what stands there now tells whether they were made, and
        the trail is told so.

        A repair in place that was cut off is one that failed: who recovers the file brings back the
        bytes before it. Of a file that cannot be read now nothing is told, and its save stays open.
        """
        return [self._settled(row) for row in self.rows(_OPEN)]

    def _settled(self, row: Dict[str, Any]) -> Settled:
        same = {name: row[name] for name in _SAME}
        try:
            cut = os.path.lexists(journal_of(path_of(row["target"])))
            there = None if cut else digest(path_of(row["target"]))
        except OSError as error:
            return Settled(row["path"], row["target"], UNREAD, error.strerror or str(error))
        if cut:  # also where all bytes are written: who recovers it brings the old ones back
            event, told = FAILED, f"the run was killed, and its repair was cut off: {CUT}"
        elif there == row["after_sha256"]:
            event, told = SAVED, "the run was killed behind this save"
        elif there is None or there == row["before_sha256"]:
            event, told = LEFT, "the run was killed before this save"
        else:
            event = FAILED
            told = "the run was killed, and the file is neither what it was nor what the save makes"
        self.add(row["mend"], row["path"], row["target"], event, told=told, **same)
        said = {SAVED: "it was saved", LEFT: "it is as it was", FAILED: "it DIFFERS"}
        why = f"its repair was CUT OFF: {CUT}" if cut else said[event]
        return Settled(row["path"], row["target"], event, why)
