"""Rows of the database: what is known of a file, and what was found of it."""

from __future__ import annotations

import hashlib
import os
import pwd
import socket
import sqlite3
import time
import uuid
from typing import Any, List, NamedTuple, Optional, Sequence, Tuple

from .. import __version__
from .facts import FAILED, Facts, Stamp
from .names import text_of
from .schema import transaction
from .talk import Program

# The columns of `file` that a reading fills; those that it leaves out are NULL then, so that no row is of two readings.
FILLED = (
    "state", "refusal", "refusal_text", "hint", "trouble", "size", "modified", "changed", "inode", "settled", "sha256", "md5", "trace_md5",
    "byte_order", "revision", "format", "fixed", "extensions", "blocks", "trailer", "traces", "samples", "interval", "inlines", "crosslines", "least_length",
    "greatest_length", "least_inline", "greatest_inline", "least_crossline", "greatest_crossline", "least_offset", "greatest_offset", "least_x",
    "greatest_x", "least_y", "greatest_y", "least_scalar", "greatest_scalar", "outline", "alphabet", "trailing_bytes", "trailing_zeros", "trailing_traces", "program",
)
FILE_COLUMNS = ("path", "name", "root", "gone", "scan", "read_at", *FILLED)
_SCAN = "mark, begun, folders, program, program_sha256, package, user, host"
OTHER_COLUMNS = ("path", "name", "why", "size", "modified", "changed", "inode", "settled", "scan", "read_at")


def _upsert(table: str, columns: Tuple[str, ...]) -> str:
    """A row is written over the one of the same path, which keeps its number."""
    marks = ", ".join("?" * len(columns))
    changed = ", ".join(f"{column} = excluded.{column}" for column in columns[1:])
    return f"INSERT INTO {table} ({', '.join(columns)}) VALUES ({marks}) ON CONFLICT (path) DO UPDATE SET {changed}"


_PUT_FILE, _PUT_OTHER = _upsert("file", FILE_COLUMNS), _upsert("other", OTHER_COLUMNS)
_KNOWN = (
    "SELECT 1, id, size, modified, changed, inode, settled, state, gone FROM file WHERE path = ?1 "
    "UNION ALL SELECT 0, id, size, modified, changed, inode, settled, '', NULL FROM other WHERE path = ?1"
)


class Known(NamedTuple):
    """What the database has of a path: whether it is a file of SEG-Y, its number, and whether it has to be read again."""

    taken: bool
    id: int
    stamp: Stamp
    sure: bool
    gone: bool


def now() -> str:
    """The time, as the database has it: in UTC, to the millisecond."""
    moment = time.time()
    return time.strftime("%Y-%m-%dT%H:%M:%S", time.gmtime(moment)) + f".{int(moment * 1000) % 1000:03}Z"


def user() -> str:
    """Who runs this: by the number of the user, since a name of the environment is anybody's to set."""
    try:
        return pwd.getpwuid(os.getuid()).pw_name
    except KeyError:
        return str(os.getuid())


def host() -> str:
    """Where this runs."""
    return socket.gethostname()


def digest_of(path: str) -> str:
    """The digest of a file, as that of the program."""
    digest = hashlib.sha256()
    with open(path, "rb") as file:
        for block in iter(lambda: file.read(1 << 20), b""):
            digest.update(block)
    return digest.hexdigest()


def known(database: sqlite3.Connection, path: str) -> Optional[Known]:
    """What the database has of a path."""
    row = database.execute(_KNOWN, (path,)).fetchone()
    if row is None:
        return None
    return Known(bool(row[0]), row[1], Stamp(*row[2:6]), bool(row[6]) and row[7] != FAILED, row[8] is not None)


def begin(database: sqlite3.Connection, folders: str, program: Program) -> int:
    """The row of a scan that begins."""
    row = (uuid.uuid4().hex, now(), folders, program.version, digest_of(program.path), __version__, user(), host())
    with transaction(database):
        made = database.execute(f"INSERT INTO scan ({_SCAN}) VALUES (?, ?, ?, ?, ?, ?, ?, ?)", row)
    return int(made.lastrowid or 0)


def end(database: sqlite3.Connection, scan: int) -> None:
    """The scan has looked at everything."""
    with transaction(database):
        database.execute("UPDATE scan SET ended = ? WHERE id = ?", (now(), scan))


def put(database: sqlite3.Connection, found: Sequence[Facts], scan: int) -> List[Tuple[bool, int]]:
    """Writes what was found of some files, in one transaction: of each whether it is one of SEG-Y, and its number."""
    when = (scan, now())
    with transaction(database):
        return [_put(database, text_of(facts.task.path), facts, when) for facts in found]


def _put(database: sqlite3.Connection, path: str, facts: Facts, when: Tuple[int, str]) -> Tuple[bool, int]:
    if facts.other:
        return False, _put_other(database, path, facts, when)
    return True, _put_file(database, path, facts, when)


def _name(path: str) -> str:
    return path.rsplit("/", 1)[-1]


def _put_other(database: sqlite3.Connection, path: str, facts: Facts, when: Tuple[int, str]) -> int:
    columns = facts.columns
    row: List[Any] = [path, _name(path), facts.other, *(columns[name] for name in OTHER_COLUMNS[3:8]), *when]
    database.execute(_PUT_OTHER, row)
    old = database.execute("SELECT id FROM file WHERE path = ?", (path,)).fetchone()
    if old is not None:
        _clear(database, old[0])
        database.execute("DELETE FROM file WHERE id = ?", old)
    return int(database.execute("SELECT id FROM other WHERE path = ?", (path,)).fetchone()[0])


def _put_file(database: sqlite3.Connection, path: str, facts: Facts, when: Tuple[int, str]) -> int:
    root = len(text_of(facts.task.path[:facts.task.root]))
    row: List[Any] = [path, _name(path), root, None, *when, *map(facts.columns.get, FILLED)]
    old = database.execute("SELECT id FROM file WHERE path = ?", (path,)).fetchone()
    made = database.execute(_PUT_FILE, row)
    database.execute("DELETE FROM other WHERE path = ?", (path,))
    number = int(old[0] if old is not None else made.lastrowid or 0)
    if old is not None:  # nothing stands below the row of a file that is new
        _clear(database, number)
    database.executemany("INSERT INTO problem VALUES (?, ?, ?)", [(number, *one) for one in facts.problems.items()])
    database.executemany("INSERT INTO header VALUES (?, ?, ?, ?, ?, ?)", [(number, *one) for one in facts.headers])
    database.executemany("INSERT INTO text VALUES (?, ?, ?)", [(number, *one) for one in facts.texts])
    return number


def _clear(database: sqlite3.Connection, number: int) -> None:
    for table in ("problem", "header", "text"):
        database.execute(f"DELETE FROM {table} WHERE file = ?", (number,))


def back(database: sqlite3.Connection, number: int) -> None:
    """A file that was gone is there again."""
    with transaction(database):
        database.execute("UPDATE file SET gone = NULL WHERE id = ?", (number,))


def unlisted(database: sqlite3.Connection, path: bytes, trouble: str, scan: int) -> None:
    """A folder that could not be listed."""
    with transaction(database):
        database.execute("INSERT OR REPLACE INTO unlisted VALUES (?, ?, ?)", (text_of(path), trouble, scan))
