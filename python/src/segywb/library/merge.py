"""Databases of parts become one: of each file the row that was read last."""

from __future__ import annotations

import os
import sqlite3
from typing import NamedTuple, Tuple
from urllib.parse import quote

from .schema import APPLICATION, LATER_COLUMNS, VERSION, NoLibrary, transaction
from .schema import columns as columns_of
from .store import FILE_COLUMNS, OTHER_COLUMNS

_SCANS = """
INSERT OR IGNORE INTO main.scan (mark, begun, ended, folders, program, program_sha256, package, user, host)
    SELECT mark, begun, ended, folders, program, program_sha256, package, user, host FROM part.scan
"""
# The rows of the part that are no older than what is known of the same path.
_NEW = """
INSERT INTO temp.new SELECT one.id, one.path FROM part.{table} AS one
    WHERE NOT EXISTS (SELECT 1 FROM main.file AS other WHERE other.path = one.path AND other.read_at > one.read_at)
    AND NOT EXISTS (SELECT 1 FROM main.other AS other WHERE other.path = one.path AND other.read_at > one.read_at)
"""
_BELOW = {"problem": "code, count", "header": "field, least, greatest, first, last", "text": "block, text"}
_OURS = "SELECT id FROM main.file WHERE path IN (SELECT path FROM temp.new)"


class Merged(NamedTuple):
    """How many files and others a part has, how many rows its trail has, and whether its last scan came to its end."""

    files: int
    others: int
    trail: int
    ended: bool


def merged(database: sqlite3.Connection, path: str) -> Merged:
    """Puts the rows of a part into the database, all or none."""
    if not os.path.exists(path):
        raise NoLibrary(f"there is no {path}")
    try:
        database.execute("ATTACH ? AS part", (f"file:{quote(os.fsencode(os.path.abspath(path)))}?mode=ro",))
    except sqlite3.Error as error:
        raise NoLibrary(f"{path}: {error}") from error
    try:
        _check(database, path)
        database.execute("CREATE TEMP TABLE IF NOT EXISTS new (id INTEGER PRIMARY KEY, path TEXT)")
        with transaction(database):
            database.execute(_SCANS)
            files = _files(database)
            others = _others(database)
            _unlisted(database)
        trail = int(database.execute("SELECT count(*) FROM part.trail").fetchone()[0])
        last = database.execute("SELECT ended FROM part.scan WHERE folders NOT LIKE '[\"run %' ORDER BY id DESC LIMIT 1").fetchone()
        return Merged(files, others, trail, last is not None and last[0] is not None)
    finally:
        database.execute("DETACH part")


def _check(database: sqlite3.Connection, path: str) -> None:
    try:
        told = database.execute("PRAGMA part.application_id").fetchone()[0], database.execute("PRAGMA part.user_version").fetchone()[0]
    except sqlite3.Error as error:
        raise NoLibrary(f"{path}: {error}") from error
    if told != (APPLICATION, VERSION):
        raise NoLibrary(f"{path}: it is no database of this segywb-library")


def _chosen(database: sqlite3.Connection, table: str) -> None:
    database.execute("DELETE FROM temp.new")
    database.execute(_NEW.format(table=table))


def _put(database: sqlite3.Connection, table: str, columns: Tuple[str, ...]) -> int:
    """The rows of a table that are new, with the number that their scan has here."""
    lacking = set(LATER_COLUMNS) - set(columns_of(database, "part"))  # of a part that an earlier package made
    names = ", ".join(columns)
    values = ", ".join(
        "(SELECT ours.id FROM main.scan AS ours JOIN part.scan AS theirs ON ours.mark = theirs.mark WHERE theirs.id = one.scan)" if name == "scan"
        else "NULL" if name in lacking else f"one.{name}" for name in columns
    )
    changed = ", ".join(f"{name} = excluded.{name}" for name in columns if name != "path")
    made = database.execute(
        f"INSERT INTO main.{table} ({names}) SELECT {values} FROM part.{table} AS one WHERE one.id IN (SELECT id FROM temp.new) "
        f"ON CONFLICT (path) DO UPDATE SET {changed}"
    )
    return made.rowcount


def _files(database: sqlite3.Connection) -> int:
    _chosen(database, "file")
    count = _put(database, "file", FILE_COLUMNS)
    database.execute("DELETE FROM main.other WHERE path IN (SELECT path FROM temp.new)")
    for table, columns in _BELOW.items():
        database.execute(f"DELETE FROM main.{table} WHERE file IN ({_OURS})")
        database.execute(
            f"INSERT INTO main.{table} (file, {columns}) SELECT ours.id, {columns} FROM part.{table} AS one JOIN temp.new ON new.id = one.file "
            "JOIN main.file AS ours ON ours.path = new.path"
        )
    return count


def _others(database: sqlite3.Connection) -> int:
    _chosen(database, "other")
    count = _put(database, "other", OTHER_COLUMNS)
    for table in _BELOW:
        database.execute(f"DELETE FROM main.{table} WHERE file IN ({_OURS})")
    database.execute("DELETE FROM main.file WHERE path IN (SELECT path FROM temp.new)")
    return count


def _unlisted(database: sqlite3.Connection) -> None:
    database.execute(
        "INSERT OR REPLACE INTO main.unlisted SELECT one.path, one.trouble, ours.id FROM part.unlisted AS one JOIN part.scan AS theirs "
        "ON theirs.id = one.scan JOIN main.scan AS ours ON ours.mark = theirs.mark"
    )
