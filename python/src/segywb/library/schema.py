"""The database: its tables, and how it is opened."""

from __future__ import annotations

import os
import sqlite3
from contextlib import contextmanager
from typing import Callable, Iterator, List
from urllib.parse import quote

from ..answers import MEANINGS

VERSION = 1
LATER_COLUMNS = ("trailing_traces",)
APPLICATION = 0x53474C42  # "SGLB", so that `file` and this package know such a database
WAIT_SECONDS = 120.0

TABLES = """
CREATE TABLE scan (
    id INTEGER PRIMARY KEY,
    mark TEXT NOT NULL UNIQUE,
    begun TEXT NOT NULL,
    ended TEXT,
    folders TEXT NOT NULL,
    program TEXT NOT NULL,
    program_sha256 TEXT NOT NULL,
    package TEXT NOT NULL,
    user TEXT NOT NULL,
    host TEXT NOT NULL
);
CREATE TABLE file (
    id INTEGER PRIMARY KEY,
    path TEXT NOT NULL UNIQUE,
    name TEXT NOT NULL,
    root INTEGER NOT NULL,
    state TEXT NOT NULL CHECK (state IN ('read', 'refused', 'failed')),
    refusal TEXT,
    refusal_text TEXT,
    hint TEXT,
    trouble TEXT,
    size INTEGER NOT NULL,
    modified INTEGER,
    changed INTEGER,
    inode INTEGER,
    settled INTEGER NOT NULL,
    gone TEXT,
    sha256 TEXT,
    md5 TEXT,
    trace_md5 TEXT,
    byte_order TEXT,
    revision TEXT,
    format INTEGER,
    fixed INTEGER,
    extensions INTEGER,
    blocks INTEGER,
    trailer INTEGER,
    traces INTEGER,
    samples INTEGER,
    interval INTEGER,
    inlines INTEGER,
    crosslines INTEGER,
    least_length INTEGER,
    greatest_length INTEGER,
    least_inline INTEGER,
    greatest_inline INTEGER,
    least_crossline INTEGER,
    greatest_crossline INTEGER,
    least_offset INTEGER,
    greatest_offset INTEGER,
    least_x REAL,
    greatest_x REAL,
    least_y REAL,
    greatest_y REAL,
    least_scalar INTEGER,
    greatest_scalar INTEGER,
    outline TEXT,
    alphabet TEXT,
    trailing_bytes INTEGER,
    trailing_zeros INTEGER,
    trailing_traces INTEGER,
    program TEXT,
    scan INTEGER NOT NULL REFERENCES scan (id),
    read_at TEXT NOT NULL
);
CREATE TABLE problem (
    file INTEGER NOT NULL REFERENCES file (id),
    code TEXT NOT NULL,
    count INTEGER NOT NULL,
    PRIMARY KEY (file, code)
) WITHOUT ROWID;
CREATE TABLE header (
    file INTEGER NOT NULL REFERENCES file (id),
    field TEXT NOT NULL,
    least INTEGER NOT NULL,
    greatest INTEGER NOT NULL,
    first INTEGER NOT NULL,
    last INTEGER NOT NULL,
    PRIMARY KEY (file, field)
) WITHOUT ROWID;
CREATE TABLE text (
    file INTEGER NOT NULL REFERENCES file (id),
    block INTEGER NOT NULL,
    text TEXT NOT NULL,
    PRIMARY KEY (file, block)
);
CREATE TABLE other (
    id INTEGER PRIMARY KEY,
    path TEXT NOT NULL UNIQUE,
    name TEXT NOT NULL,
    why TEXT NOT NULL,
    size INTEGER NOT NULL,
    modified INTEGER,
    changed INTEGER,
    inode INTEGER,
    settled INTEGER NOT NULL,
    scan INTEGER NOT NULL REFERENCES scan (id),
    read_at TEXT NOT NULL
);
CREATE TABLE unlisted (
    path TEXT PRIMARY KEY,
    trouble TEXT NOT NULL,
    scan INTEGER NOT NULL REFERENCES scan (id)
);
CREATE TABLE meaning (
    code TEXT PRIMARY KEY,
    meaning TEXT NOT NULL
);
CREATE TABLE mend (
    id INTEGER PRIMARY KEY AUTOINCREMENT,
    kind TEXT NOT NULL CHECK (kind IN ('mend', 'undo')),
    begun TEXT NOT NULL,
    user TEXT NOT NULL,
    host TEXT NOT NULL,
    program TEXT NOT NULL,
    program_sha256 TEXT NOT NULL,
    script BLOB,
    script_sha256 TEXT,
    condition TEXT,
    options TEXT NOT NULL,
    folder TEXT,
    keep TEXT,
    undoes INTEGER REFERENCES mend (id)
);
CREATE TABLE trail (
    id INTEGER PRIMARY KEY AUTOINCREMENT,
    mend INTEGER NOT NULL REFERENCES mend (id),
    at TEXT NOT NULL,
    path TEXT NOT NULL,
    target TEXT NOT NULL,
    event TEXT NOT NULL CHECK (event IN ('begun', 'saved', 'refused', 'failed', 'same', 'left')),
    before_sha256 TEXT,
    after_sha256 TEXT,
    bytes_changed INTEGER,
    status INTEGER,
    answers TEXT,
    told TEXT,
    kept TEXT,
    reverse TEXT
);
CREATE INDEX trail_target ON trail (target, id);
CREATE INDEX trail_mend ON trail (mend, target, id);
CREATE VIEW duplicate AS
    SELECT sha256, count(*) AS files, size, min(path) AS first_path FROM file
    WHERE gone IS NULL AND sha256 IS NOT NULL GROUP BY sha256, size HAVING count(*) > 1;
CREATE VIEW trace_duplicate AS
    SELECT trace_md5, count(*) AS files, count(DISTINCT sha256) AS versions, min(path) AS first_path FROM file
    WHERE gone IS NULL AND trace_md5 IS NOT NULL GROUP BY trace_md5 HAVING count(DISTINCT sha256) > 1;
CREATE VIEW latest AS
    SELECT * FROM trail AS one WHERE id = (SELECT max(id) FROM trail WHERE target = one.target);
"""
_ADDED = "RAISE (ABORT, 'the trail is only added to')"
APPEND_ONLY = "".join(
    f"CREATE TRIGGER IF NOT EXISTS {table}_{word} BEFORE {word} ON {table} BEGIN SELECT {_ADDED}; END;\n"
    for table in ("mend", "trail") for word in ("update", "delete")
) + "".join(  # INSERT OR REPLACE takes a row away, and no trigger hears of that
    f"CREATE TRIGGER IF NOT EXISTS {table}_insert BEFORE INSERT ON {table} "
    f"WHEN EXISTS (SELECT 1 FROM {table} WHERE id = NEW.id) BEGIN SELECT {_ADDED}; END;\n"
    for table in ("mend", "trail")
)


class NoLibrary(Exception):
    """The file is no database of this package, or cannot be opened."""


def create(path: str) -> sqlite3.Connection:
    """Opens the database for writing, and makes it where it is not there."""
    try:
        place = f"file:{quote(os.fsencode(os.path.abspath(path)))}?mode=rwc"
        database = sqlite3.connect(place, uri=True, timeout=WAIT_SECONDS, isolation_level=None, check_same_thread=False)
        database.execute("PRAGMA journal_mode = WAL")  # readers go on while a scan writes
        database.execute("PRAGMA synchronous = NORMAL")
        database.execute("PRAGMA cache_size = -32768")
        with transaction(database):
            if database.execute("SELECT count(*) FROM sqlite_master").fetchone()[0] == 0:
                _make(database)
            if database.execute("PRAGMA application_id").fetchone()[0] == APPLICATION:  # a later package may know more codes
                database.executemany("INSERT OR IGNORE INTO meaning VALUES (?, ?)", MEANINGS.items())
                _add_columns(database)
                for statement in _statements(APPEND_ONLY):  # those that an earlier package did not make
                    database.execute(statement)
    except sqlite3.Error as error:
        raise NoLibrary(f"{path}: {error}") from error
    _ours(database, path)
    return database


def _make(database: sqlite3.Connection) -> None:
    for statement in _statements(TABLES + APPEND_ONLY):
        database.execute(statement)
    database.execute(f"PRAGMA user_version = {VERSION}")
    database.execute(f"PRAGMA application_id = {APPLICATION}")


def _add_columns(database: sqlite3.Connection) -> None:
    """Columns of `file` that an earlier package did not make; an earlier one passes them over."""
    there = columns(database)
    for name in LATER_COLUMNS:
        if name not in there:
            database.execute(f"ALTER TABLE file ADD COLUMN {name} INTEGER")


def columns(database: sqlite3.Connection, where: str = "main") -> List[str]:
    """The names of the columns of `file`."""
    return [row[1] for row in database.execute(f"PRAGMA {where}.table_info (file)")]


def _statements(text: str) -> Iterator[str]:
    """The statements of a text one by one, within one transaction: ``executescript`` would end it."""
    statement = ""
    for line in text.splitlines():
        statement += line + "\n"
        if sqlite3.complete_statement(statement):
            yield statement
            statement = ""


def read_only(path: str) -> sqlite3.Connection:
    """Opens the database so that nothing can be written by it."""
    if not os.path.exists(path):
        raise NoLibrary(f"there is no {path}: segywb-library scan makes it")
    try:
        database = sqlite3.connect(f"file:{quote(os.fsencode(os.path.abspath(path)))}?mode=ro", uri=True, timeout=WAIT_SECONDS, isolation_level=None)
        database.execute("PRAGMA query_only = 1")
        database.execute("SELECT 1 FROM sqlite_master").fetchone()
    except sqlite3.Error as error:
        raise NoLibrary(f"{path}: {error}") from error
    _ours(database, path)
    return database


def existing(path: str) -> sqlite3.Connection:
    """Opens a database for writing that is there already."""
    read_only(path).close()
    return create(path)


def close(database: sqlite3.Connection) -> None:
    """Closes it as one plain file, which can be read from a folder without the right to write; not where another process has it open."""
    try:
        database.execute("PRAGMA busy_timeout = 0")
        database.execute("PRAGMA journal_mode = DELETE")
    except sqlite3.Error:
        pass
    database.close()


def _ours(database: sqlite3.Connection, path: str) -> None:
    application = database.execute("PRAGMA application_id").fetchone()[0]
    version = database.execute("PRAGMA user_version").fetchone()[0]
    if application == APPLICATION and version == VERSION:
        return
    database.close()
    newer = f"its schema is {version}, and this segywb-library knows {VERSION}"
    raise NoLibrary(f"{path}: {newer if application == APPLICATION else 'it is no database of segywb-library'}")


@contextmanager
def opened(how: Callable[[str], sqlite3.Connection], path: str) -> Iterator[sqlite3.Connection]:
    """A database that is closed at the end: ``how`` is ``create`` or ``existing``."""
    database = how(path)
    try:
        yield database
    finally:
        close(database)


@contextmanager
def transaction(database: sqlite3.Connection) -> Iterator[None]:
    """All of what is written within it, or nothing."""
    database.execute("BEGIN IMMEDIATE")
    try:
        yield
    except BaseException:
        database.execute("ROLLBACK")
        raise
    database.execute("COMMIT")
