"""The commands that read files and databases: scan, merge, report."""

from __future__ import annotations

import os
import sys
from contextlib import closing
from typing import Any, List, Tuple

from . import schema, talk
from .crew import Crew
from .merge import merged
from .names import absolute, shown, text_of
from .progress import Progress
from .report import Report, write_page, write_table
from .scan import Scan, own_files, summary, troubled
from .walk import Walk, listed
from .words import Unwanted, source


# ---- scan


def scan(told: Any) -> int:
    """Fills the database. The status is 1 where something could not be read."""
    _check(told)
    part, parts = _part(told)
    program = talk.found()
    with schema.opened(schema.create, told.db) as database:
        one = Scan(database, _crew(told), Progress(None if told.quiet else sys.stderr), told.again, own_files(told.db))
        try:
            if told.list is not None:
                one.begin([absolute(told.list)], program)
                with source(told.list) as names:
                    counts = one.run(iter(listed(names, part, parts)))
            else:
                walk = Walk(_folders(told.folders), told.follow, one.unlisted)
                one.begin(walk.folders, program)
                counts = one.run(iter(walk))
                one.sweep(walk.folders, walk.unlisted)
                if counts.gone:
                    _warn_of_empty(walk.empty)
            one.end()
        finally:
            one.close()
    if not told.quiet:
        print(summary(counts))
    return 1 if troubled(counts) else 0


def _warn_of_empty(folders: List[bytes]) -> None:
    for folder in folders:
        empty = f"{shown(text_of(folder))}: it is empty, and the files that it had count as gone"
        print(f"segywb-library: {empty}; is its disk mounted?", file=sys.stderr)


def _check(told: Any) -> None:
    if (told.list is None) == (not told.folders):
        raise Unwanted("scan wants folders, or --list")
    if told.part is not None and told.list is None:
        raise Unwanted("--part is for --list")
    if sum(one is not None for one in (told.jobs, told.workers, told.dask)) > 1:
        raise Unwanted("--jobs, --workers and --dask: one of them")
    if min(one for one in (told.jobs, told.workers, 1) if one is not None) < 1 or told.limit <= 0:
        raise Unwanted("the numbers of processes and of seconds are above 0")


def _part(told: Any) -> Tuple[int, int]:
    if told.part is None:
        return 1, 1
    part, _, parts = told.part.partition("/")
    if not (part.isdigit() and parts.isdigit() and 1 <= int(part) <= int(parts)):
        raise Unwanted("--part wants K/N, with K from 1 to N")
    return int(part), int(parts)


def _folders(named: List[str]) -> List[bytes]:
    """The folders. One that is not there ends the scan before it begins: a disk that is not mounted has lost no files."""
    folders = [absolute(folder) for folder in named]
    for folder in folders:
        os.stat(folder)
    return folders


def _crew(told: Any) -> Any:
    if told.workers is None and told.dask is None:
        return Crew(told.jobs or len(os.sched_getaffinity(0)), told.limit)
    try:
        from .cluster import Cluster
    except ImportError as error:
        raise Unwanted(f"there is no {error.name} (Debian: python3-distributed)") from error
    return Cluster(told.dask, told.workers, told.limit)


# ---- merge


def merge(told: Any) -> int:
    """Joins databases of parts. The status is 1 where the scan of one did not come to its end: files lack then."""
    lacking = 0
    with schema.opened(schema.create, told.db) as database:
        for part in told.parts:
            one = merged(database, part)
            lacking += not one.ended
            trail = f"; its trail of {one.trail:,} rows stays there" if one.trail else ""
            if not told.quiet:
                print(f"{part}: {one.files:,} files of SEG-Y and {one.others:,} others{trail}")
            if not one.ended:
                print(f"segywb-library: {part}: its last scan did not come to its end: go on with it, and merge once more", file=sys.stderr)
    return 1 if lacking else 0


# ---- report


def report(told: Any) -> int:
    """Writes the page, the table, or both."""
    if told.out is None and told.csv is None:
        raise Unwanted("report wants --out, --csv or both")
    with closing(schema.read_only(told.db)) as database:
        one = Report(database, told.db)
        if told.out is not None:
            write_page(one, told.out)
        if told.csv is not None:
            write_table(one, told.csv)
    return 0
