"""The command ``segywb-library``."""

from __future__ import annotations

import argparse
import sqlite3
import sys
from typing import Any, Callable, List, Optional

from ..errors import ProgramNotFound
from . import commands, mending
from .schema import NoLibrary
from .words import Unwanted

INTERRUPTED = 130
JOBS = ("--jobs",)
MANY: Any = {"metavar": "N", "type": int, "help": "files side by side; without it one for each core"}


def main(arguments: Optional[List[str]] = None) -> int:
    """Runs a command, and gives its exit status."""
    getattr(sys.stdout, "reconfigure", lambda **_: None)(errors="backslashreplace")
    told = words(arguments)
    run: Callable[[Any], int] = told.run
    try:
        return run(told)
    except Unwanted as error:
        print(f"segywb-library: {error}", file=sys.stderr)
        return 2
    except (NoLibrary, OSError, sqlite3.Error) as error:
        print(f"segywb-library: {error}", file=sys.stderr)
        return 4
    except ProgramNotFound as error:
        print(f"segywb-library: {error}", file=sys.stderr)
        return 5
    except KeyboardInterrupt:
        print(f"\nsegywb-library: interrupted{told.behind}", file=sys.stderr)
        return INTERRUPTED


def words(arguments: Optional[List[str]]) -> Any:
    """The command line."""
    what = "An inventory of many SEG-Y files in a database, with reports, repairs of many files at once, and their trail."
    parser = argparse.ArgumentParser(prog="segywb-library", description=what)
    some = parser.add_subparsers(metavar="COMMAND", required=True)
    _scan(some)
    _merge(some)
    _report(some)
    _mend(some)
    _command(some, "verify", mending.verified, "compares the files with what the trail says of them").add_argument(*JOBS, **MANY)
    _undo(some)
    return parser.parse_args(arguments)


def _command(some: Any, name: str, run: Callable[[Any], int], text: str, behind: str = "") -> Any:
    parser = some.add_parser(name, help=text, description=text[0].upper() + text[1:] + ".")
    parser.add_argument("--db", metavar="FILE", required=True, help="the database")
    parser.set_defaults(run=run, behind=behind)
    return parser


def _scan(some: Any) -> None:
    parser = _command(some, "scan", commands.scan, "reads what is new or changed below the folders into the database", "; the same command goes on where it was")
    parser.add_argument("folders", metavar="FOLDER", nargs="*", help="folders, or files")
    parser.add_argument("--list", metavar="FILE", help="in place of folders, a list of files, each ended by NUL or a line feed; - is standard input")
    parser.add_argument("--part", metavar="K/N", help="of the list only the files K, K + N, K + 2 N, ..")
    parser.add_argument("--again", action="store_true", help="read the files that have not changed too")
    parser.add_argument("--follow", action="store_true", help="follow symbolic links")
    parser.add_argument("--jobs", metavar="N", type=int, help="processes on this machine; without it one for each core")
    parser.add_argument("--workers", metavar="N", type=int, help="processes of a Dask cluster on this machine in their place")
    parser.add_argument("--dask", metavar="ADDRESS", help="the scheduler of a Dask cluster that runs, as tcp://HOST:8786")
    _seconds(parser)
    parser.add_argument("--quiet", action="store_true", help="tell neither how far it is nor what was done")


def _merge(some: Any) -> None:
    parser = _command(some, "merge", commands.merge, "joins the databases of parts: of each file the row that was read last")
    parser.add_argument("parts", metavar="PART", nargs="+", help="databases of parts")
    parser.add_argument("--quiet", action="store_true", help="tell nothing")


def _report(some: Any) -> None:
    parser = _command(some, "report", commands.report, "writes a page and a table of what the database has")
    parser.add_argument("--out", metavar="FILE", help="the page, one file of HTML")
    parser.add_argument("--csv", metavar="FILE", help="the table, a row for each file")


def _mend(some: Any) -> None:
    parser = _command(some, "mend", mending.mend, "runs a script on each chosen file, each whole or not; without --apply nothing is written")
    parser.add_argument("--script", metavar="SCRIPT", required=True, help="the script, as for segywb; - is standard input")
    parser.add_argument("--where", metavar="SQL", required=True, help="which files: a condition on the table file")
    parser.add_argument("--out", metavar="FOLDER", help="save below this folder")
    parser.add_argument("--over", action="store_true", help="save over the files themselves")
    parser.add_argument("--keep", metavar="FOLDER", help="with --over: keep the old bytes there, so that undo can take it back")
    parser.add_argument(
        "--in-place", action="store_true", help="with --over: write the changed bytes alone into the files themselves, where no trace moves and no length changes"
    )
    one = parser.add_mutually_exclusive_group()
    one.add_argument("--apply", action="store_true", help="do it; without it, or with --dry-run, what would be done is told")
    one.add_argument("--dry-run", action="store_true", help="write nothing, as without --apply")
    parser.add_argument("--twice", action="store_true", help="also over files that the same script has mended already")
    parser.add_argument("--go-on", action="store_true", help="save a file without its refused lines; else a refused line leaves it as it is")
    parser.add_argument("--fixed", action="store_true", help="each trace has the binary header's number of samples, as for segywb")
    parser.add_argument("--order", choices=("big", "little"), help="the order of bytes of a file that does not tell it, as for segywb")
    parser.add_argument("--samples", metavar="N", type=int, help="each trace has N samples, whatever the headers say, as for segywb")
    parser.add_argument("--format", metavar="CODE", type=int, help="the format of the samples, whatever the binary header says, as for segywb")
    parser.add_argument("--texts", metavar="N", type=int, help="N extended textual headers, whatever the binary header says, as for segywb")
    parser.add_argument("--tail", action="store_true", help="what is less than a trace behind the last one is kept as bytes of no trace, as for segywb")
    _seconds(parser)
    parser.add_argument(*JOBS, **MANY)
    parser.add_argument("--quiet", action="store_true", help="tell the summary alone")


def _seconds(parser: Any) -> None:
    parser.add_argument("--limit", metavar="SECONDS", type=float, default=300.0, help="the time for a file, and one second more for each 10 MB (300)")


def _undo(some: Any) -> None:
    parser = _command(some, "undo", mending.undo, "takes a mend back where the old bytes are known; without --apply nothing is written")
    parser.add_argument("--run", metavar="N", type=int, required=True, dest="run_number", help="the number of the mend")
    parser.add_argument("--apply", action="store_true", help="do it; without it what can be done is told")
    _seconds(parser)
    parser.add_argument(*JOBS, **MANY)
