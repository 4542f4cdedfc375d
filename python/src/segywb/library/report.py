"""The report: a page and a table of what the database has."""

from __future__ import annotations

import csv
import json
import os
import sqlite3
import tempfile
from typing import IO, Any, Callable, Dict, Iterable, Iterator, List, Sequence, Tuple

from .. import answers
from . import store
from .maps import Outline, drawing
from .outcomes import DONE_ALREADY
from .page import Section, bars, folded, page, section, shown, table
from .progress import bytes_told
from .ranges import ranges, sizes
from .schema import NoLibrary, columns

FILES = 20
GROUPS = 200
OUTLINES = 5000
HERE = "gone IS NULL"
NO_PLACE = "least_x = 0 AND greatest_x = 0 AND least_y = 0 AND greatest_y = 0"
# What a librarian looks for among the headers, by the columns of the table `file`.
STANDING_OUT = (
    ("the coordinate scalar is not the same in all traces", "least_scalar != greatest_scalar"),
    ("no coordinates at all", NO_PLACE),
    ("coordinates that reach from far off to 0", f"((least_x = 0 AND greatest_x > 0) OR (least_y = 0 AND greatest_y > 0)) AND NOT ({NO_PLACE})"),
    ("neither inlines nor crosslines", "least_inline = 0 AND greatest_inline = 0 AND least_crossline = 0 AND greatest_crossline = 0"),
    ("traces of different lengths", "least_length != greatest_length"),
    ("lengths of traces that the headers do not settle", "traces > 0 AND least_length IS NULL"),
    ("no interval", "interval = 0"),
    ("no traces", "traces = 0"),
    ("little-endian", "byte_order = 'little'"),
)
DONE = f"event = 'left' AND coalesce(told, '') LIKE '%{DONE_ALREADY}%'"
LEFT = f"event = 'left' AND coalesce(told, '') NOT LIKE '%{DONE_ALREADY}%'"
TRAIL = (
    ("saved", "event = 'saved'"), ("same", "event = 'same'"), ("done before", DONE), ("left", LEFT),
    ("refused", "event = 'refused'"), ("failed", "event = 'failed'"),
)


class Report:
    """What the database has, as one moment of it: a scan that goes on meanwhile changes nothing of it."""

    def __init__(self, database: sqlite3.Connection, path: str) -> None:
        self._database = database
        self._name = os.path.basename(path)
        database.execute("BEGIN")

    def _rows(self, query: str, *values: Any) -> List[Tuple[Any, ...]]:
        return self._database.execute(query, values).fetchall()

    def _one(self, query: str) -> Any:
        return self._rows(query)[0][0]

    # ---- the page

    def page(self) -> Iterable[str]:
        """The page, piece by piece."""
        parts = (
            self._totals, self._refusals, self._troubles, self._problems, self._standing_out, self._tails, self._histograms, self._map,
            self._duplicates, self._named, self._mends,
        )
        return page(f"Library {self._name}", self._told(), [part() for part in parts])

    def _told(self) -> str:
        """Of when it is, and what is to be known before anything else is believed."""
        lines = [f'<p class="dim">Of {store.now()}, by the database alone: what has changed since the last scan is not in it.</p>']
        last = self._rows("SELECT begun, ended FROM scan WHERE folders NOT LIKE '[\"run %' ORDER BY id DESC LIMIT 1")
        if last and last[0][1] is None:
            lines.append(f'<p class="warn">The last scan, begun {shown(last[0][0])}, has not come to its end: files may lack.</p>')
        failed, unlisted = self._one(f"SELECT count(*) FROM file WHERE {HERE} AND state = 'failed'"), self._one("SELECT count(*) FROM unlisted")
        if failed or unlisted:
            lines.append(f'<p class="warn">{failed:,} files could not be read, and {unlisted:,} folders not listed.</p>')
        runs = "SELECT max(id) FROM trail AS two WHERE two.target = trail.target AND two.mend = trail.mend"
        cut = self._one(f"SELECT count(*) FROM trail WHERE event = 'begun' AND id = ({runs})")
        if cut:
            lines.append(f'<p class="warn">{cut:,} saves of a run that was ended are open: verify tells whether they were made.</p>')
        return "\n".join(lines)

    def _totals(self) -> Section:
        states: Dict[str, int] = dict(self._database.execute(f"SELECT state, count(*) FROM file WHERE {HERE} GROUP BY state"))
        files, size, traces = self._rows(f"SELECT count(*), coalesce(sum(size), 0), coalesce(sum(traces), 0) FROM file WHERE {HERE}")[0]
        scans = self._rows("SELECT begun, coalesce(ended, 'not to its end'), folders, program, user, host FROM scan ORDER BY id DESC LIMIT 10")
        rows = [
            ("files of SEG-Y", files), ("their bytes", bytes_told(size)), ("their traces", traces),
            ("the program takes", states.get("read", 0)), ("the program refuses", states.get("refused", 0)),
            ("could not be read", states.get("failed", 0)),
            ("gone since an earlier scan", self._one("SELECT count(*) FROM file WHERE gone IS NOT NULL")),
            ("other files", self._one("SELECT count(*) FROM other")), ("folders that could not be listed", self._one("SELECT count(*) FROM unlisted")),
        ]
        last = folded("the last scans", table(("begun", "ended", "folders", "program", "user", "host"), scans))
        return section("Totals", f"{files:,} files", table(("", ""), rows), last)

    def _refusals(self) -> Section:
        # With min() the other columns are those of the row that has it.
        query = "SELECT refusal, count(*), refusal_text, hint, min(path) FROM file WHERE {} AND state = 'refused' GROUP BY refusal ORDER BY 2 DESC"
        groups = [row[:4] for row in self._rows(query.format(HERE))]
        parts = [table(("code", "files", "for one of them", "its hint"), groups)]
        for code, count, _, _ in groups:
            where = f"FROM file WHERE {HERE} AND refusal = ? AND state = 'refused'"
            rows = self._rows(f"SELECT path, refusal_text, hint {where} ORDER BY path LIMIT {FILES}", code)
            parts.append(folded(f"{code}: {_most(count)}", table(("file", "why", "hint"), rows)))
        return section("Refused files", f"{sum(row[1] for row in groups):,}", *parts)

    def _troubles(self) -> Section:
        rows = self._rows(f"SELECT path, trouble FROM file WHERE {HERE} AND state = 'failed' ORDER BY path LIMIT {GROUPS}")
        folders = self._rows(f"SELECT path, trouble FROM unlisted ORDER BY path LIMIT {GROUPS}")
        return section("Files and folders that could not be read", f"{len(rows) + len(folders):,}", table(("file", "why"), [*rows, *folders]))

    def _problems(self) -> Section:
        here = f"FROM problem JOIN file ON file.id = problem.file WHERE {HERE}"
        groups = self._rows(
            f"SELECT code, (SELECT meaning FROM meaning WHERE meaning.code = problem.code), count(*), sum(count) {here} GROUP BY code ORDER BY length(code), code"
        )
        parts = [table(("code", "meaning", "files", "traces or lines"), groups)]
        for code, _, count, _ in groups:
            rows = self._rows(f"SELECT path, count {here} AND code = ? ORDER BY count DESC, path LIMIT {FILES}", code)
            parts.append(folded(f"{code}: {_most(count)}", table(("file", "traces or lines"), rows)))
        return section("Problems", f"{self._one(f'SELECT count(DISTINCT file) {here}'):,} files", *parts)

    def _standing_out(self) -> Section:
        parts, found = [], 0
        for title, condition in STANDING_OUT:
            where = f"FROM file WHERE {HERE} AND state = 'read' AND ({condition})"
            count = self._one(f"SELECT count(*) {where}")
            if count:
                found += 1
                rows = self._rows(f"SELECT path, traces, inlines, crosslines {where} ORDER BY path LIMIT {FILES}")
                parts.append(folded(f"{title}: {_most(count)}", table(("file", "traces", "inlines", "crosslines"), rows)))
        return section("Headers that stand out", f"{found} kinds", *(parts or [table((), ())]))

    def _tails(self) -> Section:
        parts, whole = [], 0
        traces = "trailing_traces" if "trailing_traces" in columns(self._database) else "NULL"  # of a database that an earlier package made
        for zeros, title in ((1, "zeros alone"), (0, "other bytes: junk, or the beginning of a trace that was cut off")):
            where = f"FROM file WHERE {HERE} AND trailing_bytes > 0 AND trailing_zeros = {zeros}"
            count = self._one(f"SELECT count(*) {where}")
            rows = self._rows(f"SELECT path, trailing_bytes, {traces} {where} ORDER BY path LIMIT {GROUPS}")
            whole += count
            if count:
                parts.append(folded(f"{title}: {_most(count, GROUPS)}", table(("file", "bytes", "of them read as traces"), rows)))
        return section("Bytes behind the last sound trace", f"{whole:,} files", *(parts or [table((), ())]))

    def _histograms(self) -> Section:
        formats = [(f"{code} ({answers.FORMATS.get(code, 'unknown')})", count) for code, count in sorted(self._counts("format"))]
        charts = [bars("format of samples", formats)]
        charts += [bars(title, sorted(self._counts(column))) for title, column in (("revision", "revision"), ("order of bytes", "byte_order"))]
        numbers = (("samples of a trace", "samples"), ("interval, in microseconds", "interval"), ("traces of a file", "traces"))
        charts += [bars(title, ranges(self._counts(column))) for title, column in numbers]
        counts = [(size, count) for size, count in self._rows(f"SELECT size, count(*) FROM file WHERE {HERE} GROUP BY size")]
        charts.append(bars("bytes of a file", sizes(counts)))
        return section("Histograms", "", '<div class="charts">' + "\n".join(charts) + "</div>")

    def _counts(self, column: str) -> List[Tuple[Any, Any]]:
        rows = self._rows(f"SELECT {column}, count(*) FROM file WHERE {HERE} AND state = 'read' AND {column} IS NOT NULL GROUP BY 1")
        return [(value, count) for value, count in rows]

    def _map(self) -> Section:
        where = f"{HERE} AND outline IS NOT NULL AND NOT ({NO_PLACE})"
        rows = self._rows(f"SELECT path, root, outline FROM file WHERE {where} ORDER BY path LIMIT {OUTLINES}")
        outlines = [Outline(path, _folder(path, root), [(x, y) for x, y in json.loads(text)]) for path, root, text in rows]
        count = self._one(f"SELECT count(*) FROM file WHERE {where}")
        told = f'<p class="dim">The first {OUTLINES:,} of {count:,} files.</p>' if count > OUTLINES else ""
        picture, outside = drawing(outlines)
        far = folded(f"far off, and outside of the map: {_most(len(outside))}", table(("file",), [[name] for name in outside[:FILES]])) if outside else ""
        return section("Outlines of the surveys", f"{count:,} files", picture, told, far)

    def _duplicates(self) -> Section:
        parts, counts = [], []
        kinds = (("The same bytes", "duplicate", "sha256"), ("The same traces below other headers", "trace_duplicate", "trace_md5"))
        for title, view, digest in kinds:
            count, files = self._rows(f"SELECT count(*), coalesce(sum(files), 0) FROM {view}")[0]
            groups = self._rows(f"SELECT {digest}, files FROM {view} ORDER BY files DESC, first_path LIMIT {GROUPS}")
            inside = []
            for name, many in groups:
                rows = self._rows(f"SELECT path FROM file WHERE {HERE} AND {digest} = ? ORDER BY path LIMIT {FILES}", name)
                inside.append(f"<p>{many:,} files</p>" + table(("file",), rows))
            first = f", the first {GROUPS}" if count > GROUPS else ""
            parts.append(folded(f"{title}: {count:,} groups of {files:,} files{first}", "".join(inside)))
            counts.append(count)
        return section("Duplicates", f"{counts[0]:,} and {counts[1]:,} groups", *parts)

    def _named(self) -> Section:
        where = "FROM other WHERE (" + " OR ".join(f"lower(name) LIKE '%.{ending}'" for ending in ("sgy", "segy", "seg")) + ")"
        parts, whole = [], 0
        for why, count in self._rows(f"SELECT why, count(*) {where} GROUP BY why ORDER BY 2 DESC"):
            rows = self._rows(f"SELECT path, size {where} AND why = ? ORDER BY path LIMIT {GROUPS}", why)
            whole += count
            parts.append(folded(f"{why}: {_most(count, GROUPS)}", table(("file", "bytes"), rows)))
        return section("Named as SEG-Y, and none by their content", f"{whole:,}", *(parts or [table((), ())]))

    def _mends(self) -> Section:
        sums = ", ".join(f"coalesce(sum({condition}), 0)" for _, condition in TRAIL)
        runs = "FROM mend LEFT JOIN trail ON trail.mend = mend.id GROUP BY mend.id ORDER BY mend.id DESC"
        rows = self._rows(f"SELECT mend.id, kind, begun, user, condition, undoes, {sums} {runs} LIMIT {GROUPS}")
        heads = ("run", "kind", "begun", "user", "condition", "takes back run", *(name for name, _ in TRAIL))
        where = f"FROM trail WHERE event IN ('failed', 'refused') OR ({LEFT})"
        last = f"SELECT mend, path, event, coalesce(told, answers) {where} ORDER BY id DESC LIMIT {GROUPS}"
        count, troubles = self._one(f"SELECT count(*) {where}"), self._rows(last)
        title = f"refused, left or failed: {_most(count, GROUPS, 'last')}"
        more = folded(title, table(("run", "file", "event", "why"), troubles)) if count else ""
        return section("Mends", f"{self._one('SELECT count(*) FROM mend'):,} runs", table(heads, rows), more)

    # ---- the table

    def table(self) -> Iterator[Sequence[Any]]:
        """A row for each file, with a column for each code of a problem, behind a row of the names."""
        codes = [code for code, in self._rows("SELECT DISTINCT code FROM problem ORDER BY length(code), code")]
        names = [name for name in columns(self._database) if name not in ("id", "root", "settled", "outline")]
        yield [*names, *codes]
        counts = "".join(", (SELECT count FROM problem WHERE problem.file = file.id AND code = ?)" for _ in codes)
        yield from self._database.execute(f"SELECT {', '.join(names)}{counts} FROM file ORDER BY path", codes)


def _most(count: int, most: int = FILES, which: str = "first") -> str:
    return f"{count:,} files" + (f", the {which} {most}" if count > most else "")


def _folder(path: str, root: int) -> str:
    """The folder below the one that was scanned in which a file stands."""
    first, _, below = path[root:].lstrip("/").partition("/")
    return first if below else "."


def write(path: str, first: str, fill: Callable[[IO[str]], None]) -> None:
    """A whole new file in the place of ``path``; one that is there has to begin with ``first``, so that no other is lost."""
    try:
        with open(path, encoding="utf-8", errors="replace") as old:
            begins = old.read(len(first))
    except FileNotFoundError:
        begins = ""
    if begins and begins != first:
        raise NoLibrary(f"{path} is there, and is no earlier report: nothing was written")
    folder = os.path.dirname(os.path.abspath(path))
    with tempfile.NamedTemporaryFile("w", dir=folder, prefix=".report-", encoding="utf-8", newline="", delete=False) as new:
        try:
            fill(new)
            new.flush()
            os.chmod(new.name, 0o666 & ~_mask())
            os.replace(new.name, path)
        except BaseException:
            os.unlink(new.name)
            raise


def _mask() -> int:
    mask = os.umask(0)
    os.umask(mask)
    return mask


def write_page(report: Report, path: str) -> None:
    """The page as a file."""
    write(path, "<!DOCTYPE html>", lambda file: file.writelines(report.page()))


def write_table(report: Report, path: str) -> None:
    """The table as a file of CSV."""
    write(path, "path,name,", lambda file: csv.writer(file, lineterminator="\n").writerows(report.table()))
