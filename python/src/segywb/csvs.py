"""A CSV onto traces: which traces its rows mean, what would change, and the lines that change it."""

from __future__ import annotations

import csv
import re
from dataclasses import dataclass, replace
from fractions import Fraction
from typing import TYPE_CHECKING, Any, Dict, Iterable, Iterator, List, Mapping, NamedTuple, Optional, Sequence, Tuple, Union

from .errors import CsvRefused
from .lines import Field, encode, field
from .session import Batch

if TYPE_CHECKING:
    from .headers import Headers

Columns = Union[str, Sequence[str], Mapping[str, Field]]
Key = Tuple[int, ...]
TRACE = "trace"
FEW = 20
DELIMITERS = ",;\t"
BATCH_LINES = 1 << 14
WHOLE = re.compile(r"[+-]?[0-9]{1,40}\Z")
DECIMAL = re.compile(r"[+-]?([0-9]{1,40}\.?[0-9]{0,40}|\.[0-9]{1,40})([eE][+-]?[0-9]{1,2})?\Z")


class Row(NamedTuple):
    """A row of the CSV: its line, its key and its values."""

    line: int
    key: Key
    values: Key


class Difference(NamedTuple):
    """A number that changes: of which trace, in which field, what it is and what it becomes, and by which line of the CSV."""

    trace: int
    field: str
    was: int
    becomes: int
    line: int


class Doubled(NamedTuple):
    """A key that stands in several rows: on which lines, and whether their values are the same."""

    key: Key
    lines: Tuple[int, ...]
    same: bool


@dataclass(frozen=True)
class CsvImport:
    """What a CSV changes, or would change.

    ``rows`` of it were read, ``matched`` of these mean a trace. ``traces`` traces are meant, ``unnamed`` are not. Of ``changed`` traces a number
    changes, ``numbers`` numbers in all; ``differences`` are the first of them. ``lacking`` rows have a key that no trace has (``lacking_keys``: the
    first, each with its line), and ``doubled`` keys stand in several rows (``doubled_keys``: the first), ``conflicts`` of them with other values.
    ``done`` tells whether it was done.
    """

    rows: int
    matched: int
    traces: int
    unnamed: int
    changed: int
    numbers: int
    differences: Tuple[Difference, ...]
    lacking: int
    lacking_keys: Tuple[Tuple[Key, int], ...]
    doubled: int
    doubled_keys: Tuple[Doubled, ...]
    conflicts: int
    done: bool = False

    def __str__(self) -> str:
        told = [
            f"{self.rows} rows, {self.matched} with a trace; {self.traces} traces of {self.traces + self.unnamed} are meant",
            f"{self.numbers} numbers of {self.changed} traces {'have changed' if self.done else 'would change'}",
        ]
        told += [f"  trace {one.trace} {one.field}: {one.was} -> {one.becomes} (line {one.line})" for one in self.differences]
        if self.lacking:
            told.append(f"{self.lacking} rows whose key no trace has, first {spelled(self.lacking_keys[0][0])} on line {self.lacking_keys[0][1]}")
        if self.doubled:
            told.append(f"{self.doubled} keys in several rows, {self.conflicts} of them with other values, first {_doubled(self.doubled_keys[0])}")
        return "\n".join(told)


def spelled(key: Key) -> str:
    """A key as it is told.

    >>> spelled((101, 201)), spelled((7,))
    ('101, 201', '7')
    """
    return ", ".join(map(str, key))


def _doubled(one: Doubled) -> str:
    return f"{spelled(one.key)} on lines {spelled(one.lines)}"


class Plan(NamedTuple):
    """What an import does: what is told of it, its lines, and the first key whose rows have other values."""

    told: CsvImport
    sets: List[Tuple[int, str, int]]
    conflict: Optional[Doubled]

    def lines(self) -> Iterator[str]:
        """The lines of the script."""
        return (f"set {trace} {name} {number}" for trace, name, number in self.sets)

    def do(self, volume: "Headers") -> CsvImport:
        """Does it, as one step: all or nothing."""
        if self.conflict is not None:
            raise CsvRefused(f"the key {_doubled(self.conflict)} has other values on each", self.conflict.lines[1])

        def batches() -> Iterator[Batch]:
            for at in range(0, len(self.sets), BATCH_LINES):
                some = self.sets[at:at + BATCH_LINES]
                yield encode("".join([f"set {trace} {name} {number}\n" for trace, name, number in some])), len(some)

        volume._engine.edit_whole(batches())
        return replace(self.told, done=True)


def planned(volume: "Headers", text: Iterable[str], keys: Columns, values: Columns) -> Plan:
    """What the CSV would do to the traces. ``text`` is its lines."""
    wanted, written = columns(keys, "keys"), columns(values, "values")
    rows = list(read(text, list(wanted), list(written)))
    positions = {name for name in wanted.values() if name == TRACE and TRACE not in volume.fields()}
    places = list(dict.fromkeys([*(name for name in wanted.values() if name not in positions), *written.values()]))
    kinds = volume._kinds(list(written.values()))
    for row in rows:
        _fit(row, list(written), kinds)
    found = volume.headers(*places)
    return matched(getattr(found, "tolist", lambda: found)(), places, list(wanted.values()), list(written.values()), positions, rows)


def matched(headers: List[Key], places: List[str], wanted: List[str], written: List[str], positions: "set[str]", rows: List[Row]) -> Plan:
    """The rows against the numbers of all traces."""
    by, doubled = _by_key(rows)
    column = {name: at for at, name in enumerate(places)}
    key_at = [None if name in positions else column[name] for name in wanted]
    value_at = [column[name] for name in written]
    used: Dict[Key, int] = {}
    sets: List[Tuple[int, str, int]] = []
    differences: List[Difference] = []
    changed = 0
    for trace, numbers in enumerate(headers, 1):
        key = tuple(trace if at is None else numbers[at] for at in key_at)
        row = by.get(key)
        if row is None:
            continue
        used[key] = used.get(key, 0) + 1
        some = [(trace, name, becomes) for name, at, becomes in zip(written, value_at, row.values) if numbers[at] != becomes]
        if some:
            changed += 1
            sets += some
            differences += [Difference(trace, name, numbers[column[name]], becomes, row.line) for _, name, becomes in some[:FEW - len(differences)]]
    lacking = [(row.key, row.line) for row in rows if row.key not in used]
    clashes = [one for one in doubled if not one.same]
    traces = sum(used.values())
    told = CsvImport(
        len(rows), len(rows) - len(lacking), traces, len(headers) - traces, changed, len(sets), tuple(differences), len(lacking), tuple(lacking[:FEW]),
        len(doubled), tuple([*clashes, *(one for one in doubled if one.same)][:FEW]), len(clashes))
    return Plan(told, sets, clashes[0] if clashes else None)


def _by_key(rows: List[Row]) -> Tuple[Dict[Key, Row], List[Doubled]]:
    """The first row of each key, and the keys of several rows."""
    by: Dict[Key, Row] = {}
    more: Dict[Key, List[Row]] = {}
    for row in rows:
        first = by.setdefault(row.key, row)
        if first is not row:
            more.setdefault(row.key, [first]).append(row)
    return by, [Doubled(key, tuple(one.line for one in some), len({one.values for one in some}) == 1) for key, some in more.items()]


# ---- reading


def columns(given: Columns, what: str) -> Dict[str, str]:
    """The columns of the CSV that are meant, each with its field: a list of names that are both, or a dictionary.

    >>> columns(["inline", "x"], "keys"), columns({"IL": "inline"}, "keys"), columns("inline", "keys")
    ({'inline': 'inline', 'x': 'x'}, {'IL': 'inline'}, {'inline': 'inline'})
    """
    if isinstance(given, str):
        given = [given]
    pairs = list(given.items()) if isinstance(given, Mapping) else [(str(one), str(one)) for one in given]
    made = {str(column): field(name) for column, name in pairs}
    if not made:
        raise ValueError(f"there are no {what}")
    if len(made) < len(pairs) or len(set(made.values())) < len(made):
        raise ValueError(f"a column or a field stands twice in {what}")
    return made


def heads(text: Iterable[str]) -> List[str]:
    """The names in the first line of a CSV.

    >>> heads(["inline; x", "1;2"])
    ['inline', 'x']
    """
    return next(_cells(text))[1]


def _cells(text: Iterable[str]) -> Iterator[Tuple[int, List[str]]]:
    """The rows as cells without the blanks around them, each with its line; empty ones are left out. What stands between cells is told by the first."""
    lines = iter(text)
    first = next(lines, "")
    between = max(DELIMITERS, key=first.count)

    def again() -> Iterator[str]:
        yield first.lstrip("\ufeff")
        yield from lines

    reader = csv.reader(again(), delimiter=between, strict=True)
    try:
        for row in reader:
            if any(cell.strip() for cell in row):
                yield reader.line_num, [cell.strip() for cell in row]
    except csv.Error as error:
        raise CsvRefused(f"this is no CSV: {error}", reader.line_num) from None


def read(text: Iterable[str], wanted: Sequence[str], written: Sequence[str]) -> Iterator[Row]:
    """The rows of a CSV: these columns as whole numbers.

    >>> list(read(["inline,x,note", "101,45.0,a", "", "102,-7,"], ["inline"], ["x"]))
    [Row(line=2, key=(101,), values=(45,)), Row(line=4, key=(102,), values=(-7,))]
    """
    cells = _cells(text)
    none: Tuple[int, List[str]] = (1, [])
    line, names = next(cells, none)
    if not names:
        raise CsvRefused("there is no first line with the names of the columns", 1)
    for name in (*wanted, *written):
        if names.count(name) != 1:
            how = "there is no column" if name not in names else "there are several columns"
            raise CsvRefused(f"{how} {name!r}; the columns are {', '.join(map(repr, names))}", line, name)
    at = {name: names.index(name) for name in (*wanted, *written)}
    for line, row in cells:
        if len(row) != len(names):
            raise CsvRefused(f"{len(row)} cells, where the first line names {len(names)} columns", line)
        key, values = (tuple(whole(row[at[name]], line, name) for name in some) for some in (wanted, written))
        yield Row(line, key, values)


def whole(cell: str, line: int, column: str) -> int:
    """A whole number; also one that is written with a fraction of zeros.

    >>> whole("-7", 2, "x"), whole("45.00", 2, "x"), whole("4.5e3", 2, "x")
    (-7, 45, 4500)
    """
    if WHOLE.match(cell):
        return int(cell)
    if DECIMAL.match(cell) and Fraction(cell).denominator == 1:
        return int(Fraction(cell))
    raise CsvRefused(f"no whole number: {cell[:40]!r}" if cell else "an empty cell", line, column)


def _fit(row: Row, names: List[str], kinds: List[Optional[Tuple[int, bool]]]) -> None:
    """A value must fit into the bytes of its field."""
    for name, kind, value in zip(names, kinds, row.values):
        if kind is not None:
            size, unsigned = kind
            least, end = (0, 1 << 8 * size) if unsigned else (-(1 << 8 * size - 1), 1 << 8 * size - 1)
            if not least <= value < end:
                raise CsvRefused(f"{value} does not fit: the field holds {least} to {end - 1}", row.line, name)


def of_file(path: Any) -> Iterator[str]:
    """The lines of a file."""
    with open(path, "rb") as file:
        for number, line in enumerate(file, 1):
            try:
                yield line.decode()
            except UnicodeDecodeError as error:
                raise CsvRefused(f"this is not UTF-8: byte {line[error.start]:#04x}", number) from None
