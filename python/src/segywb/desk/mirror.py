"""The inlines, crosslines and coordinates of all traces, and further fields that are shown, kept beside the program, so that an edit does not read all of them again."""

from __future__ import annotations

from dataclasses import dataclass
from typing import Any, Callable, Dict, List, Optional, Sequence, Tuple

import numpy as np

from ..errors import Refused
from ..fields import TRACE_NAMES
from ..volume import Volume

LINES = ("inline", "crossline")
PLACES = ("x", "y", "scalar")
SIX = ("inline", "crossline", "offset", "x", "y", "scalar")
PIECE = 1 << 17
MOST_MORE = 8
MOST_MOVES = 2000
SIGNS = ("=", "!=", "<", "<=", ">", ">=")
# Words of the traces P to Q, or `all` of them; the first two name a single trace as well.
RANGED = ("set", "delete", "renumber", "compute", "sort", "swap")

Told = Callable[[int, int], None]


def silent(done: int, of: int) -> None:
    """Tells nobody how far the reading is."""


@dataclass(frozen=True)
class Mirror:
    """Columns by their names, a row for each trace, and the position that each trace had in the file (0: it is new)."""

    columns: Dict[str, Any]
    origin: Any

    def __len__(self) -> int:
        return len(self.origin)


def column(volume: Volume, names: Sequence[str], count: int, told: Told = silent) -> Dict[str, Any]:
    """These fields of all traces, read in pieces."""
    parts: List[Any] = []
    for first in range(0, count, PIECE):
        last = min(first + PIECE, count)
        parts.append(volume.headers(*names, traces=range(first + 1, last + 1)))
        told(last, count)
    return {name: np.concatenate([part[name] for part in parts]) if parts else np.empty(0, dtype=np.int32) for name in names}


def read(volume: Volume, names: Sequence[str], told: Told = silent) -> Mirror:
    """All of it, anew."""
    count = len(volume)
    found = of_slice(volume, count) if count > PIECE else {}
    rest = [name for name in names if name not in found]
    return Mirror({**found, **columns_of(volume, rest, count, told)} if rest else found, np.arange(1, count + 1, dtype=np.int64))


def columns_of(volume: Volume, names: Sequence[str], count: int, told: Told = silent) -> Dict[str, Any]:
    """These fields of all traces, but those beside the six that the program does not know, or no longer."""
    six = [name for name in names if name in SIX]
    found = column(volume, six, count, told) if six else {}
    for name in names:
        if name not in SIX:
            try:
                found.update(column(volume, [name], count))
            except Refused:
                pass
    return found


def of_slice(volume: Volume, count: int) -> Dict[str, Any]:
    """The inlines and crosslines from the answer to ``slice 0``, which is shorter to ask and to read; nothing where a trace lacks in it."""
    try:
        rows = volume.slice(0).rows
    except Refused:
        return {}
    if len(rows) != count:
        return {}
    made = {name: np.empty(count, dtype=np.int32) for name in LINES}
    for name, values in made.items():
        values[rows["trace"] - 1] = rows[name]
    return made


def wider(mirror: Mirror, volume: Volume, names: Sequence[str], told: Told = silent) -> Mirror:
    """The same with further fields."""
    more = list(dict.fromkeys(name for name in names if name not in mirror.columns))
    return Mirror({**mirror.columns, **column(volume, more, len(mirror), told)}, mirror.origin) if more else mirror


def narrowed(mirror: Mirror, names: Sequence[str]) -> Mirror:
    """The same without the fields beside the six and these, where there are many of them."""
    more = [name for name in dict.fromkeys([*mirror.columns, *names]) if name not in SIX]
    if len(more) <= MOST_MORE:
        return mirror
    return Mirror({name: values for name, values in mirror.columns.items() if name in SIX or name in names}, mirror.origin)


def followed(mirror: Mirror, volume: Volume, lines: Sequence[str]) -> Mirror:
    """What it is after these accepted lines."""
    plan = Plan(len(mirror), volume.fields(), list(mirror.columns))
    for line in lines:
        plan.line(line.split())
    plan.flush()
    names = list(mirror.columns)
    if plan.lost:
        fresh = read(volume, names)
        return Mirror(fresh.columns, np.zeros(len(fresh), dtype=np.int64))
    columns, origin = moved(mirror, plan)
    anew = [name for name in names if name in plan.bound]
    stale = np.flatnonzero(plan.stale) + 1
    if 2 * len(stale) > len(origin):
        anew = names
    if anew:
        for name in anew:
            del columns[name]
        columns.update(columns_of(volume, anew, len(origin)))
    if len(stale):
        reread(columns, [name for name in names if name not in anew], volume, stale)
    return Mirror({name: columns[name] for name in names if name in columns}, origin)


def reread(columns: Dict[str, Any], names: Sequence[str], volume: Volume, stale: Any) -> None:
    """Reads these traces again. A field beside the six that is refused there is left out."""
    for some in ([name for name in names if name in SIX], *([name] for name in names if name not in SIX)):
        if not some:
            continue
        try:
            got = volume.headers(*some, traces=stale)
        except Refused:
            if some[0] in SIX:
                raise
            del columns[some[0]]
            continue
        for name in some:
            columns[name] = columns[name].copy()
            columns[name][stale - 1] = got[name]


def moved(mirror: Mirror, plan: "Plan") -> Tuple[Dict[str, Any], Any]:
    """The rows where the plan put them."""
    if plan.row is None:
        return dict(mirror.columns), mirror.origin
    new = plan.row < 0
    if not len(mirror):
        return {name: np.zeros(len(plan.row), dtype=values.dtype) for name, values in mirror.columns.items()}, np.zeros(len(plan.row), dtype=np.int64)
    source = np.where(new, 0, plan.row)
    origin = mirror.origin[source]
    origin[new] = 0
    return {name: values[source] for name, values in mirror.columns.items()}, origin


class Plan:
    """What lines do to rows: where each row comes from, and which ones are to be read again."""

    def __init__(self, count: int, fields: Dict[str, str], names: Sequence[str] = ()) -> None:
        self.row: Any = None
        self.stale = np.zeros(count, dtype=bool)
        self.bound: List[str] = []
        self.lost = False
        self._fields = fields
        self._watched = list(dict.fromkeys([*SIX, *names]))
        self._places = [spanned(self._place(name)) for name in self._watched]
        self._moves = 0
        self._gone: List[int] = []

    def line(self, words: Sequence[str]) -> None:
        """One accepted line. Behind one whose traces only their headers tell, all is read anew."""
        if self.lost or not words:
            return
        word = words[0]
        if word in RANGED:
            self._ranged(word, words)
            return
        self.flush()
        if word == "map" and len(words) == 2:  # `map shot`, `map usual`
            self.bound.extend(SIX)
        elif word in ("map", "unmap") and words[1] in self._watched:
            self.bound.append(words[1])
        elif word == "resize":
            self.stale[self._at(words[1]) - 1] = True  # its header tells how many samples it has
        elif word in ("blank", "copy"):
            self._insert(self._at(words[-1]), None, True)
        elif word == "move" and len(words) == 4:
            self._move_block(self._at(words[1]), self._at(words[2]), words[3])
        elif word == "move":
            self._move(self._at(words[1]), self._at(words[2]))

    def _ranged(self, word: str, words: Sequence[str]) -> None:
        """A line of a range of traces. Conditions choose among these, and may choose each."""
        plain = chosen_of(words)
        first, last, rest = self._range(plain)
        if word == "sort" or word == "delete" and len(plain) < len(words):
            # Where its traces stand, or which ones are gone, is told by their headers alone.
            self.flush()
            self.lost = True
        elif word == "delete":
            self._delete(first, last)
        else:
            self.flush()
            if any(self._touches(field) for field in rest[:2 if word == "swap" else 1]):
                self.stale[first - 1:last] = True

    def _range(self, words: Sequence[str]) -> Tuple[int, int, Sequence[str]]:
        """The first and the last trace of a line, and its words behind these."""
        if words[1] == "all":
            return 1, self._at("last"), words[2:]
        single = len(words) == {"set": 4, "delete": 2}.get(words[0])
        first = self._at(words[1])
        return (first, first, words[2:]) if single else (first, self._at(words[2]), words[3:])

    def _at(self, word: str) -> int:
        """A position: `last` is as many as there are traces in front of the line, `end` one more."""
        if word not in ("last", "end"):
            return int(word)
        return len(self.stale) - len(self._gone) + (word == "end")

    def _touches(self, field: str) -> bool:
        """Whether the field may share bytes with one that is kept. Their places are those that hold behind all lines."""
        span = spanned(self._place(field))
        return field in self._watched or span is None or bool(self.bound) or any(one is None or one[0] < span[1] and span[0] < one[1] for one in self._places)

    def _place(self, field: str) -> str:
        return self._fields.get(field, TRACE_NAMES.get(field, field))

    def _rows(self) -> Any:
        if self.row is None:
            self.row = np.arange(len(self.stale), dtype=np.int64)
        self._moves += 1
        self.lost = self.lost or self._moves > MOST_MOVES
        return self.row

    def _delete(self, first: int, last: int) -> None:
        """Deletions from the back to the front name the rows as they were: they are done together."""
        if self._gone and last >= self._gone[-1]:
            self.flush()
        self._gone.extend(range(last, first - 1, -1))

    def flush(self) -> None:
        """Does the deletions that wait."""
        if self._gone and not self.lost:
            at = np.asarray(self._gone) - 1
            self.row = np.delete(self._rows(), at)
            self.stale = np.delete(self.stale, at)
        self._gone = []

    def _insert(self, position: int, row: Optional[int], stale: bool) -> None:
        rows = self._rows()
        if not self.lost:
            self.row = np.insert(rows, position - 1, -1 if row is None else row)
            self.stale = np.insert(self.stale, position - 1, stale)

    def _move(self, position: int, to: int) -> None:
        rows = self._rows()
        if self.lost:
            return
        row, stale = int(rows[position - 1]), bool(self.stale[position - 1])
        self.row = np.delete(rows, position - 1)
        self.stale = np.delete(self.stale, position - 1)
        self._insert(to, row, stale)


    def _move_block(self, first: int, last: int, to: str) -> None:
        """Traces as one block; `last` is the place behind the others, counted without the block."""
        rows = self._rows()
        if self.lost:
            return
        at = len(rows) - (last - first) if to == "last" else int(to)
        block = np.arange(first - 1, last)
        order = np.insert(np.delete(np.arange(len(rows)), block), at - 1, block)
        self.row, self.stale = rows[order], self.stale[order]


def written(words: Sequence[str]) -> Sequence[str]:
    """The fields of trace headers into which a line writes numbers.

    >>> [written(line.split()) for line in ("set 1 x 5", "set all x 5 where y = 1", "swap 1 9 x y", "delete 4")]
    [['x'], ['x'], ['x', 'y'], []]
    """
    if not words or words[0] not in ("set", "renumber", "compute", "swap"):
        return []
    plain = chosen_of(words)
    at = 2 if plain[1] == "all" or words[0] == "set" and len(plain) == 4 else 3
    return plain[at:at + (2 if words[0] == "swap" else 1)]


def chosen_of(words: Sequence[str]) -> Sequence[str]:
    """The words of a line without the conditions that choose traces. Before a sign behind the next
    word alone `where` begins them: it may be the name of a field, too.

    >>> chosen_of("set all where 7 where where = 5".split()), chosen_of("delete 5".split())
    (['set', 'all', 'where', '7'], ['delete', '5'])
    """
    for at, word in enumerate(words[:-2]):
        if word == "where" and words[at + 2] in SIGNS and words[0] != "sort":
            return words[:at]
    return words


def spanned(place: str) -> Optional[Tuple[int, int]]:
    """The bytes of a place: the first one, and the one behind the last. Those of the n-th extension of a header follow the 240 of the header.

    >>> spanned("@189:4"), spanned("@115:2u"), spanned("@1.137:4u"), spanned("shot")
    ((189, 193), (115, 117), (377, 381), None)
    """
    word = place.rstrip("u")
    if not word.startswith("@") or ":" not in word:
        return None
    byte, _, size = word[1:].partition(":")
    extension, dot, at = byte.rpartition(".")
    if not ((extension.isdigit() or not dot) and at.isdigit() and size.isdigit()):
        return None
    first = 240 * int(extension or "0") + int(at)
    return first, first + int(size)
