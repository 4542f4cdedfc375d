"""The headers of traces, of a ``Volume``."""

from __future__ import annotations

from contextlib import closing
from typing import Any, Callable, Dict, Iterable, Iterator, List, Optional, Sequence, Tuple

from . import answers, arrays, csvs, lines
from .answers import Extremes
from .asked import Asked
from .engine import BATCH_LINES
from .engine import batches as cut
from .errors import Refused
from .fields import TRACE_NAMES, kind
from .lines import Field, Path, between, choosing, encode, field, number, position
from .selection import positions, runs
from .session import Batch
from .stream import split

GET_LINES = 1 << 16
# So many traces in a line of `table` or `find`, and so many lines and traces of such lines sent at once: this bounds the memory.
WINDOW_TRACES = 1 << 15
WINDOW_LINES = 1 << 12
# A field that each trace has, whatever names are bound: it is read where positions alone are wanted.
FIRST = "@1:4"


class Headers(Asked):
    """A part of ``Volume``: the headers of its traces."""

    def count(self, traces: Any = None, where: Optional[str] = None) -> int:
        """The number of traces, as ``len``; with ``where`` of those that meet its conditions.

        ``where`` is a text as in a script, ``A OP B`` with ``and`` between two, up to eight: A and B
        are fields, whole numbers, or one of ``sample_least``, ``sample_greatest`` (in a file of
        floats beside a decimal too) and ``sample_count``; OP is ``= != < <= > >=``. ``traces`` as for
        ``headers``, behind ``where`` alone. Conditions that are none are a ``Refused``, an empty text
        or a line feed in it is a ``ValueError``.

        >>> with segywb.open("cube.sgy") as v:
        ...     v.count(), v.count(where="inline = 102 and crossline > 202")
        ...     v.count(traces=slice(1, 8), where="inline = 102")
        (12, 2)
        3
        >>> with segywb.open("wrong_floats.sgy") as v:
        ...     v.count(where="sample_least = sample_greatest"), v.count(where="sample_greatest > 1.5e3")
        (1, 1)
        """
        if where is None:
            if traces is not None:
                raise TypeError("traces are counted with conditions alone: count(traces, where=..)")
            return len(self)
        more = choosing(where)
        if traces is None:
            return answers.number(self._one("count", "all", *more), "chosen")
        told = self._windows(self._where(traces), lambda one, last: f"count {one} {last} {more[0]}")
        each = (lines.decode(one) for some, _ in told for one in split(some))
        return sum(answers.number(one, "chosen") for one in each)

    def get(self, trace: int, name: Field) -> int:
        """The number in a header of a trace, as it stands.

        >>> with segywb.open("cube.sgy") as v:
        ...     v.get(2, "crossline"), v.get(2, segywb.TraceField.CROSSLINE_3D), v.get(2, "@193:4")
        (202, 202, 202)
        """
        return self._value("get", position(trace), field(name))

    def set(self, trace: int, name: Field, value: int) -> None:
        """Writes a number into a header of a trace.

        >>> with segywb.open("cube.sgy") as v:
        ...     v.set(2, "crossline", 999)
        ...     v.get(2, "crossline"), v.edits
        (999, ['set 2 crossline 999'])
        """
        self._edit("set", position(trace), field(name), number(value))

    def set_many(
        self, name: Field, traces: Any, values: Any, where: Optional[str] = None
    ) -> Optional[int]:
        """Writes the values into a field of the traces: all of them, or none where one is refused.

        ``traces`` is a selection (see ``headers``); ``values`` has a number for each of its traces, or is one number for all:
        ``v.set_many("delay", v.dataframe("inline")["inline"] == 102, 0)``.

        With ``where`` it is of those that meet its conditions (see ``count``), ``values`` has a
        number for each of these, and how many they are is given back.

        >>> with segywb.open("cube.sgy") as v:
        ...     v.set_many("delay", slice(1, 4), [10, 20, 30])
        ...     v.set_many("delay", 5, 50)
        ...     v.set_many("delay", None, [60, 70], where="inline = 102 and crossline > 202")
        ...     v.headers("delay", traces=slice(1, 9)).tolist()
        2
        [(10,), (20,), (30,), (0,), (50,), (0,), (60,), (70,)]
        """
        meant = self._meant(traces, where)
        what = [int(number(values))] * len(meant) if lines.single(values) else lines.numbers(values)
        if len(what) != len(meant):
            raise ValueError(f"{len(meant)} traces and {len(what)} values")
        word = field(name)

        def batches() -> Iterator[Batch]:
            for at in range(0, len(meant), BATCH_LINES):
                some = list(zip(meant[at:at + BATCH_LINES], what[at:at + BATCH_LINES]))
                yield encode("".join([f"set {one} {word} {value}\n" for one, value in some])), len(some)

        self._engine.edit_whole(batches())
        return None if where is None else len(meant)

    def set_each(
        self, name: Field, value: int, traces: Any = None, where: Optional[str] = None
    ) -> Optional[int]:
        """Writes one number into a header of each of the traces, as one step: all, or none where one
        is refused. With ``where`` it is of those that meet its conditions (see ``count``), and their
        number is given back: 0 where none does.

        ``traces`` as for ``headers``; all of the file where it is left out. One that is named twice
        is meant once. ``undo`` takes all of it back.

        >>> with segywb.open("cube.sgy") as v:
        ...     v.set_each("delay", 12, where="inline = 102 and crossline > 202")
        ...     v.set_each("scalar", -1000, traces=slice(1, 5))
        ...     v.edits
        2
        ['set all delay 12 where inline = 102 and crossline > 202', 'set 1 4 scalar -1000']
        """
        words = [field(name), number(value), *choosing(where)]
        if traces is None:
            spans = ["all"]
        else:
            spans = [f"{first} {last}" for first, last in _spans(self._where(traces))]
        made = [encode(" ".join(["set", span, *words])) for span in spans]
        told = self._engine.edit_whole(cut(made))
        return None if where is None else told or 0

    def import_csv(self, path: Path, keys: csvs.Columns, values: csvs.Columns, dry_run: bool = False) -> csvs.CsvImport:
        """Writes the value columns of a CSV into the traces whose headers have the numbers of its key columns, as one step: all of it or nothing.

        ``v.import_csv("navigation.csv", keys=["inline", "crossline"], values=["x", "y"])``: the names are those of columns and of fields. Where
        they differ a dictionary says so: ``keys={"IL": "inline"}``. The key ``trace`` is the position. With ``dry_run`` nothing is changed, and
        what is told is what would change. Numbers that stand there already are not written. What is wrong with the CSV is a ``CsvRefused``.

        >>> import os, tempfile
        >>> path = os.path.join(tempfile.mkdtemp(), "x.csv")
        >>> with open(path, "w") as file:
        ...     _ = file.write("inline,crossline,x\\n102,202,45002525\\n109,201,7\\n")
        >>> with segywb.open("cube.sgy") as v:
        ...     print(v.import_csv(path, keys=["inline", "crossline"], values=["x"], dry_run=True))
        2 rows, 1 with a trace; 1 traces of 12 are meant
        1 numbers of 1 traces would change
          trace 6 x: 45002500 -> 45002525 (line 2)
        1 rows whose key no trace has, first 109, 201 on line 3
        """
        plan = csvs.planned(self, csvs.of_file(path), keys, values)
        return plan.told if dry_run else plan.do(self)

    def renumber(
        self, first_trace: Optional[int], last_trace: Optional[int], name: Field, first: int,
        step: int = 0, where: Optional[str] = None
    ) -> Optional[int]:
        """Writes ``first``, ``first + step``, .. into the traces from ``first_trace`` to
        ``last_trace``, all or none. The last one is among them: ``renumber(5, 8, ..)`` is of the
        traces 5, 6, 7 and 8, as in a script, where ``traces=slice(5, 8)`` of other calls is of 5, 6
        and 7, as ever in Python. ``None`` is the first of the file, or its last.

        With ``where`` it counts those alone that meet its conditions (see ``count``), and gives
        their number back. ``undo`` takes it back as any step.

        >>> with segywb.open("wrong_line.sgy") as v:
        ...     v.renumber(5, 8, "inline", 102)
        ...     v.inlines()
        ...     v.renumber(None, None, "delay", 10, 5, where="inline = 102 and crossline > 202")
        ...     v.headers("delay", traces=slice(5, 8)).tolist()  # the traces 5, 6 and 7
        ...     v.get(8, "delay")
        {101: 4, 102: 4, 103: 4}
        2
        [(0,), (0,), (10,)]
        15
        """
        span, numbers = between(first_trace, last_trace), (number(first), number(step))
        return self._edit("renumber", span, field(name), *numbers, where=where)

    def compute(
        self, first_trace: Optional[int], last_trace: Optional[int], name: Field, *formula: Field,
        where: Optional[str] = None
    ) -> Optional[int]:
        """Computes a field of the traces from ``first_trace`` to ``last_trace`` (which is among them,
        as in ``renumber``), all or none. ``None`` is the first of the file, or its last.

        With ``where`` it is of those that meet its conditions (see ``count``), and their number is
        given back.

        The formula is a text, as ``"cdp / 1000"``, or its parts, as ``TraceField.CDP, "/", 1000``: a field or a number, and then up to eight times
        one of ``+ - * / %`` with a field or a number, strictly from left to right, on whole numbers of the same trace as it was before.

        >>> with segywb.open("cube.sgy") as v:
        ...     v.compute(1, len(v), "cdp", "inline * 1000 + crossline")
        ...     v.get(6, "cdp")
        102202
        >>> with segywb.open("cube.sgy") as v:
        ...     v.compute(None, None, "x", "x + 1000", where="inline >= 102")
        8
        """
        if not formula:
            raise TypeError("a computation wants a field or a number to begin with")
        words = ["compute", between(first_trace, last_trace), field(name), *map(lines.term, formula)]
        return self._edit(*words, where=where)

    def swap(
        self, name: Field, other: Field, first: Optional[int] = None, last: Optional[int] = None,
        where: Optional[str] = None
    ) -> Optional[int]:
        """Lets the numbers of two fields change places, in each of the traces from ``first`` to
        ``last`` (which is among them, as in ``renumber``), all or none. Where an end is left out it
        is that of the file.

        With ``where`` it is of those that meet its conditions (see ``count``), and their number is
        given back. A number that does not fit into the other field is a ``Refused``.

        >>> with segywb.open("cube.sgy") as v:
        ...     v.swap("inline", "crossline")
        ...     v.headers("inline", "crossline", traces=[1, 12]).tolist()
        ...     v.swap("inline", "crossline", first=1, last=8, where="inline > 202")
        ...     v.edits
        [(201, 101), (204, 103)]
        4
        ['swap all inline crossline', 'swap 1 8 inline crossline where inline > 202']
        """
        return self._edit("swap", between(first, last), field(name), field(other), where=where)

    def sort(self, first_trace: Optional[int], last_trace: Optional[int], *keys: Field) -> None:
        """Puts the traces from ``first_trace`` to ``last_trace`` (which is among them) in the order of one to eight fields; equal ones stay as they
        stood. ``None`` is the first of the file, or its last.

        The numbers of a field fall where it is negative: ``v.sort(1, len(v), "inline", "-offset")``, or ``-TraceField.offset``.

        >>> with segywb.open("cube.sgy") as v:
        ...     v.sort(1, len(v), "-inline", "crossline")
        ...     v.headers("inline", "crossline", traces=slice(1, 4)).tolist()
        [(103, 201), (103, 202), (103, 203)]
        """
        if not keys:
            raise TypeError("a sort wants a field")
        self._edit("sort", between(first_trace, last_trace), *map(lines.key, keys))

    def map(self, name: str, place: Field) -> None:
        """Binds a name to a place of trace headers: ``v.map("shot", "@17:4")``. The file is not changed.

        Where the place is named by a field, as in ``v.map("x", "source_x")`` or ``v.map("x", "SourceX")``, it is that field's: any name that the
        program knows, of its own, of Seismic Unix or of segyio, or one that is bound.

        >>> with segywb.open("cube.sgy") as v:
        ...     v.map("shot", "@17:4")
        ...     v.set(1, "shot", 55)
        ...     v.get(1, "shot")
        55
        """
        self._edit("map", lines.word(name), field(place))

    def map_shot(self) -> None:
        """Reads the traces as those of shots: ``inline`` is the field record, ``crossline`` the trace
        in it, ``x`` and ``y`` are those of the receiver group. ``map_usual`` takes it back.

        >>> with segywb.open("cube.sgy") as v:
        ...     v.map_shot()
        ...     v.fields()["inline"], v.fields()["x"], v.fields()["offset"]
        ('@9:4', '@81:4', '@37:4')
        """
        self._edit("map", "shot")

    def map_usual(self) -> None:
        """Takes the six names that are always bound back to their own places.

        >>> with segywb.open("cube.sgy") as v:
        ...     v.map_shot()
        ...     v.map_usual()
        ...     v.fields()["inline"]
        '@189:4'
        """
        self._edit("map", "usual")

    def unmap(self, name: str) -> None:
        """Leaves out a name that ``map`` bound.

        >>> with segywb.open("cube.sgy") as v:
        ...     v.map("shot", "@17:4")
        ...     v.unmap("shot")
        ...     "shot" in v.fields()
        False
        """
        self._edit("unmap", lines.word(name))

    def fields(self) -> Dict[str, str]:
        """The bound names and their places.

        >>> with segywb.open("cube.sgy") as v:
        ...     v.fields()["inline"], v.fields()["x"]
        ('@189:4', '@181:4')
        """
        return answers.fields(self._ask("fields"))

    def headers(
        self, *names: Field, traces: Any = None, frame: bool = False, where: Optional[str] = None
    ) -> Any:
        """The numbers of these fields of many traces as a structured array (without numpy: a list of tuples).

        Without names: the six that are always bound. ``traces`` selects: a slice of positions from 1 (its end left out, as ever in Python),
        a range, a position, a list of them, or a mask with a truth value for each trace: ``v.headers("x", "y", traces=slice(1, 5))``.
        ``slice(5, 8)`` is of the traces 5, 6 and 7, where ``renumber(5, 8, ..)`` is of 8 too.
        With ``where`` it is of those that meet its conditions (see ``count``).
        With ``frame`` the answer is a pandas DataFrame, whose index is the position.

        >>> with segywb.open("cube.sgy") as v:
        ...     v.headers("inline", "x", traces=slice(1, 4)).tolist()
        ...     int(v.headers("inline")["inline"].max())
        ...     v.headers("inline", "crossline", where="crossline = 204").tolist()
        [(101, 45000000), (101, 45002500), (101, 45005000)]
        103
        [(101, 204), (102, 204), (103, 204)]
        """
        words = [field(name) for name in names] or ["inline", "crossline", "offset", "x", "y", "scalar"]
        if len(set(words)) < len(words):
            raise ValueError("a field stands twice")
        more, meant = choosing(where), self._where(traces)
        kinds = self._kinds(words)
        wide = [one == (8, True) for one in kinds]
        if more:
            meant, columns = self._chosen(words, meant, wide, more[0])
        else:
            columns = self._columns(words, meant, wide)
        made = arrays.table(words, [arrays.type_of(one) for one in kinds], columns)
        if not frame:
            return made
        pandas = arrays.pandas()
        return pandas.DataFrame(made, columns=words, index=pandas.Index(meant, name="trace"))

    def header(self, trace: int) -> Dict[str, int]:
        """All named numbers of a trace's headers: those of the standard in the order of their bytes, then the bound names.

        >>> with segywb.open("cube.sgy") as v:
        ...     found = v.header(2)
        ...     found["crossline"], found["x"]
        (202, 45002500)
        """
        return answers.header(self._ask("header", position(trace)))

    def find(
        self, name: Field, low: int, high: int, traces: Any = None, where: Optional[str] = None
    ) -> Any:
        """The traces whose number in this field is from ``low`` to ``high``: an array of ``trace`` and ``value``, in order of ``traces``.

        ``traces`` as for ``headers``. The column ``trace`` is what ``headers`` and ``set_many`` take. Without numpy: a list of tuples.
        With ``where`` those are looked for alone that meet its conditions (see ``count``).

        >>> with segywb.open("cube.sgy") as v:
        ...     v.find("crossline", 203, 204, traces=slice(1, 7)).tolist()
        ...     v.find("crossline", 203, 204, where="inline = 103").tolist()
        [(3, 203), (4, 204)]
        [(11, 203), (12, 204)]
        """
        word, asked = field(name), " ".join([number(low), number(high), *choosing(where)])
        meant = self._where(traces)
        unsigned = self._kinds([word])[0] == (8, True)
        columns: List[List[Any]] = [[], []]
        for told, _ in self._windows(meant, lambda first, last: f"find {first} {last} {word} {asked}"):
            rows = rows_of(told, b"found ").replace(b"trace ", b"")
            flat = arrays.parse(rows, 2 * rows.count(b"\n"), unsigned)
            columns[0].append(flat[0::2])
            columns[1].append(flat[1::2])
        return arrays.table(["trace", "value"], ["i8", "u8" if unsigned else "i8"], [_join(parts) for parts in columns])

    def extremes(self, traces: Any = None, where: Optional[str] = None) -> Dict[str, Extremes]:
        """The least, the greatest, the first and the last number of each named field that is used: fields of zeros alone are left out.

        ``traces`` as for ``headers``, but they follow one another. With ``where`` it is of those that
        meet its conditions (see ``count``), which need not; there are no fields where none does.

        >>> with segywb.open("cube.sgy") as v:
        ...     v.extremes()["crossline"]
        ...     v.extremes(where="crossline > 202")["crossline"]
        Extremes(least=201, greatest=204, first=201, last=204)
        Extremes(least=203, greatest=204, first=203, last=204)
        """
        more = choosing(where)
        if traces is None and more:
            return answers.extremes(self._ask("extremes", "all", *more))
        meant = self._where(traces)
        if not len(meant):
            return {}
        (first, last), *others = runs(meant, len(meant))
        if others:
            raise ValueError("these traces do not follow one another")
        return answers.extremes(self._ask("extremes", str(first), str(last), *more))

    def dataframe(self, *names: Field, traces: Any = None, where: Optional[str] = None) -> Any:
        """``headers`` as a pandas DataFrame. Its index is the position, also with ``where``.

        >>> with segywb.open("cube.sgy") as v:
        ...     v.dataframe("inline", "crossline").loc[2].tolist()
        ...     v.dataframe("inline", "crossline", where="crossline = 204").index.tolist()
        [101, 202]
        [4, 8, 12]
        """
        return self.headers(*names, traces=traces, frame=True, where=where)

    def _where(self, traces: Any) -> Sequence[int]:
        """The positions that are meant. How many traces there are is asked where it matters."""
        return positions(traces, self.count)

    def _meant(self, traces: Any, where: Optional[str]) -> Sequence[int]:
        """The positions that are meant, of those that meet conditions."""
        return self._where(traces) if where is None else self._numbers_of([FIRST], traces, where)[0]

    def _kinds(self, words: Sequence[str]) -> List[Optional[Tuple[int, bool]]]:
        places = {**TRACE_NAMES, **self.fields()}
        return [kind(places.get(word, word)) for word in words]

    def _numbers_of(
        self, words: Sequence[str], traces: Any, where: Optional[str]
    ) -> Tuple[Sequence[int], List[Any]]:
        """The positions that are meant, of those that meet conditions, and a column of each field."""
        more, meant, wide = choosing(where), self._where(traces), [False] * len(words)
        if more:
            return self._chosen(words, meant, wide, more[0])
        return meant, self._columns(words, meant, wide)

    def _columns(self, words: Sequence[str], where: Sequence[int], wide: Sequence[bool]) -> List[Any]:
        """A column for each field; ``wide`` ones are unsigned numbers of 8 bytes."""
        if not where:
            return [[] for _ in words]
        if self._table is None:
            self._table = self._knows("table 1 1 inline")
        found: Dict[str, Any] = {}
        read = self._by_table if self._table else self._by_get
        for part, unsigned in _parts(words, wide):
            found.update(zip(part, read(part, where, unsigned)))
        return [found[word] for word in words]

    def _chosen(
        self, words: Sequence[str], traces: Sequence[int], wide: Sequence[bool], more: str
    ) -> Tuple[List[int], List[Any]]:
        """Those of the traces that meet conditions, and a column for each field of them."""
        found: Dict[str, Any] = {}
        chosen: Any = []
        for part, unsigned in _parts(words, wide):
            columns: List[List[Any]] = [[] for _ in range(len(part) + 1)]
            named = " ".join([*part, more])
            asked = self._windows(traces, lambda first, last: f"table {first} {last} {named}")
            for told, _ in asked:
                rows = rows_of(told, b"table ")
                numbers = arrays.parse(rows, rows.count(b"\n") * len(columns), unsigned)
                for at, column in enumerate(columns):
                    column.append(numbers[at::len(columns)])
            chosen, *read = map(_join, columns)
            found.update(zip(part, read))
        return [int(one) for one in chosen], [found[word] for word in words]

    def _knows(self, line: str) -> bool:
        try:
            self._ask(line)
        except Refused as refusal:
            return refusal.code not in ("S01", "S02")
        return True

    def _by_table(self, words: Sequence[str], where: Sequence[int], unsigned: bool) -> List[Any]:
        wide, named = len(words) + 1, " ".join(words)
        parts: List[List[Any]] = []
        for told, count in self._windows(where, lambda first, last: f"table {first} {last} {named}"):
            numbers = arrays.parse(rows_of(told, b"table "), count * wide, unsigned)
            parts.append([numbers[at::wide] for at in range(1, wide)])
        return [_join([part[at] for part in parts]) for at in range(len(words))]

    def _windows(
        self, where: Sequence[int], line: Callable[[int, int], str], most: Optional[int] = None
    ) -> Iterator[Tuple[bytes, int]]:
        """The answers to lines that are asked of a first and a last trace, for all of these traces in order: those of some lines
        together, and of how many traces they are, ``most`` of them or as many as a window has. Behind a refusal nothing more is asked,
        and what was asked is read: the session goes on."""
        window = WINDOW_TRACES if most is None else most
        pieces = [(encode(line(first, last)), last - first + 1) for first, last in runs(where, window)] if len(where) else []
        cuts = list(_cut(pieces, window))
        refusal: Optional[Exception] = None

        def batches() -> Iterator[Batch]:
            for some in cuts:
                if refusal is not None:
                    return
                yield lines.payload(sent for sent, _ in some), len(some)

        with closing(self._engine.stream(batches())) as told:
            for answer, some in zip(told, cuts):
                if refusal is None and b"refused" in answer:
                    refusal = first_refusal(answer, [sent for sent, _ in some])
                if refusal is None:
                    yield answer, sum(count for _, count in some)
        if refusal is not None:
            raise refusal

    def _by_get(self, words: Sequence[str], where: Sequence[int], unsigned: bool) -> List[Any]:
        """Field by field within pieces of the traces: what is read of a piece is still near when the next field of it is asked."""
        cuts = [where[at:at + GET_LINES] for at in range(0, len(where), GET_LINES)]

        def batches() -> Iterator[Batch]:
            for some in cuts:
                texts = list(map(str, some))
                for word in words:
                    yield encode("get " + f" {word}\nget ".join(texts) + f" {word}\n"), len(some)

        parts: Dict[str, List[Any]] = {word: [] for word in words}
        with closing(self._engine.stream(batches())) as told:
            for answer, (word, some) in zip(told, ((word, some) for some in cuts for word in words)):
                if b"refused" in answer:
                    raise first_refusal(answer, [encode(f"get {one} {word}") for one in some])
                parts[word].append(arrays.parse(answer.replace(b"value ", b""), len(some), unsigned))
        return [_join(parts[word]) for word in words]


def _spans(traces: Sequence[int]) -> Iterator[Tuple[int, int]]:
    """The first and last of each run of traces that follow one another, in their order.

    >>> list(_spans([7, 3, 4, 7])), list(_spans(range(5, 5)))
    ([(3, 4), (7, 7)], [])
    """
    ordered = traces if isinstance(traces, range) and traces.step == 1 else sorted(set(traces))
    return runs(ordered, len(ordered)) if len(ordered) else iter(())


def _parts(words: Sequence[str], wide: Sequence[bool]) -> Iterator[Tuple[List[str], bool]]:
    """The fields as many as one line may ask for, those of unsigned numbers of 8 bytes apart."""
    for unsigned in (False, True):
        some = [word for word, one in zip(words, wide) if one == unsigned]
        for at in range(0, len(some), 64):
            yield some[at:at + 64], unsigned


def _join(parts: List[Any]) -> Any:
    np = arrays.numpy()
    if np is not None:
        return np.concatenate(parts) if parts else np.empty(0, dtype=np.int64)
    return [number for part in parts for number in part]


def _cut(pieces: Sequence[Tuple[bytes, int]], most: int) -> Iterator[List[Tuple[bytes, int]]]:
    """Lines with their numbers of traces, cut into what is sent at once."""
    some: List[Tuple[bytes, int]] = []
    traces = 0
    for piece in pieces:
        if some and (traces + piece[1] > most or len(some) == WINDOW_LINES):
            yield some
            some, traces = [], 0
        some.append(piece)
        traces += piece[1]
    if some:
        yield some


def rows_of(told: bytes, head: bytes) -> bytes:
    """The rows of answers that are lists, without the lines that count them."""
    heads_and_rows = [one.partition(b"\n") for one in told.split(b"\n\n")[:-1]]
    for first, _, _ in heads_and_rows:
        if not first.startswith(head):
            raise answers.unexpected(lines.decode(first))
    return b"".join(rows + b"\n" for _, _, rows in heads_and_rows if rows)


def first_refusal(told: bytes, sent: Iterable[bytes]) -> Exception:
    """The first refusal of these answers, also one that ends an answer behind its first rows."""
    for answer, line in zip(told.split(b"\n\n"), sent):
        refusal = answers.refusal_in(lines.decode(answer))
        if refusal is not None:
            return Refused(refusal, lines.decode(line))
    return answers.unexpected(lines.decode(told))
