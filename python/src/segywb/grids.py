"""Maps: the fold of each cell, and the sample of each trace, by inline and crossline."""

from __future__ import annotations

from typing import Any, List, Sequence, Tuple

from .arrays import numpy

MOST_CELLS = 1 << 28


def _different(numbers: Any) -> List[int]:
    return [int(one) for one in (numbers if numpy() is None else numpy().unique(numbers))]


def _columns(rows: Any, names: Sequence[str]) -> List[Any]:
    if numpy() is None:
        return [list(column) for column in zip(*rows)] or [[] for _ in names]
    return [rows[name] for name in names]


class Map:
    """Rows with an inline and a crossline each, and the same as a 2-D array: inlines down, crosslines to the right."""

    columns: Tuple[str, ...] = ("inline", "crossline")

    def __init__(self, rows: Any) -> None:
        self.rows = rows
        inlines, crosslines = _columns(rows, self.columns)[:2]
        if numpy() is None:
            inlines, crosslines = sorted(set(inlines)), sorted(set(crosslines))
        self.inlines = _different(inlines)
        self.crosslines = _different(crosslines)

    def __len__(self) -> int:
        return len(self.rows)

    @property
    def shape(self) -> Tuple[int, int]:
        """The number of inlines and of crosslines.

        >>> with segywb.open("cube.sgy") as v:
        ...     v.grid.shape, v.slice(0).shape
        ((3, 4), (3, 4))
        """
        return len(self.inlines), len(self.crosslines)

    def _spread(self, column: str, missing: int, dtype: str) -> Any:
        """The values of a column in their cells. Where several rows share a cell, the first one stands."""
        if self.shape[0] * self.shape[1] > MOST_CELLS:
            raise ValueError(f"{self.shape[0]} inlines by {self.shape[1]} crosslines are too many cells: take the rows")
        np = numpy()
        inlines, crosslines = _columns(self.rows, self.columns)[:2]
        values = _columns(self.rows, self.columns)[self.columns.index(column)]
        if np is None:
            plain = [[missing] * self.shape[1] for _ in self.inlines]
            down = {number: at for at, number in enumerate(self.inlines)}
            right = {number: at for at, number in enumerate(self.crosslines)}
            for inline, crossline, value in reversed(list(zip(inlines, crosslines, values))):
                plain[down[inline]][right[crossline]] = value
            return plain
        made = np.full(self.shape, missing, dtype=dtype)
        made[np.searchsorted(self.inlines, inlines[::-1]), np.searchsorted(self.crosslines, crosslines[::-1])] = values[::-1]
        return made


class Grid(Map):
    """The number of traces of each cell. ``rows`` has ``inline``, ``crossline`` and ``fold`` of the cells with traces."""

    columns = ("inline", "crossline", "fold")

    @property
    def array(self) -> Any:
        """The folds as a 2-D array; 0 where no trace lies.

        >>> with segywb.open("wrong_line.sgy") as v:
        ...     v.grid.inlines, v.grid.array.tolist()
        ([101, 103], [[2, 2, 2, 2], [1, 1, 1, 1]])
        """
        return self._spread("fold", 0, "i8")

    def __array__(self, dtype: Any = None, copy: Any = None) -> Any:
        return self.array if dtype is None else self.array.astype(dtype)

    def __repr__(self) -> str:
        return f"<segywb.Grid {self.shape[0]} inlines, {self.shape[1]} crosslines, {len(self)} cells>"


class Slice(Map):
    """Sample ``sample`` of each trace that has it. ``rows`` has ``inline``, ``crossline``, ``trace`` and ``value``."""

    columns = ("inline", "crossline", "trace", "value")

    def __init__(self, sample: int, rows: Any) -> None:
        super().__init__(rows)
        self.sample = sample

    @property
    def traces(self) -> Any:
        """The position of the first trace of each cell as a 2-D array; 0 where none has the sample.

        >>> with segywb.open("wrong_line.sgy") as v:
        ...     v.slice(0).traces.tolist()
        [[1, 2, 3, 4], [9, 10, 11, 12]]
        """
        return self._spread("trace", 0, "i8")

    @property
    def array(self) -> Any:
        """The samples as a 2-D masked array (lists with ``None`` without numpy). Of a cell with several traces, the first one's.

        >>> with segywb.open("wrong_line.sgy") as v:
        ...     v.slice(0).array.tolist()
        [[11, 12, 13, 14], [31, 32, 33, 34]]
        """
        np = numpy()
        traces = self.traces
        if np is None:
            values = self._spread("value", 0, "i8")
            return [[v if t else None for v, t in zip(*row)] for row in zip(values, traces)]
        return np.ma.MaskedArray(self._spread("value", 0, self.rows["value"].dtype), mask=traces == 0)

    def __array__(self, dtype: Any = None, copy: Any = None) -> Any:
        """The samples; where no trace lies, 0."""
        return self.array.filled(0) if dtype is None else self.array.filled(0).astype(dtype)

    def __repr__(self) -> str:
        return f"<segywb.Slice {self.sample}: {self.shape[0]} inlines, {self.shape[1]} crosslines, {len(self)} traces>"
