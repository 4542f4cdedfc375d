"""The reports, of a ``Volume``."""

from __future__ import annotations

from contextlib import closing
from fractions import Fraction
from typing import Any, Dict, List, Optional, Sequence, Tuple

from . import answers, arrays, fitting, lines, problems
from .answers import Fault, Geometry
from .contents import Contents
from .grids import Grid, Slice
from .headers import first_refusal
from .lines import encode, number, position
from .problems import Problem


class Reports(Contents):
    """A part of ``Volume``: what is told of its survey."""

    def geometry(self, trace: int) -> Geometry:
        """Where a trace lies.

        >>> with segywb.open("cube.sgy") as v:
        ...     v.geometry(2).crossline, v.geometry(2).x
        (202, Fraction(450025, 1))
        """
        return answers.geometry(self._one("geometry", position(trace)))

    def positions(
        self, traces: Any = None, frame: bool = False, where: Optional[str] = None
    ) -> Any:
        """Where many traces lie: inline, crossline, offset, and x and y under the scalar as floats; ``traces`` as for ``headers``.
        With ``where`` of those that meet its conditions (see ``count``).

        >>> with segywb.open("cube.sgy") as v:
        ...     v.positions(slice(1, 3)).tolist()
        ...     v.positions(where="inline = 103 and crossline = 204").tolist()
        [(101, 201, 0, 450000.0, 6800000.0), (101, 202, 0, 450025.0, 6800000.0)]
        [(103, 204, 0, 450075.0, 6800050.0)]
        """
        names = ("inline", "crossline", "offset", "x", "y")
        meant, found = self._numbers_of([*names, "scalar"], traces, where)
        columns = arrays.scaled(found)
        made = arrays.table(names, ["i4", "i4", "i4", "f8", "f8"], columns)
        if not frame:
            return made
        pandas = arrays.pandas()
        return pandas.DataFrame(made, columns=list(names), index=pandas.Index(meant, name="trace"))

    def fit(self, traces: Any = None, where: Optional[str] = None) -> fitting.Fit:
        """The bin grid that fits the traces: x and y as linear functions of inline and crossline, by least squares, with the residuals of each trace.

        ``traces`` as for ``headers``, ``where`` as for ``count``: ``v.fit(where="x != 0")``. Traces that lie farther from the grid than three times the middle residual are left out of the fit (``used``
        tells which are in it) and have their residuals all the same: ``v.fit().misfit.argmax() + 1`` is the trace that lies farthest from its bin.
        x and y are under the scalar. Where the traces tell no grid it is a ``FitRefused``, which says why: all on one line, or none with a place.

        >>> with segywb.open("cube.sgy") as v:
        ...     grid = v.fit()
        >>> [round(one, 6) for one in grid.spacing], round(float(grid.misfit.max()), 6), [round(one, 3) for one in grid.at(102, 203)]
        ([25.0, 25.0], 0.0, [450050.0, 6800025.0])
        >>> with segywb.open("cube.sgy") as v:
        ...     v.fit(where="inline != 102 and x != 0").traces.tolist()
        [1, 2, 3, 4, 9, 10, 11, 12]
        """
        names = ["inline", "crossline", "x", "y", "scalar"]
        meant, (*numbers, scalar) = self._numbers_of(names, traces, where)
        inline, crossline, x, y = arrays.scaled([*numbers, scalar])
        return fitting.fitted(inline, crossline, x, y, fitting.rounding(scalar), meant)

    def range(self, which: str) -> Optional[Tuple[Fraction, Fraction]]:
        """The least and the greatest ``inline``, ``crossline``, ``offset``, ``x`` or ``y``, as fractions; ``None`` without traces.

        >>> with segywb.open("cube.sgy") as v:
        ...     v.range("inline"), v.range("x")
        ((Fraction(101, 1), Fraction(103, 1)), (Fraction(450000, 1), Fraction(450075, 1)))
        """
        return answers.span(self._one("range", lines.word(which)))

    def fold(self, inline: int, crossline: int) -> int:
        """How many traces have this inline and this crossline.

        >>> with segywb.open("cube.sgy") as v:
        ...     v.fold(101, 201), v.fold(999, 201)
        (1, 0)
        """
        return answers.number(self._one("fold", number(inline), number(crossline)), "fold")

    @property
    def grid(self) -> Grid:
        """The number of traces of each inline and crossline.

        >>> with segywb.open("wrong_line.sgy") as v:
        ...     v.grid.array.tolist()
        [[2, 2, 2, 2], [1, 1, 1, 1]]
        """
        return Grid(self._list("grid", "cells", "cell", Grid.columns, ["i8", "i8", "i8"]))

    def inlines(self) -> Dict[int, int]:
        """The inlines that have traces, rising, with the number of their traces.

        >>> with segywb.open("wrong_line.sgy") as v:
        ...     v.inlines()
        {101: 8, 103: 4}
        """
        return self._counts("inlines", "inlines", "inline")

    def crosslines(self) -> Dict[int, int]:
        """The crosslines that have traces, rising, with the number of their traces.

        >>> with segywb.open("cube.sgy") as v:
        ...     v.crosslines()
        {201: 3, 202: 3, 203: 3, 204: 3}
        """
        return self._counts("crosslines", "crosslines", "crossline")

    def histogram(self) -> Dict[int, int]:
        """For each fold that occurs, rising: how many cells of the grid have it.

        >>> with segywb.open("wrong_line.sgy") as v:
        ...     v.histogram()
        {1: 4, 2: 4}
        """
        return self._counts("histogram", "histogram", "times")

    def survey(self) -> Optional[answers.Survey]:
        """The grid of the survey in one line, exactly; ``None`` without traces. ``fit`` tells the grid that fits best.

        >>> with segywb.open("cube.sgy") as v:
        ...     v.survey().crossline, v.survey().along_crossline
        (Lines(first=201, last=204, step=1), (Fraction(25, 1), Fraction(0, 1)))
        """
        return answers.survey(self._one("survey"))

    def slice(self, sample: int) -> Slice:
        """A sample of each trace that has it.

        >>> with segywb.open("cube.sgy") as v:
        ...     v.slice(0).array.tolist()
        [[11, 12, 13, 14], [21, 22, 23, 24], [31, 32, 33, 34]]
        """
        line = "slice " + number(sample)
        return Slice(sample, self._list(line, "slice", "row", Slice.columns, ["i8", "i8", "i8", self.sample_type]))

    def faults(self) -> List[Fault]:
        """What is wrong with the headers: the faults of the file, then those of the traces.

        >>> with segywb.open("wrong_line.sgy") as v:
        ...     v.faults()[0].text, v.faults()[0].meaning
        ('F6 trace 5 first 1', 'inline, crossline and offset are those of an earlier trace')
        """
        return answers.faults(self._ask("faults"))

    def fault_text(self) -> bytes:
        """The faults as the program writes them, one in a line behind the line that counts them: for lists of millions that are not to become objects.

        >>> with segywb.open("wrong_line.sgy") as v:
        ...     v.fault_text().split(b"\\n")[:2]
        [b'faults 4', b'F6 trace 5 first 1']
        """
        with closing(self._engine.stream([(b"faults\n", 1)])) as told:
            return b"".join(told).rstrip(b"\n")

    def fault_counts(self) -> Dict[str, int]:
        """How many faults there are of each code.

        >>> with segywb.open("wrong_line.sgy") as v:
        ...     v.fault_counts()
        {'F6': 4}
        """
        return answers.fault_counts(self._ask("faults"))

    def problems(self) -> List[Problem]:
        """All that is wrong or doubtful, in groups: the faults, and what stands out of the others.

        Each tells its ``code`` and its ``meaning``, how many ``traces`` have it, the ``first_runs``
        of them, and, where one line does, the line of a script that mends it (``mend``). It looks
        at each trace once.

        >>> with segywb.open("missing.sgy") as v:
        ...     for one in v.problems():
        ...         print(one.code, one.traces, one.first_runs[0])
        F1 5 ProblemRun(first=7, last=11, facts={'shift': 1})
        """
        return problems.problems(self._ask("problems"), len(self), self.sample_type)

    def _counts(self, line: str, head: str, row: str) -> Dict[int, int]:
        return answers.counts(self._ask(line), head, row)

    def _list(self, line: str, head: str, row: str, names: Sequence[str], types: Sequence[str]) -> Any:
        with closing(self._engine.stream([(encode(line + "\n"), 1)])) as stream:
            told = b"".join(stream)
        if told.startswith(b"refused "):
            raise first_refusal(told, [encode(line)])
        first, _, rest = told.partition(b"\n")
        count = answers.number(lines.decode(first), head)
        numbers = rest.replace(encode(row) + b" ", b"")
        if types[-1] in ("f4", "f8"):
            columns: List[Any] = arrays.floats(numbers, count, types[-1] == "f4", len(names))
        elif types[-1] == "u8":
            plain = numbers.split()
            columns = [arrays.parse(b" ".join(plain[at::len(names)]), count, at == len(names) - 1) for at in range(len(names))]
        else:
            flat = arrays.parse(numbers, count * len(names))
            columns = [flat[at::len(names)] for at in range(len(names))]
        return arrays.table(names, types, columns)
