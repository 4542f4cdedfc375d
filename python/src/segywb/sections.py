"""Sections of a ``Volume``: the samples of many traces side by side."""

from __future__ import annotations

import importlib
from typing import Any, Dict, List, NamedTuple, Optional, Sequence

from . import lines, many_samples
from .many_samples import Kind
from .reports import Reports

# Along which field the traces of a line are put in order.
ALONG = {"inline": "crossline", "crossline": "inline"}


class Section(NamedTuple):
    """The samples of many traces: ``array`` has a row for each trace and a column for each time,
    ``traces`` their positions in the file (from 1), and ``times`` the times of the columns in
    milliseconds.

    Where a trace has no sample at a time, since it is shorter than others or begins later, the
    array is a masked one (``numpy.ma``).
    """

    array: Any
    traces: Any
    times: Any

    @property
    def shape(self) -> Any:
        """The number of traces, and of times.

        >>> with segywb.open("cube.sgy") as v:
        ...     v.section(inline=102).shape
        (4, 5)
        """
        return self.array.shape


class Sections(Reports):
    """A part of ``Volume``: its sections."""

    def section(
        self, traces: Any = None, where: Optional[str] = None, **values: int
    ) -> Section:
        """The samples of many traces as a 2-D array, with the positions of the traces and the times
        of the samples in milliseconds.

        ``v.section(inline=1100)``, ``v.section(crossline=205)``, ``v.section(field_record=7,
        trace_in_record=1)``: the traces whose fields have these numbers, of ``traces`` (a selection
        as for ``headers``; all where it is left out). Those of an inline come in order of their
        crosslines, those of a crossline in order of their inlines, all others in the order of the
        file; of ``traces`` alone in the order of the selection. With ``where`` of those that meet
        its conditions (see ``count``): ``v.section(where="offset > 0", field_record=7)``.

        The samples are int64 (uint64 in format 12), float32 in format 5, float64 in the formats 1
        and 6. Time begins at the delay (bytes 109-110); where delays differ each trace stands at
        its own. Its step is the interval of the traces (bytes 117-118), or that of the binary
        header where they do not agree; where none is told, times are the numbers of the samples,
        from 0. A field that is none, and a file whose samples have no values, are a ``Refused``. It
        needs numpy.

        >>> with segywb.open("cube.sgy") as v:
        ...     array, traces, times = v.section(inline=102)
        ...     array.tolist()[0], traces.tolist(), times.tolist()
        ([21, 41, -102, 29, 0], [5, 6, 7, 8], [0.0, 4.0, 8.0, 12.0, 16.0])
        >>> with segywb.open("cube.sgy") as v:
        ...     v.section(where="crossline > 202", inline=102).traces.tolist()
        [7, 8]
        """
        return self.section_of(self.section_traces(traces, where, **values))

    def section_traces(
        self, traces: Any = None, where: Optional[str] = None, **values: int
    ) -> Any:
        """The positions of the traces of ``section``, in its order, as an array. With ``where`` of
        those that meet its conditions (see ``count``).

        >>> with segywb.open("cube.sgy") as v:
        ...     v.section_traces(crossline=203).tolist()
        ...     v.section_traces(slice(1, 8), crossline=203).tolist()
        ...     v.section_traces(where="inline != 102", crossline=203).tolist()
        [3, 7, 11]
        [3, 7]
        [3, 11]
        """
        np = _numpy()
        found = np.asarray(self._meant(traces, where), dtype=np.int64)
        for name, value in values.items():
            number = lines.number(value)
            found = np.asarray(
                self.find(name, int(number), int(number), found)["trace"], dtype=np.int64
            )
        along = [ALONG[name] for name in values if name in ALONG]
        if len(along) == 1 and len(found):
            found = found[np.argsort(self.headers(along[0], traces=found)[along[0]], kind="stable")]
        return found

    def section_of(self, traces: Sequence[int]) -> Section:
        """The section of these positions, in their order.

        >>> with segywb.open("cube.sgy") as v:
        ...     v.section_of([9, 1]).array.tolist()
        [[31, 41, -103, 29, 0], [11, 41, -101, 29, 0]]
        """
        reading = self.section_reading(traces)
        reading.more()
        return reading.section

    def section_reading(self, traces: Sequence[int], coarse: int = 1) -> "SectionReading":
        """The same in pieces: ``more(values)`` reads so many samples more, or without a number all
        that are left, ``section`` is what is there, and ``done`` tells whether it is whole.

        Each ``coarse`` sample is read first, and stands for those behind it until they are there:
        so a section can be looked at while it is read. To be left alone behind an edit.

        >>> with segywb.open("cube.sgy") as v:
        ...     reading = v.section_reading([9, 1], coarse=5)
        ...     reading.more(2)
        ...     reading.section.array.tolist(), reading.done
        ...     reading.more()
        ...     reading.section.array.tolist(), reading.done
        ([[31, 31, 31, 31, 31], [11, 11, 11, 11, 11]], False)
        ([[31, 41, -103, 29, 0], [11, 41, -101, 29, 0]], True)
        """
        np = _numpy()
        where = np.asarray(traces, dtype=np.int64)
        count = len(self)
        if len(where) and not 1 <= where.min() <= where.max() <= count:
            self.stat(
                int(where.min() if where.min() < 1 else where.max())
            )  # the program says why not
        step = self._step(where)
        rising, back = np.unique(where, return_inverse=True)
        kind = Kind(self.sample_type, self.has_floats)
        reading = many_samples.Reading(
            self._windows, rising.tolist(), self._lengths(rising.tolist()), kind, coarse
        )
        shifts, first = self._shifts(where, step)
        return SectionReading(reading, where, back, shifts, first, step)

    def _lengths(self, where: List[int]) -> Any:
        """How many samples each of these traces has."""
        info = self.info
        if info.fixed:
            return _numpy().full(len(where), info.samples)
        return many_samples.lengths(self._engine, where)

    def _step(self, where: Any) -> float:
        """The interval of these traces in milliseconds; 0 where none is told."""
        np = _numpy()
        told = np.unique(self.headers("interval", traces=where)["interval"]) if len(where) else []
        micro = int(told[0]) if len(told) == 1 and told[0] else self.getbin("interval")
        return micro / 1000

    def _shifts(self, where: Any, step: float) -> Any:
        """How many samples later than the first of these traces each begins, and when that is in
        milliseconds.
        """
        np = _numpy()
        if not len(where) or not step:
            return np.zeros(len(where), dtype=np.int64), 0.0
        delay = self.headers("delay", traces=where)["delay"].astype(np.float64)
        return np.rint((delay - delay.min()) / step).astype(np.int64), float(delay.min())


class SectionReading:
    """A section that is read in pieces, made by ``Volume.section_reading``."""

    def __init__(
        self,
        reading: many_samples.Reading,
        where: Any,
        back: Any,
        shifts: Any,
        first: float,
        step: float,
    ) -> None:
        self._reading = reading
        self._where, self._back, self._shifts, self._first, self._step = (
            where,
            back,
            shifts,
            first,
            step,
        )

    def more(self, values: Optional[int] = None) -> None:
        """Reads so many samples more, or all that are left.

        >>> with segywb.open("cube.sgy") as v:
        ...     reading = v.section_reading([1, 2], coarse=5)
        ...     reading.more(2)
        ...     reading.part
        0.2
        """
        if values is None:
            self._reading.rest()
        else:
            self._reading.more(values)

    @property
    def done(self) -> bool:
        """Whether all of it is read.

        >>> with segywb.open("cube.sgy") as v:
        ...     v.section_reading([1]).done
        False
        """
        return self._reading.done

    @property
    def part(self) -> float:
        """How much of it is read, from 0 to 1.

        >>> with segywb.open("cube.sgy") as v:
        ...     reading = v.section_reading([1], coarse=5)
        ...     reading.more(1)
        ...     reading.part
        0.2
        """
        return float(self._reading.there.mean()) if len(self._reading.there) else 1.0

    @property
    def section(self) -> Section:
        """The section, as far as it is read.

        >>> with segywb.open("cube.sgy") as v:
        ...     reading = v.section_reading([1])
        ...     reading.more()
        ...     reading.section.array.tolist()
        [[11, 41, -101, 29, 0]]
        """
        np = _numpy()
        there, samples = self._reading.there, self._reading.samples
        if not there.all():
            samples = samples[np.maximum.accumulate(np.where(there, np.arange(len(there)), 0))]
        found = np.ascontiguousarray(samples.T)
        if not np.array_equal(self._back, np.arange(len(found))):
            found = found[self._back]
        return _placed(
            found,
            self._reading.sizes[self._back],
            self._shifts,
            self._where,
            self._first,
            self._step,
        )


def _placed(found: Any, sizes: Any, shifts: Any, where: Any, first: float, step: float) -> Section:
    """The samples at their times."""
    np = _numpy()
    ends = shifts + sizes
    wide = int(ends.max(initial=0))
    times = first + np.arange(wide) * step if step else np.arange(wide, dtype=np.float64)
    if found.shape[1] == wide and bool((ends == wide).all()) and not shifts.any():
        return Section(found, where, times)
    at = np.arange(wide)
    there = (at >= shifts[:, None]) & (at < ends[:, None])
    made = np.zeros((len(where), wide), dtype=found.dtype)
    made[there] = found[np.arange(found.shape[1]) < sizes[:, None]]
    return Section(np.ma.MaskedArray(made, mask=~there), where, times)


def described(values: Dict[str, int], where: Optional[str] = None) -> str:
    """What a section is of, in words.

    >>> described({"inline": 1100}), described({}), described({"field_record": 7, "offset": 0})
    ('inline 1100', 'traces', 'field_record 7, offset 0')
    >>> described({"inline": 1100}, "offset > 0"), described({}, "offset > 0")
    ('inline 1100, where offset > 0', 'traces, where offset > 0')
    """
    told = ", ".join(f"{name} {value}" for name, value in values.items()) or "traces"
    return told if where is None else f"{told}, where {where}"


def _numpy() -> Any:
    try:
        return importlib.import_module("numpy")
    except ImportError:
        raise ImportError("a section needs numpy") from None
