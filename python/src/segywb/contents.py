"""The binary header, the texts, the samples and whole traces, of a ``Volume``."""

from __future__ import annotations

from typing import Any, List, Optional, Sequence, Union

from . import answers, lines, many_samples, many_stats
from .answers import FloatStatistics, FloatTotals, Stanza, Statistics
from .asked import FLOATS, NARROW
from .headers import Headers, rows_of
from .lines import Field, between, choosing, number, position
from .many_samples import MOST, Kind, Samples

# The sample formats of 8 bytes, whose sums may need more.
WIDE = (9, 12)


class Contents(Headers):
    """A part of ``Volume``: all that its file holds."""

    # ---- the binary header and texts

    def getbin(self, name: Field) -> int:
        """The number in the binary header.

        >>> with segywb.open("cube.sgy") as v:
        ...     v.getbin("interval"), v.getbin(segywb.BinField.Samples)
        (4000, 5)
        """
        return self._value("getbin", lines.binary_field(name))

    def set_bin(self, name: Field, value: int) -> None:
        """Writes a number into the binary header.

        >>> with segywb.open("cube.sgy") as v:
        ...     v.set_bin("job", 77)
        ...     v.getbin("job")
        77
        """
        self._edit("bin", lines.binary_field(name), number(value))

    @property
    def text(self) -> List[str]:
        """The 40 lines of the textual header, then those of the extended ones.

        >>> with segywb.open("cube.sgy") as v:
        ...     v.text[0], len(v.text)
        ('C 1 EXAMPLE CUBE', 40)
        """
        return [line for block in range(self.info.blocks + 1) for line in self.lines(block)]

    def text_block(self, block: int = 0) -> List[str]:
        """The same as ``lines``.

        >>> with segywb.open("cube.sgy") as v:
        ...     v.text_block()[0]
        'C 1 EXAMPLE CUBE'
        """
        return self.lines(block)

    def lines(self, block: int = 0) -> List[str]:
        """The 40 lines of a block: 0 is the textual header, 1 and up are the extended ones.

        >>> with segywb.open("cube.sgy") as v:
        ...     v.lines(0)[0], len(v.lines(0))
        ('C 1 EXAMPLE CUBE', 40)
        """
        return answers.block(self._ask("lines", number(block)))

    def line(self, block: int, at: int) -> str:
        """Line ``at`` (1 to 40) of a block.

        >>> with segywb.open("cube.sgy") as v:
        ...     v.line(0, 1)
        'C 1 EXAMPLE CUBE'
        """
        return answers.text(self._one("line", number(block), number(at)))

    def set_text(self, at: int, text: str = "") -> None:
        """Writes line ``at`` of the textual header.

        >>> with segywb.open("cube.sgy") as v:
        ...     v.set_text(3, "C 3 MENDED")
        ...     v.line(0, 3)
        'C 3 MENDED'
        """
        self._edit("text", number(at), *([lines.word(text)] if text else []))

    def code(self, block: int = 0) -> str:
        """``ebcdic`` or ``ascii``.

        >>> with segywb.open("cube.sgy") as v:
        ...     v.code()
        'ebcdic'
        """
        return answers.name(self._one("code", number(block)), "code")

    def stanzas(self) -> List[Stanza]:
        """The stanzas of the extended textual headers.

        >>> with segywb.open("cube.sgy") as v:
        ...     v.stanzas()
        []
        """
        return answers.stanzas(self._ask("stanzas"))

    # ---- samples

    def _kept_format(self) -> int:
        """The sample format, which no edit changes."""
        if self._format is None:
            self._format = self.info.format
        return self._format

    @property
    def has_floats(self) -> bool:
        """Whether the samples are floats, with their values.

        >>> with segywb.open("cube.sgy") as v:
        ...     v.has_floats
        False
        >>> with segywb.open("wrong_floats.sgy") as v:
        ...     v.has_floats
        True
        """
        return self._asked_floats and self._kept_format() in FLOATS

    @property
    def sample_type(self) -> str:
        """The numpy type that holds the samples: ``f4`` and ``f8`` of floats, ``u8`` of format 12, ``i8`` of all others.

        >>> with segywb.open("cube.sgy") as v:
        ...     v.sample_type
        'i8'
        >>> with segywb.open("wrong_floats.sgy") as v:
        ...     v.sample_type
        'f4'
        """
        if self.has_floats:
            return "f4" if self._kept_format() == NARROW else "f8"
        return "u8" if self._kept_format() == 12 else "i8"

    def sample(self, trace: int, sample: int) -> Any:
        """A sample of a trace: a whole number, or a float where the file has floats.

        >>> with segywb.open("cube.sgy") as v:
        ...     v.sample(1, 0)
        11
        >>> with segywb.open("wrong_floats.sgy") as v:
        ...     v.sample(1, 0)
        1.375
        """
        line = self._one("sample", position(trace), number(sample))
        return answers.sample(line, self.sample_type == "f4") if self.has_floats else answers.number(line, "value")

    def samples(self, trace: int) -> Any:
        """All samples of a trace, as an array.

        >>> with segywb.open("cube.sgy") as v:
        ...     v.samples(1).tolist()
        [11, 41, -101, 29, 0]
        """
        return self._samples([int(position(trace))], range(MOST + 1), 1).array[0]

    def samples_of(
        self, traces: Any = None, samples: Any = None, where: Optional[str] = None
    ) -> Samples:
        """Samples of many traces: ``array`` has a row for each trace and a column for each number
        of a sample, ``traces`` the positions of the traces, ``samples`` the numbers of the columns.

        ``traces`` as for ``headers``; all where it is left out. ``samples`` is a slice that counts
        from 0 and leaves its end out, as ever in Python, or a range: ``v.samples_of(slice(1, 5),
        slice(0, 100))`` are the first hundred of the traces 1 to 4, and ``slice(None, None, 8)`` is
        each eighth. It has no negative numbers, since traces may end elsewhere. With ``where`` of
        the traces that meet its conditions (see ``count``).

        Columns that no trace has are left out. Where traces are of different lengths the array is a
        masked one (``numpy.ma``). Without numpy it is a list of lists, each as long as its trace has
        samples.

        >>> with segywb.open("cube.sgy") as v:
        ...     array, traces, samples = v.samples_of(samples=slice(0, 3), where="inline = 102")
        ...     array.tolist(), traces.tolist(), samples.tolist()
        ([[21, 41, -102], [22, 42, -102], [23, 43, -102], [24, 44, -102]], [5, 6, 7, 8], [0, 1, 2])
        >>> with segywb.open("cube.sgy") as v:
        ...     v.samples_of([9, 1], slice(0, 2)).array.tolist()
        [[31, 41], [11, 41]]
        """
        asked = many_samples.numbers_of(samples)
        usual = len(range(asked.start, min(asked.stop, self.info.samples), asked.step))
        most = max(1, many_samples.BATCH_VALUES // max(usual, 1))
        return self._samples(self._where(traces), asked, most, where)

    def _samples(
        self, traces: Sequence[int], samples: range, most: int, where: Optional[str] = None
    ) -> Samples:
        """Samples of these traces, of so many at once."""
        asked = " ".join([many_samples.words_of(samples), *choosing(where)])
        told = self._windows(traces, lambda first, last: f"samples {first} {last} {asked}", most)
        kind = Kind(self.sample_type, self.has_floats)
        return many_samples.table([rows_of(one, b"samples ") for one, _ in told], kind, samples)

    def stat(self, trace: int) -> Union[Statistics, FloatStatistics, None]:
        """The samples of a trace; ``None`` where it has none. Of floats the sum is exact, and rounded once.

        >>> with segywb.open("cube.sgy") as v:
        ...     v.stat(1)
        Statistics(least=-101, greatest=41, sum=-20, samples=5)
        >>> with segywb.open("wrong_floats.sgy") as v:
        ...     v.stat(1)
        FloatStatistics(least=-12.625, greatest=5.125, sum=-2.5, samples=5, nans=0)
        """
        line = self._one("stat", position(trace))
        return answers.float_statistics(line, self.sample_type == "f4") if self.has_floats else answers.statistics(line, "stat")

    def stats(self, traces: Any = None, where: Optional[str] = None) -> Any:
        """The samples of many traces as a structured array, a row for each trace (without numpy: a
        list of tuples): ``trace``, its position, ``least``, ``greatest``, ``sum``, ``zeros`` (how
        many of them are 0) and ``samples`` (how many there are); of floats ``nans`` too, and a sum
        that is exact, rounded once.

        ``traces`` as for ``headers``. With ``where`` of those that meet its conditions (see
        ``count``). A trace without samples, and one of floats of which none is a number, has no
        ``least``, ``greatest`` and ``sum``: there the array is a masked one (``numpy.ma``), and the
        tuples have ``None``.

        >>> with segywb.open("cube.sgy") as v:
        ...     v.stats(slice(1, 3)).tolist()
        ...     v.stats(where="inline = 103 and crossline = 204")["least"].tolist()
        [(1, -101, 41, -20, 1, 5), (2, -101, 42, -19, 1, 5)]
        [-103]
        >>> with segywb.open("wrong_floats.sgy") as v:
        ...     v.stats(1).dtype.names, v.stats(1).tolist()
        (('trace', 'least', 'greatest', 'sum', 'zeros', 'samples', 'nans'), [(1, -12.625, 5.125, -2.5, 1, 5, 0)])
        """
        more = "".join(f" {words}" for words in choosing(where))
        told = self._windows(self._where(traces), lambda first, last: f"stats {first} {last}{more}")
        kinds = many_stats.kinds(self.sample_type, self.has_floats, self._kept_format() in WIDE)
        return many_stats.table([rows_of(one, b"stats ") for one, _ in told], kinds)

    @property
    def totals(self) -> Union[Statistics, FloatTotals, None]:
        """The samples of all traces; ``None`` where there are none. Of floats there is no sum.

        >>> with segywb.open("cube.sgy") as v:
        ...     v.totals
        Statistics(least=-103, greatest=44, sum=-114, samples=60)
        """
        line = self._one("totals")
        return answers.float_totals(line, self.sample_type == "f4") if self.has_floats else answers.statistics(line, "totals")

    def patch(self, trace: int, sample: int, values: Any) -> None:
        """Writes the numbers over the samples from ``sample`` on, all or none. In a file of floats these may be floats, also of numpy.

        >>> with segywb.open("cube.sgy") as v:
        ...     v.patch(1, 3, [77, 78])
        ...     v.samples(1).tolist()
        [11, 41, -101, 77, 78]
        """
        if lines.single(values):
            values = [values]
        told = lines.decimals(values) if self.has_floats else list(map(str, lines.numbers(values)))
        self._edit("patch", position(trace), number(sample), *told)

    def fill(
        self, first: Optional[int], last: Optional[int], from_sample: int, to_sample: int,
        value: Any, where: Optional[str] = None
    ) -> Optional[int]:
        """Gives the samples from ``from_sample`` to ``to_sample`` (which is among them, and they
        count from 0) of each of the traces from ``first`` to ``last`` (which is among them, as in
        ``renumber``) one value, all or none: so a part of them is muted. ``None`` is the first of
        the file, or its last. In a file of floats the value may be a float, also one of numpy.

        With ``where`` it is of those that meet its conditions (see ``count``), and their number is
        given back. A trace that lacks one of the samples is a ``Refused``.

        >>> with segywb.open("cube.sgy") as v:
        ...     v.fill(1, 4, 1, 3, 0)
        ...     v.samples(1).tolist(), v.samples(4).tolist()
        ...     v.fill(None, None, 0, 0, -7, where="inline = 102")
        ...     v.slice(0).rows["value"].tolist()
        ...     v.edits
        ([11, 0, 0, 0, 0], [14, 0, 0, 0, 0])
        4
        [11, 12, 13, 14, -7, -7, -7, -7, 31, 32, 33, 34]
        ['fill 1 4 1 3 0', 'fill all 0 0 -7 where inline = 102']
        """
        told = lines.decimal(value) if self.has_floats else number(value)
        ends = (number(from_sample), number(to_sample))
        return self._edit("fill", between(first, last), *ends, told, where=where)

    def declare(self) -> None:
        """Writes what the reading says (``samples``, ``format``, ``texts`` and ``fixed`` of ``segywb.open``) into the binary header, so that the saved file is read without it.

        >>> with segywb.open("cube.sgy", samples=5) as v:
        ...     v.declare()
        ...     v.edits
        ['declare']
        """
        self._edit("declare")

    def drop_tail(self) -> None:
        """Takes away the bytes of no trace that ``tail=True`` of ``segywb.open`` keeps behind the last trace; nothing changes where there are none.

        >>> import tempfile
        >>> from pathlib import Path
        >>> cut = Path(tempfile.mkdtemp(), "cut.sgy")
        >>> told = cut.write_bytes(Path("cube.sgy").read_bytes()[:-7])  # the last of its 12 traces lacks 7 bytes
        >>> with segywb.open(cut, tail=True) as v:
        ...     len(v), v.info.tail
        ...     v.drop_tail()
        ...     len(v), v.info.tail, v.edits
        (11, 243)
        (11, 0, ['drop tail'])
        """
        self._edit("drop", "tail")

    def resize(self, trace: int, samples: int) -> None:
        """Gives a trace that number of samples.

        >>> with segywb.open("cube.sgy") as v:
        ...     try:
        ...         v.resize(1, 4)
        ...     except segywb.Refused as refusal:  # each trace has as many samples as the binary header says
        ...         refusal.code, refusal.text
        ('E06', 'frame')
        """
        self._edit("resize", position(trace), number(samples))

    # ---- whole traces

    def blank(self, before: int) -> None:
        """Puts a trace of zeros in front of a trace, or behind the last.

        >>> with segywb.open("cube.sgy") as v:
        ...     v.blank(1)
        ...     len(v), v.get(1, "inline")
        (13, 0)
        """
        self._edit("blank", position(before))

    def copy(self, trace: int, before: int) -> None:
        """Puts a copy of a trace in front of another, or behind the last.

        >>> with segywb.open("cube.sgy") as v:
        ...     v.copy(1, 13)
        ...     len(v), v.get(13, "inline")
        (13, 101)
        """
        self._edit("copy", position(trace), position(before))

    def delete(
        self, trace: Optional[int] = None, last_trace: Optional[int] = None,
        where: Optional[str] = None
    ) -> Optional[int]:
        """Takes a trace out, or each of the traces from ``trace`` to ``last_trace`` (which is among
        them): all, or none where one is refused.

        With ``where`` it takes those out that meet its conditions (see ``count``), of all traces
        where none is named, and gives their number back: 0 where none does. Neither a trace nor
        conditions is a ``TypeError``. ``undo`` brings the traces back: the file is loaded anew, and
        given the edits before.

        >>> with segywb.open("twice.sgy") as v:
        ...     v.delete(5)
        ...     v.faults()
        ...     v.delete(1, 4)
        ...     v.delete(where="crossline = 204")
        ...     len(v), v.edits[1:]
        []
        2
        (6, ['delete 1 4', 'delete all where crossline = 204'])
        """
        if trace is None and where is None:
            raise TypeError("delete wants a trace, or conditions: delete(where=..)")
        if trace is None and last_trace is not None:
            raise TypeError("delete wants the first of the traces, too")
        if where is None and last_trace is None:
            return self._edit("delete", position(trace))
        last = trace if last_trace is None else last_trace
        return self._edit("delete", between(trace, last), where=where)

    def move(self, trace: int, to: int, last_trace: Optional[int] = None) -> None:
        """Takes a trace out and puts it in again, so that its position is ``to``. With ``last_trace``
        the traces up to it (it too) are moved as one block, in their order, and ``to`` is the
        position of the first of them, counted without the block.

        >>> with segywb.open("cube.sgy") as v:
        ...     v.move(12, 1)
        ...     v.get(1, "crossline"), len(v)
        ...     v.move(2, 9, last_trace=5)
        ...     v.headers("crossline", traces=slice(1, 4)).tolist(), v.edits
        (204, 12)
        ([(204,), (201,), (202,)], ['move 12 1', 'move 2 5 9'])
        """
        if last_trace is None:
            self._edit("move", position(trace), position(to))
        else:
            self._edit("move", between(trace, last_trace), position(to))
