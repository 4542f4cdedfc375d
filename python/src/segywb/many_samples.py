"""The samples of many traces as arrays, by the answers to ``samples``."""

from __future__ import annotations

from contextlib import closing
from typing import Any, Callable, Iterator, List, NamedTuple, Sequence, Tuple

from . import arrays
from .answers import floating, unexpected
from .engine import Engine, batches
from .headers import first_refusal, rows_of
from .selection import whole

MOST = (1 << 32) - 1  # the greatest number of a sample in a line
BATCH_VALUES = 1 << 20  # so many samples are asked at once: this bounds the memory

# The answers to lines that are asked of a first and a last trace, for all of these traces in order
# and so many of them at once; each with the number of its traces.
Windows = Callable[[Sequence[int], Callable[[int, int], str], int], Iterator[Tuple[bytes, int]]]


class Kind(NamedTuple):
    """What the samples are: the type of the array, and whether they are floats."""

    dtype: str
    floats: bool


class Rows(NamedTuple):
    """What rows of answers say: the positions of their traces, how many samples each has, and the
    samples of all of them, one trace behind another.
    """

    traces: Any
    sizes: Any
    values: Any


class Samples(NamedTuple):
    """Samples of many traces: ``array`` has a row for each trace and a column for each number of a
    sample, ``traces`` the positions of the traces in the file (from 1), and ``samples`` the numbers
    of the columns (from 0).

    Where a trace is shorter than others the array is a masked one (``numpy.ma``).
    """

    array: Any
    traces: Any
    samples: Any

    @property
    def shape(self) -> Any:
        """The number of traces, and of columns.

        >>> with segywb.open("cube.sgy") as v:
        ...     v.samples_of(slice(1, 4), slice(0, 2)).shape
        (3, 2)
        """
        return self.array.shape


def lengths(engine: Engine, where: Sequence[int]) -> Any:
    """How many samples each of these traces has, by the answers to ``stat``."""
    sent = [f"stat {one}".encode() for one in where]
    found: List[int] = []
    with closing(engine.stream(batches(sent))) as told:
        for text in told:
            if b"refused" in text:
                raise first_refusal(text, sent[len(found) :])
            for answer in text.split(b"\n\n")[:-1]:
                words = answer.split(b" ")
                found.append(int(words[words.index(b"samples") + 1]) if b"samples" in words else 0)
    return arrays.numpy().array(found, dtype="i8")


def numbers_of(samples: Any) -> range:
    """The numbers of samples that a slice or a range means; all where none is given.

    >>> numbers_of(slice(0, 100, 8)), numbers_of(slice(3, None)), numbers_of(range(5, 5))
    (range(0, 100, 8), range(3, 4294967296), range(5, 5))
    """
    if samples is None:
        return range(MOST + 1)
    if not isinstance(samples, (slice, range)):
        raise TypeError(f"samples are a slice or a range, as slice(0, 100), not {samples!r}")
    bounds = (whole(one) for one in (samples.start, samples.stop, samples.step))
    first, end, step = (
        usual if one is None else one for one, usual in zip(bounds, (0, MOST + 1, 1))
    )
    if first < 0 or end < 0 or step < 1:
        raise ValueError(f"samples count from 0 and rise, which {samples!r} does not")
    return range(first, min(end, MOST + 1), step)


def words_of(samples: range) -> str:
    """The same as the words of a line.

    >>> words_of(range(0, 100, 8)), words_of(range(3, 3))
    ('0 96 8', '1 0')
    """
    if not len(samples):
        return "1 0"
    step = "" if samples.step == 1 else f" {min(samples.step, MOST)}"
    return f"{samples[0]} {samples[-1]}{step}"


def rows(text: bytes, kind: Kind) -> Rows:
    """The rows of answers, without the lines that count them.

    >>> [one.tolist() for one in rows(b"3 -7 8\\n4\\n5 9\\n", Kind("i8", False))]
    [[3, 4, 5], [2, 0, 1], [-7, 8, 9]]
    """
    np = arrays.numpy()
    letters = np.frombuffer(text, dtype="u1")
    blanks = np.searchsorted(np.flatnonzero(letters == 32), np.flatnonzero(letters == 10))
    sizes = np.diff(blanks, prepend=0)
    starts = np.cumsum(sizes + 1) - sizes - 1
    count = int(sizes.sum()) + len(sizes)
    ended = text + b"0"  # so that what is wrong with the last word is seen as well
    if kind.floats:
        numbers = arrays.floats(ended, count + 1)[:-1]
    else:
        numbers = arrays.parse(ended, count + 1, kind.dtype == "u8")[:-1]
    values = np.delete(numbers, starts)
    if kind.dtype == "f4":
        values = _narrowed(np, values, text, starts)
    return Rows(numbers[starts].astype(np.int64), sizes, values)


def _narrowed(np: Any, wide: Any, text: bytes, starts: Any) -> Any:
    """The float32 that each of these was printed for."""
    with np.errstate(over="ignore"):
        made = wide.astype(np.float32)
    unsure = np.flatnonzero(arrays.halfway(np, wide, made))
    if len(unsure):
        words = text.split()
        places = np.delete(np.arange(len(words)), starts)[unsure]
        for at, place in zip(unsure.tolist(), places.tolist()):
            made[at] = floating(words[place].decode("ascii"), True)
    return made


def rectangle(values: Any, sizes: Any, wide: int) -> Any:
    """The samples of traces that have so many each as the rows of one array, with 0 behind them.

    >>> import numpy as np
    >>> rectangle(np.array([7, 8, 9]), np.array([2, 0, 1]), 2).tolist()
    [[7, 8], [0, 0], [9, 0]]
    """
    np = arrays.numpy()
    if bool((sizes == wide).all()):
        return values.reshape(len(sizes), wide)
    made = np.zeros((len(sizes), wide), dtype=values.dtype)
    made[np.arange(wide) < sizes[:, None]] = values
    return made


def table(texts: Sequence[bytes], kind: Kind, samples: range) -> Samples:
    """The rows of answers as one array, with as many columns as the longest of them has samples;
    without numpy as lists, each as long as its trace has samples.
    """
    np = arrays.numpy()
    if np is None:
        return _plain(b"".join(texts), kind, samples)
    found = [rows(text, kind) for text in texts]
    types = Rows("i8", "i8", kind.dtype)
    traces, sizes, values = (
        np.concatenate([np.empty(0, dtype=one), *parts])
        for one, parts in zip(types, zip(*found) if found else ((), (), ()))
    )
    wide = int(sizes.max(initial=0))
    array = rectangle(values, sizes, wide)
    if not bool((sizes == wide).all()):
        array = np.ma.MaskedArray(array, mask=np.arange(wide) >= sizes[:, None])
    return Samples(array, traces, samples.start + samples.step * np.arange(wide))


def _plain(text: bytes, kind: Kind, samples: range) -> Samples:
    """The same as lists."""
    try:
        words = [line.decode("ascii").split(" ") for line in text.splitlines()]
        array: List[List[Any]] = [
            [floating(one, kind.dtype == "f4") if kind.floats else int(one) for one in some]
            for _, *some in words
        ]
        traces = [int(first) for first, *_ in words]
    except ValueError:
        raise unexpected(text[:200].decode("utf-8", "replace")) from None
    return Samples(array, traces, list(samples[: max(map(len, array), default=0)]))


class Reading:
    """The samples of many traces, read in pieces: ``samples`` has a row for each sample and a
    column for each trace, ``sizes`` tells how many samples each trace has (behind them stands 0),
    and ``there`` which rows are read. At first each ``coarse`` row is read, then those between.

    The traces are rising positions, each once.
    """

    def __init__(
        self, windows: Windows, where: Sequence[int], sizes: Any, kind: Kind, coarse: int = 1
    ) -> None:
        np = arrays.numpy()
        self.sizes = sizes
        self.samples = np.zeros((int(sizes.max(initial=0)), len(where)), dtype=kind.dtype)
        self.there = np.zeros(len(self.samples), dtype=bool)
        self._windows, self._where, self._kind, self._coarse = windows, where, kind, coarse
        rows_there = np.arange(len(self.samples))
        self._rows = np.concatenate([rows_there[::coarse], rows_there[rows_there % coarse > 0]])
        self._at = 0

    @property
    def done(self) -> bool:
        """Whether all of it is read."""
        return self._at == len(self._rows)

    def more(self, values: int) -> None:
        """Reads so many samples more."""
        count = max(1, values // max(len(self._where), 1))
        first = len(self.samples[:: self._coarse])
        stepping = self._at < first
        end = min(self._at + count, first if stepping else len(self._rows))
        some = self._rows[self._at : end]
        if len(some):
            self._read(range(some[0], some[-1] + 1, self._coarse if stepping else 1))
            self._at = end

    def rest(self) -> None:
        """Reads all that is left."""
        if not self.done:
            self._read(range(self._rows[self._at :].min(), len(self.samples)))
            self._at = len(self._rows)

    def _read(self, asked: range) -> None:
        """These samples of all the traces, of which some may be there already."""
        np = arrays.numpy()
        words, at = words_of(asked), 0
        wanted = np.clip(-(-(self.sizes - asked.start) // asked.step), 0, len(asked))
        most = max(1, BATCH_VALUES // len(asked))
        for text, count in self._windows(
            self._where, lambda first, last: f"samples {first} {last} {words}", most
        ):
            found = rows(rows_of(text, b"samples "), self._kind)
            some = slice(at, at + count)
            if found.sizes.tolist() != wanted[some].tolist():
                raise unexpected(text[:200].decode("utf-8", "replace"))
            made = rectangle(found.values, found.sizes, len(asked))
            self.samples[asked.start : asked.stop : asked.step, some] = made.T
            at += count
        self.there[asked.start : asked.stop : asked.step] = True
