"""What `stats` answers of many traces, as one array."""

from __future__ import annotations

from typing import Any, List, NamedTuple, Sequence

from . import arrays
from .answers import unexpected

# What a trace without samples lacks, and so does one of floats of which none is a number.
VALUES = ("least", "greatest", "sum")


class Kind(NamedTuple):
    """A column: its name, and the numpy type that holds its numbers."""

    name: str
    type: str


class Column(NamedTuple):
    """The numbers of a column, and where it has none."""

    numbers: Any
    lacks: List[bool]


def kinds(samples: str, floats: bool, wide: bool) -> List[Kind]:
    """The columns of files whose samples have this type; the sums of ``wide`` whole numbers are Python's.

    >>> [kind.type for kind in kinds("i8", False, False)], kinds("u8", False, True)[3]
    (['i8', 'i8', 'i8', 'i8', 'i8', 'i8'], Kind(name='sum', type='O'))
    """
    sums = "f8" if floats else "O" if wide else "i8"
    types = {"trace": "i8", "least": samples, "greatest": samples, "sum": sums, "zeros": "i8", "samples": "i8"}
    return [Kind(*one) for one in {**types, **({"nans": "i8"} if floats else {})}.items()]


def words_of(rows: bytes, names: Sequence[str]) -> List[List[bytes]]:
    """The words of the columns; ``none`` where a trace has no number.

    >>> words_of(b"1 least -3 sum 1 zeros 0\\n2 none\\n", ["trace", "least", "sum", "zeros"])
    [[b'1', b'2'], [b'-3', b'none'], [b'1', b'none'], [b'0', b'0']]
    """
    none = "".join(f" {name} {'none' if name in VALUES else 0}" for name in names[1:])
    words = rows.replace(b" none\n", none.encode() + b"\n").split()
    width = 2 * len(names) - 1
    told = [set(words[at::width]) for at in range(1, width, 2)]
    if len(words) % width or any(one - {name.encode()} for one, name in zip(told, names[1:])):
        raise unexpected(rows[:200].decode("utf-8", "replace"))
    return [words[at::width] for at in range(0, width, 2)]


def _column(words: List[bytes], kind: Kind) -> Column:
    lacks = [word == b"none" for word in words]
    data = b" ".join(words).replace(b"none", b"0")
    if kind.type == "O":
        return Column([int(word) for word in data.split()], lacks)
    if kind.type.startswith("f"):
        return Column(arrays.floats(data, len(words), kind.type == "f4"), lacks)
    return Column(arrays.parse(data, len(words), kind.type == "u8"), lacks)


def table(windows: Sequence[bytes], of: Sequence[Kind]) -> Any:
    """The rows of answers as one structured array, masked where a number lacks; without numpy as
    tuples."""
    np = arrays.numpy()
    parts = [[_column(*one) for one in zip(words_of(rows, [kind.name for kind in of]), of)] for rows in windows]
    if np is None:
        return [tuple(None if lacks else number for number, lacks in zip(row, none)) for part in parts
                for row, none in zip(zip(*(one.numbers for one in part)), zip(*(one.lacks for one in part)))]
    types = [tuple(kind) for kind in of]
    made = np.empty(sum(len(part[0].lacks) for part in parts), dtype=types)
    mask = np.zeros(len(made), dtype=np.ma.make_mask_descr(made.dtype))
    at = 0
    for part in parts:
        end = at + len(part[0].lacks)
        for kind, column in zip(of, part):
            made[kind.name][at:end], mask[kind.name][at:end] = column
        at = end
    return np.ma.MaskedArray(made, mask=mask) if any(mask[kind.name].any() for kind in of) else made
