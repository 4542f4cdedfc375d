"""Numbers from answers: with numpy as arrays, without it as lists."""

from __future__ import annotations

import importlib
import warnings
from typing import Any, List, Optional, Sequence, Tuple

from .answers import floating, unexpected


def numpy() -> Any:
    """The module numpy, or ``None``."""
    try:
        return importlib.import_module("numpy")
    except ImportError:
        return None


def pandas() -> Any:
    """The module pandas. Without it: an ``ImportError`` that says so."""
    try:
        return importlib.import_module("pandas")
    except ImportError:
        raise ImportError("a table (frame=True) needs pandas") from None


def parse(data: bytes, count: int, unsigned: bool = False) -> Any:
    """So many whole numbers between blanks and line feeds."""
    np = numpy()
    if np is None or not data.strip():
        found: Any = _plain(data)
    else:
        with warnings.catch_warnings():
            warnings.simplefilter("ignore", DeprecationWarning)
            try:
                found = np.fromstring(data, dtype=np.uint64 if unsigned else np.int64, sep=" ")
            except ValueError:
                found = []
    if len(found) != count:
        raise unexpected(data[:200].decode("utf-8", "replace"))
    return found if np is None or count else np.empty(0, dtype=np.uint64 if unsigned else np.int64)


def floats(data: bytes, count: int, narrow: bool = False, width: int = 1) -> Any:
    """So many rows of decimals between blanks and line feeds, each of ``width``: their last ones, as float64, or ``narrow`` as the float32 that each
    of them was printed for. With a ``width`` above 1 the columns in front of these too, of whole numbers below 2**53."""
    np = numpy()
    if np is None:
        found = _columns_of([word.decode("ascii", "replace") for word in data.split()], width, narrow)
    else:
        flat = decimals_of(np, data)
        found = [flat[at::width].astype(np.int64) for at in range(width - 1)] + [flat[width - 1::width]] if len(flat) == count * width else []
        if found and narrow:
            found[-1] = _narrowed(np, found[-1], data, width)
    if not found or any(len(one) != count for one in found):
        raise unexpected(data[:200].decode("utf-8", "replace"))
    return found if width > 1 else found[0]


def _columns_of(words: List[str], width: int, narrow: bool) -> List[List[Any]]:
    try:
        return [[*map(int, words[at::width])] for at in range(width - 1)] + [[floating(word, narrow) for word in words[width - 1::width]]]
    except ValueError:
        return []


def decimals_of(np: Any, data: bytes) -> Any:
    """The decimals up to a word that is none."""
    if not data.strip():
        return np.empty(0)
    with warnings.catch_warnings():
        warnings.simplefilter("ignore", DeprecationWarning)
        try:
            return np.fromstring(data, dtype=np.float64, sep=" ")
        except ValueError:
            return np.empty(0)


def _narrowed(np: Any, wide: Any, data: bytes, width: int) -> Any:
    with np.errstate(over="ignore"):
        made = wide.astype(np.float32)
    unsure = np.flatnonzero(halfway(np, wide, made)).tolist()
    if unsure:
        words = data.split()
        for at in unsure:
            made[at] = floating(words[at * width + width - 1].decode("ascii"), True)
    return made


def halfway(np: Any, wide: Any, narrow: Any) -> Any:
    """Where a value of 8 bytes lies halfway between two of 4 bytes: it may have been rounded to there."""
    with np.errstate(all="ignore"):
        exact = narrow.astype(np.float64)
        beside = [(exact + np.nextafter(narrow, np.float32(to)).astype(np.float64)) / 2 == wide for to in (-np.inf, np.inf)]
        return (wide != exact) & (beside[0] | beside[1]) & np.isfinite(wide)


def _plain(data: bytes) -> List[int]:
    try:
        return [int(word) for word in data.split()]
    except ValueError:
        return []


def scaled(columns: Sequence[Any]) -> List[Any]:
    """The columns but the last, which is the scalar: the last two of them under it. A positive one multiplies, a negative one divides."""
    *others, x, y, scalar = columns
    np = numpy()
    if np is None:
        return [*others, *([_under(one, by) for one, by in zip(column, scalar)] for column in (x, y))]
    by = np.asarray(scalar, dtype=np.float64)
    times, over = np.where(by > 0, by, 1.0), np.where(by < 0, -by, 1.0)
    return [*others, *(np.asarray(column, dtype=np.float64) * times / over for column in (x, y))]


def _under(number: int, scalar: int) -> float:
    return number / -scalar if scalar < 0 else float(number * (scalar or 1))


def type_of(kind: Optional[Tuple[int, bool]]) -> str:
    """The numpy type that holds the numbers of a place."""
    if kind is None:
        return "i8"
    size, unsigned = kind
    return ("u" if unsigned else "i") + str(4 if size == 3 else size)


def table(names: Sequence[str], types: Sequence[str], columns: Sequence[Any]) -> Any:
    """Columns as one structured array, or as a list of tuples."""
    np = numpy()
    if np is None:
        return list(zip(*columns))
    made = np.empty(len(columns[0]) if columns else 0, dtype=list(zip(names, types)))
    for name, column in zip(names, columns):
        made[name] = column
    return made
