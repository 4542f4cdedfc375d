"""Lines of the script language, made from the arguments of a call."""

from __future__ import annotations

import numbers as kinds
import operator
import os
import re
from typing import Any, Iterable, List, Optional, Union

from .fields import BinField, TraceField, binary_place, trace_place

Field = Union[str, int]
Path = Union[str, "os.PathLike[str]"]
LONGEST = 16777216
_MOVING = re.compile(rb"^[ \t]*((?:blank|copy|delete|move|resize|sort)[ \t][^\r\n]*)", re.M)
_DROPPING = re.compile(rb"^[ \t]*drop[ \t]", re.M)
_SIGNS = ("=", "!=", "<", "<=", ">", ">=")
_SIGN = re.compile(r"[ \t]*([=!<>]+)[ \t]*")


def number(value: Any) -> str:
    """A whole number as a word. A float is refused, also one without a fraction."""
    try:
        return str(operator.index(value))
    except TypeError:
        raise TypeError(f"a whole number is wanted, not {value!r}") from None


def position(trace: Any) -> str:
    """The position of a trace as a word. A truth value is no position, though Python takes it for a number."""
    if truth(type(trace)):
        raise TypeError(f"the position of a trace is wanted, not {trace!r}")
    return number(trace)


def truth(kind: type) -> bool:
    """Whether the values of a type are truth values: those of Python, and those of numpy."""
    return issubclass(kind, bool) or (kind.__module__ == "numpy" and kind.__name__ in ("bool", "bool_"))


def word(text: str) -> str:
    """A text that becomes a part of a line: it must not end the line."""
    if "\n" in text:
        raise ValueError("an argument must not hold a line feed")
    if text.endswith("\r"):
        raise ValueError("an argument must not end with a carriage return: the program drops it")
    return text


def between(first: Optional[int], last: Optional[int]) -> str:
    """The traces from the one to the other as words: from the first of the file, or to its last,
    where that end is not named.

    >>> between(5, 8), between(5, None), between(None, 8), between(None, None)
    ('5 8', '5 last', '1 8', 'all')
    """
    if first is None and last is None:
        return "all"
    return f"{'1' if first is None else position(first)} {'last' if last is None else position(last)}"


def choosing(where: Optional[str]) -> List[str]:
    """The words that choose traces, behind all others of a line: none without conditions. What
    conditions are the program says; a text that is none of a line is refused here, and so is one
    whose signs are no words of their own, with what is meant: no field has a sign in its name.

    >>> choosing("inline = 102 and crossline > 202"), choosing(None)
    (['where inline = 102 and crossline > 202'], [])
    >>> choosing("inline=102")
    Traceback (most recent call last):
    ...
    ValueError: a sign of conditions stands between blanks, and is one of = != < <= > >=: 'inline = 102', not 'inline=102'
    """
    if where is None:
        return []
    if not isinstance(where, str):
        raise TypeError(f"conditions are a text, as 'inline = 102', not {where!r}")
    if not where.strip():
        raise ValueError("conditions are wanted, as 'inline = 102', and this text is empty")
    if any(_SIGN.search(one) and one not in _SIGNS for one in word(where).split()):
        raise ValueError(f"a sign of conditions stands between blanks, and is one of {' '.join(_SIGNS)}: {_spaced(where)}not {where!r}")
    return ["where " + where]


def _spaced(where: str) -> str:
    """What may be meant by conditions whose signs are none, or stand without blanks.

    >>> _spaced("inline==102 and x>=3"), _spaced("x <> 3")
    ("'inline = 102 and x >= 3', ", '')
    """
    spaced = _SIGN.sub(lambda found: f" {found[1].replace('==', '=')} ", where).strip()
    return f"{spaced!r}, " if all(sign in _SIGNS for sign in _SIGN.findall(spaced)) else ""


def field(name: Field) -> str:
    """The word for a field of a trace header: a name, a place, a ``TraceField`` or the number of its first byte."""
    return word(name) if isinstance(name, str) else trace_place(TraceField(operator.index(name)))


def key(name: Field) -> str:
    """The word for a field of a sort, whose numbers fall where it is negative: ``"-offset"``, ``-TraceField.offset``, ``-37``."""
    if isinstance(name, str):
        return word(name)
    byte = operator.index(name)
    return "-" + field(-byte) if byte < 0 else field(byte)


def term(part: Field) -> str:
    """A part of a computation: a text as it stands (a field, a sign, or all of ``cdp / 1000``), a ``TraceField``, or a whole number."""
    if isinstance(part, str):
        return word(part)
    return trace_place(part) if isinstance(part, TraceField) else number(part)


def binary_field(name: Field) -> str:
    """The word for a field of the binary header: a name, a place, a ``BinField`` or the number of its first byte."""
    return word(name) if isinstance(name, str) else binary_place(BinField(operator.index(name)))


def single(value: Any) -> bool:
    """Whether this is one number, and no list of them."""
    return isinstance(value, kinds.Real) or getattr(value, "ndim", None) == 0


def listed(values: Any) -> List[Any]:
    """The items of a list, an array or a column of a table. Whole numbers of an array are Python's then."""
    array = getattr(values, "to_numpy", None)
    values = array() if callable(array) else values
    plain = getattr(getattr(values, "dtype", None), "kind", "") in tuple("iu") and not hasattr(values, "mask")
    return list(values.tolist() if plain else values)


def numbers(values: Any) -> List[int]:
    """Whole numbers from a list, an array or a column of a table."""
    values = listed(values)
    try:
        return list(map(operator.index, values))
    except TypeError:
        return [int(number(value)) for value in values]  # which tells the one that is none


def decimals(values: Any) -> List[str]:
    """Floats and whole numbers from a list, an array or a column of a table, each as a word that says its value exactly.

    >>> decimals([0.1, 2, float("-inf"), float("nan")])
    ['0.1', '2', '-inf', 'nan']
    """
    return [decimal(value) for value in listed(values)]


def decimal(value: Any) -> str:
    """A number as a word: a float, a whole number, or one of numpy's. A text is refused, also one that writes a number."""
    value = value.item() if getattr(value, "ndim", None) == 0 and not hasattr(value, "mask") else value
    if isinstance(value, kinds.Integral):
        return str(operator.index(value))
    if not isinstance(value, kinds.Real):
        raise TypeError(f"a number is wanted, not {value!r}")
    return repr(float(value))


def encode(line: str) -> bytes:
    """The bytes of a line: UTF-8; bytes that were none come back as they were (surrogateescape)."""
    return line.encode("utf-8", "surrogateescape")


def decode(answer: bytes) -> str:
    """The text of an answer or of a line."""
    return answer.decode("utf-8", "surrogateescape")


def payload(lines: Iterable[bytes]) -> bytes:
    """Lines as they are sent."""
    return b"".join(line + b"\n" for line in lines)


def silent(line: bytes) -> bool:
    """Whether the line gets no answer: it has no words, or is a comment. Of one that is not UTF-8 or too long the program says so."""
    if len(line) > LONGEST:
        return False
    try:
        line.decode("utf-8")
    except UnicodeDecodeError:
        return False
    if line.endswith(b"\r"):
        line = line[:-1]
    start = line.lstrip(b" \t")
    return not start or start.startswith(b"#")


def of_script(script: Any) -> List[bytes]:
    """The lines of a script: a text, bytes, or lines of either."""
    if isinstance(script, str):
        script = encode(script)
    if isinstance(script, (bytes, bytearray)):
        lines = bytes(script).split(b"\n")
        if lines[-1] == b"":
            lines.pop()
        return lines
    lines = [encode(line) if isinstance(line, str) else bytes(line) for line in script]
    for line in lines:
        if b"\n" in line:
            raise ValueError("a line of a script must not hold a line feed")
    return lines


def moving(script: bytes) -> Optional[bytes]:
    """The first line that moves, adds, takes away or resizes traces, or ``None``.

    >>> moving(b"set 1 inline 7\\ndelete 5\\n"), moving(b"map move @17:4\\nset 1 move 7\\n")
    (b'delete 5', None)
    """
    found = _MOVING.search(script)
    return found[1] if found else None


def dropping(script: bytes) -> bool:
    """Whether a line takes the bytes of no trace away, where there are any.

    >>> dropping(b"set 1 inline 7\\n drop tail\\n"), dropping(b"map drop @17:4\\nset 1 drop 7\\n")
    (True, False)
    """
    return bool(_DROPPING.search(script))
