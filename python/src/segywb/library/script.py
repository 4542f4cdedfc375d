"""The script of a mend: its lines, and what takes them back."""

from __future__ import annotations

import hashlib
from typing import List, NamedTuple, Optional, Tuple

from ..lines import moving, silent

MOST_BYTES = 16777216
MOST_REVERSE = 1 << 20
# Lines that change nothing of a file, and lines that set a number, with the word that asks for it.
_ASKING = frozenset(
    "get getbin table find header extremes fields line lines code stanzas sample samples count info geometry stat stats totals range fold grid inlines "
    "crosslines histogram slice survey faults problems".split()
)
_SETTING = {b"set": b"get", b"bin": b"getbin"}


class Script(NamedTuple):
    """A script: its bytes, its lines, and its digest."""

    data: bytes
    lines: List[bytes]
    sha256: str


def of(data: bytes) -> Script:
    """A script of these bytes."""
    lines = data.split(b"\n")
    if lines[-1] == b"":
        lines.pop()
    return Script(data, lines, hashlib.sha256(data).hexdigest())


def all_sets(script: Script) -> bool:
    """Whether each edit of it sets a number, so that the numbers of before take it back.

    >>> all_sets(of(b"set 5 inline 102\\nbin job 7\\n")), all_sets(of(b"set all inline 102\\n"))
    (True, False)
    """
    return len(script.data) <= MOST_REVERSE and all(_sets_one(line) or _asks(line) for line in script.lines if not silent(line))


def _sets_one(line: bytes) -> bool:
    """Whether it sets a single number. Those of many traces, also of chosen ones, would be as many
    answers and lines as there are traces: their old bytes are kept, or else they are not taken back.
    """
    words = line.split()
    return _word(line) in _SETTING and len(words) == {b"set": 4, b"bin": 3}[words[0]] and words[1] != b"all"


def saves(script: Script) -> bool:
    """Whether a line of it would save: a word of sessions, which no script has.

    >>> saves(of(b"set 5 inline 102\\n save\\n")), saves(of(b"# save\\n"))
    (True, False)
    """
    return any(_word(line) == b"save" for line in script.lines if not silent(line))


def stays(script: Script) -> bool:
    """Whether no line of it moves, adds, takes away or resizes traces, so that a file can be repaired in place by it.

    >>> stays(of(b"set 5 inline 102\\n")), stays(of(b"# why\\ndelete 5\\n"))
    (True, False)
    >>> stays(of(b"set all delay 0 where delay = 7\\n")), stays(of(b"delete all where delay = 7\\n"))
    (True, False)
    """
    return moving(script.data) is None


def _word(line: bytes) -> bytes:
    return (line.split() or [b""])[0]


def _asks(line: bytes) -> bool:
    return _word(line).decode("ascii", "replace") in _ASKING


def questions(script: Script) -> List[Optional[bytes]]:
    """For each line of it that sets a number the line that asks for it, else nothing.

    >>> questions(of(b"set 5 inline 102\\n# why\\nbin job 7\\n"))
    [b'get 5 inline', None, b'getbin job']
    """
    asked: List[Optional[bytes]] = []
    for line in script.lines:
        words = line.split()
        ask = _SETTING.get(words[0]) if words else None
        asked.append(b" ".join([ask, *words[1:-1]]) if ask else None)
    return asked


def reverse(script: Script, before: List[Tuple[int, bytes]]) -> bytes:
    """The script that takes the sets back: the last first, each with the number of before, by the number of its line.

    >>> reverse(of(b"set 5 inline 102\\nset 5 inline 103\\n"), [(0, b"101"), (1, b"102")])
    b'set 5 inline 102\\nset 5 inline 101\\n'
    """
    made = [b" ".join([*script.lines[at].split()[:-1], number]) + b"\n" for at, number in before]
    return b"".join(reversed(made))
