"""The answer to ``faults`` as the page wants it: counted by code, and a window of the faults of one code."""

from __future__ import annotations

from typing import Any, Dict, List, Optional, Tuple

from ..answers import MEANINGS, faults
from ..volume import Volume


def counts(answer: bytes) -> Dict[str, int]:
    """How many faults there are of each code.

    >>> counts(b"faults 2\\nF8 lines 1\\nF4 trace 1 scalar 7")
    {'F4': 1, 'F8': 1}
    """
    found = {code: answer.count(b"\n" + code.encode() + b" ") for code in MEANINGS}
    return {code: count for code, count in found.items() if count}


def window(answer: bytes, code: str, skip: int, size: int) -> List[Dict[str, Any]]:
    """Some faults of a code.

    >>> window(b"faults 2\\nF8 lines 1\\nF4 trace 1 scalar 7", "F4", 0, 5)
    [{'text': 'F4 trace 1 scalar 7', 'trace': 1, 'first': None}]
    """
    mark, at = b"\n" + code.encode() + b" ", -1
    for _ in range(skip):
        at = answer.find(mark, at + 1)
        if at < 0:
            return []
    found: List[str] = []
    while len(found) < size:
        at = answer.find(mark, at + 1)
        if at < 0:
            break
        end = answer.find(b"\n", at + 1)
        found.append(answer[at + 1:end if end >= 0 else len(answer)].decode())
    return [{"text": one.text, "trace": one.trace, "first": one.first} for one in faults([f"faults {len(found)}", *found])]


class Kept:
    """The answer of one version, kept while its windows are asked."""

    def __init__(self) -> None:
        self._of: Optional[Tuple[int, bytes]] = None

    def answer(self, volume: Volume, version: int) -> bytes:
        """The answer of this version."""
        if self._of is None or self._of[0] != version:
            self._of = (version, volume.fault_text())
        return self._of[1]
