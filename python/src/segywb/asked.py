"""One line to the program, and its answer: what the parts of a ``Volume`` stand on."""

from __future__ import annotations

from typing import List, Optional

from . import answers
from .answers import Info
from .engine import Engine
from .lines import choosing, encode

# The sample formats of floats, and of these the one of 4 bytes as IEEE 754 has them: its values are printed so that no other of 4 bytes is meant.
FLOATS = (1, 5, 6)
NARROW = 5


class Asked:
    """A part of ``Volume``: what it asks and edits by."""

    _engine: Engine
    _asked_floats: bool
    _table: Optional[bool]
    _format: Optional[int]

    def _ask(self, *words: str) -> List[str]:
        return self._engine.ask(encode(" ".join(words)))

    def _one(self, *words: str) -> str:
        told = self._ask(*words)
        if len(told) != 1:
            raise answers.unexpected(told[0])
        return told[0]

    def _value(self, *words: str) -> int:
        return answers.number(self._one(*words), "value")

    def __len__(self) -> int:
        return answers.number(self._one("count"), "traces")

    def __bool__(self) -> bool:
        return True

    @property
    def info(self) -> Info:
        """What the file is.

        >>> with segywb.open("cube.sgy") as v:
        ...     v.info.format, v.info.samples, v.info.traces
        (3, 5, 12)
        """
        return answers.info(self._one("info"))

    def _edit(self, *words: str, where: Optional[str] = None) -> Optional[int]:
        """One edit. With ``where``: of how many traces it was."""
        told = self._engine.edit(encode(" ".join([*words, *choosing(where)])))
        return None if where is None else told
