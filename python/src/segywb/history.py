"""The accepted edits, as steps that are taken back and done again."""

from __future__ import annotations

from typing import List, NamedTuple, Sequence

from .lines import decode


class Step(NamedTuple):
    """Lines that were accepted as one, as they are sent, and their number."""

    sent: bytes
    size: int

    @property
    def lines(self) -> List[str]:
        """The lines, one text each.

        >>> with segywb.open("cube.sgy") as v:
        ...     v.set_many("inline", slice(1, 3), 7)
        ...     v.steps[0].lines
        ['set 1 inline 7', 'set 2 inline 7']
        """
        return decode(self.sent).split("\n")[:-1]

    @property
    def first(self) -> str:
        """Its first line.

        >>> with segywb.open("cube.sgy") as v:
        ...     v.set_many("inline", slice(1, 4), 7)
        ...     v.steps[0].first
        'set 1 inline 7'
        """
        return decode(self.sent.partition(b"\n")[0])

    @property
    def last(self) -> str:
        """Its last line.

        >>> step = Step(b"set 1 inline 7\\nset 2 inline 8\\n", 2)
        >>> step.first, step.last
        ('set 1 inline 7', 'set 2 inline 8')
        """
        return decode(self.sent[:-1].rpartition(b"\n")[2])


class History:
    """Steps that were done, and those that were taken back."""

    def __init__(self, done: Sequence[Step] = (), undone: Sequence[Step] = ()) -> None:
        self.done = list(done)
        self.undone = list(undone)

    def add(self, step: Step) -> None:
        """A new step: what was taken back before can no longer be done again."""
        self.done.append(step)
        self.undone.clear()

    @property
    def lines(self) -> List[str]:
        """All accepted lines, in order."""
        return [line for step in self.done for line in step.lines]

    def sent(self) -> Step:
        """All steps as one."""
        return Step(b"".join(step.sent for step in self.done), sum(step.size for step in self.done))

    def without(self, steps: int) -> "History":
        """The history with the last steps taken back."""
        kept = len(self.done) - steps
        return History(self.done[:kept], self.undone + self.done[kept:][::-1])

    def names(self) -> "History":
        """The lines that bind names, alone."""
        kept = [line for line in self.lines if line.split()[:1] in (["map"], ["unmap"])]
        return History([Step((line + "\n").encode("utf-8", "surrogateescape"), 1) for line in kept])
