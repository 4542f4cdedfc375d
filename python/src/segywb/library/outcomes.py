"""What becomes of the files of a mend, and how it is told."""

from __future__ import annotations

from typing import Dict, Iterable, List, NamedTuple, Optional, Sequence, Tuple

from .change import Change
from .names import shown

SHOWN_ANSWERS = 20
SHOWN_CHARACTERS = 60
# The events of the trail, and `done`: the same script has done it in an earlier run.
EVENTS = ("saved", "refused", "same", "left", "failed", "done")
TROUBLES = ("refused", "left", "failed")
DONE_ALREADY = "has done it already"


class Outcome(NamedTuple):
    """What became of a file, or would become of it: an event, and why."""

    path: str
    event: str
    why: str
    change: Optional[Change] = None
    in_place: bool = False

    def told(self, done: bool, script: Sequence[bytes]) -> str:
        """It in a line, with the answers below it; refused ones with their line, however late."""
        lines = [f"{shown(self.path)}: {self._said(done)}"]
        answers = self.change.answers if self.change is not None else []
        flat = [(number, line) for number, text in answers for line in text.split("\n")]
        lines += [f"    {_answer(one, script)}" for one in flat[:SHOWN_ANSWERS]]
        rest = flat[SHOWN_ANSWERS:]
        late = [one for one in rest if is_refusal(one[1])][:SHOWN_ANSWERS]
        if len(rest) > len(late):
            lines.append(f"    .. and {len(rest) - len(late):,} lines more")
        return "\n".join(lines + [f"    {_answer(one, script)}" for one in late])

    def _said(self, done: bool) -> str:
        if self.event == "saved" and self.change is not None:
            longer, size = self.change.longer, ""
            if longer:
                which = "longer" if longer > 0 else "shorter"
                verb = "is" if done else "would be"
                size = f", and the file {verb} {abs(longer):,} bytes {which}"
            said = f"{self.change.differing:,} bytes {'changed' if done else 'would change'}"
            return f"{said}{', in place' if self.in_place else ''}{size}"
        words = {
            "refused": "refused, it stays as it is", "same": "nothing to change", "done": self.why
        }
        return words.get(self.event, f"{self.event}: {self.why}")


def is_refusal(answer: str) -> bool:
    """Whether an answer is the refusal of a line, or of a file."""
    return answer.startswith(("refused ", "load refused "))


def _answer(one: Tuple[int, str], script: Sequence[bytes]) -> str:
    number, text = one
    return f"{place(number, script)}: {shown(text)}" if number and is_refusal(text) else shown(text)


def place(number: int, script: Sequence[bytes]) -> str:
    """Where a line of a script stands, by its number from 1.

    >>> place(2, [b"# why", b"set 99 inline 7"])
    'line 2, set 99 inline 7'
    """
    line = script[number - 1].decode("utf-8", "replace").strip()
    more = " .." if len(line) > SHOWN_CHARACTERS else ""
    return f"line {number}, {shown(line[:SHOWN_CHARACTERS])}{more}"


def counted(outcomes: Iterable[Outcome]) -> Dict[str, List[int]]:
    """How many files of each event, and how many of their bytes differ."""
    counts: Dict[str, List[int]] = {event: [0, 0] for event in EVENTS}
    for one in outcomes:
        counts[one.event][0] += 1
        if one.change is not None and one.event == "saved":
            counts[one.event][1] += one.change.bytes
    return counts


def summary(counts: Dict[str, List[int]], done: bool) -> str:
    """The counts in a line."""
    files, differing = counts["saved"]
    many = sum(count for count, _ in counts.values())
    before = f", {counts['done'][0]:,} done before" if counts["done"][0] else ""
    verb = "were mended" if done else "would be mended"
    return (
        f"{many:,} files: {files:,} {verb} ({differing:,} bytes), "
        f"{counts['refused'][0]:,} refused, {counts['same'][0]:,} with nothing to change, "
        f"{counts['left'][0]:,} left, {counts['failed'][0]:,} failed{before}"
    )
