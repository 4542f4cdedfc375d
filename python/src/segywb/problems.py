"""What `problems` answers: what is wrong or doubtful with a file, in groups."""

from __future__ import annotations

from typing import Any, Dict, List, NamedTuple, Optional

from .answers import MEANINGS, floating, strict, unexpected, words


class ProblemRun(NamedTuple):
    """The traces ``first`` to ``last``, one after another, that have a problem with the same facts;
    of S7 and S8 the first and the last line of a gap that is missing; of S10 and S11 two traces,
    whose cells have positions that jump, or the same.

    The facts are numbers by their words, as ``{"scalar": 100, "usual": -100}``: whole ones, but for
    the ``value`` of S12 and the ``amount`` of S13 in a file of floats, which are floats."""

    first: int
    last: int
    facts: Dict[str, Any]


class Problem(NamedTuple):
    """A problem of a file: its code, how many traces have it (``None`` where it is not of traces:
    F7, F8, S7 to S11), in how many runs they stand, the first ten of these, the other numbers of
    its line, the whole text, and ``of``, how many traces the file has.

    The runs of S7 and S8 are gaps, of inlines or crosslines that are missing, and those of S10 and
    S11 pairs of cells."""

    code: str
    traces: Optional[int]
    runs: int
    first_runs: List[ProblemRun]
    facts: Dict[str, int]
    text: str
    of: Optional[int] = None

    @property
    def meaning(self) -> str:
        """What the code means, in words.

        >>> with segywb.open("missing.sgy") as v:
        ...     [(one.code, one.meaning) for one in v.problems()]
        [('F1', 'number in the file (bytes 5-8) is not the position')]
        """
        return MEANINGS.get(self.code, self.code)

    @property
    def mend(self) -> Optional[str]:
        """The line of a script that mends it, where one line does, else ``None``.

        It is for you to say whether it is meant: the number that most traces have may be the wrong
        one. No line is named where that is the number of less than half of the traces, and none for
        F1 where the traces may stand in another order than they were numbered in. That of S12 marks
        the dead traces (trace identification code 2), and they are told all the same; of floats it
        also marks a trace that has one number alone beside samples that are none, which is not told.

        >>> with segywb.open("missing.sgy") as v:
        ...     v.problems()[0].mend
        'renumber all sequence_file 1 1'
        """
        if self.code == "F1":
            return None if self._shuffled() else "renumber all sequence_file 1 1"
        if self.code == "F7":
            return f"bin trace_count {self.facts['traces']}"
        if self.code in _USUAL and self.first_runs and not self.most:
            name, usual = _USUAL[self.code], self.first_runs[0].facts["usual"]
            return f"set all {name} {usual} where {name} != {usual}"
        return f"set all trace_code 2 where {DEAD}" if self.code == "S12" else None

    @property
    def most(self) -> bool:
        """Whether more than half of the traces have it: then the others may be the odd ones.

        >>> with segywb.open("wrong_count.sgy") as v:
        ...     v.problems()[0].most
        True
        """
        return self.traces is not None and self.of is not None and 2 * self.traces > self.of

    def _shuffled(self) -> bool:
        """Whether the numbers in the file (F1) fall somewhere and none stands twice, as far as the
        first runs tell; numbers below 1 tell nothing."""
        spans = []
        place = 1
        for first, last, facts in self.first_runs:
            least, greatest = first + facts["shift"], last + facts["shift"]
            spans += [(place, first - 1)] if place < first else []
            spans += [(least, greatest)] if least > 0 else []
            place = last + 1
        falls = any(one[1] > two[0] for one, two in zip(spans, spans[1:]))
        rising = sorted(spans)
        return falls and all(one[1] < two[0] for one, two in zip(rising, rising[1:]))

    @property
    def how_many(self) -> int:
        """How many have it: traces, or lines of the textual header (F8), lines of the survey that
        are missing (S7, S8), cells of another fold (S9), pairs of cells that jump (S10) or cells that
        share a position (S11); 1 for the binary header (F7).

        >>> with segywb.open("missing.sgy") as v:
        ...     v.problems()[0].how_many
        5
        """
        if self.traces is not None:
            return self.traces
        if self.code == "S9":
            return self.facts["less"] + self.facts["more"]
        if self.code in _COUNTED:
            return self.runs
        return self.facts.get("lines", self.facts.get("missing", 1))


# the facts that tell of samples
_SAMPLES = ("value", "amount")
# each dead trace meets these, and of floats one that has a number alone beside samples that are none
DEAD = "sample_least = sample_greatest and sample_count > 1"
# the codes that one number mends, that of most traces, and the field that it is written to
_USUAL = {"S3": "scalar", "S4": "delay"}
# the words behind the code: those of a problem without runs stand here, and those of S7 and S8
_PLAIN = {
    "F7": ["count", "traces"],
    "F8": ["lines"],
    "S1": ["traces", "inline", "crossline"],
    "S7": ["missing", "runs"],
    "S8": ["missing", "runs"],
    "S9": ["cells", "usual", "less", "more", "least", "greatest"],
    "S10": ["pairs", "jumps"],
    "S11": ["cells"],
}
# the word of the number that says how many lines there are, where that is not `runs`
_COUNTED = {"S10": "jumps", "S11": "cells"}


def _numbers(got: List[str]) -> Dict[str, int]:
    """
    >>> _numbers(["scalar", "7", "usual", "-100"])
    {'scalar': 7, 'usual': -100}
    """
    if len(got) % 2:
        raise unexpected(" ".join(got))
    return {word: int(number) for word, number in zip(got[0::2], got[1::2])}


def _run(line: str, samples: str = "i8", begins: str = "run") -> ProblemRun:
    """
    >>> _run("run 2 3 before 1"), _run("run 5 6 value -2.5", "f8")
    (ProblemRun(first=2, last=3, facts={'before': 1}), ProblemRun(first=5, last=6, facts={'value': -2.5}))
    """
    first, last, *facts = words(line, begins)
    if samples.startswith("f") and facts and facts[0] in _SAMPLES:
        word, value = facts
        return ProblemRun(int(first), int(last), {word: floating(value, samples == "f4")})
    return ProblemRun(int(first), int(last), _numbers(facts))


def _problem(lines: List[str], of: Optional[int] = None, samples: str = "i8") -> Problem:
    """
    >>> _problem(["problem S7 missing 3 runs 1", "run 103 107 step 2"]).first_runs[0].facts
    {'step': 2}
    >>> jumps = _problem(["problem S10 pairs 9 jumps 1", "jump 2 3"])
    >>> jumps.how_many, jumps.first_runs, jumps.facts
    (1, [ProblemRun(first=2, last=3, facts={})], {'pairs': 9, 'jumps': 1})
    """
    code, *got = words(lines[0], "problem")
    facts = _numbers(got)
    if list(facts) != _PLAIN.get(code, ["traces", "runs"]):
        raise unexpected(lines[0])
    runs = facts[_COUNTED[code]] if code in _COUNTED else facts.pop("runs", 0)
    traces = None if code == "F7" else facts.pop("traces", None)
    begins = "jump" if code == "S10" else "run"
    told = [_run(line, samples, begins) for line in lines[1:]]
    if len(told) != min(runs, 10):
        raise unexpected(lines[0])
    return Problem(code, traces, runs, told, facts, "\n".join(lines), of)


@strict
def problems(lines: List[str], of: Optional[int] = None, samples: str = "i8") -> List[Problem]:
    """Of a file of so many traces, where that is known, whose samples have this numpy type.

    >>> told = ["problem F8 lines 3", "problem S12 traces 2 runs 1", "run 5 6 value 0"]
    >>> [(one.code, one.traces, one.facts) for one in problems(["problems 2", *told])]
    [('F8', None, {'lines': 3}), ('S12', 2, {})]
    >>> problems(["problems 1", "problem S13 traces 1 runs 1", "run 5 5 amount 0.1"], 9, "f4")[0].first_runs[0].facts
    {'amount': 0.10000000149011612}
    """
    groups: List[List[str]] = []
    for line in lines[1:]:
        if line.startswith("problem "):
            groups.append([])
        groups[-1].append(line)
    if words(lines[0], "problems") != [str(len(groups))]:
        raise unexpected(lines[0])
    return [_problem(group, of, samples) for group in groups]
