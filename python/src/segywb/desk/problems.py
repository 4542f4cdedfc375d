"""The answer to ``problems`` as the page wants it: where each is, and a line that may mend it."""

from __future__ import annotations

from decimal import Decimal
from typing import Any, Dict, List, Optional, Tuple

from ..problems import DEAD, Problem, ProblemRun
from ..volume import Volume

# how the line begins that is finished by hand, of the first run and of the file
_BEGINS = {"F4": "scalar", "S5": "inline", "S6": "crossline"}
_NOUNS = {"S7": "inline", "S8": "crossline"}
# the greatest number of samples that bytes 115-116 tell
_MOST_SAMPLES = 65535
# of a longer run (F6) about so many traces are compared with the earlier ones
_MOST_COMPARED = 500
_LONGEST = 100_000  # traces of a run whose numbers are looked at
# the field whose number a fact of a run tells, and the fact that says what belongs there
_TOLD = {
    "F2": ("samples", "field", "samples"), "F3": ("interval", "interval", "binary"), "F4": ("scalar", "scalar", None),
    "F5": ("coordinate_units", "units", "first"), "S3": ("scalar", "scalar", "usual"), "S4": ("delay", "delay", "usual"),
    "S5": ("inline", "inline", None), "S6": ("crossline", "crossline", None),
}


def _span(first: int, last: int) -> str:
    """
    >>> _span(5, 5), _span(5, 8)
    ('5', '5 8')
    """
    return str(first) if first == last else f"{first} {last}"


def _only(one: Problem, fact: str) -> Optional[int]:
    """The number that all runs have, where all are told and have the same.

    >>> runs = [ProblemRun(1, 2, {"units": 2}), ProblemRun(5, 5, {"units": 2})]
    >>> _only(Problem("F5", 3, 2, runs, {}, ""), "units")
    2
    """
    numbers = {run.facts[fact] for run in one.first_runs}
    return numbers.pop() if len(numbers) == 1 and one.runs == len(one.first_runs) else None


def _samples(one: Problem, fixed: bool) -> str:
    """F2: of a fixed file for all traces, else for the first run, since others have other lengths."""
    run = one.first_runs[0]
    told = run.facts["samples"] if run.facts["samples"] <= _MOST_SAMPLES else 0
    if fixed:
        unlike = f"samples != {told} and samples != 0" if told else "samples != 0"
        return f"set all samples {told} where {unlike}"
    return f"set {_span(run.first, run.last)} samples {told}"


def _interval(one: Problem) -> Optional[str]:
    """F3: the binary header is wrong where it tells no interval, or another than most traces.

    >>> runs = [ProblemRun(1, 12, {"interval": 4000, "binary": 2000})]
    >>> _interval(Problem("F3", 12, 1, runs, {}, "", 12)), _interval(Problem("F3", 12, 1, runs, {}, "", 40))
    ('bin interval 4000', 'set all interval 2000 where interval != 2000 and interval != 0')
    """
    binary = one.first_runs[0].facts["binary"]
    if binary and not one.most:
        return f"set all interval {binary} where interval != {binary} and interval != 0"
    told = _only(one, "interval")
    return None if told is None else f"bin interval {told}"


def _units(one: Problem) -> Optional[str]:
    """F5: trace 1 is wrong where most traces have others.

    >>> runs = [ProblemRun(2, 12, {"units": 1, "first": 0})]
    >>> _units(Problem("F5", 11, 1, runs, {}, "", 12))
    'set all coordinate_units 1 where coordinate_units = 0'
    """
    first = one.first_runs[0].facts["first"]
    if not one.most:
        return f"set all coordinate_units {first} where coordinate_units != {first}"
    told = _only(one, "units")
    return None if told is None else f"set all coordinate_units {told} where coordinate_units = {first}"


def _stands_twice(run: ProblemRun, volume: Volume) -> bool:
    """Whether the traces of a run (F6) have the positions and the samples of the earlier ones; of a
    long run every second, or third, .., and its last."""
    step = 1 + (run.last - run.first) // _MOST_COMPARED
    ones = [*range(run.first, run.last, step), run.last]
    traces = [one - run.facts["before"] * before for one in ones for before in (0, 1)]
    places, samples = ([one.text for one in volume.run([f"{word} {trace}" for trace in traces])] for word in ("geometry", "stat"))
    told = [text.split() for text in samples]
    valued = all(words[0] == "stat" and len(words) > 4 and words[2] != words[4] for words in told)
    return valued and all(texts[0::2] == texts[1::2] for texts in (places, samples))


def _elsewhere(volume: Volume) -> Optional[str]:
    """S1: where numbers that differ from trace to trace stand, of shots or of a line of ensembles."""
    found = volume.extremes()
    varies = {name for name, numbers in found.items() if numbers.least != numbers.greatest}
    if "trace_in_record" in varies:
        return "map shot"
    return "map crossline ensemble" if "ensemble" in varies and "field_record" not in varies else None


def line_of(one: Problem, volume: Volume) -> Optional[str]:
    """The line that may mend it, or how the line begins that mends its first run; to be looked at,
    and run by hand. Traces are deleted by none that have samples or positions of their own, and none
    is marked as dead (S12) that is not told: all that are told meet its conditions, so a count tells."""
    if one.code == "S12" and volume.count(where=DEAD) != one.traces:
        return None
    if one.mend or one.code == "F8":
        return one.mend or "text "
    if one.code == "S1":
        return _elsewhere(volume)
    if one.traces is None or not one.first_runs:
        return None
    run = one.first_runs[0]
    span = _span(run.first, run.last)
    if one.code in _BEGINS:
        return f"set {span} {_BEGINS[one.code]} "
    if one.code == "F2":
        return _samples(one, volume.info.fixed)
    if one.code == "F6":
        return f"delete {span}" if _stands_twice(run, volume) else None
    if one.code in ("F3", "F5"):
        return _interval(one) if one.code == "F3" else _units(one)
    if one.code == "S13":
        return _loud(one, volume)
    return f"set {span} @233:8 0" if one.code == "F9" else None


def _alone(one: Problem, where: str, volume: Volume) -> bool:
    """Whether the conditions choose the traces that have the problem, each of them and no other: as
    many may meet them that are others. It is not where runs are not told: their traces are missing."""
    return volume.count(where=where) == one.traces == sum(volume.count(range(run.first, run.last + 1), where) for run in one.first_runs)


def _loud(one: Problem, volume: Volume) -> Optional[str]:
    """S13: mutes the loud traces of a fixed file, where the first digit of the least of their amounts
    is one above all other traces, to the one side or to the other."""
    amount = min(run.facts["amount"] for run in one.first_runs)
    if not volume.info.fixed or amount == float("inf"):
        return None
    digit, _, power = f"{Decimal(amount):e}".partition("e")
    least = f"{digit[0]}{'0' * int(power)}" if 0 <= int(power) < 7 else f"{digit[0]}e{int(power)}"
    least = least if volume.has_floats else str(int(Decimal(least)))
    for where in (f"sample_greatest >= {least}", f"sample_least <= -{least}"):
        if _alone(one, where, volume):
            return f"fill all 0 {volume.info.samples - 1} 0 where {where}"
    return None


def _facts(facts: Dict[str, Any]) -> str:
    """
    >>> _facts({"scalar": 10, "usual": -100}), _facts({"value": 0.25})
    ('scalar 10 usual -100', 'value 0.25')
    """
    return " ".join(f"{word} {number}" for word, number in facts.items())


def _right(one: Problem, run: ProblemRun) -> Optional[str]:
    """What belongs where the wrong number of a run stands: NUMBER, which the program refuses, where
    nobody knows but the user; nothing where more traces are told than not, since it may be the others.

    >>> run = ProblemRun(5, 8, {"scalar": 10, "usual": -100})
    >>> [_right(Problem("S3", 4, 1, [run], {}, "", of), run) for of in (12, 6)]
    ['-100', None]
    """
    fact = _TOLD[one.code][2]
    if fact is None:
        return "NUMBER"
    if one.code == "F2":
        return str(run.facts[fact] if run.facts[fact] <= _MOST_SAMPLES else 0)
    if one.most or one.code == "F3" and not run.facts[fact]:
        return None
    return str(run.facts[fact])


def lines_of(one: Problem, run: ProblemRun, volume: Volume) -> List[str]:
    """The lines that may mend a run: of its traces, and of all that have the number that is wrong in
    it; of lengths the latter of a fixed file alone, since others have other lengths."""
    span = _span(run.first, run.last)
    if one.code in _TOLD:
        name, wrong, _ = _TOLD[one.code]
        value = _right(one, run)
        if value is None:
            return []
        alike = f"set all {name} {value} where {name} = {run.facts[wrong]}"
        return [f"set {span} {name} {value}", *([alike] if one.code != "F2" or volume.info.fixed else [])]
    if one.code == "F6":
        return [f"delete {span}"] if _stands_twice(run, volume) else []
    alone = {"F9": f"set {span} @233:8 0", "S12": f"set {span} trace_code 2"}.get(one.code)
    return [alone] if alone else []


def where(one: Problem, run: ProblemRun) -> Dict[str, Any]:
    """A run in words, and the traces that it leads to; a gap leads to lines of the survey that are
    missing.

    >>> run = ProblemRun(5, 8, {"before": 4})
    >>> where(Problem("F6", 4, 1, [run], {}, ""), run)
    {'text': 'traces 5 to 8: before 4', 'trace': 5, 'last': 8, 'gap': None}
    """
    if one.code in ("S10", "S11"):
        text = f"traces {run.first} and {run.last}"
        return {"text": text, "trace": run.first, "last": run.first, "gap": None}
    noun = _NOUNS.get(one.code, "trace")
    span = f"{noun} {run.first}" if run.first == run.last else f"{noun}s {run.first} to {run.last}"
    text = ": ".join([span, *([_facts(run.facts)] if run.facts else [])])
    gap = _NOUNS.get(one.code)
    trace = None if gap else run.first
    return {"text": text, "trace": trace, "last": run.last, "gap": [gap, run.first, run.last] if gap else None}


def shown(one: Problem, volume: Volume) -> Dict[str, Any]:
    """A problem, with its first runs and their lines."""
    return {
        "code": one.code, "count": one.how_many, "meaning": one.meaning, "runs": one.runs,
        "facts": _facts(one.facts) if one.code in ("F7", "S1", "S9") else "",
        "first": [{**where(one, run), "lines": lines_of(one, run, volume)} for run in one.first_runs],
        "line": line_of(one, volume), "single": one.code.startswith("F") and one.traces is not None,
    }


def renumbers(volume: Volume, found: List[Problem], run: ProblemRun) -> List[str]:
    """Lines that give a block which stands on the numbers of another one those of a missing line
    beside it: it may be that line, numbered wrongly, and nothing to delete."""
    made: List[str] = []
    for code, name in _NOUNS.items():
        gaps = [gap for one in found if one.code == code for gap in one.first_runs]
        if not gaps or run.last - run.first >= _LONGEST:
            continue
        numbers = set(volume.headers(name, traces=range(run.first, run.last + 1))[name].tolist())
        if len(numbers) == 1:
            here = numbers.pop()
            near = [end for gap in gaps for end in (gap.first, gap.last) if abs(end - here) == gap.facts["step"]]
            made += [f"renumber {run.first} {run.last} {name} {number} 0" for number in sorted(set(near))]
    return made


def all_shown(volume: Volume) -> List[Dict[str, Any]]:
    """All problems of a volume. Of a block that stands on the numbers of another one the traces are
    taken away where they are copies, and else get the numbers of a missing line beside it."""
    found = volume.problems()
    made = [shown(one, volume) for one in found]
    for one, told in zip(found, made):
        if one.code == "F6":
            for run, row in zip(one.first_runs, told["first"]):
                row["lines"] = row["lines"] or renumbers(volume, found, run)
            told["line"] = next(iter(told["first"][0]["lines"]), None)
    return made


class Kept:
    """The problems of one version, kept while they are asked again: each trace is looked at."""

    def __init__(self) -> None:
        self._of: Optional[Tuple[int, List[Dict[str, Any]]]] = None

    def answer(self, volume: Volume, version: int) -> List[Dict[str, Any]]:
        """The problems of this version."""
        if self._of is None or self._of[0] != version:
            self._of = (version, all_shown(volume))
        return self._of[1]
