"""Numbers that many files have, in few ranges, for the histograms of the report."""

from __future__ import annotations

from collections import Counter
from typing import Dict, List, Sequence, Tuple

EXACT = 12
STEPS = (1, 2, 5)


def ranges(counts: Sequence[Tuple[int, int]], exact: int = EXACT) -> List[Tuple[str, int]]:
    """How many files lie in each range of a number; ``counts`` has how many files have each number.

    Few numbers are told one by one; many in the ranges from 1, 2, 5, 10, 20, 50, 100 and so on.

    >>> ranges([(4000, 7), (2000, 1)])
    [('2,000', 1), ('4,000', 7)]
    >>> ranges([(0, 1), (3, 1), (12, 2), (17, 1), (1500, 4)], exact=2)
    [('0', 1), ('2 to 4', 1), ('10 to 19', 3), ('1,000 to 1,999', 4)]
    """
    if len(counts) <= exact:
        return [(f"{number:,}", files) for number, files in sorted(counts)]
    found: Dict[Tuple[int, int], int] = Counter()
    for number, files in counts:
        found[_range(number)] += files
    return [
        (f"{low:,}" if low == high else f"{low:,} to {high:,}", files)
        for (low, high), files in sorted(found.items())
    ]


def _range(number: int) -> Tuple[int, int]:
    if number < 1:
        return number, number
    decade = 10 ** (len(str(number)) - 1)
    low = max(step for step in STEPS if step * decade <= number) * decade
    return low, (low * 5 // 2 if str(low)[0] == "2" else low * 2) - 1


def sizes(counts: Sequence[Tuple[int, int]]) -> List[Tuple[str, int]]:
    """The same of numbers of bytes, by powers of ten.

    >>> sizes([(0, 1), (3600, 2), (9999, 1), (123456, 5)])
    [('0', 1), ('1 to 10 kB', 3), ('100 kB to 1 MB', 5)]
    """
    found: Dict[int, int] = Counter()
    for number, files in counts:
        found[len(str(number)) if number > 0 else 0] += files
    return [
        (_decade(digits - 1) if digits else "0", files) for digits, files in sorted(found.items())
    ]


def _decade(power: int) -> str:
    units = ("B", "kB", "MB", "GB", "TB", "PB", "EB")
    low, high = ((10 ** (one % 3), units[one // 3]) for one in (power, power + 1))
    unit = "" if low[1] == high[1] else f" {low[1]}"
    return f"{low[0]}{unit} to {high[0]} {high[1]}"
