"""A file that is refused: what the program says of it, and the readings that would take it."""

from __future__ import annotations

import os
from typing import Any, Dict, Iterator, List, NamedTuple, Optional, Sequence, Tuple

import segywb

from ..errors import Error, LoadRefused

OPAQUE = ("L06", "L07")  # refused for their samples alone (L06 by a program that knows no floats): the desk reads them without the values of these
Options = Dict[str, Any]
# What says how the bytes are read, and of this what `declare` writes into the binary header. Whether samples have values the desk finds out itself.
READING = ("fixed", "order", "samples", "format", "texts", "tail")
DECLARED = ("fixed", "samples", "format", "texts")
# The names of what a look tells, as the page has them.
LOOKED = {
    "bytes": "bytes of the file", "order": "byte order", "revision": "revision", "format": "format of the samples", "interval": "interval, microseconds",
    "samples": "samples of a trace", "wide_samples": "samples of a trace, wide", "fixed": "fixed length flag", "texts": "extended textual headers",
    "extensions": "header extensions", "trailer": "data trailer records", "first_trace": "place of the first trace", "trace_bytes": "bytes of such a trace",
    "traces": "such traces in the file", "rest": "bytes left behind them",
}


class Reading(NamedTuple):
    """A reading that takes the file: what differs from the one that was asked for, in words of the command line, and what it finds. ``tail`` is the
    number of bytes of no trace behind the last one."""

    options: Options
    words: str
    traces: int
    samples: int
    tail: int = 0

    @property
    def told(self) -> str:
        """In one line.

        >>> Reading({"fixed": True}, "with --fixed", 1, 5).told
        'with --fixed it is read: 1 trace, 5 samples each'
        >>> Reading({"tail": True}, "with --tail", 11, 5, 243).told
        'with --tail it is read: 11 traces, 5 samples each, and 243 bytes behind the last'
        """
        behind = f", and {self.tail} byte{'' if self.tail == 1 else 's'} behind the last" if self.tail else ""
        return f"{self.words} it is read: {self.traces} trace{'' if self.traces == 1 else 's'}, {self.samples} samples each{behind}"


def words_of(options: Options) -> List[str]:
    """The words of a command line for these options.

    >>> words_of({"fixed": True, "order": "big", "opaque_samples": False, "max_bytes": None})
    ['--fixed', '--order', 'big']
    """
    made: List[str] = []
    for name, value in options.items():
        if value is not None and value is not False:
            made += [f"--{name.replace('_', '-')}", *([] if value is True else [str(value)])]
    return made


def readings(path: str, options: Options, hints: Sequence[Options] = ()) -> List[Reading]:
    """The readings that take the file, first those that the program has named, then those with the fewest other options: each of them is
    tried, with the bytes left on disk. The one that leaves bytes behind the last trace comes last: those that fit the whole file may be meant."""
    found: List[Reading] = []
    if not os.path.isfile(path):
        return found

    def tried(other: Options) -> None:
        size = taken(path, {**options, **other})
        if size is not None:
            found.append(Reading(other, told(other), *size))

    for other in hinted(options, hints):
        tried(other)
    for other in candidates(options):
        if not any(set(one.options) <= set(other) for one in found):
            tried(other)
    # a number that is the binary header's own is asked for by --fixed alone
    fixed = [one for one in found if one.options == {"fixed": True}]
    found = [one for one in found if list(one.options) != ["samples"] or not any((one.traces, one.samples) == (other.traces, other.samples) for other in fixed)]
    return sorted(found, key=lambda one: "tail" in one.options)


def looked(path: str, options: Options) -> List[List[str]]:
    """What the head of the file says and what its length says, each with its name; nothing where the program has no look at it."""
    try:
        found = segywb.look(path, **{name: options[name] for name in READING if options.get(name) is not None})
    except (Error, OSError):
        return []
    asked: Dict[str, Any] = {**found._asdict(), "order": f"{found.order}, {found.by}"}
    return [[text, "none" if asked[name] is None else str(asked[name])] for name, text in LOOKED.items()]


def hinted(options: Options, hints: Sequence[Options]) -> List[Options]:
    """What the program has named differs so from these options, once each.

    >>> hinted({"fixed": False, "order": "big"}, [{"samples": 1500, "order": "big"}, {"floats": True}, {"samples": 1500}])
    [{'samples': 1500}]
    """
    found: List[Options] = []
    for hint in hints:
        other = {name: value for name, value in hint.items() if name in READING and options.get(name) != value}
        if other and other not in found:
            found.append(other)
    return found


def candidates(options: Options) -> Iterator[Options]:
    """What may be asked for in place of these options.

    >>> [told(one) for one in candidates({"fixed": False, "order": "big"})]
    ['with --fixed', 'without --order', 'with --order little', 'with --fixed, without --order', 'with --fixed, with --order little']
    """
    fixed: List[Options] = [{}, {"fixed": not options.get("fixed")}]
    orders: List[Options] = [{}, *({"order": one} for one in (None, "big", "little") if one != options.get("order"))]
    both = [{**one, **other} for one in fixed for other in orders]
    yield from sorted(both[1:], key=lambda one: (len(one), "order" in one))


def told(other: Options) -> str:
    """In words of the command line.

    >>> told({"fixed": True, "order": None, "texts": 0})
    'with --fixed, without --order, with --texts 0'
    """
    return ", ".join(f"with {' '.join(words_of({name: value}))}" if words_of({name: value}) else f"without --{name}" for name, value in other.items())


def taken(path: str, options: Options) -> Optional[Tuple[int, int, int]]:
    """The traces, the samples of a trace and the bytes of no trace that a reading finds, or nothing where the file is refused again."""
    for opaque in (False, True):
        asked: Options = {**options, "opaque_samples": opaque, "on_disk": True}
        try:
            with segywb.open(path, **asked) as volume:
                info = volume.info
                return info.traces, info.samples, info.tail or 0
        except LoadRefused as refusal:
            if refusal.code not in OPAQUE:
                return None
        except (Error, OSError):
            return None
    return None
