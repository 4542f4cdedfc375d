"""A look at a file that need not be one that is read: what its head says, beside what its length says."""

from __future__ import annotations

import os
from typing import Dict, List, NamedTuple, Optional

from . import program
from .answers import unexpected
from .errors import OptionRefused, PathRefused, ProgramEnded
from .lines import Path, number

LOOK = "--look"


class Look(NamedTuple):
    """What the head of a file says, and what its length says.

    ``order`` is ``told`` by the file, ``asked`` for or ``assumed``, or the constant says that pairs of bytes are ``swapped``, which ``by`` says. What stands behind are the numbers of the fields, whatever was asked
    for. A trace with the format, number of samples and number of header extensions that are asked for, or said by the fields, has ``trace_bytes``; ``traces``
    of these fill what stands behind the head, and ``rest`` bytes are left. Each is ``None`` where it cannot be told.
    """

    bytes: int
    order: str
    by: str
    revision: str
    format: int
    interval: int
    samples: int
    wide_samples: int
    fixed: int
    texts: int
    extensions: int
    trailer: int
    first_trace: int
    trace_bytes: Optional[int]
    traces: Optional[int]
    rest: Optional[int]


def look(
    path: Path, fixed: bool = False, order: Optional[str] = None, samples: Optional[int] = None, format: Optional[int] = None,
    texts: Optional[int] = None, tail: bool = False
) -> Look:
    """What ``segywb FILE --look`` tells of a file, also of one that is refused. The other arguments are those of ``segywb.open``.

    >>> told = segywb.look("cube.sgy")
    >>> told.samples, told.trace_bytes, told.traces, told.rest
    (5, 250, 12, 0)
    >>> segywb.look("cube.sgy", samples=7).rest
    206
    """
    name = os.path.abspath(os.fspath(path))
    try:
        os.fsencode(name).decode("utf-8")
    except UnicodeDecodeError:
        raise PathRefused(name) from None
    os.stat(name)  # a file that is not there is told by Python's own exception
    if not program.knows(LOOK):
        raise OptionRefused(f"the program is older than {LOOK}")
    options = ["--fixed"] if fixed else []
    options += ["--order", order] if order is not None else []
    for option, value in (("--samples", samples), ("--format", format), ("--texts", texts)):
        options += [option, number(value)] if value is not None else []
    options += ["--tail"] if tail else []
    status, answers, told = program.run([name, LOOK, *options])
    if status != 0:
        raise (OptionRefused if status == 2 else ProgramEnded)(f"the look at {name} failed", status, told)
    return read(answers)


def read(answers: str) -> Look:
    """The lines of a look as values.

    >>> read("look bytes 9\\n")
    Traceback (most recent call last):
    ...
    segywb.errors.ProgramEnded: the program wrote what is not expected: 'look bytes 9\\n'
    """
    said: Dict[str, List[str]] = {}
    for line in answers.splitlines():
        words = line.split(" ")
        if words[0] == "look" and len(words) > 2:
            said[words[1]] = words[2:]
    try:
        order, by = said["order"]
        traces, rest = (said["traces"][0], said["traces"][2]) if said["traces"][0] != "none" else ("none", "none")
        return Look(
            int(said["bytes"][0]), order, by, said["revision"][0], int(said["format"][0]), int(said["interval"][0]), int(said["samples"][0]),
            int(said["wide_samples"][0]), int(said["fixed"][0]), int(said["texts"][0]), int(said["extensions"][0]), int(said["trailer"][0]), int(said["first_trace"][0]),
            _known(said["trace_bytes"][0]), _known(traces), _known(rest),
        )
    except (KeyError, ValueError, IndexError):
        raise unexpected(answers) from None


def _known(word: str) -> Optional[int]:
    return None if word == "none" else int(word)
