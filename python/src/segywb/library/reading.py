"""A file is read: what it is taken for, what the program says of it, its digests."""

from __future__ import annotations

import hashlib
import os
import stat
import time
from typing import List, Optional, Tuple

from ..errors import Error
from . import asking, digests, sieve, tails, talk
from .facts import READ, REFUSED, Facts, Stamp, Task, failed, stamp

# A file that was written so short a time ago may change once more without other times: those of most disks step every few milliseconds,
# those that have whole seconds every one or two.
STEP = 20_000_000
LONG_STEP = 2_000_000_000
SECOND = 1_000_000_000
BYTES_A_SECOND = 10_000_000
CHANGED = "it was changed while it was read"
TWICE = 2


class Changed(Exception):
    """Another program changed the file meanwhile."""


def limit_of(size: int, seconds: float) -> float:
    """How long a file may take: so many seconds, and one more for each 10 MB."""
    return seconds + size / BYTES_A_SECOND


def read(task: Task, seconds: float) -> Facts:
    """What is found of a file, whatever happens."""
    deadline = time.monotonic() + limit_of(task.size, seconds)
    try:
        for _ in range(TWICE):
            try:
                return _read(task, deadline)
            except Changed:
                continue
        return failed(task, CHANGED)
    except digests.Slow:
        return failed(task, f"no answer within {limit_of(task.size, seconds):.0f} s")
    except OSError as error:
        return failed(task, error.strerror or str(error), isinstance(error, (FileNotFoundError, NotADirectoryError)))
    except (talk.Trouble, Error) as error:
        return failed(task, str(error))


def read_many(tasks: List[Task], seconds: float) -> List[Facts]:
    """The same of several files, in a worker of a cluster."""
    return [read(task, seconds) for task in tasks]


def _read(task: Task, deadline: float) -> Facts:
    # Without O_NONBLOCK a pipe that took the file's name would be waited for.
    descriptor = os.open(task.path, os.O_RDONLY | os.O_NONBLOCK | os.O_CLOEXEC)
    try:
        now = time.time_ns()
        begun = os.fstat(descriptor)
        if not stat.S_ISREG(begun.st_mode):
            return Facts(task, {**stamp(begun)._asdict(), "settled": 0}, other="no file")
        facts = Facts(task, {**stamp(begun)._asdict(), "settled": int(settled(stamp(begun), now))})
        facts.other = sieve.passed_over(digests.read(descriptor, sieve.HEAD_BYTES), task.path) or ""
        if not facts.other:
            _fill(facts, descriptor, deadline)
        if stamp(os.fstat(descriptor)) != stamp(begun) or stamp(os.stat(task.path)) != stamp(begun):
            raise Changed
        return facts
    finally:
        os.close(descriptor)


def settled(seen: Stamp, now: int) -> bool:
    """Whether a change from now on is sure to change the times."""
    return now - max(seen.modified, seen.changed) > _step(seen)


def _step(seen: Stamp) -> int:
    whole = seen.modified % SECOND == 0 and seen.changed % SECOND == 0
    return LONG_STEP if whole else STEP


def wait_until_settled(seen: Stamp) -> None:
    """Waits, no longer than a step of the file's times, until a change is sure to change them."""
    if not settled(seen, time.time_ns()):
        time.sleep(1.1 * _step(seen) / SECOND)


def _fill(facts: Facts, descriptor: int, deadline: float) -> None:
    """The program's answers, and the digests."""
    size = facts.columns["size"]
    program = talk.found()
    facts.columns["program"] = program.version
    span: Optional[Tuple[int, int]] = None
    try:
        with talk.Talk(descriptor, asking.options(size, program.option), deadline) as asked:
            report = asking.begin(asked)
            taken = digests.Digesting(descriptor, size, deadline)
            before, behind = asking.ask(asked, facts, report)
        facts.columns["state"] = READ
        span = (before, size - behind) if facts.columns["traces"] else None
    except talk.LoadRefused as refusal:
        facts.columns.update(state=REFUSED, refusal=refusal.code, refusal_text=refusal.text, hint=refusal.hint)
        if refusal.code == "L14":
            facts.columns.update(tails.of_cut(descriptor, size, refusal.hint, asking.options(size, program.option), deadline))
    facts.columns.update(taken.end(span)._asdict())


def digest(path: bytes) -> Optional[str]:
    """The digest of a file as it is now; of one that is not there none."""
    try:
        descriptor = os.open(path, os.O_RDONLY | os.O_NONBLOCK | os.O_CLOEXEC)
    except (FileNotFoundError, NotADirectoryError):
        return None
    try:
        whole = hashlib.sha256()
        for _, block in digests.blocks(descriptor, float("inf")):
            whole.update(block)
        return whole.hexdigest()
    finally:
        os.close(descriptor)
