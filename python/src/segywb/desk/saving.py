"""The save, and how many bytes it changed."""

from __future__ import annotations

import os
import warnings
from contextlib import ExitStack
from typing import IO, Any, Dict, Optional

import numpy as np

from ..errors import FileChanged, RepairCutOff, SaveFailed
from ..repairs import TORN
from .desk import Desk, clean

PIECE = 1 << 23


def way(value: Any) -> Optional[bool]:
    """Whether a save over the file itself is to be in place, or nothing where the rule decides."""
    return value if isinstance(value, bool) else None


def save(desk: Desk, path: str, replace: bool, in_place: Optional[bool] = None) -> Dict[str, Any]:
    """Saves, or says what is in the way: a path that is there is written over only with ``replace``. The file itself is repaired ``in_place`` or
    replaced by a new one; where nothing is said as the rule of the package has it, which is told beside the question."""
    if not path.strip():
        return {"error": "no path is given"}
    out = os.path.abspath(os.path.expanduser(path))
    own = os.path.realpath(out) == os.path.realpath(desk.path)
    if os.path.lexists(out) and not replace:
        return {"ask": clean(out), "own": own, **(asked(desk) if own else {})}
    linked = same(out, desk.path)
    with ExitStack() as opened:
        before = opened.enter_context(open(desk.path, "rb"))
        try:
            with warnings.catch_warnings(record=True) as said:
                warnings.simplefilter("always")
                desk.volume.save(out, replace=replace, in_place=in_place if own else None)
        except SaveFailed as error:
            if TORN in error.stderr:
                raise RepairCutOff(desk.path, error.stderr) from error
            return {"error": clean(error.stderr.strip() or str(error))}
        except (FileChanged, FileExistsError, OSError, ValueError) as error:
            return {"error": clean(str(error))}
        after = opened.enter_context(open(out, "rb"))
        own = same(out, desk.path)  # now: a second link of the file is replaced without it
        told = {"path": clean(out), "own": own, "said": [clean(str(one.message)) for one in said], "at": stamp(after), **compared(before, after)}
    if own:
        desk.settled()
    elif linked:
        desk.unlinked()
    return {**told, "version": desk.version}


def asked(desk: Desk) -> Dict[str, Any]:
    """How the file itself can be saved, how it would be, why, and how many bytes a new file wants."""
    try:
        return {"in_place": desk.volume.in_place()._asdict(), "size": os.stat(desk.path).st_size}
    except (FileChanged, OSError) as error:
        return {"in_place": {"possible": False, "chosen": False, "why": clean(str(error))}, "size": 0}


def compared(before: IO[bytes], after: IO[bytes]) -> Dict[str, Any]:
    """The bytes that the file had and has, how many differ, and whether it is the same file, written in place."""
    repaired = os.path.sameopenfile(before.fileno(), after.fileno())
    return {"before": size(before), "bytes": size(after), "changed": differing(before, after), "repaired": repaired}


def same(one: str, other: str) -> bool:
    """Whether both are one file."""
    try:
        return os.path.samefile(one, other)
    except OSError:
        return False


def size(file: IO[bytes]) -> int:
    """Its bytes."""
    return os.fstat(file.fileno()).st_size


def stamp(file: IO[bytes]) -> float:
    """When it was written."""
    return os.fstat(file.fileno()).st_mtime


def differing(one: IO[bytes], other: IO[bytes]) -> Optional[int]:
    """How many bytes differ; nothing where the lengths differ, or where both are one file that was written in place."""
    if size(one) != size(other) or os.path.sameopenfile(one.fileno(), other.fileno()):
        return None
    count = 0
    while True:
        some, more = one.read(PIECE), other.read(PIECE)
        if not some or not more:
            return count
        count += int(np.count_nonzero(np.frombuffer(some, np.uint8) != np.frombuffer(more, np.uint8)))
