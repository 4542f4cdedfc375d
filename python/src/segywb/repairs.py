"""A repair of the file itself, and its recovery: each is a run of the program of its own."""

from __future__ import annotations

import os
import re
import tempfile
from typing import NamedTuple, Optional, Sequence

from . import program
from .errors import FileChanged, OptionRefused, PathRefused, RepairCutOff, SaveFailed
from .lines import LONGEST, decode, moving

CHANGED = "segywb: FILE was changed by another program"
UNSETTLED = "segywb: saved, but a power cut may undo it"
CUT_OFF = "an earlier repair was cut off"
TORN = "segywb: save failed, and FILE holds a part of the edits"
NEW_FILE = "; that needs a new file"

# A file of more bytes is repaired in place where a save over it does not say how.
IN_PLACE_ABOVE = 1_000_000_000


class Recovered(NamedTuple):
    """What a recovery put back: so many bytes, in so many pieces."""

    bytes: int
    pieces: int


class InPlace(NamedTuple):
    """A save over the file itself: whether it can be a repair in place, whether it is one where nothing is said, and why (not)."""

    possible: bool
    chosen: bool
    why: str


def journal_of(path: bytes) -> bytes:
    """Where the journal of a repair of a file stands.

    >>> journal_of(b"/data/cube.sgy")
    b'/data/.cube.sgy.segywb-journal'
    """
    folder, name = os.path.split(os.path.realpath(path))
    return os.path.join(folder, b"." + name + b".segywb-journal")


def judged(path: str, script: bytes, shorter: bool = False) -> InPlace:
    """How these edits are saved over the file itself: in place where it is large, no trace moves, and no other name leads to the old bytes. ``shorter``:
    they took bytes of no trace away."""
    if not program.knows("--recover"):
        return InPlace(False, False, "the program is older than a repair in place")
    line = moving(script)
    if line is not None:
        return InPlace(False, False, f"the edit {decode(line[:40])!r} needs a new file: traces come, go, move or get another length")
    if shorter:
        return InPlace(False, False, "the edit 'drop tail' needs a new file: the bytes behind the last trace go")
    if len(script) > LONGEST:
        return InPlace(False, False, f"the edits have {len(script):,} bytes, more than the {LONGEST:,} of a script")
    found = os.stat(path)
    if found.st_nlink > 1:
        return InPlace(True, False, "another hard link leads to the file too, and keeps the old bytes where a new file is saved")
    if found.st_size > IN_PLACE_ABOVE:
        return InPlace(True, True, f"the file has {found.st_size:,} bytes, more than {IN_PLACE_ABOVE:,}, and no trace moves")
    return InPlace(True, False, f"the file has {found.st_size:,} bytes; in place is chosen above {IN_PLACE_ABOVE:,}")


def repair(path: str, options: Sequence[str], script: bytes) -> str:
    """Writes what the lines change into the file itself. What the program told.

    The program is given the lines as a file: where this process dies, it has all of them or none.
    """
    with tempfile.NamedTemporaryFile(prefix="segywb-", suffix=".txt") as lines:
        lines.write(script)
        lines.flush()
        status, answers, told = program.run([path, "--script", lines.name, "--in-place", *options, "--stop", "--quiet"])
    if status == 0 or told.startswith(UNSETTLED):
        return told
    if CHANGED in told:
        raise FileChanged(told)
    if CUT_OFF in told:
        raise RepairCutOff(path, told)
    if status == 2:
        raise OptionRefused(f"the program does not accept {' '.join(['--in-place', *options])}", status, told)
    last = answers.strip().rpartition("\n")[2]
    why = "its edits are more than a script holds (16 MiB): save to another path" if last == "script refused P02 too large" else last
    raise SaveFailed(f"the repair of {path} failed" + (f": {why}" if why.startswith(("its ", "script ", "load ", "refused ")) else ""), status, told)


def recover(path: "os.PathLike[str] | str") -> Optional[Recovered]:
    """Puts the old bytes of a file back where a repair of it was cut off; ``None`` where none was.

    >>> segywb.recover("cube.sgy")
    """
    name = os.path.abspath(os.fspath(path))
    try:
        os.fsencode(name).decode("utf-8")
    except UnicodeDecodeError:
        raise PathRefused(name) from None
    if not program.knows("--recover"):
        raise OptionRefused("the program is older than --recover")
    status, answers, told = program.run([name, "--recover"])
    if status != 0:
        raise SaveFailed(f"the recovery of {name} failed", status, told)
    found = re.search(r": (\d+) old bytes in (\d+) pieces put back\n$", answers)
    return Recovered(int(found.group(1)), int(found.group(2))) if found else None
