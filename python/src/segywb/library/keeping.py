"""Old bytes are kept under their digest, and folders are on the disk before they are needed."""

from __future__ import annotations

import os
from typing import List

from ..errors import Error
from . import reading
from .change import Change, Maker
from .facts import Stamp, stamp
from .names import text_of
from .saves import Moved, Watched, ended
from .script import of

NOTHING = of(b"")


class Kept:
    """Old bytes of a file: the text of their path, and the stamp that the file has by now.

    A link changes its times.
    """

    def __init__(self, path: str, now: Stamp) -> None:
        self.path = path
        self.now = now


def keep(maker: Maker, path: str, folder: str, change: Change, copied: bool) -> Kept:
    """Keeps the old bytes of a file in a folder, under their digest.

    By a link, since a save leaves the old file where another name leads to it, or else by a copy;
    always by a copy of a file that is going to be repaired in place. Refused where the bytes are
    not those of the trial (``Moved``).
    """
    kept = os.path.join(folder, change.before[:2], f"{change.before}.sgy")
    made_durable(os.path.dirname(kept))
    now = change.stamp
    if reading.digest(os.fsencode(kept)) != change.before:
        now = _kept(maker, path, kept, change, copied)
        if reading.digest(os.fsencode(kept)) != change.before:
            raise Moved
        to_disk(os.path.dirname(kept))
    return Kept(text_of(os.fsencode(kept)), now)


def _kept(maker: Maker, path: str, kept: str, change: Change, copied: bool) -> Stamp:
    """Makes the link or the copy, and gives the stamp of the file behind it."""
    try:
        if copied:
            raise OSError
        os.link(os.path.realpath(path), kept)  # of a link not itself, but the file that it leads to
    except OSError:
        status, told = maker.save(path, NOTHING, kept, Watched(path, change.stamp))
        if status != 0:
            raise Error(f"the old bytes could not be kept: {told or ended(status)}") from None
        return change.stamp
    now = stamp(os.stat(path))
    if now._replace(changed=change.stamp.changed) != change.stamp:
        raise Moved
    return now


def made_durable(folder: str) -> None:
    """Makes a folder with those above it, all of them on the disk.

    So a power cut takes none of them away with what is saved in it.
    """
    missing: List[str] = []
    above = os.path.abspath(folder)
    while not os.path.isdir(above):
        missing.append(above)
        above = os.path.dirname(above)
    os.makedirs(folder, exist_ok=True)
    for one in missing:
        to_disk(os.path.dirname(one))


def to_disk(folder: str) -> None:
    """Brings the names in a folder to the disk."""
    descriptor = os.open(folder, os.O_RDONLY | os.O_DIRECTORY | os.O_CLOEXEC)
    try:
        os.fsync(descriptor)
    finally:
        os.close(descriptor)
