"""What the commands share of the command line."""

from __future__ import annotations

import os
from typing import BinaryIO, cast


class Unwanted(Exception):
    """The words of the command line do not fit together."""


def source(named: str) -> BinaryIO:
    """A file that is named, or standard input."""
    return cast(BinaryIO, os.fdopen(os.dup(0), "rb") if named == "-" else open(named, "rb"))
