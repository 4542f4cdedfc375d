"""Paths as texts that SQL can read: each path has one text and each text one path, whatever bytes a name has."""

from __future__ import annotations

import os
import re

_ESCAPED = re.compile(rb"\\x([0-9a-f]{2})")


def text_of(path: bytes) -> str:
    r"""The text of a path: as it is where it is UTF-8; a byte that is not is ``\xNN``, and so is a backslash in front of an x.

    >>> print(text_of(b"a b/line.sgy"), text_of(b"n\xff.sgy"), text_of(b"C:\\x.sgy"))
    a b/line.sgy n\xff.sgy C:\x5cx.sgy
    """
    return path.replace(b"\\x", b"\\x5cx").decode("utf-8", "backslashreplace")


def path_of(text: str) -> bytes:
    r"""The path that has this text.

    >>> path_of("n\\xff.sgy") == b"n\xff.sgy", path_of(text_of(b"\\x\\\xff")) == b"\\x\\\xff"
    (True, True)
    """
    return _ESCAPED.sub(lambda found: bytes([int(found[1], 16)]), text.encode("utf-8"))


def spoken(path: bytes) -> bool:
    """Whether the program takes the path: it takes UTF-8 alone."""
    try:
        path.decode("utf-8")
    except UnicodeDecodeError:
        return False
    return True


def shown(text: str) -> str:
    r"""A text in one line of a terminal.

    >>> shown("two\nlines")
    'two\\nlines'
    """
    return "".join(letter if letter.isprintable() else letter.encode("unicode_escape").decode() for letter in text)


def absolute(path: str) -> bytes:
    """An absolute path, without following links."""
    return os.path.abspath(os.fsencode(path))
