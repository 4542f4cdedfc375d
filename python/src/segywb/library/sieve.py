"""Which files are given to the program at all: a look at the first 3600 bytes. What they are worth is the program's to say."""

from __future__ import annotations

import re
from typing import Optional

HEAD_BYTES = 3600
_CARD = 80
_TEXT = 3200
_LETTERS = (0xC3, 0x43)  # a C in EBCDIC and in ASCII
_FORMATS = range(1, 17)
_GREATEST_REVISION = 2
# The new file of a save, which stands beside what is saved until it takes its name; a kill may leave it.
_NEW_FILE = re.compile(rb"(?:^|/)\.[^/]*\.segywb-\d+$")


def passed_over(head: bytes, path: bytes = b"") -> Optional[str]:
    """Why a file with these first bytes is not taken for SEG-Y, or ``None`` where it is.

    The new file of a save is none, since it may be a part of one. Else it is where half of its lines
    of 80 characters begin with a C, or where the binary header has a sample format from 1 to 16 and a
    number of samples in one of both orders of bytes, and a revision of 2 at most.

    >>> passed_over(b"")
    'empty'
    >>> passed_over(b"C 1".ljust(80) * 20)
    >>> passed_over(bytes(3600))
    'no head of SEG-Y'
    >>> passed_over(b"C 1".ljust(80) * 20, b"/data/.line.sgy.segywb-0")
    'new file of a save'
    """
    if _NEW_FILE.search(path):
        return "new file of a save"
    if not head:
        return "empty"
    if _has_cards(head[:_TEXT]):
        return None
    if len(head) < HEAD_BYTES:
        return "short"
    return None if _has_numbers(head) else "no head of SEG-Y"


def _has_cards(text: bytes) -> bool:
    cards = len(text) // _CARD
    return cards >= 2 and any(2 * text[:cards * _CARD:_CARD].count(letter) >= cards for letter in _LETTERS)


def _has_numbers(head: bytes) -> bool:
    samples, wide, form = head[3220:3222], head[3268:3272], head[3224:3226]
    told = any(samples) or (head[3500] == _GREATEST_REVISION and any(wide))
    return told and head[3500] <= _GREATEST_REVISION and (int.from_bytes(form, "big") in _FORMATS or int.from_bytes(form, "little") in _FORMATS)
