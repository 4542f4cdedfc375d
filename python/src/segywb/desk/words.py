"""The words of the manual that stand beside the command line, from ``manual.txt`` (made of the manual by ``tools/desk-words``)."""

from __future__ import annotations

from pathlib import Path
from typing import Any, Dict, List

from ..answers import MEANINGS

HERE = Path(__file__).resolve().parent


def rows(kind: str) -> List[List[str]]:
    """The rows of a kind.

    >>> rows("fault")[0][0]
    'F1'
    """
    found = [line.split("\t") for line in (HERE / "manual.txt").read_text(encoding="utf-8").splitlines()]
    return [row[1:] for row in found if row[0] == kind]


def words() -> Dict[str, Any]:
    """All that the page asks for.

    >>> [one["usage"] for one in words()["commands"] if one["word"] == "set"]
    ['set P [Q] FIELD NUMBER [where A OP B ..]']
    >>> [one["name"] for one in words()["facts"]]
    ['sample_least', 'sample_greatest', 'sample_count']
    """
    return {
        "commands": [{"word": usage.split()[0], "usage": usage, "told": told} for usage, told in rows("command")],
        "names": [{"name": name, "place": place, "told": told} for name, place, told in rows("name")],
        "facts": [{"name": name, "told": told} for name, told in rows("fact")],
        "binary": [{"name": name, "place": place, "told": told} for name, place, told in rows("binary")],
        "refusals": [{"code": code, "text": text, "when": when, "do": do} for code, text, when, do in rows("refusal")],
        "faults": {code: {"text": text, "when": when, "do": do} for code, text, when, do in rows("fault")},
        "problems": {code: {"meaning": MEANINGS[code], "do": do} for code, do in rows("problem")},
    }
