"""A CSV onto the traces of the desk: its columns, what it would change, and the change as one step."""

from __future__ import annotations

import io
from typing import Any, Dict, List

from .. import csvs
from ..errors import CsvRefused, Refused
from .desk import Desk, clean


def asked(desk: Desk, query: Any) -> Dict[str, Any]:
    """What a page asks of a CSV: without keys its columns; with them what would change; with ``do`` the change. What is wrong is told."""
    text = str(query["text"])
    try:
        if "keys" not in query:
            return {"columns": [clean(one) for one in csvs.heads(lines(text))]}
        return imported(desk, text, pairs(query["keys"]), pairs(query["values"]), query)
    except (CsvRefused, ValueError) as error:
        return {"error": clean(str(error))}
    except StopIteration:
        return {"error": "there is no first line with the names of the columns"}
    except Refused as refusal:
        return {"error": clean(f"{refusal.answer} ({refusal.line[:200]}); nothing was changed")}


def lines(text: str) -> io.StringIO:
    """The lines of a text as they stand."""
    return io.StringIO(text, newline="")


def pairs(given: Any) -> Dict[str, str]:
    """Columns with their fields, as a page sends them.

    >>> pairs([["IL", " inline "]])
    {'IL': 'inline'}
    """
    made = {str(column): str(field).strip() for column, field in given}
    if len(made) < len(given) or any(not one or len(one.split()) > 1 for one in made.values()):
        raise ValueError("each column wants one field")
    return made


def imported(desk: Desk, text: str, keys: Dict[str, str], values: Dict[str, str], query: Any) -> Dict[str, Any]:
    """What the CSV changes, or would change."""
    desk.now()
    does = query.get("do") is True
    if does and query.get("version") != desk.version:
        return {"error": "The survey has changed since this was looked at: look at it again.", "version": desk.version}
    plan = csvs.planned(desk.volume, lines(text), keys, values)
    if not does:
        return {**told(plan), "version": desk.version}
    plan.do(desk.volume)
    desk.accepted(list(plan.lines()))
    return {**told(plan), "done": True, "version": desk.version}


def told(plan: csvs.Plan) -> Dict[str, Any]:
    """What is told of an import, as plain values. Numbers of 8 bytes are sent as texts."""
    found = plan.told
    differences: List[List[str]] = [[str(one.trace), one.field, str(one.was), str(one.becomes), str(one.line)] for one in found.differences]
    return {
        **{name: getattr(found, name) for name in ("rows", "matched", "traces", "unnamed", "changed", "numbers", "lacking", "doubled", "conflicts", "done")},
        "differences": differences, "lacking_keys": [[csvs.spelled(key), line] for key, line in found.lacking_keys],
        "doubled_keys": [[csvs.spelled(one.key), csvs.spelled(one.lines), one.same] for one in found.doubled_keys],
    }
