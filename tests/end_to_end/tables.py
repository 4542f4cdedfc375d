"""The rows of the tables: a file, a script, options, and the answers, the status and the saved bytes that are wanted.

Lines of a script stand between `` ; ``, those of its answers between `` / ``. A script or an answer that has other bytes is given as bytes.
"""

import os
from dataclasses import dataclass
from typing import Optional, Union

import pytest

from files import content
from running import differences, same

# what a row wants of the saved file, beside bytes, and text as differences() has it
ABSENT = "absent"
SAME = "same"


@dataclass(frozen=True)
class Case:
    """One row: the program is run on a file and a script."""

    name: str
    file: Union[str, tuple]
    script: bytes
    answers: bytes
    status: int = 0
    options: str = ""
    errors: str = ""
    saved: Optional[Union[str, bytes]] = None
    out: bool = False


def lines(text, between):
    """The lines of a text, a line feed behind each."""
    if isinstance(text, bytes):
        return text
    return "".join(line + "\n" for line in text.split(between)).encode() if text else b""


def case(name, file, script, answers, status=0, **more):
    """A row of a table."""
    return Case(name, file, lines(script, " ; "), lines(answers, " / "), status, **more)


def saving(name, file, script, answers, status=0, **more):
    """A row whose run has an OUT."""
    return case(name, file, script, answers, status, out=True, **more)


def refused(name, file, refusal, script="count", **more):
    """A row whose file is refused: nothing is saved."""
    return case(name, file, script, f"load refused {refusal}", 3, saved=ABSENT, **more)


def rows(cases):
    """The rows as the parameters of a test, with their names."""
    return [pytest.param(one, id=one.name) for one in cases]


def placed(room, file):
    """The file of a row in the room: its name and its bytes. A pair is a name and bytes; one that files.py does not make is there."""
    name, made = file if isinstance(file, tuple) else (file, None)
    if made is None:
        made = content(name)
    room.put(name, made)
    return name, made


def check(room, one, *words, **more):
    """Runs a row, with more words, and looks at all that it wants."""
    name, before = placed(room, one.file)
    room.put("script", one.script)
    out = ["--out", "o.sgy"] if one.out or one.saved is not None else []
    ended = room.run(name, "--script", "script", *out, *one.options.split(), *words, **more)
    assert ended.answers == one.answers
    assert ended.status == one.status
    assert ended.told() == ended.refusals()
    assert ended.others() == one.errors.splitlines()
    check_saved(room, one, before)
    return ended


def check_saved(room, one, before):
    """Looks at the saved file: of a row that names none, only that a run with OUT made it, but where the file was refused."""
    if one.saved is None:
        assert not one.out or room.has("o.sgy") == (one.status != 3)
        return
    if one.saved == ABSENT:
        assert not room.has("o.sgy")
        return
    saved = room.get("o.sgy")
    if one.saved == SAME:
        assert same(saved, before)
    elif isinstance(one.saved, bytes):
        assert same(saved, one.saved)
    else:
        assert differences(before, saved) == [change.strip() for change in one.saved.split(";")]


def check_line(room, *words):
    """A command line that is not accepted: nothing is answered, and standard error says why."""
    ended = room.run(*words)
    assert ended.status == 2
    assert ended.answers == b""
    assert ended.errors != b""
    return ended


def check_alike(room, file, one, other):
    """That two scripts save the same file, which is another than the one they began with. Lines stand between `` ; ``."""
    name, before = placed(room, file)
    saved = []
    for script in (one, other):
        room.ask(name, lines(script, " ; "), "--out", "o.sgy")
        saved.append(room.get("o.sgy"))
        os.remove(room.path("o.sgy"))
    assert same(*saved)
    assert saved[0] != before


def check_told(room, line, text, options="", file="s.sgy"):
    """A script of this one line is refused, and standard error is the text behind the script's place."""
    placed(room, file)
    room.put("script", line)
    ended = room.run(file, "--script", "script", *options.split())
    assert ended.status == 1
    assert ended.answers.decode() == f"refused {text.partition(':')[0]}\n"
    assert ended.errors.decode() == f"segywb: script:1: {text}\n"
