"""What the tests of repairs in place share: FILE stands in a folder of its own, with its journal beside it."""

import os
import time

from files import content

OWN = "room/o.sgy"
JOURNAL = "room/.o.sgy.segywb-journal"
SCRIPT = "set 2 @189:4 7\nget 2 @189:4\n"
NOTHING_SAVED = "segywb: save failed after 0 bytes"
CHANGED = "segywb: FILE was changed by another program"
CUT_OFF = f"segywb: {OWN}: an earlier repair was cut off (.o.sgy.segywb-journal); segywb {OWN} --recover puts the old bytes back"


def anew(room, made=None):
    """FILE has these bytes, those of the survey where none are given, and is alone."""
    os.makedirs(room.path("room"), exist_ok=True)
    for name in room.names("room"):
        os.remove(room.path(f"room/{name}"))
    room.put(OWN, content("s.sgy") if made is None else made)


def begin(room):
    """FILE, a script, and what a save of it gives: `whole.sgy`, and its answers."""
    room.make("s.sgy")
    room.put("script", SCRIPT)
    room.whole = room.run("s.sgy", "--script", "script", "--out", "whole.sgy").answers
    assert room.whole == b"ok\nvalue 7\n"
    anew(room)
    return room


def alone(room):
    """Whether nothing but FILE is in its folder."""
    return room.names("room") == ["o.sgy"]


def leaves_journal(room, library):
    """A repair whose journal could not be taken away, under the library that fails calls of a save."""
    anew(room)
    environment = {**library, "FAIL_CALL": "unlink", "FAIL_NTH": "2"}
    return room.run(OWN, "--script", "script", "--in-place", environment=environment)


def is_locked(room):
    """Waits until FILE is locked, which is behind the opening of the script."""
    number = os.stat(room.path(OWN)).st_ino
    for _ in range(1200):
        with open("/proc/locks", encoding="ascii") as locks:
            if any("FLOCK" in line and f":{number} " in line for line in locks):
                return
        time.sleep(0.05)
    raise AssertionError("FILE is not locked")
