"""2000 hostile files, made from a seed: torn ones, ones with a tail, and ones whose headers say what is not there. No run ends by a signal
or takes too long, each refusal is the one that the manual names, and each file that is accepted is told by `info` and saved byte for
byte. SEED=N makes others. In memory, and on disk."""

import os
import subprocess
from collections import Counter

import pytest

from files import content

# each named as often as it is to be a base, of the files here tail.sgy has a stanza in its data trailer records
BASES = (
    "s.sgy s.sgy x.sgy x.sgy t.sgy untold.sgy deep.sgy deep.sgy ended.sgy ebcdic.sgy tail.sgy tail.sgy none.sgy v.sgy"
).split()
NUMBER = 2000
MET = "L02 L03 L04 L05 L06 L07 L08 L09 L10 L11 L12 L13 L14 L17 accepted declared undeclared tailed dropped".split()


def disked(room):
    """A program that is the room's with --on-disk behind its words."""
    room.put("disked", f'#!/bin/sh\nexec "{room.program}" "$@" --on-disk\n')
    os.chmod(room.path("disked"), 0o755)
    return "./disked"


@pytest.mark.parametrize("place", ["in memory", "on disk"])
def test_hostile_files(room, compiled, place):
    for name in set(BASES):
        room.put(name, content("noted.sgy" if name == "tail.sgy" else name))
    program = room.program if place == "in memory" else disked(room)
    command = [compiled("hostile_files"), program, os.environ.get("SEED", "1"), str(NUMBER), *BASES]
    done = subprocess.run(command, cwd=room.folder, capture_output=True, text=True, check=False, env={**os.environ, "LC_ALL": "C"})
    failed = [line for line in done.stdout.splitlines() if line.startswith("FAILED")]
    assert not failed[:5], f"{len(failed)} of {NUMBER}"
    assert done.returncode == 0, done.stderr
    met = Counter(line.split()[0] for line in done.stdout.splitlines())
    assert [code for code in MET if code not in met] == []
