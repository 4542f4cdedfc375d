"""A Python process that is killed while it saves: OUT is what it was, until the whole word ``save`` was sent; then it is the new file."""

import shutil
import subprocess
import sys
import time
from pathlib import Path

import pytest
from conftest import HERE, run

import segywb

# Saves over OUT, and is killed once so many bytes of the edits and of the word `save` were sent, and the whole lines of them answered:
# a program that cannot answer ends by that. It prints the number of the program.
KILLED = f"""
import fcntl, os, signal, struct, sys, termios, time
sys.path.insert(0, {str(HERE.parent / 'src')!r})
import segywb
from segywb.session import Session

path, out, edits, left = sys.argv[1], sys.argv[2], open(sys.argv[3]).read(), int(sys.argv[4])
volume = segywb.open(path)
volume.run(edits, stop=True)
whole = Session._write

def waiting(pipe):
    return struct.unpack("i", fcntl.ioctl(pipe.fileno(), termios.FIONREAD, bytes(4)))[0]

def state(session):
    with open(f"/proc/{{session.pid}}/stat") as told:
        return told.read().rpartition(")")[2].split()[0]

def answered(session):
    # It has read all of it, and sleeps until more comes, or has ended. One that waits for a processor is not asleep, however long it waits.
    while waiting(session._input) or state(session) not in "SZ":
        time.sleep(0.01)

def write(session, unsent):
    global left
    if "--out" not in session.words or bytes(unsent) == b"count\\n":
        return whole(session, unsent)
    sent = os.write(session._input.fileno(), unsent[:left]) if left else 0
    left -= sent
    if not left:
        answered(session)
        print(session.pid, flush=True)
        os.kill(os.getpid(), signal.SIGKILL)
    return unsent[sent:]

Session._write = write
volume.save(out, replace=True)
print("not killed")
"""
FEW = ["set 1 inline 7", "map shot @17:4", "set 2 shot 70", "delete 3", "text 1 C 1 SEEN"]
MANY = [f"set {1 + n % 12} x {n}" for n in range(90_000)]
OUTS = ["FILE itself", "another OUT", "a new OUT"]


def ended(pid):
    """Waits until a program that lost its partner has ended. It is nobody's child here, so it may stay as a dead one."""
    for _ in range(2400):
        try:
            if Path(f"/proc/{pid}/stat").read_text().rpartition(")")[2].split()[0] == "Z":
                return
        except OSError:
            return
        time.sleep(0.05)
    raise AssertionError(f"the program {pid} goes on")


class Room:
    """A file, the place where it is saved, and what may stand there: the old bytes or the new ones."""

    def __init__(self, folder, which, edits):
        self.folder = folder
        self.file = folder / "cube.sgy"
        self.out = self.file if which == "FILE itself" else folder / "out.sgy"
        self.original = self.file.read_bytes()
        (folder / "edits").write_text("".join(f"{line}\n" for line in edits))
        assert run(self.file, edits, "--out", str(folder / "new.sgy"))[1] == 0
        self.new = (folder / "new.sgy").read_bytes()
        if which == "another OUT":
            shutil.copy(self.file, self.out)
            self.out.write_bytes(self.original + b"other bytes")
        self.old = self.out.read_bytes() if self.out.exists() else None
        assert self.new not in (self.old, self.original)

    def killed(self, sent):
        """What stands under OUT behind a save whose process was killed when it had sent so many bytes. FILE is made anew first."""
        self.file.write_bytes(self.original)
        if self.old is None:
            self.out.unlink(missing_ok=True)
        else:
            self.out.write_bytes(self.old)
        words = [sys.executable, "-S", "-c", KILLED, str(self.file), str(self.out), str(self.folder / "edits"), str(sent)]
        done = subprocess.run(words, capture_output=True, text=True, check=False)
        if done.returncode != -9:
            return f"{done.returncode} {done.stdout} {done.stderr}"
        ended(int(done.stdout))
        assert self.out == self.file or self.file.read_bytes() == self.original
        return self.out.read_bytes() if self.out.exists() else None

    def said(self, sent):
        """The same in words."""
        found = self.killed(sent)
        return "old" if found == self.old else "new" if found == self.new else found if isinstance(found, str) else "neither"


@pytest.fixture
def room(example, tmp_path):
    example("cube")
    return lambda which, edits: Room(tmp_path, which, edits)


def ends(lines):
    """How many bytes were sent at the end of each line, and in the middle of the next."""
    at = 0
    for line in lines:
        yield at + len(line) // 2
        at += len(line) + 1
        yield at


@pytest.mark.parametrize("which", OUTS)
def test_killed_at_each_line(room, which):
    """And in the middle of each, and before the line feed of the last."""
    one = room(which, FEW)
    stops = [0, *ends([*FEW, "save"])]
    stops.insert(-1, stops[-1] - 1)
    assert {sent: one.said(sent) for sent in stops} == {**dict.fromkeys(stops, "old"), stops[-1]: "new"}


@pytest.mark.parametrize("which", OUTS)
def test_killed_between_two_writes_of_a_large_step(room, which):
    """The first two stand behind a line and before its line feed, where what has come could be taken for all that was meant."""
    one = room(which, MANY)
    part, step = (sum(len(line) + 1 for line in some) for some in (MANY[:65_536], MANY))
    assert part < segywb.session.PIPE_BYTES < step
    stops = [part, part - 1, segywb.session.PIPE_BYTES, step, step + len("save"), step + len("save\n")]
    assert {sent: one.said(sent) for sent in stops} == {**dict.fromkeys(stops, "old"), stops[-1]: "new"}
