"""The program is run in a folder of a test's own, and what it said and saved is looked at."""

import os
import re
import resource
import subprocess
import threading
from dataclasses import dataclass

from files import content

# a run that takes longer than this hangs
LONGEST = 600

# what standard error says of refused lines and files, and of readings that fit; the first of these have the refusal itself
REFUSAL = re.compile(r"^segywb: [^:]*(:[0-9]+)?: ([LES][0-9][0-9] [^:(]*[^:( ])")
TOLD_OF_REFUSALS = [
    re.compile(r"^segywb: [^:]*(:[0-9]+)?: [LES][0-9][0-9] "),
    re.compile(r"^segywb: \.\. and [0-9]+ more refused lines?$"),
    re.compile(r"^segywb: saved without [0-9]+ refused lines?; "),
    re.compile(r"^segywb: .* can be read with --[a-z0-9 -]*: [0-9]+ traces?$"),
    re.compile(r"^segywb: .* can be read with .*--tail: "),
]
# so many of a run's refused lines are told
MOST_TOLD = 20


@dataclass(frozen=True)
class Ended:
    """How a run ended: its status, standard output and standard error."""

    status: int
    answers: bytes
    errors: bytes

    def lines(self):
        """The lines of standard error."""
        return self.errors.decode("utf-8", "backslashreplace").splitlines()

    def told(self):
        """The refusals that standard error tells."""
        found = [REFUSAL.match(line) for line in self.lines()]
        return [one.group(2) for one in found if one]

    def refusals(self):
        """The refusals among the answers, as many as are told."""
        lines = self.answers.decode("utf-8", "backslashreplace").splitlines()
        found = [re.match(r"(?:load )?refused (.*)", line) for line in lines]
        return [one.group(1) for one in found if one][:MOST_TOLD]

    def others(self):
        """The lines of standard error that are of no refusal."""
        return [line for line in self.lines() if not any(one.match(line) for one in TOLD_OF_REFUSALS)]


class Room:
    """The folder of one test. Files of files.py are made in it when a run names them."""

    def __init__(self, program, folder):
        self.program = str(program)
        self.folder = folder
        # words in front of the program, as of a command that runs it for another user
        self.before = []

    def path(self, name):
        """The path of a file of the room."""
        return os.path.join(os.fsencode(str(self.folder)), os.fsencode(name))

    def put(self, name, data):
        """Writes a file, text or bytes."""
        with open(self.path(name), "wb") as file:
            file.write(data.encode() if isinstance(data, str) else data)
        return name

    def make(self, *names):
        """Makes files of files.py."""
        for name in names:
            self.put(name, content(name))
        return names[0]

    def get(self, name):
        """The bytes of a file."""
        with open(self.path(name), "rb") as file:
            return file.read()

    def has(self, name):
        """Whether there is such a name."""
        return os.path.lexists(self.path(name))

    def names(self, folder="."):
        """All names in a folder of the room, sorted."""
        return sorted(os.listdir(os.path.join(str(self.folder), folder)))

    def feed(self, name, *pieces):
        """Makes a pipe with a name, to which the pieces are written beside the test."""
        os.mkfifo(self.path(name))
        threading.Thread(target=write_pieces, args=(self.path(name), pieces), daemon=True).start()

    def taking(self, name):
        """Makes a pipe with a name that is read beside the test; gives back what waits for its bytes."""
        os.mkfifo(self.path(name))
        taken = []
        reader = threading.Thread(target=lambda: taken.append(self.get(name)), daemon=True)
        reader.start()

        def wait():
            reader.join(LONGEST)
            return taken[0]

        return wait

    def start(self, *words, environment=None, limits=(), closed=(), **streams):
        """Starts the program. ``limits`` are pairs of a resource and a number, as of setrlimit, ``closed`` streams that it lacks."""
        given = {"stdin": subprocess.DEVNULL, "stdout": subprocess.PIPE, "stderr": subprocess.PIPE, **streams}
        return subprocess.Popen(
            [*self.before, self.program, *words],
            cwd=self.folder,
            env={**os.environ, **(environment or {})},
            preexec_fn=prepared(limits, closed) if limits or closed else None,
            **given,
        )

    def run(self, *words, entered=None, longest=LONGEST, **more):
        """Runs the program to its end; ``entered`` is what it has on standard input."""
        if entered is not None:
            more["stdin"] = subprocess.PIPE
        with self.start(*words, **more) as running:
            try:
                answers, errors = running.communicate(entered, timeout=longest)
            finally:
                if running.poll() is None:
                    running.kill()
        return Ended(running.returncode, answers or b"", errors or b"")

    def ask(self, file, lines, *words, **more):
        """How a run ends of the lines of a script over a file, which is made if it is not there."""
        if not self.has(file):
            self.make(file)
        self.put("asked", lines)
        return self.run(file, "--script", "asked", *words, **more)


def write_pieces(path, pieces):
    """Writes to a pipe until nobody reads it."""
    try:
        with open(path, "wb", buffering=0) as pipe:
            for piece in pieces:
                pipe.write(piece)
    except BrokenPipeError:
        pass


def close_all(streams):
    """Closes streams."""
    for stream in streams:
        os.close(stream)


def prepared(limits, closed):
    """What sets limits in a new process, and closes streams."""

    def prepare():
        for kind, number in limits:
            resource.setrlimit(kind, (number, number))
        close_all(closed)

    return prepare


def differences(one, other):
    """The places, from 1, where two files of one length differ, with both bytes in octal, as ``cmp -l`` tells them."""
    assert len(one) == len(other), f"{len(one)} bytes, and {len(other)}"
    return [f"{place} {a:o} {b:o}" for place, (a, b) in enumerate(zip(one, other), 1) if a != b]


def same(one, other):
    """That two files have the same bytes; where not, how they differ at first, and not all of both."""
    if one == other:
        return True
    first = next((place for place, (a, b) in enumerate(zip(one, other)) if a != b), min(len(one), len(other)))
    raise AssertionError(f"{len(one)} and {len(other)} bytes, which differ from place {first} on: {one[first:first + 40]!r}, {other[first:first + 40]!r}")
