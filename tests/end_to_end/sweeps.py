"""Many runs of the program, each of which has to end in one of the ways that are given; many_runs.c makes them, and compares."""

import os
import subprocess

# a place without a program of its own; many_runs.c gives a meaning to `%` and `=`
PROGRAM = "./segywb"
SECONDS = 3600


def end(kind, status, answers="-", errors="-", saved="-"):
    """A way in which a run may end; the parts are those of many_runs.c."""
    return ["may", kind, str(status), answers, errors, saved]


def refusal(text, status=3, kind="refused", errors="-"):
    """The end of a run whose file is refused: nothing is saved."""
    return end(kind, status, f"=load refused {text}", errors)


class Sweeps:
    """Sweeps in a room, where the program is ./segywb."""

    def __init__(self, room, many_runs):
        self.room = room
        self.many_runs = str(many_runs)
        os.symlink(room.program, room.path("segywb"))

    def run(self, first, last, ends, words, *, step=1, make=None, saves="o.sgy", variables=()):
        """One sweep over the numbers from ``first`` to ``last``; gives back how often each kind of end was met, in their order."""
        given = ["step", str(step)] if step != 1 else []
        given += ["make", *make] if make else []
        given += ["saves", saves] if saves else []
        given += [word for one in ends for word in one]
        command = [self.many_runs, "run", str(first), str(last), *given, "--", *variables, PROGRAM, *words]
        done = subprocess.run(
            command,
            cwd=self.room.folder, capture_output=True, check=False, stdin=subprocess.DEVNULL, timeout=SECONDS,
            env={**os.environ, "LC_ALL": "C"},
        )
        told = (done.stdout + done.stderr).decode("utf-8", "backslashreplace")
        assert done.returncode == 0, told
        kinds = [line.split() for line in self.room.get("kinds").decode().splitlines()]
        return [(kind, int(number)) for kind, number in kinds]

    def once(self, ends, words, **more):
        """One run."""
        return self.run(1, 1, ends, words, **more)
