"""A session that is held line by line: each answer is there before the next line is sent."""

import subprocess
import threading

from running import Ended

# an answer that takes longer does not come, also where other programs hold the processors
LONGEST = 600


class Session:
    """A session of the program, as `with Session(room, WORD..) as session`."""

    def __init__(self, room, *words, **more):
        self.running = room.start(*words, stdin=subprocess.PIPE, **more)
        self.clock = threading.Timer(LONGEST, self.running.kill)
        self.clock.start()

    def __enter__(self):
        return self

    def __exit__(self, *_):
        self.clock.cancel()
        self.running.kill()
        with self.running:
            pass

    def send(self, data):
        """Sends bytes."""
        self.running.stdin.write(data)
        self.running.stdin.flush()

    def ask(self, line):
        """The answer to a line, without the empty line behind it."""
        self.send(line.encode() + b"\n")
        return self.answer()

    def answer(self):
        """The next answer."""
        lines = []
        for line in self.running.stdout:
            if line == b"\n":
                break
            lines.append(line.decode())
        return "".join(lines).rstrip("\n")

    def end(self):
        """No more lines: how the session ended."""
        answers, errors = self.running.communicate()
        return Ended(self.running.returncode, answers, errors)
