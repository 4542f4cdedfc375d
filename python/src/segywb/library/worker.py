"""A process that reads files for a scan: it is told which, and tells what it finds."""

from __future__ import annotations

import signal
from multiprocessing.connection import Connection
from typing import List, Tuple

from .facts import Task
from .reading import read


def main(descriptor: int) -> None:
    """Reads what comes, until the scan has ended in whatever way."""
    signal.signal(signal.SIGINT, signal.SIG_IGN)  # the scan is interrupted, and ends its workers
    pipe: "Connection" = Connection(descriptor)
    try:
        while True:
            order: Tuple[List[Task], float] = pipe.recv()
            tasks, seconds = order
            for task in tasks:
                pipe.send(read(task, seconds))
    except (EOFError, OSError):
        pass
