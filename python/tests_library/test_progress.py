"""How far a scan is: files, bytes, the rate and what is left."""

import io
import time

from segywb.library import progress


class Terminal(io.StringIO):
    def isatty(self):
        return True


def test_on_a_terminal(monkeypatch):
    """One line that is written anew; what is left is told once all files are found."""
    moment = [100.0]
    monkeypatch.setattr(time, "monotonic", lambda: moment[0])
    stream = Terminal()
    told = progress.Progress(stream)
    for _ in range(500):
        told.done(1_000_000)
    moment[0] += 10
    told.show(2000, 2_000_000_000, 0, True)
    told.show(2000, 2_000_000_000, 0, True)
    moment[0] += 1
    told.show(2000, 2_000_000_000, 7, False)
    told.close()
    first, second, last = stream.getvalue().rstrip("\r").split("\r")[:2] + [stream.getvalue().split("\r")[-2]]
    assert first.rstrip() == "500 of 2,000 or more files, 500.0 MB of 2.0 GB, 50 files/s, 50.0 MB/s"
    assert second.rstrip() == "500 of 2,000 files, 500.0 MB of 2.0 GB, 7 unchanged, 45 files/s, 45.5 MB/s, 33 s left"
    assert last.strip() == "" and len(first) == progress.WIDTH


def test_a_large_file_behind_small_ones(monkeypatch):
    """What is left of it is not told by the bytes that small files have a second."""
    moment = [0.0]
    monkeypatch.setattr(time, "monotonic", lambda: moment[0])
    stream = io.StringIO()
    told = progress.Progress(stream)
    for _ in range(300):
        told.done(5_000)
    moment[0] += 60
    told.show(301, 2_001_500_000, 0, False)
    assert stream.getvalue().endswith(", 3 min 20 s left\n")


def test_elsewhere(monkeypatch):
    """A line now and then; nothing where nothing is wanted."""
    moment = [0.0]
    monkeypatch.setattr(time, "monotonic", lambda: moment[0])
    stream = io.StringIO()
    told = progress.Progress(stream)
    for _ in range(100):
        moment[0] += 1
        told.done(10)
        told.show(1000, 10_000, 0, False)
    told.close()
    assert stream.getvalue().count("\n") == 3
    progress.Progress(None).show(1, 1, 0, False)
