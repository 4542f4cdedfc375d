"""How far a scan is: on a terminal one line that is written anew, else a line now and then."""

from __future__ import annotations

import sys
import time
from typing import Optional, TextIO

TERMINAL_SECONDS = 0.2
FILE_SECONDS = 30.0
WIDTH = 118
LEAST_RATE = 1e7  # bytes a second, as the time for a file allows


def bytes_told(count: float) -> str:
    """
    >>> bytes_told(999), bytes_told(12345), bytes_told(2.5e12)
    ('999 B', '12.3 kB', '2.5 TB')
    """
    for unit in ("B", "kB", "MB", "GB"):
        if count < 999.95:
            return f"{count:.0f} B" if unit == "B" else f"{count:.1f} {unit}"
        count /= 1000
    return f"{count:.1f} TB"


def time_told(seconds: float) -> str:
    """
    >>> time_told(59), time_told(3700), time_told(200000)
    ('59 s', '1 h 01 min', '2 d 07 h')
    """
    minutes = int(seconds) // 60
    if minutes == 0:
        return f"{int(seconds)} s"
    if minutes < 60:
        return f"{minutes} min {int(seconds) % 60:02} s"
    hours = minutes // 60
    return f"{hours} h {minutes % 60:02} min" if hours < 48 else f"{hours // 24} d {hours % 24:02} h"


class Progress:
    """Tells files, bytes, the rate and what is left. ``stream`` is ``None`` where nothing is to be told."""

    def __init__(self, stream: Optional[TextIO] = sys.stderr) -> None:
        self._stream = stream
        self._terminal = stream is not None and stream.isatty()
        self._every = TERMINAL_SECONDS if self._terminal else FILE_SECONDS
        self._begun = time.monotonic()
        self._last = self._begun
        self.files = self.bytes = 0

    def done(self, size: int) -> None:
        """One more file is read."""
        self.files += 1
        self.bytes += size

    def show(self, files: int, size: int, unchanged: int, looking: bool) -> None:
        """Tells how far it is, of so many files and bytes, where the last was told a while ago."""
        moment = time.monotonic()
        if self._stream is None or moment - self._last < self._every:
            return
        self._last = moment
        self._write(self._line(files, size, unchanged, looking, moment - self._begun))

    def _line(self, files: int, size: int, unchanged: int, looking: bool, seconds: float) -> str:
        more = " or more" if looking else ""
        line = f"{self.files:,} of {files:,}{more} files, {bytes_told(self.bytes)} of {bytes_told(size)}"
        if unchanged:
            line += f", {unchanged:,} unchanged"
        if self.files:
            line += f", {self.files / seconds:,.0f} files/s, {bytes_told(self.bytes / seconds)}/s"
            if not looking:
                line += f", {time_told(self._left(files, size, seconds))} left"
        return line

    def _left(self, files: int, size: int, seconds: float) -> float:
        """How long the rest takes: small files by their number, large ones by their bytes, of which small ones that are read say little."""
        rate = max(self.bytes / seconds, LEAST_RATE)
        return max((files - self.files) * seconds / self.files, (size - self.bytes) / rate)

    def _write(self, line: str) -> None:
        assert self._stream is not None
        end = "\r" if self._terminal else "\n"
        self._stream.write((line[:WIDTH].ljust(WIDTH) if self._terminal else line) + end)
        self._stream.flush()

    def close(self) -> None:
        """Takes the line away."""
        if self._stream is not None and self._terminal:
            self._write("")
