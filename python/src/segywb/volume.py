"""A SEG-Y file under edits."""

from __future__ import annotations

import os
from typing import Any, List, Optional, Sequence

from . import lines, program
from .answers import Answer
from .engine import Engine
from .errors import ProgramEnded
from .gains import Gain
from .history import Step
from .lines import Field, Path, number
from .repairs import InPlace
from .sections import Sections

# The program's own limits on a file, on disk and in memory. The first one is told in both, so that no edit is refused in memory alone; a file
# above the second one is not read into memory unless it is asked for.
MOST_BYTES = 1 << 40
MOST_IN_MEMORY = 1 << 32


class Volume(Sections):
    """A SEG-Y file under edits, made by ``segywb.open``.

    Traces count from 1, samples of a trace from 0, as in the program. A line that the program refuses is a ``segywb.Refused``, and then
    nothing has changed.
    """

    def __init__(
        self, path: Path, fixed: bool = False, opaque_samples: bool = False, max_bytes: Optional[int] = None, order: Optional[str] = None,
        on_disk: bool = False, floats: bool = True, samples: Optional[int] = None, format: Optional[int] = None, texts: Optional[int] = None,
        tail: bool = False
    ) -> None:
        floats = floats and program.knows("--floats")
        options = ["--fixed"] if fixed else []
        options += ["--floats"] if floats else []
        options += ["--opaque-samples"] if opaque_samples else []
        options += ["--order", order] if order is not None else []
        for name, value in (("--samples", samples), ("--format", format), ("--texts", texts)):
            options += [name, number(value)] if value is not None else []
        options += ["--tail"] if tail else []
        options += ["--max-bytes", number(_limit(path, on_disk) if max_bytes is None else max_bytes)]
        options += ["--on-disk"] if on_disk else []
        self.path = os.fspath(path)
        self._engine = Engine(self.path, options)
        self._table: Optional[bool] = None
        self._asked_floats = floats
        self._format: Optional[int] = None

    # ---- opening and closing

    def close(self) -> None:
        """Ends the program. Nothing is saved.

        >>> v = segywb.open("cube.sgy")
        >>> v.close()
        >>> v.closed
        True
        """
        self._engine.close()

    def restart(self) -> None:
        """Ends the session; a new one is started and given the accepted edits. Calls do this by themselves where a program ended.

        >>> with segywb.open("cube.sgy") as v:
        ...     v.set(1, "inline", 7)
        ...     v.restart()
        ...     v.get(1, "inline")
        7
        """
        self._engine.forget()
        self._engine.session()

    def interrupt(self) -> None:
        """Ends a call that takes too long, from another thread: it becomes a ``ProgramEnded``, and the accepted edits are kept.

        >>> import threading
        >>> with segywb.open("cube.sgy") as v:
        ...     clock = threading.Timer(60, v.interrupt)
        ...     clock.start()
        ...     v.totals.samples
        ...     clock.cancel()
        60
        """
        self._engine.interrupt()

    @property
    def pid(self) -> int:
        """The number of the program's process.

        >>> with segywb.open("cube.sgy") as v:
        ...     v.pid > 0
        True
        """
        return self._engine.session().pid

    @property
    def alive(self) -> bool:
        """Whether the program still runs. It is not asked, and none is started.

        >>> with segywb.open("cube.sgy") as v:
        ...     v.alive
        True
        """
        return self._engine.alive

    @property
    def closed(self) -> bool:
        """Whether the volume is closed.

        >>> with segywb.open("cube.sgy") as v:
        ...     v.closed
        False
        >>> v.closed
        True
        """
        return self._engine.closed

    def __enter__(self) -> "Volume":
        return self

    def __exit__(self, *why: object) -> None:
        self.close()

    def __reduce__(self) -> Any:
        raise TypeError("a volume cannot be sent to another process: open the file there")

    # ---- edits

    def run(self, script: Any, stop: bool = False) -> List[Answer]:
        """Runs a script (a text, or lines) and gives its answers; a refused line is among them, and the run goes on.

        With ``stop`` the script is done whole or not at all: its first refused line is an exception, and nothing has changed.

        >>> with segywb.open("cube.sgy") as v:
        ...     for answer in v.run("set 1 inline 7\\nget 1 inline\\nget 99 inline"):
        ...         print(answer.number, answer.text)
        1 ok
        2 value 7
        3 refused E01 no trace 99 of 12
        """
        run = self._engine.run_whole if stop else self._engine.run
        return run(lines.of_script(script))

    @property
    def edits(self) -> List[str]:
        """The accepted edits, as lines of a script: ``segywb FILE --script`` with them gives the same file.

        >>> with segywb.open("cube.sgy") as v:
        ...     v.set(1, "inline", 7)
        ...     v.delete(12)
        ...     v.edits
        ['set 1 inline 7', 'delete 12']
        """
        return self._engine.history.lines

    @property
    def script(self) -> bytes:
        """The accepted edits as the bytes of a script, also where the program has ended.

        >>> with segywb.open("cube.sgy") as v:
        ...     v.set(1, "inline", 7)
        ...     v.delete(12)
        ...     v.script
        b'set 1 inline 7\\ndelete 12\\n'
        """
        return self._engine.history.sent().sent

    @property
    def steps(self) -> List[Step]:
        """The steps that were accepted, the first one first: ``size`` lines each, from ``first`` to ``last``.

        >>> with segywb.open("cube.sgy") as v:
        ...     v.set_many("inline", slice(1, 4), 7)
        ...     [(step.size, step.first, step.last) for step in v.steps]
        [(3, 'set 1 inline 7', 'set 3 inline 7')]
        """
        return list(self._engine.history.done)

    @property
    def undone_steps(self) -> List[Step]:
        """The steps that were taken back and can be done again, in the order in which ``redo`` does them.

        >>> with segywb.open("cube.sgy") as v:
        ...     v.set(1, "inline", 7)
        ...     told = v.undo()
        ...     [step.first for step in v.undone_steps]
        ['set 1 inline 7']
        """
        return self._engine.history.undone[::-1]

    @property
    def undoable(self) -> int:
        """How many steps can be taken back: a line is a step, and so are all lines of ``set_many`` and ``run(.., stop=True)``.

        >>> with segywb.open("cube.sgy") as v:
        ...     v.set_many("inline", slice(1, 4), 7)
        ...     v.undoable, len(v.edits)
        (1, 3)
        """
        return len(self._engine.history.done)

    @property
    def redoable(self) -> int:
        """How many steps can be done again.

        >>> with segywb.open("cube.sgy") as v:
        ...     v.set(1, "inline", 7)
        ...     told = v.undo()
        ...     v.redoable
        1
        """
        return len(self._engine.history.undone)

    def undo(self, n: int = 1) -> List[str]:
        """Takes the last steps back, and gives their lines.

        >>> with segywb.open("cube.sgy") as v:
        ...     v.set(1, "inline", 7)
        ...     v.undo()
        ...     v.get(1, "inline")
        ['set 1 inline 7']
        101
        """
        return self._engine.undo(n)

    def redo(self, n: int = 1) -> List[str]:
        """Does again the steps that ``undo`` took back last, and gives their lines. A new edit leaves nothing to do again.

        >>> with segywb.open("cube.sgy") as v:
        ...     v.set(1, "inline", 7)
        ...     told = v.undo()
        ...     v.redo()
        ...     v.get(1, "inline")
        ['set 1 inline 7']
        7
        """
        return self._engine.redo(n)

    def in_place(self) -> InPlace:
        """How ``save`` writes the edits over the file itself where it is not told: whether a repair in place is possible, whether it is chosen, and why.

        >>> with segywb.open("cube.sgy") as v:
        ...     v.delete(5)
        ...     v.in_place()
        InPlace(possible=False, chosen=False, why="the edit 'delete 5' needs a new file: traces come, go, move or get another length")
        """
        return self._engine.in_place()

    def save(self, path: Optional[Path] = None, replace: bool = False, in_place: Optional[bool] = None) -> None:
        """Writes the edited file. A file that is there is written over with ``replace`` alone; without a path it is the file itself, which is written over.

        A save over the file itself is a repair in place or a new file beside it, which then takes its name. In place the changed bytes alone are written,
        under a journal of the old ones (``segywb.recover`` puts these back where it was cut off). That is chosen where the file has more than
        1,000,000,000 bytes and no other hard link, and no edit moved, added, took away or resized traces: ``v.in_place()`` tells. ``in_place=False`` saves
        beside in any case; with ``in_place=True`` edits that need a new file are a ``SaveFailed``.

        Behind a save over the file itself it is the file of this volume: ``edits`` begins anew, with the names that ``map`` bound.

        >>> import os, tempfile
        >>> out = os.path.join(tempfile.mkdtemp(), "mended.sgy")
        >>> with segywb.open("cube.sgy") as v:
        ...     v.set(1, "inline", 7)
        ...     v.save(out)
        >>> with segywb.open(out) as v:
        ...     v.set(2, "inline", 7)
        ...     v.save()
        ...     v.edits, v.get(2, "inline")
        ([], 7)
        """
        own = path is None or _leads_to(path, self._engine.path)
        if in_place and not own:
            raise ValueError(f"in_place=True writes into {self.path} itself, and {os.fspath(path or '')} is another path")
        if in_place:
            self._repair()
        elif in_place is False or not own or not (path is None or replace) or not self._engine.repaired():
            self._engine.save(self._engine.path if path is None else os.fspath(path), replace or path is None)

    def _repair(self) -> None:
        self._engine.repair()

    # ---- shown

    def __repr__(self) -> str:
        if self.closed:
            return f"<segywb.Volume {self.path!r}, closed>"
        try:
            return f"<segywb.Volume {self.path!r}, {len(self)} traces, {len(self.edits)} edits>"
        except ProgramEnded as error:
            return f"<segywb.Volume {self.path!r}, {error}>"

    def plot_headers(
        self, *names: Field, traces: Any = None, path: Optional[Path] = None,
        where: Optional[str] = None
    ) -> List[Any]:
        """Draws header fields against the number of the trace, by matplotlib: ``v.plot_headers("inline", "x", path="headers.png")``.

        One picture below the other; of many traces the least and the greatest number of each pixel. ``traces`` and ``where`` as for ``headers``.
        The axes are given back, one for each field.

        >>> import os, tempfile
        >>> with segywb.open("cube.sgy") as v:
        ...     len(v.plot_headers("inline", "x", path=os.path.join(tempfile.mkdtemp(), "headers.png")))
        ...     (drawn,) = v.plot_headers("x", where="inline = 102", path=os.path.join(tempfile.mkdtemp(), "some.png"))
        ...     drawn.lines[0].get_xdata().tolist()
        2
        [5, 6, 7, 8]
        """
        from . import pictures

        return pictures.headers(self, *names, traces=traces, path=path, where=where)

    def plot_section(
        self, traces: Any = None, style: str = "density", gain: Gain = Gain(), colours: str = "grey", above: Sequence[Field] = (), path: Optional[Path] = None,
        where: Optional[str] = None, **values: int
    ) -> List[Any]:
        """Draws a section by matplotlib, which is chosen as for ``section``: ``v.plot_section(inline=1100, path="section.png")``.

        ``style``: ``"density"``, ``"wiggles"`` with filled peaks, or ``"both"``. ``gain``: ``segywb.Gain(percentile=98, balance="agc", window=500)``, which
        says at which percentile of the samples the colours end, and whether traces are balanced (``"trace"``) or under an automatic gain control
        (``"agc"``) with a window in milliseconds; ``reverse=True`` turns the polarity. ``colours``: ``"grey"``, ``"red-white-blue"`` or
        ``"purple-white-orange"``, which colour-blind eyes can tell apart. ``above``: header fields that are drawn above it. A display alone: no sample is
        changed. With ``path`` the picture is saved there. The axes are given back, that of the section last. It needs numpy and matplotlib.
        With ``where`` it is of the traces that meet its conditions (see ``count``).

        >>> import os, tempfile
        >>> with segywb.open("cube.sgy") as v:
        ...     axes = v.plot_section(inline=102, style="both", above=["x"], path=os.path.join(tempfile.mkdtemp(), "section.png"))
        ...     axes[-1].get_xlabel(), axes[-1].get_ylabel()
        ('crossline', 'time (ms)')
        >>> with segywb.open("cube.sgy") as v:
        ...     axes = v.plot_section(where="crossline > 202", inline=102, path=os.path.join(tempfile.mkdtemp(), "some.png"))
        ...     axes[-1].get_title()
        'inline 102, where crossline > 202'
        """
        from . import pictures

        return pictures.section(self, traces, style, gain, colours, above, path, where, **values)

    def _repr_html_(self) -> str:
        from .html import page

        return page(self)


def _leads_to(path: Path, other: Path) -> bool:
    """Whether both paths are of one file."""
    try:
        return os.path.samefile(path, other)
    except OSError:
        return False


def _limit(path: Path, on_disk: bool) -> int:
    """The limit on the bytes of a file where none is named."""
    return MOST_IN_MEMORY if not on_disk and os.stat(path).st_size > MOST_IN_MEMORY else MOST_BYTES
