"""A volume on the desk: what was loaded, what it is now, and what the last step changed. One thread at a time works on it."""

from __future__ import annotations

import os
from typing import Any, Callable, Dict, List, NamedTuple, Optional, Sequence, Tuple, Union

import numpy as np

import segywb

from .. import answers, arrays, program
from ..errors import FileChanged, LoadRefused, OptionRefused
from ..fields import TRACE_NAMES
from ..lines import of_script
from ..volume import Volume
from . import mirror, refusals
from .maps import Axis, Cells
from .mirror import Mirror, silent

RANGES = ("inline", "crossline", "offset", "x", "y")
QUESTIONS = ("info", "totals", *(f"range {which}" for which in RANGES), "histogram", "inlines", "crosslines", "fields")
MOST_SHOTS = 12
MOST_ANSWER = 400
# Bytes of a trace header that tell where a sample stands in time: delay and interval, from the first to behind the last.
TIMES = (109, 119)


class Shot(NamedTuple):
    """The survey between two steps: what its headers say, and what the program answers about it."""

    steps: int
    mirror: Mirror
    told: Dict[str, str]
    inlines: Any
    crosslines: Any


def counted(answer: str) -> Any:
    """The numbers of a list of numbers with their counts, as two rows.

    >>> counted("inlines 1\\ninline 101 8").tolist()
    [[101], [8]]
    """
    head, _, rest = answer.partition("\n")
    word = rest.partition(" ")[0]
    numbers = arrays.parse(rest.replace(word + " ", "").encode(), 2 * int(head.split(" ")[1]))
    return np.asarray(numbers, dtype=np.int64).reshape(-1, 2).T


class Desk:
    """The file, its session, and what is shown of it."""

    def __init__(
        self,
        path: str,
        out: Optional[str] = None,
        fixed: bool = False,
        max_bytes: Optional[int] = None,
        order: Optional[str] = None,
        on_disk: Optional[bool] = None,
        samples: Optional[int] = None,
        format: Optional[int] = None,
        texts: Optional[int] = None,
        tail: bool = False,
    ) -> None:
        self.path = os.path.abspath(path)
        self.out = os.path.abspath(out) if out else None
        self.large = on_disk is None and is_large(self.path)
        self._options: Dict[str, Any] = {
            "fixed": fixed, "max_bytes": max_bytes, "order": order, "on_disk": bool(on_disk) or self.large, "samples": samples, "format": format, "texts": texts,
            "tail": tail,
        }
        self.recovered = ""
        self._again = b""
        self.opaque = False
        self.version = 0
        self.edited: Optional[int] = None  # the version before the last edit, where that edit is the last step
        self.sampled = 0  # the last version in which a sample, or the position of a trace, may have become another
        self.opened_at = 0  # the version in which the file as it was loaded became another: by a save over it
        self.gridded = True  # whether the map comes first: of several inlines and crosslines, and where samples have no values
        self.kept_cells: List[Tuple[Mirror, Axis, Axis, Cells]] = []
        self._pending: List[str] = []
        self._shots: List[Shot] = []
        self._loaded: Optional[Shot] = None
        self._now: Optional[Shot] = None
        self._before: Optional[Shot] = None
        self._volume: Optional[Volume] = None
        self._original: Optional[Volume] = None
        self._stamp: Tuple[int, ...] = ()

    # ---- opening

    def load(self, told: Callable[[str, int, int], None] = lambda phase, done, of: None) -> None:
        """Opens the file, where it is not open, and reads the lines of all traces."""
        told("the file", 0, 0)
        self.open()
        assert self._volume is not None
        told("inlines and crosslines", 0, len(self._volume))
        read = mirror.read(self._volume, mirror.LINES, lambda done, of: told("inlines and crosslines", done, of))
        self._now = self._loaded = self._shot(read)
        self._shots = [self._now]
        self.gridded = self.opaque or all(one.shape[1] > 1 for one in (self._now.inlines, self._now.crosslines))
        self.version += 1
        if self._again:
            script, self._again = self._again, b""
            self.run_script(script)

    def open(self) -> None:
        """Opens the file: a refused one is an exception."""
        if self._volume is None:
            self._stamp = look(self.path)
            self._volume = self._opened()

    def refused(self, refusal: LoadRefused) -> Tuple[str, List[refusals.Reading]]:
        """What the program says of the file that it refuses, and the readings that would take it."""
        told = f"{refusal.answer} ({refusal.hint})" if refusal.hint else refusal.answer
        return told, refusals.readings(self.path, self._options, refusal.readings)

    def looked(self) -> List[List[str]]:
        """What the head of the file says, and its length."""
        return refusals.looked(self.path, self._options)

    def recover(self) -> None:
        """Puts the old bytes back where a repair of the file was cut off. It is opened anew then, and the edits that were accepted are done again."""
        back = segywb.recover(self.path)
        self.recovered = f"{back.bytes:,} old bytes in {back.pieces:,} pieces were put back" if back else "no journal was there"
        if self._volume is not None:
            self._again = self._volume.script
        self.close()
        self._volume = self._before = self.edited = None
        self._pending = []

    def read_as(self, reading: refusals.Reading) -> None:
        """The file is opened by this reading from now on."""
        self._options.update(reading.options)
        self.opaque = False

    @property
    def words(self) -> List[str]:
        """The options with which the program reads the file as it is read here."""
        floats = self._volume is not None and self._volume.has_floats
        return refusals.words_of({**self._options, "floats": floats, "opaque_samples": self.opaque})

    @property
    def reading(self) -> List[str]:
        """Of these options those that say how the bytes are read."""
        return refusals.words_of({name: self._options[name] for name in refusals.READING})

    @property
    def declarable(self) -> bool:
        """Whether the reading says something that the edit ``declare`` can write into the binary header, and none has."""
        said = bool(refusals.words_of({name: self._options[name] for name in refusals.DECLARED}))
        return said and program.knows("--samples") and not any(b"declare" in step.sent for step in self.volume.steps)

    def _opened(self) -> Volume:
        try:
            return segywb.open(self.path, opaque_samples=self.opaque, **self._options)
        except LoadRefused as refusal:
            if self.opaque or refusal.code not in refusals.OPAQUE:
                raise
            self.opaque = True
            try:
                return segywb.open(self.path, opaque_samples=True, **self._options)
            except OptionRefused:
                raise refusal from None

    @property
    def opened(self) -> bool:
        """Whether the file is open, so that there may be edits."""
        return self._volume is not None

    @property
    def volume(self) -> Volume:
        """The volume. It is there once the file is loaded."""
        if self._volume is None:
            raise segywb.Closed("the file is not loaded")
        return self._volume

    @property
    def original(self) -> Volume:
        """A second session, over the file as it was loaded: for what is shown of it beside the edited one."""
        if self._original is None:
            self._same_file()
            self._original = self._opened()
            try:
                self._same_file()
            except FileChanged:
                self.forget_original()
                raise
        return self._original

    def _same_file(self) -> None:
        """The file must be the one that was loaded: what another program made of it is not shown as that."""
        if look(self.path) != self._stamp:
            raise FileChanged(f"{self.path} is no longer the file that was opened")

    def forget_original(self) -> None:
        """Ends the second session."""
        if self._original is not None:
            self._original.close()
            self._original = None

    def interrupt(self) -> None:
        """Ends the program, also while another thread waits for it."""
        if self._volume is not None:
            self._volume.interrupt()

    def close(self) -> None:
        """Ends both sessions."""
        self.forget_original()
        if self._volume is not None:
            self._volume.close()

    @property
    def alive(self) -> bool:
        """Whether the program still runs, as far as can be seen without asking it."""
        return self._volume is None or self._volume.alive

    # ---- shots

    def _shot(self, read: Mirror) -> Shot:
        got = {one.line: one.text for one in self.volume.run(list(QUESTIONS))}
        return Shot(self.volume.undoable, read, got, counted(got["inlines"]), counted(got["crosslines"]))

    def _sound(self, shot: Shot) -> bool:
        """Whether the columns are those of the program's answers: their inlines and crosslines occur as often as it says."""
        for name, wanted in (("inline", shot.inlines), ("crossline", shot.crosslines)):
            numbers = shot.mirror.columns[name]
            if not len(numbers) or not len(wanted[0]):
                return len(numbers) == len(wanted[0])
            if numbers.min() < wanted[0][0] or numbers.max() > wanted[0][-1]:
                return False
            axis = Axis(wanted[0], np.arange(len(wanted[0])), [])
            at = axis.places(numbers)
            if not np.array_equal(wanted[0][at], numbers) or not np.array_equal(np.bincount(at, minlength=len(wanted[0])), wanted[1]):
                return False
        return True

    def now(self) -> Shot:
        """The survey as it is, brought up to date where lines were accepted since. Each edit asks it first, so that what is marked is what
        that edit changed."""
        assert self._now is not None
        if self._pending:
            lines, self._pending = self._pending, []
            last = self._now
            shot = self._shot(mirror.followed(last.mirror, self.volume, lines))
            self._keep(shot if self._sound(shot) else self._anew())
            self._before = last
        return self._now

    def _anew(self) -> Shot:
        names = list(self._now.mirror.columns) if self._now else list(mirror.LINES)
        return self._shot(mirror.read(self.volume, names))

    def _keep(self, shot: Shot) -> None:
        self._now = shot
        self._shots = [one for one in self._shots if one.steps < shot.steps] + [shot]
        if len(self._shots) > MOST_SHOTS:
            del self._shots[1]

    @property
    def loaded(self) -> Shot:
        """The survey as it was loaded."""
        assert self._loaded is not None
        return self._loaded

    @property
    def before(self) -> Optional[Shot]:
        """The survey before the last edit; nothing where the last step took one back."""
        self.now()
        return self._before

    def widen(self, names: Sequence[str]) -> Tuple[Shot, Shot]:
        """Reads further fields of all traces: of the survey as it was loaded, and as it is."""
        now = self.now()
        if all(name in now.mirror.columns for name in names):
            return self.loaded, now
        wide = now._replace(mirror=mirror.wider(mirror.narrowed(now.mirror, names), self.volume, names))
        self._keep(wide)
        if now is self._loaded:
            self._loaded = wide
        return self.loaded, wide

    def wide_loaded(self, names: Sequence[str]) -> Shot:
        """The survey as it was loaded, with these fields."""
        if not all(name in self.loaded.mirror.columns for name in names):
            self._loaded = self.loaded._replace(mirror=mirror.wider(self.loaded.mirror, self.original, names))
        return self.loaded

    # ---- lines

    def run(self, line: str) -> Dict[str, Any]:
        """Runs one line, and tells its answer; a long one in part."""
        self.now()
        got = self.volume.run(of_script(line))
        self.accepted([one.line for one in got if one.accepted])
        return {"answers": [shown(one.line, one.text) for one in got], "version": self.version}

    def run_script(self, script: Union[str, bytes]) -> Dict[str, Any]:
        """Runs a script as one step: whole, or where a line of it is refused not at all."""
        self.now()
        try:
            got = self.volume.run(of_script(script), stop=True)
        except segywb.Refused as refusal:
            return {"refused": shown(refusal.line, refusal.answer), "version": self.version}
        edits = [one.line for one in got if one.accepted]
        self.accepted(edits)
        queries = [shown(one.line, one.text) for one in got if not one.accepted]
        return {"edits": len(edits), "answers": queries[:100], "queries": len(queries), "version": self.version}

    def accepted(self, lines: List[str]) -> None:
        """What the program has accepted, in the order in which it was done: a new version, where it is anything."""
        if lines:
            self._pending += lines
            self.edited = self.version
            self.version += 1
            self._touched(lines)

    def _touched(self, lines: Sequence[str]) -> None:
        """These lines were done, or taken back: whether samples, positions or times may be others now."""
        fields, known = self.volume.fields(), {}
        for line in lines:
            words = line.split()
            names = mirror.written(words)
            for name in names:
                if name not in known:
                    span = mirror.spanned(fields.get(name, TRACE_NAMES.get(name, name)))
                    known[name] = span is None or (span[0] < TIMES[1] and TIMES[0] < span[1])
            if any(known[name] for name in names) if names else words[0] not in ("map", "unmap", "text"):
                self.sampled = self.version
                return

    def undo(self) -> Dict[str, Any]:
        """Takes the last step back."""
        self.now()
        lines = self.volume.undo(1)
        earlier = [one for one in self._shots if one.steps == self.volume.undoable]
        self._pending = []
        self._keep(earlier[-1] if earlier else self._anew())
        self._before = self.edited = None
        self.version += 1
        self._touched(lines)
        return {"lines": shortened(lines), "version": self.version}

    def redo(self) -> Dict[str, Any]:
        """Does the step again that was taken back last."""
        self.now()
        lines = self.volume.redo(1)
        self.accepted(lines)
        return {"lines": shortened(lines), "version": self.version}

    def restart(self) -> Dict[str, Any]:
        """Starts the session anew with the accepted edits."""
        self.forget_original()
        self.volume.restart()
        self._pending = []
        before = self._before
        self._keep(self._anew())
        self._before = before
        self.version += 1
        return {"version": self.version}

    def settled(self) -> None:
        """After a save over the file itself: what is now is what was loaded."""
        self.forget_original()
        self._stamp = look(self.path)
        self._loaded = self._now = self._anew()
        self._shots, self._before, self.edited = [self._now], None, None
        self.version += 1
        self.sampled = self.opened_at = self.version

    def unlinked(self) -> None:
        """After a save that replaced another link of the file: it is the same file, whose number of links has changed, and a time with it."""
        now = look(self.path)
        if now[:-1] == self._stamp[:-1]:
            self._stamp = now

    def bring_original(self, sample: int) -> Any:
        """A slice of the survey as it was loaded."""
        return self.original.slice(sample).rows


def memory() -> int:
    """The bytes of this machine's memory."""
    return os.sysconf("SC_PHYS_PAGES") * os.sysconf("SC_PAGE_SIZE")


def is_large(path: str) -> bool:
    """Whether a file is larger than half the memory, so that its bytes are left on disk where nothing else is said."""
    try:
        return 2 * os.stat(path).st_size > memory()
    except OSError:
        return False


def look(path: str) -> Tuple[int, ...]:
    """What tells a file from another, and from itself with other bytes: also where its size and the time of its bytes are put back. Empty
    where there is none."""
    try:
        found = os.stat(path)
    except OSError:
        return ()
    return found.st_dev, found.st_ino, found.st_size, found.st_mtime_ns, found.st_ctime_ns


def shown(line: str, text: str) -> Dict[str, Any]:
    """A line and its answer as the page gets them: a list's first rows alone, where there are many, and of one that ends in a refusal the refusal."""
    text = answers.refusal_in(text) or text
    rows = text.split("\n", MOST_ANSWER + 1)
    more = rows[MOST_ANSWER + 1].count("\n") + 1 if len(rows) > MOST_ANSWER + 1 else 0
    kind = "refused" if text.startswith("refused ") else "edit" if answers.accepted(text) else "query"
    return {"line": clean(line[:2000]), "text": clean("\n".join(rows[:MOST_ANSWER + 1])), "more": more, "kind": kind}


def shortened(lines: Sequence[str]) -> Dict[str, Any]:
    """The first lines of a step, and how many there are."""
    return {"first": [clean(line[:200]) for line in lines[:20]], "count": len(lines)}


def clean(text: str) -> str:
    """A text that can be sent: bytes that were no UTF-8 are shown as a question mark in a box."""
    return text.encode("utf-8", "surrogateescape").decode("utf-8", "replace")


def span(text: str) -> Optional[List[str]]:
    """The least and the greatest as decimals.

    >>> span("range 45000 900003/2"), span("range none")
    (['45000', '450001.5'], None)
    """
    found = answers.span(text) if text.startswith("range ") else None
    return None if found is None else [f"{float(one):.12g}" for one in found]
