"""The exceptions of the package. All of them are a ``segywb.Error``."""

from __future__ import annotations

import os
import re
from typing import Any, Dict, List, Optional, Sequence, Tuple

_PARTS = {"E07": "T", "E08": "M"}
# what arguments of `segywb.open` the program's options are; those of the first list have a value
_VALUED = ("max-bytes", "order", "samples", "format", "texts")
_TRUE = ("fixed", "floats", "on-disk", "opaque-samples", "tail")
_READ_WITH = re.compile(r"^segywb: FILE can be read with ((?:--.*)): [0-9]+ traces?(?:[ ,;(].*)?$", re.M)


class Error(Exception):
    """Whatever the package refuses or cannot do."""


class Refused(Error):
    """The program refused a line. Nothing has changed.

    ``code`` is the code of the manual (``E01``), ``part`` the second code of a text or a name (``T02``, ``M06``) or ``None``,
    ``text`` what stands behind them, ``numbers`` the whole numbers in it, and ``line`` the line that was refused.
    """

    def __init__(self, answer: str, line: str = "") -> None:
        self.answer = answer
        self.line = line
        self.code, self.part, self.text = _split(answer)
        self.numbers: Tuple[int, ...] = tuple(int(word) for word in re.findall(r"-?\d+", self.text))
        super().__init__(answer, line)

    def __str__(self) -> str:
        told = " ".join(word for word in (self.code, self.part, self.text) if word)
        return f"{told}: {_short(self.line)}" if self.line else told


class LoadRefused(Refused):
    """The file is refused (the codes ``L01`` to ``L17``). ``status`` is the program's exit status.

    ``hint`` is what the program says to do, and ``arguments`` names the arguments of ``segywb.open`` for the options in it. ``readings`` are those
    that the program says would fit, each as arguments of ``segywb.open`` beside those that were given: ``segywb.open(path, **refusal.readings[0])``.

    >>> refusal = LoadRefused("load refused L07 gain format", "line.sgy", 3, "with --opaque-samples the file is read all the same")
    >>> refusal.arguments
    ('opaque_samples=True',)
    >>> print(refusal)
    L07 gain format: line.sgy (with --opaque-samples the file is read all the same; in Python --opaque-samples is opaque_samples=True)
    """

    def __init__(
        self, answer: str, path: str = "", status: Optional[int] = None, hint: str = "", readings: Sequence[Dict[str, Any]] = ()
    ) -> None:
        super().__init__(answer, path)
        self.path = path
        self.status = status
        self.hint = hint
        self.readings: List[Dict[str, Any]] = [dict(one) for one in readings]
        self._options = options(hint)

    @property
    def arguments(self) -> Tuple[str, ...]:
        """The arguments of ``segywb.open`` for the options that the hint names, in its order.

        >>> try:
        ...     segywb.open("wrong_floats.sgy", floats=False)
        ... except segywb.LoadRefused as refusal:
        ...     refusal.arguments
        ('floats=True', 'opaque_samples=True')
        """
        return tuple(argument for _, argument in self._options)

    def __str__(self) -> str:
        inside = [self.hint] if self.hint else []
        if self._options:
            inside.append("in Python " + ", ".join(f"{option} is {argument}" for option, argument in self._options))
        if self.readings:
            inside.append("segywb.open may read it with " + ", or with ".join(_called(one) for one in self.readings))
        return super().__str__() + (f" ({'; '.join(inside)})" if inside else "")


def hint_of(refusal: str, told: str) -> str:
    """What the program tells on standard error of a file that is refused so, without the refusal.

    >>> hint_of("L03 short 1", "segywb: a.sgy: L03 short 1 (the two file headers have 3600 bytes)\\n")
    'the two file headers have 3600 bytes'
    """
    _, found, rest = told.rpartition(f": {refusal} (")
    first, *more = rest.splitlines() if found else [""]
    said = [first[:-1] if first.endswith(")") else first, *(line[len("segywb: "):] for line in more if line.startswith("segywb: "))]
    return "; ".join(text for text in said if text and " can be read with --" not in text)


def read_with(told: str, path: str) -> List[str]:
    """The words by which the program says that a file that it refuses can be read.

    >>> read_with("segywb: a.sgy: L14 truncated trace 3 (..)\\nsegywb: a.sgy can be read with --samples 1500: 3 traces\\n", "a.sgy")
    ['--samples 1500']
    >>> read_with("segywb: a.sgy can be read with --tail: 2 traces, and what stands behind as bytes of no trace\\n", "a.sgy")
    ['--tail']
    """
    return list(dict.fromkeys(_READ_WITH.findall(told.replace(f"segywb: {path} can be", "segywb: FILE can be"))))


def readings_of(told: str, path: str) -> List[Dict[str, Any]]:
    """The same readings as arguments of ``segywb.open``.

    >>> readings_of("segywb: a.sgy can be read with --format 5 --floats: 120 traces\\nsegywb: a.sgy can be read with --texts 2: 1 trace\\n", "a.sgy")
    [{'format': 5, 'floats': True}, {'texts': 2}]
    >>> readings_of("segywb: a.sgy can be read with --tail: 1 trace, and what stands behind as bytes of no trace\\n", "a.sgy")
    [{'tail': True}]
    """
    return [reading for reading in map(_reading, read_with(told, path)) if reading]


def _reading(words: str) -> Dict[str, Any]:
    """Words of a command line as arguments of ``segywb.open``; none where one of them is not known here."""
    reading: Dict[str, Any] = {}
    coming = iter(words.split(" "))
    for word in coming:
        name = word[2:]
        if name in _TRUE:
            reading[name.replace("-", "_")] = True
        elif name in _VALUED:
            value = next(coming, "")
            if name != "order" and not value.isdigit():
                return {}
            reading[name.replace("-", "_")] = value if name == "order" else int(value)
        else:
            return {}
    return reading


def options(hint: str) -> Tuple[Tuple[str, str], ...]:
    """The options of the command line that a hint names, with what they are as arguments of ``segywb.open``.

    >>> options("--max-bytes N raises the limit; --order big or --order little; --fixed, or leave out --order")
    (('--max-bytes N', 'max_bytes=N'), ('--order big', 'order="big"'), ('--order little', 'order="little"'), ('--fixed', 'fixed=True'), ('--order', 'order'))
    """
    found: Dict[str, str] = {}
    for option, name, value in re.findall(r"(--([a-z]+(?:-[a-z]+)*)(?: (big\b|little\b|[A-Z0-9]+\b))?)", hint):
        argument = name.replace("-", "_")
        if name in _VALUED:
            found[option] = f"{argument}={_quoted(value)}" if value else argument
        elif name in _TRUE:
            found[f"--{name}"] = f"{argument}=True"
    return tuple(found.items())


def _called(reading: Dict[str, Any]) -> str:
    return ", ".join(f"{name}={value!r}" for name, value in reading.items())


def _quoted(value: str) -> str:
    return f'"{value}"' if value.islower() else value


class ProgramNotFound(Error):
    """There is no program ``segywb`` to run."""


class ProgramEnded(Error):
    """The program ended, was killed, or wrote what is not expected.

    ``status`` is its exit status (negative: the signal that ended it), ``stderr`` what it wrote on standard error. What was accepted
    before is kept: the next call starts a new session and gives it the accepted edits.
    """

    def __init__(self, why: str, status: Optional[int] = None, stderr: str = "") -> None:
        super().__init__(why, status, stderr)
        self.why = why
        self.status = status
        self.stderr = stderr

    def __str__(self) -> str:
        words = [self.why]
        if self.status is not None:
            words.append(f"signal {-self.status}" if self.status < 0 else f"status {self.status}")
        if self.stderr.strip():
            words.append(self.stderr.strip())
        return "; ".join(words)


class OptionRefused(ProgramEnded):
    """The program does not accept an option that was asked for (status 2)."""


class SaveFailed(ProgramEnded):
    """The save failed. ``stderr`` is the program's own text, ``status`` its exit status."""


class RepairCutOff(Error):
    """A repair of the file itself was cut off: the file is neither the old one nor the edited one. ``segywb.recover(path)`` puts the old bytes back.

    >>> print(RepairCutOff("line.sgy", ""))
    line.sgy: an earlier repair was cut off; segywb.recover('line.sgy') puts the old bytes back
    """

    def __init__(self, path: str, told: str) -> None:
        super().__init__(path, told)
        self.path = path
        self.told = told

    def __str__(self) -> str:
        return f"{self.path}: an earlier repair was cut off; segywb.recover({self.path!r}) puts the old bytes back"


class FileChanged(Error):
    """The file is no longer the one that was opened, so the edits cannot be applied to it."""


class PathRefused(Error, ValueError):
    """A path that is not UTF-8: the program takes none of these. ``path`` is the path."""

    def __init__(self, path: str) -> None:
        super().__init__(path)
        self.path = path

    def __str__(self) -> str:
        return f"the path {os.fsencode(self.path)!r} is not UTF-8, and the program takes no other: give the file or its folder another name"


class Closed(Error):
    """The volume is closed."""


class CsvRefused(Error, ValueError):
    """A CSV that cannot be taken onto traces. Nothing has changed. ``why`` says what is wrong, ``line`` where it stands, ``column`` in which one.

    >>> print(CsvRefused("an empty cell", 7, "x"))
    line 7, column 'x': an empty cell
    """

    def __init__(self, why: str, line: Optional[int] = None, column: Optional[str] = None) -> None:
        super().__init__(why, line, column)
        self.why = why
        self.line = line
        self.column = column

    def __str__(self) -> str:
        where = [f"line {self.line}"] if self.line is not None else []
        where += [f"column {self.column!r}"] if self.column is not None else []
        return f"{', '.join(where)}: {self.why}" if where else self.why


class FitRefused(Error, ValueError):
    """The inlines, crosslines and coordinates of these traces tell no bin grid; the text says why."""


def _split(answer: str) -> Tuple[str, Optional[str], str]:
    words = answer.split(" ", 1)[1] if answer.startswith("refused ") else answer
    if words.startswith("load refused "):
        words = words[len("load refused "):]
    code, _, rest = words.partition(" ")
    first, _, behind = rest.partition(" ")
    if re.fullmatch(_PARTS.get(code, "(?!)") + r"\d\d", first):
        return code, first, behind
    return code, None, rest


def _short(line: str) -> str:
    return line if len(line) <= 100 else line[:100] + ".."
