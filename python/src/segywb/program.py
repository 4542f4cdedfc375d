"""Which program is run: the one that SEGYWB names, the one in the package, or the shipped one of the repository. And what it knows."""

from __future__ import annotations

import os
import re
import shutil
import subprocess
from pathlib import Path
from typing import Dict, FrozenSet, Iterator, Sequence, Tuple

from .errors import ProgramNotFound

NAME = "segywb-x86_64-linux"
HELP_SECONDS = 10.0
_options: Dict[Tuple[str, int, int], FrozenSet[str]] = {}


def _shipped() -> Iterator[Path]:
    here = Path(__file__).resolve().parent
    yield here / NAME
    if len(here.parents) > 2:
        yield here.parents[2] / "dist" / NAME


def find() -> str:
    """The path of the program."""
    named = os.environ.get("SEGYWB")
    if named:
        return named
    for path in _shipped():
        if os.access(path, os.X_OK):
            return str(path)
    raise ProgramNotFound("there is no program segywb in the package: SEGYWB=.. names one")


def knows(option: str) -> bool:
    """Whether the program has this option, by its help, which is asked for once. One that gives no help has none."""
    path = shutil.which(find()) or find()
    try:
        found = os.stat(path)
        key = (path, found.st_mtime_ns, found.st_size)
        if key not in _options:
            _options[key] = frozenset()
            told = subprocess.run([path, "--help"], stdin=subprocess.DEVNULL, stdout=subprocess.PIPE, stderr=subprocess.DEVNULL, timeout=HELP_SECONDS, check=False)
            _options[key] = frozenset(re.findall(r"--[a-z]+(?:-[a-z]+)*", told.stdout.decode("utf-8", "replace")))
        return option in _options[key]
    except (OSError, subprocess.SubprocessError):
        return False


def environment() -> Dict[str, str]:
    """The environment of a session's program. glibc is asked to take memory in large pages, by which a load is faster; ``GLIBC_TUNABLES`` that is set already stands."""
    return {"GLIBC_TUNABLES": "glibc.malloc.hugetlb=1", **os.environ}


def run(words: Sequence[str]) -> Tuple[int, str, str]:
    """A run to its end, also where this process is interrupted: its status, its answers and what it told."""
    found = find()
    try:
        process = subprocess.Popen(
            [found, *words], stdin=subprocess.DEVNULL, stdout=subprocess.PIPE, stderr=subprocess.PIPE, start_new_session=True
        )
    except OSError as error:
        raise ProgramNotFound(f"cannot run {found}: {error}") from error
    try:
        answers, told = process.communicate()
    finally:
        process.wait()
    return process.returncode, answers.decode("utf-8", "replace"), told.decode("utf-8", "replace").strip()
