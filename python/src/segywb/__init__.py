"""segywb in Python: SEG-Y files are asked and repaired by a session of the program ``segywb``."""

from __future__ import annotations

from typing import Optional

from . import tools
from .answers import Answer, Extremes, Fault, FloatStatistics, FloatTotals, Geometry, Info, Stanza, Statistics
from .csvs import CsvImport
from .errors import (
    Closed,
    CsvRefused,
    Error,
    FileChanged,
    FitRefused,
    LoadRefused,
    OptionRefused,
    PathRefused,
    ProgramEnded,
    ProgramNotFound,
    Refused,
    RepairCutOff,
    SaveFailed,
)
from .fields import BinField, TraceField
from .fitting import Fit
from .gains import Gain
from .grids import Grid, Slice
from .history import Step
from .looks import Look, look
from .many_samples import Samples
from .problems import Problem, ProblemRun
from .repairs import InPlace, Recovered, recover
from .sections import Section
from .lines import Path
from .volume import Volume

__version__ = "0.1.0"

__all__ = [
    "Answer", "BinField", "Closed", "CsvImport", "CsvRefused", "Error", "Extremes", "Fault", "FileChanged", "Fit", "FitRefused", "FloatStatistics",
    "FloatTotals", "Gain", "Geometry", "Grid", "InPlace", "Info", "LoadRefused", "Look", "OptionRefused", "PathRefused", "Problem", "ProblemRun", "ProgramEnded", "ProgramNotFound",
    "Recovered", "Refused", "RepairCutOff", "SaveFailed", "Samples", "Section", "Slice", "Stanza", "Statistics", "Step", "TraceField", "Volume", "look", "open", "recover", "tools",
]


def open(
    path: Path, fixed: bool = False, opaque_samples: bool = False, max_bytes: Optional[int] = None, order: Optional[str] = None,
    on_disk: bool = False, floats: bool = True, samples: Optional[int] = None, format: Optional[int] = None, texts: Optional[int] = None,
    tail: bool = False
) -> Volume:
    """Opens a SEG-Y file: ``with segywb.open("cube.sgy") as volume: ..``.

    ``fixed``: each trace has the binary header's number of samples. ``floats``: samples of the formats 1, 5 and 6 have their
    values; with ``floats=False`` such a file is refused, or has opaque samples. ``opaque_samples``: read files whose samples have no values here
    (format 4, and floats without ``floats``). ``max_bytes``: the largest file that is read, and the largest that edits may make; where it is left out, edits may make one of
    1099511627776 bytes (1 TiB), in memory and on disk, and one above 4294967296 (4 GiB) is read with ``on_disk`` alone. ``order``: ``"big"`` or ``"little"``, the order of bytes of a file that
    does not tell it. ``on_disk``: leave the bytes of the file on disk, for a file larger than memory; nothing may change it until it is closed.

    Three say what a file is whatever its headers say. ``samples``: each trace has so many samples. ``format``: the code of the samples, in the
    place of bytes 3225-3226. ``texts``: so many extended textual headers. ``Volume.declare`` writes them into the binary header.
    ``tail``: what stands behind the last whole trace, and is less than a trace, is kept as bytes of no trace, where the file is refused without it (L14);
    ``Volume.drop_tail`` takes them away.

    >>> with segywb.open("cube.sgy") as volume:
    ...     len(volume), volume.info.samples
    (12, 5)
    """
    return Volume(
        path, fixed=fixed, opaque_samples=opaque_samples, max_bytes=max_bytes, order=order, on_disk=on_disk, floats=floats, samples=samples,
        format=format, texts=texts, tail=tail,
    )
