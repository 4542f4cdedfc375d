"""Helpers by the names of ``segyio.tools``."""

from __future__ import annotations

from typing import Any, List, Optional, Sequence, Union

from .arrays import numpy
from .fields import BinField, TraceField
from .volume import Volume


def dt(volume: Volume, fallback_dt: float = 4000.0) -> float:
    """The sample interval in microseconds, as ``segyio.tools.dt`` tells it.

    It is that of the binary header and of the first trace where they agree, the one that is not 0 where the other is, else ``fallback_dt``.

    >>> with segywb.open("cube.sgy") as v:
    ...     segywb.tools.dt(v)
    4000.0
    """
    binary = volume.getbin(BinField.Interval)
    trace = volume.get(1, TraceField.TRACE_SAMPLE_INTERVAL) if len(volume) else 0
    if binary == trace or not trace:
        return float(binary or fallback_dt)
    return float(fallback_dt if binary else trace)


def sample_indexes(volume: Volume, t0: float = 0.0, dt_override: Optional[float] = None) -> List[float]:
    """The time of each sample in milliseconds, as ``segyio.tools.sample_indexes`` tells it.

    >>> with segywb.open("cube.sgy") as v:
    ...     segywb.tools.sample_indexes(v)
    [0.0, 4.0, 8.0, 12.0, 16.0]
    """
    step = (dt(volume) if dt_override is None else dt_override * 1000.0) / 1000.0
    return [t0 + at * step for at in range(volume.info.samples)]


def wrap(text: Union[str, Sequence[str]], width: int = 80) -> str:
    """A textual header as lines of that width.

    >>> segywb.tools.wrap("C 1 LINE" + " " * 72 + "C 2 MORE", 80).split("\\n")[1]
    'C 2 MORE'
    """
    whole = text if isinstance(text, str) else "".join(f"{line:<80}" for line in text)
    return "\n".join(whole[at:at + width] for at in range(0, len(whole), width))


def metadata(volume: Volume) -> Any:
    """The inlines, the crosslines and the times of a volume, as lists or arrays.

    >>> with segywb.open("cube.sgy") as v:
    ...     inlines, crosslines, times = segywb.tools.metadata(v)
    ...     inlines.tolist(), times.tolist()
    ([101, 102, 103], [0.0, 4.0, 8.0, 12.0, 16.0])
    """
    np = numpy()
    found = list(volume.inlines()), list(volume.crosslines()), sample_indexes(volume)
    return found if np is None else tuple(np.array(one) for one in found)
