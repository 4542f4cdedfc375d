"""How samples are shown: a gain, a clip, a polarity. A display alone: nothing of it is ever
written. With numpy.
"""

from __future__ import annotations

import importlib
from typing import Any, NamedTuple, Tuple

BALANCES = ("none", "trace", "agc")
LACKS = -128  # the code of what has no sample, or one that is no finite number
FULL = 127
MOST_SORTED = 1 << 20


class Gain(NamedTuple):
    """``percentile`` of the samples, without their signs, is where the colours end. ``balance``:
    ``"none"``, ``"trace"`` (each trace over its root mean square) or ``"agc"`` (each sample over
    the root mean square of a ``window`` of milliseconds around it). ``reverse`` turns the polarity.
    """

    percentile: float = 98.0
    balance: str = "none"
    window: float = 500.0
    reverse: bool = False


def checked(gain: Gain) -> Gain:
    """A gain that makes sense.

    >>> checked(Gain(percentile=0))
    Traceback (most recent call last):
    ...
    ValueError: a percentile is above 0 and at most 100, not 0
    """
    if not 0 < gain.percentile <= 100:
        raise ValueError(f"a percentile is above 0 and at most 100, not {gain.percentile:g}")
    if gain.balance not in BALANCES:
        raise ValueError(f"a balance is one of {', '.join(BALANCES)}, not {gain.balance!r}")
    if not 0 < gain.window < float("inf"):
        raise ValueError(f"a window has milliseconds above 0, not {gain.window:g}")
    return gain


def plain(array: Any) -> Any:
    """Samples as float32, with ``nan`` where none is and where one is no finite number.

    >>> import numpy as np
    >>> plain(np.ma.MaskedArray([[1, 2]], mask=[[False, True]])).tolist()
    [[1.0, nan]]
    >>> plain(np.array([[np.inf, 0.5]])).tolist()
    [[nan, 0.5]]
    """
    np = _numpy()
    with np.errstate(over="ignore"):
        made = np.array(np.ma.getdata(array), dtype=np.float32)
    made[~np.isfinite(made) | np.ma.getmaskarray(array)] = np.nan
    return made


def gained(values: Any, step: float, gain: Gain) -> Tuple[Any, float]:
    """Samples (``plain``, a row for each trace, ``step`` milliseconds apart) under a gain, and the
    number at which the colours end.

    >>> import numpy as np
    >>> samples = np.array([[3, -4], [0, 0]], dtype=np.float32)
    >>> made, end = gained(samples, 4.0, Gain(percentile=100, balance="trace", reverse=True))
    >>> made.astype(float).round(3).tolist(), round(end, 3)
    ([[-0.849, 1.131], [-0.0, -0.0]], 1.131)
    """
    np = _numpy()
    made = values
    if gain.balance == "trace":
        made = _over(np, made, np.sqrt(_mean(np, np.square(made, dtype=np.float64))))
    elif gain.balance == "agc":
        made = _over(np, made, _around(np, made, max(1, int(round(gain.window / (step or 1.0))))))
    sizes = np.abs(made).ravel()
    some = sizes[:: 1 + len(sizes) // MOST_SORTED]
    some = some[np.isfinite(some)]
    end = float(np.percentile(some, gain.percentile)) if len(some) else 0.0
    if not end and len(some):
        end = float(np.nanmax(sizes))
    return (-made if gain.reverse else made), end or 1.0


def codes(values: Any, end: float) -> Any:
    """Samples as bytes from -127 to 127, which stand for the ends of the colours; -128 is none.

    >>> import numpy as np
    >>> codes(np.array([[1.0, -9.0, np.nan, 0.0]], dtype=np.float32), 2.0).tolist()
    [[64, -127, -128, 0]]
    """
    np = _numpy()
    with np.errstate(invalid="ignore", over="ignore"):
        made = np.rint(np.clip(values * (FULL / end), -FULL, FULL))
    return np.where(np.isnan(made), LACKS, made).astype(np.int8)


def _mean(np: Any, squares: Any) -> Any:
    """The mean of each row without what is no number; 0 where it has none."""
    known = ~np.isnan(squares)
    return (np.where(known, squares, 0).sum(axis=1) / np.maximum(known.sum(axis=1), 1))[:, None]


def _around(np: Any, values: Any, size: int) -> Any:
    """The root mean square of so many samples around each one; at the ends of those there are."""
    known = ~np.isnan(values)
    squares = np.square(np.where(known, values, 0), dtype=np.float64)
    wide = values.shape[1]
    at = np.arange(wide)
    low, high = np.maximum(at - size // 2, 0), np.minimum(at - size // 2 + size, wide)
    sums, counts = (
        np.concatenate(
            [np.zeros((len(values), 1)), np.cumsum(one, axis=1, dtype=np.float64)], axis=1
        )
        for one in (squares, known)
    )
    return np.sqrt(
        np.maximum(sums[:, high] - sums[:, low], 0)
        / np.maximum(counts[:, high] - counts[:, low], 1)
    )


def _over(np: Any, values: Any, by: Any) -> Any:
    """Values over their sizes; what has no size stays."""
    return (values / np.where(by > 0, by, 1)).astype(np.float32)


def _numpy() -> Any:
    return importlib.import_module("numpy")
