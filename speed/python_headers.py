"""Times `headers` and `set_many` beside segyio's `attributes` and its loop over headers."""

import shutil
import sys
import tempfile
import time
from pathlib import Path

import numpy as np
import segyio

import segywb

FIELDS = {"inline": 189, "crossline": 193, "offset": 37, "x": 181, "y": 185, "scalar": 71}
WRITTEN = 200_000
SAMPLES = 25
PLACES = {
    "sequence": (4, ">i4"), "offset": (36, ">i4"), "scalar": (70, ">i2"), "samples": (114, ">u2"), "interval": (116, ">u2"),
    "x": (180, ">i4"), "y": (184, ">i4"), "inline": (188, ">i4"), "crossline": (192, ">i4"), "values": (240, (">i2", (SAMPLES,))),
}


def survey(path, traces):
    """Inlines of 1000 crosslines each."""
    kind = np.dtype({
        "names": list(PLACES), "offsets": [at for at, _ in PLACES.values()], "formats": [one for _, one in PLACES.values()],
        "itemsize": 240 + 2 * SAMPLES,
    })
    at = np.arange(traces)
    made = np.zeros(traces, dtype=kind)
    made["sequence"], made["inline"], made["crossline"], made["offset"] = at + 1, at // 1000 + 1, at % 1000 + 1, 100 + at % 7
    made["x"], made["y"], made["scalar"] = 50000000 + 1250 * (at % 1000), 600000000 + 2500 * (at // 1000), -100
    made["samples"], made["interval"] = SAMPLES, 4000
    made["values"] = (7 * at[:, None] + np.arange(SAMPLES)) % 2000 - 1000
    binary = bytearray(400)
    for place, number in ((17, 4000), (21, SAMPLES), (25, 3), (303, 1)):
        binary[place - 1:place + 1] = number.to_bytes(2, "big")
    binary[300] = 1
    with path.open("wb") as file:
        file.write((b"\xc3" + b"\x40" * 79) * 40 + binary)
        made.tofile(file)


def timed(what, call, before=lambda: None):
    """The shortest of three times."""
    times = []
    for _ in range(3):
        got = before()
        start = time.perf_counter()
        told = call(got)
        times.append(time.perf_counter() - start)
    print(f"{what:60} {min(times):8.2f} s")
    return told, min(times)


def reads(path, traces):
    """Six fields of all traces."""
    with segywb.open(path) as volume:
        ours, mine = timed(f"segywb: headers of {len(FIELDS)} fields of {traces} traces", lambda _: volume.headers(*FIELDS))

    def attributes(_):
        with segyio.open(str(path), ignore_geometry=True) as file:
            return [file.attributes(byte)[:] for byte in FIELDS.values()]

    theirs, other = timed(f"segyio: attributes of {len(FIELDS)} fields of {traces} traces", attributes)
    assert all((ours[name] == column).all() for name, column in zip(FIELDS, theirs))
    print(f"{'ratio':60} {mine / other:8.2f}")


def writes(path, traces):
    """One field of many traces."""
    count = min(WRITTEN, traces)
    values = (np.arange(count) * 31 % 9973).tolist()
    with segywb.open(path) as volume:
        _, mine = timed(f"segywb: set_many of {count} values", lambda _: volume.set_many("inline", range(1, count + 1), values))
        ours = volume.headers("inline", traces=range(1, count + 1))["inline"].tolist()
    copied = path.with_suffix(".copy")

    def loop(_):
        with segyio.open(str(copied), "r+", ignore_geometry=True) as file:
            for at, value in enumerate(values):
                file.header[at] = {189: value}

    _, other = timed(f"segyio: header[i] = .. of {count} values", loop, lambda: shutil.copy(path, copied))
    with segyio.open(str(copied), ignore_geometry=True) as file:
        assert file.attributes(189)[:count].tolist() == ours == values
    print(f"{'ratio':60} {mine / other:8.2f}")


def main():
    """Both, on a survey in a folder that goes away."""
    traces = int(sys.argv[1])
    with tempfile.TemporaryDirectory() as room:
        path = Path(room) / "survey.sgy"
        survey(path, traces)
        print(f"segyio {segyio.__version__}, numpy {np.__version__}")
        reads(path, traces)
        writes(path, traces)


main()
