"""Times `v.section` of 1,000 traces of 1,500 samples: seconds of a processor in the program and in Python, the least of four."""

import os
import subprocess
import sys
import tempfile
import time
from pathlib import Path

import segywb

TURNS = 4
SURVEY = Path(__file__).resolve().parent / "survey"
# a name, how many traces the file has, and its format
FILES = [
    ("16-bit samples", 1000, 3), ("IEEE floats", 1000, 5), ("IBM floats", 1000, 1), ("16-bit samples, out of 100,000 traces", 100000, 3),
]


def of_processor(pid):
    """The seconds of a processor that a process has had."""
    fields = Path(f"/proc/{pid}/stat").read_text().rpartition(")")[2].split()
    return sum(map(int, fields[11:13])) / os.sysconf("SC_CLK_TCK")


def row(name, volume, call):
    """The least of each."""
    took = []
    for _ in range(TURNS):
        program, own = of_processor(volume.pid), time.process_time()
        call()
        took.append((of_processor(volume.pid) - program, time.process_time() - own))
    print(f"{name:60} {min(one for one, _ in took):8.2f} {min(one for _, one in took):8.2f}")


def coarse(volume):
    """Each eighth sample."""
    reading = volume.section_reading(volume.section_traces(inline=1), coarse=8)
    while reading.part < 1 / 8:
        reading.more(1 << 18)


def main():
    """All files, in a folder that goes away."""
    print(f"{'1,000 traces of 1,500 samples by v.section':60} {'program':>8} {'Python':>8}")
    with tempfile.TemporaryDirectory() as room:
        for name, traces, form in FILES:
            path = Path(room) / "section.sgy"
            subprocess.run(["bash", str(SURVEY), str(path), str(traces), "1500", str(form)], check=True)
            with segywb.open(path) as volume:
                row(name, volume, lambda: volume.section(inline=1))
                if (traces, form) == (1000, 3):
                    row("16-bit samples, every eighth", volume, lambda: coarse(volume))


if sys.argv[1:]:
    sys.exit("usage: speed/python_sections.py")
main()
