"""The Dask example of examples/ is run as a script, on a cluster of this machine."""

import csv
import io
import os
import shutil
import subprocess
import sys

import pytest
from conftest import HERE, TOP

import segywb

EXAMPLE = TOP / "examples" / "dask_inventory.py"


def rows(folder, *words):
    """The rows that the script prints, without the first."""
    pytest.importorskip("dask.bag", reason="python3-dask is not installed")
    pytest.importorskip("distributed", reason="python3-distributed is not installed")
    clean = {**os.environ, "PYTHONPATH": str(HERE.parent / "src")}
    done = subprocess.run([sys.executable, str(EXAMPLE), str(folder), *words], env=clean, capture_output=True, timeout=300, check=False)
    assert done.returncode == 0, done.stderr.decode()
    told = list(csv.reader(io.StringIO(done.stdout.decode("utf-8", "surrogateescape"), newline="")))
    assert told[0] == ["file", "traces", "samples", "format", "problems", "refused"]
    return told[1:]


def test_inventory(tmp_path):
    """Names of every kind in two folders, a file of floats, and files that are refused."""
    survey = tmp_path / "survey"
    (survey / "in ner").mkdir(parents=True)
    names = ["cube.sgy", "a name.sgy", 'quo"te,.SEGY', "two\nlines.sgy", "in ner/cube.sgy", "twice.sgy", "float_line.sgy"]
    for name in names:
        source = name if (TOP / "examples" / name).exists() else "wrong_line.sgy"
        shutil.copy(TOP / "examples" / source, survey / name)
    (survey / "refused.sgy").write_bytes(b"C")
    (survey / "readme.txt").write_bytes(b"C")
    odd = os.fsdecode(b"not \xff.sgy")
    shutil.copy(survey / "cube.sgy", survey / odd)
    told = {row[0]: row[1:] for row in rows(survey)}
    assert sorted(told) == sorted(str(survey / name) for name in [*names, "refused.sgy", odd])
    for name in names:
        with segywb.open(survey / name, opaque_samples=True) as volume:
            info = volume.info
            wanted = [info.traces, info.samples, info.format, " ".join(one.code for one in volume.problems())]
        assert told[str(survey / name)] == [*map(str, wanted), ""], name
    assert told[str(survey / "refused.sgy")][-1].startswith("L03 short 1")
    assert "is not UTF-8" in told[str(survey / odd)][-1]


def test_an_empty_folder(tmp_path):
    assert rows(tmp_path) == []


def test_the_page_has_the_example():
    """What the page shows of the script stands in it."""
    text = (TOP / "docs" / "PYTHON.md").read_text()
    assert "examples/dask_inventory.py" in text
    shown = next(block for block in text.split("```")[1::2] if "LocalCluster" in block)
    assert "Client(" in shown and "__main__" in shown
    assert all(line in EXAMPLE.read_text().splitlines() for line in shown.splitlines() if line != "..")
