"""What the tests share: the example files, a run of the program, and small files of every kind."""

import os
import shutil
import signal
import subprocess
import sys
from pathlib import Path

import pytest

HERE = Path(__file__).resolve().parent
TOP = HERE.parent.parent
sys.path.insert(0, str(HERE.parent / "src"))
sys.path.insert(0, str(HERE))

import segywb  # noqa: E402
from segywb import program  # noqa: E402

# A shell's job in the background ignores an interrupt, and one of the tests sends itself one.
signal.signal(signal.SIGINT, signal.default_int_handler)


@pytest.fixture
def example(tmp_path):
    """Copies an example file, and gives its path."""

    def copied(name):
        return shutil.copy(TOP / "examples" / f"{name}.sgy", tmp_path)

    return copied


@pytest.fixture
def opened(example):
    """Opens a copy of an example file, or a file; closes it at the end."""
    volumes = []

    def volume(name, **options):
        path = name if os.path.sep in str(name) else example(name)
        volumes.append(segywb.open(path, **options))
        return volumes[-1]

    yield volume
    for one in volumes:
        one.close()


@pytest.fixture
def fake(tmp_path, monkeypatch):
    """Makes a program of the lines of a Python script the one that is run."""

    def made(script):
        path = tmp_path / "fake"
        path.write_text(f"#!{sys.executable}\nimport os, sys, time\n" + script)
        path.chmod(0o755)
        monkeypatch.setenv("SEGYWB", str(path))
        return path

    return made


def run(path, script, *options):
    """A run of the program over a script: its answers as a text, and its status."""
    words = [program.find(), os.fspath(path), "--script", "/dev/stdin", *options]
    sent = script if isinstance(script, bytes) else "".join(f"{line}\n" for line in script).encode("utf-8", "surrogateescape")
    done = subprocess.run(words, input=sent, stdout=subprocess.PIPE, stderr=subprocess.PIPE, check=False)
    return done.stdout.decode("utf-8", "surrogateescape"), done.returncode
