"""What pip installs for the desk."""

import os
import shutil
import subprocess
import sys
from pathlib import Path

import pytest
from conftest import TOP

PAGE = TOP / "man" / "segywb-desk.1"


@pytest.fixture(scope="module")
def env(tmp_path_factory):
    """A venv with the package in it, made without a network."""
    if subprocess.run([sys.executable, "-c", "import pip"], capture_output=True, check=False).returncode != 0:
        pytest.skip("pip is not installed")
    room = tmp_path_factory.mktemp("install")
    for name in ("python", "dist", "man"):
        shutil.copytree(TOP / name, room / name, ignore=shutil.ignore_patterns("__pycache__", "tests*"))
    made = room / "env"
    subprocess.run([sys.executable, "-m", "venv", "--system-site-packages", "--without-pip", str(made)], check=True)
    words = [str(made / "bin" / "python"), "-m", "pip", "install", "-q", "--no-index", "--disable-pip-version-check", "--ignore-installed", "./python"]
    done = subprocess.run(words, cwd=room, capture_output=True, text=True, check=False)
    assert done.returncode == 0, done.stderr
    return made


def test_the_command_and_its_man_page(env):
    assert os.access(env / "bin" / "segywb-desk", os.X_OK)
    assert (env / "share" / "man" / "man1" / "segywb-desk.1").read_bytes() == PAGE.read_bytes()


def test_man_finds_the_page(env):
    if not shutil.which("man"):
        pytest.skip("man is not installed")
    words = {"PATH": f"{env}/bin:/usr/bin:/bin", "HOME": str(env)}
    done = subprocess.run(["man", "-w", "segywb-desk"], env=words, capture_output=True, text=True, check=False)
    assert Path(done.stdout.strip()) == env / "share" / "man" / "man1" / "segywb-desk.1", done.stderr


def test_pip_takes_the_page_away(env):
    words = [str(env / "bin" / "python"), "-m", "pip", "uninstall", "-q", "-y", "segywb"]
    done = subprocess.run(words, capture_output=True, text=True, check=False)
    assert done.returncode == 0, done.stderr
    assert not (env / "share" / "man" / "man1" / "segywb-desk.1").exists() and not (env / "bin" / "segywb-desk").exists()
