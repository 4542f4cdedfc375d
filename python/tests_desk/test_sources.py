"""The modules of the page, as eslint reads them."""

import os
import shutil
import subprocess

import pytest
from conftest import SOURCES, TOP

STATIC = SOURCES / "segywb" / "desk" / "static"


def linted(*paths):
    """What eslint says of these modules, and its exit status. Its own modules lie where Debian has them."""
    words = ["eslint", "--no-eslintrc", "-c", TOP / "python" / "eslint.json", "-f", "unix", *paths]
    places = os.pathsep.join(["/usr/share/nodejs", "/usr/lib/nodejs"])
    done = subprocess.run(
        words,
        cwd=paths[0].parent,
        env={**os.environ, "NODE_PATH": places},
        capture_output=True,
        text=True,
        check=False,
    )
    return done.stdout + done.stderr, done.returncode


@pytest.mark.skipif(not shutil.which("eslint"), reason="eslint is not installed")
def test_the_modules_are_sound(tmp_path):
    assert linted(*sorted(STATIC.glob("*.js"))) == ("", 0)
    for wrong in (
        "export const a = b;",
        "let a = 1; export const c = () => { let d; };",
        "export const e = 1 == '1';",
    ):
        path = tmp_path / "wrong.js"
        path.write_text(wrong + "\n")
        told, status = linted(path)
        assert status == 1 and "wrong.js:1" in told, (wrong, told)


def test_no_module_is_long():
    for path in [*STATIC.glob("*.js"), *(SOURCES / "segywb" / "desk").glob("*.py")]:
        assert len(path.read_text().splitlines()) < 800, path
