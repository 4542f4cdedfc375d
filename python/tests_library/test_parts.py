"""Parts of a list, as the tasks of an array make them, and their merge."""

import os
import shutil
import signal
import subprocess
import time

import pytest
from conftest import ENVIRONMENT, TOP, command, held, library, rows, settle, started
from test_disturbed import count

PARTS = 3


@pytest.fixture
def listed(master, tmp_path):
    """A list of a few hundred files."""
    names = sorted(str(path) for path in master.rglob("*.sgy"))[:300]
    path = tmp_path / "files.txt"
    path.write_bytes(b"".join(os.fsencode(name) + b"\0" for name in names))
    return path


def test_parts_are_the_whole(listed, tmp_path):
    """Each file stands in one part; the merge of all, in any order and twice, is the scan of the whole list."""
    whole = tmp_path / "whole.db"
    library("scan", "--db", whole, "--list", listed)
    parts = [tmp_path / f"part {number}.db" for number in range(1, PARTS + 1)]
    for number, part in enumerate(parts, 1):
        library("scan", "--db", part, "--list", listed, "--part", f"{number}/{PARTS}", "--jobs", "1")
    names = [name for part in parts for name, in rows(part, "SELECT path FROM file UNION ALL SELECT path FROM other")]
    assert len(names) == len(set(names)) == 300
    joined = tmp_path / "joined.db"
    library("merge", "--db", joined, *reversed(parts))
    assert held(joined) == held(whole)
    library("merge", "--db", joined, *parts)
    assert held(joined) == held(whole)
    assert rows(joined, "SELECT count(*) FROM scan") == [(PARTS,)]
    assert rows(joined, "SELECT count(*) FROM file WHERE scan NOT IN (SELECT id FROM scan)") == [(0,)]


def test_a_part_that_was_killed(listed, tmp_path):
    """Its rows are merged, and it is told that files lack; once it has come to its end they do not."""
    whole, part, joined = (tmp_path / f"{name}.db" for name in ("whole", "part", "joined"))
    library("scan", "--db", whole, "--list", listed, "--jobs", "2")
    scan = started("scan", "--db", part, "--list", listed, "--jobs", "1")
    until = time.monotonic() + 60
    while scan.poll() is None and time.monotonic() < until and count(part) < 20:
        time.sleep(0.002)
    scan.kill()
    assert scan.wait() == -signal.SIGKILL
    told = library("merge", "--db", joined, part, status=1)
    assert "its last scan did not come to its end: go on with it, and merge once more" in told
    assert 20 <= count(joined) < 300
    library("scan", "--db", part, "--list", listed, "--jobs", "2")
    library("merge", "--db", joined, part)
    assert held(joined) == held(whole)


def test_the_later_row_stays(few, tmp_path):
    """Of a file in two databases; a file that is none of SEG-Y any more is none in the merge."""
    first, second, joined = (tmp_path / f"{name}.db" for name in ("first", "second", "joined"))
    library("scan", "--db", first, few)
    shutil.copy(few / "survey.sgy", few / "cube.sgy")
    (few / "twice.sgy").write_bytes(b"a note")
    settle()
    time.sleep(0.01)
    library("scan", "--db", second, few)
    for order in ((first, second), (second, first)):
        joined.unlink(missing_ok=True)
        library("merge", "--db", joined, *order)
        assert held(joined) == held(second)


@pytest.mark.parametrize("mark", [b"\n", b"\0"])
def test_lists(tmp_path, mark):
    """Names that end with a line feed, or with NUL and may hold line feeds; one that is not there is told."""
    names = [b"a b.sgy", b"c.sgy", b"not \xff.sgy"] + ([b"two\nlines.sgy"] if mark == b"\0" else [])
    below = os.fsencode(tmp_path) + b"/"
    for name in names:
        with open(below + name, "wb") as file:
            file.write((TOP / "examples" / "cube.sgy").read_bytes())
    path = tmp_path / "files.txt"
    path.write_bytes(mark.join(below + name for name in [*names, b"absent.sgy"]))
    library("scan", "--db", tmp_path / "lib.db", "--list", path, status=1)
    assert rows(tmp_path / "lib.db", "SELECT count(*) FROM file WHERE state = 'read'") == [(len(names),)]
    assert rows(tmp_path / "lib.db", "SELECT name, trouble FROM file WHERE state = 'failed'") == [("absent.sgy", "No such file or directory")]


def test_a_list_of_standard_input(few, tmp_path):
    names = "\n".join(str(path) for path in sorted(few.glob("*.sgy"))) + "\n"
    done = subprocess.run(command("scan", "--db", tmp_path / "lib.db", "--list", "-"), input=names, env=ENVIRONMENT, text=True, capture_output=True, check=False)
    assert done.returncode == 0 and rows(tmp_path / "lib.db", "SELECT count(*) FROM file") == [(12,)]


def test_a_part_that_is_none(few, tmp_path):
    assert "there is no" in library("merge", "--db", tmp_path / "lib.db", tmp_path / "absent.db", status=4)
    assert "database" in library("merge", "--db", tmp_path / "lib.db", few / "cube.sgy", status=4)
