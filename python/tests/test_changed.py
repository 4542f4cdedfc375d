"""A file that another program changes while it is open: an undo and a save notice it, and nothing is saved."""

import os
import shutil
import sys
import time
from pathlib import Path

import pytest

import segywb
from segywb import program


def restored(path, before):
    """The times of the data as they were."""
    os.utime(path, ns=(before.st_atime_ns, before.st_mtime_ns))


def rewritten(path):
    """Other bytes, as many, in the same file, and the time of the data put back."""
    before = os.stat(path)
    whole = bytearray(Path(path).read_bytes())
    whole[-1] ^= 1
    time.sleep(0.05)  # the system's clock goes in steps
    with open(path, "r+b") as file:
        file.write(whole)
    restored(path, before)


def replaced(path):
    """Another file of the same size and the same time of the data under the name."""
    before = os.stat(path)
    whole = bytearray(Path(path).read_bytes())
    whole[-1] ^= 1
    time.sleep(0.05)
    other = Path(f"{path}.other")
    other.write_bytes(whole)
    restored(other, before)
    os.replace(other, path)


@pytest.mark.parametrize("change", [rewritten, replaced])
def test_a_change_that_keeps_size_and_time(opened, tmp_path, change):
    volume = opened("cube")
    volume.set(1, "inline", 7)
    before = os.stat(volume.path)
    change(volume.path)
    after = os.stat(volume.path)
    assert (after.st_size, after.st_mtime_ns) == (before.st_size, before.st_mtime_ns)
    with pytest.raises(segywb.FileChanged):
        volume.undo()
    with pytest.raises(segywb.FileChanged):
        volume.save(tmp_path / "o.sgy")
    with pytest.raises(segywb.FileChanged):
        volume.save(volume.path, replace=True)
    assert not (tmp_path / "o.sgy").exists() and os.stat(volume.path).st_ctime_ns == after.st_ctime_ns
    assert volume.edits == ["set 1 inline 7"] and volume.get(1, "inline") == 7


@pytest.mark.parametrize("change", [rewritten, replaced])
def test_a_change_before_the_saving_program_loads_the_file(opened, tmp_path, monkeypatch, change):
    """The program that saves takes the changed file for the one that was opened; so Python looks once more behind the load."""
    (tmp_path / "slow").write_text(
        f"#!{sys.executable}\nimport os, sys, time\n"
        "if '--out' in sys.argv:\n"
        "    open(sys.argv[1] + '.wait', 'w').close()\n"
        "    while os.path.exists(sys.argv[1] + '.wait'):\n        time.sleep(0.01)\n"
        f"os.execv({program.find()!r}, [{program.find()!r}, *sys.argv[1:]])\n"
    )
    (tmp_path / "slow").chmod(0o755)
    monkeypatch.setenv("SEGYWB", str(tmp_path / "slow"))
    volume = opened("cube")
    volume.set(1, "inline", 7)
    child = os.fork()
    if child == 0:
        try:
            while not os.path.exists(f"{volume.path}.wait"):
                time.sleep(0.01)
            change(volume.path)
            os.remove(f"{volume.path}.wait")
        finally:
            os._exit(0)
    with pytest.raises(segywb.FileChanged):
        volume.save(tmp_path / "o.sgy")
    os.waitpid(child, 0)
    assert not (tmp_path / "o.sgy").exists() and volume.edits == ["set 1 inline 7"]


@pytest.mark.parametrize("call", [lambda v: v.headers("inline"), lambda v: v.grid, lambda v: v.set(2, "inline", 8)], ids=["headers", "grid", "set"])
def test_what_the_volume_does_itself_is_no_change(opened, tmp_path, call):
    volume = opened("cube")
    volume.set(1, "inline", 7)
    volume.save(tmp_path / "o.sgy")
    call(volume)
    volume.save(volume.path, replace=True)
    call(volume)
    volume.set(1, "inline", 9)
    assert volume.undo() == ["set 1 inline 9"] and volume.get(1, "inline") == 7
    volume.save(volume.path, replace=True)
    with segywb.open(volume.path) as again:
        assert again.get(1, "inline") == 7


def test_a_save_over_another_link_of_the_file(opened, tmp_path):
    """OUT is a new file, and FILE keeps the old bytes: it has lost a link, and nothing else has changed."""
    volume = opened("cube")
    before = Path(volume.path).read_bytes()
    os.link(volume.path, tmp_path / "link.sgy")
    volume = opened(volume.path)
    volume.set(1, "inline", 7)
    volume.save(tmp_path / "link.sgy", replace=True)
    assert Path(volume.path).read_bytes() == before
    assert volume.edits == ["set 1 inline 7"] and volume.undo() == ["set 1 inline 7"] and volume.get(1, "inline") == 101
    with segywb.open(tmp_path / "link.sgy") as saved:
        assert saved.get(1, "inline") == 7


def test_a_link_that_is_made_is_a_change(opened, tmp_path):
    """As for the program: whatever sets the time of change makes the file another one."""
    volume = opened("cube")
    volume.set(1, "inline", 7)
    time.sleep(0.05)
    os.link(volume.path, tmp_path / "link.sgy")
    with pytest.raises(segywb.FileChanged):
        volume.save(tmp_path / "o.sgy")


def test_a_file_that_is_moved_away(opened, tmp_path):
    volume = opened("cube")
    volume.set(1, "inline", 7)
    shutil.move(volume.path, tmp_path / "away.sgy")
    with pytest.raises(segywb.FileChanged):
        volume.undo()
    assert volume.get(1, "inline") == 7 and volume.edits == ["set 1 inline 7"]
