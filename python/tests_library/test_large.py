"""What is done otherwise with large files, tried on small ones; and files with bytes at random."""

import hashlib
import json
import os
import random

import files
import pytest
from conftest import TOP, library, rows

from segywb.library import asking, digests, facts, reading

EXAMPLES = sorted((TOP / "examples").glob("*.sgy"))


def read(path):
    return reading.read(facts.Task(os.fsencode(path), 0, path.stat().st_size), 60)


@pytest.mark.parametrize("path", EXAMPLES, ids=lambda path: path.name)
def test_on_disk_and_side_by_side(path, monkeypatch):
    """The same is found of a file that is left on disk, and whose digests are taken side by side in many blocks."""
    whole = read(path)
    monkeypatch.setattr(asking, "IN_MEMORY_BYTES", 0)
    monkeypatch.setattr(digests, "LARGE", 0)
    monkeypatch.setattr(digests, "BLOCK", 1000)
    assert read(path) == whole and whole.columns["state"] == "read"


def test_digests_in_blocks(tmp_path, monkeypatch):
    """Wherever the traces begin and end among the blocks."""
    data = random.Random(3).randbytes(5000)
    (tmp_path / "a").write_bytes(data)
    descriptor = os.open(tmp_path / "a", os.O_RDONLY)
    for large in (0, 1 << 30):
        monkeypatch.setattr(digests, "LARGE", large)
        for block, begin, end in ((1, 10, 20), (999, 999, 1998), (1000, 3600, 5000), (7, 0, 5000), (1 << 20, 4999, 5000), (100, 5000, 5000)):
            monkeypatch.setattr(digests, "BLOCK", block)
            wanted = hashlib.sha256(data).hexdigest(), hashlib.md5(data).hexdigest(), hashlib.md5(data[begin:end]).hexdigest()
            assert digests.of(descriptor, 5000, (begin, end), float("inf")) == wanted
    with pytest.raises(digests.Slow):
        digests.of(descriptor, 5000, None, 0.0)
    os.close(descriptor)


@pytest.mark.parametrize("more", [(), ("--in-place",)], ids=["over", "in place"])
def test_a_mend_on_disk(few, tmp_path, monkeypatch, more):
    """Also where the program can repair a file in place at the end of its lines alone."""
    monkeypatch.setattr(asking, "IN_MEMORY_BYTES", 0)
    library("scan", "--db", tmp_path / "lib.db", few)
    (tmp_path / "fix.txt").write_text("renumber 5 8 inline 102 0\n")
    words = ["mend", "--db", tmp_path / "lib.db", "--script", tmp_path / "fix.txt", "--where", "name = 'wrong_line.sgy'"]
    inode = (few / "wrong_line.sgy").stat().st_ino
    assert "4 bytes changed" in library(*words, "--over", "--keep", tmp_path / "keep", "--apply", *more)
    assert (few / "wrong_line.sgy").read_bytes() == (few / "cube.sgy").read_bytes()
    assert ((few / "wrong_line.sgy").stat().st_ino == inode) == bool(more)
    assert library("verify", "--db", tmp_path / "lib.db") == "1 files are what the trail says, 0 are not\n"
    library("undo", "--db", tmp_path / "lib.db", "--run", "1", "--apply")
    assert (few / "wrong_line.sgy").read_bytes() == (TOP / "examples" / "wrong_line.sgy").read_bytes()


def test_bytes_at_random(tmp_path):
    """Whatever stands in a file, it gets a row: all of them, by one scan."""
    dice = random.Random(11)
    folder = tmp_path / "files"
    folder.mkdir()
    sources = [path.read_bytes() for path in EXAMPLES]
    files.extended(tmp_path / "extended")
    files.stanzas(tmp_path / "stanzas")
    sources += [(tmp_path / name).read_bytes() for name in ("extended", "stanzas")]
    for number in range(300):
        data = bytearray(dice.choice(sources))
        for _ in range(dice.randint(1, 6)):
            data[dice.choice((dice.randrange(len(data)), dice.randrange(3200, 3600)))] = dice.choice((0, 1, 2, 127, 128, 255, dice.randrange(256)))
        (folder / f"{number}").write_bytes(data[:dice.choice((len(data), len(data), dice.randrange(len(data))))])
    told = library("scan", "--db", tmp_path / "lib.db", folder)
    assert "0 failed" in told
    taken, others = rows(tmp_path / "lib.db", "SELECT (SELECT count(*) FROM file), (SELECT count(*) FROM other)")[0]
    assert taken + others == 300 and taken > 200


def test_the_corners_of_a_survey(tmp_path):
    """The outline of one whose lines stand in order has its four corners, turned as it may be; that of a line its two ends."""
    for inlines, crosslines, count in ((20, 30, 4), (1, 600, 2), (700, 1, 2)):
        traces = []
        for number in range(inlines * crosslines):
            i, x = divmod(number, crosslines)
            whole = bytearray(files.trace(number + 1, 100 + i, 200 + x, [1, 2]))
            whole[180:188] = (1000 + 40 * x - 30 * i).to_bytes(4, "big", signed=True) + (5000 + 30 * x + 40 * i).to_bytes(4, "big", signed=True)
            traces.append(bytes(whole))
        told = read(files.write(tmp_path / "a", files.header(), files.binary(), *traces)).columns
        assert (told["inlines"], told["crosslines"]) == (inlines, crosslines)
        corners = {(1000.0 + 40 * x - 30 * i, 5000.0 + 30 * x + 40 * i) for i in (0, inlines - 1) for x in (0, crosslines - 1)}
        assert len(corners) == count and {tuple(place) for place in json.loads(told["outline"])} == corners
