"""Junk behind the last sound trace that is as long as whole traces, and sound files that look a little like it."""

import os
import random
import sqlite3

import files
import pytest
from conftest import TOP, library, rows, settle

from segywb.library import asking, facts, reading, tails

KINDS = ("cube", "floats", "varying", "stanzas", "extended")
FILLS = (b"\xff", b"These are no traces. ", b"\x40", b"\x20", b"\xde\xad\xbe\xef")


def told(path, data):
    """What the row of a file with these bytes says: traces of junk, bytes, and whether they are zeros."""
    path.write_bytes(data)
    found = reading.read(facts.Task(os.fsencode(path), 0, len(data)), 60).columns
    assert found["state"] != "failed", found
    return tuple(found.get(name) for name in ("trailing_traces", "trailing_bytes", "trailing_zeros"))


def made(tmp_path, name):
    """A sound file, and the bytes of a trace of it that has the binary header's number of samples."""
    data = getattr(files, name)(tmp_path / "sound").read_bytes()
    return data, {"cube": 246, "floats": 248, "varying": 256, "stanzas": 244, "extended": 484}[name]


@pytest.mark.parametrize("name", KINDS)
def test_zeros(tmp_path, monkeypatch, name):
    """As long as whole traces, and longer by some bytes: that file is refused, and all of its zeros are told."""
    data, size = made(tmp_path, name)
    monkeypatch.setattr(tails, "BLOCK", 1000)
    assert told(tmp_path / "a", data) == (0, None, None)
    for count in (1, 2, 3, 70):
        assert told(tmp_path / "a", data + bytes(count * size)) == (count, count * size, 1)
    assert told(tmp_path / "a", data + bytes(5 * size + 9)) == (5, 5 * size + 9, 1)
    assert told(tmp_path / "a", data + bytes(9)) == (0, 9, 1)
    assert told(tmp_path / "a", data + bytes(size - 1) + b"x") == (0, None, None)  # samples below a header of zeros


@pytest.mark.parametrize("fill", FILLS, ids=["ff", "text", "ebcdic blanks", "blanks", "deadbeef"])
def test_other_bytes(tmp_path, fill):
    """Text, one byte again and again: whole traces and a rest; with zeros behind, as a last block has them."""
    data, size = made(tmp_path, "cube")
    for count in (1, 2, 3, 40):
        assert told(tmp_path / "a", data + (fill * 10000)[:count * size]) == (count, count * size, 0)
    assert told(tmp_path / "a", data + (fill * 10000)[:2 * size] + bytes(7 * size)) == (9, 9 * size, 0)
    assert told(tmp_path / "a", data + (fill * 10000)[:2 * size + 3]) == (2, 2 * size + 3, 0)


def test_bytes_at_random(tmp_path):
    data, size = made(tmp_path, "cube")
    dice = random.Random(5)
    assert [told(tmp_path / "a", data + dice.randbytes(count * size))[0] for count in (1, 2, 40)] == [1, 2, 40]


def test_left_on_disk(tmp_path, monkeypatch):
    """The same of large files, of which the program's hint does not say how many bytes are left."""
    data, size = made(tmp_path, "cube")
    monkeypatch.setattr(asking, "IN_MEMORY_BYTES", 0)
    assert told(tmp_path / "a", data + bytes(700 * size)) == (700, 700 * size, 1)
    assert told(tmp_path / "a", data + bytes(3 * size + 9)) == (3, 3 * size + 9, 1)
    assert told(tmp_path / "a", data[:-9]) == (0, size - 9, 0)


def changed(data, *places):
    """A file of `cube` with other numbers in its traces: the trace from 0, the byte from 1, the size, the number."""
    whole = bytearray(data)
    for trace, byte, size, number in places:
        at = 3599 + 246 * trace + byte
        whole[at:at + size] = number.to_bytes(size, "big", signed=number < 0)
    return bytes(whole)


def cleared(data):
    """The same with no number but the offset, which ends at 0 over samples of 0: a gather that hardly has headers."""
    traces = [bytearray(246) for _ in range(12)]
    for number, trace in enumerate(traces):
        trace[36:40] = (50 * (number - 11)).to_bytes(4, "big", signed=True)
    return data[:3600] + b"".join(traces)


def test_sound_files(tmp_path):
    """Odd and wrong headers are none of junk: numbers that begin anew, dead traces, a last trace that is wrong in three places."""
    data, size = made(tmp_path, "cube")
    last = range(12)
    odd = {
        "dead": data[:-6] + bytes(6), "header lost": data[:-246] + bytes(240) + data[-6:], "twice": data + data[-246:], "text alone": data[:3600],
        "a second survey": data + data[3600:], "no numbers": changed(data, *((at, 5, 4, 0) for at in last)), "gather": cleared(data),
        "all zeros": data[:3600] + bytes(12 * size), "no samples told": changed(data, *((at, 115, 4, 0) for at in last)),
        "scalar of its own": changed(data, *((at, 71, 2, 7) for at in last)),
        "other lengths told": changed(data, *((at, byte, 2, 777) for at in last for byte in (71, 115, 117))),
        "a wrong last one": changed(data, (11, 115, 2, 9), (11, 117, 2, 2000)), "one that goes on": changed(data, (11, 115, 2, 9), (11, 117, 2, 2000), (11, 71, 2, 7)),
        "wrong here and there": changed(data, *((at, byte, 2, 777) for at in (3, 11) for byte in (5, 71, 115, 117))),
    }
    for what, one in odd.items():
        assert told(tmp_path / "a", one) == (0, None, None), what
    assert told(tmp_path / "a", changed(data, *((11, byte, 2, 777) for byte in (5, 71, 115, 117)))) == (1, 246, 0)


def test_sound_examples(undisturbed, tmp_path):
    """None of the 2,000 files, and none of the examples."""
    library("scan", "--db", tmp_path / "lib.db", *sorted((TOP / "examples").glob("*.sgy")))
    for database in (undisturbed, tmp_path / "lib.db"):
        assert rows(database, "SELECT DISTINCT trailing_traces FROM file WHERE state = 'read' OR refusal = 'L14'") == [(0,)]


def test_it_is_mended(tmp_path):
    """By a script for each number of traces: files with whole traces of zeros, with some bytes more, and with both."""
    whole = (TOP / "examples" / "cube.sgy").read_bytes()
    folder, database = tmp_path / "files", tmp_path / "lib.db"
    folder.mkdir()
    for count in (0, 100, 250, 500, 1100):
        (folder / f"{count}.sgy").write_bytes(whole + bytes(count))
    settle()
    library("scan", "--db", database, folder)
    query = "SELECT name, trailing_traces, trailing_bytes FROM file WHERE trailing_zeros ORDER BY size"
    assert rows(database, query) == [("100.sgy", 0, 100), ("250.sgy", 1, 250), ("500.sgy", 2, 500), ("1100.sgy", 4, 1100)]
    library("report", "--db", database, "--out", tmp_path / "page.html")
    assert "<td class=\"number\">1,100</td><td class=\"number\">4</td>" in (tmp_path / "page.html").read_text()
    script = tmp_path / "drop.txt"
    for count, in rows(database, "SELECT trailing_traces FROM file WHERE trailing_zeros ORDER BY 1"):
        script.write_text("drop tail\n" + "delete last\n" * count)
        where = f"trailing_traces = {count} AND trailing_zeros"
        words = ["mend", "--db", database, "--script", script, "--tail", "--where", where, "--over", "--keep", tmp_path / "old", "--apply"]
        assert "1 were mended" in library(*words)
    assert {path.read_bytes() for path in folder.glob("*.sgy")} == {whole}
    assert rows(database, query) == []


def older(path):
    """The database as an earlier package made it."""
    connection = sqlite3.connect(path)
    connection.execute("ALTER TABLE file DROP COLUMN trailing_traces")
    connection.commit()
    connection.close()


def test_a_database_of_before(few, tmp_path):
    """It is read as it is, gets the column by the next scan, and is merged as a part."""
    (few / "padded.sgy").write_bytes((few / "cube.sgy").read_bytes() + bytes(500))
    settle()
    database, joined = tmp_path / "lib.db", tmp_path / "joined.db"
    library("scan", "--db", database, few)
    older(database)
    library("report", "--db", database, "--out", tmp_path / "page.html", "--csv", tmp_path / "table.csv")
    library("merge", "--db", joined, database)
    assert rows(joined, "SELECT trailing_bytes, trailing_traces FROM file WHERE name = 'padded.sgy'") == [(500, None)]
    library("scan", "--db", database, few, "--again")
    assert rows(database, "SELECT trailing_bytes, trailing_traces FROM file WHERE name = 'padded.sgy'") == [(500, 2)]
