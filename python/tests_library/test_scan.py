"""What a scan finds of files, and what it does not read again."""

import hashlib
import os
import sqlite3
import subprocess

import files
import pytest
from conftest import ENVIRONMENT, TOP, as_nobody, command, held, library, reachable, rows, settle

from segywb.library import names


def scan(database, *words, **more):
    """A scan, and what it told."""
    return library("scan", "--db", database, *words, **more)


def test_rows(few, tmp_path):
    """Each column of a file, beside what the program and the bytes say."""
    database = tmp_path / "lib.db"
    told = scan(database, few)
    assert told.startswith("12 files read: 12 loaded, 0 refused, 0 failed\n")
    path = few / "wrong_line.sgy"
    data = path.read_bytes()
    row = rows(
        database, "SELECT name, state, size, modified, sha256, md5, trace_md5, byte_order, revision, format, fixed, traces, samples, interval, "
        "inlines, crosslines, least_length, greatest_length, least_inline, greatest_inline, least_x, greatest_x, greatest_y, least_scalar, outline, alphabet, program "
        "FROM file WHERE path = ?", str(path)
    )[0]
    digests = hashlib.sha256(data).hexdigest(), hashlib.md5(data).hexdigest(), hashlib.md5(data[3600:]).hexdigest()
    outline = "[[450000.0, 6800000.0], [450075.0, 6800000.0], [450075.0, 6800050.0], [450000.0, 6800050.0]]"
    assert row == (
        "wrong_line.sgy", "read", 6600, path.stat().st_mtime_ns, *digests, "big", "1.0", 3, 1, 12, 5, 4000, 2, 4, 5, 5, 101, 103, 450000.0, 450075.0,
        6800050.0, -100, outline, "ebcdic", f"segywb {(TOP / 'VERSION').read_text().strip()}"
    )
    problems = rows(database, "SELECT name, code, count FROM problem JOIN file ON file.id = file ORDER BY name, code")
    assert problems[:3] == [("elsewhere.sgy", "S1", 12), ("float_line.sgy", "F6", 4), ("missing.sgy", "F1", 5)]
    assert rows(database, "SELECT least, greatest FROM header JOIN file ON file.id = file WHERE name = 'cube.sgy' AND field = 'sequence_file'") == [(1, 12)]
    text = rows(database, "SELECT text FROM text JOIN file ON file.id = file WHERE name = 'cube.sgy'")[0][0]
    assert text.splitlines()[0] == "C 1 EXAMPLE CUBE" and len(text.splitlines()) == 40


def test_kinds(tmp_path):
    """Files of every kind: lengths, texts, formats, and what stands behind the last trace."""
    folder = tmp_path / "files"
    folder.mkdir()
    for name in ("cube", "varying", "stanzas", "extended", "empty", "floats"):
        getattr(files, name)(folder / f"{name}.sgy")
    whole = (folder / "cube.sgy").read_bytes()
    (folder / "zeros.sgy").write_bytes(whole + bytes(100))
    (folder / "junk.sgy").write_bytes(whole + b"x")
    (folder / "other header.sgy").write_bytes(whole[:100] + b"\xc1" + whole[101:])
    database = tmp_path / "lib.db"
    scan(database, folder)
    lengths = dict(rows(database, "SELECT name, least_length || '..' || greatest_length FROM file WHERE state = 'read'"))
    assert lengths == {
        "cube.sgy": "3..3", "varying.sgy": "1..3", "stanzas.sgy": "2..2", "extended.sgy": "2..2", "empty.sgy": None, "floats.sgy": "2..2",
        "other header.sgy": "3..3",
    }
    tails = rows(database, "SELECT name, refusal, trailing_bytes, trailing_zeros FROM file WHERE state = 'refused' ORDER BY name")
    assert tails == [("junk.sgy", "L14", 1, 0), ("zeros.sgy", "L14", 100, 1)]
    assert rows(database, "SELECT block, substr(text, 1, 13) FROM text JOIN file ON file.id = file WHERE name = 'stanzas.sgy' AND block > 0") == [(1, "((OGP:P1/90))"), (2, "((SEG: EndTex")]
    assert rows(database, "SELECT files, versions FROM trace_duplicate") == [(2, 2)]
    assert rows(database, "SELECT trace_md5 FROM file WHERE name = 'empty.sgy'") == [(None,)]
    stanzas = (folder / "stanzas.sgy").read_bytes()
    assert rows(database, "SELECT trace_md5 FROM file WHERE name = 'stanzas.sgy'") == [(hashlib.md5(stanzas[10000:]).hexdigest(),)]


def test_duplicates(few, tmp_path):
    (few / "copy.of").write_bytes((few / "cube.sgy").read_bytes())
    database = tmp_path / "lib.db"
    scan(database, few)
    assert rows(database, "SELECT files, size FROM duplicate") == [(2, 6600)]


def test_by_content(tmp_path):
    """A file counts by its content; one that is none of SEG-Y is kept apart, with the reason."""
    folder = tmp_path / "files"
    folder.mkdir()
    files.cube(folder / "data.bin")
    files.write(folder / "no text", bytes(3200), files.binary())
    swapped = bytearray((folder / "data.bin").read_bytes())
    swapped[3296:3300] = b"\2\1\4\3"
    (folder / "pairs").write_bytes(swapped)
    (folder / "cut.sgy").write_bytes(files.header()[:1000])
    for name, data in (("empty.sgy", b""), ("short.sgy", b"x" * 400), ("zeros.sgy", bytes(9000)), ("text.sgy", b"Dear reader,\n" * 900)):
        (folder / name).write_bytes(data)
    database = tmp_path / "lib.db"
    scan(database, folder)
    taken = rows(database, "SELECT name, state, refusal FROM file ORDER BY name")
    assert taken == [("cut.sgy", "refused", "L03"), ("data.bin", "read", None), ("no text", "read", None), ("pairs", "refused", "L04")]
    others = rows(database, "SELECT name, why FROM other ORDER BY name")
    assert others == [("empty.sgy", "empty"), ("short.sgy", "short"), ("text.sgy", "no head of SEG-Y"), ("zeros.sgy", "no head of SEG-Y")]


def test_refusal_with_its_hint(tmp_path):
    data = bytearray(files.cube(tmp_path / "a.sgy").read_bytes())
    data[3296:3300] = b"\2\1\4\3"
    (tmp_path / "a.sgy").write_bytes(data)
    database = tmp_path / "lib.db"
    scan(database, tmp_path / "a.sgy")
    code, text, hint = rows(database, "SELECT refusal, refusal_text, hint FROM file")[0]
    assert (code, text) == ("L04", "pair swapped") and "swapped" in hint and "/proc/" not in hint


def test_what_has_not_changed_is_not_read(few, tmp_path, wrapped):
    """Not by size, times and inode; the others are."""
    log = tmp_path / "log"
    program = wrapped(f'case $2 in --session) echo "$name" >> {log} ;; esac')
    database = tmp_path / "lib.db"
    scan(database, few, SEGYWB=program)
    assert len(log.read_text().splitlines()) == 12
    log.write_text("")
    assert "12 unchanged" in scan(database, few, SEGYWB=program) and log.read_text() == ""
    os.utime(few / "cube.sgy")
    (few / "twice.sgy").write_bytes((few / "survey.sgy").read_bytes())
    (few / "swapped.sgy").replace(few / "moved.sgy")
    (few / "new").write_bytes((few / "survey.sgy").read_bytes())
    os.replace(few / "new", few / "survey.sgy")
    settle()
    told = scan(database, few, SEGYWB=program)
    assert sorted(log.read_text().split()) == [str(few / name) for name in ("cube.sgy", "moved.sgy", "survey.sgy", "twice.sgy")]
    assert "1 gone" in told and rows(database, "SELECT name FROM file WHERE gone IS NOT NULL") == [("swapped.sgy",)]
    log.write_text("")
    scan(database, few, "--again", SEGYWB=program)
    assert len(log.read_text().splitlines()) == 12
    fresh = tmp_path / "fresh.db"
    scan(fresh, few)
    present = [row for row in held(database)[0] if row[13]]
    assert present == held(fresh)[0]
    (few / "moved.sgy").replace(few / "swapped.sgy")
    scan(database, few)
    assert rows(database, "SELECT name FROM file WHERE gone IS NOT NULL") == [("moved.sgy",)]


def test_a_disk_that_is_not_mounted(few, tmp_path):
    """A folder that is empty all at once: it is told, the rows stay, and once the files are back none is read again."""
    database = tmp_path / "lib.db"
    scan(database, few)
    few.rename(tmp_path / "elsewhere")
    few.mkdir()
    done = subprocess.run(command("scan", "--db", database, few), env=ENVIRONMENT, capture_output=True, text=True, check=False)
    assert f"{few}: it is empty, and the files that it had count as gone; is its disk mounted?" in done.stderr
    assert "12 gone" in done.stdout and rows(database, "SELECT count(*) FROM file WHERE gone IS NOT NULL AND sha256 IS NOT NULL") == [(12,)]
    few.rmdir()
    (tmp_path / "elsewhere").rename(few)
    assert "12 unchanged" in scan(database, few)
    assert rows(database, "SELECT count(*) FROM file WHERE gone IS NULL") == [(12,)]


def test_a_file_that_was_just_written(few, tmp_path):
    """Where its times are so young that a change could leave them, the next scan reads it again."""
    from segywb.library.facts import Stamp
    from segywb.library.reading import settled

    second = 10**9
    assert settled(Stamp(1, 7 * second + 1, 7 * second + 1, 1), 8 * second) and not settled(Stamp(1, 7 * second + 1, 7 * second + 1, 1), 7 * second + 10**6)
    assert not settled(Stamp(1, 7 * second, 7 * second, 1), 8 * second) and settled(Stamp(1, 7 * second, 7 * second, 1), 10 * second)
    database = tmp_path / "lib.db"
    scan(database, few)
    connection = sqlite3.connect(database)
    connection.execute("UPDATE file SET settled = 0 WHERE name = 'cube.sgy'")
    connection.commit()
    connection.close()
    assert "1 files read" in scan(database, few) and "0 files read" in scan(database, few)


def test_a_file_becomes_another(few, tmp_path):
    """From SEG-Y to something else, and back: it stands in one table alone."""
    database = tmp_path / "lib.db"
    scan(database, few)
    data = (few / "cube.sgy").read_bytes()
    (few / "cube.sgy").write_bytes(b"no more")
    settle()
    scan(database, few)
    assert rows(database, "SELECT name, why FROM other") == [("cube.sgy", "short")] and rows(database, "SELECT count(*) FROM file") == [(11,)]
    assert rows(database, "SELECT count(*) FROM text WHERE file NOT IN (SELECT id FROM file)") == [(0,)]
    (few / "cube.sgy").write_bytes(data)
    settle()
    scan(database, few)
    assert rows(database, "SELECT count(*) FROM other") == [(0,)] and rows(database, "SELECT count(*) FROM file") == [(12,)]
    (few / "note.txt").write_bytes(b"a note")
    scan(database, few)
    (few / "note.txt").unlink()
    scan(database, few)
    assert rows(database, "SELECT count(*) FROM other") == [(0,)]


ODD = [b"a b.sgy", b"two\nlines.sgy", b'quo"te\'s.sgy', b"not \xff utf8.sgy", b"back\\xff.sgy", b"-n", b"tab\t.sgy", b"*?[a].sgy", b"in\xfe/line.sgy", "größe.sgy".encode()]


def test_names(tmp_path):
    """Names of every kind: each is read, and its text gives its path."""
    folder = os.fsencode(tmp_path) + b"/files"
    for name in ODD:
        path = folder + b"/" + name
        os.makedirs(os.path.dirname(path), exist_ok=True)
        with open(path, "wb") as file:
            file.write((TOP / "examples" / "cube.sgy").read_bytes())
    settle()
    database = tmp_path / "lib.db"
    scan(database, os.fsdecode(folder))
    told = rows(database, "SELECT path, state, traces FROM file")
    assert {names.path_of(path) for path, _, _ in told} == {folder + b"/" + name for name in ODD}
    assert {(state, traces) for _, state, traces in told} == {("read", 12)}
    assert f"{tmp_path}/files/not \\xff utf8.sgy" in {path for path, _, _ in told}
    library("report", "--db", database, "--out", tmp_path / "page.html", "--csv", tmp_path / "table.csv")
    assert scan(database, os.fsdecode(folder)).startswith("0 files read")


@pytest.mark.parametrize("words", [(), ("--follow",)])
def test_links(tmp_path, words):
    """Links in a circle, to nothing, to a file and to a folder: none is followed, or each folder is listed once."""
    folder = tmp_path / "files"
    (folder / "in").mkdir(parents=True)
    elsewhere = tmp_path / "elsewhere"
    elsewhere.mkdir()
    files.cube(folder / "cube.sgy")
    files.cube(elsewhere / "far.sgy", 2)
    (folder / "in" / "back").symlink_to(folder)
    (folder / "itself").symlink_to("itself")
    (folder / "nothing").symlink_to("absent")
    (folder / "link.sgy").symlink_to("cube.sgy")
    (folder / "far").symlink_to(elsewhere)
    database = tmp_path / "lib.db"
    scan(database, folder, *words)
    wanted = ["cube.sgy", "far.sgy", "link.sgy"] if words else ["cube.sgy"]
    assert sorted(name for name, in rows(database, "SELECT name FROM file")) == wanted
    assert rows(database, "SELECT count(*) FROM unlisted") == [(0,)]


def test_the_command_line(few, tmp_path):
    database = tmp_path / "lib.db"
    assert "scan wants folders" in library("scan", "--db", database, status=2)
    assert "--part is for --list" in library("scan", "--db", database, few, "--part", "1/2", status=2)
    assert "--part wants K/N" in library("scan", "--db", database, "--list", "x", "--part", "3/2", status=2)
    assert "one of them" in library("scan", "--db", database, few, "--jobs", "1", "--workers", "1", status=2)
    assert "No such file" in library("scan", "--db", database, few, tmp_path / "absent", status=4)
    (tmp_path / "text.db").write_text("no database, but a text that is long enough for one" * 9)
    assert "text.db" in library("scan", "--db", tmp_path / "text.db", few, status=4)
    connection = sqlite3.connect(tmp_path / "other.db")
    connection.execute("CREATE TABLE mine (a)")
    connection.close()
    assert "no database of segywb-library" in library("scan", "--db", tmp_path / "other.db", few, status=4)
    assert rows(tmp_path / "other.db", "SELECT name FROM sqlite_master") == [("mine",)]
    assert "cannot run /nowhere/segywb" in library("scan", "--db", database, few, SEGYWB="/nowhere/segywb", status=5)


def test_what_may_not_be_read(few, tmp_path):
    """A folder that may only be read is scanned; what may not be read is told, and counts neither as gone nor as unchanged."""
    if not reachable(tmp_path):
        pytest.skip("this is not root, or another user cannot read the package")
    (few / "inner").mkdir()
    (few / "inner" / "line.sgy").write_bytes((few / "cube.sgy").read_bytes())
    for path in [few / "inner" / "line.sgy", few / "inner", *few.glob("*.sgy"), few]:
        path.chmod(0o444 if path.is_file() else 0o555)
    out = tmp_path / "out"
    out.mkdir()
    out.chmod(0o777)
    assert as_nobody("scan", "--db", out / "lib.db", few).returncode == 0
    assert rows(out / "lib.db", "SELECT count(*) FROM file WHERE state = 'read'") == [(13,)]
    (few / "inner").chmod(0o700)
    (few / "cube.sgy").chmod(0o400)
    done = as_nobody("scan", "--db", out / "lib.db", few)
    assert done.returncode == 1 and "1 folders could not be listed" in done.stdout and "0 gone" in done.stdout
    assert rows(out / "lib.db", "SELECT name, trouble FROM file WHERE state = 'failed'") == [("cube.sgy", "Permission denied")]
    assert rows(out / "lib.db", "SELECT path, trouble FROM unlisted") == [(str(few / "inner"), "Permission denied")]
    assert rows(out / "lib.db", "SELECT count(*) FROM file WHERE gone IS NULL AND name = 'line.sgy'") == [(1,)]
    (few / "inner").chmod(0o755)
    (few / "cube.sgy").chmod(0o444)
    done = as_nobody("scan", "--db", out / "lib.db", few)
    assert (done.returncode, rows(out / "lib.db", "SELECT name, trouble FROM file WHERE state = 'failed'")) == (0, []), done.stderr
    assert rows(out / "lib.db", "SELECT count(*) FROM unlisted") == [(0,)]


def test_a_database_in_the_folder(few):
    """Its files are passed over; its own name may be any."""
    for name in ("lib.db", os.fsdecode(b"odd \xff ?#%.db")):
        scan(few / name, few, "--quiet")
        library("verify", "--db", few / name)
        assert "12 unchanged and not read again, 0 no SEG-Y" in scan(few / name, few)
        assert rows(few / name, "SELECT count(*) FROM other") == [(0,)]
        for path in few.glob("*.db*"):
            path.unlink()
