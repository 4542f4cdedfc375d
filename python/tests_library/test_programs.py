"""Programs of other days: without the report `problems`, with codes that are not known here, and
with another option for files of floats."""

import os

import time

import files
import pytest
from conftest import TOP, library, rows

from segywb.library import talk

REAL = os.environ.get("SEGYWB") or str(TOP / "dist" / "segywb-x86_64-linux")
EARLIER = f"""#!/bin/bash
set -o pipefail
case "$1" in --help | --version) exec {REAL} "$1" ;; esac
sed -u 's/^problems$/none/' | {REAL} "$@"
"""
LATER = f"""#!/bin/bash
set -o pipefail
[ "$1" != --help ] || exec {REAL} --help | sed 's/--opaque-samples/--floats/'
[ "$1" != --version ] || exec {REAL} --version
words=()
for word; do
    [ "$word" != --opaque-samples ] || {{ echo 'error: --opaque-samples' >&2; exit 2; }}
    [ "$word" != --floats ] || word=--opaque-samples
    words+=("$word")
done
{REAL} "${{words[@]}}" | sed -u 's/^problem F6 /problem S99 /'
"""
QUERY = """
SELECT name, code, count, (SELECT meaning FROM meaning WHERE meaning.code = problem.code)
FROM problem JOIN file ON file.id = file ORDER BY name, code
"""


def scanned(folder, tmp_path, script):
    """The problems that a program of these lines tells of the files."""
    program = tmp_path / "program"
    program.write_text(script)
    program.chmod(0o755)
    library("scan", "--db", tmp_path / "other.db", folder, SEGYWB=str(program))
    return rows(tmp_path / "other.db", QUERY)


def test_problems(few, tmp_path):
    """Of each how many have it."""
    library("scan", "--db", tmp_path / "lib.db", few)
    told = rows(tmp_path / "lib.db", QUERY)
    found = {(name, code): count for name, code, count, _ in told}
    assert found == {
        ("elsewhere.sgy", "S1"): 12, ("float_line.sgy", "F6"): 4, ("missing.sgy", "F1"): 5,
        ("order.sgy", "F1"): 5, ("twice.sgy", "F1"): 9, ("twice.sgy", "F6"): 1,
        ("twice.sgy", "S9"): 1, ("wrong_count.sgy", "F3"): 12, ("wrong_count.sgy", "F7"): 1,
        ("wrong_line.sgy", "F6"): 4, ("wrong_samples.sgy", "S13"): 1,
    }


def test_problems_of_lines_and_text(tmp_path):
    """Lines of the textual header, and inlines that are missing."""
    folder = tmp_path / "files"
    folder.mkdir()
    binary = files.binary(samples=2)
    cells = [(i, x) for i in (1, 2, 3, 5, 6, 9) for x in (1, 2)]
    traces = [files.trace(at, *cell, [at, -at]) for at, cell in enumerate(cells, 1)]
    files.write(folder / "made.sgy", files.header()[:3120] + bytes([0x40]) * 80, binary, *traces)
    library("scan", "--db", tmp_path / "lib.db", folder)
    found = [row[1:3] for row in rows(tmp_path / "lib.db", QUERY)]
    assert found == [("F8", 1), ("S7", 3)]


def test_a_program_of_before(few, tmp_path):
    """It does not know `problems`, and tells its faults."""
    told = scanned(few, tmp_path, EARLIER)
    assert {code for _, code, _, _ in told} == {"F1", "F3", "F6", "F7"}
    assert [row[:3] for row in told][:3] == [
        ("elsewhere.sgy", "F6", 11), ("float_line.sgy", "F6", 4), ("missing.sgy", "F1", 5)
    ]
    assert None not in {meaning for _, _, _, meaning in told}


def test_a_program_of_later(few, tmp_path):
    """Codes that are new come to the same table; no schema changes."""
    library("scan", "--db", tmp_path / "now.db", few)
    later, now = scanned(few, tmp_path, LATER), rows(tmp_path / "now.db", QUERY)
    told = sorted((name, code.replace("S99", "F6"), count) for name, code, count, _ in later)
    assert told == [row[:3] for row in now]
    assert {meaning for _, code, _, meaning in later if code == "S99"} == {None}
    paths = tmp_path / "page.html", tmp_path / "table.csv"
    library("report", "--db", tmp_path / "other.db", "--out", paths[0], "--csv", paths[1])
    assert "S99" in paths[0].read_text() and ",S99" in paths[1].read_text()


def test_a_program_that_is_none(few, tmp_path):
    program = tmp_path / "other"
    program.write_text("#!/bin/sh\necho something else\n")
    program.chmod(0o755)
    assert "is no segywb" in library("scan", "--db", tmp_path / "lib.db", few, SEGYWB=str(program), status=5)
    program.write_text(f'#!/bin/sh\n[ "$2" != --session ] || {{ echo nonsense; exit 9; }}\nexec {REAL} "$@"\n')
    library("scan", "--db", tmp_path / "lib.db", few, SEGYWB=str(program), status=1)
    assert rows(tmp_path / "lib.db", "SELECT count(*) FROM file WHERE state = 'failed'") == [(12,)]


PIECES = r"""#!/bin/sh
[ "$2" = --session ] || exec %s "$@"
refused='refused E01 no trace 9 of 3\n\n'
for piece in 'value 1\n' '\nvalue 2\nmore\n\nval' "ue 3\n\n${refused}last\n\n"; do
    printf "$piece"
    sleep 0.05
done
read -r line
"""


def test_answers_that_come_in_pieces(few, tmp_path, monkeypatch):
    """Of many answers that are read at once each is that of its line, wherever the pieces end."""
    program = tmp_path / "pieces"
    program.write_text(PIECES % REAL)
    program.chmod(0o755)
    monkeypatch.setenv("SEGYWB", str(program))
    descriptor = os.open(few / "cube.sgy", os.O_RDONLY)
    try:
        with talk.Talk(descriptor, [], time.monotonic() + 60) as asked:
            assert asked.ones(0) == []
            assert asked.ones(2) == ["value 1", "value 2"]
            with pytest.raises(talk.Trouble, match="refused E01 no trace 9 of 3"):
                asked.ones(2)
            assert asked.one() == "last"
            asked.send(["end"])
            with pytest.raises(talk.Trouble, match="ended with status 0"):
                asked.ones(1)
    finally:
        os.close(descriptor)
