"""The report: a page without any other source, and a table."""

import csv
import html.parser
import json
import os
import sqlite3

import files
import pytest
from conftest import library, rows, settle

import segywb


class Page(html.parser.HTMLParser):
    """The words of a page, its tags, and whether they are closed."""

    def __init__(self, text):
        super().__init__()
        self.open, self.tags, self.words = [], [], ""
        self.feed(text)
        assert self.open == []

    def handle_starttag(self, tag, attributes):
        self.tags.append((tag, dict(attributes)))
        if tag not in ("meta", "br"):
            self.open.append(tag)

    def handle_endtag(self, tag):
        assert self.open.pop() == tag

    def handle_data(self, data):
        self.words += data + "\n"


@pytest.fixture(scope="module")
def reported(undisturbed, tmp_path_factory):
    folder = tmp_path_factory.mktemp("report")
    library("report", "--db", undisturbed, "--out", folder / "page.html", "--csv", folder / "table.csv")
    return undisturbed, (folder / "page.html").read_text(), folder / "table.csv"


def test_page(reported):
    """Each part of it, and nothing from elsewhere."""
    database, text, _ = reported
    page = Page(text)
    heads = (
        "Totals", "Refused files", "Problems", "Headers that stand out", "Bytes behind the last sound trace", "Histograms", "Outlines of the surveys",
        "Duplicates", "Named as SEG-Y, and none by their content", "Mends",
    )
    places = {attributes["id"] for tag, attributes in page.tags if tag == "h2"}
    assert places == {attributes["href"][1:] for tag, attributes in page.tags if tag == "a"} and len(places) == len(heads) + 1
    for head in heads:
        assert page.words.count(head) >= 2  # in the contents, and above its part
    assert 'class="warn"' not in text
    assert not [one for one in page.tags if one[0] in ("script", "link", "img", "iframe")]
    assert "http" not in text.replace("http-equiv", "") and "default-src 'none'" in text
    for code, count in rows(database, "SELECT refusal, count(*) FROM file WHERE state = 'refused' GROUP BY 1"):
        assert f"<td>{code}</td><td class=\"number\">{count}</td>" in text
    assert len(text) < 3_000_000


def test_what_is_not_whole_is_said(few, tmp_path, wrapped):
    """A scan that was ended, files that could not be read, and a mend that was killed: before anything else."""
    database = tmp_path / "lib.db"
    failing = wrapped('case $name in */cube.sgy) kill -11 $$ ;; esac')
    library("scan", "--db", database, few, SEGYWB=failing, status=1)
    connection = sqlite3.connect(database)
    connection.execute("UPDATE scan SET ended = NULL")
    connection.execute("INSERT INTO mend (kind, begun, user, host, program, program_sha256, options) VALUES ('mend', '', '', '', '', '', '')")
    connection.execute("INSERT INTO trail (mend, at, path, target, event) VALUES (1, '', 'a', 'a', 'begun')")
    connection.commit()
    connection.close()
    library("report", "--db", database, "--out", tmp_path / "page.html")
    told = Page((tmp_path / "page.html").read_text()).words
    assert "has not come to its end: files may lack" in told and "1 files could not be read, and 0 folders not listed" in told
    assert "1 saves of a run that was ended are open" in told


def test_headers_that_stand_out(few, tmp_path):
    """Each kind that is there, with its files."""
    database = tmp_path / "lib.db"
    for number, lines in enumerate(("set 5 scalar -10", "renumber 1 12 x 0 0\nrenumber 1 12 y 0 0", "set 3 x 0\nset 3 y 0", "bin interval 0")):
        with segywb.open(few / "cube.sgy") as volume:
            for line in lines.split("\n"):
                volume.run(line)
            volume.save(few / f"odd {number}.sgy")
    files.varying(few / "varying.sgy")
    library("scan", "--db", database, few)
    library("report", "--db", database, "--out", tmp_path / "page.html")
    text = (tmp_path / "page.html").read_text()
    for title, count in (
        ("the coordinate scalar is not the same in all traces", 1), ("no coordinates at all", 2), ("coordinates that reach from far off to 0", 1),
        ("no interval", 1), ("traces of different lengths", 1),
    ):
        assert f"<summary>{title}: {count} files</summary>" in text, title
    assert "<summary>neither inlines nor crosslines: 1 files</summary>" in text and "<summary>little-endian" not in text


def test_table(reported):
    """A row for each file, with what the database has."""
    database, _, path = reported
    with path.open(newline="") as file:
        told = list(csv.DictReader(file))
    assert len(told) == rows(database, "SELECT count(*) FROM file")[0][0]
    assert [row["path"] for row in told] == sorted(row["path"] for row in told)
    wanted = dict(rows(database, "SELECT path, count FROM problem JOIN file ON file.id = file WHERE code = 'F1'"))
    assert {row["path"]: int(row["F1"]) for row in told if row["F1"]} == wanted
    assert {row["sha256"] for row in told} == {digest for digest, in rows(database, "SELECT sha256 FROM file")}


def test_names_are_texts(few, tmp_path):
    """Whatever stands in a name or a header is shown as a text."""
    hostile = "<script>alert(1)</script>&\"'.sgy"
    (few / hostile.replace("/", "_")).write_bytes((few / "wrong_line.sgy").read_bytes())
    (few / "<b>.sgy").write_bytes(b"")
    database = tmp_path / "lib.db"
    library("scan", "--db", database, few)
    library("report", "--db", database, "--out", tmp_path / "page.html")
    text = (tmp_path / "page.html").read_text()
    page = Page(text)
    assert "<script" not in text and "<b>.sgy" in page.words and "alert(1)" in page.words


def test_map(few, tmp_path):
    """An outline far off leaves the others where they are; files without coordinates have none."""
    from segywb.library.maps import Outline, drawing

    for number in range(60):
        files.cube(few / f"no {number}.sgy")
    settle()
    database = tmp_path / "lib.db"
    library("scan", "--db", database, few)
    library("report", "--db", database, "--out", tmp_path / "page.html")
    assert (tmp_path / "page.html").read_text().count("<polygon") == 12
    near = [Outline(f"near {n}", f"folder {n % 9}", [(n, 0), (n + 1, 0), (n + 1, 1)]) for n in range(60)]
    drawn, outside = drawing([*near, Outline("far", "", [(10**9, 10**9)]), Outline("zero", "", [(0, 0), (-10**6, 0)])])
    assert drawn.count("<polygon") == 60 and outside == ["far", "zero"]
    assert drawn.count('class="key"') == 7 and "other folders" in drawn
    assert "none" in drawing([])[0] and drawing([Outline("one", "", [(5, 5)])])[0].count("<polygon") == 1
    outline = rows(database, "SELECT outline FROM file WHERE name = 'cube.sgy'")[0][0]
    assert json.loads(outline)[0] == [450000.0, 6800000.0]


def test_outlines_of_lines_and_squares():
    from segywb.library.outlines import hull

    square = [(x, y) for x in range(5) for y in range(5)]
    assert sorted(hull(square)) == [(0, 0), (0, 4), (4, 0), (4, 4)]
    assert hull([]) == [] and hull([(0, 0), (1, 2), (2, 4), (3, 6)]) == [(0, 0), (3, 6)]


def test_what_is_there_is_not_lost(few, tmp_path):
    """A page is written over an earlier one alone, and nothing of it is left where that fails."""
    database = tmp_path / "lib.db"
    library("scan", "--db", database, few)
    for _ in range(2):
        library("report", "--db", database, "--out", tmp_path / "page.html", "--csv", tmp_path / "table.csv")
    before = (few / "cube.sgy").read_bytes()
    assert "no earlier report" in library("report", "--db", database, "--out", few / "cube.sgy", status=4)
    assert (few / "cube.sgy").read_bytes() == before
    assert "wants --out" in library("report", "--db", database, status=2)
    assert "there is no" in library("report", "--db", tmp_path / "none.db", "--out", tmp_path / "x.html", status=4)
    assert not (tmp_path / "none.db").exists() and not (tmp_path / "x.html").exists()
    assert not [name for name in os.listdir(tmp_path) if name.startswith(".report")]


def test_beside_a_scan(few, tmp_path):
    """A report is of one moment, and reads beside a scan that writes."""
    database = tmp_path / "lib.db"
    library("scan", "--db", database, few)
    writer = sqlite3.connect(database, isolation_level=None)
    writer.execute("BEGIN IMMEDIATE")
    writer.execute("DELETE FROM problem")
    library("report", "--db", database, "--out", tmp_path / "page.html")
    writer.execute("ROLLBACK")
    writer.close()
    assert "F6" in (tmp_path / "page.html").read_text()
