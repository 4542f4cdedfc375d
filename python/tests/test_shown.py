"""What notebooks show, pictures, and the helpers by the names of segyio."""

import re
import shutil
from html.parser import HTMLParser

import files
import matplotlib
import numpy as np
import pytest

import segywb
from segywb import BinField, TraceField, pictures, tools
from segywb.fields import BINARY_NAMES, TRACE_NAMES, binary_place, kind, trace_place

matplotlib.use("Agg")
NESTED = ("table", "tr", "th", "td", "svg", "rect", "title", "figure", "figcaption", "div", "p")


class Page(HTMLParser):
    """Checks that each element is closed, and gathers the text."""

    def __init__(self, page):
        super().__init__()
        self.open, self.seen, self.text = [], [], ""
        self.feed(page)
        assert self.open == []

    def handle_starttag(self, tag, attrs):
        assert tag in NESTED
        self.open.append(tag)
        self.seen.append(tag)

    def handle_endtag(self, tag):
        assert self.open.pop() == tag

    def handle_data(self, data):
        self.text += data + "\n"


def test_repr(opened):
    volume = opened("cube")
    assert re.fullmatch(r"<segywb.Volume '.*cube.sgy', 12 traces, 0 edits>", repr(volume))
    volume.set(1, "inline", 7)
    assert "1 edits" in repr(volume)


def test_repr_of_a_program_that_ends(fake, opened):
    fake("sys.stdin.readline(); print('traces 3\\n', flush=True)\nsys.stdin.readline(); sys.exit(4)\n")
    volume = opened("survey")
    assert "status 4" in repr(volume)
    Page(volume._repr_html_())


def test_html(opened):
    volume = opened("missing")
    page = Page(volume._repr_html_())
    assert page.seen.count("rect") == 1 and "101 to 103" in page.text and "fold 0" in page.text and "faults" in page.text
    volume.copy(1, 1)
    page = Page(volume._repr_html_())
    assert page.seen.count("rect") == 2 and "fold 2" in page.text and "F6: 1" in page.text


def test_html_escapes(example, tmp_path, opened):
    path = tmp_path / "<script>alert(1)&\"'.sgy"
    shutil.copy(example("cube"), path)
    page = opened(str(path))._repr_html_()
    assert "<script>" not in page and "&lt;script&gt;alert(1)&amp;" in page
    Page(page)


def test_html_of_odd_files(opened, tmp_path, monkeypatch):
    assert "none" in Page(opened(files.empty(tmp_path / "none.sgy"))._repr_html_()).text
    monkeypatch.setattr("segywb.html.MOST_PIXELS", 2)
    page = Page(opened("missing")._repr_html_())
    assert "several cells" in page.text and "fold 0" in page.text
    monkeypatch.setattr("segywb.html.MOST_CELLS", 2)
    assert "no map" in Page(opened("missing")._repr_html_()).text


def test_pictures(opened):
    volume = opened("twice")
    axes = pictures.fold(volume)
    shown = axes.images[0].get_array()
    assert np.array_equal(shown, volume.grid.array) and (axes.get_xlabel(), axes.get_ylabel()) == ("crossline", "inline")
    axes = pictures.slice(volume, 1)
    assert np.array_equal(axes.images[0].get_array(), volume.slice(1).array)
    low, high = axes.images[0].get_clim()
    assert low == -high and 40 < high < 45
    assert pictures.slice(volume, 1, clip=7).images[0].get_clim() == (-7, 7)
    axes = pictures.positions(volume)
    assert np.array_equal(axes.collections[0].get_offsets()[:, 0], volume.positions()["x"])
    axes = pictures.histogram(volume)
    assert [bar.get_height() for bar in axes.patches] == [11, 1]
    figure, mine = matplotlib.pyplot.subplots()
    assert pictures.fold(volume, axes=mine) is mine
    figure.canvas.draw()
    labels = [text.get_text() for text in mine.get_yticklabels() if text.get_text()]
    assert labels and set(labels) <= {"101", "102", "103"}
    matplotlib.pyplot.close("all")


def test_tools(opened):
    volume = opened("cube")
    assert tools.dt(volume) == 4000.0
    assert tools.sample_indexes(volume) == [0.0, 4.0, 8.0, 12.0, 16.0]
    assert tools.sample_indexes(volume, t0=10, dt_override=2)[:2] == [10, 12]
    assert tools.wrap(volume.text).split("\n")[0] == volume.text[0].ljust(80) and tools.wrap("abcd", 2) == "ab\ncd"
    assert [list(one) for one in tools.metadata(volume)] == [[101, 102, 103], [201, 202, 203, 204], [0, 4, 8, 12, 16]]


@pytest.mark.parametrize("binary", [0, 2000, 4000])
@pytest.mark.parametrize("trace", [0, 2000])
def test_dt(opened, binary, trace, tmp_path):
    volume = opened("cube")
    volume.set_bin("interval", binary)
    volume.set_many("interval", None, trace)
    wanted = {(0, 0): 777.0, (2000, 0): 2000.0, (4000, 0): 4000.0, (0, 2000): 2000.0, (2000, 2000): 2000.0, (4000, 2000): 777.0}
    assert tools.dt(volume, 777.0) == wanted[binary, trace]
    segyio = pytest.importorskip("segyio")
    volume.save(tmp_path / "o.sgy")
    with segyio.open(str(tmp_path / "o.sgy"), ignore_geometry=True) as file:
        assert segyio.tools.dt(file, 777.0) == tools.dt(volume, 777.0)


def test_dt_without_traces(opened, tmp_path):
    assert tools.dt(opened(files.empty(tmp_path / "none.sgy"))) == 4000.0


def test_names_of_segyio(opened):
    """The constants have the values of segyio, and read what segyio reads."""
    segyio = pytest.importorskip("segyio")
    for field in segyio.TraceField.enums():
        assert TraceField[str(field)] == int(field)
    mine = {name: int(value) for name, value in BinField.__members__.items()}
    for field in segyio.BinField.enums():
        if not str(field).startswith("Unassigned"):
            assert mine[str(field)] == int(field)
    volume = opened("cube")
    names = [field for field in TraceField]
    headers = volume.headers(*names)
    with segyio.open(volume.path, ignore_geometry=True) as file:
        for p, header in enumerate(file.header):
            assert [int(value) for value in headers[p]] == [header[int(name)] for name in names]
        assert [volume.getbin(name) for name in BinField if name not in (3269, 3501)] == [file.bin[int(name)] for name in BinField if name not in (3269, 3501)]


def test_places_are_those_of_the_manual(opened):
    """The names of the package are those of the manual, and segyio's stand at the places that the manual gives them."""
    from conftest import TOP

    manual = (TOP / "docs" / "MANUAL.md").read_text()
    # a second name in the last column is of segyio's module for Seismic Unix, which is no key of TraceField
    rows = re.findall(r"^\| `(\w+)` \| `(@[\d.:u]+)` \|.*\| (?:`(\w+)`(?:, `\w+`)?|-) \|$", manual, re.M)
    binary = {name: place for name, place, _ in rows if re.match(r"@3\d\d\d:", place)}
    trace = {name: place for name, place, _ in rows if not re.match(r"@3\d\d\d:", place)}
    bound = set(opened("cube").fields())
    assert binary == dict(BINARY_NAMES)
    assert {name: place for name, place in trace.items() if name not in bound} == dict(TRACE_NAMES)
    for _, place, segyio_name in rows:
        if segyio_name and not re.match(r"@3\d\d\d:", place):
            assert trace_place(TraceField[segyio_name]) == place
        elif segyio_name:
            assert binary_place(BinField[segyio_name]) in (place, place.replace("u", ""))


def test_kinds():
    assert [kind(place) for place in ("@1.137:4u", "@1:8", "@1:5", "1:4", "@1:4 ", "@:4")] == [(4, True), (8, False), None, None, None, None]
