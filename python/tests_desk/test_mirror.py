"""What the desk keeps beside the program is what the program answers; the maps; what is packed."""

import doctest
import importlib
import random
import shutil
import subprocess
import sys
import zipfile

import files
import numpy as np
import pytest
from conftest import HERE, SOURCES, TOP

import segywb
from segywb.desk import bundles, faults, maps, mirror, places, problems, views, words
from segywb.desk.desk import Desk

MODULES = ("bundles", "cli", "desk", "faults", "fieldmaps", "graphs", "guard", "maps", "marks", "mirror", "places", "problems", "refusals", "saving", "sections", "server", "tables", "views", "words")
NAMES = ["inline", "crossline", "x", "y", "scalar"]
MORE = ["delay", "cdp", "@1:8", "trace_code"]  # fields that are shown: by a name of the program's own, of Seismic Unix, by a place


@pytest.fixture
def desk(tmp_path):
    made = Desk(str(files.cube(tmp_path / "cube.sgy", 4, 5)))
    made.load()
    made.widen([*mirror.PLACES, *MORE])
    yield made
    made.close()


def sound(desk):
    """The columns are those of a fresh reading, and the cells those of ``grid``."""
    shot = desk.now()
    names = list(shot.mirror.columns)
    fresh = desk.volume.headers(*names)
    assert len(shot.mirror) == len(desk.volume) and set(names) >= set(NAMES)
    for name in names:
        assert shot.mirror.columns[name].tolist() == fresh[name].tolist(), name
    view = views.fold(desk, views.Window((500, 400), False))
    cells = [(view["down"]["first"][at], view["right"]["first"][up], int(fold)) for at, row in enumerate(view["now"]) for up, fold in enumerate(row) if fold]
    assert cells == [tuple(map(int, row)) for row in desk.volume.grid.rows.tolist()]
    return shot


def lines_of(chance, count):
    """Some edits that are accepted, and the number of traces behind them."""
    made = []
    for _ in range(chance.randint(1, 6)):
        one = chance.randint(1, max(count, 1))
        field = chance.choice(["inline", "crossline", "@189:4", "@71:2", "@187:4", "@1:8", "x", "trace_code", "delay"])
        if count == 0 or chance.random() < 0.2:
            made.append(f"blank {chance.randint(1, count + 1)}")
            count += 1
        elif chance.random() < 0.35:
            made.append(f"set {one} {chance.choice(['', 'last ', f'{chance.randint(one, count)} '])}{field} {chance.randint(0, 40)}")
        elif chance.random() < 0.3:
            last = chance.randint(one, count)
            made.append(f"renumber {one} {last} {chance.choice(['inline', 'ensemble', '@193:4', 'y'])} {chance.randint(-5, 50)} {chance.randint(-2, 2)}")
        elif chance.random() < 0.3:
            last = chance.randint(one, count)
            made.append(f"compute {one} {last} {chance.choice(['inline', 'crossline', 'x', '@193:4', 'ensemble'])} {chance.choice(['44 - crossline', 'inline * 2', 'x + 1000', 'y % 7', '9'])}")
        elif chance.random() < 0.3:
            made.append(f"swap {one} {chance.randint(one, count)} {chance.choice(['inline crossline', 'ensemble @193:4', 'y inline'])}")
        elif chance.random() < 0.3:
            made.append(f"copy {one} {chance.choice([chance.randint(1, count + 1), 'end'])}")
            count += 1
        elif chance.random() < 0.4:
            made.append(f"move {one} {chance.randint(1, count)}")
        elif chance.random() < 0.2:
            made.append(f"sort {one} {chance.randint(one, count)} {chance.choice(['inline', '-crossline', '-@189:4', 'x'])}")
        elif chance.random() < 0.5:
            made.append(f"delete {chance.choice([one, 'last'])}")
            count -= 1
        elif chance.random() < 0.5:
            made.append(f"map {chance.choice(['inline', 'x', 'scalar'])} {chance.choice(['@9:2', '@71:2', '@21:2'])}")
        else:
            made.append(chance.choice([f"patch {one} 0 {chance.randint(0, 99)}", f"fill {one} {chance.randint(one, count)} 0 1 {chance.randint(0, 99)}"]))
    return made, count


@pytest.mark.parametrize("seed", range(12))
def test_random_edits(desk, seed):
    chance = random.Random(seed)
    count = len(desk.volume)
    for _ in range(5):
        lines, count = lines_of(chance, count)
        if chance.random() < 0.5:
            told = desk.run_script("\n".join(lines))
        else:
            told = [desk.run(line) for line in lines]
        assert "refused" not in str(told), told
        shot = sound(desk)
        assert not shot.mirror.origin.any() or len(set(shot.mirror.origin[shot.mirror.origin > 0].tolist())) == np.count_nonzero(shot.mirror.origin)
        desk.widen(MORE)
        assert set(sound(desk).mirror.columns) == {*NAMES, *MORE}
        if chance.random() < 0.4:
            desk.undo()
            sound(desk)
            if chance.random() < 0.5:
                desk.redo()
                sound(desk)
            count = len(desk.volume)


@pytest.mark.parametrize("seed", range(4))
def test_slices(desk, seed):
    chance, slices, count = random.Random(100 + seed), views.Slices(), len(desk.volume)
    for compare in (False, True, False, True):
        lines, count = lines_of(chance, count)
        desk.run_script("\n".join([*lines, f"patch 1 1 {chance.choice([-500, 500])}"]))
        view = slices.view(desk, 1, views.Window((500, 400), compare), False)
        for shown, volume in (("now", desk.volume), ("was", desk.original)) if compare else (("now", desk.volume),):
            wanted = {}
            for inline, crossline, _, value in volume.slice(1).rows.tolist():
                cell = (inline, crossline)
                if cell not in wanted or abs(value) > abs(wanted[cell]) or (abs(value) == abs(wanted[cell]) and value > wanted[cell]):
                    wanted[cell] = value
            found = {(view["down"]["first"][at], view["right"]["first"][up]): value for at, row in enumerate(view[shown]) for up, value in enumerate(row) if value is not None}
            assert found == wanted


def test_names_of_traces(desk):
    desk.run_script("delete 20\ndelete 3\ndelete 2\nblank 1\nmove 2 4\ncopy 5 1")
    assert sound(desk).mirror.origin.tolist() == [0, 0, 4, 5, 1, *range(6, 20)]


def test_fields_that_are_bound_and_left_out(desk):
    """A further field is followed where its name is bound elsewhere, and left out where nothing has the name any more."""
    desk.run("map shot @17:4")
    desk.widen(["shot", "source_point"])
    desk.run("renumber 1 20 @17:2 1 1")
    assert sound(desk).mirror.columns["shot"][:2].tolist() == [65536, 131072]
    desk.run_script("set 3 delay 7\nmap shot @109:2")
    assert sound(desk).mirror.columns["shot"][:4].tolist() == [0, 0, 7, 0]
    desk.run("unmap shot")
    assert "shot" not in sound(desk).mirror.columns
    desk.undo()
    assert sound(desk).mirror.columns["shot"][2] == 7
    with pytest.raises(segywb.Refused):
        desk.widen(["colour"])
    sound(desk)


def test_further_fields_are_few(desk):
    names = [f"@{byte}:4" for byte in range(1, 41, 4)]
    for name in names:
        desk.widen([name])
        assert name in desk.now().mirror.columns
    assert len(desk.now().mirror.columns) <= len(NAMES) + mirror.MOST_MORE


def test_fields_of_an_extension(tmp_path):
    """Also where one of the six lies there, and where an edit changes the number of samples."""
    made = Desk(str(files.extended(tmp_path / "extended.sgy")))
    made.load()
    made.run("map x @1.9:4")
    made.widen([*mirror.PLACES, "ext_samples", "samples", "@1.17:4"])
    for line in ("set 2 @1.9:4 -77", "set 1 @1.20:2 5", "resize 2 5", "set 1 @1.7:4 9", "copy 2 1", "resize 1 1"):
        assert made.run(line)["answers"][0]["text"] == "ok", line
        sound(made)
    assert made.now().mirror.columns["x"].tolist()[2] == -77 and made.now().mirror.columns["samples"].tolist() == [1, 2, 5]
    made.close()


def test_very_many_moves(desk):
    desk.run_script("move 1 2\n" * (mirror.MOST_MOVES + 1))
    assert not sound(desk).mirror.origin.any()


def test_no_traces(tmp_path):
    made = Desk(str(files.empty(tmp_path / "empty.sgy")))
    made.load()
    window = views.Window((500, 400), True)
    assert views.fold(made, window)["now"] == [] and places.positions(made, *window, False)["traces"] == 0
    assert views.Slices().view(made, 0, window, False)["rows"] == 0
    assert views.state(made)["traces"] == 0 and views.table(made, 1, 25, NAMES, True)["rows"] == [] and views.extremes(made)["rows"] == []
    made.run("blank 1")
    sound(made)
    made.close()


def test_which_headers_are_used(desk):
    rows = views.extremes(desk)["rows"]
    assert rows == [
        ["sequence_file", "1", "20", "1", "20"], ["samples", "3", "3", "3", "3"], ["interval", "4000", "4000", "4000", "4000"],
        ["inline_number", "1", "4", "1", "4"], ["crossline_number", "1", "5", "1", "5"], ["inline", "1", "4", "1", "4"], ["crossline", "1", "5", "1", "5"],
    ]


def test_large_samples(tmp_path):
    made = Desk(str(files.varying(tmp_path / "large.sgy")))
    made.load()
    view = views.Slices().view(made, 1, views.Window((500, 400), False), False)
    assert view["now"] == [[2.0**64], [2.0**64]] and view["rows"] == 2
    made.close()


def test_a_mirror_that_is_wrong_is_read_again(desk, monkeypatch):
    for wrong in (77, 2):
        monkeypatch.setattr(mirror, "followed", lambda last, volume, lines: mirror.Mirror({**last.columns, "inline": last.columns["inline"] * 0 + wrong}, last.origin))
        desk.run("set 9 crossline 4")
        sound(desk)


def test_thinned_maps():
    folds = np.ones((900, 700), dtype=int)
    folds[450, 333] = 0
    folds[100, 10] = 3
    rows, columns = np.nonzero(folds)
    cells = maps.Cells(rows, columns, folds[rows, columns])
    bundle = bundles.bundle_for(maps.axis_of(np.arange(900)), maps.axis_of(np.arange(700)), (200, 200), [cells])
    assert (bundle.tall, bundle.wide, bundle.rows, bundle.columns) == (5, 4, 180, 175)
    shown = bundles.farthest(cells, bundle, maps.usual_of(cells), True)
    assert np.isnan(shown[90, 83]) and shown[20, 2] == 3
    assert np.count_nonzero(shown != 1) == 2


def test_a_sparse_map_shows_its_traces():
    at = np.arange(1000)
    cells = maps.Cells(at, at, np.ones(1000, dtype=int))
    axis = maps.axis_of(at)
    bundle = bundles.bundle_for(axis, axis, (100, 100), [cells])
    shown = bundles.farthest(cells, bundle, maps.usual_of(cells), True)
    assert np.diagonal(shown).tolist() == [1] * 100 and np.isnan(shown[0, 1])


def test_wild_numbers_leave_the_map_legible():
    axis = maps.axis_of(np.array([1, 2, 3, 5, 2**31 - 1]))
    assert axis.labels == [1, 2, 3, 4, 5, None, 2**31 - 1]
    line = np.array([0.0] + [450000.0 + at for at in range(99)])
    near = places.survey(line, np.zeros(100))
    assert places.ends(line[near]) == [450000.0, 450098.0]
    assert views.amplitude(np.array([1.0] * 99 + [1e6]), False) == {"most": 1e6, "end": 1.0, "beyond": 1}
    assert maps.colour_end([np.array([1] * 99 + [500])], 1) == {"most": 500, "end": 2, "beyond": 1}


def test_windows_of_faults(desk):
    desk.run("delete 1")
    answer = desk.volume.fault_text()
    assert faults.counts(answer) == desk.volume.fault_counts()
    wanted = [one.text for one in desk.volume.faults() if one.code == "F1"]
    assert [one["text"] for one in faults.window(answer, "F1", 0, 1000)] == wanted
    assert [one["text"] for one in faults.window(answer, "F1", 4, 3)] == wanted[4:7]


def test_groups_of_problems(desk):
    """What the page shows of each, the lines that may mend it among them."""
    desk.run("delete 1")
    desk.run("set 3 4 scalar 7")
    kept = problems.Kept()
    got = views.problems(desk, kept)
    assert got["version"] == desk.version and kept.answer(desk.volume, desk.version) is got["problems"]
    found = {one["code"]: one for one in got["problems"]}
    assert [one.code for one in desk.volume.problems()] == list(found)
    count = len(desk.volume)
    assert found["F1"]["first"] == [{"text": f"traces 1 to {count}: shift 1", "trace": 1, "last": count, "gap": None, "lines": []}] and found["F1"]["single"]
    assert found["F1"]["line"] == "renumber all sequence_file 1 1"
    lines = ["set 3 4 scalar NUMBER", "set all scalar NUMBER where scalar = 7"]
    assert found["F4"]["first"] == [{"text": "traces 3 to 4: scalar 7", "trace": 3, "last": 4, "gap": None, "lines": lines}] and found["F4"]["line"] == "set 3 4 scalar "
    usual = found["S3"]["first"][0]["text"].split()[-1]
    assert found["S3"]["line"] == f"set all scalar {usual} where scalar != {usual}" and not found["S3"]["single"]
    desk.run("set 3 4 scalar 10")
    assert "F4" not in {one["code"] for one in views.problems(desk, kept)["problems"]}


def lines_of_problems(volume):
    """The lines that the panel names, by code."""
    return {one.code: problems.shown(one, volume)["line"] for one in volume.problems()}


def lines_for(path, edits, **options):
    """The lines that the panel names behind these edits, by code."""
    with segywb.open(path, **options) as volume:
        assert not [one for one in volume.run(edits) if one.refused]
        return lines_of_problems(volume)


def mended(path, edits, code, **options):
    """Whether the line takes a problem away, or brings one that the next line takes away, and no other problem comes."""
    with segywb.open(path, **options) as volume:
        volume.run(edits)
        before = {one.code for one in volume.problems()}
        for _ in range(2):
            line = lines_of_problems(volume).get(code)
            assert line is None or volume.run(line)[0].accepted, line
        after = {one.code for one in volume.problems()}
        # where a line numbers the cells, positions can jump between them
        return code not in after and after <= before | ({"S10"} if code == "S1" else set())


@pytest.mark.parametrize("edits, code, line", [
    ("set 2 interval 2000\nset 7 9 interval 1000\nset 11 interval 0", "F3", "set all interval 4000 where interval != 4000 and interval != 0"),
    ("bin interval 2000", "F3", "bin interval 4000"), ("bin interval 0", "F3", "bin interval 4000"),
    ("bin interval 2000\nset 2 interval 2000", "F3", "bin interval 4000"), ("bin interval 0\nset 2 interval 8", "F3", None),
    ("bin interval 2000\nset 2 interval 8", "F3", None),
    ("set 4 coordinate_units 2\nset 9 coordinate_units 3", "F5", "set all coordinate_units 1 where coordinate_units != 1"),
    ("set 1 coordinate_units 2", "F5", "set all coordinate_units 1 where coordinate_units = 2"),
    ("set 1 2 coordinate_units 2", "F5", "set all coordinate_units 1 where coordinate_units = 2"),
    ("set 1 coordinate_units 2\nset 5 coordinate_units 3", "F5", None),
    ("set 2 samples 4\nset 7 9 samples 6\nset 11 samples 0", "F2", "set all samples 5 where samples != 5 and samples != 0"),
    ("copy 4 5", "F6", "delete 5"), ("move 5 8 1", "F6", None), ("copy 4 5\nset 5 x 7", "F6", None), ("copy 4 5\npatch 4 0 0 0 0 0 0\npatch 5 0 0 0 0 0 0", "F6", None),
    ("renumber 5 8 inline 101 0", "F6", None), ("copy 8 9\ncopy 7 9\ncopy 6 9\ncopy 5 9", "F6", "delete 9 12"), ("move 7 3", "F1", None),
    ("copy 8 9\ncopy 7 9\ncopy 6 9\ncopy 5 9\npatch 10 0 99", "F6", None), ("copy 8 9\ncopy 7 9\ncopy 6 9\ncopy 5 9\nset 11 y 99", "F6", None),
    ("renumber all delay 8 8", "S4", None),
    ("set all inline 0\nset all crossline 0\nrenumber all trace_in_record 1 1", "S1", "map shot"),
    ("set all inline 0\nset all crossline 0\nrenumber all cdp 1 1", "S1", "map crossline ensemble"),
    ("set all inline 0\nset all crossline 0\nrenumber all cdp 1 1\nrenumber all field_record 1 1", "S1", None), ("set all inline 0\nset all crossline 0", "S1", None),
])
def test_lines_that_mend(tmp_path, edits, code, line):
    """What they write is the number of most traces, and what they delete stands twice."""
    path = shutil.copy(TOP / "examples" / "cube.sgy", tmp_path)
    assert lines_for(path, edits).get(code) == line
    assert line is None or mended(path, edits, code)


@pytest.mark.parametrize("edits, code, line, told", [
    ("patch 4 0 7 7 7 7 7\npatch 9 0 0 0 0 0 0", "S12", "set all trace_code 2 where sample_least = sample_greatest and sample_count > 1", 2),
    ("patch 4 2 30001\npatch 9 0 20500", "S13", "fill all 0 4 0 where sample_greatest >= 20000", 2),
    ("patch 4 2 -30001", "S13", "fill all 0 4 0 where sample_least <= -30000", 1), ("patch 4 2 -30001\npatch 9 0 20500", "S13", None, 2),
    # as many traces meet the condition, 1 and 3, as are told, 1 and 2
    ("fill all 0 4 0\nfill all 0 0 28\npatch 1 1 2900\npatch 2 1 -2900\npatch 3 1 2500", "S13", None, 2),
    # in two runs
    ("fill all 0 4 0\nfill all 0 0 28\npatch 1 1 2900\npatch 4 1 -2900\npatch 3 1 2500", "S13", None, 2),
    # eleven runs, of which ten are told
    ("delete 2\n" + "copy 11 11\n" * 30 + "\n".join(f"patch {n} 2 30001" for n in range(1, 22, 2)), "S13", None, 11),
])
def test_lines_for_dead_and_loud_traces(tmp_path, edits, code, line, told):
    """They are of the traces that are told, and of no others; which ones they are is asked of what the program keeps beside each trace."""
    path = shutil.copy(TOP / "examples" / "cube.sgy", tmp_path)
    assert lines_for(path, edits).get(code) == line
    with segywb.open(path) as volume:
        volume.run(edits)
        (found,) = [one for one in volume.problems() if one.code == code]
        assert found.traces == told
        if line:
            assert volume.run(line)[0].chosen == told
            assert code == "S12" or "S13" not in [one.code for one in volume.problems()]


def test_a_line_for_a_loud_trace_of_floats(tmp_path):
    path = shutil.copy(TOP / "examples" / "wrong_floats.sgy", tmp_path)
    assert lines_for(path, "")["S13"] == "fill all 0 4 0 where sample_greatest >= 1e20"
    assert lines_for(path, "patch 6 2 -1234567.5")["S13"] == "fill all 0 4 0 where sample_least <= -1000000"
    assert lines_for(path, "patch 6 2 inf")["S13"] is None


def test_a_line_for_dead_traces_of_floats(tmp_path):
    """None of the group where it would mark a trace that is not told, since it has one number alone; the lines of the runs stay."""
    line = "set all trace_code 2 where sample_least = sample_greatest and sample_count > 1"
    path = shutil.copy(TOP / "examples" / "wrong_floats.sgy", tmp_path)
    assert lines_for(path, "")["S12"] == lines_for(path, "patch 1 0 5 5 nan nan nan\npatch 9 0 -0.0 0 0 nan nan")["S12"] == line
    assert lines_for(path, "patch 1 0 nan nan nan nan nan\npatch 9 0 inf inf inf inf inf")["S12"] == line
    # more runs than are told: all that have it are counted
    assert lines_for(path, "\n".join(f"fill {n} {n} 0 4 {n}" for n in range(1, 12)))["S12"] == line
    assert lines_for(path, "patch 2 0 nan 5 nan nan nan")["S12"] is None
    with segywb.open(path) as volume:
        volume.patch(2, 0, [float("nan"), 5.0, *[float("nan")] * 3])
        assert volume.run(line)[0].chosen == 2
        (found,) = [one for one in volume.problems() if one.code == "S12"]
        assert found.traces == 1 and [one["lines"] for one in problems.shown(found, volume)["first"]] == [["set 3 trace_code 2"]]


def test_a_number_of_samples_that_does_not_fit(tmp_path):
    """Bytes 115-116 cannot tell it: they tell none then."""
    head = files.binary(samples=0, form=8, major=2, at3269=(4, 70000))
    traces = [files.trace(n, 1, n, [1, 2] * 35000, size=1, told=told) for n, told in ((1, 0), (2, 17), (3, 0), (4, 18))]
    path = files.write(tmp_path / "long.sgy", files.header(), head, *traces)
    assert lines_for(path, "")["F2"] == "set all samples 0 where samples != 0" and mended(path, "", "F2")


def test_numbers_of_samples_of_traces_that_differ(tmp_path):
    """The run that is told has one number; others may have another."""
    head = files.binary(samples=3, fixed=0, major=2, extensions=1)
    extension = bytearray(240)
    extension[136:140] = (3).to_bytes(4, "big")
    traces = [files.trace(n, 1, n, [1, 2, n], told=told) for n, told in ((1, 3), (2, 17), (3, 17))]
    traces = [one[:240] + bytes(extension) + one[240:] for one in traces]
    path = files.write(tmp_path / "own.sgy", files.header(), head, *traces)
    assert lines_for(path, "")["F2"] == "set 2 3 samples 3" and mended(path, "", "F2")


def test_samples_without_values_tell_no_copy(tmp_path):
    path = files.floats(tmp_path / "opaque.sgy")
    assert lines_for(path, "copy 2 3", opaque_samples=True, floats=False)["F6"] is None
    assert lines_for(path, "copy 2 3")["F6"] == "delete 3"


def test_a_look_at_very_many_traces_is_costly(desk, monkeypatch):
    assert not views.state(desk)["costly"]
    monkeypatch.setattr(views, "MOST_LOOKED_AT", len(desk.volume) - 1)
    assert views.state(desk)["costly"]


def test_each_problem_has_its_words():
    assert list(words.words()["problems"]) == list(segywb.answers.MEANINGS)


@pytest.mark.parametrize("name", MODULES)
def test_examples_of_modules(name):
    assert doctest.testmod(importlib.import_module(f"segywb.desk.{name}")).failed == 0


def test_words_are_those_of_the_manual():
    made = subprocess.run(["bash", str(TOP / "tools" / "desk-words"), str(TOP / "docs" / "MANUAL.md")], capture_output=True, text=True, check=True).stdout
    assert made == (SOURCES / "segywb" / "desk" / "manual.txt").read_text(), "make pages makes it anew"
    assert made.count("command\t") >= 32 and made.count("name\t") >= 40 and made.count("refusal\t") >= 20


def test_what_is_packed(tmp_path):
    room = tmp_path / "room"
    for name in ("python", "dist", "man"):
        shutil.copytree(TOP / name, room / name, ignore=shutil.ignore_patterns("__pycache__", "tests*"))
    script = "import sys; sys.path.insert(0, 'backend'); import segywb_build; print(segywb_build.build_wheel('.'))"
    name = subprocess.run([sys.executable, "-c", script], cwd=room / "python", capture_output=True, text=True, check=True).stdout.strip()
    with zipfile.ZipFile(room / "python" / name) as wheel:
        packed = set(wheel.namelist())
        assert "segywb-desk = segywb.desk.cli:main" in wheel.read(next(one for one in packed if one.endswith("entry_points.txt"))).decode()
        page = next(one for one in packed if one.endswith(".data/data/share/man/man1/segywb-desk.1"))
        assert wheel.read(page) == (TOP / "man" / "segywb-desk.1").read_bytes()
        assert page in wheel.read(next(one for one in packed if one.endswith("RECORD"))).decode()
    for path in (SOURCES / "segywb" / "desk").rglob("*"):
        if path.is_file() and "__pycache__" not in path.parts:
            assert path.relative_to(SOURCES).as_posix() in packed


def test_lines_of_the_sources():
    found = [*(SOURCES / "segywb" / "desk").rglob("*.*"), *HERE.glob("*.py")]
    assert len(found) > 25
    for path in found:
        if path.suffix in (".py", ".js", ".css", ".html"):
            assert len(path.read_text().splitlines()) < 800, path


def test_lines_of_a_slice(desk, monkeypatch):
    monkeypatch.setattr(mirror, "PIECE", 7)
    desk.run_script("move 1 9\ndelete 4\nset 3 inline -9")
    found, wanted = mirror.read(desk.volume, NAMES), desk.volume.headers(*NAMES)
    assert set(mirror.of_slice(desk.volume, len(found))) == set(mirror.LINES)
    for name in NAMES:
        assert found.columns[name].tolist() == wanted[name].tolist()


def test_maps_by_either_way(monkeypatch):
    chance = np.random.default_rng(7)
    inlines, crosslines = chance.integers(-5, 40, 500), chance.integers(0, 30, 500)
    down, right = maps.axis_of(np.unique(inlines)), maps.axis_of(np.unique(crosslines))
    one = maps.folds(inlines, crosslines, down, right)
    other = maps.folds(inlines[40:], crosslines[40:], down, right)
    found = [at.tolist() for at in maps.differing(one, other, len(right))]
    monkeypatch.setattr(maps, "MOST_DIRECT", 0)
    monkeypatch.setattr(maps, "MOST_DENSE", 0)
    assert [at.tolist() for at in maps.folds(inlines, crosslines, down, right)] == [at.tolist() for at in one]
    assert [at.tolist() for at in maps.differing(one, other, len(right))] == found
    assert sorted(set(zip(down.places(inlines[:40]).tolist(), right.places(crosslines[:40]).tolist()))) == list(zip(*found))


def chosen_line(chance, count):
    """An edit of a range or of chosen traces, by any of the words that name them; it is accepted."""
    field, where = chance.choice(["inline", "crossline", "delay", "@193:4", "x"]), chance.choice(["crossline > 2", "inline = 1 and delay != 3", "x < 0", "sample_least = 7", "sample_greatest != crossline and sample_count > 1"])
    first = chance.randint(1, count)
    last = chance.randint(first, count)
    span = chance.choice(["all", f"{first} {last}", f"{first} last", "last last"])
    more = chance.choice(["", f" where {where}"])
    return chance.choice([
        f"set {span} {field} {chance.randint(0, 40)}{more}", f"renumber {span} {field} 3 {chance.randint(-1, 2)}{more}", f"set last {field} 8",
        f"compute {span} {field} crossline + 1{more}", f"swap {span} @189:4 crossline{more}", f"swap {span} ensemble y{more}", f"fill {span} 0 1 7{more}", f"delete {first} {last}", f"delete {span} where {where}", "delete last", "copy 1 end", "copy last 1", "blank end",
        "blank last", "move last 1", "sort all -crossline", f"set {first} {field} 5", "delete last last",
        f"move {first} {last} {chance.randint(1, count - last + first)}", f"move {first} last last",
        "map shot", "map usual",
    ])


@pytest.mark.parametrize("seed", range(12))
def test_random_edits_of_chosen_traces(desk, seed):
    chance = random.Random(seed)
    for _ in range(6):
        for _ in range(chance.randint(1, 3)):
            if len(desk.volume) == 0:
                desk.run("blank end")
            told = desk.run(chosen_line(chance, len(desk.volume)))["answers"][0]
            assert told["kind"] == "edit" and told["text"].startswith("ok"), told
        shot = sound(desk)
        assert not shot.mirror.origin.any() or len(set(shot.mirror.origin[shot.mirror.origin > 0].tolist())) == np.count_nonzero(shot.mirror.origin)
        if chance.random() < 0.4:
            desk.undo()
            sound(desk)
            desk.redo()
            sound(desk)
        desk.widen([*mirror.PLACES, *MORE])


@pytest.mark.parametrize(("lines", "origin"), [
    ("delete 3 18", [1, 2, 19, 20]), ("delete 18 last", [*range(1, 18)]), ("delete last\ndelete last\ndelete 3 18", [1, 2]), ("delete 1 2\ndelete 1 2", [*range(5, 21)]),
    ("delete 19 20\ndelete 4 last", [1, 2, 3]), ("delete all", []), ("delete all\nblank end", [0]), ("move last 1\ndelete 2 3", [20, *range(3, 20)]),
    ("move 2 5 9", [1, *range(6, 13), 2, 3, 4, 5, *range(13, 21)]), ("move 19 last 1", [19, 20, *range(1, 19)]),
    ("move 1 2 last\ndelete 2 18", [3, 1, 2]), ("map shot\nmove 1 1 3", [2, 3, 1, *range(4, 21)]),
    ("set all delay 7 where inline = 1\ndelete 1 19", [20]), ("copy last end\ndelete last 21", [*range(1, 21)]),
    ("delete all where inline < 4", [0] * 5), ("sort all -inline\ncopy 1 end\nset 21 inline 5\ndelete last\ndelete 2 last", [0]),
])
def test_where_the_traces_are(desk, lines, origin):
    """Behind deletions of ranges; of traces that conditions chose it is not known, as behind a sort."""
    told = desk.run_script(lines)
    assert "refused" not in told and sound(desk).mirror.origin.tolist() == origin


def test_edits_of_chosen_traces_are_marked(desk):
    """They are edits to the page, also those of no trace, and the columns follow them."""
    told = desk.run("set all delay 7 where inline = 2 and crossline > 3")
    assert told["answers"][0]["kind"] == "edit" and told["answers"][0]["text"] == "ok 2" and told["version"] == desk.version
    shot = sound(desk)
    assert np.flatnonzero(shot.mirror.columns["delay"]).tolist() == [8, 9] and shot.mirror.origin.tolist() == [*range(1, 21)]
    assert desk.run("delete all where inline = 9")["answers"][0]["text"] == "ok 0" and len(sound(desk).mirror) == 20
    assert desk.run("count all where delay = 7")["answers"][0]["kind"] == "query"
    assert desk.run_script("set all delay 8 where delay = 7\ndelete 1 last where delay = 8")["edits"] == 2 and len(sound(desk).mirror) == 18
    desk.undo()
    assert sound(desk).mirror.columns["delay"].tolist().count(7) == 2 and desk.volume.edits[-1] == "delete all where inline = 9"


def test_a_field_where(desk):
    desk.run("map where @109:2")
    desk.widen(["where"])
    for line in ("set 3 where 5", "set 1 2 where 6 where where = 0", "set all where 7 where where = 6", "compute all where where + 1 where where > 5", "sort all where"):
        assert desk.run(line)["answers"][0]["kind"] == "edit", line
        sound(desk)
    assert sorted(desk.now().mirror.columns["where"].tolist())[-3:] == [5, 8, 8]
