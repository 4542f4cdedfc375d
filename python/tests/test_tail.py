"""Bytes of no trace behind the last one: kept by ``tail=True``, told, left as they are by edits, and taken away."""

import json
import pathlib

import files
import pytest
from conftest import run
from test_questions import told

import segywb
from segywb import errors, program, repairs

KNOWN = pytest.mark.skipif(not program.knows("--tail"), reason="the program is older than this reading")
REFUSAL = "load refused L14 truncated trace 3"
TOLD = """segywb: {path}: L14 truncated trace 3 (the file ends 100 bytes inside trace 3)
segywb: {path} can be read with --samples 7: 2 traces
segywb: {path} can be read with --tail: 2 traces, and what stands behind as bytes of no trace
"""
# A program that refuses a file where it is not told --tail, and else answers some lines, over a file of so many bytes.
SCRIPT = """
words = sys.argv[1:]
if words == ['--help']:
    print('--floats --recover --look --samples --tail')
    sys.exit(0)
import json
open({log!r}, 'a').write(json.dumps(words) + chr(10))
if '--tail' not in words:
    print({refusal!r}, flush=True)
    sys.stderr.write({told!r}.replace('{{path}}', words[0]))
    sys.exit(3)
size, tail = os.path.getsize(words[0]), 100
for line in sys.stdin:
    line = line.strip()
    if line == 'drop tail':
        size, tail = size - tail, 0
    info = f'info order big revision 1.0 format 3 samples 3 fixed yes extensions 0 blocks 0 trailer 0 traces 2 bytes {{size}} tail {{tail}}'
    answers = {{'count': 'traces 2', 'drop tail': 'ok', 'drop': 'refused S02 words', 'set 1 inline 7': 'ok', 'info': info}}
    print(answers.get(line, 'refused S03 number'), end=chr(10) * 2, flush=True)
"""


@pytest.fixture
def kept(fake, tmp_path):
    """Makes that program the one that is run; gives the words that it was run with."""
    log = tmp_path / "log"
    log.touch()
    program._options.clear()
    fake(SCRIPT.format(log=str(log), refusal=REFUSAL, told=TOLD))
    yield lambda: [json.loads(line) for line in log.read_text().splitlines()]
    program._options.clear()


def test_the_refusal_names_it_last(kept, tmp_path):
    path = files.cube(tmp_path / "a cube can be read with --tail: 1 trace.sgy")
    with pytest.raises(segywb.LoadRefused) as refusal:
        segywb.open(path)
    got = refusal.value
    assert got.readings == [{"samples": 7}, {"tail": True}]
    assert got.hint == "the file ends 100 bytes inside trace 3" and got.arguments == ()
    assert str(got).endswith("(the file ends 100 bytes inside trace 3; segywb.open may read it with samples=7, or with tail=True)")
    with segywb.open(path, **got.readings[-1]) as volume:
        assert (len(volume), volume.info.tail) == (2, 100)
    assert kept()[-1][2:] == ["--floats", "--tail", "--max-bytes", str(1 << 40)]


@pytest.mark.parametrize("text", [
    "can be read with --tail: 2 traces, and what stands behind as bytes of no trace", "can be read with --tail: 1 trace, and what stands behind as bytes of no trace",
    "can be read with --tail: 2 traces", "can be read with --tail: 2 traces; 243 bytes behind them", "can be read with --tail: 2 traces (and 243 bytes behind them)",
])
def test_the_words_of_the_hint(text):
    assert errors.readings_of(f"segywb: a.sgy {text}\n", "a.sgy") == [{"tail": True}]
    assert errors.hint_of("L14 truncated trace 3", f"segywb: a.sgy: L14 truncated trace 3 (it ends)\nsegywb: a.sgy {text}\n") == "it ends"


def test_an_option_that_a_hint_names():
    assert errors.options("with --tail the bytes behind the last trace are kept") == (("--tail", "tail=True"),)


def test_it_is_told_to_the_program(kept, tmp_path):
    with segywb.open(files.cube(tmp_path / "cube.sgy"), tail=True, fixed=True, samples=3) as volume:
        words = kept()[-1]
        assert "--tail" in words and "--fixed" in words and words[words.index("--samples") + 1] == "3"
        volume.drop_tail()
        assert (volume.edits, volume.undoable, volume.info.tail) == (["drop tail"], 1, 0)
        volume.restart()
        assert (volume.info.tail, kept()[-1]) == (0, words)
        assert volume.undo() == ["drop tail"] and volume.info.tail == 100
        for line in ("drop", "drop head"):
            with pytest.raises(segywb.Refused):
                volume.run([line], stop=True)


def test_nothing_is_told_where_nothing_is_said(kept, tmp_path):
    for options in ({}, {"tail": False}):
        with pytest.raises(segywb.LoadRefused):
            segywb.open(files.cube(tmp_path / "cube.sgy"), **options)
        assert "--tail" not in kept()[-1]


def test_how_the_file_itself_is_saved(kept, tmp_path):
    """Without the bytes behind the last trace it is shorter, and that needs a new file; where there were none nothing does."""
    with segywb.open(files.cube(tmp_path / "cube.sgy"), tail=True) as volume:
        volume.set(1, "inline", 7)
        assert volume.in_place().possible
        volume.drop_tail()
        assert volume.in_place() == (False, False, "the edit 'drop tail' needs a new file: the bytes behind the last trace go")
        volume.drop_tail()
        assert not volume.in_place().possible
        volume.undo(2)
        assert volume.in_place().possible


def test_a_name_that_is_no_drop(opened):
    volume = opened("cube")
    volume.map("drop", "@17:4")
    volume.set(1, "drop", 7)
    assert volume.in_place().possible == program.knows("--recover")


@pytest.mark.skipif(program.knows("--tail"), reason="the program knows this reading")
def test_an_older_program(opened):
    with pytest.raises(segywb.OptionRefused, match="--tail"):
        opened("cube", tail=True)
    assert opened("cube").info.tail is None


# ---- by the real program


def cut(path, less=1):
    """A cube of 12 traces of 3 samples, of which the last lacks some bytes."""
    return files.write(path, files.cube(path).read_bytes()[:-less])


@KNOWN
@pytest.mark.parametrize("less", [1, 6, 7, 245])
@pytest.mark.parametrize("on_disk", [False, True])
def test_a_cut_file(tmp_path, less, on_disk):
    path = cut(tmp_path / "cut.sgy", less)
    with pytest.raises(segywb.LoadRefused) as refusal:
        segywb.open(path, on_disk=on_disk)
    assert refusal.value.code == "L14" and refusal.value.readings[-1] == {"tail": True}
    before = path.read_bytes()
    with segywb.open(path, tail=True, on_disk=on_disk) as volume:
        assert (len(volume), volume.info.tail, volume.info.bytes) == (11, 246 - less, len(before))
        volume.save(tmp_path / "same.sgy")
        assert (tmp_path / "same.sgy").read_bytes() == before
        volume.delete(1)
        volume.save(tmp_path / "shorter.sgy")
        assert (tmp_path / "shorter.sgy").read_bytes() == before[:3600] + before[3846:]
        volume.undo()
        volume.drop_tail()
        assert (len(volume), volume.info.tail, volume.info.bytes) == (11, 0, 3600 + 11 * 246)
        volume.save(tmp_path / "whole.sgy")
    assert (tmp_path / "whole.sgy").read_bytes() == before[:3600 + 11 * 246]
    with segywb.open(tmp_path / "whole.sgy") as volume:
        assert (len(volume), volume.info.tail) == (11, None)


@KNOWN
@pytest.mark.parametrize("make", [cut, files.cube, files.varying, files.stanzas, files.extended, files.empty], ids=lambda make: make.__name__)
@pytest.mark.parametrize("more", [0, 1, 239])
def test_what_python_shows(opened, tmp_path, make, more):
    """As ever, with the bytes behind the last trace in what the file is."""
    path = make(tmp_path / "made.sgy")
    path.write_bytes(path.read_bytes() + b"\xa5" * (more if make is not cut else 0))
    volume = opened(path, tail=True)
    assert volume.info.tail == (245 if make is cut else more)
    told(volume, volume.path, options=["--tail"])
    volume.drop_tail()
    told(volume, volume.path, volume.edits, options=["--tail"])


@KNOWN
def test_none_is_there(opened):
    volume = opened("cube", tail=True)
    assert volume.info.tail == 0
    volume.drop_tail()
    assert (volume.info.tail, volume.edits) == (0, ["drop tail"])
    plain = opened("survey")
    plain.drop_tail()
    assert (plain.info.tail, plain.edits) == (None, ["drop tail"])


@KNOWN
def test_the_words_of_drop(opened):
    volume = opened("cube")
    answers = [answer.text for answer in volume.run("drop\ndrop tail tail\ndrop tails\ndrop 1")]
    assert answers == ["refused S02 words", "refused S02 words", "refused S03 number", "refused S03 number"]


@KNOWN
@pytest.mark.parametrize("on_disk", [False, True])
def test_in_place(tmp_path, monkeypatch, on_disk):
    """A file with such bytes is repaired in place, and they stay; one that loses them gets a new file."""
    monkeypatch.setattr(repairs, "IN_PLACE_ABOVE", 1000)
    path = cut(tmp_path / "cut.sgy", 7)
    before = path.read_bytes()
    with segywb.open(path, tail=True, on_disk=on_disk) as volume:
        inode = path.stat().st_ino
        volume.set(1, "inline", 7)
        assert volume.in_place().chosen
        volume.save()
        now = path.read_bytes()
        assert path.stat().st_ino == inode and len(now) == len(before) and now[3600 + 246 * 11:] == before[3600 + 246 * 11:]
        volume.drop_tail()
        with pytest.raises(segywb.SaveFailed):
            volume.save(in_place=True)
        assert path.read_bytes() == now and not list(tmp_path.glob(".*journal*"))
        volume.save()
        assert path.stat().st_ino != inode and path.read_bytes() == now[:3600 + 246 * 11]
        assert (volume.edits, volume.info.tail) == ([], 0)
        volume.drop_tail()
        volume.set(2, "inline", 8)
        assert volume.in_place().chosen
        inode = path.stat().st_ino
        volume.save()
        assert path.stat().st_ino == inode
    with segywb.open(path) as volume:
        assert (len(volume), volume.get(2, "inline")) == (11, 8)


@KNOWN
def test_with_another_reading(tmp_path):
    """The header says another number of samples, and the last trace is cut: both are said, and mended."""
    path = cut(tmp_path / "wrong.sgy", 7)
    data = bytearray(path.read_bytes())
    data[3220:3222] = b"\0\x09"
    path.write_bytes(data)
    with segywb.open(path, samples=3, tail=True) as volume:
        assert (len(volume), volume.info.tail) == (11, 239)
        volume.declare()
        volume.drop_tail()
        volume.save(tmp_path / "mended.sgy")
    with segywb.open(tmp_path / "mended.sgy") as volume:
        assert (len(volume), volume.info.samples, volume.samples(11).tolist()) == (11, 3, [22, 23, 24])
    answers, status = run(path, ["info"], "--samples", "3", "--tail")
    assert status == 0 and answers.endswith(f" traces 11 bytes {len(data)} tail 239\n")


@KNOWN
def test_a_look(tmp_path):
    path = cut(tmp_path / "cut.sgy", 7)
    assert segywb.look(path, tail=True) == segywb.look(pathlib.Path(path))
