"""Files that are read by what they are said to be: what the program is asked for, and what it says would fit."""

import json
import pickle
import sys

import pytest
from files import binary, cube, header

import segywb
from segywb import errors, looks, program

REFUSAL = "load refused L13 truncated header 3"
TOLD = """segywb: {path}: L13 truncated header 3 (bytes 3221-3222 say 9 samples)
segywb: {path} can be read with --samples 1500: 3 traces
segywb: {path} can be read with --samples 1500 --texts 2 --order little: 1 trace
segywb: {path} can be read with --format 5 --floats: 120 traces
"""
LOOK = """look bytes 1234567
look order big told
look revision 1.0
look format 5
look interval 2000
look samples 1500
look wide_samples 0
look fixed 1
look texts -1
look extensions 0
look trailer 0
look first_trace 0
look trace_bytes 6240
look traces 197 rest 7
"""
# A program that refuses a file where it is not told --samples, and else answers some lines.
SCRIPT = """
words = sys.argv[1:]
if words == ['--help']:
    print('--floats --recover --look --samples --format --texts')
    sys.exit(0)
import json
open({log!r}, 'a').write(json.dumps(words) + chr(10))
if '--look' in words:
    sys.stdout.write({look!r})
    sys.exit(0)
if '--samples' not in words:
    print({refusal!r}, flush=True)
    sys.stderr.write({told!r}.replace('{{path}}', words[0]))
    sys.exit(3)
for line in sys.stdin:
    answers = {{'count': 'traces 12', 'declare': 'ok', 'info': 'info order big revision 1.0 format 5 samples 1500 fixed yes extensions 0 blocks 2 trailer 0 traces 12 bytes 9'}}
    print(answers.get(line.strip(), 'refused S01 unknown word'), end=chr(10) * 2, flush=True)
"""


@pytest.fixture
def told(fake, tmp_path):
    """Makes that program the one that is run; gives the words that it was run with."""
    log = tmp_path / "log"
    log.touch()
    program._options.clear()
    fake(SCRIPT.format(log=str(log), refusal=REFUSAL, told=TOLD, look=LOOK))
    yield lambda: [json.loads(line) for line in log.read_text().splitlines()]
    program._options.clear()


def test_the_refusal_names_readings(told, tmp_path):
    path = cube(tmp_path / "it's a cube can be read with --texts 7: 3 traces.sgy")
    with pytest.raises(segywb.LoadRefused) as refusal:
        segywb.open(path)
    got = refusal.value
    assert got.readings == [{"samples": 1500}, {"samples": 1500, "texts": 2, "order": "little"}, {"format": 5, "floats": True}]
    assert got.hint == "bytes 3221-3222 say 9 samples" and got.arguments == ()
    assert str(got).endswith("(bytes 3221-3222 say 9 samples; segywb.open may read it with samples=1500, or with samples=1500, texts=2, order='little', or with format=5, floats=True)")
    again = pickle.loads(pickle.dumps(got))
    assert again.readings == got.readings and str(again) == str(got)
    with segywb.open(got.path, **got.readings[1]) as volume:
        assert len(volume) == 12
    assert told()[-1][2:] == ["--floats", "--order", "little", "--samples", "1500", "--texts", "2", "--max-bytes", str(1 << 40)]


def test_the_reading_is_told_to_the_program(told, tmp_path):
    path = cube(tmp_path / "cube.sgy")
    with segywb.open(path, samples=0, format=65535, texts=0) as volume:
        words = told()[-1]
        for name, value in (("--samples", "0"), ("--format", "65535"), ("--texts", "0")):
            assert words[words.index(name) + 1] == value
        assert volume.info.samples == 1500
        volume.declare()
        assert volume.edits == ["declare"] and volume.undoable == 1
        volume.restart()
        assert volume.edits == ["declare"] and told()[-1] == words
    with pytest.raises(TypeError):
        segywb.open(path, samples=1.5)


def test_nothing_is_told_where_nothing_is_said(told, tmp_path):
    with pytest.raises(segywb.LoadRefused):
        segywb.open(cube(tmp_path / "cube.sgy"))
    assert not {"--samples", "--format", "--texts"} & set(told()[-1])


def test_a_look(told, tmp_path):
    path = cube(tmp_path / "cube.sgy")
    assert segywb.look(path) == segywb.Look(1234567, "big", "told", "1.0", 5, 2000, 1500, 0, 1, -1, 0, 0, 0, 6240, 197, 7)
    assert told()[-1] == [str(path), "--look"]
    segywb.look(str(path), fixed=True, order="big", samples=0, format=5, texts=2)
    assert told()[-1][2:] == ["--fixed", "--order", "big", "--samples", "0", "--format", "5", "--texts", "2"]
    with pytest.raises(FileNotFoundError):
        segywb.look(tmp_path / "none.sgy")


def test_a_look_at_what_is_unknown():
    odd = LOOK.replace("trace_bytes 6240", "trace_bytes none").replace("traces 197 rest 7", "traces none").replace("big told", "little assumed") + "look more 7 8\n"
    found = looks.read(odd)
    assert (found.trace_bytes, found.traces, found.rest, found.order, found.by, found.samples) == (None, None, None, "little", "assumed", 1500)
    for wrong in (LOOK.replace("look samples 1500\n", ""), LOOK.replace("big told", "big"), LOOK.replace("6240", "many"), ""):
        with pytest.raises(segywb.ProgramEnded):
            looks.read(wrong)


def test_a_look_that_fails(fake, tmp_path):
    path = cube(tmp_path / "cube.sgy")
    for status, kind in ((3, segywb.ProgramEnded), (2, segywb.OptionRefused)):
        program._options.clear()
        fake(f"if sys.argv[1:] == ['--help']:\n    print('--look')\n    sys.exit(0)\nsys.stderr.write('no')\nsys.exit({status})\n")
        with pytest.raises(kind, match="failed; status"):
            segywb.look(path)
    program._options.clear()


@pytest.mark.parametrize(("text", "wanted"), [
    ("", []),
    ("segywb: a.sgy: L14 truncated trace 3 (the file ends 100 bytes inside trace 3)\n", []),
    ("segywb: a.sgy can be read with --samples 1500: 3 traces\n", [{"samples": 1500}]),
    ("segywb: a.sgy can be read with --samples 1500: 3 traces\n" * 2, [{"samples": 1500}]),
    ("segywb: a.sgy can be read with --on-disk --samples 4294967295: 1 trace\n", [{"on_disk": True, "samples": 4294967295}]),
    ("segywb: b.sgy can be read with --samples 1500: 3 traces\n", []),
    ("segywb: a.sgy can be read with --samples many: 3 traces\n", []),
    ("segywb: a.sgy can be read with --samples: 3 traces\n", []),
    ("segywb: a.sgy can be read with --colour 7: 3 traces\n", []),
    ("segywb: a.sgy can be read with --samples 1500\n", []),
])
def test_readings_of(text, wanted):
    assert errors.readings_of(text, "a.sgy") == wanted


@pytest.mark.skipif(program.knows("--samples"), reason="the program knows these readings")
def test_an_older_program(tmp_path):
    with pytest.raises(segywb.OptionRefused, match="--samples 3"):
        segywb.open(cube(tmp_path / "cube.sgy"), samples=3)
    if not program.knows("--look"):
        with pytest.raises(segywb.OptionRefused, match="older than --look"):
            segywb.look(cube(tmp_path / "cube.sgy"))
    assert sys.version_info >= (3, 9)


KNOWN = pytest.mark.skipif(not program.knows("--samples"), reason="the program is older than these readings")
# What is wrong with the binary header of a cube of 12 traces of 3 samples in format 3, the refusal, and the reading that is right.
WRONG = [
    ({"samples": 9}, "L14", {"samples": 3}),
    ({"form": 13}, "L08", {"format": 3}),
    ({"blocks": 100}, "L09", {"texts": 0}),
]


def wrong(path, **said):
    """A sound cube but for what its binary header says."""
    data = bytearray(cube(path).read_bytes())
    data[3200:3600] = binary(**{"samples": 3, "form": 3, **said})
    path.write_bytes(data)
    return path


@KNOWN
@pytest.mark.parametrize(("said", "code", "reading"), WRONG, ids=lambda one: one if isinstance(one, str) else None)
def test_a_wrong_header_is_mended_by_its_reading(tmp_path, said, code, reading):
    path = wrong(tmp_path / "wrong.sgy", **said)
    with pytest.raises(segywb.LoadRefused) as refusal:
        segywb.open(path)
    assert refusal.value.code == code
    assert reading in [{name: value for name, value in one.items() if name in reading} for one in refusal.value.readings]
    with segywb.open(path, **reading) as volume:
        assert (len(volume), volume.info.samples, volume.info.format) == (12, 3, 3)
        volume.declare()
        volume.save(tmp_path / "mended.sgy")
    with segywb.open(tmp_path / "mended.sgy") as volume:
        assert (len(volume), volume.samples(12).tolist()) == (12, [23, 24, 25])
    (name, value), = reading.items()
    before, under, after = segywb.look(path), segywb.look(path, **reading), segywb.look(tmp_path / "mended.sgy")
    assert getattr(before, name) == getattr(under, name) != value == getattr(after, name)
    assert before.rest != 0 and (under.traces, under.rest) == (after.traces, after.rest) == (12, 0)


@KNOWN
def test_a_declaration_that_is_refused(tmp_path):
    """Revision 1 has no room for more than 65535 samples of a trace."""
    path = tmp_path / "long.sgy"
    path.write_bytes(header() + binary(form=8, samples=7) + bytes(240 + 70000))
    with segywb.open(path, samples=70000) as volume:
        with pytest.raises(segywb.Refused) as refusal:
            volume.declare()
        assert (refusal.value.code, refusal.value.line, len(volume), volume.edits) == ("E06", "declare", 1, [])


@KNOWN
def test_numbers_that_no_reading_has(tmp_path):
    path = cube(tmp_path / "cube.sgy")
    for given in ({"samples": -1}, {"samples": 1 << 32}, {"format": 65536}, {"texts": 32768}):
        with pytest.raises(segywb.OptionRefused):
            segywb.open(path, **given)
    with pytest.raises(segywb.LoadRefused):
        segywb.open(path, format=13)
