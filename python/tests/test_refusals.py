"""Each refusal of the manual is an exception, and nothing has changed."""

import os
import pickle
import re
import shutil
import subprocess

import files
import pytest
import retell
from conftest import TOP, run

import segywb
from segywb import Refused, program

SURVEY = "survey"


def over(v):
    """Fills the names that can be bound."""
    for n in range(64):
        v.map(f"name_{n}", "@1:4")
    v.map("one_more", "@1:4")


# the code, its second code, a file, its options, what is refused, the text of the refusal
TABLE = [
    ("S01", None, SURVEY, {}, lambda v: v.run("sett 1 inline 7", stop=True), "unknown word"),
    ("S02", None, SURVEY, {}, lambda v: v.get(1, "inline 7"), "words"),
    ("S03", None, SURVEY, {}, lambda v: v.range("z"), "number"),
    ("S03", None, SURVEY, {}, lambda v: v.find("inline", 0, 2**127), "number"),
    ("S03", None, SURVEY, {}, lambda v: v.headers("@189"), "number"),
    ("S04", None, SURVEY, {}, lambda v: v.set_text(1, "a\udcff"), "not text"),
    ("E01", None, SURVEY, {}, lambda v: v.set(4, "inline", 7), "no trace 4 of 3"),
    ("E01", None, SURVEY, {}, lambda v: v.renumber(2, 1, "inline", 1, 1), "no trace 1 of 3"),
    ("E01", None, SURVEY, {}, lambda v: v.headers("inline", traces=[1, 9]), "no trace 9 of 3"),
    ("E01", None, SURVEY, {}, lambda v: v.positions([9]), "no trace 9 of 3"),
    ("E01", None, SURVEY, {}, lambda v: v.stat(0), "no trace 0 of 3"),
    ("E01", None, SURVEY, {}, lambda v: v.delete(4), "no trace 4 of 3"),
    ("E01", None, SURVEY, {}, lambda v: v.samples(4), "no trace 4 of 3"),
    ("E01", None, SURVEY, {}, lambda v: v.find("colour", 0, 1, traces=4), "no trace 4 of 3"),
    ("E01", None, SURVEY, {}, lambda v: v.header(0), "no trace 0 of 3"),
    ("E01", None, SURVEY, {}, lambda v: v.extremes(range(2, 6)), "no trace 5 of 3"),
    ("E02", None, SURVEY, {}, lambda v: v.get(1, "colour"), "no field"),
    ("E02", None, SURVEY, {}, lambda v: v.find("colour", 0, 1), "no field"),
    ("E02", None, SURVEY, {}, lambda v: v.headers("colour"), "no field"),
    ("E02", None, SURVEY, {}, lambda v: v.getbin("inline"), "no field"),
    ("E02", None, SURVEY, {}, lambda v: v.map("x", "colour"), "no field"),
    ("E03", None, SURVEY, {}, lambda v: v.set(1, "@1.1:4", 7), "no place"),
    ("E03", None, SURVEY, {}, lambda v: v.text_block(1), "no place"),
    ("E03", None, SURVEY, {}, lambda v: v.lines(1), "no place"),
    ("E03", None, SURVEY, {}, lambda v: v.headers("inline", "@1.1:4"), "no place"),
    ("E03", None, SURVEY, {}, lambda v: v.find("@1.1:4", 0, 1), "no place"),
    ("E03", None, SURVEY, {}, lambda v: v.code(1), "no place"),
    ("E04", None, SURVEY, {}, lambda v: v.set(1, "inline", 2**31), "does not fit"),
    ("E04", None, SURVEY, {}, lambda v: v.patch(1, 0, [1, 40000]), "does not fit"),
    ("E05", None, SURVEY, {}, lambda v: v.sample(1, 2), "no sample 2 of 2"),
    ("E06", None, SURVEY, {}, lambda v: v.set_bin("samples", 3), "frame"),
    ("E06", None, SURVEY, {}, lambda v: v.resize(1, 4), "frame"),
    ("E07", "T01", SURVEY, {}, lambda v: v.set_text(1, "C" * 81), "too long"),
    ("E07", "T02", SURVEY, {}, lambda v: v.set_text(1, "C [draft]"), "no code for column 3"),
    ("E08", "M01", SURVEY, {}, lambda v: v.map("Shot", "@1:4"), "bad name"),
    ("E08", "M02", SURVEY, {}, lambda v: v.map("shot", "@239:4"), "outside header"),
    ("E08", "M03", SURVEY, {}, lambda v: v.map("scalar", "@71:4"), "bad kind"),
    ("E08", "M04", SURVEY, {}, over, "full"),
    ("E08", "M05", SURVEY, {}, lambda v: v.unmap("inline"), "geometry"),
    ("E08", "M06", SURVEY, {}, lambda v: v.unmap("shot"), "unknown"),
    ("E08", "M07", SURVEY, {}, lambda v: v.map("delay", "@17:4"), "standard"),
    ("S02", None, SURVEY, {}, lambda v: v.compute(1, 1, "inline", "cdp", "/"), "words"),
    ("S02", None, SURVEY, {}, lambda v: v.sort(1, 1, *["inline"] * 9), "words"),
    ("E02", None, SURVEY, {}, lambda v: v.sort(1, 1, "-"), "no field"),
    ("E03", None, SURVEY, {}, lambda v: v.sort(1, 3, "-@1.1:4"), "no place"),
    ("S03", None, SURVEY, {}, lambda v: v.compute(1, 1, "inline", "cdp ^ 2"), "number"),
    ("E02", None, SURVEY, {}, lambda v: v.compute(1, 1, "inline", "colour"), "no field"),
    ("E04", None, SURVEY, {}, lambda v: v.compute(1, 3, "scalar", "inline * 65536 * 65536"), "does not fit"),
    ("E13", None, SURVEY, {}, lambda v: v.compute(2, 3, "inline", 7, "/", "delay"), "zero divisor trace 2"),
    ("E09", None, SURVEY, {"max_bytes": 4332}, lambda v: v.copy(1, 1), "too large"),
]
FAKED = {"E10": "refused E10 too many traces", "E11": "refused E11 out of memory"}


@pytest.mark.parametrize("case", TABLE, ids=lambda case: f"{case[0]}-{case[5]}")
def test_refused(opened, case):
    code, part, name, options, call, text = case
    volume = opened(name, **options)
    with pytest.raises(Refused) as refusal:
        call(volume)
    got = refusal.value
    assert (got.code, got.part, got.text) == (code, part, text)
    assert got.numbers == tuple(int(word) for word in text.split() if word.isdigit())
    assert code in str(got) and got.line in str(got)
    # the same line is refused by a run with the same words, and nothing has changed
    answers, status = run(volume.path, [*volume.edits, got.line], *(w for k, n in options.items() for w in ("--" + k.replace("_", "-"), str(n))))
    assert answers.split("\n")[-2] == got.answer and status == 1
    pairs = retell.everything(volume)
    assert run(volume.path, [*volume.edits, *(question for question, _ in pairs)])[0] == "".join(
        f"{line}\n" for line in ["ok"] * len(volume.edits) + [answer for _, answer in pairs]
    )


@pytest.mark.parametrize("answer", FAKED.values(), ids=FAKED)
def test_refusals_that_need_a_fake(fake, opened, answer):
    fake(f"for line in sys.stdin:\n    print('traces 1' if line == 'count\\n' else {answer!r}, end='\\n\\n', flush=True)\n")
    with pytest.raises(Refused) as refusal:
        opened("survey").copy(1, 1)
    assert refusal.value.answer == answer


def test_every_refusal_of_the_manual_is_tried():
    manual = (TOP / "docs" / "MANUAL.md").read_text()
    part = manual[manual.index("## Refusals of a line"):manual.index("## See also", manual.index("## Refusals of a line"))]
    codes = {(code, second or None) for code, second in re.findall(r"^\| ([SE]\d\d) \| `(?:([TM]\d\d) )?", part, re.M)}
    tried = {(code, second) for code, second, *_ in TABLE} | {(code, None) for code in FAKED}
    # words that the program gains later are tried where they are made
    later = {("S05", None), ("S06", None), ("S07", None), ("S08", None), ("E14", None), ("E15", None)}
    assert codes - later == tried | {("E12", None)}


@pytest.mark.parametrize("call", [
    lambda v: v.sample(1, 0), lambda v: v.sample(1, 9), lambda v: v.patch(1, 0, [1]), lambda v: v.patch(1, 9, [2**70]), lambda v: v.stat(2),
    lambda v: v.fill(1, 2, 0, 1, 7),
    lambda v: v.totals(), lambda v: v.slice(0),
], ids=["sample", "no sample", "patch", "a number that fits nowhere", "stat", "fill", "totals", "slice"])
def test_samples_without_values(tmp_path, call):
    path = files.floats(tmp_path / "float.sgy")
    volume = segywb.open(path, opaque_samples=True, floats=False)
    with pytest.raises(Refused) as refusal:
        call(volume)
    assert (refusal.value.code, refusal.value.text) == ("E12", "samples have no value")
    volume.save(tmp_path / "saved.sgy")
    assert (tmp_path / "saved.sgy").read_bytes() == path.read_bytes()


def test_no_trace_is_told_before_no_value(tmp_path):
    volume = segywb.open(files.floats(tmp_path / "float.sgy"), opaque_samples=True, floats=False)
    for call in (lambda: volume.sample(9, 0), lambda: volume.patch(9, 0, [1]), lambda: volume.stat(9)):
        with pytest.raises(Refused) as refusal:
            call()
        assert refusal.value.code == "E01"


LOADS = {
    "L02": (lambda p: files.cube(p), {"max_bytes": 4000}, "too large"),
    "L03": (lambda p: files.write(p, b"C"), {}, "short 1"),
    "L04": (lambda p: files.write(p, files.header(), files.binary(at3297=(4, 0x02010403))), {}, "pair swapped"),
    "L05": (lambda p: files.write(p, files.header(), files.binary(major=3)), {}, "revision 3.0"),
    "L06": (lambda p: files.write(p, files.header(), files.binary(form=5)), {"floats": False}, "float format 5"),
    "L07": (lambda p: files.write(p, files.header(), files.binary(form=4)), {}, "gain format"),
    "L08": (lambda p: files.write(p, files.header(), files.binary(form=77)), {}, "unknown format 77"),
    "L09": (lambda p: files.write(p, files.header(), files.binary(blocks=3)), {}, "text count 3"),
    "L10": (lambda p: files.write(p, files.header(), files.binary(major=2, extensions=-1)), {}, "extensions -1"),
    "L11": (lambda p: files.write(p, files.header(), files.binary(major=2, at3529=(4, -1))), {}, "trailer -1"),
    "L12": (lambda p: files.write(p, files.header(), files.binary(major=2, at3521=(8, 7))), {}, "first trace 7"),
    "L13": (lambda p: extra(p), {}, "extension count trace 1"),
    "L14": (lambda p: files.write(p, files.cube(p).read_bytes()[:-1]), {}, "truncated trace 12"),
    "L17": (lambda p: files.write(p, files.header(), files.binary(at3297=(4, 0x01020304))), {"order": "little"}, "other byte order"),
}
FAKED_LOADS = {"L01": "read failed", "L15": "too many traces", "L16": "out of memory"}


def extra(path):
    """A first extension that counts more extensions than the file allows."""
    whole = bytearray(files.extended(path).read_bytes())
    whole[3600 + 240 + 156:3600 + 240 + 158] = b"\x00\x07"
    return files.write(path, bytes(whole))


@pytest.mark.parametrize("code", LOADS)
def test_load_refused(tmp_path, code):
    make, options, text = LOADS[code]
    path = make(tmp_path / "bad.sgy")
    with pytest.raises(segywb.LoadRefused) as refusal:
        segywb.open(path, **options)
    assert (refusal.value.code, refusal.value.text, refusal.value.status, refusal.value.path) == (code, text, 3, str(path))
    words = [f"--{name.replace('_', '-')}={value}" for name, value in options.items() if value is not False]
    assert run(path, ["count"], *words) == (f"{refusal.value.answer}\n", 3)


@pytest.mark.parametrize("code", LOADS)
def test_the_hint_of_a_refused_file(tmp_path, code):
    """What the program tells on standard error, behind its refusal."""
    make, options, _ = LOADS[code]
    path = make(tmp_path / "bad: (a) file.sgy")
    with pytest.raises(segywb.LoadRefused) as refusal:
        segywb.open(path, **options)
    words = [f"--{name.replace('_', '-')}={value}" for name, value in options.items() if value is not False]
    told = subprocess.run([program.find(), str(path), "--session", *words], input=b"", capture_output=True, check=False).stderr.decode()
    told = "".join(line for line in told.splitlines(True) if " can be read with --" not in line)
    got = refusal.value
    assert got.hint and got.hint in str(got) and f"{code} " in str(got) and str(path) in str(got)
    assert f"segywb: {path}: {code} {got.text} ({got.hint}" == told.replace(")\nsegywb: ", "; ").rstrip(")\n")
    # each option in it is named as the argument that it is
    named = set(re.findall(r"--([a-z-]+)", got.hint))
    assert {argument.partition("=")[0] for argument in got.arguments} == {name.replace("-", "_") for name in named}
    assert all(argument in str(got) for argument in got.arguments)
    again = pickle.loads(pickle.dumps(got))
    assert (str(again), again.hint, again.arguments, again.status) == (str(got), got.hint, got.arguments, 3)


def other_order(path):
    """A file whose numbers are in the other order, which it does not tell."""
    header = files.binary(samples=0x0200, form=0x0300, fixed=0x0100, interval=0xA00F)
    return files.write(path, files.header(), header, files.trace(1, 1, 1, [1, 2], told=0x0200))


HELPS = {
    "L02": (lambda p: files.cube(p), {"max_bytes": 4000}, ["max_bytes=N", "on_disk=True"], {"max_bytes": 10_000}),
    "L06": (lambda p: files.floats(p), {"floats": False}, ["floats=True", "opaque_samples=True"], {"floats": True}),
    "L07": (lambda p: files.write(p, files.header(), files.binary(form=4)), {}, ["opaque_samples=True"], {"opaque_samples": True}),
    "L08": (other_order, {}, ['order="big"', 'order="little"'], {"order": "little"}),
    "L14": (lambda p: files.write(p, files.header(), files.binary(fixed=0), files.trace(1, 1, 1, [1, 2], told=9)), {}, ["fixed=True"], {"fixed": True}),
    "L17": (lambda p: files.write(p, files.header(), files.binary(at3297=(4, 0x01020304))), {"order": "little"}, ["order"], {}),
}


@pytest.mark.parametrize("code", HELPS)
def test_the_argument_that_helps(tmp_path, code):
    """With the argument that is named (in L17: without it) the file is read."""
    make, options, arguments, better = HELPS[code]
    path = make(tmp_path / "bad.sgy")
    with pytest.raises(segywb.LoadRefused) as refusal:
        segywb.open(path, **options)
    assert refusal.value.code == code and list(refusal.value.arguments) == arguments
    with segywb.open(path, **better) as volume:
        assert len(volume) == volume.info.traces


def test_a_refusal_without_a_hint(fake, example):
    fake("print('load refused L16 out of memory', flush=True)\nsys.exit(3)\n")
    with pytest.raises(segywb.LoadRefused) as refusal:
        segywb.open(example("survey"))
    assert (refusal.value.hint, refusal.value.arguments) == ("", ()) and str(refusal.value).endswith("survey.sgy")


@pytest.mark.parametrize("code", FAKED_LOADS)
def test_load_refused_by_a_fake(fake, example, code):
    fake(f"print('load refused {code} {FAKED_LOADS[code]}', flush=True)\nsys.exit(3)\n")
    with pytest.raises(segywb.LoadRefused) as refusal:
        segywb.open(example("survey"))
    assert (refusal.value.code, refusal.value.status) == (code, 3)


def test_a_folder(tmp_path):
    with pytest.raises(segywb.LoadRefused) as refusal:
        segywb.open(tmp_path)
    assert refusal.value.code == "L01"


def test_every_refusal_of_a_file_is_tried():
    manual = (TOP / "docs" / "MANUAL.md").read_text()
    assert set(re.findall(r"^\| (L\d\d) \|", manual, re.M)) == set(LOADS) | set(FAKED_LOADS)


def test_no_file(tmp_path):
    with pytest.raises(FileNotFoundError):
        segywb.open(tmp_path / "absent.sgy")


@pytest.mark.parametrize("which", ["name", "folder", "bytes"])
def test_a_path_that_is_not_utf_8(example, tmp_path, monkeypatch, which):
    """The error names the path, where it is opened and where it is saved; text that is UTF-8 is no matter."""
    folder = os.fsencode(tmp_path / "f") + (b"\xff" if which == "folder" else b"")
    os.mkdir(folder)
    name = b"cube.sgy" if which == "folder" else b"cube \xfe.sgy"
    shutil.copy(example("cube"), os.path.join(folder, name))
    monkeypatch.chdir(folder)
    with pytest.raises(segywb.PathRefused) as refusal:
        segywb.open(name if which == "bytes" else os.fsdecode(name))
    assert "UTF-8" in str(refusal.value) and repr(os.path.join(folder, name)) in str(refusal.value)
    assert isinstance(refusal.value, ValueError) and isinstance(refusal.value, segywb.Error)
    with pytest.raises(FileNotFoundError):
        segywb.open(os.fsdecode(b"absent \xfe.sgy"))
    with segywb.open(shutil.copy(tmp_path / "cube.sgy", tmp_path / "w\u00fcrfel.sgy")) as volume:
        volume.set(1, "inline", 7)
        with pytest.raises(segywb.PathRefused):
            volume.save(os.path.join(folder, b"o \xfe.sgy") if which == "bytes" else os.fsdecode(os.path.join(folder, b"o \xfe.sgy")))
        assert os.listdir(folder) == [name] and volume.edits == ["set 1 inline 7"]
        volume.save(tmp_path / "\u0437\u0430.sgy")


@pytest.mark.parametrize("call", [
    lambda v: v.set_text(1, "C\nset 1 inline 7"),
    lambda v: v.set_text(1, "C\r"),
    lambda v: v.get(1, "inline\ncount"),
    lambda v: v.set(1, "inline\n", 7),
    lambda v: v.set_many("inline\n", [1], [7]),
    lambda v: v.headers("inline\ncount"),
    lambda v: v.map("a\nb", "@1:4"),
    lambda v: v.map("a", "@1:4\n"),
    lambda v: v.unmap("a\n"),
    lambda v: v.range("x\n"),
    lambda v: v.getbin("format\n"),
    lambda v: v.set_bin("job\n", 1),
    lambda v: v.renumber(1, 1, "inline\n", 1),
    lambda v: v.find("inline\n", 1, 2),
    lambda v: v.extremes([1, 3]),
    lambda v: v.get(1, 2),
    lambda v: v.headers("x", "x"),
    lambda v: v.headers("x", traces=slice(0, 2)),
    lambda v: v.set_many("x", [1, 2], [7]),
    lambda v: v.undo(1),
    lambda v: v.redo(1),
    lambda v: v.undo(-1),
])
def test_arguments_that_are_no_words(opened, call):
    volume = opened("survey")
    with pytest.raises(ValueError):
        call(volume)
    assert volume.edits == [] and volume.get(1, "inline") == 10


@pytest.mark.parametrize("call", [
    lambda v: v.set(1, "inline", 7.0),
    lambda v: v.set("1", "inline", 7),
    lambda v: v.get(1.0, "inline"),
    lambda v: v.set_many("inline", [1, 2], [7, 8.5]),
    lambda v: v.set_many("inline", [1.0, 2], 7),
    lambda v: v.patch(1, 0, "12"),
    lambda v: v.fold(None, 1),
    lambda v: v.find("inline", 0.5, 1),
    lambda v: v.header("1"),
])
def test_numbers_that_are_none(opened, call):
    volume = opened("survey")
    with pytest.raises(TypeError):
        call(volume)
    assert volume.edits == []
