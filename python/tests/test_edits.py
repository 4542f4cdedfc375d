"""Edits, taken back and done again, and saved: compared with a run of the program."""

import os
import warnings
from pathlib import Path

import files
import numpy as np
import pandas as pd
import pytest
from conftest import run

import segywb
from segywb import BinField, TraceField

EDITS = [
    (lambda v: v.set(2, "inline", 7), "set 2 inline 7"),
    (lambda v: v.set(2, TraceField.INLINE_3D, np.int32(-7)), "set 2 @189:4 -7"),
    (lambda v: v.set(2, 115, 2), "set 2 @115:2u 2"),
    (lambda v: v.renumber(1, 3, "crossline", 100, -5), "renumber 1 3 crossline 100 -5"),
    (lambda v: v.renumber(1, 3, "x", 4), "renumber 1 3 x 4 0"),
    (lambda v: v.compute(1, 3, "inline", "crossline * 1000 + inline"), "compute 1 3 inline crossline * 1000 + inline"),
    (lambda v: v.compute(2, 3, TraceField.CDP, TraceField.INLINE_3D, "%", np.int32(7)), "compute 2 3 @21:4 @189:4 % 7"),
    (lambda v: v.compute(1, 2, "offset", -5), "compute 1 2 offset -5"),
    (lambda v: v.map("shot", "@17:4"), "map shot @17:4"),
    (lambda v: v.map("inline", TraceField.CDP), "map inline @21:4"),
    (lambda v: v.map("x", "source_x"), "map x source_x"),
    (lambda v: v.map("x", "SourceX"), "map x SourceX"),
    (lambda v: v.map("x", TraceField.SourceX), "map x @73:4"),
    (lambda v: v.map("shot", "ep"), "map shot ep"),
    (lambda v: v.map("offset", "name"), "map offset name"),
    (lambda v: v.unmap("name"), "unmap name"),
    (lambda v: v.set_bin("interval", 2000), "bin interval 2000"),
    (lambda v: v.set_bin(BinField.JobID, 5), "bin @3201:4 5"),
    (lambda v: v.set_text(3, "C 3 CORRECTED"), "text 3 C 3 CORRECTED"),
    (lambda v: v.set_text(3), "text 3"),
    (lambda v: v.patch(1, 0, [7, -8]), "patch 1 0 7 -8"),
    (lambda v: v.patch(1, 1, 9), "patch 1 1 9"),
    (lambda v: v.patch(1, 0, np.array([1, 2], dtype=np.int16)), "patch 1 0 1 2"),
    (lambda v: v.blank(13), "blank 13"),
    (lambda v: v.copy(3, 1), "copy 3 1"),
    (lambda v: v.delete(1), "delete 1"),
    (lambda v: v.move(3, 1), "move 3 1"),
    (lambda v: v.sort(1, 12, "crossline", "-inline"), "sort 1 12 crossline -inline"),
    (lambda v: v.sort(2, 5, -TraceField.INLINE_3D, TraceField.offset, -115), "sort 2 5 -@189:4 @37:4 -@115:2u"),
]


@pytest.mark.parametrize("case", EDITS, ids=lambda case: case[1])
def test_one_edit(opened, tmp_path, case):
    edit, line = case
    volume = opened("cube")
    volume.map("name", "@5:4")
    edit(volume)
    assert volume.edits == ["map name @5:4", line]
    volume.save(tmp_path / "python.sgy")
    assert run(volume.path, volume.edits, "--out", str(tmp_path / "run.sgy")) == ("ok\nok\n", 0)
    assert (tmp_path / "python.sgy").read_bytes() == (tmp_path / "run.sgy").read_bytes()


def test_resize(opened, tmp_path):
    volume = opened(files.varying(tmp_path / "varying.sgy"))
    volume.resize(1, 4)
    assert volume.edits == ["resize 1 4"]
    assert list(volume.samples(1)) == [2**64 - 1, 0, 0, 0]


def test_sort(opened):
    volume = opened("cube")
    volume.sort(1, len(volume), "-inline", TraceField.CROSSLINE_3D)
    got = volume.headers("inline", "crossline", traces=slice(1, 3))
    assert list(got["inline"]) == [103, 103] and list(got["crossline"]) == [201, 202]
    with pytest.raises(TypeError):
        volume.sort(1, 4)
    assert volume.edits == ["sort 1 12 -inline @193:4"]


def test_compute(opened):
    volume = opened("cube")
    volume.compute(1, 4, "crossline", "inline - 200 / 7")
    assert list(volume.headers("crossline", traces=slice(1, 5))["crossline"]) == [-15] * 4
    with pytest.raises(TypeError):
        volume.compute(1, 4, "crossline")
    with pytest.raises(TypeError):
        volume.compute(1, 4, "crossline", "inline", "/", 7.0)
    assert volume.edits == ["compute 1 4 crossline inline - 200 / 7"]


@pytest.mark.parametrize("limit", [50_000, 30_000])
@pytest.mark.parametrize("named", [True, False])
def test_a_large_edit_in_memory_and_on_disk(opened, tmp_path, monkeypatch, named, limit):
    """A header that tells of 20,000 samples, where a blank trace has 40,240 bytes: one answer in memory and on disk, whether a limit is named or not."""
    monkeypatch.setattr("segywb.volume.MOST_BYTES", None if named else limit)
    path = tmp_path / "hostile.sgy"
    files.write(path, files.header(), files.binary(fixed=0, samples=20_000), files.trace(1, 1, 1, [1, 2]))
    told = []
    for on_disk in (False, True):
        volume = opened(str(path), on_disk=on_disk, max_bytes=limit if named else None)
        told.append((volume.run("blank 2")[0].text, len(volume)))
    assert told == [("ok", 2) if limit == 50_000 else ("refused E09 too large", 1)] * 2


@pytest.mark.parametrize("values", [
    [5, 6, 7], (5, 6, 7), range(5, 8), np.array([5, 6, 7], dtype=np.uint8), pd.Series([5, 6, 7]), iter([5, 6, 7]),
], ids=lambda values: type(values).__name__)
def test_set_many(opened, values):
    volume = opened("cube")
    volume.set_many("inline", slice(2, 5), values)
    assert volume.edits == ["set 2 inline 5", "set 3 inline 6", "set 4 inline 7"]
    assert list(volume.headers("inline", traces=slice(1, 6))["inline"]) == [101, 5, 6, 7, 102]
    assert volume.undoable == 1


def test_set_many_of_one_value(opened):
    volume = opened("cube")
    volume.set_many(TraceField.INLINE_3D, np.array([3, 1]), np.int64(9))
    assert volume.edits == ["set 3 @189:4 9", "set 1 @189:4 9"]
    volume.set_many("x", np.arange(12) == 4, 1)
    assert volume.edits[2:] == ["set 5 x 1"]
    volume.set_many("x", [], [])
    volume.set_many("y", None, 3)
    assert len(volume.edits) == 15 and volume.undoable == 3


@pytest.mark.parametrize("at", [0, 1, 2])
def test_set_many_is_whole(opened, at):
    volume = opened("cube")
    volume.set(1, "inline", 55)
    values = [7, 8, 9]
    values[at] = 2**31
    with pytest.raises(segywb.Refused) as refusal:
        volume.set_many("inline", slice(1, 4), values)
    assert (refusal.value.code, refusal.value.line) == ("E04", f"set {at + 1} inline 2147483648")
    assert list(volume.headers("inline", traces=slice(1, 4))["inline"]) == [55, 101, 101]
    assert volume.edits == ["set 1 inline 55"]
    assert volume.undo() == ["set 1 inline 55"] and volume.get(1, "inline") == 101


def test_set_many_is_whole_in_a_later_batch(opened, monkeypatch):
    monkeypatch.setattr("segywb.headers.BATCH_LINES", 4)
    volume = opened("cube")
    with pytest.raises(segywb.Refused) as refusal:
        volume.set_many("inline", slice(None), [1, 2, 3, 4, 5, 6, 2**31, 8, 9, 10, 11, 12])
    assert refusal.value.line == "set 7 inline 2147483648"
    assert volume.get(1, "inline") == 101 and volume.edits == []
    volume.set_many("inline", slice(None), range(1, 13))
    assert list(volume.headers("inline")["inline"]) == list(range(1, 13))


def test_a_refused_edit_does_not_load_the_file_again(opened):
    volume = opened("cube")
    before = volume._engine.session().pid
    with pytest.raises(segywb.Refused):
        volume.set(99, "inline", 7)
    with pytest.raises(segywb.Refused):
        volume.get(99, "inline")
    assert volume._engine.session().pid == before


def test_undo_and_redo(opened, tmp_path):
    volume = opened("cube")
    states = []
    for edit in (lambda: volume.set(1, "inline", 7), lambda: volume.set_many("x", slice(None), 5), lambda: volume.delete(2), lambda: volume.map("inline", "@9:4")):
        states.append((volume.edits, volume.headers().tolist(), volume.fields()))
        edit()
    states.append((volume.edits, volume.headers().tolist(), volume.fields()))
    assert (volume.undoable, volume.redoable) == (4, 0)
    for back in range(1, 5):
        assert volume.undo() == states[5 - back][0][len(states[4 - back][0]):]
        assert (volume.edits, volume.headers().tolist(), volume.fields()) == states[4 - back]
    assert (volume.undoable, volume.redoable) == (0, 4)
    assert volume.redo(2) == states[2][0]
    assert (volume.edits, volume.headers().tolist(), volume.fields()) == states[2]
    volume.redo(2)
    assert (volume.edits, volume.headers().tolist(), volume.fields()) == states[4]
    volume.undo(3)
    assert (volume.edits, volume.headers().tolist(), volume.fields()) == states[1]
    volume.set(1, "inline", 8)
    assert volume.redoable == 0
    assert volume.undo(0) == [] and volume.redo(0) == []
    volume.save(tmp_path / "o.sgy")
    run(volume.path, volume.edits, "--out", str(tmp_path / "run.sgy"))
    assert (tmp_path / "o.sgy").read_bytes() == (tmp_path / "run.sgy").read_bytes()


def test_a_refused_edit_keeps_what_can_be_done_again(opened):
    volume = opened("cube")
    volume.set(1, "inline", 7)
    volume.undo()
    with pytest.raises(segywb.Refused):
        volume.set(99, "inline", 7)
    assert volume.redo() == ["set 1 inline 7"]
    assert volume.get(1, "inline") == 7


def test_an_undo_that_fails_changes_nothing(opened):
    volume = opened("cube")
    volume.set(1, "inline", 7)
    volume.set(1, "inline", 8)
    with open(volume.path, "ab") as file:
        file.write(b"x")
    with pytest.raises(segywb.FileChanged):
        volume.undo()
    assert volume.edits == ["set 1 inline 7", "set 1 inline 8"] and volume.get(1, "inline") == 8


# ---- the save


def test_save_beside(opened, tmp_path):
    volume = opened("cube")
    volume.set(1, "inline", 7)
    out = tmp_path / "o.sgy"
    volume.save(out)
    with pytest.raises(FileExistsError):
        volume.save(out)
    volume.set(1, "inline", 8)
    volume.save(str(out), replace=True)
    assert segywb.open(out).get(1, "inline") == 8
    assert volume.edits == ["set 1 inline 7", "set 1 inline 8"] and volume.undo() == ["set 1 inline 8"]


def test_save_without_edits(opened, tmp_path):
    volume = opened("cube")
    volume.save(tmp_path / "o.sgy")
    assert (tmp_path / "o.sgy").read_bytes() == Path(volume.path).read_bytes()


def test_save_over_the_file_itself(opened):
    volume = opened("cube")
    volume.map("inline", "@9:4")
    volume.set(1, "inline", 7)
    volume.map("shot", "@17:4")
    volume.set(2, "shot", 70)
    with pytest.raises(FileExistsError):
        volume.save(volume.path)
    volume.save(volume.path, replace=True)
    assert volume.edits == ["map inline @9:4", "map shot @17:4"]
    assert volume.get(1, "inline") == 7 and volume.get(2, "shot") == 70
    volume.set(3, "shot", 71)
    assert volume.undo() == ["set 3 shot 71"]
    assert volume.get(2, "shot") == 70 and volume.get(1, "inline") == 7
    with segywb.open(volume.path) as again:
        assert again.get(1, "@9:4") == 7 and again.get(2, "@17:4") == 70


def test_names_that_were_bound_by_a_field_stay(opened):
    """They are bound again in the same order, so a name means the same place as before."""
    volume = opened("cube")
    volume.map("cdp", "@9:4")
    volume.map("inline", "cdp")
    volume.map("cdp", "source_point")
    volume.set(2, "inline", 7)
    places = volume.fields()
    assert (places["inline"], places["cdp"]) == ("@9:4", "@17:4")
    volume.save(volume.path, replace=True)
    volume.restart()
    assert volume.edits == ["map cdp @9:4", "map inline cdp", "map cdp source_point"]
    assert volume.fields() == places and volume.get(2, "inline") == 7 == volume.get(2, "@9:4")


def test_save_with_options(opened, tmp_path):
    path = tmp_path / "told.sgy"
    files.write(path, files.header(), files.binary(samples=2, fixed=0), *(files.trace(p, 1, p, [1, 2], told=9) for p in (1, 2)))
    with pytest.raises(segywb.LoadRefused):
        segywb.open(path)
    volume = opened(str(path), fixed=True, max_bytes=5000)
    volume.set(2, "samples", 2)
    volume.save(tmp_path / "o.sgy")
    assert segywb.open(tmp_path / "o.sgy", fixed=True).get(2, "samples") == 2


@pytest.mark.parametrize("out, status", [("none/o.sgy", 4), ("/dev/full", 1), (".", 4)])
def test_save_that_fails(opened, tmp_path, out, status):
    """A path where nothing can be saved ends the program at its start; elsewhere the word `save` is refused."""
    volume = opened("cube")
    volume.set(1, "inline", 7)
    with pytest.raises(segywb.SaveFailed) as failure:
        volume.save(tmp_path / out)
    assert failure.value.status == status and ("refused S08 save failed after " in str(failure.value)) == (status == 1)
    assert "segywb: save failed" in failure.value.stderr and "segywb: save failed" in str(failure.value)
    assert volume.edits == ["set 1 inline 7"] and volume.get(1, "inline") == 7


SAVES = """
for line in sys.stdin:
    if line == "save\\n":
        open(sys.argv[sys.argv.index("--out") + 1], "w").write(" ".join(sys.argv[3:]))
        sys.stderr.write(TOLD)
        sys.stderr.flush()
    print({"count\\n": "traces 12", "save\\n": ANSWER}.get(line, "ok"), end="\\n\\n", flush=True)
sys.exit(STATUS if "--out" in sys.argv else 0)
"""


def saves(told, answer, status):
    """A program that tells of its save so."""
    return f"TOLD, ANSWER, STATUS = {told!r}, {answer!r}, {status}\n" + SAVES


@pytest.mark.parametrize("answer", ["saved 6600", "refused S08 save failed after 6600 bytes"])
def test_save_that_is_not_settled(fake, opened, answer):
    """The file is saved, and only a power cut may undo it: a warning, and the file is the one of the volume."""
    fake(saves("segywb: saved, but a power cut may undo it\nsegywb: o.sgy: run sync\n", answer, 4))
    volume = opened("cube")
    volume.set(1, "inline", 7)
    with pytest.warns(UserWarning, match="run sync"):
        volume.save(volume.path, replace=True)
    assert volume.edits == []
    volume.set(1, "inline", 8)
    assert volume.undo() == ["set 1 inline 8"]


def test_a_warning_that_is_an_error_comes_behind_the_save(fake, opened):
    fake(saves("segywb: saved, but a power cut may undo it\n", "saved 6600", 0))
    volume = opened("cube")
    volume.set(1, "inline", 7)
    with warnings.catch_warnings():
        warnings.simplefilter("error")
        with pytest.raises(UserWarning):
            volume.save(volume.path, replace=True)
    assert volume.edits == [] and volume.undoable == 0


def test_a_program_that_does_not_know_the_word_save(fake, opened, tmp_path):
    fake(saves("", "refused S01 unknown word", 1))
    with pytest.raises(segywb.SaveFailed, match="S01 unknown word; the program is older than the word save"):
        opened("cube").save(tmp_path / "o.sgy")


def test_save_that_finds_another_file(fake, opened, tmp_path):
    fake(saves("segywb: FILE was changed by another program\nsegywb: cube.sgy: nothing was saved\n", "refused S08 save failed after 0 bytes", 1))
    volume = opened("cube")
    volume.set(1, "inline", 7)
    with pytest.raises(segywb.FileChanged, match="nothing was saved"):
        volume.save(tmp_path / "o.sgy")
    assert volume.edits == ["set 1 inline 7"]


def test_save_of_a_file_that_was_changed(opened, tmp_path):
    volume = opened("cube")
    volume.set(1, "inline", 7)
    os.utime(volume.path, ns=(1, 1))
    with pytest.raises(segywb.FileChanged):
        volume.save(tmp_path / "o.sgy")
    assert not (tmp_path / "o.sgy").exists()
    os.remove(volume.path)
    with pytest.raises(segywb.FileChanged):
        volume.save(tmp_path / "o.sgy")
    assert volume.get(1, "inline") == 7


def test_save_more_than_a_script_holds(opened, tmp_path):
    """A script of more than 16 MiB would be refused."""
    volume = opened("cube")
    for n in range(19):
        volume.run(f"set 1 x {n}" + " " * 900_000)
    assert sum(len(line) + 1 for line in volume.edits) > 16777216
    volume.save(tmp_path / "o.sgy")
    assert segywb.open(tmp_path / "o.sgy").get(1, "x") == 18


def test_a_path_from_elsewhere(opened, tmp_path, monkeypatch):
    opened("cube")
    monkeypatch.chdir(tmp_path)
    with segywb.open("cube.sgy") as volume:
        volume.set(1, "inline", 7)
        (tmp_path / "inner").mkdir()
        monkeypatch.chdir(tmp_path / "inner")
        volume.undo()
        volume.redo()
        volume.save("o.sgy")
        volume.save("-o.sgy")
    assert (tmp_path / "inner" / "o.sgy").read_bytes() == (tmp_path / "inner" / "-o.sgy").read_bytes()


def test_closed(opened, tmp_path):
    volume = opened("cube")
    volume.set(1, "inline", 7)
    pid = volume._engine.session().pid
    volume.close()
    volume.close()
    assert not os.path.exists(f"/proc/{pid}")
    for call in (lambda: len(volume), lambda: volume.grid, lambda: volume.save(tmp_path / "o.sgy"), volume.undo, lambda: volume.redo(0)):
        with pytest.raises(segywb.Closed):
            call()
    assert volume.edits == ["set 1 inline 7"] and "closed" in repr(volume) and "closed" in volume._repr_html_()


def test_an_undo_whose_session_ends_changes_nothing(opened, monkeypatch):
    volume = opened("cube")
    volume.set(1, "inline", 7)
    volume.set(1, "inline", 8)
    with monkeypatch.context() as patched:
        patched.setenv("SEGYWB", "/bin/false")
        with pytest.raises(segywb.ProgramEnded) as ended:
            volume.undo()
        assert ended.value.status == 1
    assert volume.edits == ["set 1 inline 7", "set 1 inline 8"] and volume.get(1, "inline") == 8
    assert volume.undo() == ["set 1 inline 8"] and volume.get(1, "inline") == 7
