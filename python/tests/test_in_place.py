"""A repair of the file itself, and what undoes one that was cut off."""

import os
import pathlib
import subprocess

import files
import pytest

import segywb
from segywb import program, repairs

pytestmark = pytest.mark.skipif(not program.knows("--recover"), reason="the program is older than a repair in place")


def journal(path):
    """Where the journal of a repair stands."""
    return pathlib.Path(path).with_name(f".{os.path.basename(path)}.segywb-journal")


def cut_off(path):
    """A journal of no piece of this file, as a repair leaves one that is cut off before it writes."""
    journal(path).write_bytes(b"no journal")


@pytest.mark.parametrize("on_disk", [False, True])
def test_the_changed_bytes_alone_are_written(opened, tmp_path, on_disk):
    volume = opened("cube", on_disk=on_disk)
    inode = os.stat(volume.path).st_ino
    volume.renumber(1, 4, "inline", 900)
    volume.save(tmp_path / "beside.sgy")
    volume.save(in_place=True)
    assert pathlib.Path(volume.path).read_bytes() == (tmp_path / "beside.sgy").read_bytes()
    assert os.stat(volume.path).st_ino == inode
    assert not journal(volume.path).exists()
    assert volume.edits == []
    assert volume.get(1, "inline") == 900
    volume.set(1, "inline", 7)
    volume.undo()
    assert volume.get(1, "inline") == 900
    volume.set(2, "inline", 8)
    volume.save(volume.path, in_place=True)
    with segywb.open(volume.path) as again:
        assert [again.get(trace, "inline") for trace in (1, 2)] == [900, 8]


def test_names_stay_bound(opened):
    volume = opened("cube")
    volume.map("mine", "@17:4")
    volume.set(1, "mine", 5)
    volume.save(in_place=True)
    assert volume.edits == ["map mine @17:4"]
    assert volume.get(1, "mine") == 5


def test_edits_that_need_a_new_file(opened):
    volume = opened("cube")
    before = pathlib.Path(volume.path).read_bytes()
    volume.delete(1)
    with pytest.raises(segywb.SaveFailed, match=r"trace 1 stood elsewhere in it \(.*\); that needs a new file") as failed:
        volume.save(in_place=True)
    assert failed.value.status == 4
    assert volume.edits == ["delete 1"]
    assert pathlib.Path(volume.path).read_bytes() == before


def test_another_path_is_refused(opened, tmp_path):
    volume = opened("cube")
    with pytest.raises(ValueError, match="is another path"):
        volume.save(tmp_path / "o.sgy", in_place=True)
    assert not (tmp_path / "o.sgy").exists()


@pytest.fixture
def large(monkeypatch):
    """Each file counts as a large one, which is repaired in place where nothing is said."""
    monkeypatch.setattr(repairs, "IN_PLACE_ABOVE", 1000)


def saved(volume, *words, **more):
    """Saves over the file, and whether it is the same inode as before."""
    before = os.stat(volume.path).st_ino, pathlib.Path(volume.path).read_bytes()
    volume.save(*words, **more)
    assert pathlib.Path(volume.path).read_bytes() != before[1] and {line.split()[0] for line in volume.edits} <= {"map", "unmap"}
    return os.stat(volume.path).st_ino == before[0]


@pytest.mark.parametrize("on_disk", [False, True])
def test_a_large_file_is_repaired_in_place(large, opened, on_disk):
    volume = opened("cube", on_disk=on_disk)
    for at, (words, more, stays) in enumerate([
        ((), {}, True), ((volume.path,), {"replace": True}, True), ((), {"in_place": False}, False), ((volume.path,), {"replace": True, "in_place": False}, False),
        ((), {"in_place": True}, True),
    ]):
        volume.set(1, "inline", 900 + at)
        told = volume.in_place()
        assert (told.possible, told.chosen) == (True, True) and "more than 1,000" in told.why
        assert saved(volume, *words, **more) == stays
        assert volume.get(1, "inline") == 900 + at
        with segywb.open(volume.path) as again:
            assert again.get(1, "inline") == 900 + at
    volume.set(1, "inline", 7)
    with pytest.raises(FileExistsError):
        volume.save(volume.path)
    assert volume.edits == ["set 1 inline 7"]


def test_a_small_file_is_saved_beside(opened):
    volume = opened("cube")
    volume.set(1, "inline", 7)
    told = volume.in_place()
    assert (told.possible, told.chosen) == (True, False) and "6,600 bytes; in place is chosen above 1,000,000,000" in told.why
    assert not saved(volume)
    volume.set(1, "inline", 8)
    assert saved(volume, in_place=True)


def test_the_limit_is_a_gigabyte(opened, monkeypatch):
    volume = opened("cube")
    volume.set(1, "inline", 7)
    monkeypatch.setattr(repairs, "IN_PLACE_ABOVE", 6600)
    assert not volume.in_place().chosen
    monkeypatch.setattr(repairs, "IN_PLACE_ABOVE", 6599)
    assert volume.in_place().chosen


@pytest.mark.parametrize("line", ["blank 13", "copy 1 2", "delete 5", "move 1 3", "sort 1 12 -inline", "  delete 5", "\tdelete 12"])
def test_edits_that_move_traces_are_saved_beside(large, opened, line, tmp_path):
    volume = opened("cube")
    volume.set(1, "inline", 7)
    volume.run([line], stop=True)
    volume.set(2, "inline", 7)
    told = volume.in_place()
    assert (told.possible, told.chosen) == (False, False) and line.strip() in told.why
    volume.save(tmp_path / "beside.sgy")
    assert not saved(volume)
    assert pathlib.Path(volume.path).read_bytes() == (tmp_path / "beside.sgy").read_bytes()
    volume.set(1, "inline", 9)
    assert saved(volume)


def test_a_trace_of_another_length_is_saved_beside(large, opened, tmp_path):
    volume = opened(files.varying(tmp_path / "varying.sgy"))
    volume.resize(1, 2)
    assert "'resize 1 2' needs a new file" in volume.in_place().why and not saved(volume)
    volume.resize(1, 2)
    assert not volume.in_place().possible
    volume.undo()
    volume.set(1, "inline", 7)
    assert saved(volume)


def test_words_that_move_nothing(large, opened):
    volume = opened("cube")
    volume.run("map move @17:4\nset 1 move 7\ntext 3 C delete 5\n# delete 5\nunmap move\npatch 1 0 7\nbin job 3\n", stop=True)
    assert volume.in_place().chosen and saved(volume)


def test_a_program_that_wants_a_new_file_all_the_same(large, opened, monkeypatch):
    """The rule is by the words of the edits; where the program says otherwise nothing was written, and a new file is."""
    monkeypatch.setattr(repairs, "moving", lambda script: None)
    volume = opened("cube")
    volume.delete(5)
    assert volume.in_place().chosen
    assert not saved(volume) and len(volume) == 11


def test_another_hard_link_keeps_the_old_bytes(large, opened, tmp_path):
    volume = opened("cube")
    before = pathlib.Path(volume.path).read_bytes()
    os.link(volume.path, tmp_path / "other.sgy")
    with segywb.open(volume.path) as linked:
        linked.set(1, "inline", 7)
        told = linked.in_place()
        assert (told.possible, told.chosen) == (True, False) and "another hard link" in told.why
        assert not saved(linked)
    assert (tmp_path / "other.sgy").read_bytes() == before


def test_the_rule_of_a_file_that_another_program_changed(large, opened):
    volume = opened("cube")
    volume.set(1, "inline", 7)
    os.utime(volume.path, ns=(1, 1))
    for call in (volume.in_place, volume.save):
        with pytest.raises(segywb.FileChanged):
            call()
    assert volume.edits == ["set 1 inline 7"]


def test_an_older_program_repairs_nothing(large, opened, monkeypatch):
    volume = opened("cube")
    volume.set(1, "inline", 7)
    monkeypatch.setattr(repairs.program, "knows", lambda option: False)
    assert volume.in_place() == (False, False, "the program is older than a repair in place")
    assert not saved(volume)


def test_a_file_that_another_program_changed(opened):
    volume = opened("cube")
    volume.set(1, "inline", 7)
    os.utime(volume.path, ns=(1, 1))
    with pytest.raises(segywb.FileChanged):
        volume.save(in_place=True)
    assert volume.edits == ["set 1 inline 7"]


def test_more_edits_than_a_script_holds(opened):
    volume = opened("cube")
    volume.run("".join(f"set 1 inline {1000 + n}\n" for n in range(20)))
    volume._engine.history.done[-1] = volume._engine.history.done[-1]._replace(sent=b"set 1 inline 5 \n" * (1 << 20) + b"\n", size=1 << 20)
    with pytest.raises(segywb.SaveFailed, match="more than a script holds"):
        volume.save(in_place=True)


def test_a_repair_that_was_cut_off(opened, example):
    path = example("cube")
    before = pathlib.Path(path).read_bytes()
    assert segywb.recover(path) is None
    cut_off(path)
    with pytest.raises(segywb.RepairCutOff, match="segywb.recover") as refused:
        segywb.open(path)
    assert refused.value.path == os.path.abspath(path)
    with pytest.raises(segywb.SaveFailed, match="nothing was written") as failed:
        segywb.recover(path)
    assert failed.value.status == 3
    assert pathlib.Path(path).read_bytes() == before
    journal(path).unlink()
    assert opened(path).get(1, "inline") == 101


def test_a_recovery(opened, example, tmp_path):
    """A repair that is killed in the middle: the old file is there again."""
    path = example("cube")
    before = pathlib.Path(path).read_bytes()
    script = tmp_path / "fix.txt"
    many = tmp_path / "many.sgy"
    header, traces = before[:3600], before[3600:]
    many.write_bytes(header + traces * 2000)
    old = many.read_bytes()
    with segywb.open(many) as volume:
        count = len(volume)
    script.write_text(f"renumber 1 {count} @9:4 7 1\n")
    for wait in range(400):
        process = subprocess.Popen([program.find(), str(many), "--script", str(script), "--in-place"], stdout=subprocess.DEVNULL)
        while process.poll() is None and not journal(many).exists():
            pass
        process.kill()
        process.wait()
        if journal(many).exists():
            break
        many.write_bytes(old)
    assert journal(many).exists()
    with pytest.raises(segywb.RepairCutOff):
        segywb.open(many)
    back = segywb.recover(many)
    assert back == segywb.Recovered(bytes=4 * count, pieces=count)
    assert many.read_bytes() == old
    assert segywb.recover(many) is None
