"""Random edits: after each list of them Python shows what a run answers, and saves the same bytes."""

import re

import files
import hypothesis.strategies as st
import retell
from conftest import run
from hypothesis import HealthCheck, given, settings

import segywb

POSITIONS = st.integers(1, 9)
NUMBERS = st.one_of(st.integers(-5, 5), st.integers(-(2**31), 2**31), st.integers(-(2**63), 2**64))
FIELDS = st.sampled_from(["inline", "crossline", "offset", "x", "y", "scalar", "samples", "coordinate_units", "delay", "@5:4", "@233:8", "@1.1:4", "shot", "@117:2u"])
TEXTS = st.text(st.characters(blacklist_characters="\n\r", blacklist_categories=("Cs",)), max_size=12)

EDITS = st.one_of(
    st.tuples(st.just("set"), POSITIONS, FIELDS, NUMBERS),
    st.tuples(st.just("renumber"), POSITIONS, POSITIONS, FIELDS, NUMBERS, st.integers(-3, 3)),
    st.tuples(st.just("compute"), POSITIONS, POSITIONS, FIELDS, FIELDS, st.sampled_from("+-*/%"), st.one_of(FIELDS, NUMBERS)),
    st.tuples(st.just("sort"), POSITIONS, POSITIONS, FIELDS, st.one_of(FIELDS, FIELDS.map("-{}".format))),
    st.tuples(st.just("set_many"), FIELDS, st.lists(st.tuples(st.integers(1, 7), st.integers(-9, 2**15)), max_size=5)),
    st.tuples(st.just("patch"), POSITIONS, st.integers(0, 4), st.lists(st.integers(-9, 9), min_size=1, max_size=3)),
    st.tuples(st.just("fill"), st.one_of(st.none(), POSITIONS), POSITIONS, st.integers(0, 3), st.integers(0, 3), NUMBERS, st.sampled_from([None, "inline = 1"])),
    st.tuples(st.just("blank"), POSITIONS),
    st.tuples(st.just("copy"), POSITIONS, POSITIONS),
    st.tuples(st.just("delete"), POSITIONS),
    st.tuples(st.just("move"), POSITIONS, POSITIONS),
    st.tuples(st.just("resize"), POSITIONS, st.integers(0, 5)),
    st.tuples(st.just("set_bin"), st.sampled_from(["interval", "job", "samples", "@3213:2"]), NUMBERS),
    st.tuples(st.just("set_text"), st.integers(0, 41), TEXTS),
    st.tuples(st.just("map"), st.sampled_from(["shot", "inline", "x", "delay", "A"]), st.sampled_from(["@17:4", "@9:4", "@71:2", "@240:4"])),
    st.tuples(st.just("unmap"), st.sampled_from(["shot", "inline"])),
    st.tuples(st.just("undo"), st.integers(1, 3)),
    st.tuples(st.just("redo"), st.integers(1, 3)),
)


def do(volume, edit):
    """One edit, by its method; whether it was accepted."""
    name, *words = edit
    if name == "set_many":
        words = [words[0], [p for p, _ in words[1]], [value for _, value in words[1]]]
    try:
        getattr(volume, name)(*words)
    except segywb.Refused:
        return False
    except ValueError:
        assert name in ("undo", "redo")
        return False
    return True


@settings(max_examples=60, deadline=None, database=None, suppress_health_check=list(HealthCheck))
@given(st.sampled_from([files.cube, files.varying]), st.lists(EDITS, min_size=1, max_size=8))
def test_random_edits(tmp_path_factory, make, edits):
    room = tmp_path_factory.mktemp("random")
    path = make(room / "made.sgy")
    with segywb.open(path) as volume:
        for edit in edits:
            before = volume.edits
            if not do(volume, edit):
                assert volume.edits == before
        pairs = retell.everything(volume)
        script = [*volume.edits, *(question for question, _ in pairs)]
        told, status = run(path, script, "--out", str(room / "run.sgy"))
        *done, answers = told.split("\n", len(volume.edits))
        assert [re.sub("^ok [0-9]+$", "ok N", line) for line in done] == ["ok N" if " where " in edit else "ok" for edit in volume.edits]
        assert (answers, status) == ("".join(f"{answer}\n" for _, answer in pairs), 0)
        volume.save(room / "python.sgy")
        assert (room / "python.sgy").read_bytes() == (room / "run.sgy").read_bytes()


@settings(max_examples=40, deadline=None, database=None, suppress_health_check=list(HealthCheck))
@given(st.lists(st.one_of(st.binary(max_size=12), st.sampled_from([b"set 1 inline 7", b"get 1 inline", b" # x", b"", b"\t", b"inlines\r", b"\r"])), max_size=10))
def test_random_bytes(tmp_path_factory, lines):
    """Any bytes as a script answer as in a run."""
    path = files.cube(tmp_path_factory.mktemp("random") / "made.sgy", 1, 2)
    script = b"\n".join(lines)
    with segywb.open(path) as volume:
        assert "".join(f"{answer.text}\n" for answer in volume.run(script)) == run(path, script)[0]
