"""Samples of many traces, each compared with the bytes of the file, by whatever selection, range, step and conditions."""

import os
import random
import subprocess
import sys

import files
import numpy as np
import pytest
from conftest import HERE
from float_words import value_of

import segywb
from segywb import many_samples

SIZES = {1: 4, 2: 4, 3: 2, 5: 4, 6: 8, 8: 1, 10: 4, 12: 8, 16: 1}
FLOATS, UNSIGNED = (1, 5, 6), (10, 12, 16)
TYPES = {1: "f8", 5: "f4", 6: "f8", 12: "u8"}
# conditions, and what they say of a trace and its samples
CHOICES = [
    (None, lambda trace, samples: True),
    ("inline = 2", lambda trace, samples: trace % 4 == 2),
    ("crossline > 1 and inline != 3", lambda trace, samples: trace % 5 > 1 and trace % 4 != 3),
    ("sample_count >= 5", lambda trace, samples: len(samples) >= 5),
    ("inline = 9", lambda trace, samples: False),
]


def value(form, pattern):
    """The number that a pattern of bytes is."""
    if form in FLOATS:
        return value_of(form, pattern)
    most = 1 << 8 * SIZES[form]
    return pattern if form in UNSIGNED or pattern < most // 2 else pattern - most


def chance_file(path, form, fixed, chance):
    """Traces of chance bytes, and what they say: an array for each."""
    size, traces, told = SIZES[form], [], []
    for n in range(1, 24):
        count = 7 if fixed else chance.randint(0 if n % 5 else 1, 11)
        usual = [0, 1, (1 << 8 * size) - 1, 1 << (8 * size - 1), chance.getrandbits(8)]
        patterns = [chance.choice([chance.getrandbits(8 * size), *usual]) for _ in range(count)]
        traces.append(files.trace(n, n % 4, n % 5, patterns, size=size, signed=False))
        told.append(np.array([value(form, one) for one in patterns], dtype=TYPES.get(form, "i8")))
    binary = files.binary(samples=7 if fixed else 0, form=form, fixed=int(fixed))
    return files.write(path, files.header(), binary, *traces), told


def selection(chance):
    """What selects traces of 23, and which."""
    first, last = sorted(chance.sample(range(1, 24), 2))
    some = [chance.randint(1, 23) for _ in range(chance.randint(0, 6))]
    mask = [chance.random() < 0.5 for _ in range(23)]
    return chance.choice(
        [
            (None, range(1, 24)),
            (slice(first, last), range(first, last)),
            (slice(None, None, 3), range(1, 24, 3)),
            (range(last, first, -2), range(last, first, -2)),
            (some, some),
            (first, [first]),
            (np.array(mask), [at for at, taken in enumerate(mask, 1) if taken]),
        ]
    )


def numbers(chance):
    """Which samples are meant, as a slice or a range."""
    first, end, step = chance.randint(0, 8), chance.randint(0, 14), chance.choice([1, 1, 2, 3, 50])
    return chance.choice([None, slice(None), slice(first, end, step), slice(end), slice(first, None, step), range(first, end, step)])


def check(found, wanted, positions, asked):
    """Rows, and which traces and samples they are of."""
    wide = max(map(len, wanted), default=0)
    assert found.traces.tolist() == list(positions) and found.shape == (len(wanted), wide)
    assert found.samples.tolist() == list(range(1 << 32)[asked][:wide])
    assert isinstance(found.array, np.ma.MaskedArray) == any(len(one) < wide for one in wanted)
    for row, one in zip(found.array, wanted):
        got = np.ma.compressed(row)
        assert got.dtype == one.dtype and np.array_equal(got, one, equal_nan=got.dtype.kind == "f")
        assert np.array_equal(np.signbit(got), np.signbit(one)) or np.isnan(one).any()


@pytest.mark.parametrize("batch", [1, 30, many_samples.BATCH_VALUES])
@pytest.mark.parametrize("fixed", [True, False])
@pytest.mark.parametrize("form", SIZES)
def test_they_are_those_of_the_file(tmp_path, monkeypatch, form, fixed, batch):
    monkeypatch.setattr(many_samples, "BATCH_VALUES", batch)
    chance = random.Random(f"{form} {fixed} {batch}")
    path, told = chance_file(tmp_path / "chance.sgy", form, fixed, chance)
    with segywb.open(path) as volume:
        for trace, samples in enumerate(told, 1):
            got = volume.samples(trace)
            assert got.dtype == samples.dtype and np.array_equal(got, samples, equal_nan=form in FLOATS)
        for _ in range(25):
            traces, meant = selection(chance)
            asked, (where, holds) = numbers(chance), chance.choice(CHOICES)
            kept = [trace for trace in meant if holds(trace, told[trace - 1])]
            part = slice(asked.start, asked.stop, asked.step) if isinstance(asked, range) else asked or slice(None)
            found = volume.samples_of(traces, asked, where)
            assert found.array.dtype == volume.sample_type
            check(found, [told[trace - 1][part] for trace in kept], kept, part)
        assert volume.edits == [] and volume.alive


def test_behind_edits(opened):
    volume = opened("cube")
    volume.patch(6, 1, [7, -8])
    volume.copy(6, 1)
    volume.delete(3)
    array, traces, samples = volume.samples_of(where="inline = 102")
    assert array.tolist() == [volume.samples(int(trace)).tolist() for trace in traces] and samples.tolist() == [0, 1, 2, 3, 4]
    assert array.tolist()[0][1:3] == [7, -8] and traces.tolist()[0] == 1


def test_nothing(opened, tmp_path):
    volume = opened("cube")
    for found in (volume.samples_of([]), volume.samples_of(where="inline = 9")):
        assert found.shape == (0, 0) and found.array.dtype == np.int64 and found.traces.tolist() == found.samples.tolist() == []
    for none in (slice(0, 0), slice(5, None), slice(3, 3), range(4, 4), slice(1 << 40, None)):
        found = volume.samples_of(slice(1, 4), none)
        assert found.shape == (3, 0) and found.traces.tolist() == [1, 2, 3] and found.samples.tolist() == []
    assert opened(files.empty(tmp_path / "none.sgy")).samples_of().shape == (0, 0)


@pytest.mark.parametrize("samples, why", [
    (5, TypeError), ("all", TypeError), ([1, 2], TypeError), (True, TypeError), (slice(True, 4), TypeError), (slice(0.0, 4), TypeError), (slice("a", None), TypeError),
    (slice(-3, None), ValueError), (slice(0, -1), ValueError), (slice(None, None, 0), ValueError), (slice(None, None, -1), ValueError), (range(4, 0, -1), ValueError),
])
def test_what_are_no_samples(opened, samples, why):
    volume = opened("cube")
    with pytest.raises(why):
        volume.samples_of(1, samples)
    assert volume.edits == []


def test_refusals(opened, tmp_path):
    volume = opened("cube")
    for take, code in (
        (lambda: volume.samples_of(13), "E01"), (lambda: volume.samples_of([1, 0]), "E01"), (lambda: volume.samples_of(where="colour = 1"), "E02"),
        (lambda: volume.samples_of(where="@1.9:4 = 1"), "E03"), (lambda: volume.samples(13), "E01"),
    ):
        with pytest.raises(segywb.Refused) as refusal:
            take()
        assert refusal.value.code == code and refusal.value.line.startswith("samples ")
    with pytest.raises(ValueError, match="stands between blanks"):
        volume.samples_of(where="inline=1")
    opaque = opened(files.floats(tmp_path / "floats.sgy", 5), floats=False, opaque_samples=True)
    for take in (opaque.samples_of, lambda: opaque.samples_of(where="inline = 9"), lambda: opaque.samples(1)):
        with pytest.raises(segywb.Refused, match="E12"):
            take()


def cut(path):
    """The last traces are lost."""
    os.truncate(path, os.stat(path).st_size - 9000)


def other_length(path):
    """The header of the last trace tells another number of samples."""
    with open(path, "r+b") as file:
        file.seek(os.stat(path).st_size - 240 - 4000 + 114)
        file.write(b"\x07\xd1")


@pytest.mark.parametrize("change, code", [(cut, "E14"), (other_length, "E15")])
def test_an_answer_that_ends_in_a_refusal_is_none(opened, tmp_path, change, code):
    """On disk, behind many rows: an exception, and never a part."""
    traces = [files.trace(n, 1 + n // 50, n, [n] * 2000) for n in range(1, 151)]
    path = files.write(tmp_path / "long.sgy", files.header(), files.binary(samples=0, fixed=0), *traces)
    volume = opened(path, on_disk=True)
    pid, asked = volume.pid, volume.samples_of(slice(1, 150), slice(0, 2)).array.tolist()
    change(path)
    for take in (
        lambda: volume.samples_of(samples=slice(0, 2)), lambda: volume.samples_of(samples=slice(0, 2), where="inline > 0"), lambda: volume.samples(150),
        lambda: volume.run("samples all 0 1", stop=True),
    ):
        with pytest.raises(segywb.Refused) as refusal:
            take()
        assert refusal.value.code == code
    (answer,) = volume.run("samples all 0 1")
    assert answer.text.startswith("samples 150\n1 1 1\n2 2 2\n") and answer.refused.code == code and not answer.accepted
    assert volume.pid == pid and volume.samples_of(slice(1, 100), slice(0, 2)).array.tolist() == asked[:99]


def test_without_numpy(example):
    """Lists, each as long as its trace has samples."""
    code = (
        "import sys; sys.modules['numpy'] = None\nimport segywb\nwith segywb.open(sys.argv[1]) as v:\n"
        "    print(*v.samples_of(samples=slice(0, 9, 2), where='inline = 102 and crossline > 202'))\n    print(v.samples(1), *v.samples_of([]))\n"
    )
    done = subprocess.run([sys.executable, "-c", code, str(example("cube"))], env={**os.environ, "PYTHONPATH": str(HERE.parent / "src")}, capture_output=True, text=True, check=True)
    assert done.stdout == "[[23, -102, 0], [24, -102, 0]] [7, 8] [0, 2, 4]\n[11, 41, -101, 29, 0] [] [] []\n"


def test_floats_without_numpy(example):
    code = "import sys; sys.modules['numpy'] = None\nimport segywb\nwith segywb.open(sys.argv[1]) as v:\n    print(v.samples_of(6).array, v.samples(6))\n"
    done = subprocess.run([sys.executable, "-c", code, str(example("wrong_floats"))], env={**os.environ, "PYTHONPATH": str(HERE.parent / "src")}, capture_output=True, text=True, check=True)
    assert done.stdout == "[[2.75, 5.25, 1.0000000200408773e+20, 3.5, 0.0]] [2.75, 5.25, 1.0000000200408773e+20, 3.5, 0.0]\n"
