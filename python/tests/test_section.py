"""Sections: the samples of many traces side by side, and the pictures of them."""

import random
import struct

import files
import matplotlib
import matplotlib.pyplot
import numpy as np
import pytest

import segywb
from segywb import gains, many_samples
from segywb.many_samples import Kind
from segywb.stream import empty_lines, end_of
from segywb.thinning import peaks

matplotlib.use("Agg")

def one_by_one(volume, traces):
    """The samples of traces, each asked by a line of its own."""
    return [volume.samples(trace).tolist() for trace in traces]


def same(one, other):
    """Whether two arrays hold the same numbers, those that are none in the same places, and zeros
    of the same sign.
    """
    one, other = np.asarray(one), np.asarray(other)
    plain = one.shape == other.shape and one.dtype == other.dtype
    return plain and (
        one.tobytes() == other.tobytes()
        or (
            np.array_equal(one, other, equal_nan=True)
            and np.array_equal(np.signbit(one[one == 0]), np.signbit(other[other == 0]))
        )
    )


@pytest.fixture(params=[1, 20, many_samples.BATCH_VALUES])
def batch(request, monkeypatch):
    """So many samples are asked at once."""
    monkeypatch.setattr(many_samples, "BATCH_VALUES", request.param)
    return request.param


def chance_file(path, form, fixed, seed):
    """Traces of chance bytes, of their own lengths or not."""
    chance, size = (
        random.Random(seed),
        {1: 4, 2: 4, 3: 2, 5: 4, 6: 8, 8: 1, 9: 8, 11: 2, 12: 8}[form],
    )
    traces = []
    for n in range(1, 24):
        count = 7 if fixed else chance.randint(1, 11)
        patterns = [
            chance.choice(
                [
                    chance.getrandbits(8 * size),
                    0,
                    1,
                    (1 << 8 * size) - 1,
                    1 << (8 * size - 1),
                    chance.getrandbits(8),
                ]
            )
            for _ in range(count)
        ]
        traces.append(files.trace(n, n % 5, n % 4, patterns, size=size, signed=False))
    return files.write(
        path, files.header(), files.binary(samples=7, form=form, fixed=int(fixed)), *traces
    )


@pytest.mark.parametrize("fixed", [True, False])
@pytest.mark.parametrize("form", [1, 2, 3, 5, 6, 8, 9, 11, 12])
def test_each_row_has_the_samples_of_its_trace(tmp_path, batch, form, fixed):
    with segywb.open(chance_file(tmp_path / "chance.sgy", form, fixed, form)) as volume:
        volume.move(3, 19)
        volume.delete(11)
        where = [22, 1, 7, 7, 19, 2]
        array, traces, times = volume.section(where)
        assert (
            traces.tolist() == where
            and array.dtype == volume.sample_type
            and times.tolist() == [4.0 * at for at in range(array.shape[1])]
        )
        wanted = [volume.samples(trace) for trace in where]
        assert isinstance(array, np.ma.MaskedArray) == (len({len(one) for one in wanted}) > 1)
        for row, samples in zip(array, wanted):
            assert same(np.ma.compressed(row), samples)
        assert array.shape == (6, max(map(len, wanted)))


def test_the_selection_and_its_order(opened):
    volume = opened("order")
    lines = volume.headers("inline", "crossline").tolist()
    found = volume.section(inline=102)
    assert found.traces.tolist() == [
        at
        for _, at in sorted((cross, at) for at, (line, cross) in enumerate(lines, 1) if line == 102)
    ]
    assert found.array.tolist() == one_by_one(volume, found.traces) and found.shape == (4, 5)
    found = volume.section(crossline=203)
    assert found.traces.tolist() == [
        at
        for _, at in sorted((line, at) for at, (line, cross) in enumerate(lines, 1) if cross == 203)
    ]
    both = volume.section(inline=102, crossline=203)
    assert len(both.traces) == 1 and lines[both.traces[0] - 1] == (102, 203)
    assert volume.section_traces(slice(-3, None)).tolist() == [
        10,
        11,
        12,
    ] and volume.section_traces(scalar=-100).tolist() == list(range(1, 13))
    assert volume.section_traces([9, 2, 5], crossline=volume.get(2, "crossline")).tolist()[0] in (
        9,
        2,
        5,
    )
    assert volume.section_traces(**{"@189:4": 103}).tolist() == [
        at for at, (line, _) in enumerate(lines, 1) if line == 103
    ]


def test_edits_are_seen(opened, batch):
    volume = opened("cube")
    volume.patch(6, 1, [7, -8])
    volume.copy(6, 1)
    volume.set(3, "inline", 102)
    found = volume.section(inline=102)
    assert found.traces.tolist() == [6, 1, 3, 7, 8, 9] or sorted(found.traces.tolist()) == [
        1,
        3,
        6,
        7,
        8,
        9,
    ]
    assert found.array.tolist() == one_by_one(volume, found.traces)
    assert volume.samples(1).tolist()[1:3] == [7, -8] and volume.edits == [
        "patch 6 1 7 -8",
        "copy 6 1",
        "set 3 inline 102",
    ]
    assert len(volume) == 13 and volume.alive


def test_nothing_and_no_such_traces(opened, tmp_path):
    volume = opened("cube")
    found = volume.section(inline=999)
    assert found.shape == (0, 0) and found.traces.tolist() == [] and found.times.tolist() == []
    assert volume.section([]).shape == (0, 0)
    with pytest.raises(segywb.Refused) as refused:
        volume.section([1, 13])
    assert refused.value.code == "E01"
    with pytest.raises(segywb.Refused):
        volume.section([0])
    with pytest.raises(segywb.Refused) as refused:
        volume.section(colour=7)
    assert refused.value.code == "E02"
    with pytest.raises(TypeError):
        volume.section(inline=102.0)
    with segywb.open(files.empty(tmp_path / "none.sgy")) as none:
        assert none.section().shape == (0, 0)


def test_samples_without_values_are_refused(tmp_path):
    with segywb.open(
        files.floats(tmp_path / "floats.sgy"), floats=False, opaque_samples=True
    ) as volume:
        with pytest.raises(segywb.Refused) as refused:
            volume.section()
        assert refused.value.code == "E12" and len(volume) == 3


def test_times(tmp_path):
    traces = []
    for n, delay in enumerate((100, 108, 96), 1):
        made = bytearray(files.trace(n, 1, n, [n, n + 10]))
        made[108:110] = struct.pack(">h", delay)
        made[116:118] = struct.pack(">H", 2000)
        traces.append(bytes(made))
    with segywb.open(
        files.write(tmp_path / "delays.sgy", files.header(), files.binary(), *traces)
    ) as volume:
        array, _, times = volume.section()
        assert times.tolist() == [96.0 + 2 * at for at in range(8)]
        assert array.tolist() == [
            [None, None, 1, 11, None, None, None, None],
            [None] * 6 + [2, 12],
            [3, 13, None, None, None, None, None, None],
        ]
        assert volume.section([1]).times.tolist() == [100.0, 102.0] and not isinstance(
            volume.section([1]).array, np.ma.MaskedArray
        )
        volume.set(1, "interval", 0)
        assert volume.section([1, 2, 3]).times.tolist()[:2] == [
            96.0,
            100.0,
        ]  # they do not agree: that of the binary header
        volume.set_bin("interval", 0)
        assert volume.section([1, 2, 3]).times.tolist() == [
            0.0,
            1.0,
        ]  # none is told: the numbers of the samples


def test_other_questions_go_on_meanwhile(opened):
    volume = opened("cube")
    reading = volume.section_reading([1, 2], coarse=2)
    reading.more(2)
    assert 0 < reading.part < 1 and volume.get(1, "inline") == 101
    reading.more()
    assert reading.done and reading.section.array.tolist() == one_by_one(volume, [1, 2])


@pytest.mark.parametrize("coarse", [1, 2, 3, 100])
@pytest.mark.parametrize("fixed", [True, False])
def test_a_reading_in_pieces(tmp_path, batch, fixed, coarse):
    """What is not there yet shows the sample before it; in the end all is as it is when it is read
    at once.
    """
    with segywb.open(chance_file(tmp_path / "chance.sgy", 3, fixed, coarse)) as volume:
        where = [22, 1, 7, 7, 19, 2]
        wanted = volume.section_of(where)
        with volume_of(tmp_path) as again:
            reading = again.section_reading(where, coarse)
            rows = list(range(0, wanted.shape[1], coarse)) + [
                at for at in range(wanted.shape[1]) if at % coarse
            ]
            for count in range(1, wanted.shape[1] + 1):
                assert not reading.done and reading.part == pytest.approx(
                    (count - 1) / wanted.shape[1]
                )
                reading.more(1)
                there = rows[:count]
                array, samples = reading.section.array, np.ma.getdata(wanted.array)
                for at in range(wanted.shape[1]):
                    known = max((one for one in there if one <= at), default=0)
                    assert (
                        np.ma.getdata(array)[:, at][
                            ~np.ma.getmaskarray(wanted.array)[:, at]
                        ].tolist()
                        == samples[:, known][~np.ma.getmaskarray(wanted.array)[:, at]].tolist()
                    )
            assert reading.done and np.ma.allequal(reading.section.array, wanted.array)


@pytest.mark.parametrize("pieces", range(4))
def test_all_that_is_left_of_a_reading(tmp_path, pieces):
    """At once, whatever is there by then."""
    where = [22, 1, 7, 19, 2]
    with segywb.open(chance_file(tmp_path / "chance.sgy", 3, False, 9)) as volume:
        wanted = volume.section_of(where)
        reading = volume.section_reading(where, coarse=4)
        for _ in range(pieces):
            reading.more(10)
        reading.more()
        assert reading.done and reading.part == 1
        assert np.ma.allequal(reading.section.array, wanted.array)
        reading.more()
        reading.more(3)
        assert reading.done


def volume_of(folder):
    return segywb.open(folder / "chance.sgy")


# ---- what stands in the rows of an answer


def rows_of(words, kind, sizes):
    """The rows of traces that have so many of these words each, read back."""
    parts, left = [], list(words)
    for trace, size in enumerate(sizes, 1):
        parts.append(" ".join([str(trace), *left[:size]]))
        del left[:size]
    assert not left
    return many_samples.rows("".join(f"{part}\n" for part in parts).encode(), kind)


def parts_of(chance, count):
    """Sizes that are so much together."""
    sizes = []
    while sum(sizes) < count:
        sizes.append(min(chance.randint(0, 9), count - sum(sizes)))
    return sizes


def test_whole_numbers():
    chance = random.Random(7)
    numbers = [
        0,
        1,
        -1,
        9,
        10,
        99999999,
        999999999,
        1000000000,
        -999999999,
        -(2**31),
        2**63 - 1,
        -(2**63),
    ] + [chance.randint(-(10**k), 10**k) for k in range(19) for _ in range(20)]
    sizes = parts_of(chance, len(numbers))
    found = rows_of(map(str, numbers), Kind("i8", False), sizes)
    assert found.values.tolist() == numbers and found.values.dtype == np.int64
    assert found.sizes.tolist() == sizes
    assert found.traces.tolist() == list(range(1, len(sizes) + 1))
    greatest = [2**64 - 1, 0, 2**63]
    assert rows_of(map(str, greatest), Kind("u8", False), [1, 2]).values.tolist() == greatest


@pytest.mark.parametrize("narrow", [False, True])
def test_decimals(narrow):
    chance = random.Random(8)
    words = [
        "0",
        "-0",
        "nan",
        "inf",
        "-inf",
        "1e20",
        "5e-324",
        "-1.5e-7",
        "123456790",
        "0.1",
        "-118.625",
        "9007199254740993",
        "1.00000005960464477539062500000001",
        "1234567.8901234567",
        "1e300",
    ]
    words += [repr(chance.uniform(-1, 1) * 10 ** chance.randint(-30, 30)) for _ in range(2000)]
    words += [
        repr(float(np.float32(chance.uniform(-1, 1) * 10 ** chance.randint(-8, 8))))
        for _ in range(2000)
    ]
    words += [
        str(np.float32(chance.uniform(-1, 1) * 10 ** chance.randint(-4, 9))) for _ in range(2000)
    ]
    sizes = parts_of(chance, len(words))
    found = rows_of(words, Kind("f4" if narrow else "f8", True), sizes)
    wanted = np.array(
        [segywb.answers.floating(word, narrow and abs(float(word)) < 3e38) for word in words]
    )
    with np.errstate(over="ignore"):
        assert same(found.values, wanted.astype(np.float32) if narrow else wanted)
    assert found.sizes.tolist() == sizes and found.traces.tolist()[-1] == len(sizes)


@pytest.mark.parametrize("kind", [Kind("i8", False), Kind("u8", False), Kind("f8", True)])
def test_no_rows(kind):
    found = many_samples.rows(b"", kind)
    assert [len(one) for one in found] == [0, 0, 0] and found.values.dtype == kind.dtype
    alone = many_samples.rows(b"7\n9\n", kind)
    assert [one.tolist() for one in alone] == [[7, 9], [0, 0], []]


@pytest.mark.parametrize("kind", [Kind("i8", False), Kind("u8", False), Kind("f4", True)])
@pytest.mark.parametrize("text", [b"1 x\n", b"1 5 1x\n", b"\n", b"1 5 \n", b"x\n", b"1 5"])
def test_what_is_no_row(text, kind):
    with pytest.raises(segywb.ProgramEnded):
        many_samples.rows(text, kind)


@pytest.mark.parametrize("seed", range(20))
def test_where_an_empty_line_ends(seed):
    """Also of data so long that it is halved, and with empty answers in it."""
    chance = random.Random(seed)
    parts = [
        b"value %d\n\n" % chance.randint(0, 10 ** chance.randint(1, 300))
        if seed % 2 or chance.random() < 0.9
        else b"\n"
        for _ in range(300)
    ]
    data, before = b"".join(parts), chance.choice([b"\n", b"7"])
    data = (b"\n" if chance.random() < 0.5 else b"") + data
    for number in range(1, empty_lines(data, before) + 1):
        end = end_of(data, before, number)
        assert (
            empty_lines(data[:end], before) == number
            and empty_lines(data[: end - 1], before) == number - 1
        )


# ---- gains, and pictures


def by_hand(values, step, gain):
    """A gain sample by sample."""
    made = np.array(values, dtype=np.float64)
    for row, samples in enumerate(np.asarray(values, dtype=np.float64)):
        known = np.isfinite(samples)
        if gain.balance == "trace":
            size = np.sqrt(np.mean(samples[known] ** 2)) if known.any() else 0
            made[row] = samples / (size or 1)
        if gain.balance == "agc":
            wide = max(1, int(round(gain.window / step)))
            for at in range(len(samples)):
                low, high = max(at - wide // 2, 0), min(at - wide // 2 + wide, len(samples))
                some = samples[low:high][known[low:high]]
                size = np.sqrt(np.mean(some**2)) if len(some) else 0
                made[row, at] = samples[at] / (size or 1)
    return -made if gain.reverse else made


@pytest.mark.parametrize(
    "gain",
    [
        gains.Gain(),
        gains.Gain(100, "trace"),
        gains.Gain(50, "agc", 20),
        gains.Gain(99, "agc", 1),
        gains.Gain(98, "agc", 1e6, True),
        gains.Gain(80, "none", 5, True),
    ],
)
def test_gains(gain):
    chance = np.random.default_rng(3)
    values = chance.normal(0, 100, (7, 40)).astype(np.float32)
    values[2] = 0
    values[3, 5:9] = np.nan
    values[4] = np.nan
    made, end = gains.gained(values, 4.0, gain)
    wanted = by_hand(values, 4.0, gain)
    assert made.dtype == np.float32 and np.allclose(
        made, wanted, rtol=1e-5, atol=1e-5, equal_nan=True
    )
    assert end == pytest.approx(float(np.nanpercentile(np.abs(made), gain.percentile)), rel=1e-5)
    codes = gains.codes(made, end)
    assert (codes[np.isnan(made)] == gains.LACKS).all() and codes[~np.isnan(made)].min() >= -127
    assert np.allclose(
        codes[~np.isnan(made)], np.clip(made[~np.isnan(made)] / end, -1, 1) * 127, atol=0.5001
    )


def test_gains_of_little():
    for values in (
        np.zeros((3, 4), np.float32),
        np.zeros((0, 0), np.float32),
        np.full((2, 2), np.nan, np.float32),
    ):
        made, end = gains.gained(values, 0.0, gains.Gain(98, "agc"))
        assert end == 1.0 and np.array_equal(made, values, equal_nan=True)
    spike = np.zeros((1, 1000), np.float32)
    spike[0, 7] = -5
    assert (
        gains.gained(spike, 4.0, gains.Gain(50))[1] == 5
    )  # more than half are zeros: the greatest


@pytest.mark.parametrize(
    "gain",
    [
        gains.Gain(0),
        gains.Gain(100.1),
        gains.Gain(float("nan")),
        gains.Gain(98, "loud"),
        gains.Gain(98, "agc", 0),
        gains.Gain(98, "agc", float("inf")),
        gains.Gain(98, "agc", -3),
    ],
)
def test_gains_that_make_no_sense(opened, gain):
    with pytest.raises(ValueError):
        gains.checked(gain)
    with pytest.raises(ValueError):
        opened("cube").plot_section(inline=102, gain=gain)


@pytest.mark.parametrize(
    "shape, tall, wide",
    [
        ((10, 10), 3, 4),
        ((7, 5), 7, 5),
        ((7, 5), 100, 2),
        ((1, 900), 5, 13),
        ((333, 2), 10, 1),
        ((0, 5), 3, 3),
        ((5, 0), 3, 3),
    ],
)
def test_peaks(shape, tall, wide):
    values = np.random.default_rng(5).integers(-128, 128, shape).astype(np.int8)
    made = peaks(values, tall, wide)
    rows, columns = min(shape[0], tall), min(shape[1], wide)
    assert made.shape == (rows, columns) and made.dtype == np.int8
    for row in range(rows):
        for column in range(columns):
            some = values[
                row * shape[0] // rows : (row + 1) * shape[0] // rows,
                column * shape[1] // columns : (column + 1) * shape[1] // columns,
            ].astype(int)
            known = some[some != -128]
            assert (
                (abs(int(made[row, column])) == np.abs(known).max() and made[row, column] in known)
                if len(known)
                else made[row, column] == -128
            )


def test_a_picture_of_a_section(opened):
    volume = opened("cube")
    volume.patch(6, 2, 500)
    rows = volume.plot_section(
        inline=102,
        style="both",
        above=["x", 193],
        gain=gains.Gain(100),
        colours="purple-white-orange",
    )
    assert (
        [axes.get_ylabel() for axes in rows] == ["x", "@193:4", "time (ms)"]
        and rows[-1].get_xlabel() == "crossline"
        and rows[0].get_title() == "inline 102"
    )
    assert (
        rows[0].lines[0].get_ydata().tolist()
        == volume.headers("x", traces=[5, 6, 7, 8])["x"].tolist()
    )
    (image,) = rows[-1].images
    assert (
        image.get_clim() == (-500, 500)
        and list(image.get_extent()) == [-0.5, 3.5, 18.0, -2.0]
        and image.get_cmap().name == "PuOr_r"
    )
    assert (
        np.allclose(image.get_array(), volume.section(inline=102).array.T, atol=2)
        and len(rows[-1].lines) == 4
    )
    assert rows[-1].get_ylim() == (18.0, -2.0)
    (axes,) = volume.plot_section([3, 1], style="wiggles")
    assert axes.get_xlabel() == "trace" and not axes.images and len(axes.collections) == 2
    matplotlib.pyplot.close("all")


def test_a_picture_is_saved(opened, tmp_path):
    before = matplotlib.pyplot.get_fignums()
    opened("float_line").plot_section(
        path=tmp_path / "section.png", gain=gains.Gain(balance="trace")
    )
    assert (tmp_path / "section.png").read_bytes().startswith(
        b"\x89PNG"
    ) and matplotlib.pyplot.get_fignums() == before
    opened("cube").plot_section(
        inline=999, style="both", path=tmp_path / "none.png"
    )  # no trace has it
    for words in ({"style": "dots"}, {"colours": "rainbow"}):
        with pytest.raises(ValueError):
            opened("cube").plot_section(inline=102, **words)
    with pytest.raises(segywb.Refused):
        opened("cube").plot_section(inline=102, above=["colour"])
