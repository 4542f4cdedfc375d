"""The values of float samples, of which the meaning is made outside of the program: random patterns, sums, patches, and files by segyio."""

import random
import struct
import warnings
from fractions import Fraction

import float_words
import numpy as np
import pytest
import segyio
from conftest import run

import segywb

FORMATS = (1, 5, 6)
KINDS = [(order, revision) for order in ("big", "little") for revision in (0, 1, 2)]
TRACES, SAMPLES = 17, 1000  # 6 files of a format: 102,000 patterns


def patterns(form, count, seed):
    """Patterns of every kind: all bits at random, values as they are recorded, values of few digits, and what is odd."""
    draw = random.Random(seed)
    bits = 8 * float_words.WIDTHS[form]
    odd = {1: [0, 1 << 31, 1, 0x7FFFFFFF, 0xFFFFFFFF, 0x42010000, 0x00100000], 5: [0, 1 << 31, 1, 0x7F7FFFFF, 0x7F800000, 0xFF800000, 0x7FC00000, 0x7F800001, 0x00800000, 0x007FFFFF]}
    odd[6] = [0, 1 << 63, 1, 0x7FEFFFFFFFFFFFFF, 0x7FF << 52, 0xFFF << 52, 0x7FF8 << 48, (0x7FF << 52) + 1, 1 << 52, (1 << 52) - 1]
    made = []
    while len(made) < count:
        kind = draw.random()
        if kind < 0.6:
            made.append(draw.getrandbits(bits))
        elif kind < 0.8:
            made.append(float_words.pattern_of(form, repr(draw.gauss(0, 1000))))
        elif kind < 0.98:
            made.append(float_words.pattern_of(form, f"{draw.randint(-999, 999)}e{draw.randint(-30, 30)}"))
        else:
            made.append(draw.choice(odd[form]))
    return made


def options(order, revision):
    return ["--order", order] if order == "little" and revision < 2 else []


@pytest.mark.parametrize("form", FORMATS)
@pytest.mark.parametrize("kind", KINDS, ids=lambda kind: f"{kind[0]}-{kind[1]}")
def test_random_patterns(tmp_path, form, kind):
    """What slices print, and what Python shows, is bit by bit what struct, fractions and numpy make of the bytes."""
    order, revision = kind
    drawn = patterns(form, TRACES * SAMPLES, f"{form} {order} {revision}")
    traces = [drawn[at:at + SAMPLES] for at in range(0, len(drawn), SAMPLES)]
    path = tmp_path / "random.sgy"
    path.write_bytes(float_words.line(form, traces, order, revision))
    values = np.array([[float_words.value_of(form, one) for one in trace] for trace in traces])
    answers, status = run(path, [f"slice {k}" for k in range(SAMPLES)], "--floats", *options(order, revision))
    wanted = []
    for k in range(SAMPLES):
        wanted += [f"slice {TRACES}", *(f"row 10 {20 + p} {p} {float_words.word_of(form, values[p - 1, k])}" for p in range(1, TRACES + 1))]
    assert status == 0
    told = answers.splitlines()
    assert len(told) == len(wanted)
    assert [(got, one) for got, one in zip(told, wanted) if got != one][:5] == []
    with segywb.open(path, order="little" if options(order, revision) else None) as volume:
        narrow = "f4" if form == 5 else "f8"
        want = values.astype(narrow)
        for p in (1, TRACES):
            got = volume.samples(p)
            assert got.dtype == narrow and same_bits(got, want[p - 1])
        for k in (0, 7, SAMPLES - 1):
            rows = volume.slice(k).rows
            assert rows["value"].dtype == narrow and same_bits(rows["value"], want[:, k]) and rows["trace"].tolist() == list(range(1, TRACES + 1))
        assert volume.sample(3, 5) == values[2, 5] or np.isnan(values[2, 5])


def same_bits(one, other):
    """The same bits, but of what is no number."""
    kind = f"u{one.dtype.itemsize}"
    return np.array_equal(np.isnan(one), np.isnan(other)) and np.array_equal(one.view(kind)[~np.isnan(one)], other.view(kind)[~np.isnan(other)])


def exact(values):
    """The exact sum of the finite ones, rounded once; or what stands for it beside infinities."""
    signs = {value > 0 for value in values if np.isinf(value)}
    if signs:
        return float("nan") if len(signs) == 2 else float("inf") if signs.pop() else float("-inf")
    whole = sum((Fraction(value) for value in values), Fraction(0))
    try:
        return float(whole)
    except OverflowError:
        return float("inf") if whole > 0 else float("-inf")


@pytest.mark.parametrize("form", FORMATS)
def test_statistics(tmp_path, form):
    """Sums of values whose sizes differ by hundreds of powers of 2, in every order the same."""
    traces = [patterns(form, 1 + n % 40, f"sum {form} {n}") for n in range(200)]
    traces += [traces[39][::-1], sorted(traces[39])]
    path = tmp_path / "sums.sgy"
    path.write_bytes(float_words.line(form, traces, "big", 0))
    with segywb.open(path) as volume:
        whole = []
        for p, trace in enumerate(traces, 1):
            values = [float_words.value_of(form, one) for one in trace]
            numbers = [value for value in values if value == value]
            whole += values
            told = volume.stat(p)
            assert (told.samples, told.nans) == (len(values), len(values) - len(numbers))
            if numbers:
                assert same_bits(np.array([told.sum]), np.array([exact(numbers)])), p
                assert (told.least, told.greatest) == (min(numbers), max(numbers))
            else:
                assert told[:3] == (None, None, None)
        assert volume.stat(201) == volume.stat(202) == volume.stat(40)
        numbers = [value for value in whole if value == value]
        assert volume.totals == (min(numbers), max(numbers), len(whole), len(whole) - len(numbers))


@pytest.mark.parametrize("form", FORMATS)
def test_patched_back(tmp_path, form):
    """What is read, patched into another trace, has the same bytes: of IBM floats the normalised ones, of no numbers the one that stands for all."""
    count = 2000
    drawn = patterns(form, count, f"back {form}")
    path, out = tmp_path / "back.sgy", tmp_path / "out.sgy"
    path.write_bytes(float_words.line(form, [drawn, [0] * count, [0] * count]))
    with segywb.open(path) as volume:
        read = volume.samples(1)
        volume.patch(2, 0, read)
        volume.patch(3, 0, read.astype("f8").tolist())
        assert same_bits(volume.samples(2), read)
        volume.save(out)
    wanted = [float_words.pattern_of(form, float_words.word_of(form, float_words.value_of(form, one))) for one in drawn]
    assert out.read_bytes() == float_words.line(form, [drawn, wanted, wanted])


def decimal_of(units):
    """The exact decimal of a number in units of 2**-281, and how many of its digits stand behind the point."""
    places = 281
    while places and units % 2 == 0:
        units, places = units // 2, places - 1
    return units * 5**places, places


def beside_middles(count, seed):
    """Decimals at the middles of neighbouring IBM values, and beside them by a digit far behind, some with an exponent."""
    draw = random.Random(seed)
    words = []
    while len(words) < count:
        exponent = draw.choice([0, draw.randrange(128), draw.randrange(60, 70)])
        fraction = draw.choice([draw.randrange(2**20, 2**24), 2**20, 2**24 - 1]) if exponent else draw.randrange(2**24)
        number, places = decimal_of((2 * fraction + 1) << 4 * exponent)
        more = draw.choice([0, 1, 5, 30, 300])
        number = number * 10**more + draw.choice([-1, 0, 1])
        places += more
        moved = draw.choice([0, 0, draw.randrange(places + 20)])
        digits = str(number).rjust(places - moved + 1, "0") if moved < places else str(number)
        point = len(digits) - max(places - moved, 0)
        power = -moved if moved <= places else -places
        word = digits[:point] + ("." + digits[point:] if digits[point:] else "") + (f"e{power}" if power else "")
        words.append(draw.choice(["", "-"]) + word)
    return words


def test_decimals_beside_middles(tmp_path):
    """A decimal is rounded to the nearest IBM value once: also beside a middle of two, where its binary64 is that middle."""
    words = beside_middles(20000, "middles")
    patterns = [float_words.pattern_of(1, word) for word in words]
    wanted = [one for one in patterns if one is not None]
    past = [word for word, one in zip(words, patterns) if one is None]
    path, out = tmp_path / "middles.sgy", tmp_path / "out.sgy"
    path.write_bytes(float_words.line(1, [[0] * len(wanted)]))
    all_fit = " ".join(word for word, one in zip(words, patterns) if one is not None)
    answers, _ = run(path, [f"patch 1 0 {all_fit}", *(f"patch 1 0 {word}" for word in past)], "--floats", "--out", out)
    assert answers.splitlines() == ["ok"] + ["refused E04 does not fit"] * len(past)
    assert out.read_bytes() == float_words.line(1, [wanted])


def test_kinds_of_numbers_in_a_patch(tmp_path):
    path = tmp_path / "kinds.sgy"
    path.write_bytes(float_words.line(6, [[0] * 8] * 2))
    with segywb.open(path) as volume:
        volume.patch(1, 0, [1, 0.1, np.float32(0.1), np.float64(1e-300), np.int16(-7), True, 10**40, -0.0])
        assert volume.edits == ["patch 1 0 1 0.1 0.10000000149011612 1e-300 -7 1 1" + "0" * 40 + " -0.0"]
        assert volume.samples(1).tolist() == [1.0, 0.1, 0.10000000149011612, 1e-300, -7.0, 1.0, 1e40, -0.0]
        volume.patch(2, 0, 0.5)
        volume.patch(2, 1, np.float32(2.5))
        volume.patch(2, 2, np.array([float("nan"), float("inf"), -1.5]))
        assert volume.samples(2).tolist()[:2] == [0.5, 2.5] and volume.edits[-1] == "patch 2 2 nan inf -1.5"
        before = volume.edits
        for bad in (["0.1"], [None], [1j], [np.ma.masked], [b"1"], "12"):
            with pytest.raises(TypeError):
                volume.patch(1, 0, bad)
        assert volume.edits == before


def test_a_file_of_whole_numbers_takes_no_floats(opened):
    volume = opened("cube")
    for bad in (1.0, [1.5], np.array([1.0])):
        with pytest.raises(TypeError):
            volume.patch(1, 0, bad)
    assert (volume.has_floats, volume.sample_type, volume.edits) == (False, "i8", [])
    assert volume.sample(1, 0) == 11 and isinstance(volume.sample(1, 0), int)


def test_past_the_greatest(tmp_path):
    for form, greatest, past in ((1, 7.2370051459731155e75, 1e76), (5, 3.4028234663852886e38, 3.5e38)):
        path = tmp_path / "past.sgy"
        path.write_bytes(float_words.line(form, [[0, 0]]))
        with segywb.open(path) as volume:
            for bad in (past, -past, *((float("nan"), float("inf")) if form == 1 else ())):
                with pytest.raises(segywb.Refused) as refusal:
                    volume.patch(1, 0, [1.5, bad])
                assert refusal.value.code == "E04" and volume.edits == []
            volume.patch(1, 0, [greatest, -greatest])
            assert volume.stat(1)[:2] == (-greatest, greatest)


@pytest.mark.parametrize("form", [segyio.SegySampleFormat.IBM_FLOAT_4_BYTE, segyio.SegySampleFormat.IEEE_FLOAT_4_BYTE])
def test_beside_segyio(tmp_path, form):
    """A file that segyio writes, of values that have 24 bits in both formats: what is read is what segyio reads, and what is patched too."""
    spec = segyio.spec()
    spec.format, spec.sorting = int(form), 2
    spec.samples, spec.ilines, spec.xlines = range(50), [1, 2], [1, 2, 3]
    path, out = tmp_path / "segyio.sgy", tmp_path / "out.sgy"
    draw = np.random.default_rng(7)
    data = (draw.integers(-2**20, 2**20, (6, 50)) / 2.0 ** draw.integers(0, 30, (6, 50))).astype("f4")
    with segyio.create(path, spec) as made:
        for n in range(6):
            made.header[n] = {189: n // 3 + 1, 193: n % 3 + 1}
            made.trace[n] = data[n]
    with segyio.open(path) as theirs, segywb.open(path) as volume:
        for n in range(6):
            assert np.array_equal(theirs.trace[n], data[n])
            assert np.array_equal(volume.samples(n + 1), data[n].astype(volume.sample_type))
        for k in (0, 49):
            assert np.array_equal(volume.slice(k).array, theirs.depth_slice[k])
        volume.patch(4, 10, data[0][:20])
        volume.save(out)
    data[3][10:30] = data[0][:20]
    with segyio.open(out) as theirs:
        assert np.array_equal(theirs.trace.raw[:], data)


def test_maps_of_floats(opened):
    volume = opened("wrong_floats")
    found = volume.slice(2)
    assert found.array.dtype == "f4" and found.array.shape == (3, 4) and found.array[1, 1] == np.float32(1e20) and found.array[0, 2] == 0
    assert np.isnan(volume.slice(3).array[2, 0]) and volume.totals.nans == 2
    from segywb import pictures

    with warnings.catch_warnings():
        warnings.simplefilter("error")
        shown = pictures.slice(volume, 3).images[0]
    assert shown.get_array().mask[2, 0] and np.isfinite(shown.get_clim()).all()


def test_narrow_words():
    """The value of 4 bytes nearest to a decimal, which the one of 8 bytes in between can miss."""
    from segywb import answers, arrays

    words = ["1.00000005960464477539062500000001", "1.000000059604644775390625", "1.0000000596046447753906249", "-1.00000017881393432617187499", "0.1", "nan", "-inf", "1e-45", "-0"]
    words += [repr(struct.unpack("f", struct.pack("I", bits))[0]) for bits in (1, 0x00800000, 0x7F7FFFFF, 0x33D6BF95)]
    wanted = [struct.unpack("f", float_words.pattern_of(5, word).to_bytes(4, "little"))[0] for word in words]
    got = arrays.floats(" ".join(words).encode(), len(words), True)
    assert got.dtype == "f4" and same_bits(got, np.array(wanted, dtype="f4"))
    assert [answers.floating(word, True) for word in words if word != "nan"] == [one for one in wanted if one == one]
    for data, count in ((b"1 2", 3), (b"1 x", 2)):
        with pytest.raises(segywb.ProgramEnded):
            arrays.floats(data, count)


ECHO = "for line in sys.stdin:\n    sys.stdout.write('traces 3\\n\\n'); sys.stdout.flush()\n"


@pytest.mark.parametrize("known", [True, False])
def test_a_program_of_before(fake, opened, tmp_path, known):
    """The option is given where the program's help has it; the help is asked for once."""
    told = "--floats" if known else "--fixed"
    fake(f"open({str(tmp_path / 'words')!r}, 'a').write(' '.join(sys.argv[1:]) + '\\n')\nif sys.argv[1] == '--help': print('  {told} x'); sys.exit(2)\n" + ECHO)
    for more in ({}, {"floats": False}, {}):
        opened("cube", max_bytes=9000, **more)
    words = [line.split(" ", 2)[-1] for line in (tmp_path / "words").read_text().splitlines()]
    given = "--floats --max-bytes 9000" if known else "--max-bytes 9000"
    assert words == ["--help", given, "--max-bytes 9000", given]


def test_a_program_without_help(fake, opened, tmp_path, monkeypatch):
    monkeypatch.setattr("segywb.program.HELP_SECONDS", 0.3)
    fake("if sys.argv[1] == '--help': time.sleep(60)\n" + ECHO)
    assert len(opened("cube")) == 3
