"""Conditions on facts about samples, compared with what numpy finds in the bytes of the file."""

import operator
import random
import struct
from decimal import Decimal, localcontext
from fractions import Fraction

import files
import float_words
import numpy as np
import pytest
from test_chosen import TAKES

import segywb

SIGNS = {"=": operator.eq, "!=": operator.ne, "<": operator.lt, "<=": operator.le, ">": operator.gt, ">=": operator.ge}
# the bytes of a sample, and whether it has a sign
WHOLE = {2: (4, True), 3: (2, True), 7: (3, True), 8: (1, True), 9: (8, True), 10: (4, False), 11: (2, False), 12: (8, False), 15: (3, False), 16: (1, False)}
FACTS = ["sample_least", "sample_greatest", "sample_count"]
FIELDS = {"@1:4": (0, ">i4"), "inline": (188, ">i4"), "offset": (36, ">i4"), "@9:8": (8, ">i8"), "@115:2u": (114, ">u2")}
# words beside a sample of floats, whatever its value
DECIMALS = ["0", "-0", "-0.0", "0e9", "1.5e3", "-1.", "-.5", "1e999", "-1e999", "1e-999", "-1e-999", "0.1", "1E+2", "-118.625", "340282346638528859811704183484516925440"]


def whole_samples(dice, form):
    """Random samples of whole numbers, as often near the ends as within, or all the same."""
    size, signed = WHOLE[form]
    low, high = (-(1 << 8 * size - 1), (1 << 8 * size - 1) - 1) if signed else (0, (1 << 8 * size) - 1)
    near = [low, low + 1, high - 1, high, 0, 1, 7, dice.randint(low, high), dice.randint(max(low, -9), 9)]
    count = dice.choice([0, 1, 2, 3, 5])
    return [dice.choice(near)] * count if dice.random() < 0.2 else [dice.choice(near) for _ in range(count)]


def float_patterns(dice, form):
    """Random patterns: zeros of both signs, no numbers, infinities, the least and the greatest, and any others."""
    bits = 64 if form == 6 else 32
    top = 1 << bits - 1
    special = {
        1: [0, top, 1, top + 1, 0x7FFFFFFF, 0xFFFFFFFF, 0x4019999A, 0x41100000, 0xC276A000, 0x40000001],
        5: [0, top, 1, top + 1, 0x7F7FFFFF, 0xFF7FFFFF, 0x7F800000, 0xFF800000, 0x7FC00000, 0xFFC00001, 0x3DCCCCCD, 0xC2ED4000],
        6: [0, top, 1, top + 1, (0x7FF << 52) - 1, top + (0x7FF << 52) - 1, 0x7FF << 52, 0xFFF << 52, 0x7FF8 << 48, 0xFFF8 << 48, 0x3FB999999999999A],
    }[form]
    some = dice.sample(special, 3) if dice.random() < 0.8 else [dice.choice(special)]
    return [dice.choice(some) if dice.random() < 0.8 else dice.getrandbits(bits) for _ in range(dice.choice([0, 1, 2, 3, 5]))]


def made(path, dice, form):
    """A random file of traces of their own lengths, with random numbers in some fields."""
    size, signed = WHOLE.get(form, (8 if form == 6 else 4, False))
    parts = []
    for number in range(1, 9):
        samples = float_patterns(dice, form) if form in (1, 5, 6) else whole_samples(dice, form)
        head = bytearray(files.trace(number, 1, number, samples, size, signed))
        struct.pack_into(">i", head, 0, dice.choice([0, 1, 7, -3, 5, dice.randint(-(2**31), 2**31 - 1)]))
        struct.pack_into(">i", head, 36, dice.choice([-8388608, 0, 2, 127, 65535, 4]))
        struct.pack_into(">q", head, 8, dice.choice([-(2**63), 2**63 - 1, 2**32, -1, 0, 9007199254740993, 16777217]))
        parts.append(bytes(head))
    return files.write(path, files.header(), files.binary(samples=0, form=form, fixed=0), *parts)


class Model:
    """The traces of such a file as numpy reads its bytes."""

    def __init__(self, path, form):
        self.form = form
        self.size = WHOLE.get(form, (8 if form == 6 else 4, False))[0]
        self.heads, self.samples = [], []
        data, at = path.read_bytes(), 3600
        while at < len(data):
            count = int(np.frombuffer(data, ">u2", 1, at + 114)[0])
            self.heads.append(data[at:at + 240])
            self.samples.append(self.values(data[at + 240:at + 240 + count * self.size]))
            at += 240 + count * self.size

    def values(self, data):
        """The samples as numbers: whole ones of Python, or floats."""
        if self.form == 1:
            return [float_words.value_of(1, pattern) for pattern in np.frombuffer(data, ">u4").tolist()]
        if self.form in (5, 6):
            return np.frombuffer(data, ">f4" if self.form == 5 else ">f8").astype(np.float64).tolist()
        signed = WHOLE[self.form][1]
        rows = np.frombuffer(data, np.uint8).reshape(-1, self.size)
        return [int.from_bytes(row.tobytes(), "big", signed=signed) for row in rows]

    def of(self, word, trace):
        """What a side says of a trace: a number, or nothing where it has none."""
        if word == "sample_count":
            return len(self.samples[trace])
        if word in FACTS:
            numbers = [one for one in self.samples[trace] if one == one]
            if not numbers:
                return None
            least = word == "sample_least"
            if self.form in (1, 5, 6):
                return float((np.min if least else np.max)(np.array(numbers)))
            return (min if least else max)(numbers)
        if word in FIELDS:
            at, kind = FIELDS[word]
            return int(np.frombuffer(self.heads[trace], kind, 1, at)[0])
        return value_of(word)

    def meets(self, trace, conditions):
        """Whether the trace meets all of them."""
        told = []
        for left, sign, right in conditions:
            ones = self.of(left, trace), self.of(right, trace)
            told.append(None not in ones and compared(sign, *ones))
        return all(told)

    def chosen(self, conditions):
        """The positions of the traces that meet all of them."""
        return [trace + 1 for trace in range(len(self.samples)) if self.meets(trace, conditions)]


def value_of(word):
    """The exact number that a word writes; one that is far beyond all samples stands for more of its kind."""
    number = Decimal(word)
    if number and not -2000 < number.adjusted() < 2000:
        number = Decimal("1e2000" if number.adjusted() > 0 else "1e-2000").copy_sign(number)
    return Fraction(number)


def compared(sign, one, other):
    """The comparison of two numbers, exactly: an infinity stands outside the others."""
    far = [number if isinstance(number, float) and np.isinf(number) else 0 for number in (one, other)]
    if any(far):
        return SIGNS[sign](*far)
    return SIGNS[sign](Fraction(one), Fraction(other))


def exact(value):
    """The decimal that a float is, with all of its digits."""
    with localcontext() as context:
        context.prec = 1200
        return format(Decimal(value), "f")


def beside(dice, model, word):
    """A word beside a fact: a field, another fact, a whole number, or in a file of floats a decimal, as often as not near a sample."""
    kind = dice.random()
    if kind < 0.2:
        return dice.choice(list(FIELDS))
    if kind < 0.35:
        return dice.choice(FACTS)
    values = [one for some in model.samples for one in some if one == one and abs(one) != float("inf")]
    if model.form not in (1, 5, 6):
        near = dice.choice([*values, 0, 3]) + dice.choice([-1, 0, 0, 1])
        return str(near if word != "sample_count" else dice.randint(0, 6))
    if word == "sample_count":
        return str(dice.randint(-1, 6))
    if kind < 0.6 or not values:
        return dice.choice(DECIMALS) if kind < 0.55 else str(dice.choice([0, 1, -1, 10**30, 2**53 + 1]))
    text = exact(dice.choice(values))
    more = text + dice.choice(["1", "000", "0" * 500 + "1", ""]) if "." in text else text + dice.choice(["", ".0", ".5", ".000001"])
    return dice.choice([more, text, repr(dice.choice(values)), text + "e0" if "e" not in text else text])


def condition(dice, model):
    """A condition with a fact on one of its sides."""
    word = dice.choice(FACTS)
    other = beside(dice, model, word)
    left, right = (word, other) if dice.random() < 0.5 else (other, word)
    return left, dice.choice(list(SIGNS)), right


CASES = 24  # conditions of each file


@pytest.mark.parametrize("form", [*WHOLE, 1, 5, 6])
def test_random_conditions(tmp_path, form):
    """Of each file 24 lines of conditions, in memory and behind edits, on disk and after a save."""
    dice = random.Random(1000 + form)
    path = made(tmp_path / "made.sgy", dice, form)
    model = Model(path, form)
    lines = [[condition(dice, model) for _ in range(dice.choice([1, 1, 1, 2, 3]))] for _ in range(CASES)]
    texts = [" and ".join(" ".join(one) for one in some) for some in lines]
    wanted = [model.chosen(some) for some in lines]
    for on_disk in (False, True):
        with segywb.open(path, on_disk=on_disk) as volume:
            got = [volume.section_traces(where=text).tolist() for text in texts]
            counts = [volume.count(where=text) for text in texts]
        assert got == wanted, [(text, one, other) for text, one, other in zip(texts, got, wanted) if one != other]
        assert counts == [len(one) for one in wanted]
    some = [one for one in wanted if one and len(one) < len(model.samples)]
    assert len(some) > CASES // 5  # the conditions tell traces apart


def number_for(model, dice):
    """A number that samples of the format can have."""
    return dice.choice([0.0, -2.5, 1024.0, -0.0, 3.0, 65536.0]) if model.form in (1, 5, 6) else dice.randint(0, 100)


def filled(volume, model, dice, text, chosen):
    """The first sample of each that is chosen, where it has one."""
    value = number_for(model, dice)
    long = [trace for trace in chosen if model.samples[trace - 1]]
    assert volume.fill(None, None, 0, 0, value, where=f"{text} and sample_count > 0") == len(long)
    for trace in long:
        model.samples[trace - 1][0] = value


def patched(volume, model, dice, text, chosen):
    """The last sample of any trace."""
    full = [trace for trace, some in enumerate(model.samples, 1) if some]
    if full:
        trace, value = dice.choice(full), number_for(model, dice)
        volume.patch(trace, len(model.samples[trace - 1]) - 1, [value])
        model.samples[trace - 1][-1] = value


def deleted(volume, model, dice, text, chosen):
    """Those that are chosen, where they are few."""
    if len(chosen) < 3:
        assert volume.delete(where=text) == len(chosen)
        for trace in reversed(chosen):
            del model.samples[trace - 1], model.heads[trace - 1]


def copied(volume, model, dice, text, chosen):
    """Any trace to the front."""
    if model.samples:
        trace = dice.randint(1, len(model.samples))
        volume.copy(trace, 1)
        model.samples.insert(0, list(model.samples[trace - 1]))
        model.heads.insert(0, model.heads[trace - 1])


def marked(volume, model, dice, text, chosen):
    """A header of those that are chosen."""
    assert volume.set_each("delay", 7, where=text) == len(chosen)


@pytest.mark.parametrize("form", [3, 7, 12, 1, 5, 6])
def test_edits_of_chosen_samples(tmp_path, form):
    """The facts follow each edit: what is filled, patched, deleted and copied is chosen by what it is then."""
    dice = random.Random(2000 + form)
    path = made(tmp_path / "made.sgy", dice, form)
    model = Model(path, form)
    with segywb.open(path) as volume:
        for _ in range(40):
            conditions = [condition(dice, model)]
            dice.choice([filled, patched, deleted, copied, marked])(volume, model, dice, " ".join(conditions[0]), model.chosen(conditions))
            again = [condition(dice, model)]
            assert volume.section_traces(where=" ".join(again[0])).tolist() == model.chosen(again), again
        assert len(volume) == len(model.samples) > 0
        for trace, samples in enumerate(model.samples, 1):
            np.testing.assert_array_equal(volume.samples(trace), np.array(samples, dtype=volume.sample_type))
        volume.save(tmp_path / "saved.sgy")
        texts = [" ".join(condition(dice, model)) for _ in range(10)]
        told = [volume.section_traces(where=text).tolist() for text in texts]
    with segywb.open(tmp_path / "saved.sgy") as volume:
        assert [volume.section_traces(where=text).tolist() for text in texts] == told


@pytest.mark.parametrize("take", range(len(TAKES)))
def test_each_call_takes_facts(opened, take, tmp_path):
    """Where samples have no value the first two are E12, and the third is told all the same."""
    volume = opened(files.floats(tmp_path / "floats.sgy", 5), floats=False, opaque_samples=True)
    for text, code in (("sample_least = 0", "E12"), ("@1.9:4 = 0 and 0 < sample_greatest", "E12"), ("sample_least = 0 and colour = 1", "E02"), ("sample_mean = 0", "E02"), ("sample_least < 0.5", "S03")):
        with pytest.raises(segywb.Refused) as refusal:
            TAKES[take](volume, text)
        assert refusal.value.code == code and text in refusal.value.line, text
    assert volume.edits == [] and volume.count(where="sample_count = 2") == 3
    assert volume.delete(where="sample_count != 2") == 0


def test_decimals_stand_in_conditions(opened, tmp_path):
    """The text is the program's: whatever begins as a number is left as it is."""
    volume = opened(files.floats(tmp_path / "floats.sgy", 5))
    volume.patch(2, 0, [0.1, -118.625])
    assert volume.count(where="sample_greatest > 0.1 and sample_greatest < 1.00000001490116119384765625e-1") == 0
    assert volume.section_traces(where="sample_greatest = 0.100000001490116119384765625").tolist() == [2]
    assert volume.set_each("delay", 7, where="sample_least <= -1.18625E2") == 1 and volume.edits[-1] == "set all delay 7 where sample_least <= -1.18625E2"
    assert volume.stats(where="-118.625 = sample_least")["trace"].tolist() == [2]
    with pytest.raises(segywb.Refused, match="S03"):
        opened("cube").count(where="sample_least < 0.5")


def test_a_bound_name_is_its_field(opened):
    volume = opened("cube")
    volume.map("sample_least", "crossline")
    assert volume.headers("sample_least", where="sample_least > 203 and inline = 101").tolist() == [(204,)]
    volume.unmap("sample_least")
    assert volume.count(where="sample_least > 203") == 0
    with pytest.raises(segywb.Refused, match="E02"):
        volume.get(1, "sample_least")
