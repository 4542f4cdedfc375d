#!/usr/bin/env python3
"""Small SEG-Y files with one damage each, sound ones, some at a bound, and damaged ones by chance.

usage: damages.py FOLDER SEED RANDOM

Writes NAME.sgy and its script NAME.txt to FOLDER, and NAME.words with options where it needs them:
first the files whose problems are known, and then as many as RANDOM says, by the seed. Prints for
each known one a line `NAME CODE..`: the codes of all its problems, none of a sound one.
"""

import os
import random
import struct
import sys

INTERVAL = 4000
SAMPLES = 12
# The formats of whole numbers: bytes of a sample, and whether it has a sign.
WHOLE = {2: (4, True), 3: (2, True), 7: (3, True), 8: (1, True), 9: (8, True), 10: (4, False),
         11: (2, False), 12: (8, False), 15: (3, False), 16: (1, False)}


class Trace:
    """A trace: some numbers of its header, and its samples."""

    def __init__(self, inline, crossline, samples, offset=0, x=0, y=0):
        self.inline, self.crossline, self.offset = inline, crossline, offset
        self.x, self.y, self.scalar = x, y, -100
        self.sequence = self.delay = self.units = 0
        self.record = self.in_record = self.group_x = self.group_y = 0
        self.interval = INTERVAL
        self.samples = samples
        self.told = len(samples)
        self.name = bytes(8)

    def copy(self):
        """The same trace once more."""
        made = Trace(0, 0, list(self.samples))
        made.__dict__.update(self.__dict__, samples=list(self.samples))
        return made


class Survey:
    """A file that is being made."""

    def __init__(self, traces):
        self.traces = traces
        self.big, self.major, self.form, self.fixed = True, 1, 3, True
        self.extensions = 0
        self.counted = None
        self.lines_without_c = 0
        self.script = ["problems", "survey"]
        self.words = []
        self.number()

    def number(self):
        """Counts the traces up, as a sound file has it."""
        for position, trace in enumerate(self.traces, 1):
            trace.sequence = position
        return self


def noise(chance, samples=SAMPLES, loudest=1000):
    """Samples of one trace, some of them of half the amount at least."""
    made = [chance.randint(-loudest, loudest) for _ in range(samples)]
    made[chance.randrange(samples)] = chance.choice([-1, 1]) * chance.randint(loudest // 2, loudest)
    return made


def grid(chance, inlines, crosslines, offsets=(0,), turned=0.0):
    """A trace for each inline, crossline and offset, with positions in centimetres."""
    traces = []
    for inline in inlines:
        for crossline in crosslines:
            x = 45000000 + int(2500 * (crossline + turned * inline))
            y = 680000000 + int(2500 * (inline - turned * crossline))
            for offset in offsets:
                traces.append(Trace(inline, crossline, noise(chance), offset, x, y))
    return traces


def stack(chance):
    """A small volume behind the stack."""
    return Survey(grid(chance, range(101, 111), range(201, 221)))


# ---- sound files


def gaps_at_rim(chance):
    """The corners were not shot."""
    made = stack(chance)
    made.traces = [t for t in made.traces if 8 < t.inline - 101 + t.crossline - 201 < 22]
    return made.number()


def gaps_inside(chance):
    """A platform stood in the middle."""
    made = stack(chance)
    hole = (range(104, 107), range(208, 213))
    made.traces = [t for t in made.traces if t.inline not in hole[0] or t.crossline not in hole[1]]
    return made.number()


def steps_of_2_and_4(chance):
    """Each second inline and each fourth crossline."""
    return Survey(grid(chance, range(100, 120, 2), range(1000, 1080, 4)))


def rotated(chance):
    """The lines stand askew to the coordinates."""
    return Survey(grid(chance, range(1, 11), range(1, 21), turned=0.577))


def local_origin(chance):
    """The coordinates count from the first trace."""
    made = stack(chance)
    first = made.traces[0]
    left, low = first.x, first.y
    for trace in made.traces:
        trace.x, trace.y = trace.x - left, trace.y - low
    return made


def no_coordinates(chance):
    """No trace has a position."""
    made = stack(chance)
    for trace in made.traces:
        trace.x = trace.y = trace.scalar = 0
    return made


def straight_line(chance):
    """One line of a 2-D survey."""
    return Survey(grid(chance, [1], range(1, 121)))


def before_stack(chance):
    """Gathers of all offsets, whose number falls at both ends of a 2-D line."""
    made = Survey(grid(chance, [1], range(1, 41), range(100, 700, 100)))
    made.traces = [t for t in made.traces if t.offset <= 100 * min(t.crossline, 41 - t.crossline)]
    return made.number()


def shots(chance):
    """Shots without numbers of a survey."""
    traces = []
    for shot in range(1, 9):
        for channel in range(1, 25):
            trace = Trace(0, 0, noise(chance), 150 + 25 * channel)
            trace.record, trace.in_record = 1000 + shot, channel
            trace.group_x = 45000000 + 5000 * shot - 2500 * channel
            trace.group_y = 680000000 + 10 * channel
            traces.append(trace)
    return Survey(traces)


def mapped_shots(chance):
    """Shots, where the script says which numbers are theirs."""
    made = shots(chance)
    made.script = ["map inline field_record", "map crossline trace_in_record", "map x group_x"]
    made.script += ["map y group_y", "problems", "survey"]
    return made


def muted_tops(chance):
    """The first samples are zero."""
    made = stack(chance)
    for trace in made.traces:
        trace.samples[:8] = [0] * 8
    return made


def no_traces(chance):
    """A file that ends behind its headers."""
    return Survey([])


def one_trace(chance):
    """A file of one trace."""
    return Survey([Trace(7, 8, noise(chance), 0, 100, 200)])


def own_lengths(chance):
    """Each trace has its own number of samples."""
    made = stack(chance)
    made.fixed = False
    for trace in made.traces:
        trace.samples = noise(chance, chance.randint(2, 20))
        trace.told = len(trace.samples)
    return made


def revision_2(chance):
    """Little-endian, with a header extension, the number of traces and names of headers."""
    made = stack(chance)
    made.big, made.major, made.form, made.extensions = False, 2, 2, 1
    made.counted = len(made.traces)
    for trace in made.traces:
        trace.name = b"SEG00000"
    return made


def floats(chance):
    """Samples of IEEE floats."""
    made = stack(chance)
    made.form, made.words = 5, ["--floats"]
    return made


SOUND = [stack, gaps_at_rim, gaps_inside, steps_of_2_and_4, rotated, local_origin, no_coordinates,
         straight_line, before_stack, mapped_shots, muted_tops, no_traces, one_trace, own_lengths,
         revision_2, floats]


# ---- damages: each changes a survey


def some(chance, made, share):
    """So many of a hundred traces, one at least."""
    return chance.sample(made.traces, max(1, len(made.traces) * share // 100))


def wrong_line(chance, made):
    """A trace has the number of the next inline."""
    made.traces[chance.randrange(len(made.traces) // 2)].inline += 1


def shifted_block(chance, made):
    """The crosslines of ten traces are one too high."""
    first = chance.randrange(0, len(made.traces) - 20, 20)
    for trace in made.traces[first + 3:first + 13]:
        trace.crossline += 1


def doubled_block(chance, made):
    """Twenty traces stand twice, one block behind the other."""
    first = chance.randrange(20, len(made.traces) - 40)
    block = [trace.copy() for trace in made.traces[first:first + 20]]
    made.traces[first + 20:first + 20] = block


def left_out(chance, made):
    """A trace is gone, and those behind it keep their numbers."""
    del made.traces[chance.randrange(1, len(made.traces) - 1)]


def missing_inline(chance, made):
    """An inline is gone, neither the first nor the last."""
    gone = chance.choice(sorted({trace.inline for trace in made.traces})[1:-1] or [None])
    made.traces = [trace for trace in made.traces if trace.inline != gone]
    made.number()


def missing_crosslines(chance, made):
    """Two crosslines are gone, with one between them."""
    among = sorted({trace.crossline for trace in made.traces})
    gone = chance.randrange(1, max(2, len(among) - 3))
    made.traces = [trace for trace in made.traces if trace.crossline not in among[gone:gone + 3:2]]
    made.number()


def flipped_scalar(chance, made):
    """One trace of a hundred has the scalar with the other sign."""
    for trace in some(chance, made, 1):
        trace.scalar = -trace.scalar


def unknown_scalar(chance, made):
    """A scalar that is none."""
    chance.choice(made.traces).scalar = 7


def at_zero(chance, made):
    """Five traces of a hundred lost their position."""
    for trace in some(chance, made, 5):
        trace.x = trace.y = 0


def delayed(chance, made):
    """Some traces were recorded from another time on."""
    for trace in some(chance, made, 8):
        trace.delay = 120


def far_inline(chance, made):
    """A trace has a digit too many in its inline."""
    chance.choice(made.traces).inline += 90000


def far_crossline(chance, made):
    """Three traces have crosslines far below the others."""
    for number, trace in enumerate(chance.sample(made.traces, 3)):
        trace.crossline = -2147483648 + number


def uneven_fold(chance, made):
    """A few cells have one trace more, of another offset."""
    for _ in range(4):
        more = chance.choice(made.traces).copy()
        more.offset += 1000 + len(made.traces)
        made.traces.append(more)
    made.number()


def moved_cell(chance, made):
    """A trace stands far from its neighbours."""
    chance.choice(made.traces).x += 1000000


def shared_cell(chance, made):
    """A trace has the position of one that is far from it."""
    trace, other = made.traces[chance.randrange(40)], made.traces[chance.randrange(100, 140)]
    trace.x, trace.y = other.x, other.y


def dead(chance, made):
    """Some traces are of one value."""
    for trace in some(chance, made, 3):
        trace.samples = [0] * len(trace.samples)
    chance.choice(made.traces).samples = [5] * SAMPLES


def spike(chance, made):
    """A sample is far too great."""
    samples = chance.choice(made.traces).samples
    samples[chance.randrange(len(samples))] = 2000000


def wrong_interval(chance, made):
    """Some traces tell another sample interval."""
    for trace in some(chance, made, 4):
        trace.interval = INTERVAL // 2


def wrong_counts(chance, made):
    """Some traces tell another number of samples."""
    for trace in some(chance, made, 4):
        trace.told = SAMPLES + 1


def other_units(chance, made):
    """Some coordinates are in seconds of arc."""
    for trace in some(chance, made, 4):
        trace.units = 2


def wrong_total(chance, made):
    """The binary header tells another number of traces."""
    made.counted = len(made.traces) + chance.randint(1, 99)


def lost_text(chance, made):
    """Lines of the textual header do not begin with a C."""
    made.lines_without_c = chance.randint(1, 40)


def unknown_name(chance, made):
    """The name of a trace's header is none that is known."""
    for trace in some(chance, made, 2):
        trace.name = b"SEG00001"


# Each damage of a whole file, with what the format has to be, and the codes that are told of it.
DAMAGES = [
    (wrong_line, {}, "F6 S9 S10"), (shifted_block, {}, "F6 S9 S10"),
    (doubled_block, {}, "F1 F6 S9"), (moved_cell, {}, "S10"), (shared_cell, {}, "S10 S11"),
    (left_out, {}, "F1"), (missing_inline, {}, "S7"), (missing_crosslines, {}, "S8"),
    (flipped_scalar, {}, "S3 S10"), (unknown_scalar, {}, "F4 S3 S10"), (at_zero, {}, "S2"),
    (delayed, {}, "S4"), (far_inline, {}, "S5"), (far_crossline, {}, "S6"),
    (uneven_fold, {}, "S9"), (dead, {}, "S12"), (spike, {"form": 2}, "S13"),
    (wrong_interval, {}, "F3"), (wrong_counts, {}, "F2"), (other_units, {}, "F5"),
    (wrong_total, {"major": 2}, "F7"), (lost_text, {}, "F8"), (unknown_name, {"major": 2}, "F9"),
]


# ---- at a bound: on one side it is told, on the other not


def loud(chance, times, more):
    """A trace so many times louder than the others, and a bit more."""
    made = Survey(grid(chance, [1], range(1, 8)))
    made.form, made.fixed = 2, False
    for place, trace in enumerate(made.traces):
        trace.samples = [0, -(20 + place // 4), 3]
    made.traces[-1].samples = [0, -(20 * times + more), 1]
    for trace in made.traces:
        trace.told = 3
    return made


def lower_median(chance):
    """Of four amounts the lower one in the middle tells which is loud."""
    made = loud(chance, 100, 1)
    made.traces = made.traces[:4]
    for trace, amount in zip(made.traces, [10, 2000, 10, 50]):
        trace.samples = [0, amount, -1]
    return made.number()


def loudest(chance):
    """A trace has the least of all samples, whose amount no sample has."""
    made = loud(chance, 100, 0)
    made.form = 9
    made.traces[2].samples = [-(1 << 63), (1 << 63) - 1, 0]
    return made


def lines(chance, numbers):
    """A trace for each of these inlines and crosslines 1 and 2."""
    return Survey(grid(chance, numbers, [1, 2]))


def folds(chance, uneven):
    """Twenty cells, of which so many have another fold."""
    made = Survey(grid(chance, [1, 2], range(1, 11)))
    for number in range(uneven):
        more = made.traces[3 * number].copy()
        more.offset = 500
        made.traces.append(more)
    return made.number()


def zeros(chance, count):
    """Ten cells, of which so many are at 0."""
    made = Survey(grid(chance, [1], range(1, 11)))
    for trace in made.traces[:count]:
        trace.x = trace.y = 0
    return made


def scalars(chance, others):
    """Ten traces with the scalars -100 and, of so many, 1."""
    made = Survey(grid(chance, [1], range(1, 11)))
    for trace in made.traces[:others]:
        trace.scalar = 1
    return made


def uneven_line(chance, more):
    """A trace stands half a step and so many centimetres too far."""
    made = Survey(grid(chance, [1], range(1, 11)))
    made.traces[5].x += 1250 + more
    return made


def bend(chance, back):
    """A line turns by a right angle, and at its end back or not."""
    made = Survey(grid(chance, [1], range(1, 11)))
    for number, trace in enumerate(made.traces[5:]):
        trace.x, trace.y = made.traces[4].x, made.traces[4].y + 2500 * (number + 1)
    if back:
        made.traces[-1].x, made.traces[-1].y = made.traces[0].x, made.traces[0].y
    return made


def same_samples(chance, count):
    """A trace of so many samples of one value, with others."""
    made = Survey(grid(chance, [1], range(1, 6)))
    made.fixed = False
    made.traces[2].samples = [9] * count
    made.traces[2].told = count
    return made


def as_floats(made):
    """With samples of IEEE floats."""
    made.form, made.words = 5, ["--floats"]
    return made


def quiet(chance):
    """Most traces are of zeros alone, so that none of the others is loud."""
    made = Survey(grid(chance, [1], range(1, 8)))
    for trace in made.traces[1:5]:
        trace.samples = [0] * SAMPLES
    return made


def shots_at_zero(chance):
    """Shots, some of which lost their position."""
    made = shots(chance)
    for trace in made.traces:
        trace.x, trace.y = trace.group_x, trace.group_y
    made.traces[3].x = made.traces[3].y = 0
    return made


BOUNDS = [
    ("loud_not", lambda c: loud(c, 100, 0), ""), ("loud_just", lambda c: loud(c, 100, 1), "S13"),
    ("loudest", loudest, "S13"), ("lower_median", lower_median, "S13"),
    ("three_lines", lambda c: lines(c, [1, 2, 40]), "S5"),
    ("near_just", lambda c: lines(c, [1, 2, 3, 13]), "S7"),
    ("far_just", lambda c: lines(c, [1, 2, 3, 14]), "S5"),
    ("far_below", lambda c: lines(c, [-40, 2, 4, 6, 10]), "S5 S7"),
    ("no_multiple", lambda c: lines(c, [2, 4, 6, 9, 11]), ""),
    ("two_halves", lambda c: lines(c, [1, 2, 101, 102]), "S7"),
    ("two_lines", lambda c: lines(c, [1, 5000]), ""),
    ("fold_just", lambda c: folds(c, 2), "S9"), ("fold_not", lambda c: folds(c, 3), ""),
    ("zeros_half", lambda c: zeros(c, 5), ""), ("zeros_less", lambda c: zeros(c, 4), "S2"),
    ("zeros_two", lambda c: zeros(c, 2), "S2"), ("zeros_one", lambda c: zeros(c, 1), ""),
    ("scalars_half", lambda c: scalars(c, 5), "S3 S10"),
    ("scalars_most", lambda c: scalars(c, 9), "S3 S10"),
    ("jump_not", lambda c: uneven_line(c, 0), ""), ("jump_just", lambda c: uneven_line(c, 1), "S10"),
    ("bend", lambda c: bend(c, False), ""), ("bend_back", lambda c: bend(c, True), "S10 S11"),
    ("one_sample", lambda c: same_samples(c, 1), ""),
    ("two_samples", lambda c: same_samples(c, 2), "S12"),
    ("quiet", quiet, "S12"), ("shots_at_zero", shots_at_zero, "S1 S2"),
    ("floats_not", lambda c: as_floats(loud(c, 100, 0)), ""),
    ("floats_just", lambda c: as_floats(loud(c, 100, 1)), "S13"),
    ("one_float", lambda c: as_floats(same_samples(c, 1)), ""),
    ("two_floats", lambda c: as_floats(same_samples(c, 2)), "S12"),
]


# ---- bytes


def trace_bytes(made, trace):
    """A trace, in the byte order and the format of its file."""
    head = bytearray(240)
    sign = ">" if made.big else "<"
    places = [("i", 5, trace.sequence), ("i", 9, trace.record), ("i", 13, trace.in_record)]
    places += [("i", 37, trace.offset), ("h", 71, trace.scalar), ("i", 81, trace.group_x)]
    places += [("i", 85, trace.group_y), ("h", 89, trace.units), ("h", 109, trace.delay)]
    places += [("H", 115, trace.told), ("H", 117, trace.interval), ("i", 181, trace.x)]
    places += [("i", 185, trace.y), ("i", 189, trace.inline), ("i", 193, trace.crossline)]
    for kind, place, number in places:
        struct.pack_into(sign + kind, head, place - 1, number)
    head[232:240] = trace.name
    return bytes(head) + bytes(240 * made.extensions) + sample_bytes(made, trace.samples)


def sample_bytes(made, samples):
    """The samples; a number past the greatest or the least of the format is that one."""
    if made.form == 5:
        return struct.pack(f"{'>' if made.big else '<'}{len(samples)}f", *samples)
    size, signed = WHOLE[made.form]
    least = -(1 << 8 * size - 1) if signed else 0
    greatest = least + (1 << 8 * size) - 1
    order = "big" if made.big else "little"
    within = (min(max(one, least), greatest) for one in samples)
    return b"".join(one.to_bytes(size, order, signed=signed) for one in within)


def file_bytes(made):
    """The whole file."""
    sign = ">" if made.big else "<"
    line = b"\xc3" + b"\x40" * 79
    bad = made.lines_without_c
    binary = bytearray(400)
    places = [("H", 3217, INTERVAL), ("H", 3221, SAMPLES), ("H", 3225, made.form)]
    places += [("H", 3503, int(made.fixed))]
    if made.major == 2:
        places += [("I", 3297, 0x01020304), ("i", 3507, made.extensions)]
        places += [("Q", 3513, made.counted or 0)]
    for kind, place, number in places:
        struct.pack_into(sign + kind, binary, place - 3201, number)
    binary[3501 - 3201] = made.major
    text = b"\x40" * (80 * bad) + line * (40 - bad)
    return text + bytes(binary) + b"".join(trace_bytes(made, trace) for trace in made.traces)


def write(folder, name, made):
    """The file, its script and its options."""
    base = os.path.join(folder, name)
    with open(base + ".sgy", "wb") as file:
        file.write(file_bytes(made))
    with open(base + ".txt", "w", encoding="utf-8") as file:
        file.write("".join(line + "\n" for line in made.script))
    if made.words:
        with open(base + ".words", "w", encoding="utf-8") as file:
            file.write(" ".join(made.words))


# ---- by chance


def any_edit(chance, count):
    """An edit of a volume of about so many traces; some are refused."""
    first = chance.randint(1, max(1, count))
    last = min(count, first + chance.choice([0, 0, 1, 5, 30]))
    field = chance.choice(["inline", "crossline", "x", "y", "offset", "scalar", "delay"])
    number = chance.choice([0, 1, -100, 7, 102, 5000, 2000000000])
    return chance.choice([
        f"set {first} {field} {number}", f"renumber {first} {last} {field} {number} 0",
        f"renumber {first} {last} {field} {chance.randint(1, 300)} {chance.choice([1, 2, -1])}",
        f"copy {first} {last}", f"delete {first}", f"move {first} {last}", f"blank {first}",
        f"patch {first} 0 {chance.choice([0, 127, 30000, 2000000, -2000000])}",
        f"sort 1 {count} crossline inline", "renumber 1 " + f"{count} sequence_file 1 1",
        f"set {first} samples {chance.choice([0, 3, SAMPLES])}", "bin interval 2000",
        f"bin trace_count {count}", "text 4 no c", "map inline field_record", "map inline @189:4",
        "map x group_x", "map scalar @69:2", f"resize {first} {chance.choice([0, 1, 2, 40])}",
        f"set {first} @233:8 1", f"set {first} @89:2 2",
    ])


def any_frame(chance, made):
    """Any byte order, revision, and format."""
    made.big = chance.random() < 0.6
    made.major = chance.choice([0, 1, 1, 2, 2])
    made.form = chance.choice([2, 3, 3, 5, *WHOLE])
    made.words = []
    if made.form == 5:
        made.words.append(chance.choice(["--floats", "--opaque-samples"]))
    elif chance.random() < 0.1:
        made.words.append("--opaque-samples")
    if made.major != 2 and not made.big:
        made.words += ["--order", "little"]
    if made.major == 0 and made.fixed:
        made.words.append("--fixed")
    made.extensions = chance.choice([0, 1]) if made.major == 2 and made.fixed else 0


def any_survey(chance):
    """A sound survey of any kind, with up to four damages, and a script of edits and questions."""
    loudest = chance.choice([1, 3, 100, 1000])
    made = chance.choice(SOUND + [shots, zeros_and_lines])(chance)
    any_frame(chance, made)
    for trace in made.traces:
        if loudest < 1000:
            trace.samples = noise(chance, len(trace.samples), loudest)
    if len(made.traces) > 100:
        for damage, _, _ in chance.choices(DAMAGES, k=chance.choice([0, 1, 1, 2, 3, 4])):
            if made.fixed or damage not in (wrong_counts, dead):
                damage(chance, made)
    for _ in range(chance.randint(1, 3)):
        count = len(made.traces)
        made.script += [any_edit(chance, count) for _ in range(chance.randint(1, 6))]
        made.script.append("problems")
    return made


def zeros_and_lines(chance):
    """A few traces with any of a few numbers."""
    numbers = [1, 2, 3, 5, 30, 31, 32, 300]
    traces = [
        Trace(chance.choice(numbers), chance.choice(numbers), noise(chance, chance.randint(1, 4)))
        for _ in range(chance.randint(1, 40))
    ]
    made = Survey(traces)
    made.fixed = False
    for trace in traces:
        trace.x = trace.y = chance.choice([0, 1, 2])
        trace.scalar = chance.choice([1, 1, -100])
        trace.delay = chance.choice([0, 0, 8])
    return made


def known(chance):
    """The files whose problems are known: name, survey and codes."""
    for sound in SOUND:
        yield "sound_" + sound.__name__, sound(chance), ""
    yield "damaged_no_survey", shots(chance), "S1"
    for damage, frame, codes in DAMAGES:
        made = stack(chance)
        made.__dict__.update(frame)
        damage(chance, made)
        yield "damaged_" + damage.__name__, made, codes
    for name, bound, codes in BOUNDS:
        yield "bound_" + name, bound(chance), codes


def main(folder, seed, count):
    """By the words of the command line."""
    for name, made, codes in known(random.Random(int(seed))):
        write(folder, name, made)
        print(name, codes)
    for number in range(int(count)):
        made = any_survey(random.Random(int(seed) * 1000 + number))
        write(folder, f"random_{number}", made)


if __name__ == "__main__":
    if len(sys.argv) != 4:
        sys.exit(__doc__)
    main(*sys.argv[1:])
