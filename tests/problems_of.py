#!/usr/bin/env python3
"""What `problems` and `survey` have to answer, worked out apart from the program, by the words of
docs/MANUAL.md.

The numbers come from other answers of a program (`info`, `faults`, `table` and `stat`); what they
mean is decided here. Only the library of Python 3 is needed.

usage: problems_of.py PROGRAM SCRIPT FILE [WORD..]
       problems_of.py PROGRAM FOLDER

The first prints the answers to the lines of SCRIPT over FILE, read with the options WORD: those to
`problems` and `survey` are worked out here, all others are the program's. The second does so for
each NAME.sgy in FOLDER that has a script NAME.txt, with the options in NAME.words where it is
there, and writes the answers to NAME.wanted.
"""

import itertools
import math
import os
import struct
import subprocess
import sys
from collections import Counter
from fractions import Fraction

FAULTS = ("F1", "F2", "F3", "F4", "F5", "F6", "F9")
TOLD_RUNS = 10
TOLD_PAIRS = 10
FAR_PARTS = 2
FAR_STEPS = 10
LOUD_TIMES = 100
AT_ONCE = 500


class Session:
    """A program that answers line by line."""

    def __init__(self, program, file, words):
        command = [program, file, *words, "--session", "--quiet"]
        pipe = subprocess.PIPE
        self.run = subprocess.Popen(command, stdin=pipe, stdout=pipe, stderr=subprocess.DEVNULL)
        self.refusal = self.ask([""])[0]

    def ask(self, lines):
        """The answers to these lines, each a list of lines."""
        answers = []
        for first in range(0, len(lines), AT_ONCE):
            part = lines[first:first + AT_ONCE]
            try:
                self.run.stdin.write("".join(line + "\n" for line in part).encode())
                self.run.stdin.flush()
            except BrokenPipeError:
                pass
            answers += [self._answer() for _ in part]
        return answers

    def _answer(self):
        told = []
        for line in self.run.stdout:
            line = line.decode().rstrip("\n")
            if not line:
                return told
            told.append(line)
        return told

    def close(self):
        """Ends the program."""
        self.run.communicate()


def commonest(numbers):
    """The number that most have, of several the least; None of no numbers."""
    counts = Counter(numbers)
    return min(counts, key=lambda number: (-counts[number], number)) if counts else None


def steps(lines):
    """The distances of neighbours, of numbers that rise."""
    return [high - low for low, high in zip(lines, lines[1:])]


def group(code, marks):
    """The lines of a problem that these traces have: their positions, rising, with their facts."""
    if not marks:
        return []
    runs = []
    for trace, facts in marks:
        if runs and runs[-1][1] + 1 == trace and runs[-1][2] == facts:
            runs[-1][1] = trace
        else:
            runs.append([trace, trace, facts])
    told = [f"run {first} {last} {facts}".rstrip() for first, last, facts in runs[:TOLD_RUNS]]
    return [f"problem {code} traces {len(marks)} runs {len(runs)}", *told]


def fault_marks(faults):
    """The faults of the traces, by code, and the lines of those of the headers."""
    marks = {code: [] for code in FAULTS}
    headers = {}
    for code, *words in (line.split() for line in faults):
        if code == "F7":
            headers[code] = ["problem F7 count {} traces {}".format(words[1], words[3])]
        elif code == "F8":
            headers[code] = [f"problem F8 lines {words[1]}"]
        else:
            trace, facts = int(words[1]), " ".join(words[2:])
            if code == "F1":
                facts = f"shift {int(words[3]) - trace}"
            elif code == "F6":
                facts = f"before {trace - int(words[3])}"
            elif code == "F9":
                facts = ""
            marks[code].append((trace, facts))
    return marks, headers


def fault_groups(faults, without_survey):
    """F1 to F9."""
    marks, headers = fault_marks(faults)
    if without_survey:
        marks["F6"] = []
    groups = {code: group(code, marks[code]) for code in FAULTS}
    groups.update(headers)
    return [line for code in sorted(groups) for line in groups[code]]


def no_survey(cells):
    """S1: all traces, two or more, have one inline and crossline."""
    if len(cells) < 2 or len(set(cells)) > 1:
        return []
    return ["problem S1 traces {} inline {} crossline {}".format(len(cells), *cells[0])]


def no_position(cells, places, without_survey):
    """S2: at 0, where most traces lie elsewhere, unless they are one cell, the local origin."""
    at_zero = [trace for trace, place in enumerate(places, 1) if place == (0, 0)]
    elsewhere = len(places) - len(at_zero)
    spread = without_survey or len({cells[trace - 1] for trace in at_zero}) > 1
    most = 2 * elsewhere > len(places)
    return group("S2", [(trace, "") for trace in at_zero]) if most and spread else []


def unusual(code, word, numbers):
    """S3, S4: the traces that have another number than most."""
    usual = commonest(numbers)
    marks = [(trace, f"{word} {number} usual {usual}") for trace, number in enumerate(numbers, 1)]
    return group(code, [mark for mark, number in zip(marks, numbers) if number != usual])


def near_lines(numbers):
    """The lines that are not far from the others, rising."""
    lines = sorted(set(numbers))
    if len(lines) < 3:
        return lines
    widest = FAR_STEPS * commonest(steps(lines))
    parts = [[lines[0]]]
    for line, step in zip(lines[1:], steps(lines)):
        if step > widest:
            parts.append([])
        parts[-1].append(line)
    traces = Counter(numbers)
    sizes = [sum(traces[line] for line in part) for part in parts]
    most = max(sizes)
    far = len(numbers) - most
    return parts[sizes.index(most)] if 2 * far < len(numbers) else lines


def far_lines(code, word, numbers):
    """S5, S6: the traces whose line is far from the others."""
    near = set(near_lines(numbers))
    marks = [(trace, f"{word} {number}") for trace, number in enumerate(numbers, 1)]
    return group(code, [mark for mark, number in zip(marks, numbers) if number not in near])


def missing_lines(code, numbers):
    """S7, S8: the lines that are missing between others that are not far."""
    near = near_lines(numbers)
    step = commonest(steps(sorted(set(numbers))))
    gaps = [
        (low + step, high - step, (high - low) // step - 1)
        for low, high in zip(near, near[1:])
        if high - low > step and (high - low) % step == 0
    ]
    if not gaps:
        return []
    told = [f"run {first} {last} step {step}" for first, last, _ in gaps[:TOLD_RUNS]]
    missing = sum(count for _, _, count in gaps)
    return [f"problem {code} missing {missing} runs {len(gaps)}", *told]


def uneven_fold(cells):
    """S9: a few cells have another fold."""
    folds = list(Counter(cells).values())
    usual = commonest(folds)
    alike = folds.count(usual)
    if alike == len(folds) or 10 * alike < 9 * len(folds):
        return []
    less = sum(fold < usual for fold in folds)
    numbers = len(folds), usual, less, len(folds) - alike - less, min(folds), max(folds)
    return ["problem S9 cells {} usual {} less {} more {} least {} greatest {}".format(*numbers)]


class Survey:
    """The cells of traces, each with its first trace and where that stands: nowhere at 0."""

    def __init__(self, cells, places, shots):
        self.traces, self.places, self.shots = {}, {}, shots
        for trace, (cell, place) in enumerate(zip(cells, places), 1):
            if cell not in self.traces:
                self.traces[cell] = trace
                if place != (0, 0):
                    self.places[cell] = place
        self.inlines, self.crosslines = [inline for inline, _ in cells], [line for _, line in cells]

    def pairs(self, inline_step, crossline_step):
        """The differences of positions of the cells so far apart, by the first of the two."""
        differences = {}
        for (inline, crossline), (x, y) in self.places.items():
            other = self.places.get((inline + inline_step, crossline + crossline_step))
            if other:
                differences[inline, crossline] = other[0] - x, other[1] - y
        return differences

    def along(self, numbers, across):
        """The step of these lines, as a distance of cells; None of one line."""
        step = commonest(steps(sorted(set(numbers))))
        return step and ((0, step) if across else (step, 0))

    def apart(self):
        """The distances of cells on neighbouring inlines and on neighbouring crosslines."""
        return self.along(self.inlines, False), self.along(self.crosslines, True)


def is_far(difference, other):
    """A coordinate differs by more than half of the greater amount of the other's two."""
    widest = max(map(abs, other))
    return any(FAR_PARTS * abs(one - two) > widest for one, two in zip(difference, other))


def jumps(survey):
    """S10: pairs of neighbouring cells whose positions differ otherwise than most, and than those
    beside them on their line."""
    count, found = 0, []
    for apart in survey.apart()[:1 if survey.shots else 2]:
        pairs = survey.pairs(*apart) if apart else {}
        count += len(pairs)
        usual = commonest(pairs.values())
        for (inline, crossline), difference in pairs.items():
            before = pairs.get((inline - apart[0], crossline - apart[1]))
            second = inline + apart[0], crossline + apart[1]
            others = [other for other in (usual, before, pairs.get(second)) if other]
            if usual != (0, 0) and all(is_far(difference, other) for other in others):
                found.append(sorted((survey.traces[inline, crossline], survey.traces[second])))
    if not found:
        return []
    found.sort(key=lambda pair: pair[::-1])
    told = [f"jump {earlier} {later}" for earlier, later in found[:TOLD_PAIRS]]
    return [f"problem S10 pairs {count} jumps {len(found)}", *told]


def shared_positions(survey):
    """S11: cells that stand where a cell before them does."""
    first, found = {}, []
    for trace, cell in sorted((trace, cell) for cell, trace in survey.traces.items()):
        if cell in survey.places:
            earlier = first.setdefault(survey.places[cell], trace)
            if earlier != trace:
                found.append((trace, earlier))
    if survey.shots or not found:
        return []
    told = [f"run {trace} {earlier}" for trace, earlier in found[:TOLD_PAIRS]]
    return [f"problem S11 cells {len(found)}", *told]


def dead(ranges):
    """S12: two or more samples that are numbers, all the same; -0 is 0."""
    marks = [
        (trace, f"value {told.least.replace('-0', '0') if told.low == 0 else told.least}")
        for trace, told in enumerate(ranges, 1)
        if told and told.numbers > 1 and told.low == told.high
    ]
    return group("S12", marks)


def loud(ranges):
    """S13: the greatest amount is more than 100 times the lower median of them all."""
    amounts = {
        trace: max((abs(told.low), told.least), (abs(told.high), told.greatest))
        for trace, told in enumerate(ranges, 1) if told
    }
    rising = sorted(amount for amount, _ in amounts.values())
    median = rising[(len(rising) - 1) // 2] if rising else 0
    if median == 0:
        return []
    return group("S13", [
        (trace, f"amount {word.lstrip('-')}")
        for trace, (amount, word) in amounts.items() if amount > LOUD_TIMES * median
    ])


def exact(word, narrow):
    """The value that the word of a sample says, exactly; ``narrow``: that of four bytes (IEEE)."""
    value = float(word)
    if math.isinf(value):
        return value
    if narrow:
        (value,) = struct.unpack("f", struct.pack("f", value))
    return Fraction(value)


class Range:
    """The least and the greatest sample of a trace, as values and as words, and how many are
    numbers."""

    def __init__(self, words, narrow):
        floats = len(words) > 9
        self.least, self.greatest = words[2], words[4]
        self.numbers = int(words[8]) - (int(words[10]) if floats else 0)
        ends = (self.least, self.greatest)
        self.low, self.high = (exact(word, narrow) if floats else int(word) for word in ends)


def has_amount(words):
    """Whether a trace counts: it has samples, and of floats two or more that are numbers."""
    return len(words) == 9 or len(words) == 11 and int(words[8]) - int(words[10]) > 1


def sample_ranges(session, count):
    """The range of each trace, None where it does not count; and no list where the samples have no
    value."""
    told = [answer[0] for answer in session.ask([f"stat {trace}" for trace in range(1, count + 1)])]
    if any(line.startswith("refused") for line in told):
        return []
    narrow = " format 5 " in session.ask(["info"])[0][0]
    return [Range(w, narrow) if has_amount(w) else None for w in (line.split() for line in told)]


def scaled(number, scalar):
    """A coordinate under its scalar: times it, or where it is negative over its amount."""
    return number * Fraction(scalar) if scalar > 0 else Fraction(number, -scalar or 1)


def survey_of(rows, fields):
    """The survey of rows of inline, crossline, x, y and scalar, under the answer to `fields`."""
    places = dict(line.split()[1:3] for line in fields[1:])
    shots = places["inline"].startswith("@9:") and places["crossline"].startswith("@13:")
    where = [(scaled(row[2], row[4]), scaled(row[3], row[4])) for row in rows]
    return Survey([row[:2] for row in rows], where, shots)


def span(numbers):
    """The first and the last line that is not far from the others, the step, and how many lines
    there are from one to the other."""
    near = near_lines(numbers)
    step = commonest(steps(sorted(set(numbers))))
    return near[0], near[-1], step, (near[-1] - near[0]) // step + 1 if step else 1


def grid(session):
    """The line of `survey`, of the volume as it is now in the session."""
    (counted,), fields = session.ask(["count", "fields"])
    count = int(counted.split()[1])
    if not count:
        return ["survey none"]
    (table,) = session.ask([f"table 1 {count} inline crossline x y scalar"])
    survey = survey_of([tuple(map(int, line.split()[1:])) for line in table[1:]], fields)
    told, sizes, spans = ["survey"], [], []
    for word, numbers in ("inline", survey.inlines), ("crossline", survey.crosslines):
        first, last, step, size = span(numbers)
        told.append(f"{word} {first} {last} step {step or 'none'}")
        sizes.append(size)
        spans.append((first, last))
    for word, apart in zip(("inline", "crossline"), survey.apart()):
        usual = commonest(survey.pairs(*apart).values()) if apart else None
        told.append(f"along_{word} {' '.join(map(str, usual)) if usual else 'none'}")
    inside = sum(
        all(first <= line <= last for line, (first, last) in zip(cell, spans))
        for cell in survey.traces
    )
    told.append(f"cells {inside} of {sizes[0] * sizes[1]}")
    return [" ".join(told)]


def problems(session):
    """The lines of `problems`, of the volume as it is now in the session."""
    (counted,), faults, fields = session.ask(["count", "faults", "fields"])
    count = int(counted.split()[1])
    rows, ranges = [], []
    if count:
        (table,) = session.ask([f"table 1 {count} inline crossline x y scalar @109:2"])
        rows = [tuple(map(int, line.split()[1:])) for line in table[1:]]
        ranges = sample_ranges(session, count)
    cells = [row[:2] for row in rows]
    inlines = [row[0] for row in rows]
    crosslines = [row[1] for row in rows]
    surveyless = no_survey(cells)
    lines = fault_groups(faults[1:], surveyless)
    lines += surveyless
    lines += no_position(cells, [row[2:4] for row in rows], surveyless)
    lines += unusual("S3", "scalar", [row[4] for row in rows])
    lines += unusual("S4", "delay", [row[5] for row in rows])
    lines += far_lines("S5", "inline", inlines) + far_lines("S6", "crossline", crosslines)
    lines += missing_lines("S7", inlines) + missing_lines("S8", crosslines)
    lines += uneven_fold(cells)
    if not surveyless:
        survey = survey_of(rows, fields)
        lines += jumps(survey) + shared_positions(survey)
    lines += dead(ranges) + loud(ranges)
    return [f"problems {sum(line.startswith('problem ') for line in lines)}", *lines]


def answered(session, line):
    """The answer to a line of a script: a list of lines."""
    words = line.split()
    worked_out = {"problems": problems, "survey": grid}.get(words[0]) if words else None
    if not worked_out:
        return session.ask([line])[0]
    return worked_out(session) if len(words) == 1 else ["refused S02 words"]


def script_answers(program, script, file, words):
    """The answers to the lines of a script over a file."""
    session = Session(program, file, words)
    with open(script, encoding="utf-8") as lines:
        asked = [line.rstrip("\n") for line in lines]
    told = [session.refusal] if session.refusal else [answered(session, line) for line in asked]
    session.close()
    return "".join(line + "\n" for line in itertools.chain.from_iterable(told))


def read_words(path):
    """The options in a file, none where there is no such file."""
    if not os.path.exists(path):
        return []
    with open(path, encoding="utf-8") as lines:
        return lines.read().split()


def whole_folder(program, folder):
    """The answers to each script of a folder, beside it."""
    for name in sorted(os.listdir(folder)):
        base, ending = os.path.splitext(os.path.join(folder, name))
        if ending == ".sgy" and os.path.exists(base + ".txt"):
            words = read_words(base + ".words")
            told = script_answers(program, base + ".txt", base + ".sgy", words)
            with open(base + ".wanted", "w", encoding="utf-8") as wanted:
                wanted.write(told)


def main(words):
    """By the words of the command line."""
    if len(words) == 2 and os.path.isdir(words[1]):
        whole_folder(*words)
    elif len(words) > 2:
        sys.stdout.write(script_answers(words[0], words[1], words[2], words[3:]))
    else:
        sys.exit(__doc__)


if __name__ == "__main__":
    main(sys.argv[1:])
