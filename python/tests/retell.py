"""What Python shows of a volume, written as the program would answer it."""

from segywb.fields import BINARY_NAMES, TRACE_NAMES


def value_of(v, value):
    """A sample as the program prints it."""
    if not v.has_floats:
        return str(value)
    from float_words import word_of  # which needs numpy

    return word_of(5 if v.sample_type == "f4" else 6, value)


def sum_of(value):
    """The sum of floats as the program prints it, of every format with 8 bytes."""
    from float_words import word_of

    return word_of(6, value)


def numbers(v, told, first):
    """Statistics as the program tells them."""
    if told is None:
        return f"{first} none"
    if v.has_floats:
        words = ["none" if one is None else value_of(v, one) for one in told[:2]]
        total = [] if first == "totals" else ["sum", "none" if told.sum is None else sum_of(told.sum)]
        return " ".join([first, "least", words[0], "greatest", words[1], *total, "samples", str(told.samples), "nans", str(told.nans)])
    return f"{first} least {told.least} greatest {told.greatest} sum {told.sum} samples {told.samples}"


def listed(head, rows):
    """A list with its count."""
    rows = list(rows)
    return "\n".join([f"{head} {len(rows)}", *rows])


def whole_file(v):
    """Questions about the file, each with the answer by what Python shows."""
    i = v.info
    yield "info", (
        f"info order {i.order} revision {i.revision} format {i.format} samples {i.samples} fixed {'yes' if i.fixed else 'no'} "
        f"extensions {i.extensions} blocks {i.blocks} trailer {i.trailer} traces {i.traces} bytes {i.bytes}"
        + ("" if i.tail is None else f" tail {i.tail}")
    )
    yield "count", f"traces {len(v)}"
    yield "fields", listed("fields", (f"field {name} {place}" for name, place in v.fields().items()))
    text = v.text
    for block in range(i.blocks + 1):
        yield f"code {block}", f"code {v.code(block)}"
        yield f"lines {block}", listed("lines", (f"line |{line}|" for line in v.lines(block)))
        for at in range(1, 41):
            yield f"line {block} {at}", f"line |{text[40 * block + at - 1]}|"
    yield "stanzas", listed("stanzas", (f"stanza {one.block} {one.name}" for one in v.stanzas()))
    for name in BINARY_NAMES:
        yield f"getbin {name}", f"value {v.getbin(name)}"


def facts(v, numbers):
    """Numbers by their words, as the program writes them."""
    return "".join(f" {word} {value_of(v, number) if isinstance(number, float) else number}" for word, number in numbers.items())


def problems(v):
    """Problems in the words of the program, from the parts that Python shows."""
    found = v.problems()
    made = [f"problems {len(found)}"]
    for one in found:
        traces = "" if one.traces is None else f" traces {one.traces}"
        runs = f" runs {one.runs}" if one.runs and one.code not in ("S10", "S11") else ""
        begins = "jump" if one.code == "S10" else "run"
        made.append(f"problem {one.code}{traces}{facts(v, one.facts)}{runs}")
        made += [f"{begins} {run.first} {run.last}{facts(v, run.facts)}" for run in one.first_runs]
    return "\n".join(made)


def survey(v):
    """The grid of the survey in the words of the program."""
    told = v.survey()
    if told is None:
        return "survey none"
    words = ["survey"]
    for name in ("inline", "crossline"):
        found = getattr(told, name)
        words += [name, found.first, found.last, "step", "none" if found.step is None else found.step]
    for name in ("along_inline", "along_crossline"):
        apart = getattr(told, name)
        words += [name, *(["none"] if apart is None else apart)]
    return " ".join(map(str, [*words, "cells", told.cells, "of", told.full]))


def reports(v):
    """Reports, each with the answer by what Python shows."""
    yield "totals", numbers(v, v.totals, "totals")
    for which in ("inline", "crossline", "offset", "x", "y"):
        found = v.range(which)
        yield f"range {which}", "range none" if found is None else f"range {found[0]} {found[1]}"
    yield "grid", listed("cells", (f"cell {i} {x} {fold}" for i, x, fold in v.grid.rows))
    yield "inlines", listed("inlines", (f"inline {i} {n}" for i, n in v.inlines().items()))
    yield "crosslines", listed("crosslines", (f"crossline {x} {n}" for x, n in v.crosslines().items()))
    yield "histogram", listed("histogram", (f"times {fold} {n}" for fold, n in v.histogram().items()))
    for k in (0, 1, 7):
        yield f"slice {k}", listed("slice", (f"row {i} {x} {p} {value_of(v, value)}" for i, x, p, value in v.slice(k).rows))
    yield "faults", listed("faults", (fault.text for fault in v.faults()))
    yield "problems", problems(v)
    yield "survey", survey(v)
    for i, x, fold in list(v.grid.rows)[:5]:
        yield f"fold {i} {x}", f"fold {v.fold(i, x)}"


def used(v):
    """What is found, and the extremes, each with the answer by what Python shows."""
    count = len(v)
    if not count:
        return
    for low, high in ((-5, 5), (0, 0), (-(2**31), 2**31), (7, -7)):
        found = v.find("crossline", low, high)
        yield f"find 1 {count} crossline {low} {high}", listed("found", (f"trace {p} {value}" for p, value in found))
    for first in sorted({1, (count + 1) // 2, count}):
        found = v.extremes(range(first, count + 1))
        yield f"extremes {first} {count}", listed("extremes", (f"field {name} {' '.join(map(str, four))}" for name, four in found.items()))


def traces(v):
    """Each trace: where it lies, its samples and its headers."""
    count = len(v)
    names = [name for name in [*TRACE_NAMES, *v.fields()] if v.info.extensions or not name.startswith("ext_")]
    headers = v.headers(*names)
    if count:
        rows = v.headers("inline", "interval", "@1:8")
        yield f"table 1 {count} inline interval @1:8", listed("table", (" ".join(map(str, [p, *row])) for p, row in enumerate(rows, 1)))
    where = v.positions()
    for p in range(1, count + 1):
        g = v.geometry(p)
        yield f"geometry {p}", f"geometry inline {g.inline} crossline {g.crossline} offset {g.offset} x {g.x} y {g.y}"
        assert tuple(where[p - 1])[:3] == (g.inline, g.crossline, g.offset)
        assert tuple(where[p - 1])[3:] == (float(g.x), float(g.y))
        yield f"stat {p}", numbers(v, v.stat(p), "stat")
        yield f"header {p}", listed("header", (f"field {name} {value}" for name, value in v.header(p).items()))
        for name, value in zip(names, headers[p - 1]):
            yield f"get {p} {name}", f"value {value}"
        for k, value in enumerate(v.samples(p)):
            assert v.sample(p, k) == value or value != value
            yield f"sample {p} {k}", f"value {value_of(v, value)}"


def everything(v):
    """All of it."""
    return [*whole_file(v), *reports(v), *used(v), *traces(v)]
