"""Every report, and that it answers behind edits as of the saved file that is loaded anew."""

from tables import lines, placed
from running import same

PLAIN = [
    "count", "grid", "inlines", "crosslines", "histogram", "survey", "range inline", "range crossline", "range offset", "range x", "range y",
    "totals", "faults", "problems", "fold 10 21", "fold 10 -1", "fold 170141183460469231731687303715884105727 0", "slice 0", "slice 1", "slice 2",
]
FACTS = [
    f"table all crossline where {condition}"
    for condition in ("sample_least < 0", "sample_greatest >= 5", "sample_least = sample_greatest", "sample_count > 2")
]
HEADERS = [
    "table 1 3 @5:4 @37:4 @71:2 @181:8 inline_number crossline_number samples", "table 1 1 ext_sequence_line", "find 1 3 @189:4 -100 100",
    "lines 0", "lines 1",
]


def every_report():
    """Each report that needs no trace, then geometry, stat and slices of the first traces."""
    traces = [f"{word} {number}" for number in range(7) for word in ("geometry", "stat")]
    return "".join(line + "\n" for line in PLAIN + traces + FACTS + HEADERS)


def check_reload(room, file, edits, options="", reports=None, refused=0):
    """After the edits, of which so many are refused, every report answers as it does of the saved file that is loaded anew; gives back how
    the run ended that loaded it."""
    words = options.split()
    reports = reports or every_report()
    name, _ = placed(room, file)
    edits = lines(edits, " ; ")
    done = room.ask(name, edits, *words)
    assert sum(line.startswith(b"refused ") for line in done.answers.splitlines()) == refused
    assert done.status == (1 if refused else 0)
    both = room.ask(name, edits + reports.encode(), "--out", "o.sgy", *words)
    assert same(both.answers[:len(done.answers)], done.answers)
    anew = room.ask("o.sgy", reports, *words)
    assert anew.answers != b""
    assert both.answers[len(done.answers):].decode().splitlines() == anew.answers.decode().splitlines()
    return anew
