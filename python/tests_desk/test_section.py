"""Sections: which traces and samples are shown, and what a pixel holds."""

import json
import math
import struct
import urllib.request

import files
import numpy as np
import pytest
from test_guard import asked, ready
from test_maps import loaded
from test_page import survey

import segywb
from segywb import gains
from segywb.desk import sections
from segywb.desk.desk import shown
from segywb.desk.sections import Asked, Look, Sections, Window, automatic, choose, part
from segywb.desk.words import words

PLAIN = gains.Gain(percentile=100)
ALL = Window(0, 0, 0, 0, 600, 400)


def made_line(path, traces=200, samples=300, form=3, records=20, delays=False):
    """A line of shots without bins: traces of a wave that moves out, records of so many traces, with spikes."""
    made = []
    for n in range(traces):
        offset = n % records
        values = [
            round(
                900 * math.sin((k - 20 - 2 * offset) / 4) * math.exp(-abs(k - 40 - 2 * offset) / 60)
            )
            + (7000 if (n * 7 + k) % 911 == 0 else 0)
            for k in range(samples)
        ]
        patterns = (
            [struct.unpack(">I", struct.pack(">f", one / 8))[0] for one in values]
            if form == 5
            else [one & 0xFFFF for one in values]
        )
        trace = bytearray(
            files.trace(n + 1, 0, 0, patterns, size=4 if form == 5 else 2, signed=False)
        )
        trace[8:16] = struct.pack(">ii", 101 + n // records, 1 + offset)
        trace[36:40] = struct.pack(">i", 25 * offset)
        if delays:
            trace[108:110] = struct.pack(">h", 8 * (n % 3))
        made.append(bytes(trace))
    return files.write(path, files.header(), files.binary(samples=samples, form=form), *made)


def look(style="density", side="now", gain=PLAIN, fields=()):
    return Look(style, side, gain, list(fields))


def picture(answer, index=0):
    """The bytes of a side: its density, row by row, and its wiggles."""
    told, data = answer
    at = 0
    for number, side in enumerate(told["sides"]):
        sizes = [
            side["rows"] * side["columns"]
            if len(data) and side["columns"] and "density" in told_kinds(answer)
            else 0,
            side["wiggles"] * side["rows"],
        ]
        parts = []
        for size in sizes:
            parts.append(np.frombuffer(data[at : at + size], dtype=np.int8))
            at += size
        if number == index:
            return (
                parts[0].reshape(side["rows"], side["columns"]) if sizes[0] else None,
                parts[1].reshape(side["wiggles"], side["rows"]) if sizes[1] else None,
            )
    raise AssertionError(index)


def told_kinds(answer):
    """Which kinds of bytes there are, by their number."""
    told, data = answer
    rest = len(data) - sum(one["wiggles"] * one["rows"] for one in told["sides"])
    assert rest in (0, sum(one["rows"] * one["columns"] for one in told["sides"]))
    return ["density"] if rest else []


def wanted(volume, traces, gain=PLAIN):
    """The bytes of a section, sample by sample."""
    values, end = gains.gained(gains.plain(volume.section_of(traces).array), 4.0, gain)
    return gains.codes(values, end).T


@pytest.fixture(params=[3, 5])
def desk(request, tmp_path):
    made = loaded(made_line(tmp_path / "line.sgy", form=request.param))
    yield made
    made.close()


def test_a_pixel_holds_the_sample_farthest_from_zero(desk):
    answer = Sections().view(desk, Asked("", None, 1, 0), Window(0, 0, 0, 0, 40, 50), look())
    density, _ = picture(answer)
    codes = wanted(desk.volume, range(1, 201)).astype(int)
    assert (
        density.shape == (50, 40)
        and answer[0]["window"] == [0, 200, 0, 300]
        and answer[0]["sides"][0]["trace"][:3] == [1, 6, 11]
    )
    for row in range(50):
        for column in range(40):
            some = codes[6 * row : 6 * row + 6, 5 * column : 5 * column + 5]
            assert (
                abs(int(density[row, column])) == np.abs(some).max()
                and density[row, column] in some
            )
    near, _ = picture(
        Sections().view(desk, Asked("", None, 1, 0), Window(30, 50, 100, 120, 40, 50), look())
    )
    assert near.tolist() == codes[100:120, 30:50].tolist()


def test_the_section_of_a_trace(desk):
    """Of the kind that is shown; and which columns are marked. What was loaded beside it is the same section."""
    view = Sections().view
    marked = look()._replace(marked=(44, 46), side="both")
    desk.run("delete 1 10")
    told = view(desk, Asked("auto", None, 1, 0, 45), ALL, marked)[0]
    assert (told["field"], told["value"]) == ("field_record", 103)
    assert [one["marks"] for one in told["sides"]] == [[], [[13, 16]]]
    assert told["sides"][0]["trace"] == list(range(41, 61)) and told["sides"][1]["trace"] == list(range(31, 51))
    for first, last, trace, wanted in ((20, 29, 25, (20, 29)), (20, 29, 101, (96, 105)), (20, 29, 3, (1, 10)), (20, 29, 999, (181, 190))):
        told = view(desk, Asked("", None, first, last, trace), ALL, look())[0]
        assert (told["first"], told["last"]) == wanted, trace


def test_which_traces(desk):
    view = Sections().view
    told = view(desk, Asked("field_record", 103, 1, 0), ALL, look(fields=["offset"]))[0]
    assert told["sides"][0]["trace"] == list(range(41, 61)) and (
        told["back"],
        told["on"],
        told["whole"],
        told["every"],
    ) == (102, 104, 20, 1)
    assert (
        told["sides"][0]["headers"]
        == [
            {
                "name": "offset",
                "low": [25 * at for at in range(20)],
                "high": [25 * at for at in range(20)],
            }
        ]
        and told["along"] == "trace"
    )
    assert view(desk, Asked("field_record", None, 1, 0), ALL, look())[0]["value"] == 106
    assert view(desk, Asked("field_record", 7, 1, 0), ALL, look())[0]["sides"][0]["trace"] == []
    assert view(desk, Asked("", None, 180, 150), ALL, look())[0]["first"] == 150
    assert automatic(desk) == Asked("field_record", 101, 1, 0)
    told = view(desk, Asked("auto", None, 1, 0), ALL, look())[0]
    assert (told["field"], told["value"], told["start"], told["step"], told["samples"]) == (
        "field_record",
        101,
        0.0,
        4.0,
        300,
    )


def test_the_first_section(tmp_path):
    """Of a grid its middle inline; of a file without records and bins the first traces."""
    made = loaded(survey(tmp_path / "survey.sgy"))
    assert automatic(made) == Asked("inline", None, 1, 0)
    told = Sections().view(made, automatic(made), ALL, look())[0]
    assert (
        told["value"] == 113
        and told["along"] == "crossline"
        and told["sides"][0]["label"] == list(range(201, 241))
    )
    columns = made.volume.headers("inline", "crossline")
    assert all(
        tuple(columns[trace - 1]) == (113, label)
        for trace, label in zip(told["sides"][0]["trace"], told["sides"][0]["label"])
    )
    told = Sections().view(made, Asked("crossline", 209, 1, 0), ALL, look())[0]
    assert 118 not in told["sides"][0]["label"] and told["sides"][0]["label"].count(111) == 2
    made.close()
    plain = loaded(made_line(tmp_path / "plain.sgy", traces=30, records=100))
    assert automatic(plain) == Asked("", None, 1, 30)
    plain.close()


def test_wiggles(desk):
    answer = Sections().view(
        desk, Asked("", None, 1, 0), Window(0, 0, 0, 0, 160, 300), look("both")
    )
    density, wiggles = picture(answer)
    assert (
        answer[0]["sides"][0]["stride"] == 5
        and wiggles.shape == (40, 300)
        and density.shape == (300, 160)
    )
    codes = wanted(desk.volume, range(1, 201))
    assert [one.tolist() for one in wiggles] == [
        codes[:, trace].tolist() for trace in range(2, 200, 5)
    ]
    alone = Sections().view(desk, Asked("", None, 1, 10), ALL, look("wiggles"))
    assert alone[0]["sides"][0]["stride"] == 1 and len(alone[1]) == 10 * 300


def test_before_and_now(desk):
    maker = Sections()
    desk.run("patch 45 7 500 -500")
    desk.run("delete 41")
    desk.run("copy 50 1")
    desk.run("set 46 field_record 999")
    asked_for = Asked("field_record", 103, 1, 0)
    answer = maker.view(desk, asked_for, ALL, look(side="both"))
    assert [one["name"] for one in answer[0]["sides"]] == ["was", "now"] and answer[0]["sides"][0][
        "trace"
    ] == list(range(41, 61))
    now = desk.volume.section_traces(field_record=103)
    assert answer[0]["sides"][1]["trace"] == now.tolist()
    assert picture(answer, 1)[0].tolist() == wanted(desk.volume, now).tolist()
    with segywb.open(desk.path) as loaded_anew:
        assert picture(answer, 0)[0].tolist() == wanted(loaded_anew, range(41, 61)).tolist()
        origin = desk.now().mirror.origin[now - 1]
        told, data = maker.view(desk, asked_for, ALL, look(side="difference"))
        values = np.array(desk.volume.section_of(now).array, dtype=np.float64)
        for at, one in enumerate(origin.tolist()):
            values[at] -= np.array(loaded_anew.samples(one), dtype=np.float64) if one else 0
    assert (
        told["sides"][0]["name"] == "difference"
        and (values != 0).sum() > 0
        and 0 in origin.tolist()
    )
    made, end = gains.gained(values.astype(np.float32), 4.0, PLAIN)
    assert np.frombuffer(data, np.int8).reshape(300, -1).tolist() == gains.codes(
        made, end
    ).T.tolist() and told["sides"][0]["end"] == pytest.approx(end)


def boxed(desk, told, left, right, top, bottom):
    return Sections().boxed(desk, told, Window(left, right, top, bottom, 600, 400))


def test_the_samples_in_a_box(desk):
    """As runs of traces that stand behind one another in the file."""
    box = boxed(desk, Asked("field_record", 103, 1, 0), 2, 6, 10, 21)
    assert box == {"count": 4, "runs": [[43, 46, 10, 20]], "all": True}
    desk.run("delete 44")
    desk.run("move 43 60")
    box = boxed(desk, Asked("field_record", 103, 1, 0), 0, 900, 290, 999)
    assert box["runs"] == [[41, 58, 290, 299], [60, 60, 290, 299]]
    assert boxed(desk, Asked("", None, 40, 45), 1, 2, 0, 1)["runs"] == [[41, 41, 0, 0]]
    for ends in ((20, 30, 0, 9), (0, 3, 300, 310), (3, 3, 0, 9), (0, 3, 9, 9)):
        box = boxed(desk, Asked("field_record", 104, 1, 0), *ends)
        assert box == {"count": 0, "runs": [], "all": True}


def test_a_box_over_traces_that_begin_at_other_times(tmp_path, monkeypatch):
    """The rows of a section are times: a trace that begins two rows later has earlier samples in
    them, and a short one fewer.
    """
    made = loaded(made_line(tmp_path / "line.sgy", traces=6, samples=30, records=6, delays=True))
    try:
        told = Asked("", None, 1, 6)
        ends = [(3, 9), (1, 7), (0, 5)] * 2
        wanted_runs = [[at, at, *both] for at, both in enumerate(ends, 1)]
        assert boxed(made, told, 0, 6, 3, 10)["runs"] == wanted_runs
        box = boxed(made, told, 0, 3, 31, 40)
        assert box == {"count": 2, "runs": [[2, 2, 29, 29], [3, 3, 27, 29]], "all": True}
        wanted_at = made.volume.section([2]).times.tolist()
        assert wanted_at[1] == made.volume.section(range(1, 7)).times.tolist()[3]
        monkeypatch.setattr(sections, "MOST_RUNS", 4)
        box = boxed(made, told, 0, 6, 3, 10)
        assert not box["all"] and box["runs"] == wanted_runs[:4]
        assert boxed(made, told, 0, 4, 3, 10)["all"]
        monkeypatch.setattr(sections, "MOST_SAMPLES", 100)
        with pytest.raises(ValueError, match="one trace of 2 is shown"):
            boxed(made, told, 0, 6, 3, 10)
    finally:
        made.close()
    made = loaded(files.varying(tmp_path / "varying.sgy"))
    try:
        box = boxed(made, Asked("", None, 1, 3), 0, 3, 1, 9)
        assert box["runs"] == [[2, 2, 1, 1], [3, 3, 1, 2]]
    finally:
        made.close()


@pytest.mark.parametrize(
    "line, anew",
    [
        ("patch 3 0 77", True),
        ("fill 1 3 0 9 0", True),
        ("fill all 0 9 0 where offset = 0", True),
        ("delete 3", True),
        ("copy 3 9", True),
        ("move 3 9", True),
        ("blank 4", True),
        ("sort 1 last -offset", True),
        ("set 3 delay 40", True),
        ("compute 1 last interval 2000", True),
        ("set 3 offset 40", False),
        ("renumber 1 last ensemble 1 1", False),
        ("map x @9:4", False),
        ("text 3 C 3 LINE", False),
        ("set 3 delay 0", True),
        ("unmap shot", False),
    ],
)
def test_what_is_read_anew(tmp_path, monkeypatch, line, anew):
    """What an edit leaves as it was is not asked again, and what is shown is what a fresh reading shows."""
    made = loaded(made_line(tmp_path / "line.sgy", traces=60))
    made.run("map shot @9:4")
    maker, asks = Sections(), []
    told = Asked("", None, 1, 40)
    maker.view(made, told, ALL, look())
    reads = segywb.Volume.section_reading
    monkeypatch.setattr(
        segywb.Volume, "section_reading", lambda self, *more: asks.append(1) or reads(self, *more)
    )
    assert made.run(line)["answers"][0]["text"].startswith("ok")
    for _ in range(2):
        assert maker.view(made, told, ALL, look()) == Sections().view(made, told, ALL, look())
    assert len(asks) == 2 + int(anew)
    asks.clear()
    made.undo()
    assert maker.view(made, told, ALL, look()) == Sections().view(made, told, ALL, look()) and len(
        asks
    ) == 1 + int(anew)
    made.close()


@pytest.mark.parametrize(
    "gain",
    [
        gains.Gain(),
        gains.Gain(50, "trace"),
        gains.Gain(99.5, "agc", 80),
        gains.Gain(100, "agc", 1, True),
        gains.Gain(90, "none", 5, True),
    ],
)
def test_gains(desk, gain):
    answer = Sections().view(
        desk, Asked("", None, 1, 0), Window(0, 0, 0, 0, 600, 400), look(gain=gain)
    )
    assert picture(answer)[0].tolist() == wanted(desk.volume, range(1, 201), gain).tolist()


def test_delays_and_odd_samples(tmp_path):
    """Traces stand at their own times; what is no finite number, and what is none, has a colour of its own."""
    made = loaded(made_line(tmp_path / "line.sgy", traces=6, samples=30, form=5, delays=True))
    made.run("patch 2 3 nan inf 5")
    told, data = Sections().view(made, Asked("", None, 1, 0), ALL, look())
    density = np.frombuffer(data, np.int8).reshape(34, 6)
    assert told["samples"] == 34 and [
        int(np.flatnonzero(column != gains.LACKS)[0]) for column in density.T
    ] == [0, 2, 4, 0, 2, 4]
    assert (
        density[5, 1] == density[6, 1] == gains.LACKS != density[7, 1]
        and told["sides"][0]["odd"] == 6 * 4 + 2
    )
    maker = Sections()
    maker.view(made, Asked("", None, 1, 0), ALL, look())
    got = maker.under(made, 2, 7, ["offset", "delay"])
    assert (got["values"], got["sample"], got["value"]) == (["25", "8"], 5, "5") and maker.under(
        made, 2, 1, ["offset"]
    )["value"] is None
    assert (
        maker.under(made, 2, 5, ["offset"])["value"] == "nan"
        and maker.under(made, 2, 33, ["offset"])["value"] is None
    )
    made.close()


def test_a_large_section_takes_every_manieth_trace(tmp_path, monkeypatch):
    monkeypatch.setattr(sections, "MOST_SAMPLES", 1000)
    made = loaded(made_line(tmp_path / "line.sgy", traces=60, samples=50))
    told = Sections().view(made, Asked("", None, 1, 0), ALL, look())[0]
    assert (told["whole"], told["every"], told["traces"]) == (60, 3, 20) and told["sides"][0][
        "trace"
    ] == list(range(1, 61, 3))
    made.close()


def test_a_section_is_shown_while_it_is_read(desk, monkeypatch):
    """Other questions go on meanwhile; an edit of headers alone lets the reading go on, another one begins it anew."""
    monkeypatch.setattr(sections, "PIECE", 2000)
    maker, told_of = Sections(0.0), Asked("", None, 1, 0)
    whole = Sections().view(desk, told_of, ALL, look())
    first = maker.view(desk, told_of, ALL, look())
    assert 0 < first[0]["read"] < 1 == whole[0]["read"] and len(first[1]) == len(whole[1])
    density, _ = picture(first)
    assert (
        (density[0] == density[1]).all()
        and (density[8] == density[9]).all()
        and (density[0] != density[8]).any()
    )
    desk.run("set 3 offset 40")
    parts = [maker.view(desk, told_of, ALL, look())[0]["read"] for _ in range(3)]
    assert first[0]["read"] < parts[0] < parts[1] < parts[2] < 1
    desk.run("patch 3 0 77")
    assert maker.view(desk, told_of, ALL, look())[0]["read"] == first[0]["read"]
    for _ in range(100):
        answer = maker.view(desk, told_of, ALL, look())
        if answer[0]["read"] == 1:
            break
    assert (
        answer == Sections().view(desk, told_of, ALL, look())
        and maker.view(desk, told_of, ALL, look()) == answer
    )
    wide, narrow = Asked("", None, 1, 90), Asked("", None, 1, 80)
    assert 0 < maker.view(desk, wide, ALL, look())[0]["read"] < 1
    for _ in range(100):  # the other one is given up
        answer = maker.view(desk, narrow, ALL, look())
        if answer[0]["read"] == 1:
            break
    assert answer == Sections().view(desk, narrow, ALL, look())


def test_an_answer_that_ends_in_a_refusal(desk):
    """The refusal is what the page gets, and none of the rows in front of it; of a whole answer the first rows."""
    cut = shown("samples all 0 1", "samples 3\n1 5 6\nrefused E14 read failed")
    assert (cut["kind"], cut["text"], cut["more"]) == ("refused", "refused E14 read failed", 0)
    (answer,) = desk.run("samples 1 3 0 0")["answers"]
    assert answer["kind"] == "query" and answer["text"].startswith("samples 3\n1 ")
    (answer,) = desk.run("samples 1 0 0 0")["answers"]
    assert (answer["kind"], answer["text"]) == ("refused", "refused E01 no trace 0 of 200")


def test_the_page_knows_the_command():
    told = words()
    (command,) = [one for one in told["commands"] if one["word"] == "samples"]
    assert command["usage"] == "samples P Q FROM TO [STEP] [where A OP B ..]"
    assert command["told"].startswith("Answers samples N, and then a line for each of the N traces")
    assert any(one["code"] == "E12" and "samples, patch" in one["when"] for one in told["refusals"])


def test_no_traces_and_no_samples(tmp_path):
    made = loaded(files.empty(tmp_path / "none.sgy"))
    told, data = Sections().view(made, Asked("auto", None, 1, 0), ALL, look("both", fields=["x"]))
    assert (
        told["traces"] == 0
        and data == b""
        and told["sides"][0]["headers"] == [{"name": "x", "low": [], "high": []}]
    )
    made.close()


def test_parts_and_choices():
    assert [part(*one) for one in ((5, 2, 10), (-3, 4, 10), (0, 0, 10), (9, 9, 10), (3, 0, 0))] == [
        (5, 6),
        (0, 4),
        (0, 10),
        (9, 10),
        (0, 0),
    ]
    with pytest.raises(KeyError):
        choose(type("M", (), {"columns": {}, "__len__": lambda self: 0})(), Asked("x", 1, 1, 0), 5)


def test_bad_questions(started):
    desk = ready(started("cube"))
    for query, status in (
        ("field=colour&value=1", 409),
        ("field=inline&value=x", 400),
        ("field=a+b", 400),
        ("first=x", 400),
        ("style=colours", 400),
        ("side=then", 400),
        ("percentile=0", 400),
        ("percentile=101", 400),
        ("percentile=nan", 400),
        ("balance=loud", 400),
        ("balance=agc&window=0", 400),
        ("window=inf", 400),
        ("headers=a+b+c+d", 400),
        ("headers=colour", 409),
        ("field=inline%0Adelete", 400),
        ("wide=x", 400),
    ):
        got, told, _ = asked(desk, f"/{desk.token}/picture/section?{query}")
        assert got == status and set(json.loads(told)) <= {"error", "refused"}, (query, got, told)
    for path, status in (
        ("under?trace=1&column=0&names=inline", 200),
        ("under?trace=99&column=0&names=inline", 409),
        ("under?trace=1&column=0&names=colour", 409),
        ("under?trace=x&column=0&names=x", 400),
        ("under?trace=1", 400),
    ):
        assert asked(desk, f"/{desk.token}/ask/{path}")[0] == status, path
    assert asked(desk, "/wrong/picture/section?field=inline")[0] == 403
    with urllib.request.urlopen(
        f"{desk.url}picture/section?field=inline&value=102&wide=99999"
    ) as answer:
        told = answer.read()
        assert (
            answer.headers["Content-Type"] == "application/octet-stream"
            and "default-src 'none'" in answer.headers["Content-Security-Policy"]
        )
    size = int.from_bytes(told[:4], "big")
    assert json.loads(told[4 : 4 + size])["traces"] == 4 and len(told) == 4 + size + 4 * 5


def test_opaque_samples_are_refused(started, tmp_path):
    path = made_line(tmp_path / "line.sgy", traces=3, samples=4, form=5)
    data = bytearray(path.read_bytes())
    data[3224:3226] = b"\0\4"
    path.write_bytes(data)
    desk = ready(started(path))
    got, told, _ = asked(desk, f"/{desk.token}/picture/section?first=1")
    assert got == 409 and json.loads(told)["refused"].startswith("refused E12")
