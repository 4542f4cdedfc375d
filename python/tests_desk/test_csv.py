"""A CSV on the page: what would change is shown, then it is one step, and one undo takes it back."""

import json

import pytest
from conftest import run
from test_guard import asked, ready
from test_page import BROKEN, SOUND

ROWS = "trace,inline,note\n5,102,a\n6,102,b\n7,102,\"c,\nd\"\n8,102,e\n9,103,same\n99,7,none\n"


def post(desk, body):
    status, told, _ = asked(desk, f"/{desk.token}/do/csv", "POST", body, Content_Type="application/json", Origin=f"http://127.0.0.1:{desk.port}")
    return status, json.loads(told)


def test_by_hand(started):
    desk = ready(started("wrong_line"))
    assert post(desk, {"text": ROWS}) == (200, {"columns": ["trace", "inline", "note"]})
    body = {"text": ROWS, "keys": [["trace", "trace"]], "values": [["inline", "inline"]]}
    status, told = post(desk, body)
    assert status == 200 and not told["done"] and told["version"] == 1
    assert [told[name] for name in ("rows", "matched", "traces", "unnamed", "changed", "numbers", "lacking", "doubled")] == [6, 5, 5, 7, 4, 4, 1, 0]
    assert told["differences"][0] == ["5", "inline", "101", "102", "2"] and told["differences"][3][4] == "6" and told["lacking_keys"] == [["99", 8]]
    for version in (0, 2, None, "1"):
        assert "has changed" in post(desk, {**body, "do": True, "version": version})[1]["error"]
    assert json.loads(asked(desk)[1])["edits"] == 0
    assert post(desk, {**body, "do": True, "version": 1})[1]["done"]
    state = json.loads(asked(desk)[1])
    assert (state["edits"], state["undoable"], state["version"]) == (4, 1, 2)
    assert post(desk, {**body, "do": True, "version": 2})[1]["numbers"] == 0
    state = json.loads(asked(desk)[1])
    assert (state["edits"], state["undoable"], state["version"]) == (4, 1, 2)


BAD = [
    {"text": ""}, {"text": " \n"}, {"text": "a,b\n1,x\n", "keys": [["a", "inline"]], "values": [["b", "x"]]}, {"text": "a,b\n1\n", "keys": [["a", "inline"]], "values": [["b", "x"]]},
    {"text": "a,b\n1,2\n", "keys": [], "values": [["b", "x"]]}, {"text": "a,b\n1,2\n", "keys": [["a", "inline"]], "values": []}, {"text": "a,b\n1,2\n", "keys": [["a", ""]], "values": [["b", "x"]]},
    {"text": "a,b\n1,2\n", "keys": [["a", "inline x"]], "values": [["b", "x"]]}, {"text": "a,b\n1,2\n", "keys": [["a", "colour"]], "values": [["b", "x"]]},
    {"text": "a,b\n1,2\n", "keys": [["a", "inline"], ["a", "x"]], "values": [["b", "x"]]}, {"text": "a,b\n1,2\n", "keys": [["a", "inline\ndelete 1"]], "values": [["b", "x"]]},
    {"text": "a,b\n1,99999999999\n", "keys": [["a", "inline"]], "values": [["b", "x"]]}, {"text": "a,b\n101,1\n101,2\n", "keys": [["a", "inline"]], "values": [["b", "x"]]},
]


@pytest.mark.parametrize("body", BAD)
def test_a_bad_csv_changes_nothing(started, body):
    desk = ready(started("wrong_line"))
    status, told = post(desk, {**body, "do": True, "version": 1})
    assert status == 200 and told["error"] and set(told) <= {"error", "version"}
    state = json.loads(asked(desk)[1])
    assert (state["edits"], state["version"]) == (0, 1)


def test_what_is_no_question(started):
    desk = ready(started("cube"))
    for body in ({}, [], {"text": "a\n1\n", "keys": 7, "values": []}, {"text": "a,b\n", "keys": [["a"]], "values": [["b", "x"]]}, {"text": "a,b\n", "keys": {"a": "x"}, "values": []}):
        status, told = post(desk, body)
        assert status in (200, 400) and set(told) == {"error"}, body
    assert json.loads(asked(desk)[1])["edits"] == 0


# ---- on the page


def chosen(page, tmp_path, text):
    path = tmp_path / "table.csv"
    path.write_bytes(text if isinstance(text, bytes) else text.encode())
    page.click("csv")
    page.find("csv-file").send_keys(str(path))


def test_looked_at_and_written(opened, tmp_path):
    page = opened("wrong_line")
    chosen(page, tmp_path, ROWS)
    page.wait(lambda: page.all("#csv-columns tbody tr"))
    assert [one.text for one in page.all("#csv-columns tbody th")] == ["trace", "inline", "note"] and not page.find("csv-go").is_enabled()
    page.one('select[aria-label="what inline is"]').send_keys("value")
    page.click("csv-look")
    page.wait(lambda: page.text("csv-told") == "6 rows, 5 with a trace; 5 traces of 12 meant. 4 numbers of 4 traces would change.")
    assert page.text("csv-lacking") == "1 row whose key no trace has: 99 (line 8)"
    assert page.all("#csv-said tbody tr")[0].text == "5 inline 101 102 2" and page.find("csv-go").text == "Write 4 numbers"
    assert page.version() == 1 and page.map() == BROKEN
    page.picture("csv-box", "csv", tmp_path)
    page.step("csv-go")
    assert page.map() == SOUND and not page.find("csv-box").is_displayed()
    assert page.text("log").startswith("csv table.csv") and "ok: 4 edits as one step" in page.text("log")
    page.tab("edits")
    page.wait(lambda: "4 accepted edits" in page.text("panel"))
    page.step("undo")
    assert page.map() == BROKEN and not page.find("undo").is_enabled()


def test_what_was_looked_at_is_written_alone(opened, tmp_path):
    """Another column behind the look takes the button away; so does an edit."""
    page = opened("wrong_line")
    chosen(page, tmp_path, "inline;crossline;x\n101;201;5\n")
    page.wait(lambda: page.all("#csv-columns tbody tr"))
    page.click("csv-look")
    page.wait(lambda: page.find("csv-go").is_enabled())
    page.one('input[aria-label="field of x"]').send_keys("y")
    assert not page.find("csv-go").is_enabled() and page.text("csv-told") == ""
    page.click("csv-look")
    page.wait(lambda: "E02 no field" in page.text("csv-said"))
    assert not page.find("csv-go").is_enabled() and page.version() == 1


TOLD = [
    (b"inline,crossline,x\n101,201,\xe4\n", "This is not UTF-8."), ("", "there is no first line"), ('inline,crossline,x\n101,201,"5\n', "this is no CSV"),
    ("inline,crossline,x\n101,201,5.5\n", "line 2, column 'x': no whole number: '5.5'"), ("inline,crossline,x\n101,201,<img src=x onerror=window.taken=1>\n", "no whole number: '<img src=x"),
]


def test_a_bad_csv_is_told(opened, tmp_path):
    page = opened("wrong_line")
    for text, told in TOLD:
        page.open()
        chosen(page, tmp_path, text)
        page.wait(lambda: page.all("#csv-columns tbody tr") or page.text("csv-said"))
        if not page.text("csv-said"):
            page.click("csv-look")
        page.wait(lambda: told in page.text("csv-said"))
        assert not page.find("csv-go").is_enabled() and page.version() == 1, told
        assert page.js("return window.taken === undefined && document.querySelectorAll('img').length") == 0, told


def test_columns_are_texts(opened, tmp_path):
    page = opened("wrong_line")
    chosen(page, tmp_path, '"<img src=x onerror=window.taken=1>",inline,crossline,x\n1,101,201,5\n')
    page.wait(lambda: page.all("#csv-columns tbody tr"))
    assert page.one("#csv-columns th[scope=row]").text == "<img src=x onerror=window.taken=1>"
    assert page.js("return window.taken === undefined && document.querySelectorAll('img').length") == 0
    page.click("csv-look")
    page.wait(lambda: "1 number of 1 trace would change" in page.text("csv-told") or "2 numbers of 2 traces" in page.text("csv-told"))
    page.step("csv-go")
    assert run(page.desk.path, "get 1 x\n")[0] == "value 45000000\n" and page.rows()[0][4] == "5"
