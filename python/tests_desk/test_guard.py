"""Who is answered, and what a hostile file can do to the page."""

import http.client
import json
import os
import re
import socket
import struct
import subprocess
import sys
from pathlib import Path

import files
import pytest
from conftest import PATIENCE, SOURCES, Started, run, wait_for
from selenium.webdriver.common.keys import Keys

HOSTILE = [
    "<script>window.taken = 1</script>", "<img src=x onerror='window.taken = 1'>", "<b>bold</b>&amp;", "\"><svg onload=window.taken=1>", "C 5 </script>",
]


def asked(desk, path=None, method="GET", body=None, **headers):
    """Asks the server by hand; a header that is None is left out."""
    link = http.client.HTTPConnection("127.0.0.1", desk.port, timeout=PATIENCE)
    link.putrequest(method, f"/{desk.token}/ask/state" if path is None else path, skip_host=True, skip_accept_encoding=True)
    sent = {"Host": f"127.0.0.1:{desk.port}", **{name.replace("_", "-"): value for name, value in headers.items()}}
    data = json.dumps(body).encode() if body is not None else b""
    if method == "POST":
        sent["Content-Length"] = str(len(data))
    for name, value in sent.items():
        if value is not None:
            link.putheader(name, value)
    link.endheaders(data or None)
    answer = link.getresponse()
    told = answer.read().decode()
    link.close()
    return answer.status, told, answer


def ready(desk):
    assert wait_for(lambda: asked(desk)[0] == 200)
    return desk


def test_the_token(started):
    desk = ready(started("cube"))
    for path in ("/", "/index.html", "/ask/state", "/x/ask/state", f"/{desk.token}x/", f"/{desk.token[:-1]}/", f"//{desk.token}/", "/plotly.js", "/%2e%2e/", f"/x/../{desk.token}/"):
        status, told, _ = asked(desk, path)
        assert status in (400, 403) and "cube" not in told and "segywb" not in told, path
    assert asked(desk, f"/{desk.token}/")[0] == 200
    assert len(desk.token) >= 32
    for path in ("../guard.py", "..%2fguard.py", "desk.css/../../cli.py", "edits", "nothing.js"):
        assert asked(desk, f"/{desk.token}/{path}")[0] in (403, 404), path


def test_the_host_and_the_origin(started):
    desk = ready(started("cube"))
    here = f"127.0.0.1:{desk.port}"
    for host in ("evil.example", f"evil.example:{desk.port}", "127.0.0.1", f"127.0.0.1:{desk.port + 1}", f"127.0.0.1.evil.example:{desk.port}", "", None):
        assert asked(desk, Host=host)[0] in (400, 403), host
    assert asked(desk, Host=f"localhost:{desk.port}")[0] == 200
    for origin in ("http://evil.example", "null", f"https://{here}", f"http://127.0.0.1:{desk.port + 1}", f"http://{here}.evil.example"):
        assert asked(desk, Origin=origin)[0] == 403, origin
    assert asked(desk, Origin=f"http://{here}")[0] == 200
    for site in ("cross-site", "same-site"):
        assert asked(desk, Sec_Fetch_Site=site)[0] == 403


def raw(desk, *lines, body=b""):
    """The status of a request that is written line by line."""
    sent = "\r\n".join([*lines, "Connection: close", "", ""]).encode() + body
    with socket.create_connection(("127.0.0.1", desk.port), timeout=PATIENCE) as link:
        link.sendall(sent)
        told = b"".join(iter(lambda: link.recv(65536), b""))
    return int(told.split()[1])


def test_a_header_that_stands_twice(started):
    desk = ready(started("cube"))
    host, own, evil = f"Host: 127.0.0.1:{desk.port}", f"Origin: http://127.0.0.1:{desk.port}", "Origin: http://evil.example"
    get = f"GET /{desk.token}/ask/state HTTP/1.1"
    assert raw(desk, get, host) == raw(desk, get, host, own) == 200
    for more in ([own, evil], [evil, own], [own, own], [own, "origin: null"], [host], ["Host: evil.example"], ["Sec-Fetch-Site: none", "Sec-Fetch-Site: cross-site"]):
        assert raw(desk, get, host, *more) in (400, 403), more
    body = json.dumps({"line": "delete 1"}).encode()
    post = [f"POST /{desk.token}/do/run HTTP/1.1", host, f"Content-Length: {len(body)}"]
    kind = "Content-Type: application/json"
    for more in ([own, evil, kind], [own, own, kind], [own, kind, "Content-Type: text/plain"], [own, kind, host]):
        assert raw(desk, *post, *more, body=body) in (400, 403), more
    assert json.loads(asked(desk)[1])["edits"] == 0
    assert raw(desk, *post, own, kind, body=body) == 200
    assert json.loads(asked(desk)[1])["edits"] == 1


def test_a_body_that_is_no_plain_json(started):
    desk = ready(started("cube"))
    head = [f"POST /{desk.token}/do/run HTTP/1.1", f"Host: 127.0.0.1:{desk.port}", f"Origin: http://127.0.0.1:{desk.port}"]
    deep = b'{"line": ' + b"[" * 100000 + b"]" * 100000 + b"}"
    known = "Content-Type: application/json"
    for body, kind in ((deep, known), (b"[" * 100000, known), (b'{"line": ' + b"[" * 990 + b"]" * 990 + b"}", known), (b"\xff", known),
                       (b"", known), (b"{}", f"{known}; charset=nobody"), (b'{"line": "\\ud800"}', known), (b'{"line": 1' + b"0" * 5000 + b"}", known)):
        assert raw(desk, *head, kind, f"Content-Length: {len(body)}", body=body) == 400, body[:20]
    assert json.loads(asked(desk)[1])["edits"] == 0
    far = f"i0={10**30}&i1={-10**30}&x0=0&x1={2**63}"
    for name in ("cell", "select"):
        assert asked(desk, f"/{desk.token}/ask/{name}?{far}")[0] in (200, 400), name


def test_edits_come_from_the_page_alone(started):
    desk = ready(started("cube"))
    own, kind = f"http://127.0.0.1:{desk.port}", "application/json"
    address = f"/{desk.token}/do/run"
    line = {"line": "delete 1"}
    assert asked(desk, address, "POST", line, Content_Type=kind)[0] == 403
    assert asked(desk, address, "POST", line, Content_Type="text/plain", Origin=own)[0] == 403
    assert asked(desk, address, "POST", line, Content_Type=kind, Origin="http://evil.example")[0] == 403
    assert asked(desk, address, "GET", Content_Type=kind, Origin=own)[0] == 405
    assert json.loads(asked(desk)[1])["edits"] == 0
    assert asked(desk, address, "POST", line, Content_Type=kind, Origin=own)[0] == 200
    assert json.loads(asked(desk)[1])["edits"] == 1


def test_what_the_browser_is_told(started):
    desk = ready(started("cube"))
    for path in (f"/{desk.token}/", f"/{desk.token}/main.js", f"/{desk.token}/plotly.js", f"/{desk.token}/ask/state", "/"):
        policy = asked(desk, path)[2].getheader("Content-Security-Policy")
        rules = dict(rule.strip().split(" ", 1) for rule in policy.split(";"))
        assert rules["default-src"] == "'none'" and rules["script-src"] == "'self'" and rules["connect-src"] == "'self'"
        assert rules["frame-ancestors"] == "'none'" and rules["base-uri"] == "'none'" and rules["form-action"] == "'none'"
        assert not re.search(r"https?:|\*", policy)
    page = asked(desk, f"/{desk.token}/")[1]
    assert not re.search(r"<script(?![^>]* src=\"[a-z.]+\")|\son[a-z]+=|https?://", page)
    for path in (SOURCES / "segywb" / "desk" / "static").iterdir():
        assert not re.search(r"innerHTML|outerHTML|insertAdjacentHTML|document\.write|eval\(|(?<!xmlns=\")https?://", path.read_text()), path


def test_what_the_browser_may_keep(started):
    """The library of plots alone: it is no text of the file, and reading it anew is most of what a page waits for."""
    desk = ready(started("cube"))
    kept = {path: asked(desk, f"/{desk.token}/{path}")[2].getheader("Cache-Control") for path in ("", "main.js", "plotly.js", "ask/state", "edits.txt")}
    assert kept.pop("plotly.js") == "private, max-age=3600" and set(kept.values()) == {"no-store"}


def test_this_machine_alone(started):
    desk = ready(started("cube"))
    listening = [row.split()[1] for row in Path("/proc/net/tcp").read_text().splitlines()[1:] if row.split()[3] == "0A"]
    assert [one for one in listening if one.endswith(f":{desk.port:04X}")] == [f"0100007F:{desk.port:04X}"]
    with pytest.raises(OSError):
        socket.create_connection(("::1", desk.port), timeout=1).close()


def test_bad_questions(started):
    desk = ready(started("cube"))
    for path in ("ask/slice?sample=x", "ask/table?first=1", "ask/cell?i0=1", "ask/place?trace=0x", "ask/text?block=99", "ask/fault?code=F1&skip=x"):
        status, told, _ = asked(desk, f"/{desk.token}/{path}")
        assert status in (400, 409) and set(json.loads(told)) <= {"error", "refused"}, (path, told)
    own = {"Content_Type": "application/json", "Origin": f"http://127.0.0.1:{desk.port}"}
    for name, body in (("run", {}), ("run", []), ("save", {"path": ""}), ("save", {"path": "x\0y"}), ("undo", {}), ("script", {"script": 7}), ("run", {"line": "delete 1\nset 1 x 9"})):
        assert asked(desk, f"/{desk.token}/do/{name}", "POST", body, **own)[0] in (200, 400), name
    assert asked(desk)[0] == 200


def hostile(path):
    """A file whose texts are meant for a page."""
    text = "".join(line.ljust(80) for line in HOSTILE).ljust(3200).encode("ascii")
    block = "((<script>window.taken = 1</script>))".ljust(3200).encode("ascii")
    made = [text, files.binary(blocks=1, samples=2), block, files.trace(1, 1, 1, [1, 2]), files.trace(2, 1, 2, [3, 4])]
    return files.write(path, *made)


def test_a_hostile_textual_header(opened, tmp_path):
    page = opened(hostile(tmp_path / "<img src=x onerror=alert(1)>.sgy"))
    page.tab("text")
    page.wait(lambda: HOSTILE[0] in page.text("panel"))
    assert [one.text for one in page.all("#panel ol li")][:5] == HOSTILE
    assert "((" not in page.text("panel") and "<script>window.taken = 1</script> (1)" in page.text("panel")
    assert page.text("name") == "<img src=x onerror=alert(1)>.sgy"
    assert page.run("line 0 2") == f"line |{HOSTILE[1]}|"
    assert page.run("text 3 <script>window.taken = 2</script>") == "ok"
    assert page.run("<img src=x onerror=alert(1)>") == "refused S01 unknown word"
    page.tab("edits")
    page.wait(lambda: "text 3 <script>" in page.text("panel"))
    assert page.js("return window.taken === undefined && document.querySelectorAll('img, #panel script, #log script, b, svg[onload]').length") == 0


def test_a_page_of_another_site(started, browser, tmp_path):
    """A page elsewhere that knows the whole address still gets nothing."""
    desk = ready(started("cube"))
    page = tmp_path / "evil.html"
    page.write_text("<!doctype html><title>waiting</title><script>"
                    f"const edit = fetch('{desk.url}do/run', {{method: 'POST', mode: 'no-cors', body: '{{\"line\": \"delete 1\"}}'}});"
                    f"const read = fetch('{desk.url}ask/state').then((r) => r.text());"
                    "Promise.allSettled([read, edit]).then(([{status}]) => { document.title = status === 'fulfilled' ? 'read' : 'nothing'; });"
                    "</script>")
    browser.get(page.as_uri())
    assert wait_for(lambda: browser.title != "waiting") and browser.title == "nothing"
    assert json.loads(asked(desk)[1])["edits"] == 0
    browser.get_log("browser")


# ---- the command


def desk_of(*words):
    command = [sys.executable, "-m", "segywb.desk", *words]
    return subprocess.run(command, env={"PATH": "/usr/bin:/bin", "PYTHONPATH": str(SOURCES), **environment()}, capture_output=True, text=True, timeout=PATIENCE, check=False)


def environment():
    return {name: os.environ[name] for name in ("SEGYWB",) if name in os.environ}


def test_the_command_line(example, tmp_path):
    done = desk_of(str(tmp_path / "none.sgy"), "--no-browser")
    assert done.returncode == 3 and "cannot open" in done.stderr
    done = desk_of("--no-browser")
    assert done.returncode == 2 and "usage: segywb-desk" in done.stderr
    done = desk_of("--help")
    assert done.returncode == 0 and "--no-browser" in done.stdout
    short = tmp_path / "short.sgy"
    short.write_bytes(b"C" * 100)
    done = desk_of(str(short), "--no-browser")
    assert done.returncode == 3 and "segywb-desk: load refused L03 short 100" in done.stderr


def test_a_port(example):
    desk = Started(example("cube"), "--port", "0")
    taken = desk.port
    done = desk_of(str(desk.path), "--no-browser", "--port", str(taken))
    status, told = desk.end()
    assert done.returncode == 4 and f"cannot listen on port {taken}" in done.stderr
    assert status == 0 and told == ""


def of_samples(path, form, rows):
    """A trace for each row, of samples that are bytes."""
    traces = [files.trace(n, 1, n, [0] * len(row), size=len(row[0]))[:240] + b"".join(row) for n, row in enumerate(rows, 1)]
    return files.write(path, files.header(), files.binary(form=form, samples=len(rows[0])), *traces)


def test_floats(opened, tmp_path):
    """A file of floats is shown with the values of its samples; what is no finite number is left out of the map, and counted."""
    rows = [(1.5, -2.5), (0.1, float("nan")), (-118.625, float("inf"))]
    path = of_samples(tmp_path / "float.sgy", 5, [[struct.pack(">f", one) for one in row] for row in rows])
    page = opened(path)
    assert page.map() == [[1, 1, 1]] and "no values here" not in page.text("summary")
    page.map_tab("slice")
    page.wait(lambda: page.map() == [[1.5, 0.10000000149011612, -118.625]])
    field = page.find("sample-number")
    field.clear()
    field.send_keys("1", Keys.TAB)
    page.wait(lambda: page.map() == [[-2.5, None, None]])
    assert "one of 2 samples that are no finite numbers" in page.text("caption")
    page.tab("numbers")
    page.wait(lambda: "samples that are no numbers" in page.text("panel"))
    assert "-118.625" in page.text("panel") and "inf" in page.text("panel")
    assert page.run("patch 2 1 1e-3 ") == "ok"
    page.wait(lambda: page.map() == [[-2.5, 0.0010000000474974513, None]])
    assert page.marks() == 1 and "one of 1 sample that" in page.text("caption")


def test_samples_without_values(opened, tmp_path):
    """A file of fixed point with gain is shown, without values for its samples."""
    path = of_samples(tmp_path / "gain.sgy", 4, [[b"\0\0\0\1"] * 2] * 3)
    page = opened(path)
    assert page.map() == [[1, 1, 1]] and "no values here" in page.text("summary")
    page.tab("slice")
    page.wait(lambda: "refused" in page.text("caption"))
