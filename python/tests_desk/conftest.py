"""What the tests of the desk share: a desk on a copy of an example file, a browser, and a page in it."""

import os
import random
import shutil
import signal
import socket
import subprocess
import sys
import time
from pathlib import Path

import pytest

HERE = Path(__file__).resolve().parent
TOP = HERE.parent.parent
SOURCES = HERE.parent / "src"
sys.path.insert(0, str(SOURCES))
sys.path.insert(0, str(HERE))
sys.path.insert(0, str(HERE.parent / "tests"))

from selenium import webdriver  # noqa: E402
from selenium.webdriver.chrome.options import Options  # noqa: E402
from selenium.webdriver.chrome.service import Service  # noqa: E402

from page import PATIENCE, Page, watched  # noqa: E402
from segywb import program  # noqa: E402

WORDS = ("--headless=new", "--no-sandbox", "--disable-gpu", "--disable-dev-shm-usage", "--hide-scrollbars", "--window-size=1280,900")


class Started:
    """A desk that runs as a process of its own."""

    def __init__(self, path, *words, env=None, show=False, before=""):
        """``before`` is Python that is run in the process first."""
        self.path = Path(path)
        begin = ["-c", f"{before}\nfrom segywb.desk.cli import main\nraise SystemExit(main())"] if before else ["-m", "segywb.desk"]
        command = [sys.executable, *begin, str(path), *([] if show else ["--no-browser"]), *words]
        self.process = subprocess.Popen(
            command, env={**os.environ, "PYTHONPATH": str(SOURCES), **(env or {})}, stdout=subprocess.PIPE, stderr=subprocess.PIPE, text=True
        )
        self.url = self.process.stdout.readline().strip()

    @property
    def port(self):
        return int(self.url.split(":")[2].split("/")[0])

    @property
    def token(self):
        return self.url.split("/")[3]

    def programs(self):
        """The numbers of its children."""
        found = []
        for task in Path(f"/proc/{self.process.pid}/task").iterdir():
            found += [int(one) for one in (task / "children").read_text().split()]
        return found

    def end(self):
        if self.process.poll() is None:
            self.process.send_signal(signal.SIGTERM)
        out, told = self.process.communicate(timeout=PATIENCE)
        return self.process.returncode, told


@pytest.fixture
def example(tmp_path):
    """Copies an example file, and gives its path."""

    def copied(name):
        return Path(shutil.copy(TOP / "examples" / f"{name}.sgy", tmp_path))

    return copied


@pytest.fixture
def started(example):
    """Starts a desk on a copy of an example file, or on a file; ends it at the end."""
    desks = []

    def start(name, *words, **more):
        desks.append(Started(name if isinstance(name, Path) else example(name), *words, **more))
        return desks[-1]

    yield start
    for one in desks:
        one.end()


def browser_of():
    """A browser of its own."""
    options = Options()
    for word in WORDS:
        options.add_argument(word)
    options.set_capability("goog:loggingPrefs", {"browser": "ALL"})
    made = webdriver.Chrome(service=Service("/usr/bin/chromedriver"), options=options)
    made.set_script_timeout(PATIENCE)
    watched(made)
    return made


@pytest.fixture(scope="session")
def browser():
    """One browser for all tests."""
    made = browser_of()
    yield made
    made.quit()


SAME_KEY = "import secrets\nsecrets.token_urlsafe = lambda size: 'k' * size"


@pytest.fixture(scope="session")
def port():
    """A port for the first page of each test: under one address the browser keeps what it made of plotly.js, which is half of the time of a page. The
    system gives none of these to others meanwhile."""

    def free(number):
        with socket.socket() as found:
            return found.connect_ex(("127.0.0.1", number)) != 0

    return next(number for number in random.sample(range(20000, 32000), 100) if free(number))


@pytest.fixture
def opened(started, browser, port):
    """A page on a desk. At the end of a test the browser must not have complained."""
    pages = []

    def page(name, *words, before="", **more):
        place = [] if pages or "--port" in words else ["--port", str(port)]
        desk = started(name, *place, *words, before=f"{SAME_KEY}\n{before}", **more)
        browser.execute_cdp_cmd("Storage.clearDataForOrigin", {"origin": f"http://127.0.0.1:{port}", "storageTypes": "local_storage"})
        browser.execute_cdp_cmd("Emulation.setEmulatedMedia", {"features": [{"name": "prefers-color-scheme", "value": "light"}]})
        if not pages:
            browser.get("about:blank")  # a test that failed may have left its page
        browser.get_log("browser")
        pages.append(Page(browser, desk))
        pages[-1].open()
        return pages[-1]

    yield page
    for one in pages:
        if not one.may_complain:
            assert [entry["message"] for entry in browser.get_log("browser")] == []
    browser.get("about:blank")


def run(path, script, *options):
    """A run of the program over a script: its answers as a text, and its status."""
    words = [program.find(), os.fspath(path), "--script", "/dev/stdin", *options]
    done = subprocess.run(words, input=script.encode(), stdout=subprocess.PIPE, stderr=subprocess.PIPE, check=False)
    return done.stdout.decode(), done.returncode


def wait_for(question, seconds=PATIENCE):
    """Asks until the answer is true, and gives it."""
    until = time.monotonic() + seconds
    while True:
        found = question()
        if found or time.monotonic() > until:
            return found
        time.sleep(0.05)
