"""What the end-to-end tests share: the program, a room for each test, and the tools in C, built once for each run."""

import fcntl
import os
import shutil
import subprocess
import sys
from collections import Counter
from pathlib import Path

import pytest

HERE = Path(__file__).resolve().parent
sys.path.insert(0, str(HERE))
for module in ("running", "tables", "sweeps", "reports", "sessions", "repairs"):
    pytest.register_assert_rewrite(module)

from running import Room  # noqa: E402  the path is set above
from sweeps import Sweeps  # noqa: E402

# the files whose tests take longest: they are begun first, so that no worker is left with one of them at the end
LONGEST_FIRST = (
    "test_growth", "test_cuts", "test_hostile", "test_in_place_failing", "test_devices", "test_problems", "test_save", "test_on_disk",
    "test_edits", "test_scripts", "test_in_place_sessions", "test_session",
)
# the tools in C, which stand in the folder above
TOOLS = HERE.parent
BUILT = HERE.parent.parent / "crates" / "segywb" / "out" / "segywb"
COMPILERS = ("cc", "gcc", "clang")


def pytest_addoption(parser):
    """``--program PATH``, or the variable SEGYWB, names the program; without them it is the built one."""
    parser.addoption("--program", default=os.environ.get("SEGYWB", str(BUILT)), help="the program that is tested")


def pytest_collection_modifyitems(items):
    """The longest tests come first."""
    places = {name: place for place, name in enumerate(LONGEST_FIRST)}
    items.sort(key=lambda item: places.get(item.path.stem, len(places)))


def pytest_terminal_summary(terminalreporter):
    """The numbers of passed, failed and skipped tests, and why these were skipped, to the file that SEGYWB_COUNTS names, in one line: run.sh
    adds them to those of its other parts."""
    path = os.environ.get("SEGYWB_COUNTS")
    if path and not hasattr(terminalreporter.config, "workerinput"):
        stats = terminalreporter.stats
        failed = len(stats.get("failed", [])) + len(stats.get("error", []))
        reasons = Counter(report.longrepr[2].removeprefix("Skipped: ") for report in stats.get("skipped", []))
        told = "; ".join(f"{number} {reason}" for reason, number in reasons.most_common())
        Path(path).write_text(f"{len(stats.get('passed', []))} {failed} {sum(reasons.values())} {told}\n")


@pytest.fixture(scope="session")
def shared(tmp_path_factory):
    """A folder that all workers of a run share."""
    own = tmp_path_factory.getbasetemp()
    return own.parent if "PYTEST_XDIST_WORKER" in os.environ else own


def once(path, make):
    """Makes a file or a folder once for all workers: the first makes it, and the others wait."""
    with open(path.with_name(f"{path.name}.lock"), "w", encoding="ascii") as lock:
        fcntl.flock(lock, fcntl.LOCK_EX)
        if not path.exists():
            own = path.with_name(f"{path.name}.new")
            make(own)
            os.replace(own, path)
    return path


@pytest.fixture(scope="session")
def made_once(shared):
    """made_once(NAME, MAKE) is a file or a folder that all workers of a run share; MAKE makes it under the path that it is given."""
    return lambda name, make: once(shared / name, make)


@pytest.fixture(scope="session")
def program(request, shared):
    """The program under the name `segywb`: its help prints the name that it is called by, and the shipped one has another."""
    named = Path(request.config.getoption("--program")).resolve()
    folder = shared / "program"
    folder.mkdir(exist_ok=True)
    return once(folder / "segywb", lambda path: shutil.copy2(named, path))


@pytest.fixture
def room(program, tmp_path):
    """The folder of this test, which is taken away behind it: some tests make large files."""
    yield Room(program, tmp_path)
    shutil.rmtree(tmp_path, ignore_errors=True)


@pytest.fixture
def nobody(program):
    """nobody(ROOM) has the program of a room run without the rights of the superuser."""

    def give(room):
        if os.getuid() == 0:
            if shutil.which("setpriv") is None:
                pytest.skip("no command setpriv")
            room.before = ["setpriv", "--reuid=65534", "--regid=65534", "--clear-groups"]
            # the folders of a test are for their maker alone
            for folder in [room.folder, *room.folder.parents][:4]:
                if folder.stat().st_uid == 0 and folder != folder.parent:
                    folder.chmod(folder.stat().st_mode | 0o055)
        shutil.copy2(program, room.folder / "runs")
        (room.folder / "runs").chmod(0o755)
        room.program = "./runs"

    return give


def compiler():
    """The first C compiler that works, or None; the kit's own needs the headers of another."""
    kit = subprocess.run(["rt", "doc"], capture_output=True, text=True, check=False).stdout if shutil.which("rt") else ""
    names = [os.environ.get("CC", ""), *COMPILERS, *([str(Path(kit.strip()).parent / "toolchain/bin/clang")] if kit.strip() else [])]
    program = "#include <stdlib.h>\nint main(void) { return 0; }\n"
    for name in filter(shutil.which, names):
        if subprocess.run([name, "-x", "c", "-o", os.devnull, "-"], input=program, text=True, capture_output=True, check=False).returncode == 0:
            return name
    return None


@pytest.fixture(scope="session")
def compiled(shared):
    """compiled(NAME) builds a program of the tests from NAME.c, and compiled(NAME, "-shared") a library that is preloaded."""
    named = compiler()

    def build(name, *words):
        if named is None:
            pytest.skip("no C compiler")
        into = shared / f"{name}{'.so' if words else ''}"
        words = [*words, "-fPIC"] if words else []
        source = TOOLS / f"{name}.c"
        return once(into, lambda path: subprocess.run([named, "-O1", *words, "-o", str(path), str(source), "-ldl"], check=True))

    return build


@pytest.fixture
def sweeps(room, compiled):
    """Sweeps over the program in the room of this test."""
    return Sweeps(room, compiled("many_runs"))


@pytest.fixture
def fail_device(compiled):
    """What makes the program run under the library that fails a device."""
    return f"LD_PRELOAD={compiled('fail_device', '-shared')}"


@pytest.fixture
def fail_save(compiled):
    """The environment of a run under the library that fails calls of a save."""
    return {"LD_PRELOAD": str(compiled("fail_save", "-shared"))}


@pytest.fixture
def refuse_growth(compiled):
    """What makes the program run under the library that refuses growths of memory."""
    return f"LD_PRELOAD={compiled('refuse_growth', '-shared')}"


@pytest.fixture
def disk(room):
    """disk(SIZE) mounts a small disk as the folder `disk`."""
    mounted = []

    def mount(size):
        os.mkdir(room.path("disk"))
        words = ["mount", "-t", "tmpfs", "-o", f"size={size}", "none", room.path("disk")]
        if os.getuid() != 0 or subprocess.run(words, capture_output=True, check=False).returncode != 0:
            pytest.skip("a disk may not be mounted here")
        mounted.append(room.path("disk"))

    yield mount
    for one in mounted:
        subprocess.run(["umount", one], check=True)


@pytest.fixture
def growth_library(compiled):
    """The path of the library that refuses growths of memory."""
    return str(compiled("refuse_growth", "-shared"))
