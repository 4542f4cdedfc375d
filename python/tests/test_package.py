"""The package as it is installed, its types and its documents."""

import doctest
import importlib
import inspect
import os
import pydoc
import re
import shutil
import subprocess
import sys
import types
from pathlib import Path

import pytest
from conftest import HERE, TOP

import segywb
from segywb import program

PACKAGE = HERE.parent
MODULES = sorted(path.stem for path in (PACKAGE / "src" / "segywb").glob("*.py") if path.stem != "__init__")


def test_version():
    version = (TOP / "VERSION").read_text().strip()
    assert segywb.__version__ == version
    assert f'version = "{version}"' in (PACKAGE / "pyproject.toml").read_text()


@pytest.fixture(scope="module")
def installed(tmp_path_factory):
    """The package installed into a folder of its own, without a network."""
    room = tmp_path_factory.mktemp("install")
    for name in ("python", "dist"):
        shutil.copytree(TOP / name, room / name, ignore=shutil.ignore_patterns("__pycache__", "tests"))
    for path in TOP.glob("LICENSE*"):
        shutil.copy(path, room)
    words = [sys.executable, "-m", "pip", "install", "-q", "--no-index", "--disable-pip-version-check", "--target", str(room / "into"), "./python"]
    done = subprocess.run(words, cwd=room, capture_output=True, text=True, check=False)
    assert done.returncode == 0, done.stderr
    return room / "into"


def test_install(installed):
    program = installed / "segywb" / "segywb-x86_64-linux"
    assert program.read_bytes() == (TOP / "dist" / "segywb-x86_64-linux").read_bytes()
    assert os.access(program, os.X_OK)
    assert (installed / "segywb" / "py.typed").exists()
    assert "Tag: py3-none-linux_x86_64" in next(installed.glob("*.dist-info/WHEEL")).read_text()
    assert {path.name for path in installed.glob("*.dist-info/*")} >= {"METADATA", "RECORD", "WHEEL", "LICENSE"}
    assert sorted(path.name for path in (installed / "segywb").iterdir() if path.suffix == ".py") == sorted(f"{name}.py" for name in [*MODULES, "__init__"])
    script = "import segywb, segywb.program; print(segywb.__file__); print(segywb.program.find())"
    clean = {"PATH": "/nowhere", "PYTHONPATH": str(installed)}
    told = subprocess.run([sys.executable, "-c", script], env=clean, cwd="/", capture_output=True, text=True, check=True).stdout
    assert told == f"{installed}/segywb/__init__.py\n{program}\n"
    script = "from importlib import metadata as m; print(m.version('segywb'), m.requires('segywb'))"
    told = subprocess.run([sys.executable, "-c", script], env=clean, cwd="/", capture_output=True, text=True, check=True).stdout
    wanted = ['numpy; extra == "numbers"', 'pandas; extra == "numbers"', 'matplotlib; extra == "pictures"', 'aiohttp; extra == "desk"', 'numpy; extra == "desk"', 'plotly; extra == "desk"', 'distributed; extra == "library"']
    assert told == f"{segywb.__version__} {wanted}\n"


def test_install_without_the_program(tmp_path):
    shutil.copytree(PACKAGE, tmp_path / "python", ignore=shutil.ignore_patterns("__pycache__", "tests"))
    words = [sys.executable, "-m", "pip", "install", "-q", "--no-index", "--disable-pip-version-check", "--target", str(tmp_path / "into"), "./python"]
    done = subprocess.run(words, cwd=tmp_path, capture_output=True, text=True, check=False)
    assert done.returncode != 0 and "there is no program" in done.stdout + done.stderr


def test_program_of_the_repository(monkeypatch):
    monkeypatch.delenv("SEGYWB", raising=False)
    found = Path(segywb.program.find())
    assert found in (TOP / "dist" / "segywb-x86_64-linux", PACKAGE / "src" / "segywb" / "segywb-x86_64-linux")


def test_types(tmp_path):
    """mypy --strict, of the package and of a use of it."""
    if not shutil.which("mypy"):
        pytest.skip("mypy is not installed")
    use = tmp_path / "use.py"
    use.write_text(
        "import segywb\nfrom fractions import Fraction\nfrom typing import List, Optional, Tuple\n\n"
        "with segywb.open('x') as v:\n    a: Optional[Tuple[Fraction, Fraction]] = v.range('x')\n    b: List[segywb.Fault] = v.faults()\n"
        "    c: int = v.get(1, segywb.TraceField.CDP)\n    d: str = v.get(1, 'x')\n"
    )
    clean = {**os.environ, "MYPYPATH": "src"}
    words = ["mypy", "--config-file", "pyproject.toml", "--cache-dir", str(tmp_path / "cache")]
    done = subprocess.run(words, cwd=PACKAGE, env=clean, capture_output=True, text=True, check=False)
    assert done.returncode == 0, done.stdout
    done = subprocess.run(["mypy", "--strict", "--cache-dir", str(tmp_path / "cache"), str(use)], cwd=PACKAGE, env=clean, capture_output=True, text=True, check=False)
    assert done.stdout.count("error:") == 1 and "use.py:9" in done.stdout, done.stdout


def is_later(text):
    """Whether an example needs a program of after this one."""
    return not program.knows("--tail") and re.search(r"refused\.sgy|cut\.sgy|tail=|drop_tail\(", text)


def examples_of(name):
    """Runs the examples of a module: how many failed, and how many there are."""
    module = importlib.import_module(f"segywb.{name}" if name else "segywb")
    runner = doctest.DocTestRunner()
    for test in doctest.DocTestFinder().find(module, extraglobs={"segywb": segywb}):
        if not is_later("".join(one.source for one in test.examples)):
            runner.run(test)
    return runner.summarize()


@pytest.mark.parametrize("name", ["", *MODULES])
def test_examples_of_modules(name, monkeypatch):
    """In a folder with the example files, as the examples of the documents."""
    monkeypatch.chdir(TOP / "examples")
    assert examples_of(name).failed == 0


def test_each_public_call_has_an_example():
    """`help` shows it: of each function of the package, and of each method and property of a volume and of what it answers."""
    calls = {name: getattr(segywb, name) for name in segywb.__all__ if inspect.isfunction(getattr(segywb, name))}
    calls |= {f"tools.{name}": call for name, call in vars(segywb.tools).items() if inspect.isfunction(call) and call.__module__ == "segywb.tools"}
    for part in segywb.Volume.__mro__[:-1]:
        calls |= {f"Volume.{name}": call for name, call in vars(part).items() if not name.startswith("_") and (callable(call) or isinstance(call, property))}
    for name, kind in vars(segywb).items():
        if name in segywb.__all__ and inspect.isclass(kind) and kind is not segywb.Volume:
            parts = [part for part in kind.__mro__ if part.__module__.startswith("segywb")]
            calls |= {f"{name}.{one}": call for part in parts for one, call in vars(part).items() if not one.startswith("_") and isinstance(call, (property, types.FunctionType))}
    assert {"Grid.shape", "Fit.at", "LoadRefused.arguments", "Step.lines"} <= set(calls)
    assert len(calls) > 85 and {"open", "recover", "look", "Volume.get", "Volume.info", "Volume.faults", "Volume.samples"} <= set(calls)
    assert [name for name, call in calls.items() if ">>>" not in (inspect.getdoc(call) or "")] == []
    told = pydoc.plain(pydoc.render_doc(segywb.Volume))
    assert all(f" {name[len('Volume.'):]}" in told for name in calls if name.startswith("Volume.")) and told.count(">>>") > 60


def test_modules_have_examples(monkeypatch):
    monkeypatch.chdir(TOP / "examples")
    found = [examples_of(name).attempted for name in MODULES]
    assert sum(found) > 100


def blocks(document):
    """The Python of a document: each block ```python, with its first line."""
    text = document.read_text()
    for found in re.finditer(r"^```python\n(.*?)^```$", text, re.M | re.S):
        yield found[1], text[:found.start()].count("\n") + 2


@pytest.mark.parametrize("document", ["README.md", "docs/PYTHON.md", "python/README.md"])
def test_documents(document, tmp_path, monkeypatch):
    """The examples of a document are run, one after another, in a folder with the example files."""
    for path in (TOP / "examples").glob("*.sgy"):
        shutil.copy(path, tmp_path)
    monkeypatch.chdir(tmp_path)
    path = TOP / document
    parser, names, examples = doctest.DocTestParser(), {"__name__": "document"}, 0
    runner = doctest.DocTestRunner(optionflags=doctest.ELLIPSIS | doctest.NORMALIZE_WHITESPACE)
    told = []
    for code, line in blocks(path):
        if is_later(code):
            continue
        if ">>>" in code:
            test = parser.get_doctest(code, names, document, document, line)
            examples += len(test.examples)
            assert runner.run(test, out=told.append, clear_globs=False).failed == 0, "".join(told)
            names = test.globs
        else:
            exec(compile("\n" * (line - 1) + code, document, "exec"), names)
            examples += 1
    assert examples > 0
    if document == "docs/PYTHON.md":
        assert names["problems_of"](Path("wrong_line.sgy")) == ("wrong_line.sgy", 12, "F6")
        assert names["problems_of"](Path("positions.csv")) == ("positions.csv", None, "L03")
        with segywb.open("positioned.sgy") as volume:
            assert volume.headers("x")["x"].tolist() == [45000010] * 4 + [45000020] * 4 + volume.headers("x")["x"].tolist()[8:]


def test_lines_of_the_sources():
    for path in [*PACKAGE.glob("src/segywb/*.py"), *HERE.glob("*.py")]:
        assert len(path.read_text().splitlines()) < 800, path
