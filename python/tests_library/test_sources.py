"""The sources of the library: short functions, short files, examples that hold."""

import ast
import doctest
import importlib

import pytest
from conftest import HERE, SOURCE

FOLDER = SOURCE / "segywb" / "library"
MODULES = sorted(path.stem for path in FOLDER.glob("*.py") if not path.stem.startswith("__"))
LINES, FILE_LINES = 40, 800


@pytest.mark.parametrize("path", [*sorted(FOLDER.glob("*.py")), *sorted(HERE.glob("*.py"))], ids=lambda path: path.name)
def test_lengths(path):
    text = path.read_text()
    assert len(text.splitlines()) < FILE_LINES
    for node in ast.walk(ast.parse(text)):
        if isinstance(node, (ast.FunctionDef, ast.AsyncFunctionDef)):
            assert node.end_lineno - node.lineno < LINES, node.name


@pytest.mark.parametrize("name", MODULES)
def test_examples(name):
    if name == "cluster":
        pytest.importorskip("distributed", reason="python3-distributed is not installed")
    assert doctest.testmod(importlib.import_module(f"segywb.library.{name}")).failed == 0


def test_dask_is_wanted_for_a_cluster_alone():
    """No other module asks for it."""
    for name in MODULES:
        if name != "cluster":
            assert "distributed" not in [word for line in (FOLDER / f"{name}.py").read_text().splitlines() if "import" in line for word in line.split()]
