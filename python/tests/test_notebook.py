"""The notebook of examples/ is run: its cells in order, in a folder with the example files."""

import ast
import json
import shutil

import matplotlib
from conftest import TOP

import segywb

NOTEBOOK = TOP / "examples" / "before_after.ipynb"


def run_cell(code, names):
    """Runs a cell, and gives the value of its last expression, as a notebook shows it."""
    parsed = ast.parse(code)
    last = parsed.body.pop() if isinstance(parsed.body[-1], ast.Expr) else None
    exec(compile(parsed, NOTEBOOK.name, "exec"), names)
    return eval(compile(ast.Expression(last.value), NOTEBOOK.name, "eval"), names) if last else None


def test_notebook(tmp_path, monkeypatch, capsys):
    matplotlib.use("Agg")
    for path in (TOP / "examples").glob("*.sgy"):
        shutil.copy(path, tmp_path)
    monkeypatch.chdir(tmp_path)
    names, values, shown = {}, [], []
    for cell in json.loads(NOTEBOOK.read_text())["cells"]:
        if cell["cell_type"] == "code":
            assert cell["outputs"] == [] and cell["execution_count"] is None
            values.append(run_cell("".join(cell["source"]), names))
            shown.append(values[-1]._repr_html_() if hasattr(values[-1], "_repr_html_") else "")
    assert "<svg" in shown[0] and "F6: 4" in shown[0]
    assert values[1][0] == {101: 8, 103: 4} and [runs for runs, _ in values[1][1]] == [[(5, 8, {"before": 4})]]
    assert list(values[2].columns) == ["inline", "crossline", "offset", "x", "y"]
    assert values[4] == ([], [f"set {p} inline 102" for p in (5, 6, 7, 8)])
    told = "E01 no trace 99 of 12: set 99 inline 102\n{101: 8, 103: 4}\n{101: 4, 102: 4, 103: 4}\n"
    assert capsys.readouterr().out == told
    assert len(names["figure"].axes) == 4
    with segywb.open(tmp_path / "mended.sgy") as volume:
        assert volume.inlines() == {101: 4, 102: 4, 103: 4} and volume.faults() == []
    matplotlib.pyplot.close("all")
