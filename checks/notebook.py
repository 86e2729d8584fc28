"""The notebook of examples/: each cell runs, and shows something where it ends with an expression. Where Graphviz's
`dot` is installed, what is drawn is a picture. Where Jupyter is, it runs the notebook too."""
import ast
import json
import os
import shutil
import subprocess
import tempfile
from functools import partial
from typing import Any

from program import ROOT, SECONDS, Cases, Fault

FOLDER = os.path.join(ROOT, "examples")
NOTEBOOK = os.path.join(FOLDER, "omega.ipynb")
# What a picture is that says that there is none.
MISSING = "is not installed"


def cells() -> list[str]:
    """The cells of code."""
    with open(NOTEBOOK, encoding="utf-8") as file:
        return ["".join(cell["source"]) for cell in json.load(file)["cells"] if cell["cell_type"] == "code"]


def shown_by(cell: str, names: dict[str, Any]) -> Any:
    """Runs a cell. The value of the expression that it ends with, which a notebook shows."""
    tree = ast.parse(cell)
    last = tree.body[-1]
    if not isinstance(last, ast.Expr):
        exec(compile(tree, "cell", "exec"), names)
        return None
    tree.body.pop()
    exec(compile(tree, "cell", "exec"), names)
    return eval(compile(ast.Expression(last.value), "cell", "eval"), names)


def cell_fault(cell: str, names: dict[str, Any]) -> Fault:
    """What is wrong with a cell, or nothing."""
    value = shown_by(cell, names)
    if value is None:
        return "it shows nothing"
    picture = value._repr_svg_() if hasattr(value, "_repr_svg_") else None
    if picture is None:
        return None
    if not picture.startswith("<svg"):
        return f"{picture[:80]!r} is no picture"
    drawn = MISSING not in picture
    return None if drawn == bool(shutil.which("dot")) else f"there is {'a' if drawn else 'no'} picture"


def jupyter_fault(env: dict[str, str]) -> Fault:
    """What is wrong where Jupyter runs the notebook, or nothing."""
    with tempfile.TemporaryDirectory() as folder:
        words = ["jupyter", "nbconvert", "--to", "html", "--execute", "--output-dir", folder, NOTEBOOK]
        ran = subprocess.run(words, cwd=FOLDER, env=env, capture_output=True, text=True, timeout=SECONDS)
    return ran.stderr[-600:] if ran.returncode else None


def notebook_checks(env: dict[str, str]) -> Cases:
    """Each cell, in the folder of the notebook, as Jupyter runs it; and by Jupyter, in an environment that finds the
    package."""
    names: dict[str, Any] = {}
    before = os.getcwd()
    os.chdir(FOLDER)
    try:
        for number, cell in enumerate(cells()):
            yield f"the cell {number} of examples/omega.ipynb", cell_fault(cell, names)
    finally:
        os.chdir(before)
    if shutil.which("jupyter"):
        yield "Jupyter runs examples/omega.ipynb", partial(jupyter_fault, env)
