"""The Python of make/, checks/, python/ and bench/. Each parameter and each result has a type hint; and where they are
installed, `ruff check` and `mypy` find nothing that `pyproject.toml` asks for.
"""
import ast
import glob
import os
import shutil
import subprocess
from collections.abc import Iterator
from functools import partial

from program import ROOT, SECONDS, Cases, Fault

# Two folders may have modules of one name, so `mypy` has a run for each.
FOLDERS = (".", "make", "checks", "python/omega", "bench")


def is_python(path: str) -> bool:
    """Whether a file is a module, or a script that names Python in its first line."""
    if path.endswith(".py") or os.path.isdir(path):
        return path.endswith(".py")
    with open(path, "rb") as file:
        return file.readline().rstrip() == b"#!/usr/bin/env python3"


def sources_of(folder: str) -> list[str]:
    """The Python files of a folder, by their paths in the repository."""
    paths = sorted(glob.glob(os.path.join(ROOT, folder, "*")))
    return [os.path.relpath(path, ROOT) for path in paths if is_python(path)]


def names_without_hint(function: ast.FunctionDef | ast.AsyncFunctionDef) -> Iterator[str]:
    """The parameters of a function that have no hint, but for `self` and `cls`, and `return` for the result."""
    taken = function.args
    for each in [*taken.posonlyargs, *taken.args, *taken.kwonlyargs, taken.vararg, taken.kwarg]:
        if each and each.annotation is None and each.arg not in ("self", "cls"):
            yield each.arg
    if function.returns is None:
        yield "return"


def hint_fault(path: str) -> Fault:
    """The functions of a file that lack a hint, or nothing."""
    with open(os.path.join(ROOT, path), encoding="utf-8") as file:
        tree = ast.parse(file.read())
    lacking = [f"{path}:{it.lineno}: {it.name} has no hint at {', '.join(names)}" for it in ast.walk(tree)
               if isinstance(it, ast.FunctionDef | ast.AsyncFunctionDef) and (names := list(names_without_hint(it)))]
    return "; ".join(lacking) or None


def tool_fault(words: list[str]) -> Fault:
    """What a checker that is installed says, if it finds something."""
    ran = subprocess.run(words, cwd=ROOT, capture_output=True, text=True, timeout=SECONDS)
    return f"{ran.stdout}{ran.stderr}" if ran.returncode else None


def python_checks() -> Cases:
    sources = {folder: sources_of(folder) for folder in FOLDERS}
    every = [path for paths in sources.values() for path in paths]
    for path in every:
        yield f"the hints of {path}", partial(hint_fault, path)
    for tool in ("ruff", "mypy"):
        if not shutil.which(tool):
            print(f"python: {tool} is passed over, since it is not installed", flush=True)
    if shutil.which("ruff"):
        yield "ruff check", partial(tool_fault, ["ruff", "check", "--quiet", *every])
    for folder, paths in sources.items() if shutil.which("mypy") else ():
        if paths:
            yield f"mypy of {folder}", partial(tool_fault, ["mypy", "--no-error-summary", *paths])
