"""The list of the families of checks, made from their docstrings: `checks/run --list` prints it, and docs/testing.md
has it.

The first paragraph of the docstring of a family's module says what the family checks, its first sentence in short.
"""
import os
import re
import subprocess
import sys
from collections.abc import Callable, Mapping

from program import ROOT, Cases

Families = Mapping[str, Callable[[], Cases]]
RUN = os.path.join(ROOT, "checks", "run")
PAGE = os.path.join("docs", "testing.md")
# The lines of the list, with the last line break.
ITEMS = re.compile(r"(?:^- \*\w+\*: .*\n)+", re.MULTILINE)


def description(checks: Callable[[], Cases]) -> str:
    """The first paragraph of the docstring of the module that has the checks, on one line."""
    said = sys.modules[checks.__module__].__doc__ or ""
    return " ".join(said.strip().split("\n\n")[0].split())


def first_sentences(families: Families) -> list[str]:
    """A line for each family: its name and the first sentence on it."""
    width = max(map(len, families))
    return [f"{name:{width}}  {re.split(r'(?<=[.]) ', description(checks))[0]}" for name, checks in families.items()]


def list_items(families: Families) -> list[str]:
    """An item in Markdown for each family, by their names."""
    return [f"- *{name}*: {description(checks)}" for name, checks in sorted(families.items())]


def page_with(page: str, items: list[str]) -> str:
    """The page with these items in the place of its list."""
    before, after = ITEMS.split(page, maxsplit=1)
    return before + "".join(f"{item}\n" for item in items) + after


def written_page(items: list[str]) -> None:
    """Puts the items into the page."""
    path = os.path.join(ROOT, PAGE)
    with open(path) as file:
        made = page_with(file.read(), items)
    with open(path, "w") as file:
        file.write(made)


def listing_checks() -> Cases:
    """The page has the list that is made."""
    with open(os.path.join(ROOT, PAGE)) as file:
        page = file.read()
    made = subprocess.run([sys.executable, RUN, "--list", "--markdown"], capture_output=True, text=True, check=True)
    good = page == page_with(page, made.stdout.splitlines())
    fault = "the docstrings say something else: run checks/run --list --write"
    yield f"{PAGE}: the list of families", None if good else fault
