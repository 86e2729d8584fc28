"""That no line of a comment in the sources is wider than 120 columns."""
import glob
import os
from collections.abc import Iterator

from program import ROOT, Cases

WIDEST = 120
# Folders of a crate with the ending of their files, and what a line of a comment begins with in these.
SOURCES = (("src", "rt", "//"), ("specs", "antt", "--"), ("proofs", "antt", "--"))


def wide_comments(path: str, mark: str) -> Iterator[int]:
    """The numbers of the lines that are comments and too wide."""
    with open(path) as file:
        for number, line in enumerate(file.read().split("\n"), 1):
            if line.lstrip().startswith(mark) and len(line) > WIDEST:
                yield number


def width_checks() -> Cases:
    for crate in sorted(glob.glob(os.path.join(ROOT, "crates", "*"))):
        wide = []
        for folder, ending, mark in SOURCES:
            for path in sorted(glob.glob(os.path.join(crate, folder, "**", f"*.{ending}"), recursive=True)):
                wide += [f"{os.path.relpath(path, ROOT)}:{number}" for number in wide_comments(path, mark)]
        fault = f"wider than {WIDEST} columns: {' '.join(wide[:8])}, {len(wide)} in all" if wide else None
        yield f"the comments of {os.path.basename(crate)}", fault
