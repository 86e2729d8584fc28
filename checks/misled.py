"""A search that answers wrongly on purpose: a build of the check's own, in which the search behind `realize -f` and
`ltl --deterministic` changes what it found. Each answer is caught by its judge and refused as 59; where the search is
left as it is, none is.

The toolchain runs it before anything is proved, since a change of the search breaks no proof: nothing is proved of what
it finds. It takes a minute or two of processor time.
"""
import os
import re
import shutil
import subprocess
import tempfile
from collections.abc import Iterator

from program import ROOT

HERE = os.path.join(ROOT, "checks", "misled")
# The file of the search, what stands there twice, and what stands there then.
SEARCH = os.path.join("crates", "omega_ltl_deterministic", "src", "candidate.rt")
FOUND, CHANGED = "product_of_parts(alloc, formula)?", "misled(alloc, product_of_parts(alloc, formula), formula)?"
# The crate that has the judges below it, and whose tests are those of the check.
ANSWERS = os.path.join("crates", "omega_answers_synth")
VERDICT = re.compile(r"^test misled::(\w+) \.\.\. (\w+)$", re.MULTILINE)
TESTS = {"wrong_automata_are_caught", "wrong_winners_are_caught"}
# Far above what the run takes on a slow machine.
LONG = 1800

# A check: what is tried, and its fault, if it has one.
Check = tuple[str, str | None]


def text_of(*path: str) -> str:
    with open(os.path.join(*path), encoding="utf-8") as file:
        return file.read()


def write(text: str, *path: str) -> None:
    with open(os.path.join(*path), "w", encoding="utf-8") as file:
        file.write(text)


def mislead(tree: str) -> str | None:
    """Changes the search of a copy of the sources, and adds the tests. Returns why it cannot, or nothing."""
    search = text_of(tree, SEARCH)
    uses = re.search(r"use omega_text::\{(.*)\};", search)
    if search.count(FOUND) != 2 or not uses:
        return f"{SEARCH} is of another form"
    names = ", ".join(sorted({*uses[1].split(", "), "Seq"}))
    search = search.replace(FOUND, CHANGED).replace(uses[0], f"use omega_text::{{{names}}};")
    write(search + text_of(HERE, "search.rt.in"), tree, SEARCH)
    root = text_of(tree, ANSWERS, "src", "lib.rt")
    write(f"{root}\n#[cfg(test)]\nmod misled;\n", tree, ANSWERS, "src", "lib.rt")
    shutil.copy(os.path.join(HERE, "answers.rt.in"), os.path.join(tree, ANSWERS, "src", "misled.rt"))
    return None


def misled_checks() -> Iterator[Check]:
    with tempfile.TemporaryDirectory(prefix="omega-misled-") as tree:
        shutil.copytree(os.path.join(ROOT, "crates"), os.path.join(tree, "crates"),
                        ignore=shutil.ignore_patterns("out", "wrong", "must-fail"))
        for name in ("crates.txt", "HANDLES", "TOOLCHAIN"):
            shutil.copy(os.path.join(ROOT, name), tree)
        fault = mislead(tree)
        yield "the search", fault
        if fault:
            return
        if not shutil.which("rt"):
            print("misled: the toolchain, rt, is not in PATH", flush=True)
            return
        ran = subprocess.run(["rt", "try", "--test"], cwd=os.path.join(tree, ANSWERS), text=True, timeout=LONG,
                             stdout=subprocess.PIPE, stderr=subprocess.STDOUT, check=False)
    verdicts = dict(VERDICT.findall(ran.stdout))
    for test in sorted(TESTS):
        yield test, None if verdicts.get(test) == "ok" else ran.stdout[-1000:]
    yield "all tests", None if set(verdicts) == TESTS else f"{sorted(verdicts)}"
