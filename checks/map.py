#!/usr/bin/env python3
"""The tables of crates in docs/map.md, made from crates.txt and from the README.md in each crate.

    checks/map.py       writes the tables, and in each README.md the lines that crates.txt and the folders decide

A README.md says in this form what a crate is for, why it stands apart, what it stands on, and where its tests and its
wrong bodies are:

    # omega_x

    What the crate is for.

    - Apart: why it stands apart.
    - Stands on: the nearest crates of its line in crates.txt; of the toolchain, its libraries.
    - Tests: the crates of tests that call it, and the families of `checks/run` that try it.
    - Wrong bodies: the folders that have them, or `none:` and why.
    - Begin with: `function`, in `src/file.rt`, by whose contract the rest is understood.
    - A contract sees: the files of `specs/` that are not in `private`.
    - Not proved: what a user might expect and no contract says.
    - All else may change.

A crate is nearest if no other crate of the line stands on it. After the fourth bullet a README.md may say more, in
bullets and paragraphs of its own, and may have several bullets `Begin with` and `Not proved`.
"""
import glob
import os
import re
import sys
from collections.abc import Iterator
from dataclasses import dataclass

from program import ROOT

PAGE = os.path.join("docs", "map.md")
FORM = re.compile(r"# (?P<name>\w+)\n\n(?P<purpose>[^\n]+)\n\n- Apart: (?P<apart>[^\n]+)\n"
                  r"- Stands on: (?P<stands>[^\n]+)\n- Tests: (?P<tests>[^\n]+)\n- Wrong bodies: (?P<wrong>[^\n]+)\n"
                  r"(?P<more>.*)", re.DOTALL)
FOLDERS = ("must-fail", "wrong")
# The bullets behind the first four: where to begin, of which the name and the file are looked up; what a contract sees,
# which the folders decide; what is not proved; and the last.
BEGIN, NOT_PROVED, ELSE = "- Begin with: ", "- Not proved: ", "- All else may change."
BEGIN_FORM = re.compile(re.escape(BEGIN) + r"`(?:\w+::)?(\w+)`, in `(src/[\w/]+\.rt)`.*\.")
SEES = "- A contract sees: "
# A line of a file that has no definitions and lists other files.
LISTING = re.compile(r"pub (?:mod|use) .*| .*|\}|--.*|")
# The lines of the page between which its tables stand.
MARKS = {
    "crates": ("<!-- checks/map.py makes the tables of crates. -->\n\n",
               "\n<!-- These were the tables of crates. -->\n"),
    "tests": ("<!-- checks/map.py makes the table of tests. -->\n\n", "\n<!-- This was the table of tests. -->\n"),
}


@dataclass(frozen=True)
class Row:
    """A line of crates.txt: a crate with what it names, and the heading that it stands under."""

    name: str
    heading: str
    uses: tuple[str, ...]
    of_toolchain: tuple[str, ...]


@dataclass(frozen=True)
class Readme:
    """What the README.md of a crate says."""

    name: str
    purpose: str
    apart: str
    stands: str
    tests: str
    wrong: str
    more: str

    def bullets(self, title: str) -> list[str]:
        """The lines behind the first four bullets that begin so."""
        return [line for line in self.more.splitlines() if line.startswith(title)]


def path_of(name: str) -> str:
    return os.path.join(ROOT, "crates", name, "README.md")


def rows() -> list[Row]:
    """The lines of crates.txt, in their order."""
    heading, found = "", []
    with open(os.path.join(ROOT, "crates.txt")) as file:
        for line in file:
            before, colon, after = line.partition("#")[0].partition(":")
            if line.startswith("#"):
                heading = line[1:].strip()
            elif colon:
                found.append((before.split()[0], heading, after.split()))
    names = {name for name, _, _ in found}
    return [Row(name, heading, tuple(it for it in named if it in names), tuple(it for it in named if it not in names))
            for name, heading, named in found]


def below(row: Row, by_name: dict[str, Row]) -> set[str]:
    """All crates that a crate stands on."""
    found: set[str] = set()
    left = list(row.uses)
    while left:
        name = left.pop()
        if name not in found:
            found.add(name)
            left += by_name[name].uses
    return found


def nearest(row: Row, by_name: dict[str, Row]) -> list[str]:
    """The crates that a crate names and that no other one of these stands on."""
    under = {it for used in row.uses for it in below(by_name[used], by_name)}
    return [used for used in row.uses if used not in under]


def readme_of(name: str) -> Readme | None:
    """What the README.md of a crate says; none if it is not there or has another form."""
    try:
        with open(path_of(name)) as file:
            found = FORM.fullmatch(file.read())
    except FileNotFoundError:
        return None
    return Readme(**found.groupdict()) if found else None


def ticked(names: list[str] | tuple[str, ...]) -> str:
    return ", ".join(f"`{name}`" for name in names)


def stands_on(row: Row, by_name: dict[str, Row]) -> str:
    """What crates.txt says that a crate stands on, as its README.md should say it."""
    toolchain = f"of the toolchain {ticked(row.of_toolchain)}" if row.of_toolchain else ""
    return ("; ".join(part for part in (ticked(nearest(row, by_name)), toolchain) if part) or "no other crate") + "."


def wrong_in(name: str) -> list[str]:
    """The folders of a crate that have wrong bodies."""
    at = os.path.join(ROOT, "crates", name)
    return [folder for folder in FOLDERS if glob.glob(os.path.join(at, folder, "*.edit"))]


def wrong_bodies(readme: Readme) -> str:
    """What the folders of a crate say of its wrong bodies. Why there are none, its README.md alone says."""
    found = wrong_in(readme.name)
    if found:
        return ticked([folder + "/" for folder in found]) + "."
    return readme.wrong if readme.wrong.startswith("none: ") else "none."


def seen_by_contracts(name: str) -> str:
    """The bullet that says which files of definitions the public contracts of a crate may cite."""
    at = os.path.join(ROOT, "crates", name, "specs")
    paths = sorted(os.path.relpath(path, at) for path in glob.glob(os.path.join(at, "**", "*.antt"), recursive=True))
    seen = [path for path in paths if not path.startswith("private") and not is_listing(os.path.join(at, path))]
    said = f"in `specs/` {ticked(seen)}" if seen else "no definitions but those of the crates below"
    return f"{SEES}{said}."


def is_listing(path: str) -> bool:
    """Whether a file of definitions has none, and lists other files."""
    with open(path) as file:
        return all(LISTING.fullmatch(line) for line in file.read().splitlines())


def is_of_tests(name: str) -> bool:
    return name.endswith("_tests")


def families() -> set[str]:
    """The families of checks/run."""
    with open(os.path.join(ROOT, "checks", "run")) as file:
        return set(re.findall(r'^    "(\w+)": \w+,$', file.read(), re.MULTILINE))


def fault_of_tests(row: Row, readme: Readme, by_name: dict[str, Row]) -> str | None:
    """What is wrong with where a README.md says that the tests of a crate are."""
    for name in re.findall(r"`(\w+_tests)`", readme.tests):
        if name not in by_name or row.name not in by_name[name].uses:
            return f"crates.txt does not say that {name} uses it"
    for words in re.findall(r"`checks/run ([\w ]+)`", readme.tests):
        unknown = set(words.split()) - families()
        if unknown:
            return f"checks/run has no {' '.join(sorted(unknown))}"
    return None


def fault_of_begin(name: str, line: str) -> str | None:
    """What is wrong with a bullet that says where to begin."""
    found = BEGIN_FORM.fullmatch(line)
    if not found:
        return f"`{line}` does not have the form `{BEGIN}`NAME`, in `src/FILE.rt`.`"
    item, path = found.groups()
    try:
        with open(os.path.join(ROOT, "crates", name, path)) as file:
            declared = re.search(rf"\b(?:fn|struct|enum|trait) {item}\b", file.read())
    except FileNotFoundError:
        return f"it begins with {path}, which is not there"
    return None if declared else f"{path} declares no {item}"


def fault_of_more(readme: Readme) -> str | None:
    """What is wrong with what a README.md says behind its first four bullets."""
    begins = readme.bullets(BEGIN)
    if not begins or not readme.bullets(NOT_PROVED) or readme.bullets(ELSE) != [ELSE]:
        return f"it lacks one of the bullets `{BEGIN}`, `{NOT_PROVED}`, `{ELSE}`, or has the last more than once"
    seen = seen_by_contracts(readme.name)
    if readme.bullets(SEES) != [seen]:
        return f"its folder of definitions says `{seen}`"
    return next((fault for line in begins if (fault := fault_of_begin(readme.name, line))), None)


def fault_of_readme(row: Row, by_name: dict[str, Row]) -> str | None:
    """What is wrong with the README.md of a crate."""
    readme = readme_of(row.name)
    if readme is None:
        return "it is not there, or has another form"
    if readme.name != row.name:
        return f"it is headed {readme.name}"
    if readme.stands != stands_on(row, by_name):
        return f"crates.txt says that it stands on {stands_on(row, by_name)}"
    if readme.wrong != wrong_bodies(readme) or readme.wrong == "none.":
        return f"its folders of wrong bodies are {wrong_in(row.name)}; if there is none, it says why after `none: `"
    return fault_of_tests(row, readme, by_name) or fault_of_more(readme)


def crates_table(found: list[Row], readmes: dict[str, Readme]) -> str:
    """A table for each heading of crates.txt."""
    made, by_name, heading = "", {row.name: row for row in found}, None
    for row in found:
        if row.heading != heading:
            heading = row.heading
            made += f"\n**{heading}**\n\n| Crate | What it is for | Stands on |\n|---|---|---|\n"
        under = ticked(nearest(row, by_name)) or "no other crate"
        link = f"[`{row.name}`](../crates/{row.name}/README.md)"
        made += f"| {link} | {readmes[row.name].purpose.rstrip('.')} | {under} |\n"
    return made.lstrip("\n")


def tests_table(found: list[Row], readmes: dict[str, Readme]) -> str:
    """The crates of tests, each with the crates whose README.md names it."""
    made = "| Crate of tests | What it tests |\n|---|---|\n"
    for row in found:
        if is_of_tests(row.name):
            tested = [it.name for it in found if f"`{row.name}`" in readmes[it.name].tests]
            made += f"| `{row.name}` | {ticked(tested)} |\n"
    return made


def page(came: str) -> str:
    """The page with its tables as they have to be."""
    found = rows()
    readmes = {row.name: readme for row in found if (readme := readme_of(row.name))}
    for title, table in (("crates", crates_table), ("tests", tests_table)):
        begin, end = MARKS[title]
        before, middle, rest = came.partition(begin)
        _, closing, after = rest.partition(end)
        if not middle or not closing:
            raise SystemExit(f"{PAGE} has no place for {title}: {begin.strip()} .. {end.strip()}")
        came = before + begin + table(found, readmes) + end + after
    return came


def map_checks() -> Iterator[tuple[str, str | None]]:
    """That each README.md of a crate agrees with crates.txt and with its folders, and docs/map.md with them all."""
    found = rows()
    by_name = {row.name: row for row in found}
    faults = {row.name: fault_of_readme(row, by_name) for row in found}
    for name, fault in faults.items():
        yield f"crates/{name}/README.md", fault
    if all(readme_of(row.name) for row in found):
        with open(os.path.join(ROOT, PAGE)) as file:
            came = file.read()
        yield f"the tables of {PAGE}", None if came == page(came) else "they differ: run checks/map.py"


def mended_more(readme: Readme) -> str:
    """What stands behind the first four bullets, with one line on what a contract sees, after where to begin, and the
    last bullet once, after what is not proved."""
    lines = [line for line in readme.more.splitlines() if not line.startswith((SEES, ELSE))]
    for title, line in ((BEGIN, seen_by_contracts(readme.name)), (NOT_PROVED, ELSE)):
        at = max((index for index, it in enumerate(lines) if it.startswith(title)), default=None)
        if at is not None:
            lines.insert(at + 1, line)
    return "".join(line + "\n" for line in lines)


def mend_readme(row: Row, by_name: dict[str, Row]) -> None:
    """Writes the lines of a README.md that crates.txt and the folders decide."""
    readme = readme_of(row.name)
    if readme is None:
        raise SystemExit(f"crates/{row.name}/README.md is not there, or has another form: {__doc__}")
    with open(path_of(row.name), "w") as file:
        file.write(f"# {row.name}\n\n{readme.purpose}\n\n- Apart: {readme.apart}\n"
                   f"- Stands on: {stands_on(row, by_name)}\n- Tests: {readme.tests}\n"
                   f"- Wrong bodies: {wrong_bodies(readme)}\n{mended_more(readme)}")


def main() -> None:
    found = rows()
    by_name = {row.name: row for row in found}
    for row in found:
        mend_readme(row, by_name)
    path = os.path.join(ROOT, PAGE)
    with open(path) as file:
        made = page(file.read())
    with open(path, "w") as file:
        file.write(made)
    faults = [f"{label}: {fault}" for label, fault in map_checks() if fault]
    print("".join(fault + "\n" for fault in faults), end="")
    sys.exit(1 if faults else 0)


if __name__ == "__main__":
    main()
