"""The manual, docs/omega.1, against the help of the program and the pages: what one names, the other names.

Of the manual's macros only those are read that it uses: sections, subsections, tagged paragraphs and examples.
"""
import os
import re
from collections.abc import Iterator
from typing import Any

from program import ROOT, Cases, Fault, help_of, subcommands

# The one refusal that no help names by its number: help says "out of memory".
UNNUMBERED = {("60", "Memory")}
ESCAPES = {r"\-": "-", r"\e": "\\", r"\(aq": "'", r"\(dq": '"', r"\&": "",
           r"\fB": "", r"\fI": "", r"\fR": "", r"\fP": ""}


def plain(line: str) -> str:
    for escape, meant in ESCAPES.items():
        line = line.replace(escape, meant)
    return line


def manual_lines() -> list[str]:
    with open(os.path.join(ROOT, "docs", "omega.1")) as file:
        return [plain(line.rstrip("\n")) for line in file if not line.startswith('.\\"')]


def sections(macro: str, lines: list[str]) -> dict[str, list[str]]:
    """The lines below each heading that the macro makes, up to the next heading of any kind."""
    made: dict[str, list[str]] = {}
    kept: list[str] | None = None
    for line in lines:
        if line.startswith((".SH", ".SS")):
            kept = made.setdefault(line[4:].strip('"'), []) if line.startswith(macro) else None
        elif kept is not None:
            kept.append(line)
    return made


def tags(lines: list[str]) -> list[str]:
    """The tags of the paragraphs, without font macros and the quotes of their arguments."""
    heads = [after for line, after in zip(lines, lines[1:]) if line == ".TP"]
    return [" ".join(re.sub(r"^\.(BI|BR|B|I) ", "", head).replace('"', "").split()) for head in heads]


def examples_of_manual() -> Iterator[list[str]]:
    """The examples, each as the lines of a block."""
    block: list[str] | None = None
    for line in manual_lines():
        if line == ".EX":
            block = []
        elif block is not None and line == ".EE":
            yield block
            block = None
        elif block is not None:
            block.append(line)


def prose_of_manual() -> str:
    text, is_example = [], False
    for line in manual_lines():
        is_example = line == ".EX" or is_example and line != ".EE"
        if not is_example and not line.startswith(".TH"):
            text.append(line)
    return "\n".join(text)


def prose_of(help_text: str) -> str:
    """Help without its examples, which are indented; options are too, and stay."""
    return "\n".join(line for line in help_text.split("\n")
                     if not line.startswith("  ") or line.lstrip().startswith("-"))


def numbers_in(text: str) -> set[str]:
    """The numbers of two digits and more: limits, and the numbers of refusals."""
    return set(re.findall(r"(?<![\d.^])\d{2,}(?![\d.]\d)", text))


def refusals_in(text: str) -> set[tuple[str, str]]:
    return set(re.findall(r"\b(\d+) ([A-Z][a-z]+(?:[A-Z][a-z]+)*)\b", text))


def refusals_of_formats() -> set[tuple[str, str]]:
    with open(os.path.join(ROOT, "docs", "formats.md")) as file:
        return set(re.findall(r"^\| (\d+) \| (\w+)", file.read(), re.MULTILINE))


def options_of(help_text: str) -> set[str]:
    """The long options with the names of their values."""
    found = re.findall(r"^ +(?:-\w, )?(--[a-z-]+)(?: <(\w+)>)?", help_text, re.MULTILINE)
    return {f"{name} {value}".strip() for name, value in found if name not in ("--help", "--version")}


def statuses_of(help_text: str) -> dict[str, str]:
    listed = re.findall(r"^Exit status:\n((?:  .*\n)*)", help_text, re.MULTILINE)[0]
    return dict(re.findall(r"^  (\d+)  (.*)$", listed, re.MULTILINE))


def compared(label: str, ours: set[Any], theirs: set[Any]) -> tuple[str, Fault]:
    """What only the manual has, and what only the other has."""
    fault = f"the manual alone has {sorted(ours - theirs)}, the other {sorted(theirs - ours)}"
    return label, None if ours == theirs else fault


def manual_checks() -> Cases:
    lines = manual_lines()
    parts, commands = sections(".SH", lines), sections(".SS", lines)
    names = subcommands()
    helps = {name: help_of(name) for name in ("", *names)}
    yield compared("the subcommands of the manual and of the help", {head.split()[-1] for head in commands}, set(names))
    for head, below in commands.items():
        name = head.split()[-1]
        ours = {tag for tag in tags(below) if tag.startswith("--")}
        yield compared(f"the options of {name}", ours, options_of(helps.get(name, "")))
        for value in re.findall(r"\[possible values: ([^\]]*)\]", helps.get(name, "")):
            missing = [one for one in value.split(", ") if one not in "\n".join(below)]
            yield f"the values of {name}", f"the manual lacks {missing}" if missing else None
    ours = {head for head in tags(parts["EXIT STATUS"])}
    yield compared("the exit statuses", ours, set(statuses_of(helps[""])))
    listed = {tuple(tag.split()[:2]) for tag in tags(parts["REFUSALS"])}
    yield compared("the refusals of the manual and of docs/formats.md", listed, refusals_of_formats())
    told = set().union(*(refusals_in(prose_of(text)) for text in helps.values())) & (listed | refusals_of_formats())
    yield compared("the refusals of the manual and of the help", listed - UNNUMBERED, told)
    said = set().union(*(numbers_in(prose_of(text)) for text in helps.values()))
    ours = numbers_in(prose_of_manual()) - {number for number, _ in UNNUMBERED}
    yield compared("the numbers of the manual and of the help", ours, said)
