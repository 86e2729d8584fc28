#!/usr/bin/env python3
"""Counts habits of comments that make sentences hard to read, over the sources and definitions of all crates.

python3 checks/sentences.py [--by-crate] [CRATE ...]
"""
import argparse
import re
from collections import Counter
from collections.abc import Iterator
from pathlib import Path

ROOT = Path(__file__).resolve().parent.parent
MOST_WORDS = 40
MOST_COLUMNS = 120
COMMENT = re.compile(r"^\s*(///|//!|//|--)(?: (.*))?$")
FUNCTION = re.compile(r"^\s*(?:pub(?:\([a-z]+\))? )?(?:const )?(?:unsafe )?fn \w")
# First words that end in -s and are no verbs in the third person.
NO_VERBS = {"This", "Its", "Edges", "Nodes", "Numbers", "Components", "Bytes", "Names", "Groups", "Plus", "As"}
# "States" is a verb in "States that a limit holds", and else the noun.
NOUN_STATES = re.compile(r"States (?!that\b|what\b|the\b)")
WORDS = {
    "'where' in a doc comment": re.compile(r"\bwhere\b"),
    "'stand' or 'stands'": re.compile(r"\bstands?\b"),
    "'is none' or 'none where'": re.compile(r"\bis none\b|\bnone where\b"),
    "'asked' or 'told'": re.compile(r"\basked\b|\btold\b"),
    "'so many'": re.compile(r"\bso many\b", re.IGNORECASE),
    "'of which'": re.compile(r"\bof which\b"),
    "a refusal as a bare number": re.compile(r"\b[1-6]\d(?:, [1-6]\d)*(?: or [1-6]\d)? alone\b"
                                             r"|(?:^|\. )[1-6]\d where\b"),
}
NOT_A_VERB = "a function's first word is no verb"
LONG_SENTENCE = f"a sentence over {MOST_WORDS} words"
LONG_LINE = f"a line over {MOST_COLUMNS} columns"
HABITS = [NOT_A_VERB, *WORDS, LONG_SENTENCE, LONG_LINE]


def comments(lines: list[str]) -> Iterator[tuple[str, str, str]]:
    """Each comment: its sign, its text, and the first line after it that is no attribute."""
    index = 0
    while index < len(lines):
        found = COMMENT.match(lines[index])
        if not found:
            index += 1
            continue
        sign, text = found.group(1), []
        while index < len(lines) and (found := COMMENT.match(lines[index])) and found.group(1) == sign:
            text.append(found.group(2) or "\n")
            index += 1
        after = index
        while after < len(lines) and lines[after].lstrip().startswith("#["):
            after += 1
        yield sign, " ".join(text), lines[after] if after < len(lines) else ""


def begins_with_verb(text: str) -> bool:
    found = re.match(r"[A-Za-z]+", text)
    first = found.group() if found else ""
    is_noun = first in NO_VERBS or NOUN_STATES.match(text)
    return first == "Whether" or first.endswith("s") and not is_noun


def habits_of(path: Path) -> Counter[str]:
    lines = path.read_text(encoding="utf-8").split("\n")
    counts: Counter[str] = Counter()
    for line in lines:
        counts[LONG_LINE] += bool(COMMENT.match(line)) and len(line) > MOST_COLUMNS
    for sign, text, after in comments(lines):
        if sign == "///" and FUNCTION.match(after):
            counts[NOT_A_VERB] += not begins_with_verb(text)
        prose = re.sub(r"`[^`]*`", "`code`", text)
        for habit, words in WORDS.items():
            if sign in ("///", "//!") or "doc comment" not in habit:
                counts[habit] += len(words.findall(prose))
        for sentence in re.split(r"(?<=[.:;?!])\s+(?=[A-Z`\[]|- )|\n", text):
            counts[LONG_SENTENCE] += len(sentence.split()) > MOST_WORDS
    return counts


def crate_habits(crate: Path) -> Counter[str]:
    counts: Counter[str] = Counter()
    for path in sorted([*crate.glob("src/**/*.rt"), *crate.glob("specs/**/*.antt")]):
        counts += habits_of(path)
    return counts


def main() -> None:
    parser = argparse.ArgumentParser(description=__doc__)
    parser.add_argument("--by-crate", action="store_true", help="print the counts of each crate")
    parser.add_argument("crates", nargs="*", help="count in these crates only")
    options = parser.parse_args()
    crates = [ROOT / "crates" / name for name in options.crates] or sorted((ROOT / "crates").glob("omega*"))
    total: Counter[str] = Counter()
    for crate in crates:
        counts = crate_habits(crate)
        total += counts
        if options.by_crate:
            found = ", ".join(f"{counts[habit]} {habit}" for habit in HABITS if counts[habit])
            print(f"{crate.name}: {found or 'none'}")
    for habit in HABITS:
        print(f"{total[habit]:6} {habit}")


if __name__ == "__main__":
    main()
