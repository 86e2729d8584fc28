"""That each wrong body of both tiers, `must-fail/` and `wrong/` of each crate, can be applied.

An edit is a text of lines `file: PATH`, and behind each of them pairs of a line `old: TEXT` and a line `new: TEXT`.
Each `old:` text stands exactly once in its file, as the pairs before it left that file.
"""
import os
import re
from collections.abc import Iterator

from program import ROOT

CRATES = os.path.join(ROOT, "crates")
# The gate tries those of the first folder, `checks/wrong` those of the second.
GATE, OTHERS = "must-fail", "wrong"
TIERS = (GATE, OTHERS)
# What the gate tries, at most: each crate that has such edits is proved twice, so these crates are few and small.
MOST_EDITS, MOST_CRATES = 50, 13
NAME = re.compile(r"[a-z][a-z0-9_]*\.edit")
# The page that lists them, and a row of its table: the crate, or nothing where it is that of the row above, and names.
PAGE = os.path.join(ROOT, "docs", "testing.md")
HEAD, ROW = "| Crate | Edit | Promise |\n|---|---|---|\n", re.compile(r"\| (?:`(\w+)` )?\| (`\w+`(?:, `\w+`)*) \|")
# What an edit may change.
PARTS = ("src/", "specs/", "proofs/")
# The wrong bodies that the gate always tries, whatever else is moved from one tier to the other.
ALWAYS = frozenset("""
    lifts_never_counted nothing_answered all_with_first_successors least_at_opponent_too no_carry predecessors_not_added
    always_spent budget_ignored attempts_never_counted only_walks_through_listed bound_none_or_cut no_marks_is_even
    greatest_mark_for_min_too or_binds_tighter later_definitions_seen aborted_examined_or_kept tail_lost
    unusable_edges_kept sink_priority_zero emptiness_always_empty emptiness_always_too_wide empty_always_written
    double_zero_or_owner_two repeats_merged header_without_lines solution_always_bad canon_copies_input
    solve_always_budget io_without_reading accepted_without_reading
""".split())


def folder_of(crate: str, tier: str) -> str:
    """The folder of a crate's edits of a tier."""
    return os.path.join(CRATES, crate, tier)


def edits_of(crate: str, tier: str) -> list[str]:
    """The names of the files in the folder of a crate's edits, in order; none where there is no such folder."""
    folder = folder_of(crate, tier)
    return sorted(os.listdir(folder)) if os.path.isdir(folder) else []


def crates_with(tier: str) -> list[str]:
    """The crates that have edits of a tier."""
    return [crate for crate in sorted(os.listdir(CRATES)) if edits_of(crate, tier)]


def applied(text: str, crate: str) -> tuple[dict[str, str], str | None]:
    """The texts of the crate's files that an edit changes, by their paths, and why it cannot be applied, or nothing."""
    path, old = "", ""
    texts: dict[str, str] = {}
    for line in text.splitlines():
        kind, _, rest = line.partition(":")
        rest = rest.removeprefix(" ")
        if kind == "file" and not old and rest.startswith(PARTS) and os.path.isfile(os.path.join(CRATES, crate, rest)):
            path = rest
            if path not in texts:
                with open(os.path.join(CRATES, crate, path), encoding="utf-8") as file:
                    texts[path] = file.read()
        elif kind == "old" and path and not old and rest:
            old = rest
            if texts[path].count(old) != 1:
                return texts, f"`{old}` stands in {path} {texts[path].count(old)} times"
        elif kind == "new" and old and rest != old:
            texts[path], old = texts[path].replace(old, rest), ""
        else:
            return texts, f"the line `{line}` is not due, or names no file"
    return texts, "its last `old:` has no `new:`" if old else None if texts else "it is empty"


def edit_fault(crate: str, tier: str, name: str) -> str | None:
    """Why an edit cannot be tried, or nothing."""
    if not NAME.fullmatch(name):
        return "its name is not one of small letters, digits and `_` that ends in `.edit`"
    with open(os.path.join(folder_of(crate, tier), name), encoding="utf-8") as file:
        return applied(file.read(), crate)[1]


def listed() -> dict[str, list[str]]:
    """The wrong bodies of the gate as the page lists them, by their crates."""
    with open(PAGE, encoding="utf-8") as file:
        table = file.read().partition(HEAD)[2].partition("\n\n")[0]
    found: dict[str, list[str]] = {}
    for row in table.splitlines():
        match = ROW.match(row)
        if match and (match[1] or found):
            found.setdefault(match[1] or list(found)[-1], []).extend(re.findall(r"\w+", match[2]))
    return found


def edit_checks() -> Iterator[tuple[str, str | None]]:
    """Each wrong body can be applied, and those of the gate are few and hold the ones that it always tries."""
    gate = {crate: edits_of(crate, GATE) for crate in crates_with(GATE)}
    for crate in sorted({*gate, *crates_with(OTHERS)}):
        for tier in TIERS:
            for name in edits_of(crate, tier):
                yield f"crates/{crate}/{tier}/{name}", edit_fault(crate, tier, name)
        twice = {*edits_of(crate, GATE)} & {*edits_of(crate, OTHERS)}
        yield f"the edits of {crate}", f"{' '.join(sorted(twice))} stands in both tiers" if twice else None
    count = sum(len(names) for names in gate.values())
    yield "the number of the gate's wrong bodies", f"{count}, over {MOST_EDITS}" if count > MOST_EDITS else None
    wide = f"{len(gate)}, over {MOST_CRATES}" if len(gate) > MOST_CRATES else None
    yield "the number of crates with wrong bodies that the gate tries", wide
    rows = {crate: sorted(names) for crate, names in listed().items()}
    tried = {crate: sorted(name.removesuffix(".edit") for name in names) for crate, names in gate.items()}
    for crate in sorted({*rows, *tried}):
        fault = None if rows.get(crate) == tried.get(crate) else f"it has {rows.get(crate)} for {tried.get(crate)}"
        yield f"the table of docs/testing.md, {crate}", fault
    held = {name for names in tried.values() for name in names}
    for name in sorted(ALWAYS):
        yield f"the wrong body {name}", None if name in held else f"it is in no {GATE}/"
