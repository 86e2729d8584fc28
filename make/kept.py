"""What was proved and built, and is kept: each library's statements, the program, and what each was made from."""

import contextlib
import hashlib
import json
import os
import shutil
from typing import TypedDict

from crates import ROOT, Crate

TOOL = "omega_tool"
OUT = os.path.join(ROOT, "crates", TOOL, "out")
PROGRAM = os.path.join(OUT, TOOL)
# `rt check`, `rt run` and `rt ci` leave this folder of a program as it is, and refuse libraries in any other.
LIBRARIES = os.path.join(OUT, "rlib")


# What is written of a crate's last proof: what it was made from, what it gave, and how many seconds it took.
Record = TypedDict("Record", {"from": str, "gave": str, "seconds": float}, total=False)


def target(name: str) -> str:
    """Where stands what a crate's proof makes: a library's statements, or the program."""
    return PROGRAM if name == TOOL else beside(name, "rlib")


def beside(name: str, ending: str) -> str:
    """A file of a crate among the libraries: `made`, the record; `new`, what its proof writes; `said`, what it says."""
    return os.path.join(LIBRARIES, f"{name}.{ending}")


def record_of(name: str) -> Record:
    """What was written of the crate's last proof, if anything."""
    try:
        with open(beside(name, "made"), encoding="ascii") as file:
            record: Record = json.load(file)
            return record
    except (OSError, ValueError):
        return {}


def sum_of(made: str) -> str:
    """A sum of the bytes of a file, or of all files of a folder."""
    files = [made] if os.path.isfile(made) else []
    for at, _, names in os.walk(made):
        files += [os.path.join(at, name) for name in names]
    total = hashlib.sha256()
    for file in sorted(files):
        with open(file, "rb") as source:
            total.update(repr((os.path.relpath(file, made), hashlib.sha256(source.read()).digest())).encode())
    return total.hexdigest()


def inputs_of(crate: Crate, identity: str, gave: dict[str, str]) -> str:
    """A sum of all that the crate's proof reads, where `gave` has the sum of what each crate below made."""
    below = [(name, gave[name]) for name in crate.below]
    return hashlib.sha256(repr((identity, crate.sum(), below)).encode()).hexdigest()


def still_given(name: str, inputs: str) -> str | None:
    """The sum of what the crate's last proof gave, where that was made from these inputs and stands as it was made."""
    record = record_of(name)
    # `rt run` and `rt ci` write the program too. Libraries are written here alone.
    stands = os.path.isdir(target(name)) if name != TOOL else record.get("gave") == sum_of(PROGRAM)
    return record["gave"] if stands and record.get("from") == inputs else None


def keep(name: str, inputs: str, seconds: float) -> str:
    """Puts what a proof made in its place, with its record. The sum of it."""
    made = target(name)
    # A record never stands beside what was made by another proof.
    with contextlib.suppress(FileNotFoundError):
        os.remove(beside(name, "made"))
    shutil.rmtree(made, ignore_errors=True)
    os.replace(beside(name, "new"), made)
    gave = sum_of(made)
    with open(beside(name, "made.new"), "w", encoding="ascii") as file:
        json.dump({"from": inputs, "gave": gave, "seconds": round(seconds, 1)}, file)
    os.replace(beside(name, "made.new"), beside(name, "made"))
    return gave
