"""The crates of crates.txt: which uses which, what each is made from, and how long its proof is likely to take."""

import hashlib
import os
import subprocess
from dataclasses import dataclass

ROOT = os.path.dirname(os.path.dirname(os.path.abspath(__file__)))
LIST = os.path.join(ROOT, "crates.txt")
PARTS = ("src", "specs", "proofs")
# Seconds of a proof on one processor: for any crate, for a kilobyte of code, and for one of definitions and proofs.
FOR_ANY, FOR_CODE, FOR_PROOFS = 20, 1.2, 0.15


class NotBuilt(Exception):
    """Why the program is not built, in one line."""


@dataclass(frozen=True)
class Crate:
    """A crate, the repository's crates and the toolchain's libraries that it names, and all crates below it."""

    name: str
    uses: tuple[str, ...]
    of_kit: tuple[str, ...]
    below: tuple[str, ...]

    @property
    def folder(self) -> str:
        return os.path.join(ROOT, "crates", self.name)

    def sources(self) -> list[str]:
        """Its files, in an order of their own."""
        found = []
        for part in PARTS:
            for at, _, names in os.walk(os.path.join(self.folder, part)):
                found += [os.path.join(at, name) for name in names]
        return sorted(found)

    def sum(self) -> str:
        """A sum of its line of crates.txt and of its files."""
        total = hashlib.sha256(repr((self.name, self.uses, self.of_kit)).encode())
        for file in self.sources():
            with open(file, "rb") as source:
                total.update(repr((os.path.relpath(file, ROOT), source.read())).encode())
        return total.hexdigest()

    def seconds(self) -> float:
        """How long its proof is likely to take, by the size of its files."""
        code = os.path.join(self.folder, "src") + os.sep
        each = [(os.path.getsize(file) / 1000, FOR_CODE if file.startswith(code) else FOR_PROOFS)
                for file in self.sources()]
        return FOR_ANY + sum(size * rate for size, rate in each)


def crates_for(program: str) -> dict[str, Crate]:
    """The crates that a program stands on, and its own at last, each after those that it uses."""
    named: dict[str, list[str]] = {}
    with open(LIST, encoding="utf-8") as lines:
        for line in lines:
            name, colon, uses = line.partition("#")[0].partition(":")
            if colon:
                # A static library has a word after its name.
                named[name.split()[0]] = uses.split()
    found: dict[str, Crate] = {}
    above: list[str] = []

    def visit(name: str) -> None:
        if name in above:
            raise NotBuilt(f"crates.txt has {name} stand on itself")
        if name not in named:
            raise NotBuilt(f"crates.txt has no line for {name}")
        above.append(name)
        uses = [it for it in named[name] if it in named]
        below: dict[str, None] = {}
        for used in uses:
            if used not in found:
                visit(used)
            below |= dict.fromkeys([*found[used].below, used])
        above.pop()
        of_kit = [it for it in named[name] if it not in named]
        found[name] = Crate(name, tuple(uses), tuple(of_kit), tuple(below))

    visit(program)
    return found


def is_stale(made: str) -> bool:
    """Whether what was made is not there, or a source is newer, as `./omega` asks it too."""
    return subprocess.run(["sh", os.path.join(ROOT, "make", "stale.sh"), made], check=False).returncode == 0
