"""The toolchain: where it is, in which logic it proves, how it is called, and what it must say.

What is used of it, and its help does not say:

- `rt version` prints one line, `KIT logic SUM`. `rt doc` prints the path of a page in the toolchain's folder.
- In that folder stand `bin/rattle` and `bin/rattle-link`; `rlibs/NAME.rlib`, the toolchain's libraries; `logic_built`,
  the logic as it is loaded, and `rattle/logic/antt-project.json`, its project; `toolchain`, with clang and the linker;
  and the C code of the standard library, `c/libos_c.a` for programs and `c/liblibc_c.a`, which allocates.
- The last line of `rattle build` is `logic=proved WORD=VALUE.. native=nat,char,string logic-built=trusted
  libraries-built=trusted statements=trusted`, in this order. `WORDS` has the words that may stand before `native`.
  Among them is `sum`, the sum of the logic of the proof, which is the one that `rt version` prints.
"""

import os
import re
import shutil
import subprocess

from crates import ROOT, Crate, NotBuilt
from progress import say

TARGET = "x86_64-unknown-linux-gnu"
# How many functions are proved, how many functions of C the toolchain's libraries call, for which machine, and in which
# logic. Any other word may name something else that is taken on trust.
WORDS = "functions|axioms|target|cpu|sum"
# The toolchain's libraries and the statements of the libraries below, which were proved before, are taken as proved.
PROVED = re.compile(rf"^logic=proved((?: (?:{WORDS})=\S+)+) native=nat,char,string logic-built=trusted"
                    r" libraries-built=trusted statements=trusted\n\Z", re.MULTILINE)
LOGIC = re.compile(r"\blogic [0-9a-f]+\b")


class Kit:
    """A toolchain in a folder. `identity` is its line, `logic` the part of it that names its logic, and `wanted` the
    logic that the sources are written in."""

    def __init__(self, folder: str, identity: str, logic: str, wanted: str) -> None:
        self.folder, self.identity, self.logic, self.wanted = folder, identity, logic, wanted

    @staticmethod
    def found() -> "Kit":
        """The toolchain in PATH, whatever its logic is."""
        if not shutil.which("rt"):
            raise NotBuilt("the program is not built, or older than its sources, and the toolchain that builds it, "
                           "rt, is not in PATH")
        identity = said_by("rt", "version")
        logic = LOGIC.search(identity)
        if not logic:
            raise NotBuilt(f"what rt version prints names no logic: {identity!r}")
        return Kit(os.path.dirname(said_by("rt", "doc")), identity, logic[0], wanted_logic())

    def difference(self) -> str:
        """What is to be said of its logic: nothing, if that is the one that is wanted."""
        if self.logic == self.wanted:
            return ""
        return f"the logic of the toolchain, {self.identity}, is not the one of these sources, {self.wanted}"

    def tell(self) -> None:
        """Says in one line that its logic differs, if it does."""
        if self.difference():
            say(f"{self.difference()}; each crate is proved in the toolchain's")

    def explained(self, failure: str) -> str:
        """A failure, and after it that the logic differs, if it does."""
        return "; ".join(filter(None, (failure, self.difference())))

    def proving(self, crate: Crate, libraries: str, jobs: int, made: str) -> list[str]:
        """The command that proves a library from nothing and makes its statements, by which the crates above it are
        proved: its public items and what is proved of them, without the proofs."""
        return [*self.reading(crate, libraries, jobs), "--statements", "-o", made]

    def compiling(self, crate: Crate, libraries: str, jobs: int, made: str) -> list[str]:
        """The command that proves a program from nothing, and compiles what is proved into an object file."""
        words = self.reading(crate, libraries, jobs)
        for name in crate.below:
            words += ["--links", f"{name}="]
        return [*words, "--toolchain", f"{self.folder}/toolchain", "--backend", "llvm", "-o", made]

    def archiving(self, crate: Crate, libraries: str, jobs: int, made: str) -> list[str]:
        """The command that proves a static library from nothing, and compiles what is proved into an archive."""
        return [*self.compiling(crate, libraries, jobs, made), "--crate-type", "staticlib"]

    def reading(self, crate: Crate, libraries: str, jobs: int) -> list[str]:
        """The words that all these commands share."""
        root = "main" if os.path.exists(os.path.join(crate.folder, "src", "main.rt")) else "lib"
        words = [f"{self.folder}/bin/rattle", "build", "--crate-name", crate.name, f"src/{root}.rt"]
        for name in ("std", *crate.of_kit):
            words += ["--extern", f"{name}={self.folder}/rlibs/{name}.rlib"]
        for name in crate.uses:
            words += ["--extern", f"{name}={libraries}/{name}.rlib"]
        words += ["-L", f"dependency={self.folder}/rlibs", "-L", f"dependency={libraries}"]
        words += ["--antt-project", f"{self.folder}/rattle/logic/antt-project.json"]
        # No function of C is linked beside those of the toolchain.
        return [*words, "--logic-built", f"{self.folder}/logic_built", "--jobs", str(jobs), "--links", f"{crate.name}="]

    def linking(self, made: str, program: str) -> list[str]:
        """The command that links an object file to a program."""
        words = [f"{self.folder}/bin/rattle-link", "--target", TARGET, "--toolchain", f"{self.folder}/toolchain"]
        return [*words, "-o", program, made, f"{self.folder}/c/libos_c.a", self.allocation()]

    def allocation(self) -> str:
        """The archive of C code that allocates, which each program and static library needs."""
        return f"{self.folder}/c/liblibc_c.a"

    def proof_fault(self, said: str) -> str | None:
        """What is wrong with the last line of a proof. It must say that all is proved, in the logic of this toolchain,
        and rests on nothing else."""
        found, last = PROVED.search(said), said.strip().rpartition("\n")[2]
        if not found:
            return f"its last line is not that of a whole proof: {last!r}"
        if f"sum={self.logic.split()[1]}" not in found[1].split():
            return f"its last line is not that of a proof in the toolchain's {self.logic}: {last!r}"
        return None


def wanted_logic() -> str:
    """The logic that the sources are written in, the one line of the file TOOLCHAIN."""
    with open(os.path.join(ROOT, "TOOLCHAIN"), encoding="utf-8") as file:
        line = file.read().strip()
    if not LOGIC.fullmatch(line):
        raise NotBuilt(f"TOOLCHAIN has {line!r}, and not a line as `logic 0123456789abcdef`")
    return line


def said_by(*words: str) -> str:
    """What a command of the toolchain prints."""
    try:
        ran = subprocess.run(words, stdin=subprocess.DEVNULL, capture_output=True, text=True, check=True)
    except (OSError, subprocess.CalledProcessError) as fault:
        raise NotBuilt(f"{' '.join(words)} fails: {fault}") from None
    return ran.stdout.strip()
