"""Stand-ins of the libraries, so that a crate can be checked while those below it are not proved.

    python3 make/standins.py FOLDER omega_run ..              makes stand-ins of the libraries below these crates
    python3 make/standins.py FOLDER --check omega_run ..      checks a crate over them, with the flags of `rattle check`

A stand-in has the types, the definitions and the contracts of its library, and the lemmas that another crate cites. Its
bodies are left out: each calls a function of C of which the contract says that it never returns, and from that
anything follows. So stand-ins take less than half of the time of proofs, and what is checked over them is checked
against the same contracts. Nothing is proved by it: the gate and `make` never see a stand-in.

FOLDER is kept for the next time, and lies outside the repository. A stand-in is made again where its library changed.
"""

import os
import re
import shutil
import subprocess
import sys
import time
from collections.abc import Iterator
from dataclasses import dataclass

from build import lanes_here
from crates import ROOT, Crate, NotBuilt, crates_for
from kit import Kit

FOREIGN = """unsafe extern "C" {
    pub(crate) safe fn stand_in() -> u32
        ensures never { ⊥ };
}
"""
BODY = b"{ crate::stand_in::stand_in(); unreachable!() }"
# Methods of traits of the standard library. If they are short they stay, since laws of impls may rest on them.
KEPT = set(b"eq ne cmp partial_cmp lt le hash fmt clone drop from default borrow as_ref deref".split())
ANSWERS = ("Answers.antt", "Invariants.antt", "Proof.antt")
WORD = re.compile(rb"[A-Za-z_]\w*")
CITED = re.compile(r"Rattle\.(\w+)\.proofs\.([\w.\-+◌]+)")
NODE = re.compile(r"(?m)^(?:pub )?mod ")
TOKEN = re.compile(rb"(?m)^\d+ (\d+) (\d+) (\w+)")
OPENING, CLOSING = {b"(", b"[", b"{"}, {b")", b"]", b"}"}


@dataclass(frozen=True)
class Function:
    """A function of a file: where its item lies, where its body does if it has one, its name, what stands before `fn`,
    and whether its body is that of a method of a trait."""

    item: tuple[int, int]
    body: tuple[int, int] | None
    name: bytes
    before: tuple[bytes, ...]
    is_of_trait: bool

    def is_public(self) -> bool:
        """Whether it is `pub` and not `pub(crate)`. An attribute before it may have parentheses of its own."""
        return any(it == b"pub" and self.before[at + 1 : at + 2] != (b"(",) for at, it in enumerate(self.before))

    def is_left_out(self, text: bytes) -> bool:
        if not self.body or b"const" in self.before or b"ghost" in self.before:
            return False
        body = text[slice(*self.body)]
        is_short = body.count(b"\n") <= 3 and not re.search(rb"\b(for|while)\b", body)
        return not (is_short and self.name in KEPT)


class Source:
    """A file of code, by the compiler's own tokens."""

    def __init__(self, rattle: str, file: str) -> None:
        self.file = file
        with open(file, "rb") as opened:
            self.text = opened.read()
        said = subprocess.run([rattle, "fmt", "--tokens", file], capture_output=True, check=True).stdout
        self.tokens = [(int(it[1]), int(it[2]), it[3]) for it in TOKEN.finditer(said)]
        self.functions = list(self.found())

    def word(self, at: int) -> bytes:
        start, end, kind = self.tokens[at]
        return b"" if kind == b"Literal" else self.text[start:end]

    def behind(self, at: int) -> int:
        """The place behind the brackets that open at a token."""
        depth = 0
        while True:
            depth += (self.word(at) in OPENING) - (self.word(at) in CLOSING)
            at += 1
            if not depth:
                return at

    def end_of(self, at: int) -> tuple[int, tuple[int, int] | None]:
        """The place behind the function whose name is at a token, and its body. Clauses have braces of another kind."""
        while self.word(at) != b";":
            if self.word(at) == b"{" and self.tokens[at][2] == b"Code":
                end = self.behind(at)
                return end, (self.tokens[at][0], self.tokens[end - 1][1])
            at = self.behind(at) if self.word(at) in OPENING else at + 1
        return at + 1, None

    def found(self) -> Iterator[Function]:
        at, start, inside = 0, 0, [False]
        while at < len(self.tokens):
            word, is_code = self.word(at), self.tokens[at][2] == b"Code"
            if is_code and word == b"#":
                is_inner = self.word(at + 1) == b"!"
                at = self.behind(at + 1 + is_inner)
                start = at if is_inner else start
            elif is_code and word == b"fn" and WORD.fullmatch(self.word(at + 1)):
                end, body = self.end_of(at + 2)
                item = self.tokens[start][0], self.tokens[end - 1][1]
                before = tuple(self.word(it) for it in range(start, at))
                yield Function(item, body, self.word(at + 1), before, inside[-1])
                at = start = end
            elif word == b"{" and not is_code:
                at = self.behind(at)
            else:
                if word == b"{":
                    words = {self.word(it) for it in range(start, at)}
                    inside.append(b"trait" in words or {b"impl", b"for"} <= words)
                elif word == b"}":
                    inside.pop()
                at += 1
                start = at if word in (b"{", b"}", b";") else start

    def words_without(self, left: list[tuple[int, int]]) -> Iterator[bytes]:
        """The words of the tokens that are in none of these ranges."""
        ranges = sorted(left)
        for start, end, kind in self.tokens:
            while ranges and ranges[0][1] <= start:
                ranges.pop(0)
            if kind != b"Literal" and not (ranges and ranges[0][0] <= start):
                yield from WORD.findall(self.text[start:end])


class Lemmas:
    """The files of lemmas of a library, by their modules, and those that are needed."""

    def __init__(self, name: str) -> None:
        self.name, self.folder = name, os.path.join(ROOT, "crates", name, "proofs")
        self.texts: dict[str, str] = {}
        self.answers: dict[str, list[str]] = {}
        for at, _, files in os.walk(self.folder):
            for file in files:
                with open(os.path.join(at, file), encoding="utf-8") as opened:
                    text = opened.read()
                if file in ANSWERS:
                    self.answers.setdefault(os.path.basename(at), []).append(text)
                elif file != "Lib.antt" and not NODE.search(text):
                    self.texts[os.path.relpath(os.path.join(at, file), self.folder)[:-5].replace("/", ".")] = text

    def cited_in(self, text: str) -> set[str]:
        """The modules of this library that a text cites."""
        found = set()
        for cited in CITED.finditer(text):
            parts = cited[2].split(".") if cited[1] == self.name else []
            found |= {it for end in range(len(parts), 0, -1) if (it := ".".join(parts[:end])) in self.texts}
        return found

    def needed(self, texts: list[str]) -> set[str]:
        """Those that these texts cite, and those that these cite in turn."""
        found: set[str] = set()
        left = set().union(*map(self.cited_in, texts)) if texts else set()
        while left:
            one = left.pop()
            found.add(one)
            left |= self.cited_in(self.texts[one]) - found
        return found


def texts_beside(name: str) -> list[str]:
    """The texts of all other crates that cite lemmas of this one."""
    words = ["grep", "-rlE", "--include=*.antt", "--include=*.rt", "--exclude-dir=out", rf"Rattle\.{name}\.proofs\.",
             os.path.join(ROOT, "crates")]
    found = []
    for file in subprocess.run(words, capture_output=True, text=True, check=False).stdout.splitlines():
        if not os.path.relpath(file, os.path.join(ROOT, "crates")).startswith(f"{name}/"):
            with open(file, encoding="utf-8") as opened:
                found.append(opened.read())
    return found


class StandIn:
    """The stand-in of a library in a folder."""

    def __init__(self, kit: Kit, crate: Crate, folder: str) -> None:
        self.crate, self.to = crate, os.path.join(folder, "crates", crate.name)
        self.rlib, self.said = (os.path.join(folder, it, crate.name) for it in ("rlibs", "said"))
        self.rlib += ".rlib"
        self.kit, self.folder = kit, folder

    def is_made(self) -> bool:
        try:
            with open(os.path.join(self.to, "sum"), encoding="ascii") as opened:
                return opened.read() == self.crate.sum() and os.path.isdir(self.rlib)
        except OSError:
            return False

    def write(self) -> None:
        """Writes its sources."""
        shutil.rmtree(self.to, ignore_errors=True)
        for part in ("src", "specs", "proofs"):
            if os.path.isdir(os.path.join(self.crate.folder, part)):
                shutil.copytree(os.path.join(self.crate.folder, part), os.path.join(self.to, part))
        files = [os.path.join(at, it) for at, _, names in os.walk(os.path.join(self.to, "src")) for it in names]
        sources = [Source(os.path.join(self.kit.folder, "bin", "rattle"), it) for it in files]
        left_out = {it.name.decode() for one in sources for it in one.functions if it.is_left_out(one.text)}
        kept = self.keep_lemmas(left_out)
        unused = self.unused(sources, kept)
        for one in sources:
            self.write_source(one, unused)
        root = os.path.join(self.to, "src", "lib.rt")
        with open(root, encoding="utf-8") as opened:
            text = opened.read()
        with open(root, "w", encoding="utf-8") as opened:
            opened.write(text.replace("#![tactic(auto)]\n", "#![tactic(auto)]\n\nmod stand_in;\n", 1))
        with open(os.path.join(self.to, "src", "stand_in.rt"), "w", encoding="utf-8") as opened:
            opened.write(FOREIGN)

    def keep_lemmas(self, left_out: set[str]) -> str:
        """Removes the proofs of functions whose bodies are left out, and lemmas that nothing needs any more. Returns
        the text of the lemmas that stay."""
        lemmas, proofs = Lemmas(self.crate.name), os.path.join(self.to, "proofs")
        texts = texts_beside(self.crate.name)
        for name, answers in lemmas.answers.items():
            texts += [] if name in left_out or name.startswith("+") else answers
        needed = lemmas.needed(texts)
        for name in lemmas.texts.keys() - needed:
            os.remove(os.path.join(proofs, *name.split(".")) + ".antt")
        for at, _, names in os.walk(proofs, topdown=False):
            if os.path.basename(at) in left_out or os.path.basename(at).startswith("+"):
                for name in set(names) & set(ANSWERS):
                    os.remove(os.path.join(at, name))
            if not os.listdir(at):
                os.rmdir(at)
        for at, _, names in os.walk(proofs):
            for name in names:
                self.write_node(os.path.join(at, name), at if name == "Lib.antt" else os.path.join(at, name[:-5]))
        return "\n".join(lemmas.texts[it] for it in needed)

    def write_node(self, file: str, folder: str) -> None:
        """Leaves out of a file the lines that declare a file that is gone."""
        with open(file, encoding="utf-8") as opened:
            text = opened.read()

        def declared(line: re.Match[str]) -> str:
            path = os.path.join(folder, line[1])
            return line[0] if os.path.exists(f"{path}.antt") or os.path.isdir(path) else ""

        if NODE.search(text):
            with open(file, "w", encoding="utf-8") as opened:
                opened.write(re.sub(r"(?m)^(?:pub )?mod ([\w\-+◌]+)\n", declared, text))

    def unused(self, sources: list[Source], lemmas: str) -> set[bytes]:
        """The names of functions that are not public, and that nothing names once bodies are left out."""
        stated = lemmas.encode()
        for at, _, names in os.walk(os.path.join(self.to, "specs")):
            for name in names:
                with open(os.path.join(at, name), "rb") as opened:
                    stated += opened.read()
        in_specs, found = set(WORD.findall(stated)), set[bytes]()
        while True:
            counts: dict[bytes, int] = {}
            for one in sources:
                left = [it.item if it.name in found and not it.is_public() and not it.is_of_trait else it.body
                        for it in one.functions if it.is_left_out(one.text)]
                for word in one.words_without([it for it in left if it]):
                    counts[word] = counts.get(word, 0) + 1
            more = {it.name for one in sources for it in one.functions
                    if it.is_left_out(one.text) and not it.is_public() and not it.is_of_trait
                    and it.name not in in_specs and counts.get(it.name, 0) <= 1} - found
            if not more:
                return found
            found |= more

    def write_source(self, one: Source, unused: set[bytes]) -> None:
        made, last = [], 0
        for it in one.functions:
            if it.body and it.is_left_out(one.text):
                is_gone = it.name in unused and not it.is_public() and not it.is_of_trait
                start, end = it.item if is_gone else it.body
                made += [one.text[last:start], b"" if is_gone else BODY]
                last = end
        text = b"".join([*made, one.text[last:]])
        text = re.sub(rb"(?m)^ *///.*\n", b"", text)
        with open(one.file, "wb") as opened:
            opened.write(re.sub(rb"#\[tactic\(auto, using\([^\]]*\)\]\s*", b"", text))

    def start(self, jobs: int) -> subprocess.Popen[bytes]:
        """Begins to make its statements."""
        self.write()
        words = self.kit.proving(self.crate, os.path.dirname(self.rlib), jobs, self.rlib)
        words[words.index(f"{self.crate.name}=")] += "stand_in"
        with open(self.said, "wb") as out:
            return subprocess.Popen(words, cwd=self.to, stdin=subprocess.DEVNULL, stdout=out, stderr=out)

    def end(self, status: int) -> None:
        if status:
            raise NotBuilt(f"the stand-in of {self.crate.name} is not made: {self.said} says why")
        with open(os.path.join(self.to, "sum"), "w", encoding="ascii") as opened:
            opened.write(self.crate.sum())


def make_all(kit: Kit, crates: dict[str, Crate], folder: str) -> None:
    """Makes the stand-ins of these crates side by side, those with the most crates above them first."""
    for part in ("crates", "rlibs", "said"):
        os.makedirs(os.path.join(folder, part), exist_ok=True)
    above = {name: sum(name in it.below for it in crates.values()) for name in crates}
    made: set[str] = set()
    for name, crate in crates.items():
        if all(it in made for it in crate.below) and StandIn(kit, crate, folder).is_made():
            made.add(name)
    running: dict[str, tuple[StandIn, subprocess.Popen[bytes]]] = {}
    lanes = lanes_here()
    while len(made) < len(crates):
        ready = [it for it in crates.values() if it.name not in made and it.name not in running
                 and all(name in made for name in it.below)]
        for crate in sorted(ready, key=lambda it: -above[it.name])[: lanes - len(running)]:
            one = StandIn(kit, crate, folder)
            running[crate.name] = one, one.start(max(1, lanes // max(1, len(ready) + len(running))))
        time.sleep(0.2)
        for name, (one, process) in [*running.items()]:
            if process.poll() is not None:
                del running[name]
                one.end(process.returncode)
                made.add(name)
                print(f"{len(made)} of {len(crates)}: {name}", flush=True)


def check(kit: Kit, crate: Crate, folder: str, flags: list[str]) -> int:
    """Checks a crate over the stand-ins, and keeps what it found for the next check."""
    words = kit.reading(crate, os.path.join(folder, "rlibs"), 1)
    words[1] = "check"
    kept = os.path.join(folder, "kept", crate.name)
    os.makedirs(kept, exist_ok=True)
    return subprocess.run([*words, "--incremental", kept, *flags], cwd=crate.folder, check=False).returncode


def main(words: list[str]) -> int:
    if len(words) < 2 or os.path.abspath(words[0]).startswith(ROOT + os.sep):
        print(__doc__, file=sys.stderr)
        return 2
    folder, kit = os.path.abspath(words[0]), Kit.found()
    is_check = words[1] == "--check"
    names = words[2:3] if is_check else words[1:]
    crates: dict[str, Crate] = {}
    tops = {name: crates_for(name) for name in names}
    for name, found in tops.items():
        crates |= {it: found[it] for it in found if it != name}
    try:
        make_all(kit, crates, folder)
    except NotBuilt as why:
        print(f"standins.py: {why}", file=sys.stderr)
        return 1
    return check(kit, tops[names[0]][names[0]], folder, words[3:]) if is_check else 0


if __name__ == "__main__":
    sys.exit(main(sys.argv[1:]))
