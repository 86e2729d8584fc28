"""How the program is built: which crates are proved when, by a toolchain that only sleeps, in a small tree."""
import os
import shutil
import signal
import subprocess
import sys
import tempfile
import time
from collections.abc import Callable, Iterable, Iterator

from program import ROOT, SECONDS

KIT = "rattle-kit-0 logic 00"
# A toolchain of the same logic, and one of another.
SAME_LOGIC, OTHER_LOGIC = "rattle-kit-1 logic 00", "rattle-kit-1 logic 01"
# The longest chain is low, wide, top; side stands on low alone. Each is foreseen to take as long as its file is large.
CRATES = {"low": "", "wide": "low", "side": "low", "small": "", "top": "wide side", "omega_tool": "top small"}
SIZES = {"low": 20, "wide": 90, "side": 30, "small": 1, "top": 10, "omega_tool": 1}
LONGEST_FIRST = ["low", "wide", "side", "top", "small", "omega_tool"]
LIBRARIES = [it for it in CRATES if it != "omega_tool"]
# Proves nothing: says when it begins and ends, and does what the crate's file `does` says. A library's statements are
# the first line of its source.
PROVER = f"""#!{sys.executable}
import os, sys, time
words = sys.argv[1:]
name, made = words[words.index("--crate-name") + 1], words[words.index("-o") + 1]
def note(what):
    with open(os.environ["NOTES"], "a") as notes:
        notes.write(f"{{what}} {{name}}\\n")
does = open("does").read() if os.path.exists("does") else ""
note("begin")
time.sleep(float(os.environ.get("TAKES", "0.05")))
if does.startswith("meets"):
    while f"begin {{does.split()[1]}}\\n" not in open(os.environ["NOTES"]).read():
        time.sleep(0.01)
if does == "dies":
    os.remove("does")
    os.kill(os.getpid(), 9)
if does == "fails":
    print("error: a clause of", name)
    sys.exit(1)
if name == "omega_tool":
    open(made, "w").write("#!/bin/sh\\necho accepted\\n")
else:
    os.makedirs(made, exist_ok=True)
    open(made + "/statements", "w").write(open("src/lib.rt").readline())
note("end")
trusted = "incremental=trusted " * (does == "trusts")
more = "target=none cpu=none " * (name == "omega_tool")
logic = "00" if does == "proves in the first logic" else os.environ.get("KIT_HERE", "{KIT}").split()[-1]
print(f"logic=proved functions=1 {{more}}sum={{logic}} native=nat,char,string logic-built=trusted",
      "libraries-built=trusted", trusted + "statements=trusted")
"""
LINKER = f"""#!{sys.executable}
import os, shutil, sys
to, made = sys.argv[sys.argv.index("-o") + 1:][:2]
shutil.copyfile(made, to)
os.chmod(to, 0o755)
"""
FRONT = """#!/bin/sh
case $1 in
version) echo "${KIT_HERE-@KIT@}" ;;
doc) echo "$KIT_FOLDER/START-HERE.md" ;;
esac
"""
# The build where a megabyte of memory is free.
SCARCE = "import build, sys; build.free_memory = lambda: 1_000_000; sys.exit(build.main())"
TOOLS = ["sh", "env", "python3", "find", "readlink", "dirname"]


# A check: what is tried, and its fault, if it has one.
Check = tuple[str, str | None]
# What was noted of proofs: `begin` or `end`, and the crate.
Notes = list[tuple[str, str]]
# A start's status, output and error, and what was noted meanwhile.
Start = tuple[int, str, str, Notes]


def write(path: str, text: str, mode: int = 0o644) -> None:
    os.makedirs(os.path.dirname(path), exist_ok=True)
    with open(path, "w", encoding="utf-8") as file:
        file.write(text)
    os.chmod(path, mode)


class Tree:
    """A tree of six crates with the scripts of this one, and a toolchain that sleeps."""

    def __init__(self, room: str) -> None:
        self.root, self.tools = os.path.join(room, "tree"), os.path.join(room, "tools")
        self.notes, kit = os.path.join(room, "notes"), os.path.join(room, "kit")
        shutil.copytree(os.path.join(ROOT, "make"), self.file("make"), ignore=shutil.ignore_patterns("__pycache__"))
        shutil.copy(os.path.join(ROOT, "omega"), self.file("omega"))
        write(self.file("TOOLCHAIN"), "logic 00\n")
        write(self.file("crates.txt"), "".join(f"{name}: {uses}\n" for name, uses in CRATES.items()))
        write(self.file("examples", "two_nodes.pg"), "")
        for name in CRATES:
            root = "main" if name == "omega_tool" else "lib"
            text = f"the statements of {name}\n" + SIZES[name] * 1000 * "x"
            write(self.file("crates", name, "src", f"{root}.rt"), text)
        write(os.path.join(kit, "bin", "rattle"), PROVER, 0o755)
        write(os.path.join(kit, "bin", "rattle-link"), LINKER, 0o755)
        write(os.path.join(self.tools, "rt"), FRONT.replace("@KIT@", KIT), 0o755)
        for tool in TOOLS:
            os.symlink(shutil.which(tool) or tool, os.path.join(self.tools, tool))
        self.environment = {"PATH": self.tools, "NOTES": self.notes, "KIT_FOLDER": kit, "JOBS": "2"}

    def file(self, *path: str) -> str:
        return os.path.join(self.root, *path)

    def started(self, words: list[str] | None = None, **environment: str) -> subprocess.Popen[str]:
        """A start of `./omega`, or of other words, in a group of processes of its own."""
        return subprocess.Popen(words or [self.file("omega")], env={**self.environment, **environment}, text=True,
                                cwd=self.file("make"), stdout=subprocess.PIPE, stderr=subprocess.PIPE,
                                start_new_session=True)

    def run(self, words: list[str] | None = None, **environment: str) -> Start:
        """The status of a start, its output and error, and what was noted of proofs meanwhile."""
        before = len(self.noted())
        start = self.started(words, **environment)
        out, error = start.communicate(timeout=SECONDS)
        return start.returncode, out, error, self.noted()[before:]

    def noted(self) -> Notes:
        if not os.path.exists(self.notes):
            return []
        with open(self.notes, encoding="utf-8") as notes:
            return [(what, name) for what, name in map(str.split, notes)]

    def change(self, name: str, text: str) -> None:
        """Puts a text after a crate's source, or a new first line before it."""
        path = self.file("crates", name, "src", "lib.rt")
        with open(path, encoding="utf-8") as file:
            held = file.read()
        write(path, f"{text}{held}" if text.endswith("\n") else f"{held}{text}")

    def has_kept(self, name: str) -> bool:
        return os.path.exists(self.file("crates", "omega_tool", "out", "rlib", f"{name}.made"))

    def does(self, name: str, what: str) -> None:
        write(self.file("crates", name, "does"), what)


def begun(noted: Notes) -> list[str]:
    return [name for what, name in noted if what == "begin"]


def order_fault(noted: Notes) -> str | None:
    """What is wrong with the order of a whole build by two at a time."""
    at = {it: place for place, it in enumerate(noted)}
    for name, uses in CRATES.items():
        if ("end", name) not in at:
            return f"{name} is not proved"
        if any(at["begin", name] < at["end", used] for used in uses.split()):
            return f"{name} begins too early: {noted}"
    running = most = 0
    for what, _ in noted:
        running += 1 if what == "begin" else -1
        most = max(most, running)
    return None if most <= 2 else f"{most} proofs ran at once"


def fault(ran: Start, status: int, error: str, proved: Iterable[str]) -> str | None:
    """What differs from the status, words of the error and proofs that are wanted of a start."""
    came, _, said, noted = ran
    if came != status or error not in said or sorted(begun(noted)) != sorted(proved):
        return f"status {came}, {begun(noted)} are proved, and it says {said!r}"
    if status == 0 and ran[1] != "accepted\n":
        return f"the program writes {ran[1]!r}"
    return None


def line_fault(ran: Start, error: str) -> str | None:
    """What is wrong with a start that only says in one line why it does nothing."""
    return fault(ran, 70, error, []) or (None if ran[2].count("\n") == 1 else f"it says {ran[2]!r}")


def whole_checks(tree: Tree) -> Iterator[Check]:
    yield "no rt", line_fault(tree.run(PATH=other_tools(tree)), "rt, is not in PATH")
    yield "a toolchain without a logic", line_fault(tree.run(KIT_HERE="rattle-kit-1"), "'rattle-kit-1'")
    yield "no number of jobs", line_fault(tree.run(JOBS="0"), "JOBS")
    yield "no memory", line_fault(tree.run([sys.executable, "-c", SCARCE], JOBS=""), "2.5 GB of memory, and 0.0 GB")
    # Each of the two ends once the other has begun.
    tree.does("wide", "meets side")
    tree.does("side", "meets wide")
    ran = tree.run()
    yield "a whole build", fault(ran, 0, "proved and built", CRATES) or order_fault(ran[3])
    yield "nothing to do", fault(tree.run(), 0, "", [])
    os.utime(tree.file("crates", "low", "src", "lib.rt"))
    ran = tree.run()
    yield "the same text, newer", fault(ran, 0, "", []) or (f"it says {ran[2]!r}" if ran[2] else None)
    yield "and then nothing to do", fault(tree.run(PATH=other_tools(tree)), 0, "", [])
    shutil.rmtree(tree.file("crates", "omega_tool", "out"))
    tree.does("wide", "")
    tree.does("side", "")
    noted = tree.run(JOBS="1")[3]
    yield "the longest chain first", None if begun(noted) == LONGEST_FIRST else f"{noted}"


def other_tools(tree: Tree) -> str:
    """A PATH without the toolchain."""
    folder = f"{tree.tools}.other"
    if not os.path.isdir(folder):
        shutil.copytree(tree.tools, folder, symlinks=True, ignore=shutil.ignore_patterns("rt"))
    return folder


def logic_fault(ran: Start, status: int, words: list[str], proved: Iterable[str]) -> str | None:
    """What is wrong with a start by a toolchain of another logic: the first line says so, once, and all these words
    stand in a later one."""
    lines = [line for line in ran[2].splitlines() if line.startswith("omega:")]
    first = f"omega: the logic of the toolchain, {OTHER_LOGIC}, is not the one of these sources, logic 00; each"
    told = [line for line in lines if line.startswith(first)]
    if lines[:1] != told or not any(all(word in line for word in words) for line in lines[1:]):
        return f"it says {ran[2]!r}"
    return fault(ran, status, "", proved)


def toolchain_checks(tree: Tree) -> Iterator[Check]:
    tree.run()
    os.utime(tree.file("crates.txt"))
    ran = tree.run(KIT_HERE=SAME_LOGIC)
    yield "another toolchain", fault(ran, 0, "", CRATES) or ("it speaks of logics" if "logic" in ran[2] else None)
    os.utime(tree.file("crates.txt"))
    tree.does("side", "fails")
    ran = tree.run(KIT_HERE=OTHER_LOGIC)
    words = ["side is not proved", OTHER_LOGIC, "logic 00"]
    yield "a proof that fails in another logic", logic_fault(ran, 70, words, ["low", "small", "wide", "side"])
    tree.does("side", "proves in the first logic")
    ran = tree.run(KIT_HERE=OTHER_LOGIC)
    yield "a proof in the first logic", logic_fault(ran, 70, ["sum=00", "not that of a proof", "logic 01"], ["side"])
    tree.does("side", "")
    ran = tree.run(KIT_HERE=OTHER_LOGIC)
    yield "another logic", logic_fault(ran, 0, ["proved and built in"], ["side", "top", "omega_tool"])
    yield "and then nothing to do", fault(tree.run(KIT_HERE=OTHER_LOGIC), 0, "", [])
    os.utime(tree.file("crates.txt"))
    ran = tree.run(KIT_HERE=OTHER_LOGIC)
    yield "the same text in another logic", fault(ran, 0, "", []) or (f"it says {ran[2]!r}" if ran[2] else None)
    write(tree.file("TOOLCHAIN"), "rattle-kit-0\n")
    os.utime(tree.file("crates.txt"))
    yield "no logic in TOOLCHAIN", line_fault(tree.run(), "TOOLCHAIN has 'rattle-kit-0'")


def library_checks(tree: Tree) -> Iterator[Check]:
    """The library for C, whose proof fails here, over crates that are proved."""
    write(tree.file("crates", "omega", "src", "lib.rt"), "the statements of omega\n")
    with open(tree.file("crates.txt"), "a", encoding="utf-8") as lines:
        lines.write("omega staticlib: top\n")
    words, proved = ["python3", tree.file("make", "library.py")], ["low", "wide", "side", "top", "omega"]
    tree.does("omega", "fails")
    ran = tree.run(words, KIT_HERE=OTHER_LOGIC)
    yield "a library in another logic", logic_fault(ran, 70, ["omega is not built", OTHER_LOGIC, "logic 00"], proved)
    tree.does("omega", "trusts")
    ran = tree.run(words, KIT_HERE=SAME_LOGIC)
    shown = "omega: omega is not proved and built: its last line is not that of a whole proof: 'logic=proved "
    yield "a library that rests on more", fault(ran, 70, shown, proved)


def change_checks(tree: Tree) -> Iterator[Check]:
    tree.run()
    tree.change("low", "more")
    yield "changed proofs", fault(tree.run(), 0, "", ["low"])
    tree.change("side", "new\n")
    yield "changed statements", fault(tree.run(), 0, "", ["side", "top", "omega_tool"])
    shutil.rmtree(tree.file("crates", "omega_tool", "out", "rlib", "wide.rlib"))
    tree.change("small", "more")
    yield "a library that is gone", fault(tree.run(), 0, "", ["small", "wide"])
    os.remove(tree.file("crates", "omega_tool", "out", "omega_tool"))
    yield "a program that is gone", fault(tree.run(), 0, "", ["omega_tool"])


def failure_checks(tree: Tree) -> Iterator[Check]:
    tree.does("side", "fails")
    yield "a proof that fails", fault(tree.run(), 70, "error: a clause of side", ["low", "small", "wide", "side"])
    tree.does("side", "trusts")
    shown = "omega: its last line is not that of a whole proof: 'logic=proved functions=1 "
    yield "a proof that rests on more", fault(tree.run(), 70, shown, ["side"])
    tree.does("side", "dies")
    yield "a proof that is killed", fault(tree.run(), 0, "one at a time", ["side", "side", "top", "omega_tool"])
    tree.change("low", "new\n")
    tree.does("low", "dies")
    yield "a proof alone that is killed", fault(tree.run(JOBS="1"), 70, "want of memory", ["low"])


def wait_until(holds: Callable[[], bool]) -> None:
    until = time.monotonic() + SECONDS
    while not holds() and time.monotonic() < until:
        time.sleep(0.01)


def interrupt_checks(tree: Tree) -> Iterator[Check]:
    start = tree.started(TAKES="5")
    wait_until(lambda: ("begin", "wide") in tree.noted() and tree.has_kept("low") and tree.has_kept("small"))
    os.killpg(start.pid, signal.SIGINT)
    said = start.communicate(timeout=SECONDS)[1]
    is_off = start.returncode in (130, -signal.SIGINT) and "interrupted; run it again to resume" in said
    yield "interrupted", None if is_off else f"{start.returncode}: {said!r}"
    yield "going on", fault(tree.run(), 0, "proved and built", ["wide", "side", "top", "omega_tool"])
    tree.change("wide", "new\n")
    before = len(tree.noted())
    start = tree.started(TAKES="1")
    wait_until(lambda: ("begin", "wide") in tree.noted()[before:])
    os.killpg(start.pid, signal.SIGKILL)
    start.communicate(timeout=SECONDS)
    yield "killed", fault(tree.run(), 0, "waiting", ["wide", "top", "omega_tool"])
    order = [it for it in tree.noted()[before:] if it[1] == "wide"]
    yield "no proof beside what was left", None if order == 2 * [("begin", "wide"), ("end", "wide")] else f"{order}"


def lock_checks(tree: Tree) -> Iterator[Check]:
    first = tree.started(TAKES="0.5")
    wait_until(lambda: ("begin", "low") in tree.noted())
    second = tree.run()
    first.communicate(timeout=SECONDS)
    proved = begun(tree.noted())
    yield "the first of two starts", None if first.returncode == 0 else f"status {first.returncode}"
    yield "the second waits", fault((*second[:3], []), 0, "waiting", [])
    yield "each crate once", None if sorted(proved) == sorted(CRATES) else f"{proved} are proved"


def building_checks() -> Iterator[Check]:
    """Each family of starts in a tree of its own."""
    for checks in (whole_checks, toolchain_checks, library_checks, change_checks, failure_checks, interrupt_checks,
                   lock_checks):
        with tempfile.TemporaryDirectory() as room:
            yield from checks(Tree(room))
