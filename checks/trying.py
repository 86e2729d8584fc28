"""`./try`, which runs the program before it is proved: what it hands to the toolchain, and what becomes of the answer.

In place of the toolchain runs a script that calls the built program. Then the toolchain makes five runs itself, if it
is in PATH; each takes a minute or more.
"""
import importlib.machinery
import importlib.util
import os
import re
import shutil
import signal
import subprocess
import sys
import tempfile
import time
from collections.abc import Iterator
from types import ModuleType

from program import OMEGA, ROOT, SECONDS, help_of, subcommands

TRY = os.path.join(ROOT, "try")
# Far above what a run by the toolchain takes on a slow machine.
LONG = 900
NOTE = b"try: not proved; make proves and builds omega\n"
GAME = b"parity 2; 0 0 0 1,2; 1 1 1 0; 2 2 1 0;"
CANONICAL = b"parity 2;\n0 0 0 1,2;\n1 1 1 0;\n2 2 1 0;\n"
FORMULA = b"game U 0"
RIGHT, WRONG = b"paritysol 2; 0 0 2; 1 0; 2 0;", b"paritysol 2; 0 0 1; 1 0; 2 0;"
# Calls the program as the toolchain does: in a folder that has the files that it was given, and some of its own,
# without environment, on a file as standard input.
FRONT = f"""#!{sys.executable}
import os, shutil, signal, stat, subprocess, sys, tempfile, time
words = sys.argv[1:]
end = words.index("--")
def stop(*_):
    open(os.environ["STOPPED"], "w").close()
    sys.exit(143)
if "STOPPED" in os.environ:
    signal.signal(signal.SIGTERM, stop)
    open(os.environ["STOPPED"] + ".started", "w").close()
    time.sleep({SECONDS})
if "FAULT" in os.environ or not stat.S_ISREG(os.fstat(0).st_mode):
    print("checked: fault: an index\\nrun=fault proved=no", file=sys.stderr)
    sys.exit(4)
with tempfile.TemporaryDirectory() as room:
    for name in ("program", "stdin", "stdout", "stderr"):
        open(os.path.join(room, name), "w").close()
    for given in words[2:end:2]:
        name, _, file = given.partition("=")
        shutil.copyfile(file, os.path.join(room, name))
    ran = subprocess.run(["{OMEGA}", *words[end + 1:]], cwd=room, env={{}}, capture_output=True)
sys.stdout.buffer.write(ran.stdout)
sys.stderr.buffer.write(b"rt: a check will refuse this: a name\\n" + ran.stderr)
status = f"ended status={{ran.returncode}}"
print(f"checked: {{status}}\\nrun={{status}} runners=1 proved=no", file=sys.stderr)
sys.exit(ran.returncode)
"""
# A check: what is tried, and its fault, if it has one.
Check = tuple[str, str | None]
# The status, the output and the standard error of a run.
Run = tuple[int, bytes, bytes]


def write(path: str, held: bytes, mode: int = 0o644) -> None:
    os.makedirs(os.path.dirname(path), exist_ok=True)
    with open(path, "wb") as file:
        file.write(held)
    os.chmod(path, mode)


class Room:
    """A folder of files, another for what is left over, and one with tools."""

    def __init__(self, folder: str) -> None:
        self.files, self.left, self.tools = (os.path.join(folder, name) for name in ("files", "left", "tools"))
        os.makedirs(self.left)
        for name, held in (("game.pg", GAME), ("deep/right", RIGHT), ("a=b", WRONG), ("0", GAME), ("-game", GAME),
                           ("formula", FORMULA)):
            write(os.path.join(self.files, name), held)
        write(os.path.join(self.tools, "rt"), FRONT.encode(), 0o755)
        os.symlink(sys.executable, os.path.join(self.tools, "python3"))

    def environment(self, path: str, **more: str) -> dict[str, str]:
        return {**os.environ, "PATH": path, "TMPDIR": self.left, **more}

    def ran(self, words: list[str], text: bytes = b"", path: str = "", **more: str) -> Run:
        """A run of `./try` in the folder of files, by the script or by what another path has."""
        ran = subprocess.run([TRY, *words], cwd=self.files, input=text, capture_output=True, timeout=LONG,
                             env=self.environment(path or f"{self.tools}:{os.environ['PATH']}", **more))
        return ran.returncode, ran.stdout, ran.stderr

    def leftover(self) -> str | None:
        return f"it leaves {os.listdir(self.left)}" if os.listdir(self.left) else None


def by_program(room: Room, words: list[str], text: bytes) -> Run:
    ran = subprocess.run([OMEGA, *words], cwd=room.files, input=text, capture_output=True, timeout=SECONDS)
    return ran.returncode, ran.stdout, NOTE + ran.stderr


def differs(came: Run, wanted: Run) -> str | None:
    return None if came == wanted else f"{came} for {wanted}"


def same_checks(room: Room) -> Iterator[Check]:
    """What `./try` does is what the program does, whatever files are named and how."""
    there = os.path.join(room.files, "game.pg")
    lines: list[list[str]] = [
        ["solve"], ["solve", "-"], ["solve", "game.pg"], ["solve", there], ["solve", "./deep/../game.pg"],
        ["solve", "--player", "0", "0"], ["solve", "--player=0", "--", "-game"], ["solve", "stdin"],
        ["solve", "nothing/game.pg"], ["solve", "deep"], ["solve", ""], ["solve", "game.pg", "deep/right"],
        ["verify", "--game", "game.pg"], ["verify", "--game=game.pg", "--explain", "a=b"],
        ["verify", "--game", there, "deep/right"], ["verify", "--game", "-", "a=b"], ["verify", "--game"],
        ["verify", "--game", "--explain"], ["check", "--format", "pg", "/dev/null"], ["help", "solve"],
        ["solve", "--help"], ["--version"], ["frob", "game.pg"], [],
        ["ltl", "-f", "game"], ["ltl", "-fgame.pg"], ["ltl", "--formula=a", "game.pg"], ["ltl", "formula"], ["ltl"],
        ["satisfies", "-f", "0", "game.pg"], ["satisfies", "--formula", "game.pg"], ["satisfies", "-f"],
        ["satisfies", "-f", "0", "-f1", "game.pg"],
    ]
    for words in lines:
        came = room.ran(words, GAME)
        yield f"{' '.join(['./try', *words])}", differs(came, by_program(room, words, GAME)) or room.leftover()


def faults_checks(room: Room) -> Iterator[Check]:
    """What `./try` does where the program is not run to its end."""
    status, _, error = room.ran(["solve"], GAME, FAULT="1")
    said = b"checked: fault: an index\nrun=fault proved=no\ntry: rt try ended with status 4"
    yield "no answer", None if status == 70 and error.startswith(NOTE + said) else f"{status}: {error!r}"
    status, _, error = room.ran(["solve"], GAME, path=f"{room.tools}.none")
    yield "no python3", None if status == 127 else f"{status}: {error!r}"
    os.makedirs(f"{room.tools}.none")
    os.symlink(sys.executable, os.path.join(f"{room.tools}.none", "python3"))
    wanted = (70, b"", b"try: the toolchain, rt, is not in PATH\n")
    yield "no rt", differs(room.ran(["solve"], GAME, path=f"{room.tools}.none"), wanted)


def stop_checks(room: Room) -> Iterator[Check]:
    """An interrupt stops the toolchain too; and standard input is not read where the program does not read it."""
    stopped, path = os.path.join(room.files, "stopped"), f"{room.tools}:{os.environ['PATH']}"
    start = subprocess.Popen([TRY, "solve", "game.pg"], env=room.environment(path, STOPPED=stopped), cwd=room.files,
                             stderr=subprocess.PIPE)
    until = time.monotonic() + SECONDS
    while not os.path.exists(f"{stopped}.started") and time.monotonic() < until:
        time.sleep(0.01)
    start.send_signal(signal.SIGTERM)
    start.communicate(timeout=SECONDS)
    yield "interrupted", None if start.returncode == 130 and os.path.exists(stopped) else f"{start.returncode}"
    for words in (["solve", "game.pg"], ["ltl", "-f", "a"], ["ltl", "--formula=a"], ["realize", "-f", "a", "--outs=a"]):
        with subprocess.Popen([TRY, *words], env=room.environment(path), cwd=room.files, stdin=subprocess.PIPE,
                              stdout=subprocess.PIPE, stderr=subprocess.PIPE) as silent:
            yield f"a silent standard input of {' '.join(words)}", None if silent.wait(SECONDS) == 0 else (
                f"{silent.returncode}")


def script() -> ModuleType:
    """The script as a module."""
    loader = importlib.machinery.SourceFileLoader("try_script", TRY)
    spec = importlib.util.spec_from_loader(loader.name, loader)
    assert spec
    made = importlib.util.module_from_spec(spec)
    keeps, sys.dont_write_bytecode = sys.dont_write_bytecode, True
    loader.exec_module(made)
    sys.dont_write_bytecode = keeps
    return made


def table_check() -> Check:
    """The script knows the options that take a value, and which of them name files."""
    named = {it for name in subcommands() for it in re.findall(r"--([a-z-]+) <([A-Z]+)>", help_of(name))}
    files = {option for option, value in named if value == "FILE"}
    others, known = {option for option, _ in named} - files, script()
    fault = f"the script has {sorted(known.FILES)} and {sorted(known.OTHERS)}, the help {sorted(named)}"
    return "options with values", None if (known.FILES, known.OTHERS) == (files, others) else fault


def real_checks(room: Room) -> Iterator[Check]:
    """Runs by the toolchain, whose answers were found by hand."""
    game, before = os.path.join(room.files, "game.pg"), os.listdir(os.path.join(ROOT, "crates", "omega_tool"))
    explained, lifted = b"no\nplayer 0\nstem\ncycle 1 0\n", b"player 0 lifts 1\n0 1;\n1;\n"
    solved = b"paritysol 2;\n0 0 2;\n1 0;\n2 0;\n"
    for label, words, text, status, output, error in (
            ("an operand", ["solve", game], b"", 0, solved, b""),
            ("an option", ["verify", "--explain", f"--game={game}", "a=b"], b"", 6, explained, b""),
            ("a refusal", ["check", "--format", "pg"], b"0 0 0 1", 1, b"", b"omega: 3 Syntax at 7\n"),
            ("another folder", ["canon", "--format", "pg", "deep/../game.pg"], b"", 0, CANONICAL, b""),
            ("standard input", ["solve", "--player", "0"], b"0 1 0 1; 1 2 1 0;", 0, lifted, b"")):
        came = room.ran(words, text, path=os.environ["PATH"])
        yield f"by the toolchain: {label}", differs(came, (status, output, NOTE + error)) or room.leftover()
    after = os.listdir(os.path.join(ROOT, "crates", "omega_tool"))
    yield "no file more in the tree", None if sorted(before) == sorted(after) else f"{after}"


def try_checks() -> Iterator[Check]:
    with tempfile.TemporaryDirectory() as folder:
        room = Room(folder)
        yield table_check()
        yield from same_checks(room)
        yield from faults_checks(room)
        yield from stop_checks(room)
        if shutil.which("rt"):
            yield from real_checks(room)
