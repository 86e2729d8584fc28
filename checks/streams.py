"""Which status a run ends with, and what stands on which stream. Tried are faults of the command line, words that are
no text, files that cannot be read or are no texts, named by an option or by the operand, streams that fail or are
closed, with the reasons that are told of them, and a pipe that nobody reads, of which nothing is told. A shim has the
input and the output give and take a byte at a time, and fail behind each number of bytes: nothing is written, or a
beginning of the answer. Help names the limits as they are.

This is what `main` adds to what is proved of `obey`.
"""
import os
import subprocess
import tempfile
from collections.abc import Iterator
from typing import Any

from program import OMEGA, SECONDS, Cases, Ran, fault_of, fault_with_file, shown, subcommands
from transfers import transfer_checks

CHOICE = b"0 0 0 1,2; 1 1 1 0; 2 2 1 0;"
SOLUTION = b"paritysol 2; 0 0 2; 1 0; 2 0;"
MISSING = os.path.join(tempfile.gettempdir(), "no", "such", "file")
ABSENT, FOLDER = "no such file or directory", "is a directory"
NO_TEXT = b"error: the command line is not UTF-8\n\nFor more information, try '--help'.\n"
LIMITS = {
    "check": ("16777216", "1048576", "8388608"),
    "solve": ("67108864", "1099511627776"),
}


def run(words: list[bytes], text: bytes = b"", **given: Any) -> Ran:
    return subprocess.run([os.fsencode(OMEGA)] + words, input=text, stdout=subprocess.PIPE, stderr=subprocess.PIPE,
                          timeout=SECONDS, **given)


def left(came: Ran) -> str:
    """What a run left, for a message."""
    return f"{came.returncode} {shown(came.stdout)} {shown(came.stderr)}"


def unread(name: str, reason: str) -> bytes:
    """What is told with `--verbose` of a file that can't be read."""
    return f"omega: 61 Io\nomega: cannot read '{name}': {reason}\n".encode()


def told_of(stream: bytes) -> Iterator[tuple[list[str], bytes]]:
    """Further words of a command line, and what is told of a stream that fails: its line comes with `--verbose`."""
    yield [], b"omega: 61 Io\n"
    yield ["-v"], b"omega: 61 Io\n" + stream


def statuses() -> Cases:
    yield "done", fault_of(["check", "--format", "pg"], CHOICE, 0, b"accepted\n")
    yield "a refused text", fault_of(["check", "--format", "pg"], b"", 1, b"", b"omega: 3 Syntax at 0\n")
    yield "a budget that is used up", fault_of(
        ["solve", "--player", "1", "--budget", "1"], CHOICE, 3, b"", b"omega: 51 Budget\n")
    yield "automata accepted", fault_of(["check", "--format", "hoa"], b"", 0, b"accepted\n")
    yield "a refused text of automata", fault_of(["check", "--format", "hoa"], b"x", 1, b"", b"omega: 3 Syntax at 0\n")
    yield "a solution verified", fault_with_file(["verify", "--game"], CHOICE, SOLUTION, 0, b"yes\n")
    yield "a game file that is not there", fault_of(
        ["verify", "-v", "--game", MISSING], SOLUTION, 5, b"", unread(MISSING, ABSENT))
    yield "a game file that is a folder", fault_of(
        ["verify", "-v", "--game", tempfile.gettempdir()], SOLUTION, 5, b"", unread(tempfile.gettempdir(), FOLDER))
    yield "an operand", fault_with_file(["check", "--format", "pg"], CHOICE, b"", 0, b"accepted\n")
    yield "an operand that is not there", fault_of(
        ["check", "-v", "--format", "pg", MISSING], CHOICE, 5, b"", unread(MISSING, ABSENT))
    yield "an operand that is a folder", fault_of(
        ["check", "-v", "--format", "hoa", tempfile.gettempdir()], b"", 5, b"", unread(tempfile.gettempdir(), FOLDER))
    yield "an operand under a file", fault_of(
        ["check", "-v", "--format", "pg", f"{os.devnull}/x"], CHOICE, 5, b"",
        unread(f"{os.devnull}/x", "not a directory"))
    yield "an operand with a name that is too long", fault_of(
        ["check", "-v", "--format", "pg", "x" * 256], CHOICE, 5, b"", unread("x" * 256, "file name too long"))


def command_lines() -> Cases:
    faulty: list[list[bytes]] = [
        [], [b"frobnicate"], [b"solve", b"--player", b"2"], [b"show"], [b"check", b"--format", b"dot"]]
    for words in faulty:
        came = run(words)
        good = came.returncode == 2 and not came.stdout and came.stderr.startswith(b"error: ")
        yield f"a fault of the command line: {words}", None if good else left(came)
    came = run([b"solve", b"\xff"])
    good = came.returncode == 2 and not came.stdout and came.stderr == NO_TEXT
    yield "a word that is no text", None if good else left(came)


def odd_names() -> Cases:
    """A file whose name has a tabulator, and names of the program, which are no words of its command line."""
    with tempfile.TemporaryDirectory() as folder:
        name = os.path.join(folder, "my\tgame.pg")
        with open(name, "wb") as file:
            file.write(CHOICE)
        yield "a name with a tabulator", fault_of(["verify", "--game", name], SOLUTION, 0, b"yes\n")
    shown_game = b"game nodes 3 edges 4 greatest 2\nplayer 0 bound 6\nplayer 1 bound 12\n"
    emptiness_game = b"parity 2;\n0 0 0 1;\n1 0 0 0;\n2 1 0 2;\n"
    automaton = b"HOA: v1 States: 1 Start: 0 acc-name: all Acceptance: 0 t --BODY-- State: 0 [t] 0 --END--"
    for name, words, text, output in (("--help", ["show", "--format", "pg"], CHOICE, shown_game),
                                      ("./o", ["game"], automaton, emptiness_game)):
        came = subprocess.run([name, *words], executable=OMEGA, input=text, capture_output=True, timeout=SECONDS)
        good = (came.returncode, came.stdout, came.stderr) == (0, output, b"")
        yield f"a program of the name {name}", None if good else f"{came}"


def help_texts() -> Cases:
    for name in ("", *subcommands()):
        came = run([os.fsencode(word) for word in [name, "--help"] if word])
        good = came.returncode == 0 and not came.stderr and came.stdout
        yield f"help of {name or 'the program'}", None if good else left(came)
        for limit in LIMITS.get(name, ()):
            found = limit.encode() in came.stdout or f"{int(limit):,}".encode() in came.stdout
            yield f"the limit {limit} in the help of {name}", None if found else "it is not there"


def closed_streams() -> Cases:
    """Standard output that takes nothing, and standard input that can't be read."""
    for words, told in told_of(b"omega: cannot write standard output: no space left on device\n"):
        with open("/dev/full", "wb") as full:
            came = subprocess.run([OMEGA, "check", "--format", "pg", *words], input=CHOICE, stdout=full,
                                  stderr=subprocess.PIPE, timeout=SECONDS)
        good = came.returncode == 5 and came.stderr == told
        yield f"standard output is full {words}", None if good else f"{came.returncode} {shown(came.stderr)}"
    for words, told in told_of(b"omega: cannot read standard input\n"):
        with open(os.devnull, "wb") as written:
            came = subprocess.run([OMEGA, "check", "--format", "pg", *words], stdin=written, stdout=subprocess.PIPE,
                                  stderr=subprocess.PIPE, timeout=SECONDS)
        good = came.returncode == 5 and not came.stdout and came.stderr == told
        yield f"standard input can't be read {words}", None if good else left(came)
    with open("/dev/full", "wb") as full:
        came = subprocess.run([OMEGA, "check", "--format", "pg"], input=b"", stdout=subprocess.PIPE, stderr=full,
                              timeout=SECONDS)
    yield "standard error is full", None if came.returncode == 1 and not came.stdout else f"{came.returncode}"


def broken_streams() -> Cases:
    """Streams that are closed, a pipe that nobody reads, a folder for input, and files that are no good texts."""
    words = [OMEGA, "check", "--format", "pg"]
    asked: list[list[str]] = [[], ["-v"], ["--lenient"], ["--lenient", "-v"], ["--help"]]
    for more in asked:
        taken, given = os.pipe()
        os.close(taken)
        came = subprocess.run(words + more, input=CHOICE, stdout=given, stderr=subprocess.PIPE, timeout=SECONDS)
        os.close(given)
        yield f"a pipe that nobody reads {more}", None if (came.returncode, came.stderr) == (5, b"") else f"{came}"
    for more, told in told_of(b"omega: cannot read standard input: is a directory\n"):
        folder = os.open(tempfile.gettempdir(), os.O_RDONLY)
        came = subprocess.run(words + more, stdin=folder, capture_output=True, timeout=SECONDS)
        os.close(folder)
        good = (came.returncode, came.stdout, came.stderr) == (5, b"", told)
        yield f"standard input is a folder {more}", None if good else f"{came}"
    for closed, text, stream in (("<&-", b"", b"omega: cannot read standard input\n"),
                                 (">&-", CHOICE, b"omega: cannot write standard output\n")):
        for more, told in told_of(stream):
            came = subprocess.run(["sh", "-c", f'"$0" "$@" {closed}', *words, *more], input=text, capture_output=True,
                                  timeout=SECONDS)
            good = (came.returncode, came.stdout, came.stderr) == (5, b"", told)
            yield f"a closed stream {closed} {more}", None if good else f"{came}"
    came = subprocess.run(["sh", "-c", '"$0" "$@" 2>&-', *words], input=b"", capture_output=True, timeout=SECONDS)
    good = (came.returncode, came.stdout, came.stderr) == (1, b"", b"")
    yield "standard error is closed", None if good else f"{came}"
    long = b"0 0 0 0;" + b" " * 16_777_216
    for held, line, cause in ((long, b"omega: 4 TooLong\n", b""),
                              (b"\xff\xfe", b"omega: 1 Lex at 0\n", b"omega: line 1, column 1: '\\xff\\xfe'\n"),
                              (b"", b"omega: 3 Syntax at 0\n", b"omega: line 1, column 1: end of the text\n")):
        yield f"a game file of {len(held)} bytes", fault_with_file(
            ["verify", "-v", "--game"], held, SOLUTION, 1, b"", line + b"omega: in the game\n" + cause)
        yield f"an operand of {len(held)} bytes", fault_with_file(["check", "--format", "pg"], held, b"", 1, b"", line)


def stream_checks() -> Cases:
    yield from statuses()
    yield from command_lines()
    yield from odd_names()
    yield from help_texts()
    yield from closed_streams()
    yield from broken_streams()
    yield from transfer_checks()
