"""Runs whose streams give and take few bytes at a time, or fail behind some: what is written, and what is told.

A shim over the program's `read` and `write` makes the portions and the failures, and counts the latter.
"""
import errno
import os
import subprocess
from collections.abc import Sequence
from functools import partial

from program import OMEGA, SECONDS, Cases, Fault, Left, difference, shown
from shims import shim

# An aborted segment, and an automaton.
ABORTED = b"HOA: ( & 7 nonsense --ABORT-- /*a/*b*/c*/ HOA: v1 Acceptance: 0 t --BODY-- --END--"
# An automaton with an alias and a repeated mark, and its canonical text.
ALIAS = (b'HOA: v1 States: 1 Start: 0 AP: 1 "a" Alias: @b 0|t Acceptance: 1 Inf(0) acc-name: Buchi --BODY-- State: 0 '
         b"[!@b&0] 0 {0 0} --END--")
CANONICAL = (b'HOA: v1\nStates: 1\nStart: 0\nAP: 1 "a"\nacc-name: Buchi\nAcceptance: 1 Inf(0)\n--BODY--\nState: 0\n'
             b"[!(0|t)&0] 0 {0}\n--END--\n")
# So many automata of 117 bytes make the input come in several pieces of 4,096 bytes.
MANY = 50 * CANONICAL

# The words of a command line, the text on standard input, and the text of the file `g`, where there is one.
Asked = tuple[str, bytes, bytes]
# A command line, an input and the whole answer to it.
RUNS = [
    ("solve", b"0 1 0 1; 1 2 1 0;", b"paritysol 1;\n0 0 1;\n1 0;\n"),
    ("canon --format hoa", ABORTED, b"HOA: v1\nStates: 0\nAP: 0\nAcceptance: 0 t\n--BODY--\n--END--\n"),
    ("canon --format hoa", ALIAS, CANONICAL),
]
# Runs that read their input.
TOLD: list[Asked] = [
    ("solve", b"0 0 0 0;", b""),
    ("solve --progress", b"0 0 0 0;", b""),
    ("solve --lenient", b"0 0 0 0", b""),
    ("verify --game g", b"paritysol 0; 0 0 0;", b"0 0 0 0;"),
    ("verify --lenient --game g", b"paritysol 0; 0 0 0;", b"0 0 0 0"),
    ("accepts --word cycle{1}", CANONICAL, b""),
]
FAILED = b"omega: 61 Io\n"
# How a read fails, and what a verbose run tells of it in its second line.
READS = [
    (errno.EISDIR, b"omega: cannot read standard input: is a directory\n"),
    (errno.EINTR, b"omega: cannot read standard input: interrupted system call\n"),
    (errno.EIO, b"omega: cannot read standard input\n"),
]
# How a write fails, or 0 where it takes nothing, and what a verbose run tells of it in its second line.
WRITES = [
    (errno.ENOSPC, b"omega: cannot write standard output: no space left on device\n"),
    (errno.EIO, b"omega: cannot write standard output\n"),
    (0, b"omega: cannot write standard output\n"),
]


def failing(room: int, error: int) -> str:
    """A stream, for the shim, that gives or takes so many bytes, one at a time, and then fails."""
    return f"1 {room} {error}"


class Streams:
    """A program under the shim of its streams."""

    def __init__(self, folder: str, path: str) -> None:
        self.folder, self.path = folder, path
        self.failures = os.path.join(folder, "failures")

    def write(self, name: str, text: bytes) -> str:
        path = os.path.join(self.folder, name)
        with open(path, "wb") as file:
            file.write(text)
        return path

    def run(self, asked: Asked, given: Sequence[str]) -> tuple[Left, list[int]]:
        """What a run leaves, and how many reads and writes of each of the three streams failed. What is given for each
        of these is for the shim; nothing leaves it as it is."""
        line, text, held = asked
        self.write("g", held)
        environment = {"LD_PRELOAD": self.path, "PORTIONS_FAILED": self.failures}
        environment |= {f"PORTIONS_{number}": it for number, it in enumerate(given) if it}
        with open(self.write("input", text), "rb") as file:
            ran = subprocess.run([OMEGA, *line.split()], stdin=file, capture_output=True, cwd=self.folder,
                                 env=environment, timeout=SECONDS)
        with open(self.failures) as failures:
            counts = [int(count) for count in failures.read().split()]
        return (ran.returncode, ran.stdout, ran.stderr), counts

    def fault(self, asked: Asked, given: Sequence[str], wanted: Left, failed: Sequence[int]) -> Fault:
        """What differs from what a run is to leave, and from how many reads and writes are to fail, or nothing."""
        (status, output, error), counts = self.run(asked, given)
        if status != wanted[0]:
            return f"status {status} for {wanted[0]}: {shown(output)} {shown(error)}"
        if counts != [*failed]:
            return f"{counts} reads and writes failed for {[*failed]}"
        return difference("output", output, wanted[1]) or difference("standard error", error, wanted[2])


def label_of(asked: Asked) -> str:
    return f"{asked[0]} on {shown(asked[1])}"


def broken_inputs(streams: Streams) -> Cases:
    """An input that fails behind each number of its bytes leaves nothing written."""
    asked: Asked
    for line, text, _ in RUNS:
        asked = line, text, b""
        for count in range(len(text) + 1):
            yield f"{label_of(asked)}: the input fails behind {count} bytes", partial(
                streams.fault, asked, [failing(count, errno.EINTR)], (5, b"", FAILED), (1, 0, 0))
    # The input is read before the game is judged, which is none.
    asked = "verify --game g", b"paritysol 0;", b"0 0 0;"
    yield f"{label_of(asked)}: the input fails at its end", partial(
        streams.fault, asked, [failing(12, errno.EINTR)], (5, b"", FAILED), (1, 0, 0))


def broken_outputs(streams: Streams) -> Cases:
    """An output that fails behind each number of bytes has a beginning of the answer. Nothing is told of a pipe that
    nobody reads."""
    for line, text, answer in RUNS:
        asked = line, text, b""
        for room in range(len(answer)):
            for error, told in ((errno.ENOSPC, FAILED), (errno.EPIPE, b""), (0, FAILED)):
                yield f"{label_of(asked)}: the output fails behind {room} bytes, {error}", partial(
                    streams.fault, asked, ["", failing(room, error)], (5, answer[:room], told), (0, 1, 0))
        yield f"{label_of(asked)}: a byte at a time", partial(
            streams.fault, asked, ["1", failing(len(answer), errno.ENOSPC)], (0, answer, b""), (0, 0, 0))


def told_of_reads(streams: Streams, asked: Asked, told: bytes, is_verbose: bool) -> Cases:
    """What is told of an input that fails at once, for each way to fail."""
    for error, line in READS:
        yield f"{label_of(asked)}: the input fails at once, {error}", partial(
            streams.fault, asked, [failing(0, error)], (5, b"", told + line * is_verbose), (1, 0, 0))


def told_of_writes(streams: Streams, asked: Asked, told: bytes, is_verbose: bool) -> Cases:
    """What is told of an output that fails at once, for each way to fail, and nothing if nobody reads it."""
    for error, line in [*((error, told + line * is_verbose) for error, line in WRITES), (errno.EPIPE, b"")]:
        yield f"{label_of(asked)}: the output fails at once, {error}", partial(
            streams.fault, asked, ["", failing(0, error)], (5, b"", line), (0, 1, 0))


def reasons(streams: Streams) -> Cases:
    """What is told of streams that fail, with `--verbose` and without."""
    for line, text, held in TOLD:
        for more in ("", " -v"):
            asked = line + more, text, held
            yield from told_of_reads(streams, asked, FAILED, bool(more))
            yield from told_of_writes(streams, asked, FAILED, bool(more))
    for line, is_verbose in (("solve g", False), ("solve -v g", True)):
        yield from told_of_writes(streams, (line, b"", b"0 0 0 0;"), FAILED, is_verbose)
    yield from told_of_writes(streams, ("--help", b"", b""), FAILED, False)


def portions(streams: Streams) -> Cases:
    """Portions of the input make no difference to an answer, nor to a refusal."""
    # What is no header may be in a segment that is aborted later: so the fault is at the end of the text.
    for line, text, wanted in (("canon --format hoa", MANY, (0, MANY, b"")),
                               ("show --format hoa", MANY + b"HOA: v1 )", (1, b"", b"omega: 3 Syntax at 5859\n"))):
        for most in (1, 7, 4095, 4096, 4097, 1_000_000):
            yield f"{line} of {len(text)} bytes, {most} at a time", partial(
                streams.fault, (line, text, b""), [str(most)], wanted, (0, 0, 0))


def transfer_checks() -> Cases:
    with shim("portions") as (folder, path):
        streams = Streams(folder, path)
        yield from broken_inputs(streams)
        yield from broken_outputs(streams)
        yield from reasons(streams)
        yield from portions(streams)
