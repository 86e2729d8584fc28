"""The program under check: how it is run, and what is said where it does something else than is wanted."""
import os
import re
import subprocess
import tempfile
from collections.abc import Callable, Iterator

# What is wrong, or nothing.
Fault = str | None
# A case by its label, with its fault, or with the call that finds it: cases that are not asked for are not run then.
Case = tuple[str, Fault | Callable[[], Fault]]
Cases = Iterator[Case]
# A run that ended; and what a run left: its status, output and error.
Ran = subprocess.CompletedProcess[bytes]
Left = tuple[int, bytes, bytes]

ROOT = os.path.dirname(os.path.dirname(os.path.abspath(__file__)))
BUILT = os.path.join(ROOT, "crates", "omega_tool", "out", "omega_tool")
# A copy of the program, if one is named, in place of the one that is built here.
OMEGA = os.path.abspath(os.environ.get("OMEGA") or BUILT)

# Far above what any check takes on a slow machine.
SECONDS = 120


def shown(text: bytes) -> str:
    """The beginning of a text, for a message."""
    return repr(text if len(text) <= 80 else text[:80] + b"...")


def difference(kind: str, came: bytes, wanted: bytes) -> Fault:
    """Says where two texts differ, or nothing."""
    if came == wanted:
        return None
    place = next((i for i, (a, b) in enumerate(zip(came, wanted)) if a != b), min(len(came), len(wanted)))
    return (f"{kind} of {len(came)} bytes differs from the {len(wanted)} wanted at byte {place}: "
            f"{shown(came[place:])} for {shown(wanted[place:])}")


def run_of(words: list[str], text: bytes) -> Ran:
    """A run of the program with these words on this text: its status, output and error."""
    return subprocess.run([OMEGA] + words, input=text, capture_output=True, timeout=SECONDS)


def fault_of(words: list[str], text: bytes, status: int, output: bytes, error: bytes = b"") -> Fault:
    """Runs the program with these words on this text. What differs from the status, output and error wanted, or
    nothing."""
    try:
        run = run_of(words, text)
    except subprocess.TimeoutExpired:
        return f"not done after {SECONDS} seconds"
    if run.returncode != status:
        return f"status {run.returncode} for {status}: {shown(run.stdout)} {shown(run.stderr)}"
    return difference("output", run.stdout, output) or difference("standard error", run.stderr, error)


def refusal_fault(words: list[str], text: bytes, line: object, status: int = 1) -> Fault:
    """Runs the program on a text that it must refuse by this line, writing nothing."""
    return fault_of(words, text, status, b"", f"omega: {line}\n".encode())


def fault_with_file(words: list[str], held: bytes, text: bytes, status: int, output: bytes,
                    error: bytes = b"") -> Fault:
    """The same as `fault_of`, with the path of a file that holds these bytes as the last word."""
    with tempfile.NamedTemporaryFile() as file:
        file.write(held)
        file.flush()
        return fault_of(words + [file.name], text, status, output, error)


def output_of(words: list[str], text: bytes) -> bytes:
    """What the program writes, whatever its status is."""
    return subprocess.run([OMEGA, *words], input=text, capture_output=True, timeout=SECONDS).stdout


def help_of(subcommand: str) -> str:
    """The help of a subcommand, or of the program where it is empty."""
    words = [OMEGA, subcommand, "--help"] if subcommand else [OMEGA, "--help"]
    return subprocess.run(words, capture_output=True, check=True, timeout=SECONDS).stdout.decode()


def subcommands() -> list[str]:
    """The subcommands that the help of the program lists, but for `help`, which has no help of its own."""
    listed = re.findall(r"^Commands:\n((?:  .*\n)*)", help_of(""), re.MULTILINE)[0]
    names = [line.split()[0] for line in listed.splitlines()]
    return [name for name in names if name != "help"]
