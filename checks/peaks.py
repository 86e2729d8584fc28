"""The program's memory at its peak: at most 8 bytes a byte of text, and 12 MB. Tried are the longest texts of one token
again and again; formulas between the most parentheses and of the most names; a million of each sign, of atoms and of
comments in or before a label; and bodies of some megabytes, with labels, with marks of 120 sets, and without labels.

There is a text of each kind of token.
"""
import json
import random
import subprocess
import sys
import tempfile
from collections.abc import Iterator
from functools import partial

from automaton_texts import CHECK, huge_texts
from program import OMEGA, SECONDS, Cases, Fault, output_of, shown

MOST_TEXT = 16_777_216
CHECK_GAME = ["check", "--format", "pg"]

# A process counts the memory of what started it before it was another program. So a small one starts the program, and
# gives its status, its greatest memory in bytes and what it wrote.
SMALL = """
import json, os, subprocess, sys
run = subprocess.Popen(sys.argv[1:], stdout=subprocess.PIPE, stderr=subprocess.STDOUT)
wrote = run.stdout.read(1000)
_, status, used = os.wait4(run.pid, 0)
print(json.dumps([os.waitstatus_to_exitcode(status), used.ru_maxrss * 1024, wrote.decode()]))
"""


def peak_fault(words: list[str], text: bytes, wanted: str) -> Fault:
    """Runs the program on a text. What differs from the text wanted on its outputs, or how far its memory went."""
    with tempfile.TemporaryFile() as file:
        file.write(text)
        file.seek(0)
        run = subprocess.run([sys.executable, "-c", SMALL, OMEGA, *words], stdin=file, stdout=subprocess.PIPE,
                             check=True, timeout=SECONDS)
    _, peak, wrote = json.loads(run.stdout)
    if wrote != wanted:
        return f"{shown(wrote.encode())} for {shown(wanted.encode())}"
    most = 8 * len(text) + 12_000_000
    return None if peak <= most else f"{peak} bytes of memory for {len(text)} bytes of text, and {most} at most"


def alone(token: bytes) -> bytes:
    """The longest text of one token again and again."""
    return token * (MOST_TEXT // len(token))


def tokens_alone() -> Iterator[tuple[list[str], bytes, str]]:
    """Texts of one kind of token, with the line of their refusal."""
    for token in (b"State: ", b"a: ", b"--BODY--", b"--END--", b"--ABORT--", b"[", b"]", b"{", b"}", b"(", b")", b"!",
                  b"&", b"|", b"t ", b"f ", b"0 ", b"a ", b'"" ', b"@a "):
        yield CHECK, token, "3 Syntax at 0"
    headers = alone(b"HOA: ")
    yield CHECK, b"HOA: ", f"3 Syntax at {len(headers)}"
    for token in (b"; ", b", ", b'"" '):
        yield CHECK_GAME, token, "3 Syntax at 0"
    yield CHECK_GAME, b"0 ", "3 Syntax at 8"
    yield CHECK_GAME, b"parity ", "3 Syntax at 7"


def formulas_alone() -> Iterator[tuple[bytes, str]]:
    """Texts of one part of a formula again and again, with the line of their refusal."""
    for part in (b"(", b"!", b"X", b"() ", b"a U ", b"a&", b"1->", b"!(", b'"a"W'):
        yield part, f"3 Syntax at {len(alone(part))}"
    for part, place in ((b")", 0), (b"& ", 0), (b"a ", 2), (b"1", 1), (b'"" ', 3), (b"a) ", 1)):
        yield part, f"3 Syntax at {place}"
    yield b"$", "1 Lex at 0"


def parentheses_fault() -> Fault:
    """Reads a name in parentheses, whose automaton is that of the name alone."""
    wanted = output_of(["ltl", "-f", "a"], b"")
    count = (MOST_TEXT - 1) // 2
    return peak_fault(["ltl"], b"(" * count + b"a" + b")" * count, wanted.decode())


def different_names() -> bytes:
    """A conjunction of different names, nearly as long as a text can be."""
    return b"&".join(b"a%06x" % number for number in range(MOST_TEXT // 8))


def labelled_body(states: int, source: random.Random) -> Iterator[bytes]:
    """A Büchi automaton with four edges a state, each with a label of four propositions."""
    yield b'HOA: v1 States: %d Start: 0 AP: 4 "a" "b" "c" "d" acc-name: Buchi Acceptance: 1 Inf(0) --BODY--\n' % states
    for state in range(states):
        yield b"State: %d\n" % state
        for _ in range(4):
            signs = source.randrange(16)
            label = b" & ".join(b"%s%d" % (b"!" if signs >> k & 1 else b"", k) for k in range(4))
            yield b"[%s] %d%s\n" % (label, source.randrange(states), source.choice([b"", b" {0}"]))
    yield b"--END--\n"


def marked_body(states: int, source: random.Random) -> Iterator[bytes]:
    """Three edges a state, with marks of a hundred and twenty sets."""
    sets = b" & ".join(b"Fin(%d)" % k for k in range(120))
    yield b'HOA: v1 States: %d Start: 0 AP: 1 "a" Acceptance: 120 %s --BODY--\n' % (states, sets)
    for state in range(states):
        yield b"State: %d\n" % state
        for label in (b"0", b"!0", b"t"):
            yield b"[%s] %d {%d}\n" % (label, source.randrange(states), source.randrange(120))
    yield b"--END--\n"


def implicit_body(states: int, source: random.Random) -> Iterator[bytes]:
    """Sixteen edges a state without labels, for each valuation of four propositions."""
    yield b'HOA: v1 States: %d Start: 0 AP: 4 "a" "b" "c" "d" acc-name: all Acceptance: 0 t --BODY--\n' % states
    for state in range(states):
        yield b"State: %d\n" % state
        yield b" ".join(b"%d" % source.randrange(states) for _ in range(16)) + b"\n"
    yield b"--END--\n"


def bodies() -> Iterator[tuple[str, bytes]]:
    """Automata of some megabytes."""
    source = random.Random(1)
    yield "labels of four propositions", b"".join(labelled_body(50_000, source))
    yield "marks of 120 sets", b"".join(marked_body(50_000, source))
    yield "bodies without labels", b"".join(implicit_body(60_000, source))


def peak_checks() -> Cases:
    for words, token, line in tokens_alone():
        yield f"{words[-1]} of {token.decode()}alone", partial(peak_fault, words, alone(token), f"omega: {line}\n")
    for token, line in formulas_alone():
        yield f"ltl of {token.decode()}alone", partial(peak_fault, ["ltl"], alone(token), f"omega: {line}\n")
    yield "ltl of parentheses around a name", parentheses_fault
    yield "ltl of different names", partial(peak_fault, ["ltl"], different_names(), "omega: 32 TooDeep\n")
    for label, text, refusal in huge_texts():
        yield label, partial(peak_fault, CHECK, text, "accepted\n" if refusal is None else f"omega: {refusal}\n")
    for label, text in bodies():
        yield label, partial(peak_fault, CHECK, text, "accepted\n")
