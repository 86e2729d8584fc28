"""Identifiers, names and bounds of every length. Identifiers have 1 to 10 digits, names 0 to 129 bytes and lengths up
to 1,000,000, with every byte that a name may hold, and bounds 1 to 39 digits.
"""
from functools import partial

from program import Cases, fault_of, refusal_fault

MOST_NUMBER = 2_147_483_647

# Every byte that a name may hold.
NAME_BYTES = "".join(chr(byte) for byte in range(32, 127) if byte != 34)


def loop(number: int, name: str | None = None) -> str:
    """The canonical text of one node that leads to itself and has the number as identifier and priority."""
    quoted = "" if name is None else f' "{name}"'
    return f"parity {number};\n{number} {number} 0 {number}{quoted};\n"


def written_numbers() -> Cases:
    powers = [10 ** k for k in range(10)]
    for number in sorted({0, 1, MOST_NUMBER - 1, MOST_NUMBER, *powers, *(power - 1 for power in powers)}):
        text = loop(number).encode()
        yield f"the number {number}", partial(fault_of, ["canon", "--format", "pg"], text, 0, text)
    past = loop(MOST_NUMBER + 1).encode()
    yield "a number too great", partial(
        refusal_fault, ["canon", "--format", "pg"], past, f"2 Number at {len('parity ')}")


def written_names() -> Cases:
    for length in [*range(0, 130), 4095, 4096, 4097, 65_536, 1_000_000]:
        name = (NAME_BYTES * (length // len(NAME_BYTES) + 1))[:length]
        text = loop(3, name).encode()
        yield f"a name of {length} bytes", partial(fault_of, ["canon", "--format", "pg"], text, 0, text)


def written_bounds() -> Cases:
    """Loops with different odd priorities: each doubles player 0's bound, so that it has every length up to 39
    digits."""
    for nodes in range(1, 126):
        text = "".join(f"{v} {2 * v + 1} 0 {v};" for v in range(nodes)).encode()
        bound = nodes * 2 ** nodes
        said = f"bound {bound}" if bound < 2 ** 128 else "bound over 128 bits"
        wanted = f"game nodes {nodes} edges {nodes} greatest {nodes - 1}\nplayer 0 {said}\nplayer 1 bound {nodes}\n"
        yield f"the bound {bound}", partial(fault_of, ["show", "--format", "pg"], text, 0, wanted.encode())


def numeral_checks() -> Cases:
    yield from written_numbers()
    yield from written_names()
    yield from written_bounds()
