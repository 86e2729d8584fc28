"""Two game texts and two solutions of a game, cut short at every byte, and with every byte replaced by each of eleven.
Each text is read, or refused by its refusal at its place, as a slow reader in Python says.
"""
from collections.abc import Iterator
from functools import partial

from causes import game_cause, solution_cause
from games import Game, Refused, canonical, read_game, read_solution, wins
from program import Cases, Fault, fault_of, fault_with_file, refusal_fault, shown

GAME = b'parity 9; 9 3 1 4; 4 2 0 9,4 "a";'
CHOICE = b"0 0 0 1,2; 1 1 1 0; 2 2 1 0;"
SOLUTIONS = [b"paritysol 2; 0 0 2; 1 0; 2 0;", b"paritysol 2; 0 0 1; 1 0; 2 0;"]

# An end of strings, white space, quotes, a digit, `@`, `\`, a byte that is no letter, and one that is no ASCII.
BYTES = [0, 9, 10, 34, 45, 48, 59, 64, 92, 127, 255]


def damaged(text: bytes) -> Iterator[bytes]:
    """The text, its beginnings, and the texts that differ from it in one byte."""
    yield text
    for place in range(len(text)):
        yield text[:place]
        for byte in BYTES:
            yield text[:place] + bytes([byte]) + text[place + 1:]


def game_fault(text: bytes) -> Fault:
    try:
        wanted = canonical(read_game(text))
    except Refused as refused:
        lines = f"omega: {refused}\n{game_cause(text, refused)}".encode()
        return (refusal_fault(["canon", "--format", "pg"], text, refused)
                or fault_of(["canon", "-v", "--format", "pg"], text, 1, b"", lines))
    return fault_of(["canon", "--format", "pg"], text, 0, wanted)


def solution_fault(nodes: Game, text: bytes) -> Fault:
    words = ["verify", "-v", "--game"]
    try:
        solution = read_solution(nodes, text)
    except Refused as refused:
        lines = f"omega: {refused}\nomega: in the solution\n{solution_cause(nodes, text, refused)}"
        return fault_with_file(words, CHOICE, text, 1, b"", lines.encode())
    if wins(nodes, solution, 0) and wins(nodes, solution, 1):
        return fault_with_file(words, CHOICE, text, 0, b"yes\n")
    return fault_with_file(words, CHOICE, text, 6, b"no\n")


def text_checks() -> Cases:
    for text in (GAME, CHOICE):
        for one in damaged(text):
            yield f"the game {shown(one)}", partial(game_fault, one)
    nodes = read_game(CHOICE)
    for text in SOLUTIONS:
        for one in damaged(text):
            yield f"the solution {shown(one)}", partial(solution_fault, nodes, one)
