"""What `--verbose` says of refused texts besides, by the rules of docs/formats.md: where a fault is, and what is to be
mended in a game or in a solution of one.

Nothing here is shared with the program.
"""
import re
from collections.abc import Iterator

from games import Game, Reader, Refused, read_specification

WORD = re.compile(rb"[^ \t\n\r]+")
MOST_SHOWN = 40


def line_at(text: bytes, place: int) -> str:
    """The line that names a place of a text."""
    before, rest = text[:place], text[place:]
    begin = before.rfind(b"\n") + 1
    if rest:
        match = WORD.match(rest)
        word = match.group() if match else rest[:1]
        what = "'" + "".join(chr(byte) if 32 <= byte <= 126 and byte not in b"'\\" else f"\\x{byte:02x}"
                             for byte in word[:MOST_SHOWN]) + "'" + ("..." if len(word) > MOST_SHOWN else "")
    else:
        what = "end of the text"
    return f"omega: line {before.count(10) + 1}, column {place - begin + 1}: {what}\n"


def place_of(refused: Refused) -> int | None:
    """The place of a refusal 1, 2 or 3."""
    match = re.fullmatch(r"[123] \w+ at ([0-9]+)", str(refused))
    return int(match.group(1)) if match else None


def game_cause(text: bytes, refused: Refused) -> str:
    """The line about a refused game text, if there is one."""
    place = place_of(refused)
    if place is not None:
        return line_at(text, place)
    reader = Reader(text)
    header = None
    if reader.sees(b"parity"):
        reader.word(b"parity")
        header = reader.number()
        reader.word(b";")
    specifications = []
    while not reader.at_end():
        specifications.append(read_specification(reader))
    identifiers = [identifier for identifier, _ in specifications]
    for count, identifier in enumerate(identifiers):
        if identifier in identifiers[:count]:
            return f"omega: node {identifier} comes twice\n"
    for identifier, node in specifications:
        for successor in node.successors:
            if successor not in identifiers:
                return f"omega: node {identifier}: successor {successor} is no node\n"
    for identifier in identifiers:
        if header is not None and identifier > header:
            return f"omega: the header has {header}, and there is a node {identifier}\n"
    return ""


def solution_faults(nodes: Game, text: bytes) -> Iterator[str]:
    """What is wrong in a text of the grammar of solutions, in the order of the text."""
    reader, identifiers = Reader(text), list(nodes)
    reader.word(b"paritysol")
    header = reader.number()
    reader.word(b";")
    if header != max(identifiers):
        yield f"the header has {header}, and the greatest identifier is {max(identifiers)}"
    count = 0
    while not reader.at_end():
        identifier, winner = reader.number(), reader.player()
        choice = None if reader.sees(b";") else reader.number()
        reader.word(b";")
        if identifier not in nodes:
            yield f"node {identifier} is not in the game"
        elif identifier in identifiers[:count]:
            yield f"node {identifier} comes twice"
        elif identifier != identifiers[count]:
            yield f"node {identifiers[count]} is missing"
        elif nodes[identifier].owner != winner and choice is not None:
            yield f"node {identifier}: a choice, and its owner does not win"
        elif nodes[identifier].owner == winner and choice is None:
            yield f"node {identifier}: no choice, and its owner wins"
        elif choice is not None and choice not in nodes[identifier].successors:
            yield f"node {identifier}: choice {choice} is no successor"
        count += 1
    for identifier in identifiers[count:]:
        yield f"node {identifier} is missing"


def solution_cause(nodes: Game, text: bytes, refused: Refused) -> str:
    """The line about a refused solution text."""
    place = place_of(refused)
    if place is not None:
        return line_at(text, place)
    return f"omega: {next(solution_faults(nodes, text))}\n"
