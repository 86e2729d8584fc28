"""Games and solutions by the rules of docs/formats.md, read and solved as plainly as can be, and made at random: what
the program is compared with.

Nothing here is quick, and nothing is shared with the program.
"""
import random
import re
from collections.abc import Callable, Collection, Mapping, Sequence
from dataclasses import dataclass

MOST_NUMBER = 2_147_483_647
WHITE = b" \t\n\r"
UNIT = re.compile(rb'[0-9]+|[A-Za-z_][A-Za-z0-9_-]*|;|,|"[ !#-~]*"')


class Refused(Exception):
    """The line of a refusal, without the name of the program."""


@dataclass
class Token:
    text: bytes
    place: int

    def number(self) -> int | None:
        return int(self.text) if self.text[:1].isdigit() else None


@dataclass
class Node:
    priority: int
    owner: int
    successors: list[int]
    name: bytes | None = None


# The nodes by their identifiers; and of each node the winner, with the choice or none.
Game = dict[int, Node]
Solution = dict[int, tuple[int, int | None]]


def tokens_of(text: bytes) -> list[Token]:
    """The tokens of a text; refused 1 or 2 where they can't be cut."""
    found: list[Token] = []
    place = 0
    while True:
        while place < len(text) and text[place] in WHITE:
            place += 1
        if place == len(text):
            return found
        match = UNIT.match(text, place)
        unit = match.group() if match else b""
        if not unit or (unit[:1].isalpha() or unit[:1] == b"_") and unit not in (b"parity", b"paritysol"):
            raise Refused(f"1 Lex at {place}")
        if unit.isdigit() and (unit != b"0" and unit.startswith(b"0") or int(unit) > MOST_NUMBER):
            raise Refused(f"2 Number at {place}")
        found.append(Token(unit, place))
        place += len(unit)


class Reader:
    """Goes over the tokens of a text; refused 3 at the first that can't stand where it stands."""

    def __init__(self, text: bytes) -> None:
        self.tokens = tokens_of(text)
        self.length = len(text)
        self.next = 0

    def sees(self, *texts: bytes) -> bool:
        return self.next < len(self.tokens) and self.tokens[self.next].text in texts

    def take(self, fits: Callable[[Token], bool]) -> Token:
        if self.next == len(self.tokens) or not fits(self.tokens[self.next]):
            place = self.tokens[self.next].place if self.next < len(self.tokens) else self.length
            raise Refused(f"3 Syntax at {place}")
        self.next += 1
        return self.tokens[self.next - 1]

    def word(self, text: bytes) -> None:
        self.take(lambda token: token.text == text)

    def number(self) -> int:
        return int(self.take(lambda token: token.number() is not None).text)

    def player(self) -> int:
        return int(self.take(lambda token: token.number() in (0, 1)).text)

    def at_end(self) -> bool:
        return self.next == len(self.tokens)


def read_specification(reader: Reader) -> tuple[int, Node]:
    identifier, priority, owner = reader.number(), reader.number(), reader.player()
    successors = [reader.number()]
    while reader.sees(b","):
        reader.word(b",")
        successors.append(reader.number())
    name = None
    if not reader.sees(b";"):
        name = reader.take(lambda token: token.text.startswith(b'"')).text
    reader.word(b";")
    return identifier, Node(priority, owner, successors, name)


def read_game(text: bytes) -> Game:
    """The nodes of a game text by their identifiers, in rising order."""
    reader = Reader(text)
    header = None
    if reader.sees(b"parity"):
        reader.word(b"parity")
        header = reader.number()
        reader.word(b";")
    specifications = [read_specification(reader)]
    while not reader.at_end():
        specifications.append(read_specification(reader))
    nodes = dict(sorted(specifications, key=lambda one: one[0]))
    if len(nodes) < len(specifications):
        raise Refused("10 DuplicateNode")
    if any(successor not in nodes for node in nodes.values() for successor in node.successors):
        raise Refused("11 UndefinedSuccessor")
    if header is not None and header < max(nodes):
        raise Refused("12 HeaderTooSmall")
    return nodes


def text_of(nodes: Game) -> bytes:
    """A game text without a header, with a line for each node in the order given."""
    lines = []
    for identifier, node in nodes.items():
        listed = b",".join(b"%d" % successor for successor in node.successors)
        name = b"" if node.name is None else b" " + node.name
        lines.append(b"%d %d %d %s%s;\n" % (identifier, node.priority, node.owner, listed, name))
    return b"".join(lines)


def canonical(nodes: Game) -> bytes:
    """The canonical text of a game, whose nodes are given in rising order."""
    return b"parity %d;\n" % max(nodes) + text_of(nodes)


def random_game(maker: random.Random, identifiers: Sequence[int], priorities: int, most_successors: int) -> Game:
    """A game of nodes with these identifiers in this order, with priorities below a number, and with one successor or
    more, up to a number."""
    return {identifier: Node(maker.randrange(priorities), maker.randrange(2),
                             [maker.choice(identifiers) for _ in range(maker.randint(1, most_successors))])
            for identifier in identifiers}


def read_solution(nodes: Game, text: bytes) -> Solution:
    """The winner and the choice, or none, of each node; refused 53 where the text is no solution of the game."""
    reader = Reader(text)
    reader.word(b"paritysol")
    header = reader.number()
    reader.word(b";")
    lines = []
    while not reader.at_end():
        identifier, winner = reader.number(), reader.player()
        choice = None if reader.sees(b";") else reader.number()
        reader.word(b";")
        lines.append((identifier, winner, choice))
    good = header == max(nodes) and [line[0] for line in lines] == list(nodes)
    for identifier, winner, choice in lines if good else []:
        owned = nodes[identifier].owner == winner
        good = good and owned == (choice is not None) and (not owned or choice in nodes[identifier].successors)
    if not good:
        raise Refused("53 BadSolution")
    return {identifier: (winner, choice) for identifier, winner, choice in lines}


def reached(start: int, edges: Mapping[int, list[int]], within: Collection[int]) -> set[int]:
    """The nodes that edges lead to from the successors of a start, all within some nodes."""
    found, waiting = set(), [start]
    while waiting:
        for successor in edges[waiting.pop()]:
            if successor in within and successor not in found:
                found.add(successor)
                waiting.append(successor)
    return found


def wins(nodes: Game, solution: Solution, player: int) -> bool:
    """Whether the choices printed for a player win from each node printed for that player."""
    edges: dict[int, list[int]] = {}
    for identifier, node in nodes.items():
        winner, choice = solution[identifier]
        is_chosen = node.owner == player == winner
        edges[identifier] = [choice] if is_chosen and choice is not None else node.successors
    given = [identifier for identifier, (winner, _) in solution.items() if winner == player]
    seen = set(given).union(*(reached(start, edges, nodes) for start in given)) if given else set()
    for identifier in seen:
        priority = nodes[identifier].priority
        below = {other for other in seen if nodes[other].priority <= priority}
        if priority % 2 != player and identifier in reached(identifier, edges, below):
            return False
    return True


def attracted(nodes: Game, left: set[int], target: set[int], player: int) -> set[int]:
    """The nodes left from which a player can force a visit to the target, itself among them."""
    found = set(target)
    while True:
        more = {v for v in left - found
                if (any if nodes[v].owner == player else all)(w in found for w in nodes[v].successors if w in left)}
        if not more:
            return found
        found |= more


def winners(nodes: Game, left: set[int]) -> tuple[set[int], set[int]]:
    """The nodes that each player wins among the nodes left, which are a game, by recursion (Zielonka 1998)."""
    if not left:
        return set(), set()
    top = max(nodes[v].priority for v in left)
    player = top % 2
    near = attracted(nodes, left, {v for v in left if nodes[v].priority == top}, player)
    others = winners(nodes, left - near)[1 - player]
    if not others:
        return (left, set()) if player == 0 else (set(), left)
    lost = attracted(nodes, left, others, 1 - player)
    rest = winners(nodes, left - lost)
    return (rest[0], rest[1] | lost) if player == 0 else (rest[0] | lost, rest[1])
