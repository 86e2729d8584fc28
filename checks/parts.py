"""Parts of 45 games, five by hand and others at random: what `canon --from` writes, or the refusal, for each identifier
and for some that no node has. And `verify --from` says of what `solve --from` wrote, of a solution of the whole game
and of random solutions what a slow judge says of them for the part.
"""
import random
from functools import partial

from causes import game_cause, solution_cause
from games import (Game, Refused, Solution, canonical, random_game, reached, read_game, read_solution, text_of,
                   wins)
from program import Cases, Fault, fault_of, fault_with_file, output_of, shown

GAMES = [
    b"0 1 0 1; 1 2 1 0;",
    b"0 0 0 1; 1 1 1 1; 2 2 0 0;",
    b"0 0 0 1,2; 1 1 1 0; 2 2 1 0;",
    b'parity 9; 9 3 1 4; 4 2 0 9,4 "a"; 7 1 0 9;',
    b"3 1 0 3; 1 2 1 1,3; 2 0 0 1,2,2;",
]
REFUSED = [b"", b"0 0 0 1;", b"0 0 0 0; 0 0 0 0;", b"parity 3; 4 0 0 4;", b"0 0 0 0 $"]


def part_of(nodes: Game, start: int) -> Game:
    """The nodes that a node reaches, itself among them; refused 54 where there is no such node."""
    if start not in nodes:
        raise Refused("54 UnknownNode")
    edges = {identifier: node.successors for identifier, node in nodes.items()}
    kept = reached(start, edges, nodes) | {start}
    return {identifier: node for identifier, node in nodes.items() if identifier in kept}


def made_at_random(maker: random.Random) -> bytes:
    """A game text of up to seven nodes, whose identifiers have gaps and come in any order."""
    return text_of(random_game(maker, maker.sample(range(12), maker.randint(1, 7)), 6, 2))


def written(part: Game, solution: Solution) -> bytes:
    lines = [b"paritysol %d;\n" % max(part)]
    for identifier, (winner, choice) in solution.items():
        lines.append(b"%d %d%s;\n" % (identifier, winner, b"" if choice is None else b" %d" % choice))
    return b"".join(lines)


def solution_at_random(maker: random.Random, part: Game) -> Solution:
    """Any winners and choices: sometimes right."""
    made = {}
    for identifier, node in part.items():
        winner = maker.randint(0, 1)
        made[identifier] = winner, maker.choice(node.successors) if winner == node.owner else None
    return made


def told_of_game(game: bytes, refused: Refused) -> str:
    """The line about a refused game text, or nothing if only a node is not known."""
    return "" if str(refused).startswith("54 ") else game_cause(game, refused)


def judged(game: bytes, start: int, text: bytes) -> Fault:
    """The fault of `verify --from`, which must say what the slow judge says of the part."""
    words = ["verify", "-v", "--from", str(start), "--game"]
    judged_text = "game"
    try:
        part = part_of(read_game(game), start)
        judged_text = "solution"
        solution = read_solution(part, text)
    except Refused as refused:
        cause = solution_cause(part, text, refused) if judged_text == "solution" else told_of_game(game, refused)
        lines = f"omega: {refused}\nomega: in the {judged_text}\n{cause}"
        return fault_with_file(words, game, text, 1, b"", lines.encode())
    right = all(wins(part, solution, player) for player in (0, 1))
    return fault_with_file(words, game, text, 0 if right else 6, b"yes\n" if right else b"no\n")


def refused_checks() -> Cases:
    for game in REFUSED:
        try:
            part_of(read_game(game), 0)
        except Refused as refused:
            wanted = f"omega: {refused}\n".encode()
            words = ["canon", "--format", "pg", "--from", "0"]
            yield f"canon --from of {shown(game)}", partial(fault_of, words, game, 1, b"", wanted)
            yield f"verify --from of {shown(game)}", partial(
                fault_with_file,
                ["verify", "-v", "--from", "0", "--game"], game, b"nonsense", 1, b"",
                wanted + b"omega: in the game\n" + told_of_game(game, refused).encode())


def game_checks(maker: random.Random, game: bytes) -> Cases:
    nodes = read_game(game)
    for start in sorted({*nodes, 1, 5, 2_147_483_647}):
        label = f"the part of {start} in {shown(game)}"
        words = ["canon", "--format", "pg", "--from", str(start)]
        try:
            part = part_of(nodes, start)
        except Refused as refused:
            yield label, partial(fault_of, words, game, 1, b"", f"omega: {refused}\n".encode())
            yield f"{label}, verified", partial(judged, game, start, b"paritysol 0;")
            continue
        yield label, partial(fault_of, words, game, 0, canonical(part))
        for ways in ("", "--search"):
            solution = output_of(["solve", "--from", str(start), *ways.split()], game)
            yield f"{label}, solved {ways}", judged(game, start, solution) or (
                fault_with_file(["verify", "--game"], canonical(part), solution, 0, b"yes\n"))
        yield f"{label}, by a solution of the whole", partial(judged, game, start, output_of(["solve"], game))
        for _ in range(3):
            yield f"{label}, by any solution", partial(
                judged, game, start, written(part, solution_at_random(maker, part)))


def part_checks() -> Cases:
    yield from refused_checks()
    maker = random.Random(2026)
    for game in GAMES + [made_at_random(maker) for _ in range(40)]:
        yield from game_checks(maker, game)
