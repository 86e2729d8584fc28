"""The solution that `solve` writes, for which both players are lifted for in turns, against the answers of
`solve --player` for one and for the other, node by node and choice by choice, in 2,000 random games. With a budget of
the greater bound the solution is the same.
"""
import random
from functools import partial

from games import Game, random_game, text_of
from program import Cases, Fault, difference, output_of


def won_lines(game: Game, player: int) -> dict[int, bytes]:
    """The line of a solution for each node that `solve --player` gives to the player."""
    lines = {}
    for line in output_of(["solve", "--player", str(player)], text_of(game)).splitlines()[1:]:
        node, *choice = line.rstrip(b";").split()
        lines[int(node)] = b" ".join([node, b"%d" % player, *choice]) + b";\n"
    return lines


def by_player(game: Game) -> bytes:
    """The solution text that the answers for both players make."""
    lines = won_lines(game, 0) | won_lines(game, 1)
    return b"paritysol %d;\n" % max(game) + b"".join(lines[node] for node in sorted(lines))


def bounds(game: Game) -> list[int]:
    """The bounds on lifts that `show` writes."""
    lines = output_of(["show", "--format", "pg"], text_of(game)).splitlines()[1:]
    return [int(line.split()[-1]) for line in lines]


def same_fault(game: Game) -> Fault:
    """Where a way to solve the game differs from the answers for both players, or nothing."""
    wanted = by_player(game)
    ways: list[list[str]] = [[], ["--budget", str(max(bounds(game)))]]
    for words in ways:
        fault = difference("output", output_of(["solve", *words], text_of(game)), wanted)
        if fault:
            return f"{' '.join(['solve', *words])}: {fault}"
    return None


def turn_checks() -> Cases:
    maker = random.Random(20261127)
    for number in range(2000):
        game = random_game(maker, range(1 + number % 24), 1 + number % 8, 3)
        yield f"random game {number} of up to 24 nodes, in turns and by player", partial(same_fault, game)
    for priorities in (2, 3, 4):
        yield f"a random game of 300 nodes and {priorities} priorities, in turns and by player", partial(
            same_fault, random_game(maker, range(300), priorities, 3))
