"""The winners that `solve --search` names, against a plain solver by recursion, in 5,000 random games of ten shapes and
in hard ones, by each searcher alone; and in lines, ladders, cliques and rings of loops, where they are plain, up to
750,000 nodes. The budget is 0, so that the winners are the search's and not lifting's: a search that gives an answer
makes no lift, and where it gave nothing, a game with a lift to make is refused 51. A searcher whose answer the judge
refuses says so with `--verbose`, and that is a fault. The hard games are Friedmann's ladders, rings of loops, and ten of
30 to 60 nodes, in `checks/climbed`: random games that were changed at random, where a change made a plain searcher visit
more edges. On most of these, and on rings of eight loops and more, Zielonka's algorithm gives up without an effort, and
says so, so that the answer is that of tangle learning.
"""
import glob
import os
import random
import re
from collections.abc import Callable, Iterator
from functools import partial

from games import Game, Node, random_game, read_game, text_of, winners
from program import ROOT, Cases, Fault, run_of

SEARCHERS = ("zielonka", "tangles")
WITHOUT_LIFT = ["solve", "--search", "--budget", "0"]


def friedmann(levels: int) -> Game:
    """Games on which the plain recursion takes exponential time (Friedmann 2011): 5 nodes a level."""
    nodes = {}
    for i in range(1, levels + 1):
        nodes["a", i] = (1 - i % 2, 1 - i % 2, [("b", i), ("d", i - 1)])
        nodes["b", i] = (i % 2, 1 - i % 2, [("a", i)] + [("c", i)] * (i < levels))
    for i in range(levels):
        nodes["c", i] = (1 - i % 2, 3 * i + 5, [("b", i + 1), ("d", i)])
        nodes["d", i] = (i % 2, 3 * i + 4, [("e", i)] + [("d", i - 1)] * (i > 0) + [("d", i + 1)] * (i < levels - 1))
        nodes["e", i] = (1 - i % 2, 3 * i + 3, [("b", i)] * (i > 0) + [("d", i)])
    number = {name: place for place, name in enumerate(sorted(nodes))}
    return {number[name]: Node(priority, owner, [number[one] for one in successors])
            for name, (owner, priority, successors) in sorted(nodes.items())}


def loops(levels: int, back: bool = False) -> Game:
    """Loops of rising priorities, each after one of low priority: the plain recursion takes exponential time. Whoever
    owns a loop loses there and leads on, so that all is won by the player of the last. With `back` the last leads to
    the first, and all is one component."""
    nodes = []
    for i in range(levels):
        onward = [2 * i + 2] if i < levels - 1 else [0] * back
        nodes.append(Node((i + 1) % 2, i % 2, [2 * i + 1, 2 * i]))
        nodes.append(Node(i + 1, i % 2, [2 * i + 1] + onward))
    return dict(enumerate(nodes))


def said_winners(text: bytes) -> tuple[set[int], set[int]]:
    """The nodes given to each player by a solution text."""
    lines = [line.rstrip(";").split() for line in text.decode().split("\n")[1:-1]]
    won = {int(words[0]): int(words[1]) for words in lines}
    return {v for v, winner in won.items() if winner == 0}, {v for v, winner in won.items() if winner == 1}


def winners_fault(words: list[str], game: Game) -> Fault:
    """Where the winners of a solution differ from those of the plain solver, or nothing."""
    run = run_of(words, text_of(game))
    if run.returncode:
        return f"status {run.returncode}: {run.stderr[:80]!r}"
    said, wanted = said_winners(run.stdout), winners(game, set(game))
    return None if said == wanted else f"nodes of players 0 and 1: {said} for {wanted}"


def loops_fault(words: list[str], levels: int, back: bool = False) -> Fault:
    """Where not all nodes of a chain of loops, or of a ring, are given to the player of the last, or nothing."""
    run = run_of(words, text_of(loops(levels, back)))
    if run.returncode:
        return f"status {run.returncode}: {run.stderr[:80]!r}"
    said, wanted = said_winners(run.stdout)[levels % 2], set(range(2 * levels))
    return None if said == wanted else f"nodes of player {levels % 2}: {said}"


def line_of(nodes: int, last: int, back: int) -> Game:
    """Nodes in a row, each leading to the next and the last to one of them, of priority 0 but the last."""
    made = {v: Node(0, 0, [v + 1]) for v in range(nodes - 1)}
    return made | {nodes - 1: Node(last, 1, [back])}


def ladder(rungs: int) -> Game:
    """Nodes in a ring, the even ones of player 0 and priority 0, the odd ones of player 1 and priority 1. Each leads to
    the next two, so that each player can keep to own nodes."""
    nodes = 2 * rungs
    return {v: Node(v % 2, v % 2, [(v + 1) % nodes, (v + 2) % nodes]) for v in range(nodes)}


def clique(nodes: int) -> Game:
    """Nodes each of which leads to all others; node v has priority v, and its player is the one who wins that priority.
    A player with two nodes can move between these for ever, and the greatest priority of the player's own wins."""
    return {v: Node(v, v % 2, [other for other in range(nodes) if other != v]) for v in range(nodes)}


def counts_fault(game: Game, zero: int, one: int) -> Fault:
    """Where the search does not give so many nodes to each player without a lift, or nothing."""
    run = run_of(WITHOUT_LIFT, text_of(game))
    if run.returncode:
        return f"status {run.returncode}: {run.stderr[:80]!r}"
    counted = tuple(map(len, said_winners(run.stdout)))
    return None if counted == (zero, one) else f"nodes of players 0 and 1: {counted}"


def shape_checks() -> Cases:
    for nodes, back in ((1024, 0), (1024, 200), (750_000, 0), (750_000, 200)):
        yield f"a line of {nodes} nodes, back to {back}, odd", partial(counts_fault, line_of(nodes, 1, back), 0, nodes)
        yield f"a line of {nodes} nodes, back to {back}, even", partial(counts_fault, line_of(nodes, 2, back), nodes, 0)
    for rungs in (2, 3, 10, 1000, 30_000):
        yield f"a ladder of {rungs} rungs", partial(counts_fault, ladder(rungs), rungs, rungs)
    for nodes, zero, one in ((2, 0, 2), (3, 3, 0), (4, 2, 2), (10, 5, 5), (101, 51, 50), (200, 100, 100)):
        yield f"a clique of {nodes} nodes", partial(counts_fault, clique(nodes), zero, one)


def answered_fault(game: Game) -> Fault:
    """Where the search gives no answer without a lift, or nothing."""
    run = run_of(WITHOUT_LIFT, text_of(game))
    return None if run.returncode == 0 else f"status {run.returncode}: {run.stderr[:80]!r}"


def nodes_of(maker: random.Random, count: int, most: int, priorities: list[int], far: int = 0) -> Game:
    """A game with these priorities in any order and up to so many successors of a node, all of them near if it is said
    how far they may be."""
    def successor(place: int) -> int:
        return (place + maker.randint(-far, far)) % count if far else maker.randrange(count)

    maker.shuffle(priorities)
    return {v: Node(priorities[v], maker.randrange(2), [successor(v) for _ in range(maker.randint(1, most))])
            for v in range(count)}


def with_dead_loops(maker: random.Random, game: Game) -> Game:
    """The game with loops at which the owner loses at some nodes, and at which the owner has no other move at others."""
    for v, node in game.items():
        if maker.random() < 0.3:
            node.owner = 1 - node.priority % 2
            node.successors = [v] + node.successors * maker.randrange(2)
    return game


def of_one_player(game: Game, player: int) -> Game:
    """The game with all nodes of one player."""
    for node in game.values():
        node.owner = player
    return game


def any_priorities(maker: random.Random, count: int, below: int) -> list[int]:
    return [maker.randrange(below) for _ in range(count)]


# Games by what is special of them, made of a number of nodes.
SHAPES: dict[str, Callable[[random.Random, int], Game]] = {
    "2 priorities": lambda maker, n: nodes_of(maker, n, 3, any_priorities(maker, n, 2)),
    "4 priorities": lambda maker, n: nodes_of(maker, n, 3, any_priorities(maker, n, 4)),
    "many priorities": lambda maker, n: nodes_of(maker, n, 3, any_priorities(maker, n, 2 * n)),
    "distinct priorities": lambda maker, n: nodes_of(maker, n, 2, list(range(n))),
    "distinct priorities with gaps": lambda maker, n: nodes_of(maker, n, 3, maker.sample(range(9 * n), n)),
    "up to 5 successors": lambda maker, n: nodes_of(maker, n, 5, any_priorities(maker, n, n)),
    "one successor": lambda maker, n: nodes_of(maker, n, 1, any_priorities(maker, n, n)),
    "near successors": lambda maker, n: nodes_of(maker, n, 3, list(range(n)), far=2),
    "nodes of one player": lambda maker, n: of_one_player(nodes_of(maker, n, 3, list(range(n))), maker.randrange(2)),
    "dead loops": lambda maker, n: with_dead_loops(maker, nodes_of(maker, n, 3, any_priorities(maker, n, 6))),
}


def random_games(count: int) -> Iterator[tuple[str, Game]]:
    """Games of 1 to 24 nodes and of each shape, by what they are called."""
    maker = random.Random(20261129)
    shapes = list(SHAPES.items())
    for number in range(count):
        shape, made = shapes[number % len(shapes)]
        yield f"random game {number} of {shape}", made(maker, 1 + number // len(shapes) % 24)


def climbed_games() -> Iterator[tuple[str, Game]]:
    """The games that are kept, by the searcher for which they were climbed and their number of nodes."""
    for file in sorted(glob.glob(os.path.join(ROOT, "checks", "climbed", "*.pg"))):
        with open(file, "rb") as text:
            yield os.path.basename(file), read_game(text.read())


def alone_fault(searcher: str, game: Game, effort: int) -> Fault:
    """Where a searcher alone does not find the winners of the plain solver without a lift, or does not say that it did,
    or nothing."""
    run = run_of([*WITHOUT_LIFT, "--verbose", "--by", searcher, "--effort", str(effort)], text_of(game))
    if not re.fullmatch(rb"omega: %s found the solution after \d+ edges\n" % searcher.encode(), run.stderr):
        return f"status {run.returncode}: {run.stderr[:200]!r}"
    said, wanted = said_winners(run.stdout), winners(game, set(game))
    return None if said == wanted else f"nodes of players 0 and 1: {said} for {wanted}"


def given_up_fault(game: Game) -> Fault:
    """Where Zielonka's algorithm alone does not give up and say so before a lift is refused, or where both searchers do
    not say that it did and that tangle learning found the solution, or nothing."""
    gave_up = rb"omega: zielonka gave up after \d+ edges\n"
    alone = run_of([*WITHOUT_LIFT, "-v", "--by", "zielonka"], text_of(game))
    if alone.returncode != 3 or not re.fullmatch(
            gave_up + rb"omega: the game is lifted\nomega: 51 Budget\n", alone.stderr):
        return f"alone: status {alone.returncode}: {alone.stderr[:200]!r}"
    both = run_of([*WITHOUT_LIFT, "-v"], text_of(game))
    if both.returncode or not re.fullmatch(
            gave_up + rb"omega: tangles found the solution after \d+ edges\n", both.stderr):
        return f"both: status {both.returncode}: {both.stderr[:200]!r}"
    return None


def alone_checks() -> Cases:
    """Each searcher by itself."""
    for label, game in random_games(5000):
        for searcher in SEARCHERS:
            yield f"{label} by {searcher}", partial(alone_fault, searcher, game, 1)
    for label, game in climbed_games():
        for searcher in SEARCHERS:
            yield f"{label} by {searcher}", partial(alone_fault, searcher, game, 1000)
    for levels in (2, 4, 6, 10, 14):
        for searcher in SEARCHERS:
            yield f"Friedmann's ladder of {levels} levels by {searcher}", partial(
                alone_fault, searcher, friedmann(levels), 1)
    for levels in (1, 2, 8, 12):
        for searcher in SEARCHERS:
            yield f"a ring of {levels} loops by {searcher}", partial(
                alone_fault, searcher, loops(levels, back=True), 1000)
    for levels in (8, 16, 40):
        yield f"a ring of {levels} loops, on which zielonka gives up", partial(given_up_fault, loops(levels, back=True))


def random_checks() -> Cases:
    maker = random.Random(20261126)
    for most in (2, 4, 60, 2000):
        yield f"a random game of 10,000 nodes and {most} priorities by a search without a lift", partial(
            answered_fault, random_game(maker, range(10_000), most, 3))


def search_checks() -> Cases:
    yield from shape_checks()
    yield from alone_checks()
    yield from random_checks()
    for label, game in climbed_games():
        yield f"{label} by a search without a lift", partial(winners_fault, WITHOUT_LIFT, game)
    for levels in (2, 4, 6, 10, 14):
        yield f"{levels} levels by a search without a lift", partial(
            winners_fault, WITHOUT_LIFT, friedmann(levels))
    for levels in (1, 2, 16, 40, 400):
        yield f"a chain of {levels} loops by a search without a lift", partial(
            loops_fault, WITHOUT_LIFT, levels)
    for levels in (8, 12, 16):
        game = loops(levels, back=True)
        yield f"a ring of {levels} loops by a search without a lift", partial(
            winners_fault, WITHOUT_LIFT, game)
    for levels in (40, 1000, 10_000):
        yield f"a ring of {levels} loops by a search without a lift", partial(
            loops_fault, WITHOUT_LIFT, levels, back=True)
    for seed in range(3):
        maker = random.Random(seed)
        nodes = 10_000
        game = {v: Node(priority, maker.randrange(2), [maker.randrange(nodes), maker.randrange(nodes)])
                for v, priority in enumerate(maker.sample(range(nodes), nodes))}
        yield f"random game {seed} of 10,000 nodes, each of another priority, by a search without a lift", partial(
            answered_fault, game)
