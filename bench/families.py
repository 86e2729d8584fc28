"""Families of parity games for the benchmark, each a function from its sizes to the text of a game."""
import random
from collections.abc import Iterable

DEFAULT_SEED = 20

# Identifier, priority, owner and successors of a node.
Row = tuple[int, int, int, list[int]]


def text_of(nodes: Iterable[Row]) -> str:
    """The game text of (identifier, priority, owner, successors) in the order given, without a header."""
    return "".join(
        f"{identifier} {priority} {owner} {','.join(map(str, successors))};\n"
        for identifier, priority, owner, successors in nodes
    )


def random_game(nodes: int, priorities: int, degree: int = 2, seed: int = DEFAULT_SEED) -> str:
    """Every priority below `priorities`, owner and successor drawn evenly."""
    draw = random.Random(seed)
    return text_of(
        (v, draw.randrange(priorities), draw.randrange(2), [draw.randrange(nodes) for _ in range(degree)])
        for v in range(nodes)
    )


def drawn_game(nodes: int, priorities: int, degree: int = 3, seed: int = DEFAULT_SEED) -> str:
    """The same with up to so many successors a node, so that some nodes have one alone."""
    draw = random.Random(seed)
    return text_of(
        (v, draw.randrange(priorities), draw.randrange(2),
         [draw.randrange(nodes) for _ in range(1 + draw.randrange(degree))])
        for v in range(nodes)
    )


def ladder(steps: int) -> str:
    """Two rails with rungs: owners and priorities 0 and 1 alternate, each node leads on along both rails."""
    nodes = 2 * steps
    return text_of((v, v % 2, v % 2, [(v + 2) % nodes, (v + 1) % nodes]) for v in range(nodes))


def clique(nodes: int) -> str:
    """Each node leads to each other; priority v at node v, owners alternate."""
    return text_of((v, v, v % 2, [w for w in range(nodes) if w != v]) for v in range(nodes))


def chain_up(nodes: int) -> str:
    """A chain to an odd loop at its end: losing for player 0, whose measures climb one step a pass."""
    return text_of((v, 1 if v + 1 == nodes else 0, 0, [min(v + 1, nodes - 1)]) for v in range(nodes))


def chain_down(nodes: int) -> str:
    """The same chain with its identifiers turned round, so that the loop is lifted first."""
    return text_of((v, 1 if v == 0 else 0, 0, [max(v - 1, 0)]) for v in range(nodes))


def odd_chain(nodes: int, down: bool = False, seed: int = DEFAULT_SEED) -> str:
    """A chain of odd priorities to an even loop: player 0 wins, and the measure of a node counts how far the loop is.
    Its identifiers rise towards the loop, or fall."""
    draw = random.Random(seed)
    end = 0 if down else nodes - 1
    step = -1 if down else 1
    return text_of((v, int(v != end), draw.randrange(2), [v if v == end else v + step]) for v in range(nodes))


def component(nodes: int, priorities: int, stretch: int = 4096, seed: int = DEFAULT_SEED) -> str:
    """One strongly connected component: a ring with many priorities, the greatest of them, an even one, at the
    beginning of each stretch, and at each node a chord forward within its stretch."""
    draw = random.Random(seed)
    greatest = priorities + priorities % 2
    return text_of(
        (
            v,
            greatest if v % stretch == 0 else draw.randrange(priorities),
            draw.randrange(2),
            [(v + 1) % nodes, (v + 1 + draw.randrange(stretch - v % stretch)) % nodes],
        )
        for v in range(nodes)
    )


def solitaire(nodes: int, priorities: int, degree: int = 3, seed: int = DEFAULT_SEED) -> str:
    """Random, and player 0 owns every node."""
    draw = random.Random(seed)
    return text_of(
        (v, draw.randrange(priorities), 0, [draw.randrange(nodes) for _ in range(1 + draw.randrange(degree))])
        for v in range(nodes)
    )


def counting(levels: int, size: int, player: int = 0) -> str:
    """A ring of each priority that the player loses, which the player may leave for the next ring, and after the last a
    path to a loop that the player wins. The player wins everywhere, and a measure counts up to that of the way out
    (after Jurdziński 2000)."""
    nodes = []
    for level in range(levels):
        base = level * size
        for at in range(size):
            ahead = [base + at + 1] if level + 1 == levels else [base + (at + 1) % size, base + size]
            nodes.append((base + at, 2 * level + 1 + player, player, ahead))
    return text_of(nodes + [(levels * size, player, 1 - player, [levels * size])])


def lost_loop(levels: int, size: int) -> str:
    """A loop of the least odd priority beside nodes of each odd priority: it counts through all measures."""
    last = levels * size + 1
    priorities = [1] + [2 * level + 1 for level in range(levels) for _ in range(size - (level == 0))]
    nodes = [(v, priority, 0, [v and v + 1]) for v, priority in enumerate(priorities)]
    return text_of(nodes + [(v, 0, 0, [last]) for v in range(len(nodes), last + 1)])


def model_checking(rungs: int, depth: int) -> str:
    """A formula of so many alternating fixed points on a ladder: for some j, proposition j holds here and X_j next, in
    some state after one on the left rail, in all states after one on the right."""
    states, each = 2 * rungs, 1 + 2 * depth
    true, false = states * each, states * each + 1
    nodes = []
    for state in range(states):
        rung, right, base = state // 2, state % 2, state * each
        after = (rung + 1) % rungs
        ahead = [2 * after + 1, 2 * after] if right else [2 * after, 2 * rung + 1]
        nodes.append((base, 0, 0, [base + 1 + at for at in range(depth)]))
        nodes += [(base + 1 + at, 0, 1, [true if rung % depth == at else false, base + 1 + depth + at])
                  for at in range(depth)]
        nodes += [(base + 1 + depth + at, at, right, [to * each for to in ahead]) for at in range(depth)]
    greatest = depth + depth % 2
    return text_of(nodes + [(true, greatest, 0, [true]), (false, greatest + 1, 0, [false])])


def pursuit(width: int, goal: str) -> str:
    """One who flees and one who pursues move in turn on a square of cells. Player 0 flees: for ever, to a corner, there
    again and again, or so that it is caught no more from some time on."""
    cells = width * width

    def steps(cell: int) -> list[int]:
        row, column = divmod(cell, width)
        near = [(row > 0, cell - width), (row + 1 < width, cell + width), (column > 0, cell - 1),
                (column + 1 < width, cell + 1)]
        return [to for inside, to in near if inside]

    def place(flees: int, pursues: int, turn: int) -> int:
        return (flees * cells + pursues) * 2 + turn

    nodes = []
    for flees in range(cells):
        for pursues in range(cells):
            for turn in range(2):
                caught, home, here = flees == pursues, flees == cells - 1, place(flees, pursues, turn)
                # The pursuer may not stand still.
                ahead = ([place(flees, to, 0) for to in steps(pursues)] if turn
                         else [place(to, pursues, 1) for to in [flees, *steps(flees)]])
                ends = caught if goal == "safety" else goal == "reach" and home
                priority = {"safety": caught, "reach": 1 + home, "buchi": 1 + (home and not caught),
                            "cobuchi": caught}[goal]
                nodes.append((here, int(priority), turn, [here] if ends else ahead))
    return text_of(nodes)


def layered_rows(nodes: int, width: int, priorities: int, up: bool, draw: random.Random) -> list[Row]:
    """The rows of a layered game, by place."""
    layers, greatest = nodes // width, priorities + priorities % 2
    crown, step = (layers - 1, 1) if up else (0, -1)
    return [
        (
            layer * width + at,
            greatest + draw.randrange(2) if layer == crown else draw.randrange(priorities),
            draw.randrange(2),
            [(layer + step) % layers * width + draw.randrange(width) for _ in range(2)],
        )
        for layer in range(layers)
        for at in range(width)
    ]


def layered(nodes: int, width: int = 64, priorities: int = 4, up: bool = False, seed: int = DEFAULT_SEED) -> str:
    """Layers whose edges lead to the layer below, or above; the layer that leads round to the other end bears the two
    greatest priorities."""
    return text_of(layered_rows(nodes, width, priorities, up, random.Random(seed)))


def gaps(nodes: int, width: int = 64, priorities: int = 4, seed: int = DEFAULT_SEED) -> str:
    """A layered game whose identifiers have gaps and are drawn evenly, as is the order of its nodes; priorities are far
    apart."""
    draw = random.Random(seed)
    rows = layered_rows(nodes, width, priorities, False, draw)
    identifiers = draw.sample(range(2**31 - 1), len(rows))
    draw.shuffle(rows)
    return text_of(
        (identifiers[v], 1_000_000_000 + 20_000_000 * (priority // 2) + priority % 2, owner,
         [identifiers[w] for w in ahead])
        for v, priority, owner, ahead in rows
    )


def grid(width: int, height: int, seed: int = DEFAULT_SEED) -> str:
    """A torus of two priorities: steps right and down, owners like a chess board."""
    draw = random.Random(seed)
    return text_of(
        (
            y * width + x,
            1 if draw.random() < 0.3 else 2,
            (x + y) % 2,
            [y * width + (x + 1) % width, ((y + 1) % height) * width + x],
        )
        for y in range(height)
        for x in range(width)
    )


def torus(width: int, height: int, priorities: int, seed: int = DEFAULT_SEED) -> str:
    """A torus with steps in all four directions; owners and priorities are drawn."""
    draw = random.Random(seed)
    return text_of(
        (
            y * width + x,
            draw.randrange(priorities),
            draw.randrange(2),
            [y * width + (x + 1) % width, y * width + (x - 1) % width,
             (y + 1) % height * width + x, (y - 1) % height * width + x],
        )
        for y in range(height)
        for x in range(width)
    )


def sparse(nodes: int, seed: int = DEFAULT_SEED) -> str:
    """A layered game of three priorities whose identifiers have gaps and come in no order."""
    draw = random.Random(seed)
    identifiers = draw.sample(range(2**31 - 1), nodes)
    rows = [
        (
            identifiers[v],
            draw.randrange(3),
            draw.randrange(2),
            [identifiers[min(v + 1 + draw.randrange(8), nodes - 1)] for _ in range(2)],
        )
        for v in range(nodes)
    ]
    draw.shuffle(rows)
    return text_of(rows)


def distinct(nodes: int, seed: int) -> str:
    """Priority v at node v, owners and two successors a node drawn evenly: the hard case of searches."""
    draw = random.Random(seed)
    return text_of((v, v, draw.randrange(2), [draw.randrange(nodes) for _ in range(2)]) for v in range(nodes))


def near(nodes: int, width: int, seed: int = DEFAULT_SEED) -> str:
    """Priority v at node v, which has up to three successors at most so many nodes away."""
    draw = random.Random(seed)
    return text_of(
        (v, v, draw.randrange(2),
         [(v + draw.randrange(2 * width) - width) % nodes for _ in range(1 + draw.randrange(3))])
        for v in range(nodes)
    )


def rings(levels: int) -> str:
    """A ring of levels with two loops of two nodes each, whose priorities rise around the ring: the recursive algorithm
    is exponential."""
    rows: list[Row] = []
    for i in range(levels):
        at, owner = 4 * i, i % 2
        rows += [
            (at, (i + 1) % 2, owner, [at + 1, at + 2]),
            (at + 1, i + 1, owner, [at + 3, 4 * ((i + 1) % levels)]),
            (at + 2, 0, 1 - owner, [at]),
            (at + 3, 0, 1 - owner, [at + 1]),
        ]
    return text_of(rows)


def friedmann(levels: int) -> str:
    """Ladders of five rails on which the recursive algorithm is exponential (Friedmann 2011)."""
    owners: list[tuple[int, int, list[int]]] = []
    rail = [levels * at for at in range(5)]
    for i in range(1, levels + 1):
        owners.append((1 - i % 2, 1 - i % 2, [rail[1] + i - 1, rail[3] + i - 1]))
    for i in range(1, levels + 1):
        owners.append((i % 2, 1 - i % 2, [i - 1] + [rail[2] + i] * (i < levels)))
    for i in range(levels):
        owners.append((3 * i + 5, 1 - i % 2, [rail[1] + i, rail[3] + i]))
    for i in range(levels):
        beside = [rail[3] + i - 1] * (i > 0) + [rail[3] + i + 1] * (i + 1 < levels)
        owners.append((3 * i + 4, i % 2, [rail[4] + i, *beside]))
    for i in range(levels):
        owners.append((3 * i + 3, 1 - i % 2, [rail[3] + i] + [rail[1] + i - 1] * (i > 0)))
    return text_of((v, priority, owner, successors) for v, (priority, owner, successors) in enumerate(owners))


def most_nodes(nodes: int = 1_048_576) -> str:
    """As many nodes as a game may have. Each leads to node 0: longer lists do not fit into the greatest text."""
    return text_of((v, 0, 0, [0]) for v in range(nodes))


def most_bytes(limit: int = 16_777_216) -> str:
    """A text of nearly the greatest length: few nodes that list one-digit successors over and over."""
    each = (limit - 200) // 20
    return "".join(f"{v} 0 {v % 2} {','.join(['3'] * each)};\n" for v in range(10))


def backward(limit: int = 16_777_216, seed: int = DEFAULT_SEED) -> str:
    """A text of nearly the greatest length: nodes with two successors among those before them."""
    draw = random.Random(seed)
    lines, length, v = [], 0, 0
    while length < limit - 64:
        ahead = f"{draw.randrange(v + 1)},{draw.randrange(v + 1)}"
        lines.append(f"{v} {draw.randrange(3)} {draw.randrange(2)} {ahead};\n")
        length += len(lines[-1])
        v += 1
    return "".join(lines)


# name: (what is measured with it, the text of a quick run, the text of a full run)
FAMILIES = {
    "start": ("solve", lambda: chain_up(2), lambda: chain_up(2)),
    "random2": ("solve", lambda: random_game(2000, 2), lambda: random_game(8000, 2)),
    "random3": ("solve", lambda: random_game(1000, 3), lambda: random_game(4000, 3)),
    "random8": ("solve", lambda: random_game(300, 8), lambda: random_game(1000, 8)),
    "random20": ("searched", lambda: random_game(2000, 20), lambda: random_game(20000, 20)),
    "random8-four": ("searched", lambda: random_game(500, 8, 4), lambda: random_game(2000, 8, 4)),
    "random3-large": ("turns", lambda: random_game(5000, 3), lambda: random_game(20000, 3)),
    "drawn2": ("solve", lambda: drawn_game(2000, 2), lambda: drawn_game(8000, 2)),
    "drawn3": ("solve", lambda: drawn_game(1000, 3), lambda: drawn_game(4000, 3)),
    "drawn4": ("solve", lambda: drawn_game(300, 4), lambda: drawn_game(800, 4)),
    "ladder": ("solve", lambda: ladder(1000), lambda: ladder(4000)),
    "clique": ("solve", lambda: clique(400), lambda: clique(1200)),
    "chain-up": ("solve", lambda: chain_up(2000), lambda: chain_up(16000)),
    "chain-down": ("solve", lambda: chain_down(50000), lambda: chain_down(400000)),
    "odd-chain-up": ("solve", lambda: odd_chain(4000), lambda: odd_chain(16000)),
    "odd-chain-down": ("solve", lambda: odd_chain(50000, True), lambda: odd_chain(400000, True)),
    "component": ("solve", lambda: component(8192, 32), lambda: component(65536, 64)),
    "component1000": ("solve", lambda: component(4096, 1000, 1024), lambda: component(32768, 1000, 1024)),
    "solitaire": ("solve", lambda: solitaire(10000, 2), lambda: solitaire(40000, 2)),
    "counting3": ("solve", lambda: counting(3, 40), lambda: counting(3, 160)),
    "counting5": ("solve", lambda: counting(5, 6), lambda: counting(5, 13)),
    "counting3-other": ("solve", lambda: counting(3, 40, 1), lambda: counting(3, 160, 1)),
    "lost-loop": ("solve", lambda: lost_loop(3, 100), lambda: lost_loop(3, 400)),
    "checking2": ("solve", lambda: model_checking(300, 2), lambda: model_checking(1200, 2)),
    "checking3": ("solve", lambda: model_checking(100, 3), lambda: model_checking(400, 3)),
    "pursuit": ("solve", lambda: pursuit(5, "safety"), lambda: pursuit(7, "safety")),
    "pursuit-home": ("solve", lambda: pursuit(6, "reach"), lambda: pursuit(10, "reach")),
    "pursuit-again": ("solve", lambda: pursuit(6, "buchi"), lambda: pursuit(10, "buchi")),
    "pursuit-never": ("solve", lambda: pursuit(5, "cobuchi"), lambda: pursuit(7, "cobuchi")),
    "pursuit-never-large": ("turns", lambda: pursuit(6, "cobuchi"), lambda: pursuit(9, "cobuchi")),
    "layered": ("solve read", lambda: layered(40000), lambda: layered(600000)),
    "layered-up": ("solve", lambda: layered(10000, up=True), lambda: layered(80000, up=True)),
    "gaps": ("solve read", lambda: gaps(20000), lambda: gaps(320000)),
    "grid": ("solve", lambda: grid(60, 30), lambda: grid(240, 60)),
    "torus2": ("solve", lambda: torus(60, 60, 2), lambda: torus(240, 60, 2)),
    "torus3": ("solve", lambda: torus(20, 40, 3), lambda: torus(80, 40, 3)),
    "torus3-large": ("turns", lambda: torus(40, 40, 3), lambda: torus(80, 80, 3)),
    "distinct": ("hard", lambda: distinct(4000, 1), lambda: distinct(40000, 1)),
    "distinct-other": ("hard", lambda: distinct(4000, 3), lambda: distinct(40000, 3)),
    "near": ("hard", lambda: near(10000, 20), lambda: near(100000, 20)),
    "rings": ("hard", lambda: rings(1000), lambda: rings(10000)),
    "friedmann": ("hard", lambda: friedmann(1000), lambda: friedmann(10000)),
    "sparse": ("read", lambda: sparse(40000), lambda: sparse(320000)),
    "most-nodes": ("read", lambda: most_nodes(131072), lambda: most_nodes()),
    "most-bytes": ("solve read", lambda: most_bytes(2_097_152), lambda: most_bytes()),
    "backward": ("read", lambda: backward(2_097_152), lambda: backward()),
}
