"""Answers of `omega_calls` about games that are known by hand: what is read of them, which choices fit and win, and what
the solvers find, and within which budgets.
"""
import re

from known_calls import Known, begun, given_by, known_cases, said
from memory import Shimmed
from program import Cases, Fault, Left

# Two nodes, whose identifiers have gaps: 4 of player 0, at place 0, and 9 of player 1.
GAP = b'9 3 1 4; 4 2 0 9,4 "a";'
# Node 0 has a better and a worse successor.
THREE = b"0 0 0 1,2; 1 1 1 0; 2 2 1 0;"

# What is read at a place: identifier, priority, owner, name, and the places of the successors and the predecessors.
Node = tuple[int, int, int, bytes | None, list[int], list[int]]


def listed(numbers: list[int]) -> bytes:
    return b"".join(b"%d " % number for number in numbers) + b";"


def sign(holds: bool) -> bytes:
    return b"+" if holds else b"-"


def read(*nodes: Node) -> bytes:
    """What the call `game` begins with: each node, whether the opponent loses its priority, whether its number is a
    player's, its name, and whether it is found by its identifier; the listed successors, the priorities from the
    greatest on with their nodes, and which of the identifiers up to 10 there are."""
    out = [b"%d %d %d %s+%s+%s%s" % (name, priority, owner, sign(priority % 2 == owner),
                                    b"-" if text is None else b"+" + text, listed(ends), listed(back))
           for name, priority, owner, text, ends, back in nodes]
    priorities = [node[1] for node in nodes]
    classes = [listed([priority, priorities.count(priority)]) for priority in sorted(set(priorities), reverse=True)]
    there = [sign(name in [node[0] for node in nodes]) for name in range(11)]
    return b"".join([*out, b"%d " % sum(len(node[4]) for node in nodes), *classes, *there])


THREE_READ = read((0, 0, 0, None, [1, 2], [1, 2]), (1, 1, 1, None, [0], [0]), (2, 2, 1, None, [0], [0]))

# Games, and what is read of them.
READ = [
    (THREE, THREE_READ),
    (GAP, read((4, 2, 0, b"a", [1, 0], [0, 1]), (9, 3, 1, None, [0], [0]))),
    (b"0 0 0 1,1,0; 1 1 1 0,0;", read((0, 0, 0, None, [1, 1, 0], [0, 1, 1]), (1, 1, 1, None, [0, 0], [0, 0]))),
    (b'5 0 0 5 ""; 1 0 0 1; 3 0 0 3 "b c";',
     read((1, 0, 0, None, [0], [0]), (3, 0, 0, b"b c", [1], [1]), (5, 0, 0, b"", [2], [2]))),
    (b"2147483647 0 0 2147483647;", read((2_147_483_647, 0, 0, None, [0], [0]))),
    # Three nodes of priority 1 and one of priority 3.
    (b"0 1 0 1; 1 1 0 2; 2 1 1 3; 3 3 1 0;",
     read((0, 1, 0, None, [1], [3]), (1, 1, 0, None, [2], [0]), (2, 1, 1, None, [3], [1]), (3, 3, 1, None, [0], [2]))),
]

# From 2 and from 7 the nodes 2 and 7 are reached, from 4 these and itself, from 9 all.
NESTED_PARTS = b'9 4 0 4,9 "all"; 2 5 1 7 "two"; 7 3 0 2,7,2 ""; 4 1 1 7,4;'
TWO_AND_SEVEN = read((2, 5, 1, b"two", [1], [1, 1]), (7, 3, 0, b"", [0, 1, 0], [0, 1]))

# A game, an identifier, and what is read of its node's part.
PARTS = [
    (THREE, 1, THREE_READ),
    (NESTED_PARTS, 2, TWO_AND_SEVEN),
    (NESTED_PARTS, 7, TWO_AND_SEVEN),
    (NESTED_PARTS, 4, read((2, 5, 1, b"two", [2], [2, 2]), (4, 1, 1, None, [2, 1], [1]),
                           (7, 3, 0, b"", [0, 2, 0], [0, 1, 2]))),
]

Chosen = list[int | None]


def choices(player: int, places: list[int], chosen: Chosen, order: list[int]) -> bytes:
    """A player's choices by place, the places from which they are to win, and an order of places, as the call reads
    them."""
    numbers = [0 if choice is None else choice + 1 for choice in chosen]
    return b" ".join(b"%d" % number for number in [player, len(places), *places, len(order), *order, *numbers])


# A game, a player and the choices by place, and whether they fit.
FITS: list[tuple[bytes, int, Chosen, bool]] = [
    (THREE, 0, [None, None, None], True),
    (THREE, 0, [1, None, None], True),
    (THREE, 0, [2, None, None], True),
    (THREE, 1, [None, 0, 0], True),
    (THREE, 1, [None, None, 0], True),
    (THREE, 0, [], False),
    (THREE, 0, [2, None], False),
    (THREE, 0, [2, None, None, None], False),
    (THREE, 0, [0, None, None], False),
    (THREE, 0, [3, None, None], False),
    (THREE, 0, [2, 0, None], False),
    (THREE, 1, [2, 0, 0], False),
    (GAP, 0, [1, None], True),
    (GAP, 0, [9, None], False),
    (GAP, 0, [4, None], False),
]

# Player 0 can only go from 0 to 1, which bears an odd priority and leads to itself.
ODD_AFTER = b"0 0 0 1; 1 1 0 1;"
# At 4 player 0 may stay, which loses, or go on to 5.
FAR = b"0 0 0 1; 1 0 1 2; 2 2 0 3; 3 0 1 4; 4 1 0 4,5; 5 2 0 5;"
# Player 0 may stay at 0, and player 1 at 2; both may go on to 1, which loses for player 0.
BRANCHES = b"0 0 0 0,1; 1 1 0 1; 2 2 1 2,1;"
# A cycle of two nodes, the second or the first of the greater priority, odd or even.
ODD_LAST, EVEN_LAST, EVEN_FIRST = b"0 0 0 1; 1 1 0 0;", b"0 1 0 1; 1 2 0 0;", b"0 2 0 1; 1 1 0 0;"
# Player 0 may stay at 1 inside the closed walk through both nodes, whose greatest priority is even.
NESTED = b"0 2 0 1; 1 1 0 0,1;"

# A game, a player, listed places, the player's choices, and whether they win from each of these places: a losing closed
# walk apart from the listed place, one choice of two that wins, and a wrong choice far from the listed place; nodes
# without a choice that keep all edges; the greatest priority above the least and the other way round, and a losing
# closed walk inside a winning one.
WINS: list[tuple[bytes, int, list[int], Chosen, bool]] = [
    (ODD_AFTER, 0, [0], [1, 1], False),
    (ODD_AFTER, 0, [0], [1, None], False),
    (ODD_AFTER, 0, [1], [1, None], False),
    (ODD_AFTER, 0, [], [1, None], True),
    (ODD_AFTER, 1, [0], [None, None], True),
    (ODD_AFTER, 1, [0, 1], [None, None], True),
    (THREE, 0, [0, 1, 2], [2, None, None], True),
    (THREE, 0, [2, 0, 2], [2, None, None], True),
    (THREE, 0, [0], [1, None, None], False),
    (THREE, 0, [2], [1, None, None], False),
    (THREE, 0, [1], [None, None, None], False),
    (THREE, 1, [1], [None, 0, 0], False),
    (FAR, 0, [0], [None, None, None, None, 4, None], False),
    (FAR, 0, [0], [None, None, None, None, None, None], False),
    (FAR, 0, [5, 3], [None, None, None, None, 4, None], False),
    (FAR, 0, [5], [None, None, None, None, 4, None], True),
    (FAR, 0, [0], [None, None, None, None, 5, None], True),
    (FAR, 0, [0, 1, 2, 3, 4, 5], [None, None, None, None, 5, None], True),
    (BRANCHES, 0, [0], [None, None, None], False),
    (BRANCHES, 0, [0], [0, None, None], True),
    (BRANCHES, 0, [0, 1], [0, None, None], False),
    (BRANCHES, 0, [2], [0, None, None], False),
    (BRANCHES, 1, [2], [None, None, None], False),
    (BRANCHES, 1, [2], [None, None, 1], True),
    (ODD_LAST, 0, [0], [None, None], False),
    (ODD_LAST, 1, [1], [None, None], True),
    (EVEN_LAST, 0, [0], [None, None], True),
    (EVEN_LAST, 1, [1], [None, None], False),
    (NESTED, 0, [0], [None, None], False),
    (NESTED, 0, [0], [None, 1], False),
    (NESTED, 0, [0, 1], [None, 0], True),
    (NESTED, 1, [1], [None, None], False),
]

# Two ways lead from 0 to 5, the only place that loses. It comes back to itself by 0 and, on a shorter way, by 6.
WAYS = b"0 0 1 1,4; 1 2 1 2; 2 4 1 5; 3 0 1 5; 4 2 1 5; 5 5 1 0,6; 6 1 1 5;"
UNCHOSEN: Chosen = [None] * 7

# A game, a player, listed places, the player's choices, and the places of the stem and of the cycle, which is empty for
# no counterexample: a cycle after the listed place, one through it, and the shortest of several ways. In `THREE` the
# odd priority at 1 comes back to itself by 0; by 2 an even one would be on the way.
REFUTED: list[tuple[bytes, int, list[int], Chosen, list[int], list[int]]] = [
    (ODD_AFTER, 0, [0], [1, 1], [0], [1]),
    (ODD_AFTER, 0, [0, 1], [None, None], [], [1]),
    (ODD_AFTER, 0, [], [None, None], [], []),
    (ODD_AFTER, 1, [0, 1], [None, None], [], []),
    (THREE, 0, [0], [1, None, None], [0], [1, 0]),
    (THREE, 0, [2], [1, None, None], [2, 0], [1, 0]),
    (THREE, 0, [1, 2], [None, None, None], [], [1, 0]),
    (THREE, 0, [0, 1, 2], [2, None, None], [], []),
    (WAYS, 0, [1], UNCHOSEN, [1, 2], [5, 6]),
    (WAYS, 0, [0], UNCHOSEN, [0, 4], [5, 6]),
    (WAYS, 0, [0, 3], UNCHOSEN, [3], [5, 6]),
]

# A game, a player without choices, an order, and whether it shows that the player wins from place 0. The place of the
# greater priority has to come first, and each place has to come; the order shows nothing for the player who loses.
ORDERED: list[tuple[bytes, int, list[int], bool]] = [
    (EVEN_FIRST, 0, [0, 1], True),
    (EVEN_FIRST, 0, [1, 0], False),
    (EVEN_FIRST, 0, [0], False),
    (EVEN_FIRST, 0, [], False),
    (EVEN_FIRST, 0, [0, 1, 7], True),
    (EVEN_FIRST, 1, [0, 1], False),
    (EVEN_LAST, 0, [0, 1], False),
    (EVEN_LAST, 0, [1, 0], True),
    (EVEN_LAST, 1, [1, 0], False),
]

# Two nodes of player 0 that lead to themselves, of priorities 2 and 1.
TWO_APART = b"0 2 0 0; 1 1 0 1;"
RISING, FALLING, FIRST = "by rising order", "check_solution_by_order", "by first place"

# A call by an order, a game, a solution, and whether the order shows that both players' choices win. As for one player;
# and no edge may lead to a node given to the other.
ORDERED_FOR_BOTH = [
    (RISING, EVEN_FIRST, b"paritysol 1; 0 0 1; 1 0 0;", True),
    (FALLING, EVEN_FIRST, b"paritysol 1; 0 0 1; 1 0 0;", False),
    (FIRST, EVEN_FIRST, b"paritysol 1; 0 0 1; 1 0 0;", False),
    (RISING, EVEN_FIRST, b"paritysol 1; 0 0 1; 1 1;", False),
    (RISING, TWO_APART, b"paritysol 1; 0 0 0; 1 1;", True),
    (FALLING, TWO_APART, b"paritysol 1; 0 0 0; 1 1;", True),
    (RISING, TWO_APART, b"paritysol 1; 0 0 0; 1 0 1;", False),
]

KNOWN: list[Known] = [
    *(begun("game", text, b"run", wanted) for text, wanted in READ),
    *(begun("game of a part", text, b"%d" % name, wanted) for text, name, wanted in PARTS),
    *(said("fits", text, choices(player, [], chosen, []), sign(fit)) for text, player, chosen, fit in FITS),
    *(said("check_strategy", text, choices(player, places, chosen, []), sign(wins))
      for text, player, places, chosen, wins in WINS),
    *(said("counterexample", text, choices(player, places, chosen, []), listed(stem) + listed(cycle) if cycle else b"+")
      for text, player, places, chosen, stem, cycle in REFUTED),
    *(said("check_strategy_by_order", text, choices(player, [0], [None, None], order), sign(wins))
      for text, player, order, wins in ORDERED),
    *(said(call, text, solution, sign(wins)) for call, text, solution, wins in ORDERED_FOR_BOTH),
    said("read_game", b"parity 9; " + GAP, b"", b'parity 9;\n4 2 0 9,4 "a";\n9 3 1 4;\n'),
]

# A game and a player; the bound, the number of lifts unless it depends on the schedule, and the most attempts; and the
# answer. At a place the answer is `-` if the player does not win, else the place chosen, or `.` for no choice.
Row = tuple[bytes, int, int, int | None, int, str]
# For player 0, node 0 is lifted to (0, 1), (1, 0) and (1, 1), and node 1 to (1, 0).
CARRY = b"0 1 0 0,1; 1 3 0 2; 2 4 0 2;"
# For player 0 the measure of node 1 is above that of node 2, but the allowances of node 0 towards them are equal, since
# its priority is above that of node 1.
EQUAL = b"0 2 0 1,2; 1 1 0 0; 2 2 1 0;"
SOLVED: list[Row] = [
    (b"0 0 0 0;", 0, 1, 0, 2, "0"),
    (b"0 0 0 0;", 1, 2, 2, 3, "-"),
    (b"0 1 0 0;", 0, 2, 2, 3, "-"),
    (b"0 1 0 0;", 1, 1, 0, 2, "."),
    (b"0 1 0 1; 1 2 1 0;", 0, 4, 1, 6, "1."),
    (b"0 1 0 1; 1 2 1 0;", 1, 4, 4, 6, "--"),
    (THREE, 0, 6, 1, 11, "2.."),
    (THREE, 1, 12, None, 19, "---"),
    (GAP, 0, 4, 1, 8, "0."),
    (GAP, 1, 4, 3, 8, "--"),
    (CARRY, 0, 12, 4, 19, "122"),
    (CARRY, 1, 6, None, 11, "---"),
    (EQUAL, 0, 6, 1, 11, "10."),
    (EQUAL, 1, 9, None, 15, "---"),
]

MOST = 2 ** 31 - 1
NO_CHOICE = 2 ** 32 - 1
BOUNDS = re.compile(rb"([0-9]+) ([0-9]+) $")
RUN = re.compile(rb"([+-])([+-])([0-9]+) ([0-9]+) ")


def found(answer: str) -> bytes:
    """Who wins at each place, and the choices."""
    numbers = [int(place) if place.isdigit() else NO_CHOICE for place in answer]
    return b"".join([*(sign(place != "-") for place in answer), *(b"%d " % number for number in numbers)])


def runs_in(output: bytes, count: int) -> tuple[list[tuple[bytes, bytes, int, int]], bytes]:
    """What so many runs are said to have done: whether one is done and has an answer, its lifts and its attempts. And
    the rest of the output, whose first sign says that there is no answer before the first run."""
    runs, rest = list[tuple[bytes, bytes, int, int]](), output.removeprefix(b"-")
    for _ in range(count):
        run = RUN.match(rest)
        if run:
            runs.append((run[1], run[2], int(run[3]), int(run[4])))
            rest = rest[run.end():]
    return runs, rest


def runs_fault(came: Left, row: Row, needed: int, budgets: list[int]) -> Fault:
    """What is wrong with runs that are dealt these budgets, if so many lifts are needed: a run is done once they are
    made, and then alone there is an answer."""
    left, wanted = needed, list[tuple[bytes, bytes, int]]()
    for budget in budgets:
        done = sign(left <= budget)
        left = max(left - budget, 0)
        wanted.append((done, done, needed - left))
    runs, rest = runs_in(came[1], len(budgets))
    if came[0] or [run[:3] for run in runs] != wanted or rest != (b"" if left else found(row[5])):
        return f"budgets {budgets} of {needed} lifts: status {came[0]}, {came[1]!r}"
    return None


def solver_fault(shimmed: Shimmed, solver: str, row: Row) -> Fault:
    """What is wrong with a solver on the game of a row: in one run, within each budget up to the lifts that it needs,
    and with the budgets dealt out to two runs and to runs of one lift. In the nested order a run that ends while it
    lifts one place again and again may change the number of lifts, if that is not the same in each order."""
    text, player, bound, lifts, attempts, _ = row

    def run(budgets: list[int]) -> Left:
        return given_by(shimmed, solver, text, b" ".join(b"%d" % number for number in [player, *budgets]))

    whole, _ = runs_in(run([MOST])[1], 1)
    if not whole:
        return "no run"
    _, _, needed, tried = whole[0]
    if needed > bound or needed != (needed if lifts is None else lifts) or not needed <= tried <= attempts:
        return f"{needed} lifts in {tried} attempts"
    dealt = [[MOST], *([budget] for budget in range(needed + 1))]
    if lifts is not None or "nested" not in solver:
        dealt += [*([budget, MOST - budget] for budget in range(needed + 1)), [0, *[1] * 12]]
    faults = (runs_fault(run(budgets), row, needed, budgets) for budgets in dealt)
    return next((fault for fault in faults if fault), None)


def bound_fault(shimmed: Shimmed, row: Row) -> Fault:
    """What is wrong with the bound, of which a game's call writes last those of player 0 and player 1."""
    came = given_by(shimmed, "game", row[0], b"run")
    bounds = BOUNDS.search(came[1])
    return None if bounds and int(bounds[1 + row[1]]) == row[2] else f"status {came[0]}, {came[1]!r}"


def solver_cases(shimmed: Shimmed, solvers: list[str]) -> Cases:
    for row in SOLVED:
        label = f"{row[0].decode()} for player {row[1]}"
        yield f"bound of {label}", bound_fault(shimmed, row)
        for solver in solvers:
            yield f"{solver} of {label}", solver_fault(shimmed, solver, row)


def drawn(number: int, below: int) -> int:
    return (number >> 48) % max(below, 1)


def random_game(nodes: int, most: int, seed: int) -> bytes:
    """A game whose priorities below `most`, and one to three successors for each node, are pseudo-random. If the seed
    is even, place 0 bears an even priority from `most` on, and odd priorities lead to it alone."""
    number, lines = seed, list[str]()

    def step() -> int:
        nonlocal number
        number = (number * 6_364_136_223_846_793_005 + 1_442_695_040_888_963_407) % 2 ** 64
        return number

    tame = seed % 2 == 0
    for node in range(nodes):
        drawn_priority = step()
        priority = most + most % 2 if tame and node == 0 else drawn(drawn_priority, most)
        ends = 1 if tame and priority % 2 else nodes
        successors = [drawn(step(), ends)]
        successors += [drawn(step(), ends) for _ in range(drawn(step(), 3))]
        lines.append(f"{node} {priority} 0 {','.join(map(str, successors))};")
    return "".join(lines).encode()


def nested_game(components: int, flaw: int) -> bytes:
    """Components that nest as in a binary tree. Component i, from 1 on, is a cycle of an even place and an odd one of
    the priority below, both above all inside, and has the components 2i and 2i + 1 inside. These go back to the even
    place, so that no odd place recurs. But component `flaw`, if there is one, goes back to the odd place around it
    too."""
    lines = list[str]()
    for component in range(1, components + 1):
        even = 2 * component
        priority = 2 * (32 - component.bit_length()) + 2
        outer = [2 * (component // 2)] if component > 1 else []
        inner = [2 * inside for inside in (even, even + 1) if inside <= components]
        flawed = [2 * (component // 2) + 1] if component == flaw > 1 else []
        lines.append(f"{even} {priority} 0 {even + 1};")
        lines.append(f"{even + 1} {priority - 1} 1 {','.join(map(str, [even, *outer, *inner, *flawed]))};")
    return "".join(lines).encode()


# Components that nest, one of them flawed or 0, and whether player 0 wins.
COMPONENTS = [(1, 0, True), (3, 0, True), (3, 2, False), (31, 0, True), (31, 2, False), (31, 17, False),
              (31, 31, False), (1023, 0, True), (1023, 700, False), (30_000, 0, True)]


def fast_fault(shimmed: Shimmed, text: bytes, wanted: bytes) -> Fault:
    """What the fast search suggests is confirmed for both players, and is as it should be if that is given."""
    came = given_by(shimmed, "fast of all places", text, b"0")
    confirmed = came[0] == 0 and len(came[1]) == 2 and b"?" not in came[1]
    return None if confirmed and came[1] == (wanted or came[1]) else f"status {came[0]}, {came[1]!r}"


def fast_cases(shimmed: Shimmed) -> Cases:
    sizes = [*((1 + seed % 24, 8, seed) for seed in range(400)),
             *((10_000, most, seed) for seed in range(4) for most in (8, 2000))]
    for nodes, most, seed in sizes:
        yield (f"fast search in {nodes} random nodes of seed {seed}",
               fast_fault(shimmed, random_game(nodes, most, seed), b""))
    for components, flaw, wins in COMPONENTS:
        yield (f"fast search in {components} components, {flaw} flawed",
               fast_fault(shimmed, nested_game(components, flaw), sign(wins) + b"-"))


def game_call_cases(shimmed: Shimmed, solvers: list[str]) -> Cases:
    yield from known_cases(shimmed, KNOWN)
    yield from solver_cases(shimmed, solvers)
    yield from fast_cases(shimmed)
