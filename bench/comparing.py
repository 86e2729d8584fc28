"""Families of pairs of automata for the benchmark, each a function from its size to the texts of both: is the first
contained in the second? The first two have four edges a state, labelled by the valuations of two propositions, and the
others labels of many propositions."""
import random

from automata import Edge, State, body, header
from families import DEFAULT_SEED

LABELS = ["!0&!1", "0&!1", "!0&1", "0&1"]
# An automaton, and the one that is to contain it.
Pair = tuple[str, str]


def text_of(rows: list[State]) -> str:
    return header(len(rows), 2, "Inf(0)", 1, "Buchi") + body(rows)


def lockstep(states: int, seed: float = DEFAULT_SEED) -> Pair:
    """The second is the first with more marks: the product has a pair for each state, and no more."""
    draw = random.Random(seed)
    rows = [[(label, draw.randrange(states), draw.randrange(8)) for label in LABELS] for _ in range(states)]

    def marked(most: int) -> list[State]:
        return [([], [(label, target, [0] if mark < most else []) for label, target, mark in row]) for row in rows]

    return text_of(marked(1)), text_of(marked(4))


def few_reached(states: int, reached: int = 64, seed: float = DEFAULT_SEED) -> Pair:
    """Of both only so many states are reached: the product is small, and the automata are large."""
    draw = random.Random(seed)

    def drawn() -> str:
        return text_of([([], [(label, draw.randrange(reached if at < reached else states), [0]) for label in LABELS])
                        for at in range(states)])

    return drawn(), drawn()


def minterm(number: int, propositions: int) -> str:
    return "&".join(("" if number >> p & 1 else "!") + str(p) for p in range(propositions))


def valuations(propositions: int) -> Pair:
    """One state with an edge for each valuation of the propositions, in itself."""
    row: list[Edge] = [(minterm(number, propositions), 0, [0]) for number in range(1 << propositions)]
    text = header(1, propositions, "Inf(0)", 1, "Buchi") + body([([], row)])
    return text, text


def literals(states: int, propositions: int, seed: float = DEFAULT_SEED) -> Pair:
    """Five edges a state, each labelled by a literal of each proposition, in a rule of one state."""
    draw = random.Random(seed)

    def label(first: int) -> str:
        return minterm(first | draw.getrandbits(propositions - 3) << 3, propositions)

    rows: list[State] = [
        ([], [(label(first), draw.randrange(states), [0]) for first in range(5)]) for _ in range(states)]
    names = header(states, propositions, "Inf(0)", 1, "Buchi")
    rule: list[State] = [([], [("0", 0, [0]), ("!0", 0, [0])])]
    return names + body(rows), header(1, propositions, "Inf(0)", 1, "Buchi") + body(rule)


def arbiter(clients: int) -> Pair:
    """An arbiter in itself: each client's request is granted at last, and at most one is granted at once. A state has the
    clients that wait, and the one whose turn it is, which is passed on when that client does not wait."""
    subsets = 1 << clients

    def edge(waiting: int, turn: int, requests: int, granted: int) -> Edge:
        left = (waiting | requests) & ~granted
        passed = not left >> turn & 1
        following = (turn + 1) % clients if passed else turn
        return minterm(requests | granted << clients, 2 * clients), left * clients + following, [0] if passed else []

    grants = [0] + [1 << client for client in range(clients)]
    rows: list[State] = [
        ([], [edge(waiting, turn, requests, granted) for requests in range(subsets) for granted in grants])
        for waiting in range(subsets) for turn in range(clients)]
    text = header(len(rows), 2 * clients, "Inf(0)", 1, "Buchi") + body(rows)
    return text, text


# name: (the texts of a quick run, the texts of a full run)
COMPARED = {
    "lockstep": (lambda: lockstep(2500), lambda: lockstep(25000)),
    "few-reached": (lambda: few_reached(2500), lambda: few_reached(25000)),
    "arbiter": (lambda: arbiter(3), lambda: arbiter(5)),
    "valuations": (lambda: valuations(8), lambda: valuations(12)),
    "literals12": (lambda: literals(1000, 12), lambda: literals(10000, 12)),
    "literals20": (lambda: literals(1000, 20), lambda: literals(10000, 20)),
    "literals60": (lambda: literals(1000, 60), lambda: literals(10000, 60)),
}
