"""Families of omega-automata for the benchmark, each a function from its sizes to a text of the Hanoi format."""
import random
from collections.abc import Callable, Iterable

from families import DEFAULT_SEED

# The label of an edge or none, its target and its marks.
Edge = tuple[str | None, int, list[int]]
# The marks of a state, and its edges.
State = tuple[list[int], list[Edge]]

# How many pairs, or parts, the acceptance of the families for the search has.
PAIRS = 8


def header(states: int, propositions: int, acceptance: str, sets: int, name: str | None = None) -> str:
    """The header of an automaton that begins in state 0."""
    names = "".join(f' "p{at}"' for at in range(propositions))
    named = f"acc-name: {name}\n" if name else ""
    return (f"HOA: v1\nStates: {states}\nStart: 0\nAP: {propositions}{names}\n{named}"
            f"Acceptance: {sets} {acceptance}\n--BODY--\n")


def body(rows: Iterable[State]) -> str:
    """States by their marks and their edges, each a label or none, a target and marks."""
    out = []
    for state, (marks, edges) in enumerate(rows):
        out.append(f"State: {state}{marked(marks)}\n")
        out += [f"{'' if label is None else f'[{label}] '}{target}{marked(sets)}\n" for label, target, sets in edges]
    return "".join(out) + "--END--\n"


def marked(sets: list[int]) -> str:
    """Sets as they stand after a state or an edge."""
    return f" {{{' '.join(map(str, sets))}}}" if sets else ""


def valuation(draw: random.Random, propositions: int) -> str:
    """A label that says of each proposition whether it holds."""
    return "&".join(f"{'!' if draw.randrange(2) else ''}{at}" for at in range(propositions)) or "t"


def expression(draw: random.Random, propositions: int, atoms: int) -> str:
    """A random label of so many atoms."""
    if atoms == 1:
        return f"{'!' if draw.randrange(3) == 0 else ''}{draw.randrange(propositions)}"
    left = 1 + draw.randrange(atoms - 1)
    parts = (expression(draw, propositions, count) for count in (left, atoms - left))
    joined = (" & " if draw.randrange(2) else " | ").join(parts)
    return f"{'!' if draw.randrange(6) == 0 else ''}({joined})"


def buchi(states: int, edges: int = 4, propositions: int = 4, seed: float = DEFAULT_SEED) -> str:
    """Büchi acceptance by states, one in eight; labels are whole valuations."""
    draw = random.Random(seed)
    return header(states, propositions, "Inf(0)", 1, "Buchi") + body(
        ([0] if draw.randrange(8) == 0 else [],
         [(valuation(draw, propositions), draw.randrange(states), []) for _ in range(edges)])
        for _ in range(states)
    )


def labels(states: int, edges: int = 4, propositions: int = 12, atoms: int = 24, seed: float = DEFAULT_SEED) -> str:
    """Büchi acceptance by edges, one in six; labels are random expressions."""
    draw = random.Random(seed)
    return header(states, propositions, "Inf(0)", 1, "Buchi") + body(
        ([], [(expression(draw, propositions, atoms), draw.randrange(states), [0] if draw.randrange(6) == 0 else [])
              for _ in range(edges)])
        for _ in range(states)
    )


def implicit(states: int, propositions: int = 4, seed: float = DEFAULT_SEED) -> str:
    """Co-Büchi acceptance by edges, one in five, and an edge without a label for each valuation."""
    draw = random.Random(seed)
    return header(states, propositions, "Fin(0)", 1, "co-Buchi") + body(
        ([], [(None, draw.randrange(states), [0] if draw.randrange(5) == 0 else []) for _ in range(2**propositions)])
        for _ in range(states)
    )


def parity_formula(sets: int, kind: str = "max even") -> str:
    """The formula of a kind of parity acceptance, of so many sets: the set that decides stands outermost."""
    side, wanted = kind.split()
    if sets == 0:
        return "f" if kind in ("max even", "min odd") else "t"
    formula = ""
    for at in range(sets) if side == "max" else reversed(range(sets)):
        good = at % 2 == (wanted == "odd")
        atom = f"{'Inf' if good else 'Fin'}({at})"
        formula = f"{atom} {'|' if good else '&'} ({formula})" if formula else atom
    return formula


def parity(states: int, edges: int = 4, sets: int = 8, seed: float = DEFAULT_SEED, kind: str = "max even") -> str:
    """Parity acceptance, with up to two marks on each edge."""
    draw = random.Random(seed)
    return header(states, 2, parity_formula(sets, kind), sets, f"parity {kind} {sets}") + body(
        ([], [(valuation(draw, 2), draw.randrange(states),
               sorted({draw.randrange(sets) for _ in range(draw.randrange(3) if sets else 0)})) for _ in range(edges)])
        for _ in range(states)
    )


def aliases(states: int, depth: int = 15, chained: bool = False, seed: float = DEFAULT_SEED) -> str:
    """Definitions each of which stands for twice the one before it, or for its negation."""
    draw = random.Random(seed)
    definitions = "Alias: @a0 0 & 1\n" + "".join(
        f"Alias: @a{at} {f'!@a{at - 1}' if chained else f'@a{at - 1} & @a{at - 1}'}\n" for at in range(1, depth))
    text = header(states, 4, "Inf(0)", 1, "Buchi").replace("acc-name", f"{definitions}acc-name", 1)
    return text + body(([0], [(f"@a{depth - 1}", draw.randrange(states), [])]) for _ in range(states))


def stream(count: int, seed: float = DEFAULT_SEED) -> str:
    """So many small automata, of up to six states."""
    draw = random.Random(seed)
    return "".join(parity(1 + draw.randrange(6), 1 + draw.randrange(3), draw.randrange(5), draw.random())
                   for _ in range(count))


def stream_with_aborts(limit: int = 16_777_216, seed: float = DEFAULT_SEED) -> str:
    """A stream of nearly the greatest length: small automata, comments between them, and beginnings that are
    aborted."""
    draw = random.Random(seed)
    parts, length = [], 0
    while length < limit - 8192:
        kind = f"{draw.choice(('max', 'min'))} {draw.choice(('even', 'odd'))}"
        parts.append(draw.choice((
            "HOA: ( & 7 nonsense [ } --ABORT--\n",
            "/* a comment /* nested */ here */\n",
            *[parity(1 + draw.randrange(6), 1 + draw.randrange(3), draw.randrange(5), draw.random(), kind)] * 8,
        )))
        length += len(parts[-1])
    return "".join(parts)


def without_lasso(states: int, sets_of: Callable[[int], list[int]], acceptance: str, sets: int,
                  name: str | None = None, seed: float = DEFAULT_SEED) -> str:
    """Two edges leave each state, without labels, and the automaton is one component for the most part. The marks of
    an edge are those of the pair that is drawn for it."""
    draw = random.Random(seed)
    return header(states, 0, acceptance, sets, name) + body(
        ([], [("t", draw.randrange(states), sets_of(draw.randrange(4 * PAIRS))) for _ in range(2)])
        for _ in range(states)
    )


def rabin(states: int) -> str:
    """Each edge of a set that must come again and again bears the set of its pair that must not: each pair is tried,
    and none accepts."""
    formula = " | ".join(f"(Fin({2 * at}) & Inf({2 * at + 1}))" for at in range(PAIRS))
    return without_lasso(states, lambda at: [2 * at, 2 * at + 1] if at < PAIRS else [], formula, 2 * PAIRS,
                         f"Rabin {PAIRS}")


def streett(states: int) -> str:
    """The first pair forbids its edges, and with them goes all that the second one needs, and so on: a round a pair.
    What is left accepts."""
    formula = " & ".join(f"(Fin({2 * at}) | Inf({2 * at + 1}))" for at in range(PAIRS))

    def sets_of(at: int) -> list[int]:
        if at >= PAIRS:
            return []
        return [2 * at, 2 * at + 3] if at + 1 < PAIRS else [2 * at]

    return without_lasso(states, sets_of, formula, 2 * PAIRS, f"Streett {PAIRS}")


def generalized_rabin(states: int) -> str:
    """Each part wants two sets again and again, and one of them comes only with the set that it must not have."""
    formula = " | ".join(f"(Fin({3 * at}) & Inf({3 * at + 1}) & Inf({3 * at + 2}))" for at in range(PAIRS))

    def sets_of(at: int) -> list[int]:
        if at >= 2 * PAIRS:
            return []
        return [3 * at, 3 * at + 1] if at < PAIRS else [3 * (at - PAIRS) + 2]

    return without_lasso(states, sets_of, formula, 3 * PAIRS, f"generalized-Rabin {PAIRS} {' '.join(['2'] * PAIRS)}")


def paths(draw: random.Random, propositions: int, count: int) -> list[str]:
    """The labels of the leaves of a random decision tree with so many of them: one holds at each letter."""
    leaves: list[list[tuple[int, bool]]] = [[]]
    while len(leaves) < count:
        at = draw.randrange(len(leaves))
        free = sorted(set(range(propositions)) - {atom for atom, _ in leaves[at]})
        if free:
            atom = draw.choice(free)
            leaves[at:at + 1] = [leaves[at] + [(atom, True)], leaves[at] + [(atom, False)]]
    draw.shuffle(leaves)
    return ["&".join(f"{'' if holds else '!'}{atom}" for atom, holds in leaf) or "t" for leaf in leaves]


def controllable(text: str, first: int, propositions: int) -> str:
    """The text with the item that gives the system the propositions from a first one on."""
    numbers = "".join(f" {at}" for at in range(first, propositions))
    return text.replace("--BODY--", f"controllable-AP:{numbers}\n--BODY--", 1)


def specification(states: int, inputs: int = 4, outputs: int = 4, edges: int = 4, cubes: int = 1, sets: int = 5,
                  seed: float = DEFAULT_SEED) -> str:
    """A deterministic parity automaton over propositions of the environment and of the system. The label of an edge
    is a disjunction of so many cubes, and its mark is drawn."""
    draw = random.Random(seed)
    rows: list[State] = []
    for _ in range(states):
        leaves = paths(draw, inputs + outputs, edges * cubes)
        rows.append(([], [(" | ".join(leaves[at * cubes:(at + 1) * cubes]), draw.randrange(states),
                           [draw.randrange(sets)]) for at in range(edges)]))
    text = header(states, inputs + outputs, parity_formula(sets), sets, f"parity max even {sets}") + body(rows)
    return controllable(text, inputs, inputs + outputs)


def wide(edges: int, inputs: int = 12, outputs: int = 4, sets: int = 4, seed: float = DEFAULT_SEED) -> str:
    """A specification of one state, whose edges mention so many of the environment's propositions at once."""
    draw = random.Random(seed)
    leaves = paths(draw, inputs + outputs, edges)
    text = header(1, inputs + outputs, parity_formula(sets), sets, f"parity max even {sets}")
    text += body([([], [(label, 0, [draw.randrange(sets)]) for label in leaves])])
    return controllable(text, inputs, inputs + outputs)


def first_input(inputs: int = 12) -> str:
    """One state with an edge for the first of the environment's propositions that holds, and one for none; the
    system's proposition is free."""
    labels = ["&".join([f"!{before}" for before in range(at)] + [str(at)]) for at in range(inputs)]
    labels.append("&".join(f"!{before}" for before in range(inputs)))
    text = header(1, inputs + 1, "Inf(0)", 1, "parity max even 1") + body([([], [(label, 0, [0]) for label in labels])])
    return controllable(text, inputs, inputs + 1)


# name: (what is measured with it, the text of a quick run, the text of a full run)
AUTOMATA = {
    "buchi": ("emptiness", lambda: buchi(10000), lambda: buchi(50000)),
    "labels": ("emptiness", lambda: labels(1000), lambda: labels(8000)),
    "implicit": ("emptiness", lambda: implicit(2000), lambda: implicit(20000)),
    "parity": ("automata", lambda: parity(10000), lambda: parity(50000)),
    "parity4": ("emptiness", lambda: parity(40, 3, 4), lambda: parity(80, 3, 4)),
    "parity120": ("automata", lambda: parity(5000, 3, 120, kind="min odd"),
                  lambda: parity(50000, 3, 120, kind="min odd")),
    "aliases": ("automata", lambda: aliases(20), lambda: aliases(100)),
    "alias-chain": ("automata", lambda: aliases(1000, 120, True), lambda: aliases(10000, 120, True)),
    "stream": ("automata", lambda: stream(2000), lambda: stream(20000)),
    "stream-with-aborts": ("automata", lambda: stream_with_aborts(2_097_152), lambda: stream_with_aborts()),
    "specification": ("synthesis", lambda: specification(2000), lambda: specification(20000)),
    "wide": ("synthesis", lambda: wide(16), lambda: wide(256)),
    "rabin": ("search", lambda: rabin(20000), lambda: rabin(200000)),
    "streett": ("search", lambda: streett(20000), lambda: streett(200000)),
    "generalized-rabin": ("search", lambda: generalized_rabin(20000), lambda: generalized_rabin(200000)),
    "specification-of-cubes": ("synthesis", lambda: specification(500, cubes=4), lambda: specification(20000, cubes=4)),
    "first-input": ("synthesis", lambda: first_input(), lambda: first_input()),
}
