"""Formulas of linear temporal logic as automata, and whether they can be realized, as plainly as can be.

The automaton of a formula is its tableau (Lichtenstein and Pnueli 1985): a state says of each temporal part whether it
is to hold now, and so each word has one run. Whether a formula can be realized is found by counting (Kupferman and
Vardi 2005, Schewe and Finkbeiner 2007): the system wins if it can bound how often the tableau of the negated formula
goes round, and the environment if it can bound that of the formula.

Nothing here is quick, and nothing is shared with the program.
"""
import itertools
from collections import defaultdict
from collections.abc import Callable, Iterable
from typing import Any

from automata import Tree
from emptiness import buchi_formula
from formulas import Formula, names_of, operands
from products import Letter, valuations
from short_words import Arrow, accepting_places

# Of each temporal part whether it is to hold; of `X f`, whether f is.
Promise = tuple[bool, ...]
# A promise that follows, with the sets that the edge is in.
Edge = tuple[Promise, frozenset[int]]
# The state before the first letter.
FIRST: Any = "first"
# The letters of a machine that stands in a state, each with a state that follows.
Steps = dict[Any, list[tuple[Letter, Any]]]
TEMPORAL = ("X", "F", "G", "U", "W", "R", "M")
JOINED: dict[str, Callable[[bool, bool], bool]] = {
    "&": lambda one, other: one and other, "|": lambda one, other: one or other,
    "xor": lambda one, other: one != other, "->": lambda one, other: not one or other,
    "<->": lambda one, other: one == other}


def temporal_parts(tree: Formula) -> list[Formula]:
    """The parts with a temporal operator, each once."""
    own = [tree] if tree[0] in TEMPORAL else []
    return [*dict.fromkeys([part for operand in operands(tree) for part in temporal_parts(operand)] + own)]


class Tableau:
    """The automaton of a formula over some names, which accepts if each of its sets is visited again and again."""

    def __init__(self, tree: Formula, names: list[bytes]) -> None:
        self.names, self.parts = names, temporal_parts(tree)
        self.judged = [part for part in self.parts if part[0] != "X"]
        self.sets = len(self.judged)
        # By letter and promise.
        self.edges: dict[Letter, dict[Any, list[Edge]]] = {}
        for letter in valuations(names):
            found: dict[Any, list[Edge]] = defaultdict(list)
            self.edges[letter] = found
            for following in itertools.product((False, True), repeat=len(self.parts)):
                truths = dict[Formula, bool]()
                self.judge(tree, letter, dict(zip(self.parts, following)), truths)
                kept = tuple(truths[part[1]] if part[0] == "X" else truths[part] for part in self.parts)
                marks = frozenset(at for at, part in enumerate(self.judged) if is_paid(part, truths))
                found[kept].append((following, marks))
                if truths[tree]:
                    found[FIRST].append((following, marks))

    def judge(self, tree: Formula, letter: Letter, after: dict[Formula, bool], truths: dict[Formula, bool]) -> bool:
        """Notes which parts of a formula hold at a letter, if temporal parts are to hold after it."""
        if tree not in truths:
            parts = [self.judge(part, letter, after, truths) for part in operands(tree)]
            truths[tree] = (tree[1] if tree[0] == "constant" else tree[1] in letter if tree[0] == "name" else
                            not parts[0] if tree[0] == "!" else JOINED[tree[0]](*parts) if tree[0] in JOINED else
                            holds_now(tree[0], parts, after[tree]))
        return truths[tree]

    def after(self, promise: Any, letter: Letter) -> list[Edge]:
        return self.edges[letter].get(promise, [])

    def without_dead(self) -> "Tableau":
        """The same without edges to promises that cannot be kept."""
        arrows: list[Arrow] = [(promise, following, marks) for found in self.edges.values()
                               for promise, listed in found.items() for following, marks in listed]
        alive = accepting_places(arrows, self.acceptance())
        for found in self.edges.values():
            for promise, listed in found.items():
                found[promise] = [edge for edge in listed if edge[0] in alive]
        return self

    def acceptance(self) -> Tree:
        return buchi_formula(self.sets) if self.sets else ("t",)


def holds_now(operator: str, parts: list[bool], after: bool) -> bool:
    """Whether a temporal formula holds, by whether its operands do, and it itself after this; `X f` by whether f does
    after this."""
    one, other = parts[0], parts[-1]
    return {"X": after, "F": one or after, "G": one and after, "U": other or one and after,
            "W": other or one and after, "R": other and (one or after), "M": other and (one or after)}[operator]


def is_paid(part: Formula, truths: dict[Formula, bool]) -> bool:
    """Whether a temporal part owes nothing here: what says that something comes is false or has come, and what says
    that nothing comes against it is true or that has come."""
    held, one, other = truths[part], truths[part[1]], truths[part[-1]]
    return {"F": not held or one, "U": not held or other, "M": not held or one and other,
            "G": held or not one, "W": held or not one and not other, "R": held or not other}[part[0]]


# ---- machines judged


def some_word_satisfies(steps: Steps, starts: Iterable[Any], names: list[bytes], tree: Formula) -> bool:
    """Whether some word of a machine, whose letters speak of these names, satisfies a formula. Names of the formula
    that the machine does not have are free."""
    free = [name for name in names_of(tree) if name not in names]
    tableau, others = Tableau(tree, names_of(tree)), valuations(free)
    begun = [(start, FIRST) for start in starts]
    arrows, seen, waiting = list[Arrow](), {*begun}, list(begun)
    while waiting:
        state, promise = waiting.pop()
        for letter, following in steps[state]:
            for other in others:
                for kept, marks in tableau.after(promise, frozenset(tableau.names) & (letter | other)):
                    arrows.append(((state, promise), (following, kept), marks))
                    if (following, kept) not in seen:
                        seen.add((following, kept))
                        waiting.append((following, kept))
    return bool(accepting_places(arrows, tableau.acceptance()) & {*begun})


def all_words_satisfy(steps: Steps, starts: Iterable[Any], names: list[bytes], tree: Formula) -> bool:
    """Whether each word of a machine satisfies a formula, one conjunct after the other."""
    if tree[0] == "&":
        return all(all_words_satisfy(steps, starts, names, part) for part in operands(tree))
    return not some_word_satisfies(steps, starts, names, ("!", tree))


# ---- games of counting

# How often runs have gone round, the most of those that are in one state and wait for one set.
Counts = frozenset[tuple[Any, int]]
MOST_PLACES, MOST_ROUNDS = 1500, 3


class Counting:
    """Counts of the runs of a tableau, none of which goes round more than so often."""

    def __init__(self, tree: Formula, names: list[bytes], bound: int) -> None:
        self.tableau, self.bound = Tableau(tree, names).without_dead(), bound
        self.start: Counts = frozenset([((FIRST, 0), 0)])
        self.known: dict[tuple[Counts, Letter], Counts | None] = {}

    def after(self, counts: Counts, letter: Letter) -> Counts | None:
        """The counts after a letter; none if one is over the bound."""
        if (counts, letter) not in self.known:
            self.known[counts, letter] = self.counted(counts, letter)
        return self.known[counts, letter]

    def counted(self, counts: Counts, letter: Letter) -> Counts | None:
        made = dict[Any, int]()
        for (promise, awaited), count in counts:
            for following, marks in self.tableau.after(promise, letter):
                at, more = awaited, 0
                while at < self.tableau.sets and at in marks:
                    at += 1
                if at == self.tableau.sets:
                    at, more = 0, 1
                made[following, at] = max(made.get((following, at), 0), count + more)
        return None if any(count > self.bound for count in made.values()) else frozenset(made.items())


def can_bound(counting: Counting, rounds: list[list[Letter]], is_system: bool) -> bool | None:
    """Whether the system, which sees the letter of the environment, or the environment, which begins, can keep the
    counts within the bound; none if there are too many counts. The rounds are the letters, those with the same inputs
    together."""
    onward: dict[Counts, list[list[Counts | None]]] = {}
    waiting = [counting.start]
    for counts in waiting:
        if counts in onward:
            continue
        onward[counts] = [[counting.after(counts, letter) for letter in answers] for answers in rounds]
        waiting += [after for answers in onward[counts] for after in answers if after is not None]
        if len(onward) > MOST_PLACES:
            return None
    won = {*onward}
    while True:
        lost = {counts for counts in won if not (
            all(any(after in won for after in answers) for answers in onward[counts]) if is_system else
            any(all(after in won for after in answers) for answers in onward[counts]))}
        if not lost:
            return counting.start in won
        won -= lost


def is_realizable(tree: Formula, outputs: list[bytes]) -> bool | None:
    """Whether a system that decides these names can keep the formula true, whatever the environment does with the other
    names of the formula; none if that is not found by counts that are this small."""
    names = names_of(tree)
    inputs = [name for name in names if name not in outputs]
    rounds = [[given | own for own in valuations([name for name in names if name in outputs])]
              for given in valuations(inputs)]
    for bound in range(MOST_ROUNDS + 1):
        if can_bound(Counting(("!", tree), names, bound), rounds, True):
            return True
        if can_bound(Counting(tree, names, bound), rounds, False):
            return False
    return None
