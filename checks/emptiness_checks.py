"""The emptiness games of 536 automata of each acceptance kind, byte for byte, or their refusals, at both sides of the
limits. Player 0 wins a start's node, and `empty` and `empty --search` write a lasso, exactly where a slow reader finds
one. Lassos are judged edge by edge. The search decides at once what would take millions of lifts, a ring of 100,000
states, and labels with 1,000 propositions. It goes round a ring once, whatever the order of the sets on it.

The automata are made by hand and at random. The slow reader uses neither priorities nor games. Where it finds no lasso,
both commands say `empty`.
"""
import subprocess
from collections.abc import Callable, Iterator
from functools import partial

from automata import Automaton, Refused, read_one
from automaton_texts import Maker
from emptiness import game_text, has_accepting_lasso, judge, judge_search, lasso_fault, read_lasso
from program import OMEGA, SECONDS, Cases, Fault, fault_of, refusal_fault, shown

ONE_STATE = b'HOA: v1 States: 1 Start: 0 AP: 1 "a" acc-name: %s Acceptance: %s --BODY-- State: 0 %s --END--'

# Kinds with their formulas, by name, count and formula.
KINDS = [
    (b"all", b"0 t"), (b"none", b"0 f"), (b"Buchi", b"1 Inf(0)"), (b"co-Buchi", b"1 Fin(0)"),
    (b"parity max even 1", b"1 Inf(0)"), (b"parity max odd 2", b"2 Inf(1)|Fin(0)"),
    (b"parity min even 2", b"2 Inf(0)|Fin(1)"), (b"parity min odd 3", b"3 Fin(0)&(Inf(1)|Fin(2))"),
    (b"parity max even 3", b"3 Inf(2)|(Fin(1)&Inf(0))"), (b"parity min even 3", b"3 Inf(0)|(Fin(1)&Inf(2))"),
    (b"parity max odd 3", b"3 Fin(2)&(Inf(1)|Fin(0))"),
    (b"generalized-Buchi 1", b"1 Inf(0)"), (b"generalized-Buchi 2", b"2 Inf(0)&Inf(1)"),
    (b"generalized-Buchi 3", b"3 Inf(0)&Inf(1)&Inf(2)"),
]

# Acceptances that are none of the rows: a search alone decides them.
REFUSED = [
    (b"Buchi", b"1 Fin(0)"), (b"Buchi", b"2 Inf(0)"), (b"Buchi 1", b"1 Inf(0)"), (b"parity max even 2", b"1 Inf(0)"),
    (b"generalized-Buchi 2", b"2 Inf(1)&Inf(0)"), (b"generalized-Buchi 0", b"0 t"), (b"Rabin 1", b"2 Fin(0)&Inf(1)"),
    (b"parity max odd 3", b"3 Inf(2)|(Fin(1)&Inf(0))"),
]


def sixteen_sets(states: int) -> bytes:
    """An automaton of so many states and no edges, with 16 sets to be waited for in turn."""
    formula = b"&".join(b"Inf(%d)" % number for number in range(16))
    return (b"HOA: v1 States: %d Start: 0 acc-name: generalized-Buchi 16 Acceptance: 16 %s --BODY-- --END--"
            % (states, formula))


# A label that mentions 13 propositions, on a state that is not reached.
THIRTEEN = (b"HOA: v1 States: 2 Start: 0 AP: 13 %s acc-name: all Acceptance: 0 t --BODY-- "
            b"State: 0 [t] 0 State: 1 [%s] 1 --END--"
            % (b" ".join(b'"%d"' % number for number in range(13)), b"&".join(b"%d" % number for number in range(13))))


class Emptied(Maker):
    """Makes automata of a kind at random, with one start state or several, and no universal branches."""

    def states(self, count: int) -> bytes:
        return b"%d" % self.some(0, count - 1)

    def automaton_of(self, name: bytes, acceptance: bytes) -> bytes:
        count, sets = self.some(1, 5), int(acceptance.split()[0])
        starts = b"".join(b"Start: %d\n" % self.some(0, count - 1) for _ in range(self.some(0, 2)))
        body = b"".join(self.edged(number, count, sets) for number in range(count) if self.some(0, 7))
        return (b'HOA: v1\nStates: %d\n%sAP: 2 "a" "b"\nAlias: @x 0&!0\nAlias: @y 0|1\nacc-name: %s\nAcceptance: %s\n'
                b"--BODY--\n" % (count, starts, name, acceptance) + body + b"--END--\n")

    def edged(self, number: int, count: int, sets: int) -> bytes:
        label = b"[" + self.label(2, 1) + b"] " if self.some(0, 3) == 0 else b""
        edges = [(b"" if label else b" [" + self.label(2, 2) + b"]") + b" " + self.states(count) + self.marks(sets)
                 for _ in range(self.some(0, 3))]
        return b"State: " + label + b"%d" % number + self.marks(sets) + b"".join(edges) + b"\n"


def winners_of(solution: bytes) -> dict[int, int]:
    """The winner of each node of a solution text, by its identifier."""
    lines = [line.rstrip(b";").split(b" ") for line in solution.splitlines()[1:]]
    return {int(words[0]): int(words[1]) for words in lines}


def solution_fault(automaton: Automaton) -> Fault:
    """Whether player 0 wins a start's node of the game exactly if some lasso accepts."""
    ran = subprocess.run([OMEGA, "solve", "--search"], input=game_text(automaton), capture_output=True, timeout=SECONDS)
    if ran.returncode:
        return f"status {ran.returncode}: {shown(ran.stderr)}"
    winners = winners_of(ran.stdout)
    won = any(winners[states[0]] == 0 for states in automaton.said(b"Start:"))
    return None if won == has_accepting_lasso(automaton) else f"player 0 wins a start: {won}"


def fault_of_game(text: bytes) -> Fault:
    """What differs from what is wanted of `game`, and of `solve` on what it writes, or nothing."""
    try:
        automaton = read_one(text)
        judge(automaton)
    except Refused as refused:
        return refusal_fault(["game"], text, refused)
    return fault_of(["game"], text, 0, game_text(automaton)) or solution_fault(automaton)


# The two ways in which emptiness is decided, each with what refuses an automaton.
WAYS = ((["empty"], judge), (["empty", "--search"], judge_search))


def verdict_fault(automaton: Automaton, output: bytes) -> Fault:
    """What is wrong with what is written of an automaton: `empty` exactly where no lasso accepts, else a lasso that
    does."""
    if output == b"empty\n":
        return "some lasso accepts" if has_accepting_lasso(automaton) else None
    lasso = read_lasso(output)
    return f"no verdict: {shown(output)}" if lasso is None else lasso_fault(automaton, *lasso)


def fault_of_emptiness(words: list[str], judging: Callable[[Automaton], object], text: bytes) -> Fault:
    """What differs from what is wanted of `empty`, or nothing."""
    try:
        automaton = read_one(text)
        judging(automaton)
    except Refused as refused:
        return refusal_fault(words, text, refused)
    ran = subprocess.run([OMEGA, *words], input=text, capture_output=True, timeout=SECONDS)
    if ran.returncode or ran.stderr:
        return f"status {ran.returncode}: {shown(ran.stderr)}"
    return verdict_fault(automaton, ran.stdout)


def one_component(states: int) -> bytes:
    """An automaton with 8 sets whose states are one component: each edge onward has an even set or a lesser odd one,
    and each edge back the greatest set, which is odd, so that no cycle accepts."""
    formula = "0"
    for number in range(8):
        atom, operator = ("Fin", "&") if number % 2 else ("Inf", "|")
        formula = "Inf(0)" if number == 0 else f"{atom}({number}){operator}({formula})"
    lines = []
    for state in range(states):
        onward = sorted({min(state + step, states - 1) for step in (1, 2, 7, 20)} - {state})
        back = sorted({0, state, state // 2, max(state - 13, 0)})
        edges = [f"[t] {to} {{{(state + to) % 7}}}" for to in onward] + [f"[t] {to} {{7}}" for to in back]
        lines.append(f"State: {state} " + " ".join(edges))
    return (f"HOA: v1 States: {states} Start: 0 acc-name: parity max even 8 Acceptance: 8 {formula} --BODY-- "
            + "\n".join(lines) + " --END--").encode()


def deciding_checks(texts: list[bytes]) -> Cases:
    for text in texts:
        for words, judging in WAYS:
            yield f"{' '.join(words)} of {shown(text)}", partial(fault_of_emptiness, words, judging, text)
    for words, _ in WAYS:
        yield f"{' '.join(words)} of 16 sets and 65,535 states", partial(
            fault_of, words, sixteen_sets(65_535), 0, b"empty\n")
    # By lifting it would go through millions of measures; the search looks at each edge a few times.
    yield "empty --search of one component", partial(fault_of, ["empty", "--search"], one_component(160), 0, b"empty\n")
    for budget, wanted in ((1, None), (2, b"stem\ncycle 0\n")):
        words, text = ["empty", "--budget", str(budget)], ONE_STATE % (b"Buchi", b"1 Inf(0)", b"[0] 0 {0}")
        fault = fault_of(words, text, 0, wanted) if wanted else refusal_fault(words, text, "51 Budget", 3)
        yield f"empty with the budget {budget}", fault


# Acceptances beyond parity: the rows of each kind, and every rule of the search once alone.
FORMULAS = [
    b"2 Fin(0)&Inf(1)", b"4 (Fin(0)&Inf(1))|(Fin(2)&Inf(3))", b"4 (Fin(0)|Inf(1))&(Fin(2)|Inf(3))",
    b"3 Fin(0)&Inf(1)&Inf(2)", b"1 Inf(!0)", b"1 Fin(!0)", b"2 Fin(!0)&Inf(1)", b"2 Inf(!0)&Inf(!1)",
    b"2 Fin(0)|Fin(1)",
    b"3 (Fin(0)|Fin(1))&Inf(2)", b"2 t&(Fin(0)|f)&(Inf(1)|f)", b"1 Inf(0)&Fin(0)", b"1 Inf(0)&Inf(!0)",
    b"1 Fin(0)|Fin(!0)", b"6 (Fin(0)&Inf(1))|(Fin(2)&(Inf(3)|Fin(4)))|(Inf(5)&Fin(!5))",
]


def wide(count: int, label: bytes) -> bytes:
    """An automaton of so many propositions with this label on a loop."""
    names = b" ".join(b'"%d"' % number for number in range(count))
    return (b"HOA: v1 States: 1 Start: 0 AP: %d %s Acceptance: 1 Inf(0) --BODY-- State: 0 [%s] 0 {0} --END--"
            % (count, names, label))


def wide_rows() -> Iterator[tuple[str, bytes, bool]]:
    """Labels with many propositions, each with whether it can be true."""
    numbers = [b"%d" % number for number in range(200)]
    cube = b"&".join(numbers)
    yield "a cube", cube, True
    yield "a cube that denies itself", cube + b"&!7", False
    yield "a clause", b"|".join(b"!" + number for number in numbers), True
    yield "a cube and its clause", cube + b"&!(" + cube + b")", False
    yield "200 cubes", b"|".join(b"%d&!%d" % (k, (k + 1) % 200) for k in range(200)), True


def joined(parts: list[bytes], operator: bytes) -> bytes:
    """Parts joined by an operator, in parentheses that halve them, so that the label is not deep."""
    if len(parts) == 1:
        return parts[0]
    half = len(parts) // 2
    return b"(" + joined(parts[:half], operator) + operator + joined(parts[half:], operator) + b")"


def cube(first: int, size: int, contradicts: bool) -> bytes:
    """The propositions from one on, the odd ones negated; or with them the negation of the first."""
    all_of_them = joined([b"!" * (number % 2) + b"%d" % number for number in range(first, first + size)], b"&")
    return b"(" + all_of_them + b"&!" + b"!" * (first % 2) + b"%d)" % first if contradicts else all_of_them


def cubes(count: int, size: int, contradicts: bool) -> bytes:
    """So many cubes, no two of which have a proposition in common."""
    return joined([cube(number * size, size, contradicts) for number in range(count)], b"|")


def fruitless(count: int) -> bytes:
    """Pairs of which one each is to be chosen, before a proposition and its negation."""
    pairs = [b"(%d|%d)" % (2 * number, 2 * number + 1) for number in range(1, count + 1)]
    return joined(pairs, b"&") + b"&(0&!0)"


def label_rows() -> Iterator[tuple[str, bytes, bool]]:
    """Cubes and disjunctions of cubes, contradicted, negated or both, each with whether it can be true."""
    for count, size in ((1, 13), (1, 1000), (200, 5)):
        for contradicts in (False, True):
            label = cubes(count, size, contradicts)
            yield f"{count} cubes of {size}, contradicted: {contradicts}", label, not contradicts
            if size != 13:
                yield f"{count} cubes of {size}, contradicted: {contradicts}, negated", b"!" + label, True
    denied = cubes(5, 5, False)
    yield "cubes and their negation", denied + b"&!" + denied, False
    yield "choices that a contradiction follows", fruitless(18), False


def long_graph(states: int, is_ring: bool) -> bytes:
    """An automaton with an edge from each state to the next one, and in a ring from the last to the first."""
    lines = [b"State: %d [t] %d" % (state, state + 1) for state in range(states - 1)]
    last = b"State: %d [t] 0" % (states - 1) if is_ring else b""
    return (b"HOA: v1 States: %d Start: 0 Acceptance: 0 t --BODY--\n%s\n%s --END--"
            % (states, b"\n".join(lines), last))


def ring_of_sets(states: int, sets: int) -> bytes:
    """A ring with as many sets to be met, each on one edge, at equal distances, and against the formula's order."""
    marks = {number * states // sets: sets - 1 - number for number in range(sets)}
    edges = [b"State: %d [t] %d%s" % (state, (state + 1) % states, b" {%d}" % marks[state] if state in marks else b"")
             for state in range(states)]
    formula = b"&".join(b"Inf(%d)" % number for number in range(sets))
    return (b"HOA: v1 States: %d Start: 0 Acceptance: %d %s --BODY--\n%s\n--END--"
            % (states, sets, formula, b"\n".join(edges)))


def round_once(states: int) -> bytes:
    """The lasso that goes round a ring once, from the first state."""
    return b"stem\ncycle " + b" ".join(b"%d" % edge for edge in range(states)) + b"\n"


def large_checks() -> Cases:
    """Labels with many propositions, and graphs on which neither the machine's stack nor the time may grow beyond the
    linear."""
    search = ["empty", "--search"]
    for label, written, is_true in label_rows():
        wanted = b"stem\ncycle 0\n" if is_true else b"empty\n"
        yield f"empty --search of {label}", partial(fault_of, search, wide(1000, written), 0, wanted)
    yield "empty --search of too many choices", partial(
        refusal_fault, search, wide(1000, fruitless(21)), "42 TooManyPropositions")
    yield "empty --search of a chain of 100,000 states", partial(
        fault_of, search, long_graph(100_000, False), 0, b"empty\n")
    yield "empty --search of a ring of 100,000 states", partial(
        fault_of, search, long_graph(100_000, True), 0, round_once(100_000))
    # From each set to the next one is nine tenths of the ring; what is passed on the way is not sought again.
    yield "empty --search of a ring of 3,000 states and 10 sets", partial(
        fault_of, search, ring_of_sets(3_000, 10), 0, round_once(3_000))


def searching_checks() -> Cases:
    maker = Emptied(2026)
    acceptances = [(b"x", acceptance) for acceptance in FORMULAS for _ in range(16)]
    for _ in range(600):
        sets = maker.some(1, 6)
        acceptances.append((b"x", b"%d %s" % (sets, maker.acceptance(sets, 4))))
    words = ["empty", "--search"]
    for acceptance in acceptances:
        text = maker.automaton_of(*acceptance)
        yield f"empty --search of {text!r}", partial(fault_of_emptiness, words, judge_search, text)
    for label, written, is_true in wide_rows():
        wanted = b"stem\ncycle 0\n" if is_true else b"empty\n"
        yield f"empty --search of a label that is {label}", partial(fault_of, words, wide(200, written), 0, wanted)


def emptiness_checks() -> Cases:
    texts = [ONE_STATE % (name, acceptance, edge) for name, acceptance in KINDS + REFUSED
             for edge in (b"", b"[0] 0", b"[0&!0] 0", b"[t] 0 {0}", b"[t] 0 {0} [0] 0", b"{0} [t] 0", b"[t] 0&0",
                          b"0 0")]
    texts += [b"", b"x", b"HOA: v1 --BODY-- --END--", b"HOA: x --ABORT--",
              b"HOA: v1 States: 2147483647 acc-name: all Acceptance: 0 t --BODY-- --END--",
              b"HOA: v1 States: 1048576 acc-name: all Acceptance: 0 t --BODY-- --END--",
              sixteen_sets(65_536), THIRTEEN]
    maker = Emptied(2000)
    texts += [maker.automaton_of(*kind) for _ in range(25) for kind in KINDS]
    for text in texts:
        yield f"the emptiness game of {shown(text)}", partial(fault_of_game, text)
    yield from deciding_checks(texts)
    yield from searching_checks()
    yield from large_checks()
    for text in (b"HOA: v1 States: 1048575 Start: 7 acc-name: all Acceptance: 0 t --BODY-- --END--",
                 sixteen_sets(65_535)):
        # The game's text is too long to be solved.
        yield f"the largest emptiness game of {shown(text)}", partial(
            fault_of, ["game"], text, 0, game_text(read_one(text)))
