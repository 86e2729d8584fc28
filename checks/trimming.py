"""What `trim` writes, byte for byte what a slow trimmer in Python leaves of an automaton. 1,200 random automata of
every acceptance are trimmed, with labels of edges, labels of states and none, with names, several starts and none. A
plain judge says that the same words are accepted, and nothing goes a second time.

For each state it is tried whether a start reaches it, and whether a walk from it goes round for ever so that the
formula holds. Universal branching is refused 41. A ring of 100,000 states stays, whatever dead ends leave it.

What `meet --trim` writes of 250 random pairs is what the slow trimmer leaves of what `meet` writes of them. It accepts
the words that both accept, by the plain judge.
"""
from dataclasses import replace
from functools import partial

from automata import Automaton, Edge, Refused, State, Tree, bare, canonical, count_of_states, read_one
from automaton_texts import Maker
from emptiness import Move, has_accepting_walk, is_usable, judge_search, moves_of, reached_from
from emptiness_checks import FORMULAS, KINDS, REFUSED, Emptied, fruitless, wide
from product_checks import LANGUAGES, NO_STARTS, NO_STATES, SETLESS, WORDS, Paired, meet, read_written, word_fault
from products import Word, accepts
from program import Cases, Fault, fault_of, refusal_fault, run_of, shown

# The items of a header that may no longer hold.
LEFT_OUT = (b"tool:", b"properties:", b"unknown", b"States:", b"Start:")


def useful_states(automaton: Automaton) -> list[int]:
    """The states that a start reaches, and from which a walk goes round for ever so that the formula holds."""
    moves: list[Move] = [move for move in moves_of(automaton) if is_usable(move)]
    formula = bare(automaton.first(b"Acceptance:", None)[1])
    reached = reached_from([states[0] for states in automaton.said(b"Start:")], moves)
    return [state for state in range(count_of_states(automaton)[0])
            if state in reached and has_accepting_walk([state], moves, formula)]


def valuation(index: int, count: int) -> Tree:
    """The label of an edge without one, by its place among the edges of its state."""
    literals: list[Tree] = [("number", number) if (index >> number) % 2 else ("!", ("number", number))
                            for number in range(count)]
    tree: Tree = literals[0] if literals else ("t",)
    for literal in literals[1:]:
        tree = ("&", tree, literal)
    return tree


def state_left(state: State, kept: list[int], count: int) -> State:
    """A state that stays, with the edges whose targets do."""
    stay = [all(target in kept for target in edge.targets) for edge in state.edges]
    edges = []
    for index, edge in enumerate(state.edges):
        if stay[index]:
            label = edge.label
            if label is None and state.label is None and not all(stay):
                label = valuation(index, count)
            edges.append(Edge(label, [kept.index(target) for target in edge.targets], edge.marks))
    return replace(state, number=kept.index(state.number), edges=edges)


def trimmed(automaton: Automaton) -> Automaton:
    """The automaton without its useless states."""
    kept = useful_states(automaton)
    count = automaton.first(b"AP:", (0, []))[0]
    starts = [(b"Start:", [kept.index(state) for state in states]) for states in automaton.said(b"Start:")
              if all(state in kept for state in states)]
    items = [item for item in automaton.items if item[0] not in LEFT_OUT]
    return Automaton(automaton.version, [(b"States:", len(kept)), *starts, *items],
                     [state_left(state, kept, count) for state in automaton.states if state.number in kept])


def trim_fault(text: bytes) -> Fault:
    """What is wrong with what `trim` writes of a text, or nothing."""
    try:
        automaton = read_one(text)
        judge_search(automaton)
    except Refused as refused:
        return refusal_fault(["trim"], text, refused)
    wanted = canonical(trimmed(automaton))
    return fault_of(["trim"], text, 0, wanted) or fault_of(["trim"], wanted, 0, wanted)


def trimmed_words_fault(text: bytes, words: list[tuple[Word, Word]]) -> Fault:
    """A word of which what `trim` writes says something else than the automaton of the text, or nothing."""
    automaton, left = read_one(text), read_written(run_of(["trim"], text))
    return left if isinstance(left, str) else word_fault(left, words, partial(accepts, automaton))


def met_fault(one: bytes, other: bytes, words: list[tuple[Word, Word]]) -> Fault:
    """What is wrong with what `meet --trim` writes of two texts, or nothing."""
    ran, product = meet(one, other, "--trim"), read_written(meet(one, other))
    if isinstance(product, str):
        return product
    wanted = canonical(trimmed(product))
    if ran.stderr or (ran.returncode, ran.stdout) != (0, wanted):
        return f"status {ran.returncode}: {shown(ran.stdout)} {shown(ran.stderr)}, and not {shown(wanted)}"
    first, second = read_one(one), read_one(other)
    return word_fault(read_one(wanted), words, lambda *word: accepts(first, *word) and accepts(second, *word))


def met_checks() -> Cases:
    """What `meet --trim` writes of random pairs."""
    pairs = Paired(2034)
    for number in range(250):
        one, other = pairs.automaton(bool(number % 2)), pairs.automaton(bool(number % 3))
        words = pairs.random.sample(WORDS, 8)
        yield f"what is left of {one!r} and {other!r}", partial(met_fault, one, other, words)


def known_checks() -> Cases:
    for text in (*(text for text, _ in LANGUAGES), NO_STARTS, NO_STATES, SETLESS):
        yield f"what is left of {shown(text)}", partial(trim_fault, text)
        yield f"the words of what is left of {shown(text)}", partial(trimmed_words_fault, text, WORDS)


class Pruned(Emptied):
    """Makes automata of which some states stay and others go."""

    def label(self, propositions: int, depth: int) -> bytes:
        return self.random.choice([b"t", b"0", b"!0", b"t", b"0|!1", b"!(0&1)", b"@y", b"0&!0"])

    def edged(self, number: int, count: int, sets: int) -> bytes:
        name = b' "s%d"' % number if self.some(0, 3) == 0 else b""
        choice = self.some(0, 4)
        if choice == 0:
            edges = b"".join(b" " + self.states(count) + self.marks(sets) for _ in range(4))
            return b"State: %d%s%s%s\n" % (number, name, self.marks(sets), edges)
        label = b"[" + self.label(2, 1) + b"] " if choice == 1 else b""
        edges = b"".join((b" " if label else b" [" + self.label(2, 1) + b"] ") + self.states(count) + self.marks(sets)
                         for _ in range(self.some(0, 4)))
        return b"State: %s%d%s%s%s\n" % (label, number, name, self.marks(sets), edges)

    def pruned(self, name: bytes, acceptance: bytes) -> bytes:
        count, sets = self.some(2, 6), int(acceptance.split()[0])
        starts = b"".join(b"Start: %d\n" % self.some(0, count - 1) for _ in range(self.some(1, 2)))
        numbers = self.random.sample(range(count), count - self.some(0, 1))
        return (b'HOA: v1\ntool: "x"\nname: "n"\nStates: %d\n%sAP: 2 "a" "b"\nAlias: @y 0|1\nacc-name: %s\n'
                b"Acceptance: %s\nproperties: complete\nmore: 1\n--BODY--\n" % (count, starts, name, acceptance)
                + b"".join(self.edged(number, count, sets) for number in numbers) + b"--END--\n")


def random_checks() -> Cases:
    pairs, pruned, branching = Paired(2029), Pruned(2030), Maker(2031)
    acceptances = [*KINDS, *REFUSED, *((b"x", formula) for formula in FORMULAS)]
    texts = [pruned.pruned(*acceptances[number % len(acceptances)]) for number in range(800)]
    texts += [pairs.automaton(bool(number % 2)) for number in range(200)]
    for text in texts:
        yield f"what is left of {text!r}", partial(trim_fault, text)
        words = pairs.random.sample(WORDS, 8)
        yield f"the words of what is left of {text!r}", partial(trimmed_words_fault, text, words)
    for _ in range(200):
        text = branching.automaton()
        yield f"what is left of {text!r}", partial(trim_fault, text)


def ring(states: int, dead: int) -> tuple[bytes, bytes]:
    """A ring of so many states, from each tenth of which an edge leads to the next state of a path that ends; and what
    is left of it."""
    head = b'HOA: v1\nStates: %d\nStart: 0\nAP: 1 "a"\nacc-name: Buchi\nAcceptance: 1 Inf(0)\n--BODY--\n'
    onward = [b"State: %d\n[0] %d%s\n" % (state, (state + 1) % states, b"" if state else b" {0}")
              for state in range(states)]
    away = [b"[!0] %d {0}\n" % (states + state // 10 % dead) if state % 10 == 0 else b"" for state in range(states)]
    path = [b"State: %d\n%s" % (states + place, b"[t] %d {0}\n" % (states + place + 1) if place + 1 < dead else b"")
            for place in range(dead)]
    whole = b"".join(one + more for one, more in zip(onward, away)) + b"".join(path)
    return head % (states + dead) + whole + b"--END--\n", head % states + b"".join(onward) + b"--END--\n"


def unlabelled(count: int, last: int) -> bytes:
    """A state with an edge for each set of so many propositions, without labels, to itself; the last one to a state."""
    return head_of_unlabelled(2, count) + b"0\n" * (2 ** count - 1) + b"%d\n--END--\n" % last


def head_of_unlabelled(states: int, count: int) -> bytes:
    names = b" ".join(b'"%d"' % number for number in range(count))
    return (b"HOA: v1\nStates: %d\nStart: 0\nAP: %d %s\nAcceptance: 1 Inf(0)\n--BODY--\nState: 0 {0}\n"
            % (states, count, names))


def labelled(count: int) -> bytes:
    """What is left where the last edge goes: each other edge with the label of its valuation."""
    literals = [(b"!%d" % number, b"%d" % number) for number in range(count)]
    labels = (b"&".join(literal[(index >> number) % 2] for number, literal in enumerate(literals))
              for index in range(2 ** count - 1))
    return head_of_unlabelled(1, count) + b"".join(b"[%s] 0\n" % label for label in labels) + b"--END--\n"


def large_checks() -> Cases:
    """Where neither the machine's stack nor the time may grow beyond the linear; labels that are added, at both sides
    of the limit of all labels; and a label of which it is not decided whether it holds."""
    text, left = ring(100_000, 50_000)
    yield "a ring of 100,000 states and a path of 50,000 that ends", partial(fault_of, ["trim"], text, 0, left)
    yield "the ring alone", partial(fault_of, ["trim"], left, 0, left)
    # The labels of 18 propositions have less than 2 ** 18 * 54 tree nodes, and those of 19 more than 2 ** 19 * 37.
    for count in (10, 18):
        yield f"an edge of {count} propositions that goes", partial(
            fault_of, ["trim"], unlabelled(count, 1), 0, labelled(count))
    yield "an edge of 19 propositions that goes", partial(refusal_fault, ["trim"], unlabelled(19, 1), "55 TooLarge")
    kept = unlabelled(19, 0)
    yield "edges of 19 propositions that stay", partial(
        fault_of, ["trim"], kept, 0, kept.replace(b"States: 2", b"States: 1"))
    yield "too many choices", partial(refusal_fault, ["trim"], wide(1000, fruitless(21)), "42 TooManyPropositions")


def trimming_checks() -> Cases:
    yield from known_checks()
    yield from random_checks()
    yield from met_checks()
    yield from large_checks()
