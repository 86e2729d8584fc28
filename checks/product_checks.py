"""What `meet`, `join`, `complement` and `empty --word` write, against a plain judge of words. Five known languages,
their complements, products and unions are compared on all words of up to 3 letters of 2 propositions; 2,000 random
pairs follow, with the states of products and unions in order, 400 lines `word`, and refusal 56; 13 more lines `word`
have names that Spot reads as something else. Two products and two unions are at the limit of states.

The products and unions of the five are made in both orders; the stem and the cycle of a word have up to 3 letters
together. The random pairs are deterministic and not, with propositions in the same order and in another, labels of
states and of edges, edges without labels, sets that no edge is in, several starts and none. The states of a product are
the pairs that a slow search reaches, in its order, with both names if both have one, and no label of its edges has a
conjunct twice; those of a union are those of both texts, with their names, and it
has their edges. What is not deterministic is refused 56. The line `word` is that of a slow writer; read back, it admits
words, four of which are tried and accepted. Of two products, and of two unions, one is at the limit of states, and one
past it.
"""
import random
import tempfile
from collections.abc import Callable
from functools import partial

from automata import Automaton, Refused, read_one
from emptiness import branches, moves_of, read_lasso
from emptiness_checks import Emptied
from products import (Word, accepts, conjuncts, is_deterministic, names_of, pairs_reached, valuations, word_line,
                      words_over)
from program import Cases, Fault, Ran, fault_of, fault_with_file, run_of, shown
from words import NoWord, admitted, read_word

HEAD = b'HOA: v1 States: %d Start: 0 AP: %d %s acc-name: %s Acceptance: %s --BODY-- %s --END--'

# Languages, each with a deterministic automaton of it and what it says of a word of letters.
ALWAYS = HEAD % (1, 1, b'"a"', b"Buchi", b"1 Inf(0)", b"State: 0 {0} [0] 0")
INFINITELY = HEAD % (2, 1, b'"a"', b"Buchi", b"1 Inf(0)", b"State: 0 [0] 1 [!0] 0 State: 1 {0} [0] 1 [!0] 0")
FROM_SOME_PLACE_ON = HEAD % (1, 1, b'"a"', b"co-Buchi", b"1 Fin(0)", b"State: 0 [0] 0 [!0] 0 {0}")
UNTIL = HEAD % (2, 2, b'"b" "a"', b"Buchi", b"1 Inf(0)", b"State: 0 [0] 1 [!0&1] 0 State: 1 {0} [t] 1")
IMPLICIT = HEAD % (1, 1, b'"b"', b"Buchi", b"1 Inf(0)", b"State: 0 0 0 {0}")


def holds_until(letters_of_stem: Word, letters_of_cycle: Word) -> bool:
    for letter in letters_of_stem + letters_of_cycle:
        if b"b" in letter:
            return True
        if b"a" not in letter:
            return False
    return False


LANGUAGES = [
    (ALWAYS, lambda stem, cycle: all(b"a" in letter for letter in stem + cycle)),
    (INFINITELY, lambda stem, cycle: any(b"a" in letter for letter in cycle)),
    (FROM_SOME_PLACE_ON, lambda stem, cycle: all(b"a" in letter for letter in cycle)),
    (UNTIL, holds_until),
    (IMPLICIT, lambda stem, cycle: any(b"b" in letter for letter in cycle)),
]

WORDS = list(words_over([b"a", b"b"], 3))
NO_STARTS = b'HOA: v1 States: 1 AP: 1 "a" Acceptance: 1 Inf(0) --BODY-- State: 0 [t] 0 {0} --END--'
NO_STATES = b"HOA: v1 States: 0 Acceptance: 0 t --BODY-- --END--"
SETLESS = HEAD % (1, 1, b'"a"', b"all", b"0 t", b"State: 0 [0] 0")

# Names that Spot reads as something else, each with names that are like it; and a name with a line feed.
RESERVED = [[b"true", b"True", b"truth"], [b"false", b"FALSE", b"fals"], [b"xor", b"Xor", b"xor_"],
            [b"Fa", b"aF", b"f"], [b"GoLeft", b"goLeft", b"G"], [b"Xb", b"X0", b"x0"], [b"U", b"Up", b"u"],
            [b"W", b"M", b"V"], [b"R", b"t", b"tt"], [b"first_match", b"first", b"F_"],
            [b"cycle", b"Cycle", b"cycles"], [b"0", b"1", b"_1"], [b"a\nb", b"a\\nb", b"anb"]]


class Paired(Emptied):
    """Makes automata at random whose propositions stand in one order or the other, nondeterministic and deterministic,
    with labels of edges and states and without."""

    def body_of(self, count: int, sets: int, deterministic: bool) -> bytes:
        lines = []
        for number in range(count):
            marks, choice = self.marks(sets), self.some(0, 5)
            named = b"%d" % number + self.random.choice([b"", b' "s%d"' % number, b' "it is \\"%d\\""' % number])
            if choice == 0:
                edges = b"".join(b" " + self.states(count) + self.marks(sets) for _ in range(4))
                lines.append(b"State: %s%s%s\n" % (named, marks, edges))
            elif deterministic:
                lines.append(b"State: %s%s%s\n" % (named, marks, self.parted(count, sets)))
            else:
                lines.append(self.edged(number, count, sets))
        return b"".join(lines)

    def parted(self, count: int, sets: int) -> bytes:
        """Edges whose labels part the letters, some of which are left out."""
        cubes = [b"!0&!1", b"0&!1", b"!0&1", b"0&1"]
        self.random.shuffle(cubes)
        cubes, edges = cubes[:self.some(0, 4)], b""
        while cubes:
            size = self.some(1, len(cubes))
            edges += b" [" + b"|".join(cubes[:size]) + b"] " + self.states(count) + self.marks(sets)
            cubes = cubes[size:]
        return edges

    def automaton(self, deterministic: bool = False) -> bytes:
        count, sets = self.some(1, 4), self.some(0, 3)
        starts = b"".join(b"Start: %d\n" % self.some(0, count - 1)
                          for _ in range(1 if deterministic else self.some(0, 2)))
        names = self.random.choice([b'"a" "b"', b'"b" "a"'])
        return (b"HOA: v1\nStates: %d\n%sAP: 2 %s\nAlias: @x 0&!0\nAlias: @y 0|1\nAcceptance: %d %s\n--BODY--\n"
                % (count, starts, names, sets, self.acceptance(sets, 2)) + self.body_of(count, sets, deterministic)
                + b"--END--\n")


def beside(words: list[str], held: bytes, text: bytes) -> Ran:
    """A run on a text, with the path of a file that holds another one as the last word."""
    with tempfile.NamedTemporaryFile() as file:
        file.write(held)
        file.flush()
        return run_of([*words, file.name], text)


def meet(one: bytes, other: bytes, *options: str) -> Ran:
    """A run of `meet` on two texts, with further options."""
    return beside(["meet", *options, "--with"], other, one)


def join(one: bytes, other: bytes) -> Ran:
    """A run of `join` on two texts."""
    return beside(["join", "--with"], other, one)


def read_written(ran: Ran) -> Automaton | str:
    """The automaton that a run wrote, or what is wrong."""
    if ran.returncode or ran.stderr:
        return f"status {ran.returncode}: {shown(ran.stderr)}"
    try:
        automaton = read_one(ran.stdout)
    except Refused as refused:
        return f"what is written is refused {refused}: {shown(ran.stdout)}"
    fault = fault_of(["canon", "--format", "hoa"], ran.stdout, 0, ran.stdout)
    return f"it is not canonical: {fault}" if fault else automaton


def word_fault(automaton: Automaton, words: list[tuple[Word, Word]], wanted: Callable[[Word, Word], bool]) -> Fault:
    """A word of which the automaton says something else than is wanted, or nothing."""
    for stem, cycle in words:
        if accepts(automaton, stem, cycle) != wanted(stem, cycle):
            return f"it is wrong about the word {stem} {cycle}"
    return None


def meet_fault(one: bytes, other: bytes, words: list[tuple[Word, Word]]) -> Fault:
    """What is wrong with what `meet` writes of two texts, or nothing."""
    ran = meet(one, other)
    first, second = read_one(one), read_one(other)
    product = read_written(ran)
    if isinstance(product, str):
        return product
    pairs, edges = pairs_reached(first, second)
    named = [state.name for state in product.states]
    if named != paired_names(first, second, pairs) or sum(len(state.edges) for state in product.states) != edges:
        return f"its states are {named}, and not {pairs}"
    for label in (move.label for move in moves_of(product) if move.label is not None):
        parts = conjuncts(label)
        if len({repr(part) for part in parts}) != len(parts) or label[0] == "&" and ("t",) in label[1:]:
            return f"a conjunct stands twice in {label}"
    if names_of(product) != joined_names(first, second):
        return f"its propositions are {names_of(product)}"
    return word_fault(product, words, lambda *word: accepts(first, *word) and accepts(second, *word))


def paired_names(first: Automaton, second: Automaton, pairs: list[tuple[int, int]]) -> list[bytes]:
    """The names of pairs of states: those of both, if both have one, else their numbers."""
    names = [{state.number: state.name for state in automaton.states} for automaton in (first, second)]
    both = [(names[0].get(one), names[1].get(other)) for one, other in pairs]
    return [b'"%s,%s"' % (one[1:-1], other[1:-1]) if one and other else b'"%d,%d"' % pair
            for (one, other), pair in zip(both, pairs)]


def joined_names(first: Automaton, second: Automaton) -> list[bytes]:
    """The names of the first automaton, and then those that only the second has."""
    return names_of(first) + [name for name in names_of(second) if name not in names_of(first)]


def join_fault(one: bytes, other: bytes, words: list[tuple[Word, Word]]) -> Fault:
    """What is wrong with what `join` writes of two texts, or nothing."""
    first, second = read_one(one), read_one(other)
    union = read_written(join(one, other))
    if isinstance(union, str):
        return union
    if names_of(union) != joined_names(first, second):
        return f"its propositions are {names_of(union)}"
    before = first.first(b"States:", 0)
    both = [(0, state) for state in first.states] + [(before, state) for state in second.states]
    wanted = [(raised + state.number, state.name, len(state.edges)) for raised, state in both]
    written = [(state.number, state.name, len(state.edges)) for state in union.states]
    starts = first.said(b"Start:") + [[before + state for state in start] for start in second.said(b"Start:")]
    if written != wanted or union.said(b"Start:") != starts:
        return f"its states are {written}, and not {wanted}, or its starts {union.said(b'Start:')}, and not {starts}"
    return word_fault(union, words, lambda *word: accepts(first, *word) or accepts(second, *word))


def complement_fault(text: bytes, words: list[tuple[Word, Word]]) -> Fault:
    """What is wrong with what `complement` writes of a text, or nothing."""
    ran, automaton = run_of(["complement"], text), read_one(text)
    if not is_deterministic(automaton):
        if ran.returncode != 1 or not ran.stderr.startswith(b"omega: 56 NotDeterministic at ") or ran.stdout:
            return f"status {ran.returncode}: {shown(ran.stdout)} {shown(ran.stderr)}"
        return None
    complement = read_written(ran)
    if isinstance(complement, str):
        return complement
    return word_fault(complement, words, lambda *word: not accepts(automaton, *word))


def word_of_lasso_fault(text: bytes) -> Fault:
    """What is wrong with what `empty --search --word` writes, or nothing."""
    ran, automaton = run_of(["empty", "--search", "--word"], text), read_one(text)
    if ran.returncode or ran.stderr:
        return f"status {ran.returncode}: {shown(ran.stderr)}"
    if ran.stdout == b"empty\n":
        return None
    *lines, line = ran.stdout.split(b"\n", 2)
    written = b"".join(one + b"\n" for one in lines)
    lasso = read_lasso(written)
    if lasso is None:
        return f"no lasso: {shown(ran.stdout)}"
    wanted = written + word_line(automaton, *lasso)
    return admitted_fault(automaton, line) if ran.stdout == wanted else f"{shown(ran.stdout)} for {shown(wanted)}"


def admitted_fault(automaton: Automaton, line: bytes) -> Fault:
    """A word that a line `word` admits and the automaton does not accept, or why the line is no word; or nothing."""
    letters, drawn = valuations(names_of(automaton)), random.Random(line)
    try:
        stem, cycle = read_word(line)
        for _ in range(4):
            word = admitted(stem, letters, drawn.choice), admitted(cycle, letters, drawn.choice)
            if not accepts(automaton, *word):
                return f"{shown(line)} admits {word}, which is not accepted"
    except NoWord as why:
        return f"{shown(line)}: {why}"
    return None


def chain(states: int, name: bytes) -> bytes:
    """A ring of so many states."""
    return HEAD % (states, 1, name, b"Buchi", b"1 Inf(0)", b"".join(
        b"State: %d [t] %d\n" % (state, (state + 1) % states) for state in range(states)))


def known_checks() -> Cases:
    for one, of_one in LANGUAGES:
        yield f"the judge on {shown(one)}", partial(word_fault, read_one(one), WORDS, of_one)
        yield f"the complement of {shown(one)}", partial(complement_fault, one, WORDS)
        for other, of_other in LANGUAGES:
            yield f"{shown(one)} meets {shown(other)}", partial(meet_fault, one, other, WORDS)
            yield f"{shown(one)} joins {shown(other)}", partial(join_fault, one, other, WORDS)
    for text in (NO_STARTS, NO_STATES, SETLESS):
        yield f"{shown(text)} meets another", partial(meet_fault, text, UNTIL, WORDS)
        yield f"another meets {shown(text)}", partial(meet_fault, UNTIL, text, WORDS)
        yield f"{shown(text)} joins another", partial(join_fault, text, UNTIL, WORDS)
        yield f"another joins {shown(text)}", partial(join_fault, UNTIL, text, WORDS)
        yield f"the complement of {shown(text)}", partial(complement_fault, text, WORDS)


def name_checks() -> Cases:
    """The words of automata whose names Spot reads as something else, or nearly."""
    for names in RESERVED:
        text = HEAD % (2, 3, b" ".join(b'"%s"' % name for name in names), b"all", b"0 t",
                       b"State: 0 [0&(1|!2)] 1 State: 1 [!(0|1)&2|0&!0] 0")
        yield f"the word over {names!r}", partial(word_of_lasso_fault, text)


def limit_checks() -> Cases:
    """At both sides of 55: rings whose numbers of states have no common divisor meet in all pairs."""
    ran = meet(chain(1023, b'"a"'), chain(1024, b'"b"'))
    fault = None if ran.returncode == 0 and ran.stdout.count(b"State: ") == 1023 * 1024 else f"status {ran.returncode}"
    yield "1,047,552 pairs", fault
    ran = meet(chain(1025, b'"a"'), chain(1024, b'"b"'))
    yield "1,049,600 pairs", None if (ran.returncode, ran.stdout) == (1, b"") and ran.stderr.startswith(
        b"omega: 55 TooLarge\n") else f"status {ran.returncode}: {shown(ran.stderr)}"
    half, more = (b"HOA: v1 States: %d Acceptance: 0 t --BODY-- --END--" % states for states in (524_288, 524_289))
    yield "1,048,576 states of a union", fault_with_file(
        ["join", "--with"], half, half, 0, b"HOA: v1\nStates: 1048576\nAP: 0\nAcceptance: 0 t\n--BODY--\n--END--\n")
    yield "1,048,577 states of a union", fault_with_file(
        ["join", "--with"], more, half, 1, b"", b"omega: 55 TooLarge\n")


def random_checks() -> Cases:
    maker = Paired(2027)
    for number in range(2000):
        deterministic = bool(number % 2)
        one, other = maker.automaton(deterministic), maker.automaton(deterministic)
        words = maker.random.sample(WORDS, 8)
        assert not branches(read_one(one))
        yield f"the pair {number}: {one!r} meets {other!r}", partial(meet_fault, one, other, words)
        yield f"the pair {number}: {one!r} joins {other!r}", partial(join_fault, one, other, words)
        yield f"the complement of {one!r}", partial(complement_fault, one, words)
        if number < 400:
            yield f"the word of {one!r}", partial(word_of_lasso_fault, one)


def product_checks() -> Cases:
    yield from known_checks()
    yield from name_checks()
    yield from random_checks()
    yield from limit_checks()
