"""Specifications of synthesis: examples with the winners that were found by hand, automata made at random, and
controllers altered."""
import random
import re
from collections.abc import Callable, Iterator

from automata import written
from automaton_texts import Maker
from emptiness import Parity, buchi_formula, parity_formula

HEAD = b"HOA: v1 States: %d Start: 0 AP: %s controllable-AP: %s acc-name: %s Acceptance: %s --BODY-- %s --END--"
# An arbiter that answers a request at once; the system is to guess what comes next; two goals, again and again.
ARBITER = HEAD % (1, b'2 "r" "g"', b"1", b"parity max even 1", b"1 Inf(0)", b"State: 0 [!0 | 1] 0 {0}")
SERVANT = ARBITER.replace(b"controllable-AP: 1", b"controllable-AP:")
GUESS = HEAD % (4, b'2 "e" "s"', b"1", b"parity max even 1", b"1 Inf(0)",
                b"State: 0 [1] 1 [!1] 2 State: 1 [0] 3 State: 2 [!0] 3 State: 3 [t] 3 {0}")
GOALS = HEAD % (2, b'1 "s"', b"0", b"parity max even 3", b"3 Inf(2) | (Fin(1) & Inf(0))",
                b"State: 0 [0] 1 [!0] 0 {1} State: 1 [0] 0 {2} [!0] 1 {1}")
# Who chooses the loop: the environment.
LOOPS = GOALS.replace(b"controllable-AP: 0", b"controllable-AP:")


def first_that_holds(inputs: int, marks: list[int]) -> bytes:
    """A specification of one state that mentions so many propositions of the environment at once: an edge for each that
    is the first that holds, and one where none does. The edges have these marks, one after the other."""
    labels = [b"&".join([b"!%d" % before for before in range(at)] + [b"%d" % at] * (at < inputs))
              for at in range(inputs + 1)]
    edges = [b"[%s] 0 {%d}" % (label, marks[at % len(marks)]) for at, label in enumerate(labels)]
    names = b" ".join(b'"p%d"' % number for number in range(inputs + 1))
    return HEAD % (1, b"%d %s" % (inputs + 1, names), b"%d" % inputs, b"parity max even 2", b"2 Fin(1) & Inf(0)",
                   b"State: 0 " + b" ".join(edges))


def winner(states: int, names: bytes, controlled: bytes, body: bytes) -> bytes:
    """The text of a winner that begins in state 0. Lines of its body are parted by `/`."""
    return b"HOA: v1\nStates: %d\nStart: 0\nAP: %s\nacc-name: all\nAcceptance: 0 t\ncontrollable-AP:%s\n" % (
        states, names, controlled) + b"--BODY--\n" + body.replace(b"/", b"\n") + b"\n--END--\n"


ARBITRATES = winner(1, b'2 "r" "g"', b" 1", b"State: 0/[!0|1] 0")
ASKS = winner(1, b'2 "r" "g"', b"", b"State: 0/[0&!1] 0")
SURPRISES = winner(3, b'2 "e" "s"', b" 1", b"State: 0/[!0&1] 1/[!0&!1] 2/State: 1/[!0] 1/State: 2/[0] 2")
SERVES = winner(2, b'1 "s"', b" 0", b"State: 0/[0] 1/State: 1/[0] 0")
STAYS = winner(1, b'1 "s"', b"", b"State: 0/[!0&!0] 0")

# An automaton, who wins, and a text that is that of the winner; and texts that are not, with what is wrong with them.
# All were found by hand.
Winners = tuple[bytes, bool, list[bytes], list[tuple[str, bytes]]]
WINNERS: list[Winners] = [
    (ARBITER, True, [ARBITRATES], [
        ("no edge", ARBITRATES.replace(b"[!0|1] 0\n", b"")),
        ("another label", ARBITRATES.replace(b"[!0|1]", b"[1|!0]")),
        ("an edge twice", ARBITRATES.replace(b"[!0|1] 0\n", b"[!0|1] 0\n[!0|1] 0\n")),
        ("another item", ARBITRATES.replace(b"controllable-AP: 1", b"controllable-AP: 0")),
        ("no item", ARBITRATES.replace(b"controllable-AP: 1\n", b"")),
        ("marks", ARBITRATES.replace(b"] 0\n", b"] 0 {0}\n").replace(b"0 t", b"1 t")),
        ("another acceptance", ARBITRATES.replace(b"acc-name: all", b"acc-name: none").replace(b"0 t", b"0 f")),
        ("a state more", ARBITRATES.replace(b"States: 1", b"States: 2")),
        ("no start", ARBITRATES.replace(b"Start: 0\n", b"")),
        ("the automaton itself", ARBITER),
        ("a counter-strategy's label", ARBITRATES.replace(b"[!0|1]", b"[!0&(!0|1)]")),
        ("nothing", b"")]),
    (SERVANT, False, [ASKS], [
        ("an answer kept", ASKS.replace(b"[0&!1]", b"[0&1&(!0|1)]")),
        ("a letter of the system alone", ASKS.replace(b"[0&!1]", b"[1&(!0|1)]")),
        ("a label without a letter", ASKS.replace(b"[0&!1]", b"[!0|1]")),
        ("a letter that is answered", ASKS.replace(b"[0&!1]", b"[0&1]")),
        ("no letter", ASKS.replace(b"[0&!1] 0\n", b""))]),
    (GUESS, False, [SURPRISES], [
        ("a letter that is not the first", SURPRISES.replace(b"[!0&", b"[0&")),
        ("an answer left out", winner(2, b'2 "e" "s"', b" 1", b"State: 0/[!0&1] 1/State: 1/[!0] 1")),
        ("no letter of a state without an answer", SURPRISES.replace(b"[!0] 1\n", b"")),
        ("another letter of a state without an answer", SURPRISES.replace(b"[0] 2", b"[!0] 2")),
        ("two letters of a state", SURPRISES.replace(b"[!0&!1]", b"[0&!1]")),
        ("no letter of a state with answers", SURPRISES.replace(b"[!0&1]", b"[1]").replace(b"[!0&!1]", b"[!1]")),
        ("another target", SURPRISES.replace(b"[!0&!1] 2", b"[!0&!1] 1")),
        ("a state not reached", SURPRISES.replace(b"States: 3", b"States: 4")),
        ("an edge that loses", winner(4, b'2 "e" "s"', b" 1", b"State: 0/[!0&1] 1/[!0&!1] 2/State: 1/[0&0] 3/State: 2/"
                                      b"[0] 2/State: 3/[!0&t] 3"))]),
    (GOALS, True, [SERVES], [
        ("a bad loop besides", SERVES.replace(b"State: 1\n", b"[!0] 0\nState: 1\n")),
        ("a bad loop behind", SERVES.replace(b"--END--", b"[!0] 1\n--END--")),
        ("no way on", SERVES.replace(b"State: 1\n[0] 0\n", b"State: 1\n")),
        ("the bad loop alone", winner(1, b'1 "s"', b" 0", b"State: 0/[!0] 0"))]),
    (LOOPS, False, [STAYS], [
        ("the good way", winner(2, b'1 "s"', b"", b"State: 0/[0&0] 1/State: 1/[0&0] 0")),
        ("both ways", STAYS.replace(b"[!0&!0] 0", b"[!0&!0] 0\n[0&0] 0"))]),
]


class Specifications(Maker):
    """Makes deterministic parity automata at random whose propositions are parted."""

    def specification(self) -> bytes:
        """Most have no fault, and some have one for which they are refused."""
        count, self.propositions = self.some(1, 6), self.some(0, 4)
        self.missing, sets, acceptance = self.random.choice([0, 0, 0, 1, 3]), *self.acceptance_items()
        numbers = [b"%d" % number for number in range(self.propositions) if self.some(0, 1)]
        self.random.shuffle(numbers)
        item = b" ".join([b"controllable-AP:", *numbers])
        names = self.random.sample([b'"a"', b'"b c"', b'"r\\""', b'"F"', b'"g"'], self.propositions)
        items = [acceptance, b"States: %d" % count, b" ".join([b"AP: %d" % self.propositions, *names])]
        items += [item] * (self.some(0, 9) > 0) + [b"Start: %d" % self.some(0, count - 1)] * (self.some(0, 19) > 0)
        items += self.random.sample([b'tool: "x"', b'name: "n"', b"properties: a", b"more: 1 t"], self.some(0, 2))
        items += self.fault(count, item) * (self.some(0, 11) == 0)
        self.random.shuffle(items)
        alias = b"Alias: @x " + (b"0" if self.propositions else b"t")
        states = self.random.sample(range(count), count - (self.some(0, 7) == 0))
        body = b"".join(self.state_of(number, count, sets) for number in states)
        return b"HOA: v1\n" + b"\n".join([alias, *items]) + b"\n--BODY--\n" + body + b"--END--\n"

    def fault(self, count: int, item: bytes) -> list[bytes]:
        """An item by which the automaton is refused, for the most part."""
        return [self.random.choice([b"Start: %d" % self.some(0, count - 1), b"Start: 0&%d" % self.some(0, count - 1),
                                    item, b"controllable-AP: 4", b"controllable-AP: 0 0", b"controllable-AP: t"])]

    def acceptance_items(self) -> tuple[int, bytes]:
        """How many sets there are, and the two items of the acceptance, by any name of a parity kind; now and then one
        that is none."""
        order, parity = self.random.choice([b"max", b"min"]), self.random.choice([b"even", b"odd"])
        sets = self.some(0, 5)
        name, formula = b"parity %s %s %d" % (order, parity, sets), parity_formula(order, parity, sets)
        choice = self.some(0, 39)
        if choice < 4:
            kind: Parity = (b"max", *[(b"odd", 0), (b"even", 0), (b"even", 1), (b"odd", 1)][choice])
            sets, formula = kind[2], parity_formula(*kind)
            name = [b"all", b"none", b"Buchi", b"co-Buchi"][choice]
        elif choice == 4:
            sets, name, formula = 2, b"generalized-Buchi 2", buchi_formula(2)
        elif choice == 5:
            formula = ("|", formula, ("f",))
        return sets, b"acc-name: %s\nAcceptance: %d %s" % (name, sets, written(formula))

    def state_of(self, number: int, count: int, sets: int) -> bytes:
        """A state with its edges: one for each valuation, one by the label of the state, or some that part the letters.
        """
        name = b' "s%d"' % number if self.some(0, 3) == 0 else b""
        marks = self.marks(sets) if self.some(0, 2) == 0 else b""
        choice, label = self.some(0, 7), b""
        if choice == 0:
            edges = [b" " + self.target(count, sets) for _ in range(2 ** self.propositions)]
        elif choice == 1:
            label, edges = b"[" + self.cover(self.parts(2)[0]) + b"] ", [b" " + self.target(count, sets)]
        else:
            edges = [b" [" + one + b"] " + self.target(count, sets) for one in self.labels()]
        return b"State: " + label + b"%d" % number + name + marks + b"".join(edges) + b"\n"

    def target(self, count: int, sets: int) -> bytes:
        return b"%d" % self.some(0, count - 1) + self.marks(sets)

    def parts(self, most: int) -> list[list[int]]:
        """Cubes that part all letters, at most so many: each the literals that hold, a proposition as its number and
        one, negated below none."""
        cubes: list[list[int]] = [[]]
        while len(cubes) < most:
            open_ones = [cube for cube in cubes if len(cube) < self.propositions]
            if not open_ones:
                break
            cube = self.random.choice(open_ones)
            free = [number + 1 for number in range(self.propositions) if number + 1 not in {abs(literal) for literal in cube}]
            number = self.random.choice(free)
            cubes.remove(cube)
            cubes += [[*cube, number], [*cube, -number]]
        self.random.shuffle(cubes)
        return cubes

    def labels(self) -> list[bytes]:
        """Labels of which no two hold together. Some letters may be in none of them, and some labels hold nowhere."""
        covers = [self.cover(cube) for cube in self.parts(self.some(1, 7))]
        kept = [cover for cover in covers if self.some(0, 9) >= self.missing]
        joined: list[bytes] = []
        while kept:
            size = min(len(kept), self.random.choice([1, 1, 1, 2, 3]))
            joined.append(b" | ".join(kept[:size]))
            kept = kept[size:]
        if self.some(0, 7) == 0:
            joined.insert(self.some(0, len(joined)), self.random.choice([b"f", b"@x&!@x", b"!t"]))
        if self.some(0, 149) == 0:
            joined.append(self.label(self.propositions, 2).replace(b"@y", b"t"))
        return joined

    def cover(self, cube: list[int]) -> bytes:
        """A cube as a label, in one of several ways."""
        literals = [b"%s%d" % (b"" if number > 0 else b"!", abs(number) - 1) for number in cube]
        choice = self.some(0, 5)
        if choice == 0 and literals:
            return b"!(" + b"|".join(b"!(%s)" % one for one in literals) + b")"
        if choice == 1:
            literals = [b"@x" if one == b"0" else one for one in literals]
        if choice == 2:
            literals.append(b"(t|f)")
        return b"&".join(literals) or b"t"


# An edge of a controller's text, after its label.
EDGE = re.compile(rb"^(\[.*\] )(\d+)$", re.MULTILINE)
STATE = re.compile(rb"^State: .*\n", re.MULTILINE)


class Altered:
    """Alters controllers and counter-strategies at random."""

    def __init__(self, text: bytes, drawn: random.Random) -> None:
        self.text, self.random = text, drawn
        self.states = int(re.findall(rb"^States: (\d+)$", text, re.MULTILINE)[0])
        self.propositions = int(re.findall(rb"^AP: (\d+)", text, re.MULTILINE)[0])

    def some_edge(self) -> re.Match[bytes] | None:
        edges = [*EDGE.finditer(self.text)]
        return self.random.choice(edges) if edges else None

    def with_edge(self, made: Callable[[re.Match[bytes]], bytes]) -> bytes:
        """The text with another line for one of its edges."""
        edge = self.some_edge()
        return self.text if edge is None else self.text[:edge.start()] + made(edge) + self.text[edge.end():]

    def target(self) -> bytes:
        return b"%d" % self.random.randrange(self.states)

    def literal(self) -> bytes:
        if not self.propositions:
            return b"t"
        return self.random.choice([b"", b"!"]) + b"%d" % self.random.randrange(self.propositions)

    def dropped(self) -> bytes:
        return self.with_edge(lambda edge: b"").replace(b"\n\n", b"\n")

    def redirected(self) -> bytes:
        return self.with_edge(lambda edge: edge.group(1) + self.target())

    def narrowed(self) -> bytes:
        return self.with_edge(lambda edge: b"[%s&(%s)] %s" % (self.literal(), edge[1][1:-2], edge[2]))

    def added(self) -> bytes:
        """With an edge more of a state, to a state."""
        states = [*STATE.finditer(self.text)]
        if not states:
            return self.text
        end = self.random.choice(states).end()
        return self.text[:end] + b"[" + self.literal() + b"] " + self.target() + b"\n" + self.text[end:]

    def exchanged(self) -> bytes:
        """The system controls other propositions."""
        numbers = [b"%d" % number for number in range(self.propositions) if self.random.randrange(2)]
        return re.sub(rb"^controllable-AP:.*$", b" ".join([b"controllable-AP:", *numbers]), self.text,
                      flags=re.MULTILINE)

    def without_start(self) -> bytes:
        return re.sub(rb"^Start: .*\n", b"", self.text, flags=re.MULTILINE)

    def started_twice(self) -> bytes:
        """With another start beside."""
        if not self.states:
            return self.text
        return self.text.replace(b"AP:", b"Start: %s\nAP:" % self.target(), 1)

    def each(self) -> Iterator[tuple[str, bytes]]:
        """The text altered in several ways, some of them at random."""
        yield "an edge dropped", self.dropped()
        yield "an edge redirected", self.redirected()
        yield "an edge added", self.added()
        others = [("an edge narrowed", self.narrowed), ("other propositions controlled", self.exchanged),
                  ("no start", self.without_start), ("another start", self.started_twice)]
        what, made = self.random.choice(others)
        yield what, made()
