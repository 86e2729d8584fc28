"""Circuits and their texts in the AIGER format by the rules of docs/formats.md, as plainly as can be: texts read byte
by byte, rounds evaluated gate by gate, and the machine that a circuit is.

Nothing here is quick, and nothing is shared with the program.
"""
import itertools
import random
import re
from collections.abc import Collection, Iterator, Mapping, Sequence
from dataclasses import dataclass, field
from typing import Any, NamedTuple

from games import MOST_NUMBER, Refused
from products import Letter
from tableaux import Steps

MOST_TEXT, MOST_VARIABLES, MOST_PROPOSITIONS = 16_777_216, 16_777_216, 1024
ALL_DIGITS = re.compile(rb"[0-9]*")
# A literal over all that a circuit may have: what a delta below 0 gives.
NO_LITERAL = 2 ** 32 - 1
# The letters of symbols: of inputs, latches and outputs, and of four kinds of properties.
KINDS = b"ilobcjf"
QUOTABLE = re.compile(rb'(?:[^"\\]|\\.)*', re.DOTALL)
# How many valuations are tried of inputs and latches that are too many for all.
MOST_LANES = 256


class Latch(NamedTuple):
    literal: int
    next: int
    reset: int


class Gate(NamedTuple):
    literal: int
    left: int
    right: int


class Symbol(NamedTuple):
    kind: str
    position: int
    name: bytes


@dataclass
class Circuit:
    """A circuit as its text writes it."""
    inputs: Sequence[int]
    latches: list[Latch]
    outputs: list[int]
    gates: list[Gate]
    symbols: list[Symbol] = field(default_factory=list)

    def size(self) -> int:
        """How many variables are defined, without 0."""
        return len(self.inputs) + len(self.latches) + len(self.gates)

    def name(self, kind: str, position: int) -> bytes:
        """The name that a symbol gives to an input or an output, or else that of its place."""
        given = (it.name for it in self.symbols if (it.kind, it.position) == (kind, position))
        return next(given, b"%s%d" % (kind.encode(), position))

    def input_names(self) -> list[bytes]:
        return [self.name("i", position) for position in range(len(self.inputs))]

    def output_names(self) -> list[bytes]:
        return [self.name("o", position) for position in range(len(self.outputs))]

    def names(self) -> list[bytes]:
        """The propositions of its automaton."""
        return self.input_names() + self.output_names()


@dataclass
class Parts:
    """What a text says: a circuit, if there is no fault; the greatest variable, whether the form is binary, and the
    literals of bad states, constraints, justice and fairness, with the sizes of justice."""
    circuit: Circuit
    most: int
    is_dense: bool
    bad: list[int]
    constraints: list[int]
    sizes: list[int]
    justice: list[int]
    fairness: list[int]


# ---- texts


class Reader:
    """Goes over a text; refused 3 at the first byte that can't stand where it stands, and 2 at a number or a delta that
    is none."""

    def __init__(self, text: bytes) -> None:
        self.text, self.at = text, 0

    def sees(self, bytes_wanted: bytes) -> bool:
        return self.text.startswith(bytes_wanted, self.at)

    def take(self, bytes_wanted: bytes) -> None:
        for byte in bytes_wanted:
            if self.text[self.at:self.at + 1] != bytes([byte]):
                raise Refused(f"3 Syntax at {self.at}")
            self.at += 1

    def number(self) -> int:
        match = ALL_DIGITS.match(self.text, self.at)
        digits = match.group() if match else b""
        if not digits:
            raise Refused(f"3 Syntax at {self.at}")
        if len(digits) > 10 or digits != b"%d" % int(digits) or int(digits) > MOST_NUMBER:
            raise Refused(f"2 Number at {self.at}")
        self.at += len(digits)
        return int(digits)

    def line(self, count: int) -> list[int]:
        """A line of so many numbers."""
        found = []
        for place in range(count):
            found.append(self.number())
            self.take(b" " if place + 1 < count else b"\n")
        return found

    def lines(self, count: int) -> list[int]:
        """So many lines of one number each."""
        return [self.line(1)[0] for _ in range(count)]

    def delta(self) -> int:
        value, begun = 0, self.at
        for place in range(5):
            byte = self.text[self.at:self.at + 1]
            if not byte:
                raise Refused(f"3 Syntax at {self.at}")
            value += (byte[0] & 127) << 7 * place
            self.at += 1
            if byte[0] < 128:
                break
        else:
            raise Refused(f"2 Number at {begun}")
        if value >= 2 ** 32:
            raise Refused(f"2 Number at {begun}")
        return value

    def header(self) -> tuple[list[int], list[int]]:
        """The five counts, and the four of properties, of which those left out are 0."""
        counts, more = list[int](), list[int]()
        for _ in range(5):
            self.take(b" ")
            counts.append(self.number())
        while len(more) < 4 and self.sees(b" "):
            self.take(b" ")
            more.append(self.number())
        self.take(b"\n")
        return counts, more + [0] * (4 - len(more))

    def next_and_reset(self) -> tuple[int, int]:
        following, reset = self.number(), 0
        if self.sees(b" "):
            self.take(b" ")
            reset = self.number()
        self.take(b"\n")
        return following, reset

    def latch(self) -> Latch:
        literal = self.number()
        self.take(b" ")
        return Latch(literal, *self.next_and_reset())

    def gate_by_deltas(self, literal: int) -> Gate:
        first, second = self.delta(), self.delta()
        left = literal - first if 0 < first <= literal else NO_LITERAL
        return Gate(literal, left, left - second if second <= left else NO_LITERAL)

    def symbols(self) -> list[Symbol]:
        """The symbols, and the comment if there is one."""
        found = []
        while self.at < len(self.text):
            kind = self.text[self.at:self.at + 1]
            if kind not in [KINDS[at:at + 1] for at in range(len(KINDS))]:
                raise Refused(f"3 Syntax at {self.at}")
            self.at += 1
            if kind == b"c" and self.sees(b"\n"):
                break
            position = self.number()
            self.take(b" ")
            end = self.text.find(b"\n", self.at)
            if end < 0:
                raise Refused(f"3 Syntax at {len(self.text)}")
            found.append(Symbol(kind.decode(), position, self.text[self.at:end]))
            self.at = end + 1
        return found


def read_parts(text: bytes) -> Parts:
    """What a text says; refused 4, 2 or 3. A first line `REALIZABLE` says nothing."""
    if len(text) > MOST_TEXT:
        raise Refused("4 TooLong")
    reader = Reader(text)
    if reader.sees(b"R"):
        reader.take(b"REALIZABLE\n")
    reader.take(b"a")
    is_dense = reader.sees(b"i")
    reader.take(b"ig" if is_dense else b"ag")
    (most, inputs, latches, outputs, gates), counts = reader.header()
    circuit = Circuit(range(2, 2 * inputs + 2, 2), [], [], [])
    if is_dense:
        for at in range(latches):
            circuit.latches.append(Latch(2 * (inputs + 1 + at), *reader.next_and_reset()))
    else:
        circuit.inputs = reader.lines(inputs)
        circuit.latches = [reader.latch() for _ in range(latches)]
    circuit.outputs = reader.lines(outputs)
    bad, constraints, sizes = (reader.lines(count) for count in counts[:3])
    justice, fairness = reader.lines(sum(sizes)), reader.lines(counts[3])
    for at in range(gates):
        own = 2 * (inputs + latches + 1 + at)
        circuit.gates.append(reader.gate_by_deltas(own) if is_dense else Gate(*reader.line(3)))
    circuit.symbols = reader.symbols()
    return Parts(circuit, most, is_dense, bad, constraints, sizes, justice, fairness)


def order_of(gates: Collection[Gate]) -> list[Gate] | None:
    """The gates, each after those that it uses; none if one uses itself, through gates."""
    own = {gate.literal // 2 for gate in gates}
    users: dict[int, list[Gate]] = {variable: [] for variable in own}
    left = dict[int, int]()
    for gate in gates:
        used = own & {gate.left // 2, gate.right // 2}
        left[gate.literal // 2] = len(used)
        for variable in used:
            users[variable].append(gate)
    found = [gate for gate in gates if not left[gate.literal // 2]]
    for gate in found:
        for user in users[gate.literal // 2]:
            left[user.literal // 2] -= 1
            found += [user] * (not left[user.literal // 2])
    return found if len(found) == len(gates) else None


def positions_fault(parts: Parts) -> bool:
    """Whether a symbol names what there is not, or two name the same."""
    circuit = parts.circuit
    counts = dict(zip("ilobcjf", map(len, (circuit.inputs, circuit.latches, circuit.outputs, parts.bad,
                                           parts.constraints, parts.sizes, parts.fairness))))
    places = [(symbol.kind, symbol.position) for symbol in circuit.symbols]
    return len({*places}) < len(places) or any(position >= counts[kind] for kind, position in places)


def faults_of(parts: Parts) -> Iterator[tuple[str, bool]]:
    """Each fault of a circuit with whether it applies, by its number; later ones rest on those before."""
    circuit, most = parts.circuit, parts.most
    size = circuit.size()
    yield "70 Variables", most < size or parts.is_dense and most != size or most > MOST_VARIABLES
    defined = [*circuit.inputs, *(it.literal for it in circuit.latches), *(it.literal for it in circuit.gates)]
    used = [*(it.next for it in circuit.latches), *circuit.outputs, *parts.bad, *parts.constraints, *parts.justice,
            *parts.fairness, *(operand for gate in circuit.gates for operand in gate[1:])]
    yield "71 LiteralRange", any(literal > 2 * most + 1 for literal in defined + used)
    variables = {0, *(literal // 2 for literal in defined)}
    yield "72 Defined", any(literal % 2 for literal in defined) or len(variables) <= len(defined)
    yield "73 Undefined", any(literal // 2 not in variables for literal in used)
    yield "74 Cycle", order_of(circuit.gates) is None
    yield "75 Reset", any(latch.reset > 1 for latch in circuit.latches)
    yield "76 Symbol", positions_fault(parts)
    yield "77 Properties", bool(parts.bad or parts.constraints or parts.sizes or parts.fairness)


def read_circuit(text: bytes) -> Circuit:
    """The circuit that a text says; refused by the first of its refusals."""
    parts = read_parts(text)
    for fault, applies in faults_of(parts):
        if applies:
            raise Refused(fault)
    return parts.circuit


def begins_as_circuit(text: bytes) -> bool:
    """Whether `verify` and others take a text for that of a circuit."""
    return text.removeprefix(b"REALIZABLE\n").startswith((b"aag ", b"aig "))


def delta_text(delta: int) -> bytes:
    """A delta with as few bytes as can be."""
    made = b""
    while delta > 127:
        made, delta = made + bytes([128 + delta % 128]), delta // 128
    return made + bytes([delta])


def text_of(circuit: Circuit, is_binary: bool = False) -> bytes:
    """The text of a circuit in its own order; the binary form needs one in canonical form."""
    defined = [0, *circuit.inputs, *(it.literal for it in circuit.latches), *(it.literal for it in circuit.gates)]
    most = max(circuit.size(), max(defined) // 2)
    counts = most, len(circuit.inputs), len(circuit.latches), len(circuit.outputs), len(circuit.gates)
    lines = [b" ".join([b"aig" if is_binary else b"aag", *(b"%d" % count for count in counts)]) + b"\n"]
    if not is_binary:
        lines += [b"%d\n" % literal for literal in circuit.inputs]
    for latch in circuit.latches:
        numbers = [*latch[is_binary:2], *[latch.reset] * (latch.reset > 0)]
        lines.append(b" ".join(b"%d" % number for number in numbers) + b"\n")
    lines += [b"%d\n" % literal for literal in circuit.outputs]
    for gate in circuit.gates:
        lines.append(delta_text(gate.literal - gate.left) + delta_text(gate.left - gate.right) if is_binary else
                     b"%d %d %d\n" % gate)
    lines += [b"%s%d %s\n" % (symbol.kind.encode(), symbol.position, symbol.name) for symbol in circuit.symbols]
    return b"".join(lines)


def order_of_search(circuit: Circuit) -> list[Gate]:
    """The gates as a depth-first search leaves them: each as it is given, after its left and then its right operand."""
    by_variable, found = {gate.literal // 2: gate for gate in circuit.gates}, dict[int, Gate]()
    for root in circuit.gates:
        path = [root]
        while path:
            gate = path[-1]
            waiting = [used // 2 for used in gate[1:] if used // 2 in by_variable and used // 2 not in found]
            if waiting:
                path.append(by_variable[waiting[0]])
            else:
                found.setdefault(path.pop().literal // 2, gate)
    return [*found.values()]


def canonical(circuit: Circuit) -> Circuit:
    """The circuit with the variables from 1 on in order, and gates in the order of a search, the greater operand first.
    """
    gates = order_of_search(circuit)
    defined = [0, *circuit.inputs, *(it.literal for it in circuit.latches), *(it.literal for it in gates)]
    numbers = {literal // 2: at for at, literal in enumerate(defined)}

    def new(literal: int) -> int:
        return 2 * numbers[literal // 2] + literal % 2

    latches = [Latch(new(it.literal), new(it.next), it.reset) for it in circuit.latches]
    joined = [sorted(map(new, gate), reverse=True) for gate in gates]
    return Circuit([*map(new, circuit.inputs)], latches, [*map(new, circuit.outputs)],
                   [Gate(*literals) for literals in joined], circuit.symbols)


def are_canonical(circuit: Circuit) -> bool:
    """Whether inputs, latches and gates have the variables from 1 on in order, and each gate joins lesser literals, the
    greater one first."""
    defined = [*circuit.inputs, *(it.literal for it in circuit.latches), *(it.literal for it in circuit.gates)]
    is_numbered = defined == [2 * at + 2 for at in range(len(defined))]
    return is_numbered and all(gate.literal > gate.left >= gate.right for gate in circuit.gates)


# ---- what circuits do


def values_of(circuit: Circuit, order: list[Gate], begun: Mapping[int, int], every: int) -> dict[int, int]:
    """The values of all variables in a round, by those of inputs and latches: numbers whose bits stand for rounds side
    by side."""
    held = {0: 0, **begun}
    for gate in order:
        held[gate.literal // 2] = value(held, gate.left, every) & value(held, gate.right, every)
    return held


def value(held: Mapping[int, int], literal: int, every: int) -> int:
    return held[literal // 2] ^ (every if literal % 2 else 0)


class Machine:
    """A circuit that runs round by round."""

    def __init__(self, circuit: Circuit) -> None:
        order = order_of(circuit.gates)
        assert order is not None, "a gate uses itself"
        self.circuit, self.order = circuit, order
        self.start = tuple(latch.reset for latch in circuit.latches)

    def round(self, inputs: Sequence[int], latches: Sequence[int], every: int = 1) -> dict[int, int]:
        """The values of all variables."""
        begun = {literal // 2: held for literal, held in zip(self.circuit.inputs, inputs)}
        begun |= {latch.literal // 2: held for latch, held in zip(self.circuit.latches, latches)}
        return values_of(self.circuit, self.order, begun, every)

    def step(self, inputs: Sequence[int], latches: Sequence[int], every: int = 1) -> tuple[Any, Any]:
        """The outputs, and the latches of the next round."""
        held = self.round(inputs, latches, every)
        return (tuple(value(held, literal, every) for literal in self.circuit.outputs),
                tuple(value(held, latch.next, every) for latch in self.circuit.latches))

    def reached(self) -> list[Any]:
        """The valuations of the latches that are reached, as they are found."""
        found = {self.start: None}
        waiting = [self.start]
        for state in waiting:
            for letter in itertools.product((0, 1), repeat=len(self.circuit.inputs)):
                after = self.step(letter, state)[1]
                if after not in found:
                    found[after] = None
                    waiting.append(after)
        return waiting

    def steps(self) -> Steps:
        """What it does from each valuation that is reached: its letters, with the valuations that follow."""
        ins, outs = self.circuit.input_names(), self.circuit.output_names()
        steps: Steps = {}
        for state in self.reached():
            steps[state] = []
            for letter in itertools.product((0, 1), repeat=len(ins)):
                answer, after = self.step(letter, state)
                held = zip(ins + outs, letter + answer)
                steps[state].append((Letter(name for name, holds in held if holds), after))
        return steps


def columns(circuit: Circuit) -> tuple[list[int], list[int], int]:
    """Values of the inputs and of the latches in rounds side by side: all, if they are few, or else some at random."""
    count, width = len(circuit.inputs), len(circuit.inputs) + len(circuit.latches)
    lanes = min(MOST_LANES, 2 ** width)
    drawn = random.Random(width)
    picked = [lane if 2 ** width <= MOST_LANES else drawn.getrandbits(width) for lane in range(lanes)]
    made = [sum((lane >> at & 1) << number for number, lane in enumerate(picked)) for at in range(width)]
    return made[:count], made[count:], 2 ** lanes - 1


def outcome(circuit: Circuit) -> tuple[Any, Any, list[int]]:
    """What outputs, next latches and gates are in the rounds of `columns`: those of the gates in order."""
    machine, (inputs, latches, every) = Machine(circuit), columns(circuit)
    held = machine.round(inputs, latches, every)
    return *machine.step(inputs, latches, every), sorted(held[gate.literal // 2] for gate in circuit.gates)


def name_refusal(circuit: Circuit) -> str | None:
    """Why the names are not those of an automaton, or nothing."""
    names = circuit.names()
    if len(names) > MOST_PROPOSITIONS or len({*names}) < len(names):
        return "26 Proposition"
    return None if all(QUOTABLE.fullmatch(name) for name in names) else "78 Name"
