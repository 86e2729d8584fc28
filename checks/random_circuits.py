"""Circuits at random with their texts, and specifications and formulas that are made of them.

Nothing here is quick, and nothing is shared with the program.
"""
import random
from collections.abc import Iterator, Sequence
from typing import Any

from automata import written
from circuits import Circuit, Gate, Latch, Machine, Symbol, canonical, delta_text, text_of
from emptiness import parity_formula
from formulas import Formula
from products import Letter

# Names that inputs and outputs may have; and such as no automaton has, or that come twice.
NAMES = [b"a", b"b c", b'r\\"', b"F", b"g", b"x1", b"\xc3\xa4", b"[0]", b"", b"\\\\"]
NO_NAMES = [b'x"y', b"z\\", b'"', b"a", b"o0", b"i1"]
COMMENTS = [b"c\n", b"c\nread on\n", b"c\n\xff\x00", b"c\nc\ni0 x\n"]


class Circuits:
    """Makes circuits and texts of them."""

    def __init__(self, seed: int) -> None:
        self.random = random.Random(seed)

    def some(self, least: int, most: int) -> int:
        return self.random.randint(least, most)

    def variables(self, count: int) -> list[int]:
        """So many variables in any order, now and then with gaps between them."""
        most = count + self.random.choice([0, 0, 3])
        return self.random.sample(range(1, most + 1), count)

    def literal(self, among: Sequence[int]) -> int:
        """A literal of one of these variables, the last ones rather than the first, or a constant."""
        if not among or self.some(0, 15) == 0:
            return self.some(0, 1)
        near = among[-4:] if self.some(0, 1) else among
        return 2 * self.random.choice(near) + self.some(0, 1)

    def circuit(self, inputs: int, latches: int, outputs: int, gates: int) -> Circuit:
        """A circuit of so many parts, without names."""
        own = self.variables(inputs + latches + gates)
        begun = inputs + latches
        joined = [Gate(2 * variable, self.literal(own[:begun + at]), self.literal(own[:begun + at]))
                  for at, variable in enumerate(own[begun:])]
        if self.some(0, 2) == 0:
            self.random.shuffle(joined)
        made = [Latch(2 * variable, self.literal(own), self.some(0, 3) // 3) for variable in own[inputs:begun]]
        return Circuit([2 * variable for variable in own[:inputs]], made,
                       [self.literal(own) for _ in range(outputs)], joined)

    def named(self, circuit: Circuit, names: Sequence[bytes]) -> Circuit:
        """The circuit with these names of inputs and then outputs, as far as they go, in any order."""
        places = [("i", at) for at in range(len(circuit.inputs))] + [("o", at) for at in range(len(circuit.outputs))]
        circuit.symbols = [Symbol(*place, name) for place, name in zip(places, names)]
        if circuit.latches and self.some(0, 3) == 0:
            circuit.symbols.append(Symbol("l", self.some(0, len(circuit.latches) - 1), b"kept here"))
        self.random.shuffle(circuit.symbols)
        return circuit

    def small(self) -> Circuit:
        """A circuit with few inputs, latches and outputs, and names for the most part."""
        circuit = self.circuit(self.some(0, 3), self.some(0, 3), self.some(0, 3), self.some(0, 12))
        names = self.random.sample(NAMES, len(NAMES))
        count = self.some(0, len(circuit.inputs) + len(circuit.outputs))
        if count and self.some(0, 11) == 0:
            names[self.some(0, count - 1)] = self.random.choice(NO_NAMES)
        return self.named(circuit, names[:self.random.choice([count, len(names)])])

    def ascii(self, circuit: Circuit) -> bytes:
        """The text in one of the ways in which it may be written: with a first line, resets of 0, and a comment."""
        head, _, rest = text_of(circuit).partition(b"\n")
        lines = rest.split(b"\n")
        for at in range(len(circuit.inputs), len(circuit.inputs) + len(circuit.latches)):
            lines[at] += b" 0" * (lines[at].count(b" ") == 1 and self.some(0, 3) == 0)
        if self.some(0, 3) == 0:
            words = head.split(b" ")
            head = b" ".join([words[0], b"%d" % (int(words[1]) + self.some(0, 5)), *words[2:]])
        return self.around(b"\n".join([head + b" 0" * self.random.choice([0, 0, 0, 1, 4]), *lines]))

    def binary(self, circuit: Circuit) -> bytes:
        """The text of the canonical circuit in the binary form, now and then with zeros at the end of deltas."""
        made = canonical(circuit)
        plain = text_of(made, True)
        deltas = b"".join(delta_text(gate.literal - gate.left) + delta_text(gate.left - gate.right)
                          for gate in made.gates)
        if deltas and self.some(0, 3) == 0:
            symbols = text_of(Circuit([], [], [], [], made.symbols)).partition(b"\n")[2]
            begun = plain.removesuffix(deltas + symbols)
            plain = begun + b"".join(self.padded(gate.literal - gate.left) + self.padded(gate.left - gate.right)
                                     for gate in made.gates) + symbols
        return self.around(plain)

    def padded(self, delta: int) -> bytes:
        """A delta with zeros at its end."""
        text = delta_text(delta)
        more = self.some(0, 5 - len(text))
        return text if not more else text[:-1] + bytes([text[-1] | 128]) + b"\x80" * (more - 1) + b"\0"

    def around(self, text: bytes) -> bytes:
        """The text with a comment, or behind the line by which tools say that there is a circuit."""
        comment = self.random.choice(COMMENTS) if self.some(0, 4) == 0 else b""
        return b"REALIZABLE\n" * (self.some(0, 9) == 0) + text + comment

    def mutated(self, circuit: Circuit) -> Circuit:
        """The circuit with one literal negated or another, two outputs exchanged, or another reset."""
        made = Circuit(list(circuit.inputs), list(circuit.latches), list(circuit.outputs), list(circuit.gates),
                       circuit.symbols)
        ways = [self.negate_output] * bool(made.outputs) + [self.change_latch] * 2 * bool(made.latches) + [
            self.negate_operand] * 3 * bool(made.gates) + [self.exchange_outputs] * (len(made.outputs) > 1)
        if ways:
            self.random.choice(ways)(made)
        return made

    def negate_output(self, circuit: Circuit) -> None:
        circuit.outputs[self.some(0, len(circuit.outputs) - 1)] ^= 1

    def exchange_outputs(self, circuit: Circuit) -> None:
        circuit.outputs = circuit.outputs[1:] + circuit.outputs[:1]

    def change_latch(self, circuit: Circuit) -> None:
        at = self.some(0, len(circuit.latches) - 1)
        literal, following, reset = circuit.latches[at]
        circuit.latches[at] = self.random.choice([
            Latch(literal, following ^ 1, reset), Latch(literal, following, 1 - reset), Latch(literal, literal, reset)])

    def negate_operand(self, circuit: Circuit) -> None:
        at = self.some(0, len(circuit.gates) - 1)
        literal, left, right = circuit.gates[at]
        circuit.gates[at] = self.random.choice([Gate(literal, left ^ 1, right), Gate(literal, left, right ^ 1),
                                                Gate(literal, left, left)])


# ---- specifications


def literals(names: Sequence[bytes], held: Letter, numbers: dict[bytes, int]) -> list[bytes]:
    """What holds of these names, as parts of a label."""
    return [(b"" if name in held else b"!") + b"%d" % numbers[name] for name in names]


class Specified:
    """Makes deterministic automata that a circuit's words are to be in."""

    def __init__(self, drawn: random.Random) -> None:
        self.random = drawn

    def specification(self, circuit: Circuit) -> bytes:
        """An automaton whose states are the circuit's valuations. At each of its letters it goes on as the circuit
        does, if that answers as the circuit does in some of the outputs, and now and then not at all. Some edges are
        good and some are bad, if that counts."""
        machine, draw = Machine(circuit), self.random
        kept = [name for name in circuit.output_names() if draw.randrange(4)]
        more = [b"free"] * (draw.randrange(5) == 0)
        names = circuit.input_names() + circuit.output_names() + more
        draw.shuffle(names)
        numbers = {name: at for at, name in enumerate(names)}
        own = [numbers[name] for name in circuit.output_names()]
        order, parity = draw.choice([b"max", b"min"]), draw.choice([b"even", b"odd"])
        sets = draw.choice([0, 0, 0, 1, 2, 3])
        kind = b"parity %s %s %d" % (order, parity, sets)
        if not sets:
            kind, (order, parity) = b"all", (b"max", b"odd")
        lines = [b"HOA: v1", b"States: %d" % len(machine.reached()), b"Start: 0",
                 b" ".join([b"AP: %d" % len(names), *(b'"%s"' % name for name in names)]), b"acc-name: " + kind,
                 b"Acceptance: %d %s" % (sets, written(parity_formula(order, parity, sets)))]
        if draw.randrange(8):
            listed = [b"%d" % number for number in self.controlled(own, len(names))]
            lines.append(b" ".join([b"controllable-AP:", *listed]))
        return b"\n".join([*lines, b"--BODY--", *self.body(machine, kept, numbers, sets), b"--END--\n"])

    def controlled(self, own: list[int], count: int) -> list[int]:
        """The numbers of the system's propositions, now and then others."""
        if self.random.randrange(12) == 0:
            return [number for number in range(count + self.random.randrange(2)) if self.random.randrange(2)]
        return own

    def body(self, machine: Machine, kept: list[bytes], numbers: dict[bytes, int], sets: int) -> Iterator[bytes]:
        """The states with their edges."""
        steps, ins = machine.steps(), machine.circuit.input_names()
        places = {state: place for place, state in enumerate(steps)}
        lost = self.random.choice([0.0, 0.0, 0.0, 0.1])
        for state, place in places.items():
            yield b"State: %d" % place
            for letter, after in steps[state]:
                if self.random.random() < lost:
                    continue
                label = b"&".join(literals(ins + kept, letter, numbers)) or b"t"
                marks = [b"%d" % number for number in range(sets) if self.random.random() < 0.5]
                yield b"[%s] %d {%s}" % (label, places[after], b" ".join(marks))


# ---- formulas


def conjoined(parts: Sequence[Formula], operator: str = "&") -> Formula:
    """The parts joined, grouped to the left."""
    tree: Formula = parts[0] if parts else ("constant", True)
    for part in parts[1:]:
        tree = (operator, tree, part)
    return tree


def tree_of(circuit: Circuit, literal: int, known: dict[int, Formula]) -> Formula:
    """What a literal says of inputs and latches."""
    by_variable: dict[int, Any] = {gate.literal // 2: gate for gate in circuit.gates}

    def said(one: int) -> Formula:
        if one // 2 == 0:
            return "constant", one == 1
        if one % 2:
            return "!", said(one - 1)
        if one // 2 in known:
            return known[one // 2]
        gate = by_variable[one // 2]
        return "&", said(gate.left), said(gate.right)
    return said(literal)


def described(circuit: Circuit) -> Formula:
    """A formula that says what a circuit does, whose first outputs are its latches: of latches with what they begin and
    how they go on, and of other outputs what they are."""
    names = circuit.output_names()
    known: dict[int, Formula] = {literal // 2: ("name", name)
                                 for literal, name in zip(circuit.inputs, circuit.input_names())}
    known |= {latch.literal // 2: ("name", name) for latch, name in zip(circuit.latches, names)}
    begun: list[Formula] = [("name", name) if latch.reset else ("!", ("name", name))
                            for latch, name in zip(circuit.latches, names)]
    goes: list[Formula] = [("G", ("<->", ("X", ("name", name)), tree_of(circuit, latch.next, known)))
                           for latch, name in zip(circuit.latches, names)]
    ends: list[Formula] = [("G", ("<->", ("name", name), tree_of(circuit, literal, known)))
                           for literal, name in zip(circuit.outputs, names) if literal // 2 not in known]
    return conjoined([*begun, *goes, *ends])
