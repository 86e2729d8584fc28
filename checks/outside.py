"""Circuits between this program, `berkeley-abc` and `yosys`, where these are installed. What `realize --aiger` writes
of the known specifications of *encoding* is read by both, in the forms that they read; what they write again is read
here, does the same over 200 rounds of 64 runs side by side, and is judged `yes`. By `cec` and `dsec` of abc its own
copy and what it optimizes are the same circuit, and the optimized one is judged `yes`.

For 200 circuits, half of them altered, and specifications in which each run is accepted, `pdr` of abc says the same as
`verify`: it is asked whether the circuit, beside a monitor of the specification, leads to where no edge goes on.
"""
import os
import random
import shutil
import subprocess
import tempfile
from collections.abc import Sequence
from functools import partial

from automata import Automaton, Refused, Tree, read_one
from circuit_checks import YES, judged, told
from circuits import Circuit, Gate, Latch, Machine, canonical, read_circuit, text_of
from emptiness import moves_of
from encoding import AIGER, AS_BINARY, SPECIFICATIONS
from product_checks import beside
from products import names_of
from program import SECONDS, Cases, Fault, run_of
from random_circuits import Circuits, Specified

ABC, YOSYS = "berkeley-abc", "yosys"
# What makes fewer gates of a circuit, each time.
FEWER = "dc2; balance; rewrite; refactor; balance; rewrite; rewrite -z; balance; refactor -z; rewrite -z; balance; "
# How many runs stand side by side, and how long they are.
LANES, ROUNDS = 64, 200


def output_in(folder: str, words: list[str]) -> str:
    """What another program says in a folder, whatever its status is."""
    ran = subprocess.run(words, cwd=folder, capture_output=True, timeout=SECONDS)
    return (ran.stdout + ran.stderr).decode(errors="replace")


def put(folder: str, name: str, text: bytes) -> None:
    with open(os.path.join(folder, name), "wb") as file:
        file.write(text)


def held_in(folder: str, name: str) -> bytes:
    """The text of a file; empty if there is none."""
    path = os.path.join(folder, name)
    if not os.path.exists(path):
        return b""
    with open(path, "rb") as file:
        return file.read()


def apart_fault(one: Circuit, other: Circuit) -> Fault:
    """A round in which outputs of one name differ, or nothing. The second circuit may have further inputs."""
    drawn, every = random.Random(one.size()), 2 ** LANES - 1
    machines = [Machine(one), Machine(other)]
    states: list[Sequence[int]] = [[every * bit for bit in machine.start] for machine in machines]
    if not {*one.input_names()} <= {*other.input_names()} or {*one.output_names()} != {*other.output_names()}:
        return f"the names are {other.names()} for {one.names()}"
    for number in range(ROUNDS):
        given = {name: drawn.getrandbits(LANES) for name in other.input_names()}
        answers = []
        for at, machine in enumerate(machines):
            inputs = [given[name] for name in machine.circuit.input_names()]
            answer, states[at] = machine.step(inputs, states[at], every)
            answers.append(dict(zip(machine.circuit.output_names(), answer)))
        if answers[0] != answers[1]:
            return f"round {number} differs: {answers}"
    return None


def again_fault(specification: bytes, circuit: Circuit, text: bytes) -> Fault:
    """What is wrong with what another program wrote of a circuit, or nothing."""
    try:
        other = read_circuit(text)
    except Refused as refused:
        return f"what it writes is refused {refused}: {text!r}"
    ran = beside(["verify", "--specification"], specification, text)
    is_right = (ran.returncode, ran.stdout, ran.stderr) == (*YES, b"")
    return apart_fault(circuit, other) or (None if is_right else f"{told(ran)}, of {text!r}")


def written(specification: bytes) -> tuple[bytes, bytes]:
    """The circuit of a specification in both forms; empty if there is none."""
    ran = run_of(AIGER, specification)
    return (b"", b"") if ran.returncode else (ran.stdout, run_of(AS_BINARY, specification).stdout)


def abc_fault(specification: bytes) -> Fault:
    """What is wrong with how abc reads, writes and optimizes the circuit of a specification, or nothing."""
    plain, binary = written(specification)
    if not plain:
        return None
    circuit, names = read_circuit(plain), ("copy.aig", "fewer.aig")
    # Of circuits without latches `dsec` says an error, and it breaks off on those without inputs.
    ways = ["cec", "dsec"] if circuit.inputs and circuit.latches else ["cec"]
    asks = [f"{way} own.aig {name}" for name in names for way in ways]
    with tempfile.TemporaryDirectory() as folder:
        put(folder, "own.aig", binary)
        said = output_in(folder, [ABC, "-q", f"read own.aig; write_aiger -s copy.aig; strash; {FEWER * 3}"
                                  f"write_aiger -s fewer.aig; {'; '.join(asks)}"])
        copies = [held_in(folder, name) for name in names]
    if said.count("Networks are equivalent") != len(asks):
        return f"abc says {said!r} of {plain!r}"
    return next((fault for text in copies if (fault := again_fault(specification, circuit, text))), None)


def yosys_fault(specification: bytes) -> Fault:
    """What is wrong with how yosys reads and writes the circuit of a specification, or nothing."""
    plain, binary = written(specification)
    if not plain:
        return None
    circuit = read_circuit(plain)
    for name, text in (("own.aag", plain), ("own.aig", binary)):
        with tempfile.TemporaryDirectory() as folder:
            put(folder, name, text)
            said = output_in(folder, [YOSYS, "-q", "-p", f"read_aiger {name}; simplemap; "
                                      "write_aiger -symbols copy.aig; write_aiger -ascii -symbols copy.aag"])
            copies = [held_in(folder, copy) for copy in ("copy.aig", "copy.aag")]
        for copy in copies:
            fault = again_fault(specification, circuit, copy)
            if fault:
                return f"{fault}, of {text!r}; yosys says {said!r}"
    return None


# ---- circuits beside monitors


class Beside:
    """A circuit beside a monitor of a deterministic automaton, which follows its letters: the one output holds where no
    edge goes on. Latches that begin with 1 are kept negated."""

    def __init__(self, circuit: Circuit, automaton: Automaton) -> None:
        own = canonical(circuit)
        # The literals whose latches begin with 1.
        self.turned = {latch.literal for latch in own.latches if latch.reset}
        names = names_of(automaton)
        self.inputs = [*own.inputs]
        self.first = 2 * own.size() + 2
        free = [name for name in names if name not in own.names()]
        self.known = dict(zip(own.input_names(), own.inputs))
        self.known |= {name: self.turn(literal) for name, literal in zip(own.output_names(), own.outputs)}
        for name in free:
            self.known[name] = self.variable()
            self.inputs.append(self.known[name])
        self.letters = [self.known[name] for name in names]
        self.latches = [Latch(latch.literal, self.turn(latch.next) ^ latch.reset, 0) for latch in own.latches]
        self.gates = [Gate(gate.literal, self.turn(gate.left), self.turn(gate.right)) for gate in own.gates]
        self.bad = self.monitor(automaton)

    def turn(self, literal: int) -> int:
        return literal ^ (literal & ~1 in self.turned)

    def variable(self) -> int:
        self.first += 2
        return self.first - 2

    def both(self, one: int, other: int) -> int:
        literal = self.variable()
        self.gates.append(Gate(literal, one, other))
        return literal

    def some(self, literals: Sequence[int]) -> int:
        """The literal of a disjunction."""
        found = 0
        for literal in literals:
            found = self.both(found ^ 1, literal ^ 1) ^ 1
        return found

    def label(self, tree: Tree) -> int:
        if tree[0] == "number":
            return self.letters[tree[1]]
        if tree[0] in ("t", "f"):
            return int(tree[0] == "t")
        parts = [self.label(part) for part in tree[1:]]
        if tree[0] == "!":
            return parts[0] ^ 1
        return self.both(*parts) if tree[0] == "&" else self.some(parts)

    def monitor(self, automaton: Automaton) -> int:
        """The literal that holds where no edge goes on. Each state has a latch, that of the start is kept negated."""
        start = automaton.said(b"Start:")[0][0]
        moves = moves_of(automaton)
        states = {start} | {state for move in moves for state in (move.source, move.targets[0])}
        own = {state: self.variable() for state in sorted(states)}
        here = {state: literal ^ (state == start) for state, literal in own.items()}
        into: dict[int, list[int]] = {state: [] for state in states}
        stuck = []
        for state in states:
            labels = [(self.label(move.label), move) for move in moves
                      if move.source == state and move.label is not None]
            for literal, move in labels:
                into[move.targets[0]].append(self.both(here[state], literal))
            stuck.append(self.both(here[state], self.some([literal for literal, _ in labels]) ^ 1))
        self.latches += [Latch(literal, self.some(into[state]) ^ (state == start), 0) for state, literal in own.items()]
        return self.some(stuck)

    def text(self) -> bytes:
        return text_of(canonical(Circuit(self.inputs, self.latches, [self.bad], self.gates)), True)


def is_for_pdr(automaton: Automaton) -> bool:
    """Whether a specification accepts each of its runs, and has one start, and a label at each edge."""
    return (automaton.first(b"Acceptance:", (0, ("t",))) == (0, ("t",)) and len(automaton.said(b"Start:")) == 1
            and all(move.label is not None for move in moves_of(automaton)))


def pdr_fault(specification: bytes, text: bytes) -> Fault:
    """Whether `pdr` says something else of a circuit and a specification than `verify`, or nothing."""
    try:
        judged(specification, text)
    except Refused:
        return None
    ran = beside(["verify", "--specification"], specification, text)
    with tempfile.TemporaryDirectory() as folder:
        put(folder, "beside.aig", Beside(read_circuit(text), read_one(specification)).text())
        said = output_in(folder, [ABC, "-q", "read beside.aig; pdr; print_status"])
    answers = {0: "Status = 1", 6: "Status = 0"}
    if ran.stderr or ran.returncode not in answers or answers[ran.returncode] not in said:
        return f"{told(ran)}, and pdr says {said!r}, of {text!r} for {specification!r}"
    return None


def pdr_checks() -> Cases:
    for name, text in SPECIFICATIONS:
        if b"Acceptance: 0 t" in text:
            yield f"pdr on {name}", partial(pdr_written_fault, text)
    maker = Circuits(2097)
    makes, number = Specified(maker.random), 0
    while number < 100:
        circuit = maker.named(maker.circuit(maker.some(0, 3), maker.some(0, 3), maker.some(1, 3), maker.some(0, 12)),
                              [b"a", b"b", b"c", b"d", b"e", b"f"])
        specification = makes.specification(circuit)
        if is_for_pdr(read_one(specification)):
            number += 1
            yield f"pdr on circuit {number}", partial(pdr_fault, specification, maker.ascii(circuit))
            yield f"pdr on circuit {number}, altered", partial(
                pdr_fault, specification, maker.binary(maker.mutated(circuit)))


def pdr_written_fault(specification: bytes) -> Fault:
    plain = written(specification)[0]
    return pdr_fault(specification, plain) if plain else "there is no circuit"


def outside_checks() -> Cases:
    for tool in (ABC, YOSYS):
        if not shutil.which(tool):
            print(f"outside: {tool} is passed over, since it is not installed", flush=True)
    for name, text in SPECIFICATIONS:
        if shutil.which(ABC):
            yield f"abc on {name}", partial(abc_fault, text)
        if shutil.which(YOSYS):
            yield f"yosys on {name}", partial(yosys_fault, text)
    if shutil.which(ABC):
        yield from pdr_checks()
