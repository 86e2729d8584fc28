"""What `check`, `show`, `canon`, `automaton` and `verify` say of circuits in the AIGER format, against a slow reader of
the grammar and an evaluation gate by gate. Of 300 random circuits, half of them in binary, the canonical text does the
same in all rounds or in many, and the automaton goes along with the circuit letter by letter, for each valuation of the
latches that is reached. Six texts are cut short at every byte, and have each byte replaced by each of eleven: each is
read, or refused by its refusal at its place.

1,100 circuits are judged for specifications that are random or made of the circuit, and 300 for formulas, by a plain
product with the specification or the tableau; some are altered. Each `no` has a lasso of the automaton that `automaton`
writes, and a word along it that shows it. A text that begins as no circuit is refused as an automaton. Circuits of 32
inputs are judged too, chains of 100,000 gates are read whatever their order, and texts and labels are at both sides of
their limits.
"""
import itertools
import random
from collections.abc import Iterable, Iterator
from functools import partial

from automata import Automaton, Refused, Tree, canonical as canonical_automaton, read_one
from circuits import MOST_TEXT, Circuit, Gate, Machine, are_canonical, begins_as_circuit, canonical, name_refusal
from circuits import outcome, read_circuit, text_of
from comparing_checks import explained_fault as explained_by_automaton
from emptiness import Move, moves_of
from formulas import Formula, canonical as canonical_formula, names_of, read_formula
from ltl import explained_fault as explained_by_formula
from machines import is_kept
from product_checks import beside
from products import names_of as propositions_of
from program import Cases, Fault, Ran, fault_of, refusal_fault, run_of, shown
from random_circuits import Circuits, Specified, described
from realizability import ITEM, conjunction, controlled_of, has_item, literal, parted, single
from realizing import Requirements
from specifications import ARBITER, Specifications
from tableaux import all_words_satisfy

CHECK, SHOW, CANON = ([name, "--format", "aiger"] for name in ("check", "show", "canon"))
BINARY = [*CANON, "--binary"]
YES, NO = (0, b"yes\n"), (6, b"no\n")
NAMED = b"i0 r\no0 g\n"
WIRE = b"aag 1 1 0 1 0\n2\n2\n" + NAMED
# Digits, signs, letters of symbols, and bytes at the ends of what bytes may be.
BYTES = [0, 10, 32, 48, 50, 57, 99, 105, 127, 128, 255]
DAMAGED = [
    b"aag 3 1 1 1 1\n2\n4 7\n5\n6 5 3\n" + NAMED, b"aig 3 1 1 1 1\n7 1\n5\n\x01\x02l0 k\nc\nx",
    b"aag 1 0 1 0 0 1 1 2 1\n2 3 0\n2\n3\n1\n1\n2\n2\n3\nj1 n\n", b"REALIZABLE\naig 0 0 0 1 0\n1\no0  \n",
    b"aig 80 79 0 0 1\n\x82\x00\x80\x80\x80\x80\x00", b"aag 12 1 0 1 0 0\n24\n25\nc",
]
# Texts with their refusals, or none, found by hand.
REFUSALS: list[tuple[bytes, str | None]] = [
    (b"aag 4 2 0 1 2\n2\n4\n8\n8 6 2\n6 4 2\n", None), (b"aag 3 1 0 1 2\n2\n4\n4 6 2\n6 4 2\n", "74 Cycle"),
    (b"aag 1 1 0 1 0\n02\n2\n", "2 Number at 14"), (b"aag 1 1 0 1 0\n2\n2", "3 Syntax at 17"),
    (b"aag 1 1 1 0 0\n2\n2 2\n", "70 Variables"), (b"aag 2 1 1 0 0\n2\n2 2\n", "72 Defined"),
    (b"aag 1 1 0 1 0\n2\n4\n", "71 LiteralRange"), (b"aig 1 0 0 1 1\n2\n\x00\x02", "71 LiteralRange"),
    (b"aag 2 1 0 1 0\n2\n4\n", "73 Undefined"), (b"aag 1 0 1 1 0\n2 3 2\n2\n", "75 Reset"),
    (b"aag 1 1 0 1 0\n2\n2\no1 x\n", "76 Symbol"), (b"aag 1 1 0 0 0 1\n2\n2\n", "77 Properties"),
    (b"REALIZABLE\naag 0 0 0 0 0\n", None), (b"UNREALIZABLE\n", "3 Syntax at 0"), (b"", "3 Syntax at 0"),
    (b"REALIZABLE\nREALIZABLE\naag 0 0 0 0 0\n", "3 Syntax at 11"), (b"REALIZABLE", "3 Syntax at 10"),
    (b"aag 0 0 0 0 0\r\n", "3 Syntax at 13"), (b"aag  0 0 0 0 0\n", "3 Syntax at 4"),
    (b"aag 0 0 0 0\n", "3 Syntax at 11"), (b"aag 0 0 0 0 0 0 0 0 0 0\n", "3 Syntax at 21"),
    (b"aag 0 0 0 0 0 0 0 0 0\n", None), (b"aag 2147483647 0 0 0 0\n", "70 Variables"),
    (b"aag 2147483648 0 0 0 0\n", "2 Number at 4"), (b"aag 16777216 0 0 0 0\n", None),
    (b"aag 16777217 0 0 0 0\n", "70 Variables"), (b"aig 1000000000 1000000000 0 0 0\n", "70 Variables"),
    (b"aig 1 0 0 0 0\n", "70 Variables"), (b"aag 1 0 0 0 0\n", None), (b"aag 0 0 0 1 0\n00\n", "2 Number at 14"),
    (b"aag 0 0 0 1 0\n1\nc", "3 Syntax at 17"), (b"aag 0 0 0 1 0\n1\nc\n", None),
    (b"aag 0 0 0 1 0\n1\nc0 x\n", "76 Symbol"), (b"aag 0 0 0 1 0\n1\nc0\n", "3 Syntax at 18"),
    (b"aag 0 0 0 1 0\n1\no0 \n", None), (b"aag 0 0 0 1 0\n1\no0\n", "3 Syntax at 18"),
    (b"aag 0 0 0 1 0\n1\no0 x\no0 y\n", "76 Symbol"), (b"aag 0 0 0 1 0\n1\no00 x\n", "2 Number at 17"),
    (b"aag 0 0 0 1 0\n1\nk0 x\n", "3 Syntax at 16"), (b"aag 1 1 0 0 0\n3\n", "72 Defined"),
    (b"aag 1 1 0 0 0\n0\n", "72 Defined"), (b"aag 1 0 0 0 1\n2 2 2\n", "74 Cycle"), (b"aag 1 0 1 0 0\n2 2 1\n", None),
    (b"aag 1 0 1 0 0\n2 3 02\n", "2 Number at 18"), (b"aag 1 0 1 0 0\n2 3 \n", "3 Syntax at 18"),
    (b"aag 1 0 0 0 1\n2 1 4\n", "71 LiteralRange"), (b"aag 2 1 0 0 1\n2\n4 6 2\n", "71 LiteralRange"),
    (b"aag 3 1 0 0 1\n2\n4 6 2\n", "73 Undefined"), (b"aag 2 1 0 0 1\n2\n2 1 1\n", "72 Defined"),
    (b"aag 0 0 0 0 0 0 0 1\n0\n", "77 Properties"), (b"aag 0 0 0 0 0 0 0 1\n1\n4\n", "71 LiteralRange"),
    (b"aag 0 0 0 0 0 0 1\n0\nc0 x\n", "77 Properties"), (b"aag 1 0 0 0 0 0 0 0 1\n2\n", "73 Undefined"),
    (b"aag 0 0 0 0 0\nj0 x\n", "76 Symbol"), (b"aig 1 0 0 0 1\n\x02", "3 Syntax at 15"),
    (b"aig 1 0 0 0 1\n\x80\x80\x80\x80\x80", "2 Number at 14"),
    (b"aig 1 0 0 0 1\n\xff\xff\xff\xff\x10", "2 Number at 14"),
    (b"aig 1 0 0 0 1\n\x02\xff\xff\xff\xff\x0f", "71 LiteralRange"),
    (b"aig 1 0 0 0 1\n\x80\x80\x80\x80", "3 Syntax at 18"),
    (b"aig 1 0 0 0 1\n\x03\x00", "71 LiteralRange"), (b"aig 1 0 0 0 1\n\x02\x00", None),
    (b"aig 1 0 0 0 1\n\x01\x01", None), (b"aig 1 0 0 0 1\n\x01\x02", "71 LiteralRange"),
    (b"aig 1 0 0 0 1\n\x82\x00\x00", None),
]


def told(ran: Ran) -> str:
    return f"status {ran.returncode}: {shown(ran.stdout)} {shown(ran.stderr)}"


def is_refused(ran: Ran, refused: Refused) -> bool:
    return (ran.returncode, ran.stdout, ran.stderr) == (1, b"", f"omega: {refused}\n".encode())


# ---- texts


def hand_fault(text: bytes, wanted: str | None) -> Fault:
    """What the slow reader says of a text other than was found by hand, or nothing."""
    try:
        read_circuit(text)
        found = None
    except Refused as refused:
        found = str(refused)
    return None if found == wanted else f"it says {found}"


def canonical_fault(text: bytes) -> Fault:
    """What is wrong with the two canonical texts of a text, or nothing: each is that of the circuit in canonical form,
    which does the same, and is its own canonical text."""
    try:
        circuit = read_circuit(text)
    except Refused as refused:
        return refusal_fault(CANON, text, refused)
    made = canonical(circuit)
    if not are_canonical(made) or outcome(made) != outcome(circuit):
        return "the slow writer is wrong"
    plain, binary = text_of(made), text_of(made, True)
    return fault_of(CANON, text, 0, plain) or fault_of(BINARY, text, 0, binary)


def read_fault(text: bytes) -> Fault:
    """What is wrong with the lines that `check` and `show` write of a text, or nothing."""
    try:
        circuit = read_circuit(text)
    except Refused as refused:
        words = [CHECK, SHOW, [*SHOW, "--json"], ["automaton"]]
        return next((fault for one in words if (fault := refusal_fault(one, text, refused))), None)
    counts = len(circuit.inputs), len(circuit.latches), len(circuit.outputs), len(circuit.gates)
    line = b"circuit inputs %d latches %d outputs %d gates %d\n" % counts
    json = b'{"inputs":%d,"latches":%d,"outputs":%d,"gates":%d}\n' % counts
    return (fault_of(CHECK, text, 0, b"accepted\n") or fault_of(SHOW, text, 0, line)
            or fault_of([*SHOW, "--json"], text, 0, json))


def back_fault(text: bytes) -> Fault:
    """Whether the canonical texts are their own, and say the same in the other form; or what is wrong."""
    plain, binary = run_of(CANON, text).stdout, run_of(BINARY, text).stdout
    return (fault_of(CANON, plain, 0, plain) or fault_of(BINARY, binary, 0, binary)
            or fault_of(CANON, binary, 0, plain) or fault_of(BINARY, plain, 0, binary))


def damaged(text: bytes) -> Iterator[bytes]:
    """The text, its beginnings, and the texts that differ from it in one byte."""
    yield text
    for place in range(len(text)):
        yield text[:place]
        for byte in BYTES:
            yield text[:place] + bytes([byte]) + text[place + 1:]


# ---- automata


def label_of(circuit: Circuit, move: Move) -> dict[int, bool] | str:
    """What the label of an edge says of propositions, by their numbers; or what is wrong with it."""
    parts = conjuncts(move.label or ("t",))
    said = {number_in(part): part[0] != "!" for part in parts}
    wanted = [literal(number, said[number]) for number in sorted(said) if number >= 0]
    if move.label != conjunction(wanted):
        return f"{move.label} is no conjunction of literals in order"
    outs = range(len(circuit.inputs), len(circuit.inputs) + len(circuit.outputs))
    return said if all(number in said for number in outs) else f"{move.label} leaves an output open"


def conjuncts(tree: Tree) -> list[Tree]:
    if tree[0] == "&":
        return conjuncts(tree[1]) + conjuncts(tree[2])
    return [] if tree[0] == "t" else [tree]


def number_in(tree: Tree) -> int:
    """The number of a literal, or -1 if a tree is none."""
    inner = tree[1] if tree[0] == "!" else tree
    return inner[1] if inner[0] == "number" else -1


def header_fault(circuit: Circuit, automaton: Automaton, states: int) -> Fault:
    """What is wrong with the header of a circuit's automaton, or nothing."""
    names = [b'"' + name + b'"' for name in circuit.names()]
    own = [b"%d" % number for number in range(len(circuit.inputs), len(names))]
    wanted = [(b"States:", states), (b"Start:", [0]), (b"AP:", (len(names), names)), (b"acc-name:", [b"all"]),
              (b"Acceptance:", (0, ("t",))), (b"unknown", (ITEM, own))]
    return None if automaton.items == wanted else f"its header is {automaton.items} for {wanted}"


def followed_fault(machine: Machine, automaton: Automaton) -> Fault:
    """Where an automaton and its circuit part, letter by letter, or nothing."""
    circuit, valuations = machine.circuit, {0: machine.start}
    moves = moves_of(automaton)
    for state in automaton.states:
        if state.number not in valuations:
            return f"state {state.number} is not reached by states before it"
        held = valuations[state.number]
        digits = b'"' + b"".join(b"%d" % bit for bit in held) + b'"' if held else None
        if state.name != digits:
            return f"state {state.number} has the name {state.name!r} for {digits!r}"
        leaving = [move for move in moves if move.source == state.number]
        fault = edges_fault(machine, held, leaving, valuations)
        if fault:
            return f"state {state.number}: {fault}"
    if len({*valuations.values()}) < len(valuations) or len(valuations) != len(automaton.states):
        return f"its states are {valuations}"
    return header_fault(circuit, automaton, len(valuations))


def edges_fault(machine: Machine, held: tuple[int, ...], leaving: list[Move],
                valuations: dict[int, tuple[int, ...]]) -> Fault:
    """What is wrong with the edges of a valuation, or nothing. Valuations that are new are noted, in order."""
    circuit, seen = machine.circuit, 0
    count = len(circuit.inputs)
    for move in leaving:
        said = label_of(circuit, move)
        if isinstance(said, str):
            return said
        for number in range(2 ** count):
            letter = [number >> at & 1 for at in range(count)]
            if any(said.get(at, bit) != bit for at, bit in enumerate(letter)):
                continue
            answer, after = machine.step(letter, held)
            seen += 1
            if [said[count + at] for at in range(len(answer))] != [*answer]:
                return f"at {letter} the outputs are {answer}"
            if move.targets[0] not in valuations and move.targets[0] == len(valuations):
                valuations[move.targets[0]] = after
            if valuations.get(move.targets[0]) != after:
                return f"at {letter} the latches become {after}"
    return None if seen == 2 ** count else f"{seen} letters are answered"


def automaton_fault(text: bytes) -> Fault:
    """What is wrong with the automaton that is written of a text, or nothing."""
    ran = run_of(["automaton"], text)
    try:
        circuit = read_circuit(text)
        refusal = name_refusal(circuit)
        if refusal:
            raise Refused(refusal)
    except Refused as refused:
        return None if is_refused(ran, refused) else f"{told(ran)} for {refused}"
    if ran.returncode or ran.stderr:
        return told(ran)
    automaton = read_one(ran.stdout)
    if canonical_automaton(automaton) != ran.stdout:
        return f"it is not canonical: {ran.stdout!r}"
    fault = followed_fault(Machine(circuit), automaton)
    return fault and f"{fault}: {ran.stdout!r}"


# ---- what circuits are judged


def judged(specification: bytes, text: bytes) -> bool:
    """Whether a circuit realizes a specification; refused by the first of: the refusals of both texts, 58 of the
    specification, 26 and 78 of the circuit, 58 of the two, and 41 and 56 of the specification."""
    automaton = read_one(specification)
    circuit = read_circuit(text)
    own = {*controlled_of(automaton)}
    refusal = name_refusal(circuit)
    if refusal:
        raise Refused(refusal)
    if has_item(automaton):
        names = propositions_of(automaton)
        sides = [(name, number in own) for number, name in enumerate(names)]
        if any((name in circuit.output_names()) != is_own for name, is_own in sides if name in circuit.names()):
            raise Refused("58 Controllable")
    single(parted(automaton))
    machine = Machine(circuit)
    return is_kept(machine.steps(), [machine.start], circuit.names(), automaton)


def verdict_fault(ran: Ran, told_why: Ran, wins: bool) -> tuple[Fault, bytes]:
    """What is wrong with the lines of two runs, of which the second gives reasons, or nothing; and the reason."""
    answer = YES if wins else NO
    if ran.stderr or (ran.returncode, ran.stdout) != answer:
        return f"{told(ran)} for {answer}", b""
    if told_why.stderr or told_why.returncode != answer[0] or not told_why.stdout.startswith(answer[1]):
        return f"--explain: {told(told_why)} for {answer}", b""
    reason = told_why.stdout.removeprefix(answer[1])
    return f"--explain: {told(told_why)}" if wins and reason else None, reason


def specified_fault(specification: bytes, text: bytes, known: bool | None = None) -> Fault:
    """What is wrong with how a circuit is judged for a specification, or nothing. What is known is true by
    construction."""
    ran = beside(["verify", "--specification"], specification, text)
    told_why = beside(["verify", "--explain", "--specification"], specification, text)
    try:
        wins = judged(specification, text)
    except Refused as refused:
        if is_refused(ran, refused) and is_refused(told_why, refused):
            return None
        return f"{told(ran)}, {told(told_why)} for {refused}, of {text!r} for {specification!r}"
    fault, reason = verdict_fault(ran, told_why, wins)
    if known not in (None, wins):
        fault = f"the slow judge says {wins}"
    if not fault and not wins:
        fault = explained_by_automaton(run_of(["automaton"], text).stdout, specification, reason)
    return fault and f"{fault}, of {text!r} for {specification!r}"


def judged_for(tree: Formula, outs: list[bytes], text: bytes) -> bool:
    """Whether a circuit realizes a formula, whose names are parted so; refused by the first of: the refusals of the
    circuit, 58 of the list, 26 and 78 of the circuit, and 58 if a name is on the other side. Names that the formula
    does not have say nothing."""
    circuit = read_circuit(text)
    if not {*outs} <= {*names_of(tree)}:
        raise Refused("58 Controllable")
    refusal = name_refusal(circuit)
    if refusal:
        raise Refused(refusal)
    if any((name in circuit.output_names()) != (name in outs) for name in circuit.names() if name in names_of(tree)):
        raise Refused("58 Controllable")
    machine = Machine(circuit)
    return all_words_satisfy(machine.steps(), [machine.start], circuit.names(), tree)


def formula_fault(formula: bytes, outs: list[bytes], text: bytes, known: bool | None = None) -> Fault:
    """What is wrong with how a circuit is judged for a formula, or nothing."""
    tree = read_formula(formula)
    words = ["-f", formula.decode(), "--outs", b",".join(outs).decode()]
    ran, told_why = run_of(["verify", *words], text), run_of(["verify", "--explain", *words], text)
    try:
        wins = judged_for(tree, outs, text)
    except Refused as refused:
        if is_refused(ran, refused) and is_refused(told_why, refused):
            return None
        return f"{told(ran)}, {told(told_why)} for {refused}, of {text!r}"
    fault, reason = verdict_fault(ran, told_why, wins)
    if known not in (None, wins):
        fault = f"the slow judge says {wins}"
    if not fault and not wins:
        fault = explained_by_formula(run_of(["automaton"], text).stdout, tree, reason)
    return fault and f"{fault}, of {text!r}"


def misread_fault(text: bytes) -> Fault:
    """What `verify` says of a text other than a circuit's refusal or its verdict if it begins as one, or else the
    refusal of an automaton; or nothing."""
    if begins_as_circuit(text):
        return specified_fault(ARBITER, text)
    ran = beside(["verify", "--specification"], ARBITER, text)
    try:
        read_one(text)
        return "it is read"
    except Refused as refused:
        return None if is_refused(ran, refused) else f"{told(ran)} for {refused}"


# ---- cases


def text_checks() -> Cases:
    for text, wanted in REFUSALS:
        yield f"the slow reader on {text!r}", hand_fault(text, wanted)
        yield f"canon {text!r}", partial(canonical_fault, text)
        yield f"check and show {text!r}", partial(read_fault, text)
    for text in DAMAGED:
        for one in damaged(text):
            yield f"canon {one!r}", partial(canonical_fault, one)
    for one in damaged(WIRE):
        yield f"verify {one!r}", partial(misread_fault, one)


def random_checks() -> Cases:
    maker = Circuits(2090)
    for number in range(300):
        circuit = maker.small()
        text = maker.ascii(circuit) if number % 2 else maker.binary(circuit)
        yield f"canon, circuit {number}: {text!r}", partial(canonical_fault, text)
        yield f"check and show, circuit {number}: {text!r}", partial(read_fault, text)
        yield f"automaton, circuit {number}: {text!r}", partial(automaton_fault, text)
        if number % 5 == 0:
            yield f"canon again, circuit {number}: {text!r}", partial(back_fault, text)
    for number in range(20):
        circuit = maker.circuit(maker.some(3, 7), maker.some(0, 5), maker.some(0, 9), maker.some(20, 200))
        text = maker.ascii(maker.named(circuit, []))
        yield f"canon, the greater circuit {number}: {text!r}", partial(canonical_fault, text)
        yield f"automaton, the greater circuit {number}: {text!r}", partial(automaton_fault, text)


def specified_checks() -> Cases:
    maker, specifications = Circuits(2091), Specifications(2092)
    makes = Specified(maker.random)
    for number in range(400):
        circuit = maker.named(maker.circuit(maker.some(0, 2), maker.some(0, 3), maker.some(0, 2), maker.some(0, 8)),
                              maker.random.sample([b"a", b"b c", b'r\\"', b"F"], 4))
        text = makes.specification(circuit)
        altered = maker.mutated(circuit)
        yield f"circuit {number} for its own specification", partial(specified_fault, text, maker.ascii(circuit))
        yield f"circuit {number}, altered", partial(specified_fault, text, maker.binary(altered))
    for number in range(300):
        text, circuit = specifications.specification(), maker.small()
        yield f"circuit {number} for any specification", partial(specified_fault, text, maker.ascii(circuit))


def formula_checks() -> Cases:
    maker, requirements = Circuits(2093), Requirements(2094)
    for number in range(100):
        circuit = maker.circuit(maker.some(0, 2), maker.some(0, 2), maker.some(0, 1), maker.some(0, 5))
        circuit.outputs = [latch.literal for latch in circuit.latches] + circuit.outputs
        ins, outs = [b"r", b"q"][:len(circuit.inputs)], [b"s", b"t0", b"u0"][:len(circuit.outputs)]
        if not outs:
            continue
        circuit = maker.named(circuit, ins + outs)
        formula = canonical_formula(described(circuit))
        told_names = names_of(read_formula(formula))
        own = [name for name in outs if name in told_names]
        yield f"circuit {number} for what it does, {formula!r}", partial(
            formula_fault, formula, own, maker.ascii(circuit), True)
        yield f"circuit {number}, altered, for {formula!r}", partial(
            formula_fault, formula, own, maker.ascii(maker.mutated(circuit)))
    for number in range(100):
        asked = requirements.asked(number)
        circuit = maker.circuit(len(asked.ins), maker.some(0, 2), len(asked.outs), maker.some(0, 6))
        names = asked.ins + asked.outs
        if number % 10 == 0:
            names = [*names[1:], b"other"]
        text = maker.ascii(maker.named(circuit, names))
        yield f"circuit {number} for any formula, {asked}", partial(formula_fault, asked.text, asked.outs, text)


def chain(length: int, is_forward: bool) -> Circuit:
    """A chain of gates, each of which uses the one before it."""
    gates = [Gate(2 * at + 4, 2 * at + 2, 2) for at in range(length)]
    return Circuit([2], [], [2 * length + 2], gates if is_forward else gates[::-1])


def priorities(clients: int) -> Circuit:
    """The first client that asks is granted."""
    circuit = Circuit([2 * at + 2 for at in range(clients)], [], [2], [])
    none = 3
    for asks in circuit.inputs[1:]:
        literal = 2 * circuit.size() + 2
        circuit.gates += [Gate(literal, asks, none), Gate(literal + 2, asks ^ 1, none)]
        circuit.outputs.append(literal)
        none = literal + 2
    return circuit


def parity(inputs: int) -> Circuit:
    """The output says whether an odd number of inputs is true."""
    circuit = Circuit([2 * at + 2 for at in range(inputs)], [], [2], [])
    for other in circuit.inputs[1:]:
        one, literal = circuit.outputs[0], 2 * circuit.size() + 2
        circuit.gates += [Gate(literal, other, one), Gate(literal + 2, other ^ 1, one ^ 1),
                          Gate(literal + 4, literal + 3, literal + 1)]
        circuit.outputs = [literal + 4]
    return circuit


def wide_fault(circuit: Circuit, most: int) -> Fault:
    """What is wrong with the automaton of a circuit without latches that has many inputs, or nothing: its labels part
    all letters, they are so many at most, and at some letters of each the outputs are as it says."""
    moves, machine = moves_of(read_one(run_of(["automaton"], text_of(circuit)).stdout)), Machine(circuit)
    drawn, count = random.Random(most), len(circuit.inputs)
    labels = [label_of(circuit, move) for move in moves]
    said = [label for label in labels if not isinstance(label, str)]
    if len(moves) > most or len(said) < len(moves):
        return f"{len(moves)} edges, at most {most}: {labels}"
    for one, other in itertools.combinations(said, 2):
        if not any(one[number] != other.get(number, one[number]) for number in one if number < count):
            return f"{one} and {other} have a letter together"
    if sum(2 ** (len(circuit.names()) - len(label)) for label in said) != 2 ** count:
        return "a letter has no edge"
    for label in said * 4:
        letter = [int(label.get(at, drawn.random() < 0.5)) for at in range(count)]
        if [*machine.step(letter, ())[0]] != [label[count + at] for at in range(len(circuit.outputs))]:
            return f"at {letter} the outputs are others than {label}"
    return None


def wide_checks() -> Cases:
    """Circuits of more inputs than letters can be gone through for."""
    circuit = priorities(32)
    yield "automaton, priorities of 32 clients", partial(wide_fault, circuit, 64)
    yield "automaton, a parity of 8 inputs", partial(wide_fault, parity(8), 256)
    twice, late = b"!(0&1)", b"!(2&3)|!0"
    for label, status in ((twice, YES), (late, YES), (b"!0|1", NO)):
        text = (b'HOA: v1 States: 1 Start: 0 AP: 4 "o3" "o31" "i3" "i0" controllable-AP: 0 1 Acceptance: 0 t --BODY-- '
                b"State: 0 [" + label + b"] 0 --END--")
        yield f"verify, priorities of 32 clients, {label!r}", partial(known_fault, text, text_of(circuit), status)


def known_fault(specification: bytes, text: bytes, answer: tuple[int, bytes]) -> Fault:
    """What `verify` says of a circuit other than the answer that is known, or nothing."""
    ran = beside(["verify", "--specification"], specification, text)
    return None if (ran.returncode, ran.stdout, ran.stderr) == (*answer, b"") else told(ran)


def limit_checks() -> Cases:
    """Chains of gates; texts and canonical texts, and labels, as long as they may be, and longer."""
    for is_forward in (True, False):
        made = chain(100_000, is_forward)
        ends, wanted = text_of(made), text_of(canonical(made))
        yield f"canon, a chain, forward: {is_forward}", partial(fault_of, CANON, ends, 0, wanted)
        made.gates[0 if is_forward else -1] = Gate(4, 200_002, 2)
        yield f"check, a ring, forward: {is_forward}", partial(refusal_fault, CHECK, text_of(made), "74 Cycle")
    # The other form has a line more, that of the input.
    named = b"aig 1 1 0 0 0\ni0 ".ljust(MOST_TEXT - 1, b"x") + b"\n"
    yield "canon, a text that would be too long", partial(refusal_fault, CANON, named, "4 TooLong")
    yield "canon --binary of it", partial(fault_of, BINARY, named, 0, named)
    longest = b"aag 0 0 0 0 0\nc\n".ljust(MOST_TEXT, b"\xff")
    yield "canon, the longest text", partial(fault_of, CANON, longest, 0, b"aag 0 0 0 0 0\n")
    yield "check, a byte more", partial(refusal_fault, CHECK, longest + b"\n", "4 TooLong")
    for count in (255, 257):
        text = b"aag 0 0 0 %d 0\n" % count + b"0\n" * count
        names = b"".join(b' "o%d"' % number for number in range(count))
        label = b"&".join(b"!%d" % number for number in range(count))
        wanted = one_state(count, names, range(count), [label])
        status, output, error = (0, wanted, b"") if count < 256 else (1, b"", b"omega: 55 TooLarge\n")
        yield f"automaton, {count} outputs", partial(fault_of, ["automaton"], text, status, output, error)
    names = b"".join(b' "i%d"' % number for number in range(1023)) + b' "o0"'
    wanted = one_state(1024, names, [1023], [b"!1022&!1023", b"1022&1023"])
    yield "automaton, 1023 inputs", partial(fault_of, ["automaton"], b"aig 1023 1023 0 1 0\n2046\n", 0, wanted)
    yield "automaton, 1024 inputs", partial(
        refusal_fault, ["automaton"], b"aig 1024 1024 0 1 0\n2046\n", "26 Proposition")


def one_state(count: int, names: bytes, own: Iterable[int], labels: list[bytes]) -> bytes:
    """The automaton of a circuit without latches."""
    listed = b"".join(b" %d" % number for number in own)
    edges = b"".join(b"[%s] 0\n" % label for label in labels)
    return (b"HOA: v1\nStates: 1\nStart: 0\nAP: %d%s\nacc-name: all\nAcceptance: 0 t\ncontrollable-AP:%s\n"
            b"--BODY--\nState: 0\n%s--END--\n") % (count, names, listed, edges)


def circuit_checks() -> Cases:
    yield from text_checks()
    yield from random_checks()
    yield from specified_checks()
    yield from formula_checks()
    yield from wide_checks()
    yield from limit_checks()
