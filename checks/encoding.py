"""What `realize --aiger` writes of specifications and formulas, against a plain judge. Of 500 random parity automata,
of known ones, and of 250 random formulas there is a circuit exactly where `realize` says `realizable`, and else the
line `unrealizable`. The circuit's inputs and outputs are the propositions of both sides in order, its words are right
round by round, `verify` says `yes` of it, and its text is its own canonical text; with `--binary` it is the same
circuit.

The profile is that of docs/formats.md: all latches begin with 0, and each input and each output has a symbol. Known are
arbiters, lifts and specifications that mention up to 12 of the environment's propositions at once, and the winners that
were found by hand for *synthesis*. A name that no symbol can have is refused where there is a circuit.
"""
import os
from functools import partial

from automata import Automaton, Refused, read_one
from circuit_checks import BINARY, CANON, YES, is_refused, told
from circuits import Circuit, Machine, are_canonical, canonical, read_circuit, text_of
from machines import is_kept
from product_checks import beside
from products import names_of
from program import ROOT, Cases, Fault, fault_of, run_of
from realizability import Parted, asked, is_realizable
from realizing import KNOWN, Asked, Requirements, listed
from specifications import WINNERS, Specifications, first_that_holds
from tableaux import all_words_satisfy

UNREALIZABLE = (6, b"unrealizable\n", b"")
AIGER, AS_BINARY = ["realize", "--aiger"], ["realize", "--aiger", "--binary"]


def example(name: str) -> bytes:
    """An example of the repository."""
    with open(os.path.join(ROOT, "examples", name), "rb") as file:
        return file.read()


def header(states: int, names: list[str], own: list[int], kind: str, acceptance: str) -> str:
    listed_names = "".join(f' "{name}"' for name in names)
    return (f"HOA: v1\nStates: {states}\nStart: 0\nAP: {len(names)}{listed_names}\n"
            f"controllable-AP:{''.join(f' {number}' for number in own)}\nacc-name: {kind}\nAcceptance: {acceptance}\n"
            "--BODY--\n")


def arbiter(clients: int) -> bytes:
    """Each client's request is granted at last, and never two at once: a state for the client whose turn it is, and a
    mark where it is granted or does not ask."""
    names = [f"r{at}" for at in range(clients)] + [f"g{at}" for at in range(clients)]
    text = header(clients, names, [*range(clients, 2 * clients)], "Buchi", "1 Inf(0)")
    alone = "&".join(f"!({clients + one} & {clients + other})" for one in range(clients) for other in range(one))
    for at in range(clients):
        rule = f"({clients + at} | !{at})" + (f" & {alone}" if alone else "")
        wrong = f"!({clients + at} | !{at})" + (f" & {alone}" if alone else "")
        text += f"State: {at}\n[{rule}] {(at + 1) % clients} {{0}}\n[{wrong}] {at}\n"
    return (text + "--END--\n").encode()


def delayed(rounds: int) -> bytes:
    """The system says what the environment said so many rounds before: a state for each number of digits."""
    count = 2 ** rounds
    text = header(count, ["in", "out"], [1], "all", "0 t")
    for state in range(count):
        said = "1" if state >> rounds - 1 & 1 else "!1"
        ways = [f"[{sign}0 & {said}] {(2 * state + bit) % count}" for bit, sign in enumerate(("!", ""))]
        text += "\n".join([f"State: {state}", *ways, ""])
    return (text + "--END--\n").encode()


def counting(bits: int) -> bytes:
    """The system says each time that the environment has asked so many times as a number of so many bits counts."""
    count = 2 ** bits
    text = header(count, ["up", "over"], [1], "all", "0 t")
    for state in range(count):
        last = "1" if state == count - 1 else "!1"
        text += f"State: {state}\n[!0 & !1] {state}\n[0 & {last}] {(state + 1) % count}\n"
    return (text + "--END--\n").encode()


def lift(floors: int) -> bytes:
    """A lift that is called to floors goes one floor in a round and comes where it is called: a state for where it is
    and where it has to go. It may not stand where it is not."""
    names = [f"call{at}" for at in range(floors)] + ["up", "move"]
    places = [(at, goal) for at in range(floors) for goal in range(floors)]
    text = header(len(places), names, [floors, floors + 1], "Buchi", "1 Inf(0)")
    for number, (at, goal) in enumerate(places):
        text += f"State: {number}\n"
        for called in range(floors + 1):
            asks = [f"!{floor}" for floor in range(min(called, floors))] + [str(called)] * (called < floors)
            after = called if at == goal and called < floors else goal
            for way, label in ((0, f"!{floors + 1}"), (1, f"{floors} & {floors + 1}"),
                               (-1, f"!{floors} & {floors + 1}")):
                if 0 <= at + way < floors:
                    mark = " {0}" if at + way == after else ""
                    text += f"[{' & '.join([*asks, label])}] {places.index((at + way, after))}{mark}\n"
    return (text + "--END--\n").encode()


# Specifications by their names.
SPECIFICATIONS: list[tuple[str, bytes]] = [
    *((f"the winner {number}", text) for number, (text, _, _, _) in enumerate(WINNERS)),
    ("arbiter.hoa", example("arbiter.hoa")), ("parity.hoa", example("parity.hoa")),
    *((f"an arbiter of {clients} clients", arbiter(clients)) for clients in (1, 2, 3, 4)),
    *((f"what was said {rounds} rounds before", delayed(rounds)) for rounds in (1, 3, 6)),
    *((f"a counter of {bits} bits", counting(bits)) for bits in (1, 4, 6)),
    *((f"a lift of {floors} floors", lift(floors)) for floors in (2, 3, 4)),
    *((f"the first of {inputs} inputs", first_that_holds(inputs, [0])) for inputs in (1, 5, 12)),
]
# Specifications with a name that no symbol can have, some of which are not realizable.
NO_SYMBOLS = [(text.replace(b'"r"', name), wins) for text, wins, _, _ in WINNERS for name in (b'""', b'"x\ny"')
              if b'"r"' in text]


def profile_fault(text: bytes, ins: list[bytes], outs: list[bytes]) -> Fault:
    """What is wrong with the text of a circuit with these inputs and outputs, as the program writes circuits; or
    nothing."""
    circuit = read_circuit(text)
    symbols = [("i", at, name) for at, name in enumerate(ins)] + [("o", at, name) for at, name in enumerate(outs)]
    if [tuple(symbol) for symbol in circuit.symbols] != symbols:
        return f"its symbols are {circuit.symbols} for {symbols}"
    if len(circuit.inputs) != len(ins) or len(circuit.outputs) != len(outs):
        return f"it has {len(circuit.inputs)} inputs and {len(circuit.outputs)} outputs"
    if any(latch.reset for latch in circuit.latches) or not are_canonical(circuit) or text_of(circuit) != text:
        return "it is not written as circuits are"
    return unneeded_fault(circuit)


def unneeded_fault(circuit: Circuit) -> Fault:
    """The gates that no output, latch or gate needs, that are made twice, or that join what is known; or nothing."""
    used = {operand // 2 for gate in circuit.gates for operand in gate[1:]} | {
        literal // 2 for literal in circuit.outputs} | {latch.next // 2 for latch in circuit.latches}
    first = {gate[1:]: gate for gate in circuit.gates[::-1]}
    unneeded = [gate for gate in circuit.gates if gate.literal // 2 not in used or first[gate[1:]] != gate
                or gate.right < 2 or gate.left // 2 == gate.right // 2]
    return f"{unneeded} are not needed" if unneeded else None


def forms_fault(words: list[str], text: bytes, written: bytes) -> Fault:
    """Whether the circuit that is written of a text is its own canonical text, and the same with `--binary`; or what is
    wrong."""
    binary = text_of(canonical(read_circuit(written)), True)
    return (fault_of(CANON, written, 0, written) or fault_of(BINARY, written, 0, binary)
            or fault_of([*AS_BINARY, *words], text, 0, binary))


def unwritten_fault(words: list[str], text: bytes, refused: Refused | None) -> Fault:
    """Whether nothing but this refusal, or else the line `unrealizable`, is written of a text; or what is wrong."""
    for ran in (run_of([*AIGER, *words], text), run_of([*AS_BINARY, *words], text)):
        if refused and not is_refused(ran, refused):
            return f"{told(ran)} for {refused}"
        if not refused and (ran.returncode, ran.stdout, ran.stderr) != UNREALIZABLE:
            return f"{told(ran)} where none is realizable"
    return None


def sides_of(asked_of: Parted, automaton: Automaton) -> tuple[list[bytes], list[bytes]]:
    """The names of the environment and of the system, in order."""
    names = names_of(automaton)
    return ([names[number] for number in sorted(asked_of.inputs)],
            [names[number] for number in sorted(asked_of.controlled)])


def encoded_fault(text: bytes, known: bool | None = None) -> Fault:
    """What is wrong with the circuit that is written of a specification, or nothing. It may be known whether there is
    one."""
    try:
        automaton = read_one(text)
        asked_of, kind = asked(automaton)
    except Refused as refused:
        return unwritten_fault([], text, refused)
    line = run_of(["realize"], text).stdout
    wins = line == b"realizable\n" if known is None else known
    if not wins:
        return unwritten_fault([], text, None)
    ran, (ins, outs) = run_of(AIGER, text), sides_of(asked_of, automaton)
    if ran.returncode or ran.stderr:
        return told(ran)
    fault = profile_fault(ran.stdout, ins, outs) or forms_fault([], text, ran.stdout)
    machine = Machine(read_circuit(ran.stdout))
    if not fault and not is_kept(machine.steps(), [machine.start], ins + outs, automaton):
        fault = "it does not realize the specification"
    if not fault:
        judged = beside(["verify", "--explain", "--specification"], text, ran.stdout)
        fault = None if (judged.returncode, judged.stdout, judged.stderr) == (*YES, b"") else told(judged)
    return fault and f"{fault}, of {ran.stdout!r}"


def agreed_fault(text: bytes) -> Fault:
    """The same of a specification of which a plain solver says whether there is a circuit."""
    try:
        known = is_realizable(*asked(read_one(text)))
    except Refused:
        known = None
    return encoded_fault(text, known)


def formula_fault(asked_of: Asked, is_by_ins: bool) -> Fault:
    """What is wrong with the circuit that is written of a formula whose names are parted by a list of the system's or
    of the environment's, or nothing."""
    side = ["--ins", listed(asked_of.ins)] if is_by_ins and asked_of.ins else ["--outs", listed(asked_of.outs)]
    words = [*asked_of.words()[:2], *side]
    if not asked_of.is_realizable:
        return unwritten_fault(words, b"", None)
    ran, outs = run_of([*AIGER, *words], b""), [name for name in asked_of.names if name in asked_of.outs]
    if ran.returncode or ran.stderr:
        return told(ran)
    fault = profile_fault(ran.stdout, asked_of.ins, outs) or forms_fault(words, b"", ran.stdout)
    machine = Machine(read_circuit(ran.stdout))
    if not fault and not all_words_satisfy(machine.steps(), [machine.start], asked_of.names, asked_of.tree):
        fault = "a word does not satisfy the formula"
    if not fault:
        judged = run_of(["verify", "--explain", *words], ran.stdout)
        fault = None if (judged.returncode, judged.stdout, judged.stderr) == (*YES, b"") else told(judged)
    return fault and f"{fault}, of {ran.stdout!r}"


def encoding_checks() -> Cases:
    for name, text in SPECIFICATIONS:
        yield f"the circuit of {name}", partial(encoded_fault, text)
    for text, wins in NO_SYMBOLS:
        yield f"no symbol, {text!r}", partial(unwritten_fault, [], text, Refused("78 Name") if wins else None)
    for name in ("", "x\ny"):
        words = ["-f", f'G("{name}" <-> s)', "--outs", "s"]
        yield f"no symbol for {name!r}", partial(unwritten_fault, words, b"", Refused("78 Name"))
    yield "13 propositions of the environment at once", partial(
        unwritten_fault, [], first_that_holds(13, [0]), Refused("42 TooManyPropositions"))
    maker = Specifications(2095)
    for number in range(500):
        text = maker.specification()
        yield f"the circuit of the automaton {number}, {text!r}", partial(agreed_fault, text)
    for formula, outs, wins in KNOWN:
        for is_by_ins in (False, True):
            asked_of = Asked(formula, outs, wins)
            yield f"the circuit of {asked_of}, by --ins: {is_by_ins}", partial(formula_fault, asked_of, is_by_ins)
    requirements = Requirements(2096)
    for number in range(250):
        asked_of = requirements.asked(number)
        yield f"the circuit of {asked_of}", partial(formula_fault, asked_of, number % 4 == 0)
