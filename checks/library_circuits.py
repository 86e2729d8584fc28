"""Circuits through the library's calls: 200 random circuits, 100 of them beside specifications and formulas, and 150
specifications and formulas of which circuits are made, byte by byte against the program as a function. What is refused
says which text and where, and leaves the verdict. What the package makes of circuits is tried on texts that are worked
out by hand.
"""
import ctypes
from functools import partial
from typing import Any

from circuit_checks import BINARY, CANON
from circuits import text_of
from encoding import NO_SYMBOLS
from languages import CHOICE, differs, refusal_fault, told_by
from program import Cases, Fault, shown
from random_circuits import Circuits, Specified
from realizing import Requirements
from specifications import ARBITER, Specifications

# A call, its texts, what else it takes before the verdict, and the words of the same command with its file.
Question = tuple[str, list[bytes], list[int], list[str], bytes, bytes]
# Each round's input is its output.
WIRE = b"aag 1 1 0 1 0\n2\n2\ni0 r\no0 g\n"
# Two clients are served in turn.
TURNS = b"aag 3 2 1 2 0\n2\n4\n6 7\n7\n6\ni0 ask0\ni1 ask1\no0 grant0\no1 grant1\n"
# What is asked for is given in the same round, where the system controls the numbers that stand behind the item.
GRANTS = ('HOA: v1 States: 1 Start: 0 AP: 2 "r" "g" %s acc-name: all Acceptance: 0 t '
          "--BODY-- State: 0 [!0 | 1] 0 --END--")
SEVEN = 7


def decided_by(omega: Any, call: str, texts: list[bytes], more: list[int]) -> tuple[int, int, bytes]:
    """What a call with a verdict gives: 0, the verdict and the text; or the number of its refusal, with the verdict
    that was there before."""
    verdict = ctypes.c_uint32(SEVEN)
    try:
        text = omega.languages.given(call, texts, *more, verdict)
        return 0, verdict.value, text
    except omega.Refusal as refusal:
        return refusal.number, verdict.value, b""


def ran_by(omega: Any, words: list[str], text: bytes, file: bytes) -> tuple[int, int, bytes]:
    """The same of a run of the program, whose status is the verdict."""
    number, output = told_by(omega, words, text, file)
    return number, SEVEN if number else int(omega.run(words, text, file).status == 0), output


def text_fault(omega: Any, text: bytes) -> Fault:
    """What is wrong with the texts that are given of a circuit, or nothing."""
    calls: list[tuple[str, list[int], list[str]]] = [
        ("circuit", [0], CANON), ("circuit", [1], BINARY), ("circuit_automaton", [], ["automaton"])]
    for call, more, words in calls:
        wanted = told_by(omega, words, text)
        try:
            came = 0, omega.languages.given(call, [text], *more)
        except omega.Refusal as refusal:
            came = refusal.number, b""
        if came != wanted:
            return f"{call} {more}: {came[0]} {shown(came[1])} for {wanted[0]} {shown(wanted[1])}"
    return None


def decision_fault(omega: Any, questions: list[Question]) -> Fault:
    """What is wrong with the answers to these questions, or nothing."""
    for call, texts, more, words, text, file in questions:
        came, wanted = decided_by(omega, call, texts, more), ran_by(omega, words, text, file)
        if came != wanted:
            return f"{call} {more}: {came[:2]} {shown(came[2])} for {wanted[:2]} {shown(wanted[2])}"
    return None


def verified_fault(omega: Any, text: bytes, specification: bytes) -> Fault:
    """What is wrong with how a circuit is judged for a specification, or nothing."""
    words = ["verify", "--specification", "f"]
    return decision_fault(omega, [
        ("verify_circuit", [text, specification], [0], words, text, specification),
        ("verify_circuit", [text, specification], [1], [*words, "--explain"], text, specification)])


def formula_fault(omega: Any, text: bytes, formula: bytes, outs: list[bytes], ins: list[bytes]) -> Fault:
    """What is wrong with how a circuit is judged for a formula, with either list of its names, or nothing."""
    questions: list[Question] = []
    for inputs, option, names in ((0, "--outs", outs), (1, "--ins", ins)):
        words = ["verify", "-f", formula.decode(), option, b",".join(names).decode()]
        texts = [text, formula, ended(names)]
        questions += [("verify_formula_circuit", texts, [inputs, 0], words, text, b""),
                      ("verify_formula_circuit", texts, [inputs, 1], [*words, "--explain"], text, b"")]
    return decision_fault(omega, questions)


def realized_fault(omega: Any, text: bytes) -> Fault:
    """What is wrong with the circuits of a specification, or nothing."""
    words = ["realize", "--aiger"]
    return decision_fault(omega, [("realize_circuit", [text], [0], words, text, b""),
                                  ("realize_circuit", [text], [1], [*words, "--binary"], text, b"")])


def realized_formula_fault(omega: Any, formula: bytes, outs: list[bytes], ins: list[bytes]) -> Fault:
    """What is wrong with the circuits of a formula, with either list of its names, or nothing."""
    questions: list[Question] = []
    for inputs, option, names in ((0, "--outs", outs), (1, "--ins", ins)):
        words = ["realize", "--aiger", "-f", formula.decode(), option, b",".join(names).decode()]
        texts = [formula, ended(names)]
        questions += [("realize_formula_circuit", texts, [inputs, 0], words, b"", b""),
                      ("realize_formula_circuit", texts, [inputs, 1], [*words, "--binary"], b"", b"")]
    return decision_fault(omega, questions)


def ended(names: list[bytes]) -> bytes:
    """A list of names as the library reads it."""
    return b"".join(name + b"\0" for name in names)


def random_checks(omega: Any) -> Cases:
    maker, specifications, requirements = Circuits(3091), Specifications(3092), Requirements(3093)
    makes = Specified(maker.random)
    for number in range(200):
        circuit = maker.small()
        text = maker.ascii(circuit) if number % 2 else maker.binary(circuit)
        yield f"the circuit {number}: {text!r}", partial(text_fault, omega, text)
        if number % 4 == 0:
            specification = specifications.specification()
            yield f"the circuit {number} for {specification!r}", partial(verified_fault, omega, text, specification)
    for number in range(50):
        circuit = maker.named(maker.circuit(maker.some(0, 2), maker.some(0, 3), maker.some(0, 2), maker.some(0, 8)),
                              maker.random.sample([b"a", b"b c", b"F", b"g"], 4))
        specification, text = makes.specification(circuit), maker.ascii(maker.mutated(circuit))
        yield f"the circuit {number}, altered, for {specification!r}", partial(
            verified_fault, omega, text, specification)
        yield f"circuits of {specification!r}", partial(realized_fault, omega, specification)
    for number in range(50):
        asked = requirements.asked(number)
        circuit = maker.named(maker.circuit(len(asked.ins), maker.some(0, 2), len(asked.outs), maker.some(0, 6)),
                              asked.ins + asked.outs)
        yield f"the circuit {number} for {asked}", partial(
            formula_fault, omega, text_of(circuit), asked.text, asked.outs, asked.ins)
        yield f"circuits of {asked}", partial(realized_formula_fault, omega, asked.text, asked.outs, asked.ins)
        specification = specifications.specification()
        yield f"circuits of {specification!r}", partial(realized_fault, omega, specification)


def refusal_checks(omega: Any) -> Cases:
    """Refusals found by hand, with the text that each is about and its place."""
    given, verdict = omega.languages.given, ctypes.c_uint32(SEVEN)
    broken, misspelt = b"aag 1 1 0 1 0\n02\n2\n", b"HOA: v1 ;"
    grants, sides = (GRANTS % item for item in ("controllable-AP: 1", "controllable-AP: 0"))
    no_symbol = next(text for text, wins in NO_SYMBOLS if wins)
    rule = b"G(r -> g)"
    refusals: list[tuple[str, str, list[bytes], list[Any], tuple[int, int | None, int | None]]] = [
        ("a number", "circuit", [broken], [0], (2, 1, 14)),
        ("a cycle", "circuit", [b"aag 3 1 0 1 2\n2\n4\n4 6 2\n6 4 2\n"], [1], (74, 1, None)),
        ("an automaton", "circuit", [grants.encode()], [0], (3, 1, 0)),
        ("two inputs of one name", "circuit_automaton", [b"aag 2 2 0 0 0\n2\n4\ni0 a\ni1 a\n"], [], (26, 1, None)),
        ("a mark in a name", "circuit_automaton", [b'aag 1 1 0 0 0\n2\ni0 a"\n'], [], (78, 1, None)),
        ("the circuit beside a specification", "verify_circuit", [broken, grants.encode()], [0, verdict], (2, 1, 14)),
        ("the specification beside a circuit", "verify_circuit", [WIRE, misspelt], [0, verdict], (1, 2, 8)),
        ("the specification before the circuit", "verify_circuit", [broken, misspelt], [1, verdict], (1, 2, 8)),
        ("a choice of the specification", "verify_circuit", [WIRE, CHOICE.encode()], [0, verdict], (56, 2, 1)),
        ("an input that the system controls", "verify_circuit", [WIRE, sides.encode()], [0, verdict], (58, 1, None)),
        ("the circuit beside a formula", "verify_formula_circuit", [broken, rule, b"g\0"], [0, 0, verdict], (2, 1, 14)),
        ("the formula beside a circuit", "verify_formula_circuit", [WIRE, b"a b", b"g\0"], [0, 0, verdict], (3, 2, 2)),
        ("a name that the formula lacks", "verify_formula_circuit", [WIRE, rule, b"h\0"], [0, 1, verdict],
         (58, 2, None)),
        ("an input for an output", "verify_formula_circuit", [WIRE, rule, b"r\0"], [0, 0, verdict], (58, 1, None)),
        ("an output for an input", "verify_formula_circuit", [WIRE, rule, b"g\0"], [1, 0, verdict], (58, 1, None)),
        ("no item", "realize_circuit", [(GRANTS % "").encode()], [0, verdict], (58, 1, None)),
        ("a specification", "realize_circuit", [misspelt], [1, verdict], (1, 1, 8)),
        ("a name without symbol", "realize_circuit", [no_symbol], [0, verdict], (78, 1, None)),
        ("a formula", "realize_formula_circuit", [b"(a", b"a\0"], [0, 0, verdict], (3, 1, 2)),
        ("an empty name", "realize_formula_circuit", [b'G("" <-> s)', b"s\0"], [0, 0, verdict], (78, 1, None)),
        ("a name that there is not", "realize_formula_circuit", [rule, b"h\0"], [0, 1, verdict], (58, 1, None)),
    ]
    for label, call, texts, more, wanted in refusals:
        yield f"{call}: {label}", partial(refusal_fault, omega, partial(given, call, texts, *more), wanted)
    yield "a verdict on a circuit that is refused is not written", differs(verdict.value, SEVEN)


def object_checks(omega: Any) -> Cases:
    """The answers of the package's circuits, worked out by hand."""
    wire, turns = omega.Circuit.parse(WIRE), omega.Circuit.parse(TURNS)
    yield "the parts of a circuit", differs(repr(turns), "<circuit of 2 inputs, 1 latches, 2 outputs and 0 gates>")
    yield "names of inputs", differs(turns.inputs, ["ask0", "ask1"])
    yield "names of outputs", differs(turns.outputs, ["grant0", "grant1"])
    unnamed = omega.Circuit.parse(b"aag 2 2 0 2 0\n2\n4\n2\n5\ni1 o0\no1 i0\nc\ni0 x\n")
    yield "names without symbols", differs((unnamed.inputs, unnamed.outputs), (["i0", "o0"], ["o0", "i0"]))
    yield "both forms", differs((turns.aag(), turns.aig()[:14]), (TURNS, b"aig 3 2 1 2 0\n"))
    yield "the same circuit of either form", differs(omega.Circuit.parse(turns.aig()), turns)
    yield "a circuit is no other", differs(wire == turns, False)
    yield "the names of its automaton", differs(turns.automaton().propositions, turns.inputs + turns.outputs)
    right = omega.Judgement(True, None)
    yield "what is asked for is given", differs(wire.judge("G(r -> g)", outs=["g"]), right)
    yield "so it is by the inputs", differs(wire.judge("G(r -> g)", ins=["r"]), right)
    judged = wire.judge(omega.Formula("G F g"), outs=["g"])
    yield "not again and again", differs((bool(judged), judged.realizes), (False, False))
    found = judged.violation
    yield "what is not asked for is not given", differs(wire.automaton().accepts(found), True)
    yield "its letters", differs(found.letters, ["!r & !g"] * len(found.letters))
    grants = omega.Automaton.parse(GRANTS % "controllable-AP: 1")
    yield "a specification", differs((wire.judge(grants), grants.realized_by(wire)), (right, True))
    never = omega.Formula("G !g").deterministic().controlling(["g"])
    yield "another specification", differs((bool(wire.judge(never)), never.realized_by(wire)), (False, False))
    lost = wire.judge(never).violation
    yield "a word against it", differs(wire.automaton().accepts(lost), True)
    yield "in which something is given", differs("r & g" in lost.letters, True)
    yield "free outputs may be anything", differs(bool(turns.judge("G g", outs=["g"])), False)
    for words, lists in (("no lists", {}), ("two lists", {"outs": ["g"], "ins": ["r"]})):
        yield f"a formula with {words}", type_fault(lambda: wire.judge("G(r -> g)", **lists))
    yield "a specification with a list", type_fault(lambda: wire.judge(grants, outs=["g"]))
    yield "a string in place of a list", type_fault(lambda: wire.judge("G(r -> g)", outs="g"))
    yield from realizing_checks(omega)


def type_fault(call: Any) -> Fault:
    """What comes of a call that has to raise a TypeError, if it does not; or nothing."""
    try:
        return f"{call()!r}, which is no TypeError"
    except TypeError:
        return None


def realizing_checks(omega: Any) -> Cases:
    """Circuits that the package makes."""
    grants = omega.Automaton.parse(GRANTS % "")
    made = grants.realize(["g"]).circuit()
    yield "a circuit of a specification", differs((made.inputs, made.outputs), (["r"], ["g"]))
    yield "it realizes it", differs(grants.controlling(["g"]).realized_by(made), True)
    yield "there is none where nothing is controlled", differs(grants.realize([]).circuit(), None)
    arbiter = omega.Formula("G !(a & b) & G(r -> F a) & G(s -> F b)")
    served = arbiter.realize(outs=["a", "b"]).circuit()
    yield "a circuit of a formula", differs((served.inputs, served.outputs), (["r", "s"], ["a", "b"]))
    yield "it satisfies it", differs(bool(served.judge(arbiter, outs=["a", "b"])), True)
    yield "and is a controller for it", differs(arbiter.realized_by(served, outs=["a", "b"]), True)
    yield "all but the inputs are outputs", differs(arbiter.realize(ins=["r", "s"]).circuit(), served)
    hasty = omega.Formula("G !(a & b) & G(r -> a) & G(s -> b)")
    yield "there is none of what no system does", differs(hasty.realize(outs=["a", "b"]).circuit(), None)
    yield "nor is that of another one", differs(bool(served.judge(hasty, outs=["a", "b"])), False)
    wanted = omega.Automaton.parse(ARBITER).realize().circuit()
    yield "a circuit where the item says who controls what", differs(
        omega.Automaton.parse(ARBITER).realized_by(wanted), True)


def circuit_call_checks(omega: Any) -> Cases:
    yield from object_checks(omega)
    yield from refusal_checks(omega)
    yield from random_checks(omega)
