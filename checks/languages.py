"""Automata through the library's calls for texts: 300 random pairs and 200 random specifications, against a judge of
words and a solver for each letter, and byte by byte against the program as a function. What is refused says which text
and where. What the package makes of automata is tried on texts that are worked out by hand.
"""
import ctypes
import re
from collections.abc import Callable
from functools import partial
from typing import Any

from automata import Refused, read_one
from comparing_checks import Narrowed
from containing import is_contained
from products import is_deterministic
from program import Cases, Fault, shown
from realizability import asked, is_realizable
from specifications import ARBITRATES, Specifications

# What a refusal says: its number, its text and its place.
Told = tuple[int, int | None, int | None]
# A refusal as the program writes it: of which text, if it says so, the number and the place.
REFUSED = re.compile(rb"omega: (?:(.*): )?(\d+) (\w+)(?: at (\d+))?\n")
HEADER = 'HOA: v1 States: %d Start: 0 AP: 1 "a" acc-name: %s Acceptance: %s --BODY-- %s --END--'
# The words with a again and again, those with a at last for ever, and all that begin with a.
OFTEN = HEADER % (1, "Buchi", "1 Inf(0)", "State: 0 [0] 0 {0} [!0] 0")
AT_LAST = HEADER % (1, "co-Buchi", "1 Fin(0)", "State: 0 [0] 0 [!0] 0 {0}")
# A specification whose acceptance is of no kind.
UNKIND = AT_LAST.replace("co-Buchi", "controllable-AP: acc-name: Buchi").replace("acc-name: ", "", 1)
FIRST = HEADER % (2, "all", "0 t", "State: 0 [0] 1 State: 1 [t] 1")
CHOICE = HEADER % (2, "all", "0 t", "State: 0 [0] 1 State: 1 [t] 1 [0] 0")
NAMED = (r'HOA: v1 name: "x AP: 0" States: 1 Start: 0 AP: 2 "b \"c\"" "d" acc-name: all Acceptance: 0 t '
         "--BODY-- State: 0 [1] 0 --END--")


def differs(came: object, wanted: object) -> Fault:
    return None if came == wanted else f"{came!r} for {wanted!r}"


def answer_of(omega: Any, call: str, texts: list[bytes], *more: Any) -> tuple[int, bytes]:
    """What a call gives: 0 and its text, or the number of its refusal and nothing."""
    try:
        return 0, omega.languages.given(call, texts, *more)
    except omega.Refusal as refusal:
        return refusal.number, b""


def told_by(omega: Any, words: list[str], text: bytes, file: bytes = b"") -> tuple[int, bytes]:
    """The same of a run of the program."""
    ran = omega.run(words, text, file)
    refused = REFUSED.fullmatch(ran.errors)
    return (int(refused[2]), b"") if refused else (0, ran.output)


def pair_fault(omega: Any, one: bytes, other: bytes) -> Fault:
    """What is wrong with the answers on two automata, or nothing."""
    verdict = ctypes.c_uint32()
    questions: list[tuple[str, list[bytes], list[Any], list[str]]] = [
        ("empty", [one], [1], ["empty", "--search", "--word"]),
        ("complement", [one], [], ["complement"]),
        ("meet", [one, other], [], ["meet", "--with", "f"]),
        ("contained", [one, other], [1, verdict], ["contained", "--explain", "--in", "f"]),
        ("equal", [one, other], [1, verdict], ["equal", "--explain", "--to", "f"]),
    ]
    for call, texts, more, words in questions:
        came, wanted = answer_of(omega, call, texts, *more), told_by(omega, words, one, other)
        if came != wanted:
            return f"{call}: {came[0]} {shown(came[1])} for {wanted[0]} {shown(wanted[1])}"
    first, second = omega.Automaton.parse(one), omega.Automaton.parse(other)
    if is_deterministic(read_one(other)):
        return differs(first.contained_in(second), is_contained(read_one(one), read_one(other)))
    return None


def specification_fault(omega: Any, text: bytes) -> Fault:
    """What is wrong with the answer on a specification, or nothing."""
    try:
        wanted = is_realizable(*asked(read_one(text)))
    except Refused as refused:
        return differs(answer_of(omega, "realize", [text], ctypes.c_uint32())[0], int(str(refused).split()[0]))
    found = omega.Automaton.parse(text).realize()
    if found.realizable != wanted:
        return f"{found.realizable} for {wanted}"
    written = told_by(omega, ["realize", "--controller"], text)[1]
    return differs(bytes(found.automaton), written) or (
        None if not wanted or omega.Automaton.parse(text).realized_by(found.automaton) else "its controller is refused")


def random_checks(omega: Any) -> Cases:
    maker, specifications = Narrowed(62), Specifications(62)
    for number in range(300):
        one, other = maker.pair()
        if number % 2:
            one, other = maker.automaton(number % 3 != 0), maker.automaton(number % 4 != 0)
        yield f"the pair {number}: {one!r} and {other!r}", partial(pair_fault, omega, one, other)
    for number in range(200):
        text = specifications.specification()
        yield f"the specification {number}: {text!r}", partial(specification_fault, omega, text)


def refusal_fault(omega: Any, call: Callable[[], object], wanted: Told) -> Fault:
    """What is wrong where a call has to be refused with this number, text and place, or nothing."""
    try:
        return f"{call()!r}, which is no refusal"
    except omega.Refusal as refusal:
        return differs((refusal.number, refusal.text, refusal.place), wanted)


def refusal_checks(omega: Any) -> Cases:
    given, verdict, broken = omega.languages.given, ctypes.c_uint32(7), b"HOA: v1 ;"
    branching = b"HOA: v1 States: 2 Start: 0&1 Acceptance: 0 t --BODY-- --END--"
    good, choice = OFTEN.encode(), CHOICE.encode()
    refusals: list[tuple[str, str, list[bytes], list[Any], Told]] = [
        ("one text", "complement", [broken], [], (1, 1, 8)),
        ("an empty text", "empty", [b""], [0], (3, 1, 0)),
        ("the first text", "meet", [broken, good], [], (1, 1, 8)),
        ("the second text", "meet", [good, broken], [], (1, 2, 8)),
        ("a fault of an automaton", "empty", [b"HOA: v2 --BODY-- --END--"], [0], (20, 1, None)),
        ("a choice", "complement", [choice], [], (56, 1, 1)),
        ("a choice of the second", "contained", [good, choice], [0, verdict], (56, 2, 1)),
        ("a choice of the first", "equal", [choice, good], [0, verdict], (56, 1, 1)),
        ("universal branching", "meet", [branching, good], [], (41, None, None)),
        ("no parity", "realize", [UNKIND.encode()], [verdict], (40, 1, None)),
        ("a formula", "formula", [b"a & & b"], [], (3, 1, 4)),
        ("a formula to translate", "ltl", [b"(a"], [0], (3, 1, 2)),
        ("a formula that is too deep", "formula", [b"!" * 256 + b"a"], [], (32, 1, None)),
        ("too many names", "ltl", [b"|".join(b"p%d" % at for at in range(65))], [0], (55, 1, None)),
        ("the automaton beside a formula", "satisfies", [broken, b"a"], [0, verdict], (1, 1, 8)),
        ("the formula beside an automaton", "satisfies", [good, b"a b"], [0, verdict], (3, 2, 2)),
        ("branching beside a formula", "satisfies", [branching, b"a"], [0, verdict], (41, None, None)),
    ]
    for label, call, texts, more, wanted in refusals:
        yield f"{call}: {label}", partial(refusal_fault, omega, partial(given, call, texts, *more), wanted)
    yield "a verdict that is refused is not written", differs(verdict.value, 7)


def place_checks(omega: Any) -> Cases:
    """A text stays in its place when a call is refused, and is taken back by the next and by `omega_free`."""
    library, text = omega.library.LIBRARY, omega.library.Text()
    library.omega_complement(FIRST.encode(), len(FIRST), text)
    kept = ctypes.string_at(text.bytes, text.length)
    library.omega_complement(CHOICE.encode(), len(CHOICE), text)
    yield "a text stays where the next call is refused", differs(ctypes.string_at(text.bytes, text.length), kept)
    library.omega_empty(OFTEN.encode(), len(OFTEN), 0, text)
    yield "the next text is in its place", differs(ctypes.string_at(text.bytes, text.length), b"stem\ncycle 0\n")
    for time in ("once", "twice"):
        library.omega_free(text)
        yield f"a text that is freed {time}", differs((text.length, text.held), (0, None))


def object_checks(omega: Any) -> Cases:
    """The answers of the package's automata, worked out by hand."""
    often, at_last, first, choice = (omega.Automaton.parse(it) for it in (OFTEN, AT_LAST, FIRST, CHOICE))
    yield "at last for ever is again and again", differs(at_last.contained_in(often), True)
    yield "again and again is not at last for ever", differs(often.contained_in(at_last), False)
    found = often.outside(at_last)
    yield "the reason is a lasso of the first", differs(often.accepts(found) and not at_last.empty(), True)
    yield "its letters are as many as its edges", differs(len(found.letters), len(found.stem) + len(found.cycle))
    yield "its drawing has an arrow for each", differs(found.draw().count(" -> "), len(found.letters))
    yield "it equals itself", differs(often.equivalent(~~often), True)
    yield "it equals no other", differs(often.equivalent(first), False)
    yield "no word is in it and in its complement", differs((often & ~often).empty(), True)
    yield "a choice has no complement", refusal_fault(omega, lambda: ~choice, (56, 1, 1))
    named = omega.Automaton.parse(NAMED)
    yield "names with marks in them", differs(named.propositions, ['b "c"', "d"])
    yield "the environment does as it likes", differs(bool(named.realize([])), False)
    yield "the system does as it has to", differs(bool(named.realize(["d"])), True)
    controller = named.realize(["d"]).automaton
    yield "a controller is one", differs(named.realized_by(controller), True)
    yield "a controller for another is none", differs(omega.Automaton.parse(ARBITRATES).realized_by(controller), False)
    yield "what is controlled, again", differs(named.controlling(["d"]).controlling([]), named.controlling([]))
    try:
        named.realize(["e"])
        yield "a name that there is not", "it is taken"
    except ValueError:
        yield "a name that there is not", None


def formula_fault(omega: Any, text: bytes) -> Fault:
    """What is wrong with the answers on a formula, byte by byte as the program gives them, or nothing."""
    verdict = ctypes.c_uint32()
    questions: list[tuple[str, list[bytes], list[Any], list[str], bytes]] = [
        ("ltl", [text], [0], ["ltl"], text),
        ("ltl", [text], [1], ["ltl", "--negated"], text),
        ("ltl_deterministic", [text], [], ["ltl", "--deterministic"], text),
        ("realize_formula", [text, b"a\0"], [0, verdict], ["realize", "--controller", "-f", text.decode(), "--outs", "a"], b""),
        ("realize_formula", [text, b"b\0a\0rest"], [1, verdict],
         ["realize", "--controller", "-f", text.decode(), "--ins", "b, a"], b""),
        ("satisfies", [OFTEN.encode(), text], [1, verdict], ["satisfies", "--explain", "-f", text.decode()],
         OFTEN.encode()),
    ]
    for call, texts, more, words, input in questions:
        came, wanted = answer_of(omega, call, texts, *more), told_by(omega, words, input)
        if came != wanted:
            return f"{call}: {came[0]} {shown(came[1])} for {wanted[0]} {shown(wanted[1])}"
    return None


def formula_checks(omega: Any) -> Cases:
    """Formulas of the package, by texts that are worked out by hand."""
    rule = omega.Formula("[](a=>X<>b)")
    yield "the canonical text", differs(str(rule), "G(a -> X F b)")
    yield "a formula is its canonical text", differs(rule == omega.Formula("G (a -> X(F b))"), True)
    yield "other texts are others", differs(rule == omega.Formula("G(X F b | !a)"), False)
    yield "a negation", differs(str(~rule), "!G(a -> X F b)")
    yield "a negation of two operands", differs(str(~omega.Formula("a U b")), "!(a U b)")
    yield "a conjunction and a disjunction", differs(str(rule & omega.Formula("c") | rule),
                                                     "(G(a -> X F b) & c) | G(a -> X F b)")
    yield "names in quotes", differs(omega.Formula('F"a b"').automaton().propositions, ["a b"])
    often, at_last = omega.Automaton.parse(OFTEN), omega.Automaton.parse(AT_LAST)
    yield "again and again", differs(often.satisfies("G F a"), True)
    yield "the same as a formula", differs(often.satisfies(omega.Formula("GFa")), True)
    yield "not at last for ever", differs(often.satisfies("F G a"), False)
    yield "nothing speaks against it", differs(at_last.violation("G F a"), None)
    found = often.violation("F G a")
    yield "the reason is a lasso of the automaton", differs(often.accepts(found), True)
    yield "its letters are as many as its edges", differs(len(found.letters), len(found.stem) + len(found.cycle))
    made = omega.Formula("F G a").automaton()
    yield "the automaton of a formula satisfies it", differs(made.satisfies("F G a") and not made.empty(), True)
    yield "and it is in another of it", differs(made.contained_in(often), True)
    negated = omega.Formula("F G a").automaton(negated=True)
    yield "that of the negation does not", differs(negated.satisfies("F G a"), False)
    yield "a deterministic automaton of a formula", differs(omega.Formula("G F a").deterministic().equivalent(often), True)
    yield from synthesis_checks(omega)
    for text in (b"a U b", b"G(a -> F b)", b"!(a W b) xor X a", b"(a", b"", b"a M (b R c)", b'F"x\\"y"'):
        yield f"the formula {text!r}", partial(formula_fault, omega, text)


def synthesis_checks(omega: Any) -> Cases:
    """Controllers and counter-strategies of formulas, worked out by hand: both clients of an arbiter are served at last,
    and cannot both be served at once."""
    arbiter = omega.Formula("G !(a & b) & G(r -> F a) & G(s -> F b)")
    found = arbiter.realize(outs=["a", "b"])
    yield "an arbiter serves two clients", differs(found.realizable, True)
    yield "its controller is one", differs(arbiter.realized_by(found.automaton, outs=["a", "b"]), True)
    yield "all but the inputs are outputs", differs(arbiter.realize(ins=["r", "s"]), found)
    yield "the names come in any order", differs(arbiter.realize(outs=["b", "a"]), found)
    yield "the clients can't serve themselves", differs(arbiter.realize(outs=["r", "s"]).realizable, False)
    hasty = omega.Formula("G !(a & b) & G(r -> a) & G(s -> b)")
    lost = hasty.realize(outs=["a", "b"])
    yield "an arbiter serves not both at once", differs(lost.realizable, False)
    yield "the reason is a counter-strategy", differs(hasty.refuted_by(lost.automaton, outs=["a", "b"]), True)
    yield "which is no controller", differs(hasty.realized_by(lost.automaton, outs=["a", "b"]), False)
    yield "a name that the formula lacks", refusal_fault(omega, lambda: arbiter.realize(outs=["c"]), (58, 1, None))
    for names in (["a,b"], [" a"], [""]):
        try:
            arbiter.realized_by(found.automaton, outs=names)
            yield f"the list {names}", "it is taken"
        except ValueError:
            yield f"the list {names}", None
    both_or_none: list[dict[str, list[str]]] = [{}, {"outs": ["a", "b"], "ins": ["r", "s"]}]
    for lists in both_or_none:
        try:
            arbiter.realize(**lists)
            yield f"{len(lists)} lists", "they are taken"
        except TypeError:
            yield f"{len(lists)} lists", None


def language_checks(omega: Any) -> Cases:
    yield from object_checks(omega)
    yield from formula_checks(omega)
    yield from refusal_checks(omega)
    yield from place_checks(omega)
    yield from random_checks(omega)
