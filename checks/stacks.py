"""How much stack a call of the library needs: a program in C makes each call in a thread with a small stack, on texts
whose labels and formulas are as deep as they may be."""
import os
import subprocess
import tempfile
from collections.abc import Iterator
from functools import partial

from games import text_of
from program import SECONDS, Cases, Fault
from search import loops

# How many KiB the header says that a call needs, whatever the text is; and a depth that labels and formulas may have.
KIBIBYTES, DEEPEST = 64, 250
# More propositions than the valuations of a label are tried for, one after another.
MANY = 16
# Loops of a ring on which Zielonka's algorithm gives up.
LOOPS = 5000
GAME = "".join(f"{v} {v % 7} {v % 2} {(v + 1) % 20000},{v};" for v in range(20000))
NAMES = " ".join(f'"p{p}"' for p in range(MANY))
AUTOMATON = (f"HOA: v1 States: 2 Start: 0 AP: {MANY} {NAMES} %sAcceptance: %s "
             "--BODY-- State: 0 [%s] 1 {0} State: 1 [t] 0 --END--")
CONTROL = "controllable-AP: 0 "
CALLS = ("empty", "complement", "meet", "contained", "equal", "realize", "realize_circuit")
# Calls for a circuit, and the words that judge it for a formula.
CIRCUIT_CALLS = (["circuit"], ["circuit_automaton"], ["run", "check", "--format", "aiger"],
                 ["run", "verify", "--explain", "-f", "G(i0 -> o0)", "--outs", "o0"])
# How many gates use one another in a row.
GATES = 100_000
RUNS = ("canon --format hoa", "check --format hoa", "show --format hoa", "draw --format hoa",
        "draw --format hoa --lasso", "empty --search --word", "empty --word", "complement", "meet --with f",
        "meet --trim --with f", "join --with f", "trim", "contained --in f", "contained --explain --in f",
        "equal --to f", "equal --explain --to f", "realize", "realize --controller", "realize --game", "realize --lift",
        "realize --aiger", "game", "verify --automaton f", "verify --specification f",
        "verify --specification f --explain", "accepts --word cycle{1}", "accepts --explain --word cycle{p0}",
        "accepts --some --explain --word cycle{p0}")


def nested(depth: int, left: str, right: str, innermost: str) -> str:
    """An expression inside as many others."""
    return left * depth + innermost + right * depth


def labels(depth: int) -> Iterator[tuple[str, str]]:
    """Labels that are about so deep. A parenthesis counts as one more."""
    yield "negations", nested(depth, "!", "", "0")
    yield "conjunctions", nested(depth // 2, "0 & (", ")", "1")
    yield "conjunctions on the left", nested(depth // 2, "(", ") & 0", "1")
    yield "conjunctions and disjunctions", nested(depth // 4, "0 & (1 | (", "))", "1")
    yield "a chain", " & ".join(["0"] * depth)
    yield "many propositions", " & ".join(f"({p % MANY} | !{(p + 1) % MANY})" for p in range(depth // 2))
    yield "many propositions inside one another", "".join(f"{p % MANY} | !(" for p in range(depth // 3)) + "0" + (
        ")" * (depth // 3))


def formulas(depth: int) -> Iterator[tuple[str, str]]:
    """Formulas of linear temporal logic that are as deep."""
    yield "negations", nested(depth - 1, "!", "", "p0")
    yield "X", nested(depth - 1, "X", "", "p0")
    yield "G", nested(depth - 1, "G", "", "p0")
    yield "conjunctions", nested(depth - 1, "p0&(", ")", "p1")
    yield "disjunctions on the left", nested(depth - 1, "(", ")|p0", "p1")
    yield "implications", nested(depth - 1, "p0->", "", "p1")


def texts(depth: int) -> Iterator[tuple[str, str]]:
    """Automata with such labels, and with such an acceptance."""
    buchi = "acc-name: Buchi " + CONTROL
    for name, label in labels(depth):
        yield name, AUTOMATON % (buchi, "1 Inf(0)", label)
    deep = nested(depth // 4, "Inf(0) & (Fin(0) | (", "))", "Inf(0)")
    yield "a deep acceptance", AUTOMATON % (CONTROL, f"1 {deep}", "0")


def chain() -> str:
    """A circuit with a chain of gates, each of which stands before the one that it uses."""
    gates = (f"{2 * at + 4} {2 * at + 2} 2\n" for at in reversed(range(GATES)))
    return f"aag {GATES + 1} 1 0 1 {GATES}\n2\n{2 * GATES + 2}\n{''.join(gates)}"


def ended(program: str, kibibytes: int, words: list[str], text: str) -> int | None:
    """The number with which a call ends on a text, or nothing if the stack is too small."""
    with tempfile.TemporaryDirectory() as folder:
        file = os.path.join(folder, "text")
        with open(file, "w", encoding="ascii") as out:
            out.write(text)
        made = [program, str(kibibytes), words[0], file, file, *words[1:]]
        ran = subprocess.run(made, capture_output=True, timeout=SECONDS)
    return int(ran.stdout) if ran.returncode == 0 else None


def least_stack(program: str, words: list[str], text: str) -> int:
    """The least stack, to 16 KiB, in which a call ends."""
    low, high = 0, 64
    while ended(program, high * 16, words, text) is None:
        low, high = high, high * 2
    while high - low > 1:
        middle = (low + high) // 2
        low, high = (low, middle) if middle and ended(program, middle * 16, words, text) is not None else (middle, high)
    return high * 16


def calls() -> Iterator[list[str]]:
    yield from ([call] for call in CALLS)
    yield from (["run", *words.split()] for words in RUNS)


def stack_fault(program: str, kibibytes: int, words: list[str], text: str) -> Fault:
    return f"it needs over {kibibytes} KiB" if ended(program, kibibytes, words, text) is None else None


def stack_checks(program: str) -> Cases:
    for name, text in texts(DEEPEST):
        for words in calls():
            label = f"{KIBIBYTES} KiB of stack for {' '.join(words)} on {name}, {DEEPEST} deep"
            yield label, partial(stack_fault, program, KIBIBYTES, words, text)
    for name, formula in formulas(DEEPEST):
        automaton = AUTOMATON % ("acc-name: Buchi ", "1 Inf(0)", "0")
        for words, text in ((["ltl"], formula), (["ltl", "--negated"], formula),
                            (["satisfies", "--explain", "-f", formula], automaton)):
            label = f"{KIBIBYTES} KiB of stack for {words[0]} on {name}, {DEEPEST} deep"
            yield label, partial(stack_fault, program, KIBIBYTES, ["run", *words], text)
    for words in CIRCUIT_CALLS:
        label = f"{KIBIBYTES} KiB of stack for {' '.join(words)} on a chain of {GATES} gates"
        yield label, partial(stack_fault, program, KIBIBYTES, words, chain())
    for command in ("solve --search", "solve --budget 100000", "canon --format pg", "check --format pg",
                    "show --format pg", "draw --format pg", "solve --search --by zielonka -v",
                    "solve --search --by tangles -v"):
        yield f"the stack of {command}", partial(stack_fault, program, KIBIBYTES, ["run", *command.split()], GAME)
    for command in ("solve --search -v", "solve --search --by tangles"):
        yield f"the stack of {command} on a ring of {LOOPS} loops", partial(
            stack_fault, program, KIBIBYTES, ["run", *command.split()], text_of(loops(LOOPS, back=True)).decode())
