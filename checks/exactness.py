"""What `ltl --deterministic` writes of formulas, and what `equal -f` answers, against the evaluation of formulas on all
short lasso words, as for *ltl*. Of 600 random formulas the automaton is deterministic, accepts exactly the words that
satisfy the formula, and has the acceptance `parity min even`; `equal -f` says `yes` of it; with `--negated` the same is
written as of the negated formula's text, with its name. Of each an edge is dropped, led elsewhere or given another
mark: `no` is said if a short word tells the two apart, and after `no` each word that fits the line `word` does. So it
is with random automata and formulas; what is not deterministic where it has to be is refused 56.

Several formulas are answered as each alone. An automaton of another formula, and the automaton that `ltl` writes where
it is deterministic, are asked about too.
"""
import random
import re
from functools import partial

from automata import Automaton, read_one
from comparing_checks import is_refused
from formulas import canonical, names_of, read_formula, satisfies
from formulas import Formula
from ltl import (NO, YES, Systems, explained_fault, formula_words, read_written, satisfying, shapes_over, told,
                 word_among)
from products import accepts, is_deterministic, valuations
from products import names_of as propositions_of
from program import Cases, Fault, Ran, fault_of, run_of, shown
from short_words import ShortWords
from spoken import PLAIN, Speaking
from words import NoWord, admitted, read_word

EXCESS, MISSING = b"accepted by automaton\n", b"accepted by formula\n"
# An edge of an automaton with one mark on each edge: its label, its target and its mark.
EDGE = re.compile(rb"^(\[[^]]*\]) (\d+) \{(\d+)\}$", re.MULTILINE)
# A line `name:`, which may have line feeds between its quotes.
TITLE = re.compile(rb'^name: "(?:[^"\\]|\\.)*"', re.MULTILINE | re.DOTALL)


def parity_formula(sets: int) -> str:
    """`parity min even` as the Hanoi format has it (HOA v1, acc-name)."""
    parts = [f"{'Fin' if number % 2 else 'Inf'}({number})" for number in range(sets)]
    text = parts.pop()
    while parts:
        text = f"{parts[-1]}{'&' if parts[-1].startswith('Fin') else '|'}" + (f"({text})" if "|" in text and
                                                                            parts[-1].startswith("Fin") else text)
        parts.pop()
    return text


def first_apart(automaton: Automaton, tree: Formula) -> tuple[str, bool] | None:
    """A short word that an automaton accepts and that does not satisfy a formula, or the other way round, and whether
    it is accepted; or nothing."""
    names = tuple(dict.fromkeys(propositions_of(automaton) + names_of(tree)))
    accepting = ShortWords(automaton, list(names))
    found = None
    for stem, cycle in shapes_over(names):
        accepted, satisfied = accepting.accepted(stem, cycle), satisfying(tree, names, stem, cycle)[0]
        if accepted & ~satisfied:
            return word_among(names, stem, cycle, accepted & ~satisfied), True
        if satisfied & ~accepted and not found:
            found = word_among(names, stem, cycle, satisfied & ~accepted), False
    return found


def missing_fault(automaton: Automaton, tree: Formula, lines: bytes) -> Fault:
    """What is wrong with the line of a word that satisfies a formula and is not accepted, or nothing."""
    if not re.fullmatch(rb"word .*\n", lines, re.DOTALL):
        return f"{shown(lines)} is no line of a word"
    try:
        stem, cycle = read_word(lines)
    except NoWord as why:
        return f"{shown(lines)}: {why}"
    letters = valuations([*dict.fromkeys(propositions_of(automaton) + names_of(tree))])
    drawn = random.Random(lines)
    for choose in (lambda some: some[0], lambda some: some[-1], drawn.choice, drawn.choice):
        word = admitted(stem, letters, choose), admitted(cycle, letters, choose)
        if accepts(automaton, *word) or not satisfies(tree, *word):
            return f"{shown(lines)} admits {word}, which does not show it"
    return None


def equal_fault(text: bytes, formula: bytes, known: bool | None = None) -> Fault:
    """What is wrong with what `equal -f` says of an automaton and a formula, or nothing. What is known is true by
    construction."""
    automaton, tree = read_one(text), read_formula(formula)
    given = ["equal", "-f", formula.decode()]
    plain, explained = run_of(given, text), run_of([*given, "--explain"], text)
    apart = first_apart(automaton, tree)
    if is_refused(plain):
        wrong = is_deterministic(automaton) or known is not None or apart is not None and apart[1]
        return f"{told(plain)}, apart by {apart}" if wrong or plain.stderr != explained.stderr else None
    answer = (plain.returncode, plain.stdout)
    if plain.stderr or answer not in (YES, NO) or known is not None and answer != (YES if known else NO):
        return f"{told(plain)}, known: {known}"
    if explained.stderr or explained.returncode != answer[0] or not explained.stdout.startswith(answer[1]):
        return f"--explain: {told(explained)} for {answer}"
    why = explained.stdout.removeprefix(answer[1])
    if answer == YES:
        return f"it explains a yes: {shown(why)}" if why else apart and f"yes, and apart by {apart}"
    if why.startswith(EXCESS):
        return explained_fault(text, tree, why.removeprefix(EXCESS))
    if not why.startswith(MISSING) or apart and apart[1]:
        return f"{shown(why)}, apart by {apart}"
    return missing_fault(automaton, tree, why.removeprefix(MISSING))


def header_fault(automaton: Automaton, ran: Ran, tree: Formula) -> Fault:
    """What is wrong with the header of a deterministic automaton of a formula, or nothing."""
    sets = automaton.first(b"Acceptance:", (0, ("t",)))[0]
    listed = [b'"' + name + b'"' for name in names_of(tree)]
    line = f"\nacc-name: parity min even {sets}\nAcceptance: {sets} {parity_formula(sets)}\n".encode() if sets else b"-"
    is_right = (line in ran.stdout and automaton.said(b"AP:") == [(len(listed), listed)]
                and automaton.said(b"Start:") == [[0]] and not automaton.said(b"name:"))
    return None if is_right else f"its header is {shown(ran.stdout)}"


def deterministic_fault(text: bytes, tree: Formula) -> Fault:
    """What is wrong with the deterministic automaton that is written of a formula, or nothing."""
    ran = run_of(["ltl", "--deterministic", "-f", text.decode()], b"")
    automaton = read_written(ran)
    if isinstance(automaton, str):
        return automaton
    apart = first_apart(automaton, tree)
    if not is_deterministic(automaton) or apart:
        return f"deterministic: {is_deterministic(automaton)}, apart by {apart}: {shown(ran.stdout)}"
    return (header_fault(automaton, ran, tree) or equal_fault(ran.stdout, canonical(tree), True)
            or fault_of(["ltl", "--deterministic"], canonical(tree), 0, ran.stdout) or negation_fault(text, tree))


def negation_fault(text: bytes, tree: Formula) -> Fault:
    """What is wrong with the deterministic automaton that is written of the negation of a formula: it is that of the
    negation's text, with the name that `--negated` alone writes."""
    plain = run_of(["ltl", "--deterministic", "-f", canonical(("!", tree)).decode()], b"")
    titles = TITLE.findall(run_of(["ltl", "--negated"], text).stdout)
    named = plain.stdout.replace(b"HOA: v1\n", b"HOA: v1\n%s\n" % b"".join(titles[:1]), 1)
    ran = run_of(["ltl", "--negated", "--deterministic"], text)
    is_same = (ran.returncode, ran.stdout, ran.stderr) == (plain.returncode, named, plain.stderr)
    return None if is_same else f"of the negation {told(ran)}"


def changed(text: bytes, drawn: random.Random) -> bytes:
    """A deterministic automaton with an edge that is dropped, leads elsewhere or has another mark."""
    edges = list(EDGE.finditer(text))
    if not edges:
        return text
    edge = drawn.choice(edges)
    label, target, mark = edge.groups()
    others = [it.group(2) for it in edges if it.group(2) != target] or [target]
    sets = int(re.search(rb"Acceptance: (\d+)", text).group(1))  # type: ignore[union-attr]
    made = drawn.choice([b"", b"%s %s {%s}\n" % (label, drawn.choice(others), mark),
                         b"%s %s {%d}\n" % (label, target, drawn.randrange(sets))])
    return text[:edge.start()] + made + text[edge.end() + 1:]


def changed_fault(formula: bytes, seed: int) -> Fault:
    made = changed(run_of(["ltl", "--deterministic", "-f", formula.decode()], b"").stdout, random.Random(seed))
    return equal_fault(made, formula)


def written_fault(formula: bytes, other: bytes) -> Fault:
    """What is wrong with what `equal -f` says of the automaton that `ltl` writes of another formula, or nothing."""
    return equal_fault(run_of(["ltl", "-f", other.decode()], b"").stdout, formula)


def in_turn_fault(text: bytes, formulas: list[bytes]) -> Fault:
    """Whether `equal` answers several formulas as each alone, or what is wrong."""
    alone = [run_of(["equal", "--explain", *formula_words([formula])], text) for formula in formulas]
    if any(ran.stderr for ran in alone):
        first = next(ran for ran in alone if ran.stderr)
        return fault_of(["equal", "--explain", *formula_words(formulas)], text, 1, b"", first.stderr)
    return fault_of(["equal", "--explain", *formula_words(formulas)], text, max(ran.returncode for ran in alone),
                    b"".join(ran.stdout for ran in alone))


def exact_checks() -> Cases:
    speaking, systems = Speaking(2050), Systems(2051)
    for number in range(600):
        names = speaking.names(3 if number % 8 == 0 else 2)
        tree = speaking.tree(1 + number % 9 if number < 500 else 9 + number % 4, names)
        text = speaking.text(tree)
        yield f"the deterministic automaton of {text!r}", partial(deterministic_fault, text, tree)
        if number % 2 == 0:
            yield f"that of {canonical(tree)!r}, changed", partial(changed_fault, canonical(tree), number)
    for number in range(150):
        one, other = (systems.tree(1 + number % 5, PLAIN) for _ in range(2))
        yield f"{canonical(one)!r} for what `ltl` writes of {canonical(other)!r}", partial(
            written_fault, canonical(one), canonical(other))
        yield f"{canonical(one)!r} for what `ltl` writes of it", partial(written_fault, canonical(one), canonical(one))
    for number in range(250):
        text = systems.automaton()
        formulas = [systems.text(systems.tree(1 + number % 5, PLAIN)) for _ in range(2)]
        yield f"{formulas[0]!r} for {text!r}", partial(equal_fault, text, formulas[0])
        if number % 5 == 0:
            yield f"{formulas!r} for {text!r}", partial(in_turn_fault, text, formulas)
