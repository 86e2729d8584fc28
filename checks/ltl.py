"""What `ltl` writes of formulas, and what `satisfies` answers, against a slow reader of formulas and their evaluation
on all short lasso words: with stems and cycles of up to two letters over two names, and shorter ones over three. Of 400
random formulas, in many spellings, the automaton is read back, and accepts exactly the words that satisfy the formula;
with `--negated`, exactly the others. Its name is the canonical text, of which the same automaton is written.

The formulas have all operators, constants, and names in quotes. 21 texts are cut short at every byte, and have bytes
replaced: each is read, or refused by its refusal at its place. 400 random automata of every acceptance, most of them
with choices, are asked whether their words satisfy a random formula: `yes` is said only if no short word shows
otherwise. Of `no` the lasso is an accepting one of the automaton's own edges, which `verify --automaton` confirms, and
each word that fits the line `word` goes along it, is accepted, and does not satisfy the formula. Several formulas,
also 400, are answered as each alone, and the first that is refused is told; `-v` tells the names that an automaton does
not have. Formulas stand at both sides of their limits; a million parentheses are read, and the program does with
128 KiB of stack on formulas 250 deep. Where `spin` is installed, its never claims accept the same words.
"""
import functools
import random
import re
import resource
import shutil
import subprocess
from collections.abc import Iterator, Sequence
from functools import partial

from automata import Automaton, Refused, Tree, bare, canonical as canonical_automaton, read_one
from causes import line_at, place_of
from comparing_checks import DEEP as DEEPEST
from emptiness import branches, buchi_formula, has_accepting_lasso, lasso_fault, moves_of, read_lasso
from emptiness_checks import FORMULAS, Emptied, fruitless, wide
from formulas import MOST_TEXT, Formula, all_words, canonical, letters_of_word, names_of, operands, read_formula
from formulas import satisfies, shapes
from never_claims import claim_of
from product_checks import LANGUAGES, NO_STARTS, NO_STATES, SETLESS, Paired, beside
from products import accepts, can_be_taken, valuations
from products import names_of as propositions_of
from program import OMEGA, SECONDS, Cases, Fault, Ran, fault_of, refusal_fault, run_of, shown
from short_words import ShortWords
from spoken import PLAIN, Speaking
from words import NoWord, admitted, read_word

# Texts with each token, near tokens and far from them, and what is no formula.
TEXTS = [b"p U q U r", b"a & b | c & d", b"a|b^c&&d", b"!a V b", b"GFp && [] <> q", b"~(a => b)", b'"F" U "x y"',
         b"a M b W c", b"G((((p)))->F(q))", b"XXFp&aFb", b"F0a W Gx1", b"FALSE | True", b"()a/\\b\\/c", b"a<=>b<->c",
         b"a xor b xor c", b'"a\\"b" R ""', b"1U(0Mtrue)", b"(a", b"a & & b", b"G[2] a", b"U_1 | V1"]
# An end of strings, white space, signs, digits, letters that are operators and others, and one that is no ASCII.
BYTES = [0, 10, 32, 33, 34, 38, 40, 41, 45, 48, 62, 70, 85, 92, 97, 255]
# How deep a formula may be, and a stack that is enough whatever its depth. The start of the program takes a part of it.
DEEP, STACK = 250, 128 * 1024
# Of formulas on the command line, whose length the machine limits.
MOST_GIVEN = 20_000
YES, NO = (0, b"yes\n"), (6, b"no\n")


def told(ran: Ran) -> str:
    return f"status {ran.returncode}: {shown(ran.stdout)} {shown(ran.stderr)}"


@functools.cache
def satisfying(tree: Formula, names: tuple[bytes, ...], stem: int, cycle: int) -> tuple[int, int]:
    """The words of a shape that satisfy a formula, and all of the shape."""
    words = known_words(names, stem, cycle)
    return words.true_at(tree)[0], words.every


known_words = functools.cache(lambda names, stem, cycle: all_words(list(names), stem, cycle))


def shapes_over(names: tuple[bytes, ...]) -> Iterator[tuple[int, int]]:
    """The lengths of the stems and cycles that are tried over so many names."""
    return shapes(2 if len(names) < 3 else 1, 2 if len(names) < 3 else 1)


def word_among(names: tuple[bytes, ...], stem: int, cycle: int, words: int) -> str:
    """One of some words of a shape, for a message."""
    letters = letters_of_word(list(names), stem + cycle, words.bit_length() - 1)
    return f"{letters[:stem]}, again and again {letters[stem:]}"


# ---- automata of formulas


def string_of(text: bytes) -> bytes:
    """A text as a string of the Hanoi format."""
    return b'"' + re.sub(rb'(["\\])', rb"\\\1", text) + b'"'


def read_written(ran: Ran) -> Automaton | str:
    """The automaton that a run wrote, or what is wrong."""
    if ran.returncode or ran.stderr:
        return told(ran)
    try:
        automaton = read_one(ran.stdout)
    except Refused as refused:
        return f"what is written is refused {refused}: {shown(ran.stdout)}"
    return automaton if canonical_automaton(automaton) == ran.stdout else f"it is not canonical: {shown(ran.stdout)}"


def header_fault(automaton: Automaton, tree: Formula) -> Fault:
    """What is wrong with the header of the automaton of a formula, or nothing."""
    sets, formula = automaton.first(b"Acceptance:", (0, ("t",)))
    names = {0: [b"all"], 1: [b"Buchi"]}.get(sets, [b"generalized-Buchi", b"%d" % sets])
    wanted: Tree = buchi_formula(sets) if sets else ("t",)
    listed = [b'"' + name + b'"' for name in names_of(tree)]
    states = automaton.first(b"States:", 0)
    is_right = (automaton.said(b"name:") == [[string_of(canonical(tree))]] and bare(formula) == wanted
                and automaton.said(b"acc-name:") == [names] and automaton.said(b"AP:") == [(len(listed), listed)]
                and automaton.said(b"Start:") == [[0]] and not branches(automaton)
                and [(state.number, state.name) for state in automaton.states] == [(at, None) for at in range(states)])
    return None if is_right else f"its header is {automaton.items}"


def automaton_fault(ran: Ran, tree: Formula, names: tuple[bytes, ...]) -> Fault:
    """What is wrong with the automaton that a run wrote of a formula, or nothing."""
    automaton = read_written(ran)
    if isinstance(automaton, str):
        return automaton
    fault, accepting = header_fault(automaton, tree), ShortWords(automaton, list(names))
    for stem, cycle in shapes_over(names):
        wrong = accepting.accepted(stem, cycle) ^ satisfying(tree, names, stem, cycle)[0]
        if wrong and not fault:
            fault = f"it is wrong about the word {word_among(names, stem, cycle, wrong)}"
    return fault and f"{fault}, {shown(ran.stdout)}"


def formula_fault(text: bytes, tree: Formula, names: tuple[bytes, ...]) -> Fault:
    """What is wrong with the automata that are written of a formula and of its negation, or nothing."""
    written = canonical(tree)
    if read_formula(text) != tree or read_formula(written) != tree:
        return "the slow reader reads something else"
    ran = run_of(["ltl", "-f", text.decode()], b"")
    return (automaton_fault(ran, tree, names) or fault_of(["ltl"], written, 0, ran.stdout)
            or automaton_fault(run_of(["ltl", "--negated"], text), ("!", tree), names))


def formula_checks() -> Cases:
    speaking = Speaking(2040)
    for number in range(400):
        names = speaking.names(3 if number % 8 == 0 else 2)
        tree = speaking.tree(1 + number % 10 if number < 300 else 10 + number % 4, names)
        text = speaking.text(tree)
        yield f"the formula {text!r}", partial(formula_fault, text, tree, tuple(names))


# ---- texts


def text_fault(text: bytes) -> Fault:
    """Whether a text is read as the formula that a slow reader reads, or refused where that refuses it, or what is
    wrong."""
    try:
        tree = read_formula(text)
    except Refused as refused:
        place = place_of(refused)
        line = "" if place is None else line_at(text, place)
        return fault_of(["ltl", "-v"], text, 1, b"", f"omega: {refused}\n{line}".encode())
    ran = run_of(["ltl", "-v"], text)
    wanted = b"HOA: v1\nname: " + string_of(canonical(tree)) + b"\nStates: "
    return None if ran.returncode == 0 and not ran.stderr and ran.stdout.startswith(wanted) else told(ran)


def in_formula_fault(text: bytes) -> Fault:
    """The same of a text that `satisfies` is given, with an automaton that is none."""
    try:
        read_formula(text)
        lines = b"omega: 3 Syntax at 0\nomega: in the automaton\n" + line_at(b"x", 0).encode()
    except Refused as refused:
        place = place_of(refused)
        line = "" if place is None else line_at(text, place)
        lines = f"omega: {refused}\nomega: in the formula\n{line}".encode()
    return fault_of(["satisfies", "-v", "-f", text.decode()], b"x", 1, b"", lines)


def is_given(text: bytes) -> bool:
    """Whether a text can be a word of a command line behind an option."""
    try:
        return b"\0" not in text and not text.decode().startswith("-")
    except UnicodeDecodeError:
        return False


def text_checks() -> Cases:
    drawn = random.Random(2041)
    for text in TEXTS:
        for place in range(len(text) + 1):
            others = [bytes([byte]) for byte in drawn.sample(BYTES, 7)]
            made = [text[:place], *(text[:place] + other + text[place + 1:] for other in [b"", *others])]
            for one in dict.fromkeys(made):
                yield f"the text {one!r}", partial(text_fault, one)
            if is_given(made[-1]):
                yield f"satisfies, the text {made[-1]!r}", partial(in_formula_fault, made[-1])


def balanced(leaves: int, leaf: str, operator: str) -> str:
    """So many leaves joined by an operator, as little deep as can be."""
    if leaves == 1:
        return leaf
    half = leaves // 2
    return f"({balanced(half, leaf, operator)}){operator}({balanced(leaves - half, leaf, operator)})"


def limit_texts() -> Iterator[tuple[str, str, str | None]]:
    """Texts at both sides of the limits, with the refusal of those that are past one."""
    for depth in (256, 257):
        refusal = "32 TooDeep" if depth > 256 else None
        yield f"{depth} deep by negations", "!" * (depth - 1) + "a", refusal
        yield f"{depth} deep by conjunctions", "a & (" * (depth - 2) + "a & b" + ")" * (depth - 2), refusal
        yield f"{depth} deep to the right", "a -> " * (depth - 1) + "b", refusal
        yield f"{depth} deep to the left", "a" + " & a" * (depth - 1), refusal
        yield f"{depth} deep by X, in parentheses", "X(" * (depth - 1) + "a" + ")" * (depth - 1), refusal
    for size in (4096, 4097):
        refusal = "55 TooLarge" if size > 4096 else None
        yield f"{size} operators and names", "!" * (size - 4095) + f"({balanced(2048, 'a', '&')})", refusal
    for count in (64, 65):
        names = " & ".join(f"n{number}" for number in range(count))
        yield f"{count} names", names, "55 TooLarge" if count > 64 else None
    for count in (64, 65):
        promises = "|".join([*(f"F n{number}" for number in range(64)), *["F X n0"] * (count - 64)])
        yield f"{count} promises", promises, "55 TooLarge" if count > 64 else None
    # What is too deep and too large at once is too deep.
    yield "65 names, 257 deep", " & ".join(f"n{number}" for number in range(257)), "32 TooDeep"
    yield "a million parentheses", "(" * 1_000_000 + "a" + ")" * 1_000_000, None
    yield "a million that open", "(" * 1_000_000, "3 Syntax at 1000000"
    yield "a million that open, and one that closes", "(" * 1_000_000 + "a)", "3 Syntax at 1000002"
    yield "a million negations", "!" * 1_000_000 + "a", "32 TooDeep"
    yield "a million operators", "a U " * 1_000_000 + "a", "32 TooDeep"
    yield "the longest text", " " * (MOST_TEXT - 1) + "a", None
    yield "a byte more", " " * MOST_TEXT + "a", "4 TooLong"


def negated_limit_texts() -> Iterator[tuple[str, str, str | None]]:
    """Formulas at both sides of the limits of their negations, with the refusal of those that are past one."""
    for depth in (255, 256):
        refusal = "32 TooDeep" if depth > 255 else None
        yield f"negation of {depth} deep", "!" * (depth - 1) + "a", refusal
    for size in (4095, 4096):
        refusal = "55 TooLarge" if size > 4095 else None
        yield f"negation of {size} operators and names", "!" * (size - 4095) + f"({balanced(2048, 'a', '&')})", refusal


def limit_fault(text: str, refusal: str | None, more: Sequence[str] = ()) -> Fault:
    """What is wrong with what is said of a text at a limit, or nothing."""
    if refusal:
        return refusal_fault(["ltl", *more], text.encode(), refusal)
    ran = run_of(["ltl", *more], text.encode())
    return None if ran.returncode == 0 and not ran.stderr and ran.stdout.startswith(b"HOA: v1\n") else told(ran)


def task_limit_checks() -> Cases:
    """Automata at the limits of what `satisfies` refuses about neither text: a label that is too hard to judge, and as
    many propositions as an automaton may have. A label that is as deep as can be is no reason to refuse."""
    refused = ["satisfies", "-v", "-f"]
    yield "satisfies, of a label that is not decided", partial(
        refusal_fault, [*refused, "0"], wide(1000, fruitless(21)), "42 TooManyPropositions")
    yield "satisfies, of 1,024 propositions", partial(fault_of, [*refused, 'G "7"'], wide(1024, b"7"), 0, b"yes\n")
    yield "satisfies, of one more", partial(refusal_fault, [*refused, "G a"], wide(1024, b"7"), "55 TooLarge")
    yield "satisfies, of the deepest label", partial(satisfies_fault, DEEPEST, b"F !b", False)


# ---- formulas that are deep, on a small stack


def deep_formulas() -> Iterator[tuple[str, str]]:
    """Formulas about so deep. A parenthesis is one more where the reader goes by its own stack."""
    yield "negations", "!" * (DEEP - 1) + "a"
    yield "negations in parentheses", "!(" * (DEEP - 1) + "a" + ")" * (DEEP - 1)
    yield "X", "X" * (DEEP - 1) + "a"
    yield "G", "G" * (DEEP - 1) + "a"
    yield "conjunctions", "a & (" * (DEEP - 1) + "b" + ")" * (DEEP - 1)
    yield "disjunctions to the left", "(" * (DEEP - 1) + "a" + " | b)" * (DEEP - 1)
    yield "implications", "a -> " * (DEEP - 1) + "b"
    yield "R to the left", "(" * 40 + "a" + " R b)" * 40
    yield "equivalences of one name", "a <-> (" * (DEEP - 1) + "a" + ")" * (DEEP - 1)


def narrow_fault(words: list[str], text: bytes) -> Fault:
    """Whether a run on a small stack does as one on an ample one, or what is wrong."""
    def narrow() -> None:
        resource.setrlimit(resource.RLIMIT_STACK, (STACK, STACK))
    ran = subprocess.run([OMEGA, *words], input=text, capture_output=True, timeout=SECONDS, preexec_fn=narrow)
    return fault_of(words, text, ran.returncode, ran.stdout, ran.stderr) if ran.returncode in (0, 1, 6) else told(ran)


def deep_checks() -> Cases:
    for name, formula in deep_formulas():
        for words, text in ((["ltl"], formula.encode()), (["ltl", "--negated", "-f", formula], b""),
                            (["satisfies", "--explain", "-f", formula], LANGUAGES[1][0])):
            yield f"{STACK} bytes of stack for {words[0]} on {name}, {DEEP} deep", partial(narrow_fault, words, text)


# ---- whether automata satisfy formulas


def along_fault(automaton: Automaton, edges: list[int], line: bytes, names: list[bytes]) -> Fault:
    """A letter that a line `word` admits and at which the edge that it stands for cannot be taken, or nothing."""
    stem, cycle = read_word(line)
    moves, own = moves_of(automaton), propositions_of(automaton)
    if len(stem + cycle) != len(edges):
        return f"{len(stem + cycle)} letters stand for {len(edges)} edges"
    for formula, edge in zip(stem + cycle, edges):
        for letter in valuations(names):
            if formula(letter) and not can_be_taken(moves[edge], own, letter):
                return f"edge {edge} can't be taken at {sorted(letter)}"
    return None


def word_fault(automaton: Automaton, tree: Formula, line: bytes, names: list[bytes]) -> Fault:
    """A word that a line admits and that is not accepted, or satisfies the formula; or nothing."""
    drawn, letters = random.Random(line), valuations(names)
    stem, cycle = read_word(line)
    for choose in (lambda some: some[0], lambda some: some[-1], drawn.choice, drawn.choice):
        word = admitted(stem, letters, choose), admitted(cycle, letters, choose)
        if not accepts(automaton, *word):
            return f"{shown(line)} admits {word}, which is not accepted"
        if satisfies(tree, *word):
            return f"{shown(line)} admits {word}, which satisfies the formula"
    return None


def explained_fault(text: bytes, tree: Formula, explained: bytes) -> Fault:
    """What is wrong with the lasso and the word that say that an automaton accepts what does not satisfy a formula, or
    nothing."""
    automaton = read_one(text)
    stem_line, cycle_line, line = (explained.split(b"\n", 2) + [b"", b""])[:3]
    written = stem_line + b"\n" + cycle_line + b"\n"
    lasso = read_lasso(written)
    fault = lasso_fault(automaton, *lasso) if lasso else "no lasso"
    if lasso is None or fault:
        return f"{shown(explained)}: {fault}"
    ran = beside(["verify", "--automaton"], text, written)
    if ran.stderr or (ran.returncode, ran.stdout) != YES:
        return f"{shown(explained)}: the lasso is judged {told(ran)}"
    names = [*dict.fromkeys(propositions_of(automaton) + names_of(tree))]
    try:
        return along_fault(automaton, lasso[0] + lasso[1], line, names) or word_fault(automaton, tree, line, names)
    except NoWord as why:
        return f"{shown(line)}: {why}"


def refuted_by(automaton: Automaton, tree: Formula) -> str | None:
    """A short word that an automaton accepts and that does not satisfy a formula, or nothing."""
    names = tuple(dict.fromkeys(propositions_of(automaton) + names_of(tree)))
    accepting = ShortWords(automaton, list(names))
    for stem, cycle in shapes_over(names):
        wrong = accepting.accepted(stem, cycle) & ~satisfying(tree, names, stem, cycle)[0]
        if wrong:
            return word_among(names, stem, cycle, wrong)
    return None


def satisfies_fault(text: bytes, formula: bytes, known: bool | None = None) -> Fault:
    """What is wrong with what `satisfies` says of an automaton and a formula, or nothing. What is known is true by
    construction."""
    tree, given = read_formula(formula), ["satisfies", "-f", formula.decode()]
    plain, explained = run_of(given, text), run_of([*given, "--explain"], text)
    answer = (plain.returncode, plain.stdout)
    if plain.stderr or answer not in (YES, NO) or known is not None and answer != (YES if known else NO):
        return f"{told(plain)}, known: {known}"
    if explained.stderr or explained.returncode != answer[0] or not explained.stdout.startswith(answer[1]):
        return f"--explain: {told(explained)} for {answer}"
    why = explained.stdout.removeprefix(answer[1])
    if answer == NO:
        return explained_fault(text, tree, why)
    refuted = refuted_by(read_one(text), tree)
    return f"it explains a yes: {shown(why)}" if why else refuted and f"yes, and it accepts the word {refuted}"


class Systems(Speaking):
    """Makes automata that are asked about, most of which accept something."""

    def __init__(self, seed: int) -> None:
        super().__init__(seed)
        self.paired, self.emptied = Paired(seed), Emptied(seed)

    def automaton(self) -> bytes:
        texts = [self.paired.automaton(self.random.randrange(4) == 0) if self.random.randrange(3) else
                 self.emptied.automaton_of(b"x", self.random.choice(FORMULAS)) for _ in range(4)]
        return next((text for text in texts if has_accepting_lasso(read_one(text))), texts[0])


def satisfies_checks() -> Cases:
    systems = Systems(2042)
    for text in (*(text for text, _ in LANGUAGES), NO_STARTS, NO_STATES, SETLESS):
        for formula in (b"1", b"0", b"G F a", b"F G a", b"a U b", b"G(a -> X b)", b'F "c d"', b'"c d" | !"c d"'):
            yield f"{formula!r} of {shown(text)}", partial(satisfies_fault, text, formula)
    for number in range(400):
        text = systems.automaton()
        formula = systems.text(systems.tree(1 + number % 9, systems.names(3) if number % 9 == 0 else PLAIN))
        yield f"{formula!r} of {text!r}", partial(satisfies_fault, text, formula)


def automaton_of(formula: bytes) -> bytes:
    return run_of(["ltl"], formula).stdout


def construction_fault(formula: bytes, other: bytes, known: bool) -> Fault:
    return satisfies_fault(automaton_of(formula), other, known)


def construction_checks() -> Cases:
    """Automata of formulas, and formulas that follow from these or contradict them."""
    speaking = Speaking(2043)
    for _ in range(40):
        names = speaking.names()
        one, other = (speaking.tree(speaking.random.randint(1, 6), names) for _ in range(2))
        for made, wanted in ((one, one), (("&", one, other), one), (one, ("|", one, other)),
                             (("U", one, other), ("F", other)), (("G", ("&", one, other)), ("G", other))):
            yield f"{canonical(wanted)!r} of the automaton of {canonical(made)!r}", partial(
                construction_fault, canonical(made), canonical(wanted), True)
        if satisfying(one, tuple(names), 1, 2)[0]:
            yield f"{canonical(('!', one))!r} of the automaton of {canonical(one)!r}", partial(
                construction_fault, canonical(one), canonical(("!", one)), False)


# ---- several formulas


def formula_words(formulas: list[bytes]) -> list[str]:
    return [word for formula in formulas for word in ("-f", formula.decode())]


def in_turn_fault(words: list[str], text: bytes, formulas: list[bytes]) -> Fault:
    """Whether several formulas are answered as each alone, one after the other, or what is wrong."""
    answers = {formula: run_of(["satisfies", *words, *formula_words([formula])], text) for formula in formulas}
    alone = [answers[formula] for formula in formulas]
    if any(ran.stderr or ran.returncode not in (YES[0], NO[0]) for ran in alone):
        return f"alone: {[told(ran) for ran in alone]}"
    return fault_of(["satisfies", *words, *formula_words(formulas)], text, max(ran.returncode for ran in alone),
                    b"".join(ran.stdout for ran in alone))


def unmentioned_fault(text: bytes, formulas: list[bytes]) -> Fault:
    """Whether the names of formulas that an automaton does not have are told beside the same answers, or what is
    wrong."""
    words, known = formula_words(formulas), propositions_of(read_one(text))
    names = [name for formula in formulas for name in names_of(read_formula(formula)) if name not in known]
    plain = run_of(["satisfies", *words], text)
    lines = b"".join(b'omega: the automaton has no proposition "' + name + b'"\n' for name in names)
    return fault_of(["satisfies", "-v", *words], text, plain.returncode, plain.stdout, lines)


def first_refused_fault(formulas: list[bytes]) -> Fault:
    """Whether the first formula that a slow reader refuses is told, or else the automaton, which is none; or what is
    wrong."""
    lines = b"omega: 3 Syntax at 0\nomega: in the automaton\n" + line_at(b"x", 0).encode()
    for number, text in enumerate(formulas, 1):
        try:
            read_formula(text)
        except Refused as refused:
            place = place_of(refused)
            line = "" if place is None else line_at(text, place)
            lines = f"omega: {refused}\nomega: in formula {number}\n{line}".encode()
            break
    return fault_of(["satisfies", "-v", *formula_words(formulas)], b"x", 1, b"", lines)


def in_turn_checks() -> Cases:
    systems, drawn = Systems(2045), random.Random(2046)
    for number in range(200):
        text = systems.automaton()
        formulas = [systems.text(systems.tree(1 + number % 6, PLAIN)) for _ in range(3 if number % 5 == 0 else 2)]
        words = ["--explain"] if number % 2 else []
        yield f"{formulas!r} of {text!r}", partial(in_turn_fault, words, text, formulas)
        if number % 3 == 0:
            yield f"the names of {formulas!r} in {text!r}", partial(unmentioned_fault, text, formulas)
    for word in ("cycle{a}", "a; !b; cycle{b; a & !b}", "cycle{0}", "cycle{a | b}"):
        formulas = [systems.text(systems.tree(1 + number, PLAIN)) for number in range(6)]
        yield f"{formulas!r} of {word}", partial(in_turn_fault, ["--explain", "--word", word], b"", formulas)
    many = [systems.text(systems.tree(1 + number % 4, PLAIN)) for number in range(40)] * 10
    yield f"{len(many)} formulas", partial(in_turn_fault, [], LANGUAGES[1][0], many)
    for _ in range(60):
        texts = [text[:drawn.randint(len(text) - 1, len(text))] for text in drawn.sample(TEXTS, 3)]
        if all(map(is_given, texts)):
            yield f"the texts {texts!r}", partial(first_refused_fault, texts)


# ---- spin


def has_next(tree: Formula) -> bool:
    return tree[0] == "X" or any(has_next(part) for part in operands(tree))


def spin_fault(tree: Formula) -> Fault:
    """A word of which spin's never claim says something else than the automaton of a formula, or nothing. Nothing is
    compared if spin takes too long."""
    claim, automaton = claim_of(tree, PLAIN), read_written(run_of(["ltl"], canonical(tree)))
    if isinstance(automaton, str):
        return automaton
    if claim is None:
        return None
    ours, theirs = ShortWords(automaton, PLAIN), ShortWords(claim, PLAIN)
    for stem, cycle in shapes(2, 2):
        wrong = ours.accepted(stem, cycle) ^ theirs.accepted(stem, cycle)
        if wrong:
            return f"spin says something else of the word {word_among(tuple(PLAIN), stem, cycle, wrong)}"
    return None


def spin_checks() -> Cases:
    speaking = Speaking(2044)
    trees = [speaking.tree(1 + number % 8, PLAIN) for number in range(120)]
    for tree in trees:
        if not has_next(tree):
            yield f"spin on {canonical(tree)!r}", partial(spin_fault, tree)


def ltl_checks() -> Cases:
    yield from formula_checks()
    yield from text_checks()
    for label, text, refusal in limit_texts():
        yield label, partial(limit_fault, text, refusal)
        if len(text) < MOST_GIVEN:
            yield f"satisfies, {label}", partial(in_formula_fault, text.encode())
    for label, text, refusal in negated_limit_texts():
        yield label, partial(limit_fault, text, refusal, ["--negated", "--deterministic"])
    yield from task_limit_checks()
    yield from deep_checks()
    yield from satisfies_checks()
    yield from construction_checks()
    yield from in_turn_checks()
    if shutil.which("spin"):
        yield from spin_checks()
