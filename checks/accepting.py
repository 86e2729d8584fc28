"""What `accepts --word` answers, against a plain judge that goes through all words that the letters admit at once.
1,500 random words of formulas are asked of random deterministic automata, whose propositions are other names in part.
Each line `word` after `no` admits words that the word admits and the automaton does not accept. An automaton that
accepts nothing writes back what was read of a word.

`accepts --some` is asked of 1,500 more, whose automata have choices for the most part. Where it says `yes`, the lasso is
one of the automaton's own edges, and each word that fits the line `word` is admitted, accepted, and goes along the
lasso.

A letter may be true at many sets of names, so that a word admits infinite words that repeat nothing. 600 words whose
letters leave no proposition open are asked of random automata, most of them with choices. Else what is not
deterministic is refused 56. 500 words with a byte changed are read, or refused with a place in the text of the word, as
a slow reader says. The line `word` that `empty --word` writes of 300 random deterministic automata is accepted.
"""
import itertools
import random
import re
from collections.abc import Callable
from functools import partial
from typing import TypeVar

from automata import Automaton, Tree, read_one
from causes import line_at
from comparing_checks import along_fault
from containing import after, dual, formula_of, with_letters
from emptiness import Move, has_accepting_walk, lasso_fault, moves_of, read_lasso
from product_checks import INFINITELY, LANGUAGES, NO_STARTS, NO_STATES, SETLESS, Paired
from products import Word, accepts, can_be_taken, is_deterministic, names_of, valuations
from program import Cases, Fault, Ran, fault_of, refusal_fault, run_of, shown
from words import Formula, NoWord, Reader, admitted, read_word

Symbolic = tuple[list[Formula], list[Formula]]
Part = TypeVar("Part")
# The names that a word may have: those of the automata, and others.
NAMES = [b"a", b"b", b"c d"]
WORDS_BY_HAND = [b"cycle{1}", b"cycle{0}", b"cycle{a}", b"cycle{!a}", b"cycle{a;!a}", b"a;cycle{!a}", b"!a;cycle{1;a}",
                 b"0;cycle{a}", b"cycle{a|b}", b'cycle{"a" & !"c d"}', b"b;a;cycle{b}", b"cycle{a|!a}"]

# An automaton that accepts nothing, and whose complement accepts all by an edge without a conjunct: of a word that it
# does not accept it writes that word. Words as `empty --word` writes them, and with other white space, comments and
# parentheses; names with quotes and without, and names that need quotes; and how they are written.
NOTHING = b"HOA: v1 States: 1 Start: 0 AP: 0 Acceptance: 0 f --BODY-- State: 0 [t] 0 --END--"
WORDS_READ: list[tuple[str, bytes]] = [
    ("cycle{1}", b"cycle{1}"),
    ("a; cycle{!a}", b"a; cycle{!a}"),
    ("b & !a; a; cycle{a | b; b}", b"b & !a; a; cycle{a | b; b}"),
    ('"b c"; cycle{a & "b c"}', b'"b c"; cycle{a & "b c"}'),
    ('"a"; cycle{a}', b"a; cycle{a}"),
    ("\n a&(b|!c)\t;cycle {1 ; 1\r\n}  ", b"a & (b | !c); cycle{1; 1}"),
    ("a /* ; */ ; cycle{a}/* cycle */", b"a; cycle{a}"),
    ('"cycle"; cycle{"t" | "F1" | "U"}', b'"cycle"; cycle{"t" | "F1" | "U"}'),
    ('"a;b"; cycle{"a\\"}"}', b'"a;b"; cycle{"a\\"}"}'),
    # Two signs of negation go where they stand before a conjunct.
    ("!!a; cycle{a | b & !c | 0}", b"a; cycle{a | b & !c | 0}"),
    ("cycle{!!a | b}", b"cycle{!!a | b}"),
    ('_a0; Up; cycle{""}', b'_a0; Up; cycle{""}'),
]


def is_accepted(automaton: Automaton, word: Symbolic) -> bool:
    """Whether each word that the letters admit is accepted by the automaton, which is deterministic."""
    formulas, stem = word[0] + word[1], len(word[0])
    letters = valuations(NAMES)
    moves, (sets, wanted) = with_letters(automaton, letters), formula_of(automaton)
    begins = [states[0] for states in automaton.said(b"Start:")]
    begun: list[tuple[int, int | None]] = [(0, begins[0] if begins else None)]
    found, taken = [*begun], set()
    for place, state in found:
        onward = place + 1 if place + 1 < len(formulas) else stem
        for letter in letters:
            if formulas[place](letter):
                target, marks = after(moves, state, letter)
                # A run that is lost has a set of its own.
                shown_marks = frozenset(marks) if target is not None else frozenset({sets})
                found += [(onward, target)] * ((onward, target) not in found)
                taken.add(((place, state), (onward, target), shown_marks))
    rejected: Tree = ("|", dual(wanted), ("atom", b"Inf", False, sets))
    arrows = [Move(number, source, [target], None, {*marks}, 0)
              for number, (source, target, marks) in enumerate(sorted(taken, key=repr))]
    return not has_accepting_walk(begun, arrows, rejected)


def letters_for(automaton: Automaton, formula: Formula) -> set[frozenset[bytes]]:
    """What the automaton sees of the sets of names at which a formula is true."""
    names = names_of(automaton)
    return {letter & frozenset(names) for letter in valuations(sorted({*NAMES, *names})) if formula(letter)}


def is_one_word(automaton: Automaton, word: Symbolic) -> bool:
    """Whether the automaton sees one letter at most at each place of a word."""
    return all(len(letters_for(automaton, formula)) <= 1 for formula in word[0] + word[1])


def is_one_accepted(automaton: Automaton, word: Symbolic) -> bool:
    """Whether the automaton accepts the one word that it sees, if there is one."""
    stem, cycle = ([letter for formula in part for letter in letters_for(automaton, formula)] for part in word)
    return (len(stem), len(cycle)) != (len(word[0]), len(word[1])) or accepts(automaton, stem, cycle)


def unrolled(stem: list[Part], cycle: list[Part], count: int) -> list[Part]:
    """The first letters of a lasso, at least so many."""
    return stem + cycle * (count // len(cycle) + 1)


def admits(word: Symbolic, stem: Word, cycle: Word) -> bool:
    """Whether a word of formulas admits a lasso of letters: as far as both have gone round together."""
    count = max(len(word[0]), len(stem)) + len(word[1]) * len(cycle)
    both = zip(unrolled(*word, count), unrolled(stem, cycle, count))
    return all(formula(letter) for formula, letter in itertools.islice(both, count))


def told(ran: Ran) -> str:
    return f"status {ran.returncode}: {shown(ran.stdout)} {shown(ran.stderr)}"


def explained_fault(automaton: Automaton, word: Symbolic, line: bytes) -> Fault:
    """A word that a line admits, and that the word does not admit or the automaton accepts; or nothing."""
    letters, drawn = valuations(NAMES), random.Random(line)
    try:
        stem, cycle = read_word(line)
        for _ in range(4):
            lasso = admitted(stem, letters, drawn.choice), admitted(cycle, letters, drawn.choice)
            if not admits(word, *lasso):
                return f"{shown(line)} admits {lasso}, which the word does not admit"
            if accepts(automaton, *lasso):
                return f"{shown(line)} admits {lasso}, which is accepted"
    except NoWord as why:
        return f"{shown(line)}: {why}"
    return None


def accepts_fault(word: bytes, text: bytes) -> Fault:
    """What is wrong with what `accepts` says of a word and a text, or nothing."""
    automaton, symbolic = read_one(text), Reader(word).word()
    given = ["accepts", "--word", word.decode()]
    plain, explained = run_of(given, text), run_of([*given, "--explain"], text)
    deterministic = is_deterministic(automaton)
    if not deterministic and not is_one_word(automaton, symbolic):
        refused = [ran.returncode == 1 and not ran.stdout and ran.stderr.startswith(b"omega: 56 NotDeterministic at ")
                   for ran in (plain, explained)]
        return None if all(refused) else f"{told(plain)}, {told(explained)}"
    yes = (is_accepted if deterministic else is_one_accepted)(automaton, symbolic)
    if plain.stderr or (plain.returncode, plain.stdout) != ((0, b"yes\n") if yes else (6, b"no\n")):
        return f"the judge says {yes}, the answer is {told(plain)}"
    if explained.stderr or explained.returncode != plain.returncode or not explained.stdout.startswith(plain.stdout):
        return f"with --explain: {told(explained)}"
    why = explained.stdout[len(plain.stdout):]
    if yes:
        return f"it explains a yes: {shown(why)}" if why else None
    return explained_fault(automaton, symbolic, why)


def is_some_accepted(automaton: Automaton, word: Symbolic) -> bool:
    """Whether some word that the letters admit is accepted by the automaton, which may have choices."""
    formulas, stem, names = word[0] + word[1], len(word[0]), names_of(automaton)
    letters, taken = valuations(sorted({*NAMES, *names})), list[Move]()
    for move in moves_of(automaton):
        for place, formula in enumerate(formulas):
            if any(formula(letter) and can_be_taken(move, names, letter) for letter in letters):
                target = (move.targets[0], place + 1 if place + 1 < len(formulas) else stem)
                taken.append(Move(len(taken), (move.source, place), [target], None, move.marks, 0))
    begins = [(states[0], 0) for states in automaton.said(b"Start:")]
    return has_accepting_walk(begins, taken, formula_of(automaton)[1])


def example_fault(automaton: Automaton, word: Symbolic, explained: bytes) -> Fault:
    """What is wrong with the lasso and the line that show that the automaton accepts a word that is admitted, or
    nothing."""
    stem_line, cycle_line, line = (explained.split(b"\n", 2) + [b"", b""])[:3]
    lasso = read_lasso(stem_line + b"\n" + cycle_line + b"\n")
    fault = lasso_fault(automaton, *lasso) if lasso else "no lasso"
    if lasso is None or fault:
        return f"{shown(explained)}: {fault}"
    letters, drawn = valuations(NAMES), random.Random(line)
    try:
        stem, cycle = read_word(line)
        for _ in range(4):
            fitting = admitted(stem, letters, drawn.choice), admitted(cycle, letters, drawn.choice)
            if not admits(word, *fitting) or not accepts(automaton, *fitting):
                return f"{shown(line)} admits {fitting}, which is not admitted or not accepted"
        return along_fault(automaton, automaton, lasso[0] + lasso[1], line)
    except NoWord as why:
        return f"{shown(line)}: {why}"


def some_fault(word: bytes, text: bytes) -> Fault:
    """What is wrong with what `accepts --some` says of a word and a text, or nothing."""
    automaton, symbolic = read_one(text), Reader(word).word()
    given = ["accepts", "--some", "--word", word.decode()]
    plain, explained = run_of(given, text), run_of([*given, "--explain"], text)
    yes = is_some_accepted(automaton, symbolic)
    status, answer = (0, b"yes\n") if yes else (6, b"no\n")
    if plain.stderr or (plain.returncode, plain.stdout) != (status, answer):
        return f"the judge says {yes}, the answer is {told(plain)}"
    if explained.stderr or explained.returncode != status or not explained.stdout.startswith(answer):
        return f"with --explain: {told(explained)}"
    why = explained.stdout.removeprefix(answer)
    if not yes:
        return f"it explains a no: {shown(why)}" if why else None
    return example_fault(automaton, symbolic, why)


def read_fault(word: bytes) -> Fault:
    """Whether a text is read as a word exactly if a slow reader reads it, or what is wrong."""
    try:
        Reader(word).word()
        is_word = True
    except NoWord:
        is_word = False
    ran = run_of(["accepts", "-v", "--word=" + word.decode()], LANGUAGES[1][0])
    if is_word:
        return None if ran.returncode in (0, 6) and not ran.stderr else f"a word: {told(ran)}"
    refused = re.match(rb"omega: (?:1 Lex|2 Number|3 Syntax) at (\d+)\nomega: in the word\n", ran.stderr)
    if ran.returncode != 1 or ran.stdout or refused is None or int(refused.group(1)) > len(word):
        return f"no word: {told(ran)}"
    if ran.stderr[refused.end():] != line_at(word, int(refused.group(1))).encode():
        return f"another place: {told(ran)}"
    return None


def own_word_fault(text: bytes) -> Fault:
    """Whether an automaton accepts the word that `empty --word` writes of it, or what is wrong."""
    ran = run_of(["empty", "--search", "--word"], text)
    if ran.returncode or ran.stderr:
        return told(ran)
    line = ran.stdout.split(b"\n")[-2]
    if line == b"empty":
        return None
    return fault_of(asked(line.removeprefix(b"word ").decode()), text, 0, b"yes\n")


class Spelling:
    """Makes words of formulas at random."""

    def __init__(self, seed: int) -> None:
        self.random = random.Random(seed)

    def formula(self, depth: int) -> str:
        choice = self.random.randint(0, 7 if depth else 4)
        if choice < 5:
            return self.random.choice(["a", "b", "!a", "!b", '"a"', '!"b"', "1"] * 4 + ['"c d"', "0"])
        one, other = self.formula(depth - 1), self.formula(depth - 1)
        return [f"!({one})", f"{one} & ({other})", f"({one})|{other}"][choice - 5]

    def full(self) -> str:
        """A formula that leaves neither `a` nor `b` open."""
        one, other = self.random.sample([self.random.choice(["a", "!a"]), self.random.choice(["b", "!b"])], 2)
        return self.random.choice([f"{one} & {other}"] * 6 + [
            f"({one} | 0) & ({other} & 1)", f"({one} & {other}) & !\"c d\"", f"({one} | !({other})) & {other}",
            f"{one} & \"c d\" & {other} | {one} & {other}", f"!(!({one}) | !({other}))", f"{one} & {other} & !({one})"])

    def word(self, formula: Callable[[], str] | None = None) -> bytes:
        made = formula or partial(self.formula, 2)
        letters = [[made() for _ in range(self.random.randint(least, 3))] for least in (0, 1)]
        space = self.random.choice(["", " "])
        stem, cycle = ("".join(f"{letter};{space}" for letter in letters[0]), f";{space}".join(letters[1]))
        return f"{stem}cycle{{{cycle}}}".encode()

    def damaged(self) -> bytes:
        word = self.word()
        place = self.random.randrange(len(word))
        return word[:place] + self.random.choice([b"", b"a", b";", b"{", b"}", b"(", b")", b"!", b"&", b"|", b"0", b"2",
                                                  b'"', b"%", b"t"]) + word[place + 1:]


def asked(word: str) -> list[str]:
    return ["accepts", "--word", word]


def limit_checks() -> Cases:
    """At both sides of 55: so many names, each the letter of a place; and letters as deep as can be."""
    text = INFINITELY.replace(b'"a"', b'"a0"')
    for count in (1024, 1025):
        names = [f"a{number}" for number in range(count)]
        word = "".join(f"{name};" for name in names[1:]) + "cycle{%s}"
        if count == 1024:
            yield f"a word of {count} names", partial(fault_of, asked(word % "a0"), text, 0, b"yes\n")
            yield f"a word of {count} names, another", partial(fault_of, asked(word % "!a0"), text, 6, b"no\n")
        else:
            yield f"a word of {count} names", partial(refusal_fault, asked(word % "a0"), text, "55 TooLarge")
    for count in (255, 256):
        word = "cycle{" + "(" * count + "a0" + ")" * count + "}"
        if count == 255:
            yield f"a letter in {count} parentheses", partial(fault_of, asked(word), text, 0, b"yes\n")
        else:
            yield f"a letter in {count} parentheses", partial(refusal_fault, asked(word), text, "55 TooLarge")


def accepting_checks() -> Cases:
    yield from limit_checks()
    for given, line in WORDS_READ:
        wanted = b"no\nword " + line + b"\n"
        yield f"the word {given!r} read", partial(fault_of, [*asked(given), "--explain"], NOTHING, 6, wanted)
    yield "a word that admits nothing", partial(fault_of, [*asked("cycle{0}"), "--explain"], NOTHING, 0, b"yes\n")
    for text in (*(text for text, _ in LANGUAGES), NO_STARTS, NO_STATES, SETLESS):
        for word in WORDS_BY_HAND:
            yield f"{word!r} in {shown(text)}", partial(accepts_fault, word, text)
    spelling, automata = Spelling(2032), Paired(2033)
    for number in range(1500):
        word, text = spelling.word(), automata.automaton(number % 10 != 0)
        yield f"{word!r} in {text!r}", partial(accepts_fault, word, text)
    for number in range(600):
        word, text = spelling.word(spelling.full), automata.automaton(number % 6 == 0)
        yield f"{word!r} in {text!r}", partial(accepts_fault, word, text)
    for _ in range(300):
        text = automata.automaton(True)
        yield f"the word of {text!r}", partial(own_word_fault, text)
    for _ in range(500):
        word = spelling.damaged()
        yield f"the text {word!r}", partial(read_fault, word)
    for text in (*(text for text, _ in LANGUAGES), NO_STARTS, NO_STATES, SETLESS):
        for word in WORDS_BY_HAND:
            yield f"some word of {word!r} in {shown(text)}", partial(some_fault, word, text)
    spelling, automata = Spelling(2034), Paired(2035)
    for number in range(1500):
        word, text = spelling.word(), automata.automaton(number % 4 == 0)
        yield f"some word of {word!r} in {text!r}", partial(some_fault, word, text)
