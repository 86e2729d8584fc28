"""What `contained` and `equal` answer, against a plain judge that goes through all words at once. 1,000 random pairs
are compared both ways, half of them contained by construction. Each `no` has an accepting lasso of the automaton's own
edges, which `verify --automaton` confirms, and a word along it that the other automaton does not accept. Where a label
of the product would be too deep, so that `meet` is refused 55, a counterexample is found all the same.

The propositions of the two stand in one order or another, and some have other names. An automaton contained by
construction is the other one with more sets to be visited, with edges left out or without a start, two such side by
side, the product of the other one with a third, or the other one with its states renamed. What is not deterministic
where it has to be is refused 56. The unions of 250 such pairs are contained in the second too.
"""
import random
import re
from functools import partial

from automata import Automaton, read_one
from containing import is_contained
from emptiness import has_accepting_lasso, lasso_fault, moves_of, read_lasso
from product_checks import LANGUAGES, NO_STARTS, NO_STATES, SETLESS, WORDS, Paired, beside, join, meet
from products import Letter, accepts, can_be_taken, is_deterministic, names_of, valuations
from program import Cases, Fault, Ran, shown
from words import NoWord, admitted, read_word

YES, NO = (0, b"yes\n"), (6, b"no\n")
# The number of a state behind its label.
STATE = rb"^(State: (?:\[[^]]*\] )?)(\d+)"

# `a & (b | (a & (b | ..)))`: as it is written 256 deep, and so no text has it as a part of a conjunction.
DEEPEST = b"0&(1|" * 85 + b"0" + b")" * 85
DEEP = b"""HOA: v1
States: 1
Start: 0
AP: 2 "a" "b"
acc-name: all
Acceptance: 0 t
--BODY--
State: 0
[%s] 0
--END--
""" % DEEPEST
ALWAYS_B = b"""HOA: v1
States: 1
Start: 0
AP: 1 "b"
acc-name: all
Acceptance: 0 t
--BODY--
State: 0
[0] 0
--END--
"""


def told(ran: Ran) -> str:
    return f"status {ran.returncode}: {shown(ran.stdout)} {shown(ran.stderr)}"


def is_refused(ran: Ran) -> bool:
    """Whether a run ended as it has to where an automaton is not deterministic."""
    return ran.returncode == 1 and not ran.stdout and ran.stderr.startswith(b"omega: 56 NotDeterministic at ")


def letters_of(one: Automaton, other: Automaton) -> list[Letter]:
    """The letters over the names of both."""
    return valuations([*dict.fromkeys(names_of(one) + names_of(other))])


def apart_fault(one: Automaton, other: Automaton, line: bytes, is_common: bool) -> Fault:
    """A word that a line admits and that does not tell the automata apart, or is not accepted by both if it is to be
    common; or nothing."""
    stem, cycle = read_word(line)
    letters, drawn = letters_of(one, other), random.Random(line)
    for _ in range(4):
        word = admitted(stem, letters, drawn.choice), admitted(cycle, letters, drawn.choice)
        if not accepts(one, *word) or accepts(other, *word) != is_common:
            return f"{shown(line)} admits {word}, which does not show it"
    return None


def along_fault(one: Automaton, other: Automaton, edges: list[int], line: bytes) -> Fault:
    """A letter that a line `word` admits and at which the edge of the first automaton that it stands for cannot be
    taken, or nothing."""
    stem, cycle = read_word(line)
    moves, names = moves_of(one), names_of(one)
    if len(stem + cycle) != len(edges):
        return f"{len(stem + cycle)} letters stand for {len(edges)} edges"
    for formula, edge in zip(stem + cycle, edges):
        for letter in letters_of(one, other):
            if formula(letter) and not can_be_taken(moves[edge], names, letter):
                return f"edge {edge} can't be taken at {sorted(letter)}"
    return None


def explained_fault(text: bytes, other: bytes, explained: bytes, is_common: bool = False) -> Fault:
    """What is wrong with the lasso and the word that say that a text's automaton accepts what the other does not, or
    what both accept if that is to be common; or nothing."""
    automaton, against = read_one(text), read_one(other)
    stem_line, cycle_line, word = (explained.split(b"\n", 2) + [b"", b""])[:3]
    written = stem_line + b"\n" + cycle_line + b"\n"
    lasso = read_lasso(written)
    if lasso is None:
        return f"no lasso: {shown(explained)}"
    fault = lasso_fault(automaton, *lasso)
    if fault:
        return f"{shown(explained)}: {fault}"
    ran = beside(["verify", "--automaton"], text, written)
    if ran.stderr or (ran.returncode, ran.stdout) != YES:
        return f"the lasso: {told(ran)}"
    try:
        fault = apart_fault(automaton, against, word, is_common)
        return fault or along_fault(automaton, against, lasso[0] + lasso[1], word)
    except NoWord as why:
        return f"{shown(word)}: {why}"


def contained_fault(one: bytes, other: bytes, known: bool | None = None) -> Fault:
    """What is wrong with what `contained` says of two texts, or nothing. What is known is true by construction."""
    first, second = read_one(one), read_one(other)
    ran = beside(["contained", "--in"], other, one)
    told_why = beside(["contained", "--explain", "--in"], other, one)
    if not is_deterministic(second):
        return None if is_refused(ran) and is_refused(told_why) else f"{told(ran)}, {told(told_why)}"
    within = is_contained(first, second)
    if known is not None and within != known:
        return f"the judge says {within}"
    answer = YES if within else NO
    if ran.stderr or (ran.returncode, ran.stdout) != answer:
        return f"{told(ran)} for {answer}"
    if told_why.stderr or told_why.returncode != answer[0] or not told_why.stdout.startswith(answer[1]):
        return f"--explain: {told(told_why)} for {answer}"
    if within:
        return None if told_why.stdout == answer[1] else f"--explain: {told(told_why)}"
    return explained_fault(one, other, told_why.stdout.removeprefix(answer[1]))


def equal_fault(one: bytes, other: bytes, known: bool | None = None) -> Fault:
    """What is wrong with what `equal` says of two texts, or nothing."""
    first, second = read_one(one), read_one(other)
    ran, told_why = beside(["equal", "--to"], other, one), beside(["equal", "--explain", "--to"], other, one)
    if not is_deterministic(first) or not is_deterministic(second):
        return None if is_refused(ran) and is_refused(told_why) else f"{told(ran)}, {told(told_why)}"
    there, back = is_contained(first, second), is_contained(second, first)
    if known is not None and (there and back) != known:
        return f"the judge says {there} and {back}"
    answer = YES if there and back else NO
    if ran.stderr or (ran.returncode, ran.stdout) != answer:
        return f"{told(ran)} for {answer}"
    if there and back:
        return None if (told_why.returncode, told_why.stdout) == YES else f"--explain: {told(told_why)}"
    if told_why.returncode != answer[0] or told_why.stderr:
        return f"--explain: {told(told_why)}"
    for line, text, against in ((b"no\naccepted by input\n", one, other), (b"no\naccepted by file\n", other, one)):
        if told_why.stdout.startswith(line):
            return explained_fault(text, against, told_why.stdout.removeprefix(line))
    return f"--explain: {told(told_why)}"


def renumbered(pattern: bytes, text: bytes, names: list[int]) -> bytes:
    """The text with other numbers where a pattern finds one behind what it finds first."""
    return re.sub(pattern, lambda found: found.group(1) + b"%d" % names[int(found.group(2))], text, flags=re.MULTILINE)


class Narrowed(Paired):
    """Makes pairs of automata of which the first is contained in the second."""

    def pair(self) -> tuple[bytes, bytes]:
        other = self.automaton(True)
        lines = other.split(b"\n")
        body = lines.index(b"--BODY--")
        choice = self.some(0, 2)
        if choice == 0:
            kept = [line for line in lines if not line.startswith(b"Start:")]
            return b"\n".join(kept), other
        if choice == 1:
            left_out = self.some(body + 1, len(lines) - 2)
            state = lines[left_out].split(b" ")
            return b"\n".join([*lines[:left_out], b" ".join(state[:2]), *lines[left_out + 1:]]), other
        at = next(at for at, line in enumerate(lines) if line.startswith(b"Acceptance:"))
        count, formula = lines[at].split(b" ", 2)[1:]
        sets = int(count)
        lines[at] = b"Acceptance: %d (%s) & Inf(%d)" % (sets + 1, formula, sets)
        return b"\n".join(lines), other


class Contained(Narrowed):
    """Makes pairs of automata of which the first is contained in the second, which is deterministic. Few of them accept
    nothing."""

    def automaton(self, deterministic: bool = False) -> bytes:
        texts = [super(Contained, self).automaton(deterministic) for _ in range(4)]
        return next((text for text in texts if has_accepting_lasso(read_one(text))), texts[0])

    def renamed(self, text: bytes) -> bytes:
        """The same automaton, its states with other numbers."""
        count = int(re.findall(rb"^States: (\d+)$", text, re.MULTILINE)[0])
        names = self.random.sample(range(count), count)
        head, body = text.split(b"--BODY--\n")
        lines = [self.targets_renamed(line, names) for line in renumbered(STATE, body, names).split(b"\n")]
        return renumbered(rb"^(Start: )(\d+)$", head, names) + b"--BODY--\n" + b"\n".join(lines)

    def targets_renamed(self, line: bytes, names: list[int]) -> bytes:
        """A line of a state with other numbers of the states that its edges lead to."""
        parts = re.findall(rb"\[[^]]*\]|\{[^}]*\}|[^\s]+", line)
        seen = 0
        for at, part in enumerate(parts):
            if part.isdigit():
                seen += 1
                if seen > 1:
                    parts[at] = b"%d" % names[int(part)]
        return b" ".join(parts)

    def thinned(self, text: bytes) -> bytes:
        """The automaton without the edges of a state."""
        lines = text.split(b"\n")
        body = lines.index(b"--BODY--")
        at = self.some(body + 1, len(lines) - 3)
        return b"\n".join([*lines[:at], b" ".join(lines[at].split(b" ")[:2]), *lines[at + 1:]])

    def together(self, one: bytes, other: bytes) -> bytes:
        """Both automata side by side, which have the same header but for their starts."""
        count = int(re.findall(rb"^States: (\d+)$", one, re.MULTILINE)[0])
        names = [*range(count, 2 * count)]
        head, body = one.removesuffix(b"--END--\n").split(b"--BODY--\n")
        more, further = other.removesuffix(b"--END--\n").split(b"--BODY--\n")
        starts = re.findall(rb"^Start: (\d+)$", more, re.MULTILINE)
        head = head.replace(b"States: %d" % count, b"States: %d" % (2 * count))
        head = head.replace(b"AP:", b"".join(b"Start: %d\n" % names[int(start)] for start in starts) + b"AP:", 1)
        further = renumbered(STATE, further, names)
        lines = [self.targets_renamed(line, names) for line in further.split(b"\n")]
        return head + b"--BODY--\n" + body + b"\n".join(lines) + b"--END--\n"

    def contained(self, number: int) -> tuple[bytes, bytes]:
        """A pair of which the first is contained in the second by construction."""
        if number % 4 == 0:
            return self.pair()
        other = self.automaton(True)
        if number % 4 == 1:
            return self.renamed(other), other
        if number % 4 == 2:
            return self.together(self.thinned(other), self.thinned(other)), other
        return meet(other, self.automaton()).stdout, other


def known_checks() -> Cases:
    for one, of_one in LANGUAGES:
        for other, of_other in LANGUAGES:
            within = all(of_other(*word) for word in WORDS if of_one(*word))
            back = all(of_one(*word) for word in WORDS if of_other(*word))
            yield f"contained: {shown(one)} in {shown(other)}", partial(contained_fault, one, other, within)
            yield f"equal: {shown(one)} to {shown(other)}", partial(equal_fault, one, other, within and back)
    for text in (NO_STARTS, NO_STATES, SETLESS):
        for other, _ in LANGUAGES:
            yield f"contained: {shown(text)} in {shown(other)}", partial(contained_fault, text, other)
            yield f"contained: {shown(other)} in {shown(text)}", partial(contained_fault, other, text)
            yield f"equal: {shown(other)} to {shown(text)}", partial(equal_fault, other, text)


def refused_fault(words: list[str], one: bytes, other: bytes, line: bytes) -> Fault:
    ran = beside(words, other, one)
    wanted = (1, b"", b"omega: " + line + b"\n")
    return None if (ran.returncode, ran.stdout, ran.stderr) == wanted else f"{told(ran)} for {wanted}"


def refusal_checks() -> Cases:
    """The file's text is judged before the input's, and both before what is asked of them."""
    good, bad, worse = LANGUAGES[0][0], b"HOA: v2 --BODY-- --END--", b"x"
    branching = good.replace(b"[0] 0", b"[0] 0&0")
    for words in (["contained", "--in"], ["equal", "--to"]):
        command, told_more = words[0], [*words[:1], "-v", *words[1:]]
        for one, other, line, place, cause in (
                (good, bad, b"20 Version", b"the other automaton", b""), (bad, good, b"20 Version", b"the automaton", b""),
                (worse, bad, b"20 Version", b"the other automaton", b""),
                (worse, good, b"3 Syntax at 0", b"the automaton", b"\nomega: line 1, column 1: 'x'"),
                (branching, bad, b"20 Version", b"the other automaton", b"")):
            yield f"{command} of {shown(one)} and {shown(other)}", partial(refused_fault, words, one, other, line)
            yield f"{command} -v of {shown(one)} and {shown(other)}", partial(
                refused_fault, told_more, one, other, line + b"\nomega: in " + place + cause)
        for one, other in ((branching, good), (good, branching)):
            yield f"{command} of {shown(one)} and {shown(other)}", partial(
                refused_fault, words, one, other, b"41 UniversalBranch")


def deep_checks() -> Cases:
    """Where a label of the product would be too deep, a counterexample is found all the same."""
    yield "meet, with the deepest label", partial(refused_fault, ["meet", "--with"], DEEP, ALWAYS_B, b"55 TooLarge")
    yield "contained, with the deepest label", partial(contained_fault, DEEP, ALWAYS_B, False)


def pair_checks() -> Cases:
    maker = Contained(2030)
    for number in range(500):
        one, other = maker.automaton(number % 3 == 0), maker.automaton(number % 8 != 0)
        if number % 6 == 1:
            other = other.replace(b'"b"', b'"c d"')
        yield f"contained, pair {number}: {one!r} in {other!r}", partial(contained_fault, one, other)
        yield f"contained, pair {number}: {other!r} in {one!r}", partial(contained_fault, other, one)
        if number % 5 == 0:
            yield f"equal, pair {number}: {one!r} to {other!r}", partial(equal_fault, one, other)
    for number in range(500):
        one, other = maker.contained(number)
        yield f"contained by construction, {number}: {one!r} in {other!r}", partial(contained_fault, one, other, True)
        yield f"contained, {number}, the other way: {other!r} in {one!r}", partial(contained_fault, other, one)
        if number % 2:
            union = (join(one, other) if number % 4 == 1 else join(other, one)).stdout
            yield f"contained, the union {number}: {union!r} in {other!r}", partial(contained_fault, union, other, True)
        if number % 4 == 1:
            yield f"equal by construction, {number}: {one!r} to {other!r}", partial(equal_fault, one, other, True)


def comparing_checks() -> Cases:
    yield from known_checks()
    yield from refusal_checks()
    yield from deep_checks()
    yield from pair_checks()
