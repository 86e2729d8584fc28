"""What `realize -f` answers for formulas of linear temporal logic, and how `verify -f` judges controllers and
counter-strategies for them, against games of counting on tableaux. 500 random formulas of one or two inputs and outputs
are asked for the answer, for the winner's automaton, and for the game; the system's names are listed, or the
environment's, or both. Each automaton that is written is judged letter by letter, and `yes` by the program, and no two
of its states are equal. Altered ones are judged as a slow judge says, with the reason.

Where the counts that are tried do not tell the winner, it is that of the game of the automaton that `ltl
--deterministic` writes, which *exact* judges. For some formulas of one input and one output all strategies of two
states are tried too; and tableaux are compared with an evaluation of words. An automaton is judged for a formula by the
formula's tableau. It is altered as for *synthesis*. Names that the formula does not have are refused, and so is an
automaton whose item says something else than the list.
"""
import functools
import itertools
import random
import re
from functools import partial

from automata import Automaton, Refused, canonical as canonical_automaton, read_one
from comparing_checks import told
from containing import formula_of
from emptiness import lasso_fault, reached_from, read_lasso
from formulas import Formula, canonical, names_of, read_formula, satisfies
from games import read_game, winners
from ltl import along_fault, explained_fault
from machines import starts_of, steps_of
from products import accepts, names_of as propositions_of, valuations
from program import Cases, Fault, run_of, shown
from realizability import ITEM, Parted, asked, controlled_of, has_item, is_realizable as is_game_won
from realizability import kept_moves, lack_fault, lacks, parted, single
from specifications import ARBITRATES, ASKS, Altered
from spoken import PLAIN, Speaking
from tableaux import Steps, all_words_satisfy, is_realizable, some_word_satisfies, temporal_parts
from words import NoWord, admitted, read_word

REALIZABLE, UNREALIZABLE = (0, b"realizable\n"), (6, b"unrealizable\n")
YES, NO = (0, b"yes\n"), (6, b"no\n")
COUNTER = "--counter-strategy"
# Of temporal parts in a random formula, so that its tableau is small.
MOST_PARTS = 6


def listed(names: list[bytes]) -> str:
    return b",".join(names).decode()


class Asked:
    """A formula by its text, with the names that the system decides."""

    def __init__(self, text: bytes, outs: list[bytes], known: bool | None = None) -> None:
        self.text, self.tree, self.outs, self.known = text, read_formula(text), outs, known
        self.names = names_of(self.tree)
        self.ins = [name for name in self.names if name not in outs]

    def __repr__(self) -> str:
        return f"{self.text!r} --outs {listed(self.outs)}"

    def words(self) -> list[str]:
        return ["-f", self.text.decode(), "--outs", listed(self.outs)]

    @functools.cached_property
    def is_realizable(self) -> bool:
        """Whether it can be realized, if that is not known: by counting, or else by the game of a deterministic
        automaton."""
        found = self.known if self.known is not None else is_realizable(self.tree, self.outs)
        if found is None:
            text = run_of(["ltl", "--deterministic", *self.words()[:2]], b"").stdout
            own = b" ".join([ITEM, *(b"%d" % self.names.index(name) for name in self.names if name in self.outs)])
            found = is_game_won(*asked(read_one(re.sub(rb"(?m)^AP:.*$", lambda it: it[0] + b"\n" + own, text))))
        return found


# ---- what is answered


def answer_fault(asked_of: Asked) -> Fault:
    """What is wrong with the line that is written of a formula, or nothing."""
    ran, wanted = run_of(["realize", *asked_of.words()], b""), REALIZABLE if asked_of.is_realizable else UNREALIZABLE
    return None if (ran.returncode, ran.stdout, ran.stderr) == (*wanted, b"") else f"{told(ran)} for {wanted}"


def header_fault(asked_of: Asked, automaton: Automaton, made: Parted) -> Fault:
    """What is wrong with the header of a winner's automaton, or nothing."""
    names = [b'"' + name + b'"' for name in asked_of.names]
    own = [b"%d" % number for number, name in enumerate(asked_of.names) if name in asked_of.outs]
    wanted = [(b"AP:", (len(names), names)), (b"acc-name:", [b"all"]), (b"Acceptance:", (0, ("t",)))]
    items = [item for item in automaton.items if item[0] not in (b"States:", b"Start:")]
    if items[:-1] != wanted or items[-1][1][0] != ITEM or sorted(items[-1][1][1]) != sorted(own):
        return f"its header is {automaton.items}"
    starts = starts_of(automaton)
    reached = reached_from(starts, made.moves)
    if len(starts) != 1 or len(reached) != automaton.first(b"States:", 0):
        return f"it starts in {starts} and reaches {len(reached)} states"
    return None


def controller_fault(asked_of: Asked, automaton: Automaton) -> Fault:
    """Why an automaton is no controller for a formula, or nothing."""
    controller = sided(automaton, asked_of.outs)
    if not controller.starts:
        return "there is no start"
    if lacks(controller):
        return f"it has no answer at {lacks(controller)[0]}"
    is_right = all_words_satisfy(steps_of(automaton), starts_of(automaton), propositions_of(automaton), asked_of.tree)
    return None if is_right else "a word does not satisfy the formula"


def counter_fault(asked_of: Asked, automaton: Automaton) -> Fault:
    """Why a deterministic automaton is no counter-strategy for a formula, or nothing."""
    strategy = sided(automaton, asked_of.outs)
    if not strategy.starts:
        return "there is no start"
    if letterless(strategy):
        return f"there is no letter in {letterless(strategy)}"
    is_wrong = some_word_satisfies(steps_of(automaton), starts_of(automaton), propositions_of(automaton), asked_of.tree)
    return "a word satisfies the formula" if is_wrong else None


def equal_fault(automaton: Automaton) -> Fault:
    """Which states of an automaton are equal, since they lead at the same letters to equal states, or nothing."""
    steps = steps_of(automaton)
    classes = dict.fromkeys(steps, 0)
    for _ in steps:
        led = {state: frozenset((letter, classes[target]) for letter, target in steps[state]) for state in steps}
        numbers = {one: number for number, one in enumerate({*led.values()})}
        classes = {state: numbers[led[state]] for state in steps}
    return f"some states are equal: {classes}" if len({*classes.values()}) < len(classes) else None


def sided(automaton: Automaton, outs: list[bytes]) -> Parted:
    """The automaton with its propositions parted by their names."""
    made = parted(automaton)
    names = propositions_of(automaton)
    made.controlled = [number for number, name in enumerate(names) if name in outs]
    made.inputs = [number for number, name in enumerate(names) if name not in outs]
    return made


def letterless(strategy: Parted) -> list[int]:
    """The states that a strategy reaches and in which the environment has no letter at all of whose answers it goes on.
    """
    steps, names = steps_of(strategy.automaton), propositions_of(strategy.automaton)
    given = frozenset(names[number] for number in strategy.inputs)
    found = []
    for state in sorted(reached_from(strategy.starts, kept_moves(strategy, {move.number for move in strategy.moves}))):
        answered = {letter for letter, _ in steps[state]}
        answers = 2 ** len(strategy.controlled)
        if not any(sum(letter & given == one for letter in answered) == answers for one in valuations([*given])):
            found.append(state)
    return found


def written_fault(asked_of: Asked) -> Fault:
    """What is wrong with the winner's automaton that is written of a formula, or with how it is judged; or nothing."""
    ran, wins = run_of(["realize", "--controller", *asked_of.words()], b""), asked_of.is_realizable
    if ran.stderr or ran.returncode != (0 if wins else 6):
        return f"{told(ran)} where {'a controller' if wins else 'a counter-strategy'} is wanted"
    try:
        automaton = read_one(ran.stdout)
        made = parted(automaton) if wins else single(parted(automaton))
    except Refused as refused:
        return f"what is written is refused {refused}: {ran.stdout!r}"
    fault = header_fault(asked_of, automaton, made)
    if canonical_automaton(automaton) != ran.stdout:
        fault = "it is not canonical"
    fault = fault or (controller_fault if wins else counter_fault)(asked_of, automaton) or equal_fault(automaton)
    fault = fault or judged_fault(asked_of, ran.stdout, [] if wins else [COUNTER], True)
    return fault and f"{fault}, of {ran.stdout!r}"


def played_fault(asked_of: Asked) -> Fault:
    """What is wrong with the winner of the game that is written of a formula, or nothing."""
    ran = run_of(["realize", "--game", *asked_of.words()], b"")
    if ran.stderr or ran.returncode:
        return told(ran)
    try:
        nodes = read_game(ran.stdout)
    except Refused as refused:
        return f"what is written is refused {refused}: {ran.stdout!r}"
    named = {node.name: number for number, node in nodes.items()}
    first = named.get(b'"state 0"', named.get(b'"sink"'))
    wins = first in winners(nodes, set(nodes))[0]
    return None if wins == asked_of.is_realizable else f"its winner is another, in {ran.stdout!r}"


def listing_fault(asked_of: Asked, more: list[str]) -> Fault:
    """Whether the environment's names, or both lists, say the same as the system's, or what is wrong."""
    first = run_of(["realize", *more, *asked_of.words()], b"")
    backwards = listed(asked_of.ins[::-1]), listed([name for name in asked_of.names[::-1] if name in asked_of.outs])
    for ins, outs in ((True, False), (True, True)):
        words = [*["--ins", backwards[0]] * ins, *["--outs", backwards[1]] * outs]
        ran = run_of(["realize", *words, *more, *asked_of.words()[:2]], b"")
        if (ran.returncode, ran.stdout, ran.stderr) != (first.returncode, first.stdout, first.stderr):
            return f"{words}: {told(ran)} for {told(first)}"
    return None


# ---- automata of any making


def judgeable(asked_of: Asked, text: bytes, is_counter: bool) -> Automaton:
    """An automaton that can be judged for a formula; refused by the first of its text's refusals, 58 for the list or
    for the item, 41 and 40, and for a strategy 56."""
    automaton = read_one(text)
    if not {*asked_of.outs} <= {*asked_of.names}:
        raise Refused("58 Controllable")
    own = sorted(controlled_of(automaton))
    if has_item(automaton) and own != sided_numbers(automaton, asked_of.outs):
        raise Refused("58 Controllable")
    made = parted(automaton)
    sets, formula = formula_of(automaton)
    if sets or formula != ("t",):
        raise Refused("40 NotParity")
    if is_counter:
        single(made)
    return automaton


def sided_numbers(automaton: Automaton, outs: list[bytes]) -> list[int]:
    return [number for number, name in enumerate(propositions_of(automaton)) if name in outs]


def judged_fault(asked_of: Asked, text: bytes, words: list[str], known: bool | None = None) -> Fault:
    """What is wrong with how the program judges a text as a controller, or as a counter-strategy, or nothing."""
    given = ["verify", *words, *asked_of.words()]
    ran, explained = run_of(given, text), run_of([*given, "--explain"], text)
    try:
        automaton = judgeable(asked_of, text, bool(words))
    except Refused as refused:
        wanted = (1, b"", f"omega: {refused}\n".encode())
        came = [(one.returncode, one.stdout, one.stderr) for one in (ran, explained)]
        return None if came == [wanted, wanted] else f"{told(ran)}, {told(explained)} for {refused}, of {text!r}"
    fault = (counter_fault if words else controller_fault)(asked_of, automaton)
    answer = NO if fault else YES
    if (ran.returncode, ran.stdout, ran.stderr) != (*answer, b"") or known is not None and known != (not fault):
        return f"{told(ran)} for {answer}, {fault}, of {text!r}"
    if explained.stderr or explained.returncode != answer[0] or not explained.stdout.startswith(answer[1]):
        return f"--explain: {told(explained)} for {answer}, of {text!r}"
    reason = explained.stdout.removeprefix(answer[1])
    wrong = "it is explained" if reason else None
    if fault:
        wrong = reason_fault(asked_of, automaton, text, reason, bool(words))
    return wrong and f"--explain: {wrong}: {told(explained)}, of {text!r}"


def reason_fault(asked_of: Asked, automaton: Automaton, text: bytes, reason: bytes, is_counter: bool) -> Fault:
    """What is wrong with the reason why a text is judged `no`, or nothing."""
    made = sided(automaton, asked_of.outs)
    if not made.starts:
        return None if reason == b"no start\n" else "there is no start"
    if not is_counter:
        return lack_fault(made, reason) if lacks(made) else explained_fault(text, asked_of.tree, reason)
    return stuck_fault(made, reason) if letterless(made) else common_fault(automaton, asked_of.tree, reason)


def stuck_fault(strategy: Parted, reason: bytes) -> Fault:
    """What is wrong with the lines that say in which state the environment has no letter, or nothing."""
    told_of = re.fullmatch(rb"state (\d+)\nstem((?: \d+)*)\n", reason)
    if not told_of:
        return "no state with a stem"
    at = {*strategy.starts}
    for number in map(int, told_of[2].split()):
        at = {move.targets[0] for move in kept_moves(strategy, {number}) if move.source in at}
    if int(told_of[1]) not in at:
        return f"the stem leads to {at}"
    return None if int(told_of[1]) in letterless(strategy) else "the environment has a letter there"


def common_fault(automaton: Automaton, tree: Formula, reason: bytes) -> Fault:
    """What is wrong with the lasso and the word that say that an automaton accepts what satisfies a formula, or
    nothing."""
    stem_line, cycle_line, line = (reason.split(b"\n", 2) + [b"", b""])[:3]
    lasso = read_lasso(stem_line + b"\n" + cycle_line + b"\n")
    fault = lasso_fault(automaton, *lasso) if lasso else "there is no lasso"
    if lasso is None or fault:
        return fault
    names = [*dict.fromkeys(propositions_of(automaton) + names_of(tree))]
    letters, drawn = valuations(names), random.Random(line)
    try:
        stem, cycle = read_word(line)
        for choose in (lambda some: some[0], lambda some: some[-1], drawn.choice, drawn.choice):
            word = admitted(stem, letters, choose), admitted(cycle, letters, choose)
            if not accepts(automaton, *word) or not satisfies(tree, *word):
                return f"{shown(line)} admits {word}, which does not show it"
        return along_fault(automaton, lasso[0] + lasso[1], line, names)
    except NoWord as why:
        return f"{shown(line)}: {why}"


# ---- random formulas


class Requirements(Speaking):
    """Makes formulas about what a system is to do."""

    def sides(self) -> tuple[list[bytes], list[bytes]]:
        """The names of the environment and of the system."""
        sides: list[tuple[list[bytes], list[bytes]]] = [
            ([b"r"], [b"s"]), ([b"r", b"q"], [b"s"]), ([b"r"], [b"s", b"p1"]),
            ([b"r", b"_q"], [b"s", b"a"]), ([], [b"s"]), ([b"r"], [b"s"])]
        ins, outs = self.random.choice(sides)
        return list(ins), list(outs)

    def requirement(self, ins: list[bytes], outs: list[bytes]) -> Formula:
        """One of the forms that requirements have, of small parts."""
        size = self.random.randint
        asks = self.tree(size(1, 3), ins or outs)
        does, other = self.tree(size(1, 3), outs), self.tree(size(1, 3), ins + outs)
        return self.random.choice([
            ("G", ("->", asks, ("F", does))), ("G", ("->", asks, ("X", does))), ("G", ("->", asks, does)),
            ("G", ("F", does)), ("F", ("G", does)), ("->", ("G", ("F", asks)), ("G", ("F", does))), ("G", other),
            ("G", ("<->", does, ("X", asks))), ("U", does, asks), ("W", ("!", does), asks), ("R", asks, does),
            ("<->", ("F", asks), ("G", does)), ("xor", ("G", asks), does), other])

    def formula(self, number: int, ins: list[bytes], outs: list[bytes]) -> Formula:
        if number % 3 == 0:
            return self.tree(2 + number % 9, ins + outs)
        tree = self.requirement(ins, outs)
        for _ in range(number % 3 - 1 + number % 2):
            tree = (self.random.choice(["&", "&", "&", "->", "|"]), tree, self.requirement(ins, outs))
        return tree

    def asked(self, number: int) -> Asked:
        """A formula with the names of the system that it has, one of which there is."""
        while True:
            ins, outs = self.sides()
            tree = self.formula(number, ins, outs)
            own = [name for name in outs if name in names_of(tree)]
            if own and len(temporal_parts(tree)) <= MOST_PARTS:
                return Asked(self.text(tree), own)


def altered_fault(asked_of: Asked, seed: int) -> Fault:
    """What is wrong with how the program judges the winner's automaton, altered in several ways, or nothing."""
    ran = run_of(["realize", "--controller", *asked_of.words()], b"")
    if ran.stderr:
        return told(ran)
    words = [COUNTER] if ran.returncode else []
    for what, text in Altered(ran.stdout, random.Random(seed)).each():
        fault = judged_fault(asked_of, text, words)
        if fault:
            return f"{what}: {fault}"
    return None


def random_checks() -> Cases:
    maker = Requirements(2081)
    for number in range(500):
        asked_of = maker.asked(number)
        yield f"realize {asked_of}", partial(answer_fault, asked_of)
        yield f"realize --controller {asked_of}", partial(written_fault, asked_of)
        if number % 4 == 0:
            yield f"realize --game {asked_of}", partial(played_fault, asked_of)
            yield f"realize by --ins, {asked_of}", partial(
                listing_fault, asked_of, maker.random.choice([[], ["--controller"], ["--game"]]))
        if number < 120 and len(asked_of.ins) == len(asked_of.outs) == 1 and len(temporal_parts(asked_of.tree)) < 5:
            yield f"all small strategies for {asked_of}", partial(tried_fault, asked_of)
        if number % 2 == 0:
            yield f"the winner of {asked_of}, altered", partial(altered_fault, asked_of, number)


def found_by_trying(asked_of: Asked) -> bool | None:
    """Whether a formula of one input and one output can be realized, if a system of two states realizes it, or an
    environment of two states defeats all systems; none if neither is so."""
    (given,), (own,), bits = asked_of.ins, asked_of.outs, (0, 1)

    def letter(asks: int, answers: int) -> frozenset[bytes]:
        return frozenset([given] * asks + [own] * answers)
    # In each state, for each letter of the environment, an answer and the state that follows.
    for choices in itertools.product(itertools.product(bits, bits), repeat=4):
        steps: Steps = {state: [(letter(asks, choices[2 * state + asks][0]), choices[2 * state + asks][1])
                                for asks in bits] for state in bits}
        if all_words_satisfy(steps, [0], asked_of.names, asked_of.tree):
            return True
    # In each state a letter of the environment, and for each answer the state that follows.
    for letters in itertools.product(itertools.product(bits, bits, bits), repeat=2):
        steps = {state: [(letter(letters[state][0], answers), letters[state][1 + answers]) for answers in bits]
                 for state in bits}
        if not some_word_satisfies(steps, [0], asked_of.names, asked_of.tree):
            return False
    return None


def tried_fault(asked_of: Asked) -> Fault:
    """Whether the counts say something else of a formula than all strategies of two states, or nothing."""
    found = found_by_trying(asked_of)
    return None if found in (None, asked_of.is_realizable) else f"by strategies of two states it is {found}"


# Formulas whose answers were found by hand: the text, the system's names, and whether there is a controller.
KNOWN: list[tuple[bytes, list[bytes], bool]] = [
    (b"G(r1 -> F g1) & G(r2 -> F g2) & G !(g1 & g2)", [b"g1", b"g2"], True),
    (b"G(r1 -> g1) & G(r2 -> g2) & G !(g1 & g2)", [b"g1", b"g2"], False),
    (b"G(s <-> r)", [b"s"], True), (b"G(s <-> X r)", [b"s"], False), (b"G(X s <-> r)", [b"s"], True),
    (b"G F s & G F !s", [b"s"], True), (b"G F r -> G F s", [b"s"], True), (b"G F s -> G F r", [b"s"], True),
    (b"F r & (s | !s)", [b"s"], False), (b"F s", [b"s"], True), (b"G(busy -> !g) & G F g", [b"g"], False),
    (b"G F !busy -> (G(busy -> !g) & G F g)", [b"g"], True), (b"F G r <-> F G s", [b"s"], True),
    (b"r <-> F s", [b"s"], True), (b"s <-> F r", [b"s"], False), (b"s & X !s", [b"s"], True),
    (b"G(s -> X r) & F s", [b"s"], False), (b"(s U r) | G !r", [b"s"], True), (b"0 & s", [b"s"], False),
    (b"1 | s", [b"s"], True)]


def known_checks() -> Cases:
    for text, outs, wins in KNOWN:
        asked_of = Asked(text, outs)
        yield f"the slow judge on {asked_of}", None if asked_of.is_realizable == wins else f"it does not say {wins}"
        for fault in (answer_fault, written_fault, played_fault):
            yield f"{fault.__name__} of {asked_of}", partial(fault, asked_of)
        yield f"the winner of {asked_of}, altered", partial(altered_fault, asked_of, 7)
    echo = Asked(b"G(r -> g)", [b"g"])
    judged: list[tuple[bytes, list[str], bool | None]] = [
        (ARBITRATES, [], True), (ASKS, [], None), (ARBITRATES, [COUNTER], False),
        (ASKS.replace(b"AP:\n", b"AP: 1\n"), [COUNTER], False)]
    for text, words, known in judged:
        yield f"verify {' '.join(words)} {echo} of {text!r}", partial(judged_fault, echo, text, words, known)


def wrong_name_fault(subcommand: str, words: list[str]) -> Fault:
    """What a run leaves other than refusal 58, or nothing."""
    ran = run_of([subcommand, "-f", "G(r -> g)", *words], ARBITRATES if subcommand == "verify" else b"")
    wanted = (1, b"", b"omega: 58 Controllable\n")
    return None if (ran.returncode, ran.stdout, ran.stderr) == wanted else told(ran)


def tableau_fault(tree: Formula, seed: int) -> Fault:
    """A word of which the tableau of a formula says something else than an evaluation, or nothing."""
    drawn, names = random.Random(seed), names_of(tree)
    for _ in range(5):
        word = [frozenset(name for name in names if drawn.random() < 0.5) for _ in range(drawn.randint(1, 5))]
        stem = drawn.randrange(len(word))
        steps: Steps = {at: [(letter, at + 1 if at + 1 < len(word) else stem)] for at, letter in enumerate(word)}
        if some_word_satisfies(steps, [0], names, tree) != satisfies(tree, word[:stem], word[stem:]):
            return f"{word[:stem]}, again and again {word[stem:]}"
    return None


def tableau_checks() -> Cases:
    speaking = Speaking(2082)
    for number in range(150):
        tree = speaking.tree(1 + number % 9, PLAIN)
        yield f"the tableau of {canonical(tree)!r}", partial(tableau_fault, tree, number)


def name_checks() -> Cases:
    ways: list[list[str]] = [[], ["--controller"], ["--game"]]
    for words in (["--outs", "h"], ["--outs", "g,h"], ["--ins", "h"], ["--ins", "r,h"], ["--ins", "r", "--outs", "h"],
                  ["--ins", "r,g", "--outs", "g"], ["--ins", "r,h", "--outs", "g"]):
        for more in ways:
            yield f"realize {' '.join(words + more)}", partial(wrong_name_fault, "realize", words + more)
    ways = [[], [COUNTER], ["--explain"]]
    for words in (["--outs", "h"], ["--outs", "g,h"], ["--outs", "r"], ["--outs", "r,g"]):
        for more in ways:
            yield f"verify {' '.join(words + more)}", partial(wrong_name_fault, "verify", words + more)


def realizing_checks() -> Cases:
    yield from tableau_checks()
    yield from known_checks()
    yield from name_checks()
    yield from random_checks()
