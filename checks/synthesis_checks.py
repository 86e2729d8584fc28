"""What `realize` answers, and how `verify --specification` judges, against a plain solver with a node for each letter
of the environment. 1,000 random parity automata are asked for the answer, by the search and by lifting, for the game,
and for the winner's automaton, which is judged letter by letter. Each controller and each counter-strategy is judged
`yes` by the program, and altered ones as a slow judge says, with the reason.

The automata are deterministic, of the four kinds, and have up to 6 states and up to 4 propositions; edges are missing,
marks stand on states and on edges, labels on states, on edges and nowhere. Some have a fault, for which they are
refused. Each of the two is altered by an edge that is dropped, redirected or added, among others, and a controller is
judged for another automaton too. The judge of winners is tried with winners that were found by hand, and with wrong
ones.
"""
import itertools
import random
import re
from functools import partial

from automata import Refused, read_one
from comparing_checks import explained_fault, told
from counters import Contest, counter_judgeable, letterless_fault
from games import read_game, winners
from product_checks import beside
from program import Cases, Fault, Ran, run_of, shown
from realizability import Parted, asked, game_fault, is_controller, is_realizable, judgeable, lack_fault, lacks, parted
from realizability import winner_fault, winner_text
from specifications import ARBITRATES, ASKS, WINNERS, Altered, Specifications, first_that_holds

REALIZABLE, UNREALIZABLE = (0, b"realizable\n"), (6, b"unrealizable\n")
YES, NO = (0, b"yes\n"), (6, b"no\n")
LIFT = ["--lift"]


def answer_of(ran: Ran) -> tuple[int, bytes] | None:
    """Status and output of a run that wrote nothing on standard error."""
    return None if ran.stderr else (ran.returncode, ran.stdout)


def is_refused(ran: Ran, refused: Refused, status: int = 1) -> bool:
    return (ran.returncode, ran.stdout, ran.stderr) == (status, b"", f"omega: {refused}\n".encode())


def answer_fault(text: bytes, words: list[str]) -> Fault:
    """What is wrong with the line that is written of a text, or nothing."""
    return line_fault(text, run_of(["realize", *words], text))


def line_fault(text: bytes, ran: Ran) -> Fault:
    """What is wrong with a run that is to write that line, or nothing."""
    try:
        wanted = REALIZABLE if is_realizable(*asked(read_one(text))) else UNREALIZABLE
    except Refused as refused:
        return None if is_refused(ran, refused) else f"{told(ran)} for {refused}"
    return None if answer_of(ran) == wanted else f"{told(ran)} for {wanted}"


def written_fault(text: bytes, words: list[str]) -> Fault:
    """What is wrong with the winner's automaton that is written of a text, or nothing."""
    ran = run_of(["realize", "--controller", *words], text)
    try:
        asked_of, kind = asked(read_one(text))
    except Refused as refused:
        return None if is_refused(ran, refused) else f"{told(ran)} for {refused}"
    wins = is_realizable(asked_of, kind)
    if ran.stderr or ran.returncode != (0 if wins else 6):
        return f"{told(ran)} where {'a controller' if wins else 'a counter-strategy'} is wanted"
    fault = winner_fault(asked_of, ran.stdout, wins)
    return fault and f"{fault}, in {ran.stdout!r}"


def played_fault(text: bytes) -> Fault:
    """What is wrong with the game that is written of a text, or nothing."""
    ran = run_of(["realize", "--game"], text)
    try:
        asked_of, kind = asked(read_one(text))
    except Refused as refused:
        return None if is_refused(ran, refused) else f"{told(ran)} for {refused}"
    if ran.stderr or ran.returncode:
        return told(ran)
    nodes = read_game(ran.stdout)
    fault = game_fault(asked_of, kind, nodes)
    if fault:
        return f"{fault}, in {ran.stdout!r}"
    name = b'"state %d"' % asked_of.starts[0] if asked_of.starts else b'"sink"'
    first = next(number for number, node in nodes.items() if node.name == name)
    wins = first in winners(nodes, set(nodes))[0]
    return None if wins == is_realizable(asked_of, kind) else f"its winner is another, in {ran.stdout!r}"


def budget_fault(text: bytes, budget: int) -> Fault:
    """What is wrong with the answers within this budget and within the next, or nothing: each is refused or right, and
    the second is not refused if the first is not."""
    was_spent = True
    for limit in (budget, budget + 1):
        ran = run_of(["realize", "--lift", "--budget", str(limit)], text)
        is_spent = is_refused(ran, Refused("51 Budget"), 3)
        fault = None if is_spent and was_spent else line_fault(text, ran)
        if fault:
            return f"{limit}: {fault}"
        was_spent = is_spent
    return None


def judged_fault(specification: bytes, text: bytes) -> Fault:
    """What is wrong with how the program judges a controller of any making, or nothing."""
    ran = beside(["verify", "--specification"], specification, text)
    told_why = beside(["verify", "--explain", "--specification"], specification, text)
    judged_for = read_one(specification)
    try:
        controller = judgeable(judged_for, read_one(text))
    except Refused as refused:
        is_right = is_refused(ran, refused) and is_refused(told_why, refused)
        return None if is_right else f"{told(ran)}, {told(told_why)} for {refused}, of {text!r}"
    answer = YES if is_controller(judged_for, controller) else NO
    if answer_of(ran) != answer:
        return f"{told(ran)} for {answer}, of {text!r}"
    if told_why.stderr or told_why.returncode != answer[0] or not told_why.stdout.startswith(answer[1]):
        return f"--explain: {told(told_why)} for {answer}, of {text!r}"
    fault = reason_fault(specification, controller, text, told_why.stdout.removeprefix(answer[1]), answer == YES)
    return fault and f"--explain: {fault}: {told(told_why)}, of {text!r}"


def reason_fault(specification: bytes, controller: Parted, text: bytes, reason: bytes, is_right: bool) -> Fault:
    """What is wrong with the reason why a text is that of no controller, or nothing."""
    if is_right:
        return "a reason is given" if reason else None
    if not controller.starts:
        return None if reason == b"no start\n" else "there is no start"
    return lack_fault(controller, reason) if lacks(controller) else explained_fault(text, specification, reason)


def countered_fault(specification: bytes, text: bytes) -> Fault:
    """What is wrong with how the program judges a counter-strategy of any making, or nothing."""
    words = ["--counter-strategy", "--specification"]
    ran = beside(["verify", *words], specification, text)
    told_why = beside(["verify", "--explain", *words], specification, text)
    try:
        contest = counter_judgeable(read_one(specification), read_one(text))
    except Refused as refused:
        is_right = is_refused(ran, refused) and is_refused(told_why, refused)
        return None if is_right else f"{told(ran)}, {told(told_why)} for {refused}, of {text!r}"
    answer = YES if contest.is_won() else NO
    if answer_of(ran) != answer:
        return f"{told(ran)} for {answer}, of {text!r}"
    if told_why.stderr or told_why.returncode != answer[0] or not told_why.stdout.startswith(answer[1]):
        return f"--explain: {told(told_why)} for {answer}, of {text!r}"
    fault = contest_fault(contest, specification, text, told_why.stdout.removeprefix(answer[1]), answer == YES)
    return fault and f"--explain: {fault}: {told(told_why)}, of {text!r}"


def contest_fault(contest: Contest, specification: bytes, text: bytes, reason: bytes, is_right: bool) -> Fault:
    """What is wrong with the reason why a text is that of no counter-strategy, or nothing."""
    if is_right:
        return "a reason is given" if reason else None
    if contest.lacks_start():
        return None if reason == b"no start\n" else "there is no start"
    if contest.lacks_letter():
        return letterless_fault(contest, reason)
    return explained_fault(text, specification, reason, is_common=True)


def judge_checks() -> Cases:
    """The plain solver, and the judge of winners, on what was found by hand."""
    for text, wins, right, wrong in WINNERS:
        asked_of, kind = asked(read_one(text))
        yield f"the solver on {shown(text)}", None if is_realizable(asked_of, kind) == wins else "it says the other"
        for one in right:
            yield f"the judge on {shown(one)} of {shown(text)}", winner_fault(asked_of, one, wins)
            yield f"the judge on {shown(one)} as the other's", found_fault(asked_of, one, not wins)
        for what, one in wrong:
            yield f"the judge on {what} of {shown(text)}", found_fault(asked_of, one, wins)


def found_fault(asked_of: Parted, text: bytes, is_controller: bool) -> Fault:
    """That the judge finds no fault in a text that has one; or nothing."""
    return None if winner_fault(asked_of, text, is_controller) else "it is found right"


def altered_checks(label: str, text: bytes, controller: bytes, drawn: random.Random) -> Cases:
    """How the program judges the controller that it writes of a text, and altered ones."""
    yield f"{label}: its own controller", partial(own_fault, text, controller)
    for what, altered in Altered(controller, drawn).each():
        yield f"{label}: its controller with {what}", partial(judged_fault, text, altered)
    whole = winner_of_all(asked(read_one(text))[0])
    yield f"{label}: all of its edges", partial(judged_fault, text, whole)


def countered_checks(label: str, text: bytes, strategy: bytes, drawn: random.Random) -> Cases:
    """How the program judges the counter-strategy that it writes of a text, and altered ones."""
    yield f"{label}: its own counter-strategy", partial(own_counter_fault, text, strategy)
    for what, altered in Altered(strategy, drawn).each():
        yield f"{label}: its counter-strategy with {what}", partial(countered_fault, text, altered)
    whole = winner_of_all(asked(read_one(text))[0])
    yield f"{label}: all of its edges as a counter-strategy", partial(countered_fault, text, whole)


def own_counter_fault(text: bytes, strategy: bytes) -> Fault:
    ways: list[list[str]] = [[], ["--explain"]]
    for words in ways:
        ran = beside(["verify", *words, "--counter-strategy", "--specification"], text, strategy)
        if answer_of(ran) != YES:
            return f"{told(ran)}, of {strategy!r}"
    return countered_fault(text, strategy)


def winner_of_all(asked_of: Parted) -> bytes:
    return winner_text(asked_of, {move.number for move in asked_of.moves}, None)


def own_fault(text: bytes, controller: bytes) -> Fault:
    ways: list[list[str]] = [[], ["--explain"]]
    for words in ways:
        ran = beside(["verify", *words, "--specification"], text, controller)
        if answer_of(ran) != YES:
            return f"{told(ran)}, of {controller!r}"
    return judged_fault(text, controller)


# Faults of an automaton in the order in which they are refused, each with what is put in the place of something else.
Faults = dict[str, tuple[bytes, bytes]]
SOUND = (b"HOA: v1 States: 4 Start: 0 AP: 14 " + b" ".join(b'"p%d"' % number for number in range(14))
         + b" acc-name: parity max even 1 Acceptance: 1 Inf(0) controllable-AP: 13 "
         b"--BODY-- State: 0 [0] 3 [!0] 0 {0} State: 3 [t] 3 {0} --END--")
TWO_EDGES = (b"--END--", b"State: 2 [t] 0 [0&1] 2 --END--")
REALIZE_FAULTS: Faults = {
    "20 Version": (b"HOA: v1", b"HOA: v2"),
    "58 Controllable": (b"controllable-AP: 13", b"controllable-AP: 13 controllable-AP:"),
    "41 UniversalBranch": (b"State: 3 [t] 3", b"State: 3 [t] 3&3"),
    "56 NotDeterministic at 3": (b"Start: 0", b"Start: 0 Start: 3"),
    "56 NotDeterministic at 2": TWO_EDGES,
    "40 NotParity": (b"1 Inf(0)", b"1 Fin(0)"),
    "42 TooManyPropositions": (b"[0] 3 [!0] 0", b"[!0] 0 [0&" + b"&".join(b"%d" % at for at in range(1, 13)) + b"] 3"),
}
# Of a controller and the specification, in the order in which they are refused: whose fault it is, and what it is.
Whose = tuple[bytes, str, tuple[bytes, bytes]]
ITSELF, OTHER = b"the controller", b"the specification"
VERIFY_FAULTS: list[Whose] = [
    (OTHER, "20 Version", REALIZE_FAULTS["20 Version"]),
    (ITSELF, "20 Version", REALIZE_FAULTS["20 Version"]),
    (OTHER, "58 Controllable", REALIZE_FAULTS["58 Controllable"]),
    (ITSELF, "58 Controllable", (b"controllable-AP: 13", b"controllable-AP: 13 14")),
    (ITSELF, "58 Controllable", (b"controllable-AP: 13", b"controllable-AP:")),
    (ITSELF, "41 UniversalBranch", REALIZE_FAULTS["41 UniversalBranch"]),
    (ITSELF, "40 NotParity", (b"Acceptance: 0 t", b"Acceptance: 0 f")),
    (OTHER, "41 UniversalBranch", (b"Start: 0", b"Start: 0&0")),
    (OTHER, "56 NotDeterministic at 3", REALIZE_FAULTS["56 NotDeterministic at 3"]),
    (OTHER, "56 NotDeterministic at 2", TWO_EDGES),
]
# The same of a counter-strategy.
COUNTER = b"the counter-strategy"
COUNTER_FAULTS: list[Whose] = [
    (OTHER, "20 Version", REALIZE_FAULTS["20 Version"]),
    (COUNTER, "20 Version", REALIZE_FAULTS["20 Version"]),
    (OTHER, "58 Controllable", REALIZE_FAULTS["58 Controllable"]),
    (COUNTER, "58 Controllable", (b"controllable-AP: 13", b"controllable-AP: 13 14")),
    (COUNTER, "58 Controllable", (b"controllable-AP: 13", b"controllable-AP:")),
    (OTHER, "41 UniversalBranch", (b"Start: 0", b"Start: 0&0")),
    (OTHER, "56 NotDeterministic at 3", REALIZE_FAULTS["56 NotDeterministic at 3"]),
    (OTHER, "56 NotDeterministic at 2", TWO_EDGES),
    (COUNTER, "41 UniversalBranch", REALIZE_FAULTS["41 UniversalBranch"]),
    (COUNTER, "40 NotParity", (b"Acceptance: 0 t", b"Acceptance: 0 f")),
    (COUNTER, "56 NotDeterministic at 3", REALIZE_FAULTS["56 NotDeterministic at 3"]),
    (COUNTER, "56 NotDeterministic at 2", TWO_EDGES),
]
# What `--verbose` says is to be mended, of those whose line it is. The edges are numbered through the body.
CAUSES = {"56 NotDeterministic at 3": b"there are 2 starts",
          "56 NotDeterministic at 2": b"state 2: edges 3 and 4 can be taken together"}
ITS_CONTROLLER = re.sub(rb"acc-name: .* Inf\(0\)|\{0\} ", lambda it: b"Acceptance: 0 t" if it[0][:1] == b"a" else b"",
                        SOUND)


def run_beside(words: list[str], held: bytes | None, text: bytes) -> Ran:
    return run_of(words, text) if held is None else beside(words, held, text)


def unlike_fault(words: list[str], held: bytes | None, text: bytes, wanted: tuple[int, bytes]) -> Fault:
    """What a run leaves other than this status and output, or nothing."""
    ran = run_beside(words, held, text)
    return None if answer_of(ran) == wanted else f"{told(ran)} for {wanted}"


def refusal_fault(words: list[str], held: bytes | None, text: bytes, lines: list[bytes]) -> Fault:
    """What a run leaves other than a refusal by these lines, or nothing."""
    ran = run_beside(words, held, text)
    wanted = (1, b"", b"".join(b"omega: %s\n" % line for line in lines))
    return None if (ran.returncode, ran.stdout, ran.stderr) == wanted else f"{told(ran)} for {wanted}"


def refusal_checks() -> Cases:
    """Each fault, and each two: the first is refused."""
    ways: list[list[str]] = [[], ["--controller"], ["--game"], LIFT]
    yield "realize without a fault", partial(unlike_fault, ["realize"], None, SOUND, REALIZABLE)
    for (first, one), (second, other) in itertools.combinations_with_replacement(REALIZE_FAULTS.items(), 2):
        text = SOUND.replace(*one).replace(*other) if one != other else SOUND.replace(*one)
        for words in ways:
            yield f"realize {' '.join(words)} with {first} and {second}", partial(
                refusal_fault, ["realize", *words], None, text, [first.encode()])
    yield "verify --specification without a fault", partial(
        unlike_fault, ["verify", "--specification"], SOUND, ITS_CONTROLLER, YES)
    yield "verify --counter-strategy without a fault", partial(
        unlike_fault, ["verify", "--counter-strategy", "--specification"], SOUND, ITS_CONTROLLER, NO)
    judges: list[tuple[list[Whose], list[str]]] = [(VERIFY_FAULTS, []), (COUNTER_FAULTS, ["--counter-strategy"])]
    for faults, words in judges:
        for first_of, other_of in itertools.combinations_with_replacement(faults, 2):
            yield from both_refused(words, first_of, other_of)


def both_refused(words: list[str], first_of: Whose, other_of: Whose) -> Cases:
    """Two faults of the texts that `verify --specification` reads with these words: the first is refused."""
    held, text = SOUND, ITS_CONTROLLER
    for whose, _, fault in (first_of, other_of) if first_of != other_of else (first_of,):
        held, text = (held.replace(*fault), text) if whose == OTHER else (held, text.replace(*fault))
    lines = [first_of[1].encode(), b"in " + first_of[0], *([CAUSES[first_of[1]]] if first_of[1] in CAUSES else [])]
    label = f"verify {' '.join([*words, '--specification'])} with {first_of[:2]} and {other_of[:2]}"
    yield label, partial(refusal_fault, ["verify", *words, "--specification"], held, text, lines[:1])
    yield f"{label}, -v", partial(refusal_fault, ["verify", "-v", *words, "--specification"], held, text, lines)


def wide_checks() -> Cases:
    """As many propositions of the environment in one state as there may be, and one more. An edge for each and one more
    answer all letters; those with an odd number lose, so that the environment lets one of their propositions hold."""
    ways: list[list[str]] = [[], ["--controller"], ["--game"]]
    text = first_that_holds(12, [0, 1])
    asked_of, label = parted(read_one(text)), "12 propositions of the environment at once"
    lost = [winner_text(asked_of, {at}, {0: frozenset([at])}) for at in range(1, 12, 2)]
    ran = [run_of(["realize", *words], text) for words in ways]
    yield f"realize, {label}", None if answer_of(ran[0]) == UNREALIZABLE else told(ran[0])
    is_lost = ran[1].returncode == 6 and ran[1].stdout in lost
    yield f"realize --controller, {label}", None if is_lost else told(ran[1])
    nodes = read_game(ran[2].stdout)
    answers = [nodes[number].name or b"" for node in nodes.values() if b" class " in (node.name or b"")
               for number in node.successors]
    is_classed = sorted(answers) == sorted(b'"edge %d"' % at for at in range(13))
    yield f"realize --game, {label}", None if is_classed else f"its classes are answered by {answers}"
    yield "realize, 13 propositions of the environment at once", partial(
        refusal_fault, ["realize"], None, first_that_holds(13, [0]), [b"42 TooManyPropositions"])


def random_checks() -> Cases:
    maker, last, last_counter = Specifications(2031), ARBITRATES, ASKS
    for number in range(1000):
        text = maker.specification()
        label = f"the automaton {number}, {text!r}"
        yield f"realize, {label}", partial(answer_fault, text, [])
        yield f"realize --lift, {label}", partial(answer_fault, text, LIFT)
        yield f"realize --controller, {label}", partial(written_fault, text, [])
        yield f"realize --game, {label}", partial(played_fault, text)
        if number % 5 == 0:
            yield f"realize --controller --lift, {label}", partial(written_fault, text, LIFT)
            yield f"realize --lift --budget, {label}", partial(budget_fault, text, maker.some(0, 40))
        yield f"verify --specification, {label}: another's controller", partial(judged_fault, text, last)
        yield f"verify --counter-strategy, {label}: another's", partial(countered_fault, text, last_counter)
        ran = run_of(["realize", "--controller"], text)
        if (ran.returncode, ran.stderr) == (0, b""):
            last = ran.stdout
            yield from altered_checks(f"verify --specification, {label}", text, last, maker.random)
        elif (ran.returncode, ran.stderr) == (6, b""):
            last_counter = ran.stdout
            yield from countered_checks(f"verify --counter-strategy, {label}", text, last_counter, maker.random)


def synthesis_checks() -> Cases:
    yield from judge_checks()
    yield from refusal_checks()
    yield from wide_checks()
    yield from random_checks()
