"""Runs that are long enough to be reported. One of 67 million lifts writes the same output with `--progress` and
without, with standard error closed, full, and broken in the midst of a line. One of exactly three times as many lifts
as lie between two lines has two lines, and one whose budget is used up says of how many lifts. Emptiness and
realizability are reported for player 0. Of runs of a thousand million lifts the first line comes while they last,
before anything is written, and has the budget that no option gives.
"""
import errno
import select
import subprocess
import tempfile
from collections.abc import Sequence
from functools import partial

from program import OMEGA, SECONDS, Cases, Fault, difference, fault_of, shown
from shims import shim
from transfers import Streams, failing

# How many lifts lie between two lines.
BETWEEN = 67_108_864
# A budget that is used up a little after the first line, and the one that no option gives.
SMALL, MOST = 67_200_000, 1_099_511_627_776
# How many nodes have each of the priorities 1, 3 and 5 in games that take a little more lifts than lie between two
# lines, three times as many and not one more, and fifteen times as many.
FEW, THRICE, MANY = (406, 406, 406), (242, 847, 976), (1000, 1000, 1000)
# The same of each of three priorities in automata: a little more lifts, and a bound over the greatest budget.
EACH_EMPTY, EACH_UNREALIZABLE, EACH_OF_MANY = 260, 240, 600
PRIORITIES = (1, 3, 5)
Counts = tuple[int, int, int]
PARITY_6 = "parity max even 6 Acceptance: 6 Fin(5) & (Inf(4) | (Fin(3) & (Inf(2) | (Fin(1) & Inf(0)))))"
PARITY_7 = "parity max even 7 Acceptance: 7 Inf(6) | (Fin(5) & (Inf(4) | (Fin(3) & (Inf(2) | (Fin(1) & Inf(0))))))"


def odd(counts: Counts) -> list[int]:
    """So many of each odd priority, in rising order."""
    return [priority for priority, count in zip(PRIORITIES, counts) for _ in range(count)]


def lost_loop(counts: Counts) -> bytes:
    """A node of priority 1 that player 0 loses, by its loop, beside others with odd priorities, which lead to a loop
    that player 0 wins."""
    last = sum(counts)
    nodes = [f"{node} {priority} 0 {last if node else 0};" for node, priority in enumerate(odd(counts))]
    return "\n".join([f"parity {last};", *nodes, f"{last} 0 0 {last};\n"]).encode()


def measures(counts: Counts) -> int:
    """How many measures there are for player 0, without the greatest."""
    ones, threes, fives = counts
    return (ones + 1) * (threes + 1) * (fives + 1)


def solved(counts: Counts) -> bytes:
    """What `solve --player 0` writes of such a game. The lost node rises one lift at a time through all measures, and
    each of the others once."""
    last = sum(counts)
    lines = [f"player 0 lifts {measures(counts) + last - 1}", *(f"{node} {last};" for node in range(1, last + 1))]
    return "\n".join([*lines, ""]).encode()


def empty_automaton(each: int) -> bytes:
    """A start whose one edge is a bad loop, beside so many states with an edge of each odd priority, which lead to a
    good loop."""
    marks = odd((each, each, each))
    last = len(marks)
    states = "".join(f"State: {state} [t] {last if state else 0} {{{mark}}} " for state, mark in enumerate(marks))
    return (f"HOA: v1 States: {last + 1} Start: 0 acc-name: {PARITY_6} --BODY-- {states}"
            f"State: {last} [t] {last} {{0}} --END--").encode()


def empty_bound(each: int) -> int:
    """The bound of its emptiness game, which has a node for each state and each edge, and the sink. The sink alone has
    priority 1, so that there are twice as many measures. It rises through all of them, the start and its edge through
    each second one: these are four lifts for each measure of the others."""
    return (2 * (3 * each + 1) + 1) * 2 * measures((each, each, each))


def unrealizable_automaton(each: int) -> bytes:
    """The same, but the environment may leave the start, over an edge of a good priority greater than all others, for
    the other states in a row. It wins by the loop."""
    marks = odd((each, each, each))
    last = len(marks)
    states = "".join(f"State: {state} [t] {state + 1} {{{mark}}} " for state, mark in enumerate(marks) if state)
    return (f'HOA: v1 States: {last + 1} Start: 0 AP: 1 "e" controllable-AP: acc-name: {PARITY_7} --BODY-- '
            f"State: 0 [0] 0 {{1}} [!0] 1 {{6}} {states}State: {last} [t] {last} {{0}} --END--").encode()


def unrealizable_bound(each: int) -> int:
    """The bound of its game, which also has a node for each class of letters: two of the start and one of each other
    state. There are five lifts for each measure of the others: the loop has one node more."""
    return ((3 * each + 1) + 2 * (3 * each + 2) + 1) * 2 * measures((each, each, each))


def lines(made: Sequence[int], most: int) -> bytes:
    """The lines of progress for player 0 after so many lifts."""
    return "".join(f"player 0: {count} lifts of at most {most}\n" for count in made).encode()


def unheard_fault(error: str) -> Fault:
    """What is wrong with a run by a shell whose standard error is turned elsewhere, or nothing."""
    came = subprocess.run(["sh", "-c", f'"$0" "$@" {error}', OMEGA, "solve", "--player", "0", "--progress"],
                          input=lost_loop(FEW), capture_output=True, timeout=SECONDS)
    fault = difference("output", came.stdout, solved(FEW)) or difference("standard error", came.stderr, b"")
    return f"status {came.returncode}" if came.returncode else fault


def broken_line_fault() -> Fault:
    """What is wrong with a run whose standard error fails behind twelve bytes, or nothing. No more of the line is
    written then: one write fails."""
    with shim("portions") as (folder, path):
        asked = "solve --player 0 --progress", lost_loop(FEW), b""
        given = ["", "", failing(12, errno.EPIPE)]
        return Streams(folder, path).fault(asked, given, (0, solved(FEW), b"player 0: 67"), (0, 0, 1))


def lasting_fault(words: Sequence[str], held: bytes) -> Fault:
    """What is wrong with a run whose first line is to come through the pipe while it goes on, and before anything is
    written, or nothing. Then the run is ended."""
    with tempfile.TemporaryFile() as text:
        text.write(held)
        text.seek(0)
        run = subprocess.Popen([OMEGA, *words], stdin=text, stdout=subprocess.PIPE, stderr=subprocess.PIPE)
        with run:
            try:
                is_there = select.select([run.stderr], [], [], SECONDS)[0]
                came = run.stderr.readline() if is_there and run.stderr else b""
                ended = run.poll()
                written = select.select([run.stdout], [], [], 0)[0]
            finally:
                run.kill()
    if ended is not None:
        return f"the run ended with status {ended} before its first line was read: {shown(came)}"
    if written:
        return "something was written before the run ended"
    return difference("standard error", came, lines([BETWEEN], MOST))


def progress_checks() -> Cases:
    yield "without the option", partial(fault_of, ["solve", "--player", "0"], lost_loop(FEW), 0, solved(FEW))
    yield "standard error is closed", partial(unheard_fault, "2>&-")
    yield "standard error is full", partial(unheard_fault, "2>/dev/full")
    yield "standard error fails in the midst of a line", broken_line_fault
    # No line comes at the end, where no lift is due.
    bound = (sum(THRICE) + 1) * measures(THRICE)
    yield "the lifts of three lines, of which two come", partial(
        fault_of, ["solve", "--player", "0", "--progress"], lost_loop(THRICE), 0, solved(THRICE),
        lines([BETWEEN, 2 * BETWEEN], bound))
    yield "a budget that is used up", partial(
        fault_of, ["solve", "--lenient", "--progress", "--budget", str(SMALL)], lost_loop(MANY), 3, b"",
        lines([BETWEEN], SMALL) + b"omega: 51 Budget\n")
    yield "emptiness", partial(fault_of, ["empty", "--progress"], empty_automaton(EACH_EMPTY), 0, b"empty\n",
                               lines([BETWEEN], empty_bound(EACH_EMPTY)))
    yield "realizability", partial(
        fault_of, ["realize", "--progress", "--lift"], unrealizable_automaton(EACH_UNREALIZABLE), 6, b"unrealizable\n",
        lines([BETWEEN], unrealizable_bound(EACH_UNREALIZABLE)))
    for words, held in ((["solve", "--player", "0", "--progress"], lost_loop(MANY)),
                        (["empty", "--progress"], empty_automaton(EACH_OF_MANY)),
                        (["realize", "--progress", "--controller", "--lift"], unrealizable_automaton(EACH_OF_MANY))):
        yield f"the first line of {' '.join(words)} comes while it lasts", partial(lasting_fault, words, held)
