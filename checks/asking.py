"""Questions asked of streams: what `empty`, `trim`, `complement`, `contained` and `satisfies` with `--stream` answer to
300 random streams is what they answer to each of its automata alone, in turn, and the refusal is that of the text, else
that of the first automaton that is refused. `empty` and `contained` write `aborted` for what is aborted, `satisfies`
writes it for each formula, and `trim` and `complement` leave it out, as `canon` does.

What the program says of one automaton is judged by other families.
"""
import random
import tempfile
from functools import partial

from automaton_texts import Maker
from program import Cases, Fault, Left, fault_of, output_of, run_of

ABORTED = b"HOA: v1 States: 3 --ABORT--\n"
QUESTIONS = (["empty", "--search"], ["empty", "--search", "--word"], ["empty", "--search", "--status"], ["empty"],
             ["empty", "--budget", "3"], ["trim"], ["complement"], ["satisfies", "-f", "G F p0"],
             ["satisfies", "-f", "p0 U p1", "--explain", "-f", "G(p0 -> X !p0)", "-f", "F p2 | 1"])
# What is contained in it: all words, those with a again and again, none.
OTHERS = (
    b'HOA: v1 States: 1 Start: 0 AP: 0 acc-name: all Acceptance: 0 t --BODY-- State: 0 [t] 0 --END--',
    b'HOA: v1 States: 1 Start: 0 AP: 1 "p0" acc-name: Buchi Acceptance: 1 Inf(0) '
    b'--BODY-- State: 0 [0] 0 {0} [!0] 0 --END--',
    b'HOA: v1 Acceptance: 0 t --BODY-- --END--',
)


def canon(text: bytes) -> bytes:
    return output_of(["canon", "--format", "hoa"], text)


def told_times(words: list[str]) -> int:
    """How often the line `aborted` is written for an aborted item."""
    return words.count("-f") if words[0] == "satisfies" else int(words[0] in ("empty", "contained"))


def answered(words: list[str], items: list[bytes]) -> Left:
    """The status, output and error wanted of a question asked of these items in turn, from what each has alone."""
    output, status = b"", 0
    for item in items:
        if item == ABORTED:
            output += b"aborted\n" * told_times(words) or canon(ABORTED)
            continue
        ran = run_of(words, item)
        if ran.returncode not in (0, 6):
            return ran.returncode, b"", ran.stderr
        output += ran.stdout
        status = max(status, ran.returncode)
    return status, output, b""


def stream_fault(words: list[str], items: list[bytes]) -> Fault:
    """What is wrong with what is said of a stream of these items, or nothing."""
    return fault_of([*words, "--stream"], b"".join(items), *answered(words, items))


def stopped_fault(words: list[str], text: bytes) -> Fault:
    """What is wrong with what is said of a text that is no stream, or nothing."""
    checked = run_of(["check", "--format", "hoa"], text)
    return fault_of([*words, "--stream"], text, checked.returncode, b"", checked.stderr)


def is_accepted(text: bytes) -> bool:
    return run_of(["check", "--format", "hoa"], text).returncode == 0


def contained_fault(items: list[bytes], other: bytes, more: list[str]) -> Fault:
    """What is wrong with what is said of containment of each item in another automaton, or nothing."""
    with tempfile.NamedTemporaryFile() as file:
        file.write(other)
        file.flush()
        wanted = answered(["contained", *more, "--in", file.name], items)
        return fault_of(["contained", "--stream", *more, "--in", file.name], b"".join(items), *wanted)


def asking_checks() -> Cases:
    maker, drawn = Maker(2026), random.Random(1127)
    accepted: list[bytes] = []
    while len(accepted) < 400:
        text = maker.automaton()
        if is_accepted(text):
            accepted.append(text)
    for words in QUESTIONS:
        yield f"{' '.join(words)} of no automata", partial(fault_of, [*words, "--stream"], b"", 0, b"")
        yield f"{' '.join(words)} of aborted ones", partial(stream_fault, words, [ABORTED, ABORTED])
    for number in range(300):
        items = [ABORTED if drawn.randrange(6) == 0 else drawn.choice(accepted) for _ in range(drawn.randint(1, 5))]
        words = QUESTIONS[number % len(QUESTIONS)]
        label = f"{' '.join(words)} of the random stream {number}"
        yield label, partial(stream_fault, words, items)
        text = b"".join(items)
        place = drawn.randrange(len(text))
        broken = text[:place] + drawn.choice([b"", b"9", b"(", b"$"]) + text[place + 1:]
        if not is_accepted(broken):
            yield f"{label}, broken at {place}", partial(stopped_fault, words, broken)
    for number in range(120):
        items = [ABORTED if drawn.randrange(6) == 0 else drawn.choice(accepted) for _ in range(drawn.randint(1, 4))]
        other = drawn.choice(OTHERS)
        yield f"contained of the random stream {number}", partial(contained_fault, items, other, [])
        yield f"contained --explain of the random stream {number}", partial(
            contained_fault, items, other, ["--explain"])
