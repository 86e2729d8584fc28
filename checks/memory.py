"""Every request for memory refused, one by one and each together with all after it, in some hundred runs. A run ends
with the line `omega: 60 Memory`, status 4 and no output, or exactly as with ample memory; or with `-v`, without the
last line of a refusal, which says where or what, or with the lines on a search before that of the refusal. Runs that differ in nothing but their lifts make as many requests: a
solver that was made requests none.
"""
import os
import subprocess
from collections.abc import Sequence
from functools import partial

from program import OMEGA, SECONDS, Cases, Fault, Left, shown
from shims import shim
from specifications import ARBITER, ARBITRATES, ASKS, GOALS, GUESS, SERVANT, SERVES, SURPRISES

REFUSED = (4, b"", b"omega: 60 Memory\n")

TWO = b"0 1 0 1; 1 2 1 0;"
GAPS = b'parity 9; 9 3 1 4; 4 2 0 9,4 "a";'
CARRY = b"0 1 0 0; 1 0 0 1; 2 3 0 2; 3 1 1 2,0;"
CHOICE = b"0 0 0 1,2; 1 1 1 0; 2 2 1 0;"
# Five successors a node.
DENSE = b"0 0 0 0,0,0,0,1; 1 1 1 1,1,1,1,0;"
PARTED = b"0 0 0 1; 1 1 1 1; 2 2 0 0;"
# With a dead end, a comment and a name that is not kept.
LENIENT = b'start 0; 0 1 0 1 "n\xc3\xa4"; // two\n1 2 1'

BUCHI = b'HOA: v1 States: 1 Start: 0 AP: 1 "a" acc-name: Buchi Acceptance: 1 Inf(0) --BODY-- State: 0 [0] 0 {0} --END--'
ABORTED = b"HOA: ( & 7 nonsense --ABORT-- /*a/*b*/c*/ HOA: v1 Acceptance: 0 t --BODY-- --END--"
ALIASES = (b'HOA: v1 AP: 1 "a" Acceptance: 0 t Alias: @a0 0&0 Alias: @a1 @a0&@a0 Alias: @a2 @a1&@a1 --BODY-- '
           b"State: [@a2] 0 --END--")
WRITTEN = (b'HOA: v1 States: 1 Start: 0 AP: 1 "a" Alias: @b 0|t Acceptance: 1 Inf(0) acc-name: Buchi --BODY-- State: 0 '
           b"[!@b&0] 0 {0 0} --END--")
TWO_SETS = (b"HOA: v1 States: 2 Start: 0 acc-name: generalized-Buchi 2 Acceptance: 2 Inf(0)&Inf(1) --BODY-- "
            b"State: 0 [t] 0 {0} [t] 1 State: 1 [t] 0 {1} --END--")

# Two states that go, one of an edge without label, whose partner gets one.
PRUNED = (b'HOA: v1 name: "n" States: 3 Start: 0 Start: 2 AP: 1 "a" Acceptance: 2 Fin(0)&Inf(1) --BODY-- '
          b'State: 0 "s" 0 {1} 1 State: 1 [t] 1 {0 1} State: 2 [0] 1')

# Labels and formulas with parentheses and an alias, and names that are long or are written otherwise in a drawing.
NESTED = (b'HOA: v1 name: "' + b'\\"\\\\&' * 9 + b'" AP: 3 "a" "b" "c" Start: 0 Alias: @a 1|2 '
          b'Acceptance: 3 (Inf(0) & Fin(!1)) | t & (f | Inf(2)) --BODY-- State: 0 "' + b"n" * 40 +
          b'" [!(0 & @a) | (t | !!f) & 2] 0 {0} --END--')
# Names of which one is no identifier, and a letter on the way and one on the cycle.
LETTERS = (b'HOA: v1 States: 2 Start: 0 AP: 3 "a b" "c" "_d" acc-name: Buchi Acceptance: 1 Inf(0) --BODY-- '
           b"State: 0 [!0&1] 1 State: 1 [0&(1|2)] 1 {0} [t] 0 --END--")
# Three states, of which the last has the one closed walk that is accepted.
GRAPH = (b"HOA: v1 States: 3 Start: 0 Acceptance: 2 Fin(0)&Inf(1) --BODY-- State: 0 [t] 1 {0} State: 1 [t] 0 {1} [t] 2 "
         b"State: 2 [t] 2 {1} --END--")
# Labels over more propositions than all valuations are gone through for: one that can be true, and one that cannot.
MANY = (b"HOA: v1 States: 1 Start: 0 AP: 20 " + b" ".join(b'"p%d"' % n for n in range(20)) +
        b" Acceptance: 0 t --BODY-- State: 0 [%s] 0 --END--")
EACH = b"&".join(b"%d" % n for n in range(20))

OFTEN = (b'HOA: v1 States: 1 Start: 0 AP: 1 "a" acc-name: Buchi Acceptance: 1 Inf(0) --BODY-- '
         b"State: 0 [0] 0 {0} [!0] 0 --END--")

# A wire; and a circuit that answers one request and then waits for ever, in both forms.
WIRE = b"aag 1 1 0 1 0\n2\n2\ni0 r\no0 g\n"
WAITING = b"aag 3 1 1 1 1\n2\n4 7\n5\n6 3 5\ni0 r\no0 g\nc\n"
IN_BINARY = b"REALIZABLE\naig 3 1 1 1 1\n7\n5\n\x01\x02i0 r\no0 g\n"

NONE: list[str] = []
# Words, the text on standard input, and the text in the file that is the last word, where there is one.
Run = tuple[list[str], bytes, bytes | None]
RUNS: list[Run] = [
    *((["solve", *more], text, None)
      for text in (TWO, GAPS, CARRY, CHOICE, DENSE)
      for more in (NONE, ["--search"], ["--player", "0"], ["--player", "1"], ["--from", "0"], ["--budget", "3"])),
    *(([name, "--format", "pg"], text, None) for text in (TWO, GAPS, CHOICE) for name in ("show", "check", "canon")),
    *(([name, "--format", "hoa"], text, None) for text in (BUCHI, ABORTED, ALIASES, WRITTEN, BUCHI * 3)
      for name in ("show", "check", "canon")),
    *(([name, "--format", "hoa"], text, None) for name, text in
      (("canon", NESTED), ("check", BUCHI + b"x"), ("check", b"HOA: v2 --BODY-- --END--"))),
    *((words, text, None) for text in (BUCHI, TWO_SETS, WRITTEN)
      for words in (["game"], ["empty"], ["empty", "--search"], ["empty", "--budget", "1"], ["empty", "--word"],
                    ["empty", "--search", "--word"], ["empty", "--search", "--names"], ["complement"], ["trim"])),
    *((["complement"], text, None) for text in (ALIASES, NESTED)),
    (["empty"], b"HOA: v1 Acceptance: 0 t --BODY-- --END--", None),
    *((["empty", "--search", "--word"], text, None) for text in (LETTERS, GRAPH, MANY % EACH, MANY % (EACH + b"&!7"))),
    *(([*words, "--stream"], BUCHI + ABORTED, None)
      for words in (["empty"], ["empty", "--search", "--word"], ["complement"], ["trim"])),
    *(([*words, "--at-least", "2"], BUCHI + ABORTED, None)
      for words in (["check"], ["trim", "--stream"], ["satisfies", "-f", "F a", "--stream"])),
    *((["contained", *more, "--stream", "--in"], BUCHI + ABORTED, OFTEN) for more in (NONE, ["--explain"])),
    *((["show", "--json", "--format", name], text, None) for name, text in (("pg", GAPS), ("hoa", ABORTED))),
    (["canon", "--format", "pg", "--min"], GAPS, None),
    *((["verify", "--winners", *more, "--game"], text, CHOICE) for more in (NONE, ["--explain"])
      for text in (b"paritysol 2; 0 0; 1 0; 2 0;", b"paritysol 2; 0 1; 1 1; 2 1;")),
    *(([name, "--lenient"], LENIENT, None) for name in ("show", "check", "canon", "solve", "draw")),
    (["verify", "--lenient", "--game"], b"paritysol 1; # both\n0 0 1; 1 0 -1;", LENIENT),
    (["trim"], PRUNED + b" --END--", None),
    (["trim"], PRUNED + b"&2 --END--", None),
    (["check", "--format", "hoa"], b"HOA: v1 --BODY-- --END--", None),
    (["verify", "--game"], b"paritysol 2; 0 0 2; 1 0; 2 0;", CHOICE),
    (["verify", "--game"], b"paritysol 2; 0 0 1; 1 0; 2 0;", CHOICE),
    (["verify", "--explain", "--names", "--game"], b"paritysol 2; 0 0 1; 1 0; 2 0;", CHOICE.replace(b" 0;", b' 0 "n";')),
    *((["verify", *more, "--game"], b"paritysol 2; 0 0;", CHOICE) for more in (NONE, ["-v"])),
    *((["verify", "--explain", "--automaton"], text, TWO_SETS)
      for text in (b"stem cycle 1 2 0", b"stem 0 cycle 2", b"stem cycle 0", b"stem 0 cycle 1", b"stem cycle 3",
                   b"stem cycle 00", b"stem")),
    *((["meet", "--with"], BUCHI, text) for text in (BUCHI, TWO_SETS, WRITTEN, b"HOA: v1")),
    *((["meet", "--with"], WRITTEN, text) for text in (BUCHI, TWO_SETS, WRITTEN)),
    *((["meet", "--trim", "--with"], BUCHI, text) for text in (BUCHI, TWO_SETS)),
    (["meet", "-v", "--with"], BUCHI, b"HOA: v1"),
    *((["join", "--with"], BUCHI, text) for text in (BUCHI, TWO_SETS, WRITTEN, b"HOA: v1")),
    *((["accepts", *more, "--word", word], b"", text) for text in (BUCHI, OFTEN)
      for more in (NONE, ["--explain"]) for word in ("cycle{a}", '"b c" & !a; cycle{1; a}', "cycle{a")),
    *((["accepts", "--some", *more, "--word", word], b"", text) for text in (BUCHI, OFTEN)
      for more in (NONE, ["--explain"]) for word in ("cycle{a}", "cycle{!a}", "cycle{a")),
    (["accepts", "-v", "--word", "a;"], BUCHI, None),
    *(([*words, *more, option], one, other) for words, option in ((["contained"], "--in"), (["equal"], "--to"))
      for one, other in ((BUCHI, OFTEN), (OFTEN, BUCHI), (BUCHI, BUCHI), (BUCHI, b"HOA: v1"))
      for more in (NONE, ["--explain"])),
    *(([*words, "--explain", option], one, other) for words, option, one, other in
      ((["contained"], "--in", TWO_SETS, BUCHI), (["contained"], "--in", BUCHI, TWO_SETS),
       (["equal"], "--to", BUCHI, TWO_SETS))),
    *((["ltl", *more, "-f", text], b"", None) for more in (NONE, ["--negated"])
      for text in ("a U b", 'GF"a b" & !(c <-> X c)')),
    *((["ltl", "-v"], text, None) for text in (b"a W b", b"a U", b"!" * 256 + b"a")),
    *((["ltl", "--deterministic", "-f", text], b"", None) for text in ("F G a", "a U b | G c", "(a")),
    *((["ltl", "--negated", "--deterministic", "-f", text], b"", None) for text in ("G F a", "a U b", "(a")),
    *((["equal", *more, "-f", "G F a", "-f", other], OFTEN, None) for more in (NONE, ["-v", "--explain"])
      for other in ("F G a", "F a", "G F b", "a &")),
    (["ltl"], b"", b"F G a"),
    (["ltl", "-f", "a", "b"], b"", None),
    *((["satisfies", *more, "-f", formula], b"", text) for more in (NONE, ["--explain"])
      for formula, text in (("F a", BUCHI), ("G(a -> F !a)", OFTEN), ('b R "c"', WRITTEN))),
    *((["satisfies", "-v", "-f", formula], text, None) for formula, text in (("a &", BUCHI), ("a", b"HOA: v1"))),
    *((["satisfies", *more, "-f", "F a", "-f", "G a", "--stream"], BUCHI + ABORTED, None) for more in (NONE, ["--explain"])),
    (["satisfies", "-v", "-f", '"b c" | F "a name of 18 bytes"', "-f", "F c"], BUCHI, None),
    *((["satisfies", *more, "-f", "F a", "-f", other], OFTEN, None) for more in (NONE, ["-v", "--explain"])
      for other in ("G a", "a &")),
    (["satisfies", "-f", "F a", "-f", "0", "--word", "cycle{a}"], b"", None),
    *((["realize", *more], text, None) for text in (ARBITER, SERVANT, GOALS, ARBITER.replace(b"AP: 1 ", b"AP: 1 1 "))
      for more in (NONE, ["--controller"], ["--game"], ["--lift"], ["--lift", "--controller"],
                   ["--lift", "--budget", "0"])),
    *((["verify", *more, "--specification"], one, other) for more in (NONE, ["--explain"])
      for one, other in ((ARBITRATES, ARBITER), (ASKS, SERVANT), (SERVES, GOALS), (SERVES, ARBITER),
                         (ARBITRATES, b"HOA: v1"))),
    *((["verify", *more, "--counter-strategy", "--specification"], one, other) for more in (NONE, ["--explain"])
      for one, other in ((SURPRISES, GUESS), (ASKS, SERVANT), (SURPRISES, ARBITER), (ARBITRATES, ARBITER),
                         (ASKS, GOALS), (ASKS, b"HOA: v1"))),
    *((["draw", "--format", "pg", *more], text, None)
      for text in (GAPS, CHOICE, CARRY, DENSE, b'4 0 0 4 "' + b"\\&" * 20 + b'";')
      for more in (NONE, ["--from", "4" if b"4 " in text else "0", "--depth", "2"])),
    (["draw", "--format", "pg", "--from", "1", "--depth", "1"], CHOICE, None),
    (["draw", "--format", "pg", "--from", "9"], CHOICE, None),
    (["draw", "--format", "pg", "--solution"], CHOICE, b"paritysol 2; 0 0 1; 1 0; 2 0;"),
    (["draw", "--format", "pg", "--from", "2", "--legend", "--solution"], CHOICE, b"paritysol 2; 0 0 1; 1 0; 2 0;"),
    (["draw", "-v", "--format", "pg", "--solution"], CHOICE, b"paritysol 2; 0 0;"),
    *((["draw", "-v", "--format", "pg", "--legend", "--walk"], CHOICE, text) for text in (b"stem\ncycle 0 1\n", b"stem 0")),
    *((["draw", "--format", "hoa", *more], text, None)
      for text in (BUCHI, TWO_SETS, WRITTEN, NESTED) for more in (NONE, ["--lasso"])),
    (["verify", "--from", "1", "--game"], b"paritysol 1; 1 1 1;", PARTED),
    (["verify", "--explain", "--from", "1", "--game"], b"paritysol 1; 1 0;", PARTED),
    (["verify", "--from", "5", "--game"], b"paritysol 1; 1 0;", PARTED),
    *((["canon", "--format", "pg", "--from", start], PARTED, None) for start in ("0", "1", "5")),
    (["check", "--format", "pg"], b"0 0 0;", None),
    *((["check", "-v", "--format", "pg"], text, None) for text in (b"0 0 0;", b"0 0 0 1;", b"0 0 0 0; 0 0 0 0;", TWO)),
    (["solve", "-v", "--progress"], b"parity 0; 1 0 0 1;", None),
    *((["solve", "--search", "-v", "--by", name, "--effort", "2"], text, None)
      for text in (CHOICE, DENSE) for name in ("zielonka", "tangles")),
    *((["empty", "-v", "--search"], text, None) for text in (b"HOA: v1", b"HOA: v1 Acceptance: 0 Inf(0) --BODY-- --END--")),
    (["solve", "-v", "--lenient"], b"0 0 0 7; // seven", None),
    (["verify", "-v", "--lenient", "--game"], b"paritysol 1; # x\n0 0;", LENIENT),
    (["check", "--format", "pg"], b"", None),
    (["solve", "--from", "7"], CHOICE, None),
    (["solve"], b"", CHOICE),
    (["check", "--format", "hoa"], b"", WRITTEN),
    (["empty", "--search"], b"", BUCHI),
    (["check", "--format", "pg", "no such file"], b"", None),
    *((["verify", *more, "--game", "no such file"], b"", None) for more in (NONE, ["-v"])),
    *((["verify", "-f", "G(r -> g)", "--outs", "g", "--explain"], text, None)
      for text in (ARBITRATES, SERVES, b"HOA: v1")),
    *((["verify", "-f", "G(r -> !g) & G F g", "--outs", "g", "--counter-strategy", "--explain"], text, None)
      for text in (ASKS.replace(b"AP:\n", b"AP: 1\n"), ARBITRATES)),
    *((["realize", "-f", "G(r -> g)", "--outs", "g", *more], b"", None)
      for more in (NONE, ["--controller"], ["--game"])),
    *((["realize", "-f", formula, "--outs", "g", "--controller"], b"", None)
      for formula in ("G(r -> !g) & G F g", "g U", "r")),
    *((words, text, None) for text in (WAITING, IN_BINARY)
      for words in (["check", "--format", "aiger"], ["show", "--format", "aiger"],
                    ["show", "--format", "aiger", "--json"], ["canon", "--format", "aiger"], ["canon", "--binary"],
                    ["automaton"])),
    (["check"], b"", WAITING),
    (["automaton", "-v"], b"aag 1 1 0 1 0\n02\n2\n", None),
    *((["verify", *more, "--specification"], text, ARBITER) for more in (NONE, ["--explain"])
      for text in (WIRE, WAITING, WIRE.replace(b"o0 g", b"o0 r"))),
    *((["verify", "-f", "G(r -> g)", "--outs", "g", "--explain"], text, None) for text in (WIRE, IN_BINARY)),
    *((["realize", "--aiger", *more], text, None)
      for text, more in ((ARBITER, NONE), (ARBITER, ["--binary"]), (SERVANT, NONE), (GOALS, NONE))),
    *((["realize", "--aiger", "-f", formula, "--outs", "g"], b"", None)
      for formula in ("G(r -> X g)", "G(r -> !g) & G F g")),
    (["--help"], b"", None),
    (["solve", "--help"], b"", None),
    (["solve", "--player", "2"], b"", None),
    (["frobnicate"], b"", None),
]


class Shimmed:
    """A program under the shim."""

    def __init__(self, folder: str, path: str, program: str = OMEGA) -> None:
        self.program = program
        self.count = os.path.join(folder, "count")
        self.held = os.path.join(folder, "game")
        self.path = path

    def run(self, words: Sequence[str | bytes], text: bytes, held: bytes | None, refuse_from: int = 0,
            refuse_to: int = 0) -> tuple[Left, int]:
        """Status, output and standard error of a run, and how many requests it made."""
        if held is not None:
            with open(self.held, "wb") as file:
                file.write(held)
            words = [*words, self.held]
        given = {"LD_PRELOAD": self.path, "REFUSE_COUNT": self.count}
        if refuse_from:
            given |= {"REFUSE_FROM": str(refuse_from), "REFUSE_TO": str(max(refuse_from, refuse_to))}
        ran = subprocess.run([self.program, *words], input=text, capture_output=True, env=given, timeout=SECONDS)
        with open(self.count) as file:
            return (ran.returncode, ran.stdout, ran.stderr), int(file.read())


def untold(ample: Left) -> Left:
    """The same without the last line of a refusal that says where or what, if it has one."""
    lines = ample[2].splitlines(keepends=True)
    is_told = len(lines) > 1 and not lines[-1].startswith((b"omega: in the ", b"omega: cannot "))
    return (ample[0], ample[1], b"".join(lines[:-1])) if is_told else ample


def refused_later(ample: Left) -> Left:
    """What is left where memory is refused after the game was searched: the lines on the search come first."""
    return REFUSED[0], REFUSED[1], ample[2] + REFUSED[2]


def fault_in(words: list[str], came: Left, ample: Left) -> Fault:
    if came in (ample, REFUSED) or "-v" in words and came == untold(ample):
        return None
    if "-v" in words and "--search" in words and came == refused_later(ample):
        return None
    return f"status {came[0]}, {shown(came[1])}, {shown(came[2])}"


def refused_fault(shimmed: Shimmed, words: list[str], text: bytes, held: bytes | None, ample: Left, first: int,
                  last: int) -> Fault:
    """What is wrong with a run whose requests from a first one to a last one are refused, or nothing."""
    return fault_in(words, shimmed.run(words, text, held, first, last)[0], ample)


def refused_runs(shimmed: Shimmed, words: list[str], text: bytes, held: bytes | None) -> Cases:
    """Each request refused, alone and with all after it."""
    ample, requests = shimmed.run(words, text, held)
    label = f"{' '.join(words)} on {shown(text)}"
    yield f"{label}: with ample memory", "refused 60" if ample == REFUSED else None
    for n in range(1, requests + 1):
        for to in (n, 2 ** 60):
            refused = partial(refused_fault, shimmed, words, text, held, ample, n, to)
            yield f"{label}: request {n} of {requests}{'' if to == n else ' and all behind it'}", refused


def lost_half(nodes: int, in_chain: bool) -> bytes:
    """Half of the nodes are lost for player 1, as a chain to one even loop or each by an even loop of its own: the same
    sizes, and few lifts or very many. The other half is won, each node by an odd loop of its own."""
    half = nodes // 2
    lost = ((int(v == 0) + 1, max(v - 1, 0)) if in_chain else (2, v) for v in range(half))
    won = ((1, v) for v in range(half, nodes))
    return "".join(f"{v} {priority} 0 {to};" for v, (priority, to) in enumerate([*lost, *won])).encode()


def lifting_fault(shimmed: Shimmed) -> Fault:
    """Runs of one size make one number of requests, whatever the number of lifts: a solver asks for none once it is
    made."""
    words = ["solve", "--player", "1"]
    made = [shimmed.run(words, lost_half(2000, in_chain), None) for in_chain in (True, False)]
    lifts = [int(came[1].split()[3]) for came, _ in made]
    requests = [count for _, count in made]
    if max(lifts) < 100 * min(lifts):
        return f"the numbers of lifts are too near: {lifts}"
    return f"{requests} requests for {lifts} lifts" if requests[0] != requests[1] else None


def memory_checks() -> Cases:
    with shim("refusing") as (folder, path):
        shimmed = Shimmed(folder, path)
        for words, text, held in RUNS:
            yield from refused_runs(shimmed, words, text, held)
        yield "requests of a solver that is made", partial(lifting_fault, shimmed)
