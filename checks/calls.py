"""Single public calls of the libraries that no command of the program makes, or whose answers none shows, with every
request for memory refused as in *memory*: each that may answer 60 returns what it does with ample memory, or 60. What a
call promises to leave as it was is tried after a refused request. Calls that are said to request no memory run with
none left, and request none. Calls whose answers are known by hand, on texts, games and automata, give these.

The program `omega_calls` makes one call a run. It asks some calls a second time where a request was refused, and ends
with status 61 where they left something changed that they promise to leave as it was: `write_number`, `write_label` and
`write_acc` their vector; `Aliases::add`, `GameBuilder::add_node`, `add_successor` and `set_name`, `RawEdges::push` and
`Numbers::push` what they add to; `Stream::feed` the stream and the items, so that the piece fed again gives the items
of the whole text. The calls that request no memory are those of `docs/promises.md`, *Safe and total*; those of tables
and schedules are made by a solver over each of them.
"""
import os
import subprocess
from functools import partial

from automaton_calls import automaton_call_cases
from game_calls import game_call_cases
from known_calls import SOLVERS, words_for
from memory import ABORTED, ALIASES, BUCHI, CARRY, CHOICE, DENSE, GAPS, TWO, TWO_SETS, WRITTEN, Shimmed
from program import ROOT, Cases, Fault, Left, shown
from shims import shim
from text_calls import text_call_cases

CRATE = os.path.join(ROOT, "crates", "omega_calls")
CALLS = os.path.join(CRATE, "out", "omega_calls")

GAMES = (TWO, GAPS, CARRY, CHOICE, DENSE)
AUTOMATA = (BUCHI, ALIASES, WRITTEN, TWO_SETS)
LABEL = b"!(0 & @a) | (t | !!f) & 2"
FORMULA = b"(Inf(0) & Fin(!1)) | t & (f | Inf(2))"
STREAM = ABORTED + b" " + BUCHI + WRITTEN
# Two nodes that end at the second, and two whose identifiers have gaps.
ENDS = b"0 0 0 1; 1 1 0 1;"
APART = b"9 3 1 4; 4 2 0 9,4;"

# Calls, the two texts that they are given, and the status and the beginning of the output with ample memory, which are
# known by hand.
RUNS: list[tuple[str, bytes, bytes, int, bytes]] = [
    ("write_number", b"340282366920938463463374607431768211455", b"", 0, b"<340282366920938463463374607431768211455"),
    ("pg_tokens", b"0 12;", b"", 0, b"n0 1 0 n2 4 12 ;4 5 0 "),
    ("pg_tokens", b"0 00", b"", 2, b""),
    ("hoa_tokens", b"HOA: v1", b"", 0, b"h0 4 0 i5 7 0 "),
    ("ByteString", b"a" * 40, b"a" * 39, 0, b"a" * 40 + b" 40 --"),
    ("Seq", b"1 2", b"1 2", 0, b"+2 1 2 ;1 2 ;"),
    ("Numbers", b"", b"", 0, b"3 1 4 1 5 0 1 2 3 4 "),
    ("expand", LABEL, b"1|2", 0, b"<!(0&(1|2))|(t|!!f)&2"),
    ("expand", b"0 &", b"1|2", 3, b""),
    ("expand", b"@b|!@a", b"0|1;@a&!@a", 0, b"<(0|1)&!(0|1)|!(0|1)"),
    ("expand", b"@c", b"0|1", 27, b""),
    ("expanded_size", b"@b|!@a", b"0|1;@a&!@a", 0, b"13 "),
    ("RawLabel", b"", b"1|2", 0, b"<!0&t|(1|2)"),
    ("shape of a label", b"!(0 & 2) | (t | !!f) & @a", b"2", 0, b"<!(0&2)|(t|!!f)&2"),
    ("shape of a formula", FORMULA, b"", 0, b"<Inf(0)&Fin(!1)|t&(f|Inf(2))"),
    ("read_acc", FORMULA, b"", 0, b"<Inf(0)&Fin(!1)|t&(f|Inf(2))"),
    ("read_acc", b"Inf(", b"", 3, b""),
    *((call, b"", b"", 0, b"<Inf(0)&t|Fin(!1)") for call in ("RawAcc", "Acc")),
    ("RawEdges", b"", b"", 0, b"1 ;-2 ;-3 ;+"),
    *((call, STREAM, b"", 0, b"aborted\nautomaton 0 0 0 0 0 ;;--3 \n") for call in ("read_stream", "feed")),
    *((call, BUCHI + b"x", b"", 3, b"") for call in ("read_stream", "feed")),
    *((call, text, b"", 0, b"parity ") for call in ("read_game", "GameBuilder") for text in GAMES),
    ("read_game", b"0 0 0 1;", b"", 11, b""),
    *(("game of a part", text, b"4" if text == GAPS else b"0", 0, b"") for text in GAMES),
    ("build", b"", b"", 0, b"parity 7;\n3 2 0 7 \"n\";\n7 1 1 7,3;\n"),
    ("read_solution", CHOICE, b"paritysol 2; 0 0 2; 1 0; 2 0;", 0, b"paritysol 2;\n0 0 2;\n1 0;\n2 0;\n"),
    *(("read_solution", game, text, 0, written) for game, text, written in
      ((ENDS, b"paritysol 1; 0 0 1; 1 1;", b"paritysol 1;\n0 0 1;\n1 1;\n"),
       (ENDS, b"paritysol 1; 0 1; 1 1;", b"paritysol 1;\n0 1;\n1 1;\n"),
       (APART, b"\tparitysol\r\n9;4 1;9 1 4;", b"paritysol 9;\n4 1;\n9 1 4;\n"))),
    ("read_solution", CHOICE, b"paritysol 2; 0 0;", 53, b""),
    ("places_given", CHOICE, b"paritysol 2; 0 0 2; 1 0; 2 0;", 0, b"0 1 2 ;;"),
    ("places_given", APART, b"paritysol 9; 4 0 9; 9 1 4;", 0, b"0 ;1 ;"),
    ("places_given", APART, b"paritysol 9; 4 1; 9 1 4;", 0, b";0 1 ;"),
    *((call, CHOICE, b"paritysol 2; 0 0 2; 1 0; 2 0;", 0, b"++")
      for call in ("check_strategy", "check_strategy_fast", "counterexample")),
    *((call, CHOICE, b"paritysol 2; 0 0 1; 1 0; 2 0;", 0, b"-+")
      for call in ("check_strategy", "check_strategy_fast", "check_strategy_by_order")),
    # By the order of places 2, 1, 0.
    ("check_solution_by_order", CHOICE, b"paritysol 2; 0 0 2; 1 0; 2 0;", 0, b"+"),
    ("check_solution_by_order", CHOICE, b"paritysol 2; 0 0 1; 1 0; 2 0;", 0, b"-"),
    ("counterexample", CHOICE, b"paritysol 2; 0 0 1; 1 0; 2 0;", 0, b""),
    ("read_lasso", b" stem 3\t1 cycle 4 1 5 9 2", b"", 0, b"stem 3 1\ncycle 4 1 5 9 2\n"),
    ("read_lasso", b"stem 3 cycle", b"", 3, b""),
    ("read_lasso_lines", b"stem 3\ncycle 4\nword ", b"", 0, b"stem 3\ncycle 4\n"),
]

# Calls that ask for no memory after those that make what they are asked of: made where the second text is `run`.
QUIET = [
    *((solver, text, b"") for solver in SOLVERS for text in GAMES),
    *(("texts", text, b"") for text in AUTOMATA),
    *(("game", text, b"") for text in GAMES),
    ("label", b"0 & !0 | 1 & 2", b"+"),
    ("label", b"0 & !0", b"-"),
    *(("automaton", text, b"") for text in AUTOMATA),
]


def build() -> None:
    """Builds the program where it is missing, or older than its sources or a library."""
    sources = [os.path.join(folder, name) for folder, _, names in os.walk(os.path.join(CRATE, "src")) for name in names]
    if os.path.exists(CALLS) and all(os.path.getmtime(file) <= os.path.getmtime(CALLS) for file in sources):
        return
    asked = words_for("write_number", b"0", b"0")
    subprocess.run(["rt", "run", "--", *asked], cwd=CRATE, stdout=subprocess.DEVNULL, check=True)


def fault_in(came: Left, ample: Left) -> Fault:
    """What is wrong with status and output after a refused request. The line of another refusal may want memory."""
    allowed = (ample, (*ample[:2], b""), (60, b"", b""))
    return None if came in allowed else f"status {came[0]}, {shown(came[1])}, {shown(came[2])}"


def refused_fault(shimmed: Shimmed, asked: list[str | bytes], ample: Left, first: int, last: int) -> Fault:
    """What is wrong with a call whose requests from a first one to a last one are refused, or nothing."""
    return fault_in(shimmed.run(asked, b"", None, first, last)[0], ample)


def refused_calls(shimmed: Shimmed, call: str, text: bytes, other: bytes, status: int, beginning: bytes) -> Cases:
    """Each request refused, alone and with all after it."""
    asked = words_for(call, text, other)
    ample, requests = shimmed.run(asked, b"", None)
    label = f"{call} of {shown(text)} {shown(other)}"
    wanted = ample[0] == status and ample[1].startswith(beginning) and (status == 0) == (ample[1] != b"")
    yield f"{label}: with ample memory", None if wanted else f"status {ample[0]}, {shown(ample[1])}"
    for n in range(1, requests + 1):
        for to in (n, 2 ** 60):
            refused = partial(refused_fault, shimmed, asked, ample, n, to)
            yield f"{label}: request {n} of {requests}{'' if to == n else ' and all behind it'}", refused


def quiet_calls(shimmed: Shimmed, call: str, text: bytes, beginning: bytes) -> Cases:
    """The calls make no request, and with each later request refused they give what they give with ample memory."""
    _, before = shimmed.run(words_for(call, text, b""), b"", None)
    ample, requests = shimmed.run(words_for(call, text, b"run"), b"", None)
    label = f"{call} of {shown(text)}"
    fault = None
    if ample[0] != 0 or not ample[1].startswith(beginning) or ample[1] == b"":
        fault = f"status {ample[0]}, {shown(ample[1])}"
    elif requests != before:
        fault = f"{requests} requests, and {before} without these calls"
    yield f"{label}: requests", fault
    came, _ = shimmed.run(words_for(call, text, b"run"), b"", None, before + 1, 2 ** 60)
    yield f"{label}: no memory left", None if came == ample else f"status {came[0]}, {shown(came[1])}"


def pieces_again(shimmed: Shimmed) -> Cases:
    """A stream in pieces gives the items of the whole text, also where a piece was fed once more after a refused
    request."""
    whole, _ = shimmed.run(words_for("read_stream", STREAM, b""), b"", None)
    fed, requests = shimmed.run(words_for("feed", STREAM, b""), b"", None)
    yield "a stream in pieces and whole", None if fed == whole else f"{shown(fed[1])} for {shown(whole[1])}"
    yield "pieces fed once more", partial(fed_again_fault, shimmed, whole, requests)


def fed_again_fault(shimmed: Shimmed, whole: Left, requests: int) -> Fault:
    """Whether most of the runs in which a request is refused give the items of the whole text all the same."""
    again = [shimmed.run(words_for("feed", STREAM, b""), b"", None, n)[0] for n in range(1, requests + 1)]
    most = sum(came == whole for came in again)
    return None if most * 2 > requests else f"{most} answers for {requests} refused requests"


def call_checks() -> Cases:
    build()
    with shim("refusing") as (folder, path):
        shimmed = Shimmed(folder, path, CALLS)
        for run in RUNS:
            yield from refused_calls(shimmed, *run)
        for quiet in QUIET:
            yield from quiet_calls(shimmed, *quiet)
        yield from pieces_again(shimmed)
        yield from game_call_cases(shimmed, SOLVERS)
        yield from automaton_call_cases(shimmed)
        yield from text_call_cases(shimmed)
