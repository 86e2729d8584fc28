"""The calls of `omega_calls`, and those whose whole answers are known: the forms of their rows, and their runs with
ample memory.
"""
from memory import Shimmed
from program import Cases, Fault, Left, shown

SOLVERS = [f"{table} {order}" for table in ("plain", "packed") for order in ("sweep", "worklist", "nested")]

# The groups of calls, one of which is the program's first word.
GROUPS = {
    "tokens": ["write_number", "pg_tokens", "hoa_tokens", "ByteString", "Numbers", "Seq", "next_pg_token",
               "next_pg_number"],
    "expressions": ["expand", "expanded_size", "shape of a label", "RawLabel", "depth of a label", "read_acc",
                    "shape of a formula", "Acc", "RawAcc", "depth of a formula", "is RawAcc"],
    "ends": ["end of a label", "end of a formula", "end of an automaton"],
    "raw": ["RawEdges"],
    "streams": ["read_stream", "feed", "pieces"],
    "games": ["read_game", "GameBuilder", "game", "game of a part"],
    "solutions": ["read_solution", "places_given", "counterexample", "check_strategy", "check_strategy_fast",
                  "check_strategy_by_order", "check_solution_by_order", "by rising order", "by first place", "fits",
                  "fast of all places"],
    "solving": SOLVERS,
    "building": ["build"],
    "quiet": ["texts", "label", "automaton"],
    "lassos": ["read_lasso", "read_lasso_lines"],
}
GROUP_OF = {call: group for group, calls in GROUPS.items() for call in calls}

# A call and its two texts, what it is to give, and whether that is only what its output begins with.
Known = tuple[str, bytes, bytes, Left, bool]


def words_for(call: str, text: str | bytes, other: bytes) -> list[str | bytes]:
    """The program's words for a call: the group of the call, its name and its two texts."""
    return [GROUP_OF[call], call, text, other]


def said(call: str, text: bytes, other: bytes, output: bytes) -> Known:
    """The call gives this output."""
    return call, text, other, (0, output, b""), False


def begun(call: str, text: bytes, other: bytes, output: bytes) -> Known:
    """The call gives an output that begins so."""
    return call, text, other, (0, output, b""), True


def refused(call: str, text: bytes, other: bytes, line: bytes) -> Known:
    """The call is refused with this number, name and place."""
    return call, text, other, (int(line.split()[0]), b"", b"omega: %s\n" % line), False


def given_by(shimmed: Shimmed, call: str, text: bytes, other: bytes) -> Left:
    """What a call gives, its first text on standard input."""
    return shimmed.run(words_for(call, "-", other), text, None)[0]


def known_fault(came: Left, wanted: Left, begins: bool) -> Fault:
    if came == wanted or begins and came[::2] == wanted[::2] and came[1].startswith(wanted[1]):
        return None
    return f"status {came[0]}, {shown(came[1])}, {shown(came[2])}"


def known_cases(shimmed: Shimmed, rows: list[Known]) -> Cases:
    for call, text, other, wanted, begins in rows:
        label = f"{call} of {shown(text)} {shown(other)}: known answer"
        yield label, known_fault(given_by(shimmed, call, text, other), wanted, begins)
