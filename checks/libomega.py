"""The library for C and Python, where it is built (`make libomega`) or this family is named. Its examples run as they
stand in `docs/library.md`. Random games are solved in both ways, and solutions, right and broken in one place, judged,
against slow solvers; random automata are combined and decided, against a judge of words; random circuits are made and
judged, against the program as a function. Faults of shapes, what is no array of integers, threads and processes, the
rows of `checks/rows.txt`, small stacks, and refused memory, which leaves arrays and texts alone, are tried.

The games are solved from Python, and each fault of a shape is tried. The rows go through the program as a function. The
cells of `examples/omega.ipynb` run one after the other, and show pictures where Graphviz's `dot` is installed.
"""
import ctypes
import os
import random
import re
import resource
import subprocess
import sys
import tempfile
from collections.abc import Callable
from functools import partial
from typing import Any

import games
from languages import language_checks
from library_circuits import circuit_call_checks
from notebook import notebook_checks
from program import ROOT, SECONDS, Cases, Fault, run_of
from rows import FAULT, ROWS, Row, rows_of
from shims import built_shim
from stacks import stack_checks
from wrapper import wrapper_checks

# Priorities, owners and successors of each node.
Arrays = tuple[list[int], list[int], list[list[int]]]

BUILT = os.path.join(ROOT, "out")
SHARED = os.path.join(BUILT, "libomega.so")
STATIC = os.path.join(BUILT, "libomega.a")
HERE = os.path.dirname(os.path.abspath(__file__))
WARNINGS = ["-std=c11", "-Wall", "-Wextra", "-Wpedantic", "-Werror", "-I", os.path.join(ROOT, "include")]
GAMES = 2000
MOST_NODES = 200
# Enough for nearly all of these games.
MOST_LIFTS = 3_000_000
# What runs the examples of the page for Python.
DOCTEST = ["-m", "doctest", os.path.join(ROOT, "docs", "python.md")]
# Options with a value that names no file, and the status of a file that cannot be read.
VALUED, UNREAD = ("--format", "--player", "--from", "--budget"), 5
# The name of a file after an option.
NAMED = re.compile(r"--(?:game|solution|automaton|with)[= ](\S*)")


def python_of() -> Any:
    """The package, over the library that was built."""
    os.environ["LIBOMEGA"] = SHARED
    sys.path.insert(0, os.path.join(ROOT, "python"))
    import omega
    return omega


def random_arrays(draw: random.Random) -> Arrays:
    """Priorities, owners and lists of successors."""
    count = draw.choice([1, 2, 3, 5, 8, draw.randrange(1, 40), draw.randrange(1, MOST_NODES + 1)])
    priorities = draw.choice([2, 3, 5, count + 1, 2**31 - 1])
    nodes = games.random_game(draw, range(count), priorities, draw.choice([1, 2, 3, 5])).values()
    return [it.priority for it in nodes], [it.owner for it in nodes], [it.successors for it in nodes]


def nodes_of(priorities: list[int], owners: list[int], successors: list[list[int]]) -> games.Game:
    """The game as checks/games.py knows it."""
    return {v: games.Node(priorities[v], owners[v], successors[v]) for v in range(len(priorities))}


def lasso_fault(game: Arrays, winner: list[int], choice: list[int | None], found: Any) -> Fault:
    """What is wrong with a counterexample, or nothing."""
    priorities, owners, successors = game
    walk = [*found.stem, *found.cycle, found.cycle[0]]
    if winner[walk[0]] != found.player:
        return "it does not begin at a node given to the player"
    for v, w in zip(walk, walk[1:]):
        chosen = choice[v] is not None and owners[v] == found.player == winner[v]
        if w not in ([choice[v]] if chosen else successors[v]):
            return f"no edge from {v} to {w} is left possible"
    if max(priorities[v] for v in found.cycle) % 2 == found.player:
        return "the cycle does not lose"
    return None


def broken(draw: random.Random, game: Arrays, winner: list[int],
           choice: list[int | None]) -> tuple[list[int], list[int | None]]:
    """A solution that differs in one place: a winner and the choice with it, or another choice."""
    _, owners, successors = game
    winner, choice, v = list(winner), list(choice), draw.randrange(len(winner))
    others = [w for w in successors[v] if w != choice[v]]
    if choice[v] is not None and others and draw.randrange(2):
        choice[v] = draw.choice(others)
        return winner, choice
    winner[v] = 1 - winner[v]
    choice[v] = draw.choice(successors[v]) if owners[v] == winner[v] else None
    return winner, choice


def judged_fault(omega: Any, game: Arrays, winner: list[int], choice: list[int | None]) -> Fault:
    """What is wrong with the verdict on a solution, or nothing."""
    nodes, solution = nodes_of(*game), dict(enumerate(zip(winner, choice)))
    found = omega.verify(*game, winner, choice)
    losing = [player for player in (0, 1) if not games.wins(nodes, solution, player)]
    if (found.player if found else None) != (losing[0] if losing else None):
        return f"the verdict is {found}, and the players whose choices lose are {losing}"
    return lasso_fault(game, winner, choice, found) if found else None


def game_fault(omega: Any, draw: random.Random, game: Arrays) -> Fault:
    """What is wrong with the answers on a game, or nothing."""
    count, answers = len(game[0]), []
    won = games.winners(nodes_of(*game), set(range(count)))
    bounds = omega.bound(*game)
    for search in (True, False):
        try:
            made = omega.solve(*game, search=search, budget=MOST_LIFTS)
        except omega.Refusal as why:
            most = max(2**128 if it is None else it for it in (bounds.zero, bounds.one))
            if why.number != 51 or most <= MOST_LIFTS:
                return f"search {search}: {why}, and {bounds}"
            continue
        if [v for v in range(count) if made.winner[v] == 0] != sorted(won[0]):
            return f"search {search}: the winners are {made.winner}"
        if any(most is not None and lifts > most for lifts, most in zip(made.lifts, (bounds.zero, bounds.one))):
            return f"{made.lifts} lifts, and {bounds}"
        fault = judged_fault(omega, game, made.winner, made.choice)
        if fault or omega.verify(*game, made.winner, made.choice):
            return f"search {search}: the solution is not right: {fault}"
        answers.append(made)
    return judged_fault(omega, game, *broken(draw, game, answers[0].winner, answers[0].choice))


def solved_games(omega: Any) -> Cases:
    draw = random.Random(57)
    for number in range(GAMES):
        game = random_arrays(draw)
        fault = game_fault(omega, draw, game)
        if fault:
            yield f"game {number}", f"{fault}, for {game}"
            return
    yield f"{GAMES} random games", None


SMALL = ([0, 1, 2], [0, 1, 1], ([0, 2, 3, 4], [1, 2, 0, 0]))
SHAPES: list[tuple[str, Any, str, int]] = [
    ("no node", ([], [], ([0], [])), "priorities", 0),
    ("an owner missing", ([0, 1], [0], ([0, 1, 2], [0, 0])), "owners", 1),
    ("an owner too many", ([0], [0, 0], ([0, 1], [0])), "owners", 1),
    ("a start missing", ([0, 1], [0, 0], ([0, 1], [0, 0])), "starts", 2),
    ("a start too many", ([0], [0], ([0, 1, 1], [0])), "starts", 2),
    ("a priority too great", ([0, 2**31], [0, 0], ([0, 1, 2], [0, 0])), "priorities", 1),
    ("an owner above 1", ([0, 1], [0, 2], ([0, 1, 2], [0, 0])), "owners", 1),
    ("a first start that is not 0", ([0], [0], ([1, 1], [0])), "starts", 0),
    ("a start that falls", ([0, 1, 2], [0, 0, 0], ([0, 2, 1, 3], [0, 0, 0])), "starts", 2),
    ("a node without successors", ([0, 1], [0, 0], ([0, 1, 1], [0])), "starts", 2),
    ("a last start before the end", ([0, 1], [0, 0], ([0, 1, 2], [0, 0, 0])), "starts", 2),
    ("a successor that is no place", ([0, 1], [0, 0], ([0, 1, 2], [0, 2])), "successors", 1),
    ("the lengths before the entries", ([2**31, 1], [0, 2, 0], ([0, 1, 2], [0, 9])), "owners", 2),
]
ANSWERS: list[tuple[str, list[int], list[int | None], tuple[int, str | None, int | None]]] = [
    ("a winner missing", [0, 0], [2, None, None], (57, "winner", 2)),
    ("a choice too many", [0, 0, 0], [2, None, None, None], (57, "choice", 3)),
    ("a winner above 1", [0, 2, 0], [2, None, None], (57, "winner", 1)),
    ("a choice that is no successor", [0, 0, 0], [0, None, None], (53, None, None)),
    ("a choice missing", [0, 0, 0], [None, None, None], (53, None, None)),
    ("a choice of a node that the other wins", [0, 0, 0], [2, 0, None], (53, None, None)),
]


def refusal_of(omega: Any, call: Callable[..., object], *words: Any) -> tuple[int, str | None, int | None] | None:
    """What refuses a call: number, array and place, or nothing."""
    try:
        call(*words)
    except omega.Refusal as why:
        return why.number, why.array, why.place
    return None


def differs(came: object, wanted: object) -> Fault:
    return None if came == wanted else f"{came} for {wanted}"


def shape_faults(omega: Any) -> Cases:
    for label, game, array, place in SHAPES:
        wanted = (57, array, place)
        yield f"solve: {label}", differs(refusal_of(omega, omega.solve, *game), wanted)
        yield f"bound: {label}", differs(refusal_of(omega, omega.bound, *game), wanted)
        count = len(game[0])
        yield f"verify: {label}", differs(refusal_of(omega, omega.verify, *game, [0] * count, [None] * count), wanted)
        yield f"{label}: nothing is written", partial(unwritten_fault, omega, game, 57)
    for label, winner, choice, refusal in ANSWERS:
        yield f"verify: {label}", differs(refusal_of(omega, omega.verify, *SMALL, winner, choice), refusal)
    many = 1_048_577
    nodes = ([0] * many, [0] * many, (range(many + 1), [0] * many))
    yield "too many nodes", partial(unwritten_fault, omega, nodes, 13)
    edges = ([0], [0], ([0, 8_388_609], memoryview(bytes(4 * 8_388_609)).cast("I")))
    yield "too many successors", partial(unwritten_fault, omega, edges, 14)
    wide = ([2 * v for v in range(8192)] + [1], [0] * 8193, (range(8194), range(8193)))
    yield "too wide", partial(unwritten_fault, omega, wide, 50, search=0)
    yield "the search needs no table", differs(omega.solve(*wide).lifts, (0, 0))
    carry = ([1, 0, 3, 1], [0, 0, 0, 1], [[0], [1], [2], [2, 0]])
    yield "the budget is used up", partial(unwritten_fault, omega, carry, 51, search=0, budget=0)


def unwritten_fault(omega: Any, game: Any, number: int, search: int = 1, budget: int = 2**40) -> Fault:
    """What is wrong where `omega_solve` has to refuse a game, with each array as it was, or nothing."""
    arrays = omega.arrays.Arrays(*game)
    winners = (ctypes.c_uint8 * arrays.nodes)(*[7] * arrays.nodes)
    choices = (ctypes.c_uint32 * arrays.nodes)(*[7] * arrays.nodes)
    lifts, rooms = omega.library.Lifts(7, 7), [*omega.library.room_of(winners), *omega.library.room_of(choices)]
    outcome = omega.library.LIBRARY.omega_solve(arrays.game, search, budget, *rooms, lifts)
    if outcome.number != number:
        return f"number {outcome.number} for {number}"
    if set(winners) - {7} or set(choices) - {7} or (lifts.zero, lifts.one) != (7, 7):
        return "something is written"
    return None


def row_runs(omega: Any) -> Cases:
    """Each row of checks/rows.txt through the library, compared with what the row wants."""
    with open(ROWS) as file:
        for row in rows_of(file.read()):
            for command in row.commands:
                if row.status == FAULT or reads_only_g(row, command):
                    yield f"line {row.number}: {command}", partial(row_run_fault, omega, row, command)


def reads_only_g(row: Row, command: str) -> bool:
    """Whether each file that a command line names is the row's: the library has one file, whatever its name."""
    front, _, behind = command.partition(" -- ")
    words = front.split()
    operands = [word for before, word in zip(words, words[1:]) if not word.startswith("-") and before not in VALUED]
    return row.status != UNREAD and all(name == "g" for name in [*NAMED.findall(front), *operands, *behind.split()])


def row_run_fault(omega: Any, row: Row, command: str) -> Fault:
    """What the library leaves of a row's text that is not what is wanted, or nothing."""
    text = row.text
    for words in command.split(" | "):
        ran = omega.run(words.split(), text, row.files.get("g", b""))
        text = ran.output
    if ran.status != row.status:
        return f"status {ran.status} for {row.status}"
    if row.said:
        said = ran.errors if row.status == FAULT else ran.output
        missing = [part for part in row.said if part not in said]
        return f"{missing} is not said" if missing else None
    return differs((ran.output, ran.errors), (row.output, row.error))


def run_checks(omega: Any) -> Cases:
    wanted = f"omega {omega.version()}\n".encode()
    yield "version", differs(wanted, run_of(["--version"], b"").stdout[:len(wanted)])
    long = "".join(f"{v} {v % 7} {v % 2} {(v + 1) % 5000};" for v in range(5000)).encode()
    program = run_of(["solve"], long)
    ran = omega.run(["solve"], long)
    yield "an output that is longer than the first room", differs((ran.status, ran.output), (0, program.stdout))
    broken_line = (ctypes.c_uint8 * 2)(255, 0)
    none, room = (ctypes.c_uint8 * 0)(), (ctypes.c_uint8 * 99)()
    rooms = [part for it in (broken_line, none, none, none, room) for part in omega.library.room_of(it)]
    ran = omega.library.LIBRARY.omega_run(*rooms)
    fault = b"error: the command line is not UTF-8\n\nFor more information, try '--help'.\n"
    yield "words that are not UTF-8", differs((ran.status, bytes(room[:ran.errors])), (FAULT, fault))


def buffer_checks(omega: Any) -> Cases:
    from array import array
    flat = (array("I", [0, 2, 3, 4]), array("I", [1, 2, 0, 0]))
    made = omega.solve(array("I", [0, 1, 2]), b"\x00\x01\x01", flat)
    yield "arrays as buffers", differs((made.winner, made.choice), ([0, 0, 0], [2, None, None]))
    yield "a right solution", differs(omega.verify(*SMALL, made.winner, made.choice), None)
    found = omega.verify(*SMALL, [0, 0, 0], [1, None, None])
    yield "a wrong solution", partial(
        lasso_fault, (SMALL[0], SMALL[1], [[1, 2], [0], [0]]), [0, 0, 0], [1, None, None], found)
    yield "the bounds", differs(omega.bound(*SMALL), omega.Bounds(6, 12))


def compiled(folder: str, name: str, source: str, *words: str) -> tuple[str, str]:
    """Compiles a program in C over the static library. Its path, and what the compiler said."""
    file, made = os.path.join(folder, name + ".c"), os.path.join(folder, name)
    with open(file, "w") as out:
        out.write(source)
    ran = subprocess.run(["cc", *WARNINGS, "-o", made, file, *words], capture_output=True, timeout=SECONDS)
    return made, ran.stderr.decode() if ran.returncode else ""


def source_of(name: str) -> str:
    with open(os.path.join(HERE, name)) as file:
        return file.read()


def ran_fault(words: list[str], wanted: bytes = b"", env: dict[str, str] | None = None) -> Fault:
    ran = subprocess.run(words, capture_output=True, timeout=SECONDS, env=env)
    if ran.returncode or ran.stdout != wanted:
        return f"status {ran.returncode}, {ran.stdout!r}, {ran.stderr[-600:]!r}"
    return None


def examples_of(page: str, language: str) -> list[tuple[str, bytes]]:
    """The examples in a language in a part of a page of docs/ that ends with the next part. Each has what it is said to
    write: the first text behind it."""
    part = page[page.index("## From C and Python"):]
    part = part[:part.find("\n## ", 5)] if "\n## " in part[5:] else part
    found = []
    for block in part.split(f"```{language}\n")[1:]:
        source, _, behind = block.partition("```")
        found.append((source, behind.partition("```text\n")[2].partition("```")[0].encode()))
    return found


def example_checks(folder: str) -> Cases:
    """The examples of docs/library.md, as they stand, with what they are said to write."""
    with open(os.path.join(ROOT, "docs", "library.md")) as file:
        page = file.read()
    for number, (source, wanted) in enumerate(examples_of(page, "c")):
        made, said = compiled(folder, f"example{number}", source, STATIC)
        yield f"example {number} in C", said or ran_fault([made], wanted)
        shared, said = compiled(folder, f"shared{number}", source, "-L", BUILT, "-lomega", f"-Wl,-rpath,{BUILT}")
        yield f"example {number} in C, over the shared library", said or ran_fault([shared], wanted)
    yield "the header in C++", partial(cplusplus_fault, folder)
    env = {**os.environ, "LIBOMEGA": SHARED, "PYTHONPATH": os.path.join(ROOT, "python")}
    for number, (source, wanted) in enumerate(examples_of(page, "python")):
        yield f"example {number} in Python", partial(ran_fault, [sys.executable, "-c", source], wanted, env)
    yield "the examples of docs/python.md", partial(ran_fault, [sys.executable, *DOCTEST], b"", env)


def cplusplus_fault(folder: str) -> Fault:
    """What a compiler of C++ says of the header, or nothing."""
    file = os.path.join(folder, "header.cc")
    with open(file, "w") as out:
        out.write('#include "omega.h"\nint main() { omega_bounds bounds; (void)bounds; '
                  "return (int)omega_version(nullptr, 0) * 0; }\n")
    words = ["cc", "-x", "c++", "-std=c++17", "-fsyntax-only", "-Wall", "-Wextra", "-Werror",
             "-I", os.path.join(ROOT, "include"), file]
    ran = subprocess.run(words, capture_output=True, timeout=SECONDS)
    return ran.stderr.decode() if ran.returncode and b"cc1plus" not in ran.stderr else None


def sanitized_checks(folder: str) -> Cases:
    """The C side of all calls under AddressSanitizer, and from four threads under ThreadSanitizer, where the compiler
    has them."""
    made, said = compiled(folder, "sanitized", source_of("calls.c"), "-g", "-fsanitize=address,undefined", STATIC)
    if "cannot find" in said or "unsupported" in said:
        yield "AddressSanitizer is not there", None
        return
    # What the calls are given is not freed.
    env = {**os.environ, "ASAN_OPTIONS": "detect_leaks=0"}
    yield "all calls under AddressSanitizer", said or ran_fault([made], env=env)
    made, said = compiled(folder, "threads", source_of("calls.c"), "-g", "-fsanitize=thread", STATIC)
    if "cannot find" in said or "unsupported" in said:
        yield "ThreadSanitizer is not there", None
        return
    yield "all calls from four threads under ThreadSanitizer", said or ran_fault([made, "threads"])


def small_stacks(folder: str) -> Cases:
    """Each call in a thread with as much stack as the header says that it needs."""
    made, said = compiled(folder, "stack", source_of("stack.c"), STATIC)
    yield "the calls in small threads compile", said or None
    yield from stack_checks(made)


def refused_memory(folder: str) -> Cases:
    """Each request for memory during all calls in C refused: 60, every array as it was, and every block given back."""
    made, said = compiled(folder, "calls", source_of("calls.c"), STATIC)
    yield "the calls in C compile", said or None
    env = {"LD_PRELOAD": built_shim("refusing", folder), "REFUSE_COUNT": os.path.join(folder, "count")}
    yield "all calls in C", partial(ran_fault, [made])
    yield "all calls in C from four threads", partial(ran_fault, [made, "threads"])
    # This run counts the requests that are refused below.
    yield "all calls in C, none refused", leak_fault([made, "refused"], env, folder)
    requests = number_in(env["REFUSE_COUNT"])
    for number in range(1, requests + 1):
        for to in (number, 2**60):
            refused = {**env, "REFUSE_FROM": str(number), "REFUSE_TO": str(to)}
            yield (f"request {number} of {requests}{'' if to == number else ' and all behind it'}",
                   partial(leak_fault, [made, "refused"], refused, folder))


def number_in(file: str) -> int:
    with open(file) as held:
        return int(held.read())


def leak_fault(words: list[str], env: dict[str, str], folder: str) -> Fault:
    """What is wrong with a run that asks for memory in the library alone: its end, or blocks that it keeps."""
    live = os.path.join(folder, "live")
    fault, left = ran_fault(words, env={**env, "REFUSE_LIVE": live}), number_in(live)
    return fault or (f"{left} blocks are not given back" if left else None)


def leak_checks(omega: Any) -> Cases:
    """10,000 calls take no more memory than 1,000."""
    def used() -> int:
        return resource.getrusage(resource.RUSAGE_SELF).ru_maxrss

    before = 0
    for number in range(10_000):
        if number == 1_000:
            before = used()
        made = omega.solve(*SMALL, search=number % 2)
        omega.verify(*SMALL, made.winner, [1, None, None])
        refusal_of(omega, omega.bound, [], [], ([0], []))
        omega.run(["check", "--format", "pg"], b"0 0 0 0;")
    grown = used() - before
    yield "no leak over 10,000 calls", f"{grown} KiB more" if grown > 2048 else None


def libomega_checks() -> Cases:
    subprocess.run([sys.executable, os.path.join(ROOT, "make", "library.py")], check=True, stdout=subprocess.DEVNULL)
    omega = python_of()
    yield from buffer_checks(omega)
    yield from shape_faults(omega)
    yield from wrapper_checks(omega)
    yield from language_checks(omega)
    yield from circuit_call_checks(omega)
    yield from run_checks(omega)
    yield from row_runs(omega)
    yield from solved_games(omega)
    yield from leak_checks(omega)
    yield from notebook_checks({**os.environ, "PYTHONPATH": os.path.join(ROOT, "python")})
    with tempfile.TemporaryDirectory() as folder:
        yield from example_checks(folder)
        yield from small_stacks(folder)
        yield from sanitized_checks(folder)
        yield from refused_memory(folder)
