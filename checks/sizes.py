"""Texts as large as the limits allow, and one step past them. A game of 1,048,576 nodes with long names is read,
written, written back, described, solved and verified, right and wrong; a node more is refused 13, 12 after a small
header, or 10 where one comes twice. The longest text, a byte more, and the most successors follow, and long lines,
cycles and ladders that are solved within few lifts, judged and explained. Streams of automata are about as long as
what is read at once, with an automaton before its end, across it and after it.

A call that always answered 60 at such sizes would meet every contract, and these runs are what excludes that.
"""
import tempfile
from functools import partial

from program import Cases, Fault, fault_of, fault_with_file, refusal_fault, run_of, shown

MOST_TEXT = 16_777_216
MOST_NODES = 1_048_576
# An input of automata that is shorter is read at once.
LONG_INPUT = 1_048_576

# Identifier, priority, owner and successors of a node.
Line = tuple[int, int, int, list[int]]

# Priorities above those of all other nodes, each borne by one node: a loop there is lifted to top at once.
EVEN_LOOP, ODD_LOOP = 8, 9


def line(identifier: int, priority: int, owner: int, successors: list[int], name: str | None = None) -> str:
    """A node as the canonical text writes it."""
    quoted = "" if name is None else f' "{name}"'
    return f"{identifier} {priority} {owner} {','.join(map(str, successors))}{quoted};\n"


def two_loops(nodes: int) -> list[Line]:
    """Node 0 loops with an even priority and node 1 with an odd one, and both are greatest; each other node leads to
    one of them, or lets its owner choose. So the loops' players win what leads there, and an owner who chooses wins."""
    made = [(0, EVEN_LOOP, 0, [0]), (1, ODD_LOOP, 1, [1])]
    for v in range(2, nodes):
        made.append((v, v // 4 % 2, v // 2 % 2, [0, 1] if v % 16 == 2 else [v % 2]))
    return made


def solution_of(nodes: list[Line]) -> str:
    """The written solution of `two_loops`."""
    lines = [f"paritysol {len(nodes) - 1};\n"]
    for identifier, _, owner, successors in nodes:
        winner = owner if len(successors) == 2 else successors[0]
        lines.append(f"{identifier} {winner} {winner};\n" if winner == owner else f"{identifier} {winner};\n")
    return "".join(lines)


def canonical(nodes: list[Line], names: dict[int, str]) -> str:
    """The canonical text of nodes in rising order, with a name or none for each identifier."""
    body = "".join(line(*node, names.get(node[0])) for node in nodes)
    return f"parity {nodes[-1][0]};\n{body}"


def backwards(nodes: list[Line], names: dict[int, str]) -> str:
    """The same game written otherwise: the nodes from the last to the first, without a header, parts further apart."""
    return "".join(line(*node, names.get(node[0])).replace(" ", "\t", 1) for node in reversed(nodes))


def long_names(nodes: list[Line]) -> dict[int, str]:
    """Names for some nodes, one of them of a million bytes, so that the canonical text stays within the limit."""
    names = {v: "x" * (v % 97) for v in range(0, len(nodes), 128)}
    names[5] = "y" * 1_000_000
    return names


def most_nodes() -> Cases:
    nodes = two_loops(MOST_NODES)
    names = long_names(nodes)
    text = canonical(nodes, names).encode()
    assert len(text) <= MOST_TEXT
    edges = sum(len(successors) for _, _, _, successors in nodes)
    zeros = sum(1 for node in nodes if node[1] == 0)
    bounds = [MOST_NODES * (1 + MOST_NODES - 2 - zeros) * 2, MOST_NODES * (1 + zeros) * 2]
    said = f"game nodes {MOST_NODES} edges {edges} greatest {MOST_NODES - 1}\n"
    said += "".join(f"player {p} bound {bounds[p]}\n" for p in (0, 1))
    yield "canon of the most nodes", partial(
        fault_of, ["canon", "--format", "pg"], backwards(nodes, names).encode(), 0, text)
    yield "canon of a canonical text", partial(fault_of, ["canon", "--format", "pg"], text, 0, text)
    yield "check of the most nodes", partial(fault_of, ["check", "--format", "pg"], text, 0, b"accepted\n")
    yield "show of the most nodes", partial(fault_of, ["show", "--format", "pg"], text, 0, said.encode())
    solution = solution_of(nodes)
    yield "solve of the most nodes", partial(fault_of, ["solve"], text, 0, solution.encode())
    yield "solve --search of the most nodes", partial(
        fault_of, ["solve", "--search", "--budget", "0"], text, 0, solution.encode())
    yield "verify of the most nodes", partial(
        fault_with_file, ["verify", "--game"], text, solution.encode(), 0, b"yes\n")
    # Node 3 is player 1's and leads to the odd loop alone; the last line gives it to player 0.
    wrong = solution.replace("\n3 1 1;\n", "\n3 0;\n")
    yield "verify of one node given away", partial(
        fault_with_file, ["verify", "--game"], text, wrong.encode(), 6, b"no\n")
    missing = solution[: solution.rindex("\n", 0, -1) + 1]
    yield "verify of a solution without its last line", partial(
        fault_with_file,
        ["verify", "-v", "--game"], text, missing.encode(), 1, b"",
        b"omega: 53 BadSolution\nomega: in the solution\nomega: node %d is missing\n" % max(node[0] for node in nodes))


def too_many_nodes() -> Cases:
    body = "".join(line(v, 0, 0, [0]) for v in range(MOST_NODES + 1))
    yield "a node too many", partial(refusal_fault, ["check", "--format", "pg"], body.encode(), "13 TooManyNodes")
    small = f"parity {MOST_NODES - 1};\n{body}"
    yield "a node too many behind a small header", partial(
        refusal_fault, ["check", "--format", "pg"], small.encode(), "12 HeaderTooSmall")
    twice = body + line(0, 0, 0, [0])
    yield "a node too many and one twice", partial(
        refusal_fault, ["check", "--format", "pg"], twice.encode(), "10 DuplicateNode")


def longest_texts() -> Cases:
    rest = b"0 0 0 0;"
    full = rest + b" " * (MOST_TEXT - len(rest))
    yield "the longest text", partial(fault_of, ["check", "--format", "pg"], full, 0, b"accepted\n")
    yield "a byte too many", partial(refusal_fault, ["check", "--format", "pg"], full + b" ", "4 TooLong")
    yield "a fault at the last byte", partial(
        refusal_fault, ["check", "--format", "pg"], full[:-1] + b"$", f"1 Lex at {MOST_TEXT - 1}")
    yield "a fault before a byte too many", partial(
        refusal_fault, ["check", "--format", "pg"], b"$" + full, "4 TooLong")
    edges = (MOST_TEXT - len("0 0 0 0;")) // 2
    wide = "0 0 0 0" + ",0" * edges + ";"
    said = f"game nodes 1 edges {edges + 1} greatest 0\nplayer 0 bound 1\nplayer 1 bound 2\n"
    yield "the most successors that a text can list", partial(
        fault_of, ["show", "--format", "pg"], wide.encode(), 0, said.encode())


def long_streams() -> Cases:
    automaton = b"HOA: v1\nStates: 1\nAcceptance: 0 t\n--BODY--\nState: 0\n[t] 0\n--END--\n"
    said = b"".join(
        b"%d automaton states 1 edges 1 propositions 0 sets 0 acceptance t\n" % number for number in range(2))
    for length in (LONG_INPUT - 1, LONG_INPUT, LONG_INPUT + 1, LONG_INPUT + 4096):
        for past in (0, len(automaton) // 2, len(automaton)):
            text = automaton.ljust(length - len(automaton) + past) + automaton
            yield f"a stream of {len(text)} bytes, {past} of them past {length}", partial(
                fault_of, ["show", "--format", "hoa"], text, 0, said)
            # The mark of the end is broken: nothing begins as it does.
            broken = text[:-3] + b"$\n"
            yield f"its last mark broken, {past} past {length}", partial(
                refusal_fault, ["check", "--format", "hoa"], broken, f"1 Lex at {len(text) - len('--END--') - 1}")


def lasso_text(end: int, back: int, priority: int, last: int) -> bytes:
    """Nodes of player 0 from 0 to an end, each leading to the next and the last one back, all of one priority but the
    last."""
    body = "".join(line(v, priority, 0, [v + 1]) for v in range(end))
    return (body + line(end, last, 0, [back])).encode()


def falling(last: int) -> bytes:
    """A cycle of falling odd priorities after one even priority above them all."""
    body = "".join(line(v, 2 * (last - v) + 1, 0, [v + 1]) for v in range(1, last))
    return (line(0, 2 * last + 2, 0, [1]) + body + line(last, 1, 0, [0])).encode()


def given_to(player: int, end: int, back: int) -> bytes:
    """The solution that gives all nodes from 0 to an end to one player, who is their owner if it is player 0."""
    choices = "".join(f"{v} {player}{'' if player else f' {v + 1}'};\n" for v in range(end))
    return f"paritysol {end};\n{choices}{end} {player}{'' if player else f' {back}'};\n".encode()


def judged_cases(label: str, text: bytes, end: int, back: int, winner: int) -> Cases:
    """That all nodes are won by one player, and not by the other."""
    for player in (0, 1):
        status, said = (0, b"yes\n") if player == winner else (6, b"no\n")
        yield f"verify that player {player} wins {label}", partial(
            fault_with_file, ["verify", "--game"], text, given_to(player, end, back), status, said)


def lasso_fault(end: int, back: int) -> Fault:
    """Where no lasso explains that player 0 loses from node 0, or its cycle visits a node twice, or nothing."""
    solution = f"paritysol {end};\n0 0 1;\n" + "".join(f"{v} 1;\n" for v in range(1, end + 1))
    with tempfile.NamedTemporaryFile() as file:
        file.write(lasso_text(end, back, 1, 1))
        file.flush()
        run = run_of(["verify", "--explain", "--game", file.name], solution.encode())
    lines = run.stdout.decode().splitlines()
    if run.returncode != 6 or lines[:2] != ["no", "player 0"]:
        return f"status {run.returncode}: {shown(run.stdout)}"
    stem, cycle = ([int(word) for word in text.split()[1:]] for text in lines[2:4])
    walk = stem + cycle
    follows = all(after == (back if v == end else v + 1) for v, after in zip(walk, walk[1:] + cycle[:1], strict=True))
    good = follows and walk[0] == 0 and len(set(cycle)) == len(cycle) == end + 1 - back
    return None if good else f"a stem of {len(stem)} nodes and a cycle of {len(cycle)}"


def owned_in_turn(priorities: list[int], successors: list[list[int]]) -> bytes:
    """Nodes whose owners take turns."""
    return "".join(line(v, priorities[v], v % 2, after) for v, after in enumerate(successors)).encode()


def lifts_fault(text: bytes, player: int, most: int, won: int) -> Fault:
    """Where a player does not win so many nodes within so many lifts, or nothing."""
    run = run_of(["solve", "--player", str(player), "--budget", str(most)], text)
    count = run.stdout.count(b"\n") - 1
    return None if run.returncode == 0 and count == won else f"status {run.returncode}, {count} nodes won"


def families() -> Cases:
    """Games of which first in, first out makes many more lifts than the order that the solver takes: ladders, in which
    each node leads to the next two; paths of odd nodes to an even one; and nodes that all lead to the first."""
    nodes = 4000
    steps = [[(v + 1) % nodes, (v + 2) % nodes] for v in range(nodes)]
    ladder = owned_in_turn([v % 2 for v in range(nodes)], steps)
    for player in (0, 1):
        yield f"few lifts on a ladder, player {player}", partial(lifts_fault, ladder, player, 20_000, 2000)
    for nodes, most in ((8000, 20_000), (750_000, 1_500_000)):
        path = owned_in_turn([1] * (nodes - 1) + [0], [[min(v + 1, nodes - 1)] for v in range(nodes)])
        for player, won in ((0, nodes), (1, 0)):
            label = f"few lifts on a path of {nodes} nodes, player {player}"
            yield label, partial(lifts_fault, path, player, most, won)
    sink = owned_in_turn([2] * 100_000, [[0]] * 100_000)
    for player, most, won in ((0, 0, 100_000), (1, 400_000, 0)):
        yield f"few lifts into a sink, player {player}", partial(lifts_fault, sink, player, most, won)


def long_games() -> Cases:
    for end in range(1, 11):
        for back in (end, 0):
            for last in (1, 2):
                yield from judged_cases(f"a line to {end} and back to {back} of last priority {last}",
                                        lasso_text(end, back, 0, last), end, back, 1 if last == 1 else 0)
    yield from judged_cases("a long cycle of falling priorities", falling(50_000), 50_000, 0, 0)
    for end, back in ((9, 9), (9, 5), (9, 0), (40_000, 20_000)):
        yield f"verify --explain of a cycle of {end + 1 - back} nodes", partial(lasso_fault, end, back)
    yield from families()


def size_checks() -> Cases:
    yield from long_games()
    yield from most_nodes()
    yield from too_many_nodes()
    yield from longest_texts()
    yield from long_streams()
