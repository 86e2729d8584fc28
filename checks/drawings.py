"""Drawings of 46 games and 79 automata, byte for byte what a slow writer draws, or the refusal. Games are drawn with
their solutions and others, whole and 0, 1, 2 or any number of edges around some nodes, with and without legend;
automata with and without lasso. Where `dot` is installed, it draws examples, and names of every byte.

The parts of a game are what some of its nodes reach by so many edges. `dot` makes a picture of each example. It shows
the text of names that hold every byte of UTF-8, and U+FFFD for each byte alone that is not UTF-8.
"""
import glob
import html
import os
import random
import re
import shutil
import subprocess
from collections.abc import Callable, Iterable, Sequence
from functools import partial

from automata import BINDS, Aliases, Automaton, Edge, State, Tree, bare, binds, read_one, written
from automaton_texts import ABORTED, ALIAS, BUCHI, EVERYTHING, Maker
from causes import game_cause, solution_cause
from emptiness import judge_search, read_lasso
from games import Game, Refused, Solution, read_game, read_solution
from parts import made_at_random, part_of, solution_at_random, told_of_game
from parts import written as solution_text
from program import ROOT, SECONDS, Cases, Fault, fault_of, fault_with_file, output_of, shown

ESCAPES = {34: b'\\"', 92: b"\\\\", 38: b"&amp;", 10: b"\\n"}
COLOURS = (b"lightblue", b"orange")

GAMES = [
    b"0 0 0 1,2; 1 1 1 0; 2 2 1 0;",
    b'0 1 0 0,1 "a\\b &amp; c"; 1 2 1 0;',
    b'parity 9; 9 3 1 4 ""; 4 2 0 9,4,9 "<b>, {c}|d";',
    b"", b"0 0 0 1;", b"0 0 0 0",
]
AUTOMATA = [
    BUCHI, ABORTED, ALIAS, EVERYTHING,
    b'HOA: v1 name: "a\\"b" States: 5 Start: 0 Start: 1&2 AP: 2 "p\\\\q" "r" Acceptance: 2 Inf(0)&Fin(!1)\n'
    b'--BODY-- State: [0&!1|t] 0 "ze&ro" {1} 1 0&3 {0} State: 1 [!(0|1)&0] 3 {0 1} [1] 1 --END--',
    b'HOA: v1 name: "\n\t\x01\xff" States: 2 Start: 1 AP: 1 "\r&" acc-name: Buchi Acceptance: 1 Inf(0) --BODY-- '
    b"State: 1 [0] 0 State: 0 [!0] 1 {0} [0] 0 --END--",
    b'HOA: v1 States: 1 Start: 0 AP: 8 "a & b" "t" "f" "" "_x1" "1x" "T" "a-b" Acceptance: 0 t --BODY-- '
    b'State: 0 [0&1|!2&3] 0 [4] 0 [5|!4&6] 0 [7&t] 0 --END--',
    b'HOA: v1 States: 2 Start: 0 AP: 2 "0" "b" Acceptance: 1 Inf(0) --BODY-- '
    b'State: 0 0 1 {0} 1 1 State: 1 [0] 0&1 1 0 0 {0} --END--',
    b'HOA: v1 States: 2 Start: 0 Acceptance: 1 Inf(0) --BODY-- State: 0 1 State: 1 {0} 0&1 --END--',
    b'HOA: v1 States: 2 Start: 0 AP: 1 "a" Acceptance: 1 Inf(0) --BODY-- State: 0 [0] 1 [!0] 0 [!0] 1 {0} [t] 0&1 '
    b'[0] 0 '
    b'[f] 1 State: 1 [f] 1 [0] 1 {0} [t] 1 [0] 0 [t] 1 --END--',
    b'HOA: v1 States: 2 Start: 0 AP: 1 "a" Acceptance: 1 Inf(0) --BODY-- State: 0 [0&!0] 1 [0] 1 [f] 1 [!0] 1 '
    b'State: 1 [0] 1 {0} '
    b'[f] 1 [t] 1 [!0] 0 [0] 0 [!0] 1 --END--',
    b'HOA: v1 States: 2 Start: 0 Start: 1 AP: 2 "a" "b" Acceptance: 1 Inf(0) --BODY-- State: 0 1 0 1 {0} 0 State: 1 '
    b'{0} 1 1 1 1 --END--',
    b'HOA: v1 States: 1 Start: 0 AP: 1 "\xc3\xa9\xc3\xe1\x80\xf4\x90\x80\xed\xa0\x80\xc0\xaf\xf0\x9f\x92" '
    b'Acceptance: 0 t '
    b"--BODY-- State: 0 [0] 0 --END--",
    b"HOA: v1 States: 2147483647 Start: 2147483646 acc-name: all Acceptance: 0 t --BODY-- --END--",
    b"HOA: v1 States: 3 Start: 0 acc-name: co-Buchi Acceptance: 1 Fin(0) --BODY-- State: 0 [t] 0 {0} [t] 1 State: 1 "
    b"[t] 1 --END--",
    b"HOA: v1 States: 1 Start: 0 acc-name: none Acceptance: 0 f --BODY-- State: 0 [t] 0 --END--",
    b"", b"x", b"HOA: v1 --BODY-- --END--",
]


def escaped(name: bytes) -> bytes:
    """A name in UTF-8, with the replacement character for what is not, and each byte escaped."""
    signs = name.decode(errors="replace").encode()
    return b"".join(ESCAPES.get(byte, b" " if byte < 32 else bytes([byte])) for byte in signs)


def name_line(quoted: bytes | None) -> bytes:
    return b"" if quoted is None else escaped(quoted[1:-1]) + b"\\n"


LEGEND = b"""\
  subgraph cluster_legend {
    label="legend";
    owner0 [shape=diamond, label="player 0"];
    owner1 [shape=box, label="player 1"];
    owner0 -> owner1 [style=invis];
    legend0 [shape=plaintext, label="player 0 wins", style=filled, fillcolor=lightblue];
    legend1 [shape=plaintext, label="player 1 wins", style=filled, fillcolor=orange];
    legend0 -> legend1 [style=invis];
    chosen [shape=plaintext, label="the winner's choice"];
    choosing [shape=point];
    choosing -> chosen [style=bold];
  }
"""


def near(nodes: Game, start: int, depth: int | None) -> set[int]:
    """The nodes to which at most so many steps lead from the start, or any number of them where no depth is given."""
    kept = set(part_of(nodes, start))
    if depth is None:
        return kept
    steps, reached = 0, {start}
    while steps < depth and reached != kept:
        steps, reached = steps + 1, reached | {successor for one in reached for successor in nodes[one].successors}
    return reached


def game_drawing(nodes: Game, solution: Solution | None = None, start: int | None = None, depth: int | None = None,
                 legend: bool = False) -> bytes:
    drawn = nodes if start is None else near(nodes, start, depth)
    lines = [b"digraph game {\n"]
    for identifier, node in nodes.items():
        if identifier not in drawn:
            continue
        winner, choice = solution[identifier] if solution else (None, None)
        fill = b"" if winner is None else b", style=filled, fillcolor=" + COLOURS[winner]
        label = b"%d\\n%spriority %d\\n" % (identifier, name_line(node.name), node.priority)
        lines.append(b'  %d [shape=%s, label="%s"%s];\n' % (identifier, (b"diamond", b"box")[node.owner], label, fill))
        for successor in node.successors:
            bold = b" [style=bold]" if successor == choice else b""
            if successor in drawn:
                lines.append(b"  %d -> %d%s;\n" % (identifier, successor, bold))
        if any(successor not in drawn for successor in node.successors):
            lines.append(b'  more%d [shape=plaintext, label="..."];\n' % identifier)
            lines.append(b"  %d -> more%d;\n" % (identifier, identifier))
    return b"".join(lines) + (LEGEND if legend else b"") + b"}\n"


def drawn_name(quoted: bytes) -> bytes:
    """The name of a proposition, in quotes where it is no identifier, or could be taken for a constant."""
    name = quoted[1:-1]
    if re.fullmatch(rb"[A-Za-z_][A-Za-z0-9_]*", name) and name not in (b"t", b"f"):
        return name
    return rb'\"' + escaped(name) + rb'\"'


def named(tree: Tree, names: list[bytes]) -> bytes:
    """A label with the names of its propositions, in parentheses where the canonical text has them."""
    if tree[0] == "number":
        return drawn_name(names[tree[1]])
    if tree[0] not in BINDS:
        return tree[0].encode()

    def part(tree: Tree, least: int) -> bytes:
        return named(tree, names) if binds(tree) >= least else b"(" + named(tree, names) + b")"

    if tree[0] == "!":
        return b"!" + part(tree[1], 3)
    return part(tree[1], binds(tree)) + b" %s " % tree[0].encode() + part(tree[2], binds(tree) + 1)


def valuation(index: int, names: list[bytes]) -> bytes:
    """What the edge of an index demands in a state without labels: a proposition holds if its bit is set in the
    index."""
    literals = [(b"" if index >> place & 1 else b"!") + drawn_name(name) for place, name in enumerate(names)]
    return b" & ".join(literals) or b"t"


def marks_line(marks: Iterable[int]) -> bytes:
    return b"{" + b" ".join(b"%d" % mark for mark in sorted(set(marks))) + b"}\\n" if marks else b""


def start_lines(number: int, states: list[int]) -> list[bytes]:
    hidden = b", style=invis" if len(states) == 1 else b""
    arrows = [b"  start%d -> %d;\n" % (number, state) for state in states]
    return [b"  start%d [shape=point%s];\n" % (number, hidden), *arrows]


def arrow(state: int, target: int, drawn: bytes, style: bytes) -> bytes:
    return b'  %d -> %d [label="%s"%s];\n' % (state, target, drawn, style)


def branch_lines(number: int, state: int, targets: list[int], drawn: bytes, style: bytes) -> list[bytes]:
    lines = [b'  %d -> branch%d [label="%s"%s, arrowhead=none];\n' % (state, number, drawn, style),
             b"  branch%d [shape=point];\n" % number]
    return lines + [b'  branch%d -> %d [label=""%s];\n' % (number, target, style) for target in targets]


def edge_lines(state: int, edges: list[Edge], first: int, demanded: Callable[[int, Edge], bytes],
               styles: dict[int, bytes]) -> list[bytes]:
    """The edges of a state, numbered from a first number on; those on no lasso to the same one state share an arrow."""
    shared = [edge.targets[0] if len(edge.targets) == 1 and first + index not in styles else None
              for index, edge in enumerate(edges)]
    numbers = [b"edge %d\\n" % (first + index) if first + index in styles else b"" for index in range(len(edges))]
    labels = [numbers[index] + demanded(index, edge) + marks_line(edge.marks) for index, edge in enumerate(edges)]
    lines = []
    for index, edge in enumerate(edges):
        style = styles.get(first + index, b"")
        if len(edge.targets) != 1:
            lines += branch_lines(first + index, state, edge.targets, labels[index], style)
        elif shared[index] is None:
            lines.append(arrow(state, edge.targets[0], labels[index], style))
        elif shared.index(shared[index]) == index:
            together = b"".join(label for label, target in zip(labels, shared) if target == shared[index])
            lines.append(arrow(state, edge.targets[0], together, style))
    return lines


def automaton_drawing(automaton: Automaton, stem: Sequence[int] = (), cycle: Sequence[int] = ()) -> bytes:
    aliases, names = Aliases(automaton.said(b"Alias:")), automaton.first(b"AP:", (0, []))[1]

    def text_of(label: Tree) -> bytes:
        return named(aliases.tree_of(label), names)

    def demanded(state: State, index: int, edge: Edge) -> bytes:
        if edge.label is not None:
            return text_of(edge.label) + b"\\n"
        return valuation(index, names) + b"\\n" if state.label is None else b""

    front = name_line(automaton.first(b"name:", [None])[0]) + written(bare(automaton.first(b"Acceptance:", None)[1]))
    lines = [b'digraph automaton {\n  rankdir=LR;\n  labelloc=t;\n  label="%s\\n";\n' % front]
    for number, states in enumerate(automaton.said(b"Start:")):
        lines += start_lines(number, states)
    for state in automaton.states:
        label = b"" if state.label is None else b"[" + text_of(state.label) + b"]\\n"
        lines.append(b'  %d [label="%d\\n%s%s%s"];\n' % (
            state.number, state.number, name_line(state.name), label, marks_line(state.marks)))
    styles = {number: b", style=bold, color=blue" for number in stem}
    styles.update((number, b", style=bold, color=red") for number in cycle)
    first = 0
    for state in automaton.states:
        lines += edge_lines(state.number, state.edges, first, lambda index, edge: demanded(state, index, edge), styles)
        first += len(state.edges)
    return b"".join(lines) + b"}\n"


def game_fault(text: bytes) -> Fault:
    words = ["draw", "--format", "pg"]
    try:
        nodes = read_game(text)
    except Refused as refused:
        return fault_of(words, text, 1, b"", f"omega: {refused}\n".encode())
    return fault_of(words, text, 0, game_drawing(nodes))


def solution_fault(text: bytes, solution: bytes, legend: bool = False) -> Fault:
    words, judged = ["draw", "-v", "--format", "pg", *(["--legend"] if legend else []), "--solution"], "game"
    try:
        nodes = read_game(text)
        judged = "solution"
        read = read_solution(nodes, solution)
    except Refused as refused:
        cause = game_cause(text, refused) if judged == "game" else solution_cause(nodes, solution, refused)
        lines = f"omega: {refused}\nomega: in the {judged}\n{cause}"
        return fault_with_file(words, solution, text, 1, b"", lines.encode())
    return fault_with_file(words, solution, text, 0, game_drawing(nodes, read, legend=legend))


def part_words(start: int, depth: int | None) -> list[str]:
    return ["--from", str(start), *([] if depth is None else ["--depth", str(depth)])]


def part_fault(text: bytes, start: int, depth: int | None) -> Fault:
    words = ["draw", "--format", "pg", *part_words(start, depth)]
    try:
        nodes = read_game(text)
        part_of(nodes, start)
    except Refused as refused:
        return fault_of(words, text, 1, b"", f"omega: {refused}\n".encode())
    return fault_of(words, text, 0, game_drawing(nodes, None, start, depth))


def part_solution_fault(text: bytes, solution: bytes, start: int, depth: int | None, legend: bool) -> Fault:
    words = ["draw", "-v", "--format", "pg", *part_words(start, depth), *(["--legend"] if legend else []), "--solution"]
    judged = "game"
    try:
        nodes = read_game(text)
        part = part_of(nodes, start)
        judged = "solution"
        read = read_solution(part, solution)
    except Refused as refused:
        cause = told_of_game(text, refused) if judged == "game" else solution_cause(part, solution, refused)
        lines = f"omega: {refused}\nomega: in the {judged}\n{cause}"
        return fault_with_file(words, solution, text, 1, b"", lines.encode())
    return fault_with_file(words, solution, text, 0, game_drawing(nodes, read, start, depth, legend))


def part_checks(text: bytes, solution: bytes) -> Cases:
    """Parts of a game by several identifiers, one of which no node may have, and depths."""
    try:
        identifiers = list(read_game(text))
    except Refused:
        identifiers = []
    for start in sorted({*identifiers[:3], *identifiers[-1:], 3}):
        of_part = output_of(["solve", "--from", str(start)], text)
        for depth in (None, 0, 1, 2):
            label = f"the drawing of {shown(text)} from {start} to {depth}"
            yield label, partial(part_fault, text, start, depth)
            yield f"{label} with its solution", partial(part_solution_fault, text, of_part, start, depth, depth == 1)
            yield f"{label} with one of the game", partial(part_solution_fault, text, solution, start, depth, False)


def automaton_fault(text: bytes) -> Fault:
    words = ["draw", "--format", "hoa"]
    try:
        automaton = read_one(text)
    except Refused as refused:
        return fault_of(words, text, 1, b"", f"omega: {refused}\n".encode())
    return fault_of(words, text, 0, automaton_drawing(automaton))


def lasso_fault(text: bytes) -> Fault:
    """The lasso drawn is that of `empty --search`, which is judged where emptiness is checked."""
    words = ["draw", "--format", "hoa", "--lasso"]
    try:
        automaton = read_one(text)
        judge_search(automaton)
    except Refused as refused:
        return fault_of(words, text, 1, b"", f"omega: {refused}\n".encode())
    stem, cycle = read_lasso(output_of(["empty", "--search"], text)) or ((), ())
    return fault_of(words, text, 0, automaton_drawing(automaton, stem, cycle))


def texts_of_automata() -> list[bytes]:
    maker = Maker(11)
    return AUTOMATA + [maker.automaton() for _ in range(60)]


def drawing_checks() -> Cases:
    maker = random.Random(24)
    for text in GAMES + [made_at_random(maker) for _ in range(40)]:
        yield f"the drawing of {shown(text)}", partial(game_fault, text)
        yield f"the drawing of {shown(text)} with its solution", partial(
            solution_fault, text, output_of(["solve"], text))
        yield f"the drawing of {shown(text)} with no solution", partial(solution_fault, text, b"paritysol 1;")
        yield f"the drawing of {shown(text)} with a legend", partial(
            solution_fault, text, output_of(["solve"], text), True)
        yield from part_checks(text, output_of(["solve"], text))
    for text in [made_at_random(maker) for _ in range(40)]:
        nodes = read_game(text)
        solution = solution_text(nodes, solution_at_random(maker, nodes))
        yield f"the drawing of {shown(text)} with any solution", partial(solution_fault, text, solution)
    for text in texts_of_automata():
        yield f"the drawing of {shown(text)}", partial(automaton_fault, text)
        yield f"the drawing of {shown(text)} with a lasso", partial(lasso_fault, text)
    for held, line, cause in ((b"0 0 0 0;" + b" " * 16_777_216, b"omega: 4 TooLong\n", b""),
                              (b"\xff", b"omega: 1 Lex at 0\n", b"omega: line 1, column 1: '\\xff'\n")):
        words = ["draw", "-v", "--format", "pg", "--solution"]
        yield f"a solution file of {len(held)} bytes", partial(
            fault_with_file,
            words, held, GAMES[0], 1, b"", line + b"omega: in the solution\n" + cause)
    missing = os.path.join(ROOT, "no", "such", "solution")
    said = f"omega: 61 Io\nomega: cannot read '{missing}': no such file or directory\n".encode()
    yield "a solution file that is not there", partial(
        fault_of,
        ["draw", "-v", "--format", "pg", "--solution", missing], GAMES[0], 5, b"", said)
    if shutil.which("dot"):
        yield from picture_checks()


def picture_of(drawing: bytes) -> tuple[bytes | None, bytes]:
    """A picture in SVG, and what `dot` says of it."""
    made = subprocess.run(["dot", "-Tsvg"], input=drawing, capture_output=True, timeout=SECONDS)
    return made.stdout if made.returncode == 0 and made.stdout.rstrip().endswith(b"</svg>") else None, made.stderr


def named_automaton(name: bytes) -> tuple[bytes, bytes]:
    """An automaton of one state, whose name is such a string; in the string a quote and a backslash need one before
    them."""
    quoted = re.sub(rb'(["\\])', rb"\\\1", name)
    text = b'HOA: v1 name: "%s" States: 1 Acceptance: 0 t --BODY-- State: 0 --END--' % quoted
    return quoted, output_of(["draw", "--format", "hoa"], text)


def lines_of(picture: bytes) -> list[str]:
    """The lines of text in a picture, with plain spaces for those that do not break."""
    texts = re.findall("<text[^>]*>(.*?)</text>", picture.decode(), re.DOTALL)
    return [html.unescape(text).replace("\xa0", " ") for text in texts]


def drawn_name_fault(name: bytes) -> Fault:
    """What a picture shows in place of a name in UTF-8, which must be its lines, with a space for other signs below
    32."""
    quoted, drawing = named_automaton(name)
    picture, said = picture_of(drawing)
    if picture is None or said:
        return shown(said)
    wanted = ["".join(" " if sign < " " or sign == "\xa0" else sign for sign in line)
              for line in quoted.decode().split("\n")]
    came = lines_of(picture)[:len(wanted)]
    return None if came == wanted else f"{came} for {wanted}"


def every_byte() -> Cases:
    """Each byte that a text in UTF-8 can have, in a name; and each other byte alone, which is the replacement
    character."""
    yield "signs of one byte", partial(drawn_name_fault, bytes(range(128)))
    # All second bytes of two, and each first byte of two, three and four with the least sign that it begins.
    longer = [*range(0x80, 0x100), *range(0x100, 0x800, 0x40), 0x800, *range(0x1000, 0xd000, 0x1000), 0xd000,
              0xe000, 0xf000, 0x10000, 0x40000, 0x80000, 0xc0000, 0x100000]
    for code in range(0, len(longer), 32):
        signs = "".join(map(chr, longer[code:code + 32]))
        yield f"signs of more bytes from {longer[code]}", partial(drawn_name_fault, signs.encode())
    for first in range(128, 256):
        picture, said = picture_of(named_automaton(b"x%cy" % first)[1])
        good = picture and not said and "x\ufffdy" in lines_of(picture)
        yield f"the byte {first} alone", None if good else shown(said)


def picture_checks() -> Cases:
    """Graphviz makes a picture of the drawing of each example, and of names of every byte."""
    yield from ((f"a picture of {label}", fault) for label, fault in every_byte())
    drawn = [(path, ["draw", "--format", "pg"]) for path in glob.glob(os.path.join(ROOT, "examples", "*.pg"))]
    drawn += [(path, ["draw", "--format", "hoa", *more.split()])
              for path in glob.glob(os.path.join(ROOT, "examples", "*.hoa"))
              if "aborted" not in path for more in ("", "--lasso")]
    for path, words in sorted(drawn):
        with open(path, "rb") as file:
            picture, said = picture_of(output_of(words, file.read()))
        good = picture and not said
        yield f"a picture of {os.path.basename(path)} by {' '.join(words)}", None if good else shown(said)
