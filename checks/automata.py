"""Texts of automata in the Hanoi format by the rules of docs/formats.md, read as plainly as can be: what the program is
compared with.

Nothing here is quick, and nothing is shared with the program.
"""
import re
import sys
from collections.abc import Callable
from dataclasses import dataclass, field
from typing import Any

from games import MOST_NUMBER, WHITE, Refused

# Expressions somewhat deeper than the limit are read by recursion.
sys.setrecursionlimit(20_000)

MOST_PROPOSITIONS, MOST_DEPTH, MOST_SIZE, MOST_TOTAL_SIZE = 1024, 256, 65_536, 16_777_216
MARKS = (b"--BODY--", b"--END--", b"--ABORT--")
WORD = re.compile(rb"[A-Za-z_][A-Za-z0-9_-]*")
UNIT = re.compile(rb'--BODY--|--END--|--ABORT--|[0-9]+|@[A-Za-z0-9_-]+|[!&|()\[\]{}]|"(?:[^"\\]|\\.)*"', re.DOTALL)


@dataclass
class Token:
    kind: str
    text: bytes
    place: int

    def number(self) -> int:
        return int(self.text)


def comment_end(text: bytes, place: int) -> int | None:
    """The place after the comment that begins at a place, none where it has no end."""
    depth = 0
    while place < len(text):
        two = text[place:place + 2]
        if two == b"/*":
            depth, place = depth + 1, place + 2
        elif two == b"*/":
            depth, place = depth - 1, place + 2
            if depth == 0:
                return place
        else:
            place += 1
    return None


def next_place(text: bytes, place: int) -> int:
    """Where white space and comments from a place on end; refused 1 at a comment without end."""
    while place < len(text):
        if text[place] in WHITE:
            place += 1
        elif text.startswith(b"/*", place):
            end = comment_end(text, place)
            if end is None:
                raise Refused(f"1 Lex at {place}")
            place = end
        else:
            break
    return place


def token_at(text: bytes, place: int) -> Token:
    """The longest token at a place; refused 1 or 2 where there is none."""
    word = WORD.match(text, place)
    if word:
        if text[word.end():word.end() + 1] == b":":
            return Token("header", word.group() + b":", place)
        return Token("boolean" if word.group() in (b"t", b"f") else "identifier", word.group(), place)
    unit = UNIT.match(text, place)
    if not unit:
        raise Refused(f"1 Lex at {place}")
    found = unit.group()
    if found.isdigit():
        if found != b"0" and found.startswith(b"0") or int(found) > MOST_NUMBER:
            raise Refused(f"2 Number at {place}")
        return Token("number", found, place)
    kind = {b'"': "string", b"@": "alias"}.get(found[:1], "mark" if found in MARKS else "sign")
    return Token(kind, found, place)


def tokens_of(text: bytes) -> tuple[list[Token], Refused | None]:
    """The tokens of a text before its first fault of tokens, and that fault or none."""
    found, place = [], 0
    try:
        while (place := next_place(text, place)) < len(text):
            found.append(token_at(text, place))
            place += len(found[-1].text)
    except Refused as refused:
        return found, refused
    return found, None


# Expressions are tuples: ("t",), ("f",), ("number", n), ("alias", name), ("atom", word, negated, set), ("!", x),
# ("&", x, y), ("|", x, y), ("()", x).
Tree = tuple[Any, ...]
# What reads an atom, given what reads a whole operand.
Atom = Callable[[Callable[[], Tree]], Tree]
# Depth, tree nodes and tree of an expression.
Measured = tuple[int, int, Tree]


class Reader:
    """Goes over the tokens of one segment; refused 3 at the first that can't stand where it stands."""

    def __init__(self, tokens: list[Token]) -> None:
        self.tokens, self.next = tokens, 0

    def look(self) -> Token:
        return self.tokens[self.next]

    def sees(self, *kinds: str) -> bool:
        return self.look().kind in kinds

    def sees_text(self, *texts: bytes) -> bool:
        return self.look().text in texts

    def take(self, *kinds: str) -> Token:
        if not self.sees(*kinds):
            raise Refused(f"3 Syntax at {self.look().place}")
        self.next += 1
        return self.tokens[self.next - 1]

    def take_text(self, *texts: bytes) -> Token:
        if not self.sees_text(*texts):
            raise Refused(f"3 Syntax at {self.look().place}")
        self.next += 1
        return self.tokens[self.next - 1]

    def many(self, *kinds: str) -> list[Token]:
        found = []
        while self.sees(*kinds):
            found.append(self.take(*kinds))
        return found

    def joined(self, operator: bytes, part: Callable[[], Tree]) -> Tree:
        found = part()
        while self.sees_text(operator):
            self.take_text(operator)
            found = (operator.decode(), found, part())
        return found

    def expression(self, atom: Atom) -> Tree:
        """An expression; the depth of parentheses is that of Python's stack, so hostile texts have checks of their
        own."""
        def unary() -> Tree:
            if self.sees_text(b"("):
                self.take_text(b"(")
                inner = self.expression(atom)
                self.take_text(b")")
                return ("()", inner)
            return atom(unary)
        return self.joined(b"|", lambda: self.joined(b"&", unary))

    def label(self) -> Tree:
        def atom(unary: Callable[[], Tree]) -> Tree:
            if self.sees_text(b"!"):
                self.take_text(b"!")
                return ("!", unary())
            token = self.take("boolean", "number", "alias")
            if token.kind == "boolean":
                return (token.text.decode(),)
            return ("number", token.number()) if token.kind == "number" else ("alias", token.text)
        return self.expression(atom)

    def acceptance(self) -> Tree:
        def atom(_unary: Callable[[], Tree]) -> Tree:
            token = self.take("boolean", "identifier")
            if token.kind == "boolean":
                return (token.text.decode(),)
            self.take_text(b"(")
            negated = self.sees_text(b"!")
            if negated:
                self.take_text(b"!")
            number = self.take("number").number()
            self.take_text(b")")
            return ("atom", token.text, negated, number)
        return self.expression(atom)

    def states(self) -> list[int]:
        found = [self.take("number").number()]
        while self.sees_text(b"&"):
            self.take_text(b"&")
            found.append(self.take("number").number())
        return found

    def bracketed(self) -> Tree | None:
        if not self.sees_text(b"["):
            return None
        self.take_text(b"[")
        found = self.label()
        self.take_text(b"]")
        return found

    def braced(self) -> list[int]:
        if not self.sees_text(b"{"):
            return []
        self.take_text(b"{")
        found = [token.number() for token in self.many("number")]
        self.take_text(b"}")
        return found


@dataclass
class Edge:
    label: Tree | None
    targets: list[int]
    marks: list[int]


@dataclass
class State:
    label: Tree | None
    number: int
    name: bytes | None
    marks: list[int]
    edges: list[Edge]


@dataclass
class Automaton:
    """An automaton as it is written, and what it means where it has no fault."""
    version: bytes
    items: list[tuple[bytes, Any]] = field(default_factory=list)
    states: list[State] = field(default_factory=list)

    def said(self, name: bytes) -> list[Any]:
        return [value for header, value in self.items if header == name]

    def first(self, name: bytes, other: Any) -> Any:
        return (self.said(name) + [other])[0]


def read_item(reader: Reader) -> tuple[bytes, Any]:
    name = reader.take("header").text
    if name in (b"HOA:", b"State:"):
        raise Refused(f"3 Syntax at {reader.tokens[reader.next - 1].place}")
    if name == b"States:":
        return name, reader.take("number").number()
    if name == b"Start:":
        return name, reader.states()
    if name == b"AP:":
        return name, (reader.take("number").number(), [token.text for token in reader.many("string")])
    if name == b"Alias:":
        return name, (reader.take("alias").text, reader.label())
    if name == b"Acceptance:":
        return name, (reader.take("number").number(), reader.acceptance())
    if name == b"acc-name:":
        first = reader.take("identifier")
        return name, [token.text for token in [first, *reader.many("boolean", "number", "identifier")]]
    if name == b"tool:":
        tool = reader.take("string").text
        return name, [tool] + [reader.take("string").text for _ in range(reader.sees("string"))]
    if name == b"name:":
        return name, [reader.take("string").text]
    if name == b"properties:":
        return name, [token.text for token in reader.many("identifier")]
    return b"unknown", (name, [token.text for token in reader.many("boolean", "number", "string", "identifier")])


def read_state(reader: Reader) -> State:
    reader.take_text(b"State:")
    label, number = reader.bracketed(), reader.take("number").number()
    name = reader.take("string").text if reader.sees("string") else None
    marks, edges = reader.braced(), []
    while reader.sees_text(b"[") or reader.sees("number"):
        edges.append(Edge(reader.bracketed(), reader.states(), reader.braced()))
    return State(label, number, name, marks, edges)


def read_segment(tokens: list[Token]) -> Automaton:
    """The automaton that the tokens from `HOA:` to `--END--` write; refused 3."""
    reader = Reader(tokens)
    reader.take_text(b"HOA:")
    automaton = Automaton(reader.take("identifier").text)
    while reader.sees("header"):
        automaton.items.append(read_item(reader))
    reader.take_text(b"--BODY--")
    while reader.sees_text(b"State:"):
        automaton.states.append(read_state(reader))
    reader.take_text(b"--END--")
    return automaton


def leaves(expression: Tree) -> list[Tree]:
    if expression[0] in ("()", "!", "&", "|"):
        return [leaf for part in expression[1:] for leaf in leaves(part)]
    return [expression]


class Aliases:
    """What each alias means: depth, tree nodes and tree, or none where one before it is missing."""

    def __init__(self, definitions: list[tuple[bytes, Tree]]) -> None:
        self.known: dict[bytes, Measured | None] = {}
        self.wrong, self.measures = False, list[Measured | None]()
        for name, body in definitions:
            measured = self.measure(body)
            self.wrong = self.wrong or name in self.known or measured is None
            self.measures.append(measured)
            self.known.setdefault(name, measured)

    def measure(self, expression: Tree) -> Measured | None:
        if expression[0] == "alias":
            meant = self.known.get(expression[1])
            return meant and (meant[0] + 1, meant[1], meant[2])
        measured = [self.measure(part) for part in expression[1:]] if expression[0] in ("()", "!", "&", "|") else []
        parts = [part for part in measured if part]
        if len(parts) < len(measured):
            return None
        depth, size = 1 + max([part[0] for part in parts], default=0), sum(part[1] for part in parts)
        if expression[0] == "()":
            return depth, size, parts[0][2]
        return depth, size + 1, (expression[0], *[part[2] for part in parts]) if parts else expression

    def tree_of(self, expression: Tree) -> Tree:
        """The tree of an expression of an automaton without fault."""
        measured = self.measure(expression)
        assert measured, "an alias is missing"
        return measured[2]


def count_of_states(automaton: Automaton) -> tuple[int, list[int]]:
    mentioned = [state for states in automaton.said(b"Start:") for state in states]
    for state in automaton.states:
        mentioned += [state.number] + [target for edge in state.edges for target in edge.targets]
    counted = automaton.first(b"States:", min(MOST_NUMBER, max(mentioned, default=-1) + 1))
    return counted, mentioned


def labels_of(automaton: Automaton) -> list[Tree]:
    written = [label for state in automaton.states for label in [state.label, *[edge.label for edge in state.edges]]]
    return [label for label in written if label is not None]


def faults_of(automaton: Automaton) -> list[tuple[str, bool]]:
    """Each meaning fault with whether it applies, by its number."""
    once = (b"States:", b"AP:", b"Acceptance:", b"acc-name:", b"tool:", b"name:")
    states, mentioned = count_of_states(automaton)
    sets, formula = automaton.first(b"Acceptance:", (0, ("t",)))
    stated, names = automaton.first(b"AP:", (0, []))
    marks = [mark for state in automaton.states
             for marks in [state.marks, *[edge.marks for edge in state.edges]] for mark in marks]
    atoms = [leaf for _, written in automaton.said(b"Acceptance:") for leaf in leaves(written) if leaf[0] == "atom"]
    definitions, labels = automaton.said(b"Alias:"), labels_of(automaton)
    numbers = [leaf[1] for label in [*labels, *[body for _, body in definitions]] for leaf in leaves(label)
               if leaf[0] == "number"]
    aliases = Aliases(definitions)
    measures = [aliases.measure(label) for label in labels]
    known = [measured for measured in measures + aliases.measures if measured]
    of_formula = aliases.measure(formula)
    labelled = [[edge.label is not None for edge in state.edges] for state in automaton.states]
    return [
        ("20 Version", automaton.version != b"v1"),
        ("21 RepeatedHeader", any(len(automaton.said(name)) > 1 for name in once)),
        ("22 MissingAcceptance", not automaton.said(b"Acceptance:")),
        ("23 UnknownHeader", any(name[:1].isupper() for name, _ in automaton.said(b"unknown"))),
        ("24 StateRange", any(state >= states for state in mentioned)),
        ("25 SetRange", any(mark >= sets for mark in marks) or any(atom[3] >= sets for atom in atoms)),
        ("26 Proposition", stated != len(names) or len(set(names)) < len(names) or len(names) > MOST_PROPOSITIONS
         or any(number >= stated for number in numbers)),
        ("27 Alias", aliases.wrong or None in measures),
        ("28 StateTwice", len({state.number for state in automaton.states}) < len(automaton.states)),
        ("29 MixedLabels", any(any(has) and (state.label is not None or not all(has))
                               for state, has in zip(automaton.states, labelled))),
        ("30 ImplicitCount", any(state.label is None and has != [] and not any(has) and len(has) != 2 ** stated
                                 for state, has in zip(automaton.states, labelled))),
        ("31 AcceptanceAtom", any(atom[1] not in (b"Fin", b"Inf") for atom in atoms)),
        ("32 TooDeep", any(measured and measured[0] > MOST_DEPTH for measured in [*known, of_formula])),
        ("33 Expansion", any(measured[1] > MOST_SIZE for measured in known)
         or sum(measured[1] for measured in measures if measured) > MOST_TOTAL_SIZE),
    ]


def judged(automaton: Automaton) -> Automaton:
    """The automaton; refused by its least fault."""
    for fault, applies in faults_of(automaton):
        if applies:
            raise Refused(fault)
    return automaton


def read_stream(text: bytes) -> list[Automaton | None]:
    """The items of a stream, none for an aborted one; refused by the first segment or token that is at fault."""
    tokens, fault = tokens_of(text)
    items: list[Automaton | None] = []
    segment: list[Token] | None = None
    for token in tokens:
        if segment is None:
            if token.text != b"HOA:":
                raise Refused(f"3 Syntax at {token.place}")
            segment = []
        segment.append(token)
        if token.text == b"--ABORT--":
            items.append(None)
            segment = None
        elif token.text == b"--END--":
            items.append(judged(read_segment(segment)))
            segment = None
    if fault:
        raise fault
    if segment is not None:
        raise Refused(f"3 Syntax at {len(text)}")
    return items


def read_one(text: bytes) -> Automaton:
    """The automaton of a text that holds one segment and nothing else."""
    tokens, fault = tokens_of(text)
    if fault:
        raise fault
    if not tokens or tokens[0].text != b"HOA:":
        raise Refused(f"3 Syntax at {tokens[0].place if tokens else len(text)}")
    ends = [i for i, token in enumerate(tokens) if token.text in (b"--END--", b"--ABORT--")]
    if not ends:
        raise Refused(f"3 Syntax at {len(text)}")
    if tokens[ends[0]].text == b"--ABORT--":
        raise Refused(f"3 Syntax at {tokens[ends[0]].place}")
    automaton = read_segment(tokens[:ends[0] + 1])
    if ends[0] + 1 < len(tokens):
        raise Refused(f"3 Syntax at {tokens[ends[0] + 1].place}")
    return judged(automaton)


BINDS = {"|": 1, "&": 2, "!": 3}


def binds(expression: Tree) -> int:
    return BINDS.get(expression[0], 4)


def bare(expression: Tree) -> Tree:
    """The tree of an expression without its parentheses, where no alias stands in it."""
    if expression[0] == "()":
        return bare(expression[1])
    return (expression[0], *[bare(part) for part in expression[1:]]) if expression[0] in BINDS else expression


def part_of(part: Tree, least: int) -> bytes:
    """A part of an operator, in parentheses where it binds less tightly than is needed."""
    return written(part) if binds(part) >= least else b"(" + written(part) + b")"


def written(tree: Tree) -> bytes:
    """The canonical text of a tree."""
    if tree[0] == "number":
        return b"%d" % tree[1]
    if tree[0] == "atom":
        return b"%s(%s%d)" % (tree[1], b"!" if tree[2] else b"", tree[3])
    if tree[0] not in BINDS:
        return tree[0].encode()
    if tree[0] == "!":
        return b"!" + part_of(tree[1], 3)
    return part_of(tree[1], binds(tree)) + tree[0].encode() + part_of(tree[2], binds(tree) + 1)


def canonical(automaton: Automaton) -> bytes:
    """The canonical text of an automaton without fault."""
    aliases = Aliases(automaton.said(b"Alias:"))

    def labelled(label: Tree | None) -> list[bytes]:
        return [] if label is None else [b"[" + written(aliases.tree_of(label)) + b"]"]

    def marked(marks: list[int]) -> list[bytes]:
        return [b"{" + b" ".join(b"%d" % mark for mark in sorted(set(marks))) + b"}"] if marks else []

    def joined(states: list[int]) -> bytes:
        return b"&".join(b"%d" % state for state in states)

    sets, formula = automaton.first(b"Acceptance:", None)
    stated, names = automaton.first(b"AP:", (0, []))
    lines = [[b"HOA: v1"]]
    lines += [[name, *words] for name in (b"tool:", b"name:") for words in automaton.said(name)]
    lines += [[b"States: %d" % count_of_states(automaton)[0]]]
    lines += [[b"Start:", joined(states)] for states in automaton.said(b"Start:")]
    lines += [[b"AP: %d" % stated, *names]]
    lines += [[b"acc-name:", *words] for words in automaton.said(b"acc-name:")]
    lines += [[b"Acceptance: %d" % sets, written(bare(formula))]]
    properties = [word for words in automaton.said(b"properties:") for word in words]
    lines += [[b"properties:", *properties]] if properties else []
    lines += [[name, *values] for name, values in automaton.said(b"unknown")]
    lines += [[b"--BODY--"]]
    for state in automaton.states:
        name = [] if state.name is None else [state.name]
        lines += [[b"State:", *labelled(state.label), b"%d" % state.number, *name, *marked(state.marks)]]
        lines += [[*labelled(edge.label), joined(edge.targets), *marked(edge.marks)] for edge in state.edges]
    lines += [[b"--END--"]]
    return b"".join(b" ".join(line) + b"\n" for line in lines)


def shown_items(items: list[Automaton | None]) -> bytes:
    """What `show` writes of the items of a stream."""
    lines = []
    for number, automaton in enumerate(items):
        if automaton is None:
            lines.append(b"%d aborted\n" % number)
            continue
        sets, formula = automaton.first(b"Acceptance:", None)
        lines.append(b"%d automaton states %d edges %d propositions %d sets %d acceptance %s\n" % (
            number, count_of_states(automaton)[0], sum(len(state.edges) for state in automaton.states),
            automaton.first(b"AP:", (0, []))[0], sets, written(bare(formula))))
    return b"".join(lines)


def canonical_stream(items: list[Automaton | None]) -> bytes:
    """What `canon` writes of the items of a stream."""
    return b"".join(canonical(automaton) for automaton in items if automaton is not None)
