"""Whether a parity automaton is realizable, as plainly as can be: by a game with a node for each letter of the
environment; whether edges that are kept are a controller or a counter-strategy, letter by letter; and whether an
automaton of anyone's making is a controller for a specification.

Nothing here is quick, and nothing is shared with the program. Closed walks are judged by the acceptance formula, and
not by priorities.
"""
import itertools
import re
from collections.abc import Collection, Iterator
from dataclasses import dataclass

from automata import Automaton, Refused, Tree, bare, leaves, read_one, written
from containing import dual, formula_of, is_contained
from emptiness import Kind, Move, Parity, branches, has_accepting_walk, is_true, kind_of, moves_of, priority
from emptiness import reached_from
from games import Game, Node, winners
from products import named, names_of
from program import Fault, difference

# The numbers of the propositions that hold.
Held = frozenset[int]
ITEM = b"controllable-AP:"


def has_item(automaton: Automaton) -> bool:
    """Whether the header says what the system controls."""
    return any(name == ITEM for name, _ in automaton.said(b"unknown"))


def subsets(numbers: Collection[int]) -> list[Held]:
    return [frozenset(held) for size in range(len(numbers) + 1) for held in itertools.combinations(numbers, size)]


def controlled_of(automaton: Automaton) -> list[int]:
    """The numbers of the propositions that the system controls, in the order of the item; refused 58."""
    items = [values for name, values in automaton.said(b"unknown") if name == ITEM]
    count = automaton.first(b"AP:", (0, []))[0]
    listed = [value for values in items for value in values]
    if len(items) > 1 or not all(value.isdigit() and int(value) < count for value in listed):
        raise Refused("58 Controllable")
    if len(set(map(int, listed))) < len(listed):
        raise Refused("58 Controllable")
    return [int(value) for value in listed]


@dataclass
class Parted:
    """An automaton whose propositions are parted: those of the system, and those of the environment. Its moves are its
    edges."""
    automaton: Automaton
    propositions: int
    controlled: list[int]
    inputs: list[int]
    moves: list[Move]
    starts: list[int]

    def can_be_taken(self, move: Move, held: Held) -> bool:
        """Whether an edge can be taken where these propositions hold."""
        if move.label is None:
            return all((move.place >> number) % 2 == (number in held) for number in range(self.propositions))
        return is_true(move.label, held)

    def answers(self, move: Move, given: Held) -> bool:
        """Whether an edge answers a letter of the environment."""
        return any(self.can_be_taken(move, given | own) for own in subsets(self.controlled))

    def is_usable(self, move: Move) -> bool:
        return any(self.answers(move, given) for given in subsets(self.inputs))

    def leaving(self, state: int) -> list[Move]:
        return [move for move in self.moves if move.source == state]

    def label_of(self, move: Move) -> Tree:
        """The label of an edge, also if it is written without one."""
        if move.label is not None:
            return move.label
        return conjunction([literal(number, (move.place >> number) % 2 == 1) for number in range(self.propositions)])

    def clash(self) -> int | None:
        """The first state by number of which two edges can be taken at one letter."""
        for state in sorted({move.source for move in self.moves}):
            leaving = self.leaving(state)
            for held in subsets(range(self.propositions)):
                if sum(self.can_be_taken(move, held) for move in leaving) > 1:
                    return state
        return None


def literal(number: int, holds: bool) -> Tree:
    return ("number", number) if holds else ("!", ("number", number))


def conjunction(parts: list[Tree]) -> Tree:
    """The conjunction of parts, grouped to the left; `t` if there are none."""
    tree: Tree = parts[0] if parts else ("t",)
    for part in parts[1:]:
        tree = ("&", tree, part)
    return tree


def parted(automaton: Automaton) -> Parted:
    """The automaton with its propositions parted; refused 58 or 41."""
    controlled = controlled_of(automaton)
    if branches(automaton):
        raise Refused("41 UniversalBranch")
    count = automaton.first(b"AP:", (0, []))[0]
    inputs = [number for number in range(count) if number not in controlled]
    starts = [states[0] for states in automaton.said(b"Start:")]
    return Parted(automaton, count, controlled, inputs, moves_of(automaton), starts)


def parity_of(automaton: Automaton) -> Parity:
    """The parity kind; refused 40."""
    kind: Kind = kind_of(automaton)
    if isinstance(kind, int):
        raise Refused("40 NotParity")
    return kind


def single(asked_of: Parted) -> Parted:
    """The automaton, if it is deterministic; else refused 56."""
    if len(asked_of.starts) > 1:
        raise Refused(f"56 NotDeterministic at {asked_of.starts[1]}")
    clash = asked_of.clash()
    if clash is not None:
        raise Refused(f"56 NotDeterministic at {clash}")
    return asked_of


def asked(automaton: Automaton) -> tuple[Parted, Parity]:
    """What it is asked of whether it is realizable; refused by the first of 58, 41, 56 and 40 that applies. The item has
    to be there."""
    if not has_item(automaton):
        raise Refused("58 Controllable")
    return single(parted(automaton)), parity_of(automaton)


def is_realizable(asked_of: Parted, kind: Parity) -> bool:
    """Whether the system wins: in each state the environment chooses one of all letters, and the system an edge that
    answers it. Who has no answer loses."""
    if not asked_of.starts:
        return False
    numbers: dict[object, int] = {}

    def node(name: object) -> int:
        return numbers.setdefault(name, len(numbers))

    nodes: Game = {node("sink"): Node(1, 0, [node("sink")])}
    for state in reached_from(asked_of.starts, asked_of.moves):
        letters = subsets(asked_of.inputs)
        nodes[node(("state", state))] = Node(0, 1, [node((state, given)) for given in letters])
        for given in letters:
            answers = [move for move in asked_of.leaving(state) if asked_of.answers(move, given)]
            after = [node(("edge", move.number)) for move in answers] or [node("sink")]
            nodes[node((state, given))] = Node(0, 0, after)
        for move in asked_of.leaving(state):
            nodes[node(("edge", move.number))] = Node(priority(kind, move.marks), 0, [node(("state", move.targets[0]))])
    return node(("state", asked_of.starts[0])) in winners(nodes, set(nodes))[0]


def kept_moves(asked_of: Parted, kept: Collection[int]) -> list[Move]:
    """The kept edges that can be taken at all."""
    return [move for move in asked_of.moves if move.number in kept and asked_of.is_usable(move)]


def controller_fault(asked_of: Parted, kept: Collection[int]) -> Fault:
    """Why kept edges are no controller, or nothing."""
    if not asked_of.starts:
        return "there is no start"
    moves = kept_moves(asked_of, kept)
    for state in reached_from(asked_of.starts, moves):
        for given in subsets(asked_of.inputs):
            if not any(asked_of.answers(move, given) for move in moves if move.source == state):
                return f"state {state} keeps no edge for the letter {sorted(given)}"
    if has_accepting_walk(list(asked_of.starts), moves, dual(formula_of(asked_of.automaton)[1])):
        return "a closed walk of kept edges is not accepted"
    return None


def counter_strategy_fault(asked_of: Parted, kept: Collection[int], letters: dict[int, Held]) -> Fault:
    """Why kept edges and a letter for each state that is met are no counter-strategy, or nothing."""
    moves = kept_moves(asked_of, kept)
    for state in reached_from(asked_of.starts, moves):
        if state not in letters:
            return f"state {state} has no letter"
        answers = {move.number for move in asked_of.leaving(state) if asked_of.answers(move, letters[state])}
        if answers != {move.number for move in moves if move.source == state}:
            return f"state {state} keeps other edges than those that answer the letter {sorted(letters[state])}"
        least = first_letter(asked_of, state, answers)
        if letters[state] != least:
            return f"state {state} has the letter {sorted(letters[state])}, and not {sorted(least)}"
    if has_accepting_walk(list(asked_of.starts), moves, formula_of(asked_of.automaton)[1]):
        return "a closed walk of kept edges is accepted"
    return None


def first_letter(asked_of: Parted, state: int, answers: set[int]) -> Held:
    """The first letter, by number, that just these edges of a state answer. The digits of the number, the lowest first,
    say which of the inputs hold that the labels of the state's edges mention, as they come from left to right."""
    leaving = asked_of.leaving(state)
    mentioned = [leaf[1] for move in leaving for leaf in leaves(asked_of.label_of(move)) if leaf[0] == "number"]
    inputs = [number for number in dict.fromkeys(mentioned) if number in asked_of.inputs]
    for number in range(2 ** len(inputs)):
        given = frozenset(input for digit, input in enumerate(inputs) if number >> digit & 1)
        if answers == {move.number for move in leaving if asked_of.answers(move, given)}:
            return given
    raise ValueError(f"no letter has the answers {answers}")


def letter_label(asked_of: Parted, given: Held) -> Tree:
    """A letter of the environment as a label."""
    return conjunction([literal(number, number in given) for number in asked_of.inputs])


def winner_text(asked_of: Parted, kept: Collection[int], letters: dict[int, Held] | None) -> bytes:
    """The canonical text of the automaton of kept edges: of a counter-strategy with its letters, else of a controller.
    """
    reached = sorted(reached_from(asked_of.starts, [move for move in asked_of.moves if move.number in kept]))
    numbers = {state: number for number, state in enumerate(reached)}
    stated, names = asked_of.automaton.first(b"AP:", (0, []))
    lines = [[b"HOA: v1"], [b"States: %d" % len(reached)], *[[b"Start: %d" % numbers[it]] for it in asked_of.starts],
             [b"AP: %d" % stated, *names], [b"acc-name: all"], [b"Acceptance: 0 t"],
             [ITEM, *[b"%d" % number for number in asked_of.controlled]], [b"--BODY--"]]
    for state in asked_of.automaton.states:
        if state.number not in numbers:
            continue
        lines.append([b"State: %d" % numbers[state.number], *([] if state.name is None else [state.name])])
        for move in asked_of.leaving(state.number):
            if move.number in kept:
                label = asked_of.label_of(move)
                if letters is not None:
                    label = ("&", letter_label(asked_of, letters[state.number]), label)
                lines.append([b"[" + written(label) + b"]", b"%d" % numbers[move.targets[0]]])
        if letters is not None and not any(move.number in kept for move in asked_of.leaving(state.number)):
            label = letter_label(asked_of, letters[state.number])
            lines.append([b"[" + written(label) + b"]", b"%d" % numbers[state.number]])
    return b"".join(b" ".join(line) + b"\n" for line in [*lines, [b"--END--"]])


class NoWinner(Exception):
    """Why a text is not that of kept edges of an automaton."""


class Winner:
    """The kept edges that a text has, and for a counter-strategy the letters: of each of its states the edges are found
    one after the other among those of the automaton, by their labels."""

    def __init__(self, asked_of: Parted, text: bytes, lettered: bool) -> None:
        self.asked_of, self.lettered = asked_of, lettered
        try:
            self.own = read_one(text)
        except Refused as refused:
            raise NoWinner(f"what is written is refused {refused}") from refused
        self.kept: set[int] = set()
        self.letters: dict[int, Held] = {}
        self.find()
        try:
            wanted = winner_text(asked_of, self.kept, self.letters if lettered else None)
        except KeyError as missing:
            raise NoWinner(f"state {missing} has no letter") from missing
        fault = difference("the text", text, wanted)
        if fault:
            raise NoWinner(fault)

    def find(self) -> None:
        """Goes through the states of the text and of the automaton together, from the start."""
        own_starts = [states[0] for states in self.own.said(b"Start:")]
        found = [*zip(own_starts, self.asked_of.starts)]
        bodies = {state.number: state for state in self.own.states}
        for own, state in found:
            waiting = iter(self.asked_of.leaving(state))
            if self.lettered and own not in bodies:
                # A state that the specification does not define has no line. No edge answers any letter.
                self.letters[state] = frozenset()
                continue
            edges = bodies[own].edges if own in bodies else []
            if self.lettered and [edge.targets for edge in edges] == [[own]] and self.is_letter(edges[0].label):
                # No edge answers the letter of the state, which is written on an edge of its own.
                self.note(bare(edges[0].label or ("t",)), state)
                continue
            for edge in edges:
                move = self.next_like(bare(edge.label or ("t",)), state, waiting)
                self.kept.add(move.number)
                after = (edge.targets[0], move.targets[0])
                found += [after] * (after not in found)

    def next_like(self, label: Tree, state: int, waiting: Iterator[Move]) -> Move:
        """The next of the edges of a state that has this label."""
        if self.lettered:
            if label[0] != "&":
                raise NoWinner(f"{written(label)!r} is not joined with a letter")
            self.note(label[1], state)
            label = label[2]
        for move in waiting:
            if self.asked_of.label_of(move) == label:
                return move
        raise NoWinner(f"state {state} has no edge {written(label)!r} there")

    def is_letter(self, label: Tree | None) -> bool:
        """Whether a label is a letter of the environment, and no more."""
        return label is not None and bare(label) == letter_label(self.asked_of, given_in(bare(label)))

    def note(self, letter: Tree, state: int) -> None:
        """Notes the letter of a state."""
        given = given_in(letter)
        if letter != letter_label(self.asked_of, given) or self.letters.setdefault(state, given) != given:
            raise NoWinner(f"{written(letter)!r} is not the letter of state {state}")


def given_in(letter: Tree) -> Held:
    """The propositions that hold in a letter: those that it has without a negation."""
    below = {part[1][1] for part in parts_of(letter) if part[0] == "!" and part[1][0] == "number"}
    return frozenset(leaf[1] for leaf in leaves(letter) if leaf[0] == "number") - below


def parts_of(tree: Tree) -> list[Tree]:
    """The parts of a conjunction."""
    return [*parts_of(tree[1]), tree[2]] if tree[0] == "&" else [tree]


def winner_fault(asked_of: Parted, text: bytes, is_controller: bool) -> Fault:
    """Why a text is not that of a controller, or of a counter-strategy, or nothing."""
    try:
        winner = Winner(asked_of, text, not is_controller)
    except NoWinner as why:
        return str(why)
    if is_controller:
        return controller_fault(asked_of, winner.kept)
    return counter_strategy_fault(asked_of, winner.kept, winner.letters)


def lacks(controller: Parted) -> list[tuple[int, Held]]:
    """The states that a controller of anyone's making can reach, each with a letter that no edge of it answers."""
    moves = kept_moves(controller, {move.number for move in controller.moves})
    return [(state, given) for state in sorted(reached_from(controller.starts, moves))
            for given in subsets(controller.inputs)
            if not any(controller.answers(move, given) for move in moves if move.source == state)]


def clash_of_names(specification: Automaton, controller: Automaton) -> bool:
    """Whether both have an item, and one gives a name to the system that the other gives to the environment."""
    if not has_item(specification):
        return False
    ours, theirs = names_of(specification), names_of(controller)
    own = {ours[number] for number in controlled_of(specification)}
    other = {theirs[number] for number in controlled_of(controller)}
    return any((name in own) != (name in other) for name in ours if name in theirs)


def judgeable(specification: Automaton, controller: Automaton) -> Parted:
    """The controller with its propositions parted, where it can be judged for a specification; refused by the first of
    58, 41 and 40 for the controller, and 41 and 56 for the specification that applies."""
    controlled_of(specification)
    controlled_of(controller)
    if clash_of_names(specification, controller):
        raise Refused("58 Controllable")
    made = parted(controller)
    sets, formula = formula_of(controller)
    if sets or formula != ("t",):
        raise Refused("40 NotParity")
    single(parted(specification))
    return made


def is_controller(specification: Automaton, controller: Parted) -> bool:
    """Whether each letter is answered wherever the controller can be, and each of its words is accepted."""
    if not controller.starts or lacks(controller):
        return False
    return is_contained(controller.automaton, specification)


def lack_fault(controller: Parted, reason: bytes) -> Fault:
    """What is wrong with the lines that say which letter is not answered, and where; or nothing."""
    said = re.fullmatch(rb"state (\d+)\nletter (.*)\nstem((?: \d+)*)\n", reason, re.DOTALL)
    if not said:
        return "no state with a letter and a stem"
    state, stem = int(said[1]), [int(number) for number in said[3].split()]
    at = {*controller.starts}
    for number in stem:
        moves = [move for move in kept_moves(controller, {number}) if move.source in at]
        at = {move.targets[0] for move in moves}
    if state not in at:
        return f"the stem {stem} does not lead to the state {state}"
    texts = {letter_text(controller, given): given for given in subsets(controller.inputs)}
    if said[2] not in texts:
        return f"{said[2]!r} is no letter of the environment"
    if any(controller.answers(move, texts[said[2]]) for move in controller.leaving(state)):
        return f"the letter {said[2]!r} is answered"
    return None


def letter_text(controller: Parted, given: Held) -> bytes:
    """A letter of the environment as words have it."""
    names = names_of(controller.automaton)
    literals = [(b"" if number in given else b"!") + named(names[number]) for number in controller.inputs]
    return b" & ".join(literals) or b"1"


def game_fault(asked_of: Parted, kind: Parity, nodes: Game) -> Fault:
    """What is wrong with a game that is to be that of the automaton, by the names of its nodes; or nothing."""
    by_name = {(node.name or b"")[1:-1]: (number, node) for number, node in nodes.items()}
    if len(by_name) < len(nodes):
        return "two nodes have one name"
    if not asked_of.starts:
        return None if [*by_name] == [b"sink"] else "without a start it has more than the sink"
    names = {number: name for name, (number, _) in by_name.items()}
    wanted = {b"state %d" % asked_of.starts[0]}
    seen: set[bytes] = set()
    while wanted - seen:
        name = min(wanted - seen)
        seen.add(name)
        if name not in by_name:
            return f"the node {name!r} is not there"
        node = by_name[name][1]
        after = [names[number] for number in node.successors]
        fault = node_fault(asked_of, kind, name, node, after, by_name)
        if fault:
            return f"{name!r}: {fault}"
        wanted |= {*after}
    return None if len(seen) == len(nodes) else f"{set(by_name) - seen} are not reached"


def node_fault(asked_of: Parted, kind: Parity, name: bytes, node: Node, after: list[bytes],
               by_name: dict[bytes, tuple[int, Node]]) -> Fault:
    """What is wrong with a node of the game, given the names of its successors; or nothing."""
    words = name.split(b" ")
    if name == b"sink":
        return None if (node.priority, after) == (1, [b"sink"]) else "it is not lost for player 0"
    if words[0] == b"edge":
        move = asked_of.moves[int(words[1])]
        wanted = (priority(kind, move.marks), [b"state %d" % move.targets[0]])
        return None if (node.priority, after) == wanted else f"it is {node}, for {wanted}"
    state = int(words[1])
    if len(words) == 4:
        answers = [b"edge %d" % move.number for move in asked_of.leaving(state)]
        fits = after == [b"sink"] or set(after) <= set(answers)
        return None if (node.priority, node.owner) == (0, 0) and fits else f"it is {node}"
    if (node.priority, node.owner) != (0, 1) or after != [b"state %d class %d" % (state, at) for at in
                                                         range(len(after))]:
        return f"it is {node}"
    return classes_fault(asked_of, state, [sorted(by_name[one][1].successors) for one in after], by_name)


def classes_fault(asked_of: Parted, state: int, classes: list[list[int]],
                  by_name: dict[bytes, tuple[int, Node]]) -> Fault:
    """Whether the classes of a state are the sets of edges that answer its letters, each once."""
    wanted: set[tuple[int, ...]] = set()
    for given in subsets(asked_of.inputs):
        answers = [b"edge %d" % move.number for move in asked_of.leaving(state) if asked_of.answers(move, given)]
        if any(name not in by_name for name in answers or [b"sink"]):
            return f"an answer to {sorted(given)} is not there"
        wanted.add(tuple(sorted(by_name[name][0] for name in answers or [b"sink"])))
    came = [tuple(one) for one in classes]
    return None if sorted(came) == sorted(wanted) else f"its classes are {sorted(came)} for {sorted(wanted)}"

