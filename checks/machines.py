"""Machines that have an answer to each letter, judged letter by letter for a specification that is a
deterministic automaton; and automata as such machines.

Nothing here is quick, and nothing is shared with the program.
"""
from collections.abc import Iterable
from typing import Any

from automata import Automaton, Tree
from containing import dual, formula_of
from emptiness import holds, moves_of
from products import Letter, Word, can_be_taken, names_of, valuations
from short_words import Arrow, accepting_places
from tableaux import Steps

# Where a run of a specification is that has no edge to go on.
LOST = "lost"


class Follower:
    """A deterministic automaton, which follows the letters of a machine."""

    def __init__(self, automaton: Automaton) -> None:
        self.names, self.moves = names_of(automaton), moves_of(automaton)
        self.start: Any = next((states[0] for states in automaton.said(b"Start:")), LOST)
        self.sets, self.acceptance = formula_of(automaton)
        self.known: dict[tuple[Any, Letter], tuple[Any, frozenset[int]]] = {}

    def after(self, state: Any, letter: Letter) -> tuple[Any, frozenset[int]]:
        """Where it goes at a letter, and the marks of the edge. A run that is lost has a set of its own."""
        key = state, letter & frozenset(self.names)
        if key not in self.known:
            move = next((move for move in self.moves if move.source == state and
                         can_be_taken(move, self.names, key[1])), None)
            self.known[key] = (move.targets[0], frozenset(move.marks)) if move else (LOST, frozenset([self.sets]))
        return self.known[key]

    def accepts(self, stem: Word, cycle: Word) -> bool:
        """Whether it accepts a word."""
        state, place, letters = self.start, 0, stem + cycle
        seen, marks = list[tuple[Any, int]](), list[set[int]]()
        while (state, place) not in seen:
            seen.append((state, place))
            state, own = self.after(state, letters[place])
            marks.append({*own})
            place = place + 1 if place + 1 < len(letters) else len(stem)
        return state != LOST and holds(self.acceptance, marks[seen.index((state, place)):])

    def rejection(self) -> Tree:
        """The acceptance formula of the words that are not accepted."""
        return "|", dual(self.acceptance), ("atom", b"Inf", False, self.sets)


def is_kept(steps: Steps, starts: Iterable[Any], names: list[bytes], specification: Automaton) -> bool:
    """Whether a deterministic specification accepts each word of a machine, whose letters speak of these names. Names
    of the specification that the machine does not have are free."""
    follower = Follower(specification)
    others = valuations([name for name in follower.names if name not in names])
    begun = [(start, follower.start) for start in starts]
    arrows, seen, waiting = set[Arrow](), {*begun}, list(begun)
    while waiting:
        state, beside = waiting.pop()
        for letter, following in steps[state]:
            for other in others:
                after, marks = follower.after(beside, letter | other)
                arrows.add(((state, beside), (following, after), marks))
                if (following, after) not in seen:
                    seen.add((following, after))
                    waiting.append((following, after))
    return not accepting_places([*arrows], follower.rejection()) & {*begun}


def steps_of(automaton: Automaton) -> Steps:
    """What an automaton does from each of its states: all letters at which an edge can be taken, with the targets."""
    names = names_of(automaton)
    steps: Steps = {}
    for state in {state.number for state in automaton.states} | {move.targets[0] for move in moves_of(automaton)} | {
            states[0] for states in automaton.said(b"Start:")}:
        steps[state] = []
    for move in moves_of(automaton):
        steps[move.source] += [(letter, move.targets[0]) for letter in valuations(names)
                               if can_be_taken(move, names, letter)]
    return steps


def starts_of(automaton: Automaton) -> list[Any]:
    return [states[0] for states in automaton.said(b"Start:")]
