"""Whether one automaton accepts only words that another one accepts, as plainly as can be: the first of any kind, the
second deterministic. All words are gone through at once, by pairs of states and letter by letter.

Nothing here is quick, and nothing is shared with the program.
"""
from automata import Automaton, Tree, bare
from emptiness import Move, has_accepting_walk, moves_of
from products import Letter, can_be_taken, names_of, valuations

# Edges, each with the letters at which it can be taken.
Moves = list[tuple[Move, frozenset[Letter]]]


def shifted(formula: Tree, by: int) -> Tree:
    """The formula over sets with greater numbers."""
    if formula[0] == "atom":
        return (*formula[:3], formula[3] + by)
    return (formula[0], *[shifted(part, by) for part in formula[1:]]) if formula[0] in "&|" else formula


def dual(formula: Tree) -> Tree:
    """The formula that holds exactly where this one does not."""
    if formula[0] == "atom":
        return ("atom", b"Fin" if formula[1] == b"Inf" else b"Inf", *formula[2:])
    return ({"t": "f", "f": "t", "&": "|", "|": "&"}[formula[0]], *map(dual, formula[1:]))


def formula_of(automaton: Automaton) -> tuple[int, Tree]:
    """How many sets there are, and the acceptance formula."""
    sets, formula = automaton.first(b"Acceptance:", None)
    return sets, bare(formula)


def after(moves: Moves, state: int | None, letter: Letter) -> tuple[int | None, set[int]]:
    """Where a deterministic automaton goes from a state at a letter, and the marks of the edge; nowhere and none where
    it has no edge."""
    for move, letters in moves:
        if move.source == state and letter in letters:
            return move.targets[0], move.marks
    return None, set()


def with_letters(automaton: Automaton, letters: list[Letter]) -> Moves:
    """The edges, each with the letters at which it can be taken."""
    names = names_of(automaton)
    return [(move, frozenset(letter for letter in letters if can_be_taken(move, names, letter)))
            for move in moves_of(automaton)]


def is_contained(one: Automaton, other: Automaton) -> bool:
    """Whether each word that the first accepts is accepted, in its part, by the other, which is deterministic."""
    letters = valuations([*dict.fromkeys(names_of(one) + names_of(other))])
    moves, others = with_letters(one, letters), with_letters(other, letters)
    (sets, formula), (own, wanted) = formula_of(one), formula_of(other)
    starts: list[int | None] = [states[0] for states in other.said(b"Start:")] or [None]
    begun = [(states[0], start) for states in one.said(b"Start:") for start in starts]
    found, taken = [*dict.fromkeys(begun)], set()
    for state, beside in found:
        for move, fitting in moves:
            if move.source != state:
                continue
            for letter in fitting:
                next_beside, marks = after(others, beside, letter)
                # A run of the other one that is lost has a set of its own.
                shown = {number + sets for number in marks} if next_beside is not None else {sets + own}
                target = (move.targets[0], next_beside)
                found += [target] * (target not in found)
                taken.add(((state, beside), target, frozenset(move.marks | shown)))
    rejected: Tree = ("|", shifted(dual(wanted), sets), ("atom", b"Inf", False, sets + own))
    arrows = [Move(number, source, [target], None, {*marks}, 0)
              for number, (source, target, marks) in enumerate(sorted(taken, key=repr))]
    return not has_accepting_walk(begun, arrows, ("&", formula, rejected))
