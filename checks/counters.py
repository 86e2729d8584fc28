"""Whether an automaton of anyone's making is a counter-strategy for a specification, as plainly as can be: letter by
letter over the names of both.

Nothing here is quick, and nothing is shared with the program.
"""
import re
from dataclasses import dataclass

from automata import Automaton, Refused
from containing import formula_of
from emptiness import Move, has_accepting_walk
from products import Letter, can_be_taken, names_of
from program import Fault
from realizability import Parted, clash_of_names, controlled_of, parted, single, subsets

Pair = tuple[int, int]


def counter_judgeable(specification: Automaton, strategy: Automaton) -> "Contest":
    """Both automata, where the second can be judged as a counter-strategy for the first; refused by the first of 58 for
    either, 41 and 56 for the specification, and 41, 40 and 56 for the strategy that applies."""
    controlled_of(specification)
    controlled_of(strategy)
    if clash_of_names(specification, strategy):
        raise Refused("58 Controllable")
    asked_of = single(parted(specification))
    made = parted(strategy)
    sets, formula = formula_of(strategy)
    if sets or formula != ("t",):
        raise Refused("40 NotParity")
    return Contest(asked_of, single(made))


@dataclass
class Contest:
    """A specification and a strategy of the environment, both deterministic."""
    specification: Parted
    strategy: Parted

    def system_names(self) -> set[bytes]:
        """The names that the system controls."""
        sides = (self.specification, self.strategy)
        return {names_of(side.automaton)[number] for side in sides for number in side.controlled}

    def letters(self) -> list[list[Letter]]:
        """All letters over the names of both: for each letter of the environment those with each answer."""
        names = sorted({*names_of(self.specification.automaton), *names_of(self.strategy.automaton)})
        system = self.system_names()
        own = [at for at, name in enumerate(names) if name in system]
        others = [at for at, name in enumerate(names) if name not in system]
        return [[frozenset(names[at] for at in given | answer) for answer in subsets(own)] for given in subsets(others)]

    def steps(self, side: Parted, state: int, letter: Letter) -> Move | None:
        """The edge of a state that can be taken at a letter."""
        names = names_of(side.automaton)
        return next((move for move in side.leaving(state) if can_be_taken(move, names, letter)), None)

    def joined(self) -> tuple[list[Pair], list[Move]]:
        """The pairs of states to which both come by the same letters, and the steps between them, with the marks of the
        specification."""
        pairs = [(one, other) for one in self.specification.starts for other in self.strategy.starts]
        moves = list[Move]()
        letters = [letter for given in self.letters() for letter in given]
        for one, other in pairs:
            for letter in letters:
                first = self.steps(self.specification, one, letter)
                second = self.steps(self.strategy, other, letter)
                if first is not None and second is not None:
                    target = (first.targets[0], second.targets[0])
                    moves.append(Move(len(moves), (one, other), [target], None, first.marks, 0))
                    pairs += [target] * (target not in pairs)
        return pairs, moves

    def has_letter(self, pair: Pair) -> bool:
        """Whether the environment has a letter such that the strategy goes on at each answer at which the specification
        does."""
        return any(all(self.steps(self.strategy, pair[1], letter) for letter in answers
                       if self.steps(self.specification, pair[0], letter)) for answers in self.letters())

    def lacks_start(self) -> bool:
        return bool(self.specification.starts) and not self.strategy.starts

    def is_won(self) -> bool:
        """Whether the strategy is a counter-strategy."""
        pairs, moves = self.joined()
        if self.lacks_start() or not all(self.has_letter(pair) for pair in pairs):
            return False
        return not has_accepting_walk(list(pairs[:1]), moves, formula_of(self.specification.automaton)[1])

    def lacks_letter(self) -> bool:
        return not all(self.has_letter(pair) for pair in self.joined()[0])


def letterless_fault(contest: Contest, reason: bytes) -> Fault:
    """What is wrong with the lines that say in which two states the environment has no letter; or nothing."""
    said = re.fullmatch(rb"state (\d+)\nspecification (\d+)\nstem((?: \d+)*)\n", reason)
    if not said:
        return "no two states with a stem"
    pair, stem = (int(said[2]), int(said[1])), [int(number) for number in said[3].split()]
    at = {*contest.specification.starts}
    for number in stem:
        moves = [move for move in contest.specification.moves if move.number == number and move.source in at]
        at = {move.targets[0] for move in moves if contest.specification.is_usable(move)}
    if pair[0] not in at:
        return f"the stem {stem} does not lead to the state {pair[0]}"
    if pair not in contest.joined()[0]:
        return f"both do not come to {pair}"
    return f"the environment has a letter in {pair}" if contest.has_letter(pair) else None
