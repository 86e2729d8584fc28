"""Formulas of linear temporal logic from texts as Spot has them."""
from __future__ import annotations

from functools import partial
from typing import TYPE_CHECKING

from .automata import Automaton, Realizability
from .languages import decided, given
from .names import Names, comma_list, nul_list, one_list
from .texts import Text, bytes_of, ran, str_of

if TYPE_CHECKING:
    from .circuits import Circuit


class Formula:
    """A formula of linear temporal logic. `str` gives the canonical text, by which formulas are compared: formulas with
    other texts may have the same meaning. Raises `Refusal` with the place of what is wrong in a text."""

    def __init__(self, text: Text) -> None:
        self._text = given("formula", [bytes_of(text)])

    def __bytes__(self) -> bytes:
        return self._text

    def __str__(self) -> str:
        return str_of(self._text)

    def __repr__(self) -> str:
        return f"Formula({str(self)!r})"

    def __eq__(self, other: object) -> bool:
        return isinstance(other, Formula) and self._text == other._text

    def __hash__(self) -> int:
        return hash(self._text)

    def __invert__(self) -> Formula:
        """The negation."""
        return Formula(b"!(" + self._text + b")")

    def __and__(self, other: Formula) -> Formula:
        """The conjunction."""
        return Formula(b"(" + self._text + b") & (" + other._text + b")")

    def __or__(self, other: Formula) -> Formula:
        """The disjunction."""
        return Formula(b"(" + self._text + b") | (" + other._text + b")")

    def automaton(self, negated: bool = False) -> Automaton:
        """An automaton that accepts exactly the words that satisfy the formula, or with `negated` exactly those that do
        not. It may have choices. Raises `Refusal` 55 if it would be too large."""
        return Automaton(given("ltl", [self._text], int(negated)))

    def deterministic(self) -> Automaton:
        """A deterministic automaton that accepts exactly the words that satisfy the formula. Its acceptance is `parity
        min even`. Raises `Refusal` 42 or 55 if what is made on the way would be too large."""
        return Automaton(given("ltl_deterministic", [self._text]))

    def realize(self, outs: Names = None, ins: Names = None) -> Realizability:
        """Whether some system satisfies the formula whatever its environment does, with a controller, or with a
        strategy of the environment against which no system does. The system controls the names `outs`, or all but
        `ins`. Raises `Refusal` 58 if the formula lacks a name, 42 or 55, or one of the game that is solved."""
        inputs, names = one_list(outs, ins)
        texts = [self._text, nul_list(names)]
        realizable, text = decided("realize_formula", texts, int(inputs))
        circuit = partial(decided, "realize_formula_circuit", texts, int(inputs), 0)
        return Realizability(realizable, Automaton(text), circuit)

    def realized_by(self, controller: Automaton | Circuit, outs: Names = None, ins: Names = None) -> bool:
        """Whether an automaton or a circuit of anyone's making is a controller for this formula. The names are parted
        as for `realize`. Raises ValueError for a name with a comma in it or white space around it."""
        return ran(["verify", *self._asked(outs, ins)], bytes(controller)).status == 0

    def refuted_by(self, strategy: Automaton, outs: Names = None, ins: Names = None) -> bool:
        """Whether an automaton of anyone's making is a counter-strategy for this formula: a strategy of the environment
        against which no system satisfies it. The names are parted as for `realized_by`."""
        return ran(["verify", "--counter-strategy", *self._asked(outs, ins)], bytes(strategy)).status == 0

    def _asked(self, outs: Names, ins: Names) -> list[str]:
        """The words of a command line with this formula and one list of names."""
        inputs, names = one_list(outs, ins)
        return ["-f", str(self), "--ins" if inputs else "--outs", comma_list(names)]

    def _repr_svg_(self) -> str:
        return self.automaton()._repr_svg_()
