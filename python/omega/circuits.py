"""Circuits of and-gates and latches, from texts in the AIGER format."""
from __future__ import annotations

import re
from dataclasses import dataclass
from typing import TYPE_CHECKING, Union

from .automata import Automaton, Lasso, formula_bytes
from .languages import decided, given
from .names import Names, nul_list, one_list
from .texts import Text, bytes_of, str_of

if TYPE_CHECKING:
    from .formulas import Formula

    # What a circuit is judged for: an automaton, a formula, or the text of a formula.
    Specification = Union[Automaton, Formula, Text]

# A symbol of a canonical text: its kind, its position and the name.
SYMBOL = re.compile(rb"([ilo])(\d+) ([^\n]*)")


@dataclass(frozen=True)
class Judgement:
    """Whether a circuit realizes what it is judged for; and if not, an accepting lasso of the circuit's automaton, with
    a word that the specification does not accept, or that does not satisfy the formula."""
    realizes: bool
    violation: Lasso | None

    def __bool__(self) -> bool:
        return self.realizes


class Circuit:
    """A circuit. `str` gives the canonical text in the ASCII form of AIGER, by which circuits are compared: circuits
    with other texts may do the same."""

    def __init__(self, canonical: bytes) -> None:
        self._text = canonical

    @classmethod
    def parse(cls, text: Text) -> Circuit:
        """The circuit of a text in the AIGER format, in the ASCII form or the binary one. Raises `Refusal` with the
        place of what is wrong, or with 70 to 77."""
        return cls(given("circuit", [bytes_of(text)], 0))

    def __bytes__(self) -> bytes:
        return self._text

    def __str__(self) -> str:
        return str_of(self._text)

    def __repr__(self) -> str:
        inputs, latches, outputs, gates = self._counts()
        return f"<circuit of {inputs} inputs, {latches} latches, {outputs} outputs and {gates} gates>"

    def __eq__(self, other: object) -> bool:
        return isinstance(other, Circuit) and self._text == other._text

    def __hash__(self) -> int:
        return hash(self._text)

    def aag(self) -> bytes:
        """The canonical text in the ASCII form."""
        return self._text

    def aig(self) -> bytes:
        """The canonical text in the binary form."""
        return given("circuit", [self._text], 1)

    @property
    def inputs(self) -> list[str]:
        """The names of the inputs. One without a symbol is named `i` and its position."""
        return self._names("i", self._counts()[0])

    @property
    def outputs(self) -> list[str]:
        """The names of the outputs. One without a symbol is named `o` and its position."""
        return self._names("o", self._counts()[2])

    def _counts(self) -> list[int]:
        """How many inputs, latches, outputs and gates there are."""
        return [int(it) for it in self._text[:self._text.index(b"\n")].split()[2:]]

    def _names(self, kind: str, count: int) -> list[str]:
        """The names of one kind, of which there are so many."""
        names = [f"{kind}{position}" for position in range(count)]
        for line in self._text.split(b"\n")[1 + sum(self._counts()):-1]:
            symbol = SYMBOL.fullmatch(line)
            if symbol and symbol[1] == kind.encode():
                names[int(symbol[2])] = str_of(symbol[3])
        return names

    def automaton(self) -> Automaton:
        """An automaton that accepts exactly the words of the circuit, over the names of its inputs and outputs. It is
        deterministic. Raises `Refusal` 26 or 78 for names, and 55 if it would be too large."""
        return Automaton(given("circuit_automaton", [self._text]))

    def judge(self, specification: Specification, outs: Names = None, ins: Names = None) -> Judgement:
        """Whether a specification, a deterministic automaton, accepts each word of the circuit; or whether each word of
        the circuit satisfies a formula, of which the system controls the names `outs`, or all but `ins`. A name that
        the circuit does not have is free. Raises `Refusal` 58 if the circuit has an input for an output or an output
        for an input, and otherwise as `contained_in` and `satisfies` of its automaton do."""
        realizes, lines = self._decided(specification, outs, ins)
        return Judgement(realizes, None if realizes else Lasso._of(lines.removeprefix(b"no\n"), self.automaton()))

    def _decided(self, specification: Specification, outs: Names, ins: Names) -> tuple[bool, bytes]:
        """Whether the circuit realizes what it is judged for, and the lines that say so and why not."""
        if isinstance(specification, Automaton):
            if outs is not None or ins is not None:
                raise TypeError("the item controllable-AP: of a specification says what the system controls")
            return decided("verify_circuit", [self._text, bytes(specification)], 1)
        inputs, names = one_list(outs, ins)
        texts = [self._text, formula_bytes(specification), nul_list(names)]
        return decided("verify_formula_circuit", texts, int(inputs), 1)
