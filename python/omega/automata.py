"""Omega-automata from texts in the Hanoi format."""
from __future__ import annotations

import re
from collections.abc import Callable, Iterable
from dataclasses import dataclass, field
from functools import partial
from typing import TYPE_CHECKING

from .games import Game
from .languages import decided, given
from .names import Names, listed
from .texts import Text, bytes_of, picture, ran, str_of, written

if TYPE_CHECKING:
    from .circuits import Circuit
    from .formulas import Formula

# An item of the header of a canonical text, with its name and its values; a value that is a string.
ITEM = re.compile(rb'([\w-]+:)((?: (?:"(?:[^"\\]|\\.)*"|[^"\s]+))*)\n', re.DOTALL)
STRING = re.compile(rb'"((?:[^"\\]|\\.)*)"', re.DOTALL)
ESCAPED = re.compile(rb"\\(.)", re.DOTALL)
# A letter of a word, up to the semicolon behind it.
LETTER = re.compile(r'(?:"(?:[^"\\]|\\.)*"|[^;"])+', re.DOTALL)
EMPTY = b"empty\n"


@dataclass(frozen=True)
class Lasso:
    """An accepted run: its first edges, then those of the cycle for ever, by their numbers in the automaton's text,
    from 0; and a word that it reads, as Spot writes words."""
    stem: tuple[int, ...]
    cycle: tuple[int, ...]
    word: str
    automaton: Automaton = field(repr=False, compare=False)

    @classmethod
    def _of(cls, lines: bytes, automaton: Automaton) -> Lasso:
        """The lasso of three lines: its stem, its cycle and its word."""
        stem, cycle, word = str_of(lines).split("\n", 2)
        return cls(tuple(int(it) for it in stem.split()[1:]), tuple(int(it) for it in cycle.split()[1:]),
                   word.removeprefix("word ").removesuffix("\n"), automaton)

    def __str__(self) -> str:
        stem, cycle = ("".join(f" {it}" for it in part) for part in (self.stem, self.cycle))
        return f"stem{stem}\ncycle{cycle}\n"

    @property
    def letters(self) -> list[str]:
        """The letters of the word: one for each edge of the stem, then one for each edge of the cycle."""
        letters = [it.strip() for it in LETTER.findall(self.word)]
        letters[len(self.stem)] = letters[len(self.stem)].removeprefix("cycle{")
        letters[-1] = letters[-1].removesuffix("}")
        return letters

    def draw(self) -> str:
        """A drawing of the run in DOT: an arrow for each edge with its letter and its number, the cycle in red."""
        first, walk = len(self.stem), [*self.stem, *self.cycle]
        arrows = []
        for place, (edge, letter) in enumerate(zip(walk, self.letters)):
            target = place + 1 if place + 1 < len(walk) else first
            shown = letter.replace("\\", "\\\\").replace('"', '\\"')
            colour = ", color=red" if place >= first else ""
            arrows.append(f'  {place} -> {target} [label="{shown}\\n{edge}"{colour}];\n')
        return "digraph lasso {\n  rankdir=LR;\n  node [shape=point];\n" + "".join(arrows) + "}\n"

    def _repr_svg_(self) -> str:
        return picture(bytes_of(self.draw()))


@dataclass(frozen=True)
class Realizability:
    """Whether some system keeps a specification; and why, as an automaton: a controller, or a strategy of the
    environment against which no system keeps it."""
    realizable: bool
    automaton: Automaton
    # Decides the same by a circuit: whether there is one, and its text.
    _circuit: Callable[[], tuple[bool, bytes]] = field(repr=False, compare=False)

    def __bool__(self) -> bool:
        return self.realizable

    def circuit(self) -> Circuit | None:
        """A circuit that keeps the specification whatever its environment does, which is judged before it is returned;
        None only if no system keeps it. Its inputs and outputs are the names of the environment and of the system.
        Each call makes it anew. Raises `Refusal` 42 or 55 if it would be too large, and 78 if the name of a proposition
        is empty or has a line feed."""
        if not self.realizable:
            return None
        from .circuits import Circuit
        is_made, text = self._circuit()
        return Circuit(text) if is_made else None

    def _repr_svg_(self) -> str:
        return self.automaton._repr_svg_()


class Automaton:
    """An omega-automaton. `str` gives the canonical text, by which automata are compared: equal automata need not have
    equal texts, and automata with other texts may accept the same words."""

    def __init__(self, canonical: bytes) -> None:
        self._text = canonical

    @classmethod
    def parse(cls, text: Text) -> Automaton:
        """The automaton of a text in the Hanoi format, version 1. Raises `Refusal` with the place of what is wrong."""
        # The text has to be that of one automaton, and not of a stream: `draw` reads it so.
        written(["draw", "--format", "hoa"], bytes_of(text))
        return cls(written(["canon", "--format", "hoa"], bytes_of(text)))

    def __bytes__(self) -> bytes:
        return self._text

    def __str__(self) -> str:
        return str_of(self._text)

    def __repr__(self) -> str:
        return f"<omega-automaton in {len(self._text)} bytes>"

    def __eq__(self, other: object) -> bool:
        return isinstance(other, Automaton) and self._text == other._text

    def __hash__(self) -> int:
        return hash(self._text)

    @property
    def propositions(self) -> list[str]:
        """The names of the propositions, by their numbers."""
        values = [it[2] for it in self._items() if it[1] == b"AP:"]
        return [str_of(ESCAPED.sub(rb"\1", name)) for name in STRING.findall(b"".join(values))]

    def _items(self) -> list[re.Match[bytes]]:
        """The items of the header."""
        found, at = [], 0
        while item := ITEM.match(self._text, at):
            found.append(item)
            at = item.end()
        return found

    def accepting_lasso(self) -> Lasso | None:
        """An accepting lasso with its word, or None only if no word is accepted, whatever the acceptance formula.
        Raises `Refusal` 41 for universal branching, and 42 if a label is not decided."""
        lines = given("empty", [self._text], 1)
        return None if lines == EMPTY else Lasso._of(lines, self)

    def empty(self) -> bool:
        """Whether no word is accepted."""
        return given("empty", [self._text], 0) == EMPTY

    def accepts(self, lasso: Lasso | Text) -> bool:
        """Whether these edges are an accepting lasso of the automaton."""
        text = str(lasso) if isinstance(lasso, Lasso) else lasso
        return ran(["verify", "--automaton", "automaton"], bytes_of(text), self._text).status == 0

    def __and__(self, other: Automaton) -> Automaton:
        """The product: a word is accepted exactly if each of the two accepts its part of it."""
        return Automaton(given("meet", [self._text, other._text]))

    def __invert__(self) -> Automaton:
        """The complement of a deterministic automaton. Raises `Refusal` 56 with a state if it is not deterministic."""
        return Automaton(given("complement", [self._text]))

    def outside(self, other: Automaton) -> Lasso | None:
        """An accepting lasso with a word that the other automaton, which is deterministic, does not accept; None only
        if there is no such word. Raises `Refusal` 56 with a state if the other is not deterministic."""
        contained, lines = decided("contained", [self._text, other._text], 1)
        return None if contained else Lasso._of(lines.removeprefix(b"no\n"), self)

    def contained_in(self, other: Automaton) -> bool:
        """Whether each word that this automaton accepts is accepted by the other, which is deterministic."""
        return decided("contained", [self._text, other._text], 0)[0]

    def equivalent(self, other: Automaton) -> bool:
        """Whether both automata, which are deterministic, accept the same words."""
        return decided("equal", [self._text, other._text], 0)[0]

    def satisfies(self, formula: Formula | Text) -> bool:
        """Whether each word that this automaton accepts satisfies a formula. A name that the automaton does not have
        is free. Raises `Refusal` 55 if the automaton of the negated formula, or its product with this one, is too
        large."""
        return decided("satisfies", [self._text, formula_bytes(formula)], 0)[0]

    def violation(self, formula: Formula | Text) -> Lasso | None:
        """An accepting lasso with a word that does not satisfy the formula; None only if there is no such word. Raises
        `Refusal` as `satisfies` does."""
        satisfied, lines = decided("satisfies", [self._text, formula_bytes(formula)], 1)
        return None if satisfied else Lasso._of(lines.removeprefix(b"no\n"), self)

    def controlling(self, propositions: Iterable[str]) -> Automaton:
        """This automaton as a specification for a system that controls these propositions, by their names: its item
        `controllable-AP:` lists them. Raises ValueError if there is no proposition of a name."""
        places = {name: place for place, name in enumerate(self.propositions)}
        controlled = listed(propositions)
        unknown = [name for name in controlled if name not in places]
        if unknown:
            raise ValueError(f"no proposition is named {unknown[0]!r}")
        items = self._items()
        others = b"".join(it[0] for it in items if it[1] != b"controllable-AP:")
        item = "controllable-AP:" + "".join(f" {places[name]}" for name in controlled) + "\n"
        return Automaton(others + item.encode() + self._text[items[-1].end():])

    def realize(self, controlled: Names = None) -> Realizability:
        """Whether some system keeps this specification, a deterministic parity automaton, whatever its environment
        does. The system controls these propositions, or those that the item `controllable-AP:` lists. Raises `Refusal`
        40, 41, 42, 55, 56 or 58, or one of the game that is solved."""
        texts = [self._text if controlled is None else self.controlling(controlled)._text]
        realizable, text = decided("realize", texts)
        return Realizability(realizable, Automaton(text), partial(decided, "realize_circuit", texts, 0))

    def realized_by(self, controller: Automaton | Circuit) -> bool:
        """Whether an automaton or a circuit of anyone's making is a controller for this specification. The system
        controls the propositions that the item `controllable-AP:` of an automaton lists, or the outputs of a
        circuit."""
        return ran(["verify", "--specification", "specification"], bytes(controller), self._text).status == 0

    def refuted_by(self, strategy: Automaton) -> bool:
        """Whether an automaton of anyone's making is a counter-strategy for this specification: a strategy of the
        environment against which no system keeps it. The system controls the propositions that the items
        `controllable-AP:` of both list."""
        words = ["verify", "--counter-strategy", "--specification", "specification"]
        return ran(words, strategy._text, self._text).status == 0

    def game(self) -> Game:
        """The emptiness game, which player 0 wins from the node of some start exactly if a word is accepted."""
        return Game.parse(written(["game"], self._text))

    def draw(self, lasso: bool = False) -> str:
        """A drawing in DOT, with an accepting lasso in it if one is asked for and there is one."""
        return str_of(written(["draw", "--format", "hoa", *(["--lasso"] if lasso else [])], self._text))

    def _repr_svg_(self) -> str:
        return picture(bytes_of(self.draw()))


def formula_bytes(formula: Formula | Text) -> bytes:
    """The text of a formula, or the text that is given in place of one."""
    return bytes_of(formula) if isinstance(formula, str) else bytes(formula)
