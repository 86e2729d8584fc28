"""Parity games from texts and from arrays."""
from __future__ import annotations

import ctypes
import re
from array import array
from collections.abc import Iterable
from functools import cached_property
from typing import Any

from .arrays import Arrays, Bounds, Counterexample, Numbers, Solution, Successors, bounded, judged, place_in, solved
from .library import Refusal
from .names import listed
from .texts import Text, bytes_of, picture, ran, str_of, written

# A line of the canonical text: identifier, priority, owner, successors and name.
NODE = re.compile(rb'(\d+) (\d+) ([01]) ([\d,]+)(?: "([^"]*)")?;\n')
COUNTEREXAMPLE = re.compile(rb"no\nplayer ([01])\nstem((?: \d+)*)\ncycle((?: \d+)+)\n")


def array_of(held: Any) -> array[int]:
    """An array of Python with the entries of one of C."""
    made = array("B" if ctypes.sizeof(held._type_) == 1 else "I")
    made.frombytes(bytes(held))
    return made


class Game:
    """A parity game. Its nodes are in rising order of their identifiers; the place of a node is its number in this
    order, from 0. `identifiers`, `priorities` and `owners` have an entry for each node, and so has `names`, with None
    for a node without name. `starts` says where in `successors`, which are places, those of each node begin, and has
    the number of all successors at its end. `str` gives the canonical text, by which games are compared."""

    def __init__(self, identifiers: array[int], priorities: array[int], owners: array[int], starts: array[int],
                 successors: array[int], names: list[str | None]) -> None:
        self.identifiers, self.priorities, self.owners = identifiers, priorities, owners
        self.starts, self.successors, self.names = starts, successors, names
        self._arrays = Arrays(priorities, owners, (starts, successors))

    @classmethod
    def parse(cls, text: Text) -> Game:
        """The game of a text in PGSolver's format. Raises `Refusal` with the place of what is wrong."""
        return cls._of_canonical(written(["canon", "--format", "pg"], bytes_of(text)))

    @classmethod
    def from_arrays(cls, priorities: Numbers, owners: Numbers, successors: Successors,
                    names: Iterable[str | None] | None = None) -> Game:
        """The game of arrays as `omega.solve` takes them; an identifier is a place. Raises `Refusal` 57, 13, 14 or
        60."""
        arrays = Arrays(priorities, owners, successors)
        bounded(arrays)
        named: list[str | None] = [None] * arrays.nodes if names is None else listed(names)
        if len(named) != arrays.nodes:
            raise ValueError(f"there are {len(named)} names for {arrays.nodes} nodes")
        priorities, owners, starts, targets = (array_of(each) for each in arrays.held)
        return cls(array("I", range(arrays.nodes)), priorities, owners, starts, targets, named)

    @classmethod
    def _of_canonical(cls, text: bytes) -> Game:
        nodes = [it.groups() for it in NODE.finditer(text, text.index(b"\n") + 1)]
        identifiers = array("I", (int(it[0]) for it in nodes))
        places = {identifier: place for place, identifier in enumerate(identifiers)}
        starts, successors = array("I", [0]), array("I")
        for it in nodes:
            successors.extend(places[int(target)] for target in it[3].split(b","))
            starts.append(len(successors))
        names = [None if it[4] is None else str_of(it[4]) for it in nodes]
        made = cls(identifiers, array("I", (int(it[1]) for it in nodes)), array("B", (int(it[2]) for it in nodes)),
                   starts, successors, names)
        made.__dict__["_text"] = text
        return made

    @cached_property
    def _text(self) -> bytes:
        lines = [f"parity {self.identifiers[-1]};\n"]
        for place, identifier in enumerate(self.identifiers):
            targets = self.successors[self.starts[place]:self.starts[place + 1]]
            name = self.names[place]
            lines.append(f"{identifier} {self.priorities[place]} {self.owners[place]} "
                         f"{','.join(str(self.identifiers[it]) for it in targets)}"
                         + (f' "{name}"' if name is not None else "") + ";\n")
        return written(["canon", "--format", "pg"], bytes_of("".join(lines)))

    def __len__(self) -> int:
        return len(self.identifiers)

    def __bytes__(self) -> bytes:
        return self._text

    def __str__(self) -> str:
        return str_of(self._text)

    def __repr__(self) -> str:
        return f"<parity game of {len(self)} nodes and {len(self.successors)} edges>"

    def __eq__(self, other: object) -> bool:
        return isinstance(other, Game) and self._text == other._text

    def __hash__(self) -> int:
        return hash(self._text)

    def place(self, identifier: int) -> int:
        """The place of a node. Raises KeyError if no node has the identifier."""
        return place_in(self.identifiers, identifier)

    def solve(self, search: bool = True, budget: int | None = None) -> Solution:
        """Who wins each node, with choices that win, as `omega.solve` finds them. Raises `Refusal` 50, 51 or 60."""
        return solved(self._arrays, search, budget, self)

    def verify(self, solution: Solution | Text) -> Counterexample | None:
        """None if for each player the choices win from all nodes given to that player; else why they do not, by
        identifiers. A solution may be a text. Raises `Refusal` 53 if it is no solution of the game, and 1 to 4 if a
        text is none."""
        if isinstance(solution, Solution):
            return self._judged(solution)
        done = ran(["verify", "--explain", "--game", "game"], bytes_of(solution), self._text)
        found = COUNTEREXAMPLE.fullmatch(done.output)
        if not found:
            return None
        stem, cycle = ([int(it) for it in part.split()] for part in found.groups()[1:])
        return Counterexample(int(found[1]), stem, cycle)

    def _judged(self, solution: Solution) -> Counterexample | None:
        if list(solution.identifiers) != self.identifiers.tolist():
            raise Refusal(53)
        winners = (ctypes.c_uint8 * len(self)).from_buffer_copy(solution.winners)
        choices = (ctypes.c_uint32 * len(self)).from_buffer_copy(solution.choices)
        found = judged(self._arrays, winners, choices)
        if found is None:
            return None
        stem, cycle = ([self.identifiers[it] for it in part] for part in (found.stem, found.cycle))
        return Counterexample(found.player, stem, cycle)

    def bound(self) -> Bounds:
        """The most lifts that lifting makes for each player."""
        return bounded(self._arrays)

    def part(self, identifier: int) -> Game:
        """The part that a node reaches. Raises `Refusal` 54 if no node has the identifier."""
        return self._of_canonical(written(["canon", "--format", "pg", "--from", str(identifier)], self._text))

    def draw(self, solution: Solution | Text | None = None, legend: bool = False) -> str:
        """A drawing in DOT, with a solution in colours if one is given."""
        if solution is None:
            return str_of(written(["draw", "--format", "pg"], self._text))
        words = ["draw", "--format", "pg", "--solution", "solution", *(["--legend"] if legend else [])]
        given = str(solution) if isinstance(solution, Solution) else solution
        return str_of(written(words, self._text, bytes_of(given)))

    def picture(self, solution: Solution | Text | None = None) -> str:
        """The drawing as SVG, where Graphviz's `dot` is installed, and else a picture that says so."""
        return picture(bytes_of(self.draw(solution)))

    def _repr_svg_(self) -> str:
        return self.picture()
