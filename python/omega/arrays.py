"""Games as arrays, and the program as a function."""
from __future__ import annotations

import ctypes
import operator
from array import array
from bisect import bisect_left
from collections.abc import Iterable, Iterator, Mapping, Sequence
from dataclasses import dataclass
from typing import TYPE_CHECKING, Any, NamedTuple, Union

from . import library
from .library import BoundPair, GameArrays, Lifts, Outcome, Refusal, Verdict, room_of

if TYPE_CHECKING:
    from .games import Game

NO_CHOICE = 0xFFFF_FFFF
MOST_LIFTS = 2**40
MOST_ENTRY = 2**32 - 1
# The least room for what a run writes.
LEAST_ROOM = 65536
ARRAYS = ("priorities", "owners", "starts", "successors", "winner", "choice")

Numbers = Union[Sequence[int], Any]
Successors = Union[Sequence[Sequence[int]], "tuple[Numbers, Numbers]"]


class Answer(NamedTuple):
    """Who wins a node, and the successor that the winner chooses, or None where the winner does not own the node."""
    winner: int
    choice: int | None


class Solution(Mapping[int, Answer]):
    """A solution: for each node, by its identifier, who wins it and by which choice. Where a game came as arrays, an
    identifier is a place.

    `winners` and `choices` are the same by place, as arrays (of bytes, and of 32-bit numbers, `NO_CHOICE` for none),
    which numpy takes without a copy; `winner` and `choice` are lists, with None for no choice. `lifts` says how many
    lifts the run for each player made. `str` gives the text of the solution. `game` is the game that was solved, and
    None if that came as arrays."""

    def __init__(self, winners: array[int], choices: array[int], lifts: tuple[int, int] = (0, 0),
                 identifiers: Sequence[int] | None = None, game: Game | None = None) -> None:
        self.winners, self.choices, self.lifts, self.game = winners, choices, lifts, game
        self.identifiers: Sequence[int] = range(len(winners)) if identifiers is None else identifiers

    @property
    def winner(self) -> list[int]:
        return self.winners.tolist()

    @property
    def choice(self) -> list[int | None]:
        return [None if place == NO_CHOICE else place for place in self.choices]

    def __len__(self) -> int:
        return len(self.winners)

    def __iter__(self) -> Iterator[int]:
        return iter(self.identifiers)

    def __getitem__(self, identifier: int) -> Answer:
        place = place_in(self.identifiers, identifier)
        chosen = self.choices[place]
        return Answer(self.winners[place], None if chosen == NO_CHOICE else self.identifiers[chosen])

    def __str__(self) -> str:
        lines = (f"{it} {winner};\n" if choice is None else f"{it} {winner} {choice};\n"
                 for it, (winner, choice) in self.items())
        return f"paritysol {self.identifiers[-1]};\n" + "".join(lines)

    def __repr__(self) -> str:
        return f"<solution of {len(self)} nodes, {self.winners.count(0)} of them won by player 0>"

    def _repr_svg_(self) -> str | None:
        return None if self.game is None else self.game.picture(self)


def place_in(identifiers: Sequence[int], identifier: int) -> int:
    """The place of an identifier among those of a game, which rise. Raises KeyError if it is none of them."""
    place = bisect_left(identifiers, identifier)
    if place == len(identifiers) or identifiers[place] != identifier:
        raise KeyError(identifier)
    return place


@dataclass(frozen=True)
class Counterexample:
    """Why a player's choices do not win: the nodes of a walk that they leave possible, then those of a cycle on which
    the player loses, whose last leads back to its first."""
    player: int
    stem: list[int]
    cycle: list[int]


@dataclass(frozen=True)
class Bounds:
    """The most lifts that lifting makes for each player, None where that is over 128 bits."""
    zero: int | None
    one: int | None


@dataclass(frozen=True)
class Ran:
    """What a run of the program left: its exit status, standard output and standard error."""
    status: int
    output: bytes
    errors: bytes


def _viewed(numbers: Any) -> memoryview | None:
    """What has the buffer protocol as a view, or None. Raises ValueError if it has other than one dimension."""
    try:
        view = memoryview(numbers)
    except TypeError:
        return None
    if view.ndim != 1:
        raise ValueError(f"an array has {view.ndim} dimensions, and not one")
    return view


def _array(numbers: Numbers, kind: Any, most: int, copy: bool) -> Any:
    """The numbers as an array of C. Without `copy`, what has the buffer protocol, items of this size and an address
    that fits them is read where it is."""
    view, size = _viewed(numbers), ctypes.sizeof(kind)
    if view is not None and view.c_contiguous and view.format in ("B", "I", "L") and view.itemsize == size:
        count, items = len(view), view.cast("B")
        if count and not copy and not view.readonly:
            shared = (kind * count).from_buffer(items)
            if ctypes.addressof(shared) % size == 0:
                return shared
        return (kind * count).from_buffer_copy(items) if count else (kind * 0)()
    listed = [operator.index(number) for number in numbers]
    if any(number < 0 or number > most for number in listed):
        raise ValueError(f"an entry is not from 0 to {most}")
    return (kind * len(listed))(*listed)


def _flat(successors: Successors) -> tuple[Numbers, Numbers]:
    """The starts, and the successors of all nodes one after another."""
    if isinstance(successors, tuple) and len(successors) == 2:
        return successors[0], successors[1]
    starts = [0]
    targets: list[int] = []
    for listed in successors:
        targets.extend(listed)
        starts.append(len(targets))
    return starts, targets


def _made(kind: str, count: int) -> array[int]:
    """An array of Python with room for as many entries, and for one at least, since no pointer may be null."""
    made = array(kind)
    made.frombytes(bytes(made.itemsize * max(1, count)))
    return made


class Arrays:
    """A game in the form of C. It keeps the arrays alive."""

    def __init__(self, priorities: Numbers, owners: Numbers, successors: Successors, copy: bool = True) -> None:
        starts, targets = _flat(successors)
        self.held = [_array(priorities, ctypes.c_uint32, MOST_ENTRY, copy), _array(owners, ctypes.c_uint8, 255, copy),
                     _array(starts, ctypes.c_uint32, MOST_ENTRY, copy),
                     _array(targets, ctypes.c_uint32, MOST_ENTRY, copy)]
        self.nodes = len(self.held[0])
        self.game = GameArrays(*[part for array in self.held for part in room_of(array)])


def _judge(outcome: Outcome) -> None:
    """Raises the refusal, if the outcome is one."""
    if outcome.number == 57:
        raise Refusal(57, ARRAYS[outcome.array], outcome.place)
    if outcome.number:
        raise Refusal(outcome.number)


def _lifts_within(budget: int | None) -> int:
    """The budget of a run: the most lifts if none is given. Raises ValueError if it is below 0."""
    if budget is None:
        return MOST_LIFTS
    if operator.index(budget) < 0:
        raise ValueError(f"the budget {budget} is below 0")
    return min(operator.index(budget), MOST_LIFTS)


def solve(priorities: Numbers, owners: Numbers, successors: Successors, search: bool = True,
          budget: int | None = None, *, copy: bool = True) -> Solution:
    """The winner of each node, with choices that win.

    With `search` a fast search is tried first, whose answer is checked; it makes no lifts. Else, or where it gives no
    answer, the game is solved by lifting, with at most `budget` lifts for each player (at most 2**40, and that where
    none is given). Raises `Refusal` 57, 13, 14, 50, 51 or 60, and ValueError if the budget is below 0."""
    return solved(Arrays(priorities, owners, successors, copy), search, budget)


def solved(arrays: Arrays, search: bool, budget: int | None, game: Game | None = None) -> Solution:
    """The solution of a game in the form of C, which is that of `game` if it is given."""
    most, lifts = _lifts_within(budget), Lifts()
    winners, choices, count = _made("B", arrays.nodes), _made("I", arrays.nodes), arrays.nodes
    _judge(library.LIBRARY.omega_solve(arrays.game, bool(search), most, winners.buffer_info()[0], count,
                                choices.buffer_info()[0], count, lifts))
    return Solution(winners, choices, (lifts.zero, lifts.one), None if game is None else game.identifiers, game)


def verify(priorities: Numbers, owners: Numbers, successors: Successors, winner: Numbers,
           choice: Iterable[int | None] | Numbers, *, copy: bool = True) -> Counterexample | None:
    """None if for each player the choices win from all nodes given to that player, else why they do not.

    A choice has to stand exactly where the winner owns the node, and to be one of its successors. Raises `Refusal` 57,
    13, 14, 53 where the solution is none of the game, or 60."""
    arrays = Arrays(priorities, owners, successors, copy)
    if _viewed(choice) is None:
        choice = [NO_CHOICE if it is None else it for it in choice]
    return judged(arrays, _array(winner, ctypes.c_uint8, 255, copy), _array(choice, ctypes.c_uint32, MOST_ENTRY, copy))


def judged(arrays: Arrays, winners: Any, choices: Any) -> Counterexample | None:
    """What is said of a solution whose winners and choices are arrays of C."""
    room = arrays.nodes
    while True:
        verdict, stem, cycle = Verdict(), (ctypes.c_uint32 * room)(), (ctypes.c_uint32 * room)()
        _judge(library.LIBRARY.omega_verify(arrays.game, *room_of(winners), *room_of(choices), verdict, *room_of(stem),
                                     *room_of(cycle)))
        if verdict.is_right:
            return None
        if max(verdict.stem, verdict.cycle) <= room:
            return Counterexample(verdict.player, stem[:verdict.stem], cycle[:verdict.cycle])
        room = max(verdict.stem, verdict.cycle)


def bound(priorities: Numbers, owners: Numbers, successors: Successors, *, copy: bool = True) -> Bounds:
    """The most lifts that lifting makes for each player. Raises `Refusal` 57, 13, 14 or 60."""
    return bounded(Arrays(priorities, owners, successors, copy))


def bounded(arrays: Arrays) -> Bounds:
    """The bounds of a game in the form of C."""
    bounds = BoundPair()
    _judge(library.LIBRARY.omega_bound(arrays.game, bounds))
    zero, one = [(it.high << 64) + it.low if it.fits else None for it in (bounds.zero, bounds.one)]
    return Bounds(zero, one)


def run(words: Sequence[str], input: bytes = b"", file: bytes = b"") -> Ran:
    """What the program `omega` does with these words after its name, with this standard input; each file that the
    words name, the operand too, has the text `file`, whatever its name. It runs again if it wrote more than 65,536
    bytes and four times its input."""
    if isinstance(words, str):
        raise TypeError(f"a list of words has to be given, and not the string {words!r}")
    if any("\0" in word for word in words):
        raise ValueError("a word has a NUL")
    line = b"".join(word.encode("utf-8", "surrogateescape") + b"\0" for word in words)
    given = [(ctypes.c_uint8 * len(text)).from_buffer_copy(text) if text else (ctypes.c_uint8 * 0)()
             for text in (line, bytes(input), bytes(file))]
    rooms = [max(LEAST_ROOM, 4 * len(input)), LEAST_ROOM]
    while True:
        output, errors = [(ctypes.c_uint8 * room)() for room in rooms]
        ran = library.LIBRARY.omega_run(*[part for array in (*given, output, errors) for part in room_of(array)])
        if ran.output <= rooms[0] and ran.errors <= rooms[1]:
            return Ran(ran.status, bytes(output[:ran.output]), bytes(errors[:ran.errors]))
        rooms = [max(rooms[0], ran.output), max(rooms[1], ran.errors)]
