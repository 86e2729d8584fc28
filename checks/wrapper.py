"""What the package for Python makes of what it is given, before and after the library: numbers that are no integers,
arrays of two dimensions or at odd addresses, budgets, choices from anywhere; strings in place of lists; refusals that
cross a process; threads.
"""
import pickle
import random
import time
from array import array
from collections.abc import Callable
from concurrent.futures import ProcessPoolExecutor, ThreadPoolExecutor
from typing import Any

import games
from program import Cases, Fault

PRIORITIES, OWNERS, STARTS, SUCCESSORS = [0, 1, 2], [0, 1, 1], [0, 2, 3, 4], [1, 2, 0, 0]
FLAT = (STARTS, SUCCESSORS)
RIGHT = ([0, 0, 0], [2, None, None])


def raises(wanted: type[Exception], call: Callable[..., object], *words: Any, **named: Any) -> Fault:
    """What comes of a call that has to raise an exception of this type, if it does not; or nothing."""
    try:
        came = call(*words, **named)
    except wanted:
        return None
    except Exception as why:
        return f"{type(why).__name__} for {wanted.__name__}"
    return f"{came} for {wanted.__name__}"


def differs(came: object, wanted: object) -> Fault:
    return None if came == wanted else f"{came} for {wanted}"


def answer_of(made: Any) -> tuple[list[int], list[int | None]]:
    return made.winner, made.choice


def at_odd_address(numbers: list[int]) -> memoryview:
    """32-bit numbers that begin at an odd address."""
    held = bytearray(1) + bytearray(array("I", numbers).tobytes())
    return memoryview(held)[1:].cast("I")


def refused_in_another_process(number: int) -> None:
    """Raises a refusal of this number."""
    import omega
    raise omega.Refusal(number, "owners", 3)


def entry_checks(omega: Any) -> Cases:
    """What is no array of integers is no game."""
    yield "priorities with fractions", raises(TypeError, omega.solve, [0.9, 1.7, 2], OWNERS, FLAT)
    yield "priorities as a text", raises(TypeError, omega.solve, "012", OWNERS, FLAT)
    yield "a priority below 0", raises(ValueError, omega.solve, [0, -1, 2], OWNERS, FLAT)
    yield "a successor with a fraction", raises(TypeError, omega.solve, PRIORITIES, OWNERS, [[1, 2.0], [0], [0]])
    table = memoryview(array("I", PRIORITIES * 2)).cast("B").cast("I", (2, 3))
    yield "priorities in two dimensions", raises(ValueError, omega.solve, table, OWNERS, FLAT)
    yield "successors in two dimensions", raises(ValueError, omega.bound, PRIORITIES, OWNERS, (STARTS, table))
    yield "choices in two dimensions", raises(ValueError, omega.verify, PRIORITIES, OWNERS, FLAT, RIGHT[0], table)
    yield "a budget below 0", raises(ValueError, omega.solve, PRIORITIES, OWNERS, FLAT, search=False, budget=-1)
    yield "a budget with a fraction", raises(TypeError, omega.solve, PRIORITIES, OWNERS, FLAT, budget=2.5)
    true = omega.solve(PRIORITIES, [False, True, True], FLAT)
    yield "owners as truth values", differs(answer_of(true), RIGHT)


def list_checks(omega: Any) -> Cases:
    """A string is no list of its letters, neither of names nor of words."""
    formula, pair = omega.Formula("G(a -> b)"), omega.Formula("G(a -> b)").deterministic()
    yield "outputs as a string", raises(TypeError, formula.realize, outs="ab")
    yield "inputs as a string", raises(TypeError, formula.realize, ins="ab")
    yield "an empty string", raises(TypeError, formula.realize, outs="")
    yield "bytes", raises(TypeError, formula.realize, outs=b"ab")
    yield "a string for a controller", raises(TypeError, formula.realized_by, pair, outs="b")
    yield "propositions as a string", raises(TypeError, pair.controlling, "ab")
    yield "what is controlled as a string", raises(TypeError, pair.realize, "ab")
    yield "names of nodes as a string", raises(TypeError, omega.Game.from_arrays, [0, 1], [0, 1], [[1], [0]], names="ab")
    yield "words as a string", raises(TypeError, omega.run, "version")
    yield "a tuple is a list of names", differs(formula.realize(outs=("b",)).realizable, True)
    yield "and so is a set", differs(formula.realize(outs={"b"}).realizable, True)


def place_checks(omega: Any) -> Cases:
    """The same answer wherever the arrays are."""
    arrays = array("I", PRIORITIES), bytearray(OWNERS), (array("I", STARTS), array("I", SUCCESSORS))
    odd = at_odd_address(PRIORITIES), bytearray(OWNERS), (at_odd_address(STARTS), at_odd_address(SUCCESSORS))
    for copy in (True, False):
        yield f"arrays, copy {copy}", differs(answer_of(omega.solve(*arrays, copy=copy)), RIGHT)
        yield f"arrays at odd addresses, copy {copy}", differs(answer_of(omega.solve(*odd, copy=copy)), RIGHT)
        yield f"bounds of arrays, copy {copy}", differs(omega.bound(*arrays, copy=copy), omega.Bounds(6, 12))
    every_second = memoryview(array("I", [0, 7, 1, 7, 2, 7]))[::2]
    yield "every second entry of an array", differs(answer_of(omega.solve(every_second, OWNERS, FLAT)), RIGHT)
    choices = (it for it in RIGHT[1])
    yield "choices one after another", differs(omega.verify(PRIORITIES, OWNERS, FLAT, RIGHT[0], choices), None)


def crossing_checks(omega: Any) -> Cases:
    """A refusal is the same on the other side of a process, and threads don't disturb one another."""
    refusal = omega.Refusal(57, "owners", 3)
    again = pickle.loads(pickle.dumps(refusal))
    yield "a refusal packed and unpacked", differs(
        (again.number, again.name, again.array, again.place, str(again)),
        (57, "BadShape", "owners", 3, "57 BadShape in owners at 3"))
    yield "a refusal without a place", differs(str(pickle.loads(pickle.dumps(omega.Refusal(51)))), "51 Budget")
    with ProcessPoolExecutor(1) as processes:
        came = processes.submit(refused_in_another_process, 57).exception(60)
    yield "a refusal of another process", differs(str(came), str(refusal))
    draw, drawn = random.Random(62), []
    for _ in range(200):
        nodes = games.random_game(draw, range(60), 7, 3).values()
        drawn.append(([it.priority for it in nodes], [it.owner for it in nodes], [it.successors for it in nodes]))
    alone = [answer_of(omega.solve(*game)) for game in drawn]
    with ThreadPoolExecutor(4) as threads:
        beside = list(threads.map(lambda game: answer_of(omega.solve(*game)), drawn * 4))
    yield "four threads at once", differs(beside == alone * 4, True)


class Counting:
    """A library that counts the runs of the program."""

    def __init__(self, library: Any) -> None:
        self.library, self.runs = library, 0

    def omega_run(self, *words: Any) -> Any:
        self.runs += 1
        return self.library.omega_run(*words)


class Timing:
    """A library that counts the processor seconds of `omega_solve`."""

    def __init__(self, library: Any) -> None:
        self.library, self.seconds = library, 0.0

    def omega_solve(self, *words: Any) -> Any:
        began = time.thread_time()
        try:
            return self.library.omega_solve(*words)
        finally:
            self.seconds += time.thread_time() - began


def share_fault(omega: Any) -> Fault:
    """What is wrong if the package takes over a third of the time in which a large game is solved, or nothing."""
    draw, count = random.Random(5), 200_000
    priorities, owners = array("I", (draw.randrange(8) for _ in range(count))), bytearray(count)
    flat = array("I", range(0, 2 * count + 1, 2)), array("I", (draw.randrange(count) for _ in range(2 * count)))
    library = omega.library.LIBRARY
    timing = omega.library.LIBRARY = Timing(library)
    try:
        began = time.thread_time()
        omega.solve(priorities, owners, flat)
        whole = time.thread_time() - began
    finally:
        omega.library.LIBRARY = library
    return None if whole - timing.seconds <= whole / 3 else f"{whole - timing.seconds:.3f} of {whole:.3f} seconds"


def runs_fault(omega: Any, text: bytes, wanted: int) -> Fault:
    """What is wrong with how often `canon` of a text runs, or nothing."""
    library = omega.library.LIBRARY
    counting = omega.library.LIBRARY = Counting(library)
    try:
        omega.run(["canon", "--format", "pg"], text)
    finally:
        omega.library.LIBRARY = library
    return differs(counting.runs, wanted)


def wrapper_checks(omega: Any) -> Cases:
    yield from entry_checks(omega)
    yield from list_checks(omega)
    yield from place_checks(omega)
    yield from crossing_checks(omega)
    line = b"".join(b"%d 0 0 %d;\n" % (v, v) for v in range(20_000))
    yield "a text of 300,000 bytes is answered in one run", runs_fault(omega, line, 1)
    yield "the time of 200,000 nodes is spent in the library", share_fault(omega)
