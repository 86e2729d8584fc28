#!/usr/bin/env python3
"""Solves and judges random games from arrays, by libomega, and where a text can hold the game, by the program, in one
run.

    bench/arrays.py                     400,000 nodes with 2 successors in both ways, 1,000,000 with 3 as arrays alone
    bench/arrays.py --rounds 1

Of each step the least of some rounds, in seconds of wall time and of processor time; the program reads and writes
texts, the library neither. Of `omega.solve` it is told too how much of its time is that of the call of the library
itself; the rest is the package's. The games are made by fixed seeds. Winners of both have to be the same.
"""
import argparse
import array
import os
import random
import resource
import subprocess
import sys
import tempfile
import time
from collections.abc import Callable
from typing import Any

ROOT = os.path.dirname(os.path.dirname(os.path.abspath(__file__)))
sys.path.insert(0, os.path.join(ROOT, "python"))
import omega  # noqa: E402
from omega.library import LIBRARY  # noqa: E402

OMEGA = os.environ.get("OMEGA", os.path.join(ROOT, "crates", "omega_tool", "out", "omega_tool"))

# Priorities, owners, and as flat arrays where each node's successors begin and which they are.
FlatGame = tuple["array.array[int]", bytes, "array.array[int]", "array.array[int]"]


def game_of(nodes: int, degree: int, priorities: int) -> FlatGame:
    """Priorities, owners, and as flat arrays where each node's successors begin and which they are."""
    some = random.Random(1)
    starts = array.array("I", range(0, degree * nodes + 1, degree))
    successors = array.array("I", (at for _ in range(nodes) for at in some.sample(range(nodes), degree)))
    return (array.array("I", (some.randrange(priorities) for _ in range(nodes))),
            bytes(some.randrange(2) for _ in range(nodes)), starts, successors)


def text_of(game: FlatGame) -> bytes:
    priorities, owners, starts, successors = game
    lines = [f"parity {len(owners) - 1};\n"]
    for at, owner in enumerate(owners):
        listed = ",".join(map(str, successors[starts[at]:starts[at + 1]]))
        lines.append(f"{at} {priorities[at]} {owner} {listed};\n")
    return "".join(lines).encode()


def timed(rounds: int, call: Callable[[], object]) -> tuple[float, float, Any]:
    """The least wall time and the least processor time of some rounds, children included, and what the last gave."""
    walls, processors = [], []
    for _ in range(rounds):
        before = [resource.getrusage(who) for who in (resource.RUSAGE_SELF, resource.RUSAGE_CHILDREN)]
        begun = time.perf_counter()
        given = call()
        walls.append(time.perf_counter() - begun)
        after = [resource.getrusage(who) for who in (resource.RUSAGE_SELF, resource.RUSAGE_CHILDREN)]
        processors.append(sum(b.ru_utime + b.ru_stime - a.ru_utime - a.ru_stime for a, b in zip(before, after)))
    return min(walls), min(processors), given


def from_text(rounds: int, game: FlatGame) -> list[int]:
    """What the program takes for the game's text, and the winners that it finds."""
    with tempfile.TemporaryDirectory() as folder:
        path, solution = os.path.join(folder, "game.pg"), os.path.join(folder, "solution")
        with open(path, "wb") as made:
            made.write(text_of(game))

        def program(*words: str, into: str = os.devnull) -> None:
            with open(into, "wb") as output:
                subprocess.run([OMEGA, *words], stdout=output, check=True)

        tell("text: check --format pg", timed(rounds, lambda: program("check", "--format", "pg", path)))
        tell("text: solve --search", timed(rounds, lambda: program("solve", "--search", path, into=solution)))
        tell("text: verify", timed(rounds, lambda: program("verify", "--game", path, solution)))
        with open(solution, "rb") as answer:
            return [int(line.split()[1].rstrip(b";")) for line in answer.read().splitlines()[1:]]


class Counted:
    """A call of the library, with the seconds that it took."""

    def __init__(self, call: Callable[..., Any]) -> None:
        self.call, self.seconds = call, list[float]()

    def __call__(self, *given: Any) -> Any:
        begun = time.perf_counter()
        try:
            return self.call(*given)
        finally:
            self.seconds.append(time.perf_counter() - begun)


def from_arrays(rounds: int, game: FlatGame) -> list[int]:
    """What the library takes for the same, and the winners that it finds."""
    priorities, owners, starts, successors = game
    library: Any = LIBRARY
    inside = Counted(library.omega_solve)
    library.omega_solve = inside
    solved = timed(rounds, lambda: omega.solve(priorities, owners, (starts, successors)))
    library.omega_solve = inside.call
    tell("arrays: solve", solved)
    print(f"  {'of it in the library':26} {min(inside.seconds):7.2f} s", flush=True)
    answer = solved[2]
    choice = array.array("I", (omega.NO_CHOICE if it is None else it for it in answer.choice))
    judged = timed(rounds, lambda: omega.verify(priorities, owners, (starts, successors), bytes(answer.winner), choice))
    tell("arrays: verify", judged)
    if judged[2] is not None:
        sys.exit("the solution is judged to be wrong")
    return list(answer.winner)


def tell(label: str, measured: tuple[float, float, Any]) -> None:
    print(f"  {label:26} {measured[0]:7.2f} s {measured[1]:7.2f} processor s", flush=True)


def main() -> None:
    parser = argparse.ArgumentParser(description=__doc__, formatter_class=argparse.RawDescriptionHelpFormatter)
    parser.add_argument("--priorities", type=int, default=8)
    parser.add_argument("--rounds", type=int, default=3)
    asked = parser.parse_args()
    print("400,000 nodes, 800,000 successors")
    game = game_of(400_000, 2, asked.priorities)
    if from_text(asked.rounds, game) != from_arrays(asked.rounds, game):
        sys.exit("the winners differ")
    print("1,000,000 nodes, 3,000,000 successors")
    from_arrays(asked.rounds, game_of(1_000_000, 3, asked.priorities))


if __name__ == "__main__":
    main()
