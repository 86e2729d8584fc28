"""How far a build has come: one line, with an estimate of what is left."""

import shutil
import sys
import time

from crates import Crate

# How often the line is written where nobody watches, in seconds.
SELDOM = 60
# What a proof that takes longer than was foreseen is taken to need still, in seconds.
STILL = 5


def say(text: str) -> None:
    print(f"omega: {text}", file=sys.stderr, flush=True)


def chains(crates: dict[str, Crate], seconds: dict[str, float]) -> dict[str, float]:
    """By crate, how many seconds the longest chain takes that begins with it and leads to the crates above."""
    found: dict[str, float] = {}
    for name in reversed(crates):
        above = [found[it.name] for it in crates.values() if name in it.uses]
        found[name] = seconds.get(name, 0) + max(above, default=0)
    return found


class Progress:
    """What each proof is foreseen to take on a processor, by the last time or by its size, and what some have taken."""

    def __init__(self, crates: dict[str, Crate], seconds: dict[str, float]) -> None:
        self.crates, self.seconds = crates, seconds
        self.foreseen = self.took = 0.0
        self.written = time.monotonic()

    def add(self, name: str, took: float) -> None:
        self.foreseen += self.seconds[name]
        self.took += took

    def left(self, done: set[str], ran: dict[str, float], lanes: int) -> float:
        """The seconds that are left: of all that is not done, side by side, or of its longest chain."""
        pace = self.took / self.foreseen if self.foreseen else 1
        rest = {name: max(pace * self.seconds[name] - ran.get(name, 0), STILL)
                for name in self.crates if name not in done}
        return max([*chains(self.crates, rest).values(), sum(rest.values()) / lanes])

    def show(self, done: set[str], ran: dict[str, float], lanes: int) -> None:
        """Writes the line over itself; where nobody watches, a new one now and then."""
        now = ", ".join(f"{name} {int(ran[name])} s" for name in ran)
        left = max(1, round(self.left(done, ran, lanes) / 60))
        line = f"omega: {len(done)} of {len(self.crates)} crates proved, about {left} min left; now {now}"
        if sys.stderr.isatty():
            print(f"\r\033[K{line[:shutil.get_terminal_size().columns - 1]}", end="", file=sys.stderr, flush=True)
        elif time.monotonic() - self.written >= SELDOM:
            self.written = time.monotonic()
            print(line, file=sys.stderr, flush=True)

    def clear(self) -> None:
        if sys.stderr.isatty():
            print("\r\033[K", end="", file=sys.stderr, flush=True)
