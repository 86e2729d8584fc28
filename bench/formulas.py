#!/usr/bin/env python3
"""Counts the states and edges of the automata that `omega ltl` writes for lists of formulas, and the time that it takes.

    bench/formulas.py                          ./omega alone
    bench/formulas.py --omega path/to/omega    another one
    bench/formulas.py --spin                   beside `spin -f`, on the formulas that it reads: those without X, W, M
    bench/formulas.py --system                 the time of `satisfies` beside that of `check`, on a system of 100,000 edges

The lists stand in bench/formulas/, a formula a line: the patterns of Dwyer, Avrunin and Corbett (1999), the formulas of
Somenzi and Bloem (2000), and those of Etessami and Holzmann (2000). Each is translated as it is and negated. Times are
those of processes, one for each formula, and mean something only beside each other.
"""
import argparse
import os
import random
import re
import resource
import shutil
import statistics
import subprocess
import sys
import tempfile

HERE = os.path.dirname(os.path.abspath(__file__))
LISTS = {"Dwyer et al.": "dwyer", "Somenzi, Bloem": "somenzi-bloem", "Etessami, Holzmann": "etessami-holzmann"}
# What spin reads: a name, signs, and the operators F, G, U and R by their signs.
UNREAD = re.compile(r"\b[XWM]\b")
SPIN_SIGNS = ((r"\bG\b", "[]"), (r"\bF\b", "<>"), (r"\bR\b", "V"), (r"&", "&&"), (r"\|", "||"), (r"&&&&", "&&"),
              (r"\|\|\|\|", "||"))
LONGEST = 20
# A system in which a request comes every tenth step, and its grant five steps later.
EDGES = 100_000
RESPONSES = ("G(request -> F grant)", "G(request -> F grant) & G(grant -> F request) & G F idle", "G(request -> X grant)")
RUNS = 3


class Count:
    """States, edges and seconds of some automata."""

    def __init__(self) -> None:
        self.formulas = self.states = self.edges = 0
        self.seconds = 0.0

    def add(self, states: int, edges: int, seconds: float) -> None:
        self.formulas += 1
        self.states += states
        self.edges += edges
        self.seconds += seconds

    def __str__(self) -> str:
        return f"{self.formulas} | {self.states} | {self.edges} | {self.seconds * 1000:.0f} ms"


def timed(words: list[str]) -> tuple[str, float]:
    """What a process writes, and its processor seconds. Ends this script if it fails."""
    before = resource.getrusage(resource.RUSAGE_CHILDREN)
    done = subprocess.run(words, stdout=subprocess.PIPE, stderr=subprocess.PIPE, text=True, timeout=LONGEST)
    after = resource.getrusage(resource.RUSAGE_CHILDREN)
    if done.returncode:
        sys.exit(f"{' '.join(words)}: {done.stderr.strip()}")
    return done.stdout, after.ru_utime + after.ru_stime - before.ru_utime - before.ru_stime


def translated(omega: str, formula: str, negated: bool) -> tuple[int, int, float]:
    """The states and edges of the automaton that omega writes, and the seconds."""
    text, seconds = timed([omega, "ltl", "--formula", formula, *(["--negated"] if negated else [])])
    body = text.split("--BODY--", 1)[1]
    return body.count("\nState:"), sum(it.startswith("[") for it in body.split("\n")), seconds


def claimed(formula: str, negated: bool) -> tuple[int, int, float] | None:
    """The states and edges of spin's never claim, and the seconds, or None if it takes too long."""
    for pattern, sign in SPIN_SIGNS:
        formula = re.sub(pattern, sign, formula)
    try:
        text, seconds = timed(["spin", "-f", f"!({formula})" if negated else formula])
    except subprocess.TimeoutExpired:
        return None
    return len(re.findall(r"^\w+:", text, re.MULTILINE)), text.count("->") + text.count("skip"), seconds


def system() -> str:
    """The text of a system: a ring of states, from each of which another edge leads as far round as any tens of states."""
    draw, states = random.Random(1), EDGES // 2
    text = [f'HOA: v1\nStates: {states}\nStart: 0\nAP: 3 "request" "grant" "idle"\nacc-name: all\nAcceptance: 0 t\n--BODY--\n']
    for at in range(states):
        label = {0: "0&!1&!2", 5: "!0&1&!2"}.get(at % 10, "!0&!1&2")
        beyond = 1 + 10 * draw.randrange(states // 10)
        text.append(f"State: {at}\n[{label}] {(at + 1) % states}\n[{label}] {(at + beyond) % states}\n")
    return "".join(text) + "--END--\n"


def median(words: list[str], statuses: tuple[int, ...]) -> float:
    """The median of the processor seconds of some runs, which end with one of these statuses."""
    seconds = []
    for _ in range(RUNS):
        before = resource.getrusage(resource.RUSAGE_CHILDREN)
        done = subprocess.run(words, stdout=subprocess.DEVNULL, timeout=LONGEST)
        after = resource.getrusage(resource.RUSAGE_CHILDREN)
        if done.returncode not in statuses:
            sys.exit(f"{' '.join(words)}: status {done.returncode}")
        seconds.append(after.ru_utime + after.ru_stime - before.ru_utime - before.ru_stime)
    return statistics.median(seconds)


def write_system_times(omega: str) -> None:
    """Prints the times of `satisfies` on one system beside that of reading it."""
    with tempfile.TemporaryDirectory() as folder:
        file = os.path.join(folder, "system.hoa")
        with open(file, "w", encoding="utf-8") as out:
            out.write(system())
        read = median([omega, "check", "--format", "hoa", file], (0,))
        print(f"| Formula | `satisfies` | / `check` |\n|---|---|---|\n| none, `check` | {read * 1000:.0f} ms | 1 |")
        for formula in RESPONSES:
            took = median([omega, "satisfies", "-f", formula, file], (0, 6))
            print(f"| `{formula}` | {took * 1000:.0f} ms | {took / read:.2f} |")


def main() -> None:
    parser = argparse.ArgumentParser(description=__doc__.split("\n")[0])
    parser.add_argument("--omega", default=os.path.join(HERE, "..", "omega"))
    parser.add_argument("--spin", action="store_true")
    parser.add_argument("--system", action="store_true")
    given = parser.parse_args()
    if given.system:
        return write_system_times(given.omega)
    if given.spin and not shutil.which("spin"):
        sys.exit("spin is not installed")
    heads = ["List", "formulas", "states", "edges", "time"]
    print("| " + " | ".join(heads + (["read by spin", "states", "edges", "time", "spin: formulas", "states", "edges", "time"]
                                    if given.spin else [])) + " |")
    print("|" + "---|" * (13 if given.spin else 5))
    for name, file in LISTS.items():
        with open(os.path.join(HERE, "formulas", f"{file}.ltl"), encoding="utf-8") as lines:
            formulas = lines.read().splitlines()
        for negated in (False, True):
            ours, read, spins = Count(), Count(), Count()
            for formula in formulas:
                made = translated(given.omega, formula, negated)
                ours.add(*made)
                if given.spin and not UNREAD.search(formula):
                    other = claimed(formula, negated)
                    if other:
                        read.add(*made)
                        spins.add(*other)
            print(f"| {name}{', negated' if negated else ''} | {ours} |" + (f" {read} | {spins} |" if given.spin else ""))


if __name__ == "__main__":
    main()
