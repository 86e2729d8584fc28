#!/usr/bin/env python3
"""Counts the gates of the circuits that `omega realize --aiger` writes, and times what the program does with circuits.

    bench/circuits.py                          ./omega alone
    bench/circuits.py --omega path/to/omega    another one
    bench/circuits.py --quick                  smaller circuits

Three tables are written. The first has `verify` of circuits of many states or inputs, beside `contained` of the
automaton that `automaton` writes of each, whose text is read in its place. The second has the gates and the latches of
written circuits, and the gates that berkeley-abc leaves of them by `dc2; resyn2`, three times, where it is installed.
The third has `realize --aiger`, which judges what it writes, beside `realize --controller`.

Times are medians of processor seconds of some processes, and mean something only beside each other in one run.
"""
import argparse
import os
import re
import resource
import shutil
import statistics
import subprocess
import sys
import tempfile

from automata import specification

HERE = os.path.dirname(os.path.abspath(__file__))
ABC = "berkeley-abc"
RESYN2 = "balance; rewrite; refactor; balance; rewrite; rewrite -z; balance; refactor -z; rewrite -z; balance; "
MOST_SECONDS, RUNS = 600, 3
# Where the bits of a shift register are joined so that it goes through all values but one, by its length.
TAPS = {9: 5, 17: 14}
# The words of `realize` that are measured, and the text on standard input.
Asked = tuple[list[str], str]


def ran(words: list[str], text: str = "") -> tuple[str, float]:
    """What a process writes, and its processor seconds. Ends this script if it fails."""
    before = resource.getrusage(resource.RUSAGE_CHILDREN)
    done = subprocess.run(words, input=text, stdout=subprocess.PIPE, text=True, timeout=MOST_SECONDS)
    after = resource.getrusage(resource.RUSAGE_CHILDREN)
    if done.returncode:
        sys.exit(f"{' '.join(words)}: status {done.returncode}")
    return done.stdout, after.ru_utime + after.ru_stime - before.ru_utime - before.ru_stime


def median(words: list[str], text: str = "") -> float:
    return statistics.median(ran(words, text)[1] for _ in range(RUNS))


# ---- circuits that are verified


class Gates:
    """Makes the text of a circuit, gate by gate."""

    def __init__(self, inputs: int, resets: list[int]) -> None:
        self.inputs = [2 * at + 2 for at in range(inputs)]
        self.latches = [2 * (inputs + at) + 2 for at in range(len(resets))]
        self.resets, self.gates = resets, list[tuple[int, int, int]]()

    def both(self, one: int, other: int) -> int:
        literal = 2 * (len(self.inputs) + len(self.latches) + len(self.gates)) + 2
        self.gates.append((literal, max(one, other), min(one, other)))
        return literal

    def some(self, literals: list[int]) -> int:
        found = literals[0]
        for literal in literals[1:]:
            found = self.both(found ^ 1, literal ^ 1) ^ 1
        return found

    def unlike(self, one: int, other: int) -> int:
        return self.both(self.both(one, other) ^ 1, self.both(one ^ 1, other ^ 1) ^ 1)

    def text(self, nexts: list[int], outputs: list[int], names: list[str]) -> str:
        size = len(self.inputs) + len(self.latches) + len(self.gates)
        lines = [f"aag {size} {len(self.inputs)} {len(self.latches)} {len(outputs)} {len(self.gates)}"]
        lines += [str(literal) for literal in self.inputs]
        lines += [f"{latch} {after} {reset}" for latch, after, reset in zip(self.latches, nexts, self.resets)]
        lines += [str(literal) for literal in outputs] + [" ".join(map(str, gate)) for gate in self.gates]
        return "\n".join([*lines, *names, ""])


def register(bits: int) -> str:
    """A shift register that goes through all values but one, and shows its last bit."""
    made = Gates(0, [1] * bits)
    fed = made.unlike(made.latches[bits - 1], made.latches[TAPS[bits] - 1])
    return made.text([fed, *made.latches[:-1]], [made.latches[-1]], ["o0 bit"])


def token_arbiter(clients: int) -> str:
    """A token goes round, and the first client that asks, from the one with the token on, is granted."""
    made = Gates(clients, [int(at == 0) for at in range(clients)])
    heard: list[list[int]] = [[] for _ in range(clients)]
    for first in range(clients):
        passed = made.latches[first]
        for step in range(clients):
            at = (first + step) % clients
            heard[at].append(passed)
            passed = made.both(passed, made.inputs[at] ^ 1)
    grants = [made.both(made.inputs[at], made.some(heard[at])) for at in range(clients)]
    names = [f"i{at} r{at}" for at in range(clients)] + [f"o{at} g{at}" for at in range(clients)]
    return made.text([made.latches[at - 1] for at in range(clients)], grants, names)


def rule(names: list[str], label: str) -> str:
    """A specification of one state."""
    listed = " ".join(f'"{name}"' for name in names)
    return (f"HOA: v1\nStates: 1\nStart: 0\nAP: {len(names)} {listed}\nacc-name: all\nAcceptance: 0 t\n--BODY--\n"
            f"State: 0\n[{label}] 0\n--END--\n")


def write_judged(omega: str, quick: bool) -> None:
    """The table of `verify`."""
    bits, clients = (9, 12) if quick else (17, 32)
    listed = [(f"a register of {bits} bits", register(bits), rule(["bit"], "t")),
              (f"an arbiter of {clients} clients", token_arbiter(clients), rule(["g0", "g1"], "!(0&1)"))]
    print("| Circuit | states | edges | `automaton` | `verify` | `contained` | `verify` / `contained` |")
    print("|---|---|---|---|---|---|---|")
    for name, circuit, wanted in listed:
        with tempfile.TemporaryDirectory() as folder:
            path, automaton = os.path.join(folder, "rule.hoa"), os.path.join(folder, "circuit.hoa")
            with open(path, "w", encoding="utf-8") as file:
                file.write(wanted)
            with open(automaton, "w", encoding="utf-8") as file:
                file.write(ran([omega, "automaton"], circuit)[0])
            with open(automaton, encoding="utf-8") as file:
                lines = file.read().split("\n")
            made = median([omega, "automaton"], circuit)
            judged = median([omega, "verify", "--specification", path], circuit)
            within = median([omega, "contained", "--in", path, automaton])
        states, edges = (sum(line.startswith(begin) for line in lines) for begin in ("State:", "["))
        print(f"| {name} | {states:,} | {edges:,} | {made * 1000:.0f} ms | {judged * 1000:.0f} ms | "
              f"{within * 1000:.0f} ms | {judged / within:.2f} |")


# ---- circuits that are written


def arbiter(clients: int) -> Asked:
    """Each request is granted at last, and never two at once."""
    asks = [f"G(r{at} -> F g{at})" for at in range(clients)]
    alone = [f"G !(g{one} & g{other})" for one in range(clients) for other in range(one)]
    return ["-f", " & ".join(asks + alone), "--outs", ",".join(f"g{at}" for at in range(clients))], ""


def header(states: int, names: list[str], own: list[int], kind: str, acceptance: str) -> str:
    listed = "".join(f' "{name}"' for name in names)
    return (f"HOA: v1\nStates: {states}\nStart: 0\nAP: {len(names)}{listed}\nacc-name: {kind}\n"
            f"Acceptance: {acceptance}\ncontrollable-AP:{''.join(f' {number}' for number in own)}\n--BODY--\n")


def lift(floors: int) -> Asked:
    """A lift that is called to floors goes one floor in a round, and comes where it was called first: a state for where
    it is and where it has to go."""
    names = [f"call{at}" for at in range(floors)] + ["up", "move"]
    places = [(at, goal) for at in range(floors) for goal in range(floors)]
    text = header(len(places), names, [floors, floors + 1], "Buchi", "1 Inf(0)")
    ways = ((0, f"!{floors + 1}"), (1, f"{floors} & {floors + 1}"), (-1, f"!{floors} & {floors + 1}"))
    for number, (at, goal) in enumerate(places):
        text += f"State: {number}\n"
        for called in range(floors + 1):
            asks = [f"!{floor}" for floor in range(called)] + [str(called)] * (called < floors)
            after = called if at == goal and called < floors else goal
            for way, label in ways:
                if 0 <= at + way < floors:
                    mark = " {0}" if at + way == after else ""
                    text += f"[{' & '.join([*asks, label])}] {places.index((at + way, after))}{mark}\n"
    return [], text + "--END--\n"


def shift(rounds: int) -> Asked:
    """The system says what the environment said so many rounds before."""
    count = 2 ** rounds
    text = header(count, ["in", "out"], [1], "all", "0 t")
    for state in range(count):
        said = "1" if state >> rounds - 1 & 1 else "!1"
        text += f"State: {state}\n[!0 & {said}] {2 * state % count}\n[0 & {said}] {(2 * state + 1) % count}\n"
    return [], text + "--END--\n"


def counter(bits: int) -> Asked:
    """The system says each time that the environment has asked as often as a number of so many bits counts."""
    count = 2 ** bits
    text = header(count, ["up", "over"], [1], "all", "0 t")
    for state in range(count):
        last = "1" if state == count - 1 else "!1"
        text += f"State: {state}\n[!0 & !1] {state}\n[0 & {last}] {(state + 1) % count}\n"
    return [], text + "--END--\n"


def drawn(states: int, inputs: int, outputs: int) -> Asked:
    """A random automaton with eight edges a state, of which each run is accepted."""
    return [], specification(states, inputs, outputs, 8, sets=1)


def asked_for(quick: bool) -> dict[str, Asked]:
    """What is realized, by its name."""
    listed = {"arbiter 3": arbiter(3), "arbiter 4": arbiter(4), "lift 3": lift(3), "shift 6": shift(6),
              "counter 6": counter(6), "random 50": drawn(50, 5, 4)}
    if not quick:
        listed |= {"arbiter 5": arbiter(5), "lift 4": lift(4), "lift 8": lift(8), "random 100": drawn(100, 6, 6),
                   "random 2000": drawn(2000, 4, 4)}
    return listed


def fewer_gates(text: bytes) -> int:
    """The gates that abc leaves of a circuit in the binary form."""
    with tempfile.TemporaryDirectory() as folder:
        path = os.path.join(folder, "circuit.aig")
        with open(path, "wb") as file:
            file.write(text)
        steps = f"read {path}; strash; " + ("dc2; " + RESYN2) * 3 + "print_stats"
        done = subprocess.run([ABC, "-q", steps], capture_output=True, text=True, timeout=MOST_SECONDS)
    found = re.findall(r"and =\s*(\d+)", done.stdout)
    if not found:
        sys.exit(f"{ABC}: {done.stdout}{done.stderr}")
    return int(found[-1])


def write_gates(omega: str, quick: bool) -> None:
    """The table of gates."""
    has_abc = shutil.which(ABC) is not None
    print("\n| Circuit | inputs | outputs | latches | gates | by abc | gates / by abc |\n|---|---|---|---|---|---|---|")
    for name, (words, text) in asked_for(quick).items():
        _, _, inputs, latches, outputs, gates = ran([omega, "realize", "--aiger", *words], text)[0].split()[:6]
        row = f"| {name} | {inputs} | {outputs} | {latches} | {gates} |"
        if has_abc:
            binary = subprocess.run([omega, "realize", "--aiger", "--binary", *words], input=text.encode(),
                                    stdout=subprocess.PIPE, check=True).stdout
            fewer = fewer_gates(binary)
            row += f" {fewer} | {f'{int(gates) / fewer:.2f}' if fewer else '-'} |"
        print(row if has_abc else f"{row} - | - |")


def write_times(omega: str, quick: bool) -> None:
    """The table of `realize`."""
    print("\n| Specification | `realize --aiger` | `realize --controller` | ratio |\n|---|---|---|---|")
    for name, (words, text) in asked_for(quick).items():
        circuit = median([omega, "realize", "--aiger", *words], text)
        controller = median([omega, "realize", "--controller", *words], text)
        print(f"| {name} | {circuit * 1000:.0f} ms | {controller * 1000:.0f} ms | {circuit / controller:.2f} |")


def main() -> None:
    parser = argparse.ArgumentParser(description=(__doc__ or "").split("\n")[0])
    parser.add_argument("--omega", default=os.path.join(HERE, "..", "omega"))
    parser.add_argument("--quick", action="store_true")
    given = parser.parse_args()
    for table in (write_judged, write_gates, write_times):
        table(given.omega, given.quick)


if __name__ == "__main__":
    main()
