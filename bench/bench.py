#!/usr/bin/env python3
"""Runs commands side by side on families of parity games and automata and prints medians, rates, memory and ratios.

    bench/bench.py --quick                                   omega alone, small games
    bench/bench.py                                           omega alone, large games
    bench/bench.py --against before=path/to/another/omega    both, on the same inputs in one run
    bench/bench.py --plain "solve=path/to/solver --nested"   beside a program that does one of the tasks alone
    bench/bench.py --only random2 --only sparse --runs 9
    bench/bench.py --table --plain ... > table.md            all figures as tables in Markdown
    bench/bench.py --quick --instructions --table            instructions in the place of times, by valgrind

A command is called as `COMMAND solve --player 0`, `COMMAND check --format pg` and so on, with the text on standard
input; that behind --plain is called as it stands, for the task before the first `=`, which is printed beside each
figure. For `verify` the text is the solution that the first command writes for `solve --search`, and each command is
given the game by the words `--game FILE`. The commands take turns. The first run of each warms up, and its output is
compared with that of the first command: a difference is printed as DIFFERS, and like a refusal or a run that takes too
long it makes the exit status 1. Of a search the winners alone are compared.

Times differ from run to run and machine to machine, so that only the ratios within one run mean something. A plain
loop of this interpreter is timed beside each row: where that takes longer than elsewhere, the machine was busy.
Instructions are counted once, since they are the same in each run, and whatever else the machine does.
"""
import argparse
import math
import os
import re
import shlex
import shutil
import statistics
import subprocess
import sys
import tempfile
import threading
import time

from automata import AUTOMATA
from comparing import COMPARED
from explaining import EXPLAINED
from families import FAMILIES

ROOT = os.path.dirname(os.path.dirname(os.path.abspath(__file__)))
GNU_TIME = shutil.which("time")
# The exit status of `verify` where the solution does not win, and of `realize` where the environment wins.
NOT_WON = 6
OMEGA = os.path.join(ROOT, "crates", "omega_tool", "out", "omega_tool")
VERIFY = ["verify"]
HARD = "hard"
TASKS = {
    "solve": [["solve"], ["solve", "--player", "0"], ["solve", "--player", "1"], ["solve", "--search"], VERIFY],
    # Games for which lifting for one player alone takes long.
    "turns": [["solve"], ["solve", "--search"], VERIFY],
    # Games for which lifting takes long.
    "searched": [["solve", "--search"], VERIFY],
    # Games on which the recursive algorithm does not end: they are run beside no plain command.
    HARD: [["check", "--format", "pg"], ["solve", "--search"], VERIFY],
    "read": [["check", "--format", "pg"], ["canon", "--format", "pg"]],
    "automata": [["check", "--format", "hoa"], ["canon", "--format", "hoa"]],
    "emptiness": [["check", "--format", "hoa"], ["canon", "--format", "hoa"], ["empty"], ["empty", "--search"]],
    # Automata whose acceptance the search alone decides.
    "search": [["check", "--format", "hoa"], ["empty", "--search"]],
    # Specifications of which it is asked if they have a controller.
    "synthesis": [["check", "--format", "hoa"], ["canon", "--format", "hoa"], ["realize", "--controller"]],
}
# Of these any right answer does, and two programs may give two.
ANY_ANSWER = (["solve", "--search"], ["empty", "--search"], ["realize", "--controller"])
# Where it is told how far the run has come.
SAID = sys.stdout
# The words before a command whose instructions are counted, and where their number stands in what they say.
COUNTING = ["valgrind", "--tool=callgrind", "--callgrind-out-file=/dev/null"]
COUNTED = re.compile(rb"Collected : (\d+)")
# How often the loop goes round by which the machine is measured.
ROUNDS = 2_000_000


# A row of the table: family, task, size of the text, seconds of the loop, and figures of each command.
TableRow = tuple[str, str, int, float, list["Figures"]]


def calibration() -> float:
    """How long a plain loop takes, in seconds: that is the same work in each run on each machine."""
    start = time.perf_counter()
    at = 0
    while at < ROUNDS:
        at += 1
    return time.perf_counter() - start


def measured(command: list[str], words: list[str], path: str, seconds: float) -> tuple[float, int, bytes] | None:
    """One run: its time in seconds, its status and its output; none after so many seconds."""
    with open(path, "rb") as text, tempfile.TemporaryFile() as output:
        start = time.perf_counter()
        child = subprocess.Popen(command + words, stdin=text, stdout=output, stderr=subprocess.DEVNULL)
        # Waiting with a limit of time would poll, and round the time up to the next look.
        limit = threading.Timer(seconds, child.kill)
        limit.start()
        status = child.wait()
        elapsed = time.perf_counter() - start
        limit.cancel()
        if elapsed >= seconds:
            return None
        output.seek(0)
        return elapsed, status, output.read()


def counted(command: list[str], words: list[str], path: str) -> tuple[float, int, bytes] | None:
    """One run: its millions of instructions, its status and its output; none if they cannot be counted."""
    with open(path, "rb") as text:
        ran = subprocess.run(COUNTING + command + words, stdin=text, capture_output=True)
    found = COUNTED.search(ran.stderr)
    return (int(found[1]) / 1e6, ran.returncode, ran.stdout) if found else None


def memory_of(command: list[str], words: list[str], path: str) -> int | None:
    """The greatest memory of one run in bytes, by GNU time; none where that is not installed.

    A child of this interpreter would be charged with the interpreter's own pages.
    """
    if not GNU_TIME:
        return None
    with open(path, "rb") as text, tempfile.NamedTemporaryFile("r") as report:
        subprocess.run(
            [GNU_TIME, "-q", "-f", "%M", "-o", report.name] + command + words,
            stdin=text, stdout=subprocess.DEVNULL, stderr=subprocess.DEVNULL,
        )
        return int(report.read()) * 1024


def lifts_in(output: bytes) -> int | None:
    """The number of lifts that an answer text states, or none."""
    words = output.split(b"\n", 1)[0].split()
    return int(words[3]) if len(words) == 4 and words[2] == b"lifts" else None


class Figures:
    """What the runs of one command on one input gave: `values`, seconds or millions of instructions. A plain command
    has the words of its task in it. Each run has to end with one of the statuses."""

    def __init__(self, name: str, command: list[str], statuses: tuple[int, ...] = (0,), plain: bool = False) -> None:
        self.name = name
        self.command = command
        self.statuses = statuses
        self.plain = plain
        self.output: bytes | None = None
        self.fault: str | None = None
        self.values: list[float] = []

    def count(self, words: list[str], path: str) -> None:
        """Counts the instructions of one run."""
        made = counted(self.command, self.words(words), path)
        if made is None:
            self.fault = "not counted"
        elif made[1] not in self.statuses:
            self.fault = f"exit status {made[1]}"
        else:
            self.output = made[2]
            self.values.append(made[0])

    def run(self, words: list[str], path: str, seconds: float) -> None:
        """One run more, unless one has failed; the first warms up and is not counted."""
        if self.fault:
            return
        made = measured(self.command, self.words(words), path, seconds)
        if made is None:
            self.fault = f"over {seconds} s"
        elif made[1] not in self.statuses:
            self.fault = f"exit status {made[1]}"
        elif self.output is None:
            self.output = made[2]
        else:
            self.values.append(made[0])

    def words(self, words: list[str]) -> list[str]:
        """The words that follow the command. A plain command is given the name of a game alone."""
        if not self.plain:
            return words
        return words[words.index("--game"):] if "--game" in words else []

    def median(self) -> float:
        return statistics.median(self.values)

    def line(self, words: list[str], path: str, is_counted: bool) -> str:
        """The figures as they are printed."""
        if self.fault:
            return f"    {self.name}: {self.fault}"
        if is_counted:
            return f"    {self.name}: {self.median():.1f} million instructions"
        seconds = self.median()
        memory = memory_of(self.command, self.words(words), path)
        lifts = lifts_in(self.output or b"")
        line = f"    {self.name}: {seconds * 1000:.1f} ms, {os.path.getsize(path) / seconds / 1e6:.0f} MB/s"
        if memory is not None:
            line += f", {memory / 1e6:.1f} MB at most"
        if lifts is not None:
            line += f", {lifts} lifts"
            if lifts > 0:
                line += f", {seconds * 1e9 / lifts:.1f} ns a lift"
        return line


def compared(figures: list[Figures], words: list[str], path: str, options: argparse.Namespace) -> list[Figures]:
    """Runs the commands on one input turn by turn, and prints their figures. Their figures, if none has failed."""
    for _ in range(0 if options.instructions else options.runs + 1):
        for one in figures:
            one.run(words, path, options.seconds)
    for one in figures if options.instructions else []:
        one.count(words, path)
    wanted = figures[0].output
    for one in figures:
        if one.output is not None and wanted is not None and decided(words, one.output) != decided(words, wanted):
            one.fault = "DIFFERS"
        say(one.line(words, path, options.instructions))
    return [one for one in figures if not one.fault]


def decided(words: list[str], output: bytes) -> object:
    """What of an output two programs must agree on: of a search the winners, or whether there is a lasso; of the
    automaton of a winner its propositions."""
    if words not in ANY_ANSWER:
        return without_lifts(output)
    if words[0] == "empty":
        return output.split(b"\n", 1)[0].split()[:1]
    if words[0] == "realize":
        return [line for line in output.split(b"--BODY--")[0].split(b"\n") if line[:3] == b"AP:"]
    return [line.rstrip(b";").split()[:2] for line in output.split(b"\n")]


def without_lifts(output: bytes) -> bytes:
    """The output without its first line, which may state another number of lifts, if it is an answer text."""
    return output.split(b"\n", 1)[-1] if lifts_in(output) is not None else output


def say(line: str) -> None:
    """Tells how far the run has come: beside the table, if there is to be one."""
    print(line, file=SAID, flush=True)


def explained(commands: list[tuple[str, list[str]]], options: argparse.Namespace, table: list[TableRow]) -> bool:
    """Runs the commands on wrong solutions of games, which they explain. Whether all went well."""
    all_well = True
    for family, (quick, full) in EXPLAINED.items():
        if options.only and family not in options.only:
            continue
        game, solution = (quick if options.quick else full)()
        with tempfile.NamedTemporaryFile("w", suffix=".pg") as file, tempfile.NamedTemporaryFile("w") as given:
            file.write(game)
            file.flush()
            given.write(solution)
            given.flush()
            say(f"{family}: {len(game):,} bytes, {game.count(';'):,} nodes, and a solution of {len(solution):,} bytes")
            figures = [Figures(name, command, (NOT_WON,)) for name, command in commands]
            words = ["verify", "--explain", "--game", file.name]
            all_well = row_of(family, "verify --explain", figures, words, given.name, options, table) and all_well
    return all_well


def pairs_compared(commands: list[tuple[str, list[str]]], options: argparse.Namespace, table: list[TableRow]) -> bool:
    """Runs the commands on pairs of automata: is one contained in the other? Whether all went well."""
    all_well = True
    for family, (quick, full) in COMPARED.items():
        if options.only and family not in options.only:
            continue
        one, other = (quick if options.quick else full)()
        with tempfile.NamedTemporaryFile("w") as file, tempfile.NamedTemporaryFile("w") as given:
            file.write(other)
            file.flush()
            given.write(one)
            given.flush()
            say(f"{family}: {len(one):,} and {len(other):,} bytes, {one.count('State:'):,} states each")
            figures = [Figures(name, command, (0, NOT_WON)) for name, command in commands]
            words = ["contained", "--in", file.name]
            all_well = row_of(family, "contained", figures, words, given.name, options, table) and all_well
    return all_well


def solution_of(command: list[str], path: str, seconds: float) -> bytes:
    """The solution that the command writes for the game by the search; empty if it fails."""
    made = measured(command, ["solve", "--search"], path, seconds)
    return made[2] if made else b""


def verified(family: str, path: str, figures: list["Figures"], options: argparse.Namespace,
             table: list[TableRow]) -> bool:
    """Runs the commands on a game and the solution that the first of them writes for it. Whether all went well."""
    with tempfile.NamedTemporaryFile() as given:
        given.write(solution_of(figures[0].command, path, options.seconds))
        given.flush()
        return row_of(family, "verify", figures, [*VERIFY, "--game", path], given.name, options, table)


def row_of(family: str, task: str, figures: list[Figures], words: list[str], path: str,
           options: argparse.Namespace, table: list[TableRow]) -> bool:
    """Runs commands on one input for a task, and enters a row into the table. Whether all went well."""
    say(f"  {task}")
    loop = calibration()
    well = compared(figures, words, path, options)
    say(f"    the loop: {loop:.3f} s")
    table.append((family, task, os.path.getsize(path), loop, figures))
    for other in well[1:] if well and well[0] is figures[0] else []:
        say(f"    {figures[0].name} / {other.name}: {well[0].median() / other.median():.2f}")
    return len(well) == len(figures)


def ratios_of(table: list[TableRow]) -> dict[tuple[str, str], list[float]]:
    """By task and by what is compared with: the ratios of the first command to the other."""
    ratios: dict[tuple[str, str], list[float]] = {}
    for _, task, _, _, figures in table:
        for other in figures[1:]:
            if not figures[0].fault and not other.fault:
                ratios.setdefault((task, other.name), []).append(figures[0].median() / other.median())
    return ratios


def mean_of(ratios: list[float]) -> float:
    return math.exp(statistics.fmean(map(math.log, ratios)))


def in_markdown(table: list[TableRow], is_counted: bool) -> str:
    """The rows as tables, one for the families of each kind, with the mean and the worst of each ratio below."""
    lines = []
    for kind in ([*FAMILIES], [*AUTOMATA], [*EXPLAINED], [*COMPARED]):
        rows = [row for row in table if row[0] in kind]
        if rows:
            lines += [*table_of(rows, is_counted), "", *sentences_of(rows), ""]
    return "\n".join(lines)


def table_of(rows: list[TableRow], is_counted: bool) -> list[str]:
    """The lines of a table: of a family the size of its text, the longest loop, and for each task the first command's
    figure, with its ratio to each other command."""
    tasks = list(dict.fromkeys(row[1] for row in rows))
    names = {task: list(dict.fromkeys(one.name for row in rows if row[1] == task for one in row[4])) for task in tasks}
    heads = ["family", "MB"] + ["the loop, ms"] * (not is_counted)
    for task in tasks:
        heads += [f"`{task}`", *(f"/ {name}" for name in names[task][1:])]
    lines = [f"| {' | '.join(heads)} |", "|---" * len(heads) + "|"]
    for family in dict.fromkeys(row[0] for row in rows):
        own = {row[1]: row for row in rows if row[0] == family}
        cells = [family, f"{max(row[2] for row in own.values()) / 1e6:.1f}"]
        cells += [f"{1000 * max(row[3] for row in own.values()):.0f}"] * (not is_counted)
        for task in tasks:
            cells += cells_of(own[task][4] if task in own else [], names[task], is_counted)
        lines.append(f"| {' | '.join(cells)} |")
    return lines


def cells_of(figures: list[Figures], names: list[str], is_counted: bool) -> list[str]:
    """The first command's figure, and its ratios to those of the names that follow; a dash for what is not there."""
    by_name = {one.name: one for one in figures}
    first = by_name.get(names[0])
    if first is None or first.fault:
        return [first.fault if first and first.fault else "-"] + ["-"] * (len(names) - 1)
    cells = [f"{first.median() * (1 if is_counted else 1000):.1f}"]
    for name in names[1:]:
        other = by_name.get(name)
        cells.append("-" if other is None else other.fault or f"{first.median() / other.median():.2f}")
    return cells


def sentences_of(rows: list[TableRow]) -> list[str]:
    """What is to be said of each ratio."""
    return [f"`{task}` / {name}: {mean_of(ratios):.2f} in the geometric mean, {max(ratios):.2f} at worst."
            for (task, name), ratios in ratios_of(rows).items()]


def plain_commands(pairs: list[str], parser: argparse.ArgumentParser) -> dict[str, list[str]]:
    """The plain commands by their tasks, from `TASK=COMMAND`; of one task there may be several."""
    tasks = [" ".join(words) for kind in TASKS.values() for words in kind]
    plain: dict[str, list[str]] = {}
    for pair in pairs:
        task, found, command = pair.partition("=")
        if not found or task not in tasks:
            parser.error("the tasks are " + ", ".join(dict.fromkeys(tasks)))
        plain.setdefault(task, []).append(command)
    return plain


def figures_of(task: str, commands: list[tuple[str, list[str]]], plain: dict[str, list[str]]) -> list[Figures]:
    """Figures for each command that does a task. Plain commands of one task are numbered, if there are several."""
    statuses = (0, NOT_WON) if task.startswith("realize") else (0,)
    figures = [Figures(name, command, statuses) for name, command in commands]
    given = plain.get(task, [])
    for at, command in enumerate(given):
        name = "plain" if len(given) == 1 else f"plain {at + 1}"
        figures.append(Figures(name, shlex.split(command), statuses, plain=True))
    return figures


def asked() -> argparse.Namespace:
    """What the command line asks for."""
    parser = argparse.ArgumentParser(description=__doc__, formatter_class=argparse.RawDescriptionHelpFormatter)
    parser.add_argument("--quick", action="store_true", help="small games")
    parser.add_argument("--only", action="append", help="this family alone; may be given again")
    parser.add_argument("--task", action="append", help="this task alone, as `solve --search`; may be given again")
    parser.add_argument("--against", action="append", default=[], metavar="NAME=COMMAND", help="another command")
    parser.add_argument("--plain", action="append", default=[], metavar="TASK=COMMAND",
                        help="a command for one task alone, called as it stands; may be given again")
    parser.add_argument("--table", action="store_true", help="write tables in Markdown, and all else beside them")
    parser.add_argument("--instructions", action="store_true", help="count instructions, by callgrind of valgrind")
    parser.add_argument("--omega", help="the command that is measured, if not the built program")
    parser.add_argument("--runs", type=int, default=5, help="runs of which the median is taken")
    parser.add_argument("--seconds", type=float, default=120, help="the most time for one run")
    options = parser.parse_args()
    if options.runs < 1:
        parser.error("at least one run is counted")
    names = [*FAMILIES, *AUTOMATA, *EXPLAINED, *COMPARED]
    if options.only and not set(options.only) <= set(names):
        parser.error("the families are " + ", ".join(names))
    if not options.omega and not os.path.exists(OMEGA):
        parser.error("the program is not built: ./omega --help builds it")
    if not all("=" in pair for pair in options.against):
        parser.error("--against takes NAME=COMMAND")
    if options.instructions and not shutil.which(COUNTING[0]):
        parser.error("instructions are counted by valgrind, which is not in PATH")
    options.plain = plain_commands(options.plain, parser)
    return options


def main() -> int:
    options = asked()
    global SAID
    SAID = sys.stderr if options.table else sys.stdout
    commands = [("omega", shlex.split(options.omega or OMEGA))]
    commands += [(name, shlex.split(words)) for name, words in (pair.split("=", 1) for pair in options.against)]
    table: list[TableRow] = []
    all_well = True
    for family, (kinds, quick, full) in [*FAMILIES.items(), *AUTOMATA.items()]:
        if options.only and family not in options.only:
            continue
        tasks = [words for kind in kinds.split() for words in TASKS[kind]]
        tasks = [words for words in tasks if not options.task or " ".join(words) in options.task]
        if not tasks:
            continue
        text = (quick if options.quick else full)()
        with tempfile.NamedTemporaryFile("w") as file:
            file.write(text)
            file.flush()
            size = f"{text.count('State:'):,} states" if family in AUTOMATA else f"{text.count(';'):,} nodes"
            say(f"{family}: {len(text):,} bytes, {size}")
            for words in tasks:
                task = " ".join(words)
                figures = figures_of(task, commands, {} if HARD in kinds.split() else options.plain)
                if words == VERIFY:
                    well = verified(family, file.name, figures, options, table)
                else:
                    well = row_of(family, task, figures, words, file.name, options, table)
                all_well = well and all_well
    if not options.task or "verify --explain" in options.task:
        all_well = explained(commands, options, table) and all_well
    if not options.task or "contained" in options.task:
        all_well = pairs_compared(commands, options, table) and all_well
    for (task, name), found in ratios_of(table).items():
        say(f"omega / {name}, {task}: {mean_of(found):.2f} in the geometric mean, {max(found):.2f} at worst")
    if options.table:
        print(in_markdown(table, options.instructions), end="")
    return 0 if all_well else 1


if __name__ == "__main__":
    sys.exit(main())
