"""The rows of `checks/rows.txt`: command lines, and the status, output and standard error that each leaves, found by
hand. They also say what help and faults of the command line have. The texts of a few are made here: bounds about 2^128,
games about as wide as can be, and too wide for one player, which `solve --search` solves all the same, aliases that
double, complements as deep as can be, and the priorities of marks by their table.
"""
import os
import subprocess
import tempfile
from collections.abc import Iterator
from functools import partial

from program import OMEGA, SECONDS, Case, Cases, Fault, Ran, difference, shown

ROWS = os.path.join(os.path.dirname(os.path.abspath(__file__)), "rows.txt")
FAULT = 2
ESCAPES = {"n": "\n", "r": "\r", "t": "\t", "\\": "\\"}


class Row:
    """A text, and what each of some command lines leaves of it."""

    def __init__(self, number: int) -> None:
        self.number = number
        self.commands: list[str] = []
        self.files: dict[str, bytes] = {}
        self.text = b""
        self.status = 0
        self.output = b""
        self.error = b""
        self.said: list[bytes] = []

    def take(self, mark: str, rest: str) -> None:
        """Takes what a line has after its mark."""
        if mark == "$":
            self.commands.append(rest)
        elif mark.endswith(":"):
            self.files[mark[:-1]] = plain(rest)
        elif mark == "<":
            self.text = plain(rest)
        elif mark == "=":
            self.status = int(rest)
        elif mark == ">":
            self.output += plain(rest) + b"\n"
        elif mark == "!":
            self.error += plain(rest) + b"\n"
        elif mark == "~":
            self.said.append(plain(rest))
        elif mark != "#":
            raise ValueError(f"checks/rows.txt has {mark!r} in the row of line {self.number}")


def plain(text: str) -> bytes:
    """The bytes that a text with escapes stands for."""
    made, rest = b"", iter(text)
    for sign in rest:
        made += escaped(rest) if sign == "\\" else sign.encode()
    return made


def escaped(rest: Iterator[str]) -> bytes:
    """What an escape stands for, from what follows its backslash."""
    sign = next(rest)
    return bytes.fromhex(next(rest) + next(rest)) if sign == "x" else ESCAPES[sign].encode()


def rows_of(text: str) -> Iterator[Row]:
    """The rows of a file, after its first heading."""
    row: Row | None = None
    is_behind = False
    for number, line in enumerate([*text.split("\n"), ""], 1):
        is_behind = is_behind or line.startswith("## ")
        if not is_behind or line.startswith("## "):
            continue
        if line:
            row = row or Row(number)
            mark, _, rest = line.partition(" ")
            row.take(mark, rest)
        elif row:
            yield row
            row = None


def run_in(folder: str, command: str, text: bytes) -> Ran:
    """Runs a command line in a folder, or several of which each reads what the one before it writes."""
    for words in command.split(" | "):
        run = subprocess.run([OMEGA, *words.split()], input=text, cwd=folder, capture_output=True, timeout=SECONDS)
        text = run.stdout
    return run


def said_fault(row: Row, run: Ran) -> Fault:
    """What the text of help or of a fault lacks, or nothing."""
    text, other = (run.stderr, run.stdout) if row.status == FAULT else (run.stdout, run.stderr)
    if other or row.status == FAULT and not text.startswith(b"error: "):
        return f"output {shown(run.stdout)}, standard error {shown(run.stderr)}"
    missing = [part.decode() for part in row.said if part not in text]
    return f"{missing} is not in {shown(text)}" if missing else None


def row_fault(row: Row, command: str) -> Fault:
    """What a command line leaves of a row's text that is not what is wanted, or nothing."""
    with tempfile.TemporaryDirectory() as folder:
        for name, held in row.files.items():
            with open(os.path.join(folder, name), "wb") as file:
                file.write(held)
        run = run_in(folder, command, row.text)
    if run.returncode != row.status:
        return f"status {run.returncode} for {row.status}: {shown(run.stdout)} {shown(run.stderr)}"
    if row.said:
        return said_fault(row, run)
    return difference("output", run.stdout, row.output) or difference("standard error", run.stderr, row.error)


def long_row(command: str, text: str, status: int = 0, output: bytes = b"", error: bytes = b"") -> Case:
    """A row that is made here: its command line, and the call that finds its fault."""
    row = Row(0)
    row.text, row.status, row.output, row.error = text.encode(), status, output, error
    return command, partial(row_fault, row, command)


def odd_loops() -> Cases:
    """Nodes that lead to themselves, each with an odd priority of its own, up to a bound over 128 bits."""
    for count, bound in ((121, "321673174979949641242721308587843387392"), (122, "over 128 bits")):
        text = "".join(f"{node} {2 * node + 1} 0 {node};" for node in range(count))
        output = f"game nodes {count} edges {count} greatest {count - 1}\n"
        output += f"player 0 bound {bound}\nplayer 1 bound {count}\n"
        yield long_row("show --format pg", text, output=output.encode())


def wide_for_one() -> Cases:
    """As many nodes with an even priority of their own as make a game too wide for player 1, and one with priority 1.
    Each leads to itself."""
    text = "".join(f"{node} {2 * node} 0 {node};" for node in range(8192)) + "8192 1 0 8192;"
    wide, used_up, unknown = b"omega: 50 TooWide\n", b"omega: 51 Budget\n", b"omega: 54 UnknownNode\n"
    yield long_row("solve", text, 1, error=wide)
    # Player 0 would need lifts.
    yield long_row("solve --budget 0", text, 1, error=wide)
    yield long_row("solve --player 1", text, 1, error=wide)
    yield long_row("solve --player 1 --budget 0", text, 1, error=wide)
    won = "".join(f"{node} {node};\n" for node in range(8192))
    yield long_row("solve --player 0", text, output=f"player 0 lifts 2\n{won}".encode())
    yield long_row("solve --player 0 --budget 0", text, 3, error=used_up)
    yield long_row("solve --from 8193", text, 1, error=unknown)
    yield long_row("solve --from 8192", text, output=b"paritysol 8192;\n8192 1;\n")
    # The search needs no table, and no lift: each node with an even priority is won by its loop, and the last is lost.
    solution = b"paritysol 8192;\n" + "".join(f"{node} 0 {node};\n" for node in range(8192)).encode() + b"8192 1;\n"
    yield long_row("solve --search", text, output=solution)
    yield long_row("solve --search --budget 0", text, output=solution)
    yield long_row("solve --search --from 8192", text, output=b"paritysol 8192;\n8192 1;\n")


def widest() -> Cases:
    """Nodes times odd priorities at both sides of the limit, which is 8,192 times 8,192; 8,321 times 8,065 is one more.
    Each node leads to itself, so that player 1 wins all without a lift, for whom no priority is lost."""
    widths = ((8192, 8192, 3, b"omega: 51 Budget\n"), (8321, 8065, 1, b"omega: 50 TooWide\n"))
    for nodes, odd, status, error in widths:
        text = "".join(f"{node} {2 * min(node, odd - 1) + 1} 0 {node};" for node in range(nodes))
        yield long_row("solve --player 0 --budget 0", text, status, error=error)
        won = "".join(f"{node};\n" for node in range(nodes))
        yield long_row("solve --player 1", text, output=f"player 1 lifts 0\n{won}".encode())


def doubling() -> Cases:
    """Aliases of which each is twice as large as the one before, and a label that is the last of them."""
    for last, status, output, error in ((14, 0, b"accepted\n", b""), (15, 1, b"", b"omega: 33 Expansion\n"),
                                        (19, 1, b"", b"omega: 33 Expansion\n")):
        aliases = "".join(f"Alias: @a{k + 1} @a{k}&@a{k} " for k in range(last))
        text = (f'HOA: v1 AP: 1 "a" Alias: @a0 0&0 {aliases}'
                f"Acceptance: 0 t --BODY-- State: 0 [@a{last}] 0 --END--")
        yield long_row("check --format hoa", text, status, output, error)


def nested(atom: str, sign: str, count: int) -> str:
    """An expression with so many parentheses. It is twice as deep, and 2 more."""
    return f"{atom}{sign}(" * count + f"{atom}{sign}{atom}" + ")" * count


def deep_complements() -> Cases:
    """Complements whose label or acceptance is as deep as can be with the parentheses that it needs."""
    too_large = b"omega: 55 TooLarge\n"
    # A label 254 deep has a rest 256 deep; of one 256 deep the rest is 130 deep, and 258 with its parentheses.
    labelled = 'HOA: v1 States: 1 Start: 0 AP: 1 "a" Acceptance: 0 t --BODY-- State: 0 [{}] 0 --END--'
    label = nested("0", "&", 126)
    output = (f'HOA: v1\nStates: 2\nStart: 0\nAP: 1 "a"\nAcceptance: 1 f|Inf(0)\n--BODY--\n'
              f"State: 0\n[{label}] 0\n[!({label})] 1\nState: 1\n[t] 1 {{0}}\n--END--\n")
    yield long_row("complement", labelled.format(label), output=output.encode())
    yield long_row("complement | complement | check --format hoa", labelled.format(label), output=b"accepted\n")
    yield long_row("complement", labelled.format(nested("0", "&", 127)), 1, error=too_large)
    # A formula 254 deep leaves room for a further set; one 256 deep, 129 without its parentheses, leaves none.
    accepting = "HOA: v1 States: 1 Start: 0 AP: 0 Acceptance: 1 {} --BODY-- State: 0 [t] 0 --END--"
    output = (f"HOA: v1\nStates: 1\nStart: 0\nAP: 0\nAcceptance: 1 {nested('Fin(0)', '|', 126)}\n"
              f"--BODY--\nState: 0\n[t] 0\n--END--\n")
    formula = nested("Inf(0)", "&", 126)
    yield long_row("complement", accepting.format(formula), output=output.encode())
    yield long_row("complement | complement | check --format hoa", accepting.format(formula), output=b"accepted\n")
    yield long_row("complement", accepting.format(nested("Inf(0)", "&", 127)), 1, error=too_large)


# Of each parity the formulas by their count of sets, and marks of an edge with its priority by the table.
PRIORITIES: list[tuple[str, dict[int, str], list[tuple[int, str, int]]]] = [
    ("max even", {0: "f", 3: "Inf(2)|Fin(1)&Inf(0)"},
     [(3, "0", 2), (3, "1", 3), (3, "2", 4), (3, "", 1), (0, "", 1)]),
    ("max odd", {0: "t", 3: "Fin(2)&(Inf(1)|Fin(0))"},
     [(3, "0", 1), (3, "1", 2), (3, "2", 3), (3, "", 0), (0, "", 0)]),
    ("min even", {0: "t", 3: "Inf(0)|Fin(1)&Inf(2)"},
     [(3, "0", 4), (3, "1", 3), (3, "2", 2), (3, "", 1), (0, "", 0)]),
    ("min odd", {0: "f", 2: "Fin(0)&Inf(1)", 3: "Fin(0)&(Inf(1)|Fin(2))"},
     [(3, "0", 3), (3, "1", 2), (3, "2", 1), (3, "", 0), (2, "", 1), (2, "1", 2), (2, "0 1", 3), (0, "", 1)]),
]


def priorities() -> Cases:
    """Emptiness games of one state with one edge, whose priority node 1 has."""
    for parity, formulas, edges in PRIORITIES:
        for count, marks, priority in edges:
            text = (f"HOA: v1 States: 1 Start: 0 acc-name: parity {parity} {count} Acceptance: {count} "
                    f"{formulas[count]} --BODY-- State: 0 [t] 0 {{{marks}}} --END--")
            output = f"parity 2;\n0 0 0 1;\n1 {priority} 0 0;\n2 1 0 2;\n"
            yield long_row("game", text, output=output.encode())


def row_checks() -> Cases:
    with open(ROWS) as file:
        for row in rows_of(file.read()):
            for command in row.commands:
                yield f"line {row.number}: {command}", partial(row_fault, row, command)
    yield from odd_loops()
    yield from wide_for_one()
    yield from widest()
    yield from doubling()
    yield from deep_complements()
    yield from priorities()
