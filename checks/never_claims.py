"""The never claims that `spin -f` writes of formulas, as automata: an outside peer."""
import re
import subprocess

from automata import Automaton, read_one
from formulas import Formula, read_formula, satisfies
from products import valuations

# How spin writes the operators that it has. It has no `X`, and the others are written by these.
SIGNS = {"!": "!", "F": "<>", "G": "[]", "&": "&&", "|": "||", "->": "->", "<->": "<->", "U": "U", "R": "V"}
LABEL = re.compile(r"^(\w+):$", re.MULTILINE)
GUARDED = re.compile(r":: (?:atomic \{ )?(.*) -> (?:goto (\w+)|assert\(.*\) \})$", re.MULTILINE)
SECONDS = 10


def spelled(tree: Formula) -> str:
    """A formula without `X`, as spin reads it."""
    if tree[0] == "constant":
        return "true" if tree[1] else "false"
    if tree[0] == "name":
        return str(tree[1].decode())
    parts = [spelled(part) for part in tree[1:]]
    if len(parts) == 1:
        return f"{SIGNS[tree[0]]}({parts[0]})"
    one, other = parts
    if tree[0] == "xor":
        return f"!(({one}) <-> ({other}))"
    if tree[0] == "W":
        return f"((({one}) U ({other})) || [](({one})))"
    if tree[0] == "M":
        return f"(({other}) U (({one}) && ({other})))"
    return f"(({one}) {SIGNS[tree[0]]} ({other}))"


def letters_at(guard: str, names: list[bytes]) -> str:
    """The label that is true where a guard is."""
    tree, cubes = read_formula(guard.encode()), []
    for letter in valuations(names):
        if satisfies(tree, [], [letter]):
            cubes.append("&".join(("" if name in letter else "!") + str(number) for number, name in enumerate(names)))
    return "|".join(cubes) or "f"


def states_of(claim: str) -> tuple[dict[str, int], list[str]]:
    """The numbers of the labels of a claim, and what stands behind the labels of each state."""
    numbers, bodies = dict[str, int](), list[str]()
    for label, body in zip(LABEL.findall(claim), LABEL.split(claim)[2::2]):
        numbers[label] = len(bodies)
        # Behind one of several labels of a state stands nothing.
        bodies += [body] if body.strip() else []
    return numbers, bodies


def claim_of(tree: Formula, names: list[bytes]) -> Automaton | None:
    """The automaton of spin's never claim of a formula; none if it takes spin too long. A claim that ends is one that
    accepts whatever follows."""
    try:
        ran = subprocess.run(["spin", "-f", spelled(tree)], capture_output=True, text=True, check=True, timeout=SECONDS)
    except subprocess.TimeoutExpired:
        return None
    numbers, bodies = states_of(ran.stdout)
    accepting = {number for label, number in numbers.items() if label.startswith("accept")}
    lines = []
    for number, body in enumerate(bodies):
        edges = [f"[{letters_at(guard, names)}] {numbers[label or 'accept_all']}" for guard, label in
                 GUARDED.findall(body)]
        edges += [f"[t] {number}"] * bool(re.search(r"^\tskip$", body, re.MULTILINE))
        lines.append(f"State: {number} {'{0}' if number in accepting else ''} {' '.join(edges)}")
    listed = " ".join(f'"{name.decode()}"' for name in names)
    text = (f"HOA: v1 States: {len(bodies)} Start: 0 AP: {len(names)} {listed} acc-name: Buchi Acceptance: 1 Inf(0) "
            f"--BODY-- {' '.join(lines)} --END--")
    return read_one(text.encode())
