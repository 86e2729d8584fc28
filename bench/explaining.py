"""Families of games with a solution that gives all nodes to player 0, who does not win: `verify --explain` says why.
Each is a function from its size to the texts of both."""
from families import Row, text_of


def all_for_zero(rows: list[Row]) -> tuple[str, str]:
    """The texts of a game, and of the solution that gives all nodes to player 0, who moves to the first successor."""
    lines = [f"paritysol {max(row[0] for row in rows)};\n"]
    lines += [f"{v} 0 {successors[0]};\n" if owner == 0 else f"{v} 0;\n" for v, _, owner, successors in rows]
    return text_of(rows), "".join(lines)


def long_cycle(nodes: int) -> tuple[str, str]:
    """One cycle, on which the only odd priority is the greatest."""
    return all_for_zero([(v, int(v == 0), 0, [(v + 1) % nodes]) for v in range(nodes)])


def many_priorities(nodes: int) -> tuple[str, str]:
    """A ring on which each node has a priority of its own, the greatest an odd one, and a second way that leads back by
    half of the nodes behind."""
    top = nodes - 1 + nodes % 2
    return all_for_zero([(v, top - v, 1, [(v + 1) % nodes, v // 2]) for v in range(nodes)])


def nested(nodes: int) -> tuple[str, str]:
    """A component within a component, as many as there are nodes: each has its even priority at its first node, and the
    last node, which leads back to the first of each, goes round by itself with an odd one."""
    last = nodes - 1
    rows = [(v, 2 * (nodes - v), 1, [v + 1]) for v in range(last)]
    return all_for_zero([*rows, (last, 1, 1, list(range(nodes)))])


# name: (the texts of a quick run, the texts of a full run)
EXPLAINED = {
    "long-cycle": (lambda: long_cycle(100_000), lambda: long_cycle(800_000)),
    "many-priorities": (lambda: many_priorities(62_500), lambda: many_priorities(500_000)),
    "nested": (lambda: nested(62_500), lambda: nested(500_000)),
}
