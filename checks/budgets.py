"""Every budget up to what is needed, for the worked examples, dense games among them, and both players: refusal 51 and
nothing written, or the whole answer.
"""
from program import Cases, fault_of, refusal_fault

# Games, the solution text of each, and for each player the answer text after its count of lifts and the most that the
# count may be.
ROWS = [
    (b"0 0 0 0;", b"paritysol 0;\n0 0 0;\n", [(b"0 0;\n", 1), (b"", 2)]),
    (b"0 1 0 0;", b"paritysol 0;\n0 1;\n", [(b"", 2), (b"0;\n", 1)]),
    (b"0 1 0 1; 1 2 1 0;", b"paritysol 1;\n0 0 1;\n1 0;\n", [(b"0 1;\n1;\n", 4), (b"", 4)]),
    (b"0 0 0 1,2; 1 1 1 0; 2 2 1 0;", b"paritysol 2;\n0 0 2;\n1 0;\n2 0;\n", [(b"0 2;\n1;\n2;\n", 6), (b"", 12)]),
    # Games with five successors a node.
    (b"0 0 0 0,0,0,0,0;", b"paritysol 0;\n0 0 0;\n", [(b"0 0;\n", 1), (b"", 2)]),
    (b"0 0 0 0,0,0,0,1; 1 1 1 1,1,1,1,0;", b"paritysol 1;\n0 0 0;\n1 1 1;\n", [(b"0 0;\n", 4), (b"1 1;\n", 4)]),
    (b"0 0 0 1,1,2,2,2; 1 1 1 0,0,0,0,0; 2 2 1 0,0,0,0,0;", b"paritysol 2;\n0 0 2;\n1 0;\n2 0;\n",
     [(b"0 2;\n1;\n2;\n", 6), (b"", 12)]),
    (b'parity 9; 9 3 1 4; 4 2 0 9,4 "a";', b"paritysol 9;\n4 0 4;\n9 0;\n", [(b"4 4;\n9;\n", 4), (b"", 4)]),
]


def answer(player: int, lifts: int, lines: bytes) -> bytes:
    return b"player %d lifts %d\n" % (player, lifts) + lines


def least_budget(game: bytes, player: int, lines: bytes, bound: int) -> int | None:
    """The least budget within which the whole answer is written, with that many lifts; none if there is none."""
    for budget in range(bound + 1):
        words = ["solve", "--player", str(player), "--budget", str(budget)]
        if fault_of(words, game, 0, answer(player, budget, lines)) is None:
            return budget
    return None


def player_checks(game: bytes, player: int, lines: bytes, bound: int) -> Cases:
    least = least_budget(game, player, lines, bound)
    label = f"player {player} of {game.decode()}"
    yield f"{label}: an answer within {bound} lifts", None if least is not None else "there is none"
    if least is None:
        return
    for budget in range(bound + 2):
        words = ["solve", "--player", str(player), "--budget", str(budget)]
        fault = (refusal_fault(words, game, "51 Budget", 3) if budget < least
                 else fault_of(words, game, 0, answer(player, least, lines)))
        yield f"{label} with budget {budget}", fault


def budget_checks() -> Cases:
    for game, solution, answers in ROWS:
        needed = []
        for player, (lines, bound) in enumerate(answers):
            yield from player_checks(game, player, lines, bound)
            needed.append(least_budget(game, player, lines, bound) or 0)
        for budget in range(max(needed) + 2):
            words = ["solve", "--budget", str(budget)]
            fault = (refusal_fault(words, game, "51 Budget", 3) if budget < max(needed)
                     else fault_of(words, game, 0, solution))
            yield f"both players of {game.decode()} with budget {budget}", fault
