"""Parity games solved and judged, omega-automata combined and decided, and circuits made and judged, by `libomega`,
whose answers are proved to be right. This package, which hands arrays and texts to the library, is tested and not
proved.

    import omega

    game = omega.Game.parse("0 1 0 1; 1 2 1 0;")
    game.solve()[0]                                 # Answer(winner=0, choice=1)
    omega.Automaton.parse(text).accepting_lasso()   # an accepting lasso with its word, or None
    omega.Automaton.parse(text).satisfies("G(request -> F grant)")  # whether each accepted word does
    omega.Formula("G(request -> F grant)").realize(outs=["grant"])  # a controller, or a counter-strategy
    omega.Formula("G(request -> F grant)").realize(outs=["grant"]).circuit()  # a circuit, or None
    omega.Circuit.parse(text).judge("G(request -> F grant)", outs=["grant"])  # whether the circuit does, and why not

Games come as texts, or as arrays: the priority of each node, its owner, 0 or 1, and its successors, which are places
of nodes from 0 to n - 1. The successors are a list for each node, or a pair of flat arrays: where the successors of
each node begin (n + 1 entries, the last the number of all), and the successors.

    answer = omega.solve([0, 1, 2], [0, 1, 1], [[1, 2], [0], [0]])
    answer.winner                                   # [0, 0, 0]
    answer.choice                                   # [2, None, None]
    omega.verify([0, 1, 2], [0, 1, 1], [[1, 2], [0], [0]], answer.winner, answer.choice)    # None: it is right

Each array may be a list of integers, or anything of one dimension with the buffer protocol. Arrays are copied, so that
nothing changes while the library reads them. With `copy=False` an aligned array of 32-bit unsigned numbers, or of bytes
for owners and winners, is read where it is: then no other thread may write to it during the call. The library trusts
what it has judged.

Calls may be made from several threads at once, and run side by side. A call can't be stopped: Ctrl-C is seen when it
has ended, and a budget bounds the lifts alone. A process that may be ended, as one of `multiprocessing`, is the way to
bound a call by time; a `Refusal` can be sent between processes.
"""
from .arrays import NO_CHOICE, Answer, Bounds, Counterexample, Ran, Solution, bound, run, solve, verify
from .automata import Automaton, Lasso, Realizability
from .circuits import Circuit, Judgement
from .formulas import Formula
from .games import Game
from .library import Refusal, version

__all__ = ["NO_CHOICE", "Answer", "Automaton", "Bounds", "Circuit", "Counterexample", "Formula", "Game", "Judgement",
           "Lasso", "Ran", "Realizability", "Refusal", "Solution", "bound", "run", "solve", "verify", "version"]
