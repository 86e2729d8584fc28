"""Products, complements and words of automata, as plainly as can be: whether an automaton accepts a word, and how many
pairs of states a product reaches.

A word is a lasso of letters, each the set of the names that hold. Nothing here is quick, and nothing is shared with the
program.
"""
import itertools
from collections.abc import Iterator

from automata import Automaton, Tree, bare
from emptiness import Move, has_accepting_walk, is_true, moves_of

# The names that hold; and the letters of a stem or a cycle.
Letter = frozenset[bytes]
Word = list[Letter]


def names_of(automaton: Automaton) -> list[bytes]:
    """The names of the propositions, as they are written, without their quotes."""
    return [name[1:-1] for name in automaton.first(b"AP:", (0, []))[1]]


def can_be_taken(move: Move, names: list[bytes], letter: Letter) -> bool:
    """Whether an edge can be taken where the names of a letter hold."""
    held = {number for number, name in enumerate(names) if name in letter}
    if move.label is None:
        return all((move.place >> number) % 2 == (number in held) for number in range(len(names)))
    return is_true(move.label, held)


def accepts(automaton: Automaton, stem: Word, cycle: Word) -> bool:
    """Whether the automaton accepts the word: a walk of pairs of a state and a place of the word goes round for
    ever."""
    letters, names = stem + cycle, names_of(automaton)
    taken: list[Move] = []
    for move in moves_of(automaton):
        for place, letter in enumerate(letters):
            if can_be_taken(move, names, letter):
                after = place + 1 if place + 1 < len(letters) else len(stem)
                target = (move.targets[0], after)
                taken.append(Move(len(taken), (move.source, place), [target], None, move.marks, 0))
    starts = [(states[0], 0) for states in automaton.said(b"Start:")]
    return has_accepting_walk(starts, taken, bare(automaton.first(b"Acceptance:", None)[1]))


def words_over(names: list[bytes], most: int) -> Iterator[tuple[Word, Word]]:
    """All words whose stem and cycle have so many letters at most together."""
    letters = [frozenset(held) for size in range(len(names) + 1) for held in itertools.combinations(names, size)]
    for length in range(1, most + 1):
        for word in itertools.product(letters, repeat=length):
            for stem in range(length):
                yield list(word[:stem]), list(word[stem:])


def valuations(names: list[bytes]) -> list[Letter]:
    return [frozenset(held) for size in range(len(names) + 1) for held in itertools.combinations(names, size)]


def pairs_reached(one: Automaton, other: Automaton) -> tuple[list[tuple[int, int]], int]:
    """The pairs of states that edges of both reach together, as they are found breadth first, and how many edges they
    have."""
    names = [names_of(one), names_of(other)]
    letters = valuations(sorted({*names[0], *names[1]}))
    moves = [[(move, {letter for letter in letters if can_be_taken(move, names[at], letter)})
              for move in moves_of(automaton)] for at, automaton in enumerate((one, other))]
    found, edges = [], 0
    for first in one.said(b"Start:"):
        for second in other.said(b"Start:"):
            found += [(first[0], second[0])] * ((first[0], second[0]) not in found)
    for pair in found:
        for move, letters_of_first in (it for it in moves[0] if it[0].source == pair[0]):
            for partner, letters_of_second in (it for it in moves[1] if it[0].source == pair[1]):
                if letters_of_first & letters_of_second:
                    edges += 1
                    target = (move.targets[0], partner.targets[0])
                    found += [target] * (target not in found)
    return found, edges


def is_deterministic(automaton: Automaton) -> bool:
    """Whether there is one start at most, and no two edges of a state can be taken at one letter."""
    names, taken = names_of(automaton), set()
    for move in moves_of(automaton):
        for letter in valuations(names):
            if can_be_taken(move, names, letter):
                if (move.source, letter) in taken:
                    return False
                taken.add((move.source, letter))
    return len(automaton.said(b"Start:")) <= 1


def named(name: bytes) -> bytes:
    """A name as a letter of a word has it: in quotes where it is no identifier, or where Spot reads no name."""
    text = name.decode()
    words, signs = ("true", "false", "xor", "first_match", "cycle"), ("M", "R", "U", "V", "W", "t", "f")
    reserved = text.lower() in words or text in signs or text.startswith(("F", "G", "X"))
    return name if text.isidentifier() and text.isascii() and not reserved else b'"' + name + b'"'


def letter_of(move: Move, names: list[bytes]) -> bytes:
    """The letter that an edge of a lasso has in the word."""
    if move.label is None:
        held = [(b"" if (move.place >> number) % 2 else b"!") + named(name) for number, name in enumerate(names)]
        return b" & ".join(held) or b"1"
    parts: list[Tree] = []
    for part in conjuncts(move.label):
        parts += [part] * (part not in parts)
    return b" & ".join(labelled(part, names, int(len(parts) > 1)) for part in parts) or b"1"


def conjuncts(tree: Tree) -> list[Tree]:
    """What the outer `&` of a label join, but for `t`, and without `!` in pairs."""
    if tree[0] == "&":
        return conjuncts(tree[1]) + conjuncts(tree[2])
    if tree[0] == "!" and tree[1][0] == "!":
        return conjuncts(tree[1][1])
    return [] if tree[0] == "t" else [tree]


def labelled(tree: Tree, names: list[bytes], tight: int) -> bytes:
    if tree[0] in ("t", "f"):
        return b"1" if tree[0] == "t" else b"0"
    if tree[0] == "number":
        return named(names[tree[1]])
    if tree[0] == "!":
        return b"!" + labelled(tree[1], names, 2)
    own = 1 if tree[0] == "&" else 0
    text = labelled(tree[1], names, own) + (b" & " if own else b" | ") + labelled(tree[2], names, own)
    return b"(" + text + b")" if tight > own else text


def word_line(automaton: Automaton, stem: list[int], cycle: list[int]) -> bytes:
    """The line `word` of a lasso."""
    moves, names = moves_of(automaton), names_of(automaton)
    stem_text = b"".join(letter_of(moves[number], names) + b"; " for number in stem)
    return b"word " + stem_text + b"cycle{" + b"; ".join(letter_of(moves[number], names) for number in cycle) + b"}\n"
