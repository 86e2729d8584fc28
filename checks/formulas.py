"""Texts of formulas of linear temporal logic by the rules of docs/formats.md, and what formulas say of words, as
plainly as can be: what the program is compared with.

Nothing here is quick, and nothing is shared with the program.
"""
import itertools
import re
from collections.abc import Callable, Iterator
from dataclasses import dataclass
from typing import Any

from games import Refused

MOST_TEXT, MOST_DEPTH, MOST_SIZE, MOST_NAMES = 16_777_216, 256, 4096, 64

# Formulas are tuples: ("constant", true), ("name", bytes), of one operand ("!", f), ("X", f), ("F", f), ("G", f), and
# of two an operator of LEVELS with both.
Formula = tuple[Any, ...]
# A token: "constant", "name", "before", "between", "(" or ")"; what it stands for; and its place.
Token = tuple[str, Any, int]

# The operators of two operands, from those that bind loosest, and whether they associate to the right.
LEVELS = [({"->", "<->"}, True), ({"|"}, False), ({"xor"}, False), ({"&"}, False), ({"U", "R", "W", "M"}, True)]
BINARY = set[str]().union(*(operators for operators, _ in LEVELS))

SIGNS = {b"!": "!", b"~": "!", b"()": "X", b"<>": "F", b"[]": "G", b"&": "&", b"&&": "&", b"/\\": "&", b"|": "|",
         b"||": "|", b"\\/": "|", b"^": "xor", b"->": "->", b"=>": "->", b"<->": "<->", b"<=>": "<->"}
WORDS = {b"U": "U", b"R": "R", b"V": "R", b"W": "W", b"M": "M", b"xor": "xor"}
GAP = re.compile(rb"[ \t\n\r]*")
TOKEN = re.compile(rb'(?P<false>F(?i:alse))|(?P<letter>[FGX])(?![0-9])|(?P<word>[A-Za-z_][A-Za-z0-9_]*)'
                   rb'|"(?P<quoted>(?:[^"\\]|\\.)*)"|(?P<constant>[01])'
                   rb"|(?P<sign>" + b"|".join(re.escape(sign) for sign in sorted(SIGNS, key=len, reverse=True)) + rb")"
                   rb"|(?P<parenthesis>[()])", re.DOTALL)


def token_of(kind: str, text: bytes, place: int) -> Token:
    """The token of a text that the group `kind` of TOKEN matched."""
    if kind in ("false", "constant"):
        return "constant", text == b"1", place
    if kind == "word" and text.lower() in (b"true", b"false"):
        return "constant", text.lower() == b"true", place
    if kind in ("word", "quoted") and (kind == "quoted" or text not in WORDS):
        return "name", text, place
    if kind == "parenthesis":
        return text.decode(), None, place
    operator = text.decode() if kind == "letter" else (WORDS | SIGNS)[text]
    return "between" if operator in BINARY else "before", operator, place


def tokens_of(text: bytes) -> list[Token]:
    """The tokens of a text; refused 1 at the first bytes that begin none."""
    tokens, place = list[Token](), GAP.match(text, 0).end()  # type: ignore[union-attr]
    while place < len(text):
        found = TOKEN.match(text, place)
        if found is None or found.lastgroup is None:
            raise Refused(f"1 Lex at {place}")
        tokens.append(token_of(found.lastgroup, found[found.lastgroup], place))
        place = GAP.match(text, found.end()).end()  # type: ignore[union-attr]
    return tokens


def judge_order(tokens: list[Token], length: int) -> None:
    """Refused 3 at the first token with which no formula goes on, else at the length."""
    wants_operand, depth = True, 0
    for kind, _, place in tokens:
        is_front = kind in ("constant", "name", "before", "(")
        if is_front != wants_operand or kind == ")" and not depth:
            raise Refused(f"3 Syntax at {place}")
        wants_operand = kind in ("before", "between", "(")
        depth += {"(": 1, ")": -1}.get(kind, 0)
    if wants_operand or depth:
        raise Refused(f"3 Syntax at {length}")


def split_at(operators: set[str], tokens: list[Token]) -> tuple[list[str], list[list[Token]]]:
    """The operators of a level that stand in no parentheses, and what stands between them."""
    found, parts, depth = list[str](), [list[Token]()], 0
    for token in tokens:
        depth += {"(": 1, ")": -1}.get(token[0], 0)
        if depth == 0 and token[0] == "between" and token[1] in operators:
            found.append(token[1])
            parts.append([])
        else:
            parts[-1].append(token)
    return found, parts


def tree_of(tokens: list[Token]) -> Formula:
    """The formula of tokens that are one: it is cut at its loosest operators."""
    for operators, is_right in LEVELS:
        found, parts = split_at(operators, tokens)
        if found:
            trees = [tree_of(part) for part in parts]
            return joined_right(found, trees) if is_right else joined_left(found, trees)
    kind, value, _ = tokens[0]
    if kind == "before":
        return value, tree_of(tokens[1:])
    return tree_of(tokens[1:-1]) if kind == "(" else (kind, value)


def joined_right(operators: list[str], trees: list[Formula]) -> Formula:
    tree = trees[-1]
    for operator, left in zip(reversed(operators), reversed(trees[:-1])):
        tree = (operator, left, tree)
    return tree


def joined_left(operators: list[str], trees: list[Formula]) -> Formula:
    tree = trees[0]
    for operator, right in zip(operators, trees[1:]):
        tree = (operator, tree, right)
    return tree


def operands(tree: Formula) -> tuple[Formula, ...]:
    return () if tree[0] in ("constant", "name") else tree[1:]


def depth_of(tree: Formula) -> int:
    return 1 + max([depth_of(part) for part in operands(tree)], default=0)


def size_of(tree: Formula) -> int:
    """The number of constants, names and operators."""
    return 1 + sum(size_of(part) for part in operands(tree))


def names_of(tree: Formula) -> list[bytes]:
    """The names, each once, in the order in which they first stand there."""
    if tree[0] == "name":
        return [tree[1]]
    return [*dict.fromkeys(name for part in operands(tree) for name in names_of(part))]


def read_formula(text: bytes) -> Formula:
    """The formula of a text; refused by the first that applies of 4, 1, 3, 32 and 55."""
    if len(text) > MOST_TEXT:
        raise Refused("4 TooLong")
    tokens = tokens_of(text)
    judge_order(tokens, len(text))
    tree = tree_of(tokens)
    if depth_of(tree) > MOST_DEPTH:
        raise Refused("32 TooDeep")
    if size_of(tree) > MOST_SIZE or len(names_of(tree)) > MOST_NAMES:
        raise Refused("55 TooLarge")
    return tree


def named(name: bytes) -> bytes:
    """A name, in quotes unless it is read without as the same name."""
    try:
        return name if [token[:2] for token in tokens_of(name)] == [("name", name)] else b'"' + name + b'"'
    except Refused:
        return b'"' + name + b'"'


def canonical(tree: Formula) -> bytes:
    """The canonical text of a formula."""
    if tree[0] == "constant":
        return b"%d" % tree[1]
    if tree[0] == "name":
        return named(tree[1])
    parts = [b"(" + canonical(part) + b")" if part[0] in BINARY else canonical(part) for part in tree[1:]]
    if tree[0] in BINARY:
        return parts[0] + b" " + tree[0].encode() + b" " + parts[1]
    return tree[0].encode() + (b"" if tree[0] == "!" or parts[0].startswith(b"(") else b" ") + parts[0]


@dataclass(frozen=True)
class Words:
    """Infinite words that go round alike: at each place of each, which names hold. A set of words is a number, whose
    bit k says whether word k is in it."""
    # The place after each place.
    onward: list[int]
    # The words in which a name holds at a place.
    holding: Callable[[bytes, int], int]
    # All words.
    every: int

    def from_on(self, place: int) -> list[int]:
        """The place and those after it: all that come, each at least once."""
        places = [place]
        while len(places) < len(self.onward):
            places.append(self.onward[places[-1]])
        return places

    def true_at(self, tree: Formula) -> list[int]:
        """The words in which a formula holds at each place, by what its operator means."""
        if tree[0] == "constant":
            return [self.every if tree[1] else 0 for _ in self.onward]
        if tree[0] == "name":
            return [self.holding(tree[1], place) for place, _ in enumerate(self.onward)]
        parts = [self.true_at(part) for part in tree[1:]]
        return [self.holds(tree[0], place, *parts) for place, _ in enumerate(self.onward)]

    def holds(self, operator: str, place: int, one: list[int], other: list[int] | None = None) -> int:
        """The words in which an operator holds at a place, by those in which its operands do."""
        if operator == "!":
            return self.every & ~one[place]
        if operator == "X":
            return one[self.onward[place]]
        if operator in ("F", "G"):
            found = 0 if operator == "F" else self.every
            for later in self.from_on(place):
                found = found | one[later] if operator == "F" else found & one[later]
            return found
        assert other is not None, operator
        if operator in ("U", "W", "R", "M"):
            return self.waits(operator, place, one, other)
        left, right = one[place], other[place]
        return {"&": left & right, "|": left | right, "xor": left ^ right, "->": self.every & ~left | right,
                "<->": self.every & ~(left ^ right)}[operator]

    def waits(self, operator: str, place: int, one: list[int], other: list[int]) -> int:
        """Of `U` and `M`, those in which it comes at some place; of `W` and `R`, those that no place refutes."""
        some, each = 0, self.every
        # Whether the first operand held at each place before, or at some; whether the second held at each up to here;
        # and whether the second came while the first had held at each before.
        always_one, some_one, always_other, came = self.every, 0, self.every, 0
        for later in self.from_on(place):
            always_other &= other[later]
            came |= always_one & other[later]
            some |= always_one & other[later] if operator == "U" else one[later] & always_other
            each &= came | always_one & one[later] if operator == "W" else other[later] | some_one
            always_one &= one[later]
            some_one |= one[later]
        return some if operator in ("U", "M") else each


def onward_of(stem: int, cycle: int) -> list[int]:
    """The place after each place of a word with so many letters in its stem and in its cycle."""
    return [*range(1, stem + cycle), stem]


def all_words(names: list[bytes], stem: int, cycle: int) -> Words:
    """All words with so many letters, over these names. The letters of word k are its digits, the first the lowest, and
    the names that hold at a letter are its bits."""
    letters, length = 2 ** len(names), stem + cycle
    count = letters ** length

    def holding(name: bytes, place: int) -> int:
        bit = names.index(name)
        return sum(1 << word for word in range(count) if word // letters ** place >> bit & 1)

    known = {(name, place): holding(name, place) for name in names for place in range(length)}
    return Words(onward_of(stem, cycle), lambda name, place: known.get((name, place), 0), (1 << count) - 1)


def one_word(stem: list[frozenset[bytes]], cycle: list[frozenset[bytes]]) -> Words:
    """The one word with these letters."""
    letters = stem + cycle
    return Words(onward_of(len(stem), len(cycle)), lambda name, place: int(name in letters[place]), 1)


def satisfies(tree: Formula, stem: list[frozenset[bytes]], cycle: list[frozenset[bytes]]) -> bool:
    """Whether a word satisfies a formula."""
    return one_word(stem, cycle).true_at(tree)[0] == 1


def letters_of_word(names: list[bytes], length: int, word: int) -> list[list[str]]:
    """The letters of one of all words, each as the names that hold."""
    letters = 2 ** len(names)
    return [[name.decode() for bit, name in enumerate(names) if word // letters ** place >> bit & 1]
            for place in range(length)]


def shapes(longest_stem: int, longest_cycle: int) -> Iterator[tuple[int, int]]:
    """The lengths of stems and cycles up to these."""
    return itertools.product(range(longest_stem + 1), range(1, longest_cycle + 1))
