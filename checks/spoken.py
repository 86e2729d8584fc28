"""Formulas of linear temporal logic at random, and texts of them in many spellings."""
import random
import re

from formulas import BINARY, LEVELS, SIGNS, WORDS, Formula

# Two names of a formula. Some stand in quotes alone: signs, operators, constants, nothing, and what has quotes in it.
PLAIN = [b"a", b"b"]
NAMES = [PLAIN] * 5 + [[b"p1", b"_q"], [b"F0", b"xor_"], [b"a", b"F"], [b"U", b"x y"], [b"Gx", b"true"], [b"", b"0"],
                       [b'a\\"b', b"\\\\"], [b"a\nb", b"\xc3\xa4"], [b"V", b"False"]]
ONE, TWO = ["!", "X", "F", "G"], ["&", "|", "xor", "->", "<->", "U", "R", "W", "M"]
# The spellings of each operator, of letters alone and of signs.
SPELLINGS = {operator: [text for text, meant in (WORDS | SIGNS).items() if meant == operator] + (
    [operator.encode()] if operator in "XFG" else []) for operator in ONE + TWO}
CONSTANTS = {True: [b"1", b"true", b"True", b"TRUE"], False: [b"0", b"false", b"False", b"FALSE"]}
BARE = re.compile(rb"[A-Za-z_][A-Za-z0-9_]*")
LETTER = re.compile(rb"[FGX]")
GOES_ON = re.compile(rb"[A-Za-z0-9_]")


class Speaking:
    """Makes formulas and texts of them."""

    def __init__(self, seed: int) -> None:
        self.random = random.Random(seed)

    def names(self, count: int = 2) -> list[bytes]:
        return self.random.choice(NAMES) if count == 2 else [b"a", b"b", b"c d"]

    def tree(self, size: int, names: list[bytes]) -> Formula:
        """A formula with so many names, constants and operators."""
        if size == 1:
            is_name = self.random.randrange(12) > 0
            return ("name", self.random.choice(names)) if is_name else ("constant", self.random.random() < 0.5)
        if size == 2 or self.random.randrange(5) < 2:
            return self.random.choice(ONE), self.tree(size - 1, names)
        left = self.random.randint(1, size - 2)
        return self.random.choice(TWO), self.tree(left, names), self.tree(size - 1 - left, names)

    def tokens(self, tree: Formula, least: int = 0) -> list[bytes]:
        """The tokens of a formula, in parentheses if it binds looser than is asked, and now and then without need."""
        level = next((at for at, (operators, _) in enumerate(LEVELS) if tree[0] in operators), len(LEVELS))
        if level < least or self.random.randrange(8) == 0:
            return [b"(", *self.tokens(tree), b")"]
        if tree[0] == "constant":
            return [self.random.choice(CONSTANTS[tree[1]])]
        if tree[0] == "name":
            return [self.name(tree[1])]
        written = self.random.choice(SPELLINGS[tree[0]])
        if tree[0] not in BINARY:
            return [written, *self.tokens(tree[1], len(LEVELS))]
        is_right = LEVELS[level][1]
        return [*self.tokens(tree[1], level + is_right), written, *self.tokens(tree[2], level + (not is_right))]

    def name(self, name: bytes) -> bytes:
        """A name, in quotes if it may be read otherwise without, and now and then without need."""
        is_bare = BARE.fullmatch(name) and (not LETTER.match(name) or name[1:2].isdigit())
        is_word = is_bare and name not in WORDS and name.lower() not in (b"true", b"false")
        return name if is_word and self.random.randrange(6) else b'"' + name + b'"'

    def text(self, tree: Formula) -> bytes:
        """A text of a formula, with white space where it is needed and elsewhere too."""
        text, before = b"", b""
        for token in self.tokens(tree):
            if self.joins(before, token) or self.random.randrange(3) == 0:
                text += self.random.choice([b" ", b" ", b" ", b"\t", b"\n", b"\r\n "])
            text, before = text + token, token
        return text

    @staticmethod
    def joins(before: bytes, token: bytes) -> bool:
        """Whether a token would be read together with the one before it, or is too near to it to be sure."""
        if before in (b"F", b"G", b"X"):
            return token[:1].isdigit() or token.lower().startswith(b"alse")
        return bool(BARE.fullmatch(before) and GOES_ON.match(token))
