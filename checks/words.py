"""Reads the line `word` of `empty --word` as Spot writes words: letters with `;` between them, those of the cycle in
`cycle{..}`. A letter is a formula over names with `!`, `&`, `|`, parentheses, `0` and `1`. A name stands in quotes, or
bare if it is an identifier that Spot reads as a name. Nothing is shared with the program, nor with what writes such a
line in `products.py`.
"""
import re
from collections.abc import Callable, Iterator
from dataclasses import dataclass

from products import Letter, Word

# What a letter says of the names that hold.
Formula = Callable[[Letter], bool]
TOKEN = re.compile(rb'\s*(?:(?P<cycle>cycle\{)|(?P<sign>[;{}!&|()])|(?P<constant>[01])'
                   rb'|"(?P<quoted>(?:[^"\\]|\\.)*)"|(?P<name>[A-Za-z_][A-Za-z0-9_]*))', re.DOTALL)

# Identifiers that Spot reads as something else, and those that are quoted to be safe.
NO_NAME = re.compile(rb"[FGX].*|[MRUVWtf]|(?i:true|false|xor|first_match|cycle)", re.DOTALL)


class NoWord(Exception):
    """Why a line is no word."""


@dataclass(frozen=True)
class Token:
    kind: str
    text: bytes


def tokens_of(text: bytes) -> Iterator[Token]:
    """The tokens of a text, and at last one of the kind `end`."""
    at = 0
    while at < len(text):
        found = TOKEN.match(text, at)
        if found is None or found.lastgroup is None:
            raise NoWord(f"no token at {at}")
        yield Token(found.lastgroup, found.group(found.lastgroup))
        at = found.end()
    yield Token("end", b"")


class Reader:
    """Reads the tokens of a word, one after another."""

    def __init__(self, text: bytes) -> None:
        self.tokens = list(tokens_of(text))

    def passes(self, text: bytes) -> bool:
        """Whether the next token is this sign, which is then passed."""
        if self.tokens[0].kind in ("cycle", "sign") and self.tokens[0].text == text:
            del self.tokens[0]
            return True
        return False

    def needs(self, text: bytes) -> None:
        if not self.passes(text):
            raise NoWord(f"{self.tokens[0].text!r} stands where {text!r} is wanted")

    def atom(self) -> Formula:
        if self.passes(b"!"):
            negated = self.atom()
            return lambda letter: not negated(letter)
        if self.passes(b"("):
            inner = self.formula()
            self.needs(b")")
            return inner
        token = self.tokens.pop(0)
        if token.kind == "constant":
            return lambda _: token.text == b"1"
        if token.kind == "name" and NO_NAME.fullmatch(token.text):
            raise NoWord(f"{token.text!r} stands bare")
        if token.kind in ("quoted", "name"):
            return lambda letter: token.text in letter
        raise NoWord(f"{token.text!r} begins no formula")

    def conjunction(self) -> Formula:
        parts = [self.atom()]
        while self.passes(b"&"):
            parts.append(self.atom())
        return lambda letter: all(part(letter) for part in parts)

    def formula(self) -> Formula:
        parts = [self.conjunction()]
        while self.passes(b"|"):
            parts.append(self.conjunction())
        return lambda letter: any(part(letter) for part in parts)

    def word(self) -> tuple[list[Formula], list[Formula]]:
        """The letters of the stem, and those of the cycle."""
        stem: list[Formula] = []
        while not self.passes(b"cycle{"):
            stem.append(self.formula())
            self.needs(b";")
        cycle = [self.formula()]
        while self.passes(b";"):
            cycle.append(self.formula())
        self.needs(b"}")
        if self.tokens[0].kind != "end":
            raise NoWord(f"{self.tokens[0].text!r} follows the word")
        return stem, cycle


def read_word(line: bytes) -> tuple[list[Formula], list[Formula]]:
    """The letters of a line `word`; NoWord if it is none."""
    if not line.startswith(b"word ") or not line.endswith(b"\n"):
        raise NoWord(f"no line of a word: {line!r}")
    return Reader(line[5:-1]).word()


def admitted(formulas: list[Formula], letters: list[Letter], choose: Callable[[list[Letter]], Letter]) -> Word:
    """One of the words that formulas admit: for each a letter at which it is true, as `choose` says; NoWord if one is
    never true."""
    word: Word = []
    for formula in formulas:
        fitting = [letter for letter in letters if formula(letter)]
        if not fitting:
            raise NoWord("a letter is never true")
        word.append(choose(fitting))
    return word
