"""Answers of `omega_calls` about texts that are known by hand: tokens and their places, strings and lists, numbers, and
texts of lassos.
"""
from known_calls import Known, given_by, known_cases, refused, said
from memory import Shimmed
from program import Cases, Fault

LETTERS = b"abcdefghijklmnopqrstuvwxyz"
# Texts as strings, and whether the strings are equal.
STRINGS = [
    *((LETTERS[:count], LETTERS[:count], b"+") for count in range(27)),
    (b"fourteen bytes", b"fourteen bytes.", b"-"),
    (b"fourteen bytes", b"Fourteen bytes", b"-"),
    (b"fourteen bytes.", b"fourteen bytes,", b"-"),
]

# Lists, whether they are equal, and how the first is written.
LISTS = [
    (b"1 2", b"1 2", b"+", b"2 1 2 ;1 2 ;"), (b"1 2", b"1 3", b"-", b"2 1 2 ;1 2 ;"),
    (b"1 2", b"", b"-", b"2 1 2 ;1 2 ;"), (b"", b"", b"+", b"0 ;;"),
]

NUMBERS = [0, *(10 ** digits for digits in range(39)), 2 ** 128 - 1]

GAME = b'parity 9; 9 3 1 4;\t4 2 0 9,4 "a";\r\n'
# The tokens of `GAME`: kind, beginning, end, and value.
GAME_TOKENS = [
    (b"p", 0, 6, 0), (b"n", 7, 8, 9), (b";", 8, 9, 0), (b"n", 10, 11, 9), (b"n", 12, 13, 3), (b"n", 14, 15, 1),
    (b"n", 16, 17, 4), (b";", 17, 18, 0), (b"n", 19, 20, 4), (b"n", 21, 22, 2), (b"n", 23, 24, 0), (b"n", 25, 26, 9),
    (b",", 26, 27, 0), (b"n", 27, 28, 4), (b'"', 29, 32, 0), (b";", 32, 33, 0),
]

# Texts of the game format, and how many tokens they have, or the line of the refusal.
PG_TEXTS: list[tuple[bytes, int | bytes]] = [
    (b"", 0), (b" \t\n\r", 0), (b"12 34", 2), (b"1,2;3", 5), (b"paritysol 0;", 3), (b"0parity", 2),
    (b"2147483647 0", 2), (b'""" ~!"', 2), (b'"a;00 $b"', 1),
    (b"00 0 0 0;", b"2 Number at 0"), (b"0 0 0 1; $", b"1 Lex at 9"), (b"2147483648 0 0 0;", b"2 Number at 0"),
    (b"21474836470", b"2 Number at 0"), (b"0 01", b"2 Number at 2"),
    (b"1 99999999999999999999999999999999999999999", b"2 Number at 2"), (b"parit", b"1 Lex at 0"),
    (b"; parity9 00", b"1 Lex at 2"), (b"parity-sol", b"1 Lex at 0"), (b"start 0;", b"1 Lex at 0"),
    (b"Parity", b"1 Lex at 0"), (b"_", b"1 Lex at 0"), (b"-1", b"1 Lex at 0"), (b"0\x0C1", b"1 Lex at 1"),
    (b'0 "', b"1 Lex at 2"), (b'0 "a;', b"1 Lex at 2"), (b'"\x1F"', b"1 Lex at 0"), (b'"\x7F"', b"1 Lex at 0"),
    (b'"a\nb"', b"1 Lex at 0"), (b'"" "', b"1 Lex at 3"), (b"// 0", b"1 Lex at 0"), (b"$ 00", b"1 Lex at 0"),
    (b"00 $", b"2 Number at 0"),
    *((b'"%s"' % (b"a" * length), 1) for length in range(300)),
    *((b'"%s' % (b"a" * length), b"1 Lex at 0") for length in range(300)),
]

# Places of texts, and the value, the beginning and the end of the number there. At a place without one, the text has no
# number, or what ends it is not there yet.
NUMBERS_AT = [
    (b"7;", 0, (7, 0, 1)), (b" 0,", 0, (0, 1, 2)), (b"\n9 ", 0, (9, 1, 2)), (b"1,2;", 2, (2, 2, 3)),
    (b"12 3 4 5 6 7;", 0, (12, 0, 2)), (b" 2147483647;  ", 0, (2_147_483_647, 1, 11)), (b"2147483648;   ", 0, None),
    (b"100000000000; ", 0, None), (b"00;           ", 0, None), (b";7            ", 0, None),
    (b"x7            ", 0, None), (b"7", 0, None), (b"", 0, None),
]

Part = tuple[bytes, int, int]
# A text of the Hanoi format, the kinds and places of its tokens, and the fault after them.
HOA_TEXTS: list[tuple[bytes, list[Part], bytes]] = [
    (b"", [], b""),
    (b" \t\r\n", [], b""),
    (b"t", [(b"t", 0, 1)], b""),
    (b"f", [(b"f", 0, 1)], b""),
    (b"true", [(b"i", 0, 4)], b""),
    (b"T", [(b"i", 0, 1)], b""),
    (b"t:", [(b"h", 0, 2)], b""),
    (b"a--END--", [(b"i", 0, 8)], b""),
    (b"0--END--", [(b"n", 0, 1), (b"E", 1, 8)], b""),
    (b"9a", [(b"n", 0, 1), (b"i", 1, 2)], b""),
    (b"--ENDX", [], b"1 Lex at 0"),
    (b"--BODY----ABORT--", [(b"B", 0, 8), (b"A", 8, 17)], b""),
    (b"t --EN", [], b"1 Lex at 2"),
    (b"--BODYX-", [], b"1 Lex at 0"),
    (b"-", [], b"1 Lex at 0"),
    (b"HOA :", [], b"1 Lex at 4"),
    (b"HOA:", [(b"h", 0, 4)], b""),
    (b"acc-name:all", [(b"h", 0, 9), (b"i", 9, 12)], b""),
    (b"@", [], b"1 Lex at 0"),
    (b"@ a", [], b"1 Lex at 0"),
    (b"@a@-9", [(b"@", 0, 2), (b"@", 2, 5)], b""),
    (b"/", [], b"1 Lex at 0"),
    (b"t//", [], b"1 Lex at 1"),
    (b"/*/", [], b"1 Lex at 0"),
    (b"/*/**/*/", [], b""),
    (b"/***/f/**/t", [(b"f", 5, 6), (b"t", 10, 11)], b""),
    (b" /* /* */ t", [], b"1 Lex at 1"),
    (b"t /* */ */", [], b"1 Lex at 8"),
    (b'"/*"t', [(b'"', 0, 4), (b"t", 4, 5)], b""),
    (b'/*"*/t', [(b"t", 5, 6)], b""),
    (b'"a\\"b\\\\"1', [(b'"', 0, 8), (b"n", 8, 9)], b""),
    (b'"\x00\xFF\n"', [(b'"', 0, 5)], b""),
    (b'f "a\\"', [], b"1 Lex at 2"),
    (b'"', [], b"1 Lex at 0"),
    (b"007", [], b"2 Number at 0"),
    (b"0 7", [(b"n", 0, 1), (b"n", 2, 3)], b""),
    (b"2147483647", [(b"n", 0, 10)], b""),
    (b"t 2147483648", [], b"2 Number at 2"),
    (b"99999999999999999999999999", [], b"2 Number at 0"),
    (b"!&|()", [(b"!", 0, 1), (b"&", 1, 2), (b"|", 2, 3), (b"(", 3, 4), (b")", 4, 5)], b""),
    (b"[]{}", [(b"[", 0, 1), (b"]", 1, 2), (b"{", 2, 3), (b"}", 3, 4)], b""),
    (b"x$ 00", [], b"1 Lex at 1"),
    (b't "ab', [], b"1 Lex at 2"),
    (b"@_:", [], b"1 Lex at 2"),
    (b"21474836470", [], b"2 Number at 0"),
    (b"9 1-", [], b"1 Lex at 3"),
    (b"t\x00", [], b"1 Lex at 1"),
    (b"z\x7F", [], b"1 Lex at 1"),
    (b"_\x80", [], b"1 Lex at 1"),
    (b"0\xFF", [], b"1 Lex at 1"),
    (b"12345678 123456789]1234567890}",
     [(b"n", 0, 8), (b"n", 9, 18), (b"]", 18, 19), (b"n", 19, 29), (b"}", 29, 30)], b""),
    (b"10 02147483647", [], b"2 Number at 3"),
    (b"@a&@b-1|@c:", [], b"1 Lex at 10"),
]

# Texts of lassos and how they are written.
LASSOS = [
    (b"stem\ncycle 0\n", b"stem\ncycle 0\n"),
    (b"stem 3 1\ncycle 4 1 5\n", b"stem 3 1\ncycle 4 1 5\n"),
    (b"stem cycle 7", b"stem\ncycle 7\n"),
    (b" \r\n\tstem\n8\n9 cycle\t2147483647 0 ", b"stem 8 9\ncycle 2147483647 0\n"),
    (b"stem 0cycle 1", b"stem 0\ncycle 1\n"),
]

# Texts that end too early, tokens of a kind that is not allowed there, digits that are no number, bytes that begin no
# token, and of two faults that of tokens.
BROKEN_LASSOS = [
    (b"", b"3 Syntax at 0"), (b"  ", b"3 Syntax at 2"), (b"stem", b"3 Syntax at 4"), (b"stem 1", b"3 Syntax at 6"),
    (b"stem cycle", b"3 Syntax at 10"), (b"stem cycle ", b"3 Syntax at 11"), (b"cycle 0", b"3 Syntax at 0"),
    (b"0 stem cycle 0", b"3 Syntax at 0"), (b"stem stem cycle 0", b"3 Syntax at 5"),
    (b"stem cycle 0 cycle 1", b"3 Syntax at 13"), (b"stem cycle 0 stem", b"3 Syntax at 13"),
    (b"stem 00 cycle 0", b"2 Number at 5"), (b"stem 2147483648 cycle 0", b"2 Number at 5"),
    (b"stem0cycle1", b"1 Lex at 0"), (b"Stem cycle 0", b"1 Lex at 0"), (b"stem, cycle 0", b"1 Lex at 4"),
    (b'stem "a" cycle 0', b"1 Lex at 5"), (b"paritysol 0;", b"1 Lex at 0"), (b"empty", b"1 Lex at 0"),
    (b"cycle stem 00 $", b"2 Number at 11"),
]

# Texts without a word and with one, with what looks like a lasso, a number or no token after it, and with two.
WORDS = [
    (b"stem 3\ncycle 4\n", b"stem 3\ncycle 4\n"),
    (b"stem 3\ncycle 4\nword 1; cycle{1}\n", b"stem 3\ncycle 4\n"),
    (b"stem 3\ncycle 4\nword ", b"stem 3\ncycle 4\n"),
    (b"stem 3\ncycle 4\nword 5\n6 cycle 7\n", b"stem 3\ncycle 4\n"),
    (b"stem 3\ncycle 4\nword 00 $\n", b"stem 3\ncycle 4\n"),
    (b"stem\ncycle 4 \r\n\nword \nword \n", b"stem\ncycle 4\n"),
    (b"stem 3\ncycle 4", b"stem 3\ncycle 4\n"),
]

# No text; a word alone, in the first line, within a line, without a space after it, and in another word; and texts that
# have a fault before the word.
BROKEN_WORDS = [
    (b"", b"3 Syntax at 0"), (b"\nword ", b"3 Syntax at 1"), (b"word 1; cycle{1}\n", b"1 Lex at 0"),
    (b"word \nstem\ncycle 0\n", b"1 Lex at 0"), (b"stem cycle 0 word 1", b"1 Lex at 13"),
    (b"stem cycle 0\n word 1", b"1 Lex at 14"), (b"stem cycle 0\nword\n", b"1 Lex at 13"),
    (b"stem cycle 0\nwords 1", b"1 Lex at 13"), (b"stem 0\nword 1\ncycle 0\n", b"3 Syntax at 7"),
    (b"stem 00\ncycle\nword $", b"2 Number at 5"),
]


def token(text: bytes, part: Part) -> bytes:
    """A token as the calls write it, with the value of a number."""
    kind, start, end = part
    return b"%s%d %d %d " % (kind, start, end, int(text[start:end]) if kind == b"n" else 0)


KNOWN: list[Known] = [
    *(said("ByteString", one, other, b"%s %d %s%s" % (one, len(one), equal, b"-" if one else b"+"))
      for one, other, equal in STRINGS),
    *(said("Seq", one, other, equal + written) for one, other, equal, written in LISTS),
    *(said("write_number", b"%d" % number, b"", b"<%d" % number) for number in NUMBERS),
    said("pg_tokens", GAME, b"", b"".join(b"%s%d %d %d " % part for part in GAME_TOKENS)),
    *(refused("pg_tokens", text, b"", wanted) for text, wanted in PG_TEXTS if isinstance(wanted, bytes)),
    said("next_pg_token", b" 7;x", b"0", b"n1 2 7 "),
    said("next_pg_token", b" 7;x", b"2", b";2 3 0 "),
    said("next_pg_token", b" 7;x", b"4", b""),
    refused("next_pg_token", b" 7;x", b"3", b"1 Lex at 3"),
    *(said("next_pg_number", text, b"%d" % at, b"n%d %d %d " % (found[1], found[2], found[0]) if found else b"")
      for text, at, found in NUMBERS_AT),
    *(refused("hoa_tokens", text, b"", fault) if fault else
      said("hoa_tokens", text, b"", b"".join(token(text, part) for part in parts))
      for text, parts, fault in HOA_TEXTS),
    *(said("read_lasso", text, b"", written) for text, written in LASSOS),
    *(refused("read_lasso", text, b"", fault) for text, fault in BROKEN_LASSOS),
    *(said("read_lasso_lines", text, b"", written) for text, written in WORDS),
    *(refused("read_lasso_lines", text, b"", fault) for text, fault in BROKEN_WORDS),
]


def count_fault(shimmed: Shimmed, text: bytes, count: int) -> Fault:
    """What is wrong with the number of a text's tokens, each of which has three numbers."""
    came = given_by(shimmed, "pg_tokens", text, b"")
    return None if came[0] == 0 and came[1].count(b" ") == 3 * count else f"status {came[0]}, {came[1]!r}"


def walk_fault(shimmed: Shimmed, text: bytes, parts: list[Part]) -> Fault:
    """A cursor over the bytes of a text and one over its tokens come to the same tokens, and to the end."""
    came = given_by(shimmed, "texts", text, b"run")
    walk = b"".join(b"%d +%s" % (part[1], token(text, part)) for part in parts) + b"%d +" % len(text)
    both = came[0] == 0 and came[1].endswith(walk) and came[1].count(walk) > 1
    return None if both else f"status {came[0]}, {came[1]!r}"


def text_call_cases(shimmed: Shimmed) -> Cases:
    yield from known_cases(shimmed, KNOWN)
    for text, wanted in PG_TEXTS:
        if isinstance(wanted, int):
            yield f"tokens of {text!r}", count_fault(shimmed, text, wanted)
    for text, parts, fault in HOA_TEXTS:
        if not fault:
            yield f"cursors over {text!r}", walk_fault(shimmed, text, parts)
