"""Texts of automata: each is read, or refused by its refusal at its place, as a slow reader in Python says. Four are
cut short at every byte or have a byte replaced; others have one fault or two, or a limit's size, a million signs, a
hundred thousand segments; 600 are random streams. The canonical text reads back. Of 256 short texts the refusals were
found by hand.

The slow reader is checks/automata.py. Most of the texts that are read are written as the canonical text too. There is a
text for each fault of an automaton and one for each two of them, and texts at both sides of each limit. The canonical
texts of the random streams are read back from them.
"""
import itertools
import random
import re
from collections.abc import Iterator
from functools import partial

from automata import Refused, canonical_stream, read_one, read_stream, shown_items
from automaton_rows import row_checks
from program import Cases, Fault, fault_of, output_of, refusal_fault, shown
from texts import damaged

CANON, CHECK, SHOW = ([name, "--format", "hoa"] for name in ("canon", "check", "show"))

BUCHI = b'HOA: v1 States: 1 Start: 0 AP: 1 "a" acc-name: Buchi Acceptance: 1 Inf(0) --BODY-- State: 0 [0] 0 {0} --END--'
ABORTED = b"HOA: ( & 7 nonsense --ABORT-- /*a/*b*/c*/ HOA: v1 Acceptance: 0 t --BODY-- --END--"
ALIAS = (b'HOA: v1 States: 1 Start: 0 AP: 1 "a" Alias: @b 0|t Acceptance: 1 Inf(0) acc-name: Buchi --BODY-- State: 0 '
         b"[!@b&0] 0 {0 0} --END--")
EVERYTHING = (b'HOA:v1 tool:"t\\"x" "2" name:"n" States:3 Start:0&2 Start:1 AP:2 "a" "b" Alias:@x 0&!1 Alias:@y @x|1 '
              b'acc-name:none t 3 q Acceptance:2 Fin(0)&(Inf(!1)|f) properties:p q properties:r low:1 "s" t u _z: '
              b'--BODY-- State:[@y] 2 "two" {1 0 1} 0 1&2{0} State:0 [0]0[!(0&1)|@x]1{1} State:1 0 1 2 0 --END--')

# One text or more for each fault, alone: the parts of a header and a body around it have none.
FAULTY = [
    b"HOA: v2 Acceptance: 0 t --BODY-- --END--",
    b"HOA: v1 Acceptance: 0 t States: 1 States: 1 --BODY-- --END--",
    b"HOA: v1 Acceptance: 0 t AP: 0 AP: 0 --BODY-- --END--",
    b"HOA: v1 Acceptance: 0 t Acceptance: 0 t --BODY-- --END--",
    b"HOA: v1 Acceptance: 0 t acc-name: all acc-name: all --BODY-- --END--",
    b'HOA: v1 Acceptance: 0 t tool: "a" tool: "a" --BODY-- --END--',
    b'HOA: v1 Acceptance: 0 t name: "a" name: "a" --BODY-- --END--',
    b"HOA: v1 --BODY-- --END--",
    b"HOA: v1 Acceptance: 0 t Unknown: 1 --BODY-- --END--",
    b"HOA: v1 Acceptance: 0 t States: 1 Start: 1 --BODY-- --END--",
    b"HOA: v1 Acceptance: 0 t States: 1 --BODY-- State: 0 [t] 1 --END--",
    b"HOA: v1 Acceptance: 0 t States: 1 --BODY-- State: 1 --END--",
    b"HOA: v1 Acceptance: 0 t Start: 2147483647 --BODY-- --END--",
    b"HOA: v1 Acceptance: 1 t --BODY-- State: 0 {1} --END--",
    b"HOA: v1 Acceptance: 1 t --BODY-- State: 0 [t] 0 {1} --END--",
    b"HOA: v1 Acceptance: 1 Inf(1) --BODY-- --END--",
    b'HOA: v1 Acceptance: 0 t AP: 2 "a" --BODY-- --END--',
    b'HOA: v1 Acceptance: 0 t AP: 2 "a" "a" --BODY-- --END--',
    b'HOA: v1 Acceptance: 0 t AP: 1 "a" Alias: @a 1 --BODY-- --END--',
    b'HOA: v1 Acceptance: 0 t AP: 1 "a" --BODY-- State: [1] 0 --END--',
    b"HOA: v1 Acceptance: 0 t Alias: @a t Alias: @a t --BODY-- --END--",
    b"HOA: v1 Acceptance: 0 t Alias: @a @b Alias: @b t --BODY-- --END--",
    b"HOA: v1 Acceptance: 0 t --BODY-- State: [@a] 0 --END--",
    b"HOA: v1 Acceptance: 0 t --BODY-- State: 0 State: 0 --END--",
    b"HOA: v1 Acceptance: 0 t --BODY-- State: [t] 0 [t] 0 --END--",
    b"HOA: v1 Acceptance: 0 t --BODY-- State: 0 [t] 0 0 --END--",
    b'HOA: v1 Acceptance: 0 t AP: 1 "a" --BODY-- State: 0 0 0 0 --END--',
    b"HOA: v1 Acceptance: 1 Foo(0) --BODY-- --END--",
    b"HOA: v1 Acceptance: 0 " + b"(" * 256 + b"t" + b")" * 256 + b" --BODY-- --END--",
    b"HOA: v1 Acceptance: 0 t Alias: @a " + b"!" * 256 + b"t --BODY-- --END--",
    b"HOA: v1 Acceptance: 0 t --BODY-- State: [" + b"&".join([b"t"] * 257) + b"] 0 --END--",
    b"HOA: v1 Acceptance: 0 t Alias: @e0 t&t " + b" ".join(
        b"Alias: @e%d @e%d&@e%d" % (k + 1, k, k) for k in range(15)) + b" --BODY-- --END--",
]


# What a text is, the text, and the line of its refusal or none.
Text = tuple[str, bytes, str | None]
# An acceptance without sets in its formula.
PLAIN = re.compile(rb"Acceptance: [01] t ")


def fault_of_stream(text: bytes) -> Fault:
    """What differs from what is wanted of `canon`, or nothing."""
    try:
        wanted = canonical_stream(read_stream(text))
    except Refused as refused:
        return refusal_fault(CANON, text, refused)
    return fault_of(CANON, text, 0, wanted)


def header_and_body(text: bytes) -> tuple[bytes, bytes]:
    """The parts of a text of one automaton before and after `--BODY--`, without its ends."""
    header, body = text.removesuffix(b"--END--").split(b"--BODY--")
    return header, body


def joined_faults() -> Iterator[bytes]:
    """For each two of the faulty texts one with both faults: the least is wanted. Items stand after one another, and an
    acceptance that says nothing is left out where another stands."""
    for one, other in itertools.combinations(FAULTY[1:], 2):
        (header, body), (more, further) = header_and_body(one), header_and_body(other)
        if b"Acceptance:" in header and b"Acceptance:" in more:
            held = PLAIN.search(more)
            header, more = (PLAIN.sub(b"", header), more) if held is None else (header, PLAIN.sub(b"", more))
        yield header + more.removeprefix(b"HOA: v1 ") + b"--BODY--" + body + further + b"--END--"
    for one in FAULTY[1:]:
        yield one.replace(b"HOA: v1", b"HOA: v2")


def doubled(last: int) -> bytes:
    """Aliases each of which means the one before twice, used in one label."""
    aliases = [b"Alias: @a0 0&0"] + [b"Alias: @a%d @a%d&@a%d" % (k, k - 1, k - 1) for k in range(1, last + 1)]
    return b'HOA: v1 AP: 1 "a" Acceptance: 0 t ' + b" ".join(aliases) + b" --BODY-- State: [@a%d] 0 --END--" % last


def labelled(label: bytes, aliases: bytes = b"") -> bytes:
    return b'HOA: v1 AP: 1 "a" Acceptance: 0 t ' + aliases + b" --BODY-- State: [" + label + b"] 0 --END--"


def wrapped(count: int) -> bytes:
    return b"(" * count + b"0" + b")" * count


def named(count: int) -> bytes:
    return b"HOA: v1 Acceptance: 0 t AP: %d" % count + b"".join(b' "%d"' % k for k in range(count))


def deep_rows() -> Iterator[Text]:
    """Texts at both sides of the limits, with the line of the refusal or none."""
    yield "255 pairs", labelled(wrapped(255)), None
    yield "256 pairs", labelled(wrapped(256)), "32 TooDeep"
    yield "256 atoms", labelled(b"&".join([b"0"] * 256)), None
    yield "257 atoms", labelled(b"&".join([b"0"] * 257)), "32 TooDeep"
    yield "an alias of 254 pairs used", labelled(b"@b", b"Alias: @b " + wrapped(254)), None
    yield "an alias of 255 pairs not used", labelled(b"0", b"Alias: @b " + wrapped(255)), None
    yield "an alias of 255 pairs used", labelled(b"@b", b"Alias: @b " + wrapped(255)), "32 TooDeep"
    for last in (13, 14):
        yield f"aliases up to @a{last}", doubled(last), None
    for last in (15, 19):
        yield f"aliases up to @a{last}", doubled(last), "33 Expansion"
    deep = b"HOA: v1 Acceptance: 0 " + b"(" * 300 + b"t" + b")" * 300 + b" --BODY-- "
    yield "a deep acceptance cut short", deep, f"3 Syntax at {len(deep)}"
    yield "a deep acceptance under another version", deep.replace(b"v1", b"v2") + b"--END--", "20 Version"
    yield "a state too great", b"HOA: v1 States: 2147483648", "2 Number at 16"
    yield "the most states", b"HOA: v1 States: 2147483647 Acceptance: 0 t --BODY-- --END--", None
    yield "the most sets", b"HOA: v1 Acceptance: 2147483647 t --BODY-- State: 0 {2147483646} --END--", None
    yield "a set too great", b"HOA: v1 Acceptance: 2147483647 t --BODY-- State: 0 {2147483647} --END--", "25 SetRange"
    yield "the most propositions", named(1024) + b" --BODY-- --END--", None
    yield "a proposition too many", named(1025) + b" --BODY-- --END--", "26 Proposition"
    yield "one edge for the most propositions", named(1024) + b" --BODY-- State: 0 0 --END--", "30 ImplicitCount"
    full = doubled(12).replace(b" --END--", b"")
    yield "all labels together", full + b"".join(b" State: [@a12] %d" % k for k in range(1, 1024)) + b" --END--", None
    yield "all labels together and more", full + b"".join(
        b" State: [@a12] %d" % k for k in range(1, 1025)) + b" --END--", "33 Expansion"


def on_edge(label: bytes) -> bytes:
    """The same as `labelled`, but the label is an edge's."""
    return b'HOA: v1 AP: 1 "a" Acceptance: 0 t --BODY-- State: 0 [' + label + b"] 0 --END--"


def deep_alias_rows() -> Iterator[Text]:
    """An alias counts as its definition in parentheses, and its definition is judged where it is not used too."""
    header, deep = b"HOA: v1 Acceptance: 0 t Alias: @a ", "32 TooDeep"
    uses = (("not used", b""), ("used by a state", b"State: [@a] 0"), ("used by an edge", b"State: 0 [@a] 0"))
    for pairs, lines in ((254, (None, None, None)), (255, (None, deep, deep)), (256, (deep, deep, deep))):
        for (use, body), line in zip(uses, lines, strict=True):
            text = header + b"(" * pairs + b"t" + b")" * pairs + b" --BODY-- " + body + b" --END--"
            yield f"an alias of {pairs} pairs, {use}", text, line


def deep_formula(pairs: int) -> bytes:
    return b"HOA: v1 Acceptance: 1 " + b"(" * pairs + b"Inf(0)" + b")" * pairs + b" --BODY-- --END--"


def expansion_rows() -> Iterator[Text]:
    """The tree of `@aK` has two to the power of K and two nodes, less one: 65,535 for `@a14`. A label has at most
    65,536, and all labels together have 256 times as many; a state's label is counted once, whatever its edges."""
    header = doubled(14).split(b" --BODY-- ")[0] + b" --BODY-- "
    for label, body, line in (
            ("a label of the most nodes", b"State: [!@a14] 0", None),
            ("a node too many on a state", b"State: [!!@a14] 0", "33 Expansion"),
            ("a node too many on an edge", b"State: 0 [!!@a14] 0", "33 Expansion"),
            ("256 labels of the most nodes", b"State: 0" + b" [!@a14] 0" * 256, None),
            ("256 such labels and one more", b"State: 0" + b" [!@a14] 0" * 256 + b" [t] 0", "33 Expansion"),
            ("300 labels of the most nodes", b"State: 0" + b" [!@a14] 0" * 300, "33 Expansion"),
            ("a state's label of the most nodes", b"State: [!@a14] 0" + b" 0" * 1000, None)):
        yield label, header + body + b" --END--", line


def many_states(last: bytes) -> bytes:
    """20,000 states, each with an edge to itself, and what stands after them."""
    body = b"".join(b"State: %d %d " % (number, number) for number in range(20_000))
    return b"HOA: v1 Acceptance: 0 t --BODY-- " + body + last


def number_rows() -> Iterator[Text]:
    """Nothing is sized by a number, and powers of two beyond what a machine's number holds are told apart from all
    counts of edges."""
    most = b"HOA: v1 States: 2147483647 Acceptance: 0 t --BODY-- "
    yield "the most states and the last", most + b"State: 2147483646 --END--", None
    yield "the most states and one more", most + b"State: 2147483647 --END--", "24 StateRange"
    yield "the last proposition", named(1024) + b" --BODY-- State: [1023] 0 --END--", None
    yield "no such proposition", named(1024) + b" --BODY-- State: [1024] 0 --END--", "26 Proposition"
    yield "one edge for no proposition", named(0) + b" --BODY-- State: 0 0 --END--", None
    for count in (1, 31, 32, 63, 64):
        yield f"one edge for {count} propositions", named(count) + b" --BODY-- State: 0 0 --END--", "30 ImplicitCount"
    yield "20,000 states", many_states(b"--END--"), None
    yield "20,000 states, and one of them twice", many_states(b"State: 0 --END--"), "28 StateTwice"


def limit_rows() -> Iterator[Text]:
    yield from deep_rows()
    for pairs, line in ((0, None), (255, None), (256, "32 TooDeep"), (300, "32 TooDeep")):
        yield f"{pairs} pairs on a state", labelled(wrapped(pairs)), line
        yield f"{pairs} pairs on an edge", on_edge(wrapped(pairs)), line
    yield "an acceptance of 255 pairs", deep_formula(255), None
    yield "an acceptance of 256 pairs", deep_formula(256), "32 TooDeep"
    yield "an atom of neither kind before a fault", b"HOA: v1 Acceptance: 1 Foo(0) --BODY-- ( --END--", "3 Syntax at 38"
    yield from deep_alias_rows()
    yield from expansion_rows()
    yield from number_rows()


# What each fault adds to the items and to the body, apart from the version and the acceptance.
LADDER = {
    20: (b"", b""), 21: (b'name: "a" name: "a" ', b""), 22: (b"", b""), 23: (b"Foo: 1 ", b""),
    24: (b"Start: 99 ", b""), 25: (b"", b"State: 5 {9} "), 26: (b"", b"State: [9] 6 "),
    27: (b"", b"State: [@nowhere] 7 "), 28: (b"", b"State: 8 State: 8 "), 29: (b"", b"State: [t] 9 [t] 0 "),
    30: (b"", b"State: 10 0 "), 31: (b"", b""), 32: (b"", b"State: [" + b"(" * 256 + b"0" + b")" * 256 + b"] 11 "),
    33: (b" ".join([b"Alias: @e0 0", *(b"Alias: @e%d @e%d&@e%d" % (k + 1, k, k) for k in range(16))]) + b" ", b""),
}
LADDER_NAMES = ("Version", "RepeatedHeader", "MissingAcceptance", "UnknownHeader", "StateRange", "SetRange",
                "Proposition", "Alias", "StateTwice", "MixedLabels", "ImplicitCount", "AcceptanceAtom", "TooDeep",
                "Expansion")


def with_faults(faults: set[int]) -> bytes:
    """A text with these faults and no others."""
    acceptance = b"" if 22 in faults else b"Acceptance: 1 %s(0) " % (b"Foo" if 31 in faults else b"Inf")
    items = b"".join(LADDER[fault][0] for fault in sorted(faults))
    body = b"".join(LADDER[fault][1] for fault in sorted(faults))
    version = b"v2" if 20 in faults else b"v1"
    return b'HOA: %s States: 20 AP: 1 "p" ' % version + acceptance + items + b"--BODY-- " + body + b"--END--"


def ladder_rows() -> Iterator[Text]:
    """Each fault, and each two: the least is answered. Without an acceptance there is no atom."""
    yield "no fault", with_faults(set()), None
    for one, other in itertools.combinations_with_replacement(LADDER, 2):
        if (one, other) != (22, 31):
            yield f"the faults {one} and {other}", with_faults({one, other}), f"{one} {LADDER_NAMES[one - 20]}"


def longest_checks() -> Cases:
    """The longest text, and a byte more, as a stream and as that of one automaton."""
    most = b" " * 16_777_216
    yield "the longest stream", partial(fault_of, CHECK, most, 0, b"accepted\n")
    yield "the longest text of one automaton", partial(refusal_fault, ["empty"], most, "3 Syntax at 16777216")
    for words in (CHECK, ["empty"]):
        yield f"a byte more for {words[0]}", partial(refusal_fault, words, most + b" ", "4 TooLong")


def cut_fault(text: bytes) -> Fault:
    """Where a text that is cut short is not refused, as that of one automaton, as a slow reader says; or nothing."""
    try:
        read_one(text)
    except Refused as refused:
        return refusal_fault(["empty"], text, refused)
    return "the slow reader reads it"


def doubled_fault(last: int, length: int) -> Fault:
    """Where aliases that double are not written out to a text of this length that is canonical; or nothing."""
    written = output_of(CANON, doubled(last))
    if len(written) != length:
        return f"{len(written)} bytes"
    return fault_of(CANON, written, 0, written)


def whole_checks() -> Cases:
    for length in range(len(BUCHI)):
        yield f"{length} bytes of one automaton", partial(cut_fault, BUCHI[:length])
    # The 32,768 propositions with an operator between each two, and parentheses round each right part but the least.
    for last, length in ((2, 94), (14, 98_374)):
        yield f"canon of aliases up to @a{last}", partial(doubled_fault, last, length)
    yield from longest_checks()


def line_fault(text: bytes, line: str | None) -> Fault:
    """Where `check` neither accepts a text nor refuses it by the given line; or nothing."""
    return fault_of(CHECK, text, 0, b"accepted\n") if line is None else refusal_fault(CHECK, text, line)


def limit_checks() -> Cases:
    for label, text, line in itertools.chain(limit_rows(), ladder_rows()):
        yield label, partial(line_fault, text, line)


def huge_texts() -> Iterator[Text]:
    """A million of a sign, read in time that is linear, and without the machine's stack."""
    million = 1_000_000
    front, back = b"HOA: v1 Acceptance: 0 t --BODY-- State: [", b" ] --END--"
    for sign in (b"(", b"!"):
        text = front + sign * million + back
        yield f"a million {sign.decode()}", text, f"3 Syntax at {text.rindex(b']')}"
    yield "a million &", front + b"t" + b"&" * million + back, f"3 Syntax at {len(front) + 2}"
    whole = b"] 0 --END--"
    edge = b"HOA: v1 Acceptance: 0 t --BODY-- State: 0 ["
    yield "a million ( on an edge", edge + b"(" * million + back, "3 Syntax at 1000044"
    yield "a million pairs", front + b"(" * million + b"t" + b")" * million + whole, "32 TooDeep"
    yield "a million negations", front + b"!" * million + b"t" + whole, "32 TooDeep"
    yield "a million atoms", front + b"|".join([b"t"] * million) + whole, "32 TooDeep"
    yield "a million comments opened", b"HOA: " + b"/*" * million, "1 Lex at 5"
    yield "a string without end", b'HOA: "' + b"a" * million, "1 Lex at 5"
    for sign in (b"[", b"{"):
        place = len(front) - (sign == b"{")
        yield f"a million {sign.decode()}", front[:-1] + sign * million + back, f"3 Syntax at {place}"
    aborted = b"HOA: " + b"( [ { & --BODY-- " * (million // 16) + b"--ABORT--"
    yield "a large aborted segment", aborted, None


def huge_formulas() -> Iterator[Text]:
    """A million signs of an acceptance formula, likewise. They take more memory than labels do."""
    million = 1_000_000
    header, end = b"HOA: v1 Acceptance: 1 ", b" --BODY-- --END--"
    for label, formula in (("(", b"(" * million), ("t&", b"t&" * million), ("t|", b"t|" * million)):
        text = header + formula + end
        yield f"a million {label} in a formula", text, f"3 Syntax at {text.rindex(b'--BODY--')}"
    yield "a million ! in a formula", header + b"!" * million + end, f"3 Syntax at {len(header)}"
    yield "a million pairs in a formula", header + b"(" * million + b"t" + b")" * million + end, "32 TooDeep"
    for sign in (b"&", b"|"):
        formula = b"t" + (sign + b"t") * million
        yield f"a million t{sign.decode()} in a whole formula", header + formula + end, "32 TooDeep"


def huge_checks() -> Cases:
    for label, text, line in itertools.chain(huge_texts(), huge_formulas()):
        yield label, partial(line_fault, text, line)
    count = 100_000
    streamed = (b"HOA: x --ABORT-- " + BUCHI.replace(b"Buchi", b"B") + b"\n") * (count // 2)
    text = streamed[:16_777_216 // len(streamed) * len(streamed) or len(streamed)]
    items = read_stream(b"HOA: x --ABORT-- " + BUCHI)
    said = shown_items(items * 1000)
    yield "show of 2,000 items", partial(fault_of, SHOW, (b"HOA: x --ABORT-- " + BUCHI) * 1000, 0, said)
    yield f"check of {count} items", partial(fault_of, CHECK, text, 0, b"accepted\n")


class Maker:
    """Makes texts of automata at random: most have no fault, some have a few."""

    def __init__(self, seed: int) -> None:
        self.random = random.Random(seed)

    def some(self, least: int, most: int) -> int:
        return self.random.randint(least, most)

    def states(self, count: int) -> bytes:
        return b"&".join(b"%d" % self.some(0, count - 1) for _ in range(1 if self.some(0, 5) else 2))

    def label(self, propositions: int, depth: int) -> bytes:
        choice = self.some(0, 6 if depth else 2)
        if choice <= 1 and propositions:
            return b"%d" % self.some(0, propositions - 1)
        if choice <= 2:
            return self.random.choice([b"t", b"f", b"@x", b"@y"])
        one, other = self.label(propositions, depth - 1), self.label(propositions, depth - 1)
        return [b"!(" + one + b")", one + b"&" + other, one + b"|" + other, b"(" + one + b")&" + other][choice - 3]

    def acceptance(self, sets: int, depth: int) -> bytes:
        if depth and self.some(0, 2):
            first, operator = self.acceptance(sets, depth - 1), self.random.choice([b"&", b" | "])
            joined = first + operator + self.acceptance(sets, depth - 1)
            return b"(" + joined + b")" if self.some(0, 1) else joined
        if sets == 0:
            return self.random.choice([b"t", b"f"])
        atom = self.random.choice([b"Fin", b"Inf"])
        return b"%s(%s%d)" % (atom, b"!" if self.some(0, 3) == 0 else b"", self.some(0, sets - 1))

    def marks(self, sets: int) -> bytes:
        if not sets or self.some(0, 1):
            return b""
        return b" {" + b" ".join(b"%d" % self.some(0, sets - 1) for _ in range(self.some(0, 3))) + b"}"

    def state(self, number: int, count: int, propositions: int, sets: int) -> bytes:
        label = b"[" + self.label(propositions, 2) + b"] " if self.some(0, 2) == 0 else b""
        name = b' "s%d"' % number if self.some(0, 3) == 0 else b""
        own = not label and self.some(0, 2)
        edges = [(b" [" + self.label(propositions, 3) + b"] " if own else b" ") + self.states(count) + self.marks(sets)
                 for _ in range(self.some(0, 3) if own or label else self.random.choice([0, 2 ** propositions]))]
        return b"State: " + label + b"%d" % number + name + self.marks(sets) + b"".join(edges) + b"\n"

    def automaton(self) -> bytes:
        count, propositions, sets = self.some(1, 5), self.some(0, 3), self.some(0, 3)
        items = [b"AP: %d" % propositions + b"".join(b' "p%d"' % k for k in range(propositions)),
                 b"Acceptance: %d " % sets + self.acceptance(sets, 2)]
        items += [b"States: %d" % count] * (self.some(0, 3) > 0)
        items += [b"Start: " + self.states(count) for _ in range(self.some(0, 2))]
        others = [b'tool: "x"', b'name: "n \\" /*"', b"properties: a b", b"properties:", b"more: 1 t",
                  b"acc-name: Buchi", b"acc-name: parity max even 2"]
        items += self.random.sample(others, self.some(0, 3))
        self.random.shuffle(items)
        items = [b"Alias: @x " + self.label(propositions, 2).replace(b"@x", b"t").replace(b"@y", b"f"), *items,
                 b"Alias: @y " + self.label(propositions, 1).replace(b"@y", b"@x")]
        numbers = self.random.sample(range(count), self.some(0, count))
        body = b"".join(self.state(number, count, propositions, sets) for number in numbers)
        return b"HOA: v1\n" + b"\n".join(items) + b"\n--BODY--\n" + body + b"--END--\n"

    def stream(self) -> bytes:
        text = b"".join(b"HOA: v2 { --ABORT--" if self.some(0, 5) == 0 else self.automaton()
                        for _ in range(self.some(1, 2)))
        if self.some(0, 2):
            return text
        place = self.some(0, len(text) - 1)
        return text[:place] + self.random.choice([b"", b"9", b"0", b" ", b"(", b"&", b"t"]) + text[place + 1:]


def random_checks() -> Cases:
    maker = Maker(2015)
    for number in range(600):
        text = maker.stream()
        yield f"the random stream {number}, {shown(text)}", partial(fault_of_stream, text)
        try:
            items = read_stream(text)
        except Refused:
            continue
        yield f"show of the random stream {number}", partial(fault_of, SHOW, text, 0, shown_items(items))
        again = canonical_stream(items)
        yield f"canon of the canonical text {number}", partial(fault_of, CANON, again, 0, again)


def automaton_text_checks() -> Cases:
    for text in (BUCHI, ABORTED, ALIAS, EVERYTHING):
        for one in damaged(text):
            yield f"the text {shown(one)}", partial(fault_of_stream, one)
    for text in itertools.chain(FAULTY, joined_faults()):
        yield f"the text {shown(text)}", partial(fault_of_stream, text)
    yield from row_checks()
    yield from limit_checks()
    yield from whole_checks()
    yield from huge_checks()
    yield from random_checks()
