"""Texts of automata and their refusals, found by hand. The family *automata* runs them."""
from collections.abc import Iterator
from functools import partial

from program import Cases, Fault, fault_of, refusal_fault, run_of, shown

# A text as that of one automaton, and as that of a stream.
DRAW, CHECK = ["draw", "--format", "hoa"], ["check", "--format", "hoa"]
ABORTED = "HOA: --ABORT-- "
# A text, and the line of its refusal or none.
Text = tuple[str, str | None]

# Texts up to the first token with which no automaton goes on, and from there on, by the rows of the grammar.
BROKEN = [
    # automaton
    ("", ""), ("", "x"), ("", "v1 --BODY-- --END--"), ("", "States: 1 --BODY-- --END--"), ("", "--BODY-- --END--"),
    ("HOA:", ""), ("HOA: ", "1 --BODY-- --END--"), ("HOA: ", '"v1" --BODY-- --END--'),
    ("HOA: ", "t --BODY-- --END--"), ("HOA: v1", ""), ("HOA: v1 ", "v1 --BODY-- --END--"), ("HOA: v1 ", "--END--"),
    ("HOA: v1 ", "--ABORT--"), ("HOA: v1 --BODY--", ""), ("HOA: v1 --BODY-- ", "--BODY-- --END--"),
    ("HOA: v1 --BODY-- ", "--ABORT--"), ("HOA: v1 --BODY-- ", "0 --END--"), ("HOA: v1 --BODY-- State: 0", ""),
    # header items
    ("HOA: v1 ", "HOA: v1 --BODY-- --END--"), ("HOA: v1 ", "State: 0 --BODY-- --END--"),
    ("HOA: v1 States: ", "--BODY-- --END--"), ("HOA: v1 States: ", "x --BODY-- --END--"),
    ("HOA: v1 States: 1 ", "1 --BODY-- --END--"), ("HOA: v1 Start: ", "--BODY-- --END--"),
    ("HOA: v1 Start: 0 ", "1 --BODY-- --END--"), ("HOA: v1 AP: ", '"a" --BODY-- --END--'),
    ("HOA: v1 AP: 1 ", "1 --BODY-- --END--"), ("HOA: v1 AP: 1 ", "a --BODY-- --END--"),
    ("HOA: v1 Alias: ", "a 0 --BODY-- --END--"), ("HOA: v1 Alias: @a ", "--BODY-- --END--"),
    ("HOA: v1 Alias: @a (0 ", "--BODY-- --END--"), ("HOA: v1 Alias: @a 0 ", "1 --BODY-- --END--"),
    ("HOA: v1 Acceptance: ", "Inf(0) --BODY-- --END--"), ("HOA: v1 Acceptance: 1 ", "--BODY-- --END--"),
    ("HOA: v1 Acceptance: 1 Inf ", "0 --BODY-- --END--"), ("HOA: v1 Acceptance: 1 ", "0 --BODY-- --END--"),
    ("HOA: v1 acc-name: ", "1 --BODY-- --END--"), ("HOA: v1 acc-name: x ", '"y" --BODY-- --END--'),
    ("HOA: v1 tool: ", "--BODY-- --END--"), ("HOA: v1 tool: ", "a --BODY-- --END--"),
    ('HOA: v1 tool: "a" "b" ', '"c" --BODY-- --END--'), ("HOA: v1 name: ", "--BODY-- --END--"),
    ("HOA: v1 name: ", "a --BODY-- --END--"), ('HOA: v1 name: "a" ', '"b" --BODY-- --END--'),
    ("HOA: v1 properties: ", "1 --BODY-- --END--"), ("HOA: v1 properties: a ", "t --BODY-- --END--"),
    ("HOA: v1 x: ", "@a --BODY-- --END--"), ("HOA: v1 x: 1 ", "! --BODY-- --END--"),
    # conj
    ("HOA: v1 Start: ", "&0 --BODY-- --END--"), ("HOA: v1 Start: 0& ", "--BODY-- --END--"),
    ("HOA: v1 Start: 0&1", "|2 --BODY-- --END--"),
    # state
    ("HOA: v1 --BODY-- ", "States: 1 --END--"), ("HOA: v1 --BODY-- ", "HOA: v1 --END--"),
    ("HOA: v1 --BODY-- State: ", "--END--"), ("HOA: v1 --BODY-- State: ", '"n" --END--'),
    ("HOA: v1 --BODY-- State: [t] ", "[t] 0 --END--"), ("HOA: v1 --BODY-- State: 0 [t] ", "--END--"),
    ('HOA: v1 --BODY-- State: 0 "n" ', '"m" --END--'), ("HOA: v1 --BODY-- State: 0 {0} ", '"n" --END--'),
    ("HOA: v1 --BODY-- State: 0 {} ", "{} --END--"), ("HOA: v1 --BODY-- State: 0 ", "x --END--"),
    # edge
    ("HOA: v1 --BODY-- State: 0 [t] ", "[f] 1 --END--"), ("HOA: v1 --BODY-- State: 0 0& ", "{0} --END--"),
    ("HOA: v1 --BODY-- State: 0 0 {0} ", "{1} --END--"), ("HOA: v1 --BODY-- State: 0 0 ", '"n" --END--'),
    # label
    ("HOA: v1 --BODY-- State: [", "] 0 --END--"), ("HOA: v1 --BODY-- State: [t ", "0 --END--"),
    ("HOA: v1 --BODY-- State: 0 [t ", "--END--"),
    # sig
    ("HOA: v1 --BODY-- State: 0 {", "a} --END--"), ("HOA: v1 --BODY-- State: 0 {0 ", "--END--"),
    ("HOA: v1 --BODY-- State: 0 {0 ", "{} --END--"),
]

# Labels of states and acceptance formulas up to the first token with which none goes on, and from there on.
LABELS = [
    ("", "|"), ("", "Inf(0)"), ("", '"0"'), ("0&", ""), ("0 | ", "&1"), ("0|", ")"), ("@a&@b & ", "t1"), ("!", ""),
    ("0&!", ""), ("!!(0|", "|1)"), ("(", ")"), ("(0", ""), ("(0 ", "1)"), ("(0&!1", ""), ("((0)", "{"),
]
FORMULAS = [
    ("", "@a"), ("", "!Inf(0)"), ("Inf ", ""), ("Inf ", "0"), ("Inf( ", ""), ("Inf(", ")"), ("Inf(", "Inf(0))"),
    ("Inf(! ", ""), ("Inf(!", ")"), ("Inf(!", "!0)"), ("Inf(0 ", ""), ("Inf(0 ", "1)"), ("Inf(0", "&1)"),
    ("Inf(!0 ", "1)"), ("Inf(0)& ", ""), ("Inf(0)&", "!Inf(1)"), ("Inf(0)|", "&f"), ("t | (", ")"), ("(Inf(0) ", ""),
    ("(Inf(0) ", "Fin(1))"), ("(", ")"), ("Foo( ", ""), ("Foo(0)&Inf(", "t)"), ("Foo(!", "@a)"),
]
BROKEN += [("HOA: v1 --BODY-- State: [" + front, end + "] 0 --END--") for front, end in LABELS]
BROKEN += [("HOA: v1 Acceptance: 2 " + front, f"{end} --BODY-- --END--".lstrip()) for front, end in FORMULAS]

# Segments that break a rule of the grammar, and the place of the first token with which no automaton goes on.
PLACES = [
    ("HOA: --BODY-- --END--", 5), ("HOA: v1 --END--", 8), ("HOA: v1 HOA: --BODY-- --END--", 8),
    ("HOA: v1 State: 0 --BODY-- --END--", 8), ("HOA: v1 States: --BODY-- --END--", 16),
    ("HOA: v1 Start: --BODY-- --END--", 15), ("HOA: v1 Start: 0& --BODY-- --END--", 18),
    ('HOA: v1 AP: "a" --BODY-- --END--', 12), ("HOA: v1 Alias: a 0 --BODY-- --END--", 15),
    ("HOA: v1 Alias: @a --BODY-- --END--", 18), ("HOA: v1 Acceptance: t --BODY-- --END--", 20),
    ("HOA: v1 Acceptance: 1 Inf(--BODY-- --END--", 26), ("HOA: v1 acc-name: 0 --BODY-- --END--", 18),
    ("HOA: v1 tool: a --BODY-- --END--", 14), ("HOA: v1 name: --BODY-- --END--", 14),
    ("HOA: v1 properties: 0 --BODY-- --END--", 20), ("HOA: v1 foo: @a --BODY-- --END--", 13),
    ("HOA: v1 --BODY-- States: 0 --END--", 17), ("HOA: v1 --BODY-- State: --END--", 24),
    ("HOA: v1 --BODY-- State: 0 [0 0 --END--", 29), ("HOA: v1 --BODY-- State: 0 0& --END--", 29),
    ("HOA: v1 --BODY-- State: 0 {x} --END--", 27), ("HOA: v1 --BODY-- --BODY-- --END--", 17),
]

# Other versions than `v1`.
VERSIONS = ["v2", "V1", "v", "v11", "v1a"]

# Items and body of a text of version v1, and the line of its refusal or none.
ITEMS: list[tuple[str, str, str | None]] = [
    ("States: 1 States: 1", "", "21 RepeatedHeader"), ("Acceptance: 0 t AP: 0 AP: 0", "", "21 RepeatedHeader"),
    ("Acceptance: 0 t Acceptance: 0 t", "", "21 RepeatedHeader"),
    ("Acceptance: 0 t acc-name: all acc-name: all", "", "21 RepeatedHeader"),
    ('Acceptance: 0 t tool: "a" tool: "b"', "", "21 RepeatedHeader"),
    ('Acceptance: 0 t name: "a" name: "b"', "", "21 RepeatedHeader"),
    ("Acceptance: 0 t Start: 0 Start: 0", "", None), ("Acceptance: 0 t Alias: @a t Alias: @b t", "", None),
    ("Acceptance: 0 t properties: a properties: a", "", None), ("Acceptance: 0 t foo: 1 foo: 1", "", None),
    ("Foo: 1", "", "22 MissingAcceptance"), ("", "State: 0", "22 MissingAcceptance"),
    ("Acceptance: 0 t Foo: 1 foo: 1", "", "23 UnknownHeader"), ("Acceptance: 0 t Zoo:", "", "23 UnknownHeader"),
    ("Acceptance: 0 t foo: 1", "", None), ("Acceptance: 0 t _: zoo: aCC-NAME:", "", None),
    ("Start: 2147483647 Acceptance: 0 t", "", "24 StateRange"), ("Start: 2147483646 Acceptance: 0 t", "", None),
    ("Acceptance: 0 t", "State: 2147483647", "24 StateRange"),
    ("Acceptance: 0 t", "State: 0 [t] 2147483647", "24 StateRange"),
    ("States: 0 Start: 0 Acceptance: 0 t", "", "24 StateRange"),
    ("States: 2 Start: 0&2&1 Acceptance: 0 t", "", "24 StateRange"),
    ("States: 2 Start: 0&1 Acceptance: 0 t", "", None), ("States: 1 Acceptance: 0 t", "State: 1", "24 StateRange"),
    ("States: 1 Acceptance: 0 t", "State: 0 [t] 0&1", "24 StateRange"),
    ("Acceptance: 0 t States: 1", "State: 0 [t] 0", None), ("Acceptance: 1 Inf(1)", "", "25 SetRange"),
    ("Acceptance: 0 Fin(!0)", "", "25 SetRange"), ("Acceptance: 2 Inf(0)&(Fin(1)|Inf(2))", "", "25 SetRange"),
    ("Acceptance: 1 Inf(0)", "State: 0 {0 1}", "25 SetRange"),
    ("Acceptance: 1 Inf(0)", "State: 0 [t] 0 {1}", "25 SetRange"),
    ("Acceptance: 1 Inf(0)", "State: 0 {0} [t] 0 {0}", None), ("AP: 1 Acceptance: 0 t", "", "26 Proposition"),
    ('AP: 1 "a" "b" Acceptance: 0 t', "", "26 Proposition"),
    ('AP: 3 "a" "b" "a" Acceptance: 0 t', "", "26 Proposition"), ('AP: 2 "a" "A" Acceptance: 0 t', "", None),
    ('AP: 8 "a" "b" "c" "d" "e" "f" "g" "h" Acceptance: 0 t', "", None),
    ('AP: 8 "a" "b" "c" "d" "e" "f" "g" "g" Acceptance: 0 t', "", "26 Proposition"),
    ('AP: 9 "a" "b" "c" "d" "e" "f" "g" "h" "i" Acceptance: 0 t', "", None),
    ('AP: 9 "a" "b" "c" "d" "e" "f" "g" "h" "a" Acceptance: 0 t', "", "26 Proposition"),
    ("Acceptance: 0 t", "State: [0] 0", "26 Proposition"),
    ('AP: 1 "a" Acceptance: 0 t', "State: 0 [t&!1] 0", "26 Proposition"),
    ('AP: 1 "a" Alias: @a 0|1 Acceptance: 0 t', "", "26 Proposition"),
    ('Alias: @a 0 AP: 1 "a" Acceptance: 0 t', "", None), ("Acceptance: 0 t", "State: [@a] 0", "27 Alias"),
    ("Acceptance: 0 t Alias: @a @b Alias: @b t", "", "27 Alias"), ("Acceptance: 0 t Alias: @a @a", "", "27 Alias"),
    ("Acceptance: 0 t Alias: @a t Alias: @a t", "", "27 Alias"),
    ("Acceptance: 0 t Alias: @b t Alias: @a @b", "State: 0 [@a] 0", None),
    ("Acceptance: 1 Foo(0)", "", "31 AcceptanceAtom"), ("Acceptance: 1 Foo(1)", "", "25 SetRange"),
    ("Acceptance: 1 Inf(0)&inf(0)", "", "31 AcceptanceAtom"),
]

# Bodies under one proposition and one set, and the line of the refusal or none.
BODIES: list[Text] = [
    ("", None), ("State: 0 State: 1 State: 0", "28 StateTwice"), ("State: 1 State: 0", None), ("State: 2", None),
    ("State: [t] 0 [t] 0", "29 MixedLabels"), ("State: [t] 0 0 [t] 0", "29 MixedLabels"),
    ("State: 0 [t] 0 0", "29 MixedLabels"), ("State: 0 0 [t] 0", "29 MixedLabels"), ("State: [t] 0 0 0 0", None),
    ("State: 0 [t] 0 [f] 0 [0] 0", None), ("State: 0 0", "30 ImplicitCount"), ("State: 0 0 0 0", "30 ImplicitCount"),
    ("State: 0 0 0", None), ("State: 0 0 0 State: 1 1", "30 ImplicitCount"), ("State: 0 0&1 0", None),
    ("State: 0", None), ("State: [t] 0", None), ("State: 0 {0} 0 {0} 0 {0}", None),
    ('State: 0 "a" 0 0 State: 1 "a" 1 1', None), ("State: 0 {} 0 {} 0", None),
]

# Texts, and the line of the refusal of each as that of one automaton, or none.
ALONE: list[Text] = [
    ("", "3 Syntax at 0"), ("  ", "3 Syntax at 2"), ("x", "3 Syntax at 0"), (" ( HOA: v1 --END--", "3 Syntax at 1"),
    ("HOA: v1", "3 Syntax at 7"), ("HOA: v1 --BODY-- ", "3 Syntax at 17"), ("HOA: v1 --ABORT--", "3 Syntax at 8"),
    ("HOA: v1 --ABORT-- --END--", "3 Syntax at 8"),
    ("HOA: ( & 7 nonsense --ABORT-- /*a/*b*/c*/ HOA: v1 Acceptance: 0 t --BODY-- --END--", "3 Syntax at 20"),
    ("x $", "1 Lex at 2"), ("HOA: v2 --BODY-- --END-- $", "1 Lex at 25"), ("HOA: 00 $", "2 Number at 5"),
    # A segment's syntax, then a token after it, then its meaning.
    ("HOA: v2 ( --BODY-- --END-- x", "3 Syntax at 8"), ("HOA: v2 --BODY-- --END-- x", "3 Syntax at 25"),
    ("HOA: v2 --BODY-- --END--", "20 Version"),
]

# The same of streams.
STREAMS: list[Text] = [
    ("", None), (" /* */ ", None), ("HOA: --ABORT--", None), ("HOA: HOA: State: ( --ABORT--HOA: --ABORT--", None),
    # All kinds of tokens but a mark that ends a segment.
    ("HOA: v1 HOA: State: Foo: word t f 7 @a \"a\\\"\" ! & | ( ) [ ] { } --BODY-- --BODY-- /* */ --ABORT--", None),
    ("x", "3 Syntax at 0"), ("HOA: --ABORT-- x $", "3 Syntax at 15"), ("HOA: --ABORT-- $ x", "1 Lex at 15"),
    ("HOA: x $ --ABORT--", "1 Lex at 7"), ("HOA: 01 --ABORT-- x", "2 Number at 5"), ('HOA: "', "1 Lex at 5"),
    ("HOA: x", "3 Syntax at 6"), ("--END--", "3 Syntax at 0"),
    # The first refused segment decides.
    ("HOA: v2 --BODY-- --END-- $", "20 Version"), ("HOA: v2 --BODY-- --END-- x", "20 Version"),
    ("HOA: v2 $ --BODY-- --END--", "1 Lex at 8"),
]

# Texts of one segment, and the line of the refusal of each alone and as a stream, or none.
SEGMENTS: list[Text] = [
    ("HOA: v2 --BODY-- --END--", "20 Version"),
    ("HOA: v1 States: 1 States: 1 --BODY-- --END--", "21 RepeatedHeader"),
    ("HOA: v1 Foo: 1 --BODY-- --END--", "22 MissingAcceptance"),
    ("HOA: v1 Acceptance: 0 t Foo: 1 foo: 1 --BODY-- --END--", "23 UnknownHeader"),
    ("HOA: v1 Acceptance: 0 t foo: 1 --BODY-- --END--", None),
    ("HOA: v1 Start: 2147483647 Acceptance: 0 t --BODY-- --END--", "24 StateRange"),
    ("HOA: v1 Acceptance: 1 Inf(1) --BODY-- --END--", "25 SetRange"),
    ('HOA: v1 States: 1 Start: 0 AP: 1 "a" Acceptance: 0 t --BODY-- State: 0 0 0 --END--', None),
    ('HOA: v1 States: 1 Start: 0 AP: 1 "a" Acceptance: 0 t --BODY-- State: 0 0 0 0 --END--', "30 ImplicitCount"),
    ("HOA: v1 States: 2 Start: 0 acc-name: all Acceptance: 0 t --BODY-- State: 0 [t] 0&1 State: 1 --END--", None),
    ("HOA: v1 States: 2147483647 Acceptance: 0 t --BODY-- --END--", None),
    ("HOA: v1 Acceptance: 2147483647 t --BODY-- State: 0 {2147483646} --END--", None),
    ("HOA: v1 Acceptance: 2147483647 t --BODY-- State: 0 {2147483647} --END--", "25 SetRange"),
    ("HOA: v1 Acceptance: 1 Foo(0) --BODY-- --END--", "31 AcceptanceAtom"),
]


def alone_fault(text: bytes, line: str | None) -> Fault:
    """What differs from the refusal of a text as that of one automaton; without one it is drawn."""
    if line:
        return refusal_fault(DRAW, text, line)
    ran = run_of(DRAW, text)
    is_drawn = ran.returncode == 0 and ran.stdout.startswith(b"digraph automaton {\n")
    return None if is_drawn else f"status {ran.returncode}: {shown(ran.stderr)}"


def stream_fault(text: bytes, line: str | None) -> Fault:
    """What differs from the refusal of a text as that of a stream; without one it is accepted."""
    return refusal_fault(CHECK, text, line) if line else fault_of(CHECK, text, 0, b"accepted\n")


def both() -> Iterator[Text]:
    """Texts that are answered in the same way alone and as a stream."""
    yield from ((text, f"3 Syntax at {place}") for text, place in PLACES)
    yield from SEGMENTS


def alone() -> Iterator[Text]:
    """Texts as those of one automaton."""
    yield from ((front + behind, f"3 Syntax at {len(front)}") for front, behind in BROKEN)
    yield from ((f"HOA: {version} --BODY-- --END--", "20 Version") for version in VERSIONS)
    yield from ((f"HOA: v1 {items} --BODY-- {body} --END--", line) for items, body, line in ITEMS)
    front = 'HOA: v1 AP: 1 "a" Acceptance: 1 Inf(0) --BODY--'
    yield from ((f"{front} {body} --END--", line) for body, line in BODIES)
    yield from ALONE
    yield from both()


def streams() -> Iterator[Text]:
    """Texts as those of streams. A place in a later segment counts from the first byte of the text."""
    yield from STREAMS
    yield from both()
    yield from ((ABORTED + text, f"3 Syntax at {len(ABORTED) + place}") for text, place in PLACES)


def row_checks() -> Cases:
    for text, line in alone():
        yield f"{text!r} alone", partial(alone_fault, text.encode(), line)
    for text, line in streams():
        yield f"{text!r} as a stream", partial(stream_fault, text.encode(), line)
