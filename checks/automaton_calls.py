"""Answers of `omega_calls` about labels, formulas and automata that are known by hand: where they end in a text and how
deep they are, what stands for an alias, kinds of acceptance, what is read of an automaton, and what a stream answers to
pieces of a text.
"""
from known_calls import Known, begun, given_by, known_cases, refused, said
from memory import ABORTED, WRITTEN, Shimmed
from program import Cases, Fault

# Labels that texts begin with, their canonical texts, and the places after them.
LABELS = [
    (b"0|1&2", b"0|1&2", 5),
    (b"(0 | 1) & 2", b"(0|1)&2", 11),
    (b"0&1&2|!3", b"0&1&2|!3", 8),
    (b"0|1|2", b"0|1|2", 5),
    (b"0&(1&2)", b"0&(1&2)", 7),
    (b"0|(1|2)", b"0|(1|2)", 7),
    (b"!!(t|9)", b"!!(t|9)", 7),
    (b"!0&f", b"!0&f", 4),
    (b"((0))] 1", b"0", 5),
    (b"0 1", b"0", 2),
    (b"t)", b"t", 1),
]

FORMULAS = [
    (b"Inf(2) | (Fin(1) & Inf(0))", b"Inf(2)|Fin(1)&Inf(0)", 26),
    (b"Fin(0) & (Inf(1) | Fin(0))", b"Fin(0)&(Inf(1)|Fin(0))", 26),
    (b"Fin(0)|Inf(1)&Fin(!2)", b"Fin(0)|Inf(1)&Fin(!2)", 21),
    (b"(Inf(0)&Inf(1))&Fin(2)", b"Inf(0)&Inf(1)&Fin(2)", 22),
    (b"Inf(0)&(Inf(1)&Fin(2))", b"Inf(0)&(Inf(1)&Fin(2))", 22),
    (b"Inf(0)|(Fin(1)&(Inf(2)|Fin(3)&Inf(4)))", b"Inf(0)|Fin(1)&(Inf(2)|Fin(3)&Inf(4))", 38),
    (b"Inf ( ! 3 ) --BODY--", b"Inf(!3)", 12),
    (b"((t)) f", b"t", 6),
    (b"f)", b"f", 1),
    (b"t|f&t Inf(0)", b"t|f&t", 6),
]


def paired(pairs: int, inside: bytes) -> bytes:
    return b"(" * pairs + inside + b")" * pairs


# Texts, and how each is read as a label and as a formula, by the number of the refusal, or 0, and its place or, if it
# has none, that of the cursor: other atoms than `Fin` and `Inf`, and what is about as deep as is allowed or far deeper.
ENDS = [
    (b"Foo(0)", (3, 0), (31, 6)),
    (b"Inf(0)&inf(1) t", (3, 0), (31, 14)),
    (b"(Infinite(0))]", (3, 1), (31, 13)),
    (b"Fin(0)|Fins(!0)", (3, 0), (31, 15)),
    (paired(255, b"t"), (0, 511), (0, 511)),
    (paired(256, b"t"), (32, 513), (32, 513)),
    (paired(300, b"Fin(0)"), (3, 300), (32, 606)),
    # The least refusal comes.
    (paired(300, b"Foo(0)"), (3, 300), (31, 606)),
    (paired(255, b"0"), (0, 511), (3, 255)),
    (paired(256, b"0"), (32, 513), (3, 256)),
    (paired(600, b"0"), (32, 1201), (3, 600)),
    (b"!" * 255 + b"0" + b" " * 255, (0, 511), (3, 0)),
    (b"!" * 256 + b"0" + b" " * 256, (32, 513), (3, 0)),
    (b"!" * 600 + b"0" + b" " * 600, (32, 1201), (3, 0)),
    (b"(" * 600 + b"0" + b"!" * 600, (3, 601), (3, 600)),
    # A chain is as deep as it is long.
    (b"t&" * 255 + b"t", (0, 511), (0, 511)),
    (b"t&" * 256 + b"t", (32, 513), (32, 513)),
    (b"t&" * 257 + b"t", (32, 515), (32, 515)),
]

# How many pairs of parentheses, and the depth that is counted, at most 257, after which it is too deep.
DEPTHS = [(0, b"1 -"), (255, b"256 -"), (256, b"257 +"), (300, b"257 +")]

# Definitions of `@a`, `@b` and so on: the first by the second, which comes later; each but the first twice the one
# before; and the first negated by the second, and a third that has both.
LATER = b"@b;0"
DOUBLED = b";".join([b"0", *(b"@%c&@%c" % (letter, letter) for letter in b"abcdefghijklmnopqrs")])
NEGATED = b"0|1;!@a;@b|(@a|2)"

# Labels over definitions, and their size once expanded, or none for the line of the refusal.
SIZES = [
    (LATER, b"@a", None, b"27 Alias"), (LATER, b"@b", 1, b""), (LATER, b"@c", None, b"27 Alias"),
    (DOUBLED, b"@p", 65_535, b""), (DOUBLED, b"@q", None, b"33 Expansion"), (DOUBLED, b"@t", None, b"33 Expansion"),
    (DOUBLED, b"!@p", 65_536, b""), (DOUBLED, b"@p&0", None, b"33 Expansion"),
]

# Labels over definitions, and their texts once expanded, or nothing for an alias that is not defined.
EXPANDED = [
    (LATER, b"@a", b""), (LATER, b"@b", b"0"), (LATER, b"(!@b)|@a", b""), (LATER, b"(!@b)&1", b"!0&1"),
    (NEGATED, b"@a", b"0|1"), (NEGATED, b"@b", b"!(0|1)"), (NEGATED, b"@c", b"!(0|1)|(0|1|2)"),
    (NEGATED, b"3&@a", b"3&(0|1)"), (NEGATED, b"@d", b""),
]

# Labels, and whether they can be true.
JUDGED = [
    (b"0&!0", b"-"), (b"0|!0", b"+"), (b"f", b"-"), (b"0&1&2&3&4&5&6&7&8&!0", b"-"),
    (b"0&!1&!2&!3&!4&!5&!6&!7&!8", b"+"), (b"t&" + b"&".join(b"%d" % n for n in range(12)), b"+"),
]

# An acceptance by its name, its count of sets and its formula; and the parity that it is.
PARITIES = [
    (b"all", 0, b"t", b"max odd"),
    (b"none", 0, b"f", b"max even"),
    (b"Buchi", 1, b"Inf(0)", b"max even"),
    (b"co-Buchi", 1, b"Fin(0)", b"max odd"),
    (b"parity max even 2", 2, b"Fin(1)&Inf(0)", b"max even"),
    (b"parity max even 3", 3, b"Inf(2)|Fin(1)&Inf(0)", b"max even"),
    (b"parity max odd 3", 3, b"Fin(2)&(Inf(1)|Fin(0))", b"max odd"),
    (b"parity min even 3", 3, b"Inf(0)|Fin(1)&Inf(2)", b"min even"),
    (b"parity min odd 3", 3, b"Fin(0)&(Inf(1)|Fin(2))", b"min odd"),
    (b"parity min even 5", 5, b"Inf(0)|Fin(1)&(Inf(2)|Fin(3)&Inf(4))", b"min even"),
]

# The same of acceptance that is no parity, with the count of a generalized Buchi acceptance or 40 for no kind.
OTHERS = [
    (b"generalized-Buchi 1", 1, b"Inf(0)", 1),
    (b"generalized-Buchi 3", 3, b"Inf(0)&Inf(1)&Inf(2)", 3),
    (b"all 0", 0, b"t", 40),
    (b"all", 0, b"f", 40),
    (b"all", 1, b"t", 40),
    (b"parity max even t", 2, b"Fin(1)&Inf(0)", 40),
    (b"parity max even 2", 2, b"Inf(1)|Fin(0)", 40),
    (b"parity max even 2", 3, b"Fin(1)&Inf(0)", 40),
    (b"parity even max 2", 2, b"Fin(1)&Inf(0)", 40),
    (b"parity max even 2147483647", 2_147_483_647, b"Fin(1)&Inf(0)", 40),
    (b"generalized-Buchi 2", 2, b"Inf(1)&Inf(0)", 40),
    (b"generalized-Buchi 0", 0, b"t", 40),
    (b"Rabin 1", 2, b"Fin(0)&Inf(1)", 40),
]


def automaton(items: bytes, body: bytes = b"") -> bytes:
    return b"HOA: v1 %s --BODY-- %s --END--" % (items, body)


def of_kind(name: bytes, count: int, formula: bytes, kind: bytes) -> Known:
    """An automaton with nothing but this acceptance is of this kind."""
    text = automaton(b"acc-name: %s Acceptance: %d %s" % (name, count, formula))
    return said("automaton", text, b"run", b"0 0 %d 0 0 ;;--3 %s" % (count, kind))


# Texts up to the token that is left after the automaton, and from there on.
ACCEPTED = [
    (b"HOA: v1 --BODY-- --END--", b""),
    (b"HOA: v1 --BODY-- --END-- ", b"x"),
    (b"HOA: v1 --BODY-- --END-- ", b"HOA: v1 --BODY-- --END--"),
    (b"HOA: v1 --BODY-- --END-- ", b"--END--"),
    (b"HOA: t-1 /* HOA: */ --BODY-- --END--", b""),
    (b"HOA: v1 States: 3 Start: 0&1 Start: 2 --BODY-- --END--", b""),
    (b"HOA: v1 AP: 7 States: 1 States: 1 --BODY-- --END--", b""),
    (b'HOA: v1 AP: 0 AP: 2 "a" "a" "" --BODY-- --END--', b""),
    (b"HOA: v1 Alias: @a !0&1 Alias: @a (@b) --BODY-- --END--", b""),
    (b"HOA: v1 Acceptance: 2 Inf(0)&Fin(!1) --BODY-- --END--", b""),
    (b"HOA: v1 acc-name: x 1 t y acc-name: z --BODY-- --END--", b""),
    (b'HOA: v1 tool: "a" tool: "a" "b" name: "" --BODY-- --END--', b""),
    (b"HOA: v1 properties: properties: a b --BODY-- --END--", b""),
    (b'HOA: v1 x: t 1 "s" w Y: states: 1 Name: AP --BODY-- --END--', b""),
    (b"HOA: v1 --BODY-- State: 0 State: 0 --END--", b""),
    (b"HOA: v1 --BODY-- State: 2147483647 --END--", b""),
    (b'HOA: v1 --BODY-- State: 0 "n" {1} 2 {3} 4 5 --END--', b""),
    (b'HOA: v1 --BODY-- State: [t] 0 "n" {} [0|1] 0&1 {0 0} 1 --END--', b""),
    (b"HOA: v1 --BODY-- State: 0 0&1&2 {} [t] 3 [f] 4 --END--", b""),
    (b"HOA: v1 --BODY-- State: [@a] 0 [!@b] 1 --END--", b""),
    (b"HOA: v1 --BODY-- State: 0 1 State: 1 0 --END--", b""),
    (b"HOA: v1 --BODY-- State: 0 {} 1 {} --END--", b""),
]

# Items and a body; and the counts of states, propositions, sets, defined states and edges.
COUNTED = [
    (b"Acceptance: 0 t", b"", b"0 0 0 0 0 "),
    (b"States: 7 Acceptance: 3 (Inf(0))", b"", b"7 0 3 0 0 "),
    (b"Start: 5 Acceptance: 0 f", b"State: 2", b"6 0 0 1 0 "),
    (b"Start: 0&3 Start: 1 Acceptance: 0 t", b"", b"4 0 0 0 0 "),
    (b"Acceptance: 0 t", b"State: 0 [t] 4&9 [t] 3 State: 1 [f] 0", b"10 0 0 2 3 "),
    (b"Acceptance: 0 t", b"State: 8", b"9 0 0 1 0 "),
    (b'States: 1 Start: 0 AP: 1 "a" Acceptance: 0 t', b"State: 0 0 0", b"1 1 0 1 2 "),
    (b"Acceptance: 2 Inf(0)&(Fin(!1)|Inf(1))", b"", b"0 0 2 0 0 "),
    (b"Start: 2147483646 Acceptance: 0 t", b"", b"2147483647 0 0 0 0 "),
]

# States and edges are in the order of the body, and an empty name differs from none.
STATES = automaton(b'AP: 1 "p" Alias: @a !0 Alias: @b @a|(0) Acceptance: 3 t',
                   b'State: [@a] 3 "n" {2 0 2 1} 0 1&1 {1 0} State: 1 "" [0] 2 [(@b)] 0 {} State: 0')
# In a state in which each leads to one state and is in one set at most, and in one in which braces are empty.
UNLABELLED = automaton(b'AP: 1 "p" Acceptance: 2 t', b"State: 0 1 {1} 0 State: 1 0 {} 1 {0}")
# What is written at most once, and what may repeat in the order of the items.
HEADER = automaton(b'properties: b a Start: 1&0 tool: "t" "1" x: t 3 "s" w name: "n" AP: 2 "q" "p" '
                   b"Acceptance: 1 Inf(0) y: acc-name: parity max even 1 t Start: 2 properties: b x: f")

# Automata, and what is read of them: the counts, the starts, the propositions, the properties, other items of the
# header, the name and the tool; then each state's number, name, sets and whether it has a label, and each edge's label,
# targets and sets; a priority; and twice the kind of an acceptance that has a name.
READ = [
    (automaton(b"Acceptance: 0 t"), b"0 0 0 0 0 ;;--3 "),
    # An alias is replaced in its place, parentheses go, and marks that are repeated are kept once.
    (WRITTEN, b"1 1 1 1 1 0 ;a ;;--0 -;-+0 ;0 ;3 max even 1 ;max even 1 ;"),
    (STATES, b"4 1 3 3 4 p ;;--3 +n0 1 2 ;+-0 ;;-1 1 ;0 1 ;1 +;-+2 ;;+0 ;;0 -;-3 "),
    (UNLABELLED, b"2 1 2 2 4 p ;;--0 -;--1 ;1 ;-0 ;;1 -;--0 ;;-1 ;0 ;3 "),
    (HEADER, b"3 2 1 0 0 1 0 ;2 ;q p ;b a b ;x + 3  +s w;y;x -;+n+t+13 40 40 "),
]

KNOWN: list[Known] = [
    *(said("expand", text, b"f", b"<" + label) for text, label, _ in LABELS),
    *(said("end of a label", text, b"", b"0 %d " % end) for text, _, end in LABELS),
    *(said("read_acc", text, b"", b"<" + formula) for text, formula, _ in FORMULAS),
    *(said("end of a formula", text, b"", b"0 %d " % end) for text, _, end in FORMULAS),
    *(said("end of a label", text, b"", b"%d %d " % label) for text, label, _ in ENDS),
    *(said("end of a formula", text, b"", b"%d %d " % formula) for text, _, formula in ENDS),
    *(said(f"depth of a {kind}", paired(pairs, b"t"), b"", depth) for kind in ("label", "formula")
      for pairs, depth in DEPTHS),
    said("depth of a formula", b"Inf(0)&(Foo(!3)|Fin(1))", b"4 3", b"4 -+-"),
    said("depth of a label", b"0&!(7|@a)|t", b"8 7", b"6 -+-"),
    said("is RawAcc", b"(Inf(0))&t|Fin(!1)", b"", b"+"),
    said("is RawAcc", b"Inf(0)&t|Fin(!1)", b"", b"-"),
    *(refused("expanded_size", label, definitions, line) if size is None else
      said("expanded_size", label, definitions, b"%d " % size) for definitions, label, size, line in SIZES),
    *(said("expand", label, definitions, b"<" + text) if text else refused("expand", label, definitions, b"27 Alias")
      for definitions, label, text in EXPANDED),
    *(said("label", label, b"run", answer) for label, answer in JUDGED),
    refused("label", b"t&" + b"&".join(b"%d" % n for n in range(13)), b"run", b"42 TooManyPropositions"),
    *(of_kind(name, count, formula, b"%s %d ;" % (parity, count) * 2) for name, count, formula, parity in PARITIES),
    *(of_kind(name, count, formula, b"%d 40 " % kind) for name, count, formula, kind in OTHERS),
    *(said("end of an automaton", front + following, b"", b"0 %d " % len(front)) for front, following in ACCEPTED),
    *(begun("automaton", automaton(items, body), b"run", counts) for items, body, counts in COUNTED),
    *(said("automaton", text, b"run", read) for text, read in READ),
    said("read_stream", b"", b"", b""),
]

# The number of a refusal, or 0, and its place, if it has one.
Reported = tuple[int] | tuple[int, int]

PLAIN = b"HOA: v1 Acceptance: 0 t --BODY-- --END--"
# Pieces, what each and the end are answered, and how many items are aborted and automata.
PIECES: list[tuple[list[bytes], list[Reported], tuple[int, int]]] = [
    ([b"x", b" "], [(0,), (3, 0), (3, 0)], (0, 0)),
    ([b"x $"], [(3, 0), (3, 0)], (0, 0)),
    ([b"("], [(3, 0), (3, 0)], (0, 0)),
    ([b";", b"HOA:"], [(1, 0), (1, 0), (1, 0)], (0, 0)),
    ([b"00", b" "], [(0,), (2, 0), (2, 0)], (0, 0)),
    ([b"HO", b"A:"], [(0,), (0,), (3, 4)], (0, 0)),
    ([b"/*a/*b", b"*/"], [(0,), (0,), (1, 0)], (0, 0)),
    ([b"HOA: --ABORT-", b"-", b""], [(0,)] * 4, (1, 0)),
    ([b"HOA: --ABORT-- HOA: --ABORT-- x ", b"HOA:"], [(3, 30)] * 3, (2, 0)),
    ([PLAIN[:-1], b"-", b""], [(0,)] * 4, (0, 1)),
    # A fault of meaning and one of syntax after an automaton, each in the call that completes its segment.
    ([PLAIN + b" HOA: v2 --BODY-- --END", b"-- "], [(0,), (20,), (20,)], (0, 1)),
    ([PLAIN + b" HOA: ( --", b"END-", b"- $"], [(0,), (0,), (3, 46), (3, 46)], (0, 1)),
]

# An aborted segment, and a segment with a token with which no automaton goes on, at this place.
BROKEN = b"HOA: --ABORT-- HOA: v1 States: x --BODY-- --END-- "
BROKEN_AT = (3, 31)


def pieces_fault(shimmed: Shimmed, pieces: list[bytes], answers: list[Reported], items: tuple[int, int]) -> Fault:
    """What is wrong with the answers to pieces and to the end, and with the items."""
    came = given_by(shimmed, "pieces", b"~".join(pieces), b"")
    wanted = b"".join(b"".join(b"%d " % number for number in answer) + b";" for answer in answers)
    rest = came[1].removeprefix(wanted)
    counts = (rest.count(b"aborted\n"), rest.count(b"automaton "))
    if came[0] or not came[1].startswith(wanted) or rest[:1].isdigit() or counts != items:
        return f"status {came[0]}, {came[1]!r}"
    return None


def cut_cases(shimmed: Shimmed) -> Cases:
    """No cut changes the items, or the place of a fault: of two pieces the one that completes the segment is refused
    there, and all that comes after it."""
    for cut in range(len(ABORTED) + 1):
        yield f"pieces cut at {cut}", pieces_fault(shimmed, [ABORTED[:cut], ABORTED[cut:]], [(0,)] * 3, (1, 1))
    single = [ABORTED[at:at + 1] for at in range(len(ABORTED))]
    yield "pieces of a byte", pieces_fault(shimmed, single, [(0,)] * (len(single) + 1), (1, 1))
    # The last byte of the segment's last token, after which it is complete.
    complete = len(BROKEN) - 1
    for cut in range(len(BROKEN) + 1):
        first: Reported = BROKEN_AT if cut >= complete else (0,)
        yield (f"broken pieces cut at {cut}",
               pieces_fault(shimmed, [BROKEN[:cut], BROKEN[cut:]], [first, BROKEN_AT, BROKEN_AT], (1, 0)))
    answers: list[Reported] = [BROKEN_AT if at + 1 >= complete else (0,) for at in range(len(BROKEN))]
    yield "broken pieces of a byte", pieces_fault(shimmed, [BROKEN[at:at + 1] for at in range(len(BROKEN))],
                                                  [*answers, BROKEN_AT], (1, 0))


def automaton_call_cases(shimmed: Shimmed) -> Cases:
    yield from known_cases(shimmed, KNOWN)
    for pieces, answers, items in PIECES:
        yield f"pieces {pieces}", pieces_fault(shimmed, pieces, answers, items)
    yield from cut_cases(shimmed)
