#!/usr/bin/env python3
"""What has to be read to believe a promise: the definitions that it rests on, counted in the sources.

    checks/believing.py                          writes docs/believe.md: where each promise begins, and how much it is
    checks/believing.py --whole                  prints for each promise its files, in the order of reading
    checks/believing.py check --format pg        prints the definitions of that promise, in the order of reading

A promise of a subcommand is the rows of the tables in OneText.antt, Streams.antt, TwoTexts.antt, Formulas.antt,
Synthesis.antt and FormulaJudge.antt of crates/omega_run/specs for what the subcommand asks for. From the words of these
rows the definitions are followed, each to the words of its body, as the `use` lines of its file lead. A file stands
after the files that it cites. A line of a specs file that has none of the forms below is an error, with its file and
number.
"""
import functools
import glob
import os
import re
import sys
from collections import Counter
from collections.abc import Callable, Iterable, Iterator
from dataclasses import dataclass, field

from program import ROOT, Cases

PAGE = os.path.join("docs", "believe.md")
MOST_LINES = 400
# What one text is answered, a stream, the other text and that of the input, formulas and that of the input, a formula
# whose propositions are parted, and what is judged for one; and how the kinds of several texts are refused.
TABLES = (("omega_run.specs.OneText", "AnswersOneText"), ("omega_run.specs.Streams", "AnswersStream"),
          ("omega_run.specs.TwoTexts", "AnswersTwoTexts"), ("omega_run.specs.TwoTexts", "RefusesTwoTexts"),
          ("omega_run.specs.Formulas", "AnswersFormulas"), ("omega_run.specs.Formulas", "RefusesFormulas"),
          ("omega_run.specs.Synthesis", "AnswersSynthesis"), ("omega_run.specs.FormulaJudge", "AnswersFormulaJudge"),
          ("omega_run.specs.FormulaJudge", "RefusesFormulaJudge"))
HEADLINE = ("omega_solve.specs.Headline", "Headline")
# The row of the headline, and what stands beside it.
HEADLINE_ROW = "the headline, `Headline` of `omega_solve`"
BESIDE_HEADLINE = "; that the program keeps the bound and answers exactly is in the row `omega solve`"
# The laws on containment, and the answers from which they conclude. What the answers are need not be read: the program
# gives them, by its contract, and what they mean is what the laws say.
CONTAINMENT = "omega_laws.specs.Containment"
CONTAINMENT_LAWS = ("EmptyMeansContained", "LassosMeanNotContained")
CONTAINMENT_ANSWERS = frozenset({"IsComplementAnswer", "IsMeetAnswer", "IsEmptyAnswer", "IsEmptySearchAnswer"})
# The laws on controllers and counter-strategies: what they are good for, and that no automaton has both.
CONTROLLERS = "omega_synth_controllers.specs.Laws"
CONTROLLER_LAWS = ("ControllersRealize", "CounterStrategiesRefute", "ControllersExcludeCounterStrategies")
# The laws on written controllers, and the answers and refusals from which they conclude.
WRITTEN_CONTROLLERS = "omega_laws.specs.WrittenControllers"
WRITTEN_CONTROLLER_LAWS = ("WrittenControllersAreJudgedRight", "WrittenControllersAreNotAtFault")
WRITTEN_CONTROLLER_ANSWERS = frozenset({"IsWinnerAnswer", "IsControllerAnswer", "IsControllerRefused"})
# What `yes`, `no`, `realizable` and `unrealizable` mean, by laws: each with the answers from which it concludes.
EXACT = {
    "`omega realize`, the law `realized_texts_are_exact`":
        ("omega_laws.specs.SpecificationTexts", "RealizedTextsAreExact", frozenset({"IsDecisionAnswer"})),
    "`omega realize -f`, the law `realize_formula_answers_are_exact`":
        ("omega_laws.specs.RealizedFormulas", "RealizeFormulaAnswersAreExact", frozenset({"IsFormulaRealizeAnswer"})),
    "`omega verify -f`, the law `formula_controllers_are_judged`":
        ("omega_laws.specs.JudgedTexts", "FormulaControllersAreJudged", frozenset({"IsFormulaControllerAnswer"})),
    "`omega verify -f --counter-strategy`, the law `formula_counter_strategies_are_judged`":
        ("omega_laws.specs.JudgedTexts", "FormulaCounterStrategiesAreJudged", frozenset({"IsFormulaCounterAnswer"})),
    "`omega verify -f` of a circuit, the law `formula_circuits_are_judged`":
        ("omega_laws.specs.JudgedCircuits", "FormulaCircuitsAreJudged", frozenset({"IsFormulaCircuitAnswer"})),
    "`omega realize -f --aiger`, the law `formula_circuits_are_exact`":
        ("omega_laws.specs.JudgedCircuits", "FormulaCircuitsAreExact", frozenset({"IsFormulaCircuitWritten"})),
    "`omega realize --controller`, the law `winners_of_texts_are_exact`":
        ("omega_laws.specs.SpecificationTexts", "WinnersOfTextsAreExact", frozenset({"IsWinnerAnswer"})),
    "`omega realize --aiger`, the law `winning_circuits_are_exact`":
        ("omega_laws.specs.JudgedCircuits", "WinningCircuitsAreExact", frozenset({"IsWinningCircuitAnswer"})),
    "`omega verify --specification` of a circuit, the law `circuits_are_judged`":
        ("omega_laws.specs.JudgedCircuits", "CircuitsAreJudged", frozenset({"IsCircuitAnswer"})),
    "`omega verify --specification`, the law `controller_texts_are_judged`":
        ("omega_laws.specs.SpecificationTexts", "ControllerTextsAreJudged", frozenset({"IsControllerAnswer"})),
    "`omega verify --specification --counter-strategy`, the law `counter_texts_are_judged`":
        ("omega_laws.specs.SpecificationTexts", "CounterTextsAreJudged", frozenset({"IsCounterAnswer"})),
    "`omega accepts`, the law `accepted_texts_are_accepted`":
        ("omega_laws.specs.InclusionTexts", "AcceptedTextsAreAccepted", frozenset({"IsAcceptsAnswer"})),
    "`omega accepts --some`, the law `some_texts_are_accepted`":
        ("omega_laws.specs.InclusionTexts", "SomeTextsAreAccepted", frozenset({"IsAcceptsSomeAnswer"})),
    "`omega satisfies`, the law `satisfying_texts_satisfy`":
        ("omega_laws.specs.FormulaTexts", "SatisfyingTextsSatisfy", frozenset({"AreSatisfiesAnswers"})),
    "`omega satisfies --word`, the law `admitted_words_satisfy`":
        ("omega_laws.specs.FormulaTexts", "AdmittedWordsSatisfy", frozenset({"AreSatisfiesWordAnswers"})),
    "`omega equal -f`, the law `equal_texts_have_the_words`":
        ("omega_laws.specs.FormulaTexts", "EqualTextsHaveTheWords", frozenset({"AreEqualAnswers"})),
    "`omega contained`, the law `contained_texts_are_contained`":
        ("omega_laws.specs.InclusionTexts", "ContainedTextsAreContained", frozenset({"IsContainedAnswer"})),
    "`omega equal`, the law `equal_texts_are_equal`":
        ("omega_laws.specs.InclusionTexts", "EqualTextsAreEqual", frozenset({"IsEqualAnswer"})),
}
# What calls of the library answer, where they answer.
CALLS = {
    "`decide_containment` of `omega_lang_inclusion`": ("omega_lang_inclusion.specs.Containing", "IsContainment"),
    "`decide_equality` of `omega_lang_inclusion`": ("omega_lang_inclusion.specs.Equality", "IsEquality"),
    "`translate` of `omega_ltl_translation`": ("omega_ltl_translation.specs.Translation", "IsTranslation"),
    "`satisfies` of `omega_ltl_satisfaction`": ("omega_ltl_satisfaction.specs.Satisfaction", "IsSatisfaction"),
    "`realize` of `omega_synth_realize`": ("omega_synth_realize.specs.Realizing", "IsRealizability"),
    "`judge` of `omega_synth_check`": ("omega_synth_check.specs.Judging", "IsJudgement"),
    "`judge_counter_strategy` of `omega_synth_check`": ("omega_synth_check.specs.CounterJudging", "IsCounterJudgement"),
}

# Each promise, with the beginnings of the rows that are its own.
COMMANDS = {
    "check --format pg": ("AnswersOneText: Check",),
    "canon --format pg": ("AnswersOneText: Canon", "CanonPart"),
    "canon --format pg --min": ("CanonLeast",),
    "show --format pg": ("AnswersOneText: Show",),
    "show --format pg --json": ("AnswersOneText: ShowJson",),
    "solve": ("Solve",),
    "solve --search": ("Search",),
    "verify": ("Verify",),
    "verify --explain --names": ("VerifyNamed",),
    "verify --winners": ("VerifyWinners",),
    "draw --format pg": ("DrawGame", "DrawPart", "DrawSolution", "DrawWalk"),
    "check --format hoa": ("AnswersStream: Check",),
    "canon --format hoa": ("AnswersStream: Canon",),
    "show --format hoa": ("AnswersStream: Show",),
    "show --format hoa --json": ("AnswersStream: ShowJson",),
    "empty": ("AnswersOneText: Empty",),
    "empty --search": ("AnswersOneText: EmptySearch",),
    "empty --stream": ("AnswersStream: Empty",),
    "empty --search --stream": ("AnswersStream: EmptySearch",),
    "verify --automaton": ("VerifyLasso",),
    "verify --specification": ("VerifyController",),
    "verify --specification --counter-strategy": ("VerifyCounterStrategy",),
    "accepts": ("Accepts",),
    "accepts --some": ("AcceptsSome",),
    "contained": ("Contained",),
    "contained --stream": ("ContainedStream",),
    "equal": ("AnswersTwoTexts: Equal", "RefusesTwoTexts: Equal"),
    "equal -f": ("AnswersFormulas: Equal", "RefusesFormulas: Equal"),
    "satisfies": ("Satisfies",),
    "satisfies --stream": ("SatisfiesStream",),
    "satisfies --word": ("SatisfiesWord",),
    "meet": ("Meet false",),
    "meet --trim": ("Meet true",),
    "join": ("Join",),
    "complement": ("AnswersOneText: Complement",),
    "complement --stream": ("AnswersStream: Complement",),
    "ltl": ("Ltl",),
    "ltl --deterministic": ("LtlDeterministic false",),
    "ltl --negated --deterministic": ("LtlDeterministic true",),
    "trim": ("AnswersOneText: Trim",),
    "trim --stream": ("AnswersStream: Trim",),
    "realize": ("Realize false",),
    "realize --controller": ("Realize true",),
    "realize --lift": ("RealizeByLifting false",),
    "realize --controller --lift": ("RealizeByLifting true",),
    "realize --game": ("RealizabilityGame",),
    "realize -f": ("AnswersSynthesis: Decide",),
    "realize -f --controller": ("AnswersSynthesis: Controller",),
    "realize -f --game": ("AnswersSynthesis: Game",),
    "verify -f": ("AnswersFormulaJudge: Controller", "RefusesFormulaJudge: Controller"),
    "verify -f --counter-strategy": ("AnswersFormulaJudge: CounterStrategy", "RefusesFormulaJudge: CounterStrategy"),
    "realize -f --aiger": ("AnswersSynthesis: Circuit",),
    "check --format aiger": ("CheckCircuit",),
    "canon --format aiger": ("CanonCircuit",),
    "show --format aiger": ("ShowCircuit",),
    "show --format aiger --json": ("ShowCircuitJson",),
    "automaton": ("CircuitAutomaton",),
    "realize --aiger": ("RealizeCircuit",),
    "game": ("AnswersOneText: Game",),
    "draw --format hoa": ("DrawAutomaton", "DrawLasso"),
}

# The exports of the library for C, each with its file.
EXPORTS = {"omega_solve": "solving", "omega_verify": "verifying", "omega_bound": "bounding", "omega_empty": "emptiness",
           "omega_meet": "meeting", "omega_complement": "complementing", "omega_contained": "containing",
           "omega_equal": "containing", "omega_realize": "realizing", "omega_formula": "formulas",
           "omega_ltl": "formulas", "omega_ltl_deterministic": "formulas", "omega_satisfies": "formulas",
           "omega_realize_formula": "synthesis", "omega_circuit": "circuits", "omega_circuit_automaton": "circuits",
           "omega_verify_circuit": "circuit_verifying", "omega_verify_formula_circuit": "circuit_verifying",
           "omega_realize_circuit": "circuit_realizing", "omega_realize_formula_circuit": "circuit_realizing",
           "omega_run": "running"}

# The forms of the lines that begin at the left edge, beside comments: what is used, by names or by a short name of its
# module; what a library hands on, and its parts; a declaration; a case of a definition, which begins with its name; and
# the end of a record. All other lines are indented and belong to the definition above them.
USE = re.compile(r"(?:(?:ghost|pub) )?use (?:Rattle|mathlib|base|denote)\.([\w.]+?)(?:\.\{([^}]*)\}| as (\w+));?$")
LISTED = re.compile(r"pub use Rattle\.[\w.]+$|pub mod \w+$")
# A file of definitions that a crate hands on from another crate.
PASSED = re.compile(r"^pub use Rattle\.([\w.]+)$", re.MULTILINE)
# Names that a file hands on from another one.
HANDED = re.compile(r"^(pub use Rattle\..*\})$", re.MULTILINE)
DECLARED = re.compile(r"(?:(?:abbrev |unfoldable )?pub (?:record |data )?|(?=[^\s(:{]+ :))([^\s(:{]+)"
                      r"(?: [({].*[)}])?(?: :(?: |$)|$)")
CASE = re.compile(r"([^\s(:{]+)(?: .*)? =(?: |$)")
END = "}"
# A constructor of a definition of data.
PART = re.compile(r"  (?:pub )?([^\s:(]+)\s*:")
# An argument of a row, in parentheses or without, and one that is a variable.
ARGUMENT = re.compile(r"\(([^()]*)\)|([^\s()]+)")
VARIABLE = re.compile(r"[a-z]\w*")
WORD = re.compile(r"[^\s(){}\[\],;:=λ×→↔¬⊎]+")


CONTAINED = "containment, the laws `empty_means_contained` and `lassos_mean_not_contained`"
CONTROLLED = ("realizability, the laws `controllers_realize`, `counter_strategies_refute` and "
              "`controllers_exclude_counter_strategies`")
WRITTEN = ("written controllers, the laws `written_controllers_are_judged_right` and "
           "`written_controllers_are_not_at_fault`")

FRONT = """# What to read to believe it

A proof shows that the code does what the definitions say. It does not show that the definitions say what is meant:
that is for a reader to judge. This page says for each promise with which definitions to begin, and counts what has to
be read. It is made from the sources by `checks/believing.py`, and `checks/run pages` fails where it is no longer true.

The promise of a subcommand is its rows of the tables in `OneText.antt`, `Streams.antt`, `TwoTexts.antt`,
`Formulas.antt`, `Synthesis.antt` and `FormulaJudge.antt` of `crates/omega_run/specs`, one for each kind: what reads one
text, a stream, another text and that of the input, formulas and that of the input, a formula whose names are parted, or
such a formula and the text of the input. A row says what is written, or which refusal comes; where a command reads two
texts there is a row for each of the two. The definitions that these rows cite are those to begin with. They, and those
that they cite in turn, are all that the promise rests on. A line is a line of a definition or of its comment; `use`
lines are not counted. The promises share most of their definitions: whoever has read one of them has read the greater
part of the next.

"""

BEHIND = """The first row is a law of the solvers of the library. The program's row says the same of its answers in
words of its own, and the law `answers_are_of_solvers` of `omega_solve` joins the two. The row of `read_words` is its
contract, by which the words of the command line say what is to be done. The row of `obey` is all that the program does
once its words are read: it contains every subcommand, the exit statuses, the lines of refusals, progress, and streams
that fail. The rows of the library are the contracts of what it exports for C; that of `omega_run` is about the whole
program.

The row of containment is what the answers of `complement`, `meet` and `empty` say of two texts, one after the other. It
counts what texts, runs and words are. What a product and a complement are is not among it, since the laws say what the
answers mean. The rows of the library's calls `contained`, `equal`, `translate`, `satisfies`, `realize` and `judge` are
their answers alone. Their refusals are not counted: those of the first two are those of `complement`, `product` and
`lasso`, and rest on what these are.

The row of realizability is what a controller and a counter-strategy are good for: the system realizes the automaton,
or is refuted. That the one or the other is there is what `realize` answers, and the row of that call counts what the
two are. No row of these has a definition of a game. Whoever has read what lassos, runs and words are needs in addition,
of `omega_synth_controllers`, `AgreeOnInputs`, `Answers`, `IsMet`, `IsKeptCycle`, `is_accepted`, `HasAnswer`, `IsController`
and `IsCounterStrategy`. For the laws there are also `System`, `so_far`, `is_controlled`, `joined`, `word_of`,
`RealizesBy`, `IsRefuted` and `LimitedPrincipleOfOmniscience`, and what a deterministic automaton is. Which of the letters that win a
counter-strategy has is said by definitions of letters alone, in `omega_synth_game`. Games are read in the row
`omega realize` for its refusals alone, such as a game that is too large or a budget that is used up.

The row of written controllers counts what a text of an automaton is. The answers and refusals of the two commands are
not among it: they are those of the rows `omega realize` and `omega verify --specification`.

The rows by a law of one command count what its answer means, and not how it is put: whoever has read what a text of an
automaton is, and the words of the law, knows what `yes` and `no` say. Refusals are not among it. The row of the command
counts the answer with its reasons, and all refusals. The laws of `omega_laws` on one command are said of the automaton
that a text describes (`Describes`), so that which texts are faulty need not be read. That there is such an automaton
wherever there is an answer is among them. That all automata that one text describes accept the same words is the law
`described_automata_are_alike`. The law of `realize -f` has no automaton and no game: it needs what a formula means, and
what strategies over its names are.

**How to read one.** `checks/believing.py check --format pg` prints all definitions of that promise, in an order in
which nothing is cited before it was read. `checks/believing.py --whole` lists for each promise the files of
`crates/CRATE/specs/` in this order, how many lines of each file are needed, and the types of the code that they name.
These are enums and structs without behaviour of their own; they are declared in `src/` of the crates.
[definitions.md](definitions.md) says the same in plain words, and [promises.md](promises.md) leads from each promise to
its clause.

**What lies outside**, and has to be trusted or is tested:

- the toolchain: its prover, its compiler, its standard library with the words that
  contracts cite (`List`, `Option`, numbers), and the crates `clap`, `indexmap`, `itoa`, `smallvec` and `thiserror`
  with their contracts;
- that the definitions of `clap` for what it makes of words (`subcommand_of`, `fault_of`) are what one expects of a
  command line. In these words `read_words` is proved: what it gives is what the words request
  (`IsRequested`), for the subcommands and options of `crates/omega_cli/specs/Program.antt`;
- the texts of help and of faults of the command line, which are tested;
- `main`, which hands `read_words` the words that the program was started with, and `obey` the machine's streams and
  files. Of these the toolchain says nothing; that they are the right ones is tested;
- for the library, what `include/omega.h` asks of its callers: each pointer leads to as many entries as the length
  beside it says, what a call writes overlaps nothing else, nobody writes what a call reads while it runs, and an
  `omega_text` begins as nulls, is not copied, and is written by the library alone. No proof sees the caller;
- the package in `python/omega/`, which turns Python's values into such arrays and texts, and back. It is not proved;
  `checks/run libomega` and `checks/run python` test it.

**Crate by crate**, in the order of reading: how much of each crate the promises of the subcommands need together, and
how many of these promises need some of it.

"""


# A module and a name of it; and what is cited: a definition of the repository, or a type that the code declares.
Place = tuple[str, str]
Rows = tuple[str, ...]


class NotUnderstood(ValueError):
    """A line of a file that has no form that is known here."""

    def __init__(self, file: str, number: int, line: str) -> None:
        super().__init__(f"{file}:{number}: this line is not understood: {line}")


@dataclass
class Definition:
    """A definition with its comment: where it stands, its lines, and the names that it may cite."""

    module: str
    name: str
    # The number of the first line.
    begins: int
    comment: list[str]
    lines: list[str]
    names: "Names"

    def not_understood(self, index: int) -> NotUnderstood:
        return NotUnderstood(file_of(self.module), self.begins + index, self.lines[index])

    def size(self) -> int:
        return sum(1 for line in [*self.comment, *self.lines] if line.strip())

    def words(self, only: Rows | None = None) -> list[str]:
        """The words of its body; where rows are asked for, those of the rows for these arguments."""
        lines = self.lines if only is None else self.rows(only)
        return [word.rstrip(".") for line in lines for word in WORD.findall(line.split(" -- ")[0])]

    def rows(self, arguments: Rows) -> list[str]:
        """The rows of a definition by cases whose argument begins so, perhaps after the definition's name and a colon,
        without their left sides."""
        rows, is_wanted = [], False
        for index, line in enumerate(self.lines):
            begun = self.row_at(index)
            if begun:
                is_wanted = self.is_chosen(begun[0], arguments)
            if is_wanted:
                rows.append(begun[1] if begun else line)
        return rows

    def is_chosen(self, argument: str, beginnings: Rows) -> bool:
        """Whether the row of this argument is one of those that begin so."""
        return begins_with_one(argument, beginnings) or begins_with_one(f"{self.name}: {argument}", beginnings)

    def row_at(self, index: int) -> tuple[str, str] | None:
        """The argument by which a row is chosen, which is the first that is no variable, and what stands behind its
        `=`; or nothing where a line begins no row."""
        line = self.lines[index]
        if not line.startswith(f"{self.name} "):
            return None
        left, equals, right = line[len(self.name) + 1:].partition(" =")
        arguments = [one or other for one, other in ARGUMENT.findall(left)]
        if not equals or not arguments:
            raise self.not_understood(index)
        return next((one for one in arguments if not VARIABLE.fullmatch(one)), arguments[0]), right


Believed = Definition | Place


@dataclass
class Promise:
    """A promise: the definitions with which it begins, and all that it rests on."""

    label: str
    begins: list[Believed]
    believed: list[Believed]

    def sizes(self) -> tuple[int, int, int]:
        """How many definitions, lines and files it rests on."""
        held = definitions_of(self.believed)
        return len(held), sum(one.size() for one in held), len({one.module for one in held})

    def begins_with(self) -> str:
        """The definitions with which it begins, with the files that have them."""
        files: dict[str, dict[str, None]] = {}
        for one in definitions_of(self.begins):
            files.setdefault(one.module, {})[f"`{one.name}`"] = None
        return "; ".join(f"{', '.join(names)} (`{file_of(module).removeprefix('crates/')}`)"
                         for module, names in sorted(files.items()))


def definitions_of(believed: Iterable[Believed]) -> list[Definition]:
    """Those that are definitions, and no types of the code."""
    return [one for one in believed if isinstance(one, Definition)]


def begins_with_one(argument: str, beginnings: Rows) -> bool:
    """Whether an argument begins with one of these, word by word."""
    return any(f"{argument} ".startswith(f"{one} ") for one in beginnings)


@dataclass
class Names:
    """What the `use` lines of a file give: a module and a name for each name, and a module for each short name."""

    given: dict[str, Place] = field(default_factory=dict)
    short: dict[str, str] = field(default_factory=dict)

    def take(self, line: str) -> None:
        found = USE.match(line.strip())
        if found and found.group(3):
            self.short[found.group(3)] = defining_module(found.group(1))
        elif found and found.group(2) is not None:
            for one in found.group(2).split(","):
                theirs, _, ours = one.strip().partition(" as ")
                if theirs:
                    self.given[ours.strip() or theirs] = (defining_module(found.group(1)), theirs)

    def place_of(self, module: str, word: str) -> Place:
        """The module and the name that a word stands for."""
        front, _, behind = word.partition(".")
        if behind and front in self.short:
            return self.short[front], behind
        return self.given.get(word, (module, word))


def definitions_in(module: str, text: str) -> list[Definition]:
    """The definitions of a file, each with the comment above it."""
    names, made = Names(), list[Definition]()
    held: Definition | None = None
    comment: list[str] = []
    for number, line in enumerate(text.split("\n"), 1):
        declared, case = DECLARED.match(line), CASE.match(line)
        if line.startswith("--"):
            held, comment = None, [*comment, line]
        elif not line.strip() or USE.match(line) or LISTED.match(line):
            names.take(line)
            held, comment = None, []
        elif held and (line.startswith(" ") or line == END or case and case.group(1) == held.name):
            held.lines.append(line)
        elif declared and not line.startswith(" "):
            held = Definition(module, declared.group(1), number, comment, [line], names)
            made.append(held)
            comment = []
        else:
            raise NotUnderstood(file_of(module), number, line)
    return made


def module_of(path: str) -> str:
    return os.path.relpath(path, os.path.join(ROOT, "crates"))[:-len(".antt")].replace(os.sep, ".")


def file_of(module: str) -> str:
    return f"crates/{module.replace('.', '/')}.antt"


@functools.cache
def passed_on(crate: str) -> dict[str, str]:
    """The modules that the specs of a crate hand on from other crates, by the names that they have there."""
    try:
        with open(os.path.join(ROOT, "crates", crate, "specs", "Lib.antt"), encoding="utf-8") as file:
            modules = PASSED.findall(file.read())
    except FileNotFoundError:
        return {}
    return {f"{crate}.specs.{module.rpartition('.')[2]}": module for module in modules}


def defining_module(module: str) -> str:
    """The module that has the definitions of one that a crate may hand on."""
    return passed_on(module.partition(".")[0]).get(module, module)


class Sources:
    """All definitions of the repository."""

    def __init__(self) -> None:
        self.held: dict[Place, Definition] = {}
        self.parts: dict[Place, Definition] = {}
        self.handed: dict[Place, Place] = {}
        for path in sorted(glob.glob(os.path.join(ROOT, "crates", "*", "specs", "**", "*.antt"), recursive=True)):
            with open(path) as file:
                text, module = file.read(), module_of(path)
            for one in definitions_in(module, text):
                if (one.module, one.name) in self.held:
                    raise one.not_understood(0)
                self.held[one.module, one.name] = one
                self.parts |= {(one.module, part): one for part in parts_of(one)}
            passed = Names()
            for line in HANDED.findall(text):
                passed.take(line)
            self.handed |= {(module, name): place for name, place in passed.given.items()}

    def cited(self, definition: Definition, only: Rows | None = None) -> Iterator[Believed]:
        """The definitions and the declared types that a definition cites."""
        for word in definition.words(only):
            place = definition.names.place_of(definition.module, word)
            while place in self.handed and place not in self.held:
                place = self.handed[place]
            found = self.held.get(place) or self.parts.get(place)
            if found and found is not definition:
                yield found
            elif ".specs.declared." in place[0]:
                yield type_of(place[0])
            elif not found and is_of_repository(place[0]) and place[0] != definition.module:
                raise ValueError(f"{file_of(definition.module)}: {word} is used and is not in {file_of(place[0])}")

    def reached(self, begun: Iterable[Believed], without: frozenset[str] = frozenset()) -> list[Believed]:
        """All that is cited from these on, without the definitions of some names and what they alone cite."""
        found: dict[Place, Believed] = {}
        waiting = list(begun)
        while waiting:
            one = waiting.pop()
            key = (one.module, one.name) if isinstance(one, Definition) else one
            if key not in found and key[1] not in without:
                found[key] = one
                waiting += self.cited(one) if isinstance(one, Definition) else []
        return [one for one in found.values()]

    def rows_cite(self, arguments: Rows) -> list[Believed]:
        """What the rows of the tables cite for these commands."""
        cited = [one for table in TABLES for one in self.cited(self.held[table], arguments)]
        if not cited:
            raise ValueError(f"no table has a row for {arguments}")
        return cited


def is_of_repository(module: str) -> bool:
    """Whether a module is a specs file here: not the toolchain's, nor made by it from the code and its contracts."""
    is_made = ".specs.declared." in module or ".specs.contracts." in module
    return os.path.isdir(os.path.join(ROOT, "crates", crate_of(module))) and not is_made


def parts_of(definition: Definition) -> Iterator[str]:
    """The constructors of a definition of data: whoever cites one cites the definition."""
    if not definition.lines[0].startswith(("pub data ", "data ")):
        return
    for index, line in enumerate(definition.lines[1:], 1):
        found = PART.match(line)
        if found:
            yield found.group(1)
        elif not line.startswith(("    ", "  -- ")):
            raise definition.not_understood(index)


def type_of(module: str) -> Place:
    """A type that is declared in the code, by its module."""
    path = module.removesuffix(".TheVariants")
    return path, path.rpartition(".")[2]


def placed_behind(items: set[str], cited: Callable[[str], set[str]]) -> list[str]:
    """The items in an order in which each stands after those that it cites."""
    ordered: list[str] = []
    seen: set[str] = set()

    def put(item: str) -> None:
        if item not in seen:
            seen.add(item)
            for other in sorted(cited(item) & items):
                put(other)
            ordered.append(item)

    for item in sorted(items):
        put(item)
    return ordered


def in_order(sources: Sources, believed: list[Believed]) -> list[tuple[str, list[tuple[str, list[Definition]]]]]:
    """The definitions by their crates and files, each crate and each file after those that it cites."""
    files: dict[str, list[Definition]] = {}
    for one in believed:
        if isinstance(one, Definition):
            files.setdefault(one.module, []).append(one)

    def below(module: str) -> set[str]:
        cited = [one for held in files[module] for one in sources.cited(held) if isinstance(one, Definition)]
        return {one.module for one in cited} - {module}

    def crates_below(crate: str) -> set[str]:
        return {crate_of(other) for module in files if crate_of(module) == crate for other in below(module)} - {crate}

    crates = placed_behind({crate_of(module) for module in files}, crates_below)
    placed = placed_behind(set(files), below)
    return [(crate, [(module, files[module]) for module in placed if crate_of(module) == crate]) for crate in crates]


def crate_of(module: str) -> str:
    return module.partition(".")[0]


def clause_words(path: str, function: str) -> Definition:
    """A definition that stands for the clauses of a function of the code."""
    names, lines, begins = Names(), list[str](), 0
    with open(os.path.join(ROOT, path)) as file:
        for number, line in enumerate(file.read().split("\n"), 1):
            if line.startswith("ghost use ") and not USE.match(line):
                raise NotUnderstood(path, number, line)
            names.take(line)
            begins = begins or number * bool(re.match(rf'pub (extern "C" )?fn {function}\b', line))
            if begins and line.startswith("{"):
                return Definition("", function, begins, [], lines, names)
            if begins:
                lines.append(line)
    raise ValueError(f"{path} has no function {function} whose body begins at the left edge")


def check_rows(answers: Definition) -> None:
    """Each row of a table is one of a promise."""
    known = tuple(one for arguments in COMMANDS.values() for one in arguments)
    for index in range(len(answers.lines)):
        row = answers.row_at(index)
        if row and not answers.is_chosen(row[0], known):
            raise answers.not_understood(index)


def promises(sources: Sources) -> Iterator[Promise]:
    """Each promise with all that it rests on."""

    def promise(label: str, begins: Iterable[Believed], without: frozenset[str] = frozenset()) -> Promise:
        begun = list(begins)
        return Promise(label, begun, sources.reached(begun, without))

    for table in TABLES:
        check_rows(sources.held[table])
    yield promise(HEADLINE_ROW, [sources.held[HEADLINE]])
    for label, arguments in COMMANDS.items():
        yield promise(f"`omega {label}`", sources.rows_cite(arguments))
    yield promise(CONTAINED, [sources.held[CONTAINMENT, law] for law in CONTAINMENT_LAWS], CONTAINMENT_ANSWERS)
    yield promise(CONTROLLED, [sources.held[CONTROLLERS, law] for law in CONTROLLER_LAWS])
    written = [sources.held[WRITTEN_CONTROLLERS, law] for law in WRITTEN_CONTROLLER_LAWS]
    yield promise(WRITTEN, written, WRITTEN_CONTROLLER_ANSWERS)
    for label, (module, law, answers) in EXACT.items():
        yield promise(label, [sources.held[module, law]], answers)
    for call, answer in CALLS.items():
        yield promise(f"answers of {call}", [sources.held[answer]])
    read_words = clause_words("crates/omega_cli/src/words.rt", "read_words")
    yield promise("the words of the command line, `read_words`", sources.cited(read_words))
    obey = clause_words("crates/omega_run/src/obeying.rt", "obey")
    yield promise("the whole program, `obey`", sources.cited(obey))
    for export, file in EXPORTS.items():
        clauses = clause_words(f"crates/omega/src/{file}.rt", export)
        yield promise(f"`{export}` of the library", sources.cited(clauses))


def types_in(believed: list[Believed]) -> list[str]:
    """The names of the types that are declared in the code of the repository."""
    declared = [one for one in believed if not isinstance(one, Definition)]
    return sorted({name for module, name in declared if os.path.exists(os.path.join(ROOT, "crates", crate_of(module)))})


def section_of(sources: Sources, promise: Promise) -> Iterator[str]:
    """What is said of a promise at length: its files crate by crate, each with its lines."""
    definitions, lines, files = promise.sizes()
    yield f"## {promise.label[0].upper() + promise.label[1:]}\n\n"
    yield f"{definitions} definitions, {lines:,} lines in {files} files:\n\n"
    for crate, modules in in_order(sources, promise.believed):
        listed = ", ".join(f"`{module.partition('.specs.')[2].replace('.', '/')}` {sum(one.size() for one in held)}"
                           for module, held in modules)
        yield f"- `{crate}`: {listed}\n"
    types = ", ".join(f"`{name}`" for name in types_in(promise.believed))
    yield f"\nTypes of the code: {types or 'none'}.\n\n"


def unwrapped(text: str) -> str:
    """The text with a line for each paragraph and for each item of a list."""
    return re.sub(r"(?<!\n)\n(?! *[-\n#]|\Z) *", " ", text)


def page() -> Iterator[str]:
    """The page, as it has to be."""
    yield unwrapped(FRONT)
    yield "| Promise | Begin with | Definitions | Lines | Files |\n|---|---|---|---|---|\n"
    sources = Sources()
    found = list(promises(sources))
    for promise in found:
        definitions, lines, files = promise.sizes()
        beside = BESIDE_HEADLINE if promise.label == HEADLINE_ROW else ""
        yield f"| {promise.label}{beside} | {promise.begins_with()} | {definitions} | {lines:,} | {files} |\n"
    yield "\n" + unwrapped(BEHIND)
    yield from crates_table(sources, [promise for promise in found if promise.label.startswith("`omega ")])


def crates_table(sources: Sources, found: list[Promise]) -> Iterator[str]:
    """The crates in the order of reading, each with what these promises need of it, and how many of them do."""
    needed = {(one.module, one.name): one for promise in found for one in definitions_of(promise.believed)}
    needing = Counter(crate for promise in found
                      for crate in {crate_of(one.module) for one in definitions_of(promise.believed)})
    yield "| Crate | Definitions | Lines | Promises |\n|---|---|---|---|\n"
    for crate, modules in in_order(sources, list(needed.values())):
        held = [one for _, definitions in modules for one in definitions]
        yield f"| `{crate}` | {len(held)} | {sum(one.size() for one in held):,} | {needing[crate]} |\n"


def whole() -> Iterator[str]:
    """What the page does not say: the files of each promise, in the order of reading."""
    sources = Sources()
    for promise in promises(sources):
        yield from section_of(sources, promise)


def printed(wanted: str) -> Iterator[str]:
    """The definitions of a promise themselves, in the order of reading."""
    sources = Sources()
    for promise in promises(sources):
        names = [*promise.label.split("`"), promise.label]
        if wanted in names or f"omega {wanted}" in names:
            for _, modules in in_order(sources, promise.believed):
                for module, held in modules:
                    yield f"\n==== {file_of(module)}\n"
                    for one in held:
                        yield "\n" + "".join(line + "\n" for line in [*one.comment, *one.lines])
            return
    raise SystemExit(f"no promise has the name {wanted}")


def believing_checks() -> Cases:
    """That the page says what is so."""
    with open(os.path.join(ROOT, PAGE)) as file:
        came = file.read()
    try:
        good = came == "".join(page())
    except ValueError as why:
        yield PAGE, str(why)
        return
    yield f"{PAGE}, its length", None if came.count("\n") <= MOST_LINES else f"it has over {MOST_LINES} lines"
    yield PAGE, None if good else "the sources say something else: run checks/believing.py, and read what changed"


def main() -> None:
    if len(sys.argv) > 1:
        asked = " ".join(sys.argv[1:])
        print("".join(whole() if asked == "--whole" else printed(asked)), end="")
        return
    made = "".join(page())
    with open(os.path.join(ROOT, PAGE), "w") as file:
        file.write(made)


if __name__ == "__main__":
    try:
        main()
    except ValueError as why:
        sys.exit(str(why))
