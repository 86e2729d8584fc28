/* libomega: parity games as arrays, solved and judged; omega-automata, formulas and circuits as texts, combined,
 * decided and judged; and the program omega as a function. For C and C++.
 *
 * Link with libomega.a, which needs nothing but the C library, or with libomega.so; `make libomega` makes both. There is
 * no state and no thread: calls may be made from any thread at once, but not from a signal handler, and after a fork in
 * the child only if its parent had one thread. A call cannot be stopped. A budget bounds its lifts; the search has no
 * budget.
 *
 * What every call needs of its caller: pointers are not null, also where the length after them is 0, and aligned for
 * their type, and what they point to has that length. What a call writes overlaps nothing else that the call is given.
 * Nothing else writes, while a call runs, to what it reads: entries are judged first, and then read again with no test.
 * malloc, realloc and free are those of one allocator. No call keeps a pointer.
 *
 * How much stack a call needs: 64 KiB is enough for each, whatever the text is. Games need 32 KiB.
 *
 * What every call gives: an outcome whose number is 0, or that of a refusal, and then nothing was written.
 */
#ifndef OMEGA_H
#define OMEGA_H

#include <stddef.h>
#include <stdint.h>

#ifdef __cplusplus
extern "C" {
#endif

/* The version of this header, as omega_version writes that of the library. */
#define OMEGA_VERSION "1.6.0"

/* The numbers of refusals. */
enum {
    /* of a text */
    OMEGA_LEX = 1,                   /* the bytes at the place begin no token */
    OMEGA_NUMBER = 2,                /* the digits at the place are no number */
    OMEGA_SYNTAX = 3,                /* the tokens are not in the grammar from the place on */
    OMEGA_TOO_LONG = 4,              /* over 16,777,216 bytes */
    /* of a game */
    OMEGA_TOO_MANY_NODES = 13,       /* over 1,048,576 nodes */
    OMEGA_TOO_MANY_EDGES = 14,       /* over 8,388,608 successors */
    /* of an automaton */
    OMEGA_VERSION_UNKNOWN = 20,      /* the version of the format is not v1 */
    OMEGA_REPEATED_HEADER = 21,      /* an item that may not repeat does */
    OMEGA_MISSING_ACCEPTANCE = 22,   /* no item Acceptance: */
    OMEGA_UNKNOWN_HEADER = 23,       /* an unknown item that begins with a capital */
    OMEGA_STATE_RANGE = 24,          /* the number of a state is not below their count */
    OMEGA_SET_RANGE = 25,            /* the number of a set is not below their count */
    OMEGA_PROPOSITION = 26,          /* propositions miscounted, alike or over 1,024, or a number out of range */
    OMEGA_ALIAS = 27,                /* an alias undefined where it is used, or defined twice */
    OMEGA_STATE_TWICE = 28,          /* a state is defined twice */
    OMEGA_MIXED_LABELS = 29,         /* labels on a state and on its edges, or on some of its edges alone */
    OMEGA_IMPLICIT_COUNT = 30,       /* edges without labels that are not one for each valuation */
    OMEGA_ACCEPTANCE_ATOM = 31,      /* an acceptance atom that is neither Fin nor Inf */
    OMEGA_TOO_DEEP = 32,             /* an expression over 256 deep */
    OMEGA_EXPANSION = 33,            /* labels that are too large once aliases are replaced */
    /* of a task */
    OMEGA_NOT_PARITY = 40,           /* the acceptance is of no parity kind */
    OMEGA_UNIVERSAL_BRANCH = 41,     /* a start or an edge lists two states or more */
    OMEGA_TOO_MANY_PROPOSITIONS = 42, /* it is not decided whether a label can hold */
    OMEGA_TOO_WIDE = 50,             /* a table of measures would be too wide for one of the players */
    OMEGA_BUDGET = 51,               /* a lift is due once the whole budget is used up */
    OMEGA_BAD_SOLUTION = 53,         /* the arrays hold no solution of the game */
    OMEGA_TOO_LARGE = 55,            /* what would be made is over a limit of automata */
    OMEGA_NOT_DETERMINISTIC = 56,    /* two starts, or two edges of a state for one letter: `place` is the state */
    OMEGA_BAD_SHAPE = 57,            /* an entry of an array is wrong: `array` and `place` say which */
    OMEGA_CONTROLLABLE = 58,         /* the item controllable-AP: is refused, or missing */
    OMEGA_UNJUDGED = 59,             /* what a search found is not what was asked for: a fault of the library */
    OMEGA_MEMORY = 60,               /* a request for memory was refused */
    /* of a circuit */
    OMEGA_VARIABLES = 70,            /* the count of variables does not fit, or is over 16,777,216 */
    OMEGA_LITERAL_RANGE = 71,        /* a literal or a delta is out of range */
    OMEGA_DEFINED = 72,              /* a constant, or a variable a second time, is defined */
    OMEGA_UNDEFINED = 73,            /* a literal of no input, latch or gate is used */
    OMEGA_CYCLE = 74,                /* a gate uses itself, through gates */
    OMEGA_RESET = 75,                /* a reset is neither 0 nor 1 */
    OMEGA_SYMBOL = 76,               /* a symbol of a position that is out of range or has one already */
    OMEGA_PROPERTIES = 77,           /* bad properties, constraints, justice or fairness */
    OMEGA_NAME = 78                  /* a name that the other format cannot have */
};

/* The entry of a choice that is none. */
#define OMEGA_NO_CHOICE UINT32_C(0xFFFFFFFF)

/* The arrays, as `array` of an outcome numbers them. */
enum {
    OMEGA_PRIORITIES = 0,
    OMEGA_OWNERS = 1,
    OMEGA_STARTS = 2,
    OMEGA_SUCCESSORS = 3,
    OMEGA_WINNERS = 4,
    OMEGA_CHOICES = 5
};

/* A game of n nodes, which are the places 0 to n - 1. With 57 is refused, at the first entry that is wrong: no node at
 * all; not n owners or not n + 1 starts, at the first that is missing or too many; then a priority over 2,147,483,647;
 * an owner over 1; a first start that is not 0, a start that is not above the one before, so that a node has no
 * successor, or a last start that is not the number of successors; a successor that is no place. */
typedef struct omega_game {
    const uint32_t *priorities; /* of each node */
    size_t priority_count;      /* n */
    const uint8_t *owners;      /* of each node, 0 or 1 */
    size_t owner_count;         /* n */
    const uint32_t *starts;     /* where the successors of each node begin, and at last the number of all */
    size_t start_count;         /* n + 1 */
    const uint32_t *successors; /* the places, those of the first node first */
    size_t successor_count;     /* the number of all */
} omega_game;

/* How a call ended. */
typedef struct omega_outcome {
    uint32_t number; /* 0, or the number of the refusal */
    uint32_t array;  /* with 57, which array; else 0 */
    uint64_t place;  /* with 57, the index of the wrong entry; else 0 */
} omega_outcome;

/* How many lifts the run for each player made: none where a search gave the solution, or lifting for both in turns. */
typedef struct omega_lifts {
    uint64_t zero;
    uint64_t one;
} omega_lifts;

/* What is said of a solution. */
typedef struct omega_verdict {
    uint32_t is_right; /* 1 if each player's choices win from all nodes given to that player, or else 0 */
    uint32_t player;   /* with 0, the least player whose choices do not */
    uint64_t stem;     /* with 0, how many places the stem has */
    uint64_t cycle;    /* with 0, how many places the cycle has */
} omega_verdict;

/* The most lifts of a run: `high` times 2^64 and `low`. `fits` is 1, or 0 where that is over 128 bits; both halves are
 * 0 then. */
typedef struct omega_bound_of {
    uint64_t low;
    uint64_t high;
    uint64_t fits;
} omega_bound_of;

typedef struct omega_bounds {
    omega_bound_of zero;
    omega_bound_of one;
} omega_bounds;

/* What a run of the program left. */
typedef struct omega_ran {
    uint32_t status; /* the exit status */
    uint64_t output; /* how many bytes it wrote to standard output */
    uint64_t errors; /* how many bytes it wrote to standard error */
} omega_ran;

/* Solves a game for both players. Writes the winner of each node, 0 or 1, and the winner's choice there, or
 * OMEGA_NO_CHOICE where the winner does not own the node; winner_count and choice_count are n. With by_search not 0 a
 * fast search is tried first, whose answer is checked and which makes no lifts; else, or where it gives none, the game
 * is solved by lifting, with at most `budget` lifts for each player (above 2^40: 2^40). Where the search gives none and
 * the budget is 2^40 or above, the players are lifted for in turns, whatever that takes. In each way a node is given to
 * the player in whose region it is, and the choices win from all of it. Refuses 57, 13, 14, 50, 51, 60.
 *
 * The search takes time near (n + m) log (n + m) for m successors; lifting takes as long as its lifts. */
omega_outcome omega_solve(const omega_game *game, uint8_t by_search, uint64_t budget, uint8_t *winners,
                          size_t winner_count, uint32_t *choices, size_t choice_count, omega_lifts *lifts);

/* Judges a solution of anyone's making, without solving the game: whether for each player the choices win from all
 * nodes given to that player. Where they do not, it writes the places of a walk that the choices leave possible (the
 * stem) to a cycle on which the player loses, and those of the cycle, whose last leads back to its first: as many of
 * each as there is room for. The verdict has their numbers; if one is above the room, which may be so even with room
 * for n, ask again with more. A choice has to stand exactly where the winner owns the node, and to be one of its
 * successors, else 53. Refuses 57, 13, 14, 53, 60. The time is near (n + m) log d for d priorities. */
omega_outcome omega_verify(const omega_game *game, const uint8_t *winners, size_t winner_count,
                           const uint32_t *choices, size_t choice_count, omega_verdict *verdict, uint32_t *stem,
                           size_t stem_room, uint32_t *cycle, size_t cycle_room);

/* The most lifts that lifting makes for each player. Refuses 57, 13, 14, 60. */
omega_outcome omega_bound(const omega_game *game, omega_bounds *bounds);

/* A text that the library made, or none: so it begins, as OMEGA_NO_TEXT. Each call below that is given one takes back
 * what was there, once it has a text to put there. omega_free takes it back for good, and leaves none. So nothing
 * leaks, and nothing is freed twice, as long as there is no copy of this struct, and no one else writes to it or to the
 * bytes. */
typedef struct omega_text {
    const uint8_t *bytes; /* not ended by a NUL */
    size_t length;
    void *held; /* the library's own */
} omega_text;

#define OMEGA_NO_TEXT {NULL, 0, NULL}

/* How a call ended that is given one text or two. */
typedef struct omega_text_outcome {
    uint32_t number; /* 0, or the number of the refusal */
    uint32_t text;   /* which text is refused: 1 for the first, 2 for the second, 0 where it is about neither */
    uint64_t place;  /* with 1 to 3 the index of the byte, with 56 the number of the state, else OMEGA_NO_PLACE */
} omega_text_outcome;

#define OMEGA_NO_PLACE UINT64_C(0xFFFFFFFFFFFFFFFF)

/* Automata are texts in the Hanoi format, version 1. Propositions that have one name are the same in both texts. What
 * is made is in the canonical form, which each call reads again within the limit of texts, 16,777,216 bytes. Each call
 * refuses 1 to 4 and 20 to 33 for a text, 41, 42 and 60; what else it refuses is said there. */

/* Gives `empty` if the automaton accepts no word, whatever its acceptance. Else gives an accepting lasso, which are two
 * lines with the numbers of edges, `stem` and `cycle`, and with `word` not 0 a line with its word. */
omega_text_outcome omega_empty(const uint8_t *text, size_t text_bytes, uint8_t word, omega_text *out);

/* Gives the product, which accepts a word exactly if both automata accept their part of it. Refuses 55 too. */
omega_text_outcome omega_meet(const uint8_t *text, size_t text_bytes, const uint8_t *other, size_t other_bytes,
                              omega_text *out);

/* Gives the complement of a deterministic automaton. Refuses 55 and 56 too. */
omega_text_outcome omega_complement(const uint8_t *text, size_t text_bytes, omega_text *out);

/* Whether each word that the automaton of `text` accepts is accepted by that of `other`, which is deterministic. Writes
 * 1 or 0 into `verdict`, and gives a line, `yes` or `no`. With `explain` not 0 the lines of a lasso of the first
 * automaton follow `no`, with a word that the other does not accept. Refuses 55 and 56 too. */
omega_text_outcome omega_contained(const uint8_t *text, size_t text_bytes, const uint8_t *other, size_t other_bytes,
                                   uint8_t explain, uint32_t *verdict, omega_text *out);

/* Whether two deterministic automata accept the same words. The same as omega_contained each way round; with `explain`
 * not 0 the line `accepted by input` or `accepted by file` stands after `no`, for the first text or the second. */
omega_text_outcome omega_equal(const uint8_t *text, size_t text_bytes, const uint8_t *other, size_t other_bytes,
                               uint8_t explain, uint32_t *verdict, omega_text *out);

/* Formulas are texts of linear temporal logic as Spot has them, and each call that is given one refuses 1, 3, 4, 32 and
 * 55 for it, and 60. */

/* Gives the canonical text of the formula, without a line feed. */
omega_text_outcome omega_formula(const uint8_t *formula, size_t formula_bytes, omega_text *out);

/* Gives an automaton that accepts exactly the words that satisfy the formula; with `negated` not 0, exactly those that
 * do not. */
omega_text_outcome omega_ltl(const uint8_t *formula, size_t formula_bytes, uint8_t negated, omega_text *out);

/* Gives a deterministic automaton that accepts exactly the words that satisfy the formula, with the acceptance parity
 * min even. Refuses 42 too, 55 where a search or the judge of what it found passes a limit, and 59. */
omega_text_outcome omega_ltl_deterministic(const uint8_t *formula, size_t formula_bytes, omega_text *out);

/* Whether each word that the automaton of `text` accepts satisfies the formula, whose names are propositions. Writes 1
 * or 0 into `verdict`, and gives a line, `yes` or `no`. With `explain` not 0 the lines of a lasso of the automaton
 * follow `no`, with a word that does not satisfy the formula. The formula is the second text. Refuses what both texts
 * may be refused for. */
omega_text_outcome omega_satisfies(const uint8_t *text, size_t text_bytes, const uint8_t *formula, size_t formula_bytes,
                                   uint8_t explain, uint32_t *verdict, omega_text *out);

/* Whether some system keeps the specification, a deterministic parity automaton whose item controllable-AP: lists the
 * propositions that the system controls. Writes 1 into `verdict` and gives a controller, or writes 0 and gives a
 * counter-strategy of the environment, each as an automaton. Refuses 13, 14, 40, 50, 51, 55, 56 and 58 too. */
omega_text_outcome omega_realize(const uint8_t *text, size_t text_bytes, uint32_t *verdict, omega_text *out);

/* Whether some system satisfies the formula, whatever its environment does. `names` lists the names that the system
 * controls, each ended by a NUL, as in "grant\0busy\0"; with `inputs` not 0, those that the environment controls. All
 * others are the other side's. Writes 1 into `verdict` and gives a controller, or writes 0 and gives a counter-strategy
 * of the environment, each as an automaton, which is judged before it is given. Refuses 13, 14, 42, 50, 51, 58 and 59
 * too, 58 if a name is listed that the formula does not have. */
omega_text_outcome omega_realize_formula(const uint8_t *formula, size_t formula_bytes, const uint8_t *names,
                                         size_t name_bytes, uint8_t inputs, uint32_t *verdict, omega_text *out);

/* Circuits are texts in the AIGER format, in the ASCII form (aag) or the binary one (aig). A first line `REALIZABLE` is
 * passed over. Each call that is given one refuses 2 to 4 and 70 to 77 for it, and 60; what else it refuses is said
 * there. Where a call gives a circuit, it is in canonical form: with `binary` not 0 as aig, else as aag. */

/* Gives the canonical text of the circuit. Refuses 4 too if that would be too long. */
omega_text_outcome omega_circuit(const uint8_t *text, size_t text_bytes, uint8_t binary, omega_text *out);

/* Gives an automaton that accepts exactly the words of the circuit: its propositions are the inputs and the outputs. It
 * is deterministic, and answers each letter of the inputs in each state. Refuses 26 and 78 for names, and 55. */
omega_text_outcome omega_circuit_automaton(const uint8_t *text, size_t text_bytes, omega_text *out);

/* Whether the specification, a deterministic automaton, accepts each word of the circuit, whose inputs and outputs are
 * the propositions of the same names. Writes 1 or 0 into `verdict`, and gives a line, `yes` or `no`. With `explain` not
 * 0 the lines of a lasso of the circuit's automaton follow `no`, with a word that the specification does not accept.
 * The specification is the second text. Refuses what both texts may be refused for, 41, 42, 55, 56 and 78, and 58 if
 * the item controllable-AP: is refused, or if it gives an input to the system or an output to the environment. */
omega_text_outcome omega_verify_circuit(const uint8_t *circuit, size_t circuit_bytes, const uint8_t *specification,
                                        size_t specification_bytes, uint8_t explain, uint32_t *verdict,
                                        omega_text *out);

/* Whether each word of the circuit satisfies the formula. `names` and `inputs` say which names the system controls, as
 * for omega_realize_formula; all else is as for omega_verify_circuit. The formula is the second text. Refuses what both
 * texts may be refused for, 26, 42, 55 and 78, and 58 if a name is listed that the formula does not have, or if an
 * input has the name of an output of the formula, or an output that of an input. */
omega_text_outcome omega_verify_formula_circuit(const uint8_t *circuit, size_t circuit_bytes, const uint8_t *formula,
                                                size_t formula_bytes, const uint8_t *names, size_t name_bytes,
                                                uint8_t inputs, uint8_t explain, uint32_t *verdict, omega_text *out);

/* Whether some system keeps the specification, as omega_realize decides it. Writes 1 into `verdict` and gives a circuit
 * that does, to which omega_verify_circuit says yes; or writes 0 and gives the line `unrealizable`. Refuses what
 * omega_realize does, and 42, 55, 59, and 78 if the name of a proposition is empty or has a line feed. */
omega_text_outcome omega_realize_circuit(const uint8_t *text, size_t text_bytes, uint8_t binary, uint32_t *verdict,
                                         omega_text *out);

/* Whether some system satisfies the formula, as omega_realize_formula decides it, with names that are listed as there.
 * Writes 1 into `verdict` and gives a circuit that does, to which omega_verify_formula_circuit says yes; or writes 0
 * and gives the line `unrealizable`. Refuses what omega_realize_formula does, and 42, 55, 59, and 78 if a name is empty
 * or has a line feed. */
omega_text_outcome omega_realize_formula_circuit(const uint8_t *formula, size_t formula_bytes, const uint8_t *names,
                                                 size_t name_bytes, uint8_t inputs, uint8_t binary, uint32_t *verdict,
                                                 omega_text *out);

/* Takes a text back, if there is one, and leaves none. */
void omega_free(omega_text *text);

/* Does what the program does with a command line. Its words after the program's name are each ended by a NUL, as in
 * "solve\0--search"; what stands after the last NUL is not read. The input is standard input; each file that the
 * words name, the operand too, has the text `file`, whatever its name. Copies what it writes as far as there is room
 * for it; where a length that it gives is greater than the room, ask again with more. No read and no write fails: where
 * there is no memory for what is written, the status is 4 and the line is that of 60, never 5 and that of 61. */
omega_ran omega_run(const uint8_t *words, size_t word_bytes, const uint8_t *input, size_t input_bytes,
                    const uint8_t *file, size_t file_bytes, uint8_t *output, size_t output_room, uint8_t *errors,
                    size_t error_room);

/* Writes the version, as "1.6.0", without a NUL, as far as there is room for it, and gives its length. */
size_t omega_version(uint8_t *room, size_t room_bytes);

#ifdef __cplusplus
}
#endif

#endif
