/* Each call of the library once, on exact allocations, with its answer compared. With the argument `refused` a request
 * for memory may be refused: each call then ends with 60 and everything as before, or as with ample memory. With
 * `threads`, four threads make all calls side by side, again and again. */
#include "omega.h"

#include <pthread.h>
#include <stdio.h>
#include <stdlib.h>
#include <string.h>

static int may_be_refused;

#define WANT(holds)                                          \
    do {                                                     \
        if (!(holds)) {                                      \
            fprintf(stderr, "line %d: %s\n", __LINE__, #holds); \
            exit(1);                                         \
        }                                                    \
    } while (0)

/* A block that is exactly as long as what it holds, so that a read or a write past its end is seen. */
static void *held(const void *from, size_t size) {
    static char room[1 << 16];
    static size_t used;
    void *block = may_be_refused ? room + (used = (used + 15) / 16 * 16) : malloc(size ? size : 1);
    if (may_be_refused) used += size;
    memcpy(block, from, size);
    return block;
}

static const uint32_t priorities[] = {0, 1, 2};
static const uint8_t owners[] = {0, 1, 1};
static const uint32_t starts[] = {0, 2, 3, 4};
static const uint32_t successors[] = {1, 2, 0, 0};

static omega_game game(void) {
    omega_game made = {held(priorities, sizeof priorities), 3, held(owners, sizeof owners), 3,
                       held(starts, sizeof starts), 4, held(successors, sizeof successors), 4};
    return made;
}

/* Whether a call gave its answer; it may be refused for want of memory where a request is refused. */
static int answered(omega_outcome outcome) {
    WANT(outcome.array == 0 && outcome.place == 0);
    WANT(outcome.number == 0 || (may_be_refused && outcome.number == 60));
    return outcome.number == 0;
}

static void solve(uint8_t by_search) {
    static const uint8_t sevens[] = {7, 7, 7};
    static const uint32_t marks[] = {7, 7, 7};
    omega_game three = game();
    uint8_t *winners = held(sevens, sizeof sevens);
    uint32_t *choices = held(marks, sizeof marks);
    omega_lifts lifts = {7, 7};
    if (answered(omega_solve(&three, by_search, UINT64_MAX, winners, 3, choices, 3, &lifts))) {
        WANT(winners[0] == 0 && winners[1] == 0 && winners[2] == 0);
        WANT(choices[0] == 2 && choices[1] == OMEGA_NO_CHOICE && choices[2] == OMEGA_NO_CHOICE);
        WANT(by_search ? lifts.zero == 0 && lifts.one == 0 : lifts.one > 0);
    } else {
        WANT(memcmp(winners, sevens, sizeof sevens) == 0 && memcmp(choices, marks, sizeof marks) == 0);
        WANT(lifts.zero == 7 && lifts.one == 7);
    }
}

static void verify(uint32_t choice, size_t room) {
    static const uint8_t zeros[] = {0, 0, 0};
    static const uint32_t marks[] = {7, 7, 7};
    uint32_t chosen[] = {choice, OMEGA_NO_CHOICE, OMEGA_NO_CHOICE};
    omega_game three = game();
    uint32_t *stem = held(marks, room * sizeof *marks), *cycle = held(marks, room * sizeof *marks);
    omega_verdict verdict = {7, 7, 7, 7};
    if (answered(omega_verify(&three, held(zeros, sizeof zeros), 3, held(chosen, sizeof chosen), 3, &verdict, stem, room,
                              cycle, room))) {
        WANT(verdict.is_right == (choice == 2) && verdict.player == 0);
        WANT(choice == 2 ? verdict.cycle == 0 : verdict.cycle == 2);
        for (size_t at = 0; choice != 2 && at < room && at < verdict.cycle; at++) WANT(cycle[at] < 2);
    } else {
        WANT(memcmp(stem, marks, room * sizeof *marks) == 0 && memcmp(cycle, marks, room * sizeof *marks) == 0);
        WANT(verdict.is_right == 7 && verdict.player == 7 && verdict.stem == 7 && verdict.cycle == 7);
    }
}

static void bound(void) {
    omega_game three = game();
    omega_bounds bounds = {{7, 7, 7}, {7, 7, 7}};
    if (answered(omega_bound(&three, &bounds))) {
        WANT(bounds.zero.low == 6 && bounds.zero.high == 0 && bounds.zero.fits == 1);
        WANT(bounds.one.low == 12 && bounds.one.high == 0 && bounds.one.fits == 1);
    } else {
        WANT(bounds.zero.low == 7 && bounds.one.fits == 7);
    }
}

static void run(size_t room) {
    static const char words[] = "check\0--format\0pg", input[] = "0 0 0 0;", wanted[] = "accepted\n";
    static const char refused[] = "omega: 60 Memory\n";
    char blank[64] = {0};
    uint8_t *output = held(blank, room), *errors = held(blank, room);
    omega_ran ran = omega_run(held(words, sizeof words), sizeof words, held(input, sizeof input - 1), sizeof input - 1,
                              held(input, 0), 0, output, room, errors, room);
    if (ran.status == 0) {
        size_t seen = room < 9 ? room : 9;
        WANT(ran.output == 9 && ran.errors == 0 && memcmp(output, wanted, seen) == 0);
    } else {
        size_t seen = room < 17 ? room : 17;
        WANT(may_be_refused && ran.status == 4 && ran.output == 0);
        WANT(ran.errors == 17 && memcmp(errors, refused, seen) == 0);
    }
}

static void version(void) {
    uint8_t *room = held("xxxxxxxx", 8);
    size_t length = omega_version(room, 5);
    WANT(length == 5 && memcmp(room, "1.6.0xxx", 8) == 0);
    WANT(omega_version(room, 0) == 5);
}

/* The words with a again and again, and those that begin with a. */
static const char often[] =
    "HOA: v1 States: 1 Start: 0 AP: 1 \"a\" acc-name: Buchi Acceptance: 1 Inf(0)"
    " --BODY-- State: 0 [0] 0 {0} [!0] 0 --END--";
static const char first[] =
    "HOA: v1 States: 2 Start: 0 AP: 1 \"a\" acc-name: all Acceptance: 0 t"
    " --BODY-- State: 0 [0] 1 State: 1 [t] 1 --END--";
static const char controlled[] =
    "HOA: v1 States: 1 Start: 0 AP: 1 \"a\" controllable-AP: 0 acc-name: all Acceptance: 0 t"
    " --BODY-- State: 0 [0] 0 --END--";
static const char broken[] = "HOA: v1 ;";

#define TEXT(text) held(text, sizeof text - 1), sizeof text - 1

/* Whether a call gave its text, which begins so; or else, for want of memory, left what was there. */
static int gave(omega_text_outcome outcome, const omega_text *out, const char *begin, const omega_text *before) {
    if (outcome.number == 0) {
        WANT(outcome.text == 0 && outcome.place == OMEGA_NO_PLACE);
        WANT(out->length >= strlen(begin) && memcmp(out->bytes, begin, strlen(begin)) == 0 && out->held);
        return 1;
    }
    WANT(may_be_refused && outcome.number == OMEGA_MEMORY && outcome.text == 0 && outcome.place == OMEGA_NO_PLACE);
    WANT(out->bytes == before->bytes && out->length == before->length && out->held == before->held);
    return 0;
}

/* Each call that gives a text, all into one place: what was there is taken back. */
static void languages(void) {
    omega_text text = OMEGA_NO_TEXT, before = text;
    uint32_t yes = 7;
    gave(omega_empty(TEXT(often), 1, &text), &text, "stem\ncycle 0\nword cycle{a}\n", &before);
    before = text;
    gave(omega_complement(TEXT(first), &text), &text, "HOA: v1\nStates: 3\n", &before);
    before = text;
    gave(omega_meet(TEXT(often), TEXT(first), &text), &text, "HOA: v1\n", &before);
    before = text;
    if (gave(omega_contained(TEXT(first), TEXT(often), 1, &yes, &text), &text, "no\nstem", &before)) {
        WANT(yes == 0);
    } else {
        WANT(yes == 7);
    }
    before = text, yes = 7;
    if (gave(omega_equal(TEXT(often), TEXT(often), 0, &yes, &text), &text, "yes\n", &before)) WANT(yes == 1);
    before = text, yes = 7;
    if (gave(omega_realize(TEXT(controlled), &yes, &text), &text, "HOA: v1\n", &before)) WANT(yes == 1);
    omega_free(&text);
    WANT(text.length == 0 && !text.held);
    omega_free(&text);
}

/* What is asked for is given in the same round, by a system that controls g, or by one that controls nothing; and a
 * circuit that does so. */
static const char grants[] =
    "HOA: v1 States: 1 Start: 0 AP: 2 \"r\" \"g\" controllable-AP: 1 acc-name: all Acceptance: 0 t"
    " --BODY-- State: 0 [!0 | 1] 0 --END--";
static const char stuck[] =
    "HOA: v1 States: 1 Start: 0 AP: 2 \"r\" \"g\" controllable-AP: acc-name: all Acceptance: 0 t"
    " --BODY-- State: 0 [!0 | 1] 0 --END--";
static const char wire[] = "aag 1 1 0 1 0\n2\n2\ni0 r\no0 g\n";
static const char rule[] = "G(r -> g)", outs[] = "g\0", ins[] = "r\0";

/* Each call that is given a circuit, or gives one. */
static void circuits(void) {
    omega_text text = OMEGA_NO_TEXT, before = text;
    uint32_t yes = 7;
    gave(omega_circuit(TEXT(wire), 0, &text), &text, wire, &before);
    before = text;
    gave(omega_circuit(TEXT(wire), 1, &text), &text, "aig 1 1 0 1 0\n2\ni0 r\no0 g\n", &before);
    before = text;
    gave(omega_circuit_automaton(TEXT(wire), &text), &text, "HOA: v1\nStates: 1\n", &before);
    before = text;
    if (gave(omega_verify_circuit(TEXT(wire), TEXT(grants), 1, &yes, &text), &text, "yes\n", &before)) {
        WANT(yes == 1);
    } else {
        WANT(yes == 7);
    }
    before = text, yes = 7;
    if (gave(omega_verify_formula_circuit(TEXT(wire), TEXT("G F g"), TEXT(outs), 0, 1, &yes, &text), &text,
             "no\nstem", &before))
        WANT(yes == 0);
    before = text, yes = 7;
    if (gave(omega_realize_circuit(TEXT(grants), 0, &yes, &text), &text, "aag ", &before)) WANT(yes == 1);
    before = text, yes = 7;
    if (gave(omega_realize_circuit(TEXT(stuck), 1, &yes, &text), &text, "unrealizable\n", &before)) WANT(yes == 0);
    before = text, yes = 7;
    if (gave(omega_realize_formula_circuit(TEXT(rule), TEXT(ins), 1, 1, &yes, &text), &text, "aig ", &before))
        WANT(yes == 1);
    omega_free(&text);
}

/* A text that is refused: which, and where. What was there stays. */
static void refused_texts(void) {
    omega_text text = OMEGA_NO_TEXT;
    uint32_t yes = 7;
    omega_text_outcome outcome = omega_contained(TEXT(often), TEXT(broken), 0, &yes, &text);
    if (outcome.number != OMEGA_MEMORY || !may_be_refused)
        WANT(outcome.number == OMEGA_LEX && outcome.text == 2 && outcome.place == 8);
    WANT(yes == 7 && !text.held);
    outcome = omega_complement(TEXT(broken), &text);
    if (outcome.number != OMEGA_MEMORY || !may_be_refused)
        WANT(outcome.number == OMEGA_LEX && outcome.text == 1 && outcome.place == 8);
    WANT(!text.held);
    outcome = omega_verify_circuit(TEXT(wire), TEXT(broken), 1, &yes, &text);
    if (outcome.number != OMEGA_MEMORY || !may_be_refused)
        WANT(outcome.number == OMEGA_LEX && outcome.text == 2 && outcome.place == 8);
    WANT(yes == 7 && !text.held);
    outcome = omega_circuit(TEXT(rule), 0, &text);
    if (outcome.number != OMEGA_MEMORY || !may_be_refused)
        WANT(outcome.number == OMEGA_SYNTAX && outcome.text == 1 && outcome.place == 0);
    WANT(!text.held);
    omega_free(&text);
}

static void shape(void) {
    static const uint32_t wrong[] = {1, 3, 0, 0};
    static const uint8_t sevens[] = {7, 7, 7};
    omega_game three = game();
    three.successors = held(wrong, sizeof wrong);
    uint8_t *winners = held(sevens, sizeof sevens);
    uint32_t choices[3];
    omega_lifts lifts;
    omega_outcome outcome = omega_solve(&three, 1, 0, winners, 3, choices, 3, &lifts);
    WANT(outcome.number == 57 && outcome.array == OMEGA_SUCCESSORS && outcome.place == 1);
    WANT(memcmp(winners, sevens, sizeof sevens) == 0);
    three = game();
    outcome = omega_solve(&three, 1, 0, winners, 2, choices, 3, &lifts);
    WANT(outcome.number == 57 && outcome.array == OMEGA_WINNERS && outcome.place == 2);
}

static void every(void) {
    solve(1);
    solve(0);
    verify(2, 3);
    verify(1, 3);
    verify(1, 1);
    bound();
    run(64);
    run(4);
    version();
    shape();
    languages();
    circuits();
    refused_texts();
}

static void *again_and_again(void *unused) {
    for (int times = 0; times < 50; times++) every();
    return unused;
}

static void side_by_side(void) {
    pthread_t threads[4];
    for (int number = 0; number < 4; number++) WANT(pthread_create(&threads[number], NULL, again_and_again, NULL) == 0);
    for (int number = 0; number < 4; number++) WANT(pthread_join(threads[number], NULL) == 0);
}

int main(int count, char **words) {
    may_be_refused = count > 1 && strcmp(words[1], "refused") == 0;
    if (count > 1 && strcmp(words[1], "threads") == 0)
        side_by_side();
    else
        every();
    return 0;
}
