/* Makes a call of the library in a thread with a small stack, and prints the number that it ended with.
 *
 *     stack KIB CALL TEXT OTHER         a call for texts, of files
 *     stack KIB run TEXT OTHER WORD..   the program as a function, with these words
 */
#include "omega.h"

#include <pthread.h>
#include <stdio.h>
#include <stdlib.h>
#include <string.h>

typedef struct text {
    uint8_t *bytes;
    size_t length;
} text;

static text read_text(const char *name) {
    text made = {malloc(1 << 25), 0};
    FILE *file = fopen(name, "rb");
    if (!file || !made.bytes) exit(2);
    made.length = fread(made.bytes, 1, 1 << 25, file);
    fclose(file);
    return made;
}

typedef struct task {
    const char *call;
    text one, other, words;
    uint32_t number;
} task;

static uint8_t output[1 << 24], errors[1 << 16];

static void *make(void *given) {
    task *it = given;
    omega_text out = OMEGA_NO_TEXT;
    uint32_t yes = 0;
    omega_text_outcome outcome = {0, 0, 0};
    text one = it->one, other = it->other;
    if (!strcmp(it->call, "run")) {
        outcome.number = omega_run(it->words.bytes, it->words.length, one.bytes, one.length, other.bytes, other.length,
                                   output, sizeof output, errors, sizeof errors).status;
    } else if (!strcmp(it->call, "empty")) {
        outcome = omega_empty(one.bytes, one.length, 1, &out);
    } else if (!strcmp(it->call, "complement")) {
        outcome = omega_complement(one.bytes, one.length, &out);
    } else if (!strcmp(it->call, "meet")) {
        outcome = omega_meet(one.bytes, one.length, other.bytes, other.length, &out);
    } else if (!strcmp(it->call, "contained")) {
        outcome = omega_contained(one.bytes, one.length, other.bytes, other.length, 1, &yes, &out);
    } else if (!strcmp(it->call, "equal")) {
        outcome = omega_equal(one.bytes, one.length, other.bytes, other.length, 1, &yes, &out);
    } else if (!strcmp(it->call, "realize")) {
        outcome = omega_realize(one.bytes, one.length, &yes, &out);
    } else if (!strcmp(it->call, "realize_circuit")) {
        outcome = omega_realize_circuit(one.bytes, one.length, 1, &yes, &out);
    } else if (!strcmp(it->call, "circuit")) {
        outcome = omega_circuit(one.bytes, one.length, 1, &out);
    } else if (!strcmp(it->call, "circuit_automaton")) {
        outcome = omega_circuit_automaton(one.bytes, one.length, &out);
    } else {
        exit(2);
    }
    omega_free(&out);
    it->number = outcome.number;
    return NULL;
}

int main(int count, char **words) {
    if (count < 5) return 2;
    task asked = {words[2], read_text(words[3]), read_text(words[4]), {malloc(1 << 16), 0}, 0};
    for (int at = 5; at < count; at++) {
        size_t length = strlen(words[at]) + 1;
        memcpy(asked.words.bytes + asked.words.length, words[at], length);
        asked.words.length += length;
    }
    pthread_attr_t small;
    pthread_t thread;
    pthread_attr_init(&small);
    if (pthread_attr_setstacksize(&small, (size_t)atoi(words[1]) * 1024)) return 2;
    if (pthread_create(&thread, &small, make, &asked) || pthread_join(thread, NULL)) return 2;
    printf("%u\n", (unsigned)asked.number);
    return 0;
}
