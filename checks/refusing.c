/* Preloaded over a program: refuses requests for memory, and counts them.
 *
 * REFUSE_FROM=N    refuses the Nth request, from 1
 * REFUSE_TO=M      and those behind it up to the Mth (M = N where it is not given)
 * REFUSE_COUNT=F   writes the number of requests into the file F at the end
 * REFUSE_LIVE=F    writes into the file F how many blocks were then not given back
 *
 * The program asks by malloc and realloc alone; a realloc that only shrinks is a request as well. What libc asks for
 * before the program starts is not counted.
 */
#define _GNU_SOURCE
#include <dlfcn.h>
#include <errno.h>
#include <stdio.h>
#include <stdlib.h>

static void *(*next_malloc)(size_t);
static void *(*next_realloc)(void *, size_t);
static void (*next_free)(void *);
static unsigned long from, to, requests;
static long live;
static int counting;

__attribute__((constructor)) static void begin(void) {
    const char *first = getenv("REFUSE_FROM"), *last = getenv("REFUSE_TO");
    next_malloc = (void *(*)(size_t))dlsym(RTLD_NEXT, "malloc");
    next_realloc = (void *(*)(void *, size_t))dlsym(RTLD_NEXT, "realloc");
    next_free = (void (*)(void *))dlsym(RTLD_NEXT, "free");
    from = first ? strtoul(first, NULL, 10) : 0;
    to = last ? strtoul(last, NULL, 10) : from;
    counting = 1;
}

static void note(const char *file, long number) {
    FILE *out = file ? fopen(file, "w") : NULL;
    if (out) {
        fprintf(out, "%ld\n", number);
        fclose(out);
    }
}

__attribute__((destructor)) static void end(void) {
    counting = 0;
    note(getenv("REFUSE_COUNT"), (long)requests);
    note(getenv("REFUSE_LIVE"), live);
}

static int is_refused(void) {
    if (!counting) return 0;
    requests++;
    if (from == 0 || requests < from || requests > to) return 0;
    errno = ENOMEM;
    return 1;
}

void *malloc(size_t size) {
    if (!next_malloc) next_malloc = (void *(*)(size_t))dlsym(RTLD_NEXT, "malloc");
    void *made = is_refused() ? NULL : next_malloc(size);
    if (counting && made) live++;
    return made;
}

void *realloc(void *old, size_t size) {
    if (!next_realloc) next_realloc = (void *(*)(void *, size_t))dlsym(RTLD_NEXT, "realloc");
    void *made = is_refused() ? NULL : next_realloc(old, size);
    if (counting && made && !old) live++;
    return made;
}

void free(void *block) {
    if (!next_free) next_free = (void (*)(void *))dlsym(RTLD_NEXT, "free");
    if (counting && block) live--;
    next_free(block);
}
