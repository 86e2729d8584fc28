/* Preloaded over a program: has its streams give and take few bytes at a time, and fail at last.
 *
 * PORTIONS_0="M"        a read of standard input gives at most M bytes
 * PORTIONS_0="M N E"    and N bytes in all, behind which each read fails with the error of number E
 * PORTIONS_1=..         the same of the writes of standard output; where E is 0, they take nothing and do not fail
 * PORTIONS_2=..         the same of those of standard error
 * PORTIONS_FAILED=F     writes into the file F at the end how many reads and writes of each of the three failed, or
 *                       took nothing for lack of room
 *
 * The program calls read and write alone.
 */
#define _GNU_SOURCE
#include <dlfcn.h>
#include <errno.h>
#include <stdio.h>
#include <stdlib.h>
#include <unistd.h>

typedef struct stream {
    size_t most, room;
    int error;
    unsigned long failed;
} stream;

static stream streams[3];
static ssize_t (*next_read)(int, void *, size_t);
static ssize_t (*next_write)(int, const void *, size_t);

static void begin(void) {
    if (next_write) return;
    next_read = (ssize_t(*)(int, void *, size_t))dlsym(RTLD_NEXT, "read");
    next_write = (ssize_t(*)(int, const void *, size_t))dlsym(RTLD_NEXT, "write");
    for (int at = 0; at < 3; at++) {
        char name[] = "PORTIONS_0";
        name[sizeof name - 2] += at;
        const char *given = getenv(name);
        streams[at] = (stream){(size_t)-1, (size_t)-1, 0, 0};
        if (given) sscanf(given, "%zu %zu %d", &streams[at].most, &streams[at].room, &streams[at].error);
    }
}

__attribute__((destructor)) static void end(void) {
    const char *name = getenv("PORTIONS_FAILED");
    FILE *out = name ? fopen(name, "w") : NULL;
    if (!out) return;
    begin();
    fprintf(out, "%lu %lu %lu\n", streams[0].failed, streams[1].failed, streams[2].failed);
    fclose(out);
}

/* How many bytes a stream gives or takes of so many, or -1. */
static ssize_t portion(stream *it, size_t count) {
    if (count && !it->room) {
        it->failed++;
        errno = it->error;
        return it->error ? -1 : 0;
    }
    if (count > it->most) count = it->most;
    return count > it->room ? it->room : count;
}

/* Counts what was given or taken. */
static ssize_t moved(stream *it, ssize_t count) {
    if (count > 0 && it->room != (size_t)-1) it->room -= count;
    return count;
}

ssize_t read(int file, void *into, size_t count) {
    begin();
    if (file != 0) return next_read(file, into, count);
    ssize_t most = portion(&streams[0], count);
    return most > 0 ? moved(&streams[0], next_read(file, into, most)) : most;
}

ssize_t write(int file, const void *from, size_t count) {
    begin();
    if (file != 1 && file != 2) return next_write(file, from, count);
    ssize_t most = portion(&streams[file], count);
    return most > 0 ? moved(&streams[file], next_write(file, from, most)) : most;
}
