// Makes one call of a program fail, or move one byte of several. tools/fail-calls loads it before the C library (LD_PRELOAD).
//
// Reads, writes and syncs are counted from 1: the one of number FAIL_CALL fails with EIO. Of the reads and writes of several bytes,
// which are counted alone, the one of number SHORT_CALL moves one. As the program ends, the file CALLS_SEEN gets both counts.
#define _GNU_SOURCE
#include <dlfcn.h>
#include <errno.h>
#include <stdio.h>
#include <stdlib.h>
#include <unistd.h>

#define REAL(name) ((__typeof__(&name))dlsym(RTLD_NEXT, #name))

static unsigned long calls, moves;

// The number of this name, 0 where there is none.
static unsigned long number(const char *name) {
    const char *word = getenv(name);
    return word ? strtoul(word, NULL, 10) : 0;
}

static int fails(void) {
    if (++calls != number("FAIL_CALL"))
        return 0;
    errno = EIO;
    return 1;
}

// How many of so many bytes a read or a write is asked to move.
static size_t part(size_t count) {
    return count > 1 && ++moves == number("SHORT_CALL") ? 1 : count;
}

ssize_t read(int file, void *into, size_t count) {
    return fails() ? -1 : REAL(read)(file, into, part(count));
}

ssize_t write(int file, const void *from, size_t count) {
    return fails() ? -1 : REAL(write)(file, from, part(count));
}

ssize_t pread(int file, void *into, size_t count, off_t at) {
    return fails() ? -1 : REAL(pread)(file, into, part(count), at);
}

ssize_t pwrite(int file, const void *from, size_t count, off_t at) {
    return fails() ? -1 : REAL(pwrite)(file, from, part(count), at);
}

int fsync(int file) { return fails() ? -1 : REAL(fsync)(file); }

int fdatasync(int file) { return fails() ? -1 : REAL(fdatasync)(file); }

__attribute__((destructor)) static void tell(void) {
    const char *path = getenv("CALLS_SEEN");
    FILE *seen = path ? fopen(path, "w") : NULL;
    if (seen) {
        fprintf(seen, "%lu %lu\n", calls, moves);
        fclose(seen);
    }
}
