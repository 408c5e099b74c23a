// Counts what a program asks of the C library's memory. tools/scan-memory loads it before that library (LD_PRELOAD).
//
// As the program ends, the file MEMORY_SEEN gets how many bytes were asked for in all, whatever was given back.
#define _GNU_SOURCE
#include <dlfcn.h>
#include <stdio.h>
#include <stdlib.h>

static unsigned long asked;

void *malloc(size_t bytes) {
    static void *(*real)(size_t);
    if (!real)
        real = (void *(*)(size_t))dlsym(RTLD_NEXT, "malloc");
    asked += bytes;
    return real(bytes);
}

void *realloc(void *old, size_t bytes) {
    static void *(*real)(void *, size_t);
    if (!real)
        real = (void *(*)(void *, size_t))dlsym(RTLD_NEXT, "realloc");
    asked += bytes;
    return real(old, bytes);
}

__attribute__((destructor)) static void tell(void) {
    const char *path = getenv("MEMORY_SEEN");
    const unsigned long seen = asked;
    FILE *file = path ? fopen(path, "w") : NULL;
    if (file) {
        fprintf(file, "%lu\n", seen);
        fclose(file);
    }
}
