/* Lets one allocation of a program fail, for bench/outside: the one of the number FAIL_ALLOC, or none at 0, and
   with FAIL_REST all that come after it too. Writes how many there were into the file COUNT_ALLOC. */
#define _GNU_SOURCE
#include <dlfcn.h>
#include <errno.h>
#include <stdio.h>
#include <stdlib.h>
#include <string.h>

static long nth = -1, count;
static int rest;

/* Whether this allocation is to fail. They are counted from when the program's libraries are loaded. */
static int due(void) {
    if (nth < 0) return 0;
    count++;
    return count == nth || (rest && 0 < nth && nth < count);
}

__attribute__((constructor)) static void begin(void) {
    const char *number = getenv("FAIL_ALLOC");
    rest = getenv("FAIL_REST") != 0;
    nth = number ? atol(number) : -1;
}

__attribute__((destructor)) static void end(void) {
    const char *path = getenv("COUNT_ALLOC");
    nth = -1;
    FILE *file = path ? fopen(path, "w") : 0;
    if (file) { fprintf(file, "%ld", count); fclose(file); }
}

void *malloc(size_t size) {
    static void *(*next)(size_t);
    if (!next) next = dlsym(RTLD_NEXT, "malloc");
    if (due()) { errno = ENOMEM; return 0; }
    return next(size);
}

void *realloc(void *old, size_t size) {
    static void *(*next)(void *, size_t);
    if (!next) next = dlsym(RTLD_NEXT, "realloc");
    if (due()) { errno = ENOMEM; return 0; }
    return next(old, size);
}

void *aligned_alloc(size_t align, size_t size) {
    static void *(*next)(size_t, size_t);
    if (!next) next = dlsym(RTLD_NEXT, "aligned_alloc");
    if (due()) { errno = ENOMEM; return 0; }
    return next(align, size);
}

int posix_memalign(void **out, size_t align, size_t size) {
    static int (*next)(void **, size_t, size_t);
    if (!next) next = dlsym(RTLD_NEXT, "posix_memalign");
    if (due()) return ENOMEM;
    return next(out, align, size);
}

void *calloc(size_t n, size_t size) {
    void *made = malloc(n * size);
    return made ? memset(made, 0, n * size) : 0;
}
