// Loaded before the C library, it refuses a program one growth of memory: the one whose number
// REFUSED_GROWTH gives, counting calls of malloc, calloc, realloc, posix_memalign and aligned_alloc.
// At the end it writes how many there were into the file that GROWTHS names. dev/refused_memory.py
// compiles it.
#define _GNU_SOURCE
#include <errno.h>
#include <stdio.h>
#include <stdlib.h>

extern void *__libc_malloc(size_t);
extern void *__libc_calloc(size_t, size_t);
extern void *__libc_realloc(void *, size_t);
extern void *__libc_memalign(size_t, size_t);

static unsigned long made, refused;
static int begun;

__attribute__((constructor)) static void begin(void) {
    const char *at = getenv("REFUSED_GROWTH");
    refused = at ? strtoul(at, 0, 10) : 0;
    begun = 1;
}

__attribute__((destructor)) static void end(void) {
    const char *to = getenv("GROWTHS");
    unsigned long all = made;
    begun = 0;
    FILE *file = to ? fopen(to, "w") : 0;
    if (file) {
        fprintf(file, "%lu", all);
        fclose(file);
    }
}

static int refuse(void) {
    if (!begun || ++made != refused)
        return 0;
    errno = ENOMEM;
    return 1;
}

void *malloc(size_t n) { return refuse() ? 0 : __libc_malloc(n); }
void *calloc(size_t n, size_t m) { return refuse() ? 0 : __libc_calloc(n, m); }
void *realloc(void *p, size_t n) { return refuse() ? 0 : __libc_realloc(p, n); }
void *aligned_alloc(size_t a, size_t n) { return refuse() ? 0 : __libc_memalign(a, n); }

int posix_memalign(void **p, size_t a, size_t n) {
    if (refuse())
        return ENOMEM;
    *p = __libc_memalign(a, n);
    return *p ? 0 : ENOMEM;
}
