/* Stands before a program (LD_PRELOAD) and makes one of its allocations fail: the one whose number, from 1, is in the
   environment as FAIL_ALLOC. For 0 none fails, and how many there were is written to standard error at the end. */
#define _GNU_SOURCE
#include <dlfcn.h>
#include <stdio.h>
#include <stdlib.h>
#include <unistd.h>

typedef void *malloc_call(size_t);
typedef void *realloc_call(void *, size_t);

static malloc_call *next_malloc;
static realloc_call *next_realloc;
static unsigned long calls, failing;

__attribute__((constructor)) static void begin(void) {
    const char *number = getenv("FAIL_ALLOC");
    failing = number ? strtoul(number, NULL, 10) : 0;
    next_malloc = (malloc_call *)dlsym(RTLD_NEXT, "malloc");
    next_realloc = (realloc_call *)dlsym(RTLD_NEXT, "realloc");
    calls = 0;
}

void *malloc(size_t size) {
    if (next_malloc == NULL)
        next_malloc = (malloc_call *)dlsym(RTLD_NEXT, "malloc");
    return ++calls == failing ? NULL : next_malloc(size);
}

void *realloc(void *old, size_t size) {
    if (next_realloc == NULL)
        next_realloc = (realloc_call *)dlsym(RTLD_NEXT, "realloc");
    return ++calls == failing ? NULL : next_realloc(old, size);
}

__attribute__((destructor)) static void end(void) {
    char text[32];
    if (failing == 0) {
        int length = snprintf(text, sizeof text, "%lu\n", calls);
        if (write(STDERR_FILENO, text, (size_t)length) < 0)
            _exit(9);
    }
}
