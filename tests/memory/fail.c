// Loaded before a program: the allocation whose number FAIL_ALLOC names, of whichever thread, is refused, and how many were asked for is
// written to the file that COUNT_ALLOC names.
#define _GNU_SOURCE
#include <dlfcn.h>
#include <errno.h>
#include <stdio.h>
#include <stdlib.h>

static unsigned long asked, refused;
static int is_ready;

static int is_refused(void) {
    return is_ready && __atomic_add_fetch(&asked, 1, __ATOMIC_SEQ_CST) == refused;
}

__attribute__((constructor)) static void begin(void) {
    const char *number = getenv("FAIL_ALLOC");
    refused = number ? strtoul(number, NULL, 10) : 0;
    is_ready = 1;
}

__attribute__((destructor)) static void end(void) {
    is_ready = 0;
    const char *name = getenv("COUNT_ALLOC");
    FILE *file = name ? fopen(name, "w") : NULL;
    if (file) {
        fprintf(file, "%lu\n", asked);
        fclose(file);
    }
}

#define REAL(type, name) static type real; if (!real) real = (type)dlsym(RTLD_NEXT, name)
typedef void *(*one)(size_t);
typedef void *(*two)(size_t, size_t);
typedef void *(*again)(void *, size_t);

// A program with threads ends so, without its destructors.
void _exit(int status) {
    typedef void (*leave)(int);
    REAL(leave, "_exit");
    end();
    real(status);
    abort();
}

void *malloc(size_t size) {
    REAL(one, "malloc");
    if (is_refused()) { errno = ENOMEM; return NULL; }
    return real(size);
}

void *realloc(void *old, size_t size) {
    REAL(again, "realloc");
    if (is_refused()) { errno = ENOMEM; return NULL; }
    return real(old, size);
}

void *aligned_alloc(size_t unit, size_t size) {
    REAL(two, "aligned_alloc");
    if (is_refused()) { errno = ENOMEM; return NULL; }
    return real(unit, size);
}

int posix_memalign(void **out, size_t unit, size_t size) {
    typedef int (*placed)(void **, size_t, size_t);
    REAL(placed, "posix_memalign");
    if (is_refused()) return ENOMEM;
    return real(out, unit, size);
}
