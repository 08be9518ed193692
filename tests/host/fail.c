// Loaded before a program: of the file that FAIL_NAME names, the call of kind FAIL_KIND (`open`, `read` or `write`) whose number,
// from 1 on, is FAIL_NUMBER fails; where the kind is `end`, reads give nothing from the place FAIL_NUMBER on.
#define _GNU_SOURCE
#include <dlfcn.h>
#include <errno.h>
#include <fcntl.h>
#include <stdarg.h>
#include <stdlib.h>
#include <string.h>
#include <unistd.h>

static const char *name, *kind;
static unsigned long number, asked;
// the files that were opened by that name
static char its[1024];

__attribute__((constructor)) static void begin(void) {
    name = getenv("FAIL_NAME");
    kind = getenv("FAIL_KIND");
    number = strtoul(getenv("FAIL_NUMBER"), NULL, 10);
}

static int is_its(int fd) {
    return 0 <= fd && fd < (int)sizeof its && its[fd];
}

static int fails(const char *one) {
    return strcmp(kind, one) == 0 && ++asked == number;
}

static int opened(const char *path, int fd) {
    if (fd >= 0 && fd < (int)sizeof its) its[fd] = strcmp(path, name) == 0;
    return fd;
}

#define OPEN(call) \
    int call(const char *path, int flags, ...) { \
        static int (*real)(const char *, int, ...); \
        if (!real) real = (int (*)(const char *, int, ...))dlsym(RTLD_NEXT, #call); \
        va_list rest; \
        va_start(rest, flags); \
        mode_t mode = flags & O_CREAT ? va_arg(rest, mode_t) : 0; \
        va_end(rest); \
        if (strcmp(path, name) == 0 && fails("open")) { errno = EIO; return -1; } \
        return opened(path, real(path, flags, mode)); \
    }

#define OPEN_AT(call) \
    int call(int folder, const char *path, int flags, ...) { \
        static int (*real)(int, const char *, int, ...); \
        if (!real) real = (int (*)(int, const char *, int, ...))dlsym(RTLD_NEXT, #call); \
        va_list rest; \
        va_start(rest, flags); \
        mode_t mode = flags & O_CREAT ? va_arg(rest, mode_t) : 0; \
        va_end(rest); \
        if (strcmp(path, name) == 0 && fails("open")) { errno = EIO; return -1; } \
        return opened(path, real(folder, path, flags, mode)); \
    }

OPEN(open)
OPEN(open64)
OPEN_AT(openat)
OPEN_AT(openat64)

ssize_t read(int fd, void *bytes, size_t count) {
    static ssize_t (*real)(int, void *, size_t);
    if (!real) real = (ssize_t (*)(int, void *, size_t))dlsym(RTLD_NEXT, "read");
    if (is_its(fd) && fails("read")) { errno = EIO; return -1; }
    if (is_its(fd) && strcmp(kind, "end") == 0) {
        off_t place = lseek(fd, 0, SEEK_CUR);
        if (place >= (off_t)number) return 0;
        if (count > number - place) count = number - place;
    }
    return real(fd, bytes, count);
}

ssize_t write(int fd, const void *bytes, size_t count) {
    static ssize_t (*real)(int, const void *, size_t);
    if (!real) real = (ssize_t (*)(int, const void *, size_t))dlsym(RTLD_NEXT, "write");
    if (is_its(fd) && fails("write")) { errno = ENOSPC; return -1; }
    return real(fd, bytes, count);
}
