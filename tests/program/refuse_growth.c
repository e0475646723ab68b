/*
 * A library to preload: it counts how often a program grows its memory, and refuses one growth.
 *
 * Growths are counted from the program's start, or after as many writes as AFTER_WRITES says, up to the
 * next write. REFUSED_GROWTH is the number of the one that is refused, counted from 1. The library reports
 * on file descriptor 9: `refused`, and then `grown` for each growth that is counted after that one.
 */
#include <errno.h>
#include <stdlib.h>
#include <string.h>
#include <sys/syscall.h>
#include <unistd.h>

/* The C library's own names for the functions that are defined below under their usual names. */
void *__libc_malloc(size_t size);
void *__libc_calloc(size_t count, size_t size);
void *__libc_realloc(void *old, size_t size);

enum { TOLD = 9 };

/* Writes until growths are counted; 0 while they are, and -1 before the program starts and after the next write. */
static long writes_left = -1;
static long growths_left;

static long number(const char *name) {
    const char *text = getenv(name);
    return text ? atol(text) : 0;
}

__attribute__((constructor)) static void start(void) {
    writes_left = number("AFTER_WRITES");
    growths_left = number("REFUSED_GROWTH");
}

static void tell(const char *line) {
    syscall(SYS_write, TOLD, line, strlen(line));
}

static int is_refused(void) {
    if (writes_left != 0 || --growths_left > 0)
        return 0;
    if (growths_left < 0) {
        tell("grown\n");
        return 0;
    }
    tell("refused\n");
    errno = ENOMEM;
    return 1;
}

void *malloc(size_t size) {
    return is_refused() ? NULL : __libc_malloc(size);
}

void *calloc(size_t count, size_t size) {
    return is_refused() ? NULL : __libc_calloc(count, size);
}

void *realloc(void *old, size_t size) {
    return is_refused() ? NULL : __libc_realloc(old, size);
}

ssize_t write(int file, const void *bytes, size_t count) {
    if (writes_left >= 0)
        writes_left--;
    return syscall(SYS_write, file, bytes, count);
}

ssize_t __write(int file, const void *bytes, size_t count) {
    return write(file, bytes, count);
}
