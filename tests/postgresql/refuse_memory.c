/*
 * Preloaded into the server, refuses memory to the library while the file that TOWNSHIP_REFUSE_MEMORY names
 * is there: every `malloc` and `realloc` whose caller is in township.so. The server's own memory is not
 * refused, since it is not allocated from there.
 */
#define _GNU_SOURCE
#include <dlfcn.h>
#include <stdlib.h>
#include <string.h>
#include <unistd.h>

static int is_refused(void *caller) {
    const char *name = getenv("TOWNSHIP_REFUSE_MEMORY");
    Dl_info place;

    return name != NULL && access(name, F_OK) == 0 && dladdr(caller, &place) != 0 && place.dli_fname != NULL &&
           strstr(place.dli_fname, "/township.so") != NULL;
}

void *malloc(size_t size) {
    static void *(*next)(size_t);

    if (next == NULL) {
        next = (void *(*)(size_t))dlsym(RTLD_NEXT, "malloc");
    }
    return is_refused(__builtin_return_address(0)) ? NULL : next(size);
}

void *realloc(void *memory, size_t size) {
    static void *(*next)(void *, size_t);

    if (next == NULL) {
        next = (void *(*)(void *, size_t))dlsym(RTLD_NEXT, "realloc");
    }
    return is_refused(__builtin_return_address(0)) ? NULL : next(memory, size);
}
