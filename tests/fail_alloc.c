/* Preloaded before a program, refuses the allocation whose number, from 1, FAIL_ALLOC gives; says so by a byte on
   the file descriptor FAIL_ALLOC_TOLD. */
#define _GNU_SOURCE
#include <dlfcn.h>
#include <stdlib.h>
#include <unistd.h>

static unsigned long made;

static int is_refused(void) {
    static unsigned long refused;
    if (!refused) {
        const char *number = getenv("FAIL_ALLOC");
        refused = number ? strtoul(number, 0, 10) : -1ul;
    }
    if (__atomic_add_fetch(&made, 1, __ATOMIC_SEQ_CST) != refused)
        return 0;
    const char *told = getenv("FAIL_ALLOC_TOLD");
    return !told || write(atoi(told), "!", 1) == 1 || 1;
}

void *malloc(size_t size) {
    static void *(*next)(size_t);
    if (!next)
        next = dlsym(RTLD_NEXT, "malloc");
    return is_refused() ? 0 : next(size);
}

void *realloc(void *old, size_t size) {
    static void *(*next)(void *, size_t);
    if (!next)
        next = dlsym(RTLD_NEXT, "realloc");
    return is_refused() ? 0 : next(old, size);
}
