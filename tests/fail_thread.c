/* Preloaded before a program, refuses it the threads whose numbers, from 1, are from FAIL_THREAD_FROM to
   FAIL_THREAD_TO, as a system does where a user has too many. */
#define _GNU_SOURCE
#include <dlfcn.h>
#include <errno.h>
#include <pthread.h>
#include <stdlib.h>

static unsigned long number_in(const char *name) {
    const char *digits = getenv(name);
    return digits ? strtoul(digits, 0, 10) : 0;
}

int pthread_create(pthread_t *thread, const pthread_attr_t *how, void *(*start)(void *), void *given) {
    static unsigned long made;
    static int (*next)(pthread_t *, const pthread_attr_t *, void *(*)(void *), void *);
    if (!next)
        next = dlsym(RTLD_NEXT, "pthread_create");
    unsigned long number = __atomic_add_fetch(&made, 1, __ATOMIC_SEQ_CST);
    if (number >= number_in("FAIL_THREAD_FROM") && number <= number_in("FAIL_THREAD_TO"))
        return EAGAIN;
    return next(thread, how, start, given);
}
