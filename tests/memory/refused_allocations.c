/* Refuses allocations of a program, for a test: with LD_PRELOAD, each signal SIGUSR1 lets as many of the next
 * allocations fail as the environment variable REFUSED says. */
#define _GNU_SOURCE
#include <dlfcn.h>
#include <errno.h>
#include <signal.h>
#include <stddef.h>
#include <stdlib.h>

static volatile sig_atomic_t left;
static int refused;

static void on_signal(int number) {
    (void)number;
    left = refused;
}

__attribute__((constructor)) static void begin(void) {
    const char *word = getenv("REFUSED");
    struct sigaction action = {.sa_handler = on_signal, .sa_flags = SA_RESTART};
    refused = word ? atoi(word) : 0;
    sigaction(SIGUSR1, &action, NULL);
}

static int refuses(void) {
    if (left <= 0)
        return 0;
    left--;
    errno = ENOMEM;
    return 1;
}

void *malloc(size_t size) {
    static void *(*next)(size_t);
    if (!next)
        next = (void *(*)(size_t))dlsym(RTLD_NEXT, "malloc");
    return refuses() ? NULL : next(size);
}

void *realloc(void *old, size_t size) {
    static void *(*next)(void *, size_t);
    if (!next)
        next = (void *(*)(void *, size_t))dlsym(RTLD_NEXT, "realloc");
    return refuses() ? NULL : next(old, size);
}

void *aligned_alloc(size_t alignment, size_t size) {
    static void *(*next)(size_t, size_t);
    if (!next)
        next = (void *(*)(size_t, size_t))dlsym(RTLD_NEXT, "aligned_alloc");
    return refuses() ? NULL : next(alignment, size);
}

int posix_memalign(void **to, size_t alignment, size_t size) {
    static int (*next)(void **, size_t, size_t);
    if (!next)
        next = (int (*)(void **, size_t, size_t))dlsym(RTLD_NEXT, "posix_memalign");
    return refuses() ? ENOMEM : next(to, alignment, size);
}
