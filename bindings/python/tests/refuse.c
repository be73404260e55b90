/* Fails the allocation whose number, counted from 0, is REFUSED in the environment. A test loads this before the C library. */
#define _GNU_SOURCE
#include <dlfcn.h>
#include <stdbool.h>
#include <stddef.h>
#include <stdlib.h>

static long growths;

static bool is_refused(void)
{
    const char *number = getenv("REFUSED");
    return number != NULL && growths++ == atol(number);
}

void *malloc(size_t size)
{
    static void *(*next)(size_t);
    if (next == NULL) {
        *(void **)&next = dlsym(RTLD_NEXT, "malloc");
    }
    return is_refused() ? NULL : next(size);
}

void *realloc(void *old, size_t size)
{
    static void *(*next)(void *, size_t);
    if (next == NULL) {
        *(void **)&next = dlsym(RTLD_NEXT, "realloc");
    }
    return is_refused() ? NULL : next(old, size);
}
