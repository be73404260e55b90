/* Puts a link to the file LEADS_TO of the environment in place of each draft of the program, as soon as it is made: what the owner of
   the folder may do. A test loads this before the C library. */
#define _GNU_SOURCE
#include <dlfcn.h>
#include <fcntl.h>
#include <stdarg.h>
#include <stdlib.h>
#include <string.h>
#include <sys/stat.h>
#include <unistd.h>

static int swapped(int file, const char *path, int flags)
{
    const char *end = getenv("LEADS_TO");
    if (file >= 0 && end != NULL && (flags & O_EXCL) != 0 && strstr(path, ".petool-") != NULL && (unlink(path) != 0 || symlink(end, path) != 0)) {
        abort();
    }
    return file;
}

static mode_t mode_in(int flags, va_list more)
{
    return (flags & (O_CREAT | O_TMPFILE)) != 0 ? va_arg(more, mode_t) : 0;
}

#define OPEN(name) \
    int name(const char *path, int flags, ...) \
    { \
        static int (*next)(const char *, int, ...); \
        va_list more; \
        if (next == NULL) { \
            *(void **)&next = dlsym(RTLD_NEXT, #name); \
        } \
        va_start(more, flags); \
        mode_t mode = mode_in(flags, more); \
        va_end(more); \
        return swapped(next(path, flags, mode), path, flags); \
    }

OPEN(open)
OPEN(open64)
