/* What the examples share: the bytes of files, names in paths, and reports of refusals. */
#ifndef FILES_H
#define FILES_H

#include "petool.h"

#include <errno.h>

/* exit statuses, which are those of the program petool */
enum { REFUSED = 1, BAD_WORDS = 2, DEVICE_FAILED = 3, NO_MEMORY = 4 };

/* Reads the rest of an open file. If it fails, errno says why. */
static inline bool read_open(FILE *file, petool_text *bytes)
{
    uint8_t *all = NULL;
    size_t len = 0, room = 0, got;
    do {
        if (len == room) {
            uint8_t *more = (uint8_t *)realloc(all, room * 2 + 4096);
            if (more == NULL) {
                free(all);
                return false;
            }
            all = more;
            room = room * 2 + 4096;
        }
        got = fread(all + len, 1, room - len, file);
        len += got;
    } while (got > 0);
    if (ferror(file)) {
        free(all);
        return false;
    }
    bytes->at = all;
    bytes->len = len;
    return true;
}

/* Reads all bytes of a file, which free_bytes frees. A failure is reported on standard error. */
static inline bool read_file(const char *path, petool_text *bytes)
{
    FILE *file = fopen(path, "rb");
    bool is_read = file != NULL && read_open(file, bytes);
    if (!is_read)
        perror(path);
    if (file != NULL)
        fclose(file);
    return is_read;
}

/* Frees what read_file has read, if anything. */
static inline void free_bytes(petool_text bytes)
{
    if (bytes.at != petool_no_bytes)
        free((void *)(uintptr_t)bytes.at);
}

/* What comes after the last slash of a path. */
static inline const char *name_in(const char *path)
{
    const char *slash = strrchr(path, '/');
    return slash == NULL ? path : slash + 1;
}

/* The path of a name in a folder, to be freed; NULL if out of memory. */
static inline char *path_in(const char *folder, const char *name)
{
    size_t room = strlen(folder) + strlen(name) + 2;
    char *path = (char *)malloc(room);
    if (path != NULL)
        snprintf(path, room, "%s/%s", folder, name);
    return path;
}

static inline void print_text(petool_text text)
{
    fwrite(text.at, 1, text.len, stdout);
}

/* Reports on standard error which fault a file has, or that memory ran out; returns the exit status. */
static inline int refused(const char *name, uint32_t status, const petool_fault *fault)
{
    char line[200];
    if (status != PETOOL_FAULT) {
        fprintf(stderr, "%s: out of memory\n", name);
        return NO_MEMORY;
    }
    petool_fault_line(fault, line, sizeof line);
    fprintf(stderr, "%s: fault %u: %s\n", name, (unsigned)fault->number, line);
    return REFUSED;
}

/* The same for a set, whose fault names an image. */
static inline int set_refused(const petool_entry *set, size_t entries, uint32_t status, const petool_fault *fault)
{
    bool has_image = status == PETOOL_FAULT && fault->image < entries;
    return refused(has_image ? (const char *)set[fault->image].name.at : "the set", status, fault);
}

/* Makes an entry of a set, and reads its file: false if that fails. */
static inline bool read_entry(const char *path, uint64_t base, petool_entry *entry)
{
    petool_text none = PETOOL_NONE;
    entry->name = petool_text_of(name_in(path));
    entry->file = none;
    entry->base = base;
    return read_file(path, &entry->file);
}

static inline void free_entries(const petool_entry *set, size_t entries)
{
    size_t i;
    for (i = 0; i < entries; i++)
        free_bytes(set[i].file);
}

/* Reads a hexadecimal address at the beginning of a word: the rest of the word, or NULL if it is missing or too large. */
static inline const char *read_address(const char *word, uint64_t *address)
{
    char *end;
    if (strspn(word, "0123456789abcdefABCDEF") == 0)
        return NULL;
    errno = 0;
    *address = strtoull(word, &end, 16);
    return errno == 0 ? end : NULL;
}

/* Whether the only argument is --help. */
static inline bool asks_for_help(int argc, char **argv)
{
    return argc == 2 && strcmp(argv[1], "--help") == 0;
}

/* Prints the usage: as requested, or on standard error for wrong arguments; returns the exit status. */
static inline int tell_usage(const char *usage, bool is_asked)
{
    fputs(usage, is_asked ? stdout : stderr);
    return is_asked ? 0 : BAD_WORDS;
}

/* Whether everything printed has been written; if not, that is reported. */
static inline bool is_printed(void)
{
    bool is_written = fflush(stdout) == 0 && !ferror(stdout);
    if (!is_written)
        perror("standard output");
    return is_written;
}

#endif /* FILES_H */
