/* What the tests of libpetool share: checks that count, a fault that no call returns, files, and the set of three of them. */
#ifndef CHECK_H
#define CHECK_H

#include "petool.h"

#include <inttypes.h>
#include <stdio.h>
#include <stdlib.h>
#include <string.h>

static int passed, failed;

/* Counts a check, and prints one that does not hold. */
#define CHECK(holds)                                                  \
    do {                                                              \
        if (holds) {                                                  \
            passed++;                                                 \
        } else {                                                      \
            failed++;                                                 \
            printf("%s:%d: %s\n", __FILE__, __LINE__, #holds);        \
        }                                                             \
    } while (0)

/* Prints the last line of a test; returns its exit status. */
static inline int told(void)
{
    printf("%d passed, %d failed\n", passed, failed);
    return failed != 0;
}

/* Whether a text has these bytes. */
static inline int is_text(petool_text text, const char *bytes, size_t len)
{
    return text.len == len && memcmp(text.at, bytes, len) == 0;
}

/* A fault that no call returns. */
static const petool_fault UNTOLD = {0x7777, 0x8888, 0x99999999, 0xaaaaaaaaaaaaaaaa};

static inline int is_untold(petool_fault fault)
{
    return fault.number == UNTOLD.number && fault.image == UNTOLD.image && fault.place == UNTOLD.place && fault.at == UNTOLD.at;
}

/* Stores a number of four bytes, little-endian. */
static inline void put_number(uint8_t *at, uint32_t number)
{
    for (int k = 0; k < 4; k++)
        at[k] = (uint8_t)(number >> 8 * k);
}

typedef struct bytes {
    uint8_t *at;
    size_t len;
} bytes;

/* All bytes of a file of this folder. */
static inline bytes file_in(const char *folder, const char *name)
{
    char path[4096];
    bytes all = {NULL, 0};
    long len;
    FILE *file;
    snprintf(path, sizeof path, "%s/%s", folder, name);
    file = fopen(path, "rb");
    if (file == NULL || fseek(file, 0, SEEK_END) != 0 || (len = ftell(file)) < 0) {
        perror(path);
        exit(3);
    }
    rewind(file);
    all.len = (size_t)len;
    all.at = (uint8_t *)malloc(all.len + 1);
    if (all.at == NULL || fread(all.at, 1, all.len, file) != all.len) {
        perror(path);
        exit(3);
    }
    fclose(file);
    return all;
}

/* An image of a set. */
static inline petool_entry entry(const char *name, bytes file, uint64_t base)
{
    petool_entry made;
    made.name = petool_text_of(name);
    made.file.at = file.at;
    made.file.len = file.len;
    made.base = base;
    return made;
}

/* The set of va.dll, vb.dll and vc.dll: the slot of c.exe at RVA 0x1030 is bound to RVA 0x1010 of b.dll. */
static inline void set_abc(petool_entry set[3], bytes va, bytes vb, bytes vc)
{
    set[0] = entry("a.dll", va, 0x10000000);
    set[1] = entry("b.dll", vb, 0x20000000);
    set[2] = entry("c.exe", vc, 0x400000);
}

#endif
