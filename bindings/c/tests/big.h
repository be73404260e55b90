/* What the tests of big objects share: one that is laid out by hand, as winnt.h and the documentation of COFF have it. */
#ifndef BIG_H
#define BIG_H

#include "check.h"

/* ANON_OBJECT_HEADER_BIGOBJ up to NumberOfSections: Version 2, for AMD64, with values in the fields that mean nothing here. */
#define BIG_HEADER                                                                                                             \
    /* Sig1, Sig2, Version, Machine, TimeDateStamp, ClassID */                                                                 \
    0, 0, 0xff, 0xff, 2, 0, 0x64, 0x86, 0x01, 0x02, 0x03, 0x04, 0xc7, 0xa1, 0xba, 0xd1, 0xee, 0xba, 0xa9, 0x4b, 0xaf, 0x20,    \
    0xfa, 0xf6, 0x6a, 0xa4, 0xdc, 0xb8,                                                                                        \
    /* SizeOfData, Flags, MetaDataSize, MetaDataOffset */                                                                      \
    0x11, 0x12, 0x13, 0x14, 0x15, 0x16, 0x17, 0x18, 0x19, 0x1a, 0x1b, 0x1c, 0x21, 0x22, 0x23, 0x24

enum { BIG_HEADER_LEN = 56, BIG_SYMBOL_LEN = 20 };

/* A big object of three sections, which have two relocations, none and three, and of four symbols, which have five records. */
static uint8_t big_bytes[] = {
    /* the header: the symbol table is at 230, with five records */
    BIG_HEADER, 3, 0, 0, 0, 230, 0, 0, 0, 5, 0, 0, 0,
    /* 56: a name in the string table, four bytes at 176, two relocations at 180 */
    '/', '4', 0, 0, 0, 0, 0, 0, 0x31, 0x32, 0x33, 0x34, 0x35, 0x36, 0x37, 0x38, 4, 0, 0, 0, 176, 0, 0, 0, 180, 0, 0, 0, 0x39, 0x3a, 0x3b,
    0x3c, 2, 0, 0x3d, 0x3e, 0x20, 0, 0, 0x60,
    /* 96: bytes that are not in the file */
    '.', 'b', 's', 's', 0, 0, 0, 0, 0, 0, 0, 0, 0, 0, 0, 0, 0x78, 0x56, 0x34, 0x12, 0, 0, 0, 0, 0, 0, 0, 0, 0, 0, 0, 0, 0, 0, 0, 0, 0x80, 0,
    0, 0xc0,
    /* 136: three relocations at 200 */
    '.', 'c', 0, 0, 0, 0, 0, 0, 0, 0, 0, 0, 0, 0, 0, 0, 0, 0, 0, 0, 0, 0, 0, 0, 200, 0, 0, 0, 0, 0, 0, 0, 3, 0, 0, 0, 0x20, 0, 0, 0x60,
    /* 176: the bytes of the first section */
    0xe8, 1, 2, 3,
    /* 180: its relocations */
    1, 0, 0, 0, 2, 0, 0, 0, 4, 0,
    2, 0, 0, 0, 4, 0, 0, 0, 4, 0,
    /* 200: those of the third section */
    3, 0, 0, 0, 0, 0, 0, 0, 2, 0,
    4, 0, 0, 0, 3, 0, 0, 0, 3, 0,
    0x44, 0x33, 0x22, 0x11, 4, 0, 0, 0, 0x34, 0x12,
    /* 230: record 0, of the source's name, with one auxiliary record */
    '.', 'f', 'i', 'l', 'e', 0, 0, 0, 0, 0, 0, 0, 0xfe, 0xff, 0xff, 0xff, 0, 0, 103, 1,
    'a', '.', 'c', 0, 0, 0, 0, 0, 0, 0, 0, 0, 0, 0, 0, 0, 0, 0, 0x51, 0x52,
    /* 270: record 2, a function in the third section */
    'a', 'b', 'c', 'd', 'e', 'f', 'g', 'h', 7, 0, 0, 0, 3, 0, 0, 0, 0x20, 0, 2, 0,
    /* 290: record 3, whose name is in the string table, and whose value is no address */
    0, 0, 0, 0, 4, 0, 0, 0, 0x44, 0x43, 0x42, 0x41, 0xff, 0xff, 0xff, 0xff, 0, 0, 3, 0,
    /* 310: record 4, which is defined elsewhere */
    'u', 0, 0, 0, 0, 0, 0, 0, 0, 0, 0, 0, 0, 0, 0, 0, 0, 0, 105, 0,
    /* 330: the string table */
    16, 0, 0, 0, 'a', '.', 'l', 'o', 'n', 'g', '.', 'n', 'a', 'm', 'e', 0,
};

static inline bytes big_object(void)
{
    bytes file = {big_bytes, sizeof big_bytes};
    return file;
}

#endif
