/* What the tests of tables beyond the profile share: files that are v1.dll with another section, which is at RVA 0x1000 and at 0x200
 * of the file. ImageBase is 0x10000000, and SizeOfImage 0x3000. */
#ifndef SECTION_H
#define SECTION_H

#include "check.h"

static bytes v1;

static inline int is_finding(petool_fault it, uint16_t number, uint64_t rva)
{
    return it.number == number && it.place == PETOOL_PLACE_RVA && it.image == 0 && it.at == rva;
}

/* The file with these bytes in its section, and a directory of so many bytes at RVA 0x1000. */
static inline bytes with_section(uint32_t index, uint32_t size, uint16_t machine, const void *section, size_t len)
{
    bytes file = {(uint8_t *)malloc(0x200 + len), 0x200 + len};
    if (file.at == NULL)
        exit(3);
    memcpy(file.at, v1.at, 0x200);
    memcpy(file.at + 0x200, section, len);
    file.at[0x44] = (uint8_t)machine;
    file.at[0x45] = (uint8_t)(machine >> 8);
    put_number(file.at + 0x90, 0x3000);
    put_number(file.at + 0xb8 + 8 * index, 0x1000);
    put_number(file.at + 0xbc + 8 * index, size);
    put_number(file.at + 0x140, (uint32_t)len);
    put_number(file.at + 0x148, (uint32_t)len);
    return file;
}

#endif
