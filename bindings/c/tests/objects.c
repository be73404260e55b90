/* Objects: each call on its good path and in each of its statuses. The values are those of o1.obj, two.obj and the objects
 * below, made by hand. */
#include "check.h"

static bytes o1, two;

/* Fault 61 of the first 19 bytes of an object. */
static int is_cut(petool_fault fault)
{
    return fault.number == 61 && fault.image == 0 && fault.place == PETOOL_PLACE_FILE && fault.at == 19;
}

static void check_judging(void)
{
    petool_fault fault = {0, 0, 0, 0};
    CHECK(petool_object_check(o1.at, o1.len, &fault) == PETOOL_OK && fault.number == 0);
    CHECK(petool_object_check(o1.at, 19, &fault) == PETOOL_FAULT && is_cut(fault));
}

/* An object whose headers have no byte twice but 0, so that each value shows which bytes were read. It has no symbols and no
 * relocations, and its section's bytes are not in the file. */
static uint8_t headers_bytes[] = {
    /* the COFF header, with an optional header of two bytes */
    0x01, 0x02, 1, 0, 0x03, 0x04, 0x05, 0x06, 0, 0, 0, 0, 0x07, 0x08, 0x09, 0x0a, 2, 0, 0x0b, 0x0c,
    0xff, 0xff,
    /* the section header */
    'a', 'b', 'c', 'd', 'e', 'f', 'g', 'h', 0x11, 0x12, 0x13, 0x14, 0x15, 0x16, 0x17, 0x18, 0x19, 0x1a, 0x1b, 0x1c, 0, 0, 0, 0,
    0x21, 0x22, 0x23, 0x24, 0x25, 0x26, 0x27, 0x28, 0, 0, 0x29, 0x2a, 0x2b, 0x2c, 0x2d, 0x2e,
};

static void check_headers(void)
{
    const bytes object = {headers_bytes, sizeof headers_bytes};
    petool_object_header header;
    petool_section_header rows[2];
    petool_fault fault = {0, 0, 0, 0};
    memset(&header, 0x55, sizeof header), memset(rows, 0x55, sizeof rows);
    CHECK(petool_object_headers(object.at, object.len, &header, rows, 2, &fault) == PETOOL_OK && fault.number == 0);
    CHECK(header.machine == 0x0201 && header.number_of_sections == 1 && header.time_date_stamp == 0x06050403);
    CHECK(header.pointer_to_symbol_table == 0 && header.number_of_symbols == 0x0a090807);
    CHECK(header.size_of_optional_header == 2 && header.characteristics == 0x0c0b);
    CHECK(memcmp(rows[0].name, "abcdefgh", 8) == 0 && rows[0].virtual_size == 0x14131211 && rows[0].virtual_address == 0x18171615);
    CHECK(rows[0].size_of_raw_data == 0x1c1b1a19 && rows[0].pointer_to_raw_data == 0 && rows[0].pointer_to_relocations == 0x24232221);
    CHECK(rows[0].pointer_to_linenumbers == 0x28272625 && rows[0].number_of_relocations == 0);
    CHECK(rows[0].number_of_linenumbers == 0x2a29 && rows[0].characteristics == 0x2e2d2c2b && rows[1].virtual_size == 0x55555555);

    CHECK(petool_object_headers(o1.at, o1.len, &header, rows, 2, &fault) == PETOOL_OK);
    CHECK(header.pointer_to_symbol_table == 76 && header.number_of_symbols == 5 && memcmp(rows[0].name, "/4\0\0\0\0\0", 8) == 0);
    CHECK(rows[0].pointer_to_raw_data == 60 && rows[0].pointer_to_relocations == 66 && rows[0].number_of_relocations == 1);
    memset(rows, 0x55, sizeof rows);
    CHECK(petool_object_headers(two.at, two.len, &header, rows, 1, &fault) == PETOOL_OK && header.number_of_sections == 2);
    CHECK(memcmp(rows[0].name, ".bss\0\0\0", 8) == 0 && rows[1].virtual_size == 0x55555555);
    CHECK(petool_object_headers(two.at, 99, &header, rows, 2, &fault) == PETOOL_FAULT && fault.number == 63);
    CHECK(header.machine == 0x14c && rows[1].virtual_size == 0x55555555);
}

static void check_sections(void)
{
    petool_object_section rows[2];
    petool_fault fault = {0, 0, 0, 0};
    size_t count = 99;
    petool_object_sections_init(rows, 2);
    CHECK(petool_object_sections(o1.at, o1.len, rows, 2, &count, &fault) == PETOOL_OK);
    CHECK(count == 1 && is_text(rows[0].name, ".text$long", 10) && rows[1].name.len == 0);
    CHECK(is_text(rows[0].bytes, "\xe8\0\0\0\0\xc3", 6) && rows[0].bytes.at == o1.at + 0x3c);
    CHECK(rows[0].absent_size == 0 && rows[0].virtual_size == 0 && rows[0].virtual_address == 0);
    CHECK(rows[0].characteristics == 0x60000020 && rows[0].relocation_count == 1);

    petool_object_sections_init(rows, 2);
    CHECK(petool_object_sections(two.at, two.len, rows, 1, &count, &fault) == PETOOL_SMALL);
    CHECK(count == 2 && is_text(rows[0].name, ".bss", 4) && rows[1].name.len == 0);
    CHECK(rows[0].bytes.len == 0 && rows[0].absent_size == 0x12345678 && rows[0].characteristics == 0xc0000080);
    CHECK(petool_object_sections(two.at, two.len, rows, 2, &count, &fault) == PETOOL_OK);
    CHECK(is_text(rows[1].name, ".data", 5) && rows[1].absent_size == 0 && rows[1].relocation_count == 0);
    CHECK(fault.number == 0);
    count = 99;
    CHECK(petool_object_sections(two.at, 99, rows, 2, &count, &fault) == PETOOL_FAULT && fault.number == 63 && count == 99);

    petool_object_sections_init(rows, 2);
    fault = UNTOLD;
    CHECK(petool_object_sections(o1.at, o1.len, rows, 0, &count, &fault) == PETOOL_SMALL && count == 1 && is_untold(fault));
    count = 99;
    CHECK(petool_object_sections(o1.at, 19, rows, 2, &count, &fault) == PETOOL_FAULT && is_cut(fault));
    CHECK(count == 99 && rows[0].name.len == 0);
}

static void check_relocations(void)
{
    petool_object_relocation rows[2];
    petool_fault fault = {0, 0, 0, 0};
    size_t count = 99;
    memset(rows, 0, sizeof rows);
    CHECK(petool_object_relocations(o1.at, o1.len, 1, rows, 2, &count, &fault) == PETOOL_ABSENT && count == 99);
    CHECK(petool_object_relocations(o1.at, o1.len, 0, rows, 0, &count, &fault) == PETOOL_SMALL && count == 1);
    CHECK(petool_object_relocations(o1.at, o1.len, 0, rows, 2, &count, &fault) == PETOOL_OK && count == 1);
    CHECK(rows[0].address == 1 && rows[0].symbol == 3 && rows[0].kind == 4 && rows[1].address == 0);
    CHECK(fault.number == 0);
    count = 99;
    CHECK(petool_object_relocations(o1.at, 19, 0, rows, 2, &count, &fault) == PETOOL_FAULT && is_cut(fault) && count == 99);
}

/* An object of three sections, which have two relocations, none and three, and one symbol. */
static uint8_t three_bytes[] = {
    /* the COFF header: the symbol table is at 190 */
    0x64, 0x86, 3, 0, 0, 0, 0, 0, 190, 0, 0, 0, 1, 0, 0, 0, 0, 0, 0, 0,
    /* 20: two relocations, at 140 */
    '.', 'a', 0, 0, 0, 0, 0, 0, 0, 0, 0, 0, 0, 0, 0, 0, 0, 0, 0, 0, 0, 0, 0, 0, 140, 0, 0, 0, 0, 0, 0, 0, 2, 0, 0, 0, 0x20, 0, 0, 0x60,
    /* 60: none */
    '.', 'b', 0, 0, 0, 0, 0, 0, 0, 0, 0, 0, 0, 0, 0, 0, 0, 0, 0, 0, 0, 0, 0, 0, 0, 0, 0, 0, 0, 0, 0, 0, 0, 0, 0, 0, 0x20, 0, 0, 0x60,
    /* 100: three relocations, at 160 */
    '.', 'c', 0, 0, 0, 0, 0, 0, 0, 0, 0, 0, 0, 0, 0, 0, 0, 0, 0, 0, 0, 0, 0, 0, 160, 0, 0, 0, 0, 0, 0, 0, 3, 0, 0, 0, 0x20, 0, 0, 0x60,
    /* 140 */
    1, 0, 0, 0, 0, 0, 0, 0, 4, 0,
    2, 0, 0, 0, 0, 0, 0, 0, 4, 0,
    /* 160 */
    3, 0, 0, 0, 0, 0, 0, 0, 2, 0,
    4, 0, 0, 0, 0, 0, 0, 0, 3, 0,
    0x44, 0x33, 0x22, 0x11, 0, 0, 0, 0, 0x34, 0x12,
    /* 190: the symbol, and an empty string table */
    'x', 0, 0, 0, 0, 0, 0, 0, 0, 0, 0, 0, 0, 0, 0, 0, 2, 0,
    4, 0, 0, 0,
};

/* An object of two sections, which have two relocations and one, and two symbols. */
static uint8_t two_sections_bytes[] = {
    /* the COFF header: the symbol table is at 130 */
    0x64, 0x86, 2, 0, 0, 0, 0, 0, 130, 0, 0, 0, 2, 0, 0, 0, 0, 0, 0, 0,
    /* 20: two relocations, at 100 */
    '.', 'a', 0, 0, 0, 0, 0, 0, 0, 0, 0, 0, 0, 0, 0, 0, 0, 0, 0, 0, 0, 0, 0, 0, 100, 0, 0, 0, 0, 0, 0, 0, 2, 0, 0, 0, 0x20, 0, 0, 0x60,
    /* 60: one relocation, at 120 */
    '.', 'b', 0, 0, 0, 0, 0, 0, 0, 0, 0, 0, 0, 0, 0, 0, 0, 0, 0, 0, 0, 0, 0, 0, 120, 0, 0, 0, 0, 0, 0, 0, 1, 0, 0, 0, 0x20, 0, 0, 0x60,
    /* 100 */
    1, 0, 0, 0, 0, 0, 0, 0, 4, 0,
    0x10, 0, 0, 0, 1, 0, 0, 0, 2, 0,
    /* 120 */
    0x44, 0x33, 0x22, 0x11, 1, 0, 0, 0, 0x34, 0x12,
    /* 130: the symbols, and an empty string table */
    'x', 0, 0, 0, 0, 0, 0, 0, 0, 0, 0, 0, 0, 0, 0, 0, 2, 0,
    'y', 0, 0, 0, 0, 0, 0, 0, 0, 0, 0, 0, 0, 0, 0, 0, 2, 0,
    4, 0, 0, 0,
};

/* Its relocations. */
static const petool_object_relocation of_two_sections[3] = {{1, 0, 4}, {0x10, 1, 2}, {0x11223344, 1, 0x1234}};

/* Asserts which of them are told after `skipped`, into `room` rows, of at most four: the rest stays as it was. */
static void check_skipped(size_t skipped, size_t room, uint32_t expected)
{
    petool_object_relocation rows[4];
    const petool_object_relocation unwritten = {9, 9, 9};
    petool_fault fault = UNTOLD;
    size_t count = 99, behind = skipped < 3 ? 3 - skipped : 0;
    for (size_t row = 0; row < 4; row++)
        rows[row] = unwritten;
    CHECK(petool_object_all_relocations(two_sections_bytes, sizeof two_sections_bytes, skipped, rows, room, &count, &fault) == expected);
    CHECK(count == behind && is_untold(fault));
    for (size_t row = 0; row < 4; row++) {
        const petool_object_relocation *wanted = row < room && row < behind ? &of_two_sections[skipped + row] : &unwritten;
        CHECK(rows[row].address == wanted->address && rows[row].symbol == wanted->symbol && rows[row].kind == wanted->kind);
    }
}

static void check_two_sections(void)
{
    check_skipped(0, 4, PETOOL_OK);
    check_skipped(0, 2, PETOOL_SMALL);
    check_skipped(1, 2, PETOOL_OK);
    check_skipped(2, 2, PETOOL_OK);
    check_skipped(3, 2, PETOOL_OK);
    check_skipped(SIZE_MAX, 2, PETOOL_OK);
}

/* the relocations of all sections, read section by section */
static size_t section_by_section(bytes object, petool_object_relocation *rows, size_t room)
{
    petool_fault fault = {0, 0, 0, 0};
    size_t all = 0;
    for (size_t section = 0;; section++) {
        size_t count = 0;
        uint32_t status = petool_object_relocations(object.at, object.len, section, rows + all, room - all, &count, &fault);
        if (status == PETOOL_ABSENT)
            return all;
        CHECK(status == PETOOL_OK);
        all += count;
    }
}

/* the relocations of all sections, read in windows of `room` rows; no row after a window is written */
static size_t by_windows(bytes object, size_t room, petool_object_relocation *all)
{
    petool_fault fault = {0, 0, 0, 0};
    size_t skipped = 0;
    for (;;) {
        petool_object_relocation rows[9];
        size_t count = 99;
        memset(rows, 0x55, sizeof rows);
        uint32_t status = petool_object_all_relocations(object.at, object.len, skipped, rows, room, &count, &fault);
        size_t told = count < room ? count : room;
        CHECK(status == (count > room ? PETOOL_SMALL : PETOOL_OK));
        CHECK(rows[told].address == 0x55555555 && rows[told].kind == 0x55555555);
        memcpy(all + skipped, rows, told * sizeof *rows);
        skipped += told;
        if (status == PETOOL_OK)
            return skipped;
    }
}

static void check_all_relocations_of(bytes object, size_t expected)
{
    petool_object_relocation single[8], all[8];
    petool_fault fault = {0, 0, 0, 0};
    memset(single, 0, sizeof single);
    CHECK(section_by_section(object, single, 8) == expected);
    for (size_t room = 1; room <= 8; room++) {
        memset(all, 0, sizeof all);
        CHECK(by_windows(object, room, all) == expected && memcmp(all, single, sizeof all) == 0);
    }
    for (size_t skipped = 0; skipped <= expected + 1; skipped++) {
        size_t behind = skipped < expected ? expected - skipped : 0, count = 99;
        uint32_t status = petool_object_all_relocations(object.at, object.len, skipped, all, 0, &count, &fault);
        CHECK(status == (behind == 0 ? PETOOL_OK : PETOOL_SMALL) && count == behind);
    }
    CHECK(fault.number == 0);
}

static void check_all_relocations(void)
{
    bytes three = {three_bytes, sizeof three_bytes};
    petool_object_relocation rows[2];
    petool_fault fault = {0, 0, 0, 0};
    size_t count = 99;
    check_all_relocations_of(o1, 1);
    check_all_relocations_of(two, 0);
    check_all_relocations_of(three, 5);

    memset(rows, 0, sizeof rows);
    CHECK(petool_object_all_relocations(three.at, three.len, 1, rows, 2, &count, &fault) == PETOOL_SMALL && count == 4);
    CHECK(rows[0].address == 2 && rows[0].kind == 4 && rows[1].address == 3 && rows[1].kind == 2);
    CHECK(petool_object_all_relocations(three.at, three.len, 4, rows, 2, &count, &fault) == PETOOL_OK && count == 1);
    CHECK(rows[0].address == 0x11223344 && rows[0].kind == 0x1234 && rows[1].address == 3);
    CHECK(petool_object_all_relocations(three.at, three.len, SIZE_MAX, rows, 2, &count, &fault) == PETOOL_OK && count == 0);
    CHECK(rows[0].address == 0x11223344);
    count = 99;
    CHECK(petool_object_all_relocations(o1.at, 19, 0, rows, 2, &count, &fault) == PETOOL_FAULT && is_cut(fault) && count == 99);
    CHECK(rows[0].address == 0x11223344 && rows[1].address == 3);
}

static void check_symbols(void)
{
    petool_object_symbol rows[5];
    petool_fault fault = {0, 0, 0, 0};
    size_t count = 99;
    petool_object_symbols_init(rows, 5);
    CHECK(petool_object_symbols(o1.at, o1.len, rows, 5, &count, &fault) == PETOOL_OK && count == 4);
    CHECK(is_text(rows[0].name, ".file", 5) && rows[0].index == 0 && rows[0].section_number == PETOOL_SECTION_DEBUG);
    CHECK(rows[0].class_ == 103 && rows[0].aux.len == 18 && memcmp(rows[0].aux.at, "a.c\0", 4) == 0);
    CHECK(is_text(rows[1].name, "abcdefgh", 8) && rows[1].index == 2 && rows[1].section_number == 1);
    CHECK(rows[1].kind == 0x20 && rows[1].class_ == 2 && rows[1].value == 0 && rows[1].aux.len == 0);
    CHECK(is_text(rows[2].name, "abcdefghi", 9) && rows[2].index == 3 && rows[2].section_number == PETOOL_SECTION_UNDEFINED);
    CHECK(rows[3].name.len == 0 && rows[3].value == 7 && rows[3].section_number == PETOOL_SECTION_ABSOLUTE && rows[3].class_ == 3);
    CHECK(rows[4].index == 0 && rows[4].class_ == 0);
    CHECK(petool_object_symbols(o1.at, o1.len, rows, 3, &count, &fault) == PETOOL_SMALL && count == 4);
    count = 99;
    CHECK(fault.number == 0);
    CHECK(petool_object_symbols(o1.at, 19, rows, 5, &count, &fault) == PETOOL_FAULT && is_cut(fault) && count == 99);
}

int main(int argc, char **argv)
{
    if (argc != 2)
        return 2;
    o1 = file_in(argv[1], "o1.obj");
    two = file_in(argv[1], "two.obj");
    check_judging();
    check_headers();
    check_sections();
    check_relocations();
    check_all_relocations();
    check_two_sections();
    check_symbols();
    free(o1.at), free(two.at);
    return told();
}
