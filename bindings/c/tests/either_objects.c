/* Objects of either form: each call on its good path and in each of its statuses. The values are those of the big object of big.h,
 * of o1.obj and two.obj, and of the objects below, all made by hand. */
#include "big.h"

static bytes o1, two;

static int is_fault_at(petool_fault fault, uint16_t number, uint64_t at)
{
    return fault.number == number && fault.place == PETOOL_PLACE_FILE && fault.image == 0 && fault.at == at;
}

static void check_judging(void)
{
    bytes big = big_object();
    petool_fault fault = UNTOLD;
    bool is_big = false;
    CHECK(petool_either_object_check(big.at, big.len, &is_big, &fault) == PETOOL_OK && is_big && is_untold(fault));
    CHECK(petool_either_object_check(o1.at, o1.len, &is_big, &fault) == PETOOL_OK && !is_big && is_untold(fault));
    is_big = true;
    CHECK(petool_either_object_check(two.at, two.len, &is_big, &fault) == PETOOL_OK && !is_big);
    CHECK(petool_either_object_check(o1.at, 19, &is_big, &fault) == PETOOL_FAULT && is_fault_at(fault, 61, 19) && !is_big);
    is_big = true;
    CHECK(petool_either_object_check(two.at, 99, &is_big, &fault) == PETOOL_FAULT && fault.number == 63 && is_big);
    fault = UNTOLD;
    CHECK(petool_either_object_check(NULL, 1, &is_big, &fault) == PETOOL_ARGUMENT && is_untold(fault) && is_big);
    CHECK(petool_either_object_check(NULL, 0, &is_big, &fault) == PETOOL_FAULT && is_fault_at(fault, 61, 0) && is_big);
}

/* The first fault of a file, which each call has; all results stay as they were. */
static petool_fault refused(const uint8_t *file, size_t len)
{
    petool_fault first = UNTOLD, fault = UNTOLD;
    petool_object_section section;
    petool_object_relocation relocation = {9, 9, 9};
    petool_either_object_symbol symbol;
    size_t count = 99;
    bool is_big = true;
    petool_object_sections_init(&section, 1);
    petool_either_object_symbols_init(&symbol, 1);
    section.virtual_size = 9, symbol.value = 9;
    CHECK(petool_either_object_check(file, len, &is_big, &first) == PETOOL_FAULT && is_big);
    CHECK(petool_either_object_sections(file, len, &section, 1, &count, &fault) == PETOOL_FAULT && section.virtual_size == 9);
    CHECK(memcmp(&fault, &first, sizeof fault) == 0);
    fault = UNTOLD;
    CHECK(petool_either_object_relocations(file, len, 0, &relocation, 1, &count, &fault) == PETOOL_FAULT && relocation.address == 9);
    CHECK(memcmp(&fault, &first, sizeof fault) == 0);
    fault = UNTOLD;
    CHECK(petool_either_object_all_relocations(file, len, 0, &relocation, 1, &count, &fault) == PETOOL_FAULT && relocation.kind == 9);
    CHECK(memcmp(&fault, &first, sizeof fault) == 0);
    fault = UNTOLD;
    CHECK(petool_either_object_symbols(file, len, &symbol, 1, &count, &fault) == PETOOL_FAULT && symbol.value == 9 && count == 99);
    CHECK(memcmp(&fault, &first, sizeof fault) == 0);
    return first;
}

/* The first fault of the big object with another number at an offset. */
static petool_fault refused_with(size_t at, uint32_t number)
{
    bytes big = big_object();
    uint8_t *changed = (uint8_t *)malloc(big.len);
    petool_fault first;
    if (changed == NULL)
        exit(3);
    memcpy(changed, big.at, big.len);
    put_number(changed + at, number);
    first = refused(changed, big.len);
    free(changed);
    return first;
}

/* Files that claim what they do not hold, and headers of other files that begin alike. */
static void check_refusals(void)
{
    bytes big = big_object();
    uint8_t claims[100];
    CHECK(is_fault_at(refused(big.at, 55), 61, 55));
    CHECK(is_fault_at(refused(big.at, 20), 61, 20));
    /* the versions of an import object and of an object without a form of its own, and another class */
    CHECK(is_fault_at(refused_with(4, 0x86640000), 62, 4));
    CHECK(is_fault_at(refused_with(4, 0x86640001), 62, 4));
    CHECK(is_fault_at(refused_with(12, 0xd1baa1c8), 62, 12));
    CHECK(is_fault_at(refused_with(24, 0x38dca46a), 62, 12));
    /* 2^32 - 1 sections, 2^31 + 1 sections and 2^32 - 1 records in 100 bytes */
    memset(claims, 0, sizeof claims);
    memcpy(claims, big.at, BIG_HEADER_LEN);
    put_number(claims + 44, 0xffffffff);
    CHECK(is_fault_at(refused(claims, sizeof claims), 63, 44));
    put_number(claims + 44, 0x80000001);
    CHECK(is_fault_at(refused(claims, sizeof claims), 63, 44));
    put_number(claims + 44, 0);
    put_number(claims + 48, BIG_HEADER_LEN);
    put_number(claims + 52, 0xffffffff);
    CHECK(is_fault_at(refused(claims, sizeof claims), 67, 48));
    /* a section's bytes and relocations, the string table, a name, auxiliary records, and a relocation's symbol */
    CHECK(is_fault_at(refused_with(56 + 20, 0xffffffff), 64, 56));
    CHECK(is_fault_at(refused_with(136 + 24, 317), 66, 136));
    CHECK(is_fault_at(refused_with(330, 17), 68, 330));
    CHECK(is_fault_at(refused_with(290 + 4, 16), 69, 290));
    CHECK(is_fault_at(refused_with(310 + 16, 0x01690000), 70, 310));
    CHECK(is_fault_at(refused_with(180 + 4, 5), 72, 180));
    /* section numbers that no section has: the next one, past 2^31, and the last before -2 */
    CHECK(is_fault_at(refused_with(270 + 12, 4), 71, 270));
    CHECK(is_fault_at(refused_with(270 + 12, 0x80000001), 71, 270));
    CHECK(is_fault_at(refused_with(270 + 12, 0xfffffffd), 71, 270));
    CHECK(is_fault_at(refused_with(270 + 12, 0xffff), 71, 270));
    CHECK(is_fault_at(refused(o1.at, 19), 61, 19));
    CHECK(is_fault_at(refused(two.at, 99), 63, 2));
}

/* The calls of plain objects refuse a big one. */
static void check_plain_calls(void)
{
    bytes big = big_object();
    petool_object_header header;
    petool_object_section section;
    petool_object_relocation relocation = {9, 9, 9};
    petool_object_symbol symbol;
    petool_fault fault = UNTOLD;
    size_t count = 99;
    petool_object_sections_init(&section, 1);
    petool_object_symbols_init(&symbol, 1);
    CHECK(petool_object_check(big.at, big.len, &fault) == PETOOL_FAULT && is_fault_at(fault, 62, 0));
    CHECK(petool_object_headers(big.at, big.len, &header, NULL, 0, &fault) == PETOOL_FAULT && is_fault_at(fault, 62, 0));
    CHECK(petool_object_sections(big.at, big.len, &section, 1, &count, &fault) == PETOOL_FAULT && fault.number == 62);
    CHECK(petool_object_relocations(big.at, big.len, 0, &relocation, 1, &count, &fault) == PETOOL_FAULT && fault.number == 62);
    CHECK(petool_object_all_relocations(big.at, big.len, 0, &relocation, 1, &count, &fault) == PETOOL_FAULT && fault.number == 62);
    CHECK(petool_object_symbols(big.at, big.len, &symbol, 1, &count, &fault) == PETOOL_FAULT && fault.number == 62 && count == 99);
}

static void check_headers(void)
{
    bytes big = big_object();
    petool_big_object_header header;
    petool_section_header rows[4];
    petool_fault fault = UNTOLD;
    memset(&header, 0x55, sizeof header), memset(rows, 0x55, sizeof rows);
    CHECK(petool_big_object_headers(big.at, big.len, &header, rows, 4, &fault) == PETOOL_OK && is_untold(fault));
    CHECK(header.version == 2 && header.machine == 0x8664 && header.time_date_stamp == 0x04030201);
    CHECK(header.size_of_data == 0x14131211 && header.flags == 0x18171615);
    CHECK(header.meta_data_size == 0x1c1b1a19 && header.meta_data_offset == 0x24232221);
    CHECK(header.number_of_sections == 3 && header.pointer_to_symbol_table == 230 && header.number_of_symbols == 5);
    CHECK(memcmp(rows[0].name, "/4\0\0\0\0\0", 8) == 0);
    CHECK(rows[0].virtual_size == 0x34333231 && rows[0].virtual_address == 0x38373635);
    CHECK(rows[0].size_of_raw_data == 4 && rows[0].pointer_to_raw_data == 176 && rows[0].pointer_to_relocations == 180);
    CHECK(rows[0].pointer_to_linenumbers == 0x3c3b3a39 && rows[0].number_of_relocations == 2);
    CHECK(rows[0].number_of_linenumbers == 0x3e3d && rows[0].characteristics == 0x60000020);
    CHECK(memcmp(rows[1].name, ".bss\0\0\0", 8) == 0 && rows[1].size_of_raw_data == 0x12345678 && rows[2].number_of_relocations == 3);
    CHECK(rows[3].virtual_size == 0x55555555);

    memset(rows, 0x55, sizeof rows);
    CHECK(petool_big_object_headers(big.at, big.len, &header, rows, 1, &fault) == PETOOL_OK && header.number_of_sections == 3);
    CHECK(rows[0].virtual_size == 0x34333231 && rows[1].virtual_size == 0x55555555);
    CHECK(petool_big_object_headers(big.at, big.len, &header, NULL, 0, &fault) == PETOOL_OK);
    CHECK(petool_big_object_headers(big.at, big.len, &header, NULL, 1, &fault) == PETOOL_ARGUMENT && is_untold(fault));

    memset(&header, 0x55, sizeof header), memset(rows, 0x55, sizeof rows);
    CHECK(petool_big_object_headers(o1.at, o1.len, &header, rows, 4, &fault) == PETOOL_FAULT && is_fault_at(fault, 62, 0));
    CHECK(petool_big_object_headers(big.at, 175, &header, rows, 4, &fault) == PETOOL_FAULT && is_fault_at(fault, 63, 44));
    CHECK(header.machine == 0x5555 && rows[0].virtual_size == 0x55555555);
}

static void check_sections(void)
{
    bytes big = big_object();
    petool_object_section rows[4];
    petool_fault fault = UNTOLD;
    size_t count = 99;
    petool_object_sections_init(rows, 4);
    CHECK(petool_either_object_sections(big.at, big.len, rows, 4, &count, &fault) == PETOOL_OK && count == 3 && is_untold(fault));
    CHECK(is_text(rows[0].name, "a.long.name", 11) && is_text(rows[0].bytes, "\xe8\1\2\3", 4) && rows[0].bytes.at == big.at + 176);
    CHECK(rows[0].absent_size == 0 && rows[0].virtual_size == 0x34333231 && rows[0].virtual_address == 0x38373635);
    CHECK(rows[0].characteristics == 0x60000020 && rows[0].relocation_count == 2);
    CHECK(is_text(rows[1].name, ".bss", 4) && rows[1].bytes.len == 0 && rows[1].absent_size == 0x12345678);
    CHECK(is_text(rows[2].name, ".c", 2) && rows[2].relocation_count == 3 && rows[3].name.len == 0);

    petool_object_sections_init(rows, 4);
    CHECK(petool_either_object_sections(big.at, big.len, rows, 2, &count, &fault) == PETOOL_SMALL && count == 3);
    CHECK(is_text(rows[1].name, ".bss", 4) && rows[2].name.len == 0 && is_untold(fault));
    count = 99;
    CHECK(petool_either_object_sections(big.at, big.len, NULL, 1, &count, &fault) == PETOOL_ARGUMENT && count == 99);
    CHECK(petool_either_object_sections(big.at, big.len, NULL, 0, &count, &fault) == PETOOL_SMALL && count == 3);
}

static int is_relocation(petool_object_relocation row, uint32_t address, uint32_t symbol, uint32_t kind)
{
    return row.address == address && row.symbol == symbol && row.kind == kind;
}

static void check_relocations(void)
{
    bytes big = big_object();
    petool_object_relocation rows[4];
    petool_fault fault = UNTOLD;
    size_t count = 99;
    memset(rows, 0, sizeof rows);
    CHECK(petool_either_object_relocations(big.at, big.len, 3, rows, 4, &count, &fault) == PETOOL_ABSENT && count == 99);
    CHECK(petool_either_object_relocations(big.at, big.len, SIZE_MAX, rows, 4, &count, &fault) == PETOOL_ABSENT && count == 99);
    CHECK(petool_either_object_relocations(big.at, big.len, 0, NULL, 1, &count, &fault) == PETOOL_ARGUMENT && count == 99);
    CHECK(petool_either_object_relocations(big.at, big.len, 2, rows, 2, &count, &fault) == PETOOL_SMALL && count == 3);
    CHECK(is_relocation(rows[0], 3, 0, 2) && is_relocation(rows[1], 4, 3, 3) && is_relocation(rows[2], 0, 0, 0));
    CHECK(petool_either_object_relocations(big.at, big.len, 2, rows, 4, &count, &fault) == PETOOL_OK && count == 3);
    CHECK(is_relocation(rows[2], 0x11223344, 4, 0x1234) && is_relocation(rows[3], 0, 0, 0));
    CHECK(petool_either_object_relocations(big.at, big.len, 1, rows, 4, &count, &fault) == PETOOL_OK && count == 0);
    CHECK(is_relocation(rows[0], 3, 0, 2) && is_untold(fault));
    CHECK(petool_either_object_relocations(big.at, big.len, 0, rows, 4, &count, &fault) == PETOOL_OK && count == 2);
    CHECK(is_relocation(rows[0], 1, 2, 4) && is_relocation(rows[1], 2, 4, 4) && is_relocation(rows[2], 0x11223344, 4, 0x1234));
}

/* The relocations of all sections after each number of skipped ones, in each room. */
static void check_all_relocations(void)
{
    static const petool_object_relocation all[5] = {{1, 2, 4}, {2, 4, 4}, {3, 0, 2}, {4, 3, 3}, {0x11223344, 4, 0x1234}};
    bytes big = big_object();
    petool_object_relocation rows[7];
    petool_fault fault = UNTOLD;
    size_t count = 99;
    for (size_t skipped = 0; skipped <= 6; skipped++) {
        for (size_t room = 0; room <= 6; room++) {
            size_t behind = skipped < 5 ? 5 - skipped : 0, told = behind < room ? behind : room;
            memset(rows, 0x55, sizeof rows);
            CHECK(petool_either_object_all_relocations(big.at, big.len, skipped, rows, room, &count, &fault)
                == (behind > room ? PETOOL_SMALL : PETOOL_OK));
            CHECK(count == behind && memcmp(rows, all + (skipped < 5 ? skipped : 5), told * sizeof *rows) == 0);
            CHECK(is_relocation(rows[told], 0x55555555, 0x55555555, 0x55555555));
        }
    }
    CHECK(petool_either_object_all_relocations(big.at, big.len, SIZE_MAX, rows, 7, &count, &fault) == PETOOL_OK && count == 0);
    count = 99;
    CHECK(petool_either_object_all_relocations(big.at, big.len, 0, NULL, 1, &count, &fault) == PETOOL_ARGUMENT && count == 99);
    CHECK(is_untold(fault));
}

static void check_symbols(void)
{
    bytes big = big_object();
    petool_either_object_symbol rows[5];
    petool_fault fault = UNTOLD;
    size_t count = 99;
    petool_either_object_symbols_init(rows, 5);
    CHECK(petool_either_object_symbols(big.at, big.len, rows, 5, &count, &fault) == PETOOL_OK && count == 4 && is_untold(fault));
    CHECK(is_text(rows[0].name, ".file", 5) && rows[0].index == 0 && rows[0].section_number == PETOOL_EITHER_SECTION_DEBUG);
    CHECK(rows[0].class_ == 103 && is_text(rows[0].aux, "a.c\0\0\0\0\0\0\0\0\0\0\0\0\0\0\0\x51\x52", BIG_SYMBOL_LEN));
    CHECK(rows[0].aux.at == big.at + 250);
    CHECK(is_text(rows[1].name, "abcdefgh", 8) && rows[1].index == 2 && rows[1].value == 7 && rows[1].section_number == 3);
    CHECK(rows[1].kind == 0x20 && rows[1].class_ == 2 && rows[1].aux.len == 0);
    CHECK(is_text(rows[2].name, "a.long.name", 11) && rows[2].index == 3 && rows[2].value == 0x41424344);
    CHECK(rows[2].section_number == PETOOL_EITHER_SECTION_ABSOLUTE && rows[2].class_ == 3);
    CHECK(is_text(rows[3].name, "u", 1) && rows[3].index == 4 && rows[3].section_number == PETOOL_EITHER_SECTION_UNDEFINED);
    CHECK(rows[3].class_ == 105 && rows[4].index == 0 && rows[4].name.len == 0);

    petool_either_object_symbols_init(rows, 5);
    CHECK(petool_either_object_symbols(big.at, big.len, rows, 3, &count, &fault) == PETOOL_SMALL && count == 4);
    CHECK(rows[2].index == 3 && rows[3].index == 0);
    count = 99;
    CHECK(petool_either_object_symbols(big.at, big.len, NULL, 1, &count, &fault) == PETOOL_ARGUMENT && count == 99);
}

/* The symbols of a plain object have the same rows as in the calls of plain objects, but for the width of section numbers. */
static void check_symbols_of_plain(void)
{
    petool_object_symbol plain[4];
    petool_either_object_symbol rows[4];
    petool_fault fault = UNTOLD;
    size_t count = 99;
    petool_object_symbols_init(plain, 4);
    petool_either_object_symbols_init(rows, 4);
    CHECK(petool_object_symbols(o1.at, o1.len, plain, 4, &count, &fault) == PETOOL_OK && count == 4);
    CHECK(petool_either_object_symbols(o1.at, o1.len, rows, 4, &count, &fault) == PETOOL_OK && count == 4);
    for (int k = 0; k < 4; k++) {
        CHECK(rows[k].name.at == plain[k].name.at && rows[k].name.len == plain[k].name.len && rows[k].index == plain[k].index);
        CHECK(rows[k].aux.len == plain[k].aux.len && (plain[k].aux.len == 0 || rows[k].aux.at == plain[k].aux.at));
        CHECK(rows[k].value == plain[k].value && rows[k].kind == plain[k].kind && rows[k].class_ == plain[k].class_);
    }
    CHECK(rows[0].section_number == PETOOL_EITHER_SECTION_DEBUG && rows[0].aux.len == 18 && rows[1].section_number == 1);
    CHECK(rows[2].section_number == PETOOL_EITHER_SECTION_UNDEFINED && rows[3].section_number == PETOOL_EITHER_SECTION_ABSOLUTE);
}

/* Its sections and relocations have the same rows too. */
static void check_tables_of_plain(void)
{
    petool_object_section plain[2], rows[2];
    petool_object_relocation relocations[2];
    petool_fault fault = UNTOLD;
    size_t count = 99;
    petool_object_sections_init(plain, 2);
    petool_object_sections_init(rows, 2);
    CHECK(petool_object_sections(two.at, two.len, plain, 2, &count, &fault) == PETOOL_OK);
    CHECK(petool_either_object_sections(two.at, two.len, rows, 2, &count, &fault) == PETOOL_OK && count == 2);
    CHECK(rows[0].name.at == plain[0].name.at && rows[0].name.len == 4 && rows[0].absent_size == 0x12345678);
    CHECK(rows[1].bytes.at == plain[1].bytes.at && rows[1].bytes.len == plain[1].bytes.len);
    CHECK(rows[1].characteristics == plain[1].characteristics);
    memset(relocations, 0, sizeof relocations);
    CHECK(petool_either_object_relocations(o1.at, o1.len, 0, relocations, 2, &count, &fault) == PETOOL_OK && count == 1);
    CHECK(is_relocation(relocations[0], 1, 3, 4) && is_relocation(relocations[1], 0, 0, 0));
    CHECK(petool_either_object_relocations(o1.at, o1.len, 1, relocations, 2, &count, &fault) == PETOOL_ABSENT);
    memset(relocations, 0, sizeof relocations);
    CHECK(petool_either_object_all_relocations(o1.at, o1.len, 0, relocations, 2, &count, &fault) == PETOOL_OK && count == 1);
    CHECK(is_relocation(relocations[0], 1, 3, 4) && is_untold(fault));
}

/* A big object of more sections than 16 bits count: the last has one relocation, and the one symbol is in it. */
static void check_many(void)
{
    enum { MANY = 70000 };
    const size_t end = BIG_HEADER_LEN + 40 * (size_t)MANY, len = end + 10 + BIG_SYMBOL_LEN + 4;
    uint8_t *file = (uint8_t *)calloc(len, 1), *symbol = file + end + 10, *last = file + end - 40;
    petool_either_object_symbol row;
    petool_object_relocation relocation = {9, 9, 9};
    petool_big_object_header header;
    petool_fault fault = UNTOLD;
    size_t count = 99;
    if (file == NULL)
        exit(3);
    memcpy(file, big_bytes, BIG_HEADER_LEN);
    put_number(file + 44, MANY);
    put_number(file + 48, (uint32_t)end + 10);
    put_number(file + 52, 1);
    put_number(last + 24, (uint32_t)end);
    last[32] = 1;
    put_number(file + end, 0x1234);
    put_number(symbol + 12, MANY);
    put_number(symbol + BIG_SYMBOL_LEN, 4);
    petool_either_object_symbols_init(&row, 1);
    CHECK(petool_either_object_symbols(file, len, &row, 1, &count, &fault) == PETOOL_OK && count == 1 && row.section_number == MANY);
    CHECK(petool_big_object_headers(file, len, &header, NULL, 0, &fault) == PETOOL_OK && header.number_of_sections == MANY);
    CHECK(petool_either_object_sections(file, len, NULL, 0, &count, &fault) == PETOOL_SMALL && count == MANY);
    CHECK(petool_either_object_relocations(file, len, MANY - 1, &relocation, 1, &count, &fault) == PETOOL_OK && count == 1);
    CHECK(is_relocation(relocation, 0x1234, 0, 0));
    CHECK(petool_either_object_relocations(file, len, MANY, &relocation, 1, &count, &fault) == PETOOL_ABSENT && is_untold(fault));
    put_number(symbol + 12, MANY + 1);
    CHECK(petool_either_object_symbols(file, len, &row, 1, &count, &fault) == PETOOL_FAULT && is_fault_at(fault, 71, end + 10));
    free(file);
}

int main(int argc, char **argv)
{
    if (argc != 2)
        return 2;
    o1 = file_in(argv[1], "o1.obj");
    two = file_in(argv[1], "two.obj");
    check_judging();
    check_refusals();
    check_plain_calls();
    check_headers();
    check_sections();
    check_relocations();
    check_all_relocations();
    check_symbols();
    check_symbols_of_plain();
    check_tables_of_plain();
    check_many();
    free(o1.at), free(two.at);
    return told();
}
