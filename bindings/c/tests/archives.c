/*
 * Archives: each call on its good path and in each of its statuses. The archives are made here, member by member, as the format has
 * them, and their offsets are worked out by hand.
 */
#include "check.h"

/* An archive that is being made. */
static uint8_t made[4096];
static size_t end;

static void put(const void *at, size_t len)
{
    memcpy(made + end, at, len);
    end += len;
}

/* The fields of a member's header, each a text that blanks fill up. */
typedef struct header {
    const char *name, *date, *user, *group, *mode, *size;
} header;

static void put_header(header fields)
{
    char text[61];
    snprintf(text, sizeof text, "%-16s%-12s%-6s%-6s%-8s%-10s`\n", fields.name, fields.date, fields.user, fields.group, fields.mode,
             fields.size);
    put(text, 60);
}

/* A member with bytes, at the next even offset. */
static void put_member(const char *name, const void *at, size_t len)
{
    char size[24];
    header fields = {name, "1700000000", "1000", "100", "100644", size};
    snprintf(size, sizeof size, "%zu", len);
    if (end % 2 != 0)
        put("\n", 1);
    put_header(fields);
    put(at, len);
}

static void begin(const char *signature)
{
    end = 0;
    put(signature, 8);
}

/* A short import object: of f in k.dll by its name, with the hint 0x1234. */
static const uint8_t import_bytes[] = {
    0, 0, 0xff, 0xff, 0, 0, 0x64, 0x86, 1, 2, 3, 4, 8, 0, 0, 0, 0x34, 0x12, 4, 0, 'f', 0, 'k', '.', 'd', 'l', 'l', 0,
};

/* Two linker members of two symbols, long names, an object's place with such a name, and an import object: its members begin at 8, 88,
 * 178, 264 and 328. */
static const uint8_t first_linker[] = {0, 0, 0, 2, 0, 0, 1, 8, 0, 0, 1, 0x48, 'a', 0, 'f', 0, 0, 0, 0, 0};
static const uint8_t second_linker[] = {
    2, 0, 0, 0, 8, 1, 0, 0, 0x48, 1, 0, 0, 3, 0, 0, 0, 1, 0, 2, 0, 3, 0, 'a', 0, 'f', 0, 'l', 'o', 's', 0,
};

static void make_whole(void)
{
    begin("!<arch>\n");
    put_member("/", first_linker, sizeof first_linker);
    put_member("/", second_linker, sizeof second_linker);
    put_member("//", "folder/long name of it.o/\n", 26);
    put_member("/0", "data", 4);
    put_member("k.dll/", import_bytes, sizeof import_bytes);
}

enum { ROWS = 8 };
static petool_archive_member members[ROWS];
static petool_archive_symbol symbols[ROWS];

static int is_string(petool_text text, const char *string)
{
    return text.len == strlen(string) && memcmp(text.at, string, text.len) == 0;
}

static int is_number(petool_field field, uint64_t value)
{
    return field.is_present && field.value == value;
}

static int is_unset(const petool_archive_member *row)
{
    return row->offset == 77 && row->kind == 99;
}

/* The members into rows, of which each has values that no member has. */
static uint32_t read_members(size_t room, size_t *count, petool_fault *fault)
{
    petool_archive_members_init(members, ROWS);
    for (size_t k = 0; k < ROWS; k++) {
        members[k].offset = 77;
        members[k].kind = 99;
    }
    return petool_archive_members(made, end, members, room, count, fault);
}

static uint32_t read_symbols(uint32_t linker, size_t room, size_t *count, petool_fault *fault)
{
    petool_archive_symbols_init(symbols, ROWS);
    for (size_t k = 0; k < ROWS; k++)
        symbols[k].member.value = 77;
    return petool_archive_symbols(made, end, linker, symbols, room, count, fault);
}

static void check_judging(void)
{
    petool_fault fault = {0, 0, 0, 0};
    size_t count = 7;
    make_whole();
    CHECK(petool_archive_check(made, end, &fault) == PETOOL_OK && fault.number == 0);
    CHECK(petool_archive_check(made, 8, &fault) == PETOOL_OK && fault.number == 0);
    CHECK(petool_archive_check(made, 7, &fault) == PETOOL_FAULT);
    CHECK(fault.number == 300 && fault.place == PETOOL_PLACE_FILE && fault.at == 0 && fault.image == 0);
    made[1] = '>';
    fault.number = 0;
    CHECK(petool_archive_check(made, end, &fault) == PETOOL_FAULT && fault.number == 300);
    fault.number = 0;
    CHECK(read_members(ROWS, &count, &fault) == PETOOL_FAULT && fault.number == 300 && count == 7 && is_unset(members));
    fault.number = 0;
    CHECK(read_symbols(1, ROWS, &count, &fault) == PETOOL_FAULT && fault.number == 300 && count == 7 && symbols[0].member.value == 77);
    fault.number = 0;
    CHECK(petool_archive_findings(made, end, NULL, 0, &count, &fault) == PETOOL_FAULT && fault.number == 300 && count == 7);
    CHECK(petool_archive_check(NULL, 0, &fault) == PETOOL_FAULT && fault.number == 300);
    CHECK(petool_archive_check(NULL, 1, &fault) == PETOOL_ARGUMENT);
}

static void check_members(void)
{
    petool_fault fault = {0, 0, 0, 0};
    size_t count = 0;
    make_whole();
    CHECK(read_members(0, &count, &fault) == PETOOL_SMALL && count == 5 && is_unset(members));
    CHECK(petool_archive_members(made, end, NULL, 0, &count, &fault) == PETOOL_SMALL && count == 5);
    CHECK(read_members(4, &count, &fault) == PETOOL_SMALL && count == 5 && members[3].offset == 264 && is_unset(&members[4]));
    CHECK(read_members(5, &count, &fault) == PETOOL_OK && count == 5 && is_unset(&members[5]));
    CHECK(read_members(ROWS, &count, &fault) == PETOOL_OK && count == 5 && is_unset(&members[5]) && fault.number == 0);
    CHECK(is_string(members[0].name, "/") && members[0].kind == PETOOL_MEMBER_LINKER && members[0].offset == 8 && members[0].size == 20);
    CHECK(is_string(members[1].name, "/") && members[1].kind == PETOOL_MEMBER_LINKER && members[1].offset == 88);
    CHECK(members[0].bytes.at == made + 68 && members[0].bytes.len == 20);
    CHECK(is_string(members[2].name, "//") && members[2].kind == PETOOL_MEMBER_LONG_NAMES && members[2].offset == 178);
    CHECK(is_string(members[3].name, "folder/long name of it.o") && members[3].name.at == made + 238 && members[3].has_name);
    CHECK(members[3].kind == PETOOL_MEMBER_FILE && members[3].offset == 264 && members[3].size == 4);
    CHECK(is_string(members[3].bytes, "data") && members[3].bytes.at == made + 324);
    CHECK(is_number(members[3].date, 1700000000) && is_number(members[3].user, 1000) && is_number(members[3].group, 100));
    CHECK(is_number(members[3].mode, 0100644));
    CHECK(is_string(members[4].name, "k.dll") && members[4].kind == PETOOL_MEMBER_IMPORT && members[4].offset == 328);
    CHECK(members[4].bytes.at == made + 388 && members[4].bytes.len == sizeof import_bytes);
}

static void check_other_members(void)
{
    petool_fault fault = {0, 0, 0, 0};
    size_t count = 0;
    header blank = {"a.o/", "", "", "", "9", "0"};
    /* no numbers; a name of BSD at the member's front; one that leads to no text; a member of another kind of the archive's own */
    begin("!<arch>\n");
    put_header(blank);
    put_member("#1/8", "bsd.o\0\0\0data", 12);
    put_member("/4", "", 0);
    put_member("/SYM64/", "", 0);
    CHECK(read_members(ROWS, &count, &fault) == PETOOL_OK && count == 4);
    CHECK(is_string(members[0].name, "a.o") && members[0].bytes.len == 0 && members[0].kind == PETOOL_MEMBER_FILE);
    CHECK(!members[0].date.is_present && !members[0].user.is_present && !members[0].group.is_present && !members[0].mode.is_present);
    CHECK(members[0].date.value == 0 && members[0].mode.value == 0);
    CHECK(is_string(members[1].name, "bsd.o") && is_string(members[1].bytes, "data") && members[1].size == 12);
    CHECK(!members[2].has_name && members[2].name.len == 0 && members[2].kind == PETOOL_MEMBER_FILE);
    CHECK(is_string(members[3].name, "/SYM64/") && members[3].kind == PETOOL_MEMBER_OWN);

    /* a thin archive has the bytes of its own members alone */
    header apart = {"/0", "0", "0", "0", "644", "10000"};
    begin("!<thin>\n");
    put_member("//", "dir/a.o/\n", 9);
    put("\n", 1);
    put_header(apart);
    CHECK(read_members(ROWS, &count, &fault) == PETOOL_OK && count == 2);
    CHECK(members[0].kind == PETOOL_MEMBER_LONG_NAMES && members[0].bytes.len == 9);
    CHECK(members[1].kind == PETOOL_MEMBER_APART && members[1].bytes.len == 0 && members[1].size == 10000);
    CHECK(is_string(members[1].name, "dir/a.o") && is_number(members[1].mode, 0644) && is_number(members[1].date, 0));
}

/* Many members share a name of over 256 bytes, which begins in it at several places; and one that has no end. */
static void check_long_names(void)
{
    petool_fault fault = {0, 0, 0, 0};
    size_t count = 0;
    char names[700];
    memset(names, 'n', sizeof names);
    names[599] = '\n';
    begin("!<arch>\n");
    put_member("//", names, sizeof names);
    put_member("/0", "", 0);
    put_member("/300", "", 0);
    put_member("/511", "", 0);
    put_member("/512", "", 0);
    put_member("/599", "", 0);
    put_member("/600", "", 0);
    CHECK(read_members(ROWS, &count, &fault) == PETOOL_OK && count == 7);
    CHECK(members[1].name.at == made + 68 && members[1].name.len == 599);
    CHECK(members[2].name.at == made + 368 && members[2].name.len == 299);
    CHECK(members[3].name.len == 88 && members[4].name.len == 87);
    CHECK(members[5].has_name && members[5].name.len == 0 && !members[6].has_name);
}

static void check_symbols(void)
{
    petool_fault fault = {0, 0, 0, 0};
    size_t count = 7;
    make_whole();
    CHECK(read_symbols(1, ROWS, &count, &fault) == PETOOL_OK && count == 2 && symbols[2].member.value == 77);
    CHECK(is_string(symbols[0].name, "a") && symbols[0].name.at == made + 80 && is_number(symbols[0].member, 264));
    CHECK(is_string(symbols[1].name, "f") && is_number(symbols[1].member, 328));
    CHECK(read_symbols(2, ROWS, &count, &fault) == PETOOL_OK && count == 3 && symbols[3].member.value == 77);
    CHECK(is_string(symbols[0].name, "a") && is_number(symbols[0].member, 264) && is_number(symbols[1].member, 328));
    CHECK(is_string(symbols[2].name, "los") && !symbols[2].member.is_present && symbols[2].member.value == 0);
    CHECK(read_symbols(2, 1, &count, &fault) == PETOOL_SMALL && count == 3 && symbols[1].member.value == 77);
    CHECK(read_symbols(1, 0, &count, &fault) == PETOOL_SMALL && count == 2 && symbols[0].member.value == 77);
    count = 7;
    CHECK(read_symbols(0, ROWS, &count, &fault) == PETOOL_ARGUMENT && count == 7 && symbols[0].member.value == 77);
    CHECK(read_symbols(3, ROWS, &count, &fault) == PETOOL_ARGUMENT && count == 7);
    /* a number is judged before the file */
    CHECK(petool_archive_symbols(made, 0, 3, symbols, ROWS, &count, &fault) == PETOOL_ARGUMENT && fault.number == 0);
    begin("!<arch>\n");
    CHECK(read_symbols(1, ROWS, &count, &fault) == PETOOL_ABSENT && count == 7 && symbols[0].member.value == 77);
    put_member("/", first_linker, sizeof first_linker);
    CHECK(read_symbols(2, ROWS, &count, &fault) == PETOOL_ABSENT && count == 7);
    CHECK(read_symbols(1, ROWS, &count, &fault) == PETOOL_OK && count == 2 && fault.number == 0);
}

static void check_import(void)
{
    uint8_t bytes[sizeof import_bytes];
    petool_import_object found;
    petool_fault fault = {0, 0, 0, 0};
    petool_import_object_init(&found);
    memcpy(bytes, import_bytes, sizeof bytes);
    CHECK(petool_archive_import(bytes, sizeof bytes, &found, &fault) == PETOOL_OK && fault.number == 0);
    CHECK(is_string(found.symbol, "f") && is_string(found.module, "k.dll") && is_string(found.name, "f"));
    CHECK(found.symbol.at == bytes + 20 && found.module.at == bytes + 22);
    CHECK(found.machine == 0x8664 && found.time_date_stamp == 0x04030201 && found.ordinal == 0x1234);
    CHECK(found.kind == 0 && found.name_type == 1);
    bytes[18] = 2;
    CHECK(petool_archive_import(bytes, sizeof bytes, &found, &fault) == PETOOL_OK);
    CHECK(found.kind == 2 && found.name_type == 0 && found.name.len == 0 && is_string(found.symbol, "f"));
    found.machine = 7;
    CHECK(petool_archive_import(bytes, 27, &found, &fault) == PETOOL_FAULT && fault.number == 331 && fault.at == 0);
    bytes[18] = 4 * 5;
    CHECK(petool_archive_import(bytes, sizeof bytes, &found, &fault) == PETOOL_FAULT && fault.number == 333);
    bytes[27] = 'x';
    CHECK(petool_archive_import(bytes, sizeof bytes, &found, &fault) == PETOOL_FAULT && fault.number == 332 && fault.image == 0);
    CHECK(found.machine == 7);
    fault.number = 0;
    CHECK(petool_archive_import(bytes, 19, &found, &fault) == PETOOL_ABSENT && fault.number == 0 && found.machine == 7);
    CHECK(petool_archive_import(NULL, 0, &found, &fault) == PETOOL_ABSENT);
    bytes[4] = 1;
    CHECK(petool_archive_import(bytes, sizeof bytes, &found, &fault) == PETOOL_ABSENT && found.machine == 7);
}

static void check_findings(void)
{
    uint8_t bytes[sizeof import_bytes];
    petool_fault rows[4], fault = {0, 0, 0, 0};
    size_t count = 7;
    make_whole();
    /* the third symbol of the second linker member has the index 3, and there are two offsets */
    CHECK(petool_archive_findings(made, end, rows, 4, &count, &fault) == PETOOL_OK && count == 1 && fault.number == 0);
    CHECK(rows[0].number == 306 && rows[0].at == 88 && rows[0].place == PETOOL_PLACE_FILE && rows[0].image == 0);

    memcpy(bytes, import_bytes, sizeof bytes);
    bytes[12] = 9;
    begin("!<arch>\n");
    put_member("/4", "", 0);
    put_member("k.dll/", bytes, sizeof bytes);
    put("x", 1);
    memset(rows, 0x55, sizeof rows);
    CHECK(petool_archive_findings(made, end, rows, 4, &count, &fault) == PETOOL_OK && count == 3);
    CHECK(rows[0].number == 304 && rows[0].at == 8 && rows[1].number == 301 && rows[1].at == 156);
    CHECK(rows[2].number == 331 && rows[2].at == 68 && rows[3].number == 0x5555);
    memset(rows, 0x55, sizeof rows);
    CHECK(petool_archive_findings(made, end, rows, 1, &count, &fault) == PETOOL_SMALL && count == 3);
    CHECK(rows[0].number == 304 && rows[1].number == 0x5555);
    CHECK(petool_archive_findings(made, end, NULL, 0, &count, &fault) == PETOOL_SMALL && count == 3);
    begin("!<arch>\n");
    CHECK(petool_archive_findings(made, end, NULL, 0, &count, &fault) == PETOOL_OK && count == 0);
}

/* Whether each call answers for the first bytes of what is made as the header says, with texts in these bytes. */
static int answers(size_t len)
{
    petool_archive_member rows[ROWS];
    petool_archive_symbol names[ROWS];
    petool_import_object found;
    petool_fault faults[ROWS], fault = {0, 0, 0, 0};
    size_t count = 0;
    uint32_t status;
    int right;
    petool_archive_members_init(rows, ROWS);
    petool_archive_symbols_init(names, ROWS);
    petool_import_object_init(&found);
    right = petool_archive_members(made, len, rows, ROWS, &count, &fault) == PETOOL_OK && count <= ROWS;
    for (size_t k = 0; right && k < count; k++)
        right = rows[k].bytes.len == 0 || (rows[k].bytes.at >= made && rows[k].bytes.len <= len - (size_t)(rows[k].bytes.at - made));
    for (uint32_t linker = 1; linker <= 2; linker++) {
        status = petool_archive_symbols(made, len, linker, names, ROWS, &count, &fault);
        right = right && (status == PETOOL_OK || status == PETOOL_SMALL || status == PETOOL_ABSENT);
    }
    status = petool_archive_findings(made, len, faults, ROWS, &count, &fault);
    right = right && (status == PETOOL_OK || status == PETOOL_SMALL);
    status = petool_archive_import(made + 388, len < 388 ? 0 : len - 388, &found, &fault);
    return right && (status == PETOOL_OK || status == PETOOL_ABSENT || (status == PETOOL_FAULT && fault.number > 330));
}

/* Whatever byte of an archive is another one, and wherever it is cut off. */
static void check_hostile(void)
{
    size_t wrong = 0;
    make_whole();
    for (size_t k = 8; k < end; k++) {
        const uint8_t before = made[k], others[] = {0, 0xff, (uint8_t)(before ^ 1), '/', '9'};
        for (size_t other = 0; other < sizeof others; other++) {
            made[k] = others[other];
            wrong += !answers(end);
        }
        made[k] = before;
        wrong += !answers(k);
    }
    CHECK(wrong == 0);
}

static petool_new_member new_member(const char *name, const void *at, size_t len)
{
    petool_new_member member = {PETOOL_NONE, PETOOL_NONE};
    member.name.at = (const uint8_t *)name;
    member.name.len = strlen(name);
    member.bytes.at = (const uint8_t *)at;
    member.bytes.len = len;
    return member;
}

/* A member as it is written, in which the numbers of the header but its size are 0 and 644. */
static void put_written(const char *name, const void *at, size_t len)
{
    char size[24];
    header fields = {name, "0", "0", "0", "644", size};
    snprintf(size, sizeof size, "%zu", len);
    put_header(fields);
    put(at, len);
    put("\n", len % 2);
}

/* Two members, of which the first has two symbols; its header is at 180, and that of the second at 268. */
static void check_write(void)
{
    static const uint8_t first[] = {0, 0, 0, 2, 0, 0, 0, 180, 0, 0, 0, 180, '_', '_', 'i', 'm', 'p', '_', 'f', 0, 'f', 0};
    static const uint8_t second[] = {2, 0, 0, 0, 180, 0, 0, 0, 12, 1, 0, 0, 2, 0, 0, 0, 1, 0, 1, 0, '_', '_', 'i', 'm', 'p', '_', 'f', 0, 'f', 0};
    petool_new_member members[2];
    uint8_t buffer[400];
    petool_fault fault = {0, 0, 0, 0};
    size_t count = 7;
    members[0] = new_member("k.dll", import_bytes, sizeof import_bytes);
    members[1] = new_member("a.txt", "odd", 3);
    begin("!<arch>\n");
    put_written("/", first, sizeof first);
    put_written("/", second, sizeof second);
    put_written("k.dll/", import_bytes, sizeof import_bytes);
    put_written("a.txt/", "odd", 3);
    memset(buffer, 0x55, sizeof buffer);
    CHECK(petool_archive_write(members, 2, buffer, sizeof buffer, &count, &fault) == PETOOL_OK && count == 332 && end == 332);
    CHECK(memcmp(buffer, made, 332) == 0 && buffer[332] == 0x55 && fault.number == 0);
    memset(buffer, 0x55, sizeof buffer);
    CHECK(petool_archive_write(members, 2, buffer, 331, &count, &fault) == PETOOL_SMALL && count == 332);
    CHECK(memcmp(buffer, made, 331) == 0 && buffer[331] == 0x55);
    CHECK(petool_archive_write(members, 2, buffer, 332, &count, &fault) == PETOOL_OK && memcmp(buffer, made, 332) == 0);
    CHECK(petool_archive_write(members, 2, NULL, 0, &count, &fault) == PETOOL_SMALL && count == 332);
    CHECK(petool_archive_write(NULL, 0, NULL, 0, &count, &fault) == PETOOL_SMALL && count == 8 + 64 + 68);

    members[1].name.len = 0;
    count = 7;
    memset(buffer, 0x55, sizeof buffer);
    CHECK(petool_archive_write(members, 2, buffer, sizeof buffer, &count, &fault) == PETOOL_FAULT && count == 7 && buffer[0] == 0x55);
    CHECK(fault.number == 92 && fault.place == PETOOL_PLACE_ITEM && fault.at == 1 && fault.image == 0);
}

int main(void)
{
    check_judging();
    check_members();
    check_other_members();
    check_long_names();
    check_symbols();
    check_import();
    check_findings();
    check_hostile();
    check_write();
    return told();
}
