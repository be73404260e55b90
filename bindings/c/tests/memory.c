/*
 * Each allocation of each call fails in turn, and all after it: the call returns that it is out of memory, leaves its results
 * unchanged, and frees all of its memory; or, if only memory was refused that it can do without, it succeeds. The linker replaces
 * malloc, realloc and free with the functions below.
 */
#include "big.h"
#include "section.h"

void *__real_malloc(size_t size);
void *__real_realloc(void *at, size_t size);
void __real_free(void *at);
void *__wrap_malloc(size_t size);
void *__wrap_realloc(void *at, size_t size);
void __wrap_free(void *at);

/* how many allocations were requested, how many succeed before all fail (all, if negative), and how many blocks are in use */
static long asked, room = -1, living;

static int is_refused(void)
{
    asked++;
    if (room <= 0)
        return room == 0;
    room--;
    return 0;
}

void *__wrap_malloc(size_t size)
{
    if (is_refused())
        return NULL;
    living++;
    return __real_malloc(size);
}

void *__wrap_realloc(void *at, size_t size)
{
    if (is_refused())
        return NULL;
    living += at == NULL;
    return __real_realloc(at, size);
}

void __wrap_free(void *at)
{
    living -= at != NULL;
    __real_free(at);
}

static bytes va, vb, vc, vr, v2, v3;
static petool_entry abc[3];
static petool_fault fault;
static petool_image image;
static petool_space space;
static size_t count;

static uint32_t judge_file(void)
{
    return petool_check(vr.at, vr.len, &fault);
}

static uint32_t read_exports(void)
{
    petool_export rows[5];
    petool_exports_init(rows, 5);
    return petool_exports(vr.at, vr.len, rows, 5, &count, &fault);
}

static uint32_t read_names(void)
{
    petool_export rows[3];
    petool_exports_init(rows, 3);
    return petool_export_names(vr.at, vr.len, rows, 3, &count, &fault);
}

static uint32_t read_imports(void)
{
    petool_import rows[5];
    petool_imports_init(rows, 5);
    return petool_imports(vr.at, vr.len, rows, 5, &count, &fault);
}

static uint32_t find_slot(void)
{
    petool_import row;
    petool_imports_init(&row, 1);
    return petool_import_at(vr.at, vr.len, 0x40018, &row, &fault);
}

static uint32_t read_fixups(void)
{
    petool_fixup rows[4];
    memset(rows, 0, sizeof rows);
    return petool_fixups(vr.at, vr.len, rows, 4, &count, &fault);
}

static uint32_t find_name(void)
{
    petool_target target;
    petool_target_init(&target);
    return petool_export_by_name(vr.at, vr.len, (const uint8_t *)"plain", 5, &target, &fault);
}

static uint32_t find_ordinal(void)
{
    petool_target target;
    petool_target_init(&target);
    return petool_export_by_ordinal(vr.at, vr.len, 65537, &target, &fault);
}

/* v1.dll with a debug directory of 29 bytes, of which the file holds 16: findings 101 and 102. */
static uint32_t find_rules(void)
{
    petool_fault rows[2];
    memset(rows, 0, sizeof rows);
    return petool_findings(v1.at, v1.len, rows, 2, &count, &fault);
}

/* A resource directory of one entry: a leaf at the first level, which is finding 186. */
static const uint8_t LEAF[40] = {
    0, 0, 0, 0, 0, 0, 0, 0, 0, 0, 0, 0, 0, 0, 1, 0, 1, 0, 0, 0, 24, 0, 0, 0, 0, 0x10, 0, 0, 4, 0, 0, 0, 0, 0, 0, 0, 0, 0, 0, 0,
};

static uint32_t read_resources(void)
{
    petool_resource row;
    petool_resources_init(&row, 1);
    return petool_resources(v3.at, v3.len, &row, 1, &count, &fault);
}

/* The header of a member, from its name to its end. */
#define HEADER(name, size) name "0           0     0     644     " size "`\n"

/* An archive with long names, of which one is of a member; and one of two members without names, which is finding 304 of each. */
static const char LONG_NAMES[] = "!<arch>\n" HEADER("//              ", "4         ") "ab/\n" HEADER("/0              ", "0         ");
static const char NO_NAMES[] = "!<arch>\n" HEADER("/4              ", "0         ") HEADER("/5              ", "0         ");

static uint32_t read_members(void)
{
    petool_archive_member rows[2];
    petool_archive_members_init(rows, 2);
    return petool_archive_members((const uint8_t *)LONG_NAMES, sizeof LONG_NAMES - 1, rows, 2, &count, &fault);
}

static uint32_t find_names(void)
{
    petool_fault rows[2];
    memset(rows, 0, sizeof rows);
    return petool_archive_findings((const uint8_t *)NO_NAMES, sizeof NO_NAMES - 1, rows, 2, &count, &fault);
}

/* An archive of the short import object of "f" in "k.dll", and of no bytes. */
static uint32_t write_members(void)
{
    static const uint8_t import[] = {0, 0, 0xff, 0xff, 0, 0, 0x64, 0x86, 0, 0, 0, 0, 8, 0, 0, 0, 0, 0, 4, 0, 'f', 0, 'k', '.', 'd', 'l', 'l', 0};
    petool_new_member members[2] = {{PETOOL_NONE, PETOOL_NONE}, {PETOOL_NONE, PETOOL_NONE}};
    uint8_t buffer[512];
    uint32_t status;
    members[0].name.at = members[1].name.at = (const uint8_t *)"a name of more than fifteen letters";
    members[0].name.len = 35;
    members[0].bytes.at = import;
    members[0].bytes.len = sizeof import;
    members[1].name.len = 1;
    memset(buffer, 0x55, sizeof buffer);
    status = petool_archive_write(members, 2, buffer, sizeof buffer, &count, &fault);
    CHECK(status == PETOOL_OK ? memcmp(buffer, "!<arch>\n", 8) == 0 && count < sizeof buffer : buffer[0] == 0x55);
    return status;
}

/* A big object of two sections, of which the second has a relocation, and of two symbols. The first section and the first symbol have
 * a name of 700 letters, and the second ones the last 400 of these. Where it ends is remembered, or searched again without memory. */
static uint8_t long_names[BIG_HEADER_LEN + 2 * 40 + 10 + 2 * BIG_SYMBOL_LEN + 4 + 701];

static void set_long_names(void)
{
    static const uint8_t header[BIG_HEADER_LEN] = {BIG_HEADER, 2, 0, 0, 0, 146, 0, 0, 0, 2, 0, 0, 0};
    uint8_t *sections = long_names + BIG_HEADER_LEN, *symbols = long_names + 146, *strings = symbols + 2 * BIG_SYMBOL_LEN;
    memcpy(long_names, header, sizeof header);
    memcpy(sections, "/4", 2), memcpy(sections + 40, "/304", 4);
    sections[40 + 24] = 136, sections[40 + 32] = 1;
    long_names[136] = 0x5a;
    put_number(symbols + 4, 4), put_number(symbols + BIG_SYMBOL_LEN + 4, 304);
    put_number(strings, 4 + 701);
    memset(strings + 4, 'a', 700);
}

static uint32_t read_either_sections(void)
{
    petool_object_section rows[2];
    uint32_t status;
    petool_object_sections_init(rows, 2);
    status = petool_either_object_sections(long_names, sizeof long_names, rows, 2, &count, &fault);
    CHECK(count == 2 && rows[0].name.len == 700 && rows[1].name.len == 400 && rows[1].name.at == rows[0].name.at + 300);
    return status;
}

static uint32_t read_either_relocations(void)
{
    petool_object_relocation row = {0, 0, 0};
    uint32_t status = petool_either_object_all_relocations(long_names, sizeof long_names, 0, &row, 1, &count, &fault);
    CHECK(count == 1 && row.address == 0x5a);
    return status;
}

static uint32_t read_either_symbols(void)
{
    petool_either_object_symbol rows[2];
    uint32_t status;
    petool_either_object_symbols_init(rows, 2);
    status = petool_either_object_symbols(long_names, sizeof long_names, rows, 2, &count, &fault);
    CHECK(count == 2 && rows[0].name.len == 700 && rows[1].name.len == 400 && rows[1].index == 1);
    return status;
}

/* The other calls of objects of either form allocate nothing. */
static void check_either(void)
{
    petool_big_object_header header;
    petool_object_relocation row = {0, 0, 0};
    bool is_big = false;
    asked = 0;
    CHECK(petool_either_object_check(long_names, sizeof long_names, &is_big, &fault) == PETOOL_OK && is_big);
    CHECK(petool_big_object_headers(long_names, sizeof long_names, &header, NULL, 0, &fault) == PETOOL_OK);
    CHECK(petool_either_object_relocations(long_names, sizeof long_names, 1, &row, 1, &count, &fault) == PETOOL_OK);
    CHECK(row.address == 0x5a && asked == 0);
}

static uint32_t find_resources(void)
{
    petool_fault row = {0, 0, 0, 0};
    return petool_findings(v3.at, v3.len, &row, 1, &count, &fault);
}

static uint32_t open_file(void)
{
    uint32_t status = petool_image_open(&image, vr.at, vr.len, &fault);
    CHECK(image.is_open == (status == PETOOL_OK));
    petool_image_close(&image);
    return status;
}

/* Opens a file over an open image, which is closed first. */
static uint32_t open_over(void)
{
    uint32_t status = petool_image_open(&image, vb.at, vb.len, &fault);
    if (status == PETOOL_OK)
        status = petool_image_open(&image, vr.at, vr.len, &fault);
    CHECK(image.is_open == (status == PETOOL_OK));
    petool_image_close(&image);
    return status;
}

/* Shares an open image, which then stays open. */
static uint32_t share_image(void)
{
    petool_image other = PETOOL_IMAGE_CLOSED;
    uint32_t status = petool_image_open(&image, vr.at, vr.len, &fault);
    if (status == PETOOL_OK) {
        status = petool_image_share(&image, &other);
        CHECK(image.is_open && other.is_open == (status == PETOOL_OK));
    }
    petool_image_close(&image);
    petool_image_close(&other);
    return status;
}

static uint32_t move_file(void)
{
    uint8_t out[0x600];
    return petool_rebase(v2.at, v2.len, 0x20000000, out, v2.len, &fault);
}

static uint32_t judge_set(void)
{
    petool_binding row[1];
    uint32_t cycle = 0;
    memset(row, 0, sizeof row);
    return petool_judge(abc, 3, false, row, 1, &count, &cycle, &fault);
}

static uint32_t map_set(void)
{
    uint32_t cycle = 0;
    uint32_t status = petool_space_map(&space, abc, 3, false, &cycle, &fault);
    CHECK(space.is_open == (status == PETOOL_OK));
    petool_space_close(&space);
    return status;
}

static uint32_t map_within(void)
{
    uint32_t cycle = 0;
    uint32_t status = petool_space_map_within(&space, abc, 3, false, 0x9000, &cycle, &fault);
    CHECK(space.is_open == (status == PETOOL_OK));
    petool_space_close(&space);
    return status;
}

/* Maps a set over the open space of another, which is closed first. */
static uint32_t map_over(void)
{
    uint32_t cycle = 0;
    uint32_t status = petool_space_map(&space, abc, 3, false, &cycle, &fault);
    if (status == PETOOL_OK)
        status = petool_space_map(&space, abc, 3, false, &cycle, &fault);
    CHECK(space.is_open == (status == PETOOL_OK));
    petool_space_close(&space);
    return status;
}

/* Opens a set as a space over its files, and reads a slot. */
static uint32_t open_set(void)
{
    uint32_t cycle = 0;
    uint8_t slot[4] = {0, 0, 0, 0};
    uint32_t status = petool_space_open(&space, abc, 3, false, &cycle, &fault);
    CHECK(space.is_open == (status == PETOOL_OK));
    if (status == PETOOL_OK)
        CHECK(petool_space_read(&space, 0x401030, slot, 4, &fault) == PETOOL_OK && memcmp(slot, "\x10\x10\x00\x20", 4) == 0);
    petool_space_close(&space);
    return status;
}

/* Shares an open space, which a failure leaves open, and which is moved when only it is left. */
static uint32_t share_space(void)
{
    petool_space other = PETOOL_SPACE_CLOSED;
    petool_moved moved = {0, 0};
    uint32_t cycle = 0;
    uint32_t status = petool_space_map(&space, abc, 3, false, &cycle, &fault);
    if (status == PETOOL_OK) {
        status = petool_space_share(&space, &other);
        CHECK(space.is_open && other.is_open == (status == PETOOL_OK));
        petool_space_close(&other);
        CHECK(petool_space_move(&space, 1, 0x30000000, &moved, &fault) == PETOOL_OK && moved.slots == 1);
    }
    petool_space_close(&space);
    return status;
}

static uint32_t find_unbound(void)
{
    petool_unbound_import row[1];
    uint32_t cycle = 0;
    petool_unbound_init(row, 1);
    return petool_unbound(abc, 3, row, 1, &count, &cycle, &fault);
}

/* The names of vr.dll do not ascend. To sort them takes three vectors; a call that lacks one of these looks each name up instead. */
enum { SORTING = 3 };

/* So many allocations can fail of a call that can do without each of them: more than it makes. */
enum { ALL = 1000 };

/* Runs a call with each of its allocations failing in turn, of which it can do without the last few. */
static void refuse_each(const char *name, uint32_t (*call)(void), long spare)
{
    long before = living, all, k;
    asked = 0;
    CHECK(call() == PETOOL_OK);
    all = asked;
    CHECK(all > 0 && living == before);
    for (k = 0; k < all; k++) {
        uint32_t status;
        memset(&fault, 0x5a, sizeof fault);
        count = 99;
        room = k;
        asked = 0;
        status = call();
        room = -1;
        if (k < all - spare)
            CHECK(status == PETOOL_MEMORY && fault.number == 0x5a5a && count == 99);
        else
            CHECK(status == PETOOL_OK);
        /* those before it succeeded */
        CHECK(living == before && asked > k);
    }
    printf("%s: each of %ld growths refused\n", name, all);
}

/* The calls of an open image allocate nothing, nor does sharing a closed one, nor mapping a set that is too large; nor do those of a
 * space over its files, or of a space that is shared. */
static void check_opened(void)
{
    petool_image other = PETOOL_IMAGE_CLOSED;
    petool_space shared = PETOOL_SPACE_CLOSED;
    petool_moved moved = {0, 0};
    petool_export exports[5];
    petool_import imports[5];
    petool_fixup fixups[4];
    petool_target target;
    petool_text text = PETOOL_NONE;
    uint64_t offset = 0;
    uint32_t cycle = 0;
    uint8_t bytes[4];
    petool_exports_init(exports, 5);
    petool_imports_init(imports, 5);
    memset(fixups, 0, sizeof fixups);
    petool_target_init(&target);
    CHECK(petool_image_open(&image, vr.at, vr.len, &fault) == PETOOL_OK);
    asked = 0;
    CHECK(petool_image_export_by_name(&image, (const uint8_t *)"plain", 5, &target) == PETOOL_OK);
    CHECK(petool_image_export_by_ordinal(&image, 65537, &target) == PETOOL_OK);
    CHECK(petool_image_exports(&image, exports, 5, &count) == PETOOL_OK);
    CHECK(petool_image_export_names(&image, exports, 5, &count) == PETOOL_OK);
    CHECK(petool_image_imports(&image, imports, 5, &count) == PETOOL_OK);
    CHECK(petool_image_fixups(&image, fixups, 4, &count) == PETOOL_OK);
    CHECK(petool_image_read(&image, 0, bytes, 4) == PETOOL_OK);
    CHECK(petool_image_read_text(&image, 0, &text) == PETOOL_OK);
    CHECK(petool_image_locate(&image, 0, &offset) == PETOOL_OK);
    CHECK(petool_image_import_at(&image, 0x40018, imports) == PETOOL_OK);
    petool_image_close(&image);
    CHECK(petool_image_share(&image, &other) == PETOOL_OK && asked == 0);
    CHECK(petool_space_map_within(&space, abc, 3, false, 0x8fff, &cycle, &fault) == PETOOL_LARGE && asked == 0);
    CHECK(petool_space_open(&space, abc, 3, false, &cycle, &fault) == PETOOL_OK);
    asked = 0;
    CHECK(petool_space_read(&space, 0x401030, bytes, 4, &fault) == PETOOL_OK);
    CHECK(petool_space_move(&space, 1, 0x30000000, &moved, &fault) == PETOOL_OK && asked == 0);
    CHECK(petool_space_share(&space, &shared) == PETOOL_OK);
    asked = 0;
    CHECK(petool_space_read(&shared, 0x401030, bytes, 4, &fault) == PETOOL_OK);
    CHECK(petool_space_move(&space, 1, 0x40000000, &moved, &fault) == PETOOL_SHARED && asked == 0);
    petool_space_close(&shared);
    petool_space_close(&space);
    CHECK(petool_space_share(&space, &shared) == PETOOL_OK && asked == 0);
}

int main(int argc, char **argv)
{
    if (argc != 2)
        return 2;
    va = file_in(argv[1], "va.dll");
    vb = file_in(argv[1], "vb.dll");
    vc = file_in(argv[1], "vc.dll");
    vr = file_in(argv[1], "vr.dll");
    v2 = file_in(argv[1], "v2.dll");
    v1 = file_in(argv[1], "v1.dll");
    v3 = with_section(2, 40, 0x14c, LEAF, sizeof LEAF);
    v1.at[0xe9] = 0x10, v1.at[0xec] = 29;
    set_abc(abc, va, vb, vc);
    set_long_names();
    refuse_each("petool_check", judge_file, 0);
    refuse_each("petool_exports", read_exports, SORTING);
    refuse_each("petool_export_names", read_names, SORTING);
    refuse_each("petool_imports", read_imports, 0);
    refuse_each("petool_import_at", find_slot, 0);
    refuse_each("petool_fixups", read_fixups, 0);
    refuse_each("petool_export_by_name", find_name, SORTING);
    refuse_each("petool_export_by_ordinal", find_ordinal, SORTING);
    refuse_each("petool_findings", find_rules, 0);
    refuse_each("petool_findings of resources", find_resources, 0);
    refuse_each("petool_resources", read_resources, 0);
    refuse_each("petool_archive_members", read_members, 0);
    refuse_each("petool_archive_findings", find_names, 0);
    refuse_each("petool_archive_write", write_members, 0);
    refuse_each("petool_image_open", open_file, 0);
    refuse_each("petool_image_open over an open image", open_over, 0);
    refuse_each("petool_image_share", share_image, 0);
    refuse_each("petool_rebase", move_file, 0);
    refuse_each("petool_judge", judge_set, 0);
    refuse_each("petool_space_map", map_set, 0);
    refuse_each("petool_space_map_within", map_within, 0);
    refuse_each("petool_space_map over an open space", map_over, 0);
    refuse_each("petool_space_open", open_set, 0);
    refuse_each("petool_space_share", share_space, 0);
    refuse_each("petool_unbound", find_unbound, 0);
    refuse_each("petool_either_object_sections", read_either_sections, ALL);
    refuse_each("petool_either_object_all_relocations", read_either_relocations, ALL);
    refuse_each("petool_either_object_symbols", read_either_symbols, ALL);
    check_either();
    check_opened();
    free(v1.at), free(va.at), free(vb.at), free(vc.at), free(vr.at), free(v2.at), free(v3.at);
    return told();
}
