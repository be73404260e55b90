/*
 * The calls for tables beyond the profile, over files whose section is written byte by byte from the format.
 */
#include "section.h"

/* Two entries, each field of the first with another value, and the data of the second: a record of a PDB 7.0 file. */
static const uint8_t DEBUG[56 + 30] = {
    0x11, 0x12, 0x13, 0x14, 0x21, 0x22, 0x23, 0x24, 0x31, 0x32, 0x33, 0x34, 0x0d, 0x00, 0x00, 0x00,
    0x04, 0x00, 0x00, 0x00, 0x10, 0x10, 0x00, 0x00, 0x10, 0x02, 0x00, 0x00,
    0x00, 0x00, 0x00, 0x00, 0x00, 0x00, 0x00, 0x00, 0x00, 0x00, 0x00, 0x00, 0x02, 0x00, 0x00, 0x00,
    0x1e, 0x00, 0x00, 0x00, 0x38, 0x10, 0x00, 0x00, 0x38, 0x02, 0x00, 0x00,
    'R', 'S', 'D', 'S', 0xa0, 0xa1, 0xa2, 0xa3, 0xa4, 0xa5, 0xa6, 0xa7, 0xa8, 0xa9, 0xaa, 0xab, 0xac, 0xad, 0xae, 0xaf,
    0x1a, 0x1b, 0x1c, 0x1d, 'a', '.', 'p', 'd', 'b', 0x00,
};

static int is_entry(const petool_debug_entry *row)
{
    return row->characteristics == 0x14131211 && row->time_date_stamp == 0x24232221 && row->major_version == 0x3231
        && row->minor_version == 0x3433 && row->kind == 13 && row->size_of_data == 4 && row->address_of_raw_data == 0x1010
        && row->pointer_to_raw_data == 0x210;
}

static void check_debug(void)
{
    bytes file = with_section(6, 56, 0x14c, DEBUG, sizeof DEBUG);
    petool_debug_entry rows[3];
    petool_fault fault = UNTOLD;
    size_t count = 99;
    memset(rows, 0x5a, sizeof rows);
    CHECK(petool_debug(file.at, file.len, rows, 3, &count, &fault) == PETOOL_OK && count == 2 && is_untold(fault));
    CHECK(is_entry(&rows[0]));
    CHECK(rows[1].kind == 2 && rows[1].size_of_data == 30 && rows[1].pointer_to_raw_data == 0x238);
    CHECK(rows[2].kind == 0x5a5a5a5a);

    /* less room than entries, and none */
    memset(rows, 0x5a, sizeof rows);
    CHECK(petool_debug(file.at, file.len, rows, 1, &count, &fault) == PETOOL_SMALL && count == 2);
    CHECK(is_entry(&rows[0]) && rows[1].kind == 0x5a5a5a5a);
    count = 99;
    CHECK(petool_debug(file.at, file.len, rows, 0, &count, &fault) == PETOOL_SMALL && count == 2);
    count = 99;
    CHECK(petool_debug(file.at, file.len, NULL, 0, &count, &fault) == PETOOL_SMALL && count == 2);
    count = 99;
    CHECK(petool_debug(file.at, file.len, NULL, 1, &count, &fault) == PETOOL_ARGUMENT && count == 99);
    CHECK(petool_debug(NULL, 1, rows, 1, &count, &fault) == PETOOL_ARGUMENT && count == 99 && is_untold(fault));

    /* an image without the directory, and a refused file */
    CHECK(petool_debug(v1.at, v1.len, rows, 0, &count, &fault) == PETOOL_OK && count == 0);
    count = 99;
    memset(rows, 0x5a, sizeof rows);
    CHECK(petool_debug(file.at, 63, rows, 3, &count, &fault) == PETOOL_FAULT && fault.number == 2 && fault.at == 63);
    CHECK(count == 99 && rows[0].kind == 0x5a5a5a5a);
    free(file.at);
}

static void check_pdb(void)
{
    /* an entry of no type, and a record of a PDB 2.0 file right after the directory */
    static const uint8_t OLD[28 + 24] = {
        0, 0, 0, 0, 0, 0, 0, 0, 0, 0, 0, 0, 2, 0, 0, 0, 24, 0, 0, 0, 0x1c, 0x10, 0, 0, 0x1c, 2, 0, 0,
        'N', 'B', '1', '0', 0x41, 0x42, 0x43, 0x44, 0xd1, 0x6f, 0x0b, 0x3c, 3, 0, 0, 0, 'o', 'l', 'd', '.', 'p', 'd', 'b', 0,
    };
    bytes file = with_section(6, 56, 0x14c, DEBUG, sizeof DEBUG), old = with_section(6, 28, 0x14c, OLD, sizeof OLD);
    bytes cut = with_section(6, 28, 0x14c, OLD, sizeof OLD - 1), other = with_section(6, 28, 0x14c, DEBUG, sizeof DEBUG);
    petool_pdb_file pdb, kept;
    petool_fault fault = UNTOLD;
    petool_pdb_init(&pdb);
    CHECK(pdb.path.len == 0 && pdb.kind == 0 && pdb.age == 0 && pdb.guid[15] == 0);
    CHECK(petool_pdb(file.at, file.len, &pdb, &fault) == PETOOL_OK && is_untold(fault));
    CHECK(pdb.kind == PETOOL_PDB_SEVEN && pdb.age == 0x1d1c1b1a && pdb.time_date_stamp == 0 && pdb.offset == 0);
    CHECK(memcmp(pdb.guid, DEBUG + 60, 16) == 0);
    CHECK(pdb.path.at == file.at + 0x200 + 80 && pdb.path.len == 5);
    CHECK(petool_pdb(old.at, old.len, &pdb, &fault) == PETOOL_OK);
    CHECK(pdb.kind == PETOOL_PDB_TWO && pdb.age == 3 && pdb.time_date_stamp == 0x3c0b6fd1 && pdb.offset == 0x44434241);
    CHECK(pdb.guid[0] == 0 && pdb.guid[15] == 0 && pdb.path.len == 7 && memcmp(pdb.path.at, "old.pdb", 7) == 0);

    /* data that passes the file, no entry of this type, no directory, and a refused file leave it unchanged */
    kept = pdb;
    CHECK(petool_pdb(cut.at, cut.len, &pdb, &fault) == PETOOL_ABSENT && is_untold(fault));
    CHECK(petool_pdb(other.at, other.len, &pdb, &fault) == PETOOL_ABSENT);
    CHECK(petool_pdb(v1.at, v1.len, &pdb, &fault) == PETOOL_ABSENT && is_untold(fault));
    CHECK(petool_pdb(file.at, 63, &pdb, &fault) == PETOOL_FAULT && fault.number == 2);
    CHECK(pdb.path.at == kept.path.at && pdb.path.len == 7 && pdb.age == 3 && pdb.kind == PETOOL_PDB_TWO);

    /* a path that no zero byte ends */
    put_number(old.at + 0x200 + 16, 23);
    CHECK(petool_pdb(old.at, old.len, &pdb, &fault) == PETOOL_OK && pdb.age == 3 && pdb.path.len == 0);
    CHECK(petool_pdb(NULL, 1, &pdb, &fault) == PETOOL_ARGUMENT);
    free(file.at), free(old.at), free(cut.at), free(other.at);
}

static int is_function(const petool_function *row, uint32_t begin, uint32_t end, uint32_t unwind, uint32_t kind)
{
    return row->begin == begin && row->end == end && row->unwind == unwind && row->kind == kind;
}

static void check_functions(void)
{
    static const uint8_t TABLE[24] = {
        0x00, 0x10, 0, 0, 0x08, 0x10, 0, 0, 0x10, 0x10, 0, 0, 0x08, 0x10, 0, 0, 0x21, 0x43, 0x65, 0x87, 0x0c, 0x10, 0, 0,
    };
    bytes wide = with_section(3, 24, 0x8664, TABLE, 24), arm = with_section(3, 24, 0xaa64, TABLE, 24);
    bytes thumb = with_section(3, 23, 0x1c4, TABLE, 24), other = with_section(3, 24, 0x14c, TABLE, 24);
    petool_function rows[4];
    petool_fault fault = UNTOLD;
    size_t count = 99;
    memset(rows, 0x5a, sizeof rows);
    CHECK(petool_functions(wide.at, wide.len, rows, 4, &count, &fault) == PETOOL_OK && count == 2 && is_untold(fault));
    CHECK(is_function(&rows[0], 0x1000, 0x1008, 0x1010, PETOOL_FUNCTION_AMD64));
    CHECK(is_function(&rows[1], 0x1008, 0x87654321, 0x100c, PETOOL_FUNCTION_AMD64) && rows[2].kind == 0x5a5a5a5a);
    CHECK(petool_functions(arm.at, arm.len, rows, 4, &count, &fault) == PETOOL_OK && count == 3);
    CHECK(is_function(&rows[0], 0x1000, 0, 0x1008, PETOOL_FUNCTION_ARM));
    CHECK(is_function(&rows[1], 0x1010, 0, 0x1008, PETOOL_FUNCTION_ARM));
    CHECK(is_function(&rows[2], 0x87654321, 0, 0x100c, PETOOL_FUNCTION_ARM));
    /* a record that is not whole in the directory's Size */
    CHECK(petool_functions(thumb.at, thumb.len, rows, 4, &count, &fault) == PETOOL_OK && count == 2);

    memset(rows, 0x5a, sizeof rows);
    CHECK(petool_functions(arm.at, arm.len, rows, 2, &count, &fault) == PETOOL_SMALL && count == 3);
    CHECK(is_function(&rows[1], 0x1010, 0, 0x1008, PETOOL_FUNCTION_ARM) && rows[2].kind == 0x5a5a5a5a);
    CHECK(petool_functions(wide.at, wide.len, NULL, 0, &count, &fault) == PETOOL_SMALL && count == 2);
    CHECK(petool_functions(wide.at, wide.len, NULL, 1, &count, &fault) == PETOOL_ARGUMENT);
    CHECK(petool_functions(other.at, other.len, rows, 0, &count, &fault) == PETOOL_OK && count == 0 && is_untold(fault));
    count = 99;
    CHECK(petool_functions(wide.at, 63, rows, 4, &count, &fault) == PETOOL_FAULT && fault.number == 2 && count == 99);
    CHECK(rows[2].kind == 0x5a5a5a5a);
    free(wide.at), free(arm.at), free(thumb.at), free(other.at);
}

/* The TLS directory of PE32, whose callbacks are right after it: two, and a 0. */
static const uint8_t TLS[24 + 12] = {
    0x01, 0x10, 0x00, 0x10, 0x02, 0x10, 0x00, 0x10, 0x03, 0x10, 0x00, 0x10, 0x18, 0x10, 0x00, 0x10,
    0x41, 0x42, 0x43, 0x44, 0x51, 0x52, 0x53, 0x54,
    0x04, 0x10, 0x00, 0x10, 0x08, 0x10, 0x00, 0x10, 0x00, 0x00, 0x00, 0x00,
};

static void check_tls(void)
{
    bytes file = with_section(9, 24, 0x14c, TLS, sizeof TLS), cut = with_section(9, 24, 0x14c, TLS, 22);
    petool_tls_directory tls, kept;
    petool_callback rows[3];
    petool_fault fault = UNTOLD;
    size_t count = 99;
    memset(&tls, 0x5a, sizeof tls);
    tls.is_whole = false;
    CHECK(petool_tls(file.at, file.len, &tls, &fault) == PETOOL_OK && is_untold(fault));
    CHECK(tls.start_address_of_raw_data == 0x10001001 && tls.end_address_of_raw_data == 0x10001002);
    CHECK(tls.address_of_index == 0x10001003 && tls.address_of_callbacks == 0x10001018);
    CHECK(tls.size_of_zero_fill == 0x44434241 && tls.characteristics == 0x54535251 && tls.is_whole);
    kept = tls;
    CHECK(petool_tls(v1.at, v1.len, &tls, &fault) == PETOOL_ABSENT && is_untold(fault));
    CHECK(petool_tls(file.at, 63, &tls, &fault) == PETOOL_FAULT && fault.number == 2);
    CHECK(petool_tls(NULL, 1, &tls, &fault) == PETOOL_ARGUMENT);
    CHECK(tls.address_of_index == kept.address_of_index && tls.is_whole);
    fault = UNTOLD;
    CHECK(petool_tls(cut.at, cut.len, &tls, &fault) == PETOOL_OK && !tls.is_whole && tls.characteristics == 0);
    CHECK(tls.size_of_zero_fill == 0x44434241);

    memset(rows, 0x5a, sizeof rows);
    CHECK(petool_tls_callbacks(file.at, file.len, rows, 3, &count, &fault) == PETOOL_OK && count == 2 && is_untold(fault));
    CHECK(rows[0].address == 0x10001004 && rows[1].address == 0x10001008 && rows[2].address == 0x5a5a5a5a5a5a5a5a);
    memset(rows, 0x5a, sizeof rows);
    CHECK(petool_tls_callbacks(file.at, file.len, rows, 1, &count, &fault) == PETOOL_SMALL && count == 2);
    CHECK(rows[0].address == 0x10001004 && rows[1].address == 0x5a5a5a5a5a5a5a5a);
    CHECK(petool_tls_callbacks(file.at, file.len, NULL, 0, &count, &fault) == PETOOL_SMALL && count == 2);
    CHECK(petool_tls_callbacks(file.at, file.len, NULL, 1, &count, &fault) == PETOOL_ARGUMENT);
    CHECK(petool_tls_callbacks(v1.at, v1.len, rows, 0, &count, &fault) == PETOOL_OK && count == 0);
    count = 99;
    CHECK(petool_tls_callbacks(file.at, 63, rows, 3, &count, &fault) == PETOOL_FAULT && count == 99);
    free(file.at), free(cut.at);
}

static int is_field(const petool_field *row, uint64_t value)
{
    return row->is_present && row->value == value;
}

static int is_absent(const petool_field *row)
{
    return !row->is_present && row->value == 0;
}

static void check_fields(void)
{
    /* a load configuration of 64 bytes, which ends with SecurityCookie at 60; a CLR header whose cb leaves out the last size */
    uint8_t load[64] = {64}, clr[72] = {71};
    bytes loads, clrs;
    petool_field rows[53];
    petool_fault fault = UNTOLD;
    size_t count = 99;
    put_number(load + 4, 0x14131211);
    put_number(load + 8, 0x24232221);
    put_number(load + 44, 0x34333231);
    put_number(load + 48, 0x44434241);
    put_number(load + 60, 0x54535251);
    put_number(clr + 4, 0x00050002);
    put_number(clr + 64, 0x64636261);
    loads = with_section(10, 64, 0x14c, load, sizeof load);
    clrs = with_section(14, 72, 0x14c, clr, sizeof clr);

    memset(rows, 0, sizeof rows);
    rows[52].value = 7;
    CHECK(petool_load_configuration(loads.at, loads.len, rows, 53, &count, &fault) == PETOOL_OK && count == 52 && is_untold(fault));
    CHECK(is_field(&rows[0], 64) && is_field(&rows[1], 0x14131211) && is_field(&rows[2], 0x2221) && is_field(&rows[3], 0x2423));
    /* ProcessAffinityMask comes before ProcessHeapFlags, also in PE32, where it is after it */
    CHECK(is_field(&rows[12], 0x44434241) && is_field(&rows[13], 0x34333231));
    CHECK(is_field(&rows[17], 0x54535251) && is_absent(&rows[18]) && is_absent(&rows[51]) && rows[52].value == 7);
    CHECK(petool_load_configuration(loads.at, loads.len, rows, 51, &count, &fault) == PETOOL_SMALL && count == 52);
    CHECK(petool_load_configuration(loads.at, loads.len, NULL, 0, &count, &fault) == PETOOL_SMALL && count == 52);
    CHECK(petool_load_configuration(loads.at, loads.len, NULL, 1, &count, &fault) == PETOOL_ARGUMENT);
    CHECK(petool_load_configuration(v1.at, v1.len, rows, 0, &count, &fault) == PETOOL_OK && count == 0);
    count = 99;
    CHECK(petool_load_configuration(loads.at, 63, rows, 53, &count, &fault) == PETOOL_FAULT && count == 99);

    fault = UNTOLD;
    CHECK(petool_clr(clrs.at, clrs.len, rows, 53, &count, &fault) == PETOOL_OK && count == 19 && is_untold(fault));
    CHECK(is_field(&rows[0], 71) && is_field(&rows[1], 2) && is_field(&rows[2], 5) && is_field(&rows[3], 0));
    CHECK(is_field(&rows[17], 0x64636261) && is_absent(&rows[18]));
    CHECK(petool_clr(clrs.at, clrs.len, rows, 18, &count, &fault) == PETOOL_SMALL && count == 19);
    CHECK(petool_clr(clrs.at, clrs.len, NULL, 0, &count, &fault) == PETOOL_SMALL && count == 19);
    CHECK(petool_clr(clrs.at, clrs.len, NULL, 1, &count, &fault) == PETOOL_ARGUMENT);
    CHECK(petool_clr(v1.at, v1.len, rows, 0, &count, &fault) == PETOOL_OK && count == 0);
    count = 99;
    CHECK(petool_clr(clrs.at, 63, rows, 53, &count, &fault) == PETOOL_FAULT && count == 99);
    free(loads.at), free(clrs.at);
}

static void check_bound_imports(void)
{
    static const uint8_t TABLE[24] = {
        0x11, 0x12, 0x13, 0x14, 0x21, 0x02, 0x01, 0x00, 0x31, 0x32, 0x33, 0x34, 0x41, 0x02, 0x51, 0x52, 0, 0, 0, 0, 0, 0, 0, 0,
    };
    bytes file = with_section(11, 24, 0x14c, TABLE, sizeof TABLE);
    petool_bound_import rows[3];
    petool_fault fault = UNTOLD;
    size_t count = 99;
    memset(rows, 0x5a, sizeof rows);
    CHECK(petool_bound_imports(file.at, file.len, rows, 3, &count, &fault) == PETOOL_OK && count == 2 && is_untold(fault));
    CHECK(rows[0].time_date_stamp == 0x14131211 && rows[0].offset_module_name == 0x221);
    CHECK(rows[0].number_of_module_forwarder_refs == 1 && rows[1].time_date_stamp == 0x34333231);
    CHECK(rows[1].offset_module_name == 0x241 && rows[1].number_of_module_forwarder_refs == 0x5251);
    CHECK(rows[2].time_date_stamp == 0x5a5a5a5a);
    memset(rows, 0x5a, sizeof rows);
    CHECK(petool_bound_imports(file.at, file.len, rows, 1, &count, &fault) == PETOOL_SMALL && count == 2);
    CHECK(rows[0].offset_module_name == 0x221 && rows[1].offset_module_name == 0x5a5a);
    CHECK(petool_bound_imports(file.at, file.len, NULL, 0, &count, &fault) == PETOOL_SMALL && count == 2);
    CHECK(petool_bound_imports(file.at, file.len, NULL, 1, &count, &fault) == PETOOL_ARGUMENT);
    CHECK(petool_bound_imports(v1.at, v1.len, rows, 0, &count, &fault) == PETOOL_OK && count == 0 && is_untold(fault));
    count = 99;
    CHECK(petool_bound_imports(file.at, 63, rows, 3, &count, &fault) == PETOOL_FAULT && count == 99);
    CHECK(rows[1].offset_module_name == 0x5a5a);
    free(file.at);
}

static void check_delay_imports(void)
{
    /* a descriptor and one of zeros; the name of its module at 0x40, its name table at 0x50, its address table at 0x60, and a name
     * with its hint at 0x70; other fields are not read */
    static const uint8_t TABLE[128] = {
        1, 0, 0, 0, 0x40, 0x10, 0, 0, 0xff, 0xff, 0xff, 0xff, 0x60, 0x10, 0, 0, 0x50, 0x10, 0, 0, 0xff, 0xff, 0xff, 0xff, 0xff, 0xff,
        0xff, 0xff, 0x11, 0x12, 0x13, 0x14, 0, 0, 0, 0, 0, 0, 0, 0, 0, 0, 0, 0, 0, 0, 0, 0, 0, 0, 0, 0, 0, 0, 0, 0, 0, 0, 0, 0, 0, 0,
        0, 0, 'a', '.', 'd', 'l', 'l', 0, 0, 0, 0, 0, 0, 0, 0, 0, 0, 0, 0x07, 0x05, 0, 0x80, 0x70, 0x10, 0, 0, 0, 0, 0, 0, 0, 0, 0, 0,
        0, 0, 0, 0, 0, 0, 0, 0, 0, 0, 0, 0, 0, 0, 0, 0, 0xff, 0xff, 'S', 'l', 'e', 'e', 'p', 0, 0, 0, 0, 0, 0, 0, 0, 0,
    };
    bytes file = with_section(13, 64, 0x14c, TABLE, sizeof TABLE);
    petool_import rows[3];
    petool_fault fault = UNTOLD;
    size_t count = 99;
    petool_imports_init(rows, 3);
    rows[2].slot = rows[1].slot = 0x5a5a5a5a;
    CHECK(petool_delay_imports(file.at, file.len, rows, 3, &count, &fault) == PETOOL_OK && count == 2 && is_untold(fault));
    CHECK(is_text(rows[0].module, "a.dll", 5) && rows[0].by_ordinal && rows[0].ordinal == 0x507 && rows[0].slot == 0x1060);
    CHECK(is_text(rows[1].module, "a.dll", 5) && !rows[1].by_ordinal && is_text(rows[1].name, "Sleep", 5));
    CHECK(rows[1].ordinal == 0 && rows[1].slot == 0x1064 && rows[2].slot == 0x5a5a5a5a);
    rows[1].slot = 0x5a5a5a5a;
    CHECK(petool_delay_imports(file.at, file.len, rows, 1, &count, &fault) == PETOOL_SMALL && count == 2);
    CHECK(rows[0].slot == 0x1060 && rows[1].slot == 0x5a5a5a5a);
    CHECK(petool_delay_imports(file.at, file.len, NULL, 0, &count, &fault) == PETOOL_SMALL && count == 2);
    CHECK(petool_delay_imports(file.at, file.len, NULL, 1, &count, &fault) == PETOOL_ARGUMENT);
    CHECK(petool_delay_imports(v1.at, v1.len, rows, 0, &count, &fault) == PETOOL_OK && count == 0 && is_untold(fault));
    count = 99;
    CHECK(petool_delay_imports(file.at, 63, rows, 3, &count, &fault) == PETOOL_FAULT && fault.number == 2 && count == 99);
    CHECK(rows[1].slot == 0x5a5a5a5a);
    free(file.at);
}

static void check_image_symbols(void)
{
    /* two records, of which the first has the second as its auxiliary record, and the length of a string table without a string */
    static const uint8_t TABLE[2 * 18 + 4] = {
        'e', 'i', 'g', 'h', 't', 'l', 'e', 't', 0x11, 0x12, 0x13, 0x14, 0x21, 0x22, 0x31, 0x32, 0x41, 1, 0x50, 0x51, 0x52, 0x53, 0x54,
        0x55, 0x56, 0x57, 0x58, 0x59, 0x5a, 0x5b, 0x5c, 0x5d, 0x5e, 0x5f, 0x60, 0x61, 4, 0, 0, 0,
    };
    bytes file = with_section(15, 0, 0x14c, TABLE, sizeof TABLE);
    petool_object_symbol rows[2];
    petool_fault fault = UNTOLD, found;
    size_t count = 99;
    put_number(file.at + 0x4c, 0x200);
    put_number(file.at + 0x50, 2);
    petool_object_symbols_init(rows, 2);
    CHECK(petool_image_symbols(file.at, file.len, rows, 2, &count, &fault) == PETOOL_OK && count == 1 && is_untold(fault));
    CHECK(is_text(rows[0].name, "eightlet", 8) && rows[0].index == 0 && rows[0].value == 0x14131211);
    CHECK(rows[0].section_number == 0x2221 && rows[0].kind == 0x3231 && rows[0].class_ == 0x41);
    CHECK(rows[0].aux.len == 18 && rows[0].aux.at == file.at + 0x212 && rows[1].name.len == 0);
    CHECK(petool_image_symbols(file.at, file.len, NULL, 0, &count, &fault) == PETOOL_SMALL && count == 1);
    CHECK(petool_image_symbols(file.at, file.len, NULL, 1, &count, &fault) == PETOOL_ARGUMENT);
    CHECK(petool_image_symbols(v1.at, v1.len, rows, 0, &count, &fault) == PETOOL_OK && count == 0 && is_untold(fault));
    /* its section is none of the image's */
    CHECK(petool_findings(file.at, file.len, &found, 1, &count, &fault) == PETOOL_OK && count == 1 && found.number == 263);
    CHECK(found.place == PETOOL_PLACE_FILE && found.at == 0x200);
    count = 99;
    CHECK(petool_image_symbols(file.at, 63, rows, 2, &count, &fault) == PETOOL_FAULT && fault.number == 2 && count == 99);
    free(file.at);
}

static void check_findings(void)
{
    /* a directory of 25 bytes, of which the file has 24; the first function ends before it begins, and its unwind information is
     * past the image; the second passes the image, and begins before the first */
    static const uint8_t TABLE[24] = {
        0x01, 0x10, 0, 0, 0x00, 0x10, 0, 0, 0x00, 0x30, 0, 0, 0x00, 0x10, 0, 0, 0x01, 0x30, 0, 0, 0x00, 0x10, 0, 0,
    };
    static const uint16_t NUMBERS[6] = {111, 112, 113, 115, 114, 116};
    static const uint32_t PLACES[6] = {0x1000, 0x1000, 0x1000, 0x1000, 0x100c, 0x100c};
    bytes file = with_section(3, 25, 0x8664, TABLE, 24);
    petool_fault rows[7], fault = UNTOLD;
    petool_text subject = PETOOL_NONE, rule = PETOOL_NONE;
    size_t count = 99;
    memset(rows, 0x5a, sizeof rows);
    CHECK(petool_check(file.at, file.len, &fault) == PETOOL_OK);
    CHECK(petool_findings(file.at, file.len, rows, 7, &count, &fault) == PETOOL_OK && count == 6 && is_untold(fault));
    for (size_t k = 0; k < 6; k++)
        CHECK(is_finding(rows[k], NUMBERS[k], PLACES[k]));
    CHECK(rows[6].number == 0x5a5a);
    CHECK(petool_fault_words(113, &subject, &rule) == PETOOL_OK && subject.len > 0 && rule.len > 0);

    memset(rows, 0x5a, sizeof rows);
    CHECK(petool_findings(file.at, file.len, rows, 5, &count, &fault) == PETOOL_SMALL && count == 6);
    CHECK(is_finding(rows[4], 114, 0x100c) && rows[5].number == 0x5a5a);
    CHECK(petool_findings(file.at, file.len, NULL, 0, &count, &fault) == PETOOL_SMALL && count == 6);
    CHECK(petool_findings(file.at, file.len, NULL, 1, &count, &fault) == PETOOL_ARGUMENT);
    CHECK(petool_findings(v1.at, v1.len, NULL, 0, &count, &fault) == PETOOL_OK && count == 0 && is_untold(fault));
    count = 99;
    CHECK(petool_findings(file.at, 63, rows, 7, &count, &fault) == PETOOL_FAULT && fault.number == 2 && count == 99);
    CHECK(rows[5].number == 0x5a5a);
    free(file.at);
}

int main(int argc, char **argv)
{
    if (argc != 2)
        return 2;
    v1 = file_in(argv[1], "v1.dll");
    check_debug();
    check_pdb();
    check_functions();
    check_tls();
    check_fields();
    check_bound_imports();
    check_delay_imports();
    check_image_symbols();
    check_findings();
    free(v1.at);
    return told();
}
