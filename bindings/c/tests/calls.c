/*
 * Each call on one image, on its good path and in each of its statuses. The values are those of the files, which were made by hand
 * from the format: vr.dll has another value in each field.
 */
#include "check.h"

static bytes v1, v2, v3, va, vb, vc, vr, vs;

static int is_fault(petool_fault fault, unsigned number, unsigned place, uint64_t at)
{
    return fault.number == number && fault.image == 0 && fault.place == place && fault.at == at;
}

static void check_judging(void)
{
    petool_fault fault = UNTOLD;
    CHECK(petool_check(vr.at, vr.len, &fault) == PETOOL_OK);
    CHECK(is_untold(fault));
    CHECK(petool_check(vr.at, 0, &fault) == PETOOL_FAULT);
    CHECK(is_fault(fault, 2, PETOOL_PLACE_FILE, 0));
    CHECK(petool_check(v1.at, 520, &fault) == PETOOL_FAULT);
    /* the header at 0x138 has 16 bytes from 0x200 on, and the file ends at 0x208 */
    CHECK(is_fault(fault, 13, PETOOL_PLACE_FILE, 0x138));
}

/* The fields of vr.dll of 64 and 32 bits, in the order of the headers. */
static void check_wide_fields(const petool_headers *h)
{
    CHECK(h->image_base == 0x3e3d3c3b3a390000);
    CHECK(h->size_of_stack_reserve == 0x605f5e5d5c5b5a59);
    CHECK(h->size_of_stack_commit == 0x6867666564636261);
    CHECK(h->size_of_heap_reserve == 0x706f6e6d6c6b6a69);
    CHECK(h->size_of_heap_commit == 0x7877767574737271);
    CHECK(h->pe_offset == 0x40);
    CHECK(h->time_date_stamp == 0x14131211);
    CHECK(h->pointer_to_symbol_table == 0x18171615);
    CHECK(h->number_of_symbols == 0x1c1b1a19);
    CHECK(h->size_of_code == 0x26252423);
    CHECK(h->size_of_initialized_data == 0x2a292827);
    CHECK(h->size_of_uninitialized_data == 0x2e2d2c2b);
    CHECK(h->address_of_entry_point == 0x3231302f);
    CHECK(h->base_of_code == 0x36353433);
    CHECK(h->base_of_data == 0);
    CHECK(h->section_alignment == 0x1000);
    CHECK(h->file_alignment == 0x200);
    CHECK(h->win32_version_value == 0x504f4e4d);
    CHECK(h->size_of_image == 0x45678);
    CHECK(h->size_of_headers == 0x1e0);
    CHECK(h->check_sum == 0x54535251);
    CHECK(h->loader_flags == 0x7c7b7a79);
    CHECK(h->number_of_rva_and_sizes == 0x807f7e7d);
}

/* Those of 16 and 8 bits. */
static void check_narrow_fields(const petool_headers *h)
{
    CHECK(h->magic == 0x20b);
    CHECK(h->machine == 0xaa64);
    CHECK(h->number_of_sections == 3);
    CHECK(h->size_of_optional_header == 0xf0);
    CHECK(h->characteristics == 0x2022);
    CHECK(h->subsystem == 0x5655);
    CHECK(h->dll_characteristics == 0x5857);
    CHECK(h->major_operating_system_version == 0x4241);
    CHECK(h->minor_operating_system_version == 0x4443);
    CHECK(h->major_image_version == 0x4645);
    CHECK(h->minor_image_version == 0x4847);
    CHECK(h->major_subsystem_version == 0x4a49);
    CHECK(h->minor_subsystem_version == 0x4c4b);
    CHECK(h->major_linker_version == 0x21);
    CHECK(h->minor_linker_version == 0x22);
    CHECK(h->directories[0].rva == 0x20000 && h->directories[0].size == 0xa0);
    CHECK(h->directories[2].rva == 0x84838281 && h->directories[2].size == 0x88878685);
    CHECK(h->directories[15].rva == 0xe4e3e2e1 && h->directories[15].size == 0xe8e7e6e5);
}

static void check_sections(const petool_section *s)
{
    CHECK(memcmp(s[0].name, "\"a\\\x01\0\0\0", 8) == 0);
    CHECK(s[0].rva == 0x20000 && s[0].extent == 0x2345 && s[0].file_size == 0x1f0);
    CHECK(s[0].pointer_to_raw_data == 0x200 && s[0].characteristics == 0x40000040);
    CHECK(memcmp(s[1].name, "\x7f~ \x80\xff\0\0", 8) == 0);
    CHECK(s[1].rva == 0x30000 && s[1].extent == 0x1c8 && s[1].file_size == 0x1c8);
    CHECK(s[1].pointer_to_raw_data == 0x400 && s[1].characteristics == 0xe2000060);
    CHECK(memcmp(s[2].name, "eight\tby", 8) == 0);
    CHECK(s[2].rva == 0x40000 && s[2].extent == 0x3456 && s[2].file_size == 0);
    CHECK(s[2].characteristics == 0xc0000080);
}

static void check_headers(void)
{
    petool_headers headers, kept;
    petool_section sections[4], one[1];
    petool_fault fault = UNTOLD;
    memset(&headers, 0x5a, sizeof headers);
    memset(sections, 0x5a, sizeof sections);
    CHECK(petool_read_headers(vr.at, vr.len, &headers, sections, 4, &fault) == PETOOL_OK);
    CHECK(is_untold(fault));
    check_wide_fields(&headers);
    check_narrow_fields(&headers);
    check_sections(sections);
    CHECK(sections[3].rva == 0x5a5a5a5a);

    /* less room than sections: of the three as many as there is room for */
    CHECK(petool_read_headers(vr.at, vr.len, &headers, one, 1, &fault) == PETOOL_OK);
    CHECK(headers.number_of_sections == 3 && one[0].rva == 0x20000);
    memset(sections, 0x5a, sizeof sections);
    CHECK(petool_read_headers(vr.at, vr.len, &headers, sections, 2, &fault) == PETOOL_OK && is_untold(fault));
    CHECK(memcmp(sections[0].name, "\"a\\\x01\0\0\0", 8) == 0 && sections[0].rva == 0x20000);
    CHECK(sections[0].extent == 0x2345 && sections[0].file_size == 0x1f0);
    CHECK(sections[1].rva == 0x30000 && sections[1].characteristics == 0xe2000060 && sections[2].rva == 0x5a5a5a5a);

    /* PE32 has BaseOfData; directories that the file does not have are 0 */
    CHECK(petool_read_headers(v1.at, v1.len, &headers, sections, 0, &fault) == PETOOL_OK);
    CHECK(headers.magic == 0x10b && headers.image_base == 0x10000000 && headers.size_of_image == 0x3000);

    /* a refused file leaves the headers unchanged */
    memset(&headers, 0x5a, sizeof headers);
    memset(&kept, 0x5a, sizeof kept);
    CHECK(petool_read_headers(vr.at, 63, &headers, sections, 4, &fault) == PETOOL_FAULT);
    CHECK(is_fault(fault, 2, PETOOL_PLACE_FILE, 63));
    CHECK(memcmp(&headers, &kept, sizeof kept) == 0);
}

static void check_bytes(void)
{
    uint8_t bytes[18];
    petool_fault fault = UNTOLD;
    petool_text text = PETOOL_NONE;
    uint64_t offset = 7;
    int i, holds = 1;
    memset(bytes, 0x5a, sizeof bytes);
    CHECK(petool_read(v1.at, v1.len, 0x1000, bytes, 17, &fault) == PETOOL_OK);
    for (i = 0; i < 16; i++)
        holds = holds && bytes[i] == i;
    CHECK(holds && bytes[16] == 0 && bytes[17] == 0x5a);
    /* the last two of them, and what comes next */
    CHECK(petool_read(v1.at, v1.len, 0x100e, bytes, 3, &fault) == PETOOL_OK && is_untold(fault));
    CHECK(memcmp(bytes, "\x0e\x0f\0", 3) == 0);
    CHECK(petool_read(v1.at, v1.len, 0x2ffe, bytes, 3, &fault) == PETOOL_ABSENT && is_untold(fault));
    CHECK(memcmp(bytes, "\x0e\x0f\0", 3) == 0);
    /* the image has 0x3000 bytes: all or none of them */
    CHECK(petool_read(v1.at, v1.len, 0x2fff, bytes, 1, &fault) == PETOOL_OK);
    CHECK(bytes[0] == 0);
    memset(bytes, 0x5a, sizeof bytes);
    CHECK(petool_read(v1.at, v1.len, 0x2fff, bytes, 2, &fault) == PETOOL_ABSENT);
    CHECK(bytes[0] == 0x5a && bytes[1] == 0x5a);
    CHECK(is_untold(fault));
    CHECK(petool_read(v1.at, 70, 0, bytes, 1, &fault) == PETOOL_FAULT);
    CHECK(bytes[0] == 0x5a && fault.number == 4);

    fault = UNTOLD;
    CHECK(petool_locate(v1.at, v1.len, 0x100f, &offset, &fault) == PETOOL_OK);
    CHECK(offset == 0x20f);
    CHECK(petool_locate(v1.at, v1.len, 0x1010, &offset, &fault) == PETOOL_ABSENT);
    CHECK(petool_locate(v1.at, v1.len, 0x3000, &offset, &fault) == PETOOL_ABSENT);
    CHECK(offset == 0x20f && is_untold(fault));
    CHECK(petool_locate(v1.at, 0, 0, &offset, &fault) == PETOOL_FAULT);

    fault = UNTOLD;
    CHECK(petool_read_text(v1.at, v1.len, 0x1001, &text, &fault) == PETOOL_ABSENT);
    CHECK(petool_read_text(v1.at, v1.len, 0x3000, &text, &fault) == PETOOL_ABSENT);
    CHECK(is_text(text, "", 0));
    CHECK(petool_read_text(v1.at, v1.len, 0, &text, &fault) == PETOOL_OK);
    CHECK(is_text(text, "MZ", 2) && text.at == v1.at && is_untold(fault));
    CHECK(petool_read_text(v1.at, 0, 0, &text, &fault) == PETOOL_FAULT);
}

static int is_row(const petool_export *row, uint64_t ordinal, const char *name, size_t len)
{
    return row->ordinal == ordinal && is_text(row->name, name, len);
}

static int is_rva(petool_target target, uint32_t rva)
{
    return target.kind == PETOOL_TARGET_RVA && target.rva == rva && target.ordinal == 0 && target.module.len == 0 && target.name.len == 0;
}

/* what vr.dll exports: forwarders to a name, and to an ordinal */
static int is_name_of_m(petool_target target)
{
    return target.kind == PETOOL_TARGET_NAME && target.rva == 0 && target.ordinal == 0 && is_text(target.module, "m\x1f.\xff", 4)
        && is_text(target.name, "n\"m\\", 4);
}

static int is_407_of_o(petool_target target)
{
    return target.kind == PETOOL_TARGET_ORDINAL && target.rva == 0 && target.ordinal == 407 && is_text(target.module, "\\o\x7f", 3)
        && target.name.len == 0;
}

static void check_exports(void)
{
    petool_export rows[6];
    petool_fault fault = UNTOLD;
    size_t count = 99;
    petool_exports_init(rows, 6);
    CHECK(petool_exports(vr.at, vr.len, rows, 6, &count, &fault) == PETOOL_OK);
    CHECK(count == 5 && is_untold(fault));
    CHECK(is_row(&rows[0], 65534, "", 0) && is_rva(rows[0].target, 0x43210));
    CHECK(is_row(&rows[1], 65536, "", 0) && is_name_of_m(rows[1].target));
    CHECK(is_row(&rows[2], 65537, "", 0) && is_407_of_o(rows[2].target));
    CHECK(is_row(&rows[3], 65538, "", 0) && is_rva(rows[3].target, 0x30123));
    CHECK(is_row(&rows[4], 65539, "", 0) && is_rva(rows[4].target, 0x1fedc));
    CHECK(is_row(&rows[5], 0, "", 0));

    petool_exports_init(rows, 6);
    CHECK(petool_export_names(vr.at, vr.len, rows, 2, &count, &fault) == PETOOL_SMALL);
    CHECK(count == 3 && is_row(&rows[0], 65538, "\"q\\", 3) && is_rva(rows[0].target, 0x30123));
    CHECK(is_row(&rows[1], 65536, "\x7f\x80 ", 3) && is_name_of_m(rows[1].target));
    CHECK(is_row(&rows[2], 0, "", 0));
    CHECK(petool_export_names(vr.at, vr.len, rows, 3, &count, &fault) == PETOOL_OK);
    CHECK(is_row(&rows[2], 65537, "plain", 5) && is_407_of_o(rows[2].target));
    petool_exports_init(rows, 6);
    CHECK(petool_export_names(vr.at, vr.len, rows, 4, &count, &fault) == PETOOL_OK && count == 3 && is_untold(fault));
    CHECK(is_row(&rows[2], 65537, "plain", 5) && is_407_of_o(rows[2].target) && is_row(&rows[3], 0, "", 0));

    count = 99;
    CHECK(petool_exports(vr.at, 64, rows, 6, &count, &fault) == PETOOL_FAULT);
    CHECK(count == 99 && fault.number == 4);
    CHECK(petool_export_names(vr.at, 64, rows, 6, &count, &fault) == PETOOL_FAULT);
    CHECK(count == 99);
    CHECK(petool_exports(v1.at, v1.len, rows, 6, &count, &fault) == PETOOL_OK && count == 0);

    /* vb.dll: two, of which the second has a name */
    petool_exports_init(rows, 6);
    CHECK(petool_exports(vb.at, vb.len, rows, 6, &count, &fault) == PETOOL_OK && count == 2);
    CHECK(is_row(&rows[0], 5, "", 0) && is_rva(rows[0].target, 0x1004));
    CHECK(is_row(&rows[1], 7, "", 0) && is_rva(rows[1].target, 0x1010));
    CHECK(petool_export_names(vb.at, vb.len, rows, 6, &count, &fault) == PETOOL_OK && count == 1);
    CHECK(is_row(&rows[0], 7, "g", 1) && is_rva(rows[0].target, 0x1010));
}

static void check_searches(void)
{
    petool_target target;
    petool_fault fault = UNTOLD;
    petool_target_init(&target);
    CHECK(petool_export_by_ordinal(vb.at, vb.len, 7, &target, &fault) == PETOOL_OK);
    CHECK(is_rva(target, 0x1010));
    CHECK(petool_export_by_ordinal(vb.at, vb.len, 6, &target, &fault) == PETOOL_ABSENT);
    CHECK(petool_export_by_ordinal(vb.at, vb.len, 8, &target, &fault) == PETOOL_ABSENT);
    /* no bit of an ordinal is lost */
    CHECK(petool_export_by_ordinal(vb.at, vb.len, 0x100000007, &target, &fault) == PETOOL_ABSENT);
    CHECK(petool_export_by_name(vb.at, vb.len, (const uint8_t *)"h", 1, &target, &fault) == PETOOL_ABSENT);
    CHECK(is_rva(target, 0x1010) && is_untold(fault));
    /* between two ordinals of vr.dll, and the beginning of a name */
    CHECK(petool_export_by_ordinal(vr.at, vr.len, 65535, &target, &fault) == PETOOL_ABSENT);
    CHECK(petool_export_by_name(vr.at, vr.len, (const uint8_t *)"plai", 4, &target, &fault) == PETOOL_ABSENT);
    CHECK(is_rva(target, 0x1010) && is_untold(fault));
    CHECK(petool_export_by_ordinal(vr.at, vr.len, 65538, &target, &fault) == PETOOL_OK && is_rva(target, 0x30123));
    CHECK(petool_export_by_name(vr.at, vr.len, (const uint8_t *)"plain", 5, &target, &fault) == PETOOL_OK);
    CHECK(is_407_of_o(target) && is_untold(fault));
    CHECK(petool_export_by_name(va.at, va.len, (const uint8_t *)"f", 1, &target, &fault) == PETOOL_OK);
    CHECK(target.kind == PETOOL_TARGET_ORDINAL && target.ordinal == 7 && is_text(target.module, "b", 1));
    CHECK(petool_export_by_name(va.at, 9, (const uint8_t *)"f", 1, &target, &fault) == PETOOL_FAULT);
    CHECK(petool_export_by_ordinal(va.at, 9, 1, &target, &fault) == PETOOL_FAULT);
    CHECK(is_fault(fault, 2, PETOOL_PLACE_FILE, 9));
}

static int is_import(const petool_import *row, const char *module, size_t module_len, const char *name, size_t len, uint64_t ordinal, uint32_t slot)
{
    return is_text(row->module, module, module_len) && is_text(row->name, name, len) && row->ordinal == ordinal
        && row->by_ordinal == (len == 0) && row->slot == slot;
}

static void check_imports(void)
{
    petool_import rows[6];
    petool_fault fault = UNTOLD;
    size_t count = 99;
    petool_imports_init(rows, 6);
    CHECK(petool_imports(vr.at, vr.len, rows, 6, &count, &fault) == PETOOL_OK);
    CHECK(count == 5);
    CHECK(is_import(&rows[0], "A\"b.DLL", 7, "\x7fname", 5, 0, 0x40010));
    CHECK(is_import(&rows[1], "A\"b.DLL", 7, "", 0, 777, 0x40018));
    CHECK(is_import(&rows[2], "A\"b.DLL", 7, "g\"\\\x01", 4, 0, 0x40020));
    CHECK(is_import(&rows[3], "c\\\x80", 3, "", 0, 65534, 0x30070));
    CHECK(is_import(&rows[4], "c\\\x80", 3, "\xff", 1, 0, 0x30078));
    CHECK(rows[5].slot == 0);
    count = 99;
    CHECK(petool_imports(vr.at, vr.len, rows, 4, &count, &fault) == PETOOL_SMALL && count == 5 && is_untold(fault));
    CHECK(petool_imports(vr.at, 64, rows, 6, &count, &fault) == PETOOL_FAULT && count == 5);
    CHECK(petool_imports(vc.at, vc.len, rows, 6, &count, &fault) == PETOOL_OK && count == 1);
    CHECK(is_import(&rows[0], "A.DLL", 5, "f", 1, 0, 0x1030));
}

static void check_slots(void)
{
    petool_import row;
    petool_fault fault = UNTOLD;
    petool_imports_init(&row, 1);
    CHECK(petool_import_at(vr.at, vr.len, 0x40018, &row, &fault) == PETOOL_OK);
    CHECK(is_import(&row, "A\"b.DLL", 7, "", 0, 777, 0x40018));
    CHECK(petool_import_at(vr.at, vr.len, 0x30078, &row, &fault) == PETOOL_OK);
    CHECK(is_import(&row, "c\\\x80", 3, "\xff", 1, 0, 0x30078));
    CHECK(petool_import_at(vr.at, vr.len, 0x40019, &row, &fault) == PETOOL_ABSENT && row.slot == 0x30078);
    CHECK(petool_import_at(v1.at, v1.len, 0, &row, &fault) == PETOOL_ABSENT && is_untold(fault));
    CHECK(petool_import_at(vr.at, 64, 0x40018, &row, &fault) == PETOOL_FAULT && fault.number == 4 && row.slot == 0x30078);
}

static int is_fixup(const petool_fixup *row, uint32_t field, uint32_t kind)
{
    return row->field == field && row->kind == kind;
}

static void check_fixups(void)
{
    petool_fixup rows[5];
    petool_fault fault = UNTOLD;
    size_t count = 99;
    memset(rows, 0, sizeof rows);
    CHECK(petool_fixups(vr.at, vr.len, rows, 5, &count, &fault) == PETOOL_OK);
    CHECK(count == 4);
    CHECK(is_fixup(&rows[0], 0x21234, 3) && is_fixup(&rows[1], 0x21008, 10));
    CHECK(is_fixup(&rows[2], 0x41fff, 10) && is_fixup(&rows[3], 0x41010, 3));
    CHECK(rows[4].field == 0);
    CHECK(petool_fixups(v2.at, v2.len, rows, 0, &count, &fault) == PETOOL_SMALL && count == 1);
    CHECK(petool_fixups(v2.at, v2.len, rows, 1, &count, &fault) == PETOOL_OK && rows[0].entry == 0x2008);
    memset(rows, 0x5a, sizeof rows);
    CHECK(petool_fixups(v2.at, v2.len, rows, 2, &count, &fault) == PETOOL_OK && count == 1 && is_untold(fault));
    CHECK(rows[0].entry == 0x2008 && is_fixup(&rows[0], 0x1008, 3) && rows[1].field == 0x5a5a5a5a);
    CHECK(petool_fixups(v2.at, 64, rows, 1, &count, &fault) == PETOOL_FAULT && count == 1);
}

static void check_tables(void)
{
    petool_export exports[5], names[5];
    petool_import imports[5];
    petool_fixup fixups[5];
    petool_counts counts = {99, 99, 99, 99};
    petool_fault fault = UNTOLD;
    petool_exports_init(exports, 5);
    petool_exports_init(names, 5);
    petool_imports_init(imports, 5);
    memset(fixups, 0, sizeof fixups);
    CHECK(petool_tables(vr.at, vr.len, exports, 5, names, 3, imports, 5, fixups, 4, &counts, &fault) == PETOOL_OK);
    CHECK(counts.exports == 5 && counts.names == 3 && counts.imports == 5 && counts.fixups == 4);
    CHECK(is_row(&exports[4], 65539, "", 0) && is_row(&names[2], 65537, "plain", 5));
    CHECK(imports[4].slot == 0x30078 && fixups[3].field == 0x41010);
    CHECK(petool_tables(vr.at, vr.len, exports, 5, names, 3, imports, 5, fixups, 3, &counts, &fault) == PETOOL_SMALL);
    CHECK(petool_tables(vr.at, vr.len, exports, 4, names, 3, imports, 5, fixups, 4, &counts, &fault) == PETOOL_SMALL);

    /* with more rows than names and base relocations, and with fewer rows than exports, of which the first ones are told */
    petool_exports_init(exports, 5);
    CHECK(petool_tables(vr.at, vr.len, exports, 5, names, 5, imports, 5, fixups, 5, &counts, &fault) == PETOOL_OK && is_untold(fault));
    CHECK(counts.exports == 5 && counts.names == 3 && counts.imports == 5 && counts.fixups == 4);
    CHECK(is_row(&exports[4], 65539, "", 0) && is_row(&names[3], 0, "", 0) && fixups[4].field == 0);
    petool_exports_init(exports, 5);
    CHECK(petool_tables(vr.at, vr.len, exports, 4, names, 5, imports, 5, fixups, 5, &counts, &fault) == PETOOL_SMALL);
    CHECK(is_row(&exports[3], 65538, "", 0) && is_row(&exports[4], 0, "", 0) && is_untold(fault));

    /* vs.dll imports an ordinal of itself, and has no base relocation */
    CHECK(petool_tables(vs.at, vs.len, exports, 5, names, 5, imports, 5, fixups, 5, &counts, &fault) == PETOOL_OK && is_untold(fault));
    CHECK(counts.exports == 2 && counts.names == 1 && counts.imports == 1 && counts.fixups == 0);
    CHECK(is_row(&names[0], 7, "g", 1) && is_rva(names[0].target, 0x1010) && is_import(&imports[0], "S.DLL", 5, "", 0, 7, 0x2030));
    counts.exports = 99;
    CHECK(petool_tables(vr.at, 64, exports, 5, names, 3, imports, 5, fixups, 4, &counts, &fault) == PETOOL_FAULT);
    CHECK(counts.exports == 99 && fault.number == 4);
}

static void check_rebase(void)
{
    petool_fault fault = UNTOLD;
    petool_headers headers;
    petool_section sections[1];
    uint8_t *out = (uint8_t *)malloc(v2.len);
    uint8_t field[4];
    if (out == NULL)
        exit(3);
    memset(out, 0x5a, v2.len);
    CHECK(petool_rebase(v2.at, v2.len, 0x20000000, out, v2.len, &fault) == PETOOL_OK);
    CHECK(petool_read_headers(out, v2.len, &headers, sections, 0, &fault) == PETOOL_OK);
    CHECK(headers.image_base == 0x20000000 && headers.check_sum == 0);
    CHECK(petool_read(out, v2.len, 0x1008, field, 4, &fault) == PETOOL_OK);
    /* it held the address 0x10001008, at 0x208 of the file */
    CHECK(memcmp(field, "\x08\x10\x00\x20", 4) == 0 && memcmp(out + 0x208, field, 4) == 0 && is_untold(fault));

    memset(out, 0x5a, v2.len);
    CHECK(petool_rebase(v2.at, v2.len, 0x20000001, out, v2.len, &fault) == PETOOL_FAULT);
    CHECK(is_fault(fault, 44, PETOOL_PLACE_ADDRESS, 0x20000001));
    CHECK(out[0] == 0x5a && out[0x208] == 0x5a && out[v2.len - 1] == 0x5a);
    fault = UNTOLD;
    CHECK(petool_rebase(v2.at, v2.len, 0x20000000, out, v2.len - 1, &fault) == PETOOL_ARGUMENT);
    CHECK(out[0] == 0x5a && is_untold(fault));
    free(out);
}

static void check_line(uint16_t number, uint16_t place, uint64_t at, const char *line)
{
    char room[200];
    petool_fault fault;
    fault.number = number;
    fault.image = 0;
    fault.place = place;
    fault.at = at;
    CHECK(petool_fault_line(&fault, room, sizeof room) == (int)strlen(line) && strcmp(room, line) == 0);
    memset(room, 0x5a, sizeof room);
    CHECK(petool_fault_line(&fault, room, 5) == (int)strlen(line) && strncmp(room, line, 4) == 0);
    CHECK(room[4] == 0 && room[5] == 0x5a);
}

static void check_words(void)
{
    petool_text subject = PETOOL_NONE, rule = PETOOL_NONE;
    CHECK(petool_fault_words(13, &subject, &rule) == PETOOL_OK);
    CHECK(is_text(subject, "section header", 14));
    CHECK(is_text(rule, "the section's raw data extends past the end of the file", 55));
    CHECK(petool_fault_words(9, &subject, &rule) == PETOOL_OK);
    CHECK(is_text(subject, "NumberOfSections", 16) && is_text(rule, "the image has more than 96 sections", 35));
    CHECK(petool_fault_words(86, &subject, &rule) == PETOOL_ABSENT);
    CHECK(is_text(subject, "NumberOfSections", 16) && is_text(rule, "the image has more than 96 sections", 35));
    check_line(13, PETOOL_PLACE_FILE, 0x138, "section header at 0x138: the section's raw data extends past the end of the file");
    check_line(34, PETOOL_PLACE_RVA, 0x2000, "base relocation table at RVA 0x2000: the table extends past the end of the image");
    check_line(44, PETOOL_PLACE_ADDRESS, 0x20000001, "base 0x20000001: the base is not a multiple of 65,536");
    check_line(41, PETOOL_PLACE_ITEM, 256, "file 256: the set has more than 256 files");
    check_line(86, PETOOL_PLACE_FILE, 10, "place at 0xa: no fault has this number");
    CHECK(petool_version_number() == (PETOOL_VERSION_NUMBER) && PETOOL_VERSION_NUMBER >= 0x20000);
}

static int is_value(const petool_value *row, const char *words, const char *name, uint64_t number, uint32_t kind)
{
    return is_text(row->words, words, strlen(words)) && is_text(row->name, name, strlen(name)) && row->number == number
        && row->kind == kind;
}

/* The numbers of faults: of a file that is cut, whose section takes 0x10 bytes from 0x200 on, and of one of 9 bytes. */
static void check_values(void)
{
    petool_value rows[PETOOL_VALUES + 1];
    petool_fault fault = UNTOLD, none = {41, PETOOL_PLACE_ITEM, 0, 256};
    size_t count = 99;
    petool_values_init(rows, PETOOL_VALUES + 1);
    CHECK(petool_check(v1.at, 0x20f, &fault) == PETOOL_FAULT && fault.number == 13);
    CHECK(petool_fault_detail(v1.at, 0x20f, &fault, rows, PETOOL_VALUES + 1, &count) == PETOOL_OK && count == 3);
    CHECK(is_value(&rows[0], "", "size", 0x10, PETOOL_VALUE_COUNT));
    CHECK(is_value(&rows[1], " bytes at ", "offset", 0x200, PETOOL_VALUE_PLACE));
    CHECK(is_value(&rows[2], ", and the file has ", "file_size", 0x20f, PETOOL_VALUE_COUNT));
    CHECK(is_value(&rows[3], "", "", 0, PETOOL_VALUE_NOTHING));
    petool_values_init(rows, PETOOL_VALUES + 1);
    CHECK(petool_fault_detail(v1.at, 0x20f, &fault, rows, 1, &count) == PETOOL_SMALL && count == 3);
    CHECK(is_value(&rows[0], "", "size", 0x10, PETOOL_VALUE_COUNT) && rows[1].number == 0);
    CHECK(petool_check(v1.at, 9, &fault) == PETOOL_FAULT && fault.number == 2);
    CHECK(petool_fault_detail(v1.at, 9, &fault, rows, PETOOL_VALUES, &count) == PETOOL_OK && count == 3);
    CHECK(is_value(&rows[0], "it has ", "file_size", 9, PETOOL_VALUE_COUNT));
    CHECK(is_value(&rows[1], "", "", 0, PETOOL_VALUE_NOTHING) && is_value(&rows[2], "", "", 0, PETOOL_VALUE_NOTHING));
    CHECK(petool_fault_detail(v1.at, v1.len, &none, rows, 0, &count) == PETOOL_OK && count == 0);
}

static int is_named(uint32_t kind, uint32_t value, const char *name)
{
    petool_text found = PETOOL_NONE;
    return petool_name(kind, value, &found) == PETOOL_OK && is_text(found, name, strlen(name));
}

static int has_no_name(uint32_t kind, uint32_t value)
{
    petool_text found = PETOOL_NONE;
    return petool_name(kind, value, &found) == PETOOL_ABSENT && found.len == 0;
}

/* Names as "PE Format" has them. */
static void check_names(void)
{
    CHECK(is_named(PETOOL_NAME_MACHINE, 0x8664, "AMD64") && is_named(PETOOL_NAME_MACHINE, 0xaa64, "ARM64"));
    CHECK(has_no_name(PETOOL_NAME_MACHINE, 0x8665) && has_no_name(PETOOL_NAME_MACHINE, 0x18664));
    CHECK(is_named(PETOOL_NAME_SUBSYSTEM, 2, "WINDOWS_GUI") && is_named(PETOOL_NAME_SUBSYSTEM, 3, "WINDOWS_CUI"));
    CHECK(has_no_name(PETOOL_NAME_SUBSYSTEM, 4) && has_no_name(PETOOL_NAME_SUBSYSTEM, 0x10002));
    CHECK(is_named(PETOOL_NAME_FLAG, 0x2000, "DLL") && is_named(PETOOL_NAME_FLAG, 1, "RELOCS_STRIPPED"));
    CHECK(has_no_name(PETOOL_NAME_FLAG, 0x40) && has_no_name(PETOOL_NAME_FLAG, 0x2001));
    CHECK(is_named(PETOOL_NAME_DLL_FLAG, 0x100, "NX_COMPAT") && is_named(PETOOL_NAME_DLL_FLAG, 0x40, "DYNAMIC_BASE"));
    CHECK(is_named(PETOOL_NAME_SECTION_FLAG, 0x40000000, "MEM_READ") && is_named(PETOOL_NAME_SECTION_FLAG, 0x20, "CNT_CODE"));
    CHECK(has_no_name(PETOOL_NAME_SECTION_FLAG, 0x100000));
    CHECK(is_named(PETOOL_NAME_DIRECTORY, 0, "export") && is_named(PETOOL_NAME_DIRECTORY, 5, "base relocation"));
    CHECK(has_no_name(PETOOL_NAME_DIRECTORY, 16) && has_no_name(8, 0) && has_no_name(0xffffffff, 0x8664));
    CHECK(is_named(PETOOL_NAME_DEBUG_TYPE, 2, "CODEVIEW") && is_named(PETOOL_NAME_DEBUG_TYPE, 20, "EX_DLLCHARACTERISTICS"));
    CHECK(has_no_name(PETOOL_NAME_DEBUG_TYPE, 18) && has_no_name(PETOOL_NAME_DEBUG_TYPE, 0x10002));
    CHECK(is_named(PETOOL_NAME_LOAD_FIELD, 0, "Size") && is_named(PETOOL_NAME_LOAD_FIELD, 17, "SecurityCookie"));
    CHECK(is_named(PETOOL_NAME_LOAD_FIELD, 51, "GuardMemcpyFunctionPointer") && has_no_name(PETOOL_NAME_LOAD_FIELD, 52));
}

/* Checks that a call refuses the first 63 bytes of a file, which have fault 2. */
#define CHECK_CUT(call)                                                             \
    do {                                                                            \
        fault = UNTOLD;                                                             \
        CHECK((call) == PETOOL_FAULT && is_fault(fault, 2, PETOOL_PLACE_FILE, 63)); \
    } while (0)

/* Each call on them reports this fault, and leaves everything else unchanged. */
static void check_cut(void)
{
    petool_headers headers, kept;
    petool_section section;
    petool_export rows[2];
    petool_import import;
    petool_fixup fixup;
    petool_target target;
    petool_text text = PETOOL_NONE;
    petool_counts counts = {99, 99, 99, 99};
    petool_fault fault;
    uint8_t file[63];
    uint64_t offset = 7;
    size_t count = 99;
    memset(&headers, 0x5a, sizeof headers), memset(&kept, 0x5a, sizeof kept), memset(&section, 0x5a, sizeof section);
    memset(&fixup, 0x5a, sizeof fixup), memset(file, 0x5a, sizeof file);
    petool_exports_init(rows, 2), petool_imports_init(&import, 1), petool_target_init(&target);
    CHECK_CUT(petool_check(vr.at, 63, &fault));
    CHECK_CUT(petool_read_headers(vr.at, 63, &headers, &section, 1, &fault));
    CHECK_CUT(petool_read(v1.at, 63, 0, file, 3, &fault));
    CHECK_CUT(petool_locate(v1.at, 63, 0, &offset, &fault));
    CHECK_CUT(petool_read_text(v1.at, 63, 0, &text, &fault));
    CHECK_CUT(petool_exports(vr.at, 63, rows, 1, &count, &fault));
    CHECK_CUT(petool_export_names(vr.at, 63, rows, 1, &count, &fault));
    CHECK_CUT(petool_export_by_name(vr.at, 63, (const uint8_t *)"f", 1, &target, &fault));
    CHECK_CUT(petool_export_by_ordinal(vr.at, 63, 65538, &target, &fault));
    CHECK_CUT(petool_imports(vr.at, 63, &import, 1, &count, &fault));
    CHECK_CUT(petool_import_at(vr.at, 63, 0x40018, &import, &fault));
    CHECK_CUT(petool_fixups(v2.at, 63, &fixup, 1, &count, &fault));
    CHECK_CUT(petool_tables(vr.at, 63, rows, 1, rows + 1, 1, &import, 1, &fixup, 1, &counts, &fault));
    CHECK_CUT(petool_rebase(v2.at, 63, 0x20000000, file, sizeof file, &fault));
    CHECK(memcmp(&headers, &kept, sizeof kept) == 0 && section.rva == 0x5a5a5a5a);
    CHECK(file[0] == 0x5a && file[62] == 0x5a && offset == 7 && is_text(text, "", 0));
    CHECK(is_row(&rows[0], 0, "", 0) && is_row(&rows[1], 0, "", 0) && target.rva == 0 && target.name.len == 0);
    CHECK(import.slot == 0 && import.module.len == 0 && fixup.field == 0x5a5a5a5a && count == 99);
    CHECK(counts.exports == 99 && counts.names == 99 && counts.imports == 99 && counts.fixups == 99);
}

/* NULL with length or room 0 is allowed for bytes, texts and rows; with another it is refused, and nothing is done. */
static void check_null(void)
{
    petool_fault fault = UNTOLD;
    petool_target target;
    petool_counts counts = {99, 99, 99, 99};
    size_t count = 99;
    petool_target_init(&target);
    CHECK(petool_check(NULL, 0, &fault) == PETOOL_FAULT && is_fault(fault, 2, PETOOL_PLACE_FILE, 0));
    fault = UNTOLD;
    CHECK(petool_check(NULL, 1, &fault) == PETOOL_ARGUMENT && is_untold(fault));
    CHECK(petool_exports(vr.at, vr.len, NULL, 0, &count, &fault) == PETOOL_SMALL && count == 5);
    CHECK(petool_imports(vr.at, vr.len, NULL, 0, &count, &fault) == PETOOL_SMALL && count == 5);
    CHECK(petool_fixups(vr.at, vr.len, NULL, 0, &count, &fault) == PETOOL_SMALL && count == 4);
    count = 99;
    CHECK(petool_exports(vr.at, vr.len, NULL, 5, &count, &fault) == PETOOL_ARGUMENT && count == 99);
    CHECK(petool_exports(NULL, 5, NULL, 0, &count, &fault) == PETOOL_ARGUMENT && count == 99);
    CHECK(petool_tables(vr.at, vr.len, NULL, 0, NULL, 0, NULL, 0, NULL, 0, &counts, &fault) == PETOOL_SMALL && counts.names == 3);
    CHECK(petool_read(vr.at, vr.len, 0x1000, NULL, 0, &fault) == PETOOL_OK);
    CHECK(petool_read(vr.at, vr.len, 0x1000, NULL, 1, &fault) == PETOOL_ARGUMENT && is_untold(fault));
    CHECK(petool_export_by_name(vr.at, vr.len, NULL, 0, &target, &fault) == PETOOL_ABSENT);
    CHECK(petool_export_by_name(vr.at, vr.len, NULL, 5, &target, &fault) == PETOOL_ARGUMENT);
    CHECK(petool_rebase(NULL, 0, 0x20000000, NULL, 0, &fault) == PETOOL_FAULT && fault.number == 2);
    fault.number = 13;
    fault.place = PETOOL_PLACE_FILE;
    fault.at = 0x138;
    CHECK(petool_fault_line(&fault, NULL, 0) == 80 && petool_fault_line(&fault, NULL, 7) == 80);
    CHECK(petool_fault_detail(NULL, 0, &fault, NULL, 0, &count) == PETOOL_OK && count == 0);
}

int main(int argc, char **argv)
{
    if (argc != 2)
        return 2;
    v1 = file_in(argv[1], "v1.dll");
    v2 = file_in(argv[1], "v2.dll");
    v3 = file_in(argv[1], "v3.dll");
    va = file_in(argv[1], "va.dll");
    vb = file_in(argv[1], "vb.dll");
    vc = file_in(argv[1], "vc.dll");
    vr = file_in(argv[1], "vr.dll");
    vs = file_in(argv[1], "vs.dll");
    check_judging();
    check_headers();
    check_bytes();
    check_exports();
    check_searches();
    check_imports();
    check_slots();
    check_fixups();
    check_tables();
    check_rebase();
    check_words();
    check_values();
    check_names();
    check_cut();
    check_null();
    free(v1.at), free(v2.at), free(v3.at), free(va.at), free(vb.at), free(vc.at), free(vr.at), free(vs.at);
    return told();
}
