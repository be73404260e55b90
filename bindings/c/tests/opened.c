/*
 * Images that are kept open: each call returns what the call over the file's bytes does, in each of its statuses; closed structs,
 * refused files, and structs that share an image. Some values are those of the files, which were made by hand from the format.
 */
#include "check.h"

#define ROWS 8
#define ROOM 16384

static const char *const names[9] = {"v1.dll", "v2.dll", "v3.dll", "va.dll", "vb.dll", "vc.dll", "vd.dll", "vs.dll", "vr.dll"};
static bytes files[9];
static const bytes *const va = &files[3], *const vb = &files[4], *const vr = &files[8];

static int is_fault(const petool_fault *one, const petool_fault *other)
{
    return one->number == other->number && one->image == other->image && one->place == other->place && one->at == other->at;
}

/* An image of a file without a fault. */
static petool_image opened(const bytes *file)
{
    petool_image image = PETOOL_IMAGE_CLOSED;
    petool_fault fault = UNTOLD;
    CHECK(petool_image_open(&image, file->at, file->len, &fault) == PETOOL_OK);
    CHECK(image.is_open && is_fault(&fault, &UNTOLD));
    return image;
}

/* Whether two strings are the same bytes of one file, or both empty. */
static int is_same_text(petool_text one, petool_text other)
{
    return one.len == other.len && (one.len == 0 || one.at == other.at);
}

static int is_same_target(const petool_target *one, const petool_target *other)
{
    return one->kind == other->kind && one->rva == other->rva && one->ordinal == other->ordinal && is_same_text(one->module, other->module)
        && is_same_text(one->name, other->name);
}

static int are_same_exports(const petool_export *one, const petool_export *other)
{
    int right = 1, k;
    for (k = 0; k < ROWS; k++)
        right = right && one[k].ordinal == other[k].ordinal && is_same_text(one[k].name, other[k].name)
            && is_same_target(&one[k].target, &other[k].target);
    return right;
}

static int are_same_imports(const petool_import *one, const petool_import *other)
{
    int right = 1, k;
    for (k = 0; k < ROWS; k++)
        right = right && is_same_text(one[k].module, other[k].module) && is_same_text(one[k].name, other[k].name)
            && one[k].slot == other[k].slot && one[k].ordinal == other[k].ordinal && one[k].by_ordinal == other[k].by_ordinal;
    return right;
}

static int are_same_fixups(const petool_fixup *one, const petool_fixup *other)
{
    int right = 1, k;
    for (k = 0; k < ROWS; k++)
        right = right && one[k].entry == other[k].entry && one[k].field == other[k].field && one[k].kind == other[k].kind;
    return right;
}

/* The tables of an image, read into `room` rows each. */
static void check_tables(petool_image *image, const bytes *file, size_t room)
{
    petool_export exports[ROWS], same_exports[ROWS];
    petool_import imports[ROWS], same_imports[ROWS];
    petool_fixup fixups[ROWS], same_fixups[ROWS];
    petool_fault fault = UNTOLD;
    size_t count = 99, same_count = 77;
    petool_exports_init(exports, ROWS), petool_exports_init(same_exports, ROWS);
    petool_imports_init(imports, ROWS), petool_imports_init(same_imports, ROWS);
    memset(fixups, 0, sizeof fixups), memset(same_fixups, 0, sizeof same_fixups);
    CHECK(petool_image_exports(image, same_exports, room, &same_count) == petool_exports(file->at, file->len, exports, room, &count, &fault));
    CHECK(count == same_count && are_same_exports(exports, same_exports));
    CHECK(petool_image_export_names(image, same_exports, room, &same_count)
          == petool_export_names(file->at, file->len, exports, room, &count, &fault));
    CHECK(count == same_count && are_same_exports(exports, same_exports));
    CHECK(petool_image_imports(image, same_imports, room, &same_count) == petool_imports(file->at, file->len, imports, room, &count, &fault));
    CHECK(count == same_count && are_same_imports(imports, same_imports));
    CHECK(petool_image_fixups(image, same_fixups, room, &same_count) == petool_fixups(file->at, file->len, fixups, room, &count, &fault));
    CHECK(count == same_count && are_same_fixups(fixups, same_fixups));
    CHECK(image->is_open && is_fault(&fault, &UNTOLD));
}

/* The file for a base is that of petool_rebase, with its status and fault, and a buffer that is not written stays as it was. */
static void check_rebase(petool_image *image, const bytes *file, uint64_t base)
{
    static uint8_t moved[ROOM], same[ROOM];
    petool_fault fault = UNTOLD, same_fault = UNTOLD;
    uint32_t status;
    CHECK(file->len < ROOM);
    memset(moved, 0x5a, sizeof moved), memset(same, 0x5a, sizeof same);
    status = petool_rebase(file->at, file->len, base, moved, file->len, &fault);
    CHECK(petool_image_rebase(image, base, same, file->len, &same_fault) == status && is_fault(&fault, &same_fault));
    CHECK(memcmp(moved, same, sizeof moved) == 0);
    CHECK(petool_image_rebase(image, base, same, file->len + 1, &same_fault) == PETOOL_ARGUMENT && is_fault(&fault, &same_fault));
    CHECK(petool_image_rebase(image, base, same, file->len - 1, &same_fault) == PETOOL_ARGUMENT && memcmp(moved, same, sizeof moved) == 0);
    CHECK(image->is_open);
}

/* Checks what a name exports; returns the status. */
static uint32_t check_name(petool_image *image, const bytes *file, const uint8_t *name, size_t len)
{
    petool_target target, same_target;
    petool_fault fault = UNTOLD;
    uint32_t status;
    petool_target_init(&target), petool_target_init(&same_target);
    status = petool_export_by_name(file->at, file->len, name, len, &target, &fault);
    CHECK(petool_image_export_by_name(image, name, len, &same_target) == status && is_same_target(&target, &same_target));
    return status;
}

/* Checks what an ordinal exports; returns the status. */
static uint32_t check_ordinal(petool_image *image, const bytes *file, uint64_t ordinal)
{
    petool_target target, same_target;
    petool_fault fault = UNTOLD;
    uint32_t status;
    petool_target_init(&target), petool_target_init(&same_target);
    status = petool_export_by_ordinal(file->at, file->len, ordinal, &target, &fault);
    CHECK(petool_image_export_by_ordinal(image, ordinal, &same_target) == status && is_same_target(&target, &same_target));
    return status;
}

/* Each name and ordinal of an image, and some that it lacks: ordinals before and after, and names that were cut or changed. */
static void check_look_ups(petool_image *image, const bytes *file)
{
    petool_export rows[ROWS];
    uint8_t other[64];
    size_t count = 0, k;
    petool_exports_init(rows, ROWS);
    CHECK(petool_image_export_names(image, rows, ROWS, &count) == PETOOL_OK);
    for (k = 0; k < count; k++) {
        petool_text name = rows[k].name;
        CHECK(name.len > 0 && name.len < sizeof other);
        memcpy(other, name.at, name.len);
        other[name.len] = 'x';
        CHECK(check_name(image, file, other, name.len) == PETOOL_OK);
        CHECK(check_name(image, file, other, name.len + 1) == PETOOL_ABSENT);
        check_name(image, file, other, name.len - 1);
        other[name.len - 1] ^= 0x55;
        CHECK(check_name(image, file, other, name.len) == PETOOL_ABSENT);
    }
    CHECK(check_name(image, file, other, 0) == PETOOL_ABSENT);
    CHECK(petool_image_exports(image, rows, ROWS, &count) == PETOOL_OK);
    for (k = 0; k < count; k++) {
        CHECK(check_ordinal(image, file, rows[k].ordinal) == PETOOL_OK);
        check_ordinal(image, file, rows[k].ordinal - 1);
        check_ordinal(image, file, rows[k].ordinal + 1);
    }
    CHECK(check_ordinal(image, file, 0xffffffff) == PETOOL_ABSENT);
    CHECK(check_ordinal(image, file, 0x100000007) == PETOOL_ABSENT);
}

/* The import of each slot of an image, and of the byte after it. */
static void check_slots(petool_image *image, const bytes *file)
{
    petool_import rows[ROWS], row, same_row;
    petool_fault fault = UNTOLD;
    size_t count = 0, k;
    petool_imports_init(rows, ROWS), petool_imports_init(&row, 1), petool_imports_init(&same_row, 1);
    CHECK(petool_image_imports(image, rows, ROWS, &count) == PETOOL_OK);
    for (k = 0; k < count; k++) {
        CHECK(petool_import_at(file->at, file->len, rows[k].slot, &row, &fault) == PETOOL_OK);
        CHECK(petool_image_import_at(image, rows[k].slot, &same_row) == PETOOL_OK);
        CHECK(row.slot == rows[k].slot && same_row.slot == row.slot && same_row.ordinal == row.ordinal);
        CHECK(is_same_text(row.module, rows[k].module) && is_same_text(same_row.name, rows[k].name));
        CHECK(petool_image_import_at(image, rows[k].slot + 1, &same_row) == PETOOL_ABSENT && same_row.slot == row.slot);
    }
}

/* What is at an RVA. */
static void check_rva(petool_image *image, const bytes *file, uint32_t rva)
{
    uint8_t buffer[16], same_buffer[16];
    petool_text none = PETOOL_NONE, text = none, same_text = none;
    petool_fault fault = UNTOLD;
    uint64_t offset = 7, same_offset = 7;
    memset(buffer, 0x5a, sizeof buffer), memset(same_buffer, 0x5a, sizeof same_buffer);
    CHECK(petool_image_read(image, rva, same_buffer, 16) == petool_read(file->at, file->len, rva, buffer, 16, &fault));
    CHECK(memcmp(buffer, same_buffer, 16) == 0);
    CHECK(petool_image_read(image, rva, same_buffer, 0) == petool_read(file->at, file->len, rva, buffer, 0, &fault));
    CHECK(petool_image_read_text(image, rva, &same_text) == petool_read_text(file->at, file->len, rva, &text, &fault));
    CHECK(is_same_text(text, same_text));
    CHECK(petool_image_locate(image, rva, &same_offset) == petool_locate(file->at, file->len, rva, &offset, &fault));
    CHECK(offset == same_offset);
}

/* Each call on an open image of a file, and the call over its bytes. */
static void check_file(const bytes *file)
{
    static const uint32_t places[12] = {0, 0x3c, 0x1ff, 0x1000, 0x1010, 0x1030, 0x1ffc, 0x2fff, 0x20010, 0x30123, 0x41000, 0xffffffff};
    static const uint64_t bases[6] = {0, 0x10000000, 0x20000000, 0x20000001, 0xffff0000, 0x7fff000000000000};
    petool_image image = opened(file);
    size_t k;
    for (k = 0; k <= ROWS; k++)
        check_tables(&image, file, k);
    for (k = 0; k < 6; k++)
        check_rebase(&image, file, bases[k]);
    check_look_ups(&image, file);
    check_slots(&image, file);
    for (k = 0; k < 12; k++)
        check_rva(&image, file, places[k]);
    petool_image_close(&image);
    CHECK(!image.is_open);
}

/* Values of vb.dll and vr.dll as they were made. */
static void check_values(void)
{
    petool_image image = opened(vb);
    petool_import row;
    petool_target target;
    petool_text text = PETOOL_NONE;
    petool_fault fault = UNTOLD;
    size_t count = 99;
    petool_imports_init(&row, 1);
    petool_target_init(&target);
    CHECK(petool_image_export_by_ordinal(&image, 7, &target) == PETOOL_OK);
    CHECK(target.kind == PETOOL_TARGET_RVA && target.rva == 0x1010);
    target.rva = 5;
    CHECK(petool_image_export_by_ordinal(&image, 6, &target) == PETOOL_ABSENT && target.rva == 5);
    CHECK(petool_image_export_by_name(&image, (const uint8_t *)"g", 1, &target) == PETOOL_OK && target.rva == 0x1010);

    /* opening it again closes the first image */
    CHECK(petool_image_open(&image, vr->at, vr->len, &fault) == PETOOL_OK && image.is_open);
    CHECK(petool_image_export_by_name(&image, (const uint8_t *)"g", 1, &target) == PETOOL_ABSENT);
    CHECK(petool_image_export_by_name(&image, (const uint8_t *)"plain", 5, &target) == PETOOL_OK);
    CHECK(target.kind == PETOOL_TARGET_ORDINAL && target.ordinal == 407);
    CHECK(target.module.len == 3 && memcmp(target.module.at, "\\o\x7f", 3) == 0);
    CHECK(petool_image_imports(&image, &row, 0, &count) == PETOOL_SMALL && count == 5 && row.slot == 0);
    CHECK(petool_image_read_text(&image, 0xfffffff0, &text) == PETOOL_ABSENT && text.len == 0);
    petool_image_close(&image);
}

/* Each call returns that the image is closed, and leaves its results unchanged. */
static void check_closed(petool_image *image)
{
    petool_export export_row;
    petool_import import_row;
    petool_fixup fixup_row = {9, 9, 9};
    petool_fault fault = UNTOLD;
    petool_target target;
    petool_text text = PETOOL_NONE;
    uint64_t offset = 7;
    size_t count = 99;
    uint8_t byte = 0x5a;
    petool_exports_init(&export_row, 1);
    petool_imports_init(&import_row, 1);
    petool_target_init(&target);
    CHECK(!image->is_open);
    CHECK(petool_image_read(image, 0x1000, &byte, 1) == PETOOL_CLOSED && byte == 0x5a);
    CHECK(petool_image_read_text(image, 0x1000, &text) == PETOOL_CLOSED && text.len == 0);
    CHECK(petool_image_locate(image, 0x1000, &offset) == PETOOL_CLOSED && offset == 7);
    CHECK(petool_image_export_by_name(image, (const uint8_t *)"g", 1, &target) == PETOOL_CLOSED && target.rva == 0);
    CHECK(petool_image_export_by_ordinal(image, 7, &target) == PETOOL_CLOSED && target.rva == 0);
    CHECK(petool_image_import_at(image, 0x1030, &import_row) == PETOOL_CLOSED && import_row.slot == 0);
    CHECK(petool_image_exports(image, NULL, 0, &count) == PETOOL_CLOSED && count == 99);
    CHECK(petool_image_exports(image, &export_row, 1, &count) == PETOOL_CLOSED && export_row.ordinal == 0);
    CHECK(petool_image_export_names(image, &export_row, 1, &count) == PETOOL_CLOSED && export_row.name.len == 0);
    CHECK(petool_image_imports(image, &import_row, 1, &count) == PETOOL_CLOSED && import_row.slot == 0);
    CHECK(petool_image_fixups(image, &fixup_row, 1, &count) == PETOOL_CLOSED && fixup_row.field == 9);
    CHECK(petool_image_rebase(image, 0x20000000, &byte, 1, &fault) == PETOOL_CLOSED && byte == 0x5a && is_fault(&fault, &UNTOLD));
    CHECK(count == 99 && !image->is_open);
}

/* A file cut at many lengths: with a fault the image is closed, even if another was open, and the fault is that of petool_check. */
static void check_refused(void)
{
    petool_image image = PETOOL_IMAGE_CLOSED, assigned;
    petool_fault fault = UNTOLD, first = UNTOLD;
    size_t len;
    memset(&assigned, 0xa5, sizeof assigned);
    assigned = petool_image_closed();
    check_closed(&assigned);
    petool_image_close(&assigned);
    check_closed(&image);
    petool_image_close(&image);
    check_closed(&image);
    for (len = 0; len < va->len; len += 7) {
        uint32_t status = petool_check(va->at, len, &first);
        CHECK(petool_image_open(&image, vb->at, vb->len, &fault) == PETOOL_OK && image.is_open);
        CHECK(petool_image_open(&image, va->at, len, &fault) == status);
        CHECK(status == PETOOL_OK || (is_fault(&fault, &first) && !image.is_open));
    }
    CHECK(petool_image_open(&image, va->at, 9, &fault) == PETOOL_FAULT && fault.number == 2 && fault.at == 9);
    check_closed(&image);
    petool_image_close(&image);
    check_closed(&image);
}

/* Structs that share an image: each works until it is closed itself, in any order, and after a move in memory. */
static void check_shared(void)
{
    petool_image image = opened(vb), other = PETOOL_IMAGE_CLOSED, third = opened(vr), moved;
    CHECK(petool_image_share(&image, &other) == PETOOL_OK && image.is_open && other.is_open);
    CHECK(check_name(&image, vb, (const uint8_t *)"g", 1) == PETOOL_OK);
    CHECK(check_name(&other, vb, (const uint8_t *)"g", 1) == PETOOL_OK);

    /* an open `other` is closed first */
    CHECK(petool_image_share(&other, &third) == PETOOL_OK && third.is_open);
    CHECK(check_name(&third, vb, (const uint8_t *)"g", 1) == PETOOL_OK);
    petool_image_close(&image);
    check_closed(&image);
    CHECK(check_name(&other, vb, (const uint8_t *)"g", 1) == PETOOL_OK);
    moved = third;
    petool_image_close(&other);
    CHECK(check_name(&moved, vb, (const uint8_t *)"g", 1) == PETOOL_OK);

    /* sharing a closed image leaves `other` closed */
    CHECK(petool_image_share(&image, &moved) == PETOOL_OK);
    check_closed(&moved);
    check_closed(&image);
    CHECK(petool_image_share(&image, &other) == PETOOL_OK);
    check_closed(&other);
}

int main(int argc, char **argv)
{
    int k;
    if (argc != 2)
        return 2;
    for (k = 0; k < 9; k++)
        files[k] = file_in(argv[1], names[k]);
    for (k = 0; k < 9; k++)
        check_file(&files[k]);
    check_values();
    check_refused();
    check_shared();
    for (k = 0; k < 9; k++)
        free(files[k].at);
    return told();
}
