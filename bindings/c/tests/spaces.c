/*
 * Sets and spaces: each call on its good path and in each of its statuses. Of va.dll, vb.dll and vc.dll, at the bases below, one
 * slot is bound: that of c.exe at RVA 0x1030, to ordinal 7 of b.dll, which is its RVA 0x1010, by way of a forwarder of a.dll.
 */
#include "check.h"

static bytes v2, va, vb, vc;
static petool_entry abc[3];

/* The import of c.exe as one that is bound to nothing, of the image with this index. */
static int is_unbound(petool_unbound_import import, uint32_t image)
{
    return import.image == image && import.slot == 0x1030 && !import.by_ordinal && import.ordinal == 0 && import.module.len == 5 &&
           memcmp(import.module.at, "A.DLL", 5) == 0 && import.name.len == 1 && *import.name.at == 'f';
}

static int is_bound(petool_binding binding)
{
    return binding.image == 2 && binding.slot == 0x1030 && binding.exporter == 1 && binding.rva == 0x1010;
}

static void check_judging(void)
{
    petool_binding rows[2];
    petool_fault fault = {0, 0, 0, 0};
    petool_entry wrong[3];
    size_t count = 99;
    uint32_t cycle = 77;
    memset(rows, 0, sizeof rows);
    CHECK(petool_judge(abc, 3, false, rows, 2, &count, &cycle, &fault) == PETOOL_OK);
    CHECK(count == 1 && is_bound(rows[0]) && rows[1].slot == 0 && cycle == 77 && fault.number == 0);
    CHECK(petool_judge(abc, 3, false, rows, 0, &count, &cycle, &fault) == PETOOL_SMALL && count == 1);
    CHECK(petool_judge(abc + 1, 2, true, rows, 2, &count, &cycle, &fault) == PETOOL_OK && count == 0 && fault.number == 0);

    /* without a.dll: a fault, or a slot that is left unchanged */
    wrong[0] = abc[1];
    wrong[1] = abc[2];
    count = 99;
    CHECK(petool_judge(wrong, 2, false, rows, 2, &count, &cycle, &fault) == PETOOL_FAULT);
    CHECK(fault.number == 48 && fault.image == 1 && fault.place == PETOOL_PLACE_RVA && fault.at == 0x1030);
    CHECK(count == 99 && cycle == 77);
    CHECK(petool_judge(wrong, 2, true, rows, 2, &count, &cycle, &fault) == PETOOL_OK && count == 0);

    /* a base that is not a multiple of 65,536 */
    wrong[0] = entry("b.dll", vb, 0x20000001);
    CHECK(petool_judge(wrong, 1, false, rows, 2, &count, &cycle, &fault) == PETOOL_FAULT);
    CHECK(fault.number == 44 && fault.image == 0 && fault.place == PETOOL_PLACE_ADDRESS && fault.at == 0x20000001);
}

static void check_unbound(void)
{
    petool_unbound_import rows[3];
    petool_fault fault = {0, 0, 0, 0};
    petool_entry set[4];
    size_t count = 99;
    uint32_t cycle = 77;
    petool_unbound_init(rows, 3);
    CHECK(petool_unbound(abc, 3, rows, 3, &count, &cycle, &fault) == PETOOL_OK);
    CHECK(count == 0 && rows[0].slot == 0 && cycle == 77 && fault.number == 0);
    CHECK(petool_unbound(NULL, 0, NULL, 0, &count, &cycle, &fault) == PETOOL_OK && count == 0);
    CHECK(petool_unbound(abc, 3, NULL, 1, &count, &cycle, &fault) == PETOOL_ARGUMENT);

    /* the forwarder of a.dll leads to a module that is not in the set; b.dll imports nothing */
    set[0] = entry("c.exe", vc, 0x400000);
    set[1] = abc[0];
    set[2] = entry("d.exe", vc, 0x500000);
    CHECK(petool_unbound(set, 3, rows, 3, &count, &cycle, &fault) == PETOOL_OK && count == 2);
    CHECK(is_unbound(rows[0], 0) && is_unbound(rows[1], 2) && rows[2].slot == 0);
    /* a part of the file of its image */
    CHECK(rows[1].module.at > vc.at && rows[1].module.at < vc.at + vc.len);
    petool_unbound_init(rows, 3);
    CHECK(petool_unbound(set, 3, rows, 0, &count, &cycle, &fault) == PETOOL_SMALL && count == 2 && rows[0].slot == 0);
    CHECK(petool_unbound(set, 3, rows, 1, &count, &cycle, &fault) == PETOOL_SMALL && count == 2);
    CHECK(is_unbound(rows[0], 0) && rows[1].slot == 0);
    /* with b.dll both are bound */
    set[3] = abc[1];
    CHECK(petool_unbound(set, 4, rows, 1, &count, &cycle, &fault) == PETOOL_OK && count == 0);

    /* two of one name */
    set[2].name = set[0].name;
    count = 99;
    CHECK(petool_unbound(set, 3, rows, 3, &count, &cycle, &fault) == PETOOL_FAULT);
    CHECK(fault.number == 42 && fault.image == 2 && count == 99 && is_unbound(rows[0], 0));
}

/* Asserts that a set of a.dll and c.exe is refused at the slot of c.exe by this fault, with this length of a cycle. */
static void check_refused(bytes a, unsigned number, uint32_t length)
{
    petool_space space = PETOOL_SPACE_CLOSED;
    petool_fault fault = {0, 0, 0, 0};
    petool_entry set[2];
    petool_binding row[1];
    size_t count = 99;
    uint32_t cycle = 77;
    set[0] = entry("a.dll", a, 0x10000000);
    set[1] = entry("c.exe", vc, 0x400000);
    memset(row, 0, sizeof row);
    CHECK(petool_space_map(&space, set, 2, false, &cycle, &fault) == PETOOL_FAULT);
    CHECK(fault.number == number && fault.image == 1 && fault.place == PETOOL_PLACE_RVA && fault.at == 0x1030);
    CHECK(!space.is_open && cycle == length);
    cycle = 77;
    CHECK(petool_judge(set, 2, false, row, 1, &count, &cycle, &fault) == PETOOL_FAULT);
    CHECK(fault.number == number && cycle == length && count == 99);
    cycle = 77;
    CHECK(petool_space_open(&space, set, 2, false, &cycle, &fault) == PETOOL_FAULT);
    CHECK(fault.number == number && fault.image == 1 && fault.place == PETOOL_PLACE_RVA && fault.at == 0x1030);
    CHECK(!space.is_open && cycle == length);
}

/* A cycle is a fault of the imports that are bound to nothing too. */
static void check_cycle(bytes a)
{
    petool_fault fault = {0, 0, 0, 0};
    petool_unbound_import row[1];
    petool_entry set[2];
    size_t count = 99;
    uint32_t cycle = 77;
    set[0] = entry("a.dll", a, 0x10000000);
    set[1] = entry("c.exe", vc, 0x400000);
    petool_unbound_init(row, 1);
    CHECK(petool_unbound(set, 2, row, 1, &count, &cycle, &fault) == PETOOL_FAULT);
    CHECK(fault.number == 50 && fault.image == 1 && fault.at == 0x1030 && cycle == 1 && count == 99 && row[0].slot == 0);
}

/* The forwarder of va.dll leads to `b`, which is not in the set; with another string it leads to itself. */
static void check_searches(void)
{
    size_t at = 0;
    check_refused(va, 48, 77);
    while (at + 5 < va.len && memcmp(va.at + at, "b.#7", 5) != 0)
        at++;
    memcpy(va.at + at, "a.f", 4);
    check_refused(va, 50, 1);
    check_cycle(va);
    memcpy(va.at + at, "b.#7", 5);
}

/* One open space: bytes, images and bindings. */
static void check_reading(petool_space *space)
{
    petool_binding rows[2];
    petool_fault fault = {0, 0, 0, 0};
    uint8_t slot[4] = {0, 0, 0, 0};
    uint64_t base = 7;
    uint32_t size = 7;
    size_t count = 99;
    memset(rows, 0, sizeof rows);
    CHECK(petool_space_read(space, 0x401030, slot, 4, &fault) == PETOOL_OK);
    CHECK(memcmp(slot, "\x10\x10\x00\x20", 4) == 0);
    CHECK(petool_space_image(space, 1, &base, &size) == PETOOL_OK);
    CHECK(base == 0x20000000 && size == 0x3000);
    CHECK(petool_space_image(space, 3, &base, &size) == PETOOL_ABSENT);
    /* no bit of an index is lost */
    CHECK(petool_space_image(space, 0x10001, &base, &size) == PETOOL_ABSENT);
    CHECK(base == 0x20000000 && size == 0x3000);
    CHECK(petool_space_bindings(space, rows, 2, &count) == PETOOL_OK);
    CHECK(count == 1 && is_bound(rows[0]) && rows[1].slot == 0);
    CHECK(petool_space_bindings(space, rows, 0, &count) == PETOOL_SMALL && count == 1);

    /* past the image's last byte, and outside all images */
    CHECK(petool_space_read(space, 0x402fff, slot, 1, &fault) == PETOOL_OK && slot[0] == 0);
    slot[0] = 0x5a;
    CHECK(petool_space_read(space, 0x402fff, slot, 2, &fault) == PETOOL_FAULT);
    CHECK(fault.number == 54 && fault.image == 2 && fault.place == PETOOL_PLACE_ADDRESS && fault.at == 0x402fff);
    CHECK(slot[0] == 0x5a);
    CHECK(petool_space_read(space, 0x403000, slot, 1, &fault) == PETOOL_FAULT && fault.number == 54 && fault.image == 65535);
}

/* Moves of b.dll: the slot that is bound to it follows, and a refused move changes nothing. */
static void check_moves(petool_space *space)
{
    petool_moved moved = {77, 77};
    petool_fault fault = {0, 0, 0, 0};
    uint8_t slot[4] = {0, 0, 0, 0};
    uint64_t base = 7;
    uint32_t size = 7;
    CHECK(petool_space_move(space, 1, 0x30000000, &moved, &fault) == PETOOL_OK);
    CHECK(moved.fields == 0 && moved.slots == 1 && fault.number == 0);
    CHECK(petool_space_read(space, 0x401030, slot, 4, &fault) == PETOOL_OK);
    CHECK(memcmp(slot, "\x10\x10\x00\x30", 4) == 0);
    CHECK(petool_space_image(space, 1, &base, &size) == PETOOL_OK && base == 0x30000000);
    slot[0] = 0x5a;
    CHECK(petool_space_read(space, 0x20000000, slot, 1, &fault) == PETOOL_FAULT && slot[0] == 0x5a);
    CHECK(fault.number == 54 && fault.image == 65535 && fault.place == PETOOL_PLACE_ADDRESS && fault.at == 0x20000000);

    moved.fields = 77;
    CHECK(petool_space_move(space, 1, 0x10000000, &moved, &fault) == PETOOL_FAULT);
    CHECK(fault.number == 47 && fault.image == 1 && fault.place == PETOOL_PLACE_ADDRESS && fault.at == 0x10000000);
    CHECK(petool_space_move(space, 3, 0x10000000, &moved, &fault) == PETOOL_FAULT && fault.number == 55);
    CHECK(fault.image == 3 && fault.place == PETOOL_PLACE_ITEM && fault.at == 3);
    CHECK(petool_space_move(space, 0x10001, 0x10000000, &moved, &fault) == PETOOL_FAULT);
    CHECK(fault.number == 55 && fault.image == 0x10001 && fault.place == PETOOL_PLACE_ITEM && fault.at == 0x10001);
    CHECK(moved.fields == 77 && moved.slots == 1);
    CHECK(petool_space_image(space, 1, &base, &size) == PETOOL_OK && base == 0x30000000);
    CHECK(petool_space_read(space, 0x401030, slot, 4, &fault) == PETOOL_OK && memcmp(slot, "\x10\x10\x00\x30", 4) == 0);
}

static void check_closed(petool_space *space)
{
    petool_binding row[1];
    petool_moved moved = {77, 77};
    petool_fault fault = UNTOLD;
    uint8_t byte = 0x5a;
    uint64_t base = 7;
    uint32_t size = 7;
    size_t count = 99;
    CHECK(!space->is_open);
    memset(row, 0, sizeof row);
    CHECK(petool_space_read(space, 0x401030, &byte, 1, &fault) == PETOOL_CLOSED && byte == 0x5a);
    CHECK(petool_space_move(space, 0, 0x30000000, &moved, &fault) == PETOOL_CLOSED && moved.fields == 77);
    CHECK(petool_space_image(space, 0, &base, &size) == PETOOL_CLOSED && base == 7 && size == 7);
    CHECK(petool_space_bindings(space, row, 1, &count) == PETOOL_CLOSED && count == 99);
    CHECK(is_untold(fault));
}

/* The three images have 0x3000 bytes each. */
static void check_within(void)
{
    petool_space space = PETOOL_SPACE_CLOSED;
    petool_fault fault = {0, 0, 0, 0};
    petool_entry wrong[2];
    uint32_t cycle = 77;
    CHECK(petool_space_map_within(&space, abc, 3, false, 0x9000, &cycle, &fault) == PETOOL_OK && space.is_open);
    check_reading(&space);
    CHECK(petool_space_map_within(&space, abc, 3, false, 0x8fff, &cycle, &fault) == PETOOL_LARGE);
    check_closed(&space);
    CHECK(petool_space_map_within(&space, abc, 3, false, UINT64_MAX, &cycle, &fault) == PETOOL_OK && space.is_open);
    CHECK(petool_space_map_within(&space, abc, 3, false, 0, &cycle, &fault) == PETOOL_LARGE);
    check_closed(&space);
    CHECK(petool_space_map_within(&space, NULL, 0, false, 0, &cycle, &fault) == PETOOL_OK && space.is_open);

    /* a file that is no image has no size, and its fault is reported; two of one name count before their fault */
    wrong[0] = abc[0];
    wrong[1] = abc[0];
    CHECK(petool_space_map_within(&space, wrong, 2, false, 0x5fff, &cycle, &fault) == PETOOL_LARGE && fault.number == 0);
    CHECK(petool_space_map_within(&space, wrong, 2, false, 0x6000, &cycle, &fault) == PETOOL_FAULT && fault.number == 42);
    wrong[1] = abc[1];
    wrong[1].file.len = 9;
    CHECK(petool_space_map_within(&space, wrong, 2, false, 0x3000, &cycle, &fault) == PETOOL_FAULT);
    CHECK(fault.number == 2 && fault.image == 1 && fault.at == 9 && !space.is_open);
}

static void check_space(void)
{
    petool_space space = PETOOL_SPACE_CLOSED, assigned;
    petool_fault fault = {0, 0, 0, 0};
    petool_entry moving[1];
    petool_moved moved = {77, 77};
    uint32_t cycle = 77;
    uint8_t field[4];
    check_closed(&space);
    petool_space_close(&space);
    check_closed(&space);
    memset(&assigned, 0xa5, sizeof assigned);
    assigned = petool_space_closed();
    check_closed(&assigned);
    petool_space_close(&assigned);
    CHECK(petool_space_map(&space, abc, 3, false, &cycle, &fault) == PETOOL_OK);
    CHECK(space.is_open && cycle == 77 && fault.number == 0);
    check_reading(&space);
    check_moves(&space);

    /* mapping again closes the first space. The field of v2.dll holds the address of its RVA 0x1008 */
    moving[0] = entry("v2.dll", v2, 0x20000000);
    CHECK(petool_space_map(&space, moving, 1, false, &cycle, &fault) == PETOOL_OK && space.is_open);
    CHECK(petool_space_read(&space, 0x20001008, field, 4, &fault) == PETOOL_OK);
    CHECK(memcmp(field, "\x08\x10\x00\x20", 4) == 0);
    CHECK(petool_space_move(&space, 0, 0x50000000, &moved, &fault) == PETOOL_OK && moved.fields == 1 && moved.slots == 0);
    CHECK(petool_space_read(&space, 0x50001008, field, 4, &fault) == PETOOL_OK);
    CHECK(memcmp(field, "\x08\x10\x00\x50", 4) == 0);

    /* a set that is refused leaves it closed */
    moving[0].base = 1;
    CHECK(petool_space_map(&space, moving, 1, false, &cycle, &fault) == PETOOL_FAULT && fault.number == 44);
    check_closed(&space);
    CHECK(petool_space_map(&space, abc, 3, false, &cycle, &fault) == PETOOL_OK && space.is_open);
    /* the module of c.exe is not in the set */
    CHECK(petool_space_map(&space, abc + 1, 2, false, &cycle, &fault) == PETOOL_FAULT && cycle == 77);
    CHECK(fault.number == 48 && fault.image == 1 && fault.place == PETOOL_PLACE_RVA && fault.at == 0x1030);
    check_closed(&space);
    CHECK(petool_space_map(&space, abc, 0, false, &cycle, &fault) == PETOOL_OK && space.is_open);
    petool_space_close(&space);
    petool_space_close(&space);
    check_closed(&space);
}

/* Whether two spaces have the same images, bindings and bytes. */
static int are_alike(petool_space *one, petool_space *other, uint32_t images)
{
    static uint8_t of_one[0x3000], of_other[0x3000];
    petool_binding row_of_one[4], row_of_other[4];
    petool_fault fault = {0, 0, 0, 0};
    size_t count = 1, other_count = 2;
    uint32_t image;
    memset(row_of_one, 0, sizeof row_of_one);
    memset(row_of_other, 0, sizeof row_of_other);
    if (petool_space_bindings(one, row_of_one, 4, &count) != petool_space_bindings(other, row_of_other, 4, &other_count))
        return 0;
    if (count != other_count || memcmp(row_of_one, row_of_other, sizeof row_of_one) != 0)
        return 0;
    for (image = 0; image < images; image++) {
        uint64_t base = 1, other_base = 2;
        uint32_t size = 1, other_size = 2;
        if (petool_space_image(one, image, &base, &size) != PETOOL_OK ||
            petool_space_image(other, image, &other_base, &other_size) != PETOOL_OK)
            return 0;
        if (base != other_base || size != other_size || size != sizeof of_one)
            return 0;
        if (petool_space_read(one, base, of_one, size, &fault) != PETOOL_OK ||
            petool_space_read(other, base, of_other, size, &fault) != PETOOL_OK || memcmp(of_one, of_other, size) != 0)
            return 0;
    }
    return 1;
}

/* A space over its files is that of the set, and reads the files: its bytes change with them, as no caller may do. */
static void check_opened(void)
{
    petool_space mapped = PETOOL_SPACE_CLOSED, opened = PETOOL_SPACE_CLOSED;
    petool_fault fault = {0, 0, 0, 0};
    petool_moved moved = {77, 77};
    petool_entry moving[1], wrong[2];
    char name[] = "v2.dll";
    uint32_t cycle = 77;
    uint8_t byte = 0;
    CHECK(petool_space_map(&mapped, abc, 3, false, &cycle, &fault) == PETOOL_OK);
    CHECK(petool_space_open(&opened, abc, 3, false, &cycle, &fault) == PETOOL_OK && opened.is_open && cycle == 77);
    CHECK(are_alike(&mapped, &opened, 3));
    check_reading(&opened);
    check_moves(&opened);
    CHECK(!are_alike(&mapped, &opened, 3));
    CHECK(petool_space_move(&mapped, 1, 0x30000000, &moved, &fault) == PETOOL_OK);
    CHECK(are_alike(&mapped, &opened, 3));

    /* without a.dll, with a slot that keeps its bytes */
    wrong[0] = abc[1];
    wrong[1] = abc[2];
    CHECK(petool_space_open(&opened, wrong, 2, false, &cycle, &fault) == PETOOL_FAULT && fault.number == 48 && !opened.is_open);
    CHECK(petool_space_open(&opened, wrong, 2, true, &cycle, &fault) == PETOOL_OK && opened.is_open);
    CHECK(petool_space_map(&mapped, wrong, 2, true, &cycle, &fault) == PETOOL_OK);
    CHECK(are_alike(&mapped, &opened, 2));
    CHECK(petool_space_open(&opened, NULL, 0, false, &cycle, &fault) == PETOOL_OK && opened.is_open);
    CHECK(petool_space_open(&opened, NULL, 1, false, &cycle, &fault) == PETOOL_ARGUMENT);

    /* the entries and the names may go, and the file may not */
    moving[0] = entry(name, v2, 0x20000000);
    CHECK(petool_space_open(&opened, moving, 1, false, &cycle, &fault) == PETOOL_OK);
    memset(moving, 0x5a, sizeof moving);
    memset(name, 0x5a, sizeof name);
    CHECK(petool_space_move(&opened, 0, 0x50000000, &moved, &fault) == PETOOL_OK && moved.fields == 1 && moved.slots == 0);
    CHECK(petool_space_read(&opened, 0x50000000, &byte, 1, &fault) == PETOOL_OK && byte == 'M');
    v2.at[0] = 'N';
    CHECK(petool_space_read(&opened, 0x50000000, &byte, 1, &fault) == PETOOL_OK && byte == 'N');
    v2.at[0] = 'M';
    petool_space_close(&mapped);
    petool_space_close(&opened);
    check_closed(&opened);
}

/* Asserts that none of three structs of one space moves an image, whatever the image and the base are. */
static void check_held(petool_space **spaces, int count)
{
    petool_moved moved = {77, 77};
    petool_fault fault = {0, 0, 0, 0};
    int i;
    for (i = 0; i < count; i++) {
        CHECK(petool_space_move(spaces[i], 1, 0x30000000, &moved, &fault) == PETOOL_SHARED);
        CHECK(petool_space_move(spaces[i], 0x10001, 1, &moved, &fault) == PETOOL_SHARED);
        CHECK(moved.fields == 77 && moved.slots == 77 && fault.number == 0);
        check_reading(spaces[i]);
    }
}

/* Structs of one space: it is moved only by the last. */
static void check_shared(petool_space *space)
{
    petool_space second = PETOOL_SPACE_CLOSED, third = PETOOL_SPACE_CLOSED;
    petool_space *all[3];
    petool_moved moved = {77, 77};
    petool_fault fault = {0, 0, 0, 0};
    uint32_t cycle = 77;
    all[0] = space, all[1] = &second, all[2] = &third;
    CHECK(petool_space_share(space, &second) == PETOOL_OK && second.is_open);
    check_held(all, 2);
    /* what a struct held is closed first */
    CHECK(petool_space_map(&third, abc, 0, false, &cycle, &fault) == PETOOL_OK);
    CHECK(petool_space_share(&second, &third) == PETOOL_OK);
    check_held(all, 3);
    CHECK(are_alike(space, &second, 3) && are_alike(space, &third, 3));
    petool_space_close(&second);
    check_closed(&second);
    CHECK(petool_space_move(&third, 1, 0x30000000, &moved, &fault) == PETOOL_SHARED);
    petool_space_close(space);
    check_closed(space);
    check_moves(&third);
    /* of a closed space there are only closed ones */
    CHECK(petool_space_share(&second, &third) == PETOOL_OK);
    check_closed(&third);
}

static void check_sharing(void)
{
    petool_space space = PETOOL_SPACE_CLOSED;
    petool_fault fault = {0, 0, 0, 0};
    uint32_t cycle = 77;
    CHECK(petool_space_map(&space, abc, 3, false, &cycle, &fault) == PETOOL_OK);
    check_shared(&space);
    CHECK(petool_space_open(&space, abc, 3, false, &cycle, &fault) == PETOOL_OK);
    check_shared(&space);
}

int main(int argc, char **argv)
{
    if (argc != 2)
        return 2;
    v2 = file_in(argv[1], "v2.dll");
    va = file_in(argv[1], "va.dll");
    vb = file_in(argv[1], "vb.dll");
    vc = file_in(argv[1], "vc.dll");
    set_abc(abc, va, vb, vc);
    check_judging();
    check_searches();
    check_within();
    check_unbound();
    check_space();
    check_opened();
    check_sharing();
    free(v2.at), free(va.at), free(vb.at), free(vc.at);
    return told();
}
