/*
 * Maps images into a space, reads bound slots, moves the image in the middle and reads them again: map FILE...
 *
 * The images are mapped one after another from 0x10000000 on. The slot of an import from any other module is left unchanged.
 */
#include "files.h"

#define UNIT 0x10000

static const char usage[] = "usage: map FILE...\n\n"
                            "Maps images one after another from 0x10000000 on, moves the one in the middle, and shows each time\n"
                            "where they are and what their first bound slots hold.\n";

/* Where each image is. */
static void show_images(petool_space *space, size_t images)
{
    size_t i;
    for (i = 0; i < images; i++) {
        uint64_t base = 0;
        uint32_t size = 0;
        if (petool_space_image(space, (uint16_t)i, &base, &size) == PETOOL_OK)
            printf("image %zu at 0x%016" PRIx64 ", 0x%08" PRIx32 " bytes\n", i, base, size);
    }
}

/* The first bound slots, with their bytes. */
static void show_slots(petool_space *space)
{
    petool_binding rows[8];
    size_t count = 0, i, k;
    memset(rows, 0, sizeof rows);
    if (petool_space_bindings(space, rows, 8, &count) == PETOOL_CLOSED)
        return;
    for (i = 0; i < count && i < 8; i++) {
        petool_fault fault = {0, 0, 0, 0};
        uint64_t base = 0;
        uint32_t size = 0;
        uint8_t slot[4];
        if (petool_space_image(space, (uint16_t)rows[i].image, &base, &size) != PETOOL_OK ||
            petool_space_read(space, base + rows[i].slot, slot, sizeof slot, &fault) != PETOOL_OK)
            continue;
        printf("slot of image %" PRIu32 " at 0x%08" PRIx32 ":", rows[i].image, rows[i].slot);
        for (k = 0; k < sizeof slot; k++)
            printf(" %02x", slot[k]);
        printf(" of image %" PRIu32 "\n", rows[i].exporter);
    }
    printf("%zu slots are bound\n", count);
}

/* Places images one after another; returns the address after the last one, or 0 if a file is not an image. */
static uint64_t place(petool_entry *set, size_t images, petool_fault *fault)
{
    uint64_t base = 0x10000000;
    size_t i;
    for (i = 0; i < images; i++) {
        petool_headers headers;
        petool_section none[1];
        if (petool_read_headers(set[i].file.at, set[i].file.len, &headers, none, 0, fault) != PETOOL_OK) {
            fault->image = (uint16_t)i;
            return 0;
        }
        set[i].base = base;
        base += (headers.size_of_image + (uint64_t)UNIT - 1) / UNIT * UNIT;
    }
    return base;
}

/* Shows a space, moves an image in it past all others, and shows its slots again. */
static uint32_t show_move(petool_space *space, size_t images, uint64_t behind, petool_fault *fault)
{
    petool_moved moved = {0, 0};
    uint32_t status;
    show_images(space, images);
    show_slots(space);
    status = petool_space_move(space, (uint16_t)(images / 2), behind, &moved, fault);
    if (status == PETOOL_OK) {
        printf("moved image %zu: %" PRIu32 " fields, %" PRIu32 " slots\n", images / 2, moved.fields, moved.slots);
        show_slots(space);
    }
    return status;
}

static int run(petool_entry *set, size_t images)
{
    petool_space space = PETOOL_SPACE_CLOSED;
    petool_fault fault = {0, 0, 0, 0};
    uint32_t cycle = 0, status;
    uint64_t behind = place(set, images, &fault);
    if (behind == 0)
        return set_refused(set, images, PETOOL_FAULT, &fault);
    status = petool_space_map(&space, set, images, true, &cycle, &fault);
    if (status == PETOOL_OK)
        status = show_move(&space, images, behind, &fault);
    petool_space_close(&space);
    return status == PETOOL_OK ? 0 : set_refused(set, images, status, &fault);
}

/* Reads the files of a set, and maps it; returns the exit status. */
static int map(char **paths, size_t images)
{
    petool_entry *set = (petool_entry *)malloc(images * sizeof *set);
    size_t are_read = 0;
    int status;
    if (set == NULL)
        return refused("map", PETOOL_MEMORY, NULL);
    while (are_read < images && read_entry(paths[are_read], 0, &set[are_read]))
        are_read++;
    status = are_read == images ? run(set, images) : DEVICE_FAILED;
    free_entries(set, are_read);
    free(set);
    return status;
}

int main(int argc, char **argv)
{
    bool helps = asks_for_help(argc, argv);
    int status;
    if (helps || argc < 2)
        return tell_usage(usage, helps);
    status = map(argv + 1, (size_t)argc - 1);
    return is_printed() ? status : DEVICE_FAILED;
}
