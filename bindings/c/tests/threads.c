/* Eight threads call at once over one file, each with its own struct of one open image and of two open spaces, one mapped and one over
 * its files, and its own space, with the same results. */
#include "check.h"

#include <pthread.h>

static bytes vb, va, vc;

/* A thread's structs of the image of vb.dll and of two spaces, which the threads share, and what it gets wrong. */
typedef struct work {
    petool_image image;
    petool_space mapped, opened;
    int wrong;
} work;

/* Reads a space that others read, and shares it with one more struct; nobody moves it. */
static int ask_shared(petool_space *space)
{
    petool_space other = PETOOL_SPACE_CLOSED;
    petool_fault fault = {0, 0, 0, 0};
    petool_moved moved = {0, 0};
    uint8_t slot[4] = {0, 0, 0, 0};
    int wrong = 0;
    wrong += petool_space_read(space, 0x401030, slot, 4, &fault) != PETOOL_OK;
    wrong += memcmp(slot, "\x10\x10\x00\x20", 4) != 0;
    wrong += petool_space_share(space, &other) != PETOOL_OK;
    wrong += petool_space_move(space, 1, 0x30000000, &moved, &fault) != PETOOL_SHARED;
    wrong += petool_space_move(&other, 1, 0x30000000, &moved, &fault) != PETOOL_SHARED;
    memset(slot, 0, sizeof slot);
    wrong += petool_space_read(&other, 0x401030, slot, 4, &fault) != PETOOL_OK;
    wrong += memcmp(slot, "\x10\x10\x00\x20", 4) != 0;
    petool_space_close(&other);
    return wrong;
}

static void *run(void *own)
{
    work *mine = (work *)own;
    int *wrong = &mine->wrong;
    int round;
    for (round = 0; round < 500; round++) {
        petool_fault fault = {0, 0, 0, 0};
        petool_target target;
        petool_image other = PETOOL_IMAGE_CLOSED;
        petool_space space = PETOOL_SPACE_CLOSED;
        petool_entry set[3];
        uint32_t cycle = 0;
        uint8_t slot[4] = {0, 0, 0, 0};
        petool_target_init(&target);
        *wrong += petool_image_export_by_name(&mine->image, (const uint8_t *)"g", 1, &target) != PETOOL_OK;
        *wrong += target.rva != 0x1010;
        *wrong += petool_image_share(&mine->image, &other) != PETOOL_OK;
        petool_target_init(&target);
        *wrong += petool_image_export_by_ordinal(&other, 7, &target) != PETOOL_OK;
        *wrong += target.rva != 0x1010;
        petool_image_close(&other);
        petool_target_init(&target);
        set_abc(set, va, vb, vc);
        *wrong += petool_check(vb.at, vb.len, &fault) != PETOOL_OK;
        *wrong += petool_export_by_name(vb.at, vb.len, (const uint8_t *)"g", 1, &target, &fault) != PETOOL_OK;
        *wrong += target.rva != 0x1010;
        *wrong += petool_space_map(&space, set, 3, false, &cycle, &fault) != PETOOL_OK;
        *wrong += petool_space_read(&space, 0x401030, slot, 4, &fault) != PETOOL_OK;
        *wrong += memcmp(slot, "\x10\x10\x00\x20", 4) != 0;
        petool_space_close(&space);
        *wrong += ask_shared(&mine->mapped) + ask_shared(&mine->opened);
    }
    petool_image_close(&mine->image);
    petool_space_close(&mine->mapped);
    petool_space_close(&mine->opened);
    return NULL;
}

int main(int argc, char **argv)
{
    pthread_t threads[8];
    work works[8];
    petool_image image = PETOOL_IMAGE_CLOSED, closed = PETOOL_IMAGE_CLOSED;
    petool_space mapped = PETOOL_SPACE_CLOSED, opened = PETOOL_SPACE_CLOSED;
    petool_fault fault = {0, 0, 0, 0};
    petool_moved moved = {0, 0};
    petool_entry set[3];
    uint32_t cycle = 0;
    int i;
    if (argc != 2)
        return 2;
    va = file_in(argv[1], "va.dll");
    vb = file_in(argv[1], "vb.dll");
    vc = file_in(argv[1], "vc.dll");
    CHECK(petool_image_open(&image, vb.at, vb.len, &fault) == PETOOL_OK);
    set_abc(set, va, vb, vc);
    CHECK(petool_space_map(&mapped, set, 3, false, &cycle, &fault) == PETOOL_OK);
    CHECK(petool_space_open(&opened, set, 3, false, &cycle, &fault) == PETOOL_OK);
    for (i = 0; i < 8; i++) {
        works[i].image = closed;
        works[i].mapped = works[i].opened = petool_space_closed();
        works[i].wrong = 0;
        CHECK(petool_image_share(&image, &works[i].image) == PETOOL_OK);
        CHECK(petool_space_share(&mapped, &works[i].mapped) == PETOOL_OK);
        CHECK(petool_space_share(&opened, &works[i].opened) == PETOOL_OK);
    }
    /* the threads' structs keep the image, and closing the last of them frees it */
    petool_image_close(&image);
    for (i = 0; i < 8; i++)
        CHECK(pthread_create(&threads[i], NULL, run, &works[i]) == 0);
    for (i = 0; i < 8; i++) {
        CHECK(pthread_join(threads[i], NULL) == 0);
        CHECK(works[i].wrong == 0);
    }
    /* the last struct moves an image again */
    CHECK(petool_space_move(&mapped, 1, 0x30000000, &moved, &fault) == PETOOL_OK && moved.slots == 1);
    CHECK(petool_space_move(&opened, 1, 0x30000000, &moved, &fault) == PETOOL_OK && moved.slots == 1);
    petool_space_close(&mapped);
    petool_space_close(&opened);
    free(va.at);
    free(vb.at);
    free(vc.at);
    return told();
}
