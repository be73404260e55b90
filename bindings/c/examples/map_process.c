/*
 * Maps images at bases, and writes the bytes of their address space to a file: map_process [--known] OUT BASE=FILE...
 *
 * The file begins at the lowest base. Nothing is written between the images, which leaves holes that read as zeros.
 */
#define _POSIX_C_SOURCE 200809L
#include "files.h"

#include <sys/types.h>

static const char usage[] =
    "usage: map_process [--known] OUT BASE=FILE...\n\n"
    "Maps images at bases, which are hexadecimal, and writes the bytes of their address space to a file, from the lowest\n"
    "base to the highest end.\n\n"
    "  --known  leave slots of modules that are not among the files\n";

/* Reads an entry from a word BASE=FILE; returns the exit status. */
static int read_word(const char *word, petool_entry *entry)
{
    uint64_t base = 0;
    const char *rest = read_address(word, &base);
    if (rest == NULL || *rest != '=') {
        fprintf(stderr, "map_process: %s is not BASE=FILE\n", word);
        return BAD_WORDS;
    }
    return read_entry(rest + 1, base, entry) ? 0 : DEVICE_FAILED;
}

static uint64_t lowest_base(const petool_entry *set, size_t images)
{
    uint64_t lowest = UINT64_MAX;
    size_t i;
    for (i = 0; i < images; i++)
        if (set[i].base < lowest)
            lowest = set[i].base;
    return lowest;
}

/* Reports that a file cannot be written, with the reason from errno; returns the exit status. */
static int unwritten(const char *path)
{
    perror(path);
    return DEVICE_FAILED;
}

/* Writes the bytes of a space from an address on, which all lie in one image; returns the exit status. */
static int write_bytes(petool_space *space, uint64_t address, uint32_t size, const char *path, FILE *out)
{
    static uint8_t part[0x10000];
    petool_fault fault = {0, 0, 0, 0};
    while (size > 0) {
        uint32_t count = size < sizeof part ? size : (uint32_t)sizeof part;
        uint32_t status = petool_space_read(space, address, part, count, &fault);
        if (status != PETOOL_OK)
            return refused("the space", status, &fault);
        if (fwrite(part, 1, count, out) != count)
            return unwritten(path);
        address += count;
        size -= count;
    }
    return 0;
}

/* Writes each image at its place in an open file, with a line for each; returns the exit status. */
static int write_images(petool_space *space, const petool_entry *set, size_t images, const char *path, FILE *out)
{
    uint64_t lowest = lowest_base(set, images);
    size_t i;
    for (i = 0; i < images; i++) {
        uint64_t base = 0, offset = set[i].base - lowest;
        uint32_t size = 0;
        int status;
        if (petool_space_image(space, (uint16_t)i, &base, &size) != PETOOL_OK)
            continue;
        if (fseeko(out, (off_t)offset, SEEK_SET) != 0)
            return unwritten(path);
        status = write_bytes(space, base, size, path, out);
        if (status != 0)
            return status;
        print_text(set[i].name);
        printf(": 0x%" PRIx64 ", 0x%" PRIx32 " bytes, at 0x%" PRIx64 " of %s\n", base, size, offset, path);
    }
    return 0;
}

/* Writes a space to a file; returns the exit status. */
static int write_space(petool_space *space, const petool_entry *set, size_t images, const char *path)
{
    petool_binding none = {0, 0, 0, 0};
    size_t bound = 0;
    FILE *out = fopen(path, "wb");
    int status;
    if (out == NULL)
        return unwritten(path);
    status = write_images(space, set, images, path, out);
    if (fclose(out) != 0 && status == 0)
        status = unwritten(path);
    if (status != 0)
        return status;
    if (petool_space_bindings(space, &none, 0, &bound) != PETOOL_CLOSED)
        printf("%zu slots are bound\n", bound);
    return 0;
}

static int map_set(const petool_entry *set, size_t images, bool known, const char *path)
{
    petool_space space = PETOOL_SPACE_CLOSED;
    petool_fault fault = {0, 0, 0, 0};
    uint32_t cycle = 0, status = petool_space_map(&space, set, images, known, &cycle, &fault);
    int answer = status == PETOOL_OK ? write_space(&space, set, images, path) : set_refused(set, images, status, &fault);
    petool_space_close(&space);
    return answer;
}

/* Reads a set from words BASE=FILE, and maps it; returns the exit status. */
static int map_words(char **words, size_t count, bool known, const char *path)
{
    petool_entry *set = (petool_entry *)malloc(count * sizeof *set);
    size_t are_read = 0;
    int status = 0;
    if (set == NULL)
        return refused("map_process", PETOOL_MEMORY, NULL);
    while (are_read < count && (status = read_word(words[are_read], &set[are_read])) == 0)
        are_read++;
    if (status == 0)
        status = map_set(set, count, known, path);
    free_entries(set, are_read);
    free(set);
    return status;
}

int main(int argc, char **argv)
{
    bool helps = asks_for_help(argc, argv);
    bool known = argc > 1 && strcmp(argv[1], "--known") == 0;
    int first = known ? 2 : 1, status;
    if (helps || argc < first + 2)
        return tell_usage(usage, helps);
    status = map_words(argv + first + 1, (size_t)(argc - first - 1), known, argv[first]);
    return is_printed() ? status : DEVICE_FAILED;
}
