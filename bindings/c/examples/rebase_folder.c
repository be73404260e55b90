/* Gives the DLLs of a folder bases that do not overlap, writing to another folder: rebase_folder [--base HEX] FOLDER OUT */
#define _POSIX_C_SOURCE 200809L
#include "files.h"

#include <dirent.h>
#include <strings.h>
#include <sys/stat.h>

/* bases are multiples of this */
#define UNIT 0x10000

static const char usage[] =
    "usage: rebase_folder [--base HEX] FOLDER OUT\n\n"
    "Gives the DLLs of a folder bases that do not overlap, in the order of their names, and writes them to another folder.\n"
    "A DLL that is refused is reported, and left out.\n\n"
    "  --base HEX  the first base, in hexadecimal; by default 10000000\n";

static int is_dll(const struct dirent *entry)
{
    size_t len = strlen(entry->d_name);
    return len >= 4 && strcasecmp(entry->d_name + len - 4, ".dll") == 0;
}

/* In the order of their bytes, whatever the locale is. */
static int by_name(const struct dirent **one, const struct dirent **other)
{
    return strcmp((*one)->d_name, (*other)->d_name);
}

/* Writes a file: whether it could. A failure is reported on standard error. */
static bool write_file(const char *path, const uint8_t *bytes, size_t len)
{
    FILE *file = fopen(path, "wb");
    bool is_written = file != NULL && fwrite(bytes, 1, len, file) == len;
    if (file != NULL && fclose(file) != 0)
        is_written = false;
    if (!is_written)
        perror(path);
    return is_written;
}

/* Reports an image that is refused, which is not a failure of this program. */
static void tell_fault(const char *name, const petool_fault *fault)
{
    char line[200];
    petool_fault_line(fault, line, sizeof line);
    printf("%s: fault %u: %s\n", name, (unsigned)fault->number, line);
}

/* The next base after an image at a base; past the end of the address space the last address, at which no image can be. */
static uint64_t behind(petool_text file, uint64_t base)
{
    petool_headers headers;
    petool_section none[1];
    petool_fault fault = {0, 0, 0, 0};
    uint64_t size;
    if (petool_read_headers(file.at, file.len, &headers, none, 0, &fault) != PETOOL_OK)
        return base;
    size = (headers.size_of_image + (uint64_t)UNIT - 1) / UNIT * UNIT;
    return size > UINT64_MAX - base ? UINT64_MAX : base + size;
}

/* Writes the file of an image for a base, and sets the base to the next one; returns the exit status. */
static int rebase(petool_text file, const char *name, const char *out, uint64_t *base)
{
    petool_fault fault = {0, 0, 0, 0};
    uint8_t *moved = (uint8_t *)malloc(file.len + 1);
    uint32_t status = PETOOL_MEMORY;
    int answer = 0;
    if (moved != NULL)
        status = petool_rebase(file.at, file.len, *base, moved, file.len, &fault);
    if (status == PETOOL_FAULT)
        tell_fault(name, &fault);
    else if (status != PETOOL_OK)
        answer = refused(name, status, &fault);
    else if (!write_file(out, moved, file.len))
        answer = DEVICE_FAILED;
    else {
        printf("%s: 0x%" PRIx64 "\n", name, *base);
        *base = behind(file, *base);
    }
    free(moved);
    return answer;
}

/* Reads an image of a folder, and writes it to the other one; returns the exit status. */
static int rebase_named(const char *folder, const char *out_folder, const char *name, uint64_t *base)
{
    petool_text file = PETOOL_NONE;
    char *path = path_in(folder, name), *out = path_in(out_folder, name);
    int status;
    if (path == NULL || out == NULL)
        status = refused(name, PETOOL_MEMORY, NULL);
    else
        status = read_file(path, &file) ? rebase(file, name, out, base) : DEVICE_FAILED;
    free_bytes(file);
    free(path);
    free(out);
    return status;
}

/* Goes through a folder, up to the first file that cannot be read or written; returns the exit status. */
static int rebase_folder(const char *folder, const char *out_folder, uint64_t base)
{
    struct dirent **found = NULL;
    int count = scandir(folder, &found, is_dll, by_name), status = 0, i;
    if (count < 0) {
        perror(folder);
        return DEVICE_FAILED;
    }
    if (mkdir(out_folder, 0777) != 0 && errno != EEXIST) {
        perror(out_folder);
        status = DEVICE_FAILED;
    }
    for (i = 0; i < count; i++) {
        if (status == 0)
            status = rebase_named(folder, out_folder, found[i]->d_name, &base);
        free(found[i]);
    }
    free(found);
    return status;
}

int main(int argc, char **argv)
{
    bool helps = asks_for_help(argc, argv);
    uint64_t base = 0x10000000;
    bool has_base = argc > 1 && strcmp(argv[1], "--base") == 0;
    int first = has_base ? 3 : 1, status;
    const char *rest = has_base && argc > 2 ? read_address(argv[2], &base) : "";
    if (helps || argc != first + 2 || rest == NULL || *rest != 0)
        return tell_usage(usage, helps);
    status = rebase_folder(argv[first], argv[first + 1], base);
    return is_printed() ? status : DEVICE_FAILED;
}
