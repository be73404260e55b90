/* Measures calls of libpetool on an image: calls IMAGE prints, a line each, what is measured and the shortest of 300 runs in
 * microseconds. Look-ups are an average over all rows. */
#define _POSIX_C_SOURCE 199309L

#include <petool.h>
#include <stdio.h>
#include <stdlib.h>
#include <time.h>

enum { RUNS = 300 };

static petool_image image = PETOOL_IMAGE_CLOSED;
static petool_fault fault;
static unsigned char *file;
static size_t len;
static petool_export *names;
static petool_import *imports;
static size_t name_count, import_count;

static double now(void)
{
    struct timespec at;
    clock_gettime(CLOCK_MONOTONIC, &at);
    return (double)at.tv_sec * 1e6 + (double)at.tv_nsec / 1e3;
}

static void need(int is_so, const char *what)
{
    if (!is_so) {
        fprintf(stderr, "%s\n", what);
        exit(1);
    }
}

static void check(void)
{
    need(petool_check(file, len, &fault) == PETOOL_OK, "refused");
}

static void open_and_close(void)
{
    need(petool_image_open(&image, file, len, &fault) == PETOOL_OK, "refused");
    petool_image_close(&image);
}

static void by_name(void)
{
    petool_target target;
    petool_target_init(&target);
    for (size_t i = 0; i < name_count; i++)
        need(petool_image_export_by_name(&image, names[i].name.at, names[i].name.len, &target) == PETOOL_OK, "a name is missing");
}

static void by_ordinal(void)
{
    petool_target target;
    petool_target_init(&target);
    for (size_t i = 0; i < name_count; i++)
        need(petool_image_export_by_ordinal(&image, names[i].ordinal, &target) == PETOOL_OK, "an ordinal is missing");
}

static void by_slot(void)
{
    petool_import found;
    petool_imports_init(&found, 1);
    for (size_t i = 0; i < import_count; i++)
        need(petool_image_import_at(&image, imports[i].slot, &found) == PETOOL_OK, "a slot is missing");
}

static void measure(const char *what, void (*run)(void), size_t count)
{
    double least = 1e30;
    for (int i = 0; i < RUNS; i++) {
        double start = now();
        run();
        double taken = now() - start;
        if (taken < least)
            least = taken;
    }
    if (count)
        printf("%s\t%.4f\n", what, least / (double)count);
}

static void read_file(const char *path)
{
    FILE *in = fopen(path, "rb");
    need(in && fseek(in, 0, SEEK_END) == 0, path);
    len = (size_t)ftell(in);
    rewind(in);
    file = malloc(len);
    need(file && fread(file, 1, len, in) == len, path);
    fclose(in);
}

static void read_rows(void)
{
    (void)!petool_image_export_names(&image, NULL, 0, &name_count);
    (void)!petool_image_imports(&image, NULL, 0, &import_count);
    names = calloc(name_count + 1, sizeof *names);
    imports = calloc(import_count + 1, sizeof *imports);
    need(names && imports, "memory");
    petool_exports_init(names, name_count);
    petool_imports_init(imports, import_count);
    need(petool_image_export_names(&image, names, name_count, &name_count) == PETOOL_OK, "names");
    need(petool_image_imports(&image, imports, import_count, &import_count) == PETOOL_OK, "imports");
}

int main(int argc, char **argv)
{
    need(argc == 2, "calls IMAGE");
    read_file(argv[1]);
    measure("petool_check", check, 1);
    measure("petool_image_open and petool_image_close", open_and_close, 1);
    need(petool_image_open(&image, file, len, &fault) == PETOOL_OK, "refused");
    read_rows();
    measure("petool_image_export_by_name, for each name in turn", by_name, name_count);
    measure("petool_image_export_by_ordinal, for each ordinal of a name", by_ordinal, name_count);
    measure("petool_image_import_at, for each slot", by_slot, import_count);
    petool_image_close(&image);
    return 0;
}
