/* Lists what a DLL exports by name: exports FILE */
#include "files.h"

static const char usage[] = "usage: exports FILE\n\nLists what a DLL exports by name, and where each name leads.\n";

static void print_target(petool_target target)
{
    if (target.kind == PETOOL_TARGET_RVA) {
        printf("0x%08" PRIx32 "\n", target.rva);
        return;
    }
    print_text(target.module);
    if (target.kind == PETOOL_TARGET_ORDINAL) {
        printf(" #%" PRIu64 "\n", target.ordinal);
        return;
    }
    putchar(' ');
    print_text(target.name);
    putchar('\n');
}

static void print_rows(const petool_export *rows, size_t count)
{
    size_t i;
    for (i = 0; i < count; i++) {
        print_text(rows[i].name);
        putchar(' ');
        print_target(rows[i].target);
    }
}

/* Lists the exports of a file's bytes; returns the exit status. */
static int list(const char *path, petool_text file)
{
    petool_fault fault = {0, 0, 0, 0};
    petool_export *rows;
    size_t count = 0;
    /* without rows the call only counts them */
    uint32_t status = petool_export_names(file.at, file.len, NULL, 0, &count, &fault);
    if (status != PETOOL_OK && status != PETOOL_SMALL)
        return refused(path, status, &fault);
    rows = (petool_export *)malloc((count + 1) * sizeof *rows);
    if (rows == NULL)
        return refused(path, PETOOL_MEMORY, &fault);
    petool_exports_init(rows, count);
    status = petool_export_names(file.at, file.len, rows, count, &count, &fault);
    if (status == PETOOL_OK)
        print_rows(rows, count);
    free(rows);
    return status == PETOOL_OK ? 0 : refused(path, status, &fault);
}

int main(int argc, char **argv)
{
    bool helps = asks_for_help(argc, argv);
    petool_text file = PETOOL_NONE;
    int status;
    if (helps || argc != 2)
        return tell_usage(usage, helps);
    if (!read_file(argv[1], &file))
        return DEVICE_FAILED;
    status = list(argv[1], file);
    free_bytes(file);
    return is_printed() ? status : DEVICE_FAILED;
}
