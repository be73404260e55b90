/*
 * Who exports what a program imports: imports_closure [--delayed] PROGRAM FOLDER
 *
 * Follows the imports of a program, and those of each DLL of a folder to which they lead, through all forwarders; with --delayed also
 * those that are delay-loaded.
 */
#define _POSIX_C_SOURCE 200809L
#include "files.h"

#include <ctype.h>
#include <dirent.h>
#include <strings.h>
#include <sys/stat.h>

/* a search that follows more forwarders is given up */
#define MOST_FORWARDERS 32

static const char usage[] =
    "usage: imports_closure [--delayed] PROGRAM FOLDER\n\n"
    "Shows who exports what a program imports: follows its imports, and those of each DLL of a folder that they lead to;\n"
    "with --delayed also those that are delay-loaded.\n"
    "A DLL that is refused is reported on standard error, and counts as missing.\n";

/* An image: the program, or a file of the folder, which is read when it is first needed. Its file is kept while it is open. */
typedef struct module {
    char *path;
    petool_text file;
    petool_image image;
    petool_import *imports;
    size_t import_count; /* with those that are delay-loaded, if they are followed */
    bool is_asked, is_met;
} module;

typedef struct folder {
    module *modules;
    size_t count;
    int status;      /* the worst exit status so far */
    bool is_delayed; /* whether delay-loaded imports are followed */
} folder;

/* What is searched for: a name or an ordinal of a module. */
typedef struct search {
    petool_text module, name;
    uint64_t ordinal;
    bool by_ordinal;
} search;

/* ---- images ---- */

/* Reads the delay-loaded imports of an open image into rows, if they are to be read, and counts them. */
static uint32_t read_delayed(const module *module, bool is_delayed, petool_import *rows, size_t room, size_t *count)
{
    petool_fault fault;
    *count = 0;
    return is_delayed ? petool_delay_imports(module->file.at, module->file.len, rows, room, count, &fault) : (uint32_t)PETOOL_OK;
}

/* Makes rows for the imports of an open image, and fills them. */
static uint32_t read_imports(module *module, bool is_delayed)
{
    size_t count = 0, delayed = 0;
    /* without rows a call only counts */
    uint32_t status = petool_image_imports(&module->image, NULL, 0, &count);
    if (status == PETOOL_OK || status == PETOOL_SMALL)
        status = read_delayed(module, is_delayed, NULL, 0, &delayed);
    if (status != PETOOL_OK && status != PETOOL_SMALL)
        return status;
    module->import_count = count + delayed;
    module->imports = (petool_import *)malloc((module->import_count + 1) * sizeof *module->imports);
    if (module->imports == NULL)
        return PETOOL_MEMORY;
    petool_imports_init(module->imports, module->import_count);
    status = petool_image_imports(&module->image, module->imports, count, &count);
    return status == PETOOL_OK ? read_delayed(module, is_delayed, module->imports + count, delayed, &delayed) : status;
}

/* Reads and opens an image, unless that was tried before; returns the exit status. */
static int open_module(module *module, bool is_delayed)
{
    petool_fault fault = {0, 0, 0, 0};
    uint32_t status;
    if (module->is_asked)
        return 0;
    module->is_asked = true;
    if (!read_file(module->path, &module->file))
        return DEVICE_FAILED;
    status = petool_image_open(&module->image, module->file.at, module->file.len, &fault);
    if (status == PETOOL_OK)
        status = read_imports(module, is_delayed);
    if (status == PETOOL_OK)
        return 0;
    petool_image_close(&module->image);
    return refused(module->path, status, &fault);
}

static void set_module(module *module, char *path)
{
    petool_text none = PETOOL_NONE;
    petool_image closed = PETOOL_IMAGE_CLOSED;
    memset(module, 0, sizeof *module);
    module->path = path;
    module->file = none;
    module->image = closed;
}

static void free_module(module *module)
{
    petool_image_close(&module->image);
    free(module->imports);
    free_bytes(module->file);
    free(module->path);
}

/* ---- the folder ---- */

static bool is_file(const char *path)
{
    struct stat found;
    return stat(path, &found) == 0 && S_ISREG(found.st_mode);
}

/* Adds the entry of a folder to its files, if it is a file; there are enough rows. False if out of memory. */
static bool add_module(folder *files, const char *folder_path, const char *name)
{
    char *path = path_in(folder_path, name);
    if (path == NULL)
        return false;
    if (is_file(path))
        set_module(&files->modules[files->count++], path);
    else
        free(path);
    return true;
}

/* Lists the files of a folder, in the order of their names; returns the exit status. */
static int list_folder(folder *files, const char *path)
{
    struct dirent **found = NULL;
    int count = scandir(path, &found, NULL, alphasort), i;
    bool has_memory;
    if (count < 0) {
        perror(path);
        return DEVICE_FAILED;
    }
    files->modules = (module *)malloc(((size_t)count + 1) * sizeof *files->modules);
    has_memory = files->modules != NULL;
    for (i = 0; i < count; i++) {
        has_memory = has_memory && add_module(files, path, found[i]->d_name);
        free(found[i]);
    }
    free(found);
    return has_memory ? 0 : refused(path, PETOOL_MEMORY, NULL);
}

static void free_folder(folder *files)
{
    size_t i;
    for (i = 0; i < files->count; i++)
        free_module(&files->modules[i]);
    free(files->modules);
}

/* Whether a module's name has no extension: then it is that of a DLL. */
static bool lacks_extension(petool_text name)
{
    return memchr(name.at, '.', name.len) == NULL;
}

static bool is_named(const module *image, petool_text name)
{
    const char *file_name = name_in(image->path);
    size_t len = strlen(file_name);
    if (len != name.len + (lacks_extension(name) ? 4 : 0))
        return false;
    return strncasecmp(file_name, (const char *)name.at, name.len) == 0
        && (len == name.len || strcasecmp(file_name + name.len, ".dll") == 0);
}

/* The image of a module; NULL if the folder has none. */
static module *image_of(folder *files, petool_text name)
{
    size_t i;
    for (i = 0; i < files->count; i++) {
        if (is_named(&files->modules[i], name)) {
            int status = open_module(&files->modules[i], files->is_delayed);
            if (status > files->status)
                files->status = status;
            return files->modules[i].image.is_open ? &files->modules[i] : NULL;
        }
    }
    return NULL;
}

/* ---- searches ---- */

static void print_lower(petool_text name)
{
    size_t i;
    for (i = 0; i < name.len; i++)
        putchar(tolower(name.at[i]));
}

/* Prints the name of a module in lower case, with an extension. */
static void print_module(petool_text name)
{
    print_lower(name);
    if (lacks_extension(name))
        printf(".dll");
}

static void print_import(const char *importer, const search *wanted)
{
    printf("%s: ", importer);
    print_text(wanted->module);
    if (wanted->by_ordinal) {
        printf(" #%" PRIu64, wanted->ordinal);
    } else {
        putchar(' ');
        print_text(wanted->name);
    }
}

/* What an image exports under the searched name or ordinal: whether there is such an export. */
static bool find_export(module *module, const search *wanted, petool_target *target)
{
    if (wanted->by_ordinal)
        return petool_image_export_by_ordinal(&module->image, wanted->ordinal, target) == PETOOL_OK;
    return petool_image_export_by_name(&module->image, wanted->name.at, wanted->name.len, target) == PETOOL_OK;
}

static void print_end(petool_text name, const char *found)
{
    printf(" -> ");
    print_module(name);
    printf(" %s\n", found);
}

/* Prints where a search ends, and what it finds there; returns the image there, or NULL. */
static module *search_exporter(folder *files, search wanted)
{
    petool_target target;
    char rva[16];
    int forwarders;
    petool_target_init(&target);
    for (forwarders = 0; forwarders < MOST_FORWARDERS; forwarders++) {
        module *image = image_of(files, wanted.module);
        if (image == NULL || !find_export(image, &wanted, &target)) {
            print_end(wanted.module, image == NULL ? "no such file" : "no such export");
            return image;
        }
        if (target.kind == PETOOL_TARGET_RVA) {
            snprintf(rva, sizeof rva, "0x%" PRIx32, target.rva);
            print_end(wanted.module, rva);
            return image;
        }
        wanted.module = target.module;
        wanted.name = target.name;
        wanted.ordinal = target.ordinal;
        wanted.by_ordinal = target.kind == PETOOL_TARGET_ORDINAL;
    }
    print_end(wanted.module, "too many forwarders");
    return image_of(files, wanted.module);
}

/* Prints a line for each import of an image, and adds the images found for the first time to those that wait. */
static size_t follow(folder *files, const module *image, module **waiting, size_t count)
{
    size_t i;
    for (i = 0; i < image->import_count; i++) {
        const petool_import *row = &image->imports[i];
        search wanted = {row->module, row->name, row->ordinal, row->by_ordinal};
        module *exporter;
        print_import(name_in(image->path), &wanted);
        exporter = search_exporter(files, wanted);
        if (exporter != NULL && !exporter->is_met) {
            exporter->is_met = true;
            waiting[count++] = exporter;
        }
    }
    return count;
}

/* Follows the imports of a program; returns the exit status. */
static int close_over(folder *files, const module *program)
{
    /* each image of the folder waits at most once */
    module **waiting = (module **)malloc((files->count + 1) * sizeof *waiting);
    size_t count;
    if (waiting == NULL)
        return refused("imports_closure", PETOOL_MEMORY, NULL);
    count = follow(files, program, waiting, 0);
    while (count > 0) {
        const module *next = waiting[--count];
        count = follow(files, next, waiting, count);
    }
    free(waiting);
    return files->status;
}

static int run(bool is_delayed, const char *program_path, const char *folder_path)
{
    folder files = {NULL, 0, 0, is_delayed};
    module program;
    int status;
    set_module(&program, (char *)malloc(strlen(program_path) + 1));
    if (program.path == NULL)
        return refused("imports_closure", PETOOL_MEMORY, NULL);
    strcpy(program.path, program_path);
    status = open_module(&program, is_delayed);
    if (status == 0)
        status = list_folder(&files, folder_path);
    if (status == 0)
        status = close_over(&files, &program);
    free_folder(&files);
    free_module(&program);
    return status;
}

int main(int argc, char **argv)
{
    bool helps = asks_for_help(argc, argv);
    bool is_delayed = argc == 4 && strcmp(argv[1], "--delayed") == 0;
    int status;
    if (helps || argc != (is_delayed ? 4 : 3))
        return tell_usage(usage, helps);
    status = run(is_delayed, argv[argc - 2], argv[argc - 1]);
    return is_printed() ? status : DEVICE_FAILED;
}
