/*
 * Files that were cut and changed: every prefix of each small file, and each of its bytes with another value. Every call returns,
 * reads no byte outside the file (each prefix is allocated in its exact size), and agrees with the others about the file.
 */
#include "big.h"

#define ROWS 8

static unsigned long files, faults[100], big_objects;

/* Whether a call on a file may return this status, and if it is PETOOL_FAULT this fault: its number is at most `last`. */
static int is_answer(uint32_t status, const petool_fault *fault, unsigned last)
{
    if (status == PETOOL_FAULT)
        return fault->number >= 1 && fault->number <= last;
    return status == PETOOL_OK || status == PETOOL_ABSENT || status == PETOOL_SMALL;
}

/* Whether a call returns the fault of petool_check, if that is one of 1 to `last`, and else none. */
static int agrees_to(unsigned last, uint32_t status, const petool_fault *fault, uint32_t judged, const petool_fault *first)
{
    if (judged == PETOOL_FAULT && first->number <= last)
        return status == PETOOL_FAULT && memcmp(fault, first, sizeof *first) == 0;
    return status != PETOOL_FAULT;
}

/* That of a call that reads headers and sections. */
static int agrees(uint32_t status, const petool_fault *fault, uint32_t judged, const petool_fault *first)
{
    return agrees_to(15, status, fault, judged, first);
}

static void ask_headers(const uint8_t *file, size_t len, uint32_t judged, const petool_fault *first)
{
    static petool_headers headers;
    static petool_section sections[ROWS];
    petool_fault fault = {0, 0, 0, 0};
    petool_text text = PETOOL_NONE;
    uint8_t bytes[16];
    uint64_t offset = 0;
    uint32_t status = petool_read_headers(file, len, &headers, sections, ROWS, &fault);
    int right = is_answer(status, &fault, 15) && agrees(status, &fault, judged, first);
    status = petool_read(file, len, 0x1000, bytes, sizeof bytes, &fault);
    right = right && is_answer(status, &fault, 15) && agrees(status, &fault, judged, first);
    status = petool_read_text(file, len, 0x1000, &text, &fault);
    right = right && is_answer(status, &fault, 15) && agrees(status, &fault, judged, first);
    status = petool_locate(file, len, 0x1000, &offset, &fault);
    right = right && is_answer(status, &fault, 15) && agrees(status, &fault, judged, first);
    CHECK(right && offset <= len);
}

static void ask_tables(const uint8_t *file, size_t len, uint32_t judged, const petool_fault *first)
{
    static petool_export exports[ROWS], names[ROWS];
    static petool_import imports[ROWS];
    static petool_fixup fixups[ROWS];
    petool_counts counts = {0, 0, 0, 0};
    petool_fault fault = {0, 0, 0, 0};
    petool_target target;
    uint32_t status;
    int right;
    petool_target_init(&target);
    petool_exports_init(exports, ROWS);
    petool_exports_init(names, ROWS);
    petool_imports_init(imports, ROWS);
    status = petool_tables(file, len, exports, ROWS, names, ROWS, imports, ROWS, fixups, ROWS, &counts, &fault);
    /* petool_tables and petool_check return the same fault */
    right = is_answer(status, &fault, 38) && (status == PETOOL_FAULT) == (judged == PETOOL_FAULT)
        && (status != PETOOL_FAULT || memcmp(&fault, first, sizeof fault) == 0);
    status = petool_export_by_name(file, len, (const uint8_t *)"f", 1, &target, &fault);
    right = right && is_answer(status, &fault, 22);
    status = petool_export_by_ordinal(file, len, 1, &target, &fault);
    right = right && is_answer(status, &fault, 22);
    status = petool_imports(file, len, imports, ROWS, &counts.imports, &fault);
    right = right && is_answer(status, &fault, 32);
    status = petool_fixups(file, len, fixups, ROWS, &counts.fixups, &fault);
    right = right && is_answer(status, &fault, 38);
    CHECK(right);
}

static void ask_beyond(const uint8_t *file, size_t len, uint32_t judged, const petool_fault *first)
{
    petool_debug_entry entries[ROWS];
    petool_function functions[ROWS];
    petool_callback callbacks[ROWS];
    petool_field fields[ROWS];
    petool_bound_import imports[ROWS];
    petool_tls_directory tls;
    petool_pdb_file pdb;
    petool_resource resources[ROWS];
    petool_version_text texts[ROWS];
    petool_import delayed[ROWS];
    petool_object_symbol symbols[ROWS];
    petool_version_info version;
    petool_text text = PETOOL_NONE;
    petool_fault found[ROWS], fault = {0, 0, 0, 0};
    size_t count = 0;
    int right;
    petool_pdb_init(&pdb);
    petool_resources_init(resources, ROWS);
    petool_version_texts_init(texts, ROWS);
    petool_imports_init(delayed, ROWS);
    petool_object_symbols_init(symbols, ROWS);
    right = agrees(petool_debug(file, len, entries, ROWS, &count, &fault), &fault, judged, first);
    right = right && agrees(petool_functions(file, len, functions, ROWS, &count, &fault), &fault, judged, first);
    right = right && agrees(petool_tls_callbacks(file, len, callbacks, ROWS, &count, &fault), &fault, judged, first);
    right = right && agrees(petool_load_configuration(file, len, fields, ROWS, &count, &fault), &fault, judged, first);
    right = right && agrees(petool_clr(file, len, fields, ROWS, &count, &fault), &fault, judged, first);
    right = right && agrees(petool_bound_imports(file, len, imports, ROWS, &count, &fault), &fault, judged, first);
    right = right && agrees(petool_delay_imports(file, len, delayed, ROWS, &count, &fault), &fault, judged, first);
    right = right && agrees_to(12, petool_image_symbols(file, len, symbols, ROWS, &count, &fault), &fault, judged, first)
        && count <= len / 18;
    right = right && agrees(petool_findings(file, len, found, ROWS, &count, &fault), &fault, judged, first);
    right = right && agrees(petool_tls(file, len, &tls, &fault), &fault, judged, first);
    right = right && agrees(petool_pdb(file, len, &pdb, &fault), &fault, judged, first);
    right = right && agrees(petool_resources(file, len, resources, ROWS, &count, &fault), &fault, judged, first) && count <= len / 8;
    right = right && agrees(petool_version(file, len, &version, &fault), &fault, judged, first);
    right = right && agrees(petool_version_strings(file, len, texts, ROWS, &count, &fault), &fault, judged, first) && count <= len / 6;
    right = right && agrees(petool_version_string(file, len, (const uint8_t *)"k", 1, &text, &fault), &fault, judged, first);
    right = right && agrees(petool_manifest(file, len, &text, &fault), &fault, judged, first);
    CHECK(right);
}

/* That of a call that reads the headers alone. */
static int agrees_of_headers(uint32_t status, const petool_fault *fault, uint32_t judged, const petool_fault *first)
{
    return agrees_to(12, status, fault, judged, first);
}

/* What a file says of itself, also of a file that is refused behind its headers. */
static void ask_trust(const uint8_t *file, size_t len, uint32_t judged, const petool_fault *first)
{
    petool_check_sums sum;
    petool_certificate certificates[ROWS];
    petool_signature signatures[ROWS];
    petool_signer signers[ROWS];
    petool_digest digest;
    petool_rich_header rich;
    petool_rich_pair pairs[ROWS];
    petool_overlay_range overlay = {0, 0, 0};
    petool_fault found[5], fault = {0, 0, 0, 0};
    size_t count = 0, signer_count = 0;
    uint32_t status;
    int right;
    petool_certificates_init(certificates, ROWS);
    petool_signatures_init(signatures, ROWS);
    petool_signers_init(signers, ROWS);
    status = petool_check_sum(file, len, &sum, &fault);
    right = agrees_of_headers(status, &fault, judged, first);
    status = petool_certificates(file, len, certificates, ROWS, &count, &fault);
    right = right && agrees_of_headers(status, &fault, judged, first) && count <= len / 8;
    status = petool_authenticode(file, len, signatures, ROWS, &count, &fault);
    right = right && agrees_of_headers(status, &fault, judged, first);
    status = petool_signers(signatures[0].bytes.at, signatures[0].bytes.len, signers, ROWS, &signer_count);
    right = right && (status == PETOOL_OK || status == PETOOL_SMALL);
    status = petool_signers(file, len, signers, ROWS, &signer_count);
    right = right && (status == PETOOL_OK || status == PETOOL_SMALL);
    status = petool_authenticode_digest(file, len, PETOOL_DIGEST_SHA256, &digest, &fault);
    right = right && agrees_of_headers(status, &fault, judged, first);
    status = petool_rich(file, len, &rich, &fault);
    right = right && agrees_of_headers(status, &fault, judged, first);
    status = petool_rich_pairs(file, len, pairs, ROWS, &count, &fault);
    right = right && agrees_of_headers(status, &fault, judged, first);
    status = petool_overlay(file, len, &overlay, &fault);
    right = right && agrees_of_headers(status, &fault, judged, first) && overlay.size <= len;
    right = right && (overlay.size != 0) == (overlay.kind != PETOOL_OVERLAY_NONE);
    status = petool_trust_findings(file, len, found, 5, &count, &fault);
    right = right && agrees_of_headers(status, &fault, judged, first) && status != PETOOL_SMALL;
    status = petool_import_hash(file, len, &digest, &fault);
    right = right && (judged != PETOOL_OK || status == PETOOL_OK || status == PETOOL_ABSENT);
    right = right && (status != PETOOL_FAULT || fault.number <= 15 || (fault.number >= 24 && fault.number <= 32));
    CHECK(right);
}

/* An image is open if and only if the file has no fault, and its look-ups return what the calls over the file do. */
static void ask_opened(const uint8_t *file, size_t len, uint32_t judged, const petool_fault *first)
{
    petool_image image = PETOOL_IMAGE_CLOSED;
    petool_fault fault = {0, 0, 0, 0};
    petool_target target, same_target;
    uint8_t bytes[16];
    uint32_t status = petool_image_open(&image, file, len, &fault);
    int right = status == judged && memcmp(&fault, first, sizeof fault) == 0 && image.is_open == (status == PETOOL_OK);
    petool_target_init(&target);
    petool_target_init(&same_target);
    if (image.is_open) {
        status = petool_export_by_name(file, len, (const uint8_t *)"f", 1, &target, &fault);
        right = right && petool_image_export_by_name(&image, (const uint8_t *)"f", 1, &same_target) == status;
        right = right && target.kind == same_target.kind && target.rva == same_target.rva && target.ordinal == same_target.ordinal;
        status = petool_export_by_ordinal(file, len, 1, &target, &fault);
        right = right && petool_image_export_by_ordinal(&image, 1, &same_target) == status;
        right = right && target.kind == same_target.kind && target.rva == same_target.rva && target.ordinal == same_target.ordinal;
        right = right && petool_image_read(&image, 0, bytes, sizeof bytes) == PETOOL_OK && memcmp(bytes, file, sizeof bytes) == 0;
    } else {
        right = right && petool_image_export_by_ordinal(&image, 1, &target) == PETOOL_CLOSED;
    }
    petool_image_close(&image);
    CHECK(right);
}

static void ask_spaces(const uint8_t *file, size_t len)
{
    petool_space space = PETOOL_SPACE_CLOSED, opened = PETOOL_SPACE_CLOSED;
    petool_fault first = {0, 0, 0, 0};
    petool_fault fault = {0, 0, 0, 0};
    petool_entry set[1];
    petool_moved moved;
    uint8_t bytes[16];
    uint32_t cycle = 0;
    uint32_t status;
    set[0].name = petool_text_of("a.dll");
    set[0].file.at = file;
    set[0].file.len = len;
    set[0].base = 0x20000000;
    status = petool_space_map(&space, set, 1, true, &cycle, &fault);
    CHECK(is_answer(status, &fault, 50) && space.is_open == (status == PETOOL_OK));
    CHECK(petool_space_open(&opened, set, 1, true, &cycle, &first) == status && opened.is_open == space.is_open);
    CHECK(memcmp(&fault, &first, sizeof fault) == 0);
    if (space.is_open) {
        CHECK(petool_space_read(&space, 0x20000000, bytes, 16, &fault) == PETOOL_OK || fault.number == 54);
        status = petool_space_move(&space, 0, 0x60000000, &moved, &fault);
        CHECK(is_answer(status, &fault, 55));
    }
    petool_space_close(&space);
    petool_space_close(&opened);
}

/* The calls of objects of either form agree on the first fault: that of petool_big_object_headers if the file begins as a big object,
 * and otherwise that of petool_object_check. */
static void ask_either(const uint8_t *file, size_t len)
{
    petool_object_section sections[ROWS];
    petool_object_relocation relocations[ROWS];
    petool_either_object_symbol symbols[ROWS];
    petool_big_object_header header;
    petool_fault first = {0, 0, 0, 0}, fault = {0, 0, 0, 0};
    size_t count = 0;
    bool is_big = false;
    uint32_t judged = petool_either_object_check(file, len, &is_big, &first), status;
    bool is_anonymous = len >= 20 && memcmp(file, "\0\0\xff\xff", 4) == 0;
    int right = judged == PETOOL_OK ? is_big == is_anonymous : judged == PETOOL_FAULT && first.number >= 61 && first.number <= 72;
    petool_object_sections_init(sections, ROWS);
    petool_either_object_symbols_init(symbols, ROWS);
    status = is_anonymous ? petool_big_object_headers(file, len, &header, NULL, 0, &fault) : petool_object_check(file, len, &fault);
    right = right && status == judged && memcmp(&fault, &first, sizeof fault) == 0;
    status = petool_either_object_sections(file, len, sections, ROWS, &count, &fault);
    right = right && (status == PETOOL_FAULT) == (judged == PETOOL_FAULT) && memcmp(&fault, &first, sizeof fault) == 0;
    right = right && count <= len / 40;
    status = petool_either_object_relocations(file, len, 0, relocations, ROWS, &count, &fault);
    right = right && (status == PETOOL_FAULT) == (judged == PETOOL_FAULT) && memcmp(&fault, &first, sizeof fault) == 0;
    status = petool_either_object_all_relocations(file, len, 1, relocations, ROWS, &count, &fault);
    right = right && (status == PETOOL_FAULT) == (judged == PETOOL_FAULT) && memcmp(&fault, &first, sizeof fault) == 0;
    count = 0;
    status = petool_either_object_symbols(file, len, symbols, ROWS, &count, &fault);
    right = right && (status == PETOOL_FAULT) == (judged == PETOOL_FAULT) && memcmp(&fault, &first, sizeof fault) == 0;
    right = right && count <= len / 18;
    CHECK(right);
    big_objects += judged == PETOOL_OK && is_big;
}

static void ask(const uint8_t *file, size_t len)
{
    petool_fault first = {0, 0, 0, 0};
    uint32_t judged = petool_check(file, len, &first);
    uint8_t *out = (uint8_t *)malloc(len + 1);
    petool_fault fault = {0, 0, 0, 0};
    uint32_t status;
    if (out == NULL)
        exit(3);
    CHECK(is_answer(judged, &first, 38));
    ask_headers(file, len, judged, &first);
    ask_tables(file, len, judged, &first);
    ask_beyond(file, len, judged, &first);
    ask_trust(file, len, judged, &first);
    ask_opened(file, len, judged, &first);
    ask_spaces(file, len);
    status = petool_rebase(file, len, 0x20000000, out, len, &fault);
    /* petool_rebase does not read exports, which have faults 16 to 22 */
    CHECK(is_answer(status, &fault, 52));
    CHECK(judged != PETOOL_FAULT || (first.number >= 16 && first.number <= 22) || memcmp(&fault, &first, sizeof fault) == 0);
    status = petool_object_check(file, len, &fault);
    CHECK(status == PETOOL_OK || (status == PETOOL_FAULT && fault.number >= 61 && fault.number <= 72));
    ask_either(file, len);
    free(out);
    files++;
    faults[judged == PETOOL_FAULT ? first.number : 0]++;
}

/* Every prefix of a file, allocated in its exact size, and the file with each byte changed in three ways. */
static void change_all(bytes all)
{
    static const uint8_t masks[3] = {0xff, 0x01, 0x80};
    size_t k, m;
    for (k = 0; k < all.len; k++) {
        uint8_t *cut = (uint8_t *)malloc(k + (k == 0));
        if (cut == NULL)
            exit(3);
        memcpy(cut, all.at, k);
        ask(cut, k);
        free(cut);
        for (m = 0; m < 3; m++) {
            all.at[k] ^= masks[m];
            ask(all.at, all.len);
            all.at[k] ^= masks[m];
        }
    }
}

static void change(const char *folder, const char *name)
{
    bytes all = file_in(folder, name);
    change_all(all);
    free(all.at);
}

int main(int argc, char **argv)
{
    static const char *const names[9] = {"v1.dll", "v2.dll", "v3.dll", "va.dll", "vb.dll", "vc.dll", "vd.dll", "vs.dll", "vr.dll"};
    int k, kinds = 0;
    if (argc != 2)
        return 2;
    for (k = 0; k < 9; k++)
        change(argv[1], names[k]);
    change(argv[1], "o1.obj");
    change_all(big_object());
    for (k = 1; k < 100; k++)
        kinds += faults[k] != 0;
    printf("%lu files, %lu of them accepted, with %d different faults\n", files, faults[0], kinds);
    CHECK(files > 20000 && faults[0] > 1000 && kinds > 25 && big_objects > 100);
    return told();
}
