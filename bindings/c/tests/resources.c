/*
 * The calls for resources, over files whose section is written byte by byte from the format: a tree of three types with a leaf each,
 * of which the first is named by a text, and version information with two strings.
 */
#include "section.h"

/* Where the parts of the section begin. */
enum { NAME = 0xe8, DATA = 0xf0, MANIFEST = 0xf4, VERSION = 0x100, VERSION_SIZE = 226, END = VERSION + VERSION_SIZE };

static uint8_t section[END];

static void put_half(uint8_t *at, uint32_t number)
{
    at[0] = (uint8_t)number;
    at[1] = (uint8_t)(number >> 8);
}

/* A text in UTF-16, with its zero unit. */
static void put_text(uint8_t *at, const char *text)
{
    for (size_t k = 0; k <= strlen(text); k++)
        put_half(at + 2 * k, (uint8_t)text[k]);
}

/* A directory of so many named entries and ids, of which these are the first two numbers. */
static void put_directory(uint32_t at, uint32_t named, uint32_t ids)
{
    put_half(section + at + 12, named);
    put_half(section + at + 14, ids);
}

static void put_entry(uint32_t at, uint32_t name, uint32_t target)
{
    put_number(section + at, name);
    put_number(section + at + 4, target);
}

/* The name and the language below a type, each a directory of one entry, and the data entry. */
static void put_leaf(uint32_t at, uint32_t name, uint32_t language, uint32_t entry, uint32_t data, uint32_t size, uint32_t code_page)
{
    put_directory(at, 0, 1);
    put_entry(at + 16, name, 0x80000000 + at + 24);
    put_directory(at + 24, 0, 1);
    put_entry(at + 40, language, entry);
    put_number(section + entry, 0x1000 + data);
    put_number(section + entry + 4, size);
    put_number(section + entry + 8, code_page);
}

/* The head of a block of version information: its length, that of its value, whether that is a text, and its key. */
static void put_block(uint32_t at, uint32_t len, uint32_t value, uint32_t is_text, const char *key)
{
    put_half(section + VERSION + at, len);
    put_half(section + VERSION + at + 2, value);
    put_half(section + VERSION + at + 4, is_text);
    put_text(section + VERSION + at + 6, key);
}

static void make_version(void)
{
    uint8_t *fixed = section + VERSION + 40;
    put_block(0, VERSION_SIZE, 52, 0, "VS_VERSION_INFO");
    put_number(fixed, 0xfeef04bd);
    put_number(fixed + 4, 0x10000);
    put_number(fixed + 8, 0x000a0001);
    put_number(fixed + 12, 0xfffe0005);
    put_number(fixed + 16, 0x00020003);
    put_number(fixed + 20, 0x00040006);
    put_number(fixed + 24, 0x3f);
    put_number(fixed + 28, 0x0a);
    put_number(fixed + 32, 0x40004);
    put_number(fixed + 36, 2);
    put_number(fixed + 40, 7);
    put_block(92, 134, 0, 1, "StringFileInfo");
    put_block(128, 98, 0, 1, "040904b0");
    put_block(152, 44, 4, 1, "ProductVersion");
    put_text(section + VERSION + 188, "1.2");
    put_block(196, 30, 3, 1, "Comments");
    put_half(section + VERSION + 220, 0xd800);
    put_text(section + VERSION + 222, "x");
}

static void make_section(void)
{
    put_directory(0, 1, 2);
    put_entry(16, 0x80000000 + NAME, 0x80000028);
    put_entry(24, 16, 0x80000058);
    put_entry(32, 24, 0x80000088);
    put_leaf(0x28, 5, 0x409, 0xb8, DATA, 4, 1252);
    put_leaf(0x58, 1, 0, 0xc8, VERSION, VERSION_SIZE, 0);
    put_leaf(0x88, 1, 0x407, 0xd8, MANIFEST, 11, 65001);
    put_half(section + NAME, 2);
    put_half(section + NAME + 2, 'A');
    put_half(section + NAME + 4, 0x3b1);
    memcpy(section + DATA, "data<assembly/>", 15);
    make_version();
}

static bytes made(void)
{
    return with_section(2, END, 0x14c, section, sizeof section);
}

static int is_id(petool_resource_name name, uint32_t id)
{
    return name.kind == PETOOL_NAMED_ID && name.number == id && name.text.len == 0;
}

static int is_leaf(const petool_resource *row, uint32_t name, uint32_t language, uint32_t data, uint32_t size, uint32_t code_page)
{
    return is_id(row->name, name) && is_id(row->language, language) && row->rva == 0x1000 + data && row->size == size
        && row->code_page == code_page;
}

/* The bytes are those at this place of the section. */
static int is_at(petool_text text, bytes file, uint32_t at, size_t len)
{
    return text.at == file.at + 0x200 + at && text.len == len;
}

static void check_leaves(void)
{
    bytes file = made();
    petool_resource rows[4];
    petool_fault fault = UNTOLD;
    size_t count = 99;
    petool_resources_init(rows, 4);
    CHECK(rows[3].kind.text.len == 0 && rows[3].kind.kind == PETOOL_NAMED_NOTHING && rows[3].bytes.len == 0 && rows[3].size == 0);
    CHECK(petool_resources(file.at, file.len, rows, 4, &count, &fault) == PETOOL_OK && count == 3 && is_untold(fault));
    CHECK(rows[0].kind.kind == PETOOL_NAMED_TEXT && rows[0].kind.number == NAME && is_at(rows[0].kind.text, file, NAME + 2, 4));
    CHECK(is_leaf(&rows[0], 5, 0x409, DATA, 4, 1252) && is_at(rows[0].bytes, file, DATA, 4));
    CHECK(is_id(rows[1].kind, 16) && is_leaf(&rows[1], 1, 0, VERSION, VERSION_SIZE, 0) && is_at(rows[1].bytes, file, VERSION, VERSION_SIZE));
    CHECK(is_id(rows[2].kind, 24) && is_leaf(&rows[2], 1, 0x407, MANIFEST, 11, 65001) && is_at(rows[2].bytes, file, MANIFEST, 11));
    CHECK(rows[3].size == 0 && rows[3].kind.kind == PETOOL_NAMED_NOTHING);

    /* less room than leaves, and none */
    petool_resources_init(rows, 4);
    CHECK(petool_resources(file.at, file.len, rows, 1, &count, &fault) == PETOOL_SMALL && count == 3);
    CHECK(rows[0].size == 4 && rows[1].size == 0);
    count = 99;
    CHECK(petool_resources(file.at, file.len, NULL, 0, &count, &fault) == PETOOL_SMALL && count == 3);
    count = 99;
    CHECK(petool_resources(file.at, file.len, NULL, 1, &count, &fault) == PETOOL_ARGUMENT && count == 99);

    /* an image without the directory, and a refused file */
    CHECK(petool_resources(v1.at, v1.len, rows, 4, &count, &fault) == PETOOL_OK && count == 0 && is_untold(fault));
    count = 99;
    CHECK(petool_resources(file.at, 63, rows, 4, &count, &fault) == PETOOL_FAULT && fault.number == 2 && count == 99);
    CHECK(rows[0].size == 4);

    /* a leaf at the first level, whose data the file does not hold; and one whose type is a text that passes the file */
    put_number(file.at + 0x200 + 20, 0xb8);
    put_number(file.at + 0x200 + 0xb8 + 4, END);
    CHECK(petool_resources(file.at, file.len, rows, 4, &count, &fault) == PETOOL_OK && count == 3);
    CHECK(rows[0].name.kind == PETOOL_NAMED_NOTHING && rows[0].language.kind == PETOOL_NAMED_NOTHING && rows[0].size == END);
    CHECK(rows[0].kind.kind == PETOOL_NAMED_TEXT && rows[0].bytes.len == 0);
    put_half(file.at + 0x200 + NAME, 0xffff);
    CHECK(petool_resources(file.at, file.len, rows, 4, &count, &fault) == PETOOL_OK && count == 3);
    CHECK(rows[0].kind.kind == PETOOL_NAMED_TEXT && rows[0].kind.number == NAME && rows[0].kind.text.len == 0);
    free(file.at);
}

static void check_version(void)
{
    bytes file = made();
    petool_version_info version, kept;
    petool_fault fault = UNTOLD;
    memset(&version, 0x5a, sizeof version);
    kept = version;
    CHECK(petool_version(v1.at, v1.len, &version, &fault) == PETOOL_ABSENT && is_untold(fault));
    CHECK(petool_version(file.at, 63, &version, &fault) == PETOOL_FAULT && fault.number == 2);
    CHECK(petool_version(NULL, 1, &version, &fault) == PETOOL_ARGUMENT);
    CHECK(memcmp(&version, &kept, sizeof version) == 0);
    fault = UNTOLD;
    CHECK(petool_version(file.at, file.len, &version, &fault) == PETOOL_OK && is_untold(fault));
    CHECK(version.file_version[0] == 10 && version.file_version[1] == 1 && version.file_version[2] == 0xfffe);
    CHECK(version.file_version[3] == 5 && version.product_version[0] == 2 && version.product_version[1] == 3);
    CHECK(version.product_version[2] == 4 && version.product_version[3] == 6);
    CHECK(version.flags_mask == 0x3f && version.flags == 0x0a && version.system == 0x40004);
    CHECK(version.kind == 2 && version.subkind == 7);

    /* another signature, which is finding 211 */
    file.at[0x200 + VERSION + 40]++;
    CHECK(petool_version(file.at, file.len, &version, &fault) == PETOOL_ABSENT && version.subkind == 7);
    free(file.at);
}

static void check_strings(void)
{
    bytes file = made();
    petool_version_text rows[3];
    petool_text value = PETOOL_NONE;
    petool_fault fault = UNTOLD;
    const uint8_t *key = (const uint8_t *)"Comments";
    size_t count = 99;
    petool_version_texts_init(rows, 3);
    CHECK(petool_version_strings(file.at, file.len, rows, 3, &count, &fault) == PETOOL_OK && count == 2 && is_untold(fault));
    CHECK(is_at(rows[0].table, file, VERSION + 134, 16) && is_at(rows[1].table, file, VERSION + 134, 16));
    CHECK(is_at(rows[0].key, file, VERSION + 158, 28) && is_at(rows[0].value, file, VERSION + 188, 6));
    CHECK(is_at(rows[1].key, file, VERSION + 202, 16) && is_at(rows[1].value, file, VERSION + 220, 4));
    CHECK(rows[2].key.len == 0);
    petool_version_texts_init(rows, 3);
    CHECK(petool_version_strings(file.at, file.len, rows, 1, &count, &fault) == PETOOL_SMALL && count == 2);
    CHECK(rows[0].key.len == 28 && rows[1].key.len == 0);
    CHECK(petool_version_strings(file.at, file.len, NULL, 0, &count, &fault) == PETOOL_SMALL && count == 2);
    CHECK(petool_version_strings(v1.at, v1.len, rows, 3, &count, &fault) == PETOOL_OK && count == 0);
    count = 99;
    CHECK(petool_version_strings(file.at, 63, rows, 3, &count, &fault) == PETOOL_FAULT && fault.number == 2 && count == 99);

    /* by key: of the whole key alone */
    fault = UNTOLD;
    CHECK(petool_version_string(file.at, file.len, key, 8, &value, &fault) == PETOOL_OK && is_at(value, file, VERSION + 220, 4));
    CHECK(petool_version_string(file.at, file.len, key, 7, &value, &fault) == PETOOL_ABSENT && is_untold(fault));
    CHECK(petool_version_string(file.at, file.len, NULL, 0, &value, &fault) == PETOOL_ABSENT);
    CHECK(petool_version_string(v1.at, v1.len, key, 8, &value, &fault) == PETOOL_ABSENT && is_at(value, file, VERSION + 220, 4));
    CHECK(petool_version_string(file.at, 63, key, 8, &value, &fault) == PETOOL_FAULT && fault.number == 2);
    CHECK(petool_version_string(file.at, file.len, NULL, 1, &value, &fault) == PETOOL_ARGUMENT);
    free(file.at);
}

static void check_manifest(void)
{
    bytes file = made();
    petool_text manifest = PETOOL_NONE;
    petool_fault fault = UNTOLD;
    CHECK(petool_manifest(file.at, file.len, &manifest, &fault) == PETOOL_OK && is_untold(fault));
    CHECK(is_at(manifest, file, MANIFEST, 11) && memcmp(manifest.at, "<assembly/>", 11) == 0);
    CHECK(petool_manifest(v1.at, v1.len, &manifest, &fault) == PETOOL_ABSENT && manifest.len == 11);
    CHECK(petool_manifest(file.at, 63, &manifest, &fault) == PETOOL_FAULT && fault.number == 2 && manifest.len == 11);
    CHECK(petool_manifest(NULL, 1, &manifest, &fault) == PETOOL_ARGUMENT);
    fault = UNTOLD;
    put_number(file.at + 0x200 + 0xd8 + 4, END);
    CHECK(petool_manifest(file.at, file.len, &manifest, &fault) == PETOOL_ABSENT && is_untold(fault));
    free(file.at);
}

/* A tree of one shared directory, and version information of another signature. */
static void check_findings(void)
{
    bytes file = made();
    petool_fault rows[4], fault = UNTOLD;
    size_t count = 99;
    memset(rows, 0x5a, sizeof rows);
    CHECK(petool_findings(file.at, file.len, rows, 4, &count, &fault) == PETOOL_OK && count == 0 && is_untold(fault));
    put_number(file.at + 0x200 + 36, 0x80000058);
    file.at[0x200 + VERSION + 40]++;
    CHECK(petool_findings(file.at, file.len, rows, 4, &count, &fault) == PETOOL_OK && count == 2);
    CHECK(is_finding(rows[0], 185, 0x1058) && is_finding(rows[1], 211, 0x1000 + VERSION));
    CHECK(rows[2].number == 0x5a5a);
    CHECK(petool_findings(file.at, file.len, rows, 1, &count, &fault) == PETOOL_SMALL && count == 2);
    free(file.at);
}

int main(int argc, char **argv)
{
    if (argc != 2)
        return 2;
    v1 = file_in(argv[1], "v1.dll");
    make_section();
    check_leaves();
    check_version();
    check_strings();
    check_manifest();
    check_findings();
    free(v1.at);
    return told();
}
