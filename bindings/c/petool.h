/*
 * petool.h: reads, checks and moves PE images, and reads COFF objects and archives of them, from files that may be hostile.
 *
 * RULES, which hold for every call
 *
 * Bytes.    A file is a pointer and a length: all of its bytes. They are only read, and only while the call runs, or while an
 *           image that petool_image_open made from them is open; nobody may change them meanwhile. The pointer of bytes, of a text
 *           or of rows may be NULL if the length or the room after it is 0; with another it is refused: PETOOL_ARGUMENT. No other
 *           pointer may be NULL, nor that in a petool_text, which PETOOL_NONE sets.
 * Texts.    A petool_text points into the file, or to a string of this library. It does not end in a zero byte, and is valid as
 *           long as the file's bytes are. Unless it is empty, its offset in the file is `text.at - file`; an empty one may point
 *           anywhere.
 * Numbers.  An index of an image is a uint32_t, an ordinal a uint64_t, an RVA a uint32_t, and an address a uint64_t, in every call
 *           and record.
 * Results.  Most calls return a status; the comment above a call says which statuses set its results. Everything else is left
 *           unchanged. Only PETOOL_FAULT sets *fault: to the first fault, in the order of docs/FAULTS.md.
 * Rows.     A table is read into the caller's rows. *count is the number of rows that the table has, whether or not they fit. If
 *           they do not, the status is PETOOL_SMALL, and the rows hold the first of them. So a call with room 0 counts, and a
 *           second one reads. The rows are in the order that the call names, which is the file's own and always the same.
 *           Records that hold texts must be initialized before a call, by petool_exports_init and the like, or by an earlier call.
 * Pointers. A pointer is aligned as its type requires, and a result shares no byte with another argument.
 * Threads.  Calls keep nothing but open images and spaces, so any number of threads may call at once, even with the same file. Make
 *           no call from a signal handler, nor in a forked child of a process with threads before that runs another program.
 * Memory.   A call frees all the memory that it has allocated before it returns, except that of an image or a space, until that is
 *           closed. It calls malloc, realloc and free, which must align to 16 bytes, and returns PETOOL_MEMORY if an allocation
 *           fails; the calls that read sections, symbols or all relocations of an object, and petool_image_symbols, then do
 *           without.
 *
 * Nothing checks that a caller keeps these rules, but for NULL; what is proved of each call is proved for callers that do. The
 * functions that are defined here are only tested.
 */
#ifndef PETOOL_H
#define PETOOL_H

#include <stdbool.h>
#include <stddef.h>
#include <stdint.h>
#include <inttypes.h>
#include <stdio.h>
#include <stdlib.h>
#include <string.h>

#ifdef __cplusplus
extern "C" {
#endif

/* Before each call that returns a status: a compiler that can says where it is not used. */
#if defined(__cplusplus) && __cplusplus >= 201703L
#define PETOOL_WARN_UNUSED [[nodiscard]]
#elif defined(__GNUC__)
#define PETOOL_WARN_UNUSED __attribute__((warn_unused_result))
#else
#define PETOOL_WARN_UNUSED
#endif

/* ---- statuses, texts, faults ---- */

/* from describe/records.txt: statuses */
enum {
    PETOOL_OK = 0,
    PETOOL_FAULT = 1,    /* a rule of the format is broken: `*fault` says which, and where */
    PETOOL_MEMORY = 2,   /* out of memory */
    PETOOL_ABSENT = 3,   /* bytes outside the image or the file, or no such string, export, section, image or fault */
    PETOOL_SMALL = 4,    /* too little room: the count says how much is needed */
    PETOOL_ARGUMENT = 5, /* an argument has a value that it may not have; nothing was done */
    PETOOL_CLOSED = 6,   /* the image or the space is not open */
    PETOOL_LARGE = 7,    /* the images of the set have more bytes than the caller allows; nothing was mapped */
    PETOOL_SHARED = 8    /* another handle has the space, so it is not moved */
};
/* end of describe/records.txt */

/* from describe/records.txt: text */
typedef struct petool_text {
    const uint8_t *at;
    size_t len;
} petool_text;
/* end of describe/records.txt */

static const uint8_t petool_no_bytes[1] = {0};
#define PETOOL_NONE {petool_no_bytes, 0}

/* The bytes of a string, without the zero byte that ends it. */
static inline petool_text petool_text_of(const char *string)
{
    petool_text text = {(const uint8_t *)string, 0};
    while (string[text.len] != 0) {
        text.len++;
    }
    return text;
}

/* from describe/records.txt: places */
enum {
    PETOOL_PLACE_FILE = 0,    /* bytes of the file */
    PETOOL_PLACE_RVA = 1,     /* bytes of the laid-out image */
    PETOOL_PLACE_ADDRESS = 2, /* bytes of the address space */
    PETOOL_PLACE_ITEM = 3     /* items of a list */
};
/* end of describe/records.txt */

/* from describe/records.txt: fault */
typedef struct petool_fault {
    uint16_t number; /* as in docs/FAULTS.md: of a fault from 1 to 93, of a finding from 101 on */
    uint16_t place;  /* what `at` counts: a PETOOL_PLACE */
    uint32_t image;  /* the index of the entry in a set; otherwise 0 */
    uint64_t at;
} petool_fault;
/* end of describe/records.txt */

/* The version of this header, and that of the library which runs: its first part times 65,536, plus its second part. A program that
 * was built with another first part than the library's must not call it. */
#define PETOOL_VERSION_NUMBER 0x20000
uint32_t petool_version_number(void);

/* What is at the place of a fault, and which rule is broken: strings of this library. OK; or ABSENT if no fault has the number. */
PETOOL_WARN_UNUSED uint32_t petool_fault_words(uint16_t number, petool_text *subject, petool_text *rule);

/* A fault as one line, for people: "section header at 0x138: the section's raw data extends past the end of the file". It is
 * written as by snprintf: cut to the room, in which it always ends in a zero byte; without room nothing is written. Returns the
 * length of the full line without the zero byte, which is at most 256. */
int petool_fault_line(const petool_fault *fault, char *line, size_t room);

/* from describe/records.txt: amounts */
enum {
    PETOOL_VALUE_NOTHING = 0, /* no number, but words after one */
    PETOOL_VALUE_COUNT = 1,   /* a size or a count, for people in decimal */
    PETOOL_VALUE_PLACE = 2    /* a file offset, an RVA, an address or a field, for people in hexadecimal */
};
/* end of describe/records.txt */

/* from describe/records.txt: value */
typedef struct petool_value {
    petool_text words; /* the words before the number, or the last ones */
    petool_text name;  /* the number's name, as in docs/FAULTS.md; empty if there is no number */
    uint64_t number;
    uint32_t kind;     /* what the number is: a PETOOL_VALUE */
} petool_value;
/* end of describe/records.txt */

#define PETOOL_VALUES 3 /* a fault has so many rows, or none */

static inline void petool_values_init(petool_value *rows, size_t room)
{
    petool_text none = PETOOL_NONE;
    for (size_t i = 0; i < room; i++) {
        petool_value row = {none, none, 0, 0};
        rows[i] = row;
    }
}

/* The numbers of the file that the fault's rule compares, in the order in which people read them, each with its name and the words
 * before it: "", 16; " bytes at ", 0x200; ", and the file has ", 520. A rule that compares numbers has three rows, of which the
 * last may have words alone, or nothing; the others have none. `file` is that of the image with the fault. OK; or SMALL. The strings
 * are this library's. */
PETOOL_WARN_UNUSED uint32_t petool_fault_detail(const uint8_t *file, size_t len, const petool_fault *fault, petool_value *rows,
                                                size_t room, size_t *count);

/* from describe/records.txt: names */
enum {
    PETOOL_NAME_MACHINE = 0,      /* the machine of a COFF file header */
    PETOOL_NAME_SUBSYSTEM = 1,    /* the subsystem of an image */
    PETOOL_NAME_FLAG = 2,         /* a flag of Characteristics in a COFF file header */
    PETOOL_NAME_DLL_FLAG = 3,     /* a flag of DllCharacteristics */
    PETOOL_NAME_SECTION_FLAG = 4, /* a flag of a section */
    PETOOL_NAME_DIRECTORY = 5     /* the table of a data directory, by its index */
};
/* end of describe/records.txt */

/* from describe/records.txt: table_names */
enum {
    PETOOL_NAME_DEBUG_TYPE = 6, /* a type of debug data */
    PETOOL_NAME_LOAD_FIELD = 7  /* a field of the load configuration, by its index */
};
/* end of describe/records.txt */

/* The name that "PE Format" has for a value of this kind, a PETOOL_NAME: "AMD64", "WINDOWS_GUI", "DLL", "NX_COMPAT", "MEM_READ",
 * "export", "CODEVIEW", "SecurityCookie". A flag is one bit. OK; or ABSENT. The string is this library's. *name must be initialized
 * before. */
PETOOL_WARN_UNUSED uint32_t petool_name(uint32_t kind, uint32_t value, petool_text *name);

/* ---- an image: its headers and its bytes ---- */

/* OK if the image has none of faults 1 to 38 (docs/FAULTS.md); FAULT; or MEMORY, but not if the file has one of faults 1 to 15. */
PETOOL_WARN_UNUSED uint32_t petool_check(const uint8_t *file, size_t len, petool_fault *fault);

/* from describe/records.txt: directory */
typedef struct petool_directory {
    uint32_t rva, size; /* for the certificate table, directory 4, rva is a file offset */
} petool_directory;
/* end of describe/records.txt */

/* Every field of the headers, with the wider type where PE32 and PE32+ differ. */
/* from describe/records.txt: headers, section */
typedef struct petool_headers {
    uint64_t image_base, size_of_stack_reserve, size_of_stack_commit, size_of_heap_reserve, size_of_heap_commit;
    uint32_t pe_offset, time_date_stamp, pointer_to_symbol_table, number_of_symbols;
    uint32_t size_of_code, size_of_initialized_data, size_of_uninitialized_data, address_of_entry_point;
    uint32_t base_of_code, base_of_data /* 0 in PE32+ */, section_alignment, file_alignment, win32_version_value;
    uint32_t size_of_image, size_of_headers, check_sum, loader_flags, number_of_rva_and_sizes;
    uint16_t magic /* 0x10b or 0x20b */, machine, number_of_sections, size_of_optional_header, characteristics;
    uint16_t subsystem, dll_characteristics;
    uint16_t major_operating_system_version, minor_operating_system_version, major_image_version, minor_image_version;
    uint16_t major_subsystem_version, minor_subsystem_version;
    uint8_t major_linker_version, minor_linker_version;
    petool_directory directories[16]; /* those that the headers do not hold are 0 */
} petool_headers;

typedef struct petool_section {
    uint8_t name[8];    /* padded with zero bytes */
    uint32_t rva;       /* of the first byte */
    uint32_t extent;    /* how many bytes of the laid-out image the section takes */
    uint32_t file_size; /* how many of these, from the first on, come from the file */
    uint32_t pointer_to_raw_data, size_of_raw_data, virtual_size, characteristics;
} petool_section;
/* end of describe/records.txt */

#define PETOOL_SECTIONS 96 /* no image has more */

/* The headers, and as many of the sections as fit into the rows: number_of_sections says how many there are. OK if the file has
 * none of faults 1 to 15, otherwise FAULT. */
PETOOL_WARN_UNUSED uint32_t petool_read_headers(const uint8_t *file, size_t len, petool_headers *headers, petool_section *sections,
                                                size_t room, petool_fault *fault);

/* The bytes of the laid-out image from an RVA on: raw data, or 0. OK; FAULT, with one of 1 to 15; or ABSENT if they do not all lie
 * inside the image. */
PETOOL_WARN_UNUSED uint32_t petool_read(const uint8_t *file, size_t len, uint32_t rva, uint8_t *buffer, size_t count,
                                        petool_fault *fault);

/* The zero-terminated string at an RVA. OK; FAULT, with one of 1 to 15; or ABSENT. *text must be initialized before. */
PETOOL_WARN_UNUSED uint32_t petool_read_text(const uint8_t *file, size_t len, uint32_t rva, petool_text *text, petool_fault *fault);

/* The file offset of the byte at an RVA. OK; FAULT, with one of 1 to 15; or ABSENT if the file does not hold that byte. */
PETOOL_WARN_UNUSED uint32_t petool_locate(const uint8_t *file, size_t len, uint32_t rva, uint64_t *offset, petool_fault *fault);

/* ---- an image: its tables ---- */

/* from describe/records.txt: targets */
enum {
    PETOOL_TARGET_RVA = 0,     /* an RVA of the image */
    PETOOL_TARGET_ORDINAL = 1, /* an ordinal of another module */
    PETOOL_TARGET_NAME = 2     /* a name of another module */
};
/* end of describe/records.txt */

/* from describe/records.txt: target, export, import, fixup */
typedef struct petool_target {
    uint32_t kind;            /* a PETOOL_TARGET: an RVA of the image, or an ordinal or a name of another module */
    uint32_t rva;             /* the RVA; 0 for a forwarder */
    uint64_t ordinal;         /* the ordinal of a forwarder to an ordinal; otherwise 0 */
    petool_text module, name; /* of a forwarder; otherwise empty */
} petool_target;

typedef struct petool_export {
    uint64_t ordinal; /* the ordinal, which may exceed 2^32 */
    petool_text name; /* the name of an export by name; otherwise empty */
    petool_target target;
} petool_export;

typedef struct petool_import {
    petool_text module, name; /* name is empty for an import by ordinal */
    uint64_t ordinal;         /* the ordinal of an import by ordinal; otherwise 0 */
    uint32_t slot;            /* the RVA of its slot */
    bool by_ordinal;
} petool_import;

typedef struct petool_fixup {
    uint32_t entry, field; /* the RVAs of the table's entry and of the field */
    uint32_t kind;         /* the entry's type: 1 HIGH, 2 LOW, 3 HIGHLOW, 10 DIR64 */
} petool_fixup;
/* end of describe/records.txt */

static inline void petool_target_init(petool_target *target)
{
    petool_text none = PETOOL_NONE;
    target->kind = 0;
    target->rva = 0;
    target->ordinal = 0;
    target->module = none;
    target->name = none;
}

static inline void petool_exports_init(petool_export *rows, size_t room)
{
    petool_text none = PETOOL_NONE;
    for (size_t i = 0; i < room; i++) {
        rows[i].ordinal = 0;
        rows[i].name = none;
        petool_target_init(&rows[i].target);
    }
}

static inline void petool_imports_init(petool_import *rows, size_t room)
{
    petool_text none = PETOOL_NONE;
    for (size_t i = 0; i < room; i++) {
        petool_import row = {none, none, 0, 0, false};
        rows[i] = row;
    }
}

/* Each: OK; SMALL; FAULT, with the first of the headers and sections (1 to 15) and of the table; or MEMORY, but not if the file has
 * one of faults 1 to 15.
 * Exports by ordinal, in the order of the export address table, and by name, in the order of the name pointer table, each name
 * once (16 to 22); imports in table order (24 to 32); base relocations in table order, checked after the imports (24 to 38). */
PETOOL_WARN_UNUSED uint32_t petool_exports(const uint8_t *file, size_t len, petool_export *rows, size_t room, size_t *count,
                                           petool_fault *fault);
PETOOL_WARN_UNUSED uint32_t petool_export_names(const uint8_t *file, size_t len, petool_export *rows, size_t room, size_t *count,
                                                petool_fault *fault);
PETOOL_WARN_UNUSED uint32_t petool_imports(const uint8_t *file, size_t len, petool_import *rows, size_t room, size_t *count,
                                           petool_fault *fault);
PETOOL_WARN_UNUSED uint32_t petool_fixups(const uint8_t *file, size_t len, petool_fixup *rows, size_t room, size_t *count,
                                          petool_fault *fault);

/* from describe/records.txt: counts */
typedef struct petool_counts {
    size_t exports, names, imports, fixups;
} petool_counts;
/* end of describe/records.txt */

/* All four in one pass over the file, with the faults of petool_check: OK; SMALL if there are fewer rows than items for one of the
 * tables; FAULT, with the first of 1 to 38; or MEMORY, but not if the file has one of faults 1 to 15. */
PETOOL_WARN_UNUSED uint32_t petool_tables(const uint8_t *file, size_t len, petool_export *exports, size_t export_room,
                                          petool_export *names, size_t name_room, petool_import *imports, size_t import_room,
                                          petool_fixup *fixups, size_t fixup_room, petool_counts *counts, petool_fault *fault);

/* What one name or one ordinal exports. As petool_exports, but with ABSENT instead of SMALL. Each call reads the whole table: to
 * look up many, open the image. *target must be initialized before. */
PETOOL_WARN_UNUSED uint32_t petool_export_by_name(const uint8_t *file, size_t len, const uint8_t *name, size_t name_len,
                                                  petool_target *target, petool_fault *fault);
PETOOL_WARN_UNUSED uint32_t petool_export_by_ordinal(const uint8_t *file, size_t len, uint64_t ordinal, petool_target *target,
                                                     petool_fault *fault);

/* The import whose slot is at an RVA. At the place of faults 48 to 50, in the file of the fault's image, it has the module and the
 * name or the ordinal that lead nowhere. As petool_imports, but with ABSENT instead of SMALL. *found must be initialized before. */
PETOOL_WARN_UNUSED uint32_t petool_import_at(const uint8_t *file, size_t len, uint32_t slot, petool_import *found,
                                             petool_fault *fault);

/* ---- an image: tables beyond the profile ---- */

/* No rule of these tables refuses an image: one that is broken is a finding, with a number from 101 on (docs/FAULTS.md), and what
 * the file holds of the table is read. A table ends where its Size does, or, before that, the bytes that the file holds from its
 * RVA on in one run: what is in zero fill has no rows. */

/* All findings, of these tables, of the symbol table and those of petool_trust_findings, by table in the order of their numbers, and of
 * each table those of its directory before those of its records; those of the resources as their tree is read; of image 0. OK; SMALL;
 * FAULT, with one of 1 to 15; or MEMORY, but only if the image has a resource directory, or another of these tables has a finding. */
PETOOL_WARN_UNUSED uint32_t petool_findings(const uint8_t *file, size_t len, petool_fault *rows, size_t room, size_t *count,
                                            petool_fault *fault);

/* from describe/records.txt: debug_entry */
typedef struct petool_debug_entry {
    uint32_t characteristics, time_date_stamp; /* when the data was made, or a hash */
    uint16_t major_version, minor_version;
    uint32_t kind;                             /* the type of the data: 2 CODEVIEW */
    uint32_t size_of_data, address_of_raw_data, pointer_to_raw_data;
} petool_debug_entry;
/* end of describe/records.txt */

/* The entries of the debug directory, in table order. OK; SMALL; or FAULT, with one of 1 to 15. Like the calls below, it allocates
 * nothing. */
PETOOL_WARN_UNUSED uint32_t petool_debug(const uint8_t *file, size_t len, petool_debug_entry *rows, size_t room, size_t *count,
                                         petool_fault *fault);

/* from describe/records.txt: pdb_kinds */
enum {
    PETOOL_PDB_SEVEN = 0, /* of PDB 7.0, with a GUID */
    PETOOL_PDB_TWO = 1    /* of PDB 2.0, with a time stamp */
};
/* end of describe/records.txt */

/* from describe/records.txt: pdb_file */
typedef struct petool_pdb_file {
    petool_text path;         /* its path where it was made; empty if no zero byte ends it */
    uint32_t kind;
    uint32_t age;             /* how often the file was written */
    uint8_t guid[16];         /* of PETOOL_PDB_SEVEN, in the order of the image's bytes; otherwise zeros */
    uint32_t time_date_stamp; /* of PETOOL_PDB_TWO, in seconds since 1970; otherwise 0 */
    uint32_t offset;          /* where the debug data begins in a file of PETOOL_PDB_TWO, mostly 0 */
} petool_pdb_file;
/* end of describe/records.txt */

static inline void petool_pdb_init(petool_pdb_file *pdb)
{
    petool_pdb_file none = {PETOOL_NONE, 0, 0, {0}, 0, 0};
    *pdb = none;
}

/* The PDB file that the first entry of the debug directory names that names one. OK; FAULT, with one of 1 to 15; or ABSENT. *pdb
 * must be initialized before. */
PETOOL_WARN_UNUSED uint32_t petool_pdb(const uint8_t *file, size_t len, petool_pdb_file *pdb, petool_fault *fault);

/* from describe/records.txt: function_kinds */
enum {
    PETOOL_FUNCTION_AMD64 = 0, /* a function of AMD64, with its end */
    PETOOL_FUNCTION_ARM = 1    /* a function of ARM64 or ARMNT, without its end */
};
/* end of describe/records.txt */

/* from describe/records.txt: function */
typedef struct petool_function {
    uint32_t begin;  /* the RVA of its first byte; on ARMNT with 1 added, as for all Thumb code */
    uint32_t end;    /* the RVA after its last byte; 0 on ARM64 and ARMNT, whose tables do not have it */
    uint32_t unwind; /* the RVA of its unwind information; on ARM of its record if the low two bits are 0, otherwise the record */
    uint32_t kind;
} petool_function;
/* end of describe/records.txt */

/* The functions of the exception table, in table order. The table of a machine other than AMD64, ARM64 and ARMNT has another form,
 * and no rows. OK; SMALL; or FAULT, with one of 1 to 15. */
PETOOL_WARN_UNUSED uint32_t petool_functions(const uint8_t *file, size_t len, petool_function *rows, size_t room, size_t *count,
                                             petool_fault *fault);

/* from describe/records.txt: tls_directory, callback */
typedef struct petool_tls_directory {
    uint64_t start_address_of_raw_data, end_address_of_raw_data; /* the template for the data of a thread */
    uint64_t address_of_index;                                   /* the address of the index that the loader assigns */
    uint64_t address_of_callbacks;                               /* that of the callbacks, which petool_tls_callbacks reads */
    uint64_t size_of_zero_fill;                                  /* how many zero bytes follow the template */
    uint64_t characteristics;                                    /* the alignment, as in the flags of a section */
    bool is_whole;                                               /* whether the file holds all fields */
} petool_tls_directory;

typedef struct petool_callback {
    uint64_t address; /* its address at ImageBase */
} petool_callback;
/* end of describe/records.txt */

/* The TLS directory. OK; FAULT, with one of 1 to 15; or ABSENT. */
PETOOL_WARN_UNUSED uint32_t petool_tls(const uint8_t *file, size_t len, petool_tls_directory *tls, petool_fault *fault);

/* Its callbacks, up to the first address that is 0. OK; SMALL; or FAULT, with one of 1 to 15. */
PETOOL_WARN_UNUSED uint32_t petool_tls_callbacks(const uint8_t *file, size_t len, petool_callback *rows, size_t room, size_t *count,
                                                 petool_fault *fault);

/* from describe/records.txt: field */
typedef struct petool_field {
    uint64_t value;  /* its number; 0 if the field is absent */
    bool is_present; /* whether the field is there */
} petool_field;
/* end of describe/records.txt */

/* The fields of the load configuration, in the order of "PE Format", whose names petool_name has: 52, or 0 if the image has no load
 * configuration. Field 17 is SecurityCookie. OK; SMALL; or FAULT, with one of 1 to 15. */
PETOOL_WARN_UNUSED uint32_t petool_load_configuration(const uint8_t *file, size_t len, petool_field *rows, size_t room,
                                                      size_t *count, petool_fault *fault);

/* from describe/records.txt: bound_import */
typedef struct petool_bound_import {
    uint32_t time_date_stamp;                 /* the time stamp of the module when it was bound */
    uint16_t offset_module_name;              /* where the module's name is, from the beginning of the table */
    uint16_t number_of_module_forwarder_refs; /* how many records after this one are of modules that it forwards to */
} petool_bound_import;
/* end of describe/records.txt */

/* The records of the bound import table before the first that is all zeros, in table order. OK; SMALL; or FAULT, with one of 1 to
 * 15. */
PETOOL_WARN_UNUSED uint32_t petool_bound_imports(const uint8_t *file, size_t len, petool_bound_import *rows, size_t room,
                                                 size_t *count, petool_fault *fault);

/* The delay-loaded imports, in the order of the delay-load directory table, whatever its Size is, as rows of the import table: those of
 * each descriptor that has none of the findings 162 to 167. OK; SMALL; FAULT, with one of 1 to 15; or MEMORY, only if there is an
 * import. */
PETOOL_WARN_UNUSED uint32_t petool_delay_imports(const uint8_t *file, size_t len, petool_import *rows, size_t room, size_t *count,
                                                 petool_fault *fault);

/* The fields of the CLR header: 19, or 0 if the image has none. They are cb; MajorRuntimeVersion, MinorRuntimeVersion; the RVA and
 * the size of MetaData; Flags; EntryPointToken; and the RVAs and the sizes of Resources, StrongNameSignature, CodeManagerTable,
 * VTableFixups, ExportAddressTableJumps and ManagedNativeHeader. OK; SMALL; or FAULT, with one of 1 to 15. */
PETOOL_WARN_UNUSED uint32_t petool_clr(const uint8_t *file, size_t len, petool_field *rows, size_t room, size_t *count,
                                       petool_fault *fault);

/* ---- an image: its resources ---- */

/* from describe/records.txt: resource_names, resource_name, resource */
enum {
    PETOOL_NAMED_NOTHING = 0, /* nothing: the tree ends before this level */
    PETOOL_NAMED_ID = 1,      /* an id */
    PETOOL_NAMED_TEXT = 2     /* a text */
};

typedef struct petool_resource_name {
    petool_text text; /* the text, in UTF-16, little endian; empty for an id, and if the file does not hold the text in one run */
    uint32_t number;  /* the id, or where the text is, in bytes from the beginning of the tree; otherwise 0 */
    uint32_t kind;
} petool_resource_name;

typedef struct petool_resource {
    petool_resource_name kind;     /* the type: 16 version information, 24 a manifest */
    petool_resource_name name;     /* the name */
    petool_resource_name language; /* the language */
    petool_text bytes;             /* its data; empty if the file does not hold all of it in one run */
    uint32_t rva, size;            /* the RVA of the data, and how many bytes it has */
    uint32_t code_page;            /* the code page of texts in the data, as written */
} petool_resource;
/* end of describe/records.txt */

static inline void petool_resources_init(petool_resource *rows, size_t count)
{
    petool_resource none = {{PETOOL_NONE, 0, 0}, {PETOOL_NONE, 0, 0}, {PETOOL_NONE, 0, 0}, PETOOL_NONE, 0, 0, 0};
    for (size_t k = 0; k < count; k++)
        rows[k] = none;
}

/* The leaves of the resource tree, in the order of the tree, which is read as three levels: types, names and languages. A directory
 * that has a byte in common with one that was read before it is not read again, and is finding 185, so there are at most as many
 * leaves as the file has bytes for, 8 for each. OK; SMALL; FAULT, with one of 1 to 15; or MEMORY. The rows must be initialized
 * before. */
PETOOL_WARN_UNUSED uint32_t petool_resources(const uint8_t *file, size_t len, petool_resource *rows, size_t room, size_t *count,
                                             petool_fault *fault);

/* from describe/records.txt: version_info */
typedef struct petool_version_info {
    uint16_t file_version[4];    /* the version of the file, from its first number to its last */
    uint16_t product_version[4]; /* the versions of the file and of the product, from the first number to the last */
    uint32_t flags_mask, flags;  /* which flags are valid, and the flags: 1 a debug build, 2 a prerelease, 8 a private build */
    uint32_t system;             /* the operating system that the file is for: 0x40004 Windows */
    uint32_t kind;               /* what the file is: 1 a program, 2 a library, 3 a driver */
    uint32_t subkind;            /* the kind of driver or font */
} petool_version_info;
/* end of describe/records.txt */

/* The fixed part of the version information, which is the first resource of type 16. OK; ABSENT if there is none, or it does not
 * begin as it must; or FAULT, with one of 1 to 15. */
PETOOL_WARN_UNUSED uint32_t petool_version(const uint8_t *file, size_t len, petool_version_info *version, petool_fault *fault);

/* from describe/records.txt: version_text */
typedef struct petool_version_text {
    petool_text table; /* 8 hexadecimal digits: the language and the code page */
    petool_text key;   /* what the string is, such as ProductVersion */
    petool_text value; /* the string */
} petool_version_text;
/* end of describe/records.txt */

static inline void petool_version_texts_init(petool_version_text *rows, size_t count)
{
    petool_version_text none = {PETOOL_NONE, PETOOL_NONE, PETOOL_NONE};
    for (size_t k = 0; k < count; k++)
        rows[k] = none;
}

/* The strings of the version information, of each table in its order. OK; SMALL; or FAULT, with one of 1 to 15. The rows must be
 * initialized before. */
PETOOL_WARN_UNUSED uint32_t petool_version_strings(const uint8_t *file, size_t len, petool_version_text *rows, size_t room,
                                                   size_t *count, petool_fault *fault);

/* The first of these strings whose key is this one in ASCII, such as "ProductVersion", in UTF-16, little endian. OK; ABSENT; or
 * FAULT, with one of 1 to 15. */
PETOOL_WARN_UNUSED uint32_t petool_version_string(const uint8_t *file, size_t len, const uint8_t *key, size_t key_len,
                                                  petool_text *value, petool_fault *fault);

/* The manifest, as the file has it, mostly in UTF-8: the resource of type 24 and name 1, else of name 2, else the first of type 24.
 * OK; ABSENT if there is none, or the file does not hold all of it in one run; or FAULT, with one of 1 to 15. */
PETOOL_WARN_UNUSED uint32_t petool_manifest(const uint8_t *file, size_t len, petool_text *manifest, petool_fault *fault);

/* ---- an image: what its file says of itself ---- */

/* These calls need the headers alone, so that they answer also for an image whose sections or tables have faults; each reports
 * one of 1 to 12, and none allocates. Nothing here says whether a signature is valid, or anybody to be trusted. */

/* from describe/records.txt: check_sums */
typedef struct petool_check_sums {
    uint32_t written;  /* what the field holds; 0 if it was not set */
    uint32_t computed; /* what it is to hold */
} petool_check_sums;
/* end of describe/records.txt */

/* CheckSum. OK; or FAULT, with one of 1 to 12. */
PETOOL_WARN_UNUSED uint32_t petool_check_sum(const uint8_t *file, size_t len, petool_check_sums *sum, petool_fault *fault);

/* from describe/records.txt: certificate */
typedef struct petool_certificate {
    uint64_t offset;         /* the file offset of its header of 8 bytes */
    petool_text bytes;       /* its content, behind that header */
    uint32_t length;         /* its length, with the header */
    uint16_t revision, kind; /* kind 2: bytes are a signature (PKCS #7) */
} petool_certificate;
/* end of describe/records.txt */

static inline void petool_certificates_init(petool_certificate *rows, size_t count)
{
    petool_certificate none = {0, PETOOL_NONE, 0, 0, 0};
    for (size_t k = 0; k < count; k++)
        rows[k] = none;
}

/* The entries of the certificate table, in table order: those that are whole in the directory's Size and in the file, up to the
 * first that is not. OK; SMALL; or FAULT, with one of 1 to 12. The rows must be initialized before. */
PETOOL_WARN_UNUSED uint32_t petool_certificates(const uint8_t *file, size_t len, petool_certificate *rows, size_t room,
                                                size_t *count, petool_fault *fault);

/* from describe/records.txt: digests, fits, signature */
enum {
    PETOOL_DIGEST_NONE = 0,   /* absent: none can be read */
    PETOOL_DIGEST_SHA1 = 1,   /* of SHA-1, with 20 bytes */
    PETOOL_DIGEST_SHA256 = 2, /* of SHA-256, with 32 bytes */
    PETOOL_DIGEST_SHA384 = 3, /* of SHA-384, with 48 bytes */
    PETOOL_DIGEST_SHA512 = 4, /* of SHA-512, with 64 bytes */
    PETOOL_DIGEST_OTHER = 5   /* of an algorithm that is not computed here */
};

enum {
    PETOOL_FIT_NO = 0,     /* that of other bytes */
    PETOOL_FIT_YES = 1,    /* that of the file */
    PETOOL_FIT_UNKNOWN = 2 /* not compared: it is absent, not computed here, or what a signature signs is ambiguous */
};

typedef struct petool_signature {
    uint64_t offset;    /* the file offset of its certificate */
    petool_text bytes;  /* the signature, for petool_signers */
    petool_text digest; /* the digest that it signs; empty for PETOOL_DIGEST_NONE */
    uint32_t algorithm; /* a PETOOL_DIGEST: the algorithm of the digest */
    uint32_t fits;      /* a PETOOL_FIT: whether the digest is that of the file */
} petool_signature;
/* end of describe/records.txt */

static inline void petool_signatures_init(petool_signature *rows, size_t count)
{
    petool_signature none = {0, PETOOL_NONE, PETOOL_NONE, 0, 0};
    for (size_t k = 0; k < count; k++)
        rows[k] = none;
}

/* The signatures (Authenticode): the certificates of type 2, in table order, each with the digest that it signs. A digest of the
 * file is computed once for each algorithm that a row needs, and none for a call without room. OK; SMALL; or FAULT, with one of
 * 1 to 12. The rows must be initialized before. */
PETOOL_WARN_UNUSED uint32_t petool_authenticode(const uint8_t *file, size_t len, petool_signature *rows, size_t room, size_t *count,
                                                petool_fault *fault);

/* from describe/records.txt: digest */
typedef struct petool_digest {
    uint8_t bytes[64]; /* its bytes, with zeros after them */
    uint32_t len;      /* how many bytes it has: 16 (an import hash), 20, 32, 48 or 64 */
} petool_digest;
/* end of describe/records.txt */

/* The digest that a signature of the file is to sign, by PETOOL_DIGEST_SHA1 to SHA512: of the file without CheckSum, the entry
 * of directory 4 and the certificate table. OK; FAULT, with one of 1 to 12; ARGUMENT for another algorithm; or ABSENT if what a
 * signature signs is ambiguous: if raw data do not follow the headers without a gap or an overlap, or that table is not after
 * them at the end of the file. */
PETOOL_WARN_UNUSED uint32_t petool_authenticode_digest(const uint8_t *file, size_t len, uint32_t algorithm, petool_digest *digest,
                                                       petool_fault *fault);

/* from describe/records.txt: signer */
typedef struct petool_signer {
    petool_text serial;                    /* the serial number, big-endian */
    petool_text issuer, subject;           /* the contents of the names */
    petool_text issuer_name, subject_name; /* their common names; empty if there is none */
} petool_signer;
/* end of describe/records.txt */

static inline void petool_signers_init(petool_signer *rows, size_t count)
{
    petool_signer none = {PETOOL_NONE, PETOOL_NONE, PETOOL_NONE, PETOOL_NONE, PETOOL_NONE};
    for (size_t k = 0; k < count; k++)
        rows[k] = none;
}

/* The certificates that a signature has, given its bytes, as far as they can be read. OK; or SMALL. The rows must be initialized
 * before. */
PETOOL_WARN_UNUSED uint32_t petool_signers(const uint8_t *signature, size_t len, petool_signer *rows, size_t room, size_t *count);

/* from describe/records.txt: rich_header, rich_pair */
typedef struct petool_rich_header {
    uint64_t offset;   /* the file offset of DanS, with which it begins */
    uint32_t key;      /* its key, with which all of it is exclusive-or'ed */
    uint32_t computed; /* what the key is to be: a sum of the bytes before it and of its pairs */
} petool_rich_header;

typedef struct petool_rich_pair {
    uint16_t product; /* the number of the tool */
    uint16_t build;   /* the number of its build */
    uint32_t count;   /* how many objects it made */
} petool_rich_pair;
/* end of describe/records.txt */

/* The Rich header. OK; FAULT, with one of 1 to 12; or ABSENT. */
PETOOL_WARN_UNUSED uint32_t petool_rich(const uint8_t *file, size_t len, petool_rich_header *rich, petool_fault *fault);

/* Its pairs, in order; none without a Rich header. OK; SMALL; or FAULT, with one of 1 to 12. */
PETOOL_WARN_UNUSED uint32_t petool_rich_pairs(const uint8_t *file, size_t len, petool_rich_pair *rows, size_t room, size_t *count,
                                              petool_fault *fault);

/* from describe/records.txt: overlays, overlay_range */
enum {
    PETOOL_OVERLAY_NONE = 0,          /* nothing: there is none */
    PETOOL_OVERLAY_CERTIFICATES = 1,  /* the certificate table, by directory 4 */
    PETOOL_OVERLAY_SYMBOL_TABLE = 2,  /* the symbol table, by PointerToSymbolTable */
    PETOOL_OVERLAY_NSIS = 3,          /* the data of an NSIS installer */
    PETOOL_OVERLAY_SEVEN_ZIP = 4,     /* a 7-Zip archive, or the configuration of an installer that unpacks one */
    PETOOL_OVERLAY_ZIP = 5,           /* a ZIP archive */
    PETOOL_OVERLAY_RAR = 6,           /* a RAR archive */
    PETOOL_OVERLAY_CABINET = 7,       /* a cabinet */
    PETOOL_OVERLAY_COMPOUND_FILE = 8, /* a compound file, such as a Windows Installer package */
    PETOOL_OVERLAY_EXECUTABLE = 9,    /* an executable file */
    PETOOL_OVERLAY_OTHER = 10         /* something else */
};

typedef struct petool_overlay_range {
    uint64_t offset; /* where these bytes end */
    uint64_t size;   /* how many bytes the file has from there on; 0 if it has no overlay */
    uint32_t kind;   /* a PETOOL_OVERLAY: what the overlay begins with */
} petool_overlay_range;
/* end of describe/records.txt */

/* The overlay, which is all behind the headers and the raw data of the last section: a certificate table belongs to it. OK; or
 * FAULT, with one of 1 to 12. */
PETOOL_WARN_UNUSED uint32_t petool_overlay(const uint8_t *file, size_t len, petool_overlay_range *overlay, petool_fault *fault);

/* The findings on the certificate table (221 to 225) and on the Rich header (241), at most six, by number. OK; SMALL; or FAULT,
 * with one of 1 to 12. */
PETOOL_WARN_UNUSED uint32_t petool_trust_findings(const uint8_t *file, size_t len, petool_fault *rows, size_t room, size_t *count,
                                                  petool_fault *fault);

/* The import hash: the MD5 digest of what an image imports, told as text, which is 16 bytes and equal for programs that were built
 * alike. OK; ABSENT if it imports nothing, or if that text has over 16 MB; FAULT, with one of 1 to 15 and 24 to 32; or
 * NO_MEMORY. */
PETOOL_WARN_UNUSED uint32_t petool_import_hash(const uint8_t *file, size_t len, petool_digest *hash, petool_fault *fault);

/* ---- an image that is kept open between calls ---- */

/* The caller owns the struct, and sets it to PETOOL_IMAGE_CLOSED before the first call. petool_image_open opens it;
 * petool_image_close closes it, and does nothing to a closed one. The bytes of the file must stay, unchanged, until the image and
 * each that shares it is closed. The struct may be moved to another place in memory between two calls, but never copy it: both
 * copies would own the same memory, and closing both would free it twice; petool_image_share makes another struct of an image.
 * Only this library writes its fields; is_open may be read.
 * One call at a time may use a struct, from any thread: between calls from two threads there must be a lock, or the start or the
 * end of a thread. Threads that are to use one image at once need a struct each. */
/* from describe/records.txt: image */
typedef struct petool_image {
    void *state;
    bool is_open;
} petool_image;
/* end of describe/records.txt */

#define PETOOL_IMAGE_CLOSED {NULL, false}

/* The same as a value, for a struct that is not declared here: `it->image = petool_image_closed();`. */
static inline petool_image petool_image_closed(void)
{
    petool_image closed = PETOOL_IMAGE_CLOSED;
    return closed;
}

/* Checks a file as petool_check does, and keeps the contents of its tables, so that no later call reads them again. An open image
 * is closed first. OK, and then the image is open; otherwise it is closed: FAULT, with the first of 1 to 38; or MEMORY, but not if
 * the file has one of faults 1 to 15. */
PETOOL_WARN_UNUSED uint32_t petool_image_open(petool_image *image, const uint8_t *file, size_t len, petool_fault *fault);

/* Makes `other` another struct of the same image; if it is open, it is closed first. Each must be closed, and the last that is
 * frees the memory. OK, and then `other` is open if `image` is, and otherwise closed; or MEMORY, which leaves `other` closed, but
 * not if `image` is closed. */
PETOOL_WARN_UNUSED uint32_t petool_image_share(petool_image *image, petool_image *other);
void petool_image_close(petool_image *image);

/* What petool_read, petool_read_text and petool_locate return for the image's file. OK; ABSENT; or CLOSED. Like the calls below,
 * they allocate nothing. *text must be initialized before. */
PETOOL_WARN_UNUSED uint32_t petool_image_read(petool_image *image, uint32_t rva, uint8_t *buffer, size_t count);
PETOOL_WARN_UNUSED uint32_t petool_image_read_text(petool_image *image, uint32_t rva, petool_text *text);
PETOOL_WARN_UNUSED uint32_t petool_image_locate(petool_image *image, uint32_t rva, uint64_t *offset);

/* What one name or one ordinal exports, by an index that the image keeps. OK; ABSENT; or CLOSED. *target must be initialized
 * before. */
PETOOL_WARN_UNUSED uint32_t petool_image_export_by_name(petool_image *image, const uint8_t *name, size_t len,
                                                        petool_target *target);
PETOOL_WARN_UNUSED uint32_t petool_image_export_by_ordinal(petool_image *image, uint64_t ordinal, petool_target *target);

/* The import whose slot is at an RVA; the imports are looked at one by one. OK; ABSENT; or CLOSED. *found must be initialized
 * before. */
PETOOL_WARN_UNUSED uint32_t petool_image_import_at(petool_image *image, uint32_t slot, petool_import *found);

/* The tables, in the order in which petool_exports and so on have them. OK; SMALL; or CLOSED. */
PETOOL_WARN_UNUSED uint32_t petool_image_exports(petool_image *image, petool_export *rows, size_t room, size_t *count);
PETOOL_WARN_UNUSED uint32_t petool_image_export_names(petool_image *image, petool_export *rows, size_t room, size_t *count);
PETOOL_WARN_UNUSED uint32_t petool_image_imports(petool_image *image, petool_import *rows, size_t room, size_t *count);
PETOOL_WARN_UNUSED uint32_t petool_image_fixups(petool_image *image, petool_fixup *rows, size_t room, size_t *count);

/* The image's file for the base `base`, as petool_rebase writes it to a buffer of the file's length; the tables are not read again.
 * OK; ARGUMENT; FAULT, with the first of 44 to 46, 51 and 52; MEMORY; or CLOSED. */
PETOOL_WARN_UNUSED uint32_t petool_image_rebase(petool_image *image, uint64_t base, uint8_t *buffer, size_t room,
                                                petool_fault *fault);

/* ---- files at other bases ---- */

/* The image's file for the base `base`, written to a buffer, whose length `room` must be `len`. OK; ARGUMENT if it is not; FAULT,
 * with the first of 1 to 15, 24 to 38, 44 to 46, 51 and 52; or MEMORY, but not if the file has one of faults 1 to 15. */
PETOOL_WARN_UNUSED uint32_t petool_rebase(const uint8_t *file, size_t len, uint64_t base, uint8_t *buffer, size_t room,
                                          petool_fault *fault);

/* ---- sets of images ---- */

/* from describe/records.txt: entry, binding */
typedef struct petool_entry {
    petool_text name; /* the module's name, such as "kernel32.dll"; the case of ASCII letters is ignored */
    petool_text file; /* all bytes of its file */
    uint64_t base;    /* the image's base */
} petool_entry;

typedef struct petool_binding {
    uint32_t image, slot;   /* the index of the entry whose image has the slot, and the slot's RVA */
    uint32_t exporter, rva; /* the index of the entry whose image has the export, and its RVA */
} petool_binding;
/* end of describe/records.txt */

/* Checks a set, and returns what each import is bound to, by image and then in the order of its import table. With `known`, an
 * import from a module that is not in the set is not a fault. OK; SMALL; FAULT, with the first of the set, and for 50 the length of
 * the cycle of forwarders in *cycle; or MEMORY, but not if a name has a fault (41, 42), nor for a set without entries. */
PETOOL_WARN_UNUSED uint32_t petool_judge(const petool_entry *set, size_t entries, bool known, petool_binding *rows, size_t room,
                                         size_t *count, uint32_t *cycle, petool_fault *fault);

/* from describe/records.txt: unbound_import */
typedef struct petool_unbound_import {
    petool_text module, name; /* name: empty for an import by ordinal */
    uint64_t ordinal;         /* the ordinal of an import by ordinal; otherwise 0 */
    uint32_t image, slot;     /* the index of the entry whose image has the slot, and the slot's RVA */
    bool by_ordinal;          /* whether it is imported by ordinal */
} petool_unbound_import;
/* end of describe/records.txt */

static inline void petool_unbound_init(petool_unbound_import *rows, size_t room)
{
    petool_text none = PETOOL_NONE;
    for (size_t i = 0; i < room; i++) {
        petool_unbound_import row = {none, none, 0, 0, 0, false};
        rows[i] = row;
    }
}

/* Checks a set, in which an import from a module that is not there is no fault, as petool_judge does with `known`, and reports the
 * imports that are therefore bound to nothing, image by image and in the order of each image's imports. Their slots keep their bytes
 * from the file. OK; SMALL; FAULT, with the first fault of the set, and for 50 the length of the cycle of forwarders in *cycle; or
 * MEMORY, but not if a name has a fault (41, 42) or the set is empty. */
PETOOL_WARN_UNUSED uint32_t petool_unbound(const petool_entry *set, size_t entries, petool_unbound_import *rows, size_t room,
                                           size_t *count, uint32_t *cycle, petool_fault *fault);

/* ---- a space: many images at their bases, kept between calls ---- */

/* The caller owns the struct, and sets it to PETOOL_SPACE_CLOSED before the first call. petool_space_map or petool_space_open opens
 * it; petool_space_close closes it, and does nothing to a closed space. The struct may be moved to another place in memory between
 * two calls, but never copy it: petool_space_share makes another one of the same space, and the memory is freed with the last that
 * is closed.
 * Only this library writes its fields; is_open may be read.
 * One call at a time may use it, from any thread: between calls from two threads there must be a lock, or the start or the end of a
 * thread. Threads that each have their own struct of one space need no lock. */
/* from describe/records.txt: space */
typedef struct petool_space {
    void *state;
    bool is_open;
} petool_space;
/* end of describe/records.txt */

#define PETOOL_SPACE_CLOSED {NULL, false}

/* The same as a value. */
static inline petool_space petool_space_closed(void)
{
    petool_space closed = PETOOL_SPACE_CLOSED;
    return closed;
}

/* Maps a set: each image at its base, with its fields relocated and its imports bound. An open space is closed first. With
 * `known`, an import from a module that is not in the set is not a fault, and its slot keeps its bytes from the file.
 * OK, and then the space is open; otherwise it is closed: FAULT, with the first of the set, and for 50 the length of the cycle of
 * forwarders in *cycle; or MEMORY, but not if a name has a fault (41, 42). The files may be freed: the space holds its own
 * bytes. */
PETOOL_WARN_UNUSED uint32_t petool_space_map(petool_space *space, const petool_entry *set, size_t entries, bool known,
                                             uint32_t *cycle, petool_fault *fault);

/* The same, unless the images have more than `most_bytes` bytes together: then LARGE, whatever faults the set has, and before
 * memory is allocated, and the space is closed. The size of an image is its SizeOfImage, or 0 if its file has one of faults 1 to
 * 15, with which the set is refused. */
PETOOL_WARN_UNUSED uint32_t petool_space_map_within(petool_space *space, const petool_entry *set, size_t entries, bool known,
                                                    uint64_t most_bytes, uint32_t *cycle, petool_fault *fault);

/* Opens a set as a space over its files: the same bytes, bindings and moves as those of petool_space_map, without a copy of the
 * images; OK, FAULT and MEMORY as there. The bytes of the files (not the entries, nor the names) must stay, unchanged, until the
 * space and each that shares it is closed. */
PETOOL_WARN_UNUSED uint32_t petool_space_open(petool_space *space, const petool_entry *set, size_t entries, bool known,
                                              uint32_t *cycle, petool_fault *fault);

/* Makes `other` a struct of the same space, for another thread; what it held is closed first. As long as both are open, the space is
 * read, and not moved. OK, and then `other` is open if `space` is; or MEMORY, which leaves `other` closed. */
PETOOL_WARN_UNUSED uint32_t petool_space_share(petool_space *space, petool_space *other);
void petool_space_close(petool_space *space);

/* The bytes from an address on. OK; FAULT 54 if they do not all lie in one image, which leaves the buffer unchanged, but never for
 * 0 bytes; or CLOSED. */
PETOOL_WARN_UNUSED uint32_t petool_space_read(petool_space *space, uint64_t address, uint8_t *buffer, size_t len,
                                              petool_fault *fault);

/* from describe/records.txt: moved */
typedef struct petool_moved {
    uint32_t fields, slots; /* how many fields of the image, and how many bound slots of all images, were written */
} petool_moved;
/* end of describe/records.txt */

/* Moves the image of an entry to another base: relocates its fields, and binds again the slots whose exports are in it. OK; SHARED,
 * if another open struct shares the space; FAULT, with the first of 55 and 44 to 47; or CLOSED. All but OK change nothing. */
PETOOL_WARN_UNUSED uint32_t petool_space_move(petool_space *space, uint32_t image, uint64_t base, petool_moved *moved,
                                              petool_fault *fault);

/* The base of the image of an entry, and how many bytes it has. OK; ABSENT if there is no such image; or CLOSED. */
PETOOL_WARN_UNUSED uint32_t petool_space_image(petool_space *space, uint32_t image, uint64_t *base, uint32_t *size);

/* What each import is bound to, in the order of petool_judge. OK; SMALL; or CLOSED. */
PETOOL_WARN_UNUSED uint32_t petool_space_bindings(petool_space *space, petool_binding *rows, size_t room, size_t *count);

/* ---- objects ---- */

/* from describe/records.txt: object_header, section_header */
typedef struct petool_object_header {
    uint16_t machine, number_of_sections;
    uint32_t time_date_stamp, pointer_to_symbol_table, number_of_symbols;
    uint16_t size_of_optional_header, characteristics;
} petool_object_header;

typedef struct petool_section_header {
    uint8_t name[8];          /* a name, padded with zero bytes, or its offset in the string table */
    uint32_t virtual_size, virtual_address, size_of_raw_data, pointer_to_raw_data, pointer_to_relocations, pointer_to_linenumbers;
    uint16_t number_of_relocations, number_of_linenumbers;
    uint32_t characteristics; /* the section's flags */
} petool_section_header;
/* end of describe/records.txt */

/* from describe/records.txt: object_section, object_relocation */
typedef struct petool_object_section {
    petool_text name, bytes; /* bytes are empty if the file holds none */
    uint32_t absent_size;    /* then SizeOfRawData; otherwise 0 */
    uint32_t virtual_size, virtual_address, characteristics, relocation_count;
} petool_object_section;

typedef struct petool_object_relocation {
    uint32_t address; /* the offset of the reference in the section plus the section's VirtualAddress */
    uint32_t symbol;  /* the index of the symbol's record, counting auxiliary records */
    uint32_t kind;    /* the type, which depends on the machine */
} petool_object_relocation;
/* end of describe/records.txt */

/* from describe/records.txt: section_numbers */
enum {
    PETOOL_SECTION_UNDEFINED = 0,     /* the section number of a symbol that is defined in another object */
    PETOOL_SECTION_ABSOLUTE = 0xffff, /* the section number of a symbol whose value is not an address */
    PETOOL_SECTION_DEBUG = 0xfffe     /* the section number of a symbol for debuggers */
};
/* end of describe/records.txt */

/* from describe/records.txt: object_symbol */
typedef struct petool_object_symbol {
    petool_text name, aux;   /* aux has 18 bytes for each auxiliary record */
    uint32_t index;          /* the index of the symbol's record, to which relocations refer */
    uint32_t value;          /* its meaning depends on the section and the class */
    uint16_t section_number; /* counted from 1, or a PETOOL_SECTION */
    uint16_t kind;
    uint8_t class_;          /* the storage class */
} petool_object_symbol;
/* end of describe/records.txt */

/* from describe/records.txt: either_section_numbers */
#define PETOOL_EITHER_SECTION_UNDEFINED UINT32_C(0)         /* the section number, in 32 bits, of a symbol of another object */
#define PETOOL_EITHER_SECTION_ABSOLUTE UINT32_C(0xffffffff) /* the section number, in 32 bits, of a symbol whose value is not an address */
#define PETOOL_EITHER_SECTION_DEBUG UINT32_C(0xfffffffe)    /* the section number, in 32 bits, of a symbol for debuggers */
/* end of describe/records.txt */

/* from describe/records.txt: either_object_symbol */
typedef struct petool_either_object_symbol {
    petool_text name, aux;   /* aux has 18 bytes for each auxiliary record of a plain object, 20 of a big one */
    uint32_t index;          /* the index of the symbol's record, to which relocations refer */
    uint32_t value;          /* its meaning depends on the section and the class */
    uint32_t section_number; /* counted from 1, or a PETOOL_EITHER_SECTION */
    uint16_t kind;
    uint8_t class_;          /* the storage class */
} petool_either_object_symbol;
/* end of describe/records.txt */

/* from describe/records.txt: big_object_header */
typedef struct petool_big_object_header {
    uint16_t version, machine;
    uint32_t time_date_stamp, size_of_data, flags, meta_data_size, meta_data_offset;
    uint32_t number_of_sections, pointer_to_symbol_table, number_of_symbols;
} petool_big_object_header;
/* end of describe/records.txt */

static inline void petool_object_sections_init(petool_object_section *rows, size_t room)
{
    petool_text none = PETOOL_NONE;
    for (size_t i = 0; i < room; i++) {
        petool_object_section row = {none, none, 0, 0, 0, 0, 0};
        rows[i] = row;
    }
}

static inline void petool_object_symbols_init(petool_object_symbol *rows, size_t room)
{
    petool_text none = PETOOL_NONE;
    for (size_t i = 0; i < room; i++) {
        petool_object_symbol row = {none, none, 0, 0, 0, 0, 0};
        rows[i] = row;
    }
}

static inline void petool_either_object_symbols_init(petool_either_object_symbol *rows, size_t room)
{
    petool_text none = PETOOL_NONE;
    for (size_t i = 0; i < room; i++) {
        petool_either_object_symbol row = {none, none, 0, 0, 0, 0, 0};
        rows[i] = row;
    }
}

/* OK if the object has none of faults 61 to 72, otherwise FAULT. Allocates nothing. */
PETOOL_WARN_UNUSED uint32_t petool_object_check(const uint8_t *file, size_t len, petool_fault *fault);

/* The COFF file header, and as many of the section headers as fit into the rows, each field as the file has it: number_of_sections
 * says how many there are. OK if the object has none of faults 61 to 72, otherwise FAULT. Allocates nothing. */
PETOOL_WARN_UNUSED uint32_t petool_object_headers(const uint8_t *file, size_t len, petool_object_header *header,
                                                  petool_section_header *sections, size_t room, petool_fault *fault);

/* Its sections, and its symbols, in the order of their tables. OK; SMALL; or FAULT, with one of 61 to 72. They allocate memory to
 * remember where names end; without it, names are searched again. */
PETOOL_WARN_UNUSED uint32_t petool_object_sections(const uint8_t *file, size_t len, petool_object_section *rows, size_t room,
                                                   size_t *count, petool_fault *fault);

PETOOL_WARN_UNUSED uint32_t petool_object_symbols(const uint8_t *file, size_t len, petool_object_symbol *rows, size_t room,
                                                  size_t *count, petool_fault *fault);

/* The symbols of an image, as rows of those of an object, in table order: those whose records the file holds. A name that leads to no
 * string is empty. OK; SMALL; or FAULT, with one of 1 to 12; memory as for those of an object. */
PETOOL_WARN_UNUSED uint32_t petool_image_symbols(const uint8_t *file, size_t len, petool_object_symbol *rows, size_t room,
                                                 size_t *count, petool_fault *fault);

/* The relocations of one section, counted from 0, in the order of their table. OK; SMALL; ABSENT if there is no such section; or
 * FAULT, with one of 61 to 72. Allocates nothing. */
PETOOL_WARN_UNUSED uint32_t petool_object_relocations(const uint8_t *file, size_t len, size_t section,
                                                      petool_object_relocation *rows, size_t room, size_t *count,
                                                      petool_fault *fault);

/* The relocations of all sections, section by section, without the first `skipped` of them; the sections' rows say how many each
 * has. OK; SMALL; or FAULT, with one of 61 to 72; memory as for the sections. *count is the number of those after the skipped ones,
 * and 0 past the last. Each call checks the whole object, then takes a step for each section, whose name is searched as by
 * petool_object_sections, and one for each row that it fills. So to get all relocations, call this once, and not
 * petool_object_relocations for each section; with fewer rows, read in windows: skip 0, room, 2 * room, .. until a call returns
 * OK. */
PETOOL_WARN_UNUSED uint32_t petool_object_all_relocations(const uint8_t *file, size_t len, size_t skipped,
                                                          petool_object_relocation *rows, size_t room, size_t *count,
                                                          petool_fault *fault);

/* The calls above refuse a big object (/bigobj), whose section numbers have 32 bits: FAULT, with 62. Those below take objects of
 * either form: a file that begins with Machine 0 and 0xffff sections is checked as a big object, with 62 at offset 4 if the version
 * of its header is under 2 and at 12 if its class is another; every other file is checked as petool_object_check does. */

/* OK, and in *big, which must be initialized before, whether it is a big object; or FAULT, with one of 61 to 72. Allocates
 * nothing. */
PETOOL_WARN_UNUSED uint32_t petool_either_object_check(const uint8_t *file, size_t len, bool *big, petool_fault *fault);

/* As petool_object_sections, petool_object_relocations and petool_object_all_relocations. */
PETOOL_WARN_UNUSED uint32_t petool_either_object_sections(const uint8_t *file, size_t len, petool_object_section *rows, size_t room,
                                                          size_t *count, petool_fault *fault);

PETOOL_WARN_UNUSED uint32_t petool_either_object_relocations(const uint8_t *file, size_t len, size_t section,
                                                             petool_object_relocation *rows, size_t room, size_t *count,
                                                             petool_fault *fault);

PETOOL_WARN_UNUSED uint32_t petool_either_object_all_relocations(const uint8_t *file, size_t len, size_t skipped,
                                                                 petool_object_relocation *rows, size_t room, size_t *count,
                                                                 petool_fault *fault);

/* As petool_object_symbols, with section numbers of 32 bits in the rows of both forms. */
PETOOL_WARN_UNUSED uint32_t petool_either_object_symbols(const uint8_t *file, size_t len, petool_either_object_symbol *rows,
                                                         size_t room, size_t *count, petool_fault *fault);

/* The header of a big object, and as many of its section headers as fit into the rows, as petool_object_headers reads those of a plain
 * one, which this call refuses: FAULT, with 62 at offset 0. OK; or FAULT, with one of 61 to 72. Allocates nothing. */
PETOOL_WARN_UNUSED uint32_t petool_big_object_headers(const uint8_t *file, size_t len, petool_big_object_header *header,
                                                      petool_section_header *sections, size_t room, petool_fault *fault);

/* ---- archives ---- */

/* OK if the file begins as an archive of COFF objects, otherwise FAULT, with 1 or 300. Allocates nothing. */
PETOOL_WARN_UNUSED uint32_t petool_archive_check(const uint8_t *file, size_t len, petool_fault *fault);

/* from describe/records.txt: member_kinds, archive_member */
enum {
    PETOOL_MEMBER_FILE = 0,       /* a file, mostly a COFF object */
    PETOOL_MEMBER_IMPORT = 1,     /* a short import object */
    PETOOL_MEMBER_LINKER = 2,     /* a linker member, which has symbols of the archive */
    PETOOL_MEMBER_LONG_NAMES = 3, /* the member that has long names */
    PETOOL_MEMBER_OWN = 4,        /* another one that the archive keeps for itself */
    PETOOL_MEMBER_APART = 5       /* one of a thin archive, whose bytes are in another file */
};

typedef struct petool_archive_member {
    petool_text name;                     /* the name; empty if its field leads to no text */
    petool_text bytes;                    /* what it holds, without its name; empty if that is in another file */
    uint64_t offset;                      /* the file offset of its header */
    uint64_t size;                        /* how many bytes its header gives it, with those of a name that is at its front */
    petool_field date, user, group, mode; /* date in seconds since 1970, mode as Unix has it */
    uint32_t kind;
    bool has_name;                        /* whether its name field leads to a text */
} petool_archive_member;
/* end of describe/records.txt */

static inline void petool_archive_members_init(petool_archive_member *rows, size_t count)
{
    petool_archive_member none = {PETOOL_NONE, PETOOL_NONE, 0, 0, {0, false}, {0, false}, {0, false}, {0, false}, 0, false};
    for (size_t k = 0; k < count; k++)
        rows[k] = none;
}

/* The members, in file order and with those that the archive keeps for itself, up to the first header with one of findings 301 to 303.
 * OK; SMALL; FAULT, with 1 or 300; or MEMORY. It allocates memory only if the archive has long names, to remember where they end. The
 * rows must be initialized before. */
PETOOL_WARN_UNUSED uint32_t petool_archive_members(const uint8_t *file, size_t len, petool_archive_member *rows, size_t room,
                                                   size_t *count, petool_fault *fault);

/* from describe/records.txt: archive_symbol */
typedef struct petool_archive_symbol {
    petool_text name;
    petool_field member; /* the file offset of the header of the member that defines it */
} petool_archive_symbol;
/* end of describe/records.txt */

static inline void petool_archive_symbols_init(petool_archive_symbol *rows, size_t count)
{
    petool_archive_symbol none = {PETOOL_NONE, {0, false}};
    for (size_t k = 0; k < count; k++)
        rows[k] = none;
}

/* The symbols of a linker member, 1 the first or 2 the second, in table order and up to the first one without a name. OK; SMALL;
 * ABSENT if the archive has no such member; ARGUMENT for another number; or FAULT, with 1 or 300. Allocates nothing. The rows must
 * be initialized before. */
PETOOL_WARN_UNUSED uint32_t petool_archive_symbols(const uint8_t *file, size_t len, uint32_t linker, petool_archive_symbol *rows,
                                                   size_t room, size_t *count, petool_fault *fault);

/* from describe/records.txt: import_object */
typedef struct petool_import_object {
    petool_text symbol, module, name; /* symbol, DLL, and the name that is imported, which is empty by ordinal */
    uint32_t time_date_stamp;         /* when it was made, as its maker wrote it */
    uint16_t machine, ordinal;        /* the processor, and the ordinal or the hint */
    uint8_t kind, name_type;          /* kind: 0 code, 1 data, 2 a constant; name_type: 0 by ordinal */
} petool_import_object;
/* end of describe/records.txt */

static inline void petool_import_object_init(petool_import_object *found)
{
    petool_import_object none = {PETOOL_NONE, PETOOL_NONE, PETOOL_NONE, 0, 0, 0, 0, 0};
    *found = none;
}

/* A short import object, given the bytes of a member of PETOOL_MEMBER_IMPORT. OK; ABSENT if the bytes begin as no short import
 * object does; or FAULT, with one of 331 to 333, at offset 0 of these bytes. Allocates nothing. The record must be initialized
 * before. */
PETOOL_WARN_UNUSED uint32_t petool_archive_import(const uint8_t *member, size_t len, petool_import_object *found,
                                                  petool_fault *fault);

/* The findings: 301 to 304 of the members in file order, 305 and 306 of the first linker member and of the second, and then the first
 * of 331 to 333 of each short import object. Objects are not read: petool_object_check says whether one has a fault. OK; SMALL; FAULT,
 * with 1 or 300; or MEMORY. */
PETOOL_WARN_UNUSED uint32_t petool_archive_findings(const uint8_t *file, size_t len, petool_fault *rows, size_t room, size_t *count,
                                                    petool_fault *fault);

/* from describe/records.txt: new_member */
typedef struct petool_new_member {
    petool_text name;  /* the name, which may have `/` in it, but not at its end */
    petool_text bytes; /* what it holds: an object, a short import object, or anything else */
} petool_new_member;
/* end of describe/records.txt */

/* The archive of members, with both linker members, written to a buffer. OK; SMALL if it has more bytes than there is room for, of
 * which the buffer then has the first; FAULT, with 91 to 93; or MEMORY, but not if a member has one of faults 91 and 92. *count is how
 * many bytes the archive has. The texts of a member are those of a file or of your own; PETOOL_NONE is one of no bytes. */
PETOOL_WARN_UNUSED uint32_t petool_archive_write(const petool_new_member *members, size_t entries, uint8_t *buffer, size_t room,
                                                 size_t *count, petool_fault *fault);

/* ---- NULL with length 0 ---- */

/* The exports of the library take no NULL, not even with length 0: what they are proved for has no such pointer. So these functions
 * stand in for them, under their names. A program that does not use this header has to pass another pointer. */
#define PETOOL_IS_LOST(at, len) ((at) == NULL && (len) != 0)

static inline const void *petool_some(const void *at)
{
    static const uint64_t none[2] = {0, 0};
    return at != NULL ? at : none;
}

static inline void *petool_room(void *at)
{
    static uint64_t none[2];
    return at != NULL ? at : none;
}

/* from describe/records.txt: calls with NULL */
PETOOL_WARN_UNUSED static inline uint32_t petool_nullable_check(const uint8_t *file, size_t len, petool_fault *fault)
{
    if (PETOOL_IS_LOST(file, len))
        return PETOOL_ARGUMENT;
    return petool_check((const uint8_t *)petool_some(file), len, fault);
}
#define petool_check petool_nullable_check

PETOOL_WARN_UNUSED static inline uint32_t petool_nullable_read_headers(const uint8_t *file, size_t len, petool_headers *headers,
                                                                       petool_section *sections, size_t room, petool_fault *fault)
{
    if (PETOOL_IS_LOST(file, len))
        return PETOOL_ARGUMENT;
    if (PETOOL_IS_LOST(sections, room))
        return PETOOL_ARGUMENT;
    return petool_read_headers((const uint8_t *)petool_some(file), len, headers, (petool_section *)petool_room(sections), room,
                               fault);
}
#define petool_read_headers petool_nullable_read_headers

PETOOL_WARN_UNUSED static inline uint32_t petool_nullable_read(const uint8_t *file, size_t len, uint32_t rva, uint8_t *buffer,
                                                               size_t count, petool_fault *fault)
{
    if (PETOOL_IS_LOST(file, len))
        return PETOOL_ARGUMENT;
    if (PETOOL_IS_LOST(buffer, count))
        return PETOOL_ARGUMENT;
    return petool_read((const uint8_t *)petool_some(file), len, rva, (uint8_t *)petool_room(buffer), count, fault);
}
#define petool_read petool_nullable_read

PETOOL_WARN_UNUSED static inline uint32_t petool_nullable_read_text(const uint8_t *file, size_t len, uint32_t rva,
                                                                    petool_text *text, petool_fault *fault)
{
    if (PETOOL_IS_LOST(file, len))
        return PETOOL_ARGUMENT;
    return petool_read_text((const uint8_t *)petool_some(file), len, rva, text, fault);
}
#define petool_read_text petool_nullable_read_text

PETOOL_WARN_UNUSED static inline uint32_t petool_nullable_locate(const uint8_t *file, size_t len, uint32_t rva, uint64_t *offset,
                                                                 petool_fault *fault)
{
    if (PETOOL_IS_LOST(file, len))
        return PETOOL_ARGUMENT;
    return petool_locate((const uint8_t *)petool_some(file), len, rva, offset, fault);
}
#define petool_locate petool_nullable_locate

PETOOL_WARN_UNUSED static inline uint32_t petool_nullable_exports(const uint8_t *file, size_t len, petool_export *rows, size_t room,
                                                                  size_t *count, petool_fault *fault)
{
    if (PETOOL_IS_LOST(file, len))
        return PETOOL_ARGUMENT;
    if (PETOOL_IS_LOST(rows, room))
        return PETOOL_ARGUMENT;
    return petool_exports((const uint8_t *)petool_some(file), len, (petool_export *)petool_room(rows), room, count, fault);
}
#define petool_exports petool_nullable_exports

PETOOL_WARN_UNUSED static inline uint32_t petool_nullable_export_names(const uint8_t *file, size_t len, petool_export *rows,
                                                                       size_t room, size_t *count, petool_fault *fault)
{
    if (PETOOL_IS_LOST(file, len))
        return PETOOL_ARGUMENT;
    if (PETOOL_IS_LOST(rows, room))
        return PETOOL_ARGUMENT;
    return petool_export_names((const uint8_t *)petool_some(file), len, (petool_export *)petool_room(rows), room, count, fault);
}
#define petool_export_names petool_nullable_export_names

PETOOL_WARN_UNUSED static inline uint32_t petool_nullable_imports(const uint8_t *file, size_t len, petool_import *rows, size_t room,
                                                                  size_t *count, petool_fault *fault)
{
    if (PETOOL_IS_LOST(file, len))
        return PETOOL_ARGUMENT;
    if (PETOOL_IS_LOST(rows, room))
        return PETOOL_ARGUMENT;
    return petool_imports((const uint8_t *)petool_some(file), len, (petool_import *)petool_room(rows), room, count, fault);
}
#define petool_imports petool_nullable_imports

PETOOL_WARN_UNUSED static inline uint32_t petool_nullable_fixups(const uint8_t *file, size_t len, petool_fixup *rows, size_t room,
                                                                 size_t *count, petool_fault *fault)
{
    if (PETOOL_IS_LOST(file, len))
        return PETOOL_ARGUMENT;
    if (PETOOL_IS_LOST(rows, room))
        return PETOOL_ARGUMENT;
    return petool_fixups((const uint8_t *)petool_some(file), len, (petool_fixup *)petool_room(rows), room, count, fault);
}
#define petool_fixups petool_nullable_fixups

PETOOL_WARN_UNUSED static inline uint32_t petool_nullable_tables(const uint8_t *file, size_t len, petool_export *exports,
                                                                 size_t export_room, petool_export *names, size_t name_room,
                                                                 petool_import *imports, size_t import_room, petool_fixup *fixups,
                                                                 size_t fixup_room, petool_counts *counts, petool_fault *fault)
{
    if (PETOOL_IS_LOST(file, len))
        return PETOOL_ARGUMENT;
    if (PETOOL_IS_LOST(exports, export_room))
        return PETOOL_ARGUMENT;
    if (PETOOL_IS_LOST(names, name_room))
        return PETOOL_ARGUMENT;
    if (PETOOL_IS_LOST(imports, import_room))
        return PETOOL_ARGUMENT;
    if (PETOOL_IS_LOST(fixups, fixup_room))
        return PETOOL_ARGUMENT;
    return petool_tables((const uint8_t *)petool_some(file), len, (petool_export *)petool_room(exports), export_room,
                         (petool_export *)petool_room(names), name_room, (petool_import *)petool_room(imports), import_room,
                         (petool_fixup *)petool_room(fixups), fixup_room, counts, fault);
}
#define petool_tables petool_nullable_tables

PETOOL_WARN_UNUSED static inline uint32_t petool_nullable_import_at(const uint8_t *file, size_t len, uint32_t slot,
                                                                    petool_import *found, petool_fault *fault)
{
    if (PETOOL_IS_LOST(file, len))
        return PETOOL_ARGUMENT;
    return petool_import_at((const uint8_t *)petool_some(file), len, slot, found, fault);
}
#define petool_import_at petool_nullable_import_at

PETOOL_WARN_UNUSED static inline uint32_t petool_nullable_export_by_name(const uint8_t *file, size_t len, const uint8_t *name,
                                                                         size_t name_len, petool_target *target,
                                                                         petool_fault *fault)
{
    if (PETOOL_IS_LOST(file, len))
        return PETOOL_ARGUMENT;
    if (PETOOL_IS_LOST(name, name_len))
        return PETOOL_ARGUMENT;
    return petool_export_by_name((const uint8_t *)petool_some(file), len, (const uint8_t *)petool_some(name), name_len, target,
                                 fault);
}
#define petool_export_by_name petool_nullable_export_by_name

PETOOL_WARN_UNUSED static inline uint32_t petool_nullable_export_by_ordinal(const uint8_t *file, size_t len, uint64_t ordinal,
                                                                            petool_target *target, petool_fault *fault)
{
    if (PETOOL_IS_LOST(file, len))
        return PETOOL_ARGUMENT;
    return petool_export_by_ordinal((const uint8_t *)petool_some(file), len, ordinal, target, fault);
}
#define petool_export_by_ordinal petool_nullable_export_by_ordinal

PETOOL_WARN_UNUSED static inline uint32_t petool_nullable_findings(const uint8_t *file, size_t len, petool_fault *rows, size_t room,
                                                                   size_t *count, petool_fault *fault)
{
    if (PETOOL_IS_LOST(file, len))
        return PETOOL_ARGUMENT;
    if (PETOOL_IS_LOST(rows, room))
        return PETOOL_ARGUMENT;
    return petool_findings((const uint8_t *)petool_some(file), len, (petool_fault *)petool_room(rows), room, count, fault);
}
#define petool_findings petool_nullable_findings

PETOOL_WARN_UNUSED static inline uint32_t petool_nullable_debug(const uint8_t *file, size_t len, petool_debug_entry *rows,
                                                                size_t room, size_t *count, petool_fault *fault)
{
    if (PETOOL_IS_LOST(file, len))
        return PETOOL_ARGUMENT;
    if (PETOOL_IS_LOST(rows, room))
        return PETOOL_ARGUMENT;
    return petool_debug((const uint8_t *)petool_some(file), len, (petool_debug_entry *)petool_room(rows), room, count, fault);
}
#define petool_debug petool_nullable_debug

PETOOL_WARN_UNUSED static inline uint32_t petool_nullable_pdb(const uint8_t *file, size_t len, petool_pdb_file *pdb,
                                                              petool_fault *fault)
{
    if (PETOOL_IS_LOST(file, len))
        return PETOOL_ARGUMENT;
    return petool_pdb((const uint8_t *)petool_some(file), len, pdb, fault);
}
#define petool_pdb petool_nullable_pdb

PETOOL_WARN_UNUSED static inline uint32_t petool_nullable_functions(const uint8_t *file, size_t len, petool_function *rows,
                                                                    size_t room, size_t *count, petool_fault *fault)
{
    if (PETOOL_IS_LOST(file, len))
        return PETOOL_ARGUMENT;
    if (PETOOL_IS_LOST(rows, room))
        return PETOOL_ARGUMENT;
    return petool_functions((const uint8_t *)petool_some(file), len, (petool_function *)petool_room(rows), room, count, fault);
}
#define petool_functions petool_nullable_functions

PETOOL_WARN_UNUSED static inline uint32_t petool_nullable_tls(const uint8_t *file, size_t len, petool_tls_directory *tls,
                                                              petool_fault *fault)
{
    if (PETOOL_IS_LOST(file, len))
        return PETOOL_ARGUMENT;
    return petool_tls((const uint8_t *)petool_some(file), len, tls, fault);
}
#define petool_tls petool_nullable_tls

PETOOL_WARN_UNUSED static inline uint32_t petool_nullable_tls_callbacks(const uint8_t *file, size_t len, petool_callback *rows,
                                                                        size_t room, size_t *count, petool_fault *fault)
{
    if (PETOOL_IS_LOST(file, len))
        return PETOOL_ARGUMENT;
    if (PETOOL_IS_LOST(rows, room))
        return PETOOL_ARGUMENT;
    return petool_tls_callbacks((const uint8_t *)petool_some(file), len, (petool_callback *)petool_room(rows), room, count, fault);
}
#define petool_tls_callbacks petool_nullable_tls_callbacks

PETOOL_WARN_UNUSED static inline uint32_t petool_nullable_load_configuration(const uint8_t *file, size_t len, petool_field *rows,
                                                                             size_t room, size_t *count, petool_fault *fault)
{
    if (PETOOL_IS_LOST(file, len))
        return PETOOL_ARGUMENT;
    if (PETOOL_IS_LOST(rows, room))
        return PETOOL_ARGUMENT;
    return petool_load_configuration((const uint8_t *)petool_some(file), len, (petool_field *)petool_room(rows), room, count,
                                     fault);
}
#define petool_load_configuration petool_nullable_load_configuration

PETOOL_WARN_UNUSED static inline uint32_t petool_nullable_bound_imports(const uint8_t *file, size_t len, petool_bound_import *rows,
                                                                        size_t room, size_t *count, petool_fault *fault)
{
    if (PETOOL_IS_LOST(file, len))
        return PETOOL_ARGUMENT;
    if (PETOOL_IS_LOST(rows, room))
        return PETOOL_ARGUMENT;
    return petool_bound_imports((const uint8_t *)petool_some(file), len, (petool_bound_import *)petool_room(rows), room, count,
                                fault);
}
#define petool_bound_imports petool_nullable_bound_imports

PETOOL_WARN_UNUSED static inline uint32_t petool_nullable_delay_imports(const uint8_t *file, size_t len, petool_import *rows,
                                                                        size_t room, size_t *count, petool_fault *fault)
{
    if (PETOOL_IS_LOST(file, len))
        return PETOOL_ARGUMENT;
    if (PETOOL_IS_LOST(rows, room))
        return PETOOL_ARGUMENT;
    return petool_delay_imports((const uint8_t *)petool_some(file), len, (petool_import *)petool_room(rows), room, count, fault);
}
#define petool_delay_imports petool_nullable_delay_imports

PETOOL_WARN_UNUSED static inline uint32_t petool_nullable_image_symbols(const uint8_t *file, size_t len, petool_object_symbol *rows,
                                                                        size_t room, size_t *count, petool_fault *fault)
{
    if (PETOOL_IS_LOST(file, len))
        return PETOOL_ARGUMENT;
    if (PETOOL_IS_LOST(rows, room))
        return PETOOL_ARGUMENT;
    return petool_image_symbols((const uint8_t *)petool_some(file), len, (petool_object_symbol *)petool_room(rows), room, count,
                                fault);
}
#define petool_image_symbols petool_nullable_image_symbols

PETOOL_WARN_UNUSED static inline uint32_t petool_nullable_clr(const uint8_t *file, size_t len, petool_field *rows, size_t room,
                                                              size_t *count, petool_fault *fault)
{
    if (PETOOL_IS_LOST(file, len))
        return PETOOL_ARGUMENT;
    if (PETOOL_IS_LOST(rows, room))
        return PETOOL_ARGUMENT;
    return petool_clr((const uint8_t *)petool_some(file), len, (petool_field *)petool_room(rows), room, count, fault);
}
#define petool_clr petool_nullable_clr

PETOOL_WARN_UNUSED static inline uint32_t petool_nullable_resources(const uint8_t *file, size_t len, petool_resource *rows,
                                                                    size_t room, size_t *count, petool_fault *fault)
{
    if (PETOOL_IS_LOST(file, len))
        return PETOOL_ARGUMENT;
    if (PETOOL_IS_LOST(rows, room))
        return PETOOL_ARGUMENT;
    return petool_resources((const uint8_t *)petool_some(file), len, (petool_resource *)petool_room(rows), room, count, fault);
}
#define petool_resources petool_nullable_resources

PETOOL_WARN_UNUSED static inline uint32_t petool_nullable_version(const uint8_t *file, size_t len, petool_version_info *version,
                                                                  petool_fault *fault)
{
    if (PETOOL_IS_LOST(file, len))
        return PETOOL_ARGUMENT;
    return petool_version((const uint8_t *)petool_some(file), len, version, fault);
}
#define petool_version petool_nullable_version

PETOOL_WARN_UNUSED static inline uint32_t petool_nullable_version_strings(const uint8_t *file, size_t len,
                                                                          petool_version_text *rows, size_t room, size_t *count,
                                                                          petool_fault *fault)
{
    if (PETOOL_IS_LOST(file, len))
        return PETOOL_ARGUMENT;
    if (PETOOL_IS_LOST(rows, room))
        return PETOOL_ARGUMENT;
    return petool_version_strings((const uint8_t *)petool_some(file), len, (petool_version_text *)petool_room(rows), room, count,
                                  fault);
}
#define petool_version_strings petool_nullable_version_strings

PETOOL_WARN_UNUSED static inline uint32_t petool_nullable_version_string(const uint8_t *file, size_t len, const uint8_t *key,
                                                                         size_t key_len, petool_text *value, petool_fault *fault)
{
    if (PETOOL_IS_LOST(file, len))
        return PETOOL_ARGUMENT;
    if (PETOOL_IS_LOST(key, key_len))
        return PETOOL_ARGUMENT;
    return petool_version_string((const uint8_t *)petool_some(file), len, (const uint8_t *)petool_some(key), key_len, value, fault);
}
#define petool_version_string petool_nullable_version_string

PETOOL_WARN_UNUSED static inline uint32_t petool_nullable_manifest(const uint8_t *file, size_t len, petool_text *manifest,
                                                                   petool_fault *fault)
{
    if (PETOOL_IS_LOST(file, len))
        return PETOOL_ARGUMENT;
    return petool_manifest((const uint8_t *)petool_some(file), len, manifest, fault);
}
#define petool_manifest petool_nullable_manifest

PETOOL_WARN_UNUSED static inline uint32_t petool_nullable_check_sum(const uint8_t *file, size_t len, petool_check_sums *sum,
                                                                    petool_fault *fault)
{
    if (PETOOL_IS_LOST(file, len))
        return PETOOL_ARGUMENT;
    return petool_check_sum((const uint8_t *)petool_some(file), len, sum, fault);
}
#define petool_check_sum petool_nullable_check_sum

PETOOL_WARN_UNUSED static inline uint32_t petool_nullable_certificates(const uint8_t *file, size_t len, petool_certificate *rows,
                                                                       size_t room, size_t *count, petool_fault *fault)
{
    if (PETOOL_IS_LOST(file, len))
        return PETOOL_ARGUMENT;
    if (PETOOL_IS_LOST(rows, room))
        return PETOOL_ARGUMENT;
    return petool_certificates((const uint8_t *)petool_some(file), len, (petool_certificate *)petool_room(rows), room, count,
                               fault);
}
#define petool_certificates petool_nullable_certificates

PETOOL_WARN_UNUSED static inline uint32_t petool_nullable_authenticode(const uint8_t *file, size_t len, petool_signature *rows,
                                                                       size_t room, size_t *count, petool_fault *fault)
{
    if (PETOOL_IS_LOST(file, len))
        return PETOOL_ARGUMENT;
    if (PETOOL_IS_LOST(rows, room))
        return PETOOL_ARGUMENT;
    return petool_authenticode((const uint8_t *)petool_some(file), len, (petool_signature *)petool_room(rows), room, count, fault);
}
#define petool_authenticode petool_nullable_authenticode

PETOOL_WARN_UNUSED static inline uint32_t petool_nullable_authenticode_digest(const uint8_t *file, size_t len, uint32_t algorithm,
                                                                              petool_digest *digest, petool_fault *fault)
{
    if (PETOOL_IS_LOST(file, len))
        return PETOOL_ARGUMENT;
    return petool_authenticode_digest((const uint8_t *)petool_some(file), len, algorithm, digest, fault);
}
#define petool_authenticode_digest petool_nullable_authenticode_digest

PETOOL_WARN_UNUSED static inline uint32_t petool_nullable_signers(const uint8_t *signature, size_t len, petool_signer *rows,
                                                                  size_t room, size_t *count)
{
    if (PETOOL_IS_LOST(signature, len))
        return PETOOL_ARGUMENT;
    if (PETOOL_IS_LOST(rows, room))
        return PETOOL_ARGUMENT;
    return petool_signers((const uint8_t *)petool_some(signature), len, (petool_signer *)petool_room(rows), room, count);
}
#define petool_signers petool_nullable_signers

PETOOL_WARN_UNUSED static inline uint32_t petool_nullable_rich(const uint8_t *file, size_t len, petool_rich_header *rich,
                                                               petool_fault *fault)
{
    if (PETOOL_IS_LOST(file, len))
        return PETOOL_ARGUMENT;
    return petool_rich((const uint8_t *)petool_some(file), len, rich, fault);
}
#define petool_rich petool_nullable_rich

PETOOL_WARN_UNUSED static inline uint32_t petool_nullable_rich_pairs(const uint8_t *file, size_t len, petool_rich_pair *rows,
                                                                     size_t room, size_t *count, petool_fault *fault)
{
    if (PETOOL_IS_LOST(file, len))
        return PETOOL_ARGUMENT;
    if (PETOOL_IS_LOST(rows, room))
        return PETOOL_ARGUMENT;
    return petool_rich_pairs((const uint8_t *)petool_some(file), len, (petool_rich_pair *)petool_room(rows), room, count, fault);
}
#define petool_rich_pairs petool_nullable_rich_pairs

PETOOL_WARN_UNUSED static inline uint32_t petool_nullable_overlay(const uint8_t *file, size_t len, petool_overlay_range *overlay,
                                                                  petool_fault *fault)
{
    if (PETOOL_IS_LOST(file, len))
        return PETOOL_ARGUMENT;
    return petool_overlay((const uint8_t *)petool_some(file), len, overlay, fault);
}
#define petool_overlay petool_nullable_overlay

PETOOL_WARN_UNUSED static inline uint32_t petool_nullable_trust_findings(const uint8_t *file, size_t len, petool_fault *rows,
                                                                         size_t room, size_t *count, petool_fault *fault)
{
    if (PETOOL_IS_LOST(file, len))
        return PETOOL_ARGUMENT;
    if (PETOOL_IS_LOST(rows, room))
        return PETOOL_ARGUMENT;
    return petool_trust_findings((const uint8_t *)petool_some(file), len, (petool_fault *)petool_room(rows), room, count, fault);
}
#define petool_trust_findings petool_nullable_trust_findings

PETOOL_WARN_UNUSED static inline uint32_t petool_nullable_import_hash(const uint8_t *file, size_t len, petool_digest *hash,
                                                                      petool_fault *fault)
{
    if (PETOOL_IS_LOST(file, len))
        return PETOOL_ARGUMENT;
    return petool_import_hash((const uint8_t *)petool_some(file), len, hash, fault);
}
#define petool_import_hash petool_nullable_import_hash

PETOOL_WARN_UNUSED static inline uint32_t petool_nullable_image_open(petool_image *image, const uint8_t *file, size_t len,
                                                                     petool_fault *fault)
{
    if (PETOOL_IS_LOST(file, len))
        return PETOOL_ARGUMENT;
    return petool_image_open(image, (const uint8_t *)petool_some(file), len, fault);
}
#define petool_image_open petool_nullable_image_open

PETOOL_WARN_UNUSED static inline uint32_t petool_nullable_image_read(petool_image *image, uint32_t rva, uint8_t *buffer,
                                                                     size_t count)
{
    if (PETOOL_IS_LOST(buffer, count))
        return PETOOL_ARGUMENT;
    return petool_image_read(image, rva, (uint8_t *)petool_room(buffer), count);
}
#define petool_image_read petool_nullable_image_read

PETOOL_WARN_UNUSED static inline uint32_t petool_nullable_image_export_by_name(petool_image *image, const uint8_t *name, size_t len,
                                                                               petool_target *target)
{
    if (PETOOL_IS_LOST(name, len))
        return PETOOL_ARGUMENT;
    return petool_image_export_by_name(image, (const uint8_t *)petool_some(name), len, target);
}
#define petool_image_export_by_name petool_nullable_image_export_by_name

PETOOL_WARN_UNUSED static inline uint32_t petool_nullable_image_exports(petool_image *image, petool_export *rows, size_t room,
                                                                        size_t *count)
{
    if (PETOOL_IS_LOST(rows, room))
        return PETOOL_ARGUMENT;
    return petool_image_exports(image, (petool_export *)petool_room(rows), room, count);
}
#define petool_image_exports petool_nullable_image_exports

PETOOL_WARN_UNUSED static inline uint32_t petool_nullable_image_export_names(petool_image *image, petool_export *rows, size_t room,
                                                                             size_t *count)
{
    if (PETOOL_IS_LOST(rows, room))
        return PETOOL_ARGUMENT;
    return petool_image_export_names(image, (petool_export *)petool_room(rows), room, count);
}
#define petool_image_export_names petool_nullable_image_export_names

PETOOL_WARN_UNUSED static inline uint32_t petool_nullable_image_imports(petool_image *image, petool_import *rows, size_t room,
                                                                        size_t *count)
{
    if (PETOOL_IS_LOST(rows, room))
        return PETOOL_ARGUMENT;
    return petool_image_imports(image, (petool_import *)petool_room(rows), room, count);
}
#define petool_image_imports petool_nullable_image_imports

PETOOL_WARN_UNUSED static inline uint32_t petool_nullable_image_fixups(petool_image *image, petool_fixup *rows, size_t room,
                                                                       size_t *count)
{
    if (PETOOL_IS_LOST(rows, room))
        return PETOOL_ARGUMENT;
    return petool_image_fixups(image, (petool_fixup *)petool_room(rows), room, count);
}
#define petool_image_fixups petool_nullable_image_fixups

PETOOL_WARN_UNUSED static inline uint32_t petool_nullable_image_rebase(petool_image *image, uint64_t base, uint8_t *buffer,
                                                                       size_t room, petool_fault *fault)
{
    if (PETOOL_IS_LOST(buffer, room))
        return PETOOL_ARGUMENT;
    return petool_image_rebase(image, base, (uint8_t *)petool_room(buffer), room, fault);
}
#define petool_image_rebase petool_nullable_image_rebase

PETOOL_WARN_UNUSED static inline uint32_t petool_nullable_rebase(const uint8_t *file, size_t len, uint64_t base, uint8_t *buffer,
                                                                 size_t room, petool_fault *fault)
{
    if (PETOOL_IS_LOST(file, len))
        return PETOOL_ARGUMENT;
    if (PETOOL_IS_LOST(buffer, room))
        return PETOOL_ARGUMENT;
    return petool_rebase((const uint8_t *)petool_some(file), len, base, (uint8_t *)petool_room(buffer), room, fault);
}
#define petool_rebase petool_nullable_rebase

PETOOL_WARN_UNUSED static inline uint32_t petool_nullable_judge(const petool_entry *set, size_t entries, bool known,
                                                                petool_binding *rows, size_t room, size_t *count, uint32_t *cycle,
                                                                petool_fault *fault)
{
    if (PETOOL_IS_LOST(set, entries))
        return PETOOL_ARGUMENT;
    if (PETOOL_IS_LOST(rows, room))
        return PETOOL_ARGUMENT;
    return petool_judge((const petool_entry *)petool_some(set), entries, known, (petool_binding *)petool_room(rows), room, count,
                        cycle, fault);
}
#define petool_judge petool_nullable_judge

PETOOL_WARN_UNUSED static inline uint32_t petool_nullable_unbound(const petool_entry *set, size_t entries,
                                                                  petool_unbound_import *rows, size_t room, size_t *count,
                                                                  uint32_t *cycle, petool_fault *fault)
{
    if (PETOOL_IS_LOST(set, entries))
        return PETOOL_ARGUMENT;
    if (PETOOL_IS_LOST(rows, room))
        return PETOOL_ARGUMENT;
    return petool_unbound((const petool_entry *)petool_some(set), entries, (petool_unbound_import *)petool_room(rows), room, count,
                          cycle, fault);
}
#define petool_unbound petool_nullable_unbound

PETOOL_WARN_UNUSED static inline uint32_t petool_nullable_space_map(petool_space *space, const petool_entry *set, size_t entries,
                                                                    bool known, uint32_t *cycle, petool_fault *fault)
{
    if (PETOOL_IS_LOST(set, entries))
        return PETOOL_ARGUMENT;
    return petool_space_map(space, (const petool_entry *)petool_some(set), entries, known, cycle, fault);
}
#define petool_space_map petool_nullable_space_map

PETOOL_WARN_UNUSED static inline uint32_t petool_nullable_space_map_within(petool_space *space, const petool_entry *set,
                                                                           size_t entries, bool known, uint64_t most_bytes,
                                                                           uint32_t *cycle, petool_fault *fault)
{
    if (PETOOL_IS_LOST(set, entries))
        return PETOOL_ARGUMENT;
    return petool_space_map_within(space, (const petool_entry *)petool_some(set), entries, known, most_bytes, cycle, fault);
}
#define petool_space_map_within petool_nullable_space_map_within

PETOOL_WARN_UNUSED static inline uint32_t petool_nullable_space_open(petool_space *space, const petool_entry *set, size_t entries,
                                                                     bool known, uint32_t *cycle, petool_fault *fault)
{
    if (PETOOL_IS_LOST(set, entries))
        return PETOOL_ARGUMENT;
    return petool_space_open(space, (const petool_entry *)petool_some(set), entries, known, cycle, fault);
}
#define petool_space_open petool_nullable_space_open

PETOOL_WARN_UNUSED static inline uint32_t petool_nullable_space_read(petool_space *space, uint64_t address, uint8_t *buffer,
                                                                     size_t len, petool_fault *fault)
{
    if (PETOOL_IS_LOST(buffer, len))
        return PETOOL_ARGUMENT;
    return petool_space_read(space, address, (uint8_t *)petool_room(buffer), len, fault);
}
#define petool_space_read petool_nullable_space_read

PETOOL_WARN_UNUSED static inline uint32_t petool_nullable_space_bindings(petool_space *space, petool_binding *rows, size_t room,
                                                                         size_t *count)
{
    if (PETOOL_IS_LOST(rows, room))
        return PETOOL_ARGUMENT;
    return petool_space_bindings(space, (petool_binding *)petool_room(rows), room, count);
}
#define petool_space_bindings petool_nullable_space_bindings

PETOOL_WARN_UNUSED static inline uint32_t petool_nullable_object_check(const uint8_t *file, size_t len, petool_fault *fault)
{
    if (PETOOL_IS_LOST(file, len))
        return PETOOL_ARGUMENT;
    return petool_object_check((const uint8_t *)petool_some(file), len, fault);
}
#define petool_object_check petool_nullable_object_check

PETOOL_WARN_UNUSED static inline uint32_t petool_nullable_object_headers(const uint8_t *file, size_t len,
                                                                         petool_object_header *header,
                                                                         petool_section_header *sections, size_t room,
                                                                         petool_fault *fault)
{
    if (PETOOL_IS_LOST(file, len))
        return PETOOL_ARGUMENT;
    if (PETOOL_IS_LOST(sections, room))
        return PETOOL_ARGUMENT;
    return petool_object_headers((const uint8_t *)petool_some(file), len, header, (petool_section_header *)petool_room(sections),
                                 room, fault);
}
#define petool_object_headers petool_nullable_object_headers

PETOOL_WARN_UNUSED static inline uint32_t petool_nullable_object_sections(const uint8_t *file, size_t len,
                                                                          petool_object_section *rows, size_t room, size_t *count,
                                                                          petool_fault *fault)
{
    if (PETOOL_IS_LOST(file, len))
        return PETOOL_ARGUMENT;
    if (PETOOL_IS_LOST(rows, room))
        return PETOOL_ARGUMENT;
    return petool_object_sections((const uint8_t *)petool_some(file), len, (petool_object_section *)petool_room(rows), room, count,
                                  fault);
}
#define petool_object_sections petool_nullable_object_sections

PETOOL_WARN_UNUSED static inline uint32_t petool_nullable_object_relocations(const uint8_t *file, size_t len, size_t section,
                                                                             petool_object_relocation *rows, size_t room,
                                                                             size_t *count, petool_fault *fault)
{
    if (PETOOL_IS_LOST(file, len))
        return PETOOL_ARGUMENT;
    if (PETOOL_IS_LOST(rows, room))
        return PETOOL_ARGUMENT;
    return petool_object_relocations((const uint8_t *)petool_some(file), len, section,
                                     (petool_object_relocation *)petool_room(rows), room, count, fault);
}
#define petool_object_relocations petool_nullable_object_relocations

PETOOL_WARN_UNUSED static inline uint32_t petool_nullable_object_all_relocations(const uint8_t *file, size_t len, size_t skipped,
                                                                                 petool_object_relocation *rows, size_t room,
                                                                                 size_t *count, petool_fault *fault)
{
    if (PETOOL_IS_LOST(file, len))
        return PETOOL_ARGUMENT;
    if (PETOOL_IS_LOST(rows, room))
        return PETOOL_ARGUMENT;
    return petool_object_all_relocations((const uint8_t *)petool_some(file), len, skipped,
                                         (petool_object_relocation *)petool_room(rows), room, count, fault);
}
#define petool_object_all_relocations petool_nullable_object_all_relocations

PETOOL_WARN_UNUSED static inline uint32_t petool_nullable_object_symbols(const uint8_t *file, size_t len,
                                                                         petool_object_symbol *rows, size_t room, size_t *count,
                                                                         petool_fault *fault)
{
    if (PETOOL_IS_LOST(file, len))
        return PETOOL_ARGUMENT;
    if (PETOOL_IS_LOST(rows, room))
        return PETOOL_ARGUMENT;
    return petool_object_symbols((const uint8_t *)petool_some(file), len, (petool_object_symbol *)petool_room(rows), room, count,
                                 fault);
}
#define petool_object_symbols petool_nullable_object_symbols

PETOOL_WARN_UNUSED static inline uint32_t petool_nullable_either_object_check(const uint8_t *file, size_t len, bool *big,
                                                                              petool_fault *fault)
{
    if (PETOOL_IS_LOST(file, len))
        return PETOOL_ARGUMENT;
    return petool_either_object_check((const uint8_t *)petool_some(file), len, big, fault);
}
#define petool_either_object_check petool_nullable_either_object_check

PETOOL_WARN_UNUSED static inline uint32_t petool_nullable_either_object_sections(const uint8_t *file, size_t len,
                                                                                 petool_object_section *rows, size_t room,
                                                                                 size_t *count, petool_fault *fault)
{
    if (PETOOL_IS_LOST(file, len))
        return PETOOL_ARGUMENT;
    if (PETOOL_IS_LOST(rows, room))
        return PETOOL_ARGUMENT;
    return petool_either_object_sections((const uint8_t *)petool_some(file), len, (petool_object_section *)petool_room(rows), room,
                                         count, fault);
}
#define petool_either_object_sections petool_nullable_either_object_sections

PETOOL_WARN_UNUSED static inline uint32_t petool_nullable_either_object_relocations(const uint8_t *file, size_t len, size_t section,
                                                                                    petool_object_relocation *rows, size_t room,
                                                                                    size_t *count, petool_fault *fault)
{
    if (PETOOL_IS_LOST(file, len))
        return PETOOL_ARGUMENT;
    if (PETOOL_IS_LOST(rows, room))
        return PETOOL_ARGUMENT;
    return petool_either_object_relocations((const uint8_t *)petool_some(file), len, section,
                                            (petool_object_relocation *)petool_room(rows), room, count, fault);
}
#define petool_either_object_relocations petool_nullable_either_object_relocations

PETOOL_WARN_UNUSED static inline uint32_t petool_nullable_either_object_all_relocations(const uint8_t *file, size_t len,
                                                                                        size_t skipped,
                                                                                        petool_object_relocation *rows, size_t room,
                                                                                        size_t *count, petool_fault *fault)
{
    if (PETOOL_IS_LOST(file, len))
        return PETOOL_ARGUMENT;
    if (PETOOL_IS_LOST(rows, room))
        return PETOOL_ARGUMENT;
    return petool_either_object_all_relocations((const uint8_t *)petool_some(file), len, skipped,
                                                (petool_object_relocation *)petool_room(rows), room, count, fault);
}
#define petool_either_object_all_relocations petool_nullable_either_object_all_relocations

PETOOL_WARN_UNUSED static inline uint32_t petool_nullable_either_object_symbols(const uint8_t *file, size_t len,
                                                                                petool_either_object_symbol *rows, size_t room,
                                                                                size_t *count, petool_fault *fault)
{
    if (PETOOL_IS_LOST(file, len))
        return PETOOL_ARGUMENT;
    if (PETOOL_IS_LOST(rows, room))
        return PETOOL_ARGUMENT;
    return petool_either_object_symbols((const uint8_t *)petool_some(file), len, (petool_either_object_symbol *)petool_room(rows),
                                        room, count, fault);
}
#define petool_either_object_symbols petool_nullable_either_object_symbols

PETOOL_WARN_UNUSED static inline uint32_t petool_nullable_big_object_headers(const uint8_t *file, size_t len,
                                                                             petool_big_object_header *header,
                                                                             petool_section_header *sections, size_t room,
                                                                             petool_fault *fault)
{
    if (PETOOL_IS_LOST(file, len))
        return PETOOL_ARGUMENT;
    if (PETOOL_IS_LOST(sections, room))
        return PETOOL_ARGUMENT;
    return petool_big_object_headers((const uint8_t *)petool_some(file), len, header,
                                     (petool_section_header *)petool_room(sections), room, fault);
}
#define petool_big_object_headers petool_nullable_big_object_headers

PETOOL_WARN_UNUSED static inline uint32_t petool_nullable_archive_check(const uint8_t *file, size_t len, petool_fault *fault)
{
    if (PETOOL_IS_LOST(file, len))
        return PETOOL_ARGUMENT;
    return petool_archive_check((const uint8_t *)petool_some(file), len, fault);
}
#define petool_archive_check petool_nullable_archive_check

PETOOL_WARN_UNUSED static inline uint32_t petool_nullable_archive_members(const uint8_t *file, size_t len,
                                                                          petool_archive_member *rows, size_t room, size_t *count,
                                                                          petool_fault *fault)
{
    if (PETOOL_IS_LOST(file, len))
        return PETOOL_ARGUMENT;
    if (PETOOL_IS_LOST(rows, room))
        return PETOOL_ARGUMENT;
    return petool_archive_members((const uint8_t *)petool_some(file), len, (petool_archive_member *)petool_room(rows), room, count,
                                  fault);
}
#define petool_archive_members petool_nullable_archive_members

PETOOL_WARN_UNUSED static inline uint32_t petool_nullable_archive_symbols(const uint8_t *file, size_t len, uint32_t linker,
                                                                          petool_archive_symbol *rows, size_t room, size_t *count,
                                                                          petool_fault *fault)
{
    if (PETOOL_IS_LOST(file, len))
        return PETOOL_ARGUMENT;
    if (PETOOL_IS_LOST(rows, room))
        return PETOOL_ARGUMENT;
    return petool_archive_symbols((const uint8_t *)petool_some(file), len, linker, (petool_archive_symbol *)petool_room(rows), room,
                                  count, fault);
}
#define petool_archive_symbols petool_nullable_archive_symbols

PETOOL_WARN_UNUSED static inline uint32_t petool_nullable_archive_import(const uint8_t *member, size_t len,
                                                                         petool_import_object *found, petool_fault *fault)
{
    if (PETOOL_IS_LOST(member, len))
        return PETOOL_ARGUMENT;
    return petool_archive_import((const uint8_t *)petool_some(member), len, found, fault);
}
#define petool_archive_import petool_nullable_archive_import

PETOOL_WARN_UNUSED static inline uint32_t petool_nullable_archive_findings(const uint8_t *file, size_t len, petool_fault *rows,
                                                                           size_t room, size_t *count, petool_fault *fault)
{
    if (PETOOL_IS_LOST(file, len))
        return PETOOL_ARGUMENT;
    if (PETOOL_IS_LOST(rows, room))
        return PETOOL_ARGUMENT;
    return petool_archive_findings((const uint8_t *)petool_some(file), len, (petool_fault *)petool_room(rows), room, count, fault);
}
#define petool_archive_findings petool_nullable_archive_findings

PETOOL_WARN_UNUSED static inline uint32_t petool_nullable_archive_write(const petool_new_member *members, size_t entries,
                                                                        uint8_t *buffer, size_t room, size_t *count,
                                                                        petool_fault *fault)
{
    if (PETOOL_IS_LOST(members, entries))
        return PETOOL_ARGUMENT;
    if (PETOOL_IS_LOST(buffer, room))
        return PETOOL_ARGUMENT;
    return petool_archive_write((const petool_new_member *)petool_some(members), entries, (uint8_t *)petool_room(buffer), room,
                                count, fault);
}
#define petool_archive_write petool_nullable_archive_write

static inline int petool_nullable_fault_line(const petool_fault *fault, char *line, size_t room)
{
    if (PETOOL_IS_LOST(line, room))
        room = 0;
    return petool_fault_line(fault, (char *)petool_room(line), room);
}
#define petool_fault_line petool_nullable_fault_line

PETOOL_WARN_UNUSED static inline uint32_t petool_nullable_fault_detail(const uint8_t *file, size_t len, const petool_fault *fault,
                                                                       petool_value *rows, size_t room, size_t *count)
{
    if (PETOOL_IS_LOST(file, len))
        return PETOOL_ARGUMENT;
    if (PETOOL_IS_LOST(rows, room))
        return PETOOL_ARGUMENT;
    return petool_fault_detail((const uint8_t *)petool_some(file), len, fault, (petool_value *)petool_room(rows), room, count);
}
#define petool_fault_detail petool_nullable_fault_detail
/* end of describe/records.txt */

/* ---- layouts ---- */

/* Compiles only if the records are laid out as in the library. */
#if defined(__cplusplus)
#if __cplusplus >= 201103L
#define PETOOL_ASSERT(holds, said) static_assert(holds, said)
#endif
#elif defined(__STDC_VERSION__)
#if __STDC_VERSION__ >= 201112L
#define PETOOL_ASSERT(holds, said) _Static_assert(holds, said)
#endif
#endif
#ifdef PETOOL_ASSERT
#define PETOOL_SIZE(type, size) PETOOL_ASSERT(sizeof(type) == (size), #type " has another size")
#define PETOOL_AT(type, field, offset) PETOOL_ASSERT(offsetof(type, field) == (offset), #type "." #field " is elsewhere")
/* from describe/records.txt: layouts */
PETOOL_SIZE(petool_text, 16);
PETOOL_AT(petool_text, at, 0);
PETOOL_AT(petool_text, len, 8);
PETOOL_SIZE(petool_fault, 16);
PETOOL_AT(petool_fault, number, 0);
PETOOL_AT(petool_fault, place, 2);
PETOOL_AT(petool_fault, image, 4);
PETOOL_AT(petool_fault, at, 8);
PETOOL_SIZE(petool_value, 48);
PETOOL_AT(petool_value, words, 0);
PETOOL_AT(petool_value, name, 16);
PETOOL_AT(petool_value, number, 32);
PETOOL_AT(petool_value, kind, 40);
PETOOL_SIZE(petool_directory, 8);
PETOOL_AT(petool_directory, rva, 0);
PETOOL_AT(petool_directory, size, 4);
PETOOL_SIZE(petool_headers, 272);
PETOOL_AT(petool_headers, image_base, 0);
PETOOL_AT(petool_headers, size_of_stack_reserve, 8);
PETOOL_AT(petool_headers, size_of_stack_commit, 16);
PETOOL_AT(petool_headers, size_of_heap_reserve, 24);
PETOOL_AT(petool_headers, size_of_heap_commit, 32);
PETOOL_AT(petool_headers, pe_offset, 40);
PETOOL_AT(petool_headers, time_date_stamp, 44);
PETOOL_AT(petool_headers, pointer_to_symbol_table, 48);
PETOOL_AT(petool_headers, number_of_symbols, 52);
PETOOL_AT(petool_headers, size_of_code, 56);
PETOOL_AT(petool_headers, size_of_initialized_data, 60);
PETOOL_AT(petool_headers, size_of_uninitialized_data, 64);
PETOOL_AT(petool_headers, address_of_entry_point, 68);
PETOOL_AT(petool_headers, base_of_code, 72);
PETOOL_AT(petool_headers, base_of_data, 76);
PETOOL_AT(petool_headers, section_alignment, 80);
PETOOL_AT(petool_headers, file_alignment, 84);
PETOOL_AT(petool_headers, win32_version_value, 88);
PETOOL_AT(petool_headers, size_of_image, 92);
PETOOL_AT(petool_headers, size_of_headers, 96);
PETOOL_AT(petool_headers, check_sum, 100);
PETOOL_AT(petool_headers, loader_flags, 104);
PETOOL_AT(petool_headers, number_of_rva_and_sizes, 108);
PETOOL_AT(petool_headers, magic, 112);
PETOOL_AT(petool_headers, machine, 114);
PETOOL_AT(petool_headers, number_of_sections, 116);
PETOOL_AT(petool_headers, size_of_optional_header, 118);
PETOOL_AT(petool_headers, characteristics, 120);
PETOOL_AT(petool_headers, subsystem, 122);
PETOOL_AT(petool_headers, dll_characteristics, 124);
PETOOL_AT(petool_headers, major_operating_system_version, 126);
PETOOL_AT(petool_headers, minor_operating_system_version, 128);
PETOOL_AT(petool_headers, major_image_version, 130);
PETOOL_AT(petool_headers, minor_image_version, 132);
PETOOL_AT(petool_headers, major_subsystem_version, 134);
PETOOL_AT(petool_headers, minor_subsystem_version, 136);
PETOOL_AT(petool_headers, major_linker_version, 138);
PETOOL_AT(petool_headers, minor_linker_version, 139);
PETOOL_AT(petool_headers, directories, 140);
PETOOL_SIZE(petool_section, 36);
PETOOL_AT(petool_section, name, 0);
PETOOL_AT(petool_section, rva, 8);
PETOOL_AT(petool_section, extent, 12);
PETOOL_AT(petool_section, file_size, 16);
PETOOL_AT(petool_section, pointer_to_raw_data, 20);
PETOOL_AT(petool_section, size_of_raw_data, 24);
PETOOL_AT(petool_section, virtual_size, 28);
PETOOL_AT(petool_section, characteristics, 32);
PETOOL_SIZE(petool_target, 48);
PETOOL_AT(petool_target, kind, 0);
PETOOL_AT(petool_target, rva, 4);
PETOOL_AT(petool_target, ordinal, 8);
PETOOL_AT(petool_target, module, 16);
PETOOL_AT(petool_target, name, 32);
PETOOL_SIZE(petool_export, 72);
PETOOL_AT(petool_export, ordinal, 0);
PETOOL_AT(petool_export, name, 8);
PETOOL_AT(petool_export, target, 24);
PETOOL_SIZE(petool_import, 48);
PETOOL_AT(petool_import, module, 0);
PETOOL_AT(petool_import, name, 16);
PETOOL_AT(petool_import, ordinal, 32);
PETOOL_AT(petool_import, slot, 40);
PETOOL_AT(petool_import, by_ordinal, 44);
PETOOL_SIZE(petool_fixup, 12);
PETOOL_AT(petool_fixup, entry, 0);
PETOOL_AT(petool_fixup, field, 4);
PETOOL_AT(petool_fixup, kind, 8);
PETOOL_SIZE(petool_counts, 32);
PETOOL_AT(petool_counts, exports, 0);
PETOOL_AT(petool_counts, names, 8);
PETOOL_AT(petool_counts, imports, 16);
PETOOL_AT(petool_counts, fixups, 24);
PETOOL_SIZE(petool_debug_entry, 28);
PETOOL_AT(petool_debug_entry, characteristics, 0);
PETOOL_AT(petool_debug_entry, time_date_stamp, 4);
PETOOL_AT(petool_debug_entry, major_version, 8);
PETOOL_AT(petool_debug_entry, minor_version, 10);
PETOOL_AT(petool_debug_entry, kind, 12);
PETOOL_AT(petool_debug_entry, size_of_data, 16);
PETOOL_AT(petool_debug_entry, address_of_raw_data, 20);
PETOOL_AT(petool_debug_entry, pointer_to_raw_data, 24);
PETOOL_SIZE(petool_pdb_file, 48);
PETOOL_AT(petool_pdb_file, path, 0);
PETOOL_AT(petool_pdb_file, kind, 16);
PETOOL_AT(petool_pdb_file, age, 20);
PETOOL_AT(petool_pdb_file, guid, 24);
PETOOL_AT(petool_pdb_file, time_date_stamp, 40);
PETOOL_AT(petool_pdb_file, offset, 44);
PETOOL_SIZE(petool_function, 16);
PETOOL_AT(petool_function, begin, 0);
PETOOL_AT(petool_function, end, 4);
PETOOL_AT(petool_function, unwind, 8);
PETOOL_AT(petool_function, kind, 12);
PETOOL_SIZE(petool_tls_directory, 56);
PETOOL_AT(petool_tls_directory, start_address_of_raw_data, 0);
PETOOL_AT(petool_tls_directory, end_address_of_raw_data, 8);
PETOOL_AT(petool_tls_directory, address_of_index, 16);
PETOOL_AT(petool_tls_directory, address_of_callbacks, 24);
PETOOL_AT(petool_tls_directory, size_of_zero_fill, 32);
PETOOL_AT(petool_tls_directory, characteristics, 40);
PETOOL_AT(petool_tls_directory, is_whole, 48);
PETOOL_SIZE(petool_callback, 8);
PETOOL_AT(petool_callback, address, 0);
PETOOL_SIZE(petool_field, 16);
PETOOL_AT(petool_field, value, 0);
PETOOL_AT(petool_field, is_present, 8);
PETOOL_SIZE(petool_bound_import, 8);
PETOOL_AT(petool_bound_import, time_date_stamp, 0);
PETOOL_AT(petool_bound_import, offset_module_name, 4);
PETOOL_AT(petool_bound_import, number_of_module_forwarder_refs, 6);
PETOOL_SIZE(petool_resource_name, 24);
PETOOL_AT(petool_resource_name, text, 0);
PETOOL_AT(petool_resource_name, number, 16);
PETOOL_AT(petool_resource_name, kind, 20);
PETOOL_SIZE(petool_resource, 104);
PETOOL_AT(petool_resource, kind, 0);
PETOOL_AT(petool_resource, name, 24);
PETOOL_AT(petool_resource, language, 48);
PETOOL_AT(petool_resource, bytes, 72);
PETOOL_AT(petool_resource, rva, 88);
PETOOL_AT(petool_resource, size, 92);
PETOOL_AT(petool_resource, code_page, 96);
PETOOL_SIZE(petool_version_info, 36);
PETOOL_AT(petool_version_info, file_version, 0);
PETOOL_AT(petool_version_info, product_version, 8);
PETOOL_AT(petool_version_info, flags_mask, 16);
PETOOL_AT(petool_version_info, flags, 20);
PETOOL_AT(petool_version_info, system, 24);
PETOOL_AT(petool_version_info, kind, 28);
PETOOL_AT(petool_version_info, subkind, 32);
PETOOL_SIZE(petool_version_text, 48);
PETOOL_AT(petool_version_text, table, 0);
PETOOL_AT(petool_version_text, key, 16);
PETOOL_AT(petool_version_text, value, 32);
PETOOL_SIZE(petool_check_sums, 8);
PETOOL_AT(petool_check_sums, written, 0);
PETOOL_AT(petool_check_sums, computed, 4);
PETOOL_SIZE(petool_certificate, 32);
PETOOL_AT(petool_certificate, offset, 0);
PETOOL_AT(petool_certificate, bytes, 8);
PETOOL_AT(petool_certificate, length, 24);
PETOOL_AT(petool_certificate, revision, 28);
PETOOL_AT(petool_certificate, kind, 30);
PETOOL_SIZE(petool_signature, 48);
PETOOL_AT(petool_signature, offset, 0);
PETOOL_AT(petool_signature, bytes, 8);
PETOOL_AT(petool_signature, digest, 24);
PETOOL_AT(petool_signature, algorithm, 40);
PETOOL_AT(petool_signature, fits, 44);
PETOOL_SIZE(petool_digest, 68);
PETOOL_AT(petool_digest, bytes, 0);
PETOOL_AT(petool_digest, len, 64);
PETOOL_SIZE(petool_signer, 80);
PETOOL_AT(petool_signer, serial, 0);
PETOOL_AT(petool_signer, issuer, 16);
PETOOL_AT(petool_signer, subject, 32);
PETOOL_AT(petool_signer, issuer_name, 48);
PETOOL_AT(petool_signer, subject_name, 64);
PETOOL_SIZE(petool_rich_header, 16);
PETOOL_AT(petool_rich_header, offset, 0);
PETOOL_AT(petool_rich_header, key, 8);
PETOOL_AT(petool_rich_header, computed, 12);
PETOOL_SIZE(petool_rich_pair, 8);
PETOOL_AT(petool_rich_pair, product, 0);
PETOOL_AT(petool_rich_pair, build, 2);
PETOOL_AT(petool_rich_pair, count, 4);
PETOOL_SIZE(petool_overlay_range, 24);
PETOOL_AT(petool_overlay_range, offset, 0);
PETOOL_AT(petool_overlay_range, size, 8);
PETOOL_AT(petool_overlay_range, kind, 16);
PETOOL_SIZE(petool_image, 16);
PETOOL_AT(petool_image, state, 0);
PETOOL_AT(petool_image, is_open, 8);
PETOOL_SIZE(petool_entry, 40);
PETOOL_AT(petool_entry, name, 0);
PETOOL_AT(petool_entry, file, 16);
PETOOL_AT(petool_entry, base, 32);
PETOOL_SIZE(petool_binding, 16);
PETOOL_AT(petool_binding, image, 0);
PETOOL_AT(petool_binding, slot, 4);
PETOOL_AT(petool_binding, exporter, 8);
PETOOL_AT(petool_binding, rva, 12);
PETOOL_SIZE(petool_unbound_import, 56);
PETOOL_AT(petool_unbound_import, module, 0);
PETOOL_AT(petool_unbound_import, name, 16);
PETOOL_AT(petool_unbound_import, ordinal, 32);
PETOOL_AT(petool_unbound_import, image, 40);
PETOOL_AT(petool_unbound_import, slot, 44);
PETOOL_AT(petool_unbound_import, by_ordinal, 48);
PETOOL_SIZE(petool_space, 16);
PETOOL_AT(petool_space, state, 0);
PETOOL_AT(petool_space, is_open, 8);
PETOOL_SIZE(petool_moved, 8);
PETOOL_AT(petool_moved, fields, 0);
PETOOL_AT(petool_moved, slots, 4);
PETOOL_SIZE(petool_object_header, 20);
PETOOL_AT(petool_object_header, machine, 0);
PETOOL_AT(petool_object_header, number_of_sections, 2);
PETOOL_AT(petool_object_header, time_date_stamp, 4);
PETOOL_AT(petool_object_header, pointer_to_symbol_table, 8);
PETOOL_AT(petool_object_header, number_of_symbols, 12);
PETOOL_AT(petool_object_header, size_of_optional_header, 16);
PETOOL_AT(petool_object_header, characteristics, 18);
PETOOL_SIZE(petool_section_header, 40);
PETOOL_AT(petool_section_header, name, 0);
PETOOL_AT(petool_section_header, virtual_size, 8);
PETOOL_AT(petool_section_header, virtual_address, 12);
PETOOL_AT(petool_section_header, size_of_raw_data, 16);
PETOOL_AT(petool_section_header, pointer_to_raw_data, 20);
PETOOL_AT(petool_section_header, pointer_to_relocations, 24);
PETOOL_AT(petool_section_header, pointer_to_linenumbers, 28);
PETOOL_AT(petool_section_header, number_of_relocations, 32);
PETOOL_AT(petool_section_header, number_of_linenumbers, 34);
PETOOL_AT(petool_section_header, characteristics, 36);
PETOOL_SIZE(petool_object_section, 56);
PETOOL_AT(petool_object_section, name, 0);
PETOOL_AT(petool_object_section, bytes, 16);
PETOOL_AT(petool_object_section, absent_size, 32);
PETOOL_AT(petool_object_section, virtual_size, 36);
PETOOL_AT(petool_object_section, virtual_address, 40);
PETOOL_AT(petool_object_section, characteristics, 44);
PETOOL_AT(petool_object_section, relocation_count, 48);
PETOOL_SIZE(petool_object_relocation, 12);
PETOOL_AT(petool_object_relocation, address, 0);
PETOOL_AT(petool_object_relocation, symbol, 4);
PETOOL_AT(petool_object_relocation, kind, 8);
PETOOL_SIZE(petool_object_symbol, 48);
PETOOL_AT(petool_object_symbol, name, 0);
PETOOL_AT(petool_object_symbol, aux, 16);
PETOOL_AT(petool_object_symbol, index, 32);
PETOOL_AT(petool_object_symbol, value, 36);
PETOOL_AT(petool_object_symbol, section_number, 40);
PETOOL_AT(petool_object_symbol, kind, 42);
PETOOL_AT(petool_object_symbol, class_, 44);
PETOOL_SIZE(petool_big_object_header, 36);
PETOOL_AT(petool_big_object_header, version, 0);
PETOOL_AT(petool_big_object_header, machine, 2);
PETOOL_AT(petool_big_object_header, time_date_stamp, 4);
PETOOL_AT(petool_big_object_header, size_of_data, 8);
PETOOL_AT(petool_big_object_header, flags, 12);
PETOOL_AT(petool_big_object_header, meta_data_size, 16);
PETOOL_AT(petool_big_object_header, meta_data_offset, 20);
PETOOL_AT(petool_big_object_header, number_of_sections, 24);
PETOOL_AT(petool_big_object_header, pointer_to_symbol_table, 28);
PETOOL_AT(petool_big_object_header, number_of_symbols, 32);
PETOOL_SIZE(petool_either_object_symbol, 48);
PETOOL_AT(petool_either_object_symbol, name, 0);
PETOOL_AT(petool_either_object_symbol, aux, 16);
PETOOL_AT(petool_either_object_symbol, index, 32);
PETOOL_AT(petool_either_object_symbol, value, 36);
PETOOL_AT(petool_either_object_symbol, section_number, 40);
PETOOL_AT(petool_either_object_symbol, kind, 44);
PETOOL_AT(petool_either_object_symbol, class_, 46);
PETOOL_SIZE(petool_archive_member, 120);
PETOOL_AT(petool_archive_member, name, 0);
PETOOL_AT(petool_archive_member, bytes, 16);
PETOOL_AT(petool_archive_member, offset, 32);
PETOOL_AT(petool_archive_member, size, 40);
PETOOL_AT(petool_archive_member, date, 48);
PETOOL_AT(petool_archive_member, user, 64);
PETOOL_AT(petool_archive_member, group, 80);
PETOOL_AT(petool_archive_member, mode, 96);
PETOOL_AT(petool_archive_member, kind, 112);
PETOOL_AT(petool_archive_member, has_name, 116);
PETOOL_SIZE(petool_archive_symbol, 32);
PETOOL_AT(petool_archive_symbol, name, 0);
PETOOL_AT(petool_archive_symbol, member, 16);
PETOOL_SIZE(petool_new_member, 32);
PETOOL_AT(petool_new_member, name, 0);
PETOOL_AT(petool_new_member, bytes, 16);
PETOOL_SIZE(petool_import_object, 64);
PETOOL_AT(petool_import_object, symbol, 0);
PETOOL_AT(petool_import_object, module, 16);
PETOOL_AT(petool_import_object, name, 32);
PETOOL_AT(petool_import_object, time_date_stamp, 48);
PETOOL_AT(petool_import_object, machine, 52);
PETOOL_AT(petool_import_object, ordinal, 54);
PETOOL_AT(petool_import_object, kind, 56);
PETOOL_AT(petool_import_object, name_type, 57);
/* end of describe/records.txt */
#undef PETOOL_AT
#undef PETOOL_SIZE
#undef PETOOL_ASSERT
#endif

#ifdef __cplusplus
} /* extern "C" */
#endif
#endif /* PETOOL_H */
