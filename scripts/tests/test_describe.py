"""Tests that describe/describe.py --check finds each kind of difference: a file is changed in a copy, and must be named."""

import pathlib
import shutil
import subprocess
import sys
import tempfile
import unittest

TOP = pathlib.Path(__file__).resolve().parents[2]
CRATES = ("pe_records_c", "c_tables", "pe_handle", "pe_opened", "petool_c", "pe_json", "coff_archive_json", "coff_library")
#: The crates that test faults or have a table of them.
FAULT_CRATES = (
    "pe_text",
    "petool",
    "pe_head",
    "pe_layout",
    "pe_tables",
    "pe_records",
    "pe_delay",
    "pe_unwind",
    "pe_symbols",
    "pe_resources",
    "pe_trust",
    "pe_version",
    "pe_set",
    "pe_space",
    "pe_write",
    "coff_read",
    "coff_archive",
    "coff_object",
    "coff_lines",
)
#: The crates that have words of commands, or only modules that are written.
WORD_CRATES = ("pe_words", "pe_show", "pe_at", "pe_bench")
COPIED = [
    "bindings/rust/petool/src/lib.rs",
    "README.md",
    "bindings/c/petool.h",
    "bindings/c/petool.map",
    "bindings/python/petool",
    "bindings/rust/petool-sys/src/lib.rs",
    "bindings/rust/petool-sys/tests/layout.rs",
    "describe",
    "docs/C.md",
    "docs/FAULTS.md",
    "docs/FORMAT.md",
    "docs/GUIDE.md",
    "docs/JSON.md",
    "man/petool.1",
    "man/petool.h.3",
    "packaging/debian/libpetool2.symbols",
    "crates/pe_head/specs/Head.antt",
    "crates/pe_reach/proofs/Headers.antt",
    "crates/pe_records_c/specs",
    "crates/pe_write/proofs/PlanHead.antt",
    "crates/pe_write/specs/PlanHeaders.antt",
    *(f"crates/{crate}/src" for crate in CRATES + FAULT_CRATES + WORD_CRATES),
]

#: The changes: the file, what is in it, and what replaces it.
WRITTEN = [
    ("bindings/c/petool.h", "AT(petool_fixup, field, 4)", "AT(petool_fixup, field, 8)"),
    ("bindings/c/petool.h", "petool_fixups((const uint8_t *)petool_some(file)", "petool_fixups((const uint8_t *)(file)"),
    ("bindings/c/petool.map", "PETOOL_2", "PETOOL_1"),
    ("bindings/c/petool.h", "uint32_t entry, field;", "uint32_t field, entry;"),
    ("bindings/c/petool.h", "the entry's type: 1 HIGH", "the type: 1 HIGH"),
    ("bindings/c/petool.h", "/* from describe/records.txt: counts */\n", ""),
    ("bindings/c/petool.h", "/* from describe/records.txt: counts */", "/* from describe/records.txt: unknown */"),
    ("bindings/c/petool.h", "} petool_counts;\n/* end of describe/records.txt */", "} petool_counts;"),
    ("bindings/rust/petool-sys/tests/layout.rs", "layout!(Fixup, 12, 4", "layout!(Fixup, 12, 8"),
    ("bindings/rust/petool-sys/src/lib.rs", "pub by_ordinal: bool", "pub by_ordinal: u8"),
    ("bindings/rust/petool-sys/src/lib.rs", "pub fn petool_version_number() -> u32;", "pub fn petool_version_number() -> u64;"),
    ("bindings/python/petool/_records.py", '"fixup": "III"', '"fixup": "IIQ"'),
    ("bindings/python/petool/_image.py", "    entry: int", "    entries: int"),
    ("bindings/python/petool/_object.py", "    storage_class: int", "    class_: int"),
    ("bindings/python/petool/_space.py", "    exporter: int", "    exporter: str"),
    ("man/petool.h.3", 'petool_fixup *" rows', 'petool_import *" rows'),
    ("docs/JSON.md", "| `bits` | number |", "| `bits` | string |"),
    ("docs/JSON.md", "<!-- from describe/records.txt: rows -->\n", ""),
    ("docs/C.md", "| `petool_fixup` | `field` | `uint32_t` | RVA |", "| `petool_fixup` | `field` | `uint32_t` | offset |"),
    ("packaging/debian/libpetool2.symbols", " petool_fixups@PETOOL_2 2.0\n", ""),
]
#: Another number, another name, and two names exchanged, in each text that has values.
STATUSES = "crates/pe_records_c/src/status.rt"
VALUES_WRITTEN = [
    ("bindings/c/petool.h", "PETOOL_ABSENT = 3,", "PETOOL_ABSENT = 4,"),
    ("bindings/c/petool.h", "PETOOL_PLACE_RVA = 1,     /* bytes of", "PETOOL_PLACE_RVAS = 1,    /* bytes of"),
    ("bindings/c/petool.h", "PETOOL_TARGET_NAME = 2 ", "PETOOL_TARGET_NAME = 3 "),
    ("bindings/c/petool.h", "ABSOLUTE = 0xffff,", "ABSOLUTE = 0xfffe,"),
    ("bindings/c/petool.h", "ABSOLUTE UINT32_C(0xffffffff)", "ABSOLUTE UINT32_C(0xfffffffe)"),
    ("bindings/c/petool.h", "DEBUG UINT32_C(0xfffffffe)", "DEBUG UINT64_C(0xfffffffe)"),
    ("bindings/c/petool.h", "SMALL = 4,    /* too little room", "CLOSED = 4,   /* too little room"),
    ("bindings/c/petool.h", "/* from describe/records.txt: places */\n", ""),
    ("bindings/c/petool.h", "/* from describe/records.txt: places */", "/* from describe/records.txt: targets */"),
    ("bindings/rust/petool-sys/src/lib.rs", "PETOOL_MEMORY: u32 = 2;", "PETOOL_MEMORY: u32 = 3;"),
    ("bindings/rust/petool-sys/src/lib.rs", "PETOOL_MEMORY: u32 = 2;", "PETOOL_MEMORY: u16 = 2;"),
    ("bindings/rust/petool-sys/src/lib.rs", "PETOOL_PLACE_ITEM: u16", "PETOOL_PLACE_ADDRESS: u16"),
    ("bindings/rust/petool-sys/src/lib.rs", "PETOOL_TARGET_RVA: u32 = 0", "PETOOL_TARGET_RVA: u32 = 1"),
    ("bindings/rust/petool-sys/src/lib.rs", "PETOOL_SECTION_DEBUG: u16", "PETOOL_SECTION_ABSOLUTE: u16"),
    ("bindings/rust/petool-sys/src/lib.rs", "// from describe/records.txt: values\n", ""),
    ("bindings/python/petool/_library.py", "SMALL = 4 ", "SMALL = 5 "),
    ("bindings/python/petool/_library.py", "ARGUMENT = 5 ", "CLOSED = 5 "),
    ("bindings/python/petool/_fault.py", "    RVA = 1 ", "    RVA = 2 "),
    ("bindings/python/petool/_fault.py", "    FILE = 0 ", "    ITEM = 0 "),
    ("bindings/python/petool/_fault.py", "    # from describe/records.txt: places\n", ""),
    ("bindings/python/petool/_image.py", "_TARGET_NAME = 2 ", "_TARGET_NAME = 1 "),
    ("bindings/python/petool/_image.py", "_TARGET_ORDINAL = 1 ", "_TARGET_NAME = 1 "),
    ("bindings/python/petool/_object.py", "SECTION_DEBUG = 0xFFFE ", "SECTION_DEBUG = 0xFFFF "),
    ("bindings/python/petool/_object.py", "EITHER_SECTION_DEBUG = 0xFFFF_FFFE ", "EITHER_SECTION_DEBUG = 0xFFFE "),
    ("bindings/python/petool/_object.py", "SECTION_UNDEFINED = 0 ", "SECTION_DEBUG = 0 "),
    ("docs/C.md", "| `PETOOL_SMALL` | 4 |", "| `PETOOL_SMALL` | 3 |"),
    ("docs/C.md", "| `PETOOL_ARGUMENT` | 5 |", "| `PETOOL_CLOSED` | 5 |"),
    ("docs/C.md", "<!-- from describe/records.txt: statuses -->\n", ""),
]
#: Another place, name, width or order of a field, in each file that has the fields of the headers, and parts that are missing.
FIELDS_WRITTEN = [
    ("bindings/python/petool/__init__.py", "    Fixup,\n", ""),
    ("bindings/python/petool/__init__.py", '    "Section",\n', ""),
    ("bindings/rust/petool/src/lib.rs", "ObjectRelocation as Relocation,", "ObjectRelocation,"),
    ("crates/petool_c/src/lib.rt", "\nmod fixup;\n", "\n"),
    ("crates/pe_records_c/src/lib.rt", "pub mod import;\n", "mod import;\n"),
    ("crates/pe_show/src/lib.rt", "\nmod fixups;\n", "\n"),
    ("crates/pe_records_c/specs/Lib.antt", "pub mod HeaderRows\n", ""),
    ("crates/pe_head/src/headers.rt", "    pub size_of_stack_commit: u64,", "    pub size_of_stack_commit: u32,"),
    ("crates/pe_head/src/headers.rt", "/// How many bytes of stack to commit.", "/// The bytes of stack to commit."),
    ("crates/pe_head/src/headers.rt", "    // from describe/records.txt: fields of headers\n", ""),
    ("crates/pe_head/src/fields.rt", "self.u64_either(76, 80)", "self.u64_either(77, 80)"),
    ("crates/pe_head/src/fields.rt", "self.coff_u16(18)", "self.coff_u16(16)"),
    ("crates/pe_head/src/fields.rt", "number_of_rva_and_sizes = self.u32_either(92, 108)", "number_of_rva_and_sizes = self.u32_at(92)"),
    ("crates/pe_head/src/fields.rt", "// from describe/records.txt: counts of headers", "// from describe/records.txt: reading of headers"),
    ("crates/pe_text/src/header_fields.rt", 'field!(b"Subsystem", 2,', 'field!(b"Subsystem", 4,'),
    ("crates/pe_text/src/header_fields.rt", 'b"SizeOfStackReserve",\n            extended', 'b"SizeOfStackReserve",\n            4'),
    ("crates/pe_json/src/headers.rt", "FlagKind::File,", "FlagKind::Dll,"),
    ("crates/pe_json/src/optional_header.rt", "headers.check_sum as u64", "headers.loader_flags as u64"),
    ("crates/pe_json/src/optional_header.rt", "write_wide(text, b\",\\\"image_base\\\":\\\"0x\"", "write_number(text, b\",\\\"image_base\\\":\""),
    ("crates/pe_records_c/src/headers.rt", "rva: item.virtual_address", "rva: item.virtual_size"),
    ("crates/pe_records_c/src/headers.rt", "base_of_data.unwrap_or(0)", "base_of_data.unwrap_or(1)"),
    ("crates/pe_records_c/src/headers.rt", "magic: headers.magic.number()", "magic: headers.magic.fixed_size()"),
    ("crates/pe_records_c/src/fixup.rt", "FixupKind::Low => 2", "FixupKind::Low => 1"),
    ("crates/pe_records_c/specs/HeaderRows.antt", "virtual_size = s.virtual_size;", "virtual_size = s.size_of_raw_data;"),
    ("crates/pe_records_c/specs/HeaderRows.antt", "  -- from describe/records.txt: rows of headers\n", ""),
    ("crates/pe_write/proofs/PlanHead.antt", "either_field g 76 4 80 8 ≡ 0", "either_field g 72 4 72 8 ≡ 0"),
    ("crates/pe_write/proofs/PlanHead.antt", "check_sum = same-is 64", "check_sum = same-is 68"),
    ("crates/petool_c/src/import.rt", "(file_import_tests file.now)", "(file_relocation_tests file.now)"),
    ("crates/petool_c/src/fixup.rt", "base relocations than rows", "relocations than rows"),
    ("docs/FORMAT.md", "SizeOfStackCommit | 76/4 | 80/8", "SizeOfStackCommit | 76/4 | 84/8"),
    ("docs/FORMAT.md", "MajorLinkerVersion 2/1", "MajorLinkerVersion 2/2"),
    ("docs/FORMAT.md", "<!-- from describe/records.txt: other of headers -->\n", ""),
]
#: The definition of the headers, which is not written.
FIELDS_COMPARED = [
    ("crates/pe_head/specs/Head.antt", "either_field file 76 4 80 8", "either_field file 77 4 80 8"),
    ("crates/pe_head/specs/Head.antt", "loader_flags = either_field file 88 4 104 4", "loader_flag = either_field file 88 4 104 4"),
    ("crates/pe_head/specs/Head.antt", "      check_sum = field file 64 4;\n", ""),
    ("crates/pe_head/specs/Head.antt", "head_of file =\n", "header_of file =\n"),
]
VALUES_COMPARED = [
    ("man/petool.h.3", "\n.B PETOOL_ABSENT\n", "\n.B PETOOL_SMALL\n"),
    ("man/petool.h.3", ".TP\n.B PETOOL_CLOSED\nthe image or the space is not open\n", ""),
    (STATUSES, "pub const ABSENT: u32 = 3;", "pub const ABSENT: u32 = 4;"),
    (STATUSES, "pub const DONE: u32 = 0;", "pub const OK: u32 = 0;"),
    (STATUSES, "pub const SMALL: u32 = 4;", "pub const CLOSED: u32 = 4;"),
    (STATUSES, "pub const CLOSED: u32 = 6;\n", ""),
    (STATUSES, "pub const CLOSED: u32 = 6;\n", "pub const CLOSED: u32 = 6;\npub const OTHER: u32 = 7;\n"),
    ("crates/pe_records_c/src/fault.rt", "Place::Rva(rva) => (1,", "Place::Rva(rva) => (2,"),
    ("crates/pe_records_c/src/fault.rt", "Place::File(offset) => (0,", "Place::Item(offset) => (0,"),
    ("crates/pe_records_c/src/export.rt", "kind: 2,", "kind: 1,"),
    ("crates/pe_records_c/src/export.rt", "Key::Ordinal(ordinal) => TargetRecord {", "Key::Name(ordinal) => TargetRecord {"),
    ("crates/coff_read/src/symbol.rt", "SymbolSection::Debug => 0xfffe", "SymbolSection::Debug => 0xffff"),
    ("crates/coff_read/src/symbol.rt", "SymbolSection::Undefined =>", "SymbolSection::Debug =>"),
    ("crates/coff_read/src/big_symbol.rt", "BigSection::Debug => 0xffff_fffe", "BigSection::Debug => 0xfffe"),
]
COMPARED = [
    ("bindings/c/petool.h", "petool_fixup *rows, size_t room", "petool_import *rows, size_t room"),
    ("bindings/c/petool.h", "uint32_t petool_version_number(void);", "uint32_t petool_version_number(void);\nuint32_t petool_more(void);"),
    ("bindings/c/petool.h", "int petool_fault_line(", "uint32_t petool_fault_line("),
    ("crates/petool_c/src/words.rt", "line: &mut [u8]) -> i32", "line: &mut [u8]) -> u32"),
    ("crates/pe_records_c/src/fixup.rt", "pub kind: u32", "pub kind: u16"),
    ("crates/pe_records_c/src/fixup.rt", "pub entry: u32", "pub first: u32"),
    ("crates/pe_records_c/src/fixup.rt", "pub struct FixupRow {", "pub struct RelocationRow {"),
    ("crates/pe_records_c/src/fixup.rt", "    pub kind: u32,\n", "    pub kind: u32,\n    pub width: u32,\n"),
    ("crates/pe_records_c/src/headers.rt", "pub directories: [DirectoryRow; 16]", "pub directories: [DirectoryRow; 8]"),
    ("crates/pe_records_c/src/text.rt", "pub bytes: &'a [u8]", "pub bytes: u64"),
    ("crates/c_tables/src/pdb.rt", "TWO: u32 = 1;", "TWO: u32 = 2;"),
    ("crates/c_tables/src/symbol.rt", "pub section_number: u32", "pub section_number: u16"),
    ("crates/petool_c/src/either_object.rt", "big: &mut bool", "big: &mut u32"),
    ("crates/c_tables/src/tls.rt", "pub is_whole: bool", "pub is_whole: u8"),
    ("crates/c_tables/src/signature.rt", "UNKNOWN: u32 = 2;", "UNKNOWN: u32 = 3;"),
    ("crates/c_tables/src/rich.rt", "pub computed: u32", "pub computed: u64"),
    ("crates/pe_handle/src/handle.rt", "pub is_open: bool", "pub is_open: u8"),
    ("crates/pe_opened/src/handle.rt", "pub is_open: bool", "pub is_open: u8"),
    ("crates/petool_c/src/fixup.rt", "rows: &mut [FixupRow]", "rows: &mut [ImportRow]"),
    ("crates/petool_c/src/fixup.rt", "fn petool_fixups(", "fn petool_relocations("),
    ("crates/petool_c/src/words.rt", "number: u16", "number: u32"),
    ("crates/petool_c/src/space.rt", "known: bool,\n    cycle", "cycle"),
    ("crates/pe_json/src/tables.rt", '{\\"rva\\":', '{\\"field\\":'),
    ("crates/pe_json/src/image.rt", ',\\"fixups\\":', ',\\"relocations\\":'),
    ("crates/pe_json/src/directories.rt", ',\\"size\\":', ',\\"len\\":'),
    ("crates/pe_json/src/sections.rt", '\\"short_name_hex\\"', '\\"name_in_hex\\"'),
    ("crates/pe_json/src/auxiliary.rt", ',\\"linenumber\\":', ',\\"line\\":'),
    ("crates/pe_json/src/exports.rt", ',\\"forward\\":{\\"module\\":', ',\\"forwarder\\":{\\"module\\":'),
    ("crates/pe_json/src/fault.rt", ',\\"rule\\":', ',\\"words\\":'),
]
#: Changed or invalid descriptions, and what is then named.
STACK_COMMIT = "  , size_of_stack_commit            u64 76/4 80/8"
DESCRIBED = [
    (STACK_COMMIT, STACK_COMMIT.replace("76/4", "77/4"), "crates/pe_head/src/fields.rt"),
    (STACK_COMMIT, STACK_COMMIT.replace("76/4", "77/4"), "crates/pe_head/specs/Head.antt: head_of has ('size_of_stack_commit'"),
    (STACK_COMMIT, STACK_COMMIT.replace("76/4", "77/4"), "docs/FORMAT.md"),
    (STACK_COMMIT, STACK_COMMIT.replace("76/4 80/8", "76/4"), "headers.size_of_stack_commit: its places"),
    (STACK_COMMIT, STACK_COMMIT.replace("76/4", "76/3"), "line "),
    (STACK_COMMIT, STACK_COMMIT.replace("80/8", "80"), "line "),
    ("    named\n", "    name\n", "line "),
    ("    named\n", "    flags File\n", "crates/pe_json/src/headers.rt"),
    ("    dumped apart\n", "    dumped twice\n", "line "),
    ("    dumped by name\n", "", "crates/pe_text/src/header_fields.rt"),
    ("    counts sections\n", "", "crates/pe_head/src/fields.rt"),
    ("    flags Dll\n", "    flags File\n", "crates/pe_json/src/optional_header.rt"),
    ("    from virtual_address\n", "    from virtual_size\n", "crates/pe_records_c/src/headers.rt"),
    ("    from base_of_data or 0\n", "    from base of data or 0\n", "line "),
    ("    rattle in headers of pe_head.section.SectionHeader", "    rattle in headers of pe_head.SectionHeader", "line "),
    ("    fields of headers\n", "    fields of header\n", "line "),
    ("    fields of headers\n", "", "headers"),
    ("rows imports_of of pe_tables.specs.Imports", "rows imports_in of pe_tables.specs.Imports", "crates/petool_c/src/import.rt"),
    ("    reads imports from", "    reads imports of", "petool_imports: what it reads"),
    ("    kind   u32  -    fixup.bits", "    kind   u16  -    fixup.bits", "crates/pe_records_c/src/fixup.rt"),
    ("    kind   u32  -    fixup.bits", "    kind   u32  -    fixup.bytes", "there is no fixup.bytes"),
    ("    kind   u32  -    fixup.bits", "    kind   u32  days    fixup.bits", "days is no unit"),
    ("    kind   u32  -    fixup.bits", "    kind   u31  -    fixup.bits", "u31 is no type"),
    ("  petool_fixups(file, rows", "  petool_fixups(files, rows", "petool_fixups"),
    ("  petool_version_number()\n", "", "packaging/debian/libpetool2.symbols"),
    ("  petool_check(file, fault)\n", "  petool_check(file, fault\n", "line "),
    ("pe_offset, headers.., directories", "headers.., directories", "the order of headers"),
    ("row fixup = FixupRow\n", "rows fixup = FixupRow\n", "line "),
    ("  written by tables.write_fixup, tables.write_next_fixup, tables.kind_end\n", "  written by tables.write_fixup, tables.write_next_fixup\n", "crates/pe_json/src/tables.rt"),
    ("    SMALL     4  too", "    SMALL     9  too", STATUSES),
    ("    SMALL     4  too", "    SMALL     9  too", "bindings/rust/petool-sys/src/lib.rs"),
    ("    SMALL     4  too", "    SMALL     3  too", "SMALL or 3 is there twice"),
    ("    SMALL     4  too", "    ABSENT    4  too", "ABSENT or 4 is there twice"),
    ("    SMALL     4  too", "    SMALL     four  too", "line "),
    ("    SMALL     4  too", "    SMALL     -4  too", "-4 does not fit u32"),
    ("    SMALL     4  too", "    SMALL     4 too", "line "),
    ("as pub const NAME: u32 = NUMBER;", "as pub const NAME: u32 = 0;", "line "),
    ("    source in crates/pe_records_c/src/fault.rt as Place::NAME(_) => (NUMBER\n", "", "places has no values, or no source"),
    ("    source DONE\n", "", STATUSES),
    ("src/status.rt as pub", "src/statuses.rt as pub", "crates/pe_records_c/src/statuses.rt"),
    ("as SymbolSection::NAME => NUMBER", "as Section::NAME => NUMBER,", "line "),
    ("values section_numbers = PETOOL_SECTION_ u16", "values section_numbers = PETOOL_SECTION_ u8", "0xffff does not fit u8"),
    ("values section_numbers = PETOOL_SECTION_ u16", "values section_numbers = PETOOL_SECTION_ u15", "u15 is no type"),
    ("values statuses = ", "values results = ", "no statuses"),
    ("values targets = ", "values kinds = ", "bindings/python/petool/_image.py"),
    ("    python in _fault\n", "", "bindings/python/petool/_fault.py: places is not described"),
]
#: Changes of the faults: also a fault that is left out, and one more.
RULES = "crates/pe_text/src/fault_text.rt"
EXPLAINED = "crates/petool/src/explain.rt"
FAULTS = "docs/FAULTS.md"
FAULTS_WRITTEN = [
    (RULES, "the file is larger than 2^32 bytes", "the file has over 2^31 bytes"),
    (RULES, '(9, "NumberOfSections"', '(9, "NumberOfSymbols"'),
    (RULES, '    (41, "file", "the set has more than 256 files"),\n', ""),
    (RULES, '    (\n        83,\n', '    (\n        82,\n'),
    # the words of two faults, and two rows, exchanged
    (
        RULES,
        '(9, "NumberOfSections", "the image has more than 96 sections"),\n    (\n        10,\n        "NumberOfSections",\n        "the section table extends past the end of the file",',
        '(9, "NumberOfSections", "the section table extends past the end of the file"),\n    (\n        10,\n        "NumberOfSections",\n        "the image has more than 96 sections",',
    ),
    (
        RULES,
        '    (3, "MS-DOS header", "the file does not begin with MZ"),\n    (\n        4,\n        "offset of the signature",\n        "the signature and the COFF file header after it extend past the end of the file",\n    ),\n',
        '    (\n        4,\n        "offset of the signature",\n        "the signature and the COFF file header after it extend past the end of the file",\n    ),\n    (3, "MS-DOS header", "the file does not begin with MZ"),\n',
    ),
    (RULES, "; 72] = [", "; 71] = ["),
    (RULES, "static FINDING_RULES", "static FINDINGS"),
    (RULES, "static RULES", "static WORDS"),
    (EXPLAINED, "an MS-DOS, NE, LE or LX program", "an MS-DOS program"),
    (EXPLAINED, 'Some("The table has 40 bytes.")', 'Some("The table has 20 bytes.")'),
    (EXPLAINED, 'Some("The table has 40 bytes.")', "None"),
    (EXPLAINED, '    (11, None, "a damaged header"),\n', ""),
    (EXPLAINED, '    (\n        12,\n        Some("The headers', '    (\n        11,\n        Some("The headers'),
    (EXPLAINED, '        Some(\n            "The offset is the number', '        Some(\n"The offset is the number'),
    (FAULTS, "| n is under 64 |", "| n is at most 64 |"),
    (FAULTS, "`Rva(slot)`, the importing image", "`Rva(slot)`, image 0"),
    (FAULTS, "its Magic differs from that of file 0", "its Magic differs"),
    (FAULTS, "`pe_set/src/place_faults.rt` |", "`pe_set/src/names.rt` |"),
    (FAULTS, "| 84 | the file would", "| 86 | the file would"),
    (FAULTS, "| image faults | 1 to 38 |", "| image faults | 1 to 32 |"),
    (FAULTS, "| 1 | n is over 2^32 | `File(2^32)` | byte: the file is larger than 2^32 bytes | `pe_head/src/reading.rt` |\n", ""),
]
FAULTS_PARTS = [
    (FAULTS, "<!-- from describe/faults.txt: sections -->\n", ""),
    (FAULTS, "<!-- from describe/faults.txt: sections -->", "<!-- from describe/faults.txt: exports -->"),
    (FAULTS, "<!-- from describe/faults.txt: names -->", "<!-- from describe/records.txt: names -->"),
]
FAULTS_DESCRIBED = [
    ("  9 NumberOfSections: the image has", "  9 NumberOfSections: an image has", RULES),
    ("    met by     an empty file, or one", "    met by     a file of 0 bytes, or one", EXPLAINED),
    ("    condition  n is under 64", "    condition  n is at most 64", FAULTS),
    ("    explained  The table has 40 bytes.\n", "", EXPLAINED),
    ("    condition  n is under 64\n", "", "fault 2: its rows"),
    ("  85 object: a part", "  84 object: a part", "line "),
    ("  61 end of the file", "  41 end of the file", "fault 41 is there twice"),
    ("    place      `File(60)`\n", "", "fault 4: its rows"),
    ("    place      `File(60)`\n", "    place      `File(60)`\n    places     `File(60)`\n", "line "),
    ("    place      `File(60)`", "    place      `File(60)` | `File(64)`", "fault 4: its rows"),
    ("    code       coff_read/src/section.rt, symbol.rt", "    code       coff_read/src/section.rt, symbols.rt", "symbols.rt"),
    ("    code       pe_head/src/reading.rt", "    code       reading.rt", "crates/reading.rt"),
    ("1 to 38    an image", "1 to 39    an image", "39, which is no fault"),
    ("name plan fault              53         the plan of an image to be written\n", "", "fault 53 is in no range"),
    ("faults exports\n", "fault exports\n", "line "),
    ("faults headers\n", "", "it is in no table"),
    ("    condition  n is under 64", "   condition  n is under 64", "a fault has an indent of 2"),
]

#: Changes of what has commands, options or exit statuses.
FILE_WORDS = "crates/pe_words/src/file_words.rt"
COMMANDS_WRITTEN = [
    ("README.md", "| `petool explain [N]` | what fault N means |", "| `petool explain N` | what fault N means |"),
    ("README.md", "; 4 out of memory;", "; 4 no memory;"),
    ("docs/GUIDE.md", "[--unbound] [--window HEX]", "[--window HEX]"),
    ("docs/GUIDE.md", "| 5 | a text was cut", "| 6 | a text was cut"),
    ("man/petool.1", "\\fIHEX\\fP \\fIIN\\fP \\fIOUT\\fP", "\\fIIN\\fP \\fIOUT\\fP"),
    ("man/petool.1", "Prints what fault N means", "Prints what a fault means"),
    ("man/petool.1", "Prints each entry of the debug directory.", "Prints debug data."),
    ("man/petool.1", "\\fBresource\\fP, \\fBobject\\fP, \\fBarchive\\fP, \\fBjson\\fP)", "\\fBresource\\fP, \\fBobject\\fP, \\fBjson\\fP)"),
    ("man/petool.1", "\\fBjson\\fP and \\fBsum\\fP process every file", "\\fBjson\\fP process every file"),
    ("man/petool.1", "\\fBarchive\\fP, \\fBsum\\fP, \\fBmap\\fP,", "\\fBarchive\\fP, \\fBmap\\fP,"),
    ("docs/GUIDE.md", "`archive`, `sum`, `map`, `layout` and `rebase` print a fault", "`archive`, `map` and `rebase` print a fault"),
    (FILE_WORDS, "Prints each symbol of an object", "Prints symbols"),
    (FILE_WORDS, "Prints each image or object, and its first fault if it is refused, as one line of JSON", "Prints JSON"),
    (FILE_WORDS, "        imports: is_all", "        exports: is_all"),
    ("crates/pe_words/src/at_words.rt", "Explains a fault by its number, or", "Explains a fault, or"),
    ("crates/pe_words/src/map_words.rt", "Maps images together", "Maps images"),
    ("crates/pe_words/src/map_words.rt", '"How many bytes the window has', '"The bytes of the window'),
    ("crates/pe_words/src/map_words.rt", "Prints the bytes from this address on", "Prints the bytes here"),
    ("crates/pe_words/src/at_words.rt", '"Each ADDRESS is a file offset"', '"Each ADDRESS is an offset"'),
    (FILE_WORDS, "Prints at most so many bytes of each file's text", "Prints so many bytes"),
    (FILE_WORDS, '    "Adds debug data, the PDB file', '    "Adds debug data'),
    (FILE_WORDS, '    ("all", "Prints all of these"),\n', ""),
    ("crates/pe_words/src/rebase_words.rt", "Writes an image's file for another base", "Moves an image"),
    ("crates/pe_words/src/commands.rt", "  3  reading or writing failed", "  4  reading or writing failed"),
    ("crates/pe_text/src/show_options.rt", "    pub imports: bool,", "    pub import: bool,"),
    ("crates/pe_text/src/show_options.rt", "        symbols: true,\n", ""),
    ("crates/pe_bench/src/texts.rt", "    symbols: true,\n", ""),
]
COMMANDS_COMPARED = [
    ("crates/petool/src/statuses.rt", "CUT: u8 = 5", "CUT: u8 = 6"),
    (FILE_WORDS, "const SHOW_OPTIONS", "const OPTIONS"),
    (FILE_WORDS, 'name: "json",', 'name: "lines",'),
    ("README.md", "<!-- from describe/commands.txt: statuses -->\n", ""),
    ("man/petool.1", ".\\\" from describe/commands.txt: synopses", ".\\\" from describe/commands.txt: commands"),
]
COMMANDS_DESCRIBED = [
    ("  means      done", "  means      finished", "README.md"),
    ("status 5 CUT", "status 7 CUT", "crates/petool/src/statuses.rt"),
    ("option symbols\n", "option symbols\n  column     Symbols\n", "line "),
    ("  readme     what fault N means\n", "", "command explain [N] has no row readme"),
    ("command object FILE", "command objects FILE", "crates/pe_words/src/file_words.rt"),
    ("word count N\n", "word counts N\n", "has the option count N, which no word describes"),
    ("word all\n", "word each\n", "has the option all, which no word describes"),
    ("[--unbound] [--window HEX]", "[--unbound] [--window N]", "has the option window N, which no word describes"),
    ("word known\n", "word known\n  help  It is not used\n\nword unknown\n", "crates/pe_words/src/map_words.rt"),
    ("status 4 OUT_OF_MEMORY", "statuses 4 OUT_OF_MEMORY", "line "),
    ("  faults     line (without LEAF)", "  faults     lines", "a row faults says nothing like this"),
    ("  files      each", "  files      some", "a row files says nothing like this"),
    ("  files      each\n", "", "man/petool.1"),
]


def copy_to(folder):
    for path in COPIED:
        target = folder / path
        target.parent.mkdir(parents=True, exist_ok=True)
        if (TOP / path).is_dir():
            shutil.copytree(TOP / path, target, ignore=shutil.ignore_patterns("__pycache__"))
        else:
            shutil.copy(TOP / path, target)


class Describe(unittest.TestCase):
    @classmethod
    def setUpClass(cls):
        cls.top = pathlib.Path(tempfile.mkdtemp())
        cls.addClassCleanup(shutil.rmtree, cls.top)
        copy_to(cls.top)

    def run_script(self, *words):
        """The status, and what is printed."""
        # run in another folder than the copy
        run = subprocess.run([sys.executable, self.top / "describe/describe.py", *words], capture_output=True, cwd="/", text=True)
        return run.returncode, run.stdout + run.stderr

    def changed(self, path, old, new):
        """Changes one place of a file until the test ends, and returns the file."""
        file = self.top / path
        text = file.read_bytes()
        self.assertIn(old.encode(), text, path)
        file.write_bytes(text.replace(old.encode(), new.encode(), 1))
        self.addCleanup(file.write_bytes, text)
        return file

    def assert_refused(self, named):
        status, said = self.run_script("--check")
        self.assertEqual((status, named in said, "Traceback" in said), (1, True, False), said)
        self.assertRegex(said, r"\n\d+ passed, [1-9]\d* failed\n\Z")

    def assert_named(self, path, old, new, named):
        """Asserts that the check names what it should after a change of one place of a file."""
        with self.subTest(path=path, old=old, new=new):
            self.changed(path, old, new)
            self.assert_refused(named)
        self.doCleanups()

    def test_the_repository_agrees(self):
        status, said = self.run_script("--check")
        self.assertEqual(status, 0, said)
        self.assertRegex(said, r"\A\d+ passed, 0 failed\n\Z")

    def test_a_file_that_differs_is_named(self):
        for path, old, new in WRITTEN + COMPARED:
            self.assert_named(path, old, new, path)

    def test_a_value_that_differs_is_named(self):
        for path, old, new in VALUES_WRITTEN + VALUES_COMPARED:
            self.assert_named(path, old, new, path)

    def test_a_field_of_the_headers_that_differs_is_named(self):
        for path, old, new in FIELDS_WRITTEN + FIELDS_COMPARED:
            self.assert_named(path, old, new, path)

    def test_a_file_with_fields_is_written_back(self):
        for path, old, new in FIELDS_WRITTEN:
            if "describe/records.txt" not in old:
                with self.subTest(path=path, old=old, new=new):
                    before = (self.top / path).read_bytes()
                    file = self.changed(path, old, new)
                    self.assertEqual(self.run_script(), (0, f"{path}: written\n"))
                    self.assertEqual(file.read_bytes(), before)
                self.doCleanups()

    def test_a_table_of_faults_that_differs_is_named(self):
        for path, old, new in FAULTS_WRITTEN + FAULTS_PARTS:
            self.assert_named(path, old, new, path)

    def test_another_description_of_records_is_named(self):
        for old, new, named in DESCRIBED:
            self.assert_named("describe/records.txt", old, new, named)

    def test_another_description_of_faults_is_named(self):
        for old, new, named in FAULTS_DESCRIBED:
            self.assert_named("describe/faults.txt", old, new, named)

    def test_a_table_of_faults_is_written_back(self):
        for path, old, new in FAULTS_WRITTEN:
            if not old.startswith("static"):
                with self.subTest(path=path, old=old, new=new):
                    before = (self.top / path).read_bytes()
                    file = self.changed(path, old, new)
                    self.assertEqual(self.run_script(), (0, f"{path}: written\n"))
                    self.assertEqual(file.read_bytes(), before)
                self.doCleanups()

    def test_a_text_of_commands_that_differs_is_named(self):
        for path, old, new in COMMANDS_WRITTEN + COMMANDS_COMPARED:
            self.assert_named(path, old, new, path)

    def test_another_description_of_commands_is_named(self):
        for old, new, named in COMMANDS_DESCRIBED:
            self.assert_named("describe/commands.txt", old, new, named)

    def test_a_text_of_commands_is_written_back(self):
        for path, old, new in COMMANDS_WRITTEN:
            with self.subTest(path=path, old=old, new=new):
                before = (self.top / path).read_bytes()
                file = self.changed(path, old, new)
                self.assertEqual(self.run_script(), (0, f"{path}: written\n"))
                self.assertEqual(file.read_bytes(), before)
            self.doCleanups()

    def test_a_crate_without_sources_is_found(self):
        for crate in CRATES + FAULT_CRATES:
            with self.subTest(crate=crate):
                source = self.top / "crates" / crate / "src"
                source.rename(source.with_name("moved"))
                self.addCleanup(source.with_name("moved").rename, source)
                self.assert_refused("crates")
            self.doCleanups()


if __name__ == "__main__":
    unittest.main()
