//! The calls and records of libpetool, as `petool.h` declares them: read its rules before calling any of these. The
//! crate `petool` has them behind types that keep the rules.
//!
//! Records have the names of the header without `petool_`, calls and constants have them as they are. The functions
//! that the header defines only in C, such as `petool_exports_init`, are not here: [`Text::NONE`] and the `NONE` of
//! rows with texts are for what has to be initialized before a call.
#![no_std]
#![deny(missing_docs)]

use core::ffi::c_void;

// C's `char` and `int` on x86-64, where the library is built; `core::ffi` has them only since Rust 1.64
#[allow(non_camel_case_types)]
type c_char = i8;
#[allow(non_camel_case_types)]
type c_int = i32;

// from describe/records.txt: values

/// Done.
pub const PETOOL_OK: u32 = 0;
/// A rule of the format is broken: `*fault` says which, and where.
pub const PETOOL_FAULT: u32 = 1;
/// Out of memory.
pub const PETOOL_MEMORY: u32 = 2;
/// Bytes outside the image or the file, or no such string, export, section, image or fault.
pub const PETOOL_ABSENT: u32 = 3;
/// Too little room: the count says how much is needed.
pub const PETOOL_SMALL: u32 = 4;
/// An argument has a value that it may not have; nothing was done.
pub const PETOOL_ARGUMENT: u32 = 5;
/// The image or the space is not open.
pub const PETOOL_CLOSED: u32 = 6;
/// The images of the set have more bytes than the caller allows; nothing was mapped.
pub const PETOOL_LARGE: u32 = 7;
/// Another handle has the space, so it is not moved.
pub const PETOOL_SHARED: u32 = 8;

/// A fault's place counts bytes of the file.
pub const PETOOL_PLACE_FILE: u16 = 0;
/// A fault's place counts bytes of the laid-out image.
pub const PETOOL_PLACE_RVA: u16 = 1;
/// A fault's place counts bytes of the address space.
pub const PETOOL_PLACE_ADDRESS: u16 = 2;
/// A fault's place counts items of a list.
pub const PETOOL_PLACE_ITEM: u16 = 3;

/// A value is no number, but words after one.
pub const PETOOL_VALUE_NOTHING: u32 = 0;
/// A value is a size or a count, for people in decimal.
pub const PETOOL_VALUE_COUNT: u32 = 1;
/// A value is a file offset, an RVA, an address or a field, for people in hexadecimal.
pub const PETOOL_VALUE_PLACE: u32 = 2;

/// What has a name is the machine of a COFF file header.
pub const PETOOL_NAME_MACHINE: u32 = 0;
/// What has a name is the subsystem of an image.
pub const PETOOL_NAME_SUBSYSTEM: u32 = 1;
/// What has a name is a flag of Characteristics in a COFF file header.
pub const PETOOL_NAME_FLAG: u32 = 2;
/// What has a name is a flag of DllCharacteristics.
pub const PETOOL_NAME_DLL_FLAG: u32 = 3;
/// What has a name is a flag of a section.
pub const PETOOL_NAME_SECTION_FLAG: u32 = 4;
/// What has a name is the table of a data directory, by its index.
pub const PETOOL_NAME_DIRECTORY: u32 = 5;

/// What has a name is a type of debug data.
pub const PETOOL_NAME_DEBUG_TYPE: u32 = 6;
/// What has a name is a field of the load configuration, by its index.
pub const PETOOL_NAME_LOAD_FIELD: u32 = 7;

/// An export's target is an RVA of the image.
pub const PETOOL_TARGET_RVA: u32 = 0;
/// An export's target is an ordinal of another module.
pub const PETOOL_TARGET_ORDINAL: u32 = 1;
/// An export's target is a name of another module.
pub const PETOOL_TARGET_NAME: u32 = 2;

/// A PDB file is of PDB 7.0, with a GUID.
pub const PETOOL_PDB_SEVEN: u32 = 0;
/// A PDB file is of PDB 2.0, with a time stamp.
pub const PETOOL_PDB_TWO: u32 = 1;

/// An entry of the exception table is a function of AMD64, with its end.
pub const PETOOL_FUNCTION_AMD64: u32 = 0;
/// An entry of the exception table is a function of ARM64 or ARMNT, without its end.
pub const PETOOL_FUNCTION_ARM: u32 = 1;

/// A resource is named by nothing: the tree ends before this level.
pub const PETOOL_NAMED_NOTHING: u32 = 0;
/// A resource is named by an id.
pub const PETOOL_NAMED_ID: u32 = 1;
/// A resource is named by a text.
pub const PETOOL_NAMED_TEXT: u32 = 2;

/// A digest is absent: none can be read.
pub const PETOOL_DIGEST_NONE: u32 = 0;
/// A digest is of SHA-1, with 20 bytes.
pub const PETOOL_DIGEST_SHA1: u32 = 1;
/// A digest is of SHA-256, with 32 bytes.
pub const PETOOL_DIGEST_SHA256: u32 = 2;
/// A digest is of SHA-384, with 48 bytes.
pub const PETOOL_DIGEST_SHA384: u32 = 3;
/// A digest is of SHA-512, with 64 bytes.
pub const PETOOL_DIGEST_SHA512: u32 = 4;
/// A digest is of an algorithm that is not computed here.
pub const PETOOL_DIGEST_OTHER: u32 = 5;

/// A signed digest is that of other bytes.
pub const PETOOL_FIT_NO: u32 = 0;
/// A signed digest is that of the file.
pub const PETOOL_FIT_YES: u32 = 1;
/// A signed digest is not compared: it is absent, not computed here, or what a signature signs is ambiguous.
pub const PETOOL_FIT_UNKNOWN: u32 = 2;

/// An overlay begins with nothing: there is none.
pub const PETOOL_OVERLAY_NONE: u32 = 0;
/// An overlay begins with the certificate table, by directory 4.
pub const PETOOL_OVERLAY_CERTIFICATES: u32 = 1;
/// An overlay begins with the symbol table, by PointerToSymbolTable.
pub const PETOOL_OVERLAY_SYMBOL_TABLE: u32 = 2;
/// An overlay begins with the data of an NSIS installer.
pub const PETOOL_OVERLAY_NSIS: u32 = 3;
/// An overlay begins with a 7-Zip archive, or the configuration of an installer that unpacks one.
pub const PETOOL_OVERLAY_SEVEN_ZIP: u32 = 4;
/// An overlay begins with a ZIP archive.
pub const PETOOL_OVERLAY_ZIP: u32 = 5;
/// An overlay begins with a RAR archive.
pub const PETOOL_OVERLAY_RAR: u32 = 6;
/// An overlay begins with a cabinet.
pub const PETOOL_OVERLAY_CABINET: u32 = 7;
/// An overlay begins with a compound file, such as a Windows Installer package.
pub const PETOOL_OVERLAY_COMPOUND_FILE: u32 = 8;
/// An overlay begins with an executable file.
pub const PETOOL_OVERLAY_EXECUTABLE: u32 = 9;
/// An overlay begins with something else.
pub const PETOOL_OVERLAY_OTHER: u32 = 10;

/// The section number of a symbol that is defined in another object.
pub const PETOOL_SECTION_UNDEFINED: u16 = 0;
/// The section number of a symbol whose value is not an address.
pub const PETOOL_SECTION_ABSOLUTE: u16 = 0xffff;
/// The section number of a symbol for debuggers.
pub const PETOOL_SECTION_DEBUG: u16 = 0xfffe;

/// The section number, in 32 bits, of a symbol of another object.
pub const PETOOL_EITHER_SECTION_UNDEFINED: u32 = 0;
/// The section number, in 32 bits, of a symbol whose value is not an address.
pub const PETOOL_EITHER_SECTION_ABSOLUTE: u32 = 0xffff_ffff;
/// The section number, in 32 bits, of a symbol for debuggers.
pub const PETOOL_EITHER_SECTION_DEBUG: u32 = 0xffff_fffe;

/// A member of an archive is a file, mostly a COFF object.
pub const PETOOL_MEMBER_FILE: u32 = 0;
/// A member of an archive is a short import object.
pub const PETOOL_MEMBER_IMPORT: u32 = 1;
/// A member of an archive is a linker member, which has symbols of the archive.
pub const PETOOL_MEMBER_LINKER: u32 = 2;
/// A member of an archive is the member that has long names.
pub const PETOOL_MEMBER_LONG_NAMES: u32 = 3;
/// A member of an archive is another one that the archive keeps for itself.
pub const PETOOL_MEMBER_OWN: u32 = 4;
/// A member of an archive is one of a thin archive, whose bytes are in another file.
pub const PETOOL_MEMBER_APART: u32 = 5;

// end of describe/records.txt

/// The version of the header, as [`petool_version_number`] returns that of the library: the first part times 65,536, plus the
/// second.
pub const PETOOL_VERSION_NUMBER: u32 = 0x20000;
/// No image has more sections.
pub const PETOOL_SECTIONS: usize = 96;
/// A fault has so many values, or none.
pub const PETOOL_VALUES: usize = 3;

const NO_BYTES: &[u8; 1] = &[0];

// from describe/records.txt: records

/// A part of the file, or a string of the library. An empty one may point anywhere.
#[repr(C)]
#[derive(Clone, Copy, Debug)]
pub struct Text {
    /// Its first byte; never null.
    pub at: *const u8,
    /// How many bytes it has.
    pub len: usize,
}

/// Which rule is broken, and where.
#[repr(C)]
#[derive(Clone, Copy, Debug, Default, PartialEq, Eq, Hash)]
pub struct Fault {
    /// As in docs/FAULTS.md: of a fault from 1 to 93, of a finding from 101 on.
    pub number: u16,
    /// What `at` counts: a `PETOOL_PLACE`.
    pub place: u16,
    /// The index of the entry in a set; otherwise 0.
    pub image: u32,
    /// Where the rule is broken.
    pub at: u64,
}

/// A number that the rule of a fault compares.
#[repr(C)]
#[derive(Clone, Copy, Debug)]
pub struct Value {
    /// The words before the number, or the last ones.
    pub words: Text,
    /// The number's name, as in docs/FAULTS.md; empty if there is no number.
    pub name: Text,
    /// The number; 0 if there is none.
    pub number: u64,
    /// What the number is: a `PETOOL_VALUE`.
    pub kind: u32,
}

impl Value {
    /// Its value before a call sets it.
    pub const NONE: Value = Value {
        words: Text::NONE,
        name: Text::NONE,
        number: 0,
        kind: 0,
    };
}

/// One of the 16 data directories.
#[repr(C)]
#[derive(Clone, Copy, Debug, Default, PartialEq, Eq, Hash)]
pub struct Directory {
    /// Where its table begins in the image, or for the certificate table in the file; 0 if there is none.
    pub rva: u32,
    /// The table's size, as the file has it.
    pub size: u32,
}

/// Every field of the headers, with the wider type where PE32 and PE32+ differ.
#[repr(C)]
#[derive(Clone, Copy, Debug, Default, PartialEq, Eq, Hash)]
pub struct Headers {
    /// The preferred address of the image.
    pub image_base: u64,
    /// How many bytes of stack to reserve.
    pub size_of_stack_reserve: u64,
    /// How many bytes of stack to commit.
    pub size_of_stack_commit: u64,
    /// How many bytes of heap to reserve.
    pub size_of_heap_reserve: u64,
    /// How many bytes of heap to commit.
    pub size_of_heap_commit: u64,
    /// The file offset of the signature.
    pub pe_offset: u32,
    /// When the image was made, in seconds since 1970, as written.
    pub time_date_stamp: u32,
    /// The file offset of the symbol table, or 0 if there is none.
    pub pointer_to_symbol_table: u32,
    /// How many records the symbol table has.
    pub number_of_symbols: u32,
    /// The size of all code.
    pub size_of_code: u32,
    /// The size of all initialized data.
    pub size_of_initialized_data: u32,
    /// The size of all uninitialized data.
    pub size_of_uninitialized_data: u32,
    /// The RVA of the entry point, or 0 if there is none.
    pub address_of_entry_point: u32,
    /// The RVA where code begins.
    pub base_of_code: u32,
    /// The RVA where data begins; 0 in PE32+.
    pub base_of_data: u32,
    /// The alignment of sections in the laid-out image.
    pub section_alignment: u32,
    /// The alignment of raw data in the file.
    pub file_alignment: u32,
    /// Reserved.
    pub win32_version_value: u32,
    /// The size of the laid-out image.
    pub size_of_image: u32,
    /// The size of the headers in the laid-out image.
    pub size_of_headers: u32,
    /// The checksum as written; it is not computed.
    pub check_sum: u32,
    /// Reserved.
    pub loader_flags: u32,
    /// The number of directories, as written; at most 16 are kept.
    pub number_of_rva_and_sizes: u32,
    /// 0x10b for PE32, 0x20b for PE32+.
    pub magic: u16,
    /// The machine that the image is for.
    pub machine: u16,
    /// How many sections there are.
    pub number_of_sections: u16,
    /// The bytes from the beginning of the optional header to the section table.
    pub size_of_optional_header: u16,
    /// The flags of the image.
    pub characteristics: u16,
    /// The subsystem that the image needs to run.
    pub subsystem: u16,
    /// The flags in DllCharacteristics.
    pub dll_characteristics: u16,
    /// The major version of the operating system that the image needs.
    pub major_operating_system_version: u16,
    /// The minor version of the operating system.
    pub minor_operating_system_version: u16,
    /// The image's own major version.
    pub major_image_version: u16,
    /// The image's own minor version.
    pub minor_image_version: u16,
    /// The major version of the subsystem that the image needs.
    pub major_subsystem_version: u16,
    /// The minor version of the subsystem.
    pub minor_subsystem_version: u16,
    /// The linker's major version.
    pub major_linker_version: u8,
    /// The linker's minor version.
    pub minor_linker_version: u8,
    /// The data directories by index; those that the headers do not hold are 0.
    pub directories: [Directory; 16],
}

/// A section of an image.
#[repr(C)]
#[derive(Clone, Copy, Debug, Default, PartialEq, Eq, Hash)]
pub struct Section {
    /// The name, padded with zero bytes.
    pub name: [u8; 8],
    /// The RVA of the first byte.
    pub rva: u32,
    /// How many bytes of the laid-out image the section takes.
    pub extent: u32,
    /// How many of these, from the first on, come from the file.
    pub file_size: u32,
    /// The file offset of the first byte, as in the header.
    pub pointer_to_raw_data: u32,
    /// The size in the file, as in the header.
    pub size_of_raw_data: u32,
    /// The size in the laid-out image, as in the header.
    pub virtual_size: u32,
    /// The section's flags.
    pub characteristics: u32,
}

/// What an export leads to.
#[repr(C)]
#[derive(Clone, Copy, Debug)]
pub struct Target {
    /// A `PETOOL_TARGET`: an RVA of the image, or an ordinal or a name of another module.
    pub kind: u32,
    /// The RVA; 0 for a forwarder.
    pub rva: u32,
    /// The ordinal of a forwarder to an ordinal; otherwise 0.
    pub ordinal: u64,
    /// The other module of a forwarder; otherwise empty.
    pub module: Text,
    /// The name of a forwarder to a name; otherwise empty.
    pub name: Text,
}

impl Target {
    /// Its value before a call sets it.
    pub const NONE: Target = Target {
        kind: 0,
        rva: 0,
        ordinal: 0,
        module: Text::NONE,
        name: Text::NONE,
    };
}

/// An export by ordinal or by name.
#[repr(C)]
#[derive(Clone, Copy, Debug)]
pub struct Export {
    /// The ordinal, which may exceed 2^32.
    pub ordinal: u64,
    /// The name of an export by name; otherwise empty.
    pub name: Text,
    /// What it leads to.
    pub target: Target,
}

impl Export {
    /// Its value before a call sets it.
    pub const NONE: Export = Export {
        ordinal: 0,
        name: Text::NONE,
        target: Target::NONE,
    };
}

/// An import.
#[repr(C)]
#[derive(Clone, Copy, Debug)]
pub struct Import {
    /// The module that exports it.
    pub module: Text,
    /// The name; empty for an import by ordinal.
    pub name: Text,
    /// The ordinal of an import by ordinal; otherwise 0.
    pub ordinal: u64,
    /// The RVA of its slot.
    pub slot: u32,
    /// Whether it is imported by ordinal.
    pub by_ordinal: bool,
}

impl Import {
    /// Its value before a call sets it.
    pub const NONE: Import = Import {
        module: Text::NONE,
        name: Text::NONE,
        ordinal: 0,
        slot: 0,
        by_ordinal: false,
    };
}

/// A base relocation: a field that changes with the base.
#[repr(C)]
#[derive(Clone, Copy, Debug, Default, PartialEq, Eq, Hash)]
pub struct Fixup {
    /// The RVA of the table's entry.
    pub entry: u32,
    /// The RVA of the field.
    pub field: u32,
    /// The entry's type: 1 HIGH and 2 LOW of 2 bytes, 3 HIGHLOW of 4, 10 DIR64 of 8.
    pub kind: u32,
}

/// How many rows the tables of an image have.
#[repr(C)]
#[derive(Clone, Copy, Debug, Default, PartialEq, Eq, Hash)]
pub struct Counts {
    /// Exports by ordinal.
    pub exports: usize,
    /// Exports by name.
    pub names: usize,
    /// Imports.
    pub imports: usize,
    /// Base relocations.
    pub fixups: usize,
}

/// An entry of the debug directory.
#[repr(C)]
#[derive(Clone, Copy, Debug, Default, PartialEq, Eq, Hash)]
pub struct DebugEntry {
    /// Reserved.
    pub characteristics: u32,
    /// When the data was made, in seconds since 1970, or a hash.
    pub time_date_stamp: u32,
    /// The major version of the data's format.
    pub major_version: u16,
    /// The minor version of the data's format.
    pub minor_version: u16,
    /// The type of the data: 2 a CodeView record, which names the PDB file.
    pub kind: u32,
    /// The size of the data.
    pub size_of_data: u32,
    /// The RVA of the data; 0 if it is not laid out.
    pub address_of_raw_data: u32,
    /// The file offset of the data; 0 if the file does not hold it.
    pub pointer_to_raw_data: u32,
}

/// Which PDB file belongs to an image.
#[repr(C)]
#[derive(Clone, Copy, Debug)]
pub struct PdbFile {
    /// Its path where it was made; empty if no zero byte ends it.
    pub path: Text,
    /// A `PETOOL_PDB`.
    pub kind: u32,
    /// How often the file was written.
    pub age: u32,
    /// The GUID of a PDB 7.0 file, in the order of the image's bytes; otherwise zeros.
    pub guid: [u8; 16],
    /// When a PDB 2.0 file was made, in seconds since 1970; otherwise 0.
    pub time_date_stamp: u32,
    /// Where the debug data of a PDB 2.0 file begins in it, mostly 0; otherwise 0.
    pub offset: u32,
}

impl PdbFile {
    /// Its value before a call sets it.
    pub const NONE: PdbFile = PdbFile {
        path: Text::NONE,
        kind: 0,
        age: 0,
        guid: [0; 16],
        time_date_stamp: 0,
        offset: 0,
    };
}

/// A function of the exception table.
#[repr(C)]
#[derive(Clone, Copy, Debug, Default, PartialEq, Eq, Hash)]
pub struct Function {
    /// The RVA of its first byte; on ARMNT with 1 added, as for all Thumb code.
    pub begin: u32,
    /// The RVA after its last byte; 0 on ARM64 and ARMNT, whose tables do not have it.
    pub end: u32,
    /// On AMD64 the RVA of its unwind information; on ARM64 and ARMNT the RVA of its unwind record if the low two bits are 0, otherwise that record, packed.
    pub unwind: u32,
    /// A `PETOOL_FUNCTION`.
    pub kind: u32,
}

/// The TLS directory. Addresses are those at ImageBase, and 0 where there is none. A field that the file does not hold is 0.
#[repr(C)]
#[derive(Clone, Copy, Debug, Default, PartialEq, Eq, Hash)]
pub struct TlsDirectory {
    /// The address of the first byte of the template for the data of a thread.
    pub start_address_of_raw_data: u64,
    /// The address after the last byte of the template.
    pub end_address_of_raw_data: u64,
    /// The address of the index that the loader assigns.
    pub address_of_index: u64,
    /// The address of the callbacks.
    pub address_of_callbacks: u64,
    /// How many zero bytes follow the template.
    pub size_of_zero_fill: u64,
    /// The alignment, as in the flags of a section.
    pub characteristics: u64,
    /// Whether the file holds all fields.
    pub is_whole: bool,
}

/// A callback of the TLS directory.
#[repr(C)]
#[derive(Clone, Copy, Debug, Default, PartialEq, Eq, Hash)]
pub struct Callback {
    /// Its address at ImageBase.
    pub address: u64,
}

/// A field that may be absent: of the load configuration, of the CLR header, or of an archive.
#[repr(C)]
#[derive(Clone, Copy, Debug, Default, PartialEq, Eq, Hash)]
pub struct Field {
    /// Its number; 0 if the field is absent.
    pub value: u64,
    /// Whether the field is there.
    pub is_present: bool,
}

impl Field {
    /// Its value before a call sets it.
    pub const NONE: Field = Field {
        value: 0,
        is_present: false,
    };
}

/// A record of the bound import table: of a module, or of a module that it forwards to.
#[repr(C)]
#[derive(Clone, Copy, Debug, Default, PartialEq, Eq, Hash)]
pub struct BoundImport {
    /// The time stamp of the module when it was bound.
    pub time_date_stamp: u32,
    /// Where the module's name is, from the beginning of the table.
    pub offset_module_name: u16,
    /// How many records after this one are of modules that it forwards to; reserved in a record of those.
    pub number_of_module_forwarder_refs: u16,
}

/// What names a resource at one level of the tree: its type, its name or its language.
#[repr(C)]
#[derive(Clone, Copy, Debug)]
pub struct ResourceName {
    /// The text, in UTF-16, little endian; empty for an id, and if the file does not hold the text in one run.
    pub text: Text,
    /// The id, or where the text is, in bytes from the beginning of the tree; otherwise 0.
    pub number: u32,
    /// A `PETOOL_NAMED`.
    pub kind: u32,
}

impl ResourceName {
    /// Its value before a call sets it.
    pub const NONE: ResourceName = ResourceName {
        text: Text::NONE,
        number: 0,
        kind: 0,
    };
}

/// A resource: a leaf of the resource tree.
#[repr(C)]
#[derive(Clone, Copy, Debug)]
pub struct Resource {
    /// The type: 16 version information, 24 a manifest.
    pub kind: ResourceName,
    /// The name.
    pub name: ResourceName,
    /// The language.
    pub language: ResourceName,
    /// Its data; empty if the file does not hold all of it in one run.
    pub bytes: Text,
    /// The RVA of the data.
    pub rva: u32,
    /// The size of the data.
    pub size: u32,
    /// The code page of texts in the data, as written.
    pub code_page: u32,
}

impl Resource {
    /// Its value before a call sets it.
    pub const NONE: Resource = Resource {
        kind: ResourceName::NONE,
        name: ResourceName::NONE,
        language: ResourceName::NONE,
        bytes: Text::NONE,
        rva: 0,
        size: 0,
        code_page: 0,
    };
}

/// The fixed part of version information (VS_FIXEDFILEINFO).
#[repr(C)]
#[derive(Clone, Copy, Debug, Default, PartialEq, Eq, Hash)]
pub struct VersionInfo {
    /// The version of the file, from its first number to its last.
    pub file_version: [u16; 4],
    /// The version of the product, from its first number to its last.
    pub product_version: [u16; 4],
    /// Which flags are valid.
    pub flags_mask: u32,
    /// The flags: 1 a debug build, 2 a prerelease, 8 a private build.
    pub flags: u32,
    /// The operating system that the file is for: 0x40004 Windows.
    pub system: u32,
    /// What the file is: 1 a program, 2 a library, 3 a driver.
    pub kind: u32,
    /// The kind of driver or font.
    pub subkind: u32,
}

/// A string of version information. All texts are in UTF-16, little endian, without the zero unit after them.
#[repr(C)]
#[derive(Clone, Copy, Debug)]
pub struct VersionText {
    /// 8 hexadecimal digits: the language and the code page.
    pub table: Text,
    /// What the string is, such as ProductVersion.
    pub key: Text,
    /// The string.
    pub value: Text,
}

impl VersionText {
    /// Its value before a call sets it.
    pub const NONE: VersionText = VersionText {
        table: Text::NONE,
        key: Text::NONE,
        value: Text::NONE,
    };
}

/// CheckSum of an image's file.
#[repr(C)]
#[derive(Clone, Copy, Debug, Default, PartialEq, Eq, Hash)]
pub struct CheckSums {
    /// What the field holds; 0 if it was not set.
    pub written: u32,
    /// What it is to hold.
    pub computed: u32,
}

/// An entry of the certificate table.
#[repr(C)]
#[derive(Clone, Copy, Debug)]
pub struct Certificate {
    /// The file offset of its header of 8 bytes.
    pub offset: u64,
    /// Its content, behind that header.
    pub bytes: Text,
    /// Its length, with the header.
    pub length: u32,
    /// The revision of its form, such as 0x200.
    pub revision: u16,
    /// Its type: 2 a signature (PKCS #7).
    pub kind: u16,
}

impl Certificate {
    /// Its value before a call sets it.
    pub const NONE: Certificate = Certificate {
        offset: 0,
        bytes: Text::NONE,
        length: 0,
        revision: 0,
        kind: 0,
    };
}

/// A signature of an image's file, and the digest that it signs.
#[repr(C)]
#[derive(Clone, Copy, Debug)]
pub struct Signature {
    /// The file offset of its certificate.
    pub offset: u64,
    /// The signature, for petool_signers.
    pub bytes: Text,
    /// The digest that it signs; empty for `PETOOL_DIGEST_NONE`.
    pub digest: Text,
    /// A `PETOOL_DIGEST`: the algorithm of the digest.
    pub algorithm: u32,
    /// A `PETOOL_FIT`: whether the digest is that of the file.
    pub fits: u32,
}

impl Signature {
    /// Its value before a call sets it.
    pub const NONE: Signature = Signature {
        offset: 0,
        bytes: Text::NONE,
        digest: Text::NONE,
        algorithm: 0,
        fits: 0,
    };
}

/// A digest.
#[repr(C)]
#[derive(Clone, Copy, Debug, PartialEq, Eq, Hash)]
pub struct Digest {
    /// Its bytes, with zeros after them.
    pub bytes: [u8; 64],
    /// How many bytes it has: 16 (an import hash), 20, 32, 48 or 64.
    pub len: u32,
}

impl Digest {
    /// Its value before a call sets it.
    pub const NONE: Digest = Digest { bytes: [0; 64], len: 0 };
}

/// A certificate that a signature has, by its parts in DER.
#[repr(C)]
#[derive(Clone, Copy, Debug)]
pub struct Signer {
    /// The serial number, big-endian.
    pub serial: Text,
    /// The content of the issuer's name.
    pub issuer: Text,
    /// The content of the subject's name.
    pub subject: Text,
    /// The common name of the issuer; empty if it has none.
    pub issuer_name: Text,
    /// The common name of the subject; empty if it has none.
    pub subject_name: Text,
}

impl Signer {
    /// Its value before a call sets it.
    pub const NONE: Signer = Signer {
        serial: Text::NONE,
        issuer: Text::NONE,
        subject: Text::NONE,
        issuer_name: Text::NONE,
        subject_name: Text::NONE,
    };
}

/// The Rich header, which says with which tools of Microsoft an image was made.
#[repr(C)]
#[derive(Clone, Copy, Debug, Default, PartialEq, Eq, Hash)]
pub struct RichHeader {
    /// The file offset of DanS, with which it begins.
    pub offset: u64,
    /// Its key, with which all of it is exclusive-or'ed.
    pub key: u32,
    /// What the key is to be: a sum of the bytes before it and of its pairs.
    pub computed: u32,
}

/// How many of an image's objects one version of a tool made.
#[repr(C)]
#[derive(Clone, Copy, Debug, Default, PartialEq, Eq, Hash)]
pub struct RichPair {
    /// The number of the tool.
    pub product: u16,
    /// The number of its build.
    pub build: u16,
    /// How many objects it made.
    pub count: u32,
}

/// What an image's file has behind the bytes that its headers name.
#[repr(C)]
#[derive(Clone, Copy, Debug, Default, PartialEq, Eq, Hash)]
pub struct OverlayRange {
    /// Where these bytes end.
    pub offset: u64,
    /// How many bytes the file has from there on; 0 if it has no overlay.
    pub size: u64,
    /// A `PETOOL_OVERLAY`: what the overlay begins with.
    pub kind: u32,
}

/// An image that is kept open between calls. Set to [`Image::CLOSED`] before the first call, and never copied.
#[repr(C)]
#[derive(Debug)]
pub struct Image {
    /// Private to the library.
    pub state: *mut c_void,
    /// Whether an image is open.
    pub is_open: bool,
}

/// An image of a set.
#[repr(C)]
#[derive(Clone, Copy, Debug)]
pub struct Entry {
    /// The module's name, such as "kernel32.dll"; the case of ASCII letters is ignored.
    pub name: Text,
    /// All bytes of its file.
    pub file: Text,
    /// The image's base.
    pub base: u64,
}

/// What an import of a set is bound to.
#[repr(C)]
#[derive(Clone, Copy, Debug, Default, PartialEq, Eq, Hash)]
pub struct Binding {
    /// The index of the entry whose image has the slot.
    pub image: u32,
    /// The slot's RVA.
    pub slot: u32,
    /// The index of the entry whose image has the export.
    pub exporter: u32,
    /// The export's RVA.
    pub rva: u32,
}

/// An import that is bound to nothing, since its search comes to a module that is not in the set.
#[repr(C)]
#[derive(Clone, Copy, Debug)]
pub struct UnboundImport {
    /// The module that exports it.
    pub module: Text,
    /// The name; empty for an import by ordinal.
    pub name: Text,
    /// The ordinal of an import by ordinal; otherwise 0.
    pub ordinal: u64,
    /// The index of the entry whose image has the slot.
    pub image: u32,
    /// The RVA of the slot, which keeps its bytes from the file.
    pub slot: u32,
    /// Whether it is imported by ordinal.
    pub by_ordinal: bool,
}

impl UnboundImport {
    /// Its value before a call sets it.
    pub const NONE: UnboundImport = UnboundImport {
        module: Text::NONE,
        name: Text::NONE,
        ordinal: 0,
        image: 0,
        slot: 0,
        by_ordinal: false,
    };
}

/// Many images at their bases, kept between calls. Set to [`Space::CLOSED`] before the first call, and never copied.
#[repr(C)]
#[derive(Debug)]
pub struct Space {
    /// Private to the library.
    pub state: *mut c_void,
    /// Whether a set is mapped or opened.
    pub is_open: bool,
}

/// What a move wrote.
#[repr(C)]
#[derive(Clone, Copy, Debug, Default, PartialEq, Eq, Hash)]
pub struct Moved {
    /// How many fields of the image.
    pub fields: u32,
    /// How many bound slots, of all images.
    pub slots: u32,
}

/// The COFF file header of an object, as the file has it.
#[repr(C)]
#[derive(Clone, Copy, Debug, Default, PartialEq, Eq, Hash)]
pub struct ObjectHeader {
    /// The processor that the object is for.
    pub machine: u16,
    /// How many section headers there are.
    pub number_of_sections: u16,
    /// When the object was made, in seconds since 1970, as written.
    pub time_date_stamp: u32,
    /// The file offset of the symbol table; 0 if there is none.
    pub pointer_to_symbol_table: u32,
    /// How many records the symbol table has.
    pub number_of_symbols: u32,
    /// The size of the optional header.
    pub size_of_optional_header: u16,
    /// Flags of the object.
    pub characteristics: u16,
}

/// A section header of an object, as the file has it.
#[repr(C)]
#[derive(Clone, Copy, Debug, Default, PartialEq, Eq, Hash)]
pub struct SectionHeader {
    /// The name field, padded with zero bytes: a name, or its offset in the string table.
    pub name: [u8; 8],
    /// VirtualSize, as written.
    pub virtual_size: u32,
    /// VirtualAddress, as written.
    pub virtual_address: u32,
    /// SizeOfRawData, even if the file holds no bytes.
    pub size_of_raw_data: u32,
    /// The file offset of the first byte, as in the header.
    pub pointer_to_raw_data: u32,
    /// The file offset of the relocations.
    pub pointer_to_relocations: u32,
    /// The file offset of the line numbers.
    pub pointer_to_linenumbers: u32,
    /// How many relocations there are.
    pub number_of_relocations: u16,
    /// How many line numbers there are.
    pub number_of_linenumbers: u16,
    /// The section's flags.
    pub characteristics: u32,
}

/// A section of an object.
#[repr(C)]
#[derive(Clone, Copy, Debug)]
pub struct ObjectSection {
    /// The name, also if it is in the string table.
    pub name: Text,
    /// The section's bytes; empty if the file holds none.
    pub bytes: Text,
    /// SizeOfRawData if the file holds no bytes; otherwise 0.
    pub absent_size: u32,
    /// VirtualSize, as written.
    pub virtual_size: u32,
    /// VirtualAddress, as written.
    pub virtual_address: u32,
    /// The section's flags.
    pub characteristics: u32,
    /// How many relocations it has.
    pub relocation_count: u32,
}

impl ObjectSection {
    /// Its value before a call sets it.
    pub const NONE: ObjectSection = ObjectSection {
        name: Text::NONE,
        bytes: Text::NONE,
        absent_size: 0,
        virtual_size: 0,
        virtual_address: 0,
        characteristics: 0,
        relocation_count: 0,
    };
}

/// A relocation of an object's section.
#[repr(C)]
#[derive(Clone, Copy, Debug, Default, PartialEq, Eq, Hash)]
pub struct ObjectRelocation {
    /// The offset of the reference in the section plus the section's VirtualAddress.
    pub address: u32,
    /// The index of the symbol's record, counting auxiliary records.
    pub symbol: u32,
    /// The type, which depends on the machine.
    pub kind: u32,
}

/// A symbol of an object.
#[repr(C)]
#[derive(Clone, Copy, Debug)]
pub struct ObjectSymbol {
    /// The name, also if it is in the string table.
    pub name: Text,
    /// 18 bytes for each auxiliary record.
    pub aux: Text,
    /// The index of the symbol's record, to which relocations refer.
    pub index: u32,
    /// The value, whose meaning depends on the section and the storage class.
    pub value: u32,
    /// Counted from 1, or a `PETOOL_SECTION`.
    pub section_number: u16,
    /// The type; 32 is a function.
    pub kind: u16,
    /// The storage class, as numbered in "PE Format".
    pub class_: u8,
}

impl ObjectSymbol {
    /// Its value before a call sets it.
    pub const NONE: ObjectSymbol = ObjectSymbol {
        name: Text::NONE,
        aux: Text::NONE,
        index: 0,
        value: 0,
        section_number: 0,
        kind: 0,
        class_: 0,
    };
}

/// The header of a big object, as the file has it, without the signatures and the class that all of them have.
#[repr(C)]
#[derive(Clone, Copy, Debug, Default, PartialEq, Eq, Hash)]
pub struct BigObjectHeader {
    /// The version of the header: 2 or more.
    pub version: u16,
    /// The processor that the object is for.
    pub machine: u16,
    /// When the object was made, in seconds since 1970, as written.
    pub time_date_stamp: u32,
    /// SizeOfData, as written.
    pub size_of_data: u32,
    /// Flags, as written.
    pub flags: u32,
    /// MetaDataSize, as written.
    pub meta_data_size: u32,
    /// MetaDataOffset, as written.
    pub meta_data_offset: u32,
    /// How many section headers there are.
    pub number_of_sections: u32,
    /// The file offset of the symbol table; 0 if there is none.
    pub pointer_to_symbol_table: u32,
    /// How many records the symbol table has.
    pub number_of_symbols: u32,
}

/// A symbol of an object of either form.
#[repr(C)]
#[derive(Clone, Copy, Debug)]
pub struct EitherObjectSymbol {
    /// The name, also if it is in the string table.
    pub name: Text,
    /// 18 bytes for each auxiliary record of a plain object, 20 of a big one.
    pub aux: Text,
    /// The index of the symbol's record, to which relocations refer.
    pub index: u32,
    /// The value, whose meaning depends on the section and the storage class.
    pub value: u32,
    /// Counted from 1, or a `PETOOL_EITHER_SECTION`.
    pub section_number: u32,
    /// The type; 32 is a function.
    pub kind: u16,
    /// The storage class, as numbered in "PE Format".
    pub class_: u8,
}

impl EitherObjectSymbol {
    /// Its value before a call sets it.
    pub const NONE: EitherObjectSymbol = EitherObjectSymbol {
        name: Text::NONE,
        aux: Text::NONE,
        index: 0,
        value: 0,
        section_number: 0,
        kind: 0,
        class_: 0,
    };
}

/// A member of an archive. The fields of its header that hold no number are absent.
#[repr(C)]
#[derive(Clone, Copy, Debug)]
pub struct ArchiveMember {
    /// The name; empty if its field leads to no text.
    pub name: Text,
    /// What it holds, without its name; empty if that is in another file.
    pub bytes: Text,
    /// The file offset of its header.
    pub offset: u64,
    /// How many bytes its header gives it, with those of a name that is at its front.
    pub size: u64,
    /// When it was written, in seconds since 1970.
    pub date: Field,
    /// The user who owns it.
    pub user: Field,
    /// The group that owns it.
    pub group: Field,
    /// How it may be used, as Unix has it.
    pub mode: Field,
    /// What it is: a `PETOOL_MEMBER`.
    pub kind: u32,
    /// Whether its name field leads to a text.
    pub has_name: bool,
}

impl ArchiveMember {
    /// Its value before a call sets it.
    pub const NONE: ArchiveMember = ArchiveMember {
        name: Text::NONE,
        bytes: Text::NONE,
        offset: 0,
        size: 0,
        date: Field::NONE,
        user: Field::NONE,
        group: Field::NONE,
        mode: Field::NONE,
        kind: 0,
        has_name: false,
    };
}

/// A symbol of a linker member.
#[repr(C)]
#[derive(Clone, Copy, Debug)]
pub struct ArchiveSymbol {
    /// The name.
    pub name: Text,
    /// The file offset of the header of the member that defines it; absent if the second linker member has no offset of its index.
    pub member: Field,
}

impl ArchiveSymbol {
    /// Its value before a call sets it.
    pub const NONE: ArchiveSymbol = ArchiveSymbol {
        name: Text::NONE,
        member: Field::NONE,
    };
}

/// A member of an archive to be written.
#[repr(C)]
#[derive(Clone, Copy, Debug)]
pub struct NewMember {
    /// The name, which may have `/` in it, but not at its end.
    pub name: Text,
    /// What it holds: an object, a short import object, or anything else.
    pub bytes: Text,
}

/// A short import object, which an import library has for each name that a DLL exports.
#[repr(C)]
#[derive(Clone, Copy, Debug)]
pub struct ImportObject {
    /// The public symbol.
    pub symbol: Text,
    /// The DLL.
    pub module: Text,
    /// The name that is imported; empty if the import is by ordinal.
    pub name: Text,
    /// When it was made, as its maker wrote it.
    pub time_date_stamp: u32,
    /// The processor.
    pub machine: u16,
    /// The ordinal, or the hint.
    pub ordinal: u16,
    /// What is imported: 0 code, 1 data, 2 a constant.
    pub kind: u8,
    /// 0 by ordinal; otherwise how the name is made of the symbol: 1 whole, 2 without its mark, 3 up to its `@` too, 4 not of it.
    pub name_type: u8,
}

impl ImportObject {
    /// Its value before a call sets it.
    pub const NONE: ImportObject = ImportObject {
        symbol: Text::NONE,
        module: Text::NONE,
        name: Text::NONE,
        time_date_stamp: 0,
        machine: 0,
        ordinal: 0,
        kind: 0,
        name_type: 0,
    };
}

// end of describe/records.txt

impl Text {
    /// An empty string.
    pub const NONE: Text = Text {
        at: NO_BYTES.as_ptr(),
        len: 0,
    };

    /// A string of these bytes, which must live as long as it is used.
    pub const fn of(bytes: &[u8]) -> Text {
        Text {
            at: bytes.as_ptr(),
            len: bytes.len(),
        }
    }
}

impl Image {
    /// An image without a file.
    pub const CLOSED: Image = Image {
        state: core::ptr::null_mut(),
        is_open: false,
    };
}

impl Space {
    /// A space without a set.
    pub const CLOSED: Space = Space {
        state: core::ptr::null_mut(),
        is_open: false,
    };
}

#[allow(missing_docs)] // petool.h says what each call returns
extern "C" {
    // from describe/records.txt: calls

    pub fn petool_check(file: *const u8, len: usize, fault: *mut Fault) -> u32;
    pub fn petool_read_headers(
        file: *const u8,
        len: usize,
        headers: *mut Headers,
        sections: *mut Section,
        room: usize,
        fault: *mut Fault,
    ) -> u32;
    pub fn petool_read(file: *const u8, len: usize, rva: u32, buffer: *mut u8, count: usize, fault: *mut Fault) -> u32;
    pub fn petool_read_text(file: *const u8, len: usize, rva: u32, text: *mut Text, fault: *mut Fault) -> u32;
    pub fn petool_locate(file: *const u8, len: usize, rva: u32, offset: *mut u64, fault: *mut Fault) -> u32;

    pub fn petool_exports(
        file: *const u8,
        len: usize,
        rows: *mut Export,
        room: usize,
        count: *mut usize,
        fault: *mut Fault,
    ) -> u32;
    pub fn petool_export_names(
        file: *const u8,
        len: usize,
        rows: *mut Export,
        room: usize,
        count: *mut usize,
        fault: *mut Fault,
    ) -> u32;
    pub fn petool_imports(
        file: *const u8,
        len: usize,
        rows: *mut Import,
        room: usize,
        count: *mut usize,
        fault: *mut Fault,
    ) -> u32;
    pub fn petool_fixups(
        file: *const u8,
        len: usize,
        rows: *mut Fixup,
        room: usize,
        count: *mut usize,
        fault: *mut Fault,
    ) -> u32;
    pub fn petool_tables(
        file: *const u8,
        len: usize,
        exports: *mut Export,
        export_room: usize,
        names: *mut Export,
        name_room: usize,
        imports: *mut Import,
        import_room: usize,
        fixups: *mut Fixup,
        fixup_room: usize,
        counts: *mut Counts,
        fault: *mut Fault,
    ) -> u32;
    pub fn petool_import_at(file: *const u8, len: usize, slot: u32, found: *mut Import, fault: *mut Fault) -> u32;
    pub fn petool_export_by_name(
        file: *const u8,
        len: usize,
        name: *const u8,
        name_len: usize,
        target: *mut Target,
        fault: *mut Fault,
    ) -> u32;
    pub fn petool_export_by_ordinal(
        file: *const u8,
        len: usize,
        ordinal: u64,
        target: *mut Target,
        fault: *mut Fault,
    ) -> u32;

    pub fn petool_findings(
        file: *const u8,
        len: usize,
        rows: *mut Fault,
        room: usize,
        count: *mut usize,
        fault: *mut Fault,
    ) -> u32;
    pub fn petool_debug(
        file: *const u8,
        len: usize,
        rows: *mut DebugEntry,
        room: usize,
        count: *mut usize,
        fault: *mut Fault,
    ) -> u32;
    pub fn petool_pdb(file: *const u8, len: usize, pdb: *mut PdbFile, fault: *mut Fault) -> u32;
    pub fn petool_functions(
        file: *const u8,
        len: usize,
        rows: *mut Function,
        room: usize,
        count: *mut usize,
        fault: *mut Fault,
    ) -> u32;
    pub fn petool_tls(file: *const u8, len: usize, tls: *mut TlsDirectory, fault: *mut Fault) -> u32;
    pub fn petool_tls_callbacks(
        file: *const u8,
        len: usize,
        rows: *mut Callback,
        room: usize,
        count: *mut usize,
        fault: *mut Fault,
    ) -> u32;
    pub fn petool_load_configuration(
        file: *const u8,
        len: usize,
        rows: *mut Field,
        room: usize,
        count: *mut usize,
        fault: *mut Fault,
    ) -> u32;
    pub fn petool_bound_imports(
        file: *const u8,
        len: usize,
        rows: *mut BoundImport,
        room: usize,
        count: *mut usize,
        fault: *mut Fault,
    ) -> u32;
    pub fn petool_delay_imports(
        file: *const u8,
        len: usize,
        rows: *mut Import,
        room: usize,
        count: *mut usize,
        fault: *mut Fault,
    ) -> u32;
    pub fn petool_image_symbols(
        file: *const u8,
        len: usize,
        rows: *mut ObjectSymbol,
        room: usize,
        count: *mut usize,
        fault: *mut Fault,
    ) -> u32;
    pub fn petool_clr(
        file: *const u8,
        len: usize,
        rows: *mut Field,
        room: usize,
        count: *mut usize,
        fault: *mut Fault,
    ) -> u32;

    pub fn petool_resources(
        file: *const u8,
        len: usize,
        rows: *mut Resource,
        room: usize,
        count: *mut usize,
        fault: *mut Fault,
    ) -> u32;
    pub fn petool_version(file: *const u8, len: usize, version: *mut VersionInfo, fault: *mut Fault) -> u32;
    pub fn petool_version_strings(
        file: *const u8,
        len: usize,
        rows: *mut VersionText,
        room: usize,
        count: *mut usize,
        fault: *mut Fault,
    ) -> u32;
    pub fn petool_version_string(
        file: *const u8,
        len: usize,
        key: *const u8,
        key_len: usize,
        value: *mut Text,
        fault: *mut Fault,
    ) -> u32;
    pub fn petool_manifest(file: *const u8, len: usize, manifest: *mut Text, fault: *mut Fault) -> u32;

    pub fn petool_check_sum(file: *const u8, len: usize, sum: *mut CheckSums, fault: *mut Fault) -> u32;
    pub fn petool_certificates(
        file: *const u8,
        len: usize,
        rows: *mut Certificate,
        room: usize,
        count: *mut usize,
        fault: *mut Fault,
    ) -> u32;
    pub fn petool_authenticode(
        file: *const u8,
        len: usize,
        rows: *mut Signature,
        room: usize,
        count: *mut usize,
        fault: *mut Fault,
    ) -> u32;
    pub fn petool_authenticode_digest(
        file: *const u8,
        len: usize,
        algorithm: u32,
        digest: *mut Digest,
        fault: *mut Fault,
    ) -> u32;
    pub fn petool_signers(signature: *const u8, len: usize, rows: *mut Signer, room: usize, count: *mut usize) -> u32;
    pub fn petool_rich(file: *const u8, len: usize, rich: *mut RichHeader, fault: *mut Fault) -> u32;
    pub fn petool_rich_pairs(
        file: *const u8,
        len: usize,
        rows: *mut RichPair,
        room: usize,
        count: *mut usize,
        fault: *mut Fault,
    ) -> u32;
    pub fn petool_overlay(file: *const u8, len: usize, overlay: *mut OverlayRange, fault: *mut Fault) -> u32;
    pub fn petool_trust_findings(
        file: *const u8,
        len: usize,
        rows: *mut Fault,
        room: usize,
        count: *mut usize,
        fault: *mut Fault,
    ) -> u32;
    pub fn petool_import_hash(file: *const u8, len: usize, hash: *mut Digest, fault: *mut Fault) -> u32;

    pub fn petool_image_open(image: *mut Image, file: *const u8, len: usize, fault: *mut Fault) -> u32;
    pub fn petool_image_share(image: *mut Image, other: *mut Image) -> u32;
    pub fn petool_image_read(image: *mut Image, rva: u32, buffer: *mut u8, count: usize) -> u32;
    pub fn petool_image_read_text(image: *mut Image, rva: u32, text: *mut Text) -> u32;
    pub fn petool_image_locate(image: *mut Image, rva: u32, offset: *mut u64) -> u32;
    pub fn petool_image_export_by_name(image: *mut Image, name: *const u8, len: usize, target: *mut Target) -> u32;
    pub fn petool_image_export_by_ordinal(image: *mut Image, ordinal: u64, target: *mut Target) -> u32;
    pub fn petool_image_import_at(image: *mut Image, slot: u32, found: *mut Import) -> u32;
    pub fn petool_image_exports(image: *mut Image, rows: *mut Export, room: usize, count: *mut usize) -> u32;
    pub fn petool_image_export_names(image: *mut Image, rows: *mut Export, room: usize, count: *mut usize) -> u32;
    pub fn petool_image_imports(image: *mut Image, rows: *mut Import, room: usize, count: *mut usize) -> u32;
    pub fn petool_image_fixups(image: *mut Image, rows: *mut Fixup, room: usize, count: *mut usize) -> u32;
    pub fn petool_image_rebase(image: *mut Image, base: u64, buffer: *mut u8, room: usize, fault: *mut Fault) -> u32;
    pub fn petool_image_close(image: *mut Image);

    pub fn petool_rebase(
        file: *const u8,
        len: usize,
        base: u64,
        buffer: *mut u8,
        room: usize,
        fault: *mut Fault,
    ) -> u32;
    pub fn petool_judge(
        set: *const Entry,
        entries: usize,
        known: bool,
        rows: *mut Binding,
        room: usize,
        count: *mut usize,
        cycle: *mut u32,
        fault: *mut Fault,
    ) -> u32;
    pub fn petool_unbound(
        set: *const Entry,
        entries: usize,
        rows: *mut UnboundImport,
        room: usize,
        count: *mut usize,
        cycle: *mut u32,
        fault: *mut Fault,
    ) -> u32;

    pub fn petool_space_map(
        space: *mut Space,
        set: *const Entry,
        entries: usize,
        known: bool,
        cycle: *mut u32,
        fault: *mut Fault,
    ) -> u32;
    pub fn petool_space_map_within(
        space: *mut Space,
        set: *const Entry,
        entries: usize,
        known: bool,
        most_bytes: u64,
        cycle: *mut u32,
        fault: *mut Fault,
    ) -> u32;
    pub fn petool_space_open(
        space: *mut Space,
        set: *const Entry,
        entries: usize,
        known: bool,
        cycle: *mut u32,
        fault: *mut Fault,
    ) -> u32;
    pub fn petool_space_share(space: *mut Space, other: *mut Space) -> u32;
    pub fn petool_space_read(space: *mut Space, address: u64, buffer: *mut u8, len: usize, fault: *mut Fault) -> u32;
    pub fn petool_space_move(space: *mut Space, image: u32, base: u64, moved: *mut Moved, fault: *mut Fault) -> u32;
    pub fn petool_space_image(space: *mut Space, image: u32, base: *mut u64, size: *mut u32) -> u32;
    pub fn petool_space_bindings(space: *mut Space, rows: *mut Binding, room: usize, count: *mut usize) -> u32;
    pub fn petool_space_close(space: *mut Space);

    pub fn petool_object_check(file: *const u8, len: usize, fault: *mut Fault) -> u32;
    pub fn petool_object_headers(
        file: *const u8,
        len: usize,
        header: *mut ObjectHeader,
        sections: *mut SectionHeader,
        room: usize,
        fault: *mut Fault,
    ) -> u32;
    pub fn petool_object_sections(
        file: *const u8,
        len: usize,
        rows: *mut ObjectSection,
        room: usize,
        count: *mut usize,
        fault: *mut Fault,
    ) -> u32;
    pub fn petool_object_relocations(
        file: *const u8,
        len: usize,
        section: usize,
        rows: *mut ObjectRelocation,
        room: usize,
        count: *mut usize,
        fault: *mut Fault,
    ) -> u32;
    pub fn petool_object_all_relocations(
        file: *const u8,
        len: usize,
        skipped: usize,
        rows: *mut ObjectRelocation,
        room: usize,
        count: *mut usize,
        fault: *mut Fault,
    ) -> u32;
    pub fn petool_object_symbols(
        file: *const u8,
        len: usize,
        rows: *mut ObjectSymbol,
        room: usize,
        count: *mut usize,
        fault: *mut Fault,
    ) -> u32;
    pub fn petool_either_object_check(file: *const u8, len: usize, big: *mut bool, fault: *mut Fault) -> u32;
    pub fn petool_either_object_sections(
        file: *const u8,
        len: usize,
        rows: *mut ObjectSection,
        room: usize,
        count: *mut usize,
        fault: *mut Fault,
    ) -> u32;
    pub fn petool_either_object_relocations(
        file: *const u8,
        len: usize,
        section: usize,
        rows: *mut ObjectRelocation,
        room: usize,
        count: *mut usize,
        fault: *mut Fault,
    ) -> u32;
    pub fn petool_either_object_all_relocations(
        file: *const u8,
        len: usize,
        skipped: usize,
        rows: *mut ObjectRelocation,
        room: usize,
        count: *mut usize,
        fault: *mut Fault,
    ) -> u32;
    pub fn petool_either_object_symbols(
        file: *const u8,
        len: usize,
        rows: *mut EitherObjectSymbol,
        room: usize,
        count: *mut usize,
        fault: *mut Fault,
    ) -> u32;
    pub fn petool_big_object_headers(
        file: *const u8,
        len: usize,
        header: *mut BigObjectHeader,
        sections: *mut SectionHeader,
        room: usize,
        fault: *mut Fault,
    ) -> u32;

    pub fn petool_archive_check(file: *const u8, len: usize, fault: *mut Fault) -> u32;
    pub fn petool_archive_members(
        file: *const u8,
        len: usize,
        rows: *mut ArchiveMember,
        room: usize,
        count: *mut usize,
        fault: *mut Fault,
    ) -> u32;
    pub fn petool_archive_symbols(
        file: *const u8,
        len: usize,
        linker: u32,
        rows: *mut ArchiveSymbol,
        room: usize,
        count: *mut usize,
        fault: *mut Fault,
    ) -> u32;
    pub fn petool_archive_import(member: *const u8, len: usize, found: *mut ImportObject, fault: *mut Fault) -> u32;
    pub fn petool_archive_findings(
        file: *const u8,
        len: usize,
        rows: *mut Fault,
        room: usize,
        count: *mut usize,
        fault: *mut Fault,
    ) -> u32;
    pub fn petool_archive_write(
        members: *const NewMember,
        entries: usize,
        buffer: *mut u8,
        room: usize,
        count: *mut usize,
        fault: *mut Fault,
    ) -> u32;

    pub fn petool_fault_words(number: u16, subject: *mut Text, rule: *mut Text) -> u32;
    pub fn petool_fault_line(fault: *const Fault, line: *mut c_char, room: usize) -> c_int;
    pub fn petool_fault_detail(
        file: *const u8,
        len: usize,
        fault: *const Fault,
        rows: *mut Value,
        room: usize,
        count: *mut usize,
    ) -> u32;
    pub fn petool_name(kind: u32, value: u32, name: *mut Text) -> u32;
    pub fn petool_version_number() -> u32;

    // end of describe/records.txt
}
