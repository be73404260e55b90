//! Each record has the size and the field offsets of the library's, on a 64-bit machine, as `petool.h` asserts them.
//! describe/describe.py writes this file.

#![cfg(target_pointer_width = "64")]

use core::mem::{align_of, size_of, MaybeUninit};
use core::ptr::addr_of;
use petool_sys::*;

/// Asserts a record's size and alignment, and the offset of each of its fields. `offset_of` needs Rust 1.77.
macro_rules! layout {
    ($record:ty, $size:literal, $alignment:literal, $($field:ident $offset:literal),*) => {
        assert_eq!(size_of::<$record>(), $size, concat!("size of ", stringify!($record)));
        assert_eq!(align_of::<$record>(), $alignment, concat!("alignment of ", stringify!($record)));
        let record = MaybeUninit::<$record>::uninit();
        let start = record.as_ptr();
        $(
            // SAFETY: the address of a field is inside the record, and nothing is read there
            let field = unsafe { addr_of!((*start).$field) };
            assert_eq!(field as usize - start as usize, $offset, concat!(stringify!($record), ".", stringify!($field)));
        )*
    };
}

#[test]
fn the_records_of_faults_and_headers_are_laid_out_as_in_c() {
    layout!(Text, 16, 8, at 0, len 8);
    layout!(Fault, 16, 8, number 0, place 2, image 4, at 8);
    layout!(Value, 48, 8, words 0, name 16, number 32, kind 40);
    layout!(Directory, 8, 4, rva 0, size 4);
    layout!(Headers, 272, 8, image_base 0, size_of_stack_reserve 8, size_of_stack_commit 16,
        size_of_heap_reserve 24, size_of_heap_commit 32, pe_offset 40, time_date_stamp 44,
        pointer_to_symbol_table 48, number_of_symbols 52, size_of_code 56,
        size_of_initialized_data 60, size_of_uninitialized_data 64, address_of_entry_point 68,
        base_of_code 72, base_of_data 76, section_alignment 80, file_alignment 84,
        win32_version_value 88, size_of_image 92, size_of_headers 96, check_sum 100,
        loader_flags 104, number_of_rva_and_sizes 108, magic 112, machine 114,
        number_of_sections 116, size_of_optional_header 118, characteristics 120, subsystem 122,
        dll_characteristics 124, major_operating_system_version 126,
        minor_operating_system_version 128, major_image_version 130, minor_image_version 132,
        major_subsystem_version 134, minor_subsystem_version 136, major_linker_version 138,
        minor_linker_version 139, directories 140);
    layout!(Section, 36, 4, name 0, rva 8, extent 12, file_size 16, pointer_to_raw_data 20,
        size_of_raw_data 24, virtual_size 28, characteristics 32);
}

#[test]
fn the_records_of_tables_are_laid_out_as_in_c() {
    layout!(Target, 48, 8, kind 0, rva 4, ordinal 8, module 16, name 32);
    layout!(Export, 72, 8, ordinal 0, name 8, target 24);
    layout!(Import, 48, 8, module 0, name 16, ordinal 32, slot 40, by_ordinal 44);
    layout!(Fixup, 12, 4, entry 0, field 4, kind 8);
    layout!(Counts, 32, 8, exports 0, names 8, imports 16, fixups 24);
}

#[test]
fn the_records_of_tables_beyond_the_profile_are_laid_out_as_in_c() {
    layout!(DebugEntry, 28, 4, characteristics 0, time_date_stamp 4, major_version 8,
        minor_version 10, kind 12, size_of_data 16, address_of_raw_data 20, pointer_to_raw_data 24);
    layout!(PdbFile, 48, 8, path 0, kind 16, age 20, guid 24, time_date_stamp 40, offset 44);
    layout!(Function, 16, 4, begin 0, end 4, unwind 8, kind 12);
    layout!(TlsDirectory, 56, 8, start_address_of_raw_data 0, end_address_of_raw_data 8,
        address_of_index 16, address_of_callbacks 24, size_of_zero_fill 32, characteristics 40,
        is_whole 48);
    layout!(Callback, 8, 8, address 0);
    layout!(Field, 16, 8, value 0, is_present 8);
    layout!(BoundImport, 8, 4, time_date_stamp 0, offset_module_name 4,
        number_of_module_forwarder_refs 6);
}

#[test]
fn the_records_of_resources_are_laid_out_as_in_c() {
    layout!(ResourceName, 24, 8, text 0, number 16, kind 20);
    layout!(Resource, 104, 8, kind 0, name 24, language 48, bytes 72, rva 88, size 92,
        code_page 96);
    layout!(VersionInfo, 36, 4, file_version 0, product_version 8, flags_mask 16, flags 20,
        system 24, kind 28, subkind 32);
    layout!(VersionText, 48, 8, table 0, key 16, value 32);
}

#[test]
fn the_records_of_what_a_file_says_of_itself_are_laid_out_as_in_c() {
    layout!(CheckSums, 8, 4, written 0, computed 4);
    layout!(Certificate, 32, 8, offset 0, bytes 8, length 24, revision 28, kind 30);
    layout!(Signature, 48, 8, offset 0, bytes 8, digest 24, algorithm 40, fits 44);
    layout!(Digest, 68, 4, bytes 0, len 64);
    layout!(Signer, 80, 8, serial 0, issuer 16, subject 32, issuer_name 48, subject_name 64);
    layout!(RichHeader, 16, 8, offset 0, key 8, computed 12);
    layout!(RichPair, 8, 4, product 0, build 2, count 4);
    layout!(OverlayRange, 24, 8, offset 0, size 8, kind 16);
}

#[test]
fn the_records_of_open_images_are_laid_out_as_in_c() {
    layout!(Image, 16, 8, state 0, is_open 8);
}

#[test]
fn the_records_of_sets_and_spaces_are_laid_out_as_in_c() {
    layout!(Entry, 40, 8, name 0, file 16, base 32);
    layout!(Binding, 16, 4, image 0, slot 4, exporter 8, rva 12);
    layout!(UnboundImport, 56, 8, module 0, name 16, ordinal 32, image 40, slot 44, by_ordinal 48);
    layout!(Space, 16, 8, state 0, is_open 8);
    layout!(Moved, 8, 4, fields 0, slots 4);
}

#[test]
fn the_records_of_objects_are_laid_out_as_in_c() {
    layout!(ObjectHeader, 20, 4, machine 0, number_of_sections 2, time_date_stamp 4,
        pointer_to_symbol_table 8, number_of_symbols 12, size_of_optional_header 16,
        characteristics 18);
    layout!(SectionHeader, 40, 4, name 0, virtual_size 8, virtual_address 12, size_of_raw_data 16,
        pointer_to_raw_data 20, pointer_to_relocations 24, pointer_to_linenumbers 28,
        number_of_relocations 32, number_of_linenumbers 34, characteristics 36);
    layout!(ObjectSection, 56, 8, name 0, bytes 16, absent_size 32, virtual_size 36,
        virtual_address 40, characteristics 44, relocation_count 48);
    layout!(ObjectRelocation, 12, 4, address 0, symbol 4, kind 8);
    layout!(ObjectSymbol, 48, 8, name 0, aux 16, index 32, value 36, section_number 40, kind 42,
        class_ 44);
    layout!(BigObjectHeader, 36, 4, version 0, machine 2, time_date_stamp 4, size_of_data 8,
        flags 12, meta_data_size 16, meta_data_offset 20, number_of_sections 24,
        pointer_to_symbol_table 28, number_of_symbols 32);
    layout!(EitherObjectSymbol, 48, 8, name 0, aux 16, index 32, value 36, section_number 40,
        kind 44, class_ 46);
}

#[test]
fn the_records_of_archives_are_laid_out_as_in_c() {
    layout!(ArchiveMember, 120, 8, name 0, bytes 16, offset 32, size 40, date 48, user 64, group 80,
        mode 96, kind 112, has_name 116);
    layout!(ArchiveSymbol, 32, 8, name 0, member 16);
    layout!(NewMember, 32, 8, name 0, bytes 16);
    layout!(ImportObject, 64, 8, symbol 0, module 16, name 32, time_date_stamp 48, machine 52,
        ordinal 54, kind 56, name_type 57);
}

#[test]
fn the_library_has_the_version_of_the_header() {
    // SAFETY: the call has no arguments
    assert_eq!(unsafe { petool_version_number() }, PETOOL_VERSION_NUMBER);
}
