"""The records and calls of the shared library, as petool.h declares them. describe/describe.py writes this module."""

from ctypes import POINTER, Structure, c_bool, c_char, c_int, c_size_t, c_uint8, c_uint16, c_uint32, c_uint64, c_void_p
from typing import Any, Dict, List, Tuple


class Text(Structure):
    _fields_ = [("at", c_void_p), ("len", c_size_t)]


class Fault(Structure):
    _fields_ = [("number", c_uint16), ("place", c_uint16), ("image", c_uint32), ("at", c_uint64)]


class Value(Structure):
    _fields_ = [("words", Text), ("name", Text), ("number", c_uint64), ("kind", c_uint32)]


class Directory(Structure):
    _fields_ = [("rva", c_uint32), ("size", c_uint32)]


class Headers(Structure):
    _fields_ = [
        ("image_base", c_uint64),
        ("size_of_stack_reserve", c_uint64),
        ("size_of_stack_commit", c_uint64),
        ("size_of_heap_reserve", c_uint64),
        ("size_of_heap_commit", c_uint64),
        ("pe_offset", c_uint32),
        ("time_date_stamp", c_uint32),
        ("pointer_to_symbol_table", c_uint32),
        ("number_of_symbols", c_uint32),
        ("size_of_code", c_uint32),
        ("size_of_initialized_data", c_uint32),
        ("size_of_uninitialized_data", c_uint32),
        ("address_of_entry_point", c_uint32),
        ("base_of_code", c_uint32),
        ("base_of_data", c_uint32),
        ("section_alignment", c_uint32),
        ("file_alignment", c_uint32),
        ("win32_version_value", c_uint32),
        ("size_of_image", c_uint32),
        ("size_of_headers", c_uint32),
        ("check_sum", c_uint32),
        ("loader_flags", c_uint32),
        ("number_of_rva_and_sizes", c_uint32),
        ("magic", c_uint16),
        ("machine", c_uint16),
        ("number_of_sections", c_uint16),
        ("size_of_optional_header", c_uint16),
        ("characteristics", c_uint16),
        ("subsystem", c_uint16),
        ("dll_characteristics", c_uint16),
        ("major_operating_system_version", c_uint16),
        ("minor_operating_system_version", c_uint16),
        ("major_image_version", c_uint16),
        ("minor_image_version", c_uint16),
        ("major_subsystem_version", c_uint16),
        ("minor_subsystem_version", c_uint16),
        ("major_linker_version", c_uint8),
        ("minor_linker_version", c_uint8),
        ("directories", Directory * 16),
    ]


class Section(Structure):
    _fields_ = [
        ("name", c_uint8 * 8),
        ("rva", c_uint32),
        ("extent", c_uint32),
        ("file_size", c_uint32),
        ("pointer_to_raw_data", c_uint32),
        ("size_of_raw_data", c_uint32),
        ("virtual_size", c_uint32),
        ("characteristics", c_uint32),
    ]


class Target(Structure):
    _fields_ = [("kind", c_uint32), ("rva", c_uint32), ("ordinal", c_uint64), ("module", Text), ("name", Text)]


class Counts(Structure):
    _fields_ = [("exports", c_size_t), ("names", c_size_t), ("imports", c_size_t), ("fixups", c_size_t)]


class PdbFile(Structure):
    _fields_ = [
        ("path", Text),
        ("kind", c_uint32),
        ("age", c_uint32),
        ("guid", c_uint8 * 16),
        ("time_date_stamp", c_uint32),
        ("offset", c_uint32),
    ]


class TlsDirectory(Structure):
    _fields_ = [
        ("start_address_of_raw_data", c_uint64),
        ("end_address_of_raw_data", c_uint64),
        ("address_of_index", c_uint64),
        ("address_of_callbacks", c_uint64),
        ("size_of_zero_fill", c_uint64),
        ("characteristics", c_uint64),
        ("is_whole", c_bool),
    ]


class ResourceName(Structure):
    _fields_ = [("text", Text), ("number", c_uint32), ("kind", c_uint32)]


class VersionInfo(Structure):
    _fields_ = [
        ("file_version", c_uint16 * 4),
        ("product_version", c_uint16 * 4),
        ("flags_mask", c_uint32),
        ("flags", c_uint32),
        ("system", c_uint32),
        ("kind", c_uint32),
        ("subkind", c_uint32),
    ]


class CheckSums(Structure):
    _fields_ = [("written", c_uint32), ("computed", c_uint32)]


class Digest(Structure):
    _fields_ = [("bytes", c_uint8 * 64), ("len", c_uint32)]


class RichHeader(Structure):
    _fields_ = [("offset", c_uint64), ("key", c_uint32), ("computed", c_uint32)]


class OverlayRange(Structure):
    _fields_ = [("offset", c_uint64), ("size", c_uint64), ("kind", c_uint32)]


class Image(Structure):
    _fields_ = [("state", c_void_p), ("is_open", c_bool)]


class Entry(Structure):
    _fields_ = [("name", Text), ("file", Text), ("base", c_uint64)]


class Space(Structure):
    _fields_ = [("state", c_void_p), ("is_open", c_bool)]


class Moved(Structure):
    _fields_ = [("fields", c_uint32), ("slots", c_uint32)]


class ObjectHeader(Structure):
    _fields_ = [
        ("machine", c_uint16),
        ("number_of_sections", c_uint16),
        ("time_date_stamp", c_uint32),
        ("pointer_to_symbol_table", c_uint32),
        ("number_of_symbols", c_uint32),
        ("size_of_optional_header", c_uint16),
        ("characteristics", c_uint16),
    ]


class SectionHeader(Structure):
    _fields_ = [
        ("name", c_uint8 * 8),
        ("virtual_size", c_uint32),
        ("virtual_address", c_uint32),
        ("size_of_raw_data", c_uint32),
        ("pointer_to_raw_data", c_uint32),
        ("pointer_to_relocations", c_uint32),
        ("pointer_to_linenumbers", c_uint32),
        ("number_of_relocations", c_uint16),
        ("number_of_linenumbers", c_uint16),
        ("characteristics", c_uint32),
    ]


class BigObjectHeader(Structure):
    _fields_ = [
        ("version", c_uint16),
        ("machine", c_uint16),
        ("time_date_stamp", c_uint32),
        ("size_of_data", c_uint32),
        ("flags", c_uint32),
        ("meta_data_size", c_uint32),
        ("meta_data_offset", c_uint32),
        ("number_of_sections", c_uint32),
        ("pointer_to_symbol_table", c_uint32),
        ("number_of_symbols", c_uint32),
    ]


class NewMember(Structure):
    _fields_ = [("name", Text), ("bytes", Text)]


class ImportObject(Structure):
    _fields_ = [
        ("symbol", Text),
        ("module", Text),
        ("name", Text),
        ("time_date_stamp", c_uint32),
        ("machine", c_uint16),
        ("ordinal", c_uint16),
        ("kind", c_uint8),
        ("name_type", c_uint8),
    ]


#: The layout of each row in the letters of `struct`: P and N are a string's pointer and length.
FORMS = {
    "export": "QPNIIQPNPN",
    "import": "PNPNQI?xxx",
    "fixup": "III",
    "debug_entry": "IIHHIIII",
    "function": "IIII",
    "callback": "Q",
    "field": "Q?xxxxxxx",
    "bound_import": "IHH",
    "resource": "PNIIPNIIPNIIPNIIIxxxx",
    "version_text": "PNPNPN",
    "certificate": "QPNIHH",
    "signature": "QPNPNII",
    "signer": "PNPNPNPNPN",
    "rich_pair": "HHI",
    "binding": "IIII",
    "unbound_import": "PNPNQII?xxxxxxx",
    "object_section": "PNPNIIIIIxxxx",
    "object_relocation": "III",
    "object_symbol": "PNPNIIHHBxxx",
    "either_object_symbol": "PNPNIIIHBx",
    "archive_member": "PNPNQQQ?xxxxxxxQ?xxxxxxxQ?xxxxxxxQ?xxxxxxxI?xxx",
    "archive_symbol": "PNQ?xxxxxxx",
}

#: The result of each call, and its parameters.
CALLS: Dict[str, Tuple[Any, List[Any]]] = {
    "petool_check": (c_uint32, [c_void_p, c_size_t, POINTER(Fault)]),
    "petool_read_headers": (
        c_uint32,
        [c_void_p, c_size_t, POINTER(Headers), POINTER(Section), c_size_t, POINTER(Fault)],
    ),
    "petool_read": (c_uint32, [c_void_p, c_size_t, c_uint32, c_void_p, c_size_t, POINTER(Fault)]),
    "petool_read_text": (c_uint32, [c_void_p, c_size_t, c_uint32, POINTER(Text), POINTER(Fault)]),
    "petool_locate": (c_uint32, [c_void_p, c_size_t, c_uint32, POINTER(c_uint64), POINTER(Fault)]),
    "petool_exports": (c_uint32, [c_void_p, c_size_t, c_void_p, c_size_t, POINTER(c_size_t), POINTER(Fault)]),
    "petool_export_names": (c_uint32, [c_void_p, c_size_t, c_void_p, c_size_t, POINTER(c_size_t), POINTER(Fault)]),
    "petool_imports": (c_uint32, [c_void_p, c_size_t, c_void_p, c_size_t, POINTER(c_size_t), POINTER(Fault)]),
    "petool_fixups": (c_uint32, [c_void_p, c_size_t, c_void_p, c_size_t, POINTER(c_size_t), POINTER(Fault)]),
    "petool_tables": (
        c_uint32,
        [
            c_void_p,
            c_size_t,
            c_void_p,
            c_size_t,
            c_void_p,
            c_size_t,
            c_void_p,
            c_size_t,
            c_void_p,
            c_size_t,
            POINTER(Counts),
            POINTER(Fault),
        ],
    ),
    "petool_import_at": (c_uint32, [c_void_p, c_size_t, c_uint32, c_void_p, POINTER(Fault)]),
    "petool_export_by_name": (c_uint32, [c_void_p, c_size_t, c_void_p, c_size_t, POINTER(Target), POINTER(Fault)]),
    "petool_export_by_ordinal": (c_uint32, [c_void_p, c_size_t, c_uint64, POINTER(Target), POINTER(Fault)]),
    "petool_findings": (c_uint32, [c_void_p, c_size_t, POINTER(Fault), c_size_t, POINTER(c_size_t), POINTER(Fault)]),
    "petool_debug": (c_uint32, [c_void_p, c_size_t, c_void_p, c_size_t, POINTER(c_size_t), POINTER(Fault)]),
    "petool_pdb": (c_uint32, [c_void_p, c_size_t, POINTER(PdbFile), POINTER(Fault)]),
    "petool_functions": (c_uint32, [c_void_p, c_size_t, c_void_p, c_size_t, POINTER(c_size_t), POINTER(Fault)]),
    "petool_tls": (c_uint32, [c_void_p, c_size_t, POINTER(TlsDirectory), POINTER(Fault)]),
    "petool_tls_callbacks": (c_uint32, [c_void_p, c_size_t, c_void_p, c_size_t, POINTER(c_size_t), POINTER(Fault)]),
    "petool_load_configuration": (
        c_uint32,
        [c_void_p, c_size_t, c_void_p, c_size_t, POINTER(c_size_t), POINTER(Fault)],
    ),
    "petool_bound_imports": (c_uint32, [c_void_p, c_size_t, c_void_p, c_size_t, POINTER(c_size_t), POINTER(Fault)]),
    "petool_delay_imports": (c_uint32, [c_void_p, c_size_t, c_void_p, c_size_t, POINTER(c_size_t), POINTER(Fault)]),
    "petool_image_symbols": (c_uint32, [c_void_p, c_size_t, c_void_p, c_size_t, POINTER(c_size_t), POINTER(Fault)]),
    "petool_clr": (c_uint32, [c_void_p, c_size_t, c_void_p, c_size_t, POINTER(c_size_t), POINTER(Fault)]),
    "petool_resources": (c_uint32, [c_void_p, c_size_t, c_void_p, c_size_t, POINTER(c_size_t), POINTER(Fault)]),
    "petool_version": (c_uint32, [c_void_p, c_size_t, POINTER(VersionInfo), POINTER(Fault)]),
    "petool_version_strings": (c_uint32, [c_void_p, c_size_t, c_void_p, c_size_t, POINTER(c_size_t), POINTER(Fault)]),
    "petool_version_string": (c_uint32, [c_void_p, c_size_t, c_void_p, c_size_t, POINTER(Text), POINTER(Fault)]),
    "petool_manifest": (c_uint32, [c_void_p, c_size_t, POINTER(Text), POINTER(Fault)]),
    "petool_check_sum": (c_uint32, [c_void_p, c_size_t, POINTER(CheckSums), POINTER(Fault)]),
    "petool_certificates": (c_uint32, [c_void_p, c_size_t, c_void_p, c_size_t, POINTER(c_size_t), POINTER(Fault)]),
    "petool_authenticode": (c_uint32, [c_void_p, c_size_t, c_void_p, c_size_t, POINTER(c_size_t), POINTER(Fault)]),
    "petool_authenticode_digest": (c_uint32, [c_void_p, c_size_t, c_uint32, POINTER(Digest), POINTER(Fault)]),
    "petool_signers": (c_uint32, [c_void_p, c_size_t, c_void_p, c_size_t, POINTER(c_size_t)]),
    "petool_rich": (c_uint32, [c_void_p, c_size_t, POINTER(RichHeader), POINTER(Fault)]),
    "petool_rich_pairs": (c_uint32, [c_void_p, c_size_t, c_void_p, c_size_t, POINTER(c_size_t), POINTER(Fault)]),
    "petool_overlay": (c_uint32, [c_void_p, c_size_t, POINTER(OverlayRange), POINTER(Fault)]),
    "petool_trust_findings": (
        c_uint32,
        [c_void_p, c_size_t, POINTER(Fault), c_size_t, POINTER(c_size_t), POINTER(Fault)],
    ),
    "petool_import_hash": (c_uint32, [c_void_p, c_size_t, POINTER(Digest), POINTER(Fault)]),
    "petool_image_open": (c_uint32, [POINTER(Image), c_void_p, c_size_t, POINTER(Fault)]),
    "petool_image_share": (c_uint32, [POINTER(Image), POINTER(Image)]),
    "petool_image_read": (c_uint32, [POINTER(Image), c_uint32, c_void_p, c_size_t]),
    "petool_image_read_text": (c_uint32, [POINTER(Image), c_uint32, POINTER(Text)]),
    "petool_image_locate": (c_uint32, [POINTER(Image), c_uint32, POINTER(c_uint64)]),
    "petool_image_export_by_name": (c_uint32, [POINTER(Image), c_void_p, c_size_t, POINTER(Target)]),
    "petool_image_export_by_ordinal": (c_uint32, [POINTER(Image), c_uint64, POINTER(Target)]),
    "petool_image_import_at": (c_uint32, [POINTER(Image), c_uint32, c_void_p]),
    "petool_image_exports": (c_uint32, [POINTER(Image), c_void_p, c_size_t, POINTER(c_size_t)]),
    "petool_image_export_names": (c_uint32, [POINTER(Image), c_void_p, c_size_t, POINTER(c_size_t)]),
    "petool_image_imports": (c_uint32, [POINTER(Image), c_void_p, c_size_t, POINTER(c_size_t)]),
    "petool_image_fixups": (c_uint32, [POINTER(Image), c_void_p, c_size_t, POINTER(c_size_t)]),
    "petool_image_rebase": (c_uint32, [POINTER(Image), c_uint64, c_void_p, c_size_t, POINTER(Fault)]),
    "petool_image_close": (None, [POINTER(Image)]),
    "petool_rebase": (c_uint32, [c_void_p, c_size_t, c_uint64, c_void_p, c_size_t, POINTER(Fault)]),
    "petool_judge": (
        c_uint32,
        [POINTER(Entry), c_size_t, c_bool, c_void_p, c_size_t, POINTER(c_size_t), POINTER(c_uint32), POINTER(Fault)],
    ),
    "petool_unbound": (
        c_uint32,
        [POINTER(Entry), c_size_t, c_void_p, c_size_t, POINTER(c_size_t), POINTER(c_uint32), POINTER(Fault)],
    ),
    "petool_space_map": (
        c_uint32,
        [POINTER(Space), POINTER(Entry), c_size_t, c_bool, POINTER(c_uint32), POINTER(Fault)],
    ),
    "petool_space_map_within": (
        c_uint32,
        [POINTER(Space), POINTER(Entry), c_size_t, c_bool, c_uint64, POINTER(c_uint32), POINTER(Fault)],
    ),
    "petool_space_open": (
        c_uint32,
        [POINTER(Space), POINTER(Entry), c_size_t, c_bool, POINTER(c_uint32), POINTER(Fault)],
    ),
    "petool_space_share": (c_uint32, [POINTER(Space), POINTER(Space)]),
    "petool_space_read": (c_uint32, [POINTER(Space), c_uint64, c_void_p, c_size_t, POINTER(Fault)]),
    "petool_space_move": (c_uint32, [POINTER(Space), c_uint32, c_uint64, POINTER(Moved), POINTER(Fault)]),
    "petool_space_image": (c_uint32, [POINTER(Space), c_uint32, POINTER(c_uint64), POINTER(c_uint32)]),
    "petool_space_bindings": (c_uint32, [POINTER(Space), c_void_p, c_size_t, POINTER(c_size_t)]),
    "petool_space_close": (None, [POINTER(Space)]),
    "petool_object_check": (c_uint32, [c_void_p, c_size_t, POINTER(Fault)]),
    "petool_object_headers": (
        c_uint32,
        [c_void_p, c_size_t, POINTER(ObjectHeader), POINTER(SectionHeader), c_size_t, POINTER(Fault)],
    ),
    "petool_object_sections": (c_uint32, [c_void_p, c_size_t, c_void_p, c_size_t, POINTER(c_size_t), POINTER(Fault)]),
    "petool_object_relocations": (
        c_uint32,
        [c_void_p, c_size_t, c_size_t, c_void_p, c_size_t, POINTER(c_size_t), POINTER(Fault)],
    ),
    "petool_object_all_relocations": (
        c_uint32,
        [c_void_p, c_size_t, c_size_t, c_void_p, c_size_t, POINTER(c_size_t), POINTER(Fault)],
    ),
    "petool_object_symbols": (c_uint32, [c_void_p, c_size_t, c_void_p, c_size_t, POINTER(c_size_t), POINTER(Fault)]),
    "petool_either_object_check": (c_uint32, [c_void_p, c_size_t, POINTER(c_bool), POINTER(Fault)]),
    "petool_either_object_sections": (
        c_uint32,
        [c_void_p, c_size_t, c_void_p, c_size_t, POINTER(c_size_t), POINTER(Fault)],
    ),
    "petool_either_object_relocations": (
        c_uint32,
        [c_void_p, c_size_t, c_size_t, c_void_p, c_size_t, POINTER(c_size_t), POINTER(Fault)],
    ),
    "petool_either_object_all_relocations": (
        c_uint32,
        [c_void_p, c_size_t, c_size_t, c_void_p, c_size_t, POINTER(c_size_t), POINTER(Fault)],
    ),
    "petool_either_object_symbols": (
        c_uint32,
        [c_void_p, c_size_t, c_void_p, c_size_t, POINTER(c_size_t), POINTER(Fault)],
    ),
    "petool_big_object_headers": (
        c_uint32,
        [c_void_p, c_size_t, POINTER(BigObjectHeader), POINTER(SectionHeader), c_size_t, POINTER(Fault)],
    ),
    "petool_archive_check": (c_uint32, [c_void_p, c_size_t, POINTER(Fault)]),
    "petool_archive_members": (c_uint32, [c_void_p, c_size_t, c_void_p, c_size_t, POINTER(c_size_t), POINTER(Fault)]),
    "petool_archive_symbols": (
        c_uint32,
        [c_void_p, c_size_t, c_uint32, c_void_p, c_size_t, POINTER(c_size_t), POINTER(Fault)],
    ),
    "petool_archive_import": (c_uint32, [c_void_p, c_size_t, POINTER(ImportObject), POINTER(Fault)]),
    "petool_archive_findings": (
        c_uint32,
        [c_void_p, c_size_t, POINTER(Fault), c_size_t, POINTER(c_size_t), POINTER(Fault)],
    ),
    "petool_archive_write": (
        c_uint32,
        [POINTER(NewMember), c_size_t, c_void_p, c_size_t, POINTER(c_size_t), POINTER(Fault)],
    ),
    "petool_fault_words": (c_uint32, [c_uint16, POINTER(Text), POINTER(Text)]),
    "petool_fault_line": (c_int, [POINTER(Fault), c_void_p, c_size_t]),
    "petool_fault_detail": (
        c_uint32,
        [c_void_p, c_size_t, POINTER(Fault), POINTER(Value), c_size_t, POINTER(c_size_t)],
    ),
    "petool_name": (c_uint32, [c_uint32, c_uint32, POINTER(Text)]),
    "petool_version_number": (c_uint32, []),
}
