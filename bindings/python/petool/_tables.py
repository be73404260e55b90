"""The tables of an image beyond the profile: debug data, functions, TLS, structures of fields, bound imports, and findings."""

from __future__ import annotations

import ctypes
import uuid
from typing import Callable, Iterator, NamedTuple, Optional, Tuple

from . import _library, _records
from ._bytes import RowLayout, Rows
from ._fault import Place, line_of, words_of

# from describe/records.txt: pdb_kinds
_PDB_SEVEN = 0  #: of PDB 7.0, with a GUID
_PDB_TWO = 1  #: of PDB 2.0, with a time stamp
# end of describe/records.txt

# from describe/records.txt: function_kinds
_FUNCTION_AMD64 = 0  #: a function of AMD64, with its end
_FUNCTION_ARM = 1  #: a function of ARM64 or ARMNT, without its end
# end of describe/records.txt


class DebugEntry(NamedTuple):
    """An entry of the debug directory."""

    # from describe/records.txt: debug_entry
    characteristics: int  #: reserved
    time_date_stamp: int  #: when the data was made, in seconds since 1970, or a hash
    major_version: int  #: the major version of the data's format
    minor_version: int  #: the minor version of the data's format
    kind: int  #: the type of the data: 2 a CodeView record, which names the PDB file
    size_of_data: int  #: the size of the data
    address_of_raw_data: int  #: the RVA of the data; 0 if it is not laid out
    pointer_to_raw_data: int  #: the file offset of the data; 0 if the file does not hold it
    # end of describe/records.txt


class Pdb(NamedTuple):
    """Which PDB file belongs to an image: by its GUID one of PDB 7.0, by its time stamp one of PDB 2.0."""

    path: bytes  #: its path where it was made; empty if no zero byte ends it
    age: int  #: how often the file was written
    guid: Optional[uuid.UUID]  #: None for PDB 2.0
    time_date_stamp: Optional[int]  #: when it was made, in seconds since 1970; None for PDB 7.0
    offset: int  #: where the debug data of PDB 2.0 begins in it, mostly 0

    @property
    def name(self) -> bytes:
        """The name of the file, without the directories before it."""
        return self.path.replace(b"\\", b"/").rpartition(b"/")[2]

    @property
    def key(self) -> str:
        """What symbol servers have between the name of the file and its name once more: the GUID or the time stamp, and the age."""
        first = self.guid.hex.upper() if self.guid is not None else f"{self.time_date_stamp:08X}"
        return f"{first}{self.age:x}"


class Function(NamedTuple):
    """A function of the exception table."""

    # from describe/records.txt: function
    begin: int  #: the RVA of its first byte; on ARMNT with 1 added, as for all Thumb code
    end: int  #: the RVA after its last byte; 0 on ARM64 and ARMNT, whose tables do not have it
    unwind: int  #: the RVA of its unwind information, or if ``is_packed`` its unwind record
    kind: int  #: a PETOOL_FUNCTION
    # end of describe/records.txt

    @property
    def is_packed(self) -> bool:
        """Whether ``unwind`` is the unwind record itself, packed, which is so only on ARM64 and ARMNT."""
        return self.kind == _FUNCTION_ARM and self.unwind % 4 != 0


class Tls(NamedTuple):
    """The TLS directory. Addresses are those at ImageBase, and 0 where there is none."""

    start_address_of_raw_data: int  #: the address of the first byte of the template for the data of a thread
    end_address_of_raw_data: int  #: the address after the last byte of the template
    address_of_index: int  #: the address of the index that the loader assigns
    address_of_callbacks: int  #: the address of the callbacks
    size_of_zero_fill: int  #: how many zero bytes follow the template
    characteristics: int  #: the alignment, as in the flags of a section
    is_whole: bool  #: whether the file holds all fields; those that it does not hold are 0
    callbacks: Tuple[int, ...]  #: the address of each callback, up to the first that is 0


class LoadConfiguration(NamedTuple):
    """The load configuration: its fields in the order of "PE Format", None for those that it does not have."""

    size: Optional[int]
    time_date_stamp: Optional[int]
    major_version: Optional[int]
    minor_version: Optional[int]
    global_flags_clear: Optional[int]
    global_flags_set: Optional[int]
    critical_section_default_timeout: Optional[int]
    decommit_free_block_threshold: Optional[int]
    decommit_total_free_threshold: Optional[int]
    lock_prefix_table: Optional[int]
    maximum_allocation_size: Optional[int]
    virtual_memory_threshold: Optional[int]
    process_affinity_mask: Optional[int]
    process_heap_flags: Optional[int]
    csd_version: Optional[int]
    dependent_load_flags: Optional[int]
    edit_list: Optional[int]
    security_cookie: Optional[int]
    se_handler_table: Optional[int]
    se_handler_count: Optional[int]
    guard_cf_check_function_pointer: Optional[int]
    guard_cf_dispatch_function_pointer: Optional[int]
    guard_cf_function_table: Optional[int]
    guard_cf_function_count: Optional[int]
    guard_flags: Optional[int]
    code_integrity_flags: Optional[int]
    code_integrity_catalog: Optional[int]
    code_integrity_catalog_offset: Optional[int]
    code_integrity_reserved: Optional[int]
    guard_address_taken_iat_entry_table: Optional[int]
    guard_address_taken_iat_entry_count: Optional[int]
    guard_long_jump_target_table: Optional[int]
    guard_long_jump_target_count: Optional[int]
    dynamic_value_reloc_table: Optional[int]
    chpe_metadata_pointer: Optional[int]
    guard_rf_failure_routine: Optional[int]
    guard_rf_failure_routine_function_pointer: Optional[int]
    dynamic_value_reloc_table_offset: Optional[int]
    dynamic_value_reloc_table_section: Optional[int]
    reserved2: Optional[int]
    guard_rf_verify_stack_pointer_function_pointer: Optional[int]
    hot_patch_table_offset: Optional[int]
    reserved3: Optional[int]
    enclave_configuration_pointer: Optional[int]
    volatile_metadata_pointer: Optional[int]
    guard_eh_continuation_table: Optional[int]
    guard_eh_continuation_count: Optional[int]
    guard_xfg_check_function_pointer: Optional[int]
    guard_xfg_dispatch_function_pointer: Optional[int]
    guard_xfg_table_dispatch_function_pointer: Optional[int]
    cast_guard_os_determined_failure_mode: Optional[int]
    guard_memcpy_function_pointer: Optional[int]


class ClrHeader(NamedTuple):
    """The CLR header: its fields in order (ECMA-335, II.25.3.3), None for those that it does not have."""

    cb: Optional[int]
    major_runtime_version: Optional[int]
    minor_runtime_version: Optional[int]
    metadata_rva: Optional[int]
    metadata_size: Optional[int]
    flags: Optional[int]
    entry_point_token: Optional[int]
    resources_rva: Optional[int]
    resources_size: Optional[int]
    strong_name_signature_rva: Optional[int]
    strong_name_signature_size: Optional[int]
    code_manager_table_rva: Optional[int]
    code_manager_table_size: Optional[int]
    vtable_fixups_rva: Optional[int]
    vtable_fixups_size: Optional[int]
    export_address_table_jumps_rva: Optional[int]
    export_address_table_jumps_size: Optional[int]
    managed_native_header_rva: Optional[int]
    managed_native_header_size: Optional[int]


class BoundImport(NamedTuple):
    """A record of the bound import table: of a module, or of a module that it forwards to."""

    time_date_stamp: int  #: the time stamp of the module when it was bound
    offset_module_name: int  #: where the module's name is, from the beginning of the table
    number_of_module_forwarder_refs: int  #: how many records after this one are of modules that it forwards to
    module: Optional[bytes]  #: the module's name; None if there is no string


class Finding(NamedTuple):
    """A broken rule of a table beyond the profile. ``str()`` is the finding in the words of the program ``petool``."""

    number: int  #: as in docs/FAULTS.md, from 101 on
    place: Place  #: what ``at`` counts
    at: int

    @property
    def subject(self) -> str:
        """What is at the place."""
        return words_of(self.number)[0]

    @property
    def rule(self) -> str:
        """Which rule it breaks."""
        return words_of(self.number)[1]

    def __str__(self) -> str:
        return f"finding {self.number}: {line_of(_records.Fault(self.number, self.place, 0, self.at))}"


#: Room for this many findings, before they are counted.
_GUESS = 16


def findings_by(ask: Callable[..., int]) -> Tuple[Finding, ...]:
    """The findings that a call has, read with a second call if there are more than first guessed."""
    room = _GUESS
    while True:
        rows, count = (_records.Fault * room)(), ctypes.c_size_t()
        if ask(rows, room, ctypes.byref(count)) != _library.SMALL:
            return tuple(Finding(it.number, Place(it.place), it.at) for it in rows[: count.value])
        room = count.value


def pdb_by(ask: Callable[..., int], text: Callable[[int, int], bytes]) -> Optional[Pdb]:
    """The PDB file that a call has; `text` has the bytes of a string."""
    pdb = _records.PdbFile(_library.no_text())
    if ask(ctypes.byref(pdb)) == _library.ABSENT:
        return None
    path = text(pdb.path.at, pdb.path.len)
    if pdb.kind == _PDB_TWO:
        return Pdb(path, pdb.age, None, pdb.time_date_stamp, pdb.offset)
    return Pdb(path, pdb.age, uuid.UUID(bytes_le=bytes(pdb.guid)), None, pdb.offset)


def tls_by(ask: Callable[..., int], callbacks: Callable[[], memoryview]) -> Optional[Tls]:
    """The TLS directory that a call has; `callbacks` has the rows of the callbacks."""
    tls = _records.TlsDirectory()
    if ask(ctypes.byref(tls)) == _library.ABSENT:
        return None
    return Tls._make((*(getattr(tls, name) for name, _ in tls._fields_), tuple(callbacks().cast("Q"))))


def values_of(layout: RowLayout, rows: memoryview) -> Iterator[Optional[int]]:
    """The numbers of the fields of a structure; None for a field that it does not have."""
    return (value if is_present else None for value, is_present in layout.struct.iter_unpack(rows))


def entries_of(rows: Rows[DebugEntry]) -> Iterator[DebugEntry]:
    return map(DebugEntry._make, rows.values())


def functions_of(rows: Rows[Function]) -> Iterator[Function]:
    return map(Function._make, rows.values())
