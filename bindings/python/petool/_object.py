"""COFF objects."""

from __future__ import annotations

from ctypes import Structure, byref, c_bool
from dataclasses import dataclass, fields
from itertools import accumulate
from typing import Any, Callable, Dict, List, NamedTuple, Optional, Sequence, Tuple, Type, TypeVar

from . import _library, _records
from ._bytes import LAYOUTS, Buffer, FileBytes, RowLayout, Rows, first_rows, read_rows
from ._file import OfFile
from ._library import library

# from describe/records.txt: section_numbers
SECTION_UNDEFINED = 0  #: the section number of a symbol that is defined in another object
SECTION_ABSOLUTE = 0xFFFF  #: the section number of a symbol whose value is not an address
SECTION_DEBUG = 0xFFFE  #: the section number of a symbol for debuggers
# end of describe/records.txt

# from describe/records.txt: either_section_numbers
EITHER_SECTION_UNDEFINED = 0  #: the section number, in 32 bits, of a symbol of another object
EITHER_SECTION_ABSOLUTE = 0xFFFF_FFFF  #: the section number, in 32 bits, of a symbol whose value is not an address
EITHER_SECTION_DEBUG = 0xFFFF_FFFE  #: the section number, in 32 bits, of a symbol for debuggers
# end of describe/records.txt

#: How many relocations a section has, of its row, which begins with two strings.
_RELOCATION_COUNTS = LAYOUTS["object_section"].only(8)

#: At least how many relocations are read at once, if there are that many.
_WINDOW = 4096

Header = TypeVar("Header", "ObjectHeader", "BigObjectHeader")


@dataclass(frozen=True)
class ObjectHeader:
    """The COFF file header of an object."""

    # from describe/records.txt: object_header
    machine: int  #: the processor that the object is for
    number_of_sections: int  #: how many section headers there are
    time_date_stamp: int  #: when the object was made, in seconds since 1970, as written
    pointer_to_symbol_table: int  #: the file offset of the symbol table; 0 if there is none
    number_of_symbols: int  #: how many records the symbol table has
    size_of_optional_header: int  #: the size of the optional header
    characteristics: int  #: flags of the object
    # end of describe/records.txt


@dataclass(frozen=True)
class BigObjectHeader:
    """The header of a big object (``/bigobj``)."""

    # from describe/records.txt: big_object_header
    version: int  #: the version of the header: 2 or more
    machine: int  #: the processor that the object is for
    time_date_stamp: int  #: when the object was made, in seconds since 1970, as written
    size_of_data: int  #: SizeOfData, as written
    flags: int  #: Flags, as written
    meta_data_size: int  #: MetaDataSize, as written
    meta_data_offset: int  #: MetaDataOffset, as written
    number_of_sections: int  #: how many section headers there are
    pointer_to_symbol_table: int  #: the file offset of the symbol table; 0 if there is none
    number_of_symbols: int  #: how many records the symbol table has
    # end of describe/records.txt


@dataclass(frozen=True)
class SectionHeader:
    """A section header of an object, each field as the file has it."""

    # from describe/records.txt: section_header
    name: bytes  #: the name field, padded with zero bytes: a name, or its offset in the string table
    virtual_size: int  #: VirtualSize, as written
    virtual_address: int  #: VirtualAddress, as written
    size_of_raw_data: int  #: SizeOfRawData, even if the file holds no bytes
    pointer_to_raw_data: int  #: the file offset of the first byte, as in the header
    pointer_to_relocations: int  #: the file offset of the relocations
    pointer_to_linenumbers: int  #: the file offset of the line numbers
    number_of_relocations: int  #: how many relocations there are
    number_of_linenumbers: int  #: how many line numbers there are
    characteristics: int  #: the section's flags
    # end of describe/records.txt


@dataclass(frozen=True)
class ObjectSection:
    # from describe/records.txt: object_section
    name: bytes  #: the name, also if it is in the string table
    data: bytes  #: the section's bytes; empty if the file holds none
    absent_size: int  #: SizeOfRawData if the file holds no bytes; otherwise 0
    virtual_size: int  #: VirtualSize, as written
    virtual_address: int  #: VirtualAddress, as written
    characteristics: int  #: the section's flags
    relocation_count: int  #: how many relocations it has
    # end of describe/records.txt


@dataclass(frozen=True)
class ObjectRelocation:
    # from describe/records.txt: object_relocation
    address: int  #: the offset of the reference in the section plus the section's VirtualAddress
    symbol: int  #: the index of the symbol's record, counting auxiliary records
    kind: int  #: the type, which depends on the machine
    # end of describe/records.txt


@dataclass(frozen=True)
class ObjectSymbol:
    # from describe/records.txt: object_symbol
    name: bytes  #: the name, also if it is in the string table
    aux: bytes  #: 18 bytes for each auxiliary record, 20 of a big object
    index: int  #: the index of the symbol's record, to which relocations refer
    value: int  #: the value, whose meaning depends on the section and the storage class
    section_number: int  #: counted from 1, or SECTION_UNDEFINED, SECTION_ABSOLUTE or SECTION_DEBUG; EITHER_SECTION_.. if big objects are read too
    kind: int  #: the type; 32 is a function
    storage_class: int  #: the storage class, as numbered in "PE Format"
    # end of describe/records.txt


def _section_header_of(record: _records.SectionHeader) -> SectionHeader:
    values: Dict[str, Any] = {it.name: getattr(record, it.name) for it in fields(SectionHeader)}
    values["name"] = bytes(record.name)
    return SectionHeader(**values)


def _maker(file: FileBytes, kind: Callable[..., Any]) -> Callable[..., Any]:
    """Makes an item from a row that begins with two strings."""

    def make(at: int, length: int, other_at: int, other_length: int, *numbers: int) -> Any:
        return kind(file.text(at, length), file.text(other_at, other_length), *numbers)

    return make


def symbols_of(file: FileBytes, rows: memoryview, layout: RowLayout = LAYOUTS["object_symbol"]) -> Rows[ObjectSymbol]:
    """The symbols of an object or of an image, whose rows a call has filled."""
    return Rows(rows, layout, _maker(file, ObjectSymbol))


class _Calls(NamedTuple):
    """The calls that read the tables of an object, and the layout of a symbol's row."""

    sections: Any
    all_relocations: Any
    symbols: Any
    symbol: RowLayout


_OF_PLAIN = _Calls(
    library.petool_object_sections,
    library.petool_object_all_relocations,
    library.petool_object_symbols,
    LAYOUTS["object_symbol"],
)
_OF_EITHER = _Calls(
    library.petool_either_object_sections,
    library.petool_either_object_all_relocations,
    library.petool_either_object_symbols,
    LAYOUTS["either_object_symbol"],
)


class Object(OfFile):
    """One COFF object, from the bytes of its file. FormatFault of 61 to 72. What Image says of bytes and of ``file`` holds here
    too.

    A big object (``/bigobj``) has fault 62 unless ``big`` is true. With ``big`` an object of either form is read, and the section
    numbers of its symbols have 32 bits in both forms: EITHER_SECTION_.. in place of SECTION_.. ."""

    def __init__(self, data: Buffer, *, file: Optional[str] = None, big: bool = False) -> None:
        super().__init__(data, file)
        self._calls = _OF_EITHER if big else _OF_PLAIN
        self._sections: Optional[Rows[ObjectSection]] = None
        self._starts: Optional[List[int]] = None
        self._window = 0, memoryview(b"")
        self._symbols: Optional[Rows[ObjectSymbol]] = None
        try:
            self._is_big = self._check(big)
        except BaseException:
            self.close()
            raise

    def _check(self, big: bool) -> bool:
        """Whether the file is a big object. FormatFault if it is not an object, or is a big one that was not asked for."""
        found = c_bool()
        if big:
            self._ask(library.petool_either_object_check, byref(found))
        else:
            self._ask(library.petool_object_check)
        return found.value

    @property
    def is_big(self) -> bool:
        """Whether it is a big object, which is read only with ``big``."""
        return self._is_big

    def _rows(self, function: Any, layout: RowLayout) -> memoryview:
        return read_rows(layout, 64, lambda *rows: self._ask(function, *rows))

    @property
    def header(self) -> ObjectHeader:
        """The COFF file header. FormatFault 62 of a big object, which has ``big_header``."""
        return self._read_headers(0, ObjectHeader, _records.ObjectHeader, library.petool_object_headers)[0]

    @property
    def big_header(self) -> BigObjectHeader:
        """The header of a big object. FormatFault 62 of a plain one, which has ``header``."""
        return self._read_big_headers(0)[0]

    @property
    def section_headers(self) -> Tuple[SectionHeader, ...]:
        """In the order of the section table, each field as the file has it."""
        if self._is_big:
            return self._read_big_headers(self.big_header.number_of_sections)[1]
        room = self.header.number_of_sections
        return self._read_headers(room, ObjectHeader, _records.ObjectHeader, library.petool_object_headers)[1]

    def _read_big_headers(self, room: int) -> Tuple[BigObjectHeader, Tuple[SectionHeader, ...]]:
        return self._read_headers(room, BigObjectHeader, _records.BigObjectHeader, library.petool_big_object_headers)

    def _read_headers(
        self, room: int, kind: Type[Header], structure: Type[Structure], function: Any
    ) -> Tuple[Header, Tuple[SectionHeader, ...]]:
        record, rows = structure(), (_records.SectionHeader * max(room, 1))()
        self._ask(function, byref(record), rows, room)
        header = kind(**{it.name: getattr(record, it.name) for it in fields(kind)})
        return header, tuple(map(_section_header_of, rows[:room]))

    @property
    def sections(self) -> Sequence[ObjectSection]:
        """In the order of the section table."""
        return self._section_rows()

    def _section_rows(self) -> Rows[ObjectSection]:
        if self._sections is None:
            rows = self._rows(self._calls.sections, LAYOUTS["object_section"])
            self._sections = Rows(rows, LAYOUTS["object_section"], _maker(self._file, ObjectSection))
        return self._sections

    @property
    def symbols(self) -> Sequence[ObjectSymbol]:
        """In the order of the symbol table, without the auxiliary records."""
        if self._symbols is None:
            layout = self._calls.symbol
            self._symbols = symbols_of(self._file, self._rows(self._calls.symbols, layout), layout)
        return self._symbols

    def relocations(self, section: int) -> Sequence[ObjectRelocation]:
        """Those of one section, counted from 0. IndexError if there is no such section.

        They are read with those of the sections after it, some thousands at once, so go through the sections in order.
        """
        if self._starts is None:
            self._starts = list(accumulate((count for count, in self._section_rows().parts(_RELOCATION_COUNTS)), initial=0))
        if not 0 <= section < len(self._starts) - 1:
            raise IndexError("there is no section of this index")
        start, end = self._starts[section], self._starts[section + 1]
        size = LAYOUTS["object_relocation"].size
        with self._file.hold():
            first, rows = self._window
            if start < end and (start < first or first + len(rows) // size < end):
                room = min(max(end - start, _WINDOW), self._starts[-1] - start)
                first, rows = self._window = start, self._window_from(start, room)
        return Rows(rows[(start - first) * size : (end - first) * size], LAYOUTS["object_relocation"], ObjectRelocation)

    def _window_from(self, skipped: int, room: int) -> memoryview:
        """Rows of the relocations of all sections, from one on."""

        def call(*rows: Any) -> int:
            return self._ask(self._calls.all_relocations, skipped, *rows)

        return first_rows(LAYOUTS["object_relocation"], room, call)
