"""One image: its headers, its bytes and its tables."""

from __future__ import annotations

import ctypes
import errno
import mmap
import os
import stat
import threading
from collections.abc import Mapping as AbstractMapping
from ctypes import byref
from dataclasses import dataclass, fields
from typing import Any, Callable, Dict, Iterator, NamedTuple, Optional, Sequence, Tuple, Union

from . import _library, _records, _resource, _section_names, _tables
from ._bytes import LAYOUTS, Buffer, FileBytes, RowLayout, Rows, address_of, read_rows, unsigned, view_of
from ._fault import FormatFault, ask, raise_for
from ._file import OfFile
from ._joined import HEADS, Joined
from ._library import library
from ._object import ObjectSymbol, symbols_of
from ._resource import Resource, Version
from ._tables import BoundImport, ClrHeader, DebugEntry, Finding, Function, LoadConfiguration, Pdb, Tls
from ._trust import TrustOfFile


@dataclass(frozen=True)
class Directory:
    """Where a table of the image is, and how many bytes it has."""

    # from describe/records.txt: directory
    rva: int  #: where its table begins in the image, or for the certificate table in the file; 0 if there is none
    size: int  #: the table's size, as the file has it
    # end of describe/records.txt


@dataclass(frozen=True)
class Headers:
    """Every field of the headers, in the order of the format. Those that PE32+ does not have are 0 in it."""

    # from describe/records.txt: headers
    pe_offset: int  #: the file offset of the signature
    machine: int  #: the machine that the image is for
    number_of_sections: int  #: how many sections there are
    time_date_stamp: int  #: when the image was made, in seconds since 1970, as written
    pointer_to_symbol_table: int  #: the file offset of the symbol table, or 0 if there is none
    number_of_symbols: int  #: how many records the symbol table has
    size_of_optional_header: int  #: the bytes from the beginning of the optional header to the section table
    characteristics: int  #: the flags of the image
    magic: int  #: 0x10b for PE32, 0x20b for PE32+
    major_linker_version: int  #: the linker's major version
    minor_linker_version: int  #: the linker's minor version
    size_of_code: int  #: the size of all code
    size_of_initialized_data: int  #: the size of all initialized data
    size_of_uninitialized_data: int  #: the size of all uninitialized data
    address_of_entry_point: int  #: the RVA of the entry point, or 0 if there is none
    base_of_code: int  #: the RVA where code begins
    base_of_data: int  #: the RVA where data begins; 0 in PE32+
    image_base: int  #: the preferred address of the image
    section_alignment: int  #: the alignment of sections in the laid-out image
    file_alignment: int  #: the alignment of raw data in the file
    major_operating_system_version: int  #: the major version of the operating system that the image needs
    minor_operating_system_version: int  #: the minor version of the operating system
    major_image_version: int  #: the image's own major version
    minor_image_version: int  #: the image's own minor version
    major_subsystem_version: int  #: the major version of the subsystem that the image needs
    minor_subsystem_version: int  #: the minor version of the subsystem
    win32_version_value: int  #: reserved
    size_of_image: int  #: the size of the laid-out image
    size_of_headers: int  #: the size of the headers in the laid-out image
    check_sum: int  #: the checksum as written; it is not computed
    subsystem: int  #: the subsystem that the image needs to run
    dll_characteristics: int  #: the flags in DllCharacteristics
    size_of_stack_reserve: int  #: how many bytes of stack to reserve
    size_of_stack_commit: int  #: how many bytes of stack to commit
    size_of_heap_reserve: int  #: how many bytes of heap to reserve
    size_of_heap_commit: int  #: how many bytes of heap to commit
    loader_flags: int  #: reserved
    number_of_rva_and_sizes: int  #: the number of directories, as written; at most 16 are kept
    directories: Tuple[Directory, ...]  #: 16 of them; those that the headers do not hold are 0
    # end of describe/records.txt


#: No part of a string table.
_NO_PLACE: Optional[_section_names.Place] = (b"", 0)


@dataclass(frozen=True)
class Section:
    """A section of an image. Two are equal if their headers are."""

    # from describe/records.txt: section
    name: bytes  #: the name, without the zero bytes after it
    rva: int  #: the RVA of the first byte
    extent: int  #: how many bytes of the laid-out image the section takes
    file_size: int  #: how many of these, from the first on, come from the file
    pointer_to_raw_data: int  #: the file offset of the first byte, as in the header
    size_of_raw_data: int  #: the size in the file, as in the header
    virtual_size: int  #: the size in the laid-out image, as in the header
    characteristics: int  #: the section's flags
    # end of describe/records.txt

    # where the long name is, or None until it is looked for; no field, since it is not in the header
    _place = _NO_PLACE

    @property
    def _short_name(self) -> bytes:
        return self.name.split(b"\0")[0]

    @property
    def long_name(self) -> bytes:
        """The name up to its first zero byte, also if it is in the string table of the image, where linkers put names of over 8
        bytes: ``name`` is then its offset there, such as ``b"/4"`` (docs/FORMAT.md). ValueError for such a name if the image was
        closed before its ``sections`` were first used."""
        if self._place is None:
            raise ValueError("it is closed")
        strings, at = self._place
        return strings[at : strings.index(0, at)] if strings else self._short_name


class Rva(NamedTuple):
    """An export in the image itself."""

    rva: int


class Forward(NamedTuple):
    """An export that is another module's."""

    module: bytes
    key: Union[bytes, int]  #: its name or its ordinal there


Target = Union[Rva, Forward]
Key = Union[bytes, str, int]


class _ExportFields(NamedTuple):
    name: Optional[bytes]  #: the name, as bytes, since names have no encoding in the format; by ordinal the first, or None
    ordinal: int  #: its ordinal, which may exceed 2^32
    target: Target


class Export(_ExportFields):
    """A row by name or by ordinal: two are equal if they have one name, ordinal and target."""

    #: the names of an ordinal with several, which an instance has only then: most have one
    _names: Optional[Sequence[bytes]] = None

    def __new__(cls, name: Optional[bytes], ordinal: int, target: Target, names: Optional[Sequence[bytes]] = None) -> "Export":
        self = tuple.__new__(cls, (name, ordinal, target))
        if names is not None:
            self._names = names
        return self

    @property
    def names(self) -> Sequence[bytes]:
        """All names of the ordinal, in the order of the name pointer table: a tuple, unless names share strings."""
        if self._names is not None:
            return self._names
        return () if self.name is None else (self.name,)

    def __repr__(self) -> str:
        return f"Export(name={self.name!r}, ordinal={self.ordinal!r}, target={self.target!r})"


class Import(NamedTuple):
    module: bytes
    key: Union[bytes, int]  #: the name or the ordinal of the export in that module
    slot: int  #: the RVA of its slot

    @property
    def name(self) -> Optional[bytes]:
        return self.key if isinstance(self.key, bytes) else None

    @property
    def ordinal(self) -> Optional[int]:
        return self.key if isinstance(self.key, int) else None


_WIDTHS = {1: 2, 2: 2, 3: 4, 10: 8}


class Fixup(NamedTuple):
    """A base relocation: a field that changes with the image's base."""

    # from describe/records.txt: fixup
    entry: int  #: the RVA of the table's entry
    field: int  #: the RVA of the field
    kind: int  #: the entry's type: 1 HIGH and 2 LOW of 2 bytes, 3 HIGHLOW of 4, 10 DIR64 of 8
    # end of describe/records.txt

    @property
    def width(self) -> int:
        """How many bytes the field has."""
        return _WIDTHS[self.kind]


# from describe/records.txt: targets
_TARGET_RVA = 0  #: an RVA of the image
_TARGET_ORDINAL = 1  #: an ordinal of another module
_TARGET_NAME = 2  #: a name of another module
# end of describe/records.txt


#: The data directory of the bound import table.
_BOUND_IMPORT = 11

#: Room for this many rows, before they are counted.
_GUESS = 64

#: How many numbers of an export's row come before its target: the ordinal, and the pointer and the length of the name.
_NAMED = 3

#: The ordinal of an export's row, and the kind and the RVA of its target.
_TARGETS = LAYOUTS["export"].only(0, _NAMED, _NAMED + 1)


def _headers_of(record: _records.Headers) -> Headers:
    values = {it.name: getattr(record, it.name) for it in fields(Headers)}
    values["directories"] = tuple(Directory(it.rva, it.size) for it in record.directories)
    return Headers(**values)


def _section_of(record: _records.Section) -> Section:
    values = {it.name: getattr(record, it.name) for it in fields(Section)}
    values["name"] = bytes(record.name).rstrip(b"\0")
    section = Section(**values)
    if _section_names.is_offset(section._short_name):
        object.__setattr__(section, "_place", None)
    return section


def _target_of(file: FileBytes, kind: int, rva: int, ordinal: int, *texts: int) -> Target:
    if kind == _TARGET_RVA:
        return Rva(rva)
    return Forward(file.text(*texts[:2]), ordinal if kind == _TARGET_ORDINAL else file.text(*texts[2:]))


def _maker_by_name(file: FileBytes, joined: Joined) -> Callable[..., Export]:
    def make(ordinal: int, at: int, length: int, *target: int) -> Export:
        return Export(file.text(at, length), ordinal, _target_of(file, *target), joined.names_of(ordinal))

    return make


def _maker_by_ordinal(file: FileBytes, joined: Joined) -> Callable[..., Export]:
    def make(ordinal: int, _at: int, _length: int, *target: int) -> Export:
        names = joined.names_of(ordinal)
        return Export(names[0] if names else None, ordinal, _target_of(file, *target), names)

    return make


def _maker_of_all(
    file: FileBytes, joined: Joined, make: Callable[..., Export]
) -> Callable[[Rows[Export]], Iterator[Export]]:
    """Makes all rows. Most have at most one name, and are in the image itself: those are made here, since a call takes longer."""

    def make_all(rows: Rows[Export]) -> Iterator[Export]:
        # no rows of a closed file
        file.hold().release()
        name_of, several, new = joined.alone.get, joined.several, tuple.__new__
        for index, (ordinal, kind, rva) in enumerate(rows.parts(_TARGETS)):
            if kind == _TARGET_RVA and ordinal not in several:
                yield new(Export, (name_of(ordinal), ordinal, new(Rva, (rva,))))
            else:
                yield make(*rows.row(index))

    return make_all


def imports_of(file: FileBytes, rows: memoryview) -> Rows[Import]:
    """The imports of an image, whose rows a call has filled."""

    def make(module_at: int, module: int, at: int, length: int, ordinal: int, slot: int, by_ordinal: bool) -> Import:
        return Import(file.text(module_at, module), ordinal if by_ordinal else file.text(at, length), slot)

    def make_all(rows: Rows[Import]) -> Iterator[Import]:
        text, last, name = file.text, (0, 0), b""
        for module_at, module, at, length, ordinal, slot, by_ordinal in rows.values():
            # the imports of a module follow one another
            if (module_at, module) != last:
                last, name = (module_at, module), text(module_at, module)
            yield Import(name, ordinal if by_ordinal else text(at, length), slot)

    return Rows(rows, LAYOUTS["import"], make, make_all)


def _fixups_of(rows: Rows[Fixup]) -> Iterator[Fixup]:
    return map(Fixup._make, rows.values())


class Exports(AbstractMapping):  # type: ignore[type-arg]
    """What an image exports: targets by name (bytes, or str as UTF-8) and by ordinal (int).

    KeyError if nothing is exported under a key. Its keys are the names, in the order of the name pointer table, and then the
    ordinals, in the order of the export address table. ``len()`` is the number of keys, of which an export with a name has two or
    more; ``ordinals()`` has each export once, so ``len(exports.ordinals())`` is the number of exports.

    The first look-up makes a dict of where each key is, and an RVA that was found is kept. The names of a crafted file may share
    strings, and be longer together than the file: then no name is copied, and each that is looked up is a call of the library.
    """

    def __init__(
        self,
        file: FileBytes,
        names: memoryview,
        ordinals: memoryview,
        joined: Joined,
        look_up: Callable[[bytes], Optional[Target]],
    ) -> None:
        self._file, self._rows, self._joined, self._look_up = file, names, joined, look_up
        by_name, by_ordinal = _maker_by_name(file, joined), _maker_by_ordinal(file, joined)
        self._names = Rows(names, LAYOUTS["export"], by_name, _maker_of_all(file, joined, by_name))
        self._ordinals = Rows(ordinals, LAYOUTS["export"], by_ordinal, _maker_of_all(file, joined, by_ordinal))
        self._name_rows: Optional[Dict[bytes, int]] = None
        self._ordinal_rows: Optional[Dict[int, int]] = None
        self._found: Dict[Union[bytes, int], Target] = {}

    def names(self) -> Sequence[Export]:
        """A row for each name, each name once, in the order of the name pointer table."""
        return self._names

    def ordinals(self) -> Sequence[Export]:
        """A row for each export, in the order of the export address table."""
        return self._ordinals

    def _each_name(self) -> Iterator[bytes]:
        return (self._file.text(at, length) for _, at, length in HEADS.iter_unpack(self._rows))

    def _each_ordinal(self) -> Iterator[int]:
        return (ordinal for ordinal, *_ in self._ordinals.values())

    def _target(self, rows: Rows[Export], row: Optional[int]) -> Optional[Target]:
        return None if row is None else _target_of(self._file, *rows.row(row)[_NAMED:])

    def _by_name(self, name: bytes) -> Optional[Target]:
        if self._joined.are_shared:
            return self._look_up(name)
        if self._name_rows is None:
            self._name_rows = {it: row for row, it in enumerate(self._each_name())}
        return self._target(self._names, self._name_rows.get(name))

    def _by_ordinal(self, ordinal: int) -> Optional[Target]:
        if self._ordinal_rows is None:
            self._ordinal_rows = {it: row for row, it in enumerate(self._each_ordinal())}
        return self._target(self._ordinals, self._ordinal_rows.get(ordinal))

    def __getitem__(self, key: Key) -> Target:
        try:
            wanted = key.encode("utf-8") if isinstance(key, str) else key
        except UnicodeEncodeError:  # a str without a UTF-8 form names nothing
            raise KeyError(key) from None
        found = self._found.get(wanted)
        if found is None:
            found = self._by_name(wanted) if isinstance(wanted, bytes) else self._by_ordinal(wanted)
            if found is None:
                raise KeyError(key)
            # no copy is kept of a string that others may share
            if isinstance(found, Rva) and not (isinstance(wanted, bytes) and self._joined.are_shared):
                self._found[wanted] = found
        return found

    def __iter__(self) -> Iterator[Union[bytes, int]]:
        yield from self._each_name()
        yield from self._each_ordinal()

    def __len__(self) -> int:
        return len(self._names) + len(self._ordinals)

    def __repr__(self) -> str:
        return f"<Exports: {len(self._names)} names, {len(self._ordinals)} ordinals>"


class Image(TrustOfFile):
    """One image, from the bytes of its file. FormatFault if it has one of the image faults of docs/FAULTS.md.

    With ``check=False`` only the headers and sections are checked (1 to 15), and each table when it is first read. Nothing is
    copied, and nobody may change the bytes while the image is open; a bytearray cannot be resized until ``close()``. After that
    each use raises ValueError. Any number of threads may use one image. ``file`` is the name of the file, for its faults.
    """

    def __init__(self, data: Buffer, *, check: bool = True, file: Optional[str] = None) -> None:
        super().__init__(data, file)
        self._lock = threading.Lock()
        self._opened = _records.Image(None, False)
        self._raw, self._raw_sections = _records.Headers(), (_records.Section * _library.MOST_SECTIONS)()
        self._headers: Optional[Headers] = None
        self._sections: Optional[Tuple[Section, ...]] = None
        self._exports: Optional[Exports] = None
        self._imports: Optional[Rows[Import]] = None
        self._fixup_rows: Optional[memoryview] = None
        self._debug: Optional[Rows[DebugEntry]] = None
        self._delay_imports: Optional[Rows[Import]] = None
        self._symbols: Optional[Rows[ObjectSymbol]] = None
        self._functions: Optional[Rows[Function]] = None
        self._resources: Optional[Rows[Resource]] = None
        self._bound_imports: Optional[Rows[BoundImport]] = None
        self._findings: Optional[Tuple[Finding, ...]] = None
        try:
            if check:
                self._held(self._open)
            self._ask(library.petool_read_headers, byref(self._raw), self._raw_sections, len(self._raw_sections))
        except BaseException:
            self.close()
            raise

    def _open(self) -> int:
        """Checks the whole image, and keeps the contents of its tables."""
        file = self._file
        return ask(library.petool_image_open, byref(self._opened), file.address, file.length, file=self._name)

    def _call(self, name: str, *arguments: Any) -> int:
        """The status of a call of the open image, or, if it was not checked as a whole, of that over the file."""
        if not self._opened.is_open:
            return self._ask(getattr(library, "petool_" + name), *arguments)
        with self._file.hold(), self._lock:
            status: int = getattr(library, "petool_image_" + name)(byref(self._opened), *arguments)
        raise_for(status)
        return status

    def _ask_opened(self, function: Any, *arguments: Any) -> int:
        """The status of a call of the open image whose last argument is a fault, which is raised."""
        with self._lock:
            return ask(function, byref(self._opened), *arguments, file=self._name)

    def _rows(self, name: str, layout: RowLayout) -> memoryview:
        return read_rows(layout, _GUESS, lambda *rows: self._call(name, *rows))

    def close(self) -> None:
        """Releases the bytes. Results of earlier calls stay valid, except sequences whose rows have strings."""
        with self._lock:
            library.petool_image_close(byref(self._opened))
        super().close()

    def __del__(self) -> None:
        # nothing to close if __init__ did not get so far
        if hasattr(self, "_opened"):
            library.petool_image_close(byref(self._opened))

    @property
    def headers(self) -> Headers:
        if self._headers is None:
            self._headers = _headers_of(self._raw)
        return self._headers

    @property
    def sections(self) -> Tuple[Section, ...]:
        """In the order of the section table. Their long names are looked for when they are first used."""
        if self._sections is None:
            self._sections = tuple(map(_section_of, self._raw_sections[: self._raw.number_of_sections]))
        if self._file.is_held and any(it._place is None for it in self._sections):
            self._find_long_names(self._sections)
        return self._sections

    def _find_long_names(self, sections: Sequence[Section]) -> None:
        symbols, count = self._raw.pointer_to_symbol_table, self._raw.number_of_symbols
        with self._file.hold() as file:
            found = _section_names.places(file, symbols, count, (it._short_name for it in sections))
        for it in sections:
            object.__setattr__(it, "_place", found.get(it._short_name, _NO_PLACE))

    @property
    def exports(self) -> Exports:
        """Read when first needed. Without ``check`` FormatFault of 16 to 22."""
        if self._exports is None:
            names = self._rows("export_names", LAYOUTS["export"])
            ordinals = self._rows("exports", LAYOUTS["export"])
            self._exports = Exports(self._file, names, ordinals, Joined(self._file, names), self._look_up)
        return self._exports

    def _look_up(self, name: bytes) -> Optional[Target]:
        """What a name exports, looked up by the library."""
        held, found = FileBytes(name), _records.Target(0, 0, 0, _library.no_text(), _library.no_text())
        if self._call("export_by_name", held.address, held.length, byref(found)) == _library.ABSENT:
            return None
        module, text = found.module, found.name
        return _target_of(self._file, found.kind, found.rva, found.ordinal, module.at, module.len, text.at, text.len)

    @property
    def imports(self) -> Sequence[Import]:
        """In table order, read when first needed. Without ``check`` FormatFault of 24 to 32."""
        if self._imports is None:
            self._imports = imports_of(self._file, self._rows("imports", LAYOUTS["import"]))
        return self._imports

    @property
    def fixups(self) -> Sequence[Fixup]:
        """The base relocations in table order, read when first needed. Without ``check`` FormatFault of 24 to 38."""
        return Rows(self._fixups(), LAYOUTS["fixup"], Fixup, _fixups_of)

    def _fixups(self) -> memoryview:
        if self._fixup_rows is None:
            self._fixup_rows = self._rows("fixups", LAYOUTS["fixup"])
        return self._fixup_rows

    def fixup_array(self) -> memoryview:
        """The base relocations as numbers of format ``I``: entry, field and kind of each, in sequence.

        So ``struct.iter_unpack("III", array)`` goes through them, ``array[1::3]`` has all fields, and
        ``numpy.frombuffer(array, "u4").reshape(-1, 3)`` is a table of them. It may be kept after the image is closed.
        """
        return self._fixups().cast("I")

    def _beyond(self, name: str, layout: RowLayout) -> memoryview:
        """The rows of a table beyond the profile, which is read from the file."""
        return read_rows(layout, _GUESS, lambda *rows: self._ask(getattr(library, "petool_" + name), *rows))

    @property
    def debug(self) -> Sequence[DebugEntry]:
        """The entries of the debug directory, in table order, read when first needed."""
        if self._debug is None:
            layout = LAYOUTS["debug_entry"]
            self._debug = Rows(self._beyond("debug", layout), layout, DebugEntry, _tables.entries_of)
        return self._debug

    @property
    def pdb(self) -> Optional[Pdb]:
        """The PDB file that the first entry of the debug directory names that names one; None if none does."""
        return _tables.pdb_by(lambda pdb: self._ask(library.petool_pdb, pdb), self._file.text)

    @property
    def functions(self) -> Sequence[Function]:
        """The functions of the exception table, in table order, read when first needed. A machine other than AMD64, ARM64 and
        ARMNT has none."""
        if self._functions is None:
            layout = LAYOUTS["function"]
            self._functions = Rows(self._beyond("functions", layout), layout, Function, _tables.functions_of)
        return self._functions

    @property
    def tls(self) -> Optional[Tls]:
        """The TLS directory with its callbacks; None if there is none."""
        layout = LAYOUTS["callback"]
        return _tables.tls_by(lambda tls: self._ask(library.petool_tls, tls), lambda: self._beyond("tls_callbacks", layout))

    @property
    def load_configuration(self) -> Optional[LoadConfiguration]:
        """The load configuration; None if there is none, or the file does not hold its field Size."""
        values = tuple(_tables.values_of(LAYOUTS["field"], self._beyond("load_configuration", LAYOUTS["field"])))
        return LoadConfiguration._make(values) if values else None

    @property
    def clr(self) -> Optional[ClrHeader]:
        """The CLR header; None if there is none, or the file does not hold its field cb."""
        values = tuple(_tables.values_of(LAYOUTS["field"], self._beyond("clr", LAYOUTS["field"])))
        return ClrHeader._make(values) if values else None

    @property
    def bound_imports(self) -> Sequence[BoundImport]:
        """The records of the bound import table before the first that is all zeros, in table order, read when first needed."""
        if self._bound_imports is None:
            layout, start = LAYOUTS["bound_import"], self.headers.directories[_BOUND_IMPORT].rva

            def make(stamp: int, offset: int, count: int) -> BoundImport:
                return BoundImport(stamp, offset, count, self.text(start + offset))

            self._bound_imports = Rows(self._beyond("bound_imports", layout), layout, make)
        return self._bound_imports

    @property
    def delay_imports(self) -> Sequence[Import]:
        """What the image imports when it first calls it, in the order of the delay-load directory table, read when first needed: the
        imports of each descriptor that has none of the findings 162 to 167."""
        if self._delay_imports is None:
            self._delay_imports = imports_of(self._file, self._beyond("delay_imports", LAYOUTS["import"]))
        return self._delay_imports

    @property
    def symbols(self) -> Sequence[ObjectSymbol]:
        """The COFF symbols, in the order of the symbol table and without the auxiliary records, read when first needed: those whose
        records the file holds. A name that leads to no string is empty."""
        if self._symbols is None:
            self._symbols = symbols_of(self._file, self._beyond("image_symbols", LAYOUTS["object_symbol"]))
        return self._symbols

    @property
    def resources(self) -> Sequence[Resource]:
        """The leaves of the resource tree, in the order of the tree, read when first needed."""
        if self._resources is None:
            layout = LAYOUTS["resource"]
            self._resources = Rows(self._beyond("resources", layout), layout, _resource.resource_of(self._file))
        return self._resources

    @property
    def version(self) -> Optional[Version]:
        """The version information; None if there is none."""
        layout = LAYOUTS["version_text"]
        return _resource.version_by(self._file, self._ask, lambda: self._beyond("version_strings", layout))

    @property
    def manifest(self) -> Optional[bytes]:
        """The manifest as the file has it, mostly in UTF-8; None if there is none, or the file does not hold all of it in one run."""
        return _resource.manifest_by(self._file, self._ask)

    @property
    def findings(self) -> Tuple[Finding, ...]:
        """The rules of the tables beyond the profile, of the certificate table, of the Rich header and of the symbol table that are
        broken, in the order of docs/FAULTS.md by table."""
        if self._findings is None:
            self._findings = _tables.findings_by(lambda *rows: self._ask(library.petool_findings, *rows))
        return self._findings

    def read(self, rva: int, count: int) -> bytes:
        """The bytes of the laid-out image from an RVA on. IndexError if they do not all lie in the image."""
        # checked before the buffer is allocated, since a count may be any number
        if count < 0 or rva < 0 or rva + count > self._raw.size_of_image:
            raise IndexError("the bytes pass the image")
        buffer = bytearray(count)
        self.read_into(rva, buffer)
        return bytes(buffer)

    def read_into(self, rva: int, buffer: Union[bytearray, memoryview]) -> None:
        """Fills a buffer with the bytes from an RVA on. IndexError, with the buffer unchanged, if not all are in the image."""
        view = writable(buffer)
        if not 0 <= rva < 1 << 32:
            raise IndexError("the bytes pass the image")
        if self._call("read", rva, address_of(view), len(view)) == _library.ABSENT:
            raise IndexError("the bytes pass the image")

    def text(self, rva: int) -> Optional[bytes]:
        """The zero-terminated string at an RVA, without its zero byte; None if there is none."""
        text = _library.no_text()
        found = 0 <= rva < 1 << 32 and self._call("read_text", rva, byref(text)) == _library.OK
        return self._file.text(text.at, text.len) if found else None

    def locate(self, rva: int) -> Optional[int]:
        """The file offset of the byte at an RVA; None if the file does not hold it."""
        offset = ctypes.c_uint64()
        found = 0 <= rva < 1 << 32 and self._call("locate", rva, byref(offset)) == _library.OK
        return offset.value if found else None

    def rebased(self, base: int) -> bytes:
        """The image's file for another base; FormatFault of 44 to 46, 51 and 52, and without ``check`` of 24 to 38."""
        room = bytearray(max(self._file.length, 1))
        view = memoryview(room)
        where = (unsigned(base, 64, "a base"), address_of(view), self._file.length)
        if self._opened.is_open:
            self._held(lambda: self._ask_opened(library.petool_image_rebase, *where))
        else:
            self._ask(library.petool_rebase, *where)
        return bytes(view[: self._file.length])


def writable(buffer: Any) -> memoryview:
    """A view of a writable buffer, else TypeError."""
    view = view_of(buffer)
    if view.readonly and len(view):
        raise TypeError("the buffer may not be written")
    return view


def check(data: Buffer) -> Optional[FormatFault]:
    """The first of the image faults of docs/FAULTS.md as a value, or None: to sort files."""
    file = OfFile(data, None)
    try:
        file._ask(library.petool_check)
    except FormatFault as fault:
        return fault.with_traceback(None)
    finally:
        file.close()
    return None


def _mapped(name: str) -> Buffer:
    """The bytes of a file, mapped. OSError with its name if that fails, as from Python's own open()."""
    descriptor = os.open(name, os.O_RDONLY | getattr(os, "O_CLOEXEC", 0))
    try:
        status = os.fstat(descriptor)
        if stat.S_ISDIR(status.st_mode):
            raise IsADirectoryError(errno.EISDIR, os.strerror(errno.EISDIR))
        # an empty file cannot be mapped
        return mmap.mmap(descriptor, 0, access=mmap.ACCESS_READ) if status.st_size else b""
    except OSError as error:
        # the system knows only the descriptor
        error.filename = name
        raise
    finally:
        os.close(descriptor)


def open(path: Union[str, "os.PathLike[str]"], *, check: bool = True) -> Image:
    """The image of a file, which is mapped and not read: it may not be changed or truncated while the image is open.

    Each fault has the name of the file as its ``file``, and each OSError as its ``filename``.
    """
    name = os.fspath(path)
    return Image(_mapped(name), check=check, file=name)


def rebase(data: Buffer, base: int) -> bytes:
    """The image's file for another base; FormatFault of 1 to 15, 24 to 38, 44 to 46, 51 and 52."""
    with Image(data, check=False) as image:
        return image.rebased(base)
