"""Archives of COFF objects: their members, the symbols of their linker members, short import objects, and archives to be written."""

from __future__ import annotations

import ctypes
from typing import Iterable, Iterator, NamedTuple, Optional, Tuple, Union

from . import _library, _records, _tables
from ._bytes import LAYOUTS, Buffer, FileBytes, RowLayout, address_of, read_rows
from ._fault import ask
from ._file import OfFile
from ._library import library
from ._tables import Finding

# from describe/records.txt: member_kinds
_MEMBER_FILE = 0  #: a file, mostly a COFF object
_MEMBER_IMPORT = 1  #: a short import object
_MEMBER_LINKER = 2  #: a linker member, which has symbols of the archive
_MEMBER_LONG_NAMES = 3  #: the member that has long names
_MEMBER_OWN = 4  #: another one that the archive keeps for itself
_MEMBER_APART = 5  #: one of a thin archive, whose bytes are in another file
# end of describe/records.txt

#: What each kind of member is, in words.
_KINDS = {
    _MEMBER_FILE: "file",
    _MEMBER_IMPORT: "import object",
    _MEMBER_LINKER: "linker member",
    _MEMBER_LONG_NAMES: "long names",
    _MEMBER_OWN: "other member of the archive's own",
    _MEMBER_APART: "file apart",
}

#: The members that the archive keeps for itself.
_OWN = ("linker member", "long names", "other member of the archive's own")

#: Room for this many rows, before they are counted.
_GUESS = 64

#: ``bytes`` is a property of members below.
_Bytes = bytes


class ArchiveMember:
    """A member of an archive. A field of its header that holds no number is None. Its name and its bytes are copied when they are asked
    for, since many members may share a long name; the archive must be open then."""

    __slots__ = ("offset", "size", "date", "user", "group", "mode", "kind", "_file", "_name", "_content")

    def __init__(self, file: FileBytes, row: Tuple[int, ...]) -> None:
        offset, size = row[4:6]
        numbers = [value if is_present else None for value, is_present in zip(row[6:14:2], row[7:14:2])]
        self._file = file
        self._name = row[:2] if row[15] else None
        self._content = row[2:4]
        #: The file offset of its header.
        self.offset: int = offset
        #: How many bytes its header gives it, with those of a name that is at its front.
        self.size: int = size
        #: When it was written, in seconds since 1970.
        self.date: Optional[int] = numbers[0]
        #: The user who owns it.
        self.user: Optional[int] = numbers[1]
        #: The group that owns it.
        self.group: Optional[int] = numbers[2]
        #: How it may be used, as Unix has it.
        self.mode: Optional[int] = numbers[3]
        #: What it is: "file" (mostly an object), "import object", "linker member", "long names", "other member of the
        #: archive's own", or "file apart" in a thin archive.
        self.kind: str = _KINDS[row[14]]

    @property
    def name(self) -> Optional[_Bytes]:
        """The name; None if its field leads to no text, which is finding 304."""
        return None if self._name is None else self._file.text(*self._name)

    @property
    def bytes(self) -> _Bytes:
        """What it holds, without its name; empty in a thin archive, where that is in another file."""
        return self._file.text(*self._content)

    @property
    def is_own(self) -> bool:
        """Whether the archive keeps it for itself: symbols, long names and the like."""
        return self.kind in _OWN

    def __repr__(self) -> str:
        return f"<ArchiveMember at {self.offset:#x}: {self.kind}, {self.size} bytes>"


class ArchiveSymbol(NamedTuple):
    """A symbol of a linker member."""

    name: bytes
    member: Optional[int]  #: the file offset of the header of the member that defines it; None if its index has none


class ImportObject(NamedTuple):
    """A short import object."""

    symbol: bytes  #: the public symbol
    module: bytes  #: the DLL
    name: Optional[bytes]  #: the name that is imported; None if the import is by ordinal
    ordinal: int  #: the ordinal, or the hint
    kind: int  #: what is imported: 0 code, 1 data, 2 a constant
    name_type: int  #: 0 by ordinal; otherwise how the name is made of the symbol
    machine: int  #: the processor
    time_date_stamp: int  #: when it was made, as its maker wrote it


def import_object(member: Buffer) -> Optional[ImportObject]:
    """The short import object that a member holds; None if it begins as none. FormatFault of 331 to 333."""
    file = FileBytes(member)
    try:
        found, none = _records.ImportObject(), _library.no_text()
        found.symbol, found.module, found.name = none, none, none
        if ask(library.petool_archive_import, file.address, file.length, ctypes.byref(found)) == _library.ABSENT:
            return None
        symbol, module, name = (file.text(it.at, it.len) for it in (found.symbol, found.module, found.name))
        key = name if found.name_type else None
        return ImportObject(
            symbol, module, key, found.ordinal, found.kind, found.name_type, found.machine, found.time_date_stamp
        )
    finally:
        file.close()


class Archive(OfFile):
    """An archive of COFF objects, from the bytes of its file. FormatFault of 1 and 300. What Image says of bytes and of ``file``
    holds here too.

    It is a sequence of its members. What is wrong with them refuses no archive: ``findings`` has it.
    """

    def __init__(self, data: Buffer, *, file: Optional[str] = None) -> None:
        super().__init__(data, file)
        self._members: Optional[Tuple[ArchiveMember, ...]] = None
        try:
            self._ask(library.petool_archive_check)
        except BaseException:
            self.close()
            raise

    @property
    def members(self) -> Tuple[ArchiveMember, ...]:
        """In file order, with those that the archive keeps for itself, up to the first header with one of findings 301 to 303."""
        if self._members is None:
            layout = LAYOUTS["archive_member"]
            rows = read_rows(layout, _GUESS, lambda *rows: self._ask(library.petool_archive_members, *rows))
            self._members = tuple(ArchiveMember(self._file, row) for row in layout.struct.iter_unpack(rows))
        return self._members

    def __iter__(self) -> Iterator[ArchiveMember]:
        return iter(self.members)

    def __len__(self) -> int:
        return len(self.members)

    def __getitem__(self, index: int) -> ArchiveMember:
        return self.members[index]

    def linker_symbols(self, linker: int) -> Optional[Tuple[ArchiveSymbol, ...]]:
        """The symbols of the first linker member, 1, or of the second, 2; None if the archive has no such member. ValueError for
        another number."""
        if linker not in (1, 2):
            raise ValueError("a linker member is 1 or 2")
        layout, is_absent = LAYOUTS["archive_symbol"], False

        def call(*rows: object) -> int:
            nonlocal is_absent
            status = self._ask(library.petool_archive_symbols, linker, *rows)
            is_absent = status == _library.ABSENT
            return status

        found = self._symbols_of(layout, read_rows(layout, _GUESS, call))
        return None if is_absent else found

    def _symbols_of(self, layout: RowLayout, rows: memoryview) -> Tuple[ArchiveSymbol, ...]:
        text = self._file.text
        each = layout.struct.iter_unpack(rows)
        return tuple(ArchiveSymbol(text(at, length), offset if is_there else None) for at, length, offset, is_there in each)

    @property
    def symbols(self) -> Tuple[ArchiveSymbol, ...]:
        """The symbols of the second linker member, or of the first if there is no second; none if there is neither."""
        second = self.linker_symbols(2)
        return second if second is not None else self.linker_symbols(1) or ()

    @property
    def imports(self) -> Tuple[ImportObject, ...]:
        """The short import objects in file order. FormatFault of 331 to 333, whose place is in the member."""
        found = (import_object(it.bytes) for it in self.members if it.kind == "import object")
        return tuple(it for it in found if it is not None)

    @property
    def findings(self) -> Tuple[Finding, ...]:
        """The rules that are broken: 301 to 304 of the members in file order, 305 and 306 of the first linker member and of the second,
        and then the first of 331 to 333 of each short import object."""
        return _tables.findings_by(lambda *rows: self._ask(library.petool_archive_findings, *rows))

    def __repr__(self) -> str:
        return f"<Archive: {len(self)} members>" if self._file.is_held else "<Archive: closed>"


#: How many bytes an archive is guessed to have for each member, with its symbols.
_MEMBER_GUESS = 1024


def write_archive(members: Iterable[Tuple[Union[str, bytes], Buffer]]) -> bytes:
    """The archive of members, each a name and what it holds: an object, a short import object, or anything else. It has both linker
    members, which name the public symbols of the objects. FormatFault of 91 to 93, at the index of a member."""
    names, contents = [], []
    try:
        for name, content in members:
            names.append(FileBytes(name.encode() if isinstance(name, str) else name))
            contents.append(FileBytes(content))
        rows = [_records.NewMember(_text_of(name), _text_of(content)) for name, content in zip(names, contents)]
        entries = (_records.NewMember * max(len(rows), 1))(*rows)
        return _written(entries, len(rows), sum(content.length + _MEMBER_GUESS for content in contents))
    finally:
        for file in names + contents:
            file.close()


def _text_of(file: FileBytes) -> _records.Text:
    return _records.Text(file.address, file.length)


def _written(entries: ctypes.Array[_records.NewMember], count: int, room: int) -> bytes:
    """The archive of members: once with the guessed room, and once more with the room that it needs."""
    length = ctypes.c_size_t(room)
    while True:
        view = memoryview(bytearray(max(length.value, 1)))
        if ask(library.petool_archive_write, entries, count, address_of(view), len(view), ctypes.byref(length)) == _library.OK:
            return bytes(view[: length.value])
