"""The resources of an image: the leaves of its resource tree, its version information and its manifest."""

from __future__ import annotations

import ctypes
from typing import Callable, Iterator, NamedTuple, Optional, Tuple, Union

from . import _library, _records
from ._bytes import LAYOUTS, FileBytes
from ._library import library

# from describe/records.txt: resource_names
_NAMED_NOTHING = 0  #: nothing: the tree ends before this level
_NAMED_ID = 1  #: an id
_NAMED_TEXT = 2  #: a text
# end of describe/records.txt

#: What names a resource at a level of the tree: an id, or a text, which is empty if the file does not hold it in one run; None if the
#: tree ends before that level.
ResourceName = Union[int, str, None]
#: A version as four numbers, the first of which counts most.
FourNumbers = Tuple[int, int, int, int]


class Resource(NamedTuple):
    """A resource: a leaf of the resource tree. ``image.read(it.rva, it.size)`` is its data."""

    kind: ResourceName  #: the type: 16 version information, 24 a manifest
    name: ResourceName
    language: ResourceName
    rva: int  #: the RVA of the data
    size: int  #: the size of the data
    code_page: int  #: the code page of texts in the data, as written


class VersionString(NamedTuple):
    """A string of version information."""

    table: str  #: 8 hexadecimal digits: the language and the code page
    key: str  #: what the string is, such as ProductVersion
    value: str


class Version:
    """The version information of an image. ``version["ProductVersion"]`` is the first string of this key, KeyError if there is none.

    The numbers are those of its fixed part (VS_FIXEDFILEINFO), and None if that does not begin as it must.
    """

    __slots__ = ("file_version", "product_version", "flags_mask", "flags", "system", "kind", "subkind", "strings")

    def __init__(self, fixed: Optional[_records.VersionInfo], strings: Tuple[VersionString, ...]) -> None:
        #: The version of the file.
        self.file_version: Optional[FourNumbers] = None if fixed is None else _four(fixed.file_version)
        #: The version of the product.
        self.product_version: Optional[FourNumbers] = None if fixed is None else _four(fixed.product_version)
        #: Which flags are valid.
        self.flags_mask: Optional[int] = None if fixed is None else fixed.flags_mask
        #: The flags: 1 a debug build, 2 a prerelease, 8 a private build.
        self.flags: Optional[int] = None if fixed is None else fixed.flags
        #: The operating system that the file is for: 0x40004 Windows.
        self.system: Optional[int] = None if fixed is None else fixed.system
        #: What the file is: 1 a program, 2 a library, 3 a driver.
        self.kind: Optional[int] = None if fixed is None else fixed.kind
        #: The kind of driver or font.
        self.subkind: Optional[int] = None if fixed is None else fixed.subkind
        #: The strings, of each table in its order.
        self.strings = strings

    def __getitem__(self, key: str) -> str:
        for it in self.strings:
            if it.key == key:
                return it.value
        raise KeyError(key)

    def get(self, key: str, default: Optional[str] = None) -> Optional[str]:
        """The first string of a key, or the default if there is none."""
        try:
            return self[key]
        except KeyError:
            return default

    def __iter__(self) -> Iterator[str]:
        """The keys, each once."""
        return iter(dict.fromkeys(it.key for it in self.strings))

    def __len__(self) -> int:
        return sum(1 for _ in self)

    def __contains__(self, key: object) -> bool:
        return any(it.key == key for it in self.strings)

    def __repr__(self) -> str:
        shown = "no fixed part" if self.file_version is None else ".".join(map(str, self.file_version))
        return f"<Version: {shown}, {len(self.strings)} strings>"


def _four(numbers: "ctypes.Array[ctypes.c_uint16]") -> FourNumbers:
    first, second, third, fourth = numbers
    return first, second, third, fourth


def _text(file: FileBytes, at: int, length: int) -> str:
    """A text in UTF-16, with U+FFFD for each half of a pair that stands alone."""
    return file.text(at, length).decode("utf-16-le", "replace")


def resource_of(file: FileBytes) -> Callable[..., Resource]:
    """What makes a resource of the numbers of a row."""

    def name(at: int, length: int, number: int, kind: int) -> ResourceName:
        if kind == _NAMED_TEXT:
            return _text(file, at, length)
        return number if kind == _NAMED_ID else None

    def make(*row: int) -> Resource:
        return Resource(name(*row[0:4]), name(*row[4:8]), name(*row[8:12]), *row[14:17])

    return make


def version_by(file: FileBytes, ask: Callable[..., int], rows: Callable[[], memoryview]) -> Optional[Version]:
    """The version information that calls have: its fixed part, and the rows of its strings."""
    found = _records.VersionInfo()
    fixed = None if ask(library.petool_version, ctypes.byref(found)) == _library.ABSENT else found
    strings = tuple(_strings_of(file, rows()))
    return Version(fixed, strings) if fixed is not None or strings else None


def _strings_of(file: FileBytes, rows: memoryview) -> Iterator[VersionString]:
    """The strings of version information: the key of a table is copied once, and not for each of its strings."""
    place, table = (0, 0), ""
    for at, length, *others in LAYOUTS["version_text"].struct.iter_unpack(rows):
        if (at, length) != place:
            place, table = (at, length), _text(file, at, length)
        yield VersionString(table, _text(file, *others[:2]), _text(file, *others[2:]))


def manifest_by(file: FileBytes, ask: Callable[..., int]) -> Optional[bytes]:
    """The manifest that a call has."""
    text = _library.no_text()
    if ask(library.petool_manifest, ctypes.byref(text)) == _library.ABSENT:
        return None
    return file.text(text.at, text.len)
