"""Sets of images, and spaces: many images at their bases, kept between calls."""

from __future__ import annotations

import ctypes
import threading
from ctypes import byref
from typing import Any, Iterator, List, NamedTuple, Optional, Sequence, Tuple, Union

from . import _records
from ._bytes import LAYOUTS, Buffer, FileBytes, FileSet, Rows, address_of, read_rows, unsigned
from ._fault import FormatFault, ask, raise_for, values_of
from ._image import Import, imports_of, writable
from ._library import OK, library

#: The name of a module, all bytes of its file, and its base.
SetEntry = Tuple[Union[str, bytes], Buffer, int]

# room for this many bindings or imports, before they are counted
_GUESS = 4096

#: The faults of a set that an import has.
_IMPORT_FAULTS = range(48, 51)


class Binding(NamedTuple):
    """What an import is bound to."""

    # from describe/records.txt: binding
    image: int  #: the index of the entry whose image has the slot
    slot: int  #: the slot's RVA
    exporter: int  #: the index of the entry whose image has the export
    rva: int  #: the export's RVA
    # end of describe/records.txt


def _bindings(rows: Rows[Binding]) -> Iterator[Binding]:
    return map(Binding._make, rows.values())


class Moved(NamedTuple):
    """What a move wrote."""

    # from describe/records.txt: moved
    fields: int  #: how many fields of the image
    slots: int  #: how many bound slots, of all images
    # end of describe/records.txt


class Standing(NamedTuple):
    """Where an image is."""

    base: int
    size: int


def _import_at(file: FileBytes, slot: int) -> Optional[Import]:
    """The import of an image whose slot is at an RVA; None if there is none, or no memory to look for it."""
    row = memoryview(bytearray(LAYOUTS["import"].blank))
    try:
        status = ask(library.petool_import_at, file.address, file.length, slot, address_of(row))
    except (FormatFault, MemoryError):
        return None
    return imports_of(file, row)[0] if status == OK else None


def _ask_set(function: Any, held: FileSet, *arguments: Any) -> int:
    """The status of a call that checks a set, or its fault as an exception, which for 48 to 50 says what its import names."""
    cycle = ctypes.c_uint32()
    try:
        return ask(function, *arguments, byref(cycle), cycle=cycle)
    except FormatFault as fault:
        if fault.image < len(held.files):
            with held.files[fault.image].hold():
                fault.values = values_of(held.files[fault.image].address, held.files[fault.image].length, fault)
        found = _import_at(held.files[fault.image], fault.at) if fault.number in _IMPORT_FAULTS else None
        if found is not None:
            fault.module, fault.key = found.module, found.key
        raise


def judge(images: Sequence[SetEntry], known: bool = False) -> List[Binding]:
    """Checks a set, and returns what each import is bound to. FormatFault of an image or set fault (docs/FAULTS.md).

    With ``known``, an import from a module that is not in the set is not a fault.
    """
    held = FileSet(images)

    def call(*rows: Any) -> int:
        return _ask_set(library.petool_judge, held, held.entries, held.count, known, *rows)

    return list(Rows(read_rows(LAYOUTS["binding"], _GUESS, call), LAYOUTS["binding"], Binding, _bindings))


class UnboundImport(NamedTuple):
    """An import that is bound to nothing, since its search comes to a module that is not in the set."""

    image: int  #: the index of the entry whose image has the slot
    slot: int  #: the RVA of the slot, which keeps its bytes from the file
    module: bytes
    key: Union[bytes, int]  #: the name or the ordinal of the export in that module


def unbound(images: Sequence[SetEntry]) -> Sequence[UnboundImport]:
    """Checks a set, in which an import from a module that is not there is no fault, and returns the imports that are therefore
    bound to nothing, image by image and in the order of each image's imports.

    FormatFault of an image or set fault. The sequence holds the bytes of all files.
    """
    held = FileSet(images)

    def call(*rows: Any) -> int:
        return _ask_set(library.petool_unbound, held, held.entries, held.count, *rows)

    def make(
        module_at: int, module: int, at: int, length: int, ordinal: int, image: int, slot: int, by_ordinal: bool
    ) -> UnboundImport:
        text = held.files[image].text
        return UnboundImport(image, slot, text(module_at, module), ordinal if by_ordinal else text(at, length))

    return Rows(read_rows(LAYOUTS["unbound_import"], _GUESS, call), LAYOUTS["unbound_import"], make)


class Space:
    """Images in one address space, each at its base, with its fields relocated and its imports bound.

    ``images`` are tuples of a module's name, its file's bytes and its base; the index of a tuple is that of its image. FormatFault
    of an image or set fault. With ``known``, an import from a module that is not in the set is not a fault, and its slot keeps
    its bytes from the file. OverflowError if the images have more than ``most_bytes`` bytes together, before memory is taken for
    them. A space holds its own bytes, so the files may be dropped; ``Space.open`` leaves them in the files instead. Each call takes
    a lock, so threads may use one space, one at a time; ``shared()`` makes another, which has a lock of its own. After ``close()``
    each use raises ValueError.
    """

    def __init__(self, images: Sequence[SetEntry], *, known: bool = False, most_bytes: Optional[int] = None) -> None:
        self._begin()
        held = FileSet(images)
        most = (1 << 64) - 1 if most_bytes is None else unsigned(most_bytes, 64, "a number of bytes")
        _ask_set(library.petool_space_map_within, held, byref(self._space), held.entries, held.count, known, most)
        self._count = held.count
        self._largest = max((it.size for it in self.images), default=0)

    def _begin(self) -> None:
        """A closed space, before a call opens it."""
        self._lock = threading.Lock()
        self._space = _records.Space(None, False)
        self._files: Optional[FileSet] = None

    @classmethod
    def open(cls, images: Sequence[SetEntry], *, known: bool = False) -> "Space":
        """A space over the files of a set, as ``Space(images, known=known)``, without a copy of the images.

        Nobody may change the bytes while the space, or one that shares it, is open; a bytearray cannot be resized until then.
        """
        space = cls.__new__(cls)
        space._begin()
        held = FileSet(images)
        _ask_set(library.petool_space_open, held, byref(space._space), held.entries, held.count, known)
        space._files, space._count = held, held.count
        space._largest = max((it.size for it in space.images), default=0)
        return space

    def shared(self) -> "Space":
        """Another space of the same images, for another thread: calls of the two do not wait for each other.

        As long as both are open, neither is moved. The memory is freed when the last is closed.
        """
        other = type(self).__new__(type(self))
        other._begin()
        with self._lock:
            raise_for(library.petool_space_share(byref(self._space), byref(other._space)))
            if not other._space.is_open:
                raise ValueError("it is closed")
            other._files, other._count, other._largest = self._files, self._count, self._largest
        return other

    def read(self, address: int, count: int) -> bytes:
        """The bytes from an address on. FormatFault 54 if they do not all lie in one image."""
        if count < 0:
            raise ValueError("the count is negative")
        # a count larger than any image gives the same fault as one byte more than the largest
        buffer = bytearray(min(count, self._largest + 1))
        self.read_into(address, buffer)
        return bytes(buffer)

    def read_into(self, address: int, buffer: Union[bytearray, memoryview]) -> None:
        """Fills a buffer with the bytes from an address on. FormatFault 54, and then the buffer is unchanged."""
        view = writable(buffer)
        at = unsigned(address, 64, "an address")
        with self._lock:
            ask(library.petool_space_read, byref(self._space), at, address_of(view), len(view))

    def move(self, image: int, base: int) -> Moved:
        """Moves an image: relocates its fields, and binds again the slots whose exports are in it.

        IndexError if there is no such image. FormatFault of 44 to 47, or BufferError as long as there is another space that shares
        this one, and then nothing is changed.
        """
        if not 0 <= image < self._count:
            raise IndexError("there is no image with this index")
        moved, to = _records.Moved(), unsigned(base, 64, "a base")
        with self._lock:
            ask(library.petool_space_move, byref(self._space), image, to, byref(moved))
        return Moved(moved.fields, moved.slots)

    @property
    def images(self) -> Tuple[Standing, ...]:
        """Where each image is now, and how many bytes it has."""
        with self._lock:
            return tuple(map(self._standing, range(self._count)))

    def _standing(self, image: int) -> Standing:
        base, size = ctypes.c_uint64(), ctypes.c_uint32()
        raise_for(library.petool_space_image(byref(self._space), image, byref(base), byref(size)))
        return Standing(base.value, size.value)

    @property
    def bindings(self) -> Sequence[Binding]:
        """What each import is bound to."""

        def call(*rows: Any) -> int:
            status: int = library.petool_space_bindings(byref(self._space), *rows)
            raise_for(status)
            return status

        with self._lock:
            return Rows(read_rows(LAYOUTS["binding"], _GUESS, call), LAYOUTS["binding"], Binding, _bindings)

    def close(self) -> None:
        """Frees the memory, unless another space shares it, and releases the files. Closing a closed space does nothing."""
        with self._lock:
            library.petool_space_close(byref(self._space))
            self._files = None

    def __enter__(self) -> "Space":
        return self

    def __exit__(self, *_: object) -> None:
        self.close()

    def __del__(self) -> None:
        # nothing to close if __init__ did not get so far
        if hasattr(self, "_space"):
            self.close()

    def __reduce_ex__(self, protocol: Any) -> Any:
        raise TypeError("a space is never copied")
