"""Bytes in place: those of a caller's object, whose address a call needs, and the rows that a call fills."""

from __future__ import annotations

import ctypes
import itertools
import mmap
import operator
import struct
from collections.abc import Sequence as AbstractSequence
from typing import Any, Callable, Generic, Iterator, List, Optional, Sequence, Tuple, TypeVar, Union, overload

from . import _library, _records

#: Anything with the buffer protocol whose bytes are in one piece.
Buffer = Union[bytes, bytearray, memoryview, mmap.mmap]
Row = TypeVar("Row")


class _PyBuffer(ctypes.Structure):
    """Py_buffer, of which only `buf` is read."""

    _fields_ = [
        ("buf", ctypes.c_void_p),
        ("obj", ctypes.c_void_p),
        ("len", ctypes.c_ssize_t),
        ("itemsize", ctypes.c_ssize_t),
        ("readonly", ctypes.c_int),
        ("ndim", ctypes.c_int),
        ("others", ctypes.c_void_p * 5),
    ]


_get_buffer = ctypes.pythonapi.PyObject_GetBuffer
_get_buffer.argtypes = [ctypes.py_object, ctypes.POINTER(_PyBuffer), ctypes.c_int]
_release_buffer = ctypes.pythonapi.PyBuffer_Release
_release_buffer.argtypes = [ctypes.POINTER(_PyBuffer)]
_release_buffer.restype = None


def address_of(view: memoryview) -> int:
    """The address of a view's bytes, valid until the view is released, which holds the buffer.

    from_buffer of ctypes needs writable bytes, so this calls Python itself, which also takes `bytes` and a read-only mmap,
    and copies nothing.
    """
    buffer = _PyBuffer()
    _get_buffer(view, ctypes.byref(buffer), 0)
    address: int = buffer.buf or _library.NO_BYTES
    _release_buffer(ctypes.byref(buffer))
    return address


def view_of(data: Any) -> memoryview:
    """A view of all bytes of an object. TypeError or BufferError if they are not in one piece."""
    view = memoryview(data)
    if not view.c_contiguous:
        raise BufferError("the bytes do not stand in one piece")
    if view.format == "B" and view.ndim == 1:
        return view
    return view.cast("B") if view.nbytes else memoryview(b"")


class FileBytes:
    """All bytes of a file, which are held until close(): a bytearray cannot change its size meanwhile."""

    __slots__ = ("_view", "_source", "address", "length", "is_held")

    def __init__(self, data: Any) -> None:
        self._view = view_of(data)
        self.address = address_of(self._view)
        self.length = len(self._view)
        self.is_held = True
        #: what strings are cut from: a slice of bytes or of an mmap is bytes, which are copied once
        self._source: Any = data if type(data) in (bytes, mmap.mmap) else self._view

    def hold(self) -> memoryview:
        """Keeps the bytes in place for one call: until it is released they do not move, even if another thread calls close()."""
        try:
            return self._view[:]
        except ValueError:
            raise ValueError("it is closed") from None

    def text(self, at: int, length: int) -> bytes:
        """The bytes of a string that a call returned: unless it is empty, it lies in the file."""
        if length == 0:
            return b""
        start = at - self.address
        cut = self._source[start : start + length]
        return cut if isinstance(cut, bytes) else bytes(cut)

    def close(self) -> None:
        self.is_held = False
        # a released view refuses each use
        self._source = self._view
        self._view.release()


def unsigned(value: int, bits: int, what: str) -> int:
    """The number, which ctypes would truncate silently. OverflowError if it does not fit."""
    number = operator.index(value)
    if not 0 <= number < 1 << bits:
        raise OverflowError(f"{what} is not a number of {bits} bits")
    return number


class RowLayout:
    """The layout of a row, in the letters of `struct`: P and N are a string's pointer and length."""

    def __init__(self, form: str) -> None:
        self._form = form
        self.struct = struct.Struct(form)
        self.size = self.struct.size
        # no pointer of a string may be NULL before a call
        self.blank = self.struct.pack(*(_library.NO_BYTES if code == "P" else 0 for code in form if code != "x"))

    def only(self, *indexes: int) -> struct.Struct:
        """A row of which only the numbers of these indexes are unpacked."""
        form, end = "", 0
        for index in indexes:
            after = struct.calcsize(self._form[: index + 1])
            start = after - struct.calcsize(self._form[index])
            form, end = f"{form}{start - end}x{self._form[index]}", after
        return struct.Struct(f"{form}{self.size - end}x")


#: The rows of tables by their names.
LAYOUTS = {name: RowLayout(form) for name, form in _records.FORMS.items()}


def read_rows(layout: RowLayout, room: int, call: Callable[[int, int, Any], int]) -> memoryview:
    """The rows that a call fills, read with a second call if there are more of them than `room`."""
    while True:
        # Python's allocator aligns to 16 bytes, which is enough for each row
        rows = memoryview(bytearray(layout.blank * max(room, 1)))
        count = ctypes.c_size_t()
        if call(address_of(rows), room, ctypes.byref(count)) != _library.SMALL:
            return rows[: count.value * layout.size].toreadonly()
        room = count.value


def first_rows(layout: RowLayout, room: int, call: Callable[[int, int, Any], int]) -> memoryview:
    """The first rows of a table, at most `room` of them."""
    rows = memoryview(bytearray(layout.blank * room))
    count = ctypes.c_size_t()
    call(address_of(rows), room, ctypes.byref(count))
    return rows[: min(count.value, room) * layout.size].toreadonly()


class Rows(AbstractSequence, Generic[Row]):  # type: ignore[type-arg]
    """A sequence over rows as the library filled them: an item is made from its row at each access."""

    __slots__ = ("_rows", "_layout", "_make", "_make_all")

    def __init__(
        self,
        rows: memoryview,
        layout: RowLayout,
        make: Callable[..., Row],
        make_all: Optional[Callable[["Rows[Row]"], Iterator[Row]]] = None,
    ) -> None:
        """`make` makes an item of the numbers of a row, and `make_all`, which is faster, the items of all rows."""
        self._rows, self._layout, self._make, self._make_all = rows, layout, make, make_all

    def __len__(self) -> int:
        return len(self._rows) // self._layout.size

    @overload
    def __getitem__(self, index: int) -> Row: ...

    @overload
    def __getitem__(self, index: slice) -> List[Row]: ...

    def __getitem__(self, index: Union[int, slice]) -> Union[Row, List[Row]]:
        found = range(len(self))[index]
        return [self._at(it) for it in found] if isinstance(found, range) else self._at(found)

    def _at(self, index: int) -> Row:
        return self._make(*self.row(index))

    def row(self, index: int) -> Tuple[int, ...]:
        """The numbers of one row: no item is made, and no string is copied."""
        return self._layout.struct.unpack_from(self._rows, index * self._layout.size)

    def values(self) -> Iterator[Tuple[int, ...]]:
        """The same of each row."""
        return self._layout.struct.iter_unpack(self._rows)

    def parts(self, form: struct.Struct) -> Iterator[Tuple[int, ...]]:
        """Some of the numbers of each row."""
        return form.iter_unpack(self._rows)

    def __iter__(self) -> Iterator[Row]:
        return self._make_all(self) if self._make_all else itertools.starmap(self._make, self.values())

    def __reduce__(self) -> Tuple[Any, ...]:
        """A copy, by pickle too, is a tuple, which needs no file."""
        return tuple, (tuple(self),)

    def __repr__(self) -> str:
        return f"<{len(self)} rows>"


class FileSet:
    """The entries of a set, (name, file, base) each, in the form that a call takes; holds all of their bytes."""

    def __init__(self, images: Sequence[Tuple[Union[str, bytes], Any, int]]) -> None:
        self._names: List[FileBytes] = []
        self.files: List[FileBytes] = []
        entries = [self._entry(*image) for image in images]
        self.count = len(entries)
        self.entries = (_records.Entry * max(self.count, 1))(*entries)

    def _entry(self, name: Union[str, bytes], data: Any, base: int) -> _records.Entry:
        text = self._text(self._names, name.encode() if isinstance(name, str) else name)
        return _records.Entry(text, self._text(self.files, data), unsigned(base, 64, "a base"))

    @staticmethod
    def _text(held: List[FileBytes], data: Any) -> _records.Text:
        held.append(FileBytes(data))
        return _records.Text(held[-1].address, held[-1].length)
