"""Faults: broken rules of the format, and what a call's status raises."""

from __future__ import annotations

import ctypes
import enum
from typing import Any, Dict, Optional, Tuple, Union

from . import _library, _records
from ._library import library


class Place(enum.IntEnum):
    """What ``at`` of a fault counts."""

    # from describe/records.txt: places
    FILE = 0  #: bytes of the file
    RVA = 1  #: bytes of the laid-out image
    ADDRESS = 2  #: bytes of the address space
    ITEM = 3  #: items of a list
    # end of describe/records.txt


# from describe/records.txt: amounts
_VALUE_NOTHING = 0  #: no number, but words after one
_VALUE_COUNT = 1  #: a size or a count, for people in decimal
_VALUE_PLACE = 2  #: a file offset, an RVA, an address or a field, for people in hexadecimal
# end of describe/records.txt


#: A fault has so many rows of values, or none.
_MOST_VALUES = 3

#: How many bytes the longest line has, with the zero byte at its end.
_LINE = 257


def words_of(number: int) -> Tuple[str, str]:
    """What is at the place of a fault, and which rule it breaks."""
    subject, rule = _library.no_text(), _library.no_text()
    if library.petool_fault_words(number, ctypes.byref(subject), ctypes.byref(rule)) != _library.OK:
        return "place", "no fault has this number"
    # these strings belong to the library, and live as long as it does
    return tuple(ctypes.string_at(text.at, text.len).decode() for text in (subject, rule))  # type: ignore[return-value]


def _record_of(fault: FormatFault) -> _records.Fault:
    return _records.Fault(fault.number, fault.place, fault.image, fault.at)


def values_of(address: int, length: int, fault: FormatFault) -> Dict[str, int]:
    """The numbers of a file that the rule of its fault compares, by their names."""
    rows = (_records.Value * _MOST_VALUES)(*(_records.Value(_library.no_text(), _library.no_text(), 0, 0) for _ in range(_MOST_VALUES)))
    count, record = ctypes.c_size_t(), _record_of(fault)
    library.petool_fault_detail(address, length, ctypes.byref(record), rows, _MOST_VALUES, ctypes.byref(count))
    # these strings belong to the library
    return {ctypes.string_at(it.name.at, it.name.len).decode(): it.number for it in rows[: count.value] if it.kind != _VALUE_NOTHING}


def line_of(record: _records.Fault) -> str:
    """A fault as one line, without its number."""
    room = ctypes.create_string_buffer(_LINE)
    library.petool_fault_line(ctypes.byref(record), room, _LINE)
    return room.value.decode()


class FormatFault(ValueError):
    """The first broken rule of the format, in the order of docs/FAULTS.md.

    ``str()`` is the fault in the words of the program ``petool``.
    """

    number: int  #: as in docs/FAULTS.md, from 1 to 93
    image: int  #: the index of the entry in a set; otherwise 0
    place: Place  #: what ``at`` counts
    at: int
    subject: str  #: what is at the place
    rule: str  #: which rule it breaks
    cycle: Optional[int]  #: for fault 50 the length of the cycle of forwarders; otherwise None
    file: Optional[str]  #: the name of the file, if it was opened by its name or the caller named it; otherwise None
    module: Optional[bytes]  #: for faults 48 to 50 the module that the import names, whose slot is at the place; otherwise None
    key: Union[bytes, int, None]  #: for faults 48 to 50 the name or the ordinal that the import names; otherwise None
    values: Dict[str, int]  #: the numbers of the file that the rule compares, by the names of docs/FAULTS.md; empty if there are none

    def __init__(self, number: int, image: int, place: int, at: int, cycle: Optional[int] = None) -> None:
        super().__init__(number, image, place, at, cycle)
        self.number, self.image, self.place, self.at = number, image, Place(place), at
        self.subject, self.rule = words_of(number)
        self.cycle = cycle
        self.file = self.module = self.key = None
        self.values = {}

    def __str__(self) -> str:
        return f"fault {self.number}: {line_of(_record_of(self))}"


def raise_for(status: int) -> None:
    """Raises the exception for a status that is neither OK, ABSENT nor SMALL, and not a fault."""
    if status == _library.MEMORY:
        raise MemoryError("libpetool is out of memory")
    if status == _library.LARGE:
        raise OverflowError("the images have more bytes than most_bytes")
    if status == _library.SHARED:
        raise BufferError("another space shares the images")
    if status == _library.CLOSED:
        raise ValueError("it is closed")
    if status not in (_library.OK, _library.ABSENT, _library.SMALL):
        raise RuntimeError(f"libpetool returned status {status}")


def ask(function: Any, *arguments: Any, cycle: Optional[ctypes.c_uint32] = None, file: Optional[str] = None) -> int:
    """The status of a call whose last argument is a fault: OK, ABSENT or SMALL. The others are raised; a fault names the file."""
    fault = _records.Fault()
    status: int = function(*arguments, ctypes.byref(fault))
    if status == _library.FAULT:
        length = cycle.value if cycle is not None and fault.number == 50 else None
        refused = FormatFault(fault.number, fault.image, fault.place, fault.at, length)
        refused.file = file
        raise refused
    raise_for(status)
    return status
