"""The long names of an image's sections: strings of the string table after its symbols, by the offsets in the name fields."""

from __future__ import annotations

import re
from typing import Dict, Iterable, Tuple

#: A string table's bytes, and the offset in them at which a string begins.
Place = Tuple[bytes, int]

_SYMBOL_SIZE = 18
#: No string is at a lower offset of a string table: its size is there.
_FIRST_STRING = 4
_NUMBER = re.compile(rb"/([0-9]+)")
_ZERO = re.compile(rb"\0")


def is_offset(field: bytes) -> bool:
    """Whether a name field, up to its first zero byte, is the offset of a long name: `/` and decimal digits."""
    return _NUMBER.fullmatch(field) is not None


def _table(file: memoryview, symbols: int, count: int) -> memoryview:
    """The string table of an image with `count` symbols at an offset; empty if there is none, or not all of it is in the file."""
    start = symbols + _SYMBOL_SIZE * count
    size = int.from_bytes(file[start : start + 4], "little")
    is_inside = symbols != 0 and start + 4 <= len(file) and start + size <= len(file)
    return file[start : start + size] if is_inside else file[:0]


def _texts_end(table: memoryview, offsets: Iterable[int]) -> int:
    """The end of the string at the last of these offsets that has one, with its zero byte; 0 if none has."""
    end = len(table)
    for offset in sorted(offsets, reverse=True):
        zero = _ZERO.search(table, offset, end)
        if zero:
            return zero.end()
        # where there is no zero byte, none is searched for again
        end = min(offset, end)
    return 0


def places(file: memoryview, symbols: int, count: int, names: Iterable[bytes]) -> Dict[bytes, Place]:
    """Where the long name is to which each of these fields leads, if there is one.

    One copy serves them all, of the part of the string table in which they are: in a crafted file they may share their bytes, and
    be longer together than it is.
    """
    table = _table(file, symbols, count)
    offsets = {name: int(name[1:]) for name in names if is_offset(name)}
    offsets = {name: offset for name, offset in offsets.items() if _FIRST_STRING <= offset < len(table)}
    first, end = min(offsets.values(), default=0), _texts_end(table, offsets.values())
    part = bytes(table[first:end])
    return {name: (part, offset - first) for name, offset in offsets.items() if offset < end}
