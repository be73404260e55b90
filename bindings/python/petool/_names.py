"""Names of values and flags, as "PE Format" has them."""

from __future__ import annotations

import ctypes
import enum
from typing import Optional

from . import _library
from ._library import library


class Named(enum.IntEnum):
    """What ``name_of`` has names of."""

    MACHINE = _library.NAME_MACHINE
    SUBSYSTEM = _library.NAME_SUBSYSTEM
    FLAG = _library.NAME_FLAG
    DLL_FLAG = _library.NAME_DLL_FLAG
    SECTION_FLAG = _library.NAME_SECTION_FLAG
    DIRECTORY = _library.NAME_DIRECTORY
    DEBUG_TYPE = _library.NAME_DEBUG_TYPE
    LOAD_FIELD = _library.NAME_LOAD_FIELD


def name_of(kind: Named, value: int) -> Optional[str]:
    """The name of a value, such as ``"AMD64"``, or None if it has none. A flag is one bit."""
    name = _library.no_text()
    if not 0 <= value < 1 << 32 or library.petool_name(kind, value, ctypes.byref(name)) != _library.OK:
        return None
    # the string belongs to the library, and lives as long as it does
    return ctypes.string_at(name.at, name.len).decode()
