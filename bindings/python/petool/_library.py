"""The shared library: where it is, its version, its statuses and empty values."""

from __future__ import annotations

import ctypes
import ctypes.util
import os

from ._records import CALLS, Text

#: The version that this package knows: its first part times 65,536, and its second part.
KNOWN_VERSION = 0x20000

# from describe/records.txt: statuses
OK = 0  #: done
FAULT = 1  #: a rule of the format is broken: `*fault` says which, and where
MEMORY = 2  #: out of memory
ABSENT = 3  #: bytes outside the image or the file, or no such string, export, section, image or fault
SMALL = 4  #: too little room: the count says how much is needed
ARGUMENT = 5  #: an argument has a value that it may not have; nothing was done
CLOSED = 6  #: the image or the space is not open
LARGE = 7  #: the images of the set have more bytes than the caller allows; nothing was mapped
SHARED = 8  #: another handle has the space, so it is not moved
# end of describe/records.txt

# from describe/records.txt: names
NAME_MACHINE = 0  #: the machine of a COFF file header
NAME_SUBSYSTEM = 1  #: the subsystem of an image
NAME_FLAG = 2  #: a flag of Characteristics in a COFF file header
NAME_DLL_FLAG = 3  #: a flag of DllCharacteristics
NAME_SECTION_FLAG = 4  #: a flag of a section
NAME_DIRECTORY = 5  #: the table of a data directory, by its index
# end of describe/records.txt

# from describe/records.txt: table_names
NAME_DEBUG_TYPE = 6  #: a type of debug data
NAME_LOAD_FIELD = 7  #: a field of the load configuration, by its index
# end of describe/records.txt

#: No image has more sections.
MOST_SECTIONS = 96

# where the pointer of an empty string points: none may be NULL
_no_bytes = (ctypes.c_uint8 * 8)()
NO_BYTES = ctypes.addressof(_no_bytes)


def no_text() -> Text:
    """An empty string, for a call to set."""
    return Text(NO_BYTES, 0)


def _path() -> str:
    """The file named by PETOOL_LIBRARY, else the one in the package, else the system's."""
    named = os.environ.get("PETOOL_LIBRARY")
    if named:
        return named
    beside = os.path.join(os.path.dirname(os.path.abspath(__file__)), "libpetool.so.2")
    if os.path.exists(beside):
        return beside
    return ctypes.util.find_library("petool") or "libpetool.so.2"


def is_known(version: int) -> bool:
    """Whether a library of this version has all that this package calls, laid out as it knows it."""
    return version >> 16 == KNOWN_VERSION >> 16 and version >= KNOWN_VERSION


def _open(path: str) -> ctypes.CDLL:
    try:
        opened = ctypes.CDLL(path)
        # another version may lack a call, so this one is called first
        opened.petool_version_number.restype = ctypes.c_uint32
        found = opened.petool_version_number()
    except (OSError, AttributeError) as error:
        raise ImportError(f"no libpetool at {path} ({error}); PETOOL_LIBRARY may name its file") from error
    if not is_known(found):
        raise ImportError(f"{path} has version {found >> 16}.{found & 0xffff}, and petool needs {KNOWN_VERSION >> 16}")
    for name, (result, arguments) in CALLS.items():
        function = getattr(opened, name)
        function.restype = result
        function.argtypes = arguments
    return opened


library = _open(_path())
