"""Checks, reads and moves PE images, and reads COFF objects and archives, from files that may be hostile, with the proved calls of
libpetool.

    import petool

    with petool.open("zlib1.dll") as image:
        print(hex(image.headers.image_base), image.sections[0].name)
        print(image.exports["crc32"])
        for it in image.imports:
            print(it.module, it.key, hex(it.slot))

What is raised:

- ``FormatFault``, a ``ValueError``: a rule of the format is broken; its ``number`` is that of docs/FAULTS.md, and its ``file`` the
  name of the file that was opened. For 48 to 50 its ``module`` and ``key`` are those that the import names.
- ``OSError``: ``open`` cannot read a file, whose name is its ``filename``.
- ``IndexError``: bytes that are not all in an image (``Image.read``, ``read_into``), or an index without an image (``Space.move``)
  or without a section (``Object.relocations``).
- ``KeyError``: nothing is exported under a key (``Image.exports[key]``). Both are ``LookupError``.
- ``MemoryError``: out of memory.
- ``OverflowError``: a base or an address has over 64 bits, or is negative; or the images of a ``Space`` have more than ``most_bytes``.
- ``ValueError``: an image, an object or a space was closed before the call.
- ``TypeError`` and ``BufferError``: an object's bytes are not in one piece; ``BufferError`` also if a space that others share is
  moved.

``Image.text`` and ``Image.locate`` return None if there is no such string or byte.

Debug data, functions, TLS, the load configuration, bound imports, the CLR header, resources, certificates and the Rich header refuse no
image: ``Image.findings`` has each of their rules that is broken, and ``Archive.findings`` those of an archive. ``Trust`` has CheckSum,
certificates, signatures, Rich header and overlay of an image that is refused behind its headers, too.

Data is any object with the buffer protocol: bytes, bytearray, memoryview, mmap. It is not copied, and nobody may change it while a
call runs. Calls do not hold the interpreter's lock. Make no call in a forked child of a process with threads.
"""

from ._archive import Archive, ArchiveMember, ArchiveSymbol, ImportObject, import_object, write_archive
from ._bytes import Buffer
from ._fault import FormatFault, Place
from ._image import (
    # from describe/records.txt: imports of _image
    Directory,
    Fixup,
    Headers,
    Section,
    # end of describe/records.txt
    Export,
    Exports,
    Forward,
    Image,
    Import,
    Rva,
    Target,
    check,
    open,
    rebase,
)
from ._library import library as _shared
from ._names import Named, name_of
from ._object import (
    EITHER_SECTION_ABSOLUTE,
    EITHER_SECTION_DEBUG,
    EITHER_SECTION_UNDEFINED,
    SECTION_ABSOLUTE,
    SECTION_DEBUG,
    SECTION_UNDEFINED,
    BigObjectHeader,
    Object,
    ObjectHeader,
    ObjectRelocation,
    ObjectSection,
    ObjectSymbol,
    SectionHeader,
)
from ._resource import Resource, ResourceName, Version, VersionString
from ._space import Binding, Moved, Space, Standing, UnboundImport, judge, unbound
from ._tables import BoundImport, ClrHeader, DebugEntry, Finding, Function, LoadConfiguration, Pdb, Tls
from ._trust import Certificate, CheckSum, Overlay, RichHeader, RichPair, Signature, Signer, Trust


def version() -> str:
    """The version of the library, as "2.0"."""
    number = _shared.petool_version_number()
    return f"{number >> 16}.{number & 0xffff}"


__all__ = [
    # from describe/records.txt: names of _image
    "Directory",
    "Fixup",
    "Headers",
    "Section",
    # end of describe/records.txt
    "Archive",
    "ArchiveMember",
    "ArchiveSymbol",
    "BigObjectHeader",
    "Binding",
    "BoundImport",
    "Buffer",
    "Certificate",
    "CheckSum",
    "ClrHeader",
    "DebugEntry",
    "EITHER_SECTION_ABSOLUTE",
    "EITHER_SECTION_DEBUG",
    "EITHER_SECTION_UNDEFINED",
    "Export",
    "Exports",
    "Finding",
    "FormatFault",
    "Forward",
    "Function",
    "Image",
    "Import",
    "ImportObject",
    "LoadConfiguration",
    "Moved",
    "Named",
    "Object",
    "ObjectHeader",
    "ObjectRelocation",
    "ObjectSection",
    "ObjectSymbol",
    "Overlay",
    "Pdb",
    "Place",
    "Resource",
    "ResourceName",
    "RichHeader",
    "RichPair",
    "Rva",
    "SECTION_ABSOLUTE",
    "SECTION_DEBUG",
    "SECTION_UNDEFINED",
    "SectionHeader",
    "Signature",
    "Signer",
    "Space",
    "Standing",
    "Target",
    "Tls",
    "Trust",
    "UnboundImport",
    "Version",
    "VersionString",
    "check",
    "import_object",
    "judge",
    "name_of",
    "open",
    "rebase",
    "unbound",
    "version",
    "write_archive",
]
