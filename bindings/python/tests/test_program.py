"""The program petool: what it prints, on which of its outputs, and its exit status, if files are missing, refused or unreadable,
and if an output is full or closed."""

import errno
import os
import pathlib
import pty
import shutil
import subprocess
import tempfile
import tty
import unittest
from dataclasses import dataclass, replace
from typing import Optional, Sequence, Tuple

from .files import library, looped, program, put

PROGRAM = os.environ.get("PETOOL_PROGRAM")


def image_of(size_of_optional_header, size_of_headers, *pieces):
    """The file of a PE32 image of 0x1000 bytes that has only headers."""
    file = bytearray(size_of_headers)
    put(file, (0x00, b"MZ"), (0x3C, b"\x40"), (0x40, b"PE\0\0\x4c\x01"), (0x54, bytes([size_of_optional_header, 0, 2, 0x21])))
    put(file, (0x58, b"\x0b\x01"), (0x77, b"\x10\0\x10"), (0x7D, b"\x02"), (0x91, b"\x10"))
    return bytes(put(file, (0x94, size_of_headers.to_bytes(4, "little")), *pieces))


#: An image with no directory and no section.
HEADERS = image_of(0x60, 0xB8)

#: An image without a section that has a CheckSum and a certificate.
SIGNED = image_of(0x88, 0xE0, (0x98, b"\x34\x12"), (0xB4, b"\x05"), (0xD8, b"\xe0\0\0\0\x08")) + b"\x08\0\0\0\0\x02\x02\0"

#: The header of a section `.text`.
TEXT_SECTION = [(0x46, b"\x01"), (0xB8, b".text"), (0xC0, b"\x10"), (0xDC, b"\x20\0\0\x60")]

#: An image whose only section begins inside the headers.
SECTION = image_of(0x60, 0xE0, *TEXT_SECTION, (0xC4, b"\x20"))

#: An image whose only section has bytes of the headers as its raw data.
SHARED = image_of(0x60, 0xE0, *TEXT_SECTION, (0xC5, b"\x01\0\0\x10"), (0xCC, b"\x10"))

#: An image whose import table passes its end.
IMPORTS = image_of(0x70, 0xC8, (0xB4, b"\x02"), (0xC0, b"\xf0\x0f\0\0\x14"))

#: The import table of an image, with the slot at 0x140 and the module `K.dll`.
IMPORTING = [(0xB4, b"\x02"), (0xC1, b"\x01\0\0\x28"), (0x100, b"\x30\x01"), (0x10C, b"\x48\x01\0\0\x40\x01"),
             (0x148, b"K.dll"), (0x152, b"Sleep")]  # fmt: skip

#: An image that imports `Sleep` of `K.dll`.
NAMED = image_of(0x70, 0x160, *IMPORTING, (0x130, b"\x50\x01"), (0x140, b"\x50\x01"))

#: An image that imports ordinal 7 of `K.dll`.
NUMBERED = image_of(0x70, 0x160, *IMPORTING, (0x130, b"\x07\0\0\x80"), (0x140, b"\x07\0\0\x80"))

#: A file whose reads all fail.
BROKEN = None

CHECK, DUMP, OBJECT = ["check", "a.dll"], ["dump", "a.dll"], ["object", "a.dll"]
MAP, REBASE = ["map", "10000000=a.dll"], ["rebase", "20000000", "a.dll", "new.dll"]


def told(number):
    """The system's message for an error."""
    return f"{os.strerror(number)} (os error {number})"


NO_SUCH_FILE = f"petool: b.dll: cannot be opened: {told(errno.ENOENT)}\n"
READING_FAILED = f"petool: a.dll: reading failed: {told(errno.EIO)}\n"
OUTPUT_IS_FULL = f"petool: standard output: writing failed: {told(errno.ENOSPC)}\n"

NO_BYTES = "petool: a.dll: end of the file at 0x0: the file has fewer than the 64 bytes of an MS-DOS header: it has 0\n"

NO_FILE_GIVEN = """\
error: the following required arguments were not provided:
  <FILE>...

Usage: petool check <FILE>...

For more information, try '--help'.
"""

NO_BASE = """\
error: invalid value 'a.dll' for '<HEX=FILE>...': no '=' after the base

Usage: petool map [OPTIONS] <HEX=FILE>...

For more information, try '--help'.
"""

#: Pages and a line of JSON of an empty file.
EMPTY_PAGES = """\
a.dll: refused: 0 bytes

Fault 2: end of the file at 0x0: the file has fewer than the 64 bytes of an MS-DOS header: it has 0

standard input: refused: 0 bytes

Fault 2: end of the file at 0x0: the file has fewer than the 64 bytes of an MS-DOS header: it has 0
"""

EMPTY_JSON = (
    '{"schema":1,"file":"a.dll","accepted":false,"fault":{"number":2,"image":0,"place":{"file":0},"subject":"end of the file",'
    '"rule":"the file has fewer than the 64 bytes of an MS-DOS header","values":{"file_size":0}}}\n'
)

AT_SIGNATURE = """\
RVA 0x40  address 0x10000040  file 0x40  headers+0x40  signature
  50 45 00 00 4c 01 00 00 00 00 00 00 00 00 00 00
"""

AT_REFUSED = """\
fault 15 image 0 file 0x000000b8
RVA 0x48  address 0x10000048  file 0x48  headers+0x48  TimeDateStamp of the COFF header
RVA 0xb9  address 0x100000b9  file 0xb9  headers+0xb9  Name of section header 0
"""

SECTION_IN_HEADERS = (
    "petool: a.dll: section header at 0xb8: the section begins before the end of the headers or of the previous section: it begins at "
    "RVA 0x20, and the headers end at 0xe0\n"
)

EXPLAINED = """\
fault 13: section header: the section's raw data extends past the end of the file
  The raw data begins at PointerToRawData. It has SizeOfRawData bytes, or as many as the section has in memory if these are fewer.
  Typical case: an image that was cut off after its headers, like a broken download.
"""

#: A fault whose words leave nothing out.
EXPLAINED_BY_WORDS = """\
fault 9: NumberOfSections: the image has more than 96 sections
  Typical case: a damaged header.
"""

#: What help says of the exit statuses.
STATUSES = """
Exit statuses:
  0  done
  1  a file was refused
  2  bad command line
  3  reading or writing failed
  4  out of memory
  5  a text was cut, by --most
"""


@dataclass(frozen=True)
class Case:
    """What the program does in a folder with the file `a.dll`, which is also `A.DLL` and standard input, and without `b.dll`."""

    words: Sequence[object] = ("check", "a.dll")
    file: Optional[bytes] = HEADERS
    #: Whether `new.dll` can be written, is full, or cannot be made.
    target: str = "cannot be made"
    #: Whether standard output is open, full (a full device), or lost (a pipe that its reader has closed).
    output: str = "open"
    status: int = 0
    printed: str = ""
    complained: str = ""
    #: Whether `new.dll` is made.
    is_made: bool = False


SILENT = Case()
REBASED = Case(words=REBASE, target="open", printed="rebased 0x0000000020000000\n", is_made=True)
FULL = Case(output="full", status=3, complained=OUTPUT_IS_FULL)

DUMP_REFUSED = replace(
    SILENT, words=DUMP, file=b"", status=1, printed="fault 2 image 0 file 0x00000000\n", complained=NO_BYTES
)

#: Commands that read one file.
ENDS = [
    replace(SILENT, printed="accepted PE32 sections 0\n"),
    DUMP_REFUSED,
    replace(
        SILENT,
        words=OBJECT,
        file=b"\x64\x86\0\0\x78\x56\x34\x12\0\0\0\0\0\0\0\0\0\0\x04\0",
        printed="Machine 0x8664 AMD64\nTimeDateStamp 0x12345678\nCharacteristics 0x0004\nend\n",
    ),
    replace(
        SILENT,
        words=OBJECT,
        status=1,
        printed="fault 62 image 0 file 0x00000000\n",
        complained="petool: a.dll: COFF file header at 0x0: the file begins like an image, an archive or an import object; it is an image\n",
    ),
    replace(SILENT, words=["check"], status=2, complained=NO_FILE_GIVEN),
    replace(SILENT, words=["check", b"\xff"], status=3, complained='petool: "\\xff": cannot be opened, since its name is not UTF-8\n'),
    replace(SILENT, words=["dump", "b.dll"], status=3, complained=NO_SUCH_FILE),
    replace(SILENT, words=DUMP, file=BROKEN, status=3, complained=READING_FAILED),
    FULL,
    replace(FULL, words=["--help"]),
]

#: An object without sections and symbols, and its text.
PLAIN_OBJECT = b"\x64\x86\0\0\x78\x56\x34\x12\0\0\0\0\0\0\0\0\0\0\x04\0"
OBJECT_TEXT = "Machine 0x8664 AMD64\nTimeDateStamp 0x12345678\nCharacteristics 0x0004\nend\n"


def of_most(value, reason="not a number of bytes, such as 65536 or 64K"):
    """The error for a value that `--most` of `dump` cannot have."""
    return (
        f"error: invalid value '{value}' for '--most <BYTES>': {reason}\n\n"
        "Usage: petool dump [OPTIONS] <FILE>\n\nFor more information, try '--help'.\n"
    )


#: Texts that --most limits.
MOST = [
    replace(SILENT, words=["object", "--most", most, "a.dll"], file=PLAIN_OBJECT, status=5, printed=f"{part}\n(cut after {count} bytes)\n")
    for most, count, part in (
        ("0", 0, ""),
        ("1", 1, "M"),
        ("10", 10, "Machine 0x"),
        ("72", 72, OBJECT_TEXT[:72]),
    )
] + [
    # a text that is not longer is complete
    *(
        replace(SILENT, words=["object", "--most", most, "a.dll"], file=PLAIN_OBJECT, printed=OBJECT_TEXT)
        for most in ("73", "1K", "1M", "1G", "17179869183G", "18446744073709551615")
    ),
    *(
        replace(SILENT, words=["dump", "--most", most, "a.dll"], status=2, complained=of_most(most))
        for most in ("", "K", "1k", "0x10", "+1", "1KK", "17179869184G", "18446744073709551616")
    ),
    # the limit is that of each file, whether it is refused or not
    replace(
        SILENT,
        words=["json", "--most", "10", "a.dll", "A.DLL"],
        file=b"",
        status=5,
        printed=2 * '{"schema":\n(cut after 10 bytes)\n',
    ),
    # the blank line between pages belongs to the second
    replace(
        SILENT,
        words=["show", "--most", "5", "b.dll", "a.dll", "-"],
        file=b"",
        status=5,
        printed="a.dll\n(cut after 5 bytes)\n\nstan\n(cut after 5 bytes)\n",
        complained=NO_SUCH_FILE,
    ),
    # a fault is reported if its line is complete, and an output that fails in any case
    replace(DUMP_REFUSED, words=["dump", "--most", "100", "a.dll"]),
    replace(FULL, words=["dump", "--most", "10", "a.dll"]),
    replace(SILENT, words=["dump", "--most", "10", "a.dll"], output="lost", status=3),
]

#: Commands that show files, of which several may be named.
VIEW_ENDS = [
    # a file that cannot be opened does not stop the others
    replace(
        SILENT,
        words=["check", "a.dll", "b.dll", "A.DLL"],
        status=3,
        printed="a.dll: accepted PE32 sections 0\nA.DLL: accepted PE32 sections 0\n",
        complained=NO_SUCH_FILE,
    ),
    replace(
        SILENT,
        words=["check", "a.dll", "-"],
        file=b"",
        status=1,
        printed="a.dll: fault 2 image 0 file 0x00000000\nstandard input: fault 2 image 0 file 0x00000000\n",
        complained=NO_BYTES + NO_BYTES.replace("a.dll", "standard input"),
    ),
    # an output that fails does
    replace(FULL, words=["check", "a.dll", "A.DLL"]),
    # the first page that is printed begins without a blank line
    replace(SILENT, words=["show", "b.dll", "a.dll", "-"], file=b"", status=3, printed=EMPTY_PAGES, complained=NO_SUCH_FILE),
    replace(SILENT, words=["json", "a.dll"], file=b"", status=1, printed=EMPTY_JSON),
    replace(SILENT, words=["json", "a.dll"], file=BROKEN, status=3, complained=READING_FAILED),
    # an output that fails ends the command; if its reader has closed it, only the status shows that
    replace(FULL, words=["show", "a.dll", "b.dll"]),
    replace(SILENT, words=["json", "a.dll", "b.dll"], output="lost", status=3),
    replace(FULL, words=["at", "a.dll", "40"]),
    replace(SILENT, words=["show", "a.dll"], file=BROKEN, status=3, complained=READING_FAILED),
    replace(SILENT, words=["resource", "a.dll"], file=BROKEN, status=3, complained=READING_FAILED),
    replace(SILENT, words=["resource", "a.dll", "1"], file=BROKEN, status=3, complained=READING_FAILED),
    replace(SILENT, words=["resource", "b.dll", "1"], status=3, complained=NO_SUCH_FILE),
    replace(SILENT, words=["at", "a.dll", "40"], printed=AT_SIGNATURE),
    replace(SILENT, words=["at", "--address", "a.dll", "0x10000040"], printed=AT_SIGNATURE),
    replace(SILENT, words=["at", "--file", "a.dll", "40"], printed=AT_SIGNATURE),
    replace(SILENT, words=["at", "a.dll", "100000040"], printed="the place is outside the image\n"),
    # each of several addresses has an answer, and all are checked before the file is opened
    replace(SILENT, words=["at", "a.dll", "100000040", "40"], printed="the place is outside the image\n" + AT_SIGNATURE),
    replace(
        SILENT,
        words=["at", "b.dll", "40", "g"],
        status=2,
        complained="error: invalid value 'g' for '<ADDRESS>': not an address of 1 to 16 hexadecimal digits\n\n"
        "Usage: petool at [OPTIONS] <FILE> <ADDRESS>...\n\nFor more information, try '--help'.\n",
    ),
    # of an image with a section that breaks a rule its headers answer
    replace(
        SILENT,
        words=["at", "a.dll", "48", "b9"],
        file=SECTION,
        status=1,
        printed=AT_REFUSED,
        complained=SECTION_IN_HEADERS,
    ),
    replace(
        SILENT, words=["at", "a.dll", "40"], file=b"", status=1, printed="fault 2 image 0 file 0x00000000\n", complained=NO_BYTES
    ),
    replace(SILENT, words=["explain", "13"], printed=EXPLAINED),
    replace(SILENT, words=["explain", "9"], printed=EXPLAINED_BY_WORDS),
    replace(SILENT, words=["explain", "23"], status=2, complained="petool: there is no fault 23\n"),
    replace(FULL, words=["explain"]),
]

#: Commands that read a set.
MAP_ENDS = [
    replace(
        SILENT,
        words=["map", "--window", "0x10000000", "--count", "2", "10000000=a.dll"],
        printed='image 0 "a.dll" base 0x0000000010000000 size 0x00001000\n0x0000000010000000 4d 5a\nend\n',
    ),
    replace(SILENT, words=MAP, file=b"", status=1, printed="fault 2 image 0 file 0x00000000\n", complained=NO_BYTES),
    # all words are checked before a file is opened
    replace(SILENT, words=["map", "10000000=b.dll", "a.dll"], status=2, complained=NO_BASE),
    # all files are read before one is checked
    replace(SILENT, words=["map", "10000000=a.dll", "20000000=b.dll"], file=b"", status=3, complained=NO_SUCH_FILE),
    replace(SILENT, words=MAP, file=BROKEN, status=3, complained=READING_FAILED),
    replace(FULL, words=MAP),
]

#: Commands that write a file.
REBASE_ENDS = [
    REBASED,
    replace(
        REBASED,
        file=SIGNED,
        complained="petool: new.dll: CheckSum is now 0\npetool: new.dll: the certificate is that of the old file and no longer fits\n",
    ),
    # for a refused file the target is not made
    replace(
        REBASED,
        words=["rebase", "20000001", "a.dll", "new.dll"],
        status=1,
        printed="fault 44 image 0 address 0x0000000020000001\n",
        complained="petool: a.dll: base 0x20000001: the base is not a multiple of 65,536\n",
        is_made=False,
    ),
    replace(
        REBASED, target="full", status=3, printed="", complained=f"petool: new.dll: writing failed: {told(errno.ENOSPC)}\n"
    ),
    replace(
        REBASED,
        target="cannot be made",
        status=3,
        printed="",
        complained=f"petool: new.dll: writing failed: {told(errno.ENOENT)}\n",
        is_made=False,
    ),
    replace(REBASED, file=BROKEN, status=3, printed="", complained=READING_FAILED, is_made=False),
    replace(
        REBASED, words=["rebase", "20000000", "b.dll", "new.dll"], status=3, printed="", complained=NO_SUCH_FILE, is_made=False
    ),
    replace(
        REBASED,
        words=["rebase", "20000000", "a.dll", "a.dll"],
        status=3,
        printed="",
        complained="petool: a.dll: is the input file\n",
        is_made=False,
    ),
    # the line is printed after the file is written
    replace(REBASED, output="full", status=3, printed="", complained=OUTPUT_IS_FULL),
]

#: `-` as a file, the version, and outputs that their readers have closed.
DASHES = [
    replace(SILENT, words=["--version"], file=BROKEN, printed="petool 2.0\n"),
    replace(SILENT, words=["check", "-"], printed="accepted PE32 sections 0\n"),
    replace(
        SILENT, words=["map", "10000000=-"], printed='image 0 "-" base 0x0000000010000000 size 0x00001000\nend\n'
    ),
    replace(
        SILENT, words=["map", "10000000:b.dll=-"], printed='image 0 "b.dll" base 0x0000000010000000 size 0x00001000\nend\n'
    ),
    replace(REBASED, words=["rebase", "20000000", "-", "new.dll"]),
    # a pipe that its reader has closed
    replace(SILENT, output="lost", status=3),
    replace(SILENT, words=["--help"], output="lost", status=3),
]

#: The words, the file `a.dll`, and what is printed on standard output and on standard error: a fault of the headers, of a section,
#: of a table, of an object, and of a file to be written for another base.
FILES = [
    (
        CHECK,
        b"MZ",
        "fault 2 image 0 file 0x00000002\n",
        "petool: a.dll: end of the file at 0x2: the file has fewer than the 64 bytes of an MS-DOS header: it has 2\n",
    ),
    (
        DUMP,
        SECTION,
        "fault 15 image 0 file 0x000000b8\n",
        SECTION_IN_HEADERS,
    ),
    (
        DUMP,
        IMPORTS,
        "fault 24 image 0 rva 0x00000ff0\n",
        "petool: a.dll: import directory entry at RVA 0xff0: the entry is not entirely inside the image: 20 bytes at RVA 0xff0, and the image ends at 0x1000\n",
    ),
    (
        OBJECT,
        b"\x4c\x01\x01".ljust(20, b"\0"),
        "fault 63 image 0 file 0x00000002\n",
        "petool: a.dll: NumberOfSections at 0x2: the section table extends past the end of the file: 40 bytes at 0x14, and the file has 20\n",
    ),
    (
        REBASE,
        SHARED,
        "fault 52 image 0 file 0x000000b8\n",
        "petool: a.dll: section header at 0xb8: the section's raw data begins in the headers, or overlaps that of an earlier section\n",
    ),
]

#: A fault of a set, of a base, and of a window; the message names the file of the fault.
SETS = [
    (
        ["map", "10000000=a.dll", "20000000=A.DLL"],
        HEADERS,
        "fault 42 image 1 item 1\n",
        "petool: A.DLL: file 1: its module has the same name as an earlier one\n",
    ),
    (
        ["map", "10008000=a.dll"],
        HEADERS,
        "fault 44 image 0 address 0x0000000010008000\n",
        "petool: a.dll: base 0x10008000: the base is not a multiple of 65,536\n",
    ),
    (
        ["map", "--window", "10000ff8", "10000000=a.dll"],
        HEADERS,
        "fault 54 image 0 address 0x0000000010000ff8\n",
        "petool: a.dll: window 0x10000ff8: the window is not inside one image\n",
    ),
    # the import is named
    (
        MAP,
        NAMED,
        "fault 48 image 0 rva 0x00000140\n",
        "petool: a.dll: import address table slot at RVA 0x140: the import leads to a module that is not in the set: K.dll Sleep; with --known such slots are left as they are\n",
    ),
    (
        MAP,
        NUMBERED,
        "fault 48 image 0 rva 0x00000140\n",
        "petool: a.dll: import address table slot at RVA 0x140: the import leads to a module that is not in the set: K.dll #7; with --known such slots are left as they are\n",
    ),
    # no image holds the window's first address
    (
        ["map", "--window", "0", "10000000=a.dll"],
        HEADERS,
        "fault 54 image 65535 address 0x0000000000000000\n",
        "petool: map: window 0x0: the window is not inside one image\n",
    ),
]

#: An import that leads to a module without the export, or into a cycle of forwarders: the file that imports, the name of the other
#: file, that file, and what is printed.
FAILED_IMPORTS = [
    (
        NAMED,
        "K.dll",
        HEADERS,
        "fault 49 image 0 rva 0x00000140\n",
        "0x140: the import leads to a module that does not export it: K.dll Sleep",
    ),
    (
        NUMBERED,
        "k.DLL",
        HEADERS,
        "fault 49 image 0 rva 0x00000140\n",
        "0x140: the import leads to a module that does not export it: K.dll #7",
    ),
    (
        program(1),
        "f.dll",
        looped(0, 3),
        "fault 50 image 0 rva 0x00001030 cycle 3\n",
        "0x1030: the import leads into a cycle of forwarders: F.DLL #1",
    ),
]

#: A library that exports something by ordinal 0; its ordinal 1 is a forwarder to itself.
FORWARDING = library([b"", b"f.#1"])

#: A failing import of the second file, `b.dll`: that file, and what is printed. The first file has an import at the same RVA,
#: `F.DLL #0`, which leads to the third file, FORWARDING.
LATER_IMPORTS = [
    (
        bytes(put(bytearray(program(1)), (0x240, b"G"))),
        "fault 48 image 1 rva 0x00001030\n",
        "the import leads to a module that is not in the set: G.DLL #1; with --known such slots are left as they are",
    ),
    (
        program(2),
        "fault 49 image 1 rva 0x00001030\n",
        "the import leads to a module that does not export it: F.DLL #2",
    ),
    (
        program(1),
        "fault 50 image 1 rva 0x00001030 cycle 1\n",
        "the import leads into a cycle of forwarders: F.DLL #1",
    ),
]

#: Files that are not what a command reads.
KINDS = [
    (
        DUMP,
        b"\x7fELF\x02\x01\x01\0\0\0\0\0\0\0\0\0\x03\0\x3e\0",
        "fault 2 image 0 file 0x00000014\n",
        "petool: a.dll: end of the file at 0x14: the file has fewer than the 64 bytes of an MS-DOS header: it has 20; it is an ELF file\n",
    ),
    (
        CHECK,
        b"0123456789012345678901234567890123456789012345678901234567890123",
        "fault 3 image 0 file 0x00000000\n",
        "petool: a.dll: MS-DOS header at 0x0: the file does not begin with MZ; it is a text\n",
    ),
    (
        MAP,
        b"!<arch>\n/               0           0     0     0       4         `\n",
        "fault 3 image 0 file 0x00000000\n",
        "petool: a.dll: MS-DOS header at 0x0: the file does not begin with MZ; it is an archive\n",
    ),
    (
        ["dump", "-"],
        b"\x64\x86".ljust(20, b"\0"),
        "fault 2 image 0 file 0x00000014\n",
        "petool: standard input: end of the file at 0x14: the file has fewer than the 64 bytes of an MS-DOS header: it has 20; it is a COFF object\n",
    ),
    (
        OBJECT,
        HEADERS,
        "fault 62 image 0 file 0x00000000\n",
        "petool: a.dll: COFF file header at 0x0: the file begins like an image, an archive or an import object; it is an image\n",
    ),
]

#: The bytes from 1 to 127, as a path; the slash among them ends the name of a folder.
EACH_BYTE = bytes(range(1, 128))

#: The line of an empty file of that name, with those characters of the name escaped that must be, and delete.
NAMED_LINE = (
    r'{"schema":1,"file":"\u0001\u0002\u0003\u0004\u0005\u0006\u0007\b\t\n\u000b\f\r\u000e\u000f\u0010\u0011\u0012\u0013\u0014\u0015'
    r"\u0016\u0017\u0018\u0019\u001a\u001b\u001c\u001d\u001e\u001f !\"#$%&'()*+,-./0123456789:;<=>?@ABCDEFGHIJKLMNOPQRSTUVWXYZ[\\]^_"
    "`abcdefghijklmnopqrstuvwxyz{|}~"
    r'\u007f","accepted":false,"fault":{"number":2,"image":0,"place":{"file":0},"subject":"end of the file",'
    r'"rule":"the file has fewer than the 64 bytes of an MS-DOS header","values":{"file_size":0}}}'
    "\n"
)


@unittest.skipUnless(PROGRAM, "left out without program: PETOOL_PROGRAM names none")
class Ends(unittest.TestCase):
    maxDiff = None

    def setUp(self):
        folder = tempfile.TemporaryDirectory()
        self.addCleanup(folder.cleanup)
        self.folder = pathlib.Path(folder.name)
        self.target = self.folder / "new.dll"

    def lay_out(self, case):
        """Makes the files of a case; a target that cannot be made is a link into a missing folder."""
        for old in (self.folder / "a.dll", self.folder / "A.DLL", self.target):
            old.unlink(missing_ok=True)
        for name in ("a.dll", "A.DLL"):
            if case.file is BROKEN:
                # the process has no memory at address 0
                (self.folder / name).symlink_to("/proc/self/mem")
            else:
                (self.folder / name).write_bytes(case.file)
        if case.target != "open":
            self.target.symlink_to("/dev/full" if case.target == "full" else "missing/new.dll")

    def run_case(self, case) -> Tuple[int, bytes, bytes]:
        """Runs the program; returns its status and its outputs."""
        reader, writer = os.pipe() if case.output != "full" else (None, os.open("/dev/full", os.O_WRONLY))
        if case.output == "lost":
            os.close(reader)
        try:
            done = subprocess.run(
                [PROGRAM, *case.words], cwd=self.folder, input=case.file or b"", stdout=writer, stderr=subprocess.PIPE
            )
        finally:
            os.close(writer)
        printed = b""
        if case.output == "open":
            with open(reader, "rb") as pipe:
                printed = pipe.read()
        return done.returncode, printed, done.stderr

    def assert_end(self, case):
        self.lay_out(case)
        status, printed, complained = self.run_case(case)
        self.assertEqual((printed.decode(), complained.decode(), status), (case.printed, case.complained, case.status))
        self.assertEqual(self.target.exists(), case.is_made)

    def assert_ends(self, cases):
        for case in cases:
            with self.subTest(words=case.words, file=case.file, target=case.target, output=case.output):
                self.assert_end(case)

    def test_each_end_has_its_status_and_its_text(self):
        self.assert_ends(ENDS)

    def test_each_end_of_views_has_its_status_and_its_text(self):
        self.assert_ends(VIEW_ENDS)

    def test_a_text_is_cut_where_no_more_is_asked_for(self):
        self.assert_ends(MOST)

    def test_no_character_is_cut(self):
        name = "\u00e4\u20ac\U0001f600.dll"
        (self.folder / name).write_bytes(b"")
        for most in range(10):
            with self.subTest(most=most):
                whole = name.encode()[:most].decode(errors="ignore")
                done = subprocess.run([PROGRAM, "show", "--most", str(most), name], cwd=self.folder, stdout=subprocess.PIPE)
                self.assertEqual((done.stdout.decode(), done.returncode), (f"{whole}\n(cut after {most} bytes)\n", 5))

    def test_each_end_of_map_has_its_status_and_its_text(self):
        self.assert_ends(MAP_ENDS)

    def test_each_end_of_rebase_has_its_status_and_its_text(self):
        self.assert_ends(REBASE_ENDS)

    def test_dashes_version_and_pipes(self):
        self.assert_ends(DASHES)

    def test_help_goes_to_standard_output(self):
        self.lay_out(replace(SILENT, file=BROKEN))
        status, printed, complained = self.run_case(replace(SILENT, words=["--help"], file=BROKEN))
        self.assertEqual((status, complained), (0, b""))
        for part in ("\nUsage: petool <COMMAND>\n", STATUSES, "petool explain N explains fault N."):
            self.assertIn(part, printed.decode())

    def assert_refused(self, cases):
        """Asserts both complete outputs for a refusal."""
        for words, file, printed, complained in cases:
            case = replace(SILENT, words=words, file=file, status=1, printed=printed, complained=complained)
            with self.subTest(words=words, printed=printed):
                self.assert_end(case)

    def test_faults_of_files_are_told_in_words(self):
        self.assert_refused(FILES)

    def test_faults_of_sets_are_told_in_words(self):
        self.assert_refused(SETS)

    def test_an_import_that_another_file_fails_is_named(self):
        for importer, name, exporter, line, words in FAILED_IMPORTS:
            with self.subTest(line=line, words=words):
                for file, data in (("a.dll", importer), (name, exporter)):
                    (self.folder / file).write_bytes(data)
                done = subprocess.run(
                    [PROGRAM, *MAP, f"20000000={name}"], cwd=self.folder, stdout=subprocess.PIPE, stderr=subprocess.PIPE
                )
                told = f"petool: a.dll: import address table slot at RVA {words}\n"
                self.assertEqual((done.stdout.decode(), done.stderr.decode(), done.returncode), (line, told, 1))

    def test_an_import_of_a_later_file_is_named(self):
        words = ["map", "10000000=a.dll", "20000000=b.dll", "30000000=f.dll"]
        for importer, line, rule in LATER_IMPORTS:
            with self.subTest(line=line):
                for file, data in (("a.dll", program(0)), ("b.dll", importer), ("f.dll", FORWARDING)):
                    (self.folder / file).write_bytes(data)
                done = subprocess.run([PROGRAM, *words], cwd=self.folder, stdout=subprocess.PIPE, stderr=subprocess.PIPE)
                told = f"petool: b.dll: import address table slot at RVA 0x1030: {rule}\n"
                self.assertEqual((done.stdout.decode(), done.stderr.decode(), done.returncode), (line, told, 1))

    def test_files_of_other_kinds_are_told_for_what_they_are(self):
        self.assert_refused(KINDS)

    def test_a_line_of_json_has_the_name_of_a_file_with_escapes(self):
        path = bytes(self.folder) + b"/" + EACH_BYTE
        os.mkdir(os.path.dirname(path))
        with open(path, "wb"):
            pass
        done = subprocess.run([PROGRAM, "json", EACH_BYTE], cwd=self.folder, stdout=subprocess.PIPE)
        self.assertEqual((done.stdout.decode(), done.returncode), (NAMED_LINE, 1))


#: The complete page of an empty file with colours: bold and red.
RED_PAGE = (
    "\x1b[1;31ma.dll: refused: 0 bytes\x1b[0m\n\n"
    "\x1b[1;31mFault 2: end of the file at 0x0: the file has fewer than the 64 bytes of an MS-DOS header: it has 0\x1b[0m\n"
)

#: The rows of a page of HEADERS that are bold if it has colours: what the file is, and the heading of each table.
BOLD_ROWS = [
    "a.dll: accepted: PE32 library for I386, 184 bytes", "Sections (0)", "Tables (0)", "Exports (0)", "Imports (0)", "Base relocations (0)",
    "Trust",
]  # fmt: skip


@unittest.skipUnless(PROGRAM, "left out without program: PETOOL_PROGRAM names none")
class Colours(unittest.TestCase):
    """Pages have colours on a terminal, if that is not dumb and NO_COLOR is not set or empty."""

    def setUp(self):
        folder = tempfile.TemporaryDirectory()
        self.addCleanup(folder.cleanup)
        self.folder = pathlib.Path(folder.name)

    def on_terminal(self, file, no_color, *words, term="xterm"):
        """The page of a file on a raw terminal, and the status."""
        (self.folder / "a.dll").write_bytes(file)
        environment = {name: value for name, value in os.environ.items() if name != "NO_COLOR"}
        environment.pop("TERM", None)
        environment.update({"TERM": term} if term is not None else {})
        if no_color is not None:
            environment["NO_COLOR"] = no_color
        reader, writer = pty.openpty()
        tty.setraw(writer)
        command = [PROGRAM, "show", "--all", *words, "a.dll"]
        with subprocess.Popen(command, cwd=self.folder, env=environment, stdout=writer) as process:
            os.close(writer)
            with open(reader, "rb", buffering=0) as terminal:
                printed = b"".join(iter(lambda: self.part(terminal), b""))
        return printed.decode(), process.returncode

    @staticmethod
    def part(terminal):
        """The next bytes of a terminal; none once all writers have closed it, which Linux reports as an error."""
        try:
            return terminal.read(4096)
        except OSError as error:
            if error.errno != errno.EIO:
                raise
            return b""

    def plain(self, file):
        """The page of a file if standard output is not a terminal."""
        (self.folder / "a.dll").write_bytes(file)
        return subprocess.run([PROGRAM, "show", "--all", "a.dll"], cwd=self.folder, stdout=subprocess.PIPE).stdout.decode()

    def test_a_page_on_a_terminal_has_colours(self):
        plain = self.plain(HEADERS)
        self.assertNotIn("\x1b", plain)
        rows = [f"\x1b[1m{row}\x1b[0m" if row in BOLD_ROWS else row for row in plain.split("\n")]
        self.assertEqual(sum("\x1b" in row for row in rows), len(BOLD_ROWS))
        for no_color in (None, ""):
            with self.subTest(no_color=no_color):
                self.assertEqual(self.on_terminal(HEADERS, no_color), ("\n".join(rows), 0))
                self.assertEqual(self.on_terminal(b"", no_color), (RED_PAGE, 1))

    def test_a_dumb_terminal_has_none(self):
        plain = self.plain(HEADERS)
        self.assertEqual(self.on_terminal(HEADERS, None, term="dumb"), (plain, 0))
        for term in (None, "", "dum", "dumber", "xdumb"):
            with self.subTest(term=term):
                self.assertIn("\x1b", self.on_terminal(HEADERS, None, term=term)[0])

    def test_a_page_that_is_cut_ends_its_colours(self):
        self.assertEqual(self.on_terminal(b"", None, "--most", "9"), ("\x1b[1;31ma.\x1b[0m\n(cut after 9 bytes)\n", 5))
        self.assertEqual(self.on_terminal(b"", "1", "--most", "3"), ("a.d\n(cut after 3 bytes)\n", 5))

    def test_the_option_decides(self):
        plain, coloured = (self.plain(HEADERS), 0), self.on_terminal(HEADERS, None)
        self.assertNotEqual(plain, coloured)
        self.assertEqual(self.on_terminal(HEADERS, None, "--color", "never"), plain)
        self.assertEqual(self.on_terminal(HEADERS, None, "--color=auto"), coloured)
        self.assertEqual(self.on_terminal(HEADERS, "1", "--color=auto"), plain)
        for no_color, term in (("1", "xterm"), (None, "dumb"), ("1", "dumb")):
            with self.subTest(no_color=no_color, term=term):
                self.assertEqual(self.on_terminal(HEADERS, no_color, "--color=always", term=term), coloured)

    def test_no_color_turns_them_off(self):
        for no_color in ("1", "0", "no colours"):
            with self.subTest(no_color=no_color):
                self.assertEqual(self.on_terminal(HEADERS, no_color), (self.plain(HEADERS), 0))
                self.assertEqual(self.on_terminal(b"", no_color)[0], EMPTY_PAGES.partition("\n\nstandard")[0] + "\n")


#: A command, what it prints if no allocation fails, and the subjects of its errors if each fails in turn: none for the words, the
#: file, for `map` the set and its output, and for `rebase` the new file. Without some allocations the command succeeds all the same.
WANTS = [
    (CHECK, "accepted PE32 sections 0\n", ["", "a.dll: "]),
    (["show", "a.dll"], None, ["", "a.dll: "]),
    (["json", "a.dll"], None, ["", "a.dll: "]),
    (DUMP, None, ["", "a.dll: "]),
    (MAP, 'image 0 "a.dll" base 0x0000000010000000 size 0x00001000\nend\n', ["", "a.dll: ", "map: "]),
    (REBASE, "rebased 0x0000000020000000\n", ["", "a.dll: ", "new.dll: "]),
]


@unittest.skipUnless(PROGRAM, "left out without program: PETOOL_PROGRAM names none")
@unittest.skipUnless(shutil.which("cc"), "left out without cc")
class Memory(unittest.TestCase):
    """Out of memory: each allocation of the program fails in turn."""

    def setUp(self):
        folder = tempfile.TemporaryDirectory()
        self.addCleanup(folder.cleanup)
        self.folder = pathlib.Path(folder.name)
        self.refuse = str(self.folder / "refuse.so")
        source = pathlib.Path(__file__).with_name("refuse.c")
        subprocess.run(["cc", "-shared", "-fPIC", "-o", self.refuse, str(source), "-ldl"], check=True)
        (self.folder / "a.dll").write_bytes(HEADERS)

    def run_without(self, words, number):
        """Runs the program with the allocation of this number failing; returns its status and its outputs."""
        environment = {**os.environ, "LD_PRELOAD": self.refuse, "REFUSED": str(number)}
        done = subprocess.run([PROGRAM, *words], cwd=self.folder, env=environment, capture_output=True, text=True)
        return done.returncode, done.stdout, done.stderr

    def told(self, words, printed):
        """The errors if each allocation fails in turn, in order, without repeats."""
        told, in_vain = [], 0
        whole = self.run_without(words, -1)
        self.assertEqual((whole[0], whole[2]), (0, ""))
        self.assertEqual(whole[1], whole[1] if printed is None else printed)
        for number in range(1000):
            status, output, complained = self.run_without(words, number)
            if status == 0:
                self.assertEqual((output, complained), (whole[1], ""))
                in_vain += 1
                # the command does without only a few consecutive allocations, so 20 in a row mean that no more are made
                if in_vain == 20:
                    return told
                continue
            in_vain = 0
            self.assertEqual(status, 4)
            # part of a line of JSON may have been printed
            self.assertTrue(output == "" or words[0] == "json" and whole[1].startswith(output), output)
            if told[-1:] != [complained]:
                told.append(complained)
        self.fail("there was never memory enough")

    def test_want_of_memory_is_told(self):
        for words, printed, subjects in WANTS:
            with self.subTest(words=words):
                expected = [f"petool: {subject}out of memory\n" for subject in subjects]
                self.assertEqual(self.told(words, printed), expected)


if __name__ == "__main__":
    unittest.main()
