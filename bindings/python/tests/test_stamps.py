"""Which time stamps a page shows as dates, and that names which it cuts have a mark."""

import os
import pathlib
import struct
import tempfile
import unittest

from . import crafted, data
from .cases import run
from .files import changed, importing, numbers, put
from .test_section_names import with_strings

PROGRAM = os.environ.get("PETOOL_PROGRAM")

#: Time stamps, and what a page says of them; the dates are those of `date -u`.
STAMPS = [
    (0, "not set (0x00000000)"),
    (1, "0x00000001 (no date: before 1990)"),
    (631151999, "0x259e9d7f (no date: before 1990)"),
    (631152000, "1990-01-01 00:00:00 UTC (0x259e9d80)"),
    (0x634A7D06, "2022-10-15 09:27:34 UTC (0x634a7d06)"),
    (0x7FFFFFFF, "2038-01-19 03:14:07 UTC (0x7fffffff)"),
    (0x80000000, "0x80000000 (no date: past 2038-01-19)"),
    (0xD2B5D9A3, "0xd2b5d9a3 (no date: past 2038-01-19)"),
    (0xFFFFFFFE, "0xfffffffe (no date: past 2038-01-19)"),
    (0xFFFFFFFF, "not set (0xffffffff)"),
]

#: The place of TimeDateStamp in the small files, and of the directory of debug data.
STAMP, DEBUG = 0x48, 0xE8


def debug_entries(*types):
    """Entries of a debug directory of these types."""
    return b"".join(struct.pack("<IIHHIIII", 0, 0x634A7D06, 0, 0, kind, 0, 0, 0) for kind in types)


def with_debug(stamp, entries, size=None, rva=0x1000):
    """V1 with this time stamp and these entries of a debug directory, which is at an RVA and has a size."""
    size = len(entries) if size is None else size
    file = bytearray(changed("v1.dll", size=0x200))
    put(file, (STAMP, numbers(stamp)), (DEBUG, numbers(rva, size)), (0x140, numbers(0x100)), (0x148, numbers(0x100)))
    return bytes(file) + entries.ljust(0x100, b"\0")


REPRODUCIBLE = "0x634a7d06 (no date: reproducible build)"
DATE = "2022-10-15 09:27:34 UTC (0x634a7d06)"

#: Debug directories, and what a page says of the time stamp: one of type 16 is that of a reproducible build.
DIRECTORIES = [
    (with_debug(0x634A7D06, debug_entries(16)), REPRODUCIBLE),
    (with_debug(0x634A7D06, debug_entries(2, 13, 16)), REPRODUCIBLE),
    (with_debug(0x634A7D06, debug_entries(16, 2)), REPRODUCIBLE),
    (with_debug(0x634A7D06, debug_entries(2, 13, 15, 17, 20, 0x110, 0x100000)), DATE),
    (with_debug(0x634A7D06, debug_entries(16), 27), DATE),
    (with_debug(0x634A7D06, debug_entries(2, 16), 55), DATE),
    (with_debug(0x634A7D06, debug_entries(2, 16), 56), REPRODUCIBLE),
    (with_debug(0x634A7D06, debug_entries(16), 0), DATE),
    # the file has no bytes there
    (with_debug(0x634A7D06, debug_entries(16), 1 << 31, 0x1100), DATE),
    (with_debug(0x634A7D06, debug_entries(16), 28, 0x10000000), DATE),
    (with_debug(0x634A7D06, debug_entries(2, 16), 0xFFFFFFFF), REPRODUCIBLE),
    (with_debug(0xD2B5D9A3, debug_entries(16)), "0xd2b5d9a3 (no date: reproducible build)"),
    (with_debug(0, debug_entries(16)), "not set (0x00000000)"),
    # its base relocations have fault 35
    (
        bytes(put(bytearray(with_debug(0xD2B5D9A3, debug_entries(16))), (0xE0, numbers(0x1020, 12)), (0x220, numbers(0, 12) + b"\0\xf0"))),
        "0xd2b5d9a3 (no date: reproducible build)",
    ),
]


@unittest.skipUnless(PROGRAM, "left out without program: PETOOL_PROGRAM names none")
class Shown(unittest.TestCase):
    maxDiff = None

    def setUp(self):
        folder = tempfile.TemporaryDirectory()
        self.addCleanup(folder.cleanup)
        self.folder = pathlib.Path(folder.name)

    def page(self, file, *options):
        """The rows of the page of a file."""
        (self.folder / "a").write_bytes(file)
        done = run([PROGRAM, "show", *options, "a"], cwd=self.folder)
        self.assertEqual(done.stderr, b"")
        return done.stdout.decode().split("\n")[:-1]

    def test_names_that_are_cut_have_a_mark(self):
        for name, shown in [
            (b"x" * 40, "x" * 40),
            (b"x" * 41, "x" * 40 + ".."),
            (b"x" * 400, "x" * 40 + ".."),
            (b"\1" + b"x" * 39, '"\\x01' + "x" * 39 + '"'),
            (b"\1" + b"x" * 40, '"\\x01' + "x" * 39 + '"..'),
            ("\u00e9".encode() * 21, "\u00e9" * 20 + ".."),
            (b"x" * 39 + "\u00e9".encode(), '"' + "x" * 39 + '\\xc3"..'),
        ]:
            with self.subTest(name):
                file = bytearray(with_strings(b"/4", name + b"\0"))
                put(file, (0x68, numbers(0x1002)))
                page = self.page(bytes(file))
                self.assertIn(f"  Entry        0x1002  {shown}+0x2  file 0x202", page)
                self.assertIn(f"   0  {shown}  rw- data    0x001000   0x000010   0x000200   0x000010", page)
                heading = "   #  name" + " " * (len(shown) - 4) + "  flags       RVA        bytes      file       in file"
                self.assertIn(heading, page)

    def test_names_of_modules_that_are_cut_have_a_mark(self):
        for length, shown in [(255, "m" * 255), (256, "m" * 255 + "..")]:
            with self.subTest(length):
                file = importing((b"m" * length, [1]))
                self.assertIn(f"  {shown} (1)", self.page(file, "--imports"))

    def test_long_names_that_are_cut_have_a_mark(self):
        for length, shown in [(4096, "a" * 4096), (4097, "a" * 4096 + "..")]:
            with self.subTest(length):
                page = self.page(crafted.exports([0], b"a" * length + b"\0", [16]), "--exports")
                self.assertEqual([row.split(" ")[-1] for row in page if row.endswith("aa..") or row.endswith("aaaa")], [shown])

    def test_time_stamps_are_dates_where_they_may_be(self):
        for stamp, told in STAMPS:
            with self.subTest(hex(stamp)):
                row = f"  Time stamp   {told}"
                self.assertIn(row, self.page(changed("v1.dll", (STAMP, numbers(stamp)), size=None)))
                # a file that ends in its section has its headers alone
                self.assertIn(row, self.page(changed("v1.dll", (STAMP, numbers(stamp)), size=0x208)))
                self.assertIn(row, self.page(bytes(put(bytearray(data("o1.obj")), (4, numbers(stamp))))))

    def test_time_stamps_of_reproducible_builds_are_no_dates(self):
        for number, (file, told) in enumerate(DIRECTORIES):
            with self.subTest(number):
                self.assertIn(f"  Time stamp   {told}", self.page(file))


if __name__ == "__main__":
    unittest.main()
