"""The laid-out image: its bytes, its strings, and their file offsets."""

import os
import pathlib
import tempfile
import unittest

import petool

from . import data
from .cases import run
from .files import changed, put

PROGRAM = os.environ.get("PETOOL_PROGRAM")
SMALL_FILES = ["v1.dll", "v2.dll", "v3.dll", "va.dll", "vb.dll", "vc.dll", "vd.dll", "vs.dll", "vr.dll"]

#: The largest SizeOfImage, 2^31.
LARGEST = [(0x90, b"\x00\x00\x00\x80")]

#: V1 changed, an RVA, the byte there or None, and what `at` shows there: the section, and the file offset or None.
BYTES = [
    ([], 0x100F, 0x0F, (".data", 0x20F)),
    # a byte past VirtualSize is zero, although the file has 0x10 there
    ([(0x210, b"\x10")], 0x1010, 0, ("no section", None)),
    # if VirtualSize is 0, the section has SizeOfRawData bytes
    ([(0x140, b"\x00")], 0x11FF, 0xFF, (".data", 0x3FF)),
    ([(0x140, b"\x00")], 0x1200, 0, ("no section", None)),
    # the largest image ends at 2^31
    (LARGEST, 0x7FFFFFFF, 0, ("no section", None)),
    (LARGEST, 0x80000000, None, ("outside", None)),
]

#: V2 whose `.data` has 0x300 bytes in the image, of which the file holds 0x200: an RVA, what is there, and the file offset.
PLACES = [
    (0, "headers", 0),
    (0x1FF, "headers", 0x1FF),
    (0x200, "no section", None),
    (0xFFF, "no section", None),
    (0x1000, ".data", 0x200),
    (0x11FF, ".data", 0x3FF),
    (0x1200, ".data", None),
    (0x12FF, ".data", None),
    (0x1300, "no section", None),
    (0x2000, ".reloc", 0x400),
    (0x200B, ".reloc", 0x40B),
    (0x200C, "no section", None),
    (0x2FFF, "no section", None),
    (0x3000, "outside", None),
    (0xFFFFFFFF, "outside", None),
]

#: Changes of V2: `.reloc` begins at the end of `.data`, and the headers' last byte is not zero.
TOUCHING = [(0x1FF, b"\x7f"), (0x16C, b"\x10\x10")]

#: Strings of V1 with letters at the end of the headers, and at the beginning and the end of `.data`.
TEXTS = [
    (0, b"MZ"),
    (0x138, b".data"),
    (0x13A, b"ata"),
    (0x13D, b""),
    # no zero byte before the headers' end, though a gap follows
    (0x1FE, None),
    (0x1FF, None),
    # in a gap, whatever follows
    (0x200, b""),
    (0xFFF, b""),
    (0x1000, b"name"),
    (0x1003, b"e"),
    (0x1004, b""),
    # none before the section's end, though the file has one at 0x300
    (0x100E, None),
    (0x100F, None),
    (0x1010, b""),
    (0x2FFF, b""),
    (0x3000, None),
    (0xFFFFFFFF, None),
]

#: Strings of V1 whose `.data` has 0x300 bytes, of which the file holds 0x200.
ZERO_FILLED = [
    (0x10FE, b"\xfe\xff"),
    (0x11FC, b"\xfc\xfd\xfe\xff"),
    (0x11FF, b"\xff"),
    (0x1200, b""),
    (0x12FF, b""),
    (0x1300, b""),
]

#: A file changed, and its strings.
NAMED = [
    ("v1.dll", [(0x1FE, b"ab"), (0x200, b"name\0"), (0x20E, b"xy")], TEXTS),
    ("v1.dll", [(0x140, b"\x00\x03")], ZERO_FILLED),
    # a zero byte of the next section ends no string, even without a gap between
    ("v2.dll", TOUCHING, [(0x100E, None), (0x1010, b"")]),
    # a section without raw data is all zeros
    ("v1.dll", [(0x14C, b"\x00\x00")], [(0x1001, b"")]),
]

#: A small image: headers up to 0x16e, then two adjacent sections, an empty one, one without raw data, one whose raw data begins
#: with the headers' last two bytes, and an empty one at the image's end, 0x19a; there are gaps before, between and after them.
SMALL = [
    (0x00, b"\x4d\x5a"),
    (0x04, b"\x50\x45\x00\x00\x4c\x01\x06"),
    (0x18, b"\x60\x00\x02\x21\x0b\x01"),
    (0x3C, b"\x04"),
    (0x54, b"\x9a\x01\x00\x00\x6e\x01"),
    # the sections: VirtualSize, VirtualAddress, SizeOfRawData, PointerToRawData
    (0x084, bytes.fromhex("08000000 72010000 08000000 04000000")),
    (0x0AC, bytes.fromhex("0c000000 7a010000 05000000 70010000")),
    (0x0D4, bytes.fromhex("00000000 88010000 00000000 70010000")),
    (0x0FC, bytes.fromhex("06000000 88010000 10000000 00000000")),
    (0x124, bytes.fromhex("04000000 90010000 10000000 6c010000")),
    (0x14C, bytes.fromhex("00000000 9a010000 00000000 00000000")),
    (0x16C, b"abcdefghijklmnopqrst"),
]


def number(file, offset, width):
    return int.from_bytes(file[offset : offset + width], "little")


def laid_out(file):
    """The laid-out image of a file, by the format: the headers, each section's raw data at its place, and zeros."""
    signature = number(file, 0x3C, 4)
    optional = signature + 24
    image = bytearray(number(file, optional + 56, 4))
    size_of_headers = number(file, optional + 60, 4)
    put(image, (0, file[:size_of_headers]))
    table = optional + number(file, signature + 20, 2)
    for header in range(table, table + 40 * number(file, signature + 6, 2), 40):
        virtual_size, virtual_address, size, pointer = (number(file, header + at, 4) for at in (8, 12, 16, 20))
        if pointer != 0:
            count = min(virtual_size or size, size)
            put(image, (virtual_address, file[pointer : pointer + count]))
    return bytes(image)


def small():
    return bytes(put(bytearray(0x180), *SMALL))


class Bytes(unittest.TestCase):
    def assert_bytes(self, file):
        """Asserts that the byte at each RVA is that of laid_out(), and that none follows."""
        expected = laid_out(file)
        with petool.Image(file, check=False) as image:
            size = image.headers.size_of_image
            self.assertEqual(size, len(expected))
            self.assertEqual(b"".join(image.read(rva, 1) for rva in range(size)), expected)
            self.assertEqual(image.read(0, size), expected)
            for rva in (size, 0xFFFFFFFF):
                with self.assertRaises(IndexError):
                    image.read_into(rva, bytearray(1))

    def test_each_byte_of_each_small_file_is_the_one_that_the_rule_lays_there(self):
        for name in SMALL_FILES:
            with self.subTest(name):
                self.assert_bytes(data(name))

    def test_a_byte_and_the_offset_at_which_the_file_holds_it(self):
        for case, (pieces, rva, byte, (_, offset)) in enumerate(BYTES):
            with self.subTest(case=case), petool.Image(changed("v1.dll", *pieces), check=False) as image:
                buffer = bytearray(b"\xee")
                if byte is None:
                    with self.assertRaises(IndexError):
                        image.read_into(rva, buffer)
                    self.assertEqual(buffer, b"\xee")
                else:
                    image.read_into(rva, buffer)
                    self.assertEqual(buffer, bytes([byte]))
                self.assertEqual(image.locate(rva), offset)

    def test_locate_gives_the_file_offset(self):
        with petool.Image(changed("v2.dll", (0x140, b"\x00\x03"))) as image:
            for rva, _, offset in PLACES:
                self.assertEqual(image.locate(rva), offset, hex(rva))

    def test_a_read_gives_the_bytes_of_every_range(self):
        self.assert_bytes(small())
        expected = laid_out(small())
        self.assertEqual(len(expected), 0x19A)
        with petool.Image(small(), check=False) as image:
            for rva in range(0x19D):
                for count in range(0x19D - rva):
                    self.assert_filled(image, expected, rva, count)
            # a range that would wrap
            self.assert_filled(image, expected, 0xFFFFFFFF, 2)

    def assert_filled(self, image, expected, rva, count):
        """Asserts that a read fills the buffer with bytes of the image, or, if they are not all inside it, leaves it unchanged."""
        buffer = bytearray(b"\xee" * count)
        try:
            image.read_into(rva, buffer)
        except IndexError:
            self.assertGreater(rva + count, len(expected))
            self.assertEqual(buffer, b"\xee" * count)
        else:
            self.assertLessEqual(rva + count, len(expected))
            self.assertEqual(buffer, expected[rva : rva + count])


class Texts(unittest.TestCase):
    def test_a_text_ends_inside_its_piece(self):
        for name, pieces, texts in NAMED:
            with petool.Image(changed(name, *pieces), check=False) as image:
                for rva, text in texts:
                    with self.subTest(name=name, rva=hex(rva)):
                        self.assertEqual(image.text(rva), text)


@unittest.skipUnless(PROGRAM, "left out without program: PETOOL_PROGRAM names none")
class Places(unittest.TestCase):
    """What is at an RVA, by the program's `at`."""

    def assert_place(self, file, rva, piece, offset):
        with tempfile.TemporaryDirectory() as folder:
            pathlib.Path(folder, "a.dll").write_bytes(file)
            done = run([PROGRAM, "at", "a.dll", f"{rva:x}"], cwd=folder)
        self.assertEqual((done.returncode, done.stderr), (0, b""))
        line = done.stdout.decode().splitlines()[0]
        if piece == "outside":
            self.assertEqual(line, "the place is outside the image")
            return
        found_rva, _, where, what = line.split("  ")[:4]
        self.assertEqual(found_rva, f"RVA {rva:#x}")
        self.assertEqual(where, "not in the file" if offset is None else f"file {offset:#x}")
        self.assertEqual(what.split("+")[0], piece)

    def test_a_byte_stands_in_its_piece(self):
        for case, (pieces, rva, _, (piece, offset)) in enumerate(BYTES):
            with self.subTest(case=case):
                self.assert_place(changed("v1.dll", *pieces), rva, piece, offset)

    def test_each_place_has_its_piece_and_its_file_offset(self):
        for rva, piece, offset in PLACES:
            with self.subTest(rva=hex(rva)):
                self.assert_place(changed("v2.dll", (0x140, b"\x00\x03")), rva, piece, offset)


if __name__ == "__main__":
    unittest.main()
