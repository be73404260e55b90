"""The laid-out image that `petool layout` writes: byte by byte, with holes for its zero bytes, and what is left of OUT where there is
none."""

import os
import resource
import struct
import unittest

from . import data
from .cases import run
from .files import changed
from .finding_pages import PROGRAM, OverFiles

HEADER_BYTES = 0x200


def image(sections, size, raw_data):
    """An image of PE32 without tables: its sections as VirtualSize, RVA, SizeOfRawData and PointerToRawData, SizeOfImage, and the bytes
    after its headers, which have no zero byte after the section table."""
    file = b"MZ".ljust(0x3C, b"\0") + struct.pack("<I", 0x40)
    file += b"PE\0\0" + struct.pack("<HHIIIHH", 0x14C, len(sections), 0, 0, 0, 96, 0x2102)
    file += struct.pack("<HBBIIIIIIIII", 0x10B, 14, 0, 0, 0, 0, 0, 0, 0, 0x400000, 0x1000, 0x200)
    file += struct.pack("<HHHHHHIIIIHH", 6, 0, 0, 0, 6, 0, 0, size, HEADER_BYTES, 0, 3, 0) + bytes(24)
    for number, fields in enumerate(sections):
        file += b".s%d" % number + bytes(5) + struct.pack("<IIIIIIHHI", *fields, 0, 0, 0, 0, 0x40000040)
    return file.ljust(HEADER_BYTES, b"\xee") + raw_data


def laid_out(file):
    """The image in memory, as the format says: SizeOfHeaders bytes, and of each section the bytes that the file has, VirtualSize of
    them at most."""
    header = struct.unpack_from("<I", file, 0x3C)[0]
    count, optional_size = struct.unpack_from("<H12xH", file, header + 6)
    size, header_bytes = struct.unpack_from("<II", file, header + 24 + 56)
    memory = bytearray(size)
    memory[:header_bytes] = file[:header_bytes]
    for number in range(count):
        virtual_size, rva, raw_size, offset = struct.unpack_from("<IIII", file, header + 24 + optional_size + 40 * number + 8)
        held = min(virtual_size or raw_size, raw_size) if offset else 0
        memory[rva : rva + held] = file[offset : offset + held]
    return bytes(memory)


#: Bytes of raw data that tell their places apart, none of them 0.
RAW = bytes(1 + place * 7 % 251 for place in range(0x800))
#: VirtualSize cuts the first section's raw data, the second has zero fill and then a gap after it, the third has VirtualSize 0, the
#: fourth no raw data, and the fifth begins where it ends.
SECTIONS = [
    (0x10, 0x1000, 0x200, 0x200),
    (0x300, 0x2000, 0x200, 0x400),
    (0, 0x4000, 0x200, 0x600),
    (0x1000, 0x5000, 0x200, 0),
    (0x180, 0x6000, 0x200, 0x800),
]
SMALL = image(SECTIONS, 0x8000, RAW)
#: What stands in its image, by the RVA: all else is 0.
PIECES = {0: SMALL[:0x200], 0x1000: RAW[:0x10], 0x2000: RAW[0x200:0x400], 0x4000: RAW[0x400:0x600], 0x6000: RAW[0x600:0x780]}
#: A file of several times the 65,536 bytes that are read at a time. The raw data of its first section are behind those of the second,
#: and what it maps of them is one byte longer than two reads.
LONG_RAW = bytes(1 + place * 11 % 251 for place in range(0x30000))
LARGE = image([(0x20001, 0x1000, 0x20200, 0xFE00), (0x10000, 0x30000, 0xFC00, 0x200), (0, 0x50000, 0x200, 0)], 0x60000, LONG_RAW)
#: An image of 2^31 bytes, whose last section is its end.
LARGEST = image([(0x200, 0x1000, 0x200, 0x200), (0x100, (1 << 31) - 0x100, 0x100, 0x400)], 1 << 31, RAW)
OLD = b"the old file"


@unittest.skipUnless(PROGRAM, "left out without program: PETOOL_PROGRAM names none")
class LaidOut(OverFiles, unittest.TestCase):
    def lay_out(self, file, *options, target="out", **given):
        """What the program does to lay out a file."""
        (self.folder / "a.dll").write_bytes(file)
        return run([PROGRAM, "layout", *options, "a.dll", target], cwd=self.folder, **given)

    def assert_laid_out(self, file, *options, **given):
        done = self.lay_out(file, *options, **given)
        self.assertEqual((done.returncode, done.stdout, done.stderr), (0, b"", b""))
        self.assertEqual(sorted(os.listdir(self.folder)), ["a.dll", "out"])
        return (self.folder / "out").read_bytes()

    def assert_kept(self, done, status, stdout, stderr):
        self.assertEqual((done.returncode, done.stdout.decode(), done.stderr.decode()), (status, stdout, stderr))
        self.assertEqual((self.folder / "out").read_bytes(), OLD)
        self.assertEqual(sorted(os.listdir(self.folder)), ["a.dll", "out"])

    def test_each_piece_stands_at_its_rva(self):
        expected = bytearray(0x8000)
        for rva, piece in PIECES.items():
            expected[rva : rva + len(piece)] = piece
        self.assertEqual(bytes(expected), laid_out(SMALL))
        self.assertEqual(self.assert_laid_out(SMALL), bytes(expected))

    def test_small_files(self):
        for name in ("v1.dll", "v2.dll", "v3.dll", "va.dll", "vb.dll", "vc.dll", "vd.dll", "vs.dll", "vr.dll"):
            with self.subTest(name):
                self.assertEqual(self.assert_laid_out(data(name)), laid_out(data(name)))

    def test_images_without_sections_and_without_zero_fill(self):
        for file in (image([], 0x200, b""), image([], 0x1234, b""), image([(0x200, 0x200, 0x200, 0x200)], 0x400, RAW)):
            self.assertEqual(self.assert_laid_out(file), laid_out(file))

    def test_files_that_are_read_in_parts(self):
        expected = bytearray(0x60000)
        expected[:0x200] = LARGE[:0x200]
        expected[0x1000 : 0x1000 + 0x20001] = LONG_RAW[0xFC00 : 0xFC00 + 0x20001]
        expected[0x30000 : 0x30000 + 0xFC00] = LONG_RAW[:0xFC00]
        self.assertEqual(self.assert_laid_out(LARGE), bytes(expected))
        self.assertEqual(run([PROGRAM, "layout", "-", "-"], cwd=self.folder, input=LARGE).stdout, bytes(expected))
        for size in (0xFFFF, 0x10000, 0x10001):
            with self.subTest(size):
                file = image([(0x300, 0x1000, 0x200, 0x200)], 0x2000, RAW).ljust(size, b"\xee")
                self.assertEqual(self.assert_laid_out(file), laid_out(file))

    def test_headers_of_more_bytes_than_are_read_first(self):
        for header_bytes in (0xFFF, 0x1000, 0x1001, 0x2000):
            with self.subTest(header_bytes):
                file = bytearray(image([(0x300, 0x4000, 0x200, 0x200)], 0x5000, LONG_RAW))
                struct.pack_into("<I", file, 0x40 + 24 + 60, header_bytes)
                self.assertEqual(self.assert_laid_out(bytes(file)), laid_out(bytes(file)))

    def test_a_fault_in_a_large_file(self):
        refused = bytearray(LARGE)
        struct.pack_into("<I", refused, 0xE0 + 20, 0x4000000)
        done = self.lay_out(bytes(refused), target="-")
        self.assertEqual((done.returncode, done.stdout), (1, b""))
        self.assertIn(b"a.dll: section header at 0xe0: the section's raw data extends past the end of the file", done.stderr)

    def test_zero_bytes_take_no_blocks(self):
        (self.folder / "a.dll").write_bytes(LARGEST)
        done = run([PROGRAM, "layout", "a.dll", "out"], cwd=self.folder)
        self.assertEqual((done.returncode, done.stdout, done.stderr), (0, b"", b""))
        found = (self.folder / "out").stat()
        self.assertEqual(found.st_size, 1 << 31)
        self.assertLess(found.st_blocks * 512, 1 << 20)
        with open(self.folder / "out", "rb") as out:
            self.assertEqual(out.read(0x1300), LARGEST[:0x200] + bytes(0xE00) + RAW[:0x200] + bytes(0x100))
            out.seek((1 << 31) - 0x200)
            self.assertEqual(out.read(), bytes(0x100) + RAW[0x200:0x300])

    def test_an_image_that_ends_in_zero_bytes_has_its_whole_size(self):
        file = image([(0x200, 0x1000, 0x200, 0x200)], 1 << 30, RAW)
        (self.folder / "a.dll").write_bytes(file)
        self.assertEqual(run([PROGRAM, "layout", "a.dll", "out"], cwd=self.folder).returncode, 0)
        self.assertEqual((self.folder / "out").stat().st_size, 1 << 30)

    def test_streams(self):
        done = run([PROGRAM, "layout", "-", "-"], cwd=self.folder, input=SMALL)
        self.assertEqual((done.returncode, done.stdout, done.stderr), (0, laid_out(SMALL), b""))

    def test_a_fault_is_a_line_and_leaves_the_file(self):
        (self.folder / "out").write_bytes(OLD)
        refused = changed("v1.dll", (0x14C, b"\xf1\x03"), size=None)
        line = "fault 13 image 0 file 0x00000138\n"
        done = self.lay_out(refused)
        self.assertEqual((done.returncode, done.stdout.decode()), (1, line))
        self.assertEqual((self.folder / "out").read_bytes(), OLD)
        done = self.lay_out(refused, target="-")
        self.assertEqual((done.returncode, done.stdout), (1, b""))

    def test_within(self):
        (self.folder / "out").write_bytes(OLD)
        words = "petool: a.dll: the image has 32768 bytes, more than --within allows\n"
        self.assert_kept(self.lay_out(SMALL, "--within", "32767"), 1, "", words)
        self.assert_kept(self.lay_out(SMALL, "--within", "0"), 1, "", words)
        self.assertEqual(self.assert_laid_out(SMALL, "--within", "32K"), laid_out(SMALL))

    def test_the_input_is_not_replaced(self):
        (self.folder / "a.dll").write_bytes(SMALL)
        done = run([PROGRAM, "layout", "a.dll", "a.dll"], cwd=self.folder)
        self.assertEqual((done.returncode, done.stderr), (3, b"petool: a.dll: is the input file\n"))
        self.assertEqual((self.folder / "a.dll").read_bytes(), SMALL)

    def test_a_limit_on_the_size_of_files_counts_holes(self):
        (self.folder / "out").write_bytes(OLD)
        limited = {"preexec_fn": lambda: resource.setrlimit(resource.RLIMIT_FSIZE, (0x7FFF, 0x7FFF))}
        done = self.lay_out(SMALL, **limited)
        self.assertEqual((done.returncode, done.stdout), (3, b""))
        self.assertEqual((self.folder / "out").read_bytes(), OLD)
        exact = {"preexec_fn": lambda: resource.setrlimit(resource.RLIMIT_FSIZE, (0x8000, 0x8000))}
        self.assertEqual(self.assert_laid_out(SMALL, **exact), laid_out(SMALL))

    def test_what_is_not_written_is_not_read(self):
        limited = {"preexec_fn": lambda: resource.setrlimit(resource.RLIMIT_AS, (64 << 20, 64 << 20))}
        (self.folder / "a.dll").write_bytes(LARGE)
        os.truncate(self.folder / "a.dll", 1 << 30)
        self.assertEqual(run([PROGRAM, "layout", "a.dll", "out"], cwd=self.folder, **limited).returncode, 0)
        self.assertEqual((self.folder / "out").read_bytes(), laid_out(LARGE))

    def test_memory_is_that_of_the_file(self):
        limited = {"preexec_fn": lambda: resource.setrlimit(resource.RLIMIT_AS, (64 << 20, 64 << 20))}
        (self.folder / "a.dll").write_bytes(LARGEST)
        self.assertEqual(run([PROGRAM, "layout", "a.dll", "/dev/null"], cwd=self.folder, **limited).returncode, 0)


if __name__ == "__main__":
    unittest.main()
