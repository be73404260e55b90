"""`petool sum`: the CheckSum of images, compared with the sum that carries each bit past the sixteenth into the lowest, word by word, as
the loader's own check does it; the field at odd offsets, files of odd length, and files of which the headers have a fault."""

import os
import random
import subprocess
import tempfile
import unittest

from .files import changed, put
from .test_program import HEADERS, IMPORTS, NAMED, SECTION, SIGNED, image_of

PROGRAM = os.environ.get("PETOOL_PROGRAM")


def sum_of(file, field):
    """The checksum of a file whose field CheckSum is at an offset."""
    total = 0
    padded = bytearray(file) + b"\0"
    padded[field : field + 4] = bytes(4)
    for at in range(0, len(file), 2):
        total += padded[at] + 256 * padded[at + 1]
        total = (total & 0xFFFF) + (total >> 16)
    return (total + len(file)) & 0xFFFFFFFF


def moved(offset, seed, size):
    """An image whose signature is at an offset, with random bytes before and after the headers."""
    file = bytearray(random.Random(seed).randbytes(size))
    headers = bytearray(HEADERS[0x40:])
    put(headers, (0x54, (offset + len(headers)).to_bytes(4, "little")))
    put(file, (0, b"MZ"), (0x3C, offset.to_bytes(4, "little")), (offset, headers))
    return bytes(file)


@unittest.skipUnless(PROGRAM, "left out without program: PETOOL_PROGRAM names none")
class Sums(unittest.TestCase):
    maxDiff = None

    def setUp(self):
        folder = tempfile.TemporaryDirectory()
        self.addCleanup(folder.cleanup)
        self.folder = folder.name

    def run_program(self, *words, given=b""):
        done = subprocess.run([PROGRAM, *words], input=given, stdout=subprocess.PIPE, stderr=subprocess.PIPE, cwd=self.folder, check=False)
        return done.returncode, done.stdout.decode(), done.stderr.decode()

    def write(self, name, file):
        with open(os.path.join(self.folder, name), "wb") as out:
            out.write(file)

    def read(self, name):
        with open(os.path.join(self.folder, name), "rb") as file:
            return file.read()

    def told(self, name, file, field):
        held = int.from_bytes(file[field : field + 4], "little")
        return f"{name}: check sum 0x{held:08x} computed 0x{sum_of(file, field):08x}\n"

    def test_images(self):
        files = [("none.dll", HEADERS), ("signed.dll", SIGNED), ("odd.dll", HEADERS + b"\x01"), ("long.dll", HEADERS + bytes(3 << 20) + b"\xff" * 77)]
        for name, file in files:
            self.write(name, file)
        self.assertEqual((0, "".join(self.told(name, file, 0x98) for name, file in files), ""), self.run_program("sum", *(name for name, _ in files)))

    def test_places(self):
        """The field at each offset by 4, in files of each length by 4."""
        for offset in range(0x40, 0x48):
            for size in range(0x200, 0x204):
                file = moved(offset, 8 * size + offset, size)
                self.write("a.dll", file)
                self.assertEqual((0, self.told("a.dll", file, offset + 88), ""), self.run_program("sum", "a.dll"))

    def test_carries(self):
        """Words whose sum is 0xffff, 0x10000 and 0 with the file's length added."""
        for words in (b"\xff\xff", b"\xff\xff\x01\0", b"\xff" * 4096, b"\x01\x80" * 4097):
            file = HEADERS + words
            self.write("a.dll", file)
            self.assertEqual((0, self.told("a.dll", file, 0x98), ""), self.run_program("sum", "a.dll"))

    def test_a_rebased_file_gets_its_sum(self):
        """With `--check-sum` the new file differs from that without it in the four bytes of the field alone, and its sum is right."""
        for number, (file, field) in enumerate([(changed("v1.dll"), 0x98), (changed("v2.dll"), 0x98), (changed("v1.dll", size=0x601), 0x98)]):
            with self.subTest(number):
                self.write("old.dll", file)
                self.assertEqual(0, self.run_program("rebase", "20000000", "old.dll", "plain.dll")[0])
                self.assertEqual((0, "rebased 0x0000000020000000\n", ""), self.run_program("rebase", "--check-sum", "20000000", "old.dll", "new.dll"))
                plain, new = self.read("plain.dll"), self.read("new.dll")
                self.assertEqual(bytes(4), plain[field : field + 4])
                self.assertEqual(sum_of(plain, field).to_bytes(4, "little"), new[field : field + 4])
                self.assertEqual(plain, new[:field] + bytes(4) + new[field + 4 :])
                self.assertEqual((0, self.told("new.dll", new, field), ""), self.run_program("sum", "new.dll"))

    def test_a_file_that_is_refused_is_not_rebased_with_its_sum(self):
        self.write("old.dll", changed("v1.dll"))
        status, printed, _ = self.run_program("rebase", "--check-sum", "20000001", "old.dll", "new.dll")
        self.assertEqual((1, "fault 44 image 0 address 0x0000000020000001\n"), (status, printed))
        self.assertFalse(os.path.exists(os.path.join(self.folder, "new.dll")))

    def test_the_sum_of_a_file_from_standard_input(self):
        """Its size is not known before it is read."""
        self.write("old.dll", changed("v1.dll"))
        self.assertEqual(0, self.run_program("rebase", "--check-sum", "20000000", "old.dll", "new.dll")[0])
        done = subprocess.run([PROGRAM, "rebase", "--check-sum", "20000000", "-", "-"], input=changed("v1.dll"), stdout=subprocess.PIPE, stderr=subprocess.PIPE,
                              cwd=self.folder, check=False)
        self.assertEqual((0, self.read("new.dll"), b"rebased 0x0000000020000000\n"), (done.returncode, done.stdout, done.stderr))

    def test_other_faults(self):
        """An image whose sections or tables have a fault has a CheckSum as any other."""
        for file in (SECTION, IMPORTS, NAMED):
            self.write("a.dll", file)
            self.assertEqual((0, self.told("a.dll", file, 0x98), ""), self.run_program("sum", "a.dll"))

    def test_refused(self):
        """Headers with a fault are refused, and the other files are summed."""
        self.write("good.dll", HEADERS)
        self.write("bad.dll", image_of(0x60, 0xB8, (0x40, b"NE")))
        status, out, err = self.run_program("sum", "bad.dll", "good.dll", "none.dll")
        self.assertEqual(3, status)
        self.assertEqual("bad.dll: fault 5 image 0 file 0x00000040\n" + self.told("good.dll", HEADERS, 0x98), out)
        self.assertIn("bad.dll", err)
        self.assertIn("none.dll", err)

    def test_standard_input(self):
        self.assertEqual((0, self.told("standard input", SIGNED, 0x98), ""), self.run_program("sum", "-", given=SIGNED))

    def test_words(self):
        status, out, err = self.run_program("sum")
        self.assertEqual((2, ""), (status, out))
        self.assertIn("FILE", err)
        status, out, _ = self.run_program("sum", "--help")
        self.assertEqual(0, status)
        self.assertIn("CheckSum", out)
