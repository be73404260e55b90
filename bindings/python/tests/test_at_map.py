"""What `petool at --map` prints of addresses in a set: the image and what its file says of the place, as `at` does; what `map` binds the
slot to; and the bytes that its window has."""

import re
import unittest

from .finding_pages import PROGRAM, OverFiles
from .test_mapped_files import BOUND, MOVED


@unittest.skipUnless(PROGRAM, "left out without program: PETOOL_PROGRAM names none")
class AtMap(OverFiles, unittest.TestCase):
    def words(self, members):
        for name, file, _ in members:
            (self.folder / name).write_bytes(file)
        return [f"{base:x}={name}" for name, _, base in members]

    def run_on(self, *words, status=0):
        done = self.petool(b"", *words)
        self.assertEqual((done.stderr if status == 0 else b"", done.returncode), (b"", status))
        return done.stdout.decode()

    def places(self, members, *addresses):
        """The two lines of each address."""
        lines = self.run_on("at", "--map", *self.words(members), *(f"{it:x}" for it in addresses)).splitlines()
        self.assertEqual(len(lines), 2 * len(addresses))
        return list(zip(lines[::2], lines[1::2]))

    def window(self, members, address, count):
        out = self.run_on("map", "--known", "--window", f"{address:x}", "--count", str(count), *self.words(members))
        return re.search(rf"^0x{address:016x}((?: [0-9a-f]{{2}})+)$", out, re.M)[1]

    def test_what_the_file_says_with_the_image_at_its_base(self):
        for name, file, base in BOUND + MOVED:
            members = BOUND + MOVED
            number = [it[0] for it in members].index(name)
            self.words(members)
            for rva in (0, 0x40, 0x1000, 0x1004, 0x1010, 0x1018):
                with self.subTest(name, rva=rva):
                    line, _ = self.places(members, base + rva)[0]
                    alone = self.run_on("at", name, f"{rva:x}").splitlines()[0]
                    alone = re.sub(r"  address 0x[0-9a-f]+  ", f"  address 0x{base + rva:x}  ", alone)
                    line = re.sub(r"  bound to .*?(?=  |$)", "", line)
                    self.assertEqual(line, f"image {number} {name}  {alone}")

    def test_the_bytes_of_the_space(self):
        members = BOUND + MOVED
        for _, _, base in members:
            for rva in (0, 0x1000, 0x1FFC, 0x1FF9):
                with self.subTest(hex(base + rva)):
                    _, line = self.places(members, base + rva)[0]
                    self.assertEqual(line.strip().split(), self.window(members, base + rva, len(line.split())).split())

    def test_fewer_bytes_at_the_end_of_the_image(self):
        for left in (1, 2, 15, 16, 17):
            _, line = self.places(MOVED, 0x12340000 + 0x6000 - left)[0]
            self.assertEqual(len(line.split()), min(left, 16))

    def test_what_slots_are_bound_to(self):
        report = self.run_on("map", *self.words(BOUND))
        bound = re.findall(r"^bind (\d) 0x([0-9a-f]+) to (\d) 0x([0-9a-f]+) value 0x([0-9a-f]+)$", report, re.M)
        self.assertTrue(bound)
        for image, slot, exporter, rva, value in bound:
            _, _, base = BOUND[int(image)]
            words = f"  bound to image {exporter} {BOUND[int(exporter)][0]} RVA 0x{int(rva, 16):x} at 0x{int(value, 16):x}"
            for behind in (0, 3):
                with self.subTest(slot, behind=behind):
                    line, dump = self.places(BOUND, base + int(slot, 16) + behind)[0]
                    self.assertTrue(line.startswith(f"image {image} "), line)
                    self.assertIn("  slot of ", line)
                    self.assertIn(words, line)
            self.assertTrue("".join(reversed(dump.split()[:1])) == f"{int(value, 16):08x}"[:2])

    def test_addresses_outside_the_images(self):
        out = self.run_on("at", "--map", *self.words(MOVED), "1", "1233ffff", "12346000", "ffffffffffffffff")
        lines = [f"address 0x{it}  the place is outside the images" for it in ("1", "1233ffff", "12346000", "ffffffffffffffff")]
        self.assertEqual(out.splitlines(), lines)

    def test_a_refused_set(self):
        words = self.words([BOUND[0], ("b.dll", BOUND[1][1], BOUND[0][2] + 0x10000 - 0x10000)])
        line = self.run_on("map", "--known", *words, status=1)
        self.assertRegex(line, r"^fault 4\d ")
        self.assertEqual(self.run_on("at", "--map", *words, "10001000", status=1), line)

    def test_an_import_whose_module_is_not_there(self):
        line = self.run_on("at", "--map", *self.words(BOUND[2:]), "400000").splitlines()[0]
        self.assertTrue(line.startswith("image 0 c.exe  RVA 0x0  address 0x400000  file 0x0  "), line)
