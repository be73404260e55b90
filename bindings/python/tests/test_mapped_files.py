"""The files that `petool map --write` writes: each byte is that which the space has at its address, by libpetool and by `--window`, with
holes for zero bytes; and what is left of the folder where there is nothing to write."""

import os
import struct
import unittest

import petool

from . import data
from .cases import run
from .files import changed, importing, numbers
from .finding_pages import PROGRAM, OverFiles
from .test_laid_out import LARGEST, RAW, SMALL, image

OLD = b"the old file"

#: An image of PE32 with ImageBase 400000, whose three fields of 32 bits are to be relocated: one at the end of a piece of 4,096 bytes,
#: one across the end of the next, and one in zero fill.
FIELDS = (0x1FFC, 0x2FFE, 0x3300)


def relocated():
    """It, as a file: its data are at RVA 1000, and the base relocations at RVA 5000."""
    blocks = struct.pack("<IIHH", 0x1000, 12, 0x3FFC, 0) + struct.pack("<IIHH", 0x2000, 12, 0x3FFE, 0) + struct.pack("<IIHH", 0x3000, 12, 0x3300, 0)
    raw = bytearray(1 + place * 11 % 253 for place in range(0x2200))
    sections = [(0x3000, 0x1000, 0x2200, 0x200), (len(blocks), 0x5000, 0x200, 0x2400)]
    file = bytearray(image(sections, 0x6000, bytes(raw) + blocks.ljust(0x200, b"\0")))
    header = struct.unpack_from("<I", file, 0x3C)[0]
    # sixteen directories take 128 bytes more of headers: the sections move behind them
    optional = header + 24
    table = bytes(file[optional + 96 : optional + 96 + 80])
    struct.pack_into("<H", file, header + 4 + 16, 96 + 128)
    struct.pack_into("<I", file, optional + 92, 16)
    directories = [(0, 0)] * 16
    directories[5] = (0x5000, len(blocks))
    file[optional + 96 : optional + 96 + 128] = b"".join(struct.pack("<II", *it) for it in directories)
    file[optional + 224 : optional + 224 + 80] = table
    return bytes(file)


def section_table(file):
    """Where the first section header of an image's file is."""
    header = struct.unpack_from("<I", file, 0x3C)[0]
    return header + 24 + struct.unpack_from("<H", file, header + 20)[0]


#: Sets, as names, files and bases.
BOUND = [("a.dll", data("va.dll"), 0x10000000), ("b.dll", data("vb.dll"), 0x20000000), ("c.exe", data("vc.dll"), 0x400000)]
MOVED = [("r.dll", relocated(), 0x12340000)]
SETS = [BOUND, MOVED, BOUND + MOVED, [("v.dll", data("v1.dll"), 0x10000000)], [("s.dll", SMALL, 0x7FFF0000)]]


@unittest.skipUnless(PROGRAM, "left out without program: PETOOL_PROGRAM names none")
class MappedFiles(OverFiles, unittest.TestCase):
    def setUp(self):
        super().setUp()
        (self.folder / "in").mkdir()
        (self.folder / "out").mkdir()

    def words(self, members):
        """Writes the files of a set, and returns the words that name them."""
        for name, file, _ in members:
            (self.folder / "in" / name).write_bytes(file)
        return [f"{base:x}=in/{name}" for name, _, base in members]

    def write(self, members, *options, **given):
        """What the program does to write the images of a set."""
        return run([PROGRAM, "map", "--write", "out", *options, *self.words(members)], cwd=self.folder, **given)

    def written(self):
        return {name: (self.folder / "out" / name).read_bytes() for name in os.listdir(self.folder / "out")}

    def assert_written(self, members, *options, known=False):
        """The report is as it is without `--write`, and each file has the bytes of the space."""
        done = self.write(members, *options)
        self.assertEqual((done.returncode, done.stderr), (0, b""))
        report = run([PROGRAM, "map", *(it for it in options if it == "--known"), *self.words(members)], cwd=self.folder)
        self.assertEqual(done.stdout, report.stdout)
        with petool.Space(members, known=known) as space:
            images = {name: space.read(*it) for (name, _, _), it in zip(members, space.images)}
        self.assertEqual(self.written(), images)
        return images

    def assert_none(self, done, status, stdout, stderr):
        """Nothing was written."""
        self.assertEqual((done.returncode, done.stdout.decode(), done.stderr.decode()), (status, stdout, stderr))
        self.assertEqual(self.written(), {})

    def test_each_file_has_the_bytes_of_the_space(self):
        for members in SETS:
            with self.subTest(members[0][0], images=len(members)):
                self.assert_written(members)
                for name in os.listdir(self.folder / "out"):
                    (self.folder / "out" / name).unlink()

    def test_fields_are_relocated_and_slots_bound(self):
        images = self.assert_written(BOUND + MOVED)
        self.assertEqual(images["c.exe"][0x1030:0x1034], b"\x10\x10\x00\x20")
        plain = run([PROGRAM, "layout", "in/r.dll", "-"], cwd=self.folder).stdout
        moved = bytearray(plain)
        for field in FIELDS:
            value = struct.unpack_from("<I", plain, field)[0] + 0x12340000 - 0x400000
            struct.pack_into("<I", moved, field, value & 0xFFFFFFFF)
        self.assertEqual(images["r.dll"], bytes(moved))

    def test_windows_have_the_bytes_of_the_files(self):
        images = self.assert_written(BOUND)
        for name, _, base in BOUND:
            for rva in range(0, len(images[name]), 4096):
                words = ["--window", f"{base + rva:x}", "--count", "4096", *self.words(BOUND)]
                lines = run([PROGRAM, "map", *words], cwd=self.folder).stdout.decode().splitlines()
                shown = b"".join(bytes.fromhex(line.split(" ", 1)[1]) for line in lines if line.startswith("0x"))
                self.assertEqual(shown, images[name][rva : rva + 4096])

    def test_show_says_of_them_that_their_layout_is_that_of_memory(self):
        row = "  Layout       that of memory, it seems: SizeOfImage bytes, and zeros in place of raw data, where tables are read"
        self.assert_written(BOUND + MOVED)
        for name, file, _ in BOUND + MOVED:
            run([PROGRAM, "layout", f"in/{name}", "laid"], cwd=self.folder)
            for path, has_row in [(f"in/{name}", 0), (f"out/{name}", 1), ("laid", 1)]:
                with self.subTest(path, name=name):
                    shown = run([PROGRAM, "show", path], cwd=self.folder).stdout.decode().split("\n")
                    self.assertEqual(shown.count(row), has_row)
                    piped = run([PROGRAM, "show", "-"], cwd=self.folder, input=(self.folder / path).read_bytes()).stdout.decode().split("\n")
                    self.assertEqual(piped[1:], shown[1:])
            # a byte that is no zero where raw data is to be, or one byte more, and it is a file as any other
            written = bytearray((self.folder / "out" / name).read_bytes())
            (self.folder / "more").write_bytes(written + b"\0")
            written[struct.unpack_from("<I", file, section_table(file) + 20)[0]] = 1
            (self.folder / "other").write_bytes(written)
            for path in ("more", "other"):
                self.assertNotIn(row, run([PROGRAM, "show", path], cwd=self.folder).stdout.decode().split("\n"))

    def test_known_and_unbound(self):
        mixed = importing((b"x.dll", [3]), (b"B.DLL", [5]))
        members = [("b.dll", data("vb.dll"), 0x20000000), ("mixed.dll", mixed, 0x30000000)]
        self.assert_written(members, "--known", known=True)
        done = self.write(members, "--known", "--unbound")
        self.assertEqual((done.returncode, done.stderr), (0, b""))
        self.assertTrue(done.stdout.decode().endswith('unbound 1 0x00020000 "x.dll" #3\n'), done.stdout)

    def test_a_module_has_the_name_that_a_word_gives(self):
        (self.folder / "in" / "x").write_bytes(data("v1.dll"))
        done = run([PROGRAM, "map", "--write", "out", "10000000:v 1.dll=in/x"], cwd=self.folder)
        self.assertEqual((done.returncode, done.stderr), (0, b""))
        self.assertEqual(list(self.written()), ["v 1.dll"])

    def test_standard_input(self):
        done = run([PROGRAM, "map", "--write", "out", "10000000:v.dll=-"], cwd=self.folder, input=data("v1.dll"))
        self.assertEqual((done.returncode, done.stderr), (0, b""))
        self.assertEqual(list(self.written()), ["v.dll"])

    def test_a_refused_set_writes_nothing(self):
        done = self.write([BOUND[0], ("A.DLL", data("vb.dll"), 0x20000000)])
        self.assertEqual((done.returncode, done.stdout.decode().split(" ")[:2]), (1, ["fault", "42"]))
        self.assertEqual(self.written(), {})
        done = self.write(BOUND[1:])
        self.assertEqual((done.returncode, done.stdout), (1, b"fault 48 image 1 rva 0x00001030\n"))
        self.assertEqual(self.written(), {})
        refused = changed("v1.dll", (0x14C, b"\xf1\x03"), size=None)
        done = self.write([*BOUND, ("v.dll", refused, 0x50000000)])
        self.assertEqual((done.returncode, self.written()), (1, {}))

    def test_a_refused_window_writes_nothing(self):
        done = self.write(BOUND, "--window", "0")
        self.assertEqual((done.returncode, done.stdout.decode().split(" ")[:2]), (1, ["fault", "54"]))
        self.assertEqual(self.written(), {})

    def test_names_that_no_file_has(self):
        (self.folder / "in" / "a.dll").write_bytes(data("va.dll"))
        for name in ("../in/a.dll", "/a.dll", "a/", ".", ".."):
            with self.subTest(name):
                done = run([PROGRAM, "map", "--write", "out", f"10000000:{name}=in/a.dll"], cwd=self.folder)
                self.assertEqual((done.returncode, done.stdout), (2, b""))
                self.assertIn(b"no file for --write has the module's name", done.stderr)
                self.assertEqual(self.written(), {})
        done = run([PROGRAM, "map", "--write", "out", b"10000000:\xff=in/a.dll"], cwd=self.folder)
        words = 'petool: "out/\\xff": cannot be written, since its name is not UTF-8\n'
        self.assert_none(done, 3, "", words)

    def test_the_folder_must_be_there(self):
        words = self.words(BOUND)
        for folder, error in (("none", os.strerror(2)), ("in/a.dll", os.strerror(20)), ("", os.strerror(2))):
            with self.subTest(folder):
                done = run([PROGRAM, "map", "--write", folder, *words], cwd=self.folder)
                self.assertEqual((done.returncode, done.stdout), (3, b""))
                self.assertIn(error, done.stderr.decode())
        self.assertEqual(sorted(os.listdir(self.folder)), ["in", "out"])

    def test_an_input_is_not_replaced(self):
        words = self.words(BOUND)
        os.symlink("../in/b.dll", self.folder / "out" / "c.exe")
        for folder, name in (("in", "in/a.dll"), ("out", "out/c.exe")):
            with self.subTest(folder):
                done = run([PROGRAM, "map", "--write", folder, *words], cwd=self.folder)
                self.assertEqual((done.returncode, done.stdout, done.stderr.decode()), (3, b"", f"petool: {name}: is the input file\n"))
        self.assertEqual(os.listdir(self.folder / "out"), ["c.exe"])
        for name, file, _ in BOUND:
            self.assertEqual((self.folder / "in" / name).read_bytes(), file)

    def test_two_images_are_not_written_to_one_file(self):
        words = self.words(BOUND)
        names = [name for name, _, _ in BOUND]
        out = self.folder / "out"
        # to a name of the folder, to a file that is not there yet, and by two ways into one folder
        (out / "sub").symlink_to(".")
        for links in ({1: names[0]}, {0: "end", 1: "end"}, {0: "sub/end", 1: "end"}):
            with self.subTest(links):
                for index, end in links.items():
                    (out / names[index]).symlink_to(end)
                done = run([PROGRAM, "map", "--write", "out", *words], cwd=self.folder)
                self.assert_none_written(done, f"petool: out/{names[1]}: is the file of another image too\n", ["sub", *(names[index] for index in links)])
                for index in links:
                    (out / names[index]).unlink()
        # each name of a file is replaced by itself
        (out / "sub").unlink()
        (out / names[0]).write_bytes(OLD)
        os.link(out / names[0], out / names[1])
        self.assert_written(BOUND)

    def assert_none_written(self, done, words, left):
        self.assertEqual((done.returncode, done.stdout, done.stderr.decode()), (3, b"", words))
        self.assertEqual(sorted(os.listdir(self.folder / "out")), sorted(left))

    def test_a_file_is_replaced_once_the_new_one_is_whole(self):
        place = self.folder / "out" / "v.dll"
        place.write_bytes(OLD)
        place.chmod(0o640)
        self.assert_written([("v.dll", data("v1.dll"), 0x10000000)])
        self.assertEqual(place.stat().st_mode & 0o777, 0o640)

    def test_within(self):
        # the images of BOUND have 0x3000 bytes each
        size = sum(len(it) for it in self.assert_written(BOUND).values())
        for name in os.listdir(self.folder / "out"):
            (self.folder / "out" / name).unlink()
        report = run([PROGRAM, "map", *self.words(BOUND)], cwd=self.folder).stdout.decode()
        words = f"petool: map: the images have {size} bytes together, more than --within allows\n"
        self.assert_none(self.write(BOUND, "--within", str(size - 1)), 1, report, words)
        self.assert_none(self.write(BOUND, "--within", "0"), 1, report, words)
        self.assert_written(BOUND, "--within", str(size))

    def test_four_gigabytes_by_default(self):
        large = changed("v3.dll", (0x40 + 24 + 56, numbers(1 << 31)), size=None)
        members = [(f"{number}.dll", large, (1 + number) << 32) for number in range(3)]
        done = self.write(members)
        words = "petool: map: the images have 6442450944 bytes together, more than --within allows\n"
        self.assertEqual((done.returncode, done.stderr.decode(), self.written()), (1, words, {}))
        self.assertEqual(self.write(members[:2]).returncode, 0)
        self.assertEqual(self.write(members, "--within", "6G").returncode, 0)
        sizes = {name: (self.folder / "out" / name).stat().st_size for name in os.listdir(self.folder / "out")}
        self.assertEqual(sizes, {name: 1 << 31 for name, _, _ in members})

    def test_zero_bytes_take_no_blocks(self):
        done = self.write([("large.dll", LARGEST, 0x10000)])
        self.assertEqual((done.returncode, done.stderr), (0, b""))
        found = (self.folder / "out" / "large.dll").stat()
        self.assertEqual(found.st_size, 1 << 31)
        self.assertLess(found.st_blocks * 512, 1 << 20)
        with open(self.folder / "out" / "large.dll", "rb") as out:
            self.assertEqual(out.read(0x1300), LARGEST[:0x200] + bytes(0xE00) + RAW[:0x200] + bytes(0x100))
            out.seek((1 << 31) - 0x200)
            self.assertEqual(out.read(), bytes(0x100) + RAW[0x200:0x300])


if __name__ == "__main__":
    unittest.main()
