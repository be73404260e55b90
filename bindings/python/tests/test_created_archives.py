"""Archives that `petool archive --create` writes: byte by byte, as other tools read them, and what it refuses."""

import os
import shutil
import struct
import unittest

from . import data
from .cases import run
from .finding_pages import PROGRAM, OverFiles, words_of
from .test_archives import import_object

EXTERNAL, STATIC, WEAK = 2, 3, 105
AR, NM, GNU_NM, LD = (shutil.which(name) for name in ("llvm-ar-16", "llvm-nm-16", "x86_64-w64-mingw32-nm", "x86_64-w64-mingw32-ld"))


def coff(*symbols):
    """An object of AMD64 with one section of code, 10 times `ret`, and these symbols: name, value, section, class, and auxiliary records."""
    code, strings, table = b"\xc3" * 10, b"", b""
    for name, value, section, kind, *aux in symbols:
        field = name.ljust(8, b"\0") if len(name) <= 8 else struct.pack("<II", 0, 4 + len(strings))
        strings += name + b"\0" if len(name) > 8 else b""
        table += field + struct.pack("<IHHBB", value, section, 0, kind, len(aux)) + b"".join(aux)
    records = len(table) // 18
    header = struct.pack("<HHIIIHH", 0x8664, 1, 0, 60 + len(code), records, 0, 0)
    section = b".text\0\0\0" + struct.pack("<IIIIIIHHI", 0, 0, len(code), 60, 0, 0, 0, 0, 0x60000020)
    return header + section + code + table + struct.pack("<I", 4 + len(strings)) + strings


def weak(search):
    """The auxiliary record of a weak external for symbol 0."""
    return struct.pack("<II", 0, search) + bytes(10)


def made(members, offsets, names, order):
    """The archive: members as their name field and what they hold, with what comes before them that is in a header of its own; the
    names of symbols with the index of their member, in the order of the first and of the second linker member."""
    def record(name, content):
        return name.ljust(16) + b"0".ljust(12) + b"0".ljust(6) * 2 + b"644".ljust(8) + str(len(content)).encode().ljust(10) + b"`\n" + content + b"\n" * (len(content) % 2)

    first = struct.pack(">I", len(names)) + b"".join(struct.pack(">I", offsets[index]) for _, index in names) + b"".join(name + b"\0" for name, _ in names)
    second = struct.pack(f"<I{len(offsets)}I", len(offsets), *offsets) + struct.pack("<I", len(order))
    second += b"".join(struct.pack("<H", index + 1) for _, index in order) + b"".join(name + b"\0" for name, _ in order)
    return b"!<arch>\n" + record(b"/", first) + record(b"/", second) + b"".join(record(*member) for member in members)


#: The first object: what it defines, what it does not, and what is common, absolute, weak or an alias.
FIRST = coff(
    (b"f", 0, 1, EXTERNAL), (b"undefined", 0, 0, EXTERNAL), (b"common", 16, 0, EXTERNAL), (b"absolute", 7, 0xFFFF, EXTERNAL), (b"own", 2, 1, STATIC),
    (b"weak", 0, 0, WEAK, weak(1)), (b"alias", 0, 0, WEAK, weak(3)), (b"a_long_name_of_a_function", 4, 1, EXTERNAL),
)
FIRST_NAMES = [b"f", b"common", b"absolute", b"alias", b"a_long_name_of_a_function"]
SECOND = coff((b"f", 1, 1, EXTERNAL), (b"Zero", 0, 1, EXTERNAL))
CODE, DATA = import_object(b"imported"), import_object(b"variable", kind=1)
LONG = "sixteen_letters.o"
#: The files with their names, and the names of symbols by which they are to be found, with the index of the file.
FILES = [("first.obj", FIRST), (LONG, SECOND), ("k.dll", CODE), ("v.dll", DATA), ("fifteen_letters", b"a text"), ("cut.obj", FIRST[:-1]), ("empty", b"")]
NAMES = [*((name, 0) for name in FIRST_NAMES), (b"f", 1), (b"Zero", 1), (b"__imp_imported", 2), (b"imported", 2), (b"__imp_variable", 3)]


@unittest.skipUnless(PROGRAM, "left out without program: PETOOL_PROGRAM names none")
class CreatedArchives(OverFiles, unittest.TestCase):
    def create(self, files, target="out.lib", **given):
        """What the program does to make an archive of these files, names and contents."""
        for name, content in files:
            (self.folder / name).write_bytes(content)
        return run([PROGRAM, "archive", "--create", target, *(name for name, _ in files)], cwd=self.folder, **given)

    def created(self, files):
        done = self.create(files)
        self.assertEqual((done.stdout, done.stderr, done.returncode), (b"", b"", 0))
        return (self.folder / "out.lib").read_bytes()

    def test_each_byte(self):
        file = self.created(FILES)
        long_names = (b"//", LONG.encode() + b"\0")
        fields = [b"first.obj/", b"/0", b"k.dll/", b"v.dll/", b"fifteen_letters/", b"cut.obj/", b"empty/"]
        members = [(field, content) for field, (_, content) in zip(fields, FILES)]
        size = 4 + 4 * len(NAMES) + sum(len(name) + 1 for name, _ in NAMES)
        at = 8 + 60 + size + size % 2
        size += 4 + 4 * len(FILES) - 2 * len(NAMES)
        at += 60 + size + size % 2 + 60 + len(LONG) + 1
        offsets = []
        for _, content in members:
            offsets.append(at)
            at += 60 + len(content) + len(content) % 2
        order = [
            (b"Zero", 1), (b"__imp_imported", 2), (b"__imp_variable", 3), (b"a_long_name_of_a_function", 0), (b"absolute", 0), (b"alias", 0),
            (b"common", 0), (b"f", 0), (b"f", 1), (b"imported", 2),
        ]
        self.assertEqual(file, made([long_names, *members], offsets, NAMES, order))

    def test_what_was_written_is_read(self):
        self.created(FILES)
        for name, content in FILES:
            done = run([PROGRAM, "archive", "--extract", name, "out.lib"], cwd=self.folder)
            self.assertEqual((done.stdout, done.returncode), (content, 0))

    def test_the_order_of_the_files_is_that_of_the_members(self):
        file = self.created([("b.obj", SECOND), ("a.obj", FIRST), ("c.obj", b"")])
        text = run([PROGRAM, "archive", "-"], input=file).stdout.decode().splitlines()
        self.assertEqual([line.split('"')[1] for line in text if line.startswith("member")], ["/", "/", "b.obj", "a.obj", "c.obj"])

    def test_names_are_without_folders(self):
        (self.folder / "one").mkdir()
        (self.folder / "two").mkdir()
        files = [("one/a.obj", FIRST), ("two/a.obj", SECOND)]
        self.created(files)
        for index, (_, content) in enumerate(files, 1):
            done = run([PROGRAM, "archive", "--extract", "a.obj", "--index", str(index), "out.lib"], cwd=self.folder)
            self.assertEqual(done.stdout, content)

    def test_an_archive_to_standard_output_and_a_file_from_standard_input(self):
        (self.folder / "-").write_bytes(FIRST)
        with open(self.folder / "-", "rb") as stdin:
            done = run([PROGRAM, "archive", "--create", "-", "-"], cwd=self.folder, stdin=stdin)
        self.assertEqual((done.stderr, done.returncode), (b"", 0))
        listed = run([PROGRAM, "archive", "--extract", "-", "-"], input=done.stdout)
        self.assertEqual((listed.stdout, listed.returncode), (FIRST, 0))

    def test_an_archive_in_place_of_another(self):
        self.created([("a.obj", FIRST)])
        os.chmod(self.folder / "out.lib", 0o640)
        one = self.created([("b.obj", SECOND)])
        self.assertEqual((os.stat(self.folder / "out.lib").st_mode & 0o777, sorted(os.listdir(self.folder))), (0o640, ["a.obj", "b.obj", "out.lib"]))
        self.assertNotIn(b"a.obj", one)

    def test_an_archive_of_more_bytes_than_allowed(self):
        # 64 symbols share a name of 1,000 bytes: each linker member has it 64 times
        table = struct.pack("<IIIHHBB", 0, 4, 0, 1, 0, EXTERNAL, 0) * 64
        header = struct.pack("<HHIIIHH", 0x8664, 1, 0, 60, 64, 0, 0)
        section = b".text\0\0\0" + bytes(28) + struct.pack("<I", 0x60000020)
        shared = header + section + table + struct.pack("<I", 1005) + b"s" * 1000 + b"\0"
        (self.folder / "s.obj").write_bytes(shared)
        first, second = 4 + 64 * 4 + 64 * 1001, 4 + 4 + 4 + 64 * 2 + 64 * 1001
        size = 8 + sum(60 + it + it % 2 for it in (first, second, len(shared)))

        def create(most):
            return run([PROGRAM, "archive", "--create", "out.lib", "--within", most, "s.obj"], cwd=self.folder)

        (self.folder / "out.lib").write_bytes(b"old")
        done = create(f"{size - 1}")
        words = f"petool: out.lib: the archive has {size} bytes, more than --within allows\n"
        self.assertEqual((done.returncode, done.stdout, done.stderr.decode()), (1, b"", words))
        self.assertEqual((self.folder / "out.lib").read_bytes(), b"old")
        self.assertEqual(create(f"{size}").returncode, 0)
        self.assertEqual((self.folder / "out.lib").stat().st_size, size)
        done = run([PROGRAM, "archive", "--within", "1", "out.lib"], cwd=self.folder)
        self.assertEqual((done.stdout, done.returncode), (b"", 2))
        self.assertIn(b"invalid value '1' for '--within <BYTES>': it bounds the archive of --create", done.stderr)

    def refused(self, number, item, files, name, target="out.lib"):
        """The archive of files is refused by a fault of one of them, and the target is as it was."""
        (self.folder / "out.lib").write_bytes(b"old")
        subject, rule = words_of()[number]
        done = self.create(files, target)
        line = b"" if target == "-" else b"fault %d image 0 item %d\n" % (number, item)
        self.assertEqual((done.stdout, done.returncode), (line, 1))
        self.assertEqual(done.stderr.decode(), f"petool: {name}: {subject} {item}: {rule}\n")
        self.assertEqual((self.folder / "out.lib").read_bytes(), b"old")

    def test_names_that_would_be_read_back_as_others(self):
        self.refused(92, 1, [("a.obj", FIRST), ("b\nc.obj", FIRST), ("d\n", FIRST)], '"b\\x0ac.obj"')
        self.refused(92, 0, [("b\n", FIRST)], '"b\\x0a"', target="-")

    def test_too_many_members(self):
        self.refused(91, 65535, [("a", b"")] * 65536, "a")
        file = self.created([("a", b"")] * 65535)
        self.assertEqual(len(file), 8 + 60 + 4 + 60 + 8 + 4 * 65535 + 60 * 65535)

    def test_members_that_end_too_far_on(self):
        with open(self.folder / "large", "wb") as it:
            it.truncate((1 << 32) + 1)
        (self.folder / "a").write_bytes(FIRST)
        (self.folder / "out.lib").write_bytes(b"old")
        done = run([PROGRAM, "archive", "--create", "out.lib", "a", "large"], cwd=self.folder)
        subject, rule = words_of()[93]
        self.assertEqual((done.stdout, done.returncode), (b"fault 93 image 0 item 1\n", 1))
        self.assertEqual(done.stderr.decode(), f"petool: large: {subject} 1: {rule}\n")
        self.assertEqual((self.folder / "out.lib").read_bytes(), b"old")

    def test_files_that_are_not_there_or_are_the_archive(self):
        (self.folder / "out.lib").write_bytes(b"old")
        (self.folder / "a").write_bytes(FIRST)
        os.link(self.folder / "out.lib", self.folder / "link")
        for files, complained in [
            (["a", "none"], "petool: none: cannot be opened: "),
            (["a", "link"], "petool: out.lib: is the input file\n"),
            (["out.lib"], "petool: out.lib: is the input file\n"),
        ]:
            done = run([PROGRAM, "archive", "--create", "out.lib", *files], cwd=self.folder)
            self.assertEqual((done.stdout, done.returncode, (self.folder / "out.lib").read_bytes()), (b"", 3, b"old"))
            self.assertTrue(done.stderr.decode().startswith(complained), done.stderr)

    def test_a_folder_that_is_not_there(self):
        done = self.create([("a.obj", FIRST)], "none/out.lib")
        self.assertEqual((done.stdout, done.returncode), (b"", 3))
        self.assertTrue(done.stderr.decode().startswith("petool: none/out.lib: "), done.stderr)

    @unittest.skipUnless(AR, "left out without llvm: there is no llvm-ar-16")
    def test_members_as_llvm_ar_lists_them(self):
        self.created(FILES)
        listed = run([AR, "t", "out.lib"], cwd=self.folder)
        self.assertEqual(listed.stdout.decode().splitlines(), [name for name, _ in FILES])
        for name, content in FILES:
            self.assertEqual(run([AR, "p", "out.lib", name], cwd=self.folder).stdout, content)

    @unittest.skipUnless(NM, "left out without llvm: there is no llvm-nm-16")
    @unittest.skipUnless(GNU_NM, "left out without mingw: there is no nm of mingw-w64")
    def test_symbols_as_nm_finds_them(self):
        self.created(FILES[:4])
        for words, separator in (([NM, "--print-armap"], " in "), ([GNU_NM, "-s"], " in ")):
            lines = run([*words, "out.lib"], cwd=self.folder).stdout.decode().splitlines()
            told = [tuple(line.split(separator)) for line in lines[lines.index("Archive map" if "Archive map" in lines else "Archive index:") + 1:] if separator in line]
            self.assertEqual(sorted(told), sorted((name.decode(), FILES[index][0]) for name, index in NAMES))

    @unittest.skipUnless(LD, "left out without mingw: there is no ld of mingw-w64")
    def test_a_linker_takes_the_member_that_defines_a_symbol(self):
        self.created([("other.obj", coff((b"other", 0, 1, EXTERNAL))), ("f.obj", coff((b"f", 0, 1, EXTERNAL)))])
        (self.folder / "main.obj").write_bytes(coff((b"start", 0, 1, EXTERNAL), (b"f", 0, 0, EXTERNAL)))
        done = run([LD, "-o", "a.exe", "-e", "start", "-M", "main.obj", "out.lib"], cwd=self.folder)
        self.assertEqual(done.returncode, 0, done.stderr)
        loaded = [line for line in done.stdout.decode().splitlines() if line.startswith("LOAD ") or "out.lib(" in line]
        self.assertTrue(any("out.lib(f.obj)" in line for line in loaded), loaded)
        self.assertFalse(any("out.lib(other.obj)" in line for line in loaded), loaded)


if __name__ == "__main__":
    unittest.main()
