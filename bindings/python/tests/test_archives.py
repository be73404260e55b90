"""Archives as `petool archive` prints them: members in the forms of several tools, import objects, and each finding by a file."""

import os
import resource
import shutil
import struct
import unittest

from . import data
from .cases import run
from .finding_pages import PROGRAM, OverFiles, words_of

SIGNATURE, THIN = b"!<arch>\n", b"!<thin>\n"
O1 = data("o1.obj")


def header(name, size, date="0", user="0", group="0", mode="100644"):
    """The header of a member; a name that is a text is filled up with blanks."""
    fields = ((name, 16), (date, 12), (user, 6), (group, 6), (mode, 8), (str(size), 10))
    return b"".join(field.encode("latin-1").ljust(width) for field, width in fields) + b"`\n"


def member(name, content=b"", size=None):
    return header(name, len(content) if size is None else size) + content + b"\n" * (len(content) % 2)


def archive(*members, signature=SIGNATURE):
    return signature + b"".join(members)


def import_object(symbol=b"f", module=b"k.dll", export=None, name_type=1, kind=0, ordinal=0x1234, machine=0x8664, size=None):
    texts = b"".join(text + b"\0" for text in (symbol, module, export) if text is not None)
    what = kind | name_type << 2
    return struct.pack("<HHHHIIHH", 0, 0xFFFF, 0, machine, 0x5E000001, len(texts) if size is None else size, ordinal, what) + texts


AT = 8
#: Each finding with a file that meets it first, and the lines from the first member on.
FOUND = [
    (301, archive(header("a.o/", 0)[:-1]), AT, ["fault 301 image 0 file 0x00000008"]),
    (301, archive(header("a.o/", 0)[:-2] + b"\n`"), AT, ["fault 301 image 0 file 0x00000008"]),
    (302, archive(header("a.o/", "")), AT, ["fault 302 image 0 file 0x00000008"]),
    (302, archive(header("a.o/", "-1")), AT, ["fault 302 image 0 file 0x00000008"]),
    (302, archive(header("a.o/", "1 1") + b"x"), AT, ["fault 302 image 0 file 0x00000008"]),
    (303, archive(header("a.o/", 9999999999)), AT, ["fault 303 image 0 file 0x00000008"]),
    (303, archive(header("a.o/", 2) + b"x"), AT, ["fault 303 image 0 file 0x00000008"]),
    (304, archive(member("/4"), member("b.o/", import_object())), AT, [
        'member unnamed offset 0x00000008 size 0',
        "fault 304 image 0 file 0x00000008",
        "fault 61 image 0 file 0x00000000",
        'member "b.o" offset 0x00000044 size 28',
        'import "f" module "k.dll" name "f" hint 4660 type 0 code machine 0x8664 AMD64',
    ]),
    (304, archive(member("//", b"ab\n"), member("/3")), 0x48, None),
    (304, archive(member("#1/5", b"abcd")), AT, None),
    (307, archive(member("a.o/", b"x" * 19), member("b.o/", O1[:-1])), AT, None),
    (307, archive(member("a.o/", b"MZ" + bytes(18))), AT, ['member "a.o" offset 0x00000008 size 20', "fault 62 image 0 file 0x00000000"]),
    (331, archive(member("a.o/", import_object(size=9))), AT, ['member "a.o" offset 0x00000008 size 28', "fault 331 image 0 file 0x00000008"]),
    (332, archive(member("a.o/", import_object(size=7))), AT, None),
    (332, archive(member("a.o/", import_object(size=1))), AT, None),
    (332, archive(member("a.o/", import_object(name_type=4))), AT, None),
    (333, archive(member("a.o/", import_object(name_type=5))), AT, None),
]


@unittest.skipUnless(PROGRAM, "left out without program: PETOOL_PROGRAM names none")
class Archives(OverFiles, unittest.TestCase):
    def object_text(self, file):
        """What `petool object` prints of these bytes."""
        return self.petool(file, "object", "a").stdout

    def text(self, file, status=0):
        done = self.petool(file, "archive", "a")
        self.assertEqual((done.returncode, done.stderr if status == 0 else b""), (status, b""))
        return done.stdout

    def test_objects_are_printed_below_their_members(self):
        two = data("two.obj")
        file = archive(member("a.o/", O1), member("b.o/", two))
        second = 8 + 60 + len(O1) + len(O1) % 2
        self.assertEqual(
            self.text(file),
            b"archive\n"
            + b'member "a.o" offset 0x00000008 size %d\n' % len(O1) + self.object_text(O1)
            + b'member "b.o" offset 0x%08x size %d\n' % (second, len(two)) + self.object_text(two)
            + b"end\n",
        )

    def test_names_in_each_form(self):
        long = b"a long name of a member.o/\nanother/\n"
        microsoft = b"one long name of Microsoft.obj\0two.obj\0"
        for file, names in [
            (archive(member("//", long), member("/0"), member("/27"), member("/34")), ["//", "a long name of a member.o", "another", ""]),
            (archive(member("/", b"\0" * 4), member("/", b"\0" * 8), member("//", microsoft), member("/31")), ["/", "/", "//", "two.obj"]),
            (archive(member("#1/8", b"bsd.o\0\0\0" + O1), member("plain.o"), member("sixteen_letters/")), ["bsd.o", "plain.o", "sixteen_letters"]),
            (archive(member("/SYM64/", b""), member("a b.o/"), member("__.SYMDEF", b"")), ["/SYM64/", "a b.o", "__.SYMDEF"]),
            (archive(member("Debug\\a.obj/")), ["Debug\\a.obj"]),
        ]:
            with self.subTest(names):
                lines = self.petool(file, "archive", "a").stdout.decode().splitlines()
                told = [line.split('"')[1] for line in lines if line.startswith("member")]
                self.assertEqual(told, [name.replace("\\", "\\x5c") for name in names])

    def test_an_object_after_its_name(self):
        text = self.text(archive(member("#1/8", b"bsd.o\0\0\0" + O1)))
        self.assertEqual(text, b'archive\nmember "bsd.o" offset 0x00000008 size %d\n' % (len(O1) + 8) + self.object_text(O1) + b"end\n")

    def test_import_objects(self):
        for made, line in [
            (import_object(), 'import "f" module "k.dll" name "f" hint 4660 type 0 code machine 0x8664 AMD64'),
            (import_object(name_type=0, kind=1), 'import "f" module "k.dll" ordinal 4660 type 1 data machine 0x8664 AMD64'),
            (import_object(b"_f@8", kind=2, machine=0x14C), 'import "_f@8" module "k.dll" name "_f@8" hint 4660 type 2 const machine 0x014c I386'),
            (import_object(b"_f@8", name_type=2), 'import "_f@8" module "k.dll" name "f@8" hint 4660 type 0 code machine 0x8664 AMD64'),
            (import_object(b"?f@@8", name_type=3), 'import "?f@@8" module "k.dll" name "f" hint 4660 type 0 code machine 0x8664 AMD64'),
            (import_object(b"_@f", name_type=3, kind=3), 'import "_@f" module "k.dll" name "" hint 4660 type 3 other machine 0x8664 AMD64'),
            (import_object(b"f", export=b"g", name_type=4, machine=0xFFFE),
             'import "f" module "k.dll" name "g" hint 4660 type 0 code machine 0xfffe'),
        ]:
            with self.subTest(line):
                text = self.text(archive(member("k.dll/", made))).decode()
                self.assertEqual(text, f'archive\nmember "k.dll" offset 0x00000008 size {len(made)}\n{line}\nend\n')

    def test_a_thin_archive_has_lines_of_members_alone(self):
        file = archive(member("//", b"dir/a.o/\n"), header("/0", 10000), header("b.o/", 3), signature=THIN)
        self.assertEqual(
            self.text(file),
            b'thin archive\nmember "//" offset 0x00000008 size 9\nmember "dir/a.o" offset 0x0000004e size 10000\n'
            b'member "b.o" offset 0x0000008a size 3\nend\n',
        )

    def test_each_finding_has_a_file(self):
        words = words_of()
        told = {number for number in words if 300 < number < 305 or number == 307 or 330 < number < 340}
        self.assertEqual({it[0] for it in FOUND}, told)
        for number, file, at, lines in FOUND:
            with self.subTest(number):
                done = self.petool(file, "archive", "a")
                subject, rule = words[number]
                self.assertEqual((done.returncode, done.stderr.decode()), (1, f"petool: a: {subject} at 0x{at:x}: {rule}\n"))
                if lines:
                    self.assertEqual(done.stdout.decode().splitlines(), ["archive", *lines, "end"])

    def test_a_cut_archive_ends_with_its_finding(self):
        whole = archive(member("a.o/", O1))
        for size in range(8, len(whole)):
            text = self.petool(whole[:size], "archive", "a").stdout
            if size in (8, 8 + 60 + len(O1)):
                continue
            finding = 301 if size < 68 else 303
            self.assertEqual(text.decode(), f"archive\nfault {finding} image 0 file 0x00000008\nend\n")

    def test_files_that_are_no_archives(self):
        subject, rule = words_of()[300]
        for file in (b"", SIGNATURE[:7], b"!<arch>\r\n", b"!<ARCH>\n", O1, data("v1.dll")):
            done = self.petool(file, "archive", "a")
            self.assertEqual(
                (done.stdout, done.stderr.decode(), done.returncode),
                (b"fault 300 image 0 file 0x00000000\n", f"petool: a: {subject} at 0x0: {rule}\n", 1),
            )

    def test_of_another_file_no_more_is_read_than_its_beginning(self):
        with open(self.folder / "long", "wb") as it:
            it.write(b"MZ")
            it.truncate(3 << 30)
        for words, given in ((["long"], None), (["-"], self.folder / "long")):
            with open(given or os.devnull, "rb") as stdin:
                done = run([PROGRAM, "archive", *words], cwd=self.folder, stdin=stdin, preexec_fn=lambda: resource.setrlimit(resource.RLIMIT_AS, (1 << 30, 1 << 30)))
            self.assertEqual((done.stdout, done.returncode), (b"fault 300 image 0 file 0x00000000\n", 1))

    def test_a_file_of_over_4_gib_is_not_read(self):
        with open(self.folder / "large", "wb") as it:
            it.write(archive(member("a.o/")))
            it.truncate((1 << 32) + 1)
        done = run([PROGRAM, "archive", "large"], cwd=self.folder)
        self.assertEqual((done.stdout, done.returncode), (b"fault 1 image 0 file 0x100000000\n", 1))

    def test_an_empty_archive_and_one_from_standard_input(self):
        self.assertEqual(self.text(SIGNATURE), b"archive\nend\n")
        done = run([PROGRAM, "archive", "-"], input=archive(member("a.o/", O1)))
        self.assertEqual((done.stdout, done.returncode), (self.text(archive(member("a.o/", O1))), 0))

    def test_a_limit_cuts_the_text(self):
        done = self.petool(archive(member("a.o/", O1)), "archive", "--most", "20", "a")
        self.assertEqual((done.stdout, done.returncode), (b'archive\nmember "a.o"\n(cut after 20 bytes)\n', 5))

    def test_commands_for_objects_and_images_still_refuse_archives(self):
        for command, line in (("object", b"fault 62 image 0 file 0x00000000\n"), ("dump", b"fault 3 image 0 file 0x00000000\n")):
            self.assertEqual(self.petool(archive(member("a.o/", O1)), command, "a").stdout, line)

    def extract(self, file, name, *options):
        """The status, the output and the errors of `--extract`."""
        done = self.petool(file, "archive", "--extract", name, *options, "a")
        return done.returncode, done.stdout, done.stderr.decode()

    def test_a_member_by_its_name(self):
        file = archive(
            member("//", b"a long name of a member.o/\na long name\n"), member("a.o/", O1), member("/0", b"long"), member("/27", b"shorter"),
            member("#1/8", b"bsd.o\0\0\0inside"), member("a.o/", b"second"), member("a b.o/", b""), member("/5", b"the end of a long name"),
        )
        for name, options, content in [
            ("a.o", (), O1),
            ("a.o", ("--index", "1"), O1),
            ("a.o", ("--index", "2"), b"second"),
            ("a long name of a member.o", (), b"long"),
            ("a long name", (), b"shorter"),
            ("g name of a member.o", (), b"the end of a long name"),
            ("bsd.o", (), b"inside"),
            ("a b.o", (), b""),
            ("//", (), b"a long name of a member.o/\na long name\n"),
        ]:
            with self.subTest(name, options=options):
                self.assertEqual(self.extract(file, name, *options), (0, content, ""))

    def test_members_that_are_not_there(self):
        file = archive(member("//", b"abc/\n"), member("/0", b"x"), member("a.o/", O1), member("/9", b"without a name"))
        for name, options in [("a", ()), ("a.o", ("--index", "2")), ("ab", ()), ("abcd", ()), ("abc/", ()), ("a.o/", ()), ("", ()), ("/9", ())]:
            with self.subTest(name, options=options):
                self.assertEqual(self.extract(file, name, *options), (2, b"", "petool: a: there is no such member\n"))

    def test_a_member_before_a_finding(self):
        subject, rule = words_of()[303]
        file = archive(member("a.o/", O1), header("b.o/", 2) + b"x")
        at = 8 + 60 + len(O1) + len(O1) % 2
        self.assertEqual(self.extract(file, "a.o"), (0, O1, ""))
        for name in ("b.o", "c.o"):
            self.assertEqual(self.extract(file, name), (1, b"", f"petool: a: {subject} at 0x{at:x}: {rule}\n"))

    def test_no_member_of_a_thin_archive_or_of_another_file(self):
        file = archive(member("//", b"dir/a.o/\n"), header("/0", 10000), signature=THIN)
        self.assertEqual(self.extract(file, "dir/a.o"), (1, b"", "petool: a: the archive is thin: the member is a file of its own\n"))
        self.assertEqual(self.extract(file, "//"), (0, b"dir/a.o/\n", ""))
        subject, rule = words_of()[300]
        self.assertEqual(self.extract(O1, "a.o"), (1, b"", f"petool: a: {subject} at 0x0: {rule}\n"))

    @unittest.skipUnless(shutil.which("ar"), "left out without ar")
    def test_an_archive_of_ar(self):
        names = ["a.o", "a name with blanks.o", "a_name_of_more_than_fifteen_letters.o"]
        for name in names:
            (self.folder / name).write_bytes(O1)
        run(["ar", "rcD", "made.a", *names], cwd=self.folder, check=True)
        text = run([PROGRAM, "archive", "made.a"], cwd=self.folder).stdout.decode()
        told = [line.split('"')[1] for line in text.splitlines() if line.startswith("member")]
        self.assertEqual([name for name in told if name[0] != "/"], names)
        self.assertEqual(text.count(self.object_text(O1).decode()), 3)
        for name in names:
            self.assertEqual(self.extract((self.folder / "made.a").read_bytes(), name), (0, O1, ""))
