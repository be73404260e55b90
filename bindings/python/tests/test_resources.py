"""Resources on pages, at places, and as `petool resource` lists and writes them; and each finding on them by a file of its own."""

import struct
import subprocess
import unittest

from .cases import run
from .files import numbers
from .finding_pages import PROGRAM, FindingPages
from .trees import FIXED, RVA, TEXT, block, directory, image, leaf, string, tree, version, wide

#: A tree of all kinds of names: texts, of which two are no words, types of winuser.h, and a type that has no name.
MANIFEST = b"\xef\xbb\xbf<?xml version='1.0'?>\r\n<assembly>\r\n\t<a b=\"c\"/>\n\x1b[0m</assembly>\r\n"
VERSION = version(string("CompanyName", "Wine"), string("FileDescription", "A b\xfcro"), string("ProductName", "P"), string("Comments", ""))
NAMED = image(tree([
    ("TEXT", [("ONE", [(1033, (b"one", 1252)), (0x8018, (b"eins", 0))]), (7, [(9, (b"sieben!", 0))])]),
    ("TYPE LIB", leaf(b"abc", 0, "x/y")),
    (3, [(1, [(1033, (b"\x28" + bytes(39), 0))]), (2, [(1031, (bytes(5), 0))])]),
    (16, leaf(VERSION)),
    (24, leaf(MANIFEST, 0, 2)),
    (300, leaf(b"?", 1041, 9)),
]))


def chain(*offsets):
    """A directory of one entry that leads to the directory at each offset."""
    return directory(*((k + 1, TEXT | at) for k, at in enumerate(offsets)))


def data_entry(rva, size):
    return numbers(rva, size, 0, 0)


def with_version(data):
    """An image with version information of these bytes, which begin at RVA 0x1058."""
    return image(tree([(16, leaf(data))]))


#: The three directories of a leaf, whose data entry is at 0x48.
LEVELS = chain(0x18) + chain(0x30)
LEAF = LEVELS + directory((1033, 0x48))
AT = RVA + 0x58

#: Each finding with files that meet it and no other, and its place.
FOUND = [
    (181, image(bytes(15)), RVA),
    (182, image(chain(0x28) + directory() + chain(0x18, 0x18)[:-1]), RVA + 0x28),
    (182, image(directory((1, TEXT | 0x18)) + bytes(15)), RVA + 0x18),
    (182, image(directory((1, TEXT | 0x400))), RVA + 0x400),
    (183, image(directory((TEXT | 0x28, TEXT | 0x18), texts=1) + directory() + b"\2\0" + wide("ab")[:-1]), RVA + 0x28),
    (183, image(directory((TEXT | 0x28, TEXT | 0x18), texts=1) + directory() + b"\0"), RVA + 0x28),
    (184, image(LEAF + data_entry(RVA, 1)[:-1]), RVA + 0x48),
    (185, image(chain(0)), RVA),
    (185, image(chain(0x17) + bytes(16)), RVA + 0x17),
    (186, image(directory((1, 0x18)) + data_entry(RVA, 1)), RVA + 0x18),
    (186, image(chain(0x18) + directory((1, 0x30)) + data_entry(RVA, 1)), RVA + 0x30),
    (187, image(LEVELS + chain(0x48) + directory()), RVA + 0x48),
    (188, image(LEAF + data_entry(0x2FFF, 2)), RVA + 0x48),
    (188, image(LEAF + data_entry(0x80000000, 0x80000000)), RVA + 0x48),
    (189, image(tree([(3, leaf(b"a")), (2, leaf(b"b"))])), RVA),
    (189, image(tree([(3, [(1, [(1033, (b"a", 0)), (1033, (b"b", 0))])])])), RVA + 0x30),
    (189, image(tree([("B", leaf(b"a")), ("A", leaf(b"b"))])), RVA),
    (189, image(tree([(3, leaf(b"a")), ("A", leaf(b"b"))])), RVA),
    (211, with_version(version(fixed=FIXED[4:])), AT),
    (211, with_version(struct.pack("<HHH", 60, 0, 0) + bytes(54)), AT),
    (212, with_version(struct.pack("<H", 0xFFFF) + version()[2:]), AT),
    (212, with_version(block("VS_VERSION_INFO", FIXED, [block("StringFileInfo", children=[struct.pack("<HHH", 8, 0, 1)])], kind=0)),
     AT + 0x5C + 0x24),
    (213, with_version(block("VS_VERSION_INFO", FIXED, [struct.pack("<HHH", 8, 0, 1) + b"a\0"], kind=0)), AT + 0x5C),
    (214, with_version(block("VS_VERSION_INFO", FIXED, [struct.pack("<HHH", 5, 0, 1)], kind=0)), AT + 0x5C),
]

#: Files at the boundary that have no finding.
SOUND = [
    image(bytes(16)),
    image(chain(0x18) + bytes(16)),
    image(directory((TEXT | 0x28, TEXT | 0x18), texts=1) + directory() + b"\2\0" + wide("ab")),
    image(LEAF + data_entry(0x2FFF, 1)),
    image(LEAF + data_entry(0x3000, 0)),
    image(tree([("A", leaf(b"a")), ("AA", leaf(b"b")), (1, leaf(b"c"))])),
    NAMED,
    with_version(version()),
]


@unittest.skipUnless(PROGRAM, "left out without program: PETOOL_PROGRAM names none")
class Resources(FindingPages, unittest.TestCase):
    NUMBERS, FOUND, SOUND = (range(181, 221),), FOUND, SOUND

    def test_summaries(self):
        for file, summary in [
            (image(bytes(15)), "0 leaves, 1 finding"),
            (image(LEAF + data_entry(RVA, 1)), "1 leaf"),
            (NAMED, "9 leaves, version 1.2.3.4 'A b\xfcro'"),
            (with_version(version()), "1 leaf, version 1.2.3.4"),
            (with_version(version(string("FileDescription", "it's \x1b"))), "1 leaf, version 1.2.3.4 '\"it's \\x1b\"'"),
        ]:
            with self.subTest(summary):
                (row,) = self.parts(file)["Tables (1)"]
                self.assertTrue(row.endswith(f"   .data          {summary}"), row)

    def test_version_information_that_tells_nothing_gives_no_identity(self):
        for file in (with_version(version(fixed=FIXED[4:])), with_version(version(string("Comments", "C"), fixed=b"")), with_version(b"")):
            self.assertNotIn("Identity", self.parts(file))
        for row, file in [
            ("  Company      W", with_version(version(string("CompanyName", "W"), fixed=b""))),
            ("  Product      P", with_version(version(string("ProductName", "P"), fixed=b""))),
            ("  Version      1.2.3.4, of the product 5.6.7.8", with_version(version())),
            # a string of white space is none: the next one counts
            ("  Company      W", with_version(version(string("CompanyName", " \t\xa0\u3000"), string("CompanyName", "W"), string("ProductName", " "), fixed=b""))),
        ]:
            self.assertEqual(self.parts(file)["Identity"], [row])

    def test_the_parts_of_a_page(self):
        parts = self.parts(NAMED, "--resources")
        self.assertEqual(parts["Identity"], ["  Product      P", "  Company      Wine", "  Version      1.2.3.4, of the product 5.6.7.8"])
        self.assertEqual(parts["Resources (9)"], [
            "  TEXT",
            "    ONE  en-US  0x001264  3 bytes, code page 1252",
            "    ONE  language 0x8018  0x001268  4 bytes",
            "    7  en  0x00126c  7 bytes",
            "  \"TYPE LIB\"",
            "    \"x/y\"  neutral  0x001274  3 bytes",
            "  icon",
            "    1  en-US  0x001278  40 bytes",
            "    2  de-DE  0x0012a0  5 bytes",
            "  version",
            "    1  en-US  0x0012a8  384 bytes",
            "  manifest",
            "    2  neutral  0x001428  67 bytes",
            "  300",
            "    9  ja-JP  0x00146c  1 byte",
        ])
        self.assertEqual(parts["Version information"], [
            "  FileVersion     1.2.3.4",
            "  ProductVersion  5.6.7.8",
            "  FileFlagsMask   0x3f",
            "  FileFlags       0x1",
            "  FileOS          0x40004",
            "  FileType        0x2",
            "  FileSubtype     0x0",
            "  040904b0  CompanyName  Wine",
            "  040904b0  FileDescription  A b\xfcro",
            "  040904b0  ProductName  P",
            "  040904b0  Comments  \"\"",
        ])
        self.assertEqual(parts["Manifest"], [
            "  <?xml version='1.0'?>", "  <assembly>", "  \t<a b=\"c\"/>", "  \"\\x1b[0m</assembly>\""])
        self.assertEqual(set(self.parts(NAMED)), set(parts) - {"Resources (9)", "Version information", "Manifest"})

    def test_the_list(self):
        done = self.petool(NAMED, "resource", "a")
        self.assertEqual((done.stderr, done.returncode), (b"", 0))
        self.assertEqual(done.stdout.decode().split("\n"), [
            "TEXT/ONE/1033 rva 0x00001264 size 0x00000003 code-page 1252",
            "TEXT/ONE/32792 rva 0x00001268 size 0x00000004 code-page 0",
            "TEXT/7/9 rva 0x0000126c size 0x00000007 code-page 0",
            "\"TYPE LIB\"/\"x/y\"/0 rva 0x00001274 size 0x00000003 code-page 0",
            "icon/1/1033 rva 0x00001278 size 0x00000028 code-page 0",
            "icon/2/1031 rva 0x000012a0 size 0x00000005 code-page 0",
            "version/1/1033 rva 0x000012a8 size 0x00000180 code-page 0",
            "manifest/2/0 rva 0x00001428 size 0x00000043 code-page 0",
            "300/9/1041 rva 0x0000146c size 0x00000001 code-page 0",
            "",
        ])

    def test_a_leaf_that_is_not_at_the_third_level(self):
        file = image(directory((TEXT | 0x40, 0x18), texts=1) + data_entry(RVA, 2) + bytes(26))
        self.assertEqual(self.petool(file, "resource", "a").stdout, b"\"\" rva 0x00001000 size 0x00000002 code-page 0\n")
        self.assertEqual(self.parts(file, "--resources")["Resources (1)"], ["  \"\"", "    -  -  0x001000  2 bytes"])

    def test_the_bytes_of_a_leaf(self):
        for word, data in [
            ("TEXT", b"one"), ("TEXT/ONE/32792", b"eins"), ("TEXT//9", b"sieben!"), ("TEXT/7", b"sieben!"), ("/7", b"sieben!"), ("", b"one"),
            ("\"TEXT\"", b"one"), ("version", VERSION), ("VERSION/1/1033", VERSION), ("16", VERSION), ("24", MANIFEST), ("manifest", MANIFEST),
            ("icon/2", bytes(5)), ("icon//1031", bytes(5)), ("3/1", b"\x28" + bytes(39)), ("300", b"?"), ("TYPE LIB", b"abc"), ("//1041", b"?"),
        ]:
            with self.subTest(word):
                done = self.petool(NAMED, "resource", "a", word)
                self.assertEqual((done.stdout, done.stderr, done.returncode), (data, b"", 0))

    def test_a_type_that_is_a_text_like_a_word_of_winuser_is_in_quotes(self):
        file = image(tree([("MANIFEST", leaf(b"a")), ("manifest", leaf(b"b")), ("manifests", leaf(b"c")),
                           (5, [("manifest", [(0, (b"d", 0))])]), (24, leaf(b"e"))]))
        listed = self.petool(file, "resource", "a").stdout.decode().splitlines()
        paths = [line.split(" ")[0] for line in listed]
        self.assertEqual(paths, ['"MANIFEST"/1/1033', '"manifest"/1/1033', "manifests/1/1033", "dialog/manifest/0", "manifest/1/1033"])
        self.assertEqual([self.petool(file, "resource", "a", path).stdout for path in paths], [b"a", b"b", b"c", b"d", b"e"])
        self.assertEqual(self.parts(file, "--resources")["Resources (5)"][::2], [
            "  \"MANIFEST\"", "  \"manifest\"", "  manifests", "  dialog", "  manifest"])
        at = int(listed[1].split(" ")[2], 16)
        self.assertIn(b'  in leaf "manifest"/1/1033 +0x0\n', self.petool(file, "at", "a", f"{at:x}").stdout)

    def test_a_number_is_no_text(self):
        # where the name is the place of a text, its 32 bits are no number that an entry has
        file = image(tree([("TEXT", [(7, [(9, (b"a", 0))])])]))
        name = struct.unpack_from("<I", file, 0x210)[0]
        self.assertGreaterEqual(name, TEXT)
        self.assertEqual(self.petool(file, "resource", "a", f"{name}").returncode, 2)
        self.assertEqual(self.petool(file, "resource", "a", "TEXT").stdout, b"a")

    def test_a_list_that_is_cut(self):
        whole = self.petool(NAMED, "resource", "a").stdout
        done = self.petool(NAMED, "resource", "--most", "100", "a")
        self.assertEqual((done.returncode, done.stdout.split(b"\n(cut")[0]), (5, whole[:100].rstrip(b"\n")))
        self.assertEqual(self.petool(NAMED, "resource", "a", "--most", f"{len(whole)}").stdout, whole)
        done = self.petool(NAMED, "resource", "--most", "100", "a", "TEXT")
        self.assertEqual((done.stdout, done.returncode), (b"", 2))
        self.assertIn(b"invalid value '100' for '--most <BYTES>': it does not go with LEAF", done.stderr)

    def test_a_leaf_that_is_not_there(self):
        for word in ["bitmap", "TEXT/1", "text", "\"16\"", "version/1/1031", "icon/ONE"]:
            with self.subTest(word):
                done = self.petool(NAMED, "resource", "a", word)
                self.assertEqual((done.stdout, done.stderr, done.returncode), (b"", b"petool: a: there is no such resource\n", 2))
        done = self.petool(NAMED, "resource", "a", "version/1/1033/4")
        self.assertEqual((done.stdout, done.returncode), (b"", 2))
        done = self.petool(image(LEAF + data_entry(RVA, 0x59)), "resource", "a", "1")
        self.assertEqual((done.stdout, done.stderr, done.returncode), (b"", b"petool: a: the resource is not in the file\n", 1))
        self.assertEqual(self.petool(image(LEAF + data_entry(RVA, 0x58)), "resource", "a", "1").stdout, LEAF + data_entry(RVA, 0x58))

    def test_a_refused_file(self):
        cut = NAMED[:-1]
        done = self.petool(cut, "resource", "a")
        self.assertEqual((done.stdout, done.returncode), (b"fault 13 image 0 file 0x00000138\n", 1))
        self.assertTrue(done.stderr.startswith(b"petool: a: section header at 0x138: "), done.stderr)
        done = self.petool(cut, "resource", "a", "version")
        self.assertEqual((done.stdout, done.returncode), (b"", 1))
        self.assertTrue(done.stderr.startswith(b"petool: a: section header at 0x138: "), done.stderr)
        done = self.petool(b"", "resource", "a")
        self.assertEqual((done.stdout, done.returncode), (b"fault 2 image 0 file 0x00000000\n", 1))

    def test_an_image_without_resources(self):
        file = image(b"", size=0)[:0x200]
        done = self.petool(file, "resource", "a")
        self.assertEqual((done.stdout, done.returncode), (b"", 0))

    def test_a_file_from_standard_input(self):
        done = run([PROGRAM, "resource", "-", "300"], input=NAMED)
        self.assertEqual((done.stdout, done.stderr, done.returncode), (b"?", b"", 0))

    def test_an_output_that_fails(self):
        (self.folder / "a").write_bytes(NAMED)
        for words in (["resource", "a"], ["resource", "a", "version"]):
            with self.subTest(words), open("/dev/full", "wb") as full:
                done = subprocess.run([PROGRAM, *words], cwd=self.folder, stdout=full, stderr=subprocess.PIPE)
                self.assertEqual(done.returncode, 3)
                self.assertTrue(done.stderr.startswith(b"petool: standard output: "), done.stderr)

    def test_the_leaf_at_a_place(self):
        for place, told in [(0x1264, b"TEXT/ONE/1033 +0x0"), (0x1266, b"TEXT/ONE/1033 +0x2"), (0x1267, None), (0x12B4, b"version/1/1033 +0xc"),
                            (0x1274, b"\"TYPE LIB\"/\"x/y\"/0 +0x0"), (0x146D, None), (0x1000, None)]:
            with self.subTest(place):
                first = self.petool(NAMED, "at", "a", f"{place:x}").stdout.split(b"\n")[0]
                self.assertEqual(first.partition(b"  in leaf ")[2], told or b"")

    def test_hostile_trees_end(self):
        entries = 0x2000
        shared = directory(*((k, TEXT | 16 + 8 * entries) for k in range(entries))) + directory()
        self.assertEqual(len(self.parts(image(shared, image_size=0x100000))[f"Findings ({entries - 1:,})"]), entries - 1)

    def test_texts_are_cut(self):
        long = "n" * 300
        file = image(tree([(long, leaf(b"a"))]))
        self.assertEqual(self.petool(file, "resource", "a").stdout.split(b" ")[0], b"n" * 255 + b"../1/1033")
        self.assertEqual(self.petool(file, "resource", "a", long).stdout, b"a")
        self.assertEqual(wide("a"), b"a\0")


if __name__ == "__main__":
    unittest.main()
