"""The numbers that the rules of faults compare: on a page, in a message and in a line of JSON of the program, and as ``values`` of
the package. Each file breaks one rule, and its numbers were read from its bytes by hand; images end at 0x3000, and a string that is
not ended is in a section that ends at 0x1080. And what a refused file is instead."""

import json
import os
import pathlib
import struct
import tempfile
import unittest

import petool

from .cases import run
from .files import edited, library

PROGRAM = os.environ.get("PETOOL_PROGRAM")

#: A file, in words for :func:`edited`; the numbers of its fault in words; and by name.
IMAGES = [
    # faults 2 to 15, of headers and sections
    ("v1.dll len=3f", "it has 63", {"file_size": 63}),
    ("v1.dll len=40", "it is 0x40, and the file has 64 bytes", {"offset": 0x40, "file_size": 64}),
    ("v1.dll 0x54=00", "it is 0, and the fixed fields take 96", {"size": 0, "needed": 96}),
    (
        "v1.dll 0x54=df",
        "it is 223, and the fixed fields and directories of 16 take 224",
        {"size": 223, "directories": 16, "needed": 224},
    ),
    ("v1.dll len=5a", "224 bytes at 0x58, and the file has 90", {"size": 224, "offset": 0x58, "file_size": 90}),
    ("v1.dll 0x46=61", "it has 97", {"number_of_sections": 97}),
    ("v1.dll 0x46=60", "3840 bytes at 0x138, and the file has 1024", {"size": 3840, "offset": 0x138, "file_size": 1024}),
    ("v1.dll 0x90=01000080", "it is 0x80000001", {"size_of_image": 0x80000001}),
    ("v1.dll 0x94=5f010000", "they end at 0x15f, and the section table at 0x160", {"end": 0x15F, "table_end": 0x160}),
    ("v1.dll len=160", "512 bytes at 0x0, and the file has 352", {"size": 512, "offset": 0, "file_size": 352}),
    ("v1.dll 0x90=ff010000", "they end at 0x200, and the image at 0x1ff", {"end": 0x200, "image_end": 0x1FF}),
    ("v1.dll len=200", "16 bytes at 0x200, and the file has 512", {"size": 16, "offset": 0x200, "file_size": 512}),
    ("v1.dll 0x144=f12f", "it ends at RVA 0x3001, and the image at 0x3000", {"end": 0x3001, "image_end": 0x3000}),
    ("v1.dll 0x144=ff01", "it begins at RVA 0x1ff, and the headers end at 0x200", {"begin": 0x1FF, "headers_end": 0x200}),
    # 16 to 22, of exports
    (
        "vb.dll 0xb8=d92f",
        "40 bytes at RVA 0x2fd9, and the image ends at 0x3000",
        {"size": 40, "rva": 0x2FD9, "image_end": 0x3000},
    ),
    (
        "vb.dll 0x23c=f52f",
        "12 bytes at RVA 0x2ff5, and the image ends at 0x3000",
        {"size": 12, "rva": 0x2FF5, "image_end": 0x3000},
    ),
    (
        "vb.dll 0x240=fd2f",
        "4 bytes at RVA 0x2ffd, and the image ends at 0x3000",
        {"size": 4, "rva": 0x2FFD, "image_end": 0x3000},
    ),
    (
        "vb.dll 0x244=ff2f",
        "2 bytes at RVA 0x2fff, and the image ends at 0x3000",
        {"size": 2, "rva": 0x2FFF, "image_end": 0x3000},
    ),
    ("vb.dll 0x90=00000800 0x234=01000100", "it has 65537, and the limit is 65536", {"count": 65537, "limit": 65536}),
    ("vb.dll 0x90=00000800 0x238=02000100", "it has 65538, and the limit is 65536", {"count": 65538, "limit": 65536}),
    ("vb.dll 0x254=0030", "the RVA is 0x3000, and the image ends at 0x3000", {"rva": 0x3000, "image_end": 0x3000}),
    (
        "vb.dll 0x254=7e10 0x27e=6161",
        "the RVA is 0x107e, and no zero byte follows before 0x1080",
        {"rva": 0x107E, "end": 0x1080},
    ),
    ("vb.dll 0x258=07", "it is 7, and there are 3", {"index": 7, "count": 3}),
    ("vb.dll 0x250=ffffffff", "the RVA is 0xffffffff, and the image ends at 0x3000", {"rva": 0xFFFFFFFF, "image_end": 0x3000}),
    ("va.dll 0x262=00", "its string at RVA 0x1060 has 2 bytes", {"rva": 0x1060, "length": 2}),
    # 24 to 32, of imports
    (
        "vc.dll 0xc0=ed2f",
        "20 bytes at RVA 0x2fed, and the image ends at 0x3000",
        {"size": 20, "rva": 0x2FED, "image_end": 0x3000},
    ),
    ("vc.dll 0x20c=0130", "the RVA is 0x3001, and the image ends at 0x3000", {"rva": 0x3001, "image_end": 0x3000}),
    (
        "vc.dll 0x20c=7f10 0x27f=61",
        "the RVA is 0x107f, and no zero byte follows before 0x1080",
        {"rva": 0x107F, "end": 0x1080},
    ),
    (
        "vc.dll 0x200=fd2f",
        "4 bytes at RVA 0x2ffd, and the image ends at 0x3000",
        {"size": 4, "rva": 0x2FFD, "image_end": 0x3000},
    ),
    (
        "vd.dll 0x200=f92f",
        "8 bytes at RVA 0x2ff9, and the image ends at 0x3000",
        {"size": 8, "rva": 0x2FF9, "image_end": 0x3000},
    ),
    ("vc.dll 0x228=fe2f", "the RVA is 0x3000, and the image ends at 0x3000", {"rva": 0x3000, "image_end": 0x3000}),
    ("vd.dll 0x254=01", "they are 0x2", {"bits": 2}),
    ("vd.dll 0x253=80", "they are 0x1", {"bits": 1}),
    ("vc.dll 0x200=0000 0x204=0102", "it is 0x201", {"time_stamp": 0x201}),
    # 33 to 38, of base relocations
    ("v2.dll 0x404=09", "its size is 9, and the directory has 12 bytes left", {"size": 9, "left": 12}),
    ("v2.dll 0x404=0e", "its size is 14, and the directory has 12 bytes left", {"size": 14, "left": 12}),
    (
        "v2.dll 0xe4=0110",
        "4097 bytes at RVA 0x2000, and the image ends at 0x3000",
        {"size": 4097, "rva": 0x2000, "image_end": 0x3000},
    ),
    ("v2.dll 0x408=0840", "the type is 4, and the field is at RVA 0x1008", {"type": 4, "field": 0x1008}),
    ("v2.dll 0x40a=00b0", "the type is 11, and the field is at RVA 0x1000", {"type": 11, "field": 0x1000}),
    (
        "v2.dll 0x400=0020 0x408=f9af",
        "8 bytes at RVA 0x2ff9, and the image ends at 0x3000",
        {"size": 8, "rva": 0x2FF9, "image_end": 0x3000},
    ),
    (
        "v2.dll 0x400=0020 0x408=ff1f",
        "2 bytes at RVA 0x2fff, and the image ends at 0x3000",
        {"size": 2, "rva": 0x2FFF, "image_end": 0x3000},
    ),
    ("v2.dll 0x40a=0530", "4 bytes at RVA 0x1005", {"size": 4, "rva": 0x1005}),
    (
        "vc.dll len=600 0x46=02 0xe0=002000000c 0x160=2e72656c6f63 0x168=0c0000000020 0x170=000200000004 0x184=400000c0"
        " 0x400=001000000c00000033300000",
        "4 bytes at RVA 0x1033",
        {"size": 4, "rva": 0x1033},
    ),
]

#: The same of objects: faults 61 to 72.
OBJECTS = [
    ("o1.obj len=13", "it has 19", {"file_size": 19}),
    ("o1.obj len=3b", "40 bytes at 0x14, and the file has 59", {"size": 40, "offset": 20, "file_size": 59}),
    ("o1.obj 0x24=84", "132 bytes at 0x3c, and the file has 191", {"size": 132, "offset": 0x3C, "file_size": 191}),
    ("o1.obj 0x34=ffff", "655350 bytes at 0x42, and the file has 191", {"size": 655350, "offset": 0x42, "file_size": 191}),
    ("o1.obj 0xc=07", "126 bytes at 0x4c, and the file has 191", {"size": 126, "offset": 0x4C, "file_size": 191}),
    ("o1.obj len=a7", "4 bytes at 0xa6, and the file has 167", {"size": 4, "offset": 0xA6, "file_size": 167}),
    ("o1.obj 0xa6=03", "the size is 3", {"size": 3}),
    ("o1.obj 0xa6=1a", "26 bytes at 0xa6, and the file has 191", {"size": 26, "offset": 0xA6, "file_size": 191}),
    ("o1.obj 0x86=19", "the offset is 25, and the table has 25 bytes", {"offset": 25, "size": 25}),
    # a symbol table that begins in the section table
    ("o1.obj 0x8=28 0xc=07 0x24=00 0x28=00", "the offset is 66, and the table has 25 bytes", {"offset": 66, "size": 25}),
    ("o1.obj 0x5d=05", "it has 5, and the table has 4 records left", {"count": 5, "left": 4}),
    ("o1.obj 0xa5=02", "it has 2, and the table has 0 records left", {"count": 2, "left": 0}),
    ("o1.obj 0x7c=02", "it is 2, and there are 1", {"index": 2, "count": 1}),
    ("o1.obj 0x46=07", "it is 7, and there are 5", {"index": 7, "count": 5}),
]

#: Files whose fault has no numbers: 3, 5, 6, 62, 65, and 69 of a section.
BARE = ["v1.dll 0x0=4c", "v1.dll 0x41=44", "v1.dll 0x58=0a02"]
BARE_OBJECTS = ["o1.obj 0x0=0000ffff", "o1.obj 0x3b=61 0x34=ffff", "o1.obj 0x15=3939"]

#: How archives begin, of which `show` and `json` tell more.
ARCHIVES = (b"!<arch>\n", b"!<thin>\n")
#: The first bytes of files of other kinds, the clause of each in messages, and its name.
KINDS = [
    (b"MZ" + bytes(18), None, None),
    (b"\x7fELF" + bytes(16), "it is an ELF file", "ELF file"),
    (b"!<arch>\n" + bytes(12), "it is an archive", "archive"),
    (b"!<thin>\n/               0", "it is a thin archive", "thin archive"),
    (b"a text of few words", "it is a text", "text"),
    # the import header: 0, ffff, version 0, Machine, time stamp, size, hint, type
    (struct.pack("<HHHHIIHH", 0, 0xFFFF, 0, 0x8664, 0, 8, 0, 4), "it is an import object", "import object"),
    (struct.pack("<HHHHIIHH", 0, 0xFFFF, 0, 0x14C, 0, 8, 0, 4) + bytes(80), "it is an import object", "import object"),
    # the header of an object compiled with /bigobj: 0, ffff, version 2, Machine, time stamp, class
    (
        struct.pack("<HHHHI", 0, 0xFFFF, 2, 0x8664, 0) + bytes.fromhex("c7a1bad1eebaa94baf20faf66aa4dcb8") + bytes(28),
        "it is a /bigobj object",
        "/bigobj object",
    ),
    # such a header of version 1, and one of another class, are of no kind that has a name here
    (struct.pack("<HHHHI", 0, 0xFFFF, 1, 0x8664, 0) + bytes.fromhex("c7a1bad1eebaa94baf20faf66aa4dcb8"), None, None),
    (struct.pack("<HHHHI", 0, 0xFFFF, 2, 0x8664, 0) + bytes.fromhex("38feb30ca5d9ab4dac9bd6b6222653c2"), None, None),
    # and so is one whose class has another last byte
    (struct.pack("<HHHHI", 0, 0xFFFF, 2, 0x8664, 0) + bytes.fromhex("c7a1bad1eebaa94baf20faf66aa4dcb9") + bytes(80), None, None),
    (bytes(20), None, None),
]


def deep():
    """A library of over 4,096 bytes: the forwarder of its last ordinal, 1499, has the string `xy`, at RVA 0x1028 + 4 * 1500 + 1499 *
    4."""
    return library([b"m.x"] * 1499 + [b"xy"])


def deep_object():
    """An object of over 4,096 bytes, whose string table, behind 300 symbols, states a size of 3."""
    symbols = struct.pack("<8sIHHBB", b"s", 0, 0, 0, 2, 0) * 300
    return struct.pack("<HHIIIHH", 0x8664, 0, 0, 20, 300, 0, 0) + symbols + struct.pack("<I", 3)


DEEP = ("its string at RVA 0x3f04 has 2 bytes", {"rva": 0x3F04, "length": 2})


class Values(unittest.TestCase):
    """``values`` of the package."""

    def raised(self, kind, file):
        with self.assertRaises(petool.FormatFault) as caught:
            kind(file).close()
        return caught.exception

    def test_a_fault_has_its_numbers(self):
        for kind, rows in ((petool.Image, IMAGES), (petool.Object, OBJECTS)):
            for words, _, values in rows:
                with self.subTest(words):
                    self.assertEqual(dict(self.raised(kind, edited(words.split())).values), values)

    def test_a_fault_without_numbers(self):
        for kind, rows in ((petool.Image, BARE), (petool.Object, BARE_OBJECTS)):
            for words in rows:
                with self.subTest(words):
                    self.assertEqual(self.raised(kind, edited(words.split())).values, {})

    def test_a_fault_behind_the_first_bytes(self):
        self.assertEqual(self.raised(petool.Image, deep()).values, DEEP[1])
        self.assertEqual(self.raised(petool.Object, deep_object()).values, {"size": 3})


@unittest.skipUnless(PROGRAM, "left out without program: PETOOL_PROGRAM names none")
class Program(unittest.TestCase):
    """What the program prints."""

    def setUp(self):
        folder = tempfile.TemporaryDirectory()
        self.addCleanup(folder.cleanup)
        self.path = pathlib.Path(folder.name, "file")

    def fault_row(self, *command):
        """The row of the fault on a page."""
        lines = run([PROGRAM, *command, str(self.path)]).stdout.decode().split("\n")
        return next(line for line in lines if line.startswith("Fault "))

    def told(self, command):
        """The message of a command."""
        return run([PROGRAM, command, str(self.path)]).stderr.decode()

    def json(self):
        return json.loads(run([PROGRAM, "json", str(self.path)]).stdout.decode())

    def assert_told(self, command, text, values):
        message, row, line = self.told(command), self.fault_row("show"), self.json()
        number = line["fault"]["number"]
        sentence = f"Fault {number}: " + message.split(f"{self.path}: ")[1].rstrip("\n")
        self.assertEqual(sentence, row)
        self.assertTrue(row.endswith(f"{line['fault']['rule']}: {text}"), row)
        self.assertEqual(line["fault"]["values"], values)
        self.assertEqual(list(line["fault"]), ["number", "image", "place", "subject", "rule", "values"])

    def test_a_fault_has_its_numbers(self):
        for command, rows in (("check", IMAGES), ("object", OBJECTS)):
            for words, text, values in rows:
                # an object's file of fewer than two bytes is no object's to `show`
                with self.subTest(words):
                    self.path.write_bytes(edited(words.split()))
                    self.assert_told(command, text, values)

    def test_a_fault_without_numbers(self):
        for command, rows in (("check", BARE), ("object", BARE_OBJECTS)):
            for words in rows:
                with self.subTest(words):
                    self.path.write_bytes(edited(words.split()))
                    line = self.json()
                    self.assertEqual(list(line["fault"]), ["number", "image", "place", "subject", "rule"])
                    message = self.told(command).rstrip("\n").partition("; ")[0]
                    self.assertTrue(command == "object" or message.endswith(line["fault"]["rule"]), message)

    def test_a_fault_behind_the_first_bytes(self):
        text, values = DEEP
        self.path.write_bytes(deep())
        self.assert_told("check", text, values)
        for command in ("dump", "show", "at"):
            words = [PROGRAM, command, str(self.path), *["0"] * (command == "at")]
            done = run(words)
            self.assertIn(f"MODULE.#ORDINAL: {text}\n", (done.stdout + done.stderr).decode())
        self.path.write_bytes(deep_object())
        self.assert_told("object", "the size is 3", {"size": 3})

    def test_a_fault_of_a_file_from_a_pipe(self):
        for words in (["check", "-"], ["dump", "-"], ["at", "-", "0"]):
            done = run([PROGRAM, *words], input=deep())
            self.assertTrue(done.stderr.decode().endswith(f"MODULE.#ORDINAL: {DEEP[0]}\n"), done.stderr)
        done = run([PROGRAM, "object", "-"], input=deep_object())
        self.assertTrue(done.stderr.decode().endswith("the end of the file: the size is 3\n"), done.stderr)

    def test_sets_and_other_bases(self):
        """Faults 45 and 46: VB takes 0x3000 bytes, and then 0x10100; V1 without its base relocations must be at its ImageBase."""
        self.path.write_bytes(edited(["vb.dll"]))
        done = run([PROGRAM, "map", f"ffff0000={self.path}"])
        self.assertEqual(done.returncode, 0, done.stderr)
        self.path.write_bytes(edited(["vb.dll", "0x90=00010100"]))
        done = run([PROGRAM, "map", f"ffff0000={self.path}"])
        self.assertTrue(done.stderr.decode().endswith("past the end of the address space: SizeOfImage is 0x10100\n"), done.stderr)
        self.path.write_bytes(edited(["v1.dll", "0x56=03"]))
        for command in ("map", f"20000000={self.path}"), ("rebase", "20000000", str(self.path), f"{self.path}.new"):
            done = run([PROGRAM, *command])
            self.assertTrue(done.stderr.decode().endswith("not its ImageBase: ImageBase is 0x10000000\n"), done.stderr)

    def test_what_a_file_is_instead(self):
        for first, clause, name in KINDS:
            with self.subTest(first):
                self.path.write_bytes(first)
                # pages and lines of JSON read archives and big objects
                if name == "/bigobj object":
                    line = self.json()
                    self.assertEqual((line["accepted"], line["format"]), (True, "BIGOBJ"))
                elif not first.startswith(ARCHIVES):
                    line, row = self.json(), self.fault_row("show")
                    self.assertEqual(line.get("kind"), name)
                    self.assertEqual(list(line), ["schema", "file", "accepted", *["kind"] * (name is not None), "fault"])
                    self.assertEqual(row.partition("; ")[2], clause or "")
                self.assertEqual(self.told("check").rstrip("\n").partition("; ")[2], clause or "")
                if first[:2] != b"MZ":
                    # `object` says what reads a big object
                    read = ", which --big reads" if name == "/bigobj object" else ""
                    self.assertEqual(self.told("object").rstrip("\n").partition("; ")[2], (clause or "") + read)


if __name__ == "__main__":
    unittest.main()
