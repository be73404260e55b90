"""The tables beyond the profile on pages: the summaries at their directories, their rows, and each finding by a file of its own."""

import re
import struct
import unittest

from .cases import run
from .files import changed, numbers, put
from .finding_pages import PROGRAM, FindingPages

AMD64, ARM64 = 0x8664, 0xAA64
BASE = 0x10000000


def image(index, size, section, rva=0x1000, machine=0x14C, image_size=0x3000):
    """V1 with these bytes in its section, which ends the file, and a directory. SizeOfImage is 0x3000, the section is at RVA 0x1000
    and in the file at 0x200."""
    file = bytearray(changed("v1.dll", size=0x200))
    put(file, (0x44, struct.pack("<H", machine)), (0xB8 + 8 * index, numbers(rva, size)), (0x90, numbers(image_size)))
    put(file, (0x140, numbers(len(section))), (0x148, numbers(len(section))))
    return bytes(file) + section


def entry(kind=0, size=0, rva=0, pointer=0):
    return struct.pack("<IIHHIIII", 0, 0, 0, 0, kind, size, rva, pointer)


def load(size, *fields):
    """A load configuration of `size` bytes with numbers of 4 bytes at these offsets."""
    return bytes(put(bytearray(numbers(size).ljust(size, b"\0")), *((at, numbers(value)) for at, value in fields)))


def clr(size, rva, length):
    return bytes(put(bytearray(numbers(size) + struct.pack("<HH", 2, 5) + bytes(64)), (8, numbers(rva, length))))


RSDS = b"RSDS" + bytes(range(0xA0, 0xB0)) + numbers(0x1A)
NB10 = b"NB10" + numbers(0, 0x3C0B6FD1, 3)
#: A TLS directory without a template and with its callbacks right after it.
TLS = numbers(0, 0, BASE + 0x1000, BASE + 0x1018, 0, 0)
CALLBACKS = numbers(BASE + 0x1000, BASE + 0x1004, 0)


def debug(data, kind=2):
    """A debug directory of one entry, with its data right after it."""
    return image(6, 28, entry(kind, len(data), 0x101C, 0x21C) + data)


#: Each finding with files that meet it and no other, and its place.
FOUND = [
    (101, image(6, 56, entry()), 0x1000),
    (101, image(6, 28, entry()[:27]), 0x1000),
    (102, image(6, 29, entry() + b"\0"), 0x1000),
    (103, image(6, 28, entry(2, 0x10000, 0, 0x21C) + RSDS + b"a.pdb\0"), 0x1000),
    (103, image(6, 28, entry(0, 29, 0, 0x200)), 0x1000),
    (104, image(6, 28, entry(0, 0x101, 0x2F00)), 0x1000),
    (105, debug(RSDS + b"a.pdb"), 0x1000),
    (105, debug(NB10 + b"a.pdb"), 0x1000),
    (105, image(6, 32 * 28, entry() * 31 + entry(2, 24, 0, 0x200 + 32 * 28) + RSDS), 0x1000 + 31 * 28),
    (111, image(3, 24, numbers(0x1000, 0x1001, 0x1000), machine=AMD64), 0x1000),
    (112, image(3, 13, numbers(0x1000, 0x1001, 0x1000) + b"\0", machine=AMD64), 0x1000),
    (113, image(3, 12, numbers(0x1001, 0x1000, 0x1000), machine=AMD64), 0x1000),
    (114, image(3, 12, numbers(0x1000, 0x3001, 0x1000), machine=AMD64), 0x1000),
    (115, image(3, 12, numbers(0x1000, 0x1001, 0x2FFE), machine=AMD64), 0x1000),
    (116, image(3, 24, numbers(0x1001, 0x1002, 0x1000, 0x1000, 0x1002, 0x1000), machine=AMD64), 0x100C),
    (111, image(3, 16, numbers(0x1000, 1), machine=ARM64), 0x1000),
    (112, image(3, 9, numbers(0x1000, 1) + b"\0", machine=ARM64), 0x1000),
    (114, image(3, 8, numbers(0x3000, 1), machine=ARM64), 0x1000),
    (115, image(3, 8, numbers(0x1000, 0x3000), machine=ARM64), 0x1000),
    (116, image(3, 16, numbers(0x1004, 1, 0x1000, 1), machine=ARM64), 0x1008),
    (131, image(9, 24, bytes(23)), 0x1000),
    (132, image(9, 24, numbers(BASE + 0x1001, BASE + 0x1000, 0, 0, 0, 0)), 0x1000),
    (133, image(9, 24, numbers(0, BASE + 0x3001, 0, 0, 0, 0)), 0x1000),
    (133, image(9, 24, numbers(0, 0, BASE + 0x3000, 0, 0, 0)), 0x1000),
    (133, image(9, 24, numbers(0, 0, BASE - 1, 0, 0, 0)), 0x1000),
    (134, image(9, 24, numbers(0, 0, 0, BASE + 0x3000, 0, 0)), 0x1000),
    (135, image(9, 24, TLS + CALLBACKS[:8]), 0x1018),
    (136, image(9, 24, TLS + numbers(BASE + 0x1000, BASE + 0x3000, 0)), 0x101C),
    (141, image(10, 64, bytes(3)), 0x1000),
    (142, image(10, 64, numbers(8)), 0x1000),
    (142, image(10, 64, numbers(0xFFFFFFFF)), 0x1000),
    (143, image(10, 64, numbers(3)), 0x1000),
    (143, image(10, 64, numbers(0)), 0x1000),
    (144, image(10, 64, load(72, (64, BASE + 0x1044), (68, 2))), 0x1000),
    (145, image(10, 64, load(92, (80, BASE + 0x3000), (84, 1))), 0x1000),
    (145, image(10, 64, load(92, (80, BASE + 0x1058), (84, 1), (88, 0x10000000))), 0x1000),
    (146, image(10, 64, load(172, (164, BASE + 0x10A8), (168, 2))), 0x1000),
    (147, image(10, 64, load(120, (104, BASE + 0x1074), (108, 2))), 0x1000),
    (147, image(10, 64, load(120, (112, BASE + 0x1074), (116, 2))), 0x1000),
    (151, image(11, 8, numbers(1, 0)), 0x1000),
    (151, image(11, 8, numbers(1, 0) + bytes(8)), 0x1000),
    (152, image(11, 16, numbers(1, 0x2000) + bytes(8)), 0x1000),
    (251, image(14, 72, clr(72, 0, 0)[:71]), 0x1000),
    (251, image(14, 72, bytes(3)), 0x1000),
    (252, image(14, 72, clr(72, 0x2F00, 0x101)), 0x1000),
]

#: Files without a finding.
SOUND = [
    image(6, 56, entry() + entry()),
    image(6, 28, entry(0, 28, 0, 0x200)),
    image(6, 28, entry(0, 0x100, 0x2F00)),
    debug(bytes(64)),
    debug(RSDS[:23]),
    debug(RSDS + b"a.pdb\0\0\0"),
    debug(RSDS + b"a.pdb", kind=1),
    # the path of the entry after the first 32
    image(6, 33 * 28, entry() * 32 + entry(2, 24, 0, 0x200 + 33 * 28) + RSDS),
    image(3, 12, numbers(0x1000, 0x1000, 0x2FFC), machine=AMD64),
    image(3, 12, numbers(0x1000, 0x3000, 0x2FFD), machine=AMD64),
    image(3, 16, numbers(0x2FFF, 0x2FFC, 0x2FFF, 0xFFFFFFFF), machine=ARM64),
    # a machine whose table has another form
    image(3, 13, bytes(13)),
    image(9, 0, TLS + CALLBACKS),
    image(9, 24, numbers(BASE + 0x3000, BASE + 0x3000, BASE + 0x2FFF, 0, 0, 0)),
    image(10, 0, load(72, (64, BASE + 0x1044), (68, 1))),
    image(10, 0, load(92, (80, BASE + 0x1058), (84, 1))),
    image(10, 0, load(92, (80, BASE + 0x3000), (84, 0))),
    image(11, 16, numbers(1, 0x1FFF) + bytes(8)),
    image(14, 0, clr(72, 0x2F00, 0x100)),
    image(14, 0, clr(72, 0, 0x3001)),
]

#: Directories of tables, and their summaries.
SUMMARIES = [
    (6, image(6, 28, entry()), "1 entry"),
    (6, debug(RSDS + b"C:\\x/y\\a b.pdb\0"), "1 entry, PDB a b.pdb"),
    (6, image(6, 56, entry() + entry()), "2 entries"),
    (6, image(6, 57, entry() + entry()), "2 entries, 2 findings"),
    (3, image(3, 12, numbers(0x1000, 0x1001, 0x1000), machine=AMD64), "1 function"),
    (3, image(3, 12, numbers(0x1001, 0x1000, 0x1000), machine=AMD64), "1 function, 1 finding"),
    (3, image(3, 16, numbers(0x1000, 1, 0x1000, 1), machine=ARM64), "2 functions"),
    (3, image(3, 16, bytes(16)), "not read"),
    (9, image(9, 24, TLS + CALLBACKS), "2 callbacks"),
    (9, image(9, 24, TLS + CALLBACKS[4:]), "1 callback"),
    (9, image(9, 24, bytes(23)), "0 callbacks, 1 finding"),
    (10, image(10, 64, load(72)), "72 bytes"),
    (10, image(10, 64, bytes(3)), "no field, 1 finding"),
    (11, image(11, 24, numbers(1, 0, 1, 0) + bytes(8)), "2 records"),
    (14, image(14, 72, clr(72, 0, 0)), "runtime 2.5"),
    (14, image(14, 72, bytes(3)), "no version, 1 finding"),
    # an image of 2^31 bytes whose directory leads into a gap
    (3, image(3, 0x7FFFDFDC, bytes(16), 0x2000, AMD64, 1 << 31), "0 functions, 1 finding"),
]

#: Files, the options, and the rows of the part with this heading.
ROWS = [
    (
        debug(RSDS + b"C:\\x\\a.pdb\0"),
        (),
        "Identity",
        [
            "  PDB          C:\\x\\a.pdb",
            "  GUID         a3a2a1a0-a5a4-a7a6-a8a9-aaabacadaeaf, age 26",
            "  Symbol key   a.pdb/A3A2A1A0A5A4A7A6A8A9AAABACADAEAF1a",
        ],
    ),
    (
        debug(NB10 + b"old.pdb\0"),
        (),
        "Identity",
        ["  PDB          old.pdb", "  Made         2001-12-03 12:28:01 UTC (0x3c0b6fd1), age 3", "  Symbol key   old.pdb/3C0B6FD13"],
    ),
    # the path is shown as far as the data goes
    (debug(RSDS + b"a.pd"), (), "Identity", None),
    (
        debug(RSDS + b"C:\\x\\a.pdb\0"),
        ("--debug",),
        "Debug directory (1)",
        ["   #  type                   RVA        file       bytes", "   0  CODEVIEW               0x00101c   0x00021c   0x0023   C:\\x\\a.pdb"],
    ),
    (
        image(6, 28 * 7, b"".join((
            entry(16, 8, 0, 0x2C4), entry(19, 11, 0, 0x2CC), entry(12, 20, 0, 0x2D7), entry(13, 4, 0, 0x2C4), entry(20, 4, 0, 0x2C4),
            entry(99), entry(2, 4, 0, 0x1000))) + numbers(4) + b"\1\2\3\xff" + b"SHA256\0\xab\xcd\xef\1" + numbers(1, 2, 3, 4, 5)),
        ("--debug",),
        "Debug directory (7)",
        [
            "   #  type                   RVA        file       bytes",
            "   0  REPRO                  0x000000   0x0002c4   0x0008   010203ff",
            "   1  PDBCHECKSUM            0x000000   0x0002cc   0x000b   SHA256 abcdef01",
            "   2  VC_FEATURE             0x000000   0x0002d7   0x0014   before VC 11: 1, C and C++: 2, /GS: 3, /sdl: 4, guarded: 5",
            "   3  POGO                   0x000000   0x0002c4   0x0004   signature 0x4",
            "   4  EX_DLLCHARACTERISTICS  0x000000   0x0002c4   0x0004   flags 0x4",
            "   5  type 99                0x000000   0x000000   0x0000   not in the file",
            "   6  CODEVIEW               0x000000   0x001000   0x0004   past the end of the file",
        ],
    ),
    (
        image(3, 24, numbers(0x1000, 0x1008, 0x1010, 0x1008, 0x1010, 0x1014), machine=AMD64),
        ("--functions",),
        "Functions (2)",
        [
            "  begin     end       unwind    place",
            "  0x001000  0x001008  0x001010  .data+0x0",
            "  0x001008  0x001010  0x001014  .data+0x8",
        ],
    ),
    (
        image(3, 16, numbers(0x1000, 0x1004, 0x1008, 0x123), machine=ARM64),
        ("--functions",),
        "Functions (2)",
        [
            "  begin     unwind             place",
            "  0x001000  record 0x00001004  .data+0x0",
            "  0x001008  packed 0x00000123  .data+0x8",
        ],
    ),
    (
        image(9, 24, TLS + CALLBACKS),
        ("--tls",),
        "TLS directory",
        [
            "  StartAddressOfRawData  0x0",
            "  EndAddressOfRawData    0x0",
            "  AddressOfIndex         0x10001000",
            "  AddressOfCallBacks     0x10001018",
            "  SizeOfZeroFill         0x0",
            "  Characteristics        0x0",
            "  callback 0x10001000  .data+0x0",
            "  callback 0x10001004  .data+0x4",
        ],
    ),
    (
        image(10, 64, load(12, (4, 0x12345678), (8, 0x20001))),
        ("--load",),
        "Load configuration (4)",
        [
            "  Size                                      0xc",
            "  TimeDateStamp                             0x12345678",
            "  MajorVersion                              0x1",
            "  MinorVersion                              0x2",
        ],
    ),
]


@unittest.skipUnless(PROGRAM, "left out without program: PETOOL_PROGRAM names none")
class Beyond(FindingPages, unittest.TestCase):
    # those of unwind information, of resources and of what a file says of itself have tests of their own
    NUMBERS, FOUND, SOUND = (range(101, 117), range(131, 161), range(251, 261)), FOUND, SOUND

    def test_a_finding_is_explained(self):
        done = run([PROGRAM, "explain", "103"])
        self.assertEqual(done.stdout.decode().split("\n"), [
            "finding 103: debug directory entry: its data extends past the end of the file",
            "  The data has SizeOfData bytes from PointerToRawData on.",
            "  Typical case: an image whose debug data was stripped from the end of its file.",
            "",
        ])

    def test_summaries(self):
        for index, file, summary in SUMMARIES:
            with self.subTest(summary):
                (row,) = self.parts(file)["Tables (1)"]
                self.assertRegex(row, rf"^ +{index}  .*  {re.escape(summary)}$")

    def test_rows(self):
        for number, (file, options, heading, rows) in enumerate(ROWS):
            with self.subTest(number):
                parts = self.parts(file, *options)
                if rows is None:
                    self.assertIn("  PDB          a.pd", parts[heading])
                else:
                    self.assertEqual(parts[heading], rows)
                    self.assertNotIn(heading, self.parts(file) if options else {})

    def test_the_function_at_a_place(self):
        file = image(3, 24, numbers(0x1000, 0x1008, 0x1010, 0x1009, 0x1011, 0x1014), machine=AMD64)
        (self.folder / "a").write_bytes(file)
        for place, told in [(0x1000, "0x1000 to 0x1008"), (0x1007, "0x1000 to 0x1008"), (0x1008, None), (0x1010, "0x1009 to 0x1011"),
                            (0x1011, None)]:
            with self.subTest(place):
                first = run([PROGRAM, "at", "a", f"{place:x}"], cwd=self.folder).stdout.decode().split("\n")[0]
                self.assertEqual(re.findall(r"  function (.*?)(?:$|  )", first), [told] if told else [])

    def test_all_findings_are_told_in_order(self):
        file = image(3, 25, numbers(0x1001, 0x1000, 0x3000, 0x1000, 0x3001, 0x1000), machine=AMD64)
        numbers_of = [row.split()[0] for row in self.parts(file)["Findings (6)"]]
        self.assertEqual(numbers_of, ["111", "112", "113", "115", "114", "116"])

    def test_debug_data_after_the_sections_is_read_from_a_pipe_alone(self):
        file = image(6, 28, entry(2, len(RSDS) + 6, 0, 0x2000)).ljust(0x2000, b"\0") + RSDS + b"a.pdb\0"
        self.assertTrue(self.parts(file, "--debug")["Debug directory (1)"][1].endswith("   after the sections, not read"))
        self.assertNotIn("Findings (1)", self.parts(file))
        done = run([PROGRAM, "show", "-"], input=file)
        self.assertIn(b"1 entry, PDB a.pdb\n", done.stdout)


if __name__ == "__main__":
    unittest.main()
