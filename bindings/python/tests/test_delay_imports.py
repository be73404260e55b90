"""Delay-loaded imports: the calls, lines of JSON and pages, of tables that are written field by field; and each finding by a file of
its own."""

import json
import unittest

import petool

from .finding_pages import PROGRAM, FindingPages
from .test_beyond import wide
from .test_findings import BASE, image
from .files import numbers

#: Where the parts of a section at RVA 0x1000 are: the names of two modules, a name table and an address table, and hints with names.
MODULE, OTHER, NAMES, SLOTS, SLEEP, BEEP = 0x1060, 0x1068, 0x1080, 0x10A0, 0x10C0, 0x10D0
ORDINAL = 0x80000007


def descriptor(module=MODULE, slots=SLOTS, names=NAMES, attributes=1, base=0):
    """A descriptor with places as RVAs, or with `base` as addresses. What is not read has bytes of its own."""
    return numbers(attributes, module + base, 0x77001234, slots + base, names + base, 0x77005678, 0x770089AB, 0x5E0BE100)


def section(descriptors, entries, width=4):
    """The section: descriptors, up to two of which leave room for one of zeros, and the entries of the name table."""
    bytes_at = {
        0x1000: descriptors,
        MODULE: b"a.dll\0",
        OTHER: b"other\0",
        NAMES: b"".join(entry.to_bytes(width, "little") for entry in entries),
        SLEEP: b"\x11\x22Sleep\0",
        BEEP: b"\x33\x44Beep\0",
    }
    made = bytearray(0x100)
    for rva, written in bytes_at.items():
        made[rva - 0x1000 : rva - 0x1000 + len(written)] = written
    return bytes(made)


def delayed(descriptors, entries, width=4):
    """An image with this table: of PE32, or with a width of 8 bytes of PE32+."""
    made = section(descriptors, entries, width)
    return image(13, 64, made) if width == 4 else wide(13, 64, made)


ENTRIES = (ORDINAL, SLEEP, BEEP, 0)
PLAIN = delayed(descriptor(), ENTRIES)
ROWS = [(b"a.dll", 7, SLOTS), (b"a.dll", b"Sleep", SLOTS + 4), (b"a.dll", b"Beep", SLOTS + 8)]
WIDE = delayed(descriptor(), (1 << 63 | 7, SLEEP, 0), 8)
#: Of two descriptors the first has its name table at the third entry of the second's.
TWO = delayed(descriptor(OTHER, 0x1040, NAMES + 8) + descriptor(), ENTRIES)

#: 1,025 descriptors with one table of 1,024 ordinals: an image has at most 1,048,576 entries.
MANY_AT = 0x1000 + 32 * 1026
MANY = image(
    13,
    64,
    descriptor(0x1000, 0x1000, MANY_AT) * 1025 + bytes(32) + numbers(*range(0x80000000, 0x80000400)) + bytes(4),
    image_size=0x20000,
)

#: Each finding with files that meet it and no other, and its place.
FOUND = [
    # the bytes of the descriptor end with it; its name is that of its own first byte, and its name table begins with a field that is 0
    (161, image(13, 64, numbers(1, 0x1000, 0, 0x1000, 0x1014, 0, 0, 0)), 0x1000),
    (161, image(13, 64, numbers(1, 0x1000, 0, 0x1000, 0x1014, 0, 0, 0) + bytes(31)), 0x1000),
    (162, delayed(descriptor(0x3000), ENTRIES), 0x1000),
    (162, delayed(descriptor(0xFFFFFFFF), ENTRIES), 0x1000),
    (163, delayed(descriptor(names=0x2FFD), ENTRIES), 0x2FFD),
    (163, delayed(descriptor(names=0), ENTRIES), 0x3000),
    (164, delayed(descriptor(), (SLEEP, 0x2FFE, 0)), NAMES + 4),
    (165, delayed(descriptor(), (0x80010007, 0)), NAMES),
    (165, delayed(descriptor(), (SLEEP, SLEEP, 0xC0000007, 0)), NAMES + 8),
    (165, delayed(descriptor(), (1 << 63 | 0x10007, 0), 8), NAMES),
    (166, delayed(descriptor(slots=0x2FF9), (SLEEP, SLEEP, 0)), NAMES + 4),
    (167, MANY, MANY_AT),
]

#: Files without a finding.
SOUND = [
    PLAIN,
    WIDE,
    TWO,
    image(13, 64, bytes(32)),
    # a descriptor whose name or address table is 0 ends the table
    delayed(descriptor(0) + descriptor(), ENTRIES),
    delayed(descriptor(slots=0) + descriptor(), ENTRIES),
    # the last slot ends where the image does
    delayed(descriptor(slots=0x2FF8), (SLEEP, SLEEP, 0)),
]


class DelayImports(unittest.TestCase):
    def assert_imports(self, file, rows):
        with petool.Image(file) as it:
            self.assertEqual([(row.module, row.key, row.slot) for row in it.delay_imports], rows)
            self.assertEqual(len(it.delay_imports), len(rows))

    def test_by_rvas(self):
        self.assert_imports(PLAIN, ROWS)

    def test_by_addresses(self):
        entries = (ORDINAL, SLEEP + BASE, BEEP + BASE, 0)
        self.assert_imports(delayed(descriptor(attributes=0, base=BASE), entries), ROWS)
        # RVAs are no addresses of the image, and addresses no RVAs
        self.assert_imports(delayed(descriptor(attributes=0), entries), [])
        self.assert_imports(delayed(descriptor(base=BASE), entries), [])

    def test_other_bits_of_attributes_do_not_count(self):
        self.assert_imports(delayed(descriptor(attributes=0x80000001), ENTRIES), ROWS)

    def test_wide_entries(self):
        self.assert_imports(WIDE, [(b"a.dll", 7, SLOTS), (b"a.dll", b"Sleep", SLOTS + 8)])

    def test_two_descriptors(self):
        self.assert_imports(TWO, [(b"other", b"Beep", 0x1040)] + ROWS)

    def test_a_table_ends(self):
        self.assert_imports(delayed(descriptor(0) + descriptor(), ENTRIES), [])
        self.assert_imports(delayed(descriptor(slots=0) + descriptor(), ENTRIES), [])
        self.assert_imports(delayed(descriptor() + descriptor(0, 0, 0), ENTRIES), ROWS)

    def test_a_descriptor_with_a_finding_has_none(self):
        self.assert_imports(delayed(descriptor(0x3000) + descriptor(), ENTRIES), ROWS)
        self.assert_imports(delayed(descriptor(names=0) + descriptor(), ENTRIES), ROWS)

    def test_as_many_as_are_read(self):
        with petool.Image(MANY) as it:
            self.assertEqual(len(it.delay_imports), 1 << 20)
            self.assertEqual(it.delay_imports[-1].key, 0x3FF)

    def test_findings(self):
        for number, file, rva in FOUND:
            with self.subTest(number), petool.Image(file) as it:
                self.assertEqual([(found.number, found.at) for found in it.findings], [(number, rva)])
        for number, file in enumerate(SOUND):
            with self.subTest(number), petool.Image(file) as it:
                self.assertEqual(it.findings, ())

    def test_without_a_directory(self):
        with petool.Image(image(6, 0, bytes(64))) as it:
            self.assertEqual(list(it.delay_imports), [])

    def test_of_a_closed_image(self):
        it = petool.Image(PLAIN)
        it.close()
        with self.assertRaises(ValueError):
            it.delay_imports


@unittest.skipUnless(PROGRAM, "left out without program: PETOOL_PROGRAM names none")
class Pages(FindingPages, unittest.TestCase):
    NUMBERS, FOUND, SOUND = (range(161, 171),), FOUND, SOUND

    def test_the_summary(self):
        for file, summary in (
            (PLAIN, "3 imports"),
            (delayed(descriptor(), (ORDINAL, 0)), "1 import"),
            (image(13, 64, bytes(32)), "0 imports"),
            (delayed(descriptor(0x3000) + descriptor(), ENTRIES), "3 imports, 1 finding"),
        ):
            with self.subTest(summary):
                (row,) = self.parts(file)["Tables (1)"]
                self.assertRegex(row, rf"^ +13  .*  {summary}$")

    def test_each_import(self):
        rows = self.parts(TWO, "--imports")["Delay-loaded imports (4)"]
        self.assertEqual(
            rows,
            ["  other (1)", "    0x001040  Beep", "  a.dll (3)", "    0x0010a0  #7", "    0x0010a4  Sleep", "    0x0010a8  Beep"],
        )
        self.assertNotIn("Delay-loaded imports (4)", self.parts(TWO))

    def test_the_slot_at_a_place(self):
        for file, place, told in (
            (TWO, 0x1040, "other Beep"), (TWO, 0x10A0, "a.dll #7"), (TWO, 0x10A7, "a.dll Sleep"), (TWO, 0x10A8, "a.dll Beep"), (TWO, 0x10AC, None),
            (WIDE, 0x10AF, "a.dll Sleep"), (WIDE, 0x10B0, None),
        ):
            with self.subTest(place):
                first = self.petool(file, "at", "a", f"{place:x}").stdout.decode().split("\n")[0]
                self.assertEqual("  delay-load slot of " in first, told is not None, first)
                self.assertTrue(told is None or f"  delay-load slot of {told}  " in first + "  ", first)

    def test_no_import_has_no_rows(self):
        self.assertEqual([it for it in self.parts(image(13, 64, bytes(32)), "--imports") if it.startswith("Delay")], [])


@unittest.skipUnless(PROGRAM, "left out without program: PETOOL_PROGRAM names none")
class Lines(FindingPages, unittest.TestCase):
    def test_each_finding_has_a_file(self):
        for number, file, rva in FOUND:
            with self.subTest(number):
                self.assertEqual([(it["number"], it["place"]) for it in self.line(file)["findings"]], [(number, {"rva": rva})])

    def test_files_without_a_finding(self):
        for number, file in enumerate(SOUND):
            with self.subTest(number):
                self.assertNotIn("findings", self.line(file))

    def line(self, file, *options):
        done = self.petool(file, "json", *(options or ("--all",)), "a")
        self.assertEqual((done.stderr, done.returncode), (b"", 0))
        return json.loads(done.stdout)

    def test_each_import(self):
        self.assertEqual(
            self.line(TWO)["delay_imports"],
            [
                {"module": "other", "name": "Beep", "slot": 0x1040},
                {"module": "a.dll", "ordinal": 7, "slot": 0x10A0},
                {"module": "a.dll", "name": "Sleep", "slot": 0x10A4},
                {"module": "a.dll", "name": "Beep", "slot": 0x10A8},
            ],
        )

    def test_none(self):
        self.assertEqual(self.line(image(13, 64, bytes(32)))["delay_imports"], [])
        self.assertNotIn("delay_imports", self.line(image(6, 0, bytes(64))))
        self.assertNotIn("delay_imports", self.line(TWO, "--most", "1M"))
