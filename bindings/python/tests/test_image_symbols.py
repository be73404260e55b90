"""The symbols of an image: the calls and lines of JSON, of symbol tables that are written field by field; and each finding by a file of
its own."""

import json
import struct
import unittest

import petool

from .files import changed, numbers
from .finding_pages import PROGRAM, FindingPages, OverFiles, words_of

#: Where the symbol table is.
TABLE = 0x600


def record(name, value, section, kind, storage_class, aux=0):
    """A record: the name's eight bytes, or the offset of a long one."""
    field = struct.pack("<II", 0, name) if isinstance(name, int) else name.ljust(8, b"\0")
    return field + struct.pack("<IHHBB", value, section, kind, storage_class, aux)


def strings(*texts):
    """A string table."""
    body = b"".join(text + b"\0" for text in texts)
    return numbers(4 + len(body)) + body


def image(records, behind, count=None):
    """V1 with a symbol table, and these bytes after it."""
    count = len(b"".join(records)) // 18 if count is None else count
    return changed("v1.dll", (0x4C, numbers(TABLE, count))) + b"".join(records) + behind


AUX = bytes(range(0x40, 0x52))
RECORDS = [
    record(b".file", 0, 0xFFFE, 0, 103, 1),
    AUX,
    record(b"eightlet", 0x11223344, 1, 0x20, 2),
    record(4, 0x55667788, 0, 0x9ABC, 0xDE),
    record(0, 7, 0xFFFF, 0, 3),
]
WHOLE = image(RECORDS, strings(b"a long name"))
ROWS = [
    (0, b".file", 0, 0xFFFE, 0, 103, AUX),
    (2, b"eightlet", 0x11223344, 1, 0x20, 2, b""),
    (3, b"a long name", 0x55667788, 0, 0x9ABC, 0xDE, b""),
    (4, b"", 7, 0xFFFF, 0, 3, b""),
]

#: Files, and the number and the file offset of each finding.
FOUND = [
    # a record, all but its last byte, and then a whole one that is counted
    ([(261, TABLE)], image(RECORDS[2:3], b"", 2)),
    ([(261, TABLE)], image(RECORDS[2:3], bytes(17), 2)),
    # no string table, one of less than its own length, one that passes the file
    ([(262, TABLE + 18)], image(RECORDS[2:3], b"")),
    ([(262, TABLE + 18)], image(RECORDS[2:3], bytes(3))),
    ([(262, TABLE + 18)], image(RECORDS[2:3], numbers(5))),
    ([(263, TABLE + 18)], image([RECORDS[2], record(b"a", 0, 2, 0, 2)], strings())),
    ([(263, TABLE)], image([record(b"a", 0, 0xFFFD, 0, 2)], strings())),
    ([(264, TABLE + 18)], image([RECORDS[2], record(b"a", 0, 1, 0, 2, 1)], strings())),
    # the file ends in the auxiliary records
    ([(261, TABLE), (264, TABLE)], image([record(b"a", 0, 1, 0, 2, 2), AUX], b"", 3)),
    ([(261, 0xFFFFFFF0)], changed("v1.dll", (0x4C, numbers(0xFFFFFFF0, 0xFFFFFFFF)))),
]

#: Files without a finding.
SOUND = [
    WHOLE,
    changed("v1.dll", (0x4C, numbers(0, 0xFFFFFFFF))),
    image([], strings()),
    image([record(b"a", 0, 0xFFFE, 0, 2), record(b"b", 0, 0xFFFF, 0, 2), record(b"c", 0, 0, 0, 2)], strings() + b"more"),
]


def told(symbol):
    return (
        symbol.index,
        symbol.name,
        symbol.value,
        symbol.section_number,
        symbol.kind,
        symbol.storage_class,
        symbol.aux,
    )


class ImageSymbols(unittest.TestCase):
    def rows(self, file):
        with petool.Image(file) as it:
            return [told(symbol) for symbol in it.symbols]

    def test_each_field(self):
        self.assertEqual(self.rows(WHOLE), ROWS)

    def test_as_the_symbols_of_an_object_are(self):
        with petool.Image(WHOLE) as it:
            self.assertEqual(it.symbols[1], petool.ObjectSymbol(b"eightlet", b"", 2, 0x11223344, 1, 0x20, 2))

    def test_names_that_lead_to_no_string(self):
        for offset in (3, 0x10, 0xFFFFFFFF):
            with self.subTest(offset):
                self.assertEqual([row[1] for row in self.rows(image([record(offset, 0, 1, 0, 2)], strings(b"a long name")))], [b""])
        self.assertEqual([row[1] for row in self.rows(image([record(4, 0, 1, 0, 2)], b""))], [b""])

    def test_a_table_that_was_cut_off(self):
        self.assertEqual(self.rows(WHOLE[: TABLE + 18 * 5]), ROWS[:2] + [(3, b"") + ROWS[2][2:], ROWS[3]])
        self.assertEqual(self.rows(WHOLE[: TABLE + 18 * 5 - 1]), ROWS[:2] + [(3, b"") + ROWS[2][2:]])
        self.assertEqual(self.rows(WHOLE[: TABLE + 18 * 2 - 1]), [ROWS[0][:6] + (b"",)])
        self.assertEqual(self.rows(WHOLE[: TABLE + 17]), [])

    def test_an_image_without_a_table(self):
        self.assertEqual(self.rows(changed("v1.dll")), [])

    def test_more_rows_than_are_guessed(self):
        records = [record(b"s%d" % k, k, 1, 0, 2) for k in range(3000)]
        self.assertEqual([row[:2] for row in self.rows(image(records, strings()))], [(k, b"s%d" % k) for k in range(3000)])

    def test_findings(self):
        for number, (found, file) in enumerate(FOUND):
            with self.subTest(number), petool.Image(file) as it:
                self.assertEqual([(one.number, one.at) for one in it.findings], found)
                self.assertEqual({one.place for one in it.findings}, {petool.Place.FILE})
        for number, file in enumerate(SOUND):
            with self.subTest(number), petool.Image(file) as it:
                self.assertEqual(it.findings, ())

    def test_of_a_closed_image(self):
        it = petool.Image(WHOLE)
        it.close()
        with self.assertRaises(ValueError):
            it.symbols


@unittest.skipUnless(PROGRAM, "left out without program: PETOOL_PROGRAM names none")
class Pages(FindingPages, unittest.TestCase):
    def test_each_finding_has_a_file(self):
        words = words_of()
        self.assertEqual({number for found, _ in FOUND for number, _ in found}, {number for number in words if number in range(261, 271)})
        for place, (found, file) in enumerate(FOUND):
            with self.subTest(place):
                rows = [f"  {number}  {words[number][0]} at 0x{at:x}: {words[number][1]}" for number, at in found]
                self.assertEqual(self.parts(file, "--symbols").get(f"Findings ({len(found)})"), rows)
                self.assertEqual([heading for heading in self.parts(file) if heading.startswith("Findings")], [])

    def test_files_without_a_finding(self):
        for number, file in enumerate(SOUND):
            with self.subTest(number):
                self.assertEqual([heading for heading in self.parts(file, "--all") if heading.startswith("Findings")], [])

    def test_each_symbol(self):
        rows = self.parts(WHOLE, "--symbols")["Symbols (4)"]
        self.assertTrue(rows[0].startswith(f"   0  0x00000000    {'DEBUG':12}  {'FILE':13}            .file"), rows[0])
        self.assertEqual(rows[2], f"   2  0x11223344  1 {'.data':12}  {'EXTERNAL':13}  function  eightlet")
        self.assertEqual(rows[3], f"   3  0x55667788    {'UNDEFINED':12}  class {0xDE:7}            a long name")
        self.assertTrue(rows[4].startswith(f"   4  0x00000007    {'ABSOLUTE':12}  {'STATIC':13}  "), rows[4])
        self.assertEqual(len(rows), 5)

    def test_only_if_asked_for(self):
        self.assertEqual([it for it in self.parts(WHOLE) if it.startswith("Symbols")], [])
        self.assertEqual([it for it in self.parts(changed("v1.dll"), "--symbols") if it.startswith("Symbols")], [])
        self.assertEqual(self.parts(image([], strings()), "--symbols").get("Symbols (0)", []), [])

    def test_a_section_that_is_not_there(self):
        rows = self.parts(image([record(b"a", 0, 9, 0, 2)], strings()), "--symbols")["Symbols (1)"]
        self.assertEqual(rows, ['   0  0x00000000  9 ""            EXTERNAL                 a'])


#: Symbols at places of `.data`, and those that name no place.
PLACES = [
    record(b"late", 12, 1, 0, 2),
    record(b"first", 4, 1, 0, 3),
    record(b"second", 4, 1, 0x20, 2, 1),
    AUX,
    record(b".data", 0, 1, 0, 3, 1),
    AUX,
    record(b"own", 6, 1, 0x20, 3, 1),
    AUX,
    record(b"label", 8, 1, 0, 6),
    record(4, 9, 1, 0, 105),
    record(0, 9, 1, 0, 2),
    record(b"nowhere", 9, 0, 0, 2),
    record(b"number", 9, 0xFFFF, 0, 2),
    record(b"none", 9, 2, 0, 2),
]


@unittest.skipUnless(PROGRAM, "left out without program: PETOOL_PROGRAM names none")
class Places(OverFiles, unittest.TestCase):
    def symbol_at(self, file, rva):
        done = self.petool(file, "at", "a", f"{rva:x}")
        self.assertEqual((done.stderr, done.returncode), (b"", 0))
        return done.stdout.split(b"\n")[0].split(b"rw-", 1)[1].decode()

    def test_the_last_symbol_before_a_place(self):
        file = image(PLACES, strings(b"weak"))
        near = ["", "", "", "", "first", "first+0x1", "own", "own+0x1", "label", "label+0x1", "label+0x2", "label+0x3", "late", "late+0x1"]
        for offset, symbol in enumerate(near):
            with self.subTest(offset):
                self.assertEqual(self.symbol_at(file, 0x1000 + offset), f"  symbol {symbol}" if symbol else "")

    def test_a_file_that_does_not_hold_the_tables_whole(self):
        self.assertEqual(self.symbol_at(image(PLACES, numbers(4)), 0x1005), "  symbol first+0x1")
        for behind in (numbers(5), bytes(3), b""):
            with self.subTest(behind):
                self.assertEqual(self.symbol_at(image(PLACES, behind), 0x1005), "")

    def test_an_export_that_is_nearer(self):
        # the last export of VB is at 0x1010; a symbol counts only after it
        at, table = 0x1010, len(changed("vb.dll"))
        for value, shown in ((at - 0x1001, False), (at - 0x1000, False), (at - 0xFFF, True)):
            file = changed("vb.dll", (0x4C, numbers(table, 1))) + record(b"near", value, 1, 0, 2) + strings()
            with self.subTest(value):
                words = self.symbol_at(file, at + 3)
                self.assertIn("  export ", words)
                self.assertEqual("  symbol near+0x2" in words, shown)
                self.assertEqual("  symbol" in words, shown)

    def test_of_a_long_file(self):
        # the tables are read of a file whose end is not
        file = image(PLACES, strings(b"weak")) + bytes(1 << 17)
        self.assertEqual(self.symbol_at(file, 0x1005), "  symbol first+0x1")


@unittest.skipUnless(PROGRAM, "left out without program: PETOOL_PROGRAM names none")
class Lines(OverFiles, unittest.TestCase):
    def line(self, file, *options):
        done = self.petool(file, "json", *options, "a")
        self.assertEqual((done.stderr, done.returncode), (b"", 0))
        return json.loads(done.stdout)

    def test_each_symbol(self):
        rows = self.line(WHOLE, "--symbols")["symbols"]
        self.assertEqual(rows[0].pop("auxiliary_records")[0]["index"], 1)
        self.assertEqual(
            rows,
            [
                {"index": 0, "name": ".file", "value": 0, "section": "DEBUG", "type": 0, "storage_class": 103, "storage_class_name": "FILE"},
                {
                    "index": 2,
                    "name": "eightlet",
                    "value": 0x11223344,
                    "section_number": 1,
                    "type": 0x20,
                    "storage_class": 2,
                    "storage_class_name": "EXTERNAL",
                },
                {"index": 3, "name": "a long name", "value": 0x55667788, "section": "UNDEFINED", "type": 0x9ABC, "storage_class": 0xDE},
                {
                    "index": 4,
                    "name": "",
                    "value": 7,
                    "section": "ABSOLUTE",
                    "type": 0,
                    "storage_class": 3,
                    "storage_class_name": "STATIC",
                },
            ],
        )

    def test_only_if_asked_for(self):
        self.assertNotIn("symbols", self.line(WHOLE, "--all"))
        self.assertNotIn("symbols", self.line(WHOLE))
        self.assertNotIn("symbols", self.line(changed("v1.dll"), "--symbols"))
        self.assertEqual(self.line(image([], strings()), "--symbols")["symbols"], [])
        # it adds to what --all adds
        self.assertEqual(self.line(WHOLE, "--symbols", "--no-digest").keys() - {"symbols"}, self.line(WHOLE, "--all", "--no-digest").keys())

    def test_findings(self):
        for number, (found, file) in enumerate(FOUND):
            with self.subTest(number):
                self.assertEqual([(it["number"], it["place"]) for it in self.line(file, "--all")["findings"]], [(n, {"file": at}) for n, at in found])
        for number, file in enumerate(SOUND):
            with self.subTest(number):
                self.assertNotIn("findings", self.line(file, "--all"))
