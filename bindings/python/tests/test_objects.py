"""COFF objects: what the calls read of them, and the forms of auxiliary records, which the program shows."""

import json
import os
import pathlib
import tempfile
import unittest

import petool

from . import data
from .cases import run
from .files import put, with_aux

PROGRAM = os.environ.get("PETOOL_PROGRAM")

O1_SECTION = petool.ObjectSection(b".text$long", b"\xe8\0\0\0\0\xc3", 0, 0, 0, 0x60000020, 1)

#: The symbols of O1, with the indexes of their records.
O1_SYMBOLS = [
    petool.ObjectSymbol(b".file", b"a.c".ljust(18, b"\0"), 0, 0, petool.SECTION_DEBUG, 0, 103),
    petool.ObjectSymbol(b"abcdefgh", b"", 2, 0, 1, 0x20, 2),
    petool.ObjectSymbol(b"abcdefghi", b"", 3, 0, petool.SECTION_UNDEFINED, 0, 2),
    petool.ObjectSymbol(b"", b"", 4, 7, petool.SECTION_ABSOLUTE, 0, 3),
]

#: An object of two sections and three symbols, whose names are the string after it, of 700 letters, and its last 400 letters: the
#: header, the names of the sections, each symbol's name, value and section, and the size of the string table.
SHARED = [
    (0, b"\x64\x86\x02\x00"),
    (8, b"\x64\x00\x00\x00\x03"),
    (20, b"/4"),
    (60, b"/304"),
    (104, b"\x04\x00\x00\x00\x01\x00\x00\x00\x01"),
    (122, b"\x30\x01\x00\x00\x02\x00\x00\x00\x02"),
    (140, b"\x04\x00\x00\x00\x03\x00\x00\x00\x01"),
    (154, b"\xc1\x02"),
]

#: The bytes of an auxiliary record, all different.
RECORD = bytes(range(0x81, 0x93))

FUNCTION = {
    "kind": "function",
    "tag_index": 0x84838281,
    "total_size": 0x88878685,
    "pointer_to_linenumber": 0x8C8B8A89,
    "pointer_to_next_function": 0x908F8E8D,
}
LINES = {"kind": "lines", "linenumber": 0x8685, "pointer_to_next_function": 0x908F8E8D}
WEAK = {"kind": "weak_external", "tag_index": 0x84838281, "characteristics": 0x88878685}
FILE = {"kind": "file", "file_name_hex": RECORD.hex()}
DEFINITION = {
    "kind": "section_definition",
    "length": 0x84838281,
    "number_of_relocations": 0x8685,
    "number_of_linenumbers": 0x8887,
    "check_sum": 0x8C8B8A89,
    "number": 0x8E8D,
    "selection": 0x8F,
}
RAW = {"kind": "raw", "bytes_hex": RECORD.hex()}

#: Class, type and section of a symbol, and the form of its auxiliary record: each form, and symbols that narrowly miss it.
SHAPES = [
    (2, 0x20, 1, FUNCTION),
    (2, 0x20, petool.SECTION_UNDEFINED, RAW),
    (2, 0x20, petool.SECTION_ABSOLUTE, RAW),
    (2, 0x20, petool.SECTION_DEBUG, RAW),
    (2, 0x21, 1, RAW),
    (2, 0x120, 1, RAW),
    (101, 0, 1, LINES),
    (105, 0x20, petool.SECTION_UNDEFINED, WEAK),
    (103, 0, petool.SECTION_DEBUG, FILE),
    (3, 0, 1, DEFINITION),
    (0, 0x20, 1, RAW),
    (104, 0, 1, RAW),
]

#: The forms of a symbol's two records.
TWO_RECORDS = [{"kind": "file", "file_name": "a.c"}, {"kind": "file", "file_name": "/b.h"}]


def shared():
    file = put(bytearray(158), *SHARED)
    return bytes(file) + b"a" * 700 + b"\0"


class Rows(unittest.TestCase):
    def test_o1_is_read(self):
        with petool.Object(data("o1.obj")) as found:
            self.assertEqual(tuple(found.sections), (O1_SECTION,))
            self.assertEqual(list(found.relocations(0)), [petool.ObjectRelocation(1, 3, 4)])
            with self.assertRaises(IndexError):
                found.relocations(1)

    def test_symbols_have_the_indexes_of_their_records(self):
        with petool.Object(data("o1.obj")) as found:
            self.assertEqual(list(found.symbols), O1_SYMBOLS)

    def test_sections_that_share_a_text_are_named(self):
        with petool.Object(shared()) as found:
            self.assertEqual([it.name for it in found.sections], [b"a" * 700, b"a" * 400])

    def test_symbols_that_share_a_text_are_named(self):
        with petool.Object(shared()) as found:
            rows = [(it.name, it.index, it.value, it.section_number) for it in found.symbols]
        self.assertEqual(rows, [(b"a" * 700, 0, 1, 1), (b"a" * 400, 1, 2, 2), (b"a" * 700, 2, 3, 1)])

    def test_a_header_alone_holds_nothing(self):
        with petool.Object(bytes(20)) as found:
            self.assertEqual((list(found.sections), list(found.symbols)), ([], []))


@unittest.skipUnless(PROGRAM, "left out without program: PETOOL_PROGRAM names none")
class Told(unittest.TestCase):
    def told(self, file, *words):
        """What the program prints for an object."""
        with tempfile.TemporaryDirectory() as folder:
            pathlib.Path(folder, "a.obj").write_bytes(file)
            done = run([PROGRAM, *words, "a.obj"], cwd=folder)
        self.assertEqual((done.returncode, done.stderr), (0, b""))
        return done.stdout.decode()

    def test_the_header_of_o1(self):
        headers = ["Machine 0x8664 AMD64", "TimeDateStamp 0x00000000", "Characteristics 0x0000"]
        self.assertEqual(self.told(data("o1.obj"), "object").splitlines()[:3], headers)
        # no optional header
        self.assertEqual(json.loads(self.told(data("o1.obj"), "json"))["headers"]["size_of_optional_header"], 0)

    def test_a_header_alone(self):
        text = "Machine 0x0000 other\nTimeDateStamp 0x00000000\nCharacteristics 0x0000\nend\n"
        self.assertEqual(self.told(bytes(20), "object"), text)

    def records(self, file):
        """The auxiliary records of the one symbol of an object, without their indexes, which ascend from 1."""
        (symbol,) = json.loads(self.told(file, "json"))["symbols"]
        records = symbol["auxiliary_records"]
        self.assertEqual([it.pop("index") for it in records], list(range(1, len(records) + 1)))
        return records

    def test_an_auxiliary_record_has_the_shape_of_its_symbol(self):
        for storage_class, kind, section, shape in SHAPES:
            with self.subTest(storage_class=storage_class, kind=kind, section=section):
                self.assertEqual(self.records(with_aux(storage_class, kind, section, RECORD)), [shape])

    def test_each_auxiliary_record_of_a_symbol_has_its_place(self):
        aux = b"a.c\0".ljust(18, b".") + b"/b.h\0".ljust(18, b".")
        self.assertEqual(self.records(with_aux(103, 0, petool.SECTION_DEBUG, aux)), TWO_RECORDS)


if __name__ == "__main__":
    unittest.main()
