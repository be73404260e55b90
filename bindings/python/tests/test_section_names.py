"""The long names of an image's sections: those in its string table, by the rules of docs/FORMAT.md, and what crafted ones cost."""

import dataclasses
import json
import os
import pathlib
import pickle
import struct
import tempfile
import tracemalloc
import unittest

import petool

from . import data
from .cases import run
from .files import numbers, put

PROGRAM = os.environ.get("PETOOL_PROGRAM")

#: Where a section's name is in V1, and PointerToSymbolTable with NumberOfSymbols.
NAME, SYMBOLS = 0x138, 0x4C

#: The strings of the table from its offset 4 on: `.debug_info` at 4, the empty string at 16, `.zdebug` at 17, and `.cut` at 25,
#: which no zero byte ends.
STRINGS = b".debug_info\0\0.zdebug\0.cut"

#: Fields, and the names to which they lead.
NAMES = [
    (b"/4", b".debug_info"),
    (b"/10", b"_info"),
    (b"/15", b""),
    (b"/16", b""),
    (b"/17", b".zdebug"),
    (b"/0000017", b".zdebug"),
    (b"/4\0xyz", b".debug_info"),
    (b"/24", b""),
    (b"/25", b"/25"),
    (b"/28", b"/28"),
    (b"/29", b"/29"),
    (b"/30", b"/30"),
    (b"/9999999", b"/9999999"),
    (b"/0", b"/0"),
    (b"/3", b"/3"),
    (b"/", b"/"),
    (b"/4a", b"/4a"),
    (b"/-4", b"/-4"),
    (b"/4 ", b"/4 "),
    (b"/ 4", b"/ 4"),
    (b"/4\n", b"/4\n"),
    (b"/000004\n", b"/000004\n"),
    (b"//AAAAAA", b"//AAAAAA"),
    (b".text", b".text"),
    (b".tex\0\0ab", b".tex"),
    (b"", b""),
]

#: What the table's size, the bytes after it and the image's symbols do to the name `/4`: the symbols' offset from the file's end,
#: their number, the size, the bytes, and the name.
TABLES = [
    (0, 0, 16, b".debug_info\0", b".debug_info"),
    (0, 0, 16, b".debug_info\0more", b".debug_info"),
    (0, 2, 16, b".debug_info\0", b".debug_info"),
    (0, 0, 15, b".debug_info\0", b"/4"),
    (0, 0, 17, b".debug_info\0", b"/4"),
    (0, 0, 5, b"\0", b""),
    (0, 0, 4, b"\0", b"/4"),
    (0, 0, 0, b".debug_info\0", b"/4"),
    (0, 0, 0xFFFFFFFF, b".debug_info\0", b"/4"),
    (0, 0xFFFFFFFF, 16, b".debug_info\0", b"/4"),
    (0x10000, 0, 16, b".debug_info\0", b"/4"),
    (1 << 31, 0, 16, b".debug_info\0", b"/4"),
]


def with_strings(field, strings, size=None, symbols=None, count=0):
    """V1 with this field as its section's name, and after it `count` symbols and a string table."""
    file = bytearray(data("v1.dll"))
    at = len(file) if symbols is None else symbols
    put(file, (NAME, field.ljust(8, b"\0")), (SYMBOLS, numbers(at, count)))
    size = 4 + len(strings) if size is None else size
    return bytes(file) + bytes(18 * min(count, 2)) + numbers(size) + strings


def with_sections(fields, strings):
    """An image with a section without bytes for each of these fields, and a string table."""
    file = bytearray(data("v1.dll")[:0x138])
    headers = 0x138 + 40 * len(fields)
    put(file, (0x46, struct.pack("<H", len(fields))), (SYMBOLS, numbers(headers)))
    put(file, (0x90, numbers(0x10000)), (0x94, numbers(headers)))
    table = b"".join(struct.pack("<8sIIII16x", field, 0, 0x10000, 0, 0) for field in fields)
    return bytes(file) + table + numbers(4 + len(strings)) + strings


class LongNames(unittest.TestCase):
    def assert_name(self, file, name):
        with petool.Image(file) as image:
            self.assertEqual(image.sections[0].long_name, name)
        if PROGRAM:
            self.assertEqual(self.name_by_program(file), name)

    def name_by_program(self, file):
        with tempfile.TemporaryDirectory() as folder:
            pathlib.Path(folder, "a.dll").write_bytes(file)
            return json.loads(run([PROGRAM, "json", "a.dll"], cwd=folder).stdout)["sections"][0]["name"].encode()

    def test_a_field_leads_to_a_name(self):
        for field, name in NAMES:
            with self.subTest(field):
                self.assert_name(with_strings(field, STRINGS), name)

    def test_a_table_holds_a_name_or_does_not(self):
        for symbols, count, size, strings, name in TABLES:
            with self.subTest(symbols=symbols, count=count, size=size, strings=strings):
                at = len(data("v1.dll")) + symbols
                self.assert_name(with_strings(b"/4", strings, size, at, count), name)

    def test_an_image_without_symbols_has_no_long_names(self):
        self.assert_name(with_strings(b"/4", STRINGS, symbols=0), b"/4")
        self.assert_name(data("v1.dll")[:NAME] + b"/4\0\0\0\0\0\0" + data("v1.dll")[NAME + 8 :], b"/4")

    def test_sections_share_strings(self):
        fields = [b"/4", b"/10", b".text", b"/17", b"/4", b"/25"]
        with petool.Image(with_sections(fields, STRINGS)) as image:
            found = [it.long_name for it in image.sections]
            self.assertEqual([it.name for it in image.sections], fields)
        self.assertEqual(found, [b".debug_info", b"_info", b".text", b".zdebug", b".debug_info", b"/25"])

    def test_a_section_is_its_header_and_keeps_its_name(self):
        (found,) = petool.Image(with_strings(b"/4", STRINGS)).sections
        made = petool.Section(b"/4", 0x1000, 0x10, 0x10, 0x200, 0x200, 0x10, 0xC0000040)
        self.assertEqual((found, hash(found), repr(found)), (made, hash(made), repr(made)))
        self.assertEqual(dataclasses.asdict(found), dataclasses.asdict(made))
        self.assertEqual((pickle.loads(pickle.dumps(found)).long_name, made.long_name), (b".debug_info", b"/4"))

    def test_names_are_valid_after_the_image_is_closed(self):
        file = bytearray(with_strings(b"/4", STRINGS))
        with petool.Image(file) as image:
            (section,) = image.sections
        file.clear()
        self.assertEqual(section.long_name, b".debug_info")

    def test_a_long_name_is_not_read_from_a_closed_image(self):
        for field in (b"/4", b".text"):
            image = petool.Image(with_strings(field, STRINGS))
            image.close()
            (section,) = image.sections
            self.assertEqual(section.name, field)
            if field == b".text":
                self.assertEqual(section.long_name, field)
            else:
                with self.assertRaises(ValueError):
                    section.long_name

    def test_names_that_share_a_string_are_copied_once(self):
        # 96 names of 1 MB together take 96 MB
        fields = [b"/%d" % (4 + k) for k in range(96)]
        with petool.Image(with_sections(fields, b"a" * (1 << 20) + b"\0")) as image:
            tracemalloc.start()
            self.addCleanup(tracemalloc.stop)
            self.assertEqual({len(it.long_name) for it in image.sections}, {(1 << 20) - k for k in range(96)})
            self.assertLess(tracemalloc.get_traced_memory()[1], 4 << 20)


if __name__ == "__main__":
    unittest.main()
