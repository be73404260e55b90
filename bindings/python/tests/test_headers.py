"""The headers of images: each field is read from its place, also of the section headers."""

import json
import os
import pathlib
import struct
import tempfile
import unittest

import petool

from . import data
from .cases import run
from .files import changed, put

PROGRAM = os.environ.get("PETOOL_PROGRAM")
SMALL_FILES = ["v1.dll", "v2.dll", "v3.dll", "va.dll", "vb.dll", "vc.dll", "vd.dll", "vs.dll", "vr.dll"]

#: The fields of the COFF file header after the signature, in the format's order: offset, width.
COFF = {
    "machine": (0, 2),
    "number_of_sections": (2, 2),
    "time_date_stamp": (4, 4),
    "pointer_to_symbol_table": (8, 4),
    "number_of_symbols": (12, 4),
    "size_of_optional_header": (16, 2),
    "characteristics": (18, 2),
}

#: The optional header of PE32 after Magic, in the format's order.
PE32 = {
    "major_linker_version": (2, 1),
    "minor_linker_version": (3, 1),
    "size_of_code": (4, 4),
    "size_of_initialized_data": (8, 4),
    "size_of_uninitialized_data": (12, 4),
    "address_of_entry_point": (16, 4),
    "base_of_code": (20, 4),
    "base_of_data": (24, 4),
    "image_base": (28, 4),
    "section_alignment": (32, 4),
    "file_alignment": (36, 4),
    "major_operating_system_version": (40, 2),
    "minor_operating_system_version": (42, 2),
    "major_image_version": (44, 2),
    "minor_image_version": (46, 2),
    "major_subsystem_version": (48, 2),
    "minor_subsystem_version": (50, 2),
    "win32_version_value": (52, 4),
    "size_of_image": (56, 4),
    "size_of_headers": (60, 4),
    "check_sum": (64, 4),
    "subsystem": (68, 2),
    "dll_characteristics": (70, 2),
    "size_of_stack_reserve": (72, 4),
    "size_of_stack_commit": (76, 4),
    "size_of_heap_reserve": (80, 4),
    "size_of_heap_commit": (84, 4),
    "loader_flags": (88, 4),
    "number_of_rva_and_sizes": (92, 4),
}

#: The fields of PE32+, some at other offsets or wider. BaseOfData, which it does not have, is a field of no bytes.
PE32_PLUS = {
    **PE32,
    "base_of_data": (24, 0),
    "image_base": (24, 8),
    "size_of_stack_reserve": (72, 8),
    "size_of_stack_commit": (80, 8),
    "size_of_heap_reserve": (88, 8),
    "size_of_heap_commit": (96, 8),
    "loader_flags": (104, 4),
    "number_of_rva_and_sizes": (108, 4),
}

#: A section header after its name, in the format's order.
SECTION = {
    "virtual_size": (8, 4),
    "virtual_address": (12, 4),
    "size_of_raw_data": (16, 4),
    "pointer_to_raw_data": (20, 4),
    "pointer_to_relocations": (24, 4),
    "pointer_to_linenumbers": (28, 4),
    "number_of_relocations": (32, 2),
    "number_of_linenumbers": (34, 2),
    "characteristics": (36, 4),
}

#: What the headers of a file of distinct bytes need in PE32 and PE32+: two sections, sizes. The calls check the sections too, so
#: these have no raw data; the fields that the checks do not read keep their distinct bytes.
ACCEPTED = [
    (0x00, b"\x4d\x5a"),
    (0x3C, b"\x40\x00\x00\x00"),
    (0x40, b"\x50\x45\x00\x00"),
    (0x46, b"\x02\x00"),
    (0x90, b"\x10\x32\x54\x76"),
    (0x94, b"\xa1\x03\x00\x00"),
]

#: What makes such a file PE32, and PE32+.
FORMS = [[(0x54, b"\xe0\x00"), (0x58, b"\x0b\x01")], [(0x54, b"\xf0\x00"), (0x58, b"\x0b\x02")]]

#: The sections of such a file by VirtualSize and VirtualAddress; the file holds none of their bytes, since PointerToRawData is 0.
PLACED = [(0x11121314, 0x21222324), (0x15161718, 0x35363738)]

#: V1's and V3's named header values.
V1_COFF = {"machine": 0x14C, "number_of_sections": 1, "size_of_optional_header": 0xE0, "characteristics": 0x2102}
V1_OPTIONAL = {
    "image_base": 0x10000000,
    "section_alignment": 0x1000,
    "file_alignment": 0x200,
    "size_of_image": 0x3000,
    "size_of_headers": 0x200,
    "number_of_rva_and_sizes": 16,
}


def number(header, field):
    offset, width = field
    return int.from_bytes(header[offset : offset + width], "little")


def distinct_file(form, *pieces):
    """A file in which nearby bytes differ, with headers of PE32 (form 0) or PE32+ (1)."""
    return bytes(put(bytearray(data("distinct.bin")), *ACCEPTED, *FORMS[form], *pieces))


def placed_sections(form):
    """The pieces that place the two sections of such a file. All other bytes of their headers stay distinct."""
    table = 0x40 + 24 + (0xE0, 0xF0)[form]
    for index, (virtual_size, virtual_address) in enumerate(PLACED):
        yield table + 40 * index + 8, struct.pack("<II", virtual_size, virtual_address)
        yield table + 40 * index + 20, bytes(4)


class Headers(unittest.TestCase):
    def read(self, file):
        """The headers and the sections."""
        with petool.Image(file, check=False) as image:
            return image.headers, image.sections

    def assert_values(self, headers, header, fields):
        for name, field in fields.items():
            self.assertEqual(getattr(headers, name), number(header, field), name)

    def assert_headers(self, file):
        """Asserts that each field of a file's headers was read from its place in the file."""
        headers, sections = self.read(file)
        self.assertEqual(headers.pe_offset, number(file, (0x3C, 4)))
        signature = file[headers.pe_offset :]
        self.assert_values(headers, signature[4:], COFF)
        optional = signature[24:]
        wide = number(optional, (0, 2)) == 0x20B
        self.assertEqual(headers.magic, number(optional, (0, 2)))
        self.assert_values(headers, optional, PE32_PLUS if wide else PE32)
        self.assert_directories(headers, optional[112 if wide else 96 :])
        table = optional[headers.size_of_optional_header :]
        self.assertEqual(len(sections), headers.number_of_sections)
        for index, section in enumerate(sections):
            self.assert_section(section, table[40 * index :])
        return headers

    def assert_directories(self, headers, table):
        count = min(headers.number_of_rva_and_sizes, 16)
        expected = [(number(table, (8 * it, 4)), number(table, (8 * it + 4, 4))) for it in range(count)]
        expected += [(0, 0)] * (16 - count)
        self.assertEqual([(it.rva, it.size) for it in headers.directories], expected)

    def assert_section(self, section, header):
        self.assertEqual(section.name, header[:8].rstrip(b"\0"))
        self.assertEqual(section.rva, number(header, SECTION["virtual_address"]))
        for name in ("virtual_size", "size_of_raw_data", "pointer_to_raw_data", "characteristics"):
            self.assertEqual(getattr(section, name), number(header, SECTION[name]), name)

    def test_every_field_is_read_from_its_place(self):
        for form, magic in enumerate((0x10B, 0x20B)):
            with self.subTest(magic=hex(magic)):
                headers = self.assert_headers(distinct_file(form, *placed_sections(form)))
                self.assertEqual(headers.magic, magic)

    def assert_named(self, file, coff, optional, section):
        """Asserts the fields of the headers, of which those not named are 0, and some fields of the last section."""
        headers, sections = self.read(file)
        for name in COFF:
            self.assertEqual(getattr(headers, name), coff.get(name, 0), name)
        for name in PE32:
            self.assertEqual(getattr(headers, name), optional.get(name, 0), name)
        last = sections[-1]
        found = [last.virtual_size, last.rva, last.size_of_raw_data, last.pointer_to_raw_data, last.characteristics]
        self.assertEqual(found, section)
        return headers

    def test_v1_has_the_named_header_values(self):
        self.assert_named(data("v1.dll"), V1_COFF, V1_OPTIONAL, [0x10, 0x1000, 0x200, 0x200, 0xC0000040])

    def test_v3_has_the_named_header_values(self):
        coff = {"machine": 0x8664, "number_of_sections": 2, "size_of_optional_header": 0xF0, "characteristics": 0x2022}
        optional = {**V1_OPTIONAL, "image_base": 0x180000000}
        headers = self.assert_named(data("v3.dll"), coff, optional, [0x0C, 0x2000, 0x200, 0x400, 0xC0000040])
        self.assertEqual(headers.directories[5], petool.Directory(0x2000, 0x0C))

    def test_every_small_file_is_read_field_by_field(self):
        for name in SMALL_FILES:
            with self.subTest(name):
                self.assert_headers(data(name))

    def test_a_number_of_directories_over_16_is_kept_and_gives_16(self):
        headers, _ = self.read(changed("v1.dll", (0xB4, b"\xff\xff\xff\xff")))
        self.assertEqual(headers.number_of_rva_and_sizes, 0xFFFFFFFF)
        self.assertEqual(len(headers.directories), 16)

    def test_ninety_six_sections_are_read(self):
        # consecutive empty sections, of which the last has a name
        pieces = [(0x46, b"\x60"), (0x94, b"\x38\x10"), (0x1010, b".last")]
        file = bytearray(changed("v1.dll", *pieces, size=0x1200))
        for index in range(96):
            put(file, (0x138 + 40 * index + 8, struct.pack("<IIII", 0, 0x1038, 0, 0)))
        put(file, (0x90, b"\x00\x40"))
        headers = self.assert_headers(bytes(file))
        _, sections = self.read(bytes(file))
        self.assertEqual((headers.number_of_sections, len(sections)), (96, 96))
        self.assertEqual(sections[-1].name, b".last")

    def test_the_signature_may_stand_anywhere(self):
        v1 = data("v1.dll")
        # up to 0x18 the field at 0x3c overlaps fields of the optional header
        for pe_offset in (2, 4, 5, 0x18, 0x41, 0xE0):
            with self.subTest(hex(pe_offset)):
                file = bytearray(0x410)
                put(file, (0, b"MZ"), (pe_offset, v1[0x40:0x160]), (0x3C, struct.pack("<I", pe_offset)))
                self.assertEqual(self.assert_headers(bytes(file)).pe_offset, pe_offset)


@unittest.skipUnless(PROGRAM, "left out without program: PETOOL_PROGRAM names none")
class FieldsOfSections(unittest.TestCase):
    """The fields of section headers that the calls do not return, and BaseOfData, of PE32 only: by the program's lines of JSON."""

    def line_of(self, file):
        with tempfile.TemporaryDirectory() as folder:
            pathlib.Path(folder, "a.dll").write_bytes(file)
            return json.loads(run([PROGRAM, "json", "a.dll"], cwd=folder).stdout)

    def assert_sections(self, file, table):
        line = self.line_of(file)
        self.assertTrue(line["accepted"])
        for index, section in enumerate(line["sections"]):
            header = file[table + 40 * index :]
            found = {name: section[name] for name in SECTION}
            self.assertEqual(found, {name: number(header, field) for name, field in SECTION.items()})
        return line

    def test_every_field_of_a_section_is_read_from_its_place(self):
        for form, has_base_of_data in enumerate((True, False)):
            file = distinct_file(form, *placed_sections(form), *self.without_tables(form))
            line = self.assert_sections(file, 0x40 + 24 + (0xE0, 0xF0)[form])
            self.assertEqual(len(line["sections"]), 2)
            self.assertEqual("base_of_data" in line["headers"], has_base_of_data)

    @staticmethod
    def without_tables(form):
        """No exports, imports and base relocations: these directories have the RVA 0."""
        table = 0x40 + 24 + (96, 112)[form]
        return [(table + 8 * index, bytes(8)) for index in (0, 1, 5)]

    def test_every_small_file(self):
        for name in SMALL_FILES:
            with self.subTest(name):
                file = data(name)
                self.assert_sections(file, 0x148 if number(file, (0x58, 2)) == 0x20B else 0x138)


if __name__ == "__main__":
    unittest.main()
