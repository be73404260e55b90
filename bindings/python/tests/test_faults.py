"""Faults in words: the line of libpetool, compared with one that is put together here, at each kind of place."""

import ctypes
import re
import unittest
from pathlib import Path

import petool
from petool import FormatFault, Place, _records
from petool._library import library

TOP = Path(__file__).resolve().parents[3]
FORMS = {Place.FILE: "{} at 0x{:x}", Place.RVA: "{} at RVA 0x{:x}", Place.ADDRESS: "{} 0x{:x}", Place.ITEM: "{} {}"}
#: The greatest number of each kind of place, and the ends of ranges of digits.
GREATEST = {Place.FILE: 2**64 - 1, Place.RVA: 2**32 - 1, Place.ADDRESS: 2**64 - 1, Place.ITEM: 2**32 - 1}
NUMBERS = [0, 9, 10, 0xF, 0x10, 0xABCDEF, 0xFFFFFFF, 0x10000000, 0xFFFFFFFF, 2**32, 2**60 - 1, 2**60, 2**64 - 1]


def described():
    """The words of each fault, as describe/faults.txt has them: what is at its place, and the rule."""
    rows = re.findall(r"^  (\d+) ([^:]+): (.+)$", (TOP / "describe/faults.txt").read_text(), re.M)
    return {int(number): (subject, rule) for number, subject, rule in rows}


def line_in(room, number, place, at):
    """What the call returns, and what it writes into a buffer of 'Z'."""
    fault = _records.Fault(number, place, 0, at)
    buffer = ctypes.create_string_buffer(b"Z" * room, room) if room else ctypes.create_string_buffer(1)
    return library.petool_fault_line(ctypes.byref(fault), buffer, room), buffer.raw[:room]


class Lines(unittest.TestCase):
    def test_each_fault_has_its_line_at_each_kind_of_place(self):
        words = described()
        self.assertEqual(len(words), 145)
        for number, (subject, rule) in words.items():
            for place, form in FORMS.items():
                line = f"fault {number}: {form.format(subject, GREATEST[place])}: {rule}"
                self.assertEqual(str(FormatFault(number, 0, place, GREATEST[place])), line)

    def test_a_number_has_as_many_digits_as_it_needs(self):
        subject, rule = described()[13]
        for place, form in FORMS.items():
            for number in (it for it in NUMBERS if it <= GREATEST[place]):
                with self.subTest(place=place, number=number):
                    self.assertEqual(str(FormatFault(13, 0, place, number)), f"fault 13: {form.format(subject, number)}: {rule}")

    def test_a_number_that_no_fault_has(self):
        self.assertEqual(str(FormatFault(86, 0, Place.FILE, 10)), "fault 86: place at 0xa: no fault has this number")

    def test_a_line_is_cut_to_its_room(self):
        subject, rule = described()[13]
        line = f"{subject} at 0x138: {rule}".encode()
        for room in (0, 1, 2, len(line) - 1, len(line), len(line) + 1, len(line) + 2, 300):
            with self.subTest(room=room):
                kept = line[: max(room - 1, 0)] + b"\0" if room else b""
                self.assertEqual(line_in(room, 13, Place.FILE, 0x138), (len(line), kept + b"Z" * (room - len(kept))))

    def test_values_have_the_names_of_the_format(self):
        names = {
            petool.Named.MACHINE: {0x8664: "AMD64", 0xAA64: "ARM64", 0x8665: None, 0x18664: None},
            petool.Named.SUBSYSTEM: {2: "WINDOWS_GUI", 3: "WINDOWS_CUI", 4: None},
            petool.Named.FLAG: {0x2000: "DLL", 0x2002: None},
            petool.Named.DLL_FLAG: {0x100: "NX_COMPAT", 0: None},
            petool.Named.SECTION_FLAG: {0x80000000: "MEM_WRITE", 0x100000: None},
            petool.Named.DIRECTORY: {0: "export", 15: "reserved", 16: None, -1: None, 1 << 32: None},
        }
        for kind, rows in names.items():
            self.assertEqual({value: petool.name_of(kind, value) for value in rows}, rows)


if __name__ == "__main__":
    unittest.main()
