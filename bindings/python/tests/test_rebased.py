"""Files at other bases: what they map to."""

import unittest

import petool

from .files import changed, put

#: A file, its ImageBase, and another base.
THERE_AND_BACK = [("v2.dll", 0x10000000, 0xFFF00000), ("v3.dll", 0x180000000, 0xFFFFFFFFFFF00000)]

#: A file, a base at which it is mapped, another for which it is written, and the offset and the width of ImageBase.
MAPPED = [("v2.dll", 0x30000000, 0x20000000, 0x74, 4), ("v3.dll", 0x200000000, 0x140000000, 0x70, 8)]

#: ImageBase 0x10008000, and two fields of two bytes: LOW at 0x1008 and HIGH at 0x100a.
HALVES = [(0x75, b"\x80"), (0x408, b"\x08\x20\x0a\x10")]


def mapped_bytes(file, base):
    """All 0x3000 bytes of the image of a file at a base."""
    with petool.Space([("a.dll", file, base)]) as space:
        return space.read(base, 0x3000)


class Rebased(unittest.TestCase):
    def test_a_file_that_is_rebased_and_back_is_as_before(self):
        for name, first, base in THERE_AND_BACK:
            with self.subTest(name):
                old = changed(name)
                there = petool.rebase(old, base)
                self.assertNotEqual(there, old)
                self.assertEqual(petool.rebase(there, first), old)

    def test_a_rebased_file_maps_to_the_bytes_of_the_old_one(self):
        for name, at, base, offset, width in MAPPED:
            with self.subTest(name):
                old = changed(name)
                found, expected = mapped_bytes(petool.rebase(old, base), at), bytearray(mapped_bytes(old, at))
                self.assertNotEqual(found, expected)
                put(expected, (offset, base.to_bytes(width, "little")))
                self.assertEqual(found, expected)

    def assert_moved_on(self, old, expected):
        """Asserts the four bytes at 0x1008 at the base 0x30000000, of a file that was rebased to 0x20000000."""
        found = mapped_bytes(petool.rebase(old, 0x20000000), 0x30000000)
        self.assertEqual(found[0x1008:0x100C], expected)

    def test_v2_rebased_holds_at_0x30000000_what_v2_holds_there(self):
        self.assert_moved_on(changed("v2.dll"), bytes.fromhex("08100030"))

    def test_halves_that_were_rebased_are_moved_on_as_those_of_the_old_file(self):
        self.assert_moved_on(changed("v2.dll", *HALVES), bytes.fromhex("0890ff2f"))


if __name__ == "__main__":
    unittest.main()
