"""Modules with long names: each is found by its full name, even if others begin with the same letters."""

import unittest

from .files import changed, library
from .set_answers import Answers

#: Changes of VC to import ordinal 0 of a module whose name comes last in a section of 0x11400 bytes: SizeOfImage, the section's
#: VirtualSize and SizeOfRawData, the RVA of the module's name, and the import.
LONG = [
    (0x90, b"\x00\x40\x01"),
    (0x140, b"\x00\x14\x01"),
    (0x148, b"\x00\x14\x01"),
    (0x20C, b"\x00\x12"),
    (0x228, b"\x00\x00\x00\x80"),
]

#: What the slot holds if it is bound to the export at 0x20000000, and if it is not bound.
BOUND, UNBOUND = bytes.fromhex("10000020"), bytes.fromhex("38100000")

#: How many letters a module's name has and an import's module name has, the latter's ending, and whether the module is found.
IMPORTS = [
    (69_996, 69_996, b".dll", True),
    (69_996, 69_996, b".DLL", True),
    (69_996, 69_996, b".dllx", False),
    (69_996, 69_996, b".dl", False),
    (69_996, 69_995, b".dll", False),
    (69_996, 69_997, b".dll", False),
    (69_996, 1, b".dll", False),
    (1, 1, b".dll", True),
    (1, 1, b".dllx", False),
    (1, 69_996, b".dll", False),
]

#: How many letters a module's name has and a forwarder's has, to which `.dll` is added, and whether the module is found.
FORWARDERS = [
    (69_996, 69_996, True),
    (69_996, 69_997, False),
    (69_996, 69_995, False),
    (1, 1, True),
    (1, 69_996, False),
]


def importer_of(module):
    """VC with an import from a module of this name."""
    file = changed("vc.dll", *LONG, size=None) + module
    return file.ljust(0x11600, b"\0")


class LongNames(Answers):
    def mapped_by_program(self, set_, known, *options):
        # file names have at most 255 bytes
        if any(len(name) > 255 for name, _, _ in set_):
            return None
        return super().mapped_by_program(set_, known, *options)

    def assert_found(self, set_, is_found):
        """Asserts that the import of `c.exe`, the second image, is bound to the export of the image at 0x20000000, or that its
        module is not in the set."""
        if is_found:
            self.assert_slots(set_, False, [0x401030], BOUND)
        else:
            self.assert_refused(set_, False, 48, 1, 0x1030)
        self.assert_slots(set_, True, [0x401030], BOUND if is_found else UNBOUND)

    def test_an_import_names_a_module_with_its_whole_name(self):
        for letters, named, ending, is_found in IMPORTS:
            with self.subTest(letters=letters, named=named, ending=ending):
                exporter, importer = library([b""]), importer_of(b"m" * named + ending)
                set_ = [(b"m" * letters + b".dll", exporter, 0x20000000), (b"c.exe", importer, 0x400000)]
                self.assert_found(set_, is_found)

    def test_a_forwarder_names_a_module_with_its_whole_name(self):
        for letters, named, is_found in FORWARDERS:
            with self.subTest(letters=letters, named=named):
                forwarder = library([b"m" * named + b".#0"])
                set_ = [(b"m" * letters + b".dll", library([b""]), 0x20000000), (b"c.exe", importer_of(b"F.dll"), 0x400000)]
                self.assert_found([*set_, (b"f.dll", forwarder, 0x30000000)], is_found)


if __name__ == "__main__":
    unittest.main()
