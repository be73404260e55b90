"""Faults 48 to 50, each of an import whose slot is at the place: the module and the key that the import names."""

import pickle
import unittest

import petool

from .files import changed, library, looped, numbers, program
from .set_answers import Answers

#: A library whose ordinal 0 is a forwarder to a module that no set has, and one without an export.
FORWARDER, EMPTY = library([b"gone.#7"]), changed("v1.dll", size=None)

#: V2 with the imports of two modules: the ordinals 5 and 6 of `a.dll`, into the slots 0x1100 and 0x1104, and `first` of `B.dll`,
#: into 0x1108. The table, its names and its slots are in the section, at 0x1010 and the RVAs after it.
TWO_MODULES = [
    (0x140, numbers(0x200)),
    (0xC0, numbers(0x1010, 60)),
    (0x210, numbers(0x1050, 0, 0, 0x1070, 0x1100, 0x1060, 0, 0, 0x1078, 0x1108) + bytes(20)),
    (0x250, numbers(0x80000005, 0x80000006, 0, 0, 0x1080, 0)),
    (0x270, b"a.dll\0\0\0B.dll\0\0\0\0\0first\0"),
]


class ImportFaults(Answers):
    def assert_named(self, set_, number, slot, module, key):
        """Asserts the fault of the last image of a set, and what it says of the import."""
        for call in (petool.judge, petool.Space):
            with self.assertRaises(petool.FormatFault) as caught:
                call(set_)
            fault = caught.exception
            self.assertEqual((fault.number, fault.image, fault.at), (number, len(set_) - 1, slot))
            for it in (fault, pickle.loads(pickle.dumps(fault))):
                self.assertEqual((it.module, it.key), (module, key))

    def test_an_import_by_name(self):
        importer = [("c.exe", changed("vc.dll", size=None), 0x400000)]
        self.assert_named(importer, 48, 0x1030, b"A.DLL", b"f")
        self.assert_named([("a.dll", EMPTY, 0x10000000), *importer], 49, 0x1030, b"A.DLL", b"f")

    def test_an_import_by_ordinal(self):
        importer = [("c.exe", program(3), 0x400000)]
        self.assert_named(importer, 48, 0x1030, b"F.DLL", 3)
        self.assert_named([("f.dll", library([b""]), 0x20000000), *importer], 49, 0x1030, b"F.DLL", 3)
        self.assert_named([("f.dll", looped(3, 2), 0x20000000), *importer], 50, 0x1030, b"F.DLL", 3)

    def test_a_forwarder_may_lead_on_from_the_module_that_is_named(self):
        set_ = [("f.dll", FORWARDER, 0x20000000), ("c.exe", program(0), 0x400000)]
        self.assert_named(set_, 48, 0x1030, b"F.DLL", 0)

    def test_one_import_of_many(self):
        importer = [("c.dll", changed("v2.dll", *TWO_MODULES, size=None), 0x10000000)]
        has_five = library([b"", b"", b"", b"", b"", b""])
        self.assert_named(importer, 48, 0x1100, b"a.dll", 5)
        self.assert_named([("a.dll", has_five, 0x20000000), *importer], 49, 0x1104, b"a.dll", 6)
        has_both = library([b""] * 7)
        self.assert_named([("a.dll", has_both, 0x20000000), *importer], 48, 0x1108, b"B.dll", b"first")

    def test_other_faults_name_no_import(self):
        cut = [("a.dll", changed("v1.dll", size=520), 0x20000000)]
        for set_, number in (([("a.dll", EMPTY, 1)], 44), (cut, 13), ([("a.dll", EMPTY, 0x10000000)] * 300, 42)):
            with self.assertRaises(petool.FormatFault) as caught:
                petool.judge(set_)
            fault = caught.exception
            self.assertEqual((fault.number, fault.module, fault.key), (number, None, None))


if __name__ == "__main__":
    unittest.main()
