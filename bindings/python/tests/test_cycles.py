"""Forwarders without a limit: chains of any length end, and a set is refused if and only if the search for an import runs into a
cycle, with its length."""

import unittest

from .files import chain, changed, library, looped, program
from .set_answers import Answers

#: The hops before a cycle, and its length.
CYCLES = [(0, 1), (0, 2), (0, 34), (32, 34), (65, 1), (1000, 1), (1000, 3)]

#: The ordinals of one chain that three programs import: each search begins before, at or after the beginning of an earlier one.
SHARED = [(0, 1, 2), (2, 1, 0), (1, 1, 1), (1, 0, 4)]

EXPORT_AT_20000000 = bytes.fromhex("10000020")
NAMES = ("c.exe", "d.exe", "e.exe")
SLOTS = (0x401030, 0x501030, 0x601030)


def with_program(exporter, importer):
    """The set of `f.dll` at 0x20000000 and `c.exe` at 0x400000."""
    return [("f.dll", exporter, 0x20000000), ("c.exe", importer, 0x400000)]


def with_programs(exporter, ordinals):
    """The set of `f.dll` and three programs, at 0x400000, 0x500000 and 0x600000, that import these ordinals from it."""
    programs = [(name, program(it), base) for name, it, base in zip(NAMES, ordinals, (0x400000, 0x500000, 0x600000))]
    return [("f.dll", exporter, 0x20000000), *programs]


class Forwarders(Answers):
    def assert_cycle(self, set_, image, slot, length):
        """Asserts that the import of an image leads into a cycle, with and without `known`."""
        for known in (False, True):
            self.assert_refused(set_, known, 50, image, slot, length)

    def assert_looped(self, ordinal, tail, length):
        set_ = with_program(looped(tail, length), program(ordinal))
        self.assert_cycle(set_, 1, 0x1030, length)

    def assert_bound(self, exporter, ordinal, expected):
        """Asserts the contents of the slot of a program that imports an ordinal from a library."""
        for known in (False, True):
            self.assert_slots(with_program(exporter, program(ordinal)), known, SLOTS[:1], expected)

    def test_a_cycle_is_refused_by_its_length_behind_any_tail(self):
        for tail, length in CYCLES:
            with self.subTest(tail=tail, length=length):
                self.assert_looped(0, tail, length)

    def test_an_import_that_begins_on_the_cycle_has_the_same_length(self):
        for ordinal in range(8):
            with self.subTest(ordinal=ordinal):
                self.assert_looped(ordinal, 3, 5)

    def test_the_last_forwarder_of_a_chain_may_lead_back(self):
        # entry 65 is 0x1408, the RVA of a forwarder to ordinal 33
        exporter = changed("f65.dll", (0x34C, b"\x08\x14"), (0x608, b"f.#33"), size=None)
        self.assert_cycle(with_program(exporter, program(1)), 1, 0x1030, 34)

    def test_a_chain_of_65_forwarders_is_followed(self):
        self.assert_bound(changed("f65.dll", size=None), 1, bytes.fromhex("04100020"))

    def test_a_module_may_be_met_at_each_hop(self):
        self.assert_bound(chain(4, b""), 0, EXPORT_AT_20000000)

    def test_a_chain_of_65_536_forwarders_ends(self):
        set_ = with_program(chain(65_535, b"g.#0"), program(0))
        set_.append(("G.dll", library([b""]), 0x30000000))
        self.assert_slots(set_, False, SLOTS[:1], bytes.fromhex("10000030"))

    def test_a_cycle_may_lead_through_256_images(self):
        set_ = []
        for index in range(255):
            text = b"s.#7" if index == 254 else b"%03d.#0" % (index + 1)
            set_.append((f"{index:03}.dll", library([text]), 0x1000000 + 0x10000 * index))
        # VS imports its own ordinal 7, which is a forwarder to the first of them
        own = changed("vs.dll", (0x250, b"\x70"), (0x270, b"000.#0\0"), size=None)
        self.assert_cycle([*set_, ("s.dll", own, 0x20000000)], 255, 0x2030, 256)

    def test_the_line_of_a_cycle_tells_its_length(self):
        told = self.mapped_by_program(with_program(looped(1, 34), program(0)), False)
        if told is None:
            self.skipTest("left out without program: PETOOL_PROGRAM names none")
        self.assertEqual(told, (["fault 50 image 1 rva 0x00001030 cycle 34"], 1))

    def test_a_slot_is_bound_behind_1_000_hops(self):
        self.assert_slots(with_program(chain(1_000, b""), program(0)), False, SLOTS[:1], EXPORT_AT_20000000)

    def test_chains_that_share_their_tails_end_alike(self):
        for last, expected in ((b"", EXPORT_AT_20000000), (b"g.#0", bytes.fromhex("38100000"))):
            for ordinals in SHARED:
                with self.subTest(last=last, ordinals=ordinals):
                    self.assert_slots(with_programs(chain(4, last), ordinals), True, SLOTS, expected)

    def test_a_cycle_behind_searches_that_end_is_told(self):
        # 0 and 1 lead to an export, 3 to 5 form a cycle
        exporter = library([b"f.#1", b"F.#2", b"", b"f.#4", b"f.#5", b"f.#3"])
        self.assert_cycle(with_programs(exporter, (0, 1, 4)), 3, 0x1030, 3)


if __name__ == "__main__":
    unittest.main()
