"""Long strings, of which many share their ends: as forwarders, and as names of exports."""

import struct
import unittest

import petool

from .files import numbers, with_data
from .lookups import look_up

#: SizeOfImage 0x4000, and an export directory of 0x1000 bytes, the whole section.
EXPORTS = [(0x91, b"\x40"), (0xB8, bytes.fromhex("00100000 0010"))]

#: Where the first forwarder's string begins, after seven addresses: 300 `a`, a dot, and 300 `b`.
NAMED = 0x1028 + 4 * 7

#: Where the second one's begins: 300 `a`, a dot, `#`, 300 digits zero, and a seven.
NUMBERED = NAMED + 602

FORWARDERS = b"a" * 300 + b"." + b"b" * 300 + b"\0" + b"a" * 300 + b".#" + b"0" * 300 + b"7" + b"\0"

#: Where seven forwarders begin.
ENDING_ALIKE = [NAMED + 100, NAMED, NAMED + 299, NUMBERED + 290, NUMBERED, NAMED + 50, NUMBERED + 1]

#: The ordinal of each, how many `a` its module's name has, and the ordinal that it forwards to; None for a name of 300 `b`.
KEYS = [(1, 200, None), (2, 300, None), (3, 1, None), (4, 10, 7), (5, 300, 7), (6, 250, None), (7, 299, 7)]

#: Five strings for names: 600 `a`, the same again, and three of 600 bytes with one `b`: the first byte, the last, the one in the
#: middle.
NAME_TEXTS = b"\0".join(
    [b"a" * 600, b"a" * 600, b"b" + b"a" * 599, b"a" * 599 + b"b", b"a" * 300 + b"b" + b"a" * 299, b""]
)

#: Where names begin in these strings. Name k exports 0x10 + k, through its own entry.
STARTS = [300, 0, 601, 901, 1202, 1203, 1803, 2404, 2705, 345, 344, 945, 946, 1804]

#: Each distinct name at its first place: the RVA that it exports, and its bytes.
FIRST = [
    (0x10, b"a" * 300),
    (0x11, b"a" * 600),
    (0x14, b"b" + b"a" * 599),
    (0x15, b"a" * 599),
    (0x16, b"a" * 599 + b"b"),
    (0x17, b"a" * 300 + b"b" + b"a" * 299),
    (0x18, b"a" * 299),
    (0x19, b"a" * 255),
    (0x1A, b"a" * 256),
    (0x1D, b"a" * 598 + b"b"),
]

#: Strings that are not names.
NO_NAMES = [
    b"",
    b"a" * 254,
    b"a" * 257,
    b"a" * 601,
    b"a" * 856,
    b"b" + b"a" * 299,
    b"b" * 600,
    b"a" * 300 + b"c" + b"a" * 299,
    b"\0" + b"a" * 600,
]


def forwarders(addresses):
    """The image whose export table has these addresses, and the two strings."""
    table = numbers(0, 0, 0, 0, 1, 7, 0, 0x1028, 0, 0) + numbers(*addresses)
    return with_data(EXPORTS, table + FORWARDERS)


def named():
    """The image that exports these names."""
    count = len(STARTS)
    first_text = 0x1028 + 10 * count
    table = numbers(0, 0, 0, 0, 1, count, count, 0x1028, 0x1028 + 4 * count, 0x1028 + 8 * count)
    table += numbers(*range(0x10, 0x10 + count)) + numbers(*(first_text + start for start in STARTS))
    table += struct.pack(f"<{count}H", *range(count)) + NAME_TEXTS
    # SizeOfImage, and a directory of 40 bytes
    return with_data([(0x91, b"\x40"), (0xB9, b"\x10"), (0xBC, b"\x28")], table)


class Forwarders(unittest.TestCase):
    def test_forwarders_that_end_alike_have_one_key(self):
        for ordinal, letters, key in KEYS:
            expected = petool.Forward(b"a" * letters, b"b" * 300 if key is None else key)
            self.assertEqual(look_up(forwarders(ENDING_ALIKE), ordinal), expected, ordinal)

    def test_a_text_from_the_last_dot_on_is_no_forwarder(self):
        for start in (NAMED + 300, NAMED + 301, NUMBERED + 300, NUMBERED + 301):
            addresses = [NAMED, NUMBERED, NAMED + 1, NUMBERED + 1, start, NAMED, NAMED]
            fault = petool.check(forwarders(addresses))
            self.assertEqual((fault.number, fault.place, fault.at), (22, petool.Place.RVA, 0x1028 + 4 * 4))


class Names(unittest.TestCase):
    def test_names_that_end_alike_are_found_where_they_stand_first(self):
        with petool.Image(named()) as image:
            found = [(it.target, it.name) for it in image.exports.names()]
            self.assertEqual(found, [(petool.Rva(rva), name) for rva, name in FIRST])
        for rva, name in FIRST:
            self.assertEqual(look_up(named(), name), petool.Rva(rva))

    def test_a_text_that_no_name_has_exports_nothing(self):
        for text in NO_NAMES:
            self.assertIsNone(look_up(named(), text), text)


if __name__ == "__main__":
    unittest.main()
