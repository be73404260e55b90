"""The tables of images: base relocations entry by entry, the largest tables of exports and imports, and how much each small file
holds."""

import ctypes
import struct
import unittest

import petool
from petool import _library, _records
from petool._bytes import FileBytes

from . import data
from .files import changed, numbers, with_data
from .lookups import look_up

HIGH, LOW, BITS32, BITS64 = 1, 2, 3, 10

#: V2, whose table at 0x2000 is at the file offset 0x400, in cases of its directory and blocks: the changes, the slots of its
#: imports, and its base relocations (the RVA of the entry, the RVA of the field and the type) or its fault (number and RVA).
BLOCKS = [
    ([], [], [(0x2008, 0x1008, BITS32)]),
    # 34: the directory
    ([(0xE4, b"\xff\xff\xff\xff")], [], (34, 0x2000)),
    ([(0xE4, b"\x01\x10")], [], (34, 0x2000)),
    ([(0xE4, b"\x07")], [], []),
    # 8 bytes remain after the block, with a BlockSize of 0
    ([(0xE4, b"\x14")], [], [(0x2008, 0x1008, BITS32)]),
    # 33: the block
    ([(0x404, b"\x08")], [], []),
    ([(0x404, b"\x09")], [], (33, 0x2000)),
    ([(0x404, b"\x0e")], [], (33, 0x2000)),
    ([(0x404, b"\x06")], [], (33, 0x2000)),
    ([(0x404, b"\xfe\xff\xff\xff")], [], (33, 0x2000)),
    ([(0x404, b"\x00")], [], []),
]

#: V2 in cases of its entries: 35, the types.
TYPES = [
    ([(0x408, b"\x00\x00")], [], []),
    ([(0x408, b"\xff\x0f")], [], []),
    ([(0x408, b"\x08\x10")], [], [(0x2008, 0x1008, HIGH)]),
    ([(0x408, b"\x08\x20")], [], [(0x2008, 0x1008, LOW)]),
    ([(0x408, b"\x08\x40")], [], (35, 0x2008)),
    ([(0x408, b"\x08\x90")], [], (35, 0x2008)),
    ([(0x40A, b"\x00\xb0")], [], (35, 0x200A)),
    ([(0x409, b"\xa0")], [], [(0x2008, 0x1008, BITS64)]),
]

#: 36: the field in the image.
PLACES = [
    ([(0x400, b"\x00\x20"), (0x408, b"\xfc\x3f")], [], [(0x2008, 0x2FFC, BITS32)]),
    ([(0x400, b"\x00\x20"), (0x408, b"\xfd\x3f")], [], (36, 0x2008)),
    ([(0x400, b"\x00\x20"), (0x408, b"\xf8\xaf")], [], [(0x2008, 0x2FF8, BITS64)]),
    ([(0x400, b"\x00\x20"), (0x408, b"\xf9\xaf")], [], (36, 0x2008)),
    ([(0x400, b"\x00\x20"), (0x408, b"\xfe\x1f")], [], [(0x2008, 0x2FFE, HIGH)]),
    ([(0x400, b"\x00\x20"), (0x408, b"\xff\x1f")], [], (36, 0x2008)),
    ([(0x400, b"\x00\x20"), (0x408, b"\xfe\x2f")], [], [(0x2008, 0x2FFE, LOW)]),
    ([(0x400, b"\x00\x20"), (0x408, b"\xff\x2f")], [], (36, 0x2008)),
    # a field at 2^32 is not the field at 0
    ([(0x400, b"\xff\xff\xff\xff"), (0x408, b"\x01\x30")], [], (36, 0x2008)),
]

#: 37: fields that overlap.
MEETING = [
    ([(0x40A, b"\x08\x30")], [], (37, 0x200A)),
    ([(0x40A, b"\x0b\x30")], [], (37, 0x200A)),
    ([(0x40A, b"\x05\x30")], [], (37, 0x200A)),
    ([(0x40A, b"\x01\xa0")], [], (37, 0x200A)),
    ([(0x40A, b"\x0c\x30")], [], [(0x2008, 0x1008, BITS32), (0x200A, 0x100C, BITS32)]),
    ([(0x40A, b"\x00\xa0")], [], [(0x2008, 0x1008, BITS32), (0x200A, 0x1000, BITS64)]),
    ([(0x408, b"\x08\x20\x0a\x10")], [], [(0x2008, 0x1008, LOW), (0x200A, 0x100A, HIGH)]),
    ([(0x408, b"\x08\x20\x09\x10")], [], (37, 0x200A)),
    ([(0x40A, b"\x0b\x10")], [], (37, 0x200A)),
    ([(0x40A, b"\x07\x20")], [], (37, 0x200A)),
    ([(0x40A, b"\x06\x20")], [], [(0x2008, 0x1008, BITS32), (0x200A, 0x1006, LOW)]),
]

#: 38: slots, of 4 bytes.
SLOTS = [
    ([], [0x100B], (38, 0x2008)),
    ([], [0x1005], (38, 0x2008)),
    ([], [0x2000, 0x1008, 0x1800], (38, 0x2008)),
    ([], [0x1004, 0x100C], [(0x2008, 0x1008, BITS32)]),
    ([(0x40A, b"\x08\x30")], [0x1008], (38, 0x2008)),
    ([(0x408, b"\x08\x10")], [0x1009], (38, 0x2008)),
    ([(0x408, b"\x08\x20")], [0x1005], (38, 0x2008)),
    ([(0x408, b"\x08\x10")], [0x1004, 0x100A], [(0x2008, 0x1008, HIGH)]),
]

#: A directory and a section of 0x18 bytes, for two blocks.
TWO = [(0xE4, b"\x18"), (0x168, b"\x18")]

#: V2 with two blocks.
TWO_BLOCKS = [
    (
        [*TWO, (0x40C, bytes.fromhex("00100000 0c000000 1030 0000"))],
        [],
        [(0x2008, 0x1008, BITS32), (0x2014, 0x1010, BITS32)],
    ),
    (
        [*TWO, (0x40C, bytes.fromhex("00000000 0c000000 ffaf f73f"))],
        [],
        [(0x2008, 0x1008, BITS32), (0x2014, 0x0FFF, BITS64), (0x2016, 0x0FF7, BITS32)],
    ),
    # fields that overlap, both below an earlier one
    ([*TWO, (0x40C, bytes.fromhex("00000000 0c000000 ffaf fc3f"))], [], (37, 0x2016)),
    ([*TWO, (0x40C, bytes.fromhex("09100000 0c000000 0230 0000"))], [], (37, 0x2014)),
    # a field below two ascending ones, and one above it
    (
        [*TWO, (0x40A, b"\x0c\x30"), (0x40C, bytes.fromhex("00100000 0c000000 0430 1030"))],
        [],
        [
            (0x2008, 0x1008, BITS32),
            (0x200A, 0x100C, BITS32),
            (0x2014, 0x1004, BITS32),
            (0x2016, 0x1010, BITS32),
        ],
    ),
    ([*TWO, (0x40A, b"\x0c\x30"), (0x40C, bytes.fromhex("00100000 0c000000 0430 0e30"))], [], (37, 0x2016)),
    ([*TWO, (0x40A, b"\x0c\x30"), (0x40C, bytes.fromhex("00100000 0c000000 0730 1030"))], [], (37, 0x2014)),
    ([*TWO, (0x40C, bytes.fromhex("00100000 0e000000 1030 0000"))], [], (33, 0x200C)),
]

#: V3: its slots have 8 bytes.
WIDE_SLOTS = [
    ([], [0x1000, 0x1010], [(0x2008, 0x1008, BITS64)]),
    ([], [0x1001], (38, 0x2008)),
    ([], [0x100F], (38, 0x2008)),
]

#: VC, which has a slot at 0x1030, with V2's section `.reloc`, its directory and the entry of a field at 0x1033.
AN_IMPORT = [
    (
        [
            (0x46, b"\x02"),
            (0xE0, b"\x00\x20\x00\x00\x0c"),
            (0x160, b"\x2e\x72\x65\x6c\x6f\x63"),
            (0x168, b"\x0c\x00\x00\x00\x00\x20"),
            (0x170, b"\x00\x02\x00\x00\x00\x04"),
            (0x184, b"\x40\x00\x00\xc0"),
            (0x400, bytes.fromhex("00100000 0c000000 3330 0000")),
        ],
        [],
        (38, 0x2008),
    )
]

#: V1 has no table.
NO_TABLE = [([], [0x1000], [])]

#: How many entries blocks have, of which one is special: a few, as many as are read at once, one fewer and one more, and as many as
#: are read in three parts.
ENTRIES = [1, 4, 255, 256, 257, 600]

#: The last page of an image of 0x9000 bytes, which these blocks have, and the field of the block before, of 4 bytes.
PAGE, EARLIER = 0x8000, 0x8FF0


def entry_of(kind, offset):
    """The number of an entry."""
    return kind << 12 | offset


def block(page, entries):
    """The bytes of a block."""
    return numbers(page, 8 + 2 * len(entries)) + struct.pack(f"<{len(entries)}H", *entries)


def with_slots(slots, table):
    """An image of 0x9000 bytes that imports ordinal 1 of `a.dll` into each of these slots and has this base relocation table, and
    the table's RVA. From 0x1000 on it has descriptors, an entry for each of them, the name, and the base relocations."""
    lookups = 0x1000 + 20 * len(slots) + 20
    name = lookups + 8 * len(slots)
    descriptors = b"".join(numbers(lookups + 8 * k, 0, 0, name, slot) for k, slot in enumerate(slots))
    section = descriptors + bytes(20) + numbers(0x80000001, 0) * len(slots) + b"a.dll\0\0\0" + table
    directories = [(0xC0, numbers(0x1000, lookups - 0x1000)), (0xE0, numbers(name + 8, len(table)))]
    return with_data([(0x90, numbers(0x9000)), *directories], section), name + 8


def long_block_cases(count, at):
    """Cases of a block of `count` entries, of which the one at index `at` is special: the slots of imports, the block's page, the
    entries that differ by their index, and the fault and its entry, or None. The fields have 2 bytes and are 6 apart, so that a
    slot of 4 bytes just fits between two."""
    field = PAGE + 6 * at
    between = [field + 2]
    for slots in ([], between):
        # 35: no such type; 36: a field that passes the end of the image; 37: the last byte of an earlier field, and the first
        yield slots, PAGE, {at: entry_of(4, 6 * at)}, (35, at)
        yield slots, PAGE, {at: entry_of(BITS32, 0xFFE)}, (36, at)
        yield slots, PAGE, {at: entry_of(HIGH, EARLIER + 3 - PAGE)}, (37, at)
        yield slots, PAGE, {at: entry_of(LOW, EARLIER - 1 - PAGE)}, (37, at)
        if at > 0:
            yield slots, PAGE, {at: entry_of(LOW, 6 * at - 5)}, (37, at)
        # none: the last field inside the image, an entry without a field, and one of another type
        yield slots, PAGE, {at: entry_of(BITS32, 0xFFC)}, None
        yield slots, PAGE, {at: entry_of(0, 6 * at)}, None
        yield slots, PAGE, {at: entry_of(HIGH, 6 * at)}, None
    yield [], PAGE, {at: entry_of(BITS32, 6 * at)}, None
    # 38: a slot overlaps the last byte of a field, its first, all of it; adjacent slots do not overlap it
    for slot in (field + 1, field - 3, field - 1):
        yield [slot], PAGE, {}, (38, at)
    yield [field - 4, field + 2], PAGE, {}, None
    # a slot among others, before and after it
    yield [0x3000, field - 4, field, 0x8FF8], PAGE, {}, (38, at)
    # the first entry with a fault counts
    if at > 0:
        yield [field], PAGE, {at - 1: entry_of(4, 0)}, (35, at - 1)
    if at + 1 < count:
        yield [field], PAGE, {at + 1: entry_of(4, 0)}, (38, at)
    # a field of 8 bytes that begins at the last byte of its page, and slots in the next page
    yield [PAGE + 6], PAGE - 0x1000, {at: entry_of(BITS64, 0xFFF)}, (38, at)
    yield [PAGE + 7], PAGE - 0x1000, {at: entry_of(BITS64, 0xFFF)}, None


def imports_at(slots, wide):
    """The changes that give a file imports with these slots: VirtualSize 0x200 of its first section, a table in it at 0x1100 with a
    descriptor for each, and the directory."""
    table, lookups, name = 0x300, 0x380, 0x3F0
    rva = 0xE00  # the RVA of a file offset, minus the offset
    descriptors = b"".join(numbers(lookups + rva + 16 * k, 0, 0, name + rva, slot) for k, slot in enumerate(slots))
    entry = struct.pack("<QQ", 1 << 63 | 1, 0) if wide else numbers(0x80000001, 0, 0, 0)
    return [
        (0x150 if wide else 0x140, b"\x00\x02"),
        (0xD0 if wide else 0xC0, numbers(table + rva, 20 * len(slots) + 20)),
        (table, descriptors + bytes(20)),
        (lookups, entry * len(slots)),
        (name, b"a.dll\0"),
    ]


class Fixups(unittest.TestCase):
    def assert_fixups(self, name, cases):
        for case, (pieces, slots, expected) in enumerate(cases):
            with self.subTest(name=name, case=case):
                added = imports_at(slots, name == "v3.dll") if slots else []
                self.assert_case(changed(name, *pieces, *added), slots, expected)

    def assert_case(self, file, slots, expected):
        with petool.Image(file, check=False) as image:
            if slots:
                self.assertEqual([it.slot for it in image.imports], slots)
            if isinstance(expected, list):
                self.assertEqual([(it.entry, it.field, it.kind) for it in image.fixups], expected)
                return
            with self.assertRaises(petool.FormatFault) as caught:
                len(image.fixups)
            fault = caught.exception
            self.assertEqual((fault.number, fault.place, fault.at), (expected[0], petool.Place.RVA, expected[1]))

    def test_blocks(self):
        self.assert_fixups("v2.dll", BLOCKS)
        self.assert_fixups("v2.dll", TWO_BLOCKS)

    def test_types(self):
        self.assert_fixups("v2.dll", TYPES)

    def test_a_field_lies_in_the_image(self):
        self.assert_fixups("v2.dll", PLACES)

    def test_fields_that_meet(self):
        self.assert_fixups("v2.dll", MEETING)

    def test_fields_that_meet_slots(self):
        self.assert_fixups("v2.dll", SLOTS)
        self.assert_fixups("v3.dll", WIDE_SLOTS)
        self.assert_fixups("vc.dll", AN_IMPORT)

    def assert_long_block(self, count, slots, page, changes, met):
        """Asserts what is read of a block of `count` entries, after a block with one field."""
        entries = [changes.get(k, entry_of(LOW, 6 * k)) for k in range(count)]
        file, table = with_slots(slots, block(PAGE, [entry_of(BITS32, EARLIER - PAGE), 0]) + block(page, entries))
        first = table + 20
        if met:
            number, at = met
            self.assert_case(file, slots, (number, first + 2 * at))
            return
        fixups = [(first + 2 * k, page + entry % 0x1000, entry >> 12) for k, entry in enumerate(entries) if entry >> 12]
        self.assert_case(file, slots, [(table + 8, EARLIER, BITS32), *fixups])

    def test_an_entry_of_a_long_block_meets_something(self):
        for count in ENTRIES:
            for at in sorted({0, count // 2, count - 1}):
                for slots, page, changes, met in long_block_cases(count, at):
                    with self.subTest(count=count, at=at, slots=slots, page=page, changes=changes):
                        self.assert_long_block(count, slots, page, changes, met)

    def test_an_image_without_a_table(self):
        self.assert_fixups("v1.dll", NO_TABLE)

    def test_a_table_of_a_million_fields(self):
        # 976 blocks of 1,024 entries and one of 576, of 0x1ea308 bytes: fields at 4 * k
        blocks = []
        for page in range(0, 4_000_000, 0x1000):
            count = min(1024, (4_000_000 - page) // 4)
            blocks.append(numbers(page, 8 + 2 * count) + struct.pack(f"<{count}H", *(0x3000 + 4 * it for it in range(count))))
        table = b"".join(blocks)
        self.assertEqual(len(table), 0x1EA308)
        pieces = [(0x92, b"\x80"), (0xE0, bytes.fromhex("00100000 08a31e00"))]
        with petool.Image(with_data(pieces, table)) as image:
            rows = image.fixup_array()
        self.assertEqual(rows[1::3].tolist(), list(range(0, 4_000_000, 4)))
        self.assertEqual(rows[2::3].tolist(), [BITS32] * 1_000_000)


#: The most entries that an export table has, and the most names.
MOST = 65_536

#: The first name, one in the middle and the last, with the ordinal and the RVA that each exports, which descend.
FOUND = [(b"0000", 0x10000, 0x10FFFF), (b"1234", 0xEDCC, 0x10EDCB), (b"ffff", 1, 0x100000)]


def largest_exports():
    """The largest table: after the directory's 40 bytes addresses, name pointers, descending ordinals, and strings of 5 bytes with
    their zero, `0000` to `ffff`."""
    addresses = 0x1028
    pointers = addresses + 4 * MOST
    entries = pointers + 4 * MOST
    texts = entries + 2 * MOST
    table = numbers(0, 0, 0, 0, 1, MOST, MOST, addresses, pointers, entries)
    table += numbers(*range(0x100000, 0x100000 + MOST))
    table += numbers(*range(texts, texts + 5 * MOST, 5))
    table += struct.pack(f"<{MOST}H", *reversed(range(MOST)))
    table += b"".join(b"%04x\0" % index for index in range(MOST))
    # SizeOfImage, and a directory of 40 bytes
    return with_data([(0x91, b"\x00\x20"), (0xB9, b"\x10"), (0xBC, b"\x28")], table)


class LargestExports(unittest.TestCase):
    def test_a_table_of_65536_names(self):
        file = largest_exports()
        for name, ordinal, rva in FOUND:
            self.assertEqual((look_up(file, name), look_up(file, ordinal)), (petool.Rva(rva), petool.Rva(rva)))
        for key in (b"10000", 0, MOST + 1):
            self.assertIsNone(look_up(file, key))
        with petool.Image(file) as image:
            exports = image.exports
            self.assertEqual((len(exports.ordinals()), len(exports.names())), (65_536, 65_536))
            for row, (name, ordinal, rva) in zip((0, 0x1234, MOST - 1), FOUND):
                export = petool.Export(name, ordinal, petool.Rva(rva))
                self.assertEqual((exports.names()[row], exports.ordinals()[MOST - 1 - row]), (export, export))

    def bound(self, piece):
        """What the import of VC, changed by a piece, is bound to in the library; None if the library has no such export."""
        importer = changed("vc.dll", (0x240, b"S.DLL\0"), piece, size=None)
        try:
            found = petool.judge([("s.dll", self.library, 0x20000000), ("c.exe", importer, 0x400000)])
        except petool.FormatFault as fault:
            self.assertEqual((fault.number, fault.image, fault.at), (49, 1, 0x1030))
            return None
        (binding,) = found
        self.assertEqual((binding.image, binding.slot, binding.exporter), (1, 0x1030, 0))
        return binding.rva

    def test_a_set_finds_each_of_65536_names(self):
        # for imports of a set, names are looked up by an index that guesses their places
        self.library = largest_exports()
        for name, ordinal, rva in FOUND:
            self.assertEqual(self.bound((0x23A, name + b"\0")), rva)
            if ordinal < MOST:
                self.assertEqual(self.bound((0x228, numbers(0x80000000 | ordinal))), rva)
        self.assertIsNone(self.bound((0x23A, b"10000\0")))
        self.assertIsNone(self.bound((0x228, numbers(0x80000000))))


#: How many imports an image may have.
MOST_IMPORTS = 1_048_576


def many_imports(count):
    """The image of 0x1000000 bytes with a table at 0x1000 that imports ordinal 1 of one module `count` times: its lookup table is
    at 0x1030."""
    head = numbers(0x1030, 0, 0, 0x1028, 0x800000, 0, 0, 0, 0, 0, 0x61, 0)
    table = head + numbers(0x80000001) * count + numbers(0)
    return with_data([(0x91, b"\x00\x00\x01"), (0xC1, b"\x10")], table)


class Imports(unittest.TestCase):
    def test_as_many_imports_as_the_limit_are_read(self):
        with petool.Image(many_imports(MOST_IMPORTS)) as image:
            self.assertEqual(len(image.imports), 1_048_576)
            self.assertEqual(image.imports[-1], petool.Import(b"a", 1, 0xBFFFFC))

    def test_an_import_over_the_limit_is_refused(self):
        fault = petool.check(many_imports(MOST_IMPORTS + 1))
        self.assertEqual((fault.number, fault.place, fault.at), (31, petool.Place.RVA, 0x401030))


#: Files, and how many exports by ordinal, exports by name, imports and base relocations each has.
COUNTS = [
    ("v1.dll", (0, 0, 0, 0)),
    ("v2.dll", (0, 0, 0, 1)),
    ("va.dll", (1, 1, 0, 0)),
    ("vb.dll", (2, 1, 0, 0)),
    ("vc.dll", (0, 0, 1, 0)),
    ("vs.dll", (2, 1, 1, 0)),
]


class Whole(unittest.TestCase):
    def counts(self, file):
        """The counts of all tables, read without room for rows."""
        held, counts, fault = FileBytes(file), _records.Counts(), _records.Fault()
        rooms = (_library.NO_BYTES, 0) * 4
        status = _library.library.petool_tables(held.address, held.length, *rooms, ctypes.byref(counts), ctypes.byref(fault))
        self.assertIn(status, (_library.OK, _library.SMALL))
        return counts.exports, counts.names, counts.imports, counts.fixups

    def test_an_image_is_read_whole(self):
        for name, counts in COUNTS:
            with self.subTest(name):
                self.assertEqual(self.counts(data(name)), counts)


if __name__ == "__main__":
    unittest.main()
