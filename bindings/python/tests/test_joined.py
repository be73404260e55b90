"""Exports by name and by ordinal: each row has its ordinal and all its names, as a reader finds that shares no code with petool."""

import itertools
import pickle
import random
import struct
import tracemalloc
import unittest

import petool
from petool import Export, Rva

from . import crafted, data, script
from .files import numbers, put

reader = script("pages_reader")

SMALL_FILES = ["va.dll", "vb.dll", "vr.dll", "vs.dll", "names.dll", "chain.dll", "f1.dll", "f65.dll"]

#: The strings that two sections of an image share, at the RVAs 0x3000 and 0x4000: the first section ends its string `abcabc` after
#: three letters by zero fill, which begins at 0x3007 and ends at 0x3010. A gap follows.
STRINGS = b"abc\0abcabc\0\0c\0bc\0"
CUT, WHOLE, FILL, GAP = 0x3000, 0x4000, 0x3007, 0x5000


def exporting(base, addresses, names):
    """An image with this ordinal base, these addresses, and these names: the RVA of a string, and the entry that it exports."""
    table = numbers(0, 0, 0, 0, base, len(addresses), len(names), 0x1028)
    table += numbers(0x1028 + 4 * len(addresses), 0x1028 + 4 * (len(addresses) + len(names)))
    table += numbers(*addresses, *(rva for rva, _ in names)) + struct.pack(f"<{len(names)}H", *(entry for _, entry in names))
    file = bytearray(data("v1.dll")[:0x200])
    at = 0x200 + len(table)
    sections = [(0x1000, len(table), 0x200, len(table)), (CUT, 0x10, at, 7), (WHOLE, len(STRINGS), at, len(STRINGS))]
    headers = b"".join(struct.pack("<8sIIII12xI", b"", size, rva, raw, begin, 0) for rva, size, begin, raw in sections)
    put(file, (0x46, b"\x03"), (0x90, numbers(0x6000)), (0xB8, numbers(0x1000, 40)), (0x138, headers))
    return bytes(file) + table + STRINGS


#: Ordinal base, addresses, names, and what is found: the names by their rows, and the names of each exported ordinal.
CASES = [
    # several names of an ordinal, not in its order, and an ordinal without a name
    (
        5,
        [0x10, 0x20, 0x30],
        [(WHOLE + 12, 2), (WHOLE, 0), (WHOLE + 14, 2)],
        {b"c": 7, b"abc": 5, b"bc": 7},
        {5: [b"abc"], 6: [], 7: [b"c", b"bc"]},
    ),
    # equal strings: at one place, at two, and at two of one file offset; the first counts
    (1, [0x10, 0x20], [(WHOLE, 1), (WHOLE, 0), (WHOLE + 4, 0)], {b"abc": 2, b"abcabc": 1}, {1: [b"abcabc"], 2: [b"abc"]}),
    (1, [0x10, 0x20], [(WHOLE + 7, 0), (WHOLE, 1), (CUT, 1), (CUT + 4, 1)], {b"abc": 1}, {1: [b"abc"], 2: []}),
    # strings of different lengths at one offset, the shorter one again before the longer one, and the other way about
    (1, [0x10, 0x20], [(CUT + 4, 0), (CUT + 4, 1), (WHOLE + 4, 1)], {b"abc": 1, b"abcabc": 2}, {1: [b"abc"], 2: [b"abcabc"]}),
    (1, [0x10, 0x20], [(WHOLE + 4, 1), (WHOLE + 4, 0), (CUT + 4, 0)], {b"abcabc": 2, b"abc": 1}, {1: [b"abc"], 2: [b"abcabc"]}),
    # the empty name, in the file, in zero fill and in a gap
    (1, [0x10, 0x20], [(WHOLE + 3, 1), (FILL, 0), (GAP, 0)], {b"": 2}, {1: [], 2: [b""]}),
    (1, [0x10, 0x20], [(GAP, 0), (WHOLE + 3, 1)], {b"": 1}, {1: [b""], 2: []}),
    (1, [0x10, 0x20], [(WHOLE, 1), (FILL, 0), (WHOLE + 12, 1)], {b"abc": 2, b"": 1, b"c": 2}, {1: [b""], 2: [b"abc", b"c"]}),
    # a first name that exports nothing hides a later one
    (1, [0, 0x20], [(WHOLE, 0), (CUT, 1), (WHOLE + 12, 1)], {b"c": 2}, {2: [b"c"]}),
    # a name in the headers, and ordinals over 2^32
    (0xFFFFFFFF, [0x10, 0x20], [(0, 1)], {b"MZ": 0x100000000}, {0xFFFFFFFF: [], 0x100000000: [b"MZ"]}),
    (0, [0x10], [], {}, {0: []}),
]


def any_table(chance):
    """A table of few strings and entries, so that many names are equal, or export the same."""
    addresses = [chance.choice((0, 0x10, 0x20)) for _ in range(chance.randint(1, 4))]
    rvas = [0, GAP, *range(CUT, CUT + 16), *range(WHOLE, WHOLE + len(STRINGS))]
    names = [(chance.choice(rvas), chance.randrange(len(addresses))) for _ in range(chance.randrange(12))]
    return exporting(chance.choice((0, 7, 0xFFFFFFFF)), addresses, names)


class Joined(unittest.TestCase):
    def found(self, file):
        """The ordinal of each name, and the names of each ordinal, by the rows; each row agrees with the others."""
        with petool.Image(file) as image:
            names, ordinals = list(image.exports.names()), list(image.exports.ordinals())
            targets = dict(image.exports)
        by_ordinal = {it.ordinal: it for it in ordinals}
        for it in names:
            self.assertEqual((targets[it.name], it.names), (it.target, by_ordinal[it.ordinal].names))
        for it in ordinals:
            self.assertEqual((it.name, it.target), (it.names[0] if it.names else None, targets[it.ordinal]))
        return {it.name: it.ordinal for it in names}, {it.ordinal: list(it.names) for it in ordinals}

    def assert_read(self, file):
        """Asserts what the other reader finds."""
        rows = {ordinal: names for ordinal, _, names in reader.Image(file, reader.Headers(file)).read_exports()}
        names, ordinals = self.found(file)
        self.assertEqual(ordinals, rows)
        self.assertEqual(names, {name: ordinal for ordinal, its in rows.items() for name in its})

    def test_names_and_ordinals_of_tables(self):
        for base, addresses, names, by_name, by_ordinal in CASES:
            with self.subTest(base=base, addresses=addresses, names=names):
                found = self.found(exporting(base, addresses, names))
                self.assertEqual(found, (by_name, by_ordinal))
                self.assertEqual(list(found[0]), list(by_name))

    def test_small_files(self):
        for name in SMALL_FILES:
            with self.subTest(name):
                self.assert_read(data(name))

    def test_any_tables(self):
        chance = random.Random(63)
        for case in range(1000):
            with self.subTest(case):
                self.assert_read(any_table(chance))

    def test_len_counts_what_iteration_gives(self):
        chance = random.Random(7)
        for file in itertools.chain(map(data, SMALL_FILES), (any_table(chance) for _ in range(100))):
            with petool.Image(file) as image:
                keys = list(image.exports)
                self.assertEqual((len(image.exports), len(set(keys))), (len(keys), len(keys)))
                exported = [it for it in keys if isinstance(it, int)]
                self.assertEqual(exported, [it.ordinal for it in image.exports.ordinals()])

    def test_a_row_is_its_name_ordinal_and_target(self):
        with petool.Image(data("vb.dll")) as image:
            (row,) = image.exports.names()
        self.assertEqual(row, Export(b"g", row.ordinal, row.target))
        copy = pickle.loads(pickle.dumps(row))
        self.assertEqual((copy, copy.names), (row, (b"g",)))

    def test_names_that_share_a_string_are_joined_without_copies(self):
        # 4,096 names, of 260 MB together, of two ordinals
        lengths = list(range(4096))
        entries = [it % 2 for it in lengths]
        file = crafted.exports(lengths, b"a" * 65535 + b"\0", [16, 32], entries_of=entries)
        with petool.Image(file) as image:
            tracemalloc.start()
            self.addCleanup(tracemalloc.stop)
            by_ordinal = image.exports.ordinals()
            self.assertEqual([(it.ordinal, len(it.names)) for it in by_ordinal], [(1, 2048), (2, 2048)])
            self.assertEqual([len(it.names[k]) for it in by_ordinal for k in (0, 2047)], [65535, 61441, 65534, 61440])
            for row, it in enumerate(itertools.islice(image.exports.names(), 200)):
                self.assertEqual((len(it.name), it.ordinal, it.target), (65535 - row, 1 + row % 2, Rva(16 << row % 2)))
            self.assertLess(tracemalloc.get_traced_memory()[1], 4 << 20)
            # a copy of a row has the names themselves
            self.assertEqual(pickle.loads(pickle.dumps(by_ordinal[1].names[:3])), [b"a" * it for it in (65534, 65532, 65530)])

    def test_rows_are_not_read_from_a_closed_image(self):
        image = petool.Image(data("vb.dll"))
        exports = image.exports
        rows = exports.names(), exports.ordinals()
        image.close()
        self.assertEqual((len(exports), *map(len, rows)), (3, 1, 2))
        for it in rows:
            with self.assertRaises(ValueError):
                it[0]
            with self.assertRaises(ValueError):
                next(iter(it))


if __name__ == "__main__":
    unittest.main()
