"""What memory the rows of crafted files take of Python, at one size and at four times that: their rows share one long text."""

import struct
import tracemalloc
import unittest
from typing import Any, Callable, Sequence

import petool

from . import crafted
from .test_findings import image
from .trees import image as with_resources
from .trees import leaf, string, tree, version

#: The size of the smaller files, and how many times as much memory those of four times that size may take.
SIZE, MOST = 10_000, 5


def bound_imports(size: int) -> petool.Image:
    """An image of which half are records of the bound import table, and half is the name of all their modules."""
    count = size // 16
    records = struct.pack("<IHH", 1, 8 * count + 8, 0) * count + bytes(8)
    return petool.Image(image(11, len(records), records + b"m" * (size // 2) + b"\0", image_size=0x10000))


def sections(size: int) -> petool.Object:
    """An object whose sections have one long name."""
    return petool.Object(dict(crafted.object_kinds(size))["shown_sections"]())


def contents(size: int) -> petool.Object:
    """An object whose sections have the same bytes of the file."""
    count = size // 80
    header = struct.pack("<HHIIIHH", 0x8664, count, 0, 0, 0, 0, 0)
    section = struct.pack("<8sIIIIIIHHI", b".text", 0, 0, size // 2, 20 + 40 * count, 0, 0, 0, 0, 0x60000020)
    return petool.Object(header + section * count + bytes(size // 2))


def strings(size: int) -> petool.Image:
    """An image of which a quarter is the key of a table of strings of its version information."""
    told = version(*[string("k", "v")] * (size // 32), table="t" * (size // 8))
    return petool.Image(with_resources(tree([(16, leaf(told))]), image_size=0x10000))


def peak(opened: Any, rows_of: Callable[[Any], Sequence[Any]]) -> int:
    """How many bytes Python has taken at most when all rows have been gone through."""
    tracemalloc.start()
    try:
        count = sum(1 for _ in rows_of(opened))
        if count < 100:
            raise AssertionError(f"{count} rows")
        return tracemalloc.get_traced_memory()[1]
    finally:
        tracemalloc.stop()
        opened.close()


class Memory(unittest.TestCase):
    def assert_grows(self, make: Callable[[int], Any], rows_of: Callable[[Any], Sequence[Any]]) -> None:
        peaks = [peak(make(size), rows_of) for size in (SIZE, 4 * SIZE)]
        self.assertLess(peaks[1], MOST * peaks[0], peaks)

    def test_bound_imports_of_one_module(self) -> None:
        self.assert_grows(bound_imports, lambda it: it.bound_imports)

    def test_sections_of_one_name(self) -> None:
        self.assert_grows(sections, lambda it: it.sections)

    def test_sections_of_the_same_bytes(self) -> None:
        self.assert_grows(contents, lambda it: it.sections)

    def test_strings_of_one_table(self) -> None:
        self.assert_grows(strings, lambda it: it.version.strings)

    def test_what_rows_have(self) -> None:
        with bound_imports(SIZE) as it:
            self.assertEqual({row.module for row in it.bound_imports}, {b"m" * (SIZE // 2)})
        with sections(SIZE) as found:
            self.assertEqual({len(row.name) for row in found.sections}, {SIZE - 1})
        with contents(SIZE) as found:
            self.assertEqual({row.data for row in found.sections}, {bytes(SIZE // 2)})
        with strings(SIZE) as it:
            self.assertEqual(set(it.version.strings), {("t" * (SIZE // 8), "k", "v")})


if __name__ == "__main__":
    unittest.main()
