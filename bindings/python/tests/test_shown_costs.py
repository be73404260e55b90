"""What it costs to show files of which a few bytes say much: instructions, at one size and at four times that. What is shown is cut,
and nothing after the cut is read or worked out; what a text says of shared bytes is in proportion to the file."""

import os
import pathlib
import struct
import subprocess
import tempfile
import unittest

from .files import numbers, put
from .test_costs import Grows
from .test_findings import AMD64, ARM64, image
from .test_unwind import code, half, information
from .trees import TEXT, block, directory, string, tree, leaf, wide
from .trees import image as resources

PROGRAM = os.environ.get("PETOOL_PROGRAM")
BASE = 0x1000


def sized(data):
    """SizeOfImage of an image with these bytes in its section."""
    return (BASE + len(data) + 0xFFF) & ~0xFFF


def with_functions(functions, infos, machine):
    """An image with these rows of functions, and their unwind information behind them."""
    data = functions + infos
    return image(3, len(functions), data, machine=machine, image_size=sized(data))


def unwind_operations(size):
    """Functions of AMD64 that share 255 slots of operations."""
    count = size // 12
    info = BASE + 12 * count
    functions = b"".join(numbers(BASE + k, BASE + k + 1, info) for k in range(count))
    return with_functions(functions, information(*(code(255 - k, 0, k % 16) for k in range(255))), AMD64)


def unwind_chains(size):
    """Functions of AMD64 that share unwind information, which leads to more of it by 30 steps, each with as many operations."""
    count = size // 12
    info = BASE + 12 * count
    slots = [code(200, 4, 3), half(9)] * 40
    each = len(information(*slots)) + 12
    chain = [information(*slots, flags=4, behind=numbers(BASE, BASE + 1, info + each * (k + 1))) for k in range(30)]
    functions = b"".join(numbers(BASE + k, BASE + k + 1, info) for k in range(count))
    return with_functions(functions, b"".join(chain) + information(*slots), AMD64)


def arm_codes(size):
    """Functions of ARM64 that share 1,020 bytes of unwind codes."""
    count = size // 8
    record = BASE + 8 * count
    functions = b"".join(numbers(BASE + 4 * k, record) for k in range(count))
    codes = numbers(1 | 1 << 21, 255 << 16) + bytes([0x81, 0x9F, 0x41, 0xE3] * 255)
    return with_functions(functions, codes, ARM64)


def resource_names(size):
    """Resources of one type, whose names are one long text."""
    count = size // 64
    text = wide("n" * min(size // 4, 0xFFFF))
    names = 16 + 8
    languages = names + 16 + 8 * count
    entry = languages + 24 * count
    name = entry + 16
    section = directory((10, TEXT | names))
    section += directory(*((TEXT | name, TEXT | languages + 24 * k) for k in range(count)), texts=count)
    section += directory((1033, entry)) * count
    section += numbers(BASE, 4, 0, 0) + struct.pack("<H", len(text) // 2) + text
    return resources(section, image_size=sized(section))


def version_table(size):
    """Version information with many strings in a table whose key has half of its bytes."""
    count = size // 64
    info = block("StringFileInfo", children=[block("k" * (size // 4), children=[string(f"{k:04}", "v") for k in range(count)])])
    section = tree([(16, leaf(block("VS_VERSION_INFO", bytes(52), [info], kind=0)))])
    return resources(section, image_size=sized(section))


def imports_by_one_name(size):
    """An image with import descriptors that share one lookup table, whose entries share a name of 512 bytes."""
    descriptors, entries = size // 40, size // 8
    lookups = BASE + 20 * (descriptors + 1)
    name = lookups + 4 * (entries + 1)
    module = name + 2 + 512 + 2
    # each has slots of its own behind all, in zero fill
    slots = module + 8
    data = b"".join(struct.pack("<IIIII", lookups, 0, 0, module, slots + 4 * (entries + 1) * k) for k in range(descriptors)) + bytes(20)
    data += numbers(*[name] * entries, 0) + bytes(2) + b"n" * 512 + bytes(2) + b"m.dll\0\0\0"
    virtual = len(data) + 4 * (entries + 1) * descriptors
    file = bytearray(image(1, len(data), data, image_size=(BASE + virtual + 0xFFF) & ~0xFFF))
    return bytes(put(file, (0x140, numbers(virtual))))


@unittest.skipUnless(PROGRAM, "left out without program: PETOOL_PROGRAM names none")
class ShownCosts(Grows):
    def setUp(self):
        folder = tempfile.TemporaryDirectory()
        self.addCleanup(folder.cleanup)
        self.file = pathlib.Path(folder.name, "a.dll")

    def cost(self, words, data):
        """The instructions of a command over a file, and its status."""
        self.file.write_bytes(data)
        return self.counted(PROGRAM, *words, self.file)

    def test_a_page_ends_at_its_cut(self):
        for kind in (unwind_operations, unwind_chains, arm_codes, resource_names):
            with self.subTest(kind.__name__):
                self.grows(5, lambda size: self.cost(["show", "--all", "--most", "64K"], kind(size)))

    def test_a_line_ends_at_its_cut(self):
        self.grows(5, lambda size: self.cost(["json", "--all", "--no-digest", "--most", "8K"], resource_names(size)))

    def test_a_list_of_resources_ends_at_its_cut(self):
        self.grows(5, lambda size: self.cost(["resource", "--most", "64K"], resource_names(size)))

    def test_a_line_has_the_key_of_a_table_once(self):
        lines = []
        for size in (10_000, 40_000):
            self.file.write_bytes(version_table(size))
            lines.append(subprocess.run([PROGRAM, "json", "--all", self.file], stdout=subprocess.PIPE, check=True).stdout)
        self.assertLess(len(lines[1]), 5 * len(lines[0]))
        self.assertEqual(lines[1].count(b"k" * 10_000), 1)

    def test_an_import_hash_reads_no_more_than_16_megabytes_of_names(self):
        more = []
        for size in (8_000, 16_000):
            plain, hashed = (self.cost(["show", *words, "--most", "64K"], imports_by_one_name(size)) for words in ([], ["--trust"]))
            self.assertEqual((plain[1], hashed[1]), (0, 0))
            more.append(hashed[0] - plain[0])
        # four times as many imports, whose names are 102 and 410 MB
        self.assertLess(more[1], 2 * more[0], more)


if __name__ == "__main__":
    unittest.main()
