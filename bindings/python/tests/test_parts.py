"""Which parts of an image's file the program reads: of a regular file of 64 KB or more `check`, `dump` and `json` read the headers and
the sections in which tables begin, and `json` the string table for long names of sections, if these decide the output, and otherwise
all that the headers name; so does `json --all` of each image. A file that comes by a pipe is read whole, so the two ways are compared; and an image has a section of
256 MB, for which there is no memory, so that the parts are all that can be read."""

import json
import os
import pathlib
import resource
import struct
import subprocess
import tempfile
import unittest

from .files import numbers

PROGRAM = os.environ.get("PETOOL_PROGRAM")

#: The RVAs of the sections: with the tables, with other bytes, with many bytes. Between the second and the third there is a gap.
TABLES, OTHER, MANY = 0x1000, 0x3000, 0x5000

#: The bytes of the section with many, and the memory that a run may have where it must not read them.
SIZE, MEMORY = 1 << 28, 1 << 27

#: Where the headers have PointerToSymbolTable and NumberOfSymbols, the directory of debug data, and the name of the first section.
SYMBOLS, DEBUG, NAME = 64 + 12, 64 + 24 + 96 + 6 * 8, 64 + 24 + 224

#: What the tables read, each at an offset in a section that holds it.
PIECES = {
    "export table": 0x100,
    "addresses": 0x200,
    "names": 0x240,
    "ordinals": 0x280,
    "first name": 0x2C0,
    "second name": 0x2E0,
    "descriptors": 0x400,
    "module": 0x480,
    "lookups": 0x500,
    "hint": 0x580,
    "base relocations": 0x600,
}


def image(tables: bytes, other: bytes, directories: dict[int, tuple[int, int]], many: int, zeros: int = 0) -> bytes:
    """The headers and the first two sections of a library for I386, whose last section has so many bytes. So many zeros follow the
    bytes of the tables in the image."""
    optional = bytearray(224)
    struct.pack_into("<H", optional, 0, 0x10B)
    struct.pack_into("<III", optional, 28, 0x10000000, 0x1000, 0x200)
    struct.pack_into("<II", optional, 56, MANY + many, 0x400)
    struct.pack_into("<H", optional, 68, 3)
    struct.pack_into("<I", optional, 92, 16)
    for index, (rva, size) in directories.items():
        struct.pack_into("<II", optional, 96 + 8 * index, rva, size)
    sections, offset = b"", 0x400
    for name, rva, raw, more in ((b".tables", TABLES, len(tables), zeros), (b".other", OTHER, len(other), 0), (b".many", MANY, many, 0)):
        sections += struct.pack("<8sIIIIIIHHI", name, raw + more, rva, raw, offset, 0, 0, 0, 0, 0x40000040)
        offset += raw
    coff = struct.pack("<HHIIIHH", 0x14C, 3, 0, 0, 0, len(optional), 0x2102)
    headers = b"MZ".ljust(60, b"\0") + numbers(64) + b"PE\0\0" + coff + optional + sections
    return headers.ljust(0x400, b"\0") + tables + other


def with_tables(elsewhere: frozenset[str] = frozenset(), rva_of=None, many: int = SIZE, **options) -> bytes:
    """An image with two exports by name, of which the second is a forwarder, an import by name, an import by ordinal and a base
    relocation. These pieces are in the other section; `rva_of` puts pieces at other RVAs, where nothing is written."""
    rvas = {name: (OTHER if name in elsewhere else TABLES) + offset for name, offset in PIECES.items()}
    rvas.update(rva_of or {})
    sections = {TABLES: bytearray(0x1000), OTHER: bytearray(0x1000)}

    def write(name: str, piece: bytes) -> None:
        section = rvas[name] & ~0xFFF
        if name not in (rva_of or {}):
            sections[section][rvas[name] - section : rvas[name] - section + len(piece)] = piece

    table = rvas["export table"]
    write("export table", numbers(0, 0, 0, 0, 1, 2, 2, rvas["addresses"], rvas["names"], rvas["ordinals"]) + b"m.f\0")
    write("addresses", numbers(TABLES, table + 40))
    write("names", numbers(rvas["first name"], rvas["second name"]))
    write("ordinals", struct.pack("<HH", 0, 1))
    write("first name", b"first\0")
    write("second name", b"second\0")
    write("descriptors", numbers(rvas["lookups"], 0, 0, rvas["module"], TABLES + 0x700))
    write("module", b"module.dll\0")
    write("lookups", numbers(rvas["hint"], 0x80000007, 0))
    write("hint", b"\0\0function\0")
    write("base relocations", numbers(TABLES, 12) + struct.pack("<HH", 0x3800, 0))
    directories = {0: (table, 0x30), 1: (rvas["descriptors"], 40), 5: (rvas["base relocations"], 12)}
    return image(bytes(sections[TABLES]), bytes(sections[OTHER]), directories, many, **options)


@unittest.skipUnless(PROGRAM, "left out without program: PETOOL_PROGRAM names none")
class Parts(unittest.TestCase):
    """The program over files in a folder of their own."""

    def setUp(self):
        folder = tempfile.TemporaryDirectory()
        self.addCleanup(folder.cleanup)
        self.path = pathlib.Path(folder.name) / "a.dll"

    def write(self, file: bytes, size: int) -> None:
        """The file, and zeros after it that take no room on the disk."""
        self.path.write_bytes(file)
        os.truncate(self.path, size)

    def run_over(self, words: list[str], file, memory: int = 0) -> tuple[int, bytes, bytes]:
        def limit() -> None:
            if memory:
                resource.setrlimit(resource.RLIMIT_AS, (memory, memory))

        done = subprocess.run([PROGRAM, *words], stdin=file, stdout=subprocess.PIPE, stderr=subprocess.PIPE, preexec_fn=limit)
        name = str(self.path).encode()
        return done.returncode, done.stdout.replace(name, b"standard input"), done.stderr.replace(name, b"standard input")

    def by_path(self, command: str, memory: int = 0) -> tuple[int, bytes, bytes]:
        return self.run_over([*command.split(" "), str(self.path)], subprocess.DEVNULL, memory)

    def by_pipe(self, command: str) -> tuple[int, bytes, bytes]:
        with subprocess.Popen(["cat", str(self.path)], stdout=subprocess.PIPE) as source:
            return self.run_over([*command.split(" "), "-"], source.stdout)

    def assert_alike(self, file: bytes, size: int) -> None:
        """The outputs by path and by pipe are the same."""
        self.write(file, size)
        for command in ("check", "dump", "json"):
            self.assertEqual(self.by_path(command), self.by_pipe(command), command)

    def status_in_little_memory(self, file: bytes, many: int = SIZE) -> int:
        """0 if the parts decide the output, 4 if more is read."""
        self.write(file, len(file) + many)
        return self.by_path("check", MEMORY)[0]

    def test_tables_are_read_without_the_rest(self):
        file = with_tables()
        self.write(file, len(file) + SIZE)
        status, dump, _ = self.by_path("dump", MEMORY)
        self.assertEqual(status, 0)
        for line in (b'export "first" rva 0x00001000', b'export "second" forward "m" "f"', b'import "module.dll" "function" slot 0x00001700',
                     b'import "module.dll" #7 slot 0x00001704', b"fixup 0x00001800 32"):
            self.assertIn(line + b"\n", dump)
        self.assertIn(b'section 2 ".many" va 0x00005000 extent 0x10000000 raw 0x00002400 rawlen 0x10000000', dump)
        self.assertEqual(self.by_path("check", MEMORY)[:2], (0, b"accepted PE32 sections 3\n"))
        status, line, _ = self.by_path("json", MEMORY)
        self.assertEqual(status, 0)
        read = json.loads(line)
        self.assertEqual([row["name"] for row in read["exports"]], ["first", "second"])
        self.assertEqual([row["slot"] for row in read["imports"]], [0x1700, 0x1704])
        self.assertEqual(read["fixups"], [{"rva": 0x1800, "bits": 32}])
        self.assertEqual(read["sections"][2]["pointer_to_raw_data"], 0x2400)

    def test_tables_beyond_the_profile_are_read_with_the_rest_and_only_if_wanted(self):
        # a debug directory of one entry, in the section without a table
        for many, status in ((SIZE, 4), (0x10000, 0)):
            file = bytearray(with_tables(many=many))
            file[DEBUG : DEBUG + 8] = numbers(OTHER, 28)
            self.write(bytes(file), len(file) + many)
            with self.subTest(many=many):
                done, line, _ = self.by_path("json", MEMORY)
                self.assertEqual((done, list(json.loads(line))[-1]), (0, "fixups"))
                whole = self.by_path("json --all", MEMORY)
                self.assertEqual(whole[0], status)
                if status == 0:
                    self.assertEqual(whole, self.by_pipe("json --all"))
                    [entry] = json.loads(whole[1])["debug"]
                    self.assertEqual(set(entry.values()) - {entry.get("type_name")}, {0})

    def test_long_names_are_read_behind_the_rest(self):
        # the string table is behind two symbols behind all raw data
        file, table = bytearray(with_tables()), numbers(24) + b"the name of section\0"
        end = len(file) + SIZE
        file[NAME : NAME + 8] = b"/4".ljust(8, b"\0")
        file[SYMBOLS : SYMBOLS + 8] = numbers(end, 2)
        self.write(bytes(file), end)
        with self.path.open("ab") as more:
            more.write(bytes(36) + table)
        status, line, _ = self.by_path("json", MEMORY)
        self.assertEqual(status, 0)
        self.assertEqual([row["name"] for row in json.loads(line)["sections"]], ["the name of section", ".other", ".many"])

    def test_string_tables_count_alike(self):
        file = bytearray(with_tables(many=0x10000))
        end = len(file) + 0x10000
        for field in (b"/4", b"/5", b"/0", b"/23", b"/24", b"/x"):
            file[NAME : NAME + 8] = field.ljust(8, b"\0")
            for pointer, count in ((end, 0), (end - 18, 1), (end - 1, 0), (end + 25, 0), (end + 24, 0), (0, 1), (0xFFFFFFFF, 0xFFFFFFFF), (0x1400, 0)):
                for size in (0, 3, 4, 5, 24, 25, 28, 29, 0xFFFFFFFF):
                    file[SYMBOLS : SYMBOLS + 8] = numbers(pointer, count)
                    self.write(bytes(file), end)
                    with self.path.open("ab") as more:
                        more.write(numbers(size) + b"the name of section\0last")
                    with self.subTest(field=field, pointer=pointer, count=count, size=size):
                        self.assertEqual(self.by_path("json"), self.by_pipe("json"))

    def test_tables_in_two_sections_are_read(self):
        for elsewhere in ({"export table", "addresses", "names", "ordinals", "first name", "second name"},
                          {"descriptors", "module", "lookups", "hint"}, {"base relocations"}, set(PIECES)):
            file = with_tables(frozenset(elsewhere))
            with self.subTest(elsewhere=sorted(elsewhere)):
                self.assertEqual(self.status_in_little_memory(file), 0)

    def test_each_piece_in_a_section_without_a_table_is_read(self):
        # then all that the headers name is read, for which there is no memory, or which is small
        for piece in PIECES.keys() - {"export table", "descriptors", "base relocations"}:
            with self.subTest(piece=piece):
                self.assertEqual(self.status_in_little_memory(with_tables(frozenset({piece}))), 4)
                file = with_tables(frozenset({piece}), many=0x10000)
                self.assert_alike(file, len(file) + 0x10000)
                status, dump, _ = self.by_path("dump")
                self.assertEqual(status, 0)
                self.assertIn(b'export "second" forward "m" "f"\n', dump)
                self.assertIn(b'import "module.dll" "function" slot 0x00001700\n', dump)

    def test_pieces_in_headers_gaps_and_zeros_count_alike(self):
        for piece in PIECES:
            for rva in (0, 0x3F0, 0x400, TABLES + 0xFF0, TABLES + 0x1000, TABLES + 0x10F0, OTHER + 0xFF8, OTHER + 0x1000, MANY, MANY + 0xFFFC, MANY + 0x10000):
                for zeros in (0, 0x100):
                    file = with_tables(frozenset(), {piece: rva}, many=0x10000, zeros=zeros)
                    with self.subTest(piece=piece, rva=rva, zeros=zeros):
                        self.assert_alike(file, len(file) + 0x10000)

    def test_each_byte_of_the_tables_counts_alike(self):
        file = bytearray(with_tables(many=0x10000))
        size = len(file) + 0x10000
        for start in PIECES.values():
            for offset in range(0x400 + start, 0x400 + start + 12):
                for value in (0xFF, 0x30):
                    old, file[offset] = file[offset], value
                    with self.subTest(offset=offset, value=value):
                        self.assert_alike(bytes(file), size)
                    file[offset] = old

    def test_files_that_end_early_are_refused_alike(self):
        file = with_tables(many=0x10000)
        for size in (0xFFFF, 0x10000, 0x10001, len(file) + 0xFFFF):
            with self.subTest(size=size):
                self.assert_alike(file, size)
                self.assertEqual(self.by_path("check")[0], 1)

    def test_sections_that_share_their_raw_data(self):
        file = bytearray(with_tables(many=0x10000))
        for pointer in (0x400, 0x1400, 0x410, 0x10, 0):
            file[0x138 + 40 + 20 : 0x138 + 40 + 24] = numbers(pointer)
            with self.subTest(pointer=pointer):
                self.assert_alike(bytes(file), len(file) + 0x10000)


if __name__ == "__main__":
    unittest.main()
