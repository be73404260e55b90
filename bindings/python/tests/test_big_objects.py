"""Big objects (`/bigobj`): what `petool object --big`, `show`, `json`, `at` and `archive` tell of them, and what the calls for objects
of either form read. Objects of g++ and clang are compared with what LLVM's tools tell of them; the others are laid out here, also such
as claim what they do not hold. No code of petool writes these files."""

import json
import os
import pathlib
import re
import shutil
import struct
import subprocess
import tempfile
import unittest

import petool

from . import data
from .cases import run
from .files import put

PROGRAM = os.environ.get("PETOOL_PROGRAM")
MAKER = shutil.which("x86_64-w64-mingw32-g++")
CLANG, READER, DUMPER = (shutil.which(f"{name}-16") or shutil.which(name) for name in ("clang", "llvm-readobj", "llvm-objdump"))
NO_MINGW = "left out without mingw: there is no g++ of mingw-w64"
NO_LLVM = "left out without llvm: there is no clang, llvm-readobj or llvm-objdump"
#: The class of big objects, as a file has it.
CLASS = bytes.fromhex("c7a1bad1eebaa94baf20faf66aa4dcb8")
SOURCE = """
template<int N> int value(int x) { return x + N; }
extern int other(int) __attribute__((weak));
static int table[3] = {1, 2, 3};
int first(int x) { return value<1>(x) + value<2>(x) + table[x]; }
int second(int x) { return other(x) + value<70000>(x); }
"""
#: Types of relocations and storage classes by their names in the output of LLVM.
TYPES = {"IMAGE_REL_AMD64_ADDR64": 1, "IMAGE_REL_AMD64_ADDR32NB": 3, "IMAGE_REL_AMD64_REL32": 4}


def header(sections=0, symbols_at=0, symbols=0, version=2, big_class=CLASS, machine=0x8664) -> bytes:
    """The header of a big object."""
    return (
        struct.pack("<4HI", 0, 0xFFFF, version, machine, 7) + big_class + bytes(16) + struct.pack("<3I", sections, symbols_at, symbols)
    )


def section(name: bytes, size=0, at=0, relocations_at=0, relocations=0, flags=0x60000020) -> bytes:
    return struct.pack("<8s6I2HI", name, 0, 0, size, at, relocations_at, 0, relocations, 0, flags)


def symbol(name: bytes, value: int, number: int, kind: int, storage_class: int, records=()) -> bytes:
    """A symbol of a big object, with its auxiliary records of 20 bytes."""
    return struct.pack("<8s2IH2B", name, value, number & 0xFFFFFFFF, kind, storage_class, len(records)) + b"".join(records)


def many_sections(count: int) -> bytes:
    """A big object with so many empty sections, and a symbol for the last of them, whose auxiliary record has its number too."""
    end = 56 + 40 * count
    record = struct.pack("<I2HIH2BH", 8, 0, 0, 0xABCDEF, count & 0xFFFF, 5, 0, count >> 16) + bytes(2)
    symbols = symbol(b".text", 0, count, 0, 3, [record]) + symbol(b"absolute", 9, -1, 0, 2)
    return header(count, end, 3) + section(b".text") * count + symbols + struct.pack("<I", 4)


class ByLlvm:
    """The sections, relocations and symbols that llvm-readobj prints."""

    def __init__(self, file: pathlib.Path) -> None:
        words = [str(READER), "--file-headers", "--sections", "--relocations", "--symbols", str(file)]
        lines = subprocess.run(words, stdout=subprocess.PIPE, check=True).stdout.decode().split("\n")
        self.header = {}
        self.sections, self.symbols, self.relocations = [], [], {}
        part, number = None, 0
        for line in lines:
            key, _, value = line.strip().partition(": ")
            if line.endswith(" [") and not line.startswith(" ") or line == "ImageFileHeader {":
                part = line.split(" ")[0]
            elif part == "ImageFileHeader":
                self.header[key] = value
            elif line.strip() in ("Section {", "Symbol {"):
                (self.sections if part == "Sections" else self.symbols).append({})
            elif part == "Relocations" and line.strip().startswith("Section ("):
                number = int(re.findall(r"\((\d+)\)", line)[0])
            elif part == "Relocations" and line.strip().startswith("0x"):
                address, kind, _ = line.strip().split(" ", 2)
                self.relocations.setdefault(number, []).append((int(address, 16), int(re.findall(r"\((\d+)\)$", line)[0]), TYPES[kind]))
            elif part == "Sections" and line.startswith("    Characteristics ["):
                self.sections[-1]["flags"] = int(re.findall(r"0x([0-9A-F]+)", line)[0], 16)
            elif part in ("Sections", "Symbols") and value:
                (self.sections if part == "Sections" else self.symbols)[-1].setdefault(key, value)

    def lines(self):
        """The lines of sections, relocations and symbols as `petool object --big` has them, without the fields of auxiliary records."""
        for number, found in enumerate(self.sections, 1):
            name = found["Name"].rpartition(" (")[0]
            relocations = self.relocations.get(number, [])
            yield (name, int(found["RawDataSize"]), found["flags"], len(relocations))
            yield from relocations
        index = 0
        for found in self.symbols:
            numbers = [int(re.findall(r"\(0x([0-9A-F]+)\)", found[key])[0], 16) for key in ("BaseType", "ComplexType", "StorageClass")]
            place = int(re.findall(r"\((-?\d+)\)$", found["Section"])[0])
            yield (index, found["Name"], int(found["Value"]), place, numbers[0] | numbers[1] << 4, numbers[2], int(found["AuxSymbolCount"]))
            index += 1 + int(found["AuxSymbolCount"])


#: The number of a symbol without a section, by the word for it.
NUMBERS = {"undefined": 0, "absolute": -1, "debug": -2}


def told_lines(text: str):
    """The same of a text of `petool object --big`."""
    for line in text.split("\n"):
        words = line.split(" ")
        if words[0] == "section":
            name, rest = re.fullmatch(r'section \d+ "(.*)" size 0x(.*)', line).groups()
            rest = rest.split(" ")
            yield (name, int(rest[0], 16), int(rest[3][2:], 16), int(rest[5]))
        elif words[0] == "reloc":
            yield (int(words[1], 16), int(words[3]), int(words[5]))
        elif words[0] == "symbol":
            index, name, value, place, kind, number, count = re.fullmatch(
                r'symbol (\d+) "(.*)" value 0x(\S+) section (\S+) type 0x(\S+) class (\d+)(?: \S+)? aux (\d+)', line
            ).groups()
            place = NUMBERS[place] if place in NUMBERS else int(place)
            yield (int(index), name, int(value, 16), place, int(kind, 16), int(number), int(count))


def signed(number: int) -> int:
    return number - (number >> 31 << 32)


def told_rows(found: petool.Object):
    """The same of the rows of an object of either form."""
    for number, it in enumerate(found.sections):
        yield (it.name.decode(), it.absent_size or len(it.data), it.characteristics, it.relocation_count)
        yield from ((row.address, row.symbol, row.kind) for row in found.relocations(number))
    size = 20 if found.is_big else 18
    for it in found.symbols:
        yield (it.index, it.name.decode(), it.value, signed(it.section_number), it.kind, it.storage_class, len(it.aux) // size)


#: A big object with a section of one relocation, and a function in it, with an auxiliary record.
ONE = (
    header(1, 107, 2)
    + section(b".text", 1, 96, 97, 1)
    + b"\xc3"
    + struct.pack("<2IH", 0, 1, 4)
    + symbol(b"f", 0x11223344, 1, 0x20, 2, [bytes(range(0x81, 0x95))])
    + struct.pack("<I", 4)
)

#: Files that claim what they do not hold, or begin as others do: the fault of each, and its offset.
CLAIMS = [
    (61, 55, ONE[:55]),
    (62, 4, header(version=1)),
    (62, 4, header(version=0)),
    (62, 12, header(big_class=bytes(16))),
    (62, 12, header(big_class=CLASS[:15] + b"\0")),
    (63, 44, header(0xFFFFFFFF).ljust(100, b"\0")),
    (63, 44, header(0x80000001).ljust(100, b"\0")),
    (67, 48, header(0, 56, 0xFFFFFFFF).ljust(100, b"\0")),
    (68, 147, ONE[:147] + struct.pack("<I", 5)),
    (69, 107, bytes(put(bytearray(ONE), (107, struct.pack("<2I", 0, 9))))),
    (70, 107, bytes(put(bytearray(ONE), (126, b"\2")))),
    (71, 107, bytes(put(bytearray(ONE), (119, struct.pack("<I", 2))))),
    (71, 107, bytes(put(bytearray(ONE), (119, struct.pack("<I", 0x80000001))))),
    (71, 107, bytes(put(bytearray(ONE), (119, struct.pack("<I", 0xFFFFFFFD))))),
    (72, 97, bytes(put(bytearray(ONE), (101, struct.pack("<I", 2))))),
]


class InFolder(unittest.TestCase):
    maxDiff = None

    def setUp(self):
        folder = tempfile.TemporaryDirectory()
        self.addCleanup(folder.cleanup)
        self.folder = pathlib.Path(folder.name)

    def write(self, name: str, file: bytes) -> pathlib.Path:
        path = self.folder / name
        path.write_bytes(file)
        return path

    def made(self) -> bytes:
        """A big object that g++ made."""
        self.write("a.cpp", SOURCE.encode())
        run([MAKER, "-c", "-O0", "-Wa,-mbig-obj", "a.cpp", "-o", "made.obj"], cwd=self.folder, check=True)
        return (self.folder / "made.obj").read_bytes()

    def assembled(self, source: str) -> bytes:
        """An object that clang made, which is a big one if it has more sections than a plain one may have."""
        self.write("a.s", source.encode())
        run([CLANG, "--target=x86_64-w64-windows-gnu", "-c", "a.s", "-o", "made.obj"], cwd=self.folder, check=True)
        return (self.folder / "made.obj").read_bytes()


class Rows(InFolder):
    def assert_rows_of_llvm(self, file: bytes, is_big: bool):
        with petool.Object(file, big=True) as found:
            self.assertEqual(found.is_big, is_big)
            self.assertEqual(list(told_rows(found)), list(ByLlvm(self.folder / "made.obj").lines()))

    @unittest.skipUnless(MAKER, NO_MINGW)
    @unittest.skipUnless(READER, NO_LLVM)
    def test_rows_of_an_object_of_g_plus_plus_are_those_that_llvm_reads(self):
        file = self.made()
        self.assert_rows_of_llvm(file, True)
        told = ByLlvm(self.folder / "made.obj").header
        with petool.Object(file, big=True) as found:
            it = found.big_header
            self.assertEqual((it.version, it.machine, it.number_of_sections), (2, 0x8664, int(told["SectionCount"])))
            self.assertEqual((it.number_of_symbols, it.pointer_to_symbol_table), (int(told["SymbolCount"]), int(told["PointerToSymbolTable"], 16)))
            self.assertEqual([row.number_of_relocations for row in found.section_headers], [row.relocation_count for row in found.sections])

    @unittest.skipUnless(CLANG and READER, NO_LLVM)
    def test_rows_of_objects_of_clang_are_those_that_llvm_reads(self):
        for count in (3, 66000):
            sections = "".join(f'.section .text${k},"xr"\n.globl f{k}\nf{k}: ret\n' for k in range(count))
            with self.subTest(count=count):
                self.assert_rows_of_llvm(self.assembled(f"{sections}call f{count - 1}\ncall elsewhere\n"), count > 65279)

    def test_rows_are_those_that_were_laid_out(self):
        with petool.Object(ONE, big=True) as found:
            self.assertTrue(found.is_big)
            self.assertEqual(found.big_header, petool.BigObjectHeader(2, 0x8664, 7, 0, 0, 0, 0, 1, 107, 2))
            self.assertEqual(found.section_headers, (petool.SectionHeader(b".text\0\0\0", 0, 0, 1, 96, 97, 0, 1, 0, 0x60000020),))
            self.assertEqual(tuple(found.sections), (petool.ObjectSection(b".text", b"\xc3", 0, 0, 0, 0x60000020, 1),))
            self.assertEqual(list(found.relocations(0)), [petool.ObjectRelocation(0, 1, 4)])
            self.assertEqual(list(found.symbols), [petool.ObjectSymbol(b"f", bytes(range(0x81, 0x95)), 0, 0x11223344, 1, 0x20, 2)])
            with self.assertRaises(IndexError):
                found.relocations(1)

    def test_section_numbers_have_32_bits(self):
        with petool.Object(many_sections(70000), big=True) as found:
            self.assertEqual([it.section_number for it in found.symbols], [70000, petool.EITHER_SECTION_ABSOLUTE])
            self.assertEqual((len(found.sections), len(found.section_headers)), (70000, 70000))
        with petool.Object(data("o1.obj"), big=True) as found:
            numbers = [petool.EITHER_SECTION_DEBUG, 1, petool.EITHER_SECTION_UNDEFINED, petool.EITHER_SECTION_ABSOLUTE]
            self.assertEqual([it.section_number for it in found.symbols], numbers)
        self.assertEqual(numbers, [0xFFFFFFFE, 1, 0, 0xFFFFFFFF])

    def test_a_plain_object_has_the_same_rows(self):
        for name in ("o1.obj", "two.obj"):
            with petool.Object(data(name)) as plain, petool.Object(data(name), big=True) as found:
                self.assertFalse(plain.is_big or found.is_big)
                self.assertEqual((found.header, found.section_headers, *found.sections), (plain.header, plain.section_headers, *plain.sections))
                for section_index in range(len(plain.sections)):
                    self.assertEqual(list(found.relocations(section_index)), list(plain.relocations(section_index)))
                narrow = [(it.name, it.aux, it.index, it.value, it.section_number, it.kind, it.storage_class) for it in plain.symbols]
                wide = [(it.name, it.aux, it.index, it.value, it.section_number & 0xFFFF, it.kind, it.storage_class) for it in found.symbols]
                self.assertEqual(wide, narrow)

    def assert_refused(self, number: int, at: int, call):
        with self.assertRaises(petool.FormatFault) as refused:
            call()
        fault = refused.exception
        self.assertEqual((fault.number, fault.place, fault.at), (number, petool.Place.FILE, at))

    def test_it_is_refused_if_it_is_not_asked_for(self):
        self.assert_refused(62, 0, lambda: petool.Object(ONE))
        with petool.Object(ONE, big=True) as found:
            self.assert_refused(62, 0, lambda: found.header)
        with petool.Object(data("o1.obj"), big=True) as found:
            self.assert_refused(62, 0, lambda: found.big_header)

    def test_files_that_claim_too_much(self):
        for number, at, file in CLAIMS:
            with self.subTest(number=number, at=at):
                self.assert_refused(number, at, lambda: petool.Object(file, big=True))


@unittest.skipUnless(PROGRAM, "left out without program: PETOOL_PROGRAM names none")
class BigObjects(InFolder):
    def run_on(self, file: bytes, *words: str):
        """The status, standard output and standard error of the program for a file."""
        self.write("a.obj", file)
        done = run([PROGRAM, *words, "a.obj"], cwd=self.folder)
        return done.returncode, done.stdout.decode(), done.stderr.decode()

    @unittest.skipUnless(MAKER, NO_MINGW)
    @unittest.skipUnless(READER, NO_LLVM)
    def test_lines_are_those_that_llvm_reads(self):
        status, text, _ = self.run_on(self.made(), "object", "--big")
        self.assertEqual(status, 0)
        self.assertEqual(list(told_lines(text)), list(ByLlvm(self.folder / "made.obj").lines()))
        self.assertEqual(text.split("\n")[:3], ["Machine 0x8664 AMD64", "TimeDateStamp 0x00000000", "Characteristics 0x0000"])

    @unittest.skipUnless(MAKER, NO_MINGW)
    @unittest.skipUnless(READER, NO_LLVM)
    def test_json_has_what_llvm_reads(self):
        status, line, _ = self.run_on(self.made(), "json")
        told, found = json.loads(line), ByLlvm(self.folder / "made.obj")
        self.assertEqual((status, told["format"]), (0, "BIGOBJ"))
        header = told["headers"]
        self.assertEqual(header["machine_name"], "AMD64")
        self.assertEqual(header["version"], 2)
        self.assertEqual(header["number_of_sections"], int(found.header["SectionCount"]))
        self.assertEqual(header["number_of_symbols"], int(found.header["SymbolCount"]))
        self.assertEqual(header["pointer_to_symbol_table"], int(found.header["PointerToSymbolTable"], 16))
        self.assertNotIn("characteristics", header)
        self.assertEqual([row["name"] for row in told["sections"]], [row["Name"].rpartition(" (")[0] for row in found.sections])
        self.assertEqual([row["name"] for row in told["symbols"]], [row["Name"] for row in found.symbols])

    @unittest.skipUnless(MAKER, NO_MINGW)
    @unittest.skipUnless(DUMPER, NO_LLVM)
    def test_symbols_are_those_of_objdump(self):
        file = self.made()
        _, text, _ = self.run_on(file, "object", "--big")
        words = [str(DUMPER), "--syms", "made.obj"]
        told = subprocess.run(words, stdout=subprocess.PIPE, check=True, cwd=self.folder).stdout.decode()
        found = re.findall(r"\[ *(\d+)\]\(sec +(-?\d+)\)\(fl 0x00\)\(ty +([0-9a-f]+)\)\(scl +([0-9a-f]+)\) \(nx (\d+)\) 0x([0-9a-f]+) (\S+)", told)
        expected = [(int(i), name, int(v, 16), int(s), int(t, 16), int(c, 16), int(n)) for i, s, t, c, n, v, name in found]
        self.assertEqual([row for row in told_lines(text) if len(row) == 7], expected)

    def test_without_the_word_it_is_refused(self):
        for words in (["object"], ["object", "--most", "1M"]):
            status, text, told = self.run_on(header(), *words)
            self.assertEqual((status, text), (1, "fault 62 image 0 file 0x00000000\n"))
            self.assertTrue(told.endswith("; it is a /bigobj object, which --big reads\n"), told)

    def test_a_plain_object_has_the_same_lines_with_the_word(self):
        for name in ("o1.obj", "two.obj"):
            self.assertEqual(self.run_on(data(name), "object", "--big"), self.run_on(data(name), "object"))

    def test_section_numbers_have_32_bits(self):
        status, text, _ = self.run_on(many_sections(70000), "object", "--big")
        self.assertEqual(status, 0)
        lines = text.split("\n")
        self.assertEqual(len(lines), 3 + 70000 + 3 + 2)
        self.assertEqual(lines[70002], 'section 70000 ".text" size 0x00000000 absent flags 0x60000020 relocations 0')
        self.assertEqual(
            lines[70003:],
            [
                'symbol 0 ".text" value 0x00000000 section 70000 type 0x0000 class 3 STATIC aux 1',
                "aux 1 section 8 0 0 0x00abcdef 70000 5",
                'symbol 2 "absolute" value 0x00000009 section absolute type 0x0000 class 2 EXTERNAL aux 0',
                "end",
                "",
            ],
        )

    def test_the_views_read_it_without_a_word(self):
        file = many_sections(70000)
        status, page, _ = self.run_on(file, "show", "--symbols")
        self.assertEqual(status, 0)
        self.assertIn("/bigobj object for AMD64", page)
        self.assertIn("70000 .text", page)
        self.assertIn("COMDAT 5 ASSOCIATIVE with section 70000", page)
        status, line, _ = self.run_on(file, "json")
        told = json.loads(line)
        self.assertEqual((status, len(told["sections"]), told["symbols"][0]["section_number"]), (0, 70000, 70000))
        self.assertEqual(told["symbols"][0]["auxiliary_records"][0]["number"], 70000)
        self.assertEqual(told["symbols"][1]["section"], "ABSOLUTE")

    def test_places_in_its_file(self):
        file = header(1, 96, 1) + section(b".text") + symbol(b"f", 0, 1, 0x20, 2) + struct.pack("<I", 4)
        self.write("a.obj", file)
        places = {0x2C: "NumberOfSections of the /bigobj header", 0x38: "Name of section header 1", 0x60: "record 0 of the symbol table", 0x74: "string table"}
        done = run([PROGRAM, "at", "--file", "a.obj", *(f"{place:x}" for place in places)], cwd=self.folder)
        self.assertEqual(done.returncode, 0)
        told = [line for line in done.stdout.decode().split("\n") if line.startswith("file 0x")]
        self.assertEqual([line.split("  ", 1)[1] for line in told], list(places.values()))

    def test_sections_of_one_name_are_told_by_their_numbers(self):
        first = ", ".join(str(number) for number in range(1, 17))
        for count, numbers in [
            (2, "1 and 2"), (3, "1, 2 and 3"), (16, "1, 2, 3, 4, 5, 6, 7, 8, 9, 10, 11, 12, 13, 14, 15 and 16"), (17, f"{first} and 1 more"),
            (70000, f"{first} and 69984 more"),
        ]:
            with self.subTest(count):
                self.write("a.obj", many_sections(count))
                for offset in ("0", "2", "0x12ab"):
                    done = run([PROGRAM, "at", "a.obj", f".text+{offset}"], cwd=self.folder)
                    words = f"sections {numbers} have this name: 1+{int(offset, 16):x} is the place in the first\n"
                    self.assertEqual((done.returncode, done.stdout.decode()), (0, words))

    def test_files_that_claim_too_much(self):
        for fault, at, claimed in CLAIMS:
            with self.subTest(fault=fault, at=at):
                self.assertEqual(self.run_on(claimed, "object", "--big")[:2], (1, f"fault {fault} image 0 file 0x{at:08x}\n"))

    def test_numbers_beside_a_fault(self):
        for claimed, words in [
            (header(0xFFFFFFFF).ljust(100, b"\0"), "171798691800 bytes at 0x38"),
            (header(0, 56, 3).ljust(100, b"\0"), "60 bytes at 0x38"),
        ]:
            self.assertIn(words, self.run_on(claimed, "object", "--big")[2])

    def test_members_of_an_archive(self):
        ar = shutil.which("llvm-ar") or shutil.which("ar")
        if not ar:
            self.skipTest("left out without ar")
        plain, big = data("o1.obj"), many_sections(2)
        self.write("plain.obj", plain)
        self.write("big.obj", big)
        run([ar, "rcD", "made.a", "plain.obj", "big.obj"], cwd=self.folder, check=True)
        done = run([PROGRAM, "archive", "made.a"], cwd=self.folder)
        self.assertEqual(done.returncode, 0)
        for file in (plain, big):
            status, text, _ = self.run_on(file, "object", "--big")
            self.assertEqual(status, 0)
            self.assertIn(text, done.stdout.decode())
        lines = run([PROGRAM, "json", "made.a"], cwd=self.folder).stdout.decode().splitlines()
        self.assertEqual([json.loads(line).get("format") for line in lines if '"format":"COFF"' in line or '"format":"BIGOBJ"' in line], ["COFF", "BIGOBJ"])
        done = run([PROGRAM, "archive", "--create", "new.lib", "plain.obj", "big.obj"], cwd=self.folder)
        self.assertEqual(done.returncode, 0)
        told = json.loads(run([PROGRAM, "json", "new.lib"], cwd=self.folder).stdout.decode().splitlines()[-1])
        self.assertIn("absolute", [row["name"] for row in told["second_linker_member"]])


if __name__ == "__main__":
    unittest.main()
