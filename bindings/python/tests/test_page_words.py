"""Each word of a list of which a page shows one, by the number that the standard gives it."""

import struct
import sys
import unittest

import petool

from . import TOP, data, script
from .files import changed, numbers
from .finding_pages import PROGRAM, FindingPages
from .test_created_archives import coff
from .test_findings import entry, image
from .test_unwind import amd64, information
from .trees import image as with_resources
from .trees import tree

sys.path.insert(0, str(TOP / "scripts"))
#: The tags of languages, from "Windows Language Code Identifier (LCID) Reference".
TAGS = script("pages_resources").TAGS
del sys.path[0]
EXTERNAL, STATIC, WEAK = 2, 3, 105
#: Characteristics of the one section of v1.dll, and those of the image.
SECTION_FLAGS, IMAGE_FLAGS = 0x15C, 0x56
#: "PE Format", Section Flags: IMAGE_SCN_MEM_EXECUTE, IMAGE_SCN_MEM_READ, IMAGE_SCN_MEM_WRITE.
EXECUTE, READ, WRITE = 1 << 29, 1 << 30, 1 << 31
#: "PE Format", COMDAT Sections; Auxiliary Format 3: Weak Externals; and UNWIND_INFO of x64 exception handling.
SELECTIONS = {1: "NODUPLICATES", 2: "ANY", 3: "SAME_SIZE", 4: "EXACT_MATCH", 5: "ASSOCIATIVE", 6: "LARGEST"}
SEARCHES = {1: "NOLIBRARY", 2: "LIBRARY", 3: "ALIAS"}
UNWIND_FLAGS = {1: "EHANDLER", 2: "UHANDLER", 4: "CHAININFO"}


@unittest.skipUnless(PROGRAM, "left out without program: PETOOL_PROGRAM names none")
class PageWords(FindingPages, unittest.TestCase):
    def symbols(self, *symbols):
        """The rows of an object's symbols that are those of auxiliary records."""
        rows = next(rows for heading, rows in self.parts(coff(*symbols), "--symbols").items() if heading.startswith("Symbols"))
        return [row for row in rows if row.lstrip().partition(" ")[2].strip()]

    def test_permissions(self):
        for flags, words in [
            (0, "---"), (READ, "r--"), (WRITE, "-w-"), (EXECUTE, "--x"), (READ | WRITE, "rw-"), (READ | EXECUTE, "r-x"), (WRITE | EXECUTE, "-wx"),
            (READ | WRITE | EXECUTE, "rwx"),
        ]:
            with self.subTest(words):
                (row,) = self.parts(changed("v1.dll", (SECTION_FLAGS, numbers(flags | 0x40))))["Sections (1)"][1:]
                self.assertIn(f" {words} data ", row)

    def test_contents_of_sections(self):
        for flags, word in [(0x20, "code"), (0x60, "code"), (0xE0, "code"), (0x40, "data"), (0xC0, "data"), (0x80, "bss"), (0, "-"), (0x10, "-")]:
            with self.subTest(hex(flags)):
                (row,) = self.parts(changed("v1.dll", (SECTION_FLAGS, numbers(flags))))["Sections (1)"][1:]
                self.assertRegex(row, rf" --- {word} +0x")

    def test_sections_of_symbols(self):
        for number, words in [(0, "UNDEFINED"), (0xFFFF, "ABSOLUTE"), (0xFFFE, "DEBUG"), (1, "1 .text")]:
            with self.subTest(words):
                parts = self.parts(coff((b"f", 7, number, EXTERNAL)), "--symbols")
                (row,) = next(rows for heading, rows in parts.items() if heading.startswith("Symbols"))
                self.assertRegex(row, rf"0x00000007 +{words} +EXTERNAL +f$")

    def test_what_images_and_objects_are(self):
        for file, words in [
            (data("v1.dll"), "PE32 library for I386"), (data("vc.dll"), "PE32 program for I386"), (data("v3.dll"), "PE32+ library for AMD64"),
            (data("vd.dll"), "PE32+ program for AMD64"), (changed("v1.dll", (0x44, b"\x34\x12")), "PE32 library for 0x1234"), (coff(), "COFF object for AMD64"),
        ]:
            with self.subTest(words):
                self.assertTrue(any(heading.startswith(f"a: accepted: {words}, ") for heading in self.parts(file)), words)

    def test_comdat_selections(self):
        for selection, word in SELECTIONS.items():
            with self.subTest(word):
                record = struct.pack("<IHHIHB3x", 10, 0, 0, 0, 1, selection)
                shown = "\n".join(self.symbols((b".text", 0, 1, STATIC, record)))
                ending = f", COMDAT {selection} {word}" + (" with section 1" if selection == 5 else "")
                self.assertTrue(any(line.endswith(ending) for line in shown.split("\n")), shown)

    def test_searches_of_weak_externals(self):
        for search, word in SEARCHES.items():
            with self.subTest(word):
                shown = "\n".join(self.symbols((b"f", 0, 1, EXTERNAL), (b"w", 0, 0, WEAK, struct.pack("<II10x", 0, search))))
                self.assertRegex(shown, rf"(?m)\b{search} {word}$")

    def test_flags_of_unwind_information(self):
        for flags in range(8):
            with self.subTest(flags):
                file = amd64(information(flags=flags, behind=numbers(0x1000, 0x1001, 0x1100)))
                row = next(rows for heading, rows in self.parts(file, "--unwind").items() if heading.startswith("Functions"))[2]
                names = [word for word in row.split() if word in UNWIND_FLAGS.values()]
                self.assertEqual(names, [word for bit, word in UNWIND_FLAGS.items() if flags & bit])

    def test_the_name_of_a_pdb_file_is_what_follows_its_folders(self):
        for path, name in [(b"D:\\a\\b.pdb", "b.pdb"), (b"/a/b.pdb", "b.pdb"), (b"a\\b/c.pdb", "c.pdb"), (b"a/b\\c.pdb", "c.pdb"), (b"c.pdb", "c.pdb")]:
            with self.subTest(path):
                data = b"RSDS" + bytes(20) + path + b"\0"
                file = image(6, 28, entry(2, len(data), 0x101C, 0x21C) + data)
                (row,) = self.parts(file)["Tables (1)"]
                self.assertTrue(row.endswith(f"1 entry, PDB {name}"), row)
                with petool.Image(file) as it:
                    self.assertEqual(it.pdb.name, name.encode())

    def test_languages(self):
        self.assertEqual((len(TAGS), TAGS[0x040A], TAGS[0x0C0A]), (229, "es-ES_tradnl", "es-ES"))
        file = with_resources(tree([(10, [(1, [(language, (b"", 0)) for language in sorted(TAGS)])])]))
        rows = self.parts(file, "--resources")[f"Resources ({len(TAGS)})"][1:]
        self.assertEqual([row.split("  ")[3] for row in rows], [TAGS[language] for language in sorted(TAGS)])

    def test_an_image_that_must_stand_where_it_prefers(self):
        file = changed("v1.dll")
        flags = struct.unpack_from("<H", file, IMAGE_FLAGS)[0]
        for stripped, words in [(flags | 1, "bytes; must stand there"), (flags & ~1, "bytes; may be moved")]:
            (base,) = [line for rows in self.parts(changed("v1.dll", (IMAGE_FLAGS, struct.pack("<H", stripped)))).values() for line in rows if line.startswith("  Base ")]
            self.assertTrue(base.endswith(words), base)


if __name__ == "__main__":
    unittest.main()
