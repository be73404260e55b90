"""The tables of an image beyond the profile: their rows and findings, of files with one of them each, as a reader has them that
shares no code with petool, and as they are written by hand."""

import re
import struct
import sys
import unittest
import uuid

import petool

from . import TOP, data
from .files import changed, numbers
from .test_findings import AMD64, ARM64, BASE, CALLBACKS, FOUND, NB10, RSDS, SOUND, TLS, clr, debug, entry, image, load

sys.path.append(str(TOP / "scripts"))
import pages_reader  # noqa: E402
import pages_tables  # noqa: E402

FILES = [file for _, file, _ in FOUND] + SOUND


def read(file):
    """The tables of an image by the reader of pages."""
    it = pages_reader.Image(file, pages_reader.Headers(file))
    return pages_tables.Tables(it, file)


def wide(index, size, section):
    """V3, an image of PE32+, with these bytes in its first section, and a directory."""
    pieces = (0xC8 + 8 * index, numbers(0x1000, size)), (0x150, numbers(0x200)), (0x200, section)
    return changed("v3.dll", *pieces)


def present(structure):
    """The fields that a structure has."""
    return [it for it in structure or () if it is not None]


class Beyond(unittest.TestCase):
    def test_findings(self):
        for number, file, rva in FOUND:
            with self.subTest(number), petool.Image(file) as it:
                self.assertEqual(it.findings, ((number, petool.Place.RVA, rva),))
                self.assertIn(f" at RVA 0x{rva:x}: ", str(it.findings[0]))
        for number, file in enumerate(SOUND):
            with self.subTest(number), petool.Image(file) as it:
                self.assertEqual(it.findings, ())

    def test_more_findings_than_are_guessed(self):
        file = image(3, 12 * 20, numbers(0x1001, 0x1000, 0x1000) * 20, machine=AMD64)
        with petool.Image(file) as it:
            self.assertEqual([(found.number, found.at) for found in it.findings], [(113, 0x1000 + 12 * k) for k in range(20)])

    def test_words_of_a_finding(self):
        with petool.Image(image(6, 29, entry() + b"\0")) as it:
            (found,) = it.findings
            self.assertEqual(str(found), f"finding 102: {found.subject} at RVA 0x1000: {found.rule}")
            self.assertNotIn("no fault has this number", str(found))

    def test_debug_data_as_a_reader_of_its_own_has_it(self):
        for number, file in enumerate(FILES):
            with self.subTest(number), petool.Image(file) as it:
                wanted = read(file)
                self.assertEqual([tuple(row[4:]) for row in it.debug], [row for _, row in wanted.entries()])
                views = [view for view in (wanted.code_view(row) for _, row in wanted.entries()) if view]
                self.assertEqual(it.pdb is None, not views)
                for kind, _, age, path in views[:1]:
                    path, zero, _ = path.partition(b"\0")
                    self.assertEqual((it.pdb.guid is None, it.pdb.age, it.pdb.path), (kind == "NB10", age, path if zero else b""))

    def test_functions_as_a_reader_of_its_own_has_them(self):
        for number, file in enumerate(FILES):
            with self.subTest(number), petool.Image(file) as it:
                found = [(row.begin, row.unwind) if row.kind else (row.begin, row.end, row.unwind) for row in it.functions]
                self.assertEqual(found, [row for _, row in read(file).functions() or []])

    def test_each_field_of_an_entry(self):
        fields = (0x14131211, 0x24232221, 0x3231, 0x3433, 13, 0x44434241, 0x54535251, 0x64636261)
        with petool.Image(image(6, 28, struct.pack("<IIHHIIII", *fields))) as it:
            self.assertEqual(it.debug[0], fields)
            self.assertEqual(it.debug[0].major_version, 0x3231)

    def test_a_pdb_file(self):
        with petool.Image(debug(RSDS + b"C:\\x/y\\a b.pdb\0")) as it:
            guid = uuid.UUID("a3a2a1a0-a5a4-a7a6-a8a9-aaabacadaeaf")
            self.assertEqual(it.pdb, (b"C:\\x/y\\a b.pdb", 0x1A, guid, None, 0))
            self.assertEqual((it.pdb.name, it.pdb.key), (b"a b.pdb", "A3A2A1A0A5A4A7A6A8A9AAABACADAEAF1a"))
        with petool.Image(debug(NB10 + b"old.pdb\0")) as it:
            self.assertEqual(it.pdb, (b"old.pdb", 3, None, 0x3C0B6FD1, 0))
            self.assertEqual((it.pdb.name, it.pdb.key), (b"old.pdb", "3C0B6FD13"))

    def test_the_first_entry_that_names_a_pdb_file_counts(self):
        first, second = RSDS + b"a\0", NB10 + b"b\0"
        entries = entry(1, len(first), 0, 0x200) + entry(2, 4, 0, 0x200) + entry(2, len(second), 0, 0x270 + len(first))
        file = image(6, 112, entries + entry(2, len(first), 0, 0x270) + first + second)
        with petool.Image(file) as it:
            self.assertEqual(it.pdb.path, b"b")

    def test_functions_of_each_machine(self):
        table = numbers(0x1000, 0x1008, 0x1010, 0x1009)
        with petool.Image(image(3, 12, table, machine=AMD64)) as it:
            self.assertEqual(list(it.functions), [(0x1000, 0x1008, 0x1010, 0)])
            self.assertFalse(it.functions[0].is_packed)
        with petool.Image(image(3, 16, table, machine=ARM64)) as it:
            self.assertEqual(list(it.functions), [(0x1000, 0, 0x1008, 1), (0x1010, 0, 0x1009, 1)])
            self.assertEqual([row.is_packed for row in it.functions], [False, True])
        with petool.Image(image(3, 16, table)) as it:
            self.assertEqual(list(it.functions), [])

    def test_more_rows_than_are_guessed(self):
        table = [(0x1000 + k, 0x1001 + k, 0x1000) for k in range(100)]
        with petool.Image(image(3, 1200, numbers(*(it for row in table for it in row)), machine=AMD64)) as it:
            self.assertEqual([row[:3] for row in it.functions], table)

    def test_tls_as_a_reader_of_its_own_has_it(self):
        for number, file in enumerate(FILES):
            with self.subTest(number), petool.Image(file) as it:
                wanted = read(file)
                fields = wanted.tls()
                self.assertEqual(it.tls is None, fields is None)
                if fields is not None:
                    self.assertEqual(list(it.tls[:6]), [fields.get(name, 0) for name in pages_tables.TLS_FIELDS])
                    self.assertEqual(it.tls.is_whole, len(fields) == 6)
                    callbacks = wanted.callbacks()
                    self.assertEqual(list(it.tls.callbacks), [address for _, address in callbacks[1]] if callbacks else [])

    def test_structures_as_a_reader_of_its_own_has_them(self):
        for number, file in enumerate(FILES):
            with self.subTest(number), petool.Image(file) as it:
                wanted = read(file)
                self.assertEqual(present(it.load_configuration), list(wanted.load().values()))
                self.assertEqual([row[:3] for row in it.bound_imports], [row for _, row in wanted.bound()[0]])
                header = (wanted.structure(pages_tables.CLR) or [b""])[0]
                fields = struct.unpack_from("<IHH16I", header.ljust(72, b"\0"))
                self.assertEqual(present(it.clr), list(fields[: 19 if len(header) >= 72 else 18 if header else 0]))

    def test_the_names_of_fields_are_those_of_the_format(self):
        names = [petool.name_of(petool.Named.LOAD_FIELD, k) for k in range(53)]
        self.assertEqual(names[52], None)
        self.assertEqual([re.sub(r"\W", "", it).lower() for it in names[:52]],
                         [it.replace("_", "") for it in petool.LoadConfiguration._fields])
        self.assertEqual(names[:52], [it.partition(":")[2] for it in pages_tables.LOAD_FIELDS])
        kinds = range(21)
        self.assertEqual([petool.name_of(petool.Named.DEBUG_TYPE, k) for k in kinds], [pages_tables.TYPES.get(k) for k in kinds])

    def test_a_tls_directory(self):
        with petool.Image(image(9, 24, TLS + CALLBACKS)) as it:
            self.assertEqual(it.tls, (0, 0, BASE + 0x1000, BASE + 0x1018, 0, 0, True, (BASE + 0x1000, BASE + 0x1004)))
            self.assertEqual(it.tls.callbacks[1], BASE + 0x1004)
        with petool.Image(image(9, 24, TLS)) as it:
            self.assertEqual(it.tls.callbacks, ())

    def test_a_load_configuration(self):
        with petool.Image(image(10, 64, load(64, (60, 0x54535251)))) as it:
            self.assertEqual((it.load_configuration.size, it.load_configuration.security_cookie), (64, 0x54535251))
            self.assertEqual(it.load_configuration.se_handler_table, None)
        with petool.Image(image(10, 64, bytes(3))) as it:
            self.assertEqual(it.load_configuration, None)

    def test_a_load_configuration_of_64_bits(self):
        held = struct.pack("<I", 112).ljust(88, b"\0") + struct.pack("<QQ", 0x1817161514131211, 0x2827262524232221)
        with petool.Image(wide(10, 112, held.ljust(112, b"\0"))) as it:
            self.assertEqual(it.load_configuration.security_cookie, 0x1817161514131211)
            self.assertEqual(it.load_configuration.se_handler_table, 0x2827262524232221)

    def test_a_clr_header(self):
        with petool.Image(image(14, 72, clr(72, 0x2F00, 0x100))) as it:
            self.assertEqual((it.clr.cb, it.clr.major_runtime_version, it.clr.minor_runtime_version), (72, 2, 5))
            self.assertEqual((it.clr.metadata_rva, it.clr.metadata_size), (0x2F00, 0x100))
            self.assertEqual(it.clr.managed_native_header_size, 0)
        with petool.Image(image(14, 72, clr(71, 0, 0))) as it:
            self.assertEqual(it.clr.managed_native_header_size, None)
        with petool.Image(image(14, 72, bytes(3))) as it:
            self.assertEqual(it.clr, None)

    def test_bound_imports(self):
        table = struct.pack("<IHHIHH", 0x14131211, 24, 1, 0x24232221, 0xFFFF, 0x3231) + bytes(8) + b"a.dll\0"
        with petool.Image(image(11, 24, table)) as it:
            self.assertEqual(tuple(it.bound_imports), ((0x14131211, 24, 1, b"a.dll"), (0x24232221, 0xFFFF, 0x3231, None)))

    def test_an_image_without_these_tables(self):
        with petool.Image(data("v1.dll")) as it:
            self.assertEqual((list(it.debug), it.pdb, list(it.functions), it.findings), ([], None, [], ()))
            self.assertEqual((it.tls, it.load_configuration, it.clr, tuple(it.bound_imports)), (None, None, None, ()))

    def test_a_table_of_a_closed_image(self):
        it = petool.Image(data("v1.dll"))
        it.close()
        for name in ("debug", "pdb", "functions", "tls", "load_configuration", "clr", "bound_imports", "findings"):
            with self.subTest(name), self.assertRaises(ValueError):
                getattr(it, name)

    def test_a_directory_of_two_gigabytes_costs_nothing(self):
        file = image(3, 0x7FFFDFDC, bytes(16), 0x2000, AMD64, 1 << 31)
        with petool.Image(file) as it:
            self.assertEqual((len(it.functions), [found.number for found in it.findings]), (0, [111]))
