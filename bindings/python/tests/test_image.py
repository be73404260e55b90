"""One image: the values of the small files, which were made by hand; vr.dll has another value in each field."""

import array
import itertools
import mmap
import pickle
import struct
import tempfile
import tracemalloc
import unittest

import petool
from petool import Export, Forward, Import, Rva

from . import DATA, crafted, data

FORWARD_TO_NAME = Forward(b"m\x1f.\xff", b'n"m\\')
FORWARD_TO_ORDINAL = Forward(b"\\o\x7f", 407)

FIELDS = {
    "image_base": 0x3E3D3C3B3A390000,
    "size_of_stack_reserve": 0x605F5E5D5C5B5A59,
    "size_of_heap_commit": 0x7877767574737271,
    "pe_offset": 0x40,
    "time_date_stamp": 0x14131211,
    "number_of_symbols": 0x1C1B1A19,
    "size_of_code": 0x26252423,
    "address_of_entry_point": 0x3231302F,
    "base_of_code": 0x36353433,
    "base_of_data": 0,
    "section_alignment": 0x1000,
    "file_alignment": 0x200,
    "win32_version_value": 0x504F4E4D,
    "size_of_image": 0x45678,
    "size_of_headers": 0x1E0,
    "check_sum": 0x54535251,
    "loader_flags": 0x7C7B7A79,
    "number_of_rva_and_sizes": 0x807F7E7D,
    "magic": 0x20B,
    "machine": 0xAA64,
    "number_of_sections": 3,
    "characteristics": 0x2022,
    "subsystem": 0x5655,
    "dll_characteristics": 0x5857,
    "major_operating_system_version": 0x4241,
    "minor_subsystem_version": 0x4C4B,
    "major_linker_version": 0x21,
    "minor_linker_version": 0x22,
}


class Values(unittest.TestCase):
    def setUp(self):
        self.image = petool.open(DATA / "vr.dll")
        self.addCleanup(self.image.close)

    def test_fields(self):
        for name, value in FIELDS.items():
            self.assertEqual(getattr(self.image.headers, name), value, name)
        self.assertEqual(len(self.image.headers.directories), 16)
        self.assertEqual(self.image.headers.directories[15], petool.Directory(0xE4E3E2E1, 0xE8E7E6E5))

    def test_sections(self):
        found = [(it.name, it.rva, it.extent, it.file_size, it.pointer_to_raw_data) for it in self.image.sections]
        self.assertEqual(found[0], (b'"a\\\x01', 0x20000, 0x2345, 0x1F0, 0x200))
        self.assertEqual(found[1], (b"\x7f~ \x80\xff", 0x30000, 0x1C8, 0x1C8, 0x400))
        self.assertEqual(found[2], (b"eight\tby", 0x40000, 0x3456, 0, 0))

    def test_exports(self):
        exports = self.image.exports
        names = {b'"q\\': Rva(0x30123), b"\x7f\x80 ": FORWARD_TO_NAME, b"plain": FORWARD_TO_ORDINAL}
        ordinals = {
            65534: Rva(0x43210),
            65536: FORWARD_TO_NAME,
            65537: FORWARD_TO_ORDINAL,
            65538: Rva(0x30123),
            65539: Rva(0x1FEDC),
        }
        self.assertEqual(dict(exports), {**names, **ordinals})
        self.assertEqual([it.name for it in exports.names()], list(names))
        self.assertEqual(exports.ordinals()[0], Export(None, 65534, Rva(0x43210)))
        self.assertEqual(exports["plain"], exports[b"plain"])
        self.assertNotIn(65535, exports)
        for key in ("plai", b"", 0, "\udcff"):
            with self.assertRaises(KeyError):
                exports[key]

    def test_names_that_share_a_string_are_not_copied(self):
        # 4,096 names, of 260 MB together
        file = crafted.exports(list(range(4096)), b"a" * 65535 + b"\0", [16])
        with petool.Image(file) as image:
            exports = image.exports
            tracemalloc.start()
            self.addCleanup(tracemalloc.stop)
            for length in (65535, 63000, 61440):
                self.assertEqual(exports[b"a" * length], Rva(16))
            self.assertEqual(exports["a" * 65000], Rva(16))
            for key in (b"a" * 65536, b"a" * 61439, b"b", b"", "\udcff", 0, 2):
                self.assertNotIn(key, exports)
            self.assertEqual((len(exports), exports[1], next(iter(exports))), (4097, Rva(16), b"a" * 65535))
            # 200 of them, of 13 MB
            self.assertEqual(set(itertools.islice(exports.values(), 200)), {Rva(16)})
            self.assertLess(tracemalloc.get_traced_memory()[1], 4 << 20)

    def test_forwarders_that_share_a_string_are_not_kept(self):
        # 4,096 forwarders, each with an ordinal or name after a module's name of 32 KB
        with petool.Image(dict(crafted.kinds(65536))["forwarders_ends"]()) as image:
            tracemalloc.start()
            self.addCleanup(tracemalloc.stop)
            lengths = [len(it.module) for it in itertools.islice(image.exports.values(), 400)]
            self.assertGreater(sum(lengths), 10 << 20)
            self.assertLess(tracemalloc.get_traced_memory()[1], 4 << 20)

    def test_imports(self):
        expected = [
            Import(b'A"b.DLL', b"\x7fname", 0x40010),
            Import(b'A"b.DLL', 777, 0x40018),
            Import(b'A"b.DLL', b'g"\\\x01', 0x40020),
            Import(b"c\\\x80", 65534, 0x30070),
            Import(b"c\\\x80", b"\xff", 0x30078),
        ]
        self.assertEqual(list(self.image.imports), expected)
        self.assertEqual(self.image.imports[-1], expected[-1])
        self.assertEqual(self.image.imports[1:3], expected[1:3])
        self.assertEqual((expected[1].ordinal, expected[1].name, expected[0].name), (777, None, b"\x7fname"))
        with self.assertRaises(IndexError):
            self.image.imports[5]

    def test_fixups(self):
        found = [(it.field, it.kind, it.width) for it in self.image.fixups]
        self.assertEqual(found, [(0x21234, 3, 4), (0x21008, 10, 8), (0x41FFF, 10, 8), (0x41010, 3, 4)])
        rows = self.image.fixup_array()
        self.assertEqual([field for _, field, _ in struct.iter_unpack("III", rows)], rows[1::3].tolist())
        self.assertTrue(rows.readonly)

    def test_without_check_the_tables_are_the_same(self):
        with petool.Image(data("vr.dll"), check=False) as image:
            self.assertEqual(dict(image.exports), dict(self.image.exports))
            self.assertEqual(list(image.imports), list(self.image.imports))
            self.assertEqual(list(image.fixups), list(self.image.fixups))


class Bytes(unittest.TestCase):
    def setUp(self):
        self.image = petool.Image(data("v1.dll"))

    def test_read(self):
        self.assertEqual(self.image.read(0x1000, 17), bytes(range(16)) + b"\0")
        self.assertEqual(self.image.read(0x2FFF, 1), b"\0")
        self.assertEqual(self.image.read(0x3000, 0), b"")
        for rva, count in ((0x2FFF, 2), (0x3000, 1), (0, 1 << 60), (1 << 32, 1), (-1, 1), (0, -1)):
            with self.assertRaises(IndexError):
                self.image.read(rva, count)

    def test_read_into(self):
        buffer = bytearray(b"Z" * 6)
        self.image.read_into(0x1001, memoryview(buffer)[1:5])
        self.assertEqual(buffer, b"Z\x01\x02\x03\x04Z")
        with self.assertRaises(IndexError):
            self.image.read_into(0x2FFF, buffer)
        self.assertEqual(buffer, b"Z\x01\x02\x03\x04Z")
        with self.assertRaises(TypeError):
            self.image.read_into(0x1000, b"1234")

    def test_text_and_place(self):
        self.assertEqual(self.image.text(0), b"MZ")
        self.assertIsNone(self.image.text(0x1001))
        self.assertIsNone(self.image.text(1 << 32))
        self.assertEqual(self.image.locate(0x100F), 0x20F)
        for rva in (0x1010, 0x3000, -1, 1 << 40):
            self.assertIsNone(self.image.locate(rva))

    def test_nothing_is_in_its_tables(self):
        self.assertEqual((len(self.image.exports), len(self.image.imports), len(self.image.fixups)), (0, 0, 0))
        self.assertEqual(self.image.fixup_array().tolist(), [])

    def test_rebase(self):
        moved = petool.rebase(data("v2.dll"), 0x20000000)
        with petool.Image(moved) as image:
            self.assertEqual(image.headers.image_base, 0x20000000)
            self.assertEqual(image.read(0x1008, 4), b"\x08\x10\x00\x20")
            self.assertEqual(image.rebased(0x20000000), moved)
            with self.assertRaises(OverflowError):
                image.rebased(1 << 64)
        with self.assertRaises(petool.FormatFault) as caught:
            petool.rebase(data("v2.dll"), 0x20000001)
        self.assertEqual((caught.exception.number, caught.exception.at), (44, 0x20000001))
        self.assertEqual(str(caught.exception), "fault 44: base 0x20000001: the base is not a multiple of 65,536")
        with petool.Image(data("v2.dll"), file="v2") as image, self.assertRaises(petool.FormatFault) as opened:
            image.rebased(0x20000001)
        self.assertEqual((str(opened.exception), opened.exception.file), (str(caught.exception), "v2"))
        with petool.Image(data("v2.dll")) as image:
            self.assertEqual(image.rebased(0x20000000), moved)


class Faults(unittest.TestCase):
    def test_a_fault_has_its_parts_and_words(self):
        fault = petool.check(data("v1.dll")[:520])
        self.assertEqual((fault.number, fault.image, fault.place, fault.at), (13, 0, petool.Place.FILE, 0x138))
        words = "fault 13: section header at 0x138: the section's raw data extends past the end of the file"
        self.assertEqual(str(fault), words)
        self.assertEqual(str(pickle.loads(pickle.dumps(fault))), words)
        self.assertIsInstance(fault, ValueError)
        self.assertIsNone(petool.check(data("v1.dll")))

    def test_what_is_refused_lets_its_bytes_go(self):
        cut = bytearray(data("v1.dll")[:520])
        with self.assertRaises(petool.FormatFault) as caught:
            petool.Image(cut)
        cut.append(0)
        self.assertEqual(caught.exception.number, 13)

    def test_without_check_a_table_is_judged_at_its_question(self):
        whole = bytearray(data("vr.dll"))
        whole[0x200:0x3F0] = b"\xff" * 0x1F0
        with petool.Image(whole, check=False) as image, self.assertRaises(petool.FormatFault) as caught:
            image.exports
        self.assertIn(caught.exception.number, range(16, 23))
        with self.assertRaises(petool.FormatFault):
            petool.Image(whole)


class Buffers(unittest.TestCase):
    def test_each_kind(self):
        whole = data("vr.dll")
        with tempfile.TemporaryFile() as file:
            file.write(whole)
            file.flush()
            read_only = mmap.mmap(file.fileno(), 0, access=mmap.ACCESS_READ)
            shared = mmap.mmap(file.fileno(), 0)
        wide = array.array("Q", whole)
        kinds = [whole, bytearray(whole), memoryview(whole), memoryview(b"x" + whole)[1:], read_only, shared, wide]
        for kind in kinds:
            with petool.Image(kind) as image:
                self.assertEqual(image.imports[0].name, b"\x7fname", type(kind))
                self.assertEqual(image.exports["plain"], FORWARD_TO_ORDINAL)

    def test_empty_ones(self):
        for kind in (b"", bytearray(), memoryview(b""), array.array("Q")):
            self.assertEqual(petool.check(kind).number, 2)
        with tempfile.NamedTemporaryFile() as file, self.assertRaises(petool.FormatFault):
            petool.open(file.name)

    def test_what_is_no_buffer(self):
        for wrong in ("text", 7, None):
            with self.assertRaises(TypeError):
                petool.Image(wrong)
        with self.assertRaises(BufferError):
            petool.Image(memoryview(data("v1.dll"))[::2])

    def test_a_bytearray_is_held_until_close(self):
        whole = bytearray(data("vr.dll"))
        image = petool.Image(whole)
        imports, fixups = image.imports, image.fixups
        with self.assertRaises(BufferError):
            whole.append(0)
        image.close()
        whole.clear()
        self.assertEqual(len(fixups), 4)
        for ask in (lambda: imports[0], lambda: image.exports, lambda: image.read(0, 1), lambda: image.text(0)):
            with self.assertRaises(ValueError):
                ask()
        image.close()


if __name__ == "__main__":
    unittest.main()
