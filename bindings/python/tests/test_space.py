"""Sets and spaces: of va.dll, vb.dll and vc.dll one slot is bound, that of c.exe at RVA 0x1030, to RVA 0x1010 of b.dll. Objects."""

import copy
import pickle
import struct
import threading
import unittest
from unittest import mock

import petool

from . import data

BOUND = petool.Binding(2, 0x1030, 1, 0x1010)


def entries():
    named = [("a.dll", "va.dll", 0x10000000), (b"b.dll", "vb.dll", 0x20000000), ("c.exe", "vc.dll", 0x400000)]
    return [(name, data(file), base) for name, file, base in named]


def object_with(counts):
    """An object of sections with these counts of relocations. A relocation's address is its index among those of all."""
    at = 20 + 40 * len(counts)
    header = struct.pack("<HHIIIHH", 0x8664, len(counts), 0, at + 10 * sum(counts), 1, 0, 0)
    sections = []
    for count in counts:
        sections.append(struct.pack("<8s6IHHI", b".a", 0, 0, 0, 0, at, 0, count, 0, 0x60000020))
        at += 10 * count
    relocations = [struct.pack("<IIH", address, 0, 4) for address in range(sum(counts))]
    return b"".join([header, *sections, *relocations, struct.pack("<8sIHHBBI", b"x", 0, 0, 0, 2, 0, 4)])


class Sets(unittest.TestCase):
    def test_judge(self):
        self.assertEqual(petool.judge(entries()), [BOUND])
        self.assertEqual(petool.judge(entries()[1:], known=True), [])
        self.assertEqual(petool.judge([]), [])
        with self.assertRaises(petool.FormatFault) as caught:
            petool.judge(entries()[1:])
        fault = caught.exception
        self.assertEqual((fault.number, fault.image, fault.at, fault.cycle), (48, 1, 0x1030, None))

    def test_imports_that_are_bound_to_nothing(self):
        a, b, c = entries()
        self.assertEqual(list(petool.unbound([a, b, c])), [])
        found = petool.unbound([c, a, ("d.exe", c[1], 0x500000)])
        alone = [petool.UnboundImport(image, 0x1030, b"A.DLL", b"f") for image in (0, 2)]
        self.assertEqual(list(found), alone)
        self.assertEqual((len(found), found[-1]), (2, alone[1]))
        self.assertEqual(pickle.loads(pickle.dumps(found)), tuple(alone))
        with self.assertRaises(petool.FormatFault) as caught:
            petool.unbound([a, a])
        self.assertEqual((caught.exception.number, caught.exception.image), (42, 1))

    def test_a_base_of_more_bits(self):
        with self.assertRaises(OverflowError):
            petool.judge([("a.dll", data("va.dll"), 1 << 64)])


class Spaces(unittest.TestCase):
    def test_a_slot_follows_a_move(self):
        with petool.Space(entries()) as space:
            self.assertEqual(space.read(0x401030, 4), b"\x10\x10\x00\x20")
            self.assertEqual(list(space.bindings), [BOUND])
            self.assertEqual(space.images[1], (0x20000000, 0x3000))
            self.assertEqual(space.move(1, 0x30000000), petool.Moved(0, 1))
            self.assertEqual(space.read(0x401030, 4), b"\x10\x10\x00\x30")
            buffer = bytearray(4)
            space.read_into(0x401030, buffer)
            self.assertEqual(buffer, b"\x10\x10\x00\x30")
            self.assertEqual(space.images[1].base, 0x30000000)

    def test_refusals(self):
        with petool.Space(entries()) as space:
            for address, count, image in ((0x402FFF, 2, 2), (0x403000, 1, 65535), (0x402FFF, 1 << 60, 2)):
                with self.assertRaises(petool.FormatFault) as caught:
                    space.read(address, count)
                fault = caught.exception
                self.assertEqual((fault.number, fault.image, fault.at), (54, image, address))
            with self.assertRaises(petool.FormatFault) as caught:
                space.move(1, 0x10000000)
            self.assertEqual(caught.exception.number, 47)
            for image in (3, -1, 65536):
                with self.assertRaises(IndexError):
                    space.move(image, 0x50000000)
            with self.assertRaises(OverflowError):
                space.read(1 << 64, 1)
            with self.assertRaises(TypeError):
                copy.copy(space)

    def test_closed(self):
        space = petool.Space(entries())
        space.close()
        space.close()
        asked = [lambda: space.read(0x401030, 4), lambda: space.move(0, 0), lambda: space.images, lambda: space.bindings]
        for ask in asked:
            with self.assertRaises(ValueError) as caught:
                ask()
            self.assertNotIsInstance(caught.exception, petool.FormatFault)

    def test_the_files_may_go(self):
        files = [(name, bytearray(file), base) for name, file, base in entries()]
        with petool.Space(files) as space:
            for _, file, _ in files:
                file.clear()
            self.assertEqual(space.read(0x10000000, 2), b"MZ")

    def test_threads(self):
        image, wrong = petool.Image(data("vr.dll")), []

        def ask(space):
            for k in range(200):
                slot = space.read(0x401030, 4)
                space.move(1, 0x30000000 + (k % 2 << 16))
                if slot[:2] != b"\x10\x10" or len(image.imports) != 5 or image.read(0, 2) != b"MZ":
                    wrong.append(slot)

        with petool.Space(entries()) as space:
            threads = [threading.Thread(target=ask, args=(space,)) for _ in range(4)]
            for thread in threads:
                thread.start()
            for thread in threads:
                thread.join()
        self.assertEqual(wrong, [])

    def test_a_space_over_its_files_is_that_of_the_set(self):
        files = [(name, bytearray(file), base) for name, file, base in entries()]
        with petool.Space(files) as mapped, petool.Space.open(files) as opened:
            for base in (0x20000000, 0x30000000):
                self.assertEqual(opened.move(1, base), mapped.move(1, base))
                self.assertEqual(opened.images, mapped.images)
                self.assertEqual(list(opened.bindings), list(mapped.bindings))
                for at, size in mapped.images:
                    self.assertEqual(opened.read(at, size), mapped.read(at, size))
            # the bytes are those of the files, which may not be resized
            files[0][1][0] = 0x4E
            self.assertEqual((opened.read(0x10000000, 2), mapped.read(0x10000000, 2)), (b"NZ", b"MZ"))
            for _, file, _ in files:
                with self.assertRaises(BufferError):
                    file.clear()
        for _, file, _ in files:
            file.clear()
        with self.assertRaises(petool.FormatFault) as caught:
            petool.Space.open(entries()[1:])
        self.assertEqual((caught.exception.number, caught.exception.module), (48, b"A.DLL"))
        with petool.Space.open(entries()[1:], known=True) as space:
            self.assertEqual(list(space.bindings), [])

    def test_a_shared_space_is_not_moved(self):
        for make in (petool.Space, petool.Space.open):
            with self.subTest(make), make(entries()) as space:
                second, third = space.shared(), space.shared()
                for each in (space, second, third):
                    self.assertEqual(each.read(0x401030, 4), b"\x10\x10\x00\x20")
                    self.assertEqual(list(each.bindings), [BOUND])
                    self.assertEqual(each.images[1], (0x20000000, 0x3000))
                    with self.assertRaises(BufferError):
                        each.move(1, 0x30000000)
                second.close()
                with self.assertRaises(BufferError):
                    third.move(1, 0x30000000)
                for ask in (second.shared, lambda: second.move(1, 0)):
                    with self.assertRaises(ValueError):
                        ask()
                third.close()
                self.assertEqual(space.move(1, 0x30000000), petool.Moved(0, 1))
                self.assertEqual(space.read(0x401030, 4), b"\x10\x10\x00\x30")

    def test_the_files_stay_until_the_last_space_is_closed(self):
        files = [(name, bytearray(file), base) for name, file, base in entries()]
        space = petool.Space.open(files)
        other = space.shared()
        space.close()
        with self.assertRaises(BufferError):
            files[0][1].clear()
        self.assertEqual(other.read(0x10000000, 2), b"MZ")
        other.close()
        files[0][1].clear()

    def test_threads_share_a_space(self):
        wrong = []

        def ask(space):
            with space:
                for _ in range(200):
                    if space.read(0x401030, 4) != b"\x10\x10\x00\x20":
                        wrong.append(space)
                    space.shared().close()

        with petool.Space.open(entries()) as space:
            threads = [threading.Thread(target=ask, args=(space.shared(),)) for _ in range(4)]
            for thread in threads:
                thread.start()
            for thread in threads:
                thread.join()
            self.assertEqual(space.move(1, 0x30000000), petool.Moved(0, 1))
        self.assertEqual(wrong, [])

    def test_a_limit_of_bytes(self):
        images = [("a.dll", data("v1.dll"), 0x10000000), ("b.dll", data("v1.dll"), 0x20000000)]
        with self.assertRaises(OverflowError):
            petool.Space(images, most_bytes=0x5FFF)
        with petool.Space(images, most_bytes=0x6000) as space:
            self.assertEqual(sum(it.size for it in space.images), 0x6000)


class Objects(unittest.TestCase):
    def test_headers_have_every_field_of_the_file(self):
        with petool.Object(data("o1.obj")) as found:
            self.assertEqual(found.header, petool.ObjectHeader(0x8664, 1, 0, 76, 5, 0, 0))
            row = petool.SectionHeader(b"/4" + bytes(6), 0, 0, 6, 60, 66, 0, 1, 0, 0x60000020)
            self.assertEqual(found.section_headers, (row,))
        with petool.Object(data("two.obj")) as two:
            self.assertEqual(two.header.number_of_sections, 2)
            self.assertEqual([it.name.rstrip(b"\0") for it in two.section_headers], [b".bss", b".data"])
        with petool.Object(bytes(20)) as empty:
            self.assertEqual(empty.section_headers, ())

    def test_values(self):
        with petool.Object(data("o1.obj")) as found:
            self.assertEqual(found.sections[0].name, b".text$long")
            self.assertEqual(found.sections[0].data, b"\xe8\0\0\0\0\xc3")
            self.assertEqual(list(found.relocations(0)), [petool.ObjectRelocation(1, 3, 4)])
            self.assertEqual([it.name for it in found.symbols], [b".file", b"abcdefgh", b"abcdefghi", b""])
            self.assertEqual(len(found.symbols[0].aux), 18)
            self.assertEqual(found.symbols[3].section_number, petool.SECTION_ABSOLUTE)
            for section in (1, -1):
                with self.assertRaises(IndexError):
                    found.relocations(section)
        two = petool.Object(data("two.obj"))
        self.assertEqual([(it.name, it.absent_size) for it in two.sections], [(b".bss", 0x12345678), (b".data", 0)])

    def test_relocations(self):
        counts = [3000, 0, 1000, 2000, 5000, 0, 1, 65534, 1, 0]
        starts = [sum(counts[:k]) for k in range(len(counts))]
        backwards = range(len(counts) - 1, -1, -1)
        with petool.Object(object_with(counts)) as found:
            for k in [*range(len(counts)), *backwards, 9, 3, 0, 8, 2, 2, 5]:
                self.assertEqual([it.address for it in found.relocations(k)], list(range(starts[k], starts[k] + counts[k])))
            self.assertEqual(found.relocations(3)[-1], petool.ObjectRelocation(5999, 0, 4))
            with self.assertRaises(IndexError):
                found.relocations(len(counts))
        with self.assertRaises(ValueError) as caught:
            found.relocations(3)
        self.assertNotIsInstance(caught.exception, petool.FormatFault)
        with self.assertRaises(IndexError):
            petool.Object(object_with([])).relocations(0)

    def test_relocations_are_read_by_windows(self):
        found = petool.Object(object_with([1] * 10000))
        with mock.patch.object(found, "_window_from", wraps=found._window_from) as window_from:
            for k in range(10000):
                self.assertEqual(list(found.relocations(k)), [petool.ObjectRelocation(k, 0, 4)])
        self.assertEqual(window_from.call_count, 3)

    def test_refused(self):
        with self.assertRaises(petool.FormatFault) as caught:
            petool.Object(data("o1.obj")[:19])
        self.assertEqual((caught.exception.number, caught.exception.at), (61, 19))
