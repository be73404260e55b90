"""Archives by petool.Archive: members, symbols and short import objects of archives that are put together byte by byte."""

import shutil
import struct
import subprocess
import tempfile
import unittest
from pathlib import Path

import petool

from . import data
from .test_archives import FOUND, O1, SIGNATURE, THIN, archive, header, import_object, member


def first_linker(offsets, names):
    return struct.pack(f">I{len(offsets)}I", len(offsets), *offsets) + b"".join(name + b"\0" for name in names)


def second_linker(offsets, indexes, names):
    counts = struct.pack(f"<I{len(offsets)}I", len(offsets), *offsets) + struct.pack(f"<I{len(indexes)}H", len(indexes), *indexes)
    return counts + b"".join(name + b"\0" for name in names)


class ArchiveCalls(unittest.TestCase):
    def test_members_have_the_fields_of_their_headers(self):
        file = archive(
            header("a.o/", 4, date="1700000000", user="1000", group="100", mode="100644") + b"data",
            header("b.o/", 0, date="", user="x", group="-1", mode="9"),
        )
        with petool.Archive(file) as made:
            first, second = made
            self.assertEqual((first.name, first.bytes, first.offset, first.size, first.kind), (b"a.o", b"data", 8, 4, "file"))
            self.assertEqual((first.date, first.user, first.group, first.mode), (1700000000, 1000, 100, 0o100644))
            self.assertEqual((second.date, second.user, second.group, second.mode), (None, None, None, None))
            self.assertEqual((second.name, second.bytes, second.offset, second.is_own), (b"b.o", b"", 72, False))
            self.assertEqual((len(made), made[1], made[-1].offset, made.members[0]), (2, second, 72, first))
            self.assertEqual(repr(first), "<ArchiveMember at 0x8: file, 4 bytes>")
            self.assertEqual(repr(made), "<Archive: 2 members>")
        self.assertEqual(repr(made), "<Archive: closed>")
        self.assertEqual((first.offset, first.date), (8, 1700000000))
        with self.assertRaises(ValueError):
            first.bytes
        with self.assertRaises(ValueError):
            first.name
        with self.assertRaises(ValueError):
            made.symbols

    def test_names_in_each_form(self):
        long = b"a long name of a member.o/\nanother/\n"
        microsoft = b"one long name of Microsoft.obj\0two.obj\0"
        for file, names in [
            (archive(member("//", long), member("/0"), member("/27"), member("/34")), [b"//", b"a long name of a member.o", b"another", b""]),
            (archive(member("/", b"\0" * 4), member("/", b"\0" * 8), member("//", microsoft), member("/31")), [b"/", b"/", b"//", b"two.obj"]),
            (archive(member("#1/8", b"bsd.o\0\0\0" + O1), member("plain.o"), member("/4")), [b"bsd.o", b"plain.o", None]),
        ]:
            with self.subTest(names), petool.Archive(file) as made:
                self.assertEqual([it.name for it in made], names)

    def test_what_members_hold(self):
        made_import = import_object()
        file = archive(
            member("/", bytes(4)), member("//", b"long name of it.o/\n"), member("/SYM64/"), member("/0", O1), member("#1/8", b"bsd.o\0\0\0" + O1),
            member("k.dll/", made_import),
        )
        with petool.Archive(file) as made:
            self.assertEqual([it.kind for it in made], [
                "linker member", "long names", "other member of the archive's own", "file", "file", "import object",
            ])
            self.assertEqual([it.is_own for it in made], [True] * 3 + [False] * 3)
            self.assertEqual([it.bytes for it in made][3:], [O1, O1, made_import])
            with petool.Object(made[3].bytes) as inside:
                self.assertEqual(inside.sections[0].name, b".text$long")

    def test_a_thin_archive_has_its_own_members_bytes_alone(self):
        file = archive(member("//", b"dir/a.o/\n"), header("/0", 10000), header("b.o/", 3), signature=THIN)
        with petool.Archive(file) as made:
            self.assertEqual([(it.name, it.kind, it.size, it.bytes) for it in made], [
                (b"//", "long names", 9, b"dir/a.o/\n"), (b"dir/a.o", "file apart", 10000, b""), (b"b.o", "file apart", 3, b""),
            ])
            self.assertEqual((made.symbols, made.imports, made.findings), ((), (), ()))

    def test_symbols_of_both_linker_members(self):
        first = first_linker([200, 300, 200], [b"f", b"g", b"h"])
        second = second_linker([200, 300], [1, 2, 0, 3], [b"a", b"b", b"c", b"d"])
        with petool.Archive(archive(member("/", first), member("/", second))) as made:
            self.assertEqual(made.linker_symbols(1), ((b"f", 200), (b"g", 300), (b"h", 200)))
            self.assertEqual(made.linker_symbols(2), ((b"a", 200), (b"b", 300), (b"c", None), (b"d", None)))
            self.assertEqual(made.symbols, made.linker_symbols(2))
        with petool.Archive(archive(member("/", first))) as made:
            self.assertEqual((made.linker_symbols(2), made.symbols), (None, made.linker_symbols(1)))
            for number in (0, 3, -1, 1 << 32):
                with self.assertRaises(ValueError):
                    made.linker_symbols(number)
        with petool.Archive(archive()) as made:
            self.assertEqual((made.linker_symbols(1), made.linker_symbols(2), made.symbols), (None, None, ()))

    def test_many_symbols_and_members(self):
        names = [b"symbol_%d" % number for number in range(1000)]
        offsets = list(range(5, 5005, 5))
        members = [member(f"{number}.o/", b"%d" % number) for number in range(1000)]
        with petool.Archive(archive(member("/", first_linker(offsets, names)), *members)) as made:
            self.assertEqual(made.symbols, tuple(zip(names, offsets)))
            self.assertEqual([it.bytes for it in made][1:], [b"%d" % number for number in range(1000)])
            self.assertEqual([it.name for it in made][1:], [b"%d.o" % number for number in range(1000)])

    def test_a_cut_linker_member_has_the_symbols_before_the_cut(self):
        whole = first_linker([200, 300, 400], [b"f", b"g", b"h"])
        with petool.Archive(archive(member("/", whole[:-1]))) as made:
            self.assertEqual([it.name for it in made.symbols], [b"f", b"g"])
            self.assertEqual([it.number for it in made.findings], [305, 306, 306])

    def test_import_objects(self):
        for made, wanted in [
            (import_object(), (b"f", b"k.dll", b"f", 0x1234, 0, 1, 0x8664, 0x5E000001)),
            (import_object(name_type=0, kind=1), (b"f", b"k.dll", None, 0x1234, 1, 0, 0x8664, 0x5E000001)),
            (import_object(b"_f@8", name_type=2, kind=2, machine=0x14C), (b"_f@8", b"k.dll", b"f@8", 0x1234, 2, 2, 0x14C, 0x5E000001)),
            (import_object(b"?f@@8", name_type=3), (b"?f@@8", b"k.dll", b"f", 0x1234, 0, 3, 0x8664, 0x5E000001)),
            (import_object(b"f", export=b"g", name_type=4), (b"f", b"k.dll", b"g", 0x1234, 0, 4, 0x8664, 0x5E000001)),
        ]:
            with self.subTest(wanted), petool.Archive(archive(member("k.dll/", made))) as file:
                self.assertEqual(file.imports, (wanted,))
                self.assertEqual(petool.import_object(file[0].bytes), wanted)
        self.assertIsNone(petool.import_object(b""))
        self.assertIsNone(petool.import_object(O1))
        self.assertIsNone(petool.import_object(bytearray(import_object()[:19])))

    def test_import_objects_with_faults(self):
        for number, made in [
            (331, import_object(size=9)), (332, import_object(size=7)), (332, import_object(name_type=4)), (333, import_object(name_type=5)),
        ]:
            with self.subTest(number):
                with self.assertRaises(petool.FormatFault) as caught:
                    petool.import_object(made)
                self.assertEqual((caught.exception.number, caught.exception.at), (number, 0))
                with petool.Archive(archive(member("a.o/"), member("k.dll/", made))) as file:
                    self.assertEqual([(it.number, it.at) for it in file.findings], [(number, 68)])
                    with self.assertRaises(petool.FormatFault):
                        file.imports

    def test_findings_are_those_of_the_program_but_for_objects(self):
        for number, file, at, _ in FOUND:
            with self.subTest(number), petool.Archive(file) as made:
                found = [(it.number, it.at) for it in made.findings]
                if number == 307:
                    self.assertEqual(found, [])
                else:
                    self.assertEqual(found[0], (number, at))

    def test_findings_of_symbols(self):
        lost = first_linker([8, 9], [b"f", b"g"])
        with petool.Archive(archive(member("/", lost), member("/", second_linker([8], [2], [b"f"])))) as made:
            self.assertEqual([(it.number, it.at) for it in made.findings], [(306, 8), (306, 8 + 60 + len(lost))])
            self.assertEqual(made.findings[0].subject, "linker member")

    def test_many_findings(self):
        with petool.Archive(archive(*[member("/4")] * 100)) as made:
            self.assertEqual([(it.number, it.at) for it in made.findings], [(304, 8 + 60 * k) for k in range(100)])

    def test_files_that_are_no_archives(self):
        for file in (b"", SIGNATURE[:7], b"!<arch>\r\n", b"!<ARCH>\n", O1, data("v1.dll")):
            with self.assertRaises(petool.FormatFault) as caught:
                petool.Archive(file, file="a.lib")
            self.assertEqual((caught.exception.number, caught.exception.at, caught.exception.file), (300, 0, "a.lib"))

    def test_a_cut_archive_has_the_members_before_the_cut(self):
        whole = archive(member("a.o/", b"data"), member("b.o/", b"more"))
        for size in range(8, len(whole)):
            with petool.Archive(whole[:size]) as made:
                self.assertEqual(len(made), (size >= 72) + 0)
                if size not in (8, 72):
                    self.assertEqual([it.number for it in made.findings], [301 if size < 68 or 72 < size < 132 else 303])

    def test_names_that_many_members_share_take_little_time(self):
        # each member has a name of nearly all of the long names: 10,000 times 8 MB if each were searched to its end
        long = b"n" * 8_000_000 + b"\n"
        with petool.Archive(archive(member("//", long), *(member(f"/{k}") for k in range(10_000)))) as made:
            members = made.members
            self.assertEqual([len(members[k].name) for k in (1, 2, 300, 10_000)], [8_000_000, 7_999_999, 7_999_701, 7_990_001])

    def test_archives_are_written(self):
        long = "a_name_of_more_than_fifteen_letters.o"
        members = [("k.dll", import_object()), (long, bytearray(O1)), (b"dir/odd", memoryview(b"odd")), ("empty", b"")]
        with petool.Archive(petool.write_archive(members)) as made:
            self.assertEqual([(it.name, it.bytes) for it in made if not it.is_own], [(b"k.dll", import_object()), (long.encode(), O1), (b"dir/odd", b"odd"), (b"empty", b"")])
            self.assertEqual([it.kind for it in made if it.is_own], ["linker member", "linker member", "long names"])
            self.assertEqual({it.date for it in made} | {it.user for it in made} | {it.group for it in made}, {0})
            with petool.Object(O1) as inside:
                public = [it.name for it in inside.symbols if it.storage_class == 2 and (it.section_number or it.value)]
            offsets = {it.name: it.offset for it in made}
            named = [(b"__imp_f", offsets[b"k.dll"]), (b"f", offsets[b"k.dll"]), *((name, offsets[long.encode()]) for name in public)]
            self.assertEqual([tuple(it) for it in made.linker_symbols(1)], named)
            self.assertEqual([tuple(it) for it in made.linker_symbols(2)], sorted(named))
            self.assertEqual(made.findings, ())

    def test_an_archive_of_nothing_and_one_that_is_larger_than_guessed(self):
        self.assertEqual(len(petool.write_archive([])), 8 + 64 + 68)
        name = b"n" * 5000
        made = petool.write_archive((name[k:], b"") for k in range(3))
        with petool.Archive(made) as file:
            self.assertEqual([it.name for it in file if not it.is_own], [name, name[1:], name[2:]])

    def test_members_that_cannot_be_written(self):
        for name in ("", "a/", "a\nb", b"a\0"):
            with self.subTest(name), self.assertRaises(petool.FormatFault) as caught:
                petool.write_archive([("good", b""), (name, b""), (name, b"")])
            fault = caught.exception
            self.assertEqual((fault.number, fault.place, fault.at), (92, petool.Place.ITEM, 1))
        with self.assertRaises(petool.FormatFault) as caught:
            petool.write_archive([("a", b"")] * 65536)
        self.assertEqual((caught.exception.number, caught.exception.at), (91, 65535))
        with self.assertRaises(TypeError):
            petool.write_archive([("a", "text")])

    @unittest.skipUnless(shutil.which("ar"), "left out without ar")
    def test_an_archive_of_ar(self):
        names = ["a.o", "a name with blanks.o", "a_name_of_more_than_fifteen_letters.o"]
        with tempfile.TemporaryDirectory() as folder:
            for name in names:
                (Path(folder) / name).write_bytes(O1)
            subprocess.run(["ar", "rcD", "made.a", *names], cwd=folder, check=True)
            with petool.Archive((Path(folder) / "made.a").read_bytes()) as made:
                self.assertEqual([it.name.decode() for it in made if not it.is_own], names)
                self.assertEqual([it.bytes for it in made if not it.is_own], [O1] * 3)
                self.assertEqual((made.findings, made[-1].date, made[-1].mode), ((), 0, 0o644))


if __name__ == "__main__":
    unittest.main()
