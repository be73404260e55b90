"""The page of `petool show` for an archive: its members, the symbols of its linker member, and its findings."""

import unittest

from .cases import run
from .finding_pages import PROGRAM, OverFiles, words_of
from .test_archive_calls import first_linker, second_linker
from .test_archives import O1, SIGNATURE, THIN, archive, header, import_object, member


@unittest.skipUnless(PROGRAM, "left out without program: PETOOL_PROGRAM names none")
class ArchivePages(OverFiles, unittest.TestCase):
    def parts(self, file, status, *options):
        """The title, and the parts of the page of a file by their headings; what has none is under the empty one."""
        done = self.petool(file, "show", *options, "a")
        self.assertEqual((done.stderr, done.returncode), (b"", status))
        title, *blocks = [block.split("\n") for block in done.stdout.decode().strip("\n").split("\n\n")]
        return title[0], {("" if block[0].startswith(" ") else block[0]): (block if block[0].startswith(" ") else block[1:]) for block in blocks}

    def whole(self):
        """An archive with a linker member that names its members last first, an object, import objects, and a text."""
        size = len(first_linker([0] * 4, [b"g", b"f", b"lost", b"f2"]))
        one = 8 + 60 + size + size % 2
        two = one + 60 + len(O1) + len(O1) % 2
        names = first_linker([two, one, 12, one], [b"g", b"f", b"lost", b"f2"])
        return archive(
            member("/", names), member("a.o/", O1), member("k.dll/", import_object(b"g")), member("k.dll/", import_object(name_type=0, machine=0x14C)),
            member("text/", b"a text"),
        )

    def test_members(self):
        file = self.whole()
        title, parts = self.parts(file, 1)
        self.assertEqual(title, f"a: refused: archive, {len(file)} bytes")
        self.assertEqual([line.split() for line in parts[""]], [["Members", "5"], ["Symbols", "4"]])
        rows = [line.split() for line in parts["Members (5)"]]
        self.assertEqual([row[0] for row in rows], ["1", "2", "3", "4", "5", "fault"])
        self.assertEqual(rows[0][3:], ["first", "linker", "member", "/"])
        self.assertEqual(rows[1][2:], [str(len(O1)), "object", "I386" if O1[:2] == b"\x4c\x01" else "AMD64", "a.o"])
        self.assertEqual(rows[2][2:], ["28", "import", "object", "AMD64", "k.dll", "g", "from", "k.dll"])
        self.assertEqual(rows[3][2:], ["28", "import", "object", "I386", "k.dll", "ordinal", "4660", "from", "k.dll"])
        self.assertEqual(rows[4][2:], ["6", "file", "text"])
        self.assertEqual(rows[5][:2], ["fault", "61:"])

    def test_symbols_below_their_members(self):
        file = self.whole()
        self.assertNotIn("Symbols (4)", self.parts(file, 1)[1])
        for option in ("--symbols", "--all"):
            _, parts = self.parts(file, 1, option)
            self.assertEqual([line.split() for line in parts["Symbols (4)"]], [
                ["2", "a.o", "(2)"], ["f"], ["f2"], ["3", "k.dll", "(1)"], ["g"], ["no", "member", "(1)"], ["lost"],
            ])

    def test_the_second_linker_member_counts_if_there_is_one(self):
        first = first_linker([8], [b"first"])
        at = 8 + 60 + len(first) + len(first) % 2
        second = second_linker([at + 60 + 20], [1], [b"second"])
        self.assertEqual(len(second) % 2, 1)
        file = archive(member("/", first), member("/", second), member("a.o/", O1))
        _, parts = self.parts(file, 0, "--symbols")
        self.assertEqual([line.split()[0] for line in parts["Symbols (1)"]][-1], "second")

    def test_findings(self):
        words = words_of()
        file = archive(member("/", first_linker([4], [b"f"])), member("/7", O1), member("k.dll/", import_object(size=9)))
        at = [8 + 60 + 10, 8 + 60 + 10 + 60 + len(O1) + len(O1) % 2]
        _, parts = self.parts(file, 1)
        told = [(304, at[0]), (306, 8), (331, at[1])]
        lines = [f"  {number}  {words[number][0]} at 0x{place:x}: {words[number][1]}" for number, place in told]
        self.assertEqual(parts["Findings (3)"], lines)

    def test_an_archive_that_is_accepted(self):
        file = archive(member("a.o/", O1))
        title, parts = self.parts(file, 0)
        self.assertEqual(title, f"a: accepted: archive, {len(file)} bytes")
        self.assertEqual([heading for heading in parts if heading.startswith(("Findings", "Fault"))], [])
        self.assertEqual(self.parts(SIGNATURE, 0)[0], "a: accepted: archive, 8 bytes")

    def test_a_thin_archive(self):
        file = archive(member("//", b"dir/a.o/\n"), header("/0", 10000), signature=THIN)
        title, parts = self.parts(file, 0)
        self.assertEqual(title, f"a: accepted: thin archive, {len(file)} bytes")
        self.assertEqual([line.split() for line in parts["Members (2)"]], [
            ["1", "0x00000008", "9", "long", "names", "//"], ["2", "0x0000004e", "10000", "in", "another", "file", "dir/a.o"],
        ])

    def test_an_archive_from_standard_input_and_among_others(self):
        (self.folder / "lib.a").write_bytes(archive(member("a.o/", O1)))
        done = run([PROGRAM, "show", "lib.a", "-"], cwd=self.folder, input=SIGNATURE)
        self.assertEqual(done.returncode, 0)
        pages = done.stdout.decode().split("\n\n")
        self.assertTrue(pages[0].startswith("lib.a: accepted: archive, "))
        self.assertIn("standard input: accepted: archive, 8 bytes", done.stdout.decode())

    def test_a_limit_cuts_names_that_many_members_share(self):
        name = b"n" * 300_000
        file = archive(member("//", name + b"/\n"), *(header("/0", 0) for _ in range(30_000)))
        done = self.petool(file, "show", "--most", "1M", "a")
        self.assertEqual((done.returncode, len(done.stdout)), (5, (1 << 20) + len("\n(cut after 1048576 bytes)\n")))


if __name__ == "__main__":
    unittest.main()
