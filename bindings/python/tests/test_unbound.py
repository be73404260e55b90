"""`map --unbound` prints what `map` prints, and then the imports that are bound to nothing, by hand from the files; `petool.unbound` has
the same."""

import os
import tempfile
import unittest

import petool

from . import data
from .cases import run, write_set
from .files import changed, importing, library, program

PROGRAM = os.environ.get("PETOOL_PROGRAM")

#: An image that imports from three modules, of which B.DLL exports the ordinals 5 and 7.
MIXED = importing((b"x.dll", [3, 65535]), (b"B.DLL", [5, 7]), (b"X.DLL", [4]), (b"b.dll", [7]), (b"y", [0]))

#: The lines of its imports, as image 0, that are bound to nothing if only B.DLL is there: slots have 4 bytes, from RVA 0x20000 on.
MIXED_LINES = [
    'unbound 0 0x00020000 "x.dll" #3',
    'unbound 0 0x00020004 "x.dll" #65535',
    'unbound 0 0x00020010 "X.DLL" #4',
    'unbound 0 0x00020018 "y" #0',
]

#: Sets, as names, files and bases; and the lines of their imports that are bound to nothing if imports of other modules may be.
SETS = [
    ([(b"v.dll", data("v1.dll"), 0x10000000)], []),
    ([(b"c.exe", data("vc.dll"), 0x400000)], ['unbound 0 0x00001030 "A.DLL" "f"']),
    ([(b"s.dll", data("vs.dll"), 0x20000000), (b"c.exe", data("vc.dll"), 0x400000)], ['unbound 1 0x00001030 "A.DLL" "f"']),
    ([(b"mixed.dll", MIXED, 0x30000000), (b"b.dll", data("vb.dll"), 0x20000000)], MIXED_LINES),
    (
        [(b"b.dll", data("vb.dll"), 0x20000000), (b"mixed.dll", MIXED, 0x30000000), (b"c.exe", data("vc.dll"), 0x400000)],
        [*(line.replace(" 0 ", " 1 ", 1) for line in MIXED_LINES), 'unbound 2 0x00001030 "A.DLL" "f"'],
    ),
    # an import of F.DLL that leads to another module, which is not there; the import itself is what is told
    ([(b"f.dll", library([b"g.h", b""]), 0x20000000), (b"c.exe", program(0), 0x400000)], ['unbound 1 0x00001030 "F.DLL" #0']),
    ([(b"f.dll", library([b"g.h", b""]), 0x20000000), (b"c.exe", program(1), 0x400000)], []),
    # names of a file are in quotes, with escapes
    (
        [(b"c.exe", changed("vc.dll", (0x240, b'\n"\\'), size=None), 0x400000)],
        ['unbound 0 0x00001030 "\\x0a\\x22\\x5cLL" "f"'],
    ),
]


def quoted(text):
    """A string as the program prints it."""
    return '"' + "".join(chr(it) if 0x20 <= it < 0x7F and it not in b'"\\' else f"\\x{it:02x}" for it in text) + '"'


def line_of(it):
    """An import as the program prints it."""
    key = f"#{it.key}" if isinstance(it.key, int) else quoted(it.key)
    return f"unbound {it.image} 0x{it.slot:08x} {quoted(it.module)} {key}"


class UnboundImports(unittest.TestCase):
    def test_the_library_has_the_imports_that_the_program_prints(self):
        for number, (members, lines) in enumerate(SETS):
            with self.subTest(number):
                self.assertEqual([line_of(it) for it in petool.unbound(members)], lines)


@unittest.skipUnless(PROGRAM, "left out without program: PETOOL_PROGRAM names none")
class Unbound(unittest.TestCase):
    maxDiff = None

    def map(self, members, *options):
        """What `map` prints for a set, the first line of standard error, and the status."""
        with tempfile.TemporaryDirectory() as folder:
            done = run([PROGRAM, "map", *options, *write_set(folder, members)])
        return done.stdout.decode(), done.stderr.decode().replace(folder, ""), done.returncode

    def test_imports_that_are_bound_to_nothing_are_told_after_the_report(self):
        for number, (members, lines) in enumerate(SETS):
            with self.subTest(number):
                report, told, status = self.map(members, "--known")
                self.assertEqual((report[-4:], told, status), ("end\n", "", 0))
                self.assertEqual(self.map(members, "--known", "--unbound"), (report + "".join(f"{line}\n" for line in lines), "", 0))

    def test_they_come_after_a_window(self):
        members, lines = SETS[1]
        report, _, _ = self.map(members, "--known", "--window", "401030", "--count", "4")
        self.assertEqual(report, 'image 0 "c.exe" base 0x0000000000400000 size 0x00003000\n0x0000000000401030 38 10 00 00\nend\n')
        found = self.map(members, "--unbound", "--known", "--window", "401030", "--count", "4")
        self.assertEqual(found, (report + f"{lines[0]}\n", "", 0))

    def test_without_known_none_is_left(self):
        # each import is bound, or else the set is refused
        bound = [(b"a.dll", data("va.dll"), 0x10000000), (b"b.dll", data("vb.dll"), 0x20000000), (b"c.exe", data("vc.dll"), 0x400000)]
        self.assertEqual(self.map(bound, "--unbound"), self.map(bound))
        members, _ = SETS[1]
        refused = self.map(members, "--unbound")
        self.assertEqual(refused, self.map(members))
        self.assertEqual((refused[0], refused[2]), ("fault 48 image 0 rva 0x00001030\n", 1))

    def test_a_refused_set_or_window_is_told_alone(self):
        members, _ = SETS[1]
        for options, text in [
            (["--window", "0"], "fault 54 image 65535 address 0x0000000000000000\n"),
            (["--window", "402fff", "--count", "2"], "fault 54 image 0 address 0x0000000000402fff\n"),
        ]:
            with self.subTest(options):
                self.assertEqual(self.map(members, "--known", "--unbound", *options)[::2], (text, 1))
        twice = [*members, *members]
        self.assertEqual(self.map(twice, "--known", "--unbound")[::2], ("fault 42 image 1 item 1\n", 1))


if __name__ == "__main__":
    unittest.main()
