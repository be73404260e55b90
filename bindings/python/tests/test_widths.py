"""Pages fit into the width that COLUMNS gives and tell what they leave out; and `--color`."""

import os
import pathlib
import struct
import subprocess
import tempfile
import unittest

from . import data
from .cases import run
from .files import changed, importing, numbers

PROGRAM = os.environ.get("PETOOL_PROGRAM")

#: An import of an ordinal of each of twelve modules.
TWELVE = importing(*((b"M%02d.DLL" % number, [1]) for number in range(12)))

#: The row of the directory of the imports, up to what it says of them: 51 columns.
IMPORTS = "   1  import   0x001000   0x00014   .data          "


def named(count):
    """The first modules of twelve, as the list has them."""
    return ", ".join(f"M{number:02}.DLL 1" for number in range(count))


#: What the page says of these imports for each value of COLUMNS, and with the option `--imports`.
LISTS = [
    ("1000", [f"{IMPORTS}12 imports: {named(12)}"]),
    ("193", [f"{IMPORTS}12 imports: {named(12)}"]),
    ("192", [f"{IMPORTS}12 imports:", f"      {named(12)}"]),
    ("136", [f"{IMPORTS}12 imports:", f"      {named(12)}"]),
    ("135", [f"{IMPORTS}12 imports:", f"      {named(9)} and 3 more: --imports"]),
    ("100", [f"{IMPORTS}12 imports:", f"      {named(6)} and 6 more: --imports"]),
    ("80", [f"{IMPORTS}12 imports:", f"      {named(4)} and 8 more: --imports"]),
    ("38", [f"{IMPORTS}12 imports:", f"      {named(1)} and 11 more: --imports"]),
    ("37", [f"{IMPORTS}12 imports from 12 modules: --imports"]),
    ("20", [f"{IMPORTS}12 imports from 12 modules: --imports"]),
]
WITH_ROWS = [
    ("80", [f"{IMPORTS}12 imports:", f"      {named(5)} and 7 more below"]),
    ("20", [f"{IMPORTS}12 imports from 12 modules below"]),
]

#: Values of COLUMNS that are no width: the page has 100 columns.
NO_WIDTHS = [None, "", "0", "19", "1001", "99999", "x", "-80", "+80", "80x", " 80", "8 0", "1e2", "\u00b2\u00b2"]

#: Flags of an image and of a section, and their rows for each value of COLUMNS.
IMAGE_FLAGS = 0x210F
IMAGE_ROWS = {
    "112": [
        "  Image flags  RELOCS_STRIPPED EXECUTABLE_IMAGE LINE_NUMS_STRIPPED LOCAL_SYMS_STRIPPED 32BIT_MACHINE DLL",
    ],
    "60": [
        "  Image flags  RELOCS_STRIPPED EXECUTABLE_IMAGE",
        "               LINE_NUMS_STRIPPED LOCAL_SYMS_STRIPPED",
        "               32BIT_MACHINE DLL",
    ],
    "20": [
        "  Image flags  RELOCS_STRIPPED",
        "               EXECUTABLE_IMAGE",
        "               LINE_NUMS_STRIPPED",
        "               LOCAL_SYMS_STRIPPED",
        "               32BIT_MACHINE",
        "               DLL",
    ],
}
SECTION_FLAGS = 0xD2000040
SECTION_ROW = "   0  .data     rw- data    0x001000   0x000010   0x000200   0x000010"
SECTION_ROWS = {
    "96": [f"{SECTION_ROW} MEM_DISCARDABLE MEM_SHARED"],
    "95": [f"{SECTION_ROW} MEM_DISCARDABLE", "                MEM_SHARED"],
    "84": [SECTION_ROW, "                MEM_DISCARDABLE MEM_SHARED"],
}
OBJECT_ROW = "   1  .text     rw- data    0x000000   0x000000             0"
OBJECT_ROWS = {
    "88": [f"{OBJECT_ROW} MEM_DISCARDABLE MEM_SHARED"],
    "87": [f"{OBJECT_ROW} MEM_DISCARDABLE", "                MEM_SHARED"],
    "76": [OBJECT_ROW, "                MEM_DISCARDABLE MEM_SHARED"],
}


def flagged_object():
    """An object with one section without bytes, which has these flags."""
    header = struct.pack("<HHIIIHH", 0x8664, 1, 0, 0, 0, 0, 0)
    return header + struct.pack("<8s6IHHI", b".text", *(0,) * 8, SECTION_FLAGS)


@unittest.skipUnless(PROGRAM, "left out without program: PETOOL_PROGRAM names none")
class Widths(unittest.TestCase):
    maxDiff = None

    def setUp(self):
        folder = tempfile.TemporaryDirectory()
        self.addCleanup(folder.cleanup)
        self.folder = pathlib.Path(folder.name)

    def page(self, file, *options, columns=None):
        """The rows of the page of a file."""
        (self.folder / "a").write_bytes(file)
        environment = {**os.environ, **({} if columns is None else {"COLUMNS": columns})}
        done = run([PROGRAM, "show", *options, "a"], cwd=self.folder, env=environment)
        self.assertEqual(done.stderr, b"")
        return done.stdout.decode().split("\n")[:-1]

    def rows(self, file, beginning, *options, columns=None):
        """The row of a page that begins so, and those after it that begin with more blanks."""
        page = self.page(file, *options, columns=columns)
        [start] = [number for number, row in enumerate(page) if row.startswith(beginning)]
        rows = page[start:]
        more = [row.startswith("      ") for row in rows[1:]] + [False]
        return rows[: 1 + more.index(False)]

    def test_modules_that_do_not_fit_are_counted(self):
        for columns, rows in LISTS:
            with self.subTest(columns):
                self.assertEqual(self.rows(TWELVE, "   1  import", columns=columns), rows)
        for columns, rows in WITH_ROWS:
            with self.subTest(columns):
                self.assertEqual(self.rows(TWELVE, "   1  import", "--imports", columns=columns), rows)

    def test_a_page_has_100_columns_if_columns_is_no_width(self):
        for columns in NO_WIDTHS:
            with self.subTest(columns):
                self.assertEqual(self.rows(TWELVE, "   1  import", columns=columns), dict(LISTS)["100"])

    def test_one_module_that_does_not_fit(self):
        # a letter takes one column, whatever its bytes are
        for letter in "N\u00e9\u20ac":
            module = letter * (90 if letter < "\u2000" else 80) + ".dll"
            file = importing((module.encode(), [1, 2]))
            widths = [str(len(module) + count) for count in (64, 63, 8, 7)]
            below = [f"{IMPORTS}2 imports:", f"      {module} 2"]
            with self.subTest(letter):
                found = [self.rows(file, "   1  import", columns=columns) for columns in widths]
                self.assertEqual(found, [[f"{IMPORTS}2 imports: {module} 2"], below, below, [f"{IMPORTS}2 imports from 1 module: --imports"]])

    def test_flags_that_do_not_fit_are_on_further_rows(self):
        image = changed("v1.dll", (0x56, struct.pack("<H", IMAGE_FLAGS)), (0x15C, numbers(SECTION_FLAGS)), size=None)
        for columns, rows in IMAGE_ROWS.items():
            with self.subTest(columns):
                self.assertEqual(self.rows(image, "  Image flags", columns=columns), rows)
        for columns, rows in SECTION_ROWS.items():
            with self.subTest(columns):
                self.assertEqual(self.rows(image, "   0  .data ", columns=columns), rows)
        for columns, rows in OBJECT_ROWS.items():
            with self.subTest(columns):
                self.assertEqual(self.rows(flagged_object(), "   1  .text ", columns=columns), rows)

    def test_flags_without_a_name_go_on_too(self):
        image = changed("v1.dll", (0x9E, b"\x1f\x80"), size=None)
        rows = {columns: self.rows(image, "  DLL flags", columns=columns) for columns in ("41", "40")}
        self.assertEqual(rows["41"], ["  DLL flags    TERMINAL_SERVER_AWARE 0x1f"])
        self.assertEqual(rows["40"], ["  DLL flags    TERMINAL_SERVER_AWARE", "               0x1f"])


@unittest.skipUnless(PROGRAM, "left out without program: PETOOL_PROGRAM names none")
class Options(unittest.TestCase):
    """`--color` where standard output is no terminal."""

    def test_colours_always_or_never(self):
        file = data("v1.dll")
        plain = None
        for options, environment, is_coloured in [
            ([], {}, False),
            (["--color", "auto"], {}, False),
            (["--color=never"], {}, False),
            (["--color", "always"], {}, True),
            (["--color=always"], {"NO_COLOR": "1"}, True),
            (["--color=always"], {"TERM": "dumb"}, True),
        ]:
            with self.subTest(options=options, environment=environment):
                command = [PROGRAM, "show", *options, "-"]
                done = subprocess.run(command, input=file, stdout=subprocess.PIPE, env={**os.environ, **environment})
                page = done.stdout.decode()
                plain = plain or page
                self.assertEqual((page.startswith("\x1b[1mstandard input: accepted"), done.returncode), (is_coloured, 0))
                self.assertEqual(page.replace("\x1b[1m", "").replace("\x1b[0m", ""), plain)


if __name__ == "__main__":
    unittest.main()
