"""The code in C and Rust on the pages for users, completed to programs, compiled and run.

The rule by which it is completed: what stands below one heading, or in README.md behind the words that name a language, is one piece,
with all its blocks in their order. A piece with a `main` is a program. Another one of C is the body of `example` in `C_PROGRAM`, where
`file` and `len` are the bytes of a file, and `set` and `entries` a set of this file alone, with the name a.dll and the base 0x10000000;
one of Rust is the body of the `main` of `RUST_PROGRAM`. The commands that compile are those of the pages.

Code in Python is run by test_pages.py and code in JavaScript by bindings/js/tests/pages.test.mjs. Commands of shells are not run here,
and what is written in Rattle by no test, since that needs the kit.
"""

import os
import pathlib
import re
import shlex
import shutil
import subprocess
import tempfile
import unittest
from typing import Dict, Iterator, List, Tuple

from petool import _library

from . import PACKAGE, TOP, crafted, data
from .test_beyond import RSDS, debug
from .test_big_objects import header, symbol
from .test_pages import blocks
from .test_trust import ISSUER, SHA256, SUBJECT, certificate, signed
from .trees import image, leaf, string, tree, version

C_PAGE, LIBRARIES, README = TOP / "docs/C.md", TOP / "docs/LIBRARIES.md", TOP / "README.md"
RUST_PAGE, JAVASCRIPT_PAGE = TOP / "bindings/rust/README.md", TOP / "bindings/js/README.md"
BUILT = "/tmp/petool-c"
FOLDER = os.path.dirname(os.path.abspath(_library.library._name))
CARGO = shutil.which("cargo")

C_PROGRAM = """#include "petool.h"

static int example(const uint8_t *file, size_t len, const petool_entry *set, size_t entries)
{
    (void)file, (void)len, (void)set, (void)entries;
    {
%s
    }
    return 0;
}

int main(int count, char **words)
{
    static uint8_t file[1 << 20];
    FILE *opened = count == 2 ? fopen(words[1], "rb") : NULL;
    if (!opened)
        return 2;
    size_t len = fread(file, 1, sizeof file, opened);
    fclose(opened);
    petool_entry set[1] = {{petool_text_of("a.dll"), {file, len}, 0x10000000}};
    return example(file, len, set, 1);
}
"""
RUST_PROGRAM = """fn main() -> Result<(), Box<dyn std::error::Error>> {
%s
    Ok(())
}
"""
CARGO_TOML = '[package]\nname = "example"\nversion = "0.0.0"\nedition = "2021"\n\n[workspace]\n\n[dependencies]\n%s\n'


def archive(*members: Tuple[bytes, bytes]) -> bytes:
    """An archive of members, each a name and what it holds."""
    parts = [b"%-16s%-12d%-6d%-6d%-8o%-10d`\n" % (name + b"/", 0, 0, 0, 0o644, len(held)) + held + b"\n" * (len(held) % 2) for name, held in members]
    return b"!<arch>\n" + b"".join(parts)


#: What each piece of C prints for a file, by its page and its heading.
C_PIECES: Dict[Tuple[pathlib.Path, str], List[Tuple[bytes, str]]] = {
    (C_PAGE, "## Versions"): [(b"", "")],
    (C_PAGE, "## Tables beyond the profile"): [(debug(RSDS + b"C:\\x/y\\a b.pdb\0"), "C:\\x/y\\a b.pdb, age 26\n"), (data("v1.dll"), "")],
    (C_PAGE, "## Resources"): [(image(tree([(16, leaf(version(string("ProductName", "a"), string("ProductVersion", "5.6 \u00e9"))))])), "5.6 ?")],
    (C_PAGE, "## Archives"): [(archive((b"a.obj", b"abc"), (b"b.obj", b"four")), "a.obj: 3 bytes\nb.obj: 4 bytes\n")],
    (C_PAGE, "## Big objects"): [
        (header(0, 56, 1) + symbol(b"absolute", 9, -1, 0, 2) + b"\4\0\0\0", f"absolute: section {2 ** 32 - 1}\n"),
        (data("v1.dll"), ""),
    ],
    (C_PAGE, "## What a file says of itself"): [
        (signed(SHA256, certificate(b"\1", ISSUER, SUBJECT)), "the digest is that of the file\nAn Author\n"),
        (signed(SHA256, certificate(b"\1", ISSUER, SUBJECT), change=bytes(32)), "it is not\nAn Author\n"),
        (data("v1.dll"), ""),
    ],
    (C_PAGE, "## An image that is kept open"): [(crafted.exports([0], b"CreateFileW\0", [0x10]), "kind 0 RVA 0x10\n"), (data("v1.dll"), "")],
    (C_PAGE, "## A space over its files"): [(data("v1.dll"), "")],
    # v2.dll has one base relocation, of the field at the RVA 0x1008
    (LIBRARIES, "## From C"): [(data("v2.dll"), "relocated fields: 1\n"), (data("v1.dll")[:520], "fault 13 at 0x138\n")],
}
#: The headings of the pages below which there is no C: below some no block has to be completed.
OTHERS = {
    (C_PAGE, "## Build it"): "shell",
    (LIBRARIES, "### One image"): "Rattle",
    (LIBRARIES, "### Sets of images"): "Rattle",
    (LIBRARIES, "### Files written"): "Rattle",
    (LIBRARIES, "### Output"): "Rattle",
    (LIBRARIES, "## From Python and Rust"): "Python",
    (LIBRARIES, "## From JavaScript"): "JavaScript",
    (PACKAGE / "README.md", "# petool from Python"): "shell",
    (RUST_PAGE, "# petool for Rust"): "shell",
    (JAVASCRIPT_PAGE, "# petool for JavaScript"): "JavaScript",
}


def pieces(page: pathlib.Path) -> Iterator[Tuple[str, str]]:
    """The headings of a page that have blocks of code below them, each with all of these."""
    for part in re.split(r"^(?=#)", page.read_text(), flags=re.M):
        code = "".join(re.findall(r"^    .*\n", part, re.M))
        if code:
            yield part.split("\n", 1)[0], code


def command_of(page: pathlib.Path, first: str) -> List[str]:
    """The command of a page that begins with a word, with the library that is tested."""
    (line,) = re.findall(rf"(?:^    |`)({first} [^`\n]*petool-c[^`\n]*)", page.read_text(), re.M)
    return shlex.split(line.replace(BUILT, FOLDER))


class Blocks(unittest.TestCase):
    def setUp(self) -> None:
        self.folder = pathlib.Path(tempfile.mkdtemp())
        self.addCleanup(shutil.rmtree, self.folder)

    def run_command(self, words: List[str], **options: object) -> str:
        done = subprocess.run(words, stdout=subprocess.PIPE, stderr=subprocess.STDOUT, text=True, **options)  # type: ignore[call-overload]
        self.assertEqual(done.returncode, 0, done.stdout)
        return str(done.stdout)

    def compiled(self, program: str, page: pathlib.Path = C_PAGE) -> str:
        """A program in C, compiled as a page says, with all warnings."""
        source, made = self.folder / "program.c", str(self.folder / "program")
        source.write_text(program)
        words = [str(source) if it == "program.c" else it for it in command_of(page, "cc")]
        self.run_command([*words, "-Wall", "-Wextra", "-Werror", "-pedantic", "-o", made], cwd=TOP)
        return made

    def test_each_block_of_the_pages_is_known(self) -> None:
        found = {(page, heading) for page in (C_PAGE, LIBRARIES, PACKAGE / "README.md", RUST_PAGE, JAVASCRIPT_PAGE) for heading, _ in pieces(page)}
        self.assertEqual(found, C_PIECES.keys() | OTHERS.keys())

    def test_c(self) -> None:
        for page in (C_PAGE, LIBRARIES):
            for heading, code in pieces(page):
                if (page, heading) in C_PIECES:
                    with self.subTest(f"{page.name} {heading}"):
                        made = self.compiled(C_PROGRAM % code.rstrip("\n"))
                        for number, (file, printed) in enumerate(C_PIECES[page, heading]):
                            (self.folder / "file").write_bytes(file)
                            self.assertEqual(self.run_command([made, str(self.folder / "file")]), printed, number)

    def test_the_program_in_c_of_the_readme(self) -> None:
        made = self.compiled(blocks(README, "From C or C++")[0], README)
        # 63 bytes are too few for the MS-DOS header
        self.assertTrue(self.run_command([made]).startswith("fault 2: "))

    @unittest.skipUnless(CARGO, "left out without cargo")
    def test_the_program_in_rust_of_the_readme(self) -> None:
        (dependency,) = re.findall(r"`(petool = \{ path = [^`]*\})`", RUST_PAGE.read_text())
        (self.folder / "src").mkdir()
        (self.folder / "Cargo.toml").write_text(CARGO_TOML % dependency.replace("...", str(TOP)))
        (self.folder / "src/main.rs").write_text(RUST_PROGRAM % blocks(README, "From [Rust]")[0].rstrip("\n"))
        environment = {**os.environ, "PETOOL_LIB_DIR": FOLDER, "CARGO_TARGET_DIR": str(self.folder / "target")}
        self.run_command([str(CARGO), "build", "--offline", "--quiet"], cwd=self.folder, env=environment)
        self.assertEqual(self.run_command([str(self.folder / "target/debug/example")], cwd=TOP), "g Rva(4112)\n")


if __name__ == "__main__":
    unittest.main()
