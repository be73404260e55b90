"""Tests scripts/file_rows.py over a small repository: each kind of difference is reported, and nothing once it is undone."""

import pathlib
import shutil
import subprocess
import sys
import tempfile
import unittest

SCRIPTS = pathlib.Path(__file__).resolve().parents[1]
FILES = {
    "crates.txt": "high: low bytes\nlow: bytes\n",
    "docs/MAP.md": "# Map\n\n<!-- from crates.txt -->\n<!-- end of crates.txt -->\nMore.\n",
    "docs/PROVED.md": "# Proved\n\n<!-- from the laws of the crates -->\n<!-- end of the laws of the crates -->\n",
    "docs/TESTS.md": "# Tests\n\n<!-- from the wrong bodies of the crates -->\n<!-- end of the wrong bodies of the crates -->\n",
    "crates/low/src/laws.rt": "//! Laws.\n\n/// [`Bytes`](crate::Bytes)\n/// last.\npub fn bytes_last()\n{}\n",
    "crates/low/src/lib.rt": "//! Bytes of\n//! a file.\n//!\n//! More.\n\nmod view;\npub use view::View;\n",
    "crates/low/src/view/first.rt": "//! The first byte.\n",
    "crates/low/src/view.rt": "//! [`View`]: one|another.\n\npub struct View {}\n\npub(crate) fn inside() {}\n\nfn own() {}\n",
    "crates/low/specs/Lib.antt": "pub mod View\n",
    "crates/low/specs/View.antt": "-- What a view\n-- shows.\nuse Rattle.bytes.specs.Bytes.{Bytes}\n\nabbrev pub bytes : N\n\n-- whether it is there\npub record IsHere : T where\n",
    "crates/low/proofs/Lemmas.antt": "-- Lemmas on views.\n\npub view-ends : X\n",
    "crates/low/proofs/view/Answers.antt": "",
    "crates/low/must-fail/bytes_go_last.edit": "",
    "crates/low/must-fail/a_byte_is_lost.edit": "",
    "crates/low/wrong/a_byte_is_added.edit": "",
    "crates/high/src/main.rt": "//! The program.\n\nuse bytes::Bytes;\nuse low::View;\n\nfn main() {}\n",
    "bindings/rust/src/lib.rs": "//! All\n//! calls.\n//!\n//! More.\n",
    "bindings/rust/target/made.rs": "",
    "bindings/c/calls.c": "/*\n * Each\n * call.\n *\n * More.\n */\nint x;\n",
    "bindings/c/calls.h": "/* What is\n * shared. */\nint x;\n",
}
VIEW, SPEC, LEMMAS = "crates/low/src/view.rt", "crates/low/specs/View.antt", "crates/low/proofs/Lemmas.antt"
ROWS = [
    "| crates/low/src/view.rt | `View`: one\\|another. | `View` (`inside`) |",
    "| crates/low/specs/View.antt | What a view shows. | `bytes`, `IsHere` |",
    "| crates/low/proofs/Lemmas.antt | Lemmas on views. | `view-ends` |",
    "| crates/low/must-fail/a_byte_is_lost.edit | A wrong body that the prover refuses. | |",
    "| crates/low/wrong/a_byte_is_added.edit | A wrong body that the prover refuses. | |",
    "| bindings/rust/src/lib.rs | All calls. |  |",
    "| bindings/c/calls.c | Each call. |  |",
    "| bindings/c/calls.h | What is shared. |  |",
]
CRATES = """<!-- from crates.txt -->
| Crate | What it is for | Uses | Ported crates |
|---|---|---|---|
| `low` | Bytes of a file |  | bytes |
| `high` | The program | `low` | bytes |
<!-- end of crates.txt -->
"""
LAWS = """<!-- from the laws of the crates -->

Of `low`:

- `bytes_last`: `Bytes` last.

<!-- end of the laws of the crates -->
"""
EDITS = """<!-- from the wrong bodies of the crates -->
There are 3 in 1 crates; `rt ci` tries 2, and `bindings/test` 1.

| Crate | `rt ci` tries | `bindings/test` tries |
|---|---|---|
| `low` | a byte is lost; bytes go last | a byte is added |
<!-- end of the wrong bodies of the crates -->
"""
TESTS = "docs/TESTS.md: it is not what scripts/file_rows.py writes"
MAP = "docs/MAP.md: it is not what scripts/file_rows.py writes"
PROVED = "docs/PROVED.md: it is not what scripts/file_rows.py writes"
#: The changes: the file, its new contents, or none if it is removed, and what is then printed.
CHANGES = [
    (VIEW, "pub struct View {}\n", f"{VIEW}: no first line says what the file holds"),
    (SPEC, "use X\n", f"{SPEC}: no first line says what the file holds"),
    (LEMMAS, "use X\n", f"{LEMMAS}: no first line says what the file holds"),
    ("scripts/more.py", "import sys\n", "scripts/more.py: no first line says what the file holds"),
    ("bindings/c/calls.c", "int x;\n", "bindings/c/calls.c: no first line says what the file holds"),
    ("bindings/rust/src/more.rs", "use x;\n", "bindings/rust/src/more.rs: no first line says what the file holds"),
    ("crates/low/proofs/More.antt", "use X\n", "crates/low/proofs/More.antt: no first line says what the file holds"),
    ("crates/low/must-fail/bytes_go_last.edit", None, TESTS),
    ("crates/low/must-fail/bytes_go_first.edit", "", TESTS),
    ("crates/low/wrong/bytes_go_first.edit", "", TESTS),
    ("docs/TESTS.md", EDITS.replace("bytes go last", "bytes go first"), TESTS),
    ("docs/TESTS.md", "# Tests\n", "docs/TESTS.md: it cannot be written: there are no two comments with the wrong bodies of the crates"),
    ("crates.txt", "high: low\nlow: bytes\n", MAP),
    ("crates/high/src/main.rt", "//! The program.\n\nuse bytes::Bytes;\nuse lows::View;\n", "crates.txt: high does not name low"),
    ("crates/low/src/lib.rt", "//! Other.\n", MAP),
    ("docs/MAP.md", CRATES.replace("`low` | bytes", "`low` | "), MAP),
    ("docs/MAP.md", "# Map\n", "docs/MAP.md: it cannot be written: there are no two comments with crates.txt"),
    ("crates/low/src/laws.rt", "//! Laws.\n\n/// Bytes stay.\npub fn bytes_last()\n{}\n", PROVED),
    ("crates/low/src/laws.rt", "//! Laws.\n\npub fn bytes_last()\n{}\n", "no comment says what bytes_last means"),
    ("docs/PROVED.md", LAWS.replace("last.", "stay."), PROVED),
]


class Rows(unittest.TestCase):
    def setUp(self):
        self.top = pathlib.Path(tempfile.mkdtemp())
        self.addCleanup(shutil.rmtree, self.top)
        for path, text in FILES.items():
            self.put(path, text)
        for folder in ("scripts", "describe"):
            (self.top / folder).mkdir()
        for name in ("file_rows.py", "crates_svg.py"):
            shutil.copy(SCRIPTS / name, self.top / "scripts")
        self.run_script()

    def put(self, path, text):
        (self.top / path).parent.mkdir(parents=True, exist_ok=True)
        (self.top / path).write_text(text)

    def run_script(self, *words):
        command = [sys.executable, self.top / "scripts/file_rows.py", *words]
        ran = subprocess.run(command, stdout=subprocess.PIPE, stderr=subprocess.STDOUT, text=True)
        return ran.returncode, ran.stdout

    def pages(self):
        return [(self.top / "docs" / name).read_text() for name in ("MAP.md", "PROVED.md", "TESTS.md")]

    def test_rows_have_first_comments_and_names(self):
        before = self.pages()
        status, output = self.run_script("--whole")
        self.assertEqual((status, self.pages()), (0, before))
        for row in ROWS:
            self.assertIn(row, output.splitlines())

    def test_pages_have_the_crates_the_laws_and_the_wrong_bodies(self):
        self.assertEqual((self.top / "docs/MAP.md").read_text(), f"# Map\n\n{CRATES}More.\n")
        self.assertEqual((self.top / "docs/PROVED.md").read_text(), f"# Proved\n\n{LAWS}")
        self.assertEqual((self.top / "docs/TESTS.md").read_text(), f"# Tests\n\n{EDITS}")

    def test_another_word_writes_nothing(self):
        (self.top / "docs/TESTS.md").write_text("old\n")
        status, output = self.run_script("--rows")
        self.assertEqual((status, output[:6], self.pages()[-1]), (2, "usage:", "old\n"))

    def test_a_page_that_was_just_written_passes(self):
        self.assertEqual(self.run_script("--check"), (0, "16 passed, 0 failed\n"))

    def test_each_difference_is_said(self):
        for path, text, said in CHANGES:
            with self.subTest(said):
                file = self.top / path
                before = file.read_text() if file.exists() else None
                file.unlink() if text is None else self.put(path, text)
                status, output = self.run_script("--check")
                file.unlink() if before is None else self.put(path, before)
                self.assertEqual((status, said in output), (1, True), output)
                self.assertRegex(output, r"\n\d+ passed, [123] failed\n\Z")
        self.assertEqual(self.run_script("--check")[0], 0)

    def test_a_row_too_many_is_said(self):
        self.put("docs/TESTS.md", self.pages()[-1].replace("<!-- end", "| `gone` | a byte is gone |  |\n<!-- end"))
        status, output = self.run_script("--check")
        self.assertEqual((status, output), (1, f"{TESTS}\n15 passed, 1 failed\n"))


if __name__ == "__main__":
    unittest.main()
