"""Tests scripts/crates_svg.py over a small repository."""

import pathlib
import re
import shutil
import subprocess
import sys
import tempfile
import unittest

DRAW = pathlib.Path(__file__).resolve().parents[1] / "crates_svg.py"
CRATES = "low: bytes\nmiddle: low\ntop: low middle\n"
PAGES = {
    "low": "//! Bytes. And more.\n",
    "middle": "//! What `middle` is, at a length for which a block has no room: one clause, and then another one, and one more,\n"
    "//! and at last the one that is too long by far for four lines of thirty columns each.\n//!\n//! More.\n",
    "top": "//! The top & its rest.\n",
}


class Drawing(unittest.TestCase):
    def setUp(self):
        self.top = pathlib.Path(tempfile.mkdtemp())
        self.addCleanup(shutil.rmtree, self.top)
        for folder in ("scripts", "docs"):
            (self.top / folder).mkdir()
        shutil.copy(DRAW, self.top / "scripts")
        (self.top / "crates.txt").write_text(CRATES)
        for name, page in PAGES.items():
            (self.top / "crates" / name / "src").mkdir(parents=True)
            (self.top / "crates" / name / "src" / "lib.rt").write_text(page)
        self.draw()

    def draw(self, *words):
        return subprocess.run([sys.executable, self.top / "scripts" / "crates_svg.py", *words], stdout=subprocess.PIPE).returncode

    def picture(self):
        return (self.top / "docs" / "crates.svg").read_text()

    def test_a_drawing_that_was_just_made_passes(self):
        self.assertEqual(self.draw("--check"), 0)

    def test_a_crate_more_or_another_first_page_fails(self):
        (self.top / "crates" / "low" / "src" / "lib.rt").write_text("//! Other bytes.\n")
        self.assertEqual(self.draw("--check"), 1)
        self.draw()
        (self.top / "crates.txt").write_text(CRATES.replace("top: low middle", "top: low"))
        self.assertEqual(self.draw("--check"), 1)

    def test_a_line_leads_only_to_what_no_other_line_leads_to(self):
        self.assertEqual(self.picture().count("<line "), 2)

    def test_captions_are_cut_at_a_clause(self):
        texts = re.findall(r'font-size="11">([^<]*)<', self.picture())
        self.assertIn("Bytes", texts)
        self.assertIn("The top &amp; its rest", texts)
        self.assertTrue(all(len(it) <= 30 for it in texts), texts)
        self.assertLessEqual(len(texts), 2 + 4)
        self.assertNotIn("..", "".join(texts))


if __name__ == "__main__":
    unittest.main()
