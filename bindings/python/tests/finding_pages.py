"""What tests of findings share: the program over a file, the parts of a page, and a test for lists of files with and without a finding."""

import os
import pathlib
import re
import tempfile

from .cases import run

PROGRAM = os.environ.get("PETOOL_PROGRAM")
TOP = pathlib.Path(__file__).resolve().parents[3]


def words_of():
    """The words of each finding, as describe/faults.txt has them."""
    rows = re.findall(r"^  (\d+) ([^:]+): (.+)$", (TOP / "describe/faults.txt").read_text(), re.M)
    return {int(number): (subject, rule) for number, subject, rule in rows}


class OverFiles:
    """A test of what the program does with files, in a folder of its own."""

    maxDiff = None

    def setUp(self):
        folder = tempfile.TemporaryDirectory()
        self.addCleanup(folder.cleanup)
        self.folder = pathlib.Path(folder.name)

    def petool(self, file, *words):
        """What the program does with these words in a folder in which `a` is the file."""
        (self.folder / "a").write_bytes(file)
        return run([PROGRAM, *words], cwd=self.folder)


class FindingPages(OverFiles):
    """Tests of FOUND, which has a number, a file with this one finding, and its RVA for each number in one of the ranges NUMBERS, and of
    SOUND, files without a finding."""

    NUMBERS = FOUND = SOUND = ()

    def parts(self, file, *options):
        """The parts of the page of a file, which is accepted, by their headings."""
        done = self.petool(file, "show", *options, "a")
        self.assertEqual((done.stderr, done.returncode), (b"", 0))
        blocks = [block.split("\n") for block in done.stdout.decode().strip("\n").split("\n\n")]
        return {block[0]: block[1:] for block in blocks}

    def test_each_finding_has_a_file(self):
        words = words_of()
        self.assertEqual({it[0] for it in self.FOUND}, {number for number in words if any(number in it for it in self.NUMBERS)})
        for number, file, rva in self.FOUND:
            with self.subTest(number):
                subject, rule = words[number]
                self.assertEqual(self.parts(file).get("Findings (1)"), [f"  {number}  {subject} at RVA 0x{rva:x}: {rule}"])

    def test_files_without_a_finding(self):
        for number, file in enumerate(self.SOUND):
            with self.subTest(number):
                self.assertEqual([heading for heading in self.parts(file, "--all") if heading.startswith("Findings")], [])
