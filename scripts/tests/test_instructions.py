"""Tests bench/instructions over a stand-in for valgrind, which tells as many instructions as it is asked to."""

import os
import pathlib
import shutil
import subprocess
import tempfile
import unittest

BENCH = pathlib.Path(__file__).resolve().parents[2] / "bench"
# tells the number that the variable named by the workload has, or ends as a program that was not run
VALGRIND = """#!/bin/sh
shift 2
"$@" || exit
eval echo "==1== Collected : \\$$2" >&2
"""
STORED = "# a comment\nmap 3 100.0\nopen 1 200.0\n"


class Instructions(unittest.TestCase):
    def setUp(self):
        folder = tempfile.TemporaryDirectory()
        self.addCleanup(folder.cleanup)
        self.folder = pathlib.Path(folder.name)
        for name in ("instructions", "counting.py"):
            shutil.copy(BENCH / name, self.folder)
        self.figures = self.folder / "instructions.txt"
        self.figures.write_text(STORED)
        self.write("valgrind", VALGRIND)
        self.write("pe_bench", f"#!/bin/sh\necho \"$@\" >>{self.folder}/runs\n")

    def write(self, name, text):
        (self.folder / name).write_text(text)
        (self.folder / name).chmod(0o755)

    def run_with(self, *words, **counted):
        env = {**os.environ, "PATH": f"{self.folder}:{os.environ['PATH']}", **counted}
        command = [self.folder / "instructions", *words, self.folder / "pe_bench"]
        return subprocess.run(command, env=env, capture_output=True, text=True, check=False)

    def test_equal_counts_pass(self):
        done = self.run_with(map="100000000", open="200000000")
        self.assertEqual(done.returncode, 0, done.stderr)
        self.assertEqual((self.folder / "runs").read_text(), "map 3 1\nopen 1 1\n")

    def test_two_percent_pass_and_more_fails_either_way(self):
        for counted, status, told in (("204000000", 0, "+2.00"), ("204100000", 1, "+2.05"), ("195900000", 1, "-2.05")):
            with self.subTest(counted):
                done = self.run_with(map="100000000", open=counted)
                self.assertEqual(done.returncode, status, done.stderr)
                self.assertIn(told, done.stdout)
        self.assertEqual(self.figures.read_text(), STORED)

    def test_new_figures_are_stored_when_asked(self):
        self.assertEqual(self.run_with("--store", map="90049000", open="200000000").returncode, 0)
        self.assertEqual(self.figures.read_text(), "# a comment\nmap 3 90.0\nopen 1 200.0\n")

    def test_a_workload_that_was_not_run_stops_it(self):
        self.write("pe_bench", "#!/bin/sh\nexit 1\n")
        done = self.run_with(map="100000000", open="200000000")
        self.assertNotEqual(done.returncode, 0)
        self.assertNotIn("open", done.stdout)


if __name__ == "__main__":
    unittest.main()
