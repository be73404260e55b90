"""Tests what bindings/test does if a machine lacks something, over a small repository whose parts print what they leave out."""

import os
import pathlib
import shutil
import subprocess
import sys
import tempfile
import unittest

BINDINGS = pathlib.Path(__file__).resolve().parents[2] / "bindings"
TOOLS = "awk cat cksum cut dirname env grep head id make mkdir rm sed sh sort tail tr".split()
PASSED = "#!/bin/sh\necho '1 passed, 0 failed'\n"
CARGO = "#!/bin/sh\necho 'test result: ok. 1 passed; 0 failed; 0 ignored'\n"
NODE = "#!/bin/sh\necho '# pass 1'\necho '# fail 0'\n"
UNIT = """import os, unittest
class Test(unittest.TestCase):
    def test_runs(self): pass
    @unittest.skipIf(os.environ.get("SKIPS"), os.environ.get("SKIPS"))
    def test_may_be_left_out(self): pass
"""
# the part in C leaves out what a variable names
MAKEFILE = "test:\n\t@[ -z \"$$LACKS\" ] || echo \"each: left out without $$LACKS\"; echo '1 passed, 0 failed'\n"
SCRIPTS = (
    "describe/describe.py", "scripts/crates_svg.py", "scripts/file_rows.py", "scripts/docs_check.py",
    "scripts/wrong_bodies.py", "bindings/examples", "program",
)
# what `make page` makes
WEB = ("js/petool32.wasm", "page/petool.html")


class LeftOut(unittest.TestCase):
    def setUp(self):
        self.room = pathlib.Path(tempfile.mkdtemp())
        self.addCleanup(shutil.rmtree, self.room)
        self.top, self.tools = self.room / "top", self.room / "tools"
        self.write("top/bindings/test", (BINDINGS / "test").read_text())
        self.write("top/bindings/c/Makefile", MAKEFILE)
        for name in SCRIPTS:
            self.write(f"top/{name}", PASSED)
        self.write("top/scripts/tests/test_unit.py", UNIT)
        self.write("top/bindings/python/test_unit.py", UNIT)
        self.write("top/bindings/rust/Cargo.toml", "")
        self.write("tools/cargo", CARGO)
        self.write("tools/node", NODE)
        for name in WEB:
            self.write(f"web/{name}", "")
        # a linked Python would look for its library next to the link
        self.write("tools/python3", f'#!/bin/sh\nexec "{sys.executable}" "$@"\n')
        for name in TOOLS:
            (self.tools / name).symlink_to(shutil.which(name))

    def write(self, name, text):
        file = self.room / name
        file.parent.mkdir(parents=True, exist_ok=True)
        file.write_text(text)
        file.chmod(0o755)

    def run_test(self, *words, **variables):
        """The status, and what is printed."""
        program = str(self.top / "program")
        environment = {"PATH": str(self.tools), "O": str(self.room / "made"), "PETOOL_PROGRAM": program, "PETOOL_BENCHMARK": program}
        environment["PETOOL_WEB"] = str(self.room / "web")
        environment.update(variables)
        run = subprocess.run(["sh", self.top / "bindings" / "test", *words], env=environment, capture_output=True, text=True)
        return run.returncode, run.stdout + run.stderr

    def assert_left_out(self, lack, line, **variables):
        """Asserts that what is left out without a thing has failed, unless just that may be missing, and is named in both cases."""
        status, said = self.run_test(**variables)
        self.assertEqual((status, f"{line.partition(': ')[0]}: failed: {line.partition(': ')[2]}" in said.splitlines()), (1, True), said)
        self.assertRegex(said.splitlines()[-1], r"^\d+ passed, [1-9]\d* failed$")
        status, said = self.run_test("--without", "wheel", "--without", lack, **variables)
        self.assertEqual((status, line in said.splitlines()), (0, True), said)
        self.assertRegex(said.splitlines()[-1], r"^\d+ passed, 0 failed$")
        status, said = self.run_test("--without", "wheel", **variables)
        self.assertEqual(status, 1, said)

    def test_where_nothing_is_missing_all_is_run(self):
        status, said = self.run_test()
        self.assertEqual((status, said.splitlines()[-1], "left out" in said), (0, "17 passed, 0 failed", False), said)

    def test_what_may_be_missing_is_run_where_it_is_there(self):
        status, said = self.run_test("--without", "cargo,mypy", "--without", "program")
        self.assertEqual((status, said.splitlines()[-1]), (0, "17 passed, 0 failed"), said)

    def test_a_program_that_is_not_there(self):
        line = "what compares with the program: left out without program: there is no /none"
        self.assert_left_out("program", line, PETOOL_PROGRAM="/none")
        line = "what the benchmark counts: left out without program: there is no /none"
        self.assert_left_out("program", line, PETOOL_BENCHMARK="/none")

    def test_a_library_that_was_proved_elsewhere(self):
        line = "wrong bodies: left out without kit: CALLS names a library that was proved elsewhere"
        self.assert_left_out("kit", line, CALLS="/none.a")

    def test_a_command_that_is_not_there(self):
        (self.tools / "cargo").unlink()
        self.assert_left_out("cargo", "Rust: left out without cargo")

    def test_node_or_what_it_runs_that_is_not_there(self):
        line = "JavaScript and the page: left out without module: `make page` has made none in /none"
        self.assert_left_out("module", line, PETOOL_WEB="/none")
        (self.tools / "node").unlink()
        self.assert_left_out("node", "JavaScript and the page: left out without node")

    def test_what_the_part_in_c_lacks(self):
        for lack in ("c++", "valgrind"):
            with self.subTest(lack=lack):
                self.assert_left_out(lack, f"C: each: left out without {lack}", LACKS=lack)

    def test_what_a_test_in_python_lacks(self):
        for lack in ("bash", "mypy"):
            with self.subTest(lack=lack):
                status, said = self.run_test(SKIPS=f"left out without {lack}")
                self.assertEqual((status, said.splitlines()[-1]), (1, "15 passed, 2 failed"), said)
                status, said = self.run_test("--without", lack, SKIPS=f"left out without {lack}")
                self.assertEqual((status, said.count(f"skipped 'left out without {lack}'")), (0, 2), said)

    def test_a_test_in_python_that_is_skipped_for_another_reason(self):
        status, said = self.run_test(SKIPS="it is slow")
        self.assertEqual((status, said.splitlines()[-1]), (1, "15 passed, 2 failed"), said)

    def test_python_is_wanted(self):
        (self.tools / "python3").unlink()
        status, said = self.run_test()
        self.assertEqual((status, "Python: failed: left out without python3" in said), (1, True), said)
        self.assertEqual(self.run_test("--without", "python3")[0], 2)

    def test_a_bad_word_is_told(self):
        for words in (["--without"], ["--without", ""], ["--without", "awk"], ["--without", "cargo,awk"], ["--without", "cargo,"], ["cargo"]):
            with self.subTest(words=words):
                status, said = self.run_test(*words)
                self.assertEqual((status, said[:6]), (2, "usage:"), said)

    def test_a_compiler_of_cxx_that_is_not_there_is_told(self):
        if not (shutil.which("make") and shutil.which("cc")):
            self.skipTest("left out without make")
        words = ["make", "-C", BINDINGS / "c", f"O={self.room}", "CXX=nowhere", self.room / "header"]
        environment = {name: value for name, value in os.environ.items() if name not in ("MAKEFLAGS", "MAKELEVEL")}
        run = subprocess.run(words, env=environment, capture_output=True, text=True)
        self.assertEqual((run.returncode, "left out without c++" in run.stdout), (0, True), run.stdout + run.stderr)


if __name__ == "__main__":
    unittest.main()
