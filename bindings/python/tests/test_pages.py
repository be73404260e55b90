"""The examples in Python on the pages, run as the pages say, in a shell where PYTHONPATH and PETOOL_LIBRARY are not set; and what they show
of the program, where they name the folder with its files, or show how a shell runs it."""

import os
import re
import shlex
import pathlib
import shutil
import subprocess
import sys
import tempfile
import unittest

from petool import _library

from . import DATA, PACKAGE, TOP

PROGRAM = os.environ.get("PETOOL_PROGRAM")
#: The library that the pages build.
BUILT = "/tmp/petool-c/libpetool.so.2"


def blocks(page, heading):
    """The indented blocks of a page after some words."""
    text = page.read_text()
    return [re.sub("^    ", "", it, flags=re.M) for it in re.findall(r"(?:^    .*\n)+", text[text.index(heading) :], re.M)]


def run(script):
    """What a shell prints for a script at the top of the repository, with this library in place of the one that is built there."""
    environment = {name: value for name, value in os.environ.items() if name not in ("PYTHONPATH", "PETOOL_LIBRARY")}
    python = os.path.dirname(sys.executable)
    environment.update(PATH=f"{python}:{environment['PATH']}", PYTHONDONTWRITEBYTECODE="1")
    script = script.replace(BUILT, shlex.quote(os.path.abspath(_library.library._name)))
    return subprocess.run(["sh", "-e", "-c", script], cwd=TOP, env=environment, capture_output=True, text=True)


class Pages(unittest.TestCase):
    def assert_prints(self, script, text):
        done = run(script)
        self.assertEqual((done.stdout, done.stderr, done.returncode), (text, "", 0))

    def test_the_readme_of_the_package(self):
        script, printed = blocks(PACKAGE / "README.md", "At the top of the repository,")[:2]
        # the library is built
        made, rest = script.split("\n", 1)
        self.assertEqual(made, f"make -C bindings/c O={os.path.dirname(BUILT)}")
        self.assert_prints(rest, printed)

    def test_the_readme_of_the_repository(self):
        text = (TOP / "README.md").read_text()
        (setting,) = re.findall(r"^From \[Python\]\(.*\), after `(export .*)` at the top of the repository:$", text, re.M)
        program = blocks(TOP / "README.md", "From [Python]")[0]
        printed = "0x20000000 b'.edata'\nRva(rva=4112) b'\\x00\\x00\\x00\\x00'\n"
        self.assert_prints(f"{setting}\npython3 - <<'END'\n{program}END\n", printed)

    def test_the_page_of_libraries(self):
        (setting,) = re.findall(r"^export .*$", "".join(blocks(PACKAGE / "README.md", "At the top")), re.M)
        program = blocks(TOP / "docs" / "LIBRARIES.md", "## From Python and Rust")[0].replace("zlib1.dll", str(DATA / "vc.dll"))
        self.assert_prints(f"{setting}\npython3 - <<'END'\nimport petool\n{program}END\n", "b'A.DLL' b'f' 0x1030\n")

    def test_each_example_has_help_where_the_page_says_how_to_run_it(self):
        (setting,) = re.findall(r"^export .*$", "".join(blocks(PACKAGE / "README.md", "At the top")), re.M)
        for example in sorted((PACKAGE / "examples").glob("*.py")):
            done = run(f"{setting}\n{example} --help")
            self.assertEqual((done.returncode, done.stderr, done.stdout[:6]), (0, "", "usage:"), example)


def runs(page):
    """What a page shows of the program: the folder in which it runs, what the shell is told, and what is printed."""
    for paragraph, block in re.findall(r"^(\S.*)\n\n((?:    .*\n)+)", page.read_text(), re.M):
        folder = re.search(r"\b[Ii]n `(crates/[\w/]+)`", paragraph)
        lines = [line[4:] for line in block.splitlines()]
        told = [line[2:] for line in lines if line.startswith("$ ")] or re.findall(r"`(petool [^`]*)`", paragraph)
        if folder or lines[0].startswith("$ "):
            yield TOP / folder[1] if folder else TOP, told, [line for line in lines if not line.startswith("$ ")]


@unittest.skipUnless(PROGRAM, "left out without program: PETOOL_PROGRAM names none")
class Shown(unittest.TestCase):
    def setUp(self):
        self.room = pathlib.Path(tempfile.mkdtemp())
        self.addCleanup(shutil.rmtree, self.room)
        (self.room / "bin").mkdir()
        (self.room / "bin/petool").symlink_to(os.path.abspath(PROGRAM))

    def printed(self, folder, script):
        """What a shell prints in a folder that has what this folder has."""
        work = pathlib.Path(tempfile.mkdtemp(dir=self.room))
        for it in folder.iterdir():
            (work / it.name).symlink_to(it)
        environment = {**os.environ, "PATH": f"{self.room / 'bin'}:{os.environ['PATH']}"}
        done = subprocess.run(["sh", "-c", script], cwd=work, env=environment, stdout=subprocess.PIPE, stderr=subprocess.STDOUT, text=True)
        return done.stdout.splitlines()

    def test_what_the_guide_and_the_readme_show_of_the_program(self):
        for page, count in (("docs/GUIDE.md", 5), ("README.md", 1)):
            found = list(runs(TOP / page))
            self.assertEqual(len(found), count, page)
            for folder, told, lines in found:
                with self.subTest(page=page, told=told):
                    self.assertEqual(self.printed(folder, "\n".join(told)), lines)


if __name__ == "__main__":
    unittest.main()
