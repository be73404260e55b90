"""The sources: they are valid in Python 3.9, the oldest that the package supports, and their types are right."""

import ast
import os
import subprocess
import unittest

from . import PACKAGE

OLDEST = (3, 9)
MYPY = ["mypy", "--python-version", ".".join(map(str, OLDEST)), "--cache-dir", os.devnull]


def has_mypy():
    """Whether mypy runs and supports the oldest Python: later versions do not, and the command may be a wrapper without mypy."""
    try:
        return subprocess.run([*MYPY, "-c", "pass"], capture_output=True).returncode == 0
    except OSError:
        return False


class Source(unittest.TestCase):
    def test_syntax_of_the_oldest_python(self):
        files = sorted(PACKAGE.rglob("*.py"))
        self.assertIn(PACKAGE / "petool" / "__init__.py", files)
        for file in files:
            with self.subTest(file=file):
                ast.parse(file.read_text(), str(file), feature_version=OLDEST)

    @unittest.skipUnless(has_mypy(), "left out without mypy: none is here that knows the oldest Python")
    def test_types(self):
        # mypy knows the standard library of that Python, so it also finds names of later versions
        words = [*MYPY, "--strict", "petool", "examples"]
        environment = {**os.environ, "MYPYPATH": str(PACKAGE)}
        found = subprocess.run(words, cwd=PACKAGE, env=environment, capture_output=True, text=True)
        self.assertEqual(found.returncode, 0, found.stdout + found.stderr)
