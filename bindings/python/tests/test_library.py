"""The library: its records' layout, how it is found, and the package as a wheel."""

import ctypes
import os
import re
import shutil
import subprocess
import sys
import tempfile
import unittest

import petool
from petool import _bytes, _library, _records

from . import DATA, PACKAGE, TOP

# by their names in C
RECORDS = {re.sub("(?<=.)(?=[A-Z])", "_", name).lower(): it for name, it in vars(_records).items() if hasattr(it, "_fields_")}


def run(code, library):
    environment = {**os.environ, "PETOOL_LIBRARY": library, "PYTHONPATH": str(PACKAGE), "PYTHONDONTWRITEBYTECODE": "1"}
    return subprocess.run([sys.executable, "-c", code], env=environment, capture_output=True, text=True)


def wheel_maker():
    """A Python that can build a wheel: this one, or the system's; otherwise None."""
    for python in (sys.executable, "/usr/bin/python3"):
        words = [python, "-c", "import setuptools, wheel, pip"]
        if shutil.which(python) and subprocess.run(words, capture_output=True).returncode == 0:
            return python
    return None


WHEEL_MAKER = wheel_maker()


def pip(verb, *words):
    """Runs pip without the network and the user's settings."""
    offline = ["--isolated", "--no-index", "--no-deps", "--quiet", "--disable-pip-version-check"]
    found = subprocess.run([WHEEL_MAKER, "-m", "pip", verb, *offline, *words], capture_output=True, text=True)
    if found.returncode != 0:
        raise AssertionError(f"pip {verb} fails: {found.stderr}")


class Library(unittest.TestCase):
    def test_layout(self):
        numbers = (TOP / "bindings" / "c" / "petool.h").read_text()
        sizes = dict(re.findall(r"^PETOOL_SIZE\(petool_(\w+), (\d+)\)", numbers, re.M))
        self.assertEqual(sorted(sizes), sorted([*RECORDS, *_bytes.LAYOUTS]))
        for name, record in RECORDS.items():
            self.assertEqual(ctypes.sizeof(record), int(sizes[name]), name)
            places = re.findall(rf"PETOOL_AT\(petool_{name}, (\w+), (\d+)\)", numbers)
            self.assertEqual([(field, getattr(record, field).offset) for field, _ in record._fields_],
                             [(field, int(place)) for field, place in places])
        for name, row in _bytes.LAYOUTS.items():
            self.assertEqual(row.size, int(sizes[name]), name)

    def test_version(self):
        self.assertEqual(petool.version(), "2.0")
        known = [0x20000, 0x20001]
        self.assertEqual([it for it in (0x10000, 0x1FFFF, 0x20000, 0x20001, 0x30000) if _library.is_known(it)], known)

    def test_no_library(self):
        found = run("import petool", "/dev/null")
        self.assertIn("ImportError: no libpetool at /dev/null", found.stderr)

    def test_another_library(self):
        found = run("import petool", "libc.so.6")
        self.assertIn("ImportError", found.stderr)

    @unittest.skipUnless(WHEEL_MAKER, "left out without wheel: no Python with pip, setuptools and wheel is here")
    def test_wheel(self):
        with tempfile.TemporaryDirectory() as folder:
            source, installed = os.path.join(folder, "source"), os.path.join(folder, "installed")
            shutil.copytree(PACKAGE, source, ignore=shutil.ignore_patterns("tests", "__pycache__"))
            shutil.copy(_library.library._name, os.path.join(source, "petool", "libpetool.so.2"))
            pip("wheel", "--no-build-isolation", "-w", folder, source)
            made = [it for it in os.listdir(folder) if it.endswith(".whl")]
            self.assertEqual(made, ["petool-2.0-py3-none-linux_x86_64.whl"])
            pip("install", "--target", installed, os.path.join(folder, made[0]))
            environment = {it: value for it, value in os.environ.items() if it != "PETOOL_LIBRARY"}
            environment["PYTHONPATH"] = installed
            code = f"import petool; print(petool.open({str(DATA / 'vb.dll')!r}).exports['g'], petool._library.library._name)"
            out = subprocess.run([sys.executable, "-c", code], cwd=folder, env=environment, capture_output=True, text=True)
            self.assertEqual(out.stdout, f"Rva(rva=4112) {installed}/petool/libpetool.so.2\n", out.stderr)
