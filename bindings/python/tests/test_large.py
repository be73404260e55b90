"""Files that are larger than any image or object may be, and long ones that are neither: each command refuses them by their size or
their first bytes, in little memory and without reading on. The files have zeros at their end that take no room on the disk."""

import json
import os
import pathlib
import resource
import subprocess
import tempfile
import unittest

from . import data
from .files import library

PROGRAM = os.environ.get("PETOOL_PROGRAM")

#: A library that has no fault.
LIBRARY = library([b""])

#: The size of a file that is too large, and the first that is.
SIZE, LEAST = 5 << 30, (1 << 32) + 1

#: First bytes, the kind that they show of a file that is refused as an image, and whether they begin an object.
BEGINNINGS = {
    "zeros": (b"", None),
    "image": (LIBRARY, None),
    "ELF": (b"\x7fELF", "ELF file"),
    "text": (b"text\n", None),
    "object": (data("o1.obj"), "COFF object"),
}

#: The commands over one file. Those that check a file as an object if it begins like one, and the one that checks all so.
COMMANDS = ("check", "dump", "show", "json", "at", "object", "sum", "map", "rebase")
BY_KIND, OBJECT = ("show", "json", "at"), "object"

#: The bytes of address space that are enough, and of which no more than a few are read.
MEMORY, READ = 1 << 28, 1 << 16


def line(number, place, image=0):
    """The line of a fault at a file offset."""
    return b"fault %d image %d file 0x%08x\n" % (number, image, place)


@unittest.skipUnless(PROGRAM, "left out without program: PETOOL_PROGRAM names none")
class Large(unittest.TestCase):
    """The program over files in a folder of their own."""

    def setUp(self):
        folder = tempfile.TemporaryDirectory()
        self.addCleanup(folder.cleanup)
        self.folder = pathlib.Path(folder.name)
        self.path = self.folder / "a.dll"
        self.target = self.folder / "b.dll"

    def write(self, begin, size, name="a.dll"):
        """A file in the folder."""
        path = self.folder / name
        path.write_bytes(begin)
        os.truncate(path, size)
        return path

    def run_on(self, *words):
        """Its status and its outputs. It ends soon, in little memory, and reads little, which the system counts."""
        with subprocess.Popen(
            [PROGRAM, *words],
            stdin=subprocess.DEVNULL,
            stdout=subprocess.PIPE,
            stderr=subprocess.PIPE,
            preexec_fn=lambda: resource.setrlimit(resource.RLIMIT_AS, (MEMORY, MEMORY)),
        ) as process:
            printed, complained = process.stdout.read(), process.stderr.read()
            os.waitid(os.P_PID, process.pid, os.WEXITED | os.WNOWAIT)
            counted = dict(it.split(": ") for it in pathlib.Path(f"/proc/{process.pid}/io").read_text().splitlines())
        self.assertLess(int(counted["rchar"]), READ, words)
        return process.returncode, printed, complained

    def run_command(self, command):
        words = {"at": ("at", self.path, "1000"), "map": ("map", f"10000000={self.path}"), "rebase": ("rebase", "20000000", self.path, self.target)}
        return self.run_on(*words.get(command, (command, self.path)))

    def assert_refused(self, command, number, place, kind, size):
        """The outputs of a command for the file, which is refused by a fault. The line of JSON has the kind of the file, a page its
        size."""
        status, printed, complained = self.run_command(command)
        self.assertEqual(status, 1)
        if command == "json":
            told = json.loads(printed)
            self.assertEqual((told["fault"]["number"], told["fault"]["place"], told.get("kind")), (number, {"file": place}, kind))
            self.assertFalse(told["accepted"])
            self.assertNotIn("headers", told)
        elif command == "show":
            title, empty, fault = printed.splitlines()
            what = b"COFF object, " if number == 61 else b""
            self.assertEqual((title, empty), (b"%s: refused: %s%s bytes" % (bytes(self.path), what, format(size, ",").encode()), b""))
            self.assertTrue(fault.startswith(b"Fault %d: " % number), fault)
        else:
            self.assertEqual(printed, (b"%s: " % bytes(self.path) if command == "sum" else b"") + line(number, place))
            self.assertTrue(complained.startswith(b"petool: %s: " % bytes(self.path)), complained)
        told = complained if command not in ("json", "show") else printed
        if kind is not None:
            self.assertIn(kind.encode(), told)

    def test_each_command_refuses_a_file_that_is_too_large(self):
        for size in (LEAST, SIZE):
            for begin, kind in BEGINNINGS.values():
                self.write(begin, size)
                for command in COMMANDS:
                    is_object = command == OBJECT or (command in BY_KIND and kind == "COFF object")
                    shown = None if is_object and kind == "COFF object" else kind
                    with self.subTest(command=command, size=size, begin=begin[:4]):
                        if command == OBJECT and begin == LIBRARY:
                            shown = "image"
                        self.assert_refused(command, 61 if is_object else 1, size if is_object else 1 << 32, shown, size)

    def test_a_long_file_that_is_no_image_is_refused_by_its_first_bytes(self):
        for size in (3 << 30, 1 << 32):
            for begin, kind in (BEGINNINGS["zeros"], BEGINNINGS["ELF"], BEGINNINGS["text"]):
                self.write(begin, size)
                for command in ("check", "dump", "show", "json", "at"):
                    with self.subTest(command=command, size=size, begin=begin[:4]):
                        self.assert_refused(command, 3, 0, kind, size)

    def test_the_target_of_rebase_stays(self):
        self.write(LIBRARY, SIZE)
        for old in (None, b"old"):
            if old is not None:
                self.target.write_bytes(old)
            self.assertEqual(self.run_command("rebase")[:2], (1, line(1, 1 << 32)))
            self.assertEqual(sorted(it.name for it in self.folder.iterdir()), ["a.dll"] if old is None else ["a.dll", "b.dll"])
            if old is not None:
                self.assertEqual(self.target.read_bytes(), old)

    def test_a_large_file_at_each_place_of_a_set(self):
        large = self.write(LIBRARY, SIZE, "large.dll")
        good = [self.write(LIBRARY, len(LIBRARY), f"good{index}.dll") for index in range(3)]
        for option in ((), ("--unbound",), ("--window", "10000000")):
            for place in range(4):
                files = good[:place] + [large] + good[place:]
                words = [f"{0x10000000 * (index + 1):x}={file}" for index, file in enumerate(files)]
                with self.subTest(option=option, place=place):
                    status, printed, complained = self.run_on("map", *option, *words)
                    self.assertEqual((status, printed), (1, line(1, 1 << 32, place)))
                    self.assertTrue(complained.startswith(b"petool: %s: " % bytes(large)), complained)

    def assert_set_refused(self, fault, path, *files):
        """The fault of the set of these files, and the file that the message names."""
        status, printed, complained = self.run_on("map", *(f"{0x10000000 * (index + 1):x}={file}" for index, file in enumerate(files)))
        self.assertEqual((status, printed), (1, fault))
        self.assertTrue(complained.startswith(b"petool: %s: " % bytes(path)), complained)

    def test_other_faults_of_a_set_with_a_large_file(self):
        large, second = (self.write(LIBRARY, SIZE, name) for name in ("large.dll", "second.dll"))
        good, empty, refused = (self.write(LIBRARY, size, name) for name, size in (("good.dll", len(LIBRARY)), ("empty.dll", 0), ("refused.dll", 100)))
        self.assert_set_refused(line(1, 1 << 32, 1), large, good, large, second)
        self.assert_set_refused(line(1, 1 << 32, 0), second, second, good, large)
        self.assert_set_refused(line(2, 0, 0), empty, empty, large)
        self.assert_set_refused(line(1, 1 << 32, 0), large, large, empty)
        self.assert_set_refused(line(1, 1 << 32, 0), large, large, refused)
        status, printed, _ = self.run_on("map", f"10000000={refused}", f"20000000={large}")
        self.assertEqual(status, 1)
        self.assertIn(b" image 0 ", printed)
        # names count before files
        other = self.folder / "other"
        other.mkdir()
        self.write(LIBRARY, SIZE, "other/GOOD.dll")
        self.assert_set_refused(b"fault 42 image 2 item 2\n", other / "GOOD.dll", large, good, other / "GOOD.dll")


if __name__ == "__main__":
    unittest.main()
