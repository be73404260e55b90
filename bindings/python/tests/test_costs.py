"""What files cost that were crafted to be expensive: instructions, which valgrind counts, at one size and at four times that."""

import os
import pathlib
import re
import shutil
import struct
import subprocess
import tempfile
import unittest

from . import crafted
from .test_archives import archive, header, member

PROGRAM = os.environ.get("PETOOL_PROGRAM")
BENCHMARK = os.environ.get("PETOOL_BENCHMARK")
#: The folder in which the library and its examples in C were built.
EXAMPLES = pathlib.Path(os.environ.get("PETOOL_LIBRARY", "")).parent

#: The size of the smaller files, and how many times as much a file of four times that size may cost.
SIZE, MOST = 40_000, 5


def counted(*words, given=b""):
    """How many instructions a program runs, and its exit status."""
    command = ["valgrind", "--tool=callgrind", "--callgrind-out-file=/dev/null", *words]
    run = subprocess.run(command, input=given, stdout=subprocess.DEVNULL, stderr=subprocess.PIPE)
    told = re.search(rb"Collected : (\d+)", run.stderr)
    if not told:
        raise AssertionError(run.stderr.decode(errors="replace"))
    return int(told.group(1)), run.returncode


def made(kinds, name, size):
    return dict(kinds(size))[name]()


@unittest.skipUnless(shutil.which("valgrind"), "left out without valgrind")
class Grows(unittest.TestCase):
    """Tests of what a larger file may cost."""

    counted = staticmethod(counted)

    def grows(self, status, count):
        """Counts at both sizes; `status` is that of both."""
        costs = []
        for size in (SIZE, 4 * SIZE):
            cost, left = count(size)
            self.assertEqual(left, status)
            costs.append(cost)
        self.assertLessEqual(costs[1], MOST * costs[0], costs)


class Costs(Grows):
    @unittest.skipUnless(BENCHMARK, "left out without program: PETOOL_BENCHMARK names none")
    def test_an_object_is_written_whatever_its_names(self):
        for name in ("names_colliding", "names_one_end"):
            with self.subTest(name):
                self.grows(0, lambda size: counted(BENCHMARK, "written", given=made(crafted.object_kinds, name, size)))

    @unittest.skipUnless(PROGRAM, "left out without program: PETOOL_PROGRAM names none")
    def test_imports_that_share_long_names_are_bound(self):
        with tempfile.TemporaryDirectory() as folder:
            for name in ("one", "two", "last_byte", "ends_up", "ends_down", "ends_forwarded"):

                def count(size):
                    paths = [pathlib.Path(folder, file) for file in ("m.dll", "c.dll")]
                    for path, data in zip(paths, made(crafted.sets, name, size)):
                        path.write_bytes(data)
                    return counted(PROGRAM, "map", f"20000000={paths[0]}", f"40000000={paths[1]}")

                with self.subTest(name):
                    self.grows(0, count)

    def test_exports_are_indexed_whatever_their_names(self):
        # the program imports the longest of many names: ends of one string, or of two that differ in their last byte
        with tempfile.TemporaryDirectory() as folder:
            for name, last in (("names_ends", b"a"), ("names_last_bytes", b"y")):

                def count(size):
                    exporter = made(crafted.kinds, name, size)
                    program = crafted.imports([0], [[6]], b"m.dll\0" + bytes(2) + b"a" * (size - 2) + last + b"\0")
                    paths = [pathlib.Path(folder, file) for file in ("m.dll", "c.exe")]
                    for path, data in zip(paths, (exporter, program)):
                        path.write_bytes(data)
                    return counted(EXAMPLES / "imports_closure", paths[1], folder)

                with self.subTest(name):
                    self.grows(0, count)

    @unittest.skipUnless(PROGRAM, "left out without program: PETOOL_PROGRAM names none")
    def test_a_text_ends_where_it_may_be_no_longer(self):
        with tempfile.TemporaryDirectory() as folder:
            for command, kinds, name in (
                ("dump", crafted.kinds, "names_ends.dll"),
                ("json", crafted.kinds, "names_ends.dll"),
                ("json", crafted.object_kinds, "shown_sections.obj"),
                ("json", crafted.object_kinds, "shown_symbols.obj"),
                ("object", crafted.object_kinds, "shown_sections.obj"),
                ("object", crafted.object_kinds, "shown_symbols.obj"),
                ("show", crafted.object_kinds, "shown_symbols.obj"),
            ):
                options = ["--symbols"] if command == "show" else []

                def count(size):
                    file = pathlib.Path(folder, name)
                    file.write_bytes(made(kinds, name.split(".")[0], size))
                    return counted(PROGRAM, command, "--most", "64K", *options, file)

                with self.subTest(command, name=name):
                    self.grows(5, count)

    @unittest.skipUnless(PROGRAM, "left out without program: PETOOL_PROGRAM names none")
    def test_a_member_is_looked_for_whatever_the_names(self):
        # half of the file is one long name, and the names of all members are ends of it
        with tempfile.TemporaryDirectory() as folder:

            def count(size):
                members = [member(f"/{at}") for at in range(size // 120)]
                file = pathlib.Path(folder, "names.a")
                file.write_bytes(archive(member("//", b"a" * (size // 2) + b"/\n"), *members))
                return counted(PROGRAM, "archive", "--extract", "a", file)

            self.grows(2, count)

    @unittest.skipUnless(PROGRAM, "left out without program: PETOOL_PROGRAM names none")
    def test_archives_that_were_made_to_be_dear(self):
        def shared(size):
            return archive(member("//", b"a" * size + b"/\n"), *(header("/0", 0) for _ in range(size // 60)))

        def endless(size):
            return archive(member("//", b"a" * size), *(header(f"/{at}", 0) for at in range(size // 60)))

        def counted_too_high(size):
            return archive(member("/", b"\xff" * 4 + bytes(size)))

        def nested(size):
            return archive(*(member("a.a/", archive(member("b.a/"))) for _ in range(size // 128)))

        def empty(size):
            return archive(*(header("a/", 0) for _ in range(size // 60)))

        def no_number(size):
            return archive(*(header("a/", 0) for _ in range(size // 60)), header("a/", "9" * 10))

        with tempfile.TemporaryDirectory() as folder:
            file = pathlib.Path(folder, "a.a")
            for kind, status, cut in ((shared, 1, 5), (endless, 1, 1), (counted_too_high, 0, 0), (nested, 1, 1), (empty, 1, 1), (no_number, 1, 1)):
                for words in (["archive"], ["show", "--symbols"], ["json"]):
                    limit = ["--most", "64K"] if kind is shared else []

                    def count(size):
                        file.write_bytes(kind(size))
                        return counted(PROGRAM, *words, *limit, file)

                    with self.subTest(kind.__name__, words=words):
                        self.grows(cut if limit else status, count)

    @unittest.skipUnless(PROGRAM, "left out without program: PETOOL_PROGRAM names none")
    def test_symbols_that_name_members_in_any_order(self):
        with tempfile.TemporaryDirectory() as folder:
            for words in (["show", "--symbols"], ["json"]):

                def count(size):
                    members = size // 160
                    start = 8 + 60 + 4 + 6 * members
                    offsets = [start + 60 * (at * 7919 % members) for at in range(members)]
                    names = struct.pack(f">I{members}I", members, *offsets) + b"f\0" * members
                    file = pathlib.Path(folder, "symbols.a")
                    file.write_bytes(archive(member("/", names), *(member("a/") for _ in range(members))))
                    return counted(PROGRAM, *words, file)

                with self.subTest(words):
                    self.grows(1, count)

