"""The results for a set of all that check it: the call `judge`, a space in memory, and one over the files, as the program's `map` has
it."""

import os
import tempfile
import unittest

import petool

from .cases import run, write_set

PROGRAM = os.environ.get("PETOOL_PROGRAM")


def as_bytes(name):
    """The bytes of a module's name."""
    return name.encode() if isinstance(name, str) else name


class Answers(unittest.TestCase):
    """Tests of sets, whose entries are (name, file, base)."""

    def mapped_by_program(self, set_, known, *options):
        """The lines and the status of the program; None without the program."""
        if not PROGRAM:
            return None
        with tempfile.TemporaryDirectory() as folder:
            words = write_set(folder, [(as_bytes(name), file, base) for name, file, base in set_])
            done = run([PROGRAM, "map", *(["--known"] * known), *options, *words])
        return done.stdout.decode().splitlines(), done.returncode

    def assert_refused(self, set_, known, number, image, at, cycle=None):
        """Asserts the fault of a set, at an RVA, by all that check it, and the length of a cycle."""
        for call in (petool.judge, petool.Space, petool.Space.open):
            with self.assertRaises(petool.FormatFault) as caught:
                call(set_, known=known)
            fault = caught.exception
            self.assertEqual((fault.number, fault.image, fault.place, fault.at), (number, image, petool.Place.RVA, at))
            self.assertEqual(fault.cycle, cycle)
        told = self.mapped_by_program(set_, known)
        if told is not None:
            line = f"fault {number} image {image} rva 0x{at:08x}"
            self.assertEqual(told, ([line if cycle is None else f"{line} cycle {cycle}"], 1))

    def assert_slots(self, set_, known, slots, expected):
        """Asserts that the slots at these addresses hold these bytes, in memory and in the files."""
        for make in (petool.Space, petool.Space.open):
            with make(set_, known=known) as space:
                for address in slots:
                    self.assertEqual(space.read(address, len(expected)), expected)
        for address in slots:
            options = ("--window", f"{address:x}", "--count", str(len(expected)))
            told = self.mapped_by_program(set_, known, *options)
            if told is not None:
                shown = " ".join(f"{byte:02x}" for byte in expected)
                self.assertEqual(told[1], 0)
                self.assertEqual(told[0][-2:], [f"0x{address:016x} {shown}", "end"])
