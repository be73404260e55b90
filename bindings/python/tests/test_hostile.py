"""2,000 files that were cut and changed: each is checked, and all its contents are read, with no exception but FormatFault."""

import os
import pathlib
import random
import subprocess
import tempfile
import unittest

import petool

from . import TABLES, data, rows_of

NAMES = ["v1.dll", "v2.dll", "v3.dll", "va.dll", "vb.dll", "vc.dll", "vd.dll", "vr.dll", "vs.dll", "o1.obj"]
PROGRAM = os.environ.get("PETOOL_PROGRAM")


def changed(count):
    """Files of which one in four is cut, and the others have one to four changed bytes."""
    chance = random.Random(7)
    for k in range(count):
        file = bytearray(data(NAMES[k % len(NAMES)]))
        if k % 4 == 0:
            del file[chance.randrange(len(file)) :]
        else:
            for _ in range(chance.randint(1, 4)):
                file[chance.randrange(len(file))] ^= chance.choice((0xFF, 1, 0x80))
        yield bytes(file)


def read_all(file):
    """Reads all of an image, as far as it has no fault; returns the number of its fault, or 0."""
    for table in TABLES:
        try:
            with petool.Image(file, check=False) as image:
                image.read(0, image.headers.size_of_headers)
                rows_of(getattr(image, table))
        except petool.FormatFault:
            pass
    try:
        with petool.Image(file) as image:
            for table in TABLES:
                rows_of(getattr(image, table))
            image.text(0x1000), image.locate(0x1000)
    except petool.FormatFault as fault:
        return fault.number
    return 0


def map_it(file):
    """Maps a set of this file only, and moves it; returns the number of its fault, or 0."""
    try:
        with petool.Space([("a.dll", file, 0x20000000)], known=True) as space:
            space.read(0x20000000, 16)
            space.move(0, 0x60000000)
    except petool.FormatFault as fault:
        return fault.number
    return 0


class Hostile(unittest.TestCase):
    def test_all_that_they_hold(self):
        numbers = set()
        for file in changed(2000):
            number = read_all(file)
            fault = petool.check(file)
            self.assertEqual(number, fault.number if fault else 0)
            self.assertTrue(map_it(file) == number or number == 0)
            try:
                petool.Object(file)
            except petool.FormatFault as refused:
                self.assertIn(refused.number, range(61, 73))
            numbers.add(number)
        self.assertGreater(len(numbers), 15)

    @unittest.skipUnless(PROGRAM, "left out without program: PETOOL_PROGRAM names none")
    def test_the_program_tells_the_same_faults(self):
        with tempfile.TemporaryDirectory() as folder:
            paths = []
            for k, file in enumerate(changed(2000)):
                paths.append(pathlib.Path(folder, f"{k}.dll"))
                paths[-1].write_bytes(file)
            run = subprocess.run([PROGRAM, "check", *paths], stdout=subprocess.PIPE, stderr=subprocess.DEVNULL)
            lines = run.stdout.decode().splitlines()
            self.assertEqual(len(lines), len(paths))
            for path, line in zip(paths, lines):
                fault = petool.check(path.read_bytes())
                words = line.split(": ", 1)[1].split()
                self.assertEqual(words[:2], ["fault", str(fault.number)] if fault else words[:2], path)
                self.assertEqual(words[0] == "accepted", fault is None, path)
