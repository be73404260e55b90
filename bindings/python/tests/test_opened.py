"""Files that are opened by their names: what the system refuses names the file as Python's own open() does, and so does a fault."""

import errno
import os
import pathlib
import pickle
import tempfile
import unittest
import unittest.mock

import petool

from . import DATA, data

#: V1 without the end of its raw data, which has fault 13, and an object without the end of its symbols, which has fault 67.
CUT_IMAGE, CUT_OBJECT = data("v1.dll")[:520], data("o1.obj")[:100]


def refused(call, *arguments, **options):
    """The exception that a call raises."""
    try:
        call(*arguments, **options)
    except (OSError, petool.FormatFault) as error:
        return error
    raise AssertionError("it raised nothing")


class Opened(unittest.TestCase):
    def setUp(self):
        folder = tempfile.TemporaryDirectory()
        self.addCleanup(folder.cleanup)
        self.folder = folder.name
        self.path = os.path.join(folder.name, "a.dll")

    def written(self, file):
        pathlib.Path(self.path).write_bytes(file)
        return self.path

    def test_what_the_system_refuses_names_the_file_as_open_does(self):
        for path in (".", self.folder, self.path, pathlib.Path(self.folder), pathlib.Path(self.path)):
            with self.subTest(path):
                error, right = refused(petool.open, path), refused(open, path)
                self.assertEqual((type(error), error.errno, error.filename), (type(right), right.errno, right.filename))
                self.assertEqual(str(error), str(right))

    def test_a_file_that_cannot_be_mapped_is_named(self):
        # a device refuses like this, without a name
        no_map = OSError(errno.ENODEV, os.strerror(errno.ENODEV))
        with unittest.mock.patch("mmap.mmap", side_effect=no_map):
            error = refused(petool.open, DATA / "v1.dll")
        self.assertEqual((error.errno, error.filename), (errno.ENODEV, str(DATA / "v1.dll")))

    def test_what_is_refused_leaves_no_descriptor(self):
        before = os.listdir("/proc/self/fd")
        for path in (self.folder, self.path):
            refused(petool.open, path)
        self.assertEqual(os.listdir("/proc/self/fd"), before)

    def test_a_fault_names_the_file(self):
        for path in (self.written(CUT_IMAGE), pathlib.Path(self.path)):
            fault = refused(petool.open, path)
            self.assertEqual((fault.number, fault.file), (13, self.path))
            self.assertEqual(pickle.loads(pickle.dumps(fault)).file, self.path)
            # the words are those of the program for bytes
            self.assertEqual(str(fault), str(petool.check(CUT_IMAGE)))

    def test_each_call_of_an_opened_file_names_it(self):
        file = bytearray(data("vr.dll"))
        file[0x200:0x3F0] = b"\xff" * 0x1F0
        with petool.open(self.written(file), check=False) as image:
            faults = [refused(lambda: image.exports), refused(image.rebased, 1)]
        self.assertEqual([it.file for it in faults], [self.path] * 2)
        self.assertEqual([it.number in range(16, 23) for it in faults], [True, False])

    def test_bytes_have_the_name_that_the_caller_gives(self):
        for kind, file in ((petool.Image, CUT_IMAGE), (petool.Object, CUT_OBJECT)):
            self.assertIsNone(refused(kind, file).file)
            self.assertEqual(refused(kind, file, file="b.obj").file, "b.obj")
        self.assertIsNone(petool.check(CUT_IMAGE).file)


if __name__ == "__main__":
    unittest.main()
