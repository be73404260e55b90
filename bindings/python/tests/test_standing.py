"""Which image of a space holds an address: in any order of the bases, on both sides of each image, and after moves."""

import ctypes
import unittest

import petool
from petool import _library, _records

from .files import changed

#: Five images, whose bases are not in order: image 3 ends where image 1 begins.
BASES = [0x50000000, 0x10000000, 0x90000000, 0x0FFE0000, 0x70000000]

#: The image that fault 54 names if none holds the address.
NONE = 0xFFFF

#: Reads at the first bases: an address, a count of bytes, and the image of the fault; or None and the image that holds the bytes.
#: Reads of no bytes are tested in `test_calls`.
AT_FIRST = [
    (0x0FFDFFFF, 1, NONE, None),
    (0x0FFE0000, 1, None, 3),
    (0x0FFFFFFF, 1, None, 3),
    (0x0FFFFFFF, 2, 3, None),
    (0x10000000, 0x20000, None, 1),
    (0x10000000, 0x20001, 1, None),
    (0x1001FFFF, 1, None, 1),
    (0x7001FFFE, 2, None, 4),
    (0x90000001, 0x20000, 2, None),
    (0x90020000, 1, NONE, None),
    (0xFFFFFFFFFFFFFFFF, 1, NONE, None),
]

#: Reads after the moves: image 1 is after all others, image 3 directly before image 0, and image 4 directly after it.
MOVED = [
    (0x0FFE0000, 1, NONE, None),
    (0x10000000, 1, NONE, None),
    (0x4FFDFFFF, 1, NONE, None),
    (0x4FFE0000, 0x20000, None, 3),
    (0x5001FFFF, 1, None, 0),
    (0x50020000, 1, None, 4),
    (0x70000000, 1, NONE, None),
    (0xB001FFFF, 1, None, 1),
]

#: Moves in sequence: an image, a base, and the fault of the move, if it has one. The new place may overlap the image's old place,
#: but no other image.
MOVES = [
    (3, 0x10000000, 47),
    (3, 0x10010000, 47),
    (1, 0xB0000000, None),
    (3, 0x4FFF0000, 47),
    (3, 0x50010000, 47),
    (3, 0x4FFE0000, None),
    (4, 0x50010000, 47),
    (4, 0x50020000, None),
    (0, 0x50010000, 47),
    (0, 0x50000000, None),
    (2, 0xFFFF0000, 45),
    (5, 0x60000000, 55),
]


def image_without_sections(mark):
    """An image of 0x20000 bytes that has only headers; the byte at 0x1ff differs from that of the others."""
    pieces = [(0x46, b"\0"), (0x90, b"\0\0\2\0"), (0x138, bytes(40)), (0x1FF, bytes([mark]))]
    return changed("v1.dll", *pieces, size=0x200)


class Standing(unittest.TestCase):
    def setUp(self):
        names = ["a.dll", "b.dll", "c.dll", "d.dll", "e.dll"]
        files = [image_without_sections(0xA0 + index) for index in range(5)]
        self.images = [file.ljust(0x20000, b"\0") for file in files]
        self.bases = list(BASES)
        self.space = petool.Space(list(zip(names, files, BASES)))
        self.addCleanup(self.space.close)

    def assert_held(self, asked):
        for address, count, refused, holder in asked:
            with self.subTest(address=hex(address), count=count):
                if refused is None:
                    start = address - self.bases[holder]
                    self.assertEqual(self.space.read(address, count), self.images[holder][start : start + count])
                else:
                    self.assert_54(address, count, refused)

    def assert_54(self, address, count, image):
        buffer = bytearray(b"\xee" * count)
        with self.assertRaises(petool.FormatFault) as caught:
            self.space.read_into(address, buffer)
        fault = caught.exception
        self.assertEqual((fault.number, fault.image, fault.place, fault.at), (54, image, petool.Place.ADDRESS, address))
        self.assertEqual(buffer, b"\xee" * count)

    def move(self, image, base):
        """The status of a move, the fault and what was moved: by the call itself, which takes any index."""
        moved, fault = _records.Moved(), _records.Fault()
        status = _library.library.petool_space_move(
            ctypes.byref(self.space._space), image, base, ctypes.byref(moved), ctypes.byref(fault)
        )
        return status, (fault.number, fault.image, fault.place, fault.at), (moved.fields, moved.slots)

    def assert_moves(self):
        for image, base, number in MOVES:
            with self.subTest(image=image, base=hex(base)):
                status, fault, moved = self.move(image, base)
                if number is None:
                    self.assertEqual((status, moved), (_library.OK, (0, 0)))
                    self.bases[image] = base
                else:
                    place = (petool.Place.ITEM, image) if number == 55 else (petool.Place.ADDRESS, base)
                    self.assertEqual((status, fault), (_library.FAULT, (number, image, *place)))

    def test_an_address_is_held_by_the_image_that_stands_there(self):
        self.assert_held(AT_FIRST)
        self.assert_moves()
        self.assertEqual([it.base for it in self.space.images], self.bases)
        self.assert_held(MOVED)


if __name__ == "__main__":
    unittest.main()
