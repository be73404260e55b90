"""Bitmaps, and groups of icons and of cursors, as files of their own. The files are put together here field by field, by winuser.h and
wingdi.h; no code of petool is used for it."""

import os
import pathlib
import struct
import tempfile
import unittest

from .cases import run
from .trees import image, leaf, tree

PROGRAM = os.environ.get("PETOOL_PROGRAM")

#: Two icons: a header that no other number of these tests repeats, and what is no picture at all, which nothing here reads.
FIRST, SECOND = bytes(range(40)), b"second icon"
#: The entries of their group: width, height, colours, 0, planes, bits, the number of bytes (which is not read), the id.
ICONS = [struct.pack("<BBBBHHIH", 16, 32, 4, 5, 6, 7, 8, 1), struct.pack("<BBBBHHIH", 0x81, 0x82, 0x83, 0x84, 0x8685, 0x8887, 0x8C8B8A89, 0x102)]
#: Two cursors: the hot spot, two numbers, comes first.
POINT, CROSS = struct.pack("<HH", 0x1234, 0x5678) + b"point", struct.pack("<HH", 3, 4)
#: The entries of their group: width, twice the height, planes, bits, the number of bytes, the id.
CURSORS = [struct.pack("<HHHHIH", 0x220, 0x440, 1, 2, 3, 9), struct.pack("<HHHHIH", 0xFF, 0x1FF, 4, 5, 6, 0x8001)]


def group(kind, entries, count=None):
    return struct.pack("<HHH", 0, kind, len(entries) if count is None else count) + b"".join(entries)


def pictures(kind, *pictures):
    """A file of pictures, each by the first 8 bytes of its entry and its bytes."""
    at = 6 + 16 * len(pictures)
    entries = b""
    for front, data in pictures:
        entries += front + struct.pack("<II", len(data), at)
        at += len(data)
    return struct.pack("<HHH", 0, kind, len(pictures)) + entries + b"".join(data for _, data in pictures)


def info_header(size=40, bits=24, compression=0, used=0):
    return struct.pack("<IiiHHIIiiII", size, 1, 2, 3, bits, compression, 0, 0, 0, used, 0)


def bitmap(start, data):
    return b"BM" + struct.pack("<IHHI", 14 + len(data), 0, 0, 14 + start) + data


ICON_FILE = pictures(1, (ICONS[0][:8], FIRST), (ICONS[1][:8], SECOND))
CURSOR_FILE = pictures(2, (bytes([0x20, 0x20, 0, 0]) + POINT[:4], POINT[4:]), (bytes([0xFF, 0xFF, 0, 0]) + CROSS[:4], b""))
OF_ICONS = group(1, ICONS)
OF_CURSORS = group(2, CURSORS)

SHOWN = image(tree([
    (1, [(9, [(1033, (POINT, 0))]), (0x8001, [(0, (CROSS, 0))])]),
    (2, [(1, [(1033, (info_header() + b"pixels", 0))])]),
    (3, [(1, [(7, (FIRST, 0)), (9, (b"another language", 0))]), (0x102, [(7, (SECOND, 0))])]),
    (12, leaf(OF_CURSORS)),
    (14, leaf(OF_ICONS)),
]))


@unittest.skipUnless(PROGRAM, "left out without program: PETOOL_PROGRAM names none")
class Pictures(unittest.TestCase):
    maxDiff = None

    def setUp(self):
        folder = tempfile.TemporaryDirectory()
        self.addCleanup(folder.cleanup)
        self.folder = pathlib.Path(folder.name)

    def written(self, file, *words):
        (self.folder / "a").write_bytes(file)
        done = run([PROGRAM, "resource", *words], cwd=self.folder)
        self.assertEqual((done.stderr, done.returncode), (b"", 0))
        return done.stdout

    def assert_damaged(self, root):
        (self.folder / "a").write_bytes(image(tree(root)))
        kind = root[-1][0]
        done = run([PROGRAM, "resource", "a", str(kind)], cwd=self.folder)
        self.assertEqual((done.stdout, done.stderr, done.returncode), (b"", b"petool: a: the resource is damaged; --raw writes it as it stands\n", 1))

    def test_icons(self):
        self.assertEqual(self.written(SHOWN, "a", "group_icon"), ICON_FILE)
        self.assertEqual(self.written(SHOWN, "--raw", "a", "group_icon"), OF_ICONS)
        self.assertEqual(self.written(SHOWN, "a", "icon/1"), FIRST)

    def test_cursors(self):
        self.assertEqual(self.written(SHOWN, "a", "group_cursor"), CURSOR_FILE)
        self.assertEqual(self.written(SHOWN, "--raw", "a", "12"), OF_CURSORS)

    def test_the_height_of_a_bitmap_comes_before_that_of_its_group(self):
        for entry, header, height in [(64, 128, 64), (128, 128, 64), (64, 0x204, 2), (64, 0x1FF, 255)]:
            picture = struct.pack("<HHIii", 5, 6, 40, 64, header) + b"more"
            group_of = group(2, [struct.pack("<HHHHIH", 64, entry, 1, 1, 3, 9)])
            file = image(tree([(1, [(9, [(0, (picture, 0))])]), (12, leaf(group_of))]))
            with self.subTest(entry=entry, header=header):
                self.assertEqual(self.written(file, "a", "12"), pictures(2, (bytes([64, height, 0, 0]) + picture[:4], picture[4:])))
        for picture in (struct.pack("<HHIii", 5, 6, 40, 64, 32)[:15], struct.pack("<HHIii", 5, 6, 41, 64, 32), b"\5\0\6\0\x89PNG\r\n\x1a\n" + bytes(8)):
            group_of = group(2, [struct.pack("<HHHHIH", 64, 128, 1, 1, 3, 9)])
            file = image(tree([(1, [(9, [(0, (picture, 0))])]), (12, leaf(group_of))]))
            self.assertEqual(self.written(file, "a", "12"), pictures(2, (bytes([64, 64, 0, 0]) + picture[:4], picture[4:])))

    def test_a_group_of_none(self):
        self.assertEqual(self.written(image(tree([(14, leaf(group(1, [])))])), "a", "14"), pictures(1))
        self.assertEqual(self.written(image(tree([(14, leaf(group(1, []) + b"more"))])), "a", "14"), pictures(1))

    def test_damaged_groups(self):
        icons = (3, [(1, [(7, (FIRST, 0))])])
        for data in [b"", group(1, [])[:5], group(1, ICONS[:1])[:-1], group(1, ICONS[:1], 2), group(1, ICONS), group(1, ICONS[:1], 0xFFFF)]:
            with self.subTest(data):
                self.assert_damaged([icons, (14, leaf(data))])
        self.assert_damaged([(1, leaf(FIRST)), (14, leaf(group(1, ICONS[:1])))])
        self.assert_damaged([(1, [(9, [(0, (b"abc", 0))])]), (12, leaf(group(2, CURSORS[:1])))])

    def test_a_picture_that_many_entries_name(self):
        large = bytes(4000)
        root = [(3, [(1, [(7, (large, 0))])]), (14, leaf(group(1, ICONS[:1] * 3)))]
        file = image(tree(root))
        self.assertEqual(len(file) > 4000, True)
        self.assert_damaged(root)
        once = [(3, [(1, [(7, (large, 0))])]), (14, leaf(group(1, ICONS[:1])))]
        self.assertEqual(self.written(image(tree(once)), "a", "14"), pictures(1, (ICONS[0][:8], large)))

    def test_bitmaps(self):
        self.assertEqual(self.written(SHOWN, "a", "bitmap"), bitmap(40, info_header() + b"pixels"))
        self.assertEqual(self.written(SHOWN, "--raw", "a", "bitmap"), info_header() + b"pixels")
        for start, header in [
            (12, struct.pack("<IHHHH", 12, 1, 2, 3, 24)), (12 + 3 * 16, struct.pack("<IHHHH", 12, 1, 2, 3, 4)),
            (12 + 3 * 256, struct.pack("<IHHHH", 12, 1, 2, 3, 8)), (12, struct.pack("<IHHHH", 12, 1, 2, 3, 0)), (12, struct.pack("<IHHHH", 12, 1, 2, 3, 9)),
            (40 + 4 * 2, info_header(bits=1)), (40 + 4 * 256, info_header(bits=8)), (40, info_header(bits=9)), (40, info_header(bits=0)),
            (40 + 4 * 3, info_header(bits=8, used=3)), (40 + 4 * 5, info_header(bits=24, used=5)), (40 + 12, info_header(bits=16, compression=3)),
            (40 + 16, info_header(bits=32, compression=6)), (40, info_header(bits=32, compression=2)), (108, info_header(size=108, compression=3)),
            (124 + 4 * 16, info_header(size=124, bits=4)),
        ]:
            with self.subTest(header):
                data = header + bytes(max(start - len(header), 0))
                self.assertEqual(self.written(image(tree([(2, leaf(data))])), "a", "2"), bitmap(start, data))
                if start > len(header):
                    self.assert_damaged([(2, leaf(data[:-1]))])

    def test_damaged_bitmaps(self):
        for data in [b"", struct.pack("<IHHH", 12, 1, 2, 3), info_header()[:-1], info_header(size=39), info_header(size=16), info_header(size=13),
                     info_header(size=0xFFFFFFFF), info_header(used=0xFFFFFFFF)]:
            with self.subTest(data):
                self.assert_damaged([(2, leaf(data))])


if __name__ == "__main__":
    unittest.main()
