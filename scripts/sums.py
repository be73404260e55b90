#!/usr/bin/env python3
"""Compares the CheckSum of images that `petool sum` computes with pefile's:

    sums.py PETOOL PATH...

PETOOL is the program. A PATH is an image or a folder, of which all files that begin with MZ are used; those that petool refuses are
counted and left out. Differences are printed one by one; the last line counts the files, and those whose field is right, 0, or neither.
Needs the Python package pefile.
"""

import collections
import re
import subprocess
import sys

import pefile

from compared import compare_all

COUNTS = collections.Counter()


def told(petool, path):
    """The field and the checksum of an image, or none if its headers have a fault."""
    done = subprocess.run([petool, "sum", path], capture_output=True, check=False)
    found = re.search(rb": check sum 0x([0-9a-f]{8}) computed 0x([0-9a-f]{8})\n$", done.stdout)
    return (int(found[1], 16), int(found[2], 16)) if done.returncode == 0 and found else None


def compare(petool, path):
    ours = told(petool, path)
    if ours is None:
        COUNTS["refused"] += 1
        return
    image = pefile.PE(path, fast_load=True)
    theirs = (image.OPTIONAL_HEADER.CheckSum, image.generate_checksum())
    COUNTS["files"] += 1
    COUNTS["right" if theirs[0] == theirs[1] else "0" if theirs[0] == 0 else "wrong"] += 1
    if ours != theirs:
        COUNTS["differences"] += 1
        print(f"{path}: petool 0x{ours[0]:08x} 0x{ours[1]:08x}, pefile 0x{theirs[0]:08x} 0x{theirs[1]:08x}")


if __name__ == "__main__":
    if len(sys.argv) < 3:
        sys.exit(__doc__)
    sys.exit(compare_all(compare, COUNTS, ("files", "right", "0", "wrong", "refused", "differences"), *sys.argv[1:]))
