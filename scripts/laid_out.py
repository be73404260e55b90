#!/usr/bin/env python3
"""Compares the laid-out image that `petool layout` writes with that of a loader in C, loader.c beside this file:

    laid_out.py PETOOL PATH...

PETOOL is the program. A PATH is an image or a folder, of which all files that begin with MZ are used; those that petool refuses are
counted and left out. The two files are compared byte by byte. Differences are printed one by one; the last line has the counts.
Needs `cc`.
"""

import collections
import filecmp
import os
import subprocess
import sys
import tempfile

from compared import compare_all

COUNTS = collections.Counter()


def compare(programs, path):
    petool, loader, folder = programs
    ours, theirs = (os.path.join(folder, name) for name in ("ours", "theirs"))
    if subprocess.run([petool, "layout", path, ours], capture_output=True, check=False).returncode != 0:
        COUNTS["refused"] += 1
        return
    COUNTS["files"] += 1
    COUNTS["bytes"] += os.path.getsize(ours)
    done = subprocess.run([loader, path, theirs], check=False)
    if done.returncode != 0 or not filecmp.cmp(ours, theirs, shallow=False):
        COUNTS["differences"] += 1
        print(f"{path}: the two images differ")


def main():
    petool, *paths = sys.argv[1:]
    with tempfile.TemporaryDirectory() as folder:
        loader = os.path.join(folder, "loader")
        source = os.path.join(os.path.dirname(os.path.abspath(__file__)), "loader.c")
        subprocess.run(["cc", "-O2", "-o", loader, source], check=True)
        return compare_all(compare, COUNTS, ("files", "bytes", "refused", "differences"), (petool, loader, folder), *paths)


if __name__ == "__main__":
    if len(sys.argv) < 3:
        sys.exit(__doc__)
    sys.exit(main())
