#!/usr/bin/env python3
"""Compares the import hash and the Rich header that `petool show --trust` shows with pefile's:

    trust_shown.py PETOOL PATH...

PETOOL is the program. A PATH is an image or a folder, of which all files that begin with MZ are used; those that petool or pefile
refuses are counted and left out. Differences are printed one by one; the last line counts the files, those that have an import hash or
a Rich header, and the differences. Where pefile cuts off what it counts as too much (more than 8,192 imports), the hashes differ.
Needs the Python package pefile.
"""

import collections
import re
import subprocess
import sys

import pefile

from compared import compare_all

COUNTS = collections.Counter()


def told(petool, path):
    """The import hash, the key and the pairs of the Rich header of an accepted image as petool shows them; None if it is refused."""
    done = subprocess.run([petool, "show", "--color", "never", "--trust", path], capture_output=True, check=False)
    if done.returncode != 0:
        return None
    page = done.stdout.decode(errors="replace")
    found = re.search(r"^  Import hash  ([0-9a-f]{32})$", page, re.M)
    rich = re.search(r"^  Rich header .*, key 0x([0-9a-f]{8}), (?:right|wrong)$", page, re.M)
    pairs = re.findall(r"^    product 0x([0-9a-f]{4}) build ([0-9]+), ([0-9,]+) objects?$", page, re.M)
    pairs = [(int(product, 16) << 16 | int(build), int(count.replace(",", ""))) for product, build, count in pairs]
    return found[1] if found else "", rich and int(rich[1], 16), pairs


def peer(path):
    """The same as pefile has it."""
    image = pefile.PE(path, fast_load=True)
    image.parse_data_directories([pefile.DIRECTORY_ENTRY["IMAGE_DIRECTORY_ENTRY_IMPORT"]])
    rich = image.parse_rich_header()
    has_imports = any(it.imports for it in getattr(image, "DIRECTORY_ENTRY_IMPORT", []))
    values = rich["values"] if rich else []
    return image.get_imphash() if has_imports else "", rich and rich["checksum"], list(zip(values[::2], values[1::2]))


def compare(petool, path):
    ours = told(petool, path)
    try:
        theirs = ours and peer(path)
    except pefile.PEFormatError:
        theirs = None
    if theirs is None:
        COUNTS["refused"] += 1
        return
    COUNTS["files"] += 1
    COUNTS["with imports"] += ours[0] != ""
    COUNTS["with a Rich header"] += ours[1] is not None
    if ours != theirs:
        COUNTS["differences"] += 1
        print(f"{path}: petool {ours}, pefile {theirs}")


#: What is counted, in the order of the last line.
NAMES = ("files", "with imports", "with a Rich header", "refused", "differences")


if __name__ == "__main__":
    if len(sys.argv) < 3:
        sys.exit(__doc__)
    sys.exit(compare_all(compare, COUNTS, NAMES, *sys.argv[1:]))
