#!/usr/bin/env python3
"""Compares the delay-loaded imports of images that `petool json --all` lists with those of `llvm-readobj --coff-imports`:

    delayed.py PETOOL PATH...

PETOOL is the program. A PATH is an image or a folder, of which all files that begin with MZ are used; those that petool refuses are
counted and left out. Of each import the module, the name or ordinal, and the slot are compared, where a slot is that of the address
table that llvm-readobj names. Differences are printed one by one; the last line has the counts.
"""

import collections
import json
import re
import struct
import subprocess
import sys

from compared import compare_all

COUNTS = collections.Counter()


def told(petool, path):
    """The delay-loaded imports of an image, or none if it is refused."""
    done = subprocess.run([petool, "json", "--all", "--no-digest", path], capture_output=True, check=False)
    if done.returncode != 0:
        return None
    rows = json.loads(done.stdout).get("delay_imports", [])
    return [(row["module"], row.get("name", row.get("ordinal")), row["slot"]) for row in rows]


def slot_width(path):
    """The bytes of a slot of the image: 8 in PE32+."""
    with open(path, "rb") as it:
        file = it.read(4096)
    return 8 if struct.unpack_from("<H", file, struct.unpack_from("<I", file, 0x3C)[0] + 24)[0] == 0x20B else 4


def listed(path):
    """The same imports by llvm-readobj. An ordinal is a symbol without a name, and behind the name is the hint."""
    done = subprocess.run(["llvm-readobj", "--coff-imports", path], capture_output=True, check=True)
    rows, width = [], slot_width(path)
    for block in re.split(r"^DelayImport \{$", done.stdout.decode(), flags=re.M)[1:]:
        block = block[: block.index("\n}")]
        module, table = re.search(r"^  Name: (.*)$", block, re.M)[1], int(re.search(r"ImportAddressTable: 0x(\w+)", block)[1], 16)
        for place, (name, number) in enumerate(re.findall(r"^    Symbol: (.*) \((\d+)\)$", block, re.M)):
            rows.append((module, name or int(number), table + width * place))
    return rows


def compare(petool, path):
    ours = told(petool, path)
    if ours is None:
        COUNTS["refused"] += 1
        return
    theirs = listed(path)
    COUNTS["files"] += 1
    COUNTS["with imports"] += bool(ours)
    COUNTS["imports"] += len(ours)
    if ours != theirs:
        COUNTS["differences"] += 1
        print(f"{path}: petool has {len(ours)} imports, llvm-readobj {len(theirs)}, and these differ")


if __name__ == "__main__":
    if len(sys.argv) < 3:
        sys.exit(__doc__)
    sys.exit(compare_all(compare, COUNTS, ("files", "with imports", "imports", "refused", "differences"), *sys.argv[1:]))
