#!/usr/bin/env python3
"""Compares the symbols of images that `petool json --symbols` lists with those of `objdump -t`:

    symbols.py PETOOL OBJDUMP PATH...

PETOOL and OBJDUMP are programs; the latter is to know the images, as x86_64-w64-mingw32-objdump does. A PATH is an image or a folder,
of which all files that begin with MZ are used; those that petool refuses, and those that OBJDUMP does not know, are counted and left
out. Of each symbol the index, the name, the value, the section, the type, the class and the number of auxiliary records are compared.
Differences are printed one by one; the last line has the counts.
"""

import collections
import json
import re
import subprocess
import sys

from compared import compare_all

COUNTS = collections.Counter()
#: The class of symbols that name a source file, which objdump calls `fake`.
FILE = b"103"
SECTIONS = {"UNDEFINED": 0, "ABSOLUTE": -1, "DEBUG": -2}
ROW = re.compile(rb"^\[ *(\d+)\]\(sec *(-?\d+)\)\(fl 0x\w\w\)\(ty *(\w+)\)\(scl *(\d+)\) \(nx (\d+)\) 0x(\w+) (.*)$", re.M)


def name_of(row):
    return row["name"].encode() if "name" in row else bytes.fromhex(row["name_hex"])


def told(petool, path):
    """The symbols of an image, or none if it is refused."""
    done = subprocess.run([petool, "json", "--symbols", "--no-digest", path], capture_output=True, check=False)
    if done.returncode != 0:
        return None
    return [
        (
            row["index"],
            SECTIONS[row["section"]] if "section" in row else row["section_number"],
            row["type"],
            row["storage_class"],
            len(row.get("auxiliary_records", [])),
            row["value"],
            name_of(row),
        )
        for row in json.loads(done.stdout).get("symbols", [])
    ]


def listed(objdump, path):
    """The same symbols by objdump, or none if it does not know the file."""
    done = subprocess.run([objdump, "-t", path], capture_output=True, check=False)
    if done.returncode != 0:
        return None
    rows = [match.groups() for match in ROW.finditer(done.stdout)]
    return [
        (int(at), int(section), int(kind, 16), int(scl), int(aux), int(value, 16) & 0xFFFFFFFF, b".file" if scl == FILE else name)
        for at, section, kind, scl, aux, value, name in rows
    ]


def compare(programs, path):
    petool, objdump = programs
    ours = told(petool, path)
    theirs = None if ours is None else listed(objdump, path)
    if theirs is None:
        COUNTS["refused" if ours is None else "unknown"] += 1
        return
    COUNTS["files"] += 1
    COUNTS["with symbols"] += bool(ours)
    COUNTS["symbols"] += len(ours)
    if ours != theirs:
        COUNTS["differences"] += 1
        first = next((pair for pair in zip(ours, theirs) if pair[0] != pair[1]), (len(ours), len(theirs)))
        print(f"{path}: petool {first[0]}, objdump {first[1]}")


if __name__ == "__main__":
    if len(sys.argv) < 4:
        sys.exit(__doc__)
    COUNTED = ("files", "with symbols", "symbols", "refused", "unknown", "differences")
    sys.exit(compare_all(compare, COUNTS, COUNTED, sys.argv[1:3], *sys.argv[3:]))
