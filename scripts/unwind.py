#!/usr/bin/env python3
"""Compares the unwind information of functions that `petool show --unwind` prints with that of `llvm-readobj --unwind`:

    unwind.py PETOOL PATH...

PETOOL is the program. A PATH is an image or a folder, of which all files that begin with MZ are used; those that petool refuses, and
those of other machines than AMD64, are counted and left out. Of each function the addresses, the header of its unwind information,
each operation, the handler and what it is chained to are compared. Differences are printed one by one; the last line has the counts.
"""

import collections
import re
import subprocess
import sys

from compared import compare_all

COUNTS = collections.Counter()
FLAGS = {"EHANDLER": 1, "UHANDLER": 2, "CHAININFO": 4}


def number(words):
    return int(words, 0)


def header_of(line):
    """The header and the handler in a line of petool."""
    parts = line.split("  ")
    found = {"version": number(parts[0].split()[1]), "prologue": number(parts[1].split()[1]), "frame": None, "flags": 0}
    for part in parts[2:]:
        words = part.split()
        if words[0] == "frame":
            register, offset = words[1].split("+")
            found["frame"] = (register, number(offset))
        else:
            found["flags"] = sum(FLAGS.get(word, 0) for word in words)
            found["handler"] = next((number(word) for word in words if word.startswith("0x")), None)
    return found


def operation_of(line):
    """The offset, the name, the register and the number of an operation in a line of petool."""
    offset, name, *rest = line.split()
    register = rest[0].split("+")[0] if rest and not rest[0].startswith("0x") and name != "PUSH_MACHFRAME" else None
    numbers = [number(word) for word in re.findall(r"0x[0-9a-f]+", " ".join(rest))]
    return number(offset), name, register, numbers[0] if numbers else ("error" in rest if name == "PUSH_MACHFRAME" else None)


def told(petool, path):
    """The functions of an image as petool tells them, each by its three RVAs; None if the image is refused."""
    done = subprocess.run([petool, "show", "--unwind", "--color", "never", path], capture_output=True, check=False)
    if done.returncode != 0:
        return None
    functions = []
    page = done.stdout.decode(errors="replace").partition("\nFunctions (")[2].partition("\n\n")[0]
    for line in page.splitlines()[2:]:
        words = line.strip()
        if not line.startswith("    "):
            functions.append({"at": tuple(number(it) for it in words.split()[:3]), "operations": [], "chain": []})
        elif words.startswith("version"):
            functions[-1] |= header_of(words)
        elif words.startswith("chained to"):
            functions[-1]["chain"].append(tuple(number(it) for it in words.split()[2:]))
        else:
            functions[-1]["operations"].append(operation_of(words))
    return functions


def address(block, name, base):
    """The RVA of the address that a line of llvm-readobj has in parentheses; None without such a line."""
    found = re.search(rf"^ *{name}: .*\(0x([0-9A-F]+)\)$", block, re.M)
    return int(found[1], 16) - base if found else None


def listed_operation(line):
    """The same as operation_of, of a line of llvm-readobj."""
    offset, name, rest = re.fullmatch(r"0x([0-9A-F]+): (\w+)(.*)", line).groups()
    register = re.search(r"reg=(\w+)", rest)
    values = re.search(r"(?:size|offset)=(\w+)", rest)
    value = number(values[1]) if values else ("errcode=yes" in rest if name == "PUSH_MACHFRAME" else None)
    return int(offset, 16), name, register[1] if register else None, value


def triple(block, base):
    names = ("StartAddress", "EndAddress", "UnwindInfoAddress")
    return tuple(address(block, name, base) for name in names)


def listed(path):
    """The functions as llvm-readobj tells them; None if the image is not for AMD64."""
    headers = subprocess.run(["llvm-readobj", "--file-headers", path], capture_output=True, check=True).stdout.decode(errors="replace")
    if "IMAGE_FILE_MACHINE_AMD64" not in headers:
        return None
    base = int(re.search(r"ImageBase: 0x([0-9A-F]+)", headers)[1], 16)
    out = subprocess.run(["llvm-readobj", "--unwind", path], capture_output=True, check=True).stdout.decode(errors="replace")
    functions = []
    for block in re.split(r"^  RuntimeFunction \{$", out, flags=re.M)[1:]:
        own, _, chained = block.partition("Chained {")
        frame, offset = re.search(r"FrameRegister: (\w+) ", own), re.search(r"FrameOffset: (0x\w+)", own)
        found = {
            "at": triple(own, base),
            "version": int(re.search(r"Version: (\d+)", own)[1]),
            "flags": int(re.search(r"Flags \[ \(0x(\w+)\)", own)[1], 16),
            "prologue": int(re.search(r"PrologSize: (\d+)", own)[1]),
            "frame": (frame[1], 16 * number(offset[1]) if offset else 0) if frame else None,
            "operations": [listed_operation(it.strip()) for it in re.findall(r"^ +0x[0-9A-F]+: \w+.*$", own, re.M)],
            "chain": [triple(chained, base)] if chained else [],
            "handler": address(own, "Handler", base),
        }
        functions.append(found)
    return functions


def compare(petool, path):
    ours = told(petool, path)
    theirs = listed(path) if ours is not None else None
    if theirs is None:
        COUNTS["refused" if ours is None else "of other machines"] += 1
        return
    COUNTS["files"] += 1
    COUNTS["functions"] += len(ours)
    COUNTS["operations"] += sum(len(it["operations"]) for it in ours)
    ours = [it | {"chain": it["chain"][:1]} for it in ours]
    wrong = [(one, other) for one, other in zip(ours, theirs) if {"handler": None} | one != other]
    if len(ours) != len(theirs) or wrong:
        COUNTS["differences"] += 1
        print(f"{path}: petool has {len(ours)} functions, llvm-readobj {len(theirs)}; of those that differ the first: {wrong[:1]}")


if __name__ == "__main__":
    if len(sys.argv) < 3:
        sys.exit(__doc__)
    NAMES = ("files", "functions", "operations", "refused", "of other machines", "differences")
    sys.exit(compare_all(compare, COUNTS, NAMES, *sys.argv[1:]))
