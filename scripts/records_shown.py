#!/usr/bin/env python3
"""Compares what `petool show` says of debug data, TLS, load configurations and functions with llvm-readobj and pefile:

    records_shown.py PETOOL PATH...

PETOOL is the program. A PATH is an image or a folder, of which all files that begin with MZ are used; those that petool refuses are
counted and left out. Compared with llvm-readobj are each entry of the debug directory, the GUID, the age and the path of the PDB file,
each field of the load configuration, the fields of the TLS directory, and the begin, the end and the unwind information of each
function of AMD64, and the begin of those of ARM64; with pefile the callbacks. Differences are printed one by one; the last lines count
the files and the values, and the findings. Needs llvm-readobj on the PATH, and the Python package pefile.
"""

import collections
import os
import re
import subprocess
import sys

import pefile

PARTS = ("--debug", "--functions", "--tls", "--load")
#: The types of debug data that llvm-readobj has names of its own for.
TYPES = {"Unknown": 0, "COFF": 1, "CodeView": 2, "FPO": 3, "Misc": 4, "Exception": 5, "Fixup": 6, "OmapToSrc": 7, "OmapFromSrc": 8,
         "Borland": 9, "Reserved10": 10, "CLSID": 11, "VCFeature": 12, "POGO": 13, "ILTCG": 14, "MPX": 15, "Repro": 16,
         "ExtendedDLLCharacteristics": 20}
NAMES = ("UNKNOWN COFF CODEVIEW FPO MISC EXCEPTION FIXUP OMAP_TO_SRC OMAP_FROM_SRC BORLAND RESERVED10 CLSID VC_FEATURE POGO ILTCG MPX "
         "REPRO EMBEDDED_PDB - PDBCHECKSUM EX_DLLCHARACTERISTICS").split()
#: Fields of the load configuration that llvm-readobj calls otherwise.
RENAMED = {"GuardCFCheckFunction": "GuardCFCheckFunctionPointer", "GuardCFCheckDispatch": "GuardCFDispatchFunctionPointer"}
COUNTS = collections.Counter()


class Page:
    """A page: its first row, and the rows of each part by its heading."""

    def __init__(self, text):
        blocks = [block.split("\n") for block in text.strip("\n").split("\n\n")]
        self.title = blocks[0][0]
        self.parts = {re.sub(r" \([\d,]+\)$", "", block[0]): block[1:] for block in blocks[1:]}

    def rows(self, heading):
        return self.parts.get(heading, [])

    def values(self, heading):
        """The numbers of the part's rows by their names."""
        found = (re.fullmatch(r"  (\w[\w.]*) +0x([0-9a-f]+)", row) for row in self.rows(heading))
        return {it[1]: int(it[2], 16) for it in found if it}


def same(path, what, ours, theirs):
    COUNTS[what] += 1
    if ours != theirs:
        COUNTS["differences"] += 1
        print(f"{path}: {what}: petool {ours!r}, other {theirs!r}")


def output(*words):
    return subprocess.run(words, capture_output=True, check=False).stdout.decode("utf-8", "replace")


def number(text, name):
    """The number of a field in a text of llvm-readobj, as `Name: 12`, `Name: 0xC` or `Name: Word (0xC)`."""
    found = re.search(rf"^ *{name}: (?:.*\()?(0x[0-9A-Fa-f]+|\d+)\)?$", text, re.M)
    return int(found[1], 0) if found else None


def guid_of(text):
    """The GUID of a CodeView record in a text of llvm-readobj, of either of its forms."""
    found = re.search(r"PDBGUID: \{([0-9A-Fa-f-]+)\}", text)
    if found:
        return found[1].lower()
    found = re.search(r"PDBGUID: \(([0-9A-F ]+)\)", text)
    if not found:
        return None
    raw = bytes.fromhex(found[1].replace(" ", ""))
    digits = (raw[3::-1] + raw[5:3:-1] + raw[7:5:-1] + raw[8:]).hex()
    return "-".join((digits[:8], digits[8:12], digits[12:16], digits[16:20], digits[20:]))


def compare_debug(path, page, text):
    entries = []
    for entry in text.split("DebugEntry {")[1:]:
        kind = int(re.search(r"Type: .*\(0x(\w+)\)", entry)[1], 16)
        entries.append((kind, *(number(entry, it) for it in ("AddressOfRawData", "PointerToRawData", "SizeOfData"))))
        if guid_of(entry):
            rows = "\n".join(page.rows("Identity"))
            found = re.search(r"GUID +(\S+), age (\d+)", rows)
            same(path, "GUIDs", found and (found[1], int(found[2])), (guid_of(entry), number(entry, "PDBAge")))
            named = re.search(r"PDBFileName: (.*)", entry)
            same(path, "PDB paths", re.search(r"  PDB +(.*)", rows)[1], named[1])
    rows = [re.match(r" +\d+  (?:type (\d+)|(\w+)) +0x(\w+)   0x(\w+)   0x(\w+)", row) for row in page.rows("Debug directory")[1:]]
    ours = [(int(it[1]) if it[1] else NAMES.index(it[2]), *(int(it[k], 16) for k in (3, 4, 5))) for it in rows]
    same(path, "debug directories", ours, entries)
    COUNTS["debug entries"] += len(entries)


def compare_load(path, page, text):
    found = re.search(r"^LoadConfig \[(.*?)^\]", text, re.S | re.M)
    ours = page.values("Load configuration")
    if not found:
        same(path, "images without a load configuration", ours, {})
        return
    for name, value in re.findall(r"^  (\w+)(?: \[)?:? ?(?:.*?\()?(0x[0-9A-Fa-f]+|\d+)\)?$", found[1], re.M):
        name = RENAMED.get(name, name)
        if name in ours:
            same(path, f"load configuration, {name}", ours[name], int(value, 0))
            COUNTS["load configuration fields"] += 1


def compare_tls(path, page, text, image):
    found = re.search(r"^TLSDirectory \{(.*?)^\}", text, re.S | re.M)
    ours = page.values("TLS directory")
    # llvm-readobj has a text for an image without the directory too
    if not found or not hasattr(image, "DIRECTORY_ENTRY_TLS"):
        same(path, "images without a TLS directory", ours, {})
        return
    for name in ("StartAddressOfRawData", "EndAddressOfRawData", "AddressOfIndex", "AddressOfCallBacks", "SizeOfZeroFill"):
        same(path, f"TLS {name}", ours.get(name), number(found[1], name))
    rows = (re.match(r"  callback 0x(\w+)", row) for row in page.rows("TLS directory"))
    same(path, "TLS callbacks", [int(it[1], 16) for it in rows if it], callbacks(image))


def callbacks(image):
    """The callbacks as pefile reads the bytes."""
    at = image.DIRECTORY_ENTRY_TLS.struct.AddressOfCallBacks
    width = 8 if image.PE_TYPE == pefile.OPTIONAL_HEADER_MAGIC_PE_PLUS else 4
    found = []
    while at:
        value = int.from_bytes(image.get_data(at - image.OPTIONAL_HEADER.ImageBase + width * len(found), width), "little")
        if value == 0:
            break
        found.append(value)
    return found


def compare_functions(path, page, text, image):
    base = image.OPTIONAL_HEADER.ImageBase
    functions = text.split("RuntimeFunction {")[1:]
    theirs = []
    for it in functions:
        values = [re.search(rf"{name}: .*?\(?(0x[0-9A-F]+)\)?$", it, re.M) for name in ("StartAddress", "EndAddress", "UnwindInfoAddress")]
        theirs.append([int(value[1], 16) - base for value in values if value])
    rows = [re.findall(r"0x([0-9a-f]+)", row.split("  ", 4)[1] + " " + " ".join(row.split("  ")[2:4])) for row in page.rows("Functions")[1:]]
    ours = [[int(value, 16) for value in row] for row in rows]
    if image.FILE_HEADER.Machine == 0x8664:
        same(path, "tables of functions of AMD64", ours, theirs)
        COUNTS["functions of AMD64"] += len(ours)
    elif image.FILE_HEADER.Machine == 0xAA64:
        entries = re.findall(r"^  +Function: .*?\(?(0x[0-9A-F]+)\)?$", text, re.M)
        same(path, "tables of functions of ARM64", [row[0] for row in ours], [int(it, 16) - base for it in entries])
        COUNTS["functions of ARM64"] += len(ours)


def compare(program, path):
    page = Page(output(program, "show", *PARTS, path))
    if ": accepted: " not in page.title:
        COUNTS["refused"] += 1
        return
    COUNTS["files"] += 1
    for row in page.rows("Findings"):
        COUNTS[f"finding {row.split()[0]}"] += 1
        print(f"{path}: {row.strip()}")
    image = pefile.PE(path, fast_load=True)
    image.parse_data_directories([pefile.DIRECTORY_ENTRY["IMAGE_DIRECTORY_ENTRY_TLS"]])
    text = output("llvm-readobj", "--coff-debug-directory", "--coff-load-config", "--coff-tls-directory", path)
    compare_debug(path, page, text)
    compare_load(path, page, text)
    compare_tls(path, page, text, image)
    if page.rows("Functions"):
        compare_functions(path, page, output("llvm-readobj", "--unwind", path), image)


def images(paths):
    """The files that begin as images, each once."""
    for path in paths:
        walk = [os.path.join(top, name) for top, _, names in os.walk(path) for name in names] if os.path.isdir(path) else [path]
        for file in sorted(walk):
            if os.path.isfile(file) and not os.path.islink(file):
                with open(file, "rb") as opened:
                    if opened.read(2) == b"MZ":
                        yield file


def main():
    if len(sys.argv) < 3:
        sys.exit(__doc__)
    for path in images(sys.argv[2:]):
        compare(sys.argv[1], path)
    for what, count in sorted(COUNTS.items()):
        print(f"{count:>9,} {what}")
    sys.exit(1 if COUNTS["differences"] else 0)


if __name__ == "__main__":
    main()
