#!/usr/bin/env python3
"""Compares the sections, exports, imports and base relocations of images with those that pefile reads of them.

    PETOOL_LIBRARY=.. ./compare.py FILE...

Prints each table that differs, then how many rows were equal and how many seconds both took. The status is 1 where one differs.
This is no part of the tests: it needs pefile (Debian's python3-pefile) and real files.
"""

import argparse
import collections
import sys
import time

import pefile

import petool

DIRECTORIES = ["IMAGE_DIRECTORY_ENTRY_EXPORT", "IMAGE_DIRECTORY_ENTRY_IMPORT", "IMAGE_DIRECTORY_ENTRY_BASERELOC"]


def target_of(target):
    """An RVA, or a forwarder's string."""
    if isinstance(target, petool.Rva):
        return target.rva
    key = b"#%d" % target.key if isinstance(target.key, int) else target.key
    return target.module + b"." + key


def ours(data):
    with petool.Image(data) as image:
        return {
            "sections": [(it.name, it.rva, it.virtual_size, it.characteristics) for it in image.sections],
            "names": {it.name: target_of(it.target) for it in image.exports.names()},
            "ordinals": {it.ordinal: target_of(it.target) for it in image.exports.ordinals()},
            "imports": [(it.module, it.key, it.slot) for it in image.imports],
            "fixups": [(it.field, it.kind) for it in image.fixups],
        }


def theirs(data):
    # pefile has lower limits by default
    pe = pefile.PE(data=data, fast_load=True, max_symbol_exports=1 << 20, max_repeated_symbol=1 << 20)
    pe.parse_data_directories([pefile.DIRECTORY_ENTRY[it] for it in DIRECTORIES])
    base = pe.OPTIONAL_HEADER.ImageBase
    exports = [it for it in pe.DIRECTORY_ENTRY_EXPORT.symbols if it.address] if hasattr(pe, "DIRECTORY_ENTRY_EXPORT") else []
    imports = [(module.dll, it) for module in getattr(pe, "DIRECTORY_ENTRY_IMPORT", []) for it in module.imports]
    blocks = getattr(pe, "DIRECTORY_ENTRY_BASERELOC", [])
    return {
        "sections": [(it.Name.rstrip(b"\0"), it.VirtualAddress, it.Misc_VirtualSize, it.Characteristics) for it in pe.sections],
        "names": {it.name: it.forwarder or it.address for it in exports if it.name is not None},
        "ordinals": {it.ordinal: it.forwarder or it.address for it in exports},
        "imports": [(dll, it.ordinal if it.import_by_ordinal else it.name, it.address - base) for dll, it in imports],
        "fixups": [(it.rva, it.type) for block in blocks for it in block.entries if it.type],
    }


def timed(read, data, seconds):
    start = time.perf_counter()
    tables = read(data)
    seconds[read.__name__] += time.perf_counter() - start
    return tables


def main():
    parser = argparse.ArgumentParser(description=__doc__, formatter_class=argparse.RawDescriptionHelpFormatter)
    parser.add_argument("files", nargs="+", metavar="FILE")
    rows, seconds, files, refused, differ = collections.Counter(), collections.Counter(), 0, 0, 0
    for path in parser.parse_args().files:
        with open(path, "rb") as file:
            data = file.read()
        try:
            mine = timed(ours, data, seconds)
        except petool.FormatFault as fault:
            refused += 1
            print(f"{path}: {fault}")
            continue
        others = timed(theirs, data, seconds)
        files += 1
        for table, found in mine.items():
            rows[table] += len(found)
            if found != others[table]:
                differ += 1
                print(f"{path}: {table} differ: {len(found)} and {len(others[table])}")
    print(f"{files} files, {refused} refused, {differ} tables differ;", ", ".join(f"{n} {table}" for table, n in rows.items()))
    print(f"petool {seconds['ours']:.2f} s, pefile {seconds['theirs']:.2f} s")
    return 1 if differ else 0


if __name__ == "__main__":
    sys.exit(main())
