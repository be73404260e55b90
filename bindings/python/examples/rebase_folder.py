#!/usr/bin/env python3
"""Gives the DLLs of a folder bases that do not overlap, in the order of their names, and writes them to another folder.

A DLL that is refused is reported, and left out.
"""

import argparse
import pathlib
import sys

import petool

# bases are multiples of this
UNIT = 0x10000
# no image can be there
LAST_ADDRESS = 2**64 - 1


def hexadecimal(word: str) -> int:
    address = int(word, 16)
    if not 0 <= address <= LAST_ADDRESS:
        raise ValueError
    return address


def rebase_folder(folder: pathlib.Path, out: pathlib.Path, base: int) -> None:
    paths = sorted(path for path in folder.iterdir() if path.name.lower().endswith(".dll"))
    out.mkdir(exist_ok=True)
    for path in paths:
        try:
            with petool.open(path) as image:
                (out / path.name).write_bytes(image.rebased(base))
                print(f"{path.name}: {base:#x}")
                base = min(base + -(-image.headers.size_of_image // UNIT) * UNIT, LAST_ADDRESS)
        except petool.FormatFault as fault:
            print(f"{path.name}: {fault}")


def main() -> int:
    arguments = argparse.ArgumentParser(description=__doc__)
    arguments.add_argument("folder", type=pathlib.Path)
    arguments.add_argument("out", type=pathlib.Path)
    arguments.add_argument("--base", type=hexadecimal, default=0x10000000, metavar="HEX", help="the first base; by default 10000000")
    words = arguments.parse_args()
    try:
        rebase_folder(words.folder, words.out, words.base)
    except OSError as error:
        print(f"rebase_folder: {error}", file=sys.stderr)
        return 3
    return 0


if __name__ == "__main__":
    sys.exit(main())
