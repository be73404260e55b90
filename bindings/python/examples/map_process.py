#!/usr/bin/env python3
"""Maps images at bases, and writes the bytes of their address space to a file, from the lowest base to the highest end."""

import argparse
import pathlib
import sys
from typing import BinaryIO, List, Tuple

import petool


def entry_of(word: str) -> Tuple[str, bytes, int]:
    """The module's name, the bytes and the base from a word BASE=FILE, whose base is hexadecimal."""
    digits, name = word.split("=", 1)
    path, base = pathlib.Path(name), int(digits, 16)
    if not 0 <= base < 1 << 64:
        raise ValueError
    return path.name, path.read_bytes(), base


def write(space: petool.Space, names: List[str], out: BinaryIO) -> None:
    """Writes each image at its place in a file, and prints a line for each."""
    lowest = min(it.base for it in space.images)
    for name, it in zip(names, space.images):
        out.seek(it.base - lowest)
        out.write(space.read(it.base, it.size))
        print(f"{name}: {it.base:#x}, {it.size:#x} bytes, at {it.base - lowest:#x} of {out.name}")
    print(f"{len(space.bindings)} slots are bound")


def main() -> int:
    arguments = argparse.ArgumentParser(description=__doc__)
    arguments.add_argument("out")
    arguments.add_argument("images", nargs="+", metavar="BASE=FILE", type=entry_of)
    arguments.add_argument("--known", action="store_true", help="leave slots of modules that are not among the files")
    words = arguments.parse_args()
    names = [name for name, _, _ in words.images]
    try:
        with petool.Space(words.images, known=words.known) as space, open(words.out, "wb") as out:
            write(space, names, out)
    except petool.FormatFault as fault:
        print(f"{names[fault.image] if fault.image < len(names) else 'the set'}: {fault}", file=sys.stderr)
        return 1
    return 0


if __name__ == "__main__":
    try:
        sys.exit(main())
    except (OSError, ValueError) as error:  # the second if an offset is too high for a file
        print(f"map_process: {error}", file=sys.stderr)
        sys.exit(3)
