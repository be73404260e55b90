#!/usr/bin/env python3
"""Compares what `petool resource` and `petool show` say of resources with pefile and llvm-readobj:

    resources_shown.py PETOOL PATH...

PETOOL is the program. A PATH is an image or a folder, of which all files that begin with MZ are used; those that petool refuses, and
those without resources, are counted and left out. Compared with pefile are the names that lead to each leaf, its RVA, size and code
page, the bytes of the first leaf of each type as `petool resource --raw` writes them, the fixed version information and its strings;
with llvm-readobj the numbers of the leaves; with wrestool of icoutils the files of groups of icons. These files, and
those of bitmaps, are opened by Pillow. Differences are printed one by one; the last lines count the files, the leaves and the strings.
Needs llvm-readobj and wrestool on the PATH, and the Python packages pefile and Pillow.
"""

import collections
import io
import os
import re
import subprocess
import sys

import pefile
from PIL import Image

sys.dont_write_bytecode = True

from pages_resources import TYPES  # noqa: E402

GROUP_ICON, PICTURES = 14, (2, 12, 14)

NUMBERS = {name: number for number, name in TYPES.items()}
COUNTS = collections.Counter()


def same(path, what, ours, theirs):
    COUNTS[what] += 1
    if ours != theirs:
        COUNTS["differences"] += 1
        print(f"{path}: {what}: petool {repr(ours)[:200]}, other {repr(theirs)[:200]}")


def output(*words):
    return subprocess.run(words, capture_output=True, check=False).stdout


def part(word, is_type):
    """A name of a path: a number, or a text."""
    if word.isdigit():
        return int(word)
    if word[0] == '"':
        return re.sub(rb"\\x(..)", lambda it: bytes.fromhex(it[1].decode()), word[1:-1].encode()).decode("utf-8", "replace")
    return NUMBERS[word] if is_type and word in NUMBERS else word


def listed(petool, path):
    """The leaves that petool lists: the names that lead to each, its RVA, size and code page, and its path."""
    for line in output(petool, "resource", path).decode().splitlines():
        found = re.fullmatch(r"(.*) rva 0x([0-9a-f]{8}) size 0x([0-9a-f]{8}) code-page (\d+)", line)
        names = tuple(part(word, k == 0) for k, word in enumerate(re.findall(r'"[^"]*"|[^/]+', found[1])))
        yield (names, int(found[2], 16), int(found[3], 16), int(found[4])), found[1]


def name_of(entry):
    return entry.id if entry.name is None else str(entry.name)


def leaves_of(directory, names=()):
    """The leaves that pefile finds."""
    for entry in directory.entries:
        path = (*names, name_of(entry))
        if hasattr(entry, "directory"):
            yield from leaves_of(entry.directory, path)
        else:
            it = entry.data.struct
            yield path, it.OffsetToData, it.Size, it.CodePage


def read_by_llvm(path):
    """The RVA and the size of each leaf that llvm-readobj finds."""
    text = output("llvm-readobj", "--coff-resources", path).decode("utf-8", "replace")
    rvas = re.findall(r"DataRVA: 0x([0-9A-F]+)", text)
    return list(zip((int(it, 16) for it in rvas), map(int, re.findall(r"DataSize: (\d+)", text))))


def strings_of(image):
    """The tables, keys and values of the first version resource that pefile finds."""
    for info in getattr(image, "FileInfo", [[]])[0]:
        for table in getattr(info, "StringTable", []):
            for key, value in table.entries.items():
                yield table.LangID.decode(), key.decode("utf-8", "replace"), value.decode("utf-8", "replace")


def rows_of(page, heading):
    """The rows of a part of a page."""
    blocks = [block.split("\n") for block in page.strip("\n").split("\n\n")]
    return next((block[1:] for block in blocks if block[0] == heading), [])


def shown_strings(page):
    rows = (row.split("  ", 3)[1:] for row in rows_of(page, "Version information"))
    return [tuple("" if it == '""' else it for it in row) for row in rows if len(row) == 3 and re.fullmatch("[0-9A-Fa-f]{8}", row[0])]


def compare_version(petool, path, image):
    page = output(petool, "show", "--resources", path).decode("utf-8", "replace")
    same(path, "version strings", sorted(shown_strings(page)), sorted(strings_of(image)))
    COUNTS["strings"] += len(shown_strings(page))
    fixed = getattr(image, "VS_FIXEDFILEINFO", [])
    shown = [re.findall(r"\d+", row)[-4:] for row in rows_of(page, "Version information") if re.match("  (File|Product)Version +", row)]
    if fixed:
        halves = (fixed[0].FileVersionMS, fixed[0].FileVersionLS), (fixed[0].ProductVersionMS, fixed[0].ProductVersionLS)
        same(path, "versions", shown[:2], [[str(n) for half in it for n in (half >> 16, half & 0xFFFF)] for it in halves])


def size_of(data):
    """The size of the picture in a file as Pillow reads it."""
    try:
        with Image.open(io.BytesIO(data)) as image:
            image.load()
            return image.size
    except (OSError, SyntaxError, ValueError) as error:
        return str(error)


def compare_picture(petool, path, names, word):
    """Compares the file of a group, and opens it and that of a bitmap."""
    written = output(petool, "resource", path, word)
    kind, name, language = names
    if kind == GROUP_ICON:
        # wrestool writes as many bytes more as the group has; of a cursor it counts the hot spot as a part of the picture
        other = output("wrestool", "-x", f"-t{kind}", f"-n{name}", f"-L{language}", path)
        more = len(output(petool, "resource", "--raw", path, word))
        same(path, "files of pictures", written, other[: len(written)] if len(other) == len(written) + more else other)
    COUNTS["pictures"] += 1
    if isinstance(size_of(written), str):
        COUNTS["pictures that Pillow does not open"] += 1
        print(f"{path}: {word}: {size_of(written)}")


def compare(petool, path):
    try:
        image = pefile.PE(path)
    except pefile.PEFormatError:
        COUNTS["not read by pefile"] += 1
        return
    if subprocess.run([petool, "resource", path], capture_output=True, check=False).returncode:
        COUNTS["refused"] += 1
        return
    if not hasattr(image, "DIRECTORY_ENTRY_RESOURCE"):
        COUNTS["without resources"] += 1
        return
    found = list(listed(petool, path))
    COUNTS["leaves"] += len(found)
    same(path, "files", [it for it, _ in found], list(leaves_of(image.DIRECTORY_ENTRY_RESOURCE)))
    same(path, "leaves of llvm-readobj", sorted(it[1:3] for it, _ in found), sorted(read_by_llvm(path)))
    kinds = set()
    for (names, rva, size, _), word in found:
        if names[0] not in kinds:
            same(path, "bytes", output(petool, "resource", "--raw", path, word), image.get_data(rva, size))
        kinds.add(names[0])
        if names[0] in PICTURES and len(names) == 3:
            compare_picture(petool, path, names, word)
    if 16 in kinds:
        compare_version(petool, path, image)


def files_in(paths):
    for path in paths:
        names = [path] if os.path.isfile(path) else sorted(os.path.join(at, it) for at, _, them in os.walk(path) for it in them)
        for name in filter(os.path.isfile, names):
            with open(name, "rb") as file:
                if file.read(2) == b"MZ":
                    yield name


def main(words):
    if len(words) < 2:
        print(__doc__, file=sys.stderr)
        return 2
    for path in files_in(words[1:]):
        compare(words[0], path)
    for what, count in sorted(COUNTS.items()):
        print(f"{count:8} {what}")
    return 1 if COUNTS["differences"] else 0


if __name__ == "__main__":
    sys.exit(main(sys.argv[1:]))
