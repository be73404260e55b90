#!/usr/bin/env python3
"""Makes images whose tables share their strings, and objects whose records share strings or relocations, or whose names collide:
crafted.py FOLDER SIZE writes one file of each kind into the folder, and each set into its own folder.

SIZE is the length of the shared string in bytes, 1048576 for the largest files that the format allows; the numbers of entries
are in proportion. So a file of a SIZE four times as large is four times as large.
"""

import os
import struct
import sys

BASE = 0x1000
HEADERS = 0x200


def image(data, directories):
    """An image of one section with these bytes at RVA 0x1000; a directory is its index, its RVA and its size."""
    size = (BASE + len(data) + 0xFFF) & ~0xFFF
    dos = b"MZ" + bytes(58) + struct.pack("<I", 64)
    coff = struct.pack("<HHIIIHH", 0x14C, 1, 0, 0, 0, 224, 0x2102)
    optional = struct.pack("<HBBIIIIII", 0x10B, 14, 0, 0, 0, 0, 0, 0, 0)
    optional += struct.pack("<IIIHHHHHHIIIIHHIIIIII", 0x10000000, 0x1000, 0x200, 6, 0, 0, 0, 6, 0, 0,
                            size, HEADERS, 0, 2, 0, 0x100000, 0x1000, 0x100000, 0x1000, 0, 16)
    table = [(0, 0)] * 16
    for index, rva, length in directories:
        table[index] = (rva, length)
    optional += b"".join(struct.pack("<II", *entry) for entry in table)
    section = struct.pack("<8sIIIIIIHHI", b".data", len(data), BASE, len(data), HEADERS, 0, 0, 0, 0, 0xC0000040)
    return (dos + b"PE\0\0" + coff + optional + section).ljust(HEADERS, b"\0") + data


def exports(names, texts, addresses, inside=False, entries_of=None):
    """An export table with the names at these offsets of the strings, and these addresses, which with `inside` are offsets of
    forwarders in the strings. Each name has the first address, unless the indexes of others are given."""
    entries = BASE + 40
    pointers = entries + 4 * len(addresses)
    ordinals = pointers + 4 * len(names)
    place = ordinals + 2 * len(names)
    directory = struct.pack("<IIHHIIIIIII", 0, 0, 0, 0, place, 1, len(addresses), len(names), entries, pointers, ordinals)
    data = directory
    data += struct.pack(f"<{len(addresses)}I", *(place + a if inside else a for a in addresses))
    data += struct.pack(f"<{len(names)}I", *(place + name for name in names))
    data += struct.pack(f"<{len(names)}H", *(entries_of or [0] * len(names)))
    data += texts
    return image(data, [(0, BASE, len(data) if inside else 40)])


def imports(modules, lookups, texts):
    """An import table: for each module the offset of its name in the strings, and of its imports' names."""
    descriptors = BASE
    tables = descriptors + 20 * (len(modules) + 1)
    slots = tables + 4 * sum(len(some) + 1 for some in lookups)
    place = slots + 4 * sum(len(some) + 1 for some in lookups)
    heads, entries = [], []
    for name, some in zip(modules, lookups):
        heads.append(struct.pack("<IIIII", tables + 4 * len(entries), 0, 0, place + name, slots + 4 * len(entries)))
        entries += [place + text for text in some] + [0]
    data = b"".join(heads) + bytes(20)
    data += struct.pack(f"<{len(entries)}I", *entries) * 2
    return image(data + texts, [(1, BASE, 20 * (len(modules) + 1))])


def coff_object(sections, symbols, texts, relocations=b""):
    """An object of sections, each an 8-byte name and a count of relocations, which all sections share; symbols by their section
    numbers, all with the name at the string table's offset 4; and these strings."""
    behind = 20 + 40 * len(sections)
    coff = struct.pack("<HHIIIHH", 0x8664, len(sections), 0, behind + len(relocations), len(symbols), 0, 0)
    headers = b"".join(struct.pack("<8sIIIIIIHHI", name, 0, 0, 0, 0, behind, 0, count, 0, 0x60000020) for name, count in sections)
    records = b"".join(struct.pack("<IIIHHBB", 0, 4, 0, section, 0, 2, 0) for section in symbols)
    return coff + headers + relocations + records + struct.pack("<I", 4 + len(texts)) + texts


#: If these bytes follow any 9 bytes, std's hasher with a fixed seed, FoldHasher, gives 0 for the name.
COLLIDING = bytes.fromhex("157c4a7fb979379e")


def named_object(names, texts):
    """An object with only symbols, whose names have these offsets in the strings."""
    coff = struct.pack("<HHIIIHH", 0x8664, 0, 0, 20, len(names), 0, 0)
    records = b"".join(struct.pack("<IIIHHBB", 0, 4 + name, 0, 0, 0, 2, 0) for name in names)
    return coff + records + struct.pack("<I", 4 + len(texts)) + texts


def object_of_names(names):
    """An object of symbols with these names of one length."""
    texts = b"".join(name + b"\0" for name in names)
    return named_object(range(0, len(texts), len(texts) // len(names)), texts)


def object_kinds(size):
    """The kinds of objects, by name: those that are refused are refused for their last record. To show the names of `shown_..`
    completely is to write the product of two sizes; `show` writes the beginning of each."""
    count = min(size // 16, 65534)
    text = b"a" * (size - 1) + b"\0"
    good, bad = struct.pack("<IIH", 0, 0, 4), struct.pack("<IIH", 0, 5, 4)
    sections = [(b".text", count)] * (size // 1024)
    yield "relocations_refused", lambda: coff_object(sections, [0], b"a\0", good * (count - 1) + bad)
    yield "relocations_shared", lambda: coff_object(sections[: size // 16384], [0], b"a\0", good * count)
    yield "symbols_refused", lambda: coff_object([], [0] * (size // 4) + [77], text)
    yield "sections_refused", lambda: coff_object([(b"/4", 0)] * (size // 32) + [(b"/2", 0)], [0], text)
    yield "shown_symbols", lambda: coff_object([], [0] * (size // 4), text)
    yield "shown_sections", lambda: coff_object([(b"/4", 0)] * (size // 32), [0], text)
    yield "names_colliding", lambda: object_of_names([b"%09d" % k + COLLIDING for k in range(size // 16)])
    yield "names_one_end", lambda: object_of_names([b"%09d" % k + text[:256] for k in range(size // 256)])
    yield "names_ends", lambda: named_object(range(min(size // 16, 5750)), text)
    yield "names_ends_refused", lambda: named_object(range(size // 16), text)


def kinds(size):
    """The kinds of images, by name."""
    count = size // 16
    text = b"a" * (size - 1) + b"\0"
    other = b"b" + b"a" * (size - 2) + b"\0"
    last = lambda byte: b"a" * (size - 2) + byte + b"\0"
    forwarder = b"a" * (size // 2) + b"." + b"b" * (size // 2) + b"\0"
    ordinal = b"a." + b"#" + b"0" * size + b"1\0"
    yield "names_one", lambda: exports([0] * count, text, [16])
    yield "names_two", lambda: exports([0, size] * (count // 2), text * 2, [16])
    yield "names_ends", lambda: exports(list(range(count)), text, [16])
    yield "names_ends_down", lambda: exports(list(range(count - 1, -1, -1)), text, [16])
    yield "names_ends_of_two", lambda: exports([o for k in range(count // 2) for o in (k, size + k)], text * 2, [16])
    yield "names_ends_of_others", lambda: exports([o for k in range(1, count // 2) for o in (k, size + k)], text + other, [16])
    yield "names_last_bytes", lambda: exports([o for k in range(count // 2) for o in (k, size + k)], last(b"x") + last(b"y"), [16])
    yield "imports_one", lambda: imports([0], [[2] * (16 * count)], b"m\0" + bytes(2) + text)
    yield "imports_ends", lambda: imports([0], [list(range(2 + 16 * count - 2, 2, -1))], b"m\0" + bytes(2) + text)
    yield "imports_module", lambda: imports([4] * (65000 * count // 65536), [[0]] * (65000 * count // 65536), b"\0\0m\0" + text)
    yield "forwarders_one", lambda: exports([], forwarder, [0] * count, inside=True)
    yield "forwarders_ends", lambda: exports([], forwarder, list(range(min(count, size // 2 - 1), 0, -1)), inside=True)
    yield "forwarders_ordinal", lambda: exports([], ordinal, [0] * count, inside=True)


#: The name of the module from which the files of sets import, and the room of a hint.
EXPORTER = b"m.dll\0"
HINT = bytes(2)


def importer(names, texts):
    """A file that imports these names of the strings."""
    return imports([0], [[len(EXPORTER) + name for name in names]], EXPORTER + HINT + texts)


def forwarding(count, text):
    """A module whose names are ends of a string, all forwarded to one more name of it, and a file that imports them."""
    count = min(count, 65535)
    strings = text + b"m.z\0z\0"
    forwarder, name = len(text), len(text) + 4
    exporter = exports([*range(count), name], strings, [forwarder, len(strings)], inside=True, entries_of=[0] * count + [1])
    return exporter, importer(range(count), text)


def importing(names, texts, count):
    """A module that exports these names of the strings, and a file that imports them in turn, `count` times in all."""
    return exports(names, texts, [16]), importer([names[k % len(names)] for k in range(count)], texts)


def sets(size):
    """The kinds of two files of which one imports from the other, by name."""
    count = size // 16
    text = b"a" * (size - 1) + b"\0"
    length = size // 64
    alike = b"".join(b"a" * length + bytes([33 + k, 0]) for k in range(90))
    yield "one", lambda: importing([0], text, size)
    yield "two", lambda: importing([0, size // 2], text, size)
    yield "last_byte", lambda: importing([(length + 2) * k for k in range(90)], alike, size)
    yield "ends_up", lambda: importing(list(range(count - 1, -1, -1)), text, count)
    yield "ends_down", lambda: importing(list(range(count)), text, count)
    yield "ends_forwarded", lambda: forwarding(count, text)


def main():
    folder, size = sys.argv[1], int(sys.argv[2])
    os.makedirs(folder, exist_ok=True)
    for made, ending in ((kinds(size), "dll"), (object_kinds(size), "obj")):
        for name, make in made:
            with open(os.path.join(folder, f"{name}.{ending}"), "wb") as file:
                file.write(make())
    for name, make in sets(size):
        inner = os.path.join(folder, f"set_{name}")
        os.makedirs(inner, exist_ok=True)
        for file, data in zip(("m.dll", "c.dll"), make()):
            with open(os.path.join(inner, file), "wb") as written:
                written.write(data)


if __name__ == "__main__":
    main()
