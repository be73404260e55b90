#!/usr/bin/env python3
"""Compares `petool object` with the text that the format gives for an object, byte for byte: objects.py PETOOL PATH...

PETOOL is the program. A PATH is an object, an archive of objects (each of its members is one), or a folder, of which all files of
these two kinds are used. What petool prints, and its status, are compared with a dump that is made here by the rules of
docs/FORMAT.md only. Differences are printed one by one; the last line counts the objects, those that are accepted, and those that
differ.
"""

import os
import struct
import subprocess
import sys
import tempfile

MACHINES = {0x14C: "I386", 0x8664: "AMD64", 0xAA64: "ARM64", 0x1C0: "ARM", 0x1C4: "ARMNT"}
CLASSES = {0: "NULL", 2: "EXTERNAL", 3: "STATIC", 6: "LABEL", 101: "FUNCTION", 103: "FILE", 104: "SECTION", 105: "WEAK_EXTERNAL"}
TYPES = {
    0x8664: {0: "ABSOLUTE", 1: "ADDR64", 2: "ADDR32", 3: "ADDR32NB", 4: "REL32", 5: "REL32_1", 6: "REL32_2", 7: "REL32_3",
             8: "REL32_4", 9: "REL32_5", 10: "SECTION", 11: "SECREL"},
    0x14C: {0: "ABSOLUTE", 6: "DIR32", 7: "DIR32NB", 10: "SECTION", 11: "SECREL", 20: "REL32"},
}
SECTIONS = {0: "undefined", 0xFFFF: "absolute", 0xFFFE: "debug"}
ARCHIVE = b"!<arch>\n"


class Fault(Exception):
    """A fault, by its number and its file offset."""


def quoted(text):
    """A string in double quotes, with `\\x` and two digits for what is not printable."""
    return '"' + "".join(chr(c) if 0x20 <= c <= 0x7E and c not in b'"\\' else f"\\x{c:02x}" for c in text) + '"'


def up_to_zero(text):
    """The bytes before the first zero byte, or all of them."""
    return text.split(b"\0", 1)[0]


def named(names, number):
    """A number, and its name if it has one."""
    return f"{number} {names[number]}" if number in names else str(number)


def string_table(file, at):
    """The string table that begins at an offset; there is none at the file's end."""
    if at == len(file):
        return b""
    size = struct.unpack_from("<I", file, at)[0] if at + 4 <= len(file) else 1
    if 0 < size < 4 or at + size > len(file):
        raise Fault(68, at)
    return file[at:at + size]


def string_at(strings, offset):
    """The string at an offset of the string table, or None."""
    end = strings.find(b"\0", offset) if 4 <= offset < len(strings) else -1
    return None if end < 0 else strings[offset:end]


def section_name(field, strings):
    """The name of a section: from the string table, if the field is `/` and decimal digits."""
    digits = up_to_zero(field[1:])
    if field[:1] == b"/" and digits and all(48 <= c <= 57 for c in digits) and not any(field[1 + len(digits):]):
        return string_at(strings, int(digits))
    return up_to_zero(field)


def symbol_name(field, strings):
    """The name of a symbol: from the string table, if the field's first four bytes are zeros and the others an offset."""
    if field[:4] != bytes(4):
        return up_to_zero(field)
    offset = struct.unpack("<I", field[4:])[0]
    return string_at(strings, offset) if offset else b""


def read_sections(file, first, count, strings):
    """The sections: for each its name, size, flags, whether its bytes are absent, and its relocations' offset and number."""
    sections = []
    for at in range(first, first + 40 * count, 40):
        _, _, size, pointer, relocations, _, number, _, flags = struct.unpack_from("<IIIIIIHHI", file, at + 8)
        absent = pointer == 0 or size == 0 or flags & 0x80 != 0
        name = section_name(file[at:at + 8], strings)
        if not absent and pointer + size > len(file):
            raise Fault(64, at)
        if flags & 0x1000000 and number == 0xFFFF:
            raise Fault(65, at)
        if number and relocations + 10 * number > len(file):
            raise Fault(66, at)
        if name is None:
            raise Fault(69, at)
        sections.append((name, size, flags, absent, relocations, number))
    return sections


def read_symbols(file, table, count, sections, strings):
    """The symbols: for each the index of its record, its name, and its fields."""
    symbols, index = [], 0
    while index < count:
        at = table + 18 * index
        name = symbol_name(file[at:at + 8], strings)
        value, section, kind, storage, aux = struct.unpack_from("<IHHBB", file, at + 8)
        if name is None:
            raise Fault(69, at)
        if index + 1 + aux > count:
            raise Fault(70, at)
        if sections < section < 0xFFFE:
            raise Fault(71, at)
        symbols.append((index, name, value, section, kind, storage, aux))
        index += 1 + aux
    return symbols


def aux_line(record, section, kind, storage):
    """The contents of an auxiliary record, in the form for its symbol."""
    if storage == 103:
        return "file " + quoted(up_to_zero(record))
    if storage == 105:
        return "weak %d %d" % struct.unpack_from("<II", record)
    if storage == 3:
        return "section %d %d %d 0x%08x %d %d" % struct.unpack_from("<IHHIHB", record)
    if storage == 101:
        return "lines %d %d" % struct.unpack_from("<4xH6xI", record)
    if storage == 2 and kind == 0x20 and section not in SECTIONS:
        return "function %d %d 0x%08x %d" % struct.unpack_from("<IIII", record)
    return "raw " + record.hex()


def dump(file):
    """The dump of an object, or its first fault."""
    if len(file) < 20:
        raise Fault(61, len(file))
    machine, count, stamp, table, records, optional, flags = struct.unpack_from("<HHIIIHH", file)
    if file[:2] == b"MZ" or file[:8] == ARCHIVE or (machine, count) == (0, 0xFFFF):
        raise Fault(62, 0)
    first = 20 + optional
    if first + 40 * count > len(file):
        raise Fault(63, 2)
    records = records if table else 0
    if table + 18 * records > len(file):
        raise Fault(67, 8)
    strings = string_table(file, table + 18 * records) if table else b""
    sections = read_sections(file, first, count, strings)
    symbols = read_symbols(file, table, records, count, strings)
    relocations = [[struct.unpack_from("<IIH", file, at + 10 * k) for k in range(number)] for *_, at, number in sections]
    for (*_, at, _), those in zip(sections, relocations):
        for k, (_, symbol, _) in enumerate(those):
            if symbol >= records:
                raise Fault(72, at + 10 * k)
    lines = [f"Machine 0x{machine:04x} {MACHINES.get(machine, 'other')}", f"TimeDateStamp 0x{stamp:08x}", f"Characteristics 0x{flags:04x}"]
    for number, ((name, size, bits, absent, *_), those) in enumerate(zip(sections, relocations), 1):
        word = "absent" if absent else "bytes"
        lines.append(f"section {number} {quoted(name)} size 0x{size:08x} {word} flags 0x{bits:08x} relocations {len(those)}")
        for address, symbol, kind in those:
            lines.append(f"reloc 0x{address:08x} symbol {symbol} type {named(TYPES.get(machine, {}), kind)}")
    for index, name, value, section, kind, storage, aux in symbols:
        lines.append(f"symbol {index} {quoted(name)} value 0x{value:08x} section {SECTIONS.get(section, section)} "
                     f"type 0x{kind:04x} class {named(CLASSES, storage)} aux {aux}")
        for k in range(index + 1, index + 1 + aux):
            lines.append(f"aux {k} {aux_line(file[table + 18 * k:table + 18 * k + 18], section, kind, storage)}")
    return "".join(line + "\n" for line in [*lines, "end"])


def expected(file):
    """What petool prints for an object, and its status."""
    try:
        return dump(file).encode("latin-1"), 0
    except Fault as fault:
        number, offset = fault.args
        return f"fault {number} image 0 file 0x{offset:08x}\n".encode(), 1


def members(archive):
    """The members of an archive except its indexes and its table of names, each with its number."""
    at, number = len(ARCHIVE), 0
    while at + 60 <= len(archive):
        size = int(archive[at + 48:at + 58])
        if archive[at:at + 16].rstrip() not in (b"/", b"//", b"/SYM64/"):
            yield f"member {number}", archive[at + 60:at + 60 + size]
        at += 60 + size + size % 2
        number += 1


def objects(paths):
    """The objects at these paths, each under a name."""
    for path in paths:
        if os.path.isdir(path):
            inside = (os.path.join(folder, name) for folder, _, names in sorted(os.walk(path)) for name in sorted(names))
            yield from objects(it for it in inside if it.endswith((".a", ".o", ".obj")) and not os.path.islink(it))
            continue
        with open(path, "rb") as it:
            file = it.read()
        if file[:8] == ARCHIVE:
            yield from ((f"{path}, {name}", member) for name, member in members(file))
        else:
            yield path, file


def main():
    petool, *paths = sys.argv[1:]
    count = accepted = different = 0
    with tempfile.TemporaryDirectory() as folder:
        path = os.path.join(folder, "object")
        for name, file in objects(paths):
            with open(path, "wb") as it:
                it.write(file)
            text, status = expected(file)
            ran = subprocess.run([petool, "object", path], stdout=subprocess.PIPE, stderr=subprocess.DEVNULL, check=False)
            count += 1
            accepted += status == 0
            if (ran.stdout, ran.returncode) != (text, status):
                different += 1
                print(f"{name}: petool answers {ran.returncode}, and not {status}, or another text")
    print(f"{count} objects, {accepted} accepted, {different} different")
    return 1 if different else 0


if __name__ == "__main__":
    sys.exit(main())
