#!/usr/bin/env python3
"""Makes the pages of `petool show` and `petool at` apart from petool, and compares them with what petool prints, byte for byte.

    pages.py [OPTION..] FILE...         prints the pages of images and objects, with the options of `petool show`
    pages.py --at [OPTION] FILE PLACE.. prints what stands at places of a file, with the options of `petool at`
    pages.py --cases FOLDER DATA        compares the cases `show` and `at` of FOLDER/views, of files in DATA, with FOLDER/views.answers
    pages.py --beside PETOOL FILE...    compares `PETOOL show --all FILE` with the page, file by file

The files are read by docs/FORMAT.md, docs/FAULTS.md and Microsoft's "PE Format", from which the names come; the words of faults come
from docs/FAULTS.md. Of petool only the layout of pages is taken: rows, columns and widths. `--cases` and `--beside` tell each
difference by its first lines, count at last, and end with status 1 where something differs. A case whose fault lacks the values behind
its words, and that has no other difference, is told apart.
"""

import datetime
import itertools
import os
import re
import shlex
import struct
import subprocess
import sys

sys.dont_write_bytecode = True

from pages_names import (CLASSES, DIRECTORIES, DLL_FLAGS, FIXUPS, IMAGE_FLAGS, MACHINES, RELOCATIONS, SEARCHES,  # noqa: E402
                         SECTION_FLAGS, SELECTIONS, SUBSYSTEMS)
import pages_resources  # noqa: E402
import pages_symbols  # noqa: E402
import pages_tables  # noqa: E402
import pages_trust  # noqa: E402
from pages_reader import FIXUP_WIDTHS, Headers, Image, Object, Refused, is_object, uint  # noqa: E402

FAULTS = os.path.join(os.path.dirname(os.path.abspath(__file__)), "..", "docs", "FAULTS.md")
#: The tables of which a page has a row for each entry, if an option requests them.
TABLES = ("exports", "imports", "relocations", "symbols", *pages_tables.TABLES, *pages_trust.TRUST)
#: How many columns a page has that is not told the width of its terminal.
WIDTH = 100
SECTION_WORDS = {0: "UNDEFINED", 0xFFFF: "ABSOLUTE", 0xFFFE: "DEBUG"}
# control characters, and those that change the direction of the text around them
UNSAFE = re.compile("[\0-\x1f\x7f-\x9f\u061c\u200e\u200f\u2028-\u202e\u2066-\u2069\ufeff]")


def fault_words(number):
    """What is at a fault's place, and what is wrong, by its row of docs/FAULTS.md."""
    with open(FAULTS, encoding="utf-8") as file:
        row = re.search(rf"^\| {number} \|.*\| ([^|]*?): ([^|]*) \| [^|]* \|$", file.read(), re.M)
    return row[1], row[2]


def fault_row(fault):
    """The last row of a refused file's page."""
    subject, rule = fault_words(fault.number)
    at = "at RVA" if fault.kind == "rva" else "at"
    return f"\nFault {fault.number}: {subject} {at} 0x{fault.place:x}: {rule}" + (f": {fault.detail}" if fault.detail else "")


# ---- names and numbers


def shown(name, limit=4096):
    """A name as a page shows it: UTF-8 unchanged, otherwise in quotes; `..` is behind it if it is cut."""
    if len(name) > limit:
        return shown(name[:limit], limit) + ".."
    try:
        text = name.decode()
    except UnicodeDecodeError:
        text = ""
    if text and text[0] != '"' and not UNSAFE.search(text):
        return text
    return '"' + "".join(chr(c) if 0x20 <= c <= 0x7E and c not in b'"\\' else f"\\x{c:02x}" for c in name) + '"'


def key_words(key):
    return f"#{key}" if isinstance(key, int) else shown(key)


def counted(count, one):
    return f"{count:,} {one}" + ("" if count == 1 else "s")


def hex_width(numbers, least):
    return max([least, *(len(f"{number:x}") for number in numbers)])


def flag_words(names, flags):
    """The names of flags, each after a blank, and then the flags without names."""
    rest = flags & ~sum(1 << bit for bit in names)
    return [f" {name}" for bit, name in names.items() if flags >> bit & 1] + [f" 0x{rest:x}"] * bool(rest)


def with_flags(row, words, indent):
    """A row with flags behind it; those that do not fit are on further rows, behind so many blanks."""
    rows = [row]
    for word in words:
        if len(rows[-1]) > indent and len(rows[-1] + word) > WIDTH:
            rows.append(" " * indent)
        rows[-1] += word
    return "\n".join(rows)


def section_flag_words(flags):
    """The flags that no column shows: neither content nor permissions, nor the number of the alignment."""
    return flag_words(SECTION_FLAGS, flags & ~0xE0F000E0)


def permissions(flags):
    return "".join(letter if flags >> bit & 1 else "-" for letter, bit in (("r", 30), ("w", 31), ("x", 29)))


def use_words(flags):
    """How a section may be used, and what it holds."""
    content = next((word for word, bit in (("code", 5), ("data", 6), ("bss", 7)) if flags >> bit & 1), "-")
    return f"{permissions(flags)} {content:<5}"


def name_of(names, number):
    """A name of the format, or the number if it has none."""
    return names.get(number, f"0x{number:04x}")


def place_of(image, rva):
    """Where an RVA lies: the words, and the file offset if it has one."""
    if rva >= image.size:
        return "outside the image", None
    piece = image.piece(rva)
    if piece is None:
        return "no section", None
    start, _, section = piece
    if section is None:
        return f"headers+0x{rva:x}", rva
    offset = rva - start
    return f"{shown(section.name, 40)}+0x{offset:x}", section.pointer + offset if offset < section.in_file else None


def section_words(image, rva):
    """The section in which an RVA lies, or what else it is in."""
    piece = image.piece(rva)
    if piece is None:
        return place_of(image, rva)[0]
    return shown(piece[2].name, 40) if piece[2] else "headers"


# ---- rows of images


def stamp_row(stamp, is_reproducible=False):
    date = datetime.datetime.fromtimestamp(stamp, datetime.timezone.utc)
    limits = datetime.datetime(1990, 1, 1, tzinfo=date.tzinfo), datetime.datetime(2038, 1, 19, 3, 14, 7, tzinfo=date.tzinfo)
    reason = "before 1990" if date < limits[0] else "past 2038-01-19" if date > limits[1] else ""
    reason = "reproducible build" if is_reproducible else reason
    if stamp in (0, 0xFFFFFFFF):
        return f"  Time stamp   not set (0x{stamp:08x})"
    return "  Time stamp   " + (f"0x{stamp:08x} (no date: {reason})" if reason else f"{date:%Y-%m-%d %H:%M:%S} UTC (0x{stamp:08x})")


def is_reproducible(image):
    """Whether the debug directory has an entry of type 16, in the bytes that the file holds from its beginning on."""
    rva, size = image.directory(6)
    start, end, section = image.piece(rva) or (0, 0, None)
    held = min(end, start + section.in_file) if section else end
    return bool(rva) and 16 in (uint(image.bytes, at + 12, 4) for at in range(rva, min(held, rva + size) - 27, 28))


def image_kind(it):
    form, kind = "PE32" if it.magic == 0x10B else "PE32+", "library" if it.flags & 0x2000 else "program"
    return f"{form} {kind} for {name_of(MACHINES, it.machine)}, "


def header_rows(it, image, wanted):
    """The rows of the headers; without an image the entry point has no place."""
    entry = f"0x{it.entry:x}"
    if image and it.entry:
        place, offset = place_of(image, it.entry)
        entry += f"  {place}" + ("" if offset is None else f"  file 0x{offset:x}")
    yield from ("", stamp_row(it.stamp, image and is_reproducible(image)), f"  Linker       {it.linker_major}.{it.linker_minor}")
    yield (f"  Subsystem    {name_of(SUBSYSTEMS, it.subsystem)} {it.subsystem_major}.{it.subsystem_minor} "
           f"(operating system {it.os_major}.{it.os_minor}, image {it.image_major}.{it.image_minor})")
    yield f"  Base         0x{it.base:x}, 0x{it.size:x} bytes; {'must stand there' if it.flags & 1 else 'may be moved'}"
    yield f"  Entry        {entry if it.entry else 'none'}"
    yield f"  Alignment    0x{it.alignment:x} in memory, 0x{it.file_alignment:x} in the file; headers 0x{it.headers:x} bytes"
    yield f"  Stack        0x{it.stack:x} reserved, 0x{it.stack_commit:x} committed; heap 0x{it.heap:x}, 0x{it.heap_commit:x}"
    yield f"  CheckSum     0x{it.checksum:08x}"
    yield with_flags("  Image flags ", flag_words(IMAGE_FLAGS, it.flags) or [" none"], 14)
    yield with_flags("  DLL flags   ", flag_words(DLL_FLAGS, it.dll_flags) or [" none"], 14)
    if image and it.symbols and it.symbol_count:
        yield f"  Symbols      {counted(it.symbol_count, 'record')} at file 0x{it.symbols:x}{'' if 'symbols' in wanted else ', not read'}"
    end = max([it.headers, *(section.pointer + section.raw_size for section in it.sections if section.pointer)])
    if image and it.file_size > end:
        yield f"  Overlay      {counted(it.file_size - end, 'byte')} after the sections, from file 0x{end:x}"
    if image and it.is_as_in_memory:
        yield "  Layout       that of memory, it seems: SizeOfImage bytes, and zeros in place of raw data, where tables are read"


def section_rows(sections):
    names = [shown(it.name, 40) for it in sections]
    name, size = max([8, *map(len, names)]), hex_width((it.extent for it in sections), 6)
    rva, file = hex_width((it.rva for it in sections), 6), hex_width((it.pointer for it in sections), 6)
    yield f"\nSections ({len(sections):,})"
    yield f"   #  {'name':<{name}}  flags       {'RVA':<{rva + 5}}{'bytes':<{size + 5}}{'file':<{file + 5}}in file"
    for i, it in enumerate(sections):
        row = (f"{i:4}  {names[i]:<{name}}  {use_words(it.flags)}   0x{it.rva:0{rva}x}   0x{it.extent:0{size}x}   0x{it.pointer:0{file}x}"
               f"   0x{it.in_file:0{size}x}")
        yield with_flags(row, section_flag_words(it.flags), name + 7)


def runs(rows, key):
    """The runs of rows with one key, each with the key."""
    return [(found, list(run)) for found, run in itertools.groupby(rows, key)]


def module_of(row):
    return row[0][:256]


def module_list(image, room, wanted):
    """The modules that imports come from: on the row of the imports if they fit, or below it, as many as fit there."""
    modules = [f"{shown(module, 255)} {len(rows):,}" for module, rows in runs(image.imports, module_of)]
    text = ", ".join(modules)
    if not modules or len(text) + 2 <= room:
        return f": {text}" if modules else ""
    if len(text) + 6 <= WIDTH:
        return f":\n      {text}"
    end = " below" if "imports" in wanted else ": --imports"
    # the room for the number of the others is that of the number of all
    least = len(f" and {len(modules):,} more{end}")
    fits = [count for count in range(len(modules)) if len("      " + ", ".join(modules[:count])) + least <= WIDTH]
    count = max(fits, default=0)
    if count == 0:
        return f" from {counted(len(modules), 'module')}{end}"
    return f":\n      {', '.join(modules[:count])} and {len(modules) - count:,} more{end}"


def summary(image, tables, index, room, wanted):
    """What was read from a directory's table."""
    if index == 0 and image.exports is not None:
        forwarders = sum(isinstance(target, tuple) for _, target, _ in image.exports)
        return f"{counted(len(image.exports), 'export')}, {counted(forwarders, 'forwarder')}"
    if index == 1 and image.imports is not None:
        count = counted(len(image.imports), "import")
        return count + module_list(image, room - len(count), wanted)
    if index == 5 and image.fixups is not None:
        pages = [field >> 12 for field, _ in image.fixups]
        where = f" in {counted(len(set(pages)), 'page')}" if pages == sorted(pages) else ", not in the order of their pages"
        return counted(len(pages), "fixup") + where
    return pages_tables.summary(tables, index, shown)


def directory_rows(image, tables, wanted):
    present = [(i, *it) for i, it in enumerate(image.headers.directories) if any(it)]
    places = ["file offset" if i == 4 else section_words(image, rva) for i, rva, _ in present]
    name, place = max([6, *(len(DIRECTORIES[i]) for i, _, _ in present)]), max([12, *map(len, places)])
    rva_width, size_width = hex_width((it[1] for it in present), 6), hex_width((it[2] for it in present), 5)
    yield f"\nTables ({len(present):,})"
    for (i, rva, size), where in zip(present, places):
        row = f"{i:4}  {DIRECTORIES[i]:<{name}}   0x{rva:0{rva_width}x}   0x{size:0{size_width}x}   {where:<{place}}   "
        yield row + summary(image, tables, i, WIDTH - len(row), wanted)


def export_rows(image):
    places = [place_of(image, target)[0] for _, target, _ in image.exports if isinstance(target, int)]
    ordinal, place = max([4, *(len(str(it[0])) for it in image.exports)]), max([5, *map(len, places)])
    rva = hex_width((target for _, target, _ in image.exports if isinstance(target, int)), 6)
    yield f"\nExports ({len(image.exports):,})"
    for number, target, names in image.exports:
        names = "  " + ", ".join(map(shown, names)) if names else ""
        if isinstance(target, int):
            where = place_of(image, target)[0]
            yield f"{number:{ordinal}}  0x{target:0{rva}x}  " + (f"{where:<{place}}{names}" if names else where)
        else:
            yield f"{number:{ordinal}}  forwarded to {shown(target[0])}.{key_words(target[1])}{names}"


def import_rows(imports, title="Imports"):
    width = hex_width((slot for _, slot, _ in imports), 6)
    yield f"\n{title} ({len(imports):,})"
    for module, rows in runs(imports, module_of):
        yield f"  {shown(module, 255)} ({len(rows):,})"
        yield from (f"    0x{slot:0{width}x}  {key_words(key)}" for _, slot, key in rows)


def fixup_rows(fixups):
    width = hex_width((field for field, _ in fixups), 6)
    yield f"\nBase relocations ({len(fixups):,})"
    for (page, kind), rows in runs(fixups, lambda it: (it[0] >> 12, it[1])):
        for i in range(0, len(rows), 16):
            fields = "".join(f" {field & 0xFFF:03x}" for field, _ in rows[i : i + 16])
            yield f"  0x{page << 12:0{width}x}  {FIXUPS[kind]:<7} {fields}"


def table_rows(image, tables, wanted):
    """What a page shows after the headers."""
    yield from pages_tables.identity_rows(tables, shown)
    yield from section_rows(image.headers.sections)
    yield from directory_rows(image, tables, wanted)
    if "exports" in wanted and image.exports is not None:
        yield from export_rows(image)
    if "imports" in wanted and image.imports is not None:
        yield from import_rows(image.imports)
    if "imports" in wanted and tables.delayed.imports:
        yield from import_rows(tables.delayed.imports, "Delay-loaded imports")
    if "relocations" in wanted and image.fixups is not None:
        yield from fixup_rows(image.fixups)
    yield from pages_tables.rows(tables, wanted, shown, lambda rva: place_of(image, rva)[0], UNSAFE, fault_words)


def with_symbols(findings, symbols):
    """The findings of tables, with those of the symbol table before those of resources."""
    first = next((k for k, (number, _) in enumerate(findings) if number in range(181, 221)), len(findings))
    return findings[:first] + symbols + findings[first:]


def image_page(file, wanted):
    """Whether an image is accepted, what it is, and the rows of its page."""
    kind, rows, fault, headers, image = "", [], None, None, None
    try:
        headers = Headers(file)
        image = Image(file, headers)
        image.read_tables()
    except Refused as refused:
        fault = refused
    if headers:
        kind, rows = image_kind(headers), [*header_rows(headers, image, wanted)]
    findings, trust = [], pages_trust.Trust(file, headers) if headers and "trust" in wanted else None
    if image:
        tables = pages_tables.Tables(image, file, trust.findings if trust else [])
        rows += table_rows(image, tables, wanted)
        findings = tables.findings
        if "symbols" in wanted:
            symbols = pages_symbols.ImageSymbols(file, headers)
            rows += symbol_rows(symbols, [shown(section.name, 40) for section in symbols.sections]) if symbols.table else []
            findings = with_symbols(findings, symbols.findings)
    elif headers:
        rows += section_rows(headers.sections)
    if trust:
        rows += pages_trust.trust_rows(trust, shown, image.imports if image else None)
    rows += pages_tables.finding_rows(findings, trust.findings if trust else [], fault_words)
    return fault, kind, rows


# ---- objects


def object_rows(it, wanted):
    yield from ("", stamp_row(it.stamp), with_flags("  Flags       ", flag_words(IMAGE_FLAGS, it.flags) or [" none"], 14))
    yield f"  Symbols      {len(it.symbols):,}"
    names, number = [shown(section.name, 40) for section in it.sections], max(4, len(str(len(it.sections))))
    name, size = max([8, *map(len, names)]), hex_width((section.raw_size for section in it.sections), 6)
    yield f"\nSections ({len(it.sections):,})"
    yield f"{'#':>{number}}  {'name':<{name}}  flags       {'bytes':<{size + 5}}{'in file':<{size + 5}}relocations"
    for i, section in enumerate(it.sections):
        row = (f"{i + 1:{number}}  {names[i]:<{name}}  {use_words(section.flags)}   0x{section.raw_size:0{size}x}"
               f"   0x{section.in_file:0{size}x}   {len(section.relocations):11}")
        yield with_flags(row, section_flag_words(section.flags), number + name + 3)
    if "relocations" in wanted:
        yield from relocation_rows(it, names)
    if "symbols" in wanted:
        yield from symbol_rows(it, names)


def relocation_rows(it, names):
    symbols = {symbol[0]: " " + shown(symbol[1]) for symbol in it.symbols}
    yield f"\nRelocations ({sum(len(section.relocations) for section in it.sections):,})"
    for number, (section, name) in enumerate(zip(it.sections, names), 1):
        if section.relocations:
            yield f"  {number} {name} ({len(section.relocations):,})"
        for at, symbol, kind in section.relocations:
            held = 0 <= at - section.rva < section.in_file
            file = f"  file 0x{section.pointer + at - section.rva:06x}" if held else ""
            yield f"    0x{at:06x}{file}  {name_of(RELOCATIONS[it.machine], kind)}  #{symbol}{symbols.get(symbol, '')}"


def names_of(names, section):
    return names[section - 1] if section <= len(names) else shown(b"")


def symbol_rows(it, names):
    width, digits = max(4, len(str(it.records))), len(str(len(it.sections)))
    yield f"\nSymbols ({len(it.symbols):,})"
    for index, name, value, section, kind, storage, records in it.symbols:
        is_in = section not in SECTION_WORDS
        place = f"{section if is_in else '':>{digits}} {names_of(names, section) if is_in else SECTION_WORDS[section]:<12}"
        word = CLASSES.get(storage, f"class {storage:7}")
        yield f"{index:{width}}  0x{value:08x}  {place}  {word:<13}  {'function' if kind == 0x20 else '':8}  {shown(name)}"
        for k, record in enumerate(records, 1):
            yield f"{index + k:{width}}    {record_words(record, storage, kind, is_in)}"


def named(number, names):
    return f"{number} {names[number]}" if number in names else f"{number}"


def record_words(record, storage, kind, is_in_section):
    """What an auxiliary record says, by its symbol's class."""
    if storage == 2 and kind == 0x20 and is_in_section:
        tag, size, lines, following = struct.unpack_from("<4I", record)
        return f"function of 0x{size:x} bytes, begins #{tag}, line numbers at 0x{lines:x}, next #{following}"
    if storage == 3:
        size, relocations, lines, checksum, number, selection = struct.unpack_from("<IHHIHB", record)
        words = f"section of 0x{size:x} bytes, relocations {relocations}, line numbers {lines}, checksum 0x{checksum:08x}"
        comdat = f", COMDAT {named(selection, SELECTIONS)}" if selection else ""
        return words + comdat + (f" with section {number}" if selection == 5 else "")
    if storage == 101:
        return f"line {uint(record, 4, 2)}, next #{uint(record, 12, 4)}"
    if storage == 103:
        return f"file {shown(record.partition(bytes(1))[0])}"
    if storage == 105:
        return f"else #{uint(record, 0, 4)}, search {named(uint(record, 4, 4), SEARCHES)}"
    return f"bytes {record.hex(' ')}"


def object_page(file, wanted):
    try:
        it = Object(file)
        return None, f"COFF object for {name_of(MACHINES, it.machine)}, ", [*object_rows(it, wanted)]
    except Refused as fault:
        return fault, "COFF object, ", []


# ---- pages


def split_options(words):
    """The options at the beginning of words, without their dashes, and the other words."""
    options = list(itertools.takewhile(lambda word: word.startswith("--"), words))
    return [option[2:] for option in options], words[len(options) :]


def page_of(name, file, options):
    """The page of a file, and its fault."""
    wanted = TABLES if "all" in options else options
    fault, kind, rows = (object_page if is_object(file) else image_page)(file, wanted)
    title = f"{shown(os.fsencode(name))}: {'refused' if fault else 'accepted'}: {kind}{counted(len(file), 'byte')}"
    return "\n".join([title, *rows, *([fault_row(fault)] if fault else [])]) + "\n", fault


# ---- places

COFF_FIELDS = "Machine:2 NumberOfSections:2 TimeDateStamp:4 PointerToSymbolTable:4 NumberOfSymbols:4 SizeOfOptionalHeader:2 Characteristics:2"
OPTIONAL_FIELDS = """Magic:2 MajorLinkerVersion:1 MinorLinkerVersion:1 SizeOfCode:4 SizeOfInitializedData:4 SizeOfUninitializedData:4
    AddressOfEntryPoint:4 BaseOfCode:4 BaseOfData:4 ImageBase:4 SectionAlignment:4 FileAlignment:4 MajorOperatingSystemVersion:2
    MinorOperatingSystemVersion:2 MajorImageVersion:2 MinorImageVersion:2 MajorSubsystemVersion:2 MinorSubsystemVersion:2
    Win32VersionValue:4 SizeOfImage:4 SizeOfHeaders:4 CheckSum:4 Subsystem:2 DllCharacteristics:2 SizeOfStackReserve:4
    SizeOfStackCommit:4 SizeOfHeapReserve:4 SizeOfHeapCommit:4 LoaderFlags:4 NumberOfRvaAndSizes:4"""
SECTION_FIELDS = """Name:8 VirtualSize:4 VirtualAddress:4 SizeOfRawData:4 PointerToRawData:4 PointerToRelocations:4
    PointerToLinenumbers:4 NumberOfRelocations:2 NumberOfLinenumbers:2 Characteristics:4"""
#: The same of PE32+, where an address and sizes have 8 bytes and one field is missing.
WIDE_FIELDS = re.sub("(ImageBase|SizeOf(?:Stack|Heap)[a-zA-Z]*):4", r"\1:8", OPTIONAL_FIELDS.replace("BaseOfData:4", ""))


class NoPlace(Exception):
    """What is said in place of an answer."""


def field_at(fields, offset):
    """The field that has an offset in its header, or None."""
    for name, width in (field.split(":") for field in fields.split()):
        if 0 <= offset < int(width):
            return name
        offset -= int(width)
    return None


def header_words(file, headers, offset):
    """What stands at an offset of an image's headers."""
    pe = uint(file, 60, 4)
    if offset < pe:
        return "MS-DOS header" if offset < 60 else "offset of the signature" if offset < 64 else "MS-DOS stub"
    offset -= pe
    if offset < 4:
        return "signature"
    if offset < 24:
        return f"{field_at(COFF_FIELDS, offset - 4)} of the COFF header"
    fields, size = OPTIONAL_FIELDS if headers.magic == 0x10B else WIDE_FIELDS, uint(file, pe + 20, 2)
    offset -= 24
    if offset < size:
        name, rest = field_at(fields, offset), offset - (96 if headers.magic == 0x10B else 112)
        if name:
            return f"{name} of the optional header"
        if rest < 8 * len(headers.directories):
            return f"{'Size' if rest & 4 else 'VirtualAddress'} of directory {rest // 8}, {DIRECTORIES[rest // 8]}"
        return "optional header"
    index, offset = divmod(offset - size, 40)
    return f"{field_at(SECTION_FIELDS, offset)} of section header {index}" if index < len(headers.sections) else ""


def in_rows(rva, start, width, count):
    """The index of the row that has an RVA, or None."""
    return (rva - start) // width if 0 <= rva - start < width * count else None


def export_row(image, rva):
    start = image.directory(0)[0]
    count, names, *tables = (uint(image.bytes, start + at, 4) for at in (20, 24, 28, 32, 36))
    if 0 <= rva - start < 40:
        return "export directory"
    for name, table, width, rows in zip(("address", "name pointer", "ordinal"), tables, (4, 4, 2), (count, names, names)):
        index = in_rows(rva, table, width, rows)
        if index is not None:
            return f"entry {index} of the export {name} table"
    return ""


def import_row(image, rva):
    width, at = 8 if image.wide else 4, image.directory(1)[0]
    for number in itertools.count():
        if at <= rva < at + 20:
            return f"descriptor {number} of the import table"
        lookup, _, _, name, slots = struct.unpack_from("<5I", image.bytes, at)
        if name == 0 or slots == 0:
            return ""
        count = next(i for i in itertools.count() if not uint(image.bytes, (lookup or slots) + width * i, width))
        index = in_rows(rva, lookup, width, count + 1) if lookup else None
        if index is not None:
            return f"entry {index} of the lookup table of descriptor {number}"
        at += 20
    return ""


def fixup_row(image, rva):
    (at, size), end = image.directory(5), sum(image.directory(5))
    for number in itertools.count():
        length = uint(image.bytes, at + 4, 4)
        if end - at < 8 or not length or not size:
            return ""
        if at <= rva < at + length:
            return f"block {number} of the base relocations" if rva < at + 8 else f"entry {(rva - at - 8) // 2} of block {number} of the base relocations"
        at += length
    return ""


def row_words(file, image, rva):
    """What stands at an RVA in the headers or in a table."""
    words = header_words(file, image.headers, rva) if rva < image.headers.headers else ""
    if not words and image.exports is not None and image.directory(0)[0]:
        words = export_row(image, rva)
    if not words and image.imports is not None and image.directory(1)[0]:
        words = import_row(image, rva)
    if not words and image.fixups is not None and image.directory(5)[0]:
        words = fixup_row(image, rva)
    others = [i for i, (start, size) in enumerate(image.headers.directories) if i not in (0, 1, 4, 5, 12) and start and start <= rva < start + size]
    return words or (f"{DIRECTORIES[others[0]]} table" if others else "")


def distance(rva, target):
    return f"+0x{rva - target:x}" if rva > target else ""


def nearest_words(file, image, rva):
    """The last export at an RVA or before it in its section, and the last symbol there if it is after this."""
    start, _, section = image.piece(rva) or (0, 0, None)
    if not section:
        return ""
    words, at = "", [it for it in image.exports or [] if isinstance(it[1], int) and start <= it[1] <= rva]
    if at:
        ordinal, start, names = max(at, key=lambda it: (it[1], -it[0]))
        words, start = f"  export {shown(names[0]) if names else f'#{ordinal}'}{distance(rva, start)}", start + 1
    symbols = pages_symbols.ImageSymbols(file, image.headers).places()
    near = [(place, name) for place, name in symbols if start <= place <= rva]
    if near:
        place, name = max(near, key=lambda it: it[0])
        words += f"  symbol {shown(name)}{distance(rva, place)}"
    return words


def field_words(image, rva):
    """The base relocation in whose field an RVA is, and where the address in the field points."""
    for field, kind in image.fixups or []:
        width = FIXUP_WIDTHS[kind]
        if not field <= rva < field + width:
            continue
        words, address = f"  field of {width} bytes", uint(image.bytes, field, width)
        to = address - image.headers.base
        if width == 2:
            return words
        return words + (f" that points to RVA 0x{to:x} {place_of(image, to)[0]}" if 0 <= to < image.size else f" that holds 0x{address:x}")
    return ""


def numbers_of(numbers):
    """The numbers of sections in words: at most 16 of them, and how many more there are."""
    told, more = [str(number) for number in numbers[:16]], len(numbers) - 16
    last = f"{more} more" if more > 0 else told.pop()
    return f"{', '.join(told)} and {last}"


def section_called(sections, word, first, offset):
    """The index of the section with this number, or with this name if no other has it."""
    found = [i for i, it in enumerate(sections) if (i + first == int(word) if word.isdigit() else it.name == os.fsencode(word))]
    if len(found) > 1:
        raise NoPlace(f"sections {numbers_of([i + first for i in found])} have this name: {found[0] + first}+{offset:x} is the place in the first")
    if not found:
        raise NoPlace("there is no such section")
    return found[0]


def in_section(sections, word, first, size_of):
    """The section of SECTION+OFFSET, its index, and the offset."""
    name, _, offset = word.rpartition("+")
    offset = int(offset, 16)
    index = section_called(sections, name, first, offset)
    if offset >= size_of(sections[index]):
        raise NoPlace("the place is outside the section")
    return sections[index], index, offset


def unlaid_words(file, headers, offset):
    """What of a file that is not laid out has an offset, or None."""
    trust, found = pages_trust.Trust(file, headers), []
    found += [(at, length, f"certificate {k}") for k, (at, length, *_) in enumerate(trust.certificates)]
    found += [(*trust.table, "certificate table")] if trust.table else []
    found += [(headers.symbols, 18 * headers.symbol_count, "symbol table")]
    end = max([headers.headers, *(it.pointer + it.raw_size for it in headers.sections if it.pointer)])
    found += [(end, len(file), "overlay")]
    named = [f"file 0x{offset:x}  {words} +0x{offset - at:x}" for at, size, words in found if at <= offset < at + size]
    return named[0] if named and offset < len(file) else None


def rva_of(file, headers, options, place):
    """The RVA of a place: an RVA itself, an address of the image at its ImageBase, a file offset, or an offset in a section."""
    if "+" in place:
        section, _, offset = in_section(headers.sections, place, 0, lambda it: it.extent)
        return section.rva + offset
    place = int(place, 16)
    rva = place - headers.base if "address" in options else place
    if "file" in options and place >= headers.headers:
        held = (it for it in headers.sections if it.pointer <= place < it.pointer + it.in_file)
        rva = next((it.rva + place - it.pointer for it in held), -1)
    if not 0 <= rva < headers.size:
        words = unlaid_words(file, headers, place) if "file" in options else None
        raise NoPlace(words or "the place is outside the image")
    return rva


def where(headers, rva, offset, words):
    in_file = "not in the file" if offset is None else f"file 0x{offset:x}"
    return f"RVA 0x{rva:x}  address 0x{(headers.base + rva) % 2**64:x}  {in_file}  {words}"


def image_place(file, image, options, place):
    """What `at` prints for a place of an image that is laid out."""
    rva = rva_of(file, image.headers, options, place)
    (words, offset), piece = place_of(image, rva), image.piece(rva)
    words += " " + permissions(piece[2].flags) if piece and piece[2] else ""
    slots = [(module, key) for module, slot, key in image.imports or [] if slot <= rva < slot + (8 if image.wide else 4)]
    words += nearest_words(file, image, rva) + (f"  slot of {shown(slots[0][0])} {key_words(slots[0][1])}" if slots else "") + field_words(image, rva)
    tables = pages_tables.Tables(image, file)
    words += pages_tables.function_words(tables, rva)
    row = row_words(file, image, rva)
    leaf = pages_resources.place_words(tables.resources, rva, UNSAFE)
    return f"{where(image.headers, rva, offset, words)}{'  ' + row if row else ''}{leaf}\n  {image.bytes[rva : rva + 16].hex(' ')}\n"


def place_by_headers(file, headers, options, place):
    """The same of an image that is not, since a section breaks a rule."""
    rva = rva_of(file, headers, options, place)
    held = [it for it in headers.sections if it.rva <= rva < it.end] if rva >= headers.headers else []
    if "+" in place:
        held = [in_section(headers.sections, place, 0, lambda it: it.extent)[0]]
    if "file" in options and rva >= headers.headers:
        held = [it for it in headers.sections if it.pointer <= int(place, 16) < it.pointer + it.in_file]
    if held:
        behind = rva - held[0].rva
        offset = held[0].pointer + behind if behind < held[0].in_file and held[0].pointer + behind < len(file) else None
        return where(headers, rva, offset, f"{shown(held[0].name, 40)}+0x{behind:x} {permissions(held[0].flags)}") + "\n"
    if rva >= headers.headers:
        return where(headers, rva, None, "no section") + "\n"
    words = header_words(file, headers, rva)
    return where(headers, rva, rva, f"headers+0x{rva:x}" + (f"  {words}" if words else "")) + "\n"


#: How many bytes the relocations of a type patch, where that is not 4; none for ABSOLUTE and PAIR.
WIDTHS = {"ABSOLUTE": 0, "PAIR": 0, "ADDR64": 8, "SECTION": 2, "SECREL7": 1, "DIR16": 2, "REL16": 2, "SEG12": 2, "MOV32": 8, "THUMB_MOV32": 8}


def object_words(file, it, offset):
    """What stands at an offset of an object's file."""
    optional, table = uint(file, 16, 2), uint(file, 8, 4)
    if offset < 20:
        return f"{field_at(COFF_FIELDS, offset)} of the COFF header"
    if offset < 20 + optional:
        return "optional header"
    index, behind = divmod(offset - 20 - optional, 40)
    if index < len(it.sections):
        return f"{field_at(SECTION_FIELDS, behind)} of section header {index + 1}"
    index = in_rows(offset, table, 18, uint(file, 12, 4)) if table else None
    if index is not None:
        return f"record {index} of the symbol table"
    strings = table + 18 * uint(file, 12, 4)
    if table and strings <= offset < strings + max(4, uint(file, strings, 4)):
        return "string table"
    for number, section in enumerate(it.sections, 1):
        index = in_rows(offset, section.relocations_at, 10, section.relocation_count)
        if index is not None:
            return f"relocation {index} of section {number}"
    return ""


def object_place(file, it, options, place):
    """What `at` prints for a place of an object."""
    if "+" in place:
        section, index, offset = in_section(it.sections, place, 1, lambda it: it.raw_size)
    elif "file" in options:
        at = int(place, 16)
        if at >= len(file):
            raise NoPlace("the place is outside the file")
        held = [(i, section) for i, section in enumerate(it.sections) if section.pointer <= at < section.pointer + section.in_file]
        if not held:
            words = object_words(file, it, at)
            return f"file 0x{at:x}{'  ' + words if words else ''}\n  {file[at : at + 16].hex(' ')}\n"
        index, section = held[0]
        offset = at - section.pointer
    else:
        raise NoPlace("an object has no RVAs: SECTION+OFFSET or an offset in its file is a place")
    names = {symbol[0]: " " + shown(symbol[1]) for symbol in it.symbols}
    line = f"section {index + 1}  {shown(section.name, 40)}+0x{offset:x} {permissions(section.flags)}"
    line += f"  file 0x{section.pointer + offset:x}" if section.in_file else "  not in the file"
    for at, symbol, kind in section.relocations:
        word = RELOCATIONS[it.machine].get(kind)
        if at <= offset + section.rva < at + (WIDTHS.get(word, 4) if word else 1):
            line += f"  relocation {word or f'0x{kind:04x}'} #{symbol}{names.get(symbol, '')}"
            break
    near = [it for it in it.symbols if it[3] == index + 1 and it[2] <= offset]
    if near:
        _, name, value, *_ = max(near, key=lambda it: (it[2], (it[5], it[2], it[1]) != (3, 0, section.name), -it[0]))
        line += f"  symbol {shown(name)}" + (f"+0x{offset - value:x}" if offset > value else "")
    held = file[section.pointer : section.pointer + section.in_file]
    return f"{line}\n" + (f"  {held[offset : offset + 16].hex(' ')}\n" if held else "")


def answers(places, answer):
    """The answers for places, in their order."""
    for place in places:
        try:
            yield answer(place)
        except NoPlace as said:
            yield f"{said}\n"


def fault_line(fault):
    return f"fault {fault.number} image 0 {fault.kind} 0x{fault.place:08x}\n"


def text_at(file, options, places):
    """What `at` prints for places of a file, and the file's fault."""
    if is_object(file):
        try:
            it = Object(file)
        except Refused as fault:
            return fault_line(fault), fault
        return "".join(answers(places, lambda place: object_place(file, it, options, place))), None
    headers = image = fault = None
    try:
        headers = Headers(file)
        image = Image(file, headers)
        image.read_tables()
    except Refused as refused:
        fault = refused
    begin = fault_line(fault) if fault else ""
    if image:
        return begin + "".join(answers(places, lambda place: image_place(file, image, options, place))), fault
    if headers:
        return begin + "".join(answers(places, lambda place: place_by_headers(file, headers, options, place))), fault
    return begin, fault


# ---- comparing


def read(path):
    with open(path, "rb") as file:
        return file.read()


def changed(data, words):
    """The file of a case, changed as its words say."""
    file = bytearray(read(os.path.join(data, words[0])))
    for place, value in (word.split("=") for word in words[1:]):
        if place == "len":
            length = int(value, 16)
            file = file[:length].ljust(length, b"\0")
        else:
            at, value = int(place, 16), bytes.fromhex(value)
            file[at : at + len(value)] = value
    return bytes(file)


def case_text(data, line):
    """What a case prints, and the fault."""
    kind, *words = line.split(" ")
    options, words = split_options(words)
    if kind == "at":
        text, fault = text_at(changed(data, words[1:]), options, words[0].split(","))
    else:
        text, fault = page_of(words[0], changed(data, words), options)
    return text + f"status {1 if fault else 0}\n", fault


def tell(what, theirs, ours):
    """Prints the first lines that differ."""
    print(f"{what}: differs")
    pairs = itertools.zip_longest(theirs.split("\n"), ours.split("\n"))
    for one, other in itertools.islice(((one, other) for one, other in pairs if one != other), 3):
        print(f"  petool {one!r}\n  script {other!r}")


def compare_cases(folder, data):
    with open(os.path.join(folder, "views.answers"), encoding="utf-8", newline="") as file:
        stored = dict(block.split("\n", 1) for block in re.split(r"^== ", file.read(), flags=re.M)[1:])
    with open(os.path.join(folder, "views"), encoding="utf-8") as file:
        lines = [line for line in file.read().split("\n") if line.startswith(("show ", "at "))]
    differing = lacking = 0
    for line in lines:
        text, fault = case_text(data, line)
        found = stored.get(line, "")
        if found != text and fault and fault.detail and found == text.replace(f": {fault.detail}\n", "\n"):
            lacking += 1
            print(f"{line}: lacks ': {fault.detail}'")
        elif found != text:
            differing += 1
            tell(line, found, text)
    print(f"{len(lines)} cases, {differing} differ, {lacking} lack the values behind their fault's words")
    return differing + lacking


def compare_files(command, paths):
    differing = 0
    for path in paths:
        ours, _ = page_of(path, read(path), ["all"])
        environment = {name: value for name, value in os.environ.items() if name != "COLUMNS"}
        theirs = subprocess.run([*command, "show", "--all", path], stdout=subprocess.PIPE, env=environment).stdout.decode()
        if theirs != ours:
            differing += 1
            tell(path, theirs, ours)
    print(f"{len(paths)} files, {differing} differ")
    return differing


def write_texts(texts):
    """Prints texts, with an empty line between two; returns whether one is of a refused file."""
    sys.stdout.buffer.write("\n".join(text for text, _ in texts).encode())
    return any(fault for _, fault in texts)


def main(words):
    if words[:1] == ["--cases"]:
        failed = compare_cases(words[1], words[2])
    elif words[:1] == ["--beside"]:
        failed = compare_files(shlex.split(words[1]), words[2:])
    elif words[:1] == ["--at"]:
        options, (path, *places) = split_options(words[1:])
        failed = write_texts([text_at(read(path), options, places)])
    elif words:
        options, paths = split_options(words)
        failed = write_texts([page_of(path, read(path), options) for path in paths])
    else:
        print(__doc__)
        return 2
    return 1 if failed else 0


if __name__ == "__main__":
    sys.exit(main(sys.argv[1:]))
