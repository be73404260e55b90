#!/usr/bin/env python3
"""Compares `petool show --all` with what pefile and LLVM say of the same files, value by value: shown.py PETOOL PATH...

PETOOL is the program, and what words come before the files: `'petool show --all'`. A PATH is an image, an object, or a folder, of
which all files that begin as one of the two are used. Of an image the headers, the flags, the sections, the directories, the
exports, the imports and the base relocations are compared with pefile's, long section names with objdump's; of an object the
header, the sections, the relocations and the symbols with llvm-readobj's. Differences are printed one by one; the last lines count
the files and the values. Needs the Python package pefile, and objdump and llvm-readobj on the PATH.
"""

import collections
import datetime
import os
import re
import shlex
import struct
import subprocess
import sys

import pefile

MACHINES = {0x14C: "I386", 0x8664: "AMD64", 0xAA64: "ARM64", 0x1C0: "ARM", 0x1C4: "ARMNT"}
COUNTS = collections.Counter()
# names of LLVM and pefile that differ from those of "PE Format"
RENAMED = {"MOV32T": "THUMB_MOV32", "BRANCH20T": "THUMB_BRANCH20", "BRANCH24T": "THUMB_BRANCH24", "BLX23T": "THUMB_BLX23",
           "MEM_16BIT": "MEM_PURGEABLE", "AGGRESIVE_WS_TRIM": "AGGRESSIVE_WS_TRIM"}
KINDS = {1: "HIGH", 2: "LOW", 3: "HIGHLOW", 10: "DIR64"}
ESCAPE = re.compile(r"\\x([0-9a-f]{2})")


def shown(name, limit=4096):
    """A name as a page shows it, with `..` behind it if it is cut."""
    if len(name) > limit:
        return shown(name[:limit], limit) + ".."
    try:
        text = name.decode()
    except UnicodeDecodeError:
        text = None
    unsafe = re.compile("[\0-\x1f\x7f-\x9f\u061c\u200e\u200f\u2028-\u202e\u2066-\u2069\ufeff]")
    if text is not None and not unsafe.search(text) and not text.startswith('"'):
        return text
    return '"' + "".join(chr(c) if 0x20 <= c <= 0x7E and c not in b'"\\' else f"\\x{c:02x}" for c in name) + '"'


class Report:
    """The differences between a page and another tool's output."""

    def __init__(self, path):
        self.path = path
        self.differs = False

    def same(self, what, ours, theirs):
        COUNTS[what] += 1
        if ours != theirs:
            self.differs = True
            print(f"{self.path}: {what}: petool {ours!r}, other {theirs!r}")


def blocks_of(page):
    """The title, the rows by label, and the rows of each table by its heading."""
    lines = page.split("\n")
    labels, tables, table = {}, {}, None
    for line in lines[1:]:
        heading = re.fullmatch(r"(Sections|Tables|Exports|Imports|Base relocations|Relocations|Symbols) \(([0-9,]+)\)", line)
        if heading:
            table = tables[heading[1]] = [int(heading[2].replace(",", ""))]
        elif table is not None and line:
            table.append(line)
        elif table is None and line.startswith("  "):
            labels[line[2:15].rstrip()] = line[15:]
    return lines[0], labels, tables


def grouped(number):
    return f"{number:,}"


def flags_of(value, names, prefix):
    """The names of flags as a page shows them: by their values, and then what has no name."""
    known = {bit: name[len(prefix):] for name, bit in names if isinstance(name, str) and name.startswith(prefix)}
    words, rest = [], 0
    for bit in (1 << i for i in range(32)):
        if value & bit:
            if bit in known:
                words.append(RENAMED.get(known[bit], known[bit]))
            else:
                rest |= bit
    if rest:
        words.append(f"0x{rest:x}")
    return " ".join(words) or "none"


def place_of(pe, names, rva):
    """Where an RVA lies: in the headers, in a section, or nowhere."""
    if rva >= pe.OPTIONAL_HEADER.SizeOfImage:
        return "outside the image", None
    if rva < pe.OPTIONAL_HEADER.SizeOfHeaders:
        return f"headers+0x{rva:x}", rva
    for section, name in zip(pe.sections, names):
        start, extent = section.VirtualAddress, section.Misc_VirtualSize or section.SizeOfRawData
        if start <= rva < start + extent:
            held = min(extent, section.SizeOfRawData) if section.PointerToRawData else 0
            offset = rva - start
            return f"{name}+0x{offset:x}", section.PointerToRawData + offset if offset < held else None
    return "no section", None


def section_names(pe, path):
    """The sections' names, long ones from objdump."""
    names = [section.Name.split(b"\0")[0] for section in pe.sections]
    if any(name.startswith(b"/") for name in names):
        told = subprocess.run(["objdump", "-h", path], stdout=subprocess.PIPE, stderr=subprocess.DEVNULL).stdout
        rows = re.findall(rb"^ +\d+ (\S+) +[0-9a-f]{8} ", told, re.M)
        if len(rows) == len(names):
            names = rows
    return [shown(name, 40) for name in names]


def stamp_words(stamp, is_reproducible):
    """What a page says of a time stamp: a date from 1990 to the last second that 31 bits count, or why it is none."""
    if stamp in (0, 0xFFFFFFFF):
        return f"not set (0x{stamp:08x})"
    date = datetime.datetime.fromtimestamp(stamp, datetime.timezone.utc)
    reason = "before 1990" if date.year < 1990 else "past 2038-01-19" if stamp > 0x7FFFFFFF else ""
    reason = "reproducible build" if is_reproducible else reason
    return f"0x{stamp:08x} (no date: {reason})" if reason else f"{date:%Y-%m-%d %H:%M:%S} UTC (0x{stamp:08x})"


def compare_headers(report, pe, labels, names):
    file, optional = pe.FILE_HEADER, pe.OPTIONAL_HEADER
    debug = getattr(pe, "DIRECTORY_ENTRY_DEBUG", [])
    report.same("time stamp", labels["Time stamp"], stamp_words(file.TimeDateStamp, any(it.struct.Type == 16 for it in debug)))
    report.same("linker", labels["Linker"], f"{optional.MajorLinkerVersion}.{optional.MinorLinkerVersion}")
    subsystem = pefile.SUBSYSTEM_TYPE.get(optional.Subsystem)
    subsystem = subsystem[len("IMAGE_SUBSYSTEM_"):] if isinstance(subsystem, str) else f"0x{optional.Subsystem:04x}"
    report.same(
        "subsystem", labels["Subsystem"],
        f"{subsystem} {optional.MajorSubsystemVersion}.{optional.MinorSubsystemVersion} (operating system "
        f"{optional.MajorOperatingSystemVersion}.{optional.MinorOperatingSystemVersion}, image "
        f"{optional.MajorImageVersion}.{optional.MinorImageVersion})")
    moves = "must stand there" if file.Characteristics & 1 else "may be moved"
    report.same("base", labels["Base"], f"0x{optional.ImageBase:x}, 0x{optional.SizeOfImage:x} bytes; {moves}")
    entry = optional.AddressOfEntryPoint
    place, offset = place_of(pe, names, entry)
    where = f"0x{entry:x}  {place}" + ("" if offset is None else f"  file 0x{offset:x}")
    report.same("entry", labels["Entry"], where if entry else "none")
    report.same(
        "alignment", labels["Alignment"],
        f"0x{optional.SectionAlignment:x} in memory, 0x{optional.FileAlignment:x} in the file; headers 0x{optional.SizeOfHeaders:x} bytes")
    report.same(
        "stack", labels["Stack"],
        f"0x{optional.SizeOfStackReserve:x} reserved, 0x{optional.SizeOfStackCommit:x} committed; "
        f"heap 0x{optional.SizeOfHeapReserve:x}, 0x{optional.SizeOfHeapCommit:x}")
    report.same("checksum", labels["CheckSum"], f"0x{optional.CheckSum:08x}")
    flags = flags_of(file.Characteristics, pefile.image_characteristics, "IMAGE_FILE_")
    report.same("image flags", labels["Image flags"].strip(), flags)
    report.same("DLL flags", labels["DLL flags"].strip(), flags_of(optional.DllCharacteristics, pefile.dll_characteristics, "IMAGE_DLLCHARACTERISTICS_"))


def permissions(flags):
    return "".join(c if flags & bit else "-" for c, bit in (("r", 0x40000000), ("w", 0x80000000), ("x", 0x20000000)))


def content(flags):
    return next((word for bit, word in ((0x20, "code"), (0x40, "data"), (0x80, "bss")) if flags & bit), "-")


def other_flags(flags):
    """The names of a section's flags that no column shows."""
    rest = flags & ~(0xE0 | 0xE0000000 | 0x00F00000)
    return flags_of(rest, pefile.section_characteristics, "IMAGE_SCN_") if rest else ""


def compare_sections(report, pe, rows, names):
    report.same("sections counted", rows[0], len(pe.sections))
    for index, (row, section, name) in enumerate(zip(rows[2:], pe.sections, names)):
        extent = section.Misc_VirtualSize or section.SizeOfRawData
        held = min(extent, section.SizeOfRawData) if section.PointerToRawData else 0
        numbers = [section.VirtualAddress, extent, section.PointerToRawData, held]
        found = re.fullmatch(r" *(\d+)  (.*?) +([r-][w-][x-]) (\S+) +0x(\S+)   0x(\S+)   0x(\S+)   0x(\S+)(.*)", row)
        ours = [found[1], found[2], found[3], found[4], *[int(found[i], 16) for i in range(5, 9)], found[9].strip()]
        flags = section.Characteristics
        report.same("section", ours, [str(index), name.rstrip(), permissions(flags), content(flags), *numbers, other_flags(flags)])


def compare_directories(report, pe, rows, names):
    present = [(i, d) for i, d in enumerate(pe.OPTIONAL_HEADER.DATA_DIRECTORY) if d.VirtualAddress or d.Size]
    report.same("directories counted", rows[0], len(present))
    for row, (index, directory) in zip(rows[1:], present):
        found = re.fullmatch(r" *(\d+)  (\S.*?) +0x(\S+)   0x(\S+)   (.*?)   .*", row)
        place = "file offset" if index == 4 else place_of(pe, names, directory.VirtualAddress)[0].rsplit("+", 1)[0]
        ours = [int(found[1]), int(found[3], 16), int(found[4], 16), found[5].rstrip()]
        report.same("directory", ours, [index, directory.VirtualAddress, directory.Size, place])


def compare_exports(report, pe, rows, names):
    theirs = collections.OrderedDict()
    for symbol in pe.DIRECTORY_ENTRY_EXPORT.symbols if hasattr(pe, "DIRECTORY_ENTRY_EXPORT") else []:
        target = f"forwarded to {shown(symbol.forwarder)}" if symbol.forwarder else symbol.address
        if symbol.address:
            theirs.setdefault(symbol.ordinal, [target, []])[1].extend([shown(symbol.name)] if symbol.name else [])
    report.same("exports counted", rows[0], len(theirs))
    for row in rows[1:]:
        found = re.fullmatch(r" *(\d+)  (?:0x(\S+)  (\S.*?)|(forwarded to \S+?))(?: *|  +(\S.*))", row)
        ordinal = int(found[1])
        target = found[4] or int(found[2], 16)
        ours = [target, sorted(found[5].split(", ")) if found[5] else []]
        other = theirs.get(ordinal, [None, []])
        report.same("export", [ordinal, *ours], [ordinal, other[0], sorted(set(other[1]))])
        if found[2]:
            report.same("export's place", found[3], place_of(pe, names, target)[0])


def compare_imports(report, pe, rows):
    theirs = []
    for module in pe.DIRECTORY_ENTRY_IMPORT if hasattr(pe, "DIRECTORY_ENTRY_IMPORT") else []:
        for entry in module.imports:
            key = shown(entry.name) if entry.name else f"#{entry.ordinal}"
            theirs.append((shown(module.dll, 255), entry.address - pe.OPTIONAL_HEADER.ImageBase, key))
    ours, module = [], None
    for row in rows[1:]:
        if row.startswith("    0x"):
            slot, key = row[6:].split("  ", 1)
            ours.append((module, int(slot, 16), key))
        else:
            module = row[2:].rsplit(" (", 1)[0]
    report.same("imports counted", rows[0], len(theirs))
    for one, other in zip(ours, theirs):
        report.same("import", one, other)


def compare_fixups(report, pe, rows):
    theirs = []
    for block in pe.DIRECTORY_ENTRY_BASERELOC if hasattr(pe, "DIRECTORY_ENTRY_BASERELOC") else []:
        theirs += [(entry.rva, KINDS[entry.type]) for entry in block.entries if entry.type]
    ours = []
    for row in rows[1:]:
        page, kind, *fields = row.split()
        ours += [(int(page, 16) + int(field, 16), kind) for field in fields]
    report.same("fixups counted", rows[0], len(theirs))
    for one, other in zip(ours, theirs):
        report.same("fixup", one, other)


def compare_image(report, path, page):
    pe = pefile.PE(path, fast_load=True)
    pe.parse_data_directories([pefile.DIRECTORY_ENTRY[f"IMAGE_DIRECTORY_ENTRY_{name}"] for name in ("EXPORT", "IMPORT", "BASERELOC", "DEBUG")])
    title, labels, tables = blocks_of(page)
    names = section_names(pe, path)
    form = {0x10B: "PE32", 0x20B: "PE32+"}[pe.OPTIONAL_HEADER.Magic]
    kind = "library" if pe.FILE_HEADER.Characteristics & 0x2000 else "program"
    machine = pefile.MACHINE_TYPE.get(pe.FILE_HEADER.Machine)
    machine = machine[len("IMAGE_FILE_MACHINE_"):] if isinstance(machine, str) else f"0x{pe.FILE_HEADER.Machine:04x}"
    report.same("title", title, f"{path}: accepted: {form} {kind} for {machine}, {grouped(os.path.getsize(path))} bytes")
    compare_headers(report, pe, labels, names)
    compare_sections(report, pe, tables["Sections"], names)
    compare_directories(report, pe, tables["Tables"], names)
    compare_exports(report, pe, tables.get("Exports", [0]), names)
    compare_imports(report, pe, tables.get("Imports", [0]))
    compare_fixups(report, pe, tables.get("Base relocations", [0]))
    pe.close()


def llvm(path):
    """What llvm-readobj says of an object: its header, sections, relocations and symbols."""
    told = subprocess.run(
        ["llvm-readobj", "--file-headers", "--sections", "--relocations", "--symbols", path],
        stdout=subprocess.PIPE, stderr=subprocess.DEVNULL).stdout.decode("utf-8", "surrogateescape")
    header = {name: int(value, 0) for name, value in re.findall(r"^  (SectionCount|SymbolCount): (\d+)", told, re.M)}
    header["Machine"] = int(re.search(r"Machine: \S+ \((0x[0-9A-F]+)\)", told)[1], 16)
    header["TimeDateStamp"] = int(re.search(r"TimeDateStamp: .*?\((0x[0-9A-F]+)\)", told)[1], 16)
    header["Characteristics"] = int(re.search(r"^  Characteristics \[ \((0x[0-9A-F]+)\)", told, re.M)[1], 16)
    sections = re.findall(
        r"^  Section \{\n    Number: (\d+)\n    Name: (.*?) \([0-9A-F ]+\)\n.*?RawDataSize: (\d+)\n    PointerToRawData: (\S+)\n"
        r".*?RelocationCount: (\d+)\n.*?Characteristics \[ \((0x[0-9A-F]+)\)", told, re.M | re.S)
    relocations = [
        (int(at, 16), kind, symbol, int(index))
        for at, kind, symbol, index in re.findall(r"^    0x([0-9A-F]+) IMAGE_REL_(\S+) (\S*) \((\d+)\)$", told, re.M)]
    symbols = re.findall(
        r"^  Symbol \{\n    Name: ?(.*?)\n    Value: (\d+)\n    Section: (.*?) \((-?\d+)\)\n.*?StorageClass: .*?\(0x([0-9A-F]+)\)\n"
        r"    AuxSymbolCount: (\d+)", told, re.M | re.S)
    return header, sections, relocations, symbols


def compare_object(report, path, page):
    header, sections, relocations, symbols = llvm(path)
    title, labels, tables = blocks_of(page)
    machine = MACHINES[header["Machine"]]
    report.same("title", title, f"{path}: accepted: COFF object for {machine}, {grouped(os.path.getsize(path))} bytes")
    report.same("time stamp", labels["Time stamp"], stamp_words(header["TimeDateStamp"], False))
    report.same("object flags", labels["Flags"].strip(), flags_of(header["Characteristics"], pefile.image_characteristics, "IMAGE_FILE_"))
    report.same("symbols counted", labels["Symbols"], grouped(len(symbols)))
    report.same("sections counted", tables["Sections"][0], header["SectionCount"])
    for row, (number, name, size, pointer, count, flags) in zip(tables["Sections"][2:], sections):
        size, flags = int(size), int(flags, 16)
        held = 0 if int(pointer, 16) == 0 or flags & 0x80 else size
        found = re.fullmatch(r" *(\d+)  (.*?) +([r-][w-][x-]) (\S+) +0x(\S+)   0x(\S+)   +(\d+)(.*)", row)
        ours = [found[1], found[2], found[3], found[4], int(found[5], 16), int(found[6], 16), found[7], found[8].strip()]
        theirs = [number, shown(name.encode(errors="surrogateescape"), 40), permissions(flags), content(flags), size, held, count, other_flags(flags)]
        report.same("object's section", ours, theirs)
    prefix = {0x14C: "I386_", 0x8664: "AMD64_", 0xAA64: "ARM64_"}.get(header["Machine"], "ARM_")
    ours = [re.fullmatch(r"    0x(\S+)  (\S+)  #(\d+) (.*)", row) for row in tables["Relocations"][1:] if row.startswith("    0x")]
    report.same("relocations counted", tables["Relocations"][0], len(relocations))
    for found, (at, kind, symbol, index) in zip(ours, relocations):
        kind = kind.removeprefix(prefix)
        theirs = [at, RENAMED.get(kind, kind), index, shown(symbol.encode(errors="surrogateescape"))]
        report.same("relocation", [int(found[1], 16), found[2], int(found[3]), found[4]], theirs)
    index = 0
    for row, (name, value, section, number, storage, auxiliary) in zip(tables["Symbols"][1:], symbols):
        found = re.fullmatch(r" *(\d+)  0x([0-9a-f]{8})  (.*?) +([A-Z_]+|class +\d+) +(?:function  )?(.*)", row)
        place = {"0": "UNDEFINED", "-1": "ABSOLUTE", "-2": "DEBUG"}.get(number, shown(section.encode(errors="surrogateescape"), 40))
        ours = [int(found[1]), int(found[2], 16), found[3], found[5]]
        report.same("symbol", ours, [index, int(value), place, shown(name.encode(errors="surrogateescape"))])
        index += 1 + int(auxiliary)


def files_of(path):
    """The images and objects at a path."""
    if not os.path.isdir(path):
        yield path
        return
    for folder, _, names in sorted(os.walk(path)):
        for name in sorted(names):
            whole = os.path.join(folder, name)
            if os.path.isfile(whole) and not os.path.islink(whole):
                with open(whole, "rb") as file:
                    first = file.read(2)
                if first == b"MZ" or (len(first) == 2 and struct.unpack("<H", first)[0] in MACHINES):
                    yield whole


def main():
    command = shlex.split(sys.argv[1])
    files = differing = refused = 0
    for path in (file for word in sys.argv[2:] for file in files_of(word)):
        # each row on one line
        environment = {**os.environ, "COLUMNS": "1000"}
        ran = subprocess.run([*command, path], stdout=subprocess.PIPE, stderr=subprocess.DEVNULL, env=environment)
        page = ran.stdout.decode("utf-8", "surrogateescape")
        files += 1
        if ran.returncode == 1:
            refused += 1
            print(f"{path}: refused: {page.strip().splitlines()[-1]}")
            continue
        report = Report(path)
        with open(path, "rb") as file:
            is_image = file.read(2) == b"MZ"
        (compare_image if is_image else compare_object)(report, path, page)
        differing += report.differs
    print(f"{files} files, {refused} refused, {differing} differ")
    print(", ".join(f"{what} {count}" for what, count in COUNTS.items()))
    return 1 if differing else 0


sys.exit(main())
