#!/usr/bin/env python3
"""Compares the lines of `petool json` with what pefile and llvm-readobj say of the same files.

    scripts/jsons.py 'crates/petool/out/petool json' FILE...

The command is run over the files, and its lines are read by Python's json. Of an accepted image the fields of the headers with
their flags, the directories, sections, exports, imports and base relocations are compared with pefile's, and the sections' names
and 8 bytes with llvm-readobj's; of an accepted object the headers, sections, relocations and symbols with llvm-readobj's. A file
that differs is named, with the first parts that do, and the last lines count what was equal. The status is 1 if a file differs.

This is not part of the tests: it needs pefile (Debian's python3-pefile), llvm-readobj and real files, such as those of Debian's
libwine, mingw-w64-x86-64-dev and gcc-mingw-w64-x86-64-win32-runtime.
"""

import collections
import json
import re
import subprocess
import sys

import pefile

AT_ONCE = 200


def lines_of(command, files):
    """The lines that the command prints of the files, each read as JSON."""
    for start in range(0, len(files), AT_ONCE):
        part = files[start : start + AT_ONCE]
        out = subprocess.run([*command, *part], stdout=subprocess.PIPE).stdout
        lines = out.split(b"\n")
        assert lines.pop() == b"" and len(lines) == len(part), (len(lines), len(part))
        for file, line in zip(part, lines):
            yield file, json.loads(line.decode("utf-8"))


def name_in(row, key):
    """The bytes of a name under one of its two keys, or None."""
    if key in row:
        return row[key].encode("utf-8")
    return bytes.fromhex(row[key + "_hex"]) if key + "_hex" in row else None


def number(value):
    return int(value, 16) if isinstance(value, str) else value


# ---- images, compared with pefile

OTHER_NAMES = {"win32_version_value": "Reserved1", "check_sum": "CheckSum"}


def field_of(struct, key):
    name = OTHER_NAMES.get(key, key.replace("_", ""))
    found = [it for it in struct.__dict__ if it.lower() == name.lower()]
    return getattr(struct, found[0])


def flags_of(struct, prefix):
    """The flags that pefile finds set, without their prefix."""
    return {
        it[len(prefix) :]
        for it, is_set in struct.__dict__.items()
        if it.startswith(prefix) and is_set is True
    }


# flags of a section that pefile sets for each part of the number ALIGN, or that have another name for the same bit
UNNAMED = {"LNK_COMDAT_", "NO_DEFER_SPEC_EXC", "MEM_16BIT", "MEM_FARDATA", "TYPE_REG", "TYPE_DSECT", "TYPE_NOLOAD"}


def headers_differ(pe, row):
    for key, value in row["headers"].items():
        if key.endswith(("_name", "_flags")):
            continue
        struct = pe.FILE_HEADER if key in COFF_KEYS else pe.OPTIONAL_HEADER
        if number(value) != field_of(struct, key):
            yield f"headers {key}", value, field_of(struct, key)
    headers = row["headers"]
    for key, struct, prefix in [
        ("characteristics_flags", pe.FILE_HEADER, "IMAGE_FILE_"),
        ("dll_characteristics_flags", pe.OPTIONAL_HEADER, "IMAGE_DLLCHARACTERISTICS_"),
    ]:
        if set(headers[key]) != flags_of(struct, prefix):
            yield f"headers {key}", headers[key], flags_of(struct, prefix)
    for key, names, prefix in [
        ("machine", pefile.MACHINE_TYPE, "IMAGE_FILE_MACHINE_"),
        ("subsystem", pefile.SUBSYSTEM_TYPE, "IMAGE_SUBSYSTEM_"),
    ]:
        if prefix + headers[key + "_name"] != names[headers[key]]:
            yield f"headers {key}_name", headers[key + "_name"], names[headers[key]]


COFF_KEYS = {
    "machine",
    "number_of_sections",
    "time_date_stamp",
    "pointer_to_symbol_table",
    "number_of_symbols",
    "size_of_optional_header",
    "characteristics",
}


def key_of(row):
    return ("ordinal", row["ordinal"]) if "ordinal" in row else ("name", name_in(row, "name"))


def export_of(row):
    forward = None
    if "forward" in row:
        kind, key = key_of(row["forward"])
        text = key if kind == "name" else b"#%d" % key
        forward = name_in(row["forward"], "module") + b"." + text
    return row["ordinal"], name_in(row, "name"), row.get("rva"), forward


def exports_beside(pe):
    """The exports of pefile: a row for each name, and for each ordinal without one."""
    for it in pe.DIRECTORY_ENTRY_EXPORT.symbols if hasattr(pe, "DIRECTORY_ENTRY_EXPORT") else []:
        if it.address:
            yield it.ordinal, it.name, None if it.forwarder else it.address, it.forwarder


def imports_beside(pe):
    base = pe.OPTIONAL_HEADER.ImageBase
    for module in getattr(pe, "DIRECTORY_ENTRY_IMPORT", []):
        for it in module.imports:
            key = ("ordinal", it.ordinal) if it.import_by_ordinal else ("name", it.name)
            yield module.dll, key, it.address - base


KINDS = {1: "high", 2: "low", 3: 32, 10: 64}


def fixups_beside(pe):
    for block in getattr(pe, "DIRECTORY_ENTRY_BASERELOC", []):
        for it in block.entries:
            if it.type:
                yield it.rva, KINDS[it.type]


def tables_differ(pe, row):
    tables = {
        "directories": (
            [(it["virtual_address"], it["size"]) for it in row["directories"]],
            [(it.VirtualAddress, it.Size) for it in pe.OPTIONAL_HEADER.DATA_DIRECTORY],
        ),
        "exports": (
            sorted(map(export_of, row["exports"]), key=repr),
            sorted(exports_beside(pe), key=repr),
        ),
        "imports": (
            [(name_in(it, "module"), key_of(it), it["slot"]) for it in row["imports"]],
            list(imports_beside(pe)),
        ),
        "fixups": (
            [(it["rva"], it.get("bits", it.get("kind"))) for it in row["fixups"]],
            list(fixups_beside(pe)),
        ),
    }
    for what, (ours, theirs) in tables.items():
        COUNTS[what] += len(ours)
        if ours != theirs:
            odd = [it for it in zip(ours, theirs) if it[0] != it[1]][:2]
            yield what, (len(ours), odd), len(theirs)


SECTION_FIELDS = {
    "virtual_size": "Misc_VirtualSize",
    "virtual_address": "VirtualAddress",
    "size_of_raw_data": "SizeOfRawData",
    "pointer_to_raw_data": "PointerToRawData",
    "pointer_to_relocations": "PointerToRelocations",
    "pointer_to_linenumbers": "PointerToLinenumbers",
    "number_of_relocations": "NumberOfRelocations",
    "number_of_linenumbers": "NumberOfLinenumbers",
    "characteristics": "Characteristics",
}


def sections_differ(pe, row):
    if len(pe.sections) != len(row["sections"]):
        yield "sections", len(row["sections"]), len(pe.sections)
    for theirs, ours in zip(pe.sections, row["sections"]):
        for key, name in SECTION_FIELDS.items():
            if ours[key] != getattr(theirs, name):
                yield f"section {ours['index']} {key}", ours[key], getattr(theirs, name)
        named = {"CNT_CODE", "MEM_READ", "MEM_WRITE", "MEM_EXECUTE", "MEM_DISCARDABLE", "MEM_SHARED"}
        named |= {"CNT_INITIALIZED_DATA", "CNT_UNINITIALIZED_DATA", "LNK_NRELOC_OVFL", "MEM_NOT_PAGED"}
        flags = flags_of(theirs, "IMAGE_SCN_") & named
        if set(ours["characteristics_flags"]) & named != flags:
            yield f"section {ours['index']} flags", ours["characteristics_flags"], flags


# ---- names of sections and objects, compared with llvm-readobj


def read_obj(file, *flags):
    """The output of llvm-readobj, as lines without surrounding blanks."""
    words = ["llvm-readobj", *flags, file]
    out = subprocess.run(words, stdout=subprocess.PIPE, stderr=subprocess.DEVNULL).stdout
    return [line.strip() for line in out.split(b"\n")]


def pairs_of(lines):
    for line in lines:
        key, found, value = line.partition(b": ")
        if found:
            yield key.decode(), value


def read_number(text):
    return int(text, 0)


LLVM_SECTION = {
    "VirtualSize": "virtual_size",
    "VirtualAddress": "virtual_address",
    "RawDataSize": "size_of_raw_data",
    "PointerToRawData": "pointer_to_raw_data",
    "PointerToRelocations": "pointer_to_relocations",
    "PointerToLineNumbers": "pointer_to_linenumbers",
    "RelocationCount": "number_of_relocations",
    "LineNumberCount": "number_of_linenumbers",
}


def names_differ(file, row):
    """How the sections differ from those of llvm-readobj: their names, their 8 bytes and their fields."""
    theirs, is_object = [], row["format"] in ("COFF", "BIGOBJ")
    for line in read_obj(file, "--sections"):
        name = re.fullmatch(rb"Name: (.*) \(((?:[0-9A-F]{2} ){7}[0-9A-F]{2})\)", line)
        flags = re.fullmatch(rb"Characteristics \[ \(0x([0-9A-F]+)\)", line)
        alignment = re.fullmatch(rb"IMAGE_SCN_ALIGN_(\d+)BYTES \(0x[0-9A-F]+\)", line)
        key, _, value = line.partition(b": ")
        if name:
            theirs.append({"name": name[1], "bytes": bytes.fromhex(name[2].decode())})
        elif flags and theirs:
            theirs[-1]["characteristics"] = int(flags[1], 16)
        elif alignment and theirs and is_object:
            theirs[-1]["alignment"] = int(alignment[1])
        elif key.decode() in LLVM_SECTION and theirs:
            theirs[-1][LLVM_SECTION[key.decode()]] = read_number(value)
    ours = []
    for it in row["sections"]:
        name = name_in(it, "name")
        short = name_in(it, "short_name")
        ours.append({"name": name, "bytes": (name if short is None else short).ljust(8, b"\0")})
        ours[-1] |= {key: it[key] for key in [*LLVM_SECTION.values(), "characteristics", "alignment"] if key in it}
        COUNTS["long names of sections"] += name[:1] != b"/" and short is not None
    COUNTS["sections"] += len(ours)
    if ours != theirs:
        yield "sections of llvm-readobj", [it for it in zip(ours, theirs) if it[0] != it[1]][:1], len(theirs)


def relocations_differ(file, row):
    theirs, section = [], 0
    for line in read_obj(file, "--relocations", "--expand-relocs"):
        head = re.fullmatch(rb"Section \((\d+)\) .*\{", line)
        kind = re.fullmatch(rb"Type: (\S+) \((\d+)\)", line)
        if head:
            section = int(head[1])
        elif line.startswith(b"Offset: "):
            theirs.append([section, read_number(line[8:])])
        elif kind:
            theirs[-1] += [re.sub(rb"IMAGE_REL_[A-Z0-9]+_", b"", kind[1]).decode(), int(kind[2])]
        elif line.startswith(b"SymbolIndex: "):
            theirs[-1].append(int(line[13:]))
    ours = [
        [
            section["number"],
            it["virtual_address"],
            it.get("type_name", "Unknown"),
            it["type"],
            it["symbol_table_index"],
        ]
        for section in row["sections"]
        for it in section["relocations"]
    ]
    COUNTS["relocations"] += len(ours)
    if ours != theirs:
        yield "relocations", [it for it in zip(ours, theirs) if it[0] != it[1]][:2], (len(ours), len(theirs))


SECTION_WORDS = {0: "UNDEFINED", -1: "ABSOLUTE", -2: "DEBUG"}

AUX = {
    "AuxFunctionDef": ("function", ["TagIndex", "TotalSize", "PointerToLineNumber", "PointerToNextFunction"]),
    "AuxWeakExternal": ("weak_external", ["Linked", "Search"]),
    "AuxFileRecord": ("file", ["FileName"]),
    "AuxSectionDef": (
        "section_definition",
        ["Length", "RelocationCount", "LineNumberCount", "Checksum", "Number", "Selection"],
    ),
}


def aux_value(key, value):
    if key == "FileName":
        # if the record begins with four zero bytes, binutils has the name in the string table, and llvm-readobj shows that
        return value.split(b"\0")[0]
    inner = re.search(rb"\((0x[0-9A-F]+|\d+)\)$", value)
    return read_number(inner[1] if inner else value.split()[0])


def symbols_beside(file):
    """The symbols of llvm-readobj, each with its auxiliary records."""
    symbols, aux = [], None
    for line in read_obj(file, "--symbols"):
        opens = re.fullmatch(rb"(\w+) \{", line)
        if opens and opens[1] == b"Symbol":
            symbols.append({"aux": []})
            aux = None
        elif opens and opens[1].decode() in AUX:
            aux = (AUX[opens[1].decode()][0], [])
            symbols[-1]["aux"].append(aux)
        elif line == b"}":
            aux = None
        elif symbols and b": " in line + b" ":
            key, _, value = line.partition(b":")
            if aux:
                if key.decode() in [it for _, keys in AUX.values() for it in keys]:
                    aux[1].append(aux_value(key.decode(), value.strip()))
            else:
                symbols[-1][key.decode()] = value.strip()
    return symbols


def inner(value):
    return read_number(re.search(rb"\((-?(?:0x[0-9A-F]+|\d+))\)$", value)[1])


def symbols_differ(file, row):
    theirs, index = [], 0
    for it in symbols_beside(file):
        section = inner(it["Section"])
        kind = inner(it["BaseType"]) + 16 * inner(it["ComplexType"])
        theirs.append(
            (
                index,
                it["Name"],
                read_number(it["Value"]) % 2**32,
                section if section > 0 else SECTION_WORDS[section],
                kind,
                inner(it["StorageClass"]),
                [(what, values) for what, values in it["aux"]],
            )
        )
        index += 1 + int(it["AuxSymbolCount"])
    ours = []
    for it in row["symbols"]:
        aux = []
        for record in it.get("auxiliary_records", []):
            values = [value for key, value in record.items() if key not in ("index", "kind")]
            values = [it.encode() if isinstance(it, str) else it for it in values]
            if record["kind"] not in ("raw", "lines"):
                aux.append((record["kind"], values))
        ours.append(
            (
                it["index"],
                name_in(it, "name"),
                it["value"],
                it.get("section_number", it.get("section")),
                it["type"],
                it["storage_class"],
                aux,
            )
        )
    COUNTS["symbols"] += len(ours)
    if ours != theirs:
        yield "symbols", [it for it in zip(ours, theirs) if it[0] != it[1]][:1], (len(ours), len(theirs))


# the name of an object header's field in llvm-readobj, its name in the line, and how the value is read
OBJECT_FIELDS = {
    "Machine": ("machine", inner),
    "SectionCount": ("number_of_sections", int),
    "TimeDateStamp": ("time_date_stamp", inner),
    "PointerToSymbolTable": ("pointer_to_symbol_table", read_number),
    "SymbolCount": ("number_of_symbols", int),
    "OptionalHeaderSize": ("size_of_optional_header", int),
}


def object_headers_differ(file, row):
    found = [(*OBJECT_FIELDS[key], value) for key, value in pairs_of(read_obj(file, "--file-headers")) if key in OBJECT_FIELDS]
    wanted = {key: read(value) for key, read, value in found}
    ours = {key: row["headers"][key] for key in wanted}
    if len(wanted) != len(OBJECT_FIELDS) or ours != wanted:
        yield "headers", ours, wanted


# ---- files

COUNTS = collections.Counter()


def differ(file, row):
    """How the outputs for a file differ, part by part."""
    if not row["accepted"]:
        COUNTS[f"refused by fault {row['fault']['number']}"] += 1
        return
    COUNTS[f"accepted {row['format']}"] += 1
    if row["format"] == "COFF":
        parts = [object_headers_differ, names_differ, relocations_differ, symbols_differ]
        for part in parts:
            yield from part(file, row)
        return
    pe = pefile.PE(file)
    for part in [headers_differ, tables_differ, sections_differ]:
        yield from part(pe, row)
    pe.close()
    yield from names_differ(file, row)


def main(command, *files):
    pefile.MAX_SYMBOL_EXPORT_COUNT = pefile.MAX_IMPORT_SYMBOLS = 1 << 20
    bad = 0
    for file, row in lines_of(command.split(), files):
        if name_in(row, "file") != file.rsplit("/", 1)[-1].encode() and name_in(row, "file") != file.encode():
            print(f"{file}: named {row.get('file')}")
        odd = list(differ(file, row))
        for what, ours, theirs in odd[:3]:
            print(f"{file}: {what}: {ours} and not {theirs}"[:600])
        bad += bool(odd)
    for what, count in sorted(COUNTS.items()):
        print(f"{what}: {count}")
    print(f"{len(files)} files, {bad} differ")
    return 1 if bad else 0


if __name__ == "__main__":
    sys.exit(main(*sys.argv[1:]))
