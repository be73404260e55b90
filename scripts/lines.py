#!/usr/bin/env python3
"""Makes the lines of `petool json` for images apart from petool, and compares them with stored ones, byte for byte.

    lines.py [OPTION...] FILE...  prints the lines of images, with the options `--all`, `--functions` and `--no-digest` of `petool json`
    lines.py --cases FOLDER DATA  compares the cases `json` of images in FOLDER/views, of files in DATA, with FOLDER/views.answers

The files are read as scripts/pages.py reads them. A line has the members of docs/JSON.md, except `kind` and `values`, which
test_values.py compares. `--cases` tells each difference, counts at last, and ends with status 1 where something differs.
"""

import hashlib
import json
import os
import re
import struct
import sys

sys.dont_write_bytecode = True

from pages import changed, fault_words, read  # noqa: E402
from pages_delayed import DELAY  # noqa: E402
from pages_names import DIRECTORIES, DLL_FLAGS, IMAGE_FLAGS, MACHINES, SECTION_FLAGS, SUBSYSTEMS  # noqa: E402
from pages_reader import Headers, Image, Refused, is_object, uint  # noqa: E402
from pages_resources import TEXT, utf8, value_text  # noqa: E402
from pages_symbols import ImageSymbols  # noqa: E402
from pages_tables import BOUND, CLR, DEBUG, EXCEPTION, LOAD, LOAD_FIELDS, TLS, TYPES, Tables  # noqa: E402
from pages_trust import ALGORITHMS, Trust, common_name, import_hash, overlay, signed_digest, signers  # noqa: E402

COFF = "machine number_of_sections time_date_stamp pointer_to_symbol_table number_of_symbols size_of_optional_header characteristics"
OPTIONAL = """magic major_linker_version minor_linker_version size_of_code size_of_initialized_data size_of_uninitialized_data
    address_of_entry_point base_of_code base_of_data image_base section_alignment file_alignment major_operating_system_version
    minor_operating_system_version major_image_version minor_image_version major_subsystem_version minor_subsystem_version
    win32_version_value size_of_image size_of_headers check_sum subsystem dll_characteristics size_of_stack_reserve
    size_of_stack_commit size_of_heap_reserve size_of_heap_commit loader_flags number_of_rva_and_sizes"""
#: The fields that are strings, since PE32+ has 64 bits of them.
WIDE = re.compile("image_base|size_of_(stack|heap)_")
SECTION = """virtual_size virtual_address size_of_raw_data pointer_to_raw_data pointer_to_relocations pointer_to_linenumbers
    number_of_relocations number_of_linenumbers characteristics"""
DEBUG_ENTRY = """characteristics time_date_stamp major_version minor_version type size_of_data address_of_raw_data
    pointer_to_raw_data"""
BOUND_IMPORT = "time_date_stamp offset_module_name number_of_module_forwarder_refs"
#: The fields of the CLR header, of two bytes or of four, and then its directories, each of an RVA and a size.
CLR_FIELDS = "cb major_runtime_version minor_runtime_version meta_data flags entry_point_token"
CLR_DIRECTORIES = "resources strong_name_signature code_manager_table vtable_fixups export_address_table_jumps managed_native_header"
#: The fields of structures that are strings, since they are addresses or of their size.
ADDRESSES = {name for kind, name in (field.split(":") for field in LOAD_FIELDS) if kind == "a"}
#: The options before FILE.
OPTIONS = ("--all", "--functions", "--no-digest")
#: The types of certificates, with their names in "PE Format".
CERTIFICATES = {1: "X509", 2: "PKCS_SIGNED_DATA", 3: "RESERVED_1", 4: "TS_STACK_SIGNED"}
#: The characters that no line has as they are, though JSON may.
HIDDEN = re.compile("[\x7f-\x9f\u2028-\u202e\u2066-\u2069\ufeff]")
FLAGS = {"characteristics": IMAGE_FLAGS, "dll_characteristics": DLL_FLAGS}
NAMES = {"machine": MACHINES, "subsystem": SUBSYSTEMS, "type": TYPES}


def flags_in(names, number):
    return [name for bit, name in names.items() if number >> bit & 1]


def named(key, name):
    """A name's member: a string if it is UTF-8, otherwise hexadecimal digits."""
    try:
        return {key: name.decode()}
    except UnicodeDecodeError:
        return {f"{key}_hex": name.hex()}


def keyed(key):
    return {"ordinal": key} if isinstance(key, int) else named("name", key)


def members(names, values, flags=True):
    """Fields with what belongs to them."""
    row = {}
    for name, value in zip(names, values):
        row[name] = hex(value) if WIDE.match(name) else value
        if value in NAMES.get(name, {}):
            row[f"{name}_name"] = NAMES[name][value]
        if flags and name in FLAGS:
            row[f"{name}_flags"] = flags_in(FLAGS[name], value)
    return row


def header_members(file, headers):
    """What the headers say."""
    pe = uint(file, 60, 4)
    names = OPTIONAL.split()
    form = "<HBB9I6H4I2H4I2I" if headers.magic == 0x10B else "<HBB5IQ2I6H4I2H4Q2I"
    if headers.magic != 0x10B:
        names.remove("base_of_data")
    coff = members(COFF.split(), struct.unpack_from("<HHIIIHH", file, pe + 4))
    directories = [
        {"index": i, "name": DIRECTORIES[i], "virtual_address": rva, "size": size} for i, (rva, size) in enumerate(headers.directories)
    ]
    return {
        "format": "PE32" if headers.magic == 0x10B else "PE32+",
        "pe_offset": pe,
        "headers": coff | members(names, struct.unpack_from(form, file, pe + 24)),
        "directories": directories,
        "sections": [section_row(file, i, it) for i, it in enumerate(headers.sections)],
    }


def section_row(file, index, section):
    field = section.field.rstrip(b"\0")
    row = {"index": index, **named("name", section.name), **({} if field == section.name else named("short_name", field))}
    row |= zip(SECTION.split(), struct.unpack_from("<6I2HI", file, section.at + 8))
    return row | {"characteristics_flags": flags_in(SECTION_FLAGS, section.flags)}


def target_members(target):
    if isinstance(target, int):
        return {"rva": target}
    return {"forward": {**named("module", target[0]), **keyed(target[1])}}


def fixup_row(field, kind):
    return {"rva": field, **({"kind": {1: "high", 2: "low"}[kind]} if kind in (1, 2) else {"bits": 64 if kind == 10 else 32})}


def import_row(row):
    module, slot, key = row
    return {**named("module", module), **keyed(key), "slot": slot}


def table_members(image):
    """The tables that were read."""
    tables = {}
    if image.exports is not None:
        rows = [(ordinal, target, name) for ordinal, target, names in image.exports for name in names or [None]]
        tables["exports"] = [
            {"ordinal": ordinal, **({} if name is None else named("name", name)), **target_members(target)} for ordinal, target, name in rows
        ]
    if image.imports is not None:
        tables["imports"] = [import_row(row) for row in image.imports]
    if image.fixups is not None:
        tables["fixups"] = [fixup_row(field, kind) for field, kind in image.fixups]
    return tables


def pdb_member(tables, entries):
    """The PDB file that the first CodeView entry names, whose data is read where it is laid out."""
    record = next((record for _, record in entries if record[4] == 2), None)
    size, rva = record[5:7] if record else (0, 0)
    data = tables.held(rva)[:size] if rva else b""
    if len(data) < max(size, 16) or data[:4] not in (b"RSDS", b"NB10"):
        return {}
    if data[:4] == b"NB10":
        row, path = {"time_date_stamp": uint(data, 8, 4), "age": uint(data, 12, 4)}, data[16:]
    elif size >= 24:
        row, path = {"guid_hex": data[4:20].hex(), "age": uint(data, 20, 4)}, data[24:]
    else:
        return {}
    return {"pdb": row | (named("path", path.split(b"\0")[0]) if b"\0" in path else {})}


def snake(name):
    """A name of "PE Format" in snake case."""
    return re.sub(r"(?<=[a-z\d])(?=[A-Z])|(?<=[A-Z])(?=[A-Z][a-z])|\.", "_", name).lower().replace("call_backs", "callbacks")


def tls_member(tables):
    fields, callbacks = tables.tls(), tables.callbacks()
    if fields is None:
        return {}
    row = {"rva": tables.extent(TLS)[0]}
    row |= {snake(name): hex(value) if "Address" in name else value for name, value in fields.items()}
    return {"tls": row | ({"callbacks": [hex(address) for _, address in callbacks[1]]} if callbacks else {})}


def load_member(tables):
    rva = tables.extent(LOAD)[0]
    fields = {snake(name): hex(value) if name in ADDRESSES else value for name, value in tables.load().items()}
    return {"load_configuration": {"rva": rva} | fields} if rva else {}


def bound_row(tables, record):
    """A record with the name of its module, if a zero byte ends it in 256 bytes."""
    rva = tables.extent(BOUND)[0] + record[1]
    name, end, _ = tables.held(rva)[:256].partition(b"\0") if rva < tables.size else (b"", b"", b"")
    return dict(zip(BOUND_IMPORT.split(), record)) | (named("module", name) if end else {})


def bound_member(tables):
    rows = [bound_row(tables, record) for _, record in tables.bound()[0]]
    return {"bound_imports": rows} if tables.extent(BOUND)[0] else {}


def clr_names():
    """The names of the fields of the CLR header, each with its size."""
    for name in CLR_FIELDS.split() + CLR_DIRECTORIES.split():
        if name in CLR_DIRECTORIES.split() or name == "meta_data":
            yield from ((f"{name}_rva", 4), (f"{name}_size", 4))
        else:
            yield name, 2 if name.endswith("version") else 4


def clr_member(tables):
    rva, found = tables.extent(CLR)[0], tables.structure(CLR)
    row, at = {"rva": rva}, 0
    for name, width in clr_names():
        if found and at + width <= len(found[0]):
            row[name] = uint(found[0], at, width)
        at += width
    return {"clr": row} if rva else {}


def function_members(tables, is_listed):
    functions = tables.functions()
    if not tables.extent(EXCEPTION)[0] or functions is None:
        return {}
    names = ("begin", "end", "unwind") if tables.machine == 0x8664 else ("begin", "unwind")
    rows = [dict(zip(names, record)) for _, record in functions]
    return {"function_count": len(rows), **({"functions": rows} if is_listed else {})}


def delay_member(tables):
    return {"delay_imports": [import_row(row) for row in tables.delayed.imports]} if tables.extent(DELAY)[0] else {}


def record_members(tables, is_listed):
    """The tables that the profile leaves out."""
    rows = {}
    entries = tables.records(DEBUG, "<IIHHIIII")
    if tables.extent(DEBUG)[0]:
        rows["debug"] = [members(DEBUG_ENTRY.split(), record, flags=False) for _, record in entries]
    rows |= pdb_member(tables, entries)
    rows |= function_members(tables, is_listed)
    for member in (tls_member, load_member, bound_member, clr_member, delay_member):
        rows |= member(tables)
    return rows


def leaf_row(resources, leaf):
    """A leaf with the names that lead to it, of which a text has at most 256 units."""
    row = {"rva": leaf.rva, "size": leaf.size, "code_page": leaf.code_page}
    for key, name in zip(("type", "name", "language"), leaf.path):
        units = resources.text(name) if name & TEXT else b""
        if units is not None:
            row[key] = utf8(units[:512]).decode() if name & TEXT else name
    return row


def version_member(resources):
    """What version information says."""
    if not resources.version:
        return {}
    leaf, data = resources.version
    row = {"rva": leaf.rva}
    if resources.fixed:
        numbers = struct.unpack("<8H", struct.pack("<4I", *resources.fixed[:4]))
        row["file_version"], row["product_version"] = ([numbers[k + i] for i in (1, 0, 3, 2)] for k in (0, 4))
        row |= zip(("flags_mask", "flags", "system", "type", "subtype"), resources.fixed[4:])
    if data is not None:
        row["string_tables"] = [
            {
                "key": utf8(table).decode(),
                "strings": [{"key": utf8(key).decode(), "value": value_text(value).decode()} for key, value in strings],
            }
            for table, strings in resources.tables
        ]
    return {"version": row}


def resource_members(resources):
    """The leaves of the resource tree, version information and the manifest."""
    rows = {"resources": [leaf_row(resources, leaf) for leaf in resources.leaves]} if resources.start else {}
    rows |= version_member(resources)
    manifest = resources.manifest and resources.manifest[1]
    return rows | (named("manifest", manifest) if manifest is not None else {})


def signer_row(signer):
    subject, issuer, serial = signer
    names = (("subject", common_name(subject)), ("issuer", common_name(issuer)))
    row = {"serial_hex": serial.hex()}
    for key, name in names:
        row |= {} if name is None else named(key, name)
    return row


def signature_members(trust, data, has_digests):
    """What an entry signs, and the certificates that it has."""
    row, signed, message = {}, signed_digest(data), trust.message()
    if signed:
        name, algorithm = ALGORITHMS.get(signed[0], (None, None))
        row |= {"digest_algorithm": name} if name else {}
        row |= {"digest_hex": signed[1].hex()}
        if name and has_digests and message is not None:
            row |= {"fits": hashlib.new(algorithm, message).digest() == signed[1]}
    return row | {"signers": [signer_row(signer) for signer in signers(data)]}


def certificate_row(trust, entry, has_digests):
    at, length, revision, kind, data = entry
    row = {"offset": at, "length": length, "revision": revision, "type": kind}
    row |= {"type_name": CERTIFICATES[kind]} if kind in CERTIFICATES else {}
    return row | (signature_members(trust, data, has_digests) if kind == 2 else {})


def overlay_member(trust):
    """What comes after the headers and the raw data of all sections."""
    found = overlay(trust)
    if not found:
        return {}
    end, size, words = found
    words = "NSIS installer data" if "NSIS" in words else re.sub("^(the|an?) ", "", words)
    return {"overlay": {"offset": end, "size": size, "begins_with": words}}


def rich_member(trust):
    if not trust.rich:
        return {}
    at, key, pairs = trust.rich
    rows = [{"product": tool >> 16, "build": tool & 0xFFFF, "count": count} for tool, count in pairs]
    return {"rich": {"offset": at, "key": key, "fits": key == trust.rich_sum(), "pairs": rows}}


def trust_members(trust, has_digests):
    """What the file says of itself."""
    rows, message = {}, trust.message()
    if has_digests:
        rows["check_sum_computed"] = trust.check_sum()
        rows |= {} if message is None else {"authenticode_sha256_hex": hashlib.sha256(message).hexdigest()}
    if trust.table:
        rows["certificates"] = [certificate_row(trust, entry, has_digests) for entry in trust.certificates]
    return rows | overlay_member(trust) | rich_member(trust)


def findings_member(tables, trust, symbols):
    """The findings of the tables, if these are told, those of what the file says of itself, and those of the symbol table."""
    rows = [fault_member(Refused(number, "rva", at)) for number, at in tables.findings] if tables else []
    rows += [fault_member(Refused(number, "file", at)) for number, at in trust.findings + symbols]
    return {"findings": rows} if rows else {}


def fault_member(fault):
    subject, rule = fault_words(fault.number)
    return {"number": fault.number, "image": 0, "place": {fault.kind: fault.place}, "subject": subject, "rule": rule}


def beyond_members(file, headers, image, is_accepted, options):
    """What is told beyond the profile: of a refused image, what its file says of itself."""
    trust, tables = Trust(file, headers), Tables(image, file) if is_accepted else None
    row = record_members(tables, "--functions" in options) | resource_members(tables.resources) if tables else {}
    row |= trust_members(trust, "--no-digest" not in options)
    found = import_hash(image.imports) if image else None
    row |= {} if found is None else {"imphash": found}
    return row | findings_member(tables, trust, ImageSymbols(file, headers).findings if tables else [])


def line_of(name, file, options):
    """The line of an image, with what is told beyond its profile if that is wanted."""
    fault, row, headers, image = None, {}, None, None
    try:
        headers = Headers(file)
        row = header_members(file, headers)
        image = Image(file, headers)
        image.read_tables()
    except Refused as refused:
        fault = refused
    if image:
        row |= table_members(image)
    if headers and ("--all" in options or "--functions" in options):
        row |= beyond_members(file, headers, image, fault is None, options)
    begin = {"schema": 1, **named("file", os.fsencode(name)), "accepted": fault is None}
    begin |= {"fault": fault_member(fault)} if fault else {}
    return HIDDEN.sub(lambda found: f"\\u{ord(found[0]):04x}", json.dumps(begin | row, ensure_ascii=False, separators=(",", ":")))


def same(line, other):
    """Whether two lines are the same, but for what the file is instead and the values of its fault."""
    line = re.sub('"accepted":false,"kind":"[^"]*"', '"accepted":false', line)
    return re.sub(r'("rule":"[^"]*"),"values":{[^}]*}', r"\1", line) == other


def parted(words):
    """Words without the options before them, and these."""
    count = next((k for k, word in enumerate(words) if word not in OPTIONS), len(words))
    return words[count:], words[:count]


def compare_cases(folder, data):
    with open(os.path.join(folder, "views.answers"), encoding="utf-8", newline="") as file:
        stored = dict(block.split("\n", 1) for block in re.split(r"^== ", file.read(), flags=re.M)[1:])
    count = differing = 0
    for case, answer in stored.items():
        kind, *words = case.split(" ")
        words, options = parted(words)
        file = changed(data, words) if kind == "json" else b""
        if kind != "json" or is_object(file):
            continue
        count += 1
        wanted, line = line_of(words[0], file, options), answer.split("\n")[0]
        if not same(line, wanted):
            differing += 1
            print(f"{case}: differs\n  petool {line}\n  script {wanted}")
    print(f"{count} cases, {differing} differ")
    return differing


def main(words):
    if words[:1] == ["--cases"]:
        return 1 if compare_cases(words[1], words[2]) else 0
    paths, options = parted(words)
    for path in paths:
        print(line_of(path, read(path), options))
    return 0


if __name__ == "__main__":
    sys.exit(main(sys.argv[1:]))
