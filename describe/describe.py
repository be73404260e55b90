#!/usr/bin/env python3
"""Writes what describe/records.txt, faults.txt and commands.txt describe into the files that have it: describe.py [--check]

With --check nothing is written: each such file is compared, and also the sources that are not written. A file that differs is
named, with its first line that does; the last line is 'N passed, M failed', and the status is 1 if something differs.
"""

import pathlib
import sys

TOP = pathlib.Path(__file__).resolve().parents[1]
sys.dont_write_bytecode = True

import c_texts
import call_texts
import command_texts
import fault_texts
import header_texts
import module_texts
import page_texts
import plan_texts
import python_texts
import rattle_records
import rattle_sources
import reach_texts
import regions
import rust_texts
from commands import Commands
from description import Description, Mistake
from faults import Faults

RECORDS = "describe/records.txt"
FAULTS = "describe/faults.txt"
COMMANDS = command_texts.SOURCE
HEADER = "bindings/c/petool.h"
RUST = "bindings/rust/petool-sys/src/lib.rs"
SHOWN = "bindings/rust/petool/src/lib.rs"
PACKAGE = "bindings/python/petool"
SHOWN_IN_PYTHON = f"{PACKAGE}/__init__.py"
#: The modules of the package that have values, or classes with the fields of records.
MODULES = ("_archive", "_fault", "_image", "_library", "_object", "_resource", "_space", "_tables", "_trust")
MAN = "man/petool.h.3"
JSON = "docs/JSON.md"
FAULTS_PAGE = "docs/FAULTS.md"
#: The definitions of the fields that a plan names.
PLAN_HEADERS = "crates/pe_write/specs/PlanHeaders.antt"
#: The definition of the headers' fields by their places.
HEAD = "crates/pe_head/specs/Head.antt"

#: The files that are written completely, without the sources in Rattle.
WHOLE = {
    "bindings/c/petool.map": c_texts.linker_map,
    "bindings/rust/petool-sys/tests/layout.rs": rust_texts.layout_test,
    f"{PACKAGE}/_records.py": python_texts.records_module,
    "packaging/debian/libpetool2.symbols": c_texts.debian_symbols,
}


def rust_part(description, what):
    """A part of the crate petool-sys, with a blank line at both ends."""
    form = {"values": rust_texts.values, "records": rust_texts.records, "calls": rust_texts.calls}[what]
    return ["", *form(description), ""]


def shown_part(description, what):
    """The part of the crate petool that has records of petool-sys."""
    if what != "shown records":
        raise KeyError(what)
    return rust_texts.shown(description)


def plan_part(description, what):
    """A part of the proofs about a plan's headers."""
    return plan_texts.part(description, what, plan_texts.planned(read(PLAN_HEADERS)))


#: The sources in Rattle, and the page, that have the fields of the headers in parts: what writes these, and which each must have.
FIELDS = {
    "crates/pe_head/src/headers.rt": (header_texts.head_part, ["fields"]),
    "crates/pe_head/src/fields.rt": (header_texts.head_part, ["counts", "reading", "reading of directory"]),
    "crates/pe_text/src/header_fields.rt": (header_texts.dump_part, ["coff", "standard", "windows"]),
    "crates/pe_json/src/headers.rt": (header_texts.json_part, ["coff"]),
    "crates/pe_json/src/optional_header.rt": (header_texts.json_part, ["standard", "versions", "sizes", "last"]),
    "crates/pe_at/src/header_places.rt": (header_texts.places_part, ["coff fields", "narrow fields", "wide fields"]),
    "crates/pe_write/proofs/PlanHead.antt": (plan_part, ["values", "reading"]),
    "crates/pe_reach/proofs/Headers.antt": (reach_texts.part, ["agreeing"]),
    "docs/FORMAT.md": (header_texts.page_part, ["coff", "same", "other"]),
}
#: The definitions of pe_records_c of which rows are written, and the records of each.
ROWS = {"crates/pe_records_c/specs/HeaderRows.antt": ["section", "headers"]}


def module_part(path):
    """The part of a crate's root that has its modules, which are the files beside it."""

    def form(_, what):
        if what != "modules":
            raise KeyError(what)
        return module_texts.ROOTS[path]((TOP / path).parent)

    return form


#: The files of which parts are written from the records, each between two comments.
PARTS = {
    HEADER: c_texts.declarations,
    RUST: rust_part,
    SHOWN: shown_part,
    SHOWN_IN_PYTHON: python_texts.shown_part,
    **{f"{PACKAGE}/{module}.py": python_texts.module_part for module in MODULES},
    MAN: lambda description, _: page_texts.synopsis(description),
    JSON: page_texts.json_part,
    "docs/C.md": page_texts.c_part,
    **{path: form for path, (form, _) in FIELDS.items()},
    **{path: rattle_records.definition_part for path in ROWS},
    **{path: module_part(path) for path in module_texts.ROOTS},
}


def read(path):
    return (TOP / path).read_text()


def described_by(path, form):
    """What a description says. Mistake, with its path, if it is malformed."""
    try:
        return form(read(path))
    except Mistake as error:
        raise Mistake(f"{path}: {error}") from error


def sources(*crates):
    """The sources of crates, by their paths."""
    files = [it for crate in crates for it in sorted((TOP / "crates" / crate / "src").glob("*.rt"))]
    return {str(it.relative_to(TOP)): it.read_text() for it in files}


def whole(description):
    """The files that are written completely, each with its contents."""
    files = {path: form(description) for path, form in WHOLE.items()}
    records = {it: rattle_records.source(description, it) for it in rattle_records.files(description)}
    files.update({f"crates/pe_records_c/src/{name}.rt": text for name, text in records.items()})
    calls = {call_texts.item_of(it): call_texts.source(description, it) for it in call_texts.calls(description)}
    files.update({f"crates/petool_c/src/{name}.rt": text for name, text in calls.items()})
    return files


def written(description):
    """All files that are written, completely or in part."""
    return [*whole(description), *PARTS, FAULTS_PAGE, *fault_texts.TABLES]


def made(description, faults, path):
    """The contents of a file, written from a description. NoRegion or NoTable if a part of it cannot be written."""
    files = whole(description)
    if path in files:
        return files[path]
    if path in fault_texts.TABLES:
        return fault_texts.source(faults, path, read(path))
    if path == FAULTS_PAGE:
        return regions.filled(read(path), FAULTS, lambda what: fault_texts.part(faults, what))
    return regions.filled(read(path), RECORDS, lambda what: PARTS[path](description, what))


def difference(description, faults, path):
    """How a file differs from what the description gives, as a list of one sentence, or of none."""
    try:
        return compared(path, made(description, faults, path))
    except (regions.NoRegion, fault_texts.NoTable) as error:
        return [f"{path}: {error}"]


def command_difference(commands, path):
    """The same of a file that has commands, options or exit statuses."""
    try:
        return compared(path, command_texts.FILES[path](commands, read(path)))
    except (regions.NoRegion, command_texts.NoPlace) as error:
        return [f"{path}: {error}"]


def compared(path, wanted):
    """How a file differs from its wanted contents, as a list of one sentence, or of none."""
    current = read(path)
    if current == wanted:
        return []
    lines = enumerate(zip([*current.split("\n"), None], [*wanted.split("\n"), None]), 1)
    number, one, other = next((number, one, other) for number, (one, other) in lines if one != other)
    return [f"{path}: line {number} is {one!r}, described as {other!r}"]


def parts(description):
    """The parts that files must have: each enum and record in petool.h, each table in JSON.md, what each module of Python has."""
    declared = {**description.values, **description.records}
    yield HEADER, [*declared, c_texts.LAYOUTS, c_texts.NULLS.rpartition(" ")[2]]
    apart = [it.name for it in description.objects.values() if not (it.kind_of or it.is_in_words or it.heads)]
    yield JSON, [*apart, "rows"]
    yield RUST, ["values", "records", "calls"]
    yield "docs/C.md", ["statuses", "calls", "fields"]
    for module in sorted({it.python_module for it in declared.values()} - {""} | {*MODULES}):
        yield f"{PACKAGE}/{module}.py", [name for name, it in declared.items() if it.python_module == module]


def misplaced(description):
    """What is in no part of a file, or in two, or is not described."""
    for path, wanted in parts(description):
        yield from wrong_parts(path, regions.names(read(path), RECORDS), wanted)
    for path, (_, wanted) in FIELDS.items():
        yield from wrong_parts(path, regions.parts(read(path), RECORDS), [it if " of " in it else f"{it} of headers" for it in wanted])
    for path, records in ROWS.items():
        yield from wrong_parts(path, regions.parts(read(path), RECORDS), [f"rows of {it}" for it in records])
    for path, wanted in {**dict.fromkeys(module_texts.ROOTS, "modules"), SHOWN: "shown records"}.items():
        yield from wrong_parts(path, regions.parts(read(path), RECORDS), [wanted])
    yield from wrong_parts(SHOWN_IN_PYTHON, regions.parts(read(SHOWN_IN_PYTHON), RECORDS), ["imports of _image", "names of _image"])


def wrong_parts(path, found, wanted):
    """Which of the wanted parts a file does not have exactly once, and which of its parts are not described."""
    yield from (f"{path}: {it} is in {found.count(it)} parts" for it in wanted if found.count(it) != 1)
    yield from (f"{path}: {it} is not described" for it in found if it not in wanted)


def missing_sources(faults):
    """The sources that are described as testing faults, and do not exist."""
    named = [(it.number, path) for it in faults.by_number() for path in it.files()]
    return [f"{FAULTS}: fault {number}: there is no {path}" for number, path in named if not (TOP / path).is_file()]


def comparisons(description, faults):
    """What is wrong with each file that is written and each source that is compared: nothing if it agrees."""
    for path in written(description):
        yield difference(description, faults, path)
    yield list(misplaced(description))
    yield list(wrong_parts(FAULTS_PAGE, regions.parts(read(FAULTS_PAGE), FAULTS), fault_texts.parts(faults)))
    yield missing_sources(faults)
    yield rattle_sources.prototype_faults(description, HEADER, read(HEADER))
    yield rattle_sources.status_faults(description, MAN, read(MAN))
    yield rattle_sources.value_faults(description, sources("pe_records_c", "c_tables", "coff_read"))
    yield rattle_sources.record_faults(description, sources("pe_records_c", "c_tables", "coff_library", "pe_handle", "pe_opened"))
    yield rattle_sources.call_faults(description, sources("petool_c"))
    yield rattle_sources.key_faults(description, sources("pe_json", "coff_archive_json"))
    yield rattle_sources.definition_faults(description, HEAD, read(HEAD))


def command_comparisons(commands):
    """The same of the commands."""
    for path in command_texts.FILES:
        yield command_difference(commands, path)
    for path, wanted in command_texts.PARTS.items():
        yield list(wrong_parts(path, regions.parts(read(path), COMMANDS), wanted))
    yield command_texts.status_faults(commands, read(command_texts.STATUSES))


def check(description, faults, commands):
    found = [*comparisons(description, faults), *command_comparisons(commands)]
    for sentence in [sentence for sentences in found for sentence in sentences]:
        print(sentence)
    failed = sum(map(bool, found))
    print(f"{len(found) - failed} passed, {failed} failed")
    return 0 if failed == 0 else 1


def put(path, text):
    """Writes a file if its contents change."""
    if not (TOP / path).exists() or read(path) != text:
        (TOP / path).write_text(text)
        print(f"{path}: written")


def write(description, faults, commands):
    for path in written(description):
        put(path, made(description, faults, path))
    for path, form in command_texts.FILES.items():
        put(path, form(commands, read(path)))
    return 0


def main(words):
    if words not in ([], ["--check"]):
        print(__doc__.splitlines()[0], file=sys.stderr)
        return 2
    try:
        forms = {RECORDS: Description, FAULTS: Faults, COMMANDS: Commands}
        described = [described_by(path, form) for path, form in forms.items()]
        return check(*described) if words else write(*described)
    except (Mistake, regions.NoRegion, fault_texts.NoTable, command_texts.NoPlace, OSError) as error:
        print(f"describe.py: {error}\n0 passed, 1 failed")
        return 1


if __name__ == "__main__":
    sys.exit(main(sys.argv[1:]))
