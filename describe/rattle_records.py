"""What is written for pe_records_c: a source with the structs of records and the functions that fill them, and those rows of their
definitions that are fields of the same name.

The rows of a definition that have an origin of their own stay by hand above the written ones: the proof of the code compares them.
"""

import re
from typing import Dict, List, Sequence, Set

from description import Description, Field, Record
from rust_texts import sentence

SPECS = "Rattle.pe_records_c.specs"


def _item_of(description: Description, it: Field) -> str:
    """The type of a field, or of an item of an array, in Rattle."""
    return description.records[it.item()].struct if it.item() in description.records else it.item()


def _type(description: Description, it: Field) -> str:
    item = _item_of(description, it)
    return f"[{item}; {it.count()}]" if "[" in it.type else item


def _is_table(description: Description, it: Field) -> bool:
    """Whether a field is an array of records."""
    return it.item() in description.records and "[" in it.type


def _tables(description: Description, record: Record) -> List[Field]:
    return [it for it in record.fields if _is_table(description, it)]


def _source_type(record: Record) -> str:
    """The type of the values that a record shows."""
    return record.rattle_source[2]


def _about(record: Record) -> str:
    counts_bytes = any(it.unit in ("bytes", "offset") for it in record.fields)
    return record.about + (" Offsets and sizes count bytes." if counts_bytes else "")


def _struct(description: Description, record: Record) -> List[str]:
    lines = [f"/// {_about(record)}", "#[repr(C)]", "#[derive(Clone, Copy)]", f"pub struct {record.struct} {{"]
    for it in record.fields:
        lines += [f"    /// {sentence(it.meaning)}", f"    pub {it.name}: {_type(description, it)},"]
    return [*lines, "}"]


def _value(description: Description, it: Field, value: str) -> List[str]:
    """The lines of a field's value, from one of the type that the record shows."""
    origin = it.origin
    if _is_table(description, it):
        return [f"{it.item()}_rows({value}.{it.name}.as_slice())"]
    if origin is None:
        return [f"{value}.{it.name}"]
    if origin.default:
        return [f"{value}.{origin.name}.unwrap_or({origin.default})"]
    if origin.numbers:
        arms = [f"    {origin.enum}::{variant} => {number}," for variant, number in origin.numbers]
        return [f"match {value}.{origin.name} {{", *arms, "}"]
    names = [origin.name, f"{origin.function}()" if origin.function else ""]
    return [".".join([value, *filter(None, names)])]


def _literal(description: Description, record: Record, value: str) -> List[str]:
    lines = [f"{record.struct} {{"]
    for it in record.fields:
        first, *others = _value(description, it, value)
        lines += [f"    {it.name}: {first}", *(f"    {line}" for line in others)]
        lines[-1] += ","
    return [*lines, "}"]


def _row(description: Description, record: Record) -> List[str]:
    """How a row of a table is made."""
    source = _source_type(record)
    return [
        f"impl Row<{source}> for {record.struct} {{",
        f"    ghost tells = {{ λ item row. row ≡ {record.name}_row item }};",
        "",
        f"    fn of(item: &{source}) -> Self {{",
        *(f"        {line}" for line in _literal(description, record, "item")),
        "    }",
        "}",
    ]


def _array(description: Description, it: Field) -> List[str]:
    """The function that makes an array of records from a list, which may be shorter."""
    item = description.records[it.item()]
    zeros = ", ".join(f"{field.name}: 0" for field in item.fields)
    return [
        f"/// {sentence(it.meaning)}",
        f"fn {item.name}_rows({it.name}: &[{_source_type(item)}]) -> {_type(description, it)}",
        f"    ensures {{ result ≡ {item.name}_rows {it.name}.now }}",
        "{",
        f"    let mut rows = [{item.struct} {{ {zeros} }}; {it.count()}];",
        f"    fill_rows(&mut rows, {it.name});",
        "    rows",
        "}",
    ]


def _filler(record: Record) -> List[str]:
    """The function that fills the caller's rows from a list."""
    items = record.rattle_filler.partition("_")[2]
    return [
        f"/// Fills the first rows with {items}.",
        f"pub fn {record.rattle_filler}(rows: &mut [{record.struct}], {items}: &[{_source_type(record)}])",
        f"    ensures {{ rows.new ≡ filled {record.name}_row {items}.now rows.old }}",
        "{",
        f"    fill_rows(rows, {items});",
        "}",
    ]


def _single(description: Description, record: Record) -> List[str]:
    """The function that makes a record that is no row."""
    return [
        f"/// The record for C of `{_source_type(record)}`.",
        f"pub fn {record.name}_record({record.name}: &{_source_type(record)}) -> {record.struct}",
        f"    ensures {{ result ≡ {record.name}_record {record.name}.now }}",
        "{",
        *(f"    {line}" for line in _literal(description, record, record.name)),
        "}",
    ]


def _is_row(records: Sequence[Record], record: Record) -> bool:
    """Whether there are rows of it: in a table, in the caller's memory, or in another record."""
    return record.is_row or bool(record.rattle_filler) or any(it.item() == record.name for other in records for it in other.fields)


def _of(description: Description, file: str) -> List[Record]:
    """The records of a source, rows first."""
    found = [it for it in description.records.values() if it.rattle_file == file]
    return sorted(found, key=lambda it: not _is_row(found, it))


def _used(names: Sequence[str], body: List[str]) -> List[str]:
    """Which of these names the lines have."""
    words = set(re.findall(r"\w+", "\n".join(body)))
    return [name for name in names if name in words]


def _braced(names: Sequence[str]) -> str:
    return f"{{{', '.join(names)}}}" if len(names) > 1 else names[0]


def specs_name(file: str) -> str:
    """The module of definitions of a source."""
    return "".join(word.capitalize() for word in file.rstrip("s").split("_")) + "Rows"


def _definitions(description: Description, records: List[Record]) -> List[str]:
    """The definitions that a source cites."""
    rows = [f"{it.name}_row" for it in records if _is_row(records, it)]
    arrays = [f"{it.item()}_rows" for record in records for it in _tables(description, record)]
    return [*rows, *arrays, *(f"{it.name}_record" for it in records if not _is_row(records, it))]


def _uses(description: Description, file: str, body: List[str]) -> List[str]:
    """What a source uses: definitions, the rows of pe_records_c, and the types of lower crates."""
    records = _of(description, file)
    lines = ["ghost use Rattle.std.specs.Prelude.{◌≡◌};"]
    lines.append(f"ghost use {SPECS}.{specs_name(file)}.{{{', '.join(_definitions(description, records))}}};")
    lines += [f"ghost use {SPECS}.Rows.{{filled}};"] if _used(["filled"], body) else []
    own = _used(["Row", "fill_rows"], body)
    lines += ["", *([f"use crate::row::{_braced(own)};"] if own else [])]
    crates: Dict[str, Set[str]] = {}
    for it in records:
        types = [_source_type(it), *(field.origin.enum for field in it.fields if field.origin)]
        crates.setdefault(it.rattle_source[0], set()).update(_used(types, body))
    return [*lines, *(f"use {crate}::{_braced(sorted(types))};" for crate, types in crates.items())]


def _body(description: Description, file: str) -> List[str]:
    """The structs of a source, each row with how it is made, and then its functions; a blank line before each."""
    records = _of(description, file)
    parts: List[List[str]] = []
    for it in records:
        parts += [_struct(description, it), *([_row(description, it)] if _is_row(records, it) else [])]
    parts += [_array(description, it) for record in records for it in _tables(description, record)]
    parts += [_filler(it) for it in records if it.rattle_filler]
    parts += [_single(description, it) for it in records if not _is_row(records, it)]
    return [line for part in parts for line in ("", *part)]


def source(description: Description, file: str) -> str:
    """crates/pe_records_c/src/FILE.rt."""
    *names, last = [f"`{it.struct}`" for it in _of(description, file)]
    shown = f"{', '.join(names)} and {last}, as C has them" if names else f"{last}, as C has it"
    body = _body(description, file)
    first = [f"//! {shown}.", "//!", "//! describe/describe.py writes this file.", ""]
    return "\n".join([*first, *_uses(description, file, body), *body]) + "\n"


def files(description: Description) -> List[str]:
    """The sources of pe_records_c that are written."""
    return sorted({it.rattle_file for it in description.records.values() if it.rattle_file})


def definition_part(description: Description, what: str) -> List[str]:
    """`rows of RECORD`: the rows of its definition that are fields of the same name."""
    record = description.records[what.removeprefix("rows of ")]
    plain = [it for it in record.fields if it.origin is None and not _is_table(description, it)]
    return [f"{it.name} = {record.name[0]}.{it.name};" for it in plain]
