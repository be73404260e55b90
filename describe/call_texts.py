"""What is written for petool_c: the source of a call that reads a table of an image into the caller's rows."""

import re
from dataclasses import dataclass
from typing import List

from description import Call, Description, Mistake
from regions import wrapped

#: The widest line of a comment.
WIDTH = 132
FORM = re.compile(r"(.+?) from the (.+?) \((.+?)\), rows (\w+) of ([\w.]+), tests (\w+), memory (\w+) of ([\w.]+)")


@dataclass
class Table:
    """What a call reads: the row below it in the description."""

    items: str  #: in words
    table: str  #: in words
    section: str  #: of "PE Format"
    rows: str  #: the definition of the items, and its module
    rows_module: str
    tests: str  #: the definition of the tests, in TableTests
    memory: str  #: the definition of when memory is allocated, and its module
    memory_module: str


def _table(call: Call) -> Table:
    found = FORM.fullmatch(call.reads)
    if found is None:
        raise Mistake(f"{call.name}: what it reads has not the form {FORM.pattern}")
    return Table(*found.groups())


def calls(description: Description) -> List[Call]:
    """The calls whose sources are written."""
    return [call for call in description.calls if call.reads]


def item_of(call: Call) -> str:
    """The record of the rows that a call fills, after which its source is named."""
    return next(it.type for it in call.parameters if it.length and it.is_mutable)


def _said(call: Call, table: Table) -> List[str]:
    """The comment of the call."""
    faults = " and ".join(call.faults.rsplit(", ", 1))
    status = (
        f"The status is 0; 4 if there are more {table.items} than rows, which then hold the first of them; 1 with the first of faults"
        f" {faults}; or 2, out of memory: memory is allocated {call.memory}. The count is that of all {table.items};"
        f' 1 and 2 leave it and the rows unchanged. ("PE Format": {table.section}.)'
    )
    first = f"Reads the {table.items} of an image, in the order of its {table.table}, into the caller's rows."
    paragraphs = [wrapped(f"/// {said}".split(" "), WIDTH, "/// ") for said in (first, status)]
    return [*paragraphs[0], "///", *paragraphs[1]]


def _uses(call: Call, table: Table, struct: str, shown: List[str]) -> List[str]:
    """The definitions and the functions that the source uses."""
    item, read = item_of(call), call.name.removeprefix("petool_")
    return [
        "ghost use Rattle.pe_layout.specs.Image.{image_of_file};",
        f"ghost use Rattle.{table.rows_module}.{{{table.rows}}};",
        f"ghost use Rattle.pe_records_c.specs.{item.capitalize()}Rows.{{{', '.join([*shown, f'{item}_row'])}}};",
        "ghost use Rattle.pe_records_c.specs.Rows.{ReadsTable};",
        f"ghost use Rattle.pe_records_c.specs.TableTests.{{{table.tests}}};",
        f"ghost use Rattle.{table.memory_module}.{{{table.memory}}};",
        "ghost use Rattle.pe_records_c.specs.Wants.{IsLaidOutAnd};",
        "",
        "use pe_records_c::fault::{FaultRecord, refuse_for};",
        f"use pe_records_c::{item}::{struct};",
        f"use pe_records_c::reading::{read}_in;",
        "use pe_records_c::row::put_table;",
        "use std::alloc::Global;",
    ]


def _function(call: Call, table: Table, row: str, has_text: bool) -> str:
    item, read = item_of(call), call.name.removeprefix("petool_")
    life, of, view = ("<'a>", "'a ", f"{item}_text") if has_text else ("", "", "(λ row. row)")
    return f"""\
#[unsafe(no_mangle)]
pub extern "C" fn {call.name}{life}(
    alloc: Global,
    file: &{of}[u8],
    rows: &mut [{row}],
    count: &mut usize,
    fault: &mut FaultRecord,
) -> u32
    ensures {{ ReadsTable (IsLaidOutAnd {table.memory} file.now) ({table.tests} file.now) {view} {item}_row ({table.rows} (image_of_file 0 file.now))
        rows.old rows.new count.old count.new fault.old fault.new result }}
{{
    match {read}_in(alloc, file) {{
        Ok({read}) => put_table(rows, {read}.as_slice(), count),
        Err(refusal) => refuse_for(refusal, fault),
    }}
}}
"""


def source(description: Description, call: Call) -> str:
    """crates/petool_c/src/ITEM.rt of a call that fills rows of ITEM."""
    table, record = _table(call), description.records[item_of(call)]
    has_text = description.has_text(record)
    row = f"{record.struct}<'a>" if has_text else record.struct
    shown = [f"{record.name}_text"] if has_text else []
    first = [f"//! {table.items[0].upper()}{table.items[1:]}: `{call.name}`.", "//!", "//! describe/describe.py writes this file.", ""]
    lines = [*first, *_uses(call, table, record.struct, shown), "", *_said(call, table)]
    return "\n".join(lines) + "\n" + _function(call, table, row, has_text)
