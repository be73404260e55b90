"""What is written for the crate petool-sys: its constants, its records, its calls and the test of their layout."""

import re
from typing import List

from c_texts import RESULTS
from description import Call, Description, Field, Parameter, Record, Values
from regions import wrapped

WIDTH = 120
#: The width of a struct's values that rustfmt leaves on one line.
SMALL = 22
ITEMS = {"bytes": "*const u8", "state": "*mut c_void", "char": "c_char", "int": "c_int"}

LAYOUT = """\
//! Each record has the size and the field offsets of the library's, on a 64-bit machine, as `petool.h` asserts them.
//! describe/describe.py writes this file.

#![cfg(target_pointer_width = "64")]

use core::mem::{align_of, size_of, MaybeUninit};
use core::ptr::addr_of;
use petool_sys::*;

/// Asserts a record's size and alignment, and the offset of each of its fields. `offset_of` needs Rust 1.77.
macro_rules! layout {
    ($record:ty, $size:literal, $alignment:literal, $($field:ident $offset:literal),*) => {
        assert_eq!(size_of::<$record>(), $size, concat!("size of ", stringify!($record)));
        assert_eq!(align_of::<$record>(), $alignment, concat!("alignment of ", stringify!($record)));
        let record = MaybeUninit::<$record>::uninit();
        let start = record.as_ptr();
        $(
            // SAFETY: the address of a field is inside the record, and nothing is read there
            let field = unsafe { addr_of!((*start).$field) };
            assert_eq!(field as usize - start as usize, $offset, concat!(stringify!($record), ".", stringify!($field)));
        )*
    };
}
"""

VERSION = """\

#[test]
fn the_library_has_the_version_of_the_header() {
    // SAFETY: the call has no arguments
    assert_eq!(unsafe { petool_version_number() }, PETOOL_VERSION_NUMBER);
}
"""


def sentence(text: str) -> str:
    """A meaning as a sentence, with the header's names as code."""
    text = re.sub(r"(?<!`)\b(PETOOL_\w+)", r"`\1`", text)
    return text[0].upper() + text[1:].rstrip(".") + "."


def _constants(found: Values) -> List[str]:
    lines: List[str] = []
    for it in found.values:
        lines.append(f"/// {sentence(found.rust.replace('..', it.in_words()))}")
        lines.append(f"pub const {found.prefix}{it.name}: {found.type} = {it.number};")
    return lines


def shown(description: Description) -> List[str]:
    """The records that the crate petool shows as petool-sys has them, with their names there."""
    found = sorted((it.camel(), it.rust_shown) for it in description.records.values() if it.rust_shown)
    names = [name if name == new else f"{name} as {new}" for name, new in found]
    line = f"pub use petool_sys::{{{', '.join(names)}}};"
    if len(line) <= WIDTH:
        return ["#[doc(inline)]", line]
    rows = wrapped([f"{name}," for name in names], WIDTH - 5, "")
    return ["#[doc(inline)]", "pub use petool_sys::{", *(f"    {row}" for row in rows), "};"]


def values(description: Description) -> List[str]:
    """The constants of all enums, with a blank line between two."""
    lines: List[str] = []
    for found in description.values.values():
        lines += ([""] if lines else []) + _constants(found)
    return lines


def _item(description: Description, kind: str) -> str:
    if kind in description.records:
        return description.records[kind].camel()
    return ITEMS.get(kind, kind)


def _type(description: Description, it: Field) -> str:
    item = _item(description, it.item())
    return f"[{item}; {it.count()}]" if "[" in it.type else item


def _derived(description: Description, record: Record) -> str:
    """What a record derives. One with a state is never copied, and one with pointers never compared."""
    if any(it.type == "state" for it in record.fields):
        return "Debug"
    if description.has_text(record) or any(it.type == "bytes" for it in record.fields):
        return "Clone, Copy, Debug"
    if _has_long_array(record):
        return "Clone, Copy, Debug, PartialEq, Eq, Hash"
    return "Clone, Copy, Debug, Default, PartialEq, Eq, Hash"


def _has_long_array(record: Record) -> bool:
    """Whether it has an array with more items than those for which Rust has a default."""
    return any(it.count() > 32 for it in record.fields)


def _struct(description: Description, record: Record) -> List[str]:
    derived = f"#[derive({_derived(description, record)})]"
    lines = [f"/// {record.about}", "#[repr(C)]", derived, f"pub struct {record.camel()} {{"]
    for it in record.fields:
        lines += [f"    /// {sentence(it.meaning)}", f"    pub {it.name}: {_type(description, it)},"]
    return [*lines, "}"]


def _blank(description: Description, it: Field) -> str:
    """The value of a field before a call sets it."""
    if it.type in description.records:
        return f"{description.records[it.type].camel()}::NONE"
    blank = "false" if it.type == "bool" else "0"
    return f"[{blank}; {it.count()}]" if "[" in it.type else blank


def _none(description: Description, record: Record) -> List[str]:
    """The constant of a record with texts, whose pointers may not be null before a call, or without a default of Rust."""
    name = record.camel()
    values = [f"{it.name}: {_blank(description, it)}" for it in record.fields]
    about = "    /// Its value before a call sets it."
    if len(", ".join(values)) <= SMALL:
        return ["", f"impl {name} {{", about, f"    pub const NONE: {name} = {name} {{ {', '.join(values)} }};", "}"]
    fields = [f"        {it}," for it in values]
    return ["", f"impl {name} {{", about, f"    pub const NONE: {name} = {name} {{", *fields, "    };", "}"]


def _filled(description: Description) -> List[str]:
    """The types that calls fill, and those of their fields."""
    filled = {it.type for call in description.calls for it in call.parameters if it.is_mutable}
    parts = {it.type for name in filled if name in description.records for it in description.records[name].fields}
    return sorted(filled | parts)


def _has_none(description: Description, record: Record) -> bool:
    """Whether it has a constant that is written: it has texts or no default, or is a part, without a pointer, of a record with
    texts."""
    with_text = [it for it in description.records.values() if description.has_text(it)]
    is_part = any(it.type == record.name for other in with_text for it in other.fields)
    is_plain = all(it.type != "bytes" for it in record.fields)
    return is_part and is_plain or description.has_text(record) or _has_long_array(record)


def records(description: Description) -> List[str]:
    """All records, and the constants of those that a call fills."""
    filled = _filled(description)
    lines: List[str] = []
    for record in description.records.values():
        lines += ([""] if lines else []) + _struct(description, record)
        if record.name in filled and _has_none(description, record):
            lines += _none(description, record)
    return lines


def _parameters(description: Description, it: Parameter) -> List[str]:
    item = _item(description, it.type)
    if not it.is_reference:
        return [f"{it.name}: {item}"]
    pointer = f"{it.name}: *{'mut' if it.is_mutable else 'const'} {item}"
    return [pointer, f"{it.length}: usize"] if it.length else [pointer]


def _call(description: Description, call: Call) -> List[str]:
    """A call, on one line if it fits, as rustfmt has it."""
    words = [word for it in call.parameters for word in _parameters(description, it)]
    result = "" if RESULTS[call.result] == "void" else f" -> {ITEMS.get(call.result, call.result)}"
    line = f"pub fn {call.name}({', '.join(words)}){result};"
    if len(line) + 4 <= WIDTH:
        return [line]
    return [f"pub fn {call.name}(", *(f"    {word}," for word in words), f"){result};"]


def calls(description: Description) -> List[str]:
    """The calls, with a blank line between two groups."""
    lines: List[str] = []
    for group in description.call_groups().values():
        lines += [""] if lines else []
        lines += [line for call in group for line in _call(description, call)]
    return lines


def _layout(description: Description, record: Record) -> List[str]:
    size, alignment, places = description.layout(record)
    fields = [f"{it.name} {place}" for it, place in zip(record.fields, places)]
    words = [f"{word}," for word in [f"layout!({record.camel()}", str(size), str(alignment), *fields]]
    lines = wrapped([*words[:-1], f"{fields[-1]});"], 96, "    ")
    return [f"    {line}" for line in lines]


def layout_test(description: Description) -> str:
    """tests/layout.rs."""
    parts = [LAYOUT]
    for group, held in description.groups().items():
        rows = [line for record in held for line in _layout(description, record)]
        name = f"the_records_of_{group.replace(' ', '_')}_are_laid_out_as_in_c"
        parts.append("\n".join(["", "#[test]", f"fn {name}() {{", *rows, "}", ""]))
    return "".join([*parts, VERSION])
