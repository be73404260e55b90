"""What is written for the proofs of pe_write: the fields that a file holds if it begins with the numbers of a plan."""

import re
from typing import Dict, List

from description import Description, Field
from header_texts import definition, place_of, read_fields

#: Where the COFF header and the optional header begin in a written file.
COFF, OPTIONAL = 0x44, 0x58
#: Where the standard fields end in PE32+: the numbers before are computed alike for both forms.
ALIKE = 24


def planned(definitions: str) -> Dict[str, str]:
    """The fields that a plan names, with their values: the rows of `plan_headers` in the definitions."""
    rows = definitions.partition("\nplan_headers plan = record")[2].partition("\n}")[0]
    return dict(re.findall(r"^  (\w+) = (.*);$", rows, re.M))


def _read(it: Field, value: str) -> str:
    """What a written file holds in a field."""
    read = definition(it, "g")
    return f"pub {it.name} : {read if place_of(it).wide else f'({read})'} ≡ {value}"


def _reading(it: Field, value: str) -> str:
    """Why it holds it."""
    place = place_of(it)
    (offset, width), wide = place.narrow, place.wide
    one = value if re.fullmatch(r"[\w.]+", value) else f"({value})"
    start = f"{(COFF if place.is_coff else OPTIONAL) + offset:#x}"
    number = f"(U{8 * width} {one})"
    if place.is_coff:
        return f"{it.name} = coff-is {offset} {number} {start} refl refl;"
    if wide is None:
        narrow = f"(in_form Pe32 {offset} (U{8 * width} 0) {start} refl refl)"
        return f"{it.name} = data_of plan.magic (is_pe32 g) (field g {offset} {width}) magic-is {narrow};"
    if not place.is_same():
        return f"{it.name} = form-is {offset} {wide[0]} {number} (U{8 * wide[1]} {one}) {one} refl refl refl refl;"
    if offset < ALIKE:
        return f"{it.name} = field-is {offset} {number} {start} refl refl;"
    return f"{it.name} = same-is {offset} {number} {start} refl refl refl;"


def part(description: Description, what: str, values: Dict[str, str]) -> List[str]:
    """A part of crates/pe_write/proofs/PlanHead.antt: `values of headers`, or why they are these, `reading of headers`."""
    form = {"values of headers": _read, "reading of headers": _reading}[what]
    return [form(it, values.get(it.name, "0")) for it in read_fields(description)]
