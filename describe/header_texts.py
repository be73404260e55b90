"""What is written for the fields of an image's headers: pe_head's struct and the code that reads it, the fields of the dump, the
members of JSON, and the places in docs/FORMAT.md.

The definitions are not written: crates/pe_head/specs/Head.antt says the places a second time, HeaderFields.antt of pe_text the names
and widths, and Headers.antt of pe_json the members; the proofs of the code compare them.
"""

from typing import List

from description import Description, Field, Place
from rust_texts import sentence

BITS = {1: "u8", 2: "u16", 4: "u32", 8: "u64"}
#: The longest arguments of a macro that `rt fmt` leaves on one line.
ARGUMENTS = 60
#: Where the fields that "PE Format" calls standard end in PE32.
STANDARD_END = 28


def place_of(it: Field) -> Place:
    """The place of a field that has one."""
    if it.place is None:
        raise KeyError(f"place of {it.name}")
    return it.place


def fields_of(description: Description) -> List[Field]:
    """The fields of the headers in the order of "PE Format"."""
    return description.records["headers"].placed()


def read_fields(description: Description) -> List[Field]:
    """The same without Magic, which is known before the other fields are read."""
    return [it for it in fields_of(description) if it.name != "magic"]


def format_name(it: Field) -> str:
    """The name in "PE Format"."""
    return "".join(word[0].upper() + word[1:] for word in it.name.split("_"))


def _struct_field(it: Field) -> List[str]:
    place = place_of(it)
    kind, meaning = BITS[place.width()], it.meaning
    if place.wide is None:
        kind, meaning = f"Option<{kind}>", f"{meaning.partition(';')[0]}, in PE32 only"
    return [f"/// {sentence(meaning)}", f"pub {it.name}: {kind},"]


def _struct(description: Description) -> List[str]:
    """The fields of `Headers` between those that are known before and its lists."""
    fields = read_fields(description)
    coff = [line for it in fields if place_of(it).is_coff for line in _struct_field(it)]
    optional = [line for it in fields if not place_of(it).is_coff for line in _struct_field(it)]
    return ["// The COFF header.", *coff, "", "// The optional header.", *optional]


def _read(it: Field) -> str:
    """The call that reads a field. One that PE32+ lacks has a function of its own."""
    place = place_of(it)
    (offset, width), wide = place.narrow, place.wide
    if wide is None:
        return f"self.{it.name}()"
    if place.is_coff:
        return f"self.coff_{BITS[width]}({offset})"
    if place.is_same():
        return f"self.{BITS[width]}_at({offset})"
    return f"self.{BITS[wide[1]]}_either({offset}, {wide[0]})"


def _at_start(it: Field) -> str:
    """A field of a record that begins at `start`."""
    offset, width = place_of(it).narrow
    return f"{it.name}: {BITS[width]}_in(self.view, start{f' + {offset}' if offset else ''}),"


def head_part(description: Description, what: str) -> List[str]:
    """A part of pe_head: `fields of headers`, and `counts of headers` and `reading of headers`, which fills them; or `reading of
    directory`, whose fields are at their places from `start` on."""
    if what == "reading of directory":
        return [_at_start(it) for it in description.records["directory"].placed()]
    fields = read_fields(description)
    if what == "fields of headers":
        return _struct(description)
    if what == "counts of headers":
        return [f"let {it.name} = {_read(it)};" for it in fields if it.counts]
    if what == "reading of headers":
        return [f"{it.name}," if it.counts else f"{it.name}: {_read(it)}," for it in fields]
    raise KeyError(what)


def definition(it: Field, file: str = "file") -> str:
    """A field in the words of the definition, as a function of a file's bytes."""
    place = place_of(it)
    (offset, width), wide = place.narrow, place.wide
    if place.is_coff:
        return f"coff_field {file} {offset} {width}"
    if wide is None:
        return f"if is_pe32 {file} then Some (field {file} {offset} {width}) else None"
    if place.is_same():
        return f"field {file} {offset} {width}"
    return f"either_field {file} {offset} {width} {wide[0]} {wide[1]}"


def _dumped(description: Description, what: str) -> List[Field]:
    """The fields in a list of the dump: of the COFF header, or the standard or Windows-specific ones of the optional header."""
    fields = [it for it in fields_of(description) if it.dumped != "apart" and place_of(it).wide]
    groups = {
        "coff": [it for it in fields if place_of(it).is_coff],
        "standard": [it for it in fields if not place_of(it).is_coff and place_of(it).narrow[0] < STANDARD_END],
        "windows": [it for it in fields if not place_of(it).is_coff and place_of(it).narrow[0] >= STANDARD_END],
    }
    return groups[what.removesuffix(" of headers")]


def _number(it: Field, value: str) -> str:
    """A field's value as a number."""
    return f"{value}.{it.origin.function}()" if it.origin and it.origin.definition else value


def _dumped_code(it: Field) -> List[str]:
    place, value = place_of(it), f"headers.{it.name}"
    if it.dumped:
        return [f"{it.name}({value}),"]
    width = "extended" if place.is_extended() else str(place.narrow[1])
    words = [f'b"{format_name(it)}"', width, _number(it, value)]
    if len(", ".join(words)) <= ARGUMENTS:
        return [f"field!({', '.join(words)}),"]
    return ["field!(", *(f"    {word}," for word in words[:-1]), f"    {words[-1]}", "),"]


def dump_part(description: Description, what: str) -> List[str]:
    """A list of fields of pe_text: `coff of headers`, `standard of headers` or `windows of headers`."""
    return [line for it in _dumped(description, what) for line in _dumped_code(it)]


#: The groups of the optional header's fields that pe_json writes at once, by their offsets in PE32. Between the first two is
#: BaseOfData, and after the third a name.
JSON_GROUPS = {"standard": range(0, 24), "versions": range(28, 52), "sizes": range(52, 70), "last": range(70, 96)}


def _in_json(description: Description, what: str) -> List[Field]:
    """The fields in a group of pe_json: `coff of headers`, those of the COFF header after Machine, or a group of the others."""
    group, fields = what.removesuffix(" of headers"), fields_of(description)
    if group == "coff":
        return [it for it in fields if place_of(it).is_coff and not it.is_named]
    offsets = JSON_GROUPS[group]
    return [it for it in fields if not place_of(it).is_coff and place_of(it).narrow[0] in offsets]


def _written(function: str, words: List[str]) -> List[str]:
    """A call that adds a member."""
    if len(", ".join(words)) <= ARGUMENTS:
        return [f"{function}({', '.join(words)});"]
    return [f"{function}(", *(f"    {word}," for word in words), ");"]


def _member(it: Field, header: str) -> List[str]:
    """The code that adds a field as a member of JSON, with the names of its flags."""
    value = f"{header}.{it.name}"
    if place_of(it).is_extended():
        return _written("write_wide", ["text", f'b",\\"{it.name}\\":\\"0x"', value])
    lines = _written("write_number", ["text", f'b",\\"{it.name}\\":"', f"{_number(it, value)} as u64"])
    if it.flags:
        lines += _written("write_flags", ["text", f'b",\\"{it.name}_flags\\":["', f"FlagKind::{it.flags}", f"{value} as u32"])
    return lines


def json_part(description: Description, what: str) -> List[str]:
    """The code of a group of pe_json."""
    header = "header" if what == "coff of headers" else "headers"
    return [line for it in _in_json(description, what) for line in _member(it, header)]


def _pair(place: Place, is_wide: bool) -> str:
    pair = place.wide if is_wide else place.narrow
    return "absent" if pair is None else f"{pair[0]}/{pair[1]}"


def _listed(fields: List[Field]) -> str:
    return ", ".join(f"{format_name(it)} {_pair(place_of(it), False)}" for it in fields) + "."


def page_part(description: Description, what: str) -> List[str]:
    """A part of docs/FORMAT.md: the fields of the COFF header, those at the same place in both forms, or a table of the others."""
    fields = fields_of(description)
    optional = [it for it in fields if not place_of(it).is_coff]
    if what == "coff of headers":
        return [_listed([it for it in fields if place_of(it).is_coff])]
    if what == "same of headers":
        return [_listed([it for it in optional if place_of(it).is_same()])]
    if what != "other of headers":
        raise KeyError(what)
    rows = [(format_name(it), place_of(it)) for it in optional if not place_of(it).is_same()]
    firsts = [it for it in description.records["headers"].fields if it.place and "[" in it.type]
    rows += [(f"the first {it.item()}", place_of(it)) for it in firsts]
    cells = [f"| {name} | {_pair(place, False)} | {_pair(place, True)} |" for name, place in rows]
    return ["| Field | PE32 | PE32+ |", "|---|---|---|", *cells]


def places_part(description: Description, what: str) -> List[str]:
    """A list of fields with their places in pe_at: `coff fields of headers`, and `narrow fields of headers` and `wide fields of
    headers` of the optional header."""
    form = what.removesuffix(" fields of headers")
    if form not in ("coff", "narrow", "wide"):
        raise KeyError(what)
    rows = []
    for it in fields_of(description):
        place = place_of(it)
        pair = place.wide if form == "wide" else place.narrow
        if place.is_coff == (form == "coff") and pair is not None:
            rows.append((pair[0], f'("{format_name(it)}", {pair[0]}, {pair[1]}),'))
    return [row for _, row in sorted(rows)]
