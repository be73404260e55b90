"""What is written for C: the enums and structs of petool.h, what it asserts of them, and the names that the linker exports."""

from typing import List

from description import Call, Description, Field, Parameter, Record, Values

NUMBERS = {"usize": "size_t", "bool": "bool", "char": "char", **{f"u{bits}": f"uint{bits}_t" for bits in (8, 16, 32, 64)}}
POINTERS = {"bytes": "const uint8_t *", "state": "void *"}
RESULTS = {"u32": "uint32_t", "int": "int", "nothing": "void"}

#: The parts of petool.h that are no enums or structs.
LAYOUTS, NULLS = "layouts", "calls with NULL"


def type_of(kind: str) -> str:
    """A type in C, with the space or the star before the declared name."""
    return POINTERS.get(kind) or f"{NUMBERS.get(kind, f'petool_{kind}')} "


def _declared(it: Field) -> str:
    count = f"[{it.count()}]" if "[" in it.type else ""
    return f"{it.name}{count}" + (f" /* {it.note} */" if it.note else "")


def _line_groups(record: Record) -> List[List[Field]]:
    """The fields of each line of a struct."""
    groups: List[List[Field]] = []
    for it in record.fields:
        if it.is_joined:
            groups[-1].append(it)
        else:
            groups.append([it])
    return groups


def _comment(group: List[Field]) -> str:
    said = group[-1].comment
    return said if said is not None else group[0].meaning if len(group) == 1 else ""


def struct(record: Record) -> List[str]:
    """A struct of petool.h, whose comments begin in one column."""
    groups = _line_groups(record)
    lines = [f"{type_of(group[0].item())}{', '.join(map(_declared, group))};" for group in groups]
    name = f"petool_{record.name}"
    return [f"typedef struct {name} {{", *_commented(lines, list(map(_comment, groups))), f"}} {name};"]


def _commented(lines: List[str], comments: List[str]) -> List[str]:
    """The lines in braces, with their comments in one column; an empty comment is left out."""
    width = max((len(line) for line, comment in zip(lines, comments) if comment), default=0)
    return [f"    {line:<{width}} /* {comment} */" if comment else f"    {line}" for line, comment in zip(lines, comments)]


#: The greatest constant that an enum of C has before C23.
GREATEST = 0x7FFFFFFF


def enum(found: Values) -> List[str]:
    """An enum of petool.h, or macros in its place if a value is too large for one. Comments begin in one column."""
    comments = [it.meaning if it.comment is None else it.comment for it in found.values]
    if any(int(it.number, 0) > GREATEST for it in found.values):
        return _macros(found, comments)
    *lines, last = [f"{found.prefix}{it.name} = {it.number}" for it in found.values]
    return ["enum {", *_commented([*(f"{line}," for line in lines), last], comments), "};"]


def _macros(found: Values, comments: List[str]) -> List[str]:
    """The values as macros that are constants of their type."""
    constant = f"{found.type.replace('u', 'UINT')}_C"
    lines = [f"#define {found.prefix}{it.name} {constant}({it.number.replace('_', '')})" for it in found.values]
    return [line.strip() for line in _commented(lines, comments)]


def declarations(description: Description, what: str) -> List[str]:
    """The enums and structs of these names, with a blank line between two; or a part that is neither."""
    if what in (LAYOUTS, NULLS):
        return layouts(description) if what == LAYOUTS else nullable(description)
    lines: List[str] = []
    for name in what.split(", "):
        lines += [""] if lines else []
        lines += enum(description.values[name]) if name in description.values else struct(description.records[name])
    return lines


def layouts(description: Description) -> List[str]:
    """What petool.h asserts: the size of each record and the offset of each field."""
    lines: List[str] = []
    for record in description.records.values():
        size, _, places = description.layout(record)
        name = f"petool_{record.name}"
        lines.append(f"PETOOL_SIZE({name}, {size});")
        lines += [f"PETOOL_AT({name}, {it.name}, {place});" for it, place in zip(record.fields, places)]
    return lines


def _given(it: Parameter) -> List[str]:
    """The arguments that a call gets for a parameter: NULL with length 0 is replaced."""
    if not it.length:
        return [it.name]
    constant, replaced = ("", "petool_room") if it.is_mutable else ("const ", "petool_some")
    return [f"({constant}{type_of(it.type)}*){replaced}({it.name})", it.length]


#: The widest line of petool.h.
WIDTH = 132


def _broken(head: str, words: List[str], end: str) -> List[str]:
    """What comes before words that are joined by commas, the words, and what comes after them, in lines that fit."""
    lines, indent = [head], " " * (len(head) if len(head) < 100 else 8)
    for number, word in enumerate(words):
        last = number == len(words) - 1
        part = word + (end if last else ",")
        joined = lines[-1] + ("" if number == 0 else " ") + part
        if len(joined) <= WIDTH:
            lines[-1] = joined
        else:
            lines.append(indent + part)
    return lines


def _nullable(call: Call) -> List[str]:
    """A function in place of a call with lengths, which may get NULL."""
    slices = [it for it in call.parameters if it.length]
    declared = [word for it in call.parameters for word in parameters(it)]
    arguments = [word for it in call.parameters for word in _given(it)]
    name = call.name.replace("petool_", "petool_nullable_", 1)
    is_status = call.result == "u32"
    lines = _broken(f"{'PETOOL_WARN_UNUSED ' if is_status else ''}static inline {RESULTS[call.result]} {name}(", declared, ")")
    lines.append("{")
    for it in slices:
        lost = f"PETOOL_IS_LOST({it.name}, {it.length})"
        lines += [f"    if ({lost})", "        return PETOOL_ARGUMENT;" if is_status else f"        {it.length} = 0;"]
    return [*lines, *_broken(f"    return {call.name}(", arguments, ");"), "}", f"#define {call.name} {name}"]


def nullable(description: Description) -> List[str]:
    """The functions of petool.h in place of calls with lengths, with a blank line between two."""
    lines: List[str] = []
    for call in description.calls:
        if any(it.length for it in call.parameters):
            lines += ([""] if lines else []) + _nullable(call)
    return lines


def parameters(it: Parameter) -> List[str]:
    """A parameter as C declares it; a slice is two."""
    if not it.is_reference:
        return [f"{type_of(it.type)}{it.name}"]
    constant = "" if it.is_mutable else "const "
    pointer = f"{constant}{type_of(it.type)}*{it.name}"
    return [pointer, f"size_t {it.length}"] if it.length else [pointer]


def prototype(call: Call) -> str:
    """A call's prototype, on one line."""
    declared = [word for it in call.parameters for word in parameters(it)]
    return f"{RESULTS[call.result]} {call.name}({', '.join(declared) or 'void'});"


def declaration(call: Call) -> str:
    """A call as petool.h declares it, on one line without the semicolon: a status must be used."""
    mark = "PETOOL_WARN_UNUSED " if call.result == "u32" and call.parameters else ""
    return mark + prototype(call).rstrip(";")


def linker_map(description: Description) -> str:
    """petool.map: the version of the names that the shared library exports."""
    return f"{description.library.symbols} {{ global: petool_*; local: *; }};\n"


def debian_symbols(description: Description) -> str:
    """The symbols file of Debian's package: each name with the release that introduced it."""
    library = description.library
    since = {call.name: call.since for call in description.calls}
    rows = {library.symbols: library.release, **since}
    lines = [f"{library.soname} {library.package} #MINVER#", "* Build-Depends-Package: libpetool-dev"]
    lines += [f" {name}@{library.symbols} {rows[name]}" for name in sorted(rows)]
    return "\n".join(lines) + "\n"
