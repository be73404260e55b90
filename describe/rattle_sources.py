"""Sources that are compared with the description and not written: the values, records and calls of the crates and the keys of
pe_json; the definition of the headers, since the written code is compared with it; the prototypes of petool.h, which follow
comments that say what each call returns; and the statuses in the manual page, which says more of each.

Each comparison returns what differs, and nothing if a source agrees. A source in which nothing is found differs.
"""

import pathlib
import re
from typing import Dict, List, Optional, Sequence, Set, Tuple

from c_texts import declaration
from description import Call, Description, Record, Values
from header_texts import definition

#: The fields in C of a record that is one slice.
TEXT = [("at", "bytes"), ("len", "usize")]
#: The functions of a source, each up to the next one.
FUNCTION = re.compile(r"^\s*(?:pub(?:\(crate\))? )?fn (\w+)(.*?)(?=^\s*(?:pub(?:\(crate\))? )?fn |\Z)", re.M | re.S)
#: A key of JSON in Rattle: strings of bytes begin with it, or with what comes before it.
KEY = re.compile(r'\\"([a-z]\w*)\\":')
#: A table of keys of JSON in Rattle.
KEYS = re.compile(r"^static (\w+): \[Named; \d+\] = \[(.*?)^\];", re.M | re.S)
#: The types of Rattle for types of C without a width in their names.
NUMBERS = {"char": "u8", "int": "i32"}


def _without_comments(text: str) -> str:
    return re.sub(r"^\s*//.*$", "", text, flags=re.M)


def _type(kind: str, structs: Dict[str, str]) -> str:
    """A type of Rattle as the description names it."""
    array = re.fullmatch(r"\[(\w+); (\d+)\]", kind)
    if array:
        return f"{_type(array[1], structs)}[{array[2]}]"
    name = re.sub(r"<.*>$", "", kind)
    if name in structs:
        return structs[name]
    return {"&'a [u8]": "text", "*mut u8": "state"}.get(kind, kind)


def _fields(body: str, structs: Dict[str, str]) -> List[Tuple[str, str]]:
    """The fields of a struct that take space: ghost fields and the program's allocator take none."""
    rows = re.findall(r"^\s*(?:pub )?(?!ghost)(\w+): (.+?),?$", body, re.M)
    fields = [(name, _type(kind, structs)) for name, kind in rows if kind != "Global"]
    return TEXT if fields == [("bytes", "text")] else fields


def structs_of(sources: Dict[str, str]) -> Dict[str, Tuple[str, str]]:
    """Each struct that C has too: its file and the contents of its braces."""
    form = re.compile(r"#\[repr\(C\)\]\s*(?:#\[[^\]]*\]\s*)*pub struct (\w+)(?:<[^>]*>)?\s*\{(.*?)^\}", re.M | re.S)
    return {found[1]: (file, found[2]) for file, text in sources.items() for found in form.finditer(_without_comments(text))}


def _first_difference(found: Sequence[object], described: Sequence[object]) -> Optional[Tuple[object, object]]:
    """The first item that differs, and what is described in its place; None if nothing does."""
    return next((pair for pair in zip([*found, None], [*described, None]) if pair[0] != pair[1]), None)


def _record_faults(record: Record, file: str, found: List[Tuple[str, str]]) -> List[str]:
    differs = _first_difference(found, [(it.name.rstrip("_"), it.type) for it in record.fields])
    return [f"{file}: {record.struct} has {differs[0]}, and petool_{record.name} {differs[1]}"] if differs else []


def record_faults(description: Description, sources: Dict[str, str]) -> List[str]:
    """Whether the records are the structs of the sources, field by field."""
    found = structs_of(sources)
    names = {record.struct: name for name, record in description.records.items()}
    faults = [f"{file}: {name} is not described" for name, (file, _) in found.items() if name not in names]
    for record in description.records.values():
        if record.struct in found:
            file, body = found[record.struct]
            faults += _record_faults(record, file, _fields(body, names))
        else:
            faults.append(f"crates: there is no struct {record.struct} for petool_{record.name}")
    return faults


def _value_form(form: str) -> str:
    """The pattern of a value in a source, with its name and its number as groups."""
    words = {"NAME": r"(\w+)", "NUMBER": r"(\w+)", "_": r"\w+"}
    parts = re.split(r"(\b(?:NAME|NUMBER|_)\b|\s+)", form)
    return "".join(r"\s+" if part.isspace() else words.get(part) or re.escape(part) for part in parts)


def _value_faults(values: Values, source: str) -> List[str]:
    found = re.findall(_value_form(values.form), _without_comments(source))
    differs = _first_difference([(name.upper(), number) for name, number in found], [it.in_source() for it in values.values])
    return [f"{values.source}: it has {differs[0]}, and {values.name} {differs[1]}"] if differs else []


def value_faults(description: Description, sources: Dict[str, str]) -> List[str]:
    """Whether the sources have the values that are described, in the same order. A source that does not exist has none."""
    return [it for values in description.values.values() for it in _value_faults(values, sources.get(values.source, ""))]


def status_faults(description: Description, file: str, page: str) -> List[str]:
    """Whether the manual page has a paragraph for each status, in the same order."""
    statuses = description.values["statuses"]
    found = re.findall(rf"^\.B ({statuses.prefix}\w+)$", page, re.M)
    differs = _first_difference(found, [f"{statuses.prefix}{it.name}" for it in statuses.values])
    return [f"{file}: it has {differs[0]}, and {statuses.name} {differs[1]}"] if differs else []


def _calls_in(sources: Dict[str, str]) -> Dict[str, Tuple[str, str, str]]:
    """Each call that is exported: its file, its parameters and its result."""
    form = re.compile(r'extern "C" fn (\w+)(?:<[^>]*>)?\((.*?)\)(?: -> (\w+))?\s*(?:requires|ensures|\{)', re.S)
    return {it[1]: (file, it[2], it[3] or "nothing") for file, text in sources.items() for it in form.finditer(text)}


def _shown(call: Call, description: Description) -> str:
    """A call as Rattle declares it, without lifetimes."""
    words = []
    for it in call.parameters:
        item = description.records[it.type].struct if it.type in description.records else NUMBERS.get(it.type, it.type)
        reference = ("&mut " if it.is_mutable else "&") if it.is_reference else ""
        words.append(f"{it.name}: {reference}" + (f"[{item}]" if it.length else item))
    return f"({', '.join(words)}) -> {NUMBERS.get(call.result, call.result)}"


def _plain(parameters: str, result: str) -> str:
    """The same for a call of a source, without the allocator, which C does not have."""
    words = " ".join(parameters.split()).rstrip(", ")
    words = re.sub(r"<'\w+>|'\w+ ", "", words)
    return f"({re.sub(r'^alloc: Global(, )?', '', words)}) -> {result}"


def call_faults(description: Description, sources: Dict[str, str]) -> List[str]:
    """Whether the calls are those that the sources export, parameter by parameter."""
    found = _calls_in(sources)
    described = {call.name: call for call in description.calls}
    faults = [f"{file}: {name} is not described" for name, (file, _, _) in found.items() if name not in described]
    for name, call in described.items():
        if name not in found:
            faults.append(f"crates: there is no call {name}")
            continue
        file, parameters, result = found[name]
        if _plain(parameters, result) != _shown(call, description):
            faults.append(f"{file}: {name}{_plain(parameters, result)}, described as {_shown(call, description)}")
    return faults


def keys_in(sources: Dict[str, str]) -> Dict[str, Set[str]]:
    """The keys that each function writes, by its place, FILE.FUNCTION, and those of each table, by FILE.TABLE."""
    found: Dict[str, Set[str]] = {}
    for file, text in sources.items():
        name = pathlib.PurePath(file).stem
        found.update({f"{name}.{table}": set(re.findall(r'"(\w+)"', rows)) for table, rows in KEYS.findall(text)})
        for function in FUNCTION.finditer(_without_comments(text)):
            keys = KEY.findall(function[2])
            if keys:
                found.setdefault(f"{name}.{function[1]}", set()).update(keys)
    return found


def key_faults(description: Description, sources: Dict[str, str]) -> List[str]:
    """Whether the keys of each object are those that its places write, and each key that is written is one of an object."""
    found = keys_in(sources)
    files = {pathlib.PurePath(file).stem: file for file in sources}
    faults = []
    told: Dict[str, Set[str]] = {place: set() for place in found}
    for name, it in description.objects.items():
        for place in it.places:
            told.setdefault(place, set()).update(it.keys())
        written = set().union(*(found.get(place, set()) for place in it.places))
        for key in [key for key in it.keys() if key not in written]:
            file = files.get(it.places[0].partition(".")[0], "crates/pe_json/src")
            faults.append(f"{file}: {name} has no key {key} at {', '.join(it.places)}")
    for place, keys in found.items():
        file = files[place.partition(".")[0]]
        faults += [f"{file}: {place} writes {key}, which is not described" for key in sorted(keys - told[place])]
    return faults


def definition_faults(description: Description, file: str, definitions: str) -> List[str]:
    """Whether the fields of the headers are defined at their places. A proof compares them too, but this names the row at once."""
    body = re.search(r"^head_of file =\n    record \{\n(.*?)^    \}$", definitions, re.M | re.S)
    found = re.findall(r"^ +(\w+) = (.*);$", body[1] if body else "", re.M)
    described = [(it.name, definition(it)) for it in description.records["headers"].placed()]
    names = {name for name, _ in described} - {"magic"}
    differs = _first_difference([it for it in found if it[0] in names], [it for it in described if it[0] in names])
    return [f"{file}: head_of has {differs[0]}, described as {differs[1]}"] if differs else []


def prototype_faults(description: Description, file: str, header: str) -> List[str]:
    """Whether the header declares the calls that are described, and no others."""
    text = re.sub(r"/\*.*?\*/", "", header, flags=re.S)
    found = re.findall(r"^((?:PETOOL_WARN_UNUSED )?\w+ petool_\w+\([^()]*\))\s*;", text, re.M)
    described = [declaration(call) for call in description.calls]
    declared = {" ".join(it.split()) for it in found}
    faults = [f"{file}: {it} is not described" for it in sorted(declared - set(described))]
    return faults + [f"{file}: there is no {it}" for it in described if it not in declared]
