"""What is written for the Python package petool: the module _records, the fields of its row classes, and its values."""

from typing import List

from description import Call, Description, Field, Mistake, Parameter, Record, Values

WIDTH = 120
NUMBERS = {"bool": "c_bool", "char": "c_char", "int": "c_int", "usize": "c_size_t", **{f"u{bits}": f"c_uint{bits}" for bits in (8, 16, 32, 64)}}
#: The letters of `struct`.
LETTERS = {"u8": "B", "u16": "H", "u32": "I", "u64": "Q", "bool": "?", "text": "PN"}

HEAD = '''\
"""The records and calls of the shared library, as petool.h declares them. describe/describe.py writes this module."""

from ctypes import POINTER, Structure, c_bool, c_char, c_int, c_size_t, c_uint8, c_uint16, c_uint32, c_uint64, c_void_p
from typing import Any, Dict, List, Tuple
'''

FORMS = "#: The layout of each row in the letters of `struct`: P and N are a string's pointer and length."


def _type(description: Description, it: Field) -> str:
    item = description.records[it.item()].camel() if it.item() in description.records else NUMBERS.get(it.item(), "c_void_p")
    return f"{item} * {it.count()}" if "[" in it.type else item


def _structure(description: Description, record: Record) -> List[str]:
    """A record as a class of ctypes: its fields on one line, or one on each."""
    fields = [f'("{it.name}", {_type(description, it)})' for it in record.fields]
    line = f"    _fields_ = [{', '.join(fields)}]"
    if len(line) > WIDTH:
        line = "\n".join(["    _fields_ = [", *(f"        {it}," for it in fields), "    ]"])
    return ["", "", f"class {record.camel()}(Structure):", line]


def _form(description: Description, record: Record) -> str:
    """The layout of a row in the letters of `struct`, with the padding at its end."""
    letters = "".join(
        LETTERS[it.type] if it.type in LETTERS else _form(description, description.records[it.type]) for it in record.fields
    )
    size, _, places = description.layout(record)
    return letters + "x" * (size - places[-1] - description.size(record.fields[-1].type)[0])


def _parameters(description: Description, it: Parameter) -> List[str]:
    """The types of a parameter; rows that Python reads by `struct` are bytes for ctypes."""
    if not it.is_reference:
        return [NUMBERS[it.type]]
    record = description.records.get(it.type)
    named = record.camel() if record and not record.is_row else NUMBERS.get(it.type, "")
    is_bytes = not named or it.length and it.type in ("u8", "char")
    return ["c_void_p" if is_bytes else f"POINTER({named})"] + (["c_size_t"] if it.length else [])


def _call(description: Description, call: Call) -> List[str]:
    result = {"nothing": "None"}.get(call.result) or NUMBERS[call.result]
    types = [word for it in call.parameters for word in _parameters(description, it)]
    line = f'    "{call.name}": ({result}, [{", ".join(types)}]),'
    if len(line) <= WIDTH:
        return [line]
    rows = [f"        [{', '.join(types)}],"]
    if len(rows[0]) > WIDTH:
        rows = ["        [", *(f"            {it}," for it in types), "        ],"]
    return [f'    "{call.name}": (', f"        {result},", *rows, "    ),"]


def records_module(description: Description) -> str:
    """_records.py: the records as classes of ctypes, the forms of rows, and the calls with their types."""
    lines = [HEAD.rstrip("\n")]
    records = description.records.values()
    lines += [line for record in records if not record.is_row for line in _structure(description, record)]
    lines += ["", "", FORMS, "FORMS = {"]
    lines += [f'    "{record.name}": "{_form(description, record)}",' for record in records if record.is_row]
    lines.append("}")
    lines += ["", "#: The result of each call, and its parameters.", "CALLS: Dict[str, Tuple[Any, List[Any]]] = {"]
    lines += [line for call in description.calls for line in _call(description, call)]
    return "\n".join([*lines, "}", ""])


def _ordered(description: Description, record: Record) -> List[Field]:
    """The fields of a record in the order that they have in Python."""
    names: List[str] = []
    for word in record.python_order or [it.name for it in record.fields]:
        is_object = word.endswith("..")
        names += [key for it in description.objects[word[:-2]].members for key in it.bases()] if is_object else [word]
    held = {it.name: it for it in record.fields}
    if sorted(names) != sorted(held):
        raise Mistake(f"the order of {record.name} in Python has not each of its fields once")
    return [held[name] for name in names]


def _public_type(it: Field) -> str:
    return "bytes" if it.item() == "u8" and "[" in it.type else {"text": "bytes", "bool": "bool"}.get(it.type, "int")


def _row_fields(description: Description, record: Record) -> List[str]:
    """The fields of the class of a row."""
    lines = []
    for it in _ordered(description, record):
        name, kind, meaning = it.python
        lines.append(f"{name or it.name}: {kind or _public_type(it)}  #: {meaning or it.meaning}")
    return lines


def _number(text: str) -> str:
    """A number with the letters of hexadecimal digits in capitals."""
    return text.upper().replace("0X", "0x")


def _values(found: Values) -> List[str]:
    return [f"{found.python_prefix}{it.name} = {_number(it.number)}  #: {it.in_words()}" for it in found.values]


def module_part(description: Description, what: str) -> List[str]:
    """A part of a module: the values of an enum, or the fields of a class."""
    if what in description.values:
        return _values(description.values[what])
    return _row_fields(description, description.records[what])


def shown_part(description: Description, what: str) -> List[str]:
    """A part of the package's first file: `imports of MODULE`, the classes of a module with fields of records, or `names` of these."""
    form, _, module = what.partition(" of ")
    line = {"imports": "{},", "names": '"{}",'}[form]
    found = sorted(it.camel() for it in description.records.values() if it.python_module == module)
    return [line.format(it) for it in found]
