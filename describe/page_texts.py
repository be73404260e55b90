"""What is written for the documents: the manual page's synopsis, the tables of JSON.md, the statuses and fields in C.md."""

import re
from typing import Dict, List, Tuple

from c_texts import RESULTS, parameters, type_of
from description import Call, Description, Member, Object

#: The greatest width of a line of the synopsis, for a terminal of 80 columns, of which man uses 7 to indent.
SYNOPSIS = 72


def _words(call: Call) -> List[Tuple[str, str]]:
    """What comes before each parameter's name, and the name; last, what ends the call."""
    head = f"{RESULTS[call.result]} {call.name}("
    if not call.parameters:
        return [(f"{head}void);", "")]
    declared = [word for it in call.parameters for word in parameters(it)]
    names = [re.split(r"\W", word)[-1] for word in declared]
    words = [(word[: -len(name)], name) for word, name in zip(declared, names)]
    return [(head + words[0][0], words[0][1]), *words[1:], (");", "")]


def _lines(words: List[Tuple[str, str]]) -> List[List[Tuple[str, str]]]:
    """The words of a call in lines that fit, broken after commas."""
    lines, column = [[words[0]]], len("".join(words[0]))
    for before, name in words[1:]:
        width = len(before) + len(name) + (2 if name else 0)
        if name and column + width + 2 > SYNOPSIS:
            lines[-1].append((",", ""))
            lines.append([("    " + before, name)])
            column = 4 + width
        else:
            lines[-1].append((f", {before}" if name else before, name))
            column += width
    return lines


def _macro(words: List[Tuple[str, str]]) -> str:
    """A line in bold type, with the parameters' names in italics."""
    shown = " ".join(f'"{before}" {name}'.rstrip() for before, name in words)
    return f".BI {shown}" if any(name for _, name in words) else f".B {shown}"


def synopsis(description: Description) -> List[str]:
    """All calls, with a paragraph for each group."""
    lines: List[str] = []
    for group in description.call_groups().values():
        lines.append(".PP")
        lines += [_macro(words) for call in group for words in _lines(_words(call))]
    return lines


def _cell(member: Member) -> str:
    """The keys of a member as code."""
    return re.sub(r"(?<!\+)\b(?!or\b)(\w+)(\+\w+)?", r"`\1`", member.shown)


def _table(found: Object) -> List[str]:
    rows = [f"| {_cell(it)} | {it.type} | {it.meaning} |" for it in found.members]
    return ["| Key | Type | Meaning |", "|---|---|---|", *rows]


def _listed(member: Member) -> str:
    """A member in a sentence: its key, its second key, and its meaning."""
    base, _, suffix = member.shown.partition("+")
    return f"`{base}`" + (f" with `{base}_{suffix}`" if suffix else "") + (f" ({member.meaning})" if member.meaning else "")


def _kinds(description: Description, name: str) -> List[str]:
    """The kinds of an object, with the keys of each."""
    rows = []
    for kind in description.kinds(name):
        head = f"`{kind.name}`" + (f", {kind.about}" if kind.about else "")
        keys = ", ".join(_cell(it) + (f": {it.meaning}" if it.meaning else "") for it in kind.members)
        rows.append(f"| {head} | {keys} |")
    return ["| `kind` | Other keys |", "|---|---|", *rows]


def _row(found: Object) -> List[str]:
    """A row of an image: what comes before its table, the table, the examples and a note, each but the first after a blank line."""
    parts = [[found.heads], _table(found), [f"    {it}" for it in found.examples], [found.note] if found.note else []]
    return [line for part in parts if part for line in ["", *part]][1:]


def json_rows(description: Description) -> List[Object]:
    """The objects of which docs/JSON.md has all in one part: the rows of an image, in order."""
    return [it for it in description.objects.values() if it.heads]


def json_part(description: Description, what: str) -> List[str]:
    """A part of docs/JSON.md: the table of an object, `all of OBJECT` as a sentence, `kinds of OBJECT`, or all `rows` of an image."""
    if what == "rows":
        return [line for it in json_rows(description) for line in ["", *_row(it)]] + [""]
    if what.startswith("all of "):
        return [", ".join(map(_listed, description.objects[what[len("all of ") :]].members)) + "."]
    if what.startswith("kinds of "):
        return _kinds(description, what[len("kinds of ") :])
    return _table(description.objects[what])


def _statuses_table(description: Description) -> List[str]:
    """The statuses with their numbers."""
    found = description.values["statuses"]
    rows = [f"| `{found.prefix}{it.name}` | {it.number} | {it.meaning} |" for it in found.values]
    return ["| Status | Value | Means |", "|---|---|---|", *rows]


def _calls_table(description: Description) -> List[str]:
    """The faults and the memory of the calls; calls that have the same share a row."""
    rows: Dict[Tuple[str, str], List[str]] = {}
    for call in description.calls:
        if call.faults:
            rows.setdefault((call.faults, call.memory), []).append(f"`{call.name}`")
    lines = [f"| {', '.join(names)} | {faults} | {memory} |" for (faults, memory), names in rows.items()]
    return ["| Call | Faults that it may report | Memory |", "|---|---|---|", *lines]


def _fields_table(description: Description) -> List[str]:
    """All fields with their units, and the keys with the same values in JSON."""
    lines = ["| Record | Field | Type | Unit | Meaning | In JSON |", "|---|---|---|---|---|---|"]
    for record in description.records.values():
        for it in record.fields:
            kind = type_of(it.item()).strip() + (f"[{it.count()}]" if "[" in it.type else "")
            unit = "" if it.unit == "-" else it.unit
            keys = ", ".join(f"`{key}`" for key in it.keys)
            cells = [f"`petool_{record.name}`", f"`{it.name}`", f"`{kind}`", unit, it.meaning, keys]
            lines.append(f"| {' | '.join(cells)} |")
    return lines


def c_part(description: Description, what: str) -> List[str]:
    """A part of docs/C.md."""
    return {"statuses": _statuses_table, "calls": _calls_table, "fields": _fields_table}[what](description)
