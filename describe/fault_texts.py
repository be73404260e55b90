"""What is written from the faults: the tables of docs/FAULTS.md, and the tables RULES, FINDING_RULES, EXPLAINED and
FINDINGS_EXPLAINED of the sources.

These two have no comments in their sources, from `static NAME` to `];`, and the layout of `rt fmt`: a source that changes must be
proved again, so one that agrees stays the same to the byte.
"""

import re
from typing import Callable, Dict, List, Tuple

from faults import Fault, Faults

#: The longest row that is put on one line, and the longest line with an argument in parentheses.
ONE_LINE, LINE = 60, 100


class NoTable(Exception):
    """A source does not have its table exactly once."""


def _literal(text: str) -> str:
    """A string as a literal of Rattle."""
    escaped = text.replace("\\", "\\\\").replace('"', '\\"')
    return f'"{escaped}"'


def _word(word: str) -> List[str]:
    """A word of a row, on lines of its own: a long argument of Some has one too."""
    line = f"        {word},"
    if word.startswith("Some(") and len(line) > LINE:
        return ["        Some(", f"            {word[len('Some('):-1]},", "        ),"]
    return [line]


def _row(words: List[str]) -> List[str]:
    """A row of a table: on one line if it is short, otherwise with lines for each word."""
    line = ", ".join(words)
    return [f"    ({line}),"] if len(line) <= ONE_LINE else ["    (", *(part for word in words for part in _word(word)), "    ),"]


def _rules(it: Fault) -> List[str]:
    return [_literal(it.subject), _literal(it.rule)]


def _explained(it: Fault) -> List[str]:
    more = f"Some({_literal(it.rows['explained'])})" if "explained" in it.rows else "None"
    return [more, _literal(it.rows["met by"])]


#: The numbers of faults and of findings.
FAULTS, FINDINGS = range(1, 101), range(101, 1 << 16)
#: The tables of each source: the name, the type of a row, the words of one after its number, and the numbers in it.
Table = Tuple[str, str, Callable[[Fault], List[str]], range]
TABLES: Dict[str, List[Table]] = {
    "crates/pe_text/src/fault_text.rt": [
        ("RULES", "(u16, &str, &str)", _rules, FAULTS),
        ("FINDING_RULES", "(u16, &str, &str)", _rules, FINDINGS),
    ],
    "crates/petool/src/explain.rt": [
        ("EXPLAINED", "Explained", _explained, FAULTS),
        ("FINDINGS_EXPLAINED", "Explained", _explained, FINDINGS),
    ],
}


def _with_table(faults: Faults, table: Table, text: str) -> str:
    name, kind, texts, numbers = table
    found = list(re.finditer(rf"^static {name}\b.*?^\];$", text, re.M | re.S))
    if len(found) != 1:
        raise NoTable(f"the table {name} occurs in it {len(found)} times")
    told = [it for it in faults.by_number() if it.number in numbers]
    rows = [line for it in told for line in _row([str(it.number), *texts(it)])]
    written = "\n".join([f"static {name}: [{kind}; {len(told)}] = [", *rows, "];"])
    return text[: found[0].start()] + written + text[found[0].end() :]


def source(faults: Faults, path: str, text: str) -> str:
    """A source with newly written tables. NoTable if it does not have each exactly once."""
    for table in TABLES[path]:
        text = _with_table(faults, table, text)
    return text


def _names(faults: Faults) -> List[str]:
    rows = [f"| {it.name} | {it.shown} | {it.meaning} |" for it in faults.names]
    return ["| Name | Numbers | Rules of |", "|---|---|---|", *rows]


def _cells(it: Fault) -> List[str]:
    image = f", {it.rows['image']}" if "image" in it.rows else ""
    code = ", ".join(f"`{name}`" for name in it.rows["code"].split(", "))
    return [str(it.number), it.rows["condition"], it.rows["place"] + image, f"{it.subject}: {it.rule}", code]


def part(faults: Faults, what: str) -> List[str]:
    """A part of docs/FAULTS.md: the names, or the table of some faults."""
    if what == "names":
        return _names(faults)
    table = faults.tables[what]
    place = "Place and image" if any("image" in it.rows for it in table) else "Place"
    head = f"| No. | Condition | {place} | In words: what is there, and what is wrong | Code |"
    return [head, "|---|---|---|---|---|", *(f"| {' | '.join(_cells(it))} |" for it in table)]


def parts(faults: Faults) -> List[str]:
    """The parts that docs/FAULTS.md must have."""
    return ["names", *faults.tables]
