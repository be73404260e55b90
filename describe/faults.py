"""What faults.txt says: the faults with their words, and the names of their ranges."""

import re
from dataclasses import dataclass, field
from typing import Dict, List, Tuple

from description import COLUMNS, Mistake, read_lines

#: The rows below a fault, in order, and those that it may lack: `image` unless it chooses the image itself, and `explained`.
ROWS = ("condition", "place", "image", "code", "explained", "met by")
OPTIONAL = ("image", "explained")
ROW = re.compile(rf"({'|'.join(ROWS)}) +(.+)")


@dataclass
class Fault:
    """A rule of the format that may be broken."""

    number: int
    subject: str
    rule: str
    rows: Dict[str, str] = field(default_factory=dict)

    def files(self) -> List[str]:
        """The sources that test it; one without a folder is in the folder of the one before it."""
        found, folder = [], "crates"
        for name in self.rows["code"].split(", "):
            found.append(f"crates/{name}" if "/" in name else f"{folder}/{name}")
            folder = found[-1].rpartition("/")[0]
        return found


@dataclass
class Name:
    """The name of a range of faults."""

    name: str
    shown: str  #: the numbers as the description writes them
    meaning: str

    def bounds(self) -> Tuple[int, int]:
        """Its least number and its greatest: `N`, `N and M` or `N to M`."""
        found = re.fullmatch(r"(\d+)(?: (?:to|and) (\d+))?", self.shown)
        if found is None:
            raise Mistake(f"{self.shown} is no range of faults")
        return int(found[1]), int(found[2] or found[1])


class Faults:
    """All that faults.txt says. Mistake if a line has none of its forms, or a fault is incomplete."""

    def __init__(self, text: str) -> None:
        self.tables: Dict[str, List[Fault]] = {}
        self.names: List[Name] = []
        read_lines(text, self._read)
        self._check()

    def _read(self, indent: int, words: str) -> None:
        """A line, by its indent: of a table or a name, a fault, one of its rows, or the rest of such a row."""
        if indent == 0:
            self._heading(words)
        elif not self.tables:
            raise Mistake("it is in no table")
        elif indent == 2:
            self._add_fault(words)
        elif indent == 4:
            self._add_row(words)
        elif indent > 4:
            rows = self._table[-1].rows
            rows[list(rows)[-1]] += f" {words}"
        else:
            raise Mistake("a fault has an indent of 2, its rows one of 4")

    def _heading(self, words: str) -> None:
        word, rest = words.split(" ", 1)
        if word == "name":
            self.names.append(Name(*COLUMNS.split(rest)))
        elif word == "faults" and rest not in self.tables:
            self._table = self.tables[rest] = []
        else:
            raise Mistake("it begins neither a name nor a table")

    def _add_fault(self, words: str) -> None:
        number, rest = words.split(" ", 1)
        subject, rule = rest.split(": ", 1)
        if self._table and int(number) <= self._table[-1].number:
            raise Mistake("the numbers of a table ascend")
        self._table.append(Fault(int(number), subject, rule))

    def _add_row(self, words: str) -> None:
        found = ROW.fullmatch(words)
        rows = self._table[-1].rows
        if found is None or found[1] in rows:
            raise Mistake("it is no row of a fault, or its second of this name")
        rows[found[1]] = found[2]

    def _check(self) -> None:
        """Checks that each fault has its own number, all rows and a range with a name, and that the bounds of ranges are faults."""
        numbers = [it.number for it in self.by_number()]
        twice = sorted({it for it in numbers if numbers.count(it) > 1})
        if not numbers or twice:
            raise Mistake(f"fault {twice[0]} is there twice" if twice else "it has no faults")
        for it in self.by_number():
            wanted = [row for row in ROWS if row in it.rows or row not in OPTIONAL]
            if list(it.rows) != wanted or "|" in "".join([it.subject, it.rule, *it.rows.values()]):
                raise Mistake(f"fault {it.number}: its rows are not {', '.join(wanted)}, or a text has the sign |")
        bounds = [name.bounds() for name in self.names]
        for bound in [it for pair in bounds for it in pair if it not in numbers]:
            raise Mistake(f"a name is for {bound}, which is no fault")
        for number in [it for it in numbers if not any(least <= it <= most for least, most in bounds)]:
            raise Mistake(f"fault {number} is in no range that has a name")

    def by_number(self) -> List[Fault]:
        """All faults, in the order of their numbers."""
        return sorted((it for table in self.tables.values() for it in table), key=lambda it: it.number)
