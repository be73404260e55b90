"""What commands.txt says: the options, the exit statuses, and the commands with their arguments and texts."""

import re
from dataclasses import dataclass, field
from typing import Dict, List

from description import Mistake, read_lines

#: The rows below each kind of heading, in order, and those that may be missing.
ROWS = {
    "option": ("field", "help"),
    "word": ("help", "values"),
    "status": ("means",),
    "command": ("options", "files", "faults", "help", "readme", "guide"),
    "other": ("guide",),
}
MAY_BE_MISSING = ("options", "files", "faults", "values")
#: What some rows may say.
FORMS = {"files": re.compile("each"), "faults": re.compile(r"(?:line|words)(?: \(.+\))?")}
ROW = re.compile(r"(\w+) +(.+)")


@dataclass
class Item:
    """An option of `show`, another option, a status, a command or other words, with its rows."""

    kind: str
    words: str  #: after the kind
    rows: Dict[str, str] = field(default_factory=dict)

    def name(self) -> str:
        """The word of an option, the number of a status, or the name of a command."""
        return self.words.partition(" ")[0]

    def rest(self) -> str:
        """The value of an option, the arguments of a command, or the constant of a status."""
        return self.words.partition(" ")[2]


class Commands:
    """All that commands.txt says. Mistake if a line has none of its forms, or an item is incomplete."""

    def __init__(self, text: str) -> None:
        self.items: List[Item] = []
        self.all_help = ""
        read_lines(text, self._read)
        for it in self.items:
            missing = [row for row in ROWS[it.kind] if row not in it.rows and row not in MAY_BE_MISSING]
            if missing:
                raise Mistake(f"{it.kind} {it.words} has no row {missing[0]}")
        self._check_options()

    def _check_options(self) -> None:
        """Whether each option of a command is described, with the same value."""
        words = [it.words for it in self.of("word")]
        for it in self.of("command"):
            for option in re.findall(r"--([\w-]+(?: [A-Z]+)?)", it.rows.get("options", "")):
                if option not in words:
                    raise Mistake(f"command {it.words} has the option {option}, which no word describes")

    def _read(self, indent: int, line: str) -> None:
        if indent == 0:
            self._heading(*line.split(" ", 1))
        elif indent == 2:
            self._row(line)
        else:
            self.items[-1].rows[self._last] += f" {line}"

    def _heading(self, kind: str, words: str) -> None:
        if kind == "all":
            self.all_help = words
            return
        if kind not in ROWS or words in [it.words for it in self.of(kind)]:
            raise Mistake("no new item")
        self.items.append(Item(kind, words))

    def _row(self, line: str) -> None:
        found = ROW.fullmatch(line)
        item = self.items[-1]
        if found is None or found[1] not in ROWS[item.kind] or found[1] in item.rows:
            raise Mistake("no row of this item")
        if found[1] in FORMS and not FORMS[found[1]].fullmatch(found[2]):
            raise Mistake(f"a row {found[1]} says nothing like this")
        self._last = found[1]
        item.rows[found[1]] = found[2]

    def of(self, kind: str) -> List[Item]:
        return [it for it in self.items if it.kind == kind]

    def named(self, name: str) -> Item:
        """The command with this name. KeyError if there is none."""
        for it in self.of("command"):
            if it.name() == name:
                return it
        raise KeyError(name)

    def help_of(self, command: Item, option: str) -> str:
        """What help says of an option of a command."""
        if command.name() == "show" and option == "all":
            return self.all_help
        kinds = ("option", "word") if command.name() == "show" else ("word",)
        return next(it.rows["help"] for kind in kinds for it in self.of(kind) if it.name() == option)

    def usage(self, command: Item) -> List[str]:
        """The options of a command in usage."""
        of_show = [f"[--{it.name()}]" for it in self.of("option")] + ["[--all]"] if command.name() == "show" else []
        return of_show + re.findall(r"\[[^\]]*\]", command.rows.get("options", ""))
