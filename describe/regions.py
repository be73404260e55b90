"""Parts of hand-written files that are written from a description: they lie between two comments, and the first names them.

    /* from describe/records.txt: fixup */
    ..
    /* end of describe/records.txt */
"""

import re
from typing import Callable, Iterator, List, Optional


class NoRegion(Exception):
    """A part does not end, or is not described; or there is none."""


def _begins(line: str, source: str) -> Optional["re.Match[str]"]:
    """The indent and the name of a part of a description that begins here."""
    return re.fullmatch(rf"([ \t]*)(?:/\*|//|--|#|<!--|\.\\\") from {re.escape(source)}: (.+?)(?: \*/| -->)?", line)


def filled(text: str, source: str, render: Callable[[str], List[str]]) -> str:
    """The file with each part of a description newly written; `render` makes the lines of the part that a comment names."""
    lines, written = iter(text.splitlines()), []
    for line in lines:
        written.append(line)
        begins = _begins(line, source)
        if begins:
            written += _rendered(begins[2], begins[1], render)
            written.append(_end(lines, source, begins[2]))
    if not parts(text, source):
        raise NoRegion(f"it has no part that is written of {source}")
    return "\n".join(written) + "\n"


def _rendered(name: str, indent: str, render: Callable[[str], List[str]]) -> List[str]:
    try:
        return [indent + line if line else "" for line in render(name)]
    except KeyError as error:
        raise NoRegion(f"the part {name} is not described: there is no {error}") from error


def _end(lines: Iterator[str], source: str, name: str) -> str:
    """The line that ends a part, after skipping the old lines."""
    for line in lines:
        if f"end of {source}" in line:
            return line
        if _begins(line, source):
            break
    raise NoRegion(f"the part {name} does not end")


def parts(text: str, source: str) -> List[str]:
    """The parts of a file that are written from a description, in order."""
    return [found[2] for line in text.splitlines() if (found := _begins(line, source))]


def names(text: str, source: str) -> List[str]:
    """The names in these parts: each of `NAME, NAME`, and NAME of `kinds of NAME`."""
    return [name.rpartition(" ")[2] for part in parts(text, source) for name in part.split(", ")]


def wrapped(words: List[str], width: int, indent: str) -> List[str]:
    """Words in lines of at most `width` columns, with an indent after the first line."""
    lines = [words[0]]
    for word in words[1:]:
        if len(lines[-1]) + 1 + len(word) <= width:
            lines[-1] += f" {word}"
        else:
            lines.append(indent + word)
    return lines
