"""Cases as data: a line of a list is a case, and the file of answers has the result of each, after `== ` and the line."""

from __future__ import annotations

import pathlib
import subprocess
from typing import Iterator, List, Sequence, Tuple

from .files import edit
from . import data

FOLDER = pathlib.Path(__file__).resolve().parent / "cases"


def cases(name: str) -> Iterator[Tuple[str, str]]:
    """Each line of a list, with its answer: the lists and the answers have the same cases in the same order."""
    lines = [line for line in (FOLDER / name).read_text().split("\n") if line and not line.startswith("#")]
    answers = ("\n" + (FOLDER / f"{name}.answers").read_bytes().decode()).split("\n== ")[1:]
    pairs = [answer.partition("\n") for answer in answers]
    if [line for line, _, _ in pairs] != lines:
        raise ValueError(f"the answers of {name} are not those of its lines")
    return ((line, answer.rstrip("\n")) for line, _, answer in pairs)


def module_name(text: str) -> bytes:
    r"""The bytes of a string in which \x and two hexadecimal digits are one byte."""
    parts = text.split("\\x")
    return parts[0].encode() + b"".join(bytes.fromhex(part[:2]) + part[2:].encode() for part in parts[1:])


class SetOfWords:
    """The set that words describe: `10000000=a.dll=v1.dll` adds the file v1.dll to it, as the module a.dll at a base, and the words
    after it change that file."""

    def __init__(self, words: str) -> None:
        self.known = False
        self.members: List[Tuple[bytes, bytes, int]] = []
        self.others: List[str] = []
        for word in words.split():
            self._add(word)

    def _add(self, word: str) -> None:
        parts = word.split("=")
        if word == "--known":
            self.known = True
        elif len(parts) == 1:
            self.others.append(word)
        elif len(parts) == 2:
            name, file, base = self.members[-1]
            self.members[-1] = name, bytes(edit(bytearray(file), word)), base
        else:
            self.members.append((module_name(parts[1]), data(parts[2]), int(parts[0], 16)))


def write_set(folder: str, members: Sequence[Tuple[bytes, bytes, int]]) -> List[bytes]:
    """Writes each file of a set into its own folder, and returns the words that name the files for `map`."""
    words = []
    for index, (name, file, base) in enumerate(members):
        place = pathlib.Path(folder, str(index))
        place.mkdir()
        path = bytes(place) + b"/" + name
        with open(path, "wb") as out:
            out.write(file)
        words.append(b"%x=%s" % (base, path))
    return words


def run(words: Sequence[object], **options: object) -> "subprocess.CompletedProcess[bytes]":
    """Runs a program, and captures both of its outputs."""
    return subprocess.run(list(words), stdout=subprocess.PIPE, stderr=subprocess.PIPE, **options)  # type: ignore[call-overload,no-any-return]
