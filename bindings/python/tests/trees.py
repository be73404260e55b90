"""Resource trees that tests make, table by table ("PE Format", The .rsrc Section). No code of petool is used for it."""

from __future__ import annotations

import struct
from typing import List, Sequence, Tuple, Union

from .files import changed, numbers, put

TEXT = 1 << 31
#: The RVA and the file offset of the section.
RVA, FILE = 0x1000, 0x200

#: A name is an id or a text; what it leads to is a directory, or the data of a leaf and its code page.
Name = Union[int, str]
Data = Tuple[bytes, int]
Directory = Sequence[Tuple[Name, Union["Directory", Data]]]


def image(section: bytes, size: int = 16, image_size: int = 0x3000) -> bytes:
    """V1 with these bytes in its section, which ends the file, and with the resource directory at its beginning. SizeOfImage is
    0x3000."""
    file = bytearray(changed("v1.dll", size=FILE))
    put(file, (0xB8 + 8 * 2, numbers(RVA, size)), (0x90, numbers(image_size)))
    put(file, (0x140, numbers(len(section))), (0x148, numbers(len(section))))
    return bytes(file) + section


def wide(text: str) -> bytes:
    return text.encode("utf-16-le", "surrogatepass")


def directory(*entries: Tuple[int, int], texts: int = 0) -> bytes:
    """A directory of these entries, of which the first `texts` count as named by texts."""
    return struct.pack("<IIHHHH", 0, 0, 0, 0, texts, len(entries) - texts) + b"".join(struct.pack("<II", *it) for it in entries)


class _Writer:
    """Writes the directories of a tree one level after the other, then texts, data entries and data."""

    def __init__(self, root: Directory) -> None:
        self.directories: List[Tuple[int, Directory]] = []
        self.texts = self.entries = self.data = b""
        self.end = self.place(root, 0)
        self.text_end = self.end + sum(2 + len(wide(name)) for _, it in self.directories for name, _ in it if isinstance(name, str))
        self.text_end += -self.text_end % 4
        leaves = sum(isinstance(target, tuple) for _, it in self.directories for _, target in it)
        self.data_start = self.text_end + 16 * leaves

    def place(self, root: Directory, offset: int) -> int:
        level = [root]
        while level:
            for it in level:
                self.directories.append((offset, it))
                offset += 16 + 8 * len(it)
            level = [target for it in level for _, target in it if not isinstance(target, tuple)]
        return offset

    def name(self, name: Name) -> int:
        if isinstance(name, int):
            return name
        at = self.end + len(self.texts)
        self.texts += struct.pack("<H", len(wide(name)) // 2) + wide(name)
        return TEXT | at

    def target(self, target: Union[Directory, Data], below: List[int]) -> int:
        if not isinstance(target, tuple):
            return TEXT | below.pop(0)
        at = self.text_end + len(self.entries)
        self.entries += numbers(RVA + self.data_start + len(self.data), len(target[0]), target[1], 0)
        self.data += target[0] + bytes(-len(target[0]) % 4)
        return at

    def section(self) -> bytes:
        below = [offset for offset, _ in self.directories[1:]]
        written = b""
        for _, it in self.directories:
            names = [self.name(name) for name, _ in it]
            targets = [self.target(target, below) for _, target in it]
            written += directory(*zip(names, targets), texts=sum(isinstance(name, str) for name, _ in it))
        return (written + self.texts).ljust(self.text_end, b"\0") + self.entries + self.data


def tree(root: Directory) -> bytes:
    """The section of a tree: directories level by level, texts, data entries, data."""
    return _Writer(root).section()


def leaf(data: bytes, language: int = 1033, name: Name = 1, code_page: int = 0) -> Directory:
    """The directory of a type that has one leaf."""
    return [(name, [(language, (data, code_page))])]


def block(key: str, value: bytes = b"", children: Sequence[bytes] = (), kind: int = 1, value_length: int = -1) -> bytes:
    """A block of version information; the length of a text counts its UTF-16 units."""
    start = 6 + len(wide(key)) + 2
    body = bytes(-start % 4) + value
    for child in children:
        body += bytes(-(start + len(body)) % 4) + child
    count = len(value) // (2 if kind else 1) if value_length < 0 else value_length
    return struct.pack("<HHH", start + len(body), count, kind) + wide(key) + b"\0\0" + body


def string(key: str, value: str) -> bytes:
    return block(key, wide(value + "\0"))


#: The fixed part: file version 1.2.3.4, product version 5.6.7.8, a library for Windows on NT.
FIXED = numbers(0xFEEF04BD, 0x10000, 0x10002, 0x30004, 0x50006, 0x70008, 0x3F, 1, 0x40004, 2, 0, 0, 0)


def version(*strings: bytes, table: str = "040904b0", fixed: bytes = FIXED) -> bytes:
    """Version information with one table of strings."""
    info = block("StringFileInfo", children=[block(table, children=strings)])
    translation = block("VarFileInfo", children=[block("Translation", numbers(0x4B00409), kind=0)])
    return block("VS_VERSION_INFO", fixed, [info, translation], kind=0)
