"""Reads the symbols of images independently of petool, by docs/FORMAT.md; for pages.py and lines.py. Headers are those of
pages_reader.py."""

import struct

from pages_reader import strings_at, text_in, uint

#: The finding of a symbol is at an offset of the file.
NUMBERS = range(261, 265)


class ImageSymbols:
    """The symbols of an image whose records its file holds, each with its index, name, value, section, type, class and auxiliary records,
    and what is found in its symbol table."""

    def __init__(self, file, headers):
        self.sections, self.table, self.records = headers.sections, headers.symbols, headers.symbol_count
        self.symbols, self.findings, self.is_whole = [], [], False
        if self.table:
            self.read(file)

    def read(self, file):
        end, held = self.table + 18 * self.records, min(self.records, max(len(file) - self.table, 0) // 18)
        has_strings = end + 4 <= len(file) and end + uint(file, end, 4) <= len(file)
        self.is_whole = has_strings
        if end > len(file):
            self.findings.append((261, self.table))
        elif not has_strings:
            self.findings.append((262, end))
        strings, index = strings_at(file, end) if has_strings else b"", 0
        while index < held:
            at = self.table + 18 * index
            field, value, section, kind, storage, counted = struct.unpack_from("<8sIHHBB", file, at)
            there = min(counted, held - index - 1)
            rules = {263: len(self.sections) < section < 0xFFFE, 264: there < counted}
            self.findings += [(number, at) for number, stands in rules.items() if stands]
            offset = uint(field, 4, 4)
            name = field.split(b"\0")[0] if uint(field, 0, 4) else (text_in(strings, offset) if offset else b"") or b""
            beside = [file[at + 18 * k : at + 18 * (k + 1)] for k in range(1, there + 1)]
            self.symbols.append((index, name, value, section, kind, storage, beside))
            index += 1 + there

    def places(self):
        """The RVA and the name of each symbol that names a place in a section, in the order of the table, if that is whole."""
        for _, name, value, section, kind, storage, beside in self.symbols if self.is_whole else []:
            is_place = storage in (2, 3, 6) and not (storage == 3 and kind == 0 and beside)
            if name and is_place and 0 < section <= len(self.sections):
                yield self.sections[section - 1].rva + value, name
