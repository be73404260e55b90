"""Reads images and objects independently of petool, by docs/FORMAT.md, docs/FAULTS.md and Microsoft's "PE Format"; for pages.py.

A file that breaks a rule raises Refused with the first fault, in the order of docs/FAULTS.md, and with the values that page has after
the words of the fault. The limit of 2^32 bytes is not checked (faults 1 and 61).
"""

import itertools
import re
import struct

OBJECT_MACHINES = (0x14C, 0x1C0, 0x1C4, 0x8664, 0xAA64)
FIXUP_WIDTHS = {1: 2, 2: 2, 3: 4, 10: 8}
FIELDS = ("magic linker_major linker_minor code data bss entry code_base data_base base alignment file_alignment os_major os_minor "
          "image_major image_minor subsystem_major subsystem_minor version size headers checksum subsystem dll_flags stack stack_commit "
          "heap heap_commit loader directories").split()


class Refused(Exception):
    """A fault: its number, `file` or `rva` and the place, and the values after its words."""

    def __init__(self, number, kind, place, detail=""):
        super().__init__(number)
        self.number, self.kind, self.place, self.detail = number, kind, place, detail


def must(holds, *fault):
    """Raises a fault if a rule does not hold."""
    if not holds:
        raise Refused(*fault)


def uint(data, at, width):
    """The number in `width` bytes, the lowest first; 0 if they are not all there."""
    return int.from_bytes(data[at : at + width], "little") if at + width <= len(data) else 0


def passed(size, start, file):
    return f"{size} bytes at 0x{start:x}, and the file has {len(file)}"


class Section:
    """A section header, of an image or an object."""

    def __init__(self, file, at):
        (self.field, self.virtual_size, self.rva, self.raw_size, self.pointer, self.relocations_at, _, self.relocation_count, _,
         self.flags) = struct.unpack_from("<8sIIIIIIHHI", file, at)
        self.at, self.extent = at, self.virtual_size or self.raw_size
        self.in_file = min(self.extent, self.raw_size) if self.pointer else 0
        self.end = self.rva + self.extent
        self.name = self.field.split(b"\0")[0]


def strings_at(file, at):
    """The string table at an offset; empty if it passes the end of the file."""
    size = uint(file, at, 4)
    return file[at : at + size] if at + size <= len(file) else b""


def text_in(strings, offset):
    """The string at an offset of a string table, or None."""
    end = strings.find(b"\0", offset) if 4 <= offset < len(strings) else -1
    return None if end < 0 else strings[offset:end]


def long_name_at(field):
    """The offset of a long name, if a section's field has one."""
    found = re.match(rb"/([0-9]{1,7})(?:\0|\Z)", field)
    return int(found[1]) if found else None


class Headers:
    """The headers of an image: faults 2 to 12."""

    def __init__(self, file):
        must(len(file) >= 64, 2, "file", len(file), f"it has {len(file)}")
        must(file[:2] == b"MZ", 3, "file", 0)
        pe = uint(file, 60, 4)
        must(pe + 24 <= len(file), 4, "file", 60, f"it is 0x{pe:x}, and the file has {len(file)} bytes")
        must(file[pe : pe + 4] == b"PE\0\0", 5, "file", pe)
        self.machine, count, self.stamp, symbols, symbol_count, optional_size, self.flags = struct.unpack_from("<HHIIIHH", file, pe + 4)
        self.symbols, self.symbol_count, self.file_size = symbols, symbol_count, len(file)
        magic, fixed = uint(file, pe + 24, 2), {0x10B: 96, 0x20B: 112}.get(uint(file, pe + 24, 2))
        must(fixed, 6, "file", pe + 24)
        held = min(uint(file, pe + 24 + fixed - 4, 4), 16)
        needed = f"the fixed fields and directories of {held} take {fixed + 8 * held}"
        needed = needed if optional_size >= fixed else f"the fixed fields take {fixed}"
        must(optional_size >= fixed + 8 * held, 7, "file", pe + 20, f"it is {optional_size}, and {needed}")
        table = pe + 24 + optional_size
        must(table <= len(file), 8, "file", pe + 20, passed(optional_size, pe + 24, file))
        must(count <= 96, 9, "file", pe + 6, f"it has {count}")
        must(table + 40 * count <= len(file), 10, "file", pe + 6, passed(40 * count, table, file))
        layout = "<HBB9I6H4I2H4I2I" if magic == 0x10B else "<HBB5IQ2I6H4I2H4Q2I"
        names = FIELDS if magic == 0x10B else [name for name in FIELDS if name != "data_base"]
        self.__dict__ |= zip(names, struct.unpack_from(layout, file, pe + 24))
        self.directories = [struct.unpack_from("<II", file, pe + 24 + fixed + 8 * i) for i in range(held)]
        must(0 < self.size <= 2**31, 11, "file", pe + 80, f"it is 0x{self.size:x}")
        ends = f"they end at 0x{self.headers:x}, and the"
        must(self.headers >= table + 40 * count, 12, "file", pe + 84, f"{ends} section table at 0x{table + 40 * count:x}")
        must(self.headers <= len(file), 12, "file", pe + 84, passed(self.headers, 0, file))
        must(self.headers <= self.size, 12, "file", pe + 84, f"{ends} image at 0x{self.size:x}")
        self.sections = [Section(file, table + 40 * i) for i in range(count)]
        strings = strings_at(file, symbols + 18 * symbol_count) if symbols else b""
        for section in self.sections:
            text = text_in(strings, long_name_at(section.field) or 0)
            section.name = section.name if text is None else text
        before = next((file[it.pointer : min(it.pointer + it.in_file, it.rva)] for it in self.sections if it.in_file), b"")
        #: It has SizeOfImage bytes, and zeros where its first raw data is to be.
        self.is_as_in_memory = len(file) == self.size and bool(before) and not any(before)


class Image:
    """The laid-out image of a file, and its tables as far as they are read: faults 13 to 38."""

    def __init__(self, file, headers):
        self.headers, self.size, self.wide = headers, headers.size, headers.magic == 0x20B
        self.exports = self.imports = self.fixups = None
        before, words = headers.headers, "headers end"
        for section in headers.sections:
            must(not section.in_file or section.pointer + section.in_file <= len(file), 13, "file", section.at,
                 passed(section.in_file, section.pointer, file))
            must(section.end <= self.size, 14, "file", section.at, f"it ends at RVA 0x{section.end:x}, and the image at 0x{self.size:x}")
            if section.rva < headers.headers:
                before, words = headers.headers, "headers end"
            must(section.rva >= before, 15, "file", section.at, f"it begins at RVA 0x{section.rva:x}, and the {words} at 0x{before:x}")
            before, words = section.end, "section before it ends"
        self.pieces = [(0, headers.headers, None)] + [(it.rva, it.end, it) for it in headers.sections if it.extent]
        self.bytes = bytearray(self.size)
        self.bytes[: headers.headers] = file[: headers.headers]
        for section in headers.sections:
            self.bytes[section.rva : section.rva + section.in_file] = file[section.pointer : section.pointer + section.in_file]

    def read_tables(self):
        """Reads the tables in the order of their phases, and raises the first fault. A table without a fault is kept; base relocations
        are read only after imports without one, with whose slots they are compared."""
        faults, slots = [], set()
        self.exports = self.whole(faults, self.read_exports)
        self.imports = self.whole(faults, self.read_imports, slots)
        if self.imports is not None:
            self.fixups = self.whole(faults, self.read_fixups, slots)
        for fault in faults:
            raise fault

    @staticmethod
    def whole(faults, read, *arguments):
        """What was read of a table, or None if it has a fault, which is added to a list."""
        try:
            return read(*arguments)
        except Refused as fault:
            faults.append(fault)
            return None

    def directory(self, index):
        return self.headers.directories[index] if index < len(self.headers.directories) else (0, 0)

    def piece(self, rva):
        """The first RVA, the end and the section of the piece at an RVA."""
        return next((piece for piece in self.pieces if piece[0] <= rva < piece[1]), None)

    def text(self, rva):
        """The string at an RVA, or None."""
        if rva >= self.size:
            return None
        piece = self.piece(rva)
        end = self.bytes.find(0, rva, piece[1]) if piece else rva
        return None if end < 0 else bytes(self.bytes[rva:end])

    def past(self, size, rva):
        """The values of bytes that pass the end of the image."""
        return f"{size} bytes at RVA 0x{rva:x}, and the image ends at 0x{self.size:x}"

    def outside(self, rva):
        """The values of an RVA past the end of the image."""
        return f"the RVA is 0x{rva:x}, and the image ends at 0x{self.size:x}"

    def no_text(self, rva):
        """Why there is no string at an RVA."""
        if rva >= self.size:
            return self.outside(rva)
        piece = self.piece(rva)
        return f"the RVA is 0x{rva:x}, and no zero byte follows before 0x{piece[1] if piece else rva:x}"

    def read_exports(self):
        """The ordinal, the target and the names of each export."""
        rva, size = self.directory(0)
        if rva == 0:
            return []
        must(rva + 40 <= self.size, 16, "rva", rva, self.past(40, rva))
        base, count, name_count, *tables = struct.unpack_from("<6I", self.bytes, rva + 16)
        for i, (table, length) in enumerate(zip(tables, (4 * count, 4 * name_count, 2 * name_count))):
            must(length == 0 or table + length <= self.size, 17, "rva", rva + 28 + 4 * i, self.past(length, table))
        must(count <= 65536, 18, "rva", rva + 20, f"it has {count}, and the limit is 65536")
        must(name_count <= 65536, 18, "rva", rva + 24, f"it has {name_count}, and the limit is 65536")
        names = {}
        for k in range(name_count):
            pointer = uint(self.bytes, tables[1] + 4 * k, 4)
            text = self.text(pointer)
            must(text is not None, 19, "rva", tables[1] + 4 * k, self.no_text(pointer))
            index = uint(self.bytes, tables[2] + 2 * k, 2)
            must(index < count, 20, "rva", tables[2] + 2 * k, f"it is {index}, and there are {count}")
            names.setdefault(text, index)
        by_index = {}
        for text, index in names.items():
            by_index.setdefault(index, []).append(text)
        values = [uint(self.bytes, tables[0] + 4 * i, 4) for i in range(count)]
        return [(base + i, self.target(value, rva <= value < rva + size, tables[0] + 4 * i), by_index.get(i, []))
                for i, value in enumerate(values) if value]

    def target(self, value, is_forwarder, at):
        """What an entry of the address table exports: an RVA, or the module and the key of a forwarder."""
        if not is_forwarder:
            must(value < self.size, 21, "rva", at, self.outside(value))
            return value
        text = self.text(value)
        values = self.no_text(value) if text is None else f"its string at RVA 0x{value:x} has {len(text)} bytes"
        module, _, key = (text or b"").rpartition(b".")
        must(module and key, 22, "rva", at, values)
        if not key.startswith(b"#"):
            return module, key
        digits = re.fullmatch(rb"#0*([0-9]{1,5})", key)
        must(digits and int(digits[1]) <= 65535, 22, "rva", at, values)
        return module, int(digits[1])

    def read_imports(self, slots):
        """The module, the slot and the key of each import; the bytes of slots are added to a set."""
        imports = []
        at = self.directory(1)[0]
        while at:
            must(at + 20 <= self.size, 24, "rva", at, self.past(20, at))
            lookup, stamp, _, name, table = struct.unpack_from("<5I", self.bytes, at)
            if name == 0 or table == 0:
                break
            module = self.text(name)
            must(module is not None, 25, "rva", at + 12, self.no_text(name))
            must(lookup != 0 or stamp == 0, 32, "rva", at, f"it is 0x{stamp:x}")
            self.read_lookup(imports, slots, module, lookup or table, table)
            at += 20
        return imports

    def read_lookup(self, imports, slots, module, lookup, slot):
        """The imports of one descriptor."""
        width = 8 if self.wide else 4
        for k in itertools.count():
            at, field = lookup + width * k, slot + width * k
            must(at + width <= self.size, 26, "rva", at, self.past(width, at))
            entry = uint(self.bytes, at, width)
            if entry == 0:
                return
            key = entry & 0xFFFF if entry >> (8 * width - 1) else self.text((entry & 0x7FFFFFFF) + 2)
            must(key is not None, 27, "rva", at, self.no_text((entry & 0x7FFFFFFF) + 2))
            must(isinstance(key, int) or entry >> 31 == 0, 28, "rva", at, f"they are 0x{entry >> 31:x}")
            must(field + width <= self.size, 29, "rva", at)
            covered = range(field, field + width)
            must(slots.isdisjoint(covered), 30, "rva", at)
            must(len(imports) < 1 << 20, 31, "rva", at, "it has 1048577, and the limit is 1048576")
            slots.update(covered)
            imports.append((module, field, key))

    def read_fixups(self, slots):
        """The field and the type of each base relocation."""
        (at, size), fixups, fields = self.directory(5), [], set()
        end = at + size
        if at == 0 or size == 0:
            return fixups
        must(end <= self.size, 34, "rva", at, self.past(size, at))
        while end - at >= 8 and uint(self.bytes, at + 4, 4):
            page, length = struct.unpack_from("<II", self.bytes, at)
            must(length % 2 == 0 and 8 <= length <= end - at, 33, "rva", at,
                 f"its size is {length}, and the directory has {end - at} bytes left")
            for entry in range(at + 8, at + length, 2):
                self.read_fixup(fixups, fields, slots, page, entry)
            at += length
        return fixups

    def read_fixup(self, fixups, fields, slots, page, at):
        kind, offset = divmod(uint(self.bytes, at, 2), 0x1000)
        if kind == 0:
            return
        must(kind in FIXUP_WIDTHS, 35, "rva", at, f"the type is {kind}, and the field is at RVA 0x{page + offset:x}")
        covered = range(page + offset, page + offset + FIXUP_WIDTHS[kind])
        must(covered.stop <= self.size, 36, "rva", at, self.past(len(covered), covered.start))
        field = f"{len(covered)} bytes at RVA 0x{covered.start:x}"
        must(fields.isdisjoint(covered), 37, "rva", at, field)
        must(slots.isdisjoint(covered), 38, "rva", at, field)
        fields.update(covered)
        fixups.append((page + offset, kind))


class Object:
    """A COFF object: faults 61 and 63 to 72. A file that begins as an object never has 62."""

    def __init__(self, file):
        must(len(file) >= 20, 61, "file", len(file), f"it has {len(file)}")
        self.machine, count, self.stamp, table, records, optional_size, self.flags = struct.unpack_from("<HHIIIHH", file)
        must(20 + optional_size + 40 * count <= len(file), 63, "file", 2, passed(40 * count, 20 + optional_size, file))
        records = records if table else 0
        must(table + 18 * records <= len(file), 67, "file", 8, passed(18 * records, table, file))
        strings = self.read_strings(file, table + 18 * records) if table else b""
        self.sections = [self.read_section(file, 20 + optional_size + 40 * i, strings) for i in range(count)]
        self.records, self.symbols = records, self.read_symbols(file, table, records, strings)
        for section in self.sections:
            places = [section.relocations_at + 10 * i for i in range(section.relocation_count)]
            section.relocations = [struct.unpack_from("<IIH", file, at) for at in places]
            for at, (_, symbol, _) in zip(places, section.relocations):
                must(symbol < records, 72, "file", at, f"it is {symbol}, and there are {records}")

    @staticmethod
    def read_strings(file, at):
        size, rest = uint(file, at, 4), len(file) - at
        values = f"the size is {size}" if rest >= 4 and size < 4 else passed(size if rest >= 4 else 4, at, file)
        must(rest == 0 or rest >= 4 and size not in (1, 2, 3) and size <= rest, 68, "file", at, values)
        return strings_at(file, at)

    @staticmethod
    def read_section(file, at, strings):
        section = Section(file, at)
        has_bytes = section.pointer and section.raw_size and not section.flags & 0x80
        must(not has_bytes or section.pointer + section.raw_size <= len(file), 64, "file", at,
             passed(section.raw_size, section.pointer, file))
        must(not (section.flags & 0x01000000 and section.relocation_count == 0xFFFF), 65, "file", at)
        relocations = 10 * section.relocation_count
        must(relocations == 0 or section.relocations_at + relocations <= len(file), 66, "file", at,
             passed(relocations, section.relocations_at, file))
        section.in_file = section.raw_size if has_bytes else 0
        offset = long_name_at(section.field)
        section.name = section.name if offset is None else text_in(strings, offset)
        must(section.name is not None, 69, "file", at)
        return section

    def read_symbols(self, file, table, records, strings):
        """The index, the name, the value, the section, the type, the class and the auxiliary records of each symbol."""
        index, symbols = 0, []
        while index < records:
            at = table + 18 * index
            field, value, section, kind, storage, auxiliary = struct.unpack_from("<8sIHHBB", file, at)
            offset = uint(field, 4, 4)
            name = field.split(b"\0")[0] if uint(field, 0, 4) else text_in(strings, offset) if offset else b""
            must(name is not None, 69, "file", at, f"the offset is {offset}, and the table has {len(strings)} bytes")
            must(index + auxiliary < records, 70, "file", at,
                 f"it has {auxiliary}, and the table has {records - index - 1} records left")
            must(section <= len(self.sections) or section >= 0xFFFE, 71, "file", at, f"it is {section}, and there are {len(self.sections)}")
            beside = [file[at + 18 * k : at + 18 * (k + 1)] for k in range(1, auxiliary + 1)]
            symbols.append((index, name, value, section, kind, storage, beside))
            index += 1 + auxiliary
        return symbols


def is_object(file):
    """Whether a file begins as an object: by its machine, and if it is not text."""
    is_text = all(byte in b"\t\n\r" or 0x20 <= byte <= 0x7E for byte in file)
    return len(file) >= 2 and not is_text and uint(file, 0, 2) in OBJECT_MACHINES
