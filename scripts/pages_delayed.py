"""Reads the delay-loaded imports of images independently of petool, by docs/FORMAT.md; for pages.py and lines.py.

An image is that of pages_reader.py.
"""

import itertools
import struct

from pages_reader import uint

DELAY = 13
#: How many entries are read of all name tables of an image.
LIMIT = 1 << 20


class Delayed:
    """The delay-loaded imports of an image, each as its module, its slot and its key, and what is found in their tables. `held` gives the
    bytes that the file holds in one run from an RVA on, and `rva_of` the RVA of an address."""

    def __init__(self, image, held, rva_of):
        self.image, self.width, self.rva_of = image, 8 if image.wide else 4, rva_of
        self.imports, self.findings, self.count = [], [], 0
        self.rva = image.directory(DELAY)[0]
        if self.rva:
            self.read_table(held(self.rva))

    def read_table(self, table):
        found = []
        for at in range(0, len(table) - 31, 32):
            fields = struct.unpack_from("<8I", table, at)
            if 0 in (fields[1], fields[3]):
                break
            found += self.read_descriptor(self.rva + at, fields)
        else:
            self.findings = [(161, self.rva)]
        self.findings += found

    def read_descriptor(self, at, fields):
        """Adds the imports of a descriptor if nothing is found in it. What is found."""
        has_rvas = fields[0] & 1
        name, slots, names = (self.place(has_rvas, fields[k]) for k in (1, 3, 4))
        module = None if name is None else self.image.text(name)
        imports, wrong = self.read_names(has_rvas, module, *(self.image.size if it is None else it for it in (names, slots)))
        found = [(162, at)] * (module is None) + wrong
        self.imports += [] if found else imports
        return found

    def place(self, has_rvas, value):
        """The RVA that a field leads to, or None."""
        return (value if has_rvas else self.rva_of(value)) if value else None

    def read_names(self, has_rvas, module, names, slots):
        """The imports of a name table up to its end or the first entry in which something is found, and that."""
        imports = []
        for k in itertools.count():
            at, slot = names + self.width * k, slots + self.width * k
            if at + self.width > self.image.size:
                return imports, [(163, at)]
            value = uint(self.image.bytes, at, self.width)
            if value == 0:
                return imports, []
            key, other = self.key(has_rvas, value)
            rules = {164: key is None, 165: other, 166: slot + self.width > self.image.size, 167: self.count == LIMIT}
            if any(rules.values()):
                return imports, [(number, at) for number, stands in rules.items() if stands]
            imports.append((module, slot, key))
            self.count += 1

    def key(self, has_rvas, value):
        """The ordinal or the name of an entry, or None if there is no string; and whether other bits are set."""
        top = 8 * self.width - 1
        if value >> top:
            return value & 0xFFFF, bool((value & ((1 << top) - 1)) >> 16)
        rva = value & 0x7FFFFFFF if has_rvas else self.rva_of(value)
        return None if rva is None else self.image.text(rva + 2), bool(has_rvas and value >> 31)
