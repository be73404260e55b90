"""What `petool map --delayed` binds: the slots of delay-loaded imports of images that are written field by field, with the addresses of
their exports worked out by hand; and which of them it leaves as the file has them, relocated."""

import struct
import unittest

from .cases import run, write_set
from .files import EXPORT, importing, library, looped, numbers, put
from .finding_pages import PROGRAM, OverFiles
from .test_delay_imports import ENTRIES, MODULE, NAMES, OTHER, SLOTS, descriptor, section
from .test_findings import BASE, image

#: Where base relocations are in the section at RVA 0x1000, and a field behind the slots.
RELOCATIONS, FIELD = 0x10E8, 0x10BC

#: What slot k has in the file: the address of a thunk, with the image at its ImageBase.
THUNKS = [BASE + 0x1F00 + 0x10 * k for k in range(4)]

#: The bases at which sets have the image and its modules.
HERE, THERE, FAR = 0x20000000, 0x30000000, 0x50000000


def ordinal(number):
    return 0x80000000 + number


def program(entries, descriptors=None, relocated=(SLOTS, SLOTS + 4, SLOTS + 8, FIELD)):
    """An image with delay-loaded imports of `a.dll` by these entries. Its four slots have the addresses of thunks, and the field behind
    them that of the image; the base relocations are of the fields that are given, which lie in one page."""
    made = bytearray(section(descriptor() if descriptors is None else descriptors, entries))
    block = numbers(0x1000, 8 + 2 * len(relocated)) + b"".join(struct.pack("<H", 0x3000 | rva - 0x1000) for rva in relocated)
    put(made, (SLOTS - 0x1000, numbers(*THUNKS)), (FIELD - 0x1000, numbers(BASE)), (RELOCATIONS - 0x1000, block))
    file = bytearray(image(13, 64, bytes(made)))
    return bytes(put(file, (0xB8 + 8 * 5, numbers(RELOCATIONS, len(block)))))


def member(file, base=HERE):
    return (b"c.dll", file, base)


#: A library whose ordinals 0 and 1 are exports, and 2 leads to a module that no set has.
LIBRARY = (b"A.DLL", library([b"", b"", b"gone.#7"]), THERE)

PLAIN = program((ordinal(1), ordinal(2), ordinal(0), 0))

#: The lines of its bound slots, beside a library at another base.
BINDS = [
    f"bind 0 0x{SLOTS:08x} to 1 0x{EXPORT:08x} value 0x{THERE + EXPORT:016x}",
    f"bind 0 0x{SLOTS + 8:08x} to 1 0x{EXPORT:08x} value 0x{THERE + EXPORT:016x}",
]


def line_of(address, words):
    """The line of a window of numbers of 4 bytes."""
    return f"0x{address:016x} " + numbers(*words).hex(" ")


@unittest.skipUnless(PROGRAM, "left out without program: PETOOL_PROGRAM names none")
class DelayedMaps(OverFiles, unittest.TestCase):
    def run_map(self, members, *options):
        for old in self.folder.iterdir():
            if old.is_dir() and old.name != "out":
                for file in old.iterdir():
                    file.unlink()
                old.rmdir()
        return run([PROGRAM, "map", *options, *write_set(self.folder, members)])

    def map(self, members, *options):
        """The lines of a set that is mapped, without those of its images."""
        done = self.run_map(members, *options)
        self.assertEqual((done.stderr, done.returncode), (b"", 0))
        return [line for line in done.stdout.decode().splitlines() if not line.startswith("image ")]

    def refused(self, members, *options):
        """What is printed of a set that is refused, and the end of what is said on standard error."""
        done = self.run_map(members, *options)
        self.assertEqual(done.returncode, 1)
        return done.stdout.decode(), done.stderr.decode().strip().rpartition(": ")[2]

    def test_slots_have_the_addresses_of_exports(self):
        window = ("--window", f"{HERE + SLOTS:x}", "--count", "16")
        moved = HERE - BASE
        left = [THUNKS[0] + moved, THUNKS[1] + moved, THUNKS[2] + moved, THUNKS[3]]
        bound = [THERE + EXPORT, THUNKS[1] + moved, THERE + EXPORT, THUNKS[3]]
        self.assertEqual(self.map([member(PLAIN), LIBRARY], *window), [line_of(HERE + SLOTS, left), "end"])
        self.assertEqual(self.map([member(PLAIN), LIBRARY], "--delayed", *window), [*BINDS, line_of(HERE + SLOTS, bound), "end"])

    def test_fields_beside_the_slots_are_relocated(self):
        # a field that begins in the slot before it, and one that is no slot
        file = program((ordinal(1), 0), relocated=(SLOTS + 2, FIELD))
        lines = self.map([member(file), LIBRARY], "--delayed", "--window", f"{HERE + SLOTS:x}", "--count", "8")
        self.assertEqual(lines, [BINDS[0], line_of(HERE + SLOTS, [THERE + EXPORT, THUNKS[1]]), "end"])
        lines = self.map([member(file), LIBRARY], "--delayed", "--window", f"{HERE + FIELD:x}", "--count", "4")
        self.assertEqual(lines, [BINDS[0], line_of(HERE + FIELD, [HERE]), "end"])

    def test_a_missing_module_is_no_fault(self):
        for options in ((), ("--known",), ("--known", "--unbound"), ("--unbound",)):
            self.assertEqual(self.map([member(PLAIN)], "--delayed", *options), ["end"])

    def test_imports_come_first(self):
        imports = importing((b"a.dll", [0, 1]))
        names = [LIBRARY, (b"d.dll", imports, FAR), member(PLAIN)]
        lines = [f"bind 1 0x{0x20000 + 4 * k:08x} to 0 0x{EXPORT:08x} value 0x{THERE + EXPORT:016x}" for k in range(2)]
        lines += [line.replace("bind 0", "bind 2").replace("to 1", "to 0") for line in BINDS]
        self.assertEqual(self.map(names, "--delayed"), [*lines, "end"])

    def test_the_imports_of_the_import_table_are_as_without(self):
        imports = (b"d.dll", importing((b"gone.dll", [3]), (b"a.dll", [1])), FAR)
        members = [member(PLAIN), LIBRARY, imports]
        self.assertEqual(self.refused(members, "--delayed")[0], "fault 48 image 2 rva 0x00020000\n")
        bind = f"bind 2 0x00020004 to 1 0x{EXPORT:08x} value 0x{THERE + EXPORT:016x}"
        unbound = 'unbound 2 0x00020000 "gone.dll" #3'
        self.assertEqual(self.map(members, "--delayed", "--known", "--unbound"), [*BINDS, bind, "end", unbound])

    def test_an_export_that_is_missing(self):
        members = [member(program((ordinal(1), ordinal(3), 0))), LIBRARY]
        told = (f"fault 49 image 0 rva 0x{SLOTS + 4:08x}\n", "a.dll #3")
        self.assertEqual(self.refused(members, "--delayed"), told)
        self.assertEqual(self.refused(members, "--delayed", "--known"), told)
        self.assertEqual(self.map(members), ["end"])

    def test_a_name(self):
        members = [member(program(ENTRIES)), (b"a.dll", library([b""] * 8), THERE)]
        told = (f"fault 49 image 0 rva 0x{SLOTS + 4:08x}\n", "a.dll Sleep")
        self.assertEqual(self.refused(members, "--delayed"), told)

    def test_a_cycle_of_forwarders(self):
        members = [member(program((ordinal(3), 0))), (b"a.dll", library([b"f.#3"] * 4), THERE), (b"f.dll", looped(3, 2), FAR)]
        self.assertEqual(self.refused(members, "--delayed")[0], f"fault 50 image 0 rva 0x{SLOTS:08x} cycle 2\n")

    def test_a_slot_is_bound_once(self):
        # the address tables of two descriptors share bytes: the first one's slots count
        entries = (ordinal(1), ordinal(0), 0)
        for place in (SLOTS, SLOTS + 3, SLOTS - 5):
            two = descriptor() + descriptor(OTHER, place, NAMES)
            lines = self.map([member(program(entries, two)), LIBRARY, (b"other", library([b"", b""]), FAR)], "--delayed")
            first = [f"bind 0 0x{SLOTS + 4 * k:08x} to 1 0x{EXPORT:08x} value 0x{THERE + EXPORT:016x}" for k in range(2)]
            # the slot of the second that shares no byte
            free = [place + 4 * k for k in range(2) if place + 4 * k + 4 <= SLOTS or place + 4 * k >= SLOTS + 8]
            rest = [f"bind 0 0x{slot:08x} to 2 0x{EXPORT:08x} value 0x{FAR + EXPORT:016x}" for slot in free]
            self.assertEqual(lines, [*first, *rest, "end"])

    def test_images_are_written_as_they_are_mapped(self):
        (self.folder / "out").mkdir()
        self.map([member(PLAIN), LIBRARY], "--delayed", "--write", str(self.folder / "out"))
        written = (self.folder / "out" / "c.dll").read_bytes()
        moved = HERE - BASE
        self.assertEqual(written[SLOTS : SLOTS + 16], numbers(THERE + EXPORT, THUNKS[1] + moved, THERE + EXPORT, THUNKS[3]))
        self.map([member(PLAIN), LIBRARY], "--write", str(self.folder / "out"))
        written = (self.folder / "out" / "c.dll").read_bytes()
        self.assertEqual(written[SLOTS : SLOTS + 16], numbers(*(it + moved for it in THUNKS[:3]), THUNKS[3]))
