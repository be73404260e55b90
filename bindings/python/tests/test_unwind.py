"""The unwind information of functions on pages: each field and each operation, by bytes that the format of x64 exception handling and that
of ARM64 give them; each finding by a file of its own."""

import struct
import unittest

from .files import numbers
from .finding_pages import PROGRAM, OverFiles, words_of
from .test_findings import AMD64, ARM64, image

REGISTERS = "RAX RCX RDX RBX RSP RBP RSI RDI R8 R9 R10 R11 R12 R13 R14 R15".split()
#: Where the unwind information of the one function is, right after the exception table.
INFO = 0x100C
EHANDLER, UHANDLER, CHAININFO = 1, 2, 4


def code(offset, operation, info=0):
    return bytes([offset, operation | info << 4])


def half(number):
    return struct.pack("<H", number)


def information(*slots, version=1, flags=0, prologue=0x13, frame=0, behind=b""):
    """Unwind information with these slots, and what comes after them."""
    slots = b"".join(slots)
    count = len(slots) // 2
    return bytes([version | flags << 3, prologue, count, frame]) + slots + bytes(2 * (count % 2)) + behind


def amd64(section):
    """An image with one function, whose unwind information comes after it."""
    return image(3, 12, numbers(0x1000, 0x1001, INFO) + section, machine=AMD64)


def arm64(word, *behind):
    """An image with one function, whose unwind record comes after it."""
    return image(3, 8, numbers(0x1000, 0x1008, word, *behind), machine=ARM64)


#: The slots of an operation in version 1, and its line.
OPERATIONS = [
    ([code(9, 0, 3)], "0x09  PUSH_NONVOL RBX"),
    ([code(8, 1, 0), half(0x123)], "0x08  ALLOC_LARGE 0x918"),
    ([code(8, 1, 0), half(0xFFFF)], "0x08  ALLOC_LARGE 0x7fff8"),
    ([code(8, 1, 1), numbers(0x12345678)], "0x08  ALLOC_LARGE 0x12345678"),
    ([code(7, 2, 0)], "0x07  ALLOC_SMALL 0x8"),
    ([code(7, 2, 15)], "0x07  ALLOC_SMALL 0x80"),
    ([code(6, 3, 9)], "0x06  SET_FPREG RBP+0x20"),
    ([code(5, 4, 12), half(0x123)], "0x05  SAVE_NONVOL R12 at 0x918"),
    ([code(4, 5, 13), numbers(0x12345678)], "0x04  SAVE_NONVOL_FAR R13 at 0x12345678"),
    ([code(3, 8, 6), half(0x123)], "0x03  SAVE_XMM128 XMM6 at 0x1230"),
    ([code(3, 8, 15), half(0xFFFF)], "0x03  SAVE_XMM128 XMM15 at 0xffff0"),
    ([code(2, 9, 7), numbers(0x12345678)], "0x02  SAVE_XMM128_FAR XMM7 at 0x12345678"),
    ([code(1, 10, 0)], "0x01  PUSH_MACHFRAME"),
    ([code(0xFF, 10, 1)], "0xff  PUSH_MACHFRAME with error code"),
]

#: The slots of an operation that version 2 adds, and its line: the size and whether the epilog is at the end, and where it is.
EPILOGS = [
    ([code(0x21, 6, 0), code(0, 6, 0)], "0x21  EPILOG"),
    ([code(0x21, 6, 1), code(0, 6, 0)], "0x21  EPILOG at the end"),
    ([code(0x21, 6, 0), code(0x34, 6, 2)], "0x21  EPILOG 0x234 before the end"),
    ([code(0x21, 6, 15), code(0xFF, 6, 15)], "0x21  EPILOG at the end 0xfff before the end"),
]

#: The slots with an operation that cannot be read, in a version, its finding, and how many bytes after the first slot it is.
STOPS = [
    (1, [code(1, 1, 0)], 118, 0),
    (1, [code(1, 1, 1), half(0)], 118, 0),
    (1, [code(1, 4)], 118, 0),
    (1, [code(1, 5), half(0)], 118, 0),
    (1, [code(1, 0), code(1, 8)], 118, 2),
    (1, [code(1, 9), half(0)], 118, 0),
    (2, [code(1, 6)], 118, 0),
    (1, [code(1, 1, 2), half(0), half(0)], 119, 0),
    (2, [code(1, 1, 15), half(0), half(0)], 119, 0),
    (1, [code(1, 6), half(0)], 119, 0),
    (1, [code(1, 4), half(9), code(1, 7)], 119, 4),
    (2, [code(1, 7), half(0), half(0)], 119, 0),
    *((1, [code(1, operation)], 119, 0) for operation in range(11, 16)),
]


@unittest.skipUnless(PROGRAM, "left out without program: PETOOL_PROGRAM names none")
class Unwind(OverFiles, unittest.TestCase):
    def functions(self, file, *options):
        """The lines of the functions of an image, after the heading of their columns."""
        done = self.petool(file, "show", *options or ["--unwind"], "a")
        self.assertEqual((done.stderr, done.returncode), (b"", 0))
        return done.stdout.decode().partition("\nFunctions (")[2].partition("\n\n")[0].splitlines()[2:]

    def below(self, file):
        """The lines below the first function's row."""
        return self.functions(file)[1:]

    def finding(self, number, rva):
        subject, rule = words_of()[number]
        return f"    {number}  {subject} at RVA 0x{rva:x}: {rule}"

    def test_only_if_asked_for(self):
        row = "  0x001000  0x001001  0x00100c  .data+0x0"
        file = amd64(information(code(9, 0, 3)))
        self.assertEqual(self.functions(file, "--functions"), [row])
        self.assertEqual(self.functions(file, "--trust"), [])
        lines = [row, "    version 1  prologue 0x13", "    0x09  PUSH_NONVOL RBX"]
        self.assertEqual(self.functions(file), lines)
        self.assertEqual(self.functions(file, "--functions", "--unwind"), lines)
        self.assertEqual(self.functions(file, "--all"), lines)

    def test_each_operation(self):
        for version, rows in ((1, OPERATIONS), (2, OPERATIONS + EPILOGS)):
            for slots, line in rows:
                with self.subTest(line, version=version):
                    head = f"    version {version}  prologue 0x13  frame RBP+0x20"
                    self.assertEqual(self.below(amd64(information(*slots, version=version, frame=0x25))), [head, "    " + line])

    def test_all_operations_one_after_the_other(self):
        slots = [slot for one, _ in OPERATIONS for slot in one]
        lines = ["    version 1  prologue 0x13  frame RBP+0x20", *("    " + line for _, line in OPERATIONS)]
        self.assertEqual(self.below(amd64(information(*slots, frame=0x25))), lines)

    def test_each_register(self):
        slots = [code(1, 0, k) for k in range(16)]
        lines = [f"    0x01  PUSH_NONVOL {name}" for name in REGISTERS]
        self.assertEqual(self.below(amd64(information(*slots)))[1:], lines)
        for k, name in enumerate(REGISTERS[1:], 1):
            with self.subTest(name):
                self.assertEqual(self.below(amd64(information(frame=k | 0xF0))), [f"    version 1  prologue 0x13  frame {name}+0xf0"])
        self.assertEqual(self.below(amd64(information(frame=0xF0))), ["    version 1  prologue 0x13"])

    def test_flags_and_the_handler(self):
        behind = numbers(0x1002)
        for flags, words in ((EHANDLER, "EHANDLER"), (UHANDLER, "UHANDLER"), (EHANDLER | UHANDLER, "EHANDLER UHANDLER")):
            for slots in ([], [code(1, 0)], [code(1, 0)] * 2):
                with self.subTest(words, slots=len(slots)):
                    file = amd64(information(*slots, flags=flags, behind=behind))
                    self.assertEqual(self.below(file)[0], f"    version 1  prologue 0x13  {words} 0x001002 .data+0x2")
        # the handler is not entirely inside the image
        section = numbers(0x1000, 0x1001, 0x2FFC) + bytes(0x1FF0) + information(flags=EHANDLER)
        self.assertEqual(self.below(image(3, 12, section, machine=AMD64))[0], "    version 1  prologue 0x13  EHANDLER")

    def test_versions(self):
        for version in (0, 3, 4, 5, 6, 7):
            with self.subTest(version):
                file = amd64(information(code(1, 0), version=version, flags=EHANDLER | CHAININFO, behind=numbers(1, 2, 3)))
                self.assertEqual(self.below(file), [f"    version {version}  prologue 0x13  EHANDLER CHAININFO", self.finding(117, INFO)])

    def test_operations_that_cannot_be_read(self):
        for version, slots, number, behind in STOPS:
            with self.subTest(number, version=version, slots=slots):
                lines = self.below(amd64(information(*slots, version=version)))
                self.assertEqual(lines[-1], self.finding(number, INFO + 4 + behind))
                self.assertEqual(len(lines), 2 + (behind > 0))

    def test_slots_outside_the_image(self):
        for end, kept, found in ((0x2000, 4, 0x2000), (0x1FFF, 5, 0x1FFE), (0x2000, 6, None)):
            section = numbers(0x1000, 0x1001, end - kept)
            section += bytes(end - 0x1000 - kept - len(section)) + information(code(1, 0))[:kept]
            lines = self.below(image(3, 12, section, machine=AMD64, image_size=end))
            with self.subTest(kept):
                self.assertEqual(lines[-1], "    0x01  PUSH_NONVOL RAX" if found is None else self.finding(118, found))

    def test_a_chain(self):
        first = information(code(1, 0), flags=CHAININFO, behind=numbers(0x1004, 0x1005, INFO + 20))
        self.assertEqual(len(first), 20)
        lines = ["    version 1  prologue 0x13  CHAININFO", "    0x01  PUSH_NONVOL RAX", "    chained to 0x001004  0x001005  0x001020"]
        self.assertEqual(self.below(amd64(first + information())), lines)
        # a record at an odd RVA is that of another function
        other = numbers(0x1000, 0x1001, INFO + 1) + numbers(0x1004, 0x1005, 0x1018) + information(code(1, 0))
        self.assertEqual(self.below(image(3, 12, other, machine=AMD64)), ["    chained to 0x001004  0x001005  0x001018"])

    def test_a_chain_that_comes_back(self):
        file = amd64(information(flags=CHAININFO, behind=numbers(0x1000, 0x1001, INFO)))
        lines = ["    version 1  prologue 0x13  CHAININFO", *["    chained to 0x001000  0x001001  0x00100c"] * 31, self.finding(120, INFO)]
        self.assertEqual(self.below(file), lines)

    def test_a_chain_that_leaves_the_image(self):
        file = amd64(information(flags=CHAININFO, behind=numbers(0x1000, 0x1001, 0x2FFE)))
        self.assertEqual(self.below(file), ["    version 1  prologue 0x13  CHAININFO", self.finding(120, INFO)])
        file = amd64(information(flags=CHAININFO, behind=numbers(0x1000, 0x1001, 0x2FFC)))
        self.assertEqual(self.below(file), ["    version 1  prologue 0x13  CHAININFO", "    chained to 0x001000  0x001001  0x002ffc"])

    def test_a_record_of_arm64(self):
        word = 0x12345 | 1 << 20 | 3 << 22 | 2 << 27
        codes = [0x04030201, 0x08070605]
        lines = ["    version 0  length 0x48d14  epilogs 3  codes 8  handler 0x001002 .data+0x2", "    01 02 03 04 05 06 07 08"]
        self.assertEqual(self.below(arm64(word, 1, 2, 3, *codes, 0x1002)), lines)
        lines[0] = "    version 3  length 0x48d14  single epilog at code 3  codes 8  handler 0x001002 .data+0x2"
        self.assertEqual(self.below(arm64(word | 1 << 21 | 3 << 18, *codes, 0x1002)), lines)

    def test_a_record_of_arm64_with_a_second_word(self):
        codes = list(range(1, 6))
        lines = ["    version 0  length 0x4  epilogs 2  codes 20", "    01 00 00 00 02 00 00 00 03 00 00 00 04 00 00 00", "    05 00 00 00"]
        self.assertEqual(self.below(arm64(1, 2 | 5 << 16, 7, 8, *codes)), lines)
        lines[0] = "    version 0  length 0x4  single epilog at code 2  codes 20"
        self.assertEqual(self.below(arm64(1 | 1 << 21, 2 | 5 << 16, *codes)), lines)

    def test_a_function_of_arm64_whose_record_is_packed(self):
        for kind in (1, 2, 3):
            with self.subTest(kind):
                self.assertEqual(self.below(image(3, 8, numbers(0x1000, 0x1008 | kind, 0x10000000), machine=ARM64)), [])

    def test_what_is_at_a_place(self):
        file = amd64(information(frame=0x25, flags=EHANDLER, behind=numbers(0x1002)))
        done = self.petool(file, "at", "a", "1000")
        self.assertEqual((done.stderr, done.returncode), (b"", 0))
        self.assertIn(b"  function 0x1000 to 0x1001  frame RBP+0x20  handler 0x1002", done.stdout)
        done = self.petool(amd64(information()), "at", "a", "1000")
        self.assertIn(b"  function 0x1000 to 0x1001", done.stdout)
        self.assertNotIn(b"  frame", done.stdout)
        self.assertNotIn(b"  handler", done.stdout)
