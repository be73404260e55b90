"""Reads the unwind information of functions independently of petool, by docs/FORMAT.md, and makes its lines of pages; for
pages_tables.py, whose Tables have the image."""

from pages_reader import uint

REGISTERS = "RAX RCX RDX RBX RSP RBP RSI RDI R8 R9 R10 R11 R12 R13 R14 R15".split()
FLAGS = {1: "EHANDLER", 2: "UHANDLER", 4: "CHAININFO"}
#: The most unwind informations of a chain.
MOST = 32


class Unwind:
    """The unwind information of AMD64 at an RVA of an image, or None in `first` if it is not inside it."""

    def __init__(self, tables, rva):
        self.tables, self.rva = tables, rva
        self.first = tables.image.bytes[rva] if tables.is_inside(rva, 4) else None
        if self.first is None:
            return
        self.version, self.flags = self.first & 7, self.first >> 3
        self.prologue, self.count, frame = tables.image.bytes[rva + 1 : rva + 4]
        self.frame = f"{REGISTERS[frame & 15]}+0x{(frame >> 4) * 16:x}"
        self.has_frame, self.is_known = frame & 15 != 0, self.version in (1, 2)
        self.behind = rva + 4 + 2 * (self.count + self.count % 2)

    def handler(self):
        found = self.first is not None and self.is_known and self.flags & 3 and not self.flags & 4
        return uint(self.tables.image.bytes, self.behind, 4) if found and self.tables.is_inside(self.behind, 4) else None

    def operations(self):
        """The offset and the words of each operation, or a finding with its place."""
        slot = 0
        while slot < self.count:
            at = self.rva + 4 + 2 * slot
            if not self.tables.is_inside(at, 2):
                yield None, (118, at)
                return
            offset, code, info = self.tables.image.bytes[at], self.tables.image.bytes[at + 1] & 15, self.tables.image.bytes[at + 1] >> 4
            slots = {0: 1, 2: 1, 3: 1, 4: 2, 5: 3, 8: 2, 9: 3, 10: 1, 1: {0: 2, 1: 3}.get(info), 6: 2 if self.version == 2 else None}.get(code)
            if slots is None:
                yield None, (119, at)
                return
            if slot + slots > self.count or not self.tables.is_inside(at, 2 * slots):
                yield None, (118, at)
                return
            yield offset, self.words(code, info, offset, uint(self.tables.image.bytes, at + 2, 2 * (slots - 1)) if slots > 1 else 0)
            slot += slots

    def words(self, code, info, offset, number):
        register, vector = REGISTERS[info], f"XMM{info}"
        if code == 6:
            distance = (number & 0xFF) + 256 * (number >> 12)
            return "EPILOG" + (" at the end" if info & 1 else "") + (f" 0x{distance:x} before the end" if distance else "")
        return {
            0: f"PUSH_NONVOL {register}",
            1: f"ALLOC_LARGE 0x{number if info else 8 * number:x}",
            2: f"ALLOC_SMALL 0x{8 * info + 8:x}",
            3: f"SET_FPREG {self.frame}",
            4: f"SAVE_NONVOL {register} at 0x{8 * number:x}",
            5: f"SAVE_NONVOL_FAR {register} at 0x{number:x}",
            8: f"SAVE_XMM128 {vector} at 0x{16 * number:x}",
            9: f"SAVE_XMM128_FAR {vector} at 0x{number:x}",
            10: "PUSH_MACHFRAME" + (" with error code" if info == 1 else ""),
        }[code]


def next_in_chain(tables, function):
    """Where the function is that a function is chained to, or None if it is to none."""
    _, _, unwind = function
    if unwind % 2:
        return unwind - 1
    it = Unwind(tables, unwind)
    return it.behind if it.first is not None and it.is_known and it.flags & 4 else None


def chain(tables, function):
    """The functions that a function is chained to, and the finding that ends them, if there is one."""
    found = []
    while (at := next_in_chain(tables, function)) is not None:
        last = function[2] - function[2] % 2
        if len(found) == MOST - 1 or not tables.is_inside(at, 12):
            return found, (120, last)
        function = tuple(uint(tables.image.bytes, at + 4 * k, 4) for k in range(3))
        if not tables.is_inside(function[2] - function[2] % 2, 4):
            return found, (120, last)
        found.append(function)
    return found, None


def lines(tables, function, place, words):
    """The lines below the row of a function of AMD64. `words` has those of a finding."""
    width = max(6, len(f"{tables.size:x}"))
    finding = lambda number, at: "    {}  {} at RVA 0x{:x}: {}".format(number, words(number)[0], at, words(number)[1])  # noqa: E731
    it = Unwind(tables, function[2])
    if function[2] % 2 == 0 and it.first is not None:
        parts = [f"version {it.version}", f"prologue 0x{it.prologue:02x}"]
        parts += [f"frame {it.frame}"] if it.has_frame else []
        flags = " ".join(word for flag, word in FLAGS.items() if it.flags & flag)
        handler = it.handler()
        parts += [flags + (f" 0x{handler:0{width}x} {place(handler)}" if handler is not None else "")] if flags else []
        yield "    " + "  ".join(parts)
        if not it.is_known:
            yield finding(117, it.rva)
        for offset, told in it.operations() if it.is_known else []:
            yield finding(*told) if offset is None else f"    0x{offset:02x}  {told}"
    functions, found = chain(tables, function)
    yield from ("    chained to " + "  ".join(f"0x{it:0{width}x}" for it in one) for one in functions)
    if found:
        yield finding(*found)


def arm_lines(tables, unwind, place):
    """The lines below the row of a function of ARM64."""
    width = max(6, len(f"{tables.size:x}"))
    if unwind % 4 or not tables.is_inside(unwind, 4):
        return
    word = uint(tables.image.bytes, unwind, 4)
    count, codes, at = word >> 22 & 31, word >> 27, unwind + 4
    if word >> 22 == 0:
        if not tables.is_inside(unwind, 8):
            return
        more = uint(tables.image.bytes, at, 4)
        count, codes, at = more & 0xFFFF, more >> 16 & 0xFF, unwind + 8
    is_single, length = word >> 21 & 1, 4 * codes
    at += 0 if is_single else 4 * count
    parts = [f"version {word >> 18 & 3}", f"length 0x{(word & 0x3FFFF) * 4:x}"]
    parts += [f"single epilog at code {count}" if is_single else f"epilogs {count}", f"codes {length}"]
    if word >> 20 & 1 and tables.is_inside(at + length, 4):
        handler = uint(tables.image.bytes, at + length, 4)
        parts.append(f"handler 0x{handler:0{width}x} {place(handler)}")
    yield "    " + "  ".join(parts)
    if tables.is_inside(at, length):
        yield from (f"    {tables.image.bytes[at + k : min(at + k + 16, at + length)].hex(' ')}" for k in range(0, length, 16))


def frame_words(tables, unwind):
    """What `at` says of the frame and the handler of a function of AMD64."""
    it = Unwind(tables, unwind)
    if unwind % 2 or it.first is None:
        return ""
    handler = it.handler()
    return (f"  frame {it.frame}" if it.has_frame else "") + (f"  handler 0x{handler:x}" if handler is not None else "")
