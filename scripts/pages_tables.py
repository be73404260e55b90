"""Reads the tables of images beyond the profile independently of petool, by docs/FORMAT.md, and makes their parts of pages; for pages.py.

An image is that of pages_reader.py. The names come from "PE Format" and from the headers of the Windows SDK.
"""

import datetime
import struct

import pages_resources
import pages_symbols
import pages_unwind
from pages_delayed import DELAY, Delayed
from pages_reader import uint

EXCEPTION, CERTIFICATE, DEBUG, TLS, LOAD, BOUND, CLR = 3, 4, 6, 9, 10, 11, 14
#: The options of `show` that add the rows of these tables.
TABLES = ("debug", "functions", "unwind", "tls", "load", "resources")
TYPES = dict(enumerate("UNKNOWN COFF CODEVIEW FPO MISC EXCEPTION FIXUP OMAP_TO_SRC OMAP_FROM_SRC BORLAND RESERVED10 CLSID VC_FEATURE POGO "
                       "ILTCG MPX REPRO EMBEDDED_PDB".split())) | {19: "PDBCHECKSUM", 20: "EX_DLLCHARACTERISTICS"}
TLS_FIELDS = "StartAddressOfRawData EndAddressOfRawData AddressOfIndex AddressOfCallBacks SizeOfZeroFill Characteristics".split()
#: The fields of the load configuration: the width, where `a` is that of an address, and the name. In PE32 ProcessHeapFlags is before
#: ProcessAffinityMask; their rows have one order.
LOAD_FIELDS = """4:Size 4:TimeDateStamp 2:MajorVersion 2:MinorVersion 4:GlobalFlagsClear 4:GlobalFlagsSet 4:CriticalSectionDefaultTimeout
    a:DeCommitFreeBlockThreshold a:DeCommitTotalFreeThreshold a:LockPrefixTable a:MaximumAllocationSize a:VirtualMemoryThreshold
    a:ProcessAffinityMask 4:ProcessHeapFlags 2:CSDVersion 2:DependentLoadFlags a:EditList a:SecurityCookie a:SEHandlerTable
    a:SEHandlerCount a:GuardCFCheckFunctionPointer a:GuardCFDispatchFunctionPointer a:GuardCFFunctionTable a:GuardCFFunctionCount
    4:GuardFlags 2:CodeIntegrity.Flags 2:CodeIntegrity.Catalog 4:CodeIntegrity.CatalogOffset 4:CodeIntegrity.Reserved
    a:GuardAddressTakenIatEntryTable a:GuardAddressTakenIatEntryCount a:GuardLongJumpTargetTable a:GuardLongJumpTargetCount
    a:DynamicValueRelocTable a:CHPEMetadataPointer a:GuardRFFailureRoutine a:GuardRFFailureRoutineFunctionPointer
    4:DynamicValueRelocTableOffset 2:DynamicValueRelocTableSection 2:Reserved2 a:GuardRFVerifyStackPointerFunctionPointer
    4:HotPatchTableOffset 4:Reserved3 a:EnclaveConfigurationPointer a:VolatileMetadataPointer a:GuardEHContinuationTable
    a:GuardEHContinuationCount a:GuardXFGCheckFunctionPointer a:GuardXFGDispatchFunctionPointer a:GuardXFGTableDispatchFunctionPointer
    a:CastGuardOsDeterminedFailureMode a:GuardMemcpyFunctionPointer""".split()
#: The tables that the load configuration leads to, and the finding of one that is not in one run.
GUARDED = {144: ("SEHandlerTable",), 145: ("GuardCFFunctionTable",), 146: ("GuardEHContinuationTable",),
           147: ("GuardAddressTakenIatEntryTable", "GuardLongJumpTargetTable")}


class Tables:
    """The tables of an image beyond the profile, what is found in them and in what the file says of itself, and the file."""

    def __init__(self, image, file, trust=()):
        self.image, self.file, self.base, self.size, self.trust = image, file, image.headers.base, image.size, trust
        self.width, self.machine = 8 if image.wide else 4, image.headers.machine
        self.findings = [*self.debug_findings(), *self.function_findings(), *self.tls_findings(), *self.load_findings(),
                         *self.bound_findings(), *self.clr_findings()]
        self.delayed = Delayed(image, self.held, self.rva_of)
        self.findings += self.delayed.findings
        self.resources = pages_resources.Resources(image, self.held)
        self.findings += self.resources.findings

    def held(self, rva):
        """The bytes that the file holds in one run from an RVA on."""
        start, end, section = self.image.piece(rva) or (rva, rva, None)
        end = min(end, start + section.in_file) if section else end
        return bytes(self.image.bytes[rva : max(rva, end)])

    def extent(self, index):
        """The RVA of a directory that is present, or 0; its Size, and as many of its bytes as the file holds in one run."""
        rva, size = self.image.directory(index)
        return (rva, size, self.held(rva)[:size]) if rva else (0, 0, b"")

    def is_inside(self, rva, size):
        return rva + size <= self.size

    def rva_of(self, address):
        return address - self.base if 0 <= address - self.base < self.size else None

    def leads_nowhere(self, address):
        return bool(address) and self.rva_of(address) is None

    def records(self, index, layout):
        rva, _, held = self.extent(index)
        length = struct.calcsize(layout)
        return [(rva + at, struct.unpack_from(layout, held, at)) for at in range(0, len(held) - length + 1, length)]

    def extent_findings(self, index, length, number):
        rva, size, held = self.extent(index)
        if rva and len(held) < size:
            yield number, rva
        if rva and size % length:
            yield number + 1, rva

    # ---- debug data

    def entries(self):
        """The type, the size, the RVA and the pointer of each entry, and where it is."""
        return [(at, record[4:]) for at, record in self.records(DEBUG, "<IIHHIIII")]

    def data(self, entry):
        _, size, _, pointer = entry
        return self.file[pointer : pointer + size] if pointer and pointer + size <= len(self.file) else None

    def code_view(self, entry):
        """The signature, the bytes that tell the PDB file apart, the age and the bytes of the path."""
        data = self.data(entry) if entry[0] == 2 else None
        if data and data[:4] == b"RSDS" and len(data) >= 24:
            return "RSDS", data[4:20], uint(data, 20, 4), data[24:]
        if data and data[:4] == b"NB10" and len(data) >= 16:
            return "NB10", data[8:12], uint(data, 12, 4), data[16:]
        return None

    def debug_findings(self):
        yield from self.extent_findings(DEBUG, 28, 101)
        for k, (at, entry) in enumerate(self.entries()):
            _, size, rva, pointer = entry
            if pointer and pointer + size > len(self.file):
                yield 103, at
            if rva and not self.is_inside(rva, size):
                yield 104, at
            view = self.code_view(entry)
            if k < 32 and view and b"\0" not in view[3]:
                yield 105, at

    def pdb(self):
        """The PDB file that the first entry names that names one, with its path."""
        views = [view for view in (self.code_view(entry) for _, entry in self.entries()) if view]
        return (*views[0][:3], views[0][3].split(b"\0")[0]) if views else None

    # ---- functions

    def functions(self):
        layout = {0x8664: "<III", 0xAA64: "<II", 0x1C4: "<II"}.get(self.machine)
        return None if layout is None else self.records(EXCEPTION, layout)

    def function_findings(self):
        functions = self.functions()
        if functions is None:
            return
        is_arm = self.machine != 0x8664
        yield from self.extent_findings(EXCEPTION, 8 if is_arm else 12, 111)
        before = 0
        for at, (begin, *others) in functions:
            end, unwind = (begin + 1, others[0]) if is_arm else others
            if end < begin:
                yield 113, at
            if end > self.size:
                yield 114, at
            record = (unwind if unwind % 4 == 0 else 0) if is_arm else unwind - unwind % 2
            if not self.is_inside(record, 4):
                yield 115, at
            if begin < before:
                yield 116, at
            before = begin

    # ---- TLS

    def tls(self):
        """The fields of the TLS directory that are whole, or None."""
        rva = self.image.directory(TLS)[0]
        if not rva:
            return None
        held, found, at = self.held(rva), {}, 0
        for k, name in enumerate(TLS_FIELDS):
            width = self.width if k < 4 else 4
            if at + width <= len(held):
                found[name] = uint(held, at, width)
            at += width
        return found

    def callbacks(self):
        """The RVA of each callback's entry and the callback, and whether a zero ends them; None if there are none."""
        address = (self.tls() or {}).get("AddressOfCallBacks", 0)
        rva = self.rva_of(address) if address else None
        if rva is None:
            return None
        held, found = self.held(rva), []
        for at in range(0, len(held) - self.width + 1, self.width):
            if uint(held, at, self.width) == 0:
                return rva, found, True
            found.append((rva + at, uint(held, at, self.width)))
        return rva, found, False

    def tls_findings(self):
        fields = self.tls()
        if fields is None:
            return
        rva = self.image.directory(TLS)[0]
        start, end = (fields.get(name) for name in TLS_FIELDS[:2])
        if "Characteristics" not in fields:
            yield 131, rva
        if end is not None and end < start:
            yield 132, rva
        ends = [it for it in (start, end) if it]
        if any(not 0 <= it - self.base <= self.size for it in ends) or self.leads_nowhere(fields.get("AddressOfIndex", 0)):
            yield 133, rva
        if self.leads_nowhere(fields.get("AddressOfCallBacks", 0)):
            yield 134, rva
        first, found, is_ended = self.callbacks() or (0, [], True)
        if not is_ended:
            yield 135, first
        for at, callback in found:
            if self.leads_nowhere(callback):
                yield 136, at

    # ---- load configuration

    def structure(self, index):
        """The bytes of a structure whose first field is its size, and that size; None if the file does not hold that field."""
        rva = self.image.directory(index)[0]
        held = self.held(rva) if rva else b""
        return (held[: uint(held, 0, 4)], uint(held, 0, 4), len(held)) if len(held) >= 4 else None

    def load(self):
        """The fields of the load configuration that are whole, in the order of "PE Format"."""
        found = self.structure(LOAD)
        fields, at = {}, 0
        for word in LOAD_FIELDS if found else ():
            kind, name = word.split(":")
            width = self.width if kind == "a" else int(kind)
            place = {"ProcessAffinityMask": 48, "ProcessHeapFlags": 44}.get(name, at) if self.width == 4 else at
            if place + width <= len(found[0]):
                fields[name] = uint(found[0], place, width)
            at += width
        return fields

    def passes(self, fields, table):
        """Whether a table of the load configuration has entries and is not all in one run."""
        address, count = fields.get(table, 0), fields.get(table.replace("Table", "Count"))
        if not address or not count:
            return False
        stride = 4 if table == "SEHandlerTable" else 4 + (fields.get("GuardFlags", 0) >> 28)
        rva = self.rva_of(address)
        return rva is None or len(self.held(rva)) // stride < count

    def load_findings(self):
        rva, found = self.image.directory(LOAD)[0], self.structure(LOAD)
        if not rva or not found:
            yield from [(141, rva)] if rva else []
            return
        _, size, held = found
        if held < size:
            yield 142, rva
        if size < 4:
            yield 143, rva
        fields = self.load()
        yield from ((number, rva) for number, tables in GUARDED.items() if any(self.passes(fields, table) for table in tables))

    # ---- bound imports and the CLR header

    def bound(self):
        """The records before the first of zeros, and whether there is such a one."""
        records = self.records(BOUND, "<IHH")
        for k, (_, record) in enumerate(records):
            if not any(record):
                return records[:k], True
        return records, False

    def bound_findings(self):
        rva = self.image.directory(BOUND)[0]
        records, is_ended = self.bound()
        if rva and not is_ended:
            yield 151, rva
        yield from ((152, at) for at, record in records if not self.is_inside(rva + record[1], 1))

    def clr_findings(self):
        rva, found = self.image.directory(CLR)[0], self.structure(CLR)
        if not rva or not found:
            yield from [(251, rva)] if rva else []
            return
        header, size, held = found
        if held < size:
            yield 251, rva
        pairs = [(uint(header, at, 4), uint(header, at + 4, 4)) for at in (8, 24, 32, 40, 48, 56, 64) if at + 8 <= len(header)]
        if any(at and not self.is_inside(at, length) for at, length in pairs):
            yield 252, rva


# ---- rows


def counted(count, one, more=None):
    return f"{count:,} {one if count == 1 else more or one + 's'}"


def table_of(number):
    """The directory of a finding's table; the Rich header has none."""
    ends = {110: DEBUG, 130: EXCEPTION, 140: TLS, 150: LOAD, 160: BOUND, 170: DELAY, 220: pages_resources.RESOURCE, 240: CERTIFICATE, 250: None, 260: CLR, 270: None}
    return next(index for end, index in ends.items() if number <= end)


def file_name(path):
    return path.replace(b"/", b"\\").split(b"\\")[-1]


def summary(tables, index, shown):
    """What a page says of a table, and how many findings it has."""
    functions, structure = tables.functions(), tables.structure(index) if index in (LOAD, CLR) else None
    words = "not read"
    if index == DEBUG:
        pdb = tables.pdb()
        words = counted(len(tables.entries()), "entry", "entries") + (f", PDB {shown(file_name(pdb[3]))}" if pdb else "")
    elif index == pages_resources.RESOURCE:
        words = pages_resources.summary(tables.resources, shown)
    elif index == EXCEPTION and functions is not None:
        words = counted(len(functions), "function")
    elif index == TLS:
        words = counted(len((tables.callbacks() or (0, []))[1]), "callback")
    elif index == LOAD:
        size = tables.load().get("Size")
        words = "no field" if size is None else f"{size} bytes"
    elif index == BOUND:
        words = counted(len(tables.bound()[0]), "record")
    elif index == DELAY:
        words = counted(len(tables.delayed.imports), "import")
    elif index == CLR:
        header = structure[0] if structure else b""
        words = f"runtime {uint(header, 4, 2)}.{uint(header, 6, 2)}" if len(header) >= 8 else "no version"
    count = sum(table_of(number) == index for number, _ in [*tables.findings, *tables.trust])
    return words + (f", {counted(count, 'finding')}" if count else "")


def identity_rows(tables, shown):
    pdb, rows = tables.pdb(), list(pages_resources.identity_rows(tables.resources, shown))
    if pdb or rows:
        yield "\nIdentity"
    yield from rows
    if pdb is None:
        return
    kind, raw, age, path = pdb
    yield f"  PDB          {shown(path)}"
    if kind == "RSDS":
        key = (raw[3::-1] + raw[5:3:-1] + raw[7:5:-1] + raw[8:]).hex()
        yield f"  GUID         {'-'.join((key[:8], key[8:12], key[12:16], key[16:20], key[20:]))}, age {age}"
    else:
        key = raw[::-1].hex()
        made = datetime.datetime.fromtimestamp(int(key, 16), datetime.timezone.utc)
        yield f"  Made         {made:%Y-%m-%d %H:%M:%S} UTC (0x{key}), age {age}"
    yield f"  Symbol key   {shown(file_name(path))}/{key.upper()}{age:x}"


def data_words(tables, entry, shown):
    """What a row says of the data of an entry."""
    kind, size, _, pointer = entry
    data = tables.data(entry)
    if data is None:
        return "not in the file" if pointer == 0 else "past the end of the file"
    numbers = struct.unpack_from("<5I", data) if len(data) >= 20 else None
    name, _, checksum = data[:128].partition(b"\0")
    words = ""
    if kind == 2:
        view = tables.code_view(entry)
        words = shown(view[3].split(b"\0")[0]) if view else "no PDB"
    elif kind == 16 and len(data) >= 4 and 4 + uint(data, 0, 4) <= len(data):
        words = data[4 : 4 + min(64, uint(data, 0, 4))].hex()
    elif kind == 19 and b"\0" in data[:128]:
        words = f"{shown(name)} {checksum[:64].hex()}"
    elif kind == 12 and numbers:
        words = "before VC 11: {}, C and C++: {}, /GS: {}, /sdl: {}, guarded: {}".format(*numbers)
    elif kind in (13, 20) and len(data) >= 4:
        words = f"{'signature' if kind == 13 else 'flags'} 0x{uint(data, 0, 4):x}"
    return words


def debug_rows(tables, shown):
    entries = tables.entries()
    if not entries:
        return
    yield from (f"\nDebug directory ({len(entries):,})", f"   #  {'type':21}  {'RVA':11}{'file':11}bytes")
    for k, (_, entry) in enumerate(entries):
        kind, size, rva, pointer = entry
        words = data_words(tables, entry, shown)
        row = f"{k:4}  {TYPES.get(kind, f'type {kind}'):21}  0x{rva:06x}   0x{pointer:06x}   0x{size:04x}"
        yield row + (f"   {words}" if words else "")


def function_rows(tables, place, words):
    """The rows of functions, each with its unwind information below it if `words`, which has the words of findings, is there."""
    functions = tables.functions()
    if not functions:
        return
    width = max(6, len(f"{tables.size:x}"))
    yield f"\nFunctions ({len(functions):,})"
    if tables.machine == 0x8664:
        yield "  begin     end       unwind    place"
        for _, record in functions:
            yield "  " + "  ".join(f"0x{it:0{width}x}" for it in record) + f"  {place(record[0])}"
            yield from pages_unwind.lines(tables, record, place, words) if words else []
        return
    yield "  begin     unwind             place"
    for _, (begin, unwind) in functions:
        yield f"  0x{begin:0{width}x}  {'packed' if unwind % 4 else 'record'} 0x{unwind:08x}  {place(begin)}"
        yield from pages_unwind.arm_lines(tables, unwind, place) if words and tables.machine == 0xAA64 else []


def function_words(tables, rva):
    """The first function of AMD64 that has a place, its frame and its handler."""
    if tables.machine != 0x8664:
        return ""
    found = [record for _, record in tables.functions() if record[0] <= rva < record[1]]
    return "  function 0x{:x} to 0x{:x}".format(*found[0]) + pages_unwind.frame_words(tables, found[0][2]) if found else ""


def tls_rows(tables, place):
    fields = tables.tls()
    if fields is None:
        return
    yield "\nTLS directory"
    yield from (f"  {name:21}  0x{value:x}" for name, value in fields.items())
    for _, callback in (tables.callbacks() or (0, []))[1]:
        yield f"  callback 0x{callback:x}  {place(tables.rva_of(callback) if tables.rva_of(callback) is not None else 1 << 32)}"


def load_rows(tables):
    fields = tables.load()
    if tables.structure(LOAD):
        yield f"\nLoad configuration ({len(fields)})"
        yield from (f"  {name:40}  0x{value:x}" for name, value in fields.items())


def rows(tables, wanted, shown, place, unsafe, words):
    """The rows of the tables that options select. `unsafe` finds characters that are not to be written to a terminal; `words` has what
    findings say."""
    if "debug" in wanted:
        yield from debug_rows(tables, shown)
    if "functions" in wanted or "unwind" in wanted:
        yield from function_rows(tables, place, words if "unwind" in wanted else None)
    if "tls" in wanted:
        yield from tls_rows(tables, place)
    if "load" in wanted:
        yield from load_rows(tables)
    if "resources" in wanted:
        yield from pages_resources.rows(tables.resources, shown, unsafe)


def finding_rows(findings, trust, words):
    """The row of each finding on tables, at an RVA, of the symbol table and of what the file says of itself, at an offset in it; `words` gives what is at its
    place, and what is wrong."""
    rows = [(number, f"0x{at:x}" if number in pages_symbols.NUMBERS else f"RVA 0x{at:x}") for number, at in findings]
    rows += [(number, f"0x{at:x}") for number, at in trust]
    if rows:
        yield f"\nFindings ({len(rows):,})"
    for number, place in rows:
        subject, rule = words(number)
        yield f"  {number}  {subject} at {place}: {rule}"
