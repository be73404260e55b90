"""Reads what an image's file says of itself independently of petool, by docs/FORMAT.md, and makes its part of pages; for pages.py.

A file is bytes, and headers are those of pages_reader.py. The digests are Python's; the tags and object identifiers come from X.690,
RFC 2315, RFC 5280 and Microsoft's "Windows Authenticode Portable Executable Signature Format".
"""

import hashlib
import re
import struct

try:
    import ordlookup
except ImportError:
    ordlookup = None
from pages_reader import uint

CERTIFICATE = 4
#: The option of `show` that adds this part.
TRUST = ("trust",)
TYPES = {1: "X.509", 2: "PKCS #7", 4: "terminal server stack"}
#: Object identifiers: what a signature holds, and algorithms.
SIGNED_DATA, INDIRECT_DATA = bytes.fromhex("2a864886f70d010702"), bytes.fromhex("2b060104018237020104")
COMMON_NAME = bytes.fromhex("550403")
ALGORITHMS = {bytes.fromhex("2b0e03021a"): ("SHA-1", "sha1"), bytes.fromhex("608648016503040201"): ("SHA-256", "sha256"),
              bytes.fromhex("608648016503040202"): ("SHA-384", "sha384"), bytes.fromhex("608648016503040203"): ("SHA-512", "sha512")}


#: What an overlay begins with, if these bytes are at an offset of it.
OVERLAYS = ((4, b"\xef\xbe\xad\xdeNullsoftInst", "the data of an NSIS installer"), (0, b"7z\xbc\xaf\x27\x1c", "a 7-Zip archive"),
            (0, b";!@Install@!", "a 7-Zip archive"), (0, b"PK\3\4", "a ZIP archive"), (0, b"Rar!\x1a\7", "a RAR archive"),
            (0, b"MSCF", "a cabinet"), (0, b"\xd0\xcf\x11\xe0\xa1\xb1\x1a\xe1", "a compound file"), (0, b"MZ", "an executable file"))
#: The names of ordinals by module, which come with pefile; without it, the hash of an image that imports by such an ordinal is not known.
NAMED = ordlookup.ords if ordlookup else dict.fromkeys((b"oleaut32.dll", b"ws2_32.dll", b"wsock32.dll"))


class Unread(Exception):
    """Bytes that are not those of the element that is wanted."""


def element(data):
    """The tag and the content of the first element in DER, and what is after it."""
    if len(data) < 2 or data[0] % 32 == 31 or data[1] == 0x80 or data[1] > 0x84:
        raise Unread
    more = data[1] - 0x80 if data[1] >= 0x80 else 0
    size = int.from_bytes(data[2 : 2 + more], "big") if more else data[1]
    if len(data) < 2 + more + size:
        raise Unread
    return data[0], data[2 + more : 2 + more + size], data[2 + more + size :]


def content(data, tag):
    found, inner, _ = element(data)
    if found != tag:
        raise Unread
    return inner


def after(data, *tags):
    """What is after elements with these tags."""
    for tag in tags:
        found, _, rest = element(data)
        if found != tag:
            raise Unread
        data = rest
    return data


def info(data, identifier):
    """What a ContentInfo of a type holds."""
    inner = content(data, 0x30)
    if content(inner, 6) != identifier:
        raise Unread
    return content(after(inner, 6), 0xA0)


def signed_digest(data):
    """The object identifier of the algorithm, and the digest that a signature signs, or None."""
    try:
        indirect = content(info(after(content(info(data, SIGNED_DATA), 0x30), 2, 0x31), INDIRECT_DATA), 0x30)
        digest = content(after(indirect, 0x30), 0x30)
        return content(content(digest, 0x30), 6), content(after(digest, 0x30), 4)
    except Unread:
        return None


def signers(data):
    """The subject, the issuer and the serial number of each certificate of a signature."""
    found = []
    try:
        rest = content(after(content(info(data, SIGNED_DATA), 0x30), 2, 0x31, 0x30), 0xA0)
        while rest:
            parts = content(content(rest, 0x30), 0x30)
            parts = after(parts, 0xA0) if parts[:1] == b"\xa0" else parts
            subject = after(parts, 2, 0x30, 0x30, 0x30)
            found.append((content(subject, 0x30), content(after(parts, 2, 0x30), 0x30), content(parts, 2)))
            rest = after(rest, 0x30)
    except Unread:
        pass
    return found


def common_name(name):
    """The bytes of the first common name that is the first attribute of its set, or None."""
    try:
        while name:
            try:
                attribute = content(content(name, 0x31), 0x30)
                if content(attribute, 6) == COMMON_NAME:
                    return element(after(attribute, 6))[1]
            except Unread:
                pass
            name = after(name, 0x31)
    except Unread:
        pass
    return None


class Trust:
    """The CheckSum of an image's file, its certificates and its Rich header, and what is wrong with these."""

    def __init__(self, file, headers):
        self.file, self.headers = file, headers
        self.pe = uint(file, 60, 4)
        self.entry = self.pe + 24 + (96 if headers.magic == 0x10B else 112) + 8 * CERTIFICATE
        self.has_entry = len(headers.directories) > CERTIFICATE
        # an offset or a Size of 0 is that of no table
        self.table = headers.directories[CERTIFICATE] if self.has_entry and all(headers.directories[CERTIFICATE]) else None
        self.certificates, self.stop = self.read_certificates()
        self.rich, self.mark = self.read_rich()
        self.findings = [*self.certificate_findings()] + ([(241, self.mark)] if self.mark is not None and self.rich is None else [])

    def check_sum(self):
        """Sixteen bits at a time, with each carry into the lowest bit; the field counts as 0. And the file's length."""
        data = bytearray(self.file) + bytes(len(self.file) % 2)
        data[self.pe + 88 : self.pe + 92] = bytes(4)
        total = sum(struct.unpack(f"<{len(data) // 2}H", data))
        while total > 0xFFFF:
            total = (total & 0xFFFF) + (total >> 16)
        return (total + len(self.file)) % 2**32

    def read_certificates(self):
        """The place, the length, the revision, the type and the bytes of each whole entry, and where the first is that is not whole."""
        if self.table is None:
            return [], 0
        at, end, found = self.table[0], min(len(self.file), sum(self.table)), []
        while at + 8 <= end and uint(self.file, at, 4) >= 8 and at + uint(self.file, at, 4) <= end:
            length, revision, kind = struct.unpack_from("<IHH", self.file, at)
            found.append((at, length, revision, kind, self.file[at + 8 : at + length]))
            at += length + -length % 8
        return found, at

    def shares(self, section):
        return section.pointer and self.table[0] < section.pointer + section.raw_size and section.pointer < sum(self.table)

    def certificate_findings(self):
        if self.table is None:
            return
        if sum(self.table) > len(self.file):
            yield 221, self.entry
        if self.stop < min(len(self.file), sum(self.table)):
            yield 222, self.stop
        if self.table[0] < self.headers.headers or any(self.shares(it) for it in self.headers.sections):
            yield 223, self.entry
        if self.table[0] % 8:
            yield 224, self.entry
        if self.message() is None:
            yield 225, self.entry

    def message(self):
        """What a signature signs, by Microsoft's text: the headers without CheckSum and the entry of directory 4, the raw data of each
        section in ascending order, and what comes after them but for as many bytes as the certificate table has; None if raw data leave a
        gap or overlap, or if the table is not after them at the end of the file."""
        end, size = self.headers.headers, self.table[1] if self.table else 0
        parts = [self.file[: self.pe + 88], self.file[self.pe + 92 : self.entry if self.has_entry else end]]
        if self.has_entry:
            parts.append(self.file[self.entry + 8 : end])
        for section in sorted((it for it in self.headers.sections if it.raw_size), key=lambda it: it.pointer):
            if section.pointer != end:
                return None
            end += section.raw_size
            parts.append(self.file[section.pointer : end])
        parts.append(self.file[end : len(self.file) - size])
        is_last = end <= self.table[0] and sum(self.table) == len(self.file) if size else end <= len(self.file)
        return b"".join(parts) if is_last and (not self.has_entry or self.entry + 8 <= self.headers.headers) else None

    def words(self, bound):
        return [uint(self.file, at, 4) for at in range(0x40, min(bound, len(self.file)) - 3, 4)]

    def read_rich(self):
        """The offset, the key and the pairs of the Rich header, or None; and where the last `Rich` is that has a key."""
        words = self.words(self.pe)
        marks = [k for k in range(len(words) - 1) if words[k] == 0x68636952]
        if not marks:
            return None, None
        mark, key = marks[-1], words[marks[-1] + 1]
        starts = [k for k in range(mark) if words[k] ^ key == 0x536E6144]
        if not starts:
            return None, 0x40 + 4 * mark
        inner = [word ^ key for word in words[starts[-1] + 4 : mark]]
        return (0x40 + 4 * starts[-1], key, list(zip(inner[::2], inner[1::2]))), 0x40 + 4 * mark

    def rich_sum(self):
        """What the key of the Rich header is to be."""
        start, _, pairs = self.rich
        turned = lambda number, count: (number << count % 32 | number >> (32 - count % 32)) & 0xFFFFFFFF  # noqa: E731
        total = start + sum(turned(byte, k) for k, byte in enumerate(self.file[:start]) if not 0x3C <= k < 0x40)
        return (total + sum(turned(tool, count) for tool, count in pairs)) & 0xFFFFFFFF


def counted(count, one):
    return f"{count:,} {one}" + ("" if count == 1 else "s")


def overlay(trust):
    """What is behind the end of the file by its headers: where, how many bytes, and what they begin with, or None."""
    headers, file = trust.headers, trust.file
    end = max([headers.headers, *(it.pointer + it.raw_size for it in headers.sections if it.pointer)])
    if len(file) <= end:
        return None
    if trust.table and trust.table[0] == end:
        words = "the certificate table"
    elif headers.symbols == end and headers.symbol_count:
        words = "the symbol table"
    else:
        words = next((words for at, mark, words in OVERLAYS if file[end + at : end + at + len(mark)] == mark), "other data")
    return end, len(file) - end, words


def overlay_rows(trust):
    found = overlay(trust)
    if found:
        yield f"  Overlay      {counted(found[1], 'byte')} at file 0x{found[0]:x}, begins with {found[2]}"


def known(name, allowed):
    return name[:512].lower() if re.fullmatch(rb"[A-Za-z0-9" + re.escape(allowed) + rb"]*", name[:512], re.S) else b"*invalid*"


def import_hash(imports):
    """The import hash, None without imports or of a text of more than 16 MB, or "" if there is an import by ordinal whose name is not known here."""
    texts, is_known = [], True
    for module, _, key in imports or ():
        module = known(module, b"!#$%&'()-@^_`{}~+,.;=[]\\/")
        names = NAMED.get(module, {})
        is_known = is_known and not (names is None and isinstance(key, int))
        symbol = (names or {}).get(key, b"ord%d" % key).lower() if isinstance(key, int) else known(key, b"._?@$()<>")
        texts.append(re.sub(rb"\.(dll|ocx|sys)\Z", b"", module) + b"." + symbol)
    text = b",".join(texts)
    if not text or len(text) > 16_777_216:
        return None
    return hashlib.md5(text).hexdigest() if is_known else ""


def import_hash_rows(imports):
    found = import_hash(imports)
    if found is not None:
        yield f"  Import hash  {found or 'of named ordinals'}"


def signature_rows(trust, data, shown):
    found = signed_digest(data)
    if found is None:
        yield "    no signed digest"
    elif found[0] not in ALGORITHMS:
        yield "    signed digest of an algorithm that is not computed"
    else:
        name, algorithm = ALGORITHMS[found[0]]
        message = trust.message()
        fits = "" if message is None else f", {'fits' if hashlib.new(algorithm, message).digest() == found[1] else 'does not fit'}"
        yield f"    signed digest {name}{fits}"
    for subject, issuer, serial in signers(data):
        names = ["no common name" if it is None else shown(it) for it in (common_name(subject), common_name(issuer))]
        yield f"    of {names[0]}, issued by {names[1]}, serial number 0x{serial[:64].hex()}"


def trust_rows(trust, shown, imports):
    """The rows of the part."""
    computed, field = trust.check_sum(), trust.headers.checksum
    words = "right" if computed == field else f"{'wrong' if field else 'not set'}, and 0x{computed:08x} would be right"
    yield from ("\nTrust", f"  CheckSum     0x{field:08x}, {words}")
    for at, length, revision, kind, data in trust.certificates:
        yield f"  Certificate  {TYPES.get(kind, f'type 0x{kind:04x}')}, revision 0x{revision:04x}, {counted(length, 'byte')} at file 0x{at:x}"
        if kind == 2:
            yield from signature_rows(trust, data, shown)
    yield from overlay_rows(trust)
    if trust.rich:
        at, key, pairs = trust.rich
        words = "right" if key == trust.rich_sum() else "wrong"
        yield f"  Rich header  {counted(len(pairs), 'tool')} at file 0x{at:x}, key 0x{key:08x}, {words}"
        for tool, count in pairs:
            yield f"    product 0x{tool >> 16:04x} build {tool & 0xFFFF}, {counted(count, 'object')}"
    yield from import_hash_rows(imports)
