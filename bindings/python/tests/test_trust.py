"""What a file says of itself on pages: CheckSum, certificates, the digest that a signature signs, the overlay, the Rich header and the
import hash; and each finding on these by a file of its own. The signatures are put together here, element by element, and their digests
are Python's."""

import hashlib
import json
import os
import pathlib
import re
import struct
import tempfile
import time
import unittest

from .cases import run
from .files import importing, numbers, put
from .finding_pages import words_of
from .test_program import NAMED as IMPORTS_NAME
from .test_program import image_of
from .test_sum import sum_of

PROGRAM = os.environ.get("PETOOL_PROGRAM")

#: The fields CheckSum, directory 4 and the end of the headers of the images here, all of PE32 with 5 directories.
FIELD, ENTRY, END = 0x98, 0xD8, 0xE0
SHA1, SHA256 = bytes.fromhex("2b0e03021a"), bytes.fromhex("608648016503040201")
SHA384, SHA512 = bytes.fromhex("608648016503040202"), bytes.fromhex("608648016503040203")
SHA224 = bytes.fromhex("608648016503040204")
HASHES = {SHA1: "sha1", SHA224: "sha224", SHA256: "sha256", SHA384: "sha384", SHA512: "sha512"}
NAMES = {SHA1: "SHA-1", SHA256: "SHA-256", SHA384: "SHA-384", SHA512: "SHA-512"}
SIGNED_DATA, INDIRECT_DATA = bytes.fromhex("2a864886f70d010702"), bytes.fromhex("2b060104018237020104")


def element(tag, *parts):
    """An element in DER."""
    content = b"".join(parts)
    size = len(content)
    return bytes([tag]) + (bytes([size]) if size < 128 else b"\x82" + size.to_bytes(2, "big")) + content


def named(*attributes):
    """A name: each attribute, an object identifier and a text, in a set of its own."""
    return element(0x30, *(element(0x31, element(0x30, element(6, bytes.fromhex(kind)), element(0x0C, text))) for kind, text in attributes))


def certificate(serial, issuer, subject):
    empty = element(0x30)
    return element(0x30, element(0x30, element(0xA0, element(2, b"\2")), element(2, serial), empty, issuer, empty, subject, empty))


def signature(algorithm, digest, *certificates):
    """An Authenticode signature of a digest, without the signature's own value."""
    info = element(0x30, element(0x30, element(6, algorithm)), element(4, digest))
    indirect = element(0x30, element(6, INDIRECT_DATA), element(0xA0, element(0x30, element(0x30), info)))
    data = element(0x30, element(2, b"\1"), element(0x31), indirect, element(0xA0, *certificates))
    return element(0x30, element(6, SIGNED_DATA), element(0xA0, data))


def entry(data, kind=2, revision=0x200):
    """An entry of the certificate table, with zeros up to a multiple of 8 after it."""
    head = struct.pack("<IHH", 8 + len(data), revision, kind)
    return (head + data).ljust(8 + len(data) + -len(data) % 8, b"\0")


def image(table=b"", at=END, size=None, after=b"", field=0):
    """An image that has only headers, with a certificate table at a file offset, of which directory 4 has this or another size."""
    size = len(table) if size is None else size
    file = bytearray(image_of(0x88, END, (0xB4, b"\5")))
    put(file, (FIELD, numbers(field)), (ENTRY, numbers(at if size else 0, size)))
    return bytes(file).ljust(at, b"\0") + table + after


def digest_of(file, algorithm):
    """The digest of what a signature of an image signs, whose table is after the headers and the raw data at the end of the file."""
    start, size = struct.unpack_from("<II", file, ENTRY)
    return hashlib.new(HASHES[algorithm], file[:FIELD] + file[FIELD + 4 : ENTRY] + file[ENTRY + 8 : start if start and size else len(file)]).digest()


def with_table(file, table):
    """A file with a certificate table at its end, padded before that to a multiple of 8."""
    at = len(file) + -len(file) % 8
    return bytes(put(bytearray(file), (ENTRY, numbers(at, len(table))))).ljust(at, b"\0") + table


def signed_file(file, algorithm, *certificates, change=b""):
    """A file that is signed by a signature that fits, but for a change of its digest."""
    size = len(entry(signature(algorithm, bytes(hashlib.new(HASHES[algorithm]).digest_size), *certificates)))
    digest = digest_of(with_table(file, bytes(size)), algorithm)
    return with_table(file, entry(signature(algorithm, change or digest, *certificates)))


def signed(algorithm, *certificates, change=b"", before=b""):
    """The same of an image that has only headers, with bytes behind them."""
    return signed_file(image() + before, algorithm, *certificates, change=change)


#: The sizes of the headers and of each section's raw data of the image here.
SIZE = 0x200


def sectioned(*pointers):
    """An image with a section of SIZE bytes at each of these file offsets, in the order of the section table."""
    count, end = len(pointers), max(pointers, default=0) + SIZE
    file = bytearray(image_of(0x88, SIZE, (0x46, bytes([count])), (0x90, numbers(0x1000 * (count + 1))), (0xB4, b"\5"))).ljust(end, b"\xcc")
    for k, pointer in enumerate(pointers):
        put(file, (END + 40 * k, b".text".ljust(8, b"\0") + numbers(SIZE, 0x1000 * (k + 1), SIZE, pointer)))
    return bytes(file)


def moved_over_code():
    """A signed image before and after its certificate table was moved to where the raw data of `.text` are, so that the code is what
    the table and the bytes behind it hold. What is signed by a rule that leaves out the table, wherever it is, is the same: the bytes
    that were signed are at the end of the file."""
    file = signed_file(sectioned(SIZE), SHA256)
    at, size = struct.unpack_from("<II", file, ENTRY)
    code, table = file[SIZE:at], file[at:]
    other = bytearray(file[:SIZE] + table + code)
    put(other, (ENTRY, numbers(SIZE, size)))
    return file, bytes(other)


def each_byte_changed():
    """A signed file with one of its bytes changed: its offset, the file, and whether the signature still fits."""
    file = signed(SHA256, before=b"more")
    table = struct.unpack_from("<I", file, ENTRY)[0]
    for at in (2, FIELD - 5, FIELD, FIELD + 3, FIELD + 4, ENTRY - 1, END, table - 1):
        other = bytearray(file)
        other[at] ^= 1
        yield at, bytes(other), FIELD <= at < FIELD + 4


ISSUER = named(("550406", b"DE"), ("550403", b"A Root"))
SUBJECT = named(("550403", b"An Author"), ("550406", b"DE"))

#: The words of a Rich header: the key, and pairs of a product and build, and a count.
PAIRS = [(0x01056B14, 13), (0x00AB9D1B, 1)]


def turned(number, count):
    return (number << count % 32 | number >> (32 - count % 32)) & 0xFFFFFFFF


def rich(pairs, key=None, start=b"DanS"):
    """An image of 0x100 bytes with a Rich header at 0x40, before its signature at 0x80; without a key with the right one."""
    file = bytearray(0x80) + image_of(0x60, 0xB8)[0x40:]
    file += bytes(-len(file) % 8)
    put(file, (0, b"MZ"), (0x3C, numbers(0x80)), (0xD4, numbers(len(file))))
    total = 0x40 + sum(turned(byte, k) for k, byte in enumerate(file[:0x40]) if not 0x3C <= k < 0x40)
    right = (total + sum(turned(tool, count) for tool, count in pairs)) & 0xFFFFFFFF
    key = right if key is None else key
    words = [int.from_bytes(start, "little"), 0, 0, 0, *(word for pair in pairs for word in pair)]
    put(file, (0x40, numbers(*(word ^ key for word in words)) + b"Rich" + numbers(key)))
    return bytes(file), key


#: What oleaut32.dll's ordinals 1, 2, 6, 58, 59, 115, 116, 149, 172, 173, 229, 230, 286, 287, 348, 349, 443, 444 and 65535 are in import hashes.
OLEAUT32 = ["ord1", "sysallocstring", "sysfreestring", "vari4fromui1", "vari4fromi2", "varbstrfromdisp", "varbstrfrombool", "sysstringbytelen", "varint",
            "varneg", "varbstrfromi1", "varbstrfromui2", "bstr_userfree", "variant_usersize", "vari4fromi8", "vari4fromui8",
            "unregistertypelibforuser", "ord444", "ord65535"]

def found_of(number, place):
    """A finding at a place, and 225 with those of a table that is not after the raw data at the end of the file."""
    return [(number, place), (225, ENTRY)] if number in (221, 223) else [(number, place)]


#: Each finding with files that meet it and no other, but for 225, and its place.
FOUND = [
    (221, image(entry(b""), size=9), ENTRY),
    (221, image(entry(b""), size=0xFFFFFFFF), ENTRY),
    (222, image(numbers(7, 0x20200)), END),
    (222, image(numbers(0, 0)), END),
    (222, image(numbers(0xFFFFFFFF, 0x20200)), END),
    (222, image(entry(b"") + numbers(9, 0x20200)), END + 8),
    (222, image(entry(b"") + numbers(8, 0)[:7]), END + 8),
    # SizeOfHeaders reaches over the table
    (223, bytes(put(bytearray(image(entry(b""))), (0x94, numbers(END + 8)))), ENTRY),
    (224, image(entry(b""), at=END + 4), ENTRY),
    # bytes behind the table; and sections that leave a gap, before or between them, or that overlap
    (225, image(entry(b""), after=b"m"), ENTRY),
    (225, with_table(sectioned(SIZE + 8), entry(b"")), ENTRY),
    (225, with_table(sectioned(3 * SIZE, SIZE), entry(b"")), ENTRY),
    (225, with_table(sectioned(SIZE, 2 * SIZE - 8), entry(b"")), ENTRY),
    (225, with_table(sectioned(SIZE, SIZE), entry(b"")), ENTRY),
    (241, rich(PAIRS, start=b"DanT")[0], 0x60),
    # the words before 0x40 do not count: with this key the offset of the signature reads DanS
    (241, bytes(put(bytearray(rich([])[0]), (0x40, bytes(0x40)), (0x60, b"Rich" + numbers(0x80 ^ 0x536E6144)))), 0x60),
]

#: Files without a finding.
SOUND = [image(), image(entry(b"")), image(entry(b"1234567") + entry(b"", 1)), image(entry(b""), at=END + 8), rich(PAIRS)[0],
         rich(PAIRS, key=0x12345678)[0], rich([])[0], with_table(sectioned(SIZE), entry(b"")), with_table(sectioned(2 * SIZE, SIZE), entry(b"")),
         # without a table nothing needs a digest
         sectioned(SIZE, SIZE), sectioned(3 * SIZE, SIZE)]


def at_nothing(file, size):
    """A file whose directory 4 has a Size and the offset 0, which is that of no table."""
    return bytes(put(bytearray(file), (ENTRY, numbers(0, size))))


SOUND += [at_nothing(file, size) for file in (image(after=b"more"), sectioned(SIZE), sectioned(SIZE, SIZE)) for size in (7, 8, len(file), 0xFFFFFFFF)]


@unittest.skipUnless(PROGRAM, "left out without program: PETOOL_PROGRAM names none")
class Trust(unittest.TestCase):
    maxDiff = None

    def setUp(self):
        folder = tempfile.TemporaryDirectory()
        self.addCleanup(folder.cleanup)
        self.folder = pathlib.Path(folder.name)

    def parts(self, file, *options, status=0):
        """The parts of the page of a file by their headings."""
        (self.folder / "a").write_bytes(file)
        done = run([PROGRAM, "show", *options, "a"], cwd=self.folder)
        self.assertEqual(status, done.returncode)
        blocks = [block.split("\n") for block in done.stdout.decode().strip("\n").split("\n\n")]
        return {block[0]: block[1:] for block in blocks}

    def trust(self, file, status=0):
        """The rows after that of CheckSum, but for that of the overlay."""
        rows = self.parts(file, "--trust", status=status)["Trust"][1:]
        return [row for row in rows if not row.startswith("  Overlay ")]

    def overlay(self, file):
        """The row of the overlay, if there is one."""
        return [row for row in self.parts(file, "--trust")["Trust"] if row.startswith("  Overlay ")]

    def test_each_finding_has_a_file(self):
        words = words_of()
        self.assertEqual({it[0] for it in FOUND}, {number for number in words if number in range(221, 251)})
        for number, file, place in FOUND:
            with self.subTest((number, place)):
                expected = [f"  {it}  {words[it][0]} at 0x{at:x}: {words[it][1]}" for it, at in found_of(number, place)]
                self.assertEqual(expected, self.parts(file, "--trust").get(f"Findings ({len(expected)})"))
                self.assertEqual([], [heading for heading in self.parts(file) if heading.startswith("Findings")])

    def test_files_without_a_finding(self):
        for number, file in enumerate(SOUND):
            with self.subTest(number):
                self.assertEqual([], [heading for heading in self.parts(file, "--all") if heading.startswith("Findings")])

    def test_a_finding_is_marked_at_its_directory(self):
        (row,) = self.parts(image(numbers(7, 0x20200)), "--trust")["Tables (1)"]
        self.assertRegex(row, r"^ +4  .*  not read, 1 finding$")

    def test_check_sum(self):
        for field, words in [(0, "not set, and 0x{:08x} would be right"), (1, "wrong, and 0x{:08x} would be right"), (None, "right")]:
            computed = sum_of(image(field=1), FIELD)
            field = computed if field is None else field
            with self.subTest(words):
                self.assertEqual([f"  CheckSum     0x{field:08x}, " + words.format(computed)], self.parts(image(field=field), "--trust")["Trust"])

    def test_the_part_is_asked_for(self):
        self.assertNotIn("Trust", self.parts(image()))
        self.assertIn("Trust", self.parts(image(), "--all"))

    def test_signed_digests(self):
        for algorithm in (SHA1, SHA256, SHA384, SHA512):
            for change, words in [(b"", "fits"), (b"\1\2", "does not fit"), (bytes(hashlib.new(HASHES[algorithm]).digest_size), "does not fit")]:
                with self.subTest((NAMES[algorithm], change)):
                    file = signed(algorithm, change=change, before=b"what is before the table counts")
                    at = struct.unpack_from("<I", file, ENTRY)[0]
                    length = struct.unpack_from("<I", file, at)[0]
                    self.assertEqual([f"  Certificate  PKCS #7, revision 0x0200, {length} bytes at file 0x{at:x}", f"    signed digest {NAMES[algorithm]}, {words}"],
                                     self.trust(file))

    def test_code_that_was_not_signed_fits_nothing(self):
        file, other = moved_over_code()
        self.assertEqual("    signed digest SHA-256, fits", self.trust(file)[1])
        self.assertEqual("    signed digest SHA-256", self.trust(other)[1])
        subject, rule = words_of()[225]
        self.assertIn(f"  225  {subject} at 0x{ENTRY:x}: {rule}", self.parts(other, "--trust")["Findings (2)"])

    def test_each_byte_that_is_signed_counts(self):
        for at, other, fits in each_byte_changed():
            with self.subTest(at):
                self.assertEqual(f"    signed digest SHA-256, {'fits' if fits else 'does not fit'}", self.trust(other)[1])

    def test_other_signatures(self):
        self.assertEqual("    signed digest of an algorithm that is not computed", self.trust(signed(SHA224))[1])
        for data in (b"", b"\x30", b"\x30\x80\0\0", b"\x30\x85\0\0\0\0\1\0", signature(SHA1, bytes(20))[:-1], element(0x31)):
            with self.subTest(data):
                self.assertEqual("    no signed digest", self.trust(image(entry(data)))[1])

    def test_certificates(self):
        own = certificate(b"\x12\x34", ISSUER, SUBJECT)
        other = certificate(b"\0\xff", named(("550406", b"DE")), named(("550403", b"\x1b[31m")))
        self.assertEqual(["    of An Author, issued by A Root, serial number 0x1234",
                          '    of "\\x1b[31m", issued by no common name, serial number 0x00ff'], self.trust(signed(SHA1, own, other))[2:])
        self.assertEqual(["    of An Author, issued by A Root, serial number 0x1234"], self.trust(signed(SHA1, own, b"\x30\x03\x02\x01", own))[2:])

    def test_types(self):
        kinds = {1: "X.509", 3: "type 0x0003", 4: "terminal server stack", 0xEF1: "type 0x0ef1"}
        table = b"".join(entry(b"", kind, 0x100) for kind in kinds)
        self.assertEqual([f"  Certificate  {name}, revision 0x0100, 8 bytes at file 0x{END + 8 * k:x}" for k, name in enumerate(kinds.values())],
                         self.trust(image(table)))

    def test_a_table_before_the_end_of_its_directory_signs_nothing(self):
        file = signed(SHA256)
        size = struct.unpack_from("<I", file, ENTRY + 4)[0]
        moved = bytearray(put(bytearray(file), (ENTRY, numbers(8))))
        self.assertEqual([], [row for row in self.trust(bytes(moved)) if "digest" in row])
        past = bytes(put(bytearray(file), (ENTRY + 4, numbers(size + 1))))
        self.assertEqual("    signed digest SHA-256", self.trust(past)[1])

    def test_a_table_at_offset_0_is_none(self):
        file = at_nothing(image(after=b"more"), END + 4)
        self.assertEqual([], self.trust(file))
        self.assertEqual([f"  Overlay      4 bytes at file 0x{END:x}, begins with other data"], self.overlay(file))
        self.assertEqual([f"file 0x{END:x}  overlay +0x0"], self.at(file, END))
        done = run([PROGRAM, "json", "--all", "a"], cwd=self.folder)
        line = json.loads(done.stdout.decode())
        self.assertEqual({"certificates", "findings"} & set(line), set())
        self.assertEqual(digest_of(file, SHA256).hex(), line["authenticode_sha256_hex"])
        self.assertEqual("other data", line["overlay"]["begins_with"])
        done = run([PROGRAM, "rebase", f"{0x20000000:x}", "a", "new"], cwd=self.folder)
        self.assertNotIn("certificate", done.stderr.decode())

    def test_rich_header(self):
        file, key = rich(PAIRS)
        pairs = ["    product 0x0105 build 27412, 13 objects", "    product 0x00ab build 40219, 1 object"]
        self.assertEqual([f"  Rich header  2 tools at file 0x40, key 0x{key:08x}, right", *pairs], self.trust(file))
        other = rich(PAIRS, key=0x89ABCDEF)[0]
        self.assertEqual(["  Rich header  2 tools at file 0x40, key 0x89abcdef, wrong", *pairs], self.trust(other))

    def test_overlays(self):
        """What is behind the end of the file by its headers, which here is that of SizeOfHeaders, by its first bytes."""
        self.assertEqual([], self.overlay(image()))
        nsis = b"\xef\xbe\xad\xdeNullsoftInst"
        marks = [(b"\2\0\0\0" + nsis, "the data of an NSIS installer"), (b"7z\xbc\xaf\x27\x1c", "a 7-Zip archive"), (b";!@Install@!", "a 7-Zip archive"),
                 (b"PK\3\4", "a ZIP archive"), (b"Rar!\x1a\7", "a RAR archive"), (b"MSCF", "a cabinet"), (b"\xd0\xcf\x11\xe0\xa1\xb1\x1a\xe1", "a compound file"),
                 (b"MZ", "an executable file"), (b"M", "other data"), (nsis, "other data"), (b"PK\5\6", "other data")]
        for mark, words in marks:
            for cut in (0, 1):
                with self.subTest((mark, cut)):
                    data, is_whole = mark[: len(mark) - cut] or b"?", cut == 0
                    expected = f"  Overlay      {len(data)} byte{'s' if len(data) > 1 else ''} at file 0xe0, begins with {words if is_whole else 'other data'}"
                    self.assertEqual([expected], self.overlay(image(after=data)))

    def test_overlays_that_headers_tell(self):
        row = "  Overlay      {} bytes at file 0xe0, begins with the {} table"
        self.assertEqual([row.format(8, "certificate")], self.overlay(image(entry(b""))))
        symbols = bytes(put(bytearray(image(after=b"MZ" + bytes(38))), (0x4C, numbers(END, 2))))
        self.assertEqual([row.format(40, "symbol")], self.overlay(symbols))
        for at, count in ((END, 0), (END + 1, 2)):
            other = bytes(put(bytearray(symbols), (0x4C, numbers(at, count))))
            self.assertEqual(["  Overlay      40 bytes at file 0xe0, begins with an executable file"], self.overlay(other))

    def at(self, file, *offsets, status=0):
        """What `at --file` prints for offsets of a file."""
        (self.folder / "a").write_bytes(file)
        done = run([PROGRAM, "at", "--file", "a", *(f"{it:x}" for it in offsets)], cwd=self.folder)
        self.assertEqual(status, done.returncode)
        return done.stdout.decode().splitlines()

    def test_offsets_behind_the_image(self):
        """The first and the last of each entry, of the table's bytes that are no entry, and of what is behind the table."""
        table = entry(b"12345") + entry(b"", 1)
        file = image(table + bytes(4), after=b"more")
        first = len(entry(b"12345"))
        self.assertEqual([f"file 0x{END:x}  certificate 0 +0x0", f"file 0x{END + 12:x}  certificate 0 +0xc", f"file 0x{END + 13:x}  certificate table +0xd",
                          f"file 0x{END + first:x}  certificate 1 +0x0", f"file 0x{END + first + 7:x}  certificate 1 +0x7",
                          f"file 0x{END + first + 8:x}  certificate table +0x{first + 8:x}", f"file 0x{END + first + 11:x}  certificate table +0x{first + 11:x}",
                          f"file 0x{END + first + 12:x}  overlay +0x{first + 12:x}", f"file 0x{len(file) - 1:x}  overlay +0x{len(file) - 1 - END:x}",
                          "the place is outside the image"],
                         self.at(file, END, END + 12, END + 13, END + first, END + first + 7, END + first + 8, END + first + 11, END + first + 12, len(file) - 1,
                                 len(file)))

    def test_offsets_in_the_symbol_table(self):
        file = bytes(put(bytearray(image(after=bytes(40))), (0x4C, numbers(END + 2, 2))))
        self.assertEqual([f"file 0x{END:x}  overlay +0x0", f"file 0x{END + 2:x}  symbol table +0x0", f"file 0x{END + 37:x}  symbol table +0x23",
                          f"file 0x{END + 38:x}  overlay +0x26"], self.at(file, END, END + 2, END + 37, END + 38))

    def import_hash(self, file):
        return [row for row in self.parts(file, "--trust")["Trust"] if row.startswith("  Import hash ")]

    def test_import_hashes(self):
        self.assertEqual([], self.import_hash(image()))
        cases = [
            (IMPORTS_NAME, "k.sleep"), (importing((b"MFC42.dll", [6394, 1])), "mfc42.ord6394,mfc42.ord1"),
            # the first and the last ordinals of each table of names, those beside them, and some between
            (importing((b"WS2_32.DLL", [1, 59, 60, 115, 116, 117, 151, 500, 501])),
             "ws2_32.accept,ws2_32.wsainstallserviceclassw,ws2_32.wsaioctl,ws2_32.wsastartup,ws2_32.wsacleanup,ws2_32.ord117,ws2_32.__wsafdisset,"
             "ws2_32.wep,ws2_32.ord501"),
            (importing((b"wsock32.dll", [23])), "wsock32.socket"),
            (importing((b"OLEAUT32.dll", [1, 2, 6, 58, 59, 115, 116, 149, 172, 173, 229, 230, 286, 287, 348, 349, 443, 444, 65535])),
             ",".join(f"oleaut32.{it}" for it in OLEAUT32)),
            (importing((b"oleaut32", [2])), "oleaut32.ord2"), (importing((b"A.OCX", [1]), (b"b.sys", [2]), (b"c.drv", [3]), (b"d.dll.dll", [4]), (b".dll", [5])),
                                                              "a.ord1,b.ord2,c.drv.ord3,d.dll.ord4,.ord5"),
            (importing((b"a b.dll", [1]), (b"a/b\\c.dll", [2]), (b"\xc4.dll", [3]), (b"!#$%&'()-@^_`{}~+,.;=[]", [4])),
             "*invalid*.ord1,a/b\\c.ord2,*invalid*.ord3,!#$%&'()-@^_`{}~+,.;=[].ord4"),
            # 512 bytes count
            (importing((b"A" * 600 + b".dll", [1])), "a" * 512 + ".ord1"), (importing((b"b" * 508 + b".dll", [1])), "b" * 508 + ".ord1"),
            (importing((b"c" * 512 + b"?", [1])), "c" * 512 + ".ord1"), (importing((b"c" * 511 + b"?", [1])), "*invalid*.ord1"),
        ]
        for file, text in cases:
            with self.subTest(text[:60]):
                self.assertEqual([f"  Import hash  {hashlib.md5(text.encode()).hexdigest()}"], self.import_hash(file))

    def test_names_of_symbols(self):
        for name, text in [(b"_a@8", "_a@8"), (b"?f@@YA", "?f@@ya"), (b"a.b<c>$(d)", "a.b<c>$(d)"), (b"a-b", "*invalid*"), (b"a b", "*invalid*"),
                           (b"E" * 700, "e" * 512)]:
            with self.subTest(name[:20]):
                file = IMPORTS_NAME + bytes(0x400)
                # SizeOfHeaders reaches over the name
                file = bytes(put(bytearray(file), (0x94, numbers(len(file))), (0x152, name + b"\0")))
                self.assertEqual([f"  Import hash  {hashlib.md5(f'k.{text}'.encode()).hexdigest()}"], self.import_hash(file))

    def test_an_image_that_is_refused_after_its_headers(self):
        """Its section passes the file."""
        file = bytearray(signed(SHA1, certificate(b"\1", ISSUER, SUBJECT)))
        size = struct.unpack_from("<I", file, ENTRY + 4)[0]
        put(file, (ENTRY, numbers(0, 0)))
        parts = self.parts(bytes(put(bytearray(file), (0x46, b"\1"), (0x94, numbers(0x108)), (0xE8, numbers(0x1000, 0, 0x1000, 0x100000)))), "--trust", status=1)
        self.assertTrue(parts["Trust"][0].startswith("  CheckSum     0x00000000, not set"), size)

    def test_a_hundred_thousand_entries_cost_no_more_than_their_bytes(self):
        """Each is a signature of a file of 4 MB, which is read once."""
        table = entry(signature(SHA256, bytes(32))) * 20000
        file = with_table(image() + bytes(1 << 22), table)
        start = time.process_time()
        rows = self.trust(file)
        self.assertEqual((40000, 20000), (len(rows), sum("SHA-256, does not fit" in row for row in rows)))
        self.assertLess(time.process_time() - start, 30)

    def test_words_of_the_help(self):
        done = run([PROGRAM, "show", "--help"])
        self.assertRegex(re.sub(r"\s+", " ", done.stdout.decode()), "--trust Prints CheckSum, certificates, whether the digest that they sign")


if __name__ == "__main__":
    unittest.main()
