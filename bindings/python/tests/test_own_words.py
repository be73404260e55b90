"""What an image's file says of itself, in Python: CheckSum, certificates, signatures and their digests, Rich header, overlay and findings, of
files that are put together element by element, of files that are refused behind their headers, and as pefile reads them."""

import contextlib
import hashlib
import struct
import time
import unittest

import petool

from . import data
from .files import changed, importing, numbers, put, with_data
from .test_sum import sum_of
from .test_trust import (
    END,
    ENTRY,
    FIELD,
    FOUND,
    HASHES,
    ISSUER,
    PAIRS,
    SHA1,
    SHA224,
    SHA256,
    SHA384,
    SHA512,
    SIZE,
    SOUND,
    SUBJECT,
    at_nothing,
    certificate,
    digest_of,
    each_byte_changed,
    element,
    entry,
    found_of,
    image,
    moved_over_code,
    named,
    rich,
    sectioned,
    signature,
    signed,
    with_table,
)

try:
    import pefile
except ImportError:
    pefile = None

KNOWN = (SHA1, SHA256, SHA384, SHA512)


def trust(file):
    return contextlib.closing(petool.Trust(file))


def refused(file):
    """The same file with a section whose raw data passes its end, which is fault 13."""
    count, headers = b"\1", numbers(END + 40)
    return bytes(put(bytearray(file).ljust(END + 40, b"\0"), (0x46, count), (0x94, headers), (END, bytes(8) + numbers(0x1000, 0x1000, 0x1000, 0x100000))))


class OwnWords(unittest.TestCase):
    maxDiff = None

    def signatures(self, file):
        with trust(file) as it:
            return it.authenticode

    def test_check_sum(self):
        for field in (0, 1, 0xFFFFFFFF):
            for after in (b"", b"\1", b"\xff" * 77):
                file = image(field=field, after=after)
                with self.subTest((field, after)), trust(file) as it:
                    self.assertEqual(it.check_sum, (field, sum_of(file, FIELD)))
                    self.assertEqual(it.check_sum_computed, sum_of(file, FIELD))

    def test_an_image_has_the_same(self):
        with petool.Image(signed(SHA256, before=b"more")) as it, trust(signed(SHA256, before=b"more")) as other:
            for name in ("check_sum", "certificates", "authenticode", "overlay", "rich"):
                self.assertEqual(getattr(it, name), getattr(other, name))
            self.assertEqual(it.check_sum_computed, other.check_sum.computed)
            self.assertEqual(it.check_sum.written, it.headers.check_sum)
            self.assertEqual(it.authenticode_digest("sha1"), other.authenticode_digest("sha1"))

    def test_certificates(self):
        table = entry(b"1234567", 1, 0x100) + entry(b"", 0xEF1) + entry(b"\0" * 9)
        with trust(image(table, after=b"more")) as it:
            self.assertEqual(
                it.certificates,
                ((END, b"1234567", 15, 0x100, 1), (END + 16, b"", 8, 0x200, 0xEF1), (END + 24, bytes(9), 17, 0x200, 2)),
            )
        with trust(image(entry(b"", 1) * 5 + numbers(7, 0x20200))) as it:
            self.assertEqual([row.offset for row in it.certificates], [END + 8 * k for k in range(5)])
        with trust(image()) as it:
            self.assertEqual((it.certificates, it.authenticode), ((), ()))

    def test_signed_digests(self):
        for algorithm in KNOWN:
            name, empty = HASHES[algorithm], bytes(hashlib.new(HASHES[algorithm]).digest_size)
            for change, fits in [(b"", True), (b"\1\2", False), (empty, False), (empty + b"\0" * 100, False)]:
                with self.subTest((name, change)):
                    file = signed(algorithm, change=change, before=b"what is before the table counts")
                    wanted, at = digest_of(file, algorithm), struct.unpack_from("<I", file, ENTRY)[0]
                    self.assertEqual(self.signatures(file), ((at, name, change or wanted, fits, ()),))
                    with trust(file) as it:
                        self.assertEqual(it.authenticode_digest(name), wanted)

    def test_each_byte_that_is_signed_counts(self):
        for at, other, fits in each_byte_changed():
            with self.subTest(at):
                self.assertEqual([it.fits for it in self.signatures(other)], [fits])

    def test_other_signatures(self):
        (other,) = self.signatures(signed(SHA224))
        self.assertEqual((other.algorithm, other.fits, len(other.digest)), (None, None, 28))
        for content in (b"", b"\x30", b"\x30\x80\0\0", b"\x30\x85\0\0\0\0\1\0", signature(SHA1, bytes(20))[:-1], element(0x31)):
            with self.subTest(content):
                self.assertEqual(self.signatures(image(entry(content))), ((END, None, b"", None, ()),))
        # a certificate of another type is no signature
        self.assertEqual(self.signatures(image(entry(signature(SHA1, bytes(20)), 1))), ())

    def test_many_signatures(self):
        table = b"".join(entry(signature(kind, bytes(size))) + entry(b"", 1) for kind, size in [(SHA1, 20), (SHA224, 28), (SHA512, 64)] * 3)
        found = self.signatures(image(table))
        self.assertEqual([it.algorithm for it in found], ["sha1", None, "sha512"] * 3)
        self.assertEqual([it.fits for it in found], [False, None, False] * 3)

    def test_signers(self):
        own = certificate(b"\x12\x34", ISSUER, SUBJECT)
        other = certificate(b"\0\xff", named(("550406", b"DE")), named(("550403", b"\x1b[31m")))
        (found,) = self.signatures(signed(SHA1, own, other))
        self.assertEqual([(it.serial, it.issuer_name, it.subject_name) for it in found.signers], [(0x1234, b"A Root", b"An Author"), (0xFF, b"", b"\x1b[31m")])
        self.assertEqual((found.signers[0].issuer, found.signers[0].subject), (ISSUER[2:], SUBJECT[2:]))
        self.assertEqual(len(self.signatures(signed(SHA1, own, b"\x30\x03\x02\x01", own))[0].signers), 1)
        self.assertEqual(len(self.signatures(signed(SHA1, *[own] * 7))[0].signers), 7)

    def test_a_table_that_signs_nothing(self):
        file = signed(SHA256)
        size = struct.unpack_from("<I", file, ENTRY + 4)[0]
        for pieces in ((ENTRY, numbers(ENTRY + 7)), (ENTRY + 4, numbers(size + 1)), (ENTRY + 4, numbers(0xFFFFFFFF))):
            with self.subTest(pieces), trust(bytes(put(bytearray(file), pieces))) as it:
                self.assertEqual([it.authenticode_digest(name) for name in ("sha1", "sha256", "sha384", "sha512")], [None] * 4)
                self.assertEqual({row.fits for row in it.authenticode} - {None}, set())

    def test_code_that_was_not_signed_fits_nothing(self):
        for file, fits, is_told in zip(moved_over_code(), (True, None), (True, False)):
            with trust(file) as it:
                self.assertEqual([row.fits for row in it.authenticode], [fits])
                self.assertEqual(it.authenticode_digest() is not None, is_told)
                self.assertEqual(225 in [row.number for row in it.findings], not is_told)

    def test_an_unsigned_file_has_a_digest_unless_that_is_ambiguous(self):
        for file, is_told in [(sectioned(SIZE), True), (sectioned(2 * SIZE, SIZE), True), (sectioned(SIZE) + b"more", True), (sectioned(SIZE, SIZE), False),
                              (sectioned(3 * SIZE, SIZE), False), (sectioned(SIZE)[:-1], False)]:
            # a Size at the offset 0 is no table either
            for unsigned in (file, at_nothing(file, 8), at_nothing(file, 0xFFFFFFFF)):
                with trust(unsigned) as it:
                    self.assertEqual(it.authenticode_digest(), digest_of(unsigned, SHA256) if is_told else None)
                    self.assertEqual((it.certificates, it.authenticode, it.findings), ((), (), ()))

    def test_algorithms(self):
        with trust(image()) as it:
            self.assertEqual(it.authenticode_digest(), it.authenticode_digest("sha256"))
            for name in ("md5", "SHA256", "", "sha224"):
                with self.assertRaises(ValueError):
                    it.authenticode_digest(name)

    def test_rich_header(self):
        file, key = rich(PAIRS)
        with trust(file) as it:
            self.assertEqual(it.rich, (0x40, key, key, ((0x105, 27412, 13), (0xAB, 40219, 1))))
        other = rich(PAIRS, key=0x89ABCDEF)[0]
        with trust(other) as it:
            self.assertEqual(it.rich[:2], (0x40, 0x89ABCDEF))
            self.assertEqual(it.rich.pairs, ((0x105, 27412, 13), (0xAB, 40219, 1)))
        with trust(rich([])[0]) as it:
            self.assertEqual(it.rich.pairs, ())
        with trust(rich(PAIRS, start=b"DanT")[0]) as it:
            self.assertIsNone(it.rich)

    def test_overlay(self):
        for file in (image(), image(after=b"1234567"), image(entry(b"")), refused(image(after=bytes(100)))):
            end = struct.unpack_from("<I", file, 0x94)[0]
            end = max(end, 0x101000) if file[0x46] else end
            with self.subTest(len(file)), trust(file) as it:
                self.assertEqual(it.overlay[:2], (end, max(len(file) - end, 0)))
        # raw data that ends the file: v1.dll has 16 bytes at 0x200
        with petool.Image(data("v1.dll") + b"overlay") as it:
            self.assertEqual(it.overlay.size, len(data("v1.dll")) + 7 - it.overlay.offset)

    def test_what_an_overlay_begins_with(self):
        for after, words in [(b"", None), (b"PK\3\4", "ZIP archive"), (b"\1\0\0\0\xef\xbe\xad\xdeNullsoftInst", "NSIS installer data"), (b"7z\xbc\xaf\x27\x1c", "7-Zip archive"),
                             (b"Rar!\x1a\7", "RAR archive"), (b"MSCF", "cabinet"), (b"\xd0\xcf\x11\xe0\xa1\xb1\x1a\xe1", "compound file"), (b"MZ", "executable file"),
                             (b"?", "other data")]:
            with self.subTest(after), trust(image(after=after)) as it:
                self.assertEqual(it.overlay.begins_with, words)
        with trust(image(entry(b""))) as it:
            self.assertEqual(it.overlay.begins_with, "certificate table")
        symbols = bytes(put(bytearray(image(after=bytes(36))), (0x4C, numbers(END, 2))))
        with trust(symbols) as it:
            self.assertEqual(it.overlay.begins_with, "symbol table")

    def test_import_hash(self):
        """The hashes are pefile's."""
        for name, wanted in [("v1.dll", None), ("vd.dll", "f0ae30626674b4e48c105b7ebf69bd29"), ("vs.dll", "844dc1b956c30dfd7c727c5edbc4be84")]:
            with self.subTest(name), trust(data(name)) as it, petool.Image(data(name)) as same:
                self.assertEqual((it.import_hash, same.import_hash), (wanted, wanted))
        file = importing((b"WS2_32.dll", [115, 3]), (b"b.dll", [4]))
        with petool.Image(file) as it:
            self.assertEqual(it.import_hash, hashlib.md5(b"ws2_32.wsastartup,ws2_32.closesocket,b.ord4").hexdigest())
        # the import table passes the image, which is fault 24
        with trust(changed("vd.dll", (0xD0, numbers(0x7FFFFFF0)), size=None)) as it, self.assertRaises(petool.FormatFault):
            it.import_hash

    def test_import_hash_of_as_many_bytes_as_count(self):
        """Of 16,777,216 bytes of names there is a hash, and of one more there is none: 32,577 imports of one long name, and another."""
        for last, is_told in ((59, True), (60, False)):
            long, short = 0x1000 + 40 + 2, 0x1000 + 40 + 2 + 515
            lookups = 0x1000 + 40 + 2 + 515 + 80
            entries = numbers(*[long] * 32577, short, 0)
            names = b"k\0" + b"\0\0" + b"E" * 512 + b"\0" + (b"\0\0" + b"F" * last + b"\0").ljust(80, b"\0")
            section = numbers(lookups, 0, 0, 0x1000 + 40, 0x40000) + bytes(20) + names + entries
            file = with_data([(0x90, numbers(0x80000)), (0xC0, numbers(0x1000, 20))], section)
            text = b",".join([b"k." + b"e" * 512] * 32577 + [b"k." + b"f" * last])
            self.assertEqual(len(text), 16_777_157 + last)
            with self.subTest(last), trust(file) as it, petool.Image(file) as same:
                wanted = hashlib.md5(text).hexdigest() if is_told else None
                self.assertEqual((it.import_hash, same.import_hash), (wanted, wanted))

    def test_findings(self):
        for number, file, place in FOUND:
            with self.subTest((number, place)):
                wanted = tuple((it, petool.Place.FILE, at) for it, at in found_of(number, place))
                with trust(file) as it:
                    self.assertEqual(it.findings, wanted)
                    self.assertIn(f" at 0x{place:x}: ", str(it.findings[0]))
                with petool.Image(file) as it:
                    self.assertEqual(it.findings, wanted)
        for number, file in enumerate(SOUND):
            with self.subTest(number), trust(file) as it, petool.Image(file) as same:
                self.assertEqual((it.findings, same.findings), ((), ()))

    def test_findings_are_by_number(self):
        """Of the debug directory, the certificate table and the CLR header, whose RVAs nothing is at."""
        file = bytearray(image_of_all())
        with petool.Image(file) as it:
            numbers_of = [found.number for found in it.findings]
            self.assertEqual(numbers_of, sorted(numbers_of))
            self.assertEqual({101, 224, 251} - set(numbers_of), set())
        with trust(file) as it:
            self.assertEqual([found.number for found in it.findings], [it for it in numbers_of if 221 <= it <= 241])

    def test_a_refused_image(self):
        file = refused(signed(SHA1, certificate(b"\1", ISSUER, SUBJECT))[:END])
        with self.assertRaises(petool.FormatFault) as caught:
            petool.Image(file)
        self.assertEqual(caught.exception.number, 13)
        with trust(file) as it:
            self.assertEqual(it.check_sum, (0, sum_of(file, FIELD)))
            self.assertEqual(it.overlay.size, 0)
            self.assertIsNone(it.rich)
        for size in (0, 63, END - 1):
            with self.assertRaises(petool.FormatFault) as caught:
                petool.Trust(file[:size], file="a.dll")
            self.assertIn(caught.exception.number, range(1, 13))
            self.assertEqual(caught.exception.file, "a.dll")

    def test_closed(self):
        it = petool.Trust(image())
        it.close()
        for name in ("check_sum", "certificates", "authenticode", "overlay", "rich", "findings", "import_hash"):
            with self.subTest(name), self.assertRaises(ValueError):
                getattr(it, name)

    def test_many_entries_cost_no_more_than_their_bytes(self):
        """Each is a signature of a file of 4 MB, which is read once."""
        file = with_table(image() + bytes(1 << 22), entry(signature(SHA256, bytes(32))) * 20000)
        start = time.process_time()
        found = self.signatures(file)
        self.assertEqual((20000, {False}), (len(found), {it.fits for it in found}))
        self.assertLess(time.process_time() - start, 30)


def image_of_all():
    """An image of PE32 with 16 directories, of which 4, 6 and 14 lead to nothing."""
    file = bytearray(image(entry(b""), at=0x204))
    file[0xB4] = 16
    put(file, (0x54, b"\xe0\0"), (0x94, numbers(0x138)))
    put(file, (0xB8 + 8 * 4, numbers(0x204, 8)), (0xB8 + 8 * 6, numbers(0x800, 28)), (0xB8 + 8 * 14, numbers(0x800, 72)))
    return bytes(file)


if pefile is not None:  # another reader of the same, where it is installed

    class AsPefileHasThem(unittest.TestCase):
        def test_images(self):
            for file in (image(field=9), signed(SHA256, before=b"more"), data("v1.dll"), data("v3.dll") + b"overlay"):
                theirs = pefile.PE(data=file)
                with self.subTest(len(file)), trust(file) as it:
                    self.assertEqual(it.check_sum, (theirs.OPTIONAL_HEADER.CheckSum, theirs.generate_checksum()))
                    self.assertEqual(it.overlay.size, len(theirs.get_overlay() or b""))


if __name__ == "__main__":
    unittest.main()
