"""What an image's file says of itself: its CheckSum, its certificates and signatures, its Rich header and its overlay."""

# the field `count` of a pair has the name of a method of tuples
# mypy: disable-error-code="assignment"

from __future__ import annotations

import ctypes
from typing import Dict, NamedTuple, Optional, Tuple

from . import _library, _records, _tables
from ._bytes import LAYOUTS, Buffer, RowLayout, read_rows
from ._file import OfFile
from ._library import library
from ._tables import Finding

# from describe/records.txt: digests
_DIGEST_NONE = 0  #: absent: none can be read
_DIGEST_SHA1 = 1  #: of SHA-1, with 20 bytes
_DIGEST_SHA256 = 2  #: of SHA-256, with 32 bytes
_DIGEST_SHA384 = 3  #: of SHA-384, with 48 bytes
_DIGEST_SHA512 = 4  #: of SHA-512, with 64 bytes
_DIGEST_OTHER = 5  #: of an algorithm that is not computed here
# end of describe/records.txt

# from describe/records.txt: overlays
_OVERLAY_NONE = 0  #: nothing: there is none
_OVERLAY_CERTIFICATES = 1  #: the certificate table, by directory 4
_OVERLAY_SYMBOL_TABLE = 2  #: the symbol table, by PointerToSymbolTable
_OVERLAY_NSIS = 3  #: the data of an NSIS installer
_OVERLAY_SEVEN_ZIP = 4  #: a 7-Zip archive, or the configuration of an installer that unpacks one
_OVERLAY_ZIP = 5  #: a ZIP archive
_OVERLAY_RAR = 6  #: a RAR archive
_OVERLAY_CABINET = 7  #: a cabinet
_OVERLAY_COMPOUND_FILE = 8  #: a compound file, such as a Windows Installer package
_OVERLAY_EXECUTABLE = 9  #: an executable file
_OVERLAY_OTHER = 10  #: something else
# end of describe/records.txt

# from describe/records.txt: fits
_FIT_NO = 0  #: that of other bytes
_FIT_YES = 1  #: that of the file
_FIT_UNKNOWN = 2  #: not compared: it is absent, not computed here, or what a signature signs is ambiguous
# end of describe/records.txt


#: The algorithms of digests by their names, as `hashlib` has them.
_ALGORITHMS: Dict[str, int] = {"sha1": _DIGEST_SHA1, "sha256": _DIGEST_SHA256, "sha384": _DIGEST_SHA384, "sha512": _DIGEST_SHA512}
_NAMES: Dict[int, str] = {number: name for name, number in _ALGORITHMS.items()}

#: What an overlay begins with, in words.
_OVERLAYS: Dict[int, str] = {
    _OVERLAY_CERTIFICATES: "certificate table",
    _OVERLAY_SYMBOL_TABLE: "symbol table",
    _OVERLAY_NSIS: "NSIS installer data",
    _OVERLAY_SEVEN_ZIP: "7-Zip archive",
    _OVERLAY_ZIP: "ZIP archive",
    _OVERLAY_RAR: "RAR archive",
    _OVERLAY_CABINET: "cabinet",
    _OVERLAY_COMPOUND_FILE: "compound file",
    _OVERLAY_EXECUTABLE: "executable file",
    _OVERLAY_OTHER: "other data",
}

#: Room for this many rows, before they are counted.
_GUESS = 4


class CheckSum(NamedTuple):
    """CheckSum of an image's file."""

    written: int  #: what the field holds; 0 if it was not set
    computed: int  #: what it is to hold


class Certificate(NamedTuple):
    """An entry of the certificate table."""

    offset: int  #: the file offset of its header of 8 bytes
    data: bytes  #: its content, behind that header
    length: int  #: its length, with the header
    revision: int  #: the revision of its form, such as 0x200
    kind: int  #: its type: 2 a signature (PKCS #7)


class Signer(NamedTuple):
    """A certificate that a signature has, by its parts in DER (X.509). Nothing says whether anybody is to be trusted."""

    serial: int  #: the serial number
    issuer: bytes  #: the content of the issuer's name
    subject: bytes  #: the content of the subject's name
    issuer_name: bytes  #: the common name of the issuer; empty if it has none
    subject_name: bytes  #: the common name of the subject; empty if it has none


class Signature(NamedTuple):
    """A signature of an image's file (Authenticode), and the digest that it signs. Whether it is valid is not asked."""

    offset: int  #: the file offset of its certificate
    algorithm: Optional[str]  #: that of the digest: "sha1", "sha256", "sha384" or "sha512"; None for another, or without a digest
    digest: bytes  #: the digest that it signs; empty if none can be read
    fits: Optional[bool]  #: whether that is the digest of the file; None if that is not known
    signers: Tuple[Signer, ...]  #: the certificates that the signature has


class RichPair(NamedTuple):
    """How many of an image's objects one version of a tool made."""

    # from describe/records.txt: rich_pair
    product: int  #: the number of the tool
    build: int  #: the number of its build
    count: int  #: how many objects it made
    # end of describe/records.txt


class Overlay(NamedTuple):
    """What an image's file has behind the bytes that its headers name."""

    # from describe/records.txt: overlay_range
    offset: int  #: where these bytes end
    size: int  #: how many bytes the file has from there on; 0 if it has no overlay
    kind: int  #: a PETOOL_OVERLAY: what the overlay begins with
    # end of describe/records.txt

    @property
    def begins_with(self) -> Optional[str]:
        """What it begins with, in words, such as "ZIP archive" or "other data"; None if there is no overlay."""
        return _OVERLAYS.get(self.kind)


class RichHeader(NamedTuple):
    """The Rich header, which says with which tools of Microsoft an image was made."""

    offset: int  #: the file offset of DanS, with which it begins
    key: int  #: its key, with which all of it is exclusive-or'ed
    computed: int  #: what the key is to be: a sum of the bytes before it and of its pairs
    pairs: Tuple[RichPair, ...]  #: which tool made how many of the image's objects


class TrustOfFile(OfFile):
    """What an image's file says of itself. It needs the headers alone, so that an image has it whose sections or tables have faults."""

    def _own_rows(self, name: str, layout: RowLayout) -> memoryview:
        return read_rows(layout, _GUESS, lambda *rows: self._ask(getattr(library, "petool_" + name), *rows))

    @property
    def check_sum(self) -> CheckSum:
        """CheckSum as the headers have it, and as it is to be."""
        told = _records.CheckSums()
        self._ask(library.petool_check_sum, ctypes.byref(told))
        return CheckSum(told.written, told.computed)

    @property
    def check_sum_computed(self) -> int:
        """What CheckSum is to be; ``headers.check_sum`` is what the file has."""
        return self.check_sum.computed

    @property
    def certificates(self) -> Tuple[Certificate, ...]:
        """The entries of the certificate table, in table order."""
        text, layout = self._file.text, LAYOUTS["certificate"]
        rows = layout.struct.iter_unpack(self._own_rows("certificates", layout))
        return tuple(Certificate(offset, text(at, size), length, revision, kind) for offset, at, size, length, revision, kind in rows)

    def _signers(self, at: int, size: int) -> Tuple[Signer, ...]:
        """The certificates of a signature that lies in the file."""
        text, layout = self._file.text, LAYOUTS["signer"]
        with self._file.hold():
            rows = read_rows(layout, _GUESS, lambda *rows: int(library.petool_signers(at, size, *rows)))
        found = ([text(*pair) for pair in zip(row[::2], row[1::2])] for row in layout.struct.iter_unpack(rows))
        return tuple(Signer(int.from_bytes(serial, "big", signed=True), *names) for serial, *names in found)

    @property
    def authenticode(self) -> Tuple[Signature, ...]:
        """The signatures, in the order of the certificate table. A digest of the file is computed once for each algorithm."""
        text, layout = self._file.text, LAYOUTS["signature"]
        rows = layout.struct.iter_unpack(self._own_rows("authenticode", layout))
        return tuple(
            Signature(
                offset,
                _NAMES.get(algorithm),
                text(digest, digest_size),
                None if fits == _FIT_UNKNOWN else fits == _FIT_YES,
                self._signers(at, size),
            )
            for offset, at, size, digest, digest_size, algorithm, fits in rows
        )

    def authenticode_digest(self, algorithm: str = "sha256") -> Optional[bytes]:
        """The digest of the file that a signature of it is to sign, by "sha1", "sha256", "sha384" or "sha512".

        None if what a signature signs is ambiguous: if raw data do not follow the headers without a gap or an overlap, or the
        certificate table is not after them at the end of the file. ValueError for another algorithm.
        """
        if algorithm not in _ALGORITHMS:
            raise ValueError(f"the algorithm {algorithm!r} is none of {', '.join(_ALGORITHMS)}")
        told = _records.Digest()
        if self._ask(library.petool_authenticode_digest, _ALGORITHMS[algorithm], ctypes.byref(told)) == _library.ABSENT:
            return None
        return bytes(told.bytes)[: told.len]

    @property
    def overlay(self) -> Overlay:
        """What the file has behind the bytes that its headers name; a certificate table belongs to it."""
        told = _records.OverlayRange()
        self._ask(library.petool_overlay, ctypes.byref(told))
        return Overlay(told.offset, told.size, told.kind)

    @property
    def import_hash(self) -> Optional[str]:
        """The import hash in hexadecimal digits: the MD5 digest of what the image imports, told as text, as pefile computes it.

        None if it imports nothing, or if that text has over 16 MB. FormatFault of 13 to 32 if sections or imports have a fault.
        """
        told = _records.Digest()
        if self._ask(library.petool_import_hash, ctypes.byref(told)) == _library.ABSENT:
            return None
        return bytes(told.bytes)[: told.len].hex()

    @property
    def rich(self) -> Optional[RichHeader]:
        """The Rich header with its pairs; None if there is none."""
        told = _records.RichHeader()
        if self._ask(library.petool_rich, ctypes.byref(told)) == _library.ABSENT:
            return None
        layout = LAYOUTS["rich_pair"]
        pairs = map(RichPair._make, layout.struct.iter_unpack(self._own_rows("rich_pairs", layout)))
        return RichHeader(told.offset, told.key, told.computed, tuple(pairs))


class Trust(TrustOfFile):
    """What an image's file says of itself, from its bytes, also of one that ``Image`` refuses. FormatFault of 1 to 12."""

    def __init__(self, data: Buffer, *, file: Optional[str] = None) -> None:
        super().__init__(data, file)
        try:
            self.overlay  # which tests the headers
        except BaseException:
            self.close()
            raise

    @property
    def findings(self) -> Tuple[Finding, ...]:
        """The rules of the certificate table and of the Rich header that are broken, by number: 221 to 225, and 241."""
        return _tables.findings_by(lambda *rows: self._ask(library.petool_trust_findings, *rows))
