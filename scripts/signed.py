#!/usr/bin/env python3
"""Compares the digests that `petool json --all` tells of signed images, and of mutants of the first five of them, with osslsigncode,
sbverify and the reader in pages_trust.py, which follows Microsoft's text:

    signed.py PETOOL MUTANTS CERTIFICATE PATH...

PETOOL is the program. A PATH is an image or a folder, of which all files that begin with MZ are used; MUTANTS of them are made, with
fields, single bytes or the certificate table changed, moved, cut off or extended. CERTIFICATE is that of images that were signed by
it; of the others sbverify is given those that are in the signature.

Where petool tells a digest, osslsigncode must compute the same, and the digest of the signature must fit by both or by neither. By a
digest of SHA-256, which is all that it knows, sbverify must accept a file that fits, unless its signature was changed, and refuse one that
does not. Where petool tells none, it must be a case that the text's rule leaves ambiguous, and finding 225 must say so. Differences are
printed one by one; the last lines count the files. Needs osslsigncode, sbverify and openssl.
"""

import collections
import hashlib
import json
import pathlib
import random
import re
import struct
import subprocess
import sys
import tempfile

from compared import images
from pages_reader import Headers
from pages_trust import Trust

COUNTS = collections.Counter()
SOURCES = 5
#: How many files petool is given at once.
BATCH = 20


#: Of an image: certificates by which sbverify may accept it, and its certificate table.
Source = collections.namedtuple("Source", ["certificates", "table"])


def run(*words):
    return subprocess.run(words, stdout=subprocess.PIPE, stderr=subprocess.STDOUT, check=False)


def places(file):
    """The offsets of SizeOfHeaders, CheckSum and the entry of directory 4, and of the headers of all sections."""
    pe, magic = (struct.unpack_from("<I", file, 60)[0],) + struct.unpack_from("<H", file, struct.unpack_from("<I", file, 60)[0] + 24)
    count, optional = struct.unpack_from("<H", file, pe + 6)[0], struct.unpack_from("<H", file, pe + 20)[0]
    entry = pe + 24 + (96 if magic == 0x10B else 112) + 32
    return pe + 84, pe + 88, entry, [pe + 24 + optional + 40 * k for k in range(count)]


def table_over_text(file, seed):
    """The table is moved to where the raw data of the first section are, which then hold the table and what does not go behind the
    end. All other bytes keep their order, so that a digest of the file without the table still fits."""
    _, _, entry, sections = places(file)
    at, size = struct.unpack_from("<II", file, entry)
    pointer = struct.unpack_from("<I", file, sections[0] + 20)[0]
    other = bytearray(file[:pointer] + file[at : at + size] + file[pointer:at] + file[at + size :])
    struct.pack_into("<I", other, entry, pointer)
    return other


def entry_changed(file, seed):
    other, (_, _, entry, _) = bytearray(file), places(file)
    field = entry + 4 * seed.randrange(2)
    number = struct.unpack_from("<I", other, field)[0]
    struct.pack_into("<I", other, field, seed.choice([0, number + 8, number - 8, number + 1, seed.randrange(len(file)), 0xFFFFFFF8]) % 2**32)
    return other


def section_changed(file, seed):
    other, (_, _, _, sections) = bytearray(file), places(file)
    field = seed.choice(sections) + seed.choice([16, 20])
    number = struct.unpack_from("<I", other, field)[0]
    struct.pack_into("<I", other, field, seed.choice([0, number + 512, number - 512, number + 1, seed.randrange(len(file))]) % 2**32)
    return other


def sections_exchanged(file, seed):
    other, (_, _, _, sections) = bytearray(file), places(file)
    one, two = seed.choice(sections), seed.choice(sections)
    other[one : one + 40], other[two : two + 40] = other[two : two + 40], other[one : one + 40]
    return other


def headers_changed(file, seed):
    other, (size, _, _, _) = bytearray(file), places(file)
    struct.pack_into("<I", other, size, (struct.unpack_from("<I", other, size)[0] + seed.choice([512, -512, 8, -8])) % 2**32)
    return other


def byte_changed(file, seed):
    other, (_, field, entry, _) = bytearray(file), places(file)
    last = struct.unpack_from("<I", file, entry)[0] - 1
    at = seed.choice([seed.randrange(len(file)), seed.randrange(1024), field + seed.randrange(4), entry + seed.randrange(8), last])
    other[at] ^= 1 << seed.randrange(8)
    return other


def cut(file, seed):
    return bytearray(file[: len(file) - seed.choice([1, 8, seed.randrange(len(file) // 2)])])


def extended(file, seed):
    return bytearray(file) + bytes(seed.choice([1, 8, 4096]))


def inserted(file, seed):
    """Bytes are put before the table, which moves behind them."""
    _, _, entry, _ = places(file)
    at, size = struct.unpack_from("<II", file, entry)
    more = 8 * seed.randrange(1, 9)
    other = bytearray(file[:at] + bytes(more) + file[at:])
    struct.pack_into("<II", other, entry, at + more, size)
    return other


CHANGES = [
    table_over_text,
    entry_changed,
    section_changed,
    sections_exchanged,
    headers_changed,
    byte_changed,
    byte_changed,
    cut,
    extended,
    inserted,
]


def mutants(files, count):
    seed = random.Random(225)
    for k in range(count):
        yield CHANGES[k % len(CHANGES)](files[k // len(CHANGES) % len(files)], seed)


def by_osslsigncode(path):
    """The digest that the first signature signs and the one of the file, or none if it does not read the file."""
    found = re.findall(rb"message digest\s*: ([0-9A-F]+)", run("osslsigncode", "verify", "-in", path).stdout)
    return [bytes.fromhex(it.decode()) for it in found[:2]] if len(found) >= 2 else None


def table_of(file):
    """The bytes of the certificate table."""
    at, size = struct.unpack_from("<II", file, places(file)[2])
    return file[at : at + size]


def certificates_in(file):
    """The certificates in the first signature, as files of PEM."""
    table = table_of(file)
    size = struct.unpack_from("<I", table)[0]
    done = subprocess.run(["openssl", "pkcs7", "-inform", "DER", "-print_certs"], input=table[8:size], capture_output=True, check=False)
    return [it + b"-----END CERTIFICATE-----\n" for it in re.findall(rb"-----BEGIN CERTIFICATE-----.*?(?=-----END)", done.stdout, re.S)]


def accepts(path, certificates):
    """Whether sbverify accepts a file by one of the certificates."""
    for certificate in certificates:
        with tempfile.NamedTemporaryFile(suffix=".pem") as pem:
            pem.write(certificate)
            pem.flush()
            if run("sbverify", "--cert", pem.name, path).returncode == 0:
                return True
    return False


def reason(trust):
    """In which case of the rule's ambiguity a file is, or none."""
    table, end = trust.table, trust.headers.headers
    for section in sorted((it for it in trust.headers.sections if it.raw_size), key=lambda it: it.pointer):
        if section.pointer != end:
            return "raw data leave a gap" if section.pointer > end else "raw data overlap"
        end += section.raw_size
    if table and table[1] and sum(table) > len(trust.file):
        return "the table passes the file"
    if table and table[1] and table[0] < end:
        return "the table is not after the raw data"
    if table and table[1] and sum(table) < len(trust.file):
        return "bytes come after the table"
    return "the raw data pass the file" if end > len(trust.file) else None


def check(path, line, source):
    """Compares what a line says of a file, and counts it. Yields what differs."""
    file = path.read_bytes()
    if "format" not in line:
        COUNTS["with a fault of the headers"] += 1
        return
    trust = Trust(file, Headers(file))
    message, case, has_table = trust.message(), reason(trust), trust.table is not None
    own = line.get("authenticode_sha256_hex")
    signature = next((it for it in line.get("certificates", []) if "digest_hex" in it), None)
    has_finding = any(it["number"] == 225 for it in line.get("findings", []))
    if own != (None if message is None else hashlib.sha256(message).hexdigest()) or (message is None) != (case is not None):
        yield f"petool {own}, by the text {case or hashlib.sha256(message).hexdigest()}"
    if has_finding != (has_table and case is not None):
        yield f"finding 225 {has_finding}, by the text {case}"
    if own is None:
        COUNTS[case] += 1
        if signature and "fits" in signature:
            yield "fits is told without a digest"
        return
    COUNTS["with a digest"] += 1
    if signature is None or "fits" not in signature:
        COUNTS["of these without a signature that is read"] += 1
        return
    COUNTS["of these that fit" if signature["fits"] else "of these that do not fit"] += 1
    theirs = by_osslsigncode(path)
    if theirs is None:
        COUNTS["of these not read by osslsigncode"] += 1
    else:
        COUNTS["of these compared with osslsigncode"] += 1
        computed = {"SHA-1": "sha1", "SHA-256": "sha256", "SHA-384": "sha384", "SHA-512": "sha512"}[signature["digest_algorithm"]]
        if theirs != [bytes.fromhex(signature["digest_hex"]), hashlib.new(computed, message).digest()] or signature["fits"] != (theirs[0] == theirs[1]):
            yield f"petool {signature}, osslsigncode {[it.hex() for it in theirs]}"
    if signature["digest_algorithm"] != "SHA-256":
        return
    is_accepted, is_changed = accepts(path, source.certificates), table_of(file) != source.table
    COUNTS["of these accepted by sbverify"] += is_accepted
    COUNTS["of these that fit and whose signature was changed"] += signature["fits"] and is_changed
    if is_accepted if not signature["fits"] else not is_accepted and not is_changed:
        yield f"petool {signature['fits']}, sbverify {is_accepted}"


def lines_of(petool, paths):
    """What petool says of each file."""
    for start in range(0, len(paths), BATCH):
        some = [str(it) for it in paths[start : start + BATCH]]
        done = subprocess.run([petool, "json", "--all", *some], stdout=subprocess.PIPE, check=False)
        yield from map(json.loads, done.stdout.splitlines())


def compare(petool, paths, sources):
    """Compares what petool says of each file, given what the images are of which they were made."""
    for path, line in zip(paths, lines_of(petool, paths), strict=True):
        for difference in check(path, line, sources[path]):
            COUNTS["differences"] += 1
            print(f"{path}: {difference}")


def main(petool, count, certificate, *folders):
    own = pathlib.Path(certificate).read_bytes()
    paths = [pathlib.Path(it) for folder in folders for it in images(folder)]
    files = {it: it.read_bytes() for it in paths}
    sources = {it: Source([own, *certificates_in(file)], table_of(file)) for it, file in files.items()}
    print(f"{len(paths)} images")
    with tempfile.TemporaryDirectory() as folder:
        made = []
        for k, mutant in enumerate(mutants([files[it] for it in paths[:SOURCES]], int(count))):
            made.append(pathlib.Path(folder) / f"{k}-{CHANGES[k % len(CHANGES)].__name__}")
            made[-1].write_bytes(mutant)
            sources[made[-1]] = sources[paths[k // len(CHANGES) % SOURCES]]
        compare(petool, [*paths, *made], sources)
    for name, number in COUNTS.items():
        print(f"{number} {name}")
    return COUNTS["differences"] > 0


if __name__ == "__main__":
    if len(sys.argv) < 5:
        sys.exit(__doc__)
    sys.exit(main(*sys.argv[1:]))
