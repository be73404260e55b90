#!/usr/bin/env python3
"""Compares what the package petool for Python says of signed images with osslsigncode: CheckSum, the digest that the signature signs, the
digest of the file, and the certificates of the signature; and of all images, signed or not, the SHA-256 digest that a signature would
sign with pesign, if that is there.

    digests.py PATH...

A PATH is an image or a folder, of which all files that begin with MZ are used; those that petool refuses, that have no signature, of
which it is ambiguous what a signature signs, or that osslsigncode cannot read, such as those with two signatures, are counted and left
out. Differences are printed one by one; the last line counts the files. Needs osslsigncode, and the package on PYTHONPATH with its
library, as bindings/python/README.md says.
"""

import collections
import re
import shutil
import subprocess
import sys

import petool
from compared import images

COUNTS = collections.Counter()


def numbers(pattern, text):
    """The hexadecimal numbers of a pattern."""
    return [int(it, 16) for it in re.findall(pattern, text)]


def theirs(path):
    """CheckSum and the computed one, both digests, and the serial numbers of the certificates that it shows; none if it cannot read
    the file."""
    done = subprocess.run(["osslsigncode", "verify", "-in", path], stdout=subprocess.PIPE, stderr=subprocess.STDOUT, text=True, check=False)
    digests = numbers(r"message digest\s*: ([0-9A-F]+)", done.stdout)
    if len(digests) != 2:
        return None
    # the second is there only if it differs
    sums = numbers(r"PE checksum\s*: ([0-9A-F]{8})", done.stdout)
    return [sums[0], sums[-1]], digests, set(numbers(r"Serial *: ([0-9A-F]+)", done.stdout))


def ours(trust):
    """The same as petool has it of the first signature, with all of its certificates."""
    first = trust.authenticode[0]
    own = trust.authenticode_digest(first.algorithm)
    return list(trust.check_sum), [int.from_bytes(it, "big") for it in (first.digest, own)], {it.serial for it in first.signers}


def compare_digest(path, digest):
    """Compares the digest that a signature would sign with that of pesign."""
    done = subprocess.run(["pesign", "-h", "-d", "sha256", "-i", path], stdout=subprocess.PIPE, stderr=subprocess.DEVNULL, text=True, check=False)
    found = re.search(r"\b[0-9a-f]{64}\b", done.stdout)
    if found is None or digest is None:
        return
    COUNTS["by pesign"] += 1
    if found[0] != digest.hex():
        COUNTS["differences"] += 1
        print(f"{path}: petool {digest.hex()}, pesign {found[0]}")


def compare(path):
    with open(path, "rb") as file:
        data = file.read()
    try:
        trust = petool.Trust(data)
    except petool.FormatFault:
        COUNTS["refused"] += 1
        return
    with trust:
        if shutil.which("pesign"):
            compare_digest(path, trust.authenticode_digest("sha256"))
        if not any(it.algorithm for it in trust.authenticode):
            COUNTS["unsigned"] += 1
            return
        if trust.authenticode_digest() is None:
            COUNTS["ambiguous"] += 1
            return
        own, other = ours(trust), theirs(path)
        fits = [it.fits for it in trust.authenticode]
    if other is None:
        COUNTS["unread"] += 1
        return
    COUNTS["files"] += 1
    COUNTS["fit"] += fits[0] is True
    if own[:2] != other[:2] or not other[2] <= own[2] or fits[0] != (own[1][0] == own[1][1]):
        COUNTS["differences"] += 1
        print(f"{path}: petool {own}, osslsigncode {other}")


def main(*paths):
    for path in paths:
        for file in images(path):
            compare(file)
    print(", ".join(f"{COUNTS[it]} {it}" for it in ("files", "fit", "unsigned", "ambiguous", "unread", "refused", "by pesign", "differences")))
    return COUNTS["differences"] > 0


if __name__ == "__main__":
    if len(sys.argv) < 2:
        sys.exit(__doc__)
    sys.exit(main(*sys.argv[1:]))
