"""Files that tests make: the small files with bytes written over them, and libraries, programs and objects built field by field.
No code of petool is used for it."""

from __future__ import annotations

import struct
from typing import Dict, Iterable, List, Optional, Sequence, Tuple

from . import data

#: Bytes at an offset.
Piece = Tuple[int, bytes]


def put(file: bytearray, *pieces: Piece) -> bytearray:
    """Writes bytes over a file, which must hold them all."""
    for offset, written in pieces:
        if offset + len(written) > len(file):
            raise ValueError(f"the bytes at {offset:#x} pass the file")
        file[offset : offset + len(written)] = written
    return file


def changed(name: str, *pieces: Piece, size: Optional[int] = 0x600) -> bytes:
    """A small file, cut or padded with zeros to `size` bytes, with pieces written over it."""
    file = bytearray(data(name))
    if size is not None:
        file = file[:size].ljust(size, b"\0")
    return bytes(put(file, *pieces))


def edit(file: bytearray, word: str) -> bytearray:
    """Changes a file as a word says: `len=400` cuts it, or pads it with zeros, to 0x400 bytes; `0x3c=ff00` writes bytes over it."""
    place, digits = word.split("=")
    if place == "len":
        return file[: int(digits, 16)].ljust(int(digits, 16), b"\0")
    return put(file, (int(place, 16), bytes.fromhex(digits)))


def edited(words: Sequence[str]) -> bytes:
    """The small file that the first word names, changed as the others say."""
    file = bytearray(data(words[0]))
    for word in words[1:]:
        file = edit(file, word)
    return bytes(file)


def numbers(*values: int) -> bytes:
    """Numbers of 4 bytes, lowest byte first."""
    return struct.pack(f"<{len(values)}I", *values)


def with_data(pieces: Iterable[Piece], section: bytes) -> bytes:
    """V1 with other bytes in its section, which ends the file."""
    file = bytearray(data("v1.dll"))
    put(file, *pieces, (0x140, numbers(len(section))), (0x148, numbers(len(section))))
    return bytes(file[:0x200]) + section


# ---- imports ----


def importing(*modules: Tuple[bytes, Sequence[int]]) -> bytes:
    """A library that imports these ordinals of these modules, in this order. Its slots of 4 bytes are at RVA 0x20000 and after it."""
    names = 0x1000 + 20 * (len(modules) + 1)
    lookups = names + sum(len(name) + 1 for name, _ in modules)
    descriptors, entries, strings, slot = b"", b"", b"", 0x20000
    for name, ordinals in modules:
        descriptors += numbers(lookups + len(entries), 0, 0, names + len(strings), slot)
        entries += numbers(*(0x80000000 + it for it in ordinals), 0)
        strings += name + b"\0"
        slot += 4 * len(ordinals)
    section = descriptors + bytes(20) + strings + entries
    return with_data([(0x90, numbers(0x40000)), (0xC0, numbers(0x1000, 20))], section)


# ---- forwarders ----

#: The RVA that an ordinal of a library exports if it is not a forwarder: one in its headers.
EXPORT = 0x10


def library(texts: Sequence[bytes]) -> bytes:
    """A library whose ordinals count from 0: each is a forwarder with its string, or, if that is empty, exports EXPORT."""
    addresses, rva = [], 0x1028 + 4 * len(texts)
    for text in texts:
        addresses.append(rva if text else EXPORT)
        rva += len(text) + 1
    table = numbers(0, 0, 0, 0, 0, len(texts), 0, 0x1028, 0, 0) + numbers(*addresses)
    table += b"".join(text + b"\0" for text in texts)
    file = bytearray(data("vb.dll")[:0x200])
    put(file, (0x90, numbers(len(table) + 0x2000)), (0xB8, numbers(0x1000, len(table))))
    put(file, (0x140, numbers(len(table))), (0x148, numbers(-(-len(table) // 0x200) * 0x200)))
    return bytes(file) + table.ljust(-(-len(table) // 0x200) * 0x200, b"\0")


def chain(nexts: int, last: bytes, module: bytes = b"f") -> bytes:
    """The library `f.dll` with `nexts` ordinals that each lead to the next one; the last one has this string."""
    return library([b"%s.#%d" % (module, index + 1) for index in range(nexts)] + [last])


def looped(tail: int, length: int) -> bytes:
    """The library `f.dll` whose ordinals below tail + length each lead to the next one, and the last back to the first after the
    tail."""
    return chain(tail + length - 1, b"f.#%d" % tail)


def program(ordinal: int) -> bytes:
    """VC with an import of an ordinal of `F.DLL`. Its slot is at RVA 0x1030."""
    return changed("vc.dll", (0x240, b"F"), (0x228, bytes([ordinal, 0, 0, 0x80])), size=None)


# ---- objects ----

#: The storage class, the type, the section and the auxiliary records of a symbol.
Symbol = Dict[str, object]


def with_aux(storage_class: int, kind: int, section: int, aux: bytes) -> bytes:
    """An object for AMD64 with one section and one symbol `s`, which has these auxiliary records."""
    header = struct.pack("<HHIIIHH", 0x8664, 1, 0, 60, 1 + len(aux) // 18, 0, 0)
    symbol = struct.pack("<8sIHHBB", b"s", 0, section, kind, storage_class, len(aux) // 18)
    return header + struct.pack("<8s6IHHI", b"", *(0,) * 9) + symbol + aux + numbers(4)
