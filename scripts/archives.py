#!/usr/bin/env python3
"""Compares `petool archive` with the text that the format gives for an archive, and with what binutils and LLVM list of it:
archives.py PETOOL PATH...

PETOOL is the program. A PATH is an archive, or a folder, of which all files are used that begin like one. What petool prints, and
its status, are compared with a dump that is made here by the rules of docs/FORMAT.md only. The names of the members are compared with
those of `ar t` and `llvm-ar t`, and the import objects with those of `llvm-readobj`, for each of these that is there; an archive that
one of them does not list is left out of its count. The symbols that the last line of `petool json` has of the first linker member, each
with its member, are compared with those of `nm -s`, and those of the second one, or else of the first, with those of `llvm-nm
--print-armap`. Of each archive the first member, the last and the one
between them are written with `--extract`, and compared with the archive's bytes and with `ar p`. Differences are printed one by one;
the last line has the counts.
"""

import json
import os
import re
import shutil
import struct
import subprocess
import sys

import objects

SIGNATURES = {b"!<arch>\n": False, b"!<thin>\n": True}
KINDS = {0: "code", 1: "data", 2: "const"}
#: The names of machines in "PE Format" that import libraries have.
MACHINES = {0x14C: "I386", 0x8664: "AMD64", 0x1C0: "ARM", 0x1C4: "ARMNT", 0xAA64: "ARM64", 0xA641: "ARM64EC"}


def number(field):
    """The decimal number in a field that blanks fill up, or None."""
    found = re.fullmatch(rb"(\d+) *", field)
    return int(found[1]) if found else None


def is_special(field):
    return field[:1] == b"/" and not field[1:2].isdigit()


def read_member(file, thin, at):
    """A member: its name field, its size, its bytes, and where the next begins; or the number of the finding of its header."""
    header = file[at:at + 60]
    if header[58:] != b"`\n":
        return 301
    size = number(header[48:58])
    if size is None:
        return 302
    held = 0 if thin and not is_special(header) else size
    if at + 60 + held > len(file):
        return 303
    end = at + 60 + held
    return header[:16], size, file[at + 60:end], min(end + end % 2, len(file))


def long_names(file, thin):
    """The bytes of the member `//`, if it is at the archive's front."""
    at = 8
    for field in (b"/", b"/", b"//"):
        member = read_member(file, thin, at)
        if isinstance(member, int) or member[0] != field.ljust(16):
            continue
        if field == b"//":
            return member[2]
        at = member[3]
    return b""


def name_of(names, field, content):
    """The name of a member, or None if it leads to no text; and its contents behind a name at their front."""
    offset, length = number(field[1:]), number(field[3:])
    if field[:1] == b"/" and offset is not None:
        found = re.match(rb"([^\n\0]*)[\n\0]", names[offset:])
        return (found and re.sub(rb"/$", b"", found[1])), content
    if field[:3] == b"#1/" and length is not None:
        return (content[:length].split(b"\0")[0] if length <= len(content) else None), content[length:]
    if field[:1] != b"/" and b"/" in field:
        return field.split(b"/")[0], content
    return field.split(b" ")[0], content


def import_line(content):
    """The line of an import object, or the number of its finding."""
    machine, _, size, ordinal, kind = struct.unpack_from("<6xHIIHH", content)
    if 20 + size > len(content):
        return 331
    name_type = kind >> 2 & 7
    texts = content[20:20 + size].split(b"\0")[:-1]
    if len(texts) < (3 if name_type == 4 else 2):
        return 332
    if name_type > 4:
        return 333
    symbol, module = texts[:2]
    bare = symbol[1:] if symbol[:1] in (b"?", b"@", b"_") else symbol
    name = {1: symbol, 2: bare, 3: bare.split(b"@")[0], 4: texts[-1] if name_type < 4 else texts[2]}.get(name_type)
    by = f"ordinal {ordinal}" if name is None else f"name {objects.quoted(name)} hint {ordinal}"
    what, of = kind & 3, MACHINES.get(machine)
    return (f"import {objects.quoted(symbol)} module {objects.quoted(module)} {by} type {what} {KINDS.get(what, 'other')} "
            f"machine 0x{machine:04x}{' ' + of if of else ''}\n")


def fault_line(finding, at):
    return f"fault {finding} image 0 file 0x{at:08x}\n"


def expected(file):
    """What petool prints for a file, and its status; the members that are not the archive's own, each by its name and what it holds, and
    how many import objects it has."""
    thin = SIGNATURES.get(file[:8])
    if thin is None:
        return fault_line(300, 0), 1, [], 0
    lines, status, listed, imports, at = ["thin archive\n" if thin else "archive\n"], 0, [], 0, 8
    names = long_names(file, thin)
    while at < len(file):
        member = read_member(file, thin, at)
        if isinstance(member, int):
            lines.append(fault_line(member, at))
            status = 1
            break
        field, size, content, after = member
        name, content = name_of(names, field, content)
        lines.append(f"member {'unnamed' if name is None else objects.quoted(name)} offset 0x{at:08x} size {size}\n")
        if name is None:
            lines.append(fault_line(304, at))
            status = 1
        if not is_special(field):
            listed.append((name, content))
        if not is_special(field) and not thin:
            if len(content) >= 20 and content[:6] == b"\0\0\xff\xff\0\0":
                line = import_line(content)
                imports += 1
                status = 1 if isinstance(line, int) else status
                lines.append(fault_line(line, at) if isinstance(line, int) else line)
            else:
                text, refused = objects.expected(content)
                lines.append(text.decode("latin-1"))
                status = status or refused
        at = after
    return "".join(lines + ["end\n"]), status, listed, imports


def output(*words):
    """What a program prints, or None if it fails."""
    ran = subprocess.run(words, stdout=subprocess.PIPE, stderr=subprocess.DEVNULL, check=False)
    return ran.stdout if ran.returncode == 0 else None


def members_of(names, thin):
    """The names of members but for the symbol table in BSD's form, which not every archiver lists; of a thin archive without folders,
    which some have as they stand and some as they are found."""
    return [(os.path.basename(name) if thin else name) for name in names if not name.startswith(b"__.SYMDEF")]


def listed_by(program, path):
    """The names of members as an archiver lists them."""
    text = output(program, "t", path)
    return None if text is None else text.split(b"\n")[:-1]


def imports_by(program, path):
    """How many import objects llvm-readobj finds."""
    text = output(program, "--file-headers", path)
    return None if text is None else text.count(b"Format: COFF-import-file")


def symbols_told(petool, path):
    """The symbols of each linker member in the lines of JSON, each with the name of its member; None for one that is not there."""
    with subprocess.Popen([petool, "json", path], stdout=subprocess.PIPE) as run:
        names, last = {}, b""
        for last in run.stdout:
            found = re.match(rb'.*?"member":("(?:[^"\\\\]|\\\\.)*"),"offset":(\d+)', last[:70000])
            if found:
                names[int(found[2])] = json.loads(found[1])
    tables = [json.loads(last).get(f"{which}_linker_member") for which in ("first", "second")]
    return [None if table is None else [(it.get("name", ""), names.get(it.get("offset"))) for it in table] for table in tables]


def slashed(symbols):
    """Symbols with members as binutils name them, which have a slash for a backslash."""
    return symbols and [(name, member and member.replace("\\", "/")) for name, member in symbols]


def symbols_by(words, path):
    """The symbols of an archive's index with their members, as another program lists them."""
    text = output(*words, path)
    if text is None:
        return None
    lines = text.decode("latin-1").split("\n")
    heads = [at for at, line in enumerate(lines) if line in ("Archive index:", "Archive map")]
    if not heads:
        return None
    rows = lines[heads[0] + 1 : lines.index("", heads[0])]
    return [tuple(row.split(" in ", 1)) for row in rows]


def different(petool, path, thin, members):
    """Some members that petool does not write as they stand in an archive, or that `ar` writes otherwise; and how many were tried."""
    wrong, tried = [], 0
    for at in sorted({0, len(members) // 2, len(members) - 1} if members else ()):
        name, content = members[at]
        count = sum(it == name for it, _ in members[:at + 1])
        if not name or name.startswith(b"-"):
            continue
        tried += 1
        answer = output(petool, "archive", "--extract", name, "--index", str(count), path)
        if answer != (None if thin else content):
            wrong.append(name)
        if shutil.which("ar") and not thin and output("ar", "pN", str(count), path, name) not in (None, content):
            wrong.append(name)
    return wrong, tried


def archives(paths):
    """The files at these paths that begin like archives."""
    for path in paths:
        if os.path.isdir(path):
            yield from archives(sorted(os.path.join(folder, name) for folder, _, names in os.walk(path) for name in names))
        elif not os.path.islink(path):
            with open(path, "rb") as it:
                if it.read(8) in SIGNATURES:
                    yield path


def main():
    petool, *paths = sys.argv[1:]
    counts = dict.fromkeys(("archives", "members", "imports", "symbols", "extracted", "different"), 0)
    peers = {name: shutil.which(name) for name in ("ar", "llvm-ar", "llvm-readobj")}
    agreed = {name: 0 for name, program in peers.items() if program}
    armaps = {words[0]: words for words in (("nm", "-s"), ("llvm-nm", "--print-armap")) if shutil.which(words[0])}
    agreed.update((name, 0) for name in armaps)
    for path in archives(paths):
        with open(path, "rb") as it:
            file = it.read()
        text, status, members, imports = expected(file)
        names, thin = [name for name, _ in members], SIGNATURES[file[:8]]
        ran = subprocess.run([petool, "archive", path], stdout=subprocess.PIPE, stderr=subprocess.DEVNULL, check=False)
        counts["archives"] += 1
        counts["members"] += len(names)
        counts["imports"] += imports
        if (ran.stdout, ran.returncode) != (text.encode("latin-1"), status):
            counts["different"] += 1
            print(f"{path}: petool answers {ran.returncode}, and not {status}, or another text")
        wrong, tried = different(petool, path, thin, members)
        counts["extracted"] += tried
        counts["different"] += len(wrong)
        for name in wrong:
            print(f"{path}: {name!r} is written otherwise")
        first, second = symbols_told(petool, path)
        counts["symbols"] += len(first or []) + len(second or [])
        for peer, words in armaps.items():
            found, symbols = symbols_by(words, path), slashed(first) if peer == "nm" or second is None else second
            if found is not None and symbols is not None:
                agreed[peer] += 1
                if found != symbols:
                    counts["different"] += 1
                    print(f"{path}: {peer} finds other symbols")
        for peer in agreed.keys() - armaps.keys():
            if peer == "llvm-readobj":
                found, told = imports_by(peer, path), imports
            else:
                found, told = listed_by(peer, path), members_of([name.replace(b"\\", b"/") if peer == "ar" else name for name in names], thin)
            if found is not None:
                agreed[peer] += 1
                if (found if peer == "llvm-readobj" else members_of(found, thin)) != told:
                    counts["different"] += 1
                    print(f"{path}: {peer} finds something else")
    print(", ".join([f"{count} {name}" for name, count in counts.items()] + [f"{count} by {peer}" for peer, count in agreed.items()]))
    return 1 if counts["different"] else 0


if __name__ == "__main__":
    sys.exit(main())
