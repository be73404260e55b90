#!/usr/bin/env python3
"""Joins the page into one file: build.py MODULE FAULTS OUT, where MODULE is petool32.wasm and FAULTS the words of the faults.

A module of JavaScript is joined with those that it imports, which are all in the repository, each once and after those that it
imports itself: it becomes a function that is called at once, and returns what the module exports. Comments that have lines of their
own are left out. The module and the words are compressed.
"""

import base64
import hashlib
import lzma
import pathlib
import re
import sys

HERE = pathlib.Path(__file__).resolve().parent
IMPORT = re.compile(r"^import (\{[^}]*\}) from '(\.[^']+)';$", re.MULTILINE)
#: a comment that has its lines for itself, and a blank line
COMMENT = re.compile(r"^ *(?://.*|/\*\*(?:[^*]|\*(?!/))*\*/ *|)\n", re.MULTILINE)
EXPORT = re.compile(r"^export (?=(?:const|let|class|function|async function) (\w+))", re.MULTILINE)
#: what a page may have at most, in bytes
MOST_BYTES = 450_000


def joined(file, done):
    """The text of a module and of those that it imports, but for those that are done, each under a name in `done`."""
    text = COMMENT.sub("", file.read_text(encoding="utf-8"))
    below = []
    for name in (file.parent / found[1] for found in IMPORT.findall(text)):
        if name.resolve() not in done:
            below.append(joined(name.resolve(), done))
    names = ", ".join(EXPORT.findall(text))
    text = EXPORT.sub("", IMPORT.sub(lambda found: f"const {found[1]} = {done[(file.parent / found[2]).resolve()]};", text))
    if re.search(r"^(import|export) ", text, re.MULTILINE):
        sys.exit(f"build: {file} has an import or an export of another form")
    done[file] = f"module{len(done)}"
    return "".join(below) + f"const {done[file]} = (() => {{\n{text}return {{ {names} }};\n}})();\n"


def sum_of(text):
    """What the Content-Security-Policy calls a script or a style by."""
    return base64.b64encode(hashlib.sha256(text.encode()).digest()).decode()


def packed(file):
    """The bytes of a file, compressed for `lzma.mjs`, in base 64."""
    return base64.b64encode(lzma.compress(file.read_bytes(), format=lzma.FORMAT_ALONE, preset=9 | lzma.PRESET_EXTREME)).decode()


def main():
    module, faults, out = (pathlib.Path(word) for word in sys.argv[1:])
    style = (HERE / "page.css").read_text(encoding="utf-8")
    script = joined(HERE / "src/main.mjs", {})
    worker = joined(HERE / "src/worker.mjs", {})
    # the text of a script ends where the first of these stands in it, and not at its end if the second does
    for text in (script, worker):
        if "</script" in text or "<!--" in text:
            sys.exit("build: a script contains what ends it, or begins a comment")
    parts = {
        "style": style,
        "style sum": sum_of(style),
        "script": script,
        "script sum": sum_of(script),
        "worker": worker,
        "module": packed(module),
        "faults": packed(faults),
    }
    page = re.sub(r"\{\{([a-z ]+)\}\}", lambda found: parts[found[1]], (HERE / "index.html").read_text(encoding="utf-8"))
    out.write_text(page, encoding="utf-8")
    size = out.stat().st_size
    if size > MOST_BYTES:
        sys.exit(f"build: the page has {size} bytes, and at most {MOST_BYTES} are wanted")
    print(f"{out}: {size} bytes")


if __name__ == "__main__":
    main()
