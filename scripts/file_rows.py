#!/usr/bin/env python3
"""Writes the crates in docs/MAP.md, the laws in docs/PROVED.md and the wrong bodies in docs/TESTS.md.

file_rows.py [--check | --whole]. The row of a crate has what its first page says, and what it names in crates.txt; a law has its
comment; the wrong bodies of a crate have the names of their files. With --whole nothing is written, and a row is printed for each
source, with the comment that it begins with and the names that it declares for other files. With --check nothing is written: each
source must begin with such a comment, a crate must name each library of its line in crates.txt, and the three pages are compared with
what would be written; the last line is 'N passed, M failed', and the status is 1 if something is wrong.
"""

import ast
import pathlib
import re
import signal
import sys

sys.dont_write_bytecode = True

from crates_svg import all_named, crates_below, direct, level

TOP = pathlib.Path(__file__).resolve().parents[1]
MAP, PROVED, TESTS = "docs/MAP.md", "docs/PROVED.md", "docs/TESTS.md"
#: A law with its comment, and any public function.
LAW = re.compile(r"((?:^/// .*\n)+)pub fn (\w+)", re.M)
FUNCTION = re.compile(r"^pub fn (\w+)", re.M)
#: What begins the lines of a file's first comment, by its ending.
MARKS = {".rt": "//!", ".rs": "//!", ".antt": "--"}
#: The folders of a crate's wrong bodies: those that `rt ci` tries, and those that bindings/test tries.
EDITS = ("must-fail", "wrong")
#: The sources outside the crates: their folders, and their endings. The folders in MADE have none.
OTHERS = ("bindings", "describe", "scripts")
ENDINGS = {".c", ".h", ".py", ".rs"}
MADE = {"build", "out", "target", "__pycache__"}
#: What a file declares for other crates, and what for its own.
PUBLIC = {
    ".rt": re.compile(r'^pub (?:extern "C" )?(?:fn|struct|enum|trait|type|mod|const|static) (\w+)', re.M),
    ".antt": re.compile(r"^(?:abbrev |unfoldable )?pub (?:record |data )?(?!mod |use )(\S+)", re.M),
}
OWN = re.compile(r"^pub\(\w+\) (?:fn|struct|enum|trait|type|const|static) (\w+)", re.M)
#: The pages of crates, whose first comments are below headings, and the lists of modules.
WITHOUT_ROW = {"lib.rt", "main.rt", "Lib.antt"}


def unlinked(text):
    """A comment whose links of documentation are shown as their words."""
    return re.sub(r"\[(`[^`]+`)\](?:\([^)]*\))?", r"\1", text)


def first_paragraph(path):
    """The first paragraph of the comment that begins a file. LookupError if there is none."""
    text = path.read_text()
    if path.suffix == ".py":
        lines = (ast.get_docstring(ast.parse(text)) or "").split("\n\n")[0].splitlines()
    elif path.suffix in (".c", ".h"):
        comment = re.match(r"/\*(?: \*|\s)*(.*?)\s*(?:\n \*\n|\*/)", text, re.S)
        lines = re.split(r"\s*\n \* ", comment[1]) if comment else []
    else:
        mark = MARKS[path.suffix]
        lines = re.match(rf"(?:{mark} .*\n)*", text)[0].replace(f"{mark} ", "").splitlines()
    if not lines:
        raise LookupError(f"{path.relative_to(TOP)}: no first line says what the file holds")
    return unlinked(" ".join(lines)).replace("|", r"\|")


def names_of(path):
    """The names that a file declares for others, those for its own crate in parentheses."""
    text = path.read_text()
    public = ", ".join(f"`{name}`" for name in PUBLIC[path.suffix].findall(text))
    own = ", ".join(f"`{name}`" for name in OWN.findall(text))
    return " ".join(filter(None, [public, own and f"({own})"]))


def row(path):
    """The row of a source: its path, its first comment and its names."""
    names = names_of(path) if path.suffix in PUBLIC else ""
    return f"| {path.relative_to(TOP)} | {first_paragraph(path)} | {names} |"


def by_folder(paths):
    """Files in order, those of a folder before those of the folders in it."""
    return sorted(paths, key=lambda path: (path.parent, path.name))


def files_of(crate):
    """The sources of a crate, and then its definitions."""
    folder = TOP / "crates" / crate
    found = [*by_folder((folder / "src").rglob("*.rt")), *by_folder((folder / "specs").rglob("*.antt"))]
    return [path for path in found if path.name not in WITHOUT_ROW]


def lemmas_of(crate):
    """The modules of lemmas of a crate."""
    return [path for path in sorted((TOP / "crates" / crate / "proofs").glob("*.antt")) if path.name not in WITHOUT_ROW]


def edits_of(crate, folder):
    """The wrong bodies of a crate: those that the gate tries, or others."""
    return sorted((TOP / "crates" / crate / folder).glob("*.edit"))


def crates():
    """The crates, each after those that it uses."""
    below = crates_below()
    return sorted(below, key=lambda name: level(name, below))


def others(folder):
    """The sources of a folder outside the crates."""
    found = [path for path in by_folder((TOP / folder).rglob("*")) if path.suffix in ENDINGS]
    return [path for path in found if not MADE.intersection(path.relative_to(TOP).parts)]


def sources():
    """Each source that must say what it holds."""
    of_crates = [path for crate in crates() for path in [*files_of(crate), *lemmas_of(crate)]]
    return [*of_crates, *(path for folder in OTHERS for path in others(folder))]


def purpose(crate):
    """The first paragraph of a crate's page."""
    folder = TOP / "crates" / crate / "src"
    return first_paragraph(next(it for it in (folder / "lib.rt", folder / "main.rt") if it.is_file()))


def crate_rows():
    """The table of the crates: what each is for, the crates that it uses, without those that these use, and the ported ones."""
    below, named = crates_below(), all_named()
    yield from ("| Crate | What it is for | Uses | Ported crates |", "|---|---|---|---|")
    for crate in crates():
        used = ", ".join(f"`{it}`" for it in direct(crate, below))
        ported = ", ".join(it for it in named[crate] if it not in below)
        yield f"| `{crate}` | {purpose(crate).removesuffix('.')} | {used} | {ported} |"


def law_lines():
    """The laws by their crates, each with its comment. LookupError if one has none."""
    for crate in crates():
        path = TOP / "crates" / crate / "src" / "laws.rt"
        text = path.read_text() if path.is_file() else ""
        laws = {name: comment.replace("/// ", "").split("\n") for comment, name in LAW.findall(text)}
        for name in FUNCTION.findall(text):
            if name not in laws:
                raise LookupError(f"{path.relative_to(TOP)}: no comment says what {name} means")
        if laws:
            yield from ("", f"Of `{crate}`:", "", *(f"- `{name}`: {unlinked(' '.join(lines).strip())}" for name, lines in laws.items()))
    yield ""


def filled(path, name, lines):
    """A page with these lines between the two comments that name them. LookupError if there are no such comments."""
    text = (TOP / path).read_text()
    region = re.compile(rf"(?<=<!-- from {name} -->\n).*(?=<!-- end of {name} -->\n)", re.S)
    if not region.search(text):
        raise LookupError(f"there are no two comments with {name}")
    return region.sub(lambda _: "".join(f"{line}\n" for line in lines), text)


def planted(crate, folder):
    """What the wrong bodies in a folder of a crate plant, as their names say."""
    return "; ".join(path.stem.replace("_", " ") for path in edits_of(crate, folder))


def edit_lines():
    """How many wrong bodies there are, and those of each crate."""
    counts = [sum(len(edits_of(crate, folder)) for crate in crates()) for folder in EDITS]
    having = [crate for crate in crates() if any(edits_of(crate, folder) for folder in EDITS)]
    yield f"There are {sum(counts)} in {len(having)} crates; `rt ci` tries {counts[0]}, and `bindings/test` {counts[1]}."
    yield from ("", "| Crate | `rt ci` tries | `bindings/test` tries |", "|---|---|---|")
    for crate in having:
        yield f"| `{crate}` | {' | '.join(planted(crate, folder) for folder in EDITS)} |"


def whole():
    """The row of each source, and of each wrong body."""
    yield from map(row, sources())
    for path in [path for crate in crates() for folder in EDITS for path in edits_of(crate, folder)]:
        yield f"| {path.relative_to(TOP)} | A wrong body that the prover refuses. | |"


#: How each page is written.
PAGES = {
    MAP: lambda: filled(MAP, "crates.txt", crate_rows()),
    PROVED: lambda: filled(PROVED, "the laws of the crates", law_lines()),
    TESTS: lambda: filled(TESTS, "the wrong bodies of the crates", edit_lines()),
}


def comment_fault(path):
    """What is wrong with the comment that a source begins with, or nothing."""
    try:
        first_paragraph(path)
    except LookupError as error:
        return str(error)
    return ""


def library_faults(crate):
    """For each library of a crate's line, that none of its sources names it, or nothing."""
    sources = [path for part in ("src", "specs", "proofs") for path in (TOP / "crates" / crate / part).rglob("*") if path.is_file()]
    text = "\n".join(path.read_text() for path in sources)
    for library in all_named()[crate]:
        yield "" if re.search(rf"\b{library}(?:::|\.)", text) else f"crates.txt: {crate} does not name {library}"


def page_fault(path):
    """How a page differs from what would be written, or nothing."""
    try:
        return "" if PAGES[path]() == (TOP / path).read_text() else f"{path}: it is not what scripts/file_rows.py writes"
    except LookupError as error:
        return f"{path}: it cannot be written: {error}"


def check():
    libraries = [fault for crate in crates() for fault in library_faults(crate)]
    found = [*map(comment_fault, sources()), *libraries, *map(page_fault, PAGES)]
    for sentence in filter(None, found):
        print(sentence)
    failed = sum(map(bool, found))
    print(f"{len(found) - failed} passed, {failed} failed")
    return 0 if failed == 0 else 1


def main(words):
    if words == ["--check"]:
        return check()
    if words == ["--whole"]:
        # a reader such as `head` may end before the rows do
        signal.signal(signal.SIGPIPE, signal.SIG_DFL)
        print(*whole(), sep="\n")
        return 0
    if words:
        print("usage: file_rows.py [--check | --whole]", file=sys.stderr)
        return 2
    for path, write in PAGES.items():
        (TOP / path).write_text(write())
    return 0


if __name__ == "__main__":
    sys.exit(main(sys.argv[1:]))
