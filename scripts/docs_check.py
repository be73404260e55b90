#!/usr/bin/env python3
"""Compares pages with what they describe, and prints what differs: docs_check.py

- PROVED.md: the public functions that have conditions, and the tests that it names; TESTS.md: the tests that it names
- MAP.md: each file and each proof by hand that it names is there (its crates are compared by file_rows.py)
- MAP.md: how many files a new table takes, by table_files.py
- GUIDE.md and petool(1): the commands, options and arguments of the program that PETOOL_PROGRAM names, and README.md, which may
  leave out options; without that program this is left out
- README.md and GUIDE.md: the test command of .ci/run
- FORMAT.md: the fields of the load configuration, with their offsets and widths, as pe_records reads them
- the versions of the program, the library, its bindings and its package: that of the file VERSION
- the dates of the manual pages: that of the last version in Debian's changelog
- PROVED.md and README.md: the ported crates of crates.txt, those of tests and of the benchmark apart

Each sentence names the page and the thing; the last line is 'N passed, M failed', and the status is 1 if something differs.
"""

import email.utils
import os
import pathlib
import re
import shlex
import subprocess
import sys

sys.dont_write_bytecode = True

from table_files import count_faults

TOP = pathlib.Path(__file__).resolve().parents[1]
PROVED, TESTS, MAP = "docs/PROVED.md", "docs/TESTS.md", "docs/MAP.md"
GUIDE, README, MAN = "docs/GUIDE.md", "README.md", "man/petool.1"
RUN = ".ci/run"
FORMAT, LOAD_NAMES, LOAD_LAYOUT = "docs/FORMAT.md", "crates/pe_records/src/names.rt", "crates/pe_records/src/load_layout.rt"
CHANGELOG, MANUALS = "packaging/debian/changelog", ("man/petool.1", "man/petool.h.3")
#: Folders of what is made, which no page names.
MADE = {".git", "out", "target", "__pycache__"}
#: The folders of tests that a page names without one, by their endings, and the lists of cases that PROVED.md names by one word.
FOLDERS = {
    ".py": ["bindings/python/tests"],
    ".rt": ["crates/test_images/src/tests", "crates/test_calls/src/tests/files"],
}
LISTS = [
    "bindings/python/tests/cases/texts",
    "bindings/python/tests/cases/views",
    "crates/test_cases/data/sets",
    "crates/test_cases/data/words",
]
#: What the program and the library are made of; all other crates are of tests and of the benchmark.
MADE_OF = ("petool", "petool_c")
#: Crates that are in std, which a crate names only if its proofs cite theirs.
PARTS_OF_STD = {"core", "std_alloc"}
#: Words between the names of ported crates.
PLAIN_WORDS = set("and for views in the benchmark alone".split())
#: The beginning of a trait, an `impl`, a function, or a condition.
ITEM = re.compile(
    r"^(?:(?P<kind>(?:pub )?trait|impl(?:<.*?>)?(?: .* for)?) (?P<owner>\w+)"
    r'|(?P<indent> *)(?P<before>(?:pub(?:\(\w+\))? )?(?:extern "C" )?)fn (?P<name>\w+)| *requires\b)',
    re.M,
)
#: Where the version is besides the file VERSION; cargo needs a third number.
VERSIONS = {
    "crates/pe_words/src/commands.rt": r'^const VERSION: &str = "(.+)";$',
    "bindings/python/pyproject.toml": r'^version = "(.+)"$',
    "bindings/rust/petool-sys/Cargo.toml": r'^version = "(\d+\.\d+)\.\d+"$',
    "bindings/rust/petool/Cargo.toml": r'^version = "(\d+\.\d+)\.\d+"$',
    "docs/CHANGES.md": r"\A# Changes\n\n## (\S+)$",
    "packaging/debian/changelog": r"\Apetool \((.+)-\d+\)",
    "man/petool.1": r'^\.TH .* "petool (\S+)"',
    "man/petool.h.3": r'^\.TH .* "libpetool (\S+)"',
}
#: Where it is a number: its first part times 65,536, and its second part.
NUMBERS = {
    "bindings/c/petool.h": r"^#define PETOOL_VERSION_NUMBER (\w+)$",
    "crates/petool_c/src/words.rt": r"^    ensures \{ result ≡ (0x\w+) \}$",
}


def read(path):
    return (TOP / path).read_text()


def section(text, heading):
    """The text below a heading, up to the next one of its level or a higher one. LookupError if there is no such heading."""
    _, found, below = text.partition(f"\n{heading}\n")
    if not found:
        raise LookupError(f"there is no heading {heading!r}")
    return re.split(rf"^#{{1,{heading.count('#')}}} ", below, maxsplit=1, flags=re.M)[0]


def rows(text):
    """The cells of each row of the tables in a text."""
    lines = [line for line in text.splitlines() if line.startswith("| ")]
    return [[cell.strip() for cell in re.split(r"(?<!\\)\|", line)[1:-1]] for line in lines]


def names(text):
    """The words in backticks."""
    return re.findall(r"`([^`]+)`", text)


def crates():
    """The libraries that each crate of crates.txt names."""
    lines = re.findall(r"^(\w+)(?: \w+)?:(.*)$", read("crates.txt"), re.M)
    return {name: libraries.split() for name, libraries in lines}


def handed_out(crate):
    """The public modules of a crate, and the names that it exports from others."""
    text = re.sub(r"//.*", "", read(f"crates/{crate}/src/lib.rt"))
    uses = re.findall(r"^pub use ([^;]+);", text, re.M)
    named = {name for use in uses for name in re.findall(r"\w+(?=\s*(?:,|\}|$))", use)}
    return set(re.findall(r"^pub mod (\w+);", text, re.M)), named


def conditioned(text):
    """The type or trait and the name of each function of a source that has conditions, and is public if its type or trait is."""
    owner, is_trait, name = "", False, ""
    for found in ITEM.finditer(text):
        if found["owner"]:
            owner, is_trait = found["owner"], found["kind"] == "pub trait"
        elif found["name"]:
            owner = owner if found["indent"] else ""
            is_public = found["before"].startswith("pub ") or (owner and is_trait)
            name = found["name"] if is_public else ""
        elif name:
            yield owner, name


def public_conditions():
    """The public functions that have conditions, each with its source."""
    found = {}
    for crate in [it for it in crates() if (TOP / f"crates/{it}/src/lib.rt").is_file()]:
        modules, named = handed_out(crate)
        folder = TOP / "crates" / crate / "src"
        for file in [it for it in folder.rglob("*.rt") if "tests" not in it.relative_to(folder).parts]:
            module = str(file.relative_to(folder).with_suffix(""))
            for owner, name in conditioned(file.read_text()):
                # petool_c exports to C what no module does
                if crate == "petool_c" or module in modules or (owner or name) in named:
                    found[f"{owner}::{name}".lstrip(":")] = file.relative_to(TOP)
    return found


def condition_faults():
    """Whether PROVED.md names the public functions that have conditions, and no others."""
    cells = [row[1] for row in rows(section(read(PROVED), "## Every function"))]
    # a module is not part of the name
    named = {re.sub(r"^[a-z]\w*::", "", it) for cell in cells for it in names(cell)}
    found = public_conditions()
    yield from (f"{PROVED}: {it} of {found[it]} has conditions, and is not named" for it in sorted(found.keys() - named))
    yield from (f"{PROVED}: {it} is named, and is no public function with conditions" for it in sorted(named - found.keys()))


def paths_of(cell):
    """The paths in a cell: a file without a folder is in the folder of the one before it."""
    folder = ""
    for name in names(cell):
        folder = name[: name.rfind("/") + 1] or folder
        yield name if "/" in name else folder + name


def endings():
    """The paths of the repository, and their ends."""
    found = set()
    for folder, folders, files in os.walk(TOP):
        folders[:] = [it for it in folders if it not in MADE]
        parts = folder[len(str(TOP)) :].split("/")
        above = ["/".join([*parts[at:], ""]) for at in range(1, len(parts) + 1)]
        found |= {end + name for end in above for name in [*files, *(f"{it}/" for it in folders)]}
    return found


def file_faults():
    """Whether each file and each folder is there that MAP.md names anywhere: by its path, by the end of it, or as a link."""
    text = read(MAP)
    known = endings()
    form = re.compile(r"\w[\w./-]*\.(?:rt|antt|edit|py|rs|c|h|md|txt|svg)|\w[\w.-]*/(?:[\w.-]+/)*")
    yield from (f"{MAP}: there is no {it}" for it in sorted(set(names(text)) - known) if form.fullmatch(it))
    links = re.findall(r"\]\(([^)#:]+)[^):]*\)", text)
    yield from (f"{MAP}: there is no {it}" for it in links if not (TOP / "docs" / it).exists())
    named = [path for row in rows(section(text, "## Outside the crates")) for path in paths_of(row[0])]
    yield from (f"{MAP}: there is no {it}" for it in named if not (TOP / it).exists())


def proofs_named(cell):
    """The functions that a cell names as `function` and `function` of `Type`, in `crate`, each as crate, type and name."""
    known = crates()
    found, of_type, loose = [], [], []
    for name in names(cell):
        if name in known:
            found += [(name, *it) for it in of_type + [("", it) for it in loose]]
            of_type, loose = [], []
        elif name[0].isupper():
            of_type += [(name, it) for it in loose]
            loose = []
        else:
            loose.append(name)
    return set(found)


def proof_faults():
    """Whether the proofs by hand are those that MAP.md names."""
    cell = next((it[1] for it in rows(read(MAP)) if it[0] == "`<path>/Proof.antt`"), "")
    named = proofs_named(cell)
    found = set()
    for file in TOP.glob("crates/*/proofs/**/Proof.antt"):
        crate, _, _, *owner, name = file.parent.relative_to(TOP / "crates").parts
        found.add((crate, "".join(owner), name))
    yield from (f"{MAP}: the proof by hand of {' '.join(it)} is not named" for it in sorted(found - named))
    yield from (f"{MAP}: there is no proof by hand of {' '.join(it)}" for it in sorted(named - found))


def test_faults(page):
    """Whether the tests are there that a page names: by their paths, or without a folder."""
    form = re.compile(r"(?:bindings|crates|scripts)/[\w./-]+|\w+\.(?:py|rt|c)")
    for name in sorted({it for it in names(read(page)) if form.fullmatch(it)}):
        folders = [""] if "/" in name else FOLDERS.get(pathlib.PurePath(name).suffix, [])
        if not any((TOP / it / name).exists() for it in folders):
            yield f"{page}: there is no test {name}"


def list_faults():
    """Whether the lists of cases are there that PROVED.md names by one word."""
    yield from (f"{PROVED}: there is no {it}" for it in LISTS if not (TOP / it).is_file())


def command_faults():
    """Whether the pages name the test command that .ci/run runs."""
    command = [line for line in read(RUN).splitlines() if not line.startswith("#")][-1]
    pages = [it for it in (README, GUIDE) if f"\n    {command}\n" not in read(it)]
    yield from (f"{it}: it does not name the test command of {RUN}, which is {command}" for it in pages)


def said(program, *words):
    return subprocess.run([program, *words], stdout=subprocess.PIPE, check=True, text=True).stdout


def rows_of_help(text, heading):
    """What each row of help below a heading begins with: a word, or an option and its value."""
    part = text.partition(f"{heading}:\n")[2].partition("\n\n")[0]
    return re.findall(r"^ {2,}(\S.*?) {2,}\S", part, re.M)


def words_of_help(program):
    """The options and the arguments of each command by its help; those of the program itself have an empty name."""
    helped = {"": said(program, "--help")}
    helped.update({name: said(program, "help", name) for name in rows_of_help(helped[""], "Commands")})
    found = {}
    for name, text in helped.items():
        options = {re.sub(r"^-\w, |[<>]", "", it) for it in rows_of_help(text, "Options")}
        usage = re.search(r"^Usage: petool ?(.*)$", text, re.M)[1].split()
        arguments = [re.sub("[<>]", "", it) for it in usage if it not in (name, "[OPTIONS]", "<COMMAND>")]
        # one row of the pages describes the --help of all commands
        found[name] = (options - {"--help"} if name else options, arguments)
    return found


def words_of_synopses(synopses):
    """The options and the arguments of each command by synopses such as `petool at [--address | --file] FILE ADDRESS`."""
    found = {}
    for synopsis in synopses:
        command, rest = re.match(r"petool ?([a-z]\w*)? ?(.*)", re.sub(r"\\?\|", " ", synopsis)).groups("")
        options, arguments = found.setdefault(command, (set(), []))
        for item in re.findall(r"\[[^\]]*\](?:\.\.\.)?|\S+", rest):
            told = re.findall(r"--[\w-]+(?: [A-Z]+)?", item)
            options.update(it for it in told if it != "--help" or not command)
            arguments += [] if told else [item]
    return found


def shown(line):
    """What a line of petool(1) shows: a macro of two letters joins its words, and a comment shows nothing."""
    if line.startswith('.\\"'):
        return ""
    line = re.sub(r"\\f[BIP]", "", line.replace("\\-", "-"))
    if not line.startswith("."):
        return line
    macro, *words = shlex.split(line)
    return ("" if len(macro) == len(".BR") else " ").join(words)


def part_of_manual(heading):
    return re.search(rf"^\.SH {heading}\n(.*?)(?=^\.SH |\Z)", read(MAN), re.M | re.S)[1]


def manual_synopses():
    lines = part_of_manual("SYNOPSIS").split(".br\n")
    return [" ".join(" ".join(map(shown, it.splitlines())).split()) for it in lines]


def row_synopses(page):
    """The synopses of the table of commands, each with the options that its row names."""
    found = [row for row in rows(read(page)) if row[0].startswith("`petool ")]
    return [(name, names(row[1])) for row in found for name in names(row[0]) if name.startswith("petool ")]


def table_faults(page, helped, is_short=False):
    """Whether a table of commands names those that help has, with their options and arguments; a short one may lack options."""
    synopses = row_synopses(page)
    yield from word_faults(page, [it for it, _ in synopses], helped, is_short)
    for synopsis, told in synopses:
        command = next(iter(words_of_synopses([synopsis])))
        known = {it.split()[0] for it in helped.get(command, [()])[0]}
        yield from (f"{page}: {synopsis} has no {it}" for it in told if it.startswith("--") and it not in known)


def word_faults(page, synopses, helped, is_short=False):
    """Whether synopses name the commands, options and arguments that help has, and no others; short ones may lack options."""
    told = words_of_synopses(synopses)
    # `help` says what `--help` says, and may be left out
    missing = helped.keys() - told.keys() - ({"help", ""} if is_short else {"help"})
    yield from (f"{page}: petool {it or 'without a command'} is not named" for it in missing)
    yield from (f"{page}: there is no command {it}" for it in told.keys() - helped.keys())
    for command in [it for it in helped if it in told]:
        name = f"petool {command}".rstrip()
        (options, arguments), (right, takes) = told[command], helped[command]
        yield from (f"{page}: {name} has {it}, which is not named" for it in sorted(right - options) if not is_short)
        yield from (f"{page}: {name} has no {it}" for it in sorted(options - right))
        if arguments != takes:
            yield f"{page}: {name} takes {' '.join(takes) or 'no argument'}, and not {' '.join(arguments) or 'none'}"


def manual_options():
    """The options that petool(1) has paragraphs for, by the commands that these name; those of the program itself name none."""
    found = {}
    for tag in map(shown, re.findall(r"^\.TP\n(.*)$", part_of_manual("OPTIONS"), re.M)):
        option, _, commands = re.sub(r"^-\w, ", "", tag).rstrip(")").partition(" (")
        for command in commands.split(", "):
            found.setdefault(command, set()).add(option)
    return found


def manual_faults(program, helped):
    """Whether petool(1) has paragraphs for each command and option, no option that is not in help, and the program's version."""
    named = set(re.findall(r"^\.TP\n\.B (\w+)$", part_of_manual("COMMANDS"), re.M))
    yield from (f"{MAN}: {it} is no command, or has no paragraph" for it in sorted(named ^ (helped.keys() - {""})))
    paragraphs = manual_options()
    for command in [it for it in helped if it != "help"]:
        missing = helped[command][0] - paragraphs.get(command, set())
        yield from (f"{MAN}: there is no paragraph for {it} of petool {command}".rstrip() for it in sorted(missing))
    options = {it.split()[0] for options, _ in helped.values() for it in options}
    told = set(re.findall(r"--[\w-]+", read(MAN).replace("\\-", "-")))
    yield from (f"{MAN}: there is no option {it}" for it in sorted(told - options))
    version = said(program, "--version").strip()
    if version != f"petool {read('VERSION').strip()}":
        yield f"VERSION: the program is {version}"


def load_fields():
    """The fields of the load configuration as pe_records has them: the name, both offsets, and the width."""
    named = re.search(r"^static LOAD_FIELDS: .*?^\];$", read(LOAD_NAMES), re.M | re.S)[0]
    names_of = re.findall(r'^    \(\d+, "([\w.]+)"\),$', named, re.M)
    laid_out = re.findall(r"^    Field\((\d+), (\d+), Width::(\w+)\),$", read(LOAD_LAYOUT), re.M)
    widths = {"Two": "2", "Four": "4", "Address": "4 or 8"}
    return [[name, start, wide, widths[width]] for name, (start, wide, width) in zip(names_of, laid_out)]


def load_faults():
    """Whether FORMAT.md has these fields, in their order."""
    told, found = rows(section(read(FORMAT), "### Fields of the load configuration"))[1:], load_fields()
    yield from (f"{FORMAT}: the field {it[0]} is not told as {', '.join(it[1:])}" for it in found if it not in told)
    yield from (f"{FORMAT}: there is no field {', '.join(it)}" for it in told if it not in found)
    if sorted(told) == sorted(found) and told != found:
        yield f"{FORMAT}: the fields of the load configuration are in another order"


def version_faults():
    """Whether the version is that of the file VERSION everywhere."""
    version = read("VERSION").strip()
    for path, form in VERSIONS.items():
        found = re.search(form, read(path), re.M)
        if not found or found[1] != version:
            yield f"{path}: the version is {found[1] if found else 'missing'}, and that of VERSION {version}"
    first, second = map(int, version.split("."))
    for path, form in NUMBERS.items():
        found = re.search(form, read(path), re.M)
        if not found or int(found[1].replace("_", ""), 16) != first << 16 | second:
            yield f"{path}: the version is {found[1] if found else 'missing'}, and that of VERSION {version}"


def date_faults():
    """Whether the manual pages have the date of the last version in the changelog."""
    told = re.search(r"^ -- .*>  (.+)$", read(CHANGELOG), re.M)[1]
    date = email.utils.parsedate_to_datetime(told).date().isoformat()
    for path in MANUALS:
        found = re.match(r'\.TH \S+ \d "(.*?)"', read(path))[1]
        if found != date:
            yield f"{path}: the date is {found or 'missing'}, and that of {CHANGELOG} {date}"


def ported(all_crates):
    """The libraries that are not crates of the repository: of the program and the library, and of other crates only."""
    below = list(MADE_OF)
    for crate in below:
        below += [it for it in all_crates[crate] if it in all_crates and it not in below]
    used = {it for crate in below for it in all_crates[crate]} - all_crates.keys()
    return used, {it for libraries in all_crates.values() for it in libraries} - all_crates.keys() - used - PARTS_OF_STD


def trust_faults(page):
    """Whether a page trusts the ported crates of crates.txt, and lists those apart that only tests and the benchmark use."""
    all_crates = crates()
    told = re.search(r"ported crates[^.:]*:([^.]*)\.", read(page))
    text = told[1] if told else ""
    lists = re.sub(r"\(of `\w+`\)", "", text).partition("in tests")[::2]
    for part, right in zip(lists, ported(all_crates)):
        named = set(re.findall(r"\w+", part)) - PLAIN_WORDS
        yield from (f"{page}: {it} is not among the ported crates that are trusted there" for it in sorted(right - named))
        yield from (f"{page}: {it} is no ported crate of crates.txt, or not used there" for it in sorted(named - right))
    for name, crate in re.findall(r"(\w+) \(of `(\w+)`\)", text):
        if name not in all_crates.get(crate, []):
            yield f"{page}: {name} is not named by {crate}"


def comparisons(program):
    """What is wrong by each comparison: nothing if page and source agree."""
    yield condition_faults()
    yield from (file_faults(), proof_faults(), list_faults(), command_faults(), version_faults(), date_faults())
    yield count_faults(read(MAP))
    yield load_faults()
    yield from map(test_faults, (PROVED, TESTS))
    yield from map(trust_faults, (PROVED, README))
    if program:
        helped = words_of_help(program)
        yield table_faults(GUIDE, helped)
        yield table_faults(README, helped, is_short=True)
        yield word_faults(MAN, manual_synopses(), helped)
        yield manual_faults(program, helped)


def main():
    program = os.environ.get("PETOOL_PROGRAM")
    if not program:
        print(f"the commands of the program, in {GUIDE}, {README} and {MAN}: left out without program: PETOOL_PROGRAM names none")
    try:
        found = [list(it) for it in comparisons(program)]
    except (LookupError, OSError, subprocess.CalledProcessError) as error:
        print(f"docs_check.py: {error}\n0 passed, 1 failed")
        return 1
    for sentence in [sentence for sentences in found for sentence in sentences]:
        print(sentence)
    failed = sum(map(bool, found))
    print(f"{len(found) - failed} passed, {failed} failed")
    return 0 if failed == 0 else 1


if __name__ == "__main__":
    sys.exit(main())
