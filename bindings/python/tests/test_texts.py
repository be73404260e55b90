"""The lists `texts` and `views` of `cases`: what the program prints for one file and for sets, and what the calls return that check
headers and look up exports. The first word of a case says what is run:

`check`, `dump` and `object` print that command's text of a file, which further words change; `tables` the lines of a dump's
exports, imports and base relocations; `begins` the first line of an object's; `show` and `json`, with `--all` or without, and `at`
with places before the file, that command's; `refusal` the line of a page that shows the fault. `map` and words of a set print the
set's report, with a window if there is one. `rebase` and a base print its line and the length of the new file, `rebased` also what
differs in it. All of them print the status. `head` and `layout` print the first fault of a file's headers, and of its section table
too; `find` and names or ordinals what they export. `faults` prints the words of each number, `kind` the kind of file that its first
bytes show, and `names` the name of each value and flag. Files whose tables have over 1,000 rows are built here instead.
"""

import collections
import ctypes
import itertools
import json
import os
import pathlib
import struct
import tempfile
import unittest

import petool
from petool import _library

from . import data
from .cases import SetOfWords, cases, module_name, run, write_set
from .files import edited, library, numbers, put, with_data
from .lookups import look_up

PROGRAM = os.environ.get("PETOOL_PROGRAM")
ALL = collections.defaultdict(list)
for _name in ("texts", "views"):
    for _line, _answer in cases(_name):
        ALL[_line.split(" ")[0]].append((_line, _answer))

#: How many cases of each kind there are.
COUNTS = {
    "head": 93, "layout": 34, "find": 28, "tables": 172, "check": 33, "dump": 49, "object": 102, "begins": 81,
    "rebase": 43, "rebased": 8, "map": 14, "faults": 1, "kind": 35, "names": 1,
    "show": 70, "json": 68, "refusal": 51, "at": 99,
}  # fmt: skip

PLACES = {
    petool.Place.FILE: "file 0x{:08x}",
    petool.Place.RVA: "rva 0x{:08x}",
    petool.Place.ADDRESS: "address 0x{:016x}",
    petool.Place.ITEM: "item {}",
}


def fault_line(fault):
    """A fault with its number, its image and its place."""
    return f"fault {fault.number} image {fault.image} {PLACES[fault.place].format(fault.at)}"


class Cases(unittest.TestCase):
    maxDiff = None

    def each(self, kind, answer_of):
        """Compares the result of each case of a kind with its stored answer."""
        self.assertEqual(len(ALL[kind]), COUNTS[kind])
        for line, answer in ALL[kind]:
            with self.subTest(line[:200]):
                self.assertEqual(answer_of(line.split(" ")[1:]), answer)


class Lists(unittest.TestCase):
    def test_each_case_is_of_a_kind_that_is_run(self):
        self.assertEqual(sorted(ALL), sorted(COUNTS))


class Calls(Cases):
    """What the calls return."""

    @staticmethod
    def first_fault(words):
        try:
            petool.Image(edited(words), check=False).close()
        except petool.FormatFault as fault:
            return fault
        return None

    def layout(self, words):
        fault = self.first_fault(words)
        return fault_line(fault) if fault else "no fault"

    def head(self, words):
        fault = self.first_fault(words)
        # 13 to 15, of the sections, come after those of the headers
        return fault_line(fault) if fault and fault.number <= 12 else "no fault"

    def test_the_first_fault_of_headers(self):
        self.each("head", self.head)

    def test_the_first_fault_of_headers_and_sections(self):
        self.each("layout", self.layout)

    @staticmethod
    def target(file, key):
        """What `#` and an ordinal, or a name, export."""
        found = look_up(file, int(key[1:]) if key.startswith("#") else module_name(key))
        if found is None:
            return "nothing"
        if isinstance(found, petool.Rva):
            return f"rva 0x{found.rva:08x}"
        exported = f"#{found.key}" if isinstance(found.key, int) else f'"{found.key.decode()}"'
        return f'forward "{found.module.decode()}" {exported}'

    def find(self, words):
        file = edited(words[1:])
        return "\n".join(f"{key} {self.target(file, key)}" for key in words[0].split(","))

    def test_exports_are_looked_up_by_name_and_by_ordinal(self):
        self.each("find", self.find)

    def faults(self, _):
        lines = []
        for number in range(1 << 16):
            subject, rule = _library.no_text(), _library.no_text()
            if _library.library.petool_fault_words(number, ctypes.byref(subject), ctypes.byref(rule)) == _library.OK:
                texts = [ctypes.string_at(text.at, text.len).decode() for text in (subject, rule)]
                lines.append(f"{number} {texts[0]}: {texts[1]}")
        return "\n".join(lines)

    def test_the_words_of_each_number(self):
        self.each("faults", self.faults)


def with_imports(first, others):
    """An image with `first` imports of the module `M`, and one of each of `others` modules, which are `A` and `B` by turns. The
    lookup tables of these are the end of that of `M`, and the slots come after the section."""
    lookup = 0x1000 + 20 * (others + 2)
    name, one, slot = lookup + 4 * (first + 1), lookup + 4 * (first - 1), 0x20000
    rows = [numbers(lookup, 0, 0, name, slot)]
    rows += [numbers(one, 0, 0, name + 2 + index % 2 * 2, slot + 4 * (first + index)) for index in range(others)]
    section = b"".join(rows) + bytes(20) + numbers(*[0x80000001] * first, 0) + b"M\0A\0B\0"
    return with_data([(0x90, numbers(0x40000)), (0xC0, numbers(0x1000, 20))], section)


def with_fixups(pages):
    """An image with two base relocations in each of so many pages."""
    blocks = [numbers(page << 12, 12) + struct.pack("<HH", 0x3000, 0x3008) for page in range(pages)]
    return with_data([(0x90, numbers(pages << 12)), (0xE0, numbers(0x1000, 12 * pages))], b"".join(blocks))


def with_relocations(count):
    """An object whose section has so many relocations, all of its only symbol."""
    header = struct.pack("<HHIIIHH", 0x8664, 1, 0, 60 + 10 * count, 1, 0, 0)
    section = struct.pack("<8s6IHHI", b".text", 0, 0, 0, 0, 60, 0, count, 0, 0)
    return header + section + bytes(10 * count) + struct.pack("<8sIHHBB", b"s", 0, 1, 0, 2, 0) + numbers(4)


#: Files, and how lines of their pages end that have a count over 999; each is the end of one line.
COUNTED = [
    (library([b"m.x"] * 1001 + [b""] * 1004), ["   2,005 exports, 1,001 forwarders", "Exports (2,005)"]),
    (with_imports(1002, 1007), ["   2,009 imports:", " B 1, A 1 and 994 more below", "Imports (2,009)", "  M (1,002)"]),
    (with_fixups(1001), ["   2,002 fixups in 1,001 pages", "Base relocations (2,002)"]),
    (with_relocations(1001), ["Relocations (1,001)", "  1 .text (1,001)"]),
]


def split_options(words):
    """The options at the beginning of words, and the other words."""
    options = list(itertools.takewhile(lambda word: word.startswith("--"), words))
    return options, words[len(options) :]


def difference(old, new):
    """The bytes of a file that differ from those of the file that it was made from, each run of them with its offset."""
    places = [at for at in range(len(old)) if old[at] != new[at]]
    starts = [at for at in places if at - 1 not in places]
    ends = [at + 1 for at in places if at + 1 not in places]
    return [f"{start:#x}={new[start:end].hex()}" for start, end in zip(starts, ends)]


@unittest.skipUnless(PROGRAM, "left out without program: PETOOL_PROGRAM names none")
class Program(Cases):
    """What the program prints."""

    def setUp(self):
        folder = tempfile.TemporaryDirectory()
        self.addCleanup(folder.cleanup)
        self.folder = folder.name

    def lines(self, *words):
        """The lines of standard output, and the status. Only a refusal may print something on standard error."""
        done = run([PROGRAM, *words], cwd=self.folder)
        if done.returncode == 0:
            self.assertEqual(done.stderr, b"")
        # split at newlines only: other characters that end lines in Unicode are part of a name
        return done.stdout.decode().split("\n")[:-1], done.returncode

    def write(self, words):
        """Writes the file that words name and change; returns its name."""
        pathlib.Path(self.folder, words[0]).write_bytes(edited(words))
        return words[0]

    def of_file(self, *command, kept=lambda _number, _line: True):
        """What a command prints for the file that words name and change: the lines that are kept, and the status."""

        def answer(words):
            lines, status = self.lines(*command, self.write(words))
            shown = [line for number, line in enumerate(lines) if kept(number, line)]
            return "\n".join([*shown, f"status {status}"])

        return answer

    def test_verdicts(self):
        self.each("check", self.of_file("check"))

    def test_dumps(self):
        self.each("dump", self.of_file("dump"))

    def test_tables(self):
        words = ("export", "import", "fixup", "fault")
        self.each("tables", self.of_file("dump", kept=lambda _, line: line.split(" ")[0] in words))

    def test_objects(self):
        self.each("object", self.of_file("object"))

    def test_heads_of_objects(self):
        self.each("begins", self.of_file("object", kept=lambda number, _: number == 0))

    def with_options(self, command):
        """What a command prints for the file that words after its options name and change."""

        def answer(words):
            options, words = split_options(words)
            return self.of_file(command, *options)(words)

        return answer

    def test_pages(self):
        self.each("show", self.with_options("show"))

    def test_each_count_on_a_page_has_commas(self):
        for number, (file, ends) in enumerate(COUNTED):
            with self.subTest(number):
                pathlib.Path(self.folder, "many").write_bytes(file)
                lines, status = self.lines("show", "--all", "many")
                self.assertEqual(([sum(line.endswith(end) for line in lines) for end in ends], status), ([1] * len(ends), 0))

    def test_faults_on_pages(self):
        self.each("refusal", self.of_file("show", kept=lambda _, line: line.startswith("Fault ")))

    def test_lines_of_json(self):
        self.each("json", self.with_options("json"))

    def at(self, words):
        options, words = split_options(words)
        lines, status = self.lines("at", *options, self.write(words[1:]), *words[0].split(","))
        return "\n".join([*lines, f"status {status}"])

    def test_places(self):
        self.each("at", self.at)

    def map(self, words):
        of_words = SetOfWords(" ".join(words))
        with tempfile.TemporaryDirectory() as folder:
            options = ["--known"] * of_words.known
            if of_words.others:
                address, count = of_words.others[-1].split(":")
                options += ["--window", address, "--count", count]
            lines, status = self.lines("map", *options, *write_set(folder, of_words.members))
        return "\n".join([*lines, f"status {status}"])

    def test_reports_of_sets(self):
        self.each("map", self.map)

    def rebased_files(self, words):
        target = pathlib.Path(self.folder, "new.dll")
        target.unlink(missing_ok=True)
        done = run([PROGRAM, "rebase", words[0], self.write(words[1:]), "new.dll"], cwd=self.folder)
        new = target.read_bytes() if target.exists() else b""
        return f"{done.stdout.decode()}status {done.returncode} length {len(new):#x}", new

    def rebase(self, words):
        return self.rebased_files(words)[0]

    def rebased(self, words):
        line, new = self.rebased_files(words)
        return "\n".join([line, *difference(edited(words[1:]), new)])

    def test_lines_of_files_at_other_bases(self):
        self.each("rebase", self.rebase)

    def test_what_differs_in_files_at_other_bases(self):
        self.each("rebased", self.rebased)

    def told_kind(self, command, first):
        """The kind of a file that a command does not read, as it reports it on standard error."""
        pathlib.Path(self.folder, "first").write_bytes(first)
        _, _, kind = run([PROGRAM, command, "first"], cwd=self.folder).stderr.decode().rstrip("\n").partition("; ")
        return kind or "nothing"

    def kind(self, words):
        first = bytes.fromhex("".join(words))
        image, other = self.told_kind("object", first), self.told_kind("check", first)
        # each command reports no kind for files that it reads
        if "it is an image" in (image, other) or "it is a COFF object" in (image, other):
            self.assertEqual(sorted((image, other))[1], "nothing")
            return sorted((image, other))[0]
        # `object` also says what reads a big object
        self.assertEqual(image, other + (", which --big reads" if other == "it is a /bigobj object" else ""))
        return other

    def test_what_first_bytes_show(self):
        self.each("kind", self.kind)

    def test_the_list_of_faults_has_the_words_of_each(self):
        [(_, words)] = ALL["faults"]
        rows = (line.split(" ", 1) for line in words.split("\n"))
        self.assertEqual(self.lines("explain"), ([f"{number:>3}  {told}" for number, told in rows], 0))

    def test_names(self):
        self.each("names", self.names)

    def lines_of(self, files):
        """The lines of JSON of files of one length, which are written over each other and read 512 at a time."""
        rows, count = [], 512
        with tempfile.TemporaryDirectory() as folder:
            paths = [os.path.join(folder, str(index)) for index in range(count)]
            for start in range(0, len(files), count):
                part = files[start : start + count]
                for path, file in zip(paths, part):
                    # truncating a file first makes writing it far slower
                    with open(os.open(path, os.O_WRONLY | os.O_CREAT), "wb") as out:
                        out.write(file)
                done = run([PROGRAM, "json", *paths[: len(part)]])
                rows += map(json.loads, done.stdout.decode().split("\n")[:-1])
        self.assertEqual([row["accepted"] for row in rows], [True] * len(files))
        return rows

    def names(self, _):
        return "\n".join([*self.values(), *self.flags(), *self.classes(), *self.types()])

    def values(self):
        """The names of the values of Machine and Subsystem."""
        headers = bytearray(data("v1.dll")[:0x200])
        put(headers, (0x46, b"\0\0"), (0x138, bytes(40)))
        files = [bytes(put(headers, (0x44, struct.pack("<H", it)), (0x9C, struct.pack("<H", it)))) for it in range(1 << 16)]
        for value, row in enumerate(self.lines_of(files)):
            for key in ("machine", "subsystem"):
                self.assertEqual(row["headers"][key], value)
                if f"{key}_name" in row["headers"]:
                    yield f"{key} {value:#x} {row['headers'][f'{key}_name']}"

    def flags(self):
        """The names of the flags of an image, of a DLL and of a section, and of the directories: by their bits."""
        files = []
        for bit in range(32):
            file = bytearray(data("v1.dll"))
            put(file, (0x15C, struct.pack("<I", 1 << bit)))
            if bit < 16:
                put(file, (0x56, struct.pack("<H", 1 << bit)), (0x9E, struct.pack("<H", 1 << bit)))
            files.append(bytes(file))
        rows = self.lines_of(files)
        for bit, row in enumerate(rows[:16]):
            for kind, key in (("image", "characteristics"), ("DLL", "dll_characteristics")):
                self.assertEqual(row["headers"][key], 1 << bit)
                yield from (f"{kind} {1 << bit:#x} {name}" for name in row["headers"][f"{key}_flags"])
        directories = rows[0]["directories"]
        self.assertEqual([it["index"] for it in directories], list(range(16)))
        for bit, row in enumerate(rows):
            self.assertEqual(row["sections"][0]["characteristics"], 1 << bit)
            yield from (f"section {1 << bit:#x} {name}" for name in row["sections"][0]["characteristics_flags"])
            if bit < 16:
                yield f"directory {bit:#x} {directories[bit]['name']}"

    def classes(self):
        """The names of the storage classes."""
        file = bytearray(data("o1.obj"))
        for value, row in enumerate(self.lines_of([bytes(put(file, (0x80, bytes([value])))) for value in range(256)])):
            symbol = next(it for it in row["symbols"] if it["name"] == "abcdefgh")
            self.assertEqual(symbol["storage_class"], value)
            if "storage_class_name" in symbol:
                yield f"class {value:#x} {symbol['storage_class_name']}"

    def test_alignments(self):
        """Bits 20 to 23 of the flags of an object's section tell its alignment; in an image's section they tell none."""
        file, image = bytearray(data("o1.obj")), bytearray(data("v1.dll"))
        flags = [0x60000020 | number << 20 for number in range(16)]
        rows = self.lines_of([bytes(put(file, (0x38, struct.pack("<I", it)))) for it in flags])
        for number, row in enumerate(rows):
            section = row["sections"][0]
            self.assertEqual(section.get("alignment"), 1 << number - 1 if 1 <= number <= 14 else None)
            self.assertEqual([key for key in list(section)[-3:] if key != "number_of_linenumbers" and key != "characteristics"],
                             ["characteristics_flags", *["alignment"] * ("alignment" in section), "relocations"])
        for row in self.lines_of([bytes(put(image, (0x15C, struct.pack("<I", it)))) for it in flags]):
            self.assertNotIn("alignment", row["sections"][0])

    def types(self):
        """The names of the types of relocations, for the machines whose types have names."""
        for machine in (0x14C, 0x1C0, 0x1C4, 0x8664, 0xAA64):
            yield f"types of {machine:#x}"
            file = bytearray(data("o1.obj"))
            put(file, (0, struct.pack("<H", machine)))
            files = [bytes(put(file, (0x4A, struct.pack("<H", kind)))) for kind in range(256)]
            for kind, row in enumerate(self.lines_of(files)):
                relocation = row["sections"][0]["relocations"][0]
                self.assertEqual(relocation["type"], kind)
                if "type_name" in relocation:
                    yield f"type {kind:#x} {relocation['type_name']}"


if __name__ == "__main__":
    unittest.main()
