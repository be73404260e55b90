"""What records.txt says: values, records with their fields, calls with their parameters, objects of JSON with their members."""

import re
from dataclasses import dataclass, field
from typing import Callable, Dict, List, Optional, Tuple

#: How many bytes each type has, and how it is aligned, on a machine of 64 bits.
SIZES = {"u8": 1, "bool": 1, "u16": 2, "u32": 4, "u64": 8, "usize": 8, "bytes": 8, "state": 8}
UNITS = {"-", "RVA", "address", "offset", "bytes", "count", "index", "flags"}
COLUMNS = re.compile(r" {2,}")


class Mistake(Exception):
    """What is wrong with the description itself."""


@dataclass
class Place:
    """Where a field of the headers is: its offset and width in PE32 and in PE32+, in the COFF header or in the optional header."""

    is_coff: bool
    narrow: Tuple[int, int]
    wide: Optional[Tuple[int, int]]  #: None if PE32+ lacks the field

    def is_same(self) -> bool:
        return self.narrow == self.wide

    def is_extended(self) -> bool:
        """Whether it is wider in PE32+."""
        return self.wide is not None and self.wide[1] > self.narrow[1]

    def width(self) -> int:
        """The greater of its widths."""
        return max(self.narrow[1], self.wide[1] if self.wide else 0)


@dataclass
class Origin:
    """The value of a field in Rattle."""

    name: str = ""  #: of the field of the type whose values the record shows
    default: str = ""  #: its value where the field is absent
    function: str = ""  #: of the type, of the field's type, or what gives a number for each variant of the enum
    definition: str = ""  #: of the function of the field's type
    enum: str = ""  #: the field's type, if that is an enum
    numbers: List[Tuple[str, str]] = field(default_factory=list)  #: each variant of the enum with its number


@dataclass
class Field:
    """A field of a record."""

    name: str
    type: str
    unit: str
    keys: List[str]  #: OBJECT.KEY of each member with its value
    meaning: str
    is_joined: bool  #: it is on one line with the field before it in C
    comment: Optional[str] = None  #: of the line in C; empty for none, None for the meaning
    note: str = ""  #: after the field in C
    python: Tuple[str, str, str] = ("", "", "")  #: name, type and meaning, where they differ in Python
    place: Optional[Place] = None  #: of a field of the headers; of the first item of an array
    origin: Optional[Origin] = None  #: the value in Rattle, if that is not the field of this name
    counts: str = ""  #: the list of the same struct that has as many items
    is_named: bool = False  #: its values have names in JSON
    flags: str = ""  #: the FlagKind of the names of its flags in JSON
    json_note: str = ""
    dumped: str = ""  #: `by name` if the function of its name makes its line of the dump, `apart` if that is in no list

    def item(self) -> str:
        """The type without the count of an array."""
        return self.type.partition("[")[0]

    def count(self) -> int:
        """How many items it has: those of an array, or one."""
        return int(self.type.partition("[")[2].rstrip("]") or 1)


@dataclass
class Record:
    """A struct of petool.h."""

    name: str
    struct: str
    is_row: bool
    group: str
    about: str = ""
    fields: List[Field] = field(default_factory=list)
    python_module: str = ""  #: of the class that has its fields
    python_order: List[str] = field(default_factory=list)
    rust_shown: str = ""  #: its name in the crate petool, which shows it as petool-sys has it
    rattle_file: str = ""  #: the source of pe_records_c that has it, which is written
    rattle_source: Tuple[str, str, str] = ("", "", "")  #: crate, module and type of the values that it shows
    rattle_filler: str = ""  #: the function that fills rows with those of a list

    def camel(self) -> str:
        """Its name in Rust and Python."""
        return "".join(word.capitalize() for word in self.name.split("_"))

    def placed(self) -> List[Field]:
        """The fields with a place, in the order of the format: the COFF header's, then the optional header's by their offsets."""
        found = [(it.place.is_coff, it.place.narrow, it) for it in self.fields if it.place and "[" not in it.type]
        return [it for _, _, it in sorted(found, key=lambda row: (not row[0], row[1]))]


@dataclass
class Value:
    """A value of an enum."""

    name: str  #: without what begins all names of the enum
    number: str  #: as it is written
    meaning: str
    comment: Optional[str] = None  #: in C, Rust and Python; empty for none in C, None for the meaning
    source_name: str = ""  #: its name in the source, if it is another

    def in_words(self) -> str:
        """What Rust and Python say of it."""
        return self.comment or self.meaning

    def in_source(self) -> Tuple[str, str]:
        """Its name in the source, in capitals, and its number."""
        return self.source_name or self.name, self.number


@dataclass
class Values:
    """An enum of petool.h."""

    name: str
    prefix: str  #: what begins the names in C and Rust
    type: str  #: in Rust
    values: List[Value] = field(default_factory=list)
    source: str = ""  #: which has the same numbers
    form: str = ""  #: of a value in the source: with NAME, NUMBER, and _ for any word
    rust: str = ".."  #: the sentence in which Rust says a meaning
    python_module: str = ""
    python_prefix: str = ""


@dataclass
class Parameter:
    """A parameter of a call: a value, or a reference to one or to a slice, whose length in C has its own name."""

    name: str
    type: str
    is_reference: bool = False
    is_mutable: bool = False
    length: str = ""


@dataclass
class Call:
    """A function of petool.h."""

    name: str
    group: str
    parameters: List[Parameter]
    result: str
    since: str
    faults: str = ""  #: which it may return, in order
    memory: str = ""  #: when it is allocated
    reads: str = ""  #: the table that it reads, if its source is written


@dataclass
class Member:
    """A row of an object's members: one or more keys, their type and meaning."""

    shown: str  #: the keys as the description writes them
    type: str
    meaning: str

    def bases(self) -> List[str]:
        """The keys without their second ones."""
        return [key.partition("+")[0] for key in re.split(r", | or ", self.shown)]

    def keys(self) -> List[str]:
        """All keys: also those that end in _name, _flags and _hex."""
        found = []
        types = self.type.split(", ") if " or " in self.shown else [self.type] * len(self.bases())
        for key, kind in zip(re.split(r", | or ", self.shown), types):
            base, _, suffix = key.partition("+")
            found += [base] + ([f"{base}_{suffix}"] if suffix else []) + ([f"{base}_hex"] if kind == "name" else [])
        return found


@dataclass
class Object:
    """An object in a line of JSON, or one of the kinds of such an object."""

    name: str
    kind_of: str
    about: str
    is_in_words: bool = False  #: docs/JSON.md has no table of it
    heads: str = ""  #: of a row of an image, what docs/JSON.md has before its table
    examples: List[str] = field(default_factory=list)  #: lines after the table
    note: str = ""  #: what comes after these
    places: List[str] = field(default_factory=list)
    members: List[Member] = field(default_factory=list)

    def keys(self) -> List[str]:
        return [key for member in self.members for key in member.keys()]


@dataclass
class Library:
    """The names of the shared library: its file, Debian's package, the version of its symbols, and the first release."""

    soname: str
    package: str
    symbols: str
    release: str


class Description:
    """All that records.txt says. Mistake if a line has none of its forms, or names what does not exist."""

    def __init__(self, text: str) -> None:
        self.values: Dict[str, Values] = {}
        self.records: Dict[str, Record] = {}
        self.calls: List[Call] = []
        self.objects: Dict[str, Object] = {}
        self.library = Library("", "", "", "")
        self._arguments: Dict[str, str] = {}
        self._group = ""
        self._read = self._heading
        for number, line in _lines(text):
            try:
                (self._heading if line[0] != " " else self._read)(line)
            except (Mistake, ValueError, KeyError, IndexError) as error:
                raise Mistake(f"line {number}: {error!r}: {line.strip()}") from error
        self._check()

    def _heading(self, line: str) -> None:
        """A line that begins something: a group, values, a record, the library, an argument, calls, an object or a kind of one."""
        word, rest = line.split(" ", 1)
        begin = {
            "group": self._begin_group,
            "values": self._begin_values,
            "record": self._begin_record,
            "row": self._begin_row,
            "library": self._name_library,
            "argument": self._name_argument,
            "calls": self._begin_calls,
            "object": self._begin_object,
            "kind": self._begin_kind,
        }
        begin[word](rest)

    def _begin_group(self, rest: str) -> None:
        self._group = rest

    def _begin_values(self, rest: str) -> None:
        name, prefix, kind = _matched(r"(\w+) = (\w+) (u\d+)", rest)
        self.size(kind)
        self._values = self.values[name] = Values(name, prefix, kind)
        self._read = self._value

    def _begin_record(self, rest: str, is_row: bool = False) -> None:
        name, struct = rest.split(" = ")
        self._record = self.records[name] = Record(name, struct, is_row, self._group)
        self._read = self._about

    def _begin_row(self, rest: str) -> None:
        self._begin_record(rest, True)

    def _name_library(self, rest: str) -> None:
        self.library = Library(*rest.split())

    def _name_argument(self, rest: str) -> None:
        name, kind = COLUMNS.split(rest)
        self._arguments[name] = kind

    def _begin_calls(self, rest: str) -> None:
        self._group = rest
        self._read = self._call

    def _begin_object(self, rest: str) -> None:
        name, _, words = rest.partition(" in ")
        self._object = self.objects[name] = Object(name, "", "", words == "words")
        self._read = self._member

    def _begin_kind(self, rest: str) -> None:
        head, *about = COLUMNS.split(rest)
        name, kind_of = head.split(" of ")
        self._object = self.objects[f"{kind_of}.{name}"] = Object(name, kind_of, "".join(about))
        self._read = self._member

    def _value(self, line: str) -> None:
        first, _, rest = line.strip().partition(" ")
        if first == "/":
            self._values.values[-1].comment = "" if rest == "-" else rest
        elif first == "rust":
            self._values.rust = rest
        elif first == "python":
            self._values.python_module, self._values.python_prefix = _matched(r"in (\w+)(?: as (\w+))?", rest)
        elif first == "source" and rest.startswith("in "):
            self._values.source, self._values.form = _matched(r"in (\S+) as (.*\bNAME\b.*\bNUMBER\b.*)", rest)
        elif first == "source":
            self._values.values[-1].source_name = rest
        else:
            name, number, meaning = COLUMNS.split(line.strip(), maxsplit=2)
            self._add_value(Value(name, number, meaning))

    def _add_value(self, it: Value) -> None:
        if any(it.name == other.name or int(it.number, 0) == int(other.number, 0) for other in self._values.values):
            raise Mistake(f"{it.name} or {it.number} is there twice")
        if int(it.number, 0) not in range(256 ** SIZES[self._values.type]):
            raise Mistake(f"{it.number} does not fit {self._values.type}")
        self._values.values.append(it)

    def _about(self, line: str) -> None:
        self._record.about = line.strip()
        self._read = self._field

    def _field(self, line: str) -> None:
        first, _, rest = line.strip().partition(" ")
        if first == "/":
            self._record.fields[-1].comment = "" if rest == "-" else rest
        elif first == "//":
            self._record.fields[-1].note = rest
        elif first == "python" and rest.startswith("in "):
            self._record.python_module = rest[3:]
        elif first == "python" and rest.startswith("order "):
            self._record.python_order = rest[6:].split(", ")
        elif first == "python":
            self._record.fields[-1].python = (*COLUMNS.split(rest.strip()), "")[:3]
        elif first == "rust":
            self._record.rust_shown = _matched(r"shown as (\w+)", rest)[0]
        elif first == "rattle":
            file, crate, module, kind, filler = _matched(r"in (\w+) of (\w+)\.(\w+)\.(\w+)(?:, (\w+))?", rest)
            self._record.rattle_file, self._record.rattle_source, self._record.rattle_filler = file, (crate, module, kind), filler
        elif len(COLUMNS.split(line.strip())) == 1:
            self._add_word(first, rest)
        else:
            self._add_field(first == ",", rest if first == "," else line)

    def _add_word(self, word: str, rest: str) -> None:
        """What a field has in a line of its own."""
        it = self._record.fields[-1]
        if word == "from":
            it.origin = _origin(rest)
        elif word == "named" and not rest:
            it.is_named = True
        elif word == "counts":
            it.counts = rest
        elif word == "flags":
            it.flags = rest
        elif word == "json":
            it.json_note = rest
        elif word == "dumped":
            it.dumped = _matched("(by name|apart)", rest)[0]
        else:
            raise Mistake("it has none of the forms of a field")

    def _add_field(self, is_joined: bool, row: str) -> None:
        name, kind, unit, keys, meaning = COLUMNS.split(row.strip(), maxsplit=4)
        if unit not in UNITS:
            raise Mistake(f"{unit} is no unit")
        same = f"{self._record.name}.{name}"
        named = [same if key == "=" else key for key in keys.split(", ") if key != "-"]
        kind, _, place = kind.partition(" ")
        self._record.fields.append(Field(name, kind, unit, named, meaning, is_joined, place=_place(place) if place else None))

    def _call(self, line: str) -> None:
        if line.strip().startswith("checks "):
            call = self.calls[-1]
            call.faults, call.memory = line.strip()[len("checks ") :].split("; memory ")
        elif line.strip().startswith("reads "):
            self.calls[-1].reads = line.strip()[len("reads ") :]
        else:
            self._add_call(line.strip())

    def _add_call(self, line: str) -> None:
        form = r"(petool_\w+)\((.*)\)(?: -> (\w+))?(?: since ([\d.]+))?$"
        name, words, result, since = _matched(form, line)
        parameters = [self._parameter(word) for word in words.split(", ") if word]
        self.calls.append(Call(name, self._group, parameters, result or "u32", since or self.library.release))

    def _parameter(self, word: str) -> Parameter:
        name, _, kind = word.partition(": ")
        kind = kind or self._arguments[name]
        form = r"(&(?:mut )?)?(?:\[(\w+)\] (\w+)|(\w+))"
        reference, item, length, value = _matched(form, kind)
        return Parameter(name, item or value, bool(reference), reference == "&mut ", length)

    def _member(self, line: str) -> None:
        words = line.strip()
        if words.startswith("written by "):
            self._object.places = words[len("written by ") :].split(", ")
        elif words.startswith("heads "):
            self._object.heads = words[len("heads ") :]
        elif words.startswith("example "):
            self._object.examples.append(words[len("example ") :])
        elif words.startswith("note "):
            self._object.note = words[len("note ") :]
        elif words.startswith("* "):
            self._object.members += self.objects[words[2:]].members[1:]
        elif words.startswith("fields of "):
            self._object.members += map(_member_of, self.records[words[len("fields of ") :]].placed())
        else:
            shown, kind, meaning = (*COLUMNS.split(words), "")[:3]
            self._object.members.append(Member(shown, kind, meaning))

    def _check(self) -> None:
        """Checks that each enum has values, each type is known, and each key of a field is one of the object that it names."""
        if not ("statuses" in self.values and self.records and self.calls and self.objects):
            raise Mistake("it has no statuses, no records, no calls or no objects")
        for values in self.values.values():
            if not (values.values and values.form):
                raise Mistake(f"{values.name} has no values, or no source")
        for record in self.records.values():
            for it in record.fields:
                size, _ = self.size(it.type)
                if it.place and size != it.place.width() * it.count():
                    raise Mistake(f"{record.name}.{it.name}: its places have not the width of {it.type}")
                for key in it.keys:
                    name, _, member = key.partition(".")
                    if name not in self.objects or member not in self.objects[name].keys():
                        raise Mistake(f"{record.name}.{it.name}: there is no {key}")

    def size(self, kind: str) -> Tuple[int, int]:
        """How many bytes a type has, and how it is aligned."""
        item, _, count = kind.partition("[")
        if item == "text":
            size, alignment = 16, 8
        elif item in self.records:
            size, alignment, _ = self.layout(self.records[item])
        elif item in SIZES:
            size = alignment = SIZES[item]
        else:
            raise Mistake(f"{kind} is no type")
        return size * int(count.rstrip("]") or 1), alignment

    def layout(self, record: Record) -> Tuple[int, int, List[int]]:
        """How many bytes a record has, how it is aligned, and where each of its fields begins."""
        end, most, places = 0, 1, []
        for it in record.fields:
            size, alignment = self.size(it.type)
            start = -(-end // alignment) * alignment
            places.append(start)
            end, most = start + size, max(most, alignment)
        return -(-end // most) * most, most, places

    def has_text(self, record: Record) -> bool:
        """Whether a record has a text, or a record in it does."""
        items = [it.item() for it in record.fields]
        return "text" in items or any(self.has_text(self.records[it]) for it in items if it in self.records)

    def groups(self) -> Dict[str, List[Record]]:
        """The records by their groups."""
        found: Dict[str, List[Record]] = {}
        for record in self.records.values():
            found.setdefault(record.group, []).append(record)
        return found

    def call_groups(self) -> Dict[str, List[Call]]:
        """The calls by their groups."""
        found: Dict[str, List[Call]] = {}
        for call in self.calls:
            found.setdefault(call.group, []).append(call)
        return found

    def kinds(self, name: str) -> List[Object]:
        """The kinds of an object."""
        return [it for it in self.objects.values() if it.kind_of == name]


def read_lines(text: str, read: Callable[[int, str], None]) -> None:
    """Reads each line that is not blank and no comment, by its indent and its words. Mistake, with its number, if it cannot be read."""
    for number, line in enumerate(text.splitlines(), 1):
        if not line.strip() or line.startswith("#"):
            continue
        try:
            read(len(line) - len(line.lstrip()), line.strip())
        except (Mistake, ValueError, KeyError, IndexError) as error:
            raise Mistake(f"line {number}: {error!r}: {line.strip()}") from error


def _matched(form: str, text: str) -> Tuple[str, ...]:
    """The groups of a match; Mistake if the string does not match."""
    found = re.fullmatch(form, text)
    if found is None:
        raise Mistake(f"it has not the form {form}")
    return tuple(it or "" for it in found.groups())


def _place(words: str) -> Place:
    """The place of a field from its words in a row."""
    coff, offset, width, other, wide_offset, wide_width = _matched(r"(coff )?(\d+)/([1248])(?: (-|(\d+)/([1248])))?", words)
    narrow = int(offset), int(width)
    wide = None if other == "-" else (int(wide_offset), int(wide_width)) if other else narrow
    return Place(bool(coff), narrow, wide)


def _origin(words: str) -> Origin:
    """The value of a field from its words in a row."""
    called = re.fullmatch(r"(\w+)\(\)", words)
    asked = re.fullmatch(r"(\w+)\.(\w+)\(\) as (\w+)", words)
    numbered = re.fullmatch(r"(\w+) by (\w+) of (\w+): (\w+ \w+(?:, \w+ \w+)*)", words)
    if called:
        return Origin(function=called[1])
    if asked:
        return Origin(name=asked[1], function=asked[2], definition=asked[3])
    if numbered:
        numbers = [(variant, number) for variant, number in (arm.split() for arm in numbered[4].split(", "))]
        return Origin(name=numbered[1], function=numbered[2], enum=numbered[3], numbers=numbers)
    name, default = _matched(r"(\w+)(?: or (\w+))?", words)
    return Origin(name=name, default=default)


def _member_of(it: Field) -> Member:
    """The member of JSON that has a field of the headers."""
    beside = "+name" if it.is_named else "+flags" if it.flags else ""
    if it.place and it.place.is_extended():
        return Member(it.name + beside, "string", "64 bits")
    return Member(it.name + beside, "number", it.json_note or ("" if it.place and it.place.wide else "PE32 only"))


def _lines(text: str) -> List[Tuple[int, str]]:
    """The lines that are not empty or comments, each with its number; one that ends with a comma is joined with the next."""
    found: List[Tuple[int, str]] = []
    goes_on = False
    for number, line in enumerate(text.splitlines(), 1):
        if not line.strip() or line.startswith("#"):
            continue
        if goes_on:
            start, before = found.pop()
            found.append((start, f"{before} {line.strip()}"))
        else:
            found.append((number, line.rstrip()))
        goes_on = line.rstrip().endswith(",")
    return found
