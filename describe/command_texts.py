"""What is written from the commands: tables of README.md and docs/GUIDE.md, parts of man/petool.1, and the strings, options and
statuses of the sources.

Sources have no comments for this: a source that changes must be proved again, so one that agrees stays the same to the byte.
"""

import re
from typing import Callable, Dict, List, Tuple

import regions
from commands import Commands, Item

SOURCE = "describe/commands.txt"
README, GUIDE, MAN = "README.md", "docs/GUIDE.md", "man/petool.1"
WORDS = "crates/pe_words/src"
STATUSES = "crates/petool/src/statuses.rt"
#: The longest row that `rt fmt` puts on one line.
ONE_LINE = 60
#: The source that has the purpose of each command for help, and what comes before the string.
PURPOSES = {
    **{name: ("file_words.rt", rf'name: "{name}",\s+about: ') for name in ("show", "check", "dump", "object", "archive", "json", "sum")},
    "at": ("at_words.rt", r"const AT_ABOUT: &str =\s+"),
    "map": ("map_words.rt", r"const ABOUT: &str =\s+"),
    "layout": ("layout_words.rt", r"const ABOUT: &str =\s+"),
    "rebase": ("rebase_words.rt", r"const ABOUT: &str =\s+"),
    "explain": ("at_words.rt", r"const EXPLAIN_ABOUT: &str =\s+"),
    "resource": ("resource_words.rt", r"const ABOUT: &str =\s+"),
}
#: The same for what help says of each option, except those of `show` that add rows.
OPTIONS = {
    "all": ("file_words.rt", r"const ALL: &str =\s+"),
    "functions": ("file_words.rt", r"const FUNCTIONS: &str =\s+"),
    "symbols": ("file_words.rt", r"const SYMBOLS: &str =\s+"),
    "no-digest": ("file_words.rt", r"const NO_DIGEST: &str =\s+"),
    "color": ("file_words.rt", r"const COLOR: &str =\s+"),
    "big": ("file_words.rt", r"const BIG: &str =\s+"),
    "most": ("file_words.rt", r"const MOST: &str =\s+"),
    "address": ("at_words.rt", r"const ADDRESS: &str =\s+"),
    "file": ("at_words.rt", r"const OFFSET: &str =\s+"),
    "map": ("at_words.rt", r"const MAP: &str =\s+"),
    "raw": ("resource_words.rt", r"const RAW: &str =\s+"),
    "extract": ("archive_words.rt", r"const EXTRACT: &str =\s+"),
    "index": ("archive_words.rt", r"const INDEX: &str =\s+"),
    "create": ("archive_words.rt", r"const CREATE: &str =\s+"),
    "within": ("layout_words.rt", r"const WITHIN: &str =\s+"),
    "check-sum": ("rebase_words.rt", r"const CHECK_SUM: &str =\s+"),
    "known": ("map_words.rt", r"const KNOWN: &str =\s+"),
    "delayed": ("map_words.rt", r"const DELAYED: &str =\s+"),
    "unbound": ("map_words.rt", r"const UNBOUND: &str =\s+"),
    "write": ("map_words.rt", r"const WRITE: &str =\s+"),
    "window": ("map_words.rt", r"const WINDOW: &str =\s+"),
    "count": ("map_words.rt", r'argument\(alloc, "count", '),
}


class NoPlace(Exception):
    """A source does not have a place that is written exactly once."""


def _replaced(text: str, begin: str, body: str, end: str, new: str) -> str:
    """A source with other text between a beginning and an end. All but the new text are patterns. NoPlace if there is not one."""
    found = list(re.finditer(f"({begin}){body}(?={end})", text, re.M))
    if len(found) != 1:
        raise NoPlace(f"what begins with {begin} occurs in it {len(found)} times")
    return text[: found[0].end(1)] + new + text[found[0].end() :]


def _literal(text: str) -> str:
    escaped = text.replace("\\", "\\\\").replace('"', '\\"')
    return f'"{escaped}"'


def _with_help(commands: Commands, file: str, text: str) -> str:
    """A source of command words with what help prints of commands and options. NoPlace if others are described."""
    for kind, places in (("command", PURPOSES), ("word", OPTIONS)):
        described = {it.name(): it.rows["help"] for it in commands.of(kind)}
        if sorted(described) != sorted(places):
            raise NoPlace(f"it has the {kind}s {', '.join(places)}, and described are {', '.join(described)}")
        for name, (source, begin) in places.items():
            if source == file:
                text = _replaced(text, begin, r'"(?:[^"\\]|\\.)*"', "[,;)]", _literal(described[name]))
    return text


def _option_row(name: str, words: str) -> List[str]:
    """A row of the options of `show`: on one line if it is short."""
    literals = [_literal(name), _literal(words)]
    line = f"({', '.join(literals)})"
    return [f"    {line},"] if len(line) <= ONE_LINE else ["    (", *(f"        {it}," for it in literals), "    ),"]


def _lines(lines: List[str]) -> str:
    return "".join(f"{line}\n" for line in lines)


def _file_words(commands: Commands, text: str) -> str:
    options = commands.of("option")
    rows = [line for it in options for line in _option_row(it.name(), it.rows["help"])] + _option_row("all", commands.all_help)
    text = _replaced(text, r"^const SHOW_OPTIONS: \[\(&str, &str\); ", r"\d+", r"\]", str(len(options) + 1))
    text = _replaced(text, r"^const SHOW_OPTIONS: .* = \[\n", r"[^;]*", r"\];$", _lines(rows))
    found = [f'        {it.name()}: is_all || found.get_flag("{it.name()}"),' for it in options]
    text = _replaced(text, r"^    ShowOptions \{\n", r"(?:.*is_all \|\| .*\n)*", "        is_coloured: false,$", _lines(found))
    return _with_help(commands, "file_words.rt", text)


def _show_options(commands: Commands, text: str) -> str:
    fields = [line for it in commands.of("option") for line in (f"    /// {it.rows['field']}", f"    pub {it.name()}: bool,")]
    text = _replaced(text, r"^pub struct ShowOptions \{\n", r"[^}]*?", "    /// Headings are bold", _lines(fields))
    all_rows = [f"        {it.name()}: true," for it in commands.of("option")]
    return _replaced(text, r"^    pub const ALL_ROWS: ShowOptions = ShowOptions \{\n", r"[^}]*?", "        is_coloured: false,", _lines(all_rows))


def _whole_page(commands: Commands, text: str) -> str:
    fields = [f"    {it.name()}: true," for it in commands.of("option")]
    return _replaced(text, r"^const WHOLE_PAGE: ShowOptions = ShowOptions \{\n", r"[^}]*?", "    is_coloured: false,", _lines(fields))


def _notes(commands: Commands, text: str) -> str:
    """The source of help with its list of exit statuses."""
    rows = [f"  {it.name()}  {it.rows['means'].replace('`', '')}" for it in commands.of("status")]
    return _replaced(text, r"^Exit statuses:\n", r"(?:  \d.*\n)*", "$", _lines(rows))


def _cell(text: str) -> str:
    return text.replace("|", "\\|")


def _usage(commands: Commands, command: Item, has_options: bool) -> str:
    options = commands.usage(command) if has_options else []
    return " ".join(["petool", command.name(), *options, command.rest()])


def _readme(commands: Commands, what: str) -> List[str]:
    """A part of README.md: the table of commands, or the sentence on exit statuses."""
    if what == "statuses":
        means = [f"{it.name()} {it.rows['means']}" for it in commands.of("status")]
        return [f"Exit statuses: {'; '.join(means)}."]
    rows = [f"| `{_usage(commands, it, False)}` | {_cell(it.rows['readme'])} |" for it in commands.of("command")]
    return ["| Command | Prints |", "|---|---|", *rows]


def _listed(names: List[str]) -> str:
    return f"{', '.join(names[:-1])} and {names[-1]}"


def _going_on(commands: Commands) -> str:
    """Which commands go on after a file that is refused, as a sentence."""
    names = [f"`{it.name()}`" for it in commands.of("command") if "files" in it.rows]
    return f"{_listed(names)} process every file, even after one that is refused or cannot be opened, and exit with the worst status."


def _telling(commands: Commands) -> str:
    """How the commands tell a fault, as a sentence."""
    told = [(it.name(), *it.rows["faults"].partition(" ")) for it in commands.of("command") if "faults" in it.rows]
    lines, words = ([f"`{name}`{space}{when}" for name, form, space, when in told if form == kind] for kind in ("line", "words"))
    line = "print a fault as a line on standard output, such as `fault 13 image 0 file 0x00000138`, and in words on standard error"
    return f"{_listed(lines)} {line}; {_listed(words)} print the words themselves."


def _guide(commands: Commands, what: str) -> List[str]:
    """A part of docs/GUIDE.md: the table of commands, how they tell a fault, or the table of exit statuses."""
    if what == "faults":
        return [_telling(commands)]
    if what == "statuses":
        rows = [f"| {it.name()} | {it.rows['means']} |" for it in commands.of("status")]
        return ["| Exit status | Means |", "|---|---|", *rows]
    rows = [f"| `{_cell(_usage(commands, it, True))}` | {_cell(it.rows['guide'])} |" for it in commands.of("command")]
    rows += [f"| {it.words} | {_cell(it.rows['guide'])} |" for it in commands.of("other")]
    return ["| Command | Prints |", "|---|---|", *rows]


def _bold(text: str) -> str:
    return "\\fB" + text.replace("-", "\\-") + "\\fP"


def _roff(text: str) -> str:
    """Markdown as a manual page has it: words in backquotes are bold, and a link is its text."""
    text = re.sub(r"\[([^\]]*)\]\([^)]*\)", r"\1", text)
    return re.sub(r"`([^`]*)`", lambda it: _bold(it[1].strip()), text)


def _roff_usage(word: str) -> str:
    """A word of usage: options are bold, values and arguments in italics."""
    return re.sub(r"--[a-z-]+|[A-Z]+(?:=[A-Z]+)?", lambda it: _bold(it[0]) if it[0][0] == "-" else f"\\fI{it[0]}\\fP", word)


def _synopsis(commands: Commands) -> List[str]:
    lines: List[str] = []
    for it in commands.of("command"):
        words = [_roff_usage(word) for word in [*commands.usage(it), it.rest()]]
        lines += [f".B petool {it.name()}", *regions.wrapped(words, 120, ""), ".br"]
    return lines


def _sentence(text: str) -> str:
    """What a command prints or writes, as a sentence."""
    return text[0].upper() + text[1:] if text.startswith("writes ") else f"Prints {text}"


def _paragraphs(commands: Commands) -> List[str]:
    lines: List[str] = []
    for it in commands.of("command"):
        words = f"{_roff(_sentence(it.rows['guide']))}.".split(" ")
        lines += [".TP", f".B {it.name()}", *regions.wrapped(words, 120, "")]
    return lines


def _options(commands: Commands) -> List[str]:
    """A paragraph for each option: the commands that have it, and what it does for them."""
    found: Dict[Tuple[str, str], List[str]] = {}
    for it in commands.of("command"):
        for option, name in re.findall(r"(--([\w-]+)(?: [A-Z]+)?)", " ".join(commands.usage(it))):
            found.setdefault((option, commands.help_of(it, name)), []).append(it.name())
    lines: List[str] = []
    for (option, does), names in found.items():
        words = re.sub(r"--[a-z-]+", lambda it: _bold(it[0]), f"{does}.").split(" ")
        lines += [".TP", f"{_roff_usage(option)} ({', '.join(map(_bold, names))})", *regions.wrapped(words, 120, "")]
    return lines


def _man(commands: Commands, what: str) -> List[str]:
    """A part of man/petool.1: the synopses of the commands, what they do, their options, the exit statuses, or a sentence on all."""
    if what in ("going on", "faults"):
        sentence = _going_on(commands) if what == "going on" else _telling(commands)
        return regions.wrapped(_roff(sentence).split(" "), 120, "")
    if what == "synopses":
        return _synopsis(commands)
    if what == "commands":
        return _paragraphs(commands)
    if what == "options":
        return _options(commands)
    return [line for it in commands.of("status") for line in (".TP", f".B {it.name()}", _roff(it.rows["means"]))]


def _in_parts(form: Callable[[Commands, str], List[str]]) -> Callable[[Commands, str], str]:
    return lambda commands, text: regions.filled(text, SOURCE, lambda what: form(commands, what))


def _words(file: str) -> Callable[[Commands, str], str]:
    return lambda commands, text: _with_help(commands, file, text)


#: How each file is written, from the commands and its old text.
FILES: Dict[str, Callable[[Commands, str], str]] = {
    README: _in_parts(_readme),
    GUIDE: _in_parts(_guide),
    MAN: _in_parts(_man),
    "crates/pe_text/src/show_options.rt": _show_options,
    "crates/pe_bench/src/texts.rt": _whole_page,
    f"{WORDS}/commands.rt": _notes,
    f"{WORDS}/file_words.rt": _file_words,
    **{f"{WORDS}/{file}": _words(file) for file in ("at_words.rt", "layout_words.rt", "map_words.rt", "rebase_words.rt", "resource_words.rt")},
}
#: The parts that a page must have.
PARTS = {
    README: ["commands", "statuses"],
    GUIDE: ["commands", "faults", "statuses"],
    MAN: ["synopses", "going on", "commands", "options", "statuses", "faults"],
}


def status_faults(commands: Commands, source: str) -> List[str]:
    """Whether the program's constants are the exit statuses, in the same order."""
    found = re.findall(r"^pub\(crate\) const (\w+): u8 = (\d+);$", source, re.M)
    described = [(it.rest(), it.name()) for it in commands.of("status")]
    return [] if found == described else [f"{STATUSES}: it has {found}, described as {described}"]
