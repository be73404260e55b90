#!/usr/bin/env python3
"""Prints the script that completes petool's words in a shell: completions.py bash|zsh|fish

The commands, their options and their arguments are those of describe/commands.txt.
"""

import pathlib
import re
import sys
from dataclasses import dataclass
from typing import Iterator, List, Optional

TOP = pathlib.Path(__file__).resolve().parents[1]
sys.dont_write_bytecode = True
sys.path.append(str(TOP / "describe"))

from commands import Commands, Item

#: The arguments that are files; `HEX=FILE` is one after `=`.
FILES = {"FILE", "IN", "OUT"}
AFTER_BASE = "HEX=FILE"

#: The script for bash, whose parts between @ are filled in.
BASH = r"""# completion of petool for bash
_petool() {
    local part word=${COMP_WORDS[COMP_CWORD]} options= base=
    local -a words=()
    COMPREPLY=()
    # bash splits a word before and after `=`: the last of these words is completed, and readline replaces no more than `word`
    for part in "${COMP_WORDS[@]:1:COMP_CWORD}"; do
        if [[ ${#words[@]} -gt 0 && ( $part == = || ${words[-1]} == *= ) ]]; then
            words[-1]+=$part
        else
            words+=("$part")
        fi
    done
    local last=${words[-1]} command=${words[0]} before
    if [[ $word == = ]]; then word=; fi
    before=${last%"$word"}
    # nor does it replace an open quote
    word=${word#[\"\']} last=$before$word
    if [[ ${#words[@]} -eq 1 ]]; then
        mapfile -t COMPREPLY < <(compgen -W '@first@' -- "$word")
        return
    fi
    case $command in
        help)
            if [[ ${#words[@]} -eq 2 ]]; then mapfile -t COMPREPLY < <(compgen -W '@names@' -- "$word"); fi
            return ;;
@options@
    esac
    # how many arguments are before it
    local place=0 is_value= has_ended= option=
    for part in "${words[@]:1:${#words[@]}-2}"; do
        if [[ $is_value ]]; then
            is_value=
        elif [[ $has_ended || $part != -?* ]]; then
            place=$((place + 1))
        else
            case $part in
                --) has_ended=yes ;;
                @valued@) is_value=yes option=$part ;;
            esac
        fi
    done
    if [[ ! $is_value && ! $has_ended && $last == --*=* ]]; then
        option=${last%%=*} base=${last%%=*}= is_value=yes
    fi
    if [[ $is_value ]]; then # no value is a file
        case $option in
@values@
        esac
        COMPREPLY=("${COMPREPLY[@]#"$before"}")
        return
    fi
    if [[ ! $has_ended && $last == -* ]]; then
        mapfile -t COMPREPLY < <(compgen -W "$options" -- "$last")
        return
    fi
    case "$command $place" in
        @plain@) ;;
        @based@)
            if [[ $last != *=* ]]; then return; fi
            base=${last%%=*}= ;;
        *) return ;;
    esac
    # a name a line, since names have spaces
    mapfile -t COMPREPLY < <(compgen -f -P "$base" -- "${last#"$base"}")
    COMPREPLY=("${COMPREPLY[@]#"$before"}")
}
complete -o filenames -F _petool petool
"""

#: The same for zsh.
ZSH = r"""#compdef petool
# completion of petool for zsh
_petool() {
    local -a commands
    commands=(
@commands@
    )
    if (( CURRENT == 2 )); then
        _describe 'command' commands
        compadd -- @options@
        return
    fi
    local command=$words[2]
    shift words
    (( CURRENT-- ))
    case $command in
        help) _describe 'command' commands ;;
@cases@
    esac
}
_petool "$@"
"""

#: The same for fish.
FISH = r"""# completion of petool for fish
function __petool_takes_file
    set -l words (commandline -opc)
    set -l command $words[2]
    set -l place -2 # petool and the command are no arguments
    set -l is_value no
    set -l has_ended no
    for word in $words
        if test $is_value = yes
            set is_value no
        else if test $has_ended = yes; or not string match -q -- '-?*' $word
            set place (math $place + 1)
        else if test $word = --
            set has_ended yes
        else if contains -- $word @valued@
            set is_value yes
        end
    end
    switch "$command $place"
        case @plain@
            return 0
        case @based@
            string match -q -- '*=*' (commandline -ct)
            return
    end
    return 1
end
@completions@
"""


@dataclass
class Option:
    name: str
    does: str
    value: Optional[str] = None  #: what it takes, which is never a file
    values: str = ""  #: the words that this can be, if they are few
    short: Optional[str] = None


#: What every command has, and the program alone.
HELP = Option("help", "Print help", short="h")
VERSION = Option("version", "Print version", short="V")


@dataclass
class Command:
    name: str
    does: str
    options: List[Option]
    arguments: List[str]  #: without brackets and dots
    is_repeated: bool  #: whether there may be more of its last argument

    def places(self) -> List[str]:
        """Where its files are, as a pattern of a shell for how many arguments are before one."""
        return [self.place(index) for index, it in enumerate(self.arguments) if it in FILES]

    def place(self, index: int, first: int = 0) -> str:
        """Where an argument may be, as such a pattern, if the first has this number."""
        is_last = index + 1 == len(self.arguments)
        return "*" if self.is_repeated and is_last else str(index + first)

    def is_after_base(self) -> bool:
        return self.arguments == [AFTER_BASE]


def options_of(described: Commands, command: Item) -> Iterator[Option]:
    """The options of a command, in the order of its usage."""
    values = {it.name(): it.rows.get("values", "") for it in described.of("word")}
    for usage in described.usage(command):
        for name, value in re.findall(r"--([\w-]+)(?: ([A-Z]+))?", usage):
            yield Option(name, described.help_of(command, name), value or None, values.get(name, ""))
    yield HELP


def commands_of(described: Commands) -> Iterator[Command]:
    """The commands, and `help`, which has neither options nor files."""
    for it in described.of("command"):
        arguments = re.findall(r"[A-Z=]+", it.rest())
        yield Command(it.name(), it.rows["help"], list(options_of(described, it)), arguments, it.rest().endswith("..."))
    yield Command("help", "Print this message or the help of the given subcommand(s)", [], [], False)


def words_of(options: List[Option]) -> str:
    return " ".join([f"--{it.name}" for it in options] + [f"-{it.short}" for it in options if it.short])


def valued(commands: List[Command]) -> List[str]:
    """The options that take a value, each once."""
    return sorted({f"--{option.name}" for it in commands for option in it.options if option.value})


def values_of(commands: List[Command]) -> List[Option]:
    """The options whose value can be one of a few words, each once."""
    return list({option.name: option for it in commands for option in it.options if option.values}.values())


def filled(text: str, **parts: str) -> str:
    """A script with its parts."""
    return re.sub(r"@(\w+)@", lambda it: parts[it[1]], text)


def bash(commands: List[Command]) -> str:
    names = " ".join(it.name for it in commands)
    return filled(
        BASH,
        names=names,
        first=f"{names} {words_of([HELP, VERSION])}",
        options="\n".join(f"        {it.name}) options='{words_of(it.options)}' ;;" for it in commands if it.options),
        valued=" | ".join(valued(commands)),
        values="\n".join(
            f"""            --{it.name}) mapfile -t COMPREPLY < <(compgen -P "$base" -W '{it.values}' -- "${{last#"$base"}}") ;;""" for it in values_of(commands)
        ),
        plain=" | ".join(f"'{it.name} '{place}" for it in commands if not it.is_after_base() for place in it.places()),
        based=" | ".join(f"'{it.name} '*" for it in commands if it.is_after_base()),
    )


def quoted(text: str) -> str:
    """A string in single quotes, for zsh's descriptions and fish."""
    return text.replace("'", "'\\''")


def zsh_words(command: Command) -> Iterator[str]:
    """What zsh's _arguments takes for a command."""
    for it in command.options:
        does = quoted(it.does).replace("[", "(").replace("]", ")")
        names = f"'(-{it.short} --{it.name})'{{-{it.short},--{it.name}}}'" if it.short else f"'--{it.name}"
        words = f"({it.values})" if it.values else ""
        yield f"{names}[{does}]{f':{it.value}:{words}' if it.value else ''}'"
    for index, argument in enumerate(command.arguments):
        action = '{compset -P "*=" && _files}' if argument == AFTER_BASE else "_files" if argument in FILES else ""
        yield f"'{command.place(index, 1)}:{argument}:{action}'"


def zsh(commands: List[Command]) -> str:
    named = [it for it in commands if it.name != "help"]
    return filled(
        ZSH,
        commands="\n".join(f"        '{it.name}:{quoted(it.does)}'" for it in commands),
        options=words_of([HELP, VERSION]),
        cases="\n".join(f"        {it.name}) _arguments -S {' '.join(zsh_words(it))} ;;" for it in named),
    )


def fish_lines(commands: List[Command]) -> Iterator[str]:
    yield "-f"
    yield "-n __petool_takes_file -F"
    for it in (HELP, VERSION):
        yield f"-n __fish_use_subcommand -s {it.short} -l {it.name} -d '{quoted(it.does)}'"
    for command in commands:
        yield f"-n __fish_use_subcommand -a {command.name} -d '{quoted(command.does)}'"
    for command in commands:
        seen = f"-n '__fish_seen_subcommand_from {command.name}'"
        if command.name == "help":
            yield f"{seen} -a '{' '.join(it.name for it in commands)}'"
        for it in command.options:
            one = f" -s {it.short}" if it.short else ""
            wants = (" -x" if it.value else "") + (f" -a '{it.values}'" if it.values else "")
            yield f"{seen}{one} -l {it.name}{wants} -d '{quoted(it.does)}'"


def fish(commands: List[Command]) -> str:
    return filled(
        FISH,
        valued=" ".join(valued(commands)),
        plain=" ".join(f"'{it.name} {place}'" for it in commands if not it.is_after_base() for place in it.places()),
        based=" ".join(f"'{it.name} *'" for it in commands if it.is_after_base()),
        completions="\n".join(f"complete -c petool {it}" for it in fish_lines(commands)),
    )


def main(shell: str) -> None:
    commands = list(commands_of(Commands((TOP / "describe" / "commands.txt").read_text())))
    print({"bash": bash, "zsh": zsh, "fish": fish}[shell](commands), end="")


if __name__ == "__main__":
    sys.exit(main(*sys.argv[1:]))
