"""Tests scripts/completions.py: bash completes words by its output, whose words are those of the program of PETOOL_PROGRAM."""

import os
import pathlib
import re
import shutil
import subprocess
import sys
import tempfile
import unittest

COMPLETIONS = pathlib.Path(__file__).resolve().parents[1] / "completions.py"
PROGRAM = os.environ.get("PETOOL_PROGRAM")
COMMANDS = ["archive", "at", "check", "dump", "explain", "help", "json", "layout", "map", "object", "rebase", "resource", "show", "sum"]
FILES = ["a file.dll", "a.dll", "b=1.dll", "b=2.dll", "d.dll"]
# prints what bash would offer for words, of which the last is completed
ASK = """source ./completion
COMP_WORDS=(petool "$@") COMP_CWORD=$#
_petool
printf '%s\\n' "${COMPREPLY[@]}"
"""


def printed(shell):
    return subprocess.run([sys.executable, COMPLETIONS, shell], stdout=subprocess.PIPE, check=True, text=True).stdout


@unittest.skipUnless(shutil.which("bash"), "left out without bash")
class Bash(unittest.TestCase):
    def setUp(self):
        self.room = pathlib.Path(tempfile.mkdtemp())
        self.addCleanup(shutil.rmtree, self.room)
        (self.room / "completion").write_text(printed("bash"))
        for name in FILES:
            (self.room / name).touch()

    def offered(self, *words):
        run = subprocess.run(["bash", "-c", ASK, "ask", *words], cwd=self.room, stdout=subprocess.PIPE, check=True, text=True)
        return sorted(run.stdout.split("\n")[:-1]) if run.stdout != "\n" else []

    def assert_offered(self, wanted, *lines):
        for words in lines:
            with self.subTest(words=words):
                self.assertEqual(self.offered(*words), wanted)

    def test_a_first_word_is_a_command_or_an_option(self):
        self.assertEqual(self.offered(""), sorted(["--help", "--version", "-V", "-h", *COMMANDS]))
        self.assertEqual(self.offered("e"), ["explain"])

    def test_a_name_with_a_space_is_one_name(self):
        self.assert_offered(["a file.dll", "a.dll"], ["check", "a"], ["show", "d.dll", "a"])

    def test_a_file_stands_behind_its_base(self):
        # bash splits a word at `=`, unless COMP_WORDBREAKS has none
        self.assert_offered(["d.dll"], ["map", "10000000", "=", "d"], ["map", "10000000", "=", "a.dll", "20000000", "=", "d"])
        self.assert_offered(["10000000=d.dll"], ["map", "10000000=d"])
        self.assertEqual(self.offered("map", "10000000", "="), sorted([*FILES, "completion"]))
        self.assert_offered([], ["map", "a"], ["map", ""], ["map", "10000000", "=", "a.dll", "a"])

    def test_a_name_in_a_quote_is_completed_after_the_quote(self):
        self.assert_offered(["a file.dll"], ["check", '"a f'], ["check", "'a f"], ["map", "10000000", "=", '"a f'])
        self.assert_offered(["10000000=a file.dll"], ["map", '"10000000=a f'])

    def test_a_name_with_an_equals_sign_is_completed_where_it_was_split(self):
        self.assert_offered(["1.dll", "2.dll"], ["check", "b", "="], ["map", "10000000", "=", "b", "="])
        self.assert_offered(["b=2.dll"], ["check", "b=2"])
        self.assert_offered(["10000000=b=2.dll"], ["map", "10000000=b=2"])

    def test_options_are_those_of_the_command(self):
        self.assert_offered(["--count", "--delayed", "--help", "--known", "--unbound", "--window", "--within", "--write"], ["map", "--"], ["map", "10000000=a.dll", "--"])
        self.assert_offered(["--help", "-h"], ["explain", "-"], ["check", "a.dll", "-"])
        self.assert_offered(["--all", "--functions", "--help", "--most", "--no-digest", "--symbols"], ["json", "--"], ["json", "--most", "4K", "--"])
        self.assert_offered(["--imports"], ["show", "--i"])

    def test_where_no_file_can_stand_none_is_offered(self):
        self.assert_offered([], ["explain", ""], ["explain", "a"])
        self.assert_offered([], ["map", "--window", "a"], ["map", "--count", ""], ["map", "--window", "=", "a"])
        for command in ("show", "json", "dump", "object"):
            self.assert_offered([], [command, "--most", ""], [command, "--most", "a"], [command, "--most", "="])
        self.assert_offered([], ["at", "a.dll", "a"], ["at", "--file", "a.dll", "a"], ["at", "a.dll", "1", "a"], ["dump", "a.dll", "d"])
        self.assert_offered([], ["rebase", "a"], ["rebase", "10000000", "a.dll", "o.dll", "d"])
        self.assert_offered([], ["layout", "--within", "a"], ["layout", "a.dll", "o.dll", "d"])

    def test_a_file_is_offered_wherever_one_can_stand(self):
        self.assert_offered(["d.dll"], ["at", "d"], ["at", "--address", "d"], ["rebase", "10000000", "d"])
        self.assert_offered(["d.dll"], ["rebase", "10000000", "a.dll", "d"])
        self.assert_offered(["d.dll"], ["layout", "d"], ["layout", "a.dll", "d"], ["layout", "--within", "4K", "d"])
        self.assert_offered(["d.dll"], ["json", "--most", "4K", "d"], ["json", "--most=4K", "d"], ["json", "--all", "d"])
        self.assert_offered(["d.dll"], ["show", "a.dll", "--all", "d"], ["show", "--most", "=", "4K", "d"], ["check", "-", "d"])

    def test_the_words_of_a_value_are_offered(self):
        words = ["always", "auto", "never"]
        self.assert_offered(words, ["show", "--color", ""], ["show", "--all", "--color", ""], ["show", "--color", "="])
        self.assert_offered(words[:2], ["show", "--color", "a"], ["show", "a.dll", "--color", "=", "a"])
        self.assert_offered(["--color=never"], ["show", "--color=n"])
        self.assert_offered([], ["show", "--color", "d"], ["show", "--", "--color=n"])

    def test_what_comes_after_two_dashes_is_a_file(self):
        (self.room / "--help.dll").touch()
        self.assert_offered(["--help.dll"], ["check", "--", "--h"], ["check", "--", "d.dll", "-"])

    def test_help_takes_a_command(self):
        self.assertEqual(self.offered("help", ""), COMMANDS)
        self.assert_offered([], ["help", "x"], ["help", "map", ""])


class OtherShells(unittest.TestCase):
    def test_no_file_is_offered_either_where_none_can_stand(self):
        zsh, fish = printed("zsh"), printed("fish")
        self.assertIn("explain) _arguments -S '(-h --help)'{-h,--help}'[Print help]' '1:N:' ;;", zsh)
        self.assertIn("--window[Prints the bytes from this address on, 16 per line]:HEX:'", zsh)
        self.assertIn("'1:HEX:' '2:IN:_files' '3:OUT:_files' ;;", zsh)
        self.assertIn("'1:FILE:_files' '*:ADDRESS:' ;;", zsh)
        self.assertIn("'*:HEX=FILE:{compset -P \"*=\" && _files}' ;;", zsh)
        self.assertIn("'dump 0' 'at 0' 'resource 0' 'object 0' 'archive *' 'json *' 'sum *' 'layout 0' 'layout 1' 'rebase 1' 'rebase 2'\n", fish)
        self.assertIn("__fish_seen_subcommand_from map' -l window -x ", fish)
        self.assertIn(":WHEN:(auto always never)'", zsh)
        self.assertIn("__fish_seen_subcommand_from show' -l color -x -a 'auto always never' ", fish)
        self.assertIn("complete -c petool -f\ncomplete -c petool -n __petool_takes_file -F\n", fish)

    def test_one_option_has_the_help_of_its_command(self):
        zsh, fish = printed("zsh"), printed("fish")
        for command, help in (("show", "Prints all of these"), ("json", "Adds debug data, ")):
            self.assertRegex(zsh, rf"\n +{command}\) .*'--all\[{help}")
            self.assertIn(f"__fish_seen_subcommand_from {command}' -l all -d '{help}", fish)


@unittest.skipUnless(PROGRAM, "left out without program: PETOOL_PROGRAM names none")
class Program(unittest.TestCase):
    def rows(self, heading, *words):
        """The first words of the rows of help below a heading."""
        text = subprocess.run([PROGRAM, *words, "--help"], stdout=subprocess.PIPE, check=True, text=True).stdout
        return re.findall(r"^ {2,}(?:-\w, )?(\S+)", text.partition(f"{heading}:\n")[2].partition("\n\n")[0], re.M)

    def test_commands_and_options_are_those_of_the_program(self):
        self.assertEqual(sorted(self.rows("Commands")), COMMANDS)
        shown = dict(re.findall(r"^ {8}(\w+)\) options='(.*)' ;;$", printed("bash"), re.M))
        self.assertEqual(sorted([*shown, "help"]), COMMANDS)
        for command, options in shown.items():
            with self.subTest(command=command):
                self.assertEqual(sorted(options.split()), sorted([*self.rows("Options", command), "-h"]))


if __name__ == "__main__":
    unittest.main()
