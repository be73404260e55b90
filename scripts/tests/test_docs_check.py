"""Tests that scripts/docs_check.py finds each kind of difference: a file is changed in a copy, and what differs must be named."""

import contextlib
import functools
import importlib.util
import io
import os
import pathlib
import shutil
import sys
import tempfile
import unittest
import unittest.mock

TOP = pathlib.Path(__file__).resolve().parents[2]
PROVED, TESTS, MAP = "docs/PROVED.md", "docs/TESTS.md", "docs/MAP.md"
GUIDE, README, MAN, FORMAT = "docs/GUIDE.md", "README.md", "man/petool.1", "docs/FORMAT.md"
TABLES, SAMPLES, TEXTS = "crates/pe_tables/src/lib.rt", "crates/pe_vectors/src/images.rt", "crates/pe_layout/src/text.rt"

#: The changes: the file, what is in it, what replaces it, and what is then printed.
CONDITIONS = [
    (PROVED, "`TextEnds::until_zero`, `Layout::text_at` |", "`TextEnds::until_zero` |", f"{PROVED}: Layout::text_at of {TEXTS} has conditions, and is not named"),
    (PROVED, "`files::put` |", "`files::put`, `files::number` |", f"{PROVED}: number is named, and is no public function with conditions"),
    (SAMPLES, "    requires { forwarders ≤ 65 }\n", "", f"{PROVED}: vf is named, and is no public function with conditions"),
    (TABLES, "\nmod window;", "\npub mod window;", f"{PROVED}: Window::u16_at of crates/pe_tables/src/window.rt has conditions"),
    (
        "crates/pe_space/src/space.rt",
        "fn byte(&self, address: u64) -> Option<u8>\n",
        "fn byte(&self, address: u64) -> Option<u8>\n        requires { address < 5 }\n",
        f"{PROVED}: Space::byte of crates/pe_space/src/space.rt has conditions",
    ),
]
FILES = [
    (MAP, "1. `pe_view/specs/Faults.antt`", "1. `pe_view/specs/AllFaults.antt`", f"{MAP}: there is no pe_view/specs/AllFaults.antt"),
    (MAP, "](crates.svg)", "](crate.svg)", f"{MAP}: there is no crate.svg"),
    (MAP, "| `.ci/run` |", "| `.ci/runs` |", f"{MAP}: there is no .ci/runs"),
    (MAP, "`packaging/debian/build`, `rules`", "`packaging/debian/build`, `rule`", f"{MAP}: there is no packaging/debian/rule"),
    (MAP, "## Outside the crates\n", "## Other folders\n", "there is no heading '## Outside the crates'"),
    (MAP, "`new` and `add` of `Told`", "`new` of `Told`", f"{MAP}: the proof by hand of pe_text Told add is not named"),
    (MAP, "`hold` and `release` of", "`hold`, `free` and `release` of", f"{MAP}: there is no proof by hand of pe_handle Handle free"),
]
COUNTED = [
    (MAP, "| its crate | `crates.txt`, only beyond | 0 | 1 |", "| its crate | `crates.txt`, only beyond | 1 | 1 |", f"{MAP}: its crate: 1 and 1, and these are 0 and 1"),
    (MAP, "`pe_lines/src/table_lines.rt`\\*, ", "", f"{MAP}: its lines of the dump: 6 and 0, and these are 5 and 0"),
    (MAP, "`pe_show/src/fixups.rt`, ", "`pe_show/src/fixups.rt`\\*, ", "6 and 6, and these are 6 and 5"),
    (MAP, "| **together** | | **57** |", "| **together** | | **58** |", f"{MAP}: **together**: 58 and 33, and these are 57 and 33"),
    (MAP, "| What | Files | Profile | Beyond |", "| What | Files |", "there is no such table"),
]
NAMED = [
    (PROVED, "`outcome.rt`", "`outcomes.rt`", f"{PROVED}: there is no test outcomes.rt"),
    (PROVED, "`test_headers.py`", "`test_header.py`", f"{PROVED}: there is no test test_header.py"),
    (PROVED, "`bindings/c/tests/memory.c`", "`bindings/c/tests/room.c`", f"{PROVED}: there is no test bindings/c/tests/room.c"),
    (TESTS, "names | `refusals.rt`;", "names | `refusal.rt`;", f"{TESTS}: there is no test refusal.rt"),
    (TESTS, "`bindings/rust` |", "`bindings/rusts` |", f"{TESTS}: there is no test bindings/rusts"),
]
COMMAND = [
    (README, "bindings/test --without mypy,llvm,mingw,libwine,chromium,firefox,webkit,module\n", "bindings/test\n", f"{README}: it does not name the test command of .ci/run"),
    (".ci/run", "rt ci && ", "rt all test && ", f"{GUIDE}: it does not name the test command of .ci/run, which is rt all test && "),
]
LOAD_FIELDS = [
    (FORMAT, "| ProcessHeapFlags | 44 | 72 | 4 |", "| ProcessHeapFlags | 48 | 72 | 4 |", f"{FORMAT}: the field ProcessHeapFlags is not told as 44, 72, 4"),
    (FORMAT, "| EditList | 56 | 80 | 4 or 8 |", "| EditLists | 56 | 80 | 4 or 8 |", f"{FORMAT}: there is no field EditLists, 56, 80, 4 or 8"),
    ("crates/pe_records/src/load_layout.rt", "Field(8, 8, Width::Two)", "Field(8, 8, Width::Four)", f"{FORMAT}: the field MajorVersion is not told as 8, 8, 4"),
]
VERSIONS = [
    ("VERSION", "2.0", "2.1", "man/petool.1: the version is 2.0, and that of VERSION 2.1"),
    ("VERSION", "2.0", "3.0", "bindings/c/petool.h: the version is 0x20000, and that of VERSION 3.0"),
    ("bindings/c/petool.h", "PETOOL_VERSION_NUMBER 0x20000", "PETOOL_VERSION_NUMBER 0x20001", "bindings/c/petool.h: the version is 0x20001"),
    ("crates/petool_c/src/words.rt", "result ≡ 0x2_0000", "result ≡ 0x2_0001", "crates/petool_c/src/words.rt: the version is 0x2_0001"),
    ("crates/pe_words/src/commands.rt", '"2.0"', '"2.1"', "crates/pe_words/src/commands.rt: the version is 2.1"),
    ("bindings/python/pyproject.toml", 'version = "2.0"', 'version = "2.1"', "bindings/python/pyproject.toml: the version is 2.1"),
    ("bindings/rust/petool/Cargo.toml", '"2.0.0"', '"2.1.0"', "bindings/rust/petool/Cargo.toml: the version is 2.1"),
    ("bindings/rust/petool-sys/Cargo.toml", '"2.0.0"', '"1"', "bindings/rust/petool-sys/Cargo.toml: the version is missing"),
    ("docs/CHANGES.md", "## 2.0\n", "## 2.1\n", "docs/CHANGES.md: the version is 2.1, and that of VERSION 2.0"),
    ("packaging/debian/changelog", "petool (2.0-1)", "petool (2.1-1)", "packaging/debian/changelog: the version is 2.1"),
    ("packaging/debian/changelog", "25 Nov 2026", "26 Nov 2026", "man/petool.1: the date is 2026-11-25, and that of packaging"),
    ("man/petool.h.3", '.H 3 "2026-11-25"', '.H 3 ""', "man/petool.h.3: the date is missing"),
    ("man/petool.1", "petool 2.0", "petool 2.1", "man/petool.1: the version is 2.1"),
    ("man/petool.h.3", "libpetool 2.0", "libpetool 2.1", "man/petool.h.3: the version is 2.1"),
]
PORTED = [
    (PROVED, "itoa, thiserror, clap, md5, sha1 and sha2", "itoa, clap, md5, sha1 and sha2", f"{PROVED}: thiserror is not among the ported crates"),
    (README, "itoa, thiserror, clap", "itoa, serde, thiserror, clap", f"{README}: serde is no ported crate"),
    ("crates.txt", "pe_words: pe_view pe_text clap", "pe_words: pe_view pe_text clap bumpalo", f"{PROVED}: bumpalo is not among the ported crates"),
    (PROVED, "bumpalo (of `test_calls`)", "bumpalo (of `test_images`)", f"{PROVED}: bumpalo is not named by test_images"),
]
WORDS = [
    (GUIDE, "petool show [--exports] ", "petool show ", f"{GUIDE}: petool show has --exports, which is not named"),
    (GUIDE, "petool json [--all] ", "petool json ", f"{GUIDE}: petool json has --all, which is not named"),
    (GUIDE, "[--count N]", "[--length N]", f"{GUIDE}: petool map has no --length N"),
    (GUIDE, "`petool rebase [--check-sum] HEX IN OUT`", "`petool rebase HEX OUT IN`", f"{GUIDE}: petool rebase takes HEX IN OUT"),
    (GUIDE, "`petool check FILE...`", "`petool judge FILE...`", f"{GUIDE}: there is no command judge"),
    (GUIDE, ", `petool --version` |", " |", f"{GUIDE}: petool has --version, which is not named"),
    (README, "`petool explain [N]`", "`petool show`", f"{README}: petool explain is not named"),
    (README, "`petool show FILE...`", "`petool show [--rows] FILE...`", f"{README}: petool show has no --rows"),
    (README, "(`--file`), in", "(`--offset`), in", f"{README}: petool at FILE ADDRESS... has no --offset"),
    (MAN, ".B petool explain\n[\\fIN\\fP]\n.br\n", "", f"{MAN}: petool explain is not named"),
    (MAN, "[\\fB\\-\\-window", "[\\fB\\-\\-range", f"{MAN}: petool map has --window HEX, which is not named"),
    (MAN, "\\fIHEX=FILE\\fP...", "\\fIHEX=FILE\\fP", f"{MAN}: petool map takes HEX=FILE..., and not HEX=FILE"),
    (MAN, "\n.B rebase\n", "\n.B move\n", f"{MAN}: move is no command, or has no paragraph"),
    (MAN, "\\fB\\-\\-raw\\fP (\\fBresource\\fP)", "\\fB\\-\\-raw\\fP (\\fBarchive\\fP)", f"{MAN}: there is no paragraph for --raw of petool resource"),
    (MAN, ".TP\n\\fB\\-\\-count\\fP \\fIN\\fP (", ".PP\n\\fB\\-\\-count\\fP \\fIN\\fP (", f"{MAN}: there is no paragraph for --count N of petool map"),
    (MAN, "bad command line", "bad command line, by \\-\\-more", f"{MAN}: there is no option --more"),
    ("VERSION", "2.0", "2.1", "VERSION: the program is petool 2.0"),
]


class TestDocsCheck(unittest.TestCase):
    @classmethod
    def setUpClass(cls):
        cls.room = pathlib.Path(tempfile.mkdtemp())
        cls.addClassCleanup(shutil.rmtree, cls.room)
        made = shutil.ignore_patterns(".git", "out", "target", "__pycache__")
        shutil.copytree(TOP, cls.room, ignore=made, dirs_exist_ok=True)
        # the script finds the pages relative to itself
        form = importlib.util.spec_from_file_location("docs_check", cls.room / "scripts" / "docs_check.py")
        cls.script = importlib.util.module_from_spec(form)
        with unittest.mock.patch.object(sys, "path", [str(cls.room / "scripts"), *sys.path]):
            form.loader.exec_module(cls.script)
        # the program is the same in all cases, and its help is read once
        cls.script.said = functools.lru_cache(maxsize=None)(cls.script.said)

    def check(self, program=""):
        """The status and what is printed."""
        said = io.StringIO()
        with contextlib.redirect_stdout(said), unittest.mock.patch.dict(os.environ, PETOOL_PROGRAM=program):
            status = self.script.main()
        return status, said.getvalue()

    def assert_named(self, changes, program=""):
        """Each change is reported, and nothing once it is undone."""
        for path, old, new, told in changes:
            with self.subTest(told):
                file = self.room / path
                text = file.read_text() if file.exists() else ""
                self.assertIn(old, text)
                file.write_text(text.replace(old, new) if old else new)
                status, said = self.check(program)
                file.write_text(text) if old else file.unlink()
                self.assertEqual((status, told in said), (1, True), said)
        self.assertEqual(self.check(program)[0], 0)

    def test_conditions_are_those_that_are_named(self):
        self.assert_named(CONDITIONS)

    def test_files_and_proofs_by_hand_are_there(self):
        self.assert_named(FILES)

    def test_files_of_a_table_are_counted(self):
        self.assert_named(COUNTED)

    def test_tests_are_there(self):
        self.assert_named(NAMED)

    def test_lists_of_cases_are_there(self):
        file = self.room / "crates/test_cases/data/words"
        text = file.read_text()
        file.unlink()
        status, said = self.check()
        file.write_text(text)
        self.assertEqual((status, f"{PROVED}: there is no crates/test_cases/data/words" in said), (1, True), said)

    def test_the_test_command_is_that_which_is_run(self):
        self.assert_named(COMMAND)

    def test_fields_of_the_load_configuration_are_told(self):
        self.assert_named(LOAD_FIELDS)

    def test_versions_are_that_of_the_file(self):
        self.assert_named(VERSIONS)

    def test_ported_crates_are_those_that_are_trusted(self):
        self.assert_named(PORTED)

    def test_words_are_those_of_help(self):
        program = os.environ.get("PETOOL_PROGRAM")
        if not program:
            self.skipTest("left out without program: PETOOL_PROGRAM names none")
        self.assert_named(WORDS, program)

    def test_words_are_left_out_without_a_program(self):
        status, said = self.check()
        self.assertEqual((status, "left out without program" in said), (0, True), said)


if __name__ == "__main__":
    unittest.main()
