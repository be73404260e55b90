"""Names that the command line or a file gives, as the program's texts show them: none that a terminal would obey is written as it is.
And that a file whose name is not UTF-8 is refused alone."""

import os
import re
import subprocess
import tempfile
import unittest


from .files import put
from .test_program import HEADERS, IMPORTING, image_of

PROGRAM = os.environ.get("PETOOL_PROGRAM")

#: Names of files, and as texts show them: each is a name of the system, and so is no empty string and has no slash.
SHOWN = [
    (b"a.dll", "a.dll"),
    ("b\u00e4\u20ac\U0001f600 c.dll".encode(), "b\u00e4\u20ac\U0001f600 c.dll"),
    (b'c "d" \\.dll', 'c "d" \\.dll'),
    (b"new\nline\x1b[31m.dll", '"new\\x0aline\\x1b[31m.dll"'),
    (b'"e".dll', '"\\x22e\\x22.dll"'),
    ("f\u202eg.dll".encode(), '"f\\xe2\\x80\\xaeg.dll"'),
    ("h\u0085.dll".encode(), '"h\\xc2\\x85.dll"'),
    (b"\xff.dll", '"\\xff.dll"'),
    (b"i\xc3(\xed\xa0\x80.dll", '"i\\xc3(\\xed\\xa0\\x80.dll"'),
    (b"j\xf0\x9f\x98.dll", '"j\\xf0\\x9f\\x98.dll"'),
    (b"\x80\xbf\xc0\xff=\\\x7f", '"\\x80\\xbf\\xc0\\xff=\\x5c\\x7f"'),
]

NO_FILE = "No such file or directory (os error 2)"
NOT_TEXT = "cannot be opened, since its name is not UTF-8"
NO_BYTES = "end of the file at 0x0: the file has fewer than the 64 bytes of an MS-DOS header: it has 0"


def is_text(name):
    """Whether a name is UTF-8."""
    try:
        return bool(name.decode())
    except UnicodeDecodeError:
        return False


#: The names of files that can be opened, and the others.
TEXTS = [it for it in SHOWN if is_text(it[0])]
BYTES = [it for it in SHOWN if not is_text(it[0])]


def quoted(name):
    """A name in quotes, as `map` prints each."""
    return '"%s"' % "".join(chr(byte) if 0x20 <= byte < 0x7F and byte not in b'"\\' else "\\x%02x" % byte for byte in name)


@unittest.skipUnless(PROGRAM, "left out without program: PETOOL_PROGRAM names none")
class Names(unittest.TestCase):
    maxDiff = None

    def setUp(self):
        folder = tempfile.TemporaryDirectory()
        self.addCleanup(folder.cleanup)
        self.folder = os.fsencode(folder.name)
        for name, _ in SHOWN:
            self.write(name, HEADERS)

    def write(self, name, file):
        with open(os.path.join(self.folder, name), "wb") as new:
            new.write(file)

    def run_words(self, *words, **options):
        """Its status and its outputs."""
        done = subprocess.run([PROGRAM, *words], cwd=self.folder, stdout=subprocess.PIPE, stderr=subprocess.PIPE, **options)
        return done.returncode, done.stdout.decode(), done.stderr.decode()

    def test_check_of_several_files_shows_the_name_of_each(self):
        lines = "".join(f"{shown}: accepted PE32 sections 0\n" for _, shown in TEXTS)
        self.assertEqual(self.run_words("check", *(name for name, _ in TEXTS)), (0, lines, ""))

    def test_check_of_one_file_shows_no_name(self):
        for name, _ in TEXTS:
            self.assertEqual(self.run_words("check", name), (0, "accepted PE32 sections 0\n", ""))

    def test_a_name_that_is_not_utf_8_is_refused_by_each_command(self):
        self.assertEqual(len(BYTES), 4)
        for name, shown in BYTES:
            for words in (("check", name), ("dump", name), ("show", name), ("json", name), ("object", name), ("at", name, "0"),
                          ("map", b"10000000=" + name), ("map", b"10000000:a.dll=" + name), ("rebase", "0", name, "new.dll")):
                with self.subTest(words=words):
                    self.assertEqual(self.run_words(*words), (3, "", f"petool: {shown}: {NOT_TEXT}\n"))
        self.assertFalse(os.path.exists(os.path.join(self.folder, b"new.dll")))

    def test_a_page_begins_with_the_name(self):
        for name, shown in TEXTS:
            status, printed, complained = self.run_words("show", name)
            self.assertEqual((status, printed.split("\n")[0], complained), (0, f"{shown}: accepted: PE32 library for I386, 184 bytes", ""))

    def test_a_line_of_json_has_the_name(self):
        for name, _ in TEXTS:
            member = '"file":"%s"' % name.decode().replace("\\", "\\\\").replace('"', '\\"')
            member = member.replace("\n", "\\n").replace("\x1b", "\\u001b")
            member = re.sub("[\x7f-\x9f\u2028-\u202e\u2066-\u2069\ufeff]", lambda it: f"\\u{ord(it[0]):04x}", member)
            self.assertEqual(self.run_words("json", name)[1].split(",")[1].split(',"accepted')[0], member)

    def test_map_quotes_each_name(self):
        for name, _ in TEXTS:
            line = f"image 0 {quoted(name)} base 0x0000000010000000 size 0x00001000\nend\n"
            self.assertEqual(self.run_words("map", b"10000000=" + name), (0, line, ""))
            self.assertEqual(self.run_words("map", b"10000000=../" + os.path.basename(self.folder) + b"/" + name), (0, line, ""))

    def test_map_quotes_a_name_that_the_word_gives(self):
        for name in (name.replace(b"=", b"") for name, _ in SHOWN):
            line = f"image 0 {quoted(name)} base 0x0000000010000000 size 0x00001000\nend\n"
            self.assertEqual(self.run_words("map", b"10000000:" + name + b"=a.dll"), (0, line, ""))

    def test_messages_show_the_name(self):
        for name, shown in TEXTS:
            self.write(name, b"")
            for words in (("check", name), ("dump", name), ("at", name, "0"), ("map", b"10000000=" + name), ("rebase", "0", name, "new.dll")):
                with self.subTest(words=words):
                    expected = (1, "fault 2 image 0 file 0x00000000\n", f"petool: {shown}: {NO_BYTES}\n")
                    self.assertEqual(self.run_words(*words), expected)
            os.unlink(os.path.join(self.folder, name))
            for words in (("check", name), ("show", name), ("json", name), ("map", b"10000000=" + name), ("rebase", "0", name, "new.dll")):
                with self.subTest(words=words):
                    self.assertEqual(self.run_words(*words), (3, "", f"petool: {shown}: cannot be opened: {NO_FILE}\n"))

    def test_one_name_of_many_stops_no_other(self):
        words = ["a.dll", b"\xfe\xff", *(name for name, _ in SHOWN[1:])]
        lines = "".join(f"{shown}: accepted PE32 sections 0\n" for _, shown in TEXTS)
        told = "".join(f"petool: {shown}: {NOT_TEXT}\n" for shown in ('"\\xfe\\xff"', *(shown for _, shown in BYTES)))
        self.assertEqual(self.run_words("check", *words), (3, lines, told))

    def test_such_a_file_is_read_from_standard_input(self):
        with open(os.path.join(self.folder, BYTES[0][0]), "rb") as file:
            self.assertEqual(self.run_words("check", "-", stdin=file), (0, "accepted PE32 sections 0\n", ""))

    def test_a_new_file_needs_a_name_that_is_utf_8(self):
        told = 'petool: "\\xff": cannot be written, since its name is not UTF-8\n'
        self.assertEqual(self.run_words("rebase", "20000000", "a.dll", b"\xff"), (3, "", told))
        self.assertFalse(os.path.exists(os.path.join(self.folder, b"\xff")))

    def test_messages_of_rebase_show_the_names(self):
        signed = bytearray(HEADERS)
        put(signed, (0x98, b"\x34\x12"))
        for name, shown in SHOWN[:6]:
            self.write(name, bytes(signed))
            new = b"new" + name
            shown_new = shown.replace('"', '"new', 1) if shown.startswith('"') else "new" + shown
            if name.startswith(b'"'):
                # the quote is not the first character of this name
                shown_new = 'new"e".dll'
            expected = (0, "rebased 0x0000000020000000\n", f"petool: {shown_new}: CheckSum is now 0\n")
            self.assertEqual(self.run_words("rebase", "20000000", name, new), expected)
            self.assertEqual(self.run_words("rebase", "20000000", name, name), (3, "", f"petool: {shown}: is the input file\n"))

    def test_the_import_that_fails_is_shown(self):
        for name, shown in ((b"a\x1bb", '"a\\x1bb"'), (b"\xff", '"\\xff"'), (b'"', '"\\x22"'), (b"", '""'), (b"?f@@YAXXZ", "?f@@YAXXZ")):
            pieces = [(0x130, b"\x50\x01"), (0x140, b"\x50\x01"), (0x152, name.ljust(6, b"\0"))]
            self.write(b"a.dll", image_of(0x70, 0x160, *(piece for piece in IMPORTING if piece[0] != 0x152), *pieces))
            told = "petool: a.dll: import address table slot at RVA 0x140: the import leads to a module that is not in the set: "
            status, _, complained = self.run_words("map", "10000000=a.dll")
            self.assertEqual((status, complained), (1, f"{told}K.dll {shown}; with --known such slots are left as they are\n"))


#: Command lines that are refused, and a part of what is said of them.
BAD = [
    ([b"\x1b[31m"], "unrecognized subcommand '\\x1b[31m'"),
    ([b"\xff"], "unrecognized subcommand '\\xff'"),
    (["check", b"--new\nline"], "unexpected argument '--new\\x0aline' found"),
    (["dump", b"--\xff", "a.dll"], "unexpected argument '--\\xff' found"),
    (["dump", "a.dll", b"b\r.dll"], "unexpected argument 'b\\x0d.dll' found"),
    (["dump", "--most", b"1\n2", "a.dll"], "invalid value '1\\x0a2' for '--most <BYTES>': not a number of bytes, such as 65536 or 64K"),
    (["map", b"10\x1b=a.dll"], "invalid value '10\\x1b=a.dll' for '<HEX=FILE>...': not a base of 1 to 16 hexadecimal digits"),
    (["map", b"10=\xff/"], "invalid value '10=\\xff/' for '<HEX=FILE>...': no file name"),
    (["map", "--count", b"\n", "10=a.dll"], "invalid value '\\x0a' for '--count <N>': not a number from 1 to 4096"),
    (["rebase", b"\x1b", b"\xff", "b.dll"], "invalid value '\\x1b' for '<HEX>': not a base of 1 to 16 hexadecimal digits"),
    (["at", b"\xff", b"g\n"], "invalid value 'g\\x0a' for '<ADDRESS>': not an address of 1 to 16 hexadecimal digits"),
    (["explain", "1\u202e3"], "invalid value '1\\xe2\\x80\\xae3' for '[N]': not the number of a fault"),
    # what may be written to a terminal is as it was
    (["\u00e4"], "unrecognized subcommand '\u00e4'"),
]


@unittest.skipUnless(PROGRAM, "left out without program: PETOOL_PROGRAM names none")
class BadWords(unittest.TestCase):
    def test_messages_show_the_words(self):
        for words, part in BAD:
            with self.subTest(words=words):
                done = subprocess.run([PROGRAM, *words], stdout=subprocess.PIPE, stderr=subprocess.PIPE)
                complained = done.stderr.decode()
                self.assertEqual((done.returncode, done.stdout), (2, b""))
                self.assertIn(part, complained)
                self.assertIsNone(re.search("[\x00-\x09\x0b-\x1f\x7f-\x9f\u202e]", complained))
                # the message, a blank line, the usage and the hint, and no line more
                self.assertIn(len(complained.split("\n")), (6, 8, 9))


if __name__ == "__main__":
    unittest.main()
