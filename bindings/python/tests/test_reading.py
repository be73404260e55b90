"""How much of a file the program reads: what comes after the end of the bytes that the headers name changes nothing but the size
on a page, and is not read if the file's size is known, except for the string table of an image whose sections have long names, and
by `json --all`, which tells what the whole file decides. A file that comes by a pipe is read to its end, so the two ways are compared.
A file that another process changes meanwhile gives what one of its states gives."""

import contextlib
import itertools
import os
import pathlib
import re
import resource
import subprocess
import tempfile
import threading
import unittest

from .files import library, numbers, put

PROGRAM = os.environ.get("PETOOL_PROGRAM")

#: A library whose section begins within the first 4,096 bytes and ends after them.
LIBRARY = library([b"module%d.function%d" % (number, number) for number in range(300)])

#: The same with the raw data of its section at its end, after 8,192 bytes that no header names.
LATE = bytes(put(bytearray(LIBRARY[:0x200]), (0x14C, (0x2200).to_bytes(4, "little")))) + bytes(0x2000) + LIBRARY[0x200:]

#: Where the bytes end that the headers name, and tails that come after them.
TAILS = [b"", b"\xff", b"MZ" * 5000]

#: A library of 4 MB, large enough to be changed while it is read. If zeros took the place of what was cut off, its forwarders would
#: have a fault (22), and not its section (13).
LARGE = library([b"module." + b"x" * (1 << 18)] * 16)

#: The row of a page that says what a file has after its sections.
OVERLAY = re.compile(rb"  Overlay .*\n")

#: How many bytes are read of a file before its headers are looked at.
FIRST = 4096


#: The commands that read no more than they need, and `json --all`, which needs the whole file.
COMMANDS = ("check", "dump", "map", "show", "json", "json with all", "at")

#: Those whose output does not have the file's size.
SIZELESS = ("check", "dump", "map", "json", "at")

#: Those whose output has it, or what the whole file decides.
SIZED = ("show", "show with symbols", "json with all")

#: The options of `show` for which no more is read than without them: all but `--symbols` and `--trust`.
ROWS = ("--exports", "--imports", "--relocations", "--debug", "--functions", "--unwind", "--tls", "--load")

#: The words of a command, if these are not the command and the path.
WORDS = {
    "map": ("map", "10000000={}"),
    "show": ("show", *ROWS, "{}"),
    "show with symbols": ("show", "--symbols", "{}"),
    "json with all": ("json", "--all", "{}"),
    "at": ("at", "{}", "1000"),
}


def words_of(command, path):
    return [word.format(path) for word in WORDS.get(command, (command, "{}"))]


def named(image, table, strings, field=b"/4"):
    """An image whose section has a name in a string table at an offset. The table is written over the image, or after zeros; as many
    bytes as 3 symbols take come before it."""
    file = bytearray(image).ljust(table + len(strings), b"\0")
    return bytes(put(file, (0x4C, numbers(table - 3 * 18, 3)), (0x138, field.ljust(8, b"\0")), (table, strings)))


def string_table(*strings):
    """A string table with these strings."""
    body = b"".join(string + b"\0" for string in strings)
    return numbers(4 + len(body)) + body


@unittest.skipUnless(PROGRAM, "left out without program: PETOOL_PROGRAM names none")
class Reading(unittest.TestCase):
    """The program over files in a folder of their own."""

    def setUp(self):
        folder = tempfile.TemporaryDirectory()
        self.addCleanup(folder.cleanup)
        self.path = pathlib.Path(folder.name) / "a.dll"

    def run_over(self, words, file, **options):
        """Its status and its outputs, with the names that standard input has in them."""
        done = subprocess.run([PROGRAM, *words], stdin=file, stdout=subprocess.PIPE, stderr=subprocess.PIPE, **options)
        name, other = str(self.path).encode(), b"standard input"
        printed = done.stdout.replace(b'"a.dll"', b'"-"').replace(name, other)
        return done.returncode, printed, done.stderr.replace(name, other)

    def by_path(self, command, **options):
        return self.run_over(words_of(command, str(self.path)), subprocess.DEVNULL, **options)

    def by_pipe(self, command):
        with subprocess.Popen(["cat", str(self.path)], stdout=subprocess.PIPE) as source:
            return self.run_over(words_of(command, "-"), source.stdout)

    def assert_alike(self, file, *commands):
        self.path.write_bytes(file)
        for command in commands:
            self.assertEqual(self.by_path(command), self.by_pipe(command), command)

    def test_bytes_after_the_end_change_nothing(self):
        for image in (LIBRARY, LATE):
            self.path.write_bytes(image)
            texts = {command: self.by_pipe(command) for command in SIZELESS}
            self.assertEqual({status for status, _, _ in texts.values()}, {0})
            for tail in TAILS:
                self.path.write_bytes(image + tail)
                with self.subTest(size=len(image), tail=len(tail)):
                    self.assertEqual({command: self.by_path(command) for command in texts}, texts)
                    for command in SIZED:
                        self.assertEqual(self.by_path(command), self.by_pipe(command), command)

    def test_files_that_end_early_are_refused_alike(self):
        for image in (LIBRARY, LATE):
            for size in (0, 63, 64, 0x178, 0x200, FIRST - 1, FIRST, FIRST + 1, len(image) - 1):
                with self.subTest(image=len(image), size=size):
                    self.assert_alike(image[:size], *COMMANDS)

    def test_each_byte_of_the_headers_counts_alike(self):
        file = bytearray(LATE + b"\xff" * 100)
        for offset in range(0x200):
            for value in (0, 0xFF):
                with self.subTest(offset=offset, value=value):
                    self.assert_alike(bytes(put(bytearray(file), (offset, bytes([value])))), "dump", "show")

    def test_names_of_sections_are_read_after_the_end(self):
        strings = string_table(b"a name of the section", b"another")
        for image, table in itertools.product((LIBRARY, LATE), (0x180, 0x1400, len(LATE), len(LATE) + 54, 0x8000)):
            for field, name in ((b"/4", b"a name of the section"), (b"/26", b"another"), (b"/99", b"/99"), (b"/x", b"/x")):
                for tail in TAILS:
                    file = named(image, table, strings, field)
                    with self.subTest(image=len(image), table=table, field=field, tail=len(tail)):
                        self.assert_alike(file + tail, "show", "json", "at")
                        if table != 0x1400:  # there it is written over strings of the exports
                            self.assertIn(b'"name":"%s"' % name, self.by_path("json")[1])
                            self.assertIn(b"  %s  " % name, self.by_path("show")[1])
                            self.assertIn(b"  %s+0x0 " % name, self.by_path("at")[1])

    def test_string_tables_that_end_early_are_none(self):
        strings = string_table(b"a name of the section")
        file = named(LIBRARY, len(LIBRARY) + 54, strings)
        for size in (len(LIBRARY), len(LIBRARY) + 54, len(file) - len(strings) + 3, len(file) - len(strings) + 4, len(file) - 1):
            with self.subTest(size=size):
                self.assert_alike(file[:size], "show", "json", "at")
                self.assertIn(b'"name":"/4"', self.by_path("json")[1])
        for size in (0, 3, 4, 5, len(strings) - 1, len(strings) + 1, 0x7FFFFFFF, 0xFFFFFFFF):
            with self.subTest(table=size):
                self.assert_alike(file[: -len(strings)] + numbers(size) + strings[4:], "show", "json", "at")
        for start, count in ((0, 3), (1, 0), (0xFFFFFFFF, 0), (0xFFFFFFFF, 0xFFFFFFFF), (len(LIBRARY), 0xFFFFFFFF)):
            with self.subTest(start=start, count=count):
                self.assert_alike(bytes(put(bytearray(file), (0x4C, numbers(start, count)))), "show", "json", "at")

    def test_a_long_tail_takes_no_memory(self):
        most = 1 << 28
        limited = {"preexec_fn": lambda: resource.setrlimit(resource.RLIMIT_AS, (most, most))}
        for file in (LIBRARY, named(LIBRARY, 0x8000, string_table(b"a name of the section"))):
            self.path.write_bytes(file)
            texts = {command: self.by_pipe(command) for command in SIZELESS}
            page = self.by_pipe("show")
            os.truncate(self.path, 1 << 30)
            self.assertEqual({command: self.by_path(command, **limited) for command in SIZELESS}, texts)
            sizes = (b" %s bytes\n" % format(size, ",").encode() for size in (len(file), 1 << 30))
            status, printed, complained = self.by_path("show", **limited)
            self.assertEqual(
                (status, OVERLAY.sub(b"", printed), complained),
                (page[0], OVERLAY.sub(b"", page[1]).replace(*sizes, 1), page[2]),
            )
            after = (1 << 30) - len(LIBRARY)
            row = f"  Overlay      {after:,} bytes after the sections, from file {len(LIBRARY):#x}\n"
            self.assertEqual(OVERLAY.findall(printed), [row.encode()])
            self.assertEqual(self.by_path("object", **limited)[0], 4)

    def test_long_files_that_are_no_images_take_no_memory(self):
        most = 1 << 28
        limited = {"preexec_fn": lambda: resource.setrlimit(resource.RLIMIT_AS, (most, most))}
        for size, begin, fault in (((1 << 30), b"\x7fELF", 3), ((1 << 32), b"", 3), ((1 << 32) + 1, LIBRARY, 1)):
            self.path.write_bytes(begin)
            os.truncate(self.path, size)
            place = 1 << 32 if fault == 1 else 0
            for command in ("check", "dump"):
                with self.subTest(command=command, size=size, fault=fault):
                    status, printed, complained = self.by_path(command, **limited)
                    self.assertEqual((status, printed.decode()), (1, f"fault {fault} image 0 file 0x{place:08x}\n"))
                    self.assertIn(b"standard input: ", complained)

    def test_long_streams_that_are_no_images_take_no_memory(self):
        # after the first bytes no more than their number is of use: it decides between the faults 1 and 3
        limited = {"preexec_fn": lambda: resource.setrlimit(resource.RLIMIT_AS, (1 << 26, 1 << 26))}
        for size, fault in ((200 << 20, 3), (1 << 32, 3), ((1 << 32) + 1, 1)):
            for command in COMMANDS:
                # a set needs the files of all its images, and is judged once they are read
                if command == "map" or fault == 1 and command != "check":
                    continue
                with self.subTest(command=command, size=size), subprocess.Popen(["head", "-c", str(size), "/dev/zero"], stdout=subprocess.PIPE) as zeros:
                    status, printed, complained = self.run_over(words_of(command, "-"), zeros.stdout, **limited)
                    zeros.stdout.close()
                    self.assertEqual(status, 1)
                    if command == "show":
                        self.assertIn(f"{size:,} bytes", printed.decode())
                    elif command.startswith("json"):
                        self.assertIn(f'"fault":{{"number":{fault},', printed.decode())
                    else:
                        place = 1 << 32 if fault == 1 else 0
                        self.assertIn(f"fault {fault} image 0 file 0x{place:08x}\n", printed.decode())
                        self.assertIn(b"standard input: ", complained)

    def test_of_a_longer_stream_one_byte_more_than_a_file_may_have_is_told(self):
        with subprocess.Popen(["head", "-c", str((1 << 32) + 9000), "/dev/zero"], stdout=subprocess.PIPE) as zeros:
            status, printed, _ = self.run_over(["show", "-"], zeros.stdout)
            zeros.stdout.close()
        self.assertEqual(status, 1)
        self.assertIn("4,294,967,297 bytes", printed.decode())

    def test_a_file_without_a_size_is_read_whole(self):
        # the system gives the size 0 for it
        status, printed, _ = self.run_over(["check", "/proc/version"], subprocess.DEVNULL)
        self.assertEqual((status, printed), (1, b"fault 3 image 0 file 0x00000000\n"))

    def test_files_without_a_size_are_read_to_their_end(self):
        self.path.write_bytes(LATE)
        texts = {command: self.by_pipe(command) for command in COMMANDS}
        pipe = str(self.path.with_name("pipe"))
        os.mkfifo(pipe)
        for command in COMMANDS:
            with self.subTest(command=command), subprocess.Popen(["cp", str(self.path), pipe]):
                status, printed, complained = self.run_over(words_of(command, pipe), subprocess.DEVNULL)
                printed = printed.replace(b'"pipe"', b'"-"').replace(pipe.encode(), b"standard input")
                self.assertEqual((status, printed, complained), texts[command])

    def test_standard_input_is_read_from_where_it_is(self):
        self.path.write_bytes(LATE + b"after")
        texts = {command: self.by_pipe(command) for command in COMMANDS}
        self.path.write_bytes(b"before" + LATE + b"after")
        for command in COMMANDS:
            with self.subTest(command=command), open(self.path, "rb", buffering=0) as file:
                file.seek(len(b"before"))
                self.assertEqual(self.run_over(words_of(command, "-"), file), texts[command])

    def test_devices_without_an_end_and_folders_end_the_program(self):
        limited = {"preexec_fn": lambda: resource.setrlimit(resource.RLIMIT_AS, (1 << 28, 1 << 28))}
        for path, status in (("/dev/null", 1), ("/dev/zero", 1), ("/dev/full", 1), (str(self.path.parent), 3)):
            for command in COMMANDS:
                # the files of a set are kept until it is judged
                wanted = 4 if command == "map" and path in ("/dev/zero", "/dev/full") else status
                with self.subTest(path=path, command=command):
                    self.assertEqual(self.run_over(words_of(command, path), subprocess.DEVNULL, **limited)[0], wanted)

    def test_a_stack_of_384_kilobytes_suffices(self):
        limited = {"preexec_fn": lambda: resource.setrlimit(resource.RLIMIT_STACK, (384 << 10, 384 << 10))}
        self.path.write_bytes(LATE)
        path = str(self.path)
        for words in (*(words_of(command, path) for command in COMMANDS), ["show", "--all", path], ["json", "--all", path]):
            with self.subTest(words):
                wanted = self.run_over(words, subprocess.DEVNULL)
                self.assertEqual(self.run_over(words, subprocess.DEVNULL, **limited), wanted)

    @contextlib.contextmanager
    def while_another(self, changes, pause):
        """Lets another thread change the file by `changes`, again and again, with a pause in seconds between two calls."""
        ended = threading.Event()

        def work():
            while not ended.wait(pause):
                changes()

        thread = threading.Thread(target=work)
        thread.start()
        try:
            yield
        finally:
            ended.set()
            thread.join()

    @staticmethod
    def without_size(result):
        """A result without the size of a file that ends within its section, and this size; it is `None` if none is told. Nor does
        it have the size on the first row of a page."""
        status, printed, complained = result
        printed = re.sub(rb"^(standard input: .*) [0-9,]+ bytes?\n", rb"\1\n", printed)
        told = printed if printed.startswith((b"standard input: ", b"{")) else complained
        size = re.search(rb", and the file has ([0-9]+)\n$", told) or re.search(rb',"file_size":([0-9]+)', told)
        if size is None:
            return (status, printed, complained), None
        cut = told[: size.start()] + told[size.end() :]
        return (status, *((cut, complained) if told is printed else (printed, cut))), int(size[1])

    def states(self, files):
        """What each command gives for these files, without their sizes."""
        states = {command: [] for command in ("check", "map", "show", "json", "at")}
        for file in files:
            self.path.write_bytes(file)
            for command, results in states.items():
                results.append(self.without_size(self.by_pipe(command))[0])
        return states

    def assert_one_of(self, states, count):
        """Runs each command so many times: each result is one of these. Returns the sizes that were told."""
        sizes = set()
        for command, results in states.items():
            for _ in range(count):
                result, size = self.without_size(self.by_path(command))
                self.assertIn(result, results, command)
                sizes.add(size)
        return sizes - {None}

    def test_a_file_that_shrinks_and_grows_meanwhile_was_cut_or_whole(self):
        states = self.states((LARGE, LARGE[:0x200], LARGE[: len(LARGE) // 2], b""))
        sizes = itertools.cycle((0x200, FIRST, len(LARGE) // 2, 0))

        def changes():
            with open(self.path, "r+b", buffering=0) as file:
                size = next(sizes)
                file.truncate(size)
                file.seek(size)
                for start in range(size, len(LARGE), 1 << 20):
                    file.write(LARGE[start : start + (1 << 20)])

        self.path.write_bytes(LARGE)
        with self.while_another(changes, 0.005):
            self.assertLessEqual(self.assert_one_of(states, 50), set(range(0x200, len(LARGE))))

    def test_a_file_that_is_replaced_or_removed_meanwhile_was_one_of_them_or_none(self):
        files = (b"", LARGE[:0x200], LIBRARY, LARGE)
        states = self.states(files)
        os.remove(self.path)
        for command, results in states.items():
            results.append(self.by_path(command))
            self.assertEqual(results[-1][0], 3)
        versions = [self.path.with_name(str(index)) for index in range(len(files))]
        for version, file in zip(versions, files):
            version.write_bytes(file)
        self.path.write_bytes(LARGE)
        beside = self.path.with_name("beside")
        steps = itertools.cycle((*versions, None))

        def changes():
            version = next(steps)
            if version is None:
                os.remove(self.path)
            else:
                os.link(version, beside)
                os.replace(beside, self.path)

        with self.while_another(changes, 0):
            self.assertLessEqual(self.assert_one_of(states, 50), {0x200})
