"""The file that `rebase` writes: one that is there is replaced by the complete file, or stays as it was; and its streams, `-`."""

import errno
import os
import pathlib
import resource
import shutil
import stat
import subprocess
import tempfile
import unittest

from .test_program import HEADERS, OUTPUT_IS_FULL, SIGNED, told

PROGRAM = os.environ.get("PETOOL_PROGRAM")

LINE = "rebased 0x0000000020000000\n"

#: What is in the file before.
OLD = b"the old file"

#: An image of 300 KB, and its file at another base.
LARGE = HEADERS + b"\x55" * (300 << 10)


def moved(file):
    """The file of an image for the base 0x20000000: its ImageBase, and its CheckSum."""
    file = bytearray(file)
    file[0x74:0x78] = (0x20000000).to_bytes(4, "little")
    file[0x98:0x9C] = bytes(4)
    return bytes(file)


@unittest.skipUnless(PROGRAM, "left out without program: PETOOL_PROGRAM names none")
class Replaced(unittest.TestCase):
    maxDiff = None

    def setUp(self):
        folder = tempfile.TemporaryDirectory()
        self.addCleanup(folder.cleanup)
        self.folder = pathlib.Path(folder.name)
        (self.folder / "a.dll").write_bytes(HEADERS)
        self.new = self.folder / "new.dll"

    def rebase(self, source="a.dll", target="new.dll", base="20000000", **options):
        """Its status and its outputs."""
        options = {"cwd": self.folder, "stdout": subprocess.PIPE, "stderr": subprocess.PIPE, **options}
        done = subprocess.run([options.pop("program", PROGRAM), "rebase", base, source, target], **options)
        return done.returncode, done.stdout, (done.stderr or b"").decode()

    def names(self):
        return sorted(os.listdir(self.folder))

    def assert_replaced(self, **options):
        self.assertEqual(self.rebase(**options), (0, LINE.encode(), ""))

    def test_a_file_is_made_with_the_permissions_of_new_files(self):
        old = os.umask(0o027)
        try:
            self.assert_replaced()
        finally:
            os.umask(old)
        self.assertEqual(self.new.read_bytes(), moved(HEADERS))
        self.assertEqual(stat.S_IMODE(self.new.stat().st_mode), 0o640)
        self.assertEqual(self.names(), ["a.dll", "new.dll"])

    def test_a_file_is_replaced_and_keeps_its_permissions(self):
        for mode in (0o600, 0o644, 0o755, 0o4711, 0o666):
            with self.subTest(mode=oct(mode)):
                self.new.unlink(missing_ok=True)
                self.new.write_bytes(OLD * 1000)
                self.new.chmod(mode)
                self.assert_replaced()
                self.assertEqual(self.new.read_bytes(), moved(HEADERS))
                self.assertEqual(stat.S_IMODE(self.new.stat().st_mode), mode)
                self.assertEqual(self.names(), ["a.dll", "new.dll"])

    @unittest.skipUnless(os.geteuid() == 0, "left out without root: owners are those of other users")
    def test_a_file_keeps_its_owner_and_group(self):
        self.new.write_bytes(OLD)
        os.chown(self.new, 1234, 5678)
        self.new.chmod(0o6750)
        self.assert_replaced()
        found = self.new.stat()
        self.assertEqual((found.st_uid, found.st_gid, stat.S_IMODE(found.st_mode)), (1234, 5678, 0o6750))

    def test_links_stay_and_lead_to_the_new_file(self):
        (self.folder / "there").mkdir()
        end = self.folder / "there" / "end.dll"
        (self.folder / "there" / "middle").symlink_to("end.dll")
        self.new.symlink_to("there/middle")
        for old in (OLD, None):
            with self.subTest(old=old):
                end.unlink(missing_ok=True)
                if old is not None:
                    end.write_bytes(old)
                self.assert_replaced()
                self.assertEqual(end.read_bytes(), moved(HEADERS))
                self.assertTrue(self.new.is_symlink() and (self.folder / "there" / "middle").is_symlink())
                self.assertFalse(end.is_symlink())
                self.assertEqual(sorted(os.listdir(self.folder / "there")), ["end.dll", "middle"])

    def test_links_that_lead_nowhere_are_refused(self):
        self.new.symlink_to("new.dll")
        self.assertEqual(self.rebase(), (3, b"", f"petool: new.dll: writing failed: {told(errno.ELOOP)}\n"))
        self.assertEqual(self.names(), ["a.dll", "new.dll"])

    def test_a_folder_is_not_replaced(self):
        self.new.mkdir()
        self.assertEqual(self.rebase(), (3, b"", f"petool: new.dll: writing failed: {told(errno.EISDIR)}\n"))
        self.assertEqual(self.names(), ["a.dll", "new.dll"])

    def test_a_refused_image_leaves_the_file(self):
        self.new.write_bytes(OLD)
        status, printed, _ = self.rebase(base="20000001")
        self.assertEqual((status, printed, self.new.read_bytes()), (1, b"fault 44 image 0 address 0x0000000020000001\n", OLD))
        self.assertEqual(self.names(), ["a.dll", "new.dll"])

    def test_a_limit_on_the_size_of_files_leaves_the_file(self):
        (self.folder / "a.dll").write_bytes(LARGE)
        limited = {"preexec_fn": lambda: resource.setrlimit(resource.RLIMIT_FSIZE, (100 << 10, 100 << 10))}
        expected = (3, b"", f"petool: new.dll: writing failed: {told(errno.EFBIG)}\n")
        for old in (None, OLD):
            with self.subTest(old=old):
                if old is not None:
                    self.new.write_bytes(old)
                self.assertEqual(self.rebase(**limited), expected)
                self.assertEqual(self.names(), ["a.dll"] + ["new.dll"] * (old is not None))
                self.assertEqual(old is None or self.new.read_bytes(), old is None or old)
        exact = {"preexec_fn": lambda: resource.setrlimit(resource.RLIMIT_FSIZE, (len(LARGE), len(LARGE)))}
        self.assert_replaced(**exact)
        self.assertEqual(self.new.read_bytes(), moved(LARGE))

    def unprivileged(self):
        """The program, and what runs it without the rights of root."""
        if os.geteuid() != 0:
            return {}
        program = str(self.folder / "petool")
        shutil.copy(PROGRAM, program)
        self.folder.chmod(0o777)
        (self.folder / "petool").chmod(0o755)
        return {"program": program, "user": 65534, "group": 65534, "extra_groups": []}

    def test_a_folder_that_may_not_be_written_keeps_the_file(self):
        options = self.unprivileged()
        self.new.write_bytes(OLD)
        self.new.chmod(0o666)
        self.folder.chmod(0o555)
        before = self.names()
        try:
            self.assertEqual(self.rebase(**options), (3, b"", f"petool: new.dll: writing failed: {told(errno.EACCES)}\n"))
        finally:
            self.folder.chmod(0o777)
        self.assertEqual((self.new.read_bytes(), self.names()), (OLD, before))

    def test_a_file_that_may_not_be_written_is_not_replaced(self):
        options = self.unprivileged()
        self.new.write_bytes(OLD)
        self.new.chmod(0o444)
        before = self.names()
        self.assertEqual(self.rebase(**options), (3, b"", f"petool: new.dll: writing failed: {told(errno.EACCES)}\n"))
        self.assertEqual((self.new.read_bytes(), self.names()), (OLD, before))

    @unittest.skipUnless(os.geteuid() == 0, "left out without root: owners are those of other users")
    def test_a_file_of_another_owner_lends_no_rights(self):
        options = self.unprivileged()
        self.new.write_bytes(OLD)
        os.chown(self.new, 1234, 5678)
        self.new.chmod(0o6716)
        self.assert_replaced(**options)
        found = self.new.stat()
        # the group is another, and may do what others may
        self.assertEqual((found.st_uid, stat.S_IMODE(found.st_mode)), (65534, 0o766))

    def test_devices_and_pipes_are_written_straight(self):
        for target in ("/dev/null", "/dev/full"):
            with self.subTest(target=target):
                expected = (0, LINE.encode(), "") if target == "/dev/null" else (
                    3, b"", f"petool: /dev/full: writing failed: {told(errno.ENOSPC)}\n")  # fmt: skip
                self.assertEqual(self.rebase(target=target), expected)
        os.mkfifo(self.new)
        with subprocess.Popen(["cat", str(self.new)], stdout=subprocess.PIPE) as reader:
            self.assert_replaced()
            self.assertEqual(reader.communicate()[0], moved(HEADERS))
        self.assertTrue(stat.S_ISFIFO(self.new.stat().st_mode))

    def test_standard_output_by_its_path_is_written_straight(self):
        for target in ("/dev/stdout", "/dev/fd/1", "/proc/self/fd/1"):
            with self.subTest(target=target):
                # the file, and then the line: nothing else can be said of one output
                self.assertEqual(self.rebase(target=target), (0, moved(HEADERS) + LINE.encode(), ""))
                with open(self.folder / "b.dll", "wb") as output:
                    self.assertEqual(self.rebase(target=target, stdout=output)[0], 0)
                    # it is the file that was opened, and no new one
                    self.assertEqual(os.fstat(output.fileno()).st_nlink, 1)
                self.assertIn(LINE.encode(), (self.folder / "b.dll").read_bytes())

    def test_files_that_are_called_like_drafts_are_in_nobodys_way(self):
        taken = [self.folder / f".petool-{number}.tmp" for number in range(200)]
        for file in taken:
            file.write_bytes(OLD)
        self.assert_replaced()
        self.assertEqual({file.read_bytes() for file in taken}, {OLD})

    @unittest.skipUnless(os.geteuid() == 0, "left out without root: owners are those of other users")
    @unittest.skipUnless(shutil.which("cc"), "left out without cc")
    def test_a_link_in_place_of_the_draft_gives_no_file_away(self):
        swap = str(self.folder / "swap.so")
        source = pathlib.Path(__file__).with_name("swap.c")
        subprocess.run(["cc", "-shared", "-fPIC", "-o", swap, str(source), "-ldl"], check=True)
        other = self.folder / "other"
        other.write_bytes(OLD)
        other.chmod(0o600)
        self.new.write_bytes(OLD)
        os.chown(self.new, 1234, 5678)
        self.new.chmod(0o666)
        self.rebase(env={**os.environ, "LD_PRELOAD": swap, "LEADS_TO": str(other)})
        # the link took the place of the new file, which shows that it stood in that of the draft
        self.assertTrue(self.new.is_symlink())
        found = other.stat()
        self.assertEqual((found.st_uid, found.st_gid, stat.S_IMODE(found.st_mode), other.read_bytes()), (0, 0, 0o600, OLD))

    def test_the_input_is_not_the_output(self):
        (self.folder / "b.dll").symlink_to("a.dll")
        os.link(self.folder / "a.dll", self.folder / "c.dll")
        for target in ("a.dll", "./a.dll", "b.dll", "c.dll"):
            self.assertEqual(self.rebase(target=target), (3, b"", f"petool: {target}: is the input file\n"))
        self.assertEqual((self.folder / "a.dll").read_bytes(), HEADERS)

    # ---- streams ----

    def test_standard_input_may_be_the_image(self):
        self.assert_replaced(source="-", input=HEADERS)
        self.assertEqual(self.new.read_bytes(), moved(HEADERS))
        for words in ({"input": b""}, {"stdin": subprocess.DEVNULL}):
            status, printed, complained = self.rebase(source="-", **words)
            self.assertEqual((status, printed), (1, b"fault 2 image 0 file 0x00000000\n"))
            self.assertTrue(complained.startswith("petool: standard input: end of the file at 0x0: "), complained)
        with open(self.folder / "a.dll", "rb") as source:
            self.assertEqual(self.rebase(source="-", target="a.dll", stdin=source), (3, b"", "petool: a.dll: is the input file\n"))

    def test_standard_output_may_be_the_new_file(self):
        # the line is on standard error, so that standard output has the file alone
        self.assertEqual(self.rebase(target="-"), (0, moved(HEADERS), LINE))
        self.assertEqual(self.rebase(source="-", target="-", input=HEADERS), (0, moved(HEADERS), LINE))
        told_ = "petool: a.dll: base 0x20000001: the base is not a multiple of 65,536\n"
        expected = (1, b"", "fault 44 image 0 address 0x0000000020000001\n" + told_)
        self.assertEqual(self.rebase(target="-", base="20000001"), expected)
        (self.folder / "a.dll").write_bytes(SIGNED)
        told_ = "CheckSum is now 0\npetool: standard output: the certificate is that of the old file and no longer fits\n"
        self.assertEqual(self.rebase(target="-"), (0, moved(SIGNED), f"{LINE}petool: standard output: {told_}"))
        self.assertEqual(self.names(), ["a.dll"])

    def test_standard_output_that_fails_is_reported(self):
        with open("/dev/full", "wb") as full:
            self.assertEqual(self.rebase(target="-", stdout=full), (3, None, OUTPUT_IS_FULL))
        reader, writer = os.pipe()
        os.close(reader)
        with open(writer, "wb") as lost:
            self.assertEqual(self.rebase(target="-", stdout=lost), (3, None, ""))

    def test_standard_output_may_not_be_the_input(self):
        with open(self.folder / "a.dll", "ab") as output:
            self.assertEqual(self.rebase(target="-", stdout=output), (3, None, "petool: standard output: is the input file\n"))
        self.assertEqual((self.folder / "a.dll").read_bytes(), HEADERS)

    def test_files_of_these_names_have_paths(self):
        (self.folder / "-").write_bytes(HEADERS)
        self.assert_replaced(source="./-")
        (self.folder / "-").unlink()
        self.assert_replaced(target="./-")
        self.assertEqual((self.folder / "-").read_bytes(), moved(HEADERS))


if __name__ == "__main__":
    unittest.main()
