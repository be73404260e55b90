"""The lines of `petool json` for an archive: a line for each member, and one for the archive."""

import json
import unittest

from . import data
from .cases import run
from .finding_pages import PROGRAM, OverFiles, words_of
from .test_archive_calls import first_linker, second_linker
from .test_archives import O1, SIGNATURE, THIN, archive, header, import_object, member


def told(number, at):
    """A finding at a file offset, as a line has it."""
    subject, rule = words_of()[number]
    return {"number": number, "image": 0, "place": {"file": at}, "subject": subject, "rule": rule}


@unittest.skipUnless(PROGRAM, "left out without program: PETOOL_PROGRAM names none")
class ArchiveJson(OverFiles, unittest.TestCase):
    maxDiff = None

    def lines(self, file, status=0, *options):
        done = self.petool(file, "json", *options, "a")
        self.assertEqual((done.stderr, done.returncode), (b"", status))
        text = done.stdout.decode()
        self.assertTrue(text.endswith("}\n"))
        found = [json.loads(line) for line in text.splitlines()]
        self.assertEqual({(it.pop("schema"), it.pop("archive")) for it in found}, {(1, "a")})
        return found

    def content_of(self, file):
        """What the line of an object has after the members that each line has."""
        (self.folder / "o").write_bytes(file)
        line = json.loads(run([PROGRAM, "json", "o"], cwd=self.folder).stdout)
        return {key: value for key, value in line.items() if key not in ("schema", "file", "accepted")}

    def test_an_archive_with_both_linker_members(self):
        names = [b"f", b"g", b"\xff"]
        size = len(first_linker([0] * 3, names))
        second = len(second_linker([0] * 2, [1] * 3, names))
        one = 8 + 60 + size + size % 2 + 60 + second + second % 2
        two = one + 60 + len(O1) + len(O1) % 2
        file = archive(
            member("/", first_linker([one, one, two], names)), member("/", second_linker([one, two], [1, 2, 3], names)),
            member("a.o/", O1), member("k.dll/", import_object()),
        )
        lines = self.lines(file)
        self.assertEqual(lines[0], {"member": "/", "offset": 8, "size": size, "accepted": True})
        self.assertEqual(lines[1], {"member": "/", "offset": 8 + 60 + size + size % 2, "size": second, "accepted": True})
        self.assertEqual(lines[2], {"member": "a.o", "offset": one, "size": len(O1), "accepted": True, **self.content_of(O1)})
        self.assertEqual(lines[3], {
            "member": "k.dll", "offset": two, "size": 28, "accepted": True, "format": "import object",
            "import": {
                "machine": 0x8664, "machine_name": "AMD64", "time_date_stamp": 0x5E000001, "symbol": "f", "module": "k.dll", "name": "f",
                "hint": 0x1234, "type": 0, "type_name": "code", "name_type": 1,
            },
        })
        self.assertEqual(lines[4], {
            "accepted": True, "format": "archive",
            "first_linker_member": [{"name": "f", "offset": one}, {"name": "g", "offset": one}, {"name_hex": "ff", "offset": two}],
            "second_linker_member": [{"name": "f", "offset": one}, {"name": "g", "offset": two}, {"name_hex": "ff"}],
        })
        self.assertEqual(len(lines), 5)

    def test_the_keys_come_in_their_order(self):
        done = self.petool(archive(member("/", first_linker([8], [b"f"])), member("k.dll/", import_object(b"\x01", name_type=0, kind=1, machine=1))), "json", "a")
        self.assertEqual(done.stdout.decode().splitlines(), [
            '{"schema":1,"archive":"a","member":"/","offset":8,"size":10,"accepted":true}',
            '{"schema":1,"archive":"a","member":"k.dll","offset":78,"size":28,"accepted":true,"format":"import object","import":{"machine":1,'
            '"time_date_stamp":1577058305,"symbol":"\\u0001","module":"k.dll","ordinal":4660,"type":1,"type_name":"data","name_type":0}}',
            '{"schema":1,"archive":"a","accepted":true,"format":"archive","first_linker_member":[{"name":"f","offset":8}]}',
        ])

    def test_a_thin_archive_has_no_contents(self):
        lines = self.lines(archive(member("//", b"dir/a.o/\n"), header("/0", 10000), signature=THIN))
        self.assertEqual(lines, [
            {"member": "//", "offset": 8, "size": 9, "accepted": True}, {"member": "dir/a.o", "offset": 78, "size": 10000, "accepted": True},
            {"accepted": True, "format": "thin archive"},
        ])
        self.assertEqual(self.lines(SIGNATURE), [{"accepted": True, "format": "archive"}])

    def test_faults_of_members(self):
        cut = O1[:-1]
        (self.folder / "o").write_bytes(cut)
        own = json.loads(run([PROGRAM, "json", "o"], cwd=self.folder).stdout)["fault"]
        self.assertEqual(own["number"], 68)
        damaged = import_object(size=9)
        at = 8 + 60 + len(O1) + len(O1) % 2
        file = archive(member("/9", O1), member("cut.o/", cut), member("k.dll/", damaged), member("b.o/", O1))
        lines = self.lines(file, 1)
        self.assertEqual(lines[0], {"offset": 8, "size": len(O1), "accepted": False, "fault": told(304, 8), **self.content_of(O1)})
        self.assertEqual(lines[1], {"member": "cut.o", "offset": at, "size": len(cut), "accepted": False, "fault": own})
        at += 60 + len(cut) + len(cut) % 2
        self.assertEqual(lines[2], {"member": "k.dll", "offset": at, "size": 28, "accepted": False, "fault": told(331, at)})
        self.assertTrue(lines[3]["accepted"])
        self.assertEqual(lines[4], {"accepted": False, "fault": told(304, 8), "format": "archive"})

    def test_the_first_fault_is_that_of_the_archive(self):
        lines = self.lines(archive(member("a.o/", b"x" * 19)), 1)
        self.assertEqual(lines[0]["fault"]["number"], 61)
        self.assertEqual(lines[1]["fault"], told(307, 8))
        lines = self.lines(archive(member("a.o/", O1))[:-2], 1)
        self.assertEqual(lines, [{"accepted": False, "fault": told(303, 8)}, {"accepted": False, "fault": told(303, 8), "format": "archive"}])

    def test_names_that_are_no_text(self):
        lines = self.lines(archive(member("\xff\"/", O1)))
        self.assertEqual((lines[0]["member_hex"], "member" in lines[0]), ("ff22", False))

    def test_an_archive_among_other_files_and_from_standard_input(self):
        (self.folder / "lib.a").write_bytes(archive(member("a.o/", O1)))
        (self.folder / "v1.dll").write_bytes(data("v1.dll"))
        done = run([PROGRAM, "json", "lib.a", "v1.dll", "-"], cwd=self.folder, input=archive(member("b.o/", b"")))
        lines = [json.loads(line) for line in done.stdout.splitlines()]
        self.assertEqual([(it.get("archive"), it.get("file"), it["accepted"]) for it in lines], [
            ("lib.a", None, True), ("lib.a", None, True), (None, "v1.dll", True), ("standard input", None, False), ("standard input", None, False),
        ])
        self.assertEqual(done.returncode, 1)

    def test_options_of_images_change_nothing(self):
        file = archive(member("a.o/", O1), member("k.dll/", import_object()))
        self.assertEqual(self.lines(file, 0, "--all", "--functions"), self.lines(file))

    def test_a_limit_cuts_names_that_many_members_share(self):
        name = b"n" * 300_000
        file = archive(member("//", name + b"/\n"), *(header("/0", 0) for _ in range(30_000)))
        done = self.petool(file, "json", "--most", "1M", "a")
        self.assertEqual((done.returncode, len(done.stdout)), (5, (1 << 20) + len("\n(cut after 1048576 bytes)\n")))


if __name__ == "__main__":
    unittest.main()
