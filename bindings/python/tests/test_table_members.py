"""What is beyond the profile in lines of `json --all`: the members of each table, and of what a file says of itself, by a file of its own,
written out; and the findings."""

import json
import os
import pathlib
import re
import struct
import tempfile
import unittest

from .cases import run
from .files import numbers, put
from . import test_trust as trust
from . import trees
from .test_findings import AMD64, ARM64, BASE, CALLBACKS, FOUND, NB10, RSDS, SOUND, TLS, clr, debug, entry, image, load

PROGRAM = os.environ.get("PETOOL_PROGRAM")

#: Each character up to U+FFFF, and some above.
EACH_CHARACTER = "".join(map(chr, [*range(0xD800), *range(0xE000, 0x10000), 0x10000, 0x12028, 0x1F600, 0x10FFFF]))
#: The characters that no line has, as RFC 8259 lets none of the first, and a terminal obeys the others.
UNSEEN = "[\0-\x1f\x7f-\x9f\u2028-\u202e\u2066-\u2069\ufeff]"

#: The members of what a file says of itself, and the findings.
OF_FILE = ("check_sum_computed", "authenticode_sha256_hex", "certificates", "overlay", "rich", "findings")
ENTRY = ("characteristics", "time_date_stamp", "major_version", "minor_version", "type", "size_of_data", "address_of_raw_data",
         "pointer_to_raw_data")
#: The directories of a CLR header after that of the metadata.
CLR_PAIRS = ("resources", "strong_name_signature", "code_manager_table", "vtable_fixups", "export_address_table_jumps",
             "managed_native_header")

#: Files, and the members of their lines after `fixups`, without findings.
MEMBERS = [
    (image(6, 0, b""), {"debug": []}),
    (image(6, 28, struct.pack("<IIHHIIII", 1, 2, 3, 4, 13, 5, 6, 7)), {"debug": [{
        "characteristics": 1, "time_date_stamp": 2, "major_version": 3, "minor_version": 4, "type": 13, "type_name": "POGO",
        "size_of_data": 5, "address_of_raw_data": 6, "pointer_to_raw_data": 7,
    }]}),
    (image(6, 56, entry(18) + entry(0xFFFFFFFF)), {"debug": [
        dict(zip(ENTRY, (0, 0, 0, 0, 18, 0, 0, 0))), dict(zip(ENTRY, (0, 0, 0, 0, 0xFFFFFFFF, 0, 0, 0))),
    ]}),
    (debug(RSDS + b"C:\\a\"\xff.pdb\0"), {
        "debug": [dict(zip(ENTRY[:5], (0, 0, 0, 0, 2))) | {"type_name": "CODEVIEW", "size_of_data": 35, "address_of_raw_data": 0x101C,
                                                            "pointer_to_raw_data": 0x21C}],
        "pdb": {"guid_hex": "a0a1a2a3a4a5a6a7a8a9aaabacadaeaf", "age": 26, "path_hex": "433a5c6122ff2e706462"},
    }),
    (image(3, 24, numbers(0x1000, 0x1001, 0x1000, 0x1001, 0x1002, 0x1000), machine=AMD64), {"function_count": 2}),
    (image(3, 20, bytes(20), machine=ARM64), {"function_count": 2}),
    # a machine whose table has another form
    (image(3, 24, bytes(24)), {}),
    (image(9, 24, TLS + CALLBACKS), {"tls": {
        "rva": 0x1000, "start_address_of_raw_data": "0x0", "end_address_of_raw_data": "0x0", "address_of_index": "0x10001000",
        "address_of_callbacks": "0x10001018", "size_of_zero_fill": 0, "characteristics": 0, "callbacks": ["0x10001000", "0x10001004"],
    }}),
    (image(9, 24, numbers(0, 0, 0, BASE + 0x1018, 7, 0x300000, 0)), {"tls": {
        "rva": 0x1000, "start_address_of_raw_data": "0x0", "end_address_of_raw_data": "0x0", "address_of_index": "0x0",
        "address_of_callbacks": "0x10001018", "size_of_zero_fill": 7, "characteristics": 0x300000, "callbacks": [],
    }}),
    (image(9, 24, bytes(7)), {"tls": {"rva": 0x1000, "start_address_of_raw_data": "0x0"}}),
    (image(9, 24, b"\1\2\3"), {"tls": {"rva": 0x1000}}),
    # in PE32 ProcessHeapFlags is before ProcessAffinityMask, which ends after the 48 bytes
    (image(10, 64, load(48, (4, 0x12345678), (8, 0x00050004), (32, 0xFFFFFFFF), (44, 0x99))), {"load_configuration": {
        "rva": 0x1000, "size": 48, "time_date_stamp": 0x12345678, "major_version": 4, "minor_version": 5, "global_flags_clear": 0,
        "global_flags_set": 0, "critical_section_default_timeout": 0, "de_commit_free_block_threshold": "0x0",
        "de_commit_total_free_threshold": "0x0", "lock_prefix_table": "0xffffffff", "maximum_allocation_size": "0x0",
        "virtual_memory_threshold": "0x0", "process_heap_flags": 0x99,
    }}),
    (image(10, 64, b"\1\2\3"), {"load_configuration": {"rva": 0x1000}}),
    (image(11, 16, numbers(1, 0x00020010, 0, 0x14) + bytes(8)), {"bound_imports": [
        {"time_date_stamp": 1, "offset_module_name": 16, "number_of_module_forwarder_refs": 2, "module": ""},
        {"time_date_stamp": 0, "offset_module_name": 20, "number_of_module_forwarder_refs": 0, "module": ""},
    ]}),
    # names that are in the file, that pass the run, that pass the image, of 255 bytes, and of 256
    (image(11, 48, numbers(1, 48, 2, 52, 3, 0x1FFF, 4, 0x2000, 5, 54) + bytes(8) + b"a.b\0\xff\0" + b"x" * 256 + b"\0"), {"bound_imports": [
        {"time_date_stamp": 1, "offset_module_name": 48, "number_of_module_forwarder_refs": 0, "module": "a.b"},
        {"time_date_stamp": 2, "offset_module_name": 52, "number_of_module_forwarder_refs": 0, "module_hex": "ff"},
        {"time_date_stamp": 3, "offset_module_name": 0x1FFF, "number_of_module_forwarder_refs": 0},
        {"time_date_stamp": 4, "offset_module_name": 0x2000, "number_of_module_forwarder_refs": 0},
        {"time_date_stamp": 5, "offset_module_name": 54, "number_of_module_forwarder_refs": 0},
    ]}),
    (image(11, 16, numbers(5, 17) + bytes(8) + b"y" + b"x" * 255 + b"\0x"), {"bound_imports": [
        {"time_date_stamp": 5, "offset_module_name": 17, "number_of_module_forwarder_refs": 0, "module": "x" * 255},
    ]}),
    (image(11, 16, numbers(5, 17) + bytes(8) + b"yz"), {"bound_imports": [
        {"time_date_stamp": 5, "offset_module_name": 17, "number_of_module_forwarder_refs": 0},
    ]}),
    (image(11, 8, bytes(8)), {"bound_imports": []}),
    (image(14, 72, clr(72, 0x1001, 2)), {"clr": {
        "rva": 0x1000, "cb": 72, "major_runtime_version": 2, "minor_runtime_version": 5, "meta_data_rva": 0x1001, "meta_data_size": 2,
        "flags": 0, "entry_point_token": 0,
        **{f"{name}_{part}": 0 for name in CLR_PAIRS for part in ("rva", "size")},
    }}),
    (image(14, 72, clr(72, 0, 0)[:7]), {"clr": {"rva": 0x1000, "cb": 72, "major_runtime_version": 2}}),
]


@unittest.skipUnless(PROGRAM, "left out without program: PETOOL_PROGRAM names none")
class TableMembers(unittest.TestCase):
    maxDiff = None

    def setUp(self):
        folder = tempfile.TemporaryDirectory()
        self.addCleanup(folder.cleanup)
        self.folder = pathlib.Path(folder.name)

    def put(self, name, file):
        (self.folder / name).write_bytes(file)
        return name

    def printed(self, file, *options, status=0):
        """The line of a file."""
        (self.folder / "a").write_bytes(file)
        done = run([PROGRAM, "json", *options, "a"], cwd=self.folder)
        self.assertEqual(done.returncode, status)
        return json.loads(done.stdout)

    def line(self, file, *options):
        """The line of a file with what is beyond the profile, and its members after `fixups` of tables, in order."""
        line = self.printed(file, *(options or ("--all",)))
        names = list(line)
        return line, {name: line[name] for name in names[names.index("fixups") + 1 :] if name not in OF_FILE}

    def told(self, file, *options):
        """What the line of a file tells of what the file says of itself, in order."""
        line = self.printed(file, *(options or ("--all",)))
        return {name: line[name] for name in line if name in OF_FILE[:-1]}

    def test_members(self):
        for number, (file, wanted) in enumerate(MEMBERS):
            with self.subTest(number):
                _, members = self.line(file)
                self.assertEqual(json.dumps(members), json.dumps(wanted))

    def test_no_member_without_the_option(self):
        for number, file in enumerate([*(file for file, _ in MEMBERS), *(file for _, file, _ in FOUND)]):
            with self.subTest(number):
                self.assertEqual(list(self.printed(file))[-1], "fixups")

    def test_no_member_of_a_refused_image(self):
        # its export table is outside the image
        line = self.printed(bytes(put(bytearray(debug(RSDS + b"a.pdb\0")), (0xB8, numbers(0x3000, 40)))), "--all", status=1)
        names = list(line)
        self.assertEqual((line["fault"]["number"], names[names.index("fixups") + 1 :]), (16, ["check_sum_computed", "authenticode_sha256_hex"]))

    def test_no_member_of_a_table_that_is_not_there(self):
        line, members = self.line(image(15, 0, b"", rva=0))
        self.assertEqual((members, line["fixups"]), ({}, []))

    def test_findings(self):
        for number, file, rva in FOUND:
            with self.subTest(number):
                line, _ = self.line(file)
                found = [(it["number"], it["image"], it["place"]) for it in line.get("findings", [])]
                self.assertEqual(found, [(number, 0, {"rva": rva})])

    def test_findings_of_a_file(self):
        for number, (finding, file, place) in enumerate(trust.FOUND):
            with self.subTest(number):
                found = [(it["number"], it["image"], it["place"]) for it in self.printed(file, "--all")["findings"]]
                self.assertEqual(found, [(it, 0, {"file": at}) for it, at in trust.found_of(finding, place)])
        for number, file in enumerate(trust.SOUND):
            with self.subTest(number):
                self.assertNotIn("findings", self.printed(file, "--all"))

    def test_a_finding_has_its_words(self):
        line, _ = self.line(image(3, 13, numbers(0x1000, 0x1001, 0x1000) + b"\0", machine=AMD64))
        self.assertEqual(line["findings"], [{
            "number": 112, "image": 0, "place": {"rva": 0x1000}, "subject": "exception table",
            "rule": "its Size is not a multiple of the length of a record",
        }])
        self.assertEqual(list(line)[-1], "findings")

    def test_findings_of_several_tables_and_records(self):
        file = image(3, 25, numbers(0x1001, 0x1000, 0x3000, 0x1000, 0x3001, 0x1000), machine=AMD64)
        line, _ = self.line(file)
        self.assertEqual([it["number"] for it in line["findings"]], [111, 112, 113, 115, 114, 116])

    def test_files_without_a_finding(self):
        for number, file in enumerate(SOUND):
            with self.subTest(number):
                self.assertNotIn("findings", self.line(file)[0])

    def test_a_pdb_file_of_an_old_debugger(self):
        _, members = self.line(debug(NB10 + b"old.pdb\0"))
        self.assertEqual(members["pdb"], {"time_date_stamp": 0x3C0B6FD1, "age": 3, "path": "old.pdb"})

    def test_no_path_where_none_ends(self):
        _, members = self.line(debug(RSDS + b"a.pdb"))
        self.assertEqual(list(members["pdb"]), ["guid_hex", "age"])

    def test_debug_data_after_the_sections(self):
        """The line is the same from a pipe."""
        file = image(6, 28, entry(2, len(RSDS) + 6, 0, 0x2000)).ljust(0x2000, b"\0") + RSDS + b"a.pdb\0"
        line, members = self.line(file)
        self.assertEqual(list(members), ["debug"])
        piped = json.loads(run([PROGRAM, "json", "--all", "-"], input=file).stdout)
        self.assertEqual({**piped, "file": "a"}, line)

    def test_functions(self):
        amd64 = image(3, 24, numbers(0x1000, 0x1001, 0x1000, 0x1001, 0x1002, 0x1004), machine=AMD64)
        rows = [{"begin": 0x1000, "end": 0x1001, "unwind": 0x1000}, {"begin": 0x1001, "end": 0x1002, "unwind": 0x1004}]
        arm64 = image(3, 16, numbers(0x1000, 0x1004, 0x1002, 3), machine=ARM64)
        packed = [{"begin": 0x1000, "unwind": 0x1004}, {"begin": 0x1002, "unwind": 3}]
        for file, wanted in ((amd64, rows), (arm64, packed), (image(3, 0, b"", machine=AMD64), [])):
            for options in (["--functions"], ["--all", "--functions"]):
                with self.subTest(wanted=wanted, options=options):
                    _, members = self.line(file, *options)
                    self.assertEqual(members, {"function_count": len(wanted), "functions": wanted})
        # a machine whose table has another form
        self.assertEqual(self.line(image(3, 24, bytes(24)), "--functions")[1], {})

    def test_signatures(self):
        own = trust.certificate(b"\x12\x34", trust.ISSUER, trust.SUBJECT)
        other = trust.certificate(b"\0\xff", trust.named(("550406", b"DE")), trust.named(("550403", b"\xff\"")))
        signers = [{"serial_hex": "1234", "subject": "An Author", "issuer": "A Root"}, {"serial_hex": "00ff", "subject_hex": "ff22"}]
        for algorithm, name in trust.NAMES.items():
            with self.subTest(name):
                file = trust.signed(algorithm, own, other)
                digest = trust.digest_of(file, algorithm)
                wanted = {"offset": 0xE0, "length": int.from_bytes(file[0xE0:0xE4], "little"), "revision": 0x200, "type": 2,
                          "type_name": "PKCS_SIGNED_DATA", "digest_algorithm": name, "digest_hex": digest.hex(), "fits": True,
                          "signers": signers}
                self.assertEqual(json.dumps(self.told(file)["certificates"]), json.dumps([wanted]))
                del wanted["fits"]
                self.assertEqual(self.told(file, "--all", "--no-digest")["certificates"], [wanted])
                # CheckSum is not signed, and the header is
                self.assertEqual(self.told(put(bytearray(file), (0x98, b"\1")))["certificates"][0]["fits"], True)
                self.assertEqual(self.told(put(bytearray(file), (0x48, b"\1")))["certificates"][0]["fits"], False)

    def test_a_digest_of_an_algorithm_that_is_not_computed(self):
        (row,) = self.told(trust.signed(trust.SHA224))["certificates"]
        self.assertEqual(list(row), ["offset", "length", "revision", "type", "type_name", "digest_hex", "signers"])

    def test_strings_show_each_character(self):
        """In a text in UTF-8, whole, in pieces of each length, and beside what needs no escape; in UTF-16; and in the name of the file."""
        pieces = ["abc\x7f" * 5, "\u202e", "\u2029\u2028", "x" * 15 + "\x80", "x" * 16 + "\ufeff", "\u4e2d\u6587" * 9 + "\u2066\"\\", "\u2027\u202f\u2065\u206a\ufefe\xa0~"]
        for text in [EACH_CHARACTER, *pieces]:
            strings = trees.version(*(trees.string("k" + it, it) for it in text.replace("\0", "")) if len(text) < 100 else ())
            section = trees.tree([(16, trees.leaf(strings)), (24, trees.leaf(text.encode()))])
            (self.folder / "a\u202e\x9b").write_bytes(trees.image(section, image_size=(len(section) + 0x1FFF) & -0x1000))
            done = run([PROGRAM, "json", "--all", "a\u202e\x9b"], cwd=self.folder)
            with self.subTest(text[:8]):
                line = done.stdout.decode().removesuffix("\n")
                self.assertEqual(re.findall(UNSEEN, line), [])
                told = json.loads(line)
                self.assertEqual((told["file"], told["manifest"], told["version"]["string_tables"]), ("a\u202e\x9b", text, [
                    {"key": "040904b0", "strings": [{"key": "k" + it, "value": it} for it in (text.replace("\0", "") if len(text) < 100 else "")]},
                ]))
                shown = json.dumps(text, ensure_ascii=False)
                self.assertIn('"manifest":' + re.sub(UNSEEN, lambda it: f"\\u{ord(it[0]):04x}", shown), line)

    def test_string_tables(self):
        """Two tables in one block, one of them empty and with a key that is no number, and one table in another block."""
        info = [trees.block("StringFileInfo", children=[trees.block("x\ud800y", children=[]), trees.block("040904b0", children=[trees.string("a", "1"), trees.string("", "")])]),
                trees.block("VarFileInfo"), trees.block("StringFileInfo", children=[trees.block("", children=[trees.block("b", b"\0\xdc\0\0")])])]
        file = trees.image(trees.tree([(16, trees.leaf(trees.block("VS_VERSION_INFO", trees.FIXED, info, kind=0)))]))
        self.assertEqual(self.printed(file, "--all")["version"]["string_tables"], [
            {"key": "x\ufffdy", "strings": []},
            {"key": "040904b0", "strings": [{"key": "a", "value": "1"}, {"key": "", "value": ""}]},
            {"key": "", "strings": [{"key": "b", "value": "\ufffd"}]},
        ])

    def test_a_long_key_of_a_string_table_is_told_once(self):
        """A table whose key has 30,000 bytes, with 4,000 strings that have none."""
        data = trees.version(*[trees.block("")] * 4000, table="k" * 15000)
        done = run([PROGRAM, "json", "--all", self.put("a", trees.image(trees.tree([(16, trees.leaf(data))]), image_size=0x20000))], cwd=self.folder)
        self.assertEqual(done.returncode, 0)
        self.assertLess(len(done.stdout), 200_000)
        (table,) = json.loads(done.stdout)["version"]["string_tables"]
        self.assertEqual((table["key"], len(table["strings"])), ("k" * 15000, 4000))

    def test_certificates_that_are_no_signature(self):
        table = b"".join(trust.entry(bytes(kind), kind, 0x100) for kind in (1, 3, 4, 9)) + trust.entry(b"")
        rows = self.told(trust.image(table))["certificates"]
        self.assertEqual([(it["offset"], it["length"], it.get("type_name")) for it in rows],
                         [(0xE0, 9, "X509"), (0xF0, 11, "RESERVED_1"), (0x100, 12, "TS_STACK_SIGNED"), (0x110, 17, None),
                          (0x128, 8, "PKCS_SIGNED_DATA")])
        self.assertEqual([list(it)[4:] for it in rows], [["type_name"]] * 3 + [[], ["type_name", "signers"]])

    def test_check_sum_and_digest(self):
        file = trust.with_table(trust.image(field=7) + b"more", trust.entry(b""))
        wanted = {"check_sum_computed": trust.sum_of(file, 0x98),
                  "authenticode_sha256_hex": trust.digest_of(file, trust.SHA256).hex()}
        told = self.told(file)
        self.assertEqual({name: told[name] for name in wanted}, wanted)
        self.assertEqual(list(self.told(file, "--all", "--no-digest")), ["certificates", "overlay"])
        # what is signed is ambiguous where the table passes the file, and where it is not at its end
        self.assertNotIn("authenticode_sha256_hex", self.told(trust.image(trust.entry(b""), size=9)))
        self.assertNotIn("authenticode_sha256_hex", self.told(trust.image(trust.entry(b""), after=b"m")))

    def test_code_that_was_not_signed_fits_nothing(self):
        moved = trust.moved_over_code()[1]
        file, other = map(self.told, trust.moved_over_code())
        self.assertEqual((file["certificates"][0]["fits"], "fits" in other["certificates"][0]), (True, False))
        self.assertEqual(("authenticode_sha256_hex" in file, "authenticode_sha256_hex" in other), (True, False))
        self.assertEqual([it["number"] for it in self.printed(moved, "--all")["findings"]], [223, 225])

    def test_overlay(self):
        self.assertEqual(self.told(trust.image(after=b"12345"))["overlay"], {"offset": 0xE0, "size": 5, "begins_with": "other data"})
        self.assertNotIn("overlay", self.told(trust.image()))

    def test_rich(self):
        for key in (None, 0x12345678):
            file, own = trust.rich(trust.PAIRS, key=key)
            pairs = [{"product": tool >> 16, "build": tool & 0xFFFF, "count": count} for tool, count in trust.PAIRS]
            self.assertEqual(json.dumps(self.told(file)["rich"]), json.dumps({"offset": 0x40, "key": own, "fits": key is None, "pairs": pairs}))
        self.assertEqual(self.told(trust.rich([])[0])["rich"]["pairs"], [])

    def test_many_signatures_cost_one_digest(self):
        """Entries that all sign a digest of one algorithm are compared with one digest."""
        row = trust.entry(trust.signature(trust.SHA256, bytes(32)))
        file = trust.image(row * 20000, after=bytes(1 << 24))
        self.assertEqual(len(self.told(file)["certificates"]), 20000)


if __name__ == "__main__":
    unittest.main()
