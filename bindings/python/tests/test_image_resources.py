"""The resources of an image: leaves of its tree, version information and manifest, of trees that are put together table by table."""

import unittest

import petool

from .files import changed
from .trees import FIXED, RVA, TEXT, block, directory, image, leaf, string, tree, version

MANIFEST = b"<assembly/>"
VERSION = version(string("ProductVersion", "1.2"), string("Comments", "na\xefve \U0001f600"), string("Comments", "second"))
FILE = image(tree([
    ("A\u03b1", [(5, [(0x409, (b"data", 1252))])]),
    (16, leaf(VERSION, 0)),
    (24, [(2, [(0x407, (MANIFEST, 65001))]), (3, [(0x407, (b"", 0))])]),
]))


class ImageResources(unittest.TestCase):
    def test_leaves_have_what_leads_to_them(self):
        with petool.Image(FILE) as made:
            rows = list(made.resources)
            self.assertEqual([(it.kind, it.name, it.language, it.code_page) for it in rows], [
                ("A\u03b1", 5, 0x409, 1252), (16, 1, 0, 0), (24, 2, 0x407, 65001), (24, 3, 0x407, 0),
            ])
            self.assertEqual([made.read(it.rva, it.size) for it in rows], [b"data", VERSION, MANIFEST, b""])
            self.assertEqual(made.resources[-1], rows[-1])
            self.assertEqual(made.findings, ())

    def test_levels_that_the_tree_lacks_are_none(self):
        # a leaf at the first level, and one whose text passes the file
        short = directory((7, 0x18)) + bytes(16)
        with petool.Image(image(short)) as made:
            (it,) = made.resources
            self.assertEqual((it.kind, it.name, it.language, it.rva, it.size), (7, None, None, 0, 0))
            self.assertEqual([(it.number, it.at) for it in made.findings], [(186, RVA + 0x18)])
        cut = directory((TEXT | 0x28, 0x18), texts=1) + bytes(16) + b"\2\0a\0"
        with petool.Image(image(cut)) as made:
            (it,) = made.resources
            self.assertEqual((it.kind, it.name), ("", None))
            self.assertEqual([it.number for it in made.findings], [183, 186])

    def test_version_information(self):
        with petool.Image(FILE) as made:
            found = made.version
            self.assertEqual((found.file_version, found.product_version), ((1, 2, 3, 4), (5, 6, 7, 8)))
            self.assertEqual((found.flags_mask, found.flags, found.system, found.kind, found.subkind), (0x3F, 1, 0x40004, 2, 0))
            self.assertEqual((found["ProductVersion"], found["Comments"]), ("1.2", "na\xefve \U0001f600"))
            self.assertEqual([it.table for it in found.strings], ["040904b0"] * 3)
            self.assertEqual((list(found), len(found)), (["ProductVersion", "Comments"], 2))
            self.assertIn("Comments", found)
            self.assertNotIn("Comment", found)
            self.assertEqual((found.get("Comment"), found.get("Comment", "-"), found.get("Comments")), (None, "-", found["Comments"]))
            with self.assertRaises(KeyError):
                found["productversion"]
            self.assertEqual(repr(found), "<Version: 1.2.3.4, 3 strings>")

    def test_version_information_without_its_fixed_part(self):
        other = version(block("a", b"\0\xd8\0\0"), fixed=b"\0" + FIXED[1:])
        with petool.Image(image(tree([(16, leaf(other))]))) as made:
            found = made.version
            self.assertEqual((found.file_version, found.kind, found["a"]), (None, None, "\ufffd"))
            self.assertEqual(repr(found), "<Version: no fixed part, 1 strings>")
            self.assertEqual([it.number for it in made.findings], [211])

    def test_the_manifest_is_of_name_1_or_2_or_the_first(self):
        names = {"manifest 1": (9, 2, 1), "manifest 2": (9, 3, 2), "manifest 9": (9, 8)}
        for wanted, ids in names.items():
            made = tree([(24, [(id_, [(0, (f"manifest {id_}".encode(), 0))]) for id_ in ids])])
            with petool.Image(image(made)) as it:
                self.assertEqual(it.manifest, wanted.encode())

    def test_an_image_without_resources(self):
        with petool.Image(changed("v1.dll")) as made:
            self.assertEqual((list(made.resources), made.version, made.manifest), ([], None, None))

    def test_a_closed_image_has_none(self):
        made = petool.Image(FILE)
        made.close()
        for name in ("resources", "version", "manifest"):
            with self.assertRaises(ValueError):
                getattr(made, name)


if __name__ == "__main__":
    unittest.main()
