"""The types of the package, which type checkers read: each field of a result has the type that its class declares."""

import collections.abc
import typing
import unittest

import petool

from . import TABLES, data, rows_of
from .files import numbers
from .test_findings import AMD64, CALLBACKS, NB10, RSDS, TLS, clr, debug, image, load

#: Images with one of the tables beyond the profile each.
BEYOND = [
    debug(RSDS + b"a.pdb\0"),
    debug(NB10 + b"a.pdb\0"),
    image(3, 12, numbers(0x1001, 0x1000, 0x1000), machine=AMD64),
    image(9, 24, TLS + CALLBACKS),
    image(10, 64, load(64)),
    image(11, 24, numbers(1, 0x20010, 1, 0x1FFFF) + bytes(8)),
    image(14, 72, clr(72, 0, 0)),
]


def holds(value, kind):
    """Whether a value has a type: one of a union, a tuple or a sequence of it, or exactly it."""
    arguments = typing.get_args(kind)
    if typing.get_origin(kind) is typing.Union:
        return any(holds(value, it) for it in arguments)
    if typing.get_origin(kind) is tuple:
        return type(value) is tuple and all(holds(it, arguments[0]) for it in value)
    if typing.get_origin(kind) is collections.abc.Sequence:
        return isinstance(value, collections.abc.Sequence) and all(holds(it, arguments[0]) for it in value)
    return type(value) is kind


def rows_of_images():
    """The headers and all rows of an image with forwarders, of one with imports and base relocations, and of those above."""
    for file in (data("va.dll"), data("vr.dll"), *BEYOND):
        with petool.Image(file) as it:
            yield from (it.headers, *it.headers.directories)
            for table in TABLES:
                yield from rows_of(getattr(it, table))


def rows_of_objects():
    with petool.Object(data("o1.obj")) as found:
        yield from (found.header, *found.section_headers, *found.sections, *found.relocations(0), *found.symbols)


class Types(unittest.TestCase):
    def assert_held(self, rows, classes):
        """Asserts that each field has its type, and that each class has a row."""
        met = set()
        for row in rows:
            met.add(type(row))
            for name, kind in typing.get_type_hints(type(row)).items():
                self.assertTrue(holds(getattr(row, name), kind), f"{name} of {row}: {kind}")
        self.assertEqual(met, classes)

    def test_an_image(self):
        modules = (petool.Headers.__module__, petool.Finding.__module__)
        kinds = {it for it in vars(petool).values() if isinstance(it, type) and it.__module__ in modules}
        self.assertIn(petool.Fixup, kinds)
        self.assert_held(rows_of_images(), kinds - {petool.Image, petool.Exports})

    def test_an_object(self):
        kinds = {petool.ObjectHeader, petool.SectionHeader, petool.ObjectSection}
        self.assert_held(rows_of_objects(), kinds | {petool.ObjectRelocation, petool.ObjectSymbol})


if __name__ == "__main__":
    unittest.main()
