"""The tests of petool: `python3 -m unittest` in the folder above, with PETOOL_LIBRARY. They read small files of the repository."""

import importlib.util
import os
import pathlib
import sys
from types import ModuleType
from typing import Any, List

import petool

sys.dont_write_bytecode = True
# pages have the width that they have if nothing says how wide the terminal is
os.environ.pop("COLUMNS", None)

PACKAGE = pathlib.Path(__file__).resolve().parents[1]
TOP = PACKAGE.parents[1]
DATA = TOP / "crates" / "test_cases" / "data"


def script(name: str) -> ModuleType:
    """A module of the folder scripts."""
    found = importlib.util.spec_from_file_location(name, TOP / "scripts" / f"{name}.py")
    assert found and found.loader
    module = importlib.util.module_from_spec(found)
    found.loader.exec_module(module)
    return module


#: The script that makes files crafted to be expensive.
crafted = script("crafted")


def data(name: str) -> bytes:
    return (DATA / name).read_bytes()


#: The tables of an image, as the package names them: its sections, its exports, and each list of rows.
TABLES = [name for name, it in vars(petool.Image).items() if isinstance(it, property) and name[0] != "_" and name != "headers"]


def rows_of(table: Any) -> List[Any]:
    """All rows of a table of an image: those of the exports by name, by ordinal, and what each key exports; one for what is no list."""
    if isinstance(table, petool.Exports):
        return [*table.names(), *table.ordinals(), *table.values()]
    if hasattr(table, "_fields"):
        return [table]
    return list(table or ())
