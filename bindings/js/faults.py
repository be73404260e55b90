#!/usr/bin/env python3
"""Prints the words of all faults and findings as JSON, by their numbers, as describe/faults.txt has them: faults.py [--into MODULE].

With --into, they are put into a module of JavaScript that has a mark in their place.
"""

import json
import pathlib
import sys

MARK = "/*FAULTS*/{}"
TOP = pathlib.Path(__file__).resolve().parents[2]
sys.dont_write_bytecode = True
sys.path.insert(0, str(TOP / "describe"))

from faults import Faults  # noqa: E402  the folder is only on the path now


def words(fault):
    """What the package tells of a fault."""
    told = {"subject": fault.subject, "rule": fault.rule, "explained": fault.rows.get("explained"), "metBy": fault.rows.get("met by")}
    return {name: text for name, text in told.items() if text}


def main():
    faults = Faults((TOP / "describe/faults.txt").read_text(encoding="utf-8"))
    rows = sorted((it for table in faults.tables.values() for it in table), key=lambda it: it.number)
    told = json.dumps({it.number: words(it) for it in rows}, ensure_ascii=False, separators=(",", ":"))
    if sys.argv[1:2] == ["--into"]:
        module = pathlib.Path(sys.argv[2])
        module.write_text(module.read_text(encoding="utf-8").replace(MARK, told), encoding="utf-8")
    else:
        print(told)


if __name__ == "__main__":
    main()
