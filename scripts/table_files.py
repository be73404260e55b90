#!/usr/bin/env python3
"""Counts the files that a new table of an image takes by hand: table_files.py [BASE]

A table of docs/MAP.md lists them. Without BASE its numbers are compared with the files that it lists. With BASE, a commit before a
table of an image was added, each file is named that was changed by hand since then and that is not listed, and all are counted.
What describe/describe.py and scripts/file_rows.py write is not counted, nor are proofs.

The last line is 'N passed, M failed', and the status is 1 if the numbers differ.
"""

import pathlib
import re
import subprocess
import sys

TOP = pathlib.Path(__file__).resolve().parents[1]
MAP = "docs/MAP.md"
HEAD = "| What | Files | Profile | Beyond |\n|---|---|---|---|\n"
TOGETHER = "**together**"
#: A file in a row, and the star of those that only a table of the profile needs.
FILE = re.compile(r"`([^`]+)`(\\\*)?")
#: A part of a file that is written, from one comment to the other, and a table that is written without comments.
WRITTEN = re.compile(r"^.*\bfrom (?:describe/|the laws of).*$(?s:.*?)^.*\bend of (?:describe/|the laws of).*$", re.M)
TABLE = re.compile(r"^static (?:RULES|FINDING_RULES|EXPLAINED|FINDINGS_EXPLAINED)\b(?s:.*?)^\];$", re.M)
#: Files that are written whole, and proofs.
WHOLE = re.compile(r"docs/crates\.svg|bindings/c/(layout\.c|petool\.map)|.*\.symbols|.*/tests/layout\.rs|crates/\w+/proofs/.*")


def rows(text):
    """The rows of the table: what they count, the files, and both numbers. LookupError if the page has no such table."""
    _, found, below = text.partition(HEAD)
    if not found:
        raise LookupError("there is no such table")
    lines = below.partition("\n\n")[0].split("\n")
    return [re.split(r" *\| *", line)[1:-1] for line in lines]


def listed(files):
    """The files of a row, each with whether it has the star. One without a folder is in that of the file before it."""
    folder, found = "", []
    for name, star in FILE.findall(files):
        folder = name.rpartition("/")[0] or folder
        found.append((name if "/" in name or not folder else f"{folder}/{name}", bool(star)))
    return found


def counts(files):
    """How many files a table of the profile takes, and how many one beyond it."""
    found = listed(files)
    return [0 if "only beyond" in files else len(found), sum(not star for _, star in found)]


def count_faults(text):
    """A sentence for each row with other numbers than its files have, and for the sums."""
    sums = [0, 0]
    for what, files, *numbers in rows(text):
        numbers = [int(it.strip("*")) for it in numbers]
        wanted = sums if what == TOGETHER else counts(files)
        if numbers != wanted:
            yield f"{MAP}: {what}: {numbers[0]} and {numbers[1]}, and these are {wanted[0]} and {wanted[1]}"
        if what == TOGETHER:
            return
        sums = [sums[0] + numbers[0], sums[1] + numbers[1]]
    yield f"{MAP}: no row has the sums"


def git(*words):
    done = subprocess.run(["git", "-C", TOP, *words], stdout=subprocess.PIPE, stderr=subprocess.DEVNULL)
    return done.stdout.decode(errors="replace")


def by_hand(commit, path):
    """What of a file is not written."""
    return TABLE.sub("", WRITTEN.sub("", git("show", f"{commit}:{path}")))


def changed(base):
    """The files that were changed by hand since a commit."""
    paths = git("diff", "--name-only", base, "HEAD").split()
    return [path for path in paths if not WHOLE.fullmatch(path) and by_hand(base, path) != by_hand("HEAD", path)]


def main(words):
    text = (TOP / MAP).read_text()
    faults = list(count_faults(text))
    for sentence in faults:
        print(sentence)
    if words:
        known = [path for row in rows(text) for path, _ in listed(row[1])]
        paths = changed(words[0])
        for path in paths:
            if not any(path == it or path.endswith(f"/{it}") for it in known):
                print(f"{path}: changed by hand, and not listed")
        print(f"{len(paths)} files were changed by hand")
    print("0 passed, 1 failed" if faults else "1 passed, 0 failed")
    return 1 if faults else 0


if __name__ == "__main__":
    sys.exit(main(sys.argv[1:]))
