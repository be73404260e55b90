"""What scripts share that compare petool with another tool, image by image: the files, the counts and the exit status."""

import os


def images(path):
    """The files of a path that begin with MZ."""
    files = [path] if os.path.isfile(path) else [os.path.join(folder, it) for folder, _, names in os.walk(path) for it in names]
    for file in sorted(files):
        if os.path.isfile(file):
            with open(file, "rb") as opened:
                if opened.read(2) == b"MZ":
                    yield file


def compare_all(comparison, counts, names, petool, *paths):
    """Compares each image of the paths, and prints what was counted. Whether there were differences."""
    for path in paths:
        for file in images(path):
            comparison(petool, file)
    print(", ".join(f"{counts[it]} {it}" for it in names))
    return counts["differences"] > 0
