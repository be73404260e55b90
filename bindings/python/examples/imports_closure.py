#!/usr/bin/env python3
"""Shows who exports what a program imports: follows its imports, and those of each DLL of a folder that they lead to; with --delayed
also those that are delay-loaded.

A DLL that is refused is reported on standard error, and counts as missing.
"""

import argparse
import itertools
import pathlib
import sys
from typing import Dict, Iterator, Optional, Tuple, Union

import petool

# a search that follows more forwarders is given up
MOST_FORWARDERS = 32


def module_of(raw: bytes) -> str:
    """The key of a module: its name in lower case, with an extension."""
    name = raw.decode("utf-8", "replace").lower()
    return name if "." in name else name + ".dll"


def shown(key: Union[bytes, int]) -> str:
    return f"#{key}" if isinstance(key, int) else key.decode("utf-8", "replace")


def told(path: pathlib.Path, error: OSError) -> int:
    """Reports why a file or a folder cannot be read, and returns the exit status."""
    print(f"{path}: {error.strerror}", file=sys.stderr)
    return 3


def opened(path: pathlib.Path) -> Tuple[Optional[petool.Image], int]:
    """The image of a file and 0; or None, if it is refused or cannot be read, which is reported, and the exit status for it."""
    try:
        return petool.open(path), 0
    except petool.FormatFault as fault:
        print(f"{path}: {fault}", file=sys.stderr)
        return None, 1
    except OSError as error:
        return None, told(path, error)


class Folder:
    """The images of a folder, each read when it is first needed, and whether delay-loaded imports are followed."""

    def __init__(self, folder: pathlib.Path, delayed: bool) -> None:
        self.delayed = delayed
        paths = sorted(folder.iterdir(), reverse=True)
        # of names that differ only in case, the first one is used
        self.paths = {path.name.lower(): path for path in paths if path.is_file()}
        self.images: Dict[str, Optional[petool.Image]] = {}
        self.status = 0  # the worst exit status so far

    def image(self, module: str) -> Optional[petool.Image]:
        """The image of a module, or None if the folder has no such file, or its file is refused."""
        if module not in self.images and module in self.paths:
            self.images[module], status = opened(self.paths[module])
            self.status = max(self.status, status)
        return self.images.get(module)

    def exporter(self, module: str, key: Union[bytes, int]) -> Tuple[str, str]:
        """The module at which a search ends, and what it finds there."""
        for _ in range(MOST_FORWARDERS):
            image = self.image(module)
            if image is None:
                return module, "no such file"
            target = image.exports.get(key)
            if target is None:
                return module, "no such export"
            if isinstance(target, petool.Rva):
                return module, hex(target.rva)
            module, key = module_of(target.module), target.key
        return module, "too many forwarders"

    def follow(self, name: str, image: petool.Image) -> Iterator[str]:
        """Prints a line for each import of an image, and yields the modules to which they lead."""
        for it in itertools.chain(image.imports, image.delay_imports if self.delayed else ()):
            module, found = self.exporter(module_of(it.module), it.key)
            print(f"{name}: {it.module.decode('utf-8', 'replace')} {shown(it.key)} -> {module} {found}")
            yield module


def close_over(folder: Folder, name: str, program: petool.Image) -> int:
    """Follows the imports of a program, and returns the exit status."""
    waiting, met = [(name, program)], set()
    while waiting:
        for module in folder.follow(*waiting.pop()):
            image = folder.image(module)
            if image is not None and module not in met:
                met.add(module)
                waiting.append((folder.paths[module].name, image))
    return folder.status


def main() -> int:
    arguments = argparse.ArgumentParser(description=__doc__)
    arguments.add_argument("--delayed", action="store_true", help="follow delay-loaded imports too")
    arguments.add_argument("program", type=pathlib.Path)
    arguments.add_argument("folder", type=pathlib.Path)
    words = arguments.parse_args()
    program, status = opened(words.program)
    if program is None:
        return status
    try:
        folder = Folder(words.folder, words.delayed)
    except OSError as error:
        return told(words.folder, error)
    return close_over(folder, words.program.name, program)


if __name__ == "__main__":
    sys.exit(main())
