"""What is written of the files of a folder: the modules of the crates that have one for each table or call."""

import pathlib
from typing import Callable, Dict, List


def _sources(folder: pathlib.Path, ending: str, root: str) -> List[str]:
    """The names of a folder's modules: its files but the root, in order."""
    return sorted(it.stem for it in folder.glob(f"*{ending}") if it.stem != root)


def public_modules(folder: pathlib.Path) -> List[str]:
    return [f"pub mod {it};" for it in _sources(folder, ".rt", "lib")]


def private_modules(folder: pathlib.Path) -> List[str]:
    """The same where no module is public."""
    return [f"mod {it};" for it in _sources(folder, ".rt", "lib")]


def definitions(folder: pathlib.Path) -> List[str]:
    """The modules of definitions; `rt fmt` wants a blank line after them."""
    return [*(f"pub mod {it}" for it in _sources(folder, ".antt", "Lib")), ""]


#: The roots whose modules are written, with what writes them.
ROOTS: Dict[str, Callable[[pathlib.Path], List[str]]] = {
    "crates/petool_c/src/lib.rt": private_modules,
    "crates/pe_show/src/lib.rt": private_modules,
    "crates/pe_records_c/src/lib.rt": public_modules,
    "crates/pe_records_c/specs/Lib.antt": definitions,
}
