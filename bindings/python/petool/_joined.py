"""Exports by name joined with those by ordinal: the names of each ordinal."""

from __future__ import annotations

from typing import Dict, List, Optional, Sequence, Tuple

from ._bytes import LAYOUTS, FileBytes, Rows

_LAYOUT = LAYOUTS["export"]
#: The ordinal of a row, and the pointer and the length of its name.
HEADS = _LAYOUT.only(0, 1, 2)
_LENGTHS = _LAYOUT.only(2)


class Joined:
    """The names of each ordinal, which are read when they are first needed.

    Names of ordinals are copied only if all names together are not longer than the file: they may share strings.
    """

    def __init__(self, file: FileBytes, names: memoryview) -> None:
        self._file, self._rows = file, names
        self._are_shared: Optional[bool] = None
        self._found: Optional[Tuple[Dict[int, bytes], Dict[int, Sequence[bytes]]]] = None

    @property
    def are_shared(self) -> bool:
        """Whether names share strings: they are longer together than the file."""
        if self._are_shared is None:
            self._are_shared = sum(length for (length,) in _LENGTHS.iter_unpack(self._rows)) > self._file.length
        return self._are_shared

    def names_of(self, ordinal: int) -> Sequence[bytes]:
        """The names of an ordinal, in the order of the name pointer table."""
        names = self.several.get(ordinal)
        if names is None:
            name = self.alone.get(ordinal)
            return () if name is None else (name,)
        return names

    @property
    def alone(self) -> Dict[int, bytes]:
        """The first name of each ordinal, for those that are not among `several` the only one."""
        return self._by_ordinal()[0]

    @property
    def several(self) -> Dict[int, Sequence[bytes]]:
        """The names of each ordinal that has more than one, or of each that has any, if names share strings."""
        return self._by_ordinal()[1]

    def _by_ordinal(self) -> Tuple[Dict[int, bytes], Dict[int, Sequence[bytes]]]:
        if self._found is None:
            self._found = ({}, self._grouped()) if self.are_shared else self._copied()
        return self._found

    def _texts(self, rows: memoryview) -> Rows[bytes]:
        file = self._file
        return Rows(rows, _LAYOUT, lambda _, at, length, *target: file.text(at, length))

    def _copied(self) -> Tuple[Dict[int, bytes], Dict[int, Sequence[bytes]]]:
        alone: Dict[int, bytes] = {}
        more: Dict[int, List[bytes]] = {}
        text = self._file.text
        for ordinal, at, length in HEADS.iter_unpack(self._rows):
            if ordinal in alone:
                more.setdefault(ordinal, [alone[ordinal]]).append(text(at, length))
            else:
                alone[ordinal] = text(at, length)
        return alone, {ordinal: tuple(names) for ordinal, names in more.items()}

    def _grouped(self) -> Dict[int, Sequence[bytes]]:
        rows: Dict[int, List[int]] = {}
        for row, (ordinal, _, _) in enumerate(HEADS.iter_unpack(self._rows)):
            rows.setdefault(ordinal, []).append(row)
        return {ordinal: self._texts_of(indexes) for ordinal, indexes in rows.items()}

    def _texts_of(self, indexes: Sequence[int]) -> Sequence[bytes]:
        rows = b"".join(self._rows[it * _LAYOUT.size : (it + 1) * _LAYOUT.size] for it in indexes)
        return self._texts(memoryview(rows))
