"""Objects that are read from a file's bytes, and release these when they are closed."""

from __future__ import annotations

from typing import Any, Callable, Optional, TypeVar

from ._bytes import Buffer, FileBytes
from ._fault import FormatFault, ask, values_of

Kind = TypeVar("Kind", bound="OfFile")


class OfFile:
    """What is read from a file's bytes, which it holds until close(), or until the end of a `with`."""

    def __init__(self, data: Buffer, name: Optional[str]) -> None:
        self._file = FileBytes(data)
        self._name = name

    def _ask(self, function: Any, *arguments: Any) -> int:
        """The status of a call on the file, or its fault as an exception."""
        file = self._file
        return self._held(lambda: ask(function, file.address, file.length, *arguments, file=self._name))

    def _held(self, call: Callable[[], int]) -> int:
        """The status of a call during which the file is held; its fault has the values of the file."""
        with self._file.hold():
            try:
                return call()
            except FormatFault as fault:
                fault.values = values_of(self._file.address, self._file.length, fault)
                raise

    def close(self) -> None:
        """Releases the bytes. Results of earlier calls stay valid, except sequences whose rows have strings."""
        self._file.close()

    def __enter__(self: Kind) -> Kind:
        return self

    def __exit__(self, *_: object) -> None:
        self.close()
