"""The calls that look up one export, by its name or its ordinal, in the table itself: the package uses a dict of rows instead."""

import ctypes
from typing import Optional, Union

import petool
from petool import _library, _records
from petool._bytes import FileBytes
from petool._library import library


def look_up(data: bytes, key: Union[bytes, int]) -> Optional[petool.Target]:
    """What a name or an ordinal exports; None if it exports nothing."""
    file, fault = FileBytes(data), _records.Fault()
    target = _records.Target(0, 0, 0, _library.no_text(), _library.no_text())
    results = ctypes.byref(target), ctypes.byref(fault)
    if isinstance(key, int):
        status = library.petool_export_by_ordinal(file.address, file.length, key, *results)
    else:
        name = FileBytes(key)
        status = library.petool_export_by_name(file.address, file.length, name.address, name.length, *results)
    if status == _library.ABSENT:
        return None
    if status != _library.OK:
        raise ValueError(f"status {status}, fault {fault.number}")
    if target.kind == 0:
        return petool.Rva(target.rva)
    text = file.text(target.name.at, target.name.len)
    return petool.Forward(file.text(target.module.at, target.module.len), target.ordinal if target.kind == 1 else text)
