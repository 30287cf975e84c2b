"""The functions of the shared object, with their types."""

import ctypes
import os
from ctypes import POINTER, c_size_t, c_uint8, c_uint16, c_uint32
from pathlib import Path
from types import SimpleNamespace

from .numbers import Number, checked
from .structures import (
    AmRow,
    ArbiterState,
    BoardClass,
    Datum,
    Entry,
    Lines,
    Modify,
    Place,
    RequestStruct,
    Selection,
    Strobes,
)

VERSION = 65536 * 1 + 256 * 0 + 0
"""The version of vme.h that this package has the structs of."""

_BYTES = (POINTER(c_uint8), c_size_t)
_ENTRIES = (POINTER(Entry), c_size_t)

_CODE, _ADDRESS, _BYTE_COUNT = Number("am", c_uint8), Number("addr", c_uint32), Number("n", c_uint8)
_OFFSET, _IS_BLOCK = Number("at", c_uint32), Number("block", c_uint8)
_SLOT, _LEVEL = Number("slot", c_uint16), Number("level", c_uint8)

# By name, without vme_: the type of the result, and those of the arguments.
SIGNATURES: dict[str, tuple] = {
    "version": (c_uint32,),
    "am_read": (c_uint8, _CODE, POINTER(AmRow)),
    "strobes_drive": (c_uint8, _ADDRESS, _BYTE_COUNT, POINTER(Strobes)),
    "strobes_sense": (c_uint8, POINTER(Strobes), POINTER(Place)),
    "lines_answer": (c_uint8, POINTER(Lines), POINTER(Datum)),
    "request_check": (c_uint8, POINTER(RequestStruct), POINTER(Datum)),
    "request_lines": (c_uint8, POINTER(RequestStruct), Number("i", c_uint16), POINTER(Datum), POINTER(Lines)),
    "request_write_half": (c_uint8, POINTER(RequestStruct), POINTER(Datum), POINTER(Lines)),
    "modify_value": (c_uint8, POINTER(Modify), POINTER(Datum), POINTER(Datum)),
    "slave_cycle": (
        c_uint8, *_BYTES, POINTER(BoardClass), POINTER(Lines), _OFFSET, POINTER(Modify), POINTER(Datum),
    ),
    "slave_read": (c_uint8, *_BYTES, POINTER(BoardClass), _IS_BLOCK, _OFFSET, _BYTE_COUNT, POINTER(Datum)),
    "slave_write": (c_uint8, *_BYTES, POINTER(BoardClass), _IS_BLOCK, _OFFSET, POINTER(Datum)),
    "slave_modify": (c_uint8, *_BYTES, POINTER(BoardClass), _OFFSET, _BYTE_COUNT, POINTER(Modify), POINTER(Datum)),
    "local_read": (c_uint8, *_BYTES, _OFFSET, _BYTE_COUNT, POINTER(Datum)),
    "local_write": (c_uint8, *_BYTES, _OFFSET, POINTER(Datum)),
    "local_modify": (c_uint8, *_BYTES, _OFFSET, _BYTE_COUNT, POINTER(Modify), POINTER(Datum)),
    "map_check": (c_uint8, *_ENTRIES),
    "map_select": (c_uint8, *_ENTRIES, _CODE, _ADDRESS, POINTER(Selection)),
    "arbiter_open": (None, Number("kind", c_uint8), POINTER(ArbiterState)),
    "arbiter_ask": (c_uint8, POINTER(ArbiterState), _SLOT, _LEVEL),
    "arbiter_look": (c_uint8, POINTER(ArbiterState), _SLOT),
    "arbiter_done": (c_uint8, POINTER(ArbiterState), _SLOT),
}


NAME = "libvme.so.1"


def _path() -> str:
    """The library that LIBVME names, else the one beside this file, as in a wheel, else the one that the loader finds."""
    beside = Path(__file__).with_name(NAME)
    return os.environ.get("LIBVME") or (str(beside) if beside.exists() else NAME)


def _load() -> SimpleNamespace:
    shared, found = ctypes.CDLL(_path()), SimpleNamespace()
    for name, (result, *arguments) in SIGNATURES.items():
        function = getattr(shared, f"vme_{name}")
        function.restype = result
        setattr(found, f"vme_{name}", checked(function, arguments))
    if found.vme_version() >> 16 != VERSION >> 16 or found.vme_version() < VERSION:
        raise ImportError(f"libvme has version {found.vme_version():#x}, and pyvme needs {VERSION:#x}")
    return found


lib = _load()


def version() -> int:
    """The version of the library that is loaded."""
    return lib.vme_version()
