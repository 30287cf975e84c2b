"""The functions of the shared object of the machine, with their types. It is loaded when the first machine is opened."""

from __future__ import annotations

import ctypes
import os
from ctypes import POINTER, c_size_t, c_uint8, c_uint16, c_uint32, c_uint64, c_void_p
from enum import IntEnum
from functools import lru_cache
from pathlib import Path
from types import SimpleNamespace

from .errors import Refused, VmeError, require
from .numbers import Number, Record, checked
from .structures import BoardClass, Datum, Entry, Modify, RequestStruct


MOST_READ = 2048
"""The most bytes that one transfer reads: 256 data of 8."""

MOST_BOARDS = 21
"""The most boards of a machine."""


class MachineResult(IntEnum):
    """The result of a call of a machine, besides those of `Result`."""

    C5 = 0x15
    C6 = 0x16
    C7 = 0x17
    C8 = 0x18
    C9 = 0x19
    C10 = 0x1A
    C11 = 0x1B
    C12 = 0x1C
    C13 = 0x1D
    C14 = 0x1E
    NO_MEMORY = 0x25
    BUS_GRANTED = 0x30
    NOT_GRANTED = 0x31
    BUS_DENIED = 0x32
    BUS_FREED = 0x33
    MORE = 0x34
    BUSY = 0x50
    CLOSED = 0x51
    SPENT = 0x52
    HELD = 0x53
    FULL = 0x54
    EMPTY = 0x55


class ProcessorStruct(Record):
    """A processor, or nothing."""

    _fields_ = [("full", c_size_t), ("hidden", c_void_p)]


class BoardStruct(Record):
    """A board of a machine."""

    _fields_ = [("entry", Entry), ("cls", BoardClass), ("slot", c_uint16), ("level", c_uint8)]


class LoadedStruct(Record):
    """What a configuration file says of its machine, or where it is refused."""

    _fields_ = [("count", c_size_t), ("slot", c_uint16), ("line", c_uint16), ("arbiter", c_uint8), ("script", c_uint8)]


class MailboxStruct(Record):
    """A queue of words in the memory of a board."""

    _fields_ = [("addr", c_uint32), ("slots", c_uint16), ("am", c_uint8)]


_OWN_RESULTS = frozenset(MachineResult)
_OWN = POINTER(ProcessorStruct)
_OFFSET, _BYTE_COUNT = Number("at", c_uint32), Number("n", c_uint8)
_AM, _ADDR = Number("am", c_uint8), Number("addr", c_uint32)

# By name, without vme_: the type of the result, and those of the arguments.
MACHINE_SIGNATURES: dict[str, tuple] = {
    "machine_open": (c_uint8, POINTER(BoardStruct), c_size_t, Number("kind", c_uint8), _OWN, c_size_t),
    "machine_load": (
        c_uint8, POINTER(c_uint8), c_size_t, POINTER(BoardStruct), c_size_t, _OWN, c_size_t, POINTER(LoadedStruct),
    ),
    "machine_close": (c_uint8, _OWN, c_size_t, POINTER(c_uint64), c_size_t, POINTER(c_uint8), c_size_t),
    "processor_drop": (c_uint8, _OWN),
    "processor_try_local_read": (c_uint8, _OWN, _OFFSET, _BYTE_COUNT, POINTER(Datum)),
    "processor_try_local_write": (c_uint8, _OWN, _OFFSET, POINTER(Datum)),
    "processor_try_local_modify": (c_uint8, _OWN, _OFFSET, _BYTE_COUNT, POINTER(Modify), POINTER(Datum)),
    "processor_start_read": (c_uint8, _OWN, POINTER(RequestStruct)),
    "processor_start_write": (c_uint8, _OWN, POINTER(RequestStruct), POINTER(c_uint8), c_size_t),
    "processor_start_modify": (c_uint8, _OWN, POINTER(RequestStruct), POINTER(Modify)),
    "processor_step": (c_uint8, _OWN),
    "processor_run": (c_uint8, _OWN),
    "processor_step_reply": (c_uint8, _OWN, POINTER(c_uint8), POINTER(Datum)),
    "processor_read": (c_uint8, _OWN, _AM, _ADDR, _BYTE_COUNT, POINTER(Datum)),
    "processor_write": (c_uint8, _OWN, _AM, _ADDR, POINTER(Datum)),
    "processor_modify": (c_uint8, _OWN, _AM, _ADDR, _BYTE_COUNT, POINTER(Modify), POINTER(Datum)),
    "processor_bytes": (c_uint8, _OWN, POINTER(c_uint8), c_size_t, POINTER(c_size_t)),
    "processor_start_lock": (c_uint8, _OWN, _AM, _ADDR),
    "processor_start_unlock": (c_uint8, _OWN, _AM, _ADDR),
    "processor_start_put": (c_uint8, _OWN, POINTER(MailboxStruct), Number("word", c_uint32)),
    "processor_start_take": (c_uint8, _OWN, POINTER(MailboxStruct)),
    "processor_word": (c_uint8, _OWN, POINTER(c_uint32)),
    "processor_transfer": (c_uint8, _OWN, POINTER(RequestStruct), POINTER(Datum)),
}

NAME = "libvme_machine.so.1"


@lru_cache(maxsize=None)
def machine_lib() -> SimpleNamespace:
    """The library that LIBVME_MACHINE names, else the one beside this file, as in a wheel, else the one that the loader finds.

    Raises `OSError` if there is none."""
    beside = Path(__file__).with_name(NAME)
    path = os.environ.get("LIBVME_MACHINE") or (str(beside) if beside.exists() else NAME)
    shared, found = ctypes.CDLL(path), SimpleNamespace()
    for name, (result, *arguments) in MACHINE_SIGNATURES.items():
        function = getattr(shared, f"vme_{name}")
        function.restype = result
        setattr(found, name, checked(function, arguments))
    return found


def require_machine(result: int) -> None:
    """Raises the exception of a result, unless it is OK: `MemoryError` if an allocation failed."""
    if result == MachineResult.NO_MEMORY:
        raise MemoryError("the machine has no memory")
    if result in _OWN_RESULTS:
        raise (Refused if result <= MachineResult.C14 else VmeError)(MachineResult(result))
    require(result)
