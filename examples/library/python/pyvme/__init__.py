"""The data transfer bus of the VMEbus (ANSI/IEEE Std 1014-1987), by the proved library libvme.

A `Board` has bytes and replies to cycles and accesses. A `Request` is what a master asks for, and gives the `Lines` of each
of its data. An `AddressMap` selects a board, and an `Arbiter` grants the bus. What C reports as a result is an exception
here: `Refused` for K1 to K9 and C1 to C14, `BusError`, `NoBoard`, and `VmeError` for the others.

    >>> board = Board(4096)
    >>> board.write(4, bytes.fromhex("01020304"))
    >>> board.read(5, 2).hex()
    '0203'

A `Machine` is the boards and the arbiter of one backplane for threads, each with a processor of its own; it needs
libvme_machine.so.1, which LIBVME_MACHINE names.

A number that does not fit its field, as an address of 2^32, is a `ValueError` with the field, the value and the range. The
variable LIBVME names the shared object, if it is not where the loader looks for libvme.so.1.
"""

from .arbiter import Arbiter
from .board import Board
from .decoder import AddressMap
from .errors import BusError, NoBoard, Refused, ScriptRefused, VmeError
from .library import VERSION, version
from .machine import Ending, Machine, MachineBoard, Mailbox, Processor
from .machine_library import MOST_READ, MachineResult
from .request import Request, answered
from .structures import (
    IDLE,
    AmRow,
    ArbiterKind,
    ArbiterReply,
    Entry,
    Function,
    Kind,
    Lines,
    Modify,
    RequestKind,
    Result,
    Strobes,
)
from .tables import am_row, driven, sensed

__all__ = [
    "IDLE",
    "MOST_READ",
    "VERSION",
    "AddressMap",
    "AmRow",
    "Arbiter",
    "ArbiterKind",
    "ArbiterReply",
    "Board",
    "BusError",
    "Ending",
    "Entry",
    "Function",
    "Kind",
    "Lines",
    "Machine",
    "MachineBoard",
    "MachineResult",
    "Mailbox",
    "Modify",
    "NoBoard",
    "Processor",
    "Refused",
    "Request",
    "RequestKind",
    "Result",
    "ScriptRefused",
    "Strobes",
    "VmeError",
    "am_row",
    "answered",
    "driven",
    "sensed",
    "version",
]
