"""The numbers and the structs of vme.h."""

from ctypes import c_size_t, c_uint8, c_uint16, c_uint32
from enum import IntEnum

from .numbers import Lanes, Record

IDLE = 0xFFFF
"""A data lane that nothing drives, or a slot without a request."""


class Result(IntEnum):
    """The result of a call."""

    OK = 0x00
    K1 = 0x01
    K2 = 0x02
    K3 = 0x03
    K4 = 0x04
    K5 = 0x05
    K6 = 0x06
    K7 = 0x07
    K8 = 0x08
    K9 = 0x09
    C1 = 0x11
    C2 = 0x12
    C3 = 0x13
    C4 = 0x14
    BERR = 0x20
    NO_BOARD = 0x21
    BAD_LINES = 0x22
    BAD_CALL = 0x23
    BAD_STATE = 0x24


class Kind(IntEnum):
    """The kind of access of an address modifier code."""

    DATA = 1
    PROGRAM = 2
    BLOCK = 3
    SHORT = 4


class RequestKind(IntEnum):
    """The kind of a request."""

    READ = 0
    WRITE = 1
    BLOCK_READ = 2
    BLOCK_WRITE = 3
    MODIFY = 4


class Function(IntEnum):
    """The function of a read-modify-write."""

    NONE = 0
    SET = 1
    EXCHANGE = 2
    ADD = 3
    COMPARE = 4


class ArbiterKind(IntEnum):
    """How an arbiter chooses the level of a grant."""

    PRIORITY = 0
    ROTATING = 1


class ArbiterReply(IntEnum):
    """The reply of an arbiter."""

    GRANTED = 1
    WAITING = 2
    FREED = 3
    DENIED = 4


class Datum(Record):
    """The bytes of one datum."""

    _fields_ = [("n", c_uint8), ("bytes", c_uint8 * 8)]

    @classmethod
    def of(cls, data: bytes) -> "Datum":
        """The datum of at most eight bytes. Raises `ValueError` if there are more."""
        if len(data) > 8:
            raise ValueError(f"a datum has at most 8 bytes, not {len(data)}")
        return cls(len(data), (c_uint8 * 8)(*data))

    @property
    def data(self) -> bytes:
        """The bytes of the datum."""
        return bytes(self.bytes[: min(self.n, 8)])


class AmRow(Record):
    """The row of an address modifier code: `space`, `kind`, `supervisory` and `wide`."""

    _fields_ = [("space", c_uint8), ("kind", c_uint8), ("supervisory", c_uint8), ("wide", c_uint8)]


class Strobes(Record):
    """The levels of DS1*, DS0*, A01 and LWORD*: 0 is low."""

    _fields_ = [("ds1", c_uint8), ("ds0", c_uint8), ("a01", c_uint8), ("lword", c_uint8)]


class Place(Record):
    """The bytes of a group of four that a cycle reaches: `first` and `n`."""

    _fields_ = [("first", c_uint8), ("n", c_uint8)]


class Lines(Record):
    """The lines of one cycle. `lanes` has a byte or `IDLE` for each of D63-D56 to D07-D00."""

    _fields_ = [
        ("addr", c_uint32),
        ("am", c_uint8),
        ("write", c_uint8),
        ("strobes", Strobes),
        ("lanes", Lanes),
    ]


class Modify(Record):
    """The function of a read-modify-write with its operands."""

    _fields_ = [("function", c_uint8), ("operand", Datum), ("put", Datum)]

    @classmethod
    def of(cls, function: Function, operand: bytes = b"", put: bytes = b"") -> "Modify":
        """The function with its operands: what is exchanged, added or expected, and what is put if it is found."""
        return cls(function, Datum.of(operand), Datum.of(put))


class RequestStruct(Record):
    """A request of a master."""

    _fields_ = [
        ("addr", c_uint32),
        ("count", c_uint16),
        ("am", c_uint8),
        ("kind", c_uint8),
        ("n", c_uint8),
        ("f", Modify),
    ]


class BoardClass(Record):
    """The cycles to which a slave replies: `width` 8, 16 or 32, and the switches `uat`, `blt` and `rmw`."""

    _fields_ = [("width", c_uint8), ("uat", c_uint8), ("blt", c_uint8), ("rmw", c_uint8)]


class Entry(Record):
    """The addresses at which one board responds: `size` bytes from `base` in the `space` 16, 24 or 32."""

    _fields_ = [("base", c_uint32), ("size", c_uint32), ("space", c_uint8), ("supervisory", c_uint8)]


class Selection(Record):
    """The selected entry and the offset in it."""

    _fields_ = [("place", c_size_t), ("offset", c_uint32)]


class ArbiterState(Record):
    """The state of an arbiter."""

    _fields_ = [
        ("kind", c_uint8),
        ("first", c_uint8),
        ("held", c_uint8),
        ("holder", c_uint16),
        ("levels", c_uint16 * 22),
    ]
