"""The tables of address modifiers and of byte locations."""

from ctypes import byref

from .errors import require
from .library import lib
from .structures import AmRow, Place, Strobes


def am_row(code: int) -> AmRow:
    """The row of an address modifier code. Raises `Refused` with K1, K2 or K9 if it has none."""
    row = AmRow()
    require(lib.vme_am_read(code, byref(row)))
    return row


def driven(addr: int, n: int) -> Strobes:
    """The strobes of n bytes that begin at an address. Raises `Refused` with K3 if no single cycle reaches them."""
    strobes = Strobes()
    require(lib.vme_strobes_drive(addr, n, byref(strobes)))
    return strobes


def sensed(strobes: Strobes) -> tuple[int, int]:
    """The place of the first byte in a group of four, and the number of bytes, that a slave senses. Raises `VmeError`."""
    place = Place()
    require(lib.vme_strobes_sense(byref(strobes), byref(place)))
    return place.first, place.n
