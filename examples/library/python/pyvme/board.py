"""The slave of a board, over a bytearray."""

from __future__ import annotations

from ctypes import byref, c_uint8

from .errors import require
from .library import lib
from .structures import BoardClass, Datum, Function, Lines, Modify


class Board:
    """A board: its bytes, which `memory` shares, and the class of its slave."""

    def __init__(
        self,
        memory: int | bytearray,
        width: int = 32,
        *,
        uat: bool = True,
        blt: bool = True,
        rmw: bool = True,
    ) -> None:
        """Makes a board of this many zeros, or of these bytes, which must not change their number."""
        self.memory = bytearray(memory) if isinstance(memory, int) else memory
        self._bytes = (c_uint8 * len(self.memory)).from_buffer(self.memory)
        self._class = BoardClass(width, uat, blt, rmw)

    def cycle(self, lines: Lines, at: int, f: Modify | None = None) -> bytes:
        """Replies to the cycle that the lines show, with its first byte at an offset.

        Returns the bytes that were read, none after a write, and the old ones in a read-modify-write. Raises `BusError`.
        """
        out = Datum()
        f = f or Modify()
        require(
            lib.vme_slave_cycle(
                self._bytes, len(self.memory), byref(self._class), byref(lines), at, byref(f), byref(out)
            )
        )
        return out.data

    def read(self, at: int, n: int, *, block: bool = False) -> bytes:
        """Replies to a read of n bytes, single or as one datum of a block. Raises `BusError`."""
        out = Datum()
        require(lib.vme_slave_read(self._bytes, len(self.memory), byref(self._class), block, at, n, byref(out)))
        return out.data

    def write(self, at: int, data: bytes, *, block: bool = False) -> None:
        """Replies to a write of up to eight bytes, single or as one datum of a block. Raises `BusError`."""
        new = Datum.of(data)
        require(lib.vme_slave_write(self._bytes, len(self.memory), byref(self._class), block, at, byref(new)))

    def modify(self, at: int, n: int, function: Function, operand: bytes = b"", put: bytes = b"") -> bytes:
        """Replies to a read-modify-write of n bytes, and returns the old ones. Raises `BusError`."""
        out, f = Datum(), Modify.of(function, operand, put)
        require(
            lib.vme_slave_modify(self._bytes, len(self.memory), byref(self._class), at, n, byref(f), byref(out))
        )
        return out.data

    def local_read(self, at: int, n: int) -> bytes:
        """Reads 1, 2 or 4 bytes by the local port. Raises `BusError`."""
        out = Datum()
        require(lib.vme_local_read(self._bytes, len(self.memory), at, n, byref(out)))
        return out.data

    def local_write(self, at: int, data: bytes) -> None:
        """Writes 1, 2 or 4 bytes by the local port. Raises `BusError`."""
        new = Datum.of(data)
        require(lib.vme_local_write(self._bytes, len(self.memory), at, byref(new)))

    def local_modify(self, at: int, n: int, function: Function, operand: bytes = b"", put: bytes = b"") -> bytes:
        """Modifies 1, 2 or 4 bytes by the local port in one step, and returns the old ones. Raises `BusError`."""
        out, f = Datum(), Modify.of(function, operand, put)
        require(lib.vme_local_modify(self._bytes, len(self.memory), at, n, byref(f), byref(out)))
        return out.data
