"""The requests of a master, and the lines of each of their data."""

from __future__ import annotations

from ctypes import byref, c_uint16

from .errors import require
from .library import lib
from .numbers import fitting
from .structures import Datum, Lines, Modify, RequestKind, RequestStruct


class Request:
    """A lawful request: `len(request)` data of `n` bytes each, with the bytes of a write."""

    def __init__(
        self,
        kind: RequestKind,
        am: int,
        addr: int,
        n: int,
        *,
        count: int = 1,
        data: bytes = b"",
        f: Modify | None = None,
    ) -> None:
        """Checks a request. `count` is the number of data of a block, and `data` has the bytes of a write: those of all
        data, or one datum that each of them has. Raises `Refused` with the first refusal, K1 to K9, and `ValueError` for a
        number that does not fit its field."""
        self.kind, self.am, self.addr, self.n = kind, am, addr, n
        self.f = f or Modify()
        self._data = data
        fitting("count", count, c_uint16)
        is_block = kind in (RequestKind.BLOCK_READ, RequestKind.BLOCK_WRITE)
        if kind == RequestKind.BLOCK_WRITE and len(data) not in (n, n * count):
            count = 0  # so the refusal is K8
        self._count = count if is_block else 1
        self._struct = RequestStruct(addr, self._count if is_block else 0, am, kind, n, self.f)
        first = self._datum(0)
        require(lib.vme_request_check(byref(self._struct), byref(first)))

    @classmethod
    def block_write(cls, am: int, addr: int, n: int, data: bytes) -> Request:
        """A block write of some bytes, split into data of n bytes. Raises `Refused`."""
        count = len(data) // n if n and len(data) % n == 0 else 0
        return cls(RequestKind.BLOCK_WRITE, am, addr, n, count=count, data=data)

    @classmethod
    def block_fill(cls, am: int, addr: int, n: int, count: int, datum: bytes) -> Request:
        """A block write of count data that all have the same n bytes. Raises `Refused`."""
        count = count if len(datum) == n else 0
        return cls(RequestKind.BLOCK_WRITE, am, addr, n, count=count, data=datum)

    def __len__(self) -> int:
        """The number of data."""
        return self._count

    def _datum(self, i: int) -> Datum:
        """Datum i of a write. No lawful datum has more than eight bytes, and a struct has no place for them."""
        start = i * self.n if len(self._data) > self.n else 0
        return Datum.of(self._data[start : start + min(self.n, 8)])

    def lines(self, i: int) -> Lines:
        """The lines of datum i before a slave replies. Raises `VmeError` if there is none."""
        out, datum = Lines(), self._datum(i)
        require(lib.vme_request_lines(byref(self._struct), i, byref(datum), byref(out)))
        return out

    def write_half(self, old: bytes) -> Lines:
        """The lines of the write half of a read-modify-write after these old bytes. Raises `VmeError`."""
        before, new, out = Datum.of(old), Datum(), Lines()
        require(lib.vme_modify_value(byref(self.f), byref(before), byref(new)))
        require(lib.vme_request_write_half(byref(self._struct), byref(new), byref(out)))
        return out


def answered(lines: Lines, data: bytes) -> Lines:
    """The lines after a slave has replied to a read with these bytes. Raises `VmeError` if they select another number."""
    out, datum = Lines.from_buffer_copy(lines), Datum.of(data)
    require(lib.vme_lines_answer(byref(out), byref(datum)))
    return out
