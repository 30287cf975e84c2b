"""The address decoder."""

from __future__ import annotations

from collections.abc import Sequence
from ctypes import byref

from .errors import require
from .library import lib
from .structures import Entry, Selection


class AddressMap:
    """A lawful map: at most one of its entries responds to an address."""

    def __init__(self, entries: Sequence[Entry]) -> None:
        """Checks the entries. Raises `Refused` with their first refusal, C1 to C4."""
        self._entries = (Entry * len(entries))(*entries)
        require(lib.vme_map_check(self._entries, len(entries)))

    def select(self, am: int, addr: int) -> tuple[int, int]:
        """The index of the entry that responds to a code and the address of a first byte, and the offset in it.

        Raises `NoBoard` if none responds, and `Refused` with K1, K2 or K9 if the code has no row.
        """
        found = Selection()
        require(lib.vme_map_select(self._entries, len(self._entries), am, addr, byref(found)))
        return found.place, found.offset
