"""The arbiter."""

from ctypes import byref

from .errors import require
from .library import lib
from .structures import ArbiterKind, ArbiterReply, ArbiterState, Result


class Arbiter:
    """An arbiter of a bus of 21 slots with four levels, at first free and without pending requests."""

    def __init__(self, kind: ArbiterKind = ArbiterKind.PRIORITY) -> None:
        self._state = ArbiterState()
        lib.vme_arbiter_open(kind, byref(self._state))

    def ask(self, slot: int, level: int) -> ArbiterReply:
        """Requests the bus for a slot, 1 to 21, on a level, 0 to 3."""
        return _reply(lib.vme_arbiter_ask(byref(self._state), slot, level))

    def look(self, slot: int) -> ArbiterReply:
        """Asks whether a slot holds the bus."""
        return _reply(lib.vme_arbiter_look(byref(self._state), slot))

    def done(self, slot: int) -> ArbiterReply:
        """Releases the bus, which is granted to the next pending request."""
        return _reply(lib.vme_arbiter_done(byref(self._state), slot))


def _reply(number: int) -> ArbiterReply:
    if number == Result.BAD_STATE:
        require(number)
    return ArbiterReply(number)
