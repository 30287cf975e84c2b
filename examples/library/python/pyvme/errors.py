"""Results of calls as exceptions."""

from enum import IntEnum

from .structures import Result


class VmeError(Exception):
    """A call did not succeed. `result` says why."""

    def __init__(self, result: IntEnum) -> None:
        super().__init__(result.name)
        self.result = result


class Refused(VmeError):
    """A request (K1 to K9), an address map (C1 to C4) or a configuration file (C1 to C14) is not lawful."""


class ScriptRefused(Refused):
    """A line of a script in a configuration file is not lawful (C14): `slot`, `line` from 1, and `refusal`, as "S2"."""

    def __init__(self, result: IntEnum, slot: int, line: int, refusal: str) -> None:
        super().__init__(result)
        self.args = (f"{result.name} slot {slot} line {line} {refusal}",)
        self.slot, self.line, self.refusal = slot, line, refusal


class BusError(VmeError):
    """A slave drove BERR*. Nothing has changed."""


class NoBoard(VmeError):
    """No board responds, so the bus timer drives BERR*."""


def require(result: int) -> None:
    """Raises the exception of a result, unless it is OK."""
    found = Result(result)
    if found is Result.OK:
        return
    if found is Result.BERR:
        raise BusError(found)
    if found is Result.NO_BOARD:
        raise NoBoard(found)
    raise (Refused if found <= Result.C4 else VmeError)(found)
