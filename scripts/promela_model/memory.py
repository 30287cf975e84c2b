"""The bytes of boards in a model, and what an access does to them: vme_memory.effect_of, vme_cycle.value."""

from promela_model.configuration import Mailbox
from promela_model.cycles import Access
from promela_model.lines import Function
from promela_model.tables import LOCK_AT, PUT_COUNT_AT, TAKE_COUNT_AT, WORD, WORDS_AT, mailbox_len

ZERO = "0"


def written(access: Access) -> range:
    """The offsets of the bytes that an access may change."""
    if access.function:
        return range(access.at, access.at + (1 if access.function.name == "set" else access.n))
    return range(access.at, access.at + (access.n if access.data is not None else 0))


class Memory:
    """An array for each board: of the bytes that some line may change. All other bytes are zero for ever."""

    def __init__(self, accesses: list[Access], mailboxes: list[Mailbox]):
        offsets: dict[int, set[int]] = {}
        for it in accesses:
            offsets.setdefault(it.board.slot, set()).update(written(it))
        for box in mailboxes:
            offsets.setdefault(box.board.slot, set()).update(range(box.at, box.at + mailbox_len(box.slots)))
        self.places = {slot: {at: place for place, at in enumerate(sorted(found))} for slot, found in sorted(offsets.items()) if found}

    def cell(self, slot: int, at: int) -> str:
        """The byte at an offset, as an expression."""
        place = self.places.get(slot, {}).get(at)
        return ZERO if place is None else f"m{slot}[{place}]"

    def cells(self, access: Access) -> list[str]:
        """The bytes of an access."""
        return [self.cell(access.board.slot, at) for at in range(access.at, access.at + access.n)]

    def word(self, box: Mailbox, count: str) -> list[str]:
        """The bytes of the word with a number, which a variable counts."""
        first = self.places[box.board.slot][box.at + WORDS_AT]
        return [f"m{box.board.slot}[{first + byte} + {WORD} * ({count} % {box.slots})]" for byte in range(WORD)]

    def lock(self, box: Mailbox) -> str:
        """The lock byte of a mailbox."""
        return self.cell(box.board.slot, box.at + LOCK_AT)

    def count(self, box: Mailbox, name: str) -> list[str]:
        """The bytes of the count of words put, or taken."""
        first = box.at + {"put": PUT_COUNT_AT, "take": TAKE_COUNT_AT}[name]
        return [self.cell(box.board.slot, first + byte) for byte in range(WORD)]


class Reply:
    """The bytes that a line replies, as expressions: zero, or kept in an array of the line's own."""

    def __init__(self, slot: int, number: int):
        self.name, self.size, self.bytes = f"r_{slot}_{number}", 0, []

    def keep(self, cells: list[str]) -> list[str]:
        """The statements that keep some bytes."""
        found = []
        for it in cells:
            if it == ZERO:
                self.bytes.append(ZERO)
                continue
            self.bytes.append(f"{self.name}[{self.size}]")
            found.append(f"{self.bytes[-1]} = {it}")
            self.size += 1
        return found


def number(cells: list[str]) -> str:
    """The number that bytes spell, the first one most significant: vme_cycle.number_of."""
    return " + ".join(f"({it} << {8 * place})" for place, it in zip(range(len(cells) - 1, -1, -1), cells))


def set_number(cells: list[str], value: str) -> list[str]:
    """The statements that set bytes to a number, the first one most significant."""
    return [f"{it} = (({value}) >> {8 * place}) & 255" for place, it in zip(range(len(cells) - 1, -1, -1), cells)]


def set_bytes(cells: list[str], data: bytes) -> list[str]:
    """The statements that set bytes."""
    return [f"{it} = {byte}" for it, byte in zip(cells, data)]


def equal(cells: list[str], data: bytes) -> str:
    """Whether bytes are these."""
    return " && ".join(f"{it} == {byte}" for it, byte in zip(cells, data))


def add(cells: list[str], by: bytes) -> list[str]:
    """The statements that add a number: vme_cycle.sum_of, byte by byte from the least significant one."""
    found = []
    for it, byte in zip(reversed(cells), reversed(by)):
        found += [f"sum = {it} + {byte} + (sum >> 8)", f"{it} = sum & 255"]
    return [*found, "sum = 0"]


def change(function: Function, cells: list[str]) -> list[str]:
    """The statements of a function of a read-modify-write: vme_cycle.value."""
    if function.name == "set":
        return [f"{cells[0]} = {cells[0]} | 128"]
    if function.name == "xchg":
        return set_bytes(cells, function.data[0])
    if function.name == "add":
        return add(cells, function.data[0])
    expected, put = function.data
    return [f"if :: {equal(cells, expected)} -> {'; '.join(set_bytes(cells, put))} :: else fi"]


def effect(memory: Memory, access: Access, reply: Reply) -> list[str]:
    """The statements of an access that its board carries out."""
    cells = memory.cells(access)
    if access.data is not None:
        return set_bytes(cells, access.data)
    kept = reply.keep(cells)
    return kept + (change(access.function, cells) if access.function else [])
