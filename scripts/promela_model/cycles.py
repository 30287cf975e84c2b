"""Which requests are lawful, which board they select, and whether it carries out each datum: vme_cycle, vme_decode, vme_memory."""

from typing import NamedTuple

from promela_model.lines import Function, Line
from promela_model.tables import ADDRESSES, BOUNDARY, CODES, LOCATIONS, WHOLE, WIDE, Code


class Board(NamedTuple):
    """A board: where it answers, and which cycles it has."""

    slot: int
    level: int
    space: str
    base: int
    size: int
    width: int
    uat: bool
    blt: bool
    rmw: bool
    supervisory: bool


class Access(NamedTuple):
    """A command to a board: bytes at an offset that are read, written, or changed by a function."""

    board: Board
    at: int
    n: int
    data: bytes | None = None
    function: Function | None = None


class Transfer(NamedTuple):
    """The data that a board carries out, how many they are before a bus error, if one comes, and whether a board is selected."""

    accesses: list[Access]
    berr: int | None = None
    is_selected: bool = True


class Request(NamedTuple):
    """A request over the bus, in the parts of vme_cycle.Requests."""

    am: int
    addr: int
    n: int
    count: int
    data: tuple[bytes, ...] | None
    function: Function | None
    is_block: bool
    is_counted: bool


def is_datum(am: int, n: int) -> bool:
    """vme_cycle.is_datum_len: whether a datum of a block may have this length."""
    return n == WIDE if am in CODES and CODES[am].wide else n in WHOLE


def request_of(line: Line) -> Request:
    """The request of a line; an await reads, and a lock and an unlock have a byte."""
    am, addr, n, data = line.am, line.addr, line.n, line.data
    if line.word in ("r", "await"):
        n = n or len(data)
        return Request(am, addr, n, 1, None, None, False, 1 <= n <= 4)
    if line.word == "w":
        return Request(am, addr, len(data), 1, (data,), None, False, len(data) <= 4)
    if line.word == "m":
        return Request(am, addr, n, 1, None, line.function, False, n in WHOLE)
    if line.word == "lock":
        return Request(am, addr, 1, 1, None, Function("set", ()), False, True)
    if line.word == "unlock":
        return Request(am, addr, 1, 1, (b"\0",), None, False, True)
    count = len(data) // n if line.word == "bw" else line.count
    pieces = tuple(data[it * n:it * n + n] for it in range(count)) if line.word == "bw" else (data,) * count
    lawful = is_datum(am, n) and 1 <= count <= 256 and (line.word != "bw" or len(data) % n == 0)
    return Request(am, addr, n, count, None if line.word == "br" else pieces, None, True, lawful)


def refusal(it: Request) -> str | None:
    """vme_cycle.refusals: the first refusal of a request."""
    if it.am not in CODES:
        return "K9" if it.am > 0x3F else "K2" if 0x10 <= it.am <= 0x1F else "K1"
    code, end = CODES[it.am], it.addr + it.n * it.count
    border = BOUNDARY[it.n == WIDE]
    is_aligned = it.addr % it.n == 0 or not (it.is_block or it.function)
    faults = (
        ("K5", (code.kind == "block") != it.is_block),
        ("K7", it.function and code.kind == "program"),
        ("K8", not it.is_counted),
        ("K4", end > ADDRESSES[code.space]),
        ("K3", not is_aligned or it.n != WIDE and (it.addr % 4, it.n) not in LOCATIONS),
        ("K6", it.is_block and it.addr // border != (end - 1) // border),
    )
    return next((name for name, applies in faults if applies), None)


def selected(boards: list[Board], code: Code, addr: int) -> Board | None:
    """vme_decode.selection_at: the board that an address and a code select."""
    return next((it for it in boards if responds(it, code, addr)), None)


def responds(board: Board, code: Code, addr: int) -> bool:
    """vme_decode.responds."""
    return board.space == code.space and board.base <= addr < board.base + board.size and (code.supervisory or not board.supervisory)


def has_cycle(board: Board, at: int, n: int) -> bool:
    """vme_memory.has_cycle: whether the board has the cycle of these bytes."""
    cycle = LOCATIONS.get((at % 4, n))
    return cycle is not None and board.width >= cycle.width and (board.uat or not cycle.unaligned)


def can_answer(it: Access, is_block: bool) -> bool:
    """vme_memory.can_answer: whether a board carries out a datum over the bus."""
    board, at, n = it.board, it.at, it.n
    if at + n > board.size:
        return False
    if is_block:
        has = board.width >= 32 and at % 4 == 0 if n == WIDE else has_cycle(board, at, n) and n in WHOLE and at % n == 0
        return has and board.blt
    if it.function:
        return has_cycle(board, at, n) and n in WHOLE and at % n == 0 and board.rmw
    return has_cycle(board, at, n)


def transfer_of(boards: list[Board], it: Request) -> Transfer:
    """The data of a lawful request, up to a bus error: vme_master.datum_call, and vme_master.outcome_by."""
    board = selected(boards, CODES[it.am], it.addr)
    if board is None:
        return Transfer([], 0, False)
    done: list[Access] = []
    for number in range(it.count):
        data = it.data[number] if it.data else None
        access = Access(board, it.addr - board.base + number * it.n, it.n, data, it.function)
        if not can_answer(access, it.is_block):
            return Transfer(done, number)
        done.append(access)
    return Transfer(done)


def local_of(board: Board, line: Line) -> Transfer:
    """The access of a line by the local port of its own board: one of 1, 2 or 4 bytes at any offset."""
    n = len(line.data) if line.word == "lw" else line.n
    access = Access(board, line.addr, n, line.data if line.word == "lw" else None, line.function)
    return Transfer([], 0) if line.addr + n > board.size else Transfer([access])
