"""Answers request lines from standard input as `vme cycles` does: the signals of each cycle, and the reply of one board of
4,096 bytes. A line that is not a request raises an exception.

    make -C lib && LIBVME=lib/build/libvme.so python3 examples/library/python/cycles.py <requests
"""

import sys
from collections.abc import Callable, Iterator

from pyvme import (
    IDLE,
    AddressMap,
    Board,
    BusError,
    Entry,
    Function,
    Lines,
    Modify,
    NoBoard,
    Refused,
    Request,
    RequestKind,
    am_row,
    answered,
)

BOARD = Board(4096)
MAP = AddressMap([Entry(0, 4096, 32, 0)])
FUNCTIONS = {"set": Function.SET, "xchg": Function.EXCHANGE, "add": Function.ADD, "cas": Function.COMPARE}


def read_line(line: str) -> Request:
    """The request of a line. Raises `Refused`."""
    word, am, addr, *rest = line.split()
    head = int(am, 16), int(addr, 16)
    if word == "w":
        data = bytes.fromhex(rest[0])
        return Request(RequestKind.WRITE, *head, len(data), data=data)
    n = int(rest[0])
    forms: dict[str, Callable[[], Request]] = {
        "r": lambda: Request(RequestKind.READ, *head, n),
        "br": lambda: Request(RequestKind.BLOCK_READ, *head, n, count=int(rest[1])),
        "bw": lambda: Request.block_write(*head, n, bytes.fromhex(rest[1])),
        "bf": lambda: Request.block_fill(*head, n, int(rest[1]), bytes.fromhex(rest[2])),
        "m": lambda: Request(RequestKind.MODIFY, *head, n, f=Modify.of(FUNCTIONS[rest[1]], *map(bytes.fromhex, rest[2:]))),
    }
    return forms[word]()


def shown(lines: Lines) -> str:
    """The signals of a cycle as text."""
    s = lines.strobes
    lanes = lines.lanes[0 if am_row(lines.am).wide else 4 :]
    data = "".join("--" if lane == IDLE else f"{lane:02x}" for lane in lanes)
    levels = f"ds1={s.ds1} ds0={s.ds0} a01={s.a01} lword={s.lword} write={lines.write}"
    return f"am={lines.am:02x} a={lines.addr:08x} {levels} data={data}"


def answers(request: Request) -> Iterator[str]:
    """The lines of text for a request."""
    read = b""
    for i in range(len(request)):
        lines = request.lines(i)
        try:
            _, offset = MAP.select(request.am, request.addr)
            found = BOARD.cycle(lines, offset + i * request.n, request.f)
        except (BusError, NoBoard):
            yield shown(lines)
            yield f"berr {i} {read.hex()}".rstrip()
            return
        yield shown(answered(lines, found) if found else lines)
        if request.kind is RequestKind.MODIFY:
            yield shown(request.write_half(found))
        read += found
    word = "old" if request.kind is RequestKind.MODIFY else "read"
    yield f"{word} {read.hex()}" if read else "done"


def main() -> None:
    for line in sys.stdin:
        try:
            request = read_line(line)
        except Refused as refused:
            print(f"refused {refused.result.name}")
            continue
        for text in answers(request):
            print(text)


main()
