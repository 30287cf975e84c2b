"""What the software of a VMEbus master does first: it probes for boards, takes a semaphore by test-and-set, and moves a
block. Then two masters share the bus, and a processor uses the local port of its own board. Prints the same as tour.c.

    make -C lib && LIBVME=lib/build/libvme.so python3 examples/library/python/tour.py
"""

from pyvme import (
    AddressMap,
    Arbiter,
    Board,
    BusError,
    Entry,
    Function,
    Modify,
    NoBoard,
    Refused,
    Request,
    RequestKind,
    driven,
    sensed,
)

MAP = AddressMap([Entry(0x200000, 4096, 24, 0), Entry(0xE000, 256, 16, 1)])
BOARDS = [Board(4096), Board(256, 16, uat=False, blt=False)]
NAMES = {"K3": "K3: no such cycle", "K6": "K6: over a boundary"}


def perform(request: Request) -> bytes:
    """Makes all cycles of a request, and returns the bytes that were read."""
    place, offset = MAP.select(request.am, request.addr)
    board = BOARDS[place]
    return b"".join(board.cycle(request.lines(i), offset + i * request.n, request.f) for i in range(len(request)))


def outcome(kind: RequestKind, am: int, addr: int, n: int, **more) -> str:
    """How the bus answers a request."""
    try:
        perform(Request(kind, am, addr, n, **more))
    except Refused as refused:
        return NAMES[refused.result.name]
    except NoBoard:
        return "no board"
    except BusError:
        return "berr"
    return "dtack"


def take(addr: int) -> bool:
    """Whether this call takes the semaphore at an address: bit 7 of its byte was clear, and is set now."""
    request = Request(RequestKind.MODIFY, 0x3D, addr, 1, f=Modify.of(Function.SET))
    return perform(request)[0] & 0x80 == 0


def move(addr: int, count: int) -> str:
    """Writes count words of four bytes as one block, and reads them again as another."""
    words = b"".join(bytes([0, 0, 0, i + 1]) for i in range(count))
    answer = outcome(RequestKind.BLOCK_WRITE, 0x3F, addr, 4, count=count, data=words)
    if answer == "dtack" and perform(Request(RequestKind.BLOCK_READ, 0x3F, addr, 4, count=count)) != words:
        return "other"
    return answer


def main() -> None:
    for am, addr, n in (
        (0x39, 0x200000, 4),
        (0x39, 0x200FFD, 3),
        (0x39, 0x200003, 2),
        (0x39, 0x300000, 1),
        (0x2D, 0xE000, 2),
        (0x2D, 0xE000, 4),
        (0x29, 0xE000, 2),
    ):
        print(f"probe am {am:02x}, address {addr:08x}, {n} bytes: {outcome(RequestKind.READ, am, addr, n)}")
    taken = [take(0x200800), take(0x200800)]
    perform(Request(RequestKind.WRITE, 0x3D, 0x200800, 1, data=b"\0"))
    print("semaphore:", *(int(it) for it in [*taken, take(0x200800)]))
    print("block of 64 words:", move(0x200100, 64))
    print("block of 65 words:", move(0x200100, 65))
    arbiter = Arbiter()
    replies = [arbiter.ask(2, 3), arbiter.ask(5, 3), arbiter.look(5), arbiter.done(2), arbiter.look(5), arbiter.done(2)]
    print("arbiter:", *(reply.name.lower() for reply in replies))
    old = BOARDS[0].local_modify(0x1FC, 4, Function.ADD, bytes([0, 0, 0, 0xC1]))
    BOARDS[0].local_write(0x1FD, old[:2])
    print("local port:", BOARDS[0].local_read(0x1FC, 4).hex())
    s = driven(0x200001, 2)
    first, n = sensed(s)
    print(f"strobes: ds1={s.ds1} ds0={s.ds0} a01={s.a01} lword={s.lword}, {n} bytes from {first}")


main()
