"""A DMA controller in slot 2 polls its doorbell by its local port, reads its command block there, and moves bytes from board 3 to board 4
in blocks."""

import time

from crate import BLOCK_AM, address, crate, get, put, run_each
from pyvme import NoBoard, Processor

# The command block, from offset 0 of board 2. A block of UNIT bytes is not longer than one transfer reads, and crosses no multiple of 256.
DOORBELL, STATUS, SOURCE, DESTINATION, LENGTH = 0, 4, 8, 12, 16
RING, STOP, DONE, FAILED = 1, 2, 1, 2
UNIT, BYTES, COMMANDS = 32, 1024, 20


def own_word(own: Processor, at: int) -> int:
    return int.from_bytes(own.local_read(at, 4), "big")


def move(own: Processor) -> int:
    """Moves the bytes of the command block. Returns the status."""
    source, destination, length = (own_word(own, at) for at in (SOURCE, DESTINATION, LENGTH))
    try:
        for done in range(0, length, UNIT):
            block = own.block_read(BLOCK_AM, source + done, 4, min(UNIT, length - done) // 4)
            own.block_write(BLOCK_AM, destination + done, 4, block)
    except NoBoard:
        return FAILED
    return DONE


def control(own: Processor) -> None:
    while (rung := own.local_read(DOORBELL, 1)[0]) != STOP:
        if rung == RING:
            own.local_write(STATUS, move(own).to_bytes(4, "big"))
            own.local_write(DOORBELL, b"\0")
        time.sleep(0)


def command(own: Processor, source: int, destination: int, length: int) -> int:
    """Has the controller move bytes. Returns its status."""
    for at, number in ((SOURCE, source), (DESTINATION, destination), (LENGTH, length)):
        put(own, address(1, at), number)
    put(own, address(1, DOORBELL), RING, 1)
    while get(own, address(1, DOORBELL), 1) == RING:
        time.sleep(0)
    return get(own, address(1, STATUS))


def use(own: Processor) -> None:
    is_moved = True
    for salt in range(COMMANDS):
        data = bytes((i * 37 + salt) % 256 for i in range(BYTES))
        for at in range(0, BYTES, UNIT):
            own.block_write(BLOCK_AM, address(2, at), 4, data[at : at + UNIT])
        status = command(own, address(2, 0), address(3, 0), BYTES)
        moved = b"".join(own.block_read(BLOCK_AM, address(3, at), 4, UNIT // 4) for at in range(0, BYTES, UNIT))
        is_moved = is_moved and status == DONE and moved == data
    print(f"{COMMANDS} commands moved their bytes:", "yes" if is_moved else "no")
    print("a source without a board fails:", "yes" if command(own, 0x0F000000, address(3, 0), UNIT) == FAILED else "no")
    put(own, address(1, DOORBELL), STOP, 1)


with crate(4) as machine:
    run_each([(use, (machine.processors[0],)), (control, (machine.processors[1],))])
