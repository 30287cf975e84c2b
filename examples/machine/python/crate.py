"""What the examples share: a machine of some boards, and a thread for each program."""

from __future__ import annotations

import threading
from collections.abc import Callable

from pyvme import Entry, Machine, MachineBoard, Processor

AM, BLOCK_AM = 0x09, 0x0B
BASE, STRIDE, SIZE = 0x08000000, 0x10000, 4096


def address(board: int, at: int) -> int:
    """The address of an offset of a board."""
    return BASE + board * STRIDE + at


def crate(count: int) -> Machine:
    """A machine of this many boards in the slots from 1."""
    return Machine([MachineBoard(Entry(address(i, 0), SIZE, 32, 0), slot=i + 1) for i in range(count)])


def run_each(programs: list[tuple[Callable[..., None], tuple]]) -> None:
    """Runs each function with its arguments in a thread of its own."""
    threads = [threading.Thread(target=program, args=arguments) for program, arguments in programs]
    for thread in threads:
        thread.start()
    for thread in threads:
        thread.join()


def get(own: Processor, addr: int, n: int = 4) -> int:
    """Reads a word, or a byte."""
    return int.from_bytes(own.read(AM, addr, n), "big")


def put(own: Processor, addr: int, number: int, n: int = 4) -> None:
    """Writes a word, or a byte."""
    own.write(AM, addr, number.to_bytes(n, "big"))
