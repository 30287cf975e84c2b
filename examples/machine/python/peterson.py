"""Two threads exclude each other by Peterson's algorithm, whose three variables are bytes of one board. What they guard is a plain
variable of Python."""

import sys
import time

from crate import address, crate, get, put, run_each
from pyvme import Processor

ROUNDS = int(sys.argv[1]) if sys.argv[1:] else 200
WANTS, TURN = (address(1, 0), address(1, 1)), address(1, 2)
counter = 0


def work(own: Processor, i: int) -> None:
    global counter
    other = 1 - i
    for _ in range(ROUNDS):
        put(own, WANTS[i], 1, 1)
        put(own, TURN, other, 1)
        while get(own, WANTS[other], 1) == 1 and get(own, TURN, 1) == other:
            time.sleep(0)
        before = counter
        time.sleep(0)
        counter = before + 1
        put(own, WANTS[i], 0, 1)


with crate(2) as machine:
    run_each([(work, (own, i)) for i, own in enumerate(machine.processors)])
print("Peterson's lock:", "no increment is lost" if counter == 2 * ROUNDS else "increments are lost")
