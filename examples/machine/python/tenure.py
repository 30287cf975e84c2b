"""Four threads increment a plain variable of Python while they have the bus."""

import sys
import time

from crate import AM, address, crate, run_each
from pyvme import Processor

ROUNDS = int(sys.argv[1]) if sys.argv[1:] else 200
counter = 0


def work(own: Processor) -> None:
    global counter
    for _ in range(ROUNDS):
        with own.has_bus(AM, address(0, 0)):
            before = counter
            time.sleep(0)
            counter = before + 1


with crate(4) as machine:
    run_each([(work, (own,)) for own in machine.processors])
is_right = counter == 4 * ROUNDS
print("the arbiter's tenure:", "no increment is lost" if is_right else "increments are lost")
