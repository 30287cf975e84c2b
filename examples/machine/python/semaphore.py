"""Three threads take a semaphore by test-and-set. It guards two words of the fourth board, which each holder increments by a read and a
write."""

import sys

from crate import AM, address, crate, get, put, run_each
from pyvme import Processor

ROUNDS = int(sys.argv[1]) if sys.argv[1:] else 100
SEMAPHORE, WORDS = address(3, 0), (address(3, 16), address(3, 20))


def work(own: Processor) -> None:
    for _ in range(ROUNDS):
        own.lock(AM, SEMAPHORE)
        for word in WORDS:
            put(own, word, get(own, word) + 1)
        own.unlock(AM, SEMAPHORE)


with crate(4) as machine:
    run_each([(work, (own,)) for own in machine.processors[:3]])
    found = [get(machine.processors[3], word) for word in WORDS]
print("the semaphore:", "no increment is lost" if found == [3 * ROUNDS] * 2 else "increments are lost")
