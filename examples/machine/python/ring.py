"""A producer and a consumer pass words through a ring of eight words on a third board, without a lock, and then through a mailbox."""

import sys
import time

from crate import AM, address, crate, get, put, run_each
from pyvme import Mailbox, Processor

ROUNDS = int(sys.argv[1]) if sys.argv[1:] else 100
SLOTS, PUT, TAKEN = 8, address(2, 0), address(2, 4)
BOX = Mailbox(AM, address(2, 256), SLOTS)
WORDS = [i * 2654435761 % 2**32 for i in range(ROUNDS)]
taken: list[int] = []


def slot(i: int) -> int:
    return address(2, 16 + 4 * (i % SLOTS))


def produce(own: Processor) -> None:
    for i, word in enumerate(WORDS):
        while i - get(own, TAKEN) >= SLOTS:
            time.sleep(0)
        put(own, slot(i), word)
        put(own, PUT, i + 1)
    for word in WORDS:
        own.put(BOX, word)


def consume(own: Processor) -> None:
    for i in range(ROUNDS):
        while get(own, PUT) == i:
            time.sleep(0)
        taken.append(get(own, slot(i)))
        put(own, TAKEN, i + 1)
    taken.extend(own.take(BOX) for _ in WORDS)


with crate(3) as machine:
    run_each([(produce, (machine.processors[0],)), (consume, (machine.processors[1],))])
print("ring and mailbox:", "all words, in order" if taken == WORDS * 2 else "wrong words")
