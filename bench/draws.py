"""What the files that are made at random are drawn from, and how: the same each time, in every Python."""

import random

SEED = 20240229
# No block crosses from one unit to the next.
UNIT = 256
# (address modulo 4, length) of the byte locations
LOCATIONS = [
    (0, 1), (1, 1), (2, 1), (3, 1),
    (0, 2), (2, 2),
    (0, 4),
    (0, 3), (1, 3), (1, 2),
]
# the lengths of a datum in a block or a modify
LENGTHS = [1, 2, 4]
# the number of words after the name of a function
FUNCTIONS = {"set": 0, "xchg": 1, "add": 1, "cas": 2}

rng = random.Random(SEED)


def below(limit):
    """Of all its methods only random() promises the same sequence in every Python."""
    return int(rng.random() * limit)


def pick(items):
    return items[below(len(items))]


def hex_bytes(length):
    return "".join(f"{below(256):02x}" for _ in range(length))


def function(length):
    name = pick(list(FUNCTIONS))
    return " ".join([name] + [hex_bytes(length) for _ in range(FUNCTIONS[name])])
