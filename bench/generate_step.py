#!/usr/bin/env python3
"""Writes a configuration file for `vme step` to standard output.

usage: generate_step.py mixed | blocks | idle [ROUNDS]

mixed: 21 boards in all three spaces, of all widths, each with a script of 1,000 lines of every kind.
blocks: two boards, each with a script of 1,000 lines, long block reads and fills in turn.
idle: 21 boards with a line each, and 1,000,000 rounds.

ROUNDS takes the place of the file's own number of rounds, which is enough for every line to end.
"""

import sys

from draws import LENGTHS, LOCATIONS, UNIT, below, function, hex_bytes, pick

BOARDS = 21
LINES = 1_000
IDLE_ROUNDS = 1_000_000
TRIES = 2
# The rounds in which a transfer has the bus beside those of its data: it learns of its grant, and it gives the bus back.
ROUNDS_BESIDE_DATA = 2

# space: the codes of a data read, of a program read and of a block
CODES = {"a16": (0x29, 0x29, 0x0B), "a24": (0x39, 0x3A, 0x3B), "a32": (0x09, 0x0A, 0x0B)}
SPACES = ["a32", "a24", "a16"]
WIDTHS = [32, 32, 16, 8]
SIZE = 4_096


def transfer(data):
    """The rounds of a transfer, one after another with those of all other transfers."""
    return data + ROUNDS_BESIDE_DATA


def place(board):
    """The space and the base of a board: seven in each space, side by side."""
    return SPACES[board % 3], SIZE * (board // 3)


def single():
    space, base = place(below(BOARDS))
    data, program, _ = CODES[space]
    offset, length = pick(LOCATIONS)
    address = base + 4 * below(SIZE // 4) + offset
    if below(2):
        return f"r {pick([data, program]):02x} {address:08x} {length}", transfer(1)
    return f"w {data:02x} {address:08x} {hex_bytes(length)}", transfer(1)


def block():
    """In the short space, which has no block code, such a line is refused."""
    space, base = place(below(BOARDS))
    length = pick(LENGTHS)
    count = 1 + below(12)
    address = base + UNIT * below(SIZE // UNIT) + length * below(UNIT // length - count + 1)
    where = f"{CODES[space][2]:02x} {address:08x} {length}"
    form = below(3)
    if form == 0:
        return f"br {where} {count}", transfer(count)
    if form == 1:
        return f"bf {where} {count} {hex_bytes(length)}", transfer(count)
    return f"bw {where} {hex_bytes(length * min(count, 24 // length))}", transfer(count)


def modify():
    space, base = place(below(BOARDS))
    length = pick(LENGTHS)
    address = base + length * below(SIZE // length)
    return f"m {CODES[space][0]:02x} {address:08x} {length} {function(length)}", transfer(1)


def local():
    """Now and then past the board's end. Such lines go on beside the transfers of others."""
    offset = below(SIZE + 8)
    length = pick(LENGTHS)
    form = below(3)
    if form == 0:
        return f"lr {offset:08x} {length}", 0
    if form == 1:
        return f"lw {offset:08x} {hex_bytes(length)}", 0
    return f"lm {offset:08x} {length} {function(length)}", 0


def await_zero():
    space, base = place(below(BOARDS))
    return f"await {CODES[space][0]:02x} {base + below(SIZE):08x} 00", TRIES * transfer(1)


def beside():
    """Lines that ask for nothing, are refused, or reach no board."""
    return pick(["", "# nothing", "r 08 00000000 1", "w 09 00000003 a1a2", "r 0d ffff0000 4"]), transfer(0)


MIXED = [single] * 8 + [block] * 4 + [modify] * 3 + [local] * 5 + [await_zero, beside]


def long_block(board, line):
    address = UNIT * below(SIZE // UNIT) + SIZE * ((board + 1) % 2)
    if line % 2:
        return f"br 0b {address:08x} 1 256", transfer(256)
    return f"bf 0b {address:08x} 1 256 {hex_bytes(1)}", transfer(256)


def table(slot, level, space, base, width, script):
    text = "\n".join(script)
    return f"""
[[board]]
slot = {slot}
level = {level}
space = "{space}"
base = {base:#x}
size = {SIZE}
width = {width}
script = \"\"\"
{text}
\"\"\"
"""


def mixed():
    boards = []
    rounds = LINES
    for board in range(BOARDS):
        lines = [pick(MIXED)() for _ in range(LINES)]
        rounds += sum(took for _, took in lines)
        script = [text for text, _ in lines]
        boards.append(table(board + 1, below(4), *place(board), pick(WIDTHS), script))
    return rounds, boards


def blocks():
    boards = []
    rounds = LINES
    for board in range(2):
        lines = [long_block(board, line) for line in range(LINES)]
        rounds += sum(took for _, took in lines)
        boards.append(table(board + 1, 3, "a32", SIZE * board, 32, [text for text, _ in lines]))
    return rounds, boards


def idle():
    script = ["lw 00000000 01"]
    return IDLE_ROUNDS, [table(board + 1, 3, *place(board), 32, script) for board in range(BOARDS)]


def main():
    kinds = {"mixed": mixed, "blocks": blocks, "idle": idle}
    words = sys.argv[1:]
    if len(words) not in (1, 2) or words[0] not in kinds:
        sys.exit("generate_step: usage: generate_step.py mixed | blocks | idle [ROUNDS]")
    rounds, boards = kinds[words[0]]()
    rounds = int(words[1]) if len(words) == 2 else rounds
    if rounds > 1_000_000:
        sys.exit(f"generate_step: {rounds} rounds are too many")
    print(f"tries = {TRIES}\nrounds = {rounds}", *boards, sep="\n", end="")


main()
