#!/usr/bin/env python3
"""Writes request lines to standard output.

usage: generate.py [mixed | blocks]

mixed, the default: 1 MiB, nine in ten served, the rest of every other kind.
blocks: long block reads and fills, all served, of much more output than input.
"""

import sys

from draws import FUNCTIONS, LENGTHS, LOCATIONS, UNIT, below, function, hex_bytes, pick

SIZE = 1_048_576
BLOCKS_SIZE = 48 * 1024
LINE_LIMIT = 80
BOARD_SIZE = 4096
# so many that the line stays within its limit
WRITE_BYTES = 31

NO_LOCATIONS = [
    (offset, length)
    for offset in range(4)
    for length in range(1, 5)
    if (offset, length) not in LOCATIONS
]

A16 = [0x29, 0x2D]
A24 = [0x39, 0x3A, 0x3D, 0x3E]
A32 = [0x09, 0x0A, 0x0D, 0x0E]
A24_DATA = [0x39, 0x3D]
A32_DATA = [0x09, 0x0D]
PROGRAM = [0x0A, 0x0E, 0x3A, 0x3E]
A24_BLOCK = [0x3B, 0x3F]
A32_BLOCK = [0x0B, 0x0F]
BLOCK = A24_BLOCK + A32_BLOCK
A24_WIDE = [0x38, 0x3C]
A32_WIDE = [0x08, 0x0C]
WIDE = A24_WIDE + A32_WIDE
USER = list(range(0x10, 0x20))
TOO_LARGE = list(range(0x40, 0x100))
RESERVED = [
    code for code in range(0x40) if code not in A16 + A24 + A32 + BLOCK + WIDE + USER
]


def decimal(number):
    return str(number).zfill(1 + below(4))


def request(code, address, length):
    if below(2):
        return f"r {code:02x} {address:08x} {length}"
    return f"w {code:02x} {address:08x} {hex_bytes(length)}"


def block_read(code, address, length, count):
    return f"br {code:02x} {address:08x} {length} {decimal(count)}"


def block_write(code, address, length, count):
    count = min(count, WRITE_BYTES // length)
    return f"bw {code:02x} {address:08x} {length} {hex_bytes(length * count)}"


def block_fill(code, address, length, count):
    return f"bf {code:02x} {address:08x} {length} {decimal(count)} {hex_bytes(length)}"


def block(code, address, length, count):
    form = pick([block_read, block_write, block_fill])
    return form(code, address, length, count)


def modify(code, address, length):
    return f"m {code:02x} {address:08x} {length} {function(length)}"


def on_board(locations):
    offset, length = pick(locations)
    return request(pick(A32), 4 * below(BOARD_SIZE // 4) + offset, length)


def within_unit(length, count):
    """The address of such a block, counted from the first byte of its unit."""
    return length * below(UNIT // length - count + 1)


def block_in(codes, first, size):
    length = pick(LENGTHS)
    count = 1 + below(16)
    address = first + UNIT * below((size - first) // UNIT) + within_unit(length, count)
    return block(pick(codes), address, length, count)


def wide_block():
    """Now and then of another length, misaligned, over a unit, or with nobody to answer."""
    address = 8 * below(2 * BOARD_SIZE // 8) + pick([0, 0, 0, 0, 4])
    return block(pick(A32_WIDE + WIDE), address, pick([8] * 7 + [4]), pick([1, 2, 3, 16, 256, 257]))


def block_on_board():
    return block_in(A32_BLOCK, 0, BOARD_SIZE)


def modify_in(codes, first, size):
    length = pick(LENGTHS)
    return modify(pick(codes), first + length * below((size - first) // length), length)


def modify_on_board():
    return modify_in(A32_DATA, 0, BOARD_SIZE)


def equal_compare():
    """Two lines: the second finds what the first has put."""
    length = pick(LENGTHS)
    place = f"{pick(A32_DATA):02x} {length * below(BOARD_SIZE // length):08x} {length}"
    put = hex_bytes(length)
    return f"m {place} xchg {put}\nm {place} cas {put} {hex_bytes(length)}"


def upper(line):
    verb, *operands = line.split()
    return " ".join([verb] + [word if word in FUNCTIONS else word.upper() for word in operands])


def served():
    if below(64) == 0:
        return equal_compare()
    form = below(8)
    line = [block_on_board, modify_on_board][form]() if form < 2 else on_board(LOCATIONS)
    style = below(32)
    if style == 0:
        return upper(line)
    if style == 1:
        spaced = f" {line.replace(' ', '   ')} "
        return spaced if len(spaced) <= LINE_LIMIT else line
    if style == 2:
        return line + "\r"
    return line


def with_code(codes):
    offset, length = pick(LOCATIONS)
    return request(pick(codes), 4 * below(BOARD_SIZE // 4) + offset, length)


def unselected():
    offset, length = pick(LOCATIONS)
    codes, first, size = pick([
        (A16, 0, 1 << 16),
        (A24, 0, 1 << 24),
        (A32, BOARD_SIZE, 1 << 32),
    ])
    return request(pick(codes), first + 4 * below((size - first) // 4) + offset, length)


def unselected_block():
    codes, first, size = pick([
        (A24_BLOCK, 0, 1 << 24),
        (A32_BLOCK, BOARD_SIZE, 1 << 32),
    ])
    return block_in(codes, first, size)


def unselected_modify():
    codes, first, size = pick([
        (A16, 0, 1 << 16),
        (A24_DATA, 0, 1 << 24),
        (A32_DATA, BOARD_SIZE, 1 << 32),
    ])
    return modify_in(codes, first, size)


def outside_space():
    codes, size = pick([(A16, 1 << 16), (A24, 1 << 24), (A32, 1 << 32)])
    length = 2 + below(3)
    address = size - length + 1 + below(8)
    return request(pick(codes), min(address, 0xFFFFFFFF), length)


def block_outside_space():
    codes, size = pick([(A24_BLOCK, 1 << 24), (A32_BLOCK, 1 << 32)])
    length = pick(LENGTHS)
    count = 2 + below(6)
    address = size - length * (1 + below(count)) + length * below(2)
    return block(pick(codes), min(address, 0xFFFFFFFF), length, count)


def modify_outside_space():
    codes, size = pick([(A16, 1 << 16), (A24_DATA, 1 << 24), (A32_DATA, 1 << 32)])
    length = pick([2, 4])
    address = size - length + 1 + below(8)
    return modify(pick(codes), min(address, 0xFFFFFFFF), length)


def wrong_length():
    return request(pick(A32), below(BOARD_SIZE), 5 + below(4))


def wrong_block_length():
    return block(pick(A32_BLOCK), 4 * below(BOARD_SIZE // 4), pick([3, 5, 6, 7, 8]), 1 + below(3))


def wrong_modify_length():
    return modify(pick(A32_DATA), 4 * below(BOARD_SIZE // 4), pick([3, 5, 6, 7, 8]))


def wrong_count():
    form = pick([block_read, block_fill])
    count = pick([0, 257, 257 + below(9743)])
    return form(pick(A32_BLOCK), UNIT * below(BOARD_SIZE // UNIT), pick(LENGTHS), count)


def cut_datum():
    length = pick([2, 4])
    address = UNIT * below(BOARD_SIZE // UNIT)
    size = length * below(WRITE_BYTES // length) + 1 + below(length - 1)
    return f"bw {pick(A32_BLOCK):02x} {address:08x} {length} {hex_bytes(size)}"


def misaligned_block():
    length = pick([2, 4])
    address = length * below(BOARD_SIZE // length) + 1 + below(length - 1)
    return block(pick(BLOCK), address, length, 1 + below(8))


def misaligned_modify():
    length = pick([2, 4])
    address = length * below(BOARD_SIZE // length) + 1 + below(length - 1)
    return modify(pick(A32_DATA), address, length)


def crossing_block():
    length = pick(LENGTHS)
    count = 2 + below(6)
    end = UNIT * (1 + below(BOARD_SIZE // UNIT))
    return block(pick(BLOCK), end - length * (1 + below(count - 1)), length, count)


def any_block():
    """Often wrong in several ways, of which one is told."""
    code = pick(BLOCK + BLOCK + WIDE + [below(256)])
    end = pick([1 << 32, 1 << 24, BOARD_SIZE, UNIT])
    address = min(end - 16 + below(20), 0xFFFFFFFF)
    return block(code, address, pick([1, 1, 2, 2, 4, 4, 3, 8]), pick([1, 2, 3, 4, 8, 16, 0, 257]))


def any_modify():
    """Often wrong in several ways, of which one is told."""
    code = pick(A16 + A24 + A32 + BLOCK + [below(256)])
    end = pick([1 << 32, 1 << 24, 1 << 16, BOARD_SIZE])
    return modify(code, min(end - 8 + below(10), 0xFFFFFFFF), 1 + below(8))


LAWFUL = {
    "r": lambda: f"r {pick(A32):02x} {4 * below(BOARD_SIZE // 4):08x} 4",
    "w": lambda: f"w {pick(A32):02x} {4 * below(BOARD_SIZE // 4):08x} {hex_bytes(4)}",
    "br": lambda: block_read(pick(A32_BLOCK), UNIT * below(BOARD_SIZE // UNIT), 4, 2),
    "bw": lambda: block_write(pick(A32_BLOCK), UNIT * below(BOARD_SIZE // UNIT), 4, 2),
    "bf": lambda: block_fill(pick(A32_BLOCK), UNIT * below(BOARD_SIZE // UNIT), 4, 2),
    "m": lambda: modify(pick(A32_DATA), 4 * below(BOARD_SIZE // 4), 4),
}
# none of four bytes
WRONG_DATA = ["00", "0000", "0000000", "0000000g", "0000000000", "00" * 9]
WRONG_VERBS = ["R", "W", "BR", "b", "brr", "M", "read", "x", "rw", "\t", " #"]
SINGLES = ["r", "w"]
BLOCKS = ["br", "bw", "bf"]
VERBS = SINGLES + BLOCKS + ["m"]


def with_word(verb, index, words):
    parts = LAWFUL[verb]().split()
    parts[index] = pick(words)
    return " ".join(parts)


def no_function():
    """Its word count is often wrong too."""
    words = with_word("m", 4, ["SET", "sets", "swap", "put", "1", "00000000"]).split()
    return " ".join((words + ["00000000"])[: 5 + below(4)])


def wrong_operand():
    name = pick(["xchg", "add", "cas"])
    operands = [hex_bytes(4) for _ in range(FUNCTIONS[name])]
    operands[below(len(operands))] = pick(WRONG_DATA)
    return " ".join(LAWFUL["m"]().split()[:4] + [name] + operands)


def too_long():
    lines = ["", "# remark", on_board(LOCATIONS), block_on_board(), modify_on_board()]
    return pick(lines).ljust(81 + below(8))


def word_count():
    words = LAWFUL[pick(VERBS)]().split()
    return " ".join((words + ["more"])[: pick([1, len(words) - 1, len(words) + 1])])


def several_faults():
    """The first of them is told."""
    verb, *operands = LAWFUL[pick(VERBS)]().split()
    return " ".join([verb] + [pick([word, "0g"]) for word in operands])


OTHERS = [
    # a bus error, or a refused request
    unselected,
    unselected,
    unselected,
    unselected_block,
    unselected_block,
    unselected_modify,
    lambda: with_code(RESERVED),
    lambda: with_code(USER),
    lambda: with_code(BLOCK),
    lambda: with_code(WIDE),
    wide_block,
    lambda: modify_in(WIDE, 0, BOARD_SIZE),
    lambda: with_code(TOO_LARGE),
    lambda: block_in(RESERVED + USER + TOO_LARGE, 0, BOARD_SIZE),
    lambda: block_in(A16 + A24 + A32, 0, BOARD_SIZE),
    lambda: modify_in(RESERVED + USER + TOO_LARGE, 0, BOARD_SIZE),
    lambda: modify_in(BLOCK, 0, BOARD_SIZE),
    lambda: modify_in(PROGRAM, 0, BOARD_SIZE),
    lambda: on_board(NO_LOCATIONS),
    outside_space,
    block_outside_space,
    modify_outside_space,
    wrong_length,
    wrong_block_length,
    wrong_modify_length,
    wrong_count,
    cut_datum,
    misaligned_block,
    misaligned_modify,
    crossing_block,
    any_block,
    any_block,
    any_modify,
    # nothing asked for
    lambda: "# " + "remark " * below(8),
    lambda: "#".ljust(80, "-"),
    lambda: "",
    lambda: " " * (1 + below(80)),
    # a refused line
    too_long,
    lambda: with_word(pick(VERBS), 0, WRONG_VERBS),
    word_count,
    word_count,
    no_function,
    several_faults,
    lambda: with_word(pick(VERBS), 1, ["d", "00d", "0g", "0x0d", "-d"]),
    lambda: with_word(pick(VERBS), 2, ["0", "0000000", "000000000", "0000000g"]),
    lambda: with_word(pick(["r", "m"] + BLOCKS), 3, ["0", "9", "04", "a", "10"]),
    lambda: with_word(pick(["br", "bf"]), 4, ["00001", "10000", "a", "1a", "-1", "+1", "0x10"]),
    lambda: with_word("w", 3, ["0", "012", "0g", "00112233445566778", "00" * 9]),
    lambda: with_word("bw", 4, ["0", "0000000", "0000000g", "0x000000"]),
    lambda: with_word("bf", 5, WRONG_DATA),
    wrong_operand,
]


def mixed_line():
    return served() if below(10) else pick(OTHERS)()


def long_block():
    length = pick([1, 1, 1, 1, 1, 1, 2, 4])
    address = UNIT * below(BOARD_SIZE // UNIT)
    return pick([block_read, block_fill])(pick(A32_BLOCK), address, length, UNIT // length)


INPUTS = {"mixed": (mixed_line, SIZE), "blocks": (long_block, BLOCKS_SIZE)}


def write(make_line, left):
    lines = []
    while True:
        line = make_line()
        if len(line) + 1 > left:
            break
        lines.append(line)
        left -= len(line) + 1
    if left > 0:
        lines.append("#" * (left - 1))
    sys.stdout.buffer.write("".join(line + "\n" for line in lines).encode())


def main():
    names = sys.argv[1:] or ["mixed"]
    if len(names) != 1 or names[0] not in INPUTS:
        print("usage: generate.py [mixed | blocks]", file=sys.stderr)
        sys.exit(2)
    write(*INPUTS[names[0]])


main()
