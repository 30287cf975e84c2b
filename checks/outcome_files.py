"""Files of `checks/outcomes`, and what is known of them.

- FILES: texts with the numbers of their outcomes and states, and of the turns of some outcome.
- TEXT: the whole listing of a file with two conditions.
- CONDITIONS: conditions that hold, and those that fail with the schedule of an outcome that breaks them.
- NAMED, UNNAMED..: conditions whose lines some outcome of a file has, and those that name none."""

import math
import re

BOARD = "[[board]]\nslot = {}\nbase = {}\nsize = 16\nscript = '''\n{}\n'''\n"
BUFFERING = BOARD.format(1, 0, "lw 00000000 01\nr 09 00001000 1") + BOARD.format(2, 4096, "lw 00000000 01\nr 09 00000000 1")
# Two processors that write their own board and read the other one, each twice.
TWICE = "lw 00000000 01\nr 09 {0:08x} 1\nlw 00000001 02\nr 09 {0:08x} 2"
CROSSED = BOARD.format(1, 0, TWICE.format(4096)) + BOARD.format(2, 4096, TWICE.format(0))
ROTATING = 'arbiter = "rotating"\n' + BUFFERING.replace("base = 0\n", "base = 0\nlevel = 1\n")
WAITING = "tries = 2\n" + BOARD.format(1, 0, "lw 00000000 01") + BOARD.format(2, 4096, "await 09 00000000 01\nr 09 00000000 1")
IDLE = "[[board]]\nslot = 1\nbase = 0\nsize = 16\n"
# A block that is torn by two local writes; a read and a write over the bus, and a local addition between them.
TORN = BOARD.format(1, 0, "lw 00000000 aaaaaaaa\nlw 00000004 bbbbbbbb") + BOARD.format(2, 4096, "br 0b 00000000 4 2")
LOST = BOARD.format(1, 0, "lm 00000000 4 add 00000001") + BOARD.format(2, 4096, "r 09 00000000 4\nw 09 00000000 00000001")


def counters(count, top):
    """Processors that each have so many turns of their own."""
    return "".join(BOARD.format(slot, slot << 12, "lw 00000000 01\n" * top) for slot in range(1, count + 1))


def adders(counts):
    """Processors that each add so often to a word of the first board, each another power of 256: the old values tell in which
    order they did, so there are as many outcomes as orders."""
    lines = ["m 09 00000000 4 add {:08x}\n".format(256**place) * count for place, count in enumerate(counts)]
    return "".join(BOARD.format(place + 1, place << 12, it) for place, it in enumerate(lines))


def locks(tries):
    """Two processors that add under a lock, which they try to take so often."""
    script = "lock 09 00000000\nm 09 00000004 4 add 00000001\nunlock 09 00000000"
    return f"tries = {tries}\n" + BOARD.format(1, 0, script) + BOARD.format(2, 4096, script)


def mailbox(tries):
    """A processor that puts a word into a mailbox of two slots, and one that takes it: each tries so often."""
    head = f"tries = {tries}\n[[mailbox]]\nam = 9\naddr = 0\nslots = 2\n"
    return head + BOARD.format(1, 0, "put 1 00000007").replace("size = 16", "size = 32") + BOARD.format(2, 4096, "take 1")


MILLION = locks(1_000_000)


def orders(counts):
    """The number of orders of so many steps of each processor."""
    return math.factorial(sum(counts)) // math.prod(map(math.factorial, counts))


# Files with the numbers of their outcomes and states, and, if it is the same for each outcome, of its turns.
FILES = {
    "buffering": (BUFFERING, 3, 6, 8),
    "rotating": (ROTATING, 3, None, None),
    "waiting": (WAITING, 3, None, None),
    "torn": (TORN, 4, 10, None),
    "lost": (LOST, 3, 5, None),
    "idle": (IDLE, 1, 1, 0),
    # Attempts that fail are not counted: the same states with 2 tries and with 300. With as many lines as tries they are.
    "a lock, 2 tries": (locks(2), 6, 17, None),
    "a lock, 300 tries": (locks(300), 6, 17, None),
    "a lock, 1000000 tries": (MILLION, 6, 17, None),
    "a mailbox, 1 try": (mailbox(1), 4, 13, None),
    "a mailbox, 3 tries": (mailbox(3), 4, 14, None),
    "a mailbox, 300 tries": (mailbox(300), 4, 14, None),
    "a mailbox, 1000000 tries": (mailbox(1_000_000), 4, 14, None),
    "four counters to 6": (counters(4, 6), 1, 4, 24),
    "three counters to 3": (counters(3, 3), 1, 3, 9),
    "a counter to 255": (counters(1, 255), 1, 33, 255),
    "adders 2 2 2": (adders((2, 2, 2)), orders((2, 2, 2)), None, None),
    "adders 3 2 2": (adders((3, 2, 2)), orders((3, 2, 2)), None, None),
    "adders 6 4": (adders((6, 4)), orders((6, 4)), None, None),
}
# The whole text of a file with the conditions of BOTH.
TEXT = """schedule = [[1, 4], [2, 4]]
1:1 done
1:2 read 00
2:1 done
2:2 read 01
mem 1 00000000 01000000000000000000000000000000
mem 2 00000000 01000000000000000000000000000000

schedule = [[2, 4], [1, 4]]
1:1 done
1:2 read 01
2:1 done
2:2 read 00
mem 1 00000000 01000000000000000000000000000000
mem 2 00000000 01000000000000000000000000000000

schedule = [[1, 1], [2, 1], [1, 3], [2, 3]]
1:1 done
1:2 read 01
2:1 done
2:2 read 01
mem 1 00000000 01000000000000000000000000000000
mem 2 00000000 01000000000000000000000000000000

never 1:2 read 00; 2:2 read 00: holds
always 2:2 read 01: fails, schedule = [[2, 4], [1, 4]]
3 outcomes, 6 states
"""
NEVER, ALWAYS = "--never", "--always"
BOTH = [NEVER, "1:2 read 00; 2:2 read 00", ALWAYS, " 2:2 read 01 "]
# Boards whose last row is shorter and of zeros in each outcome, and a byte that one line writes and another adds to.
SHORT = BOARD.format(1, 0, "lw 00000003 5a\nr 09 00001000 1").replace("size = 16", "size = 20") + BOARD.format(2, 4096, "lm 00000000 1 add 01")
# A line that each request refuses, one without a board, a block of two bytes past the end of a board, and an await of a byte.
ERRORS = "tries = 1\n" + BOARD.format(1, 0, "r 40 00000000 1\nw 09 00009000 01\nbr 0b 00000008 4 3\nlr 0000000e 4\nawait 09 00000000 01")
ZEROS = "0" * 32
ROW = "01" + "0" * 30
# A file, words, the lines before the last one, and the status.
CONDITIONS = [
    (BUFFERING, [NEVER, "1:2 read 00; 2:2 read 00", ALWAYS, "1:1 done"], ["never 1:2 read 00; 2:2 read 00: holds", "always 1:1 done: holds"], 0),
    (BUFFERING, [NEVER, "1:2 read 00", ALWAYS, " 2:2 read 01 "], ["never 1:2 read 00: fails, ", "always 2:2 read 01: fails, "], 1),
    (BUFFERING, [ALWAYS, "1:1 done;2:1 done", NEVER, f"mem 1 00000000 {ZEROS}"],
     [f"never mem 1 00000000 {ZEROS}: holds", "always 1:1 done; 2:1 done: holds"], 0),
    # Rows of zeros, which no list shows.
    (IDLE, [NEVER, f"mem 1 00000000 {ZEROS}"], [f"never mem 1 00000000 {ZEROS}: fails, schedule = []"], 1),
    (IDLE, [ALWAYS, f"mem 1 00000000 {ZEROS}"], [f"always mem 1 00000000 {ZEROS}: holds"], 0),
    (LOST, [ALWAYS, f"mem 2 00000000 {ZEROS}; 1:1 old 00000000", NEVER, f"mem 2 00000000 {ZEROS}; 2:2 done"],
     [f"never mem 2 00000000 {ZEROS}; 2:2 done: fails, ", f"always mem 2 00000000 {ZEROS}; 1:1 old 00000000: fails, "], 1),
    # A last row of four bytes, of zeros.
    (SHORT, [ALWAYS, "mem 1 00000010 00000000"], ["always mem 1 00000010 00000000: holds"], 0),
    (SHORT, [NEVER, "mem 1 00000010 00000000"], ["never mem 1 00000010 00000000: fails, "], 1),
    # Bytes that are no row: within one, over two, the last one.
    (SHORT, [ALWAYS, "mem 1 00000003 5a", ALWAYS, "mem 1 0000000c 0000000000000000", ALWAYS, "mem 1 00000013 00"],
     ["always mem 1 00000003 5a: holds", "always mem 1 0000000c 0000000000000000: holds", "always mem 1 00000013 00: holds"], 0),
    (SHORT, [NEVER, "mem 1 00000002 005a00", NEVER, "mem 1 00000003 5b"],
     ["never mem 1 00000002 005a00: fails, ", "never mem 1 00000003 5b: holds"], 1),
    # Old or new: alternatives, and digits that may be any.
    (SHORT, [ALWAYS, "1:2 read 00 | 1:2 read 01", NEVER, "1:2 read 02 |1:2 read 03"],
     ["never 1:2 read 02 |1:2 read 03: holds", "always 1:2 read 00 | 1:2 read 01: holds"], 0),
    (SHORT, [ALWAYS, "1:2 read 00|1:2 read 02"], ["always 1:2 read 00|1:2 read 02: fails, "], 1),
    (SHORT, [ALWAYS, "1:2 read 0?; mem 1 00000000 ?????05a | mem 2 00000000 77", NEVER, "1:2 read 1?"],
     ["never 1:2 read 1?: holds", "always 1:2 read 0?; mem 1 00000000 ?????05a | mem 2 00000000 77: holds"], 0),
    (SHORT, [NEVER, "1:2 read ?1; 2:1 old 00"], ["never 1:2 read ?1; 2:1 old 00: fails, "], 1),
    # Errors and refusals, each of the one line that has it.
    (ERRORS, [ALWAYS, "1:1 refused K9; 1:2 berr 0; 1:3 berr 2 00000000????????; 1:4 berr 0; 1:5 timeout"],
     ["always 1:1 refused K9; 1:2 berr 0; 1:3 berr 2 00000000????????; 1:4 berr 0; 1:5 timeout: holds"], 0),
    (ERRORS, [NEVER, "1:3 berr 2 0000000000000001", NEVER, "1:3 berr 2 0000000000000000"],
     ["never 1:3 berr 2 0000000000000001: holds", "never 1:3 berr 2 0000000000000000: fails, "], 1),
]
NAMED = ["1:1 done", "2:2 read 01; 1:1 done", f"mem 2 00000000 {ROW}", "mem 1 00000000 01", "mem 2 0000000f ??", "mem 1 00000008 0001|1:1 done",
         "1:1 done\n"]
# TEXTs that no outcome of a file can have: of BUFFERING, SHORT and ERRORS.
UNNAMED = ["", "1:2", "1:1", "1:2 read", "3:1 read 00", "3:1 done", "1:3 read 00", "1:3 done", "01:1 done", "1:01 done", "+1:1 done", "1:2 raed 00",
           "1:1 doen", "1:1 done; 9:9 done", "1:1 done; ", "1:1 done;;1:1 done", "1:1 done |", "| 1:1 done", "1:1 done | 1:1 read 00", "1:2 done",
           "1:1 read 01", "1:2 old 01", "2:2 old 00", "1:2 read 1", "1:2 read AB", "1:2 read 0102", "1:2 read  01", "1:2  read 01", "1 :2 read 01",
           "?:2 read 01", "1:? read 01", "1:1 d?ne", "1:2 berr", "1:2 berr 00", "1:2 berr 0", "1:2 berr 1 aab", "1:2 berr 1 aabb", "1:2 refused K0",
           "1:2 refused K4", "1:2 refused S4", "1:1 unfinished", "1:1 denied", "mem 3 00000000 01", "mem 1 0 01", "mem 1 00000000 ",
           "mem 1 00000000 0", "mem 1 00000000 0G", "mem 1 00000000 0A", "mem 1 0000000? 00", f"mem 1 00000010 {ZEROS}", f"mem 2 00000010 {ROW}",
           f"mem 2 0000000g {ROW}", f"mem 2 +0000000 {ROW}", "mem 1 0000000F 00", f"mem 3 00000000 {ROW}", f"mem 2 00000008 {ROW}",
           "mem 2 0000000f 0000", "mem 2 ffffffff 00", "mem  2 00000000 00", "mem 2 00000000 00 ; mem 2", "mem 02 00000000 00", "MEM 2 00000000 00"]
UNNAMED_SHORT = ["mem 1 00000010 0000000000", f"mem 1 00000010 {ZEROS}", "mem 1 00000014 00", "2:1 old 0001", "2:1 read 00"]
UNNAMED_ERRORS = ["1:1 refused K8", "1:1 read 00", "1:2 done", "1:2 berr 1", "1:3 read 000000000000000000000000", "1:3 berr 2 00000000", "1:3 berr 2",
                  "1:3 berr 1 00000000", "1:4 read 00000000", "1:4 berr 1 00", "1:5 berr 0"]
