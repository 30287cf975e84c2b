"""The tables of the definitions: codes, byte locations, lines, the order of levels, and the stages of locks and mailboxes.

Above each table stand the definitions that it restates."""

from typing import NamedTuple


class Code(NamedTuple):
    """A row of the address modifier table."""

    space: str
    kind: str
    supervisory: bool
    wide: bool


# vme_am.table
CODES = {
    0x29: Code("a16", "short", False, False),
    0x2D: Code("a16", "short", True, False),
    0x39: Code("a24", "data", False, False),
    0x3A: Code("a24", "program", False, False),
    0x3B: Code("a24", "block", False, False),
    0x3D: Code("a24", "data", True, False),
    0x3E: Code("a24", "program", True, False),
    0x3F: Code("a24", "block", True, False),
    0x38: Code("a24", "block", False, True),
    0x3C: Code("a24", "block", True, True),
    0x09: Code("a32", "data", False, False),
    0x0A: Code("a32", "program", False, False),
    0x0B: Code("a32", "block", False, False),
    0x0D: Code("a32", "data", True, False),
    0x0E: Code("a32", "program", True, False),
    0x0F: Code("a32", "block", True, False),
    0x08: Code("a32", "block", False, True),
    0x0C: Code("a32", "block", True, True),
}
# vme_am.addresses_of
ADDRESSES = {"a16": 2**16, "a24": 2**24, "a32": 2**32}
# vme_script.is_mailbox_code
MAILBOX_CODES = {0x09, 0x0D, 0x29, 0x2D, 0x39, 0x3D}


class Cycle(NamedTuple):
    """What a board needs for the cycle of a byte location: so many data lines, and unaligned cycles."""

    width: int
    unaligned: bool


# vme_lanes.row_of and vme_memory.answers, by the first byte of a location and the number of its bytes
LOCATIONS = {
    (0, 1): Cycle(8, False),
    (1, 1): Cycle(8, False),
    (2, 1): Cycle(8, False),
    (3, 1): Cycle(8, False),
    (0, 2): Cycle(16, False),
    (2, 2): Cycle(16, False),
    (0, 4): Cycle(32, False),
    (0, 3): Cycle(32, True),
    (1, 3): Cycle(32, True),
    (1, 2): Cycle(32, True),
}
# vme_cycle.is_block_len, vme_cycle.is_modify_len and vme_memory.is_local_len; vme_cycle.is_wide_len
WHOLE = (1, 2, 4)
WIDE = 8
# vme_cycle.boundary_of, by whether a datum has eight bytes
BOUNDARY = {False: 256, True: 2048}

# vme_grammar.places: the fields after the first word, and those after the name of a function
FORMS = {
    "r": ("code", "address", "length"),
    "w": ("code", "address", "bytes"),
    "br": ("code", "address", "length", "count"),
    "bw": ("code", "address", "length", "block"),
    "bf": ("code", "address", "length", "count", "datum"),
    "m": ("code", "address", "length", "function"),
    "lr": ("address", "local length"),
    "lw": ("address", "local bytes"),
    "lm": ("address", "local length", "function"),
    "await": ("code", "address", "bytes"),
    "lock": ("code", "address"),
    "unlock": ("code", "address"),
    "put": ("mailbox", "word"),
    "take": ("mailbox",),
}
FUNCTIONS = {"set": (), "xchg": ("datum",), "add": ("datum",), "cas": ("expected", "datum")}

# vme_arbiter.all_levels
LEVELS = (3, 2, 1, 0)


def level_order(first: int) -> tuple[int, ...]:
    """vme_arbiter.level_order: the levels in the order of a grant that begins at a level."""
    return LEVELS[3 - first:] + LEVELS[: 3 - first]


def first_after(arbiter: str, level: int) -> int:
    """vme_arbiter.first_after: the level at which the next grant begins."""
    return 3 if arbiter == "priority" or level == 0 else level - 1


# vme_shared.Layout: the places of a mailbox, from its first byte on
LOCK_AT, PUT_COUNT_AT, TAKE_COUNT_AT, WORDS_AT, WORD = 0, 4, 8, 16, 4


def mailbox_len(slots: int) -> int:
    """vme_shared.mailbox_len: the bytes of a mailbox."""
    return WORDS_AT + WORD * slots


class Stage(NamedTuple):
    """A transfer of a lock, an unlock, a put or a take: what it does, and what follows the release of the bus. That is the first
    pair whose condition holds: the next stage, or the reply."""

    access: str
    then: tuple[tuple[str, str], ...]


# vme_shared.step_after, with vme_shared.mailbox_request and vme_shared.counted_stage. That a count is 2^32 - 1 is left out, since
# a file has fewer lines, and bus errors, since each byte of a mailbox is on a board that has its cycles.
STAGES = {
    "lock": {"locks": Stage("set lock", (("held", "busy"), ("", "taken")))},
    "unlock": {"unlocks": Stage("clear lock", (("", "done"),))},
    "put": {
        "locks": Stage("set lock", (("held", "busy"), ("", "reads_put_count"))),
        "reads_put_count": Stage("read put count", (("", "reads_take_count"),)),
        "reads_take_count": Stage("read take count", (("full", "unlocks_full"), ("", "writes_word"))),
        "writes_word": Stage("write word", (("", "raises_put_count"),)),
        "raises_put_count": Stage("raise put count", (("", "unlocks_put"),)),
        "unlocks_full": Stage("clear lock", (("", "full"),)),
        "unlocks_put": Stage("clear lock", (("", "put"),)),
    },
    "take": {
        "locks": Stage("set lock", (("held", "busy"), ("", "reads_put_count"))),
        "reads_put_count": Stage("read put count", (("", "reads_take_count"),)),
        "reads_take_count": Stage("read take count", (("empty", "unlocks_empty"), ("", "reads_word"))),
        "reads_word": Stage("read word", (("", "raises_take_count"),)),
        "raises_take_count": Stage("raise take count", (("", "unlocks_took"),)),
        "unlocks_empty": Stage("clear lock", (("", "empty"),)),
        "unlocks_took": Stage("clear lock", (("", "took"),)),
    },
    # vme_line_task.await_reply
    "await": {"reads": Stage("compare", (("equal", "met"), ("", "timeout")))},
}
# vme_line_task.asks_again: the replies after which another attempt is made
RETRIED = {"timeout", "busy", "full", "empty"}
