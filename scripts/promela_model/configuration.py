"""A configuration file: its keys, and the rules for their values, by vme_config_toml and vme_script."""

import tomllib
from typing import NamedTuple

from promela_model.cycles import Board, refusal, request_of, responds, selected
from promela_model.lines import Line, read_script
from promela_model.refused import require
from promela_model.tables import ADDRESSES, CODES, MAILBOX_CODES, mailbox_len

REQUIRED = None
# The keys with their kinds and defaults: vme_config_toml.Keys.
FILE_KEYS = {
    "arbiter": (str, "priority"), "tries": (int, 1000), "rounds": (int, 0), "schedule": (list, []), "board": (list, []),
    "mailbox": (list, []),
}
BOARD_KEYS = {
    "slot": (int, REQUIRED), "level": (int, 3), "space": (str, "a32"), "base": (int, REQUIRED), "size": (int, REQUIRED),
    "width": (int, 32), "uat": (bool, True), "blt": (bool, True), "rmw": (bool, True), "supervisory": (bool, False), "script": (str, ""),
}
MAILBOX_KEYS = {"am": (int, REQUIRED), "addr": (int, REQUIRED), "slots": (int, REQUIRED)}
MILLION = 1_000_000


class Mailbox(NamedTuple):
    """A mailbox: its code, its address, the words that it has, the board that it is on, and its offset there."""

    am: int
    addr: int
    slots: int
    board: Board
    at: int


class Configuration(NamedTuple):
    """What a file configures."""

    arbiter: str
    tries: int
    boards: list[Board]
    scripts: list[list[Line]]
    mailboxes: list[Mailbox]
    schedule: list[list[int]]
    rounds: int


def table(given: object, keys: dict, what: str) -> dict:
    """The values of a table, with the defaults of those that are absent (C7)."""
    require(isinstance(given, dict), f"{what} is no table (C7)")
    for key, value in given.items():
        require(key in keys, f"{what} has an unknown key `{key}` (C7)")
        require(type(value) is keys[key][0], f"`{key}` of {what} has a value of another kind (C7)")
        require(type(value) is not int or 0 <= value < 2**32, f"`{key}` of {what} is {value}, and not 0 to 4294967295 (C7)")
    for key, (_, default) in keys.items():
        require(key in given or default is not REQUIRED, f"{what} has no `{key}` (C7)")
    return {key: given.get(key, default) for key, (_, default) in keys.items()}


def read_board(given: dict, number: int, before: int) -> tuple[Board, str]:
    """A board and its script: vme_script.board_config."""
    what = f"board {number}"
    keys = table(given, BOARD_KEYS, what)
    script, uat = keys.pop("script"), given.get("uat", keys["width"] == 32)
    board = Board(**keys | {"uat": uat})
    require(before < board.slot <= 21, f"the slot of {what} is not above that of the board before, or not 1 to 21 (C8)")
    require(board.level <= 3, f"the level of {what} is not 0 to 3 (C9)")
    require(board.space in ADDRESSES and board.width in (8, 16, 32), f"the space or the width of {what} does not exist (C10)")
    require(not board.uat or board.width == 32, f"{what} has `uat` and another width than 32 (C10)")
    require(4 <= board.size <= 2**20 and board.size % 4 == 0, f"the size of {what} is not 4 to 1048576 or no multiple of 4 (C5)")
    require(board.base % 4 == 0, f"the base of {what} is no multiple of 4 (C3)")
    require(board.base + board.size <= ADDRESSES[board.space], f"{what} ends past its space (C2)")
    return board, script


def share(a: tuple[int, int], b: tuple[int, int]) -> bool:
    """Whether two ranges, each from a number up to another one, share a number."""
    return max(a[0], b[0]) < min(a[1], b[1])


def require_apart(boards: list[Board]) -> None:
    """No two boards of one space share an address: vme_decode.some_overlap."""
    for number, one in enumerate(boards):
        for other in boards[:number]:
            shared = one.space == other.space and share((one.base, one.base + one.size), (other.base, other.base + other.size))
            require(not shared, f"the boards of slots {other.slot} and {one.slot} overlap (C1)")


def require_schedule(keys: dict, boards: list[Board]) -> None:
    """The turns of a file are lawful, also for a model of all orders of turns: vme_script.schedule_of."""
    pairs = keys["schedule"]
    for it in pairs:
        whole = isinstance(it, list) and len(it) == 2 and all(type(one) is int and 0 <= one < 2**32 for one in it)
        require(whole, "`schedule` is no list of pairs of numbers (C7)")
    slots = {it.slot for it in boards}
    require(1 <= keys["tries"] <= MILLION, "`tries` is not 1 to 1000000 (C12)")
    require(keys["rounds"] <= MILLION, "`rounds` is above 1000000 (C12)")
    require(all(slot in slots for slot, _ in pairs), "`schedule` has a slot without a board (C12)")
    require(sum(turns for _, turns in pairs) <= MILLION, "`schedule` has more than 1000000 turns (C12)")


def read_mailbox(given: dict, number: int, boards: list[Board], before: list[Mailbox]) -> Mailbox:
    """A mailbox: vme_script.declared_mailbox."""
    keys, what = table(given, MAILBOX_KEYS, f"mailbox {number}"), f"mailbox {number}"
    am, addr, slots = keys["am"], keys["addr"], keys["slots"]
    require(am in MAILBOX_CODES and addr % 4 == 0 and 1 <= slots <= 64, f"a number of {what} is not lawful (C13)")
    board = selected(boards, CODES[am], addr)
    require(board, f"{what} is on no board (C13)")
    at = addr - board.base
    require(at + mailbox_len(slots) <= board.size, f"{what} ends past its board (C13)")
    require(board.width == 32 and board.rmw, f"the board of {what} has not `width` 32 or not `rmw` (C13)")
    mailbox = Mailbox(am, addr, slots, board, at)
    require(not any(is_of(it, board, at, mailbox_len(slots)) for it in before), f"{what} shares a byte with another (C13)")
    return mailbox


def is_of(mailbox: Mailbox, board: Board, at: int, n: int) -> bool:
    """Whether one of n bytes of a board belongs to a mailbox."""
    return mailbox.board.slot == board.slot and share((at, at + n), (mailbox.at, mailbox.at + mailbox_len(mailbox.slots)))


def bytes_of(line: Line, own: Board, boards: list[Board]) -> tuple[Board, int, int] | None:
    """The bytes of a board that a line other than put and take accesses, whatever its reply: vme_script.line_bytes."""
    if line.word in ("lr", "lw", "lm"):
        return own, line.addr, line.n or len(line.data)
    request = request_of(line)
    if refusal(request):
        return None
    board = next((it for it in boards if responds(it, CODES[request.am], request.addr)), None)
    return (board, request.addr - board.base, request.n * request.count) if board else None


def require_lines(script: list[Line], own: Board, boards: list[Board], mailboxes: list[Mailbox]) -> None:
    """The lines of a script name declared mailboxes, and none else of their bytes: vme_script.refusal_of."""
    for line in script:
        what = f"slot {own.slot} line {line.number} is refused"
        if line.word in ("put", "take"):
            require(1 <= line.mailbox <= len(mailboxes), f"{what} (S6)")
            continue
        found = bytes_of(line, own, boards)
        require(not found or not any(is_of(it, *found) for it in mailboxes), f"{what} (S9)")


def read(text: str) -> Configuration:
    """The configuration of a file: vme_script.configuration_of."""
    try:
        given = tomllib.loads(text)
    except (tomllib.TOMLDecodeError, RecursionError) as fault:
        require(False, f"not TOML: {fault} (C6)")
    keys = table(given, FILE_KEYS, "the file")
    require(0 < len(keys["board"]) <= 21, "the file has no board, or more than 21 (C11, C4)")
    boards, texts, mailboxes = [], [], []
    for number, it in enumerate(keys["board"], 1):
        board, script = read_board(it, number, boards[-1].slot if boards else 0)
        boards.append(board)
        texts.append(script)
    require_apart(boards)
    require(keys["arbiter"] in ("priority", "rotating"), f"the arbiter `{keys['arbiter']}` does not exist (C10)")
    require_schedule(keys, boards)
    require(len(keys["mailbox"]) <= 16, "the file has more than 16 mailboxes (C13)")
    for number, it in enumerate(keys["mailbox"], 1):
        mailboxes.append(read_mailbox(it, number, boards, mailboxes))
    scripts = [read_script(board.slot, script) for board, script in zip(boards, texts)]
    for board, script in zip(boards, scripts):
        require_lines(script, board, boards, mailboxes)
    return Configuration(keys["arbiter"], keys["tries"], boards, scripts, mailboxes, keys["schedule"], keys["rounds"])
