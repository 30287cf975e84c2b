"""The tables of the conformance pack that the library gives: the lines of each transfer, what no board answers, and arbiters."""

import sys
from pathlib import Path

ROOT = Path(__file__).resolve().parent.parent
sys.path.insert(0, str(ROOT / "hdl"))
from expected import EITHER, ExpectedBoard, tenures  # noqa: E402
from pyvme import Function, Lines, Modify, Refused, Request, RequestKind, am_row, answered  # noqa: E402

ANSWERS = ["none", "dtack", "berr", "either"]
SPACES = {"a16": 16, "a24": 24, "a32": 32}
DATA_CODES = {"a16": 0x29, "a24": 0x39, "a32": 0x09}
# The lines above those of a space, which a board in it ignores: one line alone, all of them, and a pattern.
UPPER = {"a24": [0x01, 0x80, 0xFF, 0xA5], "a16": [0x0001, 0x8000, 0xFFFF, 0xA5C3]}
ARBITER_ROWS = 200
SEED = 1014


def is_wide(code):
    """Whether a code is one of eight-byte data, which the standard of 1987 does not have."""
    try:
        return bool(am_row(code).wide)
    except Refused:
        return False


def is_profile(request):
    """Whether a request line has such a code."""
    return is_wide(int(request.split()[1], 16))


def request_of(text):
    """The request of a request line."""
    word, am, addr, *rest = text.split()
    am, addr = int(am, 16), int(addr, 16)
    if word == "r":
        return Request(RequestKind.READ, am, addr, int(rest[0]))
    if word == "w":
        return Request(RequestKind.WRITE, am, addr, len(rest[0]) // 2, data=bytes.fromhex(rest[0]))
    if word == "br":
        return Request(RequestKind.BLOCK_READ, am, addr, int(rest[0]), count=int(rest[1]))
    if word == "bw":
        return Request.block_write(am, addr, int(rest[0]), bytes.fromhex(rest[1]))
    f = Modify.of(Function.EXCHANGE, bytes.fromhex(rest[2]))
    return Request(RequestKind.MODIFY, am, addr, int(rest[0]), f=f)


def signals_of(lines, read=None):
    """Lines as `vme cycles` prints them; of a read with the bytes that it takes, if it takes any."""
    shown = lines if read is None else answered(lines, read)
    lanes = [f"{it:02x}" if it < 256 else "--" for it in shown.lanes]
    strobes = lines.strobes
    return {"am": f"{lines.am:02x}", "a": f"{lines.addr:08x}", "ds1": f"{strobes.ds1}", "ds0": f"{strobes.ds0}",
            "a01": f"{strobes.a01}", "lword": f"{strobes.lword}", "write": f"{lines.write}",
            "data": "".join(lanes if is_wide(lines.am) else lanes[4:])}


def add_lines(row):
    """Gives a row of `boards` the lines of each transfer, and whether it begins with a read half that is as a read. Ends if the
    library answers otherwise than the row, which the program gave."""
    request = request_of(row["request"])
    board = ExpectedBoard(SPACES[row["space"]], int(row["base"], 16), row["size"], row["supervisory"], row["width"], row["uat"],
                          row["blt"], row["rmw"])
    board.board.memory[:] = bytes.fromhex(row["memory_before"])
    transfers = list(board.answers(request))
    first = signals_of(transfers[0].lines)
    reply = "none" if row["answered_by"] == "bus timer" else "berr" if row["reply"].startswith("berr") else "dtack"
    last = ANSWERS[transfers[-1].answer]
    if any(row[name] != it for name, it in first.items()) or board.board.memory.hex() != row["memory_after"] or last != reply:
        sys.exit(f"conformance: the library answers {last} to {row['request']} and the program {row['reply']}: {row}")
    signals = [{**signals_of(it.lines, it.read), "answer": ANSWERS[it.answer]} for it in transfers]
    return {**row, "read_half_as_read": transfers[0].answer == EITHER, "signals": signals}


def probe(space, base, size, am, upper=0, iack=1, at=1):
    """A read of one byte of a board, with other lines than a request has."""
    lines = Request(RequestKind.READ, DATA_CODES["a32"], base + at, 1).lines(0)
    lines = Lines.from_buffer_copy(lines)
    lines.am = am
    shown = signals_of(lines)
    shown["a"] = f"{lines.addr | upper:08x}"
    return {"space": space, "base": f"{base:08x}", "size": size, "iack": iack, **shown}


def decoding_rows(board_of, before):
    """Reads with lines that a decoder must not overlook: codes without a row, IACK*, and address lines above those of the space.
    `before` has the bytes of each board."""
    rows = []
    for space, data in DATA_CODES.items():
        keys = board_of(space)
        base, size = keys["base"], keys["size"]
        board = ExpectedBoard(SPACES[space], base, size, False, 32, True, True, True)
        for code in range(0x40):
            try:
                am_row(code)
            except Refused as refused:
                why = "reserved code" if refused.result.name == "K1" else "user-defined code"
                rows.append({**probe(space, base, size, code), "answer": "none", "why": why})
        rows.append({**probe(space, base, size, data, iack=0), "answer": "none", "why": "IACK* is low"})
        for above in UPPER.get(space, UPPER["a24"]):
            upper = above << min(SPACES[space], 24)
            for at in (1, size + 1):
                row = probe(space, base, size, data, upper, at=at)
                counts = SPACES[space] == 32
                is_selected = board.selected(data, (upper if counts else 0) + base + at) is not None
                row["data"] = f"------{before[2 * at:2 * at + 2]}" if is_selected else row["data"]
                why = "the upper lines are of the address" if counts else "the upper lines do not count"
                rows.append({**row, "answer": "dtack" if is_selected else "none", "why": why})
    return [{"id": number, **row} for number, row in enumerate(rows, 1)]


def arbiter_rows():
    """Requests and releases of the bus, and the slot that then holds it, for each kind of arbiter."""
    return [{"arbiter": kind, "number": number, "command": "release" if it.releases else "request", "slot": it.slot,
             "level": "" if it.releases else it.level, "holder": it.holder}
            for kind in ("pri", "rrs", "sgl") for number, it in enumerate(tenures(kind, ARBITER_ROWS, SEED), 1)]
