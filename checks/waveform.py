"""Value change dumps as `bendrika trace` writes them: the changes of each event, and what a monitor on the backplane decodes.

The monitor reads the dump, with the boards and scripts of the file. It checks the rules of the handshake and of arbitration at
each edge, decodes each datum where its answer falls, compares it with the line that asks for it, and keeps the bytes of each
board: what is read must be what was written."""

import re
import tomllib
from typing import Iterator, NamedTuple

# Times of an event, and between two of its edges.
EVENT, EDGE = 100, 5
REPLY = re.compile(r"^(\d+):(\d+) (\w+) ?(.*)$")
STEPS = re.compile(r"^board (\d+) steps (\d+) ")
# The codes of eight-byte blocks.
WIDE = (0x00, 0x08, 0x0C, 0x38, 0x3C)
# By the levels of LWORD*, DS1*, DS0* and A01: the place of the first byte in its group of four, and the lanes that are driven,
# D31 to D24 first (IEEE 1014-1987, 2.2.1). Of a block A01 is that of its first datum.
LOCATIONS = {
    "1010": (0, "..x."), "1011": (2, "..x."), "1100": (1, "...x"), "1101": (3, "...x"), "1000": (0, "..xx"), "1001": (2, "..xx"),
    "0010": (0, "xxx."), "0100": (1, ".xxx"), "0001": (1, ".xx."), "0000": (0, "xxxx"),
}
ROW = 16
# The lines of a script that ask for one transfer.
REQUESTS = ("r", "w", "m", "br", "bw", "bf")
# The names of four data lanes, by what is before them and by the number of the highest line.
LANES = re.compile(r"(.*\bdh?|.*_lp_d)(\d\d)_\d\d")


class Fault(Exception):
    """What a waveform or a page shows against the rules."""


def need(holds: object, what: object, time: int = 0) -> None:
    """Raises a fault if a rule does not hold."""
    if not holds:
        raise Fault(f"at {time}: {what}" if time else str(what))


class Change(NamedTuple):
    """A change of a variable in an event, at one of its edges."""

    edge: int
    name: str
    value: str


class Event(NamedTuple):
    """An event: the values before it, and its changes in order."""

    number: int
    before: dict[str, str]
    changes: list[Change]

    def of(self, name: str) -> list[Change]:
        """The changes of a variable."""
        return [it for it in self.changes if it.name == name]

    def falls(self, name: str) -> bool:
        """Whether a line becomes low."""
        return any(it.value == "0" for it in self.of(name))

    def rises(self, name: str) -> bool:
        """Whether a line becomes high."""
        return any(it.value == "1" for it in self.of(name))

    def after(self, name: str) -> str:
        """The value of a variable after the event."""
        return self.of(name)[-1].value if self.of(name) else self.before[name]


class Dump:
    """A value change dump: names by code, and the changes of each time."""

    def __init__(self, text: str) -> None:
        self.names: dict[str, str] = {}
        self.times: list[tuple[int, list[tuple[str, str]]]] = []
        head, _, body = text.partition("$enddefinitions $end\n")
        for code, name in re.findall(r"^\$var \w+ \d+ (\S+) (\S+)", head, re.MULTILINE):
            need(code not in self.names, f"the code {code} twice")
            need(name not in self.names.values(), f"the name {name} twice")
            self.names[code] = name
        for line in body.splitlines():
            if line.startswith("#"):
                time = int(line[1:])
                need(not self.times or self.times[-1][0] < time, "times fall", time)
                self.times.append((time, []))
            elif not line.startswith("$"):
                value, code = line[1:].split(" ") if line[0] == "b" else (line[0], line[1:])
                self.times[-1][1].append((self.names[code], value))
        self.slots = sorted(int(name[1:-5]) for name in self.names.values() if re.fullmatch(r"s\d+_line", name))
        self.times = [(time, joined(changes)) for time, changes in self.times]

    def events(self) -> Iterator[Event]:
        """The events, in order. The n-th one takes the times from 100 n on."""
        now: dict[str, str] = {}
        found: list[Event] = []
        for time, changes in self.times:
            place, edge = time // EVENT, time % EVENT // EDGE
            if place and changes and not edge:
                need(place == len(found) + 1, "an event is missing", time)
                found.append(Event(number(dict(changes)["event"]), dict(now), []))
            for name, value in changes:
                if place:
                    found[-1].changes.append(Change(edge, name, value))
                now[name] = value
        need(all(one.number < other.number for one, other in zip(found, found[1:])), "the numbers of events fall")
        return iter(found)


def joined(changes: list[tuple[str, str]]) -> list[tuple[str, str]]:
    """The changes with those of four data lanes as one of all: `z` if nothing drives them, else eight digits for each."""
    found: list[tuple[str, str]] = []
    parts: dict[str, dict[int, str]] = {}
    for name, value in changes:
        lane = LANES.fullmatch(name)
        if not lane:
            found.append((name, value))
            continue
        if lane[1] not in parts:
            found.append((lane[1], ""))
        parts.setdefault(lane[1], {})[int(lane[2])] = value
    need(all(len(it) == 4 for it in parts.values()), f"the lanes {parts}")
    values = {name: [it[high] for high in sorted(it, reverse=True)] for name, it in parts.items()}
    wide = {name: "".join("z" * 8 if it == "z" else it for it in all_) for name, all_ in values.items()}
    return [(name, value) if name not in wide else (name, "z" if set(wide[name]) == {"z"} else wide[name]) for name, value in found]


def number(digits: str) -> int | None:
    """The number of some digits; None if nothing drives them."""
    return None if digits in ("", "z") or "z" in digits else int(digits, 2)


def lanes(digits: str) -> list[int]:
    """The bytes that the lanes carry, the lowest address first."""
    return [] if digits == "z" else [int(part, 2) for part in octets(digits) if "z" not in part]


def octets(digits: str) -> list[str]:
    """The digits of the four lanes."""
    return [digits[i : i + 8] for i in range(0, 32, 8)]


class Board(NamedTuple):
    """A board of a configuration: where it answers, its level, and the lines of its processor's script."""

    slot: int
    base: int
    size: int
    level: int
    lines: list[str]

    def words(self, line: int) -> list[str]:
        """The words of a line of the script, by its number from 1."""
        return self.lines[line - 1].split()

    def has(self, local: bool) -> bool:
        """Whether the script has a line of the local port, or else one over the bus."""
        words = [it.split()[0] for it in self.lines if it.strip() and not it.startswith("#")]
        return any((it in ("lr", "lw", "lm")) == local for it in words)


def boards_of(text: str) -> dict[int, Board]:
    """The boards of a configuration by slot."""
    found = [
        Board(it["slot"], it["base"], it["size"], it.get("level", 3), it.get("script", "").splitlines())
        for it in tomllib.loads(text)["board"]
    ]
    return {it.slot: it for it in found}


class Transfer:
    """What a monitor has seen since AS* fell: the address, the bytes of its data so far, and whether it reads."""

    def __init__(self, now: dict[str, str]) -> None:
        address = number(now["a"])
        self.address, self.a01 = address & ~3, str(address >> 1 & 1)
        need(address % 2 == 0, f"A00 of {address:08x} is no line")
        self.count, self.reads, self.last = 0, now["write_n"] == "1", 0

    def place(self, now: dict[str, str], time: int) -> tuple[int, str]:
        """The place of a datum in its group of four by the strobes, and the lanes that carry it. It is no eight-byte datum."""
        levels = "".join((now["lword_n"], now["ds1_n"], now["ds0_n"], self.a01))
        need(levels in LOCATIONS, f"no byte location has the levels {levels}", time)
        return LOCATIONS[levels]

    def location(self, now: dict[str, str], time: int) -> int:
        """The address of a datum that is no eight-byte datum, by the strobes."""
        place, driven = self.place(now, time)
        found = "".join("." if "z" in part else "x" for part in octets(now["d"]))
        need(found == driven, f"the lanes {found} are driven, not {driven}", time)
        if not self.count:
            self.address += place
        address = self.address + self.count
        if self.reads and now["write_n"] == "0":
            address -= self.last
        need(address % 2 == place % 2, f"the strobes of {place} at address {address:08x}", time)
        return address


class Monitor:
    """The state of the backplane, and what was decoded so far."""

    def __init__(self, dump: Dump, boards: dict[int, Board]) -> None:
        self.now: dict[str, str] = {}
        self.boards, self.slots, self.transfer = boards, dump.slots, None
        self.memory = {slot: bytearray(it.size) for slot, it in boards.items()}
        # By slot and line: the data of its last transfer, each the bytes and whether BERR* answered.
        self.seen, self.accesses, self.events = {}, {slot: 0 for slot in self.slots}, 0
        self.counted = set()
        need(self.slots == sorted(boards), f"the slots of the dump are {self.slots}")
        for time, changes in dump.times:
            self.step(time, dict(changes))

    def step(self, time: int, changes: dict[str, str]) -> None:
        """Takes the changes of a time."""
        before, self.now = self.now, {**self.now, **changes}
        if not before:
            return
        self.rules(time, before)
        if "event" in changes:
            self.events += 1
            need(number(before["event"]) < number(self.now["event"]), "the numbers of events fall", time)
            need(time == EVENT * self.events, "an event begins at another time", time)
        if before["as_n"] == "1" and self.now["as_n"] == "0":
            self.seen[self.line()], self.transfer = [], Transfer(self.now)
        for answer in ("dtack_n", "berr_n"):
            if before[answer] == "1" and self.now[answer] == "0":
                self.datum(time, answer == "berr_n")
        for slot in self.slots:
            for answer in ("ack", "err"):
                name = f"s{slot}_lp_{answer}"
                if before[name] == "0" and self.now[name] == "1":
                    self.access(time, slot, answer == "err")

    def line(self) -> tuple[int, int]:
        """The slot and the line whose event it is."""
        slot = number(self.now["slot"])
        return slot, number(self.now[f"s{slot}_line"])

    def datum(self, time: int, berr: bool) -> None:
        """A handshake over the bus. An address phase carries no bytes."""
        s = self.now
        wide = number(s["am"]) in WIDE and s["dh"] != "z"
        data = (lanes(s["dh"]) if wide else []) + lanes(s["d"])
        selected = [slot for slot in self.slots if s[f"s{slot}_sel"] == "1"]
        need(len(selected) <= 1, "two boards are selected", time)
        need(selected or berr, "DTACK* with no board selected", time)
        event = number(s["event"])
        if selected and event not in self.counted:
            self.counted.add(event)
            self.accesses[selected[0]] += 1
        self.seen[self.line()].append((data, berr, s["write_n"] == "1", event))
        if wide:
            upper = int("".join(octets(s["dh"])), 2)
            on_address = number(s["a"]), number(s["lword_n"])
            need(on_address == (upper & ~1, upper & 1), "the address lines carry other bytes than D63 to D32", time)
            need(len(data) == 8, f"{len(data)} bytes of eight", time)
        self.asked(time, data)
        if data and not berr:
            address = self.transfer.address + self.transfer.count if wide else self.transfer.location(s, time)
            board = self.boards[selected[0]]
            need(board.base <= address, f"slot {board.slot} is selected by address {address:08x}", time)
            self.move(time, board.slot, address - board.base, data, s["write_n"] == "1")
            self.transfer.count, self.transfer.last = self.transfer.count + len(data), len(data)

    def asked(self, time: int, data: list[int]) -> None:
        """A handshake of a request line has its code, its address and, if it writes, its bytes."""
        slot, line = self.line()
        words, transfer, s = self.boards[slot].words(line), self.transfer, self.now
        if words[0] not in REQUESTS:
            return
        code, address = int(words[1], 16), int(words[2], 16)
        need(number(s["am"]) == code, f"the code is {number(s['am']):02x}, not {code:02x}", time)
        if not transfer.count:
            place = 0 if code in WIDE else transfer.place(s, time)[0]
            need(transfer.address + place == address, f"the address is {transfer.address + place:08x}, not {address:08x}", time)
        earlier = [it for it in self.seen[slot, line][:-1] if it[0]]
        wanted = written(words, len(earlier))
        need(s["write_n"] == ("0" if wanted or words[0] == "m" and earlier else "1"), "WRITE* has the other level", time)
        need(not wanted or not data or bytes(data) == wanted, f"{bytes(data).hex()} is written, not {wanted.hex()}", time)

    def access(self, time: int, slot: int, berr: bool) -> None:
        """A handshake of the local port."""
        s, event = self.now, number(self.now["event"])
        if (slot, event) not in self.counted:
            self.counted.add((slot, event))
            self.accesses[slot] += 1
            self.seen[self.line()] = []
        data, reads = lanes(s[f"s{slot}_lp_d"]), s[f"s{slot}_lp_we"] == "0"
        words, earlier = self.boards[slot].words(self.line()[1]), len(self.seen[self.line()])
        self.seen[self.line()].append((data, berr, reads, event))
        offset, writes = int(words[1], 16), words[0] == "lw" or earlier > 0
        need(number(s[f"s{slot}_lp_a"]) == offset, f"the offset at the local port of slot {slot} is not {offset:08x}", time)
        need(reads != writes, f"the direction at the local port of slot {slot}", time)
        need(words[0] != "lw" or bytes(data).hex() == words[2].lower(), f"{bytes(data).hex()} is written, not {words[2]}", time)
        if not berr:
            self.move(time, slot, number(s[f"s{slot}_lp_a"]), data, reads)

    def move(self, time: int, slot: int, offset: int, data: list[int], reads: bool) -> None:
        """A datum of a board: what is read is what the board holds."""
        place, memory = slice(offset, offset + len(data)), self.memory[slot]
        need(data and place.stop <= len(memory), f"{len(data)} bytes at offset {offset:08x} of slot {slot}", time)
        if reads:
            need(bytes(data) == memory[place], f"{bytes(data).hex()} is read at {offset:08x} of slot {slot}, not {memory[place].hex()}", time)
        memory[place] = bytes(data)

    def rules(self, time: int, before: dict[str, str]) -> None:
        """The rules of the handshake and of arbitration."""
        s = self.now
        low = [name for name in ("ds1_n", "ds0_n") if s[name] == "0"]
        need(not low or s["as_n"] == "0", "a strobe is low without AS*", time)
        need(s["dtack_n"] == "1" or s["berr_n"] == "1", "DTACK* and BERR* are low", time)
        for answer in ("dtack_n", "berr_n"):
            if before[answer] != s[answer]:
                need(bool(low) == (s[answer] == "0"), f"{answer} against the strobes", time)
        if any(before[name] == "0" and s[name] == "0" for name in ("dtack_n", "berr_n")) and low:
            need(before["d"] == s["d"] and before["dh"] == s["dh"], "data change under an answer", time)
        granted = [(slot, level) for slot in self.slots for level in range(4) if s[f"s{slot}_bg{level}in_n"] == "0"]
        need(len({level for _, level in granted}) <= 1, "grants of two levels", time)
        need([slot for slot, _ in granted] == self.slots[: len(granted)], "a grant passes over a slot", time)
        drivers = [slot for slot in self.slots if s[f"s{slot}_bbsy_n"] == "0"]
        need(len(drivers) <= 1, "two slots drive BBSY*", time)
        need((s["bbsy_n"] == "0") == bool(drivers), "BBSY* without a slot", time)
        need(number(s["holder"]) == (drivers[0] if drivers else None), "the holder is another", time)
        need(s["as_n"] == "1" or drivers, "AS* without BBSY*", time)
        for slot in self.slots:
            need("0" in (s[f"s{slot}_lp_ack"], s[f"s{slot}_lp_err"]), f"two answers of the local port of slot {slot}", time)
        if time % EVENT == 0 and time > EVENT:
            rest = [name for name in ("ds1_n", "ds0_n", "dtack_n", "berr_n") if before[name] == "0"]
            need(not rest, f"{rest} at the end of an event", time)


def written(words: list[str], number: int) -> bytes:
    """The bytes that a request line writes with its datum of this number, from 0; none if it reads."""
    match words[0]:
        case "w":
            return bytes.fromhex(words[3])
        case "bw":
            length = int(words[3])
            return bytes.fromhex(words[4])[length * number : length * (number + 1)]
        case "bf":
            return bytes.fromhex(words[5])
    return b""


def expected(seen: list[tuple]) -> tuple[str, list[int]]:
    """The reply that the handshakes of a plain transfer lead to: the word, and its bytes."""
    data = [(bytes_, berr, read) for bytes_, berr, read, _ in seen if bytes_ or berr]
    if data and data[-1][1]:
        read = [byte for bytes_, berr, reads, *_ in data for byte in bytes_ if reads and not berr]
        return "berr", read
    if len(data) == 2 and data[0][2] and not data[1][2]:
        return "old", data[0][0]
    if data and data[0][2]:
        return "read", [byte for bytes_, *_ in data for byte in bytes_]
    return "done", []


def rows(slot: int, memory: bytearray) -> list[str]:
    """The rows of a report for the bytes of a board: those that are not zero."""
    parts = [(at, memory[at : at + ROW]) for at in range(0, len(memory), ROW)]
    return [f"mem {slot} {at:08x} {part.hex()}" for at, part in parts if any(part)]


def compare(monitor: Monitor, report: str) -> int:
    """Compares what the monitor decoded with a report. Returns how many replies were compared."""
    compared = 0
    for line in report.splitlines():
        steps, reply = STEPS.match(line), REPLY.match(line)
        if steps:
            slot, count = int(steps[1]), int(steps[2])
            need(monitor.accesses[slot] == count, f"{monitor.accesses[slot]} accesses of board {slot}, {count} steps")
        elif reply and reply[3] in ("read", "done", "old", "berr"):
            seen = monitor.seen.get((int(reply[1]), int(reply[2])))
            need(seen is not None, f"no event of line {reply[1]}:{reply[2]}")
            word, data = expected(seen)
            hexes = reply[4].split()[-1] if reply[4] and not (reply[3] == "berr" and " " not in reply[4]) else ""
            need(word == reply[3], f"line {reply[1]}:{reply[2]} shows {word}, and replied {line}")
            need("".join(f"{byte:02x}" for byte in data) == hexes or word == "done", f"line {line}: {data}")
            compared += 1
    held = [row for slot, memory in sorted(monitor.memory.items()) for row in rows(slot, memory)]
    need(held == [line for line in report.splitlines() if line.startswith("mem ")], f"the waveform leads to the memory {held}")
    return compared
