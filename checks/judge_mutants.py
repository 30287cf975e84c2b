"""Waveforms of `bendrika trace`, changed by a rule: errors that `bendrika judge` must find, each with the codes that may name it, and
changes that a bus may have, which it must not blame."""

import random
import re
from typing import Callable, Iterator, NamedTuple

VARIABLE = re.compile(r"^\$var \w+ (\d+) (\S+) (\S+)", re.MULTILINE)
LANES = ("d31_24", "d23_16", "d15_08", "d07_00")
# A code that is reserved, and one that is user-defined.
UNKNOWN_CODES = ("100011", "010000")
# The codes of eight-byte blocks, whose address lines carry data.
WIDE = ("000000", "001000", "001100", "111000", "111100")
ANY_CODES = {f"J{number}" for number in range(1, 25)}


class Handshake(NamedTuple):
    """The times at which the lines of a handshake change, and the line that answers. `begins` and `ends` are whether AS* falls before
    it and rises with or after it."""

    opens: int
    strobes: int
    answer: int
    rise: int
    end: int
    line: str
    is_read: bool
    begins: bool
    ends: bool


class Wave:
    """A dump: its header, the variables' codes and sizes, and the changes at each time."""

    def __init__(self, text: str):
        self.header, _, body = text.partition("$enddefinitions $end\n")
        self.sizes = {name: int(size) for size, _, name in VARIABLE.findall(self.header)}
        self.codes = {name: code for _, code, name in VARIABLE.findall(self.header)}
        names = {code: name for name, code in self.codes.items()}
        self.changes: dict[int, dict[str, str]] = {}
        time = 0
        for line in body.splitlines():
            if line.startswith("#"):
                time = int(line[1:])
                self.changes.setdefault(time, {})
            elif line.startswith("b"):
                value, code = line[1:].split()
                self.changes.setdefault(time, {})[names[code]] = value
            elif not line.startswith("$"):
                self.changes.setdefault(time, {})[names[line[1:]]] = line[0]

    def copy(self) -> "Wave":
        other = object.__new__(Wave)
        other.header, other.sizes, other.codes = self.header, self.sizes, self.codes
        other.changes = {time: dict(them) for time, them in self.changes.items()}
        return other

    def text(self, unit: int = 1, upper: bool = False) -> str:
        lines = [self.header + "$enddefinitions $end"]
        for time in sorted(self.changes):
            lines.append(f"#{time * unit}")
            for name, value in self.changes[time].items():
                shown = value.upper() if upper else value
                lines.append(f"b{shown} {self.codes[name]}" if self.sizes[name] > 1 else shown + self.codes[name])
        return "\n".join(lines) + "\n"

    def at(self, name: str, time: int) -> str:
        """The value of a variable after the changes of a time."""
        value = "x"
        for other in sorted(self.changes):
            if other > time:
                break
            value = self.changes[other].get(name, value)
        return value

    def set(self, name: str, time: int, value: str) -> None:
        self.changes.setdefault(time, {})[name] = value

    def drop(self, name: str, time: int) -> str | None:
        return self.changes.get(time, {}).pop(name, None)

    def move(self, name: str, time: int, to: int) -> None:
        value = self.drop(name, time)
        if value is not None:
            self.set(name, to, value)

    def low_strobes(self, time: int) -> list[str]:
        return [name for name in ("ds1_n", "ds0_n") if self.at(name, time) == "0"]

    def handshakes(self) -> list[Handshake]:
        """The handshakes, in order."""
        found, lines = [], dict.fromkeys(("as_n", "ds1_n", "ds0_n", "dtack_n", "berr_n", "write_n"), "1")
        opens = strobes = answer = rise = 0
        line, is_read, begins = "", False, False
        for time in sorted(self.changes):
            before = dict(lines)
            lines.update({name: value for name, value in self.changes[time].items() if name in lines})
            if before["as_n"] == "1" and lines["as_n"] == "0":
                opens, begins = time, True
            if before["ds1_n"] == before["ds0_n"] == "1" and "0" in (lines["ds1_n"], lines["ds0_n"]):
                strobes, is_read = time, lines["write_n"] == "1"
            for name in ("dtack_n", "berr_n"):
                if before[name] == "1" and lines[name] == "0":
                    answer, line = time, name
                if before[name] == "0" and lines[name] == "1":
                    found.append(Handshake(opens, strobes, answer, rise, time, line, is_read, begins, lines["as_n"] == "1"))
                    begins = False
            if "0" in (before["ds1_n"], before["ds0_n"]) and lines["ds1_n"] == lines["ds0_n"] == "1":
                rise = time
        return found

    def has_access(self) -> bool:
        """Whether a local port answers."""
        return any(value == "1" and name.endswith("_lp_ack") for them in self.changes.values() for name, value in them.items())

    def slots(self) -> list[int]:
        return sorted(int(name[1:].partition("_")[0]) for name in self.codes if name.endswith("_br_n") and name[1].isdigit())


def flipped(value: str, place: int) -> str:
    """A value with one bit the other way."""
    bits = list(value)
    bits[place] = {"0": "1", "1": "0"}.get(bits[place], bits[place])
    return "".join(bits)


def driven(wave: Wave, it: Handshake, time: int) -> list[str]:
    """The data lanes that carry a byte of a handshake."""
    return [name for name in LANES if set(wave.at(name, time)) <= {"0", "1"}]


def strobe_first(wave, it, rng):
    for name in wave.low_strobes(it.strobes)[:1] if it.begins else ():
        wave.move(name, it.strobes, it.opens - 2)
        yield {"J6"}


def address_strobe_rises(wave, it, rng):
    wave.set("as_n", it.strobes + 2, "1")
    yield {"J4"}


def changes_address(name):
    def made(wave, it, rng):
        value = wave.at(name, it.strobes)
        if it.begins and set(value) <= {"0", "1"}:
            width = len(value)
            # A31 to A16 count in every space but A16.
            place = width - 2 - rng.randrange(13) if name == "a" else rng.randrange(width)
            wave.set(name, it.strobes + 1, flipped(value, place))
            yield {"J5"}
    return made


def address_with_strobe(wave, it, rng):
    value = wave.at("a", it.opens)
    if it.begins and set(value) <= {"0", "1"}:
        before = max(time for time in wave.changes if time < it.opens and "a" in wave.changes[time])
        wave.move("a", before, it.opens)
        yield {"J5"}


def write_changes(wave, it, rng):
    wave.set("write_n", it.strobes + 1, flipped(wave.at("write_n", it.strobes), 0))
    yield {"J7"}


def no_answer(wave, it, rng):
    wave.drop(it.line, it.answer)
    wave.drop(it.line, it.end)
    yield {"J4", "J10"}


def answer_before_strobe(wave, it, rng):
    wave.move(it.line, it.answer, it.strobes - 2)
    yield {"J8"}


def answer_alone(wave, it, rng):
    wave.set(it.line, it.end + 2, "0")
    wave.set(it.line, it.end + 3, "1")
    yield {"J8"}


def answer_rises(wave, it, rng):
    wave.move(it.line, it.end, it.rise - 2)
    yield {"J12"}


def answer_stays(wave, it, rng):
    later = [other for other in wave.handshakes() if other.strobes > it.end]
    if later and later[0].line == it.line:
        wave.drop(it.line, it.end)
        yield {"J9"}


def both_answers(wave, it, rng):
    other = "berr_n" if it.line == "dtack_n" else "dtack_n"
    wave.set(other, it.answer, "0")
    wave.set(other, it.end, "1")
    yield {"J11"}


def strobe_twice(wave, it, rng):
    for name in wave.low_strobes(it.strobes)[:1]:
        wave.set(name, it.strobes + 1, "1")
        wave.set(name, it.strobes + 2, "0")
        yield {"J10"}


def late_strobe(wave, it, rng):
    both = wave.low_strobes(it.strobes)
    if len(both) == 2:
        wave.move(rng.choice(both), it.strobes, it.answer + 2)
        yield {"J10", "J13"}


def no_location(wave, it, rng):
    both = wave.low_strobes(it.strobes)
    value = wave.at("a", it.opens)
    wide = set("".join(wave.at(name, it.answer) for name in ("dh63_56", "dh55_48"))) <= {"0", "1"}
    if it.begins and len(both) == 2 and set(value) <= {"0", "1"} and not wide and wave.at("lword_n", it.opens) == "0":
        wave.drop("ds1_n", it.strobes)
        wave.drop("ds1_n", it.rise)
        before = max(time for time in wave.changes if time < it.opens and "a" in wave.changes[time])
        wave.set("a", before, value[:-2] + "1" + value[-1])
        yield {"J13"}


def write_data_change(wave, it, rng):
    lanes = [] if it.is_read else driven(wave, it, it.strobes)
    for name in lanes[:1]:
        wave.set(name, it.answer - 2, flipped(wave.at(name, it.strobes), rng.randrange(8)))
        yield {"J7"}


def write_data_late(wave, it, rng):
    lanes = [] if it.is_read else driven(wave, it, it.strobes)
    for name in lanes[:1]:
        before = max(time for time in wave.changes if time <= it.strobes and name in wave.changes[time])
        wave.move(name, before, it.strobes + 2)
        yield {"J1", "J7"}


def read_lane_free(wave, it, rng):
    lanes = driven(wave, it, it.answer) if it.is_read and it.line == "dtack_n" else []
    for name in lanes[:1]:
        wave.set(name, it.rise - 1, rng.choice("zx") * 8)
        yield {"J1"}


def unknown_code(wave, it, rng):
    for time in [time for time in wave.changes if time <= it.opens and "am" in wave.changes[time]][-1:]:
        if it.begins:
            wave.set("am", time, rng.choice(UNKNOWN_CODES))
            yield {"J2"}


def second_holder(wave, it, rng):
    for slot in wave.slots():
        if wave.at(f"s{slot}_bbsy_n", it.opens) == "1":
            wave.set(f"s{slot}_bbsy_n", it.strobes + 1, "0")
            yield {"J14"}
            return


def no_holder(wave, it, rng):
    if it.begins:
        for name in ["bbsy_n"] + [f"s{slot}_bbsy_n" for slot in wave.slots()]:
            if wave.at(name, it.opens) == "0":
                wave.set(name, it.opens - 1, "1")
        yield {"J3"}


def wrong_read(wave, it, rng):
    lanes = driven(wave, it, it.answer) if it.is_read and it.line == "dtack_n" else []
    for name in lanes[:1]:
        for time in sorted(wave.changes):
            if it.strobes < time <= it.rise and name in wave.changes[time]:
                wave.set(name, time, flipped(wave.changes[time][name], rng.randrange(8)))
                yield {"J23"}
                return


def other_answer(wave, it, rng):
    other = "berr_n" if it.line == "dtack_n" else "dtack_n"
    if it.line == "berr_n" and it.is_read:
        for name in LANES:
            wave.set(name, it.answer - 1, "00000000")
    wave.drop(it.line, it.answer)
    wave.drop(it.line, it.end)
    wave.set(other, it.answer, "0")
    wave.set(other, it.end, "1")
    yield {"J22"} if it.line == "berr_n" else {"J21", "J13"}


class Mutant(NamedTuple):
    """A kind of error: its name, how it is made, and whether the order of samples alone shows it."""

    name: str
    make: Callable
    by_protocol: bool


ERRORS = [Mutant(made.__name__, made, True) for made in (
    strobe_first, address_strobe_rises, address_with_strobe, write_changes, no_answer, answer_before_strobe, answer_alone, answer_rises,
    answer_stays, both_answers, strobe_twice, late_strobe, no_location, write_data_change, write_data_late, read_lane_free,
    unknown_code, second_holder, no_holder)]
ERRORS += [Mutant(f"changes_{name}", changes_address(name), True) for name in ("a", "am", "lword_n")]
ERRORS += [Mutant(made.__name__, made, False) for made in (wrong_read, other_answer)]


# Errors whose lines stay wrong after the transfer.
LASTING = {"second_holder", "no_holder"}


def strobes_apart(wave, it, rng):
    both = wave.low_strobes(it.strobes)
    if len(both) == 2:
        wave.move(rng.choice(both), it.strobes, it.strobes + 1)


def strobes_rise_apart(wave, it, rng):
    both = wave.low_strobes(it.answer)
    if len(both) == 2 and not it.ends:
        wave.move(rng.choice(both), it.rise, it.rise + 1)


def later_answer(wave, it, rng):
    wave.move(it.line, it.answer, it.answer + rng.randrange(1, it.rise - it.answer))


def idle_lines(wave, it, rng):
    time = it.opens - 4
    if it.begins and wave.at("am", time - 1) == "z" * len(wave.at("am", time - 1)):
        wave.set("am", time - 2, "101010")
        wave.set("a", time - 2, "1" * 32)


def idle_lanes(wave, it, rng):
    for name in LANES:
        if name not in driven(wave, it, it.answer):
            wave.set(name, it.answer, rng.choice(["x" * 8, "01010101"]))


def written_again(wave, it, rng):
    for name in ("as_n", "am", "a", "dtack_n"):
        wave.set(name, it.strobes + 1, wave.at(name, it.strobes + 1))


def cut_end(wave, it, rng):
    # The first handshake of an eight-byte block shows no datum.
    if it.strobes > wave.handshakes()[0].strobes:
        for time in [time for time in wave.changes if time > it.rise]:
            del wave.changes[time]


def early_address_strobe(wave, it, rng):
    """AS* rises with the last answer."""
    for time in [time for time in sorted(wave.changes) if it.answer < time <= it.end and "as_n" in wave.changes[time]][:1]:
        wave.move("as_n", time, it.answer)


def pipelined(wave, it, rng):
    """The address of the next transfer comes after the last answer."""
    value = wave.at("a", it.answer)
    if it.ends and set(value) <= {"0", "1"} and wave.at("am", it.opens) not in WIDE:
        wave.set("a", it.answer + 1, flipped(value, rng.randrange(30)))


LEGAL = [early_address_strobe, pipelined, strobes_apart, strobes_rise_apart, later_answer, idle_lines, idle_lanes, written_again, cut_end]


def errors(text: str, seed: int, places: int, kinds: int = len(ERRORS)) -> Iterator[tuple[str, str, set[str], bool]]:
    """Errors of a waveform, of some kinds or of all: the name, the dump, the codes that may name it, and whether the protocol
    shows it."""
    wave, rng = Wave(text), random.Random(seed)
    handshakes = wave.handshakes()
    for mutant in ERRORS if kinds == len(ERRORS) else rng.sample(ERRORS, kinds):
        for it in rng.sample(handshakes, min(places, len(handshakes))):
            made = wave.copy()
            for codes in mutant.make(made, it, rng):
                yield mutant.name, made.text(), codes, mutant.by_protocol


def twice(text: str, seed: int) -> Iterator[tuple[str, str, set[str]]]:
    """Waveforms with the same error in two transfers, of which neither is the last: the name, the dump, and the codes that may
    name the error."""
    wave, rng = Wave(text), random.Random(seed)
    alone = [it for it in wave.handshakes() if it.begins and it.ends]
    for mutant in ERRORS if len(alone) > 2 else ():
        if mutant.name in LASTING:
            continue
        first, second = sorted(rng.sample(alone[:-1], 2))
        made = wave.copy()
        codes = [codes for it in (first, second) for codes in mutant.make(made, it, rng)]
        if len(codes) == 2:
            yield mutant.name, made.text(), codes[0] | codes[1]


def legal_ones(text: str, seed: int, places: int) -> Iterator[tuple[str, str]]:
    """Changes of a waveform that a bus may have: the name and the dump."""
    wave, rng = Wave(text), random.Random(seed)
    handshakes = wave.handshakes()
    for make in LEGAL:
        for it in rng.sample(handshakes, min(places, len(handshakes))):
            made = wave.copy()
            make(made, it, rng)
            yield make.__name__, made.text()
    yield "unit", wave.text(unit=1_000_000)
    yield "upper case", wave.text(upper=True)
