"""The lines of a script, by vme_grammar.Grammar and vme_lexer.Numbers."""

import re
from typing import NamedTuple

from promela_model.refused import Refused, require
from promela_model.tables import FORMS, FUNCTIONS, WHOLE

LONGEST, MOST_LINES = 80, 1000
HEX, DECIMAL = re.compile("[0-9a-fA-F]+"), re.compile("[0-9]+")
# The code of a word that does not spell a field: vme_grammar.fault_of.
FAULTS = {"code": "S4", "address": "S5", "length": "S6", "local length": "S6", "count": "S6", "mailbox": "S6"}


class Function(NamedTuple):
    """The function of a read-modify-write, and its data."""

    name: str
    data: tuple[bytes, ...]


class Line(NamedTuple):
    """A line that asks for something: its number, its text, its first word, and its operands."""

    number: int
    text: str
    word: str
    am: int = 0
    addr: int = 0
    n: int = 0
    count: int = 0
    data: bytes = b""
    function: Function | None = None
    mailbox: int = 0


def hex_number(digits: int, word: str) -> int | None:
    """The number that so many hexadecimal digits spell."""
    return int(word, 16) if len(word) == digits and HEX.fullmatch(word) else None


def decimal(most: int, word: str) -> int | None:
    """The number that one to `most` digits spell."""
    return int(word) if len(word) <= most and DECIMAL.fullmatch(word) else None


def hex_bytes(lengths: range | tuple[int, ...], word: str) -> bytes | None:
    """The bytes that pairs of digits spell, of one of these lengths."""
    return bytes.fromhex(word) if HEX.fullmatch(word) and len(word) % 2 == 0 and len(word) // 2 in lengths else None


def one_of(numbers: range | tuple[int, ...], word: str) -> int | None:
    """The number that one digit spells, if it is one of these."""
    found = decimal(1, word)
    return found if found in numbers else None


def field(kind: str, word: str, n: int) -> int | bytes | None:
    """What a word spells as a field, if it does: vme_grammar.with_field."""
    spelled = {
        "code": lambda: hex_number(2, word),
        "address": lambda: hex_number(8, word),
        "length": lambda: one_of(range(1, 9), word),
        "local length": lambda: one_of(WHOLE, word),
        "count": lambda: decimal(4, word),
        "bytes": lambda: hex_bytes(range(1, 9), word),
        "local bytes": lambda: hex_bytes(WHOLE, word),
        "block": lambda: hex_bytes(range(1, 41), word),
        "datum": lambda: hex_bytes((n,), word),
        "expected": lambda: hex_bytes((n,), word),
        "mailbox": lambda: decimal(2, word),
        "word": lambda: hex_bytes((4,), word),
    }
    return spelled[kind]()


def fields_of(words: list[str]) -> tuple[str, ...]:
    """The fields of the form that words match, the name of a function among them: vme_grammar.form_of."""
    require(words[0] in FORMS, "S2")
    places = FORMS[words[0]]
    if places[-1] == "function":
        require(len(words) > len(places), "S3")
        require(words[len(places)] in FUNCTIONS, "S2")
        places += FUNCTIONS[words[len(places)]]
    require(len(words) == 1 + len(places), "S3")
    return places


def read_line(number: int, text: str) -> Line | None:
    """The line that a text spells; None if it asks for nothing. Refused by the code of its fault: vme_grammar.line_of."""
    require(len(text.encode()) <= LONGEST, "S1")
    words = [] if text.startswith("#") else [it for it in text.split(" ") if it]
    if not words:
        return None
    found: dict[str, int | bytes] = {"length": 0}
    for kind, word in zip(fields_of(words), words[1:]):
        if kind == "function":
            continue
        value = field(kind, word, found["length"])
        require(value is not None, FAULTS.get(kind, "S7"))
        found[kind.removeprefix("local ")] = value
    return line_with(number, text, words, found)


def line_with(number: int, text: str, words: list[str], found: dict) -> Line:
    """The line with these operands."""
    function, data = None, found.get("bytes", found.get("block", found.get("datum", found.get("word", b""))))
    if FORMS[words[0]][-1] == "function":
        name = words[len(FORMS[words[0]])]
        function, data = Function(name, tuple(found[it] for it in FUNCTIONS[name])), b""
    numbers = (found.get(it, 0) for it in ("code", "address", "length", "count"))
    return Line(number, text, words[0], *numbers, data, function, found.get("mailbox", 0))


def read_script(slot: int, text: str) -> list[Line]:
    """The lines of a script that ask for something."""
    *ended, last = text.split("\n")
    rows = [it.removesuffix("\r") for it in ended] + ([last] if last else [])
    require(len(rows) <= MOST_LINES, f"the script of slot {slot} has more than {MOST_LINES} lines (S8)")
    found = []
    for number, row in enumerate(rows, 1):
        try:
            found.append(read_line(number, row))
        except Refused as fault:
            raise Refused(f"slot {slot} line {number} is refused ({fault})") from None
    return [it for it in found if it]
