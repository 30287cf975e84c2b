"""Damaged copies of the files of examples/: the same each time for one seed and one number."""

import random
import re

from harness import ROOT

# What stands for a word or is put beside one.
WORDS = [
    b"0", b"1", b"-1", b"+1", b"3", b"16", b"18", b"21", b"22", b"256", b"257", b"1000", b"1000000", b"1000001",
    b"0x", b"0xfffffffc", b"4294967295", b"4294967296", b"99999999999999999999", b"1e9", b"1_000", b"0b1", b"inf", b"nan",
    b"true", b"false", b"''", b'""', b'"""', b"'''", b"[]", b"[[", b"]]", b"[[board]]", b"[board]", b"[[mailbox]]",
    b"{}", b"{ slot = 1 }", b"=", b",", b"#", b"\\", b"\\u0000", b"\\n", b"\r\n", b"\r", b"\x00", b"\x7f", b"\xff", b"\xc3\xa9",
    b"slot", b"level", b"space", b"base", b"size", b"width", b"uat", b"blt", b"rmw", b"supervisory", b"script",
    b"arbiter", b"tries", b"schedule", b"rounds", b"mailbox", b"am", b"addr", b"slots", b'"a16"', b'"a24"', b'"a32"',
    b'"priority"', b'"rotating"', b"r", b"w", b"br", b"bw", b"bf", b"m", b"lr", b"lw", b"lm", b"await", b"lock", b"unlock",
    b"put", b"take", b"set", b"xchg", b"add", b"cas", b"09", b"0b", b"0d", b"29", b"39", b"3b", b"08", b"40", b"00000000",
    b"00000001", b"0000000f", b"00001000", b"ffffffff", b"00ff", b"0g",
]


class Draws:
    """Random choices. Of all methods of Random only random() promises the same sequence in every Python."""

    def __init__(self, seed):
        self.rng = random.Random(seed)

    def below(self, limit):
        return int(self.rng.random() * limit)

    def pick(self, items):
        return items[self.below(len(items))]

    def place(self, text):
        """Two places in a text, mostly near to each other."""
        first = self.below(len(text) + 1)
        length = self.below(self.pick([2, 8, 64, len(text) + 1]))
        return first, min(len(text), first + length)


def cut(draws, text, other):
    return text[: draws.below(len(text) + 1)]


def change(draws, text, other):
    at = draws.below(len(text))
    return text[:at] + bytes([draws.below(256)]) + text[at + 1:]


def leave_out(draws, text, other):
    first, end = draws.place(text)
    return text[:first] + text[end:]


def repeat(draws, text, other):
    first, end = draws.place(text)
    return text[:end] + text[first:end] * draws.pick([1, 1, 2, 30]) + text[end:]


def move(draws, text, other):
    first, end = draws.place(text)
    rest = text[:first] + text[end:]
    at = draws.below(len(rest) + 1)
    return rest[:at] + text[first:end] + rest[at:]


def put_in(draws, text, other):
    at = draws.below(len(text) + 1)
    return text[:at] + draws.pick(WORDS) + text[at:]


def other_word(draws, text, other):
    words = list(re.finditer(rb"[^\s=]+", text))
    if not words:
        return text
    word = draws.pick(words)
    return text[: word.start()] + draws.pick(WORDS) + text[word.end():]


def other_line(draws, text, other):
    lines = text.splitlines(keepends=True)
    lines.insert(draws.below(len(lines) + 1), draws.pick(other.splitlines(keepends=True)))
    return b"".join(lines)


def no_line(draws, text, other):
    lines = text.splitlines(keepends=True)
    if lines:
        del lines[draws.below(len(lines))]
    return b"".join(lines)


def join(draws, text, other):
    return text[: draws.below(len(text) + 1)] + other[draws.below(len(other) + 1):]


DAMAGES = [cut, change, leave_out, repeat, move, put_in, join] + [other_word, other_line, no_line] * 3


def sources() -> list[bytes]:
    """The examples. Of a wait in vain a hundred reads are enough."""
    files = sorted(ROOT.glob("examples/*.toml"))
    return [it.read_bytes().replace(b"tries = 1000000", b"tries = 100") for it in files]


def damaged(texts: list[bytes], seed: object, number: int) -> bytes:
    """One of the texts with some damages."""
    draws = Draws(f"{seed} {number}")
    text = draws.pick(texts)
    for _ in range(1 + draws.below(draws.pick([1, 3, 8]))):
        if text:
            text = draws.pick(DAMAGES)(draws, text, draws.pick(texts))
    return text
