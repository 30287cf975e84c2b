"""Rows of `checks/check`: files and request lines with the findings that they must have, written by hand.

- check_cases/findings.rows: the codes of files. check_cases/places.rows: the places of findings.
- LINES: the finding of each request line. KEYS, REPEATED: keys that are named, and that are repeated.
- DOCUMENTS, each cut at each byte: the text at a finding is what its message names.
- check_cases/damaged.rows, with each byte replaced: each finding has a cause of its own."""

import json
import pathlib
import re
import subprocess
import tempfile
import tomllib
from typing import Callable, Iterator

CASES = pathlib.Path(__file__).resolve().parent / "check_cases"
TIME = 60
# How many inputs one run has.
BATCH = 400
BOARD = "[[board]]\nslot = 1\nbase = 0\nsize = 16\n"
# Files with one part too many: the refusal of `vme`, and the number of findings of each code.
COUNTS = [
    (BOARD * 22, "C4", {"C4": 1, "C8": 20, "C1": 20}),
    # Of the boards past the 21st, the first with an unknown key has a finding.
    (BOARD * 22 + BOARD.replace("slot", "x = 1\nslot") * 3, "C7", {"C4": 1, "C8": 20, "C1": 20, "C7": 1}),
    # Sixteen mailboxes with the code of a block, and the seventeenth.
    (BOARD + "[[mailbox]]\nam = 11\naddr = 0\nslots = 1\n" * 17, "C13", {"C13": 17}),
    (BOARD + 'script = """\nx\n' + "\n" * 1000 + 'y"""\n', "S8", {"S2": 1, "S8": 1}),
]
# A line, its code, and the bytes at fault; no code for no finding.
LINES = [
    (b"", "", 0, 0),
    (b"# note", "", 0, 0),
    (b"r 09 00000000 4", "", 0, 0),
    (b"w 0d 00000000 0001020304050607080900010203040506070809000102030405060708090001020", "S1", 80, 81),
    (b"R 0d 00000000 1", "S2", 0, 1),
    (b"  lr 00000000 1", "S2", 2, 4),
    (b"m 09 00000000 1 swap", "S2", 16, 20),
    (b"r 0d 00000000", "S3", 13, 13),
    (b"r 0d 00000000 1 # note", "S3", 16, 22),
    (b"r \xff\xc3\xe2\x98b", "S3", 7, 7),
    (b"r d 00000000 1", "S4", 2, 3),
    (b"r 0d 0000 1", "S5", 5, 9),
    (b"r 0d 00000000 9", "S6", 14, 15),
    (b"br 0b 00000000 4 x", "S6", 17, 18),
    (b"bf 0b 00000000 4 2 0102", "S7", 19, 23),
    (b"m 09 00000000 1 cas 01 xy", "S7", 23, 25),
    (b"r 2f 00000000 1", "K1", 2, 4),
    (b"r 10 00000000 1", "K2", 2, 4),
    (b"w 0d 00000003 a1a2", "K3", 5, 13),
    (b"r 29 00010000 1", "K4", 5, 13),
    (b"br 0d 00000000 4 1", "K5", 3, 5),
    (b"br 0b 000000fc 4 2", "K6", 6, 14),
    (b"m 0a 00000000 1 set", "K7", 2, 4),
    (b"w 0d 00000000 010203040506", "K8", 14, 26),
    (b"r 40 00000000 1", "K9", 2, 4),
    (b"r 39 00000000 1", "no-answer", 2, 4),
]
# What stands before the key of a table, and the keys that it has.
KEYS = {
    "": "rounds schedule arbiter tries board mailbox",
    "[[board]]\n": "slot level space base size width uat blt rmw supervisory script",
    "[[mailbox]]\n": "am addr slots",
}
# Documents whose last line may repeat a key, and the offset where that key is first.
REPEATED = [
    ("rounds = 1\ntries = 2\nrounds = 3", 0),
    ("rounds = 1\n[[board]]\nslot = 1\nslot = 2", 21),
    ("[[board]]\nslot = 1\n[[board]]\n 'slot' = 2\n'slot' = 3", 30),
    ("[[board]]\nx = 1\n  x = 2", 10),
    ("[[board]]\n[[mailbox]]\nam = 1\nam = 2", 22),
    ("[[mailbox]]\n[[board]]\nslot = 1\nam = 1\nam = 2", 31),
    ("[[board]]\nslot = 1\n[board]", 0),
    ("x = 1\n[ x ]", 0),
    ("[[board]]\nslot = 1\n[x]\nslot = 2", None),
    ("[[board]]\nslot.x = 1\nslot.x = 2", None),
    ("rounds = 1\ntries = 2", None),
    ("rounds", None),
    ("", None),
]
# Documents with the forms of keys, values and scripts that TOML has, each with the number of its findings.
DOCUMENTS = [
    ("", 1),
    ("# no key", 1),
    ("\ufeffrounds = 1_2 # note\r\n\"tries\"=0x10\n'x y' = [1, # ]\n {a = ']'}, '''}''']", 2),
    ("board = [1, {}, {slot = 1, a.b = 2, 'slots' = {c = [3]}, # }\n}, [{slot = 1}],]\nschedule = 7", 10),
    ("schedule = [[1, 2], [3], [[4], {a = 5}], 6, [7, 8, 9]]\nmailbox = [{am = 9}]\nb.oard = 1\nb.c = 2", 5),
    ("[[schedule]]\n[[ 'board' ]] # x\nslot.a = 1\nslot.b = 2\nscript=''''a'''''\n[[\"boar\\u0064\"]]", 8),
    ("[[board]]\n[board . 'slot' . x]\nbase = 1\n[[board.y]]\n[[board.y]]\n[[mailbox]]\nz=1\ny=1\nx=1\n", 10),
    ("[board]\nslot = 1\n[x.board]\nslot = 2\n[mailbox.am]\n[rounds]\n[[tries]]\n[[tries]]", 5),
    ('[[board]]\nscript = "\\x41\\u00e9\\U0001D11E é\\t\\"\\\\\\b\\e\\f\\r\\n\\u000Ab\\n\\nc\\x0a"\n', 6),
    ('[[board]]\nscript = """\r\n\\  \r\n  a\\\n\n \tb\\\\\n"" c""\\n\\\n  """""\nslot = 1', 5),
    ("[[board]]\nscript = '''\n\\n é\r\n\r\nb''\n'''\n[[board]]\nscript = ''\n[[board]]\nscript = 'a\\'", 12),
    ("[[board]]\nslot = 07:32:00\nbase = 1979-05-27 07:32:00Z\nsize = -inf\nwidth = true\nuat = +1.5e3", 5),
]
# The kinds of a value in messages, and the types that `tomllib` has for them.
KINDS = {"a whole number": "int", "a number with a fraction": "float", "true or false": "bool", "a string": "str",
         "an array": "list", "a table": "dict", "a date or a time": "datetime date time"}
# Bytes that stand for another one.
OTHERS = b'0z" \n[]=#,'


def blocks(name: str) -> Iterator[tuple[str, str]]:
    """The lines of `==` in a file of rows, and what stands below each."""
    parts = re.split(r"^==(.*)\n", (CASES / name).read_text(encoding="utf-8"), flags=re.MULTILINE)[1:]
    return zip((head.strip() for head in parts[::2]), parts[1::2])


class Rows:
    """Runs the program on the rows, and reports to `expect` what is not as it must be."""

    def __init__(self, program: object, expect: Callable) -> None:
        self.program, self.expect = program, expect

    def run(self, command: str, *words: str, given: bytes = b"", folder: object = None) -> tuple[int, list[dict]]:
        """The status and the objects that a command prints."""
        ran = subprocess.run([self.program, command, "--json", "--limit", "0", *words], input=given, capture_output=True,
                             check=False, timeout=TIME, cwd=folder)
        self.expect(ran.returncode in (0, 1) and not ran.stderr, f"{given!r}: {command} ends with {ran.returncode} and tells {ran.stderr!r}")
        return ran.returncode, [json.loads(line) for line in ran.stdout.decode().splitlines()]

    def check(self, text: str) -> tuple[int, list[dict], dict]:
        """The status, the findings and the end of a file's check, whose findings have the order of their places."""
        status, (*found, end) = self.run("check", "-", given=text.encode())
        offsets = [one["offset"] for one in found]
        self.expect(offsets == sorted(offsets), f"{text!r} has findings at {offsets}")
        return status, found, end

    def check_each(self, texts: list[bytes]) -> Iterator[tuple[bytes, list[dict]]]:
        """Texts with their findings, many in one run."""
        memory = pathlib.Path("/dev/shm")
        with tempfile.TemporaryDirectory(dir=memory if memory.is_dir() else None) as folder:
            for first in range(0, len(texts), BATCH):
                batch = {str(first + i): text for i, text in enumerate(texts[first : first + BATCH])}
                for name, text in batch.items():
                    pathlib.Path(folder, name).write_bytes(text)
                found = {name: [] for name in batch}
                for one in self.run("check", *batch, folder=folder)[1]:
                    found[one["file"]].append(one)
                for name, text in batch.items():
                    self.expect(found[name] and "errors" in found[name][-1], f"{text!r} has no end")
                    yield text, found[name][:-1]

    def codes(self) -> int:
        """Files with their codes. The first is the refusal of `vme` where the file is refused."""
        rows = [(text, head.split()) for head, text in blocks("findings.rows")]
        for text, wanted in rows:
            status, found, end = self.check(text)
            codes = [one["code"] for one in found]
            self.expect(sorted(codes) == sorted(wanted), f"{text!r} has {codes}, not {wanted}")
            self.expect(end.get("refusal", "").split(" ")[-1] == (wanted[0] if status else ""), f"{text!r} ends as {end}, not {wanted[:1]}")
        for text, refusal, wanted in COUNTS:
            status, found, end = self.check(text)
            codes = [one["code"] for one in found]
            self.expect({code: codes.count(code) for code in codes} == wanted, f"{text[:90]!r} .. has {codes}, not {wanted}")
            self.expect(end["refusal"].split(" ")[-1] == refusal, f"{text[:90]!r} .. ends as {end}")
        return len(rows) + len(COUNTS)

    def places(self) -> int:
        """Files with the places of their findings."""
        rows = list(blocks("places.rows"))
        for head, row in rows:
            places, text = row.split("--\n", 1)
            text = text.replace("\n", "\r\n") if head.endswith("CR LF") else text
            wanted = {(line.partition(" ")[0], line.partition(" ")[2]) for line in places.splitlines()}
            found = self.check(text)[1]
            there = {(f"{one['line']}:{one['column']}", text.encode()[one["offset"] : one["end_offset"]].decode()) for one in found}
            self.expect(there == wanted, f"{head}: findings at {there}, not {wanted}")
        return len(rows)

    def lines(self) -> int:
        """Request lines with the finding of each. A byte that is no character is a column."""
        given = b"\n".join(row[0] for row in LINES)
        found = {one["line"]: one for one in self.run("cycles", "-", given=given)[1][:-1]}
        for number, (line, code, first, end) in enumerate(LINES, 1):
            one = found.pop(number, {"code": "", "column": 1, "offset": 0, "end_offset": 0})
            there = (one["code"], one["column"], one["end_offset"] - one["offset"])
            self.expect(there == (code, first + 1, end - first), f"{line!r} has {there}, not {code} at {first} to {end}")
        self.expect(not found, f"other findings of lines: {found}")
        return len(LINES)

    def keys(self) -> int:
        """Each key is named in the message of a value of another kind; a repeated key with the place where it is first."""
        for header, names in KEYS.items():
            for name in names.split(" "):
                text = f"{header}{name} = 1979-05-27\n"
                told = [(one["message"], text[one["offset"] : one["end_offset"]]) for one in self.check(text)[1]]
                named = [it for it in told if it[0].startswith(f"`{name}` is a date or a time; ") and it[1] == "1979-05-27"]
                self.expect(len(named) == 1, f"{text!r} has {told}")
        for text, first in REPEATED:
            notes = [(note["line"], note["column"]) for one in self.check(text)[1] for note in one.get("notes", [])]
            before = text[:first].split("\n")
            wanted = [] if first is None else [(len(before), len(before[-1]) + 1)]
            self.expect(notes == wanted, f"{text!r} has notes at {notes}, not {wanted}")
        return len(REPEATED)

    def documents(self) -> int:
        """Documents, whole and cut at each byte. The text at a finding, parsed alone, is what the message names."""
        for text, count in DOCUMENTS:
            self.expect(len(self.check(text)[1]) == count, f"{text!r} has not {count} findings")
        texts = [text.encode()[:end] for text, _ in DOCUMENTS for end in range(len(text.encode()) + 1)]
        for text, found in self.check_each(texts):
            self.expect(found or b"board" in text, f"{text!r} has no finding")
            for one in found:
                part = text[one["offset"] : one["end_offset"]]
                before = text[: one["offset"]].decode("utf-8", "replace").split("\n")
                self.expect((len(before), len(before[-1]) + 1) == (one["line"], one["column"]), f"{text!r} has {one}")
                self.expect(one["code"] == "C6" or is_part(part.decode(), one["message"], text.decode()), f"{text!r}: {part} for {one}")
        return len(texts)

    def damaged(self) -> int:
        """Two files with each byte replaced by each of OTHERS: each finding has a cause of its own, and so a place."""
        texts = []
        for status, text in blocks("damaged.rows"):
            self.expect(self.check(text)[0] == int(status), f"{text!r} does not end with {status}")
            data = text.encode()
            texts += [data[:at] + bytes([other]) + data[at + 1 :] for at in range(len(data)) for other in OTHERS]
        for text, found in self.check_each(texts):
            self.expect(all(one["located"] for one in found), f"{text!r} has a finding without a place: {found}")
        return len(texts)


def table_of(text: str) -> dict:
    """The table of a text of TOML; an empty one if it is none. Two escapes of TOML 1.1 are read too."""
    text = re.sub(r"(?<!\\)((?:\\\\)*)\\(x..|e)", lambda it: it[1] + ("\\u001b" if it[2] == "e" else "\\u00" + it[2][1:]), text)
    try:
        return tomllib.loads(text)
    except tomllib.TOMLDecodeError:
        return {}


def value_of(text: str) -> object:
    """The value of a text; None if it is none. A time may end with its minutes, as in TOML 1.1."""
    return table_of(f"v = {text}").get("v", table_of(f"v = {text}:00").get("v"))


def names_in(text: str) -> list[str]:
    """The names of a key, or of a header."""
    names, tables = [], table_of(text.strip("[]") + " = 0")
    while isinstance(tables, dict) and tables:
        (name, tables), = tables.items()
        names.append(name)
    return names


def commands_in(text: str) -> set[str]:
    """The first words of the lines of all scripts of a file."""
    lines = [line for board in table_of(text).get("board", []) for line in board.get("script", "").split("\n")]
    return {line.split()[0] for line in lines if line.split()}


def is_part(part: str, message: str, text: str) -> bool:
    """Whether the part of a text at a finding is what its message names."""
    if found := re.match(r"unknown key `(.*)` of", message):
        names, name = names_in(part), re.sub(r"\\x(..)", lambda it: chr(int(it[1], 16)), found[1])
        return name in names and (part[0] == "[" or len(names) == 1)
    if found := re.match(r"`(\w+)` is (.*); it takes", message):
        value, kinds = value_of(part), KINDS.get(found[2], "int").split()
        is_header = bool({"list", "dict"} & set(kinds)) and found[1] in names_in(part)
        return is_header or type(value).__name__ in kinds and (found[2] in KINDS or str(value) == found[2])
    if found := re.match(r"element (\d+) of `(\w+)` is (?:not a pair|.*, not a table)", message):
        items, is_header = table_of(text).get(found[2], []), part[0] == "[" and found[2] in names_in(part)
        return is_header or value_of(part) == (items[int(found[1]) - 1] if items else value_of(part)) is not None
    if re.match(r"(board|mailbox) without the required key", message):
        return part == "{" or part.startswith("[[") and part.endswith("]]")
    if found := re.match(r"(?:slot (\d+); a backplane|base (0x[0-9a-f]+) is not a multiple)", message):
        return value_of(part) == int(found[1] or found[2], 0)
    if "is not a command" in message:
        strings = [value_of(quotes + part + quotes) for quotes in ('"""', "\'\'\'", '"', "'")]
        return bool(commands_in(text) & set(strings))
    return message == "no board" and not part
