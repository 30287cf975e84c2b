"""The functions with a contract in the sources of the crates, read by their lines."""

import re
from pathlib import Path
from typing import Iterator, NamedTuple

ROOT = Path(__file__).resolve().parent.parent
FUNCTION = re.compile(r"( *)(pub )?(?:pub\(crate\) )?(?:const )?(?:extern \"C\" )?fn (\w+)")
CLAUSE = re.compile(r"^ *ensures(?: (\w+))? \{", re.MULTILINE)
# A body without a statement after clauses, whatever stands before it: one without clauses stands in the line of its function.
EMPTY = re.compile(r"^ *\{ *\}$", re.MULTILINE)


class Function(NamedTuple):
    """A function with clauses: its name, whether it is public, its signature with the clauses, their names, its comment, and
    whether its body is empty, which makes it a law."""

    name: str
    is_public: bool
    contract: str
    clauses: list[str]
    comment: str
    is_law: bool


def sources(crate: str = "*") -> list[Path]:
    """The source files of a crate, or of all crates."""
    return sorted(ROOT.glob(f"crates/{crate}/src/**/*.rt"))


def comment_above(lines: list[str], at: int) -> str:
    """The comment of the item that begins at a line, as one text: its first paragraph."""
    found: list[str] = []
    while at > 0 and re.match(r" *(///|#\[)", lines[at - 1]):
        at -= 1
        found.insert(0, lines[at].strip())
    texts = [it[3:].strip() for it in found if it.startswith("///")]
    return " ".join(texts[: texts.index("")] if "" in texts else texts)


def body_at(lines: list[str], at: int, indent: str) -> int | None:
    """The line of the body of the function that begins at a line, if it has a contract; without one the signature ends with the
    line that opens the body, or with a semicolon."""
    has_clauses = False
    for place in range(at, len(lines)):
        line = lines[place]
        if has_clauses and line in (f"{indent}{{", f"{indent}{{}}"):
            return place
        has_clauses = has_clauses or re.match(r" *(requires|ensures)\b", line) is not None
        if not has_clauses and line.endswith(("{", ";", "}")):
            return None
    return None


def functions(path: Path) -> Iterator[Function]:
    """The functions of a file with a contract."""
    lines = path.read_text(encoding="utf-8").split("\n")
    for at, line in enumerate(lines):
        found = FUNCTION.match(line)
        end = body_at(lines, at, found[1]) if found else None
        contract = "\n".join(lines[at:end])
        if end is not None and CLAUSE.search(contract):
            yield Function(found[3], bool(found[2]), contract, CLAUSE.findall(contract), comment_above(lines, at), lines[end].endswith("{}"))


def empty_bodies() -> int:
    """The lines of all sources that are an empty body, however the functions before them look."""
    return sum(len(EMPTY.findall(path.read_text(encoding="utf-8"))) for path in sources())
