"""Configuration files that machines are opened with, and what `vme` says of them."""

import random
import tomllib
from pathlib import Path
from typing import Any, Iterator

from harness import ROOT, path_of, run

CHECK_CASES = ROOT / "checks/check_cases"
# Files whose refusals the files above do not have.
REFUSED = {
    "past": "[[board]]\nslot = 1\nspace = 'a16'\nbase = 0xfff0\nsize = 32\n",
    "aligned": "[[board]]\nslot = 1\nbase = 2\nsize = 16\n",
    "many": "".join(f"[[board]]\nslot = {slot}\nbase = {slot * 16}\nsize = 4\n" for slot in range(1, 23)),
    "size": "[[board]]\nslot = 1\nbase = 0\nsize = 18\n",
}


def board_numbers(board: dict[str, Any]) -> str:
    """The numbers of a board of a lawful file, with the defaults of docs/GUIDE.md."""
    width = board.get("width", 32)
    switches = board.get("supervisory", False), width, board.get("uat", width == 32), board.get("blt", True), board.get("rmw", True)
    head = board["slot"], board.get("level", 3), int(board.get("space", "a32")[1:]), board["base"], board["size"]
    return " ".join(str(int(it)) for it in (*head, *switches))


def wanted_of(path: Path) -> str:
    """What a file opens, or the refusal that `vme` prints."""
    ended = run(path_of("vme"), "step", path)
    if ended.status == 2:
        return ended.told.strip().removeprefix("vme: ")
    file = tomllib.loads(path.read_text(encoding="utf-8"))
    return "; ".join([f"{file.get('arbiter', 'priority')} 0", *map(board_numbers, file["board"])])


def damaged(path: Path, folder: Path, copies: int) -> Iterator[Path]:
    """A file, and copies of it of which one byte is another one, or is gone."""
    text = path.read_bytes()
    yield path
    chosen = random.Random(path.name)
    for k in range(copies):
        at = chosen.randrange(len(text) + 1)
        other = folder / f"{path.stem}-{k}.toml"
        other.write_bytes(text[:at] + (bytes([chosen.randrange(256)]) if k % 2 else b"") + text[at + 1 :])
        yield other


def files_to_load(folder: Path, copies: int) -> list[Path]:
    """The examples, the files of checks/check_cases and those of `REFUSED`, each with so many damaged copies in a folder."""
    for name, text in REFUSED.items():
        (folder / f"{name}.toml").write_text(text, encoding="ascii")
    named = sorted([*ROOT.glob("examples/**/*.toml"), *CHECK_CASES.glob("*.toml"), *folder.glob("*.toml")])
    return [it for path in named for it in damaged(path, folder, copies)]
