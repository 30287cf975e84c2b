"""Edits of sources, as must-fail/, reference/wrong_bodies and reference/planted have them.

A file of an edit has lines `file: PATH`, `old: TEXT` and `new: TEXT`, some of them once more for a further change, and comments.
Each old text stands once in its file, as the changes before it leave that."""

from pathlib import Path
from typing import Iterator, NamedTuple


class Change(NamedTuple):
    """A text in a file, and what takes its place."""

    file: str
    old: str
    new: str


class Edit(NamedTuple):
    """The changes of an edit, and its other fields by their names."""

    changes: list[Change]
    fields: dict[str, str]


def read_edit(path: Path) -> Edit:
    """Reads an edit."""
    changes, fields = [], {}
    for line in path.read_text(encoding="utf-8").splitlines():
        word, _, text = line.partition(": ")
        if line.startswith("#"):
            continue
        fields[word] = text
        if word == "new":
            changes.append(Change(fields["file"], fields["old"], text))
    return Edit(changes, {word: text for word, text in fields.items() if word not in Change._fields})


def edited(edit: Edit, root: Path) -> dict[Path, str]:
    """The files below a folder as the edit leaves them. Raises ValueError if a text is not once in its file."""
    texts: dict[Path, str] = {}
    for file, old, new in edit.changes:
        path = root / file
        text = texts[path] if path in texts else path.read_text(encoding="utf-8") if path.exists() else ""
        if text.count(old) != 1 or old == new:
            raise ValueError(f"`{old.strip()}` is {text.count(old)} times in {file}")
        texts[path] = text.replace(old, new)
    return texts


def faults(paths: list[Path], root_of) -> Iterator[str]:
    """What keeps edits from being made. `root_of` gives the folder that the files of an edit are below."""
    for path in paths:
        try:
            if not edited(read_edit(path), root_of(path)):
                yield f"{path.name} changes nothing"
        except ValueError as fault:
            yield f"{path.parent.name}/{path.name}: {fault}"
