#!/usr/bin/env python3
"""Prints the SHA-256 of the sources of a program or a library, and of each crate that it stands on.

usage: sources.py CRATE [ROOT]

The sum is over the lines of crates.txt and the files of src/, specs/ and proofs/ of the crate and of those below it: for
each crate by name its line, then each file by path, as the length of its path and of its text, and both."""

import hashlib
import pathlib
import subprocess
import sys
from typing import Iterator

# The files of dist/ that may be built.
BUILT = ["vme", "bendrika", "libvme.a", "libvme_machine.a"]


def files(root: pathlib.Path) -> list[str]:
    """The files of dist/ that are built: those whose crate the repository has."""
    return [name for name in BUILT if built(root, name).parent.parent.is_dir()]


def crate_of(root: pathlib.Path, name: str) -> str:
    """The crate of a file of dist/."""
    return built(root, name).parent.parent.name


def built(root: pathlib.Path, name: str) -> pathlib.Path:
    """The file that the gate builds for a file of dist/."""
    found = subprocess.run([root / "scripts/program", "--built", name], capture_output=True, text=True, check=True)
    return pathlib.Path(found.stdout.strip())


def crates_below(root: pathlib.Path, program: str) -> dict[str, str]:
    """The lines of crates.txt of a program and of the crates that it stands on, by name."""
    lines = {}
    for line in (root / "crates.txt").read_text(encoding="utf-8").splitlines():
        name = line.partition("#")[0].partition(":")[0].split()[:1]
        if name:
            lines[name[0]] = line.partition("#")[0].strip()
    needed, left = set(), [program]
    while left:
        name = left.pop()
        if name in lines and name not in needed:
            needed.add(name)
            left += lines[name].partition(":")[2].split()
    return {name: lines[name] for name in sorted(needed)}


def sources_of(root: pathlib.Path, program: str) -> Iterator[tuple[str, pathlib.Path]]:
    """Each file of the program's sources, in order, by its path below the root."""
    for name in crates_below(root, program):
        for part in ("src", "specs", "proofs"):
            for path in sorted((root / "crates" / name / part).rglob("*")):
                if path.is_file():
                    yield path.relative_to(root).as_posix(), path


def sum_of(root: pathlib.Path, program: str) -> str:
    """The sum of the sources of a program."""
    total = hashlib.sha256()
    for name, line in crates_below(root, program).items():
        total.update(f"{line}\n".encode())
    for name, path in sources_of(root, program):
        text = path.read_bytes()
        total.update(f"{len(name)} {len(text)} {name}\n".encode())
        total.update(text)
    return total.hexdigest()


if __name__ == "__main__":
    if len(sys.argv) not in (2, 3):
        sys.exit("usage: sources.py CRATE [ROOT]")
    here = pathlib.Path(__file__).resolve().parent.parent
    print(sum_of(pathlib.Path(sys.argv[2]) if len(sys.argv) == 3 else here, sys.argv[1]))
