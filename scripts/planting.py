"""Planting edits in a copy of the repository, and building its programs without proofs."""

import contextlib
import os
import shutil
import subprocess
import tempfile
from pathlib import Path
from typing import Iterator

ROOT = Path(__file__).resolve().parent.parent
NOT_COPIED = {".git", "__pycache__", "dist", "target"}
VARIABLES = {"vme": "VME", "bendrika": "BENDRIKA", "libvme.a": "ARCHIVE"}


def left_out(folder: str, names: list[str]) -> list[str]:
    """The names of a folder that no copy has: of what `rt` kept, only proved libraries are copied."""
    if Path(folder).name == "out":
        return [it for it in names if it != "rlib"]
    return [it for it in names if it in NOT_COPIED]


@contextlib.contextmanager
def repository_copy() -> Iterator[Path]:
    """A copy of the repository, while it is needed."""
    with tempfile.TemporaryDirectory() as name:
        folder = Path(name) / "repository"
        shutil.copytree(ROOT, folder, ignore=left_out, symlinks=True)
        (folder / ".git").mkdir()
        yield folder


@contextlib.contextmanager
def changed(texts: dict[Path, str]) -> Iterator[None]:
    """Files with other texts, for a while."""
    before = {file: file.read_text(encoding="utf-8") for file in texts}
    try:
        for file, text in texts.items():
            file.write_text(text, encoding="utf-8")
        yield
    finally:
        for file, text in before.items():
            file.write_text(text, encoding="utf-8")


def build(folder: Path, program: str) -> Path:
    """Builds a program of a copy without proofs. The library for C has no such build, so it is proved."""
    if program == "libvme.a":
        subprocess.run([folder / "scripts/archive", "vme_ffi"], check=True)
        return folder / "crates/vme_ffi/out/libvme_ffi.a"
    built = folder / program
    built.unlink(missing_ok=True)
    subprocess.run([folder / "scripts/build_unproved", built, program], check=True)
    return built


def environment(program: str, built: Path) -> dict[str, str]:
    """The environment of a check: this program, and the others as they are."""
    paths = {}
    for name, variable in VARIABLES.items():
        words = [ROOT / "scripts/program", name]
        paths[variable] = str(built) if name == program else subprocess.check_output(words, text=True).strip()
    return {**os.environ, **paths, "UNPROVED": "1"}


def failure(words: list[str], folder: Path, variables: dict[str, str]) -> str | None:
    """What a command wrote, if it failed."""
    ran = subprocess.run(words, cwd=folder, env=variables, capture_output=True, text=True, check=False)
    return ran.stdout + ran.stderr if ran.returncode else None
