"""Makes `pyvme` of this repository importable, over the library of lib/, for the programs of this folder."""

import importlib
import os
import subprocess
import sys
from pathlib import Path

ROOT = Path(__file__).resolve().parent.parent


def find() -> None:
    """Imports pyvme, from the repository unless it is installed. Without LIBVME the library is that of lib/build, which `make` builds
    or renews; where there is no lib/Makefile it is the one that the loader finds."""
    package = ROOT / "examples/library/python"
    if package.is_dir():
        sys.path.append(str(package))
        sys.dont_write_bytecode = True
    if "LIBVME" not in os.environ and (ROOT / "lib/Makefile").exists():
        build()
    try:
        importlib.import_module("pyvme")
    except (ImportError, OSError) as fault:
        sys.exit(f"pyvme cannot be used: {fault}\nhelp: install libvme, or let LIBVME name libvme.so")


def build() -> None:
    """Builds lib/build/libvme.so, or renews it."""
    library = ROOT / "lib/build/libvme.so"
    try:
        made = subprocess.run(["make", "-s", "-C", ROOT / "lib"], stdout=subprocess.PIPE, stderr=subprocess.STDOUT, text=True, check=False)
        said = made.stdout.strip()
    except OSError as fault:
        said = str(fault)
    if not library.exists():
        sys.exit(f"libvme is not built: {said}\nhelp: install make and a C compiler, or let LIBVME name libvme.so")
    os.environ["LIBVME"] = str(library)
