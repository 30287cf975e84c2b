"""The programs of docs/LIBRARY.md."""

import re
from typing import NamedTuple

from harness import ROOT

SHOWN = re.compile(r"^```(c|cpp|python)\n(.*?)^```$.*?^```\n(.*?)^```$", re.MULTILINE | re.DOTALL)
OF_MACHINE = re.compile(r"vme_wait\.h|vme_machine|\bMachine\b")


class Shown(NamedTuple):
    """A program of the page: its language, its text, and what it prints, which is the block after it."""

    language: str
    text: str
    printed: str


def shown(*, of_machine: bool) -> list[Shown]:
    """The programs that use libvme_machine, or those that do not."""
    page = (ROOT / "docs/LIBRARY.md").read_text(encoding="utf-8")
    found = [Shown(*it) for it in SHOWN.findall(page)]
    return [it for it in found if bool(OF_MACHINE.search(it.text)) == of_machine]
