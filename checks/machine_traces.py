"""The bus logs of libvme_trace, judged by `bendrika judge`: those of the examples and cases, those of machines that err, and logs in
which an error is planted."""

import os
import re
import sys
from collections.abc import Iterator
from pathlib import Path
from typing import Any

from harness import ROOT, expect, output, run

LINE = re.compile(r"(?P<head>\d+ n=\d+ am=\w\w a=\w+ .*write=)(?P<write>[01]) data=(?P<data>\S+) (?P<answer>dtack|berr)(?P<rest>.*)")
# Machines that err: texts of checks/machine_double.c, and what is in place of them.
WRONG = {
    "a write by the local port is lost at times": (
        "uint8_t result = vme_local_write(board->bytes, board->size, at, datum);",
        "static unsigned k; uint8_t result = ++k % 50 ? vme_local_write(board->bytes, board->size, at, datum) : VME_OK;"),
    "a read by the local port has an old byte": (
        "uint8_t result = vme_local_read(board->bytes, board->size, at, n, out);",
        "static uint8_t old; uint8_t result = vme_local_read(board->bytes, board->size, at, n, out); "
        "if (result == VME_OK) { uint8_t now = out->bytes[n - 1]; out->bytes[n - 1] = old; old = now; }"),
    "a read-modify-write adds twice": (
        "? vme_slave_modify(board->bytes, board->size, cls, found->offset, request->n, &request->f, &datum)",
        "? vme_slave_modify(board->bytes, board->size, cls, found->offset, request->n, &request->f, &datum) + "
        "0 * vme_slave_modify(board->bytes, board->size, cls, found->offset, request->n, &request->f, &(vme_datum){ 0, { 0 } })"),
    "a datum has a bus error at times": (
        "    return result;\n}\n\nstatic uint8_t move(",
        "    static unsigned k;\n    return ++k % 20 ? result : VME_BERR;\n}\n\nstatic uint8_t move("),
    "a write goes to the next word": (
        "result = vme_slave_write(board->bytes, board->size, cls, is_block(request), found->offset + moved, &datum);",
        "result = vme_slave_write(board->bytes, board->size, cls, is_block(request), (found->offset ^ 4) + moved, &datum);"),
}


class Traces:
    """The logs of a folder, judged by a program."""

    def __init__(self, bendrika: Path, folder: Path) -> None:
        self.bendrika, self.folder = bendrika, folder
        folder.mkdir()
        self.logs = self.lines = 0

    def how(self, **more: str) -> dict[str, Any]:
        """How a program runs that is traced."""
        return {"env": {**os.environ, "VME_TRACE": str(self.folder / "run.log"), **more}}

    def found(self) -> list[Path]:
        """The logs, and the order in which their machines were opened."""
        paths = [it for it in self.folder.glob("run.log*") if it.suffix != ".toml"]
        return sorted(paths, key=lambda it: (len(it.name), it.name))

    def judge(self, path: Path, text: str | None = None) -> int | None:
        """The status of the verdict on a log, or on another text over its boards."""
        given = path.read_text(encoding="ascii") if text is None else text
        ended = run(self.bendrika, "judge", "--zero", f"{path}.toml", "-", given=given)
        self.told = ended.written + ended.told
        return ended.status

    def check(self, what: str) -> None:
        """Each log that a run has left is legal, and shows each datum. The logs are removed."""
        paths = self.found()
        expect(paths, f"{what}: no log")
        for path in paths:
            text = path.read_text(encoding="ascii")
            expect("#" not in text, f"{what}: {path.name} has a datum without an end")
            if text:
                expect(self.judge(path) == 0, f"{what}: {path.name}: {self.told}")
                self.logs, self.lines = self.logs + 1, self.lines + len(text.splitlines())
        self.clear()

    def clear(self) -> None:
        for path in self.folder.iterdir():
            path.unlink()


def errors(text: str) -> Iterator[tuple[str, str, int]]:
    """Logs with one error each: its name, the log, and the status of the verdict."""
    lines = text.splitlines()
    matched = [LINE.fullmatch(line.rstrip()) for line in lines]
    for i, it in enumerate(matched):
        if not it or it["answer"] != "dtack":
            continue
        def changed(new: str) -> str:
            return "\n".join([*lines[:i], new, *lines[i + 1 :], ""])
        digit = re.search(r"[0-9a-f]", it["data"])
        if it["write"] == "1" and digit:
            other = it["data"].replace(digit[0], format(int(digit[0], 16) ^ 8, "x"), 1)
            yield "another byte", changed(f"{it['head']}1 data={other} dtack{it['rest']}"), 1
        yield "a bus error", changed(f"{it['head']}{it['write']} data={it['data']} berr{it['rest']}"), 1
        yield "half a line", changed(lines[i][: len(it["head"])]), 2
    for i, j in pairs(lines, matched):
        read, rest = lines[j], [*lines[i + 1 : j], *lines[j + 1 :]]
        yield "a write and a read in the other order", "\n".join([*lines[:i], read, lines[i], *rest, ""]), 1
        yield "a write that is lost", "\n".join([*lines[:i], *lines[i + 1 :], ""]), 1


def pairs(lines: list[str], matched: list[re.Match[str] | None]) -> Iterator[tuple[int, int]]:
    """The lines of a write and of the next access to its place, which is a read, if the bytes were not there before."""
    place = [it and re.search(r" (am=\w+ a=\w+ ds1=. ds0=. a01=. lword=.) ", line)[1] for it, line in zip(matched, lines)]
    for i, it in enumerate(matched):
        if not it or it["write"] == "1" or any(place[k] == place[i] and matched[k]["data"] == it["data"] for k in range(i) if matched[k]):
            continue
        j = next((k for k in range(i + 1, len(lines)) if place[k] == place[i]), None)
        if j and matched[j]["write"] == "1" and set(it["data"]) - {"0", "-"}:
            yield i, j


def check_planted(traces: Traces, path: Path, most: int) -> dict[str, int]:
    """Errors in a log are found. Returns how many of each kind."""
    count: dict[str, int] = {}
    for name, text, status in errors(path.read_text(encoding="ascii")):
        if count.get(name, 0) < most:
            count[name] = count.get(name, 0) + 1
            expect(traces.judge(path, text) == status, f"{name} in a log is not found: {traces.told}")
    return count


def build_wrong(folder: Path, libvme: Path) -> Iterator[tuple[str, Path]]:
    """The archives of libvme_trace over machines that err."""
    text = (ROOT / "checks/machine_double.c").read_text(encoding="utf-8")
    for place, (name, (old, new)) in enumerate(WRONG.items()):
        expect(text.count(old) == 1, f"checks/machine_double.c has not once: {old}")
        source, made = folder / f"wrong_{place}.c", folder / f"wrong_{place}.o"
        source.write_text(text.replace(old, new), encoding="utf-8")
        output("gcc", "-std=c11", "-O2", "-fPIC", f"-I{ROOT}/include", f"-I{ROOT}/checks", "-c", source, "-o", made)
        yield name, traced_archive(folder / f"wrong_{place}", made, libvme)


def traced_archive(folder: Path, machine: Path, libvme: Path) -> Path:
    """Builds the libraries of lib/Makefile over a machine, an object or an archive. Returns the archive of libvme_trace."""
    folder.mkdir()
    if machine.suffix == ".o":
        output("ar", "rcD", folder / "machine.a", machine)
        machine = folder / "machine.a"
    output("make", "-s", "-C", ROOT / "lib", f"MACHINE={machine}", f"ARCHIVE={libvme}", f"OUT={folder}", folder / "libvme_trace.a")
    return folder / "libvme_trace.a"


def shared_trace(folder: Path, machine: Path, libvme: Path) -> None:
    """Builds the shared libraries over an archive, where traced_archive has built."""
    words = [folder / f"lib{name}.so" for name in ("vme_machine", "vme_trace")]
    output("make", "-s", "-C", ROOT / "lib", f"MACHINE={machine}", f"ARCHIVE={libvme}", f"OUT={folder}", *words)


if __name__ == "__main__":
    sys.exit("machine_traces: checks/machine runs it")
