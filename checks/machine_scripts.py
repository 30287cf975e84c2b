"""The scripts of configuration files, interpreted by a program in C over the machine, checks/machine_cases/scripts.c: each outcome is one
that `bendrika outcomes` lists. Interpreters that err are found."""

import re
import sys
import tomllib
from collections.abc import Callable, Iterator
from concurrent.futures import ThreadPoolExecutor
from pathlib import Path
from typing import NamedTuple

from harness import ROOT, expect, fail, output, run

CASES = ROOT / "checks/machine_cases"
# The most states of a file whose outcomes are listed.
STATES = 10_000
# A file with each word and each kind of reply, which has one outcome.
WORDS = CASES / "script_words.toml"
# Interpreters that err: texts of script_lines.h, and what is in place of them.
WRONG = {
    "a read-modify-write is a read and a write": (
        'reply_read(own, finish(own, vme_processor_start_modify(&own->p, &request, &f)), "old");',
        'vme_datum datum = { 0, { 0 } }; unsigned sum = 0; finish(own, vme_processor_start_read(&own->p, &request)); '
        'reply_read(own, VME_OK, "old"); vme_read_bytes(&own->p, &datum); '
        'for (size_t i = datum.n; i-- > 0; sum >>= 8) datum.bytes[i] = (uint8_t)(sum += datum.bytes[i] + f.operand.bytes[i]); '
        'finish(own, vme_processor_start_write(&own->p, &request, datum.bytes, datum.n));'),
    "a lock is taken that another slot has": (
        'reply(own, attempt(own, start_lock, word), "taken", NULL, 0);',
        'attempt(own, start_lock, word); reply(own, VME_OK, "taken", NULL, 0);'),
    "a wait ends before its bytes are there": ("found.n == size && memcmp", "found.n == size || memcmp"),
    "the datum of a bus error counts": ("own->events < 2 ? 0 : own->events - 2", "own->events < 2 ? 0 : own->events - 1"),
}


class Listed(NamedTuple):
    """A file, what scripts.c reads beside it, and its outcomes."""

    path: Path
    lines: Path
    outcomes: frozenset[str]


def lines_of(path: Path) -> str:
    """What a file says that C does not read from TOML."""
    file = tomllib.loads(path.read_text(encoding="utf-8"))
    found = [f"tries {file.get('tries', 1000)}"]
    found += [f"box {it['am']:02x} {it['addr']:08x} {it['slots']}" for it in file.get("mailbox", [])]
    for board in file["board"]:
        numbered = enumerate(board.get("script", "").replace("\r\n", "\n").split("\n"), 1)
        found += [f"line {board['slot']} {number} {line.strip(' ')}" for number, line in numbered if line.strip(" ") and line[0] != "#"]
    return "".join(f"{it}\n" for it in found)


def outcomes_of(bendrika: Path, path: Path) -> frozenset[str] | None:
    """The outcomes of a file, without their schedules, or None if it has too many states."""
    ended = run(bendrika, "outcomes", "--limit", str(STATES), path)
    if ended.status == 4:
        return None
    if ended.status != 0:
        fail(f"outcomes of {path.name}: {ended.told}")
    *parts, _ = ended.written.split("\n\n")
    return frozenset(it.split("\n", 1)[1] for it in parts)


def with_few_tries(path: Path, folder: Path) -> Iterator[Path]:
    """A copy of a file that tries so often that no run sees the last attempt fail: with two tries."""
    text = path.read_text(encoding="utf-8")
    if tomllib.loads(text).get("tries", 1000) > 10 and re.search(r"^(await|lock|put|take) ", text, re.MULTILINE):
        other = folder / f"{path.parent.name}_{path.stem}_2.toml"
        other.write_text("tries = 2\n" + re.sub(r"^tries = .*\n", "", text, flags=re.MULTILINE), encoding="utf-8")
        yield other


class Scripts:
    """The files whose outcomes are listed, and what runs of their scripts gave."""

    def __init__(self, bendrika: Path, folder: Path) -> None:
        folder.mkdir()
        self.files: list[Listed] = []
        self.left: list[str] = []
        self.runs = 0
        self.seen: set[tuple[Path, str]] = set()
        examples = [*sorted(ROOT.glob("examples/*.toml")), *sorted(ROOT.glob("examples/litmus/*.toml"))]
        for path in [WORDS, *examples, *(it for path in examples for it in with_few_tries(path, folder))]:
            outcomes = outcomes_of(bendrika, path)
            if outcomes is None:
                self.left += [path.name] * (path in examples)
                continue
            lines = folder / f"{len(self.files)}.lines"
            lines.write_text(lines_of(path), encoding="ascii")
            self.files.append(Listed(path, lines, outcomes))
        known = set(re.findall(r"^  (\w+) ", output(bendrika, "lines"), re.MULTILINE))
        used = {it.split()[3] for it in self.files[0].lines.read_text(encoding="ascii").splitlines() if it.startswith("line")}
        expect(known == used, f"{WORDS.name} has not each word: {sorted(known ^ used)}")

    def found(self, program: Path, runs: int, seed: int = 0) -> Iterator[tuple[Listed, str]]:
        """Runs each file so often. Its outcomes, each once."""
        def run_file(it: Listed) -> list[str]:
            return output(program, it.path, it.lines, str(seed), str(runs)).split("\n\n")

        with ThreadPoolExecutor(8) as pool:
            for it, (*found, rest) in zip(self.files, pool.map(run_file, self.files)):
                expect(len(found) == runs and not rest, f"{it.path.name}: {len(found)} outcomes of {runs} runs")
                yield from ((it, outcome) for outcome in sorted(set(found)))

    def check(self, program: Path, runs: int) -> None:
        """Each outcome is one of the list of its file."""
        for it, outcome in self.found(program, runs):
            expect(outcome in it.outcomes, f"{program.name}, {it.path.name}: no outcome that `bendrika outcomes` lists is\n{outcome}")
            self.seen.add((it.path, outcome))
        self.runs += runs * len(self.files)

    def check_wrong(self, build: Callable[[Path], Path], folder: Path) -> None:
        """Interpreters that err are found by the scripts of the examples."""
        text = (CASES / "script_lines.h").read_text(encoding="utf-8")
        main = (CASES / "scripts.c").read_text(encoding="utf-8")
        for place, (name, (old, new)) in enumerate(WRONG.items()):
            expect(text.count(old) == 1, f"script_lines.h has not once: {old}")
            source = folder / f"wrong_{place}.c"
            source.write_text(main.replace('#include "script_lines.h"\n', text.replace(old, new)), encoding="utf-8")
            program = build(source)
            found = (pair for seed in range(0, 1000, 20) for pair in self.found(program, 20, seed))
            expect(any(it.path != WORDS and outcome not in it.outcomes for it, outcome in found), f"it is not found that {name}")

    def summary(self) -> str:
        """What was run and found."""
        listed = sum(len(it.outcomes) for it in self.files)
        return (f"the scripts of {len(self.files)} files with {len(self.seen)} of their {listed} outcomes in {self.runs} runs"
                + "".join(f", but not {it}, which has more than {STATES} states" for it in self.left))


if __name__ == "__main__":
    sys.exit("machine_scripts: checks/machine runs it")
