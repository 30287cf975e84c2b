"""Runs of a program in which an allocation fails, or a device fails or moves few bytes.

The library checks/refuse.c, which is loaded before the C library, makes the calls fail. Without a C compiler nothing is run,
nor of a program in node, nor of one that is built without proofs (UNPROVED, as scripts/planted sets it), which has an allocator
of its own."""

import os
import pathlib
import shutil
import subprocess
import tempfile
from concurrent.futures import ThreadPoolExecutor
from typing import Callable, NamedTuple

from harness import ROOT, build_c, expect, in_node

SOURCE = ROOT / "checks/refuse.c"
TIME = 120


class Ended(NamedTuple):
    """How a run ended and what it wrote."""

    status: int
    written: bytes
    told: bytes


class Failing:
    """A program whose calls fail. `count` is how many refused growths were met."""

    def __init__(self, program: object, folder: object) -> None:
        self.program, self.folder, self.library = program, pathlib.Path(folder), None
        self.pool, self.count = ThreadPoolExecutor(), 0
        if shutil.which("cc") and not in_node(program) and "UNPROVED" not in os.environ:
            self.library = self.folder / "refuse.so"
            build_c(SOURCE, self.library, "-shared", "-fPIC")

    def plain(self, words: list, given: bytes) -> Ended:
        """A run in which nothing fails."""
        ran = subprocess.run([self.program, *words], input=given, capture_output=True, check=False, timeout=TIME)
        return Ended(ran.returncode, ran.stdout, ran.stderr)

    def run(self, words: list, given: bytes = b"", **limits: int) -> Ended:
        """A run with the limits that checks/refuse.c names, in any case: read, write, at_once."""
        names = {name.upper(): str(number) for name, number in limits.items()}
        environment = {**os.environ, **names, "LD_PRELOAD": str(self.library)}
        ran = subprocess.run([self.program, *words], input=given, capture_output=True, check=False, timeout=TIME,
                             env=environment, pass_fds=[limits["refuse_on"]] if "refuse_on" in limits else [])
        return Ended(ran.returncode, ran.stdout, ran.stderr)

    def refused(self, words: list, given: bytes, number: int) -> tuple[Ended, bool]:
        """A run with this growth of memory refused, and whether the run came to it."""
        with tempfile.TemporaryFile(dir=self.folder) as met:
            ended = self.run(words, given, refuse=number, refuse_on=met.fileno())
            return ended, os.fstat(met.fileno()).st_size > 0

    def growths(self, words: list, given: bytes = b"") -> int:
        """How many growths of memory a run has, by bisection; 0 where none can be refused."""
        if self.library is None:
            return 0
        met, not_met = 0, 1
        while self.refused(words, given, not_met)[1]:
            met, not_met = not_met, 2 * not_met
        while not_met - met > 1:
            middle = (met + not_met) // 2
            if self.refused(words, given, middle)[1]:
                met = middle
            else:
                not_met = middle
        return met

    def each_growth(self, expect: Callable, words: list, given: bytes = b"", told: tuple = (b"bendrika: memory\n",),
                    begin: bytes | None = None) -> int:
        """With each growth of memory refused in turn a run gives the whole answer, or a prefix of it and one of the texts `told`.
        Of an answer that differs from run to run `begin` is what does not. Returns how many growths were refused."""
        if self.library is None:
            return 0
        whole, count, first, is_over = self.plain(words, given), self.count, 1, False
        expect(begin is None or whole.written.startswith(begin), f"{words}: {whole}")

        def is_right(ended: Ended, is_met: bool) -> bool:
            least = whole.written if begin is None else begin
            is_prefix = least.startswith(ended.written) or begin is not None and ended.written.startswith(begin)
            is_whole = ended == whole or begin is not None and ended == (whole.status, ended.written, b"") and is_prefix
            return is_whole or is_met and ended.status == 3 and ended.told in told and is_prefix

        while not is_over:
            numbers = range(first, first + 64)
            for number, (ended, is_met) in zip(numbers, self.pool.map(lambda it: self.refused(words, given, it), numbers)):
                expect(is_right(ended, is_met), f"{words} where growth {number} is refused: {ended}")
                self.count += is_met
                is_over = is_over or not is_met
            first += 64
        expect(self.count > count, f"{words}: no growth was refused")
        return self.count - count

    def each_pass(self, expect: Callable, words: list) -> int:
        """With each growth of memory refused in turn a run ends with status 0. Returns how many growths were refused."""
        number, (ended, is_met) = 1, self.refused(words, b"", 1)
        expect(is_met, f"{words}: no growth was refused")
        while is_met:
            expect(ended.status == 0, f"{words} where growth {number} is refused: {ended}")
            number += 1
            ended, is_met = self.refused(words, b"", number)
        expect(ended.status == 0, f"{words} where no growth is refused: {ended}")
        return number - 1

    def each_capacity(self, expect: Callable, words: list, given: bytes, capacities: list[int]) -> None:
        """An output that takes so many bytes, seven a call, and then fails, has just these bytes; one that does not has all."""
        if self.library is None:
            return
        whole = self.plain(words, given)
        expect(self.run(words, given, at_once=7) == whole and not whole.told, f"{words} by seven bytes a call: {whole}")
        for capacity in capacities:
            ended = self.run(words, given, at_once=7, write=capacity)
            wanted = Ended(3, whole.written[:capacity], b"bendrika: write\n")
            expect(capacity < len(whole.written) and ended == wanted, f"{words} with room for {capacity} bytes: {ended}")

    def each_input(self, expect: Callable, words: list, given: bytes, written: bytes = b"") -> None:
        """An input of one byte a call changes nothing; one that fails is reported, and only `written` is written."""
        if self.library is None:
            return
        expect(self.run(words, given, at_once=1) == self.plain(words, given), f"{words} by one byte a call")
        wanted = Ended(3, written, b"bendrika: <stdin>: Input/output error (os error 5)\n")
        for count in (0, 1, 20, len(given)):
            ended = self.run(words, given, read=count)
            expect(ended == wanted, f"{words} with an input that fails after {count} bytes: {ended}")


def each_failure(program: object, words: list, given: bytes, capacities: list[int]) -> None:
    """Refused memory, and an input and an output that fail, with a command whose file is standard input."""
    with tempfile.TemporaryDirectory() as folder:
        failing = Failing(program, folder)
        failing.each_growth(expect, words, given)
        failing.each_input(expect, words, given)
        failing.each_capacity(expect, words, given, capacities)
