"""The workloads of bench/all: the words of `vme` or `bendrika` and of each peer, and what they read."""

import os
import re
import subprocess
import sys
import time
from pathlib import Path
from statistics import median

from run_files import awaiting, configuration, forms, locking, reading_blocks, refused, silent

HERE = Path(__file__).resolve().parent
READS = 300_000
# Of the reads above, those that a trace has: callgrind takes a second for 3 MB of it.
TRACED_READS = 30_000
MIB = 1 << 20
# Once the runs of a workload have taken so many seconds, no further one is begun: beside other work threads may take minutes.
LONGEST = 60
OWN = "own"
# The numbers of boards on which processors add; compare_run has one more.
COUNTS = [1, 4, 21]


class Workload:
    """A row of the table, or one for each peer: our command and those of the peers, the file that all read, whether the whole
    reports are the same, and how many events and bytes a run of `trace` or `judge` deals with, of which a rate is stated."""

    def __init__(self, row, case, own, peers, stdin=os.devnull, whole=True, events=0, size=0):
        self.row, self.case, self.commands = row, case, {OWN: own, **peers}
        self.stdin, self.whole, self.events, self.size = stdin, whole, events, size

    def run(self, command, output=subprocess.DEVNULL):
        with open(self.stdin, "rb") as stdin:
            start = time.perf_counter()
            subprocess.run(command, stdin=stdin, stdout=output, check=False)
            return time.perf_counter() - start

    def end(self, command):
        """The exit status, and what is printed."""
        with open(self.stdin, "rb") as stdin:
            ran = subprocess.run(command, stdin=stdin, stdout=subprocess.PIPE, check=False)
        rows = [line for line in ran.stdout.splitlines() if line.startswith(b"mem ")]
        return ran.returncode, ran.stdout if self.whole else rows

    def check(self):
        """What is wrong: a fault of the command, or a peer that ends otherwise."""
        own = self.end(self.commands[OWN])
        # A line that is not met or is refused ends `step` and `run` with 1.
        if own[0] not in ((0,) if self.events else (0, 1)):
            return f"{self.row}: {self.case}: ends with status {own[0]}"
        others = [name for name, command in self.commands.items() if name != OWN and self.end(command) != own]
        return f"{self.row}: {self.case}: {others[0]} ends otherwise, or prints another report" if others else ""

    def times(self, runs):
        """The best and the median of each, in milliseconds."""
        taken = {name: [] for name in self.commands}
        end = time.monotonic() + LONGEST
        for done in range(runs):
            if done > 0 and time.monotonic() > end:
                print(f"all: {self.row}: {self.case}: {done} runs alone in {LONGEST} s", file=sys.stderr)
                break
            for name, command in self.commands.items():
                taken[name].append(1e3 * self.run(command))
        return {name: (min(all_of), median(all_of)) for name, all_of in taken.items()}

    def instructions(self, command):
        """The instructions of all threads, in millions."""
        counted = ["valgrind", "--tool=callgrind", "--callgrind-out-file=/dev/null", *command]
        with open(self.stdin, "rb") as stdin:
            told = subprocess.run(counted, stdin=stdin, stdout=subprocess.DEVNULL, stderr=subprocess.PIPE, check=False).stderr
        return int(re.search(rb"Collected : (\d+)", told)[1]) / 1e6

    def peak(self, command, peak, folder):
        """The most memory, in MiB."""
        self.run([peak, folder / "held", *command])
        return int((folder / "held").read_text()) / MIB

    def rate(self, best, instructions):
        """What is said of a rate, if any: bytes a second at the best, and the instructions of an event."""
        if not self.events:
            return ""
        return f", {self.size / best / 1e3:.0f} MB/s, {1e6 * instructions / self.events:.0f} instructions an event"


def has_systemc():
    """Whether the headers of SystemC are installed."""
    how = {"input": b"#include <systemc>\n", "capture_output": True}
    return subprocess.run(["g++", "-E", "-x", "c++", "-"], check=False, **how).returncode == 0


def boards(count):
    return "1 board" if count == 1 else f"{count} boards"


def written(folder, name, text):
    path = folder / f"{name}.toml"
    path.write_text(text)
    return str(path)


def generated(folder, script, kind):
    path = folder / f"{script}-{kind}"
    path.write_bytes(subprocess.check_output([sys.executable, HERE / f"{script}.py", kind]))
    return str(path)


def programs(folder, vme, bendrika, built):
    """The name of each workload and what makes it, in the order of the table. `built` has the peers by name."""
    yield from of_cycles(folder, vme, built)
    yield from of_step(folder, vme, built)
    yield from of_run(folder, vme, built)
    yield "trace", lambda: trace(folder, bendrika, built)
    yield "judge", lambda: judge(folder, bendrika, built)


def of_cycles(folder, vme, built):
    def make(kind):
        peers = {name: [built[name]] for name in ("plain", "tuned")}
        return Workload("`cycles`", f"`{kind}`", [vme, "cycles"], peers, generated(folder, "generate", kind))

    for kind in ("mixed", "blocks"):
        yield f"cycles-{kind}", lambda kind=kind: make(kind)


def of_step(folder, vme, built):
    def make(row, case, path, peers=()):
        return Workload(row, case, [vme, "step", path], {"plain_step": [built["plain_step"], path], **dict(peers)})

    def awaited(count):
        systemc = {"systemc": [built["systemc"], str(count), str(READS // count)]} if has_systemc() else {}
        path = written(folder, f"await-{count}", awaiting(count, READS // count))
        return make("`step`, an `await` not met", boards(count), path, systemc)

    for kind in ("mixed", "blocks"):
        yield f"step-{kind}", lambda kind=kind: make("`step`", f"`{kind}`", generated(folder, "generate_step", kind))
    for count in (1, 4):
        yield f"step-await-{count}", lambda count=count: awaited(count)
    alone = lambda path: Workload("`step`, a lock that stays taken", boards(1), [vme, "step", path], {})
    yield "step-lock", lambda: alone(written(folder, "lock", locking(READS)))
    path = lambda: written(folder, "refused", refused(21))
    yield "step-refused", lambda: make("`step`, no event", "21 boards, 21,000 refused lines", path())


def of_run(folder, vme, built):
    """The workloads of `vme run`: of threads in contention the rows of memory are compared alone."""
    def make(row, case, name, text, whole=True):
        path = written(folder, name, text)
        return Workload(row, case, [vme, "run", path], {"plain_run": [built["plain_run"], path]}, whole=whole)

    says = {"local": "own board, local port", "own": "own board over the bus", "one": "one board over the bus"}
    for form, said in says.items():
        for count in COUNTS:
            text = lambda form=form, count=count: configuration(count, forms(count)[form][0])
            yield f"run-{form}-{count}", lambda said=said, count=count, text=text: make(
                f"`run`, {said}", boards(count), "adding", text(), whole=False)
    for count in (1, 4):
        yield f"run-await-{count}", lambda count=count: make(
            "`run`, an `await` not met", boards(count), "await", awaiting(count, READS // count), whole=count == 1)
    for count in (1, 4):
        yield f"run-blocks-{count}", lambda count=count: make(
            "`run`, block reads", boards(count), "blocks", reading_blocks(count))
    yield "run-silent", lambda: make("`run`, no event", "21 boards of 1 MiB", "silent", silent(21, MIB))


def traced(folder, bendrika, built):
    """A file, its trace, the number of events and a text for it."""
    path, trace_path = written(folder, "traced", awaiting(1, TRACED_READS)), folder / "trace.vcd"
    with open(trace_path, "wb") as output:
        subprocess.run([bendrika, "trace", path], stdout=output, check=True)
    events = int(subprocess.check_output([built["plain_step"], "--events", path]))
    size = trace_path.stat().st_size
    return path, str(trace_path), events, size, f"{events:,} events, {size / 1e6:.1f} MB"


def trace(folder, bendrika, built):
    path, _, events, size, said = traced(folder, bendrika, built)
    return Workload("`trace`, an `await` not met", said, [bendrika, "trace", path], {}, events=events, size=size)


def judge(folder, bendrika, built):
    """None if the program has no such command."""
    if subprocess.run([bendrika, "judge", "--help"], capture_output=True, check=False).returncode != 0:
        return None
    path, trace_path, events, size, said = traced(folder, bendrika, built)
    return Workload("`judge`, of that trace", said, [bendrika, "judge", path, trace_path], {}, events=events, size=size)
