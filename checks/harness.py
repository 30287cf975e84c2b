"""What the checks share: the programs, runs of them, the faults that were found, and the end of a check.

A check is a program of its own. It tells what it found by `expect`, and ends by `finish`; what keeps it from going on ends it by
`fail`. Its last line, on standard output, says what was compared."""

import os
import shutil
import subprocess
import sys
import tempfile
from pathlib import Path
from typing import Any, NamedTuple, NoReturn

ROOT = Path(__file__).resolve().parent.parent
NAME = Path(sys.argv[0]).stem
# The seconds that a run has. On a busy machine a compiler takes a minute.
TIME = 300
# The most faults that are printed.
MOST = 20
# The faults that were found so far.
faults: list[str] = []


def path_of(name: str) -> Path:
    """The program or the archive of this name, as scripts/program finds it. Without one the check ends."""
    found = subprocess.run([ROOT / "scripts/program", name], stdout=subprocess.PIPE, text=True, check=False)
    if found.returncode:
        sys.exit(found.returncode)
    return Path(found.stdout.removesuffix("\n"))


def in_node(program: object) -> bool:
    """Whether a program is a script of bin/ for node. It is given no word that is not UTF-8, has no threads, its calls cannot be
    made to fail, and its memory is node's."""
    return Path(str(program)).suffix == ".mjs"


def expect(holds: object, what: object) -> None:
    """Notes a fault unless this holds."""
    if not holds:
        faults.append(str(what))


def fail(what: object) -> NoReturn:
    """Ends the check with a fault, after those that were noted before."""
    faults.append(str(what))
    finish("")


def finish(summary: str) -> NoReturn:
    """Ends the check: with the faults that were found, or else with what was compared."""
    if faults:
        more = [f"{len(faults) - MOST} more"] if len(faults) > MOST else []
        sys.exit("\n".join(f"{NAME}: {it}" for it in faults[:MOST] + more))
    print(f"{NAME}: {summary}")
    sys.exit(0)


class Ended(NamedTuple):
    """How a run ended: its status, None if it took more than its time, what it wrote, and what standard error had."""

    status: int | None
    written: str
    told: str


class EndedBytes(NamedTuple):
    """How a run ended whose output need not be text."""

    status: int | None
    written: bytes
    told: bytes


def run_bytes(program: object, *words: object, given: bytes = b"", **how: Any) -> EndedBytes:
    """Runs a program with this input. `how` goes to subprocess.run."""
    how = {"capture_output": True, "timeout": TIME} | how
    try:
        ran = subprocess.run([program, *words], input=given, check=False, **how)
    except subprocess.TimeoutExpired:
        return EndedBytes(None, b"", b"")
    return EndedBytes(ran.returncode, ran.stdout, ran.stderr)


def run(program: object, *words: object, given: bytes | str = b"", **how: Any) -> Ended:
    """Runs a program whose output is text."""
    ended = run_bytes(program, *words, given=given.encode() if isinstance(given, str) else given, **how)
    return Ended(ended.status, (ended.written or b"").decode(), (ended.told or b"").decode())


def output(program: object, *words: object, given: bytes | str = b"", **how: Any) -> str:
    """What a program writes that must end with status 0 and tell nothing."""
    ended = run(program, *words, given=given, **how)
    if ended.status != 0 or ended.told:
        fail(f"{' '.join(map(str, (program, *words)))} ends with status {ended.status}\n{ended.told}")
    return ended.written


def ends_alone(status: int, program: object, *words: object, given: bytes = b"", full: bool = False) -> None:
    """Notes a fault unless a run ends with this status, a message on standard error and nothing on standard output, which is a
    device without room if `full`."""
    with open("/dev/full", "wb") as device:
        how = {"stdout": device if full else subprocess.PIPE, "stderr": subprocess.PIPE, "timeout": TIME}
        ran = subprocess.run([program, *words], input=given, check=False, **how)
    expect(ran.returncode == status and not ran.stdout and ran.stderr, f"{words} ends with {ran.returncode}: {ran.stdout}, {ran.stderr}")


def build_c(source: Path, program: Path, *options: str) -> None:
    """Builds a C file of checks/."""
    if subprocess.run(["cc", "-O2", *options, "-o", program, source], check=False).returncode:
        fail(f"{source.name} is not built")


def peak_of(program: object, *words: object) -> int:
    """The most memory, in bytes, that a run holds which ends with status 0; 0 where there is no C compiler, in node, and of a program
    that is built without proofs, whose allocator keeps what is freed."""
    if not shutil.which("cc") or in_node(program) or "UNPROVED" in os.environ:
        return 0
    with tempfile.TemporaryDirectory() as name:
        folder = Path(name)
        build_c(ROOT / "checks/peak.c", folder / "peak")
        ran = run_bytes(folder / "peak", folder / "held", program, *words)
        expect(ran.status == 0, f"{words} ends with {ran.status}")
        return int((folder / "held").read_text(encoding="ascii"))
