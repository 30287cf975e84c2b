"""The benches of hdl/ for arbiters, requesters, bus timers and masters, as checks/hdl runs them."""

import os
import re
import shutil
import sys
from pathlib import Path

from harness import ROOT, expect, fail, output, path_of, run
from simulators import HDL, Verilog, Vhdl, must

sys.path.insert(0, str(ROOT / "scripts"))
from edits import Edit, edited, read_edit  # noqa: E402

KINDS = ["pri", "rrs", "sgl"]
VERDICT = re.compile(r"^(\d+) passed, (\d+) failed$", re.MULTILINE)
COMMANDS, REQUESTS = 200, 3000
# Blocks of eight-byte data, of which bench/generate.py writes few: one leaves the board, and one has no board.
EIGHT_BYTES = ["bw 08 00000010 8 0102030405060708", "br 0c 00000008 8 3", "bf 0c 00000100 8 30 a1b2c3d4e5f60718",
               "r 09 00000104 4", "br 08 00000100 8 32", "br 08 00000ff8 8 2",
               "bw 08 00000ff8 8 000102030405060708090a0b0c0d0e0f", "br 38 00000000 8 2"]
# The bus timer's model with the ports of a user's timer.
TIMERS = {
    "v": """`timescale 1ns / 1ps
module timer (input sysclk, sysreset_n, input [1:0] ds_n, input dtack_n, inout berr_n);
    wire fired;
    vme_timer timer (ds_n, dtack_n, berr_n, fired);
endmodule
""",
    "vhd": """library ieee;
use ieee.std_logic_1164.all;
entity timer is
    port (sysclk, sysreset_n : in std_logic; ds_n : in std_logic_vector(1 downto 0); dtack_n : in std_logic; berr_n : inout std_logic);
end entity;
architecture model of timer is
begin
    watch : entity work.vme_timer port map (ds_n, dtack_n, berr_n, open);
end architecture;
""",
}


def is_right(ended) -> bool:
    """Whether a bench has come to its verdict, and everything passed."""
    found = VERDICT.findall(ended.written)
    return bool(found) and int(found[-1][0]) > 0 and found[-1][1] == "0" and ended.status == 0


def is_found(ended) -> bool:
    """Whether a bench has come to its verdict, and something failed with its time."""
    found = VERDICT.findall(ended.written)
    return bool(found) and found[-1][1] != "0" and ended.status == 1 and re.search(r"^\d+ ns: ", ended.written, re.MULTILINE) is not None


def arbiter_vectors(folder: Path) -> dict[str, Path]:
    paths = {}
    for kind in KINDS:
        paths[kind] = folder / f"{kind}.vectors"
        paths[kind].write_text(output(HDL / "arbiter_vectors", kind, str(COMMANDS)), encoding="ascii")
    return paths


def sample_of(language, name: str) -> str:
    return (HDL / f"sample/{name}.{language.suffix}").read_text(encoding="utf-8")


def run_arbitration(language, folder: Path, vectors: Path, kind: str, is_first: bool = False, **texts: str):
    """Runs the bench of arbitration over an arbiter or requesters of these texts, and over models for what has no text."""
    sources = []
    for name in ("arbiter", "requester"):
        text = texts.get(name, sample_of(language, name))
        number = KINDS.index(kind)
        text = text.replace("`define KIND 0", f"`define KIND {number}").replace("arbiter_kind := PRI", f"arbiter_kind := {kind.upper()}")
        sources.append(folder / f"{name}.{language.suffix}")
        sources[-1].write_text(text, encoding="utf-8")
    sources.append(HDL / f"{language.name.lower()}/vme_arbitration_bench.{language.suffix}")
    how = {"first": True} if is_first else {}
    if language is Verilog:
        own = {"ARBITER": int("arbiter" in texts), "REQUESTERS": int("requester" in texts), "KIND": KINDS.index(kind)}
        return language.run(language.build(folder, "vme_arbitration_bench", *sources, **own), vectors=vectors, **how)
    own = {"own_arbiter": str("arbiter" in texts).lower(), "own_requesters": str("requester" in texts).lower(), "kind": kind}
    return language.run(language.build(folder, "vme_arbitration_bench", *sources), vectors=vectors, **own, **how)


def run_timer(language, folder: Path, text: str):
    """Runs the bench of a bus timer over a text."""
    source = folder / f"timer.{language.suffix}"
    source.write_text(text, encoding="utf-8")
    bench = HDL / f"{language.name.lower()}/vme_timer_bench.{language.suffix}"
    return language.run(language.build(folder, "vme_timer_bench", source, bench))


def right_designs(language, folder: Path) -> str:
    """The samples and the models are right, and damaged vectors are rejected. Returns what was compared."""
    vectors = arbiter_vectors(folder)
    arbiter, requester = sample_of(language, "arbiter"), sample_of(language, "requester")
    for kind in KINDS:
        for texts in ({"arbiter": arbiter}, {"requester": requester}, {}):
            ended = run_arbitration(language, folder, vectors[kind], kind, **texts)
            expect(is_right(ended) and f"{COMMANDS} passed" in ended.written, f"{language.name}: {[*texts]} of the kind {kind}: {ended}")
    for text in (sample_of(language, "timer"), TIMERS[language.suffix]):
        ended = run_timer(language, folder, text)
        expect(is_right(ended), f"{language.name}: the timer: {ended}")
    whole = vectors["pri"].read_text(encoding="ascii")
    damaged = {"empty": "", "cut": whole[:300], "cut in its last line": whole[:-3], "of another format": whole.replace("\n01 ", "\n02 ", 1)}
    for what, text in damaged.items():
        (folder / "damaged").write_text(text, encoding="ascii")
        ended = run_arbitration(language, folder, folder / "damaged", "pri")
        expect(ended.status == 1 and "0 passed, 1 failed" in ended.written, f"{language.name}: arbiter vectors {what}: {ended}")
    return f"{language.name}: arbiters of {len(KINDS)} kinds, requesters and bus timers"


def wrong_design(language, folder: Path, path: Path, edit: Edit) -> None:
    """The bench finds an error of an arbiter, a requester or a timer."""
    name, kind = Path(edit.changes[0].file).stem, edit.fields.get("vectors", "pri")
    text = edited(edit, HDL)[HDL / edit.changes[0].file]
    if name == "timer":
        ended = run_timer(language, folder, text)
    else:
        ended = run_arbitration(language, folder, arbiter_vectors(folder)[kind], kind, True, **{name: text})
    expect(is_found(ended), f"{path.name} is not found: {ended}")
    if os.environ.get("SHOW"):
        print(f"== {path.name}\n{ended.written}")


def compare(language, log: Path, wanted: list[str]) -> None:
    """Notes a fault unless the lines of signals of a bus log are these."""
    found = re.findall(r"^\d+ n=\d+ (am=.*) (?:dtack|berr)", log.read_text(encoding="ascii"), re.MULTILINE)
    differ = next((pair for pair in zip(found, wanted) if pair[0] != pair[1]), None)
    expect(not differ and len(found) == len(wanted) > 0, f"the master in {language.name}: {differ or (len(found), len(wanted))}")


def masters(folder: Path, languages) -> str:
    """The masters make generated requests over a board as that of `vme cycles`, and their bus logs have its lines of signals."""
    vme, kept, numbers = path_of("vme"), folder / "kept", folder / "numbers"
    given = "\n".join(output(sys.executable, ROOT / "bench/generate.py", "mixed").splitlines()[:REQUESTS] + EIGHT_BYTES)
    numbers.write_text(output(HDL / "requests", kept, vme, given=given), encoding="ascii")
    count = len(kept.read_text(encoding="ascii").splitlines())
    wanted = [it for it in run(vme, "cycles", given=kept.read_bytes()).written.splitlines() if it.startswith("am=")]
    (folder / "cut").write_text(numbers.read_text(encoding="ascii")[:400], encoding="ascii")
    (folder / "empty").write_text("", encoding="ascii")
    for language in languages:
        own = folder / language.suffix
        own.mkdir()
        bench = language.build(own, "master_bench", HDL / f"sample/master_bench.{language.suffix}")
        ended = language.run(bench, requests=numbers, log=own / "log")
        expect(ended.status == 0 and f"{count} requests" in ended.written, f"the master in {language.name}: {ended}")
        compare(language, own / "log", wanted)
        for name in ("cut", "empty", "absent"):
            ended = language.run(bench, requests=folder / name, log=own / "log")
            expect(ended.status == 1 and "hdl/requests writes them" in ended.written, f"{name} requests in {language.name}: {ended}")
    return f"{count} requests of the masters with {len(wanted)} lines as by vme cycles"


def three_masters(language, folder: Path) -> str:
    """Three masters on one backplane, whose bus log is that of `vme step` with the same order of tenures."""
    log = folder / "bus.log"
    ended = language.run(language.build(folder, "bus_bench", HDL / f"sample/bus_bench.{language.suffix}"), log=log)
    expect(ended.status == 0, f"three masters in {language.name}: {ended}")
    lines = log.read_text(encoding="ascii").splitlines()
    (folder / "bus.toml").write_text(output(HDL / "schedule", log, HDL / "sample/bus.toml"), encoding="ascii")
    report = run(path_of("vme"), "step", folder / "bus.toml").written.splitlines()
    shown = [it.split() for it in lines if " n=" in it and " write=1 " in it]
    for slot in (1, 2):
        found = [it[9].removeprefix("data=") for it in shown if it[11] == f"slot={slot}"]
        wanted = [it.split()[2] for it in report if re.match(rf"{slot}:\d+ old ", it)]
        expect(found == wanted and len(found) == 4, f"three masters: slot {slot} reads {found}, and `vme step` {wanted}")
    errors = [it for it in lines if " berr slot=3" in it or it.endswith("bus timer")]
    wanted = [it for it in report if re.match(r"3:\d+ berr", it)]
    is_right_end = len(errors) == 4 and wanted == ["3:2 berr 2 0000000000000000", "3:3 berr 0", "3:4 berr 0"]
    expect(is_right_end, f"three masters: {errors} and {wanted}")
    return f"{language.name}: {sum(' n=' in it for it in lines)} data of three masters as by vme step"


def lints(folder: Path) -> str:
    """Designs and models have no warning of Verilator, and they are VHDL-93."""
    said = []
    if shutil.which("verilator"):
        for name in ("slave", "arbiter", "timer"):
            ended = run("verilator", "--lint-only", "-Wall", "-Wno-DECLFILENAME", "--top-module", name, HDL / f"sample/{name}.v")
            expect(ended.status == 0, f"{name}.v: {ended.told}")
        # Models have no clock: they assign as programs do, and some lines are for a bench to look at.
        allowed = ["-Wno-BLKSEQ", "-Wno-UNUSEDSIGNAL", "-Wno-SYNCASYNCNET"]
        for path in Verilog.models:
            ended = run("verilator", "--lint-only", "--timing", "-Wall", *allowed, path)
            expect(ended.status == 0, f"{path.name}: {ended.told}")
        said.append(f"{len(Verilog.models) + 3} files without a warning of Verilator")
    if shutil.which("ghdl"):
        designs = [HDL / f"sample/{name}.vhd" for name in ("slave", "arbiter", "requester", "timer")]
        must("ghdl", "-a", "--std=93", f"--workdir={folder}", *Vhdl.models, *designs)
        said.append(f"{len(Vhdl.models) + len(designs)} files of VHDL-93")
    return ", ".join(said) or "no lint"


def read(path: Path) -> Edit:
    """An edit of hdl/wrong that applies."""
    edit = read_edit(path)
    try:
        edited(edit, HDL)
    except ValueError as fault:
        fail(f"{path.name}: {fault}")
    return edit
