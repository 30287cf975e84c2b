"""libvme beside a design, as checks/hdl runs it: the shadow by VPI, DPI-C, VHPIDIRECT, Verilator, and `bendrika serve` over pipes."""

import functools
import os
import re
import shutil
import subprocess
from pathlib import Path

from bus_benches import VERDICT, is_right
from harness import ROOT, expect, fail, path_of, run
from simulators import HDL, Verilog, Vhdl, must

COSIM, INCLUDE = HDL / "cosim", ROOT / "include"
C = ["-std=c11", "-O2", "-Wall", "-Wextra", "-Wpedantic", "-fPIC", f"-I{INCLUDE}"]
# What the benches of the three interfaces print.
CALLS = ["write at 4: 0, 4 bytes", "read at 5: 0, 00020300 on lanes 0110", "no board: -1", "past the end: 32"]
REQUESTS = "20000"


def says_calls(what: str, ended) -> None:
    expect(ended.status == 0 and ended.written.splitlines()[: len(CALLS)] == CALLS, f"{what}: {ended}")


def shadow(folder: Path, vectors: Path) -> str:
    """The shadow agrees with the sample slave, and finds a planted error, in Icarus Verilog by VPI."""
    flags = must("iverilog-vpi", "--cflags").written.split()
    objects = []
    for name in ("vme_sim", "vme_vpi"):
        objects.append(folder / f"{name}.o")
        must("cc", *C, *flags, "-c", COSIM / f"{name}.c", "-o", objects[-1])
    must("cc", "-shared", "-o", folder / "vme_vpi.vpi", *objects, path_of("libvme.a"))
    right = (HDL / "sample/slave.v").read_text(encoding="utf-8")
    wrong = right.replace("{1'b0, !byte_place[0]} : 2'd3 - byte_place", "{1'b0, !byte_place[0]} : byte_place")
    counts = []
    for text in (right, wrong):
        (folder / "slave.v").write_text(text, encoding="utf-8")
        program, sources = folder / "shadow.vvp", [HDL / "sample/shadow_bench.v", COSIM / "vme_shadow.v", HDL / "verilog/vme_slave_bench.v"]
        options = ["-g2005", "-Wall", f"-L{folder}", "-mvme_vpi", "-s", "shadow_bench", "-o", program]
        must("iverilog", *options, folder / "slave.v", *sources, *Verilog.models)
        ended = run("vvp", "-N", f"-M{folder}", "-mvme_vpi", program, f"+vectors={vectors}")
        counts.append([int(it) for it in re.findall(r"^shadow: (\d+) transfers, (\d+) differences$", ended.written, re.MULTILINE)[0]])
    expect(counts[0][0] > 1000 and counts[0][1] == 0 and counts[1][1] > 0, f"the shadow counts {counts}")
    return f"the shadow: {counts[0][0]} transfers by VPI"


def vhpidirect(folder: Path, vectors: Path) -> str:
    """The functions of vme_sim.h by VHPIDIRECT, and the shadow, in GHDL, which looks for the library already when it analyses."""
    must("cc", *C, "-shared", "-o", folder / "libvme_sim.so", COSIM / "vme_sim.c", path_of("libvme.a"))
    how = {"env": {**os.environ, "LD_LIBRARY_PATH": str(folder)}}
    flags = ["--std=08", f"--workdir={folder}"]
    must("ghdl", "-a", *flags, HDL / "vhdl/vme_text.vhd", COSIM / "vme_sim.vhd", HDL / "sample/vhpi_bench.vhd", **how)
    must("ghdl", "-e", *flags, "vhpi_bench", **how)
    says_calls("VHPIDIRECT", run("ghdl", "-r", *flags, "vhpi_bench", **how))
    sources = [COSIM / "vme_shadow.vhd", HDL / "sample/shadow.vhd", HDL / "vhdl/vme_slave_bench.vhd"]
    must("ghdl", "-a", *flags, *Vhdl.models, COSIM / "vme_sim.vhd", *sources, **how)
    must("ghdl", "-e", *flags, "vme_slave_bench", **how)
    ended = run("ghdl", "-r", *flags, "vme_slave_bench", f"-gVECTORS={vectors}", "--ieee-asserts=disable", **how)
    counts = re.findall(r"^shadow: (\d+) transfers, (\d+) differences$", ended.written, re.MULTILINE)
    expect(is_right(ended) and counts and int(counts[-1][0]) >= 1000 and counts[-1][1] == "0", f"the shadow by VHPIDIRECT: {ended}")
    return f"{counts[-1][0]} by VHPIDIRECT"


def verilator(folder: Path) -> str:
    """The functions by DPI-C; and the sample slave beside a board of libvme, with the shadow by DPI-C; both in Verilator."""
    link = ["-CFLAGS", f"-I{INCLUDE}", "-LDFLAGS", path_of("libvme.a")]
    sources = [COSIM / "vme_dpi.sv", HDL / "sample/dpi_bench.sv", COSIM / "vme_sim.c"]
    built = run("verilator", "--binary", "--top-module", "dpi_bench", "-Mdir", folder / "dpi", *link, *sources, "-o", "bench")
    if built.status != 0:
        fail(f"DPI-C: {built.told}")
    says_calls("DPI-C", run(folder / "dpi/bench"))
    sources = [COSIM / "vme_dpi.sv", HDL / "sample/shadowed_slave.sv", COSIM / "vme_shadow.v", HDL / "sample/slave.v",
               COSIM / "verilator_bench.cpp", COSIM / "vme_sim.c"]
    options = ["-DVME_DPI", "--prefix", "Vslave", "--top-module", "shadowed_slave", "-Mdir", folder / "slave"]
    built = run("verilator", "--cc", "--exe", "--build", *options, *link, *sources, "-o", "bench")
    if built.status != 0:
        fail(f"Verilator: {built.told}")
    ended = run(folder / "slave/bench", REQUESTS)
    expect(is_right(ended) and re.search(r"^shadow: \d{5} transfers, 0 differences$", ended.written, re.MULTILINE), f"Verilator: {ended}")
    return f"{VERDICT.findall(ended.written)[0][0]} requests in Verilator, with the shadow by DPI-C"


def pipes(language, folder: Path) -> str:
    """A bench asks `bendrika serve` over two named pipes."""
    bench = language.build(folder, "serve", HDL / f"sample/serve.{language.suffix}")
    for name in ("to", "from"):
        os.mkfifo(folder / name)
    words = ["bash", "-c", 'exec "$0" serve "$1" <to >from', path_of("bendrika"), HDL / "sample/serve.toml"]
    words = [str(it) for it in words]
    with subprocess.Popen(words, cwd=folder) as server:
        program = ["vvp", "-N", bench] if language is Verilog else ["ghdl", *bench]
        ended = run(*program, cwd=folder)
        server.wait(timeout=60)
    expect(is_right(ended) and "1000 passed" in ended.written, f"bendrika serve in {language.name}: {ended}")
    return f"pipes in {language.name}"


@functools.cache
def has_systemc() -> bool:
    """Whether there is a C++ compiler with SystemC."""
    words = ["c++", "-std=c++17", "-x", "c++", "-", "-o", "/dev/null", "-lsystemc"]
    text = "#include <systemc>\nint sc_main(int, char **) { return 0; }\n"
    return shutil.which("c++") is not None and run(*words, given=text).status == 0


def systemc(folder: Path) -> str:
    """The programs of examples/library/systemc print what stands beside them; checks/library runs the tour."""
    source = ROOT / "examples/library/systemc"
    for name in ("bridged", "rules"):
        options = ["-std=c++17", "-O1", "-Wall", "-Wextra", f"-I{INCLUDE}", f"-I{source}"]
        built = run("c++", *options, source / f"{name}.cpp", path_of("libvme.a"), "-lsystemc", "-o", folder / name)
        expect(built.status == 0 and not built.told, f"{name}.cpp: {built.told}")
        ended = run(folder / name, env={**os.environ, "SYSTEMC_DISABLE_COPYRIGHT_MESSAGE": "1"})
        expect(ended.written == (source / f"{name}.out").read_text(encoding="ascii"), f"{name}.cpp: {ended.written}")
    return "SystemC"


def parts(languages, vectors: Path) -> list:
    """What the installed tools allow: functions that take a folder."""
    found = [lambda folder, it=it: pipes(it, folder) for it in languages]
    if Verilog in languages and shutil.which("iverilog-vpi"):
        found.append(lambda folder: shadow(folder, vectors))
    if Vhdl in languages:
        found.append(lambda folder: vhpidirect(folder, vectors))
    if shutil.which("verilator"):
        found.append(verilator)
    if has_systemc():
        found.append(systemc)
    return found
