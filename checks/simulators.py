"""Icarus Verilog and GHDL as the checks of hdl/ use them: a bench is built in a folder of its own, and run."""

import re
import shutil
from pathlib import Path

from harness import ROOT, Ended, fail, run

HDL = ROOT / "hdl"


def must(*words, **how) -> Ended:
    """A run that must end with status 0 and say nothing on standard error."""
    ended = run(*words, **how)
    if ended.status != 0 or ended.told:
        fail(f"{' '.join(map(str, words))} ends with {ended.status}: {ended.told}{ended.written[-400:]}")
    return ended


class Verilog:
    """Icarus Verilog, without a warning."""

    name, tool, suffix = "Verilog", "iverilog", "v"
    models = sorted(it for it in (HDL / "verilog").glob("*.v") if not it.stem.endswith("_bench"))

    @staticmethod
    def with_parameters(text: str, parameters: dict[str, int]) -> str:
        """A slave of hdl/sample with these parameters."""
        shown = ", ".join(f".{name}({value})" for name, value in parameters.items())
        return re.sub(r"(?m)^(`define CLASS) .*$", rf"\1 {shown}", text)

    @staticmethod
    def build(folder: Path, top: str, *sources: Path, **parameters: int) -> Path:
        """A bench over the models of hdl/verilog, with these parameters."""
        program = folder / f"{top}.vvp"
        set_ = [f"-P{top}.{name}={value}" for name, value in parameters.items()]
        must("iverilog", "-g2005", "-Wall", *set_, "-s", top, "-o", program, *sources, *Verilog.models)
        return program

    @staticmethod
    def run(program: Path, **values: object) -> Ended:
        """Runs a bench with these plusargs; True is one without a value."""
        plus = [f"+{name}" if value is True else f"+{name}={value}" for name, value in values.items()]
        return run("vvp", "-N", program, *plus)


class Vhdl:
    """GHDL, without a warning. The benches are VHDL-2008; the check also analyses the models as VHDL-93."""

    name, tool, suffix = "VHDL", "ghdl", "vhd"
    models = run(HDL / "vhdl/files").written.split()

    @staticmethod
    def with_parameters(text: str, parameters: dict[str, int]) -> str:
        """A slave of hdl/sample with these generics."""
        for name, value in parameters.items():
            for kind in ("positive", "natural", "boolean"):
                start = f"{name} : {kind} := "
                if start in text:
                    before, _, after = text.partition(start)
                    shown = str(bool(value)).lower() if kind == "boolean" else value
                    text = f"{before}{start}{shown}{after[min(after.find(it) for it in ';' + chr(10) if it in after):]}"
        return text

    @staticmethod
    def build(folder: Path, top: str, *sources: Path) -> list:
        """A bench over the models of hdl/vhdl; returns the words that run it."""
        flags = ["--std=08", f"--workdir={folder}"]
        must("ghdl", "-a", *flags, *Vhdl.models, *sources)
        must("ghdl", "-e", *flags, top)
        return ["-r", *flags, top]

    @staticmethod
    def run(program: list, **values: object) -> Ended:
        """Runs a bench with these generics."""
        generics = [f"-g{'ENDS_AT_FIRST=true' if value is True else f'{name.upper()}={value}'}" for name, value in values.items()]
        return run("ghdl", *program, *generics, "--ieee-asserts=disable", "--stop-time=1sec")


LANGUAGES = [it for it in (Verilog, Vhdl) if shutil.which(it.tool)]
