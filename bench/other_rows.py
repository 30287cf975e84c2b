"""The rows of bench/all that other commands of this folder measure, from what they print."""

import os
import re
import shutil
import subprocess
from pathlib import Path

HERE = Path(__file__).resolve().parent
OUTCOMES = ["three with six lines"]
OUTCOME = re.compile(r"(.*): \d+ outcomes?, (\d+) states?, ([\d.]+) ms, .* a second, ([\d.]+) MiB, .*")
WASM = re.compile(r"([^:]*): (\d+) ms as WebAssembly, (\d+) for Linux, ([\d.]+) of it \((.*)\)")
MULTIPLE = re.compile(r"as a multiple of (the one |those )?")
CALL = re.compile(r"( *)(.*\S) +([\d.]+)")


def printed(words, **environment):
    """The lines that a command prints; none if it fails."""
    ran = subprocess.run(words, env={**os.environ, **environment}, stdout=subprocess.PIPE, text=True, check=False)
    return ran.stdout.splitlines() if ran.returncode == 0 else []


def outcomes(bendrika):
    """Rows of `bendrika outcomes`: the least processor time, and the states a second in it."""
    for line in printed([HERE / "outcomes", "3", *OUTCOMES], BENDRIKA=bendrika):
        name, states, took, memory = OUTCOME.fullmatch(line).groups()
        said = f"{name}: {int(states):,} states, {int(states) / max(float(took), 0.1):.0f} thousand a second"
        yield f"`outcomes`: {said}", "", [f"{took} of a processor", "", "", "", memory, ""]


def library():
    """Rows of calls of the libraries for C that have a peer, one for each kind of peer."""
    calls, kinds = [], {}
    for line in printed([HERE / "library"]):
        if line.startswith("call "):
            continue
        inset, name, figure = CALL.fullmatch(line).groups()
        if inset:
            kinds.setdefault(name, []).append((*calls[-1], figure))
        else:
            calls.append((f"`{name}`", figure))
    for kind, found in kinds.items():
        names, taken, ratios = map(", ".join, zip(*found))
        cells = [f"{taken} ns", ratios, "", ""]
        if names.startswith("`instructions"):
            cells = ["", "", f"{taken} a call", ratios]
        yield f"`library`: {names}", MULTIPLE.sub("", kind), [*cells, "", ""]


def wasm(runs):
    """One row of the programs of dist/ as WebAssembly in node, in processor time, beside those for Linux."""
    lines = printed(["node", HERE / "wasm.mjs", str(runs)]) if shutil.which("node") else []
    if lines:
        names, taken, _, ratios, _ = zip(*(WASM.fullmatch(line).groups() for line in lines))
        cells = [f"{', '.join(taken)} of a processor", ", ".join(ratios), "", "", "", ""]
        yield f"`wasm`: {', '.join(names)}", "for Linux", cells
