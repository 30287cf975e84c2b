"""The WebAssembly module of a program of the repository.

`rattle build` makes an LLVM module of a proved program and gives it to the `clang` of its folder of tools. Here this folder
has the kit's tools and a `clang` that first copies its input. That LLVM module is compiled once more, for WebAssembly with
64-bit addresses, linked with the C of web/c, and narrowed to a 32-bit memory. What `rt ci` and `rt run` build stays as it
is, and a program that is not proved has no module."""

from __future__ import annotations

import hashlib
import os
import pathlib
import re
import subprocess
import sys
import tempfile

ROOT = pathlib.Path(__file__).resolve().parent.parent.parent
sys.path.insert(0, str(ROOT / "scripts"))

import kit
import sources
from narrow import narrow

HERE = pathlib.Path(__file__).resolve().parent
C = ROOT / "web" / "c"
PROGRAMS = ("vme", "bendrika")
LEVEL = "-O3"
STACK = 8 << 20
# The options that the kit gives its clang for wasm64.
TARGET = [
    "--target=wasm64-unknown-unknown", "-mcpu=lime1", "--no-default-config", "-no-canonical-prefixes", "-ffunction-sections",
    "-fdata-sections", *(it for option in ("-expand-div-rem-bits=64", "-expand-fp-convert-bits=64", "-trap-unreachable",
    "-disable-machine-licm", "-disable-postra-machine-licm", "-sink-common-insts=false") for it in ("-mllvm", option)),
]
OF_C = ["-std=c11", "-O2", "-ffreestanding", "-nostdlib", "-fno-builtin", "-Wall", "-Wextra", "-Wconversion", "-Wpedantic", "-Werror"]
# Of LLVM's intrinsics and of assembly all that a program may use.
INTRINSICS = re.compile(rb"@llvm\.(?!(?:memmove\.p0\.p0\.i64|memset\.p0\.i64|trap|ct(?:lz|tz|pop)\.i(?:8|16|32|64)"
                        rb"|arithmetic\.fence\.f64)\b(?![.\w]))[\w.]+")
ASSEMBLY = re.compile(rb' asm (?!sideeffect "", "~\{memory\}"\(\))[^\n]*')
# The hint that a processor spins, which has no effect on what is computed.
PAUSE = re.compile(rb"^ *(?:(?:tail|notail|musttail) )?(?:call|declare) void @llvm\.x86\.sse2\.pause\(\)[^\n]*\n", re.M)
OF_X86 = re.compile(rb' (?:sanitize_address|"(?:frame-pointer|probe-stack|stack-probe-size|target-cpu|target-features)"="[^"]*")')
CATCHING_CLANG = """#!/bin/sh
for it in "$@"; do
    case $it in *.bc) cp "$it" "{kept}" ;; esac
done
exec "{clang}" "$@"
"""


class Failed(Exception):
    """A step that did not give what the next one needs."""


def catching_tools(folder: pathlib.Path, kept: pathlib.Path) -> None:
    """Lays out a folder of tools whose `clang` copies its LLVM module."""
    tools = kit.find_kit() / "toolchain"
    (folder / "bin").mkdir(parents=True)
    (folder / "lib").symlink_to(tools / "lib")
    for tool in sorted((tools / "bin").iterdir()):
        if tool.name != "clang":
            (folder / "bin" / tool.name).symlink_to(tool)
    clang = folder / "bin" / "clang"
    clang.write_text(CATCHING_CLANG.format(kept=kept, clang=tools / "bin" / "clang"), encoding="utf-8")
    clang.chmod(0o755)


def llvm_module(name: str) -> bytes:
    """The LLVM module of a program, over what is proved of it. The program for Linux that it gives is the one that was built."""
    rt = kit.load_rt()
    rt.rtlib.guarded()
    program = next(it for it in rt.rtlib.crates_below(str(ROOT)) if it.name == name)
    built = ROOT / "crates" / name / "out" / name
    if not built.is_file() or not all(os.path.isdir(it.rlib) for it in program.below()):
        raise Failed(f"{name} is not proved and built: run rt ci, or scripts/prove {name}")
    with tempfile.TemporaryDirectory() as place, tempfile.TemporaryFile("w+", errors="replace") as program.out:
        folder = pathlib.Path(place)
        catching_tools(folder / "tools", folder / "module.bc")
        kept = ["--incremental", "out/incremental"] if program.has_kept() else []
        words = [*program.words(["--jobs", str(min(4, os.cpu_count() or 1))], keeps=bool(kept)), *kept, "--toolchain", f"{folder}/tools", "--backend", "llvm"]
        status = program.call(rt.rtlib.RATTLE, "build", *words, "-o", f"{folder}/program.o")
        program.out.seek(0)
        if status or not (folder / "module.bc").is_file():
            raise Failed(f"{name} is not proved and built:\n{program.out.read()[-2000:]}")
        if linked(folder / "program.o", folder / "program") != built.read_bytes():
            raise Failed(f"these sources give another program than crates/{name}/out/{name}: run rt ci")
        return (folder / "module.bc").read_bytes()


def linked(compiled_program: pathlib.Path, program: pathlib.Path) -> bytes:
    """The program for Linux of the object that `rattle build` made beside the module."""
    tools = kit.find_kit()
    words = ["--target", "x86_64-unknown-linux-gnu", "--toolchain", tools / "toolchain", "-o", program, compiled_program]
    subprocess.run([tools / "bin/rattle-link", *words, tools / "c/libos_c.a", tools / "c/liblibc_c.a"], check=True, stdout=subprocess.DEVNULL)
    return program.read_bytes()


def clang(*words: object, given: bytes | None = None) -> bytes:
    """The output of the kit's clang."""
    ran = subprocess.run([kit.find_kit() / "toolchain/bin/clang", *words], input=given, capture_output=True, check=False)
    if ran.returncode:
        raise Failed(ran.stderr.decode(errors="replace")[-4000:])
    return ran.stdout


def for_wasm(text: bytes) -> bytes:
    """The text of an LLVM module for x86-64 as one for wasm64. What has no meaning there is refused; a pause is left out."""
    text = PAUSE.sub(b"", text)
    unknown = sorted({*INTRINSICS.findall(text), *ASSEMBLY.findall(text)})
    if unknown:
        raise Failed(f"the LLVM module has what is not known here: {b' '.join(unknown[:5]).decode(errors='replace')}")
    layout = re.search(rb"^target datalayout.*$", clang(*TARGET, "-S", "-emit-llvm", "-x", "c", "-", "-o", "-", given=b"int x;\n"), re.M)
    text = re.sub(rb"^target datalayout.*$", lambda _: layout[0], text, flags=re.M)
    text = re.sub(rb"^target triple.*$", b'target triple = "wasm64-unknown-unknown"', text, flags=re.M)
    return re.sub(rb"^attributes #\d+ = \{.*$", lambda it: OF_X86.sub(b"", it[0]).replace(b"{ ", b"{ nounwind ", 1), text, flags=re.M)


def compiled(llvm: bytes) -> bytes:
    """The WebAssembly module of an LLVM module for x86-64."""
    text = clang("--target=x86_64-unknown-linux-gnu", "--no-default-config", "-S", "-emit-llvm", "-Xclang", "-disable-llvm-passes",
                 "-x", "ir", "-", "-o", "-", given=llvm)
    with tempfile.TemporaryDirectory() as place:
        folder = pathlib.Path(place)
        clang(*TARGET, LEVEL, "-c", "-x", "ir", "-", "-o", folder / "program.o", given=for_wasm(text))
        objects = [folder / "program.o"]
        for source in sorted(C.glob("*.c")):
            objects.append(folder / f"{source.stem}.o")
            clang(*TARGET, *OF_C, "-c", "-x", "c", "-", "-o", objects[-1], given=source.read_bytes())
        words = ["-flavor", "wasm", "-mwasm64", "--stack-first", "-z", f"stack-size={STACK}", "--export=_start", "--gc-sections",
                 "--strip-all", "--error-limit=0", *objects, "-o", folder / "wide.wasm"]
        ran = subprocess.run([kit.find_kit() / "toolchain/bin/ld.lld", *words], capture_output=True, text=True, check=False)
        if ran.returncode:
            raise Failed(ran.stderr[-4000:])
        return narrow((folder / "wide.wasm").read_bytes())


def stamp_of(name: str) -> str:
    """The sum of all that a program's module is made from: its sources, the kit, the C, and what builds it."""
    version = subprocess.run(["rt", "version"], check=True, capture_output=True)
    total = hashlib.sha256(sources.sum_of(ROOT, name).encode() + version.stdout)
    for path in [*sorted(C.glob("*.c")), HERE / "module.py", HERE / "narrow.py"]:
        total.update(path.read_bytes())
    return total.hexdigest()


def made(name: str, anew: bool = False) -> bytes:
    """The WebAssembly module of a program: that of the last run if nothing has changed since."""
    kept, stamp = (ROOT / "crates" / name / "out" / f"{name}.{it}" for it in ("wasm", "wasm-stamp"))
    now = stamp_of(name)
    if not anew and kept.is_file() and stamp.is_file() and stamp.read_text() == f"{now} {hashlib.sha256(kept.read_bytes()).hexdigest()}\n":
        return kept.read_bytes()
    wasm = compiled(llvm_module(name))
    os.makedirs(kept.parent, exist_ok=True)
    kept.write_bytes(wasm)
    stamp.write_text(f"{now} {hashlib.sha256(wasm).hexdigest()}\n")
    return wasm
