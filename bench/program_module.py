"""The LLVM module of the proved program, for what is measured on a changed one: nothing of the changed program is proved."""

import os
import pathlib
import subprocess
import sys

ROOT = pathlib.Path(__file__).resolve().parent.parent
sys.path.insert(0, str(ROOT / "scripts"))
from kit import find_kit, load_rt  # noqa: E402

KIT = find_kit()
CLANG = KIT / "toolchain/bin/clang"
PROGRAM = "vme"


def catching_toolchain(folder):
    """A folder like the kit's `toolchain`, whose clang first copies what it is to compile and the words that it is given."""
    toolchain = folder / "toolchain"
    (toolchain / "bin").mkdir(parents=True)
    for path in [*CLANG.parent.parent.iterdir(), *CLANG.parent.iterdir()]:
        if path not in (CLANG.parent, CLANG):
            (toolchain / path.relative_to(CLANG.parent.parent)).symlink_to(path)
    wrapper = toolchain / "bin/clang"
    wrapper.write_text(f'#!/bin/sh\ncp module.bc "{folder}/module.bc"\necho "$@" >"{folder}/words"\nexec "{CLANG}" "$@"\n')
    wrapper.chmod(0o755)
    return toolchain


def catch_module(folder):
    """The LLVM module of the program as text, and the words with which the kit's clang compiles it. The libraries of the program
    stand as `rt ci` or `vme --prove` left them; its own crate is proved once more."""
    rtlib = load_rt().rtlib
    crate = next(it for it in rtlib.crates_below(str(ROOT)) if it.name == PROGRAM)
    lacking = [it.name for it in crate.below() if not os.path.isdir(it.rlib)]
    if lacking:
        sys.exit(f"{lacking[0]} is not proved: run rt ci, or ./{PROGRAM} --prove cycles </dev/null")
    words = crate.words(["--jobs", "2"], keeps=False) + ["--toolchain", catching_toolchain(folder), "--backend", "llvm"]
    how = {"cwd": crate.folder, "stdin": subprocess.DEVNULL, "stdout": subprocess.PIPE, "stderr": subprocess.STDOUT}
    built = subprocess.run([rtlib.RATTLE, "build", *words, "-o", folder / "program.o"], errors="replace", check=False, **how)
    if built.returncode != 0:
        sys.exit(f"{built.stdout}{PROGRAM} does not build")
    return module_text(folder), compiler_words((folder / "words").read_text().split())


def module_text(folder):
    """`module.bc` of a folder as text, before any pass of the compiler."""
    text = folder / "module.ll"
    how = ["--no-default-config", "--target=x86_64-unknown-linux-gnu", "-S", "-emit-llvm"]
    subprocess.run([CLANG, *how, "-Xclang", "-disable-llvm-passes", "-x", "ir", folder / "module.bc", "-o", text], check=True)
    return text.read_text()


def compiler_words(words):
    return [it for it in words if not it.startswith("--sysroot") and it != "-Werror"]


def build_program(folder, text, words, program):
    """Builds a program of a module's text with the words that the kit's clang was given."""
    source, built = folder / f"{program.name}.ll", folder / f"{program.name}.o"
    source.write_text(text)
    places = {"module.bc": str(source), "module.o": str(built)}
    subprocess.run([CLANG, *(places.get(it, it) for it in words)], check=True)
    libraries = [KIT / "c/libos_c.a", KIT / "c/liblibc_c.a", "-lpthread"]
    subprocess.run(["gcc", "-pie", "-Wl,--gc-sections", built, *libraries, "-o", program], check=True)
