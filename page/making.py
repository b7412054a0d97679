"""How the program's module becomes one of WebAssembly, by the kit's clang and lld."""

import os
import pathlib
import shutil
import subprocess
import sys

from retarget import NotKnown, retarget

HERE = pathlib.Path(__file__).resolve().parent
TRIPLE = "wasm64-unknown-unknown"
C_FILES = ("wasm/host", "wasm/heap", "wasm/wide")
STACK = 8 << 20
MEMORY_PAGE = 65536
# 4 GiB: past it the program is told that memory is out, and ends
MOST_MEMORY = 65536 * MEMORY_PAGE
# as the kit passes for x86-64, where they go round known faults of LLVM that are of no processor
CAREFUL = (
    "-trap-unreachable", "-no-trap-after-noreturn", "-disable-machine-licm", "-disable-postra-machine-licm",
    "-sink-common-insts=false",
)


def kit():
    """The folder of the kit whose `rt` is found first."""
    rt = shutil.which("rt")
    if rt is None:
        sys.exit("no kit of Rattle is installed: there is no `rt`")
    return pathlib.Path(os.path.realpath(rt)).parent.parent


def run(words, **how):
    """Runs a command, and ends where it fails."""
    ran = subprocess.run([str(word) for word in words], stdin=subprocess.DEVNULL, check=False, **how)
    if ran.returncode != 0:
        sys.exit(f"{pathlib.Path(words[0]).name} ended with {ran.returncode}")
    return ran


def clang(*words, **how):
    return run([kit() / "toolchain/bin/clang", "--no-default-config", *words], **how)


def wasm_layout():
    """How the kit's clang lays out data for WebAssembly."""
    words = ("-x", "c", "-S", "-emit-llvm", "-o", "-", os.devnull)
    said = clang(f"--target={TRIPLE}", *words, stdout=subprocess.PIPE, text=True).stdout
    return next(line.split('"')[1] for line in said.splitlines() if line.startswith("target datalayout"))


def compile_program(module, to, room):
    """Compiles the program's module, as `rattle` hands it to clang, to an object file of WebAssembly."""
    text, changed = room / "module.ll", room / "retargeted.ll"
    clang("-x", "ir", module, "-S", "-emit-llvm", "-O0", "-Xclang", "-disable-llvm-passes", "-o", text)
    layout = wasm_layout()
    with open(text, encoding="utf-8") as lines, open(changed, "w", encoding="utf-8") as new:
        try:
            new.writelines(retarget(lines, layout, TRIPLE))
        except NotKnown as error:
            sys.exit(f"this kit makes another module than page/retarget.py knows: {error}")
    careful = [word for flag in CAREFUL for word in ("-mllvm", flag)]
    clang(f"--target={TRIPLE}", "-O3", "-Werror", *careful, "-x", "ir", "-c", changed, "-o", to)


def compile_c(name, to):
    """Compiles a C file, by its name in this folder."""
    warned = ("-Wall", "-Wextra", "-Wno-unused-parameter", "-Werror")
    clang(f"--target={TRIPLE}", "-std=c17", "-O3", "-ffreestanding", *warned, "-c", HERE / f"{name}.c", "-o", to)


def link(objects, to, entry="run", stack=STACK, most_memory=MOST_MEMORY):
    """Links a module. Its stack lies first in memory, so that an overflow ends it before anything is overwritten."""
    words = ["-flavor", "wasm", "-m", "wasm64", "--fatal-warnings", "--gc-sections", "--strip-all", "--stack-first"]
    words += ["-z", f"stack-size={stack}", f"--max-memory={most_memory}"]
    words += ["--no-entry", f"--export={entry}", "--export=__stack_pointer", "-o", to]
    run([kit() / "toolchain/bin/ld.lld", *words, *objects])
