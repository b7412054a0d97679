"""The module of the proved program, as `rattle build` hands it to the kit's clang."""

import importlib.machinery
import importlib.util
import os
import pathlib
import shutil
import subprocess
import sys

from making import HERE, kit, run

TOP = HERE.parent
PROGRAM = "domino"
# what stands beside the sources of a crate and is no part of its proof
LEFT_OUT = ("out", "must-fail", "wrong-bodies")
# the oldest processors, so that the program doesn't first look which one it runs on
CPU = "x86-64"
# stands in for the kit's clang: it keeps the module, and then does what clang does
COPYING_CLANG = """#!/bin/sh
for word; do
  case $word in
    *.bc) cp "$word" "{kept}" || exit 1 ;;
  esac
done
exec "{clang}" "$@"
"""


def native_program():
    """The path of the native program, proved and built where that is needed."""
    words = [TOP / "tools/proved", PROGRAM]
    return run(words, stdout=subprocess.PIPE, text=True).stdout.strip()


def rtlib():
    """The module by which the kit's `rt` calls `rattle`."""
    loader = importlib.machinery.SourceFileLoader("rtlib", str(kit() / "bin/rtlib.py"))
    spec = importlib.util.spec_from_loader("rtlib", loader)
    made = importlib.util.module_from_spec(spec)
    loader.exec_module(made)
    return made


def copy_crates(room):
    """Makes a repository of the program's crate and all that it stands on, and returns the crate there."""
    crate = rtlib().Crate(str(TOP / "crates" / PROGRAM), str(TOP), {})
    names = [it.name for it in (*crate.below(), crate)]
    lines = (TOP / "crates.txt").read_text(encoding="utf-8").splitlines(keepends=True)
    (room / ".git").mkdir(parents=True)
    shutil.copy(TOP / "HANDLES", room)
    (room / "crates.txt").write_text("".join(line for line in lines if line.partition(":")[0] in names), encoding="utf-8")
    for name in names:
        shutil.copytree(TOP / "crates" / name, room / "crates" / name, ignore=shutil.ignore_patterns(*LEFT_OUT))
    return rtlib().Crate(str(room / "crates" / PROGRAM), str(room), {})


def copying_toolchain(folder, kept):
    """Makes a toolchain in the folder that is the kit's, but for a clang that keeps the module."""
    toolchain = kit() / "toolchain"
    (folder / "bin").mkdir(parents=True)
    for found in (*toolchain.iterdir(), *(toolchain / "bin").iterdir()):
        if found != toolchain / "bin" and found.name != "clang":
            (folder / found.relative_to(toolchain)).symlink_to(found)
    stand_in = folder / "bin/clang"
    stand_in.write_text(COPYING_CLANG.format(kept=kept, clang=toolchain / "bin/clang"), encoding="utf-8")
    stand_in.chmod(0o755)


def said_by(words, folder):
    """What a command says on both its outputs. Ends where it fails."""
    ran = subprocess.run([str(word) for word in words], cwd=folder, stdin=subprocess.DEVNULL, stdout=subprocess.PIPE,
                         stderr=subprocess.STDOUT, text=True, errors="replace", check=False)
    if ran.returncode != 0:
        sys.exit(ran.stdout)
    return ran.stdout


def make_module(room, module):
    """Puts the module of the proved program into a file, and returns the verdict. The libraries' proofs are those that this
    machine keeps; the program's own crate is proved once more, since only its linked form is kept."""
    crate = copy_crates(room / "repository")
    said_by(["rt", "ci"], room / "repository")
    copying_toolchain(room / "toolchain", module)
    words = crate.words([f"--jobs={len(os.sched_getaffinity(0))}", f"--cpu={CPU}"])
    words += ["--toolchain", room / "toolchain", "--backend", "llvm", "-o", room / "native.o"]
    said = said_by([kit() / "bin/rattle", "build", *words], crate.folder)
    return next(line for line in reversed(said.splitlines()) if line.startswith("logic="))


def proved_module(room, out):
    """The module of the proved program in the folder `out`, with its verdict and the native program beside it. It is made
    where the native program is newer than it."""
    native, module, verdict = pathlib.Path(native_program()), out / "program.bc", out / "verdict"
    if not verdict.exists() or verdict.stat().st_mtime < native.stat().st_mtime:
        verdict.unlink(missing_ok=True)
        said = make_module(room, module)
        shutil.copy(native, out / "native")
        verdict.write_text(said + "\n", encoding="utf-8")
    return module, verdict.read_text(encoding="utf-8").strip()
