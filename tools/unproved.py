#!/usr/bin/env python3
"""Builds the program unproved: crates/lefence/out/unproved/lefence, which `./lefence --unproved` runs.

usage: tools/unproved.py

It takes three to six minutes. The program tests each index and each sum where the proved program has a proof, so it is
somewhat slower. Nothing is proved of it: `./lefence` proves and builds the other one.

The kit compiles a program before any proof when it tries one (`rt try`), but then with a sanitizer that makes it a
hundred times slower. So `rt try` runs in a folder of links to the kit in which `bin/clang` keeps the module and fails.
The kit's own clang then compiles this module with optimization and without the sanitizer.
"""

from __future__ import annotations

import os
import shlex
import shutil
import signal
import subprocess
import sys
import tempfile
from collections.abc import Sequence
from pathlib import Path

TOP = Path(__file__).resolve().parent.parent
FOLDER = TOP / "crates/lefence/out/unproved"
# The most seconds of a build.
PATIENCE = 1_800
TARGET = "x86_64-unknown-linux-gnu"
# How the kit compiles a proved program, and with what it links it.
FLAGS = (
    *(f"--target={TARGET}", "-march=x86-64-v2", "-ffunction-sections", "-fdata-sections", "--no-default-config"),
    *("-no-canonical-prefixes", "-Wno-everything", "-fPIE", "-O2"),
)
ARCHIVES = ("c/libos_c.a", "c/liblibc_c.a")
# Parts of the kit that are copied: each finds the kit by its own place.
COPIED = ("rt", "rtlib.py")
# Keeps a large module and fails. The small one, by which the kit tests that the sanitizer starts, is compiled. The kit
# starts clang without an environment, so the paths are here.
STAND_IN = """#!/bin/sh
for word in "$@"; do
  case $word in
  *.bc) if [ -f "$word" ] && [ "$(/usr/bin/wc -c < "$word")" -gt 100000 ]; then
    /bin/cp "$word" {module}
    exit 1
  fi ;;
  esac
done
exec {clang} "$@"
"""


def kit_folder() -> Path:
    """Returns the folder of the kit whose `rt` is on the PATH."""
    found = shutil.which("rt")
    if found is None:
        sys.exit("lefence: to build the program takes rt, the command of the Rattle kit, which is not on the PATH")
    return Path(found).resolve().parent.parent


def make_kit(kit: Path, copy: Path, module: Path) -> None:
    """Makes a folder of links to the kit. Its `bin/clang` keeps the module of a program in a file, and fails."""
    (copy / "bin").mkdir(parents=True)
    (copy / "toolchain/bin").mkdir(parents=True)
    folders = ((kit, copy), (kit / "bin", copy / "bin"), (kit / "toolchain", copy / "toolchain"))
    for source, target in (*folders, (kit / "toolchain/bin", copy / "toolchain/bin")):
        for path in source.iterdir():
            if path.name in COPIED:
                shutil.copy(path, target / path.name)
            elif path.name != "clang" and not (target / path.name).exists():
                (target / path.name).symlink_to(path)
    clang = copy / "toolchain/bin/clang"
    words = {"module": shlex.quote(str(module)), "clang": shlex.quote(str(kit / "toolchain/bin/clang"))}
    clang.write_text(STAND_IN.format(**words))
    clang.chmod(0o755)


def build(room: Path, folder: Path, target: Path) -> None:
    """Builds the program of the repository in `room` unproved, and puts it at `target`. Its files go to `folder`."""
    kit = kit_folder()
    with tempfile.TemporaryDirectory(dir=folder) as name:
        work = Path(name)
        module, compiled, linked = work / "module.bc", work / "program.o", work / "program"
        make_kit(kit, work / "kit", module)
        environment = {**os.environ, "TMPDIR": name}
        output = run([work / "kit/bin/rt", "try", "--"], cwd=room / "crates/lefence", environment=environment)
        refuse_missing(module, output)
        sysroot = f"--sysroot={kit / 'toolchain'}"
        output = run([kit / "toolchain/bin/clang", *FLAGS, sysroot, "-c", "-x", "ir", module, "-o", compiled])
        refuse_missing(compiled, output)
        archives = [kit / archive for archive in ARCHIVES]
        link, toolchain = kit / "bin/rattle-link", kit / "toolchain"
        output = run([link, "--target", TARGET, "--toolchain", toolchain, "-o", linked, compiled, *archives])
        refuse_missing(linked, output)
        target.parent.mkdir(parents=True, exist_ok=True)
        linked.rename(target)


def refuse_missing(file: Path, output: str) -> None:
    """Ends this tool with the output of the command that has not made the file."""
    if not file.exists():
        sys.exit(f"lefence: the program cannot be built:\n{output}")


def run(command: Sequence[str | Path], cwd: Path | None = None, environment: dict[str, str] | None = None) -> str:
    """Runs a command to its end, or until this tool is ended; returns what it prints."""
    nothing, pipe = subprocess.DEVNULL, subprocess.PIPE
    with subprocess.Popen(
        command, cwd=cwd, env=environment, stdin=nothing, stdout=pipe, stderr=subprocess.STDOUT
    ) as process:
        try:
            return process.communicate(timeout=PATIENCE)[0].decode(errors="replace")
        except BaseException:
            process.terminate()
            raise


def main() -> int:
    if len(sys.argv) > 1:
        print(__doc__, file=sys.stderr)
        return 2
    print("lefence: building the program without proofs, which takes three to six minutes", file=sys.stderr)
    # (so that files are removed, and the command at work is ended)
    signal.signal(signal.SIGTERM, lambda number, _: sys.exit(128 + number))
    FOLDER.mkdir(parents=True, exist_ok=True)
    build(TOP, FOLDER, FOLDER / "lefence")
    return 0


if __name__ == "__main__":
    try:
        sys.exit(main())
    except KeyboardInterrupt:
        sys.exit(130)
