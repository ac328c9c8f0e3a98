#!/usr/bin/env python3
"""Lets the teams of a design tidy and commit with lefence-farm on this machine, and prints the cost of each part.

usage: bench/farm.py [CELLS] [FENCES]    (100000 and 20; from the top; LEFENCE names the program,
                                          crates/lefence/out/lefence by default)

`slices` reads the DEF text once and makes all slices. `teams` is all teams on 1, 2 and 4 processes.
`answers` and `merge` are the two methods to bring their work into one design: repeating all their commands over the
whole design, and merging. Seconds are processor seconds of all processes of a part; they are higher if the machine is
busy. `wall` is the elapsed time.
"""

from __future__ import annotations

import os
import resource
import shutil
import subprocess
import sys
import tempfile
import time
from collections.abc import Callable
from pathlib import Path

TOP = Path(__file__).resolve().parents[1]
PROGRAM = os.environ.get("LEFENCE", str(TOP / "crates/lefence/out/lefence"))
FARM = [sys.executable, "-B", str(TOP / "front/bin/lefence-farm")]
LINES = 'printf "open %s\\ntidy %s 0\\ncommit %s 0\\n" "$LEFENCE_TEAM" "$LEFENCE_TEAM" "$LEFENCE_TEAM"'
WORKER = LINES + ' | "$0" -B "$1" --raw "$LEFENCE_SOCKET"'


def seconds() -> float:
    """Processor seconds of all children that have ended."""
    used = resource.getrusage(resource.RUSAGE_CHILDREN)
    return used.ru_utime + used.ru_stime


def measure(name: str, work: Callable[[], object]) -> None:
    """Prints the cost of a part."""
    start, begin = seconds(), time.perf_counter()
    work()
    print(f"{name:<24} {seconds() - start:8.1f} s  wall {time.perf_counter() - begin:8.1f} s", flush=True)


def farm(folder: Path, work: str, *words: str, command: tuple[str, ...] = ("true",)) -> None:
    """Runs the tool. Its status is 0, or 4 if the teams that should fail did."""
    line = [*FARM, work, "x.def", "x.lef", "--program", PROGRAM, *words, "--", *command]
    done = subprocess.run(line, cwd=folder, capture_output=True, text=True)
    if done.returncode not in (0, 4):
        sys.exit(done.stderr)


def measure_all(folder: Path) -> None:
    tidy = ("sh", "-c", WORKER, sys.executable, str(TOP / "front/bin/lefence-shell"))
    measure("slices, no team works", lambda: farm(folder, "none", "--merge", command=("false",)))
    for processes in (1, 2, 4):
        farm(folder, f"on{processes}", "--merge", command=("false",))
        measure(
            f"teams, {processes} processes",
            lambda: farm(folder, f"on{processes}", "--merge", "--processes", str(processes), command=tidy),
        )
    collect = [*FARM, "on4", "--collect"]
    measure("merge", lambda: subprocess.run(collect, cwd=folder, check=True, capture_output=True))
    shutil.copy(folder / "on4/new.def", folder / "merged.def")
    plan = folder / "on4/farm.json"
    plan.write_text(plan.read_text().replace('"is_merged": true', '"is_merged": false'))
    measure("answers", lambda: subprocess.run(collect, cwd=folder, check=True, capture_output=True))
    made, merged = ((folder / name).read_bytes() for name in ("on4/new.def", "merged.def"))
    print("the same text" if made == merged else "OTHER TEXTS")


def main() -> None:
    cells, fences = (int(word) for word in (sys.argv[1:3] + ["100000", "20"][len(sys.argv[1:3]) :]))
    with tempfile.TemporaryDirectory() as name:
        folder = Path(name)
        for path, words in (("x.lef", ["tall"]), ("x.def", ["packed", str(cells), str(fences), "60", "10"])):
            with open(folder / path, "wb") as out:
                subprocess.run([sys.executable, str(TOP / "bench/generate.py"), *words], stdout=out, check=True)
        measure_all(folder)


if __name__ == "__main__":
    main()
