#!/usr/bin/env python3
"""Compares the program with a reference program that does the same work, stage by stage.

usage: bench/compare.py REFERENCE [--program PATH] [--runs N] [--counts] [--design DEF LEF] [COUNT]
       (the program of crates/lefence, which is built first: rt run there; 3; the design below; 50000)

The reference is the path of a program: `REFERENCE DEF LEF [--tidy] [--commit] [--export FILE]` does that for all teams
of the design. Our program does it with a `replay`. The design is `generate.py packed`, COUNT cells in 10 fences that
take 60 percent of the sites. Each cell is half a site off its place. With --design it is that of a DEF text over a LEF
text.

The cost of a stage is the difference between a run with it and one without. It is the least processor seconds of N
runs, in which the two programs take turns. With `--counts` it is instructions, which valgrind counts and which are the
same in each run. The status is 1 if the two exported texts differ.
"""

from __future__ import annotations

import argparse
import os
import re
import subprocess
import sys
import tempfile
from dataclasses import dataclass
from pathlib import Path

from memory import TOP, teams_of

STAGES = "start", "tidy", "commit", "export"
COUNTED = re.compile(rb"Collected : (\d+)")
# For a run up to each stage: seconds or instructions, and the peak memory in bytes.
Figures = dict[str, tuple[float, int]]


@dataclass(frozen=True)
class Work:
    """The two programs over one design."""

    program: str
    reference: str
    design: Path
    lef: Path
    folder: Path
    is_counted: bool

    def exported(self, name: str) -> Path:
        return self.folder / f"{name}.def"

    def run(self, words: list[str], lines: str) -> tuple[float, int]:
        """The cost of a run, and its peak memory."""
        front = ["valgrind", "--tool=callgrind", "--callgrind-out-file=/dev/null"] if self.is_counted else []
        with tempfile.TemporaryFile() as source, tempfile.TemporaryFile() as errors:
            source.write(lines.encode())
            source.seek(0)
            child = subprocess.Popen([*front, *words], stdin=source, stdout=subprocess.DEVNULL, stderr=errors)
            _, status, usage = os.wait4(child.pid, 0)
            errors.seek(0)
            said = errors.read()
        # (4 if the design is then not fully legal)
        if (ended := os.waitstatus_to_exitcode(status)) not in (0, 4):
            sys.exit(f"{words[0]}: status {ended}: {said.decode()[-500:]}")
        if self.is_counted:
            return float(COUNTED.findall(said)[-1]), usage.ru_maxrss * 1024
        return usage.ru_utime + usage.ru_stime, usage.ru_maxrss * 1024

    def ours(self, stage: int) -> tuple[float, int]:
        teams, lines = teams_of(self.design), ""
        if stage >= 1:
            lines += "".join(f"open {team}\ntidy {team} 0\n" for team in teams)
        if stage >= 2:
            lines += "".join(f"commit {team} 0\n" for team in teams)
        out = ["--export", str(self.exported("ours"))] if stage >= 3 else []
        return self.run([self.program, "replay", str(self.design), str(self.lef), *out], lines)

    def theirs(self, stage: int) -> tuple[float, int]:
        options = ["--tidy", "--commit", "--export", str(self.exported("theirs"))][: (0, 1, 2, 4)[stage]]
        return self.run([self.reference, str(self.design), str(self.lef), *options], "")


def least(a: tuple[float, int], b: tuple[float, int]) -> tuple[float, int]:
    return min(a[0], b[0]), min(a[1], b[1])


def measure(work: Work, runs: int) -> tuple[Figures, Figures]:
    ours: Figures = {}
    theirs: Figures = {}
    for _ in range(1 if work.is_counted else runs):
        for at, stage in enumerate(STAGES):
            for found, run in ((ours, work.ours), (theirs, work.theirs)):
                taken = run(at)
                found[stage] = least(found.get(stage, taken), taken)
    return ours, theirs


def show(work: Work, ours: Figures, theirs: Figures) -> None:
    size = work.design.stat().st_size
    unit, scale = ("million instructions", 1e6) if work.is_counted else ("seconds", 1.0)
    print(f"a DEF text of {size / 1e6:.1f} MB, {len(teams_of(work.design))} teams; {unit}")
    print(f"{'':>8} {'ours':>10} {'reference':>10} {'ratio':>6} | peaks by the text")
    before = 0.0, 0.0
    for stage in STAGES:
        mine, other = ours[stage][0] / scale, theirs[stage][0] / scale
        took, took_other = mine - before[0], other - before[1]
        peaks = "" if work.is_counted else f" {ours[stage][1] / size:.2f} {theirs[stage][1] / size:.2f}"
        print(f"{stage:>8} {took:10.2f} {took_other:10.2f} {took / took_other if took_other > 0 else 0:6.2f} |{peaks}")
        before = mine, other
    print(f"{'all':>8} {before[0]:10.2f} {before[1]:10.2f} {before[0] / before[1]:6.2f} |")


def main() -> int:
    words = argparse.ArgumentParser()
    words.add_argument("reference")
    words.add_argument("--program", default=os.environ.get("LEFENCE", str(TOP / "crates/lefence/out/lefence")))
    words.add_argument("--runs", type=int, default=3)
    words.add_argument("--counts", action="store_true")
    words.add_argument("--design", type=Path, nargs=2)
    words.add_argument("count", type=int, nargs="?", default=50_000)
    given = words.parse_args()
    with tempfile.TemporaryDirectory(prefix="bench") as name:
        folder = Path(name)
        design, lef = given.design or (folder / "x.def", folder / "x.lef")
        if not given.design:
            generate = [sys.executable, str(TOP / "bench/generate.py")]
            lef.write_bytes(subprocess.run([*generate, "tall"], stdout=subprocess.PIPE, check=True).stdout)
            with design.open("wb") as out:
                subprocess.run([*generate, "packed", str(given.count), "10", "60", "100"], stdout=out, check=True)
        work = Work(given.program, given.reference, design, lef, folder, given.counts)
        show(work, *measure(work, given.runs))
        if work.exported("ours").read_bytes() != work.exported("theirs").read_bytes():
            print("the exported texts differ")
            return 1
    return 0


if __name__ == "__main__":
    sys.exit(main())
